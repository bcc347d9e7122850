"""The C interface, held to one reading of it in four places: crates/exports/src (what is proved), crates/exports_c/src (what is handed to C),
host/c/vrf.h (what C is told) and host/rust/src/raw.rs (what host/rust is told). The same structs with the same fields in the same order,
the same functions with the same parameters in the same order, by name and by type; a slice is a pointer and its length. A constant of
vrf.h that the code or host/rust has too (CONSTANTS) has one value.

A function of crates/exports_c is the one of crates/exports of its name: it has its head and its contract, whose words mean the same (the
`ghost use` lines are the same), and its body hands its parameters on in their order and does nothing else.

All are brought to one form: a struct is a list of (field, type), a function a list of (parameter, type) and what it gives. Types
are written as in C, without `const`'s place: `const uint8_t *`, `uint32_t *`, `size_t`.
"""
import re

from . import code

HEADER = "host/c/vrf.h"
RAW = "host/rust/src/raw.rs"
EXPORTS = "crates/exports/src/*.rt"
LIBRARY = "crates/exports/src/lib.rt"
CALLED = "crates/exports_c/src/lib.rt"
NUMBERS = {
    "u8": "uint8_t", "u16": "uint16_t", "u32": "uint32_t", "u64": "uint64_t", "i8": "int8_t", "i16": "int16_t", "i32": "int32_t",
    "i64": "int64_t", "usize": "size_t", "isize": "ptrdiff_t", "f32": "float", "f64": "double", "bool": "bool",
}
# what would make a struct's layout or a function's name another than it looks
HEADER_WORDS = [r"#\s*pragma", r"__attribute__", r"_Alignas", r"#\s*if\s", r"#\s*define\s+vrf_", r"__asm"]
RUST_WORDS = [r"\blink_name\b", r"\bexport_name\b", r"\bcfg\b", r"repr\((?!C\)\])"]
# constants that the header has too: the file, and names where the header's is not VRF_ and the same word
CONSTANTS = {
    "crates/schema/src/twelve.rt": {"LEVELS": "VRF_SCHEMA_LEVELS", "ROW_NUMBERS": "VRF_SCHEMA_ROWS", "NAME_BYTES": "VRF_SCHEMA_NAMES"},
    "crates/schema/src/lib.rt": {"ABSENT": "VRF_NONE"},
    "crates/bits/src/sizes.rt": {},
    "crates/array/src/lib.rt": {},
    "crates/steps/src/leaves.rt": {},
    "crates/outputs/src/records.rt": {},
    "crates/geometry/src/lib.rt": {"NOT_A_BYTE": "VRF_NONE"},
    RAW: {},
    "host/rust/src/lent.rs": {},
}


def plain_type(text):
    """A type of Rattle or Rust as C writes it."""
    text = " ".join(text.split())
    m = re.match(r"\*(const|mut) (.*)", text)
    if m:
        return ("const " if m[1] == "const" else "") + plain_type(m[2]) + " *"
    return NUMBERS.get(text, text)


def listed(text):
    """(name, type) of each `name: type` of a list."""
    found = []
    for part in re.split(r",(?![^\[]*\])", text):
        if ":" in part:
            name, _, kind = part.partition(":")
            found.append((name.replace("pub ", "").replace("pub(crate) ", "").strip(), kind.strip()))
    return found


def slices_apart(parameters):
    """Slices as a pointer and a length."""
    for name, kind in parameters:
        m = re.match(r"&(?:'\w+ )?(mut )?\[([^;\]]+)\]$", kind)
        if m:
            yield name, plain_type(f"*{'mut' if m[1] else 'const'} {m[2].strip()}")
            yield f"{name}_len", "size_t"
        else:
            yield name, plain_type(kind)


def rust_structs(text):
    found = {}
    for m in re.finditer(r"#\[repr\(C\)\]\s*(?:#\[[^\]]*\]\s*)*pub(?:\(crate\))? struct (\w+) \{(.*?)\}", text, re.S):
        found[m[1]] = [(name, plain_type(kind)) for name, kind in listed(m[2])]
    return found


def rust_functions(text, pattern):
    found = {}
    for m in re.finditer(pattern + r"fn (\w+)(?:<[^>]*>)?\s*\(([^)]*)\)(?:\s*->\s*([^\n;{]+))?", text):
        found[m[1]] = (list(slices_apart(listed(m[2]))), plain_type(m[3]) if m[3] else "void")
    return found


def c_fields(text):
    """(name, type) of each member or parameter, `double x, y` taken apart."""
    for part in text.split(";"):
        part = " ".join(part.split())
        if part:
            kind, names = re.match(r"((?:const )?\w+(?: \*)?) ?(.*)", re.sub(r" *\* *", " * ", part)).groups()
            for name in names.split(","):
                yield name.strip(), kind


def header_of(text):
    text = re.sub(r"/\*.*?\*/|//[^\n]*", " ", text, flags=re.S)
    structs = {}
    for m in re.finditer(r"typedef struct (\w+) \{(.*?)\} (\w+);", text, re.S):
        structs[m[3]] = list(c_fields(m[2]))
    functions = {}
    for m in re.finditer(r"^(\w+) (vrf_\w+)\(([^)]*)\);", text, re.M):
        inside = "" if m[3].strip() == "void" else m[3]
        functions[m[2]] = (list(c_fields(inside.replace(",", ";"))), m[1])
    constants = {name: int(value) for name, value in re.findall(r"(VRF_\w+)\s*=\s*(\d+)", text)}
    constants.update({name: int(value) for name, value in re.findall(r"#define (VRF_\w+) (?:UINT32_C\()?(\d+)\)?", text)})
    return structs, functions, constants


def interface_is_one(repository, report):
    texts = [code.without_comments(repository.text(path)) for path in repository.find(EXPORTS)]
    ours = "\n".join(texts)
    if not report.hold(repository.text(CALLED) is not None, f"{CALLED} isn't there"):
        return
    called = code.without_comments(repository.text(CALLED))
    marked = re.findall(r'#\[unsafe\(no_mangle\)\]\s*pub extern "C" fn (\w+)', called)
    proved = rust_structs(ours), rust_functions(called, r'pub extern "C" ')
    report.hold(set(marked) == set(proved[1]), f"crates/exports_c: an `extern \"C\"` function without #[unsafe(no_mangle)]: {', '.join(sorted(set(proved[1]) - set(marked)))}")
    for path in repository.find(EXPORTS):
        marks = re.search(r'no_mangle|extern\s+"C"', code.without_comments(repository.text(path)))
        report.hold(not marks, f"{path}: C is handed functions by crates/exports_c alone")
    handed_on(repository, report)
    header = repository.text(HEADER)
    raw = repository.text(RAW)
    if not report.hold(header is not None, f"{HEADER} isn't there") or not report.hold(raw is not None, f"{RAW} isn't there"):
        return
    structs, functions, constants = header_of(header)
    raw = code.without_comments(raw)
    for place, text, words in [(HEADER, header, HEADER_WORDS), (RAW, raw, RUST_WORDS), ("crates/exports", ours, RUST_WORDS), ("crates/exports_c", called, RUST_WORDS)]:
        found = [m[0].strip() for m in (re.search(word, text) for word in words) if m]
        report.hold(not found, f"{place} has what would alter a layout or a name: {', '.join(found)}")
    for path in repository.find("host/rust/src/**/*.rs"):
        foreign = path != RAW and re.search(r'extern\s+"C"\s*\{', code.without_comments(repository.text(path)))
        report.hold(not foreign, f"{path} declares functions of C: they stand in {RAW} alone")
    block = re.search(r'extern "C" \{(.*?)^\}', raw, re.S | re.M)
    told = {HEADER: (structs, functions), RAW: (rust_structs(raw), rust_functions(block[1] if block else "", r"pub(?:\(crate\))? "))}
    for place, (others, calls) in told.items():
        for what, here, there in [("struct", proved[0], others), ("function", proved[1], calls)]:
            for name in sorted(set(here) | set(there)):
                if report.hold(name in there, f"{place} has no {what} {name}") and report.hold(name in here, f"crates/exports has no {what} {name}, which {place} has"):
                    report.hold(here[name] == there[name], f"{what} {name}: {place} and crates/exports differ: {difference(here[name], there[name])}")
    fields = [kind for held in proved[0].values() for _, kind in held] + [kind for held, _ in proved[1].values() for _, kind in held]
    for kind in sorted(set(fields)):
        base = kind.replace("const ", "").replace(" *", "")
        report.hold(base in NUMBERS.values() or base in proved[0], f"crates/exports: {kind} has no form in C that is known here")
    constants_agree(repository, constants, report)


def head_of(item):
    """A function's name, parameters, result and contract, in one form."""
    head = re.sub(r"^(?:#\[[^\n]*\]\n)*pub (?:extern \"C\" )?", "", item.head)
    return re.sub(r"\s*([(){},:])\s*", r"\1", " ".join(head.split())).replace(",)", ")")


def handed_on(repository, report):
    """Each function of crates/exports_c is that of crates/exports, and hands its parameters on."""
    library, called = code.module_of(repository.text(LIBRARY) or ""), code.module_of(repository.text(CALLED))
    report.hold(repository.find("crates/exports_c/src/*") == [CALLED], f"crates/exports_c: {CALLED} is not its only source")
    report.hold(sorted(library.ghosts) == sorted(called.ghosts), f"{CALLED}: the words of its contracts are brought from elsewhere than those of {LIBRARY}")
    ours = {name for name, item in library.items.items() if item.kind == "fn" and item.public}
    theirs = {name for name, item in called.items.items() if item.kind == "fn"}
    report.hold(set(called.items) == theirs and not called.children, f"{CALLED} has something besides functions")
    for name in sorted(ours ^ theirs):
        report.hold(False, f"function {name}: {CALLED if name in ours else LIBRARY} lacks it")
    for name in sorted(ours & theirs):
        here, there = library.items[name], called.items[name]
        report.hold(head_of(here) == head_of(there), f"function {name}: {CALLED} and {LIBRARY} differ in its head or in its contract")
        handed = re.search(r"\((.*?)\)\s*->", head_of(there), re.S)
        words = ",".join(part.partition(":")[0] for part in re.split(r",(?![^\[<]*[\]>])", handed[1])) if handed else None
        body = re.sub(r"\s+", "", there.text.partition("\n{\n")[2]).replace(",)", ")")
        report.hold(body == f"exports::{name}({words})}}", f"function {name}: {CALLED} does something else than hand its parameters on")


def difference(here, there):
    """The first place where two lists differ, in words."""
    if isinstance(here, tuple):
        if here[1] != there[1]:
            return f"it gives {there[1]}, not {here[1]}"
        here, there = here[0], there[0]
    for k in range(max(len(here), len(there))):
        mine = " ".join(reversed(here[k])) if k < len(here) else "nothing"
        other = " ".join(reversed(there[k])) if k < len(there) else "nothing"
        if mine != other:
            return f"{other} stands where {mine} is due"
    return ""


def constants_agree(repository, constants, report):
    """Levels, sizes and words, where both sides have them."""
    for path, called in CONSTANTS.items():
        text = code.without_comments(repository.text(path) or "")
        for name, value in re.findall(r"\bconst (\w+): (?:u32|usize) = (\d[\d_]*|u32::MAX);", text):
            number = 4294967295 if value == "u32::MAX" else int(value.replace("_", ""))
            there = called.get(name, f"VRF_{name}")
            report.hold(constants.get(there, number) == number, f"{HEADER}: {there} is {constants.get(there)}, but {name} of {path} is {number}")

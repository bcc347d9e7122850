#!/usr/bin/env python3
"""Would the C tests notice a header that says something else? Asks it of every such header that this file can make.

    host/c/selftest.py [LIBRARY]     the library is target/native/libexports.a if none is named

Each of these is done to a copy of vrf.h, and the tests are run with it:
- two fields of a struct that have the same type, or stand side by side, change places;
- a constant is one more than it was;
- two parameters of a function change places: two numbers, two slices or pointers of one type. A prototype's parameter names mean nothing
  to a C compiler, so here the call goes through a function that hands the two on in each other's place.
The last line says how many were noticed: a test failed, or the program was stopped by a signal. The exit status is 1 if one was not.
"""
import itertools
import os
import re
import subprocess
import sys
from concurrent.futures import ThreadPoolExecutor

ROOT = os.path.abspath(os.path.join(os.path.dirname(__file__), "..", ".."))
HEADER = os.path.join(ROOT, "host", "c", "vrf.h")
TESTS = os.path.join(ROOT, "host", "c", "tests")
WORK = os.path.join(ROOT, "target", "host", "c", "selftest")
CC = os.environ.get("CC", "cc")
NUMBERS = {"size_t", "uint32_t", "uint64_t"}
SECONDS = 20


def declarations(text):
    """The (type, name) pairs of a struct's body; a declaration may have several names."""
    found = []
    for line in text.split(";"):
        words = line.strip()
        if words:
            kind, names = re.fullmatch(r"(\w+)\s+(.+)", words, re.S).groups()
            found += [(kind, name.strip()) for name in names.split(",")]
    return found


def parameter(text):
    """The (type, name) of a parameter; a pointer's type ends in a star."""
    kind, star, name = re.fullmatch(r"((?:const )?\w+)\s*(\*?)\s*(\w+)", " ".join(text.split())).groups()
    return kind + star, name


class Header:
    """vrf.h without its comments, taken apart."""

    def __init__(self, text):
        self.text = re.sub(r"/\*.*?\*/", " ", text, flags=re.S)
        self.structs = {m[2]: declarations(m[1]) for m in re.finditer(r"typedef struct \w+ \{([^}]*)\} (\w+);", self.text)}
        self.constants = re.findall(r"(VRF_\w+) = (\d+)", self.text)
        self.functions = {}
        for result, name, words in re.findall(r"^(\w+) (vrf_\w+)\(([^)]*)\);", self.text, flags=re.M):
            self.functions[name] = (result, [parameter(p) for p in words.split(",")])

    def with_fields(self, name, fields):
        body = " ".join(f"{kind} {field};" for kind, field in fields)
        return re.sub(r"(typedef struct %s \{)[^}]*\}" % name, lambda m: m[1] + body + "}", self.text)

    def with_constant(self, name, value):
        return re.sub(r"\b%s = \d+" % name, f"{name} = {value}", self.text)


def swapped(things, i, j):
    out = list(things)
    out[i], out[j] = out[j], out[i]
    return out


def field_swaps(header):
    """(what, names it touches, header) for every two fields of one type, and every two neighbours."""
    for name, fields in header.structs.items():
        for i, j in itertools.combinations(range(len(fields)), 2):
            if fields[i][0] == fields[j][0] or j == i + 1:
                yield f"{name}: {fields[i][1]} and {fields[j][1]}", touched(header, name), header.with_fields(name, swapped(fields, i, j))


def constant_changes(header):
    for name, value in header.constants:
        yield f"{name} = {int(value) + 1}", [name], header.with_constant(name, int(value) + 1)


def parameter_swaps(header):
    """(what, function, order of its parameters) for every two that a compiler would take in each other's place, slices as a whole too."""
    for name, (_, parameters) in header.functions.items():
        places = range(len(parameters))
        slices = [i for i in places[:-1] if parameters[i + 1][1] == parameters[i][1] + "_len"]
        for i, j in itertools.combinations(places, 2):
            a, b = parameters[i][0], parameters[j][0]
            if a == b or (a in NUMBERS and b in NUMBERS):
                yield f"{name}: {parameters[i][1]} and {parameters[j][1]}", name, swapped(places, i, j)
            if a == b and i in slices and j in slices:
                order = swapped(swapped(places, i, j), i + 1, j + 1)
                yield f"{name}: {parameters[i][1]} and {parameters[j][1]}, with their lengths", name, order


def relay(header, swaps):
    """A header behind which every call takes the order that the variable VRF_SWAP names, or the right one."""
    lines = [f'#include "{HEADER}"', "#ifndef RELAY_H", "#define RELAY_H", "extern int vrf_swap;"]
    for name, (result, parameters) in header.functions.items():
        words = ", ".join(f"{kind} {p}" for kind, p in parameters)
        lines.append(f"static inline {result} relay_{name}({words}) {{ switch (vrf_swap) {{")
        for number, (_, function, order) in enumerate(swaps):
            if function == name:
                lines.append(f"case {number}: return {name}({', '.join(parameters[i][1] for i in order)});")
        lines.append(f"default: return {name}({', '.join(p for _, p in parameters)}); }} }}")
    lines += [f"#define {name} relay_{name}" for name in header.functions]
    return "\n".join(lines + ["#endif", ""])


def sources():
    """The text of each test, by its name: its file's and its function's."""
    texts = {}
    for file in sorted(os.listdir(TESTS)):
        name, kind = os.path.splitext(file)
        # the floating-point environment says nothing of the header
        if kind == ".c" and name not in ("check", "window", "environment"):
            with open(os.path.join(TESTS, file)) as f:
                texts[name] = f.read()
    return texts


def mentioning(texts, words):
    """The tests that mention one of the words."""
    return {name for name, text in texts.items() if re.search(r"\b(%s)\b" % "|".join(words), text)}


def touched(header, struct):
    """The functions that take or give a struct, or one that holds it."""
    structs = {struct}
    for name, fields in header.structs.items():  # a struct stands behind those that it holds
        if structs & {kind for kind, _ in fields}:
            structs.add(name)
    return [name for name, (result, parameters) in header.functions.items() if structs & {result, *(kind for kind, _ in parameters)}]


def one_file(texts, chosen):
    """The chosen tests in one file, which compiles faster than several."""
    lines = ["#include <stdlib.h>", "int vrf_swap = -1;"]
    lines += [f'#include "{os.path.join(TESTS, name)}.c"' for name in ["check", "window", *sorted(chosen)]]
    lines += [f"void {name}(void) {{}}" for name in ["environment", *sorted(set(texts) - set(chosen))]]
    lines.append("__attribute__((constructor)) static void set_swap(void) {")
    lines.append('  const char *s = getenv("VRF_SWAP"); vrf_swap = s ? atoi(s) : -1; }')
    return "\n".join(lines) + "\n"


def build(folder, header, tests, library):
    """These tests with that header. They compile: what a compiler notices is not tried here."""
    os.makedirs(folder, exist_ok=True)
    for name, text in [("vrf.h", header), ("tests.c", tests)]:
        with open(os.path.join(folder, name), "w") as f:
            f.write(text)
    program = os.path.join(folder, "tests")
    words = [CC, "-std=c11", "-O0", "-w", f"-I{folder}", f"-I{TESTS}", os.path.join(folder, "tests.c"), library, "-lm", "-o", program]
    done = subprocess.run(words, capture_output=True, text=True)
    if done.returncode != 0:
        sys.exit(f"selftest: {folder} doesn't compile\n{done.stderr}")
    return program


def passes(program, swap=None):
    environment = dict(os.environ, VRF_SWAP=str(-1 if swap is None else swap))
    try:
        done = subprocess.run([program], env=environment, stdout=subprocess.DEVNULL, stderr=subprocess.DEVNULL, timeout=SECONDS)
    except subprocess.TimeoutExpired:
        return False
    return done.returncode == 0


def main():
    library = sys.argv[1] if len(sys.argv) > 1 else os.path.join(ROOT, "target", "native", "libexports.a")
    texts = sources()
    with open(HEADER) as f:
        header = Header(f.read())
    if len(header.functions) != 16 or len(header.structs) != 16:
        sys.exit(f"selftest: read {len(header.functions)} functions and {len(header.structs)} structs of vrf.h, there should be 16 and 16")
    uncalled = [name for name in header.functions if not mentioning(texts, [name])]
    if uncalled:
        sys.exit("selftest: no test calls " + ", ".join(uncalled))
    swaps = list(parameter_swaps(header))
    every = one_file(texts, texts)
    right = [
        build(os.path.join(WORK, "right"), header.text, every, library),
        build(os.path.join(WORK, "relay"), relay(header, swaps), every, library),
    ]
    if not all(map(passes, right)):
        sys.exit("selftest: the tests fail with the header as it is")

    copies = [("swapped fields", *copy) for copy in field_swaps(header)]
    copies += [("changed constants", *copy) for copy in constant_changes(header)]

    def noticed_copy(number):
        kind, what, words, text = copies[number]
        program = build(os.path.join(WORK, str(number)), text, one_file(texts, mentioning(texts, words)), library)
        return kind, what, not passes(program)

    def noticed_swap(number):
        return "swapped parameters", swaps[number][0], not passes(right[1], number)

    with ThreadPoolExecutor(os.cpu_count()) as pool:
        answers = list(pool.map(noticed_copy, range(len(copies)))) + list(pool.map(noticed_swap, range(len(swaps))))
    for kind, what, noticed in answers:
        if not noticed:
            print(f"selftest: not noticed: {kind}: {what}")
    sums = []
    for kind in ["swapped fields", "changed constants", "swapped parameters"]:
        of_kind = [noticed for k, _, noticed in answers if k == kind]
        sums.append(f"{sum(of_kind)} of {len(of_kind)} {kind}")
    print("c: the tests notice " + ", ".join(sums))
    sys.exit(0 if all(noticed for *_, noticed in answers) else 1)


if __name__ == "__main__":
    main()

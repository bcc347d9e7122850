"""The public calls: what callers of a crate in PUBLIC, or of a module in PUBLIC_MODULES, can name.

A `pub fn` of src/lib.rt or of a module that is `pub mod` all the way down is one. A `pub use` of a function, wherever that function
stands, makes a call of the same demands, by the name of the module that passes it on. What can't be followed is a fault: a `pub use` of
a module or of all that a module has, a public module written with its body, methods and macros, an answer's type that is an alias with
parameters, and whatever doesn't begin its line.

Two kinds of functions are no calls and no fault: those of a trait that callers can't name, and a conversion, `impl From`, whose answer an
equation gives. Callers can make a conversion, so an edit has to be a wrong answer of it (look.py); it has no row and no theorem.
"""
import re
from dataclasses import dataclass, replace

from .code import PATH, clauses_in, without_clauses, without_comments
from .repository import PUBLIC, PUBLIC_MODULES


@dataclass(frozen=True)
class Parameter:
    name: str
    type: str

    @property
    def lent(self):
        return re.match(r"&(?:'\w+ )?mut ", self.type) is not None


@dataclass(frozen=True)
class Call:
    name: str  # as callers write it
    node: tuple  # (crate, module, name) of the function
    parameters: tuple
    returns: str  # on one line, aliases written out
    clauses: tuple  # (the answer's name, the proposition) of each `ensures`
    behind: str  # what else stands behind the parameters

    @property
    def short(self):
        """The call's name in theorems."""
        return self.name.split("::")[-1]


# what a clause calls the answer
ANSWER = "result"


def call_of(name, node, head):
    """The call that a function's head declares."""
    at = head.index("(", head.index("fn "))
    depth, end = 0, at
    for end in range(at, len(head)):
        depth += {"(": 1, ")": -1}.get(head[end], 0)
        if depth == 0:
            break
    parameters = []
    for part in re.split(r",\s*(?![^\[\(<]*[\]\)>])", head[at + 1 : end]):
        if ":" in part:
            word, _, kind = part.partition(":")
            parameters.append(Parameter(word.strip(), " ".join(kind.split())))
    rest = head[end + 1 :]
    m = re.match(r"\s*->\s*(.*?)(?=\s*(?:\b(?:requires|ensures|decreases|where)\b|\{|$))", rest, re.S)
    returns = m[1].strip() if m else ""
    rest = rest[m.end() :] if m else rest
    clauses, behind, last = [], [], 0
    for start, first, end, over in clauses_in(rest):
        # a starred clause says something of memory, and is none of those that are read
        if re.match(r"ensures(?: \w+)? ", rest[start:first]):
            clauses.append((ANSWER, " ".join(rest[first:end].split())))
            behind.append(rest[last:start])
            last = over
    return Call(name, node, tuple(parameters), returns, tuple(clauses), "".join([*behind, rest[last:]]).strip(" \n{"))


def hidden(code, node):
    """Whether callers can't name what a module declares: it isn't `pub`, or a module on the way to it isn't, and no `pub use` passes it on."""
    crate, module, name = node
    parts = module.split("::") if module else []
    open_way = all(code.modules[crate, "::".join(parts[:k])].children.get(parts[k]) for k in range(len(parts)))
    passed = any(code.resolve(owner, where, path) in (node, (crate, module, None)) for (owner, where), held in code.modules.items() for _, path in held.passed)
    return not passed and not (open_way and code.item(node).public)


def without_hidden(code, crate, module, text):
    """The text with the traits that callers can't name, and their `impl`s, blanked: no caller reaches a function of theirs."""
    for item in code.modules[crate, module].items.values():
        trait = item.name.split(" for ")[0]
        found = code.resolve(crate, module, trait) if item.kind in ("trait", "impl") else None
        if found and found[0] == crate and found[2] and code.item(found).kind == "trait" and hidden(code, found):
            text = text[: item.start] + re.sub(r"[^\n]", " ", text[item.start : item.end]) + text[item.end :]
    return text


@dataclass(frozen=True)
class Conversion:
    """An `impl From` that callers can make use of."""

    name: str  # as it is declared, `From<A> for B`
    path: str
    start: int  # where in the file the body of its function starts,
    end: int  # and where the `impl` ends


CONVERSION = re.compile(r"^impl (?P<name>From<[\w:<>]+> for \w+) \{\n(?P<body>.*?)^\}", re.M | re.S)
GIVES = re.compile(r"^    ghost from_gives = \{ λ (\w+) (\w+)\. \2 ≡ (?P<what>[^;=]+) \};\n\s*^    fn from\([^)\n]*\) -> \w+ \{$", re.M)


def told_conversions(text):
    """Each `impl From` that has the function `from` alone and says by an equation what it gives, with the place where that function's body
    starts."""
    for m in CONVERSION.finditer(text):
        gives = GIVES.match(m["body"])
        if gives and gives[2] not in re.findall(r"\w+", gives["what"]) and m["body"].count("fn ") == 1 and m["body"].count("ghost ") == 1:
            yield m, m.start("body") + gives.end()


def without_conversions(text):
    """The text with each such `impl` blanked."""
    for m, _ in told_conversions(text):
        text = text[: m.start()] + re.sub(r"[^\n]", " ", m[0]) + text[m.end() :]
    return text


def public_crates():
    return PUBLIC + sorted({crate for crate, _ in PUBLIC_MODULES})


def conversions(code):
    """The conversions that `all_is_read` lets through."""
    for (crate, module), path in code.paths.items():
        if crate in public_crates():
            for m, start in told_conversions(without_comments(code.repository.text(path))):
                yield Conversion(m["name"], path, start, m.end())


def all_is_read(code, crate, report):
    """Every function, module and `pub use` of a crate is one that was found: none is indented, or made by a macro or an `impl`, but for those
    of a trait that callers can't name, and for conversions whose answer an equation gives."""
    for (owner, module), held in code.modules.items():
        if owner != crate:
            continue
        path = code.paths[owner, module]
        text = without_comments(code.repository.text(path))
        bare = without_clauses(without_conversions(without_hidden(code, crate, module, text)))
        unread = [name for name in re.findall(r"\bfn\s+(\w+)", bare) if name not in held.items or held.items[name].kind != "fn"]
        unread += [name for name in re.findall(r"\bmod\s+(\w+)", bare) if name not in held.children]
        unread += ["pub use"] * (len(re.findall(r"\bpub\s+use\b", bare)) != len(re.findall(r"^pub use ", bare, re.M)))
        unread += re.findall(r"\b(impl|trait|macro_rules)\b", bare)
        report.hold(not unread, f"{path}: this is not read: {', '.join(unread)}")


ALIAS = re.compile(r"\btype \w+(?P<parameters><[^=]*>)? = (?P<of>[^;]+);")


def written_out(code, crate, module, text, report, name):
    """A type on one line: each path in it by the last name of what it means, an alias by what it stands for."""
    def of(m):
        found = code.resolve(crate, module, m[0])
        if not found or not found[2]:
            return m[0]
        if code.item(found).kind != "type":
            return found[2]
        alias = ALIAS.search(code.item(found).text)
        if not report.hold(alias and not alias["parameters"], f"{name} answers {found[2]}, an alias with parameters, which is not followed"):
            return m[0]
        return written_out(code, found[0], found[1], alias["of"], report, name)

    line = re.sub(r",?\s*>", ">", re.sub(r"<\s+", "<", " ".join(text.split())))
    return PATH.sub(of, line)


def public_calls(code, report):
    found = {}

    def add(name, node):
        call = call_of(name, node, code.item(node).head)
        found[name] = replace(call, returns=written_out(code, node[0], node[1], call.returns, report, name))

    def visit(crate, module):
        held = code.modules.get((crate, module))
        where = "::".join([crate] + ([module] if module else []))
        if not report.hold(held is not None, f"{where} is a public module without a file"):
            return
        for name, item in held.items.items():
            if item.kind == "fn" and item.public:
                add(f"{where}::{name}", (crate, module, name))
        for name, path in held.passed:
            if name == "*":
                report.hold(False, f"{where} passes on all of {path} by `pub use`, which is not followed")
                continue
            target = code.resolve(crate, module, path)
            if target is None or target[2] is None:
                report.hold(False, f"{where} passes on {path} by `pub use`, which is no function, type or constant of this repository")
            elif code.item(target).kind == "fn":
                add(f"{where}::{name}", target)
        for name in held.inline:
            report.hold(not held.children[name], f"{where} has the public module {name} written with its body, which is not followed")
        for name, public in held.children.items():
            if public and name not in held.inline:
                visit(crate, f"{module}::{name}" if module else name)

    for crate in public_crates():
        all_is_read(code, crate, report)
    for crate, module in PUBLIC_MODULES + [(crate, "") for crate in PUBLIC]:
        visit(crate, module)
    return list(found.values())

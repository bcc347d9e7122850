"""Rattle code as text: the items of each module, what its `use` and `mod` lines name, and what a path written in it means.

An item is a function, a constant, a type, a trait or an `impl`, called by (crate, module, name); the module of src/lib.rt and src/main.rt
is "", that of src/a.rt is "a", that of src/a/b.rt is "a::b". An `impl Trait for Type` is called "Trait for Type".
"""
import re
from dataclasses import dataclass

from .repository import kept_by_text

ITEM = re.compile(
    r"^(?P<marks>(?:#\[[^\]\n]*\]\n)*)(?P<open>pub(?:\([^)\n]*\))? )?(?:(?:extern \"C\"|unsafe|const(?= fn)) )*(?P<kind>fn|const|static|struct|enum|type) (?P<name>\w+)",
    re.M,
)
TRAIT = re.compile(r"^(?P<open>pub(?:\([^)\n]*\))? )?trait (?P<name>\w+)[^\n{]*\{$", re.M)
IMPL = re.compile(r"^impl (?P<trait>\w+) for (?P<type>\w+) \{$", re.M)
GIVEN = re.compile(r"^impl\b[^\n{]*\bfor\b[^\n{]*\{$", re.M)
METHOD = re.compile(r"^    (?:[a-z]+ )*fn \w+.*?^    \}$", re.M | re.S)
AT_TYPE = re.compile(r"(?<![\w.'])(?P<path>[A-Za-z_]\w*(?:::[A-Za-z_]\w*)*)::<(?P<type>\w+)>\(")
USE = re.compile(r"^(?P<open>pub(?:\([^)\n]*\))? )?use (?P<path>[^;]+);", re.M)
MOD = re.compile(r"^(?P<open>pub(?:\([^)\n]*\))? )?mod (?P<name>\w+)(?P<end>;| \{)", re.M)
GHOST = re.compile(r"^ghost use (?P<path>[^;]+);", re.M)
BRACE = re.compile(r"[{}]")
CLAUSE = re.compile(r"\b(?:requires|ensures)\*?(?: \w+)? \{")
COMMENT = re.compile(r'"(?:\\.|[^"\\\n])*"|//[^\n]*|/\*.*?\*/', re.S)
PATH = re.compile(r"(?<![\w.'])[A-Za-z_]\w*(?:::[A-Za-z_]\w*)*")


@dataclass(frozen=True)
class Item:
    name: str
    kind: str
    public: bool
    start: int
    end: int
    head: str
    text: str


@dataclass(frozen=True)
class Module:
    items: dict
    uses: dict  # the name that a `use` line brings -> the path that it stands for
    passed: tuple  # (name, path) of each `pub use`; the name is `*` for all of a module
    children: dict  # each `mod` -> whether it is `pub`
    inline: tuple  # modules written with their body
    ghosts: tuple  # the paths of `ghost use`


def clauses_in(text):
    """(start of the clause, of what stands between its braces, end of that, end of the clause) of each `requires` and `ensures` of a text."""
    at = 0
    for m in CLAUSE.finditer(text):
        if m.start() < at:
            continue
        depth, at = 1, m.end()
        while depth:
            brace = BRACE.search(text, at)
            if brace is None:
                return
            depth += 1 if brace[0] == "{" else -1
            at = brace.end()
        yield m.start(), m.end(), at - 1, at


def without_clauses(text):
    """The text with a blank in the place of each clause."""
    held, at = [], 0
    for start, _, _, end in clauses_in(text):
        held.append(text[at:start])
        at = end
    return " ".join([*held, text[at:]])


@kept_by_text
def without_comments(text):
    """The same text, comments blanked, so that places stay."""
    return COMMENT.sub(lambda m: m[0] if m[0].startswith('"') else re.sub(r"[^\n]", " ", m[0]), text)


def spread(path):
    """Each (name, path) of a `use` line: lists and `as` taken apart."""
    path = " ".join(path.split())
    m = re.match(r"(.*?)::\{(.*)\}$", path)
    if m:
        return [pair for part in members(m[2]) for pair in spread(m[1] if part == "self" else f"{m[1]}::{part}")]
    m = re.match(r"(.*) as (\w+)$", path)
    if m:
        return [(m[2], m[1])]
    return [(path.split("::")[-1], path)]


def members(text):
    """The parts of a list, lists within it whole."""
    return [part for part in (p.strip() for p in re.split(r",(?![^{}]*\})", text)) if part]


@kept_by_text
def module_of(text):
    plain = without_comments(text)
    items = {}
    starts = list(ITEM.finditer(plain))
    for m in starts:
        rest = plain[m.end() :]
        if m["kind"] in ("fn", "struct", "enum"):
            stop = re.search(r"^\}", rest, re.M)
        else:
            stop = re.search(r";[ ]*$", rest, re.M)
        end = m.end() + (stop.end() if stop else len(rest))
        whole = plain[m.start() : end]
        head = whole.split("\n{\n", 1)[0]
        items[m["name"]] = Item(m["name"], m["kind"], m["open"] == "pub ", m.start(), end, head, whole)
    for kind, pattern in (("trait", TRAIT), ("impl", IMPL)):
        for m in pattern.finditer(plain):
            stop = re.search(r"^\}", plain[m.end() :], re.M)
            end = m.end() + (stop.end() if stop else len(plain))
            name = m["name"] if kind == "trait" else f"{m['trait']} for {m['type']}"
            public = kind == "trait" and m["open"] == "pub "
            items[name] = Item(name, kind, public, m.start(), end, m[0], plain[m.start() : end])
    uses, passed = {}, []
    for m in USE.finditer(plain):
        for name, path in spread(m["path"]):
            uses[name] = path
            if m["open"] == "pub ":
                passed.append((name, path))
    children, inline = {}, []
    for m in MOD.finditer(plain):
        children[m["name"]] = m["open"] == "pub "
        if m["end"] != ";":
            inline.append(m["name"])
    return Module(items, uses, tuple(passed), children, tuple(inline), tuple(m["path"] for m in GHOST.finditer(plain)))


class Code:
    """The code of all crates."""

    def __init__(self, repository):
        self.repository = repository
        self.crates = repository.crates()
        self.modules, self.paths = {}, {}
        for path in repository.find("crates/*/src/**/*.rt"):
            crate, inside = path.split("/")[1], path.split("/", 3)[3][: -len(".rt")]
            name = "" if inside in ("lib", "main") else inside.replace("/", "::")
            self.modules[crate, name] = module_of(repository.text(path))
            self.paths[crate, name] = path

    def item(self, node):
        crate, module, name = node
        return self.modules[crate, module].items[name]

    def resolve(self, crate, module, path, seen=()):
        """What a path written in a module means: an item (crate, module, name), a module (crate, module, None), or none."""
        parts = path.split("::")
        first, rest = parts[0], parts[1:]
        here = self.modules.get((crate, module))
        if here is None or (crate, module, path) in seen:
            return None
        seen = seen + ((crate, module, path),)
        if first == "crate":
            return self.down(crate, "", rest, seen)
        if first == "self":
            return self.down(crate, module, rest, seen)
        if first == "super":
            return self.down(crate, "::".join(module.split("::")[:-1]), rest, seen)
        if first in here.items or first in here.children:
            return self.down(crate, module, parts, seen)
        if first in here.uses and here.uses[first] != path:
            return self.resolve(crate, module, "::".join([here.uses[first]] + rest), seen)
        if first in self.crates:
            return self.down(first, "", rest, seen)
        return None

    def down(self, crate, module, parts, seen):
        """From a module on: an item, a module below, or what a `use` line of it names."""
        if not parts:
            return (crate, module, None) if (crate, module) in self.modules else None
        here = self.modules.get((crate, module))
        if here is None:
            return None
        first = parts[0]
        if first in here.items:
            return crate, module, first
        if first in here.children:
            return self.down(crate, f"{module}::{first}" if module else first, parts[1:], seen)
        if first in here.uses:
            return self.resolve(crate, module, "::".join([here.uses[first]] + parts[1:]), seen)
        return None

    def named(self, crate, name):
        """The type of a crate that its definitions know as `declared.NAME`."""
        for (owner, module), held in self.modules.items():
            if owner == crate and name in held.items and held.items[name].kind in ("struct", "enum", "type"):
                return crate, module, name
        return None

    def bounds(self, node):
        """The traits of this repository that a generic function's parameters are bound by."""
        crate, module, name = node
        parameters = re.search(rf"\bfn {name}<([^>]*)>", self.item(node).head)
        for word in re.findall(r"\w+", parameters[1]) if parameters else ():
            found = self.resolve(crate, module, word)
            if found and found[2] and self.item(found).kind == "trait":
                yield found

    def mentioned(self, node):
        """The items that an item's code names: functions that it calls, constants, types; where it calls one at a type, as `f::<u8>(..)`,
        what the type's `impl` of each bound of `f` gives."""
        crate, module, _ = node
        text = without_clauses(self.item(node).text)
        for m in PATH.finditer(text):
            found = self.resolve(crate, module, m[0])
            if found and found[2] and (self.item(found).kind != "fn" or text[m.end() :].lstrip()[:1] in ("(", "<")):
                yield found
        for m in AT_TYPE.finditer(text):
            found = self.resolve(crate, module, m["path"])
            if found and found[2] and self.item(found).kind == "fn":
                yield found
                for owner, place, trait in self.bounds(found):
                    given = f"{trait} for {m['type']}"
                    if given in self.modules[owner, place].items:
                        yield owner, place, given

    def answering_bodies(self, crate):
        """(path, where it starts, where it ends) of the body of each function of a crate that has an `ensures`, and of each method
        that it gives for a trait, which says what its methods owe."""
        for (owner, module), path in self.paths.items():
            if owner != crate:
                continue
            for item in self.modules[owner, module].items.values():
                ends = [end for _, _, _, end in clauses_in(item.text)]
                if item.kind == "fn" and ends and "ensures" in item.text[: ends[-1]]:
                    yield path, item.start + ends[-1], item.end
            plain = without_comments(self.repository.text(path))
            for m in GIVEN.finditer(plain):
                for method in METHOD.finditer(plain, m.end(), plain.index("\n}", m.end())):
                    ends = [end for _, _, _, end in clauses_in(method[0])]
                    yield path, method.start() + (ends[-1] if ends else method[0].index("{")), method.end()

    def clauses(self, node):
        """The propositions that an item's contract states."""
        text = self.item(node).text
        return [text[first:last] for _, first, last, _ in clauses_in(text)]

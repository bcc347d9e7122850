"""Definitions and theorems (.antt) as text: the declarations of each file, what its `use` lines bring, and what a name in it means.

A declaration is called by (crate, file, name), the file being "specs/Cursors" or "proofs/Laws"; a type that the code declares is the
code's item. Names outside this repository mean nothing here.
"""
import re
from dataclasses import dataclass, field
from functools import cached_property

from .repository import kept_by_text

MARKS = r"(?:(?:unfoldable|abbrev|axiom|pub) )*"
SIGNATURE = re.compile(rf"^ *(?P<marks>{MARKS})(?P<names>[^\s:(){{}}.=|]+(?: [^\s:(){{}}.=|]+)*) :(?= |$)")
BLOCK = re.compile(rf"^ *(?P<marks>{MARKS})(?P<kind>record|data) (?P<name>\S+)")
SECTION = re.compile(r"^ *module \S+(?P<binders>.*?) where\s*$", re.S)
USE = re.compile(r"^ *(?P<open>(?:unfoldable )?pub )?use (?P<path>\S+?)(?:\.\{(?P<list>[^}]*)\})?(?: as (?P<name>\S+))?$")
TOKEN = re.compile(r"[^\s(){}\[\];,⌜⌝«»]+")


@dataclass
class Declaration:
    name: str
    kind: str  # "data", "record" or "term"
    public: bool
    start: int
    end: int
    sections: tuple  # the binders of the sections around it
    text: str
    inner: list = field(default_factory=list)  # the constructors of a data type


@dataclass
class File:
    declarations: dict
    brought: dict  # name -> (path of the module, name there)
    aliases: dict  # name -> path of a module
    passed: dict  # what `pub use` lines bring

    @cached_property
    def operators(self):
        """The names that are written in parts, with their parts."""
        return [(name, [p for p in name.split("◌") if p]) for name in [*self.brought, *self.declarations] if "◌" in name]


COMMENT = re.compile(r'"(?:\\.|[^"\\\n])*"|\{-|-\}|(?<![^\s(){}.;,@"«»])--[^\n]*')


@kept_by_text
def without_comments(text):
    """The same text, comments blanked, so that places stay."""
    found, depth, last = [], 0, 0
    for m in COMMENT.finditer(text):
        inside = depth > 0
        found.append(blank(text[last : m.start()]) if inside else text[last : m.start()])
        depth = max(0, depth + {"{-": 1, "-}": -1}.get(m[0], 0))
        keep = m[0].startswith('"') and not inside
        found.append(m[0] if keep else blank(m[0]))
        last = m.end()
    found.append(blank(text[last:]) if depth else text[last:])
    return "".join(found)


def blank(text):
    return re.sub(r"[^\n]", " ", text)


def indent_of(line):
    return len(line) - len(line.lstrip(" "))


@kept_by_text
def file_of(text):
    plain = without_comments(text)
    found = File({}, {}, {}, {})
    sections, current, place = [], None, 0

    def close(at):
        nonlocal current
        if current is not None:
            current.end = at
            current.text = plain[current.start : at]
            current = None

    lines = plain.splitlines(keepends=True)
    number = 0
    while number < len(lines):
        line = lines[number]
        here = place
        place += len(line)
        number += 1
        if not line.strip():
            continue
        depth = indent_of(line)
        while sections and depth < 2 * len(sections):
            close(here)
            sections.pop()
        if depth != 2 * len(sections):
            continue
        if line.strip() == "mutual":
            close(here)
            sections.append("")
            continue
        if re.match(r" *module \S", line):
            close(here)
            head = line
            while not re.search(r" where\s*$", head) and number < len(lines):
                head += lines[number]
                place += len(lines[number])
                number += 1
            m = SECTION.match(head.rstrip("\n"))
            sections.append(" ".join(m["binders"].split()) if m else "")
            continue
        use = USE.match(line.rstrip()) if depth == 0 else None
        if use:
            close(here)
            bring(found, use)
            continue
        block = BLOCK.match(line)
        sign = None if block else SIGNATURE.match(line)
        if block or sign:
            close(here)
            marks = (block or sign)["marks"]
            names = [block["name"]] if block else sign["names"].split(" ")
            current = Declaration(names[0], block["kind"] if block else "term", "pub" in marks.split(), here, len(plain), tuple(sections), "")
            for name in names:
                found.declarations[name] = current
    close(len(plain))
    for declaration in list(found.declarations.values()):
        if declaration.kind == "data":
            for line in declaration.text.splitlines()[1:]:
                m = SIGNATURE.match(line)
                if m:
                    declaration.inner += m["names"].split(" ")
    for declaration in list(found.declarations.values()):
        for name in declaration.inner:
            found.declarations.setdefault(name, declaration)
    return found


def bring(found, use):
    module = use["path"]
    if use["list"] is None:
        found.aliases[use["name"] or module.split(".")[-1]] = module
        return
    for part in use["list"].split(","):
        part = part.strip()
        if not part:
            continue
        name, _, other = part.partition(" as ")
        path = f"{module}.{name}" if "." in name else None
        target = (path.rsplit(".", 1)[0], name.rsplit(".", 1)[1]) if path else (module, name)
        called = other.strip() or target[1]
        found.brought[called] = target
        if use["open"]:
            found.passed[called] = target


@kept_by_text
def tokens_of(text):
    """The words of a text, fields of records left out."""
    return {token.strip(".") for token in TOKEN.findall(text) if not token.startswith(".")}


# where the toolchain's library declares what it passes on under other paths, so that a word means the same by whichever of them it is brought
HOMES = {
    "Prim.Native.Nat": "ℕ zero suc pred ◌+◌ ◌-◌ ◌*◌ ◌/◌ ◌%◌ ◌^◌ ◌<◌ ◌≤◌ min max",
    "mathlib.Core.Path": "◌≡◌ refl sym ap ap₂ ◌∙◌ subst",
    "mathlib.Core.Bool": "Bool true false cond not ◌&&◌ ◌||◌",
    "mathlib.Core.Logic": "◌≢◌ ◌⊎◌ ◌↔◌",
    "mathlib.Core.List": "List [] ◌∷◌ ◌++◌ map reverse",
    "lib.Dec": "T eqb ltb leb",
    "Rattle.core.specs.Bool": "if◌then◌else◌ nat_eq nat_lt nat_le ◌==◌",
    "lib.ListN": "length get_or take drop set replicate",
    "lib.IntN": "ℤ pos negsuc ◌+ℤ◌ ◌-ℤ◌ ◌*ℤ◌ neg_ℤ nat_abs",
    "lib.Signed": "◌≤ℤ◌ ◌<ℤ◌",
    "lib.Ieee": "Float Format binary32 binary64 nan inf fin sqrt",
}
HOME = {name: home for home, names in HOMES.items() for name in names.split()}
PASSING = {"Rattle.std.specs.Prelude", "Rattle.core.specs.Prelude", "Rattle.std.proofs.Common", "Rattle.std.specs.Float", "Rattle.core.specs.Float"}
# modules that it passes on whole, by the paths that they then have
WHOLE = [
    (re.compile(r"Rattle\.(?:std|core)\.proofs\.Math\.(Path|Logic|Bool|Option)$"), r"mathlib.Core.\1"),
    (re.compile(r"Rattle\.(?:std|core)\.proofs\.Math\.(Arith|Dec|IntN|ListN|Pow|Seq)$"), r"lib.\1"),
    (re.compile(r"Rattle\.(?:std|core)\.specs\.Float\.(Ieee(?:\..*)?)$"), r"lib.\1"),
]


def home_of(path, name):
    """The module of the library that declares a name, and the name."""
    if path in PASSING:
        return HOME.get(name, path), name
    for form, home in WHOLE:
        if form.match(path):
            return form.sub(home, path), name
    return path, name


@kept_by_text
def module_named(path):
    """(crate, file, type) of a path such as Rattle.bitio.specs.Bits or Rattle.bitio.specs.declared.Cursor.TheVariants."""
    m = re.match(r"Rattle\.(\w+)\.(specs|proofs)(?:\.(.*))?$", path)
    if not m:
        return None
    crate, kind, rest = m[1], m[2], m[3] or "Lib"
    d = re.match(r"declared\.(?:[a-z_]\w*\.)*([A-Z]\w*)", rest)
    if d:
        return crate, None, d[1]
    return crate, f"{kind}/{rest.replace('.', '/')}", None


class Definitions:
    """The definitions and theorems of all crates, and what names in them and in contracts mean."""

    def __init__(self, repository, code):
        self.code = code
        self.files, self.paths = {}, {}
        for path in repository.find("crates/*/specs/**/*.antt") + repository.find("crates/*/proofs/**/*.antt"):
            crate, name = path.split("/")[1], path.split("/", 2)[2][: -len(".antt")]
            self.files[crate, name] = file_of(repository.text(path))
            self.paths[crate, name] = path

    def declaration(self, node):
        crate, file, name = node
        held = self.files.get((crate, file))
        return held.declarations.get(name) if held else None

    def in_module(self, path, name, seen=()):
        """What a name of a module means: (crate, file, name of the declaration), or the code's type."""
        where = module_named(path)
        if where is None:
            return None
        crate, file, kind = where
        if kind:
            return self.code.named(crate, kind)
        held = self.files.get((crate, file))
        if held is None:
            return None
        if name in held.declarations:
            return crate, file, held.declarations[name].name
        if name in held.passed and (path, name) not in seen:
            return self.in_module(*held.passed[name], seen + ((path, name),))
        return None

    def resolve(self, crate, file, word, scope=None):
        """What a word of a file means; `scope` are `use` lines in place of the file's own (a contract's)."""
        held = scope or self.files[crate, file]
        if word in held.declarations:
            return crate, file, held.declarations[word].name
        if word in held.brought:
            return self.in_module(*held.brought[word])
        if "." in word:
            first, _, rest = word.partition(".")
            if first in held.aliases:
                parts = rest.split(".")
                for k in range(len(parts), 0, -1):
                    found = self.in_module(".".join([held.aliases[first]] + parts[: k - 1]), parts[k - 1])
                    if found:
                        return found
            if first == "Rattle":
                parts = word.split(".")
                for k in range(len(parts) - 1, 2, -1):
                    found = self.in_module(".".join(parts[:k]), parts[k])
                    if found:
                        return found
            if first in held.brought or first in held.declarations:  # a constructor written behind its type
                return self.resolve(crate, file, first, scope)
        return None

    def meaning(self, crate, file, word, scope=None):
        """What a word means, be it of this repository or of a library; none if it is a variable or a number."""
        held = scope or self.files[crate, file]
        found = self.resolve(crate, file, word, scope)
        if found is None and word in held.brought:
            found = ("library", *home_of(*held.brought[word]))
        return found

    def words(self, crate, file, text, scope=None):
        """The declarations and types that a text of a file names."""
        held = scope or self.files[crate, file]
        tokens = tokens_of(text)
        for token in tokens:
            found = self.resolve(crate, file, token, scope)
            if found:
                yield found
        for name, pieces in held.operators:
            if pieces and all(p in tokens for p in pieces):
                found = self.resolve(crate, file, name, scope)
                if found:
                    yield found

    def scope_of(self, module):
        """The `ghost use` lines of a module of code, as a scope."""
        scope = File({}, {}, {}, {})
        for path in module.ghosts:
            m = USE.match("use " + " ".join(path.split()))
            if m:
                bring(scope, m)
        return scope

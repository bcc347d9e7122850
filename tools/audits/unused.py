"""What nobody uses, and what is too long to read. Five kinds, each found by reading the files:

  law       a declaration of specs/ or proofs/ that nothing rests on which is asked for. Asked for are: what a contract or a `tactic`
            attribute names; what answers a goal or a given of a function (`goal.NAME` in its Answers.antt or Invariants.antt), and the
            proof of a function (`.._spec` of a Proof.antt), which the toolchain looks up by name; the theorems that public calls owe
            (owed.py); what documents name in backquotes, a file that docs/PROMISES.md or docs/PORT.md names whole included; a law that a comment of
            its crate's definitions or code names so; what the audit and an edit's new text name
  import    a name that a `use` or `ghost use` line brings and the file doesn't have a second time; a module so brought whose names it
            doesn't use. In code a `ghost use` serves contracts and ghost members alone. `pub use` passes a name on and is not looked at
  long      a line of 300 characters or more in a file of definitions or proofs; a line of a contract of over 160. `use` lines may be long
  chain     `.before` six times or more in a row, but for the line that names the place (`let at-start = c .before .. in`)
  sentence  a file of proofs/ that doesn't begin with a comment, unless it only answers `search rules`

A name that a file also binds as a variable counts as used: what is listed can go, what isn't listed may still be idle.
"""
import re
from dataclasses import dataclass

from .calls import public_calls
from .code import USE as CODE_USE
from .code import Code, spread
from .code import without_comments as code_without_comments
from .contracts import MAKERS, RELATIONS
from .definitions import Definitions, File, bring, file_of, without_comments
from .definitions import USE as TEXT_USE
from .edits import edits_of
from .owed import KINDS
from .repository import Report
from .statements import STATED

LONG_TEXT = 300
LONG_CONTRACT = 160
DEEP = 6

NAME = re.compile(r"«[^»\n]*»|[^\s(){}.;,@\"«»⌜⌝]+")
CHAIN = re.compile(r"(?:\.before(?![^\s(){}.;,@\"«»])\s*){%d,}" % DEEP)
NAMED = re.compile(r"^ *(?:let [\w-]+ = [\w-]+(?:\.before)+ in|[\w-]+ c = c(?:\.before)+)$")
CLAUSE = re.compile(r"^ *(?:(?:requires|ensures)\b[^{\n]*|(?:pub )?ghost \w+(?::| =) )\{", re.M)
# traits of the library that may be brought for their methods alone
TRAITS = {f"std::{path}" for path in ("env::Env", "fmt::Write", "io::BufRead", "io::Print", "io::Read", "io::Seek", "io::Write")}
# `#[tactic(auto, using(crate::proofs::File::law), unfolding(bits::specs::Bits::field))]`
TACTIC = re.compile(r"#!?\[tactic\((?P<said>[^\]]*)\)\]")
CITED = re.compile(r"\b(?P<crate>\w+)::(?P<file>(?:specs|proofs)(?:::\w+)+)::(?P<name>[^\s(),:]+)")
GHOST = re.compile(r"^ghost use (?P<path>[^;]+);\n?", re.M)
# a ghost field of a struct, a ghost member of a trait or an impl
MEMBER = re.compile(r"^\s+(?:pub )?ghost \w+(?:: | = )\{(?P<said>.*?)\}[,;]", re.M | re.S)
QUOTED = re.compile(r"`([^`\n]+)`")
PLACE = re.compile(r"(?P<crate>\w+)/(?P<file>(?:specs|proofs)/[\w/+-]+)(?:\.(?P<name>\S+))?")
COMMENT = re.compile(r"(?:--|//) .*")
CARRYING = ["docs/PROMISES.md", "docs/DECISIONS.md"]
# files that a document names whole, as `crate/proofs/File`: what carries a promise, and what stays though nothing cites it any more
WHOLE = ["docs/PROMISES.md", "docs/PORT.md"]
ANSWER = re.compile(r"^\S+(?: \S+)* =\s*(?P<body>.*?)(?=^\S|\Z)", re.S | re.M)


@dataclass(frozen=True)
class Found:
    kind: str
    path: str
    line: int
    words: str

    def __str__(self):
        return f"{self.path}:{self.line}: {self.kind}: {self.words}"


def status(counts):
    """The exit status: 1 if anything is listed, whatever its kind."""
    return 1 if any(counts.values()) else 0


def line_at(text, place):
    return text.count("\n", 0, place) + 1


def bare_names(text):
    """The names that a text uses by themselves: no field, and of a name with dots its first part alone."""
    return {m[0].strip("«»") for m in NAME.finditer(text) if m.start() == 0 or text[m.start() - 1] != "."}


def used(name, names):
    """Whether a name, be it written in parts around its arguments, is among the names of a text."""
    plain = name.strip("«»")
    pieces = [p for p in name.split("◌") if p]
    if plain in names or "◌" in plain and pieces and all(p in names for p in pieces):
        return True
    return plain in ("◌>>=◌", "◌>>◌") and "do" in names


def clauses(plain):
    """(start, end) of each `requires`, `ensures`, ghost field and ghost member of a module of code."""
    for m in CLAUSE.finditer(plain):
        depth, at = 1, m.end()
        while depth and at < len(plain):
            depth += {"{": 1, "}": -1}.get(plain[at], 0)
            at += 1
        yield m.start(), at


# ---- laws


def asked_for(repository, code, definitions):
    """The declarations that somebody outside the definitions and proofs asks for."""
    for (crate, file), held in definitions.files.items():
        if file.endswith("/Proof"):
            yield from ((crate, file, d.name) for d in held.declarations.values() if d.name.endswith("_spec"))
        if file.endswith(("/Answers", "/Invariants")):
            yield from ((crate, file, d.name) for d in held.declarations.values() if is_answer(held, d))
    for (crate, module), held in code.modules.items():
        plain = code_without_comments(repository.text(code.paths[crate, module]))
        for tactic in TACTIC.finditer(plain):
            for m in CITED.finditer(tactic["said"]):
                yield crate if m["crate"] == "crate" else m["crate"], m["file"].replace("::", "/"), m["name"]
        said = " ".join(plain[a:b] for a, b in clauses(plain))
        yield from definitions.words(crate, None, said, definitions.scope_of(held))
    owed = {f"{kind}_{call.short}" for call in public_calls(code, Report()) for kind, owes in KINDS.items() if owes(call)}
    quoted, whole = quoted_in(repository)
    for (crate, file), held in definitions.files.items():
        for name, declaration in held.declarations.items():
            asked = name in quoted or (crate, file, name) in quoted or (crate, file) in whole and declaration.public
            if asked or crate == "promises" and name in owed:
                yield crate, file, declaration.name
    for path in repository.find("crates/*/specs/**/*.antt") + repository.find("crates/*/src/**/*.rt"):
        crate = path.split("/")[1]
        said = {name for comment in COMMENT.findall(repository.text(path)) for name in QUOTED.findall(comment) if "_" in name or "-" in name}
        for (owner, file), held in definitions.files.items():
            if owner == crate and file.startswith("proofs/"):
                yield from ((crate, file, held.declarations[name].name) for name in said if name in held.declarations)
    yield from RELATIONS | MAKERS
    for (crate, file), text in STATED.items():
        yield from ((crate, file, d.name) for d in file_of(text_of(text)).declarations.values())
    for edit in edits_of(repository).values():
        for path, _, new in edit.changes:
            for (crate, file), other in definitions.paths.items():
                if other == path:
                    yield from definitions.words(crate, file, new)
            for (crate, module), other in code.paths.items():
                if other == path:
                    yield from definitions.words(crate, None, new, definitions.scope_of(code.modules[crate, module]))


def is_answer(held, declaration):
    """Whether a declaration of a function's proof is what the toolchain asks for: its type is a goal's or a given's."""
    m = re.match(r"\s*:\s*(?P<alias>[^\s.]+)\.", declaration.text.partition(declaration.name)[2])
    return m is not None and held.aliases.get(m["alias"], "").endswith((".Goals", ".Given"))


def quoted_in(repository):
    """What documents name in backquotes: `crate/proofs/File.name` in any, `name` and whole files in those that say what carries a rule."""
    quoted, whole = set(), set()
    for path in repository.find("docs/*.md"):
        carries = path in CARRYING
        for words in QUOTED.findall(repository.text(path)):
            m = PLACE.fullmatch(words)
            if m and m["name"]:
                quoted.add((m["crate"], m["file"], m["name"]))
            elif m and path in WHOLE:
                whole.add((m["crate"], m["file"]))
            if carries:
                quoted.add(words.split(".")[-1])
    return quoted, whole


def text_of(block):
    """An indented block at the left margin."""
    lines = block.strip("\n").splitlines()
    depth = min(len(line) - len(line.lstrip()) for line in lines if line.strip())
    return "\n".join(line[depth:] for line in lines)


def cited_by(definitions, crate, file, declaration):
    text = " ".join(declaration.sections) + "\n" + declaration.text
    return {node for node in definitions.words(crate, file, text) if node and node[1] and "/" in node[1]}


def unused_laws(repository):
    code = Code(repository)
    definitions = Definitions(repository, code)
    named = {}
    for (crate, file), held in definitions.files.items():
        for declaration in held.declarations.values():
            named[crate, file, declaration.name] = declaration
    below = {node: cited_by(definitions, node[0], node[1], declaration) - {node} for node, declaration in named.items()}
    alive, todo = set(), [node for node in asked_for(repository, code, definitions) if node in named]
    while todo:
        node = todo.pop()
        if node not in alive:
            alive.add(node)
            todo += [other for other in below[node] if other in named]
    cited = set().union(*below.values()) if below else set()
    for node, declaration in named.items():
        if node not in alive:
            path = definitions.paths[node[0], node[1]]
            at = line_at(repository.text(path), declaration.start)
            why = "only idle ones cite it" if node in cited else "nothing cites it"
            yield Found("law", path, at, f"{declaration.name}: {why}")


# ---- imports


def idle_in_text(text):
    """(line, what it brings, the parts of its list to keep or none for a module, the line) of each `use` line that brings too much."""
    plain = without_comments(text)
    lines, rest, paths = plain.splitlines(), [], []
    uses = {}
    for number, line in enumerate(lines):
        use = TEXT_USE.match(line.rstrip())
        if use and not line.startswith(" "):
            uses[number] = use
            paths.append(use["path"].split(".")[0])
        else:
            rest.append(line)
    names = bare_names("\n".join(rest)) | set(paths)
    for number, use in uses.items():
        if use["open"]:
            continue
        if use["list"] is None:
            called = use["name"] or use["path"].split(".")[-1]
            if called not in names:
                yield number, [called], []
            continue
        parts = [part.strip() for part in use["list"].split(",") if part.strip()]
        idle = [part for part in parts if not used(brought(part), names)]
        if idle:
            yield number, idle, [part for part in parts if part not in idle]


def brought(part):
    """The name that a part of a list brings: `a`, `a as b`, `N.d`."""
    name, _, other = part.partition(" as ")
    return other.strip() or name.strip().rsplit(".", 1)[-1]


def idle_in_code(text, extra=""):
    """The same for a module of code, with the place and the length of each line in the text."""
    plain = code_without_comments(text)
    held = " ".join([*(plain[a:b] for a, b in clauses(plain)), *(m["said"] for m in MEMBER.finditer(plain)), extra])
    ghosts = bare_names(held)
    for m in GHOST.finditer(plain):
        scope = File({}, {}, {}, {})
        use = TEXT_USE.match("use " + " ".join(m["path"].split()))
        if use is None:
            continue
        if use["list"] is None:
            bring(scope, use)
            if not any(name in ghosts for name in scope.aliases):
                yield m, "ghost use", list(scope.aliases), []
            continue
        parts = [part.strip() for part in use["list"].split(",") if part.strip()]
        idle = [part for part in parts if not used(brought(part), ghosts)]
        if idle:
            yield m, "ghost use", idle, [part for part in parts if part not in idle]
    rest = CODE_USE.sub(" ", GHOST.sub(" ", plain)) + " " + extra
    words = set(re.findall(r"\w+", rest)) | {path.split("::")[0] for m in CODE_USE.finditer(plain) for _, path in spread(m["path"])}
    for m in CODE_USE.finditer(plain):
        if m["open"]:
            continue
        pairs = spread(m["path"])
        idle = [name for name, path in pairs if name not in words and name != "*" and path not in TRAITS]
        if idle:
            yield m, "use", idle, [path for name, path in pairs if name not in idle]


def edited(repository, path):
    """What edits put into a file: a name that only they need stays."""
    return " ".join(new for edit in edits_of(repository).values() for file, _, new in edit.changes if file == path)


def unused_imports(repository):
    for path in texts(repository):
        extra = bare_names(edited(repository, path))
        for number, idle, _ in idle_in_text(repository.text(path)):
            for part in idle:
                if not used(brought(part), extra):
                    yield Found("import", path, number + 1, part)
    for path in repository.find("crates/*/src/**/*.rt"):
        text = repository.text(path)
        for m, word, idle, _ in idle_in_code(text, edited(repository, path)):
            for part in idle:
                yield Found("import", path, line_at(text, m.start()), f"{word} {part}")


def fixed_text(text, extra=""):
    """A file of definitions or proofs without the names that it doesn't use."""
    lines = text.splitlines(keepends=True)
    kept = bare_names(extra)
    for number, idle, keep in idle_in_text(text):
        held = [part for part in idle if used(brought(part), kept)]
        use = TEXT_USE.match(lines[number].rstrip())
        if use is None:  # a comment stands behind it
            continue
        order = [part.strip() for part in (use["list"] or "").split(",") if part.strip()]
        parts = [part for part in order if part in keep or part in held]
        if use["list"] is None and held:
            continue
        lines[number] = f"use {use['path']}.{{{', '.join(parts)}}}\n" if parts else ""
    return "".join(lines)


def fixed_code(text, extra=""):
    for m, word, _, keep in sorted(idle_in_code(text, extra), key=lambda found: -found[0].start()):
        end = m.end()
        if not keep:
            new = ""
            end += text[end : end + 1] == "\n" and not text[m.start() : m.end()].endswith("\n")
        elif word == "ghost use":
            path = m["path"].partition(".{")[0]
            new = f"ghost use {path}.{{{', '.join(keep)}}};" + ("\n" if text[m.start() : m.end()].endswith("\n") else "")
        else:
            new = "\n".join(f"use {path};" for path in keep)
        text = text[: m.start()] + new + text[end:]
    return text


def fix_imports(repository):
    """Rewrites the files that bring too much; answers their paths."""
    changed = []
    for path in texts(repository) + repository.find("crates/*/src/**/*.rt"):
        old = repository.text(path)
        new = (fixed_code if path.endswith(".rt") else fixed_text)(old, edited(repository, path))
        if new != old:
            (repository.root / path).write_text(new)
            changed.append(path)
    return changed


# ---- what is hard to read


def texts(repository):
    return repository.find("crates/*/specs/**/*.antt") + repository.find("crates/*/proofs/**/*.antt")


def long_lines(repository):
    for path in texts(repository):
        for number, line in enumerate(repository.text(path).splitlines(), 1):
            if len(line) >= LONG_TEXT and not TEXT_USE.match(line.rstrip()):
                yield Found("long", path, number, f"{len(line)} characters")
    for path in repository.find("crates/*/src/**/*.rt"):
        plain = code_without_comments(repository.text(path))
        for start, end in clauses(plain):
            first = line_at(plain, start)
            for number in range(first, line_at(plain, end) + 1):
                line = plain.splitlines()[number - 1]
                if len(line) > LONG_CONTRACT:
                    yield Found("long", path, number, f"{len(line)} characters of a contract")


def chains(repository):
    for path in texts(repository):
        plain = without_comments(repository.text(path))
        for m in CHAIN.finditer(plain):
            line = plain[plain.rfind("\n", 0, m.start()) + 1:].split("\n", 1)[0]
            if NAMED.match(line):
                continue
            yield Found("chain", path, line_at(plain, m.start()), f"{m[0].count('.before')} times `.before`")


def only_searches(plain):
    """Whether every answer of a proof is `search rules`; the closing line that gathers them is no answer."""
    answers = [" ".join(m["body"].split()) for m in ANSWER.finditer(plain)]
    return bool(answers) and all(body == "search rules" or re.match(r"(?:tie\.)?close\b", body) for body in answers)


def without_sentence(repository):
    for path in repository.find("crates/*/proofs/**/*.antt"):
        text = repository.text(path)
        first = next((line for line in text.splitlines() if line.strip()), "")
        if path.endswith("/Lib.antt") or re.match(r"--+ .*\w", first):
            continue
        if not only_searches(without_comments(text)):
            yield Found("sentence", path, 1, "no sentence says why it holds")


def all_found(repository):
    for kind in (unused_laws, unused_imports, long_lines, chains, without_sentence):
        yield from kind(repository)

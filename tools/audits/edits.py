"""Edits that the prover must refuse: crates/CRATE/must-fail/NAME.edit, tried by every check, and edits/CRATE/NAME.edit, tried where a
crate is touched. An edit is a list of three lines, `file:` (from crates/CRATE on), `old:` and `new:`; it fits if each old text stands in
its file once, and it touches the items and declarations that these texts stand in.
"""
from dataclasses import dataclass

from .code import without_comments

FOLDERS = ["crates/*/must-fail/*.edit", "edits/*/*.edit"]


@dataclass(frozen=True)
class Edit:
    name: str  # CRATE/NAME
    crate: str
    path: str
    changes: tuple  # (path of the file from the root, old, new)

    @property
    def always(self):
        return "/must-fail/" in self.path


def edits_of(repository):
    """Every edit, by its name; a must-fail one hides one of edits/ with the same name (and `doubled` tells)."""
    return repository.once("edits", lambda: read_all(repository)[0])


def doubled(repository):
    return read_all(repository)[1]


def read_all(repository):
    found, twice = {}, []
    for pattern in FOLDERS:
        for path in repository.find(pattern):
            parts = path.split("/")
            crate = parts[1]
            name = f"{crate}/{parts[-1][: -len('.edit')]}"
            if name in found:
                twice.append(name)
                continue
            found[name] = Edit(name, crate, path, tuple(changes(repository.text(path), crate)))
    return found, twice


def changes(text, crate):
    file, old = "", None
    for line in text.splitlines():
        word, _, rest = line.partition(": ") if ": " in line else (line.rstrip(":"), "", "")
        if word == "file":
            file = f"crates/{crate}/{rest.strip()}"
        elif word == "old":
            old = rest
        elif word == "new" and old is not None:
            yield file, old, rest
            old = None


def fits(repository, edit):
    """No change is empty, and each old text stands exactly once in its file, as the changes before it left that."""
    texts = {}
    for file, old, new in edit.changes:
        text = texts.get(file, repository.text(file))
        if text is None or old == new or text.count(old) != 1:
            return False
        texts[file] = text.replace(old, new)
    return bool(edit.changes)


def touched(repository, code, definitions, edit):
    """The nodes that an edit changes."""
    found = set()
    for file, old, _ in edit.changes:
        text = repository.text(file)
        at = text.find(old) if text is not None else -1
        if at < 0:
            continue
        at += len(old) - len(old.lstrip())
        for (crate, module), path in code.paths.items():
            if path == file:
                held = [i for i in code.modules[crate, module].items.values() if i.start <= at < i.end]
                found |= {("code", crate, module, i.name) for i in held}
        for (crate, name), path in definitions.paths.items():
            if path == file:
                held = [d for d in definitions.files[crate, name].declarations.values() if d.start <= at < d.end]
                found |= {("text", crate, name, d.name) for d in held}
    return found


def stays_in(repository, edit, path, start, end):
    """Whether every text that an edit changes stands there, none of them in a comment."""
    plain = without_comments(repository.text(path))

    def stands(file, old):
        at = plain.find(old) if file == path else -1
        return at >= 0 and start <= at + len(old) - len(old.lstrip()) < end

    return bool(edit.changes) and all(stands(file, old) for file, old, _ in edit.changes)

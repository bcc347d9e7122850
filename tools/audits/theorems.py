"""The theorems of crate promises on the public calls: each that a call owes (owed.py) is there, and is of its shape (shapes.py)."""
from . import terms
from .owed import KINDS
from .shapes import Shapes
from .statement import Wrong, statement_of


def theorems_of(definitions):
    """The public theorems of crate promises by name: the files that have one so named."""
    found = {}
    for (crate, file), held in sorted(definitions.files.items()):
        if crate == "promises" and file.startswith("proofs/"):
            for name, declaration in held.declarations.items():
                if declaration.public:
                    found.setdefault(name, []).append(file)
    return found


def hold_theorems(call, contract, named, definitions, reach, code, report):
    """Holds each theorem that a call owes to its shape; answers the file of each. `named` are the theorems by name."""
    found = {}
    for kind, owed in KINDS.items():
        name = f"{kind}_{call.short}"
        files = named.get(name, [])
        if not owed(call):
            if kind == "refused":
                report.hold(not files, f"{call.name}: crate promises has {name}, but it is listed as never refusing")
            continue
        if not report.hold(files, f"{call.name}: crate promises has no {name}"):
            continue
        reasons = []
        for file in files:
            declaration = definitions.declaration(("promises", file, name))
            try:
                statement = statement_of(definitions, "promises", file, declaration)
                getattr(Shapes(call, contract, definitions, reach, code), kind)(statement)
                found[kind] = file
                break
            except (Wrong, terms.Unread) as why:
                reasons.append(str(why))
            except (IndexError, StopIteration, TypeError, ValueError):
                reasons.append("it is not made of the parts that its kind has")
        report.hold(kind in found, f"{call.name}: {name} is not of its shape: {'; '.join(reasons)}")
    return found

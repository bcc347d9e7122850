"""The table of public calls in docs/PROMISES.md: each call, the definitions that its contract names, the theorem that two conforming
answers coincide, and two wrong answers that are tried; below it the edits that would be named nowhere. Of the edits that touch something a
call rests on, its row has the nearest: those of the call's own function or of a definition that its contract names, then those of its
own crate, then by the number of steps from the call; of two as near one that every check tries, then by name.
"""
import re

from .edits import doubled, edits_of, fits
from .statement import signature

DOCUMENT = "docs/PROMISES.md"
SECTION = re.compile(r"^## Public calls\n(?P<body>.*?)(?=^## |\Z)", re.S | re.M)
HEADING = "| Call | Definition | Theorem (crate promises) | Wrong answers tried |\n|---|---|---|---|\n"


def near(call, cited, reach, edit, nodes):
    """How near to a call the nodes are that an edit touches, least first; none if the call rests on none of them."""
    far = reach.of(("code", *call.node))
    steps = [far[node] for node in nodes if node in far]
    own = {("code", *call.node)} | {("text", *node) for node in cited}
    return (not own & nodes, edit.crate != call.node[0], min(steps), not edit.always, edit.name) if steps else None


def wrong_answers(call, cited, reach, edits, changed):
    """The edits that a call rests on, the nearest first."""
    held = [near(call, cited, reach, edit, changed[name]) for name, edit in edits.items()]
    return [h[-1] for h in sorted(h for h in held if h)]


def row_of(call, cited, theorem, tried):
    definitions = ", ".join(f"`{node[2]}`" for node in cited)
    return f"| `{call.name}` | {definitions} | `{theorem}` | {', '.join(f'`{name}`' for name in tried[:2])} |\n"


def by_crate(names):
    """Names of edits, (CRATE) before the first of each."""
    found = []
    for crate in dict.fromkeys(name.split("/")[0] for name in names):
        found.append(f"({crate}) " + ", ".join(name.split("/")[1] for name in names if name.split("/")[0] == crate))
    return ", ".join(found)


def lists_below(text, tried, edits, aside):
    """What stands below the table: the edits that the document names nowhere else, and those that no call rests on, among them those of
    conversions and of functions of tests and of programs."""
    m = SECTION.search(text)
    elsewhere = set(re.findall(r"\w+", text[: m.start()] + text[m.end() :] if m else text))
    shown = {name for held in tried.values() for name in held[:2]}
    reached = set().union(*tried.values())
    besides = [name for name in sorted(reached - shown) if name.split("/")[1] not in elsewhere]
    beyond, apart = sorted(set(edits) - reached - aside), sorted(aside - reached)
    below = f"\nEdits of what some call rests on, besides: {by_crate(besides)}.\n" if besides else ""
    below += f"\nEdits of conversions (`From`) that callers can make, and of functions of tests and of programs: {by_crate(apart)}.\n" if apart else ""
    return below + (f"\nEdits of definitions that no call rests on, but a theorem does: {by_crate(beyond)}.\n" if beyond else "")


def rows_in(text):
    """The rows that the document has, by call, and what stands below them."""
    m = SECTION.search(text)
    body = m["body"] if m else ""
    rows = {line.split("`")[1]: line + "\n" for line in body.splitlines() if line.startswith("| `")}
    return rows, body[body.rfind("|\n") + 2 :]


def hold_table(repository, rows, below, report):
    """The document has the rows that the code gives, in their order, and the lists below them."""
    there, behind = rows_in(repository.text(DOCUMENT))
    for call, row in rows.items():
        if report.hold(call in there, f'{call} has no row in {DOCUMENT}, "Public calls"'):
            report.hold(there[call] == row, f"the row of {call} in {DOCUMENT} is stale: `tools/audit --table` would write {row.strip()}")
    for call in there:
        report.hold(call in rows, f"{DOCUMENT} has a row for {call}, which is no public call")
    report.hold(list(there) == list(rows) or set(there) != set(rows), f"the rows of {DOCUMENT} stand in another order than the calls")
    report.hold(behind.strip() == below.strip(), f"the lists of edits below the table of {DOCUMENT} are stale: `tools/audit --table` writes them")


def stated_of(edit, nodes, definitions, reach):
    """Whether a theorem of the edit's crate, or of crate promises, speaks of something that the edit touches."""
    for (crate, file), held in definitions.files.items():
        if crate in (edit.crate, "promises") and file.startswith("proofs/"):
            for declaration in held.declarations.values():
                if declaration.public and declaration.kind == "term":
                    said = definitions.words(crate, file, " ".join(declaration.sections) + signature(declaration))
                    if any(nodes & reach.of(node).keys() for node in map(reach.node, said) if node):
                        return True
    return False


def hold_edits(repository, report):
    """Each edit fits its file and is named in the document."""
    words = set(re.findall(r"\w+", repository.text(DOCUMENT)))
    for name, edit in edits_of(repository).items():
        report.hold(fits(repository, edit), f"the edit {edit.path} doesn't fit its file")
        report.hold(name.split("/")[1] in words, f"{DOCUMENT} doesn't name the edit {edit.path}")
    for name in doubled(repository):
        report.hold(False, f"there are two edits {name}")


def write_table(repository, rows, below):
    """Puts the rows and the lists below them into the document; answers whether it changed."""
    text = repository.text(DOCUMENT)
    m = SECTION.search(text)
    body = m["body"]
    before = body[: body.index("| Call ")] if "| Call " in body else body.rstrip("\n") + "\n\n"
    rest = text[m.end("body") :]
    fresh = text[: m.start("body")] + before + HEADING + "".join(rows.values()) + below + ("\n" + rest if rest else "")
    (repository.root / DOCUMENT).write_text(fresh)
    return fresh != text

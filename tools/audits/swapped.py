"""Every two neighbours in the C interface swapped, in each place that declares it: fields of a struct, parameters of a function."""
import re

from .code import without_comments
from .interface import CALLED, HEADER, LIBRARY, RAW, interface_is_one
from .repository import Report, Repository

# where a list stands, and what its parts are: whole lines of a struct, or what commas divide
STRUCTS = r"struct \w+ \{\n(.*?)^\}"
LISTS = {HEADER: r"^\w+ vrf_\w+\(([^)]*)\);", RAW: r"fn vrf_\w+\(([^)]*)\)", LIBRARY: r"fn vrf_\w+(?:<[^>]*>)?\(([^)]*)\)", CALLED: r"(?:fn|exports::)\s*vrf_\w+(?:<[^>]*>)?\(([^)]*)\)"}


def swaps(text, pattern, split, join):
    """The text with each two neighbours of each list swapped."""
    for m in re.finditer(pattern, text, re.S | re.M):
        held = split(m[1])
        for k in range(len(held) - 1):
            if held[k].strip() and held[k + 1].strip():
                other = held[:k] + [held[k + 1], held[k]] + held[k + 2 :]
                yield text[: m.start(1)] + join(other) + text[m.end(1) :]


def neighbours_swapped(root):
    """(how many were tried, those that were not noticed)."""
    tried, missed, base = 0, [], Repository(root)
    interface_is_one(base, Report())
    for path, lists in LISTS.items():
        text = base.text(path)
        bare = re.sub(r"/\*.*?\*/", "", text, flags=re.S) if path == HEADER else without_comments(text)
        fields = [("fields", changed) for changed in swaps(bare, STRUCTS, lambda t: t.splitlines(keepends=True), "".join)]
        handed = [("parameters", changed) for changed in swaps(bare, lists, lambda t: t.split(","), ",".join)]
        for what, changed in fields + handed:
            tried += 1
            repository, report = Repository(root), Report()
            repository.kept, repository.texts = base.kept, {**base.texts, path: changed}
            interface_is_one(repository, report)
            if not report.faults:
                missed.append(f"{what} in {path}")
    return tried, missed

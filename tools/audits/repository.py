"""The files of a copy of this repository, read once, and the list of faults found in it."""
import os
import re
import subprocess
from functools import lru_cache
from pathlib import Path

# crates whose `pub fn` callers outside may name
PUBLIC = ["bitio", "schema", "array", "fastarray", "geometry", "exports"]
# modules of other crates that they may name too: (crate, module)
PUBLIC_MODULES = [("bits", "digits"), ("bits", "decimal")]
# crates of which nothing is promised to callers: those of tests and of programs
TESTED = ["probes", "recorded", "vrf", "words"]


class Repository:
    def __init__(self, root):
        self.root = Path(root)
        self.texts = {}
        self.kept = {}

    def text(self, path):
        """The text of a file, by its path from the root; none if there is no such file."""
        if path not in self.texts:
            file = self.root / path
            self.texts[path] = file.read_text() if file.is_file() else None
        return self.texts[path]

    def once(self, what, make):
        """What was made before under this name, or what `make` makes now."""
        if what not in self.kept:
            self.kept[what] = make()
        return self.kept[what]

    def crates(self):
        lines = self.text("crates.txt").splitlines()
        return [line.split(":")[0].split()[0] for line in lines if line.split("#")[0].partition(":")[0].strip()]

    def find(self, pattern):
        """The paths from the root that fit a pattern with * and **, in order."""
        form = re.compile(re.escape(pattern).replace(r"\*\*/", "(?:.*/)?").replace(r"\*", "[^/]*"))
        return self.once(("find", pattern), lambda: [name for name in self.listed() if form.fullmatch(name)])

    def listed(self):
        """Every file that belongs to the repository."""
        return self.once("listed", lambda: listed(self.root))


def listed(root):
    asked = ["git", "ls-files", "-co", "--exclude-standard"]
    said = subprocess.run(asked, cwd=root, capture_output=True, text=True) if (root / ".git").exists() else None
    if said is not None and said.returncode == 0:
        return sorted(name for name in said.stdout.splitlines() if (root / name).is_file())
    found = []
    for folder, below, names in os.walk(root):
        below[:] = [name for name in below if name not in ("target", ".git", "out")]
        found += [os.path.relpath(os.path.join(folder, name), root) for name in names]
    return sorted(found)


class Report:
    """What was looked at, and what was wrong."""

    def __init__(self):
        self.looked = 0
        self.faults = []

    def hold(self, good, words):
        self.looked += 1
        if not good:
            self.faults.append(words)
        return bool(good)


kept_by_text = lru_cache(maxsize=None)

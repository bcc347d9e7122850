"""What must be noticed: one wrong thing after the other (trials.py) is done to a copy of the repository, and each has to give a fault that
names its subject. Besides, every contract and every theorem is weakened in the ways that emptied.py lists, and all neighbours in the C
interface are swapped (swapped.py). The copy as it stands has to give no fault.
"""
import shutil
import tempfile
from dataclasses import dataclass
from pathlib import Path

from .documents import BINARY
from .emptied import contracts_weakened, theorems_weakened
from .look import look
from .repository import listed
from .swapped import neighbours_swapped
from .trials import TRIALS


@dataclass
class Copy:
    """A copy of the repository in which one thing is changed at a time."""

    root: Path

    def changed(self, path, old, new):
        """The faults with one file changed; none if the old text isn't there."""
        file = self.root / path
        text = file.read_text() if file.is_file() else ""
        if old not in text:
            return None
        file.write_text(text.replace(old, new, 1))
        faults = look(self.root).report.faults
        file.write_text(text)
        return faults

    def without(self, paths):
        """The faults with some files left out."""
        kept = {path: (self.root / path).read_text() for path in paths}
        for path in paths:
            (self.root / path).unlink()
        faults = look(self.root).report.faults
        for path, text in kept.items():
            (self.root / path).write_text(text)
        return faults


def copied(root, folder):
    for name in listed(root):
        if not name.endswith(BINARY):
            (folder / name).parent.mkdir(parents=True, exist_ok=True)
            shutil.copyfile(root / name, folder / name)
    return Copy(folder)


def noticed(what, faults, words):
    """Whether one fault has all the words; a line says so."""
    found = next((f for f in faults or [] if all(word in f for word in words)), None)
    other = "it can't be done: the text isn't there" if faults is None else f"NOT NOTICED; {len(faults)} other faults: {faults[:1]}"
    print(f"{what}: {(found or other)[:160]}")
    return found is not None


def all_noticed(what, tried, missed):
    print(f"{what}: {tried - len(missed)} of {tried}{'; NOT NOTICED: ' + '; '.join(missed[:5]) if missed else ''}")
    return not missed


def self_test(root):
    with tempfile.TemporaryDirectory() as folder:
        copy = copied(root, Path(folder))
        seen = look(copy.root)
        for words in seen.report.faults:
            print(f"the copy as it stands: {words}")
        if seen.report.faults:
            return 1
        good = [noticed(what, copy.changed(path, old, new), words) for what, path, old, new, words in TRIALS]
        edits = [seen.edits[name].path for name in seen.tried["bitio::new"]]
        good.append(noticed("all edits but one that bitio::new rests on left out", copy.without(edits[1:]), ["bitio::new", "fewer than two"]))
        good.append(all_noticed("every contract weakened in seven ways", *contracts_weakened(seen)))
        good.append(all_noticed("every theorem on a public call weakened in some ways", *theorems_weakened(seen)))
        good.append(all_noticed("every two neighbours in a struct or a list of parameters of the C interface swapped", *neighbours_swapped(copy.root)))
    print(f"{sum(good)} of {len(good)} noticed")
    return 0 if all(good) else 1

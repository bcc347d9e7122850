"""Names in docs/ exist, edits among them; sections of 01 that comments name are in docs/RULES.md; no file holds a path of a machine."""
import re

from .definitions import file_of
from .edits import edits_of
from .repository import kept_by_text

MACHINE = re.compile(r"(?<![\w.])/(?:home|root|work|opt|tmp|Users|mnt|srv|var)/")
BINARY = (".bin", ".gz")
# `must-fail (crate) name, name, (crate) name`, or `edits` so: where edits stand that a rule names
TRIED = re.compile(r"\b(must-fail|edits)((?:[,:/]? *(?:\(\w+\)|[a-z0-9]+_\w+))+)")

RULES = "docs/RULES.md"
# `01, Walking an array, rules 6 and 8` in a comment, or another section behind a semicolon
SECTION = re.compile(r"\b01, ([A-Z][a-z-]*(?: [a-z]+)*)((?:; [A-Z][a-z-]*(?: [a-z]+)*)*)")
NUMBERS = re.compile(r"\b[Rr]ules? (\d+(?:, \d+)*(?: (?:and|to) \d+)?)")


def names_exist(repository, report):
    """Every `crate/specs/File.name`, `crate/proofs/File.name` and `crate::name` that docs/ names."""
    crates = set(repository.crates())
    for path in repository.find("docs/*.md"):
        text, doc = repository.text(path), path.split("/")[-1]
        for crate, kind, name in re.findall(r"`(\w+)/(specs|proofs)/([\w./-]+?)`", text):
            if crate == "crate":  # the form of such a name
                continue
            file, _, word = name.partition(".")
            held = repository.text(f"crates/{crate}/{kind}/{file}.antt")
            if report.hold(held is not None, f"{doc} names {crate}/{kind}/{file}, which isn't there") and word:
                inner = re.search(rf"^ +(?:pub )?(?:[^\s():]+ )*{re.escape(word)}(?: [^\s():]+)* :", held, re.M)
                declared = word in file_of(held).declarations or inner
                report.hold(declared, f"{doc} names {crate}/{kind}/{name}, which isn't declared there")
        for name in re.findall(r"`(\w+(?:::\w+)+)`", text):
            crate, *inside = name.split("::")
            if crate not in crates:
                continue
            file = "lib" if len(inside) == 1 else "/".join(inside[:-1])
            held = repository.text(f"crates/{crate}/src/{file}.rt") or ""
            found = re.search(rf"\b(?:fn|struct|enum|const|mod) {inside[-1]}\b", held)
            report.hold(found, f"{doc} names {name}, which isn't there")


def tried_exist(repository, report):
    """Every edit that docs/ names by its folder is in that folder, and in the crate that is named."""
    known = {(edit.always, edit.crate, name.split("/")[1]) for name, edit in edits_of(repository).items()}
    for path in repository.find("docs/*.md"):
        for folder, listed in TRIED.findall(repository.text(path)):
            crate = None
            for word in re.findall(r"\(\w+\)|\w+", listed):
                if word.startswith("("):
                    crate = word[1:-1]
                    continue
                found = any(always == (folder == "must-fail") and owner == (crate or owner) and name == word for always, owner, name in known)
                report.hold(found, f"{path.split('/')[-1]} names the edit {word} of {folder}{f' ({crate})' if crate else ''}, which isn't there")


def sections_exist(repository, report):
    """Every section and every rule of 01 that a comment in crates/ names stands in docs/RULES.md, in our words."""
    text = repository.text(RULES) or ""
    headings = re.findall(r"^## (.+)$", text, re.M)
    walking = text.partition("## Walking an array")[2].partition("\n## ")[0]
    rules = re.findall(r"^(\d+)\. ", walking, re.M)
    for path in repository.find("crates/**/*.antt") + repository.find("crates/**/*.rt"):
        for line in repository.text(path).splitlines():
            said = re.search(r"(?:--|//) (.*)", line)
            if not said:
                continue
            for first, others in SECTION.findall(said[1]):
                for name in [first] + [o for o in others.split("; ") if o]:
                    report.hold(any(name.startswith(h) for h in headings), f"{path} names 01's section {name}, which {RULES} doesn't have")
            for listed in NUMBERS.findall(said[1]):
                missing = [n for n in re.findall(r"\d+", listed) if n not in rules]
                report.hold(not missing, f"{path} names rule {', '.join(missing)}, which {RULES} doesn't have")


def no_machine(repository, report):
    for name in repository.listed():
        if name.endswith(BINARY):
            continue
        try:
            text = repository.text(name)
        except UnicodeDecodeError:
            continue
        report.hold(not of_machine(text), f"{name} holds a path of a machine")


@kept_by_text
def of_machine(text):
    return MACHINE.search(text) is not None

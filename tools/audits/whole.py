"""Proofs are whole: no hole (`?`, `?name`, a probe `{! .. !}`), no axiom, no crate takes functions of C for granted. And all is checked:
every crate is one that crates.txt lists, every file of definitions or laws one that its crate's Lib.antt names."""
import re

from . import code, definitions
from .repository import PUBLIC, kept_by_text

# what would stand in for a proof
ABSENT = {"axiom", "lem", "ac", "sorry", "admit", "postulate"}
EDGE = r"[^\s(){}.;,@\"«»]"
HOLE = re.compile(rf"(?<!{EDGE})\?|\{{!")


@kept_by_text
def lacks(text):
    """The hole and the axioms of a proof's text."""
    bare = re.sub(r'"(?:\\.|[^"\\\n])*"|«[^»]*»', " ", definitions.without_comments(text))
    hole = HOLE.search(bare)
    named = set(re.findall(rf"{EDGE}+", bare)) & ABSENT | ({"Prim.Axiom"} if "Prim.Axiom" in bare else set())
    return bare[hole.start() :].split()[0] if hole else "", ", ".join(sorted(named))


def all_is_checked(repository, report):
    listed = set(repository.crates())
    for crate in sorted({path.split("/")[1] for path in repository.find("crates/*/**/*")} | set(PUBLIC)):
        report.hold(crate in listed, f"crates.txt doesn't list {crate}")
    for path in repository.find("crates/*/specs/*.antt") + repository.find("crates/*/proofs/*.antt"):
        folder, name = path.rsplit("/", 1)
        lib = definitions.without_comments(repository.text(f"{folder}/Lib.antt") or "")
        named = name == "Lib.antt" or re.search(rf"^(?:pub )?mod {re.escape(name[: -len('.antt')])}$", lib, re.M)
        report.hold(named, f"{folder}/Lib.antt doesn't name {name}")


def proofs_are_whole(repository, report):
    for path in repository.find("crates/**/*.antt"):
        hole, axioms = lacks(repository.text(path))
        report.hold(not hole, f"{path} has a hole: {hole}")
        report.hold(not axioms, f"{path} names an axiom: {axioms}")
    for path in repository.find("crates/**/*.rt"):
        text = code.without_comments(repository.text(path))
        report.hold(not re.search(r'extern\s+("[^"]*"\s*)?\{', text), f"{path} imports C functions")
        hole = next((a for _, a, b, _ in code.clauses_in(text) if HOLE.search(text[a:b])), None)
        report.hold(hole is None, f"{path} has a hole in a contract")

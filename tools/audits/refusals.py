"""Refusals in words: docs/REFUSALS.md has the table, a row for each number with its name and its sentence ("When it is given"); what is said
elsewhere is held to it. A number whose row says `retired` in the name's place has no name and no sentence, and stays reserved.

  host/c/vrf.h                  the constants VRF_REFUSED_NAME have the table's names and numbers, all and no other; in the comment's list
                                each number has its sentence
  crates/tell/src/refusals.rt   `meaning` prints for each number its sentence
  host/rust/src/lent.rs         the constants of `Refusal` have the table's names and numbers; `meaning` gives for each its sentence
  host/c/example.c              where a case returns words for a constant, they are its sentence
  crates/*/specs                the definitions give every number that has a name, and no other: none that is retired, none that the table
                                lacks. The code is proved against them

The header's list says of a retired number that no call gives it; the other places don't have it. Which are retired stands here too, since
the table alone could forget it.

A sentence agrees if it is the table's letter for letter, where line breaks and blanks between words count as one blank. Each place has every
number of the table (the example those that it has), and no number that the table lacks.
"""
import re

TABLE = "docs/REFUSALS.md"
HEADER = "host/c/vrf.h"
EXAMPLE = "host/c/example.c"
TELL = "crates/tell/src/refusals.rt"
LENT = "host/rust/src/lent.rs"
PREFIX = "VRF_REFUSED_"
# numbers that no refusal may have again, and what the header says of them
RETIRED = [5]
IS_RETIRED = "retired: no call gives it"
# how a definition gives a number, in an application or in a record; 0 stands for no refusal
GIVES = re.compile(r"\b(?:refusal|refused\w*|needing|overflowing|number)(?: =)? ([1-9]\d*)\b")


def one_line(text):
    return " ".join(text.split())


def table_of(text):
    """The number, name and sentence of each row."""
    return [(int(n), name, one_line(said)) for n, name, said in re.findall(r"^\| (\d+) \| `(\w+)` \| ([^|]*) \|", text, re.M)]


def retired_in(text):
    """The numbers that no refusal has any more."""
    return [int(n) for n in re.findall(r"^\| (\d+) \| retired \|", text, re.M)]


def given_by(repository):
    """The numbers that the crates' definitions give, each with the files that do."""
    found = {}
    for path in repository.find("crates/*/specs/**/*.antt"):
        for line in repository.text(path).splitlines():
            for n in GIVES.findall(line.split("--")[0]):
                found.setdefault(int(n), {})[path] = True
    return found


def listed_in(text):
    """The sentence of each number in the header's list: what stands before the gap on its lines."""
    m = re.search(r"^ \* Refusals,[^\n]*\n(.*?)^ \*   docs/REFUSALS\.md", text, re.S | re.M)
    found, number = {}, None
    for line in (m[1] if m else "").splitlines():
        entry = re.match(r" \* {3}( ?\d+)  (.*)", line)
        if entry:
            number = int(entry[1])
        words = entry[2] if entry else line.removeprefix(" *")
        found[number] = one_line(found.get(number, "") + " " + re.split(r"\s{2,}", words.strip())[0])
    return found


def body_of(text, start):
    """What stands between the braces of a function."""
    m = re.search(start + r"[^{]*\{\n(.*?)^( {4})?\}$", text, re.S | re.M)
    return m[1] if m else ""


def said_by_tell(text):
    arms = re.findall(r'^ {8}(\d+) => *(?:\{?\s*)"([^"]*)"(?:\s*\}|,)', body_of(text, r"^fn meaning\("), re.M)
    return {int(n): one_line(said) for n, said in arms}


def said_by_rust(text):
    return dict(re.findall(r'Self::(\w+) => "([^"]*)",', body_of(text, r"pub fn meaning\(")))


def hold_all(report, place, what, there, due):
    """What a place says of each number or name is what is due, and it says nothing of others."""
    for key, said in due.items():
        if report.hold(key in there, f"{place}: {what} {key} of {TABLE} isn't there"):
            report.hold(there[key] == said, f"{place}: {what} {key} is \"{there[key]}\", but {TABLE} has \"{said}\"")
    others = [str(key) for key in there if key not in due]
    report.hold(not others, f"{place}: {what} {', '.join(others)}, which {TABLE} lacks")


def refusals_agree(repository, report):
    texts = {place: repository.text(place) for place in (TABLE, HEADER, EXAMPLE, TELL, LENT)}
    for place, text in texts.items():
        if not report.hold(text is not None, f"{place} isn't there"):
            return
    rows = table_of(texts[TABLE])
    retired = retired_in(texts[TABLE])
    report.hold(retired == RETIRED, f"{TABLE}: the retired refusals are {retired}, but they have to be {RETIRED}")
    report.hold(sorted([n for n, _, _ in rows] + retired) == list(range(1, 15)), f"{TABLE}: the rows are not those of the numbers 1 to 14")
    numbers = {name: n for n, name, _ in rows}
    report.hold(len(numbers) == len(rows), f"{TABLE}: a name stands twice")
    sentences = {n: said for n, _, said in rows}
    named = {name: said for _, name, said in rows}
    header = re.sub(r"/\*.*?\*/", " ", texts[HEADER], flags=re.S)
    constants = {name: int(n) for name, n in re.findall(rf"\b({PREFIX}\w+) = (\d+)", header)}
    hold_all(report, HEADER, "the constant", constants, {PREFIX + name: n for name, n in numbers.items()})
    hold_all(report, HEADER, "the sentence of refusal", listed_in(texts[HEADER]), {**sentences, **dict.fromkeys(retired, IS_RETIRED)})
    hold_all(report, TELL, "the sentence of refusal", said_by_tell(texts[TELL]), sentences)
    held = re.search(r"^impl Refusal \{(.*?)^\}", texts[LENT], re.S | re.M)
    constants = {name: int(n) for name, n in re.findall(r"pub const (\w+): u32 = (\d+);", held[1] if held else "")}
    hold_all(report, LENT, "the constant", constants, numbers)
    hold_all(report, LENT, "the sentence of refusal", said_by_rust(texts[LENT]), named)
    given = given_by(repository)
    for n, paths in given.items():
        report.hold(n in sentences, f"{', '.join(paths)}: refusal {n} is given, but {TABLE} has no name for it")
    for n in sentences:
        report.hold(n in given, f"{TABLE}: refusal {n} has a name, but no definition gives it")
    shown = dict(re.findall(rf'case {PREFIX}(\w+): return "([^"]*)";', texts[EXAMPLE]))
    report.hold(shown, f"{EXAMPLE}: no refusal is said in words")
    hold_all(report, EXAMPLE, "the sentence of refusal", shown, {name: said for name, said in named.items() if name in shown})

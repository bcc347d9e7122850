#!/usr/bin/env python3
"""Spells the definitions and lemmas of this repository in snake case, as `packedFrom` to `packed_from` and `field-split` to `field_split`.

usage: tools/spell.py [--check] [FOLDER]

It ran once, over the text that the toolchain's port.py leaves, when the repository came to today's Rattle. FOLDER is the repository's top.
A name turns that the texts of specs/ and proofs/ declare and that begins with a small letter; types, modules and what a library declares stay,
and so do the names that Rust sources have. Where the new name would meet another one in a file, or a field, a constant or a function of the
sources that its clauses stand beside, it gets `_lem`, or `_law` where that is taken too. --check prints the table and writes nothing.
"""

import collections
import os
import re
import sys

WORD = re.compile(r'[^\s(){}.;,@"«»]+')
SIGNATURE = re.compile(r"^( *)(?:pub |abbrev |unfoldable )*([^\s(){};,:\"]+)((?: \{[^{}]*\})*) :(?= |$)")
COMMENT = re.compile(r'(?<![^\s(){}.;,@"«»])--.*')
RUST_COMMENT = re.compile(r"//.*")
CLAUSE = re.compile(r"^ *(?:requires|ensures)\*?(?: \w+)? \{|^ *(?:pub )?ghost use [^;]*;", re.M)
IN_CODE = re.compile(r"\w+")
FIELD = re.compile(r"^ *(?:pub )?(\w+): ", re.M)
CONSTANT = re.compile(r"\b(?:const|static|type) (\w+)")
FUNCTION = re.compile(r"\bfn (\w+)")


def files(top, ending):
    for folder, folders, names in os.walk(os.path.join(top, "crates")):
        folders[:] = sorted(it for it in folders if it not in ("out", "data"))
        for name in sorted(names):
            if name.endswith(ending):
                yield os.path.join(folder, name)


def read(path):
    with open(path, encoding="utf-8") as f:
        return f.read()


def snake(name):
    parts = (re.sub(r"(?<=[a-z0-9])(?=[A-Z])", "_", it) for it in name.split("-"))
    return "_".join(parts).lower()


def is_label(path, rest):
    """Whether a line declares an answer of a function's proof, whose name Rattle gives."""
    return path.endswith("Proof.antt") and "tie." in rest


def spans(text):
    """Where the clauses and ghost use items of a source stand."""
    for it in CLAUSE.finditer(text):
        if text.startswith("ghost", it.start()):
            yield it.start(), it.end()
            continue
        depth, end = 1, it.end()
        while depth and end < len(text):
            depth += {"{": 1, "}": -1}.get(text[end], 0)
            end += 1
        yield it.end(), end


def clauses(text):
    """The words of the clauses and ghost use items of a source."""
    return {word for first, last in spans(text) for word in WORD.findall(text[first:last])}


def table(top):
    antt = {p: read(p) for p in files(top, ".antt")}
    rust = {p: read(p) for p in files(top, ".rt")}
    declared = set()
    words = collections.defaultdict(set)
    for path, text in antt.items():
        for line in text.split("\n"):
            line = COMMENT.sub("", line)
            for it in WORD.findall(line):
                words[it].add(path)
            m = SIGNATURE.match(line)
            if m and not is_label(path, line[m.end() :]):
                declared.add(m[2])
    code = {p: set(IN_CODE.findall(RUST_COMMENT.sub("", t))) for p, t in rust.items()}
    said = {p: clauses(t) for p, t in rust.items()}
    taken = set()
    for text in rust.values():
        text = RUST_COMMENT.sub("", text)
        taken.update(FIELD.findall(text), CONSTANT.findall(text))
    functions = {it for text in rust.values() for it in FUNCTION.findall(text)}
    turned = {}
    old = [it for it in declared if re.match(r"[a-z]", it) and "◌" not in it and snake(it) != it]
    given = set(declared)

    def meets(name, new):
        if new in given or new in taken or words[new] & words[name]:
            return True
        return any(name in said[p] and new in code[p] for p in rust)

    # definitions, which have capitals, choose before the lemmas on them
    for name in sorted(old, key=lambda it: (not re.search(r"[A-Z]", it), it)):
        for ending in ("", "_lem", "_law", "_fact"):
            new = snake(name) + ending
            if not meets(name, new):
                break
        else:
            raise SystemExit(f"spell: no name for {name}")
        turned[name] = new
        given.add(new)
    return turned, functions


def main(argv):
    check = "--check" in argv
    rest = [it for it in argv if it != "--check"]
    top = rest[0] if rest else "."
    turned, functions = table(top)
    if check:
        for name, new in sorted(turned.items()):
            print(name, new)
        return 0

    def spelled(text):
        return WORD.sub(lambda m: turned.get(m[0], m[0]), text)

    def in_ticks(text):
        return re.sub(r"`([^`\s]+)`", lambda m: "`" + spelled(m[1]) + "`", text)

    def behind(m):
        # in a function's proof a label behind a dot is the function's, which keeps its name
        label = m[1] and m[2].replace("-", "_") in functions
        return m[0] if label else m[1] + turned.get(m[2], m[2])

    for path in [*files(top, ".antt"), *files(top, ".rt")]:
        text = read(path)
        if path.endswith(".rt"):
            new, at = "", 0
            for first, last in spans(text):
                new += in_ticks(text[at:first]) + spelled(text[first:last])
                at = last
            new += in_ticks(text[at:])
        elif path.endswith("Proof.antt"):
            new = in_ticks(re.sub(r'(\.?)([^\s(){}.;,@"«»]+)', behind, text))
        else:
            new = in_ticks(spelled(text))
        if new != text:
            with open(path, "w", encoding="utf-8") as f:
                f.write(new)
    print(f"spell: {len(turned)} names")
    return 0


if __name__ == "__main__":
    sys.exit(main(sys.argv[1:]))

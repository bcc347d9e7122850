#!/usr/bin/env python3
"""Lists the places in crates/*/src that a form of the older Rattle may stand in, for docs/DESIGN-PASS.md.

    tools/forms.py [COMMIT] [POINT..]

COMMIT: read that commit instead of the working tree. POINT: enums, flags, numbers, twins, loops, indexed, byhand, wide, facts, rooms,
switches. A line for each place and, with `--count`, only how many. It goes by text: whether a place is to change is for a reader.
"""
import collections, re, subprocess, sys

def files(commit):
    if commit:
        names = subprocess.run(["git", "ls-tree", "-r", "--name-only", commit, "crates"], capture_output=True, text=True, check=True).stdout.split()
        for n in names:
            if re.fullmatch(r"crates/\w+/src/.*\.rt", n):
                yield n, subprocess.run(["git", "show", f"{commit}:{n}"], capture_output=True, text=True, check=True).stdout
    else:
        import glob
        for n in sorted(glob.glob("crates/*/src/**/*.rt", recursive=True)):
            yield n, open(n).read()

def bare(text):
    return re.sub(r"//[^\n]*", "", text)

def closing(text, i):
    """The place behind the brace that closes the one at i."""
    d, j = 0, i
    while j < len(text):
        d += (text[j] == "{") - (text[j] == "}")
        j += 1
        if d == 0:
            break
    return j

def blocks(text, head):
    """Each item that `head` finds, with its text up to the matching brace."""
    for m in re.finditer(head, text, re.M):
        i = text.find("{", m.end() - 1)
        j = closing(text, i)
        yield m, text[i + 1:j - 1], text.count("\n", 0, m.start()) + 1

def functions(text):
    for m in re.finditer(r"^[ ]*(?:pub(?:\(crate\))? )?(?:unsafe )?(?:extern \"C\" )?fn (\w+)", text, re.M):
        # past the clauses: the body is the first brace at the start of a line, or behind the signature
        b = re.compile(r"^\{|\) (?:-> [^{\n]+ )?\{\s*$", re.M).search(text, m.end())
        if not b:
            continue
        k = text.index("{", b.start())
        j = closing(text, k)
        yield m.group(1), text[m.start():k], text[k:j], text.count("\n", 0, m.start()) + 1

def enums(name, text):
    for m, body, line in blocks(text, r"^(?:pub(?:\(crate\))? )?enum (\w+)"):
        vs = re.findall(r"(\w+)(\([^)]*\)|\s*\{[^}]*\})?\s*(?:,|$)", body)
        vs = [(a, bool(b)) for a, b in vs if a]
        held = sum(b for _, b in vs)
        if held and len(vs) >= 2:
            yield line, f"enum {m.group(1)}: " + " | ".join(a + ("(..)" if b else "") for a, b in vs)

def flags(name, text):
    for m, body, line in blocks(text, r"^(?:pub(?:\(crate\))? )?struct (\w+)[^;{]*\{"):
        for f in re.findall(r"(\w+): bool", body):
            yield line, f"struct {m.group(1)}: {f}"

def numbers(name, text):
    for m in re.finditer(r"(\w+): u(?:8|32|64),", text):
        if m.group(1) in ("number", "refusal", "kind", "verdict", "flag", "twelve", "whole", "place"):
            yield text.count("\n", 0, m.start()) + 1, m.group(0)
    for m in re.finditer(r"^(?:pub )?const (\w*KIND\w*|ABSENT|NO_\w+|NOT_\w+): ", text, re.M):
        yield text.count("\n", 0, m.start()) + 1, m.group(0)

def shape(body):
    body = re.sub(r'b?"[^"]*"', "S", body)
    body = re.sub(r"\b0x[0-9a-f_]+|\b\d[\d_]*(?:u\d+|usize|i\d+|f\d+)?\b", "N", body)
    return re.sub(r"\b[A-Za-z_]\w*\b", lambda m: m.group(0) if m.group(0) in
                  ("if", "else", "match", "while", "for", "in", "let", "mut", "return", "loop", "as") else "i", re.sub(r"\s+", "", body.replace(" as ", " as ")))

def loops(name, text):
    for f, _, body, line in functions(text):
        for m in re.finditer(r"\b(while|loop)\b", body):
            if re.search(r"\+= 1;|-= 1;|= \w+ \+ 1;|= \w+ - 1;", body):
                yield line + body.count("\n", 0, m.start()), f"{f}: {m.group(1)}"

def indexed(name, text):
    for f, _, body, line in functions(text):
        for m in re.finditer(r"for (\w+) in \(?0\.\.", body):
            if re.search(r"\[[^\]]*\b%s\b" % m.group(1), body):
                yield line, f"{f}: for {m.group(1)}"

def byhand(name, text):
    for f, head, body, line in functions(text):
        if re.match(r"(same|equal|wide|untouched|least|at_most|text|number)\w*$", f) or re.match(r"\w+_of$|of_\w+$", f) and len(re.findall(r"\w+: \w+\.\w+,", body)) >= 3:
            yield line, f"{f}"

def params(head):
    head = re.sub(r"->", "  ", head)
    i = re.search(r"fn \w+", head).end()
    if head[i] == "<":
        d = 0
        while True:
            d += (head[i] == "<") - (head[i] == ">")
            i += 1
            if d == 0:
                break
    d, j = 1, i + 1
    m = re.compile(r"").match(head, j)
    while d:
        d += (head[j] == "(") - (head[j] == ")")
        j += 1
    return len([p for p in re.split(r",\s*(?=\w+:)", head[m.end():j - 1]) if p.strip()])

def wide(name, text):
    for f, head, body, line in functions(text):
        n = params(head)
        if n >= 8:
            yield line, f"{f}: {n} parameters"

def rooms(name, text):
    for m in re.finditer(r"let mut \w+ = \[0\w*; [^\]]+\];", text):
        yield text.count("\n", 0, m.start()) + 1, m.group(0)

def switches(name, text):
    for m in re.finditer(r"match (walk|kind|trial|number|by|mode|level|q) \{", text):
        yield text.count("\n", 0, m.start()) + 1, m.group(0)

POINTS = dict(enums=enums, flags=flags, numbers=numbers, loops=loops, indexed=indexed, byhand=byhand, wide=wide, rooms=rooms, switches=switches)

def main():
    words = sys.argv[1:]
    count = "--count" in words
    words = [w for w in words if w != "--count"]
    commit = next((w for w in words if w not in POINTS and w not in ("twins", "facts")), None)
    wanted = [w for w in words if w in POINTS or w in ("twins", "facts")] or list(POINTS) + ["twins", "facts"]
    all_files = [(n, bare(t)) for n, t in files(commit)]
    for point in wanted:
        found = []
        if point == "twins":
            by = collections.defaultdict(list)
            for n, t in all_files:
                for f, _, body, line in functions(t):
                    s = shape(body)
                    if len(s) > 30:
                        by[s].append(f"{n}:{line} {f}")
            found = ["; ".join(v) for v in by.values() if len(v) > 1]
        elif point == "facts":
            by = collections.defaultdict(list)
            for n, t in all_files:
                for f, head, _, line in functions(t):
                    for clause in re.findall(r"requires[^{]*\{((?:[^{}]|\{[^{}]*\})*)\}", head):
                        for fact in clause.split("×"):
                            fact = re.sub(r"\s+", " ", fact.strip().strip("()"))
                            by[fact].append(f"{n.split('/')[1]}::{f}")
            found = [f"{k}: {len(v)} ({', '.join(v)})" for k, v in by.items() if len(v) >= 3]
        else:
            for n, t in all_files:
                found += [f"{n}:{line} {what}" for line, what in POINTS[point](n, t)]
        print(f"{point}: {len(found)}")
        if not count:
            for line in found:
                print("  " + line)

main()

#!/usr/bin/env python3
"""Turns the oracle's cases and answers into a file for the program `replay`.

    record.py CASES ANSWERS OUT

CASES and ANSWERS are text, one line a case, matched by the id that starts each line. ANSWERS come from `oracle answer CASES
--trace`. A case that the Rust can't answer has its expected answer in its own line, behind a `=`. A `#` between blanks, or at a
line's start, begins a comment. A struct or exact walk of no bits, which the Rust calls clean, is recorded as empty. OUT is eight
bytes of magic, then for each case its size, its kind's letter, its id, its fields and the answer, all numbers with the low byte
first; the comment at the top of crates/replay/src/main.rt states the format. Cases of other kinds are left out and counted on
standard error.

How many padded numbers were read is recorded, as a number of 64 bits, of these kinds:

    S X O   behind the verdict: the first number of the trace; without a trace, where no padded number has a place in the window, 0
    F       behind the bits used, before the keys: the first number of the trace
    P       the answer's second and third value: the number's bytes, and 1 if it is padded, else 0
    M       behind the record: how many of frame and handle are padded

The Rust doesn't say it of P and M, so there it is read off the window; the answer's values and cursor have to be those found
there. In a refused answer of the other kinds the number stands too, and is 0.

A leaf of S or X is six numbers of 32 bits. The last is the bit where its payload starts in the window: the trace has one for each
leaf behind its first two numbers, and the payload has to stand there. So an answer with leaves wants a trace.

In the lists and pools of a case of kind L parts may be joined by `+` and repeated by `count*`: `2*0,1+5` is `0,1,0,1,5`.
"""
import struct
import sys

MAGIC = b"VRFCASE4"
# The most bytes of a case that the replay takes.
LARGEST = 1310720
# The numbers that it takes of a case of kind L: of rows, of declared names.
ROW_ROOM, DECLARED_ROOM = 2600, 2100
# The refusal numbers of document 01, how many values its table names, and how many numbers the oracle prints.
REFUSALS = {
    "NotAFastArray": (6, 0, 0),
    "Eof": (7, 3, 3),
    "MalformedIntPacked": (8, 1, 1),
    "IntPackedOverflow": (9, 1, 1),
    "InvalidSerializedIntMax": (10, 0, 1),
    "InvalidQuantizationScale": (11, 0, 1),
    "NonFiniteComponent": (12, 0, 0),
    "InvalidBitLength": (14, 2, 2),
}
# The numbers of a movement's record.
RECORD = 19


class Broken(Exception):
    """A line that can't be recorded."""


def number(word, bits=64):
    value = int(word)
    if not 0 <= value < 1 << bits:
        raise Broken("%s doesn't fit %d bits" % (word, bits))
    return value


def u64(*values):
    return struct.pack("<%dQ" % len(values), *values)


def hexed(word):
    return b"" if word == "-" else bytes.fromhex(word)


def run(data):
    return u64(len(data)) + data


class Bits:
    """The bits of a window from a place on, taken one part behind the other."""

    def __init__(self, data, at=0):
        self.whole, self.end, self.at = int.from_bytes(data, "little"), 8 * len(data), at

    def take(self, count):
        if self.end - self.at < count:
            raise Broken("the answer says more bits than the window has")
        value = self.whole >> self.at & (1 << count) - 1
        self.at += count
        return value

    def packed(self):
        """A packed number: its value, its bytes, and whether it is padded: several bytes, the last of which adds nothing."""
        value = size = 0
        more = 1
        while more:
            more, group = self.take(1), self.take(7)
            value |= group << 7 * size
            size += 1
        return value, size, int(size > 1 and group == 0)


def traced(answer):
    """The words of an answer, and the numbers of its trace, of which the first says how many padded numbers were read."""
    words, trace = before(answer, "trace")
    if not trace:
        raise Broken("no trace behind the answer: `oracle answer CASES --trace` gives it")
    return words, [number(word, 32) for word in trace]


def cursor(words):
    """The cursor that an answer ends with; 0 where none stands, because no window was opened."""
    if words and words[-1].startswith("@"):
        return words[:-1], number(words[-1][1:])
    return words, 0


def refusal(words, after):
    """`<variant> <numbers>` as an answer, and the words behind it."""
    if not words or words[0] not in REFUSALS:
        raise Broken("unknown refusal %s" % " ".join(words[:1]))
    value, named, printed = REFUSALS[words[0]]
    values = [number(w) for w in words[1 : 1 + named]]
    if len(values) != named or len(words) < 1 + printed:
        raise Broken("the refusal %s lacks values" % words[0])
    return u64(value, *(values + [0, 0, 0])[:3], after), words[1 + printed :]


def read(words):
    """The answer of one read: `ok <value> @<cursor>` or `ERR <variant> <numbers> @<cursor>`."""
    words, after = cursor(words)
    if words[:1] == ["ERR"]:
        answer, rest = refusal(words[1:], after)
    elif words[:1] == ["ok"] and len(words) == 2:
        answer, rest = u64(0, number(words[1]), 0, 0, after), []
    else:
        raise Broken("no answer of a read")
    if rest:
        raise Broken("words after the answer")
    return answer


def copy(words, room):
    """The answer of a copy, and the target, which stands before the cursor. No target is printed where no window was opened."""
    words, after = cursor(words)
    if words[:1] == ["ERR"]:
        answer, rest = refusal(words[1:], after)
    elif words[:1] == ["ok"]:
        answer, rest = u64(0, 0, 0, 0, after), words[1:]
    else:
        raise Broken("no answer of a copy")
    target = hexed(rest[0]) if rest else b"\xee" * room
    if len(rest) > 1 or len(target) != room:
        raise Broken("a target of %d bytes was expected" % room)
    return answer + target


def patterns(word, digits):
    """Three floats, printed as hex digits, as numbers."""
    parts = word.split(",")
    if len(parts) != 3 or any(len(p) != digits for p in parts):
        raise Broken("three patterns of %d digits were expected" % digits)
    return [int(p, 16) for p in parts]


def three(words, digits):
    """The answer of a read of three floats."""
    words, after = cursor(words)
    if words[:1] == ["ERR"]:
        answer, rest = refusal(words[1:], after)
        if rest:
            raise Broken("words after the answer")
        return answer
    if words[:1] == ["ok"] and len(words) == 2:
        return u64(0, *patterns(words[1], digits), after)
    raise Broken("no answer of three floats")


def present(word):
    """A number that is there or not."""
    return [0, 0] if word == "-" else [1, number(word)]


def record_of(words):
    """`sleep physics loc v rot v lin v ang v|- frame n|- handle n|-` as the record's numbers."""
    names = ["loc", "rot", "lin", "ang", "frame", "handle"]
    if len(words) != 14 or words[2::2] != names:
        raise Broken("no record of a movement")
    loc, rot, lin, ang, frame, handle = words[3::2]
    spin = [0, 0, 0, 0] if ang == "-" else [1] + patterns(ang, 16)
    return (
        [number(words[0]), number(words[1])]
        + patterns(loc, 16)
        + patterns(rot, 8)
        + patterns(lin, 16)
        + spin
        + present(frame)
        + present(handle)
    )


def window(words):
    skip, bits, data = words
    return u64(number(skip), number(bits)) + run(hexed(data))


def plain(count):
    """A kind with so many numbers, a window, and the answer of one read."""

    def record(words, answer):
        if len(words) != count + 3:
            raise Broken("%d fields were expected" % (count + 3))
        return u64(*map(number, words[:count])) + window(words[count:]) + read(answer)

    return record


def packed(words, answer):
    if len(words) != 3:
        raise Broken("3 fields were expected")
    if answer[:1] != ["ok"]:
        return window(words) + read(answer)
    r = Bits(hexed(words[2]), number(words[0]))
    value, size, padded = r.packed()
    if answer[1:] != [str(value), "@%d" % r.at]:
        raise Broken("the window holds the packed number %d up to bit %d" % (value, r.at))
    return window(words) + u64(0, value, size, padded, r.at)


def copied(words, answer):
    if len(words) != 5:
        raise Broken("5 fields were expected")
    count, room = number(words[0]), number(words[1])
    return u64(count, room) + window(words[2:]) + copy(answer, room)


def parts(word):
    """The parts of a list or a pool, each as often as it is repeated; `-` has none."""
    for part in [] if word == "-" else word.split("+"):
        count, star, item = part.rpartition("*")
        for _ in range(int(count) if star else 1):
            yield item


def u32s(word, room):
    values = [number(value, 32) for part in parts(word) for value in part.split(",")]
    if len(values) > room:
        raise Broken("a list of %d numbers; the replay takes %d" % (len(values), room))
    return run(struct.pack("<%dI" % len(values), *values))


def pool(word):
    return run(b"".join(bytes.fromhex(part) for part in parts(word)))


def tables(words, answer):
    if len(words) != 6:
        raise Broken("6 fields were expected")
    expected = {"accepted": 0, "refused 2": 2}.get(" ".join(answer))
    if expected is None:
        raise Broken("tables are accepted or refused 2")
    levels, root, rows, names, declared, declared_names = words
    return (
        u64(number(levels, 32), number(root, 32))
        + u32s(rows, ROW_ROOM)
        + pool(names)
        + u32s(declared, DECLARED_ROOM)
        + pool(declared_names)
        + u64(expected)
    )


def floats(count, digits):
    """A kind with so many numbers, a window, and the answer of a read of three floats."""

    def record(words, answer):
        if len(words) != count + 3:
            raise Broken("%d fields were expected" % (count + 3))
        return u64(*map(number, words[:count])) + window(words[count:]) + three(answer, digits)

    return record


def pass_vector(r):
    """A quantized vector: three components of its width or, where that is 0, three floats."""
    info = r.take(7)
    r.take(3 * (info & 63) or 96 << (info >> 6))


def pass_rotation(r, width):
    for _ in range(3):
        if r.take(1):
            r.take(width)


def frame_and_handle(width, data):
    """The packed numbers at the end of a movement, `None` for one that is absent, and the bits up to there."""
    r = Bits(data)
    _, physics, frame, handle = (r.take(1) for _ in range(4))
    pass_vector(r)
    pass_rotation(r, width)
    pass_vector(r)
    if physics:
        pass_vector(r)
    return [r.packed() if there else None for there in (frame, handle)], r.at


def padded_of(width, data, words, after):
    """How many of a movement's frame and handle are padded; its answer has to end in these two, at the same bit."""
    found, end = frame_and_handle(width, data)
    frame, handle = ("-" if n is None else str(n[0]) for n in found)
    if words[-4:] != ["frame", frame, "handle", handle] or end != after:
        raise Broken("the window holds the frame %s and the handle %s up to bit %d" % (frame, handle, end))
    return sum(n[2] for n in found if n is not None)


def moved(words, answer):
    if len(words) != 4:
        raise Broken("4 fields were expected")
    scale, width, bits, data = words
    case = u64(number(scale), number(width), number(bits)) + run(hexed(data))
    answer, after = cursor(answer)
    if answer[:1] == ["ok"]:
        padded = padded_of(number(width), hexed(data), answer, after)
        return case + u64(0, 0, 0, 0, after, *record_of(answer[1:]), padded)
    if answer[:1] != ["ERR"]:
        raise Broken("no answer of a movement")
    refused, rest = refusal(answer[1:], after)
    if rest:
        raise Broken("words after the answer")
    return case + refused + u64(*[0] * RECORD, 0)


def u32(*values):
    return struct.pack("<%dI" % len(values), *(v & 0xFFFFFFFF for v in values))


def body(words, padded):
    """`<keys> <deletes> <changes> used <bits> need <deletes> <items> <fields> D <id>.. I <id>:<fields> <field>..`: the counts and the
    bits used as an answer, the padded numbers, then the keys, the ids, the items and the fields, each number as 32 bits."""
    if len(words) < 11 or words[4] != "used" or words[6] != "need" or words[10] != "D":
        raise Broken("no fast-array body")
    key, base, deletes, changes, used, items, fields = (int(words[i]) for i in (0, 1, 2, 3, 5, 8, 9))
    rest = words[11:]
    first = rest.index("I") if "I" in rest else len(rest)
    ids = [int(w) for w in rest[:first]]
    item_words, field_words = [], []
    for at, word in enumerate(rest[first:], first):
        if word == "I":
            continue
        parts = [number(w) for w in word.split(":")]
        (item_words if rest[at - 1] == "I" else field_words).extend(parts)
    if len(ids) != deletes or len(item_words) != 2 * changes or items != changes or len(field_words) != 3 * fields:
        raise Broken("the lists don't have as many entries as the counts say")
    return u64(0, deletes, changes, fields, used, padded) + u32(key, base, *ids, *item_words, *field_words)


def fast(words, answer):
    if len(words) != 3:
        raise Broken("3 fields were expected")
    front = u64(number(words[0]), number(words[1])) + run(hexed(words[2]))
    if answer[:1] == ["ok"]:
        words, trace = traced(answer)
        return front + body(words[1:], trace[0])
    if answer[:1] != ["ERR"]:
        raise Broken("no answer of a fast array")
    refused, rest = refusal(answer[1:], 0)
    if rest:
        raise Broken("words after the answer")
    return front + refused + u64(0)


# ---- walks

# What the replay holds of a walk's outputs; a walk that needs more is compared by its needs alone.
LEAF_ROOM, PATH_ROOM = 32768, 262144
ABSENT = 4294967295


def flat(word):
    """`1,2/3,4` as a list of u32, `n` as the two numbers of no declared name; `-` or nothing as none."""
    if word in ("-", ""):
        return []
    entries = [[ABSENT, 0] if e == "n" else [number(v, 32) for v in e.split(",")] for e in word.split("/")]
    return [v for e in entries for v in e]


def listed(values, room):
    if len(values) > room:
        raise Broken("a list of %d numbers; the replay takes %d" % (len(values), room))
    return run(u32(*values))


def schema_of(word):
    """`-`, `B<root>` or `T<levels>:<root>:<rows>:<pool>`: whether the twelve levels are meant, levels, root, rows and pool."""
    if word == "-":
        return u64(0, 0, ABSENT) + listed([], ROW_ROOM) + run(b"")
    if word[0] == "B":
        return u64(1, 0, number(word[1:], 32)) + listed([], ROW_ROOM) + run(b"")
    if word[0] != "T":
        raise Broken("no schema: %s" % word)
    levels, root, rows, names = word[1:].split(":")
    return u64(0, number(levels, 32), number(root, 32)) + listed(flat(rows), ROW_ROOM) + run(hexed(names or "-"))


def declared_of(word):
    """`-` or `D<entries>:<pool>`."""
    if word == "-":
        return listed([], DECLARED_ROOM) + run(b"")
    entries, names = word[1:].split(":")
    return listed(flat(entries), DECLARED_ROOM) + run(hexed(names or "-"))


# The verdict's number by its word.
VERDICTS = {"clean": 0, "partial": 1, "empty": 2}
# The refusals of a walk that are no question of room, by their words.
REFUSED_WALKS = {"refused 1": 1, "refused 2": 2}


def counted(words, padded):
    """No refusal, seven counters, the verdict and the padded numbers, and the words behind `need`."""
    if len(words) < 9 or words[7] not in VERDICTS or words[8] != "need":
        raise Broken("no answer of a walk")
    return u64(0, *map(number, words[:7]), VERDICTS[words[7]], padded), words[9:]


def may_pad(bits, data):
    """Whether a padded number could stand anywhere in the window: eight bits that say that more follow, and then eight zeros."""
    places = range(min(bits, 8 * len(data)) - 15)
    return any(int.from_bytes(data[at // 8 : at // 8 + 3], "little") >> at % 8 & 0xFF01 == 1 for at in places)


def walked(bits, data, answer):
    """The same of a walk of this window, and the starts in its trace; of a refusal, with no counters and no verdict, no words stand
    behind it."""
    refusal = REFUSED_WALKS.get(" ".join(answer))
    if refusal is not None:
        return u64(refusal, *[0] * 9), None, []
    if "trace" not in answer and not may_pad(bits, data):
        return *counted(answer, 0), []
    words, trace = traced(answer)
    return *counted(words, trace[0]), trace[2:]


def unescaped(text):
    out, at = bytearray(), 0
    while at < len(text):
        if text[at] == "%":
            out.append(int(text[at + 1 : at + 3], 16))
            at += 3
        else:
            out.append(ord(text[at]))
            at += 1
    return bytes(out)


def leaves_of(bits, data, words, starts):
    """The needs, and the leaves as records, path bytes and payload bytes; each payload stands at its start in the window."""
    needs, given = [number(w) for w in words[:3]], words[3:]
    if len(given) != len(starts):
        raise Broken("%d leaves, and %d starts in the trace" % (len(given), len(starts)))
    window = Bits(data)
    window.end = min(bits, window.end)
    records, paths, payloads = [], bytearray(), bytearray()
    for word, start in zip(given, starts):
        path, handle, width, payload = word.split(":")
        name, load = unescaped(path), hexed(payload or "-")
        records += [len(paths), len(name), number(handle, 32), number(width, 32), len(payloads), start]
        if len(load) != (int(width) + 7) // 8:
            raise Broken("a payload of %s bits has %d bytes" % (width, len(load)))
        window.at = start
        if window.take(int(width)) != int.from_bytes(load, "little"):
            raise Broken("the payload of %s doesn't stand at bit %d" % (path, start))
        paths += name
        payloads += load
    if needs != [len(given), len(paths), len(payloads)]:
        raise Broken("the needs are not those of the leaves")
    whole = needs[0] <= LEAF_ROOM and needs[1] <= PATH_ROOM
    if not whole:
        return u64(*needs, 0)
    return u64(*needs, 1) + run(u32(*records)) + run(bytes(paths)) + run(bytes(payloads))


def flattened(bits, data, answer):
    """The window and the answer of a struct or exact walk."""
    counts, rest, starts = walked(bits, data, answer)
    return u64(bits) + run(data) + counts + leaves_of(bits, data, ["0", "0", "0"] if rest is None else rest, starts)


def struct_walk(words, answer):
    if len(words) != 4:
        raise Broken("4 fields were expected")
    bits, data, schema, declared = words
    return schema_of(schema) + declared_of(declared) + flattened(number(bits, 32), hexed(data), answer)


def exact_walk(words, answer):
    if len(words) != 4 or words[2] != "-":
        raise Broken("4 fields were expected, the third `-`")
    bits, data, _, declared = words
    return declared_of(declared) + flattened(number(bits, 32), hexed(data), answer)


def object_walk(words, answer):
    if len(words) != 2:
        raise Broken("2 fields were expected")
    bits, data = number(words[0], 32), hexed(words[1])
    counts, rest, _ = walked(bits, data, answer)
    needed, *given = ["0"] if rest is None else rest
    pairs = [number(v, 32) for w in given for v in w.split(":")]
    if number(needed) != len(pairs) // 2:
        raise Broken("the need is not that of the pairs")
    return u64(bits) + run(data) + counts + u64(len(pairs) // 2) + run(u32(*pairs))


# A kind's fields and answer as bytes.
KINDS = {
    "S": struct_walk,
    "X": exact_walk,
    "O": object_walk,
    "P": packed,
    "I": plain(1),
    "G": plain(1),
    "C": copied,
    "F": fast,
    "L": tables,
    "V": floats(1, 16),
    "N": floats(0, 16),
    "R": floats(1, 8),
    "M": moved,
}


def before(words, mark):
    """The words up to the mark, and those behind it."""
    at = words.index(mark) if mark in words else len(words)
    return words[:at], words[at + 1 :]


def lines(path):
    with open(path, encoding="ascii") as f:
        for at, line in enumerate(f, 1):
            words = before(line.split(), "#")[0]
            if words:
                yield at, words


def answers_of(path):
    """The words of each answer by id."""
    answers = {}
    for at, words in lines(path):
        if words[0] in answers:
            raise Broken("%s:%d: a second answer of case %s" % (path, at, words[0]))
        answers[words[0]] = words[1:]
    return answers


def by_the_rules(words, answer):
    """The Rust's answer, with the verdict of the rules: it calls a struct or exact walk of no bits clean, which is empty."""
    if answer and words[1] in ("S", "X") and words[2:3] == ["0"] and answer[7:8] == ["clean"]:
        return answer[:7] + ["empty"] + answer[8:]
    return answer


def answered(words, answers):
    """A case's words, and those of its answer: its own, or the one of its id."""
    words, own = before(words, "=")
    if own and words[0] in answers:
        raise Broken("a second answer of case %s" % words[0])
    answer = own or by_the_rules(words, answers.get(words[0]))
    if answer is None:
        raise Broken("no answer of case %s" % words[0])
    if answer[:1] == ["PANIC"]:
        raise Broken("the Rust has no answer of case %s: it panics" % words[0])
    return words, answer


def case(words, answer):
    name, kind = words[0].encode("ascii"), words[1]
    if len(name) > 255:
        raise Broken("an id of more than 255 bytes")
    body = kind.encode("ascii") + bytes([len(name)]) + name + KINDS[kind](words[2:], answer)
    if len(body) > LARGEST:
        raise Broken("the case takes %d bytes; the replay takes %d" % (len(body), LARGEST))
    return struct.pack("<I", len(body)) + body


def main():
    if len(sys.argv) != 4:
        sys.exit("usage: record.py CASES ANSWERS OUT")
    cases, answers_path, out = sys.argv[1:]
    taken, skipped = 0, {}
    try:
        answers = answers_of(answers_path)
        recorded = [MAGIC]
        for at, words in lines(cases):
            kind = words[1] if len(words) > 1 else "none"
            if kind not in KINDS:
                skipped[kind] = skipped.get(kind, 0) + 1
                continue
            try:
                recorded.append(case(*answered(words, answers)))
            except (Broken, ValueError) as e:
                raise Broken("%s:%d: %s" % (cases, at, e))
            taken += 1
        with open(out, "wb") as f:
            f.write(b"".join(recorded))
    except (Broken, OSError, UnicodeDecodeError) as e:
        sys.exit("record.py: %s" % e)
    for kind, count in sorted(skipped.items()):
        print("record.py: %d cases of kind %s left out" % (count, kind), file=sys.stderr)
    print("record.py: %d cases recorded" % taken, file=sys.stderr)


if __name__ == "__main__":
    main()

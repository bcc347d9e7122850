#!/usr/bin/env python3
"""Where in the walked window leaves sit: between bytes, in arrays inside one another, without payload, in kept tails.

A start counts from the first bit of the walked window, however deep the leaf is. A leaf without payload starts behind its width, a kept tail
behind the count that is too large, or with the number that is put back behind the last field or element that is allowed."""
from gen import BW, hx, pk

# One level: its handle 0 is an array of the same level.
CYCLE = "T1:0:0,0,0,0,0:-"
# How many arrays stand around a window: none, one, two, and so many that the innermost is the last that is walked, and one too deep.
AROUND = (0, 1, 2, 11, 12)


def raw(b):
    return BW(int.from_bytes(b, "little"), 8 * len(b))


def numbers(*values):
    return raw(b"".join(pk(value) for value in values))


def field(handle, payload, sizes=(1, 1)):
    """A field with its handle and its width in so many bytes, or in as many as they need."""
    head = [pk(value, max(size, len(pk(value)))) for value, size in zip((handle + 1, payload.n), sizes)]
    return raw(b"".join(head)).cat(payload)


def array(*fields):
    """One element with these fields."""
    w = numbers(1, 1)
    for each in fields:
        w.cat(each)
    return w.cat(numbers(0, 0))


def case(name, w, kind="S", schema=CYCLE):
    print("%s-%s %s %d %s %s -" % (name, kind, kind, w.n, hx(w.bytes()), schema))


def both(name, w):
    """By the schema, and exactly as it stands: then its arrays are leaves."""
    case(name, w)
    case(name, w, "X", "-")


def within(w, around, bits=3):
    """The window in so many arrays, each behind a field of some bits and in front of one without."""
    for _ in range(around):
        w = array(field(2, BW(5, bits)), field(0, w), field(3, BW()))
    return w


def inner():
    """Two arrays inside one another, with leaves before, in, between and behind them, and without payload in each place."""
    child = array(field(5, BW()), field(6, BW(1, 1)), field(0, BW()))
    return array(field(3, BW()), field(4, BW(21, 5)), field(0, child), field(7, BW()), field(8, BW(2, 2)))


def offsets():
    """The array at every bit of a byte."""
    for bits in range(9):
        both("offset-%d" % bits, array(field(2, BW(85, bits)), field(0, inner()), field(3, BW(1, 1))))


def sizes():
    """The numbers in front of a leaf and of an array in one to five bytes."""
    for size in range(1, 6):
        for name, of in (("handle", (size, 1)), ("width", (1, size)), ("both", (size, size))):
            w = array(field(2, BW(5, 3), of), field(0, inner(), of), field(3, BW(), of))
            both("%s-%d" % (name, size), w)
        front = raw(pk(1, size) + pk(1, size))
        w = front.cat(field(0, raw(pk(2, size) + pk(2, size)).cat(field(1, BW(9, 4))).cat(numbers(0, 0)))).cat(numbers(0, 0))
        both("count-%d" % size, w)


def cuts():
    """Every opening of arrays between bytes."""
    w = within(inner(), 1)
    for n in range(1, w.n):
        case("cut-%d" % n, BW(w.v & (1 << n) - 1, n))


def depths():
    """A leaf in so many arrays, and an array that is too deep: it is a leaf of its own."""
    for around in range(14):
        case("depth-%d" % around, within(array(field(1, BW(171, 8)), field(2, BW())), around))


def tails():
    """What is kept of a level, in so many arrays."""
    fields = numbers(1, 1)
    for _ in range(128):
        fields.cat(field(9, BW()))
    elements = raw(pk(4096) + (pk(1) + pk(0)) * 4096)
    for around in AROUND:
        for size in (2, 5):
            for rest in (0, 1, 13):
                over = raw(pk(4097, size)).put(0x1555, rest)
                both("over-%d-%d-%d" % (around, size, rest), within(over, around))
        for size in (1, 2, 5):
            for rest in (0, 3):
                behind = BW(fields.v, fields.n).cat(raw(pk(1, size))).put(5, rest)
                case("fields-%d-%d-%d" % (around, size, rest), within(behind, around))
        for size in (1, 5):
            behind = BW(elements.v, elements.n).cat(raw(pk(1, size))).put(5, 3)
            case("elements-%d-%d" % (around, size), within(behind, around))


def levels():
    """The twelve levels: a leaf and a leaf without payload in each array on the way down."""
    w = BW()
    for at, handle in enumerate((79, 61, 10, 4)):
        leaves = [field(1, BW(at, 3)), field(2, BW())]
        w = array(*leaves, field(handle, w if at else array(*leaves)), *leaves)
    case("twelve", w, schema="B1")


for part in (offsets, sizes, cuts, depths, tails, levels):
    part()

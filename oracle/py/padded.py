#!/usr/bin/env python3
"""Packed numbers longer than they have to be, wherever one is read: alone, in the three walks, in fast arrays, in movements.

A padded number counts once it is taken, also where a rule then turns its value away; a number that fails doesn't count, nor does one that is
put back behind the last field or the last element that is allowed."""
from gen import BW, hx, pk

# The shortest and the longest padded form of a small number.
SIZES = (2, 5)
# Numbers that can't be read: more than five bytes, a fifth byte above 15, the window's end.
FAILING = (b"\x01\x01\x01\x01\x01", b"\x01\x01\x01\x01\x20", b"\x01")
# One level: its handle 0 is an array of the same level.
CYCLE = "T1:0:0,0,0,0,0:-"


def raw(b):
    return BW(int.from_bytes(b, "little"), 8 * len(b))


def lengths(value):
    """Every form of the number, from the shortest on."""
    return [pk(value, size) for size in range(len(pk(value)), 6)]


def cut(w, n):
    return BW(w.v & (1 << n) - 1, n)


def case(name, kind, w, tail=""):
    print("%s-%s %s %d %s%s" % (name, kind[0], kind, w.n, hx(w.bytes()), tail))


def walks(name, window, kinds="SXO"):
    for kind in kinds:
        case(name, kind, raw(window), "" if kind == "O" else " - -")


def array(count=pk(1), index=pk(1), handle=pk(2), width=pk(8), payload=b"\x0e", close=pk(0), end=pk(0)):
    """One element with one field; as an object array it holds 7."""
    return count + index + handle + width + payload + close + end


# The numbers of such an array, by place.
NUMBERS = dict(count=1, index=1, handle=2, width=8, close=0, end=0)


def padded(size):
    """Each number in so many bytes."""
    return {place: pk(value, size) for place, value in NUMBERS.items()}


def alone():
    """Every length of the values on the edges of lengths, from a bit inside a byte on where the length is odd."""
    for value in (0, 1, 127, 128, 16383, 16384, 2**21 - 1, 2**21, 2**28 - 1, 2**28, 2**32 - 1):
        for number in lengths(value):
            size = len(number)
            skip = 3 * (size % 2)
            case("%d-%d" % (value, size), "P %d" % skip, BW().put(5, skip).cat(raw(number)).put(3, 2))


def places():
    """One number padded, then all; then with what may follow an array."""
    for size in SIZES:
        for place, value in NUMBERS.items():
            walks("%s-%d" % (place, size), array(**{place: pk(value, size)}))
        walks("all-%d" % size, array(**padded(size)))
    for rest in ("00", "01", "02", "0100", "0000", "010000"):
        walks("rest-%s" % rest, array(end=pk(0, 2)) + bytes.fromhex(rest))
    walks("none-3", pk(1, 3) + pk(0, 3))


def turned_away():
    """The number is taken, its value is not."""
    for size in SIZES:
        walks("over-%d" % size, array(count=pk(4097, max(size, 3))))
        walks("beyond-%d" % size, array(index=pk(2, size)))
        walks("past-%d" % size, array(width=pk(25, size)))


def failing():
    """Padded numbers up to one that fails."""
    for place in NUMBERS:
        for at, bad in enumerate(FAILING):
            parts = dict(padded(2), **{place: bad})
            up_to = list(NUMBERS).index(place) + 1
            window = b"".join(parts[p] + (b"\x0e" if p == "width" and up_to > 4 else b"") for p in list(NUMBERS)[:up_to])
            walks("fails-%s-%d" % (place, at), window)


def cuts():
    """Every opening of an array whose numbers are all padded."""
    w = raw(array(**padded(2)))
    for n in range(1, w.n):
        case("cut-%d" % n, "S", cut(w, n), " - -")


# What follows the last field or element that is allowed: zeros that are taken, numbers that are put back, numbers that fail, nothing.
BEHIND = [pk(0), *(pk(0, size) for size in SIZES), *(pk(value, size) for value in (1, 127) for size in (1, 2, 5)), *FAILING, b""]


def limits():
    """128 fields, 4,096 elements and what follows; once with fields whose numbers are padded too."""
    fields = pk(1) + pk(1) + (pk(1) + pk(0)) * 128
    for at, number in enumerate(BEHIND):
        walks("fields-%d" % at, fields + number)
        if len(number) > 1:
            walks("fields-%d-end" % at, fields + number + pk(0, 2))
    walks("fields-all", pk(1, 2) + pk(1, 2) + (pk(1, 2) + pk(0, 2)) * 128 + pk(0, 2) + pk(0, 2))
    elements = pk(4096) + (pk(1) + pk(0)) * 4096
    for at, number in enumerate(BEHIND):
        walks("elements-%d" % at, elements + number, "SXO" if number == pk(0, 2) else "S")
    walks("elements-all", pk(4096, 3) + (pk(1, 2) + pk(0, 2)) * 4096 + pk(0, 2), "SO")


def objects():
    """What a field of an object array holds."""
    for value in (0, 7, 128, 2**28 - 1):
        for number in lengths(value):
            size = len(number)
            case("object-%d-%d" % (value, size), "O", raw(array(width=pk(8 * size), payload=number)))
            for more in (1, 8):
                w = raw(pk(1) + pk(1) + pk(2) + pk(8 * size + more) + number).put(0, more)
                case("object-%d-%d-more-%d" % (value, size, more), "O", w.put(0, 16))
            case("object-%d-%d-less" % (value, size), "O", raw(pk(1) + pk(1) + pk(2) + pk(8 * size - 1) + number).put(0, 15))
    second = pk(3) + pk(16) + pk(1, 2)
    first = array()[:5]
    case("object-second", "O", raw(first + second + b"\0\0"))
    case("object-failed-first", "O", raw(pk(1) + pk(1) + pk(2) + pk(8) + b"\x01" + second + b"\0\0"))
    case("object-empty-first", "O", raw(pk(1) + pk(1) + pk(2) + pk(0, 2) + second + b"\0\0"))


def nested(w, levels, size):
    """The window as the only field of an array in an array and so on, every number in so many bytes."""
    for _ in range(levels):
        w = raw(pk(1, size) + pk(1, size) + pk(1, size) + pk(w.n, max(size, len(pk(w.n))))).cat(w).cat(raw(pk(0, size) * 2))
    return w


def children():
    """Padded numbers in every level down to the twelfth, and in one that is too deep to be read; what a child may meet."""
    for levels in (1, 2, 3, 10, 11, 12, 13):
        for size in (1, 2, 4):
            case("child-%d-%d" % (levels, size), "S", nested(raw(array(**padded(2))), levels, size), " %s -" % CYCLE)
    met = {
        "over": array(count=pk(4097, 3)),
        "beyond": array(index=pk(2, 2)),
        "past": array(width=pk(90, 2)),
        "open": array(**padded(2))[:-2],
        "rest": array(**padded(2)) + pk(0, 2),
        "fields": pk(1, 2) + pk(1, 2) + (pk(2) + pk(0)) * 128 + pk(0, 2) + pk(0, 2),
        "put-back": pk(1, 2) + pk(1, 2) + (pk(2) + pk(0)) * 128 + pk(1, 2),
        "fails": pk(1, 2) + b"\x01" * 5,
        "empty": b"",
    }
    for name, window in met.items():
        for levels in (1, 2):
            case("child-%s-%d" % (name, levels), "S", nested(raw(window), levels, 2), " %s -" % CYCLE)
            case("leaf-%s-%d" % (name, levels), "S", nested(raw(window), levels, 2), " - -")
    case("child-twelve", "S", raw(pk(1, 2) + pk(1, 2) + pk(5, 2) + pk(8 * 13, 2) + array(**padded(2))[:13] + pk(0, 2) + pk(0, 2)), " B1 -")
    case("child-inside", "S", raw(pk(1) + pk(1) + pk(3) + pk(3)).put(5, 3).cat(nested(raw(array(**padded(3))), 1, 1)), " %s -" % CYCLE)
    inner = raw(array(**padded(2)))
    odd = raw(pk(1) + pk(1) + pk(3) + pk(3)).put(5, 3).cat(raw(pk(1, 2) + pk(inner.n, 3))).cat(inner).cat(raw(pk(0, 2) + pk(0, 2)))
    case("child-odd", "S", odd, " %s -" % CYCLE)


def body(mode, items):
    """A fast array that changes these items; an item is what stands behind its id and flag."""
    w = BW(1, 1).put(5, 32).put(4, 32).put(0, 32).put(len(items), 32)
    for at, item in enumerate(items):
        w.put(at, 32).put(1, mode).cat(item)
    return w


def fast_arrays():
    for mode in (0, 1):
        kind = "F %d" % mode
        for size in SIZES:
            field = pk(2, size), pk(8, size), b"\x5a"
            plain = pk(2), pk(8), b"\x5a"
            for at, name in enumerate(("handle", "width")):
                one = [field[i] if i == at else plain[i] for i in range(3)]
                case("fast-%d-%s-%d" % (mode, name, size), kind, body(mode, [raw(b"".join(one) + pk(0))]))
            case("fast-%d-close-%d" % (mode, size), kind, body(mode, [raw(b"".join(plain) + pk(0, size)), raw(pk(0))]))
            case("fast-%d-all-%d" % (mode, size), kind, body(mode, [raw(b"".join(field) + pk(0, size))] * 3))
            case("fast-%d-rest-%d" % (mode, size), kind, body(mode, [raw(b"".join(field) + pk(0, size) + b"\0")]))
            case("fast-%d-fails-%d" % (mode, size), kind, body(mode, [raw(b"".join(field) + b"\x01" * 5)]))
        case("fast-%d-none" % mode, kind, body(mode, []))


def movement(flags, frame, handle):
    """Vectors of ones, in whose last bits a reader from behind would see the first bytes of a padded number."""
    vector = BW(8, 7).put(0x010101, 24)
    w = BW(flags, 4).cat(vector).put(0, 3).cat(vector)
    if flags & 2:
        w.cat(vector)
    return w.cat(raw(frame)).cat(raw(handle))


def movements():
    numbers = [b""] + lengths(0)[:2] + lengths(300)
    for at, frame in enumerate(numbers):
        for handle in numbers:
            flags = 2 * (at % 2) | (4 if frame else 0) | (8 if handle else 0)
            case("move-%s-%s" % (hx(frame), hx(handle)), "M 10 8", movement(flags, frame, handle))
    for at, bad in enumerate(FAILING):
        case("move-frame-fails-%d" % at, "M 1 16", movement(12, bad, b""))
        case("move-handle-fails-%d" % at, "M 1 16", movement(12, pk(0, 2), bad))


for part in (alone, places, turned_away, failing, cuts, limits, objects, children, fast_arrays, movements):
    part()

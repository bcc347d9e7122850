#!/usr/bin/env python3
"""Case generator (deterministic for a seed).
  gen.py SECTION SEED N      cases of one section on stdout
  gen.py heldout SEED N      a mix of about N cases of all kinds
Sections: exh16 (N = S|X|O|C; every window up to 16 bits) random3 struct deep limits object fast vec normal rot
          move packed sint bits copy ftext past"""
import random, struct, sys
from tables import twelve_rows, NONE


class BW:
    __slots__ = ("v", "n")

    def __init__(self, v=0, n=0):
        self.v, self.n = v, n

    def put(self, v, n):
        self.v |= (v & ((1 << n) - 1)) << self.n
        self.n += n
        return self

    def cat(self, o):
        return self.put(o.v, o.n)

    def bytes(self):
        return self.v.to_bytes((self.n + 7) // 8, "little")


def hx(b):
    return b.hex() if b else "-"


def pk(v, size=None):
    """packed number as bytes, `size` bytes long if given (padded)"""
    out = []
    n = 1
    while v >> (7 * n):
        n += 1
    n = max(n, size or 0)
    for i in range(n):
        out.append((v >> (7 * i) & 127) << 1 | (i < n - 1))
    return bytes(out)


def put_pk(w, v, rng=None, padp=0.0):
    size = None
    if rng and rng.random() < padp:
        size = rng.randint(1, 5)
    for b in pk(v, size):
        w.put(b, 8)


BAD = [b"\x01\x01\x01\x01\x01", b"\x01\x01\x01\x01\x20", b"\xff\xff\xff\xff\xff", b"\xff\xff\xff\xff\x20", b"\x03\x05\x07\x09\xfe",
       b"\xff\xff\xff\xff\x21", b"\x01"]
WIDTHS = [0, 0, 1, 3, 5, 7, 8, 8, 8, 9, 13, 16, 24, 31, 32, 32, 33, 63, 64, 65, 70, 128]


class G:
    def __init__(self, rng, tab=None, declared_handles=(), padp=0.03, faultp=0.0):
        self.r, self.tab, self.dh, self.padp, self.faultp = rng, tab, list(declared_handles), padp, faultp

    def num(self, w, v):
        if self.r.random() < self.faultp:
            k = self.r.randrange(4)
            if k == 0:
                for b in self.r.choice(BAD):
                    w.put(b, 8)
                return
            if k == 1:
                v = self.r.choice([0, 1, v + 1, v + 200, 4097, 2 ** 32 - 1])
        put_pk(w, min(v, 2 ** 32 - 1), self.r, self.padp)

    def array(self, level, depth, budget, obj=False):
        r, w = self.r, BW()
        count = r.choice([0, 1, 1, 2, 2, 3, 4, 6, 50, 127, 128, 4095, 4096])
        els = min(r.choice([0, 1, 1, 2, 2, 3, 5]), 3 if depth else 5)
        if count == 0:
            els = 0
        self.num(w, count)
        for _ in range(els):
            self.num(w, r.randrange(count) + 1)
            w.cat(self.fields(level, depth, budget // max(els, 1), obj))
        self.num(w, 0)
        k = r.random()
        if k < 0.10:
            w.put(0, 8)
        elif k < 0.13:
            w.put(r.choice([1, 2, 3, 255, 0x80]), 8)
        elif k < 0.15:
            w.put(r.getrandbits(16), r.randint(1, 16))
        elif k < 0.16:
            w.put(0, 16)
        return w

    def subs(self, level):
        return [(h, a) for l, k, h, a, b in self.tab[0] if l == level and k == 0] if self.tab and level is not None else []

    def names(self, level):
        return [h for l, k, h, a, b in self.tab[0] if l == level and k == 1] if self.tab and level is not None else []

    def fields(self, level, depth, budget, obj):
        r, w = self.r, BW()
        n = r.choice([0, 1, 1, 1, 2, 2, 3, 4] if not obj else [0, 1, 1, 1, 1, 1, 2, 3])
        subs = self.subs(level)
        for _ in range(n):
            p = BW()
            k = r.random()
            if subs and k < 0.55:
                h, child = r.choice(subs)
                k = r.random()
                if k < 0.8 and depth < 13 and budget > 60:
                    p = self.array(child, depth + 1, budget // n)
                elif k < 0.9:
                    p = BW()
                else:
                    m = r.choice(WIDTHS)
                    p = BW(r.getrandbits(m) if m else 0, m)
            elif obj:
                h = r.randrange(4)
                k = r.random()
                if k < 0.8:
                    put_pk(p, r.choice([0, 1, 7, 127, 128, 16383, 16384, 2 ** 21, 2 ** 28 - 1, 2 ** 28, 2 ** 32 - 1, r.getrandbits(32)]), r, self.padp)
                    if r.random() < 0.1:
                        p.put(r.getrandbits(9), r.randint(1, 9))
                elif k < 0.9:
                    pass
                else:
                    m = r.choice(WIDTHS)
                    p = BW(r.getrandbits(m) if m else 0, m)
            else:
                h = r.choice(self.names(level) + self.dh + [0, 1, 2, 9, 10, 99, 100, 127, 128, 1023, 1024, 16384, 2 ** 32 - 2, r.getrandbits(32) % (2 ** 32 - 1)])
                m = r.choice(WIDTHS)
                p = BW(r.getrandbits(m) if m else 0, m)
            self.num(w, h + 1)
            self.num(w, p.n)
            w.cat(p)
        self.num(w, 0)
        return w


def damage(r, w):
    """random damage to a window"""
    k = r.random()
    if k < 0.30 or w.n == 0:
        return w
    if k < 0.55:
        n = r.randrange(w.n + 1)
        return BW(w.v & ((1 << n) - 1), n)
    if k < 0.80:
        v = w.v
        for _ in range(r.choice([1, 1, 1, 2, 3])):
            v ^= 1 << r.randrange(w.n)
        return BW(v, w.n)
    if k < 0.90:
        at = r.randrange(w.n + 1)
        m = r.choice([1, 8, 8, 16])
        lo, hi = w.v & ((1 << at) - 1), w.v >> at
        return BW(lo | r.getrandbits(m) << at | hi << (at + m), w.n + m)
    if k < 0.95:
        m = r.choice([1, 7, 8, 8, 9, 16])
        return BW(w.v | r.choice([0, r.getrandbits(m)]) << w.n, w.n + m)
    at = r.randrange(w.n)
    m = min(r.choice([1, 8, 8, 16]), w.n - at)
    lo, hi = w.v & ((1 << at) - 1), w.v >> (at + m)
    return BW(lo | hi << at, w.n - m)


def emit_window(r, w):
    """bits and hex; the bits beyond the window are drawn at random, sometimes with more bytes"""
    n = w.n
    b = bytearray(w.bytes())
    if n % 8:
        b[-1] |= (r.getrandbits(8) << (n % 8)) & 255
    if r.random() < 0.2:
        b += bytes(r.getrandbits(8) for _ in range(r.randint(1, 9)))
    return "%d %s" % (n, hx(bytes(b)))


NAMES = ["", "a", "x", "Name", "_raw", "_h1", "[0]", "a.b", "h\u00e9", "\u20ac\U0001f600", "q\"c,", "W" * 64, "Z" * 63, "Value", "line\nfeed", "%"]


def rand_table(r):
    lv = r.randint(1, 5)
    rows, pool = [], b""
    for _ in range(r.randint(0, 14)):
        l, h = r.randrange(lv), r.choice([0, 0, 1, 1, 2, 3, 9, 127, 2 ** 32 - 2, NONE])
        if r.random() < 0.55:
            rows.append((l, 0, h, r.randrange(lv), 0))
        else:
            n = r.choice(NAMES).encode()
            if r.random() < 0.3 and n and n in pool:
                rows.append((l, 1, h, pool.index(n), len(n)))
            else:
                rows.append((l, 1, h, len(pool), len(n)))
                pool += n
    root = r.choice([0] * 8 + [r.randrange(lv), NONE])
    return rows, pool, root, "T%d:%d:%s:%s" % (lv, root, "/".join(",".join(map(str, x)) for x in rows) or "-", hx(pool))


def rand_declared(r):
    if r.random() < 0.5:
        return "-", []
    n = r.choice([1, 2, 3, 4, 12, 20, 130])
    rows, pool, hs = [], b"", []
    for h in range(n):
        if r.random() < 0.5:
            rows.append("n")
        else:
            nm = r.choice(NAMES).encode()
            rows.append("%d,%d" % (len(pool), len(nm)))
            pool += nm
            hs.append(h)
    return "D%s:%s" % ("/".join(rows), hx(pool)), hs


TW = twelve_rows()


def sec_struct(r, n):
    for _ in range(n):
        k = r.random()
        dec, dh = rand_declared(r)
        if k < 0.40:
            root = r.randrange(12)
            tab, st = (TW[0], TW[1]), "B%d" % root
        elif k < 0.80:
            rows, pool, root, st = rand_table(r)
            tab = (rows, pool)
            if root == NONE:
                root = None
        else:
            tab, st, root = None, "-", None
        g = G(r, tab, dh, padp=r.choice([0, 0, 0.05, 0.3]), faultp=r.choice([0, 0, 0, 0.02, 0.1]))
        w = damage(r, g.array(root, 0, 3000))
        if st == "-" and r.random() < 0.5:
            yield "X %s - %s" % (emit_window(r, w), dec)
        else:
            yield "S %s %s %s" % (emit_window(r, w), st, dec)


def sec_object(r, n):
    for _ in range(n):
        g = G(r, None, (), padp=r.choice([0, 0, 0.1, 0.4]), faultp=r.choice([0, 0, 0, 0.03]))
        yield "O %s" % emit_window(r, damage(r, g.array(None, 0, 1000, obj=True)))


def sec_deep(r, n):
    """chains of 9..14 levels over cyclic tables"""
    tabs = ["T1:0:0,0,0,0,0/0,1,0,0,1:61", "T2:0:0,0,0,1,0/1,0,0,0,0/1,1,0,0,64:" + "57" * 64,
            "T2:1:0,0,0,0,0/0,0,1,1,0/1,0,0,0,0/1,0,1,1,0:-", "T1:0:0,0,0,0,0/0,0,1,0,0:-"]
    for _ in range(n):
        depth = r.choice([1, 5, 9, 10, 11, 11, 12, 12, 12, 13, 14])
        w = BW()
        for b in bytes.fromhex("0202041 0ab0000".replace(" ", "")):
            w.put(b, 8)
        if r.random() < 0.3:
            m = r.choice(WIDTHS)
            w = BW(r.getrandbits(m) if m else 0, m)
        for _ in range(depth - 1):
            o = BW()
            cnt = r.choice([1, 2, 4096])
            put_pk(o, cnt, r, 0.05)
            for e in range(r.choice([1, 1, 1, 2])):
                put_pk(o, r.randrange(cnt) + 1, r, 0.05)
                for _ in range(r.choice([0, 0, 1])):
                    m = r.choice(WIDTHS)
                    put_pk(o, 3 + 1, r, 0.05)
                    put_pk(o, m)
                    o.put(r.getrandbits(m) if m else 0, m)
                if e == 0:
                    put_pk(o, r.choice([1, 1, 1, 2]), r, 0.05)
                    put_pk(o, w.n, r, 0.05)
                    o.cat(w)
                if r.random() < 0.97:
                    put_pk(o, 0)
            if r.random() < 0.97:
                put_pk(o, 0)
            if r.random() < 0.1:
                o.put(r.choice([0, 0, 1, 2]), 8)
            w = o
        if r.random() < 0.4:
            w = damage(r, w)
        yield "S %s %s %s" % (emit_window(r, w), r.choice(tabs), rand_declared(r)[0])


ENDS = [b"", b"\x00", b"\x00\x00", b"\x00\x00\x00", b"\x01\x00\x00", b"\x01\x00", b"\x01", b"\x02", b"\x02\x00\x00", b"\x03\x02\x00", b"\x01\x01\x01\x01\x01",
        b"\x01\x01\x01\x01\x20", b"\x00\x00\x02", b"\x00\x00\x01", b"\x00\x01\x00", b"\x01\x00\x01\x00\x00", b"\x03\x00\x04\x00"]


def sec_fields(r, n):
    return sec_limits(r, n, 0.6)


def sec_limits(r, n, upto=1.0):
    """127/128/129 fields, 4095/4096/4097 elements, counts about 4096; also inside a child"""
    for _ in range(n):
        k = r.random() * upto
        if upto < 1 and k > 0.5:
            k = 0.95
        kind = r.choice("SSSXO")
        w = BW()
        end = r.choice(ENDS)
        if k < 0.55:
            nf = r.choice([126, 127, 128, 128, 128, 129, 130])
            put_pk(w, r.choice([1, 2]))
            for _ in range(r.choice([1, 1, 2])):
                put_pk(w, 1)
                for _ in range(nf):
                    m = r.choice([0, 0, 0, 1, 8])
                    put_pk(w, r.choice([1, 2, 3]))
                    if kind == "O" and m == 8:
                        put_pk(w, 8)
                        put_pk(w, 7)
                    else:
                        put_pk(w, m)
                        w.put(r.getrandbits(8), m)
                if r.random() < 0.3:
                    put_pk(w, 0)
            for b in end:
                w.put(b, 8)
        elif k < 0.90:
            ne = r.choice([4095, 4096, 4096, 4096, 4097])
            cnt = r.choice([4096, 4096, 4095, 1])
            put_pk(w, cnt)
            body = BW()
            same = r.random() < 0.5
            raw = bytearray()
            for i in range(ne):
                raw += pk(1 if same or cnt == 1 else (i % cnt) + 1)
                if i in (0, ne - 1) or r.random() < 0.01:
                    raw += pk(2) + pk(8) + (b"\x0e" if kind == "O" else bytes([r.getrandbits(8)]))
                raw += b"\x00"
            w.put(int.from_bytes(raw, "little"), 8 * len(raw))
            for b in end:
                w.put(b, 8)
        else:
            put_pk(w, r.choice([4095, 4096, 4097, 4098, 2 ** 32 - 1]), r, 0.3)
            for b in end:
                w.put(b, 8)
            if r.random() < 0.5:
                w.put(r.getrandbits(8), r.randint(1, 8))
        st, dec = "-", "-"
        if kind == "S" and r.random() < 0.5:
            # inside a child of handle 0 at some depth, at an odd bit
            st = "T1:0:0,0,0,0,0:-"
            # handle 0 fields inside become children too: use handle 5 for the container
            st = "T2:0:0,0,5,0,0/0,1,5,0,1:43"
            for _ in range(r.choice([1, 1, 2, 11, 12])):
                o = BW()
                put_pk(o, 1)
                put_pk(o, 1)
                put_pk(o, 3)
                put_pk(o, 3)
                o.put(r.getrandbits(3), 3)
                put_pk(o, 6)
                put_pk(o, w.n)
                o.cat(w)
                put_pk(o, 2)
                put_pk(o, 8)
                o.put(0x5a, 8)
                put_pk(o, 0)
                put_pk(o, 0)
                w = o
        elif r.random() < 0.3:
            m = r.randint(0, min(16, w.n))
            w = BW(w.v & ((1 << (w.n - m)) - 1), w.n - m)
        if kind == "O":
            yield "O %s" % emit_window(r, w)
        else:
            yield "%s %s %s %s" % (kind, emit_window(r, w), st, dec)


def sec_exh16(kind):
    r = random.Random(16)
    tail = {"S": " - -", "X": " - -", "O": "", "C": " T1:0:0,0,0,0,0/0,0,1,0,0/0,1,0,0,1:61 D0,1/1,1/2,1:787a79"}[kind]
    for n in range(17):
        for v in range(1 << n):
            yield "%s %s%s" % ("S" if kind == "C" else kind, emit_window(r, BW(v, n)), tail)


def sec_random3(r, n):
    for _ in range(n):
        m = r.randint(17, 40)
        v = 0
        for i in range(5):
            v |= r.choice([0, 0, 0, 1, 2, 2, 2, 3, 4, 4, 6, 8, 16, 0x10, 0x40, 0x80, 0xfe, 0xff, r.getrandbits(8)]) << (8 * i)
        w = BW(v & ((1 << m) - 1), m)
        k = r.choice("SSXOC")
        tail = {"S": " - -", "X": " - -", "O": "", "C": " T1:0:0,0,0,0,0/0,0,1,0,0/0,1,0,0,1:61 -"}[k]
        yield "%s %s%s" % ("S" if k == "C" else k, emit_window(r, w), tail)


def sec_past(r, n):
    """windows past their bytes"""
    for _ in range(n):
        nb = r.randint(0, 4)
        b = bytes(r.getrandbits(8) for _ in range(nb))
        bits = 8 * nb + r.randint(1, 40)
        k = r.choice("SXOMF VNRPIGC".replace(" ", ""))
        pre = {"S": "S", "X": "X", "O": "O", "M": "M 10 16", "F": "F 0", "V": "V 1 0", "N": "N 0", "R": "R 8 0", "P": "P 0", "I": "I 9 0", "G": "G 3 0", "C": "C 3 1 0"}[k]
        yield "%s %d %s%s" % (pre, bits, hx(b), " - -" if k in "SX" else "")


def sec_fast(r, n):
    for _ in range(n):
        mode = r.randrange(2)
        w = BW()
        w.put(1 if r.random() < 0.97 else 0, 1)
        d, c = r.choice([0, 0, 1, 2, 3]), r.choice([0, 0, 1, 1, 2, 3])
        dd, cc = d, c
        k = r.random()
        if k < 0.06:
            dd = r.choice([d + 1, -1, 2 ** 31 - 1, -2 ** 31, r.getrandbits(31)])
        elif k < 0.12:
            cc = r.choice([c + 1, -1, 2 ** 31 - 1, -2 ** 31, r.getrandbits(31)])
        for v in (r.getrandbits(32), r.getrandbits(32), dd, cc):
            w.put(v & 0xffffffff, 32)
        for _ in range(d):
            w.put(r.choice([0, 1, 0xffffffff, 0x80000000, r.getrandbits(32)]), 32)
        for _ in range(c):
            w.put(r.choice([0, 7, 0xffffffff, r.getrandbits(32)]), 32)
            if mode:
                w.put(r.getrandbits(1), 1)
            for _ in range(r.choice([0, 0, 1, 2, 5])):
                put_pk(w, r.choice([1, 2, 128, 2 ** 32 - 1, r.getrandbits(20) + 1]), r, 0.1)
                m = r.choice(WIDTHS)
                put_pk(w, m, r, 0.1)
                w.put(r.getrandbits(m) if m else 0, m)
            put_pk(w, 0, r, 0.1)
        if r.random() < 0.35:
            w = damage(r, w)
        b = bytearray(w.bytes())
        if w.n % 8 and b:
            b[-1] |= (r.getrandbits(8) << (w.n % 8)) & 255
        k = r.random()
        if k < 0.03:
            b += b"\x00"
        elif k < 0.05 and b:
            b = b[:-1]
        yield "F %d %d %s" % (mode if r.random() < 0.95 else 1 - mode, w.n, hx(bytes(b)))


F32S = [0, 0x80000000, 1, 0x80000001, 0x7fffff, 0x807fffff, 0x400000, 0x800000, 0x3f800000, 0xbf800000, 0x7f7fffff, 0xff7fffff, 0x7f800000, 0xff800000, 0x7fc00000, 0x7f800001, 0xffc12345]
F64S = [0, 1 << 63, 1, (1 << 63) | 1, (1 << 52) - 1, 1 << 52, 0x3ff0000000000000, 0xbff0000000000000, 0x7fefffffffffffff, 0xffefffffffffffff, 0x7ff0000000000000, 0xfff0000000000000, 0x7ff8000000000000, 0x7ff0000000000001]
SCALES = [1, 1, 1, 10, 10, 100, 100, 2, 3, 7, 1000, 32767, 65536, 2 ** 24 + 1, 2 ** 31, 2 ** 32 - 1]


def put_vec(r, w, width=None, e=None):
    wd = r.randint(0, 63) if width is None else width
    e = r.randint(0, 1) if e is None else e
    w.put(wd | e << 6, 7)
    for _ in range(3):
        if wd:
            k = r.random()
            if k < 0.25:
                v = r.choice([0, 1, (1 << wd) - 1, 1 << (wd - 1), (1 << (wd - 1)) - 1, (1 << (wd - 1)) + 1])
            elif k < 0.4 and wd > 54:
                # near a tie of binary64: 53 bits, then a one, then few
                v = (r.getrandbits(53) | 1 << 52) << (wd - 1 - 53) | r.choice([0, 1, -1, 1 << max(wd - 55, 0)])
            else:
                v = r.getrandbits(wd)
            w.put(v & ((1 << wd) - 1), wd)
        elif e == 0:
            w.put(r.choice(F32S) if r.random() < 0.3 else r.getrandbits(32) & ~(1 << 30), 32)
        else:
            w.put(r.choice(F64S) if r.random() < 0.3 else r.getrandbits(64) & ~(1 << 62), 64)
    return w


def framed(r, w, cutp=0.15):
    """skip, bits, hex of a read that starts at bit `skip`"""
    skip = r.choice([0, 0, 1, 2, 3, 4, 5, 6, 7, 8, 13])
    o = BW(r.getrandbits(skip) if skip else 0, skip).cat(w)
    if r.random() < cutp:
        n = r.randint(skip, o.n)
        o = BW(o.v & ((1 << n) - 1), n)
    elif r.random() < 0.5:
        m = r.randint(0, 70)
        o.put(r.getrandbits(m) if m else 0, m)
    n, h = emit_window(r, o).split(" ")
    return "%d %s %s" % (skip, n, h)


def sec_vec(r, n):
    for i in range(n):
        sc = 0 if r.random() < 0.01 else (r.choice(SCALES) if r.random() < 0.8 else r.randint(1, 2 ** 32 - 1))
        yield "V %d %s" % (sc, framed(r, put_vec(r, BW(), 0 if r.random() < 0.15 else i % 64, (i // 64) % 2)))


def sec_normal(r, n):
    for _ in range(n):
        w = BW()
        for _ in range(3):
            w.put(r.choice([0, 1, 32767, 32768, 32769, 65535, r.getrandbits(16)]), 16)
        yield "N %s" % framed(r, w)


def sec_rot(r, n):
    for _ in range(n):
        wd = r.choice([8, 16])
        w = BW()
        for _ in range(3):
            if r.random() < 0.7:
                w.put(1, 1).put(r.choice([0, 1, (1 << wd) - 1, r.getrandbits(wd), r.getrandbits(wd)]), wd)
            else:
                w.put(0, 1)
        yield "R %d %s" % (wd, framed(r, w))


def sec_move(r, n):
    for _ in range(n):
        wd, sc = r.choice([8, 16]), r.choice([1, 10, 100])
        w = BW()
        f = r.getrandbits(4)
        w.put(f, 4)

        def vec():
            k = r.random()
            put_vec(r, w, r.randint(1, 24) if k < 0.6 else (0 if k < 0.75 else None))
        vec()
        for _ in range(3):
            if r.random() < 0.6:
                w.put(1, 1).put(r.getrandbits(wd), wd)
            else:
                w.put(0, 1)
        vec()
        if f & 2:
            vec()
        for b in (4, 8):
            if f & b:
                if r.random() < 0.05:
                    for x in r.choice(BAD):
                        w.put(x, 8)
                else:
                    put_pk(w, r.choice([0, 1, 127, 128, 2 ** 32 - 1, r.getrandbits(32)]), r, 0.2)
        if r.random() < 0.3:
            w = damage(r, w)
        yield "M %d %d %s" % (sc, wd, emit_window(r, w))


def sec_packed(r, n):
    for _ in range(n):
        w = BW()
        k = r.random()
        if k < 0.6:
            put_pk(w, r.choice([0, 1, 127, 128, 16383, 16384, 2 ** 21 - 1, 2 ** 21, 2 ** 28 - 1, 2 ** 28, 2 ** 32 - 1, r.getrandbits(r.randint(1, 32))]), r, 0.4)
        elif k < 0.8:
            for b in r.choice(BAD):
                w.put(b, 8)
        else:
            for _ in range(5):
                w.put(r.getrandbits(8) | (r.random() < 0.6), 8)
        yield "P %s" % framed(r, w)


def sec_sint(r, n):
    for _ in range(n):
        m = r.choice([0, 1, 2, 3, 4, 5, 7, 8, 9, 127, 128, 129, 65535, 65536, 65537, 2 ** 31 - 1, 2 ** 31, 2 ** 31 + 1, 2 ** 32 - 1, r.getrandbits(r.randint(1, 32))])
        b = max(m.bit_length() - 1, 0)
        w = BW(r.choice([r.getrandbits(b + 1), (m - 1 if m else 0), m, max(m - (1 << b), 0), max(m - (1 << b) - 1, 0)]) & ((1 << (b + 1)) - 1), b + 1)
        yield "I %d %s" % (m, framed(r, w))


def sec_bits(r, n):
    for i in range(n):
        c = i % 65
        yield "G %d %s" % (c, framed(r, BW(r.getrandbits(c) if c else 0, c)))


def sec_copy(r, n):
    for _ in range(n):
        c = r.choice([0, 1, 7, 8, 9, 63, 64, 65, 127, 128, 129, 200, r.randint(0, 400)])
        room = max(0, (c + 7) // 8 + r.choice([-1, 0, 0, 0, 1, 5]))
        yield "C %d %d %s" % (c, room, framed(r, BW(r.getrandbits(c) if c else 0, c)))


# ---- localized text trees
def put_str(r, w, s=None):
    k = r.random()
    s = s if s is not None else r.choice(["", "a", "Key", "h\u00e9llo", "\u20ac", "\U0001f600x", "a\0b", "x" * 30])
    if s == "" and k < 0.5:
        w.put(0, 32)
        return
    if k < 0.55:
        b = s.encode() + b"\0"
        n = len(b)
    else:
        b = s.encode("utf-16-le") + b"\0\0"
        n = -(len(b) // 2)
    j = r.random()
    if j < 0.03:
        b = b[:-1] + b"\x01"
    elif j < 0.06:
        b = bytes([0xff, 0xdc, 0x80, 0xd8][:len(b)]) + b[4:]
    elif j < 0.08:
        n = r.choice([n + 1, -n, 70000, -40000, -2 ** 31, 2 ** 31 - 1, 65536, 65537])
    w.put(n & 0xffffffff, 32)
    for x in b:
        w.put(x, 8)


def put_tree(r, w, depth=0):
    fl = r.choice([0, 0, 1, r.getrandbits(32)])
    h = r.choice([3, 3, 4, 11, 255] if depth < 3 else [4, 11, 255, 255])
    if r.random() < 0.02:
        h = r.getrandbits(8)
    if h == 255 and r.random() < 0.95:
        fl = 0
    w.put(fl, 32).put(h, 8)
    if h == 11:
        w.put(1 if r.random() < 0.02 else 0, 1)
        put_str(r, w)
        w.put(r.choice([0, 0, 1, 5, 0xffffffff if r.random() < 0.1 else 2]), 32)
        put_str(r, w)
    elif h == 4:
        w.put(3 if r.random() < 0.97 else r.getrandbits(8), 8)
        w.put(r.choice(F64S[:10]) if r.random() < 0.97 else r.choice(F64S), 64)
        b = r.choice([0, 1] * 20 + [2])
        w.put(b, 32)
        if b == 1:
            w.put(r.choice([0, 1]), 32).put(r.choice([0, 1] * 9 + [7]), 32).put(r.getrandbits(8), 8)
            for _ in range(4):
                w.put(r.getrandbits(32), 32)
        put_str(r, w)
    elif h == 3:
        put_tree(r, w, depth + 1)
        n = r.choice([0, 1, 1, 2, 3])
        w.put((n if r.random() < 0.97 else r.choice([n + 1, -1, 129, 128, 17])) & 0xffffffff, 32)
        for _ in range(n):
            put_str(r, w)
            t = r.choice([0, 4])
            w.put(t if r.random() < 0.98 else r.getrandbits(8), 8)
            if t == 0:
                w.put(r.getrandbits(64), 64)
            else:
                put_tree(r, w, depth + 1)
    elif h == 255:
        w.put(0 if r.random() < 0.97 else 1, 32)


def sec_ftext(r, n):
    for _ in range(n):
        w = BW()
        k = r.random()
        if k < 0.9:
            put_tree(r, w)
        elif k < 0.95:
            # chains of formats through source or argument: 7, 8, 9, 15, 16, 17 levels
            lv = r.choice([7, 8, 9, 15, 16, 17])
            via = r.randrange(2)
            tails = []
            for _ in range(lv - 1):
                w.put(0, 32).put(3, 8)
                if via == 0:
                    tails.append(BW(0, 32))
                else:
                    w.put(0, 32).put(255, 8).put(0, 32).put(1, 32)
                    put_str(r, w, "a")
                    w.put(4, 8)
            w.put(0, 32).put(255, 8).put(0, 32)
            for t in tails:
                w.cat(t)
        elif k < 0.965:
            # more than 64 and 256 nodes: a format of formats
            a, b = r.choice([(14, 16), (30, 31), (16, 16), (126, 127), (126, 128), (127, 126), (128, 128)])
            w.put(0, 32).put(3, 8).put(0, 32).put(3, 8).put(0, 32).put(255, 8).put(0, 32)
            for m in (a, b):
                w.put(m, 32)
                for _ in range(m):
                    w.put(0, 32).put(0, 8).put(r.getrandbits(64), 64)
        elif k < 0.975:
            # strings on the edges of 4,096 and 65,536 bytes with terminator
            wide = r.random() < 0.5
            m = r.choice([4095, 4096, 4097, 4098, 65535, 65536, 65537]) // (2 if wide else 1)
            w.put(0, 32).put(11, 8).put(0, 1).put((-m if wide else m) & 0xffffffff, 32)
            w.put(int.from_bytes(b"a\0" * (m - 1) if wide else b"a" * (m - 1), "little"), (m - 1) * (16 if wide else 8))
            w.put(0, 16 if wide else 8).put(0, 32).put(0, 32)
        else:
            # many arguments: nodes 1 + 1 + n
            n2 = r.choice([15, 16, 17, 61, 62, 63, 127, 128, 129])
            w.put(0, 32).put(3, 8).put(0, 32).put(255, 8).put(0, 32).put(n2, 32)
            for _ in range(n2):
                w.put(0, 32).put(0, 8).put(r.getrandbits(64), 64)
        if r.random() < 0.15:
            w = damage(r, w)
        yield "T %s" % emit_window(r, w)


SEC = dict(struct=sec_struct, object=sec_object, deep=sec_deep, limits=sec_limits, fields=sec_fields, random3=sec_random3, past=sec_past, fast=sec_fast,
           vec=sec_vec, normal=sec_normal, rot=sec_rot, move=sec_move, packed=sec_packed, sint=sec_sint, bits=sec_bits, copy=sec_copy, ftext=sec_ftext)
MIX = [("struct", .28), ("object", .09), ("deep", .05), ("random3", .06), ("past", .01), ("fast", .08), ("vec", .12), ("normal", .02), ("rot", .03),
       ("move", .09), ("packed", .03), ("sint", .03), ("bits", .03), ("copy", .02), ("ftext", .035), ("fields", .02), ("limits", .006)]


def main():
    sec, seed = sys.argv[1], sys.argv[2]
    i = 0
    out = sys.stdout
    if sec == "exh16":
        for c in sec_exh16(sys.argv[3]):
            out.write("%d %s\n" % (i, c))
            i += 1
        return
    n = int(sys.argv[3])
    if sec == "heldout":
        for name, share in MIX:
            for c in SEC[name](random.Random("%s/%s" % (seed, name)), max(1, round(n * share))):
                out.write("%d %s\n" % (i, c))
                i += 1
        return
    for c in SEC[sec](random.Random("%s/%s" % (seed, sec)), n):
        out.write("%d %s\n" % (i, c))
        i += 1


if __name__ == "__main__":
    main()

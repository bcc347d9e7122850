#!/usr/bin/env python3
"""Writes the sample windows of this folder, small ones for each kind that `vrf` reads, and the one that its bundled run walks.

Usage: python3 samples/make.py"""
import pathlib
import struct


class Bits:
    """A window that is written bit by bit, the lowest bit of a byte first."""

    def __init__(self):
        self.bits = []

    def field(self, value, width):
        """The low `width` bits of a number, two's complement where it is negative."""
        self.bits += [value >> i & 1 for i in range(width)]
        return self

    def packed(self, value, padded=False):
        """A packed number: seven bits to a byte, the low bit says that another byte follows; a padded one has a byte 0 more."""
        while True:
            low, value = value & 127, value >> 7
            self.field(low << 1 | (value > 0 or padded), 8)
            if value == 0:
                return self.field(0, 8) if padded else self

    def add(self, other):
        self.bits += other.bits
        return self

    def bytes(self):
        out = bytearray((len(self.bits) + 7) // 8)
        for i, bit in enumerate(self.bits):
            out[i // 8] |= bit << i % 8
        return bytes(out)


def array(count, elements, trailer=False, padded=False):
    """An array: its count, each element (index, its fields), the closing zero, and the trailer if it has one."""
    out = Bits().packed(count, padded)
    for index, fields in elements:
        out.packed(index + 1, padded)
        for handle, payload in fields:
            out.packed(handle + 1, padded).packed(len(payload.bits), padded).add(payload)
        out.packed(0, padded)
    out.packed(0, padded)
    return out.packed(0) if trailer else out


def raw(data):
    return Bits().field(int.from_bytes(data, "little"), 8 * len(data))


def number(value):
    return raw(struct.pack("<f", value))


def combat_rounds(padded=False):
    reports = array(1, [(0, [(1, raw(b"\xab"))])], padded=padded)
    return array(1, [(0, [(4, reports)])], padded=padded)


def kept_tail():
    """A round with two Reports arrays: in the first a leaf of no bits and one of three, of the second, with a count past the limit, a tail."""
    reports = array(1, [(0, [(1, Bits()), (2, Bits().field(5, 3))])])
    return array(1, [(0, [(4, reports), (4, Bits().packed(5000).add(raw(b"\xab")))])])


def ability_casts():
    targets = array(2, [(0, [(19, Bits().packed(300)), (20, number(12.5))]), (1, [(19, Bits().packed(302)), (20, number(4))])])
    effects = array(1, [(0, [(14, Bits().packed(7)), (16, number(16.5)), (18, targets)])])
    return array(1, [(0, [(2, raw(b"\x01")), (13, effects)])])


def life_change_damage():
    return array(1, [(0, [(10, Bits().packed(41)), (11, number(75)), (12, number(-25)), (13, Bits().field(1, 1))])])


def plain(trailer):
    """Two elements; fields of 8, 3, 5, 8 and no bits."""
    first = [(1, raw(b"\xab")), (2, Bits().field(5, 3)), (3, Bits().field(17, 5))]
    return array(2, [(0, first), (1, [(1, raw(b"\xcd")), (2, Bits())])], trailer)


def objects():
    return array(3, [(0, [(1, Bits().packed(7))]), (2, [(1, Bits().packed(1200))])])


def fast_array(flag, padded=False):
    """A body with one deleted id and two changed items; with `flag` a checksum flag in each item; with `padded` eight padded numbers."""
    out = Bits().field(1, 1)
    for word in (12, 11, 1, 2, -3):
        out.field(word, 32)
    for ident, fields in ((40, [(3, raw(b"\x11\x22")), (5, Bits().field(1, 1))]), (41, [(3, raw(b"\x33\x44"))])):
        out.field(ident, 32)
        if flag:
            out.field(0, 1)
        for handle, payload in fields:
            out.packed(handle + 1, padded).packed(len(payload.bits), padded).add(payload)
        out.packed(0, padded)
    return out


def vector(scaled, width, components):
    out = Bits().field(width, 6).field(scaled, 1)
    for component in components:
        out.field(component, width)
    return out


def movement(padded=False):
    """For scale 100 and width 16: a location of two decimals, a yaw of 90 degrees, both velocities, a frame, no handle."""
    out = Bits().field(0, 1).field(1, 1).field(1, 1).field(0, 1)
    out.add(vector(1, 20, (123456, -250, 9050)))
    out.field(0, 1).field(1, 1).field(16384, 16).field(0, 1)
    out.add(vector(0, 10, (300, -15, 0)))
    out.add(vector(0, 4, (0, 0, 6)))
    return out.packed(4711, padded)


def main():
    folder = pathlib.Path(__file__).parent
    for name, window in {
        "combat-rounds": combat_rounds(),
        "combat-rounds-padded": combat_rounds(padded=True),
        "kept-tail": kept_tail(),
        "ability-casts": ability_casts(),
        "life-change-damage": life_change_damage(),
        "none": plain(True),
        "exact": plain(False),
        "objects": objects(),
        "no-elements": array(0, []),
        "fastarray-absent": fast_array(False),
        "fastarray-present": fast_array(True),
        "fastarray-padded": fast_array(False, padded=True),
        "movement": movement(),
        "movement-padded": movement(padded=True),
    }.items():
        (folder / f"{name}.bin").write_bytes(window.bytes())
        print(name, len(window.bits), "bits")
    (folder / "cut.bin").write_bytes(ability_casts().bytes()[:40])
    (folder.parent / "crates/vrf/data/combat-rounds.bin").write_bytes(combat_rounds().bytes())


if __name__ == "__main__":
    main()

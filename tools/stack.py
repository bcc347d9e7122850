#!/usr/bin/env python3
"""How much stack the program `replay` takes, and the deepest walk in it.

    stack.py [PROGRAM]

Makes two files of one recorded case each, a struct walk of one level and one of twelve, and finds by bisection the least stack
with which PROGRAM (crates/replay/out/replay) ends on each of them. The difference is what eleven nested levels take; what the program
itself holds, its rooms above all, is in both.
"""
import resource
import struct
import subprocess
import sys
import tempfile

LEVELS = 12
# What a window of no nested array takes at least and the program's own rooms at most, in KiB.
LEAST, MOST = 16, 8192


def u64(*values):
    return struct.pack("<%dQ" % len(values), *values)


def u32s(*values):
    return u64(4 * len(values)) + struct.pack("<%dI" % len(values), *values)


def run(data):
    return u64(len(data)) + data


def packed(value):
    out = bytearray()
    while True:
        group, value = value & 127, value >> 7
        out.append(group << 1 | (value > 0))
        if not value:
            return bytes(out)


def window(levels):
    """An array of one element of one field, which is again such an array; the innermost field is a leaf of eight bits."""
    payload = b"\xab"
    for _ in range(levels):
        payload = packed(1) + packed(1) + packed(1) + packed(8 * len(payload)) + payload + b"\0\0"
    return payload


def case(levels):
    """A struct walk by the one level whose handle 0 is an array of the same level. What is expected doesn't matter here."""
    data = window(levels)
    tables = u64(0, 1, 0) + u32s(0, 0, 0, 0, 0) + run(b"") + u32s() + run(b"")
    answer = u64(0, 0, 0, 0, 0, 0, 0, 0, 0, 0) + u64(0, 0, 0, 1) + run(b"") + run(b"") + run(b"")
    body = b"S" + bytes([1]) + b"0" + tables + u64(8 * len(data)) + run(data) + answer
    return b"VRFCASE4" + struct.pack("<I", len(body)) + body


def ends(program, path, kib):
    size = 1024 * kib
    done = subprocess.run([program, path], preexec_fn=lambda: resource.setrlimit(resource.RLIMIT_STACK, (size, size)), capture_output=True)
    return done.returncode == 0 and b"1 cases" in done.stdout


def least(program, path):
    low, high = LEAST, MOST
    if not ends(program, path, high):
        sys.exit("stack.py: the program doesn't end with %d KiB" % high)
    while high - low > 1:
        middle = (low + high) // 2
        if ends(program, path, middle):
            high = middle
        else:
            low = middle
    return high


def main():
    program = sys.argv[1] if len(sys.argv) > 1 else "crates/replay/out/replay"
    sizes = []
    for levels in (1, LEVELS):
        with tempfile.NamedTemporaryFile(suffix=".bin") as f:
            f.write(case(levels))
            f.flush()
            sizes.append(least(program, f.name))
            print("a walk of %2d levels: the program ends with %d KiB of stack" % (levels, sizes[-1]))
    print("eleven more levels take %d KiB" % (sizes[1] - sizes[0]))


if __name__ == "__main__":
    main()

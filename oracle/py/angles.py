#!/usr/bin/env python3
"""Every byte as an angle, once on each axis: in a rotation, and in a movement that holds nothing else."""
from gen import BW


def put_rotation(w, k):
    """k and two other bytes; over all k each axis has every byte once."""
    for axis in (k, 255 - k, k * 77 + 5 & 255):
        w.put(1, 1).put(axis, 8)
    return w


def put_zero_vector(w):
    """A vector of zeros, as binary32."""
    return w.put(0, 7).put(0, 32).put(0, 32).put(0, 32)


for k in range(256):
    w = put_rotation(BW(), k)
    print("r%d R 8 0 %d %s" % (k, w.n, w.bytes().hex()))
    w = put_zero_vector(put_rotation(put_zero_vector(BW(0, 4)), k))
    print("m%d M 1 8 %d %s" % (k, w.n, w.bytes().hex()))

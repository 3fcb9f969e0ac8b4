#!/usr/bin/env python3
"""Writes a picture of 5 by 3 pixels as a binary PPM, and proposals for its two blocks of which four are refused, by 3, 4, 5 and 6.

    examples/small.py crates/plate_checks/data
"""
import pathlib
import sys

WIDTH, HEIGHT = 5, 3


def record(mode, partition, ends, p, free):
    """A proposal: mode, partition, twelve channels endpoint by endpoint, p-bits, and 0 where these are fixed or 1 where they are free."""
    return bytes([mode, partition, *(channel for end in ends for channel in end), p, free])


def proposals():
    """For each block a count byte and its records."""
    low, high = (10, 20, 30), (40, 50, 60)
    blocks = (
        [record(2, 0, [low, high] * 2, 0, 1), record(1, 64, [low, high] * 2, 0, 1), record(1, 13, [low, high] * 2, 0, 1)],
        [record(1, 0, [(64, 0, 0), high] * 2, 0, 1), record(3, 0, [low, high] * 2, 16, 0), record(3, 9, [low, high] * 2, 5, 0)],
    )
    return b"".join(bytes([len(records)]) + b"".join(records) for records in blocks)


def picture():
    """The picture's bytes: red grows to the right, green downwards, blue with both."""
    return bytes(value for y in range(HEIGHT) for x in range(WIDTH) for value in (40 + 25 * x, 60 + 30 * y, 80 + 10 * (x + y)))


if __name__ == "__main__":
    if len(sys.argv) != 2:
        sys.exit("usage: examples/small.py FOLDER")
    folder = pathlib.Path(sys.argv[1])
    (folder / "small.ppm").write_bytes(b"P6\n%d %d\n255\n" % (WIDTH, HEIGHT) + picture())
    (folder / "small.proposals").write_bytes(proposals())

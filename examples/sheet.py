#!/usr/bin/env python3
"""Puts a photograph, what its plate shows and the map of its errors side by side, as a PNG.

    examples/sheet.py PHOTO.ppm SHOWN.ppm MAP.ppm OUT.png

SHOWN is written by `bc7 show` and MAP by `bc7 map`. A pixel of the photograph becomes a square of 4 by 4, and one of the map, which
stands for a block of 4 by 4 pixels, a square of 16 by 16.
"""
import re
import struct
import sys
import zlib

ENLARGED = 4, 4, 16
GAP, LIGHT = 12, b"\xf4\xf4\xf0"
HEADER = re.compile(rb"P6(?:\s|#[^\n]*\n)+(\d+)(?:\s|#[^\n]*\n)+(\d+)(?:\s|#[^\n]*\n)+255\s")


def rows(path):
    """The rows of a binary PPM, each a list of pixels of three bytes."""
    with open(path, "rb") as file:
        data = file.read()
    header = HEADER.match(data)
    if header is None:
        sys.exit(f"{path}: expected a binary PPM picture")
    width, height = int(header[1]), int(header[2])
    if len(data) != header.end() + 3 * width * height:
        sys.exit(f"{path}: expected {width} by {height} pixels")
    pixels = [data[at : at + 3] for at in range(header.end(), len(data), 3)]
    return [pixels[y * width : (y + 1) * width] for y in range(height)]


def enlarged(picture, times):
    """A picture's rows as bytes, each pixel a square."""
    return [b"".join(pixel * times for pixel in row) for row in picture for _ in range(times)]


def beside(pictures):
    """The rows of pictures side by side, with a light gap around each; a lower or narrower one is filled up with it."""
    height = max(map(len, pictures))
    filled = [picture + [LIGHT * (len(picture[0]) // 3)] * (height - len(picture)) for picture in pictures]
    inner = [LIGHT * GAP + b"".join(row + LIGHT * GAP for row in parts) for parts in zip(*filled)]
    edge = [LIGHT * (len(inner[0]) // 3)] * GAP
    return edge + inner + edge


def chunk(kind, data):
    """A part of a PNG file."""
    return struct.pack(">I", len(data)) + kind + data + struct.pack(">I", zlib.crc32(kind + data))


def png(picture):
    """A PNG file of rows of bytes, with eight bits for each of red, green and blue."""
    head = struct.pack(">2I5B", len(picture[0]) // 3, len(picture), 8, 2, 0, 0, 0)
    data = zlib.compress(b"".join(b"\0" + row for row in picture), 9)
    return b"\x89PNG\r\n\x1a\n" + chunk(b"IHDR", head) + chunk(b"IDAT", data) + chunk(b"IEND", b"")


if __name__ == "__main__":
    if len(sys.argv) != 5:
        sys.exit("usage: examples/sheet.py PHOTO.ppm SHOWN.ppm MAP.ppm OUT.png")
    sheet = png(beside([enlarged(rows(path), times) for path, times in zip(sys.argv[1:4], ENLARGED)]))
    with open(sys.argv[4], "wb") as file:
        file.write(sheet)

#!/usr/bin/env python3
"""Prints what palette_checks must print, from the chapter's rules and the partition texts of the Rust.

python3 expected.py BCN_DATA.RS > stdout, where BCN_DATA.RS is src/bcn_data.rs of image-dds.
"""
import re
import sys

TEXTS = re.findall(r'subset2\(\*b"([01-]{17})"\)', open(sys.argv[1]).read())
WEIGHTS = {4: (0, 21, 43, 64), 8: (0, 9, 18, 27, 37, 46, 55, 64)}
PIXELS = [tuple((i * 53 + i // 3 * 29) % 256 for i in range(3 * k, 3 * k + 3)) for k in range(16)]
ENDS1 = ((3, 60, 17), (55, 8, 40), (20, 21, 22), (63, 0, 33))
ENDS3 = ((3, 120, 17), (110, 8, 40), (20, 21, 22), (127, 0, 99))


def shown(bits, e, p):
    """The byte of a stored channel: the p-bit below it, and the top bits again below both."""
    n = bits + 1
    v = 2 * e + p
    return v << (8 - n) | v >> (2 * n - 8)


def row(colours, a, b):
    """The palette between two shown colours, in parts of 64."""
    return [tuple(((64 - w) * x + w * y + 32) >> 6 for x, y in zip(a, b)) for w in WEIGHTS[colours]]


def nearest(bits, colours, ends, subsets, s, p_bits):
    """The indices and the error of the pixels of subset s, whose two endpoints have these p-bits."""
    a, b = (tuple(shown(bits, e, p) for e in end) for end, p in zip(ends[2 * s:2 * s + 2], p_bits))
    colour, indices, error = row(colours, a, b), {}, 0
    for i, pixel in enumerate(PIXELS):
        if subsets[i] == s:
            apart = [sum((x - y) ** 2 for x, y in zip(pixel, c)) for c in colour]
            indices[i] = apart.index(min(apart))
            error += min(apart)
    return indices, error


def search(mode, bits, colours, ends, choices, subsets):
    """The indices, the p-bits as one number and the error, where each subset has the first of its choices of least error."""
    found, number, at, error = {}, 0, 0, 0
    for s in (0, 1):
        tried = [nearest(bits, colours, ends, subsets, s, both) for both in choices[s]]
        least = min(e for _, e in tried)
        k = [e for _, e in tried].index(least)
        found.update(tried[k][0])
        error += least
        own = choices[s][k][:1] if mode == 1 else choices[s][k]
        for bit in own:
            number |= bit << at
            at += 1
    print('mode', mode, ''.join(str(found[i]) for i in range(16)), number, error)


for e, p in ((63, 1), (63, 0), (0, 1)):
    print('shown', shown(6, e, p))
for colours in (4, 8):
    print('palette', ''.join(f'{c[0]} ' for c in row(colours, (0,) * 3, (255,) * 3)))
assert len(TEXTS) == 64
for part, text in enumerate(TEXTS):
    subsets = [int(d) for d in text if d != '-']
    print('partition', part, ''.join(map(str, subsets)), sum(subsets), subsets.index(1), text.index('-'))
    search(1, 6, 8, ENDS1, [[(part >> s & 1,) * 2] for s in (0, 1)], subsets)
    search(3, 7, 4, ENDS3, [[(part >> 2 * s & 1, part >> 2 * s + 1 & 1)] for s in (0, 1)], subsets)
    search(1, 6, 8, ENDS1, [[(0, 0), (1, 1)]] * 2, subsets)
    search(3, 7, 4, ENDS3, [[(0, 0), (0, 1), (1, 0), (1, 1)]] * 2, subsets)

#!/usr/bin/env python3
"""Writes the example photograph: a yellow board with a black triangle on a soft background, 64 by 48 pixels, as a binary PPM.

    examples/signal.py crates/plate_checks/data/signal.ppm

Whole numbers only, so that the same bytes come out everywhere.
"""
import sys

WIDTH, HEIGHT, FINE = 64, 48, 4


def background(x, y):
    """Sky above, ballast below, both getting darker to the left."""
    shade = x * 40 // WIDTH
    if y < HEIGHT * 2 // 3:
        return 150 + shade - y, 165 + shade - y, 185 + shade - y // 2
    return 96 + shade // 2, 90 + shade // 2, 84 + shade // 2


def scene(x, y):
    """The colour at a place, in parts of FINE of a pixel."""
    px, py = x // FINE, y // FINE
    in_board = 14 * FINE <= x < 50 * FINE and 6 * FINE <= y < 42 * FINE
    if not in_board:
        post = 30 * FINE <= x < 34 * FINE and y >= 42 * FINE
        return (70, 70, 74) if post else background(px, py)
    edge = min(x - 14 * FINE, 50 * FINE - 1 - x, y - 6 * FINE, 42 * FINE - 1 - y)
    if edge < FINE:
        return 40, 38, 30
    top, bottom, middle = 12 * FINE, 36 * FINE, 32 * FINE
    if top <= y < bottom and abs(x - middle) * 2 * 24 <= (y - top) * 28:
        return 24, 22, 20
    return 232 - px // 3, 190 - px // 3, 30 + py // 4


def grain(state):
    """The next number of a linear congruential generator, and a small change of brightness by it."""
    state = (state * 1103515245 + 12345) % 2**31
    return state, (state >> 16) % 7 - 3


def picture():
    """The picture's bytes: the mean of FINE by FINE places for each pixel, with grain."""
    out, state = bytearray(), 7
    for py in range(HEIGHT):
        for px in range(WIDTH):
            places = [scene(px * FINE + i, py * FINE + j) for j in range(FINE) for i in range(FINE)]
            state, change = grain(state)
            for channel in range(3):
                mean = sum(place[channel] for place in places) // FINE**2
                out.append(max(0, min(255, mean + change)))
    return bytes(out)


if __name__ == "__main__":
    if len(sys.argv) != 2:
        sys.exit("usage: examples/signal.py OUT.ppm")
    with open(sys.argv[1], "wb") as file:
        file.write(b"P6\n# a yellow board with a black triangle\n%d %d\n255\n" % (WIDTH, HEIGHT) + picture())

"""Bakes pictures, computes the figures that bc7 says again, and compares what it shows with what decoders of other people read: plate.py
BC7 QUALITY FOLDER PHOTO. See plate."""

import os
import random
import sys

from decoders import compared, ended
from figures import distances, expected, pixels_of, size
from program import FIGURES, HEADER, done, drawn, is_picture
from quality import qualities_right

SIZES = (61, 43), (1, 1), (3, 5), (9, 5), (13, 13)  # of the drawn pictures, whose sides are no multiples of four
SEED, TOTALS, SIDE = 1, 2000, 40  # of pictures of drawn sizes, how many they are, and their greatest side


def fail(text):
    """Ends with one line."""
    sys.exit(f"compare: {text}")


def read(path):
    """A file's bytes."""
    with open(path, "rb") as file:
        return file.read()


def write(path, data):
    """Writes a file."""
    with open(path, "wb") as file:
        file.write(data)


def blocks_of(plate):
    """The blocks of a plate."""
    data = read(plate)
    return [data[at : at + 16] for at in range(0, len(data), 16)]


def shown(program, plate, width, height, picture):
    """The pixels that bc7 shows: red, green, blue, row by row."""
    done(program, "show", plate, width, height, picture)
    if not is_picture(read(picture), width, height):
        fail(f"{picture} is no picture of {width} by {height} pixels")
    return pixels_of(picture, width, height)


def with_alpha(rgb):
    """The pixels with alpha 255, as the decoders give them."""
    pixels = bytearray(b"\xff") * (len(rgb) // 3 * 4)
    for channel in range(3):
        pixels[channel::4] = rgb[channel::3]
    return bytes(pixels)


def figures_right(program, photo, base, said):
    """Holds what bc7 says when it bakes and measures to the distances between the photograph and what it shows of whole blocks; gives
    these distances."""
    width, height = size(photo)
    across, down = (width + 3) // 4, (height + 3) // 4
    whole = shown(program, f"{base}.bc7", 4 * across, 4 * down, f"{base}.whole.ppm")
    own, every = distances(pixels_of(photo, width, height), width, height, whole)
    right, lines = expected(width, height, own, every), done(program, "measure", photo, f"{base}.bc7")
    total = done(program, "measure", photo, f"{base}.bc7", "--total")
    for name, figures in (("bake", said), ("measure", lines[-len(FIGURES) :]), ("measure --total", total)):
        if figures != right:
            fail(f"{photo}: bc7 {name} says {figures}, not {right}")
    if [int(line.split()[-1]) for line in lines[1 : -len(FIGURES)]] != every:
        fail(f"{photo}: bc7 measure says other errors than the pictures have")
    print(f"{photo}: {len(every)} errors and the figures are those of the pictures: {', '.join(said)}")
    return own, every


def splits(rows):
    """Bands of so many rows of blocks, as first rows and counts: all in one, each row alone, the first apart, two halves, growing ones."""
    growing = [n * (n + 1) // 2 for n in range(rows)]
    for inner in ([], range(1, rows), [1], [rows // 2], growing):
        cuts = sorted({0, rows, *(cut for cut in inner if cut < rows)})
        yield [(first, last - first) for first, last in zip(cuts, cuts[1:])]


def band_baked(program, photo, base, first, count, right):
    """The plate of a band, of which bc7 must say these figures."""
    said = done(program, "bake", "--rows", first, count, photo, f"{base}.band.bc7")
    rows = f"rows {first} to {first + count - 1} of {(size(photo)[1] + 3) // 4}"
    if said != [rows, *right]:
        fail(f"{photo}: bc7 bake --rows {first} {count} says {said}, not {[rows, *right]}")
    return read(f"{base}.band.bc7")


def bands_right(program, photo, base, own, every):
    """Holds the plates and the figures of bands to those of the whole photograph with these distances."""
    width, height = size(photo)
    different = list(splits((height + 3) // 4))
    for bands in different:
        figures = [expected(width, height, own, every, (first, first + count - 1)) for first, count in bands]
        parts = [band_baked(program, photo, base, *band, right) for band, right in zip(bands, figures)]
        if b"".join(parts) != read(f"{base}.bc7"):
            fail(f"{photo}: the bands {bands} are not the plate")
    print(f"{photo}: the bands of {len(different)} splits are the plate")


def compare(program, photo, base):
    """Bakes, measures, shows and compares one picture: its pixels, how many decoders read its plate, and how many pixels differ."""
    said = done(program, "bake", photo, f"{base}.bc7")
    bands_right(program, photo, base, *figures_right(program, photo, base, said))
    width, height = size(photo)
    ours = with_alpha(shown(program, f"{base}.bc7", width, height, f"{base}.shown.ppm"))
    return width * height, *compared(f"{base}.dds", blocks_of(f"{base}.bc7"), width, height, ours)


def changed(pixels, draw):
    """Pixels of which none, one or all bytes are changed, by little or by much."""
    most, kind = draw.choice((1, 3, 16, 255)), draw.randrange(8)
    pixels = bytearray(pixels)
    for at in range(kind if kind < 2 else len(pixels)):
        pixels[at] = min(255, max(0, pixels[at] + draw.randint(-most, most)))
    return bytes(pixels)


def total_right(program, base, blocks, width, height, change):
    """Measures a picture of a size, changed from what the blocks show, and holds the figures to it."""
    across, down = (width + 3) // 4, (height + 3) // 4
    write(f"{base}.bc7", b"".join(blocks[: across * down]))
    whole = shown(program, f"{base}.bc7", 4 * across, 4 * down, f"{base}.whole.ppm")
    photo = change(b"".join(whole[12 * across * y :][: 3 * width] for y in range(height)))
    write(f"{base}.ppm", HEADER % (width, height) + photo)
    said = done(program, "measure", f"{base}.ppm", f"{base}.bc7", "--total")
    right = expected(width, height, *distances(photo, width, height, whole))
    if said != right:
        fail(f"{width} by {height} pixels: bc7 measure says {said}, not {right}")


def totals_right(program, base, blocks):
    """Measures pictures of drawn sizes, near and far from what drawn blocks show; and pictures of 4 by 4 pixels, of 48 bytes, of which
    3, 9, 15 and so on are changed by 1: their means end with the half of a thousandth."""
    draw = random.Random(SEED)
    for _ in range(TOTALS):
        width, height = draw.randint(1, SIDE), draw.randint(1, SIDE)
        total_right(program, base, draw.sample(blocks, len(blocks)), width, height, lambda pixels: changed(pixels, draw))
    for count in range(3, 48, 6):
        total_right(program, base, blocks, 4, 4, lambda pixels: bytes(byte ^ (n < count) for n, byte in enumerate(pixels)))
    print(f"{TOTALS} pictures of drawn sizes have the figures that bc7 measure says, and 8 whose means end with a half")


def main():
    """Compares the photograph and the drawn pictures."""
    program, quality, folder, photo = sys.argv[1:]
    pictures = [(photo, os.path.join(folder, "photo"))]
    for width, height in SIZES:
        base = os.path.join(folder, f"drawn{width}x{height}")
        write(f"{base}.ppm", drawn(width, height))
        pictures.append((f"{base}.ppm", base))
    answers = [compare(program, path, base) for path, base in pictures]
    qualities_right(quality)
    totals_right(program, os.path.join(folder, "totals"), blocks_of(f"{pictures[1][1]}.bc7"))
    pixels, decoders, differ = zip(*answers)
    return ended(sum(pixels), min(decoders), sum(differ))


if __name__ == "__main__":
    sys.exit(main())

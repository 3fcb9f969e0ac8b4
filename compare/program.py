"""What the scripts about the program bc7 share: running it, and pictures and proposals to run it on."""

import random
import subprocess
import sys

SEED = 1  # of the noise in drawn pictures
PERIOD = 256  # pixels after which a drawn gradient comes back
STRIPE = 32  # pixels from edge to edge
SMALL = 5, 3  # the size of a small picture, of two blocks
FIGURES = (  # the names of the figures, a line each
    "total",
    "mean squared error per channel",
    "PSNR",
    "pixels",
    "blocks",
    "sum of block errors",
    "worst block error",
)
HEADER = b"P6\n%d %d\n255\n"  # of a picture, as bc7 writes it


def done(program, *arguments):
    """Runs bc7, which must end well, and gives the lines before its last."""
    ended = subprocess.run([program, *map(str, arguments)], stdout=subprocess.PIPE, text=True, errors="replace")
    lines = ended.stdout.splitlines() or [""]
    if not lines[-1].startswith("done: "):
        sys.exit(f"compare: bc7 {arguments[0]} ended with status {ended.returncode} and '{lines[-1]}'")
    return lines[:-1]


def noisy(row, draw):
    """A row of bytes up to 240 with noise of 0 to 15 added to each."""
    noise = bytes(byte % 16 for byte in range(256))
    added = int.from_bytes(row, "little") + int.from_bytes(draw.randbytes(len(row)).translate(noise), "little")
    return added.to_bytes(len(row), "little")


def drawn_pixels(width, height):
    """The pixels of a drawn picture: a gradient for each channel, with edges between bright and dark stripes, and noise."""
    draw = random.Random(SEED)
    ramp = bytes(abs(2 * (x % PERIOD) - PERIOD) * 240 // PERIOD for x in range(width + PERIOD))
    stripe = bytes(shade // (1 + x // STRIPE % 2) for x, shade in enumerate(ramp))
    pixels, row = bytearray(), bytearray(3 * width)
    for y in range(height):
        for channel, (source, start) in enumerate(((ramp, y), (stripe, 2 * y), (ramp, -y))):
            row[channel::3] = source[start % PERIOD : start % PERIOD + width]
        pixels += noisy(row, draw)
    return bytes(pixels)


def drawn(width, height):
    """A drawn picture as a file's bytes."""
    return HEADER % (width, height) + drawn_pixels(width, height)


def is_picture(data, width, height):
    """Whether a file's bytes are those of a picture of a size, as bc7 writes it."""
    header = HEADER % (width, height)
    return data.startswith(header) and len(data) == len(header) + 3 * width * height


def record(mode, partition, p, free, channel=20):
    """A proposal in which every channel is the same."""
    return bytes((mode, partition, *[channel] * 12, p, free))


def proposed(*blocks):
    """A file of proposals: a count and the records for each block."""
    return b"".join(bytes((len(records),)) + b"".join(records) for records in blocks)


ACCEPTED = record(1, 13, 3, 0), record(3, 63, 15, 0), record(3, 0, 255, 1, 127)
REFUSED = (  # with the check that refuses it
    (3, record(2, 13, 0, 1)),
    (3, record(0, 0, 0, 0)),
    (4, record(1, 64, 0, 0)),
    (5, record(1, 0, 0, 0, 64)),
    (5, record(3, 0, 0, 1, 128)),
    (6, record(1, 0, 4, 0)),
    (6, record(3, 0, 16, 0)),
)

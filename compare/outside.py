"""Compares what the library reads with what decoders of other people read: outside.py LIBRARY FILE SEED. See outside."""

import ctypes
import random
import sys
from ctypes import c_size_t, c_uint32, c_uint64

from decoders import compared, ended

ACROSS = 256  # blocks in a row of the file
FINISHED, PACKED, ANY = 200, 100, 100  # blocks of each kind for each mode and partition


class Library:
    """The calls of include/bc7.h; a refusal ends the program."""

    def __init__(self, path):
        """Loads a shared object and says what the calls give."""
        self.calls = ctypes.CDLL(path)
        for name, answer in (("bc7_finish", c_uint64), ("bc7_pack", c_uint32), ("bc7_read", c_uint32)):
            getattr(self.calls, name).restype = answer

    def finish(self, pixels, mode, partition, ends, p, free):
        """The block of a candidate finished over pixels."""
        block = ctypes.create_string_buffer(16)
        numbers = [c_uint32(number) for number in (mode, partition, *ends, p, free)]
        granted("bc7_finish", self.calls.bc7_finish(pixels, c_size_t(48), *numbers, block, c_size_t(16)) >> 32)
        return block.raw

    def pack(self, mode, partition, ends, p, indices):
        """The block of fields."""
        block = ctypes.create_string_buffer(16)
        numbers = [c_uint32(number) for number in (mode, partition, *ends, p)]
        nibbles = c_uint64(sum(index << 4 * i for i, index in enumerate(indices)))
        granted("bc7_pack", self.calls.bc7_pack(*numbers, nibbles, block, c_size_t(16)))
        return block.raw

    def read(self, block):
        """The sixteen pixels of a block."""
        pixels, fields = ctypes.create_string_buffer(48), ctypes.create_string_buffer(31)
        granted("bc7_read", self.calls.bc7_read(block, c_size_t(16), pixels, c_size_t(48), fields, c_size_t(31)))
        return pixels.raw


def granted(name, refusal):
    """Ends the program where a call was refused."""
    if refusal != 0:
        sys.exit(f"compare: {name} answers {refusal}")


def colour(draw, largest):
    """A colour with channels of at most a limit, each of them any, or each the least or the largest."""
    if draw.randrange(4) == 0:
        return [draw.choice((0, largest)) for _ in range(3)]
    return [draw.randint(0, largest) for _ in range(3)]


def between(a, b, part, whole):
    """The colour that lies a part of the way from one to another."""
    return [(x * (whole - part) + y * part) // whole for x, y in zip(a, b)]


def drawn_pixels(draw):
    """Sixteen pixels: any, a gradient, near one colour, of two colours, or all the same."""
    a, b = colour(draw, 255), colour(draw, 255)
    kind, right, down = draw.randrange(5), draw.randrange(4), draw.randrange(1, 4)
    one = {
        0: lambda i: colour(draw, 255),
        1: lambda i: between(a, b, right * (i % 4) + down * (i // 4), 3 * (right + down)),
        2: lambda i: [min(255, max(0, channel + draw.randint(-8, 8))) for channel in a],
        3: lambda i: draw.choice((a, b)),
        4: lambda i: a,
    }[kind]
    return bytes(channel for i in range(16) for channel in one(i))


def drawn_ends(draw, mode, pixels):
    """Four stored endpoints as numbers: any, equal ones in each subset, or colours of the pixels."""
    bits = 6 if mode == 1 else 7
    kind = draw.randrange(3)
    ends = [colour(draw, (1 << bits) - 1) for _ in range(4)]
    if kind == 1:
        ends = [ends[0], ends[0], ends[2], ends[2]]
    if kind == 2:
        starts = [3 * draw.randrange(16) for _ in range(4)]
        ends = [[channel >> (8 - bits) for channel in pixels[at : at + 3]] for at in starts]
    return [red + 256 * green + 65536 * blue for red, green, blue in ends]


def finished_block(library, draw, mode, partition, free):
    """A finished block."""
    pixels = drawn_pixels(draw)
    ends, p = drawn_ends(draw, mode, pixels), draw.randrange(4 if mode == 1 else 16)
    return library.finish(pixels, mode, partition, ends, p, free)


def packed_block(library, draw, mode, partition):
    """A block of drawn fields."""
    ends, p = drawn_ends(draw, mode, drawn_pixels(draw)), draw.randrange(4 if mode == 1 else 16)
    return library.pack(mode, partition, ends, p, [draw.randrange(8 if mode == 1 else 4) for _ in range(16)])


def any_block(draw, mode, partition):
    """Sixteen drawn bytes with a mode and a partition."""
    rest = draw.getrandbits(128) >> (mode + 7) << (mode + 7)
    return (rest | partition << (mode + 1) | 1 << mode).to_bytes(16, "little")


def drawn_blocks(library, draw):
    """Blocks of both modes and all partitions: finished with fixed and free p-bits, packed, and of any bytes."""
    blocks = []
    for mode, partition in ((mode, partition) for mode in (1, 3) for partition in range(64)):
        blocks += [finished_block(library, draw, mode, partition, n % 2) for n in range(FINISHED)]
        blocks += [packed_block(library, draw, mode, partition) for _ in range(PACKED)]
        blocks += [any_block(draw, mode, partition) for _ in range(ANY)]
    return blocks


def picture(library, blocks):
    """The blocks' pixels as the library reads them: red, green, blue and alpha 255, row by row."""
    rows = bytearray()
    for start in range(0, len(blocks), ACROSS):
        read = [library.read(block) for block in blocks[start : start + ACROSS]]
        for y in range(4):
            for pixels in read:
                for at in range(12 * y, 12 * y + 12, 3):
                    rows += pixels[at : at + 3] + b"\xff"
    return bytes(rows)


def main():
    """Draws the blocks, writes the file and compares."""
    library_path, path, seed = sys.argv[1:]
    library = Library(library_path)
    blocks = drawn_blocks(library, random.Random(int(seed)))
    width, height = 4 * ACROSS, 4 * (len(blocks) // ACROSS)
    print(f"seed {seed}")
    decoders, differ = compared(path, blocks, width, height, picture(library, blocks))
    return ended(width * height, decoders, differ)


if __name__ == "__main__":
    sys.exit(main())

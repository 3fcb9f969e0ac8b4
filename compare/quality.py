"""What quality_checks must print for totals over so many channel values, computed exactly; see plate and crates/quality_checks."""

import decimal
import random
import struct
import subprocess
import sys

from figures import PLACES, SQUARE, mean, psnr

SEED, PAIRS = 1, 20000  # of drawn totals and sizes, and how many they are
SIDE = 16384  # the greatest side of a picture
VALUES = 3 * SIDE * SIDE  # the most channel values of a picture
TOTAL = 2**44  # the greatest total over one value that has a mean
HIGHEST = 11000  # a PSNR in hundredths, to which totals are drawn
OFF = decimal.Decimal(2) ** -38  # how much a PSNR in hundredths may be off before it is rounded
SHOWN = 10  # differing lines that are printed


def record(total, values):
    """What the program reads of a total over so many values."""
    return struct.pack("<2Q", total, values)


def lines(total, values):
    """What the program may print of a total over so many values: two lines where the PSNR lies so near to where it is rounded the other way
    that its logarithms do not tell, else one."""
    if not 0 < values <= VALUES or total > TOTAL * values:
        return {f"{total} {values} outside"}
    near = (psnr(total, values, off).removesuffix(" dB") for off in (-OFF, OFF))
    return {f"{total} {values} {mean(total, values)} {one}" for one in near}


def turning(values, hundredths):
    """The greatest total whose PSNR is rounded up from so many hundredths and a half; that of the next total is rounded down."""
    with decimal.localcontext() as context:
        context.prec = PLACES
        return int(SQUARE * values / 10 ** (decimal.Decimal(2 * hundredths + 1) / 2000))


def drawn_values(draw):
    """The channel values of a picture of drawn sides, small ones as often as large ones."""
    return 3 * (draw.getrandbits(draw.randint(1, 14)) + 1) * (draw.getrandbits(draw.randint(1, 14)) + 1)


def drawn_pairs(draw, count):
    """Totals and values: for drawn numbers of values a total of a drawn length, and two next to where the PSNR is rounded the other way."""
    for _ in range(count // 3):
        values = drawn_values(draw)
        total = turning(values, draw.randrange(HIGHEST))
        yield from ((draw.getrandbits(draw.randint(1, (SQUARE * values).bit_length())), values), (total, values), (total + 1, values))


def chosen_pairs():
    """Totals and values at the limits, with means that end with a half, with a PSNR of whole tens of decibels, and of the greatest picture,
    whose totals lie nearest to where the PSNR is rounded the other way."""
    for values in (1, 2, 3, 48, 9216, VALUES):
        greatest = min(TOTAL * values, 2**64 - 1)
        yield from ((total, values) for total in (0, 1, 2, SQUARE * values - 1, SQUARE * values, SQUARE * values + 1, greatest))
    yield from ((3 * odd, 48) for odd in range(1, 2000, 100))
    yield from ((SQUARE * 10**8 // 10**tens, 10**8) for tens in range(9))
    for hundredths in range(50, 2050, 20):
        total = turning(VALUES, hundredths)
        yield from ((total, VALUES), (total + 1, VALUES))
    yield from ((0, 0), (1, 0), (0, VALUES + 1), (TOTAL + 1, 1), (3 * TOTAL + 1, 3), (2**64 - 1, 0), (2**64 - 1, 2**64 - 1))


def qualities_right(program):
    """Holds what a program prints for chosen and drawn totals to what is exact."""
    pairs = [*chosen_pairs(), *drawn_pairs(random.Random(SEED), PAIRS)]
    records = b"".join(record(*pair) for pair in pairs)
    said = subprocess.run([program], input=records, stdout=subprocess.PIPE, check=True).stdout.decode().splitlines()
    right = [lines(*pair) for pair in pairs]
    wrong = [(one, exact) for one, exact in zip(said, right) if one not in exact]
    for one, exact in wrong[:SHOWN]:
        print(f"differs: ours '{one}', exact {sorted(exact)}")
    if wrong or len(said) != len(right):
        sys.exit(f"compare: of {len(right)} totals {len(wrong)} have another mean or PSNR, and {len(said)} are said")
    near = sum(len(exact) > 1 for exact in right)
    print(f"{len(right)} totals have the exact mean and PSNR; for {near} of them two PSNRs are near enough")

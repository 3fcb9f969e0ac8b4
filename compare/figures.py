"""The figures that bc7 says, computed again from the pictures."""

import decimal
import os

from program import FIGURES

PLACES = 60  # of the decimal numbers that the PSNR is computed with
SQUARE = 255**2  # the greatest square of a channel's difference
TIE = decimal.Decimal("1e-40")  # how near the half of a hundredth it may be, where rounding could not be trusted


def size(photo):
    """Width and height of a picture, as its header has them: the first numbers behind P6 and comments."""
    with open(photo, "rb") as file:
        lines = file.read(4096).split(b"\n")
    words = b" ".join(line.split(b"#")[0] for line in lines).split()
    return int(words[1]), int(words[2])


def pixels_of(picture, width, height):
    """The pixels of a picture of a size, which end its file."""
    with open(picture, "rb") as file:
        file.seek(-3 * width * height, os.SEEK_END)
        return file.read()


def distances(photo, width, height, whole):
    """The squared distance of each block from a photograph, over the pixels that are its own and over all sixteen: its last column and
    row are repeated. The blocks show a picture of whole blocks."""
    across, down = (width + 3) // 4, (height + 3) // 4
    own, every = [0] * (across * down), [0] * (across * down)
    for y, x in ((y, x) for y in range(4 * down) for x in range(4 * across)):
        at, to = 3 * (min(y, height - 1) * width + min(x, width - 1)), 3 * (4 * across * y + x)
        apart = sum((photo[at + c] - whole[to + c]) ** 2 for c in range(3))
        every[y // 4 * across + x // 4] += apart
        if y < height and x < width:
            own[y // 4 * across + x // 4] += apart
    return own, every


def mean(total, values):
    """The mean of squared differences in so many values: thousandths, a half up."""
    thousandths = (2000 * total + values) // (2 * values)
    return f"{thousandths // 1000}.{thousandths % 1000:03}"


def psnr(total, values, off=0):
    """10 log10(SQUARE * values / total) in decibels, to the nearest hundredth, and 0 where that is negative; off is added before, in
    hundredths. There is no tie without it, as ten to the power of an odd number of two-thousandths is no fraction."""
    if total == 0:
        return "exact"
    with decimal.localcontext() as context:
        context.prec = PLACES
        exact = 1000 * (decimal.Decimal(SQUARE * values) / total).log10() + off
        nearest = exact.to_integral_value()
        assert abs(abs(exact - nearest) - decimal.Decimal("0.5")) > TIE
    hundredths = max(0, int(nearest))
    return f"{hundredths // 100}.{hundredths % 100:02} dB"


def expected(width, height, own, every, rows=None):
    """The lines of the figures of a picture with these distances, or of some of its rows of blocks: the first and the last."""
    across, down = (width + 3) // 4, (height + 3) // 4
    first, last = rows or (0, down - 1)
    band = range(first * across, (last + 1) * across)
    total, worst = sum(own[n] for n in band), max(band, key=lambda n: (every[n], -n))
    pixels = width * (min(height, 4 * last + 4) - 4 * first)
    said = (
        total,
        mean(total, 3 * pixels),
        psnr(total, 3 * pixels),
        pixels,
        len(band),
        sum(every[n] for n in band),
        f"{every[worst]} at column {worst % across}, row {worst // across}",
    )
    return [f"{name} {one}" for name, one in zip(FIGURES, said)]

"""Runs of bc7 on unusual input that is right; see mistakes."""

from held import read
from program import ACCEPTED, FIGURES, REFUSED, SMALL, drawn, drawn_pixels, is_picture, proposed

TALL = 8, 80  # the size of a picture with more than 16 rows of blocks

HEADERS = (
    b"P6 5 3 255 ",
    b"P6\t5\t3\t255\t",
    b"P6\r\n5 3\r\n255\n",
    b"P6\v5\f3\n255\r",
    b"P6\n0005 03\n000255\n",
    b"P6\n# one\n# another, 7 8 9\n5 3\n255\n",
    b"P6# at once\n5# and here\n#\n3 # P6\n255\n",
    b"P6\r\n# with a carriage return\r\n5\r\n3\r\n255\n",
    b"P6" + b"\n" * 4000 + b"5 3\n255\n",
)


def headers_good(held):
    """Headers with comments and all kinds of white space, each of which must give the same plate; and a first pixel like a line end."""
    held.done("bake", "small.ppm", "one.bc7", makes="one.bc7")
    for header in HEADERS:
        held.put("same.ppm", header + drawn_pixels(*SMALL))
        held.done("bake", "same.ppm", "same.bc7", makes="same.bc7")
        same = read(held.path("same.bc7")) == read(held.path("one.bc7"))
        held.expect(same, ["bake", "same.ppm"], f"makes another plate with the header {header[:40]}")
    line_end_first = b"\n" + drawn_pixels(*SMALL)[1:]
    for name, end in (("one", b"\n"), ("same", b"\r")):
        held.put(f"{name}.ppm", b"P6\n5 3\n255" + end + line_end_first)
        held.done("bake", f"{name}.ppm", f"{name}.bc7", makes=f"{name}.bc7")
    same = read(held.path("same.bc7")) == read(held.path("one.bc7"))
    held.expect(same, ["bake", "same.ppm"], "takes a first pixel like a line end for a part of the header")


def measured_good(held, size, blocks, said):
    """Measures in all ways, which must agree with what baking said."""
    for options in (["size.ppm", "size.bc7", "--total"], ["--total", "size.ppm", "size.bc7"]):
        held.expect(held.done("measure", *options) == said, ["measure", *size], "says other figures than baking")
    table = held.done("measure", "size.ppm", "size.bc7")
    errors = [int(line.split()[4]) for line in table[1 : -len(FIGURES)]]
    held.expect(table[-len(FIGURES) :] == said and len(errors) == blocks, ["measure", *size], "has another table")
    held.expect(f"sum of block errors {sum(errors)}" in said, ["measure", *size], "has a sum that is not the table's")
    worst = held.done("measure", "size.ppm", "size.bc7", "--worst", 7)
    listed = [int(line.split()[4]) for line in worst[1 : -len(FIGURES)]]
    held.expect(listed == sorted(errors, reverse=True)[:7], ["measure", *size], "has other worst blocks")


def sizes_good(held):
    """Pictures of extreme sizes, of which baking, measuring, showing, mapping and reading must agree."""
    for size in ((1, 1), (1, 16384), (16384, 1), (4, 4), (3, 257), (257, 3), SMALL):
        across, down = (-(-side // 4) for side in size)
        held.put("size.ppm", drawn(*size))
        said = held.done("bake", "size.ppm", "size.bc7", makes="size.bc7")
        held.expect(f"blocks {across * down}" in said, ["bake", *size], f"says {said}")
        measured_good(held, size, across * down, said)
        held.done("show", "size.bc7", *size, "out.ppm", makes="out.ppm")
        held.expect(is_picture(read(held.path("out.ppm")), *size), ["show", *size], "writes no picture of this size")
        held.done("map", "size.ppm", "size.bc7", "out.ppm", makes="out.ppm")
        held.expect(is_picture(read(held.path("out.ppm")), across, down), ["map", *size], "writes no picture of a pixel a block")
        held.expect(len(held.done("read", "size.bc7")) == across * down + 1, ["read", *size], "has another number of lines")


def proposals_good(held):
    """Proposals of which some are refused: each is named and counted; and as many as a count can say."""
    held.put("some.in", proposed([ACCEPTED[0], *(one for _, one in REFUSED)], [*(one for _, one in reversed(REFUSED)), *ACCEPTED]))
    lines = held.done("bake", "small.ppm", "some.bc7", "some.in", makes="some.bc7")
    checks = [check for check, _ in REFUSED]
    expected = [f"block 0 (column 0, row 0), proposal {1 + i}: refused by {check}, " for i, check in enumerate(checks)]
    expected += [f"block 1 (column 1, row 0), proposal {i}: refused by {check}, " for i, check in enumerate(reversed(checks))]
    expected.append("refused by " + ", by ".join(f"{check}: {2 * checks.count(check)}" for check in (3, 4, 5, 6)))
    named = len(lines) == len(expected) + len(FIGURES) and all(line.startswith(start) for line, start in zip(lines, expected))
    held.expect(named, ["bake", "small.ppm", "some.bc7", "some.in"], f"says {lines}")
    measured = held.done("measure", "small.ppm", "some.bc7", "--total")
    held.expect(lines[-len(FIGURES) :] == measured, ["measure", "small.ppm", "some.bc7"], "says other figures than baking")
    held.put("many.in", proposed([ACCEPTED[0]] * 255, [*[REFUSED[0][1]] * 254, ACCEPTED[1]]))
    lines = held.done("bake", "small.ppm", "some.bc7", "many.in", makes="some.bc7")
    counted = "refused by 3: 254, by 4: 0, by 5: 0, by 6: 0" in lines
    held.expect(counted, ["bake", "small.ppm", "some.bc7", "many.in"], "counts otherwise")


def progress(held):
    """Progress is said where standard error is a terminal and the picture has more than 16 rows of blocks, and nowhere else."""
    held.put("tall.ppm", drawn(*TALL))
    held.put("less.ppm", drawn(TALL[0], 64))
    held.done("bake", "tall.ppm", "tall.bc7", makes="tall.bc7")
    held.done("bake", "less.ppm", "less.bc7", makes="less.bc7")
    for name, height, some in (("tall", TALL[1], True), ("less", 64, False)):
        photo, plate = f"{name}.ppm", f"{name}.bc7"
        for work, arguments, makes in (
            ("baking", ("bake", photo, "tty.bc7"), "tty.bc7"),
            ("measuring", ("measure", photo, plate, "--total"), None),
            ("showing", ("show", plate, TALL[0], height, "tty.ppm"), "tty.ppm"),
            ("mapping", ("map", photo, plate, "tty.ppm"), "tty.ppm"),
        ):
            said = held.on_terminal(*arguments)
            right = b"%s: row 16 of 20\r" % work.encode() in said and b"\n" not in said if some else said == b""
            held.expect(right, arguments, f"says on a terminal {said}")
            held.done(*arguments, makes=makes)

"""Runs bc7 on wrong input, and on unusual input that is right: mistakes.py BC7 PHOTO. See mistakes."""

import os
import shutil
import sys
import tempfile

from disk import disk_full, permissions_wrong
from held import Held, read
from options import (
    bands_good,
    bands_wrong,
    commands_wrong,
    helped,
    maps_good,
    names_like_options,
    numbers_wrong,
    options_unknown,
    options_wrong,
    reads_good,
    stream,
    tables_good,
)
from program import ACCEPTED, HEADER, REFUSED, SMALL, drawn, drawn_pixels, proposed, record
from streams import output_refused
from unusual import headers_good, progress, proposals_good, sizes_good
from wrapper import line_ends, outputs_refused, passed_on, programs_found, statuses, stopped, terminal_kept, verdicts

WRONG_HEADERS = (  # with what is said to be wrong
    ("begin with P6", b""),
    ("begin with P6", b"P"),
    ("begin with P6", b"P5\n5 3\n255\n"),
    ("begin with P6", b"P3\n5 3\n255\n"),
    ("begin with P6", b"p6\n5 3\n255\n"),
    ("begin with P6", b"\nP6\n5 3\n255\n"),
    ("begin with P6", b"# a comment first\nP6\n5 3\n255\n"),
    ("width", b"P6"),
    ("width", b"P65 3\n255\n"),
    ("width", b"P6\n"),
    ("width", b"P6\nx 3\n255\n"),
    ("width", b"P6\n-1 3\n255\n"),
    ("width", b"P6\n+5 3\n255\n"),
    ("width", b"P6\n# a comment that does not end"),
    ("width", b"P6\n" + b" " * 5000 + b"5 3\n255\n"),
    ("width", b"P6\n0 3\n255\n"),
    ("width", b"P6\n16385 3\n255\n"),
    ("width", b"P6\n99999999999 3\n255\n"),
    ("width", b"P6\n18446744073709551621 3\n255\n"),
    ("width", b"P6\n5,3\n255\n"),
    ("height", b"P6\n5\n"),
    ("height", b"P6\n5 x\n255\n"),
    ("height", b"P6\n5 -1\n255\n"),
    ("height", b"P6\n5 0\n255\n"),
    ("height", b"P6\n5 16385\n255\n"),
    ("height", b"P6\n5 99999999999\n255\n"),
    ("height", b"P6\n5 # a comment that does not end"),
    ("greatest value", b"P6\n5 3\n"),
    ("greatest value", b"P6\n5 3\nx\n"),
    ("greatest value", b"P6\n5 3\n254\n"),
    ("greatest value", b"P6\n5 3\n256\n"),
    ("greatest value", b"P6\n5 3\n65535\n"),
    ("greatest value", b"P6\n5 3\n0\n"),
    ("greatest value", b"P6\n5 3\n# a comment that does not end"),
    ("white space", b"P6\n5 3\n255"),
    ("white space", b"P6\n5 3\n255# a comment\n"),
)


def prepare(held, photo):
    """Puts good input into the folder, with what is to stay as old output."""
    held.put("photo.ppm", read(photo))
    held.put("small.ppm", drawn(*SMALL))
    held.put("small.in", proposed(ACCEPTED, ACCEPTED))
    held.put("old.bc7", b"the old plate")
    held.put("old.ppm", b"the old picture")
    os.mkdir(held.path("folder"))
    held.done("bake", "photo.ppm", "plate.bc7", makes="plate.bc7")
    held.done("bake", "small.ppm", "small.bc7", "small.in", makes="small.bc7")


def cut_lengths(held, name, data, try_one):
    """Tries a file at every shorter length, from the longest on."""
    held.put(name, data)
    for length in reversed(range(len(data))):
        os.truncate(held.path(name), length)
        try_one(length)
    os.remove(held.path(name))


def photographs_cut(held):
    """The photograph cut at every length, and longer by some bytes."""

    def try_one(length):
        """Bakes, and at some lengths measures and maps."""
        held.refused("cut.ppm", "bake", "cut.ppm", "old.bc7")
        if length % 256 == 0:
            held.refused("cut.ppm", "measure", "cut.ppm", "plate.bc7")
            held.refused("cut.ppm", "map", "cut.ppm", "plate.bc7", "old.ppm")

    photo = read(held.path("photo.ppm"))
    cut_lengths(held, "cut.ppm", photo, try_one)
    for more in (b"\0", b"\n", photo):
        held.put("long.ppm", photo + more)
        held.refused("long.ppm", "bake", "long.ppm", "old.bc7", why="longer than its header says")


def plates_cut(held):
    """The plate cut at every length, and longer by some bytes."""

    def try_one(length):
        """Measures, and at some lengths shows and maps."""
        held.refused("cut.bc7", "measure", "photo.ppm", "cut.bc7")
        if length % 40 == 0:
            held.refused("cut.bc7", "show", "cut.bc7", 64, 48, "old.ppm")
            held.refused("cut.bc7", "map", "photo.ppm", "cut.bc7", "old.ppm")
        if length % 16 != 0 and length < 64:
            held.refused("cut.bc7", "read", "cut.bc7", why="whole blocks of 16")

    plate = read(held.path("plate.bc7"))
    cut_lengths(held, "cut.bc7", plate, try_one)
    for more, why in ((1, "whole blocks of 16"), (16, "193 blocks; expected 192"), (len(plate), "384 blocks; expected 192")):
        held.put("long.bc7", plate + plate[:more])
        held.refused("long.bc7", "measure", "photo.ppm", "long.bc7", why=why)
        held.refused("long.bc7", "show", "long.bc7", 64, 48, "old.ppm", why=why)
        held.refused("long.bc7", "map", "photo.ppm", "long.bc7", "old.ppm", why=why)


def proposals_wrong(held):
    """Proposals cut at every length, longer by some bytes, with a wrong last byte, and with a block that has none to accept."""
    good = proposed(ACCEPTED, ACCEPTED)
    cut_lengths(held, "cut.in", good, lambda _: held.refused("cut.in", "bake", "small.ppm", "old.bc7", "cut.in", why="block "))
    bad = [one for _, one in REFUSED]
    for why, data in (
        ("behind the proposals of the last block", good + b"\0"),
        ("behind the proposals of the last block", good + good),
        ("block 0 (column 0, row 0) has a record whose last byte", proposed([*ACCEPTED, record(1, 0, 0, 2)], ACCEPTED)),
        ("block 1 (column 1, row 0) has a record whose last byte", proposed(ACCEPTED, [record(3, 0, 0, 255), *ACCEPTED])),
        ("block 0 (column 0, row 0) has no proposal", proposed([], ACCEPTED)),
        ("block 1 (column 1, row 0) has no proposal", proposed(ACCEPTED, [])),
        ("block 1 (column 1, row 0) has no proposal", proposed(ACCEPTED, bad)),
    ):
        held.put("wrong.in", data)
        held.refused("wrong.in", "bake", "small.ppm", "old.bc7", "wrong.in", why=why)


def headers_wrong(held):
    """Photographs with wrong headers."""
    pixels = drawn_pixels(*SMALL)
    for why, header in WRONG_HEADERS:
        held.put("wrong.ppm", header + (pixels if header.endswith(b"255\n") else b""))
        held.refused("wrong.ppm", "bake", "wrong.ppm", "old.bc7", why=why)
        held.refused("wrong.ppm", "measure", "wrong.ppm", "small.bc7", why=why)
        held.refused("wrong.ppm", "map", "wrong.ppm", "small.bc7", "old.ppm", why=why)
    for header in (HEADER % SMALL, HEADER % (16384, 16384)):
        held.put("wrong.ppm", header)
        held.refused("wrong.ppm", "bake", "wrong.ppm", "old.bc7", why="ends early")
    for header, more in ((b"P6\n5 3\n255\r", pixels + b"1"), (b"P6\n5 3\n255\n", b"\r\n" + pixels)):
        held.put("wrong.ppm", header + more)
        held.refused("wrong.ppm", "bake", "wrong.ppm", "old.bc7", why="longer than its header says")
    for header, more in ((b"P6\n5 3\n255\r\n", pixels), (b"P6\r\n5 3\r\n255\r\n", pixels), (b"P6\n5 3\n255\r\n", pixels[:-3])):
        held.put("wrong.ppm", header + more)
        line = "wrong.ppm: has a header with CRLF line ends; expected one LF behind 255"
        held.mistaken(line, "bake", "wrong.ppm", "old.bc7")
        held.mistaken(line, "measure", "wrong.ppm", "small.bc7")
        held.mistaken(line, "map", "wrong.ppm", "small.bc7", "old.ppm")


def files_wrong(held):
    """Files that are not there, and folders in place of files."""
    for name in ("none", "none/none", "folder", "small.ppm/none", "x" * 300):
        held.refused(name, "bake", name, "old.bc7")
        held.refused(name, "bake", "small.ppm", "old.bc7", name)
        held.refused(name, "measure", name, "small.bc7")
        held.refused(name, "measure", "small.ppm", name)
        held.refused(name, "read", name)
        held.refused(name, "show", name, *SMALL, "old.ppm")
        held.refused(name, "map", "small.ppm", name, "old.ppm")
    for name in ("folder", "folder/", "none/out", "small.ppm/out", "x" * 300, "x/" * 2001):
        held.refused(name, "bake", "small.ppm", name)
        held.refused(name, "show", "small.bc7", *SMALL, name)
        held.refused(name, "map", "small.ppm", "small.bc7", name)


def sizes_wrong(held):
    """Sizes that are none, and sizes that a plate does not have."""
    for number in ("0", "16385", "x", "-1", "+5", "5.0", " 5", "18446744073709551621", "99999999999999999999999"):
        held.mistaken(f"{number}: is no width; expected 1 to 16384", "show", "small.bc7", number, 3, "old.ppm")
        held.mistaken(f"{number}: is no height; expected 1 to 16384", "show", "small.bc7", 5, number, "old.ppm")
    for width, height in ((4, 4), (9, 3), (5, 5), (16384, 16384)):
        held.refused("small.bc7", "show", "small.bc7", width, height, "old.ppm", why="has 2 blocks; expected ")


def names_wrong(held):
    """Names that are empty or too long, outputs that are the input under this or another name, and a device as output."""
    for name in ("", "x" * 5000):
        for words in (
            ("", "small.ppm", "old.bc7"),
            ("bake", name, "old.bc7"),
            ("bake", "small.ppm", name),
            ("bake", "small.ppm", "old.bc7", name),
            ("measure", name, "small.bc7"),
            ("measure", "small.ppm", name),
            ("measure", "small.ppm", "small.bc7", "--worst", name),
            ("read", name),
            ("show", name, *SMALL, "old.ppm"),
            ("show", "small.bc7", name, 3, "old.ppm"),
            ("show", "small.bc7", *SMALL, name),
            ("map", "small.ppm", "small.bc7", name),
            ("help", "nosuch", name),
            ("nosuch", name),
            ("nosuch", "--help", name),
        ):
            held.refused("bc7", *words, why="empty or longer than")
    os.symlink("small.ppm", held.path("link"))
    os.symlink(os.devnull, held.path("device"))
    for name in ("small.ppm", "./small.ppm", "folder/../small.ppm", "link"):
        held.refused(name, "bake", "small.ppm", name, why="is an input too")
        held.refused(name, "map", "small.ppm", "small.bc7", name, why="is an input too")
    held.refused("./small.in", "bake", "small.ppm", "./small.in", "small.in", why="is an input too")
    held.refused("./small.bc7", "show", "small.bc7", *SMALL, "./small.bc7", why="is an input too")
    held.refused("small.bc7", "map", "small.ppm", "small.bc7", "small.bc7", why="is an input too")
    held.refused("device", "bake", "small.ppm", "device", why="is a device")
    held.refused("device", "read", "device", why="is a device")


def kind_of(first):
    """What a block with such a first byte is."""
    return f"mode {(first & -first).bit_length() - 1}" if first else "reserved"


def unreadable(firsts):
    """What is said of a plate of 192 blocks in 16 columns, some of which have such first bytes, by their numbers."""
    number, kinds = min(firsts), [kind_of(first) for first in firsts.values()]
    counts = ", ".join(f"{kind}: {kinds.count(kind)}" for kind in sorted(set(kinds)))
    first = f"has {kind_of(firsts[number])}" if firsts[number] else "is reserved, its first byte is 0"
    place = f"block {number} (column {number % 16}, row {number // 16})"
    return f"{place} {first}; expected mode 1 or 3; unreadable are {len(firsts)} of 192 blocks: {counts}"


def unreadable_plates():
    """The first bytes of blocks that are not read: one of each kind in some places, one of all kinds, and all blocks of one kind."""
    kinds = (0, 1, 4, 16, 32, 64, 128, 0xF4, 0xF0, 0xC0)
    for number in (0, 17, 191):
        yield from ({number: first} for first in kinds)
    yield {150 - 7 * n: first for n, first in enumerate(kinds)}
    yield {11 * n: kinds[n % 3] for n in range(17)}
    yield from ({n: first for n in range(192)} for first in (0, 64))


def blocks_wrong(held):
    """Plates with reserved blocks, and with blocks of each mode that is not read. A table may have begun before they are found."""
    plate = read(held.path("plate.bc7"))
    for firsts in unreadable_plates():
        blocks = [plate[16 * n : 16 * n + 16] for n in range(192)]
        held.put("wrong.bc7", b"".join(bytes([firsts[n]]) + block[1:] if n in firsts else block for n, block in enumerate(blocks)))
        why = unreadable(firsts)
        line = f"wrong.bc7: {why}"
        for options in ((), ("--worst", 3), ("--csv",)):
            held.refused("wrong.bc7", "measure", "photo.ppm", "wrong.bc7", *options, why=why, on=stream(options))
        held.mistaken(line, "measure", "photo.ppm", "wrong.bc7", "--total")
        held.mistaken(line, "show", "wrong.bc7", 64, 48, "old.ppm")
        held.mistaken(line, "map", "photo.ppm", "wrong.bc7", "old.ppm")
        blocks_read(held, firsts)


def blocks_read(held, firsts):
    """Reads the plate of which some blocks have such first bytes, and holds their lines to what they are."""
    lines = held.done("read", "wrong.bc7")
    held.expect(len(lines) == 193 and lines[-1] == "blocks 192", ["read", "wrong.bc7"], "says another number of blocks")
    for number, first in firsts.items():
        kind = kind_of(first) + (", which is not read" if first else ", its first byte is 0")
        held.expect(lines[number] == f"block {number}: {kind}", ["read", "wrong.bc7"], f"says '{lines[number]}', not '{kind}'")
    number = max(firsts)
    held.expect(held.done("read", "wrong.bc7", "--block", number) == [lines[number], "blocks 192"], ["read", "--block", number], "differs")


def plates_empty(held):
    """A plate without any block."""
    held.put("empty.bc7", b"")
    line = "empty.bc7: has 0 bytes; expected whole blocks of 16"
    for options in ((), ("--width", 5), ("--block", 0)):
        held.mistaken(line, "read", *options, "empty.bc7")
    held.mistaken(line, "show", "empty.bc7", *SMALL, "old.ppm")
    held.mistaken(line, "map", "small.ppm", "empty.bc7", "old.ppm")
    for options in ((), ("--total",), ("--worst", 3), ("--csv",)):
        held.mistaken(line, "measure", "small.ppm", "empty.bc7", *options, on=stream(options))


GROUPS = (
    photographs_cut,
    plates_cut,
    plates_empty,
    proposals_wrong,
    headers_wrong,
    files_wrong,
    helped,
    commands_wrong,
    options_unknown,
    options_wrong,
    numbers_wrong,
    sizes_wrong,
    names_wrong,
    names_like_options,
    blocks_wrong,
    bands_wrong,
    bands_good,
    maps_good,
    reads_good,
    tables_good,
    permissions_wrong,
    disk_full,
    output_refused,
    headers_good,
    sizes_good,
    proposals_good,
    progress,
    statuses,
    line_ends,
    verdicts,
    passed_on,
    outputs_refused,
    stopped,
    terminal_kept,
    programs_found,
)


def ran(group, program, photo, base):
    """Runs a group in a folder of its own, which other users may enter too: how many runs there were, and how many wrong."""
    held = Held(program, tempfile.mkdtemp(dir=base))
    os.chmod(held.folder, 0o777)
    try:
        prepare(held, photo)
        group(held)
    except (IndexError, ValueError, OSError) as error:
        held.count([f"({group.__name__})"], f"stops here: {error!r}")
    print(f"{group.__doc__} {held.runs} runs, {len(held.wrong)} wrong")
    return held.runs, len(held.wrong)


def main():
    """Runs all groups, and says how many runs there were and how many wrong."""
    program, photo = sys.argv[1:]
    with tempfile.TemporaryDirectory() as base:
        os.chmod(base, 0o755)
        program = shutil.copy(program, os.path.join(base, "bc7"))
        runs, wrong = map(sum, zip(*[ran(group, program, photo, base) for group in GROUPS]))
    print(f"{runs} runs, {wrong} wrong")
    return 0 if wrong == 0 else 1


if __name__ == "__main__":
    sys.exit(main())

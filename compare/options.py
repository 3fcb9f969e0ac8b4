"""Runs of bc7 with options, wrong ones and right ones; see mistakes."""

from math import isqrt

from held import read
from program import ACCEPTED, FIGURES, HEADER, REFUSED, SMALL, drawn, proposed

COMMANDS = {  # good names and numbers for each, what is expected behind it, and what is said of another option
    "bake": (("small.ppm", "new.bc7"), "[--rows FROM COUNT] PHOTO.ppm PLATE.bc7 [PROPOSALS]", "; expected --rows FROM COUNT"),
    "measure": (
        ("small.ppm", "small.bc7"),
        "[--worst N | --total | --csv] PHOTO.ppm PLATE.bc7",
        "; expected --worst N, --total or --csv",
    ),
    "read": (("small.bc7",), "[--width W] [--block N] PLATE.bc7", "; expected --width W or --block N"),
    "show": (("small.bc7", *map(str, SMALL), "new.ppm"), "PLATE.bc7 WIDTH HEIGHT OUT.ppm", ", which has none"),
    "map": (
        ("small.ppm", "small.bc7", "new.ppm"),
        "[--linear] [--white N] PHOTO.ppm PLATE.bc7 OUT.ppm",
        "; expected --linear or --white N",
    ),
    "help": ((), "[COMMAND]", ", which has none"),
}
NAMED = "expected bake, measure, read, show, map or help"  # where a command is none
OPTIONS = {  # the command of each option, numbers that are good behind it, and what each number is, with the least and the greatest
    "--rows": ("bake", (0, 1), (("first row", 0, 4095), ("number of rows", 1, 4096))),
    "--worst": ("measure", (1,), (("number of blocks", 1, 1000),)),
    "--total": ("measure", (), ()),
    "--csv": ("measure", (), ()),
    "--width": ("read", (5,), (("width", 1, 16384),)),
    "--block": ("read", (1,), (("block number", 0, 999999999999999999),)),
    "--linear": ("map", (), ()),
    "--white": ("map", (1,), (("white", 1, 4294967295),)),
}
NO_NUMBERS = "x", "-1", "+1", "1.0", "1e3", " 1", "1 ", "0x1", "18446744073709551617", "99999999999999999999999"
TALL = 8, 80  # the size of a picture of two blocks by twenty


def stream(words):
    """Where a run with these words says how it ended."""
    return "stderr" if "--csv" in words else "stdout"


def helped(held):
    """The help of the whole and of each command, in every way to ask for it, and the version."""
    whole = held.done("help", end="done: this is the help")
    held.expect(all(any(f"bc7 {name}" in line for line in whole) for name in COMMANDS), ["help"], f"names not all commands: {whole}")
    for words in ((), ("-h",), ("--help",)):
        held.expect(held.done(*words, end="done: this is the help") == whole, words, "says another help")
    for command, (names, _, _) in COMMANDS.items():
        one = held.done("help", command, end=f"done: this is the help of {command}")
        options = [f"bc7 {command}", *(option for option, about in OPTIONS.items() if about[0] == command)]
        held.expect(all(word in "\n".join(one) for word in options), ["help", command], f"names not all of {options}: {one}")
        for words in (("-h",), ("--help",), ("--help", *names), (*names, "--help"), (*names[:1], "--help", *names[1:], "--best")):
            same = held.done(command, *words, end=f"done: this is the help of {command}") == one
            held.expect(same, [command, *words], "says another help")
    held.expect(held.done("--version", end="done: this is the version") == ["bc7 1.0.0"], ["--version"], "says another version")
    held.mistaken("--version: expected nothing behind it", "--version", "small.ppm")


def commands_wrong(held):
    """Words that are no command, and too few and too many names."""
    for word in ("Bake", "bakes", "-", "--", "--best", "-v", "--total", "--csv", "small.ppm"):
        held.mistaken(f"{word}: is no command; {NAMED}", word, on=stream((word,)))
        held.mistaken(f"{word}: is no command; {NAMED}", word, "small.ppm", "small.bc7", on=stream((word,)))
    for word in ("me", "Bake", "-"):
        held.mistaken(f"{word}: is no command; {NAMED}", "help", word)
    for command, (names, usage, _) in COMMANDS.items():
        most = len(names) + (command in ("bake", "help"))
        for count in (*range(len(names)), *range(most + 1, 12)):
            words = ["bake"] * count if command == "help" else ["none"] * count
            held.mistaken(f"{command}: expected {usage}", command, *words)


def options_unknown(held):
    """Options that a command has not, before its names, between them and behind them."""
    for command, (names, _, expected) in COMMANDS.items():
        others = [option for option, about in OPTIONS.items() if about[0] != command]
        for option in ("--best", "--", "--Total", "--total=1", "---total", "--h", *others):
            for at in {0, len(names) // 2, len(names)}:
                line = f"{option}: is no option of {command}{expected}"
                held.mistaken(line, command, *names[:at], option, *names[at:], on=stream((option,)))


def options_wrong(held):
    """Options given twice, without their numbers, and together with others that exclude them."""
    for option, (command, numbers, about) in OPTIONS.items():
        names, given = COMMANDS[command][0], (option, *numbers)
        held.mistaken(f"{option}: is given twice", command, *given, *given, *names, on=stream(given))
        held.mistaken(f"{option}: is given twice", command, *given, *names, *given, on=stream(given))
        if len(about) == 1:
            line = f"{option}: has no number behind it; expected {about[0][1]} to {about[0][2]}"
            held.mistaken(line, command, *names, option)
            held.mistaken(line, command, option, "--best", *names)
    for words in (("--rows",), ("--rows", "0"), ("--rows", "--best"), ("--rows", "0", "--best")):
        held.mistaken("--rows: has no two numbers behind it; expected FROM and COUNT", "bake", "small.ppm", "new.bc7", *words)
    ways = ("--worst", "1"), ("--total",), ("--csv",)
    for one, other in ((one, other) for one in ways for other in ways if one != other):
        words = (*one, "small.ppm", *other, "small.bc7")
        held.mistaken("measure: has more than one of --worst, --total and --csv", "measure", *words, on=stream(words))


def numbers_wrong(held):
    """Numbers behind options that are none, too small or too large."""
    for option, (command, numbers, about) in OPTIONS.items():
        names = COMMANDS[command][0]
        for at, (what, least, most) in enumerate(about):
            for word in (*NO_NUMBERS, str(least - 1), str(most + 1), "small.ppm"):
                given = (option, *numbers[:at], word, *numbers[at + 1 :])
                held.mistaken(f"{word}: is no {what}; expected {least} to {most}", command, *given, *names)
                held.mistaken(f"{word}: is no {what}; expected {least} to {most}", command, *names, *given)


def bands_wrong(held):
    """Rows of blocks that a photograph does not have."""
    for name, down, wrong in (("photo.ppm", 12, ((0, 13), (10, 5), (11, 2), (12, 1), (4095, 4096))), ("small.ppm", 1, ((0, 2), (1, 1)))):
        for first, count in wrong:
            rows = f"has no rows {first} to {first + count - 1} of blocks; its rows are 0 to {down - 1}"
            held.mistaken(f"{name}: {rows}", "bake", "--rows", first, count, name, "old.bc7")
    held.put("tall.ppm", drawn(*TALL))
    good = proposed(*[ACCEPTED] * 40)
    for why, first, count, data in (
        ("behind the proposals of the last block", 0, 20, good + b"\0"),
        ("behind the proposals of the last block", 19, 1, good + b"\0"),
        ("block 39 (column 1, row 19) has fewer records", 10, 10, good[:-1]),
        ("block 4 (column 0, row 2) has no count", 2, 3, good[: 4 * (1 + 16 * len(ACCEPTED))]),
        ("block 4 (column 0, row 2) has no count", 10, 1, good[: 4 * (1 + 16 * len(ACCEPTED))]),
        ("block 20 (column 0, row 10) has no proposal", 10, 1, proposed(*[ACCEPTED] * 20, [], *[ACCEPTED] * 19)),
    ):
        held.put("wrong.in", data)
        held.refused("wrong.in", "bake", "--rows", first, count, "tall.ppm", "old.bc7", "wrong.in", why=why)


def refusals(lines):
    """The lines that name refused proposals."""
    return [line for line in lines if line.startswith("block ")]


def bands_baked(held, bands, given):
    """The plates of bands of the tall picture, one behind the other, and the lines that name refused proposals. A band without the last
    row does not look at what stands behind its proposals."""
    plates, lines = b"", []
    for first, count in bands:
        source = [name if first + count == 20 else f"more.{name}" for name in given]
        words = ("bake", "--rows", first, count, "tall.ppm", "band.bc7", *source)
        said = held.done(*words, makes="band.bc7")
        rows = f"rows {first} to {first + count - 1} of 20"
        held.expect(said[-len(FIGURES) - 1] == rows, words, f"says not '{rows}' before the figures: {said}")
        plates, lines = plates + read(held.path("band.bc7")), lines + refusals(said)
    return plates, lines


def bands_good(held):
    """Bands, with proposals of which some are refused and without: their plates and refusals, one behind the other, are the whole's."""
    held.put("tall.ppm", drawn(*TALL))
    refused = [one for _, one in REFUSED]
    held.put("tall.in", proposed(*[(*refused[n % 7 :], ACCEPTED[n % 3]) for n in range(40)]))
    held.put("more.tall.in", read(held.path("tall.in")) + b"more")
    for given in (("tall.in",), ()):
        whole = held.done("bake", "tall.ppm", "tall.bc7", *given, makes="tall.bc7")
        right = read(held.path("tall.bc7")), refusals(whole)
        for bands in (((0, 20),), ((0, 1), (1, 19)), ((0, 7), (7, 12), (19, 1)), [(row, 1) for row in range(20)]):
            held.expect(bands_baked(held, bands, given) == right, ["bake", "--rows", bands], "makes another plate or refuses others")
    for words in (("tall.ppm", "--rows", 0, 20, "band.bc7"), ("tall.ppm", "band.bc7", "--rows", 0, 20)):
        held.done("bake", *words, makes="band.bc7")
        held.expect(read(held.path("band.bc7")) == right[0], ["bake", *words], "makes another plate")


def shade(linear, error, white):
    """The shade of an error in a map."""
    if white == 0:
        return 0
    part = -(-(255 if linear else 65025) * error // white)
    return min(255, part if linear else isqrt(part - 1) + 1 if part else 0)


def legend(linear, white, fixed):
    """The line that says a map's scale."""
    name = "linear" if linear else "square root"
    if white == 0:
        return f"scale {name}: all blocks are black, with an error of 0"
    grey = 128 * white // 255 if linear else 16384 * white // 65025
    shown = f"grey (128) {grey}, " if grey else ""
    return f"scale {name}: black is an error of 0, {shown}white {white}" + (" and more" if fixed else ", the worst block's")


def map_right(held, photo, linear, white, errors):
    """Maps a photograph of 64 by 48 pixels with such errors, with the options before the names and behind them."""
    options = [*["--linear"] * linear, *(() if white is None else ("--white", white))]
    top = max(errors) if white is None else white
    right = HEADER % (16, 12) + b"".join(bytes([shade(linear, error, top)] * 3) for error in errors)
    names = (photo, "plate.bc7", "out.ppm")
    for words in ((*options, *names), (*names, *options)):
        said = held.done("map", *words, makes="out.ppm")
        held.expect(said == [legend(linear, top, white is not None)], ["map", *words], f"says {said}")
        held.expect(read(held.path("out.ppm")) == right, ["map", *words], "has other shades")


def maps_good(held):
    """Maps in both scales, with white at the worst block's error and at others, of a plate with errors and of one without."""
    held.done("show", "plate.bc7", 64, 48, "shown.ppm", makes="shown.ppm")
    for photo in ("photo.ppm", "shown.ppm"):
        errors = [int(line.split()[4]) for line in held.done("measure", photo, "plate.bc7")[1 : -len(FIGURES)]]
        for white in (None, 1, 15, 494, 495, 496, 1000, 4294967295):
            map_right(held, photo, False, white, errors)
            map_right(held, photo, True, white, errors)


def reads_good(held):
    """Plates read with the columns and rows of their blocks, and single blocks; and widths and blocks that a plate does not have."""
    lines = held.done("read", "plate.bc7")
    held.expect(len(lines) == 193 and lines[-1] == "blocks 192", ["read", "plate.bc7"], "has other lines")
    for width, across in ((64, 16), (61, 16), (1, 1), (768, 192), (32, 8)):
        placed = [f"block {n} (column {n % across}, row {n // across}):{line.partition(':')[2]}" for n, line in enumerate(lines[:-1])]
        for words in (("--width", width, "plate.bc7"), ("plate.bc7", "--width", width)):
            held.expect(held.done("read", *words) == [*placed, "blocks 192"], ["read", *words], "says other lines")
        for n in (0, 17, 191):
            said = held.done("read", "--block", n, "plate.bc7", "--width", width)
            held.expect(said == [placed[n], "blocks 192"], ["read", "--block", n, "--width", width], f"says {said}")
    for n in (0, 1, 100, 191):
        held.expect(held.done("read", "plate.bc7", "--block", n) == [lines[n], "blocks 192"], ["read", "--block", n], "says other lines")
    for width, across in ((65, 17), (66, 17), (16384, 4096), (20, 5)):
        wrong = f"plate.bc7: has 192 blocks; expected whole rows of {across} for a width of {width} pixels"
        held.mistaken(wrong, "read", "--width", width, "plate.bc7")
        held.mistaken(wrong, "read", "--block", 3, "plate.bc7", "--width", width)
    for n in (192, 193, 999999999999999999):
        held.mistaken(f"plate.bc7: has no block {n}; its blocks are 0 to 191", "read", "--block", n, "plate.bc7")


def tables_good(held):
    """Tables with commas: nothing else on standard output, and how it ended on standard error; and mistakes, which are said there too."""
    for photo, plate in (("photo.ppm", "plate.bc7"), ("small.ppm", "small.bc7")):
        table = [line.replace(" ", ",") for line in held.done("measure", photo, plate)[: -len(FIGURES)]]
        for words in (("--csv", photo, plate), (photo, "--csv", plate), (photo, plate, "--csv")):
            said = held.done("measure", *words, on="stderr", end=f"done: {plate} is measured")
            held.expect(said == table, ["measure", *words], f"says {said[:3]}")
    for photo, plate, wrong in (
        ("none", "small.bc7", "none"),
        ("small.ppm", "none", "none"),
        ("small.bc7", "small.bc7", "small.bc7"),
        ("small.ppm", "plate.bc7", "plate.bc7"),
    ):
        held.refused(wrong, "measure", "--csv", photo, plate, on="stderr")
    held.mistaken(f"measure: expected {COMMANDS['measure'][1]}", "measure", "--csv", "small.ppm", on=stream(("--csv",)))


def names_like_options(held):
    """Files whose names begin like options."""
    held.put("--total", drawn(*SMALL))
    held.done("bake", "./--total", "./--rows", makes="--rows")
    held.done("measure", "./--total", "./--rows", "--total")
    held.mistaken("--total: is no option of bake; expected --rows FROM COUNT", "bake", "--total", "old.bc7")
    held.put("-h.ppm", drawn(*SMALL))
    held.done("bake", "-h.ppm", "-1", makes="-1")

"""Runs of bc7 whose standard output takes nothing; see mistakes."""

import os

from held import contents
from options import COMMANDS

START = b"failed: standard output: cannot be written: "


def closed_pipe():
    """The end of a pipe that nobody reads."""
    reader, writer = os.pipe()
    os.close(reader)
    return writer


def full_device():
    """A device that is always full."""
    return os.open("/dev/full", os.O_WRONLY)


def unsaid(held, words, opened, end):
    """Runs bc7 again with a standard output that takes nothing, which it must say in one line on standard error, and with a file whole."""
    before, output = contents(held.folder), opened()
    ended = held.run(words, stdout=output)
    os.close(output)
    right = ended.returncode >= 0 and ended.stderr.startswith(START) and ended.stderr.endswith(end) and ended.stderr.count(b"\n") == 1
    held.expect(right, words, f"ends with {ended.returncode} and says on standard error {ended.stderr[:160]}")
    held.expect(contents(held.folder) == before, words, "changes or leaves a file")


def output_refused(held):
    """Standard output that is full, and one that nobody reads: bc7 says so on standard error."""
    runs = [(command, *names) for command, (names, _, _) in COMMANDS.items()]
    runs += [("measure", "--csv", "small.ppm", "small.bc7"), ("measure", "--total", "small.ppm", "small.bc7"), ("--version",), ("me",)]
    for words in runs:
        if "new." in words[-1]:
            held.done(*words, makes=words[-1])
        unsaid(held, words, full_device, b"no space left\n")
        unsaid(held, words, closed_pipe, b"\n")

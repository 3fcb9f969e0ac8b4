"""Times bc7 on drawn photographs from small to large, and says how much memory it takes: pictures.py BC7 FOLDER. See bench."""

import contextlib
import os
import resource
import statistics
import subprocess
import sys
import time

from program import done, drawn

RUNS = {256: (9, 301), 512: (5, 201), 1024: (3, 101), 2048: (3, 51)}  # bakes and measures that a median is over, for each side


def processor():
    """The processor's time in seconds for all runs that have ended."""
    used = resource.getrusage(resource.RUSAGE_CHILDREN)
    return used.ru_utime + used.ru_stime


def seconds(program, *arguments):
    """The processor's time for a run, which must end well; what else the machine does counts little in it."""
    before = processor()
    done(program, *arguments)
    return processor() - before


def median(runs, program, command, smallest):
    """The median of how much more a run takes than one on one pixel, which is made in turn with it."""
    return statistics.median(seconds(program, *command) - seconds(program, *smallest) for _ in range(runs))


def status(process, name):
    """An entry of what the system says about a process, or none."""
    with open(f"/proc/{process.pid}/status") as lines:
        return next((line.split()[1] for line in lines if line.startswith(name)), "0")


def full_pipe():
    """Both ends of a pipe into which nothing goes any more."""
    reader, writer = os.pipe()
    os.set_blocking(writer, False)
    with contextlib.suppress(BlockingIOError):
        while True:
            os.write(writer, bytes(4096))
    os.set_blocking(writer, True)
    return reader, writer


def memory(program, *arguments):
    """The most memory in KB that a run has had when its work is done and it waits to say so, into a pipe that is full. What rusage
    has would count Python's memory in, from before the program began."""
    reader, writer = full_pipe()
    with subprocess.Popen([program, *arguments], stdout=writer) as process:
        os.close(writer)
        while status(process, "State:") not in "SZ":
            time.sleep(0.001)
        most = int(status(process, "VmHWM:"))
        with open(reader, "rb") as pipe:
            pipe.read()
    return most


def commands(folder, side):
    """Draws a photograph, and gives the arguments that bake it and those that measure its plate."""
    photo, plate = (os.path.join(folder, f"side{side}.{kind}") for kind in ("ppm", "bc7"))
    with open(photo, "wb") as file:
        file.write(drawn(side, side))
    return ("bake", photo, plate), ("measure", photo, plate, "--total")


def row(program, folder, side, smallest):
    """Bakes and measures a photograph, and prints its row; gives the megapixels a second of both."""
    pixels, both = side * side / 1e6, commands(folder, side)
    took = [median(runs, program, command, least) for runs, command, least in zip(RUNS[side], both, smallest)]
    rates, most = [pixels / one for one in took], [memory(program, *command) for command in both]
    baking = f"{took[0]:9.3f} | {rates[0]:19.3f} | {most[0]:4}"
    measuring = f"{1000 * took[1]:13.2f} | {rates[1]:19.1f} | {most[1]:4}"
    print(f"| {side:4} | {pixels:10.3f} | {baking} | {measuring} |", flush=True)
    return rates


def main():
    """Prints the table."""
    program, folder = sys.argv[1:]
    smallest = commands(folder, 1)
    bakes, measures = (", ".join(map(str, runs)) for runs in zip(*RUNS.values()))
    print(f"Baking drawn photographs with the built-in proposals, and measuring them (--total): medians of {bakes} bakes and of")
    print(f"{measures} runs of measuring, in processor time without that of a run on one pixel; KB is the most memory.\n")
    print("| side | megapixels | baking, s | megapixels a second |   KB | measuring, ms | megapixels a second |   KB |")
    print("|-----:|-----------:|----------:|--------------------:|-----:|--------------:|--------------------:|-----:|")
    least = [min(rates) / max(rates) for rates in zip(*[row(program, folder, side, smallest) for side in RUNS])]
    print(f"\nThe least megapixels a second are {least[0]:.2f} of the most in baking and {least[1]:.2f} in measuring.\n")


if __name__ == "__main__":
    main()

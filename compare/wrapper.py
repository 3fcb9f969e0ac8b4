"""Runs of bin/bc7, which passes on what bc7 says and has an exit status; see mistakes."""

import contextlib
import os
import select
import shutil
import signal
import subprocess
import time

from held import Held
from options import COMMANDS
from program import drawn

SCRIPT = os.path.join(os.path.dirname(os.path.dirname(os.path.abspath(__file__))), "bin", "bc7")
SHELLS = [shell for shell in (["dash"], ["bash", "--posix"], ["busybox", "sh"]) if shutil.which(shell[0])]
WAIT = 20  # seconds after which a run hangs
ANY = os.fsdecode(bytes([0xFF, *range(1, 10), *range(11, 256)])).replace("/", "")  # every byte of a name but a line end
LINES = "".join(f"line {n}\\n" for n in range(3000))  # more than a pipe holds


def stub(held, name, text):
    """Puts a program into the folder."""
    held.put(name, f"#!/bin/sh\n{text}\n".encode(errors="surrogateescape"))
    os.chmod(held.path(name), 0o755)
    return held.path(name)


def wrapped(held, shell, program, *arguments, **options):
    """A run of bin/bc7 with a program, in a shell, and with temporary files in an empty folder, where it must leave none."""
    os.makedirs(held.path("temporary"), exist_ok=True)
    environment = {**os.environ, "BC7": program, "TMPDIR": held.path("temporary")}
    words = [*shell, SCRIPT, *map(str, arguments)]
    options = {"stdin": subprocess.DEVNULL, "stdout": subprocess.PIPE, "stderr": subprocess.PIPE} | options
    if "input" in options:
        del options["stdin"]
    held.runs += 1
    ended = subprocess.run(words, cwd=held.folder, env=environment, timeout=WAIT, **options)
    held.expect(os.listdir(held.path("temporary")) == [], words, "leaves a temporary file")
    return ended


def statuses(held):
    """bin/bc7 over bc7: the status, and all that bc7 says, on the same streams."""
    for words, status in (
        *(((command, *names), 0) for command, (names, _, _) in COMMANDS.items()),
        ((), 0),
        (("--version",), 0),
        (("measure", "--csv", "small.ppm", "small.bc7"), 0),
        (("measure", "--csv", "--help"), 0),
        (("measure", "small.ppm", "small.bc7", "--csv"), 0),
        (("measure", "--csv", "none", "small.bc7"), 1),
        (("measure", "--csv", "small.ppm"), 1),
        (("bake", "--csv", "small.ppm", "new.bc7"), 1),
        (("help", "--csv"), 1),
        (("-h", "--csv"), 1),
        (("me", "--csv", "-h"), 1),
        (("--csv",), 1),
        (("measure", "none", "small.bc7"), 1),
        (("read", ANY), 1),
        (("me",), 1),
        (("measure", *"1234567", "--csv"), 1),
        (("measure", "--csv", *"123456", "-h"), 1),
        (("measure", "--csv", *"12345", "-h"), 0),
    ):
        right = held.run(words)
        for shell in SHELLS:
            ended = wrapped(held, shell, held.program, *words)
            same = (ended.stdout, ended.stderr) == (right.stdout, right.stderr)
            held.expect(same, ["bin/bc7", *words], f"says {ended.stdout[-160:]} and {ended.stderr[-160:]}")
            held.expect(ended.returncode == status, ["bin/bc7", *words], f"ends with {ended.returncode}, not {status}")


def line_ends(held):
    """bin/bc7 refuses a name with a line end, which could look like the last line."""
    for words in (("read", "no\nfile"), ("measure", "no\ndone: small.bc7 is measured", "small.bc7")):
        for shell in SHELLS:
            ended = wrapped(held, shell, held.program, *words)
            right = ended.returncode == 2 and ended.stdout == b"" and b"line end" in ended.stderr
            held.expect(right, ["bin/bc7", *words], f"ends with {ended}")


def said(held, text, *arguments, **options):
    """The statuses of bin/bc7 over a program of this text, and what it says, in every shell."""
    path = stub(held, "stub", text)
    ended = [wrapped(held, shell, path, *arguments, **options) for shell in SHELLS]
    return tuple([getattr(one, name) for one in ended] for name in ("returncode", "stdout", "stderr"))


def verdicts(held):
    """bin/bc7 over programs that end in other ways: only a whole last line counts."""
    for text, status in (
        ("", 2),
        ("echo 'done: x'", 0),
        ("echo 'failed: x'; exit 0", 1),
        ("echo 'done: x'; exit 7", 0),
        (f"printf '{LINES}done: x\\n'", 0),
        (f"printf '{LINES}failed: x\\n'", 1),
        ("echo 'done: x'; echo more", 2),
        ("echo ' done: x'", 2),
        ("echo 'done:x'", 2),
        ("echo 'done: x'; echo", 2),
        ("printf 'done: x'", 2),
        ("echo 'done: x' >&2", 2),
        ("echo half; kill -9 $$", 2),
        ("echo half; kill $$", 2),
        ("printf 'done: x'; kill -9 $$", 2),
        ("echo 'failed: x'; echo 'done: y' >&2", 1),
        (f"printf '\\377\\n'; echo 'done: {os.fsdecode(bytes([0xFF, 0xC3]))} is written'", 0),
    ):
        given = said(held, text)[0]
        held.expect(given == [status] * len(SHELLS), ["bin/bc7 over", text[-80:]], f"ends with {given}, not {status}")
    for text, status in (
        ("echo 'done: x' >&2; echo 1,2", 0),
        ("echo 'failed: x' >&2; echo 1,2", 1),
        ("echo 1,2; echo 'done: x'", 2),
        ("echo half >&2; kill -9 $$", 2),
    ):
        given = said(held, text, "measure", "--csv")[0]
        held.expect(given == [status] * len(SHELLS), ["bin/bc7 --csv over", text], f"ends with {given}, not {status}")


@contextlib.contextmanager
def started(held, shell, program, **options):
    """bin/bc7 while it runs over a program."""
    environment = {**os.environ, "BC7": program, "TMPDIR": held.path("temporary")}
    held.runs += 1
    with subprocess.Popen([*shell, SCRIPT], cwd=held.folder, env=environment, stdout=subprocess.PIPE, **options) as process:
        try:
            yield process
        finally:
            process.kill()


def comes(stream):
    """What comes on a stream within some seconds."""
    ready = select.select([stream], [], [], WAIT)[0]
    return os.read(stream.fileno(), 65536) if ready else b""


def passed_on(held):
    """bin/bc7 passes on what is said as it comes, with all bytes, and leaves standard input and standard error to the program."""
    every = os.path.join(held.folder, "every")
    data = bytes(range(256)) * 1000 + b"\ndone: x\n"
    held.put("every", data)
    given, outputs, errors = said(held, f"cat '{every}'; echo said >&2")
    held.expect(outputs == [data] * len(SHELLS), ["bin/bc7"], "passes other bytes on")
    held.expect(given == [0] * len(SHELLS) and errors == [b"said\n"] * len(SHELLS), ["bin/bc7"], f"ends with {given} and says {errors}")
    outputs = said(held, "cat; echo 'done: x'", input=b"read\n")[1]
    held.expect(outputs == [b"read\ndone: x\n"] * len(SHELLS), ["bin/bc7"], f"has another standard input: {outputs}")
    slow = stub(held, "slow", "printf first; until [ -e go ]; do sleep 0.01; done; echo; echo 'done: x'")
    for shell in SHELLS:
        with started(held, shell, slow) as process:
            held.expect(comes(process.stdout) == b"first", ["bin/bc7"], "holds back what is said")
            held.put("go", b"")
            rest, _ = process.communicate(timeout=WAIT)
            held.expect((rest, process.returncode) == (b"\ndone: x\n", 0), ["bin/bc7"], f"ends with {process.returncode} and {rest}")
        os.remove(held.path("go"))


def outputs_refused(held):
    """bin/bc7 with standard output that is full, that nobody reads, that is closed, and that is the end of a file."""
    path = stub(held, "stub", f"printf '{LINES}'; printf '{LINES}'; echo 'done: x'")
    for shell in SHELLS:
        with open("/dev/full", "wb") as full:
            ended = wrapped(held, shell, path, stdout=full)
        held.expect(ended.returncode == 2, ["bin/bc7 >/dev/full"], f"ends with {ended.returncode}")
        reader, writer = os.pipe()
        os.close(reader)
        ended = wrapped(held, shell, path, stdout=writer)
        os.close(writer)
        held.expect(ended.returncode == 2, ["bin/bc7 | true"], f"ends with {ended.returncode}")
        for closed in ("<&-", ">&-", "2>&-"):
            ended = wrapped(held, ["sh", "-c", f'exec "$@" {closed}', "sh", *shell], path)
            right = (2, b"bc7: standard output is closed\n") if closed == ">&-" else (0, b"")
            held.expect((ended.returncode, ended.stderr) == right, [f"bin/bc7 {closed}"], f"ends with {ended.returncode}: {ended.stderr}")
        held.put("log", b"before\n")
        with open(held.path("log"), "ab") as log:
            wrapped(held, shell, stub(held, "one", "echo 'done: x'"), stdout=log)
        with open(held.path("log"), "rb") as log:
            held.expect(log.read() == b"before\ndone: x\n", ["bin/bc7 >>log"], "does not add to the file")


def gone(number):
    """Whether a process ends within some seconds."""
    for _ in range(100 * WAIT):
        try:
            with open(f"/proc/{number}/stat", "rb") as file:
                if file.read().rpartition(b") ")[2].startswith(b"Z"):
                    return True
        except (FileNotFoundError, ProcessLookupError):
            return True
        time.sleep(0.01)
    return False


def stopped(held):
    """bin/bc7 that is ended by a signal ends the program too, leaves no temporary file, and says by which signal."""
    os.makedirs(held.path("temporary"), exist_ok=True)
    slow = stub(held, "slow", "echo $$; exec sleep 60")
    for shell, number in ((shell, number) for shell in SHELLS for number in (signal.SIGTERM, signal.SIGHUP, signal.SIGINT)):
        with started(held, shell, slow) as process:
            program = int(comes(process.stdout))
            process.send_signal(number)
            process.wait(WAIT)
            held.expect(process.returncode == -number, ["bin/bc7"], f"ends with {process.returncode} by {number!r}")
            held.expect(gone(program), ["bin/bc7"], f"leaves the program running at {number!r}")
            held.expect(os.listdir(held.path("temporary")) == [], ["bin/bc7"], f"leaves a temporary file at {number!r}")


def terminal_kept(held):
    """bin/bc7 leaves standard error to bc7, which says its progress where that is a terminal."""
    held.put("tall.ppm", drawn(8, 80))
    over = Held(SCRIPT, held.folder)
    text = over.on_terminal("bake", "tall.ppm", "tall.bc7", env={**os.environ, "BC7": held.program})
    held.runs += over.runs
    held.expect(b"baking: row 16 of 20\r" in text, ["bin/bc7", "bake"], f"says on a terminal {text}")


def programs_found(held):
    """bin/bc7 finds the program of its own folder through symbolic links, and says how it is built where it is missing."""
    root = held.path("a root")
    os.makedirs(os.path.join(root, "bin"))
    os.makedirs(os.path.join(root, "crates", "bc7", "out"))
    shutil.copy(SCRIPT, os.path.join(root, "bin", "bc7"))
    os.symlink("a root/bin/bc7", held.path("near"))
    os.symlink(held.path("near"), held.path("far"))
    environment = {name: value for name, value in os.environ.items() if name != "BC7"}
    build = f"(cd '{root}/crates/bc7' && rt run -- --version)".encode()
    for script in ("a root/bin/bc7", "./near", held.path("far")):
        missing, other = (
            subprocess.run([script, "help"], cwd=held.folder, env=environment | more, capture_output=True)
            for more in ({}, {"BC7": held.path("none")})
        )
        for ended, name, more in ((missing, f"{root}/crates/bc7/out/bc7", build), (other, held.path("none"), b"BC7 names")):
            right = ended.returncode == 2 and ended.stdout == b"" and more in ended.stderr and name.encode() in ended.stderr
            held.runs += 1
            held.expect(right, [script], f"ends with {ended}")
    shutil.copy(stub(held, "stub", "echo \"done: $1\""), os.path.join(root, "crates", "bc7", "out", "bc7"))
    for script in ("a root/bin/bc7", "./near", held.path("far")):
        ended = subprocess.run([script, "it runs"], cwd=held.folder, env=environment, capture_output=True)
        held.runs += 1
        held.expect((ended.returncode, ended.stdout) == (0, b"done: it runs\n"), [script], f"ends with {ended}")

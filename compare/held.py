"""Runs of bc7 that are held to what they must say and to the files that they must leave."""

import os
import pty
import subprocess

SHOWN = 20  # wrong runs that are printed


def contents(folder):
    """What a folder holds: a file's bytes, a folder's contents, or None where it may not be read, by name."""
    found = {}
    for entry in os.scandir(folder):
        try:
            found[entry.name] = contents(entry.path) if entry.is_dir() else read(entry.path)
        except PermissionError:
            found[entry.name] = None
    return found


def read(path):
    """A file's bytes."""
    with open(path, "rb") as file:
        return file.read()


def marked(said):
    """The lines of a stream that say how a run ended."""
    return [line for line in said.splitlines() if line.startswith((b"failed: ", b"done: "))]


def end_wrong(ended, start, on="stdout"):
    """What is wrong with how a run ended: a signal, words on standard error, or not one line that says so on a stream, the last, which
    begins like this."""
    said = getattr(ended, on)
    if ended.returncode < 0:
        return f"ended by signal {-ended.returncode}"
    if on == "stdout" and ended.stderr:
        return f"says on standard error {ended.stderr[:80]}"
    if on == "stderr" and (marked(ended.stdout) or said.count(b"\n") != 1):
        return f"says on standard error {said[:160]}, and on standard output {marked(ended.stdout)}"
    if marked(said) != said.splitlines()[-1:] or not said.endswith(b"\n"):
        return f"ends {said[-160:]}, with {len(marked(said))} lines that say how it ended"
    last = said.splitlines()[-1]
    return None if last.startswith(os.fsencode(start)) else f"ends {last}, not '{start}'"


class Held:
    """A folder to run the program in, how many runs there were and which of them were wrong."""

    def __init__(self, program, folder):
        """No runs yet."""
        self.program, self.folder = program, folder
        self.runs, self.wrong = 0, set()

    def path(self, name):
        """The path of a file in the folder."""
        return os.path.join(self.folder, name)

    def put(self, name, data):
        """Writes a file into the folder."""
        with open(self.path(name), "wb") as file:
            file.write(data)

    def run(self, arguments, **options):
        """Runs the program in the folder."""
        self.runs += 1
        streams = {"stdin": subprocess.DEVNULL, "stdout": subprocess.PIPE, "stderr": subprocess.PIPE}
        return subprocess.run([self.program, *map(str, arguments)], cwd=self.folder, **streams | options)

    def count(self, arguments, what):
        """Counts and prints the last run where something is wrong with it, and nothing where that is None."""
        if what is not None:
            self.wrong.add(self.runs)
            if len(self.wrong) <= SHOWN:
                print(f"wrong: bc7 {' '.join(map(str, arguments))[:160]}: {what}")

    def expect(self, true, arguments, what):
        """Counts the last run where something does not hold of it."""
        self.count(arguments, None if true else what)

    def refused(self, name, *arguments, why="", on="stdout", **options):
        """A run that must end with one line about a name, with this reason, and leave every file as it was."""
        before = contents(self.folder)
        ended = self.run(arguments, **options)
        self.count(arguments, end_wrong(ended, f"failed: {name}: ", on))
        line = getattr(ended, on).rpartition(b"failed: ")[2]
        self.expect(os.fsencode(why) in line, arguments, f"does not say '{why}': {line[-160:]}")
        self.expect(contents(self.folder) == before, arguments, "changes or leaves a file")

    def mistaken(self, line, *arguments, on="stdout"):
        """A run that must say nothing but this one line, and leave every file as it was."""
        before = contents(self.folder)
        ended = self.run(arguments)
        said = {"stdout": b"", "stderr": b"", on: os.fsencode(f"failed: {line}\n")}
        right = ended.returncode >= 0 and said == {"stdout": ended.stdout, "stderr": ended.stderr}
        self.expect(right, arguments, f"says {ended.stdout[-160:]} and {ended.stderr[-160:]}, not '{line}'")
        self.expect(contents(self.folder) == before, arguments, "changes or leaves a file")

    def done(self, *arguments, makes=None, end="done: ", on="stdout"):
        """A run that must end well with such a line and write one file at most; gives the lines before it on standard output."""
        before = contents(self.folder)
        ended = self.run(arguments)
        self.count(arguments, end_wrong(ended, end, on))
        self.expect({**before, makes: None} == {**contents(self.folder), makes: None}, arguments, "changes or leaves another file")
        lines = ended.stdout.decode(errors="replace").splitlines()
        return lines if on == "stderr" else lines[:-1]

    def on_terminal(self, *arguments, **options):
        """What a run says on standard error where that is a terminal."""
        ours, theirs = pty.openpty()
        self.run(arguments, stderr=theirs, **options)
        os.close(theirs)
        try:
            return os.read(ours, 65536)
        except OSError:
            return b""
        finally:
            os.close(ours)

"""What the test scripts share: where files are, the program, programs that listen, time marks, and the count of what differs."""
import os
import pathlib
import re
import subprocess

TOP = pathlib.Path(__file__).resolve().parent.parent
EXAMPLES = TOP / "examples"
MOST_SHOWN = 20
MARKED = re.compile(rb"(#@ \d{4}-\d\d-\d\dT\d\d:\d\d:\d\d\.\d{3}Z\n)([^#\n][^\n]*\n)")


def program(words):
    """The program that the first word names, or the one that `rt ci` built."""
    return os.path.abspath(words[0]) if words else str(TOP / "crates/zvt/out/zvt")


def unmarked(trace):
    """A trace without its time marks, or None where one of its lines has not one mark, or time goes back."""
    rows = MARKED.findall(trace)
    marks = [mark for mark, _ in rows]
    if b"".join(mark + line for mark, line in rows) != trace or marks != sorted(marks):
        return None
    return b"".join(line for _, line in rows)


class Checks:
    """Compares what is found with what is wanted. Reports the first differences, and counts all of them."""

    def __init__(self):
        self.count, self.failed = 0, []

    def __call__(self, name, found, wanted):
        self.count += 1
        if found != wanted:
            self.differs(name, f"{found!r:.900} instead of {wanted!r:.900}")
        return found == wanted

    def differs(self, name, *what):
        self.failed.append(name)
        if len(self.failed) <= MOST_SHOWN:
            print(f"NOT AS EXPECTED: {name}:", *what)

    @property
    def wrong(self):
        return len(self.failed)

    @property
    def verdict(self):
        return "NOT AS EXPECTED" if self.failed else "ok"

    @property
    def status(self):
        return 1 if self.failed else 0


class Listener:
    """A program that listens: its port, 0 if it names none, and how it ended."""

    def __init__(self, words, seconds):
        self.seconds = seconds
        self.process = subprocess.Popen([str(word) for word in words], stdout=subprocess.PIPE, stderr=subprocess.PIPE, text=True)
        found = re.search(r":(\d+)$", self.process.stderr.readline())
        self.port = int(found[1]) if found else 0

    def ended(self):
        written, reported = self.process.communicate(timeout=self.seconds)
        return self.process.returncode, written, reported

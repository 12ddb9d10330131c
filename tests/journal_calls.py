#!/usr/bin/env python3
"""Reads off the system calls of a till what a loss of power would leave of its journal at each moment.

A signal leaves what was written; a loss of power leaves what was synced, and any bytes where something was written since.
So `zvt till --book` runs under strace against `zvt terminal`: a new book, then again over it, and over one that is torn;
and `zvt loop --book` over a new one. Behind each call the files that may be left are made of the calls so far. Of each the
model reads the records: every order and answer that was sent is among them, every outcome that was written is in the book,
and what was durable stays.

journal_calls.py [PROGRAM [TILL]...]: without a word the program of `rt ci`. The words of TILL, if any, run a till in the place
of `zvt till`: a host, a port, the file of a book and steps come after them. It needs strace, else nothing is tried. The
status is 1 where anything does not hold.
"""
import os
import pathlib
import re
import shutil
import subprocess
import sys
import tempfile

import journal_model
from common import Checks, program

ZVT = program(sys.argv[1:])
TILL = sys.argv[2:]
SECONDS = 60
CALLS = "openat,close,dup,fcntl,connect,write,pwrite64,ftruncate,fsync,fdatasync,sendto,sendmsg"
STEPS = ["register", "pay:1000", "pay:20", "reverse:1", "close", "pay:3"]


def torn(file, call):
    """The files that a crash may leave of one call on a file that was durable: each byte old or new, or 0 where it grew."""
    kind, at, data = call
    if kind == "cut":
        return [file[:size] for size in range(at, len(file) + 1)]
    if len(data) == 1 and at < len(file):
        return [file, over(file, at, data)]
    left = [file]
    there = file[at:at + len(data)]
    there += bytes(len(data) - len(there))
    for cut in range(len(data) + 1):
        left.append(over(file, at, data[:cut] + there[cut:]))
        left.append(over(file, at, there[:cut] + data[cut:]))
        left.append(over(file, at, data[:cut]))
    return left


def over(file, at, data):
    return file[:at] + data + file[at + len(data):]


def done(file, call):
    kind, at, data = call
    return file[:at] if kind == "cut" else over(file, at, data)


class Disk:
    """A file that is durable but for the calls since its last sync."""

    def __init__(self, file):
        self.durable, self.since = file, []

    def left(self):
        """Each file that a loss of power may leave now."""
        files = [self.durable]
        for call in self.since:
            files = [after for file in files for after in torn(file, call)]
        return files

    def syncs(self):
        for call in self.since:
            self.durable = done(self.durable, call)
        self.since = []


def masked(apdu):
    """As a journal has it: a password is zeros."""
    return apdu[:3] + bytes(3) + apdu[6:] if apdu[:2] in journal_model.WITH_PASSWORD else apdu


def sent_in(file):
    """What a journal says that the till sent."""
    lines = journal_model.recovered(file).split(b"\n")
    return [bytes.fromhex(line[1:].decode()) for line in lines if line[:1] == b">"]


class Run:
    """The calls of one run, one after another."""

    def __init__(self, trial, path, file):
        self.trial, self.path, self.disk = trial, str(path), Disk(file)
        self.journal, self.line = None, None
        self.sent, self.told = sent_in(file), []

    def takes(self, name, words, answer):
        number = int(words[0]) if words[0].lstrip("-").isdigit() else None
        if name == "openat" and text(words[1]).decode(errors="replace") == self.path and answer >= 0 and self.journal is None:
            # (later ones look whether the file of this name is still that one)
            self.journal = answer
        elif name == "connect" and f"htons({self.trial.port})" in ", ".join(words):
            # (some wait for the end of a connect that goes on)
            self.line = number
        elif name == "pwrite64" and number == self.journal:
            self.disk.since.append(("write", int(words[3]), text(words[1])[:answer]))
        elif name == "ftruncate" and number == self.journal:
            self.disk.since.append(("cut", int(words[1]), b""))
        elif name in ("fsync", "fdatasync") and number == self.journal and answer == 0:
            self.disk.syncs()
        elif name == "sendmsg" and number == self.line:
            self.trial.differs("a message is sent by a call that this script does not read", words)
        elif name in ("sendto", "write") and number == self.line:
            self.sent.append(masked(text(words[1])[:answer]))
        elif name == "write" and number == 1:
            self.told += re.findall(r"^(\S+) -> (.*)\n", text(words[1]).decode(), flags=re.M)
        elif name == "write" and number == self.journal:
            self.trial.differs("the journal is written where its end is", words)
        else:
            return
        self.look(name)

    def look(self, name):
        """Each file that may be left has all that was sent and told."""
        if len(self.disk.since) > 1:
            self.trial.differs(f"two calls without a sync between them: {self.disk.since}")
            self.disk.syncs()
        for file in self.disk.left():
            self.trial.files += 1
            try:
                book = journal_model.book_of(file)
            except journal_model.NoJournal as error:
                self.trial.differs(f"{name}: a loss of power leaves {file!r}: {error}")
                continue
            if sent_in(file)[:len(self.sent)] != self.sent:
                self.trial.differs(f"{name}: {[apdu.hex() for apdu in self.sent]} was sent, and a loss of power leaves {file!r}")
            for step, what in self.told:
                if not holds(book, step, what):
                    self.trial.differs(f"{name}: {step} -> {what} was written, and a loss of power leaves {file!r}")


def text(word):
    """The bytes of a string of strace, all in hexadecimal."""
    return bytes.fromhex(word.strip('"').replace("\\x", ""))


def holds(book, step, what):
    kind, _, number = step.partition(":")
    if kind == "pay":
        what = what.replace(",", "").lower()
        return any(f"paid trace {entry.trace:06} receipt {entry.receipt.hex()}" == what and entry.amount == int(number) for entry in book.entries)
    return kind != "reverse" or (what == "reversed") == book.entries[int(number) - 1].reversed


class Trial(Checks):
    def __init__(self, work):
        super().__init__()
        self.work, self.files, self.calls, self.syncs, self.port = work, 0, 0, 0, None

    def traces(self, words):
        """A run of the program under strace."""
        for old in self.work.glob("calls.*"):
            old.unlink()
        strace = ["strace", "-ff", "-ttt", "-xx", "-s", "100000", "-e", f"trace={CALLS}", "-o", self.work / "calls"]
        return subprocess.run([*strace, *words], stdout=subprocess.PIPE, stderr=subprocess.PIPE, timeout=SECONDS)

    def traced(self):
        """The calls of the run in the order of their beginnings, whatever thread made them."""
        lines = [line.partition(" ") for file in self.work.glob("calls.*") for line in file.read_text().splitlines()]
        return [call for _, _, call in sorted(lines, key=lambda line: float(line[0]))]

    def till(self, path, steps):
        """One run of a till over the file, against a terminal."""
        with subprocess.Popen([ZVT, "terminal", "--port", "0"], stdout=subprocess.DEVNULL, stderr=subprocess.PIPE) as terminal:
            self.port = terminal.stderr.readline().decode().strip().rsplit(":", 1)[1]
            words = [*TILL, "127.0.0.1", self.port, path] if TILL else [ZVT, "till", "--port", self.port, "--book", path]
            try:
                self.looks(path, steps, lambda: self.traces([*words, *steps]))
            finally:
                # (it waits for a till that may not have come)
                terminal.kill()

    def loop(self, path, steps):
        """One run of both ends over the file."""
        self.looks(path, steps, lambda: self.traces([ZVT, "loop", "--book", path, *steps]))

    def looks(self, path, steps, runs):
        """What the calls of a run leave at each moment."""
        file = path.read_bytes() if path.exists() else b""
        before = journal_model.book_of(file)
        ended = runs()
        run = Run(self, path, file)
        for line in self.traced():
            if found := re.fullmatch(r"(\w+)\((.*)\) += (-?\d+).*", line):
                run.takes(found[1], found[2].split(", "), int(found[3]))
                self.calls += 1
                self.syncs += found[1] == "fdatasync"
        after = journal_model.book_of(path.read_bytes())
        if ended.returncode != 0 or run.disk.since or run.disk.durable != path.read_bytes() or len(run.told) != len(steps):
            self.differs(f"{steps} ends with {ended.returncode}, {ended.stdout!r}, {ended.stderr!r}, and leaves {run.disk.since}")
        if [entry.trace for entry in after.entries[:len(before.entries)]] != [entry.trace for entry in before.entries]:
            self.differs(f"{before} went, and {after} came")

    def run(self):
        path = self.work / "book"
        self.till(path, STEPS)
        self.till(path, ["register", "close"])
        path.write_bytes(path.read_bytes() + b" pay 7\n> 0601")
        self.till(path, ["register"])
        if not TILL:
            self.loop(self.work / "loop", STEPS)
        print(f"{self.verdict}: {self.calls} calls, {self.syncs} syncs of data, "
              f"{self.files} files that a loss of power may leave; {self.wrong} wrong")
        return self.status


def main():
    if shutil.which("strace") is None:
        print("journal_calls: strace is missing, which shows the calls: nothing was tried", file=sys.stderr)
        return 0
    if not os.access(ZVT, os.X_OK):
        print(f"journal_calls: no program at {ZVT}: build it by 'rt run' in crates/zvt, or by 'rt ci'", file=sys.stderr)
        return 2
    with tempfile.TemporaryDirectory(dir="/dev/shm" if os.path.isdir("/dev/shm") else None) as folder:
        return Trial(pathlib.Path(folder)).run()


if __name__ == "__main__":
    sys.exit(main())

#!/usr/bin/env python3
"""Feeds `show`, `join` and `receipts` with `--follow` line by line, and awaits what a line says before the next line is sent.

    tests/follow.py [--gigabyte] [PROGRAM]

PROGRAM is the one that `rt ci` built, unless another is named. A pipe brings 1,000 lines of random and hostile traces, some of
them in two parts: a part of a line says nothing. Then a file grows under `tail -f`. What is written in all, standard error
and the status are those of the command without `--follow`. Last 64 MB, or with `--gigabyte` 1 GB, go through a pipe: all of it
is shown, and the process holds 16 MB at most. The status is 1 where anything is not as expected.
"""
import os
import pathlib
import random
import re
import select
import shutil
import subprocess
import sys
import tempfile
import threading
import time
import tty

import journal_dialogues
import json_model
import random_traces
from common import Checks, EXAMPLES, program

GIGABYTE = "--gigabyte" in sys.argv[1:2]
WORDS = sys.argv[2 if GIGABYTE else 1:]
PROGRAM = program(WORDS)
COMMANDS = [["show"], ["show", "--loose"], ["show", "--json"], ["join"], ["receipts"], ["receipts", "--json", "--loose"]]
LINES, GROWN, PARTS = 1000, 50, 0.1
SIZE, MOST_HELD = (1 << 30 if GIGABYTE else 1 << 26), 16 << 10  # bytes, and kilobytes
SECONDS, AT_ONCE = 20, 0.003
PAYMENT = (EXAMPLES / "payment.trace").read_bytes()
check = Checks()


def whole(words, trace):
    """What the command says of a trace that it reads at once."""
    done = subprocess.run([PROGRAM, *words], input=trace, capture_output=True, timeout=SECONDS)
    return done.returncode, done.stdout, done.stderr


def rows_of(words, event):
    """How many lines a command writes for an event."""
    if words[0] == "receipts":
        return len(list(json_model.receipts_of([event])))
    return 1 if words[0] == "join" or "--json" in words else len(json_model.text_of(event))


def answers(words, trace, lines):
    """What is written for each line of a trace: what is written of all of it, divided as the model says."""
    rows, counts = whole(words, trace)[1].split(b"\n"), [0] * len(lines)
    try:
        for event in json_model.events_of(trace, "--loose" in words):
            if "truncated" not in event or lines[event["line"] - 1].rstrip() == b"!":
                counts[event["line"] - 1] += rows_of(words, event)
    except json_model.Fault:
        pass
    for count in counts:
        yield b"".join(row + b"\n" for row in rows[:count])
        del rows[:count]


class Follower:
    """A command whose output is read as it comes."""

    def __init__(self, words, stdin=subprocess.PIPE):
        self.errors = tempfile.TemporaryFile()
        self.process = subprocess.Popen([PROGRAM, *words, "--follow"], stdin=stdin, stdout=subprocess.PIPE, stderr=self.errors, bufsize=0)

    def send(self, data):
        try:
            self.process.stdin.write(data)
        except BrokenPipeError:
            pass  # a line that can't be read, or the end of a journal, has ended it

    def send_all(self, data):
        """Sends what does not fit into the pipe at once, as long as some of it is read."""
        os.set_blocking(self.process.stdin.fileno(), False)
        try:
            while data and select.select([], [self.process.stdin], [], SECONDS)[1]:
                data = data[self.process.stdin.write(data) or 0:]
        except BrokenPipeError:
            pass
        return check("what is not read", len(data), 0)

    def hear(self, size, seconds=SECONDS):
        """So many bytes, or those that have come when the time is over."""
        found, end = b"", time.monotonic() + seconds
        while len(found) < size and select.select([self.process.stdout], [], [], max(0, end - time.monotonic()))[0]:
            more = os.read(self.process.stdout.fileno(), size - len(found))
            if not more:
                break
            found += more
        return found

    def ended(self):
        """The status, the rest of the output and standard error, once nothing more is sent."""
        if self.process.stdin:
            self.process.stdin.close()
        watch = threading.Timer(SECONDS, self.process.kill)
        watch.start()
        rest, status = self.process.stdout.read(), self.process.wait()
        watch.cancel()
        self.errors.seek(0)
        return status, rest, self.errors.read()


def follows(name, words, trace, chance):
    """Each line's answer is out before the next line is sent, and in the end all is as without `--follow`."""
    lines = trace.split(b"\n")
    lines = [line + b"\n" for line in lines[:-1]] + lines[-1:]
    follower, heard = Follower(words), b""
    for number, (line, wanted) in enumerate(zip(lines, answers(words, trace, lines)), 1):
        if len(line) > 1 and chance.random() < PARTS:
            cut = chance.randint(1, len(line) - 1)
            follower.send(line[:cut])
            check(f"{name}: {words}: a part of line {number}", follower.hear(1, AT_ONCE), b"")
            line = line[cut:]
        follower.send(line)
        if not line.endswith(b"\n"):
            break  # only the end of the trace ends this line
        heard += follower.hear(len(wanted))
        if not check(f"{name}: {words}: line {number}", heard[-len(wanted):] if wanted else b"", wanted):
            break
    status, rest, said = follower.ended()
    check(f"{name}: {words}: all", (status, heard + rest, said), followed(words, trace))


def followed(words, trace):
    """The status, the output and standard error of a trace that is followed: where it is bad, the counts alone are said."""
    status, written, said = whole(words, trace)
    lines = said.splitlines(keepends=True)
    fault = [line for line in lines if b" of the trace: expected " in line]
    if status == 1:
        counts = {word: int(n) for n, word in re.findall(r"(\d+) (message|streams? refused|(?:streams? )?cut off)", lines[-1].decode())}
        bad = sum(n for word, n in counts.items() if word != "message")
        return status, written, b"zvt: messages: %d, streams refused or cut off: %d\n" % (counts["message"], bad)
    return status, written, b"".join(fault) if status == 3 else said


def audits(name, trace):
    """An audit of a trace that comes writes and ends as one of the whole trace."""
    for words in (["audit"], ["audit", "--check"], ["audit", "--json", "--loose"]):
        check(f"{name}: {words}", whole([*words, "--follow"], trace)[:2], whole(words, trace)[:2])


def breaks(words, pieces, wanted):
    """The pieces come from a terminal that is hung up then. What their whole lines say is written before the read that fails ends it."""
    ours, theirs = os.openpty()
    tty.setraw(theirs)
    process = subprocess.Popen([PROGRAM, *words], stdin=ours, stdout=subprocess.PIPE, stderr=subprocess.PIPE)
    for piece in pieces:
        os.write(theirs, piece)
        time.sleep(0.1)
    os.close(theirs)
    text, said = process.communicate(timeout=SECONDS)
    os.close(ours)
    check(f"{words} of a device that breaks", (process.returncode, text, b"cannot read the rest of the trace" in said), (4, wanted, True))


def grows(folder):
    """A file grows under `tail -f`. Given as FILE it is read to its end."""
    path = pathlib.Path(folder) / "growing.trace"
    path.write_bytes(PAYMENT)
    check("a file, to its end", whole(["show", "--follow", path], b""), whole(["show", path], b""))
    tail = subprocess.Popen(["tail", "-c", "+1", "-s", "0.1", "-f", path], stdout=subprocess.PIPE)
    follower = Follower(["show"], tail.stdout)
    tail.stdout.close()
    wanted = whole(["show"], PAYMENT)[1]
    for turn in range(GROWN):
        check(f"a file that grew {turn} times", follower.hear(len(wanted)), wanted)
        with open(path, "ab") as file:
            file.write(PAYMENT)
    check("a file that grew", follower.hear(len(wanted)), wanted)
    tail.terminate()
    tail.wait()
    check("a file that grew, at the end", follower.ended(), (0, b"", b""))


class Drain(threading.Thread):
    """Reads what a command writes, and compares it with the same text again and again."""

    def __init__(self, output, text):
        super().__init__(daemon=True)
        self.output, self.text, self.size, self.differs = output, text, 0, False

    def wait_beyond(self, size):
        end = time.monotonic() + SECONDS
        while self.size == size and self.is_alive() and time.monotonic() < end:
            time.sleep(0.01)

    def run(self):
        twice = self.text + self.text
        while more := os.read(self.output.fileno(), min(1 << 16, len(self.text))):
            at = self.size % len(self.text)
            self.differs |= more != twice[at:at + len(more)]
            self.size += len(more)


def holds_little(words):
    """So much goes through a pipe, all of it is shown, and little is held."""
    long_line = b"< 06 D1 FF 00 F0" + b" 41" * 0xF000 + b"\n"
    block = memoryview((PAYMENT * 200 + long_line) * 4)
    text, turns = whole(words, block)[1], SIZE // len(block) + 1
    follower = Follower(words)
    drain = Drain(follower.process.stdout, text)
    drain.start()
    all(follower.send_all(block) for _ in range(turns))
    size = -1
    while size < drain.size < turns * len(text):
        size = drain.size
        drain.wait_beyond(size)
    status = pathlib.Path(f"/proc/{follower.process.pid}/status").read_text()
    held = int((re.findall(r"VmHWM:\s+(\d+)", status) or [MOST_HELD + 1])[0])
    follower.process.stdin.close()
    drain.join(SECONDS)
    check(f"{words}: what is written of {turns} blocks", (drain.size, drain.differs), (turns * len(text), False))
    check(f"{words}: the status", follower.ended()[0], 0)
    check(f"{words}: {held} KB are held", held <= MOST_HELD, True)
    return held


def main():
    if not os.access(PROGRAM, os.X_OK):
        print(f"follow: no program at {PROGRAM}: build it by 'rt run' in crates/zvt, or by 'rt ci'", file=sys.stderr)
        return 2
    chance = random.Random(20261126)
    many = b"".join(random_traces.trace(chance, padded=turn % 3 == 0, hostile=turn % 2 == 0) for turn in range(LINES))
    lines = b"".join(line + b"\n" for line in many.split(b"\n")[:LINES])
    journal = journal_dialogues.written(journal_dialogues.pay).file() + b"> 06\n"
    for words in COMMANDS:
        follows(f"{LINES} lines", words, lines, chance)
        for text in (b"", b"> 80 00 00", b"< 06 D1 02 00 41\n> 06", b"< 06 D1 02 00 41\n> 06\nx\n< 80 00 00\n", journal):
            follows(repr(text), words, text, chance)
    for name, trace in (("many traces", many), ("a payment", PAYMENT), ("a journal", journal), ("no trace", b"> 06\nx\n"), ("nothing", b"")):
        audits(name, trace)
    for words in COMMANDS:
        follows("a journal with an empty line", words, b"# zvt journal 1\n> 06 B0 00\n\n> 80 00 00\n", chance)
    check("its messages", whole(["join", "--follow"], b"# zvt journal 1\n> 06 B0 00\n\n> 80 00 00\n"), (0, b"> 06B000\n> 800000\n", b""))
    breaks(["join", "--follow"], [b"> 06 B0 00\r", b"\n< 80 00 00"], b"> 06B000\n")
    for command in ("show", "audit"):
        breaks([command], [b"#####"], b"")
    if shutil.which("tail"):
        with tempfile.TemporaryDirectory() as folder:
            grows(folder)
    held = max(holds_little(words) for words in (["show"], ["join"]))
    print(f"{check.verdict}: {len(COMMANDS)} commands followed {LINES} lines each, and {SIZE >> 20} MB with "
          f"{held} KB held: {check.wrong} wrong")
    return check.status


if __name__ == "__main__":
    sys.exit(main())

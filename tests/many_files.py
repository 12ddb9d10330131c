#!/usr/bin/env python3
"""Gives `show`, `join`, `audit`, `report`, `receipts`, `vectors` and `book` several files, and compares with what they write of each by itself.

    tests/many_files.py [PROGRAM]

PROGRAM is the one that `rt ci` built, unless another is named. Among the files one is missing, one is a folder, one has a
line that can't be read, some have bad streams, one is standard input, and one has a name that JSON must escape. What is
written is that of each file, in order: each line after the name, and in JSON each object after the member `file`. Audits and
books end with their sum, but for books of several currencies. The status is the highest of theirs, and standard error names each file that can't be read. `zvt FILE` of a file that is there is
`zvt show FILE`. The status is 1 where anything is not as expected. It takes seconds.
"""
import itertools
import json
import os
import pathlib
import pty
import random
import select
import subprocess
import sys
import tempfile
import time

from common import Checks, EXAMPLES, program

PROGRAM = program(sys.argv[1:])
ODD_NAME = 'a "till" \\ \u00e4 \U0001F600.trace'
INPUT = (EXAMPLES / "messages/terminal.trace").read_bytes()
COMMANDS = [
    ["show"], ["show", "--loose"], ["show", "--json"], ["show", "--json", "--loose"], ["join"], ["audit"], ["audit", "--loose"], ["audit", "--json"],
    ["audit", "--check"], ["audit", "--check", "--json"], ["report"], ["report", "--json"], ["report", "--check", "--loose"],
    ["receipts"], ["receipts", "--loose"], ["receipts", "--json"], ["vectors"],
    ["book"], ["book", "--json"],
]
RANDOM_LISTS = 6
check, runs = Checks(), []


def run(words, folder):
    runs.append(words)
    done = subprocess.run([PROGRAM, *words], cwd=folder, input=INPUT, capture_output=True, timeout=60)
    return done.returncode, done.stdout, done.stderr.decode()


def named(name, line, as_json):
    """A line of what is written of a file, where several are named."""
    if not as_json:
        return f"{name}: ".encode() + line
    return b'{"file":' + json.dumps(name, ensure_ascii=False).encode() + b"," + line.removeprefix(b"{")


def summed(names, singles, as_json):
    """The last line of several audits or books: the sum of those that came to their end."""
    audited = [singles[name][1].splitlines()[-1] for name in names if singles[name][0] < 3]
    if as_json:
        total = sum(json.loads(line)["total"] for line in audited)
        return json.dumps({"audited": len(audited), "files": len(names), "total": total}, separators=(",", ":")).encode()
    total = sum(int(line.removeprefix(b"total ")) for line in audited)
    of = "" if len(audited) == len(names) else f"{len(audited)} of "
    return f"total {total} in {of}{len(names)} files".encode()


def make(folder):
    """The files, each with whether it can be read by a command for traces, and by `vectors`."""
    for name in ("payment", "messages/padded", "messages/refused"):
        example = EXAMPLES / f"{name}.trace"
        (folder / example.name).write_bytes(example.read_bytes())
    (folder / ODD_NAME).write_bytes((EXAMPLES / "payment.trace").read_bytes() + b"> 06\n")
    (folder / "unclear.trace").write_bytes(b"> 06 01 07 04 00 00 00 00 01 00\n< 80 00 00 06 0F 00\n")
    (folder / "empty.trace").write_bytes(b"")
    (folder / "no-trace").write_bytes(b"< 06 D1 02 00 41\nThis is none.\n")
    (folder / "good.txt").write_bytes(b"80 00 00 = whole 3\n")
    (folder / "other.txt").write_bytes(b"80 00 00 = more\n80 = more\n06 = whole 1\n")
    (folder / "half.txt").write_bytes(b"80 00 00 = more\n80 0 = more\n")
    (folder / "folder").mkdir()
    bad = ["missing", "folder"]
    traces = ["payment.trace", "padded.trace", "refused.trace", ODD_NAME, "unclear.trace", "empty.trace", "no-trace", "-"]
    return traces + bad, ["good.txt", "other.txt", "half.txt"] + bad


def make_books(folder):
    """Books of tills, and files that are none."""
    for name, steps in (("day.book", ["pay:700", "pay:300", "reverse:1"]), (ODD_NAME + ".book", ["pay:5"]), ("new.book", [])):
        subprocess.run([PROGRAM, "loop", "--book", name, "register", *steps], cwd=folder, capture_output=True, check=True)
    (folder / "empty.book").write_bytes(b"")
    return ["day.book", ODD_NAME + ".book", "new.book", "empty.book", "payment.trace", "missing", "folder"]


def knows_currencies(folder):
    """Totals in different currencies are not added, and a book without a record has none."""
    (folder / "francs.book").write_bytes(b"# zvt journal 1, currency 756\n")
    mixed = run(["book", "empty.book", "francs.book", "day.book"], folder)
    single = [run(["book", name], folder)[1].splitlines() for name in ("empty.book", "francs.book", "day.book")]
    rows = [named(name, line, False) for name, lines in zip(("empty.book", "francs.book", "day.book"), single) for line in lines]
    check("books of two currencies", (mixed[0], mixed[1].splitlines(), mixed[2]),
          (0, rows, "zvt: the books are kept in different currencies, so there is no sum\n"))
    check("books of one currency", run(["book", "francs.book", "empty.book"], folder)[1].splitlines()[-1], b"total 0 in 2 files")
    check("the null device", run(["book", "/dev/null", "day.book"], folder)[1].splitlines()[-1], b"total 300 in 2 files")
    check("the null device alone", run(["book", "/dev/null"], folder)[0], 4)


def lists(names, chance):
    """Lists of these files: all, each two neighbours, one twice, and some at random."""
    yield names
    yield from itertools.pairwise(names)
    yield [names[0], names[0]]
    for _ in range(RANDOM_LISTS):
        yield chance.sample(names, chance.randint(2, len(names)))


def hold(words, names, singles, folder):
    """Several files are as each by itself."""
    command = f"{' '.join(words)} of {names}"
    status, written, said = run([*words, *names], folder)
    rows = [named(name, line, "--json" in words) for name in names for line in singles[name][1].splitlines()]
    check(f"what {command} writes", written.splitlines(), rows + ([summed(names, singles, "--json" in words)] if words[0] in ("audit", "book") else []))
    check(f"the status of {command}", status, max(singles[name][0] for name in names))
    for name in names:
        if singles[name][0] >= 3:
            check(f"{command}: standard error names {name}", f"'{name}'" in said or name == "-", True)
    if "--json" in words:
        check(f"{command}: the files", [json.loads(line)["file"] for line in written.splitlines()[:len(rows)]], [json.loads(row)["file"] for row in rows])


def heard(end):
    """All that comes out of this end, until it is closed or nothing more comes for a second: a device may hand over what was written in pieces."""
    text = b""
    while select.select([end], [], [], 1)[0]:
        piece = os.read(end, 10_000)
        if not piece:
            break
        text += piece
    return text


def progresses(folder):
    """On a terminal device a command of more than a second says how far it is; into a pipe it says nothing of that."""
    names = ["first.fifo", "second.fifo", "third.fifo"]
    for name in names:
        os.mkfifo(os.path.join(folder, name))
    for device in (True, False):
        ours, theirs = pty.openpty() if device else os.pipe()
        waiting = subprocess.Popen([PROGRAM, "audit", *names], cwd=folder, stdout=subprocess.DEVNULL, stderr=theirs)
        for name in names:
            with open(os.path.join(folder, name), "wb") as fifo:
                time.sleep(0.6)
                fifo.write(b"> 80 00 00\n")
        check(f"the status where standard error is {'a terminal device' if device else 'a pipe'}", waiting.wait(), 0)
        said = heard(ours)
        check(f"what is said to {'a terminal device' if device else 'a pipe'}: {said}", b"zvt: 3 of 3 files" in said, device)
        os.close(theirs)
        os.close(ours)


def refuses():
    """What follows one line after another takes one file."""
    status, written, said = run(["show", "--follow", "a.trace", "b.trace"], ".")
    check("--follow of two files", (status, written, said), (2, b"", "zvt: '--follow' takes one FILE: it reads one line after another\n"))
    status, written, said = run(["book", "--records", "a.book", "b.book"], ".")
    check("--records of two files", (status, written, said), (2, b"", "zvt: '--records' takes one FILE: the records of two books make no trace of one till\n"))


def main():
    if not os.access(PROGRAM, os.X_OK):
        print(f"many_files: no program at {PROGRAM}: build it by 'rt run' in crates/zvt, or by 'rt ci'", file=sys.stderr)
        return 2
    chance = random.Random(20261126)
    with tempfile.TemporaryDirectory() as folder:
        traces, vectors = make(pathlib.Path(folder))
        books = make_books(pathlib.Path(folder))
        for words in COMMANDS:
            names = {"vectors": vectors, "book": books}.get(words[0], traces)
            singles = {name: run([*words, name], folder) for name in names}
            statuses = {single[0] for single in singles.values()}
            check(f"the statuses of single files of {words}", statuses, {0, 3, 4} if words[0] == "book" else {0, 1, 3, 4})
            for some in lists(names, chance):
                hold(words, some, singles, folder)
        for name in traces[:-3]:
            path = name if "." in name else f"./{name}"
            check(f"zvt {path}", run([path], folder), run(["show", path], folder))
        knows_currencies(pathlib.Path(folder))
        progresses(folder)
    refuses()
    print(f"{check.verdict}: {len(COMMANDS)} commands, {len(runs)} runs, {check.wrong} wrong")
    return check.status


if __name__ == "__main__":
    sys.exit(main())

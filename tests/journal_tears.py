#!/usr/bin/env python3
"""Tears the journals of sixteen dialogues in every way a crash may, and compares what the program reads with the model.

For each record: all cuts of what is written behind the closed gate, new bytes mixed with zeros at each place and by chance,
the gate's byte old and new. Each byte of a torn write is the new one, or 0, since the file grew there. Then a crash in the
recovery: the cut torn at each length, the gate not written, or 0 in its place. `zvt book` reads each file, and so does the model; both answer the book of the records that
count. `zvt audit` reads the file at rest behind each record. Each tenth torn file is opened too, by a till whose terminal is not
there: then the file is at rest, and what was cut is kept beside it.

journal_tears.py [PROGRAM [EVERY]] reads each EVERY-th torn file alone, without a word all of them by the program of
`rt ci`. The status is 1 where a reading differs.
"""
import concurrent.futures
import os
import pathlib
import random
import re
import subprocess
import sys
import tempfile

import journal_dialogues
import journal_model
from common import Checks, program

ZVT = program(sys.argv[1:])
EVERY = int(sys.argv[2]) if len(sys.argv) > 2 else 1
SECONDS = 60
GATES = b"\n\0"  # what a torn write of a gate leaves at the end of a file
MARKS = b"!#<>"  # what lines of records begin with


def torn_appends(file, record, chance):
    """The files that a crash may leave while the record is appended, and whether the record counts in each."""
    calls = journal_model.calls_of(file, record)
    new = calls[0][2]
    size = len(new)
    for cut in range(size + 1):
        mixed = bytes(chance.choice((byte, 0)) for byte in new)
        for rest in (new[:cut], new[:cut] + bytes(size - cut), bytes(cut) + new[cut:], mixed[:cut], mixed[:cut] + new[cut:]):
            assert rest[:1] not in MARKS or not rest, "a crash leaves a record without its first byte"
            yield file + rest, False
    yield file[:-1] + record[:1] + new, True


def torn_recoveries(file):
    """The files that a crash may leave while this one is recovered, also where that happens again and again."""
    text = journal_model.recovered(file)
    for size in range(len(text), len(file)):
        yield file[:size]
    for gate in GATES:
        yield text + bytes([gate])


def torn_files():
    """Each file once, with the book that it stands for."""
    seen = set()
    for dialogue in journal_dialogues.ALL:
        of = journal_dialogues.written(dialogue)
        chance = random.Random(dialogue.__name__)
        for count, record in enumerate(of.records):
            books = [book_of_records(of, count), book_of_records(of, count + 1)]
            for file, counts in torn_appends(of.file(count), record, chance):
                if file in seen:
                    continue
                seen.add(file)
                yield dialogue, file, books[counts]
                if chance.random() < 0.02 or counts:
                    for again in torn_recoveries(file):
                        if again not in seen:
                            seen.add(again)
                            yield dialogue, again, books[counts]


def book_of_records(of, count):
    """What so many first records come to: the model's reading of the file at rest."""
    return journal_model.book_of(of.file(count))


def run(words, **given):
    return subprocess.run([ZVT, *words], stdout=subprocess.PIPE, stderr=subprocess.PIPE, close_fds=False, timeout=SECONDS, **given)


class Trial(Checks):
    def __init__(self, work):
        super().__init__()
        self.work, self.read, self.opened, self.audited = work, 0, 0, 0

    def reads(self, number, dialogue, file, book):
        """The model and `zvt book` read the same of a file."""
        try:
            agrees = journal_model.book_of(file) == book
        except journal_model.NoJournal:
            agrees = False
        if not agrees:
            self.differs(f"{dialogue.__name__}: the model reads a torn file otherwise: {file!r}")
        path = self.work / f"{number % 64}.{number}"
        path.write_bytes(file)
        ended = run(["book", path])
        if ended.returncode != 0 or ended.stdout.decode() != journal_model.text_of(book) + "\n":
            self.differs(f"{dialogue.__name__}: zvt book answers {ended.returncode} {ended.stdout!r} {ended.stderr!r} instead of "
                         f"{journal_model.text_of(book)!r} of {file!r}")
        if path.read_bytes() != file:
            self.differs(f"{dialogue.__name__}: zvt book changes what it reads: {file!r}")
        path.unlink()
        self.read += 1

    def opens(self, number, dialogue, file, book):
        """A till over the file whose terminal isn't there leaves it at rest, and keeps what it cuts."""
        path = self.work / f"open.{number}"
        path.write_bytes(file)
        text = journal_model.recovered(file)
        rule = ["--reversal-by-receipt"] if journal_model.BY_RECEIPT in text else []
        ended = run(["till", "--port", "1", "--book", path, *rule])
        after = path.read_bytes()
        beside = self.work / f"open.{number}.cut"
        kept = beside.read_bytes() if beside.exists() else b""
        cut = file[len(text) + 1:] if file[len(text):len(text) + 1] == b"\n" else file[len(text):]
        opening = b"" if text else b"# zvt journal 1, currency 978\n"
        if ended.returncode != 4 or after != text + opening + b"\n" or kept != cut:
            self.differs(f"{dialogue.__name__}: a till leaves {after!r} and keeps {kept!r} of {file!r}: {ended.stderr!r}")
        for name in (path, beside):
            name.unlink(missing_ok=True)
        self.opened += 1

    def audits(self):
        """The books of an audit are those of the model, but for marks, numbers that were heard, what asks settled, and an order that
        still runs."""
        for dialogue in journal_dialogues.ALL:
            of = journal_dialogues.written(dialogue)
            for count in range(1, len(of.records) + 1):
                book = book_of_records(of, count)
                path = self.work / "audited"
                path.write_bytes(of.file(count))
                ended = run(["audit", "--loose", path])
                wanted = [re.sub(r"^(booked.* receipt [0-9A-F-]+|unclear \d+ \w+) .*", r"\1", line) for line in journal_model.text_of(book).splitlines() if not line.startswith("settled ")]
                wanted[-1] = f"total {book.booked()}"
                said = ended.stdout.decode().replace("Unfinished", "Line").splitlines()
                if ended.returncode != 0 or said != wanted:
                    self.differs(f"{dialogue.__name__}, {count} records: zvt audit answers {ended} instead of {wanted}")
                self.audited += 1

    def worked(self):
        """Each dialogue comes to what was worked by hand."""
        for dialogue in journal_dialogues.ALL:
            book = journal_model.book_of(journal_dialogues.written(dialogue).file())
            entries = [(entry.amount, entry.trace, "reversed" if entry.reversed else entry.doubt) for entry in book.entries]
            if (entries, book.unclear, book.total()) != journal_dialogues.BOOKS[dialogue]:
                self.differs(f"the model of {dialogue.__name__}: {book}")


def main():
    if not os.access(ZVT, os.X_OK):
        print(f"journal_tears: no program at {ZVT}: build it by 'rt run' in crates/zvt, or by 'rt ci'", file=sys.stderr)
        return 2
    files = list(torn_files())
    with tempfile.TemporaryDirectory(dir="/dev/shm" if os.path.isdir("/dev/shm") else None) as folder:
        trial = Trial(pathlib.Path(folder))
        trial.worked()
        trial.audits()
        with concurrent.futures.ThreadPoolExecutor(min(4, os.cpu_count() or 1)) as pool:
            numbered = list(enumerate(files))[::EVERY]
            list(pool.map(lambda one: trial.reads(one[0], *one[1]), numbered))
            list(pool.map(lambda one: trial.opens(one[0], *one[1]), numbered[::10]))
    print(f"{'NOT AS EXPECTED' if trial.wrong else 'ok'}: {len(journal_dialogues.ALL)} dialogues, {len(files)} torn files: "
          f"{trial.read} read, {trial.opened} opened, {trial.audited} at rest audited, {trial.wrong} wrong")
    return 1 if trial.wrong else 0


if __name__ == "__main__":
    sys.exit(main())

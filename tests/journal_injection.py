#!/usr/bin/env python3
"""Refuses each request for memory of a run with a book, and lets each of its reads, writes and syncs fail, in turn.

`zvt loop --book` runs over a new book and over one that is there, `zvt till --book` over TCP against a whole terminal, and
`zvt book` reads one. The status is that of the fault, and what is written is a front of what is written else. The model reads
the book afterwards: it has all that was written, what it had before, and each payment that the terminal approved as booked or
unclear. Then a whole run goes over the same book. Writes of one byte at a time change nothing.

journal_injection.py [PROGRAM]: without a word the program of `rt ci`. It takes half a minute, and needs gcc, else nothing is
tried. The status is 1 where anything differs.
"""
import pathlib
import re
import subprocess
import sys

import fault_injection
import journal_dialogues
import journal_model
from common import Checks
from fault_injection import SECONDS, ZVT, is_prefix, release

STEPS = ["register", "pay:1000", "reverse:1", "pay:20", "close"]
NEW, OLD = "{new}", "{old}"

# A file is written at a place, cut, and made durable, beside what the library of fault_injection.py has.
LIBRARY = fault_injection.LIBRARY + r"""
static long syncs;

static ssize_t write_at(int file, const void *bytes, size_t size, long at) {
    if (refuses(&writes, "FAILED_WRITE", ENOSPC)) return -1;
    if (size > 1 && number("WRITES_OF_ONE")) size = 1;
    return syscall(SYS_pwrite64, file, bytes, size, at);
}
static int cut(int file, long size) {
    return refuses(&writes, "FAILED_WRITE", EIO) ? -1 : (int)syscall(SYS_ftruncate, file, size);
}
ssize_t pwrite(int file, const void *bytes, size_t size, off_t at) { return write_at(file, bytes, size, at); }
ssize_t pwrite64(int file, const void *bytes, size_t size, off64_t at) { return write_at(file, bytes, size, at); }
int ftruncate(int file, off_t size) { return cut(file, size); }
int ftruncate64(int file, off64_t size) { return cut(file, size); }
int fsync(int file) { return refuses(&syncs, "FAILED_SYNC", EIO) ? -1 : (int)syscall(SYS_fsync, file); }
int fdatasync(int file) { return refuses(&syncs, "FAILED_SYNC", EIO) ? -1 : (int)syscall(SYS_fdatasync, file); }
"""

# What fails, and the status that a run ends with then.
KINDS = {"REFUSED_REQUEST": 5, "FAILED_READ": 4, "FAILED_WRITE": 4, "FAILED_SYNC": 4}


def ends_by(kind, status, errors):
    """Whether a run may end so where that failed. A record that has no memory is a book that can't be written, too."""
    unwritten = kind == "REFUSED_REQUEST" and status == 4 and b"write the book" in errors
    return (status == KINDS.get(kind) or unwritten) and errors.startswith((b"zvt: ", b"error: "))


def old_book():
    """A book of two payments, one of them taken back, and one that is unclear; a crash tore its last record."""
    of = journal_dialogues.Dialogue()
    of.registered()
    of.paid(5, 41)
    of.paid(6, 42)
    of.reversing(1, 41)
    of.hear(journal_model.status(5, 43, 43, original=41))
    of.completed()
    of.pay(7)
    return of.file() + b" 800000\n\n"


def paid(text):
    """The sum of the payments of a run that were not taken back. A run that reverses an entry has a new book."""
    amounts = []
    for pay, entry in re.findall(rb"^(?:pay:(\d+)\S* -> paid|reverse:(\d+)\S* -> reversed)", text, re.M):
        if pay:
            amounts.append(int(pay))
        else:
            amounts[int(entry) - 1] = 0
    return sum(amounts)


def ends_without_room(text, full):
    """Whether a run went on as the full one up to an order for which no room could be reserved: that was its last."""
    found = re.fullmatch(rb"((?:.+\n)*)\S+ -> not sent: NoSpace\ntotal (\d+)\n", text)
    before = int(re.search(rb"total (\d+)\n$", full)[1]) - paid(full)
    return bool(found) and full.startswith(found[1]) and int(found[2]) == before + paid(found[1])


class Trial(fault_injection.Trial):
    """The runs with a book. Each has a book of its own, by its tag."""

    def __init__(self, work):
        Checks.__init__(self)
        self.work, self.hosts = work, 0

    def run(self):
        self.each_of("a loop with a new book", ["loop", "--book", NEW, *STEPS])
        self.each_of("a loop over a book", ["loop", "--book", OLD, "register", "pay:1000", "close"])
        self.each_of("the book", ["book", OLD])
        self.each_of_till()
        print("all as expected" if self.wrong == 0 else f"{self.wrong} not as expected")
        return self.status

    def each(self, name, setting, look):
        """As for the other runs; each run wants memory."""
        super().each(name, setting, look)
        if setting == "REFUSED_REQUEST" and not look(1, REFUSED_REQUEST=1):
            self.differs(name, "no request for memory was seen")

    def book(self, tag):
        return self.work / f"{tag}.book"

    def start(self, words, tag, program=ZVT, **settings):
        """As for the other runs, over a new book or a copy of the old one."""
        path = self.book(tag)
        for name in (path, pathlib.Path(f"{path}.cut")):
            name.unlink(missing_ok=True)
        if OLD in words:
            path.write_bytes(old_book())
        words = [str(path) if word in (NEW, OLD) else word for word in words]
        return super().start(words, tag, program, **settings)

    def end_of(self, words, given, tag, program=ZVT, **settings):
        """As for the other runs, with the name of the book left out of the errors."""
        status, text, errors, refused = super().end_of(words, given, tag, program, **settings)
        return status, text, errors.replace(str(self.book(tag)).encode(), b"BOOK"), refused

    def each_of(self, name, words):
        status, full, full_errors, _ = self.end_of(words, b"", "plain")
        if status != 0:
            self.differs(name, "nothing was refused:", status, full, full_errors)

        def look_at(kind):
            def look(at, **setting):
                here, tag = f"{name}, {kind} {at}", f"{words[0]}.{kind}.{at}"
                ended, text, errors, refused = self.end_of(words, b"", tag, **setting)
                as_ever = (ended, text, errors) == (status, full, full_errors)
                if not as_ever and not (refused and ends_by(kind, ended, errors)):
                    self.differs(here, "it ends with", ended, errors)
                if not (is_prefix(text, full) or full.startswith(text) or ends_without_room(text, full)):
                    self.differs(here, "is no front of the full text:", text)
                if words[0] != "book":
                    self.look_at_book(here, tag, text, old_book() if OLD in words else b"")
                return refused

            return look

        for kind in KINDS:
            self.each(f"{name}, {kind}", kind, look_at(kind))
        if self.end_of(words, b"", "one", WRITES_OF_ONE=1) != (status, full, full_errors, False):
            self.differs(f"{name}, a byte at a time", "it ends otherwise")

    def look_at_book(self, here, tag, text, before):
        """The book has what it had and all that was written, and a whole run goes on over it; it is answered."""
        path = self.book(tag)
        had = journal_model.book_of(before)
        try:
            book = journal_model.book_of(path.read_bytes() if path.exists() else b"")
        except journal_model.NoJournal as error:
            self.differs(here, error)
            return had
        if book.entries[:len(had.entries)] != had.entries or book.unclear[:len(had.unclear)] != had.unclear:
            self.differs(here, f"it had {had}, and has {book}")
        for step, what in re.findall(r"^(\S+) -> (.*)\n", text.decode(), flags=re.M):
            kind, _, number = step.partition(":")
            paid = [f"paid trace {entry.trace:06} receipt {entry.receipt.hex()}" for entry in book.entries if str(entry.amount) == number]
            if kind == "pay" and what.startswith("paid") and what not in paid:
                self.differs(here, f"it wrote {step} -> {what}, and has {book}")
            if kind == "reverse" and what == "reversed" and not book.entries[int(number) - 1].reversed:
                self.differs(here, f"it wrote {step} -> {what}, and has {book}")
        again = subprocess.run([ZVT, "loop", "--book", path, "register"], stdout=subprocess.PIPE, stderr=subprocess.PIPE, timeout=SECONDS)
        after = journal_model.book_of(path.read_bytes())
        if again.returncode != 0 or (after.entries, after.unclear) != (book.entries, book.unclear):
            self.differs(here, f"a whole run over its book: {again}")
        return book

    # ---- over TCP

    def each_of_till(self):
        for kind in KINDS:
            self.each(f"a till with a book over TCP, {kind}", kind, self.till)
        self.till(1, WRITES_OF_ONE=1)

    def till(self, at, **setting):
        """A till's run with a book against a whole terminal; whether something was refused."""
        (kind,) = setting
        name, tag = f"a till with a book, {kind} {at}", f"till.{kind}.{at}"
        host = self.new_host()
        terminal, _ = fault_injection.Trial.start(self, ["terminal", "--host", host, "--port", "0", "--trace", "{}"], f"{tag}.terminal")
        port = terminal.stderr.readline().decode().strip().rsplit(":", 1)[1]
        status, text, errors, refused = self.end_of(["till", "--host", host, "--port", port, "--book", NEW, *STEPS], b"", tag, **setting)
        release(host, port)
        terminal.communicate(timeout=SECONDS)
        if status != 0 and not (refused and ends_by(kind, status, errors)):
            self.differs(name, "it ends with", status, text, errors)
        approved = self.rows(f"{tag}.terminal", "approved")
        if status == 0 and (approved != ["1000", "1000", "20"] or not text.endswith(b"total 20\n")):
            self.differs(name, "nothing failed:", text, approved)
        book = self.look_at_book(name, tag, text, b"")
        kept = [str(entry.amount) for entry in book.entries] + [str(amount) for amount, _ in book.unclear]
        if not set(approved) <= set(kept):
            self.differs(name, "an approval is forgotten:", approved, book)
        return refused


def main():
    return fault_injection.run_with("journal_injection", LIBRARY, (ZVT,), Trial)


if __name__ == "__main__":
    sys.exit(main())

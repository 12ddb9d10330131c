#!/usr/bin/env python3
"""Compares what `zvt book` says of random books with asks with a reader of its own (journal_model.py).

A till pays, reverses, loses its line at any message, and asks a terminal to repeat its last receipt. The terminal answers with
its last transaction, an older one, one of its own making, two that differ, none, or an abort; or the line is lost.

settled_books.py [PROGRAM [BOOKS]]: 400 books of the program of `rt ci` if nothing else is said. The status is 1 if an answer differs
or a kind of settlement never came about.
"""
import collections
import json
import pathlib
import random
import subprocess
import sys
import tempfile

import journal_model
from common import Checks, program
from journal_dialogues import NACK, NOT_POSSIBLE, Dialogue, message
from journal_model import ABORT, ACK, COMPLETION, digits, status

ZVT = program(sys.argv[1:2])
BOOKS = int(sys.argv[2]) if len(sys.argv) > 2 else 400
AMOUNTS = (500, 1000)


class Day(Dialogue):
    """A till's day with a terminal, which has a row for each of its transactions: the status of each."""

    def __init__(self, chance):
        super().__init__()
        self.chance, self.rows, self.booked = chance, [], []
        self.taken_back, self.was_lost = set(), False

    def again(self):
        super().again()
        self.was_lost = True

    def row(self, amount, original=None):
        number = len(self.rows) + 1
        if self.chance.random() < 0.05 and self.rows:
            number = self.chance.randint(1, len(self.rows))  # it began its numbers anew
        self.rows.append(status(amount, number, number, original=original))
        return number

    def broken(self):
        """The line is lost here, one time of five."""
        lost = self.chance.random() < 0.2
        if lost:
            self.again()
        return lost

    def told(self, row):
        """The terminal says this status, and completes."""
        self.hear(row)
        if not self.broken():
            self.completed()
            return True
        return False

    def pays(self):
        amount = self.chance.choice(AMOUNTS)
        self.taken(amount)
        if self.chance.random() < 0.2:
            self.given_up(NOT_POSSIBLE)
            return
        happens = self.chance.random() < 0.8
        number = self.row(amount) if happens else None
        if not happens or self.broken():
            if not happens:
                self.again()
            return
        known = number in [other for other, _ in self.booked]
        if self.told(self.rows[-1]) and not known:
            self.booked.append((number, amount))

    def reverses(self):
        left = [place for place in range(len(self.booked)) if place not in self.taken_back]
        if not left:
            return
        place = self.chance.choice(left)
        number, amount = self.booked[place]
        self.reversing(place + 1, number)
        if self.chance.random() < 0.3:
            self.given_up(NOT_POSSIBLE)
            return
        if self.chance.random() < 0.3:
            self.again()
            return
        self.row(amount, original=number)
        if not self.broken() and self.told(self.rows[-1]):
            self.taken_back.add(place)

    def asks(self):
        self.ask()
        if self.chance.random() < 0.1:
            self.hear(message(bytes([NACK, NOT_POSSIBLE])), None)
            return
        self.hear(ACK, None)
        kind = self.chance.choice(("last", "last", "last", "older", "strange", "two", "none", "abort", "unnumbered", "lost"))
        rows = self.rows or [status(500, 77, 77)]
        if kind == "abort":
            self.given_up(NOT_POSSIBLE)
        elif kind == "lost":
            self.again()
        elif kind == "unnumbered":
            self.told(status(self.chance.choice(AMOUNTS), None, 5))
        else:
            said = {"last": rows[-1:], "older": [self.chance.choice(rows)], "strange": [status(500, 99, 99, currency=self.chance.choice((None, 978, 756)))]}
            for row in {**said, "two": [rows[-1], status(1000, 98, 98)], "none": []}[kind]:
                self.hear(row)
            if not self.broken():
                self.completed()


def day(chance):
    of = Day(chance)
    of.registered()
    for _ in range(chance.randint(3, 20)):
        asks = of.was_lost and chance.random() < 0.7
        of.was_lost = False
        (of.asks if asks else chance.choice((of.pays, of.pays, of.reverses, of.asks)))()
        if chance.random() < 0.03:
            of.close()
            of.hear(ACK, None)
            of.told(status(sum(amount for _, amount in of.booked), None))
    return of.file(chance.randint(2, len(of.records)) if chance.random() < 0.3 else None)


def main():
    check, kinds, sums = Checks(), collections.Counter(), 0
    with tempfile.TemporaryDirectory() as folder:
        path = pathlib.Path(folder) / "day.book"
        for seed in range(BOOKS):
            path.write_bytes(day(random.Random(seed)))
            book = journal_model.book_of(path.read_bytes())
            kinds.update(row[0] for row in book.settled)
            plain = subprocess.run([ZVT, "book", path], capture_output=True, text=True)
            check(f"book {seed}", (plain.returncode, plain.stdout, plain.stderr), (0, journal_model.text_of(book) + "\n", ""))
            rows = subprocess.run([ZVT, "book", "--json", path], capture_output=True, text=True).stdout.splitlines()
            found = [row for row in map(json.loads, rows) if "settled" in row]
            check(f"objects of book {seed}", found, [journal_model.settled_object(*row) for row in book.settled])
            found = [row["settled_total"] for row in map(json.loads, rows) if "settled_total" in row]
            check(f"the sum of book {seed}", found, [book.settled_total()] if book.settled_total() else [])
            sums += bool(found)
    for kind in ("Paid", "NotPaid", "Reversed", "NotReversed"):
        check(f"{kind} came about", kinds[kind] > 0, True)
    check("sums came about", sums > 0, True)
    print(f"{BOOKS} books, {sum(kinds.values())} settlements ({dict(sorted(kinds.items()))}): {check.count} comparisons, {check.verdict}")
    return check.status


if __name__ == "__main__":
    sys.exit(main())

#!/usr/bin/env python3
"""Fills the disk under a till at each byte of a payment, and before one.

The till runs on a small tmpfs, with a terminal that is played here. In the first trial the disk is filled to its last page once
the till has sent its order, and the book has another length each time: so each byte of what follows is once the first that
needs a new page. The payment is to be booked. In the second trial the disk has so many free pages before the order: it is
booked, or refused before anything is sent, with a line that says that the disk is full, and the book stays as it was. An
approval that was acknowledged and is unclear is wrong in both. At the end no file is left beside the book, and the book
opens again on the full disk. In the third trial the disk fills up in a payment, which is booked, and the next payment is
not sent: nothing of it is in the book, and once there is space again the same book takes it.

journal_space.py [PROGRAM]: without a word the program of `rt ci`. Without root that may mount all is skipped, and said. The
status is 1 where anything differs.
"""
import contextlib
import os
import pathlib
import shutil
import socket
import subprocess
import sys
import tempfile

import journal_dialogues
import journal_model
from common import Checks, program
from journal_model import ACK, COMPLETION, message, status

ZVT = program(sys.argv[1:])
SECONDS = 20
PAGE = 4096
RESERVE = 16  # pages that a till holds back
FAILED = 4
TIME = " at 2026-11-28T09:14:03Z"
THANKS = message(b"\x06\xD1", b"\0APPROVED 7, THANK YOU")
FULL = b"the disk is full"
NO_SPACE = b"-> not sent: NoSpace\n"


def payment(number):
    """What a terminal answers to a payment of 7 that it approves with this number."""
    return [ACK, message(b"\x04\xFF", b"\x0A"), status(7, number, number), THANKS, message(COMPLETION)]


def book_of(length):
    """A journal of a payment, whose file has this length: a remark fills it up."""
    of = journal_dialogues.Dialogue()
    of.registered()
    of.paid(1000, 1)
    of.remark((length - len(of.file()) - 3) * "x")
    return of.file()


def growth():
    """How many bytes the journal grows by until the order of the payment is there, and until the payment is."""
    of = journal_dialogues.Dialogue()
    start = len(of.file())
    of.lost()
    of.note = TIME
    of.registered()
    of.note = TIME
    of.pay(7)
    ordered = len(of.file())
    for answer in payment(2):
        of.hear(answer, *([None] if answer == ACK else []))
    return ordered - start, len(of.file()) - start


class Terminal:
    """A terminal for one till: it answers what is sent by a plan, and knows what was acknowledged."""

    def __init__(self):
        self.server = socket.create_server(("127.0.0.1", 0))
        self.server.settimeout(SECONDS)
        self.port = self.server.getsockname()[1]

    def serves(self, at_payment, number=2):
        """Answers a registration, and a payment with this number after `at_payment` was called. It tells what the till sent."""
        line, _ = self.server.accept()
        line.settimeout(SECONDS)
        sent = []
        with line, contextlib.suppress(ConnectionError):
            while apdu := one_message(line):
                sent.append(apdu)
                if apdu[:2] == b"\x06\x00":
                    plan = [ACK, message(COMPLETION)]
                elif apdu[:2] == b"\x06\x01":
                    at_payment()
                    plan = payment(number)
                else:
                    continue
                for answer in plan:
                    line.sendall(answer)
                    if answer != ACK:
                        sent.append(one_message(line))
        return sent


def one_message(line):
    """The next message of the till, or nothing."""
    head = line.recv(3, socket.MSG_WAITALL)
    return head + line.recv(head[2], socket.MSG_WAITALL) if len(head) == 3 and head[2] else head


def fill(folder, keep=0):
    """Fills the disk but for so many pages."""
    with open(folder / "filler", "ab", buffering=0) as filler:
        with contextlib.suppress(OSError):
            while True:
                filler.write(bytes(PAGE))
        size = filler.seek(0, 2)
        os.truncate(folder / "filler", max(0, size - keep * PAGE))


class Trial(Checks):
    def __init__(self, folder):
        super().__init__()
        self.folder, self.path = folder, folder / "book"
        self.runs, self.refused = 0, 0

    def pays(self, name, file, fills):
        """A till with a book of these bytes registers and pays. The disk is filled before, and once the payment was ordered. It
        answers whether the payment was booked."""
        self.path.write_bytes(file)
        before = journal_model.book_of(file)
        terminal = Terminal()
        at_start, at_payment = fills
        at_start()
        words = [ZVT, "till", "--port", str(terminal.port), "--book", str(self.path), "register", "pay:7"]
        till = subprocess.Popen(words, stdin=subprocess.DEVNULL, stdout=subprocess.PIPE, stderr=subprocess.PIPE)
        try:
            sent = terminal.serves(at_payment)
        except TimeoutError:
            sent = []
        out, errors = till.communicate(timeout=SECONDS)
        self.runs += 1
        after = journal_model.book_of(self.path.read_bytes())
        paid = len(after.entries) > len(before.entries)
        acknowledged = sent.count(ACK) >= 3  # of the registration, the intermediate status, and the approval
        if acknowledged and (not paid or after.unclear):
            self.differs(name, f"an approval was acknowledged, and the book has {after}", out, errors)
        if not paid and (till.returncode != FAILED or FULL not in errors or any(apdu[:2] == b"\x06\x01" for apdu in sent)):
            self.differs(name, "it is not paid, and not refused as on a full disk", till.returncode, out, errors, sent)
        if not paid and (b"# pay 7 " in self.path.read_bytes() or (after.entries, after.unclear) != (before.entries, before.unclear)):
            self.differs(name, "it is not paid, and the book has something of it", after)
        if paid and till.returncode != 0:
            self.differs(name, "it is paid, and the status is", till.returncode, out, errors)
        if sorted(os.listdir(self.folder)) != ["book", "filler"]:
            self.differs(name, "beside the book are", os.listdir(self.folder))
        if self.runs % 7 == 0 or not paid:
            self.opens_again(name)
        (self.folder / "filler").unlink()
        return paid

    def makes(self, file, steps, at_payment, number):
        """A till with a book of these bytes makes these steps; `at_payment` is called once a payment was ordered. It answers how the
        program ended, and what was sent."""
        terminal = Terminal()
        words = [ZVT, "till", "--port", str(terminal.port), "--book", str(self.path), *steps]
        self.path.write_bytes(file)
        till = subprocess.Popen(words, stdin=subprocess.DEVNULL, stdout=subprocess.PIPE, stderr=subprocess.PIPE)
        sent = terminal.serves(at_payment, number)
        out, errors = till.communicate(timeout=SECONDS)
        return till.returncode, out, errors, sent

    def after_a_payment(self):
        """A payment uses the space that was held back for it, and the next one finds none."""
        (self.folder / "filler").write_bytes(b"")
        ordered, paid = growth()
        for behind in range(ordered + 1, paid, 20):
            name = f"a second payment, the first {behind} bytes before a page's end"
            file = book_of(2 * PAGE - behind)
            before = journal_model.book_of(file)
            status, out, errors, sent = self.makes(file, ("register", "pay:7", "pay:8"), lambda: fill(self.folder), 2)
            full = self.path.read_bytes()
            after = journal_model.book_of(full)
            asked = [apdu for apdu in sent if apdu[:2] == b"\x06\x01"]
            if (status, len(asked)) != (FAILED, 1) or b"pay:8 " + NO_SPACE not in out or FULL not in errors:
                self.differs(name, "it is not refused for want of space", status, out, errors, sent)
            if len(after.entries) != len(before.entries) + 1 or after.unclear != before.unclear or b"# pay 8 " in full:
                self.differs(name, "the book has more than the first payment", after)
            (self.folder / "filler").unlink()
            status, out, errors, sent = self.makes(full, ("register", "pay:7"), lambda: None, 3)
            again = journal_model.book_of(self.path.read_bytes())
            if status != 0 or len(again.entries) != len(after.entries) + 1:
                self.differs(name, "the same book does not take a payment once there is space", status, out, errors)
            self.runs += 2

    def opens_again(self, name):
        """On the full disk the book opens, and is as it was."""
        fill(self.folder)
        file = self.path.read_bytes()
        ended = subprocess.run([ZVT, "loop", "--book", str(self.path)], stdin=subprocess.DEVNULL, capture_output=True, timeout=SECONDS, check=False)
        if b"booked" not in ended.stderr or not self.path.read_bytes().startswith(file[:-1]):
            self.differs(name, "it does not open on a full disk", ended)

    def at_each_byte(self):
        """The first byte that needs another page is each one of the payment's records."""
        (self.folder / "filler").write_bytes(b"")
        ordered, paid = growth()
        for behind in range(ordered - 2, paid + 2):
            file = book_of(2 * PAGE - behind)
            if not self.pays(f"{behind} bytes before a page's end", file, (lambda: None, lambda: fill(self.folder))):
                self.differs(f"{behind} bytes before a page's end", "it is not paid")

    def before_it(self):
        """So many pages are free when the till begins."""
        for free in range(0, RESERVE + 4):
            for behind in (1, 100, 300, 2000):
                fills = (lambda free=free: fill(self.folder, free), lambda: fill(self.folder))
                paid = self.pays(f"{free} free pages, {behind} bytes before a page's end", book_of(2 * PAGE - behind), fills)
                self.refused += not paid
                if paid and free < RESERVE or not paid and free >= RESERVE + 2:
                    self.differs(f"{free} free pages", f"paid: {paid}")

    def run(self):
        self.at_each_byte()
        self.before_it()
        self.after_a_payment()
        print(f"{self.verdict}: payments on a disk that fills up: {self.runs} runs, {self.refused} refused before they were sent, {self.wrong} wrong")
        return self.status


def main():
    if not os.access(ZVT, os.X_OK):
        print(f"journal_space: no program at {ZVT}: build it by 'rt run' in crates/zvt, or by 'rt ci'", file=sys.stderr)
        return 2
    with tempfile.TemporaryDirectory() as work:
        folder = pathlib.Path(work) / "disk"
        folder.mkdir()
        words = ["mount", "-t", "tmpfs", "-o", "size=256k", "none", str(folder)]
        if not shutil.which("mount") or subprocess.run(words, stderr=subprocess.DEVNULL, check=False).returncode != 0:
            print("skipped: payments on a disk that fills up: they need root that may mount")
            return 0
        try:
            return Trial(folder).run()
        finally:
            subprocess.run(["umount", "-l", str(folder)], check=False)


if __name__ == "__main__":
    sys.exit(main())

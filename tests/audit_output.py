#!/usr/bin/env python3
"""Compares `audit` and `audit --json` with the model of `audit_model.py`, byte for byte, strictly, with `--loose` and with `--open`.

    tests/audit_output.py [--text] [PROGRAM]

PROGRAM is the one that `rt ci` built, unless another is named. With `--text` what a program without `--json` writes is
compared alone. The traces are those of examples/, the journals of sixteen dialogues, random dialogues of payments whose
messages are left out, doubled, changed, cut and refused, and the hostile traces of `random_traces.py`. Of `audit --check` the
status is compared: 1 where a payment is unclear, or an order is not followed. The counts of `--json` and the orders that are not followed are those that standard error says. The lines of
books in docs/JSON.md are held too. The status is 1 where anything differs.
"""
import concurrent.futures
import json
import os
import random
import re
import subprocess
import sys

import audit_model
import journal_dialogues
import json_model
import random_traces
from common import EXAMPLES, TOP, program
from journal_model import ABORT, ACK, AUTHORISATION, CANCEL, COMPLETION, END_OF_DAY, REGISTRATION, REVERSAL, STATUS, digits, message

TEXT_ALONE = "--text" in sys.argv[1:2]
WORDS = sys.argv[2 if TEXT_ALONE else 1:]
PROGRAM = program(WORDS)
SEED, DIALOGUES, HOSTILE = 20261126, 1500, 300
UNFOLLOWED = [bytes.fromhex(control) for control in sorted(audit_model.UNFOLLOWED)]
CAUSES = {"NoStatus", "Conflict", "AmountDiffers", "NoTrace", "TraceUsed", "AbortAfterApproval", "Line", "Malformed", "Unfinished", "WrongCurrency"}


class Dialogue:
    """A dialogue of a till with a terminal that does odd things at times, as lines."""

    def __init__(self, chance, number=0):
        self.chance, self.lines, self.number = chance, [], number
        for _ in range(chance.randint(1, 12)):
            self.step()

    def odd(self, chance_of_it=0.1):
        return self.chance.random() < chance_of_it

    def say(self, sign, data):
        cut = self.chance.randint(0, len(data)) if self.odd() else 0
        self.lines += [f"{sign} {piece.hex()}\n" for piece in (data[:cut], data[cut:]) if piece]

    def fields(self, amount):
        """The fields of a status that approves the amount, or that is wrong at one place."""
        rows = [("27", b"\0"), ("04", digits(amount, 6)), ("0B", digits(self.number, 3)), ("87", digits(self.number, 2))]
        if self.odd(0.3):
            rows.append(("49", self.chance.choice((b"\x09\x78", b"\x09\x78", b"\x08\x40"))))
        if self.odd(0.3):
            rows.append(self.chance.choice(rows + [("37", digits(1, 3)), ("27", b"\x6C"), ("49", b"\x09\x78"), ("03", b"\0")]))
        if self.odd(0.3):
            rows.pop(self.chance.randrange(len(rows)))
        if self.odd(0.2):
            at = self.chance.randrange(len(rows))
            bmp, value = rows[at]
            rows[at] = (bmp, self.chance.choice((digits(1, len(value)), digits(self.number + 1, len(value)), bytes(len(value)))))
        return b"".join(bytes.fromhex(bmp) + value for bmp, value in rows)

    def step(self):
        self.chance.choice((self.pay, self.pay, self.pay, self.pay, self.pay, self.other, self.lose))()

    def pay(self):
        amount = self.chance.choice((1, 100, 100, 999999999999))
        order = b"\x04" + digits(amount, 6) + self.chance.choice((b"", b"\x49\x09\x78"))
        if self.odd(0.05):
            order = self.chance.choice((b"", order + order, b"\x04" + bytes(6)))
        kind = AUTHORISATION if not self.odd(0.2) else self.chance.choice(UNFOLLOWED)
        self.say(">", message(kind, order))
        self.number += not self.odd(0.1)
        heard = [ACK, *(message(STATUS, self.fields(amount)) for _ in range(self.chance.choice((0, 1, 1, 1, 1, 2)))), message(b"\x06\xD1", b"\0OK")]
        if self.odd(0.2):
            heard = [ACK, message(STATUS, b"\x27\x6C")]
        heard.append(self.chance.choice((message(COMPLETION),) * 6 + (message(ABORT, b"\x6C"), b"\x84\x6F\0", ACK)))
        if self.odd():
            odd = self.chance.choice((b"\x04\x0F\x01", b"\x06\xD1\x01", b"\x80\x00", heard[-1], b"\x05\x0A\0"))
            heard.insert(self.chance.randint(0, len(heard)), odd)
        for one in heard:
            self.say("<", one)
            if self.odd(0.05):
                self.other()
            elif self.odd(0.8):
                self.say(">", ACK)

    def other(self):
        """Another message of the till."""
        self.say(">", self.chance.choice((
            message(REGISTRATION, bytes(3) + b"\xBE" + self.chance.choice((b"", b"\x09\x78", b"\x08\x40"))),
            message(REVERSAL, bytes(3) + b"\x87\0\1"), message(END_OF_DAY, bytes(3)), message(CANCEL), b"\x05\x0A\0", b"\x84\0\0", b"\x06\x01\x01", message(COMPLETION), message(b"\x06\xD3"),
        )))

    def lose(self):
        self.lines.append("!\n")

    def text(self):
        return "".join(self.lines).encode()


class Trial:
    def __init__(self):
        self.wrong, self.audits, self.causes, self.booked, self.passed, self.approved = 0, 0, set(), 0, 0, 0

    def differs(self, *what):
        self.wrong += 1
        if self.wrong <= 20:
            print("NOT AS EXPECTED:", *what)

    def run(self, words, trace, wanted):
        done = subprocess.run([PROGRAM, "audit", *words], input=trace, capture_output=True, timeout=60)
        if (done.returncode, done.stdout) != wanted:
            self.differs(f"audit {words} of\n{trace.decode('latin-1')[:3000]}ends with {done.returncode} and writes\n"
                         f"{done.stdout.decode()}instead of {wanted[0]} and\n{wanted[1].decode()}")
        return done.stderr.decode()

    def counted(self, audit, noted):
        """The last line of what standard error says, which is there where anything is bad."""
        last = re.findall(r"^zvt: (\d+) messages?((?:, \d+ [a-z ]*)+)$", noted, re.M)
        found = [(int(messages), sum(map(int, re.findall(r"\d+", rest)))) for messages, rest in last]
        if found != ([(audit.messages, audit.bad)] if audit.bad else []):
            self.differs("the counts", found, "instead of", audit.messages, audit.bad)

    def told(self, audit, noted):
        """The orders that standard error says are not followed, with what was approved for each."""
        found = [line for line in noted.splitlines() if " is not followed" in line]
        if found != [audit_model.note_of(order) for order in audit.unfollowed]:
            self.differs("the orders", found, "instead of", audit.unfollowed)
        self.approved += sum("approved" in order for order in audit.unfollowed)

    def hold(self, trace, words=()):
        self.hold_by(trace, words)
        if not TEXT_ALONE:
            self.hold_by(trace, [*words, "--open"])

    def hold_by(self, trace, words):
        self.audits += 1
        try:
            audit = audit_model.Audit(trace, "--loose" in words, "--open" in words)
        except json_model.Fault:
            self.run(words, trace, (3, b""))
            return
        said = list(audit.objects())
        self.booked += len(audit.booked)
        self.causes |= {cause for _, cause in audit.unclear}
        status = 1 if audit.bad > audit.passed else 0
        checked = 1 if audit.unclear or audit.unfollowed else status
        self.passed += audit.passed
        text = "".join(audit_model.text_of(one) + "\n" for one in said if "unfollowed" not in one).encode()
        noted = self.run(words, trace, (status, text))
        self.counted(audit, noted)
        self.told(audit, noted)
        if not TEXT_ALONE:
            lines = "".join(json_model.json_of(one) + "\n" for one in said).encode()
            self.counted(audit, self.run(["--json", *words], trace, (status, lines)))
            self.run(["--check", *words], trace, (checked, text))
            self.run(["--check", "--json", *words], trace, (checked, lines))


def documented(trial):
    """Each object of a book in docs/JSON.md is that of the line beside it."""
    books = re.search(r"^## Books\n(.*?)^## ", (TOP / "docs/JSON.md").read_text(), re.M | re.S)[1]
    shown = re.findall(r"^\| `(\w+ [^`]*)` \| `(\{.*\})` \|$", books, re.M)
    if len(shown) != 3:
        trial.differs(f"docs/JSON.md has {len(shown)} lines of books")
    for line, text in shown:
        value = json.loads(text)
        if audit_model.text_of(value) != line or json_model.json_of(value) != text:
            trial.differs(f"docs/JSON.md has {text} beside {line}")


def traces(chance):
    """Traces, and whether each is read loosely."""
    for path in sorted(EXAMPLES.glob("**/*.trace")):
        yield path.read_bytes(), ()
        yield path.read_bytes(), ("--loose",)
    for dialogue in journal_dialogues.ALL:
        yield journal_dialogues.written(dialogue).file(), ("--loose",)
    for text in (b"", b"> 06 01\nx\n", b"> 06 01 07 04 00 00 00 00 00 01\n", b"# zvt journal 1\n> 0601070400000000 0001\n\n!\n"):
        yield text, ()
    for _ in range(DIALOGUES):
        yield Dialogue(chance).text(), ()
    for number in range(HOSTILE):
        yield random_traces.trace(chance, padded=number % 2, hostile=True), ("--loose",) if number % 2 else ()


def main():
    if not os.access(PROGRAM, os.X_OK):
        print(f"audit_output: no program at {PROGRAM}: build it by 'rt run' in crates/zvt, or by 'rt ci'", file=sys.stderr)
        return 2
    trial = Trial()
    documented(trial)
    with concurrent.futures.ThreadPoolExecutor(min(4, os.cpu_count() or 1)) as pool:
        list(pool.map(lambda one: trial.hold(*one), list(traces(random.Random(SEED)))))
    if not trial.approved:
        trial.differs("nothing is approved for an order that is not followed")
    if trial.causes != CAUSES:
        trial.differs("no payment is unclear by", CAUSES - trial.causes)
    print(f"{'NOT AS EXPECTED' if trial.wrong else 'ok'}: {trial.audits} audits, {trial.booked} payments booked, {len(trial.causes)} causes, {trial.passed} messages passed over, {trial.approved} approvals of orders that are not followed"
          f"{', the text alone' if TEXT_ALONE else ''}: {trial.wrong} wrong")
    return 1 if trial.wrong else 0


if __name__ == "__main__":
    sys.exit(main())

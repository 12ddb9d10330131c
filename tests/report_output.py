#!/usr/bin/env python3
"""Compares `report --json` with the model of `report_model.py`, byte for byte, and `report` with stored texts.

    tests/report_output.py [PROGRAM]

PROGRAM is the one that `rt ci` built, unless another is named. The traces are those of examples/ and tests/data/real, random
dialogues of payments, reversals and ends of day whose messages are left out, doubled, changed, cut and refused, and the hostile
traces of `random_traces.py`, each read openly, with `--strict` and with `--loose`. The totals are those of `audit`. Each case has a trace
that brings it, and one that just misses it. The texts of the traces in tests/data/report are those beside them. The status is 1 if
anything differs.
"""
import concurrent.futures
import json
import random
import subprocess
import sys

import journal_dialogues
import journal_model
import json_model
import random_traces
import report_model
from audit_output import Dialogue
from common import EXAMPLES, TOP, Checks, program
from journal_model import ABORT, ACK, AUTHORISATION, COMPLETION, END_OF_DAY, REGISTRATION, REVERSAL, STATUS, digits, message

PROGRAM = program(sys.argv[1:])
SEED, DIALOGUES, MARKED, HOSTILE = 20261130, 600, 200, 200
FORMS = ([], ["--strict"], ["--loose"])
check = Checks()


def run(words, trace):
    done = subprocess.run([PROGRAM, *words], input=trace, capture_output=True, timeout=60)
    return done.returncode, done.stdout.decode(), done.stderr.decode()


def card(number, name=None, card_type=None):
    fields = b"\x22" + length(bytes.fromhex(number)) if number else b""
    fields += b"" if name is None else b"\x8B" + length(name)
    return fields + (b"" if card_type is None else bytes([0x8A, card_type]))


def length(content):
    return bytes([0xF0 + len(content) // 10, 0xF0 + len(content) % 10]) + content


# Two cards with masked numbers, and others that are odd in one way.
GIROCARD, VISA = card("6726EEEEEEEE12340F", b"girocard\0"), card("4761EEEEEEEE0010", b"VISA", 10)
CARDS = (GIROCARD, GIROCARD, VISA, VISA, card("6726EEEEEEEE1234FF", None, 5), card("67E6EEE23FF0"), card("6726123456781234", b"girocard"), card("67EEEEEEEEEEEEEEEEEEEE1F"),
         card("67EEE1", b"\x94 \"\\<b>&amp;\x7F"), card("123456EEEE123456", b"x" * 24), card("12345EEEEE12345F", b"x" * 25), GIROCARD + VISA, card("", b"\0\x1F", 0xFF), card("EEEE"), card("", None, 6))


TEXTS = (b"", b"B\x84ckerei", b"Karte 4761 7390 0101 0010", b"1234567890123", b"12345678901-2", b"123456789012  3", b"1 2.3-4 5.6-7 8.9-0 1.2-3 4 .5", b"6726########12340 28.11.2026 09:14", b"\"\\\xFF\x1B<b>&")


def printed(chance):
    """A print line or a text block."""
    if chance.random() < 0.7:
        return message(b"\x06\xD1", bytes([chance.choice((0, 0x40))]) + chance.choice(TEXTS))
    texts = b"".join(b"\x07" + bytes([len(one)]) + one for one in chance.choices(TEXTS, k=chance.randrange(4)))
    kind = chance.choice((b"", b"\x1F\x07\x01" + bytes([chance.randrange(1, 6)])))
    objects = kind + b"\x25" + (bytes([len(texts)]) if len(texts) < 0x80 else b"\x81" + bytes([len(texts)])) + texts
    return message(b"\x06\xD3", b"\x06" + (bytes([len(objects)]) if len(objects) < 0x80 else b"\x81" + bytes([len(objects)])) + objects)


# Terminal identifiers, and contents that are not one: no digits, or two of them.
TERMINALS = (b"\x29\x52\x50\x00\x40", b"\x29\x52\x50\x00\x41", b"\x29\x52\x50\x00\x4A", 2 * b"\x29\x52\x50\x00\x42")


class Day(Dialogue):
    """A dialogue with reversals and ends of day that the terminal answers."""

    def __init__(self, chance, number=0):
        self.receipts = []
        super().__init__(chance, number)

    def odd(self, chance_of_it=0.1):
        return super().odd(chance_of_it / 4)

    def say(self, sign, data):
        if sign == "<" and data[:2] == STATUS and len(data) > 3 and self.chance.random() < 0.7:
            data = message(STATUS, data[3:] + self.chance.choice(CARDS))
        if sign == "<" and data[:2] in (STATUS, COMPLETION) and self.chance.random() < 0.1:
            data = message(data[:2], data[3:] + self.chance.choice(TERMINALS))
        while sign == "<" and self.chance.random() < 0.3:
            super().say("<", printed(self.chance))
            super().say(">", self.chance.choice((ACK, ACK, ACK, b"\x84\x00\x00")))
        super().say(sign, data)

    def step(self):
        self.chance.choice((self.pay, self.pay, self.pay, self.reverse, self.reverse, self.close, self.other, self.lose))()

    def pay(self):
        super().pay()
        self.receipts.append(self.number)

    def answer(self, fields):
        heard = [ACK, *([message(STATUS, fields)] if not self.odd(0.2) else []), self.chance.choice((message(COMPLETION),) * 4 + (message(ABORT, b"\x6C"), message(ABORT, b"\xB4")))]
        if self.odd(0.15):
            heard = [bytes([0x84, self.chance.choice((0x83, 0xB4)), 0])]
        for one in heard[:self.chance.randint(1, len(heard)) if self.odd(0.2) else None]:
            self.say("<", one)
            self.say(">", ACK)

    def reverse(self):
        number = self.chance.choice(self.receipts or [1])
        self.say(">", message(REVERSAL, bytes(3) + b"\x87" + digits(number, 2)))
        self.number += 1
        status = b"\x27" + self.chance.choice((b"\0",) * 6 + (b"\x6C",)) + b"\x04" + digits(self.chance.choice((1, 100, 100)), 6)
        self.answer(status + b"\x0B" + digits(self.number, 3) + (b"\x37" + digits(number, 3) if not self.odd() else b"") + b"\x87" + digits(self.number, 2))

    def close(self):
        self.say(">", message(END_OF_DAY, bytes(3)))
        self.answer(self.chance.choice((b"\x27\0", b"\x27\x6C", b"\x04" + digits(100, 6), by_card(100, 1), by_card(*self.chance.choices((0, 0, 1, 100, 251), k=7)))))


def compared(name, trace):
    """The JSON of a trace is the model's, and its totals are those of an audit."""
    for words in FORMS:
        try:
            model = report_model.Report(trace, "--loose" in words, "--strict" in words)
        except json_model.Fault:
            check(f"{name} {words}", run(["report", "--json", *words], trace)[:2], (3, ""))
            continue
        said = list(model.objects())
        wanted = "".join(json_model.json_of(one) + "\n" for one in said)
        acts = sum(one["look"]["weight"] == "act" for one in said if "look" in one)
        status = 1 if model.bad > model.passed else 0
        check(f"{name} {words}", run(["report", "--json", *words], trace), (status, wanted, ""))
        check(f"{name} {words} --check", run(["report", "--check", *words], trace)[0], 1 if acts else status)
        audited = json.loads(run(["audit", "--json", *(["--open"] if "--strict" not in words else []), *(word for word in words if word == "--loose")], trace)[1].splitlines()[-1])
        check(f"the total of {name} {words}", said[0]["summary"]["total"], audited["total"])


# ---- times

MARKS = ("#@ 2026-11-28T07:0{}:12.040Z", "#@ 2026-11-28T07:0{}:12Z", "#@ 2026-11-28T07:0{}:12.000000001Z", "#@ 2026-02-30T07:0{}:12Z", "#@ 2028-02-29T07:0{}:12Z",
         "#@2026-11-28T07:0{}:12Z", "#@ 2026-11-28T07:0{}:12.Z", "#@ 2026-11-28T07:0{}:12+01:00", "#@ 0000-01-01T00:0{}:00Z", "# {}", "",
         "# pay 500 at 2026-11-28T07:0{}:12Z", "# reverse 1 at 2026-11-28T07:0{}:12Z ref A", "# close at 2026-02-30T07:0{}:12Z", "# pay 5 6 at 2026-11-28T07:0{}:12Z", "# paid at 2026-11-28T07:0{}:12Z",
         "# cancel at 2026-11-28T07:0{}:12", "# register  at 2026-11-28T07:0{}:12Z", "#  pay 1 at 2026-11-28T07:0{}:12Z")


def marked(chance, trace):
    """A trace with time marks, good ones and bad ones, and a clock that goes back now and then."""
    lines = []
    for at, line in enumerate(trace.split(b"\n")):
        while chance.random() < 0.4:
            lines.append(chance.choice(MARKS).format((at // 9 + (chance.random() < 0.03)) % 10).encode() + chance.choice((b"", b"", b"", b"\r", b" ")))
        lines.append(line)
    return b"\n".join(lines)


def times():
    """The times of a trace, in two zones, and what is wrong with its marks."""
    payment = [f"{sign} {one.hex()}" for sign, one in paid(500, 1)]
    trace = "\n".join(["#@ 2026-12-31T23:30:00.5Z", *payment[:1], "#@ 2026-12-31T23:29:59Z", "#@ 2026-12-31T25:00:00Z", *payment[1:], ""]).encode()
    for words, span, time in (([], "2026-12-31 23:30:00 to 23:29:59 UTC", "23:30:00"), (["--zone", "+01:00"], "2027-01-01 00:30:00 to 00:29:59 UTC+01:00", "00:30:00"),
                              (["--zone=-14:00"], "2026-12-31 09:30:00 to 09:29:59 UTC-14:00", "09:30:00"),
                              (["--zone", "+00:30"], "2027-01-01 00:00:00 to 2026-12-31 23:59:59 UTC+00:30", "00:00:00")):
        lines = run(["report", *words], trace)[1].splitlines()
        check(f"the hours with {words}", lines[0], span)
        row = next(line for line in lines if line.startswith("   1  "))
        check(f"the time of a payment with {words}", row.split()[1], time)
        check(f"what is wrong with the marks with {words}", lines[-2:], ["The clock of the time marks goes back at line 5.", "1 time mark cannot be read: see line 4."])
    for zone in ("1:00", "+14:01", "+01:60", "+0100", "UTC", ""):
        found = run(["report", "--zone", zone], trace)
        check(f"the zone '{zone}'", (found[0], found[1], "expected +HH:MM" in found[2]), (2, "", True))
    check("a zone for objects", run(["report", "--json", "--zone", "+01:00"], trace)[:2], (2, ""))


def far_apart():
    """Payments of one card are alike if they are not more than 15 minutes apart."""
    first, second = (dialogue(*paid_with(VISA, 500, number)).decode() for number in (1, 2))
    for time, wanted in (("09:15:00", True), ("09:15:01", False), ("08:45:00.999", True), ("08:44:59", False)):
        trace = f"#@ 2026-11-28T09:00:00Z\n{first}#@ 2026-11-28T{time}Z\n{second}".encode()
        check(f"two payments at 09:00:00 and {time}", "PaidAlike" in run(["report", "--json"], trace)[1], wanted)
        compared(f"two payments at 09:00:00 and {time}", trace)


# ---- a trace for each case, and one that just misses it

def approving(amount, number, original=None, card=b""):
    more = card if original is None else b"\x37" + digits(original, 3)
    return message(STATUS, b"\x27\0\x04" + digits(amount, 6) + b"\x0B" + digits(number, 3) + more + b"\x87" + digits(number, 2))


def dialogue(*said):
    return "".join("!\n" if one is None else f"{sign} {one.hex()}\n" for sign, one in said).encode()


def paid(amount, number, *answers):
    return [(">", message(AUTHORISATION, b"\x04" + digits(amount, 6))), ("<", ACK), *(("<", one) for one in answers or (approving(amount, number), message(COMPLETION)))]


def reversed_by(number, *answers):
    return [(">", message(REVERSAL, bytes(3) + b"\x87" + digits(number, 2))), *(("<", one) for one in answers)]


def closed(*answers):
    return [(">", message(END_OF_DAY, bytes(3))), ("<", ACK), *(("<", one) for one in answers)]


def totalled(amount):
    return message(STATUS, b"\x04" + digits(amount, 6))


def by_card(*sums):
    groups = b"".join(bytes([one % 251]) + digits(one, 6) for one in (*sums, *[0] * (7 - len(sums))))
    return message(STATUS, b"\x60\xF0\xF5\xF3" + digits(1, 2) + digits(9, 2) + groups)


def paid_with(card, amount, number):
    return paid(amount, number, approving(amount, number, card=card), message(COMPLETION))


def ordered(control, data, *answers):
    """An order outside the profile, and what the terminal answers."""
    return [(">", message(control, data)), ("<", ACK), *(("<", one) for one in answers)]


def refunded(amount, *answers):
    return ordered(b"\x06\x31", bytes(3) + b"\x04" + digits(amount, 6), *answers)


def undoing(number, original):
    """A status that declines, and names an original."""
    return message(STATUS, b"\x27\x6C" + (b"" if number is None else b"\x0B" + digits(number, 3)) + b"\x37" + digits(original, 3))


def repeated(*answers):
    """The till asks for the last receipt once more."""
    return ordered(b"\x06\x20", bytes(3), *answers)


def registered(currency, sign=">"):
    """A registration that names this currency, or none."""
    return sign, message(REGISTRATION, bytes(3) + b"\xBE" + (digits(currency, 2) if currency else b""))


def swapped(said):
    return [({"<": ">", ">": "<"}[sign], one) for sign, one in said]


LOST, DONE, DECLINED = ("!", None), message(COMPLETION), message(STATUS, b"\x27\x6C")
ABORTED, UNHEARD = message(ABORT, b"\x6C"), [*paid(500, 1)[:2], LOST]
UNREADABLE = message(STATUS, b"\x27\0\xF0\0")  # no field F0
UNREADABLE_ORDER = message(AUTHORISATION, b"\x04" + bytes(5) + b"\xA0")
CANCEL = message(b"\x06\xB0", b"")
TAKEN_BACK = (ACK, approving(500, 2, 1), DONE)
CASES = [
    ("ApprovedNotCompleted", [*paid(500, 1, approving(500, 1)), LOST], [*paid(500, 1), LOST]),
    ("OtherAmount", [*paid(500, 1, approving(550, 1), DONE)], [*paid(550, 1)]),
    ("PaymentUnclear", [*paid(500, 1, DONE)], [*paid(500, 1, DECLINED, DONE)]),
    ("ApprovalRepeated", [*UNHEARD, *repeated(approving(500, 1), DONE)], [*UNHEARD, *repeated(approving(501, 1), DONE)]),
    ("ApprovalRepeated", [*UNHEARD, *ordered(b"\x06\x70", b"", DONE), *repeated(approving(500, 1), DONE)], [*UNHEARD, *paid(700, 1), *repeated(approving(500, 1), DONE)]),
    ("ApprovalRepeated", [*UNHEARD, *repeated(DECLINED, approving(500, 1), DONE), *paid(500, 2)], [*UNHEARD, *refunded(500, DONE), *repeated(approving(500, 1), DONE)]),
    ("ApprovalRepeated", [*UNHEARD, *repeated(message(STATUS, b"\x27\0\x04" + digits(500, 6)), DONE)], [*paid(500, 1, approving(500, 1)), LOST, *repeated(approving(500, 1), DONE)]),
    ("ApprovedThenUndone", [*paid(500, 17, approving(500, 17), undoing(18, 17), ABORTED)], [*paid(500, 17, approving(500, 17), undoing(18, 16), ABORTED)]),
    ("ApprovedThenUndone", [*paid(500, 17, approving(550, 17), undoing(None, 17), ABORTED), *paid(500, 19)], [*paid(500, 17, approving(500, 17), undoing(18, 17)), LOST]),
    ("ApprovedThenUndone", [*paid(500, 17, approving(500, 17), undoing(18, 17), undoing(19, 16), ABORTED)], [*paid(500, 17, approving(500, 17), undoing(17, 17), ABORTED)]),
    ("PaidAlike", [*paid_with(GIROCARD, 500, 1), *paid_with(VISA, 500, 2), *paid_with(GIROCARD, 500, 3)], [*paid_with(GIROCARD, 500, 1), *paid_with(VISA, 500, 2)]),
    ("PaidAlike", [*paid_with(VISA, 500, 1), *paid(500, 2), *paid_with(VISA, 500, 3)], [*paid_with(VISA, 500, 1), *paid_with(VISA, 700, 2), *paid_with(VISA, 500, 3)]),
    ("PaidAlike", [*paid_with(GIROCARD, 500, 1), *paid_with(GIROCARD, 500, 3), *reversed_by(2, *TAKEN_BACK)],
     [*paid_with(GIROCARD, 500, 1), *reversed_by(1, *TAKEN_BACK), *paid_with(GIROCARD, 500, 3)]),
    ("PaidAlike", [*paid_with(card("6726EEEE1234"), 500, 1), *paid_with(card("6726EEEE1234FF"), 500, 2)], [*paid_with(card("67261EEE1234"), 500, 1), *paid_with(card("67261EEE1234"), 500, 2)]),
    ("ReversalUnclear", [*paid(500, 1), *reversed_by(1, ACK), LOST], [*paid(500, 1), *reversed_by(1, ACK), LOST, *reversed_by(1, *TAKEN_BACK)]),
    ("ReversalUnclear", [*paid(500, 1), *reversed_by(1, ACK)], [*paid(500, 1), *reversed_by(7, ACK)]),
    ("ReversalElsewhere", [*paid(500, 1), *reversed_by(7, ACK)], [*paid(500, 1), *reversed_by(1, ACK)]),
    ("ReversalElsewhere", [*reversed_by(1, ACK, DONE)], [*reversed_by(1, ACK, message(ABORT, b"\x6C"))]),
    ("OtherUnclear", [*refunded(500), LOST], [*refunded(500, DONE)]),
    ("OtherUnclear", [*ordered(b"\x06\x25", bytes(3)), LOST], [*ordered(b"\x06\x25", bytes(3), message(ABORT, b"\x6C"))]),
    ("OtherUnclear", [*ordered(b"\x06\x01", b""), LOST], [*ordered(b"\x06\x70", b""), LOST]),
    ("TakenBackBefore", [*paid(500, 1), *reversed_by(1, message(ABORT, b"\xB4"))], [*paid(500, 1), *reversed_by(1, *TAKEN_BACK), *reversed_by(1, message(ABORT, b"\xB4"))]),
    ("ReversalRefused", [*paid(500, 1), *reversed_by(1, ACK, DECLINED, DONE)], [*paid(500, 1), *reversed_by(1, *TAKEN_BACK)]),
    ("CloseUnclear", [*closed(message(STATUS, b"\x04" + digits(500, 6)), DECLINED, message(STATUS, b"\x27\0"), DONE)], [*closed(message(STATUS, b"\x04" + digits(0, 6)), DONE)]),
    ("CloseRefused", [*closed(message(ABORT, b"\x6C"))], [*closed(message(STATUS, b"\x27\0"), DONE)]),
    ("CloseDiffers", [*paid(500, 1), *closed(totalled(400), DONE)], [*paid(500, 1), *closed(totalled(500), DONE)]),
    ("CloseDiffers", [*paid(500, 1), *closed(totalled(500), DONE), *paid(300, 2), *closed(totalled(800), DONE)],
     [*paid(500, 1), *closed(totalled(500), DONE), *paid(300, 2), *closed(totalled(300), DONE)]),
    ("CloseDiffers", [*paid(500, 1), *reversed_by(1, *TAKEN_BACK), *closed(by_card(0, 500), DONE)], [*paid(500, 1), *closed(by_card(200, 300), DONE)]),
    ("Refused", [("<", UNREADABLE)], [("<", message(STATUS, b"\x27\0"))]),
    ("Refused", [(">", message(b"\x06\x70", b"")), (">", UNREADABLE_ORDER)], paid(500, 1)),
    ("ApprovalUnreadable", [("<", UNREADABLE)], [("<", message(STATUS, b"\x27\x05\xF0\0"))]),
    ("ApprovalUnreadable", [registered(978), *paid(500, 1)[:2], ("<", approving(500, 1)[:-1]), LOST], [registered(978), *paid(500, 1)[:2], ("<", approving(500, 1)), LOST]),
    ("ApprovalUnreadable", [("<", message(STATUS, b"\x27\0\x04" + digits(500, 6) + b"\x0B" + digits(7, 3))[:-1])], [("<", message(STATUS, b"\x04" + digits(500, 6) + b"\x27\0")[:-1])]),
    ("ApprovalUnreadable", [("<", message(STATUS, b"\x27\0\x04" + bytes(5) + b"\xA0"))], [(">", UNREADABLE)]),
    ("ApprovalUnreadable", [("<", UNREADABLE[:2] + b"\xFF\x20\x01" + UNREADABLE[3:6])], [("<", UNREADABLE[:2] + b"\xFF\x20")]),
    ("ApprovalUnreadable", [("<", UNREADABLE)] * 21, [("<", DONE)]),
    ("CutOff", [(">", message(AUTHORISATION, b"\x04" + digits(500, 6))[:-1])], [(">", message(AUTHORISATION, b"\x04" + digits(500, 6)))]),
    ("CutOff", [("<", DONE[:1]), LOST], [("<", DONE[:1]), ("<", DONE[1:]), LOST]),
    ("Swapped", swapped([registered(978), *paid(500, 1), *closed(DONE)]), swapped([registered(978), *paid(500, 1), ("<", CANCEL)])),
    ("Swapped", [("<", CANCEL)], [("<", ABORTED), ("<", message(b"\x06\x20", bytes(3)))]),
    ("Swapped", [("<", UNREADABLE_ORDER), (">", message(b"\x06\x70", b""))], [("<", UNREADABLE_ORDER), (">", UNREADABLE_ORDER)]),
    ("Currencies", [registered(978), *paid(500, 1), registered(978), registered(36), registered(840)], [registered(978), *paid(500, 1), registered(None), registered(978)]),
    ("Currencies", [registered(None), registered(756), LOST, registered(978)], [registered(756), registered(978, "<"), (">", message(AUTHORISATION, b"\x04" + digits(500, 6) + b"\x49" + digits(978, 2)))]),
    ("MoreRefused", [("<", UNREADABLE)] * 20 + [("<", DONE[:2])], [("<", UNREADABLE)] * 20),
]


EXPLAINED = [
    ("an unclear payment", [*paid(500, 1, DONE), *closed(totalled(500), DONE)], [1]),
    ("two unclear payments of one amount", [*paid(500, 1, DONE), *paid(500, 2, DONE), *closed(totalled(500), DONE)], None),
    ("a payment and a refund", [*paid(500, 1, DONE), (">", message(b"\x06\x31", bytes(3) + b"\x04" + digits(200, 6))), ("<", ACK), ("<", DONE), *closed(totalled(300), DONE)], [1, 2]),
    ("an unclear reversal", [*paid(500, 1), *reversed_by(1, ACK), LOST, *closed(totalled(0), DONE)], [2]),
    ("a refund and an unclear payment", [*refunded(200, DONE), *paid(500, 1, DONE), *closed(totalled(300), DONE)], [1, 2]),
    ("two refunds and a top-up", [*refunded(200, DONE), *ordered(b"\x06\x09", b"\x04" + digits(50, 6), DONE), *refunded(300, DONE), *paid(500, 1), *closed(totalled(50), DONE)], [1, 2, 3]),
    ("four payments", [*(one for number in range(4) for one in paid(500 + number, number, DONE)), *closed(totalled(2006), DONE)], None),
]


def explanations():
    """What explains the difference of an end of day."""
    for name, said, wanted in EXPLAINED:
        trace = dialogue(*said)
        found = [json.loads(line)["close"] for line in run(["report", "--json"], trace)[1].splitlines() if line.startswith('{"close"')]
        check(f"{name}: what explains the difference", found[-1].get("explained_by"), wanted)
        check(f"{name}: that there is one", "differs" in found[-1], True)
        compared(name, trace)


def cases():
    for name, bringing, missing in CASES:
        for trace, wanted in ((dialogue(*bringing), True), (dialogue(*missing), False)):
            found = [json.loads(line)["look"]["case"] for line in run(["report", "--json"], trace)[1].splitlines() if line.startswith('{"look"')]
            check(f"{name} of {trace}", name in found, wanted)
            compared(f"the case {name}", trace)


def stored():
    """The texts and the objects of two days, as they are stored beside the traces."""
    for trace in sorted((TOP / "tests/data/report").glob("*.trace")):
        for words, kind in (([], ".txt"), (["--json"], ".jsonl")):
            found = run(["report", *words], trace.read_bytes())
            check(f"{kind} of {trace.name}", found, (found[0], trace.with_suffix(kind).read_text(), ""))


def book():
    """A till's book is a trace too."""
    kept = journal_dialogues.Dialogue()
    kept.registered()
    kept.paid(500, 1)
    kept.paid(700, 2)
    kept.reversing(1, 1)
    kept.hear(journal_model.status(500, 3, 3, original=1))
    kept.completed()
    compared("a book", kept.file())
    found = json.loads(run(["report", "--json"], kept.file())[1].splitlines()[0])["summary"]
    check("the net total of a book", (found["booked"], found["reversed"], found["net"]), (2, 1, 700))
    kept = journal_dialogues.Dialogue()
    journal_dialogues.noted(kept)
    compared("a book with times", kept.file())
    rows = [json.loads(line)["payment"] for line in run(["report", "--json"], kept.file())[1].splitlines() if line.startswith('{"payment"')]
    check("the times of a book", {row["time"] for row in rows if "time" in row}, {f"2026-11-28T09:{at}.000Z" for at in ("15:00", "20:41")})


def main():
    traces = {path.name: path.read_bytes() for folder in (EXAMPLES, EXAMPLES / "messages", TOP / "tests/data/report", TOP / "tests/data/real") for path in sorted(folder.glob("*.trace"))}
    chance = random.Random(SEED)
    traces.update({f"dialogue {at}": Day(random.Random(chance.random())).text() for at in range(DIALOGUES)})
    traces.update({f"marked dialogue {at}": marked(chance, Day(random.Random(chance.random())).text()) for at in range(MARKED)})
    traces.update({f"hostile trace {at}": random_traces.trace(random.Random(chance.random()), padded=at % 2, hostile=True) for at in range(HOSTILE)})
    with concurrent.futures.ThreadPoolExecutor(4) as pool:
        list(pool.map(lambda one: compared(*one), traces.items()))
    times()
    far_apart()
    cases()
    explanations()
    stored()
    book()
    print(f"{check.verdict}: {len(traces)} traces, {len(CASES)} cases, {check.count} comparisons")
    return check.status


if __name__ == "__main__":
    sys.exit(main())

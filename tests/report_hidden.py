#!/usr/bin/env python3
"""Replaces the bytes of traces that a report does not show, and compares the reports.

    tests/report_hidden.py [PROGRAM]

PROGRAM is the one that `rt ci` built, unless another is named. The traces are those of examples/, tests/data/report and
tests/data/real. Hidden are passwords, the contents of all fields but a few, the contents of objects, long numbers in printed texts, and the data
of acknowledgements and of messages that the profile does not name. The text and the JSON of a report stay the same, byte for
byte, whatever these bytes are. The status is 1 if a report differs, or if a byte that a report shows makes no difference.
"""
import random
import subprocess
import sys

import json_model
from common import EXAMPLES, TOP, Checks, program
from journal_model import ACK, AUTHORISATION, COMPLETION, STATUS, digits, message
from report_model import MOVES_MONEY, NUMBER, WITH_PASSWORD, is_masked

PROGRAM = program(sys.argv[1:])
SEED, ROUNDS, PASSWORD = 20261130, 3, 3
# A report shows, or judges by, the result code, the amount, the numbers of a payment, the currency, the totals by card, and the type
# and the name of the card. It shows the number of a card only if the terminal masked it.
SHOWN = {0x04, 0x0B, 0x27, 0x37, 0x49, 0x60, 0x87, 0x8A, 0x8B}
# Of a terminal's status and completion it shows the terminal too.
AMOUNT, CONTAINER, CARD_NUMBER, TERMINAL, NAMING, TEXT = 0x04, 0x06, 0x22, 0x29, ("040F", "060F"), "text"
LENGTH_DIGITS = {"LL": 2, "LLL": 3}
check = Checks()


def length_at(data, at):
    """The length of objects at this place, and where it ends."""
    first = data[at]
    if first < 0x80:
        return first, at + 1
    size = first - 0x80
    return int.from_bytes(data[at + 1:at + 1 + size], "big"), at + 1 + size


def objects(data, at, end, around=()):
    """The objects that hold no others: the tags around each, its own tag, and the places of its content."""
    while at < end:
        tag = at
        at += 1
        if data[tag] & 0x1F == 0x1F:
            while data[at] & 0x80:
                at += 1
            at += 1
        name = data[tag:at]
        size, at = length_at(data, at)
        if data[tag] & 0x20:
            yield from objects(data, at, at + size, (*around, name))
        else:
            yield around, name, range(at, at + size)
        at += size


def numbers(data, places):
    """The places of the digits of a printed text that a report hides."""
    for found in NUMBER.finditer(data, places.start, places.stop):
        digits = [at for at in range(*found.span()) if data[at] != 0x20 and data[at] not in b".-"]
        yield from digits[:-4] if len(digits) >= 13 else ()


def shown_objects(data, at, end):
    """The places in a text block whose objects a report shows: the type of the receipt, and the texts but for hidden digits."""
    for around, tag, places in objects(data, at, end):
        if tag == b"\x1F\x07":
            yield from places
        elif tag == b"\x07" and around == (b"\x25",):
            yield from set(places) - set(numbers(data, places))


def printed_numbers(data):
    """The places of hidden digits in a print line or a text block."""
    if data[:2] == b"\x06\xD1":
        return set(numbers(data, range(4 if data[2] < 0xFF else 6, len(data))))
    if data[:2] != b"\x06\xD3":
        return set()
    return {at for bmp, places in fields(data, 3 if data[2] < 0xFF else 5) if bmp == CONTAINER for around, tag, inner in objects(data, places[0], places[-1] + 1)
            if tag == b"\x07" and around == (b"\x25",) for at in numbers(data, inner)}


def fields(data, at):
    """The BMP of each field, with the places of its content."""
    while at < len(data):
        bmp, shape = data[at], json_model.FIELDS[data[at]][1]
        at += 1
        if shape == "TLV":
            size, at = length_at(data, at)
        else:
            digits = LENGTH_DIGITS.get(shape, 0)
            size = int("".join(str(byte & 15) for byte in data[at:at + digits])) if digits else shape
            at += digits
        yield bmp, list(range(at, at + size))
        at += size


def hidden(data):
    """The places of a message that a report does not show, each with what may stand there: any byte, two digits or a digit of a text."""
    control, start = data[:2].hex().upper(), 5 if data[2] == 0xFF else 3
    kind, first, has_fields = json_model.KINDS.get(control, ("Other", 0, False))
    if control in MOVES_MONEY:
        first, has_fields = PASSWORD if control in WITH_PASSWORD else 0, True
    password = {"0600", "0630", "0650"} | WITH_PASSWORD
    found = [(at, False) for at in range(start, start + PASSWORD)] if control in password and len(data) >= start + PASSWORD else []
    if kind == "PrintLine":
        return [(start, False), *((at, TEXT) for at in printed_numbers(data))]
    if not has_fields:
        return found + [(at, False) for at in range(start + (kind == "Abort"), len(data))]
    if control == "0600":
        first += 2
    for bmp, places in fields(data, start + first):
        if bmp == CARD_NUMBER:
            found += [] if is_masked(bytes(data[at] for at in places)) else [(at, True) for at in places]
        elif bmp == CONTAINER and places:
            inner = {at for _, _, content in objects(data, places[0], places[-1] + 1) for at in content}
            texts = printed_numbers(data)
            shown_here = set(shown_objects(data, places[0], places[-1] + 1)) if kind == "TextBlock" else set()
            found += [(at, TEXT if at in texts else False) for at in sorted(inner - shown_here)]
        elif bmp not in SHOWN and (bmp != TERMINAL or control not in NAMING):
            found += [(at, bmp in json_model.DIGITS) for at in places]
    return found


def shown(data):
    """The last bytes of the amounts of a message."""
    if data[:2].hex().upper() not in ("0601", "040F"):
        return []
    return [(places[-1], True) for bmp, places in fields(data, 5 if data[2] == 0xFF else 3) if bmp == AMOUNT]


class Trace:
    """A trace, its bytes by line, and the whole messages in them."""

    def __init__(self, text):
        self.rows, self.messages, self.pieces = text.splitlines(), [], {}
        self.begin()
        for at, row in enumerate(self.rows):
            if row[:1] == b"!":
                self.begin()
            elif row[:1] in self.held:
                self.pieces[at] = bytearray(json_model.bytes_of(at + 1, row))
                self.held[row[:1]] += [(at, place) for place in range(len(self.pieces[at]))]
                self.take(row[:1])

    def begin(self):
        self.held = {b">": [], b"<": []}

    def take(self, side):
        """Takes the whole messages off what is held of a side."""
        held = self.held[side]
        while len(held) >= 3:
            data = self.data(held)
            if data[2] == 0xFF and len(data) < 5:
                return
            size = 5 + int.from_bytes(data[3:5], "little") if data[2] == 0xFF else 3 + data[2]
            if len(held) < size:
                return
            self.messages.append(held[:size])
            del held[:size]

    def data(self, places):
        return bytes(self.pieces[at][place] for at, place in places)

    def replaced(self, chance, found):
        """The trace with other bytes at the places that are found in its messages, and how many there are."""
        other, count = {at: bytearray(piece) for at, piece in self.pieces.items()}, 0
        for places in self.messages:
            try:
                for index, allowed in found(self.data(places)):
                    at, place = places[index]
                    other[at][place] = chance.randrange(0x30, 0x3A) if allowed == TEXT else int(f"{chance.randrange(100):02}", 16) if allowed else chance.randrange(256)
                    count += 1
            except (IndexError, KeyError, ValueError):
                continue
        rows = [row[:1] + b" " + other[at].hex().encode() if at in other else row for at, row in enumerate(self.rows)]
        return b"\n".join(rows) + b"\n", count


def payment_with(number):
    """A payment with this card number."""
    status = b"\x27\0\x04" + digits(500, 6) + b"\x22\xF0\xF8" + bytes.fromhex(number) + b"\x0B" + digits(17, 3) + b"\x87" + digits(17, 2) + b"\x8B\xF0\xF4VISA"
    said = ((">", message(AUTHORISATION, b"\x04" + digits(500, 6))), ("<", ACK), ("<", message(STATUS, status)), ("<", message(COMPLETION)))
    return "".join(f"{sign} {one.hex()}\n" for sign, one in said).encode()


def printed_with(number):
    """A print line and a text block with this number."""
    line = b"Karte " + number + b" OK"
    texts = b"\x07" + bytes([len(line)]) + line
    block = b"\x1F\x07\x01\x02\x25" + bytes([len(texts)]) + texts
    said = (("<", message(b"\x06\xD1", b"\0" + line)), (">", ACK), ("<", message(b"\x06\xD3", b"\x06" + bytes([len(block)]) + block)))
    return "".join(f"{sign} {one.hex()}\n" for sign, one in said).encode()


def reports(trace):
    found = [subprocess.run([PROGRAM, "report", *words], input=trace, capture_output=True, timeout=60) for words in ([], ["--json"])]
    return [(one.returncode, one.stdout) for one in found]


def main():
    chance, bytes_hidden, shows = random.Random(SEED), 0, 0
    folders = (EXAMPLES, EXAMPLES / "messages", TOP / "tests/data/report", TOP / "tests/data/real")
    traces = {path.name: path.read_bytes() for folder in folders for path in sorted(folder.glob("*.trace"))}
    traces["a card number"], masked = payment_with("4761739001010010"), payment_with("4761EEEEEEEE0010")
    traces["printed numbers"], short = printed_with(b"4761 7390 0101 0010"), printed_with(b"476173900101")
    said = reports(traces["printed numbers"])[1][1]
    check("a printed number", (said.count(b"Karte **** **** **** 0010 OK"), said.count(b"slip")), (2, 2))
    check("a short number", reports(short)[1][1].count(b"Karte 476173900101 OK"), 2)
    check("its hidden digits", [len(printed_numbers(Trace(one).data(places))) for one in (traces["printed numbers"], short) for places in Trace(one).messages], [12, 0, 12, 0, 0, 0])
    check("reports show masked card numbers alone", b"..0010" in reports(masked)[0][1] and b"0010" not in reports(traces["a card number"])[0][1], True)
    for name, text in traces.items():
        trace, wanted = Trace(text), reports(text)
        for number in range(ROUNDS):
            other, count = trace.replaced(chance, hidden)
            bytes_hidden += count
            check(f"{name} with other hidden bytes, {number}", reports(other), wanted)
        shows += reports(trace.replaced(chance, shown)[0]) != wanted
    check("reports show amounts", shows > len(traces) / 3, True)
    print(f"report_hidden: {len(traces)} traces, {bytes_hidden} hidden bytes replaced, {shows} traces with other amounts differ; {check.verdict}")
    return check.status


if __name__ == "__main__":
    sys.exit(main())

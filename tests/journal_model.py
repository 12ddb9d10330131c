#!/usr/bin/env python3
"""A model of a journal, written after docs/FORMAT.md and the standard alone: no code of the program was looked at.

`book_of` reads the bytes of a journal's file, whatever a crash left, and answers the book: entries with their marks, unclear
payments, unclear reversals, the total. `Writer` makes records and the calls that append them. With files as arguments
it writes the book of each, as `zvt book` does.
"""
import dataclasses
import hashlib
import re
import sys

FORMAT = b"# zvt journal 1"
# How the first line ends if reversals go by their receipt numbers.
BY_RECEIPT = b", reversals by receipt"
ACK = bytes.fromhex("800000")
REGISTRATION, AUTHORISATION, REVERSAL, END_OF_DAY, CANCEL = b"\x06\x00", b"\x06\x01", b"\x06\x30", b"\x06\x50", b"\x06\xB0"
STATUS, COMPLETION, ABORT = b"\x04\x0F", b"\x06\x0F", b"\x06\x1E"
ASK = bytes.fromhex("062003000000")  # repeat receipt, with its password masked
NACK, ALREADY_REVERSED = 0x84, 0xB4
WITH_PASSWORD = (REGISTRATION, REVERSAL, END_OF_DAY)

# The BMPs of a fixed size, the ones with a length of digits, and the container, after the table of fields.
SIZES = {
    1: (0x01, 0x02, 0x03, 0x05, 0x19, 0x27, 0x8A, 0x8C, 0xA0),
    2: (0x0E, 0x0D, 0x17, 0x3A, 0x49, 0x87),
    3: (0x0B, 0x0C, 0x37, 0x3D, 0x88, 0xAA),
    4: (0x29,), 5: (0xBA,), 6: (0x04,), 8: (0x3B,), 15: (0x2A,),
}
SIZE_OF = {bmp: size for size, bmps in SIZES.items() for bmp in bmps}
LL, LLL, CONTAINER = (0x22, 0x23, 0x2D, 0x8B, 0xA7), (0x24, 0x2E, 0x3C, 0x60, 0x92, 0x9A, 0xAF), 0x06
RESULT, AMOUNT, TRACE, CURRENCY, RECEIPT, ORIGINAL = 0x27, 0x04, 0x0B, 0x49, 0x87, 0x37


# What an order's comment may have behind the order: when it was given, and a reference.
NOTE = re.compile(rb"(?: at \d{4}-\d\d-\d\dT\d\d:\d\d:\d\dZ)?(?: ref [!-~]{1,40})?\Z")


class NoJournal(ValueError):
    """The file is no journal, or its records are none of a till."""


# ---- messages

def digits(number, size):
    """A number in so many bytes, two decimal digits in each."""
    return bytes.fromhex(f"{number:0{2 * size}}")


def message(control, data=b""):
    """A message in its shortest form."""
    length = bytes([len(data)]) if len(data) < 255 else b"\xFF" + len(data).to_bytes(2, "little")
    return control + length + data


def data_of(apdu):
    """The data of a message that is whole."""
    start, size = (3, apdu[2]) if apdu[2] < 255 else (5, int.from_bytes(apdu[3:5], "little"))
    if len(apdu) != start + size:
        raise NoJournal(f"this is not one message: {apdu.hex()}")
    return apdu[start:]


def object_length(data):
    """The length at the start, and how many bytes it has itself."""
    if data[0] < 0x80:
        return data[0], 1
    size = data[0] - 0x80
    return int.from_bytes(data[1:1 + size], "big"), 1 + size


def fields_of(data):
    """The contents of each BMP, in order."""
    found = {}
    while data:
        bmp, rest = data[0], data[1:]
        if bmp in SIZE_OF:
            head, size = 0, SIZE_OF[bmp]
        elif bmp == CONTAINER:
            size, head = object_length(rest)
        else:
            head = 2 if bmp in LL else 3
            size = int("".join(str(byte - 0xF0) for byte in rest[:head]))
        found.setdefault(bmp, []).append(rest[head:head + size])
        data = rest[head + size:]
    return found


def only(found, bmp):
    """What is said of a BMP: it appears exactly once, else nothing is."""
    return found[bmp][0] if len(found.get(bmp, [])) == 1 else None


def number_of(content):
    """The number that is spelled, if there is a content, and all of it is digits."""
    return int(content.hex()) if content is not None and content.hex().isdigit() else None


# ---- the book

@dataclasses.dataclass
class Entry:
    """A booked payment. `doubt` is what its reversals leave open: nothing, a cause, or that the terminal said B4. `note` is what
    the record of the order says behind the order: its time and its reference."""
    amount: int
    trace: int
    receipt: object  # two bytes, or none
    note: str = ""
    reversed: bool = False
    doubt: object = None


@dataclasses.dataclass
class Book:
    currency: int = 978  # of a file without a record: that of a new till
    entries: list = dataclasses.field(default_factory=list)
    unclear: list = dataclasses.field(default_factory=list)  # an amount and a cause each
    heard: list = dataclasses.field(default_factory=list)  # of each unclear payment: the trace number and the receipt number
    notes: list = dataclasses.field(default_factory=list)  # of each unclear payment
    settled: list = dataclasses.field(default_factory=list)  # a name, a place from 0, and of a paid one its numbers

    def total(self):
        return sum(entry.amount for entry in self.entries if not entry.reversed)

    def booked(self):
        return sum(entry.amount for entry in self.entries)

    def settled_total(self):
        """What was settled as paid, but for the numbers that an entry has."""
        booked = {entry.trace for entry in self.entries}
        return sum(self.unclear[place][0] for name, place, *numbers in self.settled if name == "Paid" and numbers[0] not in booked)

    def unclear_reversals(self):
        """Place from 1 and cause of each entry whose last reversal is unclear."""
        return [(place, entry.doubt) for place, entry in enumerate(self.entries, 1) if entry.doubt not in (None, "B4")]


class Order:
    """An order that runs: its kind, its number, its note, and what was heard of it."""

    def __init__(self, kind, number, note):
        self.kind, self.number, self.note, self.statuses = kind, number, note, []


def cause_of(statuses, amount, currency, original, sole=None):
    """Why an order that was completed, and that no status declines, is unclear; none if it is done. `sole` is the receipt number from
    which the one of a status that names no payment must differ to take a reversal, if the book has this rule."""
    if not statuses:
        return "NoStatus"
    originals = {bytes(content) for found in statuses for content in found.get(ORIGINAL, [])}
    results = {only(found, RESULT) for found in statuses}
    traces = {only(found, TRACE) for found in statuses}
    if len(results) != 1 or None in results or (original is None and (originals or len(traces) != 1)):
        return "Conflict"
    if any(number_of(only(found, AMOUNT)) != amount for found in statuses):
        return "AmountDiffers"
    if any(number_of(content) != currency for found in statuses for content in found.get(CURRENCY, [])):
        return "WrongCurrency"
    if original is not None and not all(takes_back(found, original, sole) for found in statuses):
        return "NoTrace"
    return None


def takes_back(found, original, sole):
    """A status names the payment with this trace number, or it names none and has another receipt number than `sole`."""
    if ORIGINAL in found:
        return number_of(only(found, ORIGINAL)) == original
    receipt = only(found, RECEIPT)
    return sole is not None and number_of(receipt) is not None and receipt != sole


def is_remark(line):
    """A comment of a person: its first word, which is letters, is none of an order, an ask or the opening."""
    return line[:2] == b"# " and re.match(rb"(register|pay|reverse|close|cancel|ask|zvt)(?![A-Za-z])", line[2:]) is None


class Settling:
    """What the terminal's answers to asks say about unclear orders."""

    def __init__(self, book):
        self.book, self.statuses = book, []
        self.last = None  # the status of the terminal's last transaction, if it is known
        self.pending = None  # the kind and the place of an unclear order, and the status before it
        self.asking = None  # whether the terminal has accepted the running ask, if one is running

    def sent(self, kind):
        if kind != "cancel":
            self.statuses = []
        if kind in ("pay", "reverse", "close"):
            self.pending = None
        if kind == "close":
            self.last = None

    def one(self):
        """The only status since the last order or ask, if it names a trace number."""
        alike = {facts_of(found) for found in self.statuses}
        return self.statuses[0] if len(alike) == 1 and number_of(only(self.statuses[0], TRACE)) is not None else None

    def done(self):
        self.last = self.one()

    def unclear(self, kind, place):
        self.pending = None if self.last is None else (kind, place, self.last)
        self.last = None

    def answered(self, how):
        answer = self.one() if how == "completed" else None
        self.asking = None
        if answer is None:
            return
        if self.pending is not None:
            decided = self.decided(answer, *self.pending)
            self.book.settled += [] if decided is None else [decided]
        self.last, self.pending = answer, None

    def decided(self, answer, kind, place, before):
        if facts_of(answer) == facts_of(before):
            return ("NotPaid" if kind == "pay" else "NotReversed", place)
        amount = self.book.unclear[place][0] if kind == "pay" else self.book.entries[place].amount
        trace, original = number_of(only(answer, TRACE)), number_of(only(answer, ORIGINAL))
        if only(answer, RESULT) != b"\0" or number_of(only(answer, AMOUNT)) != amount:
            return None
        if any(number_of(content) != self.book.currency for content in answer.get(CURRENCY, [])):
            return None
        if kind == "reverse":
            return ("Reversed", place) if original == self.book.entries[place].trace else None
        used = [entry.trace for entry in self.book.entries] + [row[2] for row in self.book.settled if row[0] == "Paid"]
        return None if ORIGINAL in answer or trace in used else ("Paid", place, trace, only(answer, RECEIPT))


def facts_of(found):
    """What two statuses of the same transaction have alike."""
    return tuple(tuple(found.get(bmp, [])) for bmp in (RESULT, AMOUNT, TRACE, RECEIPT, ORIGINAL, CURRENCY))


class Reader:
    """Goes over the records of a journal in order."""

    def __init__(self, currency, by_receipt):
        self.book, self.by_receipt = Book(currency), by_receipt
        self.settling = Settling(self.book)
        self.running, self.announced, self.remarked = None, None, False

    def read(self, line):
        remarked, self.remarked = self.remarked, is_remark(line)
        if remarked and line[:1] == b">":
            raise NoJournal(f"bytes that were sent behind a remark: {line}")
        if self.remarked:
            return
        if line == b"!":
            self.ends("lost")
        elif line[:1] == b"#":
            self.comment(line)
        elif line[:1] in (b"<", b">"):
            piece = bytes.fromhex(line[1:].decode("ascii"))
            (self.heard if line[:1] == b"<" else self.sent)(piece)
        else:
            raise NoJournal(f"this is no line of a journal: {line}")

    def comment(self, line):
        order = NOTE.sub(b"", line)
        words, note = order[1:].split(), line[len(order):].decode()
        kinds = {b"register": 0, b"pay": 1, b"reverse": 1, b"close": 0, b"cancel": 0, b"ask": 0}
        if not words or kinds.get(words[0]) != len(words) - 1:
            raise NoJournal(f"this comment is no order: {words}")
        number = int(words[1]) if len(words) == 2 else None
        self.announced = Order(words[0].decode(), number, note)

    def sent(self, apdu):
        """A message of the till: an order's, which its line before has announced, or an answer."""
        order, self.announced = self.announced, None
        if order is None:
            if apdu[:1] not in (ACK[:1], b"\x84"):
                raise NoJournal(f"no line before it says which order this is: {apdu.hex()}")
            return
        self.agree(order, apdu)
        if self.settling.asking is not None:
            raise NoJournal(f"an ask is running: {apdu.hex()}")
        if order.kind == "ask":
            self.settling.asking, self.settling.statuses = False, []
            return
        self.settling.sent(order.kind)
        if order.kind != "cancel":
            self.ends("lost")
            self.running = order

    def agree(self, order, apdu):
        """The line that announces an order, and its message, say the same."""
        wanted = {"register": REGISTRATION, "pay": AUTHORISATION, "reverse": REVERSAL, "close": END_OF_DAY, "cancel": CANCEL, "ask": ASK[:2]}
        data = data_of(apdu)
        holds = apdu[:2] == wanted[order.kind]
        if apdu[:2] in WITH_PASSWORD:
            holds = holds and data[:3] == bytes(3)
        if order.kind == "pay":
            holds = holds and number_of(only(fields_of(data), AMOUNT)) == order.number
        if order.kind == "ask":
            holds = apdu == ASK
        if order.kind == "reverse":
            entry = self.book.entries[order.number - 1]
            holds = holds and only(fields_of(data[3:]), RECEIPT) == entry.receipt
        if not holds:
            raise NoJournal(f"{order.kind} {order.number} is not what was sent: {apdu.hex()}")

    def heard(self, apdu):
        data = data_of(apdu)
        if apdu[:2] == STATUS:
            self.settling.statuses.append(fields_of(data))
        if self.settling.asking is not None:
            self.ask_heard(apdu)
            return
        if self.running is None:
            return
        if apdu[:2] == STATUS:
            self.running.statuses.append(fields_of(data))
        elif apdu[:2] == COMPLETION:
            self.ends("completed")
        elif apdu[:2] == ABORT:
            self.ends("given up", data[0])
        elif apdu[0] == NACK:
            self.ends("given up", apdu[1])

    def ask_heard(self, apdu):
        """A message while an ask is running."""
        if apdu[:2] == COMPLETION:
            self.settling.answered("completed")
        elif apdu[:2] == ABORT or (apdu[0] == NACK and not self.settling.asking):
            self.settling.answered("given up")
        elif apdu[:1] == ACK[:1]:
            self.settling.asking = True

    def ends(self, how, code=None):
        self.settling.asking = None
        order, self.running = self.running, None
        if order is None or order.kind not in ("pay", "reverse"):
            return
        results = [only(found, RESULT) for found in order.statuses]
        approved = b"\0" in results
        if how == "completed" and results and not approved and None not in results and len(set(results)) == 1:
            return  # declined
        if how == "given up" and not approved:
            if order.kind == "reverse" and code == ALREADY_REVERSED:
                self.book.entries[order.number - 1].doubt = "B4"
            return
        (self.end_payment if order.kind == "pay" else self.end_reversal)(order, how)

    def end_payment(self, order, how):
        cause = {"lost": "Line", "given up": "AbortAfterApproval"}.get(how)
        cause = cause or cause_of(order.statuses, order.number, self.book.currency, None)
        if cause is None:
            trace = number_of(only(order.statuses[0], TRACE))
            receipt = only(order.statuses[0], RECEIPT)
            if trace is None:
                cause = "NoTrace"
            elif trace in [entry.trace for entry in self.book.entries]:
                cause = "TraceUsed"
        if cause is None:
            self.book.entries.append(Entry(order.number, trace, receipt, order.note))
            self.settling.done()
        else:
            self.book.unclear.append((order.number, cause))
            self.book.heard.append(last_named(order))
            self.book.notes.append(order.note)
            self.settling.unclear("pay", len(self.book.unclear) - 1)

    def end_reversal(self, order, how):
        entry = self.book.entries[order.number - 1]
        cause = {"lost": "Line", "given up": "AbortAfterApproval"}.get(how)
        cause = cause or cause_of(order.statuses, entry.amount, self.book.currency, entry.trace, self.sole_receipt(entry))
        entry.doubt = cause
        entry.reversed = entry.reversed or cause is None
        if cause is None:
            self.settling.done()
        else:
            self.settling.unclear("reverse", order.number - 1)

    def sole_receipt(self, entry):
        """The receipt number of an entry whose amount no other payment has, if the book has the rule on receipt numbers."""
        amounts = [other.amount for other in self.book.entries] + [amount for amount, _cause in self.book.unclear]
        return entry.receipt if self.by_receipt and amounts.count(entry.amount) == 1 else None


def last_named(order):
    """The trace number and the receipt number that the statuses of an order name, each the last one."""
    trace = receipt = None
    for found in order.statuses:
        trace = number_of(only(found, TRACE)) if number_of(only(found, TRACE)) is not None else trace
        receipt = only(found, RECEIPT) or receipt
    return trace, receipt


def recovered(file):
    """What a journal's file stands for: its whole lines up to the first empty one."""
    end = 0
    while (feed := file.find(b"\n", end)) > end:
        end = feed + 1
    return file[:end]


def reader_of(file):
    """What was read of all records of a journal's file; none where it has no record yet."""
    text = recovered(file)
    lines = text.split(b"\n")[:-1]
    if not lines:
        if len(file) > 1 and file[:1] != b"\n":
            raise NoJournal("there is no whole line")
        return None
    opening = re.fullmatch(FORMAT + rb", currency (\d{1,4})(" + BY_RECEIPT + rb")?", lines[0])
    if opening is None:
        raise NoJournal("the first line is none of a journal")
    reader, covered = Reader(int(opening[1]), opening[2] is not None), lines[0] + b"\n"
    for line in lines[1:]:
        if line.startswith(b"#= "):
            if line[3:] != check_of(covered):
                raise NoJournal(f"this is not the check of the lines before it: {line}")
            covered, reader.remarked = b"", False
            continue
        covered = (covered if line.startswith(b">") else b"") + line + b"\n"
        try:
            reader.read(line)
        except (ValueError, IndexError, KeyError) as error:
            raise NoJournal(f"no till wrote this line: {line}") from error
    return reader


def book_of(file):
    """The book of a journal's file after its till was lost: an order that ran is unclear."""
    reader = reader_of(file)
    if reader is None:
        return Book()
    reader.ends("lost")
    return reader.book


def running_in(file):
    """The kind of the order that runs at the end of a journal's file, if one does."""
    reader = reader_of(file)
    return reader.running.kind if reader and reader.running else None


# ---- writing

def check_of(lines):
    """The check of a record's lines."""
    return hashlib.sha256(lines).hexdigest()[:8].upper().encode()


def checked(lines):
    """A record: lines and their check."""
    return lines + b"#= " + check_of(lines) + b"\n"


def spelled(sign, apdu):
    return sign + b" " + apdu.hex().upper().encode() + b"\n"


class Writer:
    """The records of a journal, and the file with them. `steps` has the calls of each append, in order."""

    def __init__(self, currency=978, by_receipt=False):
        self.currency = currency
        self.records = [b"%s, currency %d%s\n" % (FORMAT, currency, BY_RECEIPT if by_receipt else b"")]
        self.note = ""  # of the next order

    def order(self, words, apdu):
        note, self.note = self.note, ""
        self.records.append(checked(b"# " + words.encode() + note.encode() + b"\n" + spelled(b">", apdu)))

    def register(self):
        self.order("register", message(REGISTRATION, bytes(3) + b"\xBE" + digits(self.currency, 2)))

    def pay(self, amount):
        fields = b"\x04" + digits(amount, 6) + b"\x49" + digits(self.currency, 2)
        self.order(f"pay {amount}", message(AUTHORISATION, fields))

    def reverse(self, place, receipt):
        self.order(f"reverse {place}", message(REVERSAL, bytes(3) + b"\x87" + receipt))

    def close(self):
        self.order("close", message(END_OF_DAY, bytes(3)))

    def cancel(self):
        self.order("cancel", message(CANCEL))

    def ask(self):
        self.order("ask", ASK)

    def hear(self, apdu, answer=ACK):
        self.records.append(checked(spelled(b"<", apdu) + (spelled(b">", answer) if answer else b"")))

    def lost(self):
        self.records.append(checked(b"!\n"))

    def remark(self, words):
        """A line of a person."""
        self.records.append(b"# " + words.encode() + b"\n")

    def file(self, count=None):
        """The file at rest, with all records or so many first ones."""
        return b"".join(self.records[:count]) + b"\n"


def calls_of(file, record):
    """The calls that append a record to a file at rest: a write behind the gate, a sync, the gate's byte, a sync."""
    gate = len(file) - 1
    return [("write", gate + 1, record[1:] + b"\n"), ("sync",), ("set", gate, record[0]), ("sync",)]


def status(amount, trace, receipt=None, currency=None, original=None, result=0):
    """Status information with these fields."""
    data = bytes([RESULT, result, AMOUNT]) + digits(amount, 6)
    for bmp, number, size in ((TRACE, trace, 3), (ORIGINAL, original, 3), (RECEIPT, receipt, 2), (CURRENCY, currency, 2)):
        data += b"" if number is None else bytes([bmp]) + digits(number, size)
    return message(STATUS, data)


# ---- the command line

def heard_text(trace, receipt):
    number = "-" if receipt is None else receipt.hex().upper()
    if trace is None:
        return "" if receipt is None else f" receipt {number}"
    return f" trace {trace:06} receipt {number}"


def text_of(book):
    """The lines that `zvt book` writes."""
    lines = []
    for entry in book.entries:
        mark = {None: "", "B4": " taken back"}.get(entry.doubt, f" reversal unclear {entry.doubt}")
        mark = " reversed" + mark if entry.reversed else mark
        receipt = "-" if entry.receipt is None else entry.receipt.hex().upper()
        lines.append(f"booked {entry.amount} trace {entry.trace:06} receipt {receipt}{mark}{entry.note}")
    rows = zip(book.unclear, book.heard, book.notes)
    lines += [f"unclear {amount} {cause}{heard_text(*heard)}{note}" for (amount, cause), heard, note in rows]
    lines += [settled_text(*row) for row in book.settled]
    lines += [f"settled as paid {book.settled_total()}"] if book.settled_total() else []
    return "\n".join(lines + [f"total {book.total()}"])


def settled_object(name, place, *numbers):
    """The object of a settlement."""
    members = {"name": name, ("unclear" if name in ("Paid", "NotPaid") else "booked"): place + 1}
    if numbers:
        trace, receipt = numbers
        members.update({"trace": trace} if receipt is None else {"trace": trace, "receipt": receipt.hex().upper()})
    return {"settled": members}


def settled_text(name, place, *numbers):
    kind = "unclear" if name in ("Paid", "NotPaid") else "booked"
    return f"settled {kind} {place + 1} {name}{heard_text(*numbers) if numbers else ''}"


def main():
    for path in sys.argv[1:]:
        with open(path, "rb") as file:
            print(text_of(book_of(file.read())))
    return 0


if __name__ == "__main__":
    sys.exit(main())

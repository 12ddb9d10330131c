#!/usr/bin/env python3
"""Answers the orders of `zvt till` with given bytes, and compares the outcomes, the fault, what the till sends, its trace and its
book with rows that are worked by hand from docs/FORMAT.md. Last come 60 runs with answers by chance, whose audits say what the
till says.

    tests/answered_till.py [PROGRAM]

PROGRAM is the one that `rt ci` built, unless another is named. The status is 1 where anything is not as expected. It takes 20
seconds.
"""
import collections
import os
import pathlib
import random
import re
import socket
import subprocess
import sys
import tempfile
import threading

from common import Checks, program, unmarked

PROGRAM = program(sys.argv[1:])
SECONDS = 60
HOST = "127.0.0.1"
REGISTRATION = "06 00 06 00 00 00 BE 09 78"
PAYMENT = "06 01 0A 04 00 00 00 00 12 34 49 09 78"
REVERSAL = "06 30 06 00 00 00 87 00 05"
ACK, COMPLETION, NACK = "80 00 00", "06 0F 00", "84 83 00"
REFUSED, ABORT, DECLINED = "84 6C 00", "06 1E 01 6C", "04 0F 02 27 6C"
# No message begins so.
MALFORMED = "06 01 02 D0"
# An order that the till doesn't know.
UNKNOWN = "05 01 02 AB CD"


def status(units, trace=None, *fields):
    """A status with the result 00, these cents, this trace number and these fields."""
    digits = f"2700 04{units:012}" + (f"0B{trace:06}" if trace is not None else "") + "".join(fields)
    data = bytes.fromhex(digits)
    return f"040F{len(data):02X} {digits}"


RECEIPT = "870005"
APPROVED, APPROVED_NEXT, APPROVED_ELSE = status(1234, 17, RECEIPT), status(1234, 2), status(1235, 3)
TAKEN_BACK = status(1234, 18, "870006", "37000017")
# What a terminal says to an order: as it should, or with something repeated, left out, refused, unknown, malformed or about
# another amount.
COURSES = [
    [ACK, COMPLETION], [ACK, APPROVED, COMPLETION], [ACK, APPROVED_NEXT, "06 D1 03 00 4F 4B", COMPLETION], [ACK, APPROVED, APPROVED, COMPLETION],
    [APPROVED_NEXT, COMPLETION], [ACK, APPROVED, APPROVED_NEXT, COMPLETION], [ACK, APPROVED_ELSE, COMPLETION], [ACK, DECLINED, ABORT],
    [ACK, APPROVED, ABORT], [REFUSED], [ACK, UNKNOWN, APPROVED_NEXT, COMPLETION], [ACK, APPROVED, MALFORMED], [ACK, COMPLETION, APPROVED, COMPLETION],
    [COMPLETION, MALFORMED],
]
PAID, NEXT = "paid trace 000017 receipt 0005", "paid trace 000018 receipt 0006"
ABORTED = "aborted 6C abort by time-out or abort key"
CLOSED = "zvt: connection failed: the other end closed the connection after {} bytes of a message"
REGISTERS = ("register", f"{ACK} {COMPLETION}", "registered")
PAYS = ("pay:1234", f"{ACK} {APPROVED} {COMPLETION}", PAID)
BOOKED = "booked 1234 trace 000017 receipt 0005"
# A run: its name, each step with what is answered, if it is sent, and its outcome, and the total.
RUNS = [
    ("a payment that is taken back once", [
        REGISTERS, PAYS, ("reverse:2", None, "not sent: UnknownEntry"), ("reverse:1", f"{ACK} {TAKEN_BACK} {COMPLETION}", "reversed"),
        ("reverse:1", None, "not sent: AlreadyReversed"), (*PAYS[:2], "unclear TraceUsed"),
    ], 0),
    ("an approval that is repeated, one that comes late, and the next one", [
        REGISTERS, ("pay:1234", f"{ACK} {APPROVED} {APPROVED} {COMPLETION}", PAID), (*PAYS[:2], "unclear TraceUsed"),
        ("pay:1234", f"{ACK} {status(1234, 18, '870006')} {COMPLETION}", NEXT),
    ], 2468),
    ("what leaves a payment unclear", [
        REGISTERS, ("pay:1234", f"{ACK} {status(1234, 17, '490840')} {COMPLETION}", "unclear WrongCurrency"),
        ("pay:1234", f"{ACK} {APPROVED} {ABORT}", "unclear AbortAfterApproval"), ("pay:1234", f"{ACK} {status(1235, 17)} {COMPLETION}", "unclear AmountDiffers"),
        ("pay:1234", f"{ACK} {status(1234, 18, '37000017')} {COMPLETION}", "unclear Conflict"), ("pay:1234", f"{ACK} {COMPLETION}", "unclear NoStatus"),
        ("pay:1234", f"{APPROVED} {REFUSED}", "unclear AbortAfterApproval"), ("close", f"{ACK} {COMPLETION}", "day closed"),
    ], 0),
    ("a refusal before a payment is taken up, and one after it", [
        REGISTERS, ("pay:1234", REFUSED, "refused 6C abort by time-out or abort key"), ("pay:1234", f"84 00 00 {APPROVED} {NACK} {COMPLETION}", PAID),
    ], 1234),
    ("an approval in the currency of the till", [
        REGISTERS, ("pay:1234", f"{ACK} {status(1234, 17, '490978')} {COMPLETION}", "paid trace 000017 receipt -"),
    ], 1234),
    ("each trace number twice", [
        REGISTERS, *[
            ("pay:1234", f"{ACK} {status(1234, number, RECEIPT)} {COMPLETION}", outcome) for number in (0, 999999, 63, 64, 999936)
            for outcome in (f"paid trace {number:06} receipt 0005", "unclear TraceUsed")
        ],
    ], 5 * 1234),
    ("an order that is strange, at the end of a day", [REGISTERS, ("close", f"{ACK} {UNKNOWN} {COMPLETION}", "day closed")], 0),
    ("a reversal that is aborted", [REGISTERS, PAYS, ("reverse:1", f"{ACK} {ABORT}", ABORTED)], 1234),
]
# The data of each is invalid, and its length says where it ends. An open till goes on behind it.
UNREAD_STATUS, UNREAD_COMPLETION, UNREAD_ABORT, UNREAD_LINE = "04 0F 02 D0 00", "06 0F 02 D0 00", "06 1E 00", "06 D1 00"
OPEN_RUNS = [
    ("an invalid status", [REGISTERS, ("pay:1234", f"{ACK} {UNREAD_STATUS} {COMPLETION}", "unclear Conflict"), PAYS], 1234),
    ("an invalid status beside an approval", [REGISTERS, ("pay:1234", f"{ACK} {APPROVED} {UNREAD_STATUS} {COMPLETION}", "unclear Conflict")], 0),
    ("an invalid completion", [REGISTERS, ("pay:1234", f"{ACK} {APPROVED} {UNREAD_COMPLETION}", PAID)], 1234),
    ("an invalid abort", [REGISTERS, ("pay:1234", f"{ACK} {UNREAD_ABORT}", "aborted FF system error"), PAYS], 1234),
    ("an invalid abort after an approval", [REGISTERS, ("pay:1234", f"{ACK} {APPROVED} {UNREAD_ABORT}", "unclear AbortAfterApproval")], 0),
]
# Those that an open till may meet. One that is cut off is left out: it takes the beginning of the next answer.
OPEN_COURSES = [
    *(course for course in COURSES if MALFORMED not in course), [ACK, UNREAD_STATUS, COMPLETION],
    [ACK, APPROVED, UNREAD_LINE, UNREAD_COMPLETION], [ACK, APPROVED_NEXT, UNREAD_ABORT],
]
# What ends a reversal and leaves its payment's doubt as it was: the answer, and the outcome.
NO_CHANGES = [
    (f"{ACK} {DECLINED} {COMPLETION}", "declined 6C abort by time-out or abort key"), (f"{ACK} {ABORT}", ABORTED),
    (REFUSED, "refused 6C abort by time-out or abort key"),
]
# A status without a result code, and one with several.
UNNAMED, SEVERAL = "04 0F 00", "04 0F 04 27 00 27 00"
# An end of day: what is answered, and its outcome strictly and with --close-by-completion.
CLOSES = [
    ("no status", COMPLETION, "day closed", "day closed"),
    ("no result code", f"{UNNAMED} {COMPLETION}", "unclear Conflict", "day closed"),
    ("no result code, twice", f"{UNNAMED} {UNNAMED} {COMPLETION}", "unclear Conflict", "day closed"),
    ("no result code, then 00", f"{UNNAMED} 04 0F 02 27 00 {COMPLETION}", "unclear Conflict", "day closed"),
    ("no result code, then a decline", f"{UNNAMED} {DECLINED} {COMPLETION}", "unclear Conflict", "unclear Conflict"),
    ("several result codes", f"{SEVERAL} {COMPLETION}", "unclear Conflict", "unclear Conflict"),
    ("a decline", f"{DECLINED} {COMPLETION}", "declined 6C abort by time-out or abort key", "declined 6C abort by time-out or abort key"),
    ("no result code before an abort", f"{UNNAMED} {ABORT}", "unclear AbortAfterApproval", "unclear AbortAfterApproval"),
]
# A reversal of the payment: its status, and its outcome strictly and with --reversal-by-receipt.
UNREVERSED = "unclear NoTrace"
BY_RECEIPT = [
    ("another receipt number", status(1234, 18, "870006"), UNREVERSED, "reversed"), ("the payment's trace number", TAKEN_BACK, "reversed", "reversed"),
    ("another receipt number, without a trace number", status(1234, None, "870006"), UNREVERSED, "reversed"),
    ("the payment's receipt number", status(1234, 18, RECEIPT), UNREVERSED, UNREVERSED), ("no receipt number", status(1234, 18), UNREVERSED, UNREVERSED),
    ("two receipt numbers", status(1234, 18, "870006", "870007"), UNREVERSED, UNREVERSED), ("letters", status(1234, 18, "87000A"), UNREVERSED, UNREVERSED),
    ("another trace number", status(1234, 18, "870006", "37000018"), UNREVERSED, UNREVERSED),
    ("another amount", status(1235, 18, "870006"), "unclear AmountDiffers", "unclear AmountDiffers"),
]
OPENING, RULED_OPENING = "# zvt journal 1, currency 978", "# zvt journal 1, currency 978, reversals by receipt"
JSON_LINES = [
    '{"outcome":"registered","step":"register"}', '{"outcome":"paid","step":"pay:1234","trace":17}',
    '{"outcome":"not sent","reason":"NoReceipt","step":"reverse:1"}', '{"code":"99","outcome":"aborted","step":"pay:5"}',
    '{"code":"6F","outcome":"declined","step":"pay:6","words":"wrong currency"}',
    '{"code":"83","outcome":"refused","step":"pay:7","words":"function not possible"}', '{"cause":"NoStatus","outcome":"unclear","step":"pay:8"}',
    '{"cause":"Line","outcome":"unclear","step":"pay:9"}', '{"total":1234}',
]
check = Checks()
Ended = collections.namedtuple("Ended", "status text errors")


def run(*words):
    done = subprocess.run([PROGRAM, *map(str, words)], capture_output=True, text=True, timeout=SECONDS)
    return Ended(done.returncode, done.stdout, done.stderr)


def till(port, *words):
    return run("till", "--port", port, "--no-ask", *words)


def lines(*rows):
    return "".join(f"{row}\n" for row in rows)


def ends(name, ended, status, *rows):
    """How a run ended, and the lines that it wrote."""
    check(name, (ended.status, ended.text), (status, lines(*rows)))


class Answering:
    """A terminal that answers one order of a till after another with these bytes, and then sends no more, or is silent until the
    till goes. It keeps what the till sends."""

    def __init__(self, answers, is_silent=False):
        self.answers, self.is_silent, self.heard = [bytes.fromhex(answer) for answer in answers], is_silent, b""
        self.door = socket.create_server((HOST, 0))
        self.port = self.door.getsockname()[1]
        self.serving = threading.Thread(target=self.serve, daemon=True)
        self.serving.start()

    def __enter__(self):
        return self

    def __exit__(self, *_):
        self.serving.join(SECONDS)
        self.door.close()

    def orders(self):
        """How many orders have come whole."""
        count, rest = 0, self.heard
        while len(rest) >= 3 and len(rest) >= 3 + rest[2]:
            count += rest[0] == 0x06
            rest = rest[3 + rest[2]:]
        return count

    def serve(self):
        self.door.settimeout(SECONDS)
        line, _ = self.door.accept()
        with line:
            line.settimeout(SECONDS)
            for number, answer in enumerate(self.answers, 1):
                while self.orders() < number:
                    more = line.recv(4096)
                    if not more:
                        return
                    self.heard += more
                line.sendall(answer)
            if not self.is_silent:
                line.shutdown(socket.SHUT_WR)
            while more := line.recv(4096):
                self.heard += more


class Trial:
    def __init__(self, folder):
        self.folder = folder
        self.files = 0

    def new_file(self):
        self.files += 1
        return self.folder / f"{self.files}"

    def answers(self, name, course, total, *words, status=0):
        """The steps of a course have its outcomes. Answers the fault that is reported last, and what was sent."""
        with Answering([answer for _, answer, _ in course if answer is not None]) as peer:
            ended = till(peer.port, *words, *(step for step, _, _ in course))
        ends(name, ended, status, *(f"{step} -> {outcome}" for step, _, outcome in course if outcome), f"total {total}")
        return ended.errors.splitlines()[-1:], peer.heard

    def has(self, name, book, *rows):
        """The book has these rows, without the times of its orders."""
        found = run("book", book)
        ends(name, Ended(found.status, re.sub(r" at 20\S+", "", found.text), found.errors), 0, *rows)

    def runs(self):
        for name, course, total in RUNS:
            said, _ = self.answers(name, course, total)
            if "reverse" in name:
                check(f"{name}: nothing is reported", said, [])

    def sends(self):
        course = [REGISTERS, PAYS, ("reverse:1", f"{ACK} {ABORT}", ABORTED), ("close", f"{ACK} {UNKNOWN} {COMPLETION}", "day closed")]
        _, heard = self.answers("an order of each kind", course, 1234)
        sent = [REGISTRATION, ACK, PAYMENT, ACK, ACK, REVERSAL, ACK, "06 50 03 00 00 00", NACK, ACK]
        check("what is sent of them", heard, bytes.fromhex(" ".join(sent)))
        trace = self.new_file()
        self.answers("the greatest amount", [REGISTERS, ("pay:999999999999", REFUSED, "refused 6C abort by time-out or abort key")], 0, "--trace", trace)
        check("how it is sent", "> 06010A04999999999999490978\n" in trace.read_text(), True)

    def reads_on(self):
        """What an open till makes of messages that it cannot read, and what a strict one makes of the first."""
        for name, course, total in OPEN_RUNS:
            self.answers(f"{name}, on an open line", course, total, "--open")
        course = [REGISTERS, ("pay:1234", f"{ACK} {UNREAD_LINE} {APPROVED} {COMPLETION}", PAID)]
        _, heard = self.answers("an invalid print line, on an open line", course, 1234, "--open")
        check("what is sent to it", heard, bytes.fromhex(" ".join([REGISTRATION, ACK, PAYMENT, NACK, ACK, ACK])))
        cut = [REGISTERS, ("pay:1234", f"{ACK} 06 D1 FF 00", "unclear Line")]
        said, _ = self.answers("an invalid message that is cut off, on an open line", cut, 0, "--open", status=4)
        check("its fault", said, [CLOSED.format(4)])
        strict = [REGISTERS, ("pay:1234", f"{ACK} {UNREAD_STATUS} {COMPLETION}", "unclear Malformed")]
        self.answers("an invalid status, on a strict line", strict, 0, status=4)

    def is_cut_off(self):
        """A payment whose connection closes after each byte of its answer."""
        answer = bytes.fromhex(f"{ACK} {APPROVED} {COMPLETION}")
        for count in range(len(answer)):
            said, heard = self.answers(f"a payment that is cut off after {count} bytes", [REGISTERS, ("pay:1234", answer[:count].hex(), "unclear Line")], 0, status=4)
            have = count if count < 3 else count - 3 if count < 22 else count - 22
            check(f"the fault after {count} bytes", said, [CLOSED.format(have)])
            acks = 1 if count < 22 else 2
            check(f"what is sent before {count} bytes", heard, bytes.fromhex(" ".join([REGISTRATION, ACK, PAYMENT, *[ACK] * (acks - 1)])))
        self.answers("a payment that is not", [REGISTERS, PAYS], 1234)

    def doubts(self):
        """A reversal whose connection is lost leaves a doubt, which another reversal ends or leaves."""
        unclear = [REGISTERS, PAYS, ("reverse:1", ACK, "unclear Line")]
        for name, answer, outcome, mark in (
            ("one that was made before", f"{ACK} 06 1E 01 B4", "aborted B4 already reversed", " taken back"),
            ("one that is made", f"{ACK} {TAKEN_BACK} {COMPLETION}", "reversed", " reversed"),
            *((outcome, answer, outcome, " reversal unclear Line") for answer, outcome in NO_CHANGES),
        ):
            book = self.new_file()
            self.answers(f"a reversal that is lost, before {name}", unclear, 1234, "--book", book, status=4)
            self.has(f"its book, before {name}", book, f"{BOOKED} reversal unclear Line", "total 1234")
            total = 0 if outcome == "reversed" else 1234
            self.answers(f"a reversal after a doubt: {name}", [REGISTERS, ("reverse:1", answer, outcome)], total, "--book", book)
            self.has(f"its book: {name}", book, BOOKED + mark, f"total {total}")
        for answer, outcome in NO_CHANGES:
            book = self.new_file()
            self.answers(f"a reversal without a doubt: {outcome}", [REGISTERS, PAYS, ("reverse:1", answer, outcome)], 1234, "--book", book)
            self.has(f"its book, without a doubt: {outcome}", book, BOOKED, "total 1234")

    def goes_on(self):
        """A terminal that prints yet refuses the next registration, and the payment stays unclear."""
        book = self.new_file()
        lost = [REGISTERS, ("pay:1234", f"{ACK} {APPROVED}", "unclear Line")]
        self.answers("a payment that is lost after its approval", lost, 0, "--book", book, status=4)
        self.answers("a terminal that goes on", [("register", NACK, "refused 83 function not possible")], 0, "--book", book)
        self.has("the book after it", book, "unclear 1234 Line trace 000017 receipt 0005", "total 0")

    def full_book(self):
        """A book of 10,000 payments takes no more, and the day closes."""
        book = self.new_file()
        orders = ["# register\n> 060006000000BE0978\n< 800000\n< 060F00\n> 800000\n"]
        for number in range(10_000):
            approved = status(1234, number, RECEIPT).replace(" ", "")
            orders.append(f"# pay 1234\n> 06010A04000000001234490978\n< 800000\n< {approved}\n> 800000\n< 060F00\n> 800000\n")
        book.write_text("# zvt journal 1, currency 978\n!\n" + "".join(orders) + "\n")
        course = [REGISTERS, ("pay:1234", None, "not sent: BookFull"), ("close", f"{ACK} {COMPLETION}", "day closed")]
        self.answers("a full book", course, 12_340_000, "--book", book)

    def breaks(self):
        """A terminal that closes, that is silent, or that sends what is no message, and each outcome as a JSON line."""
        unpaid = ("pay:1000", None, "unclear Line")
        for name, course, failed in (
            ("a terminal that closes before a payment", [REGISTERS, unpaid], CLOSED.format(0)),
            ("one that closes within a message", [("register", f"{ACK} {COMPLETION} 80", "registered"), unpaid], CLOSED.format(1)),
            ("one that closes at once", [("register", None, "unclear Line"), ("pay:1000", None, None)], CLOSED.format(0)),
            ("one that sends no message", [("register", f"{ACK} 06 0F 03 06", "unclear Malformed"), ("pay:1000", None, None)],
             "zvt: connection failed: the other end sent an invalid message, refused at 3: DoesNotFit"),
        ):
            said, _ = self.answers(name, course, 0, status=4)
            check(f"{name}: its fault", said, [failed])
        said, _ = self.answers("bytes that are no message, before an approval", [REGISTERS, ("pay:1234", f"{MALFORMED} {APPROVED} {COMPLETION}", "unclear Malformed")], 0, status=4)
        with Answering([], is_silent=True) as peer:
            ended = till(peer.port, "--timeout", "1", "register")
        ends("one that is silent at the registration", ended, 4, "register -> unclear Line", "total 0")
        check("that it was silent for a second", ended.errors.splitlines()[-1], "zvt: connection failed: the terminal sent nothing for 1 s. Check the terminal, or increase --timeout")
        answers = [
            f"{ACK} {COMPLETION}", f"{ACK} {status(1234, 17)} {COMPLETION}", f"{ACK} 06 1E 01 99", f"{ACK} 04 0F 02 27 6F {COMPLETION}", NACK,
            f"{ACK} {COMPLETION}", ACK,
        ]
        with Answering(answers) as peer:
            ended = till(peer.port, "--json", "register", "pay:1234", "reverse:1", "pay:5", "pay:6", "pay:7", "pay:8", "pay:9", "close")
        ends("each outcome as a JSON line", ended, 4, *JSON_LINES)

    def unheard(self):
        """A full device for standard error changes nothing else, one for standard output ends the run, and nothing is sent that a full
        trace lacks."""
        reversed_ = [f"{ACK} {COMPLETION}", f"{ACK} {APPROVED} {COMPLETION}", ACK]
        with open("/dev/full", "wb") as full:
            with Answering(reversed_) as peer:
                done = subprocess.run([PROGRAM, "till", "--port", str(peer.port), "register", "pay:1234", "reverse:1"], stdout=subprocess.PIPE, stderr=full, text=True, timeout=SECONDS)
            rows = ["register -> registered", "pay:1234 -> paid trace 000017 receipt 0005", "reverse:1 -> unclear Line", "total 1234"]
            ends("a till that can report nothing", Ended(done.returncode, done.stdout, ""), 4, *rows)
            done = subprocess.run([PROGRAM, "loop", "close"], stdout=full, stderr=subprocess.PIPE, text=True, timeout=SECONDS)
        said = ["zvt: close was not sent (NotRegistered): the till is not registered on this connection: register first",
                "zvt: cannot write to standard output: check where it goes and the free space there"]
        check("outcomes that cannot be written", (done.returncode, done.stderr), (4, lines(*said)))
        with Answering([f"{ACK} {COMPLETION}"]) as peer:
            till(peer.port, "--trace", "/dev/full", "register")
        check("what is sent that a trace lacks", peer.heard, b"")

    def settings(self):
        """The registration has the till's settings, and the trace has all that is sent and heard, with time marks or without."""
        rows = lines("> 0600061234568A0752", "< 800000060F00", "> 800000", "!").encode()
        for words, plain in ([], unmarked), (["--no-times"], bytes):
            trace = self.new_file()
            with Answering([f"{ACK} {COMPLETION}"]) as peer:
                ended = till(peer.port, "--password", "123456", "--config", "8a", "--currency", "0752", *words, "--trace", trace, "register")
            ends(f"a till with settings {words}", ended, 0, "register -> registered", "total 0")
            check(f"what it sends {words}", peer.heard, bytes.fromhex("06 00 06 12 34 56 8A 07 52 80 00 00"))
            check(f"its trace {words}", plain(trace.read_bytes()), rows)

    def keeps(self):
        """What a till adds to a book, new or begun: all but the time of the registration and the check of its record."""
        added = lines("!", "#= 7DDCFDA1", "# register at TIME", "> 060006000000BE0978", "#= CHECK", "< 800000", "#= 9A61F70B", "< 060F00", "> 800000", "#= 07264E21")
        begun = lines("# zvt journal 1, currency 978", "!", "# register", "> 060006000000BE0978", "< 800000")
        for name, before in (("a new book", ""), ("a book that goes on", begun)):
            book = self.folder / f"{name}.kept"
            if before:
                book.write_text(before + "\n")
            with Answering([f"{ACK} {COMPLETION}"]) as peer:
                ended = till(peer.port, "--book", book, "register")
            ends(name, ended, 0, "register -> registered", "total 0")
            check(f"{name}: what is sent", peer.heard, bytes.fromhex(f"{REGISTRATION} {ACK}"))
            found = re.sub(r"at 20\S+(\n> .*\n#= )[0-9A-F]{8}", r"at TIME\1CHECK", book.read_text())
            check(f"{name}: who may read it", before or oct(book.stat().st_mode & 0o777), before or "0o600")
            check(f"{name}: what it has", found, (before or lines("# zvt journal 1, currency 978")) + added + "\n")

    def closes(self):
        """An end of day, strictly and with --close-by-completion, which changes no other order and no book."""
        for name, answer, strictly, stated in CLOSES:
            for words, outcome in ([], strictly), (["--close-by-completion"], stated):
                self.answers(f"an end of day: {name} {words}", [REGISTERS, ("close", f"{ACK} {answer}", outcome)], 0, *words)
        unnamed = f"04 0F 12 04 00 00 00 00 12 34 0B 00 00 19 87 00 07 37 00 00 17 {COMPLETION}"
        course = [REGISTERS, PAYS, ("pay:1234", f"{ACK} {unnamed}", "unclear Conflict"), ("reverse:1", f"{ACK} {unnamed}", "unclear Conflict")]
        strict, stated = self.new_file(), self.new_file()
        self.answers("a book, strictly", [*course, ("close", f"{ACK} {UNNAMED} {COMPLETION}", "unclear Conflict")], 1234, "--book", strict)
        self.answers("a book with the option", [*course, ("close", f"{ACK} {UNNAMED} {COMPLETION}", "day closed")], 1234, "--book", stated, "--close-by-completion")
        kept = [re.sub(r"at 20\S+(\n> .*\n#= )[0-9A-F]{8}", r"at TIME\1CHECK", book.read_text()) for book in (strict, stated)]
        check("the book is the same", kept[1], kept[0])
        self.answers("which goes on without it", [REGISTERS], 1234, "--book", stated)

    def reverses_by_receipt(self):
        """A reversal whose status names no payment, strictly and with --reversal-by-receipt, and the book of it."""
        for name, answer, strictly, stated in BY_RECEIPT:
            for words, outcome, opening in ([], strictly, OPENING), (["--reversal-by-receipt"], stated, RULED_OPENING):
                book, total = self.new_file(), 0 if outcome == "reversed" else 1234
                course = [REGISTERS, PAYS, ("reverse:1", f"{ACK} {answer} {COMPLETION}", outcome)]
                self.answers(f"a reversal: {name} {words}", course, total, "--book", book, *words)
                check(f"its book's first line: {name} {words}", book.read_text().splitlines()[0], opening)
                mark = " reversed" if outcome == "reversed" else f" reversal {outcome}"
                self.has(f"its book: {name} {words}", book, BOOKED + mark, f"total {total}")
        book, again = self.new_file(), ("reverse:1", f"{ACK} {BY_RECEIPT[0][1]} {COMPLETION}", UNREVERSED)
        course = [REGISTERS, PAYS, ("pay:1234", f"{ACK} {status(1234, 18, '870006')} {COMPLETION}", NEXT), again]
        self.answers("a reversal of one of two payments of the amount", course, 2468, "--book", book, "--reversal-by-receipt")
        self.has("its book", book, f"{BOOKED} reversal {UNREVERSED}", "booked 1234 trace 000018 receipt 0006", "total 2468")

    def keeps_its_rule(self):
        """A book goes on with the option that it was begun with, and another till refuses it and leaves it as it is."""
        for words, others, said in (
            (["--reversal-by-receipt"], [], "the book was begun by 'zvt till --reversal-by-receipt': use this option, or name another file"),
            ([], ["--reversal-by-receipt"], "the book was begun without '--reversal-by-receipt': leave out this option, or name another file"),
        ):
            book = self.new_file()
            self.answers(f"a book to go on {words}", [REGISTERS, PAYS], 1234, "--book", book, *words)
            before = book.read_bytes()
            ended = till(1, "--book", book, *others, "register")
            ends(f"a till of another rule {others}", ended, 3)
            check(f"what it reports {others}", ended.errors, f"zvt: '{book}': {said}\n")
            check(f"what it leaves {others}", book.read_bytes(), before)
            self.answers(f"a till of the rule {words}", [REGISTERS], 1234, "--book", book, *words)

    def has_its_book(self, seed, *words):
        """The audit of what a till records says what the till says: of one connection, or of three with a book, which keeps a line
        that is malformed as one that is lost, also on an open line. Answers how many payments are booked, and how many are unclear."""
        chance, trace, said = random.Random(seed), self.new_file(), ""
        book = ["--book", self.new_file()] if seed % 2 else []
        for _connection in range(3 if book else 1):
            orders = [chance.choice(["reverse:1", "close", *["pay:1234"] * 4]) for _order in range(4)]
            courses = OPEN_COURSES if words else COURSES
            answers = [f"{ACK} {COMPLETION}", *(" ".join(chance.choice(courses)) for _order in orders)]
            with Answering(answers) as peer:
                said += till(peer.port, *words, *book, "--trace", trace, "register", *orders).text
        booked, unclear = re.findall(r"^pay:1234 -> paid (.*)$", said, re.M), re.findall(r"^pay:1234 -> unclear (.*)$", said, re.M)
        rows = [*(f"booked 1234 {numbers}" for numbers in booked), *(f"unclear 1234 {cause}" for cause in unclear)]
        found = run("audit", *words, trace).text
        check(f"the audit of run {seed}", found.replace("Malformed", "Line") if book else found, lines(*rows, f"total {1234 * len(booked)}"))
        check(f"run {seed} is shown", run("show", trace).text != "", True)
        return len(booked), len(unclear)

    def recorded_runs(self):
        counts = [self.has_its_book(seed, *["--open"] * (seed % 3 == 0)) for seed in range(60)]
        check("many payments are booked, and many are unclear", [sum(column) > 60 for column in zip(*counts)], [True, True])


def main():
    if not os.access(PROGRAM, os.X_OK):
        print(f"answered_till: no program at {PROGRAM}: build it by 'rt run' in crates/zvt, or by 'rt ci'", file=sys.stderr)
        return 2
    with tempfile.TemporaryDirectory() as folder:
        trial = Trial(pathlib.Path(folder))
        for part in (trial.runs, trial.sends, trial.breaks, trial.reads_on, trial.is_cut_off, trial.doubts, trial.goes_on, trial.full_book, trial.unheard,
                     trial.settings, trial.keeps, trial.closes, trial.reverses_by_receipt, trial.keeps_its_rule, trial.recorded_runs):
            part()
    print(f"{check.verdict}: a till and given answers: {check.count} checks, {check.wrong} wrong")
    return check.status


if __name__ == "__main__":
    sys.exit(main())

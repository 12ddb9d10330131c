"""A till in Python, based on libzvt.so. The library keeps the till and its book; this module transports the bytes.

    import zvt

    with zvt.Till(keep=write_to_disk) as till:
        till.connect("192.0.2.7", 20007)
        till.register()
        print(till.pay(1000))          # paid, trace 000001, receipt 0001

With `book="day.trace"` the till keeps its book in that file, which survives every crash of the process and the machine. A
till that opens the file again has its payments. This needs zvt_journal.py.

Amounts are in the smallest unit of the currency. Only one thread at a time may use a Till. Unless you name a library, the
module uses the one of the Python package, or else the one of the system.
"""
import ctypes as c
import enum
import os
import re
import select
import socket
import time
from typing import NamedTuple, Optional

ROOM, LINE_ROOM, RECORD_ROOM = 8 * 32, 65534, 131200
# The layouts and calls that this module is made for.
ABI = 4
# What `running` of the state is while an ask runs.
ASK = 6
# The amount that a message can hold at most.
MAX_AMOUNT = 999_999_999_999


class Codepage(enum.IntEnum):
    """The code page of the lines to print. AS_SENT leaves them as bytes."""
    AS_SENT, CP437, CP850, ISO_8859_1, UTF_8 = range(5)


class Copy(enum.IntEnum):
    """The receipt that a text block belongs to."""
    MERCHANT, CUSTOMER, ADMINISTRATION = range(1, 4)


class Line(bytes):
    """A line to print, as the terminal sent it. `copy` is a Copy, another number that the terminal sent, or None."""
    copy = None


class TextLine(str):
    """A line to print, decoded. `copy` says which receipt it belongs to, as in Line."""
    copy = None


class Order(enum.IntEnum):
    REGISTER, PAY, REVERSE, CLOSE_DAY, CANCEL = range(1, 6)


class Ending(enum.IntEnum):
    """How an order ended."""
    NONE, REGISTERED, PAID, DECLINED, ORDER_REFUSED, ABORTED, UNCLEAR, REVERSED, DAY_CLOSED = range(9)


class Cause(enum.IntEnum):
    """Why a payment or a reversal is unclear. Check the terminal's journal before you book or refund the amount."""
    NO_STATUS, CONFLICT, AMOUNT_DIFFERS, NO_TRACE, TRACE_USED, ABORT_AFTER_APPROVAL, LINE, MALFORMED, UNFINISHED, WRONG_CURRENCY = range(1, 11)


class Doubt(enum.IntEnum):
    """What is in doubt about the reversal of a booked payment. UNCLEAR_REVERSAL: the last reversal may have succeeded or
    not, and the cause says why this is unknown. Reverse the payment again once you are connected: the terminal either
    completes the reversal or answers B4, because it had reversed the payment before. TAKEN_BACK: it answered B4."""
    UNCLEAR_REVERSAL, TAKEN_BACK = range(1, 3)


class SettlementKind(enum.IntEnum):
    """What became of an unclear order."""
    PAID, NOT_PAID, REVERSED, NOT_REVERSED = range(1, 5)


class PendingKind(enum.IntEnum):
    """What the pending order is."""
    PAYMENT, REVERSAL = range(1, 3)


class Status(enum.IntEnum):
    OK, MORE, REFUSED, NO_MEMORY, NO_ROOM, ARGUMENT, CLOSED, STOPPED = range(8)
    OFFLINE, NOT_REGISTERED, BUSY, NOTHING_TO_CANCEL, BOOK_FULL, UNKNOWN_ENTRY, ALREADY_REVERSED, NO_RECEIPT = range(10, 18)


# Why a text is no book of a till.
NO_BOOK = {1: "line {} does not open a book in this currency", 2: "line {} is not part of a valid record",
           3: "record {} contradicts the records before it",
           4: "line {} is not the check of its record: the file was changed or damaged"}


class Refused(Exception):
    """The library refused a call. The till has not changed. `status` says why."""

    def __init__(self, status):
        self.status = Status(status)
        super().__init__(words(self.status))


class LineError(ConnectionError):
    """The connection ended, failed, timed out or sent invalid bytes, and was closed. `outcome` is the result of the order:
    a payment or a reversal is unclear. It is None if an ask was running."""

    def __init__(self, outcome):
        self.outcome = outcome
        super().__init__("the line is lost" if outcome is None else f"the line is lost: {outcome}")


class _BrokenLine(Exception):
    """The connection ended, failed or timed out."""


class Outcome(NamedTuple):
    ending: Ending
    code: Optional[int] = None       # the terminal's, where it declined, refused or aborted
    cause: Optional[Cause] = None    # where the payment or the reversal is unclear
    trace: Optional[int] = None      # where it is paid
    receipt: Optional[int] = None    # where it is paid and the terminal gave one
    meaning: Optional[str] = None    # of the code, where it has one of its own

    def is_by_line(self):
        """Whether the connection ended the order, rather than a message of the terminal."""
        return self.cause in (Cause.LINE, Cause.MALFORMED)

    def __str__(self):
        text = words(self.ending)
        if self.code is not None:
            text += f", code {self.code:02X}"
        if self.meaning is not None:
            text += f" ({self.meaning})"
        if self.cause is not None:
            text += f": {words(self.cause)}"
        return text + numbers(self.trace, self.receipt)


class Entry(NamedTuple):
    """A payment, either booked or unclear for a cause."""
    amount: int
    trace: Optional[int] = None      # of an unclear payment: the numbers that the terminal named in it
    receipt: Optional[int] = None
    reversed: bool = False           # a completed reversal took it back
    cause: Optional[Cause] = None    # why the payment is unclear, or its last reversal
    doubt: Optional[Doubt] = None    # what the reversals of a booked payment leave open
    at: Optional[str] = None         # of a till with a book: when the payment was ordered, as 2026-11-28T09:14:03Z, in UTC
    reference: Optional[str] = None  # of a till with a book: the caller's reference

    def __str__(self):
        text = f"{self.amount}" + numbers(self.trace, self.receipt)
        if self.reversed:
            text += ", taken back"
        if self.doubt == Doubt.TAKEN_BACK:
            text += ", taken back before, said the terminal"
        if self.doubt == Doubt.UNCLEAR_REVERSAL:
            text += ", unclear reversal"
        return text if self.cause is None else text + f": {words(self.cause)}"


class Settlement(NamedTuple):
    """What the answer to an ask says about an unclear order."""
    kind: SettlementKind
    place: int                       # the index in unclear(), or for a reversal in book()
    trace: Optional[int] = None      # where it was paid
    receipt: Optional[int] = None    # where it was paid and the terminal gave one

    def __str__(self):
        return words(self.kind) + numbers(self.trace, self.receipt)


class Pending(NamedTuple):
    """An unclear order that the next answer can settle."""
    kind: PendingKind
    place: int                       # the index in unclear(), or for a reversal in book()


class State(NamedTuple):
    """The state of a till. `total` is the sum of the booked payments without a completed reversal, and `held` the size of
    the incomplete message that the till holds."""
    total: int
    booked: int
    unclear: int
    unclear_reversals: int
    settled: int
    held: int
    registered: bool
    running: Optional[Order]         # the order that runs
    asking: bool                     # whether an ask runs
    last: Optional[Outcome]          # how the order that ended last ended


def words(name):
    return name.name.lower().replace("_", " ")


def numbers(trace, receipt):
    text = "" if trace is None else f", trace {trace:06}"
    return text if receipt is None else text + f", receipt {receipt:04X}"


class _Outcome(c.Structure):
    _fields_ = [(n, c.c_uint32) for n in ("kind", "code", "trace", "receipt", "has_receipt")]

    def value(self, library):
        """Returns the outcome, or None if no order has ended."""
        ending = Ending(self.kind)
        if ending == Ending.NONE:
            return None
        if ending == Ending.PAID:
            return Outcome(ending, trace=self.trace, receipt=self.receipt if self.has_receipt else None)
        if ending == Ending.UNCLEAR:
            return Outcome(ending, cause=Cause(self.code))
        if ending in (Ending.DECLINED, Ending.ORDER_REFUSED, Ending.ABORTED):
            return Outcome(ending, code=self.code, meaning=written(library.zvt_result_name, self.code) or None)
        return Outcome(ending)


class _Step(c.Structure):
    _fields_ = ([(n, c.c_uint64) for n in ("taken", "send", "place", "line")]
                + [(n, c.c_uint32) for n in ("reason", "message", "printed")] + [("outcome", _Outcome)])


class _State(c.Structure):
    _fields_ = ([(n, c.c_uint64) for n in ("total", "booked", "unclear", "unclear_reversals", "settled", "held")]
                + [("registered", c.c_uint32), ("running", c.c_uint32), ("last", _Outcome)])


class _Entry(c.Structure):
    _fields_ = ([("amount", c.c_uint64)]
                + [(n, c.c_uint32) for n in ("trace", "receipt", "has_receipt", "reversed", "cause", "doubt")])


class _Settlement(c.Structure):
    _fields_ = [("place", c.c_uint64)] + [(n, c.c_uint32) for n in ("kind", "trace", "receipt", "has_receipt")]


class _Pending(c.Structure):
    _fields_ = [("place", c.c_uint64), ("kind", c.c_uint32), ("last_known", c.c_uint32)]


class _Answer(c.Structure):
    _fields_ = [("size", c.c_uint64), ("place", c.c_uint64), ("reason", c.c_uint32), ("status", c.c_uint32)]


class _Line(c.Structure):
    _fields_ = [("size", c.c_uint64), ("copy", c.c_uint32)]


class _Handle(c.Structure):
    _fields_ = [("at", c.c_void_p), ("full", c.c_uint32)]


_TYPES = {
    "zvt_abi": [],
    "zvt_version": [c.c_void_p, c.c_size_t],
    "zvt_result_name": [c.c_uint32, c.c_void_p, c.c_size_t],
    "zvt_status_name": [c.c_uint32, c.c_void_p, c.c_size_t],
    "zvt_scan": [c.c_char_p, c.c_size_t, c.c_void_p],
    "zvt_text": [c.c_char_p, c.c_size_t, c.c_void_p, c.c_size_t, c.c_void_p],
    "zvt_till_new": [c.c_void_p, c.c_uint32, c.c_uint8, c.c_uint16],
    "zvt_till_free": [c.c_void_p],
    "zvt_till_connected": [c.c_void_p],
    "zvt_till_lost": [c.c_void_p, c.c_void_p],
    "zvt_till_order": [c.c_void_p, c.c_uint32, c.c_uint64, c.c_void_p, c.c_size_t, c.c_void_p],
    "zvt_till_ask": [c.c_void_p, c.c_void_p, c.c_size_t, c.c_void_p],
    "zvt_till_settled": [c.c_void_p, c.c_size_t, c.c_void_p],
    "zvt_till_pending": [c.c_void_p, c.c_void_p],
    "zvt_till_feed_all": [c.c_void_p, c.c_char_p, c.c_size_t, c.c_void_p, c.c_size_t, c.c_void_p, c.c_size_t, c.c_void_p],
    "zvt_till_line": [c.c_void_p, c.c_size_t, c.c_uint32, c.c_void_p, c.c_size_t, c.c_void_p],
    "zvt_till_card_name": [c.c_void_p, c.c_void_p, c.c_size_t],
    "zvt_till_card_number": [c.c_void_p, c.c_void_p, c.c_size_t],
    "zvt_till_state": [c.c_void_p, c.c_void_p],
    "zvt_till_entry": [c.c_void_p, c.c_size_t, c.c_void_p],
    "zvt_till_unclear": [c.c_void_p, c.c_size_t, c.c_void_p],
    "zvt_till_save": [c.c_void_p, c.c_void_p, c.c_size_t, c.c_void_p],
    "zvt_till_load": [c.c_void_p, c.c_char_p, c.c_size_t],
    "zvt_till_recover": [c.c_void_p, c.c_char_p, c.c_size_t, c.c_void_p],
    "zvt_record_opening": [c.c_uint16, c.c_void_p, c.c_size_t, c.c_void_p],
    "zvt_record_order": [c.c_uint32, c.c_uint64, c.c_char_p, c.c_size_t, c.c_char_p, c.c_size_t, c.c_char_p, c.c_size_t, c.c_void_p,
                         c.c_size_t, c.c_void_p],
    "zvt_record_ask": [c.c_char_p, c.c_size_t, c.c_char_p, c.c_size_t, c.c_void_p, c.c_size_t, c.c_void_p],
    "zvt_record_heard": [c.c_char_p, c.c_size_t, c.c_void_p, c.c_size_t, c.c_void_p],
    "zvt_record_lost": [c.c_void_p, c.c_size_t, c.c_void_p],
    "zvt_record_notes": [c.c_void_p, c.c_char_p, c.c_size_t, c.c_void_p, c.c_size_t, c.c_void_p],
}
# What the calls answer that answer no status.
_RESULTS = {name: None for name in ("zvt_scan", "zvt_till_free", "zvt_till_save", "zvt_till_recover", "zvt_record_opening",
                                    "zvt_record_order", "zvt_record_ask", "zvt_record_lost", "zvt_record_notes")}
_RESULTS |= {name: c.c_size_t for name in ("zvt_record_heard", "zvt_result_name", "zvt_status_name", "zvt_text", "zvt_till_card_name",
                                           "zvt_till_card_number", "zvt_version")}


def whole(name, number, least, most):
    """Raises a TypeError or a ValueError unless the argument is an integer from `least` to `most`."""
    if isinstance(number, bool) or not isinstance(number, int):
        raise TypeError(f"{name} is a whole number, and not {number!r}")
    if not least <= number <= most:
        raise ValueError(f"{name} is a number from {least} to {most}, and not {number}")


def referenced(reference):
    """Returns the reference as bytes. Raises a TypeError or a ValueError unless it is one."""
    if not isinstance(reference, str):
        raise TypeError(f"reference is a string, and not {reference!r}")
    if not re.fullmatch("[!-~]{1,40}", reference):
        raise ValueError(f"reference is 1 to 40 printable ASCII characters without a space, and not {reference!r}")
    return reference.encode("ascii")


def now():
    """Returns the time in UTC, in the form of a record."""
    return time.strftime("%Y-%m-%dT%H:%M:%SZ", time.gmtime())


def opened(library=None):
    """Loads the library and declares the types of its calls. By default it is the one next to this module, or else the
    system's."""
    if library is None:
        beside = os.path.join(os.path.dirname(os.path.abspath(__file__)), "libzvt.so.0")
        library = beside if os.path.exists(beside) else "libzvt.so.0"
    library = c.CDLL(os.fspath(library))
    for name, types in _TYPES.items():
        function = getattr(library, name, None)
        if function is None:
            raise OSError(f"the library lacks {name}: it is not the one that zvt.py is made for")
        function.argtypes, function.restype = types, _RESULTS.get(name, c.c_uint32)
    if library.zvt_abi() != ABI:
        raise OSError(f"the library's calls are of number {library.zvt_abi()}, and zvt.py is made for {ABI}")
    return library


def version(library=None):
    """Returns the version of the library, such as 0.2.0."""
    return written(opened(library).zvt_version)


def written(call, *arguments):
    """Returns the text that a call writes to a buffer, which follows these arguments."""
    room = c.create_string_buffer(198)
    size = call(*arguments, room, len(room))
    return room.raw[:size].decode("iso-8859-1")


class Till:
    """A till on a socket.

    `keep`, if given, is called with the bytes of the saved till before each order is sent, and after each outcome. If it
    raises an exception before an order, the order is not sent and the connection is closed. `print_line`, if given, is called
    with each line that the terminal wants printed, in a print line or a text block: a Line, or a TextLine if `codepage` is not
    AS_SENT. Its `copy` says whose receipt it belongs to. `heard`, if given, is called with the
    text of each message of the terminal, as the program `zvt` shows it; messages of the kind Intermediate have the state of a
    payment.

    A callback that raises an exception loses nothing: the till reads and answers everything that the terminal sends, up to the
    outcome of the order, and then raises the exception; `last()` has the outcome. An exception that is meant to end the
    program, such as KeyboardInterrupt, closes the connection first, so that no order continues: a payment or a reversal is
    then unclear.

    `book`, if given, is the path of a file in which the till keeps its book. If the file exists, the till continues from it.
    `journal` is its zvt_journal.Journal. An order is in the file before it is sent, and a message of the terminal before the
    till processes it. If the file can't be opened or written, a zvt_journal.BookError is raised and nothing more is sent; make
    a new till from the file. A till with a book treats invalid bytes as a lost connection.

    If the connection ends an order, a LineError is raised, which has the outcome."""

    def __init__(self, library=None, password=0, config=0xBE, currency=978, keep=None, print_line=None, book=None,
                 heard=None, codepage=Codepage.AS_SENT):
        whole("password", password, 0, 999_999)
        whole("config", config, 0, 0xFF)
        whole("currency", currency, 0, 9999)
        self._library = opened(library)
        self._handle, self._step = _Handle(), _Step()
        self._out, self._text = c.create_string_buffer(ROOM), c.create_string_buffer(LINE_ROOM)
        self._keep, self._print_line, self._heard, self._line = keep, print_line, heard, None
        self._codepage = Codepage(codepage)
        self._timeout, self._raised, self._outcome, self._running = None, None, None, False
        self.journal, self._unheard, self._record_room = None, b"", None
        self._call("new", password, config, currency)
        if book is not None:
            self._record_room = c.create_string_buffer(RECORD_ROOM)
            self._open_book(book, currency)

    def _open_book(self, path, currency):
        """Restores the till of the file, or creates the file."""
        import zvt_journal
        try:
            self.journal, answer = zvt_journal.Journal(path), _Answer()
            text = self.journal.text
            if text:
                self._library.zvt_till_recover(c.byref(self._handle), text, len(text), c.byref(answer))
            if answer.status == Status.REFUSED:
                raise zvt_journal.BookError(f"{path} is no book of such a till: {NO_BOOK[answer.reason].format(answer.place)}")
            if answer.status:
                raise Refused(answer.status)
            self.journal.settle()
            if not text:
                self._make_durable("opening", currency)
        except BaseException as error:
            self.close()
            if isinstance(error, OSError):
                raise zvt_journal.BookError(f"cannot open the book {path}: {error.strerror}") from error
            raise

    def __enter__(self):
        return self

    def __exit__(self, *_):
        self.close()

    def _refuse_within(self):
        """Refuses an order from a callback, because it would disturb the running order."""
        if self._running:
            raise RuntimeError("a callback can't give its till an order, a line or up")

    def close(self):
        """Closes the connection and frees the till."""
        self._refuse_within()
        if self._line is not None:
            self._line.close()
            self._line = None
        if self.journal is not None:
            self.journal.close()
        self._library.zvt_till_free(c.byref(self._handle))

    def _call(self, name, *arguments):
        status = getattr(self._library, f"zvt_till_{name}")(c.byref(self._handle), *arguments)
        if status:
            raise Refused(status)

    def connect(self, host, port, timeout=60):
        """Connects to the terminal. Closes an earlier connection. During an order the terminal may be silent for `timeout`
        seconds; None waits without limit."""
        self.disconnect()
        self._line, self._timeout = socket.create_connection((host, port), timeout=timeout), timeout
        # Each message goes out at once: without this the system may hold an acknowledgement back for 40 ms.
        self._line.setsockopt(socket.IPPROTO_TCP, socket.TCP_NODELAY, 1)
        self._unheard = b""
        try:
            self._make_durable("lost")
        except BaseException:
            self._line.close()
            self._line = None
            raise
        self._call("connected")

    def disconnect(self):
        """Closes the connection. Returns the outcome of the running order, if there was one."""
        self._refuse_within()
        if self._line is None:
            return None
        self._raised = None
        outcome = self._give_up()
        if self._raised is not None:
            raise self._raised
        return outcome

    def _give_up(self):
        """Closes the connection, and postpones any exception of `keep`."""
        if self._line is None:
            return None
        self._drop()
        return self._ended()

    def _drop(self):
        self._line.close()
        self._line = None
        self._call("lost", c.byref(self._step))

    def _send(self, message):
        try:
            self._line.sendall(message)
        except OSError as error:
            raise _BrokenLine from error

    def _receive(self):
        try:
            piece = self._line.recv(4096)
        except OSError as error:
            raise _BrokenLine from error
        if not piece:
            raise _BrokenLine
        return piece

    def register(self):
        return self._run(Order.REGISTER)

    def pay(self, amount, wants_cancel=None, reference=None):
        """Pays an amount. `wants_cancel`, if given, is called five times a second; if it returns True, the till asks the
        terminal to cancel the payment, and the terminal decides. The book keeps the time of the payment and the
        `reference`, 1 to 40 printable ASCII characters without a space."""
        whole("amount", amount, 1, MAX_AMOUNT)
        return self._run(Order.PAY, amount, wants_cancel, reference)

    def reverse(self, place, reference=None):
        """Reverses the payment at this index of the book, from 0. If the outcome is unclear, the reversal may have
        succeeded or not, and `unclear_reversals` has the payment until a later reversal of it decides. The book keeps the
        time of the reversal and the `reference`."""
        whole("place", place, 0, (1 << 64) - 1)
        return self._run(Order.REVERSE, place, reference=reference)

    def close_day(self):
        return self._run(Order.CLOSE_DAY)

    def ask(self, reference=None):
        """Asks the terminal to repeat its last receipt, and returns the Settlement of the pending order if the answer
        settles it, or None. Ask after a registration if `pending()` has an order, or if `knows_last()` is False. The terminal
        has to serve this till alone, and must not continue an order whose connection was lost. The book keeps the time of
        the ask and the `reference`. `print_line` gets any lines that the terminal wants printed again."""
        reference = b"" if reference is None else referenced(reference)
        self._refuse_within()
        before = self.state().settled
        self._call("ask", self._out, ROOM, c.byref(self._step))
        message = self._out.raw[:self._step.send]
        self._exchange(lambda: self._record_and_send_ask(message, reference), lambda: not self.state().asking)
        return next(iter(self.settled()[before:]), None)

    def _tell(self, callback, *arguments):
        """Calls a callback, and postpones its exception until everything that the terminal sent is read and answered. Of
        several exceptions the first is raised, or the first one that is meant to end the program."""
        try:
            return callback(*arguments)
        except BaseException as error:
            if self._raised is None or (self._must_stop(error) and not self._must_stop(self._raised)):
                self._raised = error
            return None

    @staticmethod
    def _must_stop(error):
        return error is not None and not isinstance(error, Exception)

    def _order(self, order, number):
        """Returns the bytes of an order. If the library refuses the order, the till does not change."""
        self._call("order", order, number, self._out, ROOM, c.byref(self._step))
        return self._out.raw[:self._step.send]

    def _make_durable(self, kind, *arguments):
        """Appends a record to the book, if the till has one: an opening, an order, an ask, or a lost connection."""
        if self.journal is None:
            return
        answer = _Answer()
        getattr(self._library, f"zvt_record_{kind}")(*arguments, self._record_room, RECORD_ROOM, c.byref(answer))
        if answer.status:
            self._give_book_up()
            raise Refused(answer.status)
        self.journal.append(self._record_room[:answer.size])

    def _give_book_up(self):
        """Stops writing the book, because the book may have a record that the till has not processed, or lack one."""
        if self.journal is not None:
            self.journal.give_up()

    def _keep_and_send(self, order, number, message, reference=b""):
        """Makes the order durable, saves the till, and only then sends the order."""
        at = now().encode("ascii")
        self._make_durable("order", order, number, message, len(message), at, len(at), reference, len(reference))
        if self._keep is not None:
            self._keep(self.save())
        self._send(message)

    def _record_and_send_ask(self, message, reference):
        """Makes the ask durable, and only then sends it."""
        at = now().encode("ascii")
        self._make_durable("ask", at, len(at), reference, len(reference))
        self._send(message)

    def _ended(self):
        """Returns the outcome if the last step ended the order, and saves the till in that case."""
        outcome = self._step.outcome.value(self._library)
        if outcome is None:
            return None
        self._outcome = outcome
        if self._keep is not None:
            self._tell(lambda: self._keep(self.save()))
        return outcome

    def _run(self, order, number=0, wants_cancel=None, reference=None):
        """Runs an order to its end, and returns its outcome."""
        reference = b"" if reference is None else referenced(reference)
        self._refuse_within()
        message = self._order(order, number)
        self._exchange(lambda: self._keep_and_send(order, number, message, reference), lambda: self._outcome is not None, wants_cancel)
        return self._outcome

    def _exchange(self, send, is_over, wants_cancel=None):
        """Sends the message of an order or an ask, and reads from the terminal until that is over. Closes the connection if it
        fails, times out or sends invalid bytes. If that ends the order or the ask, raises a LineError, unless a callback
        raised an exception."""
        self._raised = self._outcome = broken = None
        self._running = True
        try:
            send()
            self._hear_out(is_over, wants_cancel)
        except _BrokenLine as error:
            self._give_up()
            if self._outcome is None or self._outcome.is_by_line():
                broken = error
        except BaseException as error:
            self._give_up()
            if self._must_stop(error) and error is not self._raised:
                self._give_book_up()
            raise
        finally:
            self._running = False
        if self._raised is not None:
            raise self._raised
        if broken is not None:
            raise LineError(self._outcome) from broken.__cause__

    def _hear_out(self, is_over, wants_cancel):
        """Reads from the terminal until that is over, or until an exception is meant to end the program."""
        since = time.monotonic()
        while not is_over():
            if self._must_stop(self._raised):
                raise self._raised
            if wants_cancel is not None and self._raised is None and not self._brings(since):
                if self._tell(wants_cancel) and self._cancels():
                    wants_cancel = None
                continue
            self._hear(self._receive())
            since = time.monotonic()

    def _cancels(self):
        """Asks the terminal to cancel the payment. Returns False if the terminal has not acknowledged the payment yet: try
        again later."""
        try:
            message = self._order(Order.CANCEL, 0)
        except Refused as refused:
            if refused.status != Status.NOTHING_TO_CANCEL:
                raise
            return False
        self._keep_and_send(Order.CANCEL, 0, message)
        return True

    def _brings(self, since):
        """Returns whether the terminal sends something within 0.2 s. Raises an exception after the connection's timeout."""
        wait = 0.2
        if self._timeout is not None:
            wait = min(wait, since + self._timeout - time.monotonic())
            if wait <= 0:
                raise _BrokenLine
        return bool(select.select([self._line], [], [], wait)[0])

    def _hear(self, piece):
        """Feeds a whole chunk and sends the replies. If sending fails, still feeds the rest."""
        broken = None
        for message in self._messages(piece):
            part = message
            while part:
                status = self._library.zvt_till_feed_all(
                    c.byref(self._handle), part, len(part), self._out, ROOM, self._text, LINE_ROOM, c.byref(self._step))
                self._ended()
                if self._step.send and broken is None:
                    try:
                        self._send(self._out.raw[:self._step.send])
                    except _BrokenLine as error:
                        broken = error
                if self._step.printed and self._print_line is not None:
                    for line in self._tell(lambda: list(self._lines())) or ():
                        self._tell(self._print_line, line)
                if status == Status.REFUSED:
                    raise _BrokenLine
                if status != Status.OK:
                    self._give_book_up()
                    raise Refused(status)
                part = part[self._step.taken:]
            if self._heard is not None and message:
                self._tell(self._heard, self._text_of(message))
        if broken is not None:
            raise broken

    def _lines(self):
        """Yields the lines that the last message has to print."""
        place, line = 0, _Line()
        while True:
            status = self._library.zvt_till_line(
                c.byref(self._handle), place, self._codepage, self._text, len(self._text), c.byref(line))
            if status == Status.ARGUMENT:
                return
            if status:
                raise Refused(status)
            if line.size > len(self._text):
                self._text = c.create_string_buffer(line.size)
                continue
            text = self._text.raw[:line.size]
            shown = Line(text) if self._codepage == Codepage.AS_SENT else TextLine(text.decode("utf-8"))
            shown.copy = (Copy(line.copy) if line.copy in list(Copy) else line.copy) or None
            yield shown
            place += 1

    def _messages(self, piece):
        """Yields the messages that end in a chunk, each once it is in the book, if the till has one. Invalid bytes come
        last: a till with a book treats them as a lost connection."""
        self._unheard += piece
        while self._unheard:
            size, answer = self._first()
            if answer.status == Status.MORE:
                return
            if answer.status == Status.REFUSED and self.journal is not None:
                raise _BrokenLine
            if answer.status == Status.REFUSED:
                answer.size = len(self._unheard)
            elif answer.status:
                raise Refused(answer.status)
            if self.journal is not None:
                self.journal.append(self._record_room[:size])
            message, self._unheard = self._unheard[:answer.size], self._unheard[answer.size:]
            yield message

    def _first(self):
        """Writes the record of the first unprocessed message. Returns the size of the record, and the answer about the
        message."""
        answer, size = _Answer(), 0
        if self.journal is None:
            self._library.zvt_scan(self._unheard, len(self._unheard), c.byref(answer))
        else:
            size = self._library.zvt_record_heard(self._unheard, len(self._unheard), self._record_room, RECORD_ROOM, c.byref(answer))
        return size, answer

    def _text_of(self, message):
        """Returns the text of a message, as the program `zvt` shows it."""
        answer, room = _Answer(), c.create_string_buffer(0)
        while True:
            size = self._library.zvt_text(message, len(message), room, len(room), c.byref(answer))
            if size <= len(room):
                return room.raw[:size].decode("ascii")
            room = c.create_string_buffer(size)

    def state(self):
        """Returns the total, the numbers of booked and unclear payments, of unclear reversals and of settlements, whether the
        till is registered, what runs, and the last outcome."""
        state = _State()
        self._call("state", c.byref(state))
        running = Order(state.running) if state.running in list(Order) else None
        return State(state.total, state.booked, state.unclear, state.unclear_reversals, state.settled, state.held,
                     bool(state.registered), running, state.running == ASK, state.last.value(self._library))

    def card_name(self):
        """Returns the name of the card of the last order, or None if the terminal named none."""
        self.state()
        return written(self._library.zvt_till_card_name, c.byref(self._handle)) or None

    def card_number(self):
        """Returns the number of that card, or None. All digits but the first six and the last four are asterisks."""
        self.state()
        return written(self._library.zvt_till_card_number, c.byref(self._handle)) or None

    def last(self):
        """Returns the last outcome, or None."""
        return self.state().last

    def book(self):
        """Returns the booked payments."""
        return self._noted("booked", [self._entry("entry", place) for place in range(self.state().booked)])

    def unclear(self):
        """Returns the unclear payments: the terminal may have booked them or not."""
        return self._noted("unclear", [self._entry("unclear", place) for place in range(self.state().unclear)])

    def settled(self):
        """Returns what the answers to asks settled, in their order. Neither the book nor the list of unclear payments changes."""
        return [self._settlement(place) for place in range(self.state().settled)]

    def _settlement(self, place):
        one = _Settlement()
        self._call("settled", place, c.byref(one))
        kind = SettlementKind(one.kind)
        if kind != SettlementKind.PAID:
            return Settlement(kind, one.place)
        return Settlement(kind, one.place, one.trace, one.receipt if one.has_receipt else None)

    def _pending(self):
        pending = _Pending()
        self._call("pending", c.byref(pending))
        return pending

    def pending(self):
        """Returns the unclear order that the next answer can settle, or None. After `load` there is none."""
        pending = self._pending()
        return Pending(PendingKind(pending.kind), pending.place) if pending.kind else None

    def knows_last(self):
        """Returns whether the till knows the terminal's last status. Only then can an order that becomes unclear be settled."""
        return bool(self._pending().last_known)

    def _noted(self, kind, entries):
        """Returns the entries with the times and references that the book has."""
        lines = [line.split(" ") for line in self._note_lines()]
        notes = [dict(zip(words[1::2], words[2::2])) for words in lines if words[0] == kind]
        notes += [{}] * (len(entries) - len(notes))
        return [entry._replace(at=note.get("at"), reference=note.get("ref")) for entry, note in zip(entries, notes)]

    def _note_lines(self):
        """Returns the lines of zvt_record_notes for the till's book."""
        text = b"" if self.journal is None else self.journal.records()
        if not text:
            return []
        answer, room = _Answer(), c.create_string_buffer(0)
        while True:
            self._library.zvt_record_notes(c.byref(self._handle), text, len(text), room, len(room), c.byref(answer))
            if answer.status:
                raise Refused(answer.status)
            if answer.size <= len(room):
                return room.raw[:answer.size].decode("ascii").splitlines()
            room = c.create_string_buffer(answer.size)

    def status_name(self, status):
        """Returns the words of an intermediate status, which says what the terminal waits for or does, or None."""
        whole("status", status, 0, 255)
        return written(self._library.zvt_status_name, status) or None

    def unclear_reversals(self):
        """Returns the booked payments whose last reversal is unclear, each with its index in the book. Reverse them again."""
        return [(place, entry) for place, entry in enumerate(self.book()) if entry.doubt == Doubt.UNCLEAR_REVERSAL]

    def _entry(self, kind, place):
        entry = _Entry()
        self._call(kind, place, c.byref(entry))
        receipt = entry.receipt if entry.has_receipt else None
        if kind == "unclear":
            return Entry(entry.amount, entry.trace or None, receipt, cause=Cause(entry.cause))
        doubt = Doubt(entry.doubt) if entry.doubt else None
        return Entry(entry.amount, entry.trace, receipt, bool(entry.reversed),
                     Cause(entry.cause) if doubt == Doubt.UNCLEAR_REVERSAL else None, doubt)

    def save(self):
        """Returns the saved till as bytes. They describe the till as it would be after losing its connection."""
        answer, room = _Answer(), c.create_string_buffer(0)
        while True:
            self._library.zvt_till_save(c.byref(self._handle), room, len(room), c.byref(answer))
            if answer.status:
                raise Refused(answer.status)
            if answer.size <= len(room):
                return room.raw[:answer.size]
            room = c.create_string_buffer(answer.size)

    def load(self, saved):
        """Restores the till from saved bytes. It is not connected afterwards. A till with a book can't be loaded, since its
        book defines it."""
        if self.journal is not None:
            raise ValueError("a till that keeps a book is that of its book, and of no save")
        self.disconnect()
        self._call("load", saved, len(saved))

"""Dialogues of a till with a terminal, as records of a journal: what `journal_tears.py` tears. Amounts, numbers and codes are
chosen here, and what a terminal says is worked by hand after docs/FORMAT.md.
"""
from journal_model import ABORT, ACK, COMPLETION, Writer, digits, message, status

NACK = 0x84
DECLINED, CANCELLED, TAKEN_BACK, NOT_POSSIBLE = 0x05, 0x6C, 0xB4, 0xB5


class Dialogue(Writer):
    """A writer that knows what a terminal answers."""

    def registered(self):
        self.register()
        self.hear(ACK, None)
        self.hear(message(COMPLETION, bytes.fromhex("2912345678490978")))

    def taken(self, amount):
        """A payment that the terminal works on."""
        self.pay(amount)
        self.hear(ACK, None)

    def approved(self, amount, number, **fields):
        """A payment that a status approves, under that trace and receipt number."""
        self.taken(amount)
        self.hear(status(amount, number, number, **fields))

    def completed(self):
        self.hear(message(COMPLETION))

    def given_up(self, code):
        self.hear(message(ABORT, bytes([code])))

    def paid(self, amount, number, **fields):
        self.approved(amount, number, **fields)
        self.completed()

    def reversing(self, place, number):
        """A reversal that the terminal works on."""
        self.reverse(place, digits(number, 2))
        self.hear(ACK, None)

    def asking(self):
        """An ask that the terminal works on."""
        self.ask()
        self.hear(ACK, None)

    def repeated(self, amount, number, **fields):
        """An ask that the terminal answers with this status."""
        self.asking()
        self.hear(status(amount, number, number, **fields))
        self.completed()

    def again(self):
        """The line was lost, and is up again."""
        self.lost()
        self.registered()


def register(of):
    of.registered()


def pay(of):
    of.registered()
    of.taken(1234)
    of.hear(message(b"\x04\xFF", b"\x0A"))
    of.hear(status(1234, 17, 5, currency=978))
    of.hear(message(b"\x06\xD1", b"\0APPROVED 1234"))
    of.completed()


def decline(of):
    of.registered()
    of.taken(500)
    of.hear(message(b"\x04\x0F", b"\x27\x6C"))
    of.given_up(CANCELLED)
    of.taken(600)
    of.hear(status(600, 2, 2, result=DECLINED))
    of.completed()
    of.pay(700)
    of.hear(bytes([NACK, 0x6F, 0]), None)


def abort(of):
    of.registered()
    of.paid(300, 1)
    of.approved(400, 2)
    of.given_up(0xFF)
    of.taken(500)
    of.given_up(0x64)
    of.paid(600, 3)


def reverse(of):
    of.registered()
    of.paid(1000, 1)
    of.paid(2000, 2)
    of.reversing(1, 1)
    of.hear(status(1000, 3, 3, original=1, currency=978))
    of.hear(message(b"\x06\xD1", b"\0REVERSED 1000"))
    of.completed()


def reversal_refused(of):
    of.registered()
    of.paid(1000, 1)
    of.reverse(1, b"\0\1")
    of.hear(bytes([NACK, NOT_POSSIBLE, 0]), None)
    of.reversing(1, 1)
    of.given_up(NOT_POSSIBLE)
    of.reversing(1, 1)
    of.given_up(TAKEN_BACK)


def reversal_unclear(of):
    of.registered()
    of.paid(1000, 1)
    of.paid(20, 2)
    of.reversing(2, 2)
    of.again()
    of.reversing(1, 1)
    of.hear(status(1000, 4, 4, original=1))
    of.again()
    of.reverse(1, b"\0\1")
    of.hear(bytes([NACK, TAKEN_BACK, 0]), None)
    of.reversing(2, 2)
    of.hear(status(20, 5, 5, original=2))
    of.completed()


def close(of):
    of.registered()
    of.paid(1, 1)
    of.close()
    of.hear(ACK, None)
    of.completed()
    of.paid(999999999999, 2)


def lost_line(of):
    of.registered()
    of.paid(10, 1)
    of.approved(20, 2)
    of.again()
    of.paid(30, 3)
    of.taken(40)
    of.again()
    of.paid(50, 5)


def restart(of):
    of.registered()
    of.paid(10, 1)
    of.pay(20)
    of.again()
    of.reverse(1, b"\0\1")
    of.again()
    of.again()
    of.paid(30, 99)
    of.close()
    of.again()


def cancel(of):
    of.registered()
    of.taken(100)
    of.cancel()
    of.hear(ACK, None)
    of.given_up(CANCELLED)
    of.approved(200, 1)
    of.cancel()
    of.hear(ACK, None)
    of.completed()
    of.approved(300, 2)
    of.cancel()
    of.given_up(CANCELLED)


def several(of):
    of.registered()
    of.paid(1, 1)
    of.taken(2)
    of.completed()  # no status
    of.taken(3)
    of.hear(status(4, 3, 3))
    of.completed()  # another amount
    of.taken(5)
    of.hear(status(5, None, 5))
    of.completed()  # no trace number
    of.paid(6, 1)  # a trace number that is booked already
    of.paid(7, 7, currency=840)
    of.approved(8, 8)
    of.hear(status(8, 9, 8))
    of.completed()  # statuses that contradict one another
    of.paid(9, 10, original=1)
    of.taken(10)
    of.hear(status(10, 11))
    of.hear(status(10, 11))
    of.completed()  # the same status twice, and no receipt number
    of.paid(11, 12)


def remarked(of):
    """A person's remarks, between records and at the end."""
    of.remark("till 3, ground floor")
    of.registered()
    of.remark("payments of Monday")
    of.paid(10, 1)
    of.remark("")
    of.taken(20)
    of.remark("closed for lunch: the line was cut")
    of.again()
    of.remark("the customer paid 20 in cash")


def noted(of):
    """Orders with a time, with a reference, and with both."""
    of.note = " at 2026-11-28T09:14:03Z"
    of.registered()
    of.note = " at 2026-11-28T09:15:00Z ref A-1009"
    of.paid(10, 1)
    of.note = ' ref "\\' + 38 * "~"
    of.approved(20, 2)
    of.again()
    of.note = " at 2026-11-28T09:20:41Z"
    of.approved(30, 4)
    of.again()
    of.note = " ref at"
    of.reversing(1, 1)
    of.hear(status(10, 3, 3, original=1))
    of.completed()
    of.note = " at 0000-99-99T99:99:99Z"
    of.close()


def asked(of):
    """A payment, a reversal and a payment whose lines were lost, and what the terminal says of each when it is asked."""
    of.registered()
    of.paid(1000, 1)
    of.taken(500)
    of.again()
    of.repeated(500, 2)  # a new approval: it was paid
    of.reversing(1, 1)
    of.again()
    of.repeated(500, 2)  # the status from before: it was not reversed
    of.taken(700)
    of.again()
    of.asking()
    of.given_up(NOT_POSSIBLE)
    of.repeated(500, 2)  # the status from before: it was not paid


def padded(of):
    """A terminal that pads its lengths, read with `--loose`."""
    of.register()
    of.hear(bytes.fromhex("8000FF0000"), None)
    of.hear(bytes.fromhex("060FFF0000"))
    of.pay(1234)
    of.hear(bytes.fromhex("8000FF0000"), None)
    of.hear(bytes.fromhex("040FFF1000 2700 04000000001234 0B000017 870005"))
    of.hear(bytes.fromhex("060FFF0600 060407810141"))


def by_receipt(of):
    """Reversals whose statuses name no payment, in a book with the rule on receipt numbers."""
    of.registered()
    of.paid(1000, 1)
    of.paid(2000, 2)
    of.paid(2000, 3)
    of.reversing(1, 1)
    of.hear(status(1000, 4, 4))
    of.completed()
    of.reversing(2, 2)
    of.hear(status(2000, 5, 5))
    of.completed()  # two payments have the amount
    of.paid(3000, 6)
    of.reversing(4, 6)
    of.hear(status(3000, 6, 6))
    of.completed()  # the receipt number of the payment


ALL = (register, pay, decline, abort, reverse, reversal_refused, reversal_unclear, close, lost_line, restart, cancel, several,
       remarked, noted, asked, padded, by_receipt)

# What each dialogue comes to when it has ended: entries (amount, trace number, mark), unclear payments, the total.
BOOKS = {
    register: ([], [], 0),
    pay: ([(1234, 17, None)], [], 1234),
    decline: ([], [], 0),
    abort: ([(300, 1, None), (600, 3, None)], [(400, "AbortAfterApproval")], 900),
    reverse: ([(1000, 1, "reversed"), (2000, 2, None)], [], 2000),
    reversal_refused: ([(1000, 1, "B4")], [], 1000),
    reversal_unclear: ([(1000, 1, "B4"), (20, 2, "reversed")], [], 1000),
    close: ([(1, 1, None), (999999999999, 2, None)], [], 1000000000000),
    lost_line: ([(10, 1, None), (30, 3, None), (50, 5, None)], [(20, "Line"), (40, "Line")], 90),
    restart: ([(10, 1, "Line"), (30, 99, None)], [(20, "Line")], 40),
    cancel: ([(200, 1, None)], [(300, "AbortAfterApproval")], 200),
    several: ([(1, 1, None), (10, 11, None), (11, 12, None)],
              [(2, "NoStatus"), (3, "AmountDiffers"), (5, "NoTrace"), (6, "TraceUsed"), (7, "WrongCurrency"), (8, "Conflict"),
               (9, "Conflict")], 22),
    remarked: ([(10, 1, None)], [(20, "Line")], 10),
    noted: ([(10, 1, "reversed")], [(20, "Line"), (30, "Line")], 0),
    asked: ([(1000, 1, "Line")], [(500, "Line"), (700, "Line")], 1000),
    padded: ([(1234, 17, None)], [], 1234),
    by_receipt: ([(1000, 1, "reversed"), (2000, 2, "NoTrace"), (2000, 3, None), (3000, 6, "NoTrace")], [], 7000),
}


def written(dialogue):
    """The records of a dialogue."""
    of = Dialogue(by_receipt=dialogue is by_receipt)
    dialogue(of)
    return of

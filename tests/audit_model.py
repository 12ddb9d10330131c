#!/usr/bin/env python3
"""A model of the output of `audit` and `audit --json`, written from docs/FORMAT.md, with its tables of the till's machine, and
docs/JSON.md alone, without a look at the program's code.

`Audit` goes over the bytes of a trace with the reader of `json_model.py` and has the books: what is booked, what is unclear
and why, how many messages were read, and how many streams are bad. With files as arguments it writes the JSON of each.
"""
import sys

import json_model

ORDERS = ("Registration", "Authorisation", "Reversal", "EndOfDay", "Other")
RESULT, AMOUNT, TRACE, CURRENCY, RECEIPT, ORIGINAL = "27", "04", "0B", "49", "87", "37"
# A refund, and the orders of a pre-authorisation.
UNFOLLOWED = {"0631", "0622", "0623", "0624", "0625"}
DECLINING = ("declines", None)


def all_of(message, bmp):
    """The contents of a field, wherever it appears in a message."""
    found = [field for field in message.get("fields", ()) if field["bmp"] == bmp]
    return [field.get("value", field.get("code", field.get("content"))) for field in found]


def only(message, bmp):
    """What is said of a field: it appears exactly once, else nothing is."""
    found = all_of(message, bmp)
    return found[0] if len(found) == 1 else None


def amount_of(message):
    return only(message, AMOUNT) or None


class Audit:
    def __init__(self, trace, loose=False, is_open=False):
        self.booked, self.unclear, self.messages, self.bad, self.passed, self.unfollowed = [], [], 0, 0, 0, []
        self.lines_of_booked, self.lines_of_unclear = [], []
        self.amount, self.statuses, self.taken_up, self.currency, self.named, self.order = None, [], False, None, set(), None
        self.sides = {sign: json_model.Side(name, loose, is_open) for sign, name in json_model.SIDES.items()}
        self.malformed, self.is_open = False, is_open
        for number, row in json_model.lines_of(trace):
            if row == b"!":
                self.cut()
                self.ends("Line", number)
                self.malformed = False
            elif row[:1] in self.sides:
                self.feed(row[:1], json_model.bytes_of(number, row), number)
            elif row and row[:1] != b"#":
                raise json_model.Fault(number)
        self.cut()
        self.ends("Unfinished", None)

    def feed(self, sign, piece, number):
        if self.malformed:
            return
        for event in self.sides[sign].feed(piece, number):
            if "refused" in event and self.is_open:
                self.bad += 1
                self.passed += 1
                self.known(sign, self.sides[sign].first, number)
            elif "resumed" in event or "stopped" in event:
                continue
            elif "refused" in event:
                self.malformed = True
                self.bad += 1
                self.cut()
                self.ends("Malformed", number)
            else:
                self.messages += 1
                (self.sent if sign == b">" else self.heard)(event)

    def known(self, sign, first, line):
        """A refused message, of which only the control bytes are known."""
        control = first[:2].hex().upper()
        kind = json_model.KINDS.get(control, ("Nack" if first[0] == 0x84 else "Other",))[0]
        if kind in ("Registration", "Authorisation", "Reversal", "EndOfDay", "AbortOrder", "Other") and sign == b">":
            self.sent({"kind": kind, "line": line, "control": control})
        elif kind in ("Status", "Completion", "Abort") and sign == b"<":
            self.heard({"kind": kind, "line": line})

    def cut(self):
        """Both streams start anew."""
        self.bad += sum(1 for side in self.sides.values() for _ in side.cut(0))

    def sent(self, message):
        if message["kind"] not in ORDERS:
            return
        self.ends("Unfinished", message["line"])
        if message.get("control") in UNFOLLOWED:
            self.order = {"control": message["control"], "line": message["line"], "name": json_model.COMMANDS[message["control"]]}
        if message["kind"] == "Authorisation" and amount_of(message) is None:
            self.order = {"control": "0601", "line": message["line"]}
        if self.order:
            self.unfollowed.append(self.order)
            self.taken_up = False
        if message["kind"] == "Authorisation":
            self.amount, self.statuses, self.taken_up = amount_of(message), [], False
        if message["kind"] == "Registration":
            self.currency = message.get("currency")
            self.named |= {self.currency} - {None}

    def answered(self, kind, message):
        """What an answer says of the order that runs and is not followed: the first approval of an amount counts."""
        self.taken_up |= kind == "Ack"
        if kind == "Status" and only(message, RESULT) == "00" and amount_of(message):
            trace = only(message, TRACE)
            self.order |= {"approved": amount_of(message)} | ({} if trace is None else {"trace": int(trace)})
        if "approved" in self.order or kind in ("Completion", "Abort") or kind == "Nack" and not self.taken_up:
            self.order = None

    def heard(self, message):
        kind = "Ack" if message["kind"] == "Nack" and message["code"] == "00" else message["kind"]
        if self.order:
            self.answered(kind, message)
        if self.amount is None:
            return
        if kind == "Status":
            self.statuses.append(self.class_of(message))
        elif kind == "Ack":
            self.taken_up = True
        elif kind == "Completion":
            self.completed(message["line"])
        elif kind == "Abort" or kind == "Nack" and not self.taken_up:
            self.ends(None if set(self.statuses) <= {DECLINING} else "AbortAfterApproval", message["line"])

    def class_of(self, status):
        """What a status says of the payment that runs: that it declines it, a cause, or the trace and receipt numbers."""
        named = all_of(status, CURRENCY)
        if only(status, RESULT) not in (None, "00"):
            return DECLINING
        if only(status, RESULT) is None or all_of(status, ORIGINAL):
            return "Conflict"
        if len(named) > 1 or self.currency and named and named[0] != self.currency:
            return "WrongCurrency"
        if only(status, AMOUNT) != self.amount:
            return "AmountDiffers"
        return "NoTrace" if only(status, TRACE) is None else (int(only(status, TRACE)), only(status, RECEIPT))

    def completed(self, line):
        """The payment that runs was completed: it is booked, declined or unclear."""
        fault = self.fault()
        if fault is None and self.statuses[0] != DECLINING:
            self.booked.append((self.amount, *self.statuses[0]))
            self.lines_of_booked.append(line)
        self.ends(fault, line)

    def fault(self):
        """What is wrong with the statuses: they agree where all decline, or all are good under one trace number."""
        if not self.statuses:
            return "NoStatus"
        for one in self.statuses:
            if isinstance(one, str):
                return one
            if one[0] != self.statuses[0][0]:
                return "Conflict"
        return "TraceUsed" if self.statuses[0][0] in [trace for _, trace, _ in self.booked] else None

    def ends(self, cause, line):
        """The order that runs, if one does, is over at this line. A payment is unclear where there is a cause."""
        if self.amount and cause:
            self.unclear.append((self.amount, cause))
            self.lines_of_unclear.append(line)
        self.amount = self.order = None

    def total(self):
        return sum(amount for amount, _, _ in self.booked)

    def objects(self):
        for (amount, trace, receipt), line in zip(self.booked, self.lines_of_booked):
            yield {"booked": {"amount": amount, "line": line, "trace": trace, **({"receipt": receipt} if receipt else {})}}
        for (amount, cause), line in zip(self.unclear, self.lines_of_unclear):
            yield {"unclear": {"amount": amount, "cause": cause, **({"line": line} if line else {})}}
        yield from ({"unfollowed": order} for order in self.unfollowed)
        currency = {"currency": min(self.named)} if len(self.named) == 1 else {}
        yield {"bad": self.bad, **currency, "messages": self.messages, "total": self.total()}


def note_of(order):
    """What standard error says of an order that is not followed."""
    control, name = order["control"], order.get("name", "payment without one amount")
    approved = f"; approved {order['approved']}" if "approved" in order else ""
    trace = f", trace {order['trace']:06}" if "trace" in order else ""
    return f"zvt: line {order['line']} of the trace: {control[:2]} {control[2:]} ({name}) is not followed{approved}{trace}"


def text_of(said):
    """The line of `audit` for an object."""
    if "booked" in said:
        return "booked {amount} trace {trace:06} receipt {receipt}".format(**{"receipt": "-", **said["booked"]})
    return "unclear {amount} {cause}".format(**said["unclear"]) if "unclear" in said else f"total {said['total']}"


def main(model):
    for path in sys.argv[1:]:
        with open(path, "rb") as file:
            for said in model(file.read()).objects():
                print(json_model.json_of(said))
    return 0


if __name__ == "__main__":
    sys.exit(main(Audit))

#!/usr/bin/env python3
"""A model of `report --json`, written from docs/FORMAT.md, with its tables of the till's machine, and docs/JSON.md alone, without a
look at the program's code.

`Report` goes over the bytes of a trace with the reader of `json_model.py` and judges each order of the till. With files as
arguments it writes the JSON of each.
"""
import datetime
import itertools
import re
import sys

import json_model
from audit_model import AMOUNT, CURRENCY, ORDERS, ORIGINAL, RECEIPT, RESULT, TRACE, Audit, all_of, amount_of, only
from report_findings import findings
from report_sentences import Sentences

# Commands outside the profile that move money. Those with a password have it before their fields.
MOVES_MONEY = {"0604", "0609", "060A", "0621", "0622", "0623", "0624", "0625", "0631"}
WITH_PASSWORD = {"0625", "0631"}
CONTROLS = {"Registration": "0600", "Authorisation": "0601", "Reversal": "0630", "EndOfDay": "0650"}
ALREADY_REVERSED = "B4"
DECLINES, GOOD = "declines", "good"
CHECKS = ("ApprovedThenUndone", "PaymentUnclear", "PaidAlike", "ReversalRefused", "CloseUnclear", "CloseRefused", "CloseDiffers")
MOVES = ("payment", "reversal", "other", "close")
TOTALS, CARD_NUMBER, CARD_TYPE, CARD_NAME, TERMINAL = "60", "22", "8A", "8B", "29"
NAMES = {**json_model.COMMANDS, "0600": "registration"}
BRANDS = ("girocard", "JCB", "Mastercard", "American Express", "VISA", "Diners", "others")
# Whether an order adds its amount to the terminal's total, or takes it from the total.
SIGNS = {"0604": 1, "0609": 1, "0621": 1, "0624": 1, "0631": -1}


def fields_of(payload):
    """A message with the fields that these bytes spell, if they spell fields."""
    reader, at = json_model.fields(json_model.Content(len(payload)), True), 0
    try:
        wanted = next(reader)
        while at + wanted <= len(payload):
            at += wanted
            wanted = reader.send(payload[at - wanted:at])
    except StopIteration as ended:
        return {"fields": ended.value[0]}
    except json_model.Refused:
        pass
    return {}


def with_fields(message):
    """The message, with fields also if it is an order of money outside the profile."""
    control = message.get("control")
    if message["kind"] != "Other" or control not in MOVES_MONEY or "data" not in message:
        return message
    return {**message, **fields_of(bytes.fromhex(message["data"])[3 if control in WITH_PASSWORD else 0:])}


def totals_of(status):
    """The digits of BMP 60, if it has the totals by card."""
    content = only(status, TOTALS)
    if content is None or len(content) != 106 or not all(content[at + 2:at + 14].isdecimal() for at in range(8, 106, 14)):
        return None
    return content


def groups_of(totals):
    """The groups in the digits of BMP 60 that have a payment or a sum: two digits of the count, in hexadecimal, and twelve of the sum."""
    found = []
    for brand, (count, total) in zip(BRANDS, re.findall("(..)(.{12})", totals[8:])):
        if count != "00" or int(total):
            found.append({"card": brand, "count": int(count, 16), "sum": int(total)})
    return found


def is_masked(number):
    """Whether a card number hides at least four of its digits and shows at most ten. The filler F may stand at its end."""
    digits = number.hex().upper()
    return len(number) <= 10 and bool(re.fullmatch("[0-9E]*F*", digits)) and digits.count("E") >= 4 and sum(map(str.isdecimal, digits)) <= 10


def card_of(status):
    """The card that a status names: its name, or else that of its type, and its masked number."""
    fields = [field for field in status.get("fields", ()) if field["bmp"] == CARD_NUMBER]
    number = fields[0]["hidden"].content if len(fields) == 1 else b""
    texts = [field["text"] for field in status.get("fields", ()) if field["bmp"] == CARD_NAME]
    name = re.findall(r"\\x..|.", texts[0]) if len(texts) == 1 else []
    name = "".join(one for one in name if one != r"\x7F" and not re.match(r"\\x[01]", one)) if len(name) <= 24 else ""
    found = {"card": name or json_model.CARD_TYPES.get(only(status, CARD_TYPE)), "card_number": number.hex().upper().rstrip("F") if is_masked(number) else None}
    return found if any(found.values()) else {}


def explained(differs, items):
    """The numbers of the orders in the only set of at most three whose amounts make the difference."""
    if differs is None or len(items) > 64:
        return None
    sets = [one for size in (1, 2, 3) for one in itertools.combinations(items, size) if sum(amount for _, amount in one) == differs]
    return [number for number, _ in sets[0]] if len(sets) == 1 else None


MARK = re.compile(rb"#@ (\d{4}-\d\d-\d\dT\d\d:\d\d:\d\d)(?:\.(\d{1,9}))?Z")


def moment_of(line):
    """The second and the nanosecond of a time mark, or None."""
    found = MARK.fullmatch(line)
    try:
        # The calendar of Python has no year 0, which is a leap year like 2000.
        text = found[1].decode()
        second = datetime.datetime.fromisoformat("2000" + text[4:] if text.startswith("0000") else text)
        return (text, int((found[2] or b"").ljust(9, b"0"))) if second else None
    except (TypeError, ValueError):
        return None


def order_time(line):
    """The time in the first line of an order's record in a book."""
    found = re.match(rb"# (?:register|close|cancel|pay [^ ]*|reverse [^ ]*) at (....-..-..T..:..:..Z)", line)
    return found and moment_of(b"#@ " + found[1])


class Times:
    """The times of a trace's lines, the lines of bad marks, and the first line at which the clock goes back."""

    def __init__(self, trace):
        self.at, self.bad, self.back, mark, before = {}, [], None, None, None
        *whole, last = trace.split(b"\n")
        for number, line in enumerate([*(line.removesuffix(b"\r") for line in whole), last], 1):
            if line.startswith(b"#@") and moment_of(line) is None:
                self.bad.append(number)
            if line.startswith(b"#") or not line:
                mark = moment_of(line) or order_time(line) or mark
                continue
            if mark:
                if self.back is None and before and mark < before:
                    self.back = number
                self.at[number] = before = mark
            mark = None

    def text(self, number):
        """The time of a line, as JSON writes it."""
        if number not in self.at:
            return None
        second, nano = self.at[number]
        return f"{second}.{nano:09d}"[:-6 if nano % 1_000_000 == 0 else None] + "Z"

    def seconds(self, number):
        """Seconds that grow with time, where each month has 31 days."""
        if number not in self.at:
            return None
        year, month, day, hour, minute, second = map(int, re.findall(r"\d+", self.at[number][0]))
        return ((((year * 12 + month) * 31 + day) * 24 + hour) * 60 + minute) * 60 + second

    def members(self):
        lines = list(self.at)
        return {"time_from": self.text(lines[0]) if lines else None, "time_to": self.text(lines[-1]) if lines else None,
                "times_back": self.back, "times_bad": len(self.bad) or None}


NUMBER = re.compile(rb"\d(?:[ .-]?\d)*")
SLIPS = {"merchant": "merchant receipt", "customer": "customer receipt", "administration": "terminal report"}


def kind_by(first):
    """The kind of a refused message, by its control bytes."""
    return json_model.KINDS.get(first[:2].hex().upper(), ("Nack" if first[0] == 0x84 else "Other",))[0]


def without_numbers(text):
    """A printed text with an asterisk for each digit of a number of 13 digits or more, but not for its last four."""
    def starred(found):
        digits = len(re.sub(rb"\D", b"", found[0]))
        return re.sub(rb"\d", b"*", found[0], count=digits - 4) if digits >= 13 else found[0]
    return NUMBER.sub(starred, text)


class Slips:
    """What the terminal printed: print lines with nothing but acknowledgements between them are one slip, and so is each text block."""

    def __init__(self, trace, loose, strict):
        self.found, self.orders, self.running, self.strict, malformed = [], 0, None, strict, False
        sides = {sign: json_model.Side(name, loose, not strict) for sign, name in json_model.SIDES.items()}
        for number, row in json_model.lines_of(trace):
            if row == b"!":
                malformed, self.running = False, None
                for side in sides.values():
                    list(side.cut(0))
            elif row[:1] in sides and not malformed:
                for event in sides[row[:1]].feed(json_model.bytes_of(number, row), number):
                    self.take(row[:1], event, sides[row[:1]].first)
                    malformed |= "refused" in event and strict

    def take(self, sign, event, first):
        kind = event.get("kind")
        if "refused" in event:
            # Read openly, it is known by its control bytes.
            kind = None if self.strict else kind_by(first)
        elif kind == "Ack":
            return
        elif kind == "PrintLine" and sign == b"<":
            if self.running is None:
                self.running = self.add("print lines", event)
            self.running["lines"][1] = event["line"]
            self.running["texts"].append(shown(event["text"]))
            return
        elif kind == "TextBlock" and sign == b"<":
            name, texts = json_model.block_of(event)
            if texts:
                self.add(SLIPS.get(name, "print texts"), event)["texts"] += [json_model.quoted(without_numbers(text)) for text in texts]
        self.running = None
        self.orders += sign == b">" and kind in ORDERS

    def add(self, kind, event):
        self.found.append({"kind": kind, "lines": [event["line"]] * 2, "order": self.orders or None, "texts": []})
        return self.found[-1]


def shown(text):
    """The text of a print line, which has escapes already. A number has none."""
    found = re.findall(r"\\x..|.", text)
    return json_model.quoted(without_numbers(bytes(int(one[2:], 16) if one[0] == "\\" else ord(one) for one in found)))


class Order:
    """An order of the till, with what was heard of it."""

    def __init__(self, kind, message, control, currency, **said):
        self.kind, self.control, self.currency, self.entry = kind, control, currency, said.get("entry")
        self.first = self.last = message["line"]
        self.amount = amount_of(message)
        self.receipt = only(message, RECEIPT)
        self.accepted, self.statuses, self.approval, self.outcome, self.last_status, self.card = False, [], None, None, {}, {}
        self.undoing = None

    @property
    def is_of_money(self):
        """Whether it is a payment, or a reversal of an entry of the book."""
        return self.kind == "payment" or self.kind == "reversal" and self.entry is not None

    @property
    def is_undone(self):
        """Whether it was aborted after the first status with an original, field 37, named what the terminal had approved."""
        trace = self.approval and self.approval["trace"]
        original, own = self.undoing or ("", None)
        return self.outcome == ("unclear", "AbortAfterApproval") and trace is not None and original == f"{trace:06}" and own != original

    def class_of(self, status, book):
        """What a status says of the order: that it declines it, with the code; a cause of doubt; or that it is good."""
        result, named = only(status, RESULT), all_of(status, CURRENCY)
        if result not in (None, "00"):
            return DECLINES, result
        if result is None or self.kind == "payment" and all_of(status, ORIGINAL):
            return "Conflict", None
        if not self.is_of_money:
            return GOOD, None
        if len(named) > 1 or self.currency and named and named[0] != self.currency:
            return "WrongCurrency", None
        entry = book[self.entry] if self.kind == "reversal" else None
        if only(status, AMOUNT) != (entry["amount"] if entry else self.amount):
            return "AmountDiffers", None
        if entry:
            return (GOOD, None) if only(status, ORIGINAL) == f"{entry['trace']:06}" else ("NoTrace", None)
        trace = only(status, TRACE)
        return ("NoTrace", None) if trace is None else (GOOD, int(trace))

    def noted(self, status, book):
        self.statuses.append((*self.class_of(status, book), only(status, RECEIPT)))
        self.last_status = status
        if only(status, ORIGINAL) is not None:
            self.undoing = self.undoing or (only(status, ORIGINAL), only(status, TRACE))
        if only(status, RESULT) == "00":
            self.card = self.card or card_of(status)
        if self.approval is None and only(status, RESULT) == "00" and amount_of(status):
            self.approval = {"amount": amount_of(status), "line": status["line"], "receipt": only(status, RECEIPT),
                             "trace": int(only(status, TRACE)) if only(status, TRACE) else None}

    def fault(self):
        """What is wrong with the statuses: they agree if all decline, or all are good under one number."""
        first = self.statuses[0]
        for one in self.statuses:
            if one[0] not in (DECLINES, GOOD):
                return one[0]
            if one[0] != first[0] or one[0] == GOOD and one[1] != first[1]:
                return "Conflict"
        return None

    def completed(self, book):
        """The outcome of a completion."""
        if self.control == CONTROLS["Registration"]:
            return "completed", None
        done = {"close": "closed"}.get(self.kind, "completed")
        if not self.statuses:
            return ("unclear", "NoStatus") if self.is_of_money else (done, None)
        if self.kind == "close" and all(one[0] != DECLINES for one in self.statuses):
            return done, None
        fault = self.fault()
        if fault:
            return "unclear", fault
        if self.statuses[0][0] == DECLINES:
            return "declined", self.statuses[0][1]
        if self.kind == "payment":
            return ("unclear", "TraceUsed") if self.statuses[0][1] in [entry["trace"] for entry in book] else ("paid", None)
        return "reversed" if self.is_of_money else done, None

    def stopped(self, word, code):
        """The outcome of an abort or a refusal with this code."""
        if self.control == CONTROLS["Registration"] or all(one[0] == DECLINES for one in self.statuses):
            return word, code
        return "unclear", "AbortAfterApproval"


class Report(Audit):
    def __init__(self, trace, loose=False, strict=False):
        self.orders, self.running, self.book, self.in_force = [], None, [], None
        self.times, self.terminal = Times(trace), None
        self.trace_read = trace, loose, strict
        super().__init__(trace, loose, not strict)

    def sent(self, message):
        super().sent(message)
        if message["kind"] == "AbortOrder" and self.running:
            self.running.last = message["line"]
        if message["kind"] not in ORDERS:
            return
        message = with_fields(message)
        control = CONTROLS.get(message["kind"]) or message["control"]
        kind, said = "order", {}
        if control in MOVES_MONEY or message["kind"] == "Authorisation":
            kind = "other"
        if message["kind"] == "EndOfDay":
            kind = "close"
        elif message["kind"] == "Authorisation" and amount_of(message):
            kind = "payment"
        elif message["kind"] == "Reversal":
            kind = "reversal"
            places = [at for at, entry in enumerate(self.book) if entry["receipt"] and entry["receipt"] == only(message, RECEIPT)]
            said = {"entry": places[-1]} if places else {}
        self.running = Order(kind, message, control, self.in_force, **said)
        self.orders.append(self.running)
        if message["kind"] == "Registration":
            self.in_force = message.get("currency")

    def known(self, sign, first, line):
        super().known(sign, first, line)
        if sign == b"<" and self.running and kind_by(first) in (*ORDERS, "AbortOrder"):
            self.running.last = line

    def heard(self, message):
        super().heard(message)
        if self.terminal is None and message["kind"] in ("Status", "Completion"):
            named = only(message, TERMINAL)
            self.terminal = named if named and named.isdecimal() else None
        order = self.running
        if order is None:
            return
        order.last = message["line"]
        kind = "Ack" if message["kind"] == "Nack" and message["code"] == "00" else message["kind"]
        if kind == "Status":
            order.noted(message, self.book)
        elif kind == "Ack":
            order.accepted = True
        elif kind == "Completion":
            self.over(order.completed(self.book))
        elif kind == "Abort":
            self.over(order.stopped("aborted", message.get("code", "FF")))
        elif kind == "Nack" and not order.accepted:
            self.over(order.stopped("refused", message["code"]))

    def ends(self, cause, line):
        super().ends(cause, line)
        if self.running and cause in ("Line", "Malformed", "Unfinished"):
            if cause != "Unfinished":
                self.running.last = line
            self.over(("unclear", cause))

    def over(self, outcome):
        """The running order has this outcome."""
        order, self.running = self.running, None
        order.outcome = outcome
        word, why = outcome
        if word == "paid":
            order.entry = len(self.book)
            self.book.append({"amount": order.amount, "trace": order.statuses[0][1], "receipt": order.statuses[0][2], "reversed": False, "doubt": None})
        if order.kind != "reversal" or not order.is_of_money:
            return
        entry = self.book[order.entry]
        if word == "reversed":
            entry.update({"reversed": True, "doubt": None})
        elif word == "unclear":
            entry["doubt"] = why
        elif word in ("refused", "aborted") and why == ALREADY_REVERSED:
            entry["doubt"] = ALREADY_REVERSED

    # ---- what to look at

    def looks(self):
        for at, order in enumerate(self.orders):
            case = self.case_of(order, self.orders[at + 1:])
            if case == "PaidAlike":
                yield case, at, self.repeated(order), None
            elif case:
                again = [later for later, one in enumerate(self.orders) if later > at and order.kind == one.kind == "payment"
                         and one.amount == order.amount and one.outcome[0] in ("paid", "unclear")]
                yield case, at, again[0] if again else None, self.confirming(at) if case == "ApprovalRepeated" else None

    def confirming(self, at):
        """The first order after this payment with an approval of its amount, before the next one that moves money or ends a day."""
        for place in range(at + 1, len(self.orders)):
            one = self.orders[place]
            if one.kind in MOVES:
                return None
            if one.approval and one.approval["amount"] == self.orders[at].amount:
                return place
        return None

    def stands(self, order):
        return order.outcome[0] == "paid" and not self.book[order.entry]["reversed"] and order.card.get("card_number")

    def repeated(self, order):
        """The last payment before this one with the same card, if both stand, have one amount and are not known to be more than 15 minutes apart."""
        if not self.stands(order):
            return None
        before = [at for at, one in enumerate(self.orders[:self.orders.index(order)]) if self.stands(one) and one.card["card_number"] == order.card["card_number"]]
        if not before or self.orders[before[-1]].amount != order.amount:
            return None
        seconds = [self.times.seconds(one.first) for one in (self.orders[before[-1]], order)]
        return before[-1] if None in seconds or abs(seconds[1] - seconds[0]) <= 15 * 60 else None

    def case_of(self, order, later):
        word, why = order.outcome
        if self.repeated(order) is not None:
            return "PaidAlike"
        if order.kind == "payment" and word == "unclear":
            if order.is_undone:
                return "ApprovedThenUndone"
            if order.approval is None:
                return "PaymentUnclear" if self.confirming(self.orders.index(order)) is None else "ApprovalRepeated"
            return "ApprovedNotCompleted" if order.approval["amount"] == order.amount else "OtherAmount"
        if order.kind == "close":
            if word == "closed":
                return "CloseDiffers" if "differs" in said(**self.close_members(order)) else None
            return "CloseUnclear" if word == "unclear" else "CloseRefused"
        if order.kind == "other":
            return "OtherUnclear" if word == "unclear" else None
        if order.kind != "reversal":
            return None
        if not order.is_of_money:
            return "ReversalElsewhere" if word in ("completed", "unclear") else None
        decided = any(one.kind == "reversal" and one.entry == order.entry and (
            one.outcome[0] in ("reversed", "unclear") or one.outcome[0] in ("refused", "aborted") and one.outcome[1] == ALREADY_REVERSED)
            for one in later)
        if word == "unclear":
            return None if decided else "ReversalUnclear"
        if word in ("refused", "aborted") and why == ALREADY_REVERSED:
            return None if decided or self.book[order.entry]["reversed"] else "TakenBackBefore"
        return "ReversalRefused" if word in ("declined", "refused", "aborted") else None

    # ---- what is written

    def objects(self):
        yield {"summary": self.summary()}
        sentences = Sentences(self)
        for case, at, again, confirmed in self.looks():
            order = self.orders[at]
            weight = "check" if case in CHECKS or case == "ReversalElsewhere" and order.outcome[0] == "completed" else "act"
            others = [None if place is None else self.orders[place] for place in (again, confirmed)]
            yield {"look": said(again=None if again is None else again + 1, case=case, cause=self.ending(order).get("cause"),
                                confirmed_by=None if confirmed is None else confirmed + 1, lines=[order.first, order.last], order=at + 1,
                                payment=self.number_of(order), time=self.times.text(order.first), weight=weight, **sentences.of(case, order, *others))}
        yield from findings(*self.trace_read, sentences.money)
        for number, order in enumerate(self.orders, 1):
            yield {order.kind: said(**getattr(self, f"{order.kind}_members")(order), **self.ending(order), lines=[order.first, order.last], order=number, time=self.times.text(order.first))}
        yield from ({"slip": said(**slip)} for slip in Slips(*self.trace_read).found)

    def summary(self):
        open_amounts = [order.amount for order in self.orders if order.kind == "payment" and order.outcome[0] == "unclear"]
        return said(bad=self.bad, booked=len(self.book), currency=min(self.named) if len(self.named) == 1 else None, looks=len(list(self.looks())) + len(findings(*self.trace_read, str)),
                    messages=self.messages, net=sum(entry["amount"] for entry in self.book if not entry["reversed"]),
                    others=sum(order.kind == "other" for order in self.orders), unclear=len(open_amounts), unclear_amount=sum(open_amounts),
                    reversals_unclear=sum(entry["doubt"] not in (None, ALREADY_REVERSED) for entry in self.book),
                    reversed=sum(entry["reversed"] for entry in self.book), terminal=self.terminal, total=sum(entry["amount"] for entry in self.book), **self.times.members())

    def number_of(self, order):
        payments = [one for one in self.orders if one.kind == "payment"]
        return payments.index(order) + 1 if order.kind == "payment" else None

    def ending(self, order):
        word, why = order.outcome
        if word == "unclear":
            return {"outcome": word, "cause": why}
        return {"outcome": word, "code": why, "words": json_model.MEANINGS.get(why)} if why else {"outcome": word}

    def payment_members(self, order):
        entry = self.book[order.entry] if order.entry is not None else None
        numbers, taking = entry or order.approval or {}, [
            at for at, one in enumerate(self.orders, 1) if entry and one.kind == "reversal" and one.entry == order.entry and one.outcome[0] == "reversed"]
        doubt = entry and entry["doubt"]
        return {"amount": order.amount, "approved": order.approval and order.approval["amount"], **order.card, "payment": self.number_of(order),
                "receipt": numbers.get("receipt"), "trace": numbers.get("trace"), "reversed_by": taking[0] if taking else None,
                "reversal_unclear": doubt if doubt != ALREADY_REVERSED else None, "taken_back": doubt == ALREADY_REVERSED or None}

    def reversal_members(self, order):
        if not order.is_of_money:
            return {"amount": order.amount, "receipt": order.receipt}
        payment = next(one for one in self.orders if one.kind == "payment" and one.entry == order.entry)
        return {"amount": payment.amount, "payment": self.number_of(payment), "receipt": order.receipt}

    def other_members(self, order):
        return {"amount": order.amount or order.approval and order.approval["amount"], **self.order_members(order)}

    def close_members(self, order):
        closing = self.closings().get(id(order))
        if closing is None:
            return {}
        stated, book, totals, items = closing
        differs = None if stated in (None, book) else stated - book
        return {"book": book, "differs": differs, "explained_by": explained(differs, items), "groups": groups_of(totals) if totals else None, "receipts": totals and [totals[:4], totals[4:8]],
                "stated": stated}

    def closings(self):
        """By the order: the total that the terminal states, the book of the same time, the totals by card, and what may explain a difference."""
        found, book, taken_back, items = {}, 0, set(), []
        for at, order in enumerate(self.orders):
            word = order.outcome[0]
            if order.kind == "payment" and word == "unclear":
                items.append((at + 1, order.amount))
            elif order.kind == "reversal" and self.case_of(order, self.orders[at + 1:]) == "ReversalUnclear":
                items.append((at + 1, -self.book[order.entry]["amount"]))
            elif order.kind == "other" and word in ("completed", "unclear") and SIGNS.get(order.control):
                amount = order.amount or order.approval and order.approval["amount"]
                if amount:
                    items.append((at + 1, SIGNS[order.control] * amount))
            if word == "paid":
                book += order.amount
            elif word == "reversed" and order.entry not in taken_back:
                taken_back.add(order.entry)
                book -= self.book[order.entry]["amount"]
            elif word == "closed":
                totals = totals_of(order.last_status)
                stated = only(order.last_status, AMOUNT)
                if stated is None and totals:
                    stated = sum(int(totals[at + 2:at + 14]) for at in range(8, 106, 14))
                found[id(order)] = stated, book, totals, items
                book, items = 0, []
        return found

    def order_members(self, order):
        return {"control": order.control, "name": NAMES.get(order.control)}


def said(**members):
    """The members that have a value, in the order of their names."""
    return {name: members[name] for name in sorted(members) if members[name] is not None}


if __name__ == "__main__":
    sys.exit(audit_model.main(Report))

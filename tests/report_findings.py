"""What `report` finds in a trace apart from its orders: a model of the findings, written from docs/REPORT.md alone.

`findings` says if the marks of a trace are swapped and if it has two currencies, and lists its messages that can't be read or are
incomplete, with the members of their objects. It says too which of these are a status of the terminal whose whole fields approve.
"""
import json_model
from audit_model import AMOUNT, RESULT, TRACE, only

MOST = 20  # how many are listed
ORDERS = ("Registration", "Authorisation", "Reversal", "EndOfDay", "AbortOrder")  # what only a till sends
NAMES = {
    "Ack": "acknowledgement", "Nack": "negative acknowledgement", "Registration": "registration", "Authorisation": "payment", "Reversal": "reversal",
    "EndOfDay": "end of day", "AbortOrder": "abort", "Status": "status information", "Intermediate": "intermediate status", "PrintLine": "print line",
    "TextBlock": "text block", "Completion": "completion", "Abort": "abort"}
REASONS = {
    "NotShortest": "a length has a longer form than necessary",
    "DoesNotFit": "what it begins or counts does not fit",
    "LengthForm": "no length begins with it",
    "TooDeep": "objects are nested more than six levels deep",
    "TagTooLong": "a tag has more than three bytes",
    "UnknownField": "no known field begins with it",
    "NotDigit": "it must be two digits",
    "LengthDigit": "a digit of a length must be F0 to F9"}


def kind_of(first):
    """The kind of a message that begins with these bytes."""
    return json_model.KINDS.get(first[:2].hex().upper(), ("Nack" if first[:1] == b"\x84" else "Other",))[0]


def message_of(side, first):
    """A side's message that begins with these bytes."""
    control = first[:2].hex().upper()
    name = NAMES.get(kind_of(first)) or json_model.COMMANDS.get(control) if len(control) == 4 else None
    return f"The {side.name}'s message{' ' + control if control else ''}{f' ({name})' if name else ''}"


def said(case, line, control=b"", weight="note", **sentences):
    members = {"case": case, "control": control.hex().upper() if len(control) == 2 else None, "lines": line and [line, line], "weight": weight, **sentences}
    return {"look": {name: members[name] for name in sorted(members) if members[name] is not None}}


def counted(number, word):
    return f"{number} {word}{'' if number == 1 else 's'}"


def refused(side, first, event, strict):
    where = event["refused"]
    return said("Refused", event["line"], first[:2], title=f"{message_of(side, first)} cannot be read",
                text=f"Its byte {where['place']}, counted from 0, is refused: {REASONS[where['reason']]} ({where['reason']}). "
                     f"The report goes on {'with the next connection' if strict else 'after the message'}.",
                advice=f"Send this report to the maker of the {side.name}.")


def cut_off(side, first, event):
    return said("CutOff", event["line"], first[:2], title=f"{message_of(side, first)} is incomplete",
                text=f"It breaks off after {counted(event['truncated']['after'], 'byte')}, where the trace or the connection ended.",
                advice="If the trace was cut short, make this report again from the whole trace.")


def begun(data):
    """The whole fields at the start of the data of a message that goes on."""
    found, at = [], 0
    while True:
        reader, used = json_model.field(json_model.Content(len(data) - at + 2), True), at
        try:
            wanted = next(reader)
            while used + wanted <= len(data):
                used, given = used + wanted, data[used:used + wanted]
                wanted = reader.send(given)
            return found
        except StopIteration as ended:
            found, at = found + [ended.value[0]], used
        except json_model.Refused:
            return found


def approvals(side, before, line, money):
    """The finding about a message that goes on after these bytes, if they are a status of the terminal that approves."""
    start = 5 if before[2:3] == b"\xFF" else 3
    if side.name != "terminal" or before[:2] != b"\x04\x0F" or len(before) < start:
        return []
    status = {"fields": begun(before[start:])}
    if only(status, RESULT) != "00":
        return []
    amount, trace = only(status, AMOUNT) or None, only(status, TRACE)
    trace = None if trace is None else int(trace)
    named = [] if trace is None else [f"trace {trace:06}"]
    return [said("ApprovalUnreadable", line, before[:2], "act", amount=amount, trace=trace, title="The terminal's approval cannot be read",
                 text=f"The terminal's answer could not be read to its end (byte {len(before)}). What stands before that says: "
                      + ", ".join(["approved", *([] if amount is None else [money(amount)]), *named]) + ".",
                 advice=f"If it answers a payment, the customer has probably been charged. {' for '.join(['Look', *named])} in the terminal's journal, and send this report to the "
                        "maker of the terminal.")]


def swapped(orders):
    return said("Swapped", None, weight="act", title="The marks > and < are swapped",
                text=f"The terminal's side (<) sent {counted(orders, 'order')}, which only a till sends, and the till's side (>) sent none.",
                advice="Swap the marks of the trace (tr '<>' '><'), and make this report again.")


def currencies(first, other, line):
    return said("Currencies", line, weight="check", title="The trace has two currencies",
                text=f"A registration names currency {first}, and the one in line {line} names {other}. The totals add amounts of both.",
                advice="Split the trace where the currency changes, and make a report of each part.")


def events_of(trace, loose, strict):
    """The events of a trace, each with its side, the first bytes of its message, and its bytes before the end of the reading."""
    sides, malformed, number = {sign: json_model.Side(name, loose, not strict) for sign, name in json_model.SIDES.items()}, False, 0

    def cut(line):
        for side in sides.values():
            first, before = (side.first + side.held, side.before + side.held) if side.reader else (b"", b"")
            yield from ((side, first, before, event) for event in side.cut(line))

    for number, row in json_model.lines_of(trace):
        if row == b"!":
            malformed = False
            yield from cut(number)
        elif row[:1] in sides and not malformed:
            side = sides[row[:1]]
            for event in side.feed(json_model.bytes_of(number, row), number):
                yield side, side.first, side.before, event
                malformed |= strict and "refused" in event
            if malformed:
                yield from cut(number)
    yield from cut(number)


def findings(trace, loose, strict, money):
    """What is found; `money` writes an amount."""
    orders, named, found, approved = {"till": 0, "terminal": 0}, [], [], []
    for side, first, before, event in events_of(trace, loose, strict):
        if "refused" in event or "truncated" in event:
            approved += approvals(side, before, event["line"], money)
        if "refused" in event:
            found.append(refused(side, first, event, strict))
        if "truncated" in event:
            found.append(cut_off(side, first, event))
        orders[side.name] += (kind_of(first) if "refused" in event and not strict else event.get("kind")) in ORDERS
        if side.name == "till" and event.get("kind") == "Registration" and "currency" in event:
            named.append((event["currency"], event["line"]))
    more = len(found) - MOST
    if more > 0:
        found[MOST:] = [said("MoreRefused", None, title=f"{counted(more, 'more message')} refused or cut off",
                             text="This list has only the first messages that were refused or cut off.", advice="'zvt show' names the others.")]
    others = [(currency, line) for currency, line in named if currency != named[0][0]]
    whole = [currencies(named[0][0], *others[0])] if others else []
    return ([swapped(orders["terminal"])] if orders["terminal"] and not orders["till"] else []) + approved + whole + found

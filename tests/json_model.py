#!/usr/bin/env python3
"""A model of what `show` and `show --json` write, after docs/FORMAT.md, docs/JSON.md and docs/WORDS.md alone: no code of the
program was looked at.

`events_of` reads the bytes of a trace and gives an object for each thing that `show` says. `text_of` writes such an object as
`show` does. `safe_of` hides what the safe form hides: `json_of` and `text_of` of it are what `show --json` and `show --safe`
write. `receipts_of` gives the events that `receipts` prints, and `lines_of_block` the lines of a text block. A trace with a line that can't be
read ends with `Fault`, after the events of the lines before. With files as arguments the events of each are written as
JSON, with `--loose` of padded lengths, and with `--resync` after refused messages too.
"""
import json
import re
import sys

from common import TOP

SIDES = {b">": "till", b"<": "terminal"}
MARKS = {"till": ">", "terminal": "<"}
DEEPEST = 6

# The fields: BMP, name and shape, which is a size, "LL", "LLL" or "TLV"; behind them those of digits.
FIELDS = {}
for _shape, _names in (
    (1, "01 time-out, 02 max-status, 03 service, 05 pump, 19 payment-type, 27 result, 8A card-type, 8C network-card, A0 result-as"),
    (2, "0D date, 0E expiry, 17 sequence, 3A verification, 49 currency, 87 receipt"),
    (3, "0B trace, 0C time, 37 original-trace, 3D password, 88 turnover, AA date-ymd"),
    (4, "29 terminal"), (5, "BA aid"), (6, "04 amount"), (8, "3B attribute"), (15, "2A contract"),
    ("LL", "22 pan, 23 track2, 2D track1, 8B card-name, A7 ef-id"),
    ("LLL", "24 track3, 2E chip-data, 3C text, 60 totals, 92 field-92, 9A field-9A, AF field-AF"),
    ("TLV", "06 container"),
):
    FIELDS.update({int(_one[:2], 16): (_one[3:], _shape) for _one in _names.split(", ")})
DIGITS = {0x0D, 0x49, 0x0B, 0x0C, 0xAA, 0x29, 0x04}
SECRET_TAGS = {"57", "5A"}
CONTAINER, AMOUNT, RESULT, TEXTS, HIDDEN = 0x06, 0x04, 0x27, {0x2A, 0x8B}, {0x22, 0x23, 0x24, 0x2D, 0x3A, 0x3D}

# The messages: how many bytes come first in their data, and whether fields or any bytes come then.
KINDS = {
    "8000": ("Ack", 0, False), "0600": ("Registration", 4, True), "0601": ("Authorisation", 0, True),
    "0630": ("Reversal", 3, True), "0650": ("EndOfDay", 3, True), "06B0": ("AbortOrder", 0, True), "040F": ("Status", 0, True),
    "04FF": ("Intermediate", 1, False), "06D1": ("PrintLine", 1, False), "06D3": ("TextBlock", 0, True),
    "060F": ("Completion", 0, True), "061E": ("Abort", 1, False),
}

# The tables of docs/WORDS.md: each number, in hexadecimal, with its words. The words of the codes with a star are in the text of
# `show` too.
WORDS = (TOP / "docs/WORDS.md").read_text()
PRINTED = set(re.findall(r"^\| ([0-9A-F]{2}) \| [^|]+ \| \* \|$", WORDS, re.M))


def words_in(title):
    section = re.search(rf"^## {title}\n(.*?)(?=^## |\Z)", WORDS, re.M | re.S)[1]
    return dict(re.findall(r"^\| ([0-9A-F]+) \| ([^|]+) \|", section, re.M))


MEANINGS, STATUSES, COMMANDS, CARD_TYPES, TAGS = (
    words_in(title) for title in ("Result codes", "Intermediate statuses", "Commands", "Card types", "Tags"))


class Refused(Exception):
    """No message can follow the byte that was read last."""


class Fault(Exception):
    """A line of the trace can't be read; the argument is its number."""


def demand(holds, reason="DoesNotFit"):
    if not holds:
        raise Refused(reason)


# ---- readers, which are generators: each `yield` asks for so many bytes

class Content:
    """What an enclosing length counts: `left` is how many bytes of it are still to come."""

    def __init__(self, left):
        self.left = left

    def byte(self):
        self.left -= 1
        return (yield 1)[0]

    def take(self, size):
        self.left -= size
        return (yield size) if size else b""

    def fits(self, size):
        return self.left == size or self.left >= size + 2


def length_of_object(content, nests, loose):
    first = yield from content.byte()
    if first < 0x80:
        size = first
    elif first == 0x81:
        demand(loose or content.left >= 129, "NotShortest")
        demand(content.left >= 1 and not (nests and content.left == 2))
        size = yield from content.byte()
        demand(loose or size >= 128, "NotShortest")
    elif first == 0x82:
        demand(loose or content.left >= 258, "NotShortest")
        demand(content.left >= 2 and not (nests and content.left == 3))
        high = yield from content.byte()
        demand(loose or high >= 1, "NotShortest")
        demand(content.left >= 1 + 256 * high)
        size = 256 * high + (yield from content.byte())
    else:
        raise Refused("LengthForm")
    demand(content.fits(size) and not (nests and size == 1))
    return size


def tag(content, depth, loose):
    first = yield from content.byte()
    constructed = bool(first & 0x20)
    demand(not (constructed and depth == DEEPEST), "TooDeep")
    if first & 0x1F != 0x1F:
        demand(loose or not constructed or content.left != 2)
        return bytes([first])
    demand(content.left >= 2)
    second = yield from content.byte()
    if second < 0x80:
        demand(loose or not constructed or content.left != 2)
        return bytes([first, second])
    demand(content.left >= 2 and (loose or not constructed or content.left != 3))
    third = yield from content.byte()
    demand(third < 0x80, "TagTooLong")
    return bytes([first, second, third])


def objects(size, depth, loose):
    """The objects that fill so many bytes, and how many bytes they take strictly."""
    content, found, strict = Content(size), [], 0
    while content.left:
        name = yield from tag(content, depth, loose)
        nests = bool(name[0] & 0x20)
        inner = yield from length_of_object(content, nests, loose)
        if nests:
            content.left -= inner
            below, inner = yield from objects(inner, depth + 1, loose)
            found.append({"tag": upper(name), "objects": below})
        else:
            found.append({"tag": upper(name), "content": upper((yield from content.take(inner)))})
        strict += len(name) + size_of_length(inner) + inner
    return found, strict


def size_of_length(size):
    return 1 if size < 128 else 2 if size < 256 else 3


def digits_of_length(content, count):
    demand(content.left >= count)
    size = 0
    for still in reversed(range(count)):
        digit = (yield from content.byte()) - 0xF0
        demand(0 <= digit <= 9, "LengthDigit")
        size = 10 * size + digit
        demand(content.left >= still + size * 10 ** still if still else content.fits(size))
    return size


def decimal(content, size):
    found = b""
    for _ in range(size):
        found += bytes([(yield from content.byte())])
        demand(found[-1:].hex().isdigit(), "NotDigit")
    return found


def field(content, loose):
    """A field, and how many bytes it takes strictly."""
    bmp = yield from content.byte()
    demand(bmp in FIELDS, "UnknownField")
    name, shape = FIELDS[bmp]
    said = {"bmp": f"{bmp:02X}", "name": name}
    if shape == "TLV":
        demand(loose or content.left != 2)
        size = yield from length_of_object(content, True, loose)
        content.left -= size
        said["objects"], size = yield from objects(size, 1, loose)
        return said, 1 + size_of_length(size) + size
    if shape in ("LL", "LLL"):
        head = len(shape)
        size = yield from digits_of_length(content, head)
    else:
        head, size = 0, shape
        demand(content.fits(size))
    value = yield from decimal(content, size) if bmp in DIGITS else content.take(size)
    return {**said, **value_of(bmp, value)}, 1 + head + size


class Hidden(int):
    """The number of bytes that are hidden. The bytes themselves are its `content`."""

    def __new__(cls, content):
        size = super().__new__(cls, len(content))
        size.content = bytes(content)
        return size


def value_of(bmp, value):
    if bmp == AMOUNT:
        return {"value": int(value.hex())}
    if bmp == RESULT:
        return code_of(value[0])
    if bmp in TEXTS:
        return {"text": quoted(value)}
    return {"hidden": Hidden(value)} if bmp in HIDDEN else {"content": upper(value)}


def fields(content, loose):
    found, strict = [], 0
    while content.left:
        one, size = yield from field(content, loose)
        found.append(one)
        strict += size
    return found, strict


def length_of_message(kind, first, has_fields, loose):
    def can_be(size):
        if kind == "Registration":
            return size in (4, 6) or size >= 8
        return size >= first and not (has_fields and size == first + 1)
    size = (yield 1)[0]
    if size < 255:
        demand(can_be(size))
        return size
    low = (yield 1)[0]
    size = low + 256 * (yield 1)[0]
    if loose:
        demand(can_be(size))
    else:
        demand(size >= 255, "NotShortest")
    return size


def message(loose):
    """A message, as the members of its object."""
    control = yield 2
    name = upper(control)
    kind, first, has_fields = KINDS.get(name) or ("Nack" if control[0] == 0x84 else "Other", 0, False)
    content = Content((yield from length_of_message(kind, first, has_fields, loose)))
    head = yield from content.take(first)
    said, strict = {"kind": kind, **members_of_head(kind, control, head)}, first
    if kind == "Registration" and content.left:
        said["currency"] = (yield from decimal(content, 2)).hex()
        strict += 2
    elif kind == "Registration":
        has_fields = False
    if has_fields:
        said["fields"], size = yield from fields(content, loose)
        strict += size
    else:
        rest = yield from content.take(content.left)
        strict += len(rest)
        said.update({"text": quoted(rest)} if kind == "PrintLine" else {"data": upper(rest)} if rest else {})
    return {**said, "size": strict + (3 if strict < 255 else 5)}


def members_of_head(kind, control, head):
    if kind == "Abort":
        return code_of(head[0])
    name = {"Nack": "code", "Other": "control", "Registration": "config", "Intermediate": "status", "PrintLine": "attribute"}.get(kind)
    value = upper({"Nack": control[1:], "Other": control, "Registration": head[3:]}.get(kind, head))
    said = {"Intermediate": known("words", STATUSES, value), "Other": known("name", COMMANDS, value)}.get(kind, {})
    return {name: value, **said} if name else {}


def known(member, table, number):
    return {member: table[number]} if number in table else {}


def upper(data):
    return data.hex().upper()


def code_of(code):
    return {"code": f"{code:02X}", **known("words", MEANINGS, f"{code:02X}")}


def quoted(data):
    return "".join(chr(byte) if 0x20 <= byte <= 0x7E and byte not in b'"\\' else f"\\x{byte:02X}" for byte in data)


# ---- streams and traces

class Side:
    """What a side sends, as one stream."""

    def __init__(self, name, loose, resync):
        self.name, self.loose, self.resync = name, loose, resync
        self.anew()

    def anew(self):
        self.held, self.reader, self.read, self.first, self.before, self.refused, self.size, self.left = b"", None, 0, b"", b"", False, 0, 0

    def feed(self, piece, line):
        if self.refused and (not self.resync or len(piece) < self.left):
            self.left -= len(piece)
            yield {"from": self.name, "line": line, "stopped": True}
            return
        while True:
            if self.refused:
                yield {"from": self.name, "line": line, "resumed": self.size}
                piece, _ = piece[self.left:], self.anew()
            piece = yield from self.take(piece, line)
            if not self.refused or not self.resync:
                return
            if len(piece) < self.left:
                self.left -= len(piece)
                return

    def take(self, piece, line):
        """Reads up to a refusal, and answers the bytes after the fatal one."""
        held, at = self.held + piece, 0
        while self.reader or at < len(held):
            if self.reader is None:
                self.reader, self.read, self.first, self.before = message(self.loose), 0, b"", b""
                self.wanted = next(self.reader)
            if len(held) - at < self.wanted:
                break
            given, at = held[at:at + self.wanted], at + self.wanted
            self.first = (self.first + given)[:5]
            try:
                wanted = self.reader.send(given)
                self.read, self.before, self.wanted = self.read + len(given), self.before + given, wanted
            except StopIteration as ended:
                self.reader = None
                yield {"from": self.name, "line": line, **ended.value}
            except Refused as refusal:
                self.refused, size = True, self.first[2]
                self.size = 3 + size if size < 255 else 5 + self.first[3] + 256 * self.first[4]
                self.left = self.size - self.read - len(given)
                yield {"from": self.name, "line": line, "refused": {"byte": upper(given), "place": self.read, "reason": str(refusal)}}
                return held[at:]
        self.held = held[at:]
        return b""

    def cut(self, line):
        if self.reader and not self.refused:
            yield {"from": self.name, "line": line, "truncated": {"after": self.read + len(self.held)}}
        self.anew()


def lines_of(trace):
    """The lines that are read of a trace, from 1."""
    rows = trace.split(b"\n")
    last = rows.pop()
    rows = [row.removesuffix(b"\r") for row in rows] + ([last] if last else [])
    yield from enumerate(rows, 1)


def bytes_of(number, row):
    """The bytes that a line of a side spells."""
    digits = row[1:].replace(b" ", b"")
    if not re.fullmatch(rb"([0-9A-Fa-f]{2})*", digits):
        raise Fault(number)
    return bytes.fromhex(digits.decode())


def events_of(trace, loose=False, resync=False):
    """What is said of a trace, in order."""
    sides, number = {mark: Side(name, loose, resync) for mark, name in SIDES.items()}, 0
    for number, row in lines_of(trace):
        if row == b"!":
            yield from (said for side in sides.values() for said in side.cut(number))
            yield {"line": number, "lost": True}
        elif row[:1] in sides:
            yield from sides[row[:1]].feed(bytes_of(number, row), number)
        elif row and row[:1] != b"#":
            raise Fault(number)
    yield from (said for side in sides.values() for said in side.cut(number))


def receipts_of(events):
    """The events that `receipts` writes."""
    return (event for event in events if event.get("kind") == "PrintLine" and event["from"] == "terminal")


TYPES = {"01": "merchant", "02": "customer", "03": "administration"}


def type_of_receipt(objects):
    """The type of the receipt in a container, or None."""
    found = [one["content"] for one in objects if one["tag"] == "1F07"]
    return TYPES.get(found[0], f"type {found[0]}") if found and len(found[0]) == 2 else None


def block_of(event):
    """The type of the receipt of a text block, and the bytes of its lines."""
    containers = [field["objects"] for field in event["fields"] if "objects" in field]
    types = [name for name in map(type_of_receipt, containers) if name]
    texts = [one["objects"] for objects in containers for one in objects if one["tag"] == "25"]
    return types[0] if types else None, [bytes.fromhex(one["content"]) for inner in texts for one in inner if one["tag"] == "07"]


def is_block(event):
    return event.get("kind") == "TextBlock" and event["from"] == "terminal"


def lines_of_block(event):
    """The objects that `receipts --text-blocks --json` writes of a text block."""
    name, lines = block_of(event)
    copy = {"copy": name} if name else {}
    return [{**copy, "from": "terminal", "kind": "TextBlock", "line": event["line"], "text": quoted(line)} for line in lines]


# ---- the safe form

def safe_of_object(one):
    if "objects" in one:
        return {**one, "objects": [safe_of_object(inner) for inner in one["objects"]]}
    if one["tag"] in SECRET_TAGS:
        return {"tag": one["tag"], "hidden": len(one["content"]) // 2}
    return one


def safe_of(said):
    """An event without its secrets."""
    said = dict(said)
    if said.get("kind") == "Other":
        said["data_size"] = len(said.pop("data", "")) // 2
    if "fields" in said:
        said["fields"] = [safe_of_object(field) if "objects" in field else field for field in said["fields"]]
    return said


# ---- writers

def json_of(value):
    return json.dumps(value, sort_keys=True, separators=(",", ":"))


def words_of(said):
    return f"{said['code']} {said['words']}" if said["code"] in PRINTED else f"code {said['code']}"


def unprinted(said):
    """The words of a code that `words_of` doesn't write."""
    return None if said["code"] in PRINTED else said.get("words")


def noted(line, words, explained):
    return f"{line} ({words})" if explained and words else line


def text_of_objects(found, depth, explained):
    for one in found:
        shown = "constructed" if "objects" in one else f"hidden {one['hidden']}" if "hidden" in one else one["content"] or "-"
        yield noted(f"{'  ' * (depth + 1)}{one['tag']} {shown}", TAGS.get(one["tag"]), explained)
        yield from text_of_objects(one.get("objects", ()), depth + 1, explained)


def text_of_field(said, explained):
    head = f"  {said['bmp']} {said['name']}"
    if "objects" in said:
        return [head, *text_of_objects(said["objects"], 1, explained)]
    if "text" in said:
        return [f'{head} "{said["text"]}"']
    if "code" in said:
        return [noted(f"{head} {words_of(said)}", unprinted(said), explained)]
    value = said.get("value", said.get("content") or "-")
    card_type = CARD_TYPES.get(value) if said["bmp"] == "8A" else None
    return [f"{head} hidden {said['hidden']}" if "hidden" in said else noted(f"{head} {value}", card_type, explained)]


def text_of(said, explained=False):
    """The lines of `show` for an event, or of `show --safe` for one of `safe_of`; or with `--explain`."""
    if "lost" in said:
        return ["! line lost"]
    mark = MARKS[said["from"]]
    if "refused" in said:
        return [f"{mark} refused at {said['refused']['place']}: {said['refused']['reason']}"]
    if "truncated" in said:
        return [f"{mark} truncated after {said['truncated']['after']}"]
    if "stopped" in said:
        return [f"{mark} stopped"]
    if "resumed" in said:
        return [f"{mark} resumed after {said['resumed']} bytes"]
    head = {
        "Nack": lambda: f" {said['code']}", "Intermediate": lambda: f" {said['status']}", "Abort": lambda: f" {words_of(said)}",
        "Other": lambda: f" {said['control']}", "PrintLine": lambda: f' {said["attribute"]} "{said["text"]}"',
        "Registration": lambda: f" config {said['config']}" + (f" currency {said['currency']}" if "currency" in said else ""),
    }.get(said["kind"], str)()
    data = f" data {said['data']}" if "data" in said else f" data hidden {said['data_size']}" if said.get("data_size") else ""
    words = {"Abort": unprinted, "Intermediate": lambda said: said.get("words"), "Other": lambda said: said.get("name")}.get(said["kind"])
    return [noted(f"{mark} {said['kind']}{head}{data}", words and words(said), explained),
            *(row for one in said.get("fields", ()) for row in text_of_field(one, explained))]


def main():
    words = sys.argv[1:]
    for path in (word for word in words if not word.startswith("--")):
        with open(path, "rb") as file:
            for event in events_of(file.read(), "--loose" in words, "--resync" in words):
                print(json_of(safe_of(event)))
    return 0


if __name__ == "__main__":
    sys.exit(main())

"""Random messages, hostile bytes, and traces of them in lines that are cut anywhere: what `json_output.py` and its neighbours
give the program. Each function takes its source of chance, so that a seed says all.
"""
from json_model import DEEPEST, DIGITS, FIELDS, KINDS

CONTROLS = [bytes.fromhex(name) for name in KINDS]
SIGNS = (b">", b"<")
COMMENTS = (b"", b"# a comment", b"#", b">", b"<", b"# \xff \" \\ 80 00 00")
# Bytes that mean something: lengths of each form, tags, BMPs, a half that is no digit.
MEANINGFUL = (0x00, 0x01, 0x02, 0x04, 0x06, 0x0A, 0x1F, 0x22, 0x24, 0x25, 0x27, 0x3F, 0x49,
              0x7F, 0x80, 0x81, 0x82, 0x83, 0x9F, 0xBF, 0xF0, 0xF9, 0xFA, 0xFF)


class Maker:
    """Makes messages, with lengths in longer forms than they need where they are `padded`."""

    def __init__(self, chance, padded=False):
        self.chance, self.padded = chance, padded

    def some_bytes(self, most):
        return self.chance.randbytes(self.chance.randint(0, self.chance.choice((1, 3, 12, most))))

    def length(self, size):
        """The length of an object."""
        forms = [bytes([size])] if size < 0x80 else []
        forms += [bytes([0x81, size])] if size < 0x100 else []
        forms.append(b"\x82" + size.to_bytes(2, "big"))
        return self.chance.choice(forms) if self.padded else forms[0]

    def tag(self, constructed):
        first = self.chance.randrange(256) & 0xDF | 0x20 * constructed
        if first & 0x1F != 0x1F:
            return bytes([first])
        more = [self.chance.randrange(128)]
        return bytes([first, *([self.chance.randrange(128, 256)] if self.chance.random() < 0.5 else []), *more])

    def forest(self, depth=1):
        found = b""
        for _ in range(self.chance.choice((0, 1, 1, 2, 3))):
            constructed = depth < DEEPEST and self.chance.random() < 0.6
            inner = self.forest(depth + 1) if constructed else self.some_bytes(300)
            found += self.tag(constructed) + self.length(len(inner)) + inner
        return found

    def decimal(self, size):
        return bytes.fromhex("".join(str(self.chance.randrange(10)) for _ in range(2 * size)))

    def field(self, bmp):
        shape = FIELDS[bmp][1]
        if shape == "TLV":
            inner = self.forest()
            return bytes([bmp]) + self.length(len(inner)) + inner
        if shape in ("LL", "LLL"):
            content = self.some_bytes(10 ** len(shape) - 1)
            return bytes([bmp, *(0xF0 + int(digit) for digit in f"{len(content):0{len(shape)}}")]) + content
        return bytes([bmp]) + (self.decimal(shape) if bmp in DIGITS else self.chance.randbytes(shape))

    def fields(self, most=5):
        return b"".join(self.field(bmp) for bmp in self.chance.choices(list(FIELDS), k=self.chance.randint(0, most)))

    def data(self, control):
        kind, first, has_fields = KINDS.get(control.hex().upper(), ("Other", 0, False))
        if kind == "Registration":
            return self.chance.randbytes(4) + (self.decimal(2) + self.fields() if self.chance.random() < 0.7 else b"")
        if has_fields:
            return self.chance.randbytes(first) + self.fields()
        if kind == "PrintLine" and self.chance.random() < 0.05:
            return bytes([0, *range(256)])
        return self.chance.randbytes(first) + self.some_bytes(self.chance.choice((40, 40, 300)))

    def framed(self, control, data):
        short, long = bytes([len(data) & 0xFF]), b"\xFF" + len(data).to_bytes(2, "little")
        return control + (long if len(data) > 254 or (self.padded and self.chance.random() < 0.4) else short) + data

    def message(self):
        control = self.chance.choice((*CONTROLS, bytes([0x84, self.chance.randrange(256)]), self.chance.randbytes(2)))
        return self.framed(control, self.data(control))

    def hostile(self):
        """A message with some of its bytes changed, left out or added, or any bytes."""
        if self.chance.random() < 0.05:
            return self.chance.randbytes(self.chance.randint(1, 30))
        row = bytearray(self.message())
        for _ in range(self.chance.randint(1, 3)):
            at = self.chance.randrange(len(row)) if self.chance.random() < 0.5 else self.chance.randrange(min(len(row), 12))
            near = (row[at] + self.chance.choice((1, 255, 128))) % 256
            byte = self.chance.choice((self.chance.randrange(256), self.chance.choice(MEANINGFUL), near))
            size = self.chance.randint(0, 2)
            row[at:at + self.chance.randint(0, 2)] = bytes([byte] * size)
            row = row or bytearray(b"\x06")
        return bytes(row)


def spelled(chance, sign, piece):
    """A line with these bytes."""
    text = chance.choice(("", " ", "  ")).join(f"{byte:02x}" for byte in piece)
    text = text.upper() if chance.random() < 0.5 else text
    return sign + chance.choice((b"", b" ")) + text.encode() + chance.choice((b"", b" ", b"\r")) + b"\n"


def cut(chance, sign, stream):
    """Lines with the bytes of a stream, cut anywhere."""
    at = 0
    while at < len(stream):
        size = chance.choice((1, 2, chance.randint(1, 40), chance.randint(1, 40), len(stream)))
        yield spelled(chance, sign, stream[at:at + size])
        at += size


def mixed(chance, streams):
    """The lines of two streams, each in its order, and comments between them."""
    rows = [list(cut(chance, sign, stream)) for sign, stream in zip(SIGNS, streams)]
    while any(rows):
        yield chance.choice([row for row in rows if row]).pop(0)
        if chance.random() < 0.1:
            yield chance.choice(COMMENTS) + b"\n"


def trace(chance, padded=False, hostile=False):
    """A trace of a few messages of both sides. It ends with `!`."""
    maker, text = Maker(chance, padded), b""
    for _ in range(chance.choice((1, 1, 1, 2))):
        streams = [[maker.message() for _ in range(chance.randint(0, 3))] for _ in SIGNS]
        if hostile:
            row = chance.choice(streams)
            row.insert(chance.randint(0, len(row)), maker.hostile())
        ends = [b"".join(row) for row in streams]
        if hostile and chance.random() < 0.3:
            ends = [end[:chance.randint(0, len(end))] for end in ends]
        text += b"".join(mixed(chance, ends)) + b"!\n"
    return text

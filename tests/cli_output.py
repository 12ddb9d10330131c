#!/usr/bin/env python3
"""Gives the program traces, vectors and words, and compares what it writes and the status that it ends with.

    tests/cli_output.py [PROGRAM]

PROGRAM is the one that `rt ci` built, unless another is named. The cases stand in commands.txt, worked by hand: behind `==`
the name of a case, behind `$` a command and its words (`{}` is a file with what it reads), then what it reads, behind `--` what it writes, behind `++` what it
says on standard error (left out where that is not compared), and behind `=>` the status. The table of fields is that of
docs/FORMAT.md: each field is shown by its name, digits are demanded where the table has them, and no other is listed. The
status is 1 where anything is not as expected. It takes some seconds.
"""
import os
import re
import socket
import subprocess
import sys
import tempfile

from common import Checks, EXAMPLES, TOP, program
from json_model import FIELDS

PROGRAM = program(sys.argv[1:])
FORM = "expected '>' or '<' and hexadecimal digits, '!' alone, or a comment that begins with '#'"
DIGITS = "expected two hexadecimal digits for each byte after '>' or '<', with or without spaces"
CAPTURE = "the input is a capture, not a trace: see 'From a capture to a trace' in docs/FORMAT.md"
# Traces that can't be read, the line, what it should be, and what is said of it besides. Text would hide some of these bytes.
UNREADABLE = [
    (b"x", 1, FORM, "column 1 is 'x'"),
    (b"#\nx", 2, FORM, "column 1 is 'x'"),
    (b"# a\n > 80", 2, FORM, "column 1 is ' '"),
    (b"! \n", 1, FORM, "column 2 is ' '"),
    (b"!!", 1, FORM, "column 2 is '!'"),
    (b"> 8G", 1, DIGITS, "column 4 is 'G'"),
    (b"> 80 \xC3\xA4", 1, DIGITS, "column 6 is byte C3"),
    (b"> 0", 1, DIGITS, "column 4 is the end of the line: the last byte has only one digit"),
    (b"> 80 0\n", 1, DIGITS, "column 7 is the end of the line: the last byte has only one digit"),
    (b">\t80", 1, DIGITS, "column 2 is byte 09, a tab: put spaces between bytes"),
    (b"< 0x80", 1, DIGITS, "column 4 is 'x': write bytes without '0x'"),
    (b"< 80:00:00", 1, DIGITS, "column 5 is ':': put spaces between bytes"),
    (b"> 80-00-00", 1, DIGITS, "column 5 is '-': put spaces between bytes"),
    (b"\xEF\xBB\xBF> 80 00 00", 1, FORM, "column 1 has a byte order mark: save the trace as plain text without one"),
    (b"\xD4\xC3\xB2\xA1\x02\x00", 1, FORM, CAPTURE),
    (b"\n\r\r\n\x1C\x00", 2, FORM, CAPTURE),
    (b"\x1F\x8B\x08", 1, FORM, CAPTURE),
]
# Lines that are no vectors: first those whose form is wrong, then those whose hexadecimal text is.
NO_VECTORS = [
    b"80 00 00",
    b"80 00 00 =more",
    b"800000= more",
    b"800000=more",
    b"80 00 00  = more",
    b"80 00 00 =  more",
    b" 80 00 00 = more",
    b"80 00 00\t= more",
    b"80 00 00 = more ",
    b"80 00 00 = more\t",
    b"= more",
    b" = more",
    b"  = more",
    b"80 00 00 = ",
    b"80 00 00 = More",
    b"80 00 00 = whole",
    b"80 00 00 = whole ",
    b"80 00 00 = whole 03",
    b"80 00 00 = whole 00",
    b"80 00 00 = whole 3 ",
    b"80 00 00 = whole +3",
    b"80 00 00 = whole 3A",
    b"80 00 00 = refused at 3",
    b"80 00 00 = refused at 3: ",
    b"80 00 00 = refused at : DoesNotFit",
    b"80 00 00 = refused at 03: DoesNotFit",
    b"80 00 00 = refused at 3:DoesNotFit",
    b"80 00 00 = refused at 3 : DoesNotFit",
    b"80 00 00 = refused at 3: Foo",
    b"80 00 00 = refused at 3: DoesNot",
    b"80 00 00 = refused at 3: DoesNotFits",
    b"80 00 00 = refused at 3: doesNotFit",
    b"80 00 00 = refused at 3: DoesNotFit DoesNotFit",
    b"80 = more = more",
    b"> 80 00 00",
    b"> 80 00 00 = more",
    b"80 0 = more",
    b"8g = more",
    b"80:00 = more",
]
check = Checks()


def run(words, given):
    """Where the words have `{}`, what is read is in a file of that place, whose name is `input`."""
    if "{}" in words:
        with tempfile.TemporaryDirectory() as folder:
            with open(os.path.join(folder, "input"), "wb") as file:
                file.write(given)
            words = ["input" if word == "{}" else word for word in words]
            done = subprocess.run([PROGRAM, *words], cwd=folder, capture_output=True, timeout=60)
            return done.returncode, done.stdout, done.stderr
    done = subprocess.run([PROGRAM, *words], input=given, capture_output=True, timeout=60)
    return done.returncode, done.stdout, done.stderr


def cases():
    """The cases of commands.txt."""
    with open(TOP / "tests/data/commands.txt", encoding="ascii") as file:
        text = file.read()
    for case in re.split(r"^== ", text, flags=re.M)[1:]:
        name, words, rest = case.split("\n", 2)
        given, output = re.split(r"^--\n", rest, maxsplit=1, flags=re.M)
        output, status = re.split(r"^=> ", output, maxsplit=1, flags=re.M)
        output, *errors = re.split(r"^\+\+\n", output, maxsplit=1, flags=re.M)
        yield name, words.removeprefix("$ ").split(), given, output, errors, int(status)


def fields():
    """Each BMP of the table, its name, its shape, and whether it is of digits."""
    with open(TOP / "docs/FORMAT.md", encoding="utf-8") as file:
        text = file.read().split("| Shape | BMPs |")[1].split("\n\n")[0]
    for shape, names in re.findall(r"^\| ([^|]+) \| ([^|]+) \|$", text, re.M):
        for bmp, name, digits in re.findall(r"\b([0-9A-F]{2}) ([a-z][\w-]*)( \(digits\))?", names):
            yield int(bmp, 16), name, shape, bool(digits)


def content_of(shape, last):
    """A content of that shape which ends with this byte, where there is room for it."""
    if shape == "TLV":
        return bytes([2, 7, 0])
    variable = {"LLVAR": b"\xF0\xF2", "LLLVAR": b"\xF0\xF0\xF2"}
    size = 2 if shape in variable else int(shape.split()[0])
    return variable.get(shape, b"") + b"\x12" * (size - 1) + bytes([last])


def status_of(bmp, content):
    field = bytes([bmp]) + content
    return "< " + (bytes([0x04, 0x0F, len(field)]) + field).hex(" ") + "\n!\n"


def log_is_read():
    """The command of docs/FORMAT.md makes the trace of a log: of a till's line with times and other lines between, and two ends of lines."""
    page = (TOP / "docs/FORMAT.md").read_text("utf-8")
    command = re.search(r"^    (sed -nE .*) till\.log > till\.trace$", page, re.M)
    trace = (EXAMPLES / "payment.trace").read_text("ascii")
    rows = [line for line in trace.splitlines() if line[:1] in ("<", ">")]
    words = {">": "TX:", "<": "RX"}
    log = "".join(f"10:15:0{at % 10}.123 {words[row[0]]}{row[1:]}{chr(13) * (at % 2)}\nTX buffer empty\n" for at, row in enumerate(rows))
    done = subprocess.run(["sh", "-c", command[1]], input=log.encode(), capture_output=True)
    check("a log", (done.returncode, done.stdout.decode()), (0, "".join(row + "\n" for row in rows)))


def table_is_read():
    table = list(fields())
    check("the fields", sorted((bmp, name) for bmp, name, _, _ in table), sorted((bmp, name) for bmp, (name, _) in FIELDS.items()))
    for bmp, name, shape, digits in table:
        _, shown, _ = run(["show"], status_of(bmp, content_of(shape, 0x34)).encode())
        check(f"field {bmp:02X}", shown.startswith(b"< Status\n  %02X %s" % (bmp, name.encode())), True)
        _, shown, _ = run(["show"], status_of(bmp, content_of(shape, 0x1A)).encode())
        check(f"digits of field {bmp:02X}", shown.endswith(b"NotDigit\n! line lost\n"), digits)
    others = [bmp for bmp in range(256) if bmp not in {row[0] for row in table}]
    _, shown, _ = run(["show"], "".join(status_of(bmp, b"\0") for bmp in others).encode())
    check("what is not listed", shown, b"< refused at 3: UnknownField\n! line lost\n" * len(others))


def message(control, data):
    """A message in its shortest form."""
    size = len(data)
    return control + (bytes([size]) if size < 255 else b"\xFF" + size.to_bytes(2, "little")) + data


def sized(content):
    """A container's content behind its length, in its shortest form."""
    size = len(content)
    return (bytes([size]) if size < 128 else bytes([0x81, size]) if size < 256 else b"\x82" + size.to_bytes(2, "big")) + content


def deep(count):
    """An object of that many bytes in five others."""
    found = b"\x07" + sized(b"\x41" * count)
    for _ in range(5):
        found = b"\x3F\x01" + sized(found)
    return found


def long_messages_are_written():
    """Messages at each end of a length are read whole, and written as they were read."""
    completion, status, line = b"\x06\x0F", b"\x04\x0F", b"\x06\xD1"
    check("the sizes of deep objects", [len(deep(count)) for count in (0, 127, 128, 256)], [17, 149, 151, 285])
    messages = [message(completion, b"\x06" + sized(deep(count))) for count in (0, 127, 128, 256)]
    messages += [message(completion, b"\x06" + sized(b"\x07\x7E" + b" " * 126)), message(line, b" " * 255), message(line, b" " * 65535)]
    messages.append(message(status, b"\x87\x00\x05" + b"\x0B\x00\x00\x17" * 16383))
    messages.append(message(status, b"\x06" + sized(b"\x07\x01\x41" + b"\x07\x00" * 32764)))
    check("their sizes", [len(it) for it in messages[4:]], [134, 260, 65540, 65540, 65540])
    for it in messages:
        row = f"< {it.hex().upper()}\n".encode()
        check(f"a message of {len(it)} bytes", run(["normalise"], row), (0, row, b""))
        check(f"the size of a message of {len(it)} bytes", run(["vectors"], f"{it.hex()}80 = whole {len(it)}\n".encode()), (0, b"", b""))


def trace_has_a_limit():
    check("the longest trace", run(["show"], b"#" * (1 << 24))[:2], (0, b""))
    status, text, errors = run(["show"], b"#" * ((1 << 24) + 1))
    check("a longer one", (status, text, b"more than 16777216 bytes" in errors), (3, b"", True))


def is_written_once():
    """An audit writes its lines at once, and ends with 4 where it cannot, or where a note cannot be written."""
    ours, theirs = socket.socketpair(socket.AF_UNIX, socket.SOCK_SEQPACKET)
    with ours, theirs:
        ended = subprocess.run([PROGRAM, "audit"], input=b"> 06 01 07 04 00 00 00 00 12 34\n", stdout=theirs, stderr=subprocess.DEVNULL, timeout=60)
        theirs.close()
        check("the writes of an audit", (ended.returncode, [*iter(lambda: ours.recv(1 << 16), b"")]), (0, [b"unclear 1234 Unfinished\ntotal 0\n"]))
    with open("/dev/full", "wb") as full:
        ended = subprocess.run([PROGRAM, "show"], input=b"> 06 01 02 D0", stdout=subprocess.PIPE, stderr=full, timeout=60)
    check("notes that cannot be written", (ended.returncode, ended.stdout), (4, b"> refused at 3: UnknownField\n"))


def main():
    if not os.access(PROGRAM, os.X_OK):
        print(f"cli_output: no program at {PROGRAM}: build it by 'rt run' in crates/zvt, or by 'rt ci'", file=sys.stderr)
        return 2
    for name, words, given, output, errors, status in cases():
        found = run(words, given.encode())
        check(name, found[:2], (status, output.encode()))
        if errors:
            check(f"{name}: standard error", found[2].decode(), errors[0])
    for trace, line, form, hint in UNREADABLE:
        for command in ["show", "audit"]:
            check(f"{command} of {trace}", run([command], trace), (3, b"", f"zvt: line {line} of the trace: {form}\nzvt: {hint}\n".encode()))
    for line in NO_VECTORS:
        given = b"# a remark\n80 00 = whole 2\n" + line + b"\n80 = whole 1\n"
        found = run(["vectors"], given)
        check(f"the vector {line}", (*found[:2], b"line 3 " in found[2]), (3, b"line 2: got more\n", True))
    for side in ("terminal", "till"):
        path = os.path.join(TOP, "examples", "messages", side)
        with open(path + ".txt", "rb") as file:
            check(f"every message of a {side}", run(["show", path + ".trace"], b"")[1], file.read())
    log_is_read()
    table_is_read()
    long_messages_are_written()
    trace_has_a_limit()
    is_written_once()
    print("ok: the cases of commands.txt, traces and vectors that can't be read, and the table of fields" if not check.failed else f"{check.wrong} not as expected")
    return check.status


if __name__ == "__main__":
    sys.exit(main())

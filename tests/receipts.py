#!/usr/bin/env python3
"""Compares `receipts --text-blocks` and `--codepage` with the model of `json_model.py` and with Python's code pages.

    tests/receipts.py [PROGRAM]

PROGRAM is the one that `rt ci` built, unless another is named. It reads the traces of tests/data/real, every byte on a line of
its own, and random blocks: objects in any order, other containers, empty lines, several types or none. Without the options the
output is the same as ever, and standard error says where it has text blocks alone. The status is 1 where anything is not as
expected.
"""
import random
import subprocess
import sys

import json_model
from common import Checks, TOP, program

PROGRAM = program(sys.argv[1:])
PAGES = {"437": "cp437", "850": "cp850", "iso-8859-1": "latin-1"}
HINT = "text blocks: print them with --text-blocks"
PLACE = "tests/data/real/close-without-result.trace"


def run(words, trace):
    done = subprocess.run([PROGRAM, "receipts", *words], input=trace, capture_output=True, timeout=60)
    return done.returncode, done.stdout, done.stderr.decode()


# ---- what is to be written

def shown(character, byte):
    return json_model.quoted(byte) if ord(character) < 0x80 or 0x80 <= ord(character) < 0xA0 else character


def decoded(page, line):
    """A line in UTF-8, after docs/FORMAT.md."""
    if page in PAGES:
        return "".join(shown(bytes([byte]).decode(PAGES[page]), bytes([byte])) for byte in line)
    try:
        return "".join(shown(character, character.encode()) for character in line.decode("utf-8")) if page else json_model.quoted(line)
    except UnicodeDecodeError:
        return json_model.quoted(line)


def rows_of(event, page):
    """The lines of `receipts --text-blocks` for an event."""
    if json_model.is_block(event):
        name, lines = json_model.block_of(event)
        return ([f"# {name} receipt"] if name else []) + [decoded(page, line) for line in lines]
    return [event["text"]] if page is None else [decoded(page, event["bytes"])]


# ---- traces

def line(mark, message):
    return f"{mark} {message.hex(' ')}\n".encode()


def sized(content):
    return (bytes([len(content)]) if len(content) < 0x80 else b"\x81" + bytes([len(content)]) if len(content) < 0x100
            else b"\x82" + len(content).to_bytes(2, "big")) + content


def message(control, content):
    return control + (bytes([len(content)]) if len(content) < 0xFF else b"\xff" + len(content).to_bytes(2, "little")) + content


def printed(text):
    return message(b"\x06\xd1", b"\x00" + text)


def block(*objects):
    return message(b"\x06\xd3", b"\x06" + sized(b"".join(objects)))


def one(tag, content):
    return bytes.fromhex(tag) + sized(content)


def any_text(chance):
    return bytes(chance.choice(b"Belegnummer 12,34\"\\\x00\x7f\x84\x9d\xc3\xa4\xe4\xff") for _ in range(chance.randrange(9)))


def any_texts(chance):
    kinds = ["07"] * 4 + ["09", "5A", "24"]
    return b"".join(one(tag, one("07", b"no line") if tag == "24" else any_text(chance)) for tag in chance.choices(kinds, k=chance.randrange(6)))


def any_block(chance):
    parts = [one("25", any_texts(chance)) for _ in range(chance.randrange(3))]
    parts += [one("1F07", bytes(chance.choices((1, 2, 3, 4, 255), k=chance.choice((1, 1, 1, 0, 2))))) for _ in range(chance.randrange(3))]
    parts += chance.sample([one("07", b"no line"), one("24", any_texts(chance)), one("1F08", b"\x01")], chance.randrange(4))
    chance.shuffle(parts)
    more = chance.choice((b"", b"", b"\x3c\xf0\xf0\xf1A", b"\x06" + sized(one("1F07", b"\x02"))))
    return message(b"\x06\xd3", chance.choice((b"", more)) + b"\x06" + sized(b"".join(parts)) + more)


def any_trace(chance):
    messages = [("<", chance.choice((any_block, lambda c: printed(any_text(c))))(chance)) for _ in range(chance.randrange(8))]
    messages += [(">", any_block(chance)), ("<", b"\x06\x0f\x00")]
    chance.shuffle(messages)
    return b"".join(line(mark, said) for mark, said in messages)


# ---- comparisons

def events_of(trace):
    """The print lines and text blocks of the terminal, with the bytes of each print line."""
    for event in json_model.events_of(trace):
        if json_model.is_block(event):
            yield event
        elif event.get("kind") == "PrintLine" and event["from"] == "terminal":
            text = event["text"]
            parts = text.split("\\x")
            yield {**event, "bytes": parts[0].encode() + b"".join(bytes.fromhex(part[:2]) + part[2:].encode() for part in parts[1:])}


def hold(check, name, trace):
    events = list(events_of(trace))
    for page in (None, *PAGES, "utf-8"):
        words = ["--codepage", page] if page else []
        rows = [row for event in events for row in rows_of(event, page)]
        for more in ([], ["--follow"]):
            status, output, _ = run(["--text-blocks", *words, *more], trace)
            check(f"{name}, {words + more}", (status, output), (0, "".join(row + "\n" for row in rows).encode()))
        lines = [row for event in events if "bytes" in event for row in rows_of(event, page)]
        status, output, noted = run(words, trace)
        check(f"{name}, {words} alone", (status, output), (0, "".join(row + "\n" for row in lines).encode()))
        check(f"{name}, {words}, the hint", HINT in noted, not lines and any(map(json_model.is_block, events)))
    said = [one for event in events for one in (json_model.lines_of_block(event) if json_model.is_block(event)
                                                else [{key: event[key] for key in event if key != "bytes"}])]
    status, output, _ = run(["--text-blocks", "--json"], trace)
    check(f"{name}, JSON", (status, output), (0, "".join(json_model.json_of(one) + "\n" for one in said).encode()))


def hold_words(check, trace):
    """Words that are wrong."""
    for words in (["--codepage", "1252"], ["--codepage", ""], ["--codepage", "UTF-8"], ["--codepage", "437", "--json"], ["--codepage"]):
        status, output, noted = run(words, trace)
        check(f"{words}", (status, output, bool(noted)), (2, b"", True))


def main():
    check, chance = Checks(), random.Random(11)
    for path in sorted((TOP / "tests/data/real").glob("*.trace")):
        if path.stem not in ("status-enquiry", "status-enquiry-with-version", "padded-container"):
            hold(check, path.stem, path.read_bytes())
    every = b"".join(line("<", printed(b"a" + bytes([byte]) + b"z")) + line("<", block(one("25", one("07", bytes([byte]))))) for byte in range(256))
    hold(check, "every byte", every)
    texts = [chr(code).encode() for code in (0x7F, 0x80, 0x9F, 0xA0, 0x7FF, 0x800, 0xFFFF, 0x10000, 0x10FFFF)]
    texts += [b"\xc0\x80", b"\xed\xa0\x80", b"\xf4\x90\x80\x80", b"\xc3", b"\xe2\x94", b"H\xc3\xa4ndler\xff", "Händler \"A\"".encode()]
    hold(check, "UTF-8", b"".join(line("<", printed(text)) for text in texts))
    for number in range(60):
        hold(check, f"random trace {number}", any_trace(chance))
    hold_words(check, every)
    done = subprocess.run([PROGRAM, "receipts", "--text-blocks", PLACE], capture_output=True, cwd=TOP, text=True, timeout=60)
    check("the example", done.stdout, "# administration receipt\nKassenschnitt\nSUMME 112,14\n")
    print(f"{check.verdict}: {check.count} outputs of receipts, {check.wrong} wrong")
    return check.status


if __name__ == "__main__":
    sys.exit(main())

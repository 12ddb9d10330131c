#!/usr/bin/env python3
"""Reads hostile messages openly: `show --open` finds each frame where its length ends it, however the line is cut.

    tests/open_reading.py [--messages N] [PROGRAM]

PROGRAM is the one that `rt ci` built, unless another is named. N messages (100,000 by default) have valid control bytes and
lengths of both forms, and data that was damaged: bytes are changed, added or left out. Each line of them is cut into pieces
twice. The text of `show --open` is the one of `json_model.py`, strictly and with `--loose`. Beside that, a reader of frames
alone, which knows no message, says how many messages and refusals there are on each side and in what order, and after how
many bytes each side reads on. The status is 1 where anything differs. It takes half a minute.
"""
import random
import subprocess
import sys

import json_model
from common import Checks, program
from random_traces import CONTROLS, Maker, spelled

WORDS = sys.argv[1:]
MESSAGES = int(WORDS[1]) if WORDS[:1] == ["--messages"] else 100_000
PROGRAM = program(WORDS[2:] if WORDS[:1] == ["--messages"] else WORDS)
SEED, OF_A_TRACE = 20261129, 2000


def damaged(chance, data):
    """The data with some bytes changed, added or left out, or as it is."""
    data = bytearray(data)
    for _ in range(chance.choice((0, 1, 1, 2, 4))):
        at = chance.randrange(len(data) + 1)
        way = chance.random()
        if way < 0.3:
            data[at:at] = chance.randbytes(1)
        elif way < 0.5:
            del data[at:]
        elif at < len(data):
            data[at] = chance.choice((chance.randrange(256), data[at] ^ 1 << chance.randrange(8), 0xF0, 0xFF))
    return bytes(data[:65535])


def frames(stream):
    """The sizes of the frames of a side, in order. What follows the last one is no whole frame."""
    sizes, at = [], 0
    while len(stream) - at > 2:
        size = stream[at + 2]
        if size == 255:
            if len(stream) - at < 5:
                break
            size = 2 + stream[at + 3] + 256 * stream[at + 4]
        if len(stream) - at < 3 + size:
            break
        sizes.append(3 + size)
        at += 3 + size
    return sizes


def sides_of(chance, maker, count):
    """The bytes of both sides, of that many messages."""
    streams = {">": b"", "<": b""}
    for _ in range(count):
        control = chance.choice((*CONTROLS, chance.randbytes(2)))
        streams[chance.choice("><")] += maker.framed(control, damaged(chance, maker.data(control)))
    return {sign: stream + chance.randbytes(chance.randrange(3)) for sign, stream in streams.items()}


def lines_of(chance, streams):
    """Lines with the bytes of both sides, cut anywhere. The line ends with `!`."""
    rows = []
    for sign, stream in streams.items():
        at = 0
        while at < len(stream):
            size = chance.choice((1, 3, chance.randint(1, 20), chance.randint(1, 300)))
            rows.append((at / len(stream), spelled(chance, sign.encode(), stream[at:at + size])))
            at += size
    return b"".join(row for _, row in sorted(rows, key=lambda row: row[0])) + b"!\n"


def hold_frames(check, name, streams, events):
    """The messages and refusals of each side are its frames, in order."""
    found = {"till": [], "terminal": []}
    for event in events:
        if "size" in event and "kind" in event:
            found[event["from"]].append(None)
        elif "resumed" in event:
            found[event["from"]].append(event["resumed"])
    for sign, stream in streams.items():
        side, sizes = json_model.SIDES[sign.encode()], frames(stream)
        wrong = len(found[side]) != len(sizes) or any(got not in (None, size) for got, size in zip(found[side], sizes))
        if wrong:
            check.differs(name, f"the frames of the {side}: {len(found[side])} instead of {len(sizes)}")


def facts(text):
    """The lines of `show` but those that depend on where a line ends."""
    return sorted(row for row in text.splitlines() if row[:2] in (b"> ", b"< ") and not row.endswith(b" stopped"))


def main():
    check, chance, read, passed = Checks(), random.Random(SEED), 0, 0
    for number in range(0, MESSAGES, OF_A_TRACE):
        streams = sides_of(chance, Maker(chance, padded=True), OF_A_TRACE)
        for loose in ([], ["--loose"]):
            texts = []
            for _ in range(2 if not loose else 1):
                lines = lines_of(chance, streams)
                events = list(json_model.events_of(lines, bool(loose), True))
                name = f"messages {number} and on{' loosely' * bool(loose)}"
                hold_frames(check, name, streams, events)
                done = subprocess.run([PROGRAM, "show", "--open", *loose], input=lines, capture_output=True, timeout=100)
                wanted = "".join(row + "\n" for event in events for row in json_model.text_of(event)).encode("ascii")
                check(name, done.stdout == wanted, True)
                texts.append(done.stdout)
            check(f"{name}, cut twice", len({tuple(facts(text)) for text in texts}), 1)
        read += sum("kind" in event for event in events)
        passed += sum("resumed" in event for event in events)
    print(f"{check.verdict}: {MESSAGES} hostile messages, {read} read and {passed} passed over with --loose, {check.wrong} wrong")
    return check.status


if __name__ == "__main__":
    sys.exit(main())

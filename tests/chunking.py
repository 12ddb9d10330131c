#!/usr/bin/env python3
"""Gives the program lines cut into pieces, and compares what it reads of them with what it reads of the same lines uncut.

    tests/chunking.py [PROGRAM]

PROGRAM is the one that `rt ci` built, unless another is named. The lines are those of vectors.txt, and each of them with
each of its bytes replaced by others: whole messages, several, cut off and refused ones. Each is a connection of its own.
They come in two pieces at each place, in pieces of three bytes, and byte by byte. Of five more lines each byte is replaced
by each of the 255 others, and each of these lines comes in two pieces at each place. What `zvt join` reads of the lines
uncut is then said of them as vectors, which `zvt vectors` compares with its reader of whole messages. The status is 1
where anything differs. It takes some twenty seconds.
"""
import os
import re
import subprocess
import sys

from common import EXAMPLES, program

PROGRAM = program(sys.argv[1:])
# What a byte is replaced by, besides its neighbours: lengths of each form, tags of each, a BMP, a digit's half, and none.
OTHERS = [0x00, 0x03, 0x06, 0x0A, 0x1F, 0x25, 0x7F, 0x80, 0x81, 0x82, 0xF0, 0xFA, 0xFF]
# A status, a payment, seven objects in one another, which are one too many, six of them, and an object of 126 bytes.
CHANGED = [
    "040F102700040000000012340B000017870005",
    "06010A04000000001234490978",
    "060F0E060C250A25082506250425022500",
    "060F0E060C250A25082506250425020700",
    "060F83068180077E" + 126 * "41",
]
# The longest trace has 16,777,216 bytes.
LINES_OF_A_TRACE = 50_000


def run(words, given):
    """The status, and what is written but for what is said of lines behind a refusal."""
    done = subprocess.run([PROGRAM, *words], input=given, capture_output=True, timeout=100)
    return done.returncode, done.stdout.decode().replace("# > stopped\n", "").replace("> stopped\n", "")


def lines():
    """The bytes of each vector, and what is answered to them."""
    with open(EXAMPLES / "vectors.txt", encoding="ascii") as file:
        for line in file:
            if line.strip() and not line.startswith("#"):
                spelled, answer = line.split("=")
                yield bytes.fromhex(spelled), answer.strip()


def changed(row):
    """The line with each of its bytes replaced by each of the others."""
    for place, byte in enumerate(row):
        for other in {*OTHERS, byte ^ 1, byte ^ 0x80} - {byte}:
            yield row[:place] + bytes([other]) + row[place + 1 :]


def pieces(row, size):
    return [row[at : at + size] for at in range(0, len(row), size)]


def trace(rows):
    """A trace of these lines, each in its pieces, and each a connection of its own."""
    return "".join("".join(f"> {piece.hex()}\n" for piece in row) + "!\n" for row in rows).encode()


def every_other(row):
    """The line with each of its bytes replaced by each of the 255 others."""
    for place, byte in enumerate(row):
        for other in range(256):
            if other != byte:
                yield row[:place] + bytes([other]) + row[place + 1 :]


def same_in_two(rows):
    """What is wrong with what is read of the lines in two pieces, cut at each place, and how many lines came so."""
    unlike, count, batch, expected = [], 0, [], []
    answers = run(["join"], trace([row] for row in rows))[1].split("!\n")
    for last, (row, answer) in enumerate(zip(rows, answers), 1):
        text = row.hex()
        batch += [f"> {text[:cut]}\n> {text[cut:]}\n!\n" for cut in range(2, len(text), 2)]
        expected += [answer + "!\n"] * (len(row) - 1)
        if len(batch) >= LINES_OF_A_TRACE or last == len(rows):
            if run(["join"], "".join(batch).encode())[1] != "".join(expected):
                unlike.append(f"join in two pieces, of {len(batch)} lines up to {text}")
            count += len(batch)
            batch, expected = [], []
    return unlike, count


def answer_of(row, joined):
    """What `join` reads at the front of the line, as a vector says it."""
    first = joined.split("\n")[0]
    if first.startswith("> "):
        return f"whole {len(first[2:]) // 2}"
    refused = re.fullmatch(r"# > (refused at \d+: \w+)", first)
    if refused:
        return refused[1]
    return "more" if first == f"# > truncated after {len(row)}" else f"no such answer: {first}"


def unlike_vectors(rows, wanted=()):
    """What is wrong with what `join` reads of the lines uncut: those that begin them are answered so, and the reader of
    whole messages answers as it does."""
    joined = run(["join"], trace([row] for row in rows))[1].split("!\n")
    answers = [answer_of(row, text) for row, text in zip(rows, joined)]
    for row, found, answer in zip(rows, answers, wanted):
        if found != answer:
            yield f"{row.hex(' ')} = {found}, not {answer}"
    vectors = "".join(f"{row.hex(' ')} = {answer}\n" for row, answer in zip(rows, answers))
    status, said = run(["vectors"], vectors.encode())
    if status != 0 or len(answers) != len(rows):
        yield f"the reader of whole messages: status {status}\n{said[:2000]}"


def unlike_in_pieces(rows, given):
    """What is wrong with what is read of the lines in pieces, and of these in two."""
    whole = trace([row] for row in rows)
    for command in ("join", "show"):
        wanted = run([command], whole)
        for size in (1, 3):
            if run([command], trace(pieces(row, size) for row in rows)) != wanted:
                yield f"{command} in pieces of {size}"
        twice = [(row, cut) for row in given for cut in range(1, min(len(row), 300))]
        if run([command], trace([row[:cut], row[cut:]] for row, cut in twice)) != run([command], trace([row] for row, _ in twice)):
            yield f"{command} in two pieces"


def main():
    if not os.access(PROGRAM, os.X_OK):
        print(f"chunking: no program at {PROGRAM}: build it by 'rt run' in crates/zvt, or by 'rt ci'", file=sys.stderr)
        return 2
    given = [(row, answer) for row, answer in lines() if row]
    rows = [row for row, _ in given] + sorted({other for row, _ in given if len(row) < 40 for other in changed(row)})
    failed = [*unlike_in_pieces(rows, [row for row, _ in given]), *unlike_vectors(rows, [answer for _, answer in given])]
    count = 0
    for line in CHANGED:
        replaced = list(every_other(bytes.fromhex(line)))
        unlike, tried = same_in_two(replaced)
        count += tried
        failed += [*unlike, *unlike_vectors(replaced)]
    for what in failed:
        print(f"NOT AS EXPECTED: {what}")
    if not failed:
        print(f"ok: {len(rows)} lines cut into pieces, and {count} in two, are read as they are uncut")
    return 1 if failed else 0


if __name__ == "__main__":
    sys.exit(main())

#!/usr/bin/env python3
"""Replaces each secret byte of messages by every other value, and compares what the safe outputs say.

    tests/safe_output.py [PROGRAM]

PROGRAM is the one that `rt ci` built, unless another is named. The messages have a password, card data in fields or in objects
at each depth, or data that the profile does not know. `show --safe`, `show --json` and the screen of `tap` are the same for
each of them. So is the difference that `play` prints. Plain `show` stays the same as well where it hides the bytes, and is
another one where it writes them. The status is 1 where anything is not as expected. It takes seconds.
"""
import pathlib
import socket
import subprocess
import sys
import tempfile

from common import Checks, Listener, program

PROGRAM = program(sys.argv[1:])
SECONDS = 60
check = Checks()
PAN, TRACK = "67 25 90 12 34 56 78 90 12 3F", "67 25 90 12 34 56 78 90 D2 51 22 01"


def message(control, *parts):
    """A message, and the places of its secrets. A part that begins with `!` is secret, and `?` where plain text shows it."""
    content, places = bytes.fromhex(control), []
    data = b""
    for part in parts:
        piece = bytes.fromhex(part.lstrip("!?"))
        if part[0] in "!?":
            places += [(len(data) + at, part[0] == "!") for at in range(len(piece))]
        data += piece
    size = bytes([len(data)]) if len(data) < 255 else b"\xff" + len(data).to_bytes(2, "little")
    head = content + size
    return head + data, [(len(head) + place, hidden) for place, hidden in places]


def nested(depth, tag, secret):
    """A container with a secret object at that depth. What comes before the secret, and the secret."""
    inner, before = bytes.fromhex(secret), []
    size = len(inner)
    before.append(bytes.fromhex(tag) + bytes([size]))
    size += 2
    for _ in range(depth - 1):
        before.append(b"\x25" + bytes([size]))
        size += 2
    before.append(b"\x06" + bytes([size]))
    return b"".join(reversed(before)).hex(), "?" + secret


# The till's messages with a password where the profile has it, and messages of both sides with fields.
MESSAGES = {
    "a registration": (">", *message("06 00", "!12 34 56", "BE 09 78 03 01")),
    "a reversal": (">", *message("06 30", "!12 34 56", "87 00 01")),
    "an end of day": (">", *message("06 50", "!12 34 56")),
    "a card number": ("<", *message("04 0F", "27 00 22 F1 F0", "!" + PAN)),
    "track 2": ("<", *message("04 0F", "23 F1 F2", "!" + TRACK, "27 00")),
    "track 3": ("<", *message("04 0F", "24 F0 F1 F2", "!" + TRACK)),
    "track 1": ("<", *message("04 0F", "2D F0 F3", "!42 36 37")),
    "a verification value": (">", *message("06 01", "04 00 00 00 00 10 00 3A", "!01 23")),
    "a password field": (">", *message("06 01", "3D", "!12 34 56")),
    # Commands outside the profile: their whole data is hidden.
    "a status enquiry": (">", *message("05 01", "?12 34 56 03 01")),
    "a refund": (">", *message("06 31", "?12 34 56 04 00 00 00 00 10 00")),
    "a repeated receipt": (">", *message("06 20", "?12 34 56")),
    "an initialisation": (">", *message("06 93", "?12 34 56")),
    "a change of the password": (">", *message("06 95", "?12 34 56 65 43 21")),
    "a pre-authorisation": (">", *message("06 22", "?04 00 00 00 00 10 00 22 F1 F0 " + PAN)),
    "a message of the terminal": ("<", *message("06 C5", "?5A 0A " + PAN)),
}
for _depth in range(1, 7):
    MESSAGES[f"a card number at depth {_depth}"] = ("<", *message("04 0F", "27 00", *nested(_depth, "5A", PAN)))
    MESSAGES[f"track 2 at depth {_depth}"] = ("<", *message("06 0F", *nested(_depth, "57", TRACK)))
MESSAGES["track 2 in a text block"] = ("<", *message("06 D3", *nested(2, "57", TRACK)))
MESSAGES["a card number in an order"] = (">", *message("06 01", "04 00 00 00 00 10 00", *nested(1, "5A", PAN)))

# Orders that are refused for what follows their secrets. `play --open` reads on after them.
REFUSED = {
    "a refused reversal": message("06 30", "!12 34 56", "D0 00"),
    "a refused order with a card number": message("06 01", "04 00 00 00 00 10 00 22 F1 F0", "!" + PAN, "D0 00"),
    "a refused order with a card number in an object": message("06 01", nested(1, "5A", PAN)[0], "!" + PAN, "D0 00"),
}


def run(words, given):
    done = subprocess.run([PROGRAM, *words], input=given, capture_output=True, timeout=SECONDS)
    return done.returncode, done.stdout, done.stderr


def line(sign, data):
    return f"{sign} {data.hex()}\n!\n".encode()


def replaced(data, place, value):
    return data[:place] + bytes([value]) + data[place + 1:]


def others(data, places):
    """The message with one secret byte replaced by each other value."""
    for place, hidden in places:
        for value in range(256):
            if value != data[place]:
                yield replaced(data, place, value), hidden


def texts(trace):
    """The different texts between lost lines in what `show` writes."""
    return set(run(["show"], trace)[1].split(b"!"))


def hold_show():
    variants = 0
    for name, (sign, data, places) in MESSAGES.items():
        made = list(others(data, places))
        variants += len(made)
        first = b"".join(line(sign, data) for _ in made)
        changed = b"".join(line(sign, other) for other, _ in made)
        for words in (["show", "--safe"], ["show", "--safe", "--explain"], ["show", "--json"]):
            wanted, found = run(words, first), run(words, changed)
            check(f"{name}: {' '.join(words)} has the lines", wanted[0], 0)
            check(f"{name}: {' '.join(words)}", found == wanted, True)
        plain = [texts(b"".join(line(sign, other) for other, hidden in made if hidden is hides)) for hides in (True, False)]
        check(f"{name}: plain text", len(plain[0]) <= 3, True)
        check(f"{name}: plain text of what it shows", len(plain[1]), 1 + sum(not hidden for _, hidden in made))
    return variants


# ---- the difference that `play` prints


def differs(folder, wanted, came, *words):
    """What `play` prints where the till sends another message than the trace has."""
    trace = folder / "play.trace"
    trace.write_bytes(b"> " + wanted.hex().encode() + b"\n")
    player = Listener([PROGRAM, "play", "--terminal", str(trace), "--listen", "0", *words], SECONDS)
    with socket.create_connection(("127.0.0.1", player.port), timeout=SECONDS) as till:
        till.sendall(came)
        return player.ended()


def hold_play():
    read = [(name, data, places, ()) for name, (sign, data, places) in MESSAGES.items() if sign == ">"]
    refused = [(name, data, places, ("--open",)) for name, (data, places) in REFUSED.items()]
    with tempfile.TemporaryDirectory() as name:
        folder = pathlib.Path(name)
        for name, data, places, words in read + refused:
            other, (last, _) = message("06 01", "04 00 00 00 00 99 99")[0], places[-1]
            secret = replaced(data, last, data[last] ^ 1)
            found = differs(folder, other, data, *words)
            check(f"{name}: the difference where it was awaited", differs(folder, secret, other, *words), differs(folder, data, other, *words))
            check(f"{name}: the difference where it came", differs(folder, other, secret, *words), found)
            check(f"{name}: the status", found[0], 1)
            check(f"{name}: whether it is read", "> unread " not in found[1], not words)


def main():
    variants = hold_show()
    hold_play()
    print(f"safe_output: {len(MESSAGES)} messages, {variants} with another secret byte; {check.wrong} differ: {check.verdict}")
    return check.wrong > 0


if __name__ == "__main__":
    sys.exit(main())

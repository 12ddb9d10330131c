#!/usr/bin/env python3
"""Plays dialogues of a till with `zvt terminal` over TCP on this machine, and compares what the terminal answers, byte for
byte, with what it must answer.

    tests/dialogue.py [PROGRAM]

PROGRAM is the one that `rt ci` built, unless another is named. The dialogues stand in dialogues.txt, whose first lines say
how to read them. One more fills the ledger. The status is 1 where anything is not as expected. It takes some seconds.
"""
import re
import socket
import subprocess
import sys
import threading

from common import Checks, TOP, program

PROGRAM = program(sys.argv[1:])
SECONDS = 20
REGISTRATION, REGISTERED = "06 00 06 00 00 00 BE 09 78", "80 00 00 06 0F 08 29 12 34 56 78 49 09 78"
AUTHORISATION, ACK = "06 01 07 04 00 00 00 00 10 00", "80 00 00"
APPROVED_LINE = "06 D1 0E 00" + b"APPROVED 1000".hex()
# How many rows a ledger has at most.
MAX_LEDGER_ROWS = 9_999
check = Checks()


class Terminal:
    """A terminal that serves so many lines one after another."""

    def __init__(self, words, lines):
        command = [PROGRAM, "terminal", "--port", "0", "--connections", str(lines), *words]
        self.process = subprocess.Popen(command, stdout=subprocess.DEVNULL, stderr=subprocess.PIPE, text=True)
        self.port = int(self.process.stderr.readline().rsplit(":", 1)[1])
        # It has a line for each approval, which are more than a pipe holds.
        self.said = []
        self.reader = threading.Thread(target=lambda: self.said.append(self.process.stderr.read()), daemon=True)
        self.reader.start()

    def ended(self):
        """The approvals that it said its ledger has, and its status."""
        self.reader.join(SECONDS)
        said = "".join(self.said)
        return int(re.findall(r"approvals in the ledger: (\d+)", said)[-1]), self.process.wait(SECONDS)


def connect(terminal):
    line = socket.create_connection(("127.0.0.1", terminal.port), SECONDS)
    line.setsockopt(socket.IPPROTO_TCP, socket.TCP_NODELAY, 1)
    return line


def hear(line, wanted):
    """Compares the bytes that come next with these."""
    found = b""
    while len(found) < len(wanted):
        more = line.recv(len(wanted) - len(found))
        if not more:
            break
        found += more
    if found != wanted:
        raise ValueError(f"answered {found.hex(' ')} instead of {wanted.hex(' ')}")


def close(line):
    """Sends no more: then nothing more may come."""
    line.shutdown(socket.SHUT_WR)
    if more := line.recv(4096):
        raise ValueError(f"answered {more.hex(' ')} besides")
    line.close()


def play(words, trace, wanted):
    terminal = Terminal(words, 1 + sum(row == "!" for row in trace))
    try:
        line = connect(terminal)
        for row in trace:
            sign, digits = row[:1], row[1:]
            if sign == ">":
                line.sendall(bytes.fromhex(digits))
            elif sign == "<":
                hear(line, bytes.fromhex(digits))
            elif sign == "!":
                close(line)
                line = connect(terminal)
        close(line)
        if (found := terminal.ended()) != wanted:
            raise ValueError(f"it ended with {found} instead of {wanted}")
    finally:
        terminal.process.kill()


def dialogue(text):
    """The words, the trace, and how the terminal ends, of a dialogue behind its name."""
    rows = [row for row in text.splitlines() if row and not row.startswith("#")]
    words = [row[1:].split() for row in rows if row.startswith("$")]
    ends = [tuple(int(word) for word in row[2:].split()) for row in rows if row.startswith("=>")]
    return sum(words, []), [row for row in rows if row[0] in "<>!"], ends[0]


def full_ledger():
    """So many payments that no more row fits: then a payment is refused, and a reversal is given up."""
    trace = [f"> {REGISTRATION}", f"< {REGISTERED}", f"> {ACK}"]
    for number in range(1, MAX_LEDGER_ROWS + 1):
        row = f"27 00 04 00 00 00 00 10 00 0B {number:06} 87 {number:04} 49 09 78"
        trace += [f"> {AUTHORISATION}", f"< {ACK} 04 0F 13 {row}", f"> {ACK}", f"< {APPROVED_LINE}", f"> {ACK}", "< 06 0F 00", f"> {ACK}"]
    trace += [f"> {AUTHORISATION}", "< 84 FF 00", "> 06 30 06 00 00 00 87 00 01", f"< {ACK} 06 1E 01 FF", f"> {ACK}"]
    return [], trace, (MAX_LEDGER_ROWS, 0)


def main():
    with open(TOP / "tests/data/dialogues.txt", encoding="ascii") as file:
        texts = re.split(r"^== ", file.read(), flags=re.M)[1:]
    named = [(text.splitlines()[0], dialogue(text.partition("\n")[2])) for text in texts]
    named.append(("a full ledger takes no row", full_ledger()))
    for name, (words, trace, ends) in named:
        try:
            play(words, trace, ends)
        except (OSError, ValueError) as error:
            check.differs(name, error)
    print(f"{check.verdict}: dialogues with a terminal: {len(named) - check.wrong} of {len(named)}")
    return check.status


sys.exit(main())

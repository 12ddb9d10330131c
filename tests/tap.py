#!/usr/bin/env python3
"""Puts `zvt tap` between tills and terminals, and compares what each side receives with what the other sent.

    tests/tap.py [--many] [PROGRAM]

PROGRAM is the one that `rt ci` built, unless another is named. First `zvt till` and `zvt terminal` talk through a tap: what they
write is what they write without it. Then 300 lines, or with `--many` 10,000, carry parts of the examples, random bytes and
nothing, cut anywhere, in both ways at once. 50 lines, or 1,000, come one after another. Two taps run side by side, and one as
the example for systemd starts it. Then come sides that close one way, reset, send a part of a message, read nothing, lose their power, or are not there, traces that can't be written, reports that
nobody reads, and a system that refuses connections. In all cases the trace has what was sent, in order. Standard output is what
`zvt show` writes of the trace of each line, and then `zvt audit`. The status is 1 where anything is not as expected. It takes 20
seconds.
"""
import datetime
import os
import pathlib
import random
import re
import resource
import socket
import struct
import subprocess
import sys
import tempfile
import threading
import time

from common import Checks, EXAMPLES, program, unmarked

MANY = "--many" in sys.argv[1:2]
WORDS = sys.argv[2 if MANY else 1:]
PROGRAM = program(WORDS)
LINES, IN_A_ROW = (10_000, 1_000) if MANY else (300, 50)
SECONDS = 60  # a bound on what takes a second, for machines that do much besides
HELD, UNREAD = 1 << 14, 64 << 20  # bytes that a side's socket holds while it reads nothing, and more than all sockets hold
STEPS = ["register", "pay:1000", "reverse:1", "pay:250", "close"]
check = Checks()


def run(words, trace=b""):
    done = subprocess.run([PROGRAM, *words], input=trace, capture_output=True, timeout=SECONDS)
    return done.returncode, done.stdout


def listener():
    """A socket that listens at a free port."""
    door = socket.socket()
    door.setsockopt(socket.SOL_SOCKET, socket.SO_RCVBUF, HELD)
    door.bind(("127.0.0.1", 0))
    door.listen(16)
    door.settimeout(SECONDS)
    return door


def text_of(trace):
    """What is written of a trace: of each line its text, and then its books."""
    written = b""
    for line in re.findall(rb"(?:[^!][^\n]*\n)*!\n", trace):
        written += run(["show", "--safe"], line)[1] + run(["audit"], line)[1]
    return written


def bytes_of(trace, sign):
    """What a trace says that a side sent."""
    return b"".join(bytes.fromhex(row[2:].decode()) for row in trace.split(b"\n") if row[:1] == sign)


class Tap:
    """A tap that runs, with its trace and what it writes in files. The trace has no time marks, unless they are asked for."""

    def __init__(self, to, *words, trace=True, marks=False, listen="0", output=None):
        self.folder = tempfile.TemporaryDirectory()
        self.trace = os.path.join(self.folder.name, "line.trace") if trace is True else trace
        self.output = os.path.join(self.folder.name, "output")
        words = ["tap", "--listen", listen, "--to", to if isinstance(to, str) else f"127.0.0.1:{to}", *words]
        if self.trace:
            words += ["--trace", self.trace, *([] if marks else ["--no-times"])]
        with open(self.output, "wb") as written:
            self.run = subprocess.Popen([PROGRAM, *words], stdin=subprocess.DEVNULL, stdout=output or written, stderr=subprocess.PIPE)
        self.said = self.run.stderr.readline().decode()
        found = re.fullmatch(r"zvt: a tap listens at 127\.0\.0\.1:(\d+)\n", self.said)
        self.port = int(found[1]) if found else None
        # It says a line or two of each connection, more than a pipe holds where there are many.
        self.says = []
        self.reader = threading.Thread(target=lambda: self.says.extend(self.run.stderr), daemon=True)
        self.reader.start()

    def till(self):
        till = socket.socket()
        till.setsockopt(socket.SOL_SOCKET, socket.SO_RCVBUF, HELD)
        till.settimeout(SECONDS)
        till.connect(("127.0.0.1", self.port))
        return till

    def end(self):
        """The status, the trace, what was written, and what was said besides the address."""
        status = self.run.wait(SECONDS)
        self.reader.join(SECONDS)
        said = b"".join(self.says).decode()
        trace = b""
        if self.trace and os.path.isfile(self.trace):
            trace = pathlib.Path(self.trace).read_bytes()
        written = pathlib.Path(self.output).read_bytes()
        self.folder.cleanup()
        return status, trace, written, said


def ended(name, tap, status, said=None, whole=True):
    """Waits for a tap, and checks its status, what it said and what it wrote. Answers its trace."""
    found, trace, written, text = tap.end()
    check(f"{name}: the status", found, status)
    if said is not None and not re.fullmatch(said, text, re.S):
        check(f"{name}: what is said", text, said)
    if whole and trace:
        check(f"{name}: the text", written, text_of(trace))
    return trace


def pair(tap, door):
    """Both ends of a line through a tap: the till's, and the terminal's."""
    till = tap.till()
    terminal, _ = door.accept()
    for end in (till, terminal):
        end.settimeout(SECONDS)
        end.setsockopt(socket.IPPROTO_TCP, socket.TCP_NODELAY, 1)
    return till, terminal


def drain(end):
    """All that comes until the other side closes its way."""
    came = []
    while part := end.recv(65536):
        came.append(part)
    return b"".join(came)


def reset(end):
    end.setsockopt(socket.SOL_SOCKET, socket.SO_LINGER, struct.pack("ii", 1, 0))
    end.close()


# ---- `zvt till` and `zvt terminal`


def programs():
    """A till and a terminal of this program, with a tap between them and without."""
    found = []
    for through in (False, True):
        terminal = subprocess.Popen([PROGRAM, "terminal", "--port", "0"], stdin=subprocess.DEVNULL, stdout=subprocess.PIPE, stderr=subprocess.PIPE)
        port = int(re.search(rb":(\d+)$", terminal.stderr.readline().rstrip())[1])
        tap = Tap(port) if through else None
        till = run(["till", "--port", str(tap.port if tap else port), *STEPS])
        said = terminal.stderr.read()
        found.append((till, terminal.wait(SECONDS), said))
        if tap:
            trace = ended("a till and a terminal", tap, 0, "")
            check("a till and a terminal: the end of the trace", trace[-2:], b"!\n")
            books = run(["audit"], trace)[1]
            check("a till and a terminal: the books are written", b"paid" in books or len(books) > 0, True)
    check("a till and a terminal: what they write", found[1], found[0])


# ---- lines that are cut anywhere


def dialogues():
    """What both sides of each example send."""
    found = []
    for path in sorted(EXAMPLES.glob("**/*.trace")):
        rows = re.sub(rb"[ \r]", b"", path.read_bytes()).split(b"\n")
        found.append(tuple(b"".join(bytes.fromhex(row[1:].decode()) for row in rows if row[:1] == sign) for sign in (b">", b"<")))
    return found


def pieces_of(chance, sent):
    """The bytes in random pieces."""
    most = chance.choice([1, 3, 50, 5_000])
    if len(sent) > 200 * most:
        most = len(sent) // 20
    at = 0
    while at < len(sent):
        size = chance.randint(1, most)
        yield sent[at:at + size]
        at += size


def send_and_drain(chance, till, terminal, sent):
    """Each end has a thread that sends, and one that receives. Answers what each side received."""
    came = {}

    def send(name, end, pieces):
        for piece in pieces:
            end.sendall(piece)
            if chance_of[name].random() < 0.02:
                time.sleep(0.001)
        end.shutdown(socket.SHUT_WR)

    def receive(name, end):
        came[name] = drain(end)

    chance_of = {name: random.Random(chance.random()) for name in ("till", "terminal")}
    work = []
    for name, end in (("till", till), ("terminal", terminal)):
        work.append(threading.Thread(target=send, args=(name, end, list(pieces_of(chance, sent[name])))))
        work.append(threading.Thread(target=receive, args=(name, end)))
    for one in work:
        one.start()
    for one in work:
        one.join(SECONDS)
    return came


def cut_lines():
    """Random lines through one tap, one after another."""
    chance = random.Random(20007)
    known = dialogues()
    check("there are dialogues", len(known) > 2, True)
    door = listener()
    tap = Tap(door.getsockname()[1], "--connections", str(LINES))
    all_sent, bad = [], 0
    for number in range(LINES):
        order, answer = chance.choice(known)
        kind = chance.random()
        if kind < 0.1:
            order, answer = chance.randbytes(chance.randint(0, 3_000)), chance.randbytes(chance.randint(0, 3_000))
        elif kind < 0.2:
            order = order[:chance.randint(0, len(order))]
        elif kind < 0.25:
            order, answer = order * 50, answer * 50
        sent = {"till": order, "terminal": answer}
        till, terminal = pair(tap, door)
        came = send_and_drain(chance, till, terminal, sent)
        till.close()
        terminal.close()
        all_sent.append(sent)
        if not check(f"line {number}: what the terminal receives", came.get("terminal"), order):
            break
        if not check(f"line {number}: what the till receives", came.get("till"), answer):
            break
    trace = ended("lines cut anywhere", tap, 1)
    lines = re.findall(rb"(?:[^!][^\n]*\n)*!\n", trace)
    check("lines cut anywhere: the trace's lines", (len(lines), b"".join(lines) == trace), (LINES, True))
    for number, (line, sent) in enumerate(zip(lines, all_sent)):
        check(f"line {number}: what the trace says of the till", bytes_of(line, b">"), sent["till"])
        check(f"line {number}: what the trace says of the terminal", bytes_of(line, b"<"), sent["terminal"])
    door.close()


def in_a_row():
    """Short lines, one after another."""
    door = listener()
    tap = Tap(door.getsockname()[1], "--connections", str(IN_A_ROW), trace=None)
    for number in range(IN_A_ROW):
        till, terminal = pair(tap, door)
        till.sendall(bytes.fromhex("0600060000000000"))
        check(f"line {number} of a row", terminal.recv(100), bytes.fromhex("0600060000000000"))
        till.close()
        check(f"line {number} of a row: the end", terminal.recv(100), b"")
        terminal.close()
    check("lines in a row: the status", tap.end()[0], 1)
    door.close()


def at_once():
    """An answer goes back before anything else is sent: no chunk waits for the next."""
    door = listener()
    tap = Tap(door.getsockname()[1])
    till, terminal = pair(tap, door)
    order, answer = bytes.fromhex("06B000"), bytes.fromhex("800000")
    began = time.monotonic()
    for _ in range(200):
        till.sendall(order)
        if not check("at once: an order", terminal.recv(100), order):
            break
        terminal.sendall(answer)
        if not check("at once: its answer", till.recv(100), answer):
            break
    took = time.monotonic() - began
    check("at once: 200 answers take less than two seconds", took < 2, True)
    till.close()
    terminal.close()
    trace = ended("at once", tap, 0, "")
    check("at once: the trace", trace, (b"> 06B000\n< 800000\n" * 200) + b"!\n")
    door.close()


# ---- several tills, each with a tap of its own


def side_by_side():
    """A line that stands still delays no other: its terminal reads nothing, while another till's orders are answered."""
    door = listener()
    port = door.getsockname()[1]
    stuck, other = Tap(port, trace=None), Tap(port)
    full, unread = pair(stuck, door)
    till, terminal = pair(other, door)
    full.settimeout(0.2)
    try:
        for _ in range(UNREAD >> 16):
            full.sendall(bytes(1 << 16))
    except OSError:
        pass
    order, answer = bytes.fromhex("06B000"), bytes.fromhex("800000")
    began = time.monotonic()
    for _ in range(20):
        till.sendall(order)
        check("side by side: an order", terminal.recv(100), order)
        terminal.sendall(answer)
        check("side by side: its answer", till.recv(100), answer)
    check("side by side: 20 answers take less than a second", time.monotonic() - began < 1, True)
    for end in (till, terminal):
        end.close()
    trace = ended("side by side", other, 0, "")
    check("side by side: the trace", trace, (b"> 06B000\n< 800000\n" * 20) + b"!\n")
    reset(full)
    reset(unread)
    ended("side by side: the line that stood still", stuck, 4, whole=False)
    door.close()


def unit():
    """The command of the example for systemd forwards a line."""
    door = listener()
    settings = re.search(r"^ExecStart=zvt tap (.*)$", (EXAMPLES / "zvt-tap@.service").read_text(), re.M)[1]
    with tempfile.TemporaryDirectory() as state:
        os.mkdir(os.path.join(state, "zvt-tap"))
        for name, value in {"${LISTEN}": "0", "${TO}": f"127.0.0.1:{door.getsockname()[1]}", "%S": state, "%i": "till3"}.items():
            settings = settings.replace(name, value)
        running = subprocess.Popen([PROGRAM, "tap", *settings.split()], stdout=subprocess.PIPE, stderr=subprocess.PIPE)
        port = int(re.search(rb":(\d+)\n", running.stderr.readline())[1])
        with socket.create_connection(("127.0.0.1", port), SECONDS) as till, door.accept()[0] as terminal:
            till.sendall(bytes.fromhex("06B000"))
            check("the unit: an order", terminal.recv(100), bytes.fromhex("06B000"))
        wanted, since = b"> 06B000\n!\n", time.monotonic()
        trace = pathlib.Path(state, "zvt-tap", "till3.trace")
        while unmarked(trace.read_bytes()) != wanted and time.monotonic() - since < SECONDS:
            time.sleep(0.05)
        check("the unit: the trace", unmarked(trace.read_bytes()), wanted)
        running.kill()
        running.communicate()
    door.close()


# ---- ends


def half_closed():
    door = listener()
    for first in ("till", "terminal"):
        tap = Tap(door.getsockname()[1])
        ends = dict(zip(("till", "terminal"), pair(tap, door)))
        other = "terminal" if first == "till" else "till"
        early, late = bytes.fromhex("06B000"), bytes.fromhex("800000") * 5_000
        ends[first].sendall(early)
        ends[first].shutdown(socket.SHUT_WR)
        check(f"half closed by the {first}: what it sent", drain(ends[other]), early)
        sender = threading.Thread(target=lambda: (ends[other].sendall(late), ends[other].close()))
        sender.start()
        check(f"half closed by the {first}: what comes later", drain(ends[first]), late)
        sender.join(SECONDS)
        ends[first].close()
        ended(f"half closed by the {first}", tap, 0, "")
    door.close()


def resets():
    door = listener()
    for who in ("till", "terminal"):
        tap = Tap(door.getsockname()[1])
        ends = dict(zip(("till", "terminal"), pair(tap, door)))
        other = "terminal" if who == "till" else "till"
        ends[who].sendall(bytes.fromhex("06B000"))
        check(f"reset by the {who}: what it sent", ends[other].recv(100), bytes.fromhex("06B000"))
        reset(ends[who])
        try:
            left = ends[other].recv(100)
        except ConnectionResetError:
            left = b""
        check(f"reset by the {who}: nothing more comes", left, b"")
        ends[other].close()
        trace = ended(f"reset by the {who}", tap, 4, f"zvt: the line to the {who} broke: it reset the connection\n")
        check(f"reset by the {who}: the trace", trace, (b"> " if who == "till" else b"< ") + b"06B000\n!\n")
    door.close()


def parts():
    """A side sends a part of a message, or what is none."""
    door = listener()
    for name, sent in (("cut off", "06010700"), ("refused", "FFFFFF0600")):
        tap = Tap(door.getsockname()[1])
        till, terminal = pair(tap, door)
        till.sendall(bytes.fromhex(sent))
        till.close()
        check(f"{name}: what the terminal receives", drain(terminal), bytes.fromhex(sent))
        terminal.close()
        ended(name, tap, 1, r"zvt: messages: 0, streams refused or cut off: 1\n")
    door.close()


def padded():
    """An authorisation whose size has three bytes where one would do: a strict tap reports it, a loose one reads it."""
    door = listener()
    sent = bytes.fromhex("0601FF070004000000001234")
    for words, status, said in (((), 1, r"zvt: messages: 0, streams refused or cut off: 1\n"), (("--loose",), 0, "")):
        name = f"a padded length {' '.join(words)}"
        tap = Tap(door.getsockname()[1], *words)
        till, terminal = pair(tap, door)
        till.sendall(sent)
        till.close()
        check(f"{name}: what the terminal receives", drain(terminal), sent)
        terminal.close()
        found, trace, written, text = tap.end()
        check(f"{name}: the status", found, status)
        check(f"{name}: what is said", bool(re.fullmatch(said, text)), True)
        check(f"{name}: the text", written, run(["show", "--safe", *words], trace)[1] + run(["audit", *words], trace)[1])
    door.close()


def read_on():
    """A status enquiry and then a payment: a strict tap reads no payment, an open one audits it."""
    door = listener()
    turns = [
        ("0501050000000300", "800000 060F04F0F0F000"),
        ("06010A04000000001234490978", "800000 040F13 2700 04000000001234 490978 0B000017 870005 060F00"),
    ]
    for words, status, books in (((), 1, b"total 0\n"), (("--open",), 0, b"booked 1234 trace 000017 receipt 0005\ntotal 1234\n")):
        name = f"a status enquiry {' '.join(words)}"
        tap = Tap(door.getsockname()[1], *words)
        till, terminal = pair(tap, door)
        for asked, told in turns:
            asked, told = bytes.fromhex(asked), bytes.fromhex(told)
            till.sendall(asked)
            check(f"{name}: what the terminal receives", terminal.recv(len(asked), socket.MSG_WAITALL), asked)
            terminal.sendall(told)
            check(f"{name}: what the till receives", till.recv(len(told), socket.MSG_WAITALL), told)
        till.close()
        terminal.close()
        found, trace, written, text = tap.end()
        check(f"{name}: the status", found, status)
        check(f"{name}: what is said", bool(re.fullmatch(r"zvt: messages: \d+, streams refused or cut off: 1\n", text)), True)
        check(f"{name}: the text", written, run(["show", "--safe", *words], trace)[1] + run(["audit", *words], trace)[1])
        check(f"{name}: the books", written.endswith(books), True)
    door.close()


def reconnects():
    """A till that lost power ends no connection. Once its line was silent for long enough, its new connection is served."""
    door = listener()
    tap = Tap(door.getsockname()[1], "--connections", "2")
    order, other = bytes.fromhex("06B000"), bytes.fromhex("060006000000BE0978")
    lost, terminal = pair(tap, door)
    lost.sendall(order)
    check("a till that lost power: what the terminal receives", terminal.recv(100), order)
    since = time.monotonic()
    till, again = pair(tap, door)
    waited = time.monotonic() - since
    check("a till that lost power: how long its new connection waits", 5 < waited < 12, True)
    check("a till that lost power: its old line is closed at the terminal", drain(terminal), b"")
    till.sendall(other)
    check("a till that lost power: what the terminal receives of the new line", again.recv(100), other)
    for end in (terminal, till, again, lost):
        end.close()
    said = r"zvt: the till connected anew, so its line was closed that had been silent for 6 seconds\n"
    trace = ended("a till that lost power", tap, 0, said)
    check("a till that lost power: its trace", trace, b"> 06B000\n!\n> 060006000000BE0978\n!\n")
    door.close()


def keeps_on():
    """A line that is not silent stays, however many tills wait for it."""
    door = listener()
    tap = Tap(door.getsockname()[1], "--connections", "2")
    till, terminal = pair(tap, door)
    later = tap.till()
    sent = b""
    for _ in range(4):
        till.sendall(bytes.fromhex("06B000"))
        sent += terminal.recv(100)
        time.sleep(2)
    till.close()
    terminal.close()
    check("a line that another till waits for: what the terminal receives", sent, bytes.fromhex("06B000") * 4)
    terminal, _ = door.accept()
    later.close()
    terminal.close()
    ended("a line that another till waits for", tap, 0, "")
    door.close()


def unread():
    """A side that reads nothing."""
    door = listener()
    for who in ("terminal", "till"):
        tap = Tap(door.getsockname()[1], trace=None)
        ends = dict(zip(("till", "terminal"), pair(tap, door)))
        other = "till" if who == "terminal" else "terminal"
        sent, block = 0, bytes(range(256)) * 256
        began = time.monotonic()
        try:
            while sent < UNREAD:
                sent += ends[other].send(block[sent % len(block):])
        except OSError:
            pass
        took = time.monotonic() - began
        came = 0
        same = True
        try:
            while part := ends[who].recv(65536):
                same = same and part == bytes((came + at) % 256 for at in range(len(part)))
                came += len(part)
        except OSError:
            pass
        check(f"the {who} reads nothing: it has a prefix", (same, 0 < came <= sent), (True, True))
        for end in ends.values():
            end.close()
        check(f"the {who} reads nothing: it is waited for", took > 4, True)
        ended(f"the {who} reads nothing", tap, 4, f"zvt: the line to the {who} broke: it read nothing for 5 seconds: check whether it hangs\n.*")
    door.close()


def missing():
    """A side that is not there, and addresses that can't be."""
    door = listener()
    port = door.getsockname()[1]
    tap = Tap(port, listen=str(port), trace=None)
    tap.reader.join(SECONDS)
    said = tap.said + b"".join(tap.says).decode()
    check("the port is in use", (tap.run.wait(SECONDS), "is in use" in said), (4, True))
    door.close()
    tap = Tap(port, "--connections", "2")
    for _ in range(2):
        till = tap.till()
        try:
            left = till.recv(100)
        except ConnectionResetError:
            left = b""
        check("no terminal: the till is closed", left, b"")
        till.close()
    ended("no terminal", tap, 4, rf"(zvt: no connection to the terminal at '127\.0\.0\.1:{port}': connection refused: [^\n]*\n){{2}}")
    for words in (["--listen", "0", "--to", "nowhere"], ["--listen", "0", "--to", "127.0.0.1:0"], ["--listen", "here", "--to", "127.0.0.1:1"],
                  ["--listen", "0", "--to", "127.0.0.1:1", "--connections", "65536"], ["--listen", "0"]):
        check(f"wrong words {words}", run(["tap", *words])[0], 2)


# ---- the trace


def traces():
    door = listener()
    port = door.getsockname()[1]
    order = bytes.fromhex("06B000")
    # A full device: the line goes on, and that is said once.
    tap = Tap(port, "--connections", "2", trace="/dev/full")
    for _ in range(2):
        till, terminal = pair(tap, door)
        for _ in range(3):
            till.sendall(order)
            check("a full trace: what the terminal receives", terminal.recv(100), order)
        till.close()
        terminal.close()
    ended("a full trace", tap, 4, r"zvt: cannot write the trace file, so the line goes on without it: [^\n]*\n")
    # The same where the trace is required: nothing passes that is not in it.
    tap = Tap(port, "--trace-required", "--connections", "2", trace="/dev/full")
    till, terminal = pair(tap, door)
    till.sendall(order)
    check("a trace that is required: nothing passes", terminal.recv(100), b"")
    till.close()
    terminal.close()
    ended("a trace that is required", tap, 4, r"zvt: cannot write the trace file, so the line ends: [^\n]*\n")
    # A file that can't be made.
    tap = Tap(port, trace="/nonexistent/line.trace")
    check("no trace file", (tap.run.wait(SECONDS), "cannot create the trace file" in tap.said), (4, True))
    # A chunk is in the trace before it comes out.
    tap = Tap(port)
    till, terminal = pair(tap, door)
    for number in range(100):
        till.sendall(order)
        terminal.recv(100)
        check("the trace has what came out", pathlib.Path(tap.trace).read_bytes(), b"> 06B000\n" * (number + 1))
    till.close()
    terminal.close()
    ended("the trace has what came out", tap, 0, "")
    door.close()


def marked():
    """Each line has a time mark, of the time that its chunk came, and without them the trace is that of a tap that writes none."""
    door = listener()
    port = door.getsockname()[1]
    order, traces = bytes.fromhex("06B000"), []
    for marks in True, False:
        tap = Tap(port, "--connections", "2", marks=marks)
        for _ in range(2):
            till, terminal = pair(tap, door)
            for sender, receiver in ((till, terminal), (terminal, till)) * 3:
                begun = moment()
                sender.sendall(order)
                receiver.recv(100)
                if marks:
                    mark = pathlib.Path(tap.trace).read_bytes().splitlines()[-2]
                    check("a mark has the time of its chunk", begun <= mark <= moment(), True)
            till.close()
            terminal.close()
        traces.append(ended("time marks" if marks else "no time marks", tap, 0, ""))
    check("a trace without its marks", unmarked(traces[0]), traces[1])
    check("its lines", traces[1], (b"> 06B000\n< 06B000\n" * 3 + b"!\n") * 2)
    door.close()


def moment():
    """The time mark of now, without its line feed."""
    return datetime.datetime.now(datetime.timezone.utc).strftime("#@ %Y-%m-%dT%H:%M:%S.%f")[:-3].encode() + b"Z"


def no_output():
    """Nobody reads what is shown."""
    door = listener()
    for_reading, for_writing = os.pipe()
    os.close(for_reading)
    tap = Tap(door.getsockname()[1], output=for_writing)
    os.close(for_writing)
    till, terminal = pair(tap, door)
    for _ in range(3):
        till.sendall(bytes.fromhex("06B000"))
        check("nobody reads: what the terminal receives", terminal.recv(100), bytes.fromhex("06B000"))
    till.close()
    terminal.close()
    check("nobody reads: the trace", ended("nobody reads", tap, 4, "", whole=False), b"> 06B000\n" * 3 + b"!\n")
    door.close()


def unread_output():
    """Nobody reads what is shown while the line is up: it is forwarded all the same. What is held is printed at the end,
    and of too much text a note says how much was dropped."""
    print_line = bytes.fromhex("06D1FA00" + "20" * 249)
    for count, whole in ((3_000, True), (22_000, False)):
        name = f"an output that nobody reads, {count} messages"
        door = listener()
        for_reading, for_writing = os.pipe()
        tap = Tap(door.getsockname()[1], output=for_writing)
        os.close(for_writing)
        till, terminal = pair(tap, door)
        came = []
        receiver = threading.Thread(target=lambda: came.append(drain(till)))
        receiver.start()
        terminal.sendall(print_line * count)
        terminal.shutdown(socket.SHUT_WR)
        receiver.join(SECONDS)
        check(f"{name}: what the till receives", [len(part) for part in came], [len(print_line) * count])
        till.close()
        terminal.close()
        with open(for_reading, "rb") as output:
            written = output.read()
        found, trace, _, said = tap.end()
        wanted = run(["show", "--safe"], trace)[1] + run(["audit"], trace)[1]
        dropped = sum(int(number) for number in re.findall(rb"^# (\d+) bytes were not printed, because nobody read this output$", written, re.M))
        check(f"{name}: the status", found, 0 if whole else 4)
        if whole:
            check(f"{name}: the text", (written == wanted, said), (True, ""))
        else:
            kept = re.sub(rb"^# \d+ bytes were not printed, because nobody read this output\n", b"", written, flags=re.M)
            check(f"{name}: the text that was dropped", (dropped > 0, len(kept) + dropped), (True, len(wanted)))
            check(f"{name}: what is said", said, f"zvt: {dropped} bytes were not printed, because nobody read standard output\n")
        door.close()


def no_reports():
    """Nobody reads the reports: each line is passed on all the same, and the status is that of the lines."""
    door = listener()
    tap = subprocess.Popen([PROGRAM, "tap", "--listen", "0", "--to", f"127.0.0.1:{door.getsockname()[1]}", "--connections", "3"],
                           stdin=subprocess.DEVNULL, stdout=subprocess.PIPE, stderr=subprocess.PIPE)
    port = int(re.search(rb":(\d+)$", tap.stderr.readline().rstrip())[1])
    tap.stderr.close()
    for sent in (b"\x06\xB0\x00", b"\xFF\xFF\xFF\xFF\xFF", b"\x80\x00\x00"):
        till = socket.create_connection(("127.0.0.1", port), timeout=SECONDS)
        terminal, _ = door.accept()
        terminal.settimeout(SECONDS)
        till.sendall(sent)
        till.shutdown(socket.SHUT_WR)
        check(f"nobody reads the reports: what the terminal receives of {sent.hex()}", drain(terminal), sent)
        terminal.close()
        till.close()
    check("nobody reads the reports: the status", (tap.wait(SECONDS), tap.stdout.read() != b""), (1, True))
    tap.stdout.close()
    door.close()


def refused_connections():
    """The system has no descriptor for a connection: the tap says so, and takes the till once it has one again."""
    door = listener()
    tap = Tap(door.getsockname()[1], "--connections", "2")
    till, terminal = pair(tap, door)
    till.sendall(bytes.fromhex("06B000"))
    check("before it: what the terminal receives", terminal.recv(100), bytes.fromhex("06B000"))
    _, most = resource.prlimit(tap.run.pid, resource.RLIMIT_NOFILE)
    resource.prlimit(tap.run.pid, resource.RLIMIT_NOFILE, (0, most))
    till.close()
    terminal.close()
    till = tap.till()
    until = time.monotonic() + SECONDS
    while not any(b"no connection from a till" in line for line in tap.says) and time.monotonic() < until:
        time.sleep(0.05)
    resource.prlimit(tap.run.pid, resource.RLIMIT_NOFILE, (1024, most))
    terminal, _ = door.accept()
    till.sendall(bytes.fromhex("06B000"))
    check("a connection that was refused: what the terminal receives", terminal.recv(100), bytes.fromhex("06B000"))
    till.close()
    terminal.close()
    ended("a connection that was refused", tap, 0, r"(zvt: no connection from a till: [^\n]*\n)+", whole=False)
    door.close()


def to_its_end(part):
    """Runs a part in a thread, where an error would end no more than the thread."""
    try:
        part()
        fault = None
    except (AssertionError, OSError) as error:
        fault = repr(error)
    check(f"{part.__name__}: it comes to its end", fault, None)


def main():
    slow = [threading.Thread(target=to_its_end, args=(part,)) for part in (unread, reconnects, keeps_on)]
    for part in slow:
        part.start()
    for part in (programs, at_once, side_by_side, unit, half_closed, resets, parts, padded, read_on, missing, traces, marked, no_output, unread_output, no_reports, refused_connections, in_a_row, cut_lines):
        part()
    for part in slow:
        part.join()
    print(f"tap: {check.count} checks, {LINES} lines cut anywhere, {IN_A_ROW} in a row" + (f"; NOT AS EXPECTED: {check.wrong}" if check.failed else ""))
    return check.status


if __name__ == "__main__":
    sys.exit(main())

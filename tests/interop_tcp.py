#!/usr/bin/env python3
"""Runs a till and a terminal as two programs over TCP, breaks the connection in each way that it can break, and reaches each
exit status of the program.

    tests/interop_tcp.py [PROGRAM]

PROGRAM is the one that `rt ci` built, unless another is named. Compares what is written on both streams, the exit statuses
and the books of the recorded traces. The status is 1 where anything is not as expected. It takes 30 seconds.
"""
import collections
import os
import pathlib
import resource
import signal
import socket
import struct
import subprocess
import sys
import tempfile
import threading

from common import Checks, Listener, program, unmarked

PROGRAM = program(sys.argv[1:])
SECONDS = 60
HOST = "127.0.0.1"
REGISTRATION = "06 00 06 00 00 00 BE 09 78"
PAYMENT = "06 01 0A 04 00 00 00 00 12 34 49 09 78"
ACK, COMPLETION = "80 00 00", "06 0F 00"
APPROVED = "04 0F 10 27 00 04 00 00 00 00 12 34 0B 00 00 17 87 00 05"
PADDED = "80 00 FF 00 00 04 0F FF 10 00 27 00 04 00 00 00 00 12 34 0B 00 00 17 87 00 05 06 0F FF 00 00"
ABORTED = "aborted 6C abort by time-out or abort key"
UNCLEAR = "zvt: the payment of {} is unclear ({}). {}. It may have been charged or not: look at the terminal's journal or its last receipt before you order it again"
LOST, NAMED_NOTHING, NAMED = "Line: the connection was lost", "The terminal named no trace or receipt number", "The terminal named trace 000017 receipt 0005"
Ended = collections.namedtuple("Ended", "status text errors")
check = Checks()


def run(*words, given="", **more):
    done = subprocess.run([PROGRAM, *map(str, words)], input=given, capture_output=True, text=True, timeout=SECONDS, **more)
    return Ended(done.returncode, done.stdout, done.stderr)


def till(port, *words):
    return run("till", "--port", port, *words)


def terminal(*words):
    return Listener([PROGRAM, "terminal", "--port", "0", *words], SECONDS)


def lines(*rows):
    return "".join(f"{row}\n" for row in rows)


def ends(name, ended, status, *rows):
    """How a run ended, and the lines that it wrote."""
    check(name, (ended.status, ended.text), (status, lines(*rows)))


def free_port():
    """A port that nothing listens on."""
    with socket.socket() as door:
        door.bind((HOST, 0))
        return door.getsockname()[1]


def hear(line, count):
    while count > 0:
        more = line.recv(count)
        if not more:
            return
        count -= len(more)


class BrokenTerminal:
    """A terminal that takes the registration, answers the payment with these bytes, and then closes the connection, at once
    or after some seconds, or resets it. Without an answer it closes the connection at the registration."""

    def __init__(self, answer=None, then=0.2):
        self.answer, self.then, self.is_over = answer, then, threading.Event()
        self.door = socket.create_server((HOST, 0))
        self.port = self.door.getsockname()[1]
        self.serving = threading.Thread(target=self.serve)
        self.serving.start()

    def __enter__(self):
        return self

    def __exit__(self, *_):
        self.is_over.set()
        self.serving.join(SECONDS)
        self.door.close()

    def serve(self):
        self.door.settimeout(SECONDS)
        line, _ = self.door.accept()
        with line:
            line.settimeout(SECONDS)
            hear(line, 9)
            if self.answer is None:
                return
            line.sendall(bytes.fromhex(ACK + COMPLETION))
            hear(line, 3 + 13)
            line.sendall(bytes.fromhex(self.answer))
            self.is_over.wait(0.5 if self.then == "reset" else self.then)
            if self.then == "reset":
                line.setsockopt(socket.SOL_SOCKET, socket.SO_LINGER, struct.pack("ii", 1, 0))


def asked(port, *spelled):
    """A till that sends these bytes, waits for answers after each part, and closes the connection: the answers."""
    with socket.create_connection((HOST, port), SECONDS) as line:
        for part in spelled:
            line.sendall(bytes.fromhex(part))
            threading.Event().wait(0.5)  # a connection that closes with unread answers is a broken one
        return line.recv(4096).hex()


class Trial:
    def __init__(self, folder):
        self.folder = folder
        self.traces = 0

    def new_trace(self):
        self.traces += 1
        return self.folder / f"{self.traces}.trace"

    # ---- connections that break

    def breaks(self, name, answer, cause, then=0.2):
        """The till against a terminal that breaks the connection in the middle of a payment. Answers its reports."""
        trace = self.new_trace()
        with BrokenTerminal(answer, then) as peer:
            ended = till(peer.port, "--timeout", "2", "--trace", trace, "register", "pay:1234", "close")
        ends(name, ended, 4, "register -> registered", f"pay:1234 -> unclear {cause}", "total 0")
        check(f"{name}: its books", run("audit", trace).text, lines(f"unclear 1234 {cause}", "total 0"))
        orders = [row for row in run("show", trace).text.splitlines() if row.startswith("> Auth")]
        check(f"{name}: its last order", orders, ["> Authorisation"])
        return ended.errors

    def broken(self):
        doubt = UNCLEAR.format(1234, LOST, NAMED_NOTHING)
        said = self.breaks("a silent terminal", ACK, "Line", 30)
        failed = "zvt: connection failed: the terminal sent nothing for 2 s. Check the terminal, or increase --timeout"
        check("that it was silent", said, lines(doubt, failed))
        said = self.breaks("a terminal that resets the connection", ACK, "Line", "reset")
        failed = "zvt: connection failed: reading failed; the other end may have reset the connection"
        check("that the connection broke", said, lines(doubt, failed))
        self.breaks("a terminal that closes in the middle", f"{ACK} {APPROVED}", "Line")
        self.breaks("a terminal that sends half a message", f"{ACK} 04 0F 10 27 00 04 00 00 00 00", "Line")
        self.breaks("a terminal that sends an impossible byte", f"{ACK} 06 01 02 D0", "Malformed")
        self.breaks("a terminal that pads its lengths", PADDED, "Malformed")

    def broken_reversal(self):
        """The entry stays in the total, and standard error says what is unclear."""
        with BrokenTerminal(f"{ACK} {APPROVED} {COMPLETION}") as peer:
            ended = till(peer.port, "register", "pay:1234", "reverse:1", "close")
        ends("a terminal that closes in a reversal", ended, 4, "register -> registered", "pay:1234 -> paid trace 000017 receipt 0005", "reverse:1 -> unclear Line", "total 1234")
        said = [row for row in ended.errors.splitlines() if "reverse:1" in row]
        check("what is reported of it", said, [
            f"zvt: reverse:1 of the payment of 1234 (trace 000017 receipt 0005) is unclear ({LOST}). {NAMED_NOTHING}. It may have been taken back or not: "
            "look at the terminal's journal before you refund the amount",
            "zvt: reverse:1 is unclear (Line): the terminal may have reversed the payment or not: check its journal before you refund the amount",
        ])

    def doubts(self):
        """What standard error says of an unclear order: the numbers that were heard, with a book and without one."""
        for book in ([], ["--book", self.folder / "doubt.book", "--no-ask"]):
            with BrokenTerminal(f"{ACK} {APPROVED}") as peer:
                ended = till(peer.port, *book, "register", "pay:1234")
            ends(f"an approved payment without a completion {book[:1]}", ended, 4, "register -> registered", "pay:1234 -> unclear Line", "total 0")
            check(f"what was heard of it {book[:1]}", UNCLEAR.format(1234, LOST, NAMED) in ended.errors.splitlines(), True)
        with BrokenTerminal(ACK) as peer:
            check("nothing was heard of it", NAMED_NOTHING in till(peer.port, "register", "pay:1234").errors, True)
        with BrokenTerminal() as peer:
            ended = till(peer.port, "register", "pay:1234")
        ends("a registration that is cut off", ended, 4, "register -> unclear Line", "total 0")
        check("what may be the reason", f"zvt: the registration is unclear ({LOST}). The terminal may be busy with another till" in ended.errors.splitlines(), True)

    def other_forms(self):
        """Padded lengths for a loose till and a loose terminal, and an approval in another currency."""
        trace = self.new_trace()
        with BrokenTerminal(PADDED, 1) as peer:
            ended = till(peer.port, "--loose", "--trace", trace, "register", "pay:1234")
        ends("a loose till of a terminal that pads", ended, 0, "register -> registered", "pay:1234 -> paid trace 000017 receipt 0005", "total 1234")
        check("its books", run("audit", "--loose", trace).text, lines("booked 1234 trace 000017 receipt 0005", "total 1234"))
        served = terminal("--loose")
        check("a loose terminal of a till that pads", asked(served.port, "06 00 FF 06 00 00 00 00 BE 09 78")[:6], "800000")
        check("its end", served.ended()[0], 0)
        served = terminal("--open")
        check("an open terminal of a till that sends an invalid order", asked(served.port, "06 01 02 D0 00 06 00 06 00 00 00 BE 09 78")[:12], "848300800000")
        check("its end, too", served.ended()[0], 0)
        with BrokenTerminal(f"{ACK} 04 0F 10 27 00 04 00 00 00 00 12 34 0B 00 00 17 49 08 40 {COMPLETION}", 1) as peer:
            ended = till(peer.port, "register", "pay:1234")
        ends("a terminal that approves in another currency", ended, 0, "register -> registered", "pay:1234 -> unclear WrongCurrency", "total 0")

    def serves(self, name, spelled, status, answers=None, failed=None):
        """The terminal against a till that sends these bytes and goes, and the fault that it reports."""
        served = terminal()
        found = asked(served.port, spelled)
        ended = Ended(*served.ended())
        ends(name, ended, status)
        if answers:
            check(f"{name}: the answers", found, answers)
        if failed:
            check(f"{name}: the fault", ended.errors.splitlines()[-1], f"zvt: connection failed: the other end {failed}")

    def broken_tills(self):
        other = "06 01 0A 04 00 00 00 00 12 34 49 08 40"
        self.serves("a till that pays in another currency", f"{REGISTRATION} {ACK} {other}", 0, "800000060f082912345678490978846f00")
        self.serves("a till that closes in the middle", f"{REGISTRATION} {PAYMENT}", 0)
        self.serves("a till that sends half a message", f"{REGISTRATION} 06 01 0A 04", 4, failed="closed the connection after 4 bytes of a message")
        self.serves("a till that sends an impossible byte", f"{REGISTRATION} 06 01 02 D0", 4, failed="sent an invalid message, refused at 3: UnknownField")

    def held(self):
        """A terminal that holds a payment before it decides."""
        begun, accepted = f"{REGISTRATION} {ACK} {PAYMENT}", "800000060f082912345678490978800000"
        abort, aborted, approved = "06 B0 00", "800000061e016c", "040f13270004000000001234" + "0b000001870001490978"
        for name, delay, parts, answers, approvals in (
            ("a payment in the delay", 60000, [begun], "", 0),
            ("an abort in the delay", 60000, [begun, abort], aborted, 0),
            ("an abort that comes with the payment", 60000, [f"{begun} {abort}"], aborted, 0),
            ("a second payment in the delay", 60000, [begun, PAYMENT], "848300", 0),
            ("a reply and half an abort in the delay", 60000, [begun, f"{ACK} {abort[:5]}", abort[5:]], f"848300{aborted}", 0),
            ("a payment after an abort", 60000, [begun, f"{abort} {ACK} {PAYMENT}"], f"{aborted}800000", 0),
            ("half a message when the delay ends", 700, [begun, abort[:5], ""], approved, 1),
            ("a payment after the delay", 100, [begun], approved, 1),
            ("an abort after the delay", 100, [begun, abort], f"{approved}800000", 1),
        ):
            served = terminal("--delay", str(delay))
            check(name, asked(served.port, *parts), accepted + answers)
            said = served.ended()[2].splitlines()
            check(f"the ledger after {name}", [row.rpartition(": ")[2] for row in said if "approvals in the ledger" in row], [str(approvals)])

    # ---- both ends as they should be

    def both(self):
        served = terminal()
        ended = till(served.port, "register", "pay:1000", "reverse:1", "close")
        ends("a till and its terminal", ended, 0, "register -> registered", "pay:1000 -> paid trace 000001 receipt 0001", "reverse:1 -> reversed", "close -> day closed", "total 0")
        ends("the terminal", Ended(*served.ended()), 0)
        for extras in "--extended", "--card girocard", "--card visa", "--receipt blocks", "--receipt none", "--intermediate", "--delay 50", \
                "--extended --card girocard --receipt blocks --intermediate", "--extended --card visa --intermediate --delay 50":
            served = terminal(*extras.split())
            extra = till(served.port, "register", "pay:1000", "reverse:1", "close")
            check(f"a till at a terminal with {extras}", (extra.status, extra.text), (ended.status, ended.text))
            served.ended()
        served = terminal("--decline", "6c")
        ended = till(served.port, "register", "pay:500", "pay:0000000001")
        ends("a terminal that declines", ended, 0, "register -> registered", f"pay:500 -> {ABORTED}", f"pay:0000000001 -> {ABORTED}", "total 0")
        served.ended()

    def counts_anew(self):
        """A terminal that counts from 1 again, beside a book that goes on."""
        book = self.folder / "day.book"
        run("loop", "--book", book, "register", "pay:1000")
        ended = run("loop", "--book", book, "register", "pay:20")
        ends("a terminal that counts anew", ended, 0, "register -> registered", "pay:20 -> unclear TraceUsed", "total 1000")
        cause = "TraceUsed: the book has its trace number already; if the terminal was exchanged or counts from 1 again, begin a new book"
        doubt = UNCLEAR.format(20, cause, "The terminal named trace 000001 receipt 0001")
        check("what to do then", ended.errors, lines(f"zvt: '{book}': 1 booked, 0 unclear, total 1000", doubt))

    def shows(self):
        """Messages are shown while they come, and standard output has the outcomes alone. The terminal serves without an end."""
        served = terminal("--connections", "0")
        paid = ["register -> registered", "pay:1000 -> paid trace 00000{0} receipt 000{0}", "total 1000"]
        ended = till(served.port, "--show", "register", "pay:1000")
        ends("a till that shows", ended, 0, *(row.format(1) for row in paid))
        check("what it shows", ended.errors, lines(
            "< Ack", "< Completion", "  29 terminal 12345678", "  49 currency 0978", "< Ack", "< Status", "  27 result 00 success",
            "  04 amount 1000", "  0B trace 000001", "  87 receipt 0001", "  49 currency 0978", '< PrintLine 00 "APPROVED 1000"', "< Completion",
        ))
        ended = till(served.port, "--show", "--json", "register")
        ack, completion = ended.errors.splitlines()
        check("an acknowledgement as JSON", ack, '{"from":"terminal","kind":"Ack","line":1,"size":3}')
        fields = '{"bmp":"29","content":"12345678","name":"terminal"},{"bmp":"49","content":"0978","name":"currency"}'
        number = completion.partition('"line":')[2].partition(",")[0]
        check("a completion as JSON", completion, f'{{"fields":[{fields}],"from":"terminal","kind":"Completion","line":{number},"size":11}}')
        ends("a third till", till(served.port, "register", "pay:1000"), 0, *(row.format(2) for row in paid))
        served.process.terminate()
        check("a terminal without an end", served.ended()[0], -signal.SIGTERM)

    def records(self):
        """The traces of both ends have the till's books."""
        traces = {"till": self.new_trace(), "terminal": self.new_trace()}
        served = terminal("--no-times", "--trace", traces["terminal"])
        words = ["--password", "123456", "--config", "8a", "--currency", "0752", "--no-times", "--trace", traces["till"]]
        paid = ["register -> registered", "pay:1000 -> paid trace 000001 receipt 0001", "total 1000"]
        ends("a till with other settings", till(served.port, *words, "register", "pay:1000"), 0, *paid)
        status, _, said = served.ended()
        check("what the terminal says of its ledger", (status, said.splitlines()[-1]), (0, "zvt: till 1 disconnected; approvals in the ledger: 1"))
        rows = traces["till"].read_text().splitlines()
        check("the first and last line of the till's trace", (rows[0], rows[-1]), ("> 0600061234568A0752", "!"))
        for end, trace in traces.items():
            ends(f"the books of the trace of the {end}", run("audit", given=trace.read_text()), 0, "booked 1000 trace 000001 receipt 0001", "total 1000")
        trace = self.new_trace()
        ended = run("loop", "--trace", trace, "register", "pay:7", "decline:5:6C")
        ends("a recorded loop", ended, 0, "register -> registered", "pay:7 -> paid trace 000001 receipt 0001", f"decline:5:6C -> {ABORTED}", "total 7")
        ends("the books of its trace", run("audit", given=trace.read_text()), 0, "booked 7 trace 000001 receipt 0001", "total 7")
        ends("both ends in one program", run("loop"), 0, "register -> registered", "pay:1000 -> paid trace 000001 receipt 0001", f"decline:500:6C -> {ABORTED}",
             "reverse:1 -> reversed", "close -> day closed", "total 0")
        ended = run("loop", "--trace", trace, "pay:0")
        check("a wrong step leaves the trace", (ended.status, trace.read_text().splitlines()[-1]), (2, "!"))

    def marks(self):
        """Each line of a trace has a time mark, and without them it has the messages of the same run with --no-times. The chunks in
        which messages come over TCP may differ."""
        steps = ["register", "pay:7", "reverse:1", "close"]
        for name, record in (("loop", self.loop_trace), ("terminal", self.terminal_trace)):
            plain = record(steps, "--no-times")
            check(f"a {name} without time marks", (plain[-2:], b"#" in plain), (b"!\n", False))
            check(f"a {name} with time marks", self.messages(unmarked(record(steps))), self.messages(plain))

    def messages(self, trace):
        """The messages of a trace, one for each line, or None where there is no trace."""
        if trace is None:
            return None
        file = self.new_trace()
        file.write_bytes(trace)
        return run("join", file)

    def loop_trace(self, steps, *words):
        trace = self.new_trace()
        run("loop", *words, "--trace", trace, *steps)
        return trace.read_bytes()

    def terminal_trace(self, steps, *words):
        trace = self.new_trace()
        served = terminal("--connections", "2", *words, "--trace", trace)
        for _connection in range(2):
            till(served.port, *steps)
        served.ended()
        return trace.read_bytes()

    def one_after_another(self):
        """The ledger and its numbers go on, and each till registers. A connection that breaks ends no service but its own,
        and its fault is the program's."""
        trace = self.new_trace()
        served = terminal("--connections", "4", "--trace", trace)
        ends("the first till", till(served.port, "register", "pay:1000"), 0, "register -> registered", "pay:1000 -> paid trace 000001 receipt 0001", "total 1000")
        asked(served.port, f"{REGISTRATION} 06 01 0A 04")
        ended = till(served.port, "register", "pay:20", "pay:3")
        ends("the till after a broken connection", ended, 0, "register -> registered", "pay:20 -> paid trace 000002 receipt 0002", "pay:3 -> paid trace 000003 receipt 0003", "total 23")
        check("a till that does not register", asked(served.port, PAYMENT), "848300")
        status, _, said = served.ended()
        check("what the terminal says of its tills", (status, said), (4, lines(
            "zvt: approved 1000 as number 1", "zvt: till 1 disconnected; approvals in the ledger: 1",
            "zvt: connection of till 2 failed: the other end closed the connection after 4 bytes of a message; approvals in the ledger: 1",
            "zvt: approved 20 as number 2", "zvt: approved 3 as number 3", "zvt: till 3 disconnected; approvals in the ledger: 3",
            "zvt: till 4 disconnected; approvals in the ledger: 3",
            "zvt: connection failed: the other end closed the connection after 4 bytes of a message",
        )))
        ends("the books of all four", run("audit", trace), 1, "booked 1000 trace 000001 receipt 0001", "booked 20 trace 000002 receipt 0002",
             "booked 3 trace 000003 receipt 0003", "total 1023")

    # ---- the exit statuses

    def checks_steps(self):
        """With --check, the status is 1 where a step does not succeed. The total is written all the same."""
        check("the default steps succeed, the declined payment too", run("loop", "--check").status, 0)
        ended = run("loop", "--check", "register", "pay:1000", "pay:1", "close")
        check("payments that succeed", (ended.status, ended.text.splitlines()[-1]), (0, "total 1001"))
        unsent = ["pay:1000 -> not sent: NotRegistered", "total 0"]
        ended = run("loop", "--check", "pay:1000")
        ends("a step that is not sent", ended, 1, *unsent)
        check("what is said then", ended.errors, lines(
            "zvt: pay:1000 was not sent (NotRegistered): the till is not registered on this connection: register first",
            "zvt: a step did not succeed: its line shows the outcome",
        ))
        ends("without --check", run("loop", "pay:1000"), 0, *unsent)
        served = terminal("--decline", "6C")
        ends("a payment that is declined", till(served.port, "--check", "register", "pay:1000"), 1, "register -> registered", f"pay:1000 -> {ABORTED}", "total 0")
        served.ended()

    def unclear_reversal(self):
        """A reversal that completes without a status is unclear."""
        trace, played = self.new_trace(), self.new_trace()
        run("loop", "--no-times", "--trace", trace, "register", "pay:1000", "reverse:1")
        rows = trace.read_text().splitlines()
        at = next(at for at, row in enumerate(rows) if row.startswith("> 0630"))
        played.write_text(lines(*rows[:at + 1], "< 800000060F00", rows[at + 2]))
        for words, status in ([], 0), (["--check"], 1):
            side = Listener([PROGRAM, "play", "--terminal", played, "--listen", "0"], SECONDS)
            ended = till(side.port, *words, "register", "pay:1000", "reverse:1")
            ends(f"an unclear reversal {words}", ended, status, "register -> registered", "pay:1000 -> paid trace 000001 receipt 0001", "reverse:1 -> unclear NoStatus", "total 1000")
            side.ended()

    def statuses(self):
        ends("a refused stream", run("show", given="> 06 01 02 D0\n"), 1, "> refused at 3: UnknownField")
        for name, words in (
            ("no command", ["display"]), ("no step", ["loop", "pay:0"]), ("no declining code", ["terminal", "--port", "0", "--decline", "00"]),
            ("no password", ["till", "--port", "1", "--password", "12345"]), ("no byte", ["till", "--port", "1", "--config", "G0"]),
            ("no currency", ["till", "--port", "1", "--currency", "978"]), ("no port", ["till", "--port", "0"]),
        ):
            ended = run(*words)
            ends(f"a word that is {name}", ended, 2)
            check(f"a report on a word that is {name}", ended.errors.startswith(("zvt: ", "error: ")), True)
        ends("a trace that can't be opened", run("loop", "--trace", self.folder), 4)
        ends("a line that no trace has", run("audit", given="nonsense\n"), 3)
        ends("a port that nothing listens on", run("till", "--port", free_port()), 4)
        limit = lambda: resource.setrlimit(resource.RLIMIT_AS, (12_000 << 10, 12_000 << 10))
        ends("too little memory for a trace", run("show", given="#" * 16_000_000, preexec_fn=limit), 5)


def main():
    if not os.access(PROGRAM, os.X_OK):
        print(f"interop_tcp: no program at {PROGRAM}: build it by 'rt run' in crates/zvt, or by 'rt ci'", file=sys.stderr)
        return 2
    with tempfile.TemporaryDirectory() as folder:
        trial = Trial(pathlib.Path(folder))
        for part in (trial.both, trial.counts_anew, trial.shows, trial.records, trial.marks, trial.one_after_another, trial.broken, trial.broken_reversal, trial.doubts,
                     trial.other_forms, trial.broken_tills, trial.held, trial.checks_steps, trial.unclear_reversal, trial.statuses):
            part()
    print(f"{check.verdict}: a till and a terminal over TCP: {check.count} checks, {check.wrong} wrong")
    return check.status


if __name__ == "__main__":
    sys.exit(main())

#!/usr/bin/env python3
"""Refuses each request for memory in turn, and looks at what the program does then.

For n = 1, 2, .. the n-th request is refused, until a run makes fewer. A command has to end with status 5 and a line on
standard error, and what it wrote has to be whole lines, a front of what it writes with all its memory; or all has to be as
ever, where it gets by with less, as std does for a list whose length it knows; or all but the notes on what is bad in a
trace, of which it says that there is too little memory for them. Where a till has a payment approved by a
terminal over TCP, the till's book has it, or its unclear payments do, whichever end was refused something. The program of
crates/harness sees to the calls of the libraries: each that wants memory leaves all as it was, and goes well when made
again.

The same with each read and each write failing, where the status is 4, and with writes of one byte at a time, where all is as
ever. The same of a tap between both ends, through which no approval is forgotten, and of a side that is played. It takes half a minute, and needs gcc, else nothing is tried. Give the program's path, or none for that of `rt ci`.
"""
import concurrent.futures
import errno
import os
import pathlib
import re
import resource
import shutil
import signal
import socket
import subprocess
import sys
import tempfile

from common import Checks, EXAMPLES, TOP, program

ZVT = program(sys.argv[1:])
CALLS = str(TOP / "crates/harness/out/harness")
SECONDS = 30
MOST = 5000
STEPS = ["register", "pay:1000", "pay:20", "pay:3", "close"]
PAID = b"""register -> registered
pay:1000 -> paid trace 000001 receipt 0001
pay:20 -> paid trace 000002 receipt 0002
pay:3 -> paid trace 000003 receipt 0003
close -> day closed
total 1023
"""

# What a till says of a connection that fails with each error.
CONNECTIONS = {
    errno.ECONNREFUSED: b"connection refused: check that the terminal is running, and its port",
    errno.EHOSTUNREACH: b"the host is unreachable: check the network and the address",
    errno.ENETUNREACH: b"the host is unreachable: check the network and the address",
    errno.ETIMEDOUT: b"the host did not respond: check its name or address",
    errno.EADDRINUSE: b"the port is in use: stop the program that listens there, or give another port, or 0 for a free one",
    errno.EADDRNOTAVAIL: b"cannot listen on an address of another machine: use one of this machine's addresses",
    errno.EACCES: b"permission denied for that port: give a port from 1024 on",
    errno.EPROTO: b"check that the other end listens on that host and port, or that the port to listen on is free",
}

# Stands between the program and the C library.
LIBRARY = (TOP / "tests" / "refusing.c").read_text()


def run_with(name, source, programs, trial):
    """Builds the library that refuses, and runs a trial with it. Answers the status: without gcc nothing is tried."""
    compiler = shutil.which("gcc")
    if compiler is None:
        print(f"{name}: gcc is missing, which builds the library that refuses: nothing was tried", file=sys.stderr)
        return 0
    for program in programs:
        if not os.access(program, os.X_OK):
            print(f"{name}: no program at {program}: build it by 'rt run' in its crate, or by 'rt ci'", file=sys.stderr)
            return 2
    with tempfile.TemporaryDirectory() as folder:
        work = pathlib.Path(folder)
        (work / "refuse.c").write_text(source)
        subprocess.run([compiler, "-O1", "-shared", "-fPIC", "-o", work / "refuse.so", work / "refuse.c"], check=True)
        return trial(work).run()


def main():
    return run_with("fault_injection", LIBRARY, (ZVT, CALLS), Trial)


class Trial(Checks):
    def __init__(self, work):
        super().__init__()
        self.work = work
        self.hosts = 0
        self.said = set()
        self.traces = self.make_traces()

    def run(self):
        for name, (words, given) in self.commands().items():
            self.refuses_each(name, words, given)
            self.fails_each(name, words, given)
        for words in (b"zvt: out of memory", b"zvt: connection failed: out of memory"):
            if words not in self.said:
                self.differs("want of memory", f"nothing said {words}")
        self.refuses_several()
        self.fails_outside()
        self.fails_to_connect()
        for end in ("till", "terminal"):
            self.fails_each_of(end)
        self.both_ends("both ends, a byte at a time", "one", {end: {"WRITES_OF_ONE": 1} for end in ("till", "terminal")}, 0)
        self.fails_between()
        self.fails_shown()
        self.refuses_each_call()
        print("all as expected" if self.wrong == 0 else f"{self.wrong} not as expected")
        return self.status

    # ---- what is run

    def make_traces(self):
        """A trace that is small, and one whose text goes beyond a block."""
        examples = [(EXAMPLES / f"{name}.trace").read_bytes() for name in ("payment", "messages/terminal", "messages/till", "messages/refused")]
        small = b"!\n".join(examples) + b"< 04 0F 02 D0 00\n< 80 00 00\n> 06 01 0A 04\n!\n< 06 D1 FF FE 00\n> 06 00 06 00\n"
        payments = []
        for number in range(1, 1001):
            payments.append(
                "> 06010A04%012d490978\n< 800000040F102700%s0B%06d87%04d\n> 800000\n< 06D1090041505052 4F564544 060F00\n> 800000\n"
                % (number, "04%012d" % number, number, number)
            )
        many = "".join(payments).encode()
        (self.work / "small.trace").write_bytes(small)
        (self.work / "many.trace").write_bytes(many)
        return {"small": small, "many": many}

    def commands(self):
        listed = {"loop": (["loop"], b""), "loop with a trace": (["loop", "--trace", "{}"], b"")}
        for trace, given in self.traces.items():
            for command in ("show", "join", "audit", "receipts"):
                listed[f"{command} of the {trace} trace"] = ([command], given)
        vectors = b"".join((EXAMPLES / "vectors.txt").read_bytes().splitlines(True)[:100])
        listed["vectors"] = (["vectors"], vectors + b"80 00 00 = more\n")
        listed["show of a file"] = (["show", str(self.work / "small.trace")], b"")
        for words in ("show --json", "show --follow", "join --follow", "receipts --json --loose", "audit --json --check", "audit --follow", "report", "report --json --check"):
            listed[words] = (words.split(), self.traces["small"])
        blocks = (TOP / "tests/data/real/girocard.trace").read_bytes()
        for words in ("receipts", "receipts --text-blocks --codepage 437", "receipts --text-blocks --json"):
            listed[f"{words} of text blocks"] = (words.split(), blocks)
        listed["help"] = (["--help"], b"")
        listed["a wrong word"] = (["loop", "--port", "1"], b"")
        return listed

    def start(self, words, tag, program=ZVT, **settings):
        """The program, with the library and these settings of it; its trace and its mark have this tag."""
        mark = self.work / f"mark.{tag}"
        mark.unlink(missing_ok=True)
        environment = {"LD_PRELOAD": str(self.work / "refuse.so"), "REFUSED_MARK": str(mark)}
        environment.update({name: str(value) for name, value in settings.items()})
        trace = self.work / f"{tag}.trace"
        trace.unlink(missing_ok=True)
        words = [word.replace("{}", str(trace)) for word in words]
        pipe = subprocess.PIPE
        return subprocess.Popen([program, *words], stdin=pipe, stdout=pipe, stderr=pipe, env=environment), mark

    def end_of(self, words, given, tag, program=ZVT, **settings):
        """Its status, its text, its errors, and whether something was refused."""
        process, mark = self.start(words, tag, program, **settings)
        text, errors = process.communicate(given, timeout=SECONDS)
        return process.returncode, text, errors, mark.exists()

    # ---- what is seen

    def each(self, name, setting, look):
        """Runs `look` with the setting at 1, 2, .. until nothing was refused; it answers whether something was."""
        with concurrent.futures.ThreadPoolExecutor(4) as pool:
            for first in range(1, MOST, 16):
                seen = list(pool.map(lambda at: look(at, **{setting: at}), range(first, first + 16)))
                if not all(seen):
                    print(f"ok: {name}: {first - 1 + seen.index(False)} in turn")
                    return
        self.differs(name, "there is no end of it")

    def refuses_each(self, name, words, given):
        status, full, full_errors, _ = self.end_of(words, given, "plain")

        def look(at, **setting):
            ended, text, errors, refused = self.end_of(words, given, f"{at}", **setting)
            here = f"{name}, request {at}"
            self.said.update(errors.splitlines())
            if (ended, text, errors) == (status, full, full_errors):
                return refused
            if not refused:
                self.differs(here, "nothing was refused:", ended, text, errors)
            elif ended != 5 or not errors.startswith((b"zvt: ", b"error: ")) or not errors.endswith(b"\n"):
                self.differs(here, "status", ended, errors)
            if not is_prefix(text, full):
                self.differs(here, "is no front of the full text:", text[-200:])
            return refused

        self.each(f"{name}, each request refused", "REFUSED_REQUEST", look)

    def fails_each(self, name, words, given):
        status, full, full_errors, _ = self.end_of(words, given, "plain")

        def look_at(kind):
            def look(at, **setting):
                ended, text, errors, refused = self.end_of(words, given, f"{at}", **setting)
                here = f"{name}, {kind} {at}"
                if not refused:
                    return False
                if ended != 4:
                    self.differs(here, "status", ended, errors)
                if not (full.startswith(text) or is_prefix(text, full)):
                    self.differs(here, "is no front of the full text:", text[-200:])
                return True

            return look

        self.each(f"{name}, each read failing", "FAILED_READ", look_at("read"))
        self.each(f"{name}, each write failing", "FAILED_WRITE", look_at("write"))
        ended = self.end_of(words, given, "one", WRITES_OF_ONE=1)
        if ended != (status, full, full_errors, False):
            self.differs(f"{name}, a byte at a time", ended)

    def refuses_several(self):
        """With several files a request that is refused ends one of them; the others are done, and the status is 5."""
        small = str(self.work / "small.trace")
        for words in (["audit", small, small], ["audit", "--json", small, small], ["show", "--json", small, small]):
            status, full, full_errors, _ = self.end_of(words, b"", "plain")

            def look(at, words=words, whole=(status, full, full_errors), **setting):
                ended, text, errors, refused = self.end_of(words, b"", f"{at}", **setting)
                if refused and (ended, text, errors) != whole and (ended != 5 or not errors.endswith(b"\n")):
                    self.differs(f"{words}, request {at}", ended, errors)
                return refused

            self.each(f"{' '.join(words[:-2])} of two files, each request refused", "REFUSED_REQUEST", look)

    def fails_outside(self):
        """Standard output that is full, that is limited, or whose reader has gone."""
        for command in ("show", "join", "audit", "receipts"):
            given = self.traces["many"]
            full = self.end_of([command], given, "plain")[1]
            with open("/dev/full", "wb") as output:
                ended = subprocess.run([ZVT, command], input=given, stdout=output, stderr=subprocess.PIPE, timeout=SECONDS)
            if ended.returncode != 4 or not ended.stderr.startswith(b"zvt: "):
                self.differs(f"{command} onto a full device", ended)
            reading, writing = os.pipe()
            os.close(reading)
            ended = subprocess.run([ZVT, command], input=given, stdout=writing, stderr=subprocess.PIPE, timeout=SECONDS)
            os.close(writing)
            if ended.returncode != 4 or ended.stderr:
                self.differs(f"{command} to a reader that has gone", ended)
            for most in (0, 1, 100, len(full) - 1):
                with open(self.work / "limited", "wb") as output:
                    ended = subprocess.run(
                        [ZVT, command], input=given, stdout=output, stderr=subprocess.PIPE, timeout=SECONDS,
                        preexec_fn=lambda: limit_files(most),
                    )
                text = (self.work / "limited").read_bytes()
                if ended.returncode != 4 or not full.startswith(text):
                    self.differs(f"{command} into {most} bytes", ended.returncode, text[-200:])
        print("ok: standard output that is full, limited, or has no reader")

    def fails_to_connect(self):
        """A till whose connection fails writes nothing, and says why."""
        for error, words in CONNECTIONS.items():
            ended = self.end_of(["till", "--port", "9", "register"], b"", "connection", FAILED_CONNECT=error)
            if ended != (4, b"", b"zvt: no connection: " + words + b"\n", False):
                self.differs(f"a connection with the error {errno.errorcode[error]}", ended)
        print(f"ok: a till's connection, which fails in {len(CONNECTIONS)} ways")

    def refuses_each_call(self):
        """The calls of the libraries."""
        said = set()

        def look_for(run):
            def look(at, **setting):
                ended, text, _, refused = self.end_of([run], b"", f"{at}", CALLS, **setting)
                said.add(text)
                as_it_should = re.fullmatch(rb"%s: (as expected|unclear for want of memory, as expected)\n" % run.encode(), text)
                if not (ended == 0 and as_it_should) and not (ended == 5 and refused and not text):
                    self.differs(f"{run}, request {at}", ended, text)
                return refused

            return look

        for run in ("scan", "feed", "view", "push", "replay", "world", "calls", "order"):
            self.each(f"the calls of '{run}', each request refused", "REFUSED_REQUEST", look_for(run))
        if b"order: unclear for want of memory, as expected\n" not in said:
            self.differs("order", "no payment became unclear for want of memory")

    # ---- both ends

    def new_host(self):
        """A loopback address that no other run uses, so that nothing left of another run can reach this one."""
        self.hosts += 1
        return f"127.1.{self.hosts >> 8}.{self.hosts & 255}"

    def fails_each_of(self, end):
        def look_for(status):
            def look(at, **setting):
                ((what, _),) = setting.items()
                return self.both_ends(f"{end}, {what} {at}", f"{end}.{at}", {end: setting}, status)

            return look

        self.each(f"a {end} over TCP, each request refused", "REFUSED_REQUEST", look_for(5))
        self.each(f"a {end} over TCP, each read failing", "FAILED_READ", look_for(4))
        self.each(f"a {end} over TCP, each write failing", "FAILED_WRITE", look_for(4))

    def both_ends(self, name, tag, settings, status):
        """A till's run against a terminal, of which one may have something refused, and ends so then; whether it had."""
        of_terminal, of_till, host = f"{tag}.terminal", f"{tag}.till", self.new_host()
        terminal, terminal_mark = self.start(
            ["terminal", "--host", host, "--port", "0", "--trace", "{}"], of_terminal, **settings.get("terminal", {})
        )
        says = terminal.stderr.readline()
        listens = re.fullmatch(rb"zvt: a terminal listens at %s:(\d+)\n" % host.encode(), says)
        till = None
        if listens:
            words = ["till", "--host", host, "--port", listens[1].decode(), "--trace", "{}", *STEPS]
            till = self.end_of(words, b"", of_till, **settings.get("till", {}))
            release(host, listens[1])
        _, more = terminal.communicate(timeout=SECONDS)
        says += more
        if till is None:
            till = (4, b"", b"zvt: ", False)
        till_status, text, errors, till_refused = till
        refused = till_refused or terminal_mark.exists()
        as_ever = (till_status, text, errors, terminal.returncode) == (0, PAID, b"", 0)
        if not refused and not as_ever:
            self.differs(name, "nothing was refused:", till_status, text, errors, terminal.returncode, says)
        if refused and not as_ever:
            if "till" in settings and (till_status != status or not errors.startswith((b"zvt: ", b"error: "))):
                self.differs(name, "the till:", till_status, text, errors)
            if "terminal" in settings and (terminal.returncode != status or not re.search(rb"(zvt|error): .*\n\Z", says)):
                self.differs(name, "the terminal:", terminal.returncode, says)
        if not PAID.startswith(text) and not is_prefix(text, PAID):
            self.differs(name, "the till's lines:", text)
        self.compare_books(name, of_terminal, of_till, text, as_ever)
        return refused

    # ---- a till that shows what comes

    def fails_shown(self):
        """What can't be shown is no fault of the run: it goes on, or ends as one that shows nothing."""
        for kind, setting, status in (("request refused", "REFUSED_REQUEST", 5), ("read failing", "FAILED_READ", 4), ("write failing", "FAILED_WRITE", 4)):
            def look(at, kind=kind, status=status, **setting):
                return self.shows(f"a till that shows, {kind} {at}", f"shows.{at}", setting, status)

            self.each(f"a till that shows, each {kind}", setting, look)

    def shows(self, name, tag, setting, status):
        """A till's run that shows what comes from a terminal which has all it needs; whether something was refused."""
        host = self.new_host()
        terminal, _ = self.start(["terminal", "--host", host, "--port", "0", "--trace", "{}"], f"{tag}.terminal")
        port = re.search(rb":(\d+)\n", terminal.stderr.readline())[1].decode()
        words = ["till", "--host", host, "--port", port, "--show", "--trace", "{}", *STEPS]
        ended, text, errors, refused = self.end_of(words, b"", f"{tag}.till", **setting)
        release(host, port)
        terminal.communicate(timeout=SECONDS)
        if (ended, text) != (0, PAID) and not (refused and ended == status and is_prefix(text, PAID)):
            self.differs(name, ended, text, errors, refused)
        if not refused and b"< PrintLine 00" not in errors:
            self.differs(name, "nothing is shown:", errors)
        return refused

    # ---- a tap between both ends, and one side that is played

    def fails_between(self):
        self.both_ends("a run to play", "between", {}, 0)
        recorded = self.work / "recorded.trace"
        joined = subprocess.run([ZVT, "join", self.work / "between.till.trace"], stdout=subprocess.PIPE, check=True).stdout
        recorded.write_bytes(joined)
        tapped = ["tap", "--listen", "{host}:0", "--to", "{host}:{port}", "--trace", "{}"]
        played = ["play", "--till", str(recorded), "--host", "{host}", "--port", "{port}"]
        for name, words in (("a tap", tapped), ("a side that is played", played)):
            for kind, setting, status in (("request refused", "REFUSED_REQUEST", 5), ("read failing", "FAILED_READ", 4), ("write failing", "FAILED_WRITE", 4)):
                def look(at, words=words, name=name, kind=kind, status=status, **setting):
                    return self.between(f"{name}, {kind} {at}", f"between.{at}", words, setting, status)

                self.each(f"{name}, each {kind}", setting, look)
        self.between("a tap, a byte at a time", "between.one", tapped, {"WRITES_OF_ONE": 1}, 0)

    def between(self, name, tag, words, setting, status):
        """A run of the program at a terminal that has all it needs. Where it is a tap, a till like that runs through it. Answers
        whether something was refused."""
        of_terminal, of_till, host = f"{tag}.terminal", f"{tag}.till", self.new_host()
        terminal, _ = self.start(["terminal", "--host", host, "--port", "0", "--trace", "{}"], of_terminal)
        port = re.search(rb":(\d+)\n", terminal.stderr.readline())[1].decode()
        run, mark = self.start([word.replace("{port}", port).replace("{host}", host) for word in words], tag, **setting)
        said, till = b"", (0, PAID, b"", False)
        if words[0] == "tap":
            said = run.stderr.readline()
            listens = re.fullmatch(rb"zvt: a tap listens at %s:(\d+)\n" % host.encode(), said)
            till = (4, b"", b"", False)
            if listens:
                till = self.end_of(["till", "--host", host, "--port", listens[1].decode(), "--trace", "{}", *STEPS], b"", of_till)
                release(host, listens[1])
        text, more = run.communicate(timeout=SECONDS)
        release(host, port)
        terminal.communicate(timeout=SECONDS)
        refused, as_ever = mark.exists(), (run.returncode, till[:2]) == (0, (0, PAID))
        if not refused and not as_ever:
            self.differs(name, "nothing was refused:", run.returncode, text[-200:], said + more, till)
        # To a side that is played a line that breaks is a difference, which is on standard output.
        broke = words[0] == "play" and run.returncode == 1 and text.endswith(b"\n")
        if refused and not as_ever and not broke and (run.returncode != status or not re.search(rb"(zvt|error): .*\n\Z", said + more)):
            self.differs(name, "status", run.returncode, said + more, till)
        if not PAID.startswith(till[1]) and not is_prefix(till[1], PAID):
            self.differs(name, "the till's lines:", till[1])
        if words[0] == "tap":
            self.compare_books(name, of_terminal, of_till, till[1], as_ever)
        return refused

    def compare_books(self, name, of_terminal, of_till, text, as_ever):
        """What the terminal approved, and what the till has, by the traces of both."""
        approved = self.rows(of_terminal, "approved")
        kept = self.rows(of_till, "kept")
        if as_ever and not approved == kept == ["1000", "20", "3"]:
            self.differs(name, "approved and kept:", approved, kept)
        for amount in approved:
            if amount not in kept:
                self.differs(name, "an approval of", amount, "is forgotten:", approved, kept, text)
        for line in text.decode().splitlines():
            paid = re.match(r"pay:(\d+) -> paid", line)
            if paid and paid[1] not in kept:
                self.differs(name, "the till's trace says nothing of", line)

    def rows(self, tag, what):
        """The amounts that a trace's terminal approved, or those that its till booked or has as unclear."""
        path = self.work / f"{tag}.trace"
        if not path.exists():
            return []
        command = "audit" if what == "kept" else "show"
        text = subprocess.run([ZVT, command, path], stdout=subprocess.PIPE, stderr=subprocess.DEVNULL).stdout.decode()
        if what == "kept":
            return re.findall(r"^(?:booked|unclear) (\d+) ", text, re.M)
        return re.findall(r"^< Status\n  27 result 00 success\n  04 amount (\d+)$", text, re.M)


def is_prefix(text, full):
    """Whole lines at the front of the full text; where a line broke, that of the order that ran, and the total."""
    if text and not text.endswith(b"\n"):
        return False
    if full.startswith(text):
        return True
    lines, all_lines = text.splitlines(True), full.splitlines(True)
    if len(lines) < 2 or not re.fullmatch(rb"total \d+\n", lines[-1]):
        return False
    at = len(lines) - 2
    word, arrow, ending = lines[at].partition(b" -> ")
    return (
        lines[:at] == all_lines[:at]
        and at < len(all_lines)
        and (lines[at] == all_lines[at] or (all_lines[at].startswith(word + arrow) and re.fullmatch(rb"unclear (Line|AbortAfterApproval)\n", ending) is not None))
    )


def limit_files(most):
    signal.signal(signal.SIGXFSZ, signal.SIG_IGN)
    resource.setrlimit(resource.RLIMIT_FSIZE, (most, most))


def release(host, port):
    """Connects and goes, so that a terminal which no till has reached ends."""
    try:
        socket.create_connection((host, int(port)), timeout=1).close()
    except OSError:
        pass


if __name__ == "__main__":
    sys.exit(main())

#!/usr/bin/env python3
"""Kills a till that keeps its book, at one system call after another, and compares its journal with the terminal's ledger.

`zvt till --book` runs against `zvt terminal` over loopback, and `zvt loop --book` by itself. A tracer counts the beginning
and the end of each system call from the one on that opens the journal, or the line, and kills at one after another, until a
run is over before that. After each kill the model and `zvt book` read the same book, and it is held against the
terminal's trace: each approval is booked or unclear, and once; each entry was approved; what the terminal took back is
marked, unclear, or taken back by B4, and nothing else is; what the till wrote on standard output is so. The next
run goes on over the same book, and asks the terminal first, which settles what it can: what was settled as paid was approved, what
was settled as not paid was not, and so for reversals. At the end each unclear reversal is made again, until none is unclear.

Then a till that only pays is killed until twelve kills were in payments: of its unclear payments at most one is left unsettled.

journal_kills.py [KILLS [PROGRAM]]: without a word 200 kills of the program of `rt ci`. It needs gcc, else nothing is tried.
The status is 1 where anything does not hold.
"""
import collections
import os
import pathlib
import re
import shutil
import socket
import subprocess
import sys
import tempfile

import journal_model
from common import Checks, program
from journal_model import RESULT, AMOUNT, TRACE, ORIGINAL, number_of, only

KILLS = int(sys.argv[1]) if len(sys.argv) > 1 else 200
ZVT = program(sys.argv[2:])
SECONDS = 60
KILLED = 137
A_BOOK = 100  # kills, after which a new book is begun
IN_PAYMENTS = 12  # kills in payments; at most one may leave a payment that no ask settles
STRIDE = max(1, 2000 // KILLS)  # from one place of a sweep to the next
HALF = bytes.fromhex("06010A04")  # a half message, by which the terminal knows nobody

# tracer FILE N PROGRAM WORD..: kills the program at the n-th beginning or end of a system call behind the opening of FILE, or
# behind the connection where FILE is -.
TRACER = r"""
#define _GNU_SOURCE
#include <signal.h>
#include <stdlib.h>
#include <string.h>
#include <sys/ptrace.h>
#include <sys/syscall.h>
#include <sys/uio.h>
#include <sys/wait.h>
#include <unistd.h>

static int begins(pid_t process, const char *file) {
    struct __ptrace_syscall_info call;
    char name[4096];
    struct iovec here = {name, strlen(file) + 1}, there = {0, strlen(file) + 1};
    if (ptrace(PTRACE_GET_SYSCALL_INFO, process, sizeof call, &call) < 0) exit(3);
    if (call.op != PTRACE_SYSCALL_INFO_ENTRY) return 0;
    if (!strcmp(file, "-")) return call.entry.nr == SYS_connect;
    if (call.entry.nr != SYS_openat) return 0;
    there.iov_base = (void *)call.entry.args[1];
    return process_vm_readv(process, &here, 1, &there, 1, 0) == (ssize_t)here.iov_len && !memcmp(name, file, here.iov_len);
}

int main(int count, char **words) {
    long at = atol(words[2]), seen = 0;
    int began = 0, state;
    pid_t process = fork();
    if (process == 0) {
        ptrace(PTRACE_TRACEME, 0, 0, 0);
        execv(words[3], words + 3);
        _exit(3);
    }
    waitpid(process, &state, 0);
    ptrace(PTRACE_SETOPTIONS, process, 0, PTRACE_O_TRACESYSGOOD | PTRACE_O_EXITKILL | PTRACE_O_TRACECLONE);
    ptrace(PTRACE_SYSCALL, process, 0, 0);
    for (;;) {
        int signal = 0;
        pid_t stopped = waitpid(-1, &state, __WALL);
        if (stopped < 0) return 3;
        if (WIFEXITED(state) || WIFSIGNALED(state)) {
            if (stopped != process) continue;
            return WIFEXITED(state) ? WEXITSTATUS(state) : 128 + WTERMSIG(state);
        }
        if (WSTOPSIG(state) == (SIGTRAP | 0x80)) {
            began = began || begins(stopped, words[1]);
            if (began && ++seen == at) kill(process, SIGKILL);
        } else if (WSTOPSIG(state) != SIGTRAP && WSTOPSIG(state) != SIGSTOP) {
            signal = WSTOPSIG(state);
        }
        ptrace(PTRACE_SYSCALL, stopped, 0, signal);
    }
}
"""


def messages(stream):
    """The messages of what one side sent, in their shortest forms; a message that is cut off is none."""
    while len(stream) >= 3:
        size = 3 + stream[2] if stream[2] < 255 else 5 + int.from_bytes(stream[3:5], "little")
        if len(stream) < size:
            return
        yield stream[:size]
        stream = stream[size:]


class Ledger:
    """What a terminal approved and took back, by the trace of its line."""

    def __init__(self, path):
        self.path, self.amounts, self.taken = path, {}, set()

    def read(self):
        """All that the terminal said so far, on each of its lines."""
        self.amounts, self.taken = {}, set()
        if not self.path.exists():
            return
        for line in self.path.read_bytes().split(b"!\n"):
            said = b"".join(bytes.fromhex(row[1:].decode()) for row in line.split(b"\n")[:-1] if row[:1] == b"<")
            for apdu in messages(said):
                if apdu[:2] == journal_model.STATUS:
                    self.hears(journal_model.fields_of(journal_model.data_of(apdu)))

    def hears(self, found):
        if only(found, RESULT) != b"\0" or TRACE not in found:
            return  # declined, or of an end of day
        if ORIGINAL in found:
            self.taken.add(number_of(only(found, ORIGINAL)))
        else:
            self.amounts[number_of(only(found, TRACE))] = number_of(only(found, AMOUNT))


class Terminal:
    """The program's terminal, with its ledger."""

    def __init__(self, work):
        self.ledger = Ledger(work / "terminal.trace")
        self.ledger.path.unlink(missing_ok=True)
        words = [ZVT, "terminal", "--extended", "--port", "0", "--connections", "65535", "--trace", str(self.ledger.path)]
        self.process = subprocess.Popen(words, stdout=subprocess.DEVNULL, stderr=subprocess.PIPE)
        self.port = int(self.process.stderr.readline().rsplit(b":", 1)[1])

    def settles(self):
        """Waits until the terminal has served all lines that there were, and answers how many approvals it has."""
        with socket.create_connection(("127.0.0.1", self.port)) as line:
            line.sendall(HALF)
        while b"after 4 bytes of a message" not in (said := self.process.stderr.readline()):
            if not said:
                sys.exit("journal_kills: the terminal ended by itself")
        self.ledger.read()
        return int(said.rsplit(b":", 1)[1])

    def close(self):
        self.process.kill()
        self.process.communicate()


class Trial(Checks):
    def __init__(self, work, tracer):
        super().__init__()
        self.work, self.tracer = work, tracer
        self.kills, self.whole, self.amount = 0, 0, 0
        self.where, self.marks = collections.Counter(), collections.Counter()
        self.sweeps, self.rounds = collections.Counter(), collections.Counter()  # the place of each, and how often it was over
        self.settled, self.left = collections.Counter(), 0  # what asks settled, and the unclear payments that none settled
        self.begins()

    def begins(self):
        """A new book."""
        self.taken, self.newly = set(), set()  # what was taken back, and what of it in the last run that reversed anything
        self.reversals_sent, self.known = 0, 0  # in the records of the book, and its settlements

    def pay(self):
        """A payment of an amount that no other has."""
        self.amount += 1
        return f"pay:{self.amount}"

    def runs(self, words, at=0, behind="-"):
        """The program with these words, killed at that place behind the opening of a file; its status, its text, its errors."""
        traced = [str(self.tracer), str(behind), str(at), ZVT, *words]
        ended = subprocess.run(traced, stdout=subprocess.PIPE, stderr=subprocess.PIPE, timeout=SECONDS)
        return ended.returncode, ended.stdout.decode(), ended.stderr.decode()

    def kill(self, name, path, words):
        """The next kill of the sweep of this name. A run that is over before it is a whole one, and the sweep begins anew."""
        self.sweeps[name] += STRIDE
        before = journal_model.book_of(path.read_bytes() if path.exists() else b"")
        behind = "-" if name.startswith("reverses") else path
        status, text, errors = self.runs(words, self.sweeps[name], behind)
        if status == KILLED:
            self.kills += 1
        else:
            self.whole += 1
            self.rounds[name] += 1
            self.sweeps[name] = -(self.rounds[name] % STRIDE)
            if status != 0:
                self.differs(f"{words} ends with {status}: {text!r} {errors!r}")
        recovered = re.search(r"(\d+) booked, (\d+) unclear, total (\d+)", errors)
        if recovered and [int(number) for number in recovered.groups()] != [len(before.entries), len(before.unclear), before.total()]:
            self.differs(f"{words} says {errors!r} of {before}")
        return status, text

    # ---- what is seen after a kill

    def compare(self, path, ledger, text, killed):
        """Holds the journal against what the terminal says, and what the till wrote; answers the book."""
        file = path.read_bytes() if path.exists() else b""
        book = journal_model.book_of(file)
        if killed:
            self.where[journal_model.running_in(file) or "between orders"] += 1
        if path.exists():
            read = subprocess.run([ZVT, "book", path], stdout=subprocess.PIPE, stderr=subprocess.PIPE, timeout=SECONDS)
            if read.returncode != 0 or read.stdout.decode() != journal_model.text_of(book) + "\n":
                self.differs(f"zvt book answers {read} instead of {journal_model.text_of(book)!r}")
        self.approvals(book, ledger)
        self.reversals(book, ledger)
        self.settlements(book, ledger)
        self.told(book, text)
        if file.count(b"# reverse ") > self.reversals_sent:
            self.newly = ledger.taken - self.taken
        self.taken, self.reversals_sent, self.known = set(ledger.taken), file.count(b"# reverse "), len(book.settled)
        return book

    def approvals(self, book, ledger):
        traces = [entry.trace for entry in book.entries]
        amounts = [entry.amount for entry in book.entries] + [amount for amount, _ in book.unclear]
        if len(set(traces)) != len(traces) or len(set(amounts)) != len(amounts):
            self.differs(f"a payment is there twice: {book}")
        for trace, amount in ledger.amounts.items():
            if amount not in amounts:
                self.differs(f"the approval of {amount} under {trace} is neither booked nor unclear: {book}")
        for entry in book.entries:
            if ledger.amounts.get(entry.trace) != entry.amount:
                self.differs(f"what is booked was not approved: {entry}")

    def reversals(self, book, ledger):
        for entry in book.entries:
            taken = entry.trace in ledger.taken
            if (entry.reversed or entry.doubt == "B4") and not taken:
                self.differs(f"what is marked was not taken back: {entry}")
            if taken and not (entry.reversed or entry.doubt):
                self.differs(f"what was taken back is neither marked nor unclear: {entry}")

    def settlements(self, book, ledger):
        """What asks settled is what the terminal did."""
        for at, (name, place, *numbers) in enumerate(book.settled):
            if name == "Paid":
                holds = ledger.amounts.get(numbers[0]) == book.unclear[place][0]
            elif name == "NotPaid":
                holds = book.unclear[place][0] not in ledger.amounts.values()
            elif name == "Reversed":
                holds = book.entries[place].trace in ledger.taken
            else:  # an earlier attempt may have taken it back, and a later one may do so
                holds = at < self.known or book.entries[place].trace not in self.newly
            if not holds:
                self.differs(f"what was settled as {name} {place} {numbers} is not so: {book}")

    def told(self, book, text):
        """What the till wrote of each step is in the book."""
        for step, what in re.findall(r"^(\S+) -> (.*)\n", text, flags=re.M):
            kind, _, number = step.partition(":")
            if kind == "pay":
                booked = [f"paid trace {entry.trace:06} receipt {entry.receipt.hex()}" for entry in book.entries if entry.amount == int(number)]
                unclear = [f"unclear {cause}" for amount, cause in book.unclear if amount == int(number)]
                if [what] != booked + unclear:
                    self.differs(f"a till that wrote {step} -> {what} has {book}")
            if kind == "reverse":
                entry = book.entries[int(number) - 1]
                holds = {"reversed": entry.reversed, "aborted B4 already reversed": entry.doubt == "B4"}.get(what, False)
                if not holds:
                    self.differs(f"a till that wrote {step} -> {what} has {entry}")

    # ---- what is run

    def steps(self, book):
        """The name of the sweep, and steps that this book takes: two runs of three take back, if there is enough."""
        places = [place for place, entry in enumerate(book.entries, 1) if not entry.reversed and entry.doubt is None]
        unclear = [place for place, _ in book.unclear_reversals()]
        if len(places) < 3 or self.kills % 3 == 0:
            return "pays", [self.pay(), self.pay(), "close", self.pay()]
        if unclear:
            return "reverses again", [f"reverse:{place}" for place in unclear[:2] + places[:1]]
        return "reverses", [f"reverse:{place}" for place in places[:3]]

    def till_and_terminal(self, most):
        """Kills of tills over one book, and at the end of it all that is unclear about reversals is settled."""
        path = self.work / f"{self.kills}.book"
        self.begins()
        terminal = Terminal(self.work)
        ledger, book, until = terminal.ledger, journal_model.Book(), min(self.kills + A_BOOK, most)
        words = ["till", "--port", str(terminal.port), "--book", str(path), "register"]
        while self.kills < until and self.wrong == 0:
            name, steps = self.steps(book)
            if len(book.entries) < self.kills - until + A_BOOK:  # so many that there is always enough to take back
                self.whole += 1
                name, (status, text, _) = "stock", self.runs(words + [self.pay() for _ in range(6)])
            else:
                status, text = self.kill(name, path, words + steps)
            approvals = terminal.settles()
            if approvals != len(ledger.amounts):
                self.differs(f"the terminal counts {approvals} approvals, and its trace has {len(ledger.amounts)}")
            book = self.compare(path, ledger, text, status == KILLED)
        self.settle(path, terminal)
        terminal.close()

    def settle(self, path, terminal):
        book = journal_model.book_of(path.read_bytes())
        steps = [f"reverse:{place}" for place, _ in book.unclear_reversals()]
        words = ["till", "--port", str(terminal.port), "--book", str(path), "register", *steps]
        status, text, errors = self.runs(words)
        terminal.settles()
        book = self.compare(path, terminal.ledger, text, False)
        known = {entry.trace for entry in book.entries if entry.reversed or entry.doubt == "B4"}
        if status != 0 or book.unclear_reversals() or known != terminal.ledger.taken:
            self.differs(f"at the end what was taken back is known: {status} {errors!r} {known ^ terminal.ledger.taken}")
        for entry in book.entries:
            self.marks["marked" if entry.reversed else entry.doubt or "not taken back"] += 1
        self.settled.update(name for name, *_ in book.settled)

    def payments(self):
        """Kills of a till that only pays, and asks first in each run."""
        path, terminal, in_payments = self.work / "payments.book", Terminal(self.work), 0
        words = ["till", "--port", str(terminal.port), "--book", str(path), "register"]
        self.begins()
        self.runs([*words, self.pay()])
        while in_payments < IN_PAYMENTS and self.wrong == 0:
            status, text = self.kill("payments", path, [*words, self.pay(), self.pay()])
            terminal.settles()
            in_payments += status == KILLED and journal_model.running_in(path.read_bytes()) == "pay"
            self.compare(path, terminal.ledger, text, status == KILLED)
        status, text, errors = self.runs(words)
        terminal.settles()
        book = self.compare(path, terminal.ledger, text, False)
        terminal.close()
        self.left = len(book.unclear) - sum(name in ("Paid", "NotPaid") for name, *_ in book.settled)
        self.settled.update(name for name, *_ in book.settled)
        if status != 0 or self.left > 1:
            self.differs(f"{self.left} payments stay unclear after {in_payments} kills in payments: {status} {errors!r} {book}")

    def loops(self, most):
        """Kills of both ends in one process, each over a book of its own, over which a whole run goes then."""
        while self.kills < most and self.wrong == 0:
            path, ledger = self.work / f"{self.kills}.loop", Ledger(self.work / f"{self.kills}.trace")
            words = ["loop", "--book", str(path), "--trace", str(ledger.path), "register", self.pay(), "reverse:1", self.pay()]
            status, text = self.kill("loops", path, words)
            ledger.read()
            book = self.compare(path, ledger, text, status == KILLED)
            again = self.runs(["loop", "--book", str(path), "register", self.pay()])
            after = journal_model.book_of(path.read_bytes())
            more = len(after.entries) + len(after.unclear) - len(book.entries) - len(book.unclear)
            if again[0] != 0 or after.entries[:len(book.entries)] != book.entries or more != 1:
                self.differs(f"a run over the book of {path} gives {again}: {after} behind {book}")
            for name in (path, ledger.path, pathlib.Path(f"{path}.cut")):
                name.unlink(missing_ok=True)

    def run(self):
        while self.kills < KILLS * 4 // 5 and self.wrong == 0:
            self.till_and_terminal(KILLS * 4 // 5)
        self.loops(KILLS)
        self.payments()
        print(f"{self.verdict}: {self.kills} kills and {self.whole} whole runs: "
              f"{dict(self.where)}; entries at the end {dict(self.marks)}; settled {dict(self.settled)}, "
              f"unclear after {IN_PAYMENTS} kills in payments {self.left}; {self.wrong} wrong")
        return self.status


def main():
    compiler = shutil.which("gcc")
    if compiler is None:
        print("journal_kills: gcc is missing, which builds the tracer: nothing was tried", file=sys.stderr)
        return 0
    if not os.access(ZVT, os.X_OK):
        print(f"journal_kills: no program at {ZVT}: build it by 'rt run' in crates/zvt, or by 'rt ci'", file=sys.stderr)
        return 2
    with tempfile.TemporaryDirectory(dir="/dev/shm" if os.path.isdir("/dev/shm") else None) as folder:
        work = pathlib.Path(folder)
        (work / "tracer.c").write_text(TRACER)
        subprocess.run([compiler, "-O1", "-o", work / "tracer", work / "tracer.c"], check=True)
        return Trial(work, work / "tracer").run()


if __name__ == "__main__":
    sys.exit(main())

"""Kills a till during reversals, and starts it again from what it saved: kill_check.py LIBRARY [KILLS [SEED [PROGRAM]]].
With --book before LIBRARY the till keeps its book in a file, and is killed at any moment, the opening of its book too; in the
place of PROGRAM stand the words of a till in another language, if any, which is killed in the place of that over zvt.py.

The till is a process of its own, over zvt.py. It pays and reverses at a terminal in this process, which keeps its own ledger
and knows nothing of the library; or, where the program `zvt` is given, at the terminal of that program. After each kill the saved till is held against the ledger: what the terminal took back is
marked, unclear, or taken back by B4; nothing else is marked; no number stands twice; each approval is booked or unclear.
At the end a till reverses what is unclear again, until nothing is. The status is 1 where anything does not hold.
"""
import collections
import os
import random
import select
import socket
import statistics
import subprocess
import sys
import tempfile
import threading
import time

import zvt

ACK, DONE = bytes.fromhex("800000"), bytes.fromhex("060F00")
REGISTRATION, AUTHORISATION, REVERSAL = b"\x06\x00", b"\x06\x01", b"\x06\x30"
DECLINED, ALREADY_REVERSED = 0x05, 0xB4
PAUSE = 0.002  # seconds that the terminal waits at most before it says something
STAGES = WAITS, HEARD, TAKEN, COMPLETED = (
    "where the terminal waited for an order", "where it had heard the order", "behind its row", "behind its completion")


def digits(number, size):
    """A number in so many bytes, two decimal digits in each."""
    return bytes.fromhex(f"{number:0{2 * size}}")


class Row:
    """A payment that the terminal approved, under its trace number, which is its receipt number too."""

    def __init__(self, number, amount):
        self.number, self.amount, self.taken_back, self.completed = number, amount, False, False


class Terminal(threading.Thread):
    """Serves one till after another. What it took back stays so, whether anyone hears of it or not."""

    def __init__(self, seed):
        super().__init__(daemon=True)
        self.chance, self.ledger, self.numbers = random.Random(seed), [], 0
        self.declines, self.breaks = 0.1, False  # how many reversals; whether the next line breaks behind the row
        self.stage, self.ended, self.served = WAITS, threading.Semaphore(0), None
        self.listener = socket.create_server(("127.0.0.1", 0))
        self.port = self.listener.getsockname()[1]

    def run(self):
        while True:
            line, address = self.listener.accept()
            line.setsockopt(socket.IPPROTO_TCP, socket.TCP_NODELAY, 1)
            with line:
                try:
                    self.talks(line)
                except (EOFError, OSError):
                    pass
            self.stage, self.served = WAITS, address[1]
            self.ended.release()

    def talks(self, line):
        while True:
            self.serve(line, self.hears(line))

    def hears(self, line):
        """The next message: two control bytes and a length, which is short here, stand before its data."""
        message = b""
        while len(message) < 3 or len(message) < 3 + message[2]:
            piece = line.recv((3 if len(message) < 3 else 3 + message[2]) - len(message))
            if not piece:
                raise EOFError
            message += piece
        return message

    def says(self, line, message):
        time.sleep(self.chance.uniform(0, PAUSE))
        line.sendall(message)

    def tells(self, line, message):
        """Says it, and waits for the till's acknowledgement."""
        self.says(line, message)
        assert self.hears(line) == ACK

    def serve(self, line, order):
        if order[:2] == REVERSAL:
            self.reverse(line, order)
        else:
            self.says(line, ACK)
            if order[:2] == AUTHORISATION:
                self.approve(line, order)
            self.tells(line, DONE)
            if order[:2] == AUTHORISATION:
                self.ledger[-1].completed = True

    def number(self):
        self.numbers += 1
        return self.numbers

    def status(self, amount, fields):
        data = b"\x27\x00\x04" + digits(amount, 6) + b"\x0B" + digits(self.number(), 3) + fields
        return b"\x04\x0F" + bytes([len(data)]) + data

    def approve(self, line, order):
        assert order[3] == 4
        row = Row(self.numbers + 1, int(order[4:10].hex()))
        self.ledger.append(row)
        self.tells(line, self.status(row.amount, b"\x87" + digits(row.number, 2)))

    def reverse(self, line, order):
        self.stage = HEARD
        assert order[6] == 0x87
        row = next(row for row in self.ledger if digits(row.number, 2) == order[7:9])
        code = ALREADY_REVERSED if row.taken_back else DECLINED if self.chance.random() < self.declines else None
        if code is None:
            self.says(line, ACK)
            row.taken_back, self.stage = True, TAKEN
            if self.breaks:
                self.breaks = False
                raise EOFError
            self.tells(line, self.status(row.amount, b"\x37" + digits(row.number, 3)))
            self.stage = COMPLETED
            self.tells(line, DONE)
        elif self.chance.random() < 0.5:
            self.says(line, bytes([0x84, code, 0]))
        else:
            self.says(line, ACK)
            self.tells(line, b"\x06\x1E\x01" + bytes([code]))
        self.stage = WAITS


class Relay(Terminal):
    """Stands between the tills and the terminal of the program `zvt`. The ledger is what that terminal says."""
    SIZES = {0x27: 1, 0x04: 6, 0x49: 2, 0x0B: 3, 0x37: 3, 0x87: 2, 0x0C: 3, 0x0D: 2, 0x29: 4}

    def __init__(self, seed, program, tills):
        super().__init__(seed)
        with socket.create_server(("127.0.0.1", 0)) as free:
            self.behind = free.getsockname()[1]
        words = [program, "terminal", "--port", str(self.behind), "--connections", str(tills)]
        self.program = subprocess.Popen(words, stderr=subprocess.DEVNULL)

    def dial(self):
        for _ in range(100):
            try:
                return socket.create_connection(("127.0.0.1", self.behind))
            except ConnectionRefusedError:
                time.sleep(0.05)
        raise RuntimeError("the program listens at no port")

    def talks(self, line):
        with self.dial() as terminal:
            terminal.setsockopt(socket.IPPROTO_TCP, socket.TCP_NODELAY, 1)
            try:
                while True:
                    if terminal in select.select([line, terminal], [], [])[0]:
                        message = self.hears(terminal)
                        self.notes(message)
                        self.says(line, message)
                    else:
                        message = self.hears(line)
                        self.stage = HEARD if message[:2] == REVERSAL else WAITS if self.stage == COMPLETED else self.stage
                        terminal.sendall(message)
            except (EOFError, OSError):
                line.close()
            # What the till sent last is heard and written down all the same.
            terminal.shutdown(socket.SHUT_WR)
            while True:
                self.notes(self.hears(terminal))

    def notes(self, message):
        """Writes down what the terminal approved and took back."""
        if message[:2] in (b"\x06\x1E", DONE[:2]) or message[0] == 0x84:
            self.stage = COMPLETED if self.stage == TAKEN and message == DONE else WAITS
        if message[:2] != b"\x04\x0F":
            return
        fields, at = {}, 3
        while at < len(message):
            size = self.SIZES[message[at]]
            fields[message[at]] = int(message[at + 1:at + 1 + size].hex())
            at += 1 + size
        if fields[0x27] != 0:
            return
        if 0x37 not in fields:
            self.ledger.append(Row(fields[0x0B], fields[0x04]))
            return
        next(row for row in self.ledger if row.number == fields[0x37]).taken_back, self.stage = True, TAKEN
        if self.breaks:
            self.breaks = False
            raise EOFError


def open_till(library, path):
    """A till that saves itself in the file, or keeps its book there, and goes on from what stands there."""
    if path.endswith(".trace"):
        return zvt.Till(library, book=path)

    def keep(saved):
        with open(path + ".new", "wb") as file:
            file.write(saved)
            file.flush()
            os.fsync(file.fileno())
        os.replace(path + ".new", path)
    till = zvt.Till(library, keep=keep)
    if os.path.exists(path):
        with open(path, "rb") as file:
            till.load(file.read())
    return till


def ended(order):
    """How an order ended, by its line too."""
    try:
        return order()
    except zvt.LineError as lost:
        return lost.outcome


def pay_and_reverse(library, port, path, seed):
    """The till that is killed. It says what it begins, of a reversal the place, and when that has ended."""
    chance = random.Random(seed)
    print("opens", 0, flush=True)
    till = open_till(library, path)
    print("connects", 0, flush=True)
    till.connect("127.0.0.1", int(port), timeout=10)
    print("registers", 0, flush=True)
    till.register()
    while True:
        places = [place for place, _ in till.unclear_reversals()]
        if not places or chance.random() < 0.7:
            print("pays", 0, flush=True)
            till.pay(chance.randint(1, 999999))
            book = till.book()
            places = [place for place in range(max(0, len(book) - 5), len(book)) if not book[place].reversed]
        place = chance.choice(places)
        print("begins", place, flush=True)
        began = time.monotonic()
        till.reverse(place)
        print("ended", time.monotonic() - began, flush=True)


class Check:
    def __init__(self, library, seed, folder, terminal):
        self.library, self.seed, self.path = library, seed, os.path.join(folder, "till")
        self.chance, self.terminal, self.times = random.Random(seed), terminal, []
        self.stages, self.left, self.violations = collections.Counter(), collections.Counter(), 0
        self.terminal.start()

    def violates(self, *words):
        print("kill_check: this does not hold:", *words)
        self.violations += 1

    def start(self, number):
        words = [sys.executable, __file__, "till", self.library, str(self.terminal.port), self.path, f"{self.seed} {number}"]
        return subprocess.Popen(words, stdout=subprocess.PIPE, text=True)

    def begins(self, child):
        """Waits until the next reversal begins, and answers its place."""
        for line in child.stdout:
            word, number = line.split()
            if word == "begins":
                return int(number)
            if word == "ended":
                self.times.append(float(number))
        sys.exit("kill_check: the till ended by itself")

    def kills(self, number, spared):
        """A till is killed in the reversal behind so many that it may end, at a moment that may be any of it."""
        child = self.start(number)
        for _ in range(spared):
            self.begins(child)
        said = ["begins", str(self.begins(child))]
        if self.times:
            time.sleep(self.chance.uniform(0, 1.2 * statistics.median(self.times)))
        stage = self.terminal.stage
        child.kill()
        said += child.stdout.read().split()
        child.wait()
        child.stdout.close()
        self.line_ended()
        book = self.compare()
        if said[-2] == "begins":
            entry = book[int(said[-1])]
            self.stages[stage] += 1
            self.left["marked" if entry.reversed else "as it was" if entry.doubt is None else zvt.words(entry.doubt)] += 1

    def line_ended(self):
        if not self.terminal.ended.acquire(timeout=10):
            sys.exit("kill_check: the terminal hangs")

    def compare(self):
        """Holds the saved till against the ledger, and answers its book."""
        with open_till(self.library, self.path) as till:
            book, unclear, count = till.book(), till.unclear(), till.state().unclear_reversals
        if count != sum(entry.doubt == zvt.Doubt.UNCLEAR_REVERSAL for entry in book):
            self.violates("the state counts the unclear reversals", count)
        entries = {entry.trace: entry for entry in book}
        if len(entries) != len(book):
            self.violates("no trace number stands twice")
        rows = {row.number: row for row in self.terminal.ledger}
        for trace, entry in entries.items():
            if trace not in rows or rows[trace].amount != entry.amount:
                self.violates("what is booked was approved:", entry)
            elif (entry.reversed or entry.doubt == zvt.Doubt.TAKEN_BACK) and not rows[trace].taken_back:
                self.violates("what is marked was taken back:", entry)
        missing = collections.Counter()
        for row in rows.values():
            entry = entries.get(row.number)
            if entry is None:
                missing[row.amount] += 1
                if row.completed:
                    self.violates("what the till acknowledged the completion of is booked:", row.number)
            if row.taken_back and (entry is None or not (entry.reversed or entry.doubt)):
                self.violates("what was taken back is marked, unclear, or taken back by B4:", entry or row.number)
        if missing - collections.Counter(entry.amount for entry in unclear):
            self.violates("what was approved is booked or unclear")
        return book

    def settle(self):
        """Reverses what is unclear again, until nothing is."""
        with open_till(self.library, self.path) as till:
            till.connect("127.0.0.1", self.terminal.port, timeout=10)
            till.register()
            while till.state().unclear_reversals:
                till.reverse(till.unclear_reversals()[0][0])
        self.line_ended()
        book = self.compare()
        known = {entry.trace for entry in book if entry.reversed or entry.doubt == zvt.Doubt.TAKEN_BACK}
        taken = {row.number for row in self.terminal.ledger if row.taken_back}
        if known != taken:
            self.violates("at the end what was taken back is known:", sorted(known ^ taken))
        return sum(entry.reversed for entry in book), sum(entry.doubt == zvt.Doubt.TAKEN_BACK for entry in book), len(taken)

    def breaks_one_line(self):
        """The line breaks behind the terminal's row: the reversal is unclear, in what is saved too, until B4 tells."""
        self.terminal.declines = 0
        wanted = [(zvt.Cause.LINE, None, zvt.Doubt.UNCLEAR_REVERSAL), (None, ALREADY_REVERSED, zvt.Doubt.TAKEN_BACK)]
        for cause, code, doubt in wanted:
            with open_till(self.library, self.path) as till:
                till.connect("127.0.0.1", self.terminal.port, timeout=10)
                till.register()
                if cause is not None:
                    till.pay(4711)
                    self.terminal.breaks, place = True, len(till.book()) - 1
                unclear = till.state().unclear_reversals
                last, entry = ended(lambda: till.reverse(place)), till.book()[place]
                grown = till.state().unclear_reversals - unclear
            self.line_ended()
            if (last.cause, last.code) != (cause, code) or grown != (-1 if cause is None else 1):
                self.violates("a line that breaks leaves the reversal unclear, and B4 ends that:", last)
            if self.compare()[place] != entry or entry.reversed or (entry.doubt, entry.cause) != (doubt, cause):
                self.violates("the entry says so, and so does what is saved:", entry)


class BookCheck(Check):
    """A till that keeps its book in a file, which is killed at any moment."""
    till = []

    def __init__(self, library, seed, folder, terminal):
        super().__init__(library, seed, folder, terminal)
        self.path += ".trace"

    def start(self, number):
        if not self.till:
            return super().start(number)
        words = [*self.till, str(self.terminal.port), self.path, f"{self.seed} {number}"]
        return subprocess.Popen(words, stdout=subprocess.PIPE, text=True)

    def kills(self, number, spared):
        child = self.start(number)
        # It opens its book, connects, registers, pays, reverses: in one of these it is killed, or soon behind it.
        for _ in range(self.chance.randint(1, 8)):
            said = child.stdout.readline().split()
        if not said:
            sys.exit("kill_check: the till ended by itself")
        time.sleep(self.chance.uniform(0, 0.02))
        child.kill()
        said += child.stdout.read().split()
        child.wait()
        child.stdout.close()
        self.line_ended()
        before = self.compare()
        if self.compare() != before:
            self.violates("a book that is opened twice is the same")
        # A line that was being written may have its word alone.
        doing = next(word for word in reversed(said) if word.isalpha())
        self.left[{"begins": "in a reversal", "ended": "between orders"}.get(doing, f"as it {doing}")] += 1

    def line_ended(self):
        """Waits until the terminal has served each till so far: then it serves this line, which ends at once."""
        with socket.create_connection(("127.0.0.1", self.terminal.port)) as last:
            port = last.getsockname()[1]
        for _ in range(1000):
            if self.terminal.served == port:
                return
            time.sleep(0.01)
        sys.exit("kill_check: the terminal hangs")


def run(check, kills):
    """The kills, and the line that breaks; and what stands at the end."""
    check.kills(0, 20)  # how long a reversal takes
    check.stages.clear()
    check.left.clear()
    for number in range(kills):
        check.kills(number + 1, check.chance.randint(0, 2))
    check.breaks_one_line()
    return check.settle()


def main(kind, library, kills=500, seed=1, program=None):
    kills, seed = int(kills), int(seed)
    # a till for each kill, and one before and three behind them
    terminal = Terminal(seed) if program is None else Relay(seed, program, kills + 4)
    with tempfile.TemporaryDirectory() as folder:
        check = kind(library, seed, folder, terminal)
        try:
            marked, by_b4, taken = run(check, kills)
            if program is not None and terminal.program.wait(timeout=10) not in (0, 4):
                check.violates("the program serves each till:", terminal.program.returncode)
        finally:
            if program is not None:
                terminal.program.kill()
    told = ", ".join(f"{check.stages[stage]} {stage}" for stage in STAGES)
    left = ", ".join(f"{count} {how}" for how, count in sorted(check.left.items()))
    if kind is BookCheck:
        print(f"kill_check: {kills} kills of a till that keeps a book: {left}")
    else:
        print(f"kill_check: {kills} kills, {sum(check.stages.values())} in a reversal that ran: {told}")
        print(f"kill_check: the saved till then had its payment: {left}")
    print(f"kill_check: at the end {len(terminal.ledger)} approved, {taken} taken back: {marked} marked, {by_b4} known by B4; "
          f"{check.violations} violations")
    sys.exit(1 if check.violations else 0)


if sys.argv[1] == "till":
    pay_and_reverse(*sys.argv[2:])
elif sys.argv[1] == "--book":
    BookCheck.till = sys.argv[5:]
    main(BookCheck, *sys.argv[2:5])
else:
    main(Check, *sys.argv[1:])

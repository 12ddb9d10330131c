"""What the tills in C#, Java and Pascal owe a shop: languages_check.py LIBRARY LAYOUTS PROGRAM [LANGUAGE]...

LIBRARY is the folder of libzvt.so.0, LAYOUTS the file that layouts.c writes, PROGRAM the program `zvt`. Each language has an example
(Pay) and a program that says what its till does (TillCheck); both are built here, and what can't be built is said and left out.

The example runs the steps of a day at the program's terminal, with a book in a file, and passes each situation of conformance/till.
It is killed while a payment runs, and goes
on from its book. TillCheck says its structs' layouts, what wrong arguments and closed tills come to, and what callbacks that raise
do. It plays tills, orders, asks and pieces of bytes, random, hostile and cut anywhere: what it says is what zvt.py says. It makes tills
over and over, and does not grow. tests/journal_calls.py reads off the example's system calls what a loss of power leaves of its
book, where strace is there. And TillCheck is the till that kill_check.py kills. The status is 1 where anything does not hold.
"""
import glob
import os
import random
import shutil
import socket
import subprocess
import sys
import tempfile
import time

import zvt

HERE = os.path.dirname(os.path.abspath(__file__))
JNA = os.environ.get("JNA", "/usr/share/java/jna.jar")
ACK, DONE = "800000", "060F00"
STEPS = "register pay:1000 reverse:7 pay:500 reverse:2 close".split()
DAY = """register -> registered
  | APPROVED 1000
pay:1000 -> paid, trace 000001, receipt 0001
reverse:7 -> refused: no such payment is booked
  | APPROVED 500
pay:500 -> paid, trace 000002, receipt 0002
  | REVERSED 500
reverse:2 -> reversed
  | DAY CLOSED
close -> day closed
"""
BOOK = "booked 1000, trace 000001, receipt 0001\nbooked 500, trace 000002, receipt 0002, taken back\n"
ARGUMENTS = ["password: argument: {password} is a number from 0 to 999999, and not 1000000",
             "config: argument: {config} is a number from 0 to 255, and not 446",
             "currency: argument: {currency} is a number from 0 to 9999, and not -1",
             "amount 0: argument: amount is a number from 1 to 999999999999, and not 0",
             "amount: argument: amount is a number from 1 to 999999999999, and not 1000000000000",
             "place: argument: place is a number from 0 to 2147483647, and not -1",
             "offline: refused: the line is down", "status 0A: insert the card"]
CLOSED = [f"closed {call}: use: the till is closed" for call in (
    "register", "pay", "reverse", "close day", "book", "unclear", "unclear reversals", "total", "registered", "last", "card", "save", "load", "connect", "ask", "settled", "pending")]
# What a callback is told of a registration and of a payment, whose book is kept; and its reference and the length of its time,
# which the till and one that goes on from its book give.
HEARD = """heard: paid, trace 000017, receipt 0005
Ack
Completion
Ack
Intermediate 0A
Status
  27 result 00 success
  04 amount 1234
  0B trace 000017
  87 receipt 0005
Completion
noted: A-1009, 20
noted: A-1009, 20""".splitlines()
# The lines of a print line and of a text block for the customer, in UTF-8; and the card of the payment.
PRINTS = ["prints: paid, trace 000017, receipt 0005", "5468616E6B73 0", "44616E6B65 2", "4772C3BCC39F65 2", "card girocard 672612******1234"]
USES = ["raises: {raised}: no paper", "after: paid, trace 000017, receipt 0005, lines 2, sent " + 4 * ACK, "goes on: day closed", *PRINTS,
        "within: use: a callback can't give its till an order{within}", "after: paid, trace 000017, receipt 0005, booked 1",
        *HEARD, "cancels: aborted, code 6C (abort by time-out or abort key)", "sent 06B000" + ACK,
        "silent: line: the line is lost: unclear: line{why}", "unclear [1234: line], line closed true"]


class Language:
    """How a language's programs are built and run, and the words that are its own."""

    def __init__(self, name, tools, sources, build, run, names=None, raised="", within="", why="", closes=True, structs=()):
        self.name, self.tools, self.sources, self._build, self._run = name, tools, sources, build, run
        self.names = names or {it: it for it in ("password", "config", "currency")}
        self.raised, self.within, self.why, self.closes, self.without = raised, within, why, closes, structs

    def lacks(self):
        """What is missing of its tools, or None."""
        for tool in self.tools:
            if not (os.path.exists(tool) if tool.startswith("/") else shutil.which(tool)):
                return tool
        return None

    def build(self, folder, library):
        os.mkdir(folder)
        for words in self._build(folder, library):
            done = subprocess.run(words, cwd=HERE, stdout=subprocess.PIPE, stderr=subprocess.STDOUT, text=True)
            if done.returncode:
                sys.exit(f"languages_check: {self.name}: {' '.join(words)}\n{done.stdout}")

    def words(self, folder, program, *arguments):
        return [*self._run(folder, program), *map(str, arguments)]

    def says(self, folder, program, *arguments, status=0):
        done = subprocess.run(self.words(folder, program, *arguments), stdout=subprocess.PIPE, stderr=subprocess.PIPE, text=True, timeout=600)
        if done.returncode != status:
            sys.exit(f"languages_check: {self.name}: {program} {arguments} ended with {done.returncode}:\n{done.stdout[-2000:]}{done.stderr[-2000:]}")
        return done.stdout


def pascal(folder, _library):
    for source in ("pay.pas", "tillcheck.pas"):
        yield ["fpc", "-v0", "-O2", f"-FE{folder}", f"-FU{folder}", f"-Fl{_library}", source]


LANGUAGES = [
    Language("C#", ["mcs", "mono"], ["Zvt.cs"],
             lambda folder, library: ([["mcs", "-warnaserror", f"-out:{folder}/{it}.exe", "Zvt.cs", f"{it}.cs"] for it in ("Pay", "TillCheck")]),
             lambda folder, program: ["mono", f"{folder}/{program}.exe"],
             names={"password": "Password", "config": "Config", "currency": "Currency"}, raised="NotSupportedException",
             within=", a line or up", structs=("_Handle",)),
    Language("Java", ["javac", "java", JNA], ["Zvt.java"],
             lambda folder, library: [["javac", "-Xlint:all", "-Werror", "--release", "8", "-cp", JNA, "-d", folder, "Zvt.java", "Pay.java", "TillCheck.java"]],
             # (the heap is all there from the start, so that what grows is no heap)
             lambda folder, program: ["java", "-Xms32m", "-Xmx32m", "-XX:+AlwaysPreTouch", "-cp", f"{JNA}:{folder}", program],
             raised="java.lang.UnsupportedOperationException", within=", a line or up", structs=("_Handle",)),
    Language("Pascal", ["fpc"], ["zvt.pas"], pascal, lambda folder, program: [f"{folder}/{program.lower()}"],
             raised="ENoPaper", within=" or a line", why=" (the terminal is silent)", closes=False),
]


def the_situations(language, folder, program):
    """The example passes each situation of the conformance kit. Its words for outcomes are its own, so messages are compared."""
    run, situations = f"{HERE}/../conformance/run.py", sorted(glob.glob(f"{HERE}/../conformance/till/*.trace"))
    till = language.words(folder, "Pay", "127.0.0.1", "{port}", "{book}", "{steps}")
    done = subprocess.run([sys.executable, run, "--kit", program, "--jobs", "8", "--messages-only", *situations, "--", *till],
                          stdout=subprocess.PIPE, stderr=subprocess.STDOUT, text=True)
    check(language, f"the situations: {done.stdout[-2000:]}", (0, len(situations)), (done.returncode, done.stdout.count("\nok ")))


def check(language, what, wanted, found):
    if wanted != found:
        sys.exit(f"languages_check: {language.name}: {what}: this does not hold:\n{found}\nbut this was wanted:\n{wanted}")


def terminal(program, *words):
    """A terminal of the program at a free port."""
    with socket.create_server(("127.0.0.1", 0)) as free:
        port = free.getsockname()[1]
    running = subprocess.Popen([program, "terminal", "--port", str(port), *words], stderr=subprocess.DEVNULL)
    for _ in range(200):
        with open("/proc/net/tcp", encoding="ascii") as table:
            if any(row.split()[1].endswith(f":{port:04X}") and row.split()[3] == "0A" for row in table):
                return running, port
        time.sleep(0.02)
    sys.exit("languages_check: the program listens at no port")


def a_day_at_the_terminal(language, folder, program):
    """The example's steps, and then those at a terminal that declines, over the same book."""
    book = f"{folder}/day.trace"
    running, port = terminal(program)
    check(language, "a day", DAY + BOOK + "total 1000\n", language.says(folder, "Pay", "127.0.0.1", port, book, *STEPS))
    running.wait(timeout=10)
    running, port = terminal(program, "--decline", "6C")
    wanted = "register -> registered\npay:700 -> aborted, code 6C (abort by time-out or abort key)\n" + BOOK + "total 1000\n"
    check(language, "a decline", wanted, language.says(folder, "Pay", "127.0.0.1", port, book, "register", "pay:700"))
    running.wait(timeout=10)


def a_kill_in_the_middle(language, folder, _program):
    """The terminal hears the authorisation and is silent: the till is killed, and goes on from its book."""
    book = f"{folder}/killed.trace"
    with socket.create_server(("127.0.0.1", 0)) as listener:
        words = language.words(folder, "Pay", "127.0.0.1", listener.getsockname()[1], book, "register", "pay:1234")
        for wanted in ("", "unclear 1234: line\n"):
            running = subprocess.Popen(words, stdout=subprocess.PIPE, text=True)
            line, _ = listener.accept()
            with line:
                line.recv(4096)
                line.sendall(bytes.fromhex(ACK + DONE))
                held = b""
                while b"\x06\x01" not in held:
                    held += line.recv(4096)
                if wanted:
                    line.sendall(bytes.fromhex(ACK + "061E016C"))
                    line.recv(4096)
                    found = running.stdout.read()
                else:
                    running.kill()
            running.wait(timeout=10)
            running.stdout.close()
    wanted = "register -> registered\npay:1234 -> aborted, code 6C (abort by time-out or abort key)\nunclear 1234: line\ntotal 0\n"
    check(language, "a kill while a payment runs", wanted, found)


def a_book_that_another_has_open(language, folder, library):
    """A second till is refused the book, and a file that is no book is left as it was."""
    book = f"{folder}/open.trace"
    with zvt.Till(library, book=book):
        done = subprocess.run(language.words(folder, "Pay", "127.0.0.1", 1, book), stdout=subprocess.PIPE, stderr=subprocess.STDOUT, text=True)
        check(language, "a book that another has open", (True, True), (done.returncode != 0, f"another till is using the book {book}" in done.stdout))
    with open(book, "w", encoding="ascii") as file:
        file.write("a shopping list\n")
    done = subprocess.run(language.words(folder, "Pay", "127.0.0.1", 1, book), stdout=subprocess.PIPE, stderr=subprocess.STDOUT, text=True)
    with open(book, encoding="ascii") as file:
        check(language, "no book", (True, "a shopping list\n"), (f"{book} is not a till's book (left unchanged)" in done.stdout, file.read()))


def another_library(folder, library):
    """A library that has the same calls, of another number; None where none can be made."""
    if not (shutil.which("nm") and shutil.which("cc")):
        print("languages_check: no nm or no cc: skipped a library of another number")
        return None
    os.mkdir(folder)
    said = subprocess.run(["nm", "-D", "--defined-only", library], stdout=subprocess.PIPE, text=True, check=True).stdout
    with open(f"{folder}/other.c", "w", encoding="ascii") as file:
        for name in (row.split()[2] for row in said.splitlines()):
            file.write(f"int {name}(void) {{ return {1 if name == 'zvt_abi' else 0}; }}\n")
    subprocess.run(["cc", "-w", "-shared", "-fPIC", "-Wl,-soname,libzvt.so.0", "-o", f"{folder}/libzvt.so.0", f"{folder}/other.c"], check=True)
    return folder


def another_library_is_refused(language, folder, other):
    """The number of its calls is not that which the language's file is made for: nothing is opened."""
    environment = {**os.environ, "LD_LIBRARY_PATH": other, "ZVT_LIBRARY": f"{other}/libzvt.so.0"}
    words = language.words(folder, "Pay", "127.0.0.1", 1, f"{folder}/other.trace")
    done = subprocess.run(words, stdout=subprocess.PIPE, stderr=subprocess.STDOUT, text=True, env=environment)
    found = (done.returncode != 0, "are of number 1, and" in done.stdout, os.path.exists(f"{folder}/other.trace"))
    check(language, f"a library of another number: {done.stdout}", (True, True, False), found)


def torn_books_go_on(language, folder, library):
    """Each beginning of a record after the gate is cut and kept, as zvt.py does."""
    for size in (1, 9, 30):
        book, again = f"{folder}/torn.trace", f"{folder}/torn-again.trace"
        for path in (book, again, book + ".cut", again + ".cut"):
            if os.path.exists(path):
                os.remove(path)
        with zvt.Till(library, book=book):
            pass
        with open(book, "ab") as file:
            file.write(b"!\n# register\n> 060006000000BE0978\n"[1:size])
        shutil.copy(book, again)
        subprocess.run(language.words(folder, "Pay", "127.0.0.1", 1, book), stdout=subprocess.DEVNULL, stderr=subprocess.DEVNULL)
        with zvt.Till(library, book=again):
            pass
        contents = []
        for path in (book, again):
            contents.append([open(it, "rb").read() if os.path.exists(it) else None for it in (path, path + ".cut")])
        check(language, f"a record torn after {size} bytes", contents[1], contents[0])


# What a terminal may say: messages that fit an order, others, and bytes that are none.
def bcd(number, size):
    return f"{number:0{2 * size}}"


def status(chance, amount):
    code = chance.choice(["00"] * 6 + ["6C", "05"])
    trace = f"0B{bcd(chance.randint(1, 30), 3)}" if chance.random() < 0.9 else ""
    data = f"27{code}04{bcd(amount if chance.random() < 0.9 else amount + 1, 6)}{trace}" + ("870005" if chance.random() < 0.7 else "")
    return f"040F{len(data) // 2:02X}{data}"


def spoken(chance, order, amount):
    """The bytes that a terminal answers an order or an ask with: mostly such as end it."""
    said = [ACK] if chance.random() < 0.95 else [chance.choice(["84B400", "840500"])]
    for _ in range(chance.randint(0, 3)):
        said.append(chance.choice(["04FF0100", "06D1070054" + "68616E6B73", "06D1020041", "06D3050601030203"]))
    if order in ("pay", "reverse", "ask") and chance.random() < 0.9:
        said.append(status(chance, amount))
    said.append(chance.choice([DONE] * 6 + ["061E016C", "061E01B4", ""]))
    if chance.random() < 0.1:
        said.append("06D1040042" + "7965")
    return bytes.fromhex("".join(said))


def hostile(chance, held):
    """The bytes with some changed, lost or added, or none of them."""
    held = bytearray(held)
    for _ in range(chance.randint(1, 3)):
        place = chance.randrange(len(held) + 1)
        if chance.random() < 0.4 and place < len(held):
            held[place] = chance.randrange(256)
        elif chance.random() < 0.5:
            del held[place:place + chance.randint(1, 4)]
        else:
            held[place:place] = chance.randbytes(chance.randint(1, 40))
    return bytes(held) if chance.random() < 0.9 else chance.randbytes(chance.randint(1, 300))


def orders(chance):
    """Orders and asks in any order, each with the bytes that the terminal says."""
    amounts = []
    for number in range(chance.randint(2, 12)):
        order = chance.choices(["register", "pay", "reverse", "close", "ask"], [2 if number else 9, 6, 3, 1, 1])[0]
        amount = chance.choice([1, 999, chance.randint(1, 999_999_999_999)])
        place = chance.randrange(3)
        if order == "reverse" and place < len(amounts):
            amount = amounts[place]
        if order == "pay":
            amounts.append(amount)
        yield {"pay": f"pay {amount}", "reverse": f"reverse {place}"}.get(order, order), spoken(chance, order, amount)


def approval(amount, trace, more=""):
    return f"040F{16 + len(more) // 2:02X}270004{bcd(amount, 6)}0B{bcd(trace, 3)}87{bcd(trace, 2)}{more}"


def asks(chance):
    """A payment; another, or its reversal, whose line breaks; then asks, and what a terminal may answer."""
    paid, unclear, other = (chance.randint(1, 999_999) for _ in range(3))
    first, back = approval(paid, 1), approval(paid, 2, "37000001")
    broken = chance.choice([f"pay {unclear}", "reverse 0"])
    for row, said in (("register", ACK + DONE), (f"pay {paid}", ACK + first + DONE), (broken, ACK), ("register", ACK + DONE)):
        yield row, bytes.fromhex(said)
    for _ in range(chance.randint(1, 3)):
        answer = ACK + chance.choice([first, back, approval(unclear, 2), approval(other, 3)]) + DONE
        yield "ask", bytes.fromhex(chance.choice([answer] * 5 + ["848300", ACK + "061E0183", ACK]))


def script(seed, count):
    """Tills, orders, asks and pieces: at least so many pieces."""
    chance, rows, pieces = random.Random(seed), [], 0
    while pieces < count:
        rows.append("till")
        turns, changed = (orders, 0.25) if chance.random() < 0.8 else (asks, 0.05)
        for row, held in turns(chance):
            rows.append(row)
            if chance.random() < changed:
                held = hostile(chance, held)
            while held:
                size = chance.choice([1, 1, 2, 3, 7, len(held)])
                rows.append(f"+ {held[:size].hex().upper()}")
                held, pieces = held[size:], pieces + 1
    return rows


class Pieces:
    """A line of zvt.py that brings these pieces, and then ends."""

    def __init__(self):
        self.pieces, self.is_closed = [], False

    def recv(self, _size):
        return self.pieces.pop(0) if self.pieces else b""

    def sendall(self, _message):
        pass

    def setsockopt(self, *_):
        pass

    def close(self):
        self.is_closed = True


def settled(one):
    """The words of a settlement, if there is one."""
    return f"{one}, {one.place}" if one else "nothing"


def played(rows, library):
    """What zvt.py makes of the rows."""
    said, till, line = [], None, None

    def show():
        if till is not None:
            said.extend(f"booked {entry}" for entry in till.book())
            said.extend(f"unclear {entry}" for entry in till.unclear())
            said.extend(f"settled {settled(one)}" for one in till.settled())
            pending = till.pending()
            said.append(f"pending {pending.kind}, {pending.place}" if pending else f"knows last {int(till.knows_last())}")
            said.append(f"total {till.state().total}, saved {till.save().hex().upper()}")
            till.close()
    at = 0
    while at < len(rows):
        words, at = rows[at].split(), at + 1
        if words[0] == "till":
            show()
            till, line = zvt.Till(library), None
            continue
        if line is None or line.is_closed:
            line = Pieces()
            zvt.socket.create_connection = lambda *_, line=line, **__: line
            till.connect("a terminal", 0)
        line.pieces = []
        while at < len(rows) and rows[at][0] == "+":
            line.pieces.append(bytes.fromhex(rows[at][2:]))
            at += 1
        try:
            call = {"register": till.register, "pay": till.pay, "reverse": till.reverse, "close": till.close_day,
                    "ask": lambda: settled(till.ask())}[words[0]]
            said.append(str(call(*map(int, words[1:]))))
        except zvt.LineError as lost:
            said.append(f"{lost.outcome or 'ask'}, and the line is lost")
        except zvt.Refused as refused:
            said.append(f"refused: {refused.status}")
    show()
    return said


def main(library, layouts, program, *names):
    with open(layouts, encoding="ascii") as file:
        rows = file.read().splitlines()
    path, environment = os.path.join(os.path.abspath(library), "libzvt.so.0"), os.path.abspath(library)
    os.environ["LD_LIBRARY_PATH"], os.environ["ZVT_LIBRARY"] = environment, path
    count = int(os.environ.get("PIECES", "100000"))
    with tempfile.TemporaryDirectory() as room:
        with open(f"{room}/script", "w", encoding="ascii") as file:
            file.write("\n".join(script(1, count)) + "\n")
        with open(f"{room}/script", encoding="ascii") as file:
            wanted = played(file.read().splitlines(), path)
        other = another_library(f"{room}/other", path)
        if other:
            try:
                zvt.Till(f"{other}/libzvt.so.0")
                sys.exit("languages_check: zvt.py takes a library of another number")
            except OSError as error:
                assert "are of number 1, and" in str(error), error
        for language in LANGUAGES:
            if names and language.name not in names:
                continue
            if language.lacks():
                print(f"languages_check: no {language.lacks()}: skipped {language.name}")
                continue
            began, folder = time.monotonic(), f"{room}/{language.name}"
            language.build(folder, os.path.abspath(library))
            found = language.says(folder, "TillCheck", "layouts").splitlines()
            check(language, "layouts", [f"version {zvt.version(path)}"] + [row for row in rows if row.split()[0] not in language.without], found)
            check(language, "arguments", [row.format(**language.names) for row in ARGUMENTS], language.says(folder, "TillCheck", "arguments").splitlines())
            os.environ["ZVT_BOOK"] = f"{folder}/heard.trace"
            uses = [row.format(raised=language.raised, within=language.within, why=language.why) for row in USES]
            check(language, "uses", (CLOSED if language.closes else []) + uses, language.says(folder, "TillCheck", "uses").splitlines())
            if other:
                another_library_is_refused(language, folder, other)
            a_day_at_the_terminal(language, folder, program)
            the_situations(language, folder, program)
            a_kill_in_the_middle(language, folder, program)
            a_book_that_another_has_open(language, folder, path)
            torn_books_go_on(language, folder, path)
            found = language.says(folder, "TillCheck", "play", f"{room}/script").splitlines()
            differ = next((at for at, (one, other) in enumerate(zip(wanted, found)) if one != other), min(len(wanted), len(found)))
            check(language, f"what row {differ} of the script comes to", wanted[differ:differ + 3], found[differ:differ + 3])
            grown = int(language.says(folder, "TillCheck", "leaks", 20000).split()[1])
            check(language, f"20000 tills: grown by {grown} MB", True, grown < 24)
            if not language.closes and shutil.which("valgrind"):
                words = ["valgrind", "-q", "--error-exitcode=1", "--leak-check=full", *language.words(folder, "TillCheck", "leaks", 20)]
                done = subprocess.run(words, stdout=subprocess.DEVNULL, stderr=subprocess.PIPE, text=True)
                check(language, f"valgrind: {done.stderr}", 0, done.returncode)
            if shutil.which("strace"):
                calls = [f"{HERE}/../tests/journal_calls.py", program, *language.words(folder, "Pay")]
                done = subprocess.run(calls, stdout=subprocess.PIPE, stderr=subprocess.STDOUT, text=True)
                check(language, f"what a loss of power leaves: {done.stdout}", 0, done.returncode)
            kills = [sys.executable, f"{HERE}/kill_check.py", "--book", path, "10", "1", *language.words(folder, "TillCheck", "kill")]
            done = subprocess.run(kills, stdout=subprocess.PIPE, stderr=subprocess.STDOUT, text=True)
            check(language, f"kills: {done.stdout}", 0, done.returncode)
            print(f"languages_check: {language.name}: a day, a kill, wrong arguments, {len(wanted)} answers to {count} pieces, 10 kills: "
                  f"{time.monotonic() - began:.0f} s")


main(*sys.argv[1:])

#!/usr/bin/env python3
"""Compares what `vectors`, `book`, `loop`, `till` and `terminal` write with `--json` with models, byte for byte.

    tests/answers_output.py [PROGRAM]

PROGRAM is the one that `rt ci` built, unless another is named. A book's objects are those of the model of `journal_model.py`,
of the journals of sixteen dialogues, whole and cut after each record. Of a run and of vectors the text is read by a parser of
its own, and says what the objects have to be: over examples/vectors.txt with answers changed, over random lists of steps, and
over TCP with terminals that approve, decline, abort, repeat a status when they are asked, and break the line. Exit statuses and
standard error are those of the text. Every object of docs/JSON.md occurs. Each line is held against
docs/zvt.schema.json where python3 has jsonschema. The status is 1 where anything differs. It takes seconds.
"""
import contextlib
import json
import os
import pathlib
import random
import re
import socket
import subprocess
import sys
import tempfile
import threading
import warnings

import journal_dialogues
import journal_model
import json_model
from common import Checks, EXAMPLES, TOP, program
from journal_dialogues import Dialogue
from journal_model import ABORT, COMPLETION, message, status

PROGRAM = program(sys.argv[1:])
SEED, RUNS, VECTORS, SECONDS = 20261126, 150, 40, 60
# The sections of docs/JSON.md whose objects are seen here.
SECTIONS = ("Steps", "Books of a till", "Terminals", "Vectors")
ACK = bytes.fromhex("80 00 00")
# What a terminal sends for one order after another, before it closes the line.
ANSWERS = [[bytes.fromhex(answer) for answer in answers] for answers in (
    [], ["80 00 00 06 0F 00"], ["80 00 00 06 0F 00", "80 00 00 06 0F 00"], ["80 00 00 06 0F 00", "84 83 00"], ["80 00 00 06 0F 00", "80 00"],
    ["80 00 00 06 0F 00", "80 00 00 06 D0 00 01"], ["80 00 00 06 0F 00", "80 00 00 04 0F 02 27 6F 06 0F 00", "80 00 00 06 1E 01 B5"],
    ["84 83 00"], ["80 00 00 06 1E 01 6F"], ["80 00 00 06 0F 02 D0"],
)]
check, seen = Checks(), []


def text_of(value):
    """The line of an object."""
    return json.dumps(value, sort_keys=True, separators=(",", ":"))


def run(words, given=b"", folder="."):
    done = subprocess.run([PROGRAM, *words], input=given, cwd=folder, capture_output=True, timeout=SECONDS)
    return done.returncode, done.stdout.decode(), done.stderr.decode()


def lines_of(text, parse):
    return "".join(text_of(parse(line)) + "\n" for line in text.splitlines())


def hold(name, found, wanted):
    """What was written with `--json`, beside the objects that were to be written."""
    check(name, found, wanted)
    for line in found.splitlines():
        seen.append(line)


# ---- vectors

def vector_object(line):
    number, answer = re.fullmatch(r"line (\d+): got (.*)", line).groups()
    return {"line": int(number), "got": answer}


def vectors(chance):
    """Vectors whose answers are those of other vectors, with comments and empty lines between them."""
    rows = [line for line in (EXAMPLES / "vectors.txt").read_text().splitlines() if line and line[0] != "#"]
    for _ in range(VECTORS):
        lines = []
        for row in chance.sample(rows, chance.randint(1, 60)):
            spelled = row.split(" = ")[0]
            answer = chance.choice(rows).split(" = ")[1] if chance.random() < 0.5 else row.split(" = ")[1]
            lines += [f"{spelled} = {answer}", *chance.choice(([], [], ["# a comment"], [""]))]
        yield "\n".join(lines).encode()
    yield b""
    yield b"80 00 00 = more\n80 0 = more\n"


def hold_vectors(chance):
    for given in vectors(chance):
        status, text, errors = run(["vectors"], given)
        found = run(["vectors", "--json"], given)
        hold("vectors", found[1], lines_of(text, vector_object))
        check("the end of vectors", (found[0], found[2]), (status, errors))


# ---- the book of a till

def noted(note):
    """The members of a note, which is ` at`, ` ref` or both, each with its word."""
    words = note.split(" ")[1:]
    return dict(zip(words[::2], words[1::2]))


def entry_object(currency, number, entry):
    booked = {"amount": entry.amount, "currency": currency, "number": number, "trace": entry.trace, **noted(entry.note)}
    if entry.receipt is not None:
        booked["receipt"] = entry.receipt.hex().upper()
    if entry.reversed:
        booked["reversed"] = True
    if entry.doubt == "B4":
        booked["taken_back"] = True
    elif entry.doubt is not None:
        booked["reversal_unclear"] = entry.doubt
    return {"booked": booked}


def book_objects(book):
    currency = f"{book.currency:04}"
    for number, entry in enumerate(book.entries, 1):
        yield entry_object(currency, number, entry)
    for (amount, cause), (trace, receipt), note in zip(book.unclear, book.heard, book.notes):
        receipt = None if receipt is None else receipt.hex().upper()
        members = {"amount": amount, "cause": cause, "currency": currency, "receipt": receipt, "trace": trace, **noted(note)}
        yield {"unclear": {name: member for name, member in members.items() if member is not None}}
    yield from (journal_model.settled_object(*row) for row in book.settled)
    if book.settled_total():
        yield {"settled_total": book.settled_total()}
    yield {"currency": currency, "total": book.total()}


def hold_books(folder):
    path = os.path.join(folder, "day.book")
    for dialogue in journal_dialogues.ALL:
        writer = journal_dialogues.written(dialogue)
        for count in range(len(writer.records) + 1):
            file = writer.file(count)
            with open(path, "wb") as book:
                book.write(file)
            wanted = "".join(text_of(value) + "\n" for value in book_objects(journal_model.book_of(file)))
            status, found, errors = run(["book", "--json", path])
            hold(f"the book of {dialogue.__name__}, {count} records", found, wanted)
            check(f"the end of {dialogue.__name__}", (status, errors), (0, ""))


# ---- steps

def step_object(line):
    if line.startswith("total "):
        return {"total": int(line.removeprefix("total "))}
    word, ending = line.split(" ->", 1)
    return {"step": word, **outcome(ending.removeprefix(" "))}


def outcome(ending):
    """The members that an outcome has, from its words."""
    if not ending:
        return {}
    if ending in ("registered", "reversed", "day closed", "not settled", "nothing to settle"):
        return {"outcome": ending}
    if found := re.fullmatch(r"settled (unclear|booked) (\d+) (\w+)(?: trace (\d{6}) receipt (\S+))?", ending):
        numbers = {"trace": int(found[4]), "receipt": found[5]} if found[4] else {}
        return {"outcome": "settled", "settled": {found[1]: int(found[2]), "name": found[3], **numbers}}
    if found := re.fullmatch(r"paid trace (\d{6}) receipt (\S+)", ending):
        receipt = {} if found[2] == "-" else {"receipt": found[2]}
        return {"outcome": "paid", "trace": int(found[1]), **receipt}
    if found := re.fullmatch(r"unclear (\w+)", ending):
        return {"outcome": "unclear", "cause": found[1]}
    if found := re.fullmatch(r"not sent: (\w+)", ending):
        return {"outcome": "not sent", "reason": found[1]}
    found = re.fullmatch(r"(declined|refused|aborted) (?:code )?([0-9A-F]{2})(?: .+)?", ending)
    return {"outcome": found[1], "code": found[2], **json_model.known("words", json_model.MEANINGS, found[2])}


def steps(chance):
    """A list of steps, in any order."""
    kinds = ["pay:{}", "pay:{}", "pay:{}", "decline:{}:{:02X}", "reverse:{place}", "reverse:{place}", "close", "register"]
    first = [] if chance.random() < 0.1 else ["register"]
    return first + [
        chance.choice(kinds).format(chance.choice((1, 1000, chance.randint(1, 10**12 - 1), 10**12 - 1)), chance.choice((0x6C, 0x6F, 0x05, 0xFF, chance.randint(1, 255))),
                                    place=chance.choice((1, 1, 2, 3, 99)))
        for _ in range(chance.randint(0, 8))
    ]


def hold_loops(chance, folder):
    for number in range(RUNS):
        words = steps(chance)
        book = ["--book", os.path.join(folder, f"{number}.book")] if number % 3 == 0 else []
        again = ["--book", os.path.join(folder, f"{number}.again")] if book else []
        status, text, errors = run(["loop", *book, *words])
        found = run(["loop", "--json", *again, *words])
        hold(f"loop {words}", found[1], lines_of(text, step_object))
        check(f"the end of loop {words}", (found[0], found[2].replace(".again'", ".book'")), (status, errors))


# ---- a till and a terminal

def awaits_order(line):
    """Reads until a whole order has come, and not only what acknowledges a message."""
    data = b""
    while True:
        while data.startswith(ACK):
            data = data[len(ACK):]
        if len(data) >= 3 and len(data) >= 3 + data[2]:
            return
        more = line.recv(4096)
        if not more:
            raise OSError("the till has gone")
        data += more


def serve(door, answers):
    """Gives these answers to one order after another, to each till that connects, and then sends nothing more."""
    with contextlib.suppress(OSError):  # the port is closed in the end
        while True:
            line, _ = door.accept()
            with line, contextlib.suppress(OSError):  # the till has gone
                line.settimeout(SECONDS)
                for answer in answers:
                    awaits_order(line)
                    line.sendall(answer)
                line.shutdown(socket.SHUT_WR)
                while line.recv(4096):
                    pass


@contextlib.contextmanager
def answering(answers):
    """A port at which a terminal gives these answers."""
    with socket.create_server(("127.0.0.1", 0)) as door:
        threading.Thread(target=serve, args=(door, answers), daemon=True).start()
        yield door.getsockname()[1]


def hold_lines():
    """Tills at terminals that end the line at odd places."""
    for answers in ANSWERS:
        said = [answer.hex() for answer in answers]
        with answering(answers) as port:
            words = ["--port", str(port), "register", "pay:1000", "close"]
            status, text, errors = run(["till", *words])
            found = run(["till", "--json", *words])
            hold(f"till at {said}", found[1], lines_of(text, step_object))
            check(f"the end of a till at {said}", (found[0], found[2]), (status, errors))


# What a till did before its line was lost, what the terminal answers when it is asked, what came of that, and what the till says.
PAID = [lambda of, number=number: of.paid(number * 10, number) for number in (1, 2, 3)]
ASKS = (
    ([*PAID, lambda of: of.reversing(3, 3)], [status(30, 3, 3)], "settled booked 3 NotReversed", "booked payment 3: the terminal did not reverse the payment: you may reverse it again"),
    ([*PAID, lambda of: of.reversing(3, 3)], [status(30, 4, 4, original=3)], "settled booked 3 Reversed", "booked payment 3: the terminal reversed the payment: do not refund the amount again"),
    ([*PAID, lambda of: of.approved(40, 4)], [status(40, 4, 4)], "settled unclear 1 Paid trace 000004 receipt 0004",
     "unclear payment 1: the terminal took the payment as trace 000004 receipt 0004: do not order it again"),
    ([*PAID, lambda of: of.taken(40)], [status(30, 3, 3)], "settled unclear 1 NotPaid", "unclear payment 1: the terminal did not take the payment: you may order it again"),
    ([*PAID, lambda of: of.taken(40)], [status(50, 4, 4)], "not settled", "the terminal's answer does not settle the unclear order: look at the terminal's journal or its last receipt"),
    ([*PAID, lambda of: of.taken(40)], None, "not settled", "the terminal's answer does not settle the unclear order: look at the terminal's journal or its last receipt"),
    (PAID, [status(30, 3, 3)], "nothing to settle", None),
)


def hold_asks(folder):
    """Tills over a book ask a terminal: by a step, and by themselves."""
    for number, (before, said, ending, note) in enumerate(ASKS):
        of = Dialogue()
        of.registered()
        for step in before:
            step(of)
        answer = message(ABORT, b"\x83") if said is None else b"".join(said) + message(COMPLETION)
        for words in (["--no-ask", "register", "ask"], ["register"]):
            written = {}
            for form in ([], ["--json"]):
                book = os.path.join(folder, f"ask{number}.book")
                pathlib.Path(book).write_bytes(of.file())
                with answering([ACK + message(COMPLETION), ACK + answer]) as port:
                    written[bool(form)] = run(["till", "--port", str(port), "--book", book, *form, *words])
            ended, text, errors = written[False]
            hold(f"ask {number} by {words}", written[True][1], lines_of(text, step_object))
            check(f"the end of ask {number} by {words}", written[True][::2], (ended, errors))
            shown = ending if "ask" in words or ending.startswith("settled") else None
            check(f"the line of ask {number} by {words}", re.findall("^ask -> (.*)$", text, re.M), [shown] if shown else [])
            noted = note if len(words) == 3 or before is not PAID else None
            check(f"the note of ask {number} by {words}", f"zvt: {noted}\n" in errors, noted is not None)


def serving(words):
    """A terminal that writes JSON, and its port."""
    terminal = subprocess.Popen([PROGRAM, "terminal", "--json", "--port", "0", *words], stdout=subprocess.PIPE, stderr=subprocess.PIPE, text=True)
    first = terminal.stdout.readline()
    return terminal, first, int(json.loads(first)["listening"].rsplit(":", 1)[1])


def hold_terminals():
    """Tills one after another, of which the second breaks its line within a message."""
    ledger = [{"approved": 1000, "number": 1, "till": 1}, {"approved": 20, "number": 2, "till": 1}, {"number": 3, "original": 1, "reversed": 1000, "till": 1}]
    for options, words, got, approvals in ((["--decline", "6C"], ["register", "pay:500"], [], 0), ([], ["register", "pay:1000", "pay:20", "reverse:1"], ledger, 2)):
        terminal, first, port = serving(["--connections", "3", *options])
        till = run(["till", "--port", str(port), "--json", *words])
        with socket.create_connection(("127.0.0.1", port), timeout=SECONDS) as line:
            line.sendall(bytes.fromhex("06 00 06 00 00 00 BE 09 78 06 01 0A 04"))
            line.shutdown(socket.SHUT_WR)
            while line.recv(4096):
                pass
        run(["till", "--port", str(port)])
        written, errors = terminal.communicate(timeout=SECONDS)
        cause = "the other end closed the connection after 4 bytes of a message"
        rows = [{"listening": f"127.0.0.1:{port}"}, *got, {"approvals": approvals, "till": 1}, {"approvals": approvals, "failed": cause, "till": 2}, {"approvals": approvals, "till": 3}]
        hold(f"terminal {options}", first + written, "".join(text_of(row) + "\n" for row in rows))
        check(f"the end of terminal {options}", (terminal.returncode, errors), (4, f"zvt: connection failed: {cause}\n"))
        alone = run(["loop", *(f"decline:{word[4:]}:6C" if options and word.startswith("pay") else word for word in words)])
        wanted = lines_of(alone[1], step_object).replace("decline:500:6C", "pay:500")
        hold(f"till {words}", till[1], wanted)
        check(f"the end of till {words}", (till[0], till[2]), (0, ""))


# ---- documents

def documented():
    """Each object of these sections of docs/JSON.md is among those that were seen."""
    text = (TOP / "docs/JSON.md").read_text()
    for section in SECTIONS:
        part = re.search(rf"^## {section}\n(.*?)(?=^## |\Z)", text, re.M | re.S)
        shown = re.findall(r"`(\{.*?\})`", part[1]) if part else []
        if not shown:
            check.differs("docs/JSON.md", f"no object under '{section}'")
        kinds = {re.sub(r"\d+", "0", line) for line in seen}
        for line in shown:
            if re.sub(r"\d+", "0", line) not in kinds:
                check.differs("docs/JSON.md", f"no command wrote {line}")


def fits_schema():
    """How many lines were held against the schema, or why none."""
    with warnings.catch_warnings():
        warnings.simplefilter("ignore")
        try:
            import jsonschema
        except ImportError:
            return "no schema held, since python3 has no jsonschema"
    checker = jsonschema.Draft202012Validator(json.loads((TOP / "docs/zvt.schema.json").read_text()))
    some = sorted(set(seen))
    for line in some:
        if not checker.is_valid(json.loads(line)):
            check.differs("docs/zvt.schema.json", f"it refuses {line}")
    return f"{len(some)} held against the schema"


def main():
    if not os.access(PROGRAM, os.X_OK):
        print(f"answers_output: no program at {PROGRAM}: build it by 'rt run' in crates/zvt, or by 'rt ci'", file=sys.stderr)
        return 2
    chance = random.Random(SEED)
    with tempfile.TemporaryDirectory() as folder:
        hold_vectors(chance)
        hold_books(folder)
        hold_loops(chance, folder)
        hold_asks(folder)
    hold_lines()
    hold_terminals()
    documented()
    said = fits_schema()
    outcomes = {json.loads(line).get("outcome") for line in seen} - {None}
    print(f"{check.verdict}: {len(seen)} lines of vectors, books and runs, {len(outcomes)} outcomes, {said}: {check.wrong} wrong")
    return check.status


if __name__ == "__main__":
    sys.exit(main())

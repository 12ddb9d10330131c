#!/usr/bin/env python3
"""Records dialogues of `zvt till` and `zvt terminal`, and plays each side of them with `zvt play` against the other program.

    tests/play.py [PROGRAM] [DIALOGUES]

PROGRAM is the one that `rt ci` built, unless another is named. Each of 30 random dialogues, or of DIALOGUES, is recorded at
both ends. Each trace is played as a terminal against a till with the same steps, and as a till against a terminal: it ends
with status 0, and the other program with what it came to in the recording. So is each example. Then one byte of a message of
the other side is changed, and the difference is told at its line. Lost lines, waits, silence, what comes besides, and wrong words and files
follow, and a terminal and a till that pad their lengths or send messages that only the open reading passes. The status is 1 where anything is not as expected.
"""
import concurrent.futures
import pathlib
import random
import socket
import subprocess
import sys
import tempfile
import time

from common import Checks, EXAMPLES, Listener, program

PROGRAM = program(sys.argv[1:])
DIALOGUES = int(sys.argv[2]) if len(sys.argv) > 2 else 30
SECONDS = 20
REGISTRATION, REGISTERED = "06 00 06 00 00 00 BE 09 78", "80 00 00 06 0F 08 29 12 34 56 78 49 09 78"
AUTHORISATION = "06 01 07 04 00 00 00 00 10 00"
STATUS, REVERSAL = "04 0F 09 27 00 0B {} 87 {}", "06 30 06 00 00 00 87 {}"
A_MARK = "expected a mark, e.g. '#~ silent', '#~ 1500', '#~ listen 2000', '#~ bind 87 n1', '#~ same 37 n1' or '#~ use 87 n1'"
NO_FIELD = "no own line that ends with this field comes next: give one, of 258 bytes at most, e.g. '> 06 30 06 00 00 00 87 00 01'"
check, plays = Checks(), 0


def run(*words):
    done = subprocess.run([PROGRAM, *words], capture_output=True, text=True, timeout=SECONDS)
    return done.returncode, done.stdout, done.stderr


def till(port, steps, *words):
    return run("till", "--port", str(port), *words, *steps)


def play_terminal(trace, *words):
    global plays
    plays += 1
    return Listener([PROGRAM, "play", "--terminal", str(trace), "--listen", "0", *words], SECONDS)


def play_till(trace, port, *words):
    global plays
    plays += 1
    return run("play", "--till", str(trace), "--port", str(port), *words)


# ---- recorded dialogues


def random_steps(chance):
    """Steps of a till, and the words of its terminal."""
    steps, paid = ["register"], 0
    for _ in range(chance.randrange(5)):
        word = chance.choice(["pay", "pay", "pay", "reverse", "close"])
        if word == "pay":
            steps.append(f"pay:{chance.randrange(1, 10 ** chance.randrange(1, 8))}")
            paid += 1
        elif word == "reverse":
            steps.append(f"reverse:{chance.randrange(1, paid + 2)}")
        else:
            steps.append("close")
    return steps, ["--decline", f"{chance.randrange(1, 256):02X}"] if chance.random() < 0.2 else []


def record(folder, number, steps, words):
    """The traces of both ends, and what the till and the terminal came to."""
    traces = [folder / f"{number}.till", folder / f"{number}.terminal"]
    terminal = Listener([PROGRAM, "terminal", "--port", "0", "--trace", str(traces[1]), *words], SECONDS)
    paid = till(terminal.port, steps, "--trace", str(traces[0]))
    return traces, paid, terminal.ended()[0]


def plays_both(name, trace, steps, words, paid, served, reading):
    """Either side of the trace is played against the other program, which is read like this."""
    terminal = play_terminal(trace, *reading)
    check(f"{name}: the till", till(terminal.port, steps)[:2], paid[:2])
    check(f"{name}: as a terminal", terminal.ended()[:2], (0, ""))
    other = Listener([PROGRAM, "terminal", "--port", "0", *words], SECONDS)
    check(f"{name}: as a till", play_till(trace, other.port, *reading), (0, "", ""))
    check(f"{name}: the terminal", other.ended()[0], served)


def whole(sign, candidates):
    """Those of these byte strings that are whole messages."""
    text = "!\n".join(f"{sign} {data.hex()}\n" for data in candidates)
    done = subprocess.run([PROGRAM, "join"], input=text, capture_output=True, text=True, timeout=SECONDS)
    for data, rows in zip(candidates, done.stdout.split("!\n")):
        if rows.replace(f"{sign} ", "").replace("\n", "") == data.hex().upper():
            yield data


def changed(chance, trace, sign, folder):
    """The trace with one byte of a line of that side changed, so that it has whole messages still, and the line's number."""
    lines = trace.read_text().split("\n")
    at = chance.choice([at for at, line in enumerate(lines) if line.startswith(sign)])
    data = bytes.fromhex(lines[at][1:])
    places = [chance.randrange(len(data)) for _ in range(30)]
    found = [data[:place] + bytes([data[place] ^ 1 << chance.randrange(8)]) + data[place + 1:] for place in places]
    other = next(whole(sign, found))
    copy = folder / "changed.trace"
    copy.write_text("\n".join(lines[:at] + [f"{sign} {other.hex()}"] + lines[at + 1:]))
    return copy, at + 1


def differs(name, chance, trace, steps, words, folder):
    """A byte that differs is told at its line, on either side."""
    copy, line = changed(chance, trace, ">", folder)
    terminal = play_terminal(copy)
    till(terminal.port, steps)
    status, said, errors = terminal.ended()
    check(f"{name}: another till", (status, said.split("\n")[0], errors), (1, f"line {line} awaits", ""))
    copy, line = changed(chance, trace, "<", folder)
    other = Listener([PROGRAM, "terminal", "--port", "0", *words], SECONDS)
    status, said, errors = play_till(copy, other.port)
    other.ended()
    check(f"{name}: another terminal", (status, said.split("\n")[0], errors), (1, f"line {line} awaits", ""))


def recorded(folder):
    chance = random.Random(20261127)
    for number in range(DIALOGUES):
        steps, words = random_steps(chance)
        traces, paid, served = record(folder, number, steps, words)
        for trace, reading in zip(traces, chance.choice(([[], ["--open"]], [["--open"], []]))):
            name = f"{' '.join(steps + words)}, {trace.suffix}"
            plays_both(name, trace, steps, words, paid, served, reading)
            differs(name, chance, trace, steps, words, folder)


# ---- the examples of the repository


# Of each example: the words of its till, what that writes of its orders, and its total. Either side is played.
REGISTERED_LINE, FIRST = "register -> registered", "pay:1234 -> paid trace 000001 receipt 0001"
DIALOGUES_SHOWN = {
    "payment": (["register", "pay:1234"], [REGISTERED_LINE, FIRST], 1234),
    "day": (["register", "pay:1234", "pay:500", "reverse:1", "close"], [REGISTERED_LINE, FIRST, "pay:500 -> paid trace 000002 receipt 0002", "reverse:1 -> reversed", "close -> day closed"], 500),
}
# Of the messages that no program here sends, those of terminals likewise.
PAID = "pay:1234 -> paid trace 000017 receipt 0005"
OF_TERMINALS = {
    "messages/padded": (["--loose", "register", "pay:1234"], [REGISTERED_LINE, PAID], 1234),
    "messages/terminal": (["register", "pay:1234", "reverse:1", "close"], [REGISTERED_LINE, PAID, "reverse:1 -> aborted 6C abort by time-out or abort key", "close -> refused 83 function not possible"], 1234),
}
# Those of tills: how many connections they make.
OF_TILLS = {"messages/authorisation": 1, "messages/till": 1, "messages/refused": 4}


def examples():
    """Each example is played as either side, and messages that no program here sends as the side that they are of. A trace whose
    other side sends what is no message is refused before anything is opened, at that line."""
    known = EXAMPLES
    found = sorted(str(it.relative_to(known).with_suffix("")) for it in known.glob("**/*.trace"))
    check("the examples", sorted([*DIALOGUES_SHOWN, *OF_TERMINALS, *OF_TILLS]), found)
    for name, (words, wanted, total) in {**DIALOGUES_SHOWN, **OF_TERMINALS}.items():
        kit = play_terminal(known / f"{name}.trace")
        _, said, _ = till(kit.port, words)
        check(f"{name}, as the terminal", (kit.ended(), said.splitlines()), ((0, "", ""), [*wanted, f"total {total}"]))
    for name, connections in {**dict.fromkeys(DIALOGUES_SHOWN, 1), **OF_TILLS}.items():
        terminal = Listener([PROGRAM, "terminal", "--port", "0", "--connections", str(connections)], SECONDS)
        check(f"{name}, as the till", play_till(known / f"{name}.trace", terminal.port), (0, "", ""))
        terminal.ended()
    for name, side, line in (("padded", "till", 6), ("refused", "terminal", 5)):
        status, said, errors = run("play", f"--{side}", str(known / f"messages/{name}.trace"), "--port", "1")
        check(f"{name}, as the {side}", (status, said, f"line {line} of the trace: invalid at byte" in errors), (3, "", True))


# ---- single lines


def written(folder, text):
    trace = folder / "one.trace"
    trace.write_text(text)
    return trace


def connect(port):
    line = socket.create_connection(("127.0.0.1", port), SECONDS)
    line.setsockopt(socket.IPPROTO_TCP, socket.TCP_NODELAY, 1)
    return line


def send(line, digits):
    line.sendall(bytes.fromhex(digits))


def hear(name, line, digits):
    wanted, found = bytes.fromhex(digits), b""
    while len(found) < len(wanted) and (more := line.recv(len(wanted) - len(found))):
        found += more
    check(f"{name}: what is sent", found.hex(" "), wanted.hex(" "))


def as_terminal(name, folder, text, pieces, wanted, besides="", words=()):
    """Plays a terminal: pieces are sent, or heard where they begin with '<'. Then the till closes."""
    terminal = play_terminal(written(folder, text), *words)
    with connect(terminal.port) as line:
        for piece in pieces:
            if piece.startswith("<"):
                hear(name, line, piece[1:])
            else:
                send(line, piece)
        if besides:
            time.sleep(0.1)
            send(line, besides)
        try:
            line.shutdown(socket.SHUT_WR)
        except OSError:
            pass  # the player has closed at a difference
        status, said, _ = terminal.ended()
    check(name, (status, said), wanted)


def lines(folder):
    answer = f"> 0600\n< {REGISTERED}\n"
    any_line = f">\n< {REGISTERED}\n"
    heard = "< " + REGISTERED
    as_terminal("a line's beginning", folder, answer, [REGISTRATION, heard], (0, ""))
    as_terminal("the sign alone", folder, any_line, [AUTHORISATION, heard], (0, ""))
    as_terminal("a message in pieces", folder, answer, [REGISTRATION[:5], REGISTRATION[6:], heard], (0, ""))
    as_terminal("two messages at once", folder, f">\n> 06 01\n< {REGISTERED}\n", [REGISTRATION + AUTHORISATION, heard], (0, ""))
    as_terminal("another message", folder, answer, [AUTHORISATION], (1, "line 1 awaits\n> a message that begins with 0600, 2 bytes of it are given\nbut another message came\n> Authorisation\n  04 amount 1000\n"))
    as_terminal("another amount", folder, f"> {AUTHORISATION}\n", [AUTHORISATION[:-2] + "01"], (1, "line 1 awaits\n> Authorisation\n  04 amount 1000\nbut another message came\n> Authorisation\n  04 amount 1001\n"))
    as_terminal("the second of a line", folder, f"# two\n> 80 00 00 {AUTHORISATION}\n", ["80 00 00 80 00 00"], (1, "line 2 awaits\n> Authorisation\n  04 amount 1000\nbut another message came\n> Ack\n"))
    as_terminal("what comes besides, before an own line", folder, answer, [REGISTRATION + " 80 00 00"], (1, "line 2: 3 bytes came before it that the trace does not have\n"))
    as_terminal("what comes besides, at the end", folder, "> 0600\n", [REGISTRATION + " 80 00"], (1, "the end of the trace: 2 bytes came before it that the trace does not have\n"))
    as_terminal("what comes besides, after a wait", folder, answer + "#~ 400\n", [REGISTRATION, heard], (1, "the end of the trace: 10 bytes came before it that the trace does not have\n"), AUTHORISATION)
    as_terminal("what comes besides, before a lost line", folder, answer + "#~ 400\n!\n", [REGISTRATION, heard], (1, "line 4: 10 bytes came before it that the trace does not have\n"), AUTHORISATION)
    as_terminal("a till that disconnects", folder, answer + "> 06 01\n", [REGISTRATION, heard, AUTHORISATION[:8]], (1, "line 3 awaits\n> a message that begins with 0601, 2 bytes of it are given\nbut the other side closed the connection after 3 bytes of a message\n"))
    as_terminal("no message", folder, answer + ">\n", [REGISTRATION, heard, "06 01 02 FF 00"], (1, "line 3 awaits\n> any message\nbut no message begins with what came: refused at 3: UnknownField\n"))
    as_terminal("what comes after an own line may be its answer", folder, f"> 0600\n#~ 400\n< {REGISTERED}\n", [REGISTRATION], (0, ""), "80 00 00")
    as_terminal("silence", folder, "> 0600\n#~ silent\n< 80 00 00\n", [REGISTRATION, AUTHORISATION], (0, ""))
    as_terminal("a malformed own line", folder, "> 0600\n< 06 0F 01 FF 00\n", [REGISTRATION, "< 06 0F 01 FF 00"], (0, ""))


def waits(folder):
    terminal = play_terminal(written(folder, f"> 0600\n# a comment\n#~ 500\n< {REGISTERED}\n"))
    with connect(terminal.port) as line:
        send(line, REGISTRATION)
        begun = time.monotonic()
        hear("a wait", line, REGISTERED)
        check("a wait takes its time", time.monotonic() - begun >= 0.49, True)
        check("a wait", terminal.ended()[:2], (0, ""))


def lost_lines(folder):
    """`!` breaks the connection, and another one is awaited or made."""
    one = f"> {REGISTRATION}\n< {REGISTERED}\n> 80 00 00\n"
    trace = written(folder, f"!\n{one}!\n!\n{one}!\n")
    terminal = play_terminal(trace)
    for number in range(2):
        with connect(terminal.port) as line:
            send(line, REGISTRATION)
            hear(f"line {number}", line, REGISTERED)
            send(line, "80 00 00")
            check(f"line {number} is broken", line.recv(1), b"")
    check("lost lines as a terminal", terminal.ended()[:2], (0, ""))
    other = Listener([PROGRAM, "terminal", "--port", "0", "--connections", "2"], SECONDS)
    check("lost lines as a till", play_till(trace, other.port), (0, "", ""))
    check("a terminal that lost lines", other.ended()[0], 0)


# ---- numbers that were heard


def serve(door, lines):
    """Plays a terminal: hears each `>`, or as many bytes as stand after it, and sends each `<`, over one connection after another
    at each `!`. Answers what came."""
    line, heard = door.accept()[0], []
    for each in lines:
        if each == "!":
            line.close()
            line = door.accept()[0]
        elif each[0] == "<":
            send(line, each[1:])
        else:
            line.settimeout(SECONDS)
            count = len(bytes.fromhex(each[1:]))
            came = line.recv(count, socket.MSG_WAITALL) if count else line.recv(1024)
            heard.append(came.hex(" ").upper())
    time.sleep(0.1)
    line.close()
    return heard


def as_till(name, folder, trace, lines, wanted, sent, words=()):
    """What `play --till` says and sends, where a terminal sends the lines with `<`."""
    global plays
    plays += 1
    with socket.create_server(("127.0.0.1", 0)) as door, concurrent.futures.ThreadPoolExecutor(1) as pool:
        door.settimeout(SECONDS)
        served = pool.submit(serve, door, lines)
        status, said, _ = run("play", "--till", str(written(folder, trace)), "--port", str(door.getsockname()[1]), *words)
        check(name, (status, said), wanted)
        check(f"{name}: what was sent", served.result(), sent)


def numbers(folder):
    """A number that was heard is sent, and awaited, in place of the one in the trace. It outlives a lost line."""
    ask, ours = f"> {AUTHORISATION}\n<\n", REVERSAL.format("00 01")
    paid, bound = f"< {STATUS.format('00 00 51', '00 52')}", "#~ bind 0B n1\n#~ bind 87 n2\n"
    back = "< 04 0F 0A 27 00 0B 00 00 53 37 {}"
    asked, reversed_52 = AUTHORISATION, REVERSAL.format("00 52")
    take = f"#~ use 87 n2\n> {ours}\n"
    as_till("a receipt that was heard is sent", folder, ask + bound + take + f"<\n> {ours}\n", [">", paid, ">", "< 80 00 00", ">"], (0, ""), [asked, reversed_52, ours])
    as_till("and after a lost line", folder, f"{ask}{bound}!\n{take}", [">", paid, "!", ">"], (0, ""), [asked, reversed_52])
    as_till("the payment is named", folder, ask + bound + take + "<\n#~ bind 0B n3\n#~ same 37 n1\n", [">", paid, ">", back.format("00 00 51")], (0, ""), [asked, reversed_52])
    came = "but another message came\n< Status\n  27 result 00 success\n  0B trace 000053\n  37 original-trace 000050\n"
    as_till("another payment is named", folder, ask + bound + take + "<\n#~ same 37 n1\n", [">", paid, ">", back.format("00 00 50")], (1, "line 8 awaits\n< a message whose field 37 has the number n1 (000051)\n" + came), [asked, reversed_52])
    came = "but another message came\n< Status\n  27 result 00 success\n  0B trace 000051\n  87 receipt 0053\n"
    as_till("a number is given twice", folder, ask + bound + ask + "#~ bind 0B n3\n", [">", paid, ">", f"< {STATUS.format('00 00 51', '00 53')}"], (1, "line 7 awaits\n< a message whose field 0B has a number that has no name yet\n" + came), [asked, asked])
    as_till("no number", folder, ask + "#~ bind 87 n1\n", [">", "< 80 00 00"], (1, "line 3 awaits\n< a message whose field 87 has a number that has no name yet\nbut another message came\n< Ack\n"), [asked])


# ---- padded lengths


def padded(folder):
    """With `--loose` the other side may pad its lengths, in the trace and on the line. Bytes are compared as they are."""
    trace = (EXAMPLES / "messages/padded.trace").read_text()
    pieces = [line for line in trace.splitlines() if line[:1] in ("<", ">")]
    ours = [line[2:] for line in pieces if line[0] == ">"]
    as_till("a terminal that pads", folder, trace, pieces, (0, ""), ours, ["--loose"])
    ack, asked = "< 80 00 FF 00 00", f"> {AUTHORISATION}\n"
    refused = "line 2 awaits\n< any message\nbut no message begins with what came: refused at 4: NotShortest\n"
    as_till("a strict player, and any message", folder, asked + "<\n", [">", ack], (1, refused), [AUTHORISATION])
    as_till("a loose player, and any message", folder, asked + "<\n", [">", ack], (0, ""), [AUTHORISATION], ["--loose"])
    as_till("a padded message in pieces", folder, asked + ack, [">", ack[:7], f"<{ack[7:]}"], (0, ""), [AUTHORISATION], ["--loose"])
    as_till("what follows a padded message", folder, f"{asked}{ack} 06 0F\n", [">", f"{ack} 06 0F FF 00 00"], (0, ""), [AUTHORISATION], ["--loose"])
    another = "line 2 awaits\n< Ack\nbut another message came\n< Ack\n"
    as_till("another form of length", folder, asked + "< 80 00 00\n", [">", ack], (1, another), [AUTHORISATION], ["--loose"])
    as_till("and the other way round", folder, asked + ack, [">", "< 80 00 00"], (1, another), [AUTHORISATION], ["--loose"])
    bound = f"{asked}<\n#~ bind 87 n2\n#~ use 87 n2\n> {REVERSAL.format('00 01')}\n"
    paid = "< 04 0F FF 09 00 27 00 0B 00 00 51 87 00 52"
    as_till("a number in a padded message", folder, bound, [">", paid, ">"], (0, ""), [AUTHORISATION, REVERSAL.format("00 52")], ["--loose"])
    situation = written(folder, f"> {AUTHORISATION}\n< 80 00 00\n> 80 00\n< 06 1E 01 6C\n")
    for words, status, verdict in ((["--loose"], 0, "ok"), ([], 1, "not ok")):
        till_side = Listener([PROGRAM, "check-till", "--listen", "0", *words, str(situation)], SECONDS)
        with connect(till_side.port) as line:
            send(line, AUTHORISATION)
            hear("a situation", line, "80 00 00")
            send(line, "80 00 FF 00 00")
            if not status:
                hear("a situation", line, "06 1E 01 6C")
                line.shutdown(socket.SHUT_WR)
            found = till_side.ended()
            check(f"check-till {words}", (found[0], f"{verdict} 1 - one\n" in found[1]), (status, True))
        with socket.create_server(("127.0.0.1", 0)) as door, concurrent.futures.ThreadPoolExecutor(1) as pool:
            door.settimeout(SECONDS)
            served = pool.submit(serve, door, [">", ack])
            asks = folder / "asks.trace"
            asks.write_text(asked + "<\n")
            found = run("check-terminal", "--port", str(door.getsockname()[1]), *words, str(asks))
            check(f"check-terminal {words}", (found[0], f"{verdict} 1 - asks\n" in found[1], served.result()), (status, True, [AUTHORISATION]))
    # Nothing listens at port 1: a strict player refuses the file before it connects.
    for words, status, said in (([], 3, "line 6 of the trace: invalid at byte 4 (NotShortest)"), (["--loose"], 4, "connection refused")):
        found = run("check-terminal", "--port", "1", *words, str(EXAMPLES / "messages/padded.trace"))
        check(f"check-terminal {words} of a padded file", (found[0], said in found[2]), (status, True))


# ---- the open reading


def refused(folder):
    """With `--open`, a refused message is sent, awaited and compared byte for byte, and named where it differs. None of its data
    is told. Without `--open`, the trace or the line is refused."""
    ask, answer, ack, ours = "05 01 03 00 00 00", "06 0F 04 F0 F0 F0 00", "80 00 00", [">"]
    asked, awaits, came = f"> {ask}\n", "line 2 awaits\n< ", "but another message came\n< "
    completion, status = "unread 060F, 7 bytes, refused at 3: UnknownField\n", "unread 040F, 13 bytes, refused at 11: UnknownField\n"
    card = "04 0F 0A 22 F0 F5 67 26 50 {} 34 D0 00"

    def plays(name, awaited, served, wanted, words=("--open",), more="", sent=()):
        as_till(f"{name} {' '.join(words)}", folder, f"{asked}<{awaited}\n{more}", [">", *served], wanted, [ask, *sent], words)

    plays("a refused message", answer, ["<" + answer, ">"], (0, ""), more=f"> {ack}\n", sent=[ack])
    plays("in pieces", answer, ["< 06 0F", "< 04 F0", "< F0 F0 00"], (0, ""))
    plays("after a message", f"{ack} {answer} 04", [f"< {ack} {answer} 04 0F 00"], (0, ""))
    plays("its beginning", "06 0F 04", ["<" + answer], (0, ""))
    plays("any message", "", ["<" + answer], (0, ""))
    plays("another byte", answer, ["< 06 0F 04 F0 F0 F0 01"], (1, awaits + completion + came + completion))
    plays("a message in its place", answer, ["< " + ack], (1, awaits + completion + came + "Ack\n"))
    plays("in place of a message", ack, ["<" + answer], (1, awaits + "Ack\n" + came + completion))
    plays("another card", card.format("12"), ["<" + card.format("13")], (1, awaits + status + came + status))
    plays("after one that agrees", f"{answer} {ack}", [f"< {answer} {answer}"], (1, awaits + "Ack\n" + came + completion))
    plays("a broken one", answer, ["< 06 0F 04 F0 F0"], (1, awaits + completion + "but the other side closed the connection after 5 bytes of a message\n"))
    plays("the beginning of one", "06 0F 04 F0 F0", ["< " + ack], (1, awaits + "a message that begins with 060F, 5 bytes of it are given\n" + came + "Ack\n"))
    padded, none = "80 00 FF 00 00", "unread 8000, 5 bytes, refused at 4: NotShortest\n"
    plays("padded lengths", ack, ["< " + padded], (1, awaits + "Ack\n" + came + none))
    plays("padded lengths", ack, ["< " + padded], (1, awaits + "Ack\n" + came + "Ack\n"), ["--open", "--loose"])
    numbered = "04 0F 05 87 00 52 D0 00"
    named = "line 3 awaits\n< a message whose field 87 has a number that has no name yet\n" + came + "unread 040F, 8 bytes, refused at 6: UnknownField\n"
    plays("a number", "", ["<" + numbered], (1, named), more="#~ bind 87 n1\n")
    strictly = "but no message begins with what came: refused at 3: UnknownField\n"
    plays("a strict player", "", ["<" + answer], (1, awaits + "any message\n" + strictly), [])
    # An own line is sent as it stands, by either reading, and as either side.
    strange = "06 30 09 12 34 56 D0 00 87 00 01 FF"
    for words in ([], ["--open"]):
        as_till(f"an own refused message {words}", folder, f"> {strange}\n", [">"], (0, ""), [strange], words)
        as_terminal(f"the same of a terminal {words}", folder, f"> {ack}\n< {answer}\n", [ack, "<" + answer], (0, ""), words=words)
    another = f"line 1 awaits\n> {completion}but another message came\n> {completion}"
    as_terminal("a till's refused message", folder, f"> {answer}\n< {ack}\n", [answer, "< " + ack], (0, ""), words=["--open"])
    as_terminal("and another", folder, f"> {answer}\n", ["06 0F 04 F0 F0 F0 01"], (1, another), words=["--open"])
    # Nothing listens at port 1: the file is read before a connection is made.
    trace = str(written(folder, f"{asked}< {answer}\n"))
    for command in (["play", "--till", trace], ["check-terminal", trace]):
        for words, status, said in (([], 3, "line 2 of the trace: invalid at byte 3 (UnknownField)"), (["--open"], 4, "connection refused")):
            found = run(*command, "--port", "1", *words)
            check(f"{command[0]} {words}, a file", (found[0], said in found[2]), (status, True))


def judged(folder):
    """With `--open`, a situation may await a refused message. One that it does not await is named, and the line is not lost."""
    answer, ack, strange = "06 0F 04 F0 F0 F0 00", "80 00 00", "06 01 03 D0 00 00"
    refused, unread = "# but no message begins with what came: refused at 3: UnknownField\n", "# > unread 0601, 6 bytes, refused at 3: UnknownField\n"
    for name, awaited, words, status, said in (
        ("awaited", strange, ["--open"], 0, "ok 1 - one\n"), ("not awaited", "06 00", ["--open"], 1, unread), ("a strict kit", "06 00", [], 1, refused),
    ):
        kit = Listener([PROGRAM, "check-till", "--listen", "0", *words, str(written(folder, f"> {awaited}\n< 84 83 00\n"))], SECONDS)
        with connect(kit.port) as line:
            send(line, strange)
            if not status:
                hear(f"a till's refused message, {name}", line, "84 83 00")
            line.shutdown(socket.SHUT_WR)
            found = kit.ended()
        check(f"a till's refused message, {name}", (found[0], said in found[1]), (status, True))
    unread = unread.replace("> unread 0601, 6", "< unread 060F, 7")
    for name, awaited, words, status, said in (
        ("awaited", answer, ["--open"], 0, "ok 1 - one\n"), ("not awaited", ack, ["--open"], 1, unread), ("a strict kit", ack, [], 1, refused),
    ):
        with socket.create_server(("127.0.0.1", 0)) as door, concurrent.futures.ThreadPoolExecutor(1) as pool:
            door.settimeout(SECONDS)
            served = pool.submit(serve, door, [">", "<" + answer])
            found = run("check-terminal", "--port", str(door.getsockname()[1]), *words, str(written(folder, f"> {AUTHORISATION}\n< {awaited}\n")))
            check(f"a terminal's refused message, {name}", (found[0], said in found[1], served.result()), (status, True, [AUTHORISATION]))


def alike(folder):
    """Where nothing is refused, an open play says and sends what a strict one does: also where a message differs, is missing or
    breaks off, and where one comes besides."""
    chance = random.Random(20261129)
    messages = sorted({line[2:] for path in EXAMPLES.glob("**/*.trace") for line in path.read_text().splitlines() if line[:2] == "< "})
    messages = [data.hex() for data in whole("<", [bytes.fromhex(each) for each in messages])]
    ends = set()
    for number in range(40):
        awaited, served = [], []
        for _ in range(chance.randint(1, 4)):
            message = chance.choice(messages)
            awaited.append(message[:2 * chance.randint(0, len(message) // 2)] if chance.random() < 0.3 else message)
            served.append(chance.choice(messages) if chance.random() < 0.15 else message)
        if chance.random() < 0.2:
            served.append(chance.choice(messages))
        if chance.random() < 0.2:
            served[-1] = served[-1][:2 * chance.randrange(1, len(served[-1]) // 2)]
        trace = written(folder, f"> {AUTHORISATION}\n" + "".join(f"< {each}\n" for each in awaited))
        found = []
        for words in ([], ["--open"]):
            with socket.create_server(("127.0.0.1", 0)) as door, concurrent.futures.ThreadPoolExecutor(1) as pool:
                door.settimeout(SECONDS)
                heard = pool.submit(serve, door, [">", "<" + "".join(served)])
                found.append((play_till(trace, door.getsockname()[1], *words), heard.result()))
        check(f"an open play, {number}", found[1], found[0])
        ends.add(found[0][0][0])
    check("how these plays end", ends, {0, 1})


# ---- wrong words and files


def wrong(folder):
    trace, port = str(written(folder, "> 0600\n")), "20007"
    for words in (
        [], ["--till", trace], ["--port", port], ["--till", trace, "--terminal", trace, "--port", port],
        ["--till", trace, "--port", port, "--listen", "0"], ["--till", trace, "--port", "0"],
    ):
        status, said, errors = run("play", *words)
        check(f"wrong words {words}", (status, said, errors.startswith("zvt: ") or errors.startswith("error: ")), (2, "", True))
    for text, wanted in (
        ("This is no trace\n", "line 1 of the trace: expected '>' or '<'"),
        ("# one\n< 0\n", "line 2 of the trace: expected two hexadecimal digits"),
        ("> 0600\n\n< 80 00 00 06 0F 02 FF 00\n", "line 3 of the trace: invalid at byte 6 (UnknownField)"),
        ("#~ soon\n", f"line 1 of the trace: {A_MARK}"),
        ("#~ 12345678\n", f"line 1 of the trace: {A_MARK}"),
        ("<\n#~ bind 04 n1\n", f"line 2 of the trace: {A_MARK}"),
        ("<\n#~ bind 87 n100\n", f"line 2 of the trace: {A_MARK}"),
        ("<\n#~ bind 87\n", f"line 2 of the trace: {A_MARK}"),
        ("#~ bind 87 n1\n<\n", "line 1 of the trace: there is no message to look at: put this mark right after a line of the other side"),
        ("<\n> 80 00 00\n#~ bind 87 n1\n", "line 3 of the trace: there is no message to look at: put this mark right after a line of the other side"),
        ("<\n# one\n#~ bind 87 n1\n<\n#~ bind 0B n1\n", "line 5 of the trace: the name is bound before: take another, of n0 to n99"),
        ("#~ use 87 n1\n> 87 00 01\n<\n#~ bind 87 n1\n", "line 1 of the trace: the name is not bound before: write e.g. '#~ bind 87 n1' after the line whose message has the number"),
        ("<\n#~ same 37 n1\n", "line 2 of the trace: the name is not bound before: write e.g. '#~ bind 87 n1' after the line whose message has the number"),
        ("<\n#~ bind 87 n1\n#~ same 37 n1\n", "line 3 of the trace: the named number has another size: fields 0B and 37 have three bytes, and field 87 has two"),
        ("<\n#~ bind 87 n1\n#~ use 87 n1\n> 06 30 06 00 00 00 37 00 01\n", f"line 3 of the trace: {NO_FIELD}"),
        ("<\n#~ bind 87 n1\n#~ use 87 n1\n<\n", f"line 3 of the trace: {NO_FIELD}"),
        ("<\n#~ bind 87 n1\n#~ use 87 n1\n", f"line 3 of the trace: {NO_FIELD}"),
    ):
        # Nothing listens at port 1: the file is read before a connection is made.
        status, said, errors = run("play", "--till", str(written(folder, text)), "--port", "1")
        check(f"the file {text!r}", (status, said, wanted in errors), (3, "", True))
    for path in (folder / "missing", folder):
        status, said, errors = run("play", "--till", str(path), "--port", "1")
        check(f"the file {path.name}", (status, said, errors.startswith("zvt: ")), (4, "", True))
    status, said, errors = run("play", "--till", str(written(folder, "> 0600\n")), "--port", "1")
    check("no other side", (status, said, "connection refused" in errors), (4, "", True))


with tempfile.TemporaryDirectory() as name:
    folder = pathlib.Path(name)
    recorded(folder)
    examples()
    lines(folder)
    waits(folder)
    lost_lines(folder)
    numbers(folder)
    padded(folder)
    refused(folder)
    judged(folder)
    alike(folder)
    wrong(folder)
print(f"{check.wrong} not as expected" if check.failed else f"ok: {plays} plays, {2 * DIALOGUES} traces on either side")
sys.exit(check.status)

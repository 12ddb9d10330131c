#!/usr/bin/env python3
"""Sends `zvt serve` the requests that shops send: repeats, two at once, the wrong key, no terminal, a broken line, slow clients.
Looks too whether the till asks by itself, and at its trace, its events and earlier books.

serve_cases.py [PROGRAM]: the program of `rt ci` without a word. The status is 1 where an answer is not as expected.
"""
import http.client
import json
import pathlib
import socket
import subprocess
import sys
import tempfile
import threading
import time

from common import Checks, program
from serving import APPROVED, PAY, REPEAT, Service, Terminal

ZVT = program(sys.argv[1:])
KEY = "sale-2026-{:06d}".format
check = Checks()


class Repeating(Terminal):
    """A terminal that repeats its last transaction when it is asked, after a moment. If it breaks the line in a payment, it has
    taken the payment."""

    def __init__(self, **how):
        self.last, self.asks, self.messages = None, 0, 0
        super().__init__(**how)

    def hear(self, line, message):
        self.messages += 1
        if message[:2] == REPEAT:
            self.asks += 1
            time.sleep(self.delay)
            line.sendall(b"\x80\x00\x00" + self.last + b"\x06\x0f\x00" if self.last else b"\x84\x83\x00")
            return True
        if message[:2] != PAY:
            return super().hear(line, message)
        self.orders.append(message)
        self.count += 1
        words = dict(amount=message[4:10].hex(), trace=self.count, receipt=self.count)
        self.last = bytes.fromhex(APPROVED.format(size=len(bytes.fromhex(APPROVED.format(size=0, **words))) - 3, **words))
        line.sendall(b"\x80\x00\x00" + (b"" if self.breaks else self.last + b"\x06\x0f\x00"))
        return not self.breaks


def together(*calls):
    """What these calls give, made at once."""
    found = [None] * len(calls)

    def one(at, call):
        found[at] = call()

    threads = [threading.Thread(target=one, args=(at, call)) for at, call in enumerate(calls)]
    for it in threads:
        it.start()
    for it in threads:
        it.join()
    return found


def summary(answer):
    return answer and (answer.status, (answer.json or {}).get("outcome") or (answer.json or {}).get("error"))


def without_a_terminal(folder):
    with socket.create_server(("127.0.0.1", 0)) as free:
        port = free.getsockname()[1]
    service = Service(ZVT, folder, port)
    answer = service.pay(KEY(1), 500)
    check("without a terminal nothing is sent", (answer.status, answer.json["error"], answer.json["sent"], "Retry-After" in answer.headers), (503, "no_terminal", False, True))
    check("and the key is free", service.call("GET", f"/payments/{KEY(1)}").status, 404)
    return service, port


def with_a_terminal(service, port):
    terminal = Terminal(delay=1.0, port=port)
    answer = service.until((200,), KEY(1), 500)
    check("the same request pays once there is a terminal", summary(answer), (200, "paid"))
    check("its members", sorted(answer.json), ["amount", "key", "order", "outcome", "receipt", "reversed", "trace"])
    check("it is the first answer", answer.headers.get("Idempotent-Replayed"), None)
    again = service.pay(KEY(1), 500)
    check("a repeat has the same answer", (again.status, again.text, again.headers.get("Idempotent-Replayed")), (200, answer.text, "true"))
    check("another amount under the key", summary(service.pay(KEY(1), 501)), (422, "key_reused"))
    pay = lambda: service.pay(KEY(2), 700)
    look = lambda: (time.sleep(0.4), service.call("GET", f"/payments/{KEY(2)}"))[1]
    other = lambda: (time.sleep(0.5), service.pay(KEY(3), 800))[1]
    one, two, looked, busy = together(pay, pay, look, other)
    check("two requests with one key at once", (summary(one), summary(two), one.text == two.text), ((200, "paid"), (200, "paid"), True))
    check("looked at while it runs", summary(looked), (202, "running"))
    check("another key meanwhile", (summary(busy), busy.headers.get("Retry-After")), ((409, "busy"), "1"))
    check("and nothing was recorded for it", service.call("GET", f"/payments/{KEY(3)}").status, 404)
    answer = service.call("POST", "/payments", KEY(4), {"amount": 900}, Prefer="respond-async")
    check("an answer that does not wait", (answer.status, answer.headers.get("Location")), (202, f"/payments/{KEY(4)}"))
    service.pay(KEY(4), 900)
    check("orders at the terminal", len(terminal.orders), 3)
    gone = service.pay(KEY(5), 1000, seconds=0.3)
    check("a client that goes away has no answer", gone, None)
    check("and its order goes on", summary(service.until((200,), KEY(5), 1000)), (200, "paid"))
    check("once", len(terminal.orders), 4)
    terminal.stop()
    terminal = Terminal(delay=0.3, breaks=True, port=port)
    broken = service.until((424,), KEY(6), 1100)
    check("a line that breaks", (summary(broken), broken.json.get("cause"), "advice" in broken.json), ((424, "unclear"), "Line", True))
    check("is never tried again", (summary(service.pay(KEY(6), 1100)), len(terminal.orders)), ((424, "unclear"), 1))
    terminal.stop()


def settled_in(service):
    """What the book says of unclear orders that an answer of the terminal settled."""
    lines = [json.loads(line) for line in service.call("GET", "/book").text.splitlines()]
    return [line["settled"]["name"] for line in lines if "settled" in line]


def asked_by_itself(folder):
    folder.mkdir()
    terminal = Repeating(delay=0.5)
    service = Service(ZVT, folder, terminal.port)
    check("an order that comes while the till asks is held", (summary(service.pay(KEY(1), 500)), terminal.asks), ((200, "paid"), 1))
    terminal.breaks = True
    check("a line that breaks after the terminal took a payment", summary(service.pay(KEY(2), 600)), (424, "unclear"))
    terminal.breaks = False
    check("the next order waits for the new line", summary(service.until((200,), KEY(3), 700)), (200, "paid"))
    check("on which the till asked once, before it", (terminal.asks, settled_in(service)), (2, ["Paid"]))
    found = service.call("GET", f"/payments/{KEY(2)}")
    check("the answer for the key is what was settled", (summary(found), found.json.get("settled")), ((200, "paid"), True))
    earlier = terminal
    earlier.stop()
    terminal = Repeating(port=earlier.port)
    terminal.last, terminal.count = earlier.last, earlier.count
    check("on a line to which an answer is of no use", summary(service.until((200,), KEY(4), 800)), (200, "paid"))
    check("it does not ask", terminal.asks, 0)
    service.call("POST", "/stop")
    check("it stops", service.ended(), 0)
    terminal.stop()


class Listening(threading.Thread):
    """A client that reads the events of a service, from the oldest that is kept."""

    def __init__(self, service):
        super().__init__(daemon=True)
        self.line = http.client.HTTPConnection("127.0.0.1", service.port, timeout=30)
        self.line.request("GET", "/events", headers={"Authorization": f"Bearer {service.token}", "Last-Event-ID": "0"})
        self.lines = []
        self.start()

    def run(self):
        try:
            for line in self.line.getresponse():
                if line.startswith(b"data: "):
                    self.lines.append(line[6:].decode())
        except (OSError, http.client.HTTPException):
            pass

    def heard(self, wanted, seconds=30):
        """Whether an event with these members has come, or comes in that time."""
        end = time.monotonic() + seconds
        while time.monotonic() < end:
            if any(wanted.items() <= json.loads(line).items() for line in list(self.lines)):
                return True
            time.sleep(0.02)
        return False


class Told(Service):
    """A service whose reports on standard error are kept, and whose files cannot grow beyond a limit."""

    def __init__(self, *words, limit=None):
        self.limit = limit
        super().__init__(*words)

    def start(self):
        if self.limit:
            self.words = ["sh", "-c", 'trap "" XFSZ; exec prlimit --fsize="$0" "$@"', self.limit, *self.words]
        super().start()

    def ended(self, seconds=60):
        self.said = self.process.communicate(timeout=seconds)[1].decode()
        return self.process.returncode


def listened(folder):
    """Messages among the events, and the trace of the line."""
    folder.mkdir()
    trace, terminal = folder / "line.trace", Repeating(delay=0.2)
    service = Service(ZVT, folder, terminal.port, "--trace", trace, "--no-times")
    listening = Listening(service)
    service.pay(KEY(1), 500)
    terminal.breaks = True
    service.pay(KEY(2), 600)
    terminal.breaks = False
    service.until((200,), KEY(3), 700)
    check("a listener is told of the last end", listening.heard({"key": KEY(3), "outcome": "paid"}), True)
    service.call("POST", "/stop")
    check("it stops", service.ended(), 0)
    shown = subprocess.run([ZVT, "show", "--json", trace], capture_output=True, text=True).stdout.splitlines(True)
    ends = [json.loads(line) for line in listening.lines if line.startswith('{"key"')]
    check("the ends of orders", [(end["key"], end["outcome"]) for end in ends], [(KEY(1), "paid"), (KEY(2), "unclear"), (KEY(3), "paid")])
    messages = [line for line in listening.lines if not line.startswith('{"key"')]
    check("the messages are those of the trace, but for the last loss", messages, shown[:-1])
    check("among them the lost line", [json.loads(line).get("lost") for line in shown].count(True), 2)
    lines = len(trace.read_text().splitlines())
    service = Service(ZVT, folder, terminal.port, "--trace", trace)
    service.until((200,), KEY(4), 800)
    service.call("POST", "/stop")
    service.ended()
    added = trace.read_text().splitlines()[lines:]
    check("a trace goes behind what the file has, with time marks", (added[0], added[1][:3], added[2][:6]), ("!", "#@ ", "> 0600"))
    terminal.stop()
    return trace.read_text()


def broken_traces(folder, sound):
    """Traces that cannot be written, from the beginning or in an order. `sound` is the trace of a sound service."""
    folder.mkdir()
    terminal = Repeating()
    wrong = [ZVT, "serve", "--port", "0", "--terminal", f"127.0.0.1:{terminal.port}", "--book", folder / "day.book", "--token-file", folder / "till.token", "--trace"]
    for name, trace, status, words in [("a trace in no folder", folder / "none" / "line.trace", 4, "cannot create the trace file"), ("the book as trace", folder / "day.book", 2, "name the same file")]:
        ended = subprocess.run([*wrong, trace], capture_output=True, text=True, timeout=60)
        check(name, (ended.returncode, ended.stdout, words in ended.stderr), (status, "", True))
    service = Told(ZVT, folder, terminal.port, "--trace", "/dev/full")
    check("a trace on a full device ends the service", (service.ended(), "cannot write the trace file" in service.said), (4, True))
    check("and nothing is sent", terminal.messages, 0)
    before = sound.index("\n", sound.index("> 0601")) + 1
    trace = folder / "line.trace"
    trace.write_text("# a long trace\n" * 20_000)
    service = Told(ZVT, folder, terminal.port, "--trace", trace, "--no-times", limit=trace.stat().st_size + len("!\n") + before + 20)
    check("a trace that ends in an order makes the order unclear", summary(service.pay(KEY(1), 500)), (424, "unclear"))
    check("and ends the service", (service.ended(), "cannot write the trace file" in service.said, f"'{KEY(1)}': the order with this key is unclear" in service.said), (4, True, True))
    check("the trace ends with a whole line", trace.read_text()[-1], "\n")
    terminal.stop()


def earlier_books(folder):
    """A service that is given the books of earlier days."""
    for day in ("one", "two", "three", "wrong"):
        (folder / day).mkdir(parents=True)
    terminal = Repeating()
    first = Service(ZVT, folder / "one", terminal.port)
    paid = first.until((200,), KEY(1), 500)
    first.call("POST", "/stop")
    first.ended()
    second = Service(ZVT, folder / "two", terminal.port, "--earlier", first.book)
    again = second.pay(KEY(1), 500)
    check("a key of yesterday's book has yesterday's answer", (again.status, again.text, again.headers.get("Idempotent-Replayed")), (200, paid.text, "true"))
    check("another amount under it", summary(second.pay(KEY(1), 501)), (422, "key_reused"))
    check("looked up", second.call("GET", f"/payments/{KEY(1)}").text, paid.text)
    back = second.call("POST", f"/payments/{KEY(1)}/reversal", KEY(2))
    check("a payment of yesterday's book cannot be taken back", (summary(back), back.json["sent"]), ((409, "other_book"), False))
    check("a new key is paid", summary(second.until((200,), KEY(3), 700)), (200, "paid"))
    check("the book of the day has that alone", [json.loads(line).get("total") for line in second.call("GET", "/book").text.splitlines()][-1], 700)
    second.call("POST", "/stop")
    second.ended()
    third = Service(ZVT, folder / "three", terminal.port, "--earlier", first.book, "--earlier", second.book)
    check("two earlier books", [summary(third.pay(KEY(at), amount)) for at, amount in [(1, 500), (3, 700)]], [(200, "paid")] * 2)
    check("and nothing is sent for their keys", len(terminal.orders), 2)
    third.call("POST", "/stop")
    third.ended()
    wrong, messages = folder / "wrong", terminal.messages
    (wrong / "no.book").write_text("day one\n")
    (wrong / "damaged.book").write_text(first.book.read_text().replace("# pay 500", "# pay 5"))
    words = [ZVT, "serve", "--port", "0", "--terminal", f"127.0.0.1:{terminal.port}", "--book", wrong / "day.book", "--token-file", wrong / "till.token"]
    for name, file, status in [("a missing earlier book", "none.book", 4), ("an earlier book that is none", "no.book", 3), ("a damaged earlier book", "damaged.book", 3), ("the book as an earlier one", "day.book", 2)]:
        ended = subprocess.run([*words, "--earlier", first.book, "--earlier", wrong / file], capture_output=True, text=True, timeout=60)
        check(name, (ended.returncode, ended.stdout, f"zvt: '{wrong / file}': " in ended.stderr), (status, "", True))
    check("no book is begun, and nothing is sent", ((wrong / "day.book").exists(), terminal.messages), (False, messages))
    terminal.stop()


def refused(service):
    for name, wanted, how in [
        ("no token", (401, "token"), dict(Authorization=None)),
        ("another token", (401, "token"), dict(Authorization="Bearer " + "0" * 64)),
        ("a prefix of the token", (401, "token"), dict(Authorization=f"Bearer {service.token[:-1]}")),
        ("another host", (421, "host"), dict(Host="evil.example")),
        ("another origin", (403, "origin"), dict(Origin="http://evil.example")),
    ]:
        check(name, summary(service.pay(KEY(9), 100, **how)), wanted)
    for name, wanted, key, body in [
        ("no key", (400, "bad_key"), None, {"amount": 1}),
        ("a short key", (400, "bad_key"), "sale-1", {"amount": 1}),
        ("no JSON", (400, "bad_body"), KEY(9), b"{"),
        ("no amount", (400, "bad_body"), KEY(9), {}),
        ("an amount of 0", (422, "bad_amount"), KEY(9), {"amount": 0}),
        ("a long body", (413, "too_long"), KEY(9), b" " * 5000),
        ("another currency", (422, "other_currency"), KEY(9), {"amount": 1, "currency": "0756"}),
    ]:
        check(name, summary(service.call("POST", "/payments", key, body)), wanted)
    check("an unknown path", summary(service.call("GET", "/payment")), (404, "not_found"))
    check("another method", (service.call("DELETE", "/payments").status, service.call("DELETE", "/payments").headers.get("Allow")), (405, "POST"))
    check("a key that nobody used", service.call("GET", f"/payments/{KEY(99)}").status, 404)


def slow_clients(service, port):
    terminal = Terminal(port=port)
    slow = []
    for _ in range(200):
        line = socket.socket()
        line.settimeout(1)
        try:
            line.connect(("127.0.0.1", service.port))
            line.sendall(b"G")
        except OSError:
            pass
        slow.append(line)
    began = time.monotonic()
    while True:
        answer = service.call("GET", "/book", seconds=5)
        if answer and answer.status == 200 or time.monotonic() - began > 20:
            break
    check("200 slow clients delay an honest one by less than 5 seconds, on a busy machine too", time.monotonic() - began < 5, True)
    for line in slow:
        line.close()
    terminal.stop()


def main():
    with tempfile.TemporaryDirectory() as folder:
        asked_by_itself(pathlib.Path(folder) / "asked")
        broken_traces(pathlib.Path(folder) / "broken", listened(pathlib.Path(folder) / "listened"))
        earlier_books(pathlib.Path(folder) / "earlier")
        service, port = without_a_terminal(pathlib.Path(folder))
        with_a_terminal(service, port)
        refused(service)
        slow_clients(service, port)
        answer = service.call("POST", "/stop")
        check("it stops", (answer and answer.status, service.ended()), (202, 0))
    print(f"{check.verdict}: {check.count} answers of zvt serve")
    return check.status


if __name__ == "__main__":
    sys.exit(main())

#!/usr/bin/env python3
"""Sends `zvt serve` HTTP as it comes off a wire: cut at each byte, cut off there, malformed, pipelined, and by clients that
retry or give up.

serve_http.py [PROGRAM]: the program of `rt ci` without a word. The status is 1 where a request that is sent in two pieces is answered
otherwise than whole, where one that was not whole or not valid reached the terminal, or where an answer has another status than
docs/SERVE.md says. Without curl or the module requests, their clients are left out.
"""
import concurrent.futures
import json
import pathlib
import shutil
import socket
import struct
import subprocess
import sys
import tempfile
import threading
import time

from common import Checks, program
from serving import NAMES, Answer, Moody, Service, Terminal

try:
    import requests
    import urllib3
except ImportError:
    requests = None

ZVT = program(sys.argv[1:])
TOGETHER = 24  # connections at a time, fewer than the service has places for
PAUSE = 0.003  # between two pieces of a request
LONGEST_BODY, LONGEST_HEAD, MOST_HEADERS = 4096, 8192, 64
check = Checks()


class Wire:
    """A connection on which bytes are sent as they are."""

    def __init__(self, service, seconds=20):
        self.line = socket.create_connection(("127.0.0.1", service.port), timeout=seconds)
        self.line.setsockopt(socket.IPPROTO_TCP, socket.TCP_NODELAY, 1)
        self.held = b""

    def send(self, data):
        try:
            self.line.sendall(data)
        except OSError:
            pass  # (the service has answered, and closed)

    def more(self):
        try:
            piece = self.line.recv(65536)
        except OSError:
            piece = b""
        self.held += piece
        return piece

    def answer(self):
        """The next answer, after any `100 Continue`, or None if the connection ends before."""
        while b"\r\n\r\n" not in self.held:
            if not self.more():
                return None
        head, _, self.held = self.held.partition(b"\r\n\r\n")
        first, *lines = head.decode("latin-1").split("\r\n")
        headers = {name.lower(): value.strip() for name, _, value in (line.partition(":") for line in lines)}
        status = int(first.split(" ")[1])
        if status == 100:
            return self.answer()
        size = int(headers.get("content-length", 0))
        while len(self.held) < size:
            if not self.more():
                return None
        body, self.held = self.held[:size], self.held[size:]
        return Answer(status, headers, body)

    def ends(self):
        """Whether the service closes the connection."""
        while self.more():
            pass
        return True

    def close(self, resets=False):
        if resets:
            self.line.setsockopt(socket.SOL_SOCKET, socket.SO_LINGER, struct.pack("ii", 1, 0))
        self.line.close()


def request(service, line, body=None, **headers):
    """The bytes of a request as a client sends it."""
    words = {"Host": f"127.0.0.1:{service.port}", "Authorization": f"Bearer {service.token}"}
    if body is not None:
        words["Content-Length"] = len(body)
    words.update({name.replace("_", "-"): value for name, value in headers.items()})
    head = "".join(f"{name}: {value}\r\n" for name, value in words.items() if value is not None)
    return f"{line} HTTP/1.1\r\n{head}\r\n".encode("latin-1") + (body or b"")


def payment(service, key, amount=100, line="POST /payments", **headers):
    return request(service, line, json.dumps({"amount": amount}).encode(), Idempotency_Key=key, **headers)


def summary(answer):
    return answer and (answer.status, (answer.json or {}).get("outcome") or (answer.json or {}).get("error"))


# ---- requests that are cut

def in_pieces(service, whole, cuts):
    """What the service answers to a request in two pieces, for each cut. Several connections are open at a time."""
    answers = []
    for at in range(0, len(cuts), TOGETHER):
        wires = [Wire(service) for _ in cuts[at:at + TOGETHER]]
        for wire, cut in zip(wires, cuts[at:]):
            wire.send(whole[:cut])
        time.sleep(PAUSE)
        for wire, cut in zip(wires, cuts[at:]):
            wire.send(whole[cut:])
        answers += [wire.answer() for wire in wires]
        for wire in wires:
            wire.close()
    return answers


def shown(answer):
    """All of an answer but its date, if it has one."""
    return answer and (answer.status, {name: value for name, value in answer.headers.items() if name != "date"}, answer.text)


def cut_requests(service, terminal):
    """Requests that change nothing, each cut at each byte. Returns how many answers were compared."""
    check("a payment for the repeats", summary(service.pay("cut-requests-0001", 1234)), (200, "paid"))
    orders, count = len(terminal.orders), 0
    padded = b'{"amount":1234' + b" " * (LONGEST_BODY - 15) + b"}"
    chunked = b"7\r\n" + padded[:7] + b"\r\n5;x=y\r\n" + padded[7:12] + b"\r\n3\r\n34}\r\n0\r\nNote: end\r\n\r\n"
    for name, whole in [
        ("a look", request(service, "GET /payments/cut-requests-0001")),
        ("a book", request(service, "GET /book")),
        ("the page", request(service, "GET /", Authorization=None)),
        ("a wrong token", payment(service, "cut-requests-0002", Authorization="Bearer 1")),
        ("another amount", payment(service, "cut-requests-0001", 1235)),
        ("a repeat", payment(service, "cut-requests-0001", 1234)),
        ("a repeat in chunks", request(service, "POST /payments", chunked, Content_Length=None, Transfer_Encoding="chunked", Idempotency_Key="cut-requests-0001")),
        ("a repeat with the longest body", request(service, "POST /payments", padded, Idempotency_Key="cut-requests-0001")),
    ]:
        wanted = shown(in_pieces(service, whole, [0])[0])
        check(f"{name} has an answer", bool(wanted), True)
        answers = in_pieces(service, whole, range(1, len(whole)))
        count += len(answers)
        for cut, answer in enumerate(answers, 1):
            if shown(answer) != wanted:
                check(f"{name}, cut at {cut}", shown(answer), wanted)
                break
    check("and nothing was sent to the terminal", len(terminal.orders), orders)
    return count


def cut_payments(service, terminal):
    """New payments, each cut at another byte: each reaches the terminal once. Returns their number."""
    orders = len(terminal.orders)
    size = len(payment(service, "cut-payment-00000"))
    for cut in range(1, size):
        key = f"cut-payment-{cut:05d}"
        answer, = in_pieces(service, payment(service, key), [cut])
        if (summary(answer), len(terminal.orders)) != ((200, "paid"), orders + cut):
            check(f"a payment, cut at {cut}", (summary(answer), len(terminal.orders)), ((200, "paid"), orders + cut))
            break
    return size - 1


def cut_events(service):
    """A stream of events begins the same way wherever its request is cut, and goes on."""
    whole = request(service, "GET /events")
    for cut in range(1, len(whole), 7):
        wire = Wire(service)
        wire.send(whole[:cut])
        time.sleep(PAUSE)
        wire.send(whole[cut:])
        while b"\r\n\r\n" not in wire.held and wire.more():
            pass
        head = wire.held.lower()
        check(f"events, cut at {cut}", (head[:15], b"text/event-stream" in head), (b"http/1.1 200 ok", True))
        wire.close(resets=cut % 2 == 0)
    wire = Wire(service)
    wire.send(whole)
    check("a payment beside a listener", summary(service.pay("events-0000000001", 5)), (200, "paid"))
    while b"events-0000000001" not in wire.held and wire.more():
        pass
    check("is told to the listener", b'"outcome":"paid"' in wire.held, True)
    wire.close()


def broken_off(service, terminal):
    """Payments that end at each byte, by a close or a reset. Only a whole one may reach the terminal. Returns their number."""
    orders = len(terminal.orders)
    size = len(payment(service, "broken-off-000000"))
    long = request(service, "POST /payments", b'{"amount":1' + b" " * 4000 + b"}", Idempotency_Key="broken-off-long-1")
    pieces = [payment(service, f"broken-off-{cut:06d}")[:cut] for cut in range(size)] + [long[:cut] for cut in range(size, len(long), 40)]
    for at in range(0, len(pieces), TOGETHER):
        wires = [Wire(service) for _ in pieces[at:at + TOGETHER]]
        for number, (wire, piece) in enumerate(zip(wires, pieces[at:])):
            wire.send(piece)
            wire.close(resets=number % 2 == 1)
    check("the service goes on", summary(service.until((200,), "broken-off-after-1", 77)), (200, "paid"))
    check("and nothing else reached the terminal", len(terminal.orders), orders + 1)
    keys = [f"broken-off-{cut:06d}" for cut in range(0, size, 9)] + ["broken-off-long-1"]
    check("or the book", {service.call("GET", f"/payments/{key}").status for key in keys}, {404})
    wire = Wire(service)
    wire.send(payment(service, "broken-off-whole-1"))
    wire.line.shutdown(socket.SHUT_WR)
    check("a whole one is answered after the client's last byte", summary(wire.answer()), (200, "paid"))
    wire.close()
    return len(pieces)


# ---- what is no request

def malformed(service):
    """Names, bytes, and the status that is wanted for them, or None for an end without an answer."""
    body = b'{"amount":100}'
    host, token = f"Host: 127.0.0.1:{service.port}\r\n", f"Authorization: Bearer {service.token}\r\n"
    key = "Idempotency-Key: raw-requests-0001\r\n"
    length = f"Content-Length: {len(body)}\r\n"

    def raw(*lines, first="POST /payments HTTP/1.1\r\n", body=body, own=host + token + key):
        return (first + own + "".join(lines) + "\r\n").encode("latin-1") + body

    chunked = "Transfer-Encoding: chunked\r\n"
    in_chunks = b"e\r\n" + body + b"\r\n0\r\n\r\n"
    return [
        ("a length with chunks", raw(length, chunked, body=in_chunks), 400),
        ("two lengths", raw(length, "Content-Length: 2\r\n"), 400),
        ("a list of lengths", raw(f"Content-Length: {len(body)}, 2\r\n"), 400),
        ("a length below 0", raw("Content-Length: -14\r\n"), 400),
        ("a length with a sign", raw("Content-Length: +14\r\n"), 400),
        ("a length in hexadecimal", raw("Content-Length: 0xe\r\n"), 400),
        ("a length that no number holds", raw("Content-Length: 99999999999999999999999\r\n"), 400),
        ("a length of 4097", raw("Content-Length: 4097\r\n", body=b""), 413),
        ("chunks of more than 4096", raw(chunked, body=b"1000\r\n" + b" " * 4096 + b"\r\n1\r\n \r\n0\r\n\r\n"), 413),
        ("a chunk whose size no number holds", raw(chunked, body=b"fffffffffffffffff\r\n"), 400),
        ("a chunk with a sign", raw(chunked, body=b"-e\r\n" + body + b"\r\n0\r\n\r\n"), 400),
        ("a chunk that is longer than it says", raw(chunked, body=b"d\r\n" + body + b"\r\n0\r\n\r\n"), 400),
        ("an unknown coding", raw("Transfer-Encoding: gzip, chunked\r\n", body=in_chunks), 501),
        ("chunked twice", raw(chunked, chunked, body=in_chunks), 400),
        ("two Hosts", raw(host, length), 400),
        ("two Hosts that differ", raw("Host: evil.example\r\n", length), 400),
        ("no Host", raw(length, own=token + key), 400),
        ("an empty Host", raw(length, own="Host:\r\n" + token + key), 421),
        ("two keys", raw("Idempotency-Key: raw-requests-0002\r\n", length), 400),
        ("two tokens", raw(token, length), 400),
        ("a line feed alone in the head", raw("X: y\n", length), 400),
        ("line feeds alone", raw(length).replace(b"\r\n", b"\n"), 400),
        ("a carriage return in a value", raw("X: y\rz\r\n", length), 400),
        ("a folded header", raw("X: y\r\n z\r\n", length), 400),
        ("a blank before the colon", raw("X : y\r\n", length), 400),
        ("a header without a name", raw(": y\r\n", length), 400),
        ("a header without a colon", raw("Xy\r\n", length), 400),
        ("a zero byte in a value", raw("X: a\0b\r\n", length), 400),
        ("a zero byte in a name", raw("X\0: y\r\n", length), 400),
        ("a zero byte in the target", raw(length, first="POST /pay\0ments HTTP/1.1\r\n"), 400),
        ("a head that is too long", raw(f"X: {'y' * LONGEST_HEAD}\r\n", length), 431),
        ("too many headers", raw(*["X: y\r\n"] * MOST_HEADERS, length), 431),
        ("a target that is too long", raw(length, first=f"POST /{'p' * LONGEST_HEAD} HTTP/1.1\r\n"), 414),
        ("a target without an end", b"GET /" + b"p" * (LONGEST_HEAD + 100), 414),
        ("a head without an end", b"GET / HTTP/1.1\r\n" + b"X: y\r\n" * 2000, 431),
        ("a method in lower case", raw(length, first="post /payments HTTP/1.1\r\n"), 405),
        ("another method", raw(length, first="PUT /payments HTTP/1.1\r\n"), 405),
        ("a method that is no word", raw(length, first="PO(ST /payments HTTP/1.1\r\n"), 400),
        ("two blanks", raw(length, first="POST  /payments HTTP/1.1\r\n"), 400),
        ("no version", raw(length, first="POST /payments\r\n"), 400),
        ("HTTP/2.0", raw(length, first="POST /payments HTTP/2.0\r\n"), 400),
        ("HTTP/1.2", raw(length, first="POST /payments HTTP/1.2\r\n"), 400),
        ("the beginning of HTTP/2", b"PRI * HTTP/2.0\r\n\r\nSM\r\n\r\n", 400),
        ("a hello of TLS", bytes.fromhex("16030100c8010000c40303") + bytes(40), 400),
        ("no letters", bytes(range(256)), 400),
        ("another path", raw(length, first="POST /payments/ HTTP/1.1\r\n"), 405),
        ("a path with percent signs", raw(length, first="POST /%70ayments HTTP/1.1\r\n"), 404),
        ("a tunnel", raw(length, first="CONNECT 127.0.0.1:80 HTTP/1.1\r\n"), 400),
        ("a star", raw(length, first="OPTIONS * HTTP/1.1\r\n"), 403),
        ("a scheme of another name", raw(length, own=host + key + f"Authorization: Basic {service.token}\r\n"), 401),
        ("a token with a blank after it", raw(length, own=host + key + f"Authorization: Bearer {service.token} x\r\n"), 401),
        ("another origin", raw(length, "Origin: http://127.0.0.1:1\r\n"), 403),
        ("the origin null", raw(length, "Origin: null\r\n"), 403),
        ("a host that ends like ours", raw(length, own=f"Host: evil.127.0.0.1:{service.port}\r\n" + token + key), 421),
        ("a host without the port", raw(length, own="Host: 127.0.0.1\r\n" + token + key), 421),
        ("a body that is no JSON", raw(length, body=b"amount=1&x=123"), 400),
    ]


def no_requests(service, terminal):
    """Each has the status of docs/SERVE.md, or one of HTTP, and none is an order. Returns their number."""
    orders, cases = len(terminal.orders), malformed(service)
    for name, data, wanted in cases:
        wire = Wire(service, seconds=5)
        wire.send(data)
        answer = wire.answer()
        check(name, answer and answer.status, wanted)
        if answer and answer.json:
            check(f"{name}: nothing was sent", answer.json.get("sent"), False)
        wire.close()
    check("none of them is an order", len(terminal.orders), orders)
    check("and the service goes on", service.call("GET", "/status").status, 200)
    return len(cases)


def unusual(service, terminal):
    """Requests that are allowed, though clients seldom send them."""
    orders = len(terminal.orders)

    def asks(name, data, wanted):
        wire = Wire(service, seconds=5)
        wire.send(data)
        check(name, summary(wire.answer()), wanted)
        wire.close()

    asks("an older version", payment(service, "unusual-000000001").replace(b"HTTP/1.1", b"HTTP/1.0"), (200, "paid"))
    asks("headers in capitals", payment(service, "unusual-000000002").replace(b"Idempotency-Key", b"IDEMPOTENCY-KEY").replace(b"Host:", b"HOST:"), (200, "paid"))
    asks("an empty line before", b"\r\n" + payment(service, "unusual-000000003"), (200, "paid"))
    asks("a question mark", payment(service, "unusual-000000004", line="POST /payments?till=3"), (200, "paid"))
    asks("a client that waits for 100 Continue", payment(service, "unusual-000000005", Expect="100-continue"), (200, "paid"))
    asks("a host by name", payment(service, "unusual-000000006", Host=f"LocalHost:{service.port}"), (200, "paid"))
    asks("the page's own origin", payment(service, "unusual-000000007", Origin=f"http://127.0.0.1:{service.port}"), (200, "paid"))
    check("each of them paid once", len(terminal.orders), orders + 7)
    asks("an absolute target", payment(service, "unusual-000000008", line=f"POST http://127.0.0.1:{service.port}/payments"), (404, "not_found"))
    wire = Wire(service)
    wire.send(request(service, "HEAD /status") + request(service, "GET /status"))
    first = wire.held
    while b"\r\n\r\n" not in first and wire.more():
        first = wire.held
    check("a HEAD", first[:12], b"HTTP/1.1 405")
    wire.close()


def pipelined(service, terminal):
    """Requests that are sent one behind another are answered in their order."""
    orders, wire = len(terminal.orders), Wire(service)
    pays = [payment(service, f"pipelined-{at:06d}", 10 + at) for at in range(20)]
    looks = [request(service, f"GET /payments/pipelined-{at:06d}") for at in range(20)]
    wire.send(b"".join(pay + look for pay, look in zip(pays, looks)))
    for at in range(20):
        answers = wire.answer(), wire.answer()
        check(f"pipelined {at}", [answer and (answer.status, answer.json.get("amount")) for answer in answers], [(200, 10 + at)] * 2)
    wire.send(payment(service, "pipelined-refused") + b"POST / HTTP/1.1\r\nHost: x\r\nHost: y\r\n\r\n" + payment(service, "pipelined-after-1"))
    check("before a bad one", summary(wire.answer()), (200, "paid"))
    check("a bad one", summary(wire.answer()), (400, "bad_request"))
    check("after a bad one the connection ends", (wire.ends(), wire.held), (True, b""))
    check("and what follows it is no order", len(terminal.orders), orders + 21)
    wire.close()


# ---- clients that retry

def by_requests(url, token, key, amount):
    retry = urllib3.util.Retry(total=30, status_forcelist=[409, 503], allowed_methods=None, backoff_factor=0.2, backoff_max=1)
    with requests.Session() as session:
        session.mount("http://", requests.adapters.HTTPAdapter(max_retries=retry))
        answer = session.post(f"{url}/payments", json={"amount": amount}, headers={"Authorization": f"Bearer {token}", "Idempotency-Key": key}, timeout=30)
        return answer.status_code, answer.json().get("outcome")


def by_curl(url, token, key, amount):
    words = ["curl", "--silent", "--fail", "--retry", "30", "--retry-all-errors", "--retry-delay", "1", "--max-time", "30", f"{url}/payments",
        "--header", f"Authorization: Bearer {token}", "--header", f"Idempotency-Key: {key}", "--data", json.dumps({"amount": amount})]
    # (it writes nothing of the answers after which it tries again)
    done = subprocess.run(words, capture_output=True, text=True)
    return (200 if done.returncode == 0 else done.returncode), json.loads(done.stdout or "{}").get("outcome")


def retrying(folder):
    """Clients that begin while there is no service, then meet a running order and a service that stops. Each pays once."""
    clients = [("requests", by_requests)] * (requests is not None) + [("curl", by_curl)] * (shutil.which("curl") is not None)
    if len(clients) < 2:
        print("serve_http: curl or the module requests is missing: its client was not tried", file=sys.stderr)
    folder.mkdir()
    terminal = Terminal(delay=1.5)
    service = Service(ZVT, folder, terminal.port, own_port=True)
    url, token, found = f"http://127.0.0.1:{service.port}", service.token, {}
    service.call("POST", "/stop")
    service.ended()
    service_is_down = time.monotonic()
    threads = [threading.Thread(target=lambda name=name, client=client, at=at: found.update({name: client(url, token, f"retrying-{name}-00001", 60 + at)}))
        for at, (name, client) in enumerate(clients)]
    for thread in threads:
        thread.start()
    time.sleep(0.7)
    service.start()
    check("another order comes first or is told to wait", service.until((200,), "retrying-another-1", 59) is not None, True)
    service.call("POST", "/stop")
    service.ended()
    service.start()
    for thread in threads:
        thread.join()
    check("clients that retry", found, {name: (200, "paid") for name, _ in clients})
    amounts = sorted(int(order[4:10].hex()) for order in terminal.orders)
    check("each of them once", amounts, [59] + [60 + at for at in range(len(clients))])
    service.kill()
    terminal.stop()
    return time.monotonic() - service_is_down


def given_up(folder):
    """Clients that give up while their order is running make room for others."""
    folder.mkdir()
    terminal = Moody()
    service = Service(ZVT, folder, terminal.port)
    key, amount = "given-up-00000001", 100 + NAMES.index("held")
    service.until((200,), "given-up-registers", 100)
    for _ in range(100):
        wire = Wire(service)
        wire.send(payment(service, key, amount))
        time.sleep(PAUSE)
        wire.close()
    check("a look beside 100 clients that gave up", summary(service.call("GET", f"/payments/{key}")), (202, "running"))
    check("and a break", summary(service.call("POST", "/cancel")), (202, None))
    check("ends the order", summary(service.until((402,), key, amount, seconds=5)), (402, "aborted"))
    check("which was sent once", terminal.sent, [100, amount])
    terminal.release.set()
    service.kill()
    terminal.stop()


def main():
    root = "/dev/shm" if pathlib.Path("/dev/shm").is_dir() else None
    with tempfile.TemporaryDirectory(dir=root) as folder, concurrent.futures.ThreadPoolExecutor() as pool:
        folder = pathlib.Path(folder)
        others = pool.submit(retrying, folder / "retrying")
        terminal = Terminal()
        service = Service(ZVT, folder, terminal.port)
        check("the first payment", summary(service.until((200,), "first-payment-001", 1)), (200, "paid"))
        cuts = cut_requests(service, terminal)
        cuts += cut_payments(service, terminal)
        cut_events(service)
        broken = broken_off(service, terminal)
        bad = no_requests(service, terminal)
        unusual(service, terminal)
        pipelined(service, terminal)
        given_up(folder / "given-up")
        others.result()
        answer = service.call("POST", "/stop")
        check("it stops", (answer and answer.status, service.ended()), (202, 0))
        terminal.stop()
    print(f"{check.verdict}: {cuts} requests in two pieces, {broken} that were broken off, {bad} that are none")
    return check.status


if __name__ == "__main__":
    sys.exit(main())

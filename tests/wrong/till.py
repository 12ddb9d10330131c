"""A small till over TCP, which shares nothing with the rest of the repository. Wrong tills change one part of it."""
import json
import pathlib
import socket
import sys
import time

ACK, REFUSED = b"\x80\x00\x00", b"\x84\x83\x00"
REGISTRATION = bytes.fromhex("06000600 0000BE0978".replace(" ", ""))
APPROVED = {0x04: 6, 0x0B: 3, 0x27: 1, 0x37: 3, 0x49: 2, 0x87: 2}


class Lost(Exception):
    """The line was closed, or nothing came for too long."""


class Till:
    seconds = 3

    def __init__(self, port):
        self.port, self.line, self.held, self.booked, self.is_registered = port, None, b"", [], False

    # ---- the line

    def connect(self):
        self.line, self.held, self.is_registered = socket.create_connection(("127.0.0.1", self.port), self.seconds), b"", False
        self.line.setsockopt(socket.IPPROTO_TCP, socket.TCP_NODELAY, 1)

    def disconnect(self):
        if self.line:
            self.line.close()
        self.line = None

    def send(self, message):
        try:
            self.line.sendall(message)
        except OSError as error:
            raise Lost from error

    def order(self, message):
        self.send(message)

    def receive(self, size):
        while len(self.held) < size:
            try:
                more = self.line.recv(4096)
            except OSError as error:
                raise Lost from error
            if not more:
                raise Lost
            self.held += more

    def hear(self):
        """The next message: its control bytes and its data."""
        self.receive(3)
        begin, size = 3, self.held[2]
        if size == 0xFF:
            self.receive(5)
            begin, size = 5, self.held[3] + 256 * self.held[4]
        self.receive(begin + size)
        message, self.held = self.held[:begin + size], self.held[begin + size:]
        return message[:2].hex(), message[begin:]

    def acknowledge(self, kind, data):
        self.send(ACK)

    # ---- orders

    def register(self):
        if not self.line:
            self.connect()
        self.order(REGISTRATION)
        kind, _ = self.run("register")
        self.is_registered = kind == "060f"
        return "registered" if self.is_registered else "refused"

    def pay(self, amount):
        if not self.is_registered:
            return "not sent: NotRegistered"
        self.statuses = []
        self.order(b"\x06\x01\x0a\x04" + bytes.fromhex(f"{amount:012d}") + b"\x49\x09\x78")
        kind, _ = self.run("pay")
        return self.end_payment(kind, amount)

    def end_payment(self, kind, amount):
        if kind == "060f" and self.statuses and self.statuses[-1].get(0x27) == b"\x00":
            return self.book(self.statuses[-1])
        return "declined" if kind == "060f" else "aborted"

    def book(self, status):
        self.booked.append(status)
        receipt = status[0x87].hex() if 0x87 in status else "-"
        return f"paid trace {status[0x0B].hex()} receipt {receipt}"

    def reverse(self, number):
        if number > len(self.booked):
            return "not sent: NoPayment"
        self.statuses = []
        self.order(b"\x06\x30\x06\x00\x00\x00\x87" + self.booked[number - 1][0x87])
        kind, _ = self.run("reverse")
        return "reversed" if kind == "060f" else "aborted"

    def run(self, what):
        """Answers what comes until the order ends."""
        while True:
            kind, data = self.hear()
            if kind.startswith("80") or kind == "8400":
                continue
            if kind.startswith("84"):
                if what == "pay" and self.statuses:
                    continue
                return kind, data
            if kind == "040f":
                self.status(self.fields(data))
            if kind == "050a":
                self.send(REFUSED)
                continue
            self.acknowledge(kind, data)
            if kind in ("060f", "061e"):
                return kind, data

    def status(self, fields):
        self.statuses.append(fields)

    def fields(self, data):
        """The fields of fixed length at the begin."""
        found, at = {}, 0
        while at < len(data) and data[at] in APPROVED:
            size = APPROVED[data[at]]
            found[data[at]], at = data[at + 1:at + 1 + size], at + 1 + size
        return found

    # ---- the book

    def load(self, book):
        if book.exists():
            self.booked = [{int(key): bytes.fromhex(value) for key, value in it.items()} for it in json.loads(book.read_text())]

    def save(self, book):
        book.write_text(json.dumps([{key: value.hex() for key, value in it.items()} for it in self.booked]))

    # ---- steps

    def lost(self, step):
        self.disconnect()
        return "unclear Line"

    def step(self, step):
        word, _, number = step.partition(":")
        if word == "register":
            return self.register()
        if word == "pay":
            return self.pay(int(number))
        return self.reverse(int(number))

    def done(self):
        """After the last step."""


def start(kind):
    till, book = kind(int(sys.argv[1])), pathlib.Path(sys.argv[2])
    till.load(book)
    for step in sys.argv[3:]:
        try:
            outcome = till.step(step)
        except Lost:
            outcome = till.lost(step)
        till.save(book)
        print(f"{step} -> {outcome}", flush=True)
    try:
        till.done()
    except (Lost, OSError):
        pass
    time.sleep(0.05)

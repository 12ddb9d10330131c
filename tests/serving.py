"""What the tests of `zvt serve` share: the service, requests to it, and terminals that approve early, late, or never."""
import http.client
import json
import pathlib
import re
import socket
import subprocess
import threading
import time

APPROVED = "040F{size:02X}270004{amount}0B{trace:06d}87{receipt:04d}490978"
REGISTER, PAY, REVERSE, CLOSE, REPEAT, BREAK = b"\x06\x00", b"\x06\x01", b"\x06\x30", b"\x06\x50", b"\x06\x20", b"\x06\xB0"

# What a terminal makes of a payment, and which answers are possible then. The first are common. The others end the line, which the
# service opens again a second later.
MOODS = {
    "approves": {(200, "paid")},
    "declines": {(402, "declined"), (402, "aborted")},
    "refuses": {(402, "refused")},
    "late": {(200, "paid")},
    "twice": {(200, "paid"), (424, "unclear")},
    "unapproved": {(402, "declined"), (402, "aborted"), (424, "unclear")},
    "held": {(200, "paid")},
    "another amount": {(402, "declined"), (402, "aborted"), (424, "unclear")},
    "malformed": {(424, "unclear")},
    "breaks": {(424, "unclear")},
    "silent": {(424, "unclear")},
}
NAMES = list(MOODS)


def free_port():
    """A port at which nothing listens now."""
    with socket.create_server(("127.0.0.1", 0)) as free:
        return free.getsockname()[1]


class Answer:
    def __init__(self, status, headers, body):
        self.status, self.headers, self.text = status, headers, body.decode()
        try:
            self.json = json.loads(body)
        except ValueError:
            self.json = None

    def __repr__(self):
        return f"{self.status} {self.text.strip()}"


class Service:
    """A `zvt serve` with its book and its token in a folder. It can be killed and started again, on the same port if `own_port`."""

    def __init__(self, program, folder, terminal, *words, own_port=False, before=()):
        folder = pathlib.Path(folder)
        self.book, self.token_file = folder / "day.book", folder / "till.token"
        port = free_port() if own_port else 0
        self.words = [*before, program, "serve", "--port", port, "--terminal", f"127.0.0.1:{terminal}", "--book", self.book, "--token-file", self.token_file, *words]
        self.start()

    @classmethod
    def of(cls, words, token_file):
        """The service that a command starts."""
        service = cls.__new__(cls)
        service.words, service.token_file = words, pathlib.Path(token_file)
        service.start()
        return service

    def start(self):
        self.process = subprocess.Popen([str(word) for word in self.words], stdout=subprocess.PIPE, stderr=subprocess.PIPE)
        line = self.process.stdout.readline().decode()
        found = re.fullmatch(r"serving at http://127\.0\.0\.1:(\d+)\n", line)
        if not found:
            raise SystemExit(f"zvt serve did not start: {line!r} {self.process.stderr.read().decode()!r}")
        self.port, self.token = int(found[1]), self.token_file.read_text().strip()

    def kill(self):
        self.process.kill()
        return self.ended()

    def ended(self, seconds=60):
        self.process.communicate(timeout=seconds)
        return self.process.returncode

    def call(self, method, path, key=None, body=None, seconds=30, **headers):
        """The answer of the service, or None if the connection ended without one."""
        words = {"Authorization": f"Bearer {self.token}", **({"Idempotency-Key": key} if key else {})}
        words.update({name.replace("_", "-"): value for name, value in headers.items()})
        words = {name: value for name, value in words.items() if value is not None}
        text = body if body is None or isinstance(body, bytes) else json.dumps(body).encode()
        line = http.client.HTTPConnection("127.0.0.1", self.port, timeout=seconds)
        try:
            line.request(method, path, text, words)
            answer = line.getresponse()
            return Answer(answer.status, answer.headers, answer.read())
        except (OSError, http.client.HTTPException):
            return None
        finally:
            line.close()

    def pay(self, key, amount, **how):
        return self.call("POST", "/payments", key, {"amount": amount}, **how)

    def until(self, wanted, key, amount, seconds=30):
        """Pays, and again with the same key while nothing was sent, until the status is one of those."""
        end = time.monotonic() + seconds
        while True:
            answer = self.pay(key, amount)
            if answer and answer.status in wanted or time.monotonic() > end:
                return answer
            time.sleep(0.05)


class Terminal:
    """A terminal that registers any till, and approves each payment after so many seconds, or breaks the line instead."""

    def __init__(self, delay=0.0, breaks=False, port=0):
        self.delay, self.breaks, self.orders, self.stopped = delay, breaks, [], threading.Event()
        self.listener = socket.create_server(("127.0.0.1", port))
        self.listener.settimeout(0.1)
        self.port, self.count = self.listener.getsockname()[1], 0
        self.thread = threading.Thread(target=self.serve, daemon=True)
        self.thread.start()

    def serve(self):
        while not self.stopped.is_set():
            try:
                line, _ = self.listener.accept()
            except TimeoutError:
                continue
            except OSError:
                return
            with line:
                try:
                    self.talk(line)
                except OSError:
                    pass

    def talk(self, line):
        line.settimeout(0.1)
        line.setsockopt(socket.IPPROTO_TCP, socket.TCP_NODELAY, 1)
        held = b""
        while not self.stopped.is_set():
            try:
                piece = line.recv(1024)
            except TimeoutError:
                continue
            if not piece:
                return
            held += piece
            while len(held) >= 3 and len(held) >= 3 + held[2]:
                message, held = held[:3 + held[2]], held[3 + held[2]:]
                if not self.hear(line, message):
                    return

    def hear(self, line, message):
        say = lambda text: line.sendall(bytes.fromhex(text))
        kind = message[:2]
        if kind in (REGISTER, CLOSE):
            say("800000")
            say("060F00" if kind == REGISTER else "040F02270006 0F00".replace(" ", ""))
        elif kind == PAY:
            self.orders.append(message)
            self.count += 1
            say("800000")
            time.sleep(self.delay)
            if self.breaks:
                return False
            status = APPROVED.format(size=0, amount=message[4:10].hex(), trace=self.count, receipt=self.count)
            say(APPROVED.format(size=len(status) // 2 - 3, amount=message[4:10].hex(), trace=self.count, receipt=self.count))
            say("060F00")
        elif kind == REPEAT:
            say("848300")
        return True

    def stop(self):
        self.stopped.set()
        self.listener.close()
        self.thread.join()


def digits(number, count):
    return f"{number:0{count}}"


class Moody(Terminal):
    """A terminal whose mood about a payment is in its amount. It counts what reaches it."""

    def __init__(self):
        self.sent, self.approved, self.taken, self.closed = [], {}, [], 0
        self.release, self.refuses_next, self.last, self.repeats = threading.Event(), False, None, True
        self.prints = False  # whether it sends a line to print for each approval
        super().__init__()

    def say(self, line, *texts):
        line.sendall(bytes.fromhex("".join(texts)))

    def approval(self, amount, taken=None):
        """The status of a transaction with the next numbers, and the trace number of the payment that it takes back."""
        self.count += 1
        fields = f"270004{digits(amount, 12)}0B{digits(self.count, 6)}87{digits(self.count % 10000, 4)}490978" + (f"37{digits(taken, 6)}" if taken else "")
        return f"040F{len(fields) // 2:02X}{fields}"

    def hear(self, line, message):
        kind = message[:2]
        if kind == REGISTER:
            self.say(line, "800000", "060F00")
        elif kind == CLOSE:
            self.closed += 1
            self.say(line, "800000", *(["061E016C"] if self.refuses_next else ["040F022700", "060F00"]))
        elif kind == PAY:
            return self.pays(line, int(message[4:10].hex()))
        elif kind == REVERSE:
            self.takes_back(line, int(message[-2:].hex()))
        elif kind == REPEAT:
            known = self.last and self.repeats
            self.say(line, *(["800000", self.last, "060F00"] if known else ["848300"]))
        elif kind == BREAK:
            self.say(line, "800000")
        return True

    def takes_back(self, line, receipt):
        amount, trace = next((amount, trace) for amount, (trace, number) in self.approved.items() if number == receipt)
        if self.refuses_next:
            self.say(line, "800000", "061E016C")
            return
        self.taken.append(amount)
        self.last = self.approval(amount, trace)
        self.say(line, "800000", self.last, "060F00")

    def pays(self, line, amount):
        mood = NAMES[amount % 100]
        self.sent.append(amount)
        if mood == "refuses":
            self.say(line, "846C00")
            return True
        self.say(line, "800000")
        if mood == "silent":
            return True
        if mood in ("malformed", "unapproved", "declines"):
            self.say(line, {"malformed": "060102D0", "unapproved": "060F00", "declines": "040F02276C061E016C"}[mood])
            return True
        if mood == "late":
            time.sleep(0.02)
        if mood == "held" and self.breaks_off(line):
            self.say(line, "800000", "061E016C")
            return True
        status = self.approval(amount + (mood == "another amount"))
        if mood != "another amount":
            self.approved[amount], self.last = (self.count, self.count % 10000), status
        self.say(line, status, *([status] if mood == "twice" else []))
        if mood == "breaks":
            return False
        if self.prints:
            text = f"\0APPROVED {amount}".encode()
            self.say(line, f"06D1{len(text):02X}{text.hex()}")
        self.say(line, "060F00")
        return True

    def breaks_off(self, line):
        """Waits until the test goes on, and returns whether the till asked to break off."""
        line.setblocking(False)
        found = b""
        while not self.release.wait(0.002) and BREAK not in found:
            try:
                found += line.recv(100)
            except BlockingIOError:
                continue
        line.settimeout(0.1)
        return BREAK in found

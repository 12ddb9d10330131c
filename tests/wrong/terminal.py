"""A small terminal over TCP, which shares nothing with the rest of the repository. Wrong terminals change one part of it."""
import socket
import time

ACK = b"\x80\x00\x00"
SIZES = {0x04: 6, 0x49: 2, 0x87: 2}


class Terminal:
    refused = {"no amount": "84FF00", "two amounts": "84FF00", "currency": "846F00", "unregistered": "848300", "unknown": "848300"}

    # The amounts and trace numbers of the payments by their receipts, of all lines, and the last trace number and receipt.
    payments, last_trace, last_receipt = {}, 40, 7

    def __init__(self, line):
        self.line, self.is_registered = line, False
        self.file = line.makefile("rb")

    def send(self, digits):
        self.line.sendall(bytes.fromhex(digits))

    def hear(self):
        """The next message: its control bytes and its data."""
        begin = self.file.read(3)
        if len(begin) < 3:
            raise EOFError
        return begin[:2].hex(), self.file.read(begin[2])

    def refuse(self, why):
        self.send(self.refused[why])

    def acknowledge(self):
        self.line.sendall(ACK)

    def tell(self, digits):
        """Sends a message, and hears its acknowledgement."""
        self.send(digits)
        self.hear()

    def register(self):
        self.acknowledge()
        self.is_registered = True
        self.tell("060F0829123456784909 78".replace(" ", ""))

    def amounts(self, data):
        """The amounts and currencies, or nothing where a field is unknown."""
        found, at = {it: [] for it in SIZES}, 0
        while at < len(data):
            if data[at] not in SIZES:
                return None
            size = SIZES[data[at]]
            found[data[at]].append(data[at + 1:at + 1 + size].hex())
            at += 1 + size
        return found

    def judge(self, data):
        """Why the order of a payment is refused, if it is; `malformed` is not answered."""
        found = self.amounts(data)
        if found is None:
            return "malformed"
        if not self.is_registered:
            return "unregistered"
        if [it for it in found[0x49] if it != "0978"]:
            return "currency"
        if len(found[0x04]) > 1:
            return "two amounts"
        return None if found[0x04] and int(found[0x04][0]) else "no amount"

    def pay(self, data):
        why = self.judge(data)
        if why == "malformed":
            return self.malformed()
        if why:
            return self.refuse(why)
        self.acknowledge()
        self.approve(self.amounts(data)[0x04][0])

    def malformed(self):
        raise EOFError

    def count(self):
        """The next trace number."""
        Terminal.last_trace += 1
        return f"{Terminal.last_trace:06}"

    def approve(self, amount):
        trace = self.count()
        Terminal.last_receipt += 1
        receipt = f"{Terminal.last_receipt:04}"
        self.payments[receipt] = amount, trace
        self.finish(f"270004{amount}0B{trace}87{receipt}490978")

    def reverse(self, data):
        self.acknowledge()
        receipts = self.amounts(data[3:])[0x87]
        if not receipts or receipts[0] not in self.payments:
            return self.unknown_receipt()
        amount, trace = self.take_back(receipts[0])
        if not amount:
            return self.tell("061E01B4")
        self.finish(f"270004{amount}0B{self.count()}37{trace}87{receipts[0]}490978")

    def take_back(self, receipt):
        """The amount of a payment, which is none the second time, and its trace number."""
        amount, trace = self.payments[receipt]
        self.payments[receipt] = None, trace
        return amount, trace

    def unknown_receipt(self):
        self.tell("061E01B5")

    def finish(self, digits):
        self.tell(f"040F{len(digits) // 2:02X}{digits}")
        self.tell("06D1020041")
        self.complete()

    def complete(self):
        self.tell("060F00")

    def serve(self):
        while True:
            kind, data = self.hear()
            if kind == "0600":
                self.register()
            elif kind == "0601":
                self.pay(data)
            elif kind == "0630":
                self.reverse(data)
            elif kind == "06b0":
                self.acknowledge()
            else:
                self.refuse("unknown")


def start(kind):
    door = socket.create_server(("127.0.0.1", 0))
    print(door.getsockname()[1], flush=True)
    while True:
        line, _ = door.accept()
        line.setsockopt(socket.IPPROTO_TCP, socket.TCP_NODELAY, 1)
        try:
            kind(line).serve()
        except (EOFError, OSError):
            pass
        time.sleep(0.3)
        line.close()

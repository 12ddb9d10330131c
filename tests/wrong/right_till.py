"""The small till without a fault, in the situations that find wrong tills."""
from till import Till, start


class Right(Till):
    def end_payment(self, kind, amount):
        if not self.statuses or kind != "060f":
            return super().end_payment(kind, amount)
        status = self.statuses[-1]
        if any(it != status for it in self.statuses):
            return "unclear Conflict"
        if status.get(0x27) == b"\x6c":
            return "declined 6C abort by time-out or abort key"
        if status.get(0x04) != bytes.fromhex(f"{amount:012d}"):
            return "unclear AmountDiffers"
        if status.get(0x49, b"\x09\x78") != b"\x09\x78":
            return "unclear WrongCurrency"
        if status[0x0B] in [it[0x0B] for it in self.booked]:
            return "unclear TraceUsed"
        return super().end_payment(kind, amount)

    def fields(self, data):
        """A field that its message does not hold is malformed."""
        found = super().fields(data)
        if not found and data[:1] != b"\x27":
            self.disconnect()
        return found

    def acknowledge(self, kind, data):
        if self.line:
            super().acknowledge(kind, data)

    def hear(self):
        if not self.line:
            raise SystemExit(f"pay -> unclear Malformed")
        return super().hear()


start(Right)

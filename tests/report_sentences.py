"""The sentences of `report` about an order that a person should look at: a model of its titles, accounts and advice.

`Sentences` writes them of a `Report` of `report_model.py`. The amounts are in the currency of the registrations, with its decimals.
"""
import json_model

CAUSES = {
    "NoStatus": "it was completed without status information",
    "Conflict": "its status information names no single result, or contradicts itself",
    "AmountDiffers": "its status information names another amount",
    "NoTrace": "its status information does not name the trace number",
    "TraceUsed": "the book has its trace number already; if the terminal was exchanged or counts from 1 again, begin a new book",
    "AbortAfterApproval": "it was broken off after the terminal had approved it or contradicted itself",
    "Line": "the connection was lost",
    "Malformed": "the terminal sent bytes that are no message",
    "Unfinished": "it has not ended",
    "WrongCurrency": "its status information names another currency",
}
DECIMALS = {"0352": 0, "0392": 0, "0414": 3, "0788": 3, **dict.fromkeys(
    ("0036", "0124", "0203", "0208", "0348", "0578", "0752", "0756", "0826", "0840", "0941", "0946", "0949", "0975", "0978", "0985"), 2)}
DAY = 24 * 60 * 60
# The result codes whose words a text has.
PRINTED = ("00", "64", "6C", "6F", "83", "B4", "B5", "FF")
NOT_BOOKED = ". The payment is not booked in this trace, so the net total does not change."
REVERSAL_ADVICE = ("Look for the reversal in the terminal's journal before you give money back. You can also reverse the payment again: if the "
                   "terminal then answers B4, it had already taken the payment back.")
FIXED = {
    "ApprovedThenUndone": "The customer has probably not been charged. Look for both trace numbers in the terminal's journal to be sure.",
    "ReversalUnclear": REVERSAL_ADVICE,
    "TakenBackBefore": "Subtract the payment from the net total by hand.",
    "ReversalRefused": "If the customer was promised the money, it has not been given back.",
    "OtherUnclear": "Look for the order in the terminal's journal before you send it again.",
    "CloseUnclear": "If the terminal printed no end-of-day receipt, start the end of day again.",
    "CloseRefused": "Start the end of day again.",
}


def numbers(line, trace, receipt):
    """A line and the numbers that stand there."""
    return f" (line {line}" + (f", trace {trace:06}" if trace is not None else "") + (f", receipt {receipt}" if receipt else "") + ")"


class Sentences:
    def __init__(self, report):
        self.report, self.decimals = report, DECIMALS.get(min(report.named), 0) if len(report.named) == 1 else 0

    def money(self, amount):
        sign, digits = "-" if amount < 0 else "", f"{abs(amount):0{self.decimals + 1}}"
        return f"{sign}{digits[:-self.decimals]}.{digits[-self.decimals:]}" if self.decimals else sign + digits

    # ---- parts

    def reason(self, order):
        word, why = order.outcome
        if word == "unclear":
            return CAUSES[why]
        return f"{why} {json_model.MEANINGS[why]}" if why in PRINTED else f"code {why}"

    def approved(self, order):
        return numbers(order.approval["line"], order.approval["trace"], order.approval["receipt"])

    def apart(self, before, after, word):
        seconds = [self.report.times.seconds(one.first) for one in (before, after)]
        if None in seconds or not 0 <= seconds[1] - seconds[0] < DAY:
            return ""
        seconds = seconds[1] - seconds[0]
        return f", {seconds} s {word}" if seconds < 120 else f", {seconds // 60} min {word}"

    def later(self, order, again):
        return self.paid_again(order, again) + self.counted(order)

    def paid_again(self, order, again):
        if again is None:
            return ""
        amount = self.money(order.amount)
        if again.outcome[0] == "unclear":
            return f" A later payment of {amount} (line {again.first}) is unclear, too."
        entry, number = self.report.book[again.entry], order.card.get("card_number")
        same = " with the same card" if number and number == again.card.get("card_number") else ""
        return f" Then {amount} was paid again{same}{self.apart(order, again, 'later')}{numbers(again.first, entry['trace'], entry['receipt'])}."

    def counted(self, order):
        place = self.report.orders.index(order) + 1
        lines = [one.first for one in self.report.orders if one.kind == "close" and place in (self.report.close_members(one).get("explained_by") or ())]
        return f" The end of day (line {lines[0]}) counts it as paid." if lines else ""

    def entry(self, order):
        """The entry that a reversal takes back, the words for its receipt, and whether the net total counts it."""
        entry = self.report.book[order.entry]
        receipt = f" (receipt {entry['receipt']})" if entry["receipt"] else ""
        return entry, receipt, f" The net total {'does not count' if entry['reversed'] else 'still counts'} the payment."

    def payment_at(self, order):
        receipt = self.report.book[order.entry]["receipt"]
        return (f"receipt {receipt}" if receipt else "a payment") + f" (line {order.first})"

    # ---- cases

    def of(self, case, order, again, confirmed):
        title, text, advice = getattr(self, case)(order, again, confirmed)
        return {"title": title, "text": text, "advice": advice or FIXED[case]}

    def ApprovedNotCompleted(self, order, again, _):
        amount, receipt = self.money(order.amount), order.approval["receipt"]
        found = f"receipt {receipt}" if receipt else "this payment"
        if again:
            advice = f"The customer may have paid twice. If the terminal's journal has {found}, take it back, since the later payment covers the sale."
        else:
            advice = f"The customer has probably been charged. Look for {found} in the terminal's journal before you charge again."
        return (f"{amount} may have been charged{' twice' if again else ''}",
                f"The terminal approved {amount}{self.approved(order)}, but the payment is unclear: {self.reason(order)}.{self.later(order, again)}", advice)

    def ApprovalRepeated(self, order, again, confirmed):
        amount, receipt = self.money(order.amount), confirmed.approval["receipt"]
        asked = "asked the terminal to repeat its last receipt" if confirmed.control == "0620" else "sent an order that moves no money"
        unless = f"If no earlier payment has receipt {receipt}" if receipt else "If no earlier payment has this receipt"
        return (f"{amount} may have been charged{' twice' if again else ''}",
                f"The payment of {amount} is unclear: {self.reason(order)}. The till then {asked} (line {confirmed.first}), and the answer approves "
                f"{amount}{self.approved(confirmed)}.{self.later(order, again)}",
                unless + (", the customer has been charged for it, and may have paid twice." if again else ", the customer has been charged. Do not charge again."))

    def ApprovedThenUndone(self, order, again, _):
        trace = order.undoing[1]
        return (f"{self.money(order.amount)} approved, then taken back",
                f"The terminal approved {self.money(order.approval['amount'])}{self.approved(order)}, and then took it back{f' under trace {trace}' if trace else ''}. "
                f"The payment is unclear: {self.reason(order)}.{self.later(order, again)}", None)

    def OtherAmount(self, order, again, _):
        asked, given, receipt = self.money(order.amount), self.money(order.approval["amount"]), order.approval["receipt"]
        return (f"{asked} asked for, {given} approved",
                f"The till asked for {asked}, but the terminal approved {given}{self.approved(order)}, perhaps with a tip. The payment is unclear: "
                f"{self.reason(order)}.{self.paid_again(order, again)}",
                f"The customer has probably been charged {given}. If the terminal's journal has {f'receipt {receipt}' if receipt else 'this payment'}, "
                "add that amount to the day by hand, or take it back and charge again.")

    def PaymentUnclear(self, order, again, _):
        amount = self.money(order.amount)
        return (f"Payment of {amount} unclear",
                f"The payment of {amount} is unclear: {self.reason(order)}. The till heard no approval, but the terminal may have given one.{self.later(order, again)}",
                f"Look in the terminal's journal for two payments of {amount}. The customer may have paid twice." if again else
                f"Look for a payment of {amount} in the terminal's journal before you charge again.")

    def PaidAlike(self, order, earlier, _):
        amount, receipt = self.money(order.amount), self.report.book[order.entry]["receipt"]
        card = f"{order.card.get('card') or 'card'} ..{order.card['card_number'].rpartition('E')[2]}"
        return (f"{amount} paid twice with one card",
                f"{card} paid {amount} twice{self.apart(earlier, order, 'apart')}: {self.payment_at(earlier)} and {self.payment_at(order)}. Both are booked.",
                f"Were these two sales, or was one sale charged twice? If it was one, take back {f'receipt {receipt}' if receipt else 'this payment'}.")

    def ReversalUnclear(self, order, _again, _):
        entry, receipt, counted = self.entry(order)
        amount = self.money(entry["amount"])
        return f"Reversal of {amount} unclear", f"The reversal of {amount}{receipt} is unclear: {self.reason(order)}.{counted}", None

    def TakenBackBefore(self, order, _again, _):
        entry, receipt, counted = self.entry(order)
        amount = self.money(entry["amount"])
        return (f"{amount} already taken back", f"The terminal says that it had already taken back {amount}{receipt}, but this trace has no completed reversal "
                f"of the payment.{counted}", None)

    def ReversalRefused(self, order, _again, _):
        entry, receipt, _counted = self.entry(order)
        amount = self.money(entry["amount"])
        return f"Reversal of {amount} not done", f"The terminal did not take back {amount}{receipt}: {self.reason(order)}.", None

    def ReversalElsewhere(self, order, _again, _):
        title, name = "Reversal of a payment that is not in this trace", f"receipt {order.receipt}" if order.receipt else "a payment"
        if order.outcome[0] == "unclear":
            return "Unclear r" + title[1:], f"The reversal of {name} is unclear: {self.reason(order)}{NOT_BOOKED}", REVERSAL_ADVICE
        return title, f"The terminal took back {name}{NOT_BOOKED}", "Look for the payment in an earlier trace."

    def OtherUnclear(self, order, _again, _):
        amount = order.amount or order.approval and order.approval["amount"]
        return (f"Order{f' of {self.money(amount)}' if amount else ''} unclear: {json_model.COMMANDS.get(order.control, 'payment without one amount')}",
                f"The order is unclear: {self.reason(order)}. No total of this report counts it.", None)

    def CloseUnclear(self, order, _again, _):
        return "End of day unclear", f"The end of day is unclear: {self.reason(order)}.", None

    def CloseRefused(self, order, _again, _):
        return "Day not closed", f"The terminal did not close the day: {self.reason(order)}.", None

    def CloseDiffers(self, order, _again, _):
        members = self.report.close_members(order)
        differs, shares = members["differs"], self.shares(order, members)
        text = f"The terminal's total is {self.money(members['stated'])}, and the book has {self.money(members['book'])}: a difference of {self.money(abs(differs))}."
        if not shares:
            advice = "Settle the unclear payments and reversals first. Then compare the payments with the terminal's receipts."
        else:
            text += f" It is exactly {shares}."
            advice = f"If {'this order' if len(members['explained_by']) == 1 else 'one of these orders'} is unclear, settle it. Nothing else is missing."
        return f"End of day differs by {self.money(abs(differs))}", text, advice

    def shares(self, order, members):
        """The orders that make up a difference. The first one widens it."""
        amounts = dict(self.report.closings()[id(order)][3])
        places = members["explained_by"] or []
        first = next((place for place in places if (amounts[place] > 0) == (members["differs"] > 0)), None)
        places = [first, *(place for place in places if place != first)] if places else []
        said = ""
        for place in places:
            one = self.report.orders[place - 1]
            name = {"payment": "unclear payment", "reversal": "unclear reversal"}.get(one.kind) or ("refund" if one.control == "0631" else "order")
            joined = "" if place == first else " and " if (amounts[place] > 0) == (amounts[first] > 0) else " less "
            said += f"{joined}the {name} of {self.money(abs(amounts[place]))} (line {one.first})"
        return said

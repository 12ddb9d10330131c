#!/usr/bin/env python3
"""Sends `zvt serve` random requests, and holds each answer against a model that was written after docs/SERVE.md alone.

The requests pay, take back, close the day, look, cancel, ask and read the book, with new keys and old ones, other orders under a known
key, wrong tokens, hosts, paths, keys and bodies, alone, two at once, and while an order runs. The terminal approves, declines,
refuses, answers late, twice, without an approval, about another amount or malformed, is silent, or breaks the line. From time to
time the service is killed and started again. The terminal counts what reaches it.

serve_model.py [REQUESTS [PROGRAM]]: 2,000 requests to the program of `rt ci` without a word. The status is 1 where an answer is not
one that the model allows, an answer changed, a key was sent twice, an answer says that nothing was sent and the terminal has the
order, or book, answers and terminal do not agree.
"""
import collections
import http.client
import json
import pathlib
import random
import sys
import tempfile
import threading
import time

from common import Checks, program
from serving import MOODS, NAMES, Answer, Moody, Service

REQUESTS = int(sys.argv[1]) if len(sys.argv) > 1 else 2000
ZVT = program(sys.argv[2:])
A_BOOK = 4000  # requests, after which a new book is begun: a book holds 10,000 payments
OFFLINE = {(409, "Offline"), (409, "NotRegistered")}
check = Checks()

# The moods of a terminal, by how often they come. The rare ones end the line, which the service opens again a second later.
COMMON = ["approves"] * 12 + ["declines"] * 3 + ["refuses", "late", "twice", "unapproved"]
RARE = ["another amount", "malformed", "breaks", "silent"]


class Order:
    """What the model knows of an order that may have been sent."""

    def __init__(self, wanted, allowed):
        self.wanted, self.allowed, self.text, self.status = wanted, allowed, None, None
        self.reversed = self.settled = False

    @property
    def is_paid(self):
        """Whether the book has it as a payment."""
        return self.status == 200 and self.wanted[0] == "pay" and not self.settled

    @property
    def is_unclear(self):
        """Whether the book has it as an unclear payment, which an ask may have settled."""
        return self.wanted[0] == "pay" and (self.status == 424 or self.settled)


def summary(answer):
    return answer and (answer.status, (answer.json or {}).get("outcome") or (answer.json or {}).get("error"))


class Round:
    """One book, from its begin to its end."""

    def __init__(self, folder, count):
        self.terminal = Moody()
        self.service = Service(ZVT, folder, self.terminal.port, "--timeout", "1")
        self.count, self.left, self.orders, self.serial, self.amounts, self.kinds = count, count, {}, 0, 0, collections.Counter()
        self.line, self.breaks, self.kills = None, 0, 0
        self.settle_line()

    # ---- requests

    def call(self, method, path, key=None, body=None, line=None, **headers):
        """The answer, mostly on the connection of the last request."""
        self.left -= 1
        own = line is None
        if own and (self.line is None or random.random() < 0.1):
            self.line = http.client.HTTPConnection("127.0.0.1", self.service.port, timeout=30)
        line = self.line if own else line
        words = {"Authorization": f"Bearer {self.service.token}", "Idempotency-Key": key}
        words.update({name.replace("_", "-"): value for name, value in headers.items()})
        try:
            line.request(method, path, body if body is None or isinstance(body, bytes) else json.dumps(body).encode(),
                {name: value for name, value in words.items() if value is not None})
            found = line.getresponse()
            return Answer(found.status, found.headers, found.read())
        except (OSError, http.client.HTTPException) as error:
            check.differs(f"{method} {path} {key}", f"no answer: {error!r}")
            self.line = None
            return None

    def settle_line(self):
        """Waits until the till is registered."""
        for _ in range(400):
            answer = self.service.call("GET", "/status")
            if answer and answer.json["registered"]:
                return
            time.sleep(0.02)
        check.differs("the till does not register")

    def key(self):
        self.serial += 1
        return random.choice(["sale-{:08d}-model", "{:08x}.Model_test-key-of-all-signs._-", "{:016d}"]).format(self.serial)

    def amount(self, mood):
        """An amount that no other request has."""
        self.amounts += 1
        return self.amounts * 100 + NAMES.index(mood)

    def known(self, paid=False):
        keys = [key for key, order in self.orders.items() if order.status and (order.is_paid or not paid)]
        return random.choice(keys[-40:]) if keys else None

    # ---- answers

    def expects(self, name, answer, allowed):
        """One of these statuses with their outcomes or errors, `sent` and the headers that go with them."""
        found = summary(answer)
        check.count += 1
        if found not in allowed:
            check.differs(name, f"{answer!r:.300} instead of {allowed}")
            return False
        if answer.json and "error" in answer.json and answer.json.get("sent") is not False:
            check.differs(name, f"an error without sent: {answer!r}")
        if found and found[1] in ("busy", "no_terminal", "stopping") and "Retry-After" not in answer.headers:
            check.differs(name, f"no Retry-After: {answer!r}")
        return True

    def repeats(self, name, answer, order, replays=True):
        """The answer of an order that was answered before. If it was unclear, an ask of the till may have settled it since."""
        if order.is_unclear and not order.settled and answer and answer.json and answer.json.get("settled"):
            self.settles(name, answer, order)
        wanted = {**json.loads(order.text), **({"reversed": order.reversed} if order.is_paid else {})}
        check.count += 1
        if not answer or (answer.status, answer.json) != (order.status, wanted):
            check.differs(name, f"{answer!r:.300} instead of {order.status} {wanted}")
        elif replays and answer.headers.get("Idempotent-Replayed") != "true":
            check.differs(name, f"without the header of a repeat: {answer.headers}")

    def settles(self, name, answer, order):
        """The verdict about an unclear payment: it agrees with the terminal, and stays from now on."""
        numbers = self.terminal.approved.get(order.wanted[1])
        words = {"amount": order.wanted[1], "key": answer.json.get("key"), "order": "pay", "settled": True}
        paid = (200, {**words, "outcome": "paid", "receipt": f"{numbers[1]:04}", "reversed": False, "trace": numbers[0]} if numbers else None)
        check(f"settled {name}", (answer.status, answer.json), paid if numbers else (402, {**words, "outcome": "not paid"}))
        order.status, order.text, order.settled = answer.status, answer.text, True

    def ends(self, name, answer, key, order):
        """The first answer of an order: from now on it stays."""
        if answer and answer.json and answer.json.get("settled") and (424, "unclear") in order.allowed:
            check(f"{name}: its key", answer.json.get("key"), key)
            self.settles(name, answer, order)
        elif self.expects(name, answer, order.allowed):
            order.status, order.text = answer.status, answer.text
            members = answer.json
            if members["key"] != key or members.get("amount") != (order.wanted[1] if order.wanted[0] == "pay" else None):
                check.differs(name, f"another key or amount: {answer!r}")
            if order.is_paid and (members["trace"], int(members["receipt"])) != self.terminal.approved.get(order.wanted[1]):
                check.differs(name, f"other numbers than the terminal's: {answer!r}")
            if order.wanted[0] == "reverse" and answer.status == 200:
                self.orders[order.wanted[1]].reversed = True
            if answer.status == 424:
                check(f"{name}: a cause and an advice", ("cause" in members, "advice" in members), (True, True))
            if answer.status == 402:
                check(f"{name}: a code", "code" in members, True)

    def ask(self, key, wanted, **how):
        """Sends an order."""
        if wanted[0] == "pay":
            body = {"amount": wanted[1], **random.choice([{}, {}, {"currency": "0978"}])}
            return self.call("POST", "/payments", key, body, **how)
        return self.call("POST", f"/payments/{wanted[1]}/reversal" if wanted[0] == "reverse" else "/end-of-day", key, **how)

    def orders_now(self, key, wanted, allowed):
        """An order with a new key, while none runs."""
        order = self.orders[key] = Order(wanted, allowed)
        self.ends(f"{wanted} {key}", self.ask(key, wanted), key, order)

    # ---- what a client does

    def pays(self):
        is_rare = self.breaks * 300 < self.count - self.left and random.random() < 0.03
        mood = random.choice(RARE if is_rare else COMMON)
        self.breaks += is_rare
        amount = self.amount(mood)
        key = self.key()
        if random.random() < 0.1:
            return self.pays_twice_at_once(key, amount, mood)
        self.orders_now(key, ("pay", amount), MOODS[mood])

    def at_once(self, *calls):
        """The answers to requests that are sent at once, each on a connection of its own."""
        found = [None] * len(calls)

        def one(at, key, wanted):
            line = http.client.HTTPConnection("127.0.0.1", self.service.port, timeout=30)
            found[at] = self.ask(key, wanted, line=line)
            line.close()

        threads = [threading.Thread(target=one, args=(at, *call)) for at, call in enumerate(calls)]
        for thread in threads:
            thread.start()
        for thread in threads:
            thread.join()
        return found

    def pays_twice_at_once(self, key, amount, mood):
        """The same request twice, and another one beside them."""
        other, wanted = self.key(), ("pay", self.amount("approves"))
        one, two, beside = self.at_once((key, ("pay", amount)), (key, ("pay", amount)), (other, wanted))
        if all(summary(answer) == (409, "busy") for answer in (one, two)):
            one = two = self.ask(key, ("pay", amount))
        elif summary(one) == (409, "busy"):
            one = two
        elif summary(two) == (409, "busy"):
            two = one
        order = self.orders[key] = Order(("pay", amount), MOODS[mood])
        self.ends(f"one of two {key}", one, key, order)
        check(f"two at once {key}", two and (two.status, two.text), one and (one.status, one.text))
        if self.expects(f"beside two {other}", beside, {(409, "busy"), (200, "paid")}) and beside.status == 200:
            order = self.orders[other] = Order(wanted, {(200, "paid")})
            self.ends(f"beside two {other}", beside, other, order)

    def repeats_one(self):
        key = self.known()
        if key:
            self.repeats(f"again {key}", self.ask(key, self.orders[key].wanted), self.orders[key])

    def looks(self):
        key = self.known()
        if key and random.random() < 0.8:
            self.repeats(f"look {key}", self.call("GET", f"/payments/{key}"), self.orders[key], replays=False)
        else:
            self.expects("a key that nobody used", self.call("GET", f"/payments/{self.key()}"), {(404, "unknown_key")})

    def reuses(self):
        key = self.known()
        if key:
            kind, what = self.orders[key].wanted
            others = [("pay", self.amount("approves")), ("close", None), ("reverse", self.known(paid=True) or key)]
            wanted = random.choice([other for other in others if other != (kind, what)])
            self.expects(f"another order {wanted} under {key}", self.ask(key, wanted), {(422, "key_reused")})

    def takes_back(self):
        target, key = self.known(paid=True), self.key()
        if target is None or random.random() < 0.2:
            target = random.choice([self.key(), *(key for key, order in self.orders.items() if not order.is_paid)][-20:])
            self.expects(f"take back {target}, which is not paid", self.ask(key, ("reverse", target)), {(404, "no_payment")})
            return
        if self.orders[target].reversed:
            self.expects(f"take back {target} again", self.ask(key, ("reverse", target)), {(409, "AlreadyReversed")})
            self.expects("and its key is free", self.call("GET", f"/payments/{key}"), {(404, "unknown_key")})
            return
        self.terminal.refuses_next = random.random() < 0.2
        self.orders_now(key, ("reverse", target), {(402, "aborted")} if self.terminal.refuses_next else {(200, "reversed")})
        self.terminal.refuses_next = False

    def closes(self):
        if random.random() < 0.3:
            self.terminal.refuses_next = random.random() < 0.2
            self.orders_now(self.key(), ("close", None), {(402, "aborted")} if self.terminal.refuses_next else {(200, "day closed")})
            self.terminal.refuses_next = False

    def is_wrong(self):
        """A request with something wrong, which may be sent again after it was made right."""
        key, amount = self.key(), self.amount("approves")
        right = dict(method="POST", path="/payments", key=key, body={"amount": amount})
        wrong, allowed = random.choice([
            (dict(Host="evil.example", Authorization=None), {(421, "host")}),
            (dict(Host=f"127.0.0.1:{self.service.port + 1}"), {(421, "host")}),
            (dict(Origin="https://evil.example", Authorization="Bearer x"), {(403, "origin")}),
            (dict(method="OPTIONS", Authorization=None, Origin="http://evil.example"), {(403, "origin"), (403, "preflight")}),
            (dict(Authorization=None), {(401, "token")}),
            (dict(Authorization="Bearer "), {(401, "token")}),
            (dict(Authorization=f"Bearer {self.service.token[:-1]}"), {(401, "token")}),
            (dict(Authorization=f"Bearer {self.service.token}0"), {(401, "token")}),
            (dict(Authorization=f"Bearer {self.service.token.upper()}" if self.service.token.upper() != self.service.token else "x"), {(401, "token")}),
            (dict(path="/nowhere", Authorization="Bearer x"), {(401, "token")}),
            (dict(path=random.choice(["/nowhere", "/payment", "/payments2", "/Payments", "//payments"])), {(404, "not_found")}),
            (dict(path=f"/payments/{key}/refund"), {(404, "not_found"), (405, "method")}),
            (dict(method=random.choice(["GET", "PUT", "DELETE", "PATCH", "post"])), {(405, "method")}),
            (dict(method="DELETE", path=f"/payments/{key}"), {(405, "method")}),
            (dict(method="GET", path=f"/payments/{key}/reversal"), {(405, "method")}),
            (dict(method="GET", path=random.choice(["/cancel", "/ask", "/stop", "/end-of-day"])), {(405, "method")}),
            (dict(key=None), {(400, "bad_key")}),
            (dict(key=random.choice(["k" * 15, "k" * 41, "k" * 20 + " k", "k" * 20 + "/", "k" * 20 + "\xe4", '"' + "k" * 20 + '"'])), {(400, "bad_key")}),
            (dict(method="GET", path="/payments/short"), {(400, "bad_key")}),
            (dict(path=f"/payments/{'k' * 41}/reversal"), {(400, "bad_key")}),
            (dict(body=random.choice([b"", b"{", b"[]", b"null", b"{}", b'{"amount":}', b'{"amount":"5"}', b'{"amount":-5}', b'{"amount":5.0}',
                b'{"amount":5e2}', b'{"amount":05}', b'{"amount":5,}', b'{"amount":5}x', b'{"amount":5,"amount":5}', b'{"amount":5,"tip":1}', b'{"amount":5,"currency":978}',
                b'{"amount":5,"currency":"978"}', b'{"currency":"0978"}', b'\xef\xbb\xbf{"amount":5}', b'{"Amount":5}', b'{"amount":true}'])), {(400, "bad_body")}),
            (dict(body={"amount": random.choice([0, 10 ** 12, 10 ** 30])}), {(422, "bad_amount")}),
            (dict(body={"amount": amount, "currency": random.choice(["0756", "0840", "0000"])}), {(422, "other_currency")}),
            (dict(body=b'{"amount":5' + b" " * 4100 + b"}"), {(413, "too_long")}),
        ])
        answer = self.call(**{**right, **wrong})
        if self.expects(f"wrong {wrong}", answer, allowed) and answer.status == 413:
            self.line = None
        if random.random() < 0.3:
            self.orders_now(key, ("pay", amount), MOODS["approves"])

    def holds(self):
        """An order that runs while other requests come."""
        amount, key = self.amount("held"), self.key()
        order, was_broken, was_killed = Order(("pay", amount), set(MOODS["held"])), False, False
        self.terminal.release.clear()
        answer = self.ask(key, order.wanted, Prefer="respond-async")
        if self.expects(f"running {key}", answer, {(202, "running")}):
            check(f"the path of {key}", answer.headers.get("Location"), f"/payments/{key}")
        self.orders[key] = order
        for _ in range(random.randrange(6)):
            deed = random.randrange(8)
            if deed == 0:
                self.expects(f"look at running {key}", self.call("GET", f"/payments/{key}"), {(202, "running")})
            elif deed == 1:
                self.expects(f"again running {key}", self.ask(key, order.wanted, Prefer="respond-async"), {(202, "running")})
            elif deed == 2:
                self.expects(f"another amount for running {key}", self.ask(key, ("pay", amount + 100)), {(422, "key_reused")})
            elif deed == 3:
                other = self.key()
                self.expects(f"{other} while {key} runs", self.ask(other, ("pay", self.amount("approves"))), {(409, "busy")})
                self.expects("and its key is free", self.call("GET", f"/payments/{other}"), {(404, "unknown_key")})
            elif deed == 4:
                status = self.call("GET", "/status")
                check("status while it runs", status and (status.json.get("running"), status.json.get("running_key")), ("pay", key))
            elif deed == 5:
                random.choice([self.repeats_one, self.looks, self.reuses])()
            elif deed == 6:
                self.expects("ask while it runs", self.call("POST", "/ask"), {(409, "Busy")})
            elif random.random() < 0.5:
                answer = self.call("POST", "/cancel")
                self.expects("cancel", answer, {(202, None), (409, "NothingToCancel")})
                was_broken = summary(answer) == (202, None)
                if was_broken:
                    break
        if was_broken:
            order.allowed = {(402, "aborted"), (402, "declined"), (200, "paid")}
        elif random.random() < 0.05:
            self.kills_it()
            was_killed, order.allowed = True, {(424, "unclear")}
        self.terminal.release.set()
        if was_killed:
            self.settle_line()
        answer = self.ask(key, order.wanted) if random.random() < 0.7 or was_killed else self.look_until(key)
        self.ends(f"the end of {key}", answer, key, order)

    def look_until(self, key):
        for _ in range(500):
            answer = self.call("GET", f"/payments/{key}")
            if answer is None or answer.status != 202:
                return answer
            self.left += 1
            time.sleep(0.002)
        return answer

    def asks(self):
        self.expects("ask", self.call("POST", "/ask"), {(202, None), (409, "Busy"), *OFFLINE})

    def cancels(self):
        self.expects("cancel while nothing runs", self.call("POST", "/cancel"), {(409, "NothingToCancel"), (409, "Busy"), *OFFLINE})

    def reads_status(self):
        status = self.call("GET", "/status")
        check("status", status and (status.status, status.json["book"], status.json["booked"], status.json.get("running", "register")),
            (200, "open", sum(order.is_paid for order in self.orders.values()), "register"))

    def reads_book(self):
        """The book has what was answered."""
        answer = self.call("GET", "/book")
        rows = [json.loads(line) for line in answer.text.splitlines()]
        booked = {row["booked"]["ref"]: (row["booked"]["amount"], row["booked"]["trace"], bool(row["booked"].get("reversed"))) for row in rows if "booked" in row}
        unclear = {row["unclear"]["ref"]: row["unclear"]["amount"] for row in rows if "unclear" in row}
        wanted = {key: (order.wanted[1], json.loads(order.text)["trace"], order.reversed) for key, order in self.orders.items() if order.is_paid}
        check("the book's payments", booked, wanted)
        check("the book's unclear payments", unclear, {key: order.wanted[1] for key, order in self.orders.items() if order.is_unclear})

    def kills_it(self):
        self.kills += 1
        self.service.kill()
        self.line = None
        self.service.start()

    def is_killed(self):
        if random.random() < 0.1:
            self.kills_it()
            if random.random() < 0.5:
                self.settle_line()

    def compare(self):
        """What reached the terminal, against the answers."""
        sent = self.terminal.sent
        check("no payment was sent twice", [amount for amount, count in collections.Counter(sent).items() if count > 1], [])
        wanted = {order.wanted[1]: order for order in self.orders.values() if order.wanted[0] == "pay"}
        check("what was sent has a key and an answer", [amount for amount in sent if amount not in wanted or not wanted[amount].status], [])
        for amount, order in wanted.items():
            if (amount in self.terminal.approved) != (order.status == 200) and order.status != 424 or amount not in sent:
                check.differs(f"the payment of {amount}", f"{order.status} {order.text}, at the terminal {self.terminal.approved.get(amount)}")
        taken = [order.wanted[1] for order in self.orders.values() if order.wanted[0] == "reverse" and order.status == 200]
        check("what was taken back", sorted(self.terminal.taken), sorted(self.orders[key].wanted[1] for key in taken))
        closes = sum(order.wanted[0] == "close" for order in self.orders.values())
        check("ends of day", self.terminal.closed, closes)

    def run(self):
        deeds = [self.pays] * 10 + [self.repeats_one] * 3 + [self.looks] * 3 + [self.reuses] * 2 + [self.takes_back] * 3 + [self.closes, self.asks, self.cancels] \
            + [self.is_wrong] * 4 + [self.holds] * 2 + [self.reads_status, self.is_killed]
        while self.left > 0 and check.wrong < 20:
            deed = random.choice(deeds)
            self.kinds[deed.__name__] += 1
            deed()
            if random.random() < 0.005:
                self.reads_book()
        self.kills_it()
        for key in list(self.orders):
            self.repeats(f"after another start {key}", self.service.call("GET", f"/payments/{key}"), self.orders[key], replays=False)
        self.settle_line()
        self.reads_book()
        self.compare()
        check("it stops", (summary(self.service.call("POST", "/stop")), self.service.ended()), ((202, None), 0))
        self.terminal.stop()


def main():
    random.seed(REQUESTS)
    left, outcomes, sent, kills, began = REQUESTS, collections.Counter(), 0, 0, time.monotonic()
    root = "/dev/shm" if pathlib.Path("/dev/shm").is_dir() else None
    while left > 0 and check.wrong < 20:
        with tempfile.TemporaryDirectory(dir=root) as folder:
            round = Round(folder, min(left, A_BOOK))
            round.run()
            left -= A_BOOK
            sent, kills = sent + len(round.terminal.sent), kills + round.kills
            outcomes.update(("settled as " if order.settled else "") + json.loads(order.text)["outcome"] for order in round.orders.values() if order.text)
    print(f"{check.verdict}: {REQUESTS} requests, {check.count} comparisons, {sent} payments at the terminal, {kills} kills, answers {dict(outcomes)}, {time.monotonic() - began:.0f} s")
    return check.status


if __name__ == "__main__":
    sys.exit(main())

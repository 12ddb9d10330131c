#!/usr/bin/env python3
"""Kills `zvt serve` while a client pays and repeats its requests, and holds the answers against the terminal.

First it is killed at random moments. Then strace kills it at one system call of a payment after another, each with a key of its own,
until a payment ends before that call comes. After each kill the service is started again, and the request is repeated.

Each payment has an amount of its own, so the orders at the terminal show which key was sent how often. At the end each answer
is asked for once more after another restart, and the book is held against the answers.

serve_kills.py [KEYS [PROGRAM]]: 60 keys with kills at random, and a kill at every third call, of the program of `rt ci` without a
word. From 500 keys on there is a kill at each call. Without strace there are none at calls. The status is 1 where a key was sent
twice, an answer changed, or book, answers and terminal do not agree.
"""
import collections
import json
import pathlib
import random
import re
import shutil
import subprocess
import sys
import tempfile
import threading
import time

from common import Checks, program
from serving import Service

KEYS = int(sys.argv[1]) if len(sys.argv) > 1 else 60
ZVT = program(sys.argv[2:])
FIRST = 100_000  # the first amount
STRIDE = 1 if KEYS >= 500 else 3  # from one call that is the last to the next
WAITS = {"epoll_wait", "restart_syscall"}  # the calls of a service at rest
check = Checks()


def terminal_at(trace):
    process = subprocess.Popen([ZVT, "terminal", "--port", "0", "--connections", "0", "--no-times", "--trace", str(trace)], stderr=subprocess.PIPE, text=True)
    port = int(re.search(r":(\d+)$", process.stderr.readline())[1])
    # (it reports each connection that breaks, and would wait for a full pipe)
    threading.Thread(target=process.stderr.read, daemon=True).start()
    return process, port


def key_of(at):
    return f"kill-test-{at:08d}"


def one_key(service, at, answers):
    """Pays under a key, with kills, until there is an answer. Returns the number of kills."""
    key, amount, kills = key_of(at), FIRST + at, 0
    for attempt in range(100):
        timer = None
        if attempt < 3 and random.random() < 0.7:
            timer = threading.Timer(random.uniform(0, 0.12), service.process.kill)
            timer.start()
        answer = service.pay(key, amount)
        if timer:
            timer.join()
            service.ended()
            service.start()
            kills += 1
        if answer and answer.status in (200, 402, 424):
            answers[key] = answer
            return kills
    check.differs(key, "no answer after 100 requests")
    return kills


class Calls:
    """Kills at system calls."""

    def __init__(self, service, folder, first, answers):
        self.service, self.file, self.at, self.answers, self.kills = service, folder / "calls", first, answers, collections.Counter()

    def traced(self, *words):
        """A payment under strace, from a service at rest. Its answer may be None, for the service was killed then."""
        while not self.service.call("GET", "/status").json["registered"]:
            time.sleep(0.01)
        pid = self.service.process.pid
        tracer = subprocess.Popen(["strace", "-f", "-q", "-o", self.file, "-p", str(pid), *words], stderr=subprocess.DEVNULL)
        while tracer.poll() is None and "TracerPid:\t0\n" in pathlib.Path(f"/proc/{pid}/status").read_text():
            time.sleep(0.005)
        self.at += 1
        answer = self.service.pay(key_of(self.at), FIRST + self.at)
        if answer is None:
            self.service.ended()
        else:
            tracer.terminate()
        tracer.wait()
        return answer

    def whole(self):
        """How often a payment makes each call."""
        answer = self.traced()
        self.answers[key_of(self.at)] = answer
        names = re.findall(r"^\d+ +(\w+)\(", self.file.read_text(), re.M)
        return collections.Counter(name for name in names if name not in WAITS)

    def kill(self, name, number):
        """Kills at the call of that name and number. Returns whether the payment made it."""
        answer = self.traced("-e", f"trace={name}", "-e", f"inject={name}:signal=KILL:when={number}")
        if was_killed := answer is None:
            self.kills[name] += 1
            self.service.start()
            answer = self.service.until((200, 402, 424), key_of(self.at), FIRST + self.at)
        self.answers[key_of(self.at)] = answer
        return was_killed

    def run(self):
        names = self.whole()
        if not names:
            print("serve_kills: strace may not trace here: nothing was killed at a call", file=sys.stderr)
            return
        skipped = 0
        for name in sorted(names):
            number = 1 + skipped
            while self.kill(name, number):
                number += STRIDE
            skipped = (skipped + 1) % STRIDE
        check("the calls at which it was killed are those of a payment", sorted(self.kills) == sorted(names) or STRIDE > 1, True)


def main():
    random.seed(KEYS)
    with tempfile.TemporaryDirectory() as folder:
        folder = pathlib.Path(folder)
        trace, answers = folder / "terminal.trace", {}
        terminal, port = terminal_at(trace)
        service = Service(ZVT, folder, port)
        kills = sum(one_key(service, at, answers) for at in range(KEYS))
        calls = Calls(service, folder, KEYS, answers)
        if shutil.which("strace"):
            calls.run()
        else:
            print("serve_kills: strace is missing, which kills at calls: none was tried", file=sys.stderr)
        service.kill()
        service.start()
        for key, answer in answers.items():
            again = service.call("GET", f"/payments/{key}")
            check(key, again and (again.status, again.text), (answer.status, answer.text))
        service.kill()
        terminal.kill()
        terminal.wait()
        sent = [int(digits) for digits in re.findall(r"^> 06010A04(\d{12})", trace.read_text(), re.M)]
        check("no order was sent twice", len(sent), len(set(sent)))
        check("each order at the terminal has an answer", sorted(sent), sorted(amount for amount in sent if key_of(amount - FIRST) in answers))
        rows = [json.loads(line) for line in subprocess.run([ZVT, "book", "--json", service.book], capture_output=True, text=True).stdout.splitlines()]
        booked = {row["booked"]["amount"] for row in rows if "booked" in row}
        paid = {answer.json["amount"] for answer in answers.values() if answer.status == 200}
        check("the book has what was answered as paid", booked, paid)
        found = {}
        for answer in answers.values():
            found[answer.json["outcome"]] = found.get(answer.json["outcome"], 0) + 1
        print(f"{check.verdict}: {len(answers)} keys, {kills} kills at random and {calls.kills.total()} at calls ({', '.join(f'{count} {name}' for name, count in sorted(calls.kills.items()))}), "
            f"{len(sent)} orders at the terminal, answers {found}")
    return check.status


if __name__ == "__main__":
    sys.exit(main())

#!/usr/bin/env python3
"""Runs the recipes of docs/FLEETS.md on 200 traces, and compares with the model of `report_model.py`.

    tests/fleet.py [PROGRAM]

PROGRAM is the one that `rt ci` built, unless another is named. The commands are taken out of the document. Two days of ten
shops with ten tills each are reported by `xargs`, by `parallel`, and by `examples/fleet.py` with two Dask workers, one of which
is killed in the middle: nothing is missing, and nothing counts twice. `sqlite3` answers the document's queries. One trace
can't be read, and some streams are bad. What is not installed is said and left out. The status is 1 where anything is not as
expected. It takes some twenty seconds.
"""
import collections
import json
import os
import pathlib
import random
import re
import shutil
import subprocess
import sys
import tempfile
import time

import journal_dialogues
import journal_model
import report_model
import report_output
from common import Checks, EXAMPLES, TOP, program

PROGRAM = program(sys.argv[1:])
DEBIAN_PYTHON = "/usr/bin/python3"
DAYS, SHOPS, TILLS, BATCH = ("2026-11-24", "2026-11-25"), 10, 10, 5
SECONDS = 120
COLUMNS = ("traces", "booked", "net", "unclear", "amount", "others", "acts", "bad")
BOOKS, DOUBTFUL_PAYMENTS, DOUBTFUL_REVERSALS, ROUND = 500, 10, 10, 5000
UNREADABLE = "traces/2026-11-25/shop-03/till-07.trace"
# The program, with a note of each run and a pause, so that a worker can be killed in the middle.
SLOW = "#!/bin/sh\necho run >> '{calls}'\nsleep 0.2\nexec '{program}' \"$@\"\n"
check, said = Checks(), []


def commands():
    """The code blocks of the document, in order."""
    text = (TOP / "docs/FLEETS.md").read_text()
    blocks = re.findall(r"\n\n((?:    .*\n)+)", text)
    return [re.sub(r"^    ", "", block, flags=re.M) for block in blocks]


def command(*words):
    """The one block with all of these words."""
    found = [block for block in commands() if all(word in block for word in words)]
    if len(found) != 1:
        sys.exit(f"fleet: docs/FLEETS.md has {len(found)} blocks with {words}")
    return found[0]


def make(folder):
    """Traces of two days, and the report of each that can be read. The second day has numbers of the first."""
    chance, reports = random.Random(20261126), {}
    for day, first in zip(DAYS, (0, 3)):
        for shop in range(SHOPS):
            for till in range(TILLS):
                name = f"traces/{day}/shop-{shop:02}/till-{till:02}.trace"
                text = report_output.Day(chance, first).text()
                if name == UNREADABLE:
                    text += b"this is none\n"
                else:
                    reports[name] = report_model.Report(text)
                (folder / name).parent.mkdir(parents=True, exist_ok=True)
                (folder / name).write_bytes(text)
    return reports


def make_books(folder):
    """The books of 500 tills, and what the model has of each: 480 with a reversal, ten with an unclear payment, ten with an
    unclear reversal."""
    books = {}
    for till in range(BOOKS):
        dialogue = journal_dialogues.Dialogue()
        dialogue.registered()
        dialogue.paid(100 + till, 1)
        dialogue.paid(ROUND, 2)
        if till < DOUBTFUL_PAYMENTS:
            dialogue.approved(700 + till, 3)
            dialogue.lost()
        else:
            dialogue.reversing(2, 2)
            if till < DOUBTFUL_PAYMENTS + DOUBTFUL_REVERSALS:
                dialogue.lost()
            else:
                dialogue.hear(journal_model.status(ROUND, 3, 3, original=2))
                dialogue.completed()
        name = f"days/{DAYS[1]}/shop-{till % SHOPS:02}/till-{till:03}.book"
        (folder / name).parent.mkdir(parents=True, exist_ok=True)
        (folder / name).write_bytes(dialogue.file())
        books[name] = journal_model.book_of(dialogue.file())
    return books


class Fleet:
    def __init__(self, folder):
        self.folder, self.reports = folder, make(folder)
        (folder / "bin").mkdir()
        (folder / "bin/zvt").symlink_to(PROGRAM)
        (folder / "examples").symlink_to(TOP / "examples")
        self.environment = {**os.environ, "LC_ALL": "C", "PATH": f"{folder}/bin:{os.environ['PATH']}"}

    def run(self, block):
        """What the commands write, whatever their status: a trace that is bad has one."""
        done = subprocess.run(["sh", "-c", block], cwd=self.folder, env=self.environment, capture_output=True, text=True, timeout=SECONDS)
        return done.stdout

    def holds_reports(self, name):
        """reports.json has each report's objects, in their order."""
        found = collections.defaultdict(list)
        for row in map(json.loads, (self.folder / "reports.json").read_text().splitlines()):
            found[row.pop("file")].append(row)
        found.pop("/dev/null", None)
        check(name, dict(found), {file: list(report.objects()) for file, report in self.reports.items()})
        said.append(name)

    def books(self):
        """The totals are net, and each unclear payment and reversal is found."""
        if not installed("jq"):
            return
        books = make_books(self.folder)
        wanted = collections.Counter()
        for file, book in books.items():
            wanted[file.split("/")[2]] += book.total()
        self.run(command("entries.json", "sums/XXXXXXXX"))
        check("net totals by shop", self.run(command("awk", "total")).splitlines(), [f"{shop}\t{total}" for shop, total in sorted(wanted.items())])
        rows = {f"{file}\tpayment\t{amount}\t{cause}" for file, book in books.items() for amount, cause in book.unclear}
        rows |= {f"{file}\treversal\t{ROUND}\tLine" for file in list(books)[DOUBTFUL_PAYMENTS:DOUBTFUL_PAYMENTS + DOUBTFUL_REVERSALS]}
        check("there are as many", len(rows), DOUBTFUL_PAYMENTS + DOUBTFUL_REVERSALS)
        check("what to look at in books", sorted(self.run(command('"payment"', '"reversal"')).splitlines()), sorted(rows))
        said.append("books")

    def one_machine(self):
        self.run(command("xargs", "reports/XXXXXXXX"))
        self.holds_reports("xargs")
        acts = {file for file, report in self.reports.items() if summed(report)["acts"] or report.bad > report.passed} | {UNREADABLE}
        check("where a person has to act", sorted(self.run(command("--check")).splitlines()), sorted(acts))
        if installed("parallel"):
            (self.folder / "reports.json").unlink()
            self.run(command("parallel"))
            self.holds_reports("parallel")
        if installed("jq"):
            self.asked()

    def asked(self):
        """jq finds the missing trace, the net totals, the cases and the orders in no total."""
        check("what is missing", self.run(command("comm -23")).split(), [UNREADABLE])
        wanted = collections.Counter()
        for file, report in self.reports.items():
            wanted[file.split("/")[2]] += report.summary()["net"]
        check("net totals of traces", self.run(command("awk", ".summary.net")).splitlines(), [f"{shop}\t{net}" for shop, net in sorted(wanted.items())])
        check("something was taken back", sum(wanted.values()) < sum(report.summary()["total"] for report in self.reports.values()), True)
        rows = [f"{look['weight']}\t{file}\t{look['lines'][0]}\t{look['case']}" for file, look in self.members("look")]
        check("what to look at", self.run(command(".look.case")).splitlines(), sorted(rows))
        rows = [f"{file}\t{order['lines'][0]}\t{order.get('name', '')}\t{order['outcome']}" for file, order in self.members("other")]
        check("orders in no total", sorted(self.run(command(".other.outcome")).splitlines()), sorted(rows))
        check("there are such orders", bool(rows), True)
        said.append("jq")

    def members(self, kind):
        """The objects of this kind in all reports, with their files."""
        return [(file, one[kind]) for file, report in self.reports.items() for one in report.objects() if kind in one]

    def database(self):
        if not installed("sqlite3"):
            return
        self.run(command("fleet.sql"))
        unclear, days, numbers = collections.defaultdict(list), collections.Counter(), collections.Counter()
        for file, report in self.reports.items():
            _, day, shop, till = file.removesuffix(".trace").split("/")
            days[day] += report.summary()["net"]
            for order in report.orders:
                if order.kind == "payment" and order.outcome[0] == "unclear":
                    unclear[shop].append(order.amount)
            numbers.update((shop, till, entry["trace"]) for entry in report.book)
        rows = [f"{shop}|{len(amounts)}|{sum(amounts)}" for shop, amounts in sorted(unclear.items()) if amounts]
        check("unclear by shop", self.run(command("FROM unclear")).splitlines(), rows)
        check("totals by day", self.run(command("FROM reported")).splitlines(), [f"{day}|{total}" for day, total in sorted(days.items())])
        rows = [f"{shop}|{till}|{number}|{count}" for (shop, till, number), count in sorted(numbers.items()) if count > 1]
        check("numbers seen twice", self.run(command("FROM booked")).splitlines(), rows)
        check("there are such numbers", bool(rows), True)
        said.append("sqlite3")

    def sums(self):
        """The lines that examples/fleet.py must write."""
        shops = collections.defaultdict(collections.Counter)
        for file, report in self.reports.items():
            for shop in (file.split("/")[2], "~all"):
                shops[shop].update(summed(report))
        return ["\t".join(["shop", *COLUMNS]),
                *("\t".join([shop.strip("~"), *(str(row[column]) for column in COLUMNS)]) for shop, row in sorted(shops.items()))]

    def many_machines(self):
        if not installed("dask-scheduler") or not installed("dask-worker"):
            return
        calls, slow = self.folder / "calls", self.folder / "slow"
        slow.write_text(SLOW.format(calls=calls, program=PROGRAM))
        slow.chmod(0o755)
        with Dask(self.folder) as dask:
            words = command("fleet.py --scheduler").replace("tcp://head:8786", f"{dask.address} --batch {BATCH} --zvt {slow}")
            run = subprocess.Popen(["sh", "-c", f"exec {words}"], cwd=self.folder, stdout=subprocess.PIPE, stderr=subprocess.PIPE, text=True)
            batches = -(-(len(self.reports) + 1) // BATCH)
            wait_for(lambda: runs_in(calls) >= batches // 3 or run.poll() is not None)
            before = runs_in(calls)
            dask.kill_worker()
            written, errors = run.communicate(timeout=SECONDS)
        check("the killed worker was in the middle", before < batches, True)
        check("a task ran again", runs_in(calls) > batches, True)
        check("the sums by shop", written.splitlines(), self.sums())
        check("the status, and what is not reported", (run.returncode, re.findall(r"fleet: '([^']*)' is not reported", errors)), (1, [UNREADABLE]))
        done = subprocess.run([DEBIAN_PYTHON, EXAMPLES / "fleet.py", self.folder / "bin"], capture_output=True, text=True, timeout=SECONDS)
        check("a folder without traces", (done.returncode, done.stdout, "there is no FILE.trace" in done.stderr), (4, "", True))
        said.append(f"dask: a worker of two killed after {before} of {batches} tasks, {runs_in(calls)} runs in all")


class Dask:
    """A scheduler and two workers on this machine, which end with the block."""

    def __init__(self, folder):
        self.folder = folder

    def start(self, *words):
        with open(self.folder / "dask.log", "ab") as log:
            return subprocess.Popen(words, cwd=self.folder, stdout=log, stderr=log)

    def __enter__(self):
        at = self.folder / "scheduler.json"
        self.processes = [self.start("dask-scheduler", "--host", "127.0.0.1", "--port", "0", "--no-dashboard", "--scheduler-file", str(at))]
        wait_for(lambda: at.exists() and at.read_text().endswith("}"))
        self.address = json.loads(at.read_text())["address"]
        words = ["--nthreads", "1", "--no-nanny", "--no-dashboard", "--local-directory", str(self.folder)]
        self.processes += [self.start("dask-worker", self.address, *words) for _ in range(2)]
        wait_for(lambda: (self.folder / "dask.log").read_text().count("Registered to") == 2)
        return self

    def kill_worker(self):
        self.processes[-1].kill()

    def __exit__(self, *_):
        for process in self.processes:
            process.kill()
            process.wait()


def summed(report):
    """The row of a trace."""
    summary, looks = report.summary(), [one["look"] for one in report.objects() if "look" in one]
    return {"traces": 1, "amount": summary["unclear_amount"], "acts": sum(look["weight"] == "act" for look in looks),
            **{name: summary[name] for name in ("booked", "net", "unclear", "others", "bad")}}


def runs_in(calls):
    return calls.read_text().count("\n") if calls.exists() else 0


def wait_for(holds):
    end = time.monotonic() + SECONDS
    while not holds():
        if time.monotonic() > end:
            sys.exit("fleet: what was awaited did not come")
        time.sleep(0.02)


def installed(program):
    found = shutil.which(program) is not None
    if not found:
        print(f"fleet: {program} is missing: its recipe was not run")
    return found


def main():
    if not os.access(PROGRAM, os.X_OK):
        print(f"fleet: no program at {PROGRAM}: build it by 'rt run' in crates/zvt, or by 'rt ci'", file=sys.stderr)
        return 2
    with tempfile.TemporaryDirectory() as folder:
        fleet = Fleet(pathlib.Path(folder))
        fleet.books()
        fleet.one_machine()
        fleet.database()
        fleet.many_machines()
    print(f"{check.verdict}: {len(fleet.reports) + 1} traces by {', '.join(said)}: {check.wrong} wrong")
    return check.status


if __name__ == "__main__":
    sys.exit(main())

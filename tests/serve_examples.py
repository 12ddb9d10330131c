#!/usr/bin/env python3
"""Runs the programs of examples/serve against `zvt serve` and a terminal, and compares docs/SERVE.md with them.

Each program begins while there is no service, and pays once there is one. Then its request is repeated, declined, broken off by the
terminal, refused by the service, and told to wait for a running order. Each prints one line, and its status says how it went.
At last the commands of examples/zvt-serve.service start and stop a service.

serve_examples.py [PROGRAM]: the program of `rt ci` without a word. A language whose tool is missing is left out. The status is 1 where
a program does not do so, or where docs/SERVE.md shows other code than it has.
"""
import collections
import os
import pathlib
import re
import shlex
import shutil
import subprocess
import sys
import tempfile
import threading
import time

from common import EXAMPLES, TOP, Checks, program
from serving import NAMES, Moody, Service, free_port

ZVT = program(sys.argv[1:])
SECONDS = 60
FOLDER = EXAMPLES / "serve"
check = Checks()


def languages(work):
    """The command of each program whose tool is there."""
    rows = [("curl", FOLDER / "pay.sh", []), ("python3", FOLDER / "pay.py", [sys.executable]), ("php", FOLDER / "pay.php", ["php"]), ("node", FOLDER / "pay.js", ["node"])]
    found = {file.name: [*before, str(file)] for tool, file, before in rows if shutil.which(tool)}
    if shutil.which("mcs") and shutil.which("mono"):
        made = work / "Pay.exe"
        done = subprocess.run(["mcs", "-r:System.Net.Http.dll", f"-out:{made}", str(FOLDER / "Pay.cs")], capture_output=True, text=True)
        if "CS0006" in done.stderr:
            print("serve_examples: System.Net.Http is missing: Pay.cs was not built", file=sys.stderr)
        elif check("Pay.cs can be built", (done.returncode, done.stderr), (0, "")):
            found["Pay.cs"] = ["mono", str(made)]
    missing = sorted({file.name for file in FOLDER.iterdir()} - set(found))
    if missing:
        print(f"serve_examples: tools are missing: {', '.join(missing)} did not run", file=sys.stderr)
    return found


class Run:
    """A program that pays."""

    def __init__(self, words, service, key, amount):
        self.process = subprocess.Popen([*words, f"http://127.0.0.1:{service.port}", str(service.token_file), key, str(amount)],
            stdout=subprocess.PIPE, stderr=subprocess.PIPE, text=True)

    def ended(self):
        written, reported = self.process.communicate(timeout=SECONDS)
        return self.process.returncode, written, reported


def compare(name, ended, status, word, member):
    """One line, of this word and an answer with this member."""
    code, written, reported = ended
    lines = written.splitlines()
    holds = len(lines) == 1 and lines[0].startswith(f"{word}: {{") and member in lines[0] and lines[0].endswith("}")
    check(name, (code, holds or written, reported), (status, True, ""))


def amount(at, mood):
    return (at + 1) * 100 + NAMES.index(mood)


def alone(found, service, terminal):
    """One run after another."""
    for at, (name, words) in enumerate(found.items()):
        key = f"example-{name}-{{}}".format
        orders = len(terminal.sent)
        for what, mood, status, word, member in [
            ("again", "approves", 0, "paid", '"outcome":"paid"'),
            ("declined", "declines", 1, "not paid", '"code":"6C"'),
            ("unclear", "breaks", 2, "unclear, look at the terminal", '"cause":"Line"'),
        ]:
            first = key("at-first") if what == "again" else key(what)
            compare(f"{name}: {what}", Run(words, service, first, amount(at, mood)).ended(), status, word, member)
        compare(f"{name}: refused", Run(words, service, key("refused-0"), 0).ended(), 3, "refused", '"error":"bad_amount"')
        check(f"{name}: orders at the terminal", len(terminal.sent), orders + 2)


def beside(found, service, terminal):
    """All at once, while another order runs and then each other's."""
    terminal.release.clear()
    other = threading.Thread(target=service.pay, args=("example-runs-first", amount(90, "held")))
    other.start()
    time.sleep(0.3)
    runs = {name: Run(words, service, f"example-{name}-beside", amount(at + 50, "approves")) for at, (name, words) in enumerate(found.items())}
    time.sleep(1.0)
    check("a running order keeps the others waiting", [run.process.poll() for run in runs.values()], [None] * len(runs))
    terminal.release.set()
    other.join()
    for name, run in runs.items():
        compare(f"{name}: beside others", run.ended(), 0, "paid", '"outcome":"paid"')


def unit(folder, terminal):
    """The commands of the unit file start a service, and stop it once the running order has ended."""
    text = (EXAMPLES / "zvt-serve.service").read_text().replace("\\\n", " ")
    state, port = folder / "state", free_port()
    (state / "zvt-serve").mkdir(parents=True)

    def command(name):
        words = re.search(rf"^{name}=(.*)$", text, re.M)[1]
        for sign, value in {"%S": state, "${PORT}": port, "${TERMINAL}": f"127.0.0.1:{terminal.port}", "%%": "%", "$$": "$", "\\\\": "\\"}.items():
            words = words.replace(sign, str(value))
        return shlex.split(words)

    program, *words = command("ExecStart")
    check("the unit starts zvt", program, "zvt")
    service = Service.of([ZVT, *words], state / "zvt-serve/till.token")
    terminal.release.clear()
    check("the service of the unit", service.call("POST", "/payments", "example-unit-0001", {"amount": amount(95, "held")}, Prefer="respond-async").status, 202)
    stop = subprocess.Popen(command("ExecStop"), env={**os.environ, "MAINPID": str(service.process.pid)}, stdout=subprocess.PIPE, stderr=subprocess.PIPE, text=True)
    time.sleep(1)
    check("a stop waits for the running order", (stop.poll(), service.process.poll()), (None, None))
    terminal.release.set()
    check("and the service ends", service.ended(), 0)
    check("and the stop", (*stop.communicate(timeout=SECONDS), stop.returncode), ("{}\n", "", 0))
    check("the running order was paid", amount(95, "held") in terminal.approved, True)


def documented():
    """Each program is named in docs/SERVE.md, and the code there is its code. Returns their number."""
    page = (TOP / "docs/SERVE.md").read_text()
    blocks = re.findall(r"\(\.\./examples/serve/([\w.]+)\)[^`]*?\n\n```\w+\n(.*?)```", page, re.S)
    for name, block in blocks:
        check(f"docs/SERVE.md shows the code of {name}", block in (FOLDER / name).read_text(), True)
    check("docs/SERVE.md shows each program", sorted(name for name, _ in blocks), sorted(file.name for file in FOLDER.iterdir()))
    return len(blocks)


def main():
    with tempfile.TemporaryDirectory() as folder:
        folder = pathlib.Path(folder)
        documented()
        found = languages(folder)
        terminal = Moody()
        service = Service(ZVT, folder, terminal.port, own_port=True)
        service.kill()
        runs = {name: Run(words, service, f"example-{name}-at-first", amount(at, "approves")) for at, (name, words) in enumerate(found.items())}
        time.sleep(1.5)
        check("without a service they try again", [run.process.poll() for run in runs.values()], [None] * len(runs))
        service.start()
        for name, run in runs.items():
            compare(f"{name}: the service comes later", run.ended(), 0, "paid", '"outcome":"paid"')
        alone(found, service, terminal)
        beside(found, service, terminal)
        check("no payment was sent twice", [sent for sent, count in collections.Counter(terminal.sent).items() if count > 1], [])
        service.kill()
        if "pay.sh" in found:
            unit(folder, terminal)
        terminal.stop()
    print(f"{check.verdict}: {len(found)} programs, {check.count} comparisons")
    return check.status


if __name__ == "__main__":
    sys.exit(main())

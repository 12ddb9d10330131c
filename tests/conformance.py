#!/usr/bin/env python3
"""Plays the situations of conformance/ by `zvt check-till` and `zvt check-terminal` against `zvt till` and `zvt terminal`.

    tests/conformance.py [PROGRAM]

PROGRAM is the one that `rt ci` built, unless another is named. conformance/run.py starts the till in each situation, gives it the
steps and compares its outcome. The report in JUnit's form and the lines of TAP are read, by xmllint and prove where these are
installed. A till that does something else is found, and one that resets the line. The status is 1 where anything is not as
expected.
"""
import os
import pathlib
import re
import shutil
import socket
import struct
import subprocess
import sys
import tempfile
import time
import xml.etree.ElementTree as xml

from common import Checks, Listener, TOP, program

KIT = TOP / "conformance"
PROGRAM = program(sys.argv[1:])
SECONDS = 90
check = Checks()


def run(*words, **more):
    done = subprocess.run([PROGRAM, *map(str, words)], capture_output=True, text=True, timeout=SECONDS, **more)
    return done.returncode, done.stdout, done.stderr


def listener(*words):
    """A command of the program that listens."""
    started = Listener([PROGRAM, *words], SECONDS)
    check(f"{' '.join(map(str, words))[:60]} listens", started.port != 0, True)
    return started


def head(file):
    """The comments at the head of a situation, by their words before the colon."""
    lines = file.read_text().split("\n\n")[0].splitlines()
    return dict(line[2:].split(": ", 1) for line in lines)


def situations(folder):
    return sorted((KIT / folder).glob("*.trace"))


def is_tap(name, written, files):
    """One verdict for each situation, in order."""
    lines = [it for it in written.splitlines() if not it.startswith("#")]
    check(f"{name}: the plan", lines[:2], ["TAP version 13", f"1..{len(files)}"])
    check(f"{name}: the verdicts", lines[2:], [f"ok {at} - {it.stem}" for at, it in enumerate(files, 1)])


def is_junit(name, report, files):
    suite = xml.parse(report).getroot()
    check(f"{name}: the report", (suite.tag, suite.get("tests"), suite.get("failures")), ("testsuite", str(len(files)), "0"))
    check(f"{name}: its cases", [it.get("name") for it in suite], [it.stem for it in files])
    if shutil.which("xmllint"):
        done = subprocess.run(["xmllint", "--noout", report], capture_output=True, text=True)
        check(f"{name}: xmllint", (done.returncode, done.stderr), (0, ""))


def tills(folder):
    """The till of this project passes each situation for tills, with the outcome that is named. run.py starts it."""
    report = folder / "till.xml"
    twice = [it for it in situations("till") if "/" in head(it)["Steps"]]
    files = [it for it in situations("till") if it not in twice]
    check("there are 40 situations for tills", len(files) >= 40, True)
    command = [PROGRAM, "till", "--timeout", "5", "--port", "{port}", "{steps}"]
    done = subprocess.run([sys.executable, str(KIT / "run.py"), "--kit", PROGRAM, "--jobs", "8", "--junit", str(report), *map(str, files), "--", *command], capture_output=True, text=True, timeout=300)
    check("run.py", (done.returncode, done.stderr), (0, ""))
    is_tap("run.py", done.stdout, files)
    is_junit("run.py", report, files)
    (folder / "till.tap").write_text(done.stdout)
    if shutil.which("prove"):
        done = subprocess.run(["prove", "-e", "cat", folder / "till.tap"], capture_output=True, text=True)
        check("prove", (done.returncode, "Result: PASS" in done.stdout), (0, True))
    # What is started twice keeps its book.
    check("three situations start a till twice", len(twice), 3)
    words = ["--kit", PROGRAM, *map(str, twice), "--", PROGRAM, "till", "--port", "{port}", "--book", "{book}", "--no-ask", "{steps}"]
    done = subprocess.run([sys.executable, str(KIT / "run.py"), *words], capture_output=True, text=True, timeout=SECONDS)
    check("run.py: tills that are started twice", (done.returncode, done.stderr), (0, ""))
    is_tap("tills that are started twice", done.stdout, twice)
    # JSON has the outcome too, and another outcome than the named one is found.
    for name, kind, wanted in ("approval", "--json", 0), ("approval", "--loose", 0), ("padded-length", "--loose", 1):
        words = ["--kit", PROGRAM, str(KIT / "till" / f"{name}.trace"), "--", PROGRAM, "till", kind, "--port", "{port}", "{steps}"]
        done = subprocess.run([sys.executable, str(KIT / "run.py"), *words], capture_output=True, text=True, timeout=SECONDS)
        check(f"run.py: {name} {kind}", done.returncode, wanted)


def terminals(folder):
    """The terminal of this project passes each situation for terminals, each with a new ledger."""
    files = situations("terminal")
    check("there are 20 situations for terminals", len(files) >= 20, True)
    for file in files:
        words = re.findall(r"--\w+ \S+", head(file).get("Needs", ""))
        terminal = listener("terminal", "--port", 0, *" ".join(words).split())
        report = folder / "terminal.xml"
        status, written, told = run("check-terminal", "--port", terminal.port, "--junit", report, file)
        check(f"{file.stem}: check-terminal", (status, told), (0, ""))
        is_tap(f"{file.stem}", written, [file])
        is_junit(file.stem, report, [file])
        terminal.process.kill()
        terminal.process.communicate()


def terminals_in_use():
    """A terminal that was paid at fifty times passes all situations, one after another. It counts on, and declines where it is to."""
    declines = [it for it in situations("terminal") if "--decline" in head(it).get("Needs", "")]
    others = [it for it in situations("terminal") if it not in declines]
    check("some situations want a decline", len(declines) >= 1, True)
    for words, files, last in ([], others, "pay:1 -> paid trace 000050 receipt 0050"), (["--decline", "6C"], declines, "pay:1 -> aborted 6C"):
        terminal = listener("terminal", "--port", 0, "--connections", 0, *words)
        status, written, told = run("till", "--port", terminal.port, "register", *50 * ["pay:1"])
        check("fifty payments", (status, told, written.count("pay:1 -> "), written.splitlines()[50][:len(last)]), (0, "", 50, last))
        status, written, told = run("check-terminal", "--port", terminal.port, *files)
        check(f"after fifty payments: check-terminal {' '.join(words)}", (status, told), (0, ""))
        is_tap(f"after fifty payments {' '.join(words)}", written, files)
        terminal.process.kill()
        terminal.process.communicate()


def verdicts(kit, count):
    """The next verdicts of the kit."""
    found = []
    while len(found) < count and (line := kit.process.stdout.readline()):
        if re.match("(not )?ok ", line):
            found.append(line.rstrip())
    return found


def differences(folder):
    """What is not passed is told, and the other situations are played."""
    files = [KIT / "till" / f"{it}.trace" for it in ("approval", "decline", "approval-with-receipt")]
    report = folder / "differs.xml"
    kit = listener("check-till", "--listen", 0, "--junit", report, *files)
    found = []
    for steps in ("register pay:1000", "register close", "register pay:1000"):
        run("till", "--port", kit.port, *steps.split())
        found += verdicts(kit, 1)
    check("another order: the verdicts", found, ["ok 1 - approval", "not ok 2 - decline", "ok 3 - approval-with-receipt"])
    status = kit.ended()[0]
    counts("another order", report, "3", "1", "0")
    agree("another order", "TAP version 13\n1..3\n" + "\n".join(found) + "\n", report, status, 1, 0)


def agree(name, written, report, status, failures, errors):
    """TAP, JUnit and the exit status say the same of what is not passed, and xmllint and prove can read both."""
    bad = len(re.findall("^not ok ", written, re.M))
    check(f"{name}: TAP and JUnit", bad, failures + errors)
    check(f"{name}: the status", status, 1 if bad else 0)
    if shutil.which("xmllint"):
        done = subprocess.run(["xmllint", "--noout", report], capture_output=True, text=True)
        check(f"{name}: xmllint", (done.returncode, done.stderr), (0, ""))
    if shutil.which("prove"):
        lines = report.with_suffix(".tap")
        lines.write_text(written)
        done = subprocess.run(["prove", "-e", "cat", lines], capture_output=True, text=True)
        check(f"{name}: prove", (done.returncode != 0, "Result: FAIL" in done.stdout), (bad > 0, bad > 0))


def run_py_fails(folder):
    """run.py tells another outcome as a failure, and a till that can't be started as an error."""
    for name, command, failures, errors in [("fails", [PROGRAM, "till", "--port", "{port}", "register"], 1, 0), ("errs", [str(folder / "none")], 0, 1)]:
        report = folder / f"run-{name}.xml"
        words = ["--kit", PROGRAM, "--junit", str(report), str(KIT / "till" / "approval.trace"), "--", *command]
        done = subprocess.run([sys.executable, str(KIT / "run.py"), *words], capture_output=True, text=True, timeout=SECONDS)
        counts(f"run.py {name}", report, "1", str(failures), str(errors))
        agree(f"run.py {name}", done.stdout, report, done.returncode, failures, errors)


def counts(name, report, tests, failures, errors):
    suite = xml.parse(report).getroot()
    check(f"{name}: the report", [suite.get(it) for it in ("tests", "failures", "errors")], [tests, failures, errors])
    check(f"{name}: its cases", [str(len(suite.findall(f".//{it}"))) for it in ("testcase", "failure", "error")], [tests, failures, errors])


def broken_lines(folder):
    """A till that resets the line is not passed, and the next situation is played."""
    trace, report = folder / "resets.trace", folder / "resets.xml"
    trace.write_text("> 06 00\n#~ 300\n" + 3 * "< 80 00 00\n#~ 100\n")
    kit = listener("check-till", "--listen", 0, "--junit", report, trace, KIT / "till" / "approval.trace")
    with socket.create_connection(("127.0.0.1", int(kit.port)), SECONDS) as line:
        line.setsockopt(socket.SOL_SOCKET, socket.SO_LINGER, struct.pack("ii", 1, 0))
        line.sendall(bytes.fromhex("06000600 0000BE0978".replace(" ", "")))
        time.sleep(0.1)
    found = verdicts(kit, 1)
    run("till", "--port", kit.port, "register", "pay:1000")
    found += verdicts(kit, 1)
    check("a reset", found, ["not ok 1 - resets", "ok 2 - approval"])
    status = kit.ended()[0]
    counts("a reset", report, "2", "0", "1")
    agree("a reset", "TAP version 13\n1..2\n" + "\n".join(found) + "\n", report, status, 0, 1)
    status, written, _ = run("check-terminal", "--port", 1, "--junit", report, KIT / "terminal" / "payment.trace", KIT / "terminal" / "decline.trace")
    check("nobody listens: the verdicts", (status, "Bail out!" in written, "ok 1" in written), (4, True, False))
    counts("nobody listens", report, "2", "0", "2")


def wrong_words(folder):
    """Nothing is opened where a word or a file is wrong."""
    bad = folder / "bad.trace"
    bad.write_text("> 06 0F 01 D0\n")
    approval = KIT / "till" / "approval.trace"
    for name, words, wanted in [
        ("no situation", ["check-till", "--listen", 0], (2, "zvt: name the situations to play, e.g. conformance/till/*.trace\n")),
        ("port 0", ["check-terminal", "--port", 0, approval], (2, "zvt: invalid port '0': give the port that the terminal listens on\n")),
        ("no file", ["check-till", "--listen", 0, approval, folder / "none"], (4, f"zvt: '{folder}/none': cannot open the trace: ")),
        ("no message", ["check-till", "--listen", 0, approval, bad], (3, f"zvt: '{bad}': line 1 of the trace: invalid at byte")),
        ("nobody listens", ["check-terminal", "--port", 1, approval], (4, "zvt: no connection: connection refused")),
    ]:
        status, written, told = run(*words)
        check(name, (status, told[:len(wanted[1])]), wanted)
        check(f"{name}: nothing passes", "ok 1" in written, False)


def main():
    if not os.access(PROGRAM, os.X_OK):
        print(f"conformance: no program at {PROGRAM}: build it by 'rt run' in crates/zvt, or by 'rt ci'", file=sys.stderr)
        return 2
    with tempfile.TemporaryDirectory() as name:
        folder = pathlib.Path(name)
        tills(folder)
        terminals(folder)
        terminals_in_use()
        differences(folder)
        broken_lines(folder)
        run_py_fails(folder)
        wrong_words(folder)
    if not check.failed:
        print(f"ok: {len(situations('till'))} situations for tills, {len(situations('terminal'))} for terminals")
    return check.status


if __name__ == "__main__":
    sys.exit(main())

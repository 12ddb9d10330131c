#!/usr/bin/env python3
"""Plays against each wrong till and terminal of tests/wrong the situation that it names, which must find it.

    tests/wrong_programs.py [PROGRAM]

PROGRAM, which plays the situations, is the one that `rt ci` built, unless another is named. The small till and terminal
without a fault pass each of these situations. The status is 1 where a program is not found by it.
"""
import concurrent.futures
import re
import subprocess
import sys

from common import TOP, program

PROGRAM = program(sys.argv[1:])
WRONG = TOP / "tests/wrong"


def named(program):
    return re.search(r"Found by: ([\w-]+)\.", program.read_text(encoding="ascii"))[1]


# The small till words these outcomes in its own way, so its messages alone are compared there.
WORDED = {"decline", "refused-registration", "malformed-length"}


def play_till(program, situation):
    only = ["--messages-only"] if situation in WORDED else []
    words = ["--kit", PROGRAM, *only, str(TOP / f"conformance/till/{situation}.trace"), "--", sys.executable, str(program), "{port}", "{book}", "{steps}"]
    return subprocess.run([sys.executable, str(TOP / "conformance/run.py"), *words], capture_output=True, text=True, timeout=200)


def play_terminal(program, situation):
    terminal = subprocess.Popen([sys.executable, str(program)], stdout=subprocess.PIPE, text=True)
    port = terminal.stdout.readline().strip()
    try:
        return subprocess.run([PROGRAM, "check-terminal", "--port", port, str(TOP / f"conformance/terminal/{situation}.trace")], capture_output=True, text=True, timeout=200)
    finally:
        terminal.kill()
        terminal.communicate()


def main():
    tills, terminals = (sorted((WRONG / it).glob("*.py")) for it in ("tills", "terminals"))
    with concurrent.futures.ThreadPoolExecutor(8) as pool:
        found = [(it, pool.submit(play_till, it, named(it))) for it in tills] + [(it, pool.submit(play_terminal, it, named(it))) for it in terminals]
        right = [(it, pool.submit(play_till, WRONG / "right_till.py", it)) for it in sorted({named(it) for it in tills})]
        right += [(it, pool.submit(play_terminal, WRONG / "right_terminal.py", it)) for it in sorted({named(it) for it in terminals})]
        missed = []
        for program, played in found:
            done = played.result()
            if done.returncode != 1 or "not ok 1" not in done.stdout:
                missed.append(program.stem)
                print(f"NOT FOUND: {program.stem}: status {done.returncode}: {done.stdout}{done.stderr}")
        for situation, played in right:
            if played.result().returncode:
                missed.append(situation)
                print(f"NOT PASSED without a fault: {situation}: {played.result().stdout}")
    if not missed:
        print(f"ok: {len(tills)} wrong tills and {len(terminals)} wrong terminals are found, each by the situation that it names")
    return 1 if missed else 0


if __name__ == "__main__":
    sys.exit(main())

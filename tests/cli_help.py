#!/usr/bin/env python3
"""Gives the program command lines, and compares what it says of them and the status that it ends with.

    tests/cli_help.py [PROGRAM]

PROGRAM is the one that `rt ci` built, unless another is named. The status is 1 where anything is not as expected. It takes
some seconds.
"""
import os
import subprocess
import sys

from common import Checks, TOP, program

PROGRAM = program(sys.argv[1:])
COMMANDS = ["show", "join", "normalise", "audit", "report", "receipts", "vectors", "book", "loop", "till", "terminal", "tap", "serve", "play", "check-till", "check-terminal"]
USAGE = f"Usage: zvt [{'|'.join(COMMANDS)}]"
TILL, TERMINAL = ["till", "--port", "1"], ["terminal", "--port", "1"]
# Words that make no command, and what is said of them.
REFUSED = [
    ("pay", f"error: unrecognized subcommand 'pay'\n\n  tip: a similar subcommand exists: 'play'\n\n{USAGE}\n"),
    ("receipt", f"error: unrecognized subcommand 'receipt'\n\n  tip: a similar subcommand exists: 'receipts'\n\n{USAGE}\n"),
    ("show --check x y", "error: unexpected argument '--check' found\n"),
    ("--port 1", "error: unexpected argument '--port' found\n"),
    ("join --loose", "error: unexpected argument '--loose' found\n"),
    ("book", "error: the following required arguments were not provided:\n  <FILE>...\n"),
    ("book --check x", "error: unexpected argument '--check' found\n"),
    ("loop --book", "error: a value is required for '--book <FILE>' but none was supplied\n"),
    ("till close", "error: the following required arguments were not provided:\n  --port <PORT>\n"),
    ("terminal", "error: the following required arguments were not provided:\n  --port <PORT>\n"),
    ("till --port=65536", "error: invalid value '65536' for '--port <PORT>': 65536 is not in 0..=65535\n"),
    ("till --port=x", "error: invalid value 'x' for '--port <PORT>': invalid digit found in string\n"),
    ("terminal --port=1 --tid=100000000", "error: invalid value '100000000' for '--tid <TID>': 100000000 is not in 0..=99999999\n"),
    ("terminal --port=1 --delay=65536", "error: invalid value '65536' for '--delay <MS>': 65536 is not in 0..=65535\n"),
    ("terminal --port=1 --connections=65536", "error: invalid value '65536' for '--connections <N>': 65536 is not in 0..=65535\n"),
    ("terminal --port=1 register", "error: unexpected argument 'register' found\n\nUsage: zvt terminal [OPTIONS] --port <PORT>\n"),
    ("till --port=1 --timeout=65536", "error: invalid value '65536' for '--timeout <SECONDS>': 65536 is not in 0..=65535\n"),
    ("report --open", "error: unexpected argument '--open' found\n"),
    ("report --follow x", "error: unexpected argument '--follow' found\n"),
    ("audit --html", "error: unexpected argument '--html' found\n"),
    ("loop --open", "error: unexpected argument '--open' found\n"),
    ("loop --timeout 1", "error: unexpected argument '--timeout' found\n"),
    ("loop --close-by-completion", "error: unexpected argument '--close-by-completion' found\n"),
    ("loop --reversal-by-receipt", "error: unexpected argument '--reversal-by-receipt' found\n"),
    ("till --port=1 --reversal-by-receipt --reversal-by-receipt", "error: the argument '--reversal-by-receipt' cannot be used multiple times\n"),
    ("till --port=1 --no-times --no-times", "error: the argument '--no-times' cannot be used multiple times\n"),
    ("loop --no-times=1", "error: unexpected value '1' for '--no-times' found; no more were expected\n"),
    ("show --no-times", "error: unexpected argument '--no-times' found\n"),
    ("till --port=1 --close-by-completion --close-by-completion", "error: the argument '--close-by-completion' cannot be used multiple times\n"),
    ("terminal --port=1 --show", "error: unexpected argument '--show' found"),
    ("tap --listen 1", "error: the following required arguments were not provided:\n  --to <ADDRESS>\n"),
    ("tap", "error: the following required arguments were not provided:\n  --listen <ADDRESS>\n  --to <ADDRESS>\n"),
    ("tap --listen 1 --to h:2 --connections=x", "error: invalid value 'x' for '--connections <N>': invalid digit found in string\n"),
    ("serve --port 1 --terminal h:2 --book b", "error: the following required arguments were not provided:\n  --token-file <FILE>\n"),
    ("serve --port 1 --terminal h:2 --book b --token-file t --trace", "error: a value is required for '--trace <FILE>' but none was supplied\n"),
    ("serve --port 1 --terminal h:2 --book b --token-file t --earlier", "error: a value is required for '--earlier <FILE>' but none was supplied\n"),
    ("serve --port 1 --terminal h:2 --book b --token-file t --trace x --trace y", "error: the argument '--trace <FILE>' cannot be used multiple times\n"),
    ("serve --port 1 --terminal h:2 --book b --token-file t --no-ask=1", "error: unexpected value '1' for '--no-ask' found; no more were expected\n"),
    ("play --port=65536", "error: invalid value '65536' for '--port <PORT>': 65536 is not in 0..=65535\n"),
    ("play --till", "error: a value is required for '--till <FILE>' but none was supplied\n"),
    ("check-till x.trace", "error: the following required arguments were not provided:\n  --listen <PORT>\n"),
    ("play --open --open", "error: the argument '--open' cannot be used multiple times\n"),
    ("check-till --listen 1 --open=1 x", "error: unexpected value '1' for '--open' found; no more were expected\n"),
    ("check-terminal --listen 1", "error: unexpected argument '--listen' found\n"),
    ("check-till --listen 1 --junit", "error: a value is required for '--junit <FILE>' but none was supplied\n"),
    ("join --resync", "error: unexpected argument '--resync' found\n"),
    ("receipts --safe", "error: unexpected argument '--safe' found\n"),
    ("join --explain", "error: unexpected argument '--explain' found\n"),
    ("show --text-blocks", "error: unexpected argument '--text-blocks' found\n"),
    ("receipts --codepage", "error: a value is required for '--codepage <PAGE>' but none was supplied\n"),
    ("till --port=1 --port=2", "error: the argument '--port <PORT>' cannot be used multiple times\n"),
]
# Words that name no step of a loop: amounts, entries and codes that are none, and none of the names.
NO_STEPS = """Register pay pay: pay:0 pay:0000 pay:1234567890123 pay:+1 pay:1a reverse:0 reverse:-1 decline:1:00 decline:1:6
decline:1:6G decline:1:6C0 decline:0:6C decline::6C decline:6C closed""".split() + ["", "register ", "pay: 1", "decline:1 6C"]
# Settings that are none, behind the words of their command, and what is said.
NO_SETTINGS = [
    ([*TILL, "--password"], ["", "00000", "0000000", "00000a", "+00000"], "invalid password '{}': expected six decimal digits, e.g. 000000"),
    ([*TILL, "--config"], ["", "B", "0BE", "BG", "+1"], "invalid configuration byte '{}': expected two hexadecimal digits, e.g. BE"),
    ([*TILL, "--currency"], ["", "978", "09780", "097a", "+978"], "invalid currency '{}': expected four decimal digits, e.g. 0978"),
    ([*TILL, "--timeout"], ["0"], "invalid number of seconds '{}': expected 1 to 65535"),
    (["receipts", "--codepage"], ["", "cp437", "852", "UTF-8", "utf8"], "invalid code page '{}': expected 437, 850, iso-8859-1 or utf-8"),
    ([*TERMINAL, "--decline"], ["", "00", "6", "06C", "6G"], "invalid result code '{}': expected two hexadecimal digits other than 00, e.g. 6C"),
    ([*TERMINAL, "--card"], ["", "Visa", "visa ", "maestro"], "invalid card '{}': expected girocard or visa"),
    ([*TERMINAL, "--receipt"], ["", "line", "Blocks", "no"], "invalid form of receipts '{}': expected lines, blocks or none"),
]
STEPS = """register -> registered
pay:1 -> paid trace 000001 receipt 0001
pay:000000000002 -> paid trace 000002 receipt 0002
pay:999999999999 -> paid trace 000003 receipt 0003
decline:1:B5 -> aborted B5 reversal not possible
decline:01:b5 -> aborted B5 reversal not possible
decline:0001:fF -> aborted FF system error
reverse:2 -> reversed
reverse:10001 -> not sent: UnknownEntry
close -> day closed
total 1000000000000
"""
UNSENT = "zvt: reverse:10001 was not sent (UnknownEntry): the book has no such entry\n"
HELP = ["register", "pay:N", "decline:N:XX", "reverse:N", "pay:N:ref=R", "close", "> HEX", "Exit status:", *(f"\n  {it} " for it in COMMANDS)]
checks = Checks()


def run(*words):
    done = subprocess.run([PROGRAM, *words], stdin=subprocess.DEVNULL, capture_output=True, timeout=60)
    return done.returncode, done.stdout.decode(), done.stderr.decode()


def check(words, is_right, found):
    if not is_right:
        checks.differs(words, found)


def is_refused(words, said):
    """The command line writes nothing, ends with 2, and says this."""
    status, written, told = found = run(*words)
    check(words, status == 2 and not written and told.startswith(said), found)


def has_words(words, wanted):
    """The command line writes a text with each of the words, and ends with 0."""
    status, written, told = found = run(*words)
    check(words, status == 0 and not told and all(it in written for it in wanted), found)


def main():
    if not os.access(PROGRAM, os.X_OK):
        print(f"cli_help: no program at {PROGRAM}: build it by 'rt run' in crates/zvt, or by 'rt ci'", file=sys.stderr)
        return 2
    for line, said in REFUSED:
        is_refused(line.split(), said)
    for word in NO_STEPS:
        is_refused(["loop", word], f"zvt: '{word}': invalid step 1: ")
    is_refused([*TILL, "decline:1:6C"], "zvt: 'decline:1:6C': invalid step 1: ")
    for words, settings, said in NO_SETTINGS:
        for setting in settings:
            is_refused([*words, setting], f"zvt: {said.format(setting)}\n")
    steps = [line.split(" ")[0] for line in STEPS.splitlines()[:-1]]
    found = run("loop", *steps)
    check(steps, found == (0, STEPS, UNSENT), found)
    found = run("--version")
    version = (TOP / "VERSION").read_text("ascii")
    check("--version", found == (0, f"zvt {version}", ""), found)
    has_words(["--help"], HELP)
    for command in COMMANDS:
        has_words([command, "--help"], [f"Usage: zvt {command}", f"Example:\n  zvt {command} "])
    for command in ("loop", "till", "terminal", "tap"):
        has_words([command, "--help"], ["--no-times", "Write no time marks into the trace"])
    if not checks.failed:
        print("ok: command lines, the words of steps and settings, and help")
    return checks.status


if __name__ == "__main__":
    sys.exit(main())

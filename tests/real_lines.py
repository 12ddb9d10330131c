#!/usr/bin/env python3
"""Audits dialogues as shops have them, which say more than the payment profile, strictly and with `--open`.

    tests/real_lines.py [PROGRAM]

PROGRAM is the one that `rt ci` built, unless another is named. The traces of tests/data/real were written after the standard:
full status information, status enquiries, a repeated receipt, a refund, a tip, padded containers. The table has the books of
each by hand. What `audit` does not follow is said on standard error, and `--check` ends with 1 there. `receipts` and `show` read
on as well. The status is 1 where anything is not as expected.
"""
import subprocess
import sys

from common import Checks, TOP, program

PROGRAM = program(sys.argv[1:])
TRACES = TOP / "tests/data/real"
PAID = "booked 1234 trace 000017 receipt 0005\ntotal 1234\n"
ADVICE, UNFOLLOWED = "read on with --open", "(refund) is not followed"

# A trace and the words of `audit`, the books, the status, the status with --check, and what standard error says.
BOOKS = [
    ("registration-with-tlv", [], "total 0\n", 0, 0, None),
    ("girocard", [], PAID, 0, 0, None),
    ("girocard", ["--open"], PAID, 0, 0, None),
    ("close-without-result", [], "total 0\n", 0, 0, None),
    ("status-enquiry", [], "total 0\n", 1, 1, ADVICE),
    ("status-enquiry", ["--open"], PAID, 0, 0, "Completion refused at 3, byte F0"),
    ("status-enquiry-with-version", [], "total 0\n", 1, 1, ADVICE),
    ("status-enquiry-with-version", ["--open"], PAID, 0, 0, "Completion refused at 3, byte F0"),
    ("repeat-receipt", [], "unclear 1234 Line\ntotal 0\n", 0, 1, None),
    ("repeat-receipt", ["--open"], "unclear 1234 Line\ntotal 0\n", 0, 1, None),
    ("reversal-and-refund", [], PAID, 0, 1, UNFOLLOWED),
    ("reversal-and-refund", ["--open"], PAID, 0, 1, UNFOLLOWED),
    ("padded-container", [], "unclear 1234 Malformed\ntotal 0\n", 1, 1, ADVICE),
    ("padded-container", ["--open"], "unclear 1234 Conflict\ntotal 0\n", 0, 1, "Status refused"),
    ("padded-container", ["--loose"], PAID, 0, 0, None),
    ("tip", [], "unclear 5000 AmountDiffers\ntotal 0\n", 0, 1, None),
]


def main():
    check = Checks()
    for name, words, books, status, checked, said in BOOKS:
        path = str(TRACES / f"{name}.trace")
        for more, wanted in ([], status), (["--check"], checked), (["--follow"], status), (["--follow", "--check"], checked):
            done = subprocess.run([PROGRAM, "audit", *words, *more, path], capture_output=True, text=True, timeout=60)
            check(f"audit {words + more} of {name}", (done.returncode, done.stdout), (wanted, books))
            if "--follow" not in more and (said or "") not in done.stderr:
                check.differs(f"audit {words + more} of {name}", f"standard error lacks {said!r}: {done.stderr}")
    shown = {}
    for word in "--open", "--resync", "--json":
        done = subprocess.run([PROGRAM, "show", word, str(TRACES / "status-enquiry.trace")], capture_output=True, timeout=60)
        shown[word] = done.stdout
    check("show --resync is show --open", shown["--resync"], shown["--open"])
    check("show --open reads on", b"stopped" in shown["--open"], False)
    check("show stops", b"stopped" in shown["--json"], True)
    print(f"{check.verdict}: {check.count} runs over dialogues of shops, {check.wrong} wrong")
    return check.status


if __name__ == "__main__":
    sys.exit(main())

"""Pays at a terminal over TCP: till.py LIBRARY HOST PORT [BOOK STEP...] Start `zvt terminal --port PORT` first.

A step is register, pay:CENTS, reverse:PAYMENT (from 1), close or ask, and BOOK is the file of the till's book. Without them it
shows what the class can do.
"""
import sys

import zvt


def main():
    if len(sys.argv) > 4:
        return run(sys.argv[4], sys.argv[5:])
    saves = []
    with zvt.Till(sys.argv[1], keep=saves.append, print_line=show, codepage=zvt.Codepage.CP437) as till:
        till.connect(sys.argv[2], int(sys.argv[3]))
        print(f"register -> {till.register()}")
        print(f"pay:1000 -> {till.pay(1000)}")
        try:
            till.reverse(7)
        except zvt.Refused as refused:
            print(f"reverse:7 -> refused: {refused}")
        print(f"pay:500 -> {till.pay(500)}")
        print(f"reverse:1 -> {till.reverse(1)}")
        print(f"close -> {till.close_day()}")
        report(till)
        print(f"saved {len(saves)} times")
    # As after a restart of the process, from what stood on the disk before the payment went out, and before the reversal
    # went out: it is unclear.
    for saved in saves[2], saves[6]:
        with zvt.Till(sys.argv[1]) as till:
            till.load(saved)
            report(till)


def run(book, steps):
    """Runs the steps, and writes a line of each."""
    with zvt.Till(sys.argv[1], print_line=show, book=book, codepage=zvt.Codepage.CP437) as till:
        till.connect(sys.argv[2], int(sys.argv[3]))
        for step in steps:
            print(f"{step} -> {outcome(till, *step.split(':'))}")
        report(till)


def outcome(till, name, number="0"):
    """How a step ended."""
    order = {"register": till.register, "pay": lambda: till.pay(int(number)), "reverse": lambda: till.reverse(int(number) - 1), "close": till.close_day,
             "ask": lambda: till.ask() or "nothing settled"}
    try:
        return order[name]()
    except zvt.LineError as lost:
        return f"{lost.outcome}, and the line is lost"
    except zvt.Refused as refused:
        return f"refused: {refused}"


def show(line):
    print(f"  | {line}")


def report(till):
    for entry in till.book():
        print(f"booked {entry}")
    for entry in till.unclear():
        print(f"unclear {entry}")
    for one in till.settled():
        print(f"settled {one}, {one.place}")
    print(f"total {till.state().total}")


main()

"""What zvt.py owes a shop that asks what became of an unclear order: ask_check.py LIBRARY PROGRAM. A terminal's bytes are played to
a till over a pair of sockets, without a book and with one; then the till asks at the terminal of PROGRAM, the program `zvt`."""
import os
import socket
import subprocess
import sys
import tempfile
import time

import zvt
import zvt_journal
from book_check import ACKNOWLEDGED, AT, COMPLETION, OPENING, REGISTER, Shop, checked
from till_check import ACK, DONE, LINE, PAID, Terminal, goes_to, holds, loses_the_line, till_at

# 1234 under the trace number 17 is PAID. 777 under 18; 500 under 19; and the reversal of 17.
SECOND = "040F1027000400000000" + "07770B00001887" + "0006"
OTHER = "040F1027000400000000" + "05000B00001987" + "0007"
REVERSED = "040F142700040000000012340B00001887" + "0006" + "37000017"
FIRST = PAID[6:-6]
WAS_PAID = zvt.Settlement(zvt.SettlementKind.PAID, 0, 18, 6)
ASK = checked(f"# ask at {AT}\n> 062003000000\n")


def breaks(order, *heard, till=None):
    """A terminal, and a till that paid 1234 at the one before, lost its line within an order, and registered again."""
    terminal = Terminal()
    if till is None:
        till = till_at(terminal)
    else:
        goes_to(terminal, till)
    terminal.says(PAID)
    assert till.pay(1234).ending == zvt.Ending.PAID and till.knows_last() and till.pending() is None
    terminal.says("".join(heard))
    terminal.end.shutdown(socket.SHUT_WR)
    assert loses_the_line(lambda: order(till)).ending == zvt.Ending.UNCLEAR
    terminal = Terminal()
    goes_to(terminal, till)
    return terminal, till


def pays(till):
    return till.pay(777)


def reverses(till):
    return till.reverse(0)


def asks(till, terminal, answer):
    """What an ask settles, and whether its bytes went out alone."""
    terminal.was_sent()
    terminal.says(answer)
    settled = till.ask()
    assert terminal.was_sent().startswith("062003000000"), "an ask goes out with the password"
    assert not till.state().asking and till.state().running is None
    return settled


def an_answer_settles_a_payment():
    # nothing was heard, the acknowledgement was, or the status was
    for heard in ((), (ACK,), (ACK, SECOND)):
        for said, wanted in ((SECOND, WAS_PAID), (FIRST, zvt.Settlement(zvt.SettlementKind.NOT_PAID, 0))):
            terminal, till = breaks(pays, *heard)
            assert till.pending() == zvt.Pending(zvt.PendingKind.PAYMENT, 0) and not till.knows_last() and till.settled() == []
            assert asks(till, terminal, ACK + said + DONE) == wanted
            assert till.settled() == [wanted] and till.state().settled == 1 and till.pending() is None and till.knows_last()
            # the book and the list of unclear payments stay
            assert len(till.book()) == 1 and len(till.unclear()) == 1 and till.state().total == 1234
            assert asks(till, terminal, ACK + said + DONE) is None and till.settled() == [wanted]
    assert str(WAS_PAID) == "paid, trace 000018, receipt 0006" and str(till.settled()[0]) == "not paid"


def an_answer_settles_a_reversal():
    for said, wanted in ((REVERSED, zvt.SettlementKind.REVERSED), (FIRST, zvt.SettlementKind.NOT_REVERSED)):
        terminal, till = breaks(reverses, ACK)
        assert till.pending() == zvt.Pending(zvt.PendingKind.REVERSAL, 0)
        assert asks(till, terminal, ACK + said + DONE) == zvt.Settlement(wanted, 0)
        assert till.book()[0].doubt == zvt.Doubt.UNCLEAR_REVERSAL and not till.book()[0].reversed


def an_ask_that_is_refused_or_aborted_settles_nothing():
    terminal, till = breaks(pays)
    for answer in ("848300", ACK + "061E0183", ACK + DONE):
        assert asks(till, terminal, answer) is None and till.pending() is not None and till.settled() == []
    assert asks(till, terminal, ACK + SECOND + DONE) == WAS_PAID


def another_answer_leaves_the_order_unclear_for_good():
    terminal, till = breaks(pays)
    assert asks(till, terminal, ACK + OTHER + DONE) is None and till.pending() is None and till.knows_last()
    assert asks(till, terminal, ACK + SECOND + DONE) is None and till.settled() == []


def an_order_in_between_leaves_it_unclear_for_good():
    terminal, till = breaks(pays)
    terminal.says(ACK + "061E016C")
    assert till.pay(1).ending == zvt.Ending.ABORTED and till.pending() is None
    assert asks(till, terminal, ACK + SECOND + DONE) is None and till.settled() == []


def an_ask_makes_the_last_status_known():
    terminal = Terminal()
    till = till_at(terminal)
    assert not till.knows_last() and asks(till, terminal, ACK + FIRST + DONE) is None and till.knows_last()
    terminal.end.shutdown(socket.SHUT_WR)
    loses_the_line(lambda: pays(till))
    terminal = Terminal()
    goes_to(terminal, till)
    assert asks(till, terminal, ACK + SECOND + DONE) == WAS_PAID


def a_line_that_breaks_ends_an_ask():
    for heard in ("", ACK, ACK + SECOND):
        terminal, till = breaks(pays)
        terminal.says(heard)
        terminal.end.shutdown(socket.SHUT_WR)
        try:
            till.ask()
            assert False, "the line broke"
        except zvt.LineError as lost:
            assert lost.outcome is None and str(lost) == "the line is lost", lost
        assert not till.state().asking and till.pending() is not None and till.settled() == []
        terminal = Terminal()
        goes_to(terminal, till)
        assert asks(till, terminal, ACK + SECOND + DONE) == WAS_PAID


def lines_are_printed_again():
    terminal, lines = Terminal(), []
    till = till_at(terminal, print_line=lines.append)
    assert asks(till, terminal, ACK + FIRST + LINE + DONE) is None and lines == [b"Thanks"]


def an_ask_is_refused_like_an_order():
    with zvt.Till(sys.argv[1]) as till:
        try:
            till.ask()
            assert False, "the line is down"
        except zvt.Refused as refused:
            assert refused.status == zvt.Status.OFFLINE
        for error, reference in ((ValueError, "two words"), (ValueError, ""), (TypeError, 7)):
            try:
                till.ask(reference=reference)
                assert False, reference
            except error:
                pass


def a_callback_that_asks_is_refused():
    terminal, raised = Terminal(), []

    def asks_within(_line):
        try:
            till.ask()
        except RuntimeError as error:
            raised.append(str(error))
    till = till_at(terminal, print_line=asks_within)
    terminal.says(ACK + FIRST + LINE + DONE)
    till.ask()
    assert raised == ["a callback can't give its till an order, a line or up"], raised


def a_loaded_till_has_nothing_pending():
    terminal, till = breaks(pays)
    with zvt.Till(sys.argv[1]) as again:
        again.load(till.save())
        assert again.pending() is None and not again.knows_last() and len(again.unclear()) == 1
        goes_to(terminal, again)
        assert asks(again, terminal, ACK + SECOND + DONE) is None and again.settled() == []


def a_book_has_its_asks():
    shop = Shop()
    terminal, till = breaks(pays, ACK, till=shop.till())
    events, append, send = [], till.journal.append, till._send

    def noted_append(record):
        append(record)
        events.append(record.decode())

    def noted_send(message):
        assert shop.reads().endswith(events[-1] + "\n"), "a record is durable before the bytes are sent"
        events.append(message.hex().upper())
        send(message)
    till.journal.append, till._send = noted_append, noted_send
    assert asks(till, terminal, ACK + SECOND + DONE) == WAS_PAID
    wanted = [ASK, "062003000000", ACKNOWLEDGED, checked(f"< {SECOND}\n> 800000\n"), ACK, COMPLETION, ACK]
    assert events == wanted, events
    till.close()
    # after each of its records, as after a crash there
    before = shop.reads()[:-1].removesuffix("".join(wanted[at] for at in (0, 2, 3, 5)))
    for count, settled in enumerate(([], [], [], [], [WAS_PAID])):
        text = before + "".join([wanted[at] for at in (0, 2, 3, 5)][:count])
        with Shop(text).till() as again:
            assert again.settled() == settled and (again.pending() is None) == bool(settled) and again.knows_last() == bool(settled), count
            assert len(again.unclear()) == 1 and len(again.book()) == 1 and not again.state().asking
    with shop.till() as again:
        terminal = Terminal()
        goes_to(terminal, again)
        assert asks(again, terminal, ACK + SECOND + DONE) is None and again.settled() == [WAS_PAID]


def a_reference_is_in_the_record_of_an_ask():
    shop, terminal = Shop(), Terminal()
    with shop.till_at(terminal) as till:
        terminal.says("848300")
        assert till.ask(reference="A-1009") is None
        assert shop.reads() == OPENING + REGISTER + checked(f"# ask at {AT} ref A-1009\n> 062003000000\n") + checked("< 848300\n") + "\n", shop.reads()


def a_full_disk_sends_no_ask():
    shop = Shop()
    terminal, till = breaks(pays, till=shop.till())
    terminal.was_sent()

    def full(_record):
        raise zvt_journal.BookError("full")
    till.journal.append = full
    try:
        till.ask()
        assert False, "the book takes no record"
    except zvt_journal.BookError:
        pass
    assert terminal.was_sent() == "" and not till.state().asking


def a_terminal_is_asked():
    """A payment's bytes go out and the line is given up: the terminal has booked it, or never got it."""
    with tempfile.TemporaryDirectory() as folder:
        for arrives, wanted in ((True, zvt.Settlement(zvt.SettlementKind.PAID, 0, 2, 2)), (False, zvt.Settlement(zvt.SettlementKind.NOT_PAID, 0))):
            with socket.socket() as free:
                free.bind(("127.0.0.1", 0))
                port = free.getsockname()[1]
            terminal = subprocess.Popen([sys.argv[2], "terminal", "--port", str(port), "--extended", "--connections", "2"], stdout=subprocess.DEVNULL, stderr=subprocess.DEVNULL)
            book = os.path.join(folder, f"{arrives}.trace")
            try:
                with zvt.Till(sys.argv[1], book=book) as till:
                    connects(till, port)
                    till.register()
                    assert till.pay(1000).ending == zvt.Ending.PAID
                    message = till._order(zvt.Order.PAY, 500)
                    till._make_durable("order", zvt.Order.PAY, 500, message, len(message), b"", 0, b"", 0)
                    if arrives:
                        till._send(message)
                        assert till._receive()
                    assert till.disconnect().cause == zvt.Cause.LINE
                # as after a restart
                with zvt.Till(sys.argv[1], book=book) as till:
                    assert till.pending() == zvt.Pending(zvt.PendingKind.PAYMENT, 0)
                    connects(till, port)
                    till.register()
                    assert till.ask() == wanted and till.settled() == [wanted], till.settled()
            finally:
                terminal.terminate()
                terminal.wait()


def connects(till, port):
    """Connects to a terminal that may still be starting."""
    zvt.socket.create_connection = CONNECT
    for _ in range(100):
        try:
            return till.connect("127.0.0.1", port, timeout=20)
        except ConnectionRefusedError:
            time.sleep(0.1)
    raise AssertionError("no terminal listens")


CONNECT = socket.create_connection

if __name__ == "__main__":
    zvt.now = lambda: AT
    holds("ask_check", [it for name, it in list(globals().items()) if callable(it) and getattr(it, "__module__", "") == "__main__"
                        and name not in ("breaks", "pays", "reverses", "asks", "connects")])
    print("zvt.py: all asks, their records, broken lines, and the terminal of zvt")

"""What zvt.py owes a shop: till_check.py LIBRARY LAYOUTS. A terminal's bytes are played to a till over a pair of sockets.
LAYOUTS is the file that layouts.c writes."""
import ctypes
import os
import select
import signal
import socket
import sys
import time

import zvt

ACK, DONE = "800000", "060F00"
APPROVED = "040F1027000400000000" + "12340B00001787" + "0005"
LINE = "06D1070054" + "68616E6B73"
# A receipt of two lines for the customer, the second in code page 437; and a status with the card's name and its number.
BLOCK = "06D316" + "0614" + "1F070102" + "250E" + "070544616E6B65" + "0705477281E165"
CARD = "22F0F86726123456781234" + "8BF0F9" + b"girocard\0".hex()
REGISTERED, PAID = ACK + DONE, ACK + APPROVED + DONE
REVERSED = "040F112700040000000012340B00001837000017"


class Terminal:
    """The terminal's end of a line, which a till opens as if it were at a host and a port."""

    def __init__(self):
        self.end, self._till = socket.socketpair()

    def create_connection(self, _address, timeout=None):
        self._till.settimeout(timeout)
        return Line(self._till)

    def says(self, digits):
        self.end.sendall(bytes.fromhex(digits))

    def was_sent(self):
        """What the till has sent and nobody has read yet."""
        sent = b""
        while select.select([self.end], [], [], 0.05)[0]:
            piece = self.end.recv(4096)
            if not piece:
                break
            sent += piece
        return sent.hex().upper()


class Line:
    """A till's end of a pair. What is set of TCP is remembered: a pair has no such options."""
    set = []

    def __init__(self, end):
        self.end = end

    def setsockopt(self, *option):
        Line.set.append(option)

    def __getattr__(self, name):
        return getattr(self.end, name)


def till_at(terminal, **callbacks):
    """A till that is registered at the terminal."""
    till = zvt.Till(sys.argv[1], **callbacks)
    goes_to(terminal, till)
    return till


def goes_to(terminal, till):
    """The till registers at the terminal."""
    zvt.socket.create_connection = terminal.create_connection
    till.connect("a terminal", 0, timeout=1)
    terminal.says(REGISTERED)
    assert till.register().ending == zvt.Ending.REGISTERED
    terminal.was_sent()


def till_that_paid(**callbacks):
    """A terminal, and a till that paid 1234 at it."""
    terminal = Terminal()
    till = till_at(terminal, **callbacks)
    terminal.says(PAID)
    assert till.pay(1234).ending == zvt.Ending.PAID
    return terminal, till


def has_doubt(till, doubt, cause=None):
    """Whether the one payment has this doubt, in what is saved too, and is not marked."""
    with zvt.Till(sys.argv[1]) as again:
        again.load(till.save())
        return all(it.book() == [zvt.Entry(1234, 17, 5, False, cause, doubt)]
                   and it.state().unclear_reversals == len(it.unclear_reversals()) == (doubt == zvt.Doubt.UNCLEAR_REVERSAL)
                   for it in (till, again))


def raises(call, error):
    try:
        call()
    except BaseException as raised:
        return raised is error
    return False


def loses_the_line(call):
    """The outcome of an order that ends by its line."""
    try:
        return call()
    except zvt.LineError as lost:
        assert lost.outcome.is_by_line() and str(lost) == f"the line is lost: {lost.outcome}", lost
        return lost.outcome


def thrower(error, when=lambda *_: True):
    """A callback that raises whenever it is called so."""
    def callback(*arguments):
        if when(*arguments):
            raise error
    return callback


def messages_go_out_at_once():
    Line.set.clear()
    till_at(Terminal())
    assert (socket.IPPROTO_TCP, socket.TCP_NODELAY, 1) in Line.set


def an_order_is_saved_before_it_is_sent():
    terminal, sent = Terminal(), []
    till = till_at(terminal, keep=lambda _: sent.append(terminal.was_sent()))
    terminal.says(PAID)
    sent.clear()
    assert till.pay(1234).ending == zvt.Ending.PAID
    assert sent[0] == "" and sent[1].startswith("06010A0400000000123449"), sent


def print_lines_behind_the_completion_hide_no_outcome():
    terminal, lines = Terminal(), []
    till = till_at(terminal, print_line=lines.append)
    terminal.says(PAID + LINE + LINE)
    paid = till.pay(1234)
    assert paid == zvt.Outcome(zvt.Ending.PAID, trace=17, receipt=5), paid
    assert lines == [b"Thanks", b"Thanks"] and terminal.was_sent().endswith(4 * ACK)


def lines_of_a_text_block_are_printed_with_their_copy():
    terminal, lines = Terminal(), []
    till = till_at(terminal, print_line=lines.append)
    terminal.says(ACK + LINE + BLOCK + DONE)
    till.close_day()
    assert [(line, line.copy) for line in lines] == [(b"Thanks", None), (b"Danke", zvt.Copy.CUSTOMER), (b"Gr\x81\xe1e", zvt.Copy.CUSTOMER)], lines


def lines_are_decoded_in_their_code_page():
    terminal, lines = Terminal(), []
    till = till_at(terminal, print_line=lines.append, codepage=zvt.Codepage.CP437)
    terminal.says(ACK + LINE + BLOCK + DONE)
    till.close_day()
    assert [(line, line.copy) for line in lines] == [("Thanks", None), ("Danke", zvt.Copy.CUSTOMER), ("Grüße", zvt.Copy.CUSTOMER)], lines


def a_payment_has_the_name_and_the_masked_number_of_its_card():
    terminal = Terminal()
    till = till_at(terminal)
    assert till.card_name() is None and till.card_number() is None
    terminal.says(ACK + "040F27" + APPROVED[6:] + CARD + DONE)
    till.pay(1234)
    assert (till.card_name(), till.card_number()) == ("girocard", "672612******1234")
    terminal.says(ACK + DONE)
    till.close_day()
    assert till.card_name() is None and till.card_number() is None


def a_print_line_that_raises_loses_nothing():
    terminal, error = Terminal(), RuntimeError("no paper")
    till = till_at(terminal, print_line=thrower(error))
    terminal.says(ACK + LINE + APPROVED + DONE)
    assert raises(lambda: till.pay(1234), error)
    assert till.last().ending == zvt.Ending.PAID and len(till.book()) == 1
    assert terminal.was_sent().endswith(3 * ACK)
    terminal.says(ACK + DONE)
    assert till.close_day().ending == zvt.Ending.DAY_CLOSED


def a_save_that_fails_behind_an_outcome_loses_nothing():
    terminal, error, saves = Terminal(), OSError("full disk"), []

    def keep(saved):
        saves.append(saved)
        if len(saves) == 4:
            raise error
    till = till_at(terminal, keep=keep, print_line=lambda _: None)
    terminal.says(PAID + LINE)
    assert raises(lambda: till.pay(1234), error)
    assert till.last().ending == zvt.Ending.PAID and terminal.was_sent().endswith(3 * ACK)


def a_save_that_fails_before_an_order_sends_nothing():
    terminal, error, saves = Terminal(), OSError("full disk"), []

    def keep(saved):
        saves.append(saved)
        if len(saves) == 3:
            raise error
    till = till_at(terminal, keep=keep)
    assert raises(lambda: till.pay(1234), error)
    assert terminal.was_sent() == "" and till.state().running is None
    assert [entry.cause for entry in till.unclear()] == [zvt.Cause.LINE]


def a_question_that_raises_lets_the_payment_end():
    terminal, error = Terminal(), ValueError("no such button")

    def ask():
        terminal.says(PAID)
        raise error
    till = till_at(terminal)
    assert raises(lambda: till.pay(1234, wants_cancel=ask), error)
    assert till.last().ending == zvt.Ending.PAID


def a_payment_that_is_not_acknowledged_yet_is_cancelled_later():
    terminal, asked = Terminal(), []

    def cancels():
        asked.append(terminal.was_sent())
        terminal.says(ACK if len(asked) == 1 else "061E016C" if len(asked) == 3 else "")
        return True
    till = till_at(terminal)
    assert loses_the_line(lambda: till.pay(1234, wants_cancel=cancels)).cause == zvt.Cause.LINE and len(asked) == 2
    assert asked[0].startswith("0601") and asked[1] == "" and terminal.was_sent() == "06B000", asked


def an_interrupt_gives_the_line_up():
    for place in ("print line", "question"):
        terminal, error = Terminal(), KeyboardInterrupt()
        till = till_at(terminal, print_line=thrower(error))
        began = time.monotonic()
        if place == "print line":
            terminal.says(ACK + LINE)
            assert raises(lambda: till.pay(1234), error)
            assert terminal.was_sent().endswith(ACK)
        else:
            assert raises(lambda: till.pay(1234, wants_cancel=thrower(error)), error)
        assert time.monotonic() - began < 0.5, "it waits for the terminal first"
        assert till.state().running is None and till.last().cause == zvt.Cause.LINE


def a_line_that_takes_no_answer_hides_no_outcome():
    terminal = Terminal()
    till = till_at(terminal)
    terminal.says(PAID)
    send, counts = till._send, []

    def broken_send(message):
        counts.append(message)
        if len(counts) > 1:
            raise zvt._BrokenLine
        send(message)
    till._send = broken_send
    assert till.pay(1234).ending == zvt.Ending.PAID and len(till.book()) == 1


def a_reversal_whose_line_breaks_is_unclear():
    # before anything is heard, behind the acknowledgement, and behind the status
    for heard in ("", ACK, ACK + REVERSED):
        terminal, till = till_that_paid()
        assert has_doubt(till, None)
        terminal.says(heard)
        terminal.end.shutdown(socket.SHUT_WR)
        assert loses_the_line(lambda: till.reverse(0)) == zvt.Outcome(zvt.Ending.UNCLEAR, cause=zvt.Cause.LINE)
        assert has_doubt(till, zvt.Doubt.UNCLEAR_REVERSAL, zvt.Cause.LINE)
        assert str(till.book()[0]) == "1234, trace 000017, receipt 0005, unclear reversal: line"
        assert till.unclear_reversals() == [(0, till.book()[0])] and till.unclear() == []


def a_second_reversal_ends_the_doubt():
    # B4 as a refusal and as an abort, a completion, and a decline, which tells nothing
    for answer, ending, doubt in (("84B400", "ORDER_REFUSED", zvt.Doubt.TAKEN_BACK), (ACK + "061E01B4", "ABORTED", zvt.Doubt.TAKEN_BACK),
                                  (ACK + REVERSED + DONE, "REVERSED", None), ("840500", "ORDER_REFUSED", zvt.Doubt.UNCLEAR_REVERSAL)):
        _, till = till_that_paid()
        terminal = Terminal()
        till.disconnect()
        goes_to(terminal, till)
        terminal.end.shutdown(socket.SHUT_WR)
        loses_the_line(lambda: till.reverse(0))
        terminal = Terminal()
        goes_to(terminal, till)
        terminal.says(answer)
        assert till.reverse(0).ending == zvt.Ending[ending]
        if ending == "REVERSED":
            assert till.book() == [zvt.Entry(1234, 17, 5, True)] and till.state().unclear_reversals == 0
        else:
            assert has_doubt(till, doubt, zvt.Cause.LINE if doubt == zvt.Doubt.UNCLEAR_REVERSAL else None)


def a_reversal_is_saved_as_unclear_before_it_is_sent():
    saves = []
    terminal, till = till_that_paid(keep=saves.append)
    saves.clear()
    terminal.says(ACK + REVERSED + DONE)
    assert till.reverse(0).ending == zvt.Ending.REVERSED
    for saved, wanted in zip(saves, (zvt.Entry(1234, 17, 5, False, zvt.Cause.LINE, zvt.Doubt.UNCLEAR_REVERSAL), zvt.Entry(1234, 17, 5, True))):
        with zvt.Till(sys.argv[1]) as again:
            again.load(saved)
            assert again.book() == [wanted] and len(saves) == 2


def a_callback_that_gives_an_order_is_refused():
    # in a running payment, and behind its completion, where the library would take another order
    for said in (ACK + LINE + APPROVED + DONE, PAID + LINE):
        terminal, raised = Terminal(), []

        def orders(_line):
            for call in (lambda: till.pay(1), till.disconnect, till.close, lambda: till.connect("a terminal", 0)):
                try:
                    call()
                except RuntimeError as error:
                    raised.append(str(error))
        till = till_at(terminal, print_line=orders)
        terminal.says(said)
        assert till.pay(1234) == zvt.Outcome(zvt.Ending.PAID, trace=17, receipt=5)
        assert raised == 4 * ["a callback can't give its till an order, a line or up"], raised
        assert len(till.book()) == 1 and terminal.was_sent().endswith("0978" + said.count("06D1") * ACK + 2 * ACK)


def the_text_of_each_message_is_told():
    texts, terminal = [], Terminal()
    till = till_at(terminal, heard=texts.append)
    terminal.says(ACK + "04FF010A" + "061E016C")
    paid = till.pay(1234)
    assert str(paid) == "aborted, code 6C (abort by time-out or abort key)", paid
    assert texts == ["Ack\n", "Completion\n", "Ack\n", "Intermediate 0A\n", "Abort 6C abort by time-out or abort key\n"], texts
    assert till.state() == zvt.State(0, 0, 0, 0, 0, 0, True, None, False, paid), till.state()


def a_status_has_its_words():
    till = zvt.Till(sys.argv[1])
    assert [till.status_name(status) for status in (0x0A, 0x6C, 0xFF)] == ["insert the card", None, "no status code fits"]


def wrong_arguments_are_refused():
    till = zvt.Till(sys.argv[1])
    for error, name, call in ((ValueError, "password", lambda: zvt.Till(sys.argv[1], password=12345678)),
                              (ValueError, "config", lambda: zvt.Till(sys.argv[1], config=0x1BE)),
                              (ValueError, "currency", lambda: zvt.Till(sys.argv[1], currency=65536 + 978)),
                              (TypeError, "amount", lambda: till.pay(12.34)), (TypeError, "amount", lambda: till.pay(True)),
                              (ValueError, "amount", lambda: till.pay(0)), (ValueError, "amount", lambda: till.pay(10 ** 12)),
                              (ValueError, "place", lambda: till.reverse(-1)), (TypeError, "place", lambda: till.reverse("1")),
                              (ValueError, "status", lambda: till.status_name(256)), (TypeError, "status", lambda: till.status_name("0A"))):
        try:
            call()
            assert False, name
        except error as raised:
            assert str(raised).startswith(f"{name} is a "), raised
    try:
        zvt.opened("libc.so.6")
        assert False, "another library is none of this module's"
    except OSError as error:
        assert "lacks zvt_abi" in str(error), error


def a_closed_till_refuses_each_call():
    till = zvt.Till(sys.argv[1])
    till.close()
    till.close()
    for call in (till.register, lambda: till.pay(1), lambda: till.reverse(0), till.close_day, till.book, till.unclear, till.unclear_reversals,
                 till.state, till.last, till.save):
        try:
            call()
            assert False, call
        except zvt.Refused as refused:
            assert refused.status == zvt.Status.CLOSED


def the_version_is_that_of_the_release():
    with open(os.path.join(os.path.dirname(os.path.abspath(__file__)), "..", "VERSION"), encoding="ascii") as file:
        assert zvt.version(sys.argv[1]) == file.read().strip()


def structs_are_those_of_the_header():
    with open(sys.argv[2]) as file:
        wanted = {line.split()[0]: [int(word) for word in line.split()[1:]] for line in file}
    found = {}
    for struct in (zvt._Handle, zvt._Answer, zvt._Outcome, zvt._Step, zvt._Line, zvt._State, zvt._Entry, zvt._Settlement, zvt._Pending):
        names = [name for name, _ in struct._fields_]
        found[struct.__name__] = [ctypes.sizeof(struct)] + [getattr(struct, name).offset for name in names]
    assert found == wanted, (found, wanted)


def silence_ends_a_payment_that_may_be_cancelled():
    for question in (None, lambda: False):
        till = till_at(Terminal())
        began = time.monotonic()
        paid = loses_the_line(lambda: till.pay(1234, wants_cancel=question))
        took = time.monotonic() - began
        assert paid.cause == zvt.Cause.LINE and 0.9 < took < 1.2, (paid, took)


def holds(script, checks):
    """Makes each check. A till that waits for ever fails too."""
    signal.alarm(60)
    for check in checks:
        try:
            check()
        except AssertionError as error:
            sys.exit(f"{script}: {check.__name__.replace('_', ' ')}: this does not hold: {error}")


HELPERS = ("Terminal", "Line", "till_at", "goes_to", "till_that_paid", "has_doubt", "raises", "loses_the_line", "thrower", "holds")
if __name__ == "__main__":
    holds("till_check", [it for name, it in list(globals().items()) if callable(it) and getattr(it, "__module__", "") == "__main__"
                         and name not in HELPERS])
    print("zvt.py: all callbacks, orders, reversals and silences")

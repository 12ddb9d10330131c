"""What zvt.py owes a shop whose till keeps a book: book_check.py LIBRARY BOOK. The texts of the books are written after
docs/FORMAT.md, and not by the library. BOOK is that of two runs of journal_demo.c."""
import errno
import hashlib
import os
import sys
import tempfile

import zvt
import zvt_journal
from till_check import ACK, APPROVED, DONE, LINE, PAID, REGISTERED, REVERSED, Terminal, goes_to, holds, loses_the_line, raises, thrower


def checked(lines):
    """A record: its lines, and their check."""
    return f"{lines}#= {hashlib.sha256(lines.encode()).hexdigest()[:8].upper()}\n"


OPENING = "# zvt journal 1, currency 978\n"
ACKNOWLEDGED, COMPLETION = checked("< 800000\n"), checked("< 060F00\n> 800000\n")
AT = "2026-11-28T09:14:03Z"
REGISTER = checked("!\n") + checked(f"# register at {AT}\n> 060006000000BE0978\n") + ACKNOWLEDGED + COMPLETION
PAY = checked(f"# pay 1234 at {AT}\n> 06010A04000000001234490978\n")
APPROVAL = checked(f"< {APPROVED}\n> 800000\n")
PAYMENT = PAY + ACKNOWLEDGED + APPROVAL + COMPLETION
BOOKED, UNCLEAR = zvt.Entry(1234, 17, 5, at=AT), zvt.Entry(1234, cause=zvt.Cause.LINE, at=AT)


class Shop:
    """A folder in which a till keeps its book."""

    def __init__(self, text=None):
        self.folder = tempfile.TemporaryDirectory()
        self.path = os.path.join(self.folder.name, "day.trace")
        if text is not None:
            self.writes(text)

    def writes(self, text):
        with open(self.path, "w", encoding="ascii", newline="") as file:
            file.write(text)

    def reads(self, end=""):
        with open(self.path + end, encoding="ascii", newline="") as file:
            return file.read()

    def till(self, **options):
        return zvt.Till(sys.argv[1], book=self.path, **options)

    def till_at(self, terminal, **options):
        till = self.till(**options)
        goes_to(terminal, till)
        return till


def refuses(shop, words, **options):
    """Whether the book is not opened, for a reason of these words, and the file is as it was."""
    before = shop.reads()
    try:
        shop.till(**options).close()
    except zvt_journal.BookError as error:
        return words in str(error) and shop.reads() == before and not os.path.exists(shop.path + ".cut")
    return False


def is_recovered(text, book, unclear, **options):
    """Whether a file of this text is such a book."""
    with Shop(text).till(**options) as till:
        return till.book() == book and till.unclear() == unclear


def a_book_has_the_text_of_the_format():
    shop, terminal = Shop(), Terminal()
    with shop.till_at(terminal) as till:
        assert till.journal.created and shop.reads() == OPENING + REGISTER + "\n", shop.reads()
        terminal.says(PAID)
        assert till.pay(1234) == zvt.Outcome(zvt.Ending.PAID, trace=17, receipt=5)
        assert shop.reads() == OPENING + REGISTER + PAYMENT + "\n", shop.reads()
    assert oct(os.stat(shop.path).st_mode & 0o777) == "0o600"


def a_reference_is_in_the_book():
    shop, terminal = Shop(), Terminal()
    with shop.till_at(terminal) as till:
        for reference in ("", "two words", "x" * 41, "caf\u00e9", "line\n"):
            try:
                till.pay(1234, reference=reference)
                assert False, reference
            except ValueError:
                pass
        assert till.state().running is None and shop.reads() == OPENING + REGISTER + "\n", shop.reads()
        terminal.says(PAID)
        till.pay(1234, reference='"A\\1009~')
        named = checked(f"# pay 1234 at {AT} ref \"A\\1009~\n> 06010A04000000001234490978\n")
        assert shop.reads() == OPENING + REGISTER + named + PAYMENT.removeprefix(PAY) + "\n", shop.reads()
        assert till.book() == [BOOKED._replace(reference='"A\\1009~')], till.book()


def each_payment_has_its_time_and_its_reference():
    unnoted = checked("# pay 1234\n> 06010A04000000001234490978\n")
    named = checked("# pay 1234 ref B-7\n> 06010A04000000001234490978\n")
    both = checked(f"# pay 1234 at {AT} ref C\n> 06010A04000000001234490978\n")
    before, booked = OPENING + REGISTER, PAYMENT.removeprefix(PAY)
    assert is_recovered(before + named + booked, [BOOKED._replace(at=None, reference="B-7")], [])
    text = before + unnoted + REGISTER + named + booked + both + REGISTER
    shop, terminal = Shop(text), Terminal()
    with shop.till_at(terminal) as till:
        assert till.unclear() == [UNCLEAR._replace(at=None), UNCLEAR._replace(reference="C")], till.unclear()
        assert till.book() == [BOOKED._replace(at=None, reference="B-7")], till.book()
        # a payment of this process, whose rows come after those of the file
        terminal.says(PAID.replace("000017", "000018"))
        till.pay(1234, reference="D")
        assert till.book()[1] == BOOKED._replace(trace=18, reference="D"), till.book()
        assert len(till.unclear()) == 2


def a_book_outlives_its_till():
    shop, terminal = Shop(), Terminal()
    with shop.till_at(terminal) as till:
        terminal.says(PAID)
        till.pay(1234)
    terminal = Terminal()
    with shop.till_at(terminal) as till:
        assert till.book() == [BOOKED] and till.unclear() == [] and till.journal.cut == b"" and not till.journal.created
        terminal.says(ACK + REVERSED + DONE)
        assert till.reverse(0, reference="B-7").ending == zvt.Ending.REVERSED
    text = OPENING + REGISTER + PAYMENT + REGISTER + checked(f"# reverse 1 at {AT} ref B-7\n> 0630060000008700" + "05\n") + ACKNOWLEDGED + checked(f"< {REVERSED}\n> 800000\n") + COMPLETION
    assert shop.reads() == text + "\n", shop.reads()
    assert is_recovered(text, [BOOKED._replace(reversed=True)], [])


def each_beginning_of_a_payment_is_unclear():
    before = OPENING + REGISTER
    assert is_recovered(before, [], [])
    for text in (PAY, PAY + ACKNOWLEDGED):
        assert is_recovered(before + text, [], [UNCLEAR]), text
    # the numbers of the approval are known
    assert is_recovered(before + PAY + ACKNOWLEDGED + APPROVAL, [], [UNCLEAR._replace(trace=17, receipt=5)])
    assert is_recovered(before + PAYMENT, [BOOKED], [])
    # after the gate nothing counts
    assert is_recovered(before + PAYMENT + "\n" + PAYMENT, [BOOKED], [])


def records_are_durable_before_what_follows():
    shop, terminal = Shop(), Terminal()
    till, events = shop.till_at(terminal), []
    append, send = till.journal.append, till._send

    def noted_append(record):
        append(record)
        events.append(record.decode())

    def noted_send(message):
        assert shop.reads().endswith(events[-1] + "\n")
        events.append(message.hex().upper())
        send(message)
    till.journal.append, till._send = noted_append, noted_send
    terminal.says(PAID)
    till.pay(1234)
    wanted = [PAY, "06010A04000000001234490978", ACKNOWLEDGED, APPROVAL, ACK, COMPLETION, ACK]
    assert events == wanted, events


def messages_that_come_in_pieces_are_whole_in_the_book():
    shop, terminal = Shop(), Terminal()
    till = shop.till_at(terminal, print_line=lambda _: None)
    pieces = [bytes([byte]) for byte in bytes.fromhex(ACK + LINE + APPROVED + DONE)]
    till._receive = lambda: pieces.pop(0)
    assert till.pay(1234).ending == zvt.Ending.PAID
    assert shop.reads() == OPENING + REGISTER + PAY + ACKNOWLEDGED + checked(f"< {LINE}\n> 800000\n") + APPROVAL + COMPLETION + "\n", shop.reads()


def a_password_is_not_in_the_book():
    shop, terminal = Shop(), Terminal()
    till = shop.till(password=123456)
    zvt.socket.create_connection = terminal.create_connection
    till.connect("a terminal", 0, timeout=1)
    terminal.says(REGISTERED)
    till.register()
    assert terminal.was_sent().startswith("0600061234" + "56BE0978")
    terminal.says(ACK + DONE)
    till.close_day()
    assert terminal.was_sent().startswith("0650031234" + "56")
    assert "123456" not in shop.reads() and f"# close at {AT}\n> 065003000000\n" in shop.reads(), shop.reads()


def a_cancel_is_in_the_book():
    shop, terminal = Shop(), Terminal()
    till = shop.till_at(terminal)
    terminal.says(ACK)

    def cancels():
        terminal.says("061E016C")
        return True
    assert till.pay(1234, wants_cancel=cancels).code == 0x6C
    assert shop.reads().endswith(PAY + ACKNOWLEDGED + checked(f"# cancel at {AT}\n> 06B000\n") + checked("< 061E016C\n> 800000\n") + "\n"), shop.reads()
    till.close()
    assert is_recovered(shop.reads(), [], [])


def what_is_no_message_is_a_lost_line():
    shop, terminal = Shop(), Terminal()
    till = shop.till_at(terminal)
    terminal.says(ACK + "040FFF0000")
    assert loses_the_line(lambda: till.pay(1234)).cause == zvt.Cause.LINE
    assert shop.reads().endswith(PAY + ACKNOWLEDGED + "\n"), shop.reads()
    till.close()
    assert is_recovered(shop.reads(), [], [UNCLEAR])


def a_full_disk_stops_the_till():
    # at the order's record, at the acknowledgement's and at the approval's; the record's body, or its first byte
    for record in range(3):
        for write in range(2):
            shop, terminal, count, sent = Shop(), Terminal(), [2 * record + write], []
            till = shop.till_at(terminal)
            pwrite, till._send = os.pwrite, sent.append

            def full(file, data, place):
                count[0] -= 1
                if count[0] < 0:
                    raise OSError(errno.ENOSPC, "No space left on device")
                return pwrite(file, data, place)
            terminal.says(PAID)
            zvt_journal.os.pwrite = full
            try:
                till.pay(1234)
                assert False, "the disk is full"
            except zvt_journal.BookError as error:
                assert "No space left" in str(error), error
            finally:
                zvt_journal.os.pwrite = pwrite
            assert len(sent) == min(record, 1), "an order whose record failed was sent, or a message was answered"
            assert till.state().running is None and [entry.cause for entry in till.unclear()] == [zvt.Cause.LINE]
            # the same process writes nothing more
            text = shop.reads()
            try:
                goes_to(Terminal(), till)
                assert False, "a book that failed takes no record"
            except zvt_journal.BookError:
                pass
            assert shop.reads() == text
            till.close()
            with shop.till() as again:
                assert again.book() == [] and again.unclear() == ([UNCLEAR] if record else []), again.unclear()


def an_interrupt_in_a_write_ends_the_book():
    # in each sync of the four records of a payment
    for place in range(8):
        shop, terminal, count, error = Shop(), Terminal(), [place], KeyboardInterrupt()
        till, fdatasync = shop.till_at(terminal), os.fdatasync

        def interrupted(file):
            count[0] -= 1
            if count[0] < 0:
                raise error
            fdatasync(file)
        terminal.says(PAID)
        zvt_journal.os.fdatasync = interrupted
        try:
            assert raises(lambda: till.pay(1234), error)
        finally:
            zvt_journal.os.fdatasync = fdatasync
        assert till.state().running is None
        try:
            goes_to(Terminal(), till)
            assert False, "it takes a record"
        except zvt_journal.BookError:
            pass
        till.close()
        # A record counts once its first byte is over the gate, whether that was synced or not.
        unclear = [] if place in (0, 7) else [UNCLEAR._replace(trace=17, receipt=5)] if place > 4 else [UNCLEAR]
        assert is_recovered(shop.reads(), [BOOKED] if place == 7 else [], unclear), place


def a_callback_that_raises_hides_nothing_from_the_book():
    shop, terminal, error = Shop(), Terminal(), RuntimeError("no paper")
    till = shop.till_at(terminal, print_line=thrower(error))
    terminal.says(ACK + LINE + APPROVED + DONE)
    assert raises(lambda: till.pay(1234), error)
    assert till.book() == [BOOKED]
    till.close()
    assert is_recovered(shop.reads(), [BOOKED], [])


def a_book_has_one_till():
    shop = Shop()
    with shop.till():
        assert refuses(shop, "another till is using the book")
    shop.till().close()


def what_is_no_book_is_left_as_it_was():
    assert refuses(Shop("06010A\n"), "is not a till's book")
    assert refuses(Shop(OPENING + "\n" + "x" * (1 << 18) + "\n"), "more than a crash can leave")
    assert refuses(Shop(OPENING), "line 1", currency=756)
    assert refuses(Shop(OPENING + "!\n> 060000\n< 8\n"), "line 4")
    assert refuses(Shop(OPENING + REGISTER + "# pay 1\n# pay 1\n"), "record 6")
    folder = Shop()
    os.mkdir(folder.path)
    try:
        folder.till()
        assert False, "a folder was opened"
    except zvt_journal.BookError as error:
        assert "not a regular file" in str(error)


def a_file_that_cannot_be_opened_is_named():
    for path, words in (("missing/day.trace", "No such file"), ("day.trace/more", "Not a directory")):
        shop = Shop("")
        shop.path = os.path.join(shop.folder.name, path)
        try:
            shop.till()
            assert False, "it was opened"
        except zvt_journal.BookError as error:
            assert shop.path in str(error) and words in str(error), error


def what_a_crash_left_is_cut_and_kept():
    for left, end, cut in (("", "", ""), ("\n", "", ""), ("", "\n# reg", "# reg"), (OPENING, "# register", "# register"),
                           (OPENING, "\n\n\nregister\n", "\n\nregister\n")):
        shop = Shop(left + end)
        with shop.till() as till:
            assert till.journal.cut == cut.encode() and shop.reads() == OPENING + "\n", shop.reads()
            assert (shop.reads(".cut") if cut else "") == cut
    # what is cut later is kept behind it
    with open(shop.path, "a", encoding="ascii") as file:
        file.write("more")
    shop.till().close()
    assert shop.reads(".cut") == cut + "more"


def a_book_that_c_wrote_is_read():
    with open(sys.argv[2], encoding="ascii", newline="") as file:
        shop = Shop(file.read())
    with shop.till() as till:
        rows = [entry._replace(at=None) for entry in till.book() + till.unclear() if entry.at is not None]
        unclear = zvt.Entry(500, cause=zvt.Cause.LINE, reference="A-1009")
        assert rows == [zvt.Entry(1234, 1, reference="A-1009"), zvt.Entry(1234, 2, reference="A-1009"), unclear, unclear], rows
        assert till.journal.cut == b"" and till.state().total == 2468


def a_till_with_a_book_takes_no_save():
    with Shop().till() as till:
        try:
            till.load(till.save())
            assert False, "a save was loaded"
        except ValueError:
            pass


if __name__ == "__main__":
    zvt.now = lambda: AT
    holds("book_check", [it for name, it in list(globals().items()) if callable(it) and getattr(it, "__module__", "") == "__main__"
                         and name not in ("Shop", "checked", "refuses", "is_recovered")])
    print("zvt.py: all books, their texts, crashes and full disks")

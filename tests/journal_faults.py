#!/usr/bin/env python3
"""Gives a till books that it can't have, and looks at its status, its line on standard error, the file and the line.

A full disk, a file that may not be written, a folder, a device, a FIFO, a file that is no journal, a journal of another
currency, one whose records no till wrote, one that was changed, one with too much after its gate, one that is in use, one
that is the trace too.
The status is that of the fault, standard error has one line that names the file, nothing is connected, and the file is as it
was, byte for byte.
A case that needs root or another user is skipped where that can't be had, and said.

journal_faults.py [PROGRAM]: without a word the program of `rt ci`. The status is 1 where anything differs.
"""
import contextlib
import os
import pathlib
import shutil
import socket
import stat
import subprocess
import sys
import tempfile

import journal_dialogues
import journal_model
from common import Checks, EXAMPLES, Listener, program

ZVT = program(sys.argv[1:])
SECONDS = 60
NOBODY = 65534
BAD, FAILED = 3, 4  # the input is bad; a file or a device failed
MOST_AFTER = 2**18 + 1  # bytes after the gate that a crash leaves at most


def journal(currency=978):
    """A journal of one payment."""
    of = journal_dialogues.Dialogue(currency)
    of.registered()
    of.paid(1000, 1)
    return of


class Listener:
    """Counts who connects."""

    def __init__(self):
        self.socket = socket.create_server(("127.0.0.1", 0), backlog=16)
        self.socket.setblocking(False)
        self.port = self.socket.getsockname()[1]

    def connected(self):
        count = 0
        with contextlib.suppress(BlockingIOError):
            while True:
                self.socket.accept()[0].close()
                count += 1
        return count


def state_of(path):
    """What is at a path: its kind, its rights, its bytes."""
    if not os.path.lexists(path):
        return None
    found = os.lstat(path)
    return found.st_mode, path.read_bytes() if stat.S_ISREG(found.st_mode) else None


class Trial(Checks):
    def __init__(self, work):
        super().__init__()
        self.work, self.listener = work, Listener()
        self.cases, self.skipped = 0, []

    def runs(self, words, **given):
        words = [ZVT, *words]
        try:
            return subprocess.run(words, stdin=subprocess.DEVNULL, stdout=subprocess.PIPE, stderr=subprocess.PIPE, timeout=SECONDS, **given)
        except subprocess.TimeoutExpired:
            return subprocess.CompletedProcess(words, "none: it hangs", b"", b"")

    def refuses(self, name, status, said, path, changes=False, reads=True, **given):
        """A till, a loop and, where it `reads` alone, the book end so, and leave all as it is."""
        path = pathlib.Path(path)
        commands = [["till", "--port", str(self.listener.port), "--book", str(path)], ["loop", "--book", str(path)]]
        for words in commands + ([["book", str(path)]] if reads else []):
            before, beside = state_of(path), sorted(os.listdir(path.parent)) if path.parent.is_dir() else None
            ended = self.runs(words, **given)
            errors = ended.stderr.decode(errors="replace")
            here = f"{words[0]}, {name}"
            if ended.returncode != status or ended.stdout:
                self.differs(here, f"status {ended.returncode} instead of {status}, and it writes {ended.stdout!r}, {errors!r}")
            if not errors.startswith("zvt: ") or errors.count("\n") != 1 or not errors.endswith("\n") or str(path) not in errors or said not in errors:
                self.differs(here, f"it says {errors!r}, which is no line with {said!r} that names the file")
            if self.listener.connected():
                self.differs(here, "it connected")
            if not changes and state_of(path) != before:
                self.differs(here, f"the file was {before} and is {state_of(path)}")
            if not changes and path.parent.is_dir() and sorted(os.listdir(path.parent)) != beside:
                self.differs(here, f"beside it were {beside} and are {sorted(os.listdir(path.parent))}")
            self.cases += 1

    # ---- what is no journal

    def kinds(self):
        (self.work / "folder").mkdir()
        os.mkfifo(self.work / "fifo")
        self.refuses("a folder", FAILED, "this is a directory", self.work / "folder")
        self.refuses("a device", FAILED, "regular file", "/dev/null")
        self.refuses("a FIFO", FAILED, "regular file", self.work / "fifo")
        self.refuses("a file in no folder", FAILED, "", self.work / "none" / "book")
        missing = self.runs(["book", str(self.work / "missing")])
        if missing.returncode != FAILED or missing.stdout or (self.work / "missing").exists():
            self.differs("the book of no file", missing)

    def contents(self):
        """Files whose bytes are none of a till's journal in that currency."""
        after = b"# mine\n" * (MOST_AFTER // 7 + 1)
        again = b"# reverse 7\n> 063006000000870001\n"
        wanted = [
            ("a text", "not a till's book", b"my notes\n"),
            ("a trace", "not a till's book", (EXAMPLES / "payment.trace").read_bytes()),
            ("a word", "not a till's book", b"ab"),
            ("two empty lines and a text", "not a till's book", b"\n\n" + b"x" * 300),
            ("another version", "", b"# zvt journal 2, currency 978\n\n"),
            ("too much after the gate", "follow the first empty line", journal().file() + b"0" + after),
            ("one byte", "not a till's book", b"x"),
            ("a note behind an empty line", "not a till's book", b"\nmilk, bread and cheese"),
            ("an opening of another program", "not a till's book", b"\n zvt journal 1, password"),
            ("a first line without its end", "not a till's book", b"# zvt journal 1, currency 978"),
            ("an order of an entry that is none", "", journal().file()[:-1] + again + b"\n"),
            ("a line that is none", "", journal().file()[:-1] + b"pay 1\n\n"),
            ("a message that is none", "", journal().file()[:-1] + b"< 06D0\n\n"),
        ]
        for name, said, content in wanted:
            path = self.work / "content"
            path.write_bytes(content)
            self.refuses(name, BAD, said, path)
        path.write_bytes(journal(756).file())
        self.refuses("another currency", BAD, "", path, reads=False)

    def damages(self):
        """A book whose records were changed after they were written: each digit in turn is another one."""
        whole = journal().file()
        begin = whole.index(b"\n") + 1
        places = [at for at in range(begin, len(whole)) if whole[at:at + 1].isdigit()]
        path = self.work / "damaged"
        for at in places:
            other = b"%d" % ((whole[at] - ord("0") + 5) % 10)
            path.write_bytes(whole[:at] + other + whole[at + 1:])
            ended = self.runs(["book", str(path)])
            if ended.returncode != BAD or ended.stdout:
                self.differs(f"the digit at {at} is another one", ended.returncode, ended.stdout, ended.stderr)
            self.cases += 1
        line = whole[:whole.index(b"0B000001")].count(b"\n") + 3
        path.write_bytes(whole.replace(b"0B000001", b"0B000002"))
        self.refuses("another trace number", BAD, f"line {line} of the book is not the check of its record", path)
        path.write_bytes(b"".join(row for row in whole.splitlines(keepends=True) if not row.startswith(b"#= ")))
        without = self.runs(["book", str(path)])
        path.write_bytes(whole)
        if without.returncode or without.stdout != self.runs(["book", str(path)]).stdout:
            self.differs("a book of an older version, without checks", without)
        self.cases += 2

    def empty_lines(self):
        """An empty line within a book: no crash leaves it, and the records after it are not given up."""
        of = journal_dialogues.Dialogue()
        of.registered()
        for number in range(1, 31):
            of.paid(number, number)
        for at in range(1, len(of.records)):
            front, rest = b"".join(of.records[:at]), b"".join(of.records[at:])
            said = f"line {front.count(10) + 1} is empty and {len(of.records) - at} records follow it"
            for name, content in (("an empty line", front + b"\n" + rest + b"\n"), ("and none at the end", front + b"\n" + rest)):
                path = self.work / "emptied"
                path.write_bytes(content)
                if at % 7 == 1 or name == "an empty line" and at % 7 == 2:
                    self.refuses(f"{name} before record {at}", BAD, said, path)
        path.write_bytes(b"".join(of.records)[:-1])
        self.refuses("a last line that is cut short, and no gate", BAD, "is empty and", path)

    # ---- what is beside it

    def beside(self):
        """What a crash left can't be kept, or the trace would go where the book is."""
        path = self.work / "torn"
        path.write_bytes(journal().file() + b" pay 7\n> 06")
        (self.work / "torn.cut").mkdir()
        self.refuses("a folder where what is cut is kept", FAILED, ".cut", path, reads=False)
        (self.work / "torn.cut").rmdir()
        os.mkfifo(self.work / "torn.cut")
        self.refuses("a FIFO where what is cut is kept", FAILED, ".cut", path, reads=False)
        (self.work / "torn.cut").unlink()
        path = self.work / "traced"
        path.write_bytes(journal().file())
        for words in (["till", "--port", str(self.listener.port)], ["loop"]):
            ended = self.runs([*words, "--book", str(path), "--trace", str(path), "register"])
            connected = self.listener.connected()
            if ended.returncode not in (2, BAD, FAILED) or ended.stdout or path.read_bytes() != journal().file() or connected:
                self.differs(f"{words[0]}, a trace that is the book", ended, path.read_bytes()[:100])
            path.write_bytes(journal().file())
            self.cases += 1

    # ---- what fails

    def in_use(self):
        """A till over the file waits for a terminal that says nothing: a second one is refused."""
        path = self.work / "used"
        path.write_bytes(journal().file())
        with socket.create_server(("127.0.0.1", 0)) as silent:
            words = [ZVT, "till", "--port", str(silent.getsockname()[1]), "--book", str(path), "register"]
            first = subprocess.Popen(words, stdout=subprocess.DEVNULL, stderr=subprocess.DEVNULL)
            line = silent.accept()[0]
            line.recv(100)
            self.refuses("a file in use", FAILED, "another till", path, reads=False)
            read = self.runs(["book", str(path)])
            if read.returncode != 0 or read.stdout.decode() != journal_model.text_of(journal_model.book_of(path.read_bytes())) + "\n":
                self.differs("the book of a file in use", read)
            first.kill()
            first.wait()
            line.close()

    def displaced(self):
        """The file is deleted, moved, replaced or changed while the terminal works: the till hears nothing more, and says why."""
        path, other = self.work / "displaced", self.work / "elsewhere"
        hows = {
            "deleted": path.unlink,
            "moved": lambda: path.rename(other),
            "replaced": lambda: (other.write_bytes(path.read_bytes()), other.rename(path)),
            "copied over": lambda: path.write_bytes(journal().file()),
        }
        for how, displace in hows.items():
            path.write_bytes(journal().file())
            with socket.create_server(("127.0.0.1", 0)) as server:
                words = [ZVT, "till", "--port", str(server.getsockname()[1]), "--book", str(path), "register", "pay:7"]
                till = subprocess.Popen(words, stdin=subprocess.DEVNULL, stdout=subprocess.PIPE, stderr=subprocess.PIPE)
                line = server.accept()[0]
                line.settimeout(5)
                asked = line.recv(300)
                displace()
                answers = b""
                with contextlib.suppress(OSError):
                    line.sendall(bytes.fromhex("800000060F00"))
                    while piece := line.recv(300):
                        answers += piece
                till.kill() if till.poll() is None and answers else None
                out, errors = till.communicate(timeout=SECONDS)
                line.close()
            if asked[:2] != b"\x06\x00" or answers or till.returncode != FAILED or b"no longer the one that was opened" not in errors:
                self.differs(f"a book that is {how}", asked, answers, till.returncode, out, errors)
            self.cases += 1

    def read_only(self):
        """As another user, since no rights bind root."""
        if os.getuid() != 0:
            return self.skips("another user's file", "root")
        folder = self.work / "rights"
        folder.mkdir()
        os.chmod(self.work, 0o755)
        path = folder / "book"
        path.write_bytes(journal().file())
        os.chmod(path, 0o444)
        reach = subprocess.run([ZVT, "--version"], user=NOBODY, group=NOBODY, stdout=subprocess.DEVNULL, stderr=subprocess.DEVNULL, check=False) if self.may_run() else None
        if reach is None or reach.returncode != 0:
            return self.skips("a read-only file", "a program that another user may run")
        self.refuses("a read-only file", FAILED, "", path, reads=False, user=NOBODY, group=NOBODY)
        self.refuses("a folder that may not be written", FAILED, "", folder / "new", reads=False, user=NOBODY, group=NOBODY)
        if self.runs(["book", str(path)], user=NOBODY, group=NOBODY).returncode != 0:
            self.differs("the book of a read-only file", "it is not read")
        unread = self.work / "unread"
        unread.mkdir()
        (unread / "book").write_bytes(journal().file())
        os.chmod(unread / "book", 0o666)
        os.chmod(unread, 0o733)
        self.refuses("a new file in a folder that may not be read", FAILED, "directory has to be readable", unread / "new", reads=False, user=NOBODY, group=NOBODY)
        self.refuses("a file in a folder that may not be read", FAILED, "directory has to be readable", unread / "book", reads=False, user=NOBODY, group=NOBODY)
        os.chmod(path, 0o000)
        self.refuses("a file that may not be read", FAILED, "", path, user=NOBODY, group=NOBODY)

    def may_run(self):
        with contextlib.suppress(OSError):
            subprocess.run([ZVT, "--version"], user=NOBODY, group=NOBODY, stdout=subprocess.DEVNULL, stderr=subprocess.DEVNULL, check=False)
            return True
        return False

    def mounted(self, name, options):
        """A folder with a file system of these options, or none."""
        folder = self.work / name
        folder.mkdir()
        words = ["mount", "-t", "tmpfs", "-o", options, "none", str(folder)]
        made = shutil.which("mount") and subprocess.run(words, stderr=subprocess.DEVNULL, check=False).returncode == 0
        return folder if made else self.skips(f"a mount ({options})", "root that may mount")

    def full_disk(self):
        folder = self.mounted("disk", "size=64k")
        if folder is None:
            return
        try:
            with contextlib.suppress(OSError), open(folder / "filler", "wb", buffering=0) as filler:
                while True:
                    filler.write(bytes(4096))
            self.refuses("a new book on a full disk", FAILED, "", folder / "new", changes=True, reads=False)
            if (folder / "new").exists() and (folder / "new").read_bytes() not in (b"", b"\n"):
                self.differs("a new book on a full disk", (folder / "new").read_bytes())
            self.runs_full(folder)
        finally:
            subprocess.run(["umount", "-l", str(folder)], check=False)

    def runs_full(self, folder):
        """The disk is full in the middle of a run: what was recorded stays, and the run ends as a broken line does."""
        path = folder / "book"
        with open(folder / "filler", "r+b") as filler:
            filler.truncate(filler.seek(0, 2) - 4096)
        path.write_bytes(journal().file())
        book = journal_model.book_of(path.read_bytes())
        ended = self.runs(["loop", "--book", str(path), "register", *[f"pay:{number}" for number in range(1, 100)]])
        after = journal_model.book_of(path.read_bytes())
        if ended.returncode != FAILED or after.entries[:1] != book.entries or str(path) not in ended.stderr.decode() or len(path.read_bytes()) > 4096:
            self.differs("a disk that is full in a run", ended, after)
        paid = ended.stdout.count(b"-> paid") + 1
        if not paid <= len(after.entries) + len(after.unclear) <= paid + 2:
            self.differs("a disk that is full in a run", f"{paid} were paid, and the book has {after}")
        self.cases += 1

    def read_only_mount(self):
        folder = self.mounted("locked", "size=64k")
        if folder is None:
            return
        try:
            path = folder / "book"
            path.write_bytes(journal().file())
            subprocess.run(["mount", "-o", "remount,ro", str(folder)], check=True)
            self.refuses("a file on a read-only disk", FAILED, "", path, reads=False)
            self.refuses("a new file on a read-only disk", FAILED, "", folder / "new", reads=False)
            if self.runs(["book", str(path)]).returncode != 0:
                self.differs("the book on a read-only disk", "it is not read")
        finally:
            subprocess.run(["umount", "-l", str(folder)], check=False)

    def skips(self, name, wanted):
        self.skipped.append(name)
        print(f"skipped: {name}: it needs {wanted}")

    def run(self):
        self.kinds()
        self.contents()
        self.damages()
        self.empty_lines()
        self.beside()
        self.in_use()
        self.displaced()
        self.read_only()
        self.full_disk()
        self.read_only_mount()
        print(f"{self.verdict}: books that a till can't have: {self.cases} runs, "
              f"{len(self.skipped)} skipped, {self.wrong} wrong")
        return self.status


def main():
    if not os.access(ZVT, os.X_OK):
        print(f"journal_faults: no program at {ZVT}: build it by 'rt run' in crates/zvt, or by 'rt ci'", file=sys.stderr)
        return 2
    with tempfile.TemporaryDirectory() as folder:
        return Trial(pathlib.Path(folder)).run()


if __name__ == "__main__":
    sys.exit(main())

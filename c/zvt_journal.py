"""The file of a journal: text records, each of which is there whole or not at all, whenever the process ends. zvt.py keeps a
till's book in one, and nothing here knows what a record means.

At rest the file is its records and one line feed, the closed gate, which reads as an empty line. What a file stands for is its
whole lines up to the first empty one. A record is added in two steps, each durable before what comes next: the record without
its first byte after the gate, with the next gate; and then the first byte over the gate.
"""
import fcntl
import os
import stat

FORMAT = b"# zvt journal 1"
# The longest first record, and the longest of all. A crash leaves no more than a record and one byte after the whole lines.
OPENING_ROOM, RECORD_ROOM = 1 << 8, 1 << 18
GATE = b"\n"


class BookError(Exception):
    """A book that can't be opened or written. After a write that failed this process writes nothing more to it."""


class Journal:
    """A journal that is open, and that no other process opens meanwhile. `text` has the records that were recovered, and
    `created` says whether there was no file before. Nothing was written yet: `settle` comes before the first record. It cuts
    what comes after the records, which is `cut`, and which the file of this name and `.cut` then has at its end."""

    def __init__(self, path):
        self._path, self._failed = os.fspath(path), False
        self._file, self.created = open_or_make(self._path)
        try:
            self._lock()
            self.text, self.cut = self._recovered()
        except BaseException:
            self.close()
            raise
        self._gate = len(self.text)

    def close(self):
        """Closes the file, which gives its lock back."""
        if self._file is not None:
            os.close(self._file)
            self._file = None

    def append(self, record):
        """Makes a record durable: whole lines, none of them empty. After an error the file stands for the records from
        before, with the new one or without it."""
        if self._failed or self._file is None:
            raise BookError("the book failed before, and takes no record any more: open it anew")
        try:
            self._write(record[1:] + GATE, self._gate + 1)
            self._write(record[:1], self._gate)
        except OSError as error:
            self.give_up()
            raise BookError(f"cannot write the book {self._path}: {error.strerror}") from error
        except BaseException:
            self.give_up()
            raise
        self._gate += len(record)

    def records(self):
        """Returns the text of the records, with those of this process, or no text if the journal is closed."""
        text, piece = b"", True
        while self._file is not None and piece:
            piece = os.pread(self._file, self._gate - len(text), len(text))
            text += piece
        return text

    def give_up(self):
        """Takes no record from now on."""
        self._failed = True

    def _write(self, data, place):
        """Writes bytes, and makes them durable."""
        while data:
            size = os.pwrite(self._file, data, place)
            data, place = data[size:], place + size
        os.fdatasync(self._file)

    def _lock(self):
        try:
            fcntl.flock(self._file, fcntl.LOCK_EX | fcntl.LOCK_NB)
        except BlockingIOError as error:
            raise BookError(f"another till is using the book {self._path}: stop it first, or name another file") from error

    def _recovered(self):
        """The records of a file that a crash may have left, and what comes after them and their gate."""
        held = self._durable()
        end = self._accepted(held)
        rest = held[end:]
        return held[:end], rest[1:] if rest.startswith(GATE) else rest

    def settle(self):
        """Makes the file one at rest: its records, and the gate."""
        if self.cut:
            append_synced(self._path + ".cut", self.cut)
        sync_folder(self._path)
        # The cut is on the disk before a gate is written: after a torn gate what was there would count.
        os.ftruncate(self._file, self._gate)
        os.fdatasync(self._file)
        self._write(GATE, self._gate)

    def _durable(self):
        """The bytes of the file, all of them durable. After a kill, what a read returns need not be on the disk: so it syncs
        first. After a failed sync the kernel's copy may differ from the disk: so it asks the kernel to read anew."""
        os.fsync(self._file)
        os.posix_fadvise(self._file, 0, 0, os.POSIX_FADV_DONTNEED)
        held, piece = b"", True
        while piece:
            piece = os.pread(self._file, 1 << 20, len(held))
            held += piece
        return held

    def _accepted(self, held):
        """How many bytes of whole lines come before the first empty line, if a journal's file may hold these bytes."""
        begun = len(held) <= 1 or held.startswith(GATE) and len(held) <= OPENING_ROOM + 1
        if not held.startswith(FORMAT) and not begun:
            raise BookError(f"{self._path} is not a till's book (left unchanged): name a book, or a file that does not exist yet")
        end = whole_lines(held)
        if len(held) - end > RECORD_ROOM + 1:
            raise BookError(f"{len(held) - end} bytes follow the first empty line of {self._path}, more than a crash can leave behind: "
                            "if an editor inserted that line, delete it")
        return end


def whole_lines(held):
    """How many bytes of whole lines come before the first empty one."""
    if held.startswith(GATE):
        return 0
    empty = held.find(GATE + GATE)
    return (empty if empty >= 0 else held.rfind(GATE)) + 1


def open_or_make(path):
    """The file, which its owner alone may read where it is made, and whether it was made."""
    try:
        return above_standard(os.open(path, os.O_RDWR | os.O_CREAT | os.O_EXCL, 0o600)), True
    except FileExistsError:
        pass
    if not stat.S_ISREG(os.stat(path).st_mode):
        raise BookError(f"{path} is not a regular file: name a regular file, or one that does not exist yet")
    return above_standard(os.open(path, os.O_RDWR)), False


def above_standard(file):
    """The file under a number that no standard stream has. What is printed to a stream that was closed must not land in it."""
    if file > 2:
        return file
    try:
        return fcntl.fcntl(file, fcntl.F_DUPFD_CLOEXEC, 3)
    finally:
        os.close(file)


def append_synced(path, data):
    """Writes these bytes at the end of a file, which it makes if there is none, and makes them durable."""
    file = above_standard(os.open(path, os.O_WRONLY | os.O_APPEND | os.O_CREAT, 0o600))
    try:
        while data:
            data = data[os.write(file, data):]
        os.fsync(file)
    finally:
        os.close(file)
    sync_folder(path)


def sync_folder(path):
    """Makes the name of a file durable."""
    folder = os.open(os.path.dirname(os.path.realpath(path)), os.O_RDONLY)
    try:
        os.fsync(folder)
    finally:
        os.close(folder)

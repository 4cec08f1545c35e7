"""Records what the parties of your own migration do: the calls of bindings/c/postcopy_record.h, in Python.

    >>> from postcopy.recorder import Log
    >>> pager = Log("recording", "pager")
    >>> pager.got_sent(1)
    0
    >>> pager.ready()
    1
    >>> pager.close()

Each party has a log, which is open in the process that acts for the party. A call appends one record and returns its number. Send
the number with the message; the receiver names it in a record of its own. `man 5 postcopy` describes the records. A record is in
the log's file when its call returns, and stays there however the process ends. Any number of threads may call.

A folder holds one recording: give each run a folder of its own. `postcopy-session FOLDER..` makes the session from the files,
whether this module or the C recorder wrote them, and says what is missing. So close each log when its party has finished.

If a record cannot be written, the call returns LOST, the log ends there, and `error` says why. Calls on a log that was closed, and in a
forked child on the logs that its parent opened, also return LOST, and so does that of a signal handler that interrupts a call of its
thread on the log. The log's last line then tells that a record was not written, so that the recording counts as one that is not whole.
If the program closes a log's file itself, as by os.closerange, the log is lost (EBADF), and whatever has its descriptor then is left alone.
Nothing here needs the library.
"""
from __future__ import annotations

import contextlib
import errno
import fcntl
import mmap
import operator
import os
import re
import secrets
import stat
import threading
import warnings
from typing import Any, Iterable, Optional, Tuple, Union

from .records import LOGS, LOST

__all__ = ["LOST", "Log", "join", "page_hash"]

Folder = Union[str, "os.PathLike[str]"]

_NAME = re.compile("[A-Za-z0-9_.-]{1,64}", re.ASCII)

#: How to open what somebody may have put there: a link, or a pipe that nobody writes.
_AS_IT_IS = os.O_NOFOLLOW | os.O_NONBLOCK | os.O_CLOEXEC


def join(folder: Folder, recording: str) -> None:
    """Makes a folder part of the recording with this name. Call it on another machine, before the first log is opened there. Raises
    FileExistsError if the folder has another name, and ValueError if this is not a name: 1 to 64 letters, digits, `-`, `_` and `.`."""
    if not _NAME.fullmatch(recording):
        raise ValueError(f"{recording!r} is no name of a recording")
    found = _name_recording(folder, recording)
    if found != recording:
        raise FileExistsError(errno.EEXIST, f"the folder is one of the recording {found}", os.fspath(folder))


def _name_recording(folder: Folder, given: Optional[str] = None) -> str:
    """Returns the name of a folder's recording: the one that it has, or else the given one, or else a new one."""
    os.makedirs(folder, exist_ok=True)
    path = os.path.join(folder, "recording-name")
    with contextlib.suppress(FileNotFoundError):
        return _read_name(path)
    own = f"{path}.{secrets.token_hex(16)}"
    try:
        with open(own, "x", encoding="ascii") as file:
            file.write(f"{given or secrets.token_hex(16)}\n")
        with contextlib.suppress(FileExistsError):
            os.link(own, path)
    finally:
        with contextlib.suppress(OSError):
            os.remove(own)
    return _read_name(path)


def _read_name(path: str) -> str:
    file = os.open(path, os.O_RDONLY | _AS_IT_IS)
    try:
        text = os.read(file, 65) if stat.S_ISREG(os.fstat(file).st_mode) else b""
    finally:
        os.close(file)
    name, end, _ = text.decode("ascii", "replace").partition("\n")
    if not end or not _NAME.fullmatch(name):
        raise OSError(errno.EBADMSG, "what it holds is no name of a recording", path)
    return name


def head_of(recording: Optional[str], party: str, first: int, opening: int) -> str:
    """Returns the lines that a file of a log begins with, whose first record has this number, and with whose file of this number the log was
    opened."""
    return f"postcopy-records 1\nrecording {recording}\nlog {party} {first} {opening}\n"


def _is_of(file: int, head: bytes, _pread: Any = os.pread) -> bool:
    """Whether a descriptor is one of the log's file, which begins so. A program may close what it did not open, as by os.closerange, and open a
    file of its own that gets the number: nothing may be done to that one. (On a network, to ask for the inode may take a write to the server.)"""
    try:
        return file >= 0 and _pread(file, len(head), 0) == head
    except OSError:
        return False


class Log:
    """The log of a party: "guest", "source", "link", "lane" or "pager", or "machine" for the first three calls.

    The folder is made if it does not exist. If it is None, nothing is recorded, and all calls return LOST. `first` is the number of
    the first record: 0, or if another process handed the log over (the guest's, after the halt) what hand_over returned there. If
    that is LOST, nothing is recorded. `recording` is the recording's name. The first log that is opened in a folder makes one at
    random.

    The end of a `with` closes the log. If an exception ends it, the log is left as if its process had died. So is a log that nobody closed
    and nobody refers to any more: there is a ResourceWarning, and its file has its records and no end.
    """

    _file = -1  # (where no file was opened, none is given back)

    def __init__(self, folder: Optional[Folder], party: str, first: int = 0) -> None:
        if party not in LOGS and party != "machine":
            raise ValueError(f"there is no party {party}")
        first = operator.index(first)
        if first < 0:
            raise ValueError(f"no record has the number {first}")
        self.error: Optional[OSError] = None
        self.recording: Optional[str] = None
        self._party, self._next, self._lock = party, first, threading.RLock()
        self._process, self._file = os.getpid(), -1
        self._path, self._head = "", b""  # of the file, and how it begins, as far as that is written
        self._stray: Optional[mmap.mmap] = None  # whether a forked child has made a call, and whether the log was closed: both share this
        self._is_late = False  # whether a call on the log that was closed was told
        self._is_writing, self._is_ending = False, False  # whether the thread with the lock is in a call, which a signal handler may interrupt
        if first >= LOST:
            self.error = OSError(errno.EINVAL, "the log was not handed over, as a record was lost")
        elif folder is not None:
            self.recording = _name_recording(folder)
            self._stray = mmap.mmap(-1, 2)
            self._begin(os.path.join(os.path.abspath(folder), f"{party}.{self._process}"))

    def _begin(self, stem: str) -> None:
        number = -1
        while self._file < 0:
            number += 1
            path = f"{stem}.{number}"
            with contextlib.suppress(FileExistsError):
                self._file = _above_standard(os.open(path, os.O_RDWR | os.O_APPEND | os.O_CREAT | os.O_EXCL | os.O_CLOEXEC, 0o666))
        head = head_of(self.recording, self._party, self._next, number)
        try:
            self._put(head)
        except OSError:
            self._give_back()
            os.remove(path)
            raise
        self._path, self._head = path, head.encode("ascii")

    def _put(self, text: str) -> None:
        """Writes all of the lines, or none."""
        data, written = text.encode("ascii"), 0
        try:
            while written < len(data):
                if not _is_of(self._file, self._head):
                    raise _closed_by_others()
                written += os.write(self._file, data[written:])
        except OSError:
            if written and _is_of(self._file, self._head):
                os.ftruncate(self._file, os.fstat(self._file).st_size - written)
            raise

    def _give_back(self, _close: Any = os.close, _is_of: Any = _is_of) -> None:
        """Closes the file, once: another may have its number from then on."""
        file, self._file = self._file, -1
        if _is_of(file, self._head):
            _close(file)

    def __del__(self, _getpid: Any = os.getpid, _warn: Any = warnings.warn) -> None:
        # (as a process ends, its modules lose their names: what is called here stands in the heads of these two. A child did not open the
        # file, and may have another of this number)
        if self._file >= 0 and self._process == _getpid():
            self._give_back()
            _warn(f"a log was not closed: {self._path}", ResourceWarning, source=self)

    def __getstate__(self) -> object:
        raise TypeError("a log cannot be copied")  # (two objects would count the same numbers, and one give back the file of both)

    def _is_open(self) -> bool:
        """Whether this process writes the log. (Check this before you take the lock: in a forked child nobody may release it.)"""
        return self._file >= 0 and self._process == os.getpid()

    def close(self) -> None:
        """Closes the log: its file then says how many records it has. Without this no record is lost, but nobody can know that they
        are all, and the recording counts as one that is not whole. Later calls return LOST, and the file says that a record was not
        written."""
        self._end("end")

    def hand_over(self) -> int:
        """Closes the log so that another process can go on with it. Returns the number with which that process opens it, or LOST if a
        record was lost, because then nobody can go on."""
        return self._end("next")

    def _end(self, word: Optional[str]) -> int:
        if not self._is_open():
            return LOST
        with self._lock:
            if self._file < 0 or self._is_ending:
                return LOST
            self._look_for_interrupted()
            self._is_ending = True
            try:
                return self._end_open(word)
            finally:
                self._is_ending = False

    def _end_open(self, word: Optional[str]) -> int:
        if self.error is None and not _is_of(self._file, self._head):
            self.error = _closed_by_others()
        number = self._next if self.error is None else LOST
        if self.error is None and self._stray is not None and self._stray[0]:
            # (it took no number, so that another process can go on)
            self.error = OSError(errno.EPERM, "a forked child made a call on its parent's log")
        try:
            if word is not None:
                self._put(f"{word} {number}\n" if self.error is None else f"lost {self.error.errno}\n")
        except OSError as error:
            self.error = self.error or error
        self._give_back()
        if self._stray is not None:
            self._stray[1] = 1
            if self._stray[0]:  # (a child made its call just then)
                self._end_late(errno.EPERM)
        if self.error is not None:  # (or a signal handler)
            self._end_late(self.error.errno or errno.EIO)
        return number

    def _end_late(self, why: int) -> None:
        """What becomes of a call on a log that was closed, by a thread that ends late or in a child: the last line tells that a record was lost."""
        if self._is_late or not self._path:
            return
        self._is_late = True
        self.error = self.error or OSError(why, "a call on a log that was closed")
        # (a child may have the file open, and no right to open it. Another may have its number or its name by now)
        if not _amend(self._file, self._head, why):
            with contextlib.suppress(OSError):
                file = os.open(self._path, os.O_RDWR | _AS_IT_IS)
                _amend(file, self._head, why)
                os.close(file)

    def __enter__(self) -> "Log":
        return self

    def __exit__(self, kind: object, *_: object) -> None:
        self._end("end" if kind is None else None)

    def _append(self, party: str, *record: object) -> int:
        if party != self._party:
            raise ValueError(f"'{record[0]}' is no record of the {self._party}'s log")
        if self._process != os.getpid():
            if self._stray is not None:
                self._stray[0] = 1
                if self._stray[1]:
                    self._end_late(errno.EPERM)
            return LOST
        with self._lock:
            if self._file < 0:
                self._end_late(errno.EBADF)
            self._look_for_interrupted()
            if self._file < 0 or self.error is not None:
                return LOST
            self._is_writing = True
            number = self._next
            self._next += 1
            try:
                if number >= LOST - 1:  # the number behind the last record is one too
                    raise OSError(errno.EOVERFLOW, os.strerror(errno.EOVERFLOW))
                self._put(" ".join(map(str, (number, *record))) + "\n")
            except OSError as error:
                self.error = self.error or error
                return LOST
            finally:
                self._is_writing = False
            return number

    def _look_for_interrupted(self) -> None:
        """Loses the record of a signal handler that has interrupted a call of its thread: it would stand before one of a lesser number."""
        if self._is_writing or self._is_ending:
            self.error = self.error or OSError(errno.EBUSY, "a signal handler made a call while its thread made one")

    # The machine.

    def machine(self, pages: int, cells: int) -> int:
        """The number of pages, and of 64-bit cells in each, if the lane has no log."""
        return self._append("machine", "pages", pages, cells, 0)

    def machine_with_lane(self, pages: int, cells: int) -> int:
        """Replaces `machine` if the lane has a log, so that nobody can lose that log unseen."""
        return self._append("machine", "pages", pages, cells, 1)

    def initial(self, page: int, contents: Iterable[int]) -> int:
        """The initial contents of a page that does not begin as zeros."""
        return self._append("machine", "page", page, _spelled(contents))

    # The guest. `ready` and `placement` are numbers from the pager's log.

    def read(self, vcpu: int, page: int, cell: int, value: int) -> int:
        return self._append("guest", "r", vcpu, page, cell, value)

    def write(self, vcpu: int, page: int, cell: int, value: int) -> int:
        return self._append("guest", "w", vcpu, page, cell, value)

    def release(self, vcpu: int, page: int) -> int:
        return self._append("guest", "z", vcpu, page)

    def miss(self, vcpu: int, page: int) -> int:
        return self._append("guest", "miss", vcpu, page)

    def halt(self) -> int:
        return self._append("guest", "halt")

    def resume(self, ready: int) -> int:
        return self._append("guest", "resume", ready)

    def see(self, placement: int) -> int:
        return self._append("guest", "see", placement)

    def read_all(self, vcpu: int, placement: int, pages: Iterable[Tuple[int, Iterable[int]]]) -> int:
        """The guest looks at the newest placement and reads each cell of these pages: all that have come, each with its contents. Call it
        once, at the end, while the guest stands still: so a lost write that nobody else reads is found. Returns the last record's number."""
        last = self.see(placement)
        for page, contents in pages:
            for cell, value in enumerate(contents):
                last = self.read(vcpu, page, cell, value)
        return last

    # The source. `halt` is a number from the guest's log, `up` from the link's, and `sent` that of its own earlier state or send.

    def halted(self, halt: int) -> int:
        return self._append("source", "halted", halt)

    def state(self) -> int:
        return self._append("source", "state")

    def send(self, page: int, contents: Iterable[int]) -> int:
        return self._append("source", "send", page, _spelled(contents))

    def again(self, sent: int) -> int:
        return self._append("source", "again", sent)

    def ask(self, up: int) -> int:
        return self._append("source", "ask", up)

    def ask_sent(self, sent: int) -> int:
        """Replaces `ask` if the link has no log. `sent` is the number that came with the message, from the pager's log."""
        return self._append("source", "ask-sent", sent)

    def done(self) -> int:
        return self._append("source", "done")

    def back(self) -> int:
        """The source starts its guest again. This must be the last record of the log."""
        return self._append("source", "back")

    # The link and the lane. `sent` is a number from the source's log, or for `up` from the pager's.

    def down(self, sent: int) -> int:
        return self._append("lane" if self._party == "lane" else "link", "down", sent)

    def up(self, sent: int) -> int:
        return self._append("link", "up", sent)

    # The pager. `down` is a number from the link's or the lane's log, `miss` from the guest's; the others are from its own.

    def got(self, down: int) -> int:
        return self._append("pager", "got", down)

    def got_sent(self, sent: int) -> int:
        """Replaces `got` if the link has no log. `sent` is the number that came with the packet, from the source's log."""
        return self._append("pager", "got-sent", sent)

    def pull(self, down: int) -> int:
        return self._append("pager", "pull", down)

    def pull_sent(self, sent: int) -> int:
        """Replaces `pull` if the lane has no log. `sent` is the number that came with the packet, from the source's log."""
        return self._append("pager", "pull-sent", sent)

    def ready(self) -> int:
        return self._append("pager", "ready")

    def fault(self, miss: int) -> int:
        return self._append("pager", "fault", miss)

    def join(self, want: int) -> int:
        return self._append("pager", "join", want)

    def want(self, page: int) -> int:
        return self._append("pager", "want", page)

    def place(self, page: int, got: int, contents: Iterable[int]) -> int:
        return self._append("pager", "place", page, got, _spelled(contents))

    def zero(self, page: int) -> int:
        return self._append("pager", "zero", page)

    def skip(self, got: int) -> int:
        return self._append("pager", "skip", got)

    def all(self) -> int:
        return self._append("pager", "all")


def _closed_by_others() -> OSError:
    return OSError(errno.EBADF, "somebody else has closed the log's file")


def _amend(file: int, head: bytes, why: int) -> bool:
    """Puts into the file of a log that was closed that a record was not written, in the place of its last line. Returns whether this is the
    file."""
    with contextlib.suppress(OSError):
        if _is_of(file, head):
            length = os.fstat(file).st_size
            text = os.pread(file, 160, max(0, length - 160))
            start = text.rfind(b"\n", 0, -1) + 1
            if text[start:].startswith((b"end ", b"next ")):
                os.ftruncate(file, length - len(text) + start)
                os.pwrite(file, b"lost %d\n" % why, length - len(text) + start)
            return True
    return False


def _above_standard(file: int) -> int:
    """Returns the file with a number that is none of a standard file. What the process prints would go there, if that was closed."""
    if file > 2:
        return file
    try:
        return fcntl.fcntl(file, fcntl.F_DUPFD_CLOEXEC, 3)
    finally:
        os.close(file)


def _spelled(contents: Iterable[int]) -> str:
    return "".join(f"{cell:016x}" for cell in contents)


def page_hash(page: bytes) -> int:
    """Returns a page's contents as one cell, as postcopy_page_hash does in C: 0 if all bytes are 0, and otherwise a hash. Raises
    ValueError if the length is no multiple of 8."""
    if len(page) % 8:
        raise ValueError(f"a page of {len(page)} bytes: the length must be a multiple of 8")
    if page.count(0) == len(page):
        return 0
    value, mask = 0, 2**64 - 1
    for at in range(0, len(page) - 7, 8):
        value = (value ^ int.from_bytes(page[at : at + 8], "little")) * 0x9E3779B97F4A7C15 & mask
        value = (value ^ value >> 29) * 0xBF58476D1CE4E5B9 & mask
        value ^= value >> 32
    return value or 1

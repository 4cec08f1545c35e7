"""The folders of a recording: the user's folder, where it stays, and a folder for sockets and pipes while it is made.

Nothing is removed from a folder that was not made here. A folder that was made here has the file MARK, and only the files that a
recorder writes are replaced in it. Those of a recording, which MARK lists, are replaced by a recording of another recorder too.
A process that has taken a folder keeps it until it ends: two recordings at once would each have files of the other.
"""
import errno
import fcntl
import os
import re
import shutil
import signal
import stat
import sys
import tempfile
import threading

import build
from files import write

MARK = ".postcopy-recording"
ON_MARK = "This folder was made by recorders/%s, which replaces its own files in it when it records into it again.\n"
PLAN = "plan.json"  # which each recording has
FILES = (PLAN, "guest.bin", "outcome.json", "halt.mem", "relay.log", "relay.pages", "session", "report", "certificate",
         "explained", "picture.svg", "verdict", "restart", "witness",
         *(f"{machine}.{what}" for machine in ("source", "target") for what in ("raw", "pages", "errors", "command")))

# A socket's path has at most 107 bytes. QEMU's options are cut at commas, and the name of its log at a percent sign.
LONGEST_TOP = 60
PLAIN = re.compile(r"/[A-Za-z0-9/._-]*")


CANNOT = 3  # the status where this machine cannot record

HELD = {}  # the marks of the folders that this process has taken, which stay open and locked


class NotOurs(Exception):
    """Nothing can be recorded into a folder. The message says why."""


def is_ours(folder):
    """Returns whether a folder was made here."""
    try:
        return stat.S_ISREG(os.lstat(f"{folder}/{MARK}").st_mode)
    except OSError:
        return False


def look_at(folder, files=FILES):
    """Raises NotOurs if a folder cannot be taken. It must be new, empty, or made here."""
    try:
        names = os.listdir(folder)
    except FileNotFoundError:
        return
    except OSError as fault:
        raise NotOurs(f"{folder} cannot be recorded into: {fault.strerror}") from None
    if names and not is_ours(folder):
        raise NotOurs(f"{folder} is not empty, and was not made by this recorder: name a new or an empty folder")
    for name in files:
        if os.path.isdir(f"{folder}/{name}") and not os.path.islink(f"{folder}/{name}"):
            raise NotOurs(f"{folder}/{name} is a folder, but a file of the recording needs this name")


def take(folder, files=FILES, recorder="qemu"):
    """Makes a folder, or takes one that `look_at` accepts, and removes what an earlier run left in it. `recorder` names the recorder."""
    look_at(folder, files)
    try:
        os.makedirs(folder, exist_ok=True)
        hold(folder)
        is_recording, earlier = PLAN in files, listed(folder)
        clear(folder, {*files, *earlier} if is_recording else files)
        write(f"{folder}/{MARK}", ON_MARK % recorder + "".join(f"{name}\n" for name in (files if is_recording else earlier)))
    except OSError as fault:
        raise NotOurs(f"{folder} cannot be recorded into: {fault.strerror}") from None


def refuse_words(parser, folder, words, what):
    """Ends with a usage fault if a folder has the name of one of these words, as where the folder was left out behind it."""
    if folder in words:
        parser.error(f"'{folder}' is a {what}, and no FOLDER is named; './{folder}' would be one")


def end_in_order():
    """Has a signal that would end this process at once end it as an exception does, so that its temporary folder does not stay. Only the main
    thread can, so elsewhere, as in a process of pytest that runs its tests in another, signals stay as they are."""
    if threading.current_thread() is not threading.main_thread():
        return
    for number in (signal.SIGHUP, signal.SIGTERM):
        if signal.getsignal(number) == signal.SIG_DFL:
            signal.signal(number, lambda number, _: sys.exit(128 + number))


def status_of(name, main):
    """Runs the command of this name, and returns its status. It says what cannot be read or written, and is silent at an interrupt."""
    try:
        if sys.stdout is None:
            raise OSError(errno.EBADF, "it is closed")
        status = main()
        sys.stdout.flush()
        return status
    except KeyboardInterrupt:
        return 128 + signal.SIGINT
    except OSError as fault:
        print(f"{name}: {fault.filename or 'standard output'}: {fault.strerror}", file=sys.stderr)
        if fault.filename is None and sys.stdout:
            os.dup2(os.open(os.devnull, os.O_WRONLY), sys.stdout.fileno())  # which takes what is left
        return CANNOT


def hold(folder):
    """Locks a folder's mark, which is made if it is not there, until this process ends. Raises NotOurs if another process holds it."""
    path = os.path.realpath(folder)
    mark = open(f"{folder}/{MARK}", "a", encoding="ascii")
    if path in HELD and os.path.samestat(os.fstat(HELD[path].fileno()), os.fstat(mark.fileno())):
        mark.close()
        return
    try:
        fcntl.flock(mark, fcntl.LOCK_EX | fcntl.LOCK_NB)
    except BlockingIOError:
        mark.close()
        raise NotOurs(f"{folder} is being recorded into by another process: name another folder, or wait until it has ended") from None
    except OSError:
        pass  # a file system without locks
    HELD[path] = mark


def listed(folder):
    """Returns the names of the files of the recording that was made there last."""
    try:
        with open(f"{folder}/{MARK}", encoding="ascii", errors="replace") as mark:
            return [name for name in mark.read().splitlines()[1:] if "/" not in name]
    except FileNotFoundError:
        return []


def clear(folder, files):
    for name in files:
        try:
            os.unlink(f"{folder}/{name}")
        except FileNotFoundError:
            pass


def remove(folder, files=FILES):
    """Removes what was recorded into a folder that was made here, and the folder itself if nothing else is in it."""
    if not is_ours(folder):
        return
    clear(folder, files)
    if os.listdir(folder) == [MARK]:
        os.unlink(f"{folder}/{MARK}")
        os.rmdir(folder)


def remove_all(folder):
    """Removes a folder that an earlier run left, with all that is in it. Raises NotOurs if another process records into it."""
    if not is_ours(folder):
        return
    hold(folder)
    shutil.rmtree(folder, ignore_errors=True)
    HELD.pop(os.path.realpath(folder)).close()


class Room:
    """A folder that only this user can enter, for the sockets and pipes of a migration. Its path is short and has no special characters."""

    def __init__(self):
        tops = [top for top in (tempfile.gettempdir(), "/tmp", "/var/tmp") if len(top) <= LONGEST_TOP and PLAIN.fullmatch(top)]
        for top in tops:
            try:
                self.path = tempfile.mkdtemp(prefix="postcopy-", dir=top)  # of mode 0700
                return
            except OSError as fault:
                why = fault.strerror
        raise build.Missing(f"no folder for sockets can be made in {top}: {why}")

    def name(self, name):
        return f"{self.path}/{name}"

    def end(self):
        shutil.rmtree(self.path, ignore_errors=True)

"""The source's side of a recording by page contents: the process, its monitor, and the observer beside it."""
import contextlib
import os
import re
import socket
import struct
import subprocess
import threading
import time

import build
from files import naming, write
from kinds import UNFIT
from page_target import KEY_VARIABLE, take_folder
from qmp import Gone, Hangs, Qmp, Refused
from roots import die_with_parent

SECONDS_BETWEEN_QUESTIONS = 0.05
SWITCHED = ("postcopy-active", "postcopy-paused", "postcopy-recover", "postcopy-recover-setup", "completed")
NEVER = ("failed", "cancelled")
STOPPED = "stopped"  # the observer's word for the target of a pre-copy
NAMES, ABSENT = "names", "absent"  # the files of the names that QEMU has for its blocks, and of the ranges of pages in which there was nothing
RELEASING = "release-ram"  # the capability of a source that gives up what it has sent


class Lost(Exception):
    """The source's memory was not recorded. The message says why."""


class States:
    """The words for the observer, from a source's states as they come."""

    def __init__(self):
        self.is_halted = False

    def word(self, migration, is_running):
        """Returns the word for a state, or None: how the migration stands, in QEMU's words, and whether the guest runs."""
        if self.is_halted and is_running:
            return "back"
        if is_running or migration not in SWITCHED:
            return "failed" if migration in NEVER and not self.is_halted else None
        if migration == "completed":
            return "end"
        word = None if self.is_halted else "halt"
        self.is_halted = True
        return word


class Monitor(Qmp):
    """A monitor of the QEMU `process`, which remembers whether the guest was stopped last: QEMU may end before it can be asked."""
    is_stopped = False

    def __init__(self, path):
        self.process = process_of_socket(path)
        super().__init__(path, lambda: os.path.exists(f"/proc/{self.process}"))

    def line(self):
        answer = super().line()
        if answer.get("event") in ("STOP", "RESUME"):
            self.is_stopped = answer["event"] == "STOP"
        return answer

    def names(self):
        """Returns a line for each block of memory, with its length and its name, in QEMU's order."""
        try:
            told = self("human-monitor-command", **{"command-line": "info ramblock"})
        except Refused:
            return ""
        found = re.findall(r"^\s*(\S+)\s+\d+ \w+\s+0x\w+\s+0x\w+\s+(0x\w+)", told, re.MULTILINE)
        return "".join(f"{int(length, 16)} {name}\n" for name, length in found)


def require_kept(monitor):
    """Raises Lost if the source gives up the pages that it has sent."""
    if any(one["state"] for one in monitor("query-migrate-capabilities") if one["capability"] == RELEASING):
        raise Lost(f"{RELEASING}: {UNFIT[RELEASING]}")


def words_of_qmp(monitor):
    """Yields the observer's words. QEMU answers under its lock, so the package of a halt is complete when an answer tells of the halt."""
    states = States()
    try:
        first = monitor("query-migrate").get("status")  # which may be of an earlier migration
        while True:
            status = monitor("query-migrate").get("status")
            first = first if status == first else None
            word = states.word(None if first else status, monitor("query-status")["running"])
            if word:
                require_kept(monitor)
                yield word
            if word and word != "halt":
                return
            time.sleep(SECONDS_BETWEEN_QUESTIONS)
    except Hangs as fault:
        raise Lost(f"the monitor: {fault}") from None
    except Gone:
        if not states.is_halted:
            yield "halt" if monitor.is_stopped else "failed"
    finally:
        monitor.close()


def words_of_libvirt(lines):
    """Yields the observer's words, from the lines of `virsh qemu-monitor-event --loop`."""
    states, migration, is_running = States(), None, True
    for line in lines:
        event = re.match(r"event (\w+) at \S+ for domain .*?: (.*)", line)
        if event and event[1] in ("STOP", "RESUME"):
            is_running = event[1] == "RESUME"
        elif event and event[1] == "MIGRATION":
            migration = (re.findall(r'"status": *"([\w-]+)"', event[2]) or [migration])[0]
        else:
            continue
        if word := states.word(migration, is_running):
            yield word
            if word != "halt":
                return
    if not states.is_halted:
        yield "failed"


def process_of_socket(path):
    """Returns the process that listens on a socket."""
    with socket.socket(socket.AF_UNIX) as end, naming(path):
        end.connect(path)
        return struct.unpack("3i", end.getsockopt(socket.SOL_SOCKET, socket.SO_PEERCRED, 12))[0]


def process_of_domain(name):
    """Returns the process of a domain of libvirt."""
    path = f"/run/libvirt/qemu/{name}.pid"
    try:
        with open(path, encoding="ascii") as file:
            return int(file.read())
    except (OSError, ValueError):
        raise Lost(f"{path} names no process: is '{name}' a domain that runs here, of qemu:///system?") from None


def state_of_domain(name):
    return subprocess.run(["virsh", "domstate", name], stdout=subprocess.PIPE, text=True).stdout.strip()


def require_stopped(is_stopped):
    if not is_stopped:
        raise Lost("the guest is not stopped there: migrate with --suspend, or start the target with -S, and let it go on afterwards")


class Observer:
    """Stands beside a process from here on; or records what it holds if it is the `stopped` target of a pre-copy. Raises Lost if it cannot."""

    def __init__(self, folder, key, process, *how):
        program = build.build_observer("source")
        take_folder(folder)
        self.folder, self.watched = folder, process
        self.process = subprocess.Popen([program, str(process), folder, *how], stdin=subprocess.PIPE, stdout=subprocess.PIPE, stderr=subprocess.PIPE,
                                        text=True, preexec_fn=die_with_parent, env={**os.environ, KEY_VARIABLE: key})
        self.fault = None
        line = self.process.stdout.readline().split()
        if line[:1] != ["ready"]:
            self.end()
        self.blocks, self.pages = int(line[1]), int(line[2])

    def name_blocks(self, names):
        write(f"{self.folder}/{NAMES}", names)

    def feed(self, words):
        try:
            for word in words:
                self.process.stdin.write(f"{word}\n")
                self.process.stdin.flush()
        except Lost as fault:
            self.fault = fault
            self.process.kill()
        except BrokenPipeError:
            pass  # it has ended
        finally:
            with contextlib.suppress(BrokenPipeError):
                self.process.stdin.close()

    def watch(self, words, say=lambda line: None):
        """Records the source's memory. `words` are those of its monitor, and `say` takes what the observer tells. Raises Lost if there is
        nothing to record, or it cannot be recorded."""
        threading.Thread(target=self.feed, args=(words,), daemon=True).start()
        for line in self.process.stdout:
            say(line.strip())
        self.end()

    def end(self):
        said = self.process.stderr.read().strip()
        if self.process.wait():
            raise self.fault or Lost(said or f"the observer ended with status {self.process.returncode}")

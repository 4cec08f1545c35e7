"""Makes one lazy migration and records it."""
import fcntl
import json
import os
import socket
import subprocess
import time
from dataclasses import dataclass, field

import criu_build
import folders
from criu_plans import BASE
from criu_session import end_of_log
from page_relay import Relay
from page_server import PAGE_BYTES, header_of
from sides import PROCESS, Failed, Side

FILES = ("plan.json", "log", "relay.log", "relay.pages", "target.pages", "outcome.json", "errors", "dump.log", "lazy-pages.log",
         "restore.log", "session", "report", "certificate", "explained", "picture.svg", "verdict")
RECORDED = ("log", "relay.log", "relay.pages", "target.pages")  # a session is made from these, and from the plan, which is there at once
QUIET = 3.0  # seconds without a record, after which the process hangs
REPEATS = 50  # of a request in a row, once lazy-pages does nothing else
SAMPLES, LEAST_SAMPLES, LEAST_TICKS = 200, 10, 20  # looks whether it does, 0.05 s apart; ticks are of 0.01 s


@dataclass
class Outcome:
    """The results of CRIU's three programs: a status, `hangs`, or nothing if a program was never started."""
    dump: object = None
    lazy_pages: object = None
    restore: object = None
    remarks: list = field(default_factory=list)

    @property
    def is_whole(self):
        return (self.dump, self.lazy_pages, self.restore) == (0, 0, 0) and not self.remarks

    @property
    def ended(self):
        """Returns how the migration ended, if it is not whole; otherwise nothing."""
        return "" if self.is_whole else str(self)

    def __str__(self):
        ends = [f"{name} {'not started' if end is None else 'ended' if end == 0 else end if isinstance(end, str) else f'failed ({end})'}"
                for name, end in (("dump", self.dump), ("lazy-pages", self.lazy_pages), ("restore", self.restore))]
        return "; ".join([", ".join(ends), *self.remarks])


class GaveUp(Exception):
    """A part of the migration did not come to its end. The message says which."""


def ended(process, seconds):
    """Waits for a process, and returns its status, or `hangs`."""
    try:
        return process.wait(max(seconds, 0))
    except subprocess.TimeoutExpired:
        return "hangs"


def signalled(descriptor, process, seconds):
    """Returns whether a program wrote to a descriptor that it is ready, before it ended and in time."""
    until = time.monotonic() + seconds
    os.set_blocking(descriptor, False)
    while time.monotonic() < until:
        try:
            return os.read(descriptor, 1) == b"\0"
        except BlockingIOError:
            if process.poll() is not None:
                return False
            time.sleep(0.005)
    return False


class Migration:
    def __init__(self, plan, folder, say):
        self.plan, self.folder, self.say, self.outcome = plan, folder, say, Outcome()
        self.relay = None
        self.rest = None  # since when lazy-pages has recorded nothing, and its processor time then

    def run(self):
        """Makes the migration, and returns the outcome."""
        criu_build.require_rights()
        self.root, self.plan.criu = criu_build.root_and_version(self.plan.criu)
        built = criu_build.build()
        folders.take(self.folder, FILES, "criu")
        for name in RECORDED:
            self.write(name, "")
        self.write("plan.json", self.plan.to_text())
        self.room, self.log, self.sides = folders.Room(), f"{self.folder}/log", []
        try:
            with open(f"{self.folder}/errors", "wb") as self.errors, open(self.room.name("gate"), "wb") as self.gate:
                os.mkdir(self.room.name("images"))
                try:
                    self.move(*built)
                except (GaveUp, Failed) as fault:
                    self.outcome.remarks.append(str(fault))
                finally:
                    self.stop()
        finally:
            self.room.end()
        self.write("outcome.json", json.dumps(vars(self.outcome), indent=1))
        return self.outcome

    def write(self, name, text):
        folders.write(f"{self.folder}/{name}", text)

    def side(self, name):
        side = Side(name, self.root, [self.folder, self.room.path, criu_build.HERE, criu_build.OUT], self.errors)
        self.sides.append(side)
        return side

    # The log

    def told(self):
        """Returns how many bytes the log has."""
        return os.stat(self.log).st_size

    def wait_for_accesses(self, count, seconds, is_over=lambda: False):
        """Waits until the process has recorded this many more accesses, or hangs. Returns whether it did."""
        found, at, until, last = 0, self.told(), time.monotonic() + seconds, time.monotonic()
        while found < count and time.monotonic() < until and not is_over():
            time.sleep(0.01)
            with open(self.log, "rb") as log:
                log.seek(at)
                more = log.read()
            accesses, at = more.count(b"\ng ") + more.startswith(b"g "), at + len(more)
            if b"\np " in more or more.startswith(b"p "):
                self.rest = None
            if accesses:
                found, last = found + accesses, time.monotonic()
            elif time.monotonic() > last + QUIET:
                if self.is_at_rest():
                    break
                last = time.monotonic()
        return found >= count

    def repeats_itself(self):
        """Returns whether lazy-pages asks for the same pages again and again."""
        return self.relay is not None and self.relay.repeats >= REPEATS

    def does_nothing(self):
        """Returns whether lazy-pages has recorded nothing for some time in which it looked for messages, while no answer was on its way."""
        if self.rest is None:
            self.rest = time.monotonic(), self.ticks_of_pager()
        since, ticks = self.rest
        return (time.monotonic() > since + QUIET and not self.relay.is_waited_for() and self.ticks_of_pager() - ticks >= LEAST_TICKS)

    def is_stuck(self):
        return self.repeats_itself() or self.does_nothing()

    def has_become(self, lazy):
        """Returns the status of lazy-pages, or what it does instead of ending."""
        if lazy.poll() is not None:
            return lazy.poll()
        if self.repeats_itself():
            return "asks for the same pages over and over"
        return "hangs" if self.is_at_rest() else "does nothing more" if self.does_nothing() else "has not ended"

    def is_at_rest(self):
        """Returns whether nothing happens: nothing is recorded, no answer is on its way, and neither the process nor the page server runs or
        waits for a processor. lazy-pages may run, because it looks for messages again and again. If it finds none, it has had time."""
        told, used, samples = self.told(), self.ticks_of_pager(), 0
        for _ in range(SAMPLES):
            time.sleep(0.05)
            samples += 1
            if self.told() != told or self.relay is not None and self.relay.is_waited_for() or self.is_running():
                return False
            if samples >= LEAST_SAMPLES and self.ticks_of_pager() - used >= LEAST_TICKS:
                return True
        return self.ticks_of_pager() == used

    def is_running(self):
        """Returns whether a thread of the process, or the page server, runs or waits for a processor."""
        *sources, target = [side.processes() for side in self.sides]
        states = [states for side in sources for states, _ in side.values()]
        return any("R" in it for it in [*states, target.get(PROCESS, "X")[0]])

    def ticks_of_pager(self):
        """Returns the processor time of what runs beside the process, on its side."""
        return sum(ticks for number, (_, ticks) in self.sides[-1].processes().items() if number != PROCESS)

    def lock_gate(self, seconds):
        """Stops the process between accesses, and returns whether that was possible."""
        until = time.monotonic() + seconds
        while time.monotonic() < until:
            try:
                fcntl.flock(self.gate, fcntl.LOCK_EX | fcntl.LOCK_NB)
                return True
            except BlockingIOError:
                time.sleep(0.001)
        return False

    # The migration

    def move(self, walk, library, pipe_size):
        plan, source = self.plan, self.side("source")
        # The next number in the namespace is that of the process itself, so nothing else has it at the target.
        # Its descriptors are opened within the side, where CRIU can find their files, and none is that of a device.
        start = f'echo {PROCESS - 1} > /proc/sys/kernel/ns_last_pid && exec setsid --fork "$@" 0<&- >> "$0" 2>&1'
        words = [walk, self.log, self.room.name("gate"), plan.pages, plan.words, plan.threads, plan.pace, plan.writes, plan.releases, plan.ahead]
        source.run("sh", "-c", start, f"{self.folder}/errors", *map(str, words)).wait()
        if not self.wait_for_accesses(plan.pages + plan.warm // 2, plan.limit) or not source.has_process():
            raise GaveUp("the process did not run")
        before = source.memory(BASE, plan.pages * PAGE_BYTES)
        if not self.wait_for_accesses(plan.warm // 2, plan.limit):
            raise GaveUp("the process did not run")
        self.say(f"process: {plan.pages} pages of {plan.words} words, {plan.threads} thread{'s' * (plan.threads > 1)}; CRIU {plan.criu}")
        (server, to_server), (pager, to_pager) = socket.socketpair(), socket.socketpair()
        self.relay = Relay(self.folder, header_of(plan.criu), to_pager, to_server, plan, before)
        dump = self.dump(source, server, pipe_size)
        self.say("frozen, and the page server is ready")
        target = self.side("target")
        lazy = self.lazy_pages(target, pager, library)
        restore = target.run("criu", "restore", "--lazy-pages", "--restore-detached", *self.common("restore"), *self.scripted(),
                             environment=self.telling())
        self.outcome.restore = ended(restore, plan.limit)
        if self.outcome.restore != 0:
            raise GaveUp("the process was not restored")
        self.say("restored: the process runs at the target")
        self.wait_for_accesses(float("inf"), 5 * plan.limit, lambda: lazy.poll() is not None or not plan.plain and self.is_stuck())
        self.outcome.lazy_pages = self.has_become(lazy)
        self.outcome.dump = "waits" if lazy.poll() is None else ended(dump, plan.limit)
        if lazy.poll() is not None and not self.wait_for_accesses(plan.after, plan.limit):
            self.outcome.remarks.append("the process told nothing more")
        self.say(str(self.outcome))

    def common(self, name):
        return ["--images-dir", self.room.name("images"), "--work-dir", self.room.path, "-v4", "--log-file", f"{self.folder}/{name}.log"]

    def scripted(self):
        return ["--action-script", f"{criu_build.HERE}/action.sh"]

    def telling(self):
        return {"RECORD_LOG": self.log}

    def dump(self, source, connection, pipe_size):
        """Freezes the process between accesses, and starts to serve its pages."""
        if not self.lock_gate(self.plan.limit):
            raise GaveUp("the process could not be stopped between accesses")
        if self.plan.keep_at_target:
            os.ftruncate(self.gate.fileno(), 1)  # from here on it releases no pages
        ready, written = os.pipe()
        with connection as theirs:
            dump = source.run(
                "criu", "dump", "--lazy-pages", "--tree", str(PROCESS), "--ps-socket", str(theirs.fileno()), "--status-fd", str(written),
                *self.common("dump"), *self.scripted(), environment={**self.telling(), "LD_PRELOAD": pipe_size},
                descriptors=(theirs.fileno(), written))
        os.close(written)
        is_ready = signalled(ready, dump, self.plan.limit)
        os.close(ready)
        if not is_ready:
            self.outcome.dump = ended(dump, 0)
            raise GaveUp("the process was not dumped")
        fcntl.flock(self.gate, fcntl.LOCK_UN)  # it is frozen
        return dump

    def lazy_pages(self, target, connection, library):
        plan = self.plan
        ready, written = os.pipe()
        with connection as theirs:
            telling = {} if plan.plain else {
                **self.telling(), "LD_PRELOAD": library, "RECORD_PAGES": f"{self.folder}/target.pages",
                "RECORD_SOCKET": str(theirs.fileno()), "RECORD_PROCESS": str(PROCESS),
                "RECORD_EARLY": str(plan.skip + 1 if plan.fault == "early" else 0)}
            lazy = target.run("criu", "lazy-pages", "--page-server", "--ps-socket", str(theirs.fileno()), "--status-fd", str(written),
                              *self.common("lazy-pages"), environment=telling, descriptors=(theirs.fileno(), written))
        os.close(written)
        is_ready = signalled(ready, lazy, plan.limit)
        os.close(ready)
        if not is_ready:
            self.outcome.lazy_pages = ended(lazy, 0)
            raise GaveUp("lazy-pages did not start")
        return lazy

    def stop(self):
        """Ends both sides, with the process between accesses if it can be stopped there."""
        self.lock_gate(2)  # until nothing of the sides is left
        for side in reversed(self.sides):
            side.end()
        if self.relay:
            self.relay.end()
            if self.relay.complaint:
                self.outcome.remarks.append(self.relay.complaint)
        self.end_log()

    def end_log(self):
        """Writes the log's last line, by which it shows that nothing of it is lost. Nobody else writes to the log any more."""
        try:
            with open(self.log, "r+b") as log:
                length = log.seek(0, os.SEEK_END)
                log.seek(max(length - 1, 0))
                if log.read() not in (b"", b"\n"):
                    self.outcome.remarks.append("log: its last line is not whole")
                else:
                    log.write(end_of_log(length).encode("ascii"))
        except OSError as fault:
            self.outcome.remarks.append(f"log: {fault.strerror}")

"""recorders/qemu/shows without a QEMU: its forwarder, what it makes of where both sides stand, its words and its status."""
import contextlib
import glob
import io
import os
import re
import socket
import subprocess
import sys
import tempfile
import time
from types import SimpleNamespace
from unittest import mock

import build
import machine
import plain
import qmp
from versions_test import QEMU, command, program, qemu_like, read

TOP = os.path.dirname(os.path.dirname(QEMU))
shows = command("shows")


@contextlib.contextmanager
def forwarded(room):
    """A forwarder, what a source sends into it, and what a target receives."""
    with socket.socket(socket.AF_UNIX) as listener:
        listener.bind(f"{room}/to")
        listener.listen()
        listener.settimeout(10)
        forwarder = plain.Forwarder(f"{room}/from", f"{room}/to")
        with socket.socket(socket.AF_UNIX) as source:
            source.settimeout(10)
            source.connect(f"{room}/from")
            target, _ = listener.accept()
            target.settimeout(10)
            with target:
                yield forwarder, listener, source, target


def received(end):
    """All that comes until the end of a connection."""
    data = b""
    while more := end.recv(100):
        data += more
    return data


def of_the_forwarder(tests, room):
    """Bytes are handed on, and those of one direction are lost."""
    with forwarded(room) as (forwarder, listener, source, target):
        source.sendall(b"down")
        tests.wants("handed on", target.recv(100), b"down")
        forwarder.loses_down = True
        source.sendall(b"lost")
        target.sendall(b"up")
        tests.wants("and back", source.recv(100), b"up")
        until = time.monotonic() + 10
        while forwarder.lost < 4 and time.monotonic() < until:
            time.sleep(0.01)
        with socket.socket(socket.AF_UNIX) as lane:
            lane.settimeout(10)
            lane.connect(f"{room}/from")
            other, _ = listener.accept()
            other.sendall(b"of the lane")
            tests.wants("a second connection", lane.recv(100), b"of the lane")
            forwarder.cut()
            tests.wants("it is cut too", lane.recv(100), b"")
            other.close()
        tests.wants("what is lost is counted, and does not come", (forwarder.lost, received(target)), (4, b""))


def of_a_cut_after_bytes(tests, room):
    """Once so many bytes more came down, all is cut. What comes up does not count."""
    with forwarded(room) as (forwarder, _, source, target):
        source.sendall(b"before")
        tests.wants("what comes before it", target.recv(100), b"before")
        forwarder.cut_after(4)
        target.sendall(b"upwards")
        tests.wants("what comes up", source.recv(100), b"upwards")
        source.sendall(b"four")
        tests.wants("so many", target.recv(100), b"four")
        source.sendall(b"more")
        tests.wants("and then it is cut", (received(target), forwarder.was_cut.wait(10)), (b"", True))


def of_a_cut_after_the_package(tests, room):
    """The package goes on as a whole, also where it comes in parts, and nothing after it."""
    with forwarded(room) as (forwarder, _, source, target):
        forwarder.cuts_after_package = True
        source.sendall(b"before")
        tests.wants("what comes before it", target.recv(100), b"before")
        source.sendall(plain.PACKAGED + (7).to_bytes(4, "big") + b"pac")
        time.sleep(0.1)
        source.sendall(b"kageafter")
        tests.wants("the package", (received(target), forwarder.was_cut.wait(10)), (plain.PACKAGED + (7).to_bytes(4, "big") + b"package", True))


class Side:
    """Where a side stands, each time that it is asked; what it refuses; and its events."""

    def __init__(self, name, *stands, refuses="", events=(), hangs=False):
        self.name, self.some, self.refuses, self.events, self.hangs = name, list(stands), refuses, list(events), hangs
        self.asked, self.dies = [], ""

    def stands(self):
        return self.some.pop(0) if len(self.some) > 1 else self.some[0]

    def __call__(self, what, **arguments):
        self.asked.append(what)
        if what == "query-status" and self.dies:
            raise plain.Ended(self, self.dies)
        if what == self.refuses:
            raise qmp.Refused(f"{what}: it is not allowed")

    def set(self, *names, **parameters):
        pass


def run_of(source, target):
    said = []
    return SimpleNamespace(source=source, target=target, sides=(source, target), room=SimpleNamespace(name=str), say=said.append, said=said,
                           stands=lambda: [source.stands(), target.stands()], forwarder=SimpleNamespace(was_cut=SimpleNamespace(wait=lambda seconds: True)),
                           start_cut=lambda case: None)


RUNS, ENDED, STILL = ("failed", "running"), ("ended", "ended"), ("postcopy-paused", "finish-migrate")


def of_ends_of_cuts(tests):
    """What becomes of a migration that was cut, by where both sides stand."""
    waits, at_target = ("postcopy-device", "finish-migrate"), ("postcopy-paused", "running")
    for what, source, target, wanted in (
            ("both run", Side("source", RUNS), Side("target", at_target), shows.BOTH),
            ("the source waits, and cannot be paused", Side("source", waits, refuses="migrate-pause"), Side("target", at_target), shows.WAITS),
            ("it can", Side("source", STILL), Side("target", at_target), "source postcopy-paused, finish-migrate; target postcopy-paused, running"),
            ("both are recovered", Side("source", ("completed", "postmigrate")), Side("target", ("completed", "running")), shows.RECOVERED),
            ("the target ended", Side("source", STILL), Side("target", ENDED), "source postcopy-paused, finish-migrate; target ended, ended")):
        run = run_of(source, target)
        after = {"it can": (waits, at_target), "both are recovered": (STILL, at_target)}.get(what) or (source.stands(), target.stands())
        with mock.patch.object(shows.time, "sleep", lambda seconds: None):
            tests.wants(what, shows.end_of_cut(run, after), wanted)
    tests.wants("a cut that shows a fault of one case is none of another", [shows.BOTH.startswith(shows.CASES[name].shown_by) for name in ("both-ran", "source-waits")], [True, False])
    by = shows.CASES["multifd-recovery"].shown_by
    tests.wants("a recovery that does not begin, one that goes on, and one that completed", [end.startswith(by) for end in (
        f"{shows.RECOVERY}source postcopy-recover, finish-migrate; target postcopy-paused, running", f"{shows.RECOVERY}source postcopy-active, finish-migrate", shows.RECOVERED)],
                [True, False, False])


def of_loads(tests):
    """What a cut after the package shows."""
    started = Side("target", ENDED, events=["setup", "failed", "RESUME"])
    before = Side("target", ENDED, events=["RESUME", "failed"])
    for what, way, source, target, wanted in (
            ("a guest that is started after its load has failed", shows.failed_load, Side("source", STILL), started, True),
            ("one that was started before", shows.failed_load, Side("source", STILL), before, False),
            ("a guest that is nowhere", shows.guest_nowhere, Side("source", STILL), before, True),
            ("one that goes back", shows.guest_nowhere, Side("source", RUNS), before, False),
            ("a target that hangs", shows.hang, Side("source", RUNS), Side("target", ("hangs", "hangs"), hangs=True), True),
            ("one that ends", shows.hang, Side("source", RUNS), before, False)):
        with mock.patch.object(shows.time, "sleep", lambda seconds: None):
            tests.wants(what, way(shows.CASES["failed-load"], run_of(source, target))[0], wanted)
    never = run_of(Side("source", STILL), Side("target", STILL, events=["active"]))
    with mock.patch.object(shows.time, "sleep", lambda seconds: None):
        tests.refuses("a load that does not fail", shows.NoOccasion, lambda: shows.failed_load(shows.CASES["failed-load"], never))
        early = run_of(Side("source", STILL), Side("target", ("postcopy-paused", "running")))
        tests.refuses("a guest that runs before the cut", shows.NoOccasion, lambda: shows.hang(shows.CASES["hang"], early))
    never.forwarder.was_cut.wait = lambda seconds: False
    tests.refuses("no package", shows.NoOccasion, lambda: shows.hang(shows.CASES["hang"], never))


def of_lost_writes(tests):
    """Pages that differ after pre-copy, and what shows nothing: a migration that failed, and a guest that wrote nothing."""
    case, page = shows.CASES["blocks"], shows.PAGE

    def run(there, status="completed", is_quiet=False):
        counts = iter(range(5, 100) if not is_quiet else [5] * 95)
        states = iter([("active", "running")] * 3 + [(status, "postmigrate")])

        def side(memory):
            return SimpleNamespace(set=lambda *names, **parameters: None, memory=lambda at, size: memory, stands=lambda: next(states), ram=lambda what: 2, send_byte=lambda: None,
                                   count=lambda: next(counts))
        return SimpleNamespace(source=side(bytes(shows.HOT * page)), target=side(there), start=lambda: None)

    with mock.patch.object(shows.time, "sleep", lambda seconds: None):
        found = [shows.lost_writes(case, run(there)) for there in (bytes(shows.HOT * page), bytes(page + 7) + b"x" + bytes((shows.HOT - 1) * page - 8))]
        tests.wants("what differs", found, [(False, "pre-copy completed, and 0 of the 64 pages that the guest writes to the end differ"),
                                            (True, "pre-copy completed, and 1 of the 64 pages that the guest writes to the end differ")])
        tests.refuses("a migration that failed", shows.NoOccasion, lambda: shows.lost_writes(case, run(b"", "failed")))
        tests.refuses("a guest that wrote nothing", shows.NoOccasion, lambda: shows.lost_writes(case, run(b"", is_quiet=True)))
    dead = plain.Ended(SimpleNamespace(name="source"), "aborted: it: Assertion `one' failed.")
    run_of_dead = SimpleNamespace(source=dead.side)
    with mock.patch.object(shows, "lost_writes", mock.Mock(side_effect=dead)):
        tests.wants("a source that aborts", shows.abort_in_precopy(case, run_of_dead), (True, "the source aborted: it: Assertion `one' failed."))
        run_of_dead.source = None
        tests.refuses("another that does", plain.Ended, lambda: shows.abort_in_precopy(case, run_of_dead))


def of_last_words(tests, room):
    """How a QEMU ended: the assertion that failed, its last line, or its status."""
    for status, said, wanted in ((-6, "a\nit: Assertion `x' failed.\nb\n", "aborted: it: Assertion `x' failed."), (1, "a\nload of migration failed\n", "exited: load of migration failed"),
                                 (-9, "", "was killed by signal 9: status -9, and it said nothing")):
        with open(f"{room}/errors", "w", encoding="utf-8") as out:
            out.write(said)
        tests.wants(f"how one with status {status} ended", machine.how_it_ended(status, f"{room}/errors"), wanted)


def shown(*words, **environment):
    return subprocess.run([sys.executable, "-B", f"{QEMU}/shows", *words], capture_output=True, text=True, env={**os.environ, **environment})


def of_words(tests, room):
    """The list has each case. Without a case, or with a QEMU that is not there or does not start, nothing is shown, and nothing is green."""
    done = shown("--list")
    tests.wants("the list", ([line.split()[0] for line in done.stdout.splitlines()], done.returncode), (list(shows.CASES), 0))
    tests.wants("each case has its versions and who has it", [name for name, case in shows.CASES.items() if not (case.versions and case.who in ("TCG", "all"))], [])
    done = shown()
    tests.wants("no case", (done.returncode, "a CASE is needed" in done.stderr), (2, True))
    tests.wants("a case that is none", shown("nothing").returncode, 2)
    done = shown("blocks", "--qemu", f"{room}/none")
    tests.wants("a QEMU that is not there", (done.returncode, done.stdout, done.stderr.startswith("shows: cannot tell: ")), (3, "", True))
    broken = program(f"{room}/broken", "case \"$*\" in *version*) echo 'QEMU emulator version 9.9.9' ;; *) echo 'no such machine' >&2; exit 1 ;; esac")
    done = shown("blocks", "--qemu", broken)
    tests.wants("one that does not start", (done.returncode, "cannot tell: target: it did not start: no such machine" in done.stderr), (3, True))


def of_the_status(tests, room):
    """Of several runs, one that shows the fault counts, and then one that cannot tell."""
    emulator = qemu_like(room, "11.1.3", [])
    for found, wanted in (((shows.NOT_SHOWN, shows.SHOWN, shows.CANNOT_TELL), 1), ((shows.NOT_SHOWN, shows.CANNOT_TELL), 3), ((shows.NOT_SHOWN, shows.NOT_SHOWN), 0)):
        words = ["shows", "hang", "--qemu", emulator, "--runs", str(len(found))]
        with contextlib.ExitStack() as patches, contextlib.redirect_stdout(io.StringIO()) as said:
            for patch in (mock.patch.object(sys, "argv", words), mock.patch.object(build, "require_tools", lambda: None),
                          mock.patch.object(shows, "try_once", mock.Mock(side_effect=[(one, "why") for one in found])), mock.patch.object(shows.folders, "end_in_order", lambda: None)):
                patches.enter_context(patch)
            tests.wants(f"the status of {found}", shows.main(), wanted)
        tests.wants("each is told", said.getvalue().splitlines()[1:-1], [f"{one}: why" for one in found])


def of_a_broken_recovery(tests, room):
    """A target that is to recover, and whose new connection ends at once: it ends, or it is paused as before."""
    path = f"{room}/again"
    for what, end, wanted in (("it ends", "it exited: it cannot peek", True), ("it is paused", "", False)):
        with socket.socket(socket.AF_UNIX) as listener, contextlib.ExitStack() as patches:
            listener.bind(path)
            listener.listen()
            source, target = Side("source", ("postcopy-active", "finish-migrate"), STILL), Side("target", ("postcopy-active", "running"), ("postcopy-paused", "running"))
            run = run_of(source, target)
            run.room.name, run.forwarder.cut = (lambda name: f"{room}/{name}"), lambda: None
            if end:
                target.dies = end
            patches.enter_context(mock.patch.object(shows.time, "sleep", lambda seconds: None))
            tests.wants(what, shows.broken_recovery(shows.CASES["broken-recovery"], run)[0], wanted)
            connection, _ = listener.accept()
            with connection:
                tests.wants("nothing came", (connection.recv(1), target.asked[:1]), (b"", ["migrate-recover"]))
        os.unlink(path)
    paused = run_of(Side("source", ("postcopy-active", "finish-migrate"), RUNS), Side("target", ("postcopy-active", "running")))
    paused.forwarder.cut = lambda: None
    with mock.patch.object(shows, "wait_until", lambda is_so, **how: is_so()):
        tests.refuses("a cut that does not pause both", shows.NoOccasion, lambda: shows.broken_recovery(shows.CASES["broken-recovery"], paused))


def of_pages(tests):
    """The pages name the cases, and each fault of QEMU that has a report has a case of its name."""
    pages = [f"{TOP}/docs/FOUND.md", *sorted(glob.glob(f"{TOP}/docs/reports/*.md"))]
    named = {page: set(re.findall(r"(?:`|qemu/|\()shows ([a-z][a-z-]+)", read(page))) for page in pages}
    tests.wants("what the pages name", sorted(set().union(*named.values()) - set(shows.CASES)), [])
    tests.wants("what the page of faults lacks", sorted(set(shows.CASES) - named[pages[0]]), [])
    tests.wants("each report shows its own case", [page for page in pages[1:] if os.path.basename(page)[:-3] not in named[page]], [])


def run(tests):
    for of_them in (of_the_forwarder, of_a_cut_after_bytes, of_a_cut_after_the_package, of_a_broken_recovery, of_last_words, of_words, of_the_status):
        with tempfile.TemporaryDirectory() as room:
            of_them(tests, room)
    of_pages(tests)
    of_ends_of_cuts(tests)
    of_loads(tests)
    of_lost_writes(tests)

"""How the recorder of CRIU tells a migration that hangs from one on a slow machine, and how it waits for programs."""
import os
import resource
import subprocess
import tempfile
import threading
import time

import lazy_migration
from criu_plans import plan_of
from lazy_migration import Migration, ended, signalled
from sides import PROCESS


class Side:
    """Processes of a side, by their numbers: states of threads, and ticks at each look, the last of them over and over."""

    def __init__(self, **processes):
        self.looks, self.states = 0, {int(name[1:]): value for name, value in processes.items()}

    def processes(self):
        self.looks += 1
        return {number: (states, ticks[min(self.looks, len(ticks)) - 1]) for number, (states, *ticks) in self.states.items()}


class Relay:
    def __init__(self, is_waiting=False, repeats=0):
        self.is_waiting, self.repeats = is_waiting, repeats

    def is_waited_for(self):
        return self.is_waiting


class Lazy:
    """lazy-pages, with its status."""

    def __init__(self, status=None):
        self.status = status

    def poll(self):
        return self.status


SOURCE = Side(p1=("S", 0), p1000=("t", 5), p1001=("S", 9))
SPINNING = {"p1": ("S", 0), "p2": ("R", *range(0, 1000, 5)), f"p{PROCESS}": ("SS", 7)}


def migration_in(room, target=None, relay=None):
    migration = Migration(plan_of("live"), room, lambda line: None)
    migration.log, migration.relay = f"{room}/log", relay or Relay()
    migration.sides = [SOURCE, Side(**(target or SPINNING))]
    with open(migration.log, "wb"):
        pass
    return migration


def of_rest(tests, room):
    def is_at_rest(**changes):
        return migration_in(room, **changes).is_at_rest()

    tests.wants("all wait, and lazy-pages has looked in vain", is_at_rest(), True)
    tests.wants("all wait, and lazy-pages too", is_at_rest(target={**SPINNING, "p2": ("S", 3)}), True)
    tests.wants("lazy-pages had no processor", is_at_rest(target={**SPINNING, "p2": ("R", *[1] * 150, 2)}), False)
    tests.wants("a thread of the process has none", is_at_rest(target={**SPINNING, f"p{PROCESS}": ("SR", 7)}), False)
    tests.wants("an answer is on its way", is_at_rest(relay=Relay(is_waiting=True)), False)
    migration = migration_in(room)
    migration.sides[0] = Side(p1000=("t", 5), p1001=("R", 9))
    tests.wants("the page server runs", migration.is_at_rest(), False)
    migration = migration_in(room)
    later = threading.Timer(0.2, lambda: os.truncate(migration.log, 10))
    later.start()
    tests.wants("something is told", migration.is_at_rest(), False)
    later.join()


def of_ends(tests, room):
    def has_become(lazy, **changes):
        return migration_in(room, **changes).has_become(lazy)

    tests.wants("it ended", has_become(Lazy(0)), 0)
    tests.wants("it failed", has_become(Lazy(1)), 1)
    tests.wants("it hangs", has_become(Lazy()), "hangs")
    tests.wants("it repeats itself", has_become(Lazy(), relay=Relay(repeats=50)), "asks for the same pages over and over")
    tests.wants("it is slow", has_become(Lazy(), relay=Relay(is_waiting=True, repeats=49)), "has not ended")
    running = {**SPINNING, f"p{PROCESS}": ("RS", 7)}
    for what, target, since, wanted in (("it does nothing more, and a thread of the process goes on", running, 60, "does nothing more"),
                                        ("it told something just before", running, 1, "has not ended"),
                                        ("it had no processor since", {**running, "p2": ("R", -100)}, 60, "has not ended")):
        migration = migration_in(room, target=target)
        migration.rest = time.monotonic() - since, -100
        tests.wants(what, migration.has_become(Lazy()), wanted)
    migration = migration_in(room)
    migration.rest = 0.0, 0
    with open(migration.log, "w", encoding="ascii") as log:
        log.write("p fault 5\n")
    migration.told = lambda: 0
    migration.wait_for_accesses(1, 0.1)
    tests.wants("what lazy-pages tells ends its rest", migration.rest, None)


def of_waiting(tests, room):
    migration = migration_in(room, relay=Relay(is_waiting=True))

    def tell(text, after=0.0):
        time.sleep(after)
        with open(migration.log, "a", encoding="ascii") as log:
            log.write(text)

    tell("g 0 r 0 0 0\n" * 5)
    for count, seconds, is_enough in ((3, 10, True), (4, 0.5, False)):
        teller = threading.Thread(target=lambda: [tell("p fault 5\ng 0 m 1\n", 0.05) for _ in range(3)])
        teller.start()
        tests.wants(f"{count} accesses that are told from now on, of 3", migration.wait_for_accesses(count, seconds), is_enough)
        teller.join()
    tests.wants("not so many", migration.wait_for_accesses(1, 0.1), False)
    tests.wants("it is over", migration.wait_for_accesses(float("inf"), 10, lambda: True), False)
    before, lazy_migration.QUIET = lazy_migration.QUIET, 0.1
    try:
        began = time.monotonic()
        tests.wants("it hangs", migration_in(room).wait_for_accesses(1, 60), False)
        tests.wants("that is seen at once", time.monotonic() - began < 30, True)
    finally:
        lazy_migration.QUIET = before


def of_programs(tests):
    for what, words, seconds, wanted in (("one that is ready", "printf '\\0'; sleep 10", 10, True), ("one that ends", "true", 10, False),
                                         ("one that says something else", "printf x; sleep 10", 10, False), ("one that is slow", "sleep 10", 0.1, False)):
        ready, written = os.pipe()
        with subprocess.Popen(["sh", "-c", words], stdout=written) as program:
            os.close(written)
            tests.wants(what, signalled(ready, program, seconds), wanted)
            os.close(ready)
            program.kill()
    with subprocess.Popen(["sleep", "10"]) as program:
        tests.wants("a program that does not end", ended(program, 0.1), "hangs")
        program.kill()
    with subprocess.Popen(["sh", "-c", "exit 3"]) as program:
        tests.wants("a program that ends", ended(program, 10), 3)


def of_the_end(tests, room):
    """The recorder ends the log, unless it is not whole by then or has no more room: that is told."""
    limits = resource.getrlimit(resource.RLIMIT_FSIZE)
    for held, most, wanted in ((b"", 1 << 20, (b"end 0\n", [])), (b"g 0 m 7\n", 1 << 20, (b"g 0 m 7\nend 8\n", [])),
                               (b"g 0 m 7\ng", 1 << 20, (b"g 0 m 7\ng", ["log: its last line is not whole"])),
                               (b"g 0 m 7\n", 8, (b"g 0 m 7\n", ["log: File too large"])),
                               (None, 1 << 20, (None, ["log: No such file or directory"]))):
        migration = migration_in(room)
        migration.sides, migration.relay = [], None
        migration.lock_gate = lambda seconds: True
        write(migration.log, held)
        resource.setrlimit(resource.RLIMIT_FSIZE, (most, limits[1]))
        try:
            migration.stop()
        finally:
            resource.setrlimit(resource.RLIMIT_FSIZE, limits)
        tests.wants(f"the end of a log of {held} with room for {most} bytes", (held_by(migration.log), migration.outcome.remarks), wanted)


def write(path, data):
    """Puts a file there, or none."""
    os.unlink(path)
    if data is not None:
        with open(path, "wb") as out:
            out.write(data)


def held_by(path):
    if not os.path.exists(path):
        return None
    with open(path, "rb") as file:
        return file.read()


def run(tests):
    with tempfile.TemporaryDirectory() as room:
        of_rest(tests, room)
        of_ends(tests, room)
        of_waiting(tests, room)
        of_the_end(tests, room)
    of_programs(tests)

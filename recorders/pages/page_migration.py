"""One migration on this machine, recorded by page contents: of the test guest, of Debian's Linux, or of a guest that is started by any words."""
import fcntl
import os
import shlex
import shutil
import threading
import time
from dataclasses import dataclass

import build
import debian
import faults
import folders
import page_tls
from dialect import PC_RAM
from kinds import Plan
from linux_run import BOOTED, PANIC, WORDS
from machine import memory
from page_source import STOPPED, Lost, Monitor, Observer, words_of_qmp
from page_target import BLOCKS, new_key, prepare
from plain import Forwarder, Running, wait_until, words_of_test_guest
from relay import CutPlan, Relay, Window

PAGE = 4096
SECONDS = 300  # for each part
SECONDS_FOR_LAST = 20  # once nothing moves: a target that lacks pages may wait for ever
BYTES_OF_ACCESS = 20  # that the test guest tells, and more
ENDED = ("completed", "failed", "cancelled", "ended", "hangs")
FAULTS = [kind for kind in faults.KINDS if kind != "early"]  # which is of another recorder's library
PAUSED = "postcopy-paused"
LONGEST_DOWNTIME = 10000  # milliseconds, for a pre-copy that is to come to its end
SIDES = ("target", "source")


@dataclass
class Settings(Plan):
    """A plan, with what this recorder has besides. Of the plan it takes the guest, its memory, the rates, the fault and the cuts."""
    ram: int = 64
    pages: int = 1024  # in which the test guest is busy
    bandwidth: int = 2 << 20
    seconds: float = 1.0  # before the migration
    is_linux: bool = False
    has_balloon: bool = False  # Linux reports free pages, and gives a quarter of its memory back in pre-copy
    booted: str = ""  # a file from which Linux goes on once it has booted there. The first of its migrations makes it
    is_tracking: bool = False
    tls: str = ""  # one of page_tls.KINDS, or nothing
    is_bare: bool = False  # neither observer is there, and nothing is recorded
    command: tuple = ()  # the words that start the QEMU of another guest


class Migration:
    is_asked = False  # whether the emulator was asked already if it can
    is_booting = False  # a guest that is kept in a file

    def __init__(self, settings, folder, emulator, say):
        self.settings, self.folder, self.emulator, self.say = settings, folder, emulator, say
        self.room, self.machines, self.relay, self.recovered = None, {}, None, 0

    def run(self):
        """Makes the migration. Returns what the QEMUs say of it. Raises Missing, or Lost if the source was not recorded."""
        if os.path.lexists(self.folder):
            raise build.Missing(f"{self.folder} is there: name a new folder")
        build.require_tools()
        if not (self.settings.command or self.is_asked):
            self.emulator.require(self.settings, build.build()[1])
        os.makedirs(self.folder)
        self.make_guest()
        self.room = folders.Room()
        try:
            return self.migrate(new_key())
        finally:
            for machine in self.machines.values():
                machine.end()
            if self.relay:
                self.relay.end()
            for side in SIDES:
                if os.path.exists(self.room.name(f"{side}.errors")):
                    shutil.copy(self.room.name(f"{side}.errors"), f"{self.folder}/{side}.errors")
            self.room.end()

    def make_guest(self):
        if self.settings.is_linux:
            self.guest = debian.get(self.say)
            debian.build_initramfs(f"{self.guest}/busybox", f"{self.folder}/initrd", debian.BALLOON if self.settings.has_balloon else ())
        elif not self.settings.command:
            self.guest = f"{self.folder}/guest.bin"
            build.rom_for(self.settings, build.build()[0], self.guest)

    def words(self, side):
        """Returns the words that start the QEMU of a side."""
        settings, told = self.settings, f"{self.folder}/{side}.console"
        accelerator = "kvm" if settings.kvm else "tcg"
        if settings.is_linux:
            return [self.emulator.path, "-machine", f"pc,accel={accelerator}", *memory(settings), "-smp", "2", "-nodefaults",
                    "-no-user-config", "-display", "none", "-device", "VGA", "-device", f"virtio-balloon-pci,free-page-reporting={'on' if settings.has_balloon else 'off'}", "-device", "virtio-rng-pci",
                    "-serial", f"file:{told}", "-kernel", f"{self.guest}/vmlinuz", "-initrd", f"{self.folder}/initrd", "-append", f"{WORDS} {settings.workload}"]
        return settings.command or [*words_of_test_guest(self.emulator, self.guest, accelerator, told), *memory(settings)]

    def boot(self):
        """Has the guest go on from a file, and makes that by pre-copy if it is missing. Returns the words for the source."""
        path = self.settings.booted
        with open(f"{path}.lock", "w", encoding="ascii") as lock:
            fcntl.flock(lock, fcntl.LOCK_EX)
            if not os.path.exists(path):
                booting, self.is_booting = self.start("source"), True
                self.warm_up()
                booting("migrate-set-parameters", **{"max-bandwidth": 0, "downtime-limit": LONGEST_DOWNTIME})
                booting("migrate", uri=f"exec:cat > {shlex.quote(path)}.new")
                has_ended = wait_until(lambda: self.stands("source") in ENDED, seconds=SECONDS) and self.stands("source") == "completed"
                self.machines.pop("source").end()
                if not has_ended:
                    raise build.Missing(f"the guest cannot be kept in {path}")
                os.rename(f"{path}.new", path)
                self.is_booting = False
        return "-incoming", f"exec:cat {shlex.quote(path)}"

    def start(self, side, *extra, **environment):
        self.machines[side] = Running(side, self.room, [*self.words(side), *extra], **environment)
        return self.machines[side].qmp

    def migrate(self, key):
        settings = self.settings
        if settings.tls:
            page_tls.make(settings.tls, self.room.path)
        going_on = self.boot() if settings.booted else ()
        self.start("target", "-incoming", "defer", *["-S"] * settings.is_precopy, *page_tls.words(settings.tls, self.room.path, "server"),
                   **({} if settings.is_bare or settings.is_precopy else prepare(f"{self.folder}/target", key, settings.is_tracking)))
        self.start("source", "-qmp", f"unix:{self.room.name('watch')},server=on,wait=off", *going_on, *page_tls.words(settings.tls, self.room.path, "client"))
        if settings.is_bare:
            return self.move()
        faults = []
        watching = self.begin_to_watch(key, faults)
        try:
            outcome = self.move()
        finally:
            if not self.is_over() or self.machines["source"].hangs:
                self.machines["source"].process.kill()  # nobody waits for a migration that came to no end
            watching.join()
        if faults:
            raise faults[0]
        if settings.is_precopy and self.stands("target") == "completed":
            Observer(f"{self.folder}/target", key, self.machines["target"].process.pid, STOPPED).watch((), self.say)
            self.machines["target"]("cont")
        if not os.path.exists(f"{self.folder}/target/{BLOCKS}"):
            raise build.Missing(f"{outcome}: " + ("nothing was recorded" if settings.is_precopy else "pre-copy came to its end before the switch, and there was no post-copy"))
        return outcome

    def begin_to_watch(self, key, faults):
        observer = Observer(f"{self.folder}/source", key, self.machines["source"].process.pid)
        monitor = Monitor(self.room.name("watch"))
        observer.name_blocks(monitor.names())
        self.say(f"the source has {observer.pages} pages of {observer.blocks} blocks")
        watching = threading.Thread(target=watch, args=(observer, words_of_qmp(monitor), self.say, faults))
        watching.start()
        return watching

    def move(self):
        settings, (source, target) = self.settings, (self.machines[side].qmp for side in ("source", "target"))
        for qmp, end in ((target, "server"), (source, "client")):
            qmp("migrate-set-capabilities", capabilities=[{"capability": name, "state": True} for name in (*["postcopy-ram"] * (not settings.is_precopy), *settings.further)])
            if settings.tls:
                qmp("migrate-set-parameters", **page_tls.parameters(settings.tls, end))
        source("migrate-set-parameters", **{"max-bandwidth": settings.bandwidth, "downtime-limit": 1})
        target("migrate-incoming", uri=f"unix:{self.room.name('migration')}")
        self.warm_up()
        source("migrate", uri=f"unix:{self.way()}")
        wait_until(lambda: self.stands("source") not in ("none", "setup"))
        if settings.has_balloon:
            self.blow_up()
        time.sleep(settings.pre)
        if settings.is_precopy:
            source("migrate-set-parameters", **{"max-bandwidth": 0, "downtime-limit": LONGEST_DOWNTIME})
            return self.follow()
        source("migrate-start-postcopy")
        if settings.tls and self.relay:
            wait_until(lambda: self.stands("source") != "active", pause=0.001)  # a page of 2 MiB may be on its way
            self.relay.cut_after(settings.cuts[0] * PAGE)
        return self.follow()

    def blow_up(self):
        """Asks the guest for a quarter of its memory, but for a DIMM's, which it may not use; and waits until it gives some."""
        def left():
            return source("query-balloon")["actual"]

        source, before = self.machines["source"].qmp, self.machines["source"]("query-balloon")["actual"]
        source("balloon", value=before - (self.settings.ram << 20) // 4)
        if not wait_until(lambda: left() < before, seconds=SECONDS_FOR_LAST):
            raise build.Missing("the guest's balloon does not move")
        self.say(f"the guest has given {before - left() >> 10} KiB of its memory back")

    def warm_up(self):
        """Lets the guest run: the test guest until it has filled its pages, and Linux until it has booted."""
        time.sleep(self.settings.seconds)
        if not self.settings.command and not wait_until(self.is_warm, pause=0.2, seconds=SECONDS):
            raise build.Missing("the guest does not come to its work")

    def is_warm(self):
        path = f"{self.folder}/source.console"
        if self.machines["source"].stands()[1] == "internal-error":
            raise build.Missing("the guest has stopped by itself: this machine's KVM cannot run it")
        if self.settings.booted and not self.is_booting:
            return self.machines["source"].stands()[1] == "running"
        if not self.settings.is_linux:
            return os.path.getsize(path) > self.settings.pages * BYTES_OF_ACCESS
        with open(path, encoding="utf-8", errors="replace") as console:
            told = console.read()
        if PANIC in told:
            raise build.Missing(f"the guest has ended in a panic, as {path} tells")
        return BOOTED in told

    def way(self):
        """Returns the socket to which the source connects: the target's, or a relay's that puts a fault in, or cuts."""
        settings = self.settings
        if not settings.fault and not settings.cuts:
            return self.room.name("migration")
        if settings.tls:
            return self.unread("migration")
        self.relay = Relay(self.folder, self.room, Window(0, settings.ram << 20 >> 12), self.room.name("migration"), settings.fault, 3,
                           [CutPlan(pages) for pages in settings.cuts])
        return self.relay.path

    def unread(self, name):
        """Returns the socket of a way to the target that nobody reads, as nobody can read TLS. It can be cut."""
        path = self.room.name(f"{name}-way")
        self.relay = Forwarder(path, self.room.name(name))
        return path

    def are_paused(self):
        return all(self.stands(side) == PAUSED for side in SIDES)

    def recover(self):
        """Has the migration go on over another way if both sides are paused, each of itself or because it is told."""
        for side in SIDES:
            if not wait_until(lambda side=side: self.stands(side) not in ("active", "postcopy-active"), seconds=2):
                self.machines[side]("migrate-pause")
        self.relay.was_cut.clear()
        if not wait_until(self.are_paused, seconds=SECONDS_FOR_LAST):
            return
        self.recovered += 1
        name = f"target-{self.recovered}"
        self.machines["target"]("migrate-recover", uri=f"unix:{self.room.name(name)}")
        self.machines["source"]("migrate", uri=f"unix:{self.way_again(name)}", resume=True)
        self.say("the way was cut, and the migration goes on over another")

    def way_again(self, name):
        """Returns the socket to which the source connects after a cut."""
        if not self.settings.tls:
            self.relay.recover(self.room.name(name))
            return self.relay.path
        path = self.unread(name)
        if self.recovered < len(self.settings.cuts):
            self.relay.cut_after(self.settings.cuts[self.recovered] * PAGE)
        return path

    def put_in(self):
        """Returns the pages of the fault that the relay has put in and that are wrong since: it has not handed them on again, and the contents that
        were lost are not those that were kept."""
        found, given = {}, {}  # how often each was handed on since; and by page, where its contents are that were handed on last
        with open(f"{self.folder}/relay.log", encoding="ascii") as log, open(f"{self.folder}/relay.pages", "rb") as contents:
            for line in map(str.split, log):
                if line[0] == "fault":
                    found.update(dict.fromkeys(map(int, line[2:]), 0))
                elif line[2:3] == ["page"] and line[4] == PC_RAM:
                    page = int(line[5]) // PAGE
                    if line[0] == "down":
                        given[page] = line[7]
                        found.update({page: found[page] + 1} if page in found else {})
                    elif line[0] == "lost" and self.settings.fault == "keep-drop" and contents_at(contents, line[6]) == contents_at(contents, given.get(page)):
                        found.pop(page, None)
        return [page for page, count in found.items() if count < 2]

    def stands(self, side):
        return self.machines[side].stands()[0]

    def is_over(self):
        return self.stands("source") in ENDED

    def follow(self):
        """Waits until the migration is at its end, and says how far it is. Returns what the QEMUs say."""
        until, said, still = time.monotonic() + SECONDS, 0.0, None  # `still`: since when one side waits for nobody
        while not all(self.stands(side) in ENDED for side in SIDES) and time.monotonic() < until:
            if self.relay and self.relay.was_cut.is_set():
                self.recover()
                still = None
            if time.monotonic() > said + 1:
                said = time.monotonic()
                self.say(f"source {self.stands('source')}, target {self.stands('target')}{self.left()}")
            still = (still or time.monotonic()) if any(self.stands(side) in (*ENDED, PAUSED) for side in SIDES) else None
            if still and time.monotonic() > still + SECONDS_FOR_LAST:
                break
            time.sleep(0.02)
        return ", ".join(f"{side} {self.stands(side)}" for side in ("source", "target"))

    def left(self):
        ram = {} if self.is_over() else self.machines["source"].qmp("query-migrate").get("ram", {})
        return f", {ram['remaining'] >> 20} of {ram['total'] >> 20} MiB are left" if ram else ""


def contents_at(file, place):
    """Returns the contents of a page that the relay has kept at a place of its file, or the place if that is none."""
    if not place or not place.isdigit():
        return place
    file.seek(int(place) * PAGE)
    return file.read(PAGE)


def watch(observer, words, say, faults):
    try:
        observer.watch(words, say)
    except Lost as fault:
        faults.append(fault)

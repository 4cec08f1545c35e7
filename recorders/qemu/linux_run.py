"""Records one migration of a Linux guest. It boots in one QEMU, and from then on every access is recorded."""
import os
import re
import time

import build
import debian
import folders
from dialect import interface_of
from machine import Machine
from qmp import Gone
from roots import Missing
from run import Migration

BOOTED = "guest: booted"
RECORD_BYTES = 16
FILES = (*folders.FILES, "vmlinuz", "initrd", "start", "gates", "idt", "init.mem", "end.mem", "placements", "guest.lines", "self-test", "lines", "page", "result.json",
         *(f"{side}.{what}" for side in ("source", "target") for what in ("accesses", "counts", "console")))
WITH_ERROR_CODE = {8, 10, 11, 12, 13, 14, 17, 21, 29, 30}  # the interrupts for which a processor pushes 6 cells, not 5
WORDS = "console=ttyS0 quiet no_timer_check"  # on a busy machine the timer is late, and the kernel's check of it ends in a panic
PANIC = "Kernel panic"


class LinuxMachine(Machine):
    def environment(self, plan):
        at_source = {"RECORD_START": "start", "RECORD_INIT": "init.mem"} if self.name == "source" else {}
        return {**super().environment(plan), "RECORD_ACCESSES": f"{self.name}.accesses", "RECORD_GATES": "gates",
                "RECORD_COUNTS": f"{self.name}.counts", **at_source}

    def hardware(self, machine, plan):
        return ["-machine", machine, "-accel", "tcg,thread=single", *(["-plugin", self.library] if self.library else [])]

    def guest(self, plan):
        return ["-kernel", "./vmlinuz", "-initrd", "./initrd", "-append", f"{WORDS} {plan.workload}".strip(),
                "-serial", f"file:./{self.name}.console", "-action", "reboot=shutdown,shutdown=pause"]

    def said(self):
        """Returns what the guest has written to its console on this side."""
        try:
            with open(f"{self.folder}/{self.name}.console", encoding="utf-8", errors="replace") as file:
                return file.read()
        except FileNotFoundError:
            return ""

    def recorded(self):
        """Returns how many accesses are in its file."""
        try:
            return os.path.getsize(f"{self.folder}/{self.name}.accesses") // RECORD_BYTES
        except FileNotFoundError:
            return 0


def gates_of(table):
    """Returns the lines of the file of gates, from the 256 entries of the guest's interrupt table: the target of each, and how many
    cells are pushed there."""
    lines = []
    for number in range(256):
        entry = table[16 * number:16 * number + 16]
        parts = (entry[0:2], entry[6:8], entry[8:12])
        address = int.from_bytes(b"".join(parts), "little")
        lines.append(f"{address:x} {6 if number in WITH_ERROR_CODE else 5}\n")
    return "".join(lines)


class LinuxMigration(Migration):
    """`guest` says where the kernel and the initramfs are. A bare migration has no plugin and no library, so only what the relay hands over
    is recorded. `ready` is what the guest writes to its console when recording can start; without it, recording starts after `boot`
    seconds."""

    files, machine_class, seconds_between_lines = FILES, LinuxMachine, 5

    def __init__(self, plan, folder, say, emulator, guest, is_bare=False, ready=BOOTED, boot=None):
        super().__init__(plan, folder, say, [emulator, emulator])
        self.kernel, self.initrd = guest
        self.is_bare, self.ready, self.boot = is_bare, ready, boot
        self.told_at, self.told_records = 0.0, 0

    def build(self):
        if self.is_bare:
            return None
        interface = interface_of(self.source_emulator.version)
        if not interface:
            raise Missing(f"{self.source_emulator} has no interface for plugins that is known here: 7.2 has, and later ones")
        return build.build_recorder(interface)

    def prepare(self, library):
        return super().prepare(library) if library else ("pc", {"source": (), "target": ()})

    def put_guest(self):
        os.symlink(os.path.abspath(self.kernel), f"{self.folder}/vmlinuz")
        if self.initrd:
            os.symlink(os.path.abspath(self.initrd), f"{self.folder}/initrd")
        else:
            debian.build_initramfs(f"{os.path.dirname(self.kernel)}/busybox", f"{self.folder}/initrd")

    def guest_line(self):
        return f"guest: Linux, {self.plan.ram} MiB, {self.plan.cpus} processor{'s' if self.plan.cpus > 1 else ''}"

    def warm_up(self):
        self.boot_up()
        if self.is_bare:
            time.sleep(self.plan.recorded)
            return
        self.read_gates()
        with open(f"{self.folder}/start", "w", encoding="ascii"):
            pass
        self.wait_with_words(self.plan.recorded, lambda: f"recorded: {self.rate(self.source)}")

    def boot_up(self):
        began, told = time.monotonic(), time.monotonic()
        while not (time.monotonic() > began + self.boot if self.boot else self.ready in self.source.said()):
            if not self.source.is_running():
                raise Gone(f"the guest did not boot: {self.source.last_error()}")
            if PANIC in self.source.said() or time.monotonic() > began + self.plan.limit:
                raise Gone(f"the guest did not boot within {time.monotonic() - began:.0f} s; it said: {self.last_words()}")
            if time.monotonic() > told + self.seconds_between_lines:
                told = time.monotonic()
                self.say("boots")
            time.sleep(0.05)
        self.say(f"booted in {time.monotonic() - began:.0f} s")

    def last_words(self):
        lines = self.source.said().strip().splitlines() or ["nothing"]
        return next((line for line in lines if PANIC in line), lines[-1])

    def read_gates(self):
        """Writes the targets of the guest's interrupts, for both libraries."""
        told = self.source("human-monitor-command", **{"command-line": "info registers"})
        match = re.search(r"^IDT= *([0-9a-f]+) ([0-9a-f]+)", told, re.MULTILINE)
        if not match:
            raise Gone("QEMU does not say where the guest's interrupt table is")
        base = int(match[1], 16)
        self.source("memsave", val=base - (1 << 64 if base >> 63 else 0), size=4096, filename="idt")
        with open(f"{self.folder}/idt", "rb") as table, open(f"{self.folder}/gates.new", "w", encoding="ascii") as out:
            out.write(gates_of(table.read()))
        os.rename(f"{self.folder}/gates.new", f"{self.folder}/gates")

    def wait_with_words(self, seconds, words):
        until, told = time.monotonic() + seconds, time.monotonic()
        while time.monotonic() < until:
            if time.monotonic() > told + self.seconds_between_lines:
                told = time.monotonic()
                self.say(words())
            time.sleep(0.02)

    def rate(self, machine):
        """Returns how many accesses were recorded, and how many per second since the last call."""
        now, records = time.monotonic(), machine.recorded()
        since, more = now - self.told_at, records - self.told_records
        is_new = more < 0 or since > 60
        self.told_at, self.told_records = now, records
        return f"{records / 1e6:.1f} million accesses" + ("" if is_new else f", {more / since / 1e6:.1f} million a second")

    def stands(self):
        return f"{super().stands()}" + ("" if self.is_bare else f"; {self.rate(self.target)}")

    def run_on(self):
        """Waits, and looks whether the guest still runs then: QEMU stops one that resets itself."""
        self.wait_with_words(self.plan.run_on, lambda: "runs on at the target" + ("" if self.is_bare else f": {self.rate(self.target)}"))
        status = self.target("query-status")["status"]
        if status != "running":
            self.outcome.stands_still = True
            self.remark(f"the guest stands still at the target: {status}")

    def at_end(self):
        super().at_end()
        if not self.is_bare:
            self.target("pmemsave", val=self.plan.base, size=self.plan.pages * 4096, filename="end.mem")

"""One of the two QEMUs, with a pipe for everything that it records."""
import os
import select
import signal
import subprocess
import threading
import time

from dialect import FRONT, PC_RAM
from files import write
from qmp import Gone, Hangs, Qmp, Refused
from roots import die_with_parent
from waits import longest, waits_of

DEAD = ("ended", "hangs")  # what `migration` returns if QEMU cannot say it itself
EVENT_BYTES = 27  # of an access


def last_words(status, errors):
    """Returns the assertion that failed, or the last line of what a QEMU said, by the file of its errors; or its status."""
    with open(errors, encoding="utf-8", errors="replace") as file:
        lines = file.read().splitlines()
    return ([line for line in lines if "Assertion" in line] or lines or [f"status {status}, and it said nothing"])[-1]


def how_it_ended(status, errors):
    """Returns how the process of a QEMU ended, and its last words."""
    how = "aborted" if status == -signal.SIGABRT else f"was killed by signal {-status}" if status < 0 else "exited"
    return f"{how}: {last_words(status, errors)}"


class PipeReader:
    """Reads a pipe into a file, until QEMU has ended and everything is read. If the file cannot be written, `fault` says why, and the rest of
    the pipe is read all the same, because QEMU would wait."""

    def __init__(self, pipe, path):
        self.descriptor = os.open(pipe, os.O_RDONLY | os.O_NONBLOCK)
        self.file, self.length, self.is_ending, self.fault = open(path, "wb", buffering=0), 0, False, None
        self.thread = threading.Thread(target=self.read, daemon=True)
        self.thread.start()

    def read(self):
        while True:
            is_last = self.is_ending
            if select.select([self.descriptor], [], [], 0 if is_last else 0.05)[0]:
                data = os.read(self.descriptor, 1 << 20)
                self.keep(data)
                self.length += len(data)
                if data:
                    continue
                time.sleep(0.01)  # nobody writes yet, or any more
            if is_last:
                break
        self.file.close()
        os.close(self.descriptor)

    def keep(self, data):
        try:
            while data and not self.fault:
                data = data[self.file.write(data):]
        except OSError as fault:
            self.fault = fault

    def end(self):
        self.is_ending = True
        self.thread.join()


def memory(plan):
    """Returns QEMU's options for the guest's memory. The block that has the window is PC_RAM; QEMU makes the blocks in the order of the options."""
    kind = "memory-backend-memfd,hugetlb=on,hugetlbsize=2M" if plan.huge else "memory-backend-ram"
    block = ["-object", f"{kind},id={PC_RAM},size={plan.ram}M"]
    length = plan.ram // 2 if plan.memory == "uneven" else plan.ram + plan.ram // 2
    front = ["-object", f"memory-backend-ram,id={FRONT},size={length}M"]
    device = {"dimm": "pc-dimm", "virtio-mem": "virtio-mem-pci"}.get(plan.memory)
    if device:
        return ["-m", f"{plan.ram}M,slots=1,maxmem={plan.ram + 2 * length}M", *front, *block, "-machine", f"memory-backend={PC_RAM}",
                "-device", f"{device},memdev={FRONT}"]
    if plan.memory != "one":
        return ["-m", f"{plan.ram + length}M", *front, *block, "-numa", f"node,nodeid=0,memdev={PC_RAM}", "-numa", f"node,nodeid=1,memdev={FRONT}"]
    is_named_here = plan.huge or plan.machine != "pc"  # (another machine has another name for its block)
    return ["-m", f"{plan.ram}M", *([*block, "-machine", f"memory-backend={PC_RAM}"] if is_named_here else [])]


class Machine:
    """QEMU runs in `folder`, which has the files that it reads and writes. Its sockets, its pipe and a link to the preloaded library are in
    `room`, so the name of the folder is in no option of QEMU. `machine` is the type of the machine, and `trace` has the events that it
    traces. Without a library it is bare: nothing is preloaded."""

    def __init__(self, name, folder, room, plan, library, path, machine="pc", trace=(), extra=()):
        self.name, self.folder = name, folder
        self.pipe, self.socket, self.library = room.name(f"{name}.pipe"), room.name(f"{name}.qmp"), library and room.name(f"{name}.so")
        os.mkfifo(self.pipe, 0o600)
        if library:
            os.symlink(os.path.abspath(library), self.library)
        self.reader = PipeReader(self.pipe, f"{folder}/{name}.raw")
        self.errors = f"{folder}/{name}.errors"
        command = [
            path, "-name", name, *self.hardware(machine, plan), *memory(plan), "-smp", str(plan.cpus),
            "-nodefaults", "-no-user-config", "-display", "none", *self.guest(plan),
            "-qmp", f"unix:{self.socket},server=on,wait=off", "-D", self.pipe,
            *(word for event in trace for word in ("-trace", event)), *extra]
        write(f"{folder}/{name}.command", " ".join(command) + "\n")
        environment = {**os.environ, **self.environment(plan)} if library else None
        with open(self.errors, "w") as errors:
            self.process = subprocess.Popen(command, cwd=folder, env=environment, stderr=errors, stdin=subprocess.DEVNULL, preexec_fn=die_with_parent)
        self.qmp, self.lock, self.hangs = None, threading.Lock(), False

    def environment(self, plan):
        """Returns the environment for the preloaded library."""
        return dict(
            LD_PRELOAD=self.library, RECORD_PIPE=self.pipe, RECORD_CONTENTS=f"{self.name}.pages",
            RECORD_RAM=str(plan.ram << 20), RECORD_BASE=str(plan.base), RECORD_PAGES=str(plan.pages),
            RECORD_LINGER=str(plan.linger),
            RECORD_EARLY=str(plan.skip + 1 if plan.fault == "early" and self.name == "target" else 0))

    def hardware(self, machine, plan):
        """Returns QEMU's options for the machine, its processors and its memory."""
        return ["-machine", machine, "-accel", plan.accelerator]

    def guest(self, plan):
        """Returns QEMU's options for the guest and its record of what it does."""
        return ["-bios", "./guest.bin", "-chardev", f"file,id=told,path={self.pipe}", "-device", "isa-debugcon,iobase=0xe9,chardev=told"]

    def is_running(self):
        return self.process.poll() is None

    def __call__(self, command, **arguments):
        with self.lock:  # the relay asks, too
            if self.hangs:
                raise Hangs("it does not answer")
            if not self.qmp:
                self.qmp = Qmp(self.socket, self.is_running, waits=lambda: waits_of(self.process.pid))
            try:
                return self.qmp(command, **arguments)
            except Hangs:
                self.hangs = True
                raise

    def waited(self):
        """Returns how many seconds its threads have waited for a processor: the longest of them."""
        return longest(waits_of(self.process.pid))

    def wait_for_accesses(self, count, seconds):
        """Waits until the guest has recorded this many more accesses. Returns whether it did."""
        wanted, until = self.reader.length + count * EVENT_BYTES, time.monotonic() + seconds
        while self.reader.length < wanted and time.monotonic() < until and self.is_running():
            time.sleep(0.01)
        return self.reader.length >= wanted

    def migration(self):
        """Returns the state of the migration, or one of DEAD."""
        try:
            return self("query-migrate").get("status", "none")
        except Hangs:
            return "hangs"
        except Gone:
            return "ended"

    def wait_for(self, wanted, seconds):
        until = time.monotonic() + seconds
        while True:
            status = self.migration()
            if status in wanted or status in DEAD or time.monotonic() > until:
                return status
            time.sleep(0.02)

    def wait_for_end(self, seconds):
        """Waits for the process to end."""
        try:
            self.process.wait(seconds)
        except subprocess.TimeoutExpired:
            pass

    def last_error(self):
        return last_words(self.process.poll(), self.errors)

    def how_it_ended(self):
        """Returns how its process ended, and its last words."""
        return how_it_ended(self.process.poll(), self.errors)

    def end(self, is_well):
        """Ends QEMU, and reads everything that it recorded. Returns why something of this is lost, or nothing. (A QEMU that is not well would
        not answer a command.)"""
        try:
            if is_well and self.is_running():
                self("quit")
                self.process.wait(10)
        except (Gone, Refused, subprocess.TimeoutExpired):
            pass
        if self.is_running():
            self.process.kill()
        self.process.wait()
        if self.qmp:
            self.qmp.close()
        self.reader.end()
        return f"{self.name}.raw: {self.reader.fault.strerror}" if self.reader.fault else ""

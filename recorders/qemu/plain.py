"""QEMUs with only a small guest, and a forwarder between them: no preloaded library, no trace, no relay. All questions are in QMP."""
import os
import socket
import subprocess
import threading
import time

from build import Missing
from machine import how_it_ended, last_words
from qmp import Gone, Hangs, Qmp
from roots import die_with_parent
from waits import waits_of

SECONDS = 10  # for each wait, and each answer
PACKAGED = b"\x08\x00\x07\x00\x04"  # a command, of the kind package, with 4 bytes: the length of what follows


class Ended(Exception):
    """A QEMU has ended by itself, or does not answer. The message says which, and how."""

    def __init__(self, side, how):
        super().__init__(f"the {side.name} {how}")
        self.side, self.how = side, how


class Running:
    """A QEMU that was started by these words, with a monitor."""

    def __init__(self, name, room, words, **environment):
        self.name, self.room, self.hangs, self.events, self.times = name, room, False, [], {}
        self.errors = room.name(f"{name}.errors")
        monitor = room.name(f"{name}.qmp")
        with open(self.errors, "w", encoding="utf-8") as errors:
            self.process = subprocess.Popen([*words, "-qmp", f"unix:{monitor},server=on,wait=off"], stderr=errors, stdin=subprocess.DEVNULL,
                                            preexec_fn=die_with_parent, env={**os.environ, **environment})
        try:
            self.qmp = Qmp(monitor, lambda: self.process.poll() is None, SECONDS, lambda: waits_of(self.process.pid), self.hear)
        except Gone as fault:
            self.process.kill()
            self.process.wait()
            raise Missing(f"{name}: {fault}: {last_words(self.process.returncode, self.errors)}") from None

    def hear(self, event):
        """Takes an event: the state of the migration if it has one, or its name; and the time of the last one of each name."""
        self.times[event["event"]] = event["timestamp"]["seconds"] + event["timestamp"]["microseconds"] / 1e6
        self.events.append(event.get("data", {}).get("status", event["event"]))

    def __call__(self, command, **arguments):
        if self.hangs:
            raise Ended(self, "hangs")
        try:
            return self.qmp(command, **arguments)
        except Hangs:
            self.hangs = True
            raise Ended(self, "hangs") from None
        except Gone:
            self.process.wait()
            raise Ended(self, how_it_ended(self.process.returncode, self.errors)) from None

    def stands(self):
        """Returns the states of the migration and of the guest, in QEMU's words."""
        try:
            return self("query-migrate").get("status", "none"), self("query-status")["status"]
        except Ended:
            return ("hangs", "hangs") if self.hangs else ("ended", "ended")

    def ram(self, what):
        """Returns a number of the migration's memory, such as `remaining`."""
        return self("query-migrate").get("ram", {}).get(what, 0)

    def set(self, *names, **parameters):
        """Sets capabilities and parameters of the migration."""
        if names:
            self("migrate-set-capabilities", capabilities=[{"capability": name, "state": True} for name in names])
        if parameters:
            self("migrate-set-parameters", **{name.replace("_", "-"): value for name, value in parameters.items()})

    def end(self):
        self.process.kill()
        self.process.wait()
        self.qmp.close()


def words_of_test_guest(emulator, rom, accelerator, told):
    """Returns the words that start a QEMU with a guest whose port 0xe9 is the file `told`."""
    return [emulator.path, "-machine", f"pc,accel={accelerator}", "-nodefaults", "-no-user-config", "-display", "none", "-bios", rom,
            "-chardev", f"file,id=told,path={told}", "-device", "isa-debugcon,iobase=0xe9,chardev=told"]


class Side(Running):
    """A QEMU with a test guest, whose serial port is a socket. `words` are further options."""

    def __init__(self, name, emulator, room, rom, accelerator, *words):
        self.told = room.name(f"{name}.told")
        super().__init__(name, room, [
            *words_of_test_guest(emulator, rom, accelerator, self.told),
            "-chardev", f"socket,id=port,path={room.name(f'{name}.port')},server=on,wait=off", "-device", "isa-serial,chardev=port", *words])

    def count(self):
        """Returns how many bytes the guest has told."""
        return os.path.getsize(self.told)

    def send_byte(self):
        """Sends a byte to the guest's serial port."""
        self.port = socket.socket(socket.AF_UNIX)
        self.port.connect(self.room.name(f"{self.name}.port"))
        self.port.send(b"x")

    def memory(self, at, size):
        name = self.room.name(f"{self.name}.memory")
        self("pmemsave", val=at, size=size, filename=name)
        with open(name, "rb") as file:
            return file.read()


class Forwarder:
    """Hands on bytes in both directions, until it is told to lose those of one, or to cut. With `cuts_after_package` it cuts by itself once it
    has handed on the package with the state of the devices, and with `cut_after` once it has handed on so many bytes more."""

    def __init__(self, path, target):
        self.target, self.loses_down, self.loses_up, self.cuts_after_package = target, False, False, False
        self.handed, self.limit = 0, None  # bytes, of the way down
        self.ends, self.lost, self.last, self.was_cut = [], 0, time.monotonic(), threading.Event()
        self.listener = socket.socket(socket.AF_UNIX)
        self.listener.bind(path)
        self.listener.listen()
        threading.Thread(target=self.accept, daemon=True).start()

    def accept(self):
        while True:
            try:
                source, _ = self.listener.accept()
            except OSError:
                return  # it is closed
            target = socket.socket(socket.AF_UNIX)
            target.connect(self.target)
            self.ends += [source, target]
            threading.Thread(target=self.copy, args=(target, source, lambda: self.loses_up, False), daemon=True).start()
            threading.Thread(target=self.copy, args=(source, target, lambda: self.loses_down, True), daemon=True).start()

    def cut_after(self, length):
        """Cuts once so many bytes more came down."""
        self.limit = self.handed + length

    def copy(self, here, there, loses, is_down):
        try:
            while data := here.recv(1 << 14):
                self.last = time.monotonic()
                self.handed += len(data) if is_down else 0
                if self.limit is not None and self.handed > self.limit:
                    self.cut()
                    return
                if self.cuts_after_package and (package := up_to_package(here, data)):
                    there.sendall(package)
                    self.cut()
                elif loses():
                    self.lost += len(data)
                else:
                    there.sendall(data)
        except OSError:
            pass  # the connection is closed

    def end(self):
        self.cut()

    def cut(self):
        for end in [*self.ends, self.listener]:
            try:
                end.shutdown(socket.SHUT_RDWR)  # which also wakes whoever waits for the next connection
            except OSError:
                pass
        self.listener.close()
        self.was_cut.set()


def up_to_package(here, data):
    """Returns what was read up to the end of the package that begins in `data`, reading on until it is whole, or nothing if none begins there."""
    if (place := data.find(PACKAGED)) < 0 or len(data) < place + 9:
        return b""
    end = place + 9 + int.from_bytes(data[place + 5:place + 9], "big")
    while len(data) < end and (more := here.recv(end - len(data))):
        data += more
    return data[:end]


def wait_until(is_so, pause=0.01, seconds=SECONDS):
    """Waits until a condition holds, and returns what was found."""
    until = time.monotonic() + seconds
    while not (found := is_so()) and time.monotonic() < until:
        time.sleep(pause)
    return found

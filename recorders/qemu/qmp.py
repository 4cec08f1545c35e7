"""The monitor of a QEMU: commands and their answers, as JSON over a socket."""
import contextlib
import json
import socket
import time

from waits import longest


class Refused(Exception):
    """QEMU refuses a command. The message is its answer."""


class Gone(Exception):
    """QEMU has ended."""


class Hangs(Gone):
    """QEMU runs, but does not answer."""


class Qmp:
    """`waits` returns for how many seconds each thread of QEMU has waited for a processor: the main one, which answers, may need a lock that
    another one has. If one waited for half of the time or more, QEMU gets the same time again, TIMES in all. `hear` takes each event that
    comes before an answer."""

    TIMES = 10

    def __init__(self, path, is_running, seconds=20, waits=dict, hear=lambda event: None):
        self.socket = socket.socket(socket.AF_UNIX)
        self.seconds, self.waits, self.hear, self.begun = seconds, waits, hear, b""
        self.socket.settimeout(seconds)
        self.connect(path, is_running)
        self.line()
        self("qmp_capabilities")

    def connect(self, path, is_running):
        for _ in range(self.TIMES):
            before, until = self.waits(), time.monotonic() + self.seconds
            while is_running() and time.monotonic() <= until:
                try:
                    self.socket.connect(path)
                    return
                except OSError:
                    time.sleep(0.02)
            if not is_running() or longest(self.waits(), before) < self.seconds / 2:
                break
        raise Gone("it did not start")

    def line(self):
        while b"\n" not in self.begun:
            if not (data := self.received()):
                raise Gone("it ended")
            self.begun += data
        line, _, self.begun = self.begun.partition(b"\n")
        return json.loads(line)

    def received(self):
        for _ in range(self.TIMES):
            before = self.waits()
            try:
                return self.socket.recv(1 << 16)
            except socket.timeout:  # (a TimeoutError only from Python 3.10 on)
                if longest(self.waits(), before) < self.seconds / 2:
                    break
            except OSError as fault:
                raise Gone(str(fault)) from None
        raise Hangs(f"it has not answered for {self.seconds} s") from None

    def __call__(self, command, descriptor=None, **arguments):
        """Returns QEMU's answer to a command, which may hand a descriptor over."""
        asked = json.dumps({"execute": command, "arguments": arguments}).encode()
        with contextlib.suppress(OSError):  # if it has ended, what it said before that can still be read
            if descriptor is None:
                self.socket.sendall(asked)
            else:
                socket.send_fds(self.socket, [asked], [descriptor])
        while True:
            answer = self.line()
            if "event" in answer:
                self.hear(answer)
            if "error" in answer:
                raise Refused(f"{command}: {answer['error']['desc']}")
            if "return" in answer:
                return answer["return"]

    def close(self):
        self.socket.close()

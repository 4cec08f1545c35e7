"""The two sides of a migration on this machine: each has its own namespaces for processes and mounts, with CRIU's root."""
import glob
import os
import signal
import subprocess
import time

import roots

SECONDS_TO_START = 60
PROCESS = 1000  # the number of the process that is moved, at both sides


class Failed(Exception):
    """Something did not start. The message says what."""


class Side:
    """A root with its own namespace for processes. Everything in it ends with it, and it ends with its creator."""

    def __init__(self, name, root, folders, errors):
        self.name, self.errors = name, errors
        keeper = ["unshare", "--pid", "--fork", "--kill-child", "--mount-proc", "sleep", "infinity"]
        self.keeper = self.started(roots.inside(root, keeper, folders), begin=roots.die_with_parent)
        self.first = self.child_of_keeper()

    def started(self, words, environment=(), descriptors=(), begin=None):
        return subprocess.Popen(words, stdin=subprocess.DEVNULL, stdout=self.errors, stderr=self.errors, pass_fds=descriptors,
                                env={"PATH": "/usr/sbin:/usr/bin:/sbin:/bin", "LC_ALL": "C", **dict(environment)}, start_new_session=True, preexec_fn=begin)

    def child_of_keeper(self):
        """Returns the first process of the namespace, once it exists and has its own mounts."""
        until = time.monotonic() + SECONDS_TO_START
        while time.monotonic() < until and self.keeper.poll() is None:
            try:
                with open(f"/proc/{self.keeper.pid}/task/{self.keeper.pid}/children", encoding="ascii") as children:
                    first = children.read().split()
                if first and os.readlink(f"/proc/{first[0]}/exe").endswith("/sleep"):
                    return first[0]
            except OSError:
                pass
            time.sleep(0.005)
        raise Failed(f"no namespace for the {self.name}")

    def run(self, *words, environment=(), descriptors=()):
        """Starts a command in the side."""
        return self.started(["nsenter", "--target", self.first, "--mount", "--pid", "--", *words], environment, descriptors)

    def memory(self, address, length):
        """Returns memory of the process that is moved."""
        with open(f"/proc/{self.first}/root/proc/{PROCESS}/mem", "rb", buffering=0) as memory:
            memory.seek(address)
            return memory.read(length)

    def processes(self):
        """Returns, by the number of each process of the side, the states of its threads, and its ticks of processor time."""
        found = {}
        for path in glob.glob(f"/proc/{self.first}/root/proc/[0-9]*/task/*/stat"):
            try:
                with open(path, encoding="ascii", errors="replace") as status:
                    fields = status.read().rpartition(")")[2].split()
            except OSError:
                continue  # it has ended meanwhile
            states, ticks = found.get(number := int(path.split("/")[-4]), ("", 0))
            found[number] = states + fields[0], ticks + int(fields[11]) + int(fields[12])
        return found

    def has_process(self):
        return bool(set(self.processes().get(PROCESS, "X")[0]) - set("ZX"))

    def end(self):
        """Ends everything in the side: its first process ends after all others, and the keeper after that."""
        os.kill(int(self.first), signal.SIGKILL)
        self.keeper.wait()

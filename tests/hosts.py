"""Hosts that are namespaces of this machine: each has its network, its mounts, its processes and its name.

They are made inside namespaces of the script's own, so that all of it ends with the script, however this ends. The files are in a
temporary folder. No service of a package that is installed for them is started on this machine.
"""
import glob
import os
import shutil
import signal
import subprocess
import sys
import tempfile
import time

TOP = os.path.dirname(os.path.dirname(os.path.realpath(__file__)))
NAME = os.path.basename(sys.argv[0])
# What forbids a package to start its services while it is installed. A machine's own stays as it is.
POLICY = "/usr/sbin/policy-rc.d"

UNSHARED = "unshare", "--mount", "--uts", "--pid", "--fork", "--kill-child", "--mount-proc"
NO_HOSTS = 3

# A machine's own folders, in namespaces of its own: what runs, logs.
MACHINE = """set -eu
room=$1 name=$2
hostname "$name"
mount -t tmpfs -o mode=755 run /run
mkdir -p "$room/$name/log"
mount --bind "$room/$name/log" /var/log
ip link set lo up
"""


def say(what):
    print(what, flush=True)


def run(*words, **how):
    """What a command writes; it has to end well."""
    return subprocess.run(words, check=True, stdin=subprocess.DEVNULL, stdout=subprocess.PIPE, text=True, **how).stdout


def put(name, text, mode=0o644):
    with open(name, "w", encoding="ascii") as file:
        file.write(text)
    os.chmod(name, mode)


def text_of(name):
    with open(name, encoding="ascii") as file:
        return file.read()


def wait_until(what, is_so, seconds=60):
    end = time.monotonic() + seconds
    while not is_so():
        if time.monotonic() > end:
            sys.exit(f"{NAME}: after {seconds} seconds: not {what}")
        time.sleep(0.1)


def on_signals(what):
    """What a signal does that would end the script."""
    for name in signal.SIGINT, signal.SIGTERM, signal.SIGHUP:
        signal.signal(name, what)


def install(packages):
    lacking = [f"{command}:{package}" for command, package in packages.items() if not shutil.which(command)]
    if not lacking:
        return
    is_own, asked = not os.path.lexists(POLICY), []
    # (what was begun is brought to its end)
    on_signals(lambda number, _: asked.append(number))
    if is_own:
        put(POLICY, "#!/bin/sh\nexit 101\n", 0o755)
    try:
        subprocess.run([f"{TOP}/tools/need", *lacking], check=True)
    except subprocess.CalledProcessError:
        say(f"{NAME}: they are not installed")
        sys.exit(NO_HOSTS)
    finally:
        if is_own:
            os.remove(POLICY)
    if asked:
        sys.exit(1)


def outside(words, packages, fetch=lambda: None):
    """Installs what is missing of the packages, each by a command of it, has `fetch` get what else comes from a network, and runs the script again in
    namespaces, which have none, and a temporary folder that end with it. Gives its status."""
    os.environ["PATH"] += ":/usr/local/sbin:/usr/sbin:/sbin"
    if os.geteuid() != 0:
        say(f"{NAME}: hosts can be made by root alone")
        return NO_HOSTS
    install(packages)
    fetch()
    made = subprocess.run([*UNSHARED, "--net", "sh", "-c", "mount -t tmpfs run /run && ip netns add a && ip link add x type veth peer name y netns a && ip netns exec a true"])
    if made.returncode != 0:
        say(f"{NAME}: network namespaces, veth or mounts are forbidden here, so that there are no hosts")
        return NO_HOSTS
    on_signals(lambda *_: sys.exit(1))
    with tempfile.TemporaryDirectory(prefix=f"{NAME}-", dir="/tmp") as room:
        os.chmod(room, 0o755)
        inner = subprocess.Popen(["setpriv", "--pdeathsig", "KILL", *UNSHARED, "--net", sys.executable, os.path.realpath(sys.argv[0]), *words, "--room", room])
        try:
            return inner.wait()
        finally:
            inner.kill()
            inner.wait()


def start_machine(room, names, lines=MACHINE):
    """Makes this machine, inside the namespaces, the one that the hosts are reached from, and that stands between them."""
    put(f"{room}/hosts", "127.0.0.1 localhost\n10.77.0.1 here\n" + "".join(f"10.77.{at}.2 {name}\n" for at, name in enumerate(names, 1)))
    run("mount", "--bind", f"{room}/hosts", "/etc/hosts")
    run("bash", "-c", lines, "here", room, "here")
    run("ip", "addr", "add", "10.77.0.1/32", "dev", "lo")
    run("sh", "-c", "echo 1 > /proc/sys/net/ipv4/ip_forward")


class Host:
    """A host of its own: its wire to this machine, and its processes, which shell lines start."""

    def __init__(self, room, number, name, lines):
        self.room, self.number, self.name, self.lines = room, number, name, lines
        self.address = f"10.77.{number}.2"

    def start(self):
        """Makes the host, or makes it again after it was lost."""
        for old in ("link", "del", f"wire-{self.name}"), ("netns", "del", self.name):
            subprocess.run(["ip", *old], stderr=subprocess.DEVNULL)
        shutil.rmtree(f"{self.room}/{self.name}", ignore_errors=True)
        os.mkdir(f"{self.room}/{self.name}")
        name, wire, net = self.name, f"wire-{self.name}", f"10.77.{self.number}"
        run("ip", "netns", "add", name)
        run("ip", "link", "add", wire, "type", "veth", "peer", "name", "eth0", "netns", name)
        run("ip", "addr", "add", f"{net}.1/24", "dev", wire)
        run("ip", "link", "set", wire, "up")
        run("ip", "-n", name, "addr", "add", f"{self.address}/24", "dev", "eth0")
        run("ip", "-n", name, "link", "set", "eth0", "up")
        run("ip", "-n", name, "route", "add", "default", "via", f"{net}.1")
        with open(f"{self.room}/{name}/said", "w", encoding="ascii") as said:
            words = ["ip", "netns", "exec", name, *UNSHARED, "bash", "-c", self.lines, "host", self.room, name]
            self.parent = subprocess.Popen(words, stdin=subprocess.DEVNULL, stdout=said, stderr=said)

    def inside(self):
        """Returns the words before those of a command that runs on the host."""
        first = text_of(f"/proc/{self.parent.pid}/task/{self.parent.pid}/children").split()[0]
        return ["nsenter", "-t", first, "--mount", "--uts", "--net", "--pid"]

    def lose(self):
        """Cuts the wire, and kills all processes, as where a host loses its power."""
        run("ip", "-n", self.name, "link", "set", "eth0", "down")
        self.parent.kill()
        self.parent.wait()


class Trials:
    """Counts what is not as it has to be, and tells each thing."""

    def __init__(self):
        self.wrong = 0

    def same(self, what, found, wanted):
        if found == wanted:
            say(f"  {what}: as it has to be")
        else:
            say(f"  {what}: WRONG\n    found:  {found}\n    wanted: {wanted}")
            self.wrong += 1

    def status(self, make, *logs):
        """Makes the trials. Gives the status; if it is not 0, the end of each log, named by patterns, goes to standard error."""
        self.wrong += 1
        try:
            make()
            self.wrong -= 1
        finally:
            if self.wrong:
                show_logs(name for pattern in logs for name in glob.glob(pattern))
        return 1 if self.wrong else 0


def show_logs(names):
    for name in sorted(names):
        with open(name, encoding="utf-8", errors="replace") as file:
            lines = file.read().splitlines()[-12:]
        print(f"--- {name}", *lines, sep="\n", file=sys.stderr)

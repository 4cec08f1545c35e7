"""Root file systems of other releases of Debian, in the user's cache folder, and programs that run in one.

debootstrap makes a root once, from Debian's mirror, and nothing writes to it afterwards. A program that runs in it has its own root
in memory, which is a mount, as CRIU requires. The release's /usr and /etc are mounted there read-only. This machine's /proc, /sys and
/dev are there too, and the folders that the program is given, each under its own path.

    roots.inside(roots.path(ROOT), ["criu", "--version"], folders=["/var/tmp/seen"])

returns the words of a command that runs one. Both need root's rights.
"""
import ctypes
import fcntl
import os
import platform
import shutil
import signal
import subprocess
import sys
import time
import zlib
from dataclasses import dataclass

MIRROR = "http://deb.debian.org/debian"
KEYRING = "/usr/share/keyrings/debian-archive-keyring.gpg"
MARK = ".postcopy-root"
SECONDS_BETWEEN_LINES = 5
PIVOT_ROOT = {"x86_64": 155, "aarch64": 41}  # the system call's number
CLONE_NEWNS = 0x20000
PR_SET_PDEATHSIG = 1
MS_RDONLY, MS_REMOUNT, MS_BIND, MS_REC, MS_PRIVATE = 1, 32, 4096, 16384, 1 << 18
MNT_DETACH = 2


class Missing(Exception):
    """Something is missing on this machine. The message says what."""


@dataclass(frozen=True)
class Root:
    """What a root is made from: a suite of Debian, and packages. With `newer`, the packages come from another suite, such as backports."""
    name: str
    suite: str
    packages: tuple
    newer: str = ""

    @property
    def mark(self):
        return f"{self.suite} {self.newer}\n{' '.join(self.packages)}\n"


# Where roots are

def cache(name):
    """Returns a folder in the user's cache for things that are made once. A cache that is no whole path is none, as the launcher has it."""
    top = os.environ.get("XDG_CACHE_HOME", "")
    return f"{top if os.path.isabs(top) else os.path.expanduser('~/.cache')}/postcopy/{name}"


def built_in(sources):
    """Returns the folder for what is built from the sources in a folder: `out` beside them, or one in the user's cache if nothing can be written
    there, as in a checkout of another user."""
    out = f"{sources}/out"
    if os.access(out if os.path.isdir(out) else sources, os.W_OK | os.X_OK):
        return out
    return cache(f"built-{zlib.crc32(os.fsencode(sources)):08x}")


def make_folder(path):
    """Makes a folder for what is built, if it is not there."""
    try:
        os.makedirs(path, exist_ok=True)
    except OSError as fault:
        raise Missing(f"{path} cannot be made, the folder for what is built: {fault.strerror}") from None


def folder():
    """Returns the folder of all roots: POSTCOPY_ROOTS, or a folder in the user's cache."""
    return os.path.abspath(os.environ.get("POSTCOPY_ROOTS") or cache("roots"))


def path(root):
    return f"{folder()}/{root.name}"


def is_made(root):
    """Returns whether a root exists, is whole, and was made from what it is made from today."""
    try:
        with open(f"{path(root)}/{MARK}", encoding="ascii") as mark:
            return mark.read() == root.mark
    except OSError:
        return False


# Making one

def require_tools():
    """Raises Missing if no root can be made here."""
    if os.geteuid() != 0:
        raise Missing("debootstrap makes the root, and must run as root")
    if not shutil.which("debootstrap") or not os.path.exists(KEYRING):
        raise Missing("debootstrap not found. On Debian:\n"
                      "    apt-get install --no-install-recommends debootstrap debian-archive-keyring")


def make(root, say=lambda line: None):
    """Makes a root if it does not exist. Calls `say` with each line of progress. A root that is not whole yet has another name."""
    require_tools()
    make_folder(folder())
    with open(f"{folder()}/{root.name}.lock", "w", encoding="ascii") as lock:
        fcntl.flock(lock, fcntl.LOCK_EX)
        if is_made(root):
            return
        part = f"{path(root)}.part"
        remove(part)
        run(root, say, ["debootstrap", "--variant=minbase", f"--keyring={KEYRING}", root.suite, part, MIRROR])
        with open(f"{part}/etc/apt/sources.list", "w", encoding="ascii") as sources:
            for suite in filter(None, (root.suite, root.newer)):
                sources.write(f"deb {MIRROR} {suite} main\n")
        # Like debootstrap, this checks signatures, but does not use the machine's clock to check that a list is up to date.
        apt_get = ["chroot", part, "apt-get", "-q", "-o", "APT::Sandbox::User=root", "-o", "Acquire::Check-Valid-Until=no"]
        run(root, say, [*apt_get, "update"])
        of = ["-t", root.newer] if root.newer else []
        run(root, say, [*apt_get, "install", "-y", "--no-install-recommends", *of, *root.packages], part)
        run(root, say, [*apt_get, "clean"])
        with open(f"{part}/{MARK}", "w", encoding="ascii") as mark:
            mark.write(root.mark)
        remove(path(root))
        os.rename(part, path(root))


def remove(tree):
    """Removes a root, but nothing that is mounted in it."""
    if os.path.isdir(tree):
        subprocess.run(["rm", "-rf", "--one-file-system", tree], check=True)


def run(root, say, words, proc_in=None):
    """Runs one step of making a root. Its mounts end with it. `say` gets a line every few seconds, and Missing has the last lines."""
    def alone():
        unshare_mounts()
        if proc_in:
            mount("proc", f"{proc_in}/proc", "proc", 0)

    environment = {"PATH": "/usr/sbin:/usr/bin:/sbin:/bin", "LC_ALL": "C", "HOME": "/root", "DEBIAN_FRONTEND": "noninteractive",
                   **{name: value for name, value in os.environ.items() if name.endswith("_proxy")}}
    said, told = [], 0.0
    with subprocess.Popen(words, stdin=subprocess.DEVNULL, stdout=subprocess.PIPE, stderr=subprocess.STDOUT, text=True,
                          errors="replace", env=environment, preexec_fn=alone) as process:
        for line in process.stdout:
            said.append(line.rstrip())
            if time.monotonic() > told + SECONDS_BETWEEN_LINES:
                told = time.monotonic()
                say(f"{root.name}: {said[-1]}")
    if process.returncode:
        raise Missing(f"{' '.join(words)}: status {process.returncode}\n" + "\n".join(said[-5:]))


# Running in one

def inside(tree, words, folders=(), cwd="/"):
    """Returns the words of a command that runs `words` in a root. `folders` are there too, under their own paths."""
    return [sys.executable, "-B", os.path.abspath(__file__), tree, cwd, *map(os.path.abspath, folders), "--", *words]


def libc(name, *arguments):
    library = ctypes.CDLL(None, use_errno=True)
    if library[name](*arguments) < 0:
        error = ctypes.get_errno()
        raise OSError(error, f"{name}: {os.strerror(error)}")


def die_with_parent(number=signal.SIGKILL):
    """Has the system kill this process, or send it another signal, when the thread that started it ends."""
    libc("prctl", PR_SET_PDEATHSIG, number)


def end_with_parent():
    """Has the system end this process in order when the thread that started it ends."""
    die_with_parent(signal.SIGTERM)


def mount(what, where, kind, flags):
    libc("mount", *(None if it is None else os.fsencode(it) for it in (what, where, kind)), ctypes.c_ulong(flags), None)


def unshare_mounts():
    """Gives this process its own mounts."""
    libc("unshare", CLONE_NEWNS)
    mount(None, "/", None, MS_REC | MS_PRIVATE)


def bind(what, where, is_read_only=False):
    os.makedirs(where, exist_ok=True)
    mount(what, where, None, MS_BIND | MS_REC)
    if is_read_only:
        mount(None, where, None, MS_BIND | MS_REMOUNT | MS_RDONLY)


def enter(tree, folders):
    """Gives this process a root in memory, with the /usr and /etc of a release of Debian."""
    unshare_mounts()
    new = f"{tree}/mnt"
    mount("root", new, "tmpfs", 0)
    for name in os.listdir(tree):
        if os.path.islink(f"{tree}/{name}"):
            os.symlink(os.readlink(f"{tree}/{name}"), f"{new}/{name}")
    for name in ("usr", "etc"):
        bind(f"{tree}/{name}", f"{new}/{name}", is_read_only=True)
    for name in ("/proc", "/sys", "/dev", *folders):
        bind(name, f"{new}{name}")
    for name in ("tmp", "run", "root", "old"):
        os.makedirs(f"{new}/{name}", exist_ok=True)
    os.chdir(new)
    libc("syscall", ctypes.c_long(PIVOT_ROOT[platform.machine()]), b".", b"old")
    libc("umount2", b"/old", MNT_DETACH)
    os.rmdir("/old")


def main():
    tree, cwd, *rest = sys.argv[1:]
    until = rest.index("--")
    enter(tree, rest[:until])
    os.chdir(cwd)
    os.environ.update(PATH="/usr/sbin:/usr/bin:/sbin:/bin", HOME="/root", LC_ALL="C.UTF-8")
    os.execvp(rest[until + 1], rest[until + 1:])


if __name__ == "__main__":
    main()

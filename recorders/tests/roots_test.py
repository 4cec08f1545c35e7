"""Roots of other releases of Debian: where they are, that none has its name before it is whole, and what runs in one."""
import os
import subprocess
import sys
import tempfile
import time
from contextlib import contextmanager

import roots
from roots import Root

PLAIN = Root("plain", "trixie", ("criu",))


@contextmanager
def environment(**changes):
    before = {name: os.environ.get(name) for name in changes}

    def put(values):
        for name, value in values.items():
            os.environ.pop(name, None)
            if value is not None:
                os.environ[name] = value

    put(changes)
    try:
        yield
    finally:
        put(before)


def of_places(tests):
    with environment(POSTCOPY_ROOTS=None, XDG_CACHE_HOME="/cache"):
        tests.wants("in the user's cache", roots.path(PLAIN), "/cache/postcopy/roots/plain")
    with environment(POSTCOPY_ROOTS=None, XDG_CACHE_HOME=None, HOME="/home/me"):
        tests.wants("where no other is named", roots.folder(), "/home/me/.cache/postcopy/roots")
    with environment(POSTCOPY_ROOTS=None, XDG_CACHE_HOME="cache", HOME="/home/me"):
        tests.wants("where the cache is no whole path", (roots.folder(), roots.cache("qemu")), ("/home/me/.cache/postcopy/roots", "/home/me/.cache/postcopy/qemu"))
    with environment(POSTCOPY_ROOTS="/elsewhere"):
        tests.wants("where it is asked for", roots.path(PLAIN), "/elsewhere/plain")


def of_what_is_built(tests, room):
    """What is built goes beside its sources, or where these cannot be written, as in a checkout of another user, into the user's cache."""
    tests.wants("beside the sources", roots.built_in(room), f"{room}/out")
    with environment(XDG_CACHE_HOME=f"{room}/cache"):
        others = [roots.built_in(f"{room}/{name}") for name in ("none", "nor-this")]
        tests.wants("in the cache, each for itself", [os.path.dirname(it) for it in others], [f"{room}/cache/postcopy"] * 2)
        tests.wants("each for itself", len({*others}), 2)
        roots.make_folder(others[0])
        tests.wants("its folder is made", os.path.isdir(others[0]), True)
    said = tests.refuses("a folder that cannot be made", roots.Missing, lambda: roots.make_folder("/dev/null/built"))
    tests.wants("it is named", said.startswith("/dev/null/built cannot be made"), True)


class Steps:
    """Stands in for the steps of making a root: writes down what was to be run, and fails at a step if that is asked for."""

    def __init__(self, failing=None):
        self.failing, self.words = failing, []

    def __call__(self, root, say, words, proc_in=None):
        self.words.append(words)
        if words[0] == "debootstrap":
            os.makedirs(f"{words[-2]}/etc/apt")
        if self.failing in words:
            raise roots.Missing(f"{self.failing} failed")


def made(tests, root, failing=None):
    """Makes a root without debootstrap; answers the steps."""
    steps, before = Steps(failing), (roots.run, roots.require_tools)
    roots.run, roots.require_tools = steps, lambda: None
    try:
        if failing:
            tests.refuses(f"a root whose {failing} fails", roots.Missing, lambda: roots.make(root))
        else:
            roots.make(root)
    finally:
        roots.run, roots.require_tools = before
    return steps.words


def of_making(tests, room):
    with environment(POSTCOPY_ROOTS=f"{room}/made"):
        tests.wants("none is there at first", roots.is_made(PLAIN), False)
        made(tests, PLAIN, "install")
        tests.wants("one that is not whole", (roots.is_made(PLAIN), os.path.exists(roots.path(PLAIN))), (False, False))
        words = made(tests, PLAIN)
        tests.wants("one that is", roots.is_made(PLAIN), True)
        tests.wants("the part is gone", os.path.exists(f"{roots.path(PLAIN)}.part"), False)
        tests.wants("its suite, its place and its mirror", words[0][-3:], ["trixie", f"{roots.path(PLAIN)}.part", roots.MIRROR])
        tests.wants("a second time", made(tests, PLAIN), [])
        newer = Root("plain", "trixie", ("criu", "gcc"), "trixie-backports")
        tests.wants("one with other packages", roots.is_made(newer), False)
        words = made(tests, newer)
        tests.wants("of a newer suite", words[2][-4:], ["-t", "trixie-backports", "criu", "gcc"])
        with open(f"{roots.path(newer)}/etc/apt/sources.list", encoding="ascii") as sources:
            tests.wants("two suites", [line.split()[2] for line in sources], ["trixie", "trixie-backports"])
        tests.wants("made anew", (roots.is_made(newer), roots.is_made(PLAIN)), (True, False))


def can_have_mounts():
    """Whether this process may have mounts of its own."""
    return subprocess.run(["unshare", "-m", "true"], stderr=subprocess.DEVNULL).returncode == 0


def of_running(tests, room):
    """What runs in a root: one that has this machine's own /usr and /etc, as they are to a release of Debian."""
    if not can_have_mounts():
        tests.leave_out("no process can have mounts of its own here, so nothing is run in a root")
        return
    tree, folder = f"{room}/tree", f"{room}/a folder"
    for name in ("usr", "etc", "mnt"):
        os.makedirs(f"{tree}/{name}")
    os.makedirs(folder)
    for name in ("bin", "lib", "lib64"):
        os.symlink(f"usr/{name}", f"{tree}/{name}")

    def inside(script):
        words = roots.inside(tree, ["sh", "-c", script], [folder], folder)
        mounts = 'mount --bind /usr "$0/usr" && mount --bind /etc "$0/etc" && exec "$@"'
        done = subprocess.run(["unshare", "-m", "--propagation", "private", "sh", "-c", mounts, tree, *words], capture_output=True, text=True)
        return done.returncode, done.stdout

    tests.wants("a folder is there under its path", inside(f'echo seen > it; cat "{folder}/it"; pwd'), (0, f"seen\n{folder}\n"))
    tests.wants("and so outside", os.listdir(folder), ["it"])
    tests.wants("its status", inside("exit 7"), (7, ""))
    tests.wants("it has a release's programs, and cannot write to them", inside("touch /usr/it 2> /dev/null || echo refused"), (0, "refused\n"))
    tests.wants("its root is a mount", inside("awk '$5 == \"/\" { print $4 }' /proc/self/mountinfo"), (0, "/\n"))
    tests.wants("and this machine's is not there", inside("ls /"), (0, "bin\ndev\netc\nlib\nlib64\nproc\nroot\nrun\nsys\ntmp\nusr\n"))
    tests.wants("nothing is left in it", (os.listdir(f"{tree}/mnt"), sorted(os.listdir(tree))), ([], ["bin", "etc", "lib", "lib64", "mnt", "usr"]))


def of_the_parent(tests):
    """What is started so ends with who started it, also where that one is killed."""
    script = ("import subprocess, sys, time\nsys.path.insert(0, sys.argv[1])\nimport roots\n"
              "print(subprocess.Popen(['sleep', '60'], preexec_fn=roots.die_with_parent).pid, flush=True)\ntime.sleep(60)")
    with subprocess.Popen([sys.executable, "-B", "-c", script, os.path.dirname(roots.__file__)], stdout=subprocess.PIPE, text=True) as parent:
        child = int(parent.stdout.readline())
        tests.wants("it runs", has_ended(child), False)
        parent.kill()
    until = time.monotonic() + 60
    while not has_ended(child) and time.monotonic() < until:
        time.sleep(0.01)
    tests.wants("it ended", has_ended(child), True)


def has_ended(process):
    """Whether a process has ended: it is gone, or nobody has asked yet how it ended (Z, or X while it goes)."""
    try:
        with open(f"/proc/{process}/stat", encoding="ascii") as file:
            return file.read().rpartition(")")[2].split()[0] in ("Z", "X")
    except OSError:
        return True


def run(tests):
    of_places(tests)
    of_the_parent(tests)
    with tempfile.TemporaryDirectory(dir="/tmp") as room:
        of_what_is_built(tests, room)
        of_making(tests, room)
        of_running(tests, room)

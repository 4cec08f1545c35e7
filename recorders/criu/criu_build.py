"""Builds the C parts of the recorder, and finds CRIU in a root of a release of Debian that has 4.1 or newer."""
import fcntl
import os
import re
import subprocess

import roots
from roots import Missing, Root

HERE = os.path.dirname(os.path.abspath(__file__))
OUT = roots.built_in(HERE)

# Suites of Debian with CRIU 4.1 or newer.
ROOTS = {suite: Root(f"criu-{suite}", suite, ("criu",)) for suite in ("trixie", "sid")}

# By the name of what is built: its source, and how it is built.
BUILT = {"walk": ("walk.c", ("-static", "-pthread")),
         "library.so": ("library.c", ("-shared", "-fPIC", "-ldl")),
         "pipe_size.so": ("pipe_size.c", ("-shared", "-fPIC", "-ldl"))}


def require_rights():
    if os.geteuid() != 0:
        raise Missing("CRIU must run as root: it freezes a process, and restores one with its number, in namespaces of its own")


def version_in(root):
    """Returns the version of CRIU in a root."""
    done = subprocess.run(roots.inside(roots.path(root), ["criu", "--version"]), capture_output=True, text=True)
    found = re.search(r"^Version: ([0-9.]+)", done.stdout, re.MULTILINE)
    if not found:
        raise Missing(f"criu does not run in {roots.path(root)}: {done.stderr.strip()}")
    return found[1]


def versions():
    """Returns the version of CRIU in each root that exists, by its suite. Raises Missing if there is none."""
    found = {suite: version_in(root) for suite, root in ROOTS.items() if roots.is_made(root)}
    if not found:
        raise Missing(f"no CRIU of 4.1 or newer is there. This makes a root with one, by debootstrap, in {roots.folder()}:\n"
                      "    recorders/criu/versions trixie")
    return found


def root_and_version(wanted=""):
    """Returns the folder of a root, and the version of CRIU in it: for the suite or the version that is wanted, or for the first root."""
    found = versions()
    for suite, version in found.items():
        if wanted in ("", suite, version):
            return roots.path(ROOTS[suite]), version
    there = ", ".join(f"{suite} with {version}" for suite, version in found.items())
    raise Missing(f"there is no CRIU '{wanted}': there is a root of {there}")


def compile_one(name):
    source, flags = BUILT[name]
    shared = [flag for flag in flags if flag.startswith("-l")]
    others = [flag for flag in flags if not flag.startswith("-l")]
    done = subprocess.run(["gcc", "-O2", "-Wall", "-Wextra", *others, "-o", f"{OUT}/{name}.new", f"{HERE}/{source}", *shared],
                          capture_output=True, text=True)
    if done.returncode:
        raise Missing(done.stderr)
    os.replace(f"{OUT}/{name}.new", f"{OUT}/{name}")


def build():
    """Returns the paths of the walk, of the library and of what gives CRIU its pipe. Builds those that are missing or older than their
    sources."""
    roots.make_folder(OUT)
    with open(f"{OUT}/lock", "w", encoding="ascii") as lock:
        fcntl.flock(lock, fcntl.LOCK_EX)
        for name, (source, _) in BUILT.items():
            built = f"{OUT}/{name}"
            if not os.path.exists(built) or os.path.getmtime(built) < os.path.getmtime(f"{HERE}/{source}"):
                compile_one(name)
    return [f"{OUT}/{name}" for name in BUILT]

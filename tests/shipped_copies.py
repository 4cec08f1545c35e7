"""Copies of the checkout in which the tests of what is shipped happen, and the calls of programs there."""
import contextlib
import glob
import hashlib
import os
import re
import shutil
import subprocess
from collections import namedtuple

from cases import count

TOP = os.path.dirname(os.path.dirname(os.path.abspath(__file__)))
SHIPPED = "shipped/x86_64-linux"
PROGRAM = "crates/postcopy/out/postcopy"
LIBRARIES = ("libpostcopy.so", "libpostcopy.a")
NAMES = ("postcopy", *LIBRARIES)
SHIPPED_PAGE = "shipped/web"
PAGE = "crates/postcopy_c/out/postcopy.html"
SOURCE = "crates/session_log/src/lib.rt"

# The crates that a copy has: some of those that the program is built from, and one that it is not.
CRATES = ("plain_audit", "cert_check", "postcopy", "postcopy_c", "session_log")

# The commands that a machine has to have: those of coreutils and findutils, awk, and what the tools take besides.
COMMANDS = """awk cat chmod cksum cp cut date dirname find install ln mkdir mktemp mv readlink rm sed sh sha256sum sort tail
    touch tr uname xargs grep ls env getconf tar""".split()

# Stands in for a proof: says that it was called, and leaves a program that says the same.
BUILD = """#!/bin/sh
echo "a proof of $1 would begin" >&2
[ ! -e "$(dirname "$0")/fails" ] || exit 1
cd "$(dirname "$0")/../crates/$1" && mkdir -p out && printf '#!/bin/sh\\necho built here\\n' > out/postcopy && chmod 755 out/postcopy
"""
BEGINS = "a proof of postcopy would begin\n"

RT = """#!/bin/sh
case $1 in
    version) echo "kit-of-tests logic 0" ;;
    doc) echo "$(dirname "$0")/START-HERE.md" ;;
    *) exit 2 ;;
esac
"""

Ran = namedtuple("Ran", "status out err")

def says(what, ran, status, *words):
    """Counts whether a call ended with a status and nothing on standard output, and said these words."""
    count(ran.status == status and ran.out == b"" and all(it in ran.err.decode() for it in words), f"{what}: {ran}, and not {status} with {words}")


# Copies of the checkout.


def crates_below():
    """The crates of the repository that the program and the library are built from."""
    below = {}
    with open(f"{TOP}/crates.txt", encoding="utf-8") as file:
        for line in file:
            name, colon, uses = line.partition("#")[0].partition(":")
            if colon:
                below[name.split()[0]] = uses.split()
    found, left = set(), ["postcopy", "postcopy_c"]
    while left:
        name = left.pop()
        if name in below and name not in found:
            found.add(name)
            left += below[name]
    return found


def digest_of_sources(tree):
    files = ["HANDLES", "crates.txt"]
    for name in crates_below():
        for part in ("src", "specs", "proofs"):
            for at, _, names in os.walk(f"{tree}/crates/{name}/{part}"):
                files += [os.path.relpath(f"{at}/{it}", tree) for it in names]
    lines = [f"{sum_of(f'{tree}/{it}')}  {it}\n" for it in sorted(files, key=os.fsencode)]
    return hashlib.sha256("".join(lines).encode()).hexdigest()


def digest_of_page(tree):
    names = read(f"{tree}/bindings/web/examples").decode().split()
    files = ["VERSION", "bindings/c/postcopy.h", "tools/page", *(f"examples/{name}/{it}" for name in names for it in ("what", "session", "certificate"))]
    files += [os.path.relpath(it, tree) for it in glob.glob(f"{tree}/bindings/web/*") if not it.endswith("_test.c")]
    lines = [f"{sum_of(f'{tree}/{it}')}  {it}\n" for it in sorted(files, key=os.fsencode) if os.path.exists(f"{tree}/{it}")]
    return hashlib.sha256("".join([f"{digest_of_sources(tree)}\n", *lines]).encode()).hexdigest()


def read(name):
    with open(name, "rb") as file:
        return file.read()


def write(name, data, mode=0o644):
    os.makedirs(os.path.dirname(name), exist_ok=True)
    with open(name, "wb") as file:
        file.write(data if isinstance(data, bytes) else data.encode())
    os.chmod(name, mode)


def append(name, data):
    with open(name, "ab") as file:
        file.write(data)


def sum_of(name):
    return hashlib.sha256(read(name)).hexdigest()


def is_superuser():
    return os.geteuid() == 0


class Room:
    """A folder for the copies, with the commands and the toolchain that they find."""

    def __init__(self, folder, program):
        self.folder = folder
        self.copies = 0
        os.chmod(folder, 0o755)
        self.plain = self.commands("plain", COMMANDS)
        for name, data, mode in (("rt", RT, 0o755), ("KIT-ID", "tests\n", 0o644), ("WHAT", "archive 1\n", 0o644)):
            write(f"{folder}/kit/{name}", data, mode)
        self.with_rt = f"{folder}/kit:{self.plain}"
        self.tree = f"{folder}/tree"
        self.copy_sources()
        built = f"{folder}/built"
        shutil.copytree(self.tree, built, symlinks=True)
        write(f"{built}/{PROGRAM}", read(program), 0o755)
        write(f"{built}/{PROGRAM}.by-rattle", b"")
        for name in LIBRARIES:
            write(f"{built}/crates/postcopy_c/out/{name}", read(f"{TOP}/crates/postcopy_c/out/{name}"))
        write(f"{built}/crates/postcopy_c/out/libpostcopy_c.a", b"")
        write(f"{built}/crates/postcopy_c/out/postcopy_c.bc", b"")
        write(f"{built}/{PAGE}", b"<!doctype html>\n")
        self.built = built

    def commands(self, name, found):
        """A folder of links to commands, to be searched for them."""
        folder = f"{self.folder}/{name}"
        os.makedirs(folder)
        for it in found:
            os.symlink(shutil.which(it), f"{folder}/{it}")
        return folder

    def copy_sources(self):
        """Copies what the tests use of the repository, with a stand-in for the proof."""
        def unwanted(at, names):
            if at == TOP:
                return [it for it in names if it in (".git", "bench", "docs", "release", "shipped")]
            return [it for it in names if it in ("out", "must-fail", "mutants", "mutants.edits") or at == f"{TOP}/crates" and it not in CRATES or at == f"{TOP}/bindings" and it == "rust"]
        shutil.copytree(TOP, self.tree, symlinks=True, ignore=unwanted)
        write(f"{self.tree}/tools/build", BUILD, 0o755)

    def copy(self, name=None, of=None):
        """A copy of the checkout that holds what is shipped, and nothing that was built."""
        self.copies += 1
        to = f"{self.folder}/{name or f'copy-{self.copies}'}"
        shutil.copytree(of or self.tree, to, symlinks=True)
        return to


def run(*words, path, cwd="/", user=None, given=b"", **env):
    """Runs a command with these variables alone, and as another user where one is named."""
    def become():
        os.setgroups([])
        os.setgid(user)
        os.setuid(user)
    ran = subprocess.run(words, input=given, stdout=subprocess.PIPE, stderr=subprocess.PIPE, cwd=cwd, env={"PATH": path, **env},
                         preexec_fn=become if user and is_superuser() else None)
    return Ran(ran.returncode, ran.stdout, ran.stderr)


def check(copy, room, launcher=None, path=None, **how):
    """Has the program check a right certificate, by a copy's launcher."""
    example = f"{room.tree}/examples/handover"
    return run(launcher or f"{copy}/postcopy", "check", f"{example}/session", f"{example}/certificate", path=path or room.plain, **how)


YES = Ran(0, b"yes\n", b"")
NOBODY = 65534


def manifest(copy, folder=SHIPPED):
    lines = [it.partition(" ") for it in read(f"{copy}/{folder}/manifest").decode().split("\n") if it and it[0] != "#"]
    return {name: value for name, _, value in lines}


def rewrite(copy, name, value, folder=SHIPPED):
    """Gives a manifest of a copy another value."""
    file = f"{copy}/{folder}/manifest"
    changed, times = re.subn(rf"(?m)^{name} .*$", f"{name} {value}", read(file).decode())
    assert times == 1, name
    write(file, changed)


def is_put(copy):
    """Whether the shipped program stands in the copy's out/, and nothing else there."""
    out = os.path.dirname(f"{copy}/{PROGRAM}")
    return os.listdir(out) == ["postcopy"] and sum_of(f"{copy}/{PROGRAM}") == manifest(copy)["postcopy"]


@contextlib.contextmanager
def read_only(copy):
    """A copy that cannot be written."""
    def set_modes(writable):
        for at, _, files in os.walk(copy):
            for it in (at, *(f"{at}/{name}" for name in files)):
                if not os.path.islink(it):
                    mode = os.stat(it).st_mode & 0o777
                    os.chmod(it, mode | 0o200 if writable else mode & 0o555)
    set_modes(False)
    try:
        yield
    finally:
        set_modes(True)


def home(room, name):
    """A folder of the user who reads the checkout."""
    folder = f"{room.folder}/{name}"
    os.makedirs(folder)
    if is_superuser():
        os.chown(folder, NOBODY, NOBODY)
    return folder


def kept_in(folder):
    """The programs that are kept in a cache folder."""
    return sorted(glob.glob(f"{folder}/postcopy/*/postcopy"))


def put_back(room, copy):
    """Makes the sources of a copy those of the tree again."""
    for it in ("crates", "crates.txt", "HANDLES"):
        if os.path.isdir(f"{copy}/{it}"):
            shutil.rmtree(f"{copy}/{it}/session_log", ignore_errors=True)
            shutil.copytree(f"{room.tree}/{it}", f"{copy}/{it}", dirs_exist_ok=True)
        else:
            shutil.copyfile(f"{room.tree}/{it}", f"{copy}/{it}")

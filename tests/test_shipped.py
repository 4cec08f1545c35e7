"""Tests how the shipped program, libraries and page are written, told from others, compared, put in place and run.

All of it happens in copies of the checkout, whose shipped/ holds the program and the libraries that are built here: it does
not matter of which sources the checkout's own shipped/ is. Nothing is proved: a copy's tools/build writes down that it was
called, and its toolchain is a name and two digests. Commands are found in a folder that holds those of coreutils, findutils
and awk alone. What takes the system's superuser, or git, is left out with a line where there is none.
"""
import contextlib
import glob
import hashlib
import os
import re
import shutil
import sys
import tempfile
import time
import zipfile

import pytest
import shipped_launcher
from cases import count, leave_out, same
from shipped_copies import (BEGINS, LIBRARIES, NAMES, NOBODY, PAGE, PROGRAM, SHIPPED, SHIPPED_PAGE, SOURCE, TOP, YES, Ran, Room, append,
                            check, digest_of_page, digest_of_sources, home, manifest, read, read_only, rewrite, run, says, sum_of, write)

# What is shipped, and whether it is of the sources.


def write_shipped(room):
    """What tools/ship writes of a tree that is built, into the tree that all copies are of."""
    same("the digest of the whole checkout", run(f"{TOP}/tools/shipped-sources", path=room.plain).out.decode().strip(), digest_of_sources(TOP))
    tree, built = room.tree, room.built
    ship = f"{tree}/tools/ship"
    path = room.with_rt
    same("a check where nothing is shipped", run(ship, "--check", path=path).status, 1)
    same("words that tools/ship does not know", run(ship, "--off", path=path).status, 2)
    same("a tree to be shipped, with no name", run(ship, "--of", path=path).status, 2)
    says("a tree where nothing is built", run(ship, "--of", tree, path=path), 1, "build it there first")
    append(f"{built}/{SOURCE}", b"// x\n")
    says("a tree of other sources", run(ship, "--of", built, path=path), 1, "other sources")
    shutil.copy2(f"{tree}/{SOURCE}", f"{built}/{SOURCE}")
    os.utime(f"{built}/{SOURCE}", (time.time() + 60, time.time() + 60))
    says("a tree that was built before a source was written", run(ship, "--of", built, path=path), 1, "older than its sources")
    os.utime(f"{built}/{SOURCE}", (1, 1))
    count(not os.path.exists(f"{tree}/{SHIPPED}/manifest"), "a refusal left a manifest")

    same("a tree that is shipped", run(ship, "--of", built, "33", path=path).status, 0)
    told = manifest(tree)
    kit = hashlib.sha256(b"tests\narchive 1\n").hexdigest()
    version = max(re.findall(rb"GLIBC_(\d+)\.(\d+)", read(f"{built}/{PROGRAM}")), key=lambda it: (int(it[0]), int(it[1])), default=())
    wanted = {"sources": digest_of_sources(tree), "toolchain": "kit-of-tests", "toolchain-digest": kit, "minutes": "33"}
    wanted.update({"glibc": b".".join(version).decode(), "postcopy": sum_of(f"{built}/{PROGRAM}")})
    wanted.update({it: sum_of(f"{built}/crates/postcopy_c/out/{it}") for it in LIBRARIES})
    same("the manifest", told, wanted)
    same("what is shipped", sorted(os.listdir(f"{tree}/{SHIPPED}")), sorted([*NAMES, "manifest"]))
    for name in NAMES:
        same(f"the shipped {name}", sum_of(f"{tree}/{SHIPPED}/{name}"), told[name])
    same("the manifest of the page", manifest(tree, SHIPPED_PAGE), {"sources": digest_of_page(tree), "toolchain": "kit-of-tests", "toolchain-digest": kit,
                                                                    "clang": "", "postcopy.html": sum_of(f"{built}/{PAGE}")})
    same("what is shipped of the page", sorted(os.listdir(f"{tree}/{SHIPPED_PAGE}")), ["manifest", "postcopy.html"])
    same("the shipped page", sum_of(f"{tree}/{SHIPPED_PAGE}/postcopy.html"), sum_of(f"{built}/{PAGE}"))
    same("the shipped program may be run", os.access(f"{tree}/{SHIPPED}/postcopy", os.X_OK), True)
    same("the same, shipped again", run(ship, "--of", built, path=path).status, 0)
    same("its manifest, with the minutes that it had", manifest(tree), wanted)


def tests_of_ship(room):
    """Shipping what is built in a copy, from nothing."""
    copy = room.copy()
    before = manifest(copy)
    write(f"{copy}/{PROGRAM}", b"left by an earlier build", 0o755)
    write(f"{copy}/tools/library", '#!/bin/sh\n[ "$1" = --build ] && cd "$(dirname "$0")/../crates/postcopy_c" && ls && mkdir out &&'
          " echo so > out/libpostcopy.so && echo a > out/libpostcopy.a\n", 0o755)
    write(f"{copy}/tools/page", f'#!/bin/sh\n[ "$1" = --build ] && cd "$(dirname "$0")/.." && echo page > {PAGE}\n', 0o755)
    write(f"{copy}/tools/fails", b"")
    ship = lambda: run(f"{copy}/tools/ship", path=room.with_rt)
    ran = ship()
    same("a build that fails is not shipped", (ran.status, manifest(copy)), (1, before))
    os.remove(f"{copy}/tools/fails")
    ran = ship()
    same("a build in a copy", (ran.status, ran.err.decode()), (0, BEGINS))
    told = manifest(copy)
    same("the sources of that build", told["sources"], before["sources"])
    same("its minutes", told["minutes"], "1")
    same("its program", read(f"{copy}/{SHIPPED}/postcopy"), b"#!/bin/sh\necho built here\n")
    same("its libraries", [read(f"{copy}/{SHIPPED}/{it}") for it in LIBRARIES], [b"so\n", b"a\n"])
    same("its page", read(f"{copy}/{SHIPPED_PAGE}/postcopy.html"), b"page\n")
    same("its digests", [told[it] for it in NAMES], [sum_of(f"{copy}/{SHIPPED}/{it}") for it in NAMES])
    same("what was built before", read(f"{copy}/{PROGRAM}"), b"left by an earlier build")


def tests_of_digest(room):
    """What the digest is of."""
    copy = room.copy()
    digest = lambda: run(f"{copy}/tools/shipped-sources", path=room.plain).out.decode().strip()
    first = digest()
    same("the digest of the sources", first, digest_of_sources(copy))
    found = [sorted(glob.glob(f"{copy}/crates/session_log/{part}/**/*.*t", recursive=True))[0] for part in ("src", "specs", "proofs")]
    for it in ("crates.txt", "HANDLES", *(os.path.relpath(it, copy) for it in found)):
        held = read(f"{copy}/{it}")
        append(f"{copy}/{it}", b"\n")
        count(digest() != first, f"the digest is of {it}")
        write(f"{copy}/{it}", held)
        same(f"the digest once {it} is as it was", digest(), first)
    source = f"{copy}/{SOURCE}"
    os.rename(source, f"{source}.rt")
    count(digest() != first, "the digest is of the names")
    os.rename(f"{source}.rt", source)
    write(f"{os.path.dirname(source)}/a 'new' one.rt", b"")
    count(digest() != first, "the digest is of files that came")
    os.remove(f"{os.path.dirname(source)}/a 'new' one.rt")
    for it in ("README.md", "tools/build", "crates/plain_audit/src/lib.rt"):
        append(f"{copy}/{it}", b"\n")
        same(f"the digest with another {it}", digest(), first)


def tests_of_check(room):
    """What tools/ship --check says."""
    copy = room.copy()
    ask = lambda path=room.plain: run(f"{copy}/tools/ship", "--check", path=path)
    whole = b"tools/ship: what is shipped is whole, and of these sources\n"
    same("a check of what is shipped, with no toolchain", ask(), Ran(0, whole, b""))
    same("a check with the toolchain", ask(room.with_rt), Ran(0, whole, b""))
    for name in NAMES:
        file = f"{copy}/{SHIPPED}/{name}"
        held = read(file)
        write(file, held[:-1] + bytes([held[-1] ^ 1]))
        says(f"a check with another byte in {name}", ask(), 1, f"{name} is not what")
        os.remove(file)
        says(f"a check with no {name}", ask(), 1, f"{name} is not what")
        write(file, held, 0o755)
    same("a check once all is back", ask(), Ran(0, whole, b""))
    append(f"{copy}/{SOURCE}", b"// x\n")
    says("a check with a source changed", ask(), 1, "of other sources")
    shutil.copy2(f"{room.tree}/{SOURCE}", f"{copy}/{SOURCE}")
    rewrite(copy, "toolchain-digest", "00")
    ran = ask(room.with_rt)
    same("a check with another toolchain", (ran.status, ran.out.startswith(whole), b"another toolchain" in ran.out), (0, True, True))


def tests_of_page(room):
    """What the digest of the page is of, and what is said where the page is another one."""
    copy = room.copy(of=room.built)
    shutil.copytree(f"{room.tree}/shipped", f"{copy}/shipped")
    digest = lambda: run(f"{copy}/tools/page-sources", path=room.plain).out.decode().strip()
    compare = lambda: run(f"{copy}/tools/compare-shipped", path=room.with_rt)
    ask = lambda: run(f"{copy}/tools/ship", "--check", path=room.plain)
    first = digest()
    same("the digest of the page", first, digest_of_page(copy))
    for it in ("bindings/web/page.js", "bindings/web/index.html", "bindings/web/examples", "bindings/c/postcopy.h", "tools/page", "examples/handover/certificate", SOURCE):
        held = read(f"{copy}/{it}")
        append(f"{copy}/{it}", b"\n")
        count(digest() != first, f"the digest of the page is of {it}")
        says(f"a check with another {it}", ask(), 1, "of other sources")
        ran = compare()
        same(f"a comparison with another {it}", (ran.status, b"the page is of other sources" in ran.out), (0, True))
        write(f"{copy}/{it}", held, 0o755)
    for it in ("bindings/web/heap_test.c", "examples/handover/status", "README.md"):
        append(f"{copy}/{it}", b"\n")
        same(f"the digest of the page with another {it}", digest(), first)
    same("a build of the page with no toolchain", run(sys.executable, f"{copy}/tools/page", "--build", path=room.plain),
         Ran(1, b"", b"tools/page: the Rattle toolchain is not installed: there is no command rt\n"))
    other, page = room.copy(of=copy), b"page" * 4096
    os.remove(f"{other}/{PAGE}")
    write(f"{other}/{SHIPPED_PAGE}/postcopy.html", page)
    rewrite(other, "postcopy.html", sum_of(f"{other}/{SHIPPED_PAGE}/postcopy.html"), SHIPPED_PAGE)
    words = [sys.executable, f"{other}/tools/page"]
    ran = run("sh", "-c", 'ulimit -f 1; exec "$@"', "sh", *words, path=room.plain)
    same("a page for which the disk has no room", (ran.status, b"File too large" in ran.err), (1, True))
    same("the next time it is put whole", (run(*words, path=room.plain), read(f"{other}/{PAGE}")), (Ran(0, b"", b""), page))
    append(f"{copy}/{PAGE}", b"x")
    ran = compare()
    same("a page that was built to other bytes", (ran.status, b"postcopy.html does not have the bytes" in ran.out), (1, True))
    rewrite(copy, "toolchain-digest", "00", SHIPPED_PAGE)
    ran = compare()
    same("a page by another toolchain", (ran.status, b"postcopy.html was built by another toolchain" in ran.out), (0, True))
    append(f"{copy}/{SHIPPED_PAGE}/postcopy.html", b"x")
    ran = compare()
    same("a damaged page", (ran.status, b"postcopy.html is not what its manifest says" in ran.out), (1, True))
    says("a check of a damaged page", ask(), 1, "postcopy.html is not what")
    shutil.rmtree(f"{copy}/{SHIPPED_PAGE}")
    ran = compare()
    same("no page is shipped", (ran.status, b"no page is shipped" in ran.out), (0, True))


# What the gate compares.


def tests_of_comparison(room):
    """What tools/compare-shipped says of a tree that was just built."""
    def fresh():
        copy = room.copy(of=room.built)
        shutil.rmtree(f"{copy}/shipped", ignore_errors=True)
        shutil.copytree(f"{room.tree}/shipped", f"{copy}/shipped")
        return copy
    compare = lambda copy: run(f"{copy}/tools/compare-shipped", path=room.with_rt)
    lines = lambda *found: "".join(f"shipped: {it}\n" for it in found).encode()
    same("what was built is what is shipped", compare(fresh()), Ran(0, lines(*(f"{it} has the bytes that were built here" for it in (*NAMES, "postcopy.html"))), b""))
    for name, file in zip(NAMES, (PROGRAM, *(f"crates/postcopy_c/out/{it}" for it in LIBRARIES))):
        copy = fresh()
        append(f"{copy}/{file}", b"x")
        ran = compare(copy)
        same(f"{name} was built to other bytes", (ran.status, f"{name} does not have the bytes".encode() in ran.out), (1, True))
        rewrite(copy, "toolchain-digest", "00")
        ran = compare(copy)
        same(f"{name} by another toolchain", (ran.status, f"{name} was built by another toolchain".encode() in ran.out), (0, True))
        append(f"{copy}/{SOURCE}", b"// x\n")
        said = lines(*(f"{it} is of other sources than these; tools/ship brings it into step" for it in ("what is shipped", "the page")))
        same(f"other sources, {name} of other bytes", compare(copy), Ran(0, said, b""))
        append(f"{copy}/{SHIPPED}/{name}", b"x")
        same(f"a damaged {name}, of other sources", compare(copy), Ran(1, lines(f"{name} is not what its manifest says"), b""))
    copy = fresh()
    rewrite(copy, "toolchain-digest", "00")
    same("the same bytes by another toolchain", compare(copy).status, 0)
    for file in (f"{PROGRAM}.by-rattle", "crates/postcopy_c/out/libpostcopy_c.a", "crates/postcopy_c/out/postcopy_c.bc", PAGE):
        copy = fresh()
        os.remove(f"{copy}/{file}")
        ran = compare(copy)
        same(f"nothing was built, no {file}", (ran.status, b"nothing to compare with" in ran.out), (1, True))
    copy = fresh()
    shutil.rmtree(f"{copy}/shipped")
    same("nothing is shipped", compare(copy), Ran(0, lines("nothing is shipped"), b""))


# The library, the package for Python and what is installed.


def tests_of_library(room):
    copy = room.copy()
    out = f"{copy}/crates/postcopy_c/out"
    library = lambda *words, **how: run(f"{copy}/tools/library", *words, path=how.pop("path", room.plain), **how)
    same("the library, before it is taken", library("--where"), Ran(0, f"{copy}/{SHIPPED}\n".encode(), b""))
    same("the library is taken", library(), Ran(0, b"", b""))
    same("what is in out/ then", sorted(os.listdir(out)), sorted(LIBRARIES))
    for name in LIBRARIES:
        same(f"the bytes of {name}", sum_of(f"{out}/{name}"), manifest(copy)[name])
    same("the library, once it is taken", library("--where"), Ran(0, f"{out}\n".encode(), b""))
    same("the library is there", library(), Ran(0, b"", b""))
    python = lambda: run(sys.executable, "-B", "-c", "import postcopy; print(postcopy.version())", path=room.plain, PYTHONPATH=f"{copy}/bindings/python")
    asked = python()
    same("Python, with the library of these sources", (asked.status, asked.err), (0, b""))
    time.sleep(0.02)
    append(f"{copy}/{SOURCE}", b"// x\n")
    same("the library, with a source changed", library("--where"), Ran(1, b"", b""))
    changed = python()
    same("Python, with a source changed", (changed.status, changed.out, b"is not of the sources that are there" in changed.err), (0, asked.out, True))
    same("a build of it is begun", b"a proof of postcopy_c would begin" in library(path=room.with_rt).err, True)
    copy = room.copy()
    same("a build in any case", b"a proof of postcopy_c would begin" in library("--build", path=room.with_rt).err, True)
    same("words that tools/library does not know", library("--built").status, 2)
    for name in LIBRARIES:
        copy = room.copy()
        append(f"{copy}/{SHIPPED}/{name}", b"x")
        same(f"a damaged {name}", library("--where"), Ran(1, b"", b""))


def python_for_nobody():
    """An interpreter that any user may run."""
    for it in (sys.executable, "/usr/bin/python3"):
        with contextlib.suppress(OSError):
            if run(it, "-c", "", path="/usr/bin:/bin", user=NOBODY).status == 0:
                return it
    return None


def tests_of_install(room):
    """An installation and the package for Python, from a checkout that cannot be written, with no toolchain."""
    copy = room.copy()
    told = manifest(copy)
    at = home(room, "prefix")
    script = ["-c", "import postcopy, sys; print(postcopy.check(*sys.argv[1:]))"]
    example = [f"{room.tree}/examples/handover/{it}" for it in ("session", "certificate")]
    with read_only(copy):
        same("an installation", run(f"{copy}/tools/install", f"{at}/usr", path=room.plain, user=NOBODY).status, 0)
        for name, file in zip(NAMES, ("libexec/postcopy/postcopy", "lib/libpostcopy.so", "lib/libpostcopy.a")):
            same(f"the installed {name}", sum_of(f"{at}/usr/{file}"), told[name])
        same("the installed program", check(copy, room, f"{at}/usr/bin/postcopy"), YES)
        same("an installation below DESTDIR", run(f"{copy}/tools/install", "/usr", path=room.plain, user=NOBODY, DESTDIR=f"{at}/root").status, 0)
        same("the program below DESTDIR", sum_of(f"{at}/root/usr/libexec/postcopy/postcopy"), told["postcopy"])
        interpreter = python_for_nobody()
        if interpreter is None:
            leave_out("the package for Python: no user but this one can run Python")
            return
        python = [interpreter, "-B"]
        same("Python", run(*python, *script, *example, path=room.plain, user=NOBODY, PYTHONPATH=f"{copy}/bindings/python"), YES)
        wheel = run(*python, f"{copy}/bindings/python/wheel_of_library.py", at, path=room.plain, user=NOBODY)
        same("a wheel", wheel.status, 0)
        with zipfile.ZipFile(f"{at}/{wheel.out.decode().strip()}") as made:
            same("the library in the wheel", hashlib.sha256(made.read("postcopy/libpostcopy.so")).hexdigest(), told["libpostcopy.so"])
    append(f"{copy}/{SOURCE}", b"// x\n")
    with read_only(copy):
        ran = run(*python, f"{copy}/bindings/python/wheel_of_library.py", at, path=room.plain)
        says("a wheel of other sources", ran, 1, "there is no shared library of these sources")


@pytest.fixture(scope="module")
def copies(program, library):
    """The room for the copies, with what is shipped in them."""
    if os.uname().sysname != "Linux" or os.uname().machine != "x86_64":
        pytest.skip("what is shipped is for Linux on x86-64")
    with tempfile.TemporaryDirectory(prefix="postcopy-tests-") as folder:
        made = Room(folder, program)
        write_shipped(made)
        yield made


PARTS = {it.__name__.removeprefix("tests_of_"): it for it in (
    tests_of_ship, tests_of_digest, tests_of_check, tests_of_page, *shipped_launcher.TESTS, tests_of_comparison, tests_of_library, tests_of_install)}
# How many cases each has at least.
LEAST = {"ship": 29, "digest": 16, "check": 11, "page": 30, "answers": 37, "places": 53, "read_only": 22, "forty": 4, "changes": 23, "builds": 20,
         "plants": 26, "old_times": 12, "limits": 2, "terminal": 3, "damage": 13, "mounts": 4, "git": 13, "comparison": 19, "library": 13, "install": 11}


@pytest.mark.parametrize("part", [pytest.param(part, marks=pytest.mark.cases(LEAST.get(name, 1)), id=name) for name, part in PARTS.items()])
def test_shipped(copies, part):
    part(copies)

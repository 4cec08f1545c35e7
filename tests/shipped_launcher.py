"""Tests of the launcher: where the checkout stands and how it came there, who calls it, and what was changed in it."""
import glob
import hashlib
import os
import pty
import shutil
import subprocess
import sys
import time

from cases import count, leave_out, right, same
from shipped_copies import (COMMANDS, BEGINS, LIBRARIES, NAMES, NOBODY, PROGRAM, SHIPPED, SOURCE, YES, Ran, append, check, crates_below, home, is_put,
                            is_superuser, kept_in, manifest, put_back, read, read_only, rewrite, run, says, sum_of, write)

def tests_of_answers(room):
    """What the program answers in a copy that was just made, by its launcher, with no toolchain."""
    copy = room.copy()
    same("the first answer", check(copy, room), YES)
    count(is_put(copy), "the first call put the program into out/")
    # (the digest of the sources takes xargs)
    quick = room.commands("quick", [it for it in COMMANDS if it != "xargs"])
    same("a later answer, with no digest of the sources taken", check(copy, room, path=quick), YES)
    found = 0
    for folder in sorted(glob.glob(f"{copy}/examples/*/stdout")):
        folder = os.path.dirname(folder)
        words = read(f"{folder}/args").decode().split("\n")[:-1]
        given = read(f"{folder}/stdin") if os.path.exists(f"{folder}/stdin") else b""
        ran = run(f"{copy}/postcopy", *words, path=room.plain, cwd=folder, given=given)
        same(f"the example {os.path.basename(folder)}", (ran.status, ran.out), (int(read(f"{folder}/status")), read(f"{folder}/stdout")))
        found += 1
    count(found > 10, "there are examples")
    missing = run(f"{copy}/postcopy", "check", "/nonexistent", "/nonexistent", path=room.plain)
    same("the status where a file is not there", missing.status, 3)


def tests_of_places(room):
    """Where a checkout stands, and by which name its launcher is called."""
    copy = room.copy()
    same("from the folder above", check(copy, room, f"{os.path.basename(copy)}/postcopy", cwd=room.folder), YES)
    same("from a folder within", check(copy, room, "../../postcopy", cwd=f"{copy}/crates/postcopy"), YES)
    for shell in ("sh", "bash"):
        example = f"{room.tree}/examples/handover"
        same(f"by {shell}", run(shutil.which(shell), "postcopy", "check", f"{example}/session", f"{example}/certificate", path=room.plain, cwd=copy), YES)
    links = f"{room.folder}/links"
    os.makedirs(links)
    os.symlink(f"../{os.path.basename(copy)}/postcopy", f"{links}/first")
    os.symlink("first", f"{links}/second")
    os.symlink(f"{links}/second", f"{links}/postcopy")
    os.symlink(copy, f"{links}/folder")
    for name in ("first", "second", "postcopy", "folder/postcopy"):
        same(f"by the link {name}", check(copy, room, f"{links}/{name}"), YES)
        same(f"by the link {name}, from its folder", check(copy, room, f"./{name}", cwd=links), YES)
    same("by a link that is searched for", check(copy, room, "postcopy", path=f"{links}:{room.plain}"), YES)
    for name in ("with spaces in it", "it's", 'a "quoted" one', "$HOME `uname` *", "back\\slash", "é", "-n", "semi;colon & more"):
        moved, copy = copy, f"{room.folder}/names/{name}"
        os.renames(moved, copy)
        shutil.rmtree(os.path.dirname(f"{copy}/{PROGRAM}"))
        for when in ("first", "second"):
            same(f"the {when} answer below {name}", check(copy, room), YES)
        count(is_put(copy), f"the program is in out/ below {name}")
        same(f"the check below {name}", run(f"{copy}/tools/ship", "--check", path=room.plain).status, 0)
        where = run(f"{copy}/tools/library", "--where", path=room.plain)
        same(f"the library below {name}", where, Ran(0, f"{copy}/{SHIPPED}\n".encode(), b""))


def tests_of_read_only(room):
    """A checkout that cannot be written."""
    copy = room.copy()
    at, cache = home(room, "home"), home(room, "cache")
    told = manifest(copy)["postcopy"]
    no_digest = room.commands("no-digest", [it for it in COMMANDS if it != "xargs"])
    with read_only(copy):
        same("read-only, the first answer", check(copy, room, user=NOBODY, HOME=at), YES)
        kept = f"{at}/.cache/postcopy/{told}/postcopy"
        same("what is kept in the cache", [sum_of(it) for it in kept_in(f"{at}/.cache")], [told])
        same("read-only, later, with no digest of the sources", check(copy, room, user=NOBODY, HOME=at, path=no_digest), YES)
        same("read-only, with a cache folder that is named", check(copy, room, user=NOBODY, HOME=at, XDG_CACHE_HOME=cache), YES)
        same("what is kept in that", [sum_of(it) for it in kept_in(cache)], [told])
        for what, data in (("short", read(kept)[:1000]), ("changed", read(kept)[:-1] + b"x"), ("empty", b"")):
            write(kept, data, 0o755)
            same(f"read-only, with a {what} file in the cache", check(copy, room, user=NOBODY, HOME=at), YES)
            same(f"the cache after a {what} file", sum_of(kept), told)
        same("read-only, with no home", check(copy, room, user=NOBODY), YES)
        same("read-only, with a home that is not there", check(copy, room, user=NOBODY, HOME="/nonexistent"), YES)
        same("read-only, with a cache folder that is no whole path", check(copy, room, user=NOBODY, XDG_CACHE_HOME="cache", cwd=at), YES)
        same("nothing is kept there", os.path.exists(f"{at}/cache"), False)
    same("the checkout is as it was", os.path.exists(os.path.dirname(f"{copy}/{PROGRAM}")), False)

    other = room.copy()
    with read_only(other):
        same("another checkout, of the same cache", check(other, room, user=NOBODY, HOME=at), YES)
    append(f"{other}/{SOURCE}", b"// x\n")
    with read_only(other):
        says("read-only, and a source changed", check(other, room, user=NOBODY, HOME=at), 2, "not those", "install the Rattle toolchain")
        says("the same with a toolchain", check(other, room, user=NOBODY, HOME=at, path=room.with_rt), 2, "cannot be written")
    with read_only(copy):
        same("the first one, meanwhile", check(copy, room, user=NOBODY, HOME=at), YES)
        same("and later, with no digest of the sources", check(copy, room, user=NOBODY, HOME=at, path=no_digest), YES)

    # What one user put into out/ alone, another cannot run.
    if is_superuser():
        copy = room.copy()
        run("sh", "-c", 'umask 077; "$0" --version', f"{copy}/postcopy", path=room.plain)
        same("another user's program", check(copy, room, user=NOBODY, HOME=at), YES)
    else:
        leave_out("another user's program: this takes the superuser")


def tests_of_forty(room):
    """Forty calls at once in a copy that was just made, and in one that cannot be written."""
    def at_once(copy, what, **env):
        example = f"{room.tree}/examples/handover"
        words = [f"{copy}/postcopy", "check", f"{example}/session", f"{example}/certificate"]
        become = (lambda: os.setuid(NOBODY)) if env and is_superuser() else None
        begun = [subprocess.Popen(words, stdin=subprocess.DEVNULL, stdout=subprocess.PIPE, stderr=subprocess.PIPE, preexec_fn=become,
                                  env={"PATH": room.plain, **env}) for _ in range(40)]
        answers = {(*it.communicate(), it.returncode) for it in begun}
        same(f"forty at once{what}", answers, {(b"yes\n", b"", 0)})
    copy = room.copy()
    at_once(copy, "")
    count(is_put(copy), "forty at once left the program alone in out/")
    copy = room.copy()
    at = home(room, "home-of-forty")
    with read_only(copy):
        at_once(copy, ", read-only", HOME=at)
    same("what forty at once left in the cache", [it.split("-")[0] for it in sorted(os.listdir(os.path.dirname(kept_in(f"{at}/.cache")[0])))],
         ["checkout", "postcopy"])


def changes(room, copy):
    """Changes of the sources: what each is, and how it is made."""
    lib = f"{copy}/{SOURCE}"
    proofs = glob.glob(f"{copy}/crates/session_log/proofs/**/*.antt", recursive=True)
    specs = glob.glob(f"{copy}/crates/*/specs/**/*.antt", recursive=True)
    specs = [it for it in specs if it[len(f"{copy}/crates/"):].split("/")[0] in crates_below()]
    yield "a source", lambda: append(lib, b"// x\n")
    yield "a proof", lambda: append(sorted(proofs)[0], b"\n")
    yield "a specification", lambda: append(sorted(specs)[0], b"\n")
    yield "a proof that is gone", lambda: os.remove(sorted(proofs)[-1])
    yield "a source under another name", lambda: os.rename(lib, f"{os.path.dirname(lib)}/other.rt")
    yield "a source that came", lambda: write(f"{os.path.dirname(lib)}/more.rt", b"")
    yield "another crates.txt", lambda: append(f"{copy}/crates.txt", b"# x\n")
    yield "another HANDLES", lambda: append(f"{copy}/HANDLES", b"\n")
    yield "a HANDLES that is gone", lambda: os.remove(f"{copy}/HANDLES")
    yield "a crate that is gone", lambda: os.rename(f"{copy}/crates/session_log", f"{room.folder}/gone")


def tests_of_changes(room):
    """A source is changed, with no toolchain, and changed back."""
    copy = room.copy()
    same("before any change", check(copy, room), YES)
    for what, change in changes(room, copy):
        time.sleep(0.02)
        change()
        says(f"{what}, changed", check(copy, room), 2, "the sources here are not those", "install the Rattle toolchain (kit-of-tests)")
        put_back(room, copy)
        same(f"{what}, changed back", check(copy, room), YES)
    time.sleep(0.02)
    append(f"{copy}/crates/plain_audit/src/lib.rt", b"// x\n")
    append(f"{copy}/README.md", b"x\n")
    same("a crate of tests and a page, changed", check(copy, room), YES)
    os.utime(f"{copy}/{SOURCE}")
    same("a source that is only newer", check(copy, room), YES)


def tests_of_builds(room):
    """A source is changed where there is a toolchain: the program is built, and how long that took is told next time."""
    copy = room.copy()
    ask = lambda **how: check(copy, room, path=room.with_rt, **how)
    build = lambda minutes: f"proving and building the program here; last time that took {minutes} min\n{BEGINS}"
    same("a toolchain, and no change", ask(), YES)
    append(f"{copy}/{SOURCE}", b"// x\n")
    ran = ask()
    same("a build", (ran.status, ran.out, ran.err.decode().endswith(build(33))), (0, b"built here\n", True))
    same("after the build", ask(), Ran(0, b"built here\n", b""))
    time.sleep(0.02)
    append(f"{copy}/{SOURCE}", b"// y\n")
    ran = ask()
    same("a second build", (ran.status, ran.out, ran.err.decode().endswith(build(1))), (0, b"built here\n", True))
    shutil.rmtree(os.path.dirname(f"{copy}/{PROGRAM}"))
    count(ask().err.decode().endswith(build(1)), "how long it took is told also when out/ was cleared")
    time.sleep(0.02)
    append(f"{copy}/{SOURCE}", b"// z\n")
    write(f"{copy}/tools/fails", b"")
    says("a build that fails", ask(), 2, BEGINS, "the build failed")
    put_back(room, copy)
    same("the sources changed back after builds", ask(), YES)
    count(is_put(copy), "the shipped program is back in out/")

    copy = room.copy()
    shutil.rmtree(f"{copy}/shipped")
    says("nothing shipped, no toolchain", check(copy, room), 2, "no built program is shipped here", "install the Rattle toolchain, whose")
    ran = ask()
    same("nothing shipped, a toolchain", (ran.status, ran.out), (0, b"built here\n"))
    count(ran.err.decode().endswith(f"proving and building the program here\n{BEGINS}"), "a first build says that it begins")

    for kernel, machine in (("Linux", "aarch64"), ("Darwin", "arm64"), ("FreeBSD", "x86_64")):
        copy = room.copy()
        stand_in = f"{room.folder}/{machine}-{kernel}"
        write(f"{stand_in}/uname", f'#!/bin/sh\n[ "$1" = -m ] && echo {machine} || echo {kernel}\n', 0o755)
        says(f"{kernel} on {machine}, no toolchain", check(copy, room, path=f"{stand_in}:{room.plain}"), 2, f"this is {kernel} on {machine}")
        ran = check(copy, room, path=f"{stand_in}:{room.with_rt}")
        same(f"{kernel} on {machine}, a toolchain", (ran.status, ran.out), (0, b"built here\n"))
        same(f"the library for {kernel} on {machine}", run(f"{copy}/tools/library", "--where", path=f"{stand_in}:{room.plain}").status, 1)


PLANT = b"#!/bin/sh\necho planted\n"
NOT_RUN = b"postcopy: crates/postcopy/out/postcopy is not the program of these sources, and is not run: the shipped one is\n"


def plant(copy):
    """Puts another program into out/, newer than all sources."""
    write(f"{copy}/{PROGRAM}", PLANT, 0o755)
    later = time.time() + 60
    os.utime(f"{copy}/{PROGRAM}", (later, later))


def tests_of_plants(room):
    """Another program stands in out/, where that of the sources would."""
    copy = room.copy()
    for when in ("before the first call", "later"):
        plant(copy)
        same(f"a program that was put into out/ {when}", check(copy, room), YES._replace(err=NOT_RUN))
        count(is_put(copy), f"the shipped program is in its place, {when}")
        same(f"the next answer, {when}", check(copy, room), YES)
    plant(copy)
    at = home(room, "home-of-plants")
    with read_only(copy):
        same("one in a checkout that cannot be written", check(copy, room, user=NOBODY, HOME=at), YES._replace(err=NOT_RUN))
    other = f"{room.folder}/other-kit"
    shutil.copytree(f"{room.folder}/kit", other)
    append(f"{other}/WHAT", b"archive 2\n")
    same("one that another toolchain may have built", check(copy, room, path=f"{other}:{room.plain}", HOME=at), YES._replace(err=NOT_RUN))
    same("it stays", read(f"{copy}/{PROGRAM}"), PLANT)

    # where it is not the shipped program that is run, the digest of what was built here is kept beside it
    append(f"{copy}/{SOURCE}", b"// x\n")
    os.remove(f"{copy}/{PROGRAM}")
    same("a build", check(copy, room, path=room.with_rt).out, b"built here\n")
    same("what was built", check(copy, room, path=room.with_rt), Ran(0, b"built here\n", b""))
    plant(copy)
    says("another program in its place", check(copy, room), 2, "install the Rattle toolchain")
    same("it is built again", check(copy, room, path=room.with_rt).out, b"built here\n")

    copy = room.copy()
    told = manifest(copy)
    plant(copy)
    for name in LIBRARIES:
        write(f"{copy}/crates/postcopy_c/out/{name}", PLANT)
    for path in (room.plain, f"{other}:{room.plain}"):
        where = run(f"{copy}/tools/library", "--where", path=path)
        same("the library where others are in out/", where, Ran(0, f"{copy}/{SHIPPED}\n".encode(), b""))
        prefix = f"{room.folder}/prefix-{len(path)}"
        same("an installation where others are in out/", run(f"{copy}/tools/install", prefix, path=path).status, 0)
        for name, file in zip(NAMES, ("libexec/postcopy/postcopy", "lib/libpostcopy.so", "lib/libpostcopy.a")):
            same(f"what is installed of {name}", sum_of(f"{prefix}/{file}"), told[name])
    script = "import postcopy, sys; print(postcopy.check(*sys.argv[1:]))"
    example = [f"{room.tree}/examples/handover/{it}" for it in ("session", "certificate")]
    same("Python, where others are in out/", run(sys.executable, "-B", "-c", script, *example, path=room.plain, PYTHONPATH=f"{copy}/bindings/python"), YES)
    same("the library is put in place", run(f"{copy}/tools/library", path=room.plain), Ran(0, b"", b""))
    same("its bytes", [sum_of(f"{copy}/crates/postcopy_c/out/{it}") for it in LIBRARIES], [told[it] for it in LIBRARIES])


def edit_in_place(file):
    """Changes a file, and gives it the time that it had."""
    held = os.stat(file)
    append(file, b"// x\n")
    os.utime(file, ns=(held.st_atime_ns, held.st_mtime_ns))


def tests_of_old_times(room):
    """A source is changed, and has an older time than the program all the same."""
    copy = room.copy()
    same("before the change", check(copy, room), YES)
    time.sleep(0.02)
    edit_in_place(f"{copy}/{SOURCE}")
    says("a source that was changed, with its old time", check(copy, room), 2, "the sources here are not those")
    same("the library of it", run(f"{copy}/tools/library", "--where", path=room.plain), Ran(1, b"", b""))
    same("a build of it", check(copy, room, path=room.with_rt).out, b"built here\n")
    same("what was built", check(copy, room), Ran(0, b"built here\n", b""))
    edit_in_place(f"{copy}/{SOURCE}")
    says("the same of a program that was built here", check(copy, room), 2, "the sources here are not those")

    at = home(room, "home-of-old-times")
    copy = room.copy()
    with read_only(copy):
        same("a checkout that cannot be written", check(copy, room, user=NOBODY, HOME=at), YES)
    time.sleep(0.02)
    edit_in_place(f"{copy}/{SOURCE}")
    with read_only(copy):
        says("a source changed there, with its old time", check(copy, room, user=NOBODY, HOME=at), 2, "the sources here are not those")

    copy = room.copy()
    same("the first answer", check(copy, room), YES)
    moved = room.copy(of=copy)
    same("a copy with what is in out/, whose sources the system wrote later", check(moved, room), YES)
    count(is_put(moved), "the program is there")
    same("later, with no digest of the sources", check(moved, room, path=room.commands("plain-of-copy", [it for it in COMMANDS if it != "xargs"])), YES)


def tests_of_limits(room):
    """A limit of a file's size: a write that fails, and no signal that ends the program."""
    copy = room.copy()
    words = [f"{copy}/postcopy", "certify", f"{copy}/examples/qemu-live/session"]
    for when in ("first", "second"):
        same(f"a file that may not grow, the {when} time", run("sh", "-c", 'ulimit -f 1; exec "$@" > "$0"', f"{room.folder}/limited", *words, path=room.plain),
             Ran(3, b"", b"output\nstandard output: the file would be too large\n"))


def at_terminal(*words, **how):
    """The status and the standard error of a command whose standard input is a terminal, at which nothing is typed."""
    ours, theirs = pty.openpty()
    try:
        ran = subprocess.run(words, stdin=theirs, stdout=subprocess.PIPE, stderr=subprocess.PIPE, timeout=60, **how)
    finally:
        os.close(ours)
        os.close(theirs)
    return ran.returncode, ran.stderr.decode()


def wrong_alone(command, **how):
    """What is wrong with a command that starts the program, without words at a terminal, where it has to say how it is used and to wait for nothing."""
    usage = subprocess.run([command, "--help"], stdin=subprocess.DEVNULL, stdout=subprocess.PIPE, check=True, **how).stdout.decode()
    found = at_terminal(command, **how)
    return None if usage and found == (2, usage) else f"without words at a terminal: {found}"


def tests_of_terminal(room):
    """The launcher without words at a terminal says how it is used. Else its input is judged, and with words it says nothing."""
    copy = room.copy()
    how = {"env": {"PATH": room.plain, "HOME": home(room, "home-at-terminal")}}
    right(wrong_alone(f"{copy}/postcopy", **how))
    same("with words", at_terminal(f"{copy}/postcopy", "audit", f"{copy}/examples/handover/session", **how), (0, ""))
    given = read(f"{copy}/examples/handover/session") + read(f"{copy}/examples/handover/certificate")
    same("without a terminal", run(f"{copy}/postcopy", path=room.plain, given=given), YES)


def tests_of_damage(room):
    """A shipped program that is not what the manifest says, or that does not run."""
    copy = room.copy()
    file = f"{copy}/{SHIPPED}/postcopy"
    whole = read(file)
    for what, data in (("short", whole[:1000]), ("changed", whole[:-1] + bytes([whole[-1] ^ 1])), ("empty", b""), ("longer", whole + b"x")):
        write(file, data, 0o755)
        says(f"a {what} program", check(copy, room), 2, "is damaged, and is not run", "git checkout shipped")
        ran = check(copy, room, path=room.with_rt)
        same(f"a {what} program, with a toolchain", (ran.status, ran.out), (0, b"built here\n"))
        shutil.rmtree(os.path.dirname(f"{copy}/{PROGRAM}"))
    os.remove(file)
    says("no program", check(copy, room), 2, "is damaged, and is not run")
    write(file, whole, 0o755)
    same("the program is back", check(copy, room), YES)

    copy = room.copy()
    old = b"#!/bin/sh\necho version GLIBC_2.99 not found >&2\nexit 1\n"
    write(f"{copy}/{SHIPPED}/postcopy", old, 0o755)
    rewrite(copy, "postcopy", hashlib.sha256(old).hexdigest())
    at = home(room, "home-of-old")
    for path in (room.plain, room.with_rt):
        says("a program that does not run here", check(copy, room, path=path, HOME=at), 2, "does not run on this machine",
             f"glibc {manifest(copy)['glibc']} or newer", "It said: version GLIBC_2.99 not found")
    same("it is not kept", (os.listdir(os.path.dirname(f"{copy}/{PROGRAM}")), kept_in(at)), ([], []))


def tests_of_mounts(room):
    """A folder that no program may be run from, and a processor that is too old: in a space of mounts of their own."""
    def in_space(script, *words):
        return run(shutil.which("unshare") or "unshare", "-m", "sh", "-c", script, "sh", *words, path=os.environ["PATH"])
    try:
        can = is_superuser() and in_space('mount -t tmpfs tmpfs "$1"', home(room, "try")).status == 0
    except OSError:
        can = False
    if not can:
        leave_out("a folder that no program may be run from, and an old processor: these take a mount")
        return
    at = home(room, "mounted")
    example = f"{room.tree}/examples/handover"
    mounted = 'mount -t tmpfs -o noexec,size=200m tmpfs "$1" && cp -a "$2/." "$1" && shift 2 && exec "$@"'
    words = ["sh", f"{at}/postcopy", "check", f"{example}/session", f"{example}/certificate"]
    same("a folder with no right to run", in_space(mounted, at, room.tree, "env", f"HOME={home(room, 'home-of-mount')}", *words), YES)
    says("the same, with no home", in_space(mounted, at, room.tree, "env", "-u", "HOME", *words), 2, "a folder that programs may be run from")
    copy = room.copy()
    write(f"{room.folder}/cpuinfo", "processor\t: 0\nflags\t\t: fpu sse sse2 cx16 lahf_lm pni ssse3 sse4_1 sse4_2\n")
    told = 'mount --bind "$1" /proc/cpuinfo && shift && exec "$@"'
    says("a processor that is too old", in_space(told, f"{room.folder}/cpuinfo", f"{copy}/postcopy", "--version"), 2, "x86-64-v2")
    write(f"{room.folder}/cpuinfo", "processor\t: 0\nflags\t\t: fpu sse sse2 cx16 lahf_lm pni popcnt ssse3 sse4_1 sse4_2\n")
    same("a processor that is just new enough", in_space(told, f"{room.folder}/cpuinfo", f"{copy}/postcopy", "--version").status, 0)


def tests_of_git(room):
    """A clone by a git that converts line endings, and an archive of it with no git."""
    if not shutil.which("git"):
        leave_out("clones: there is no git")
        return
    at = home(room, "git")
    source = room.copy()
    git = lambda *words: run(shutil.which("git"), *words, path=os.environ["PATH"], cwd=source, HOME=at, GIT_CONFIG_NOSYSTEM="1")
    git("init", "-q")
    git("add", "-A")
    git("-c", "user.name=x", "-c", "user.email=x@x", "commit", "-q", "-m", "x")
    for ending in ("true", "input", "false"):
        clone = f"{room.folder}/clone-{ending}"
        same(f"a clone with autocrlf {ending}", git("-c", f"core.autocrlf={ending}", "clone", "-q", source, clone).status, 0)
        same(f"the check of it, autocrlf {ending}", run(f"{clone}/tools/ship", "--check", path=room.plain).status, 0)
        same(f"the answer of it, autocrlf {ending}", check(clone, room), YES)
        status = run(shutil.which("git"), "status", "--short", path=os.environ["PATH"], cwd=clone, HOME=at).out
        same(f"what git sees of the program in out/, autocrlf {ending}", status, b"")
    archive, unpacked = f"{room.folder}/archive.tar", f"{room.folder}/unpacked"
    git("archive", "-o", archive, "HEAD")
    shutil.unpack_archive(archive, unpacked)
    same("an archive with no git", check(unpacked, room), YES)


TESTS = (tests_of_answers, tests_of_places, tests_of_read_only, tests_of_forty, tests_of_changes, tests_of_builds, tests_of_plants,
         tests_of_old_times, tests_of_limits, tests_of_terminal, tests_of_damage, tests_of_mounts, tests_of_git)

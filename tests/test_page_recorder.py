"""The recorder by page contents: what both observers record, how each failure shows, and migrations between two QEMUs.

Most cases are of a process, recorders/tests/guarded.c, that has blocks of memory and guards them as a target's QEMU does. The hash is
computed here once more, by its definition. The migrations are left out where QEMU is not there and may not be installed.
"""
import collections
import contextlib
import json
import os
import re
import shutil
import signal
import subprocess
import sys
import tempfile
import threading
import time
import types

import pytest
from cases import same

TOP = os.path.dirname(os.path.dirname(os.path.abspath(__file__)))
sys.path[:0] = [f"{TOP}/recorders/pages", f"{TOP}/recorders/qemu", f"{TOP}/recorders"]
import axes
import build
import page_campaign
import page_migration
import page_source
import page_target
import page_tls
import page_verdict
from needed import can_have

COMMAND = f"{TOP}/recorders/qemu/pages"
PAGES = 640
KEY = "00010203040506070809" + "0a0b0c0d0e0f"
LEFT = 100  # pages of the first block that are there when it is guarded, and 20 of the 40 of the second
MASK = (1 << 64) - 1
PRIME = (1 << 61) - 1


def missing():
    """What this machine lacks, or None."""
    try:
        build.require_tools()
    except build.Missing as fault:
        return str(fault)
    return None


@pytest.fixture(scope="module")
def guarded(tmp_path_factory):
    if why := missing():
        pytest.skip(why)
    path = f"{tmp_path_factory.mktemp('guarded')}/guarded"
    subprocess.run(["gcc", "-O2", "-Wall", "-Wextra", "-Werror", "-o", path, f"{TOP}/recorders/tests/guarded.c"], check=True)
    return path


@pytest.fixture
def sides(guarded, tmp_path, program, monkeypatch):
    monkeypatch.setenv("POSTCOPY", program)
    return Sides(guarded, tmp_path)


class Sides:
    """The two sides of a migration of the process."""

    def __init__(self, guarded, room):
        self.guarded, self.room = guarded, room
        self.target, self.source = f"{room}/target", f"{room}/source"
        self.told = []  # by the observer

    def after_halt(self, word, do=lambda: None):
        """Yields the word of a halt, and another one when the memory was hashed, and `do` was done."""
        yield "halt"
        while not any(line.startswith("hashed") for line in self.told):
            time.sleep(0.01)
        do()
        yield word

    def run_target(self, *words, key=KEY, is_tracking=False, **how):
        environment = {**os.environ, **page_target.prepare(self.target, key, is_tracking)}
        return subprocess.run([self.guarded, "target", str(LEFT), *words], env=environment, capture_output=True, text=True, timeout=60, **how)

    def start_source(self, *words):
        process = subprocess.Popen([self.guarded, "source", *words], stdin=subprocess.PIPE, stdout=subprocess.PIPE, text=True)
        process.stdout.readline()
        return process

    def run_source(self, words=("end",), key=KEY, do=lambda process: None, of=()):
        """Records the source, to which `do` happens before the words come. Returns what the observer told."""
        told, process = self.told, self.start_source(*of)
        try:
            observer = page_source.Observer(self.source, key, process.pid)
            do(process)
            observer.watch(words, told.append)
        finally:
            process.kill()
            process.wait()
        return told

    def run_stopped(self, do=lambda process: None):
        """Records a process that has all pages as the target of a pre-copy. Returns what the observer told."""
        process = self.start_source()
        try:
            do(process)
            done = run("target", self.target, "--key", self.put_key(), "--pid", str(process.pid))
        finally:
            process.kill()
            process.wait()
        return done

    def put_key(self):
        page_target.write(f"{self.room}/key", KEY)
        return f"{self.room}/key"

    def judged(self):
        return page_verdict.judged(self.target, self.source)


def siphash(key, number):
    """SipHash-2-4 of a number of 64 bits, after its authors' description."""
    k0, k1 = (int.from_bytes(key[at:at + 8], "little") for at in (0, 8))
    v = [k0 ^ 0x736f6d6570736575, k1 ^ 0x646f72616e646f6d, k0 ^ 0x6c7967656e657261, k1 ^ 0x7465646279746573]

    def turned(word, by):
        return (word << by | word >> (64 - by)) & MASK

    def rounds(count):
        for _ in range(count):
            v[0], v[2] = (v[0] + v[1]) & MASK, (v[2] + v[3]) & MASK
            v[1], v[3] = turned(v[1], 13) ^ v[0], turned(v[3], 16) ^ v[2]
            v[0] = turned(v[0], 32)
            v[2], v[0] = (v[2] + v[1]) & MASK, (v[0] + v[3]) & MASK
            v[1], v[3] = turned(v[1], 17) ^ v[2], turned(v[3], 21) ^ v[0]
            v[2] = turned(v[2], 32)

    for word in (number, 8 << 56):
        v[3] ^= word
        rounds(2)
        v[0] ^= word
    v[2] ^= 0xff
    rounds(4)
    return v[0] ^ v[1] ^ v[2] ^ v[3]


def hash_of(keys, words):
    """The hash of a page: NH of its words, and a multilinear function of the parts of that, modulo 2^61 - 1."""
    if not any(words):
        return 0
    total = sum(((words[at] + keys[at]) & MASK) * ((words[at + 1] + keys[at + 1]) & MASK) for at in range(0, 512, 2)) % (1 << 128)
    return sum((total >> 43 * part & (1 << 43) - 1) * keys[512 + part] for part in range(3)) % PRIME or 1


def words_of(page):
    return [0] * 512 if page % 4 == 3 else [page * 1000003 + word + 1 for word in range(512)]


def test_hash(sides):
    """The first of SipHash's published values for eight bytes, and the hash of each page as the source records it."""
    key = bytes(range(16))
    same("SipHash-2-4", siphash(key, int.from_bytes(bytes(range(8)), "little")), 0x93f5f5799a932462)
    sides.run_source()
    text = "".join(open(f"{sides.source}/{name}", encoding="ascii").read() for name in os.listdir(sides.source) if name.startswith("machine."))
    found = {int(page): int(contents, 16) for page, contents in re.findall(r"^\d+ page (\d+) (\w+)$", text, re.MULTILINE)}
    # A key is two numbers of 16 digits here, and the authors' is little-endian.
    own = bytes.fromhex(KEY)[7::-1] + bytes.fromhex(KEY)[:7:-1]
    keys = [siphash(own, at) for at in range(515)]
    same("hashes", found, {page: hash_of(keys, words_of(page)) for page in range(PAGES) if page % 4 != 3})


def test_clean(sides):
    done = sides.run_target()
    sides.run_source()
    verdict = sides.judged()
    same("the process", (done.returncode, done.stdout), (0, "absent\n"))
    same("verdict", (verdict.word, verdict.is_whole, verdict.told, verdict.pages, verdict.unwritten), ("clean", True, [], PAGES, -1))


def test_older_machines(cc, tmp_path):
    """The library asks for no version of the C library that is newer than 2.28."""
    page_target.prepare(f"{tmp_path}/target", KEY, False)
    with open(f"{tmp_path}/target/{page_target.LIBRARY}", "rb") as file:
        versions = {tuple(map(int, it.split(b"."))) for it in re.findall(rb"GLIBC_([0-9.]+)", file.read())}
    same("the newest version", [it for it in versions if it > (2, 28)], [])
    same("the oldest of x86-64", (2, 2, 5) in versions, True)


@pytest.mark.parametrize("page, place", [(200, "block 0 + 0xc8000"), (598, "block 0 + 0x256000"), (630, "/memfd:block + 0x1e000")])
def test_told(sides, page, place):
    """A page that is put in place with other contents than it had at the source: it is told, and no other."""
    sides.run_target(f"flip={page}")
    sides.run_source()
    verdict = sides.judged()
    same("verdict", (verdict.word, verdict.told), ("faulty", [f"page {page}, {place}: altered"]))


def test_left_is_hashed(sides):
    """What was left is compared, too: a source that has other contents there."""
    sides.run_target()
    sides.run_source(do=lambda process: poke(process, 7))
    same("told", sides.judged().told, ["page 7, block 0 + 0x7000: altered"])


def poke(process, page):
    """Changes a byte of the first block of a process."""
    with open(f"/proc/{process.pid}/smaps", encoding="ascii") as maps:
        text = maps.read()
    start = next(int(match[1], 16) for match in re.finditer(r"^([0-9a-f]+)-([0-9a-f]+) rw-p", text, re.MULTILINE)
                 if int(match[2], 16) - int(match[1], 16) == 600 * 4096)
    with open(f"/proc/{process.pid}/mem", "r+b", buffering=0) as memory:
        memory.seek(start + page * 4096)
        byte = memory.read(1)
        memory.seek(start + page * 4096)
        memory.write(bytes([byte[0] ^ 1]))


def test_twice(sides):
    """A page that comes twice: the second is refused, and nothing is wrong."""
    sides.run_target("twice=201")
    sides.run_source()
    same("verdict", sides.judged().word, "clean")
    same("skipped", sum(len(re.findall(r" skip \d+$", open(f"{sides.target}/{name}").read(), re.MULTILINE))
                        for name in os.listdir(sides.target) if name.startswith("pager.")), 1)


def test_refused(sides):
    """A page that comes twice, where post-copy breaks off by it: it is told."""
    sides.run_target("twice=201", "die=402")
    sides.run_source()
    verdict = sides.judged()
    same("verdict", (verdict.is_clean, verdict.refused, verdict.told[-1]),
         (False, ("block 0 + 0xc9000",), "page 201, block 0 + 0xc9000: it came when it was there already, and was refused"))


def test_shown(sides):
    """Shared memory that is shown by UFFDIO_CONTINUE, and a fault in it."""
    done = sides.run_target("show", "flip=637")
    if done.returncode == 3:
        pytest.skip(done.stderr)
    sides.run_source()
    same("told", sides.judged().told, ["page 637, /memfd:block + 0x25000: altered"])


def test_tracked(sides):
    """Of the pages that are there or were put in place, all but the one that was written to are looked at in the end."""
    done = sides.run_target("write=300", is_tracking=True)
    if "tracks no writes" in done.stderr:
        pytest.skip("this kernel tracks no writes")
    sides.run_source()
    verdict = sides.judged()
    text = subprocess.run([os.environ["POSTCOPY"], "session", sides.target, sides.source], capture_output=True, text=True).stdout
    looked_at = {int(line.split()[2]) for line in text.splitlines() if line.startswith("r ")}
    same("verdict", (verdict.word, verdict.unwritten), ("clean", len(looked_at)))
    zeros = {page for page in range(LEFT, 600) if page % 4 == 3}  # which the kernel cannot protect
    same("looked at", set(range(600)) - zeros - {300} - looked_at, set())
    same("not looked at", looked_at & (zeros | {300}), set())


def test_fault_in_tracked(sides):
    """A page with a fault to which nobody wrote: what is told first is that it held something else in the end."""
    if "tracks no writes" in sides.run_target("flip=200", is_tracking=True).stderr:
        pytest.skip("this kernel tracks no writes")
    sides.run_source()
    same("told", sides.judged().told, ["page 200, block 0 + 0xc8000: read"])


def test_precopy(sides):
    """Pre-copy alone: the stopped target is hashed as the source is."""
    sides.run_source()
    done = sides.run_stopped()
    same("told", (re.findall("^[a-z]+", done.stdout, re.MULTILINE), done.returncode), (["hashed", "recorded"], 0))
    verdict = sides.judged()
    same("verdict", (verdict.word, verdict.is_whole, verdict.told, verdict.pages), ("clean", True, [], PAGES))


def test_precopy_with_a_fault(sides):
    sides.run_source()
    sides.run_stopped(lambda process: poke(process, 7))
    same("told", sides.judged().told, ["page 7, block 0 + 0x7000: altered"])


def test_precopy_to_a_target_that_runs():
    with pytest.raises(page_source.Lost, match="not stopped"):
        page_source.require_stopped(False)
    page_source.require_stopped(True)


# What goes wrong

def test_page_that_never_came(sides):
    """It is never read: it stays absent, and nobody waits. No answer is clean."""
    done = sides.run_target("drop=402")
    sides.run_source()
    verdict = sides.judged()
    same("absent", done.stdout, "402 absent\n")
    same("verdict", (verdict.word, verdict.is_whole, verdict.is_clean, verdict.told[-1]),
         ("incomplete page 402", False, False, "page 402, block 0 + 0x192000: it never came"))
    whole = subprocess.run([os.environ["POSTCOPY"], "session", sides.target, sides.source], capture_output=True, text=True)
    same("without completeness", (whole.returncode, "has no end" in whole.stderr), (1, True))


NOTHING = ", where the source had nothing"


@pytest.mark.parametrize("page, words, nothing", [(402, ["give=402"], NOTHING), (403, [], "")], ids=["nothing", "zeros"])
def test_nothing_that_never_came(sides, page, words, nothing):
    """A page that comes for nobody, as one that is unplugged. That the source had nothing there is told, and makes nothing clean; of zeros it is not told."""
    sides.run_target(f"drop={page}")
    sides.run_source(of=words)
    verdict = sides.judged()
    same("verdict", (verdict.word, verdict.is_clean, verdict.told[-1]), (f"incomplete page {page}", False, f"page {page}, block 0 + {page * 4096:#x}: it never came{nothing}"))


def test_all_that_never_came(sides):
    """What was left is there, and each of the others behind the last page that was put in place is told, with how many there are."""
    sides.run_target("last=501")
    sides.run_source(of=["give=599"])
    verdict = sides.judged()
    same("places", (verdict.word, len(verdict.places), verdict.told[-11:]), ("incomplete page 502", 118, [
        *(f"page {page}, block 0 + {page * 4096:#x}: it never came" for page in range(502, 512)), "and 108 more pages. Of all 118, the source had nothing in 1: never used, given back, or unplugged"]))


def test_given_back(sides):
    """A page that the guest gave back once pre-copy had sent it: the target kept what was sent."""
    sides.run_target()
    sides.run_source(of=["give=6"])
    verdict = sides.judged()
    same("verdict", (verdict.word, verdict.is_clean, verdict.told), ("faulty", False, [f"page 6, block 0 + 0x6000: altered{NOTHING}"]))


def test_target_that_dies(sides):
    same("the process", sides.run_target("die=402").returncode, -signal.SIGKILL)
    sides.run_source()
    verdict = sides.judged()
    same("verdict", (verdict.is_whole, verdict.is_clean, verdict.word), (False, False, "incomplete resume"))


@pytest.mark.parametrize("side, party", [("source", "source"), ("source", "machine"), ("target", "pager"), ("target", "guest")])
def test_log_without_its_end(sides, side, party):
    """Nothing else is missing, and what is there is right: all the same the answer is not that of a whole recording."""
    sides.run_target()
    sides.run_source()
    folder = getattr(sides, side)
    names = [f"{folder}/{name}" for name in os.listdir(folder) if re.fullmatch(f"{party}[.][0-9]+[.][0-9]+", name)]
    found = [name for name in names if re.search("^end ", open(name, encoding="ascii").read(), re.MULTILINE)]
    same("files with an end", len(found), 1)
    with open(found[0], encoding="ascii") as file:
        text = file.read()
    page_target.write(found[0], re.sub("^end .*\n", "", text, flags=re.MULTILINE))
    verdict = sides.judged()
    same("verdict", (verdict.word, verdict.is_whole, verdict.is_clean, "has no end" in verdict.told[0]), ("clean", False, False, True))


@pytest.mark.parametrize("library", [None, "{}.none"], ids=["not named", "wrong path"])
def test_library_is_not_loaded(sides, library):
    variables = page_target.prepare(sides.target, KEY, False)
    path = variables.pop("LD_PRELOAD")
    preloaded = {"LD_PRELOAD": library.format(path)} if library else {}
    done = subprocess.run([sides.guarded, "target", "0"], env={**os.environ, **variables, **preloaded}, capture_output=True, text=True)
    same("the process", (done.returncode, "cannot be preloaded" in done.stderr), (0, bool(library)))
    sides.run_source()
    with pytest.raises(build.Missing, match="nothing was recorded at the target"):
        sides.judged()
    same("waited for", page_target.wait_for_process(sides.target, 0.1), None)


def test_secure_execution(sides):
    """A program with more rights than its user: the loader drops the path of the library, and says nothing."""
    if os.geteuid() != 0 or os.statvfs("/var/tmp").f_flag & os.ST_NOSUID:
        pytest.skip("no program can be given more rights than its user here")
    with tempfile.TemporaryDirectory(dir="/var/tmp") as room:
        os.chmod(room, 0o755)
        shutil.copy(sides.guarded, f"{room}/guarded")
        os.chmod(f"{room}/guarded", 0o4755)
        folder = f"{room}/target"
        done = subprocess.run([f"{room}/guarded", "target", "100"], env={**os.environ, **page_target.prepare(folder, KEY, False)}, user=65534, capture_output=True, text=True)
        same("the process", (done.returncode, done.stderr), (0, ""))
        same("waited for", run("wait", folder, "--seconds", "0.1").returncode, 1)
        sides.run_source()
        with pytest.raises(build.Missing, match="nothing was recorded at the target"):
            page_verdict.judged(folder, sides.source)


def test_no_switch(sides):
    """The library is there, and the migration ends in pre-copy: the process has tried userfaultfd, and guards nothing."""
    done = sides.run_target("precopy")
    same("the process", (done.returncode, "is not recorded" in done.stderr), (0, False))
    sides.run_source()
    with pytest.raises(build.Missing, match="nothing was recorded at the target: .* there was no post-copy"):
        sides.judged()


def test_userfaultfd_is_for_root(tmp_path):
    """What the emulator's user lacks is told before anybody migrates: userfaultfd, the way to the folder, and room."""
    with open("/proc/sys/vm/unprivileged_userfaultfd", encoding="ascii") as file:
        is_for_root = file.read() == "0\n"
    os.makedirs(f"{tmp_path}/closed/target")
    os.chmod(f"{tmp_path}/closed", 0o700)
    user = collections.namedtuple("User", "pw_name pw_uid")("emulator", os.geteuid() + 1000)
    found = list(page_target.obstacles(f"{tmp_path}/closed/target", 1 << 60, user))
    same("userfaultfd", sum("sysctl vm.unprivileged_userfaultfd=1" in line for line in found), is_for_root)
    same("room", sum(" MiB are needed" in line for line in found), 1)
    same("the way", sum(f"emulator cannot go through {tmp_path}/closed to" in line for line in found), 1)


APPARMOR = "/usr/** r,", "  owner /var/{{lib,tmp}}/{0}/* rw,", "  /var/*/{0}/*.so m,", "  @{{PROC}}/@{{pid}}/smaps r,", "  owner @{{PROC}}/*/pagemap r,"


@pytest.mark.parametrize("is_on, rules, lacks", [
    ("N", [], []), ("Y", [0], ["{}/** rwm", "smaps,pagemap"]), ("Y", [0, 1], ["{}/** rwm", "smaps,pagemap"]), ("Y", [1, 2], ["smaps,pagemap"]), ("Y", [0, 1, 2, 3, 4], []), ("Y", [3, 4], ["{}/** rwm"]),
    (None, [], []),
], ids=str)
def test_apparmor(tmp_path, is_on, rules, lacks):
    """What no rule for emulators allows is told, with the line that would."""
    os.makedirs(f"{tmp_path}/sys/module/apparmor/parameters")
    os.makedirs(f"{tmp_path}/etc/apparmor.d/local/abstractions")
    if is_on:
        page_target.write(f"{tmp_path}/sys/module/apparmor/parameters/enabled", f"{is_on}\n")
    page_target.write(f"{tmp_path}{page_target.RULES[1]}", "".join(f"{APPARMOR[rule].format('target')}\n" for rule in rules))
    found = list(page_target.remarks("/var/tmp/target", tmp_path))
    same("told", (len(found), [lack for lack in ("{}/** rwm", "smaps,pagemap") if lack.format("/var/tmp/target") in "".join(found)]), (bool(lacks), lacks))


def test_block_that_is_added(sides):
    """A block that comes once others are guarded: nothing is recorded, and the process goes on."""
    done = sides.run_target("plug")
    same("the process", (done.returncode, "a block was added" in done.stderr, "is not recorded" in done.stderr), (0, True, True))
    sides.run_source()
    with pytest.raises(build.Missing, match="nothing was recorded at the target"):
        sides.judged()


def test_process_of_another_guest(sides):
    sides.run_target()
    sides.run_source(of=["plug"])
    with pytest.raises(build.Missing, match="different blocks of memory, of so many pages: target 600 40; source 600 40 8"):
        sides.judged()


@pytest.mark.parametrize("twin, word, count", [("twin", "clean", 0), ("twin=1", "faulty", 60)])
def test_equal_blocks(sides, twin, word, count):
    """Two blocks of one length; and such blocks that were made in another order at the source, as hot-plug may: all of their pages but zeros are told."""
    sides.run_target("twin")
    sides.run_source(of=[twin])
    verdict = sides.judged()
    same("verdict", (verdict.word, len(verdict.places), {place.split(" + ")[0] for place in verdict.places}), (word, count, {"block 1", "/memfd:block"} if count else set()))


def test_process_of_a_guest_like_it(sides):
    """Another guest with blocks of the same lengths: all pages but those of zeros are told."""
    sides.run_target()
    sides.run_source(of=["other"])
    verdict = sides.judged()
    same("verdict", (verdict.word, len(verdict.places)), ("faulty", PAGES // 4 * 3))


@pytest.mark.parametrize("party, before", [("source", "send 9"), ("machine", "page 9"), ("pager", r"place 9 \d+")])
def test_changed_bit(sides, party, before):
    """A digit of a hash is other than it was written: the page is told, or the files are refused."""
    sides.run_target()
    sides.run_source()
    paths = [f"{folder}/{name}" for folder in (sides.source, sides.target) for name in os.listdir(folder) if name.startswith(f"{party}.")]
    count = 0
    for path in paths:
        with open(path, encoding="ascii") as file:
            text, times = re.subn(rf"(?<= )({before} )(\w)", lambda match: match[1] + "01"[match[2] == "0"], file.read())
        count += times
        page_target.write(path, text)
    same("changed", count, 1)
    try:
        verdict = sides.judged()
    except build.Missing:
        return
    same("verdict", (verdict.is_clean, [place for place in verdict.places if place != "block 0 + 0x9000"]), (False, []))


@pytest.mark.parametrize("side, name", [("source", "source"), ("source", "machine"), ("target", "pager"), ("source", "blocks"), ("target", "blocks")])
def test_file_cut_short(sides, side, name):
    """The longest file of a party ends in the middle of a line."""
    sides.run_target()
    sides.run_source()
    folder = getattr(sides, side)
    path = max((f"{folder}/{one}" for one in os.listdir(folder) if one.split(".")[0] == name), key=os.path.getsize)
    os.truncate(path, os.path.getsize(path) // 2)
    try:
        verdict = sides.judged()
    except build.Missing:
        return
    same("verdict", (verdict.is_whole, verdict.is_clean), (False, False))


def test_another_key(sides):
    sides.run_target()
    sides.run_source(key=page_target.new_key())
    with pytest.raises(build.Missing, match="(?s)recording"):
        sides.judged()


def test_no_key(sides):
    done = sides.run_target(key="0")
    same("the process", (done.returncode, "is no key" in done.stderr), (0, True))


SMALL_DISK = """
mount -t tmpfs -o size=2m none "$1" && cp "$2"/* "$1" && { cat /dev/zero > "$1/filler"; truncate -s "-$3" "$1/filler"; } 2> /dev/null || exit 77
LD_PRELOAD="$4" "$5" target 100
status=$?
rm "$1/filler" && cp "$1"/* "$2" && exit $status
"""


@pytest.mark.parametrize("free", ["0", "600K"])
def test_full_disk(sides, free):
    """A disk that is full where the logs begin, and one with room for the first two files: the process goes on, it says so, and nothing is clean."""
    variables = page_target.prepare(sides.target, KEY, False)
    kept = f"{sides.room}/kept"
    shutil.copytree(sides.target, kept)
    library = variables.pop("LD_PRELOAD")
    done = subprocess.run(["unshare", "-m", "bash", "-c", SMALL_DISK, "-", sides.target, kept, free, library, sides.guarded],
                          env={**os.environ, **variables}, capture_output=True, text=True)
    if done.returncode in (1, 77):
        pytest.skip(f"no small disk can be mounted here: {done.stderr}")
    same("the process", (done.returncode, "No space left on device" in done.stderr, "is not recorded" in done.stderr), (0, True, True))
    sides.target = kept
    sides.run_source()
    if free == "0":
        with pytest.raises(build.Missing, match="nothing was recorded at the target"):
            sides.judged()
    else:
        verdict = sides.judged()
        same("verdict", (verdict.is_whole, verdict.is_clean), (False, False))


def test_source_is_gone(sides):
    process = sides.start_source()
    process.kill()
    process.wait()
    with pytest.raises(page_source.Lost, match="No such file"):
        page_source.Observer(sides.source, KEY, process.pid)


def test_no_memory_of_a_guest(sides):
    with subprocess.Popen(["sleep", "60"]) as process:
        with pytest.raises(page_source.Lost, match="no guest's memory"):
            page_source.Observer(sides.source, KEY, process.pid)
        process.kill()


def test_killed_source_is_held(sides):
    """Without a monitor the memory is hashed where the process ends, even by SIGKILL."""
    sides.run_target()
    told = sides.run_source(words=(), do=lambda process: process.kill())
    same("told", [line.split()[0] for line in told], ["held", "hashed", "recorded"])
    same("verdict", sides.judged().word, "clean")


def test_halt_that_never_comes(sides):
    """The monitor says nothing, and the process ends: it is let go, and nothing is recorded."""
    def silent():
        time.sleep(30)
        yield "end"

    with pytest.raises(page_source.Lost, match="never seen to halt"):
        sides.run_source(words=silent(), do=lambda process: process.kill())
    same("files", [name for name in os.listdir(sides.source) if name.startswith("source.")], [])


def test_no_migration(sides):
    with pytest.raises(page_source.Lost, match="there was no post-copy"):
        sides.run_source(words=("failed",))


def test_source_goes_on(sides):
    """What was hashed at the halt is recorded, and that the guest goes on at the source: no answer is clean."""
    sides.run_target()
    sides.run_source(words=sides.after_halt("back"))
    verdict = sides.judged()
    same("verdict", (re.sub("[0-9]+", "N", verdict.word), verdict.is_clean), ("shape line N both", False))


def test_source_goes_on_at_once(sides):
    """Nobody knows of what is hashed then whether the guest wrote it since."""
    with pytest.raises(page_source.Lost, match="before its memory was hashed"):
        sides.run_source(words=("back",))


def test_changed_source(sides):
    """The memory is hashed at the halt and in the end: what is recorded is the end, and the difference is told."""
    process = []
    sides.run_target()
    told = sides.run_source(words=sides.after_halt("end", lambda: poke(process[0], 9)), do=process.append)
    same("told", [line for line in told if line.startswith("changed")], ["changed 1"])
    same("verdict", sides.judged().told, ["page 9, block 0 + 0x9000: altered"])


def test_used_folder(sides):
    sides.run_source()
    with pytest.raises(build.Missing, match="name a new or an empty folder"):
        page_source.Observer(sides.source, KEY, os.getpid())


# The command

def run(*words, **how):
    return subprocess.run([COMMAND, *words], capture_output=True, text=True, timeout=60, **how)


def test_command(sides):
    """The steps of a migration that a person makes, but for the guest and its QEMU."""
    key = f"{sides.room}/key"
    done = run("key")
    same("key", bool(re.fullmatch("[0-9a-f]{32}\n", done.stdout)), True)
    page_target.write(key, done.stdout)
    lines = run("target", sides.target, "--key", key)
    same("lines", re.findall("^([A-Z_]+)=", lines.stdout, re.MULTILINE), ["LD_PRELOAD", "POSTCOPY_PAGES", "POSTCOPY_PAGES_KEY"])
    same("nobody records", run("wait", sides.target, "--seconds", "0.1").returncode, 1)
    done = run("target", sides.target, "--key", key, "--", sides.guarded, "target", "100")
    same("target", (done.returncode, done.stdout, "the target records" in done.stderr or "recorded" in done.stderr), (0, "absent\n", True))
    same("it records", run("wait", sides.target, "--seconds", "0.1").returncode, 0)
    process = sides.start_source()
    with subprocess.Popen([COMMAND, "source", sides.source, "--key", key, "--pid", str(process.pid)], stdout=subprocess.PIPE, text=True) as source:
        same("ready", source.stdout.readline(), f"ready: 640 pages of 2 blocks of process {process.pid}\n")
        process.kill()
        same("source", (re.findall("^[a-z]+", source.stdout.read(), re.MULTILINE), source.wait()), (["held", "hashed", "recorded"], 0))
    process.wait()
    done = run("audit", sides.target, sides.source)
    same("audit", (done.stdout.splitlines(), done.returncode), (
        ["clean", "Each of 640 pages came, and was what the source's memory held in the end.",
         f"Nothing is said of accesses, of devices, or of what was written since: {sides.target}/README"], 0))


def test_command_with_xml():
    """The XML of the target; or what the emulator's user lacks, where libvirt is installed and its user may not use userfaultfd."""
    user = page_target.user_of_libvirt()
    if user and os.geteuid() != 0:
        pytest.skip("a folder can be given to the emulator's user by root alone")
    with open("/proc/sys/vm/unprivileged_userfaultfd", encoding="ascii") as file:
        is_refused = user and file.read() == "0\n"
    with tempfile.TemporaryDirectory(dir="/var/tmp") as room:
        os.chmod(room, 0o755)
        page_target.write(f"{room}/key", KEY)
        done = run("target", f"{room}/target", "--key", f"{room}/key", "--track", "--xml", input="<domain type='kvm'><memory>1024</memory></domain>")
        if is_refused:
            same("refused", (done.returncode, done.stdout, "sysctl vm.unprivileged_userfaultfd=1" in done.stderr), (3, "", True))
            return
        found = dict(re.findall(r"<qemu:env name=\"(\w+)\" value=\"([^\"]*)\"", done.stdout))
        same("XML", (done.returncode, found), (0, {"LD_PRELOAD": f"{room}/target/pages.so", "POSTCOPY_PAGES": f"{room}/target", "POSTCOPY_PAGES_KEY": KEY,
                                                  "POSTCOPY_PAGES_TRACK": "1"}))


def test_campaign(tmp_path):
    """The migrations without a fault have each pair of values, a fault is put in where the relay can read, and the table counts what came of each."""
    drawn = list(page_campaign.drawn(400, 1, page_campaign.AXES))
    without = [axes.pairs_of(row, page_campaign.AXES) for row, fault in drawn if not fault]
    same("pairs that are not there", axes.all_pairs(page_campaign.AXES).difference(*without), set())
    same("faults", collections.Counter(fault for _, fault in drawn), {"": 200, **dict.fromkeys(page_migration.FAULTS, 200 // len(page_migration.FAULTS))})
    with_fault = {fault: [row for row, its in drawn if its == fault] for fault in page_migration.FAULTS}
    same("ways", {fault: {row["way"] for row in rows} for fault, rows in with_fault.items()}, {**dict.fromkeys(page_migration.FAULTS, {"plain", "preempt"}), "forget": {"cut"}})
    same("TLS", {row["TLS"] for rows in with_fault.values() for row in rows}, {"none"})
    same("named faults", [fault for _, fault in page_campaign.drawn(5, 1, page_campaign.AXES, ("keep", "", "keep"))], ["keep", "", "keep", "keep", ""])
    row = {axis: values[0] for axis, values in page_campaign.AXES.items()}
    sizes = [("small", "test, TCG"), ("small", "Linux, TCG"), ("512 MiB", "Linux, TCG"), ("2 GiB", "test, KVM")]
    same("MiB", [page_campaign.settings_of({**row, "size": size, "guest": guest}).ram for size, guest in sizes], [64, 160, 512, 2048])
    words = [("", page_campaign.CLEAN), ("", "faulty, 1 pages, 0 put in; completed"), ("", page_campaign.FAILED), ("", page_campaign.GIVEN_BACK), ("flip", page_campaign.TOLD),
             ("flip", "clean, 0 pages, 1 put in; completed"), ("flip", page_campaign.NOT_PUT_IN), ("flip", f"{page_campaign.NOT_RECORDED}: why"), ("twice", page_campaign.FAILED),
             ("twice", f"{page_campaign.NOT_PUT_IN}: incomplete resume; completed"), ("twice", page_campaign.REFUSED)]
    folder = f"{tmp_path}/{page_campaign.RESULTS}"
    for fault, word in words:
        page_campaign.write(folder, json.dumps(page_campaign.Result(row, fault, word, "QEMU 7.2.22", 3.4)._asdict()) + "\n", "a")
    table = page_campaign.table(page_campaign.results_of(tmp_path)).splitlines()
    same("conditions", table[0], "11 migrations of QEMU 7.2.22, at a load of 3 to 3; 1 were not recorded:")
    same("table", [line for line in table if re.match(r"\| (all|size|flip|twice)", line)], [
        *(f"| {part} | 1 of 4 clean, 1 not clean, and QEMU says so itself, 1 with pages that were given back once they had been sent |" for part in ("all", "size small")),
        "| flip: a bit of a page's first word is flipped | 1 of 2 told by its pages, and no other |",
        "| twice: a page comes twice | 1 of 2 told by its page, and QEMU says so itself; 1 of 2 not clean, and QEMU says so itself |"])


class Moved:
    """A migration that was made, with a fault in page 7, or one that was not put in."""
    outcome = "source failed, target ended"

    def __init__(self, settings, *of):
        self.settings = settings

    def run(self):
        return self.outcome

    def put_in(self):
        return [] if "not put in" in self.settings.fault else [7]


SEVEN = "pc.ram + 0x7000"


@pytest.mark.parametrize("fault, outcome, verdict, word", [
    ("twice", Moved.outcome, dict(word="incomplete page 9", refused=(SEVEN,), places=("pc.ram + 0x9000",)), page_campaign.REFUSED),
    ("twice", Moved.outcome, dict(word="incomplete page 9", refused=("pc.ram + 0x8000",)), page_campaign.FAILED),
    ("keep", page_campaign.SILENT, dict(word="faulty", places=(SEVEN,)), page_campaign.TOLD),
    ("flip", page_campaign.SILENT, dict(word="faulty", places=(SEVEN, "pc.ram + 0x9000")), "faulty, 2 pages, 1 put in; source completed, target completed"),
    ("", page_campaign.SILENT, dict(word="faulty", places=(SEVEN,), nothing=1), page_campaign.GIVEN_BACK),
    ("", page_campaign.SILENT, dict(word="faulty", places=(SEVEN, "pc.ram + 0x9000"), nothing=1), "faulty, 2 pages, 0 put in; source completed, target completed"),
    ("", page_campaign.SILENT, dict(word="clean"), page_campaign.CLEAN),
    ("", Moved.outcome, dict(word="incomplete page 9"), page_campaign.FAILED),
    ("flip, not put in", Moved.outcome, dict(word="incomplete resume"), f"{page_campaign.NOT_PUT_IN}: incomplete resume; {Moved.outcome}"),
    ("flip, not put in", page_campaign.SILENT, dict(word="faulty", places=(SEVEN,)), "faulty, 1 pages, 0 put in; source completed, target completed"),
    ("flip, not put in", page_campaign.SILENT, dict(word="clean"), page_campaign.NOT_PUT_IN),
])
def test_what_came_of_it(monkeypatch, tmp_path, fault, outcome, verdict, word):
    monkeypatch.setattr(Moved, "outcome", outcome)
    monkeypatch.setattr(page_campaign, "Migration", Moved)
    monkeypatch.setattr(page_verdict, "judged", lambda *sides: page_verdict.Verdict(told=[], is_whole=outcome == page_campaign.SILENT, **verdict))
    row = {axis: values[0] for axis, values in page_campaign.AXES.items()}
    same("word", page_campaign.made({**row, "guest": page_campaign.BALLOON}, fault, tmp_path, None, contextlib.nullcontext(), tmp_path), word)


@pytest.mark.parametrize("source, target", [("postcopy-active", "postcopy-paused"), ("postcopy-active", "ended"), ("completed", "postcopy-active")])
def test_side_that_waits_for_nobody(monkeypatch, tmp_path, source, target):
    """A migration of which one side goes on alone is given up soon."""
    monkeypatch.setattr(page_migration, "SECONDS_FOR_LAST", 0.1)
    migration = page_migration.Migration(page_migration.Settings(), tmp_path, None, lambda line: None)
    migration.stands, migration.left = {"source": source, "target": target}.get, lambda: ""
    began = time.monotonic()
    same("outcome", migration.follow(), f"source {source}, target {target}")
    same("soon", time.monotonic() - began < page_migration.SECONDS / 4, True)


def test_source_that_hangs(monkeypatch, tmp_path):
    """It is killed, since the observer waits for it."""
    killed = threading.Event()
    watching = threading.Thread(target=killed.wait, args=(10,))
    migration = page_migration.Migration(page_migration.Settings(is_precopy=True), tmp_path, None, None)
    migration.room = types.SimpleNamespace(name=str, path="")
    side = types.SimpleNamespace(name="source", hangs=True, stands=lambda: ("hangs", "hangs"), process=types.SimpleNamespace(kill=killed.set))
    migration.machines = {"source": side}

    def moved():
        raise page_campaign.Ended(side, "hangs")

    monkeypatch.setattr(migration, "start", lambda *words, **environment: None)
    monkeypatch.setattr(migration, "begin_to_watch", lambda key, faults: watching.start() or watching)
    monkeypatch.setattr(migration, "move", moved)
    with pytest.raises(page_campaign.Ended, match="the source hangs"):
        migration.migrate(KEY)
    same("killed", killed.is_set(), True)


def test_pages_of_a_fault(tmp_path):
    """The pages that the relay has put a fault in, but for those that it has handed on again since."""
    migration = page_migration.Migration(page_migration.Settings(fault="keep-drop"), tmp_path, None, None)
    page_target.write(f"{tmp_path}/relay.pages", "".join(contents * 4096 for contents in "abcdeeb"))
    page_target.write(f"{tmp_path}/relay.log", """open 0 main new
down 0 page pre pc.ram 4096 0 0
fault preflip 1
down 0 page pre pc.ram 4096 1 2
fault preflip 2
down 0 page pre pc.ram 8192 3 4
down 0 state 100
down 0 page post front 4096 5 5
down 0 page post pc.ram 8192 5 5
fault keep-drop 3 4 5
lost 0 page post pc.ram 12288 6 -
down 0 page pre pc.ram 16384 1 1
lost 0 page post pc.ram 16384 6 -
down 0 page pre pc.ram 20480 1 0
lost 0 page post pc.ram 20480 6 -
""")
    same("pages", migration.put_in(), [1, 3, 5])


@pytest.mark.parametrize("words, status, says", [
    (["target", "{}/t", "--key", "{}/none"], 3, "No such file"),
    (["target", "{}/t", "--key", "/dev/null"], 3, "has no key"),
    (["target", "{}/a b", "--key", "{}/key"], 3, "a space or a colon"),
    (["target", "{}/t", "--key", "{}/key", "--xml", "--", "qemu"], 2, "without --xml"),
    (["target", "{}/t", "--key", "{}/key", "--xml", "--pid", "1"], 2, "a target that is there already"),
    (["target", "{}/t", "--key", "{}/key", "--domain", "none"], 1, "names no process"),
    (["migrate", "{}/m", "--precopy", "--track"], 2, "--precopy goes without"),
    (["migrate", "{}/m", "--balloon"], 2, "--balloon goes with --linux"),
    (["source", "{}/s", "--key", "{}/key"], 2, "one of the arguments"),
    (["source", "{}/s", "--key", "{}/key", "--qmp", "{}/none"], 3, "No such file"),
    (["source", "{}/s", "--key", "{}/key", "--domain", "none"], 1, "names no process"),
    (["audit", "{}/t", "{}/s"], 3, "is not there"),
    (["target", "{}/t", "--key", "{}/key", "--", "true"], 1, "the library was not loaded"),
])
def test_refused_words(guarded, tmp_path, words, status, says):
    page_target.write(f"{tmp_path}/key", KEY)
    done = run(*(word.format(tmp_path) for word in words))
    same(" ".join(words), (done.returncode, says in done.stderr), (status, True))


def test_credentials(tmp_path):
    """Both ends have one key, or each has a certificate for its use, of an authority that both know."""
    for kind in ("psk", "x509"):
        room = f"{tmp_path}/{kind}"
        os.mkdir(room)
        page_tls.make(kind, room)
        same("words", [page_tls.words(kind, room, end)[1] for end in ("server", "client")], [f"tls-creds-{kind},id=tls,endpoint={end},dir={room}" for end in ("server", "client")])
        same("parameters", [page_tls.parameters(kind, end) for end in ("server", "client")], [{"tls-creds": "tls"}, {"tls-creds": "tls", "tls-hostname": "target"}])
    same("a key", bool(re.fullmatch("qemu:[0-9a-f]{32}\n", open(f"{tmp_path}/psk/keys.psk", encoding="ascii").read())), True)
    for end, purpose in (("server", "sslserver"), ("client", "sslclient")):
        words = ["openssl", "verify", "-x509_strict", "-purpose", purpose, "-CAfile", f"{tmp_path}/x509/ca-cert.pem", f"{tmp_path}/x509/{end}-cert.pem"]
        same(f"the certificate of the {end}", subprocess.run(words, stdout=subprocess.DEVNULL).returncode, 0)
    same("without TLS", (page_tls.words("", "", "server"), page_tls.parameters("", "client")), ((), {}))


# Migrations between two QEMUs

NEEDED = ("qemu-system-x86_64:qemu-system-x86", "gcc:gcc,libc6-dev", "ld:binutils")


@pytest.fixture(scope="module")
def qemu(pytestconfig):
    """The name of a QEMU that is there, with what its recorder needs."""
    name = pytestconfig.getoption("--qemu")
    for is_last in (False, True):
        why = missing() or (None if shutil.which(name) or os.path.isdir(name) else f"{name} is not there")
        if why and (is_last or not can_have(*NEEDED)):
            pytest.skip(why)
    return name


def migrated(qemu, room, program, *words):
    done = subprocess.run([COMMAND, "migrate", f"{room}/run", "--qemu", qemu, *words], capture_output=True, text=True,
                          env={**os.environ, "POSTCOPY": program})
    if done.returncode == 3:
        pytest.skip(done.stderr.strip())
    return done.stdout.split("QEMU says: ")[1].splitlines(), done.returncode


@pytest.mark.qemu
@pytest.mark.parametrize("words", [[], ["--track"], ["--kvm"], ["--tls", "psk"], ["--tls", "x509", "--cut", "500"], ["--cut", "500", "--cut", "500"], ["--memory", "numa"], ["--huge"], ["--precopy"]], ids=" ".join)
def test_clean_migration(qemu, tmp_path, program, words):
    said, status = migrated(qemu, tmp_path, program, *words)
    same("said", (said[:2], status), (["source completed, target completed", "clean"], 0))
    if "--track" in words:
        same("unwritten", bool(re.match("To [1-9][0-9]* of them nobody wrote", said[-1])), True)


@pytest.mark.qemu
@pytest.mark.parametrize("fault, first, told", [("flip", "faulty", "altered"), ("swap", "faulty", "altered"), ("drop", "incomplete page ", "it never came")])
def test_fault_in_migration(qemu, tmp_path, program, fault, first, told):
    """The pages of the fault that the relay put in are told, and no other, by a migration that completed in QEMU's words."""
    said, status = migrated(qemu, tmp_path, program, "--fault", fault)
    pages = re.fullmatch(f"Put in: {fault}, page ([0-9 ]+)", said[1])[1].split()
    found = [match.groups() for line in said[3:] if (match := re.fullmatch(r"  page (\d+), pc\.ram \+ 0x[0-9a-f]+: (.*)", line))]
    same("said", (said[0], said[2].startswith(first), status), ("source completed, target completed", True, 1))
    same("told", found, [(page, told) for page in sorted(pages, key=int)])

"""The command of Linux guests: the words, the packages, the initramfs, the machine and the boot, and what became of runs."""
import contextlib
import fcntl
import gzip
import io
import os
import re
import shutil
import struct
import subprocess
import sys
import tarfile
import tempfile
from types import SimpleNamespace
from unittest import mock

import build
import debian
import dialect
import folders
import found_page
import linux_results
import linux_run
from campaign_test import Clock
from judge import Verdict
from kinds import Plan, plan_of
from linux_results import Result, result_from_text
from linux_test import BASE, CELLS, HALT, LOG, PAGES, made, write
from qmp import Gone
from roots import Missing
from run import Migration, Outcome
from stream import PAGE_BYTES
from versions_test import QEMU, command, program, qemu_like, read


def of_gates(tests):
    """Where interrupts go, by the guest's table; some push an error's code too."""
    entry = struct.pack("<HHBBHII", 0x1234, 0x10, 0, 0x8E, 0x8160, 0xFFFFFFFF, 0)
    lines = linux_run.gates_of(entry * 256).splitlines()
    tests.wants("gates", (len(lines), lines[3], lines[14]), (256, "ffffffff81601234 5", "ffffffff81601234 6"))


def of_an_initramfs(tests):
    """The archive has what the kernel looks for, by the form of `newc`; and the same files give the same bytes."""
    files = {"init": (0o100755, b"#!/bin/sh\n"), "bin": (0o040755, b""), "bin/sh": (0o120777, b"busybox")}
    made_of = debian.initramfs(files)
    archive, found = gzip.decompress(made_of), {}
    at = 0
    while (name := archive[at + 110:at + 110 + int(archive[at + 94:at + 102], 16) - 1].decode()) != "TRAILER!!!":
        fields = [int(archive[at + 6 + 8 * field:at + 14 + 8 * field], 16) for field in range(13)]
        start = at + (110 + fields[11] + 3) // 4 * 4
        found[name] = (archive[at:at + 6], fields[1], archive[start:start + fields[6]])
        at = (start + fields[6] + 3) // 4 * 4
    tests.wants("what is in it", found, {name: (b"070701", mode, data) for name, (mode, data) in files.items()})
    tests.wants("once more", debian.initramfs(dict(reversed(files.items()))) == made_of, True)


def of_results(tests):
    """What became of runs, in a word, and the table by version."""
    def result(version="7.2.22", is_bare=False, verdict="clean, yes", lost=0, says=(), is_first_round=True):
        return Result(version, is_bare, 2, "busy", is_first_round, "", verdict, lost, list(says))

    results = [result(), result(verdict="faulty line 7 read", lost=3, says=["target: guest: WRONG"]), result(verdict="not judged: .."), result("10.0.13"),
               result(is_bare=True, verdict="", lost=4), result(is_bare=True, verdict="", says=["target: kernel BUG"]), result(is_bare=True, verdict=""),
               result(is_bare=True, verdict="not judged: there was no post-copy", lost=None), result(verdict="incomplete page 3", is_first_round=False)]
    tests.wants("in a word", [one.in_a_word for one in results], ["clean", "faulty", "not judged", "clean", "lost pages", "something wrong", "nothing lost", "not judged", "incomplete"])
    tests.wants("one of which the word alone was kept", Result("7.2.22", True, 2, "busy", True, "", "", None, [], word="lost pages").in_a_word, "lost pages")
    tests.wants("a bare one without post-copy, of which the guest is wrong at the target, at the source, or says nothing", [
        result(is_bare=True, verdict="not judged: there was no post-copy", lost=None, says=says).in_a_word for says in (["target: guest: WRONG"], ["source: Kernel panic"], [])],
                ["something wrong in pre-copy", "not judged", "not judged"])
    tests.wants("one of which the memory at the end of pre-copy was kept", [
        result(is_bare=True, verdict="not judged: there was no post-copy", lost=lost).in_a_word for lost in (3, 0)], ["lost pages in pre-copy", "nothing lost in pre-copy"])
    alone = Result("7.2.22", True, 2, "busy", True, "", "", 3, [], is_precopy=True)
    tests.wants("one of pre-copy alone", (alone.row, alone.in_a_word), ("bare, 2 processors, `busy`, pre-copy alone", "lost pages"))
    tests.wants("one that did not come to its end", Result("7.2.22", True, 2, "busy", True, "", "not judged: gave up: ..", 0, []).in_a_word, "not judged")
    tests.wants("the line above the table", [linux_results.heading(some) for some in (results[:1], [Result("7.2.22", True, 1, "busy", True, "", "", 0, [], load=load) for load in (0.0, 7.2, 3.9)])],
                ["1 migrations:", "3 migrations, 2 of them at a load of 4 to 7:"])
    tests.wants("as a text and back", [result_from_text(one.to_text()) for one in results], results)
    tests.wants("the table", linux_results.table(results).splitlines(), [
        "| Migrations of | 7.2.22 | 10.0.13 |", "| --- | --- | --- |",
        "| bare, 2 processors, `busy`, the switch in pre-copy's first round | 1 not judged, 1 nothing lost, 1 lost pages, 1 something wrong | |",
        "| recorded, 2 processors, `busy`, the switch in a later round | 1 incomplete | |",
        "| recorded, 2 processors, `busy`, the switch in pre-copy's first round | 1 clean, 1 faulty, 1 not judged | 1 clean |"])
    with tempfile.TemporaryDirectory() as folder:
        write({**made(), "relay.pages": bytes(3 * PAGE_BYTES)}, folder)
        for side, line in (("source", "guest: booted"), ("target", "guest: WRONG: a file is not what was written")):
            with open(f"{folder}/{side}.console", "w", encoding="ascii") as out:
                print(line, file=out)
        found = linux_results.result_of(folder, "busy", False, "faulty line 7 read", 9.04)
        tests.wants("of a folder", (found.version, found.cpus, found.lost, found.says, found.seconds, found.is_first_round),
                    ("7.2", 1, 1, ["target: guest: WRONG: a file is not what was written"], 9.0, True))
        tests.wants("when it was made", re.fullmatch(r"\d{4}-\d\d-\d\dT\d\d:\d\d:\d\d", found.made) is not None, True)
        wrong = ("[ 1.0] BUG: unable to handle page fault for address: 0", "[ 1.0] kernel BUG at lib/list_debug.c:27!", "[ 1.0] Oops: 0002 [#1] PREEMPT SMP",
                 "[ 1.0] Kernel panic - not syncing: x", "[ 1.0] one[7]: segfault at 0 ip 0", "[ 1.0] traps: one[7] general protection fault ip:0")
        with open(f"{folder}/target.console", "w", encoding="ascii") as out:
            print("[ 0.0] Kernel command line: console=ttyS0 panic=1 oops=panic", "DEBUG: /init starts", *wrong, sep="\n", file=out)
        tests.wants("what a guest says that is wrong", linux_results.what_guest_says(folder), [f"target: {line}" for line in wrong])
        for log, told in (("", "flip, not reached"), ("fault flip 2\n", "flip")):
            write({"plan.json": Plan(kind="linux", fault="flip").to_text().encode(), "relay.log": log.encode()}, folder)
            tests.wants("the fault that was put in", linux_results.result_of(folder, "busy", True, "", 1).fault, told)
        without_state = "".join(line for line in LOG.splitlines(True) if " discard " not in line and " state " not in line and " post " not in line)
        write({**made(log=without_state, halt=HALT.with_cells({7: 1})), "target.console": b"guest: booted\n"}, folder)
        found = linux_results.result_of(folder, "busy", True, "", 1)
        tests.wants("where pre-copy came to its end", (found.verdict, found.lost, found.in_a_word), ("not judged: there was no post-copy", 1, "lost pages in pre-copy"))
        write(made(log=without_state + "strange a command 12\n", halt=HALT.with_cells({7: 1})), folder)
        tests.wants("and the rest of the stream was not understood", linux_results.result_of(folder, "busy", True, "", 1).lost, None)
        plan = Plan(kind="linux", pages=PAGES, words=CELLS, base=BASE, is_precopy=True)
        write({**made(log=without_state, halt=HALT.with_cells({7: 1})), "plan.json": plan.to_text().encode()}, folder)
        found = linux_results.result_of(folder, "busy", True, "", 1)
        tests.wants("where nothing else was asked for", (found.verdict, found.lost, found.is_precopy, found.in_a_word), ("", 1, True, "lost pages"))
        write({**made(), "target.console": b"guest: booted\n"}, folder)
        os.truncate(f"{folder}/halt.mem", 7)
        tests.wants("with a beginning of the memory at the halt", linux_results.result_of(folder, "busy", True, "", 1).in_a_word, "not judged")
        os.unlink(f"{folder}/halt.mem")
        tests.wants("without the memory at the halt", linux_results.result_of(folder, "busy", True, "", 1).in_a_word, "not judged")


def of_the_machine(tests):
    """What a QEMU of a Linux guest is asked for. The source waits for a start, and writes its memory; a bare one has no plugin."""
    plan = Plan(kind="linux", ram=128, pages=32512, base=BASE, workload="work=64:0")
    one = linux_run.LinuxMachine.__new__(linux_run.LinuxMachine)
    one.library, one.pipe = "/room/one.so", "/room/one.pipe"
    for name, wanted in (("source", {"RECORD_START": "start", "RECORD_INIT": "init.mem", "RECORD_ACCESSES": "source.accesses"}),
                         ("target", {"RECORD_START": None, "RECORD_INIT": None, "RECORD_ACCESSES": "target.accesses"})):
        one.name = name
        told = one.environment(plan)
        tests.wants(f"what the {name}'s library is told", ({key: told.get(key) for key in wanted}, told["RECORD_RAM"], told["RECORD_PAGES"]),
                    (wanted, str(128 << 20), "32512"))
        tests.wants(f"the {name}'s guest", one.guest(plan), [
            "-kernel", "./vmlinuz", "-initrd", "./initrd", "-append", "console=ttyS0 quiet no_timer_check work=64:0", "-serial", f"file:./{name}.console",
            "-action", "reboot=shutdown,shutdown=pause"])
    tests.wants("one thread for all processors, and the plugin", one.hardware("pc", plan), ["-machine", "pc", "-accel", "tcg,thread=single", "-plugin", "/room/one.so"])
    one.library = None
    tests.wants("a bare one", one.hardware("pc", plan), ["-machine", "pc", "-accel", "tcg,thread=single"])


class Booting:
    """In the place of a QEMU whose guest has said this."""

    def __init__(self, said, is_there=True):
        self.words, self.is_there = said, is_there

    def said(self):
        return self.words

    def is_running(self):
        return self.is_there

    @staticmethod
    def last_error():
        return "no such machine"


class Asked:
    """In the place of a QEMU: keeps what it is asked for."""

    def __init__(self, status="active"):
        self.asked, self.status = [], status

    def __call__(self, command, **arguments):
        self.asked.append((command, arguments))
        return {"status": self.status}

    def wait_for(self, wanted, seconds):
        return self.status


def of_precopy_alone(tests):
    """Without a switch neither side has post-copy's capabilities, and the limit of the downtime is QEMU's. Then, and where pre-copy came to
    its end before the switch, the source's memory at the end is that at the halt."""
    for is_precopy, wanted in ((True, ([], 300)), (False, (["postcopy-ram", "postcopy-blocktime"], 1))):
        one = linux_run.LinuxMigration.__new__(linux_run.LinuxMigration)
        one.plan, one.source, one.target = Plan(kind="linux", is_precopy=is_precopy), Asked(), Asked()
        one.set_up()
        names = [capability["capability"] for _, told in one.target.asked for capability in told["capabilities"]]
        tests.wants(f"what is asked for, {is_precopy}", (names, one.source.asked[-1][1]["downtime-limit"]), wanted)
        one.relay = SimpleNamespace(is_post=False, sent_before=7, sent_after=9)
        tests.wants("how far it is told to be", Migration.stands(one), "pre-copy: 7 pages" if is_precopy else "post-copy: 9 pages")
    for status, remarks, commands in (("active", [], ["migrate-start-postcopy"]), ("device", ["pre-copy: device"], []), ("completed", ["pre-copy: completed"], [])):
        one.plan, one.source, one.outcome, one.say = Plan(kind="linux", pre=0.0), Asked(status), Outcome(), lambda line: None
        one.switch()
        tests.wants(f"the switch where pre-copy is {status}", (one.outcome.remarks, [command for command, _ in one.source.asked]), (remarks, commands))
    one.source = Asked("failed")
    tests.wants("one that fails", tests.refuses("one that fails", Gone, one.switch), "pre-copy: failed")
    for is_post, wanted in ((False, ["pmemsave"]), (True, [])):
        one.relay, one.is_bare, one.source = SimpleNamespace(is_post=is_post), True, Asked()
        one.at_end()
        tests.wants(f"what is saved at the end, {is_post}", [command for command, _ in one.source.asked], wanted)


def of_a_guest_that_stands_still(tests):
    """At the target, behind the end: QEMU has stopped the guest, as one that resets itself. It is no success, whatever else is found."""
    one = linux_run.LinuxMigration.__new__(linux_run.LinuxMigration)
    one.plan, one.is_bare, one.say = Plan(kind="linux", run_on=0.0), True, lambda line: None
    for status, remarks in (("running", []), ("shutdown", ["the guest stands still at the target: shutdown"])):
        one.outcome, one.target = Outcome("completed", "completed"), Asked(status)
        one.run_on()
        tests.wants(f"a guest that is {status}", (one.outcome.stands_still, one.outcome.remarks), (bool(remarks), remarks))
    linux = command("linux")
    for stands_still, is_bare, status, word in ((False, False, 0, "clean"), (True, False, 1, "clean"), (False, True, 0, "nothing lost"), (True, True, 1, "something wrong")):
        with tempfile.TemporaryDirectory() as folder:
            write(made(), folder)
            asked, outcome = linux.words().parse_args([folder]), Outcome("completed", "completed", stands_still=stands_still)
            clean = mock.patch.multiple(linux.linux_session, judged=lambda *_: (Verdict("clean, yes"), None), explain_and_draw=lambda *_: None)
            with clean, contextlib.redirect_stdout(io.StringIO()) as said:
                found = linux.found_bare(folder, outcome, asked, 1.0) if is_bare else linux.found_recorded(folder, outcome, asked, 1.0, lambda line: None)
            result = result_from_text(read(f"{folder}/result.json"))
        tests.wants(f"what is told of it, {stands_still} {is_bare}", (found, result.in_a_word, result.stands_still, "it stands still at the target" in said.getvalue()),
                    (status, word, stands_still, stands_still))
    for halt, wanted in ((HALT, "not judged"), (HALT.with_cells({7: 1}), "lost pages")):
        with tempfile.TemporaryDirectory() as folder:
            write(made(halt=halt), folder)
            with contextlib.redirect_stdout(io.StringIO()):
                status = linux.found_bare(folder, Outcome("postcopy-paused", "HANGS"), linux.words().parse_args([folder]), 1.0)
            tests.wants(f"a bare one that did not come to its end: {wanted}", (status, result_from_text(read(f"{folder}/result.json")).in_a_word), (4, wanted))
    tests.wants("an earlier result, of which nobody knows", Result("7.2.22", True, 2, "busy", True, "", "", 0, []).stands_still, None)


def of_boots(tests):
    """The boot ends with the guest's word, or with a panic, which is told at once; or it is waited for a time."""
    def booted(said, is_there=True, boot=None):
        one = linux_run.LinuxMigration.__new__(linux_run.LinuxMigration)
        one.plan, one.say, one.source, one.ready, one.boot = Plan(limit=0.2), lambda line: None, Booting(said, is_there), "guest: booted", boot
        one.boot_up()
        return True

    tests.wants("one that is up", booted("guest: booted, 1 processors"), True)
    tests.wants("one that is waited for", booted("any", boot=0.1), True)
    for what, words, said in (("a panic", ("a line\n[ 0.1] Kernel panic - not syncing: x\nmore",), "it said: [ 0.1] Kernel panic - not syncing: x"),
                              ("one that takes too long", ("a line\nanother",), "it said: another"), ("a QEMU that ends", ("", False), "no such machine")):
        tests.wants(f"{what} is told", said in tests.refuses(what, Gone, lambda: booted(*words)), True)


def deb(path, *names):
    """A package as the `dpkg-deb` here takes it: the archive of its files."""
    with tarfile.open(path, "w") as archive:
        for name in names:
            member = tarfile.TarInfo(name)
            member.size = len(name)
            archive.addfile(member, io.BytesIO(name.encode()))


def of_packages(tests, room):
    """The kernel and busybox are got from packages once, both or none; a mirror that fails for a moment is tried again."""
    kept = {name: os.environ.get(name) for name in ("PATH", "XDG_CACHE_HOME")}
    os.makedirs(f"{room}/bin")
    os.environ.update(PATH=f"{room}/bin:{os.environ['PATH']}", XDG_CACHE_HOME=f"{room}/cache")
    try:
        modules = {f"{name}.ko": f"./lib/modules/9/kernel/drivers/virtio/{name}.ko" for name in debian.BALLOON}
        deb(f"{room}/linux-image-9_1_amd64.deb", "./boot/config-9", "./boot/vmlinuz-9", "./boot/vmlinuz-9/x", *modules.values(), "./lib/modules/9/kernel/other.ko")
        deb(f"{room}/busybox-static_1_amd64.deb", "./usr/share/doc/busybox", "./bin/busybox")
        program(f"{room}/bin/dpkg-deb", 'cat "$2"')
        program(f"{room}/bin/apt-cache", "echo 'Package: any'; echo 'Depends: linux-image-9 (= 1)'")
        program(f"{room}/bin/apt-get", "echo 'E: no network' >&2; exit 100")
        said = tests.refuses("where there is no network", Missing, lambda: debian.get(lambda line: None))
        tests.wants("why, and nothing is left of it", ("no network" in said, os.path.exists(f"{room}/cache/postcopy/debian")), (True, False))
        program(f"{room}/bin/apt-get", f'echo "$*" >> {room}/asked', f'[ -e {room}/tried ] || {{ touch {room}/tried; exit 100; }}', f'cp {room}/"$3"_*.deb .')
        os.makedirs(f"{room}/full")
        for name, act in (("vmlinuz", lambda path: debian.take_out(f"{room}/linux-image-9_1_amd64.deb", debian.OF_KERNEL, os.path.dirname(path))),
                          ("guest.bin", lambda path: build.rom_for(plan_of("live"), f"{room}/linux-image-9_1_amd64.deb", path))):
            os.symlink("/dev/full", f"{room}/full/{name}")
            said = tests.refuses(f"a full disk for {name}", OSError, lambda name=name, act=act: act(f"{room}/full/{name}"))
            tests.wants(f"which file it is, for {name}", said, f"[Errno 28] No space left on device: '{room}/full/{name}'")
        told = []
        folder = debian.get(told.append)
        tests.wants("what is there", {name: read(f"{folder}/{name}") for name in os.listdir(folder)},
                    {"vmlinuz": "./boot/vmlinuz-9", **modules, "busybox": "./bin/busybox", "packages": "linux-image-9_1_amd64.deb\nbusybox-static_1_amd64.deb\n"})
        tests.wants("what was told", [line.split(",")[0] for line in told], [
            "download: linux-image-9", "unpack: linux-image-9_1_amd64.deb", "download: busybox-static", "unpack: busybox-static_1_amd64.deb"])
        tests.wants("how often apt was asked", len(read(f"{room}/asked").splitlines()), 3)
        debian.get(told.append)
        tests.wants("once they are there nothing is got", (len(told), len(read(f"{room}/asked").splitlines())), (4, 3))
        shutil.rmtree(folder)
        deb(f"{room}/busybox-static_1_amd64.deb", "./bin/other")
        tests.refuses("a package without the file", Missing, lambda: debian.get(told.append))
        tests.wants("and then neither is there", os.path.exists(folder), False)
    finally:
        for name, value in kept.items():
            os.environ.pop(name)
            if value is not None:
                os.environ[name] = value


def of_words(tests, room):
    """Words that mean nothing together, a folder of others, and what a machine lacks: with the status that is told."""
    qemu = qemu_like(room, "5.2.0", ())
    os.makedirs(f"{room}/others")
    with open(f"{room}/others/file", "w", encoding="ascii"):
        pass
    for words, status, said in ((("--memory", "200"), 2, "--memory is 64 to 129"), (("--cpus", "9"), 2, "--cpus is 1 to 4"),
                                (("--kernel", "any"), 2, "--kernel and --initrd go together"), (("--precopy",), 2, "--precopy goes with --bare"), (("--fault", "keep"), 2, "invalid choice: 'keep'"),
                                (("--kernel", qemu, "--initrd", qemu, "--boot", "1", "--workload", "spread"), 2, "--workload goes with Debian's kernel"),
                                (("--kernel", qemu, "--initrd", qemu), 2, "with --kernel, --ready or --boot has to say when the guest is up"),
                                (("--kernel", f"{room}/none", "--initrd", qemu, "--qemu", qemu, "--boot", "1"), 3, f"{room}/none cannot be read"),
                                (("--kernel", qemu, "--initrd", qemu, "--qemu", qemu, "--ready", "login"), 3, "QEMU 5.2.0 has no interface for plugins that is known here"),
                                (("--qemu", f"{room}/none"), 3, "is no program here")):
        done = subprocess.run([sys.executable, "-B", f"{QEMU}/linux", f"{room}/seen", *words], capture_output=True, text=True)
        tests.wants(f"linux {words[0]}", (done.returncode, said in done.stderr), (status, True))
    done = subprocess.run([sys.executable, "-B", f"{QEMU}/linux", f"{room}/others", "--kernel", qemu, "--initrd", qemu, "--qemu", qemu, "--boot", "1"], capture_output=True, text=True)
    tests.wants("a folder of others", (done.returncode, "was not made by this recorder" in done.stderr, os.listdir(f"{room}/others")), (2, True, ["file"]))


# In the place of recorders/qemu/linux: leaves a result, and the status that its last word names.
MADE_UP = """import os, sys
folder, status = sys.argv[1], int(sys.argv[-1])
if status == 3:
    sys.exit(3)
os.makedirs(folder)
for name in ("session", "halt.mem", "verdict"):
    open(f"{folder}/{name}", "w").close()
with open(f"{folder}/result.json", "w") as out:
    out.write(%r if status != 1 else %r)
sys.exit(status)
"""


def of_workloads(tests):
    """What the guest does, by its name in the results: a kernel of one's own does none of what is named."""
    linux = command("linux")
    for words, name, said in (([], "spread", "work=1024:1000,1024:1000"), (["--workload", "alone"], "alone", "work=64:0 nap=1000"),
                              (["--kernel", "any", "--initrd", "any", "--ready", "up", "--append", "panic=1"], "own kernel", "panic=1")):
        parser = linux.words()
        asked = parser.parse_args(["seen", *words])
        tests.wants(f"the workload of {words}", (linux.plan_of_words(parser, asked).workload, asked.workload), (said, name))


def of_a_guest_that_does_not_boot(tests, room):
    """Where the recorder gave up, the verdict says why, and not what was missing for that."""
    linux = command("linux")
    parser = linux.words()
    gave_up, died = "gave up: the guest did not boot within 600 s; it said: nothing", "source exited: no such machine"
    for words, deaths, wanted, word in (
            (["--bare"], [], f"not judged: {gave_up}", "not judged"), ([], [], f"not judged: the migration did not come to its end: {gave_up}", "not judged"),
            (["--bare"], [died], f"not judged: {died}", died), ([], [died], f"not judged: the migration did not come to its end: {died}", died)):
        asked = parser.parse_args([room, *words])
        plan = linux.plan_of_words(parser, asked)
        write({"plan.json": plan.to_text().encode(), **dict.fromkeys(("relay.log", "relay.pages", "source.raw", "target.raw"), b"")}, room)
        outcome = Outcome(remarks=["0.1 s", gave_up], deaths=deaths)
        with contextlib.redirect_stdout(io.StringIO()):
            status = linux.found_bare(room, outcome, asked, 1.0) if words else linux.found_recorded(room, outcome, asked, 1.0, lambda line: None)
        result = result_from_text(read(f"{room}/result.json"))
        tests.wants(f"what is told of it {words} {deaths}", (status, result.verdict, result.in_a_word), (4, wanted, word))
        tests.wants("in the table", linux_results.table([result]).splitlines()[-1].split(" | ")[-1], f"1 {word} |")


def of_a_guest_that_says_what_is_wrong(tests, room):
    """A guest that says at the target that something is wrong there is no success, also if what was recorded is clean. At the source it may
    have said so before."""
    linux = command("linux")
    asked = linux.words().parse_args([room])
    for console, words, status in (("target", "guest: booted\n", 0), ("target", "Oops: general protection\n", 1), ("source", "Oops: general protection\n", 0)):
        with tempfile.TemporaryDirectory() as folder:
            write({**made(), f"{console}.console": words.encode()}, folder)
            clean = mock.patch.multiple(linux.linux_session, judged=lambda *_: (Verdict("clean, yes"), None), explain_and_draw=lambda *_: None)
            with clean, contextlib.redirect_stdout(io.StringIO()):
                found = linux.found_recorded(folder, Outcome("completed", "completed"), asked, 1.0, lambda line: None)
        tests.wants(f"the status where the {console} says {words!r}", found, status)


def of_what_a_guest_says(tests, room):
    """What a guest says reaches into no terminal, and is no line of the recorder's."""
    with open(f"{room}/target.console", "wb") as console:
        console.write(b"all is well\nguest: WRONG \x1b[2J\xff\xc2\x9b1A\n")
    tests.wants("what a guest says", linux_results.what_guest_says(room), ["target: guest: WRONG \\x1b[2J\ufffd\\x9b1A"])


def of_runs(tests, room):
    """Runs one after another: each adds a line, big files go, and the table of all is written."""
    results = [Result("7.2.22", False, 1, "spread", True, "", verdict, 0, [], 60.0, 4.0) for verdict in ("clean, yes", "faulty line 7 read")]
    with open(f"{room}/linux", "w", encoding="ascii") as out:
        out.write(MADE_UP % tuple(result.to_text() for result in results))
    runs = command("linux_runs")
    runs.HERE, runs.PAGE, runs.KEPT = room, f"{room}/page.md", f"{room}/kept"
    earlier = Result("7.2.22", False, 1, "spread", True, "", "", None, [], word="not judged", made="2026-11-27")
    linux_results.write_results(runs.KEPT, [earlier, earlier])
    with open(runs.PAGE, "w", encoding="ascii") as page:
        page.write("before\n{}old\n{}after\n".format(*runs.MARKS))

    def made(*words):
        kept, sys.argv = sys.argv, ["linux_runs", *words]
        try:
            with contextlib.redirect_stdout(io.StringIO()), contextlib.redirect_stderr(io.StringIO()):
                return runs.main()
        finally:
            sys.argv = kept

    tests.wants("the statuses", [made("2", f"{room}/seen", "--", "0"), made("1", f"{room}/seen", "--keep", "--", "1"), made("1", f"{room}/seen", "--", "3"),
                                 made("0", f"{room}/seen", "--write"), made("1", room, "--", "0")], [0, 0, 3, 0, 2])
    tests.wants("one whose recorder fails behind its verdict", (made("1", f"{room}/failed", "--", "9"), [
        (one.in_a_word, one.verdict) for one in linux_results.results_in(f"{room}/failed/results")]), (0, [("not judged", "not judged: the recorder ended with status 9")]))
    with mock.patch.object(runs, "time", Clock()):
        tests.wants("where the minutes are over before the last was made", made("3", f"{room}/late", "--minutes", "0.02", "--", "0"), 3)
    tests.wants("with no minutes at all", (made("3", f"{room}/never", "--minutes", "0", "--", "0"), len(linux_results.results_in(f"{room}/never/results"))), (3, 0))
    tests.wants("those that were made", len(linux_results.results_in(f"{room}/late/results")), 1)
    tests.wants("what is kept", [sorted(os.listdir(f"{room}/seen/{number:04}")) for number in range(3)],
                [["result.json", "verdict"]] * 2 + [["halt.mem", "result.json", "session", "verdict"]])
    tests.wants("the results", linux_results.results_in(f"{room}/seen/results"), [results[0], results[0], results[1]])
    tests.wants("those of all calls", linux_results.results_in(runs.KEPT), [earlier, earlier, results[0], results[0], results[1]])
    tests.wants("the page", read(runs.PAGE).splitlines()[2:7], [
        "", "5 migrations, 3 of them at a load of 4 to 4:", "", "| Migrations of | 7.2.22 |", "| --- | --- |"])
    wanted = "| recorded, 1 processor, `spread`, the switch in pre-copy's first round | 2 clean, 1 faulty, 2 not judged |"
    tests.wants("and its table", wanted in read(runs.PAGE), True)
    of_earlier_folders(tests, f"{room}/earlier", made)
    results_file = f"{room}/cut/results"
    os.makedirs(os.path.dirname(results_file))
    folders.take(os.path.dirname(results_file), ())
    for text, line in ((f"{results[0].to_text()}\n{results[0].to_text()[:-9]}", 2), ("\n", 1), ('{"plan": {}}\n', 1)):
        with open(results_file, "w", encoding="utf-8") as out:
            out.write(text)
        tests.wants("a file of results that is not whole", (made("0", f"{room}/cut"), read(results_file)), (2, text))
        said = tests.refuses("what is no result", ValueError, lambda: linux_results.results_in(results_file))
        tests.wants("where it is", said.partition(": ")[0], f"{results_file}:{line}")
    tests.wants("written once more, nothing is added", (made("0", f"{room}/seen", "--write"), len(linux_results.results_in(runs.KEPT)), wanted in read(runs.PAGE)), (0, 5, True))
    tests.wants("without runs the table of those that are kept", (made("0", f"{room}/none", "--write"), wanted in read(runs.PAGE)), (0, True))


def of_earlier_folders(tests, folder, made):
    """A folder that an interrupted run left is made anew, unless another process records into it; one that no recorder made stays."""
    run = f"{folder}/0000"
    for it in (folder, run):
        folders.take(it, ())
    with open(f"{run}/verdict", "w", encoding="ascii") as out:
        out.write("of an interrupted run")
    with open(f"{run}/{folders.MARK}", encoding="ascii") as mark:
        folders.HELD.pop(os.path.realpath(run)).close()
        fcntl.flock(mark, fcntl.LOCK_EX)
        tests.wants("a run into the folder of one that is under way", (made("1", folder, "--", "0"), read(f"{run}/verdict")), (2, "of an interrupted run"))
    tests.wants("a run into the folder of one that was interrupted", (made("1", folder, "--", "0"), read(f"{run}/verdict")), (0, ""))
    os.makedirs(f"{folder}/0001")
    open(f"{folder}/0001/mine", "w").close()
    tests.wants("a run into a folder of a user", (made("1", folder, "--", "0"), os.listdir(f"{folder}/0001")), (2, ["mine"]))


def of_kept_results(tests):
    """The table of runs is that of the results that the checkout keeps."""
    runs = command("linux_runs")
    page = read(runs.PAGE)
    tests.wants("the table of what is kept", found_page.put(page, runs.told(linux_results.results_in(runs.KEPT)), runs.MARKS) == page, True)


def of_interfaces(tests):
    tests.wants("the plugins' interfaces", [dialect.interface_of(dialect.version_of(version)) for version in ("5.2.0", "7.2.22", "8.1.0", "10.0.13", "11.1.3", "12.0.0")],
                [None, 1, 1, 4, 7, 7])


def run(tests):
    of_gates(tests)
    of_an_initramfs(tests)
    of_interfaces(tests)
    of_results(tests)
    of_kept_results(tests)
    of_workloads(tests)
    of_the_machine(tests)
    of_precopy_alone(tests)
    of_a_guest_that_stands_still(tests)
    of_boots(tests)
    for of_them in (of_packages, of_words, of_a_guest_that_does_not_boot, of_a_guest_that_says_what_is_wrong, of_what_a_guest_says, of_runs):
        with tempfile.TemporaryDirectory() as room:
            of_them(tests, room)

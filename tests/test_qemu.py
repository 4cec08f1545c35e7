"""Migrations between two QEMUs of this machine, recorded and judged: each kind, and faults that have to be found.

A verdict, or an end of a QEMU, other than expected is a failure; nothing is tried again, and the folder is kept. A few of the
cases are run, and where QEMU is not there, and may not be installed, they are left out. So is a migration that this machine was too
slow for, so that it did not come to what was planned. With --all each case is run, and Linux guests too, by the QEMU of --qemu, and
what did not come to that is a failure; what is expected of a newer QEMU than 7.2 is told by its version.
"""
import glob
import json
import os
import re
import shutil
import signal
import subprocess
import sys
import tempfile
import time

import pytest

TOP = os.path.dirname(os.path.dirname(os.path.abspath(__file__)))
sys.path[:0] = [f"{TOP}/recorders/qemu", f"{TOP}/recorders"]
import build
from dialect import RUNS
from emulator import Emulator
from needed import can_have
from pipe import text_of

NEEDED = ("qemu-system-x86_64:qemu-system-x86", "gcc:gcc,libc6-dev", "ld:binutils")
CLEAN, DONE = "clean, yes", "source completed, target completed"

# A name, the words of `migrate`, and patterns of what the audit and what QEMU have to say.
KINDS = [(kind, [kind, "--flush"], CLEAN, DONE) for kind in
         ("live", "left", "cells", "wide", "paused", "processors", "preempt", "recovery", "preempt-recovery", "reconnect", "suspended", "multifd-preempt")]
FAULTS = [
    ("lost-write", ["lost-write"], "faulty line [0-9]+ read", DONE),
    ("lost-write-flush", ["lost-write", "--flush"], CLEAN, DONE),
    ("flip", ["live", "--flush", "--fault", "flip"], "faulty line [0-9]+ (read|altered)", DONE),
    ("flip-end", ["live", "--flush", "--fault", "flip-end"], "faulty line [0-9]+ altered", DONE),
    ("stale", ["live", "--flush", "--pages", "512", "--fault", "stale"], "faulty line [0-9]+ (read|altered)", DONE),
    ("swap", ["live", "--flush", "--pages", "512", "--fault", "swap"], "faulty line [0-9]+ (read|altered)", DONE),
    ("drop", ["live", "--flush", "--pages", "512", "--fault", "drop", "--after", "20000"], "faulty line [0-9]+ (early|read)", DONE),
    ("keep-drop", ["live", "--flush", "--pages", "512", "--fault", "keep-drop", "--after", "20000"], "faulty line [0-9]+ (early|read)", DONE),
    ("preflip", ["left", "--flush", "--fault", "preflip"], "faulty line [0-9]+ (read|altered)", DONE),
    ("forget", ["recovery", "--flush", "--fault", "forget", "--skip", "0", "--after", "20000"], "faulty line [0-9]+ (early|read)", DONE),
    ("early", ["live", "--flush", "--fault", "early"], "faulty line [0-9]+ (early|read)", DONE),
]
# The axes: another memory, another machine, a capability. Where the window is in the second RAM block, all versions lose writes: it looks as if
# nothing were left to send, so pre-copy may come to its end.
LOST_IN_PRECOPY = "not judged: there was no post-copy: .*; pre-copy lost [0-9]+ of 64 pages"
AXES = [
    ("numa", ["live", "--flush", "--memory", "numa"], CLEAN, DONE),
    ("dimm", ["recovery", "--flush", "--memory", "dimm"], CLEAN, DONE),
    ("numa-lost-write", ["lost-write", "--memory", "numa"], f"faulty line [0-9]+ read|{LOST_IN_PRECOPY}", DONE),
    ("hot-pages", ["hot-pages"], f"{CLEAN}|faulty line [0-9]+ (read|altered)", DONE),
    ("hot-pages-flush", ["hot-pages", "--flush"], CLEAN, DONE),
    ("virtio-mem", ["live", "--flush", "--memory", "virtio-mem"], CLEAN, DONE),
    ("tcp", ["preempt", "--flush", "--transport", "tcp"], CLEAN, DONE),
    ("fd", ["recovery", "--flush", "--transport", "fd"], CLEAN, DONE),
    ("uneven-lost-write", ["lost-write", "--memory", "uneven"], "faulty line [0-9]+ read", DONE),
    ("q35", ["live", "--flush", "--machine", "q35"], CLEAN, DONE),
    ("microvm", ["live", "--flush", "--machine", "microvm"], CLEAN, DONE),
    ("kvm", ["kvm"], CLEAN, DONE),
    ("dirty-ring", ["dirty-ring"], CLEAN, DONE),
    ("xbzrle", ["left", "--flush", "--capability", "xbzrle"], CLEAN, DONE),
    ("auto-converge", ["preempt", "--flush", "--capability", "auto-converge", "--parameter", "cpu-throttle-initial=5"], CLEAN, DONE),
]
# Ends of QEMU, those of 7.2. What is left of the logs is judged; a target whose load has failed may start the guest before it ends.
# That guest may have lost its own stack with the other pages, and then it tells what is no event.
LEFT = "incomplete .*|faulty line [0-9]+ (read|early)"
ENDS = [
    ("keep", ["live", "--flush", "--fault", "keep"], LEFT, "source postcopy-[a-z]*, target (ENDED|failed|postcopy-paused)"),
    ("twice", ["live", "--flush", "--fault", "twice"], LEFT, "source postcopy-[a-z]*, target (ENDED|failed|postcopy-paused)"),
    ("handshake", ["handshake", "--flush"], LEFT, "source postcopy-[a-z]*, target ENDED"),
    ("cut-behind-package", ["preempt", "--flush", "--cut", "-1"], LEFT, "source postcopy-paused, target ENDED"),
    ("started-after-failed-load", ["recovery", "--flush", "--pages", "64", "--cpus", "2", "--writes", "15", "--pace", "20000", "--warm", "200",
                                   "--pre-pages", "80", "--cut", "-1", "--linger", "100"],
     f"{LEFT}|not judged: the guest's bytes .*", "source postcopy-(active|paused), target (ENDED|failed)"),
    ("cut-behind-last-page", ["recovery", "--flush", "--pages", "64", "--cut", "55"], "incomplete page [0-9]+", "source postcopy-active, target postcopy-paused"),
]
# A side that is killed: which, once what is told in its file, and patterns of what the audit and what QEMU have to say.
KILLED = [
    ("target", RUNS, "incomplete page [0-9]+", "source postcopy-[a-z]*, target ENDED"),
    ("source", "ram_save_page ", "not judged: there was no post-copy: .*", "source ENDED, target ENDED"),
]
CASES = KINDS + FAULTS + AXES + ENDS
# An unmodified Linux guest, by recorders/qemu/linux: a name, its words, and patterns of what the audit has to say and of the status.
LINUX = [("clean", [], CLEAN, 0), *((fault, ["--fault", fault], "faulty line [0-9]+ (read|altered|early|stale)", 1)
                                    for fault in ("flip", "stale", "swap", "drop", "keep-drop", "preflip"))]
# What a newer QEMU does in a case, from a version on: lost writes are gone, and the source starts its guest again.
AGAIN = "shape line [0-9]+ both|incomplete returned"
NEWER = {
    "lost-write": [((10, 0), CLEAN, DONE)],
    "handshake": [((10, 0), CLEAN, DONE), ((11, 0), "incomplete page [0-9]+", "source postcopy-paused, target ENDED")],
    "hot-pages": [((10, 0), CLEAN, DONE), ((11, 0), "faulty line [0-9]+ read", DONE)],
    "uneven-lost-write": [((10, 0), "not judged: there was no post-copy: .*", "source ENDED, target ENDED")],
    "cut-behind-last-page": [((10, 0), AGAIN, "source failed, target postcopy-paused")],
    "cut-behind-package": [((11, 1), AGAIN, "source failed, target (HANGS|ENDED|failed|postcopy-paused)")],
    "started-after-failed-load": [((11, 1), AGAIN, "source failed, target (ENDED|failed|postcopy-paused)")],
}
# Kinds that only some versions can have: since. (10.0 refuses multifd with post-copy.) And those that need KVM.
SINCE = {"suspended": (9, 0), "multifd-preempt": (11, 0), "dirty-ring": (6, 1)}
BY_KVM = ("kvm", "dirty-ring")
# A fault that recorders/qemu/shows shows, and the versions that have it: since, and up to, which is not included.
SHOWN = [("lost-write", (0, 0), (10, 0)), ("uneven", (10, 0), (100, 0)), ("both-ran", (10, 0), (100, 0)), ("source-waits", (0, 0), (10, 0)), ("syncs", (11, 0), (100, 0))]
# What the name of each folder ends with: QEMU's options are cut at commas, its log's name has a percent sign for the process,
# and a socket's path has at most 107 bytes.
STRANGE = f", 100%s of = 'it' {'x' * 100}"
IN_GATE = ("live", "left", "preempt", "preempt-recovery", "flip")

pytestmark = pytest.mark.qemu


def what_is_missing(qemu, may_install):
    """Words for what this machine lacks, or None."""
    try:
        build.require_tools()
        Emulator(qemu)
        return None
    except build.Missing as fault:
        missing = str(fault)
    return what_is_missing(qemu, False) if may_install and can_have(*NEEDED) else missing


def too_slow(folder):
    """Why a migration did not come to what was planned, where the machine was too slow for it."""
    try:
        with open(f"{folder}/outcome.json", encoding="utf-8") as file:
            remarks = json.load(file)["remarks"]
    except OSError:
        return None
    return next((it for it in remarks if re.match("pre-copy: (completed|device)|it took more than|[0-9]+ cut not reached", it)), None)


def wanted_of(name, version, verdict, outcome):
    """What a case has to come to, by a QEMU of this version."""
    for since, newer_verdict, newer_outcome in NEWER.get(name, ()):
        if version >= since:
            verdict, outcome = newer_verdict, newer_outcome
    return verdict, outcome


def run(case, qemu, room, is_in_gate):
    """Whether a case went as it should, or was left out, and a line that tells it."""
    name, words, *wanted = case
    verdict, outcome = wanted_of(name, Emulator(qemu).version, *wanted)
    folder = f"{room}/{name}{STRANGE}"
    began, less = time.monotonic(), ["--after", "500"] if is_in_gate else []
    done = subprocess.run([f"{TOP}/recorders/qemu/migrate", *words, *less, "--qemu", qemu, "--quiet", folder], stdout=subprocess.PIPE, text=True)
    said = dict(re.findall(r"^(QEMU|The audit) says: (.*)$", done.stdout, re.MULTILINE))
    status = 0 if (said.get("The audit"), said.get("QEMU")) == (CLEAN, DONE) else 1
    is_right = bool(re.fullmatch(verdict, said.get("The audit", "")) and re.fullmatch(outcome, said.get("QEMU", ""))) and done.returncode == status
    line = f"{said.get('The audit', 'no verdict')}; {said.get('QEMU', 'nothing of QEMU')}; status {done.returncode}; {time.monotonic() - began:.1f} s"
    if is_right:
        shutil.rmtree(folder)
        return True, f"{name}: {line}"
    why = too_slow(folder) if is_in_gate else None
    if why and not said.get("The audit", "").startswith("faulty"):
        pytest.skip(why)
    return False, f"failed: {name}: {line}\n  wanted {verdict}; {outcome}\n  kept in {folder}"


@pytest.fixture(scope="module")
def qemu(pytestconfig):
    """The name of a QEMU that is there, with what its recorder needs."""
    name = pytestconfig.getoption("--qemu")
    is_all = pytestconfig.getoption("--all")
    if missing := what_is_missing(name, not is_all):
        (pytest.fail if is_all else pytest.skip)(missing)
    build.build()
    return name


def pytest_generate_tests(metafunc):
    is_all = metafunc.config.getoption("--all")
    if metafunc.function is test_linux:
        cases = LINUX if is_all else LINUX[:1]  # which tells that all are left out
    elif metafunc.function is test_killed:
        cases = KILLED if is_all else KILLED[:1]
    elif metafunc.function is test_shows:
        cases = SHOWN if is_all else SHOWN[:2]
    else:
        cases = [it for it in CASES if is_all or it[0] in IN_GATE]
    metafunc.parametrize("case", cases, ids=[it[0] for it in cases])


def test_qemu(qemu, program, pytestconfig, monkeypatch, case):
    monkeypatch.setenv("POSTCOPY", program)
    if Emulator(qemu).version < SINCE.get(case[0], (0, 0)):
        pytest.skip(f"a QEMU of this version cannot have {case[0]}, or lacks it")
    if case[0] in BY_KVM and not os.access("/dev/kvm", os.R_OK | os.W_OK):
        pytest.skip("there is no /dev/kvm that this user may open")
    room = tempfile.mkdtemp(prefix="qemu-")
    is_right, line = run(case, qemu, room, not pytestconfig.getoption("--all"))
    assert is_right, line
    shutil.rmtree(room)


def process_of(side, folder):
    """The number of the process of a QEMU that runs in a folder."""
    for path in glob.glob("/proc/[0-9]*"):
        try:
            with open(f"{path}/cmdline", "rb") as words:
                if b"-name\0%s\0" % side.encode() in words.read() and os.path.samefile(f"{path}/cwd", folder):
                    return int(os.path.basename(path))
        except OSError:
            pass  # it has ended, or is somebody else's
    raise AssertionError(f"no {side} runs in {folder}")


def kill(side, moment, folder, recorder):
    """Kills a side once its file tells of a moment. Answers whether it did before the recorder ended."""
    while recorder.poll() is None:
        if os.path.exists(f"{folder}/{side}.raw"):
            with open(f"{folder}/{side}.raw", "rb") as told:
                if moment in text_of(told.read()):
                    os.kill(process_of(side, folder), signal.SIGKILL)
                    return True
        time.sleep(0.02)
    return False


def test_killed(qemu, program, pytestconfig, monkeypatch, case):
    """A side that is killed leaves nothing green."""
    monkeypatch.setenv("POSTCOPY", program)
    side, moment, verdict, outcome = case
    folder = f"{tempfile.mkdtemp(prefix='qemu-')}/killed"
    words = [f"{TOP}/recorders/qemu/migrate", "live", "--flush", "--warm", "200", "--pace", "20000", "--post-bandwidth", "100000", "--qemu", qemu, "--quiet", folder]
    with subprocess.Popen(words, stdout=subprocess.PIPE, text=True) as recorder:
        is_killed = kill(side, moment, folder, recorder)
        said = recorder.stdout.read()
    if not is_killed and not pytestconfig.getoption("--all") and (why := too_slow(folder)):
        pytest.skip(why)
    found = dict(re.findall(r"^(QEMU|The audit) says: (.*)$", said, re.MULTILINE))
    is_right = re.fullmatch(verdict, found.get("The audit", "")) and re.fullmatch(outcome, found.get("QEMU", ""))
    assert is_right, f"{said}\n  wanted {verdict}; {outcome}\n  kept in {folder}"
    assert (recorder.returncode, f"\nThe {side} was killed by signal 9: " in said, os.path.exists(f"{folder}/certificate")) == (1, True, False), folder
    shutil.rmtree(os.path.dirname(folder))


def test_shows(qemu, pytestconfig, case):
    """A fault is shown where a version has it, and else it is told that it is not."""
    name, since, before = case
    done = subprocess.run([f"{TOP}/recorders/qemu/shows", name, "--qemu", qemu], capture_output=True, text=True)
    if done.returncode == 3 and not pytestconfig.getoption("--all"):
        pytest.skip(done.stdout.splitlines()[-1])
    is_there = since <= Emulator(qemu).version < before
    wanted = (1, "shown: ") if is_there else (0, "not shown: ")
    assert (done.returncode, done.stdout.splitlines()[-1].startswith(wanted[1])) == (wanted[0], True), f"{done.stdout}{done.stderr}"


def test_linux(qemu, program, pytestconfig, monkeypatch, case):
    if not pytestconfig.getoption("--all"):
        pytest.skip(f"{len(LINUX)} migrations of Linux guests take a minute and 2 GB of disk each: --all makes them")
    monkeypatch.setenv("POSTCOPY", program)
    name, words, verdict, status = case
    room = tempfile.mkdtemp(prefix="linux-")
    done = subprocess.run([f"{TOP}/recorders/qemu/linux", *words, "--qemu", qemu, "--quiet", f"{room}/{name}{STRANGE}"], capture_output=True, text=True)
    said = dict(re.findall(r"^(QEMU|The audit) says: (.*)$", done.stdout, re.MULTILINE))
    is_right = re.fullmatch(verdict, said.get("The audit", "")) and done.returncode == status
    assert is_right, f"failed: {name}: {done.stdout}{done.stderr}\n  wanted {verdict}, status {status}\n  kept in {room}"
    shutil.rmtree(room)

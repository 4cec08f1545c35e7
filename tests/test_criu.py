"""Lazy migrations of a process by CRIU, recorded and judged: each kind, faults that have to be found, and the hang that CRIU has.

A verdict, or an end of CRIU, other than expected is a failure; nothing is tried again, and the folder is kept. A few of the cases
are run, and with --all each; where there is no root with a CRIU, which `recorders/criu/versions` makes, they are left out.
"""
import os
import re
import shutil
import subprocess
import sys
import tempfile
import time

import pytest

TOP = os.path.dirname(os.path.dirname(os.path.abspath(__file__)))
sys.path[:0] = [f"{TOP}/recorders/criu", f"{TOP}/recorders"]
import criu_build
from roots import Missing

CLEAN, DONE = "clean, yes", "dump ended, lazy-pages ended, restore ended"
FOUND = "faulty line [0-9]+ (read|altered|early)"
STUCK = "dump waits, lazy-pages (hangs|does nothing more|asks for the same pages over and over), restore ended"

# A name, the words of `migrate`, and patterns of what the audit and what CRIU have to say.
CASES = [
    *((kind, [kind], CLEAN, DONE) for kind in ("live", "wide", "cells", "threads", "released")),
    ("releases", ["releases", "--releases", "1"], f"{CLEAN}|incomplete .*", f"{DONE}|{STUCK}"),
    *((fault, ["live", "--fault", fault], FOUND, DONE) for fault in ("flip", "flip-end", "zero", "stale", "swap", "early")),
    ("short", ["live", "--fault", "short"], CLEAN, DONE),
    ("lose", ["live", "--fault", "lose"], "incomplete page [0-9]+", STUCK),
    ("cut", ["live", "--fault", "cut"], FOUND, r"dump ended, lazy-pages failed \(1\), restore ended"),
    ("split", ["split"], "incomplete page [0-9]+", STUCK),
    ("split-two", ["split-two"], f"{CLEAN}|incomplete .*", f"{DONE}|{STUCK}"),
]
IN_GATE = ("live", "released", "flip")

pytestmark = pytest.mark.qemu


def run(case, room):
    """Whether a case went as it should, and a line that tells it."""
    name, words, verdict, outcome = case
    folder, began = f"{room}/{name}, of 'it'", time.monotonic()
    done = subprocess.run([f"{TOP}/recorders/criu/migrate", *words, "--quiet", folder], stdout=subprocess.PIPE, text=True)
    said = dict(re.findall(r"^(CRIU|The audit) says: (.*)$", done.stdout, re.MULTILINE))
    is_right = bool(re.fullmatch(verdict, said.get("The audit", "")) and re.fullmatch(outcome, said.get("CRIU", "")))
    line = f"{said.get('The audit', 'no verdict')}; {said.get('CRIU', 'nothing of CRIU')}; {time.monotonic() - began:.1f} s"
    if is_right:
        shutil.rmtree(folder)
        return True, f"{name}: {line}"
    return False, f"failed: {name}: {line}\n  wanted {verdict}; {outcome}\n  kept in {folder}"


@pytest.fixture(scope="module")
def criu(pytestconfig):
    """What the recorder of CRIU needs."""
    try:
        criu_build.require_rights()
        criu_build.versions()
        criu_build.build()
    except Missing as missing:
        (pytest.fail if pytestconfig.getoption("--all") else pytest.skip)(str(missing))


def pytest_generate_tests(metafunc):
    cases = [it for it in CASES if metafunc.config.getoption("--all") or it[0] in IN_GATE]
    metafunc.parametrize("case", cases, ids=[it[0] for it in cases])


def test_criu(criu, program, monkeypatch, case):
    monkeypatch.setenv("POSTCOPY", program)
    room = tempfile.mkdtemp(prefix="criu-")
    is_right, line = run(case, room)
    assert is_right, line
    shutil.rmtree(room)

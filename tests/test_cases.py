"""How cases are counted: a test fails where one of its cases does, and where there are fewer than it says; what is left out is told."""
import os
import subprocess
import sys

import pytest

TOP = os.path.dirname(os.path.dirname(os.path.abspath(__file__)))

# Tests of each kind, and how each ends.
TESTS = """
import pytest
from cases import count, leave_out, right, same

@pytest.mark.cases(2)
def test_well():
    assert same("a number", 1, 1) and count(True, "a truth")

def test_differs():
    same("a number", 1, 1)
    assert not same("another number", 1, 2)

def test_untrue():
    count(False, "an untruth")

def test_wrong():
    right(None, "nothing")
    right("it is wrong", "something")

@pytest.mark.cases(2)
def test_few():
    count(True, "the only one")

@pytest.mark.cases(2)
def test_left_out():
    leave_out("a part, since it cannot be")

def test_skipped():
    pytest.skip("it cannot be tried")

def test_after_a_failure():
    count(True, "one of its own")
"""
FAILED = ("failed: another number: '1', not '2'", "failed: an untruth", "failed: something: it is wrong", "1 of 2 cases failed", "1 of 1 cases failed",
          "there were 1 cases, and there have to be 2", "left out: test_all.py::test_left_out: a part, since it cannot be",
          "left out: test_all.py::test_skipped: it cannot be tried")


@pytest.mark.quick
@pytest.mark.parametrize("side_by_side", ((), ("-n", "2")), ids=("one", "two"))
def test_counts(room, side_by_side):
    with open(f"{room}/test_all.py", "w", encoding="utf-8") as file:
        file.write(TESTS)
    words = [sys.executable, "-m", "pytest", "-p", "conftest", "-c", f"{TOP}/pytest.ini", "--rootdir", room, "-q", *side_by_side, f"{room}/test_all.py"]
    env = {**{name: value for name, value in os.environ.items() if not name.startswith("PYTEST_")}, "PYTHONPATH": f"{TOP}/tests"}
    ran = subprocess.run(words, cwd=room, env=env, stdin=subprocess.DEVNULL, stdout=subprocess.PIPE, stderr=subprocess.STDOUT, text=True)
    assert [it for it in FAILED if it not in ran.stdout] == [], ran.stdout
    assert ran.stdout.endswith("\n3 passed, 4 failed, 2 left out\n") and ran.returncode == 1, ran.stdout

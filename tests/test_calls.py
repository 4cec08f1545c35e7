"""Runs the tests of the crates' calls, as tried and not as proved code.

A test is a check of a program: it is compiled and run with checks of each index, sum and access, but it is not proved, since a proof of
a test says nothing more of what it tests. So the crates of tests stand here, in tests/calls, and not among the crates
that 'rt ci' proves. 'rt ci' refuses a file NAME.rt that it does not read, so these end in '.rs'. tests/calls/crates.list
names each with what it depends on, in the form of crates.txt.

They are compiled as modules of the program that has the planted bodies too, each behind its number (planted_programs.py). By the words
`calls NAME` it runs the function of this name that is marked #[test] in the sources. test_refused_calls.py runs those of refused_calls.
"""
import os
import subprocess

import cases
import pytest
from call_crates import CALLS, listed, tests_of
from cases import count, each
from planted_programs import program_with_bodies

# How long one test may take, in seconds, on a slow machine that other work uses too, and where a wrong body may wait for ever. Most end
# within one.
LIMIT, SHORT_LIMIT = 900, 60
MODULES = {module: tests for name in listed() if name != "refused_calls" for module, tests in tests_of(name).items()}

pytestmark = [pytest.mark.toolchain, pytest.mark.slow, pytest.mark.first, pytest.mark.xdist_group("calls")]


@pytest.mark.parametrize("module", [pytest.param(it, id=it.replace("::", "-")) for it in MODULES])
def test_calls(made_once, pytestconfig, module):
    program = pytestconfig.getoption("--calls") or program_with_bodies(made_once)
    for test in each(MODULES[module], name=str):
        try:
            ran = subprocess.run([program, "calls", test], stdin=subprocess.DEVNULL, stdout=subprocess.PIPE, stderr=subprocess.STDOUT, errors="replace",
                                 timeout=SHORT_LIMIT if cases.ends_at_first else LIMIT)
            count(ran.returncode == 0, f"{test}: {ran.stdout[-3000:]}")
        except subprocess.TimeoutExpired:
            count(False, f"{test}: it does not end")


def test_each_is_listed():
    assert {*listed()} == {it for it in os.listdir(CALLS) if os.path.isdir(f"{CALLS}/{it}")}

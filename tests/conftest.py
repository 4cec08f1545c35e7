"""What the tests have in common: options, fixtures, and how cases are counted.

A test tries one case, or many that it counts by the functions of cases.py: it fails where one of them does, and where there were fewer
than its mark `cases` says. A part that is left out is told with the reason, at the end.
"""
import atexit
import os
import shlex
import shutil
import subprocess
import sys
import tempfile

import case_table
import cases
import pytest
from made_once import MadeOnce

# Where the environment says which folder has what is made once.
MADE_ONCE = "TESTS_MADE_ONCE"
TOP = os.path.dirname(os.path.dirname(os.path.abspath(__file__)))
sys.dont_write_bytecode = True
sys.path[:0] = [f"{TOP}/tests/models", f"{TOP}/bindings/python"]


def pytest_addoption(parser):
    group = parser.getgroup("postcopy")
    group.addoption("--program", default=f"{TOP}/crates/postcopy/out/postcopy", help="the program to test")
    group.addoption("--all", action="store_true", help="also the cases that the gate leaves out, since they take minutes")
    group.addoption("--first", action="store_true", help="end at the first case that fails")
    group.addoption("--up-to", type=int, metavar="N", help="end each test after so many cases")
    group.addoption("--item", metavar="NAME", help="try the item of this name, or number, alone of each test's list")
    group.addoption("--calls", help="the program that the tests of the crates' calls run; one is compiled where none is given")
    group.addoption("--counts", action="store_true", help="tell how many cases each test tried")
    group.addoption("--times", metavar="FILE", help="write how many seconds of processor each test took, the longest first")
    group.addoption("--qemu", default="qemu-system-x86_64", help="the QEMU that the tests of its recorder migrate by; they were run with 7.2, 10.0 and 11.1")


def pytest_collection_modifyitems(items):
    """What needs the toolchain is left out where there is none. What compiles for minutes begins first, and what waits for it last."""
    items.sort(key=lambda item: 0 if item.get_closest_marker("first") else 2 if item.get_closest_marker("last") else 1)
    if not shutil.which("rt"):
        for item in items:
            if item.get_closest_marker("toolchain"):
                item.add_marker(pytest.mark.skip(reason="the Rattle toolchain is not installed: there is no command rt"))


@pytest.hookimpl(tryfirst=True)
def pytest_runtest_setup():
    cases.begin()


@pytest.hookimpl(trylast=True)
def pytest_runtest_call(item):
    """After a test: whether its cases came out as wanted, and are as many as there have to be."""
    made, least = cases.running, item.get_closest_marker("cases")
    item.user_properties.append(("cases", max(made.made(), 1)))
    item.user_properties += [("left out", it) for it in made.left_out]
    if made.failed:
        pytest.fail(f"{len(made.failed)} of {made.made()} cases failed", pytrace=False)
    if least and made.made() < least.args[0] and not made.left_out:
        pytest.fail(f"there were {made.made()} cases, and there have to be {least.args[0]}", pytrace=False)
    if not cases.ends_at_first and (cases.most, cases.alone) == (None, None):
        MadeOnce(os.environ[MADE_ONCE]).note(f"passed {item.nodeid.partition('@')[0]}")


def spent():
    """The seconds of processor that this process has taken, and those that it waited for."""
    return sum(os.times()[:4])


class Times:
    """Notes in each report what was spent since the one before it."""

    def __init__(self):
        self.before = 0.0

    def pytest_runtest_logstart(self):
        self.before = spent()

    @pytest.hookimpl(hookwrapper=True)
    def pytest_runtest_makereport(self):
        made, now = (yield).get_result(), spent()
        made.user_properties.append(("seconds", now - self.before))
        self.before = now


class Told:
    """What is told after all tests: how many cases there were, what was left out, and the sums."""

    def __init__(self):
        self.cases, self.left_out, self.told, self.counts, self.seconds = {}, [], [], {"passed": 0, "failed": 0, "skipped": 0}, {}

    def pytest_runtest_logreport(self, report):
        if report.when == "call" or report.outcome != "passed":
            self.counts[report.outcome] += 1
        for name, value in report.user_properties:
            if name == "seconds":
                self.seconds[report.nodeid] = self.seconds.get(report.nodeid, 0) + value
            elif report.when == "call" and name == "cases":
                self.cases[report.nodeid] = value
            elif report.when == "call" and name == "told":
                self.told += [value] * bool(value)
            elif report.when == "call":
                self.left_out.append((report.nodeid, value))
        if report.skipped:
            self.left_out.append((report.nodeid, report.longrepr[2].removeprefix("Skipped: ")))

    def pytest_terminal_summary(self, terminalreporter, config):
        if config.getoption("--counts"):
            for test, count in self.cases.items():
                terminalreporter.write_line(f"{count:,} cases: {test}")
        if config.getoption("--times"):
            with open(config.getoption("--times"), "w", encoding="utf-8") as file:
                file.writelines(f"{self.seconds[it]:8.2f} {it}\n" for it in sorted(self.seconds, key=self.seconds.get, reverse=True))
                file.write(f"{sum(self.seconds.values()):8.2f} all\n")
        for what in self.told:
            terminalreporter.write_line(what)
        for test, what in self.left_out:
            terminalreporter.write_line(f"left out: {test}: {what}")
        terminalreporter.write_line(f"{sum(self.cases.values()):,} cases")

    @pytest.hookimpl(trylast=True)
    def pytest_unconfigure(self):
        left_out = f", {len(self.left_out)} left out" if self.left_out else ""
        print(f"{self.counts['passed']} passed, {self.counts['failed']} failed{left_out}")


def folder_of_this_process(name):
    """A folder that is gone once this process has ended."""
    room = tempfile.mkdtemp(prefix=f"postcopy-{name}-")
    atexit.register(shutil.rmtree, room, ignore_errors=True)
    return room


def have_scripts_run_by_this_interpreter():
    """Puts a `python3` before all others that is this interpreter, and not one that looks for another, as a tool of versions does for tenths of a second."""
    room = folder_of_this_process("python")
    with open(f"{room}/python3", "w", encoding="utf-8") as file:
        file.write(f'#!/bin/sh\nexec {shlex.quote(sys.executable)} "$@"\n')
    os.chmod(file.name, 0o755)
    os.environ["PATH"] = f"{room}:{os.environ['PATH']}"


def pytest_configure(config):
    if MADE_ONCE not in os.environ:
        os.environ[MADE_ONCE] = folder_of_this_process("made")
    if case_table.LAID_OUT not in os.environ:
        # (the processes of xdist share what this one has made)
        os.environ[case_table.LAID_OUT] = case_table.CASES
        have_scripts_run_by_this_interpreter()
    cases.ends_at_first, cases.most, cases.alone = config.getoption("--first"), config.getoption("--up-to"), config.getoption("--item")
    if cases.ends_at_first:
        config.option.maxfail = 1
    if config.getoption("--times"):
        config.pluginmanager.register(Times(), "times")
    if not hasattr(config, "workerinput"):
        config.pluginmanager.register(Told(), "told")


@pytest.fixture(scope="session")
def program(pytestconfig):
    """The program, as a path."""
    file = os.path.realpath(pytestconfig.getoption("program"))
    if not os.access(file, os.X_OK):
        pytest.fail(f"there is no program {file}: run tests/quick, ./postcopy or 'rt ci' first", pytrace=False)
    return file


@pytest.fixture(scope="session")
def made_once():
    """What is made once for all processes, those too that run tests for test_planted.py."""
    return MadeOnce(os.environ[MADE_ONCE])


@pytest.fixture
def room():
    """A folder that is empty, and gone after the test."""
    with tempfile.TemporaryDirectory(prefix="postcopy-tests-") as folder:
        yield folder


@pytest.fixture(scope="session")
def cc():
    """Sees to it that there is a C compiler."""
    if subprocess.run([f"{TOP}/tools/need", "cc:gcc,libc6-dev"], stdin=subprocess.DEVNULL).returncode:
        pytest.fail("there is no C compiler: install gcc and libc6-dev", pytrace=False)
    return "cc"


@pytest.fixture(scope="session")
def refusing(cc, made_once):
    """The library that stands before the system's calls, counts them, and refuses some."""
    def make(made):
        words = [cc, "-std=c11", "-O2", "-shared", "-fPIC", "-o", made, f"{TOP}/bindings/c/tests/refusing.c"]
        ran = subprocess.run(words, stdin=subprocess.DEVNULL, stdout=subprocess.PIPE, stderr=subprocess.STDOUT, text=True)
        return ran.stdout if ran.returncode else None

    return made_once.file("refusing.so", make)


@pytest.fixture(scope="session")
def library(cc):
    """The folder of the library for C, where it was built, or put."""
    subprocess.run([f"{TOP}/tools/need", "nm:binutils"], stdin=subprocess.DEVNULL, check=True)
    subprocess.run([f"{TOP}/tools/library"], stdin=subprocess.DEVNULL, stdout=subprocess.DEVNULL, check=True)
    return f"{TOP}/crates/postcopy_c/out"


@pytest.fixture(scope="session")
def page():
    """The page in one file, where it was built, or put."""
    subprocess.run([f"{TOP}/tools/page"], stdin=subprocess.DEVNULL, stdout=subprocess.DEVNULL, check=True)
    return f"{TOP}/crates/postcopy_c/out/postcopy.html"

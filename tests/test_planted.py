"""Whether a test finds each wrong body of tests/planted: it has to fail with the wrong body, and to pass as far where the program has none.

Of a test with a list of items (cases.each), the one that the body's line `item:` names is tried alone. Where that does not find it, the whole
test is run, and the item that does is told, for that line.

Nothing is proved. All bodies of crates stand in one program, each behind its number (planted_programs.py), which is compiled before other
tests run. Those of outside.edits are of files in no crate, such as a recorder's or a model's, and are put into a copy of the tree.

    tests/pytest -n auto --dist loadgroup tests/test_planted.py -k "NAME or NAME"     tries some alone
"""
import os
import re
import resource
import shutil
import signal
import sys
import tempfile
import time
import traceback

import mutants
import pytest
from planted_programs import BODIES, NUMBERS, program_with_bodies
from switched import plant

TOP = os.path.dirname(os.path.dirname(os.path.realpath(__file__)))
# The modules of tests that are given the program as that of the tests of calls.
OF_CALLS = ("tests/test_calls.py", "tests/test_refused_calls.py")
# Of a test that failed, the line that says so, and the one that says with which case, and of which item of its list.
FAILED, CASE = re.compile("^FAILED .*$", re.M), re.compile(r"^case (\d+)(?: of item (.*))? failed, and", re.M)
# What is said where the test as a whole was left out, as where there is no node.
LEFT_OUT = re.compile(r"^left out: [^ ]+: (.*)\n(?:.*\n)*0 passed, 0 failed, 1 left out", re.M)
# How long a test may take, in seconds by the clock, and each program that it runs, in seconds of processor: a wrong body may wait for ever, or
# go round and round. One program makes all calls of a kind that are refused growths.
LIMIT, MOST, MOST_OF_REFUSED = 900, 30, 300

pytestmark = [pytest.mark.toolchain, pytest.mark.slow]


def run_in_fork(words, tree, said, most):
    """Has a fork of this process, which has read pytest and the modules of tests, run them with these words. Another tree's modules are read anew.
    What a test runs may take so many seconds of processor."""
    child = os.fork()
    if child:
        return child
    status = 3
    try:
        os.setsid()
        os.dup2(os.open(os.devnull, os.O_RDONLY), 0)
        for number, name in ((1, "stdout"), (2, "stderr")):
            os.dup2(said.fileno(), number)
            setattr(sys, name, open(number, "w", closefd=False))
        os.environ.pop("PYTEST_XDIST_WORKER", None)
        os.environ["PYTEST_DISABLE_PLUGIN_AUTOLOAD"] = "yes"
        if tree != TOP:
            os.chdir(tree)
            sys.path[:] = [tree + it.removeprefix(TOP) if it.startswith(TOP) else it for it in sys.path]
            for name in [name for name, it in sys.modules.items() if (getattr(it, "__file__", None) or "").startswith(f"{TOP}/")]:
                del sys.modules[name]
        # (this process may take longer: what it runs has no handler)
        signal.signal(signal.SIGXCPU, lambda *_: None)
        resource.setrlimit(resource.RLIMIT_CPU, (most, resource.getrlimit(resource.RLIMIT_CPU)[1]))
        status = int(pytest.main(words))
    except BaseException:
        traceback.print_exc()
    finally:
        sys.stdout.flush()
        os._exit(status)


def status_of(child):
    """Waits for a process: its status, or None where it took too long, and was ended with all that it had started."""
    until = time.monotonic() + LIMIT
    while time.monotonic() < until:
        ended, status = os.waitpid(child, os.WNOHANG)
        if ended:
            return os.waitstatus_to_exitcode(status)
        time.sleep(0.02)
    os.killpg(child, signal.SIGKILL)
    os.waitpid(child, 0)
    return None


def is_of_calls(test):
    return test.partition("::")[0] in OF_CALLS


def run_test(test, tree, program, *part):
    """Runs a test of a tree, or a part of it, to its first case that fails: the status, and what was printed."""
    words = ["-q", "--first", "-p", "no:cacheprovider", "-p", "no:xdist", f"--{'calls' if is_of_calls(test) else 'program'}={program}", *part]
    with tempfile.TemporaryFile() as said:
        seconds = MOST_OF_REFUSED if test.startswith("tests/test_refused_calls.py") else MOST
        status = status_of(run_in_fork([*words, f"{tree}/{test}"], tree, said, seconds))
        said.seek(0)
        return status, said.read().decode(errors="replace")


def part_of(item):
    return [] if item is None else [f"--item={item}"]


def require_right(made_once, test, program, found, runs_as_it_is):
    """Sees to it that a test passes where no wrong body runs: the item that found one, or up to the case that did, or the next power of two, so that
    it is run seldom. Where the test `runs_as_it_is`, with that program and of this tree, it may have passed already."""
    if runs_as_it_is and made_once.is_noted(f"passed {test}"):
        return
    part = [] if not found else part_of(found[2]) if found[2] else [f"--up-to={1 << (int(found[1]) - 1).bit_length()}"]

    def make(made):
        status, said = run_test(test, TOP, program, *part)
        if status != 0:
            return said[-6000:]
        shutil.copy(os.devnull, made)
        return None

    made_once.file(f"passed {test} {os.path.basename(program)} {part}", make)


@pytest.fixture(scope="module")
def tree():
    """A copy of the tree, with the library for C that was built."""
    def unwanted(at, names):
        return [it for it in names if it == ".git" or it == "out" and at != f"{TOP}/crates/postcopy_c"]

    with tempfile.TemporaryDirectory(prefix="postcopy-tests-") as room:
        shutil.copytree(TOP, f"{room}/tree", symlinks=True, ignore=unwanted)
        yield f"{room}/tree"


@pytest.fixture
def planted(name, tree):
    """The copy with a body of no crate."""
    changed = mutants.changed_by(BODIES[name])
    for path, text in changed.items():
        with open(f"{tree}/{path}", "w", encoding="utf-8") as file:
            file.write(text)
    yield tree
    for path in changed:
        shutil.copy2(f"{TOP}/{path}", f"{tree}/{path}")


@pytest.mark.first
@pytest.mark.xdist_group("calls")
def test_program(made_once):
    program_with_bodies(made_once)


def found_by(made_once, name, right, tree, program, runs_as_it_is):
    """Whether a test has found a wrong body, and does not fail for another reason. Gives what is to be told of it, if anything is."""
    test, item = BODIES[name].test, BODIES[name].item
    status, said = run_test(test, tree, program, *part_of(item))
    if status == 0 and item is not None:
        status, said = run_test(test, tree, program)
    print(said[-3000:])
    left_out = LEFT_OUT.search(said)
    if left_out:
        pytest.skip(f"its test is left out: {left_out[1]}")
    assert status is not None, f"{test} does not end"
    assert status, f"{test} does not find it"
    assert FAILED.search(said), "the test was not run"
    found = CASE.search(said)
    require_right(made_once, test, right, found, runs_as_it_is)
    now = found[2] if found else None
    return None if now == item else f"{BODIES[name].file}, {name}: found by item {now} and not {item}"


@pytest.mark.last
@pytest.mark.parametrize("name", NUMBERS)
def test_planted(made_once, room, record_property, name):
    right, program = program_with_bodies(made_once), f"{room}/program"
    plant(right, NUMBERS[name], program)
    record_property("told", found_by(made_once, name, right, TOP, program, is_of_calls(BODIES[name].test)))


@pytest.mark.last
@pytest.mark.xdist_group("copy of the tree")
@pytest.mark.parametrize("name", [it for it in BODIES if it not in NUMBERS])
def test_outside(made_once, program, planted, record_property, name):
    record_property("told", found_by(made_once, name, program, planted, program, True))

"""What the README shows on a fresh Debian, and tests/quick, which are green there, and install nothing: for the superuser and for another
user, in a clone and in an unpacked archive.

The machine has no network, no git, no compiler, and besides what each Debian has only pytest and xdist. All quick tests are run once, of each
the first cases, and with --all four times to their ends. In the other machines a few of them are run, which would install something, or go by who
runs them.
"""
import os
import subprocess
import sys

import fresh_machine
import pytest
from cases import same
from needed import can_have
from page_text import commands_of, read
from test_pages import is_shown
from test_release import copy_of_tree

from roots import Missing, Root, make, path

TOP = os.path.dirname(os.path.dirname(os.path.abspath(__file__)))
ROOT = Root("bookworm-tests", "bookworm", ("python3", "python3-pytest", "python3-pytest-xdist"))
SOMEBODY = 1000
FIRST_CASES = "tests/quick --up-to 10"
FEW = "tests/quick tests/test_gate.py tests/test_release.py -k 'gate or test_version or test_man_pages or test_removal_without_a_right'"
NOT_RUN = {"tests/run": "it is the gate", "tests/quick": "it stands behind the others, perhaps with fewer tests"}

pytestmark = [pytest.mark.slow, pytest.mark.xdist_group("fresh machine")]


def words(tree, source, user, *commands):
    """The words of a command that runs these on a fresh machine."""
    return [sys.executable, "-B", fresh_machine.__file__, tree, source, str(user), *commands]


@pytest.fixture(scope="module")
def root(pytestconfig, tmp_path_factory):
    """The root of a fresh machine, which is made where it can be, and entered once."""
    try:
        can_have("debootstrap:debootstrap,debian-archive-keyring")
        make(ROOT)
        entered = subprocess.run(words(path(ROOT), tmp_path_factory.mktemp("nothing"), 0, "true"), capture_output=True, text=True)
        if entered.stdout != "\0" "0\0":
            raise Missing(entered.stderr.strip().rpartition("\n")[2])
    except (Missing, OSError) as why:
        (pytest.fail if pytestconfig.getoption("--all") else pytest.skip)(f"there is no fresh machine: {why}")
    return path(ROOT)


@pytest.fixture(scope="module")
def sources(root, tmp_path_factory):
    """The tree as it stands, as a clone and as an unpacked archive."""
    room = tmp_path_factory.mktemp("sources")
    clone, archive = copy_of_tree(f"{room}/clone"), f"{room}/archive"
    os.mkdir(archive)
    with subprocess.Popen(["git", "-C", clone, "archive", "HEAD"], stdout=subprocess.PIPE) as made:
        subprocess.run(["tar", "-x", "-C", archive], stdin=made.stdout, check=True)
    return {"clone": clone, "archive": archive}


def without_modules(machine):
    """The quick tests without xdist, and without pytest besides: they run one by one, or nothing is tested, and it is told what to install."""
    no_xdist = "mv /usr/lib/python3/dist-packages/*xdist* /tmp && tests/quick -k test_gate"
    no_pytest = "mv /usr/lib/python3/dist-packages/pytest /tmp && tests/quick"
    install = "tools/need: nothing was installed; to install what is missing: apt-get install --no-install-recommends"
    alone, nothing = machine(no_xdist, no_pytest)
    same("what is told without xdist", alone[0].splitlines()[:2], [f"{install} python3-pytest-xdist", "tests/pytest: there is no xdist, so the tests run one by one"])
    same("the tests without xdist", (alone[1], " 0 failed" in alone[0]), ("0", True))
    same("what is told without pytest", nothing, (f"{install} python3-pytest python3-pytest-xdist\ntests/pytest: there is no pytest, so nothing is tested; "
                                                  "'tests/pytest --install' asks whether to install it\n", "2"))


@pytest.mark.cases(5)
@pytest.mark.parametrize("user", (0, SOMEBODY), ids=("superuser", "somebody"))
@pytest.mark.parametrize("source", ("clone", "archive"))
def test_fresh_machine(root, sources, source, user, pytestconfig):
    is_all = pytestconfig.getoption("--all")
    quick, workers = ("tests/quick", "2") if is_all else (FIRST_CASES, "0") if (source, user) == ("archive", SOMEBODY) else (FEW, "1")
    blocks = [(command, shown) for command, shown, _ in commands_of(read("README.md")) if command not in NOT_RUN]

    def machine(*commands):
        """What the commands write on a machine of their own, each with its status."""
        ran = subprocess.run(words(root, sources[source], user, *commands), stdin=subprocess.DEVNULL, capture_output=True, text=True, env={**os.environ, "PYTEST_XDIST_AUTO_NUM_WORKERS": workers})
        *told, rest = ran.stdout.split("\0")
        same("what the machine tells", (rest + ran.stderr, ran.returncode, len(told)), ("", 0, 2 * len(commands)))
        return list(zip(told[::2], told[1::2]))

    before, *others, last, after, asked = machine("dpkg -l", *(command for command, _ in blocks), quick, "dpkg -l", "cat /asked")
    for (command, shown), (output, status) in zip(blocks, others):
        same(f"what is shown of {command}", (is_shown(shown, output.splitlines()), status), (True, "0"))
    if not same(f"the status of {quick}", last[1], "0"):
        print(last[0])
    same("what is installed in the end", after, before)
    same("what apt-get was asked for", asked, ("", "0"))
    if (source, user) == ("archive", 0):
        without_modules(machine)

"""The gate goes on after a part that fails, tells what came of each part, and is red where the toolchain is not there. Packages are installed in
CI, or when a person says yes. And the list of expensive functions says where it has nothing to list."""
import os
import pty
import re
import shutil
import subprocess

import pytest
from cases import same

TOP = os.path.dirname(os.path.dirname(os.path.abspath(__file__)))
PARTS = ("rt ci", "tools/library --build", "tools/page --build", "tools/compare-shipped", "tests/pytest -n auto --dist loadgroup --durations 15")
LEFT_OUT = "left out: the Rattle toolchain is not installed: there is no command rt"

pytestmark = pytest.mark.quick


def gate(room, failing=(), has_rt=True, out=subprocess.PIPE, script="tests/run", **variables):
    """What the gate says where these parts fail, over commands that only write whether they may install; what came of each part; and its status."""
    for name in ("tools/library", "tools/page", "tools/compare-shipped", "tests/pytest", "bin/rt", "postcopy"):
        if has_rt or name != "bin/rt":
            os.makedirs(os.path.dirname(f"{room}/{name}"), exist_ok=True)
            with open(f"{room}/{name}", "w", encoding="ascii") as file:
                file.write(f'#!/bin/sh\necho "${{POSTCOPY_INSTALL:-no}}" > {room}/installs\nexit {int(name in failing)}\n')
            os.chmod(file.name, 0o755)
    for name in ("tests/run", ".ci/run"):
        os.makedirs(os.path.dirname(f"{room}/{name}"), exist_ok=True)
        shutil.copy(f"{TOP}/{name}", f"{room}/{name}")
    os.makedirs(f"{room}/bin", exist_ok=True)
    for name in ("bash", "dirname"):
        os.symlink(shutil.which(name), f"{room}/bin/{name}")
    ran = subprocess.run([f"{room}/{script}"], env={"PATH": f"{room}/bin", **variables}, stdin=subprocess.DEVNULL, stdout=out, stderr=subprocess.STDOUT, text=True)
    return dict(re.findall(r"^ *\d+:\d\d  (.*?): (.*)$", ran.stdout or "", re.M)), ran.returncode


def test_right(room):
    assert gate(room) == (dict.fromkeys(PARTS, "ok"), 0)


def test_full_disk(room):
    with open("/dev/full", "w", encoding="ascii") as full:
        assert gate(room, out=full) == ({}, 1)


@pytest.mark.parametrize("name, part", (("bin/rt", PARTS[0]), ("tools/page", PARTS[2]), ("tests/pytest", PARTS[4])))
def test_failing(room, name, part):
    assert gate(room, [name]) == ({**dict.fromkeys(PARTS, "ok"), part: "FAILED"}, 1)


@pytest.mark.parametrize("how, wanted", (({}, "no"), ({"CI": ""}, "no"), ({"CI": "true"}, "yes"), ({"script": ".ci/run"}, "yes")))
def test_may_install(room, how, wanted):
    assert gate(room, **how) == (dict.fromkeys(PARTS, "ok"), 0)
    with open(f"{room}/installs", encoding="ascii") as file:
        assert file.read() == f"{wanted}\n"


@pytest.mark.cases(12)
def test_need(room):
    """What tools/need has installed for two commands that are missing, and its status: by whom it is called, and what is answered."""
    for name, script in (("apt-get", f'echo "$*" >> {room}/asked'), ("id", 'echo "$USER_NUMBER"')):
        with open(f"{room}/{name}", "w", encoding="ascii") as file:
            file.write(f"#!/bin/sh\n{script}\n")
        os.chmod(file.name, 0o755)
    install = "-y -qq --no-install-recommends one two three"
    for what, user, answer, may_install, wanted in (("a yes", 0, "y\n", "", 0), ("a no", 0, "n\n", "", 2), ("an empty line", 0, "\n", "", 2), ("no terminal", 0, None, "", 2),
                                                    ("CI", 0, None, "yes", 0), ("another user", 1000, "y\n", "yes", 2)):
        ours, theirs = pty.openpty()
        os.write(ours, (answer or "").encode())
        open(f"{room}/asked", "w", encoding="ascii").close()
        env = {"PATH": f"{room}:{os.environ['PATH']}", "USER_NUMBER": str(user), "POSTCOPY_INSTALL": may_install}
        words = [f"{TOP}/tools/need", "sh:none", "no-such-command:one,two", "/no/such/path:three"]
        ran = subprocess.run(words, stdin=subprocess.DEVNULL if answer is None else theirs, capture_output=True, text=True, env=env)
        os.close(ours)
        os.close(theirs)
        with open(f"{room}/asked", encoding="ascii") as file:
            asked = file.read().splitlines()
        same(f"{what}: the status, and what is installed", (ran.returncode, [it.partition("install ")[2] for it in asked]), (wanted, [] if wanted else ["", install]))
        same(f"{what}: the packages are told", "one two three" in ran.stderr, True)


def test_nothing_kept():
    ran = subprocess.run([f"{TOP}/tools/expensive-functions", "no_such_crate"], stdin=subprocess.DEVNULL, capture_output=True, text=True)
    assert (ran.returncode, ran.stdout, "nothing is kept" in ran.stderr) == (1, "", True)


def test_no_toolchain(room):
    assert gate(room, has_rt=False) == ({**dict.fromkeys(PARTS, LEFT_OUT), PARTS[4]: "ok"}, 1)

"""Linters over all that is in Python, or in a shell's language: pyflakes and shellcheck."""
import os
import subprocess

import pytest
from needed import can_have
from page_sources import tree

TOP = os.path.dirname(os.path.dirname(os.path.abspath(__file__)))
# What each reads, by the ending of a name or by the first line; and the packages of Debian that have it.
LINTERS = {
    "pyflakes3": ("pyflakes3", (".py",), ("python3",)),
    "shellcheck": ("shellcheck", (".sh",), ("/bin/sh", "bash")),
}


def files(endings, interpreters):
    """The files of the repository in a language, but those that a test is about."""
    for name in tree()[0]:
        path = f"{TOP}/{name}"
        if os.path.isfile(path) and not os.path.islink(path) and not name.startswith(("shipped/", "tests/cases/")):
            with open(path, "rb") as file:
                first = file.readline(100).decode("latin-1")
            if name.endswith(endings) or first.startswith("#!") and first.rstrip().endswith(interpreters):
                yield name


@pytest.mark.parametrize("command", LINTERS)
def test_lint(command):
    package, endings, interpreters = LINTERS[command]
    if not can_have(f"{command}:{package}"):
        pytest.skip(f"there is no {command}, and it cannot be installed")
    found = sorted(files(endings, interpreters))
    ran = subprocess.run([command, *(["-x"] if command == "shellcheck" else []), *found], cwd=TOP, stdout=subprocess.PIPE, stderr=subprocess.STDOUT, text=True)
    assert found and (ran.stdout, ran.returncode) == ("", 0), ran.stdout

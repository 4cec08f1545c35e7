"""Whether what the pages say is so: README.md, CONTRIBUTING.md, each page of docs/, and those of examples/.

Each command of a `console` block is run, in a folder of its own for each page, and what it writes is compared with what the page
shows below it, where a line `...` stands for any lines. `python3 NAME.py` runs the last block of Python above it. No variable is
set but PATH, HOME and what the page sets. What is not run is named here, with the reason.

Each link has to lead somewhere. Each crate, function, clause, definition and file that a page names has to be there. Each count
has to be that of the tree, and each sum that of its column. Each answer of the program has to stand in docs/ANSWERS.md and in the
man page, and what tools/pages writes has to be up to date. What else was once said and untrue is looked for in so many words.

Words of a list are refused, and paragraphs that are too long: in the pages as they are, and in pages into which one is planted.
"""
import os
import re
import subprocess
import tempfile

import page_claims
import page_names
import page_style
import pytest
from cases import count, right
from page_sources import Sources
from page_text import TOP, commands_of, page_names as names_of_pages, read

# The beginnings of commands that are not run, and why.
NOT_RUN = {
    "tests/": "these tests are among them",
    "tools/page ": "the gate does it",
    "rt ": "it proves a crate, which takes minutes",
    "cd crates/": "it goes with the proof of a crate",
    "tools/install": "test_release.py does it",
    "tools/release": "test_release.py does it",
    "cc ": "test_library.py and test_recording.py do it",
    "./smallest ": "test_recording.py does it",
    "rustc ": "test_recording.py does it, if rustc is there",
    "LD_LIBRARY_PATH=": "test_library.py does it",
    "apt-get ": "it installs packages",
    "recorders/qemu/": "it moves a guest of QEMU, which takes minutes",
    "recorders/criu/": "it makes a root of another release of Debian, or moves a process by CRIU in one",
}


def is_shown(shown, lines):
    """Whether these lines are what is shown, where a line `...` stands for any lines."""
    if "..." not in shown:
        return shown == lines
    at = shown.index("...")
    after = shown[at + 1:]
    return shown[:at] == lines[:at] and any(is_shown(after, lines[tail:]) for tail in range(at, len(lines) + 1))


def run_commands(page, program):
    """Runs the commands of a page. Yields of each what is wrong, or None."""
    with tempfile.TemporaryDirectory() as work:
        os.symlink(program, f"{work}/postcopy")
        for folder in ("bench", "bindings", "crates", "docs", "examples", "recorders", "share", "tests", "tools"):
            if os.path.isdir(f"{TOP}/{folder}"):
                os.symlink(f"{TOP}/{folder}", f"{work}/{folder}")
        for command, shown, script in commands_of(read(page)):
            if command.startswith(tuple(NOT_RUN)):
                continue
            file = re.fullmatch(r"(?:PYTHONPATH=bindings/python )?python3 (\w+\.py)(?: .*)?", command)
            if file:
                with open(f"{work}/{file[1]}", "w", encoding="utf-8") as opened:
                    opened.write(script)
            env = {"POSTCOPY": program, **{name: os.environ[name] for name in ("PATH", "HOME") if name in os.environ}}
            done = subprocess.run(["bash", "-c", command], cwd=work, env=env, text=True,
                                  stdin=subprocess.DEVNULL, stdout=subprocess.PIPE, stderr=subprocess.STDOUT, timeout=60)
            is_right = is_shown(shown, done.stdout.splitlines())
            yield None if is_right else f"$ {command}\nthe page shows:\n" + "\n".join(shown) + "\nand it wrote:\n" + done.stdout


pytestmark = pytest.mark.quick


@pytest.mark.cases(45)
def test_commands(program):
    for name in names_of_pages():
        for wrong in run_commands(name, program):
            right(wrong, name)


@pytest.mark.cases(2500)
def test_claims():
    pages, sources = {name: read(name) for name in names_of_pages()}, Sources()
    for wrong in (*page_names.wrong(pages, sources), *page_claims.wrong(pages, sources)):
        count(False, wrong)
    for _ in range(page_names.looked_up):
        count(True, "")


def test_style():
    for wrong in page_style.wrong({name: read(name) for name in (*names_of_pages(), "bindings/python/README.md")}):
        count(False, wrong)


PLANTED = {
    "a word": ("A packet meets its fate.", "'fate' is 'delivery outcome'"),
    "words": ("The cause is want of memory.", "'want of memory' is 'out of memory'"),
    "words in a table": ("| A page of one's own | |", "'one's own' is 'your own'"),
    "a long item": ("- A packet that is `fate` or " + "word " * 90, "a paragraph of 97 words, and 90 are the most"),
    "a long paragraph of two lines": ("word " * 60 + "\n" + "word " * 31, "a paragraph of 91 words, and 90 are the most"),
    "a long cell": ("| short | " + "word " * 91 + "|", "a paragraph of 91 words, and 90 are the most"),
    "two paragraphs": ("word " * 90 + "\n\n" + "word " * 90, None),
    "code": ("```text\nfate " + "word " * 91 + "\n```", None),
    "what is written": ("<!-- written by it -->\n| fate | " + "word " * 91 + "|\n<!-- end of it -->", None),
}


@pytest.mark.parametrize("planted, wrong", PLANTED.values(), ids=PLANTED.keys())
def test_planted_style(planted, wrong):
    """A page that is right, and what is planted into it."""
    name = "docs/TOUR.md"
    found = page_style.wrong({name: f"{read(name)}\n{planted}\n\nThe end.\n"})
    line = read(name).count("\n") + 2
    assert found == ([f"{name}, line {line}: {wrong}"] if wrong else [])


@pytest.mark.parametrize("name, most", [("README.md", 6144), ("docs/GUARANTEES.md", 13312), ("docs/FORMATS.md", 51200)])
def test_size(name, most):
    """A page of as many bytes as it may have, and one that has a byte more."""
    right_page = "word\n\n" * (most // 6) + "x" * (most % 6)
    assert page_style.wrong({name: right_page}) == []
    assert page_style.wrong({name: f"{right_page}x"}) == [f"{name} has {most + 1} bytes, and may have {most}"]


def test_written():
    """What tools/pages writes is up to date."""
    done = subprocess.run([f"{TOP}/tools/pages", "--check"], stdout=subprocess.PIPE, stderr=subprocess.STDOUT, text=True)
    assert (done.stdout, done.returncode) == ("", 0)

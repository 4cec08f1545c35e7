"""Refuses growths of memory to the program, for every command with every combination of the options that its help lists.

Each combination is run over texts of several kinds in turn, which are in files, in folders, or the standard input. A growth is refused
alone, or with all after it. The answer is then whole, with the status and the files that it has where none is refused, though what is
told beside it may be left out; or it is 'out of memory', with status 4, and each file is as it was, with no other beside it. Of each
combination the first growth is refused, every second of the last ones, by which an answer is held and gets its name, and some between,
others each time. With --all, which takes some minutes, every one is.
"""
import itertools
import os
import random
import re
import shutil
import subprocess

import pytest
import test_hostile as hostile
from case_table import case_file
from cases import each, right
from command_table import commands
from test_saved import Run, recorded

# What is given for an option that takes any text. `new` and `./new` are one file.
VALUES = {"--output": ["new"], "--lines": ["lines", "./new"], "--page": ["0"], "--line": ["9"]}

# The file that is given for a word, and what is given for one that is a number.
FILES = {"SESSION": "session", "CERT": "certificate", "RUNS": "runs", "SCRIPT": "script", "EVENTS": "events", "INPUT": "session", "FOLDER": "session"}
NUMBERS = {"FIRST": ["0"], "COUNT": ["1", "9"]}

# Where the files are. The sessions of `whole` and `spread` are folders of recorders' files, the second with another one beside it; that of
# `larger` has some thousand records, and is there with --all.
EXAMPLES = ("handover", "early-access", "stale-page", "circle-of-receipts", "released-at-the-target", "placed-over-a-release", "pushed-by-the-lane",
            "wrong-shape", "leading-zero", "replayed", "replayed-too-early", "two-wait-for-a-page", "released-and-pushed", "woken-by-a-release",
            "migrated", "migrated-over-a-lane")
CASES = ("audit-early-access-by-the-lane", "audit-circle-of-receipts", "replay-over-the-lane", "misfit-zeroed-page", "look-below-the-placement",
         "complete-pages-without-the-rest", "replay-runs-leading-zero", "draw-runs-leading-zero", "steps-lane-of-an-unknown-fate", "migrate-script-cut-short")
FOLDERS = (*EXAMPLES, *CASES, "whole", "spread", "larger")

# What the file `lines` has, which is read or written over.
LINES = b"".join(b"%d\n" % line for line in range(1, 41))

# How many growths are at the end of a combination, and how many are refused between: so many of a command, and at least so many of each.
LAST, BETWEEN, LEAST = 8, 400, 2

# All growths there may be, and how long a migration may take, in seconds.
MOST, WAIT = 9999999, 60


def make_inputs(program, room, is_all):
    for folder, names in (("examples", EXAMPLES), ("tests/cases", CASES)):
        for name in names:
            shutil.copytree(case_file(f"{folder}/{name}"), f"{room}/{name}")
    for name in EXAMPLES[:2]:
        shutil.copy(f"{room}/{EXAMPLES[2]}/session", f"{room}/{name}/other")
    for name in ("whole", "spread"):
        os.mkdir(f"{room}/{name}")
        recorded(Run(program, room, None), f"{name}/session", 3)
        certificate = subprocess.run([program, "certify", f"{room}/{name}/session"], capture_output=True, check=True).stdout
        for file, text in (("certificate", certificate), ("runs", b"postcopy-runs 1\nruns " + certificate.partition(b"\nruns ")[2])):
            with open(f"{room}/{name}/{file}", "wb") as made:
                made.write(text)
    os.mkdir(f"{room}/spread/other")
    shutil.move(f"{room}/spread/session/pager.1.0", f"{room}/spread/other")
    if is_all:
        hostile.larger_session(program, f"{room}/larger")


def ways_to_give(word, room, folder):
    """The ways to give a word of a usage, `<SESSION>`, `[RUNS]` or `<SESSION>...`, by what a folder has."""
    name = re.sub(r"\W", "", word)
    if name in NUMBERS:
        return [(it,) for it in NUMBERS[name]]
    file, other = (f"{folder}/{it}" for it in (FILES[name], "other"))
    is_there = os.path.isdir if name == "FOLDER" else os.path.exists
    ways = [(f"../{file}",)] if is_there(f"{room}/{file}") else []
    if word.endswith("...") and ways and is_there(f"{room}/{other}"):
        ways.append((f"../{file}", f"../{other}"))
    return [(), *ways] if word.startswith("[") else ways


def by_standard_input(words, room):
    """The same words where some of the files, each in turn and then all, are the standard input, with what that has."""
    files = [it for it in words if os.path.isfile(f"{room}/.{it}")]
    for chosen in (*([it] for it in files), files):
        given = b"".join(hostile.read(f"{room}/.{it}") for it in chosen)
        yield ["-" if it in chosen else it for it in words], given


def inputs(usage, room):
    """The ways to give the words of a command: each as words, and what the standard input has. That is tried with the first folders."""
    given, folders = [], 0
    for folder in FOLDERS:
        ways = [ways_to_give(word, room, folder) for word in usage.split(" ")]
        made = [[*itertools.chain(*way)] for way in itertools.product(*ways)]
        given += [(words, b"") for words in made]
        folders += bool(made)
        if folders <= 2:
            given += [it for words in made for it in by_standard_input(words, room)]
    return given


def in_turn(rng, items):
    """All of the items, over and over, each time in another order."""
    while True:
        yield from rng.sample(items, len(items))


def combinations(command, room):
    """What is tried of a command: the words, what the standard input has, whether the file of the answer is there, and how many growths are
    refused between the first and the last ones."""
    yield from (((command.name, *more), b"", False, LEAST) for more in ((), ("--help",), ("../missing",)))
    rng, given, options = random.Random(command.name), inputs(command.words, room), command.combinations()
    tries = max(len(options), len(given))
    for _, more, (words, text) in zip(range(tries), in_turn(rng, options), in_turn(rng, given)):
        yield (command.name, *more, *words), text, rng.random() < 0.5, max(BETWEEN // tries, LEAST)


def chosen(growths, turn, count, is_all):
    """Which growths are refused: from one to another."""
    if is_all:
        return [(first, last) for first in range(1, growths + 1) for last in (first, MOST)]
    end, step = max(growths - LAST, 1), max(growths // count, 1)
    between = range(2 + turn % step, end, step)
    return [(1, MOST), *((it, MOST if it % 2 else it) for it in between), *((it, it) for it in range(end + 1 + turn % 2, growths + 1, 2))]


def files():
    return {name: hostile.read(os.path.abspath(name)) for name in os.listdir()}


class Tries:
    """A combination, and what comes of it where growths are refused."""

    def __init__(self, words, given, is_old):
        self.words, self.given = words, given
        self.before = {"lines": LINES, **({"new": b"as it was\n"} if is_old else {})}
        self.plain, self.after = self.ran(None)
        self.is_migrated = words[:1] == ("migrate",) and (self.plain.output or self.after.get("new", b"")).startswith(b"postcopy-session ")
        counted = self.ran("-")
        self.growths = hostile.runner.counts[0]
        self.wrong = None if self.is_right(*counted) and self.plain.status != 4 else f"another answer where growths are counted: {counted[0]}"

    def ran(self, refusing):
        """What the program answers, and the files that it leaves."""
        if files() != self.before:
            for name in os.listdir():
                os.remove(name)
            for name, text in self.before.items():
                with open(name, "wb") as file:
                    file.write(text)
        found = hostile.runner.ran(" ".join(self.words), self.given, refusing, seconds=WAIT if self.words[:1] == ("migrate",) else None)
        return found, files()

    def is_right(self, found, after):
        """Whether this is the answer, whole. Of a migration, whose records depend on its threads, the check says so."""
        if self.is_migrated:
            text = after.get("new", b"") if "--output" in self.words else found.output
            is_checked = hostile.runner.ran("", text) == (0, b"yes\n", b"")
            return is_checked and found == self.plain._replace(output=found.output) and {**after, "new": b""} == {**self.after, "new": b""}
        is_told = found.errors == self.plain.errors or self.plain.status < 2 and self.is_among_told(found.errors)
        return is_told and found[:2] == self.plain[:2] and after == self.after

    def is_among_told(self, errors):
        """Whether each line was told where nothing was refused."""
        return {*errors.splitlines()} <= {*self.plain.errors.splitlines()}

    def is_starved(self, found, after):
        """Whether there was no memory, for a thread too. Of a list of sessions what was judged by then is written."""
        if self.is_migrated and found == (3, b"", b"threads\n"):
            return after == self.before
        whole = self.plain.output or self.after.get("new", b"")
        is_part = found.output == b"" or self.words[:1] == ("audit",) and whole.startswith(found.output) and found.output.endswith(b"\n")
        is_told = found.errors.endswith(hostile.MEMORY) and self.is_among_told(found.errors.replace(hostile.MEMORY, b""))
        return found.status == 4 and is_told and is_part and after == self.before

    def refused(self, first, last):
        """What went wrong, or None."""
        refusing = f"memory {first} {last} memory"
        found, after = self.ran(refusing)
        # (which growths a migration has varies with its threads)
        is_refused = self.is_migrated or hostile.runner.counts[-1:] > [0]
        if is_refused and (self.is_starved(found, after) or self.is_right(found, after)):
            return None
        return f"{' '.join(self.words)} with {refusing} of {self.growths}: {str(found)[:200]} and {sorted(after)}"


# The commands, each with how many cases it has at least, and the words of no command.
LEAST_OF = {"audit": 500, "certify": 100, "check": 500, "draw": 200, "explain": 500, "migrate": 50, "replay": 200, "session": 50, "steps": 100, "window": 100}
NO_COMMAND = ((), ("--help",), ("--version",), ("help", "audit"), ("-",))


def refuse(given, is_all):
    """Of each combination, what went wrong itself, and then for each growth that is refused."""
    for turn, (words, text, is_old, between) in each(enumerate(given)):
        tries = Tries(words, text, is_old)
        right(tries.wrong)
        for first, last in chosen(tries.growths, turn, between, is_all):
            right(tries.refused(first, last))


@pytest.fixture
def known(program, room, refusing, monkeypatch, pytestconfig):
    """The commands by their names, in a folder of its own beside those of the inputs."""
    make_inputs(program, room, pytestconfig.getoption("--all"))
    monkeypatch.chdir(room)
    hostile.start(program, room, refusing)
    return {it.name: it for it in commands(lambda *words: subprocess.run([program, *words], capture_output=True, encoding="ascii", check=True).stdout, VALUES)}


@pytest.mark.slow
@pytest.mark.parametrize("name", [pytest.param(it, marks=pytest.mark.cases(least)) for it, least in LEAST_OF.items()])
def test_refused_growths(known, room, pytestconfig, name):
    refuse(combinations(known[name], room), pytestconfig.getoption("--all"))


@pytest.mark.cases(20)
def test_no_command(known, pytestconfig):
    assert {*known} == {*LEAST_OF}
    refuse(((words, b"", False, LEAST) for words in NO_COMMAND), pytestconfig.getoption("--all"))

#!/usr/bin/env python3
"""The cases of the tables tests/cases/*.cases, each laid out as a folder of the form that those of examples/ have.

    tests/case_table.py FOLDER     lays out all of them below a new folder, where each can be run by hand: cd FOLDER/CASE; postcopy $(cat args)

A case begins with a line 'case NAME' and ends with an empty one. 'what' says in a line what it shows, 'args' has the program's words, quoted
as a shell wants them, and 'status' the status that is wanted. Below 'file NAME' the lines of a file of the case follow, each behind a bar and a
space. 'file NAME CASE/FILE' is the file of a case above, 'file NAME examples/..' one of examples/, and 'file NAME TEXT' one of tests/cases/texts, whose
bytes are no lines of ASCII, or too many. Below such a line, 'at LINE COUNT' puts the lines that follow in the place of so many of that file, from a line
on. 'stdout', 'stderr', 'stdin' and 'checked' are such files; tests/test_examples.py says what these are.
A folder in tests/cases/ is a case too, and is copied.
"""
import atexit
import glob
import os
import shlex
import shutil
import sys
import tempfile

TOP = os.path.dirname(os.path.dirname(os.path.realpath(__file__)))
TABLES = f"{TOP}/tests/cases"
LINES = ("stdout", "stderr", "stdin", "checked")
# Where the environment says which folder has all cases.
LAID_OUT = "TESTS_CASES"


def write(name, text):
    with open(name, "x", encoding="utf-8") as file:
        file.write(text)


def place_of(text, folder):
    """The folder of a text that a case has too."""
    return TOP if text.startswith("examples/") else folder if "/" in text else f"{TABLES}/texts"


def put_into(name, changes):
    """Puts lines into a file, in the place of others: each change has the first line, how many there are, and the new ones."""
    with open(name, encoding="utf-8", newline="\n") as file:
        lines = file.readlines()
    for first, count, new in reversed(changes):
        lines[first - 1 : first - 1 + count] = new
    with open(name, "w", encoding="utf-8") as file:
        file.writelines(lines)


def lay_out_case(folder, lines):
    """Makes the folder of a case of these lines."""
    # The files that are made of the lines below, each with its changes, and the last of them.
    changed, name = {}, None
    for line in lines:
        word, _, rest = (f"file {line}" if line in LINES else line).partition(" ")
        if word == "|":
            changed[name][-1][2].append(f"{rest}\n")
        elif word == "at":
            changed[name].append((*map(int, rest.split(" ")), []))
        elif word == "case":
            at = f"{folder}/{rest}"
            os.mkdir(at)
        elif word == "args":
            write(f"{at}/args", "".join(f"{it}\n" for it in shlex.split(rest)))
        elif word in ("what", "status"):
            write(f"{at}/{word}", f"{rest}\n")
        elif word == "file":
            file, _, text = rest.partition(" ")
            name = f"{at}/{file}"
            if "/" in file:
                os.makedirs(os.path.dirname(name), exist_ok=True)
            if text:
                shutil.copyfile(f"{place_of(text, folder)}/{text}", name)
            else:
                write(name, "")
            changed[name] = [] if text else [(1, 0, [])]
        else:
            raise ValueError(f"this is no line of a case: {line}")
    for name, changes in changed.items():
        if changes:
            put_into(name, changes)


def lay_out(folder):
    """Makes the folders of all cases below a new folder, and gives it."""
    os.mkdir(folder)
    for name in sorted(os.listdir(TABLES)):
        if name.endswith(".cases"):
            with open(f"{TABLES}/{name}", encoding="utf-8") as file:
                for case in file.read().rstrip("\n").split("\n\n"):
                    lay_out_case(folder, case.split("\n"))
        elif name != "texts":
            shutil.copytree(f"{TABLES}/{name}", f"{folder}/{name}")
    return folder


def case_files(name):
    """The files of this name in the folders of examples/ and of all cases; the folders themselves, for no name."""
    return [*sorted(glob.glob(f"{TOP}/examples/*/{name}")), *sorted(glob.glob(f"{CASES}/*/{name}"))]


def case_file(name):
    """Where a file stands that is named as one of examples/ or of tests/cases/, or by its whole path."""
    return f"{CASES}/{name.removeprefix('tests/cases/')}" if name.startswith("tests/cases/") else os.path.join(TOP, name)


def name_of(path):
    """How such a file or folder is named."""
    return f"tests/cases/{os.path.relpath(path, CASES)}" if path.startswith(CASES) else os.path.relpath(path, TOP)


if __name__ == "__main__":
    if len(sys.argv) != 2 or os.path.exists(sys.argv[1]):
        sys.exit(__doc__)
    lay_out(sys.argv[1])
elif LAID_OUT in os.environ:
    CASES = os.environ[LAID_OUT]
else:
    # A folder with those of all cases, which goes with this process. conftest.py tells it to those that pytest starts.
    ROOM = tempfile.mkdtemp(prefix="postcopy-cases-")
    atexit.register(shutil.rmtree, ROOM, ignore_errors=True)
    CASES = lay_out(f"{ROOM}/cases")

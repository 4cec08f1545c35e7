"""Runs the program over each folder of examples/ and each case of tests/cases/, and compares what it writes.

A case of a table is laid out as a folder (tests/case_table.py). A folder has `args` (one word a line), the files that these name, and what is wanted: `stdout`, `status` and, where
it is told, `stderr`. Standard input is `stdin`, or empty. `what` says in a line what the folder shows. What a migration
writes depends on its threads: its folder has in place of `stdout` a file `checked`, what the program, with no word,
answers to what was written.
"""
import os
import subprocess

import pytest
from case_table import case_file, case_files, name_of

FOLDERS = [name_of(it) for it in case_files("")]
# So many folders there are at least.
LEAST = 390

pytestmark = pytest.mark.quick


def read(name):
    with open(name, "rb") as file:
        return file.read()


def shown(text):
    return text.decode("utf-8", "backslashreplace").splitlines()


@pytest.mark.parametrize("folder", FOLDERS)
def test_folder(program, folder):
    at = case_file(folder)
    words = read(f"{at}/args").decode().splitlines()
    given = read(f"{at}/stdin") if os.path.isfile(f"{at}/stdin") else b""
    ran = subprocess.run([program, *words], cwd=at, input=given, capture_output=True)
    output, wanted = ran.stdout, "stdout"
    if os.path.isfile(f"{at}/checked"):
        output, wanted = subprocess.run([program], input=output, stdout=subprocess.PIPE).stdout, "checked"
    what = read(f"{at}/what").decode().strip()
    assert ran.returncode == int(read(f"{at}/status")), f"failed: {what}"
    assert shown(output) == shown(read(f"{at}/{wanted}")), f"failed: {what}"
    assert output == read(f"{at}/{wanted}"), f"failed: {what}"
    if os.path.isfile(f"{at}/stderr"):
        assert shown(ran.stderr) == shown(read(f"{at}/stderr")), f"failed: {what}"
        assert ran.stderr == read(f"{at}/stderr"), f"failed: {what}"


def test_no_folder_was_lost():
    assert len(FOLDERS) >= LEAST

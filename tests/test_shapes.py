"""Compares the shapes of pictures with lists of them that were written by hand, and looks at their colours, arrow heads and sizes.

Each file of tests/shapes is a case. It has the words of `draw`, and then a line for each shape that this picture has to have, in the
order of picture_lines.py, which reads them back. The table below has each kind of shape, and each case of what a shape may say, by its
name in the sources, with the form of its line. It has to have all that the sources have, and no other, and each form has to stand in a
case: so one that is new has to be written here too, and needs a case.
"""
import glob
import os
import re
import subprocess
import xml.etree.ElementTree as ElementTree

import pytest
from case_table import case_file
from cases import count, each, right, same
from picture_lines import lines_of
from picture_shapes import Drawing, looks_wrongly

TOP = os.path.dirname(os.path.dirname(os.path.realpath(__file__)))
SOURCES = f"{TOP}/crates/order_picture/src"

NAME = r"(?:guest|source|link|lane|pager) \d+"
ROW = r"box \d+: line \d+, " + NAME
DONE = r"[^|]+ \| [^;]+"

# Each kind of shape, and what it may say, with the form of its line.
FORMS = {
    "shapes.rt": {"Shape": {
        "Title": r"title: \w.*", "Summary": r"told: \w.*\.", "Order": r"order: \w.*",
        "Facts": r"facts: \d+ pages? of \d+ cells?, \d+ records?: \w+ \d+.*", "Column": r"column lane",
        "Arrow": rf"(?:arrow|tie)\b.* from {NAME} to {NAME}", "Stub": rf"end of an arrow to {NAME} from the (?:left|right)",
        "Record": ROW + ".*", "Fold": r"box \d+: fold of \d+ records: .*", "Legend": r"legend: .*"}},
    "arrows.rt": {"ArrowKind": {
        "Received": rf"arrow from {NAME} to {NAME}", "OfPage": rf"arrow of the page from {NAME} to {NAME}",
        "Tied": rf"tie from {NAME} to {NAME}", "TiedBehind": rf"tie behind from {NAME} to {NAME}"}},
    "boxes.rt": {
        "BoxKind": {
            "Faulty": rf"{ROW}, faulty: {DONE}", "OwnCause": rf"{ROW}, faulty and the cause: {DONE}", "Cause": rf"{ROW}, the cause: {DONE}",
            "Against": rf"{ROW}, against(?:, behind)?: {DONE}.*", "OfPage": rf"{ROW}, of the page: {DONE}",
            "Plain": rf"{ROW}, plain: {DONE}", "Tied": rf"{ROW}, faulty, behind: {DONE}; it has to come after .*",
            "Stuck": rf"{ROW}, stuck, behind: {DONE}; .*"},
        "Label": {"Recorded": rf"{ROW}, plain: read p\d+\[\d+\] = \d+ \| .*", "Amended": rf"{ROW}, faulty: read p\d+\[\d+\] = \d+, right: \d+ \| .*"}},
    "behind.rt": {"Obstacle": {
        "Nothing": rf"{ROW}, [\w ]+: {DONE}", "Waits": rf"{ROW}, .*, behind: {DONE}; it has to come after line \d+ \({NAME}\)(?:, which .*)?",
        "NotSent": rf"{ROW}, .*, behind: {DONE}; cannot be taken: what it receives was not", "Unhindered": rf"{ROW}, .*, behind: {DONE}; not taken"}},
    "shown.rt": {"OrderShown": {
        "EveryOrder": "order: It goes wrong in every order, as in this one", "OneOrder": "order: In an order in which it goes wrong",
        "FirstFault": "order: In the order that shows the first fault of the session", "Found": "order: In the found order",
        "FoundPart": "order: In the found order, as far as it goes", "Given": "order: Along the given runs",
        "GivenPart": r"order: Along the given runs, which are no merging: up to line \d+ of their text, which cannot be taken"}},
    "signs.rt": {"Sign": {
        "Faulty": "legend: box-faulty, cross: the faulty record", "OwnCause": "legend: box-faulty, cross, flag: the faulty record, also the cause",
        "Cause": "legend: box-cause, flag: the cause", "Tied": "legend: box-faulty, cross: waits for another of these",
        "Tie": "legend: arrow-tied: has to come first", "TieBehind": "legend: arrow-tied, dashed: one behind it has to come first",
        "Against": "legend: box-against, diamond, dashed: what it is set against", "OfPage": "legend: box-page: about the same page",
        "Plain": "legend: box: another record", "Stuck": "legend: box-stuck, dashed: the next of its log, not taken",
        "Arrow": "legend: arrow: is received", "Stub": "legend: arrow, dashed: is received; it has no row"}},
}


def read(path):
    with open(path, encoding="utf-8") as file:
        return file.read()


def variants(file, name):
    """The variants of an enum, as the sources have them."""
    body = re.search(rf"pub enum {name} \{{\n(.*?)\n\}}", read(f"{SOURCES}/{file}"), re.S)[1]
    return re.findall(r"^    ([A-Z]\w*)", body, re.M)


def drawn(program, words):
    """The lines of the picture that the program draws."""
    ran = subprocess.run([program, *(case_file(it) if "/" in it else it for it in words)], stdin=subprocess.DEVNULL, capture_output=True, text=True)
    same(f"the status of {' '.join(words)}", ran.returncode, 0)
    if not ran.stdout:
        return []
    picture = ElementTree.fromstring(ran.stdout)
    right(looks_wrongly(Drawing(picture)), " ".join(words))
    return lines_of(picture)


@pytest.mark.quick
@pytest.mark.cases(294)
def test_shapes(program):
    told = set()
    for path in each(sorted(glob.glob(f"{TOP}/tests/shapes/*")), name=os.path.basename):
        words, *wanted = read(path).splitlines()
        found, what = drawn(program, words.split(" ")), os.path.basename(path)
        for n, line in enumerate(wanted):
            same(f"shape {n} of {what}", found[n] if n < len(found) else None, line)
        same(f"the shapes of {what} behind these", found[len(wanted):], [])
        told.update(wanted)
    for file, enums in FORMS.items():
        for name, forms in enums.items():
            same(f"the cases of {name}", sorted(forms), sorted(variants(file, name)))
            for variant, form in forms.items():
                count(any(re.fullmatch(form, line) for line in told), f"no case of {name}::{variant}: {form!r}")

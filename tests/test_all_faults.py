"""Compares the pages that `audit --all` says have a fault with those of a slow model, and what `explain` says of a page and of a
line that are named with both.

The sessions are those of test_explained.py, but for large ones. Of one that is clean or faulty, `audit --all` has to write its first line, how many
pages have a fault, and each with its first one; and the same pages as an object. Of one of the wrong shape it does so where a page apart has
a fault, as in test_pages_apart.py. Of another it writes the first line alone.
`explain --page` has to name the faulty record of the page just where it has one, and `explain --line` the record at the line. Where a page
has several faults, `explain --page` has to list them by reason, and so does its object, of each page.
"""
import functools
import re
import json
import os
import subprocess

import pytest
from cases import each, same
from check_model import Session as Judged
from report_model import told_faults
from session_text import LOGS, SessionText
from test_explained import is_large, made_texts
from world_model import REASONS, faults_by_reason

TOP = os.path.dirname(os.path.dirname(os.path.abspath(__file__)))

# So many pages of a session, and so many of its records, are asked about.
FEW = 4

# What the faults of each reason are, in words.
WORDS = dict(zip(REASONS, (
    "wrong reads", "early uses", "sendings although it is released", "sendings of other contents", "further placements",
    "placements of other contents", "placements as zeros", "placements over a release")))


class Tests:
    """What the program says of a session."""

    same = staticmethod(same)

    def __init__(self, program):
        self.program, self.most, self.reasons = program, 0, set()

    @functools.lru_cache(maxsize=64)
    def says(self, text, *words):
        ran = subprocess.run([self.program, *words, "-"], input=text.encode("latin-1"), capture_output=True)
        return ran.stdout.decode("latin-1"), ran.returncode

    def session(self, what, text):
        first, status = self.says(text, "audit", "--quiet")
        word = first.split()[0]
        if word not in ("clean", "faulty", "shape"):
            self.same(f"all faults of {what}", self.says(text, "audit", "--all"), (first, status))
            return
        found = self.listed(what, text, first, status)
        if word == "shape":
            return
        session, lines = Judged(text), SessionText(text)
        for page in range(min(session.pages, FEW)):
            self.page(f"page {page} of {what}", text, first, page, found.get(page))
            self.kinds(f"page {page} of {what}", text, page, lines, faults_by_reason(session, page))
        for log in LOGS:
            for n in range(min(len(lines.logs[log]), FEW)):
                told, _ = self.says(text, "explain", "--line", str(lines.line(log, n)))
                name = f"line {lines.line(log, n)} ({log} {n})"
                self.same(f"{name} of {what}", (told.startswith(first), name in told.replace("\nLine ", "\nline ")), (True, True))

    def listed(self, what, text, first, status):
        """The pages that have to be listed, each with its first fault: its line, its reason, and the record's log and number."""
        lines = SessionText(text)
        found = {page: (lines.line(log, n), reason, log, n) for page, (log, n, reason) in told_faults(text).items()}
        self.most = max(self.most, len(found))
        told = "".join(f"page {page} line {line} {reason}\n" for page, (line, reason, _, _) in found.items())
        is_told = found or not first.startswith("shape ")
        self.same(f"all faults of {what}", self.says(text, "audit", "--all"), (first + (f"faulty-pages {len(found)}\n{told}" if is_told else ""), status))
        pages = json.loads(self.says(text, "audit", "--all", "--format", "json")[0]).get("pages")
        self.same(f"the object of {what}", pages, [{"page": page, "line": it[0], "reason": it[1]} for page, it in found.items()] if is_told else None)
        return found

    def page(self, what, text, first, page, fault):
        told, _ = self.says(text, "explain", "--page", str(page))
        wrong = re.findall(r"^(?:L|It shows at l)(ine [0-9]+ \([a-z]+ [0-9]+\))(?: is wrong)?: ", told, re.M)
        wanted = [f"ine {fault[0]} ({fault[2]} {fault[3]})"] if fault else []
        self.same(f"the words on {what}", (told.startswith(first), f"page {page}" in told), (True, True))
        self.same(f"the fault of {what}", wrong, wanted)

    def kinds(self, what, text, page, lines, found):
        """All faults of a page by reason, in words and in the object."""
        self.reasons.update(found)
        many = sum(map(len, found.values()))
        firsts = {reason: (lines.line(*records[0]), *records[0]) for reason, records in found.items()}
        told = [f"  {WORDS[reason]}: {len(records)}, {'at' if len(records) == 1 else 'the first at'} line {firsts[reason][0]} ({firsts[reason][1]} {firsts[reason][2]})"
                for reason, records in found.items()]
        words = self.says(text, "explain", "--page", str(page))[0].splitlines()
        heading = f"Page {page} has {many} faults in all:"
        at = words.index(heading) + 1 if heading in words else len(words)
        self.same(f"the faults of {what}", words[at:at + len(told)] if many > 1 else [it for it in words if it.endswith("faults in all:")], told if many > 1 else [])
        listed = json.loads(self.says(text, "explain", "--page", str(page), "--format", "json")[0])["faults"]
        self.same(f"the listed faults of {what}", listed, [
            {"reason": reason, "count": len(records), "line": firsts[reason][0], "log": firsts[reason][1], "record": firsts[reason][2]} for reason, records in found.items()])


@pytest.mark.slow
@pytest.mark.cases(2800)
def test_all_faults(program):
    tests = Tests(program)
    for file, text in each([it for it in made_texts() if not is_large(it[1])][1::3]):
        tests.session(os.path.relpath(file, TOP), text)
    same("sessions with faults on more than one page", tests.most > 1, True)
    same("the reasons of all faults", tests.reasons, set(REASONS))

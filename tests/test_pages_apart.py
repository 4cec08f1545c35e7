"""What is told of the pages of a session of the wrong shape that no misshapen record touches.

The sessions are recorded of random schedules, half of them with packets over the lane. Into each of them records are put that have a fault of
the shape, of each reason and in each log, about some page or about none; and some pages go wrong on their own. `audit --all` has to list
just the pages apart that have a fault, each with its first one, and its object the same, by report_model.py. `explain` has to tell the
story of the first of them, as it does where this page is named, and how many more there are. Where there is no such page, it tells of none.

What is told of such a page holds in the session of this page alone: this has the right shape, and its first fault is the one that was told,
unless it has no merging.
"""
import json
import random
import re
import subprocess

import pytest
import test_random_schedules as schedules
from cases import each, same
from misshapen import misshapen
from report_model import first_line, judgement
from shape_model import shape_faults
from steps_model import recorded
from test_all_faults import Tests as AllFaults
from test_later_releases import over_the_lane
from world_model import REASONS

# So many sessions are made, of so many that are recorded.
SESSIONS, RECORDED = 400, 60

# What follows the fault of the shape, and how many other pages have a fault; and what is told of a page that is named, but not of it as one apart.
APART = "Apart from that, page {} goes wrong too. No record of wrong shape is about it."
MORE = {1: "1 more page has a fault; audit --all lists every one."}
NAMED = re.compile(r"Page \d+ has a fault\.|Page \d+ has \d+ faults in all:|  [a-z ]+: \d+, (?:the first )?at line .*")

# The faults of the shape, by log and reason, with which other pages are told.
TOLD = [("guest", "phases"), ("lane", "named"), ("link", "named"), ("pager", "named"), ("source", "named"), ("source", "second-send")]


def recorded_texts(rng):
    """Sessions in which a guest is resumed and a page is placed, of machines with several pages."""
    seed, texts = 0, []
    while len(texts) < RECORDED:
        text, seed = recorded(*schedules.random_schedule(seed)).session(), seed + 1
        if "\npages 1\n" not in text and "\nresume " in text and "\nplace " in text:
            texts.append(over_the_lane(rng, text) if seed % 2 else text)
    return texts


def made_texts():
    """The sessions, of which a few have the right shape in spite of all."""
    rng = random.Random(41)
    texts = recorded_texts(rng)
    return [misshapen(rng, rng.choice(texts)) for _ in range(SESSIONS)]


class Tests(AllFaults):
    """What the program says of a session of the wrong shape."""

    def __init__(self, program, room):
        super().__init__(program)
        self.room, self.told, self.untold, self.alone_by = room, set(), set(), set()

    def session(self, what, text):
        if judgement(text)[0] != "shape":
            return
        first = f"{first_line(text)}\n"
        found = self.listed(what, text, first, 1)
        (self.told if found else self.untold).update((log, reason) for log, _, reason in shape_faults(text))
        self.explained(what, text, first, found)
        for page, (line, reason, _, _) in found.items():
            self.alone(f"page {page} alone, of {what}", text, page, line, reason)

    def explained(self, what, text, first, found):
        """The story of the first fault, by line, of the pages that are told."""
        words, status = self.says(text, "explain")
        told = json.loads(self.says(text, "explain", "--format", "json")[0])
        self.same(f"the story's beginning of {what}", (words.startswith(first), status), (True, 1))
        page = min(found, key=found.get, default=None)
        if page is None:
            self.same(f"the pages in the story of {what}", ("Apart from that" in words, "fault" in told, "cause" in told), (False, False, False))
            return
        line, reason, log, n = found[page]
        own = self.says(text, "explain", "--page", str(page))[0].splitlines()[1:]
        more = [MORE.get(len(found) - 1, f"{len(found) - 1} more pages have a fault; audit --all lists every one.")] if len(found) > 1 else []
        _, lead, story = words.partition(f"{APART.format(page)}\n")
        self.same(f"the story of page {page} of {what}", (lead != "", story.splitlines()), (True, [*(it for it in own if not NAMED.fullmatch(it)), *more]))
        named = json.loads(self.says(text, "explain", "--page", str(page), "--format", "json")[0])
        self.same(f"the fault in the object of {what}", told["fault"], {"line": line, "log": log, "record": n, "reason": reason, "page": page})
        self.same(f"the cause in the object of {what}", told["cause"], named["cause"])
        self.same(f"the records in the object of {what}", told["records"][-len(named["records"]):], named["records"])

    def alone(self, what, text, page, line, reason):
        """The session of a page that is told has the right shape, and this fault first, or no merging."""
        with open(f"{self.room}/session", "w", encoding="ascii") as file:
            file.write(text)
        cut = subprocess.run([self.program, "window", "session", str(page), "1", "--lines", "lines"], cwd=self.room, stdout=subprocess.PIPE, encoding="ascii").stdout
        word, _, at, *rest = self.says(cut, "audit", "--quiet")[0].split()
        if word == "knot" and judgement(cut)[0] == "knot":
            return
        with open(f"{self.room}/lines", encoding="ascii") as file:
            lines = list(map(int, file))
        self.alone_by.update(rest)
        self.same(f"the first fault of {what}", (word, lines[int(at) - 1], rest), ("faulty", line, [reason]))


@pytest.mark.cases(1900)
def test_pages_apart(program, room):
    tests = Tests(program, room)
    for n, text in each(enumerate(made_texts())):
        tests.session(f"session {n}", text)
    same("the faults of the shape with which pages are told", sorted(tests.told), TOLD)
    same("those with which none is told", {*tests.untold} >= {("guest", "named"), ("source", "both"), ("source", "start"), ("pager", "start"), *TOLD}, True)
    same("the faults that pages have alone", tests.alone_by <= set(REASONS) and len(tests.alone_by) >= 6, True)
    same("whether several pages are told", tests.most > 1, True)

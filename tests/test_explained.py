"""Compares what `explain` says of sessions with what `audit` says of them.

The sessions are those of the example folders and, made at random from these and the same in each run, sessions with a record
less, with two neighbouring records changed about, or with another number in a record. Of each, `explain` has to answer the
status of `audit`, and its text to begin with the first line of the report; and wherever it names a record with its line, the
session has to have that record at that line.

Of small sessions all mergings are made: it has to say of a fault that every order shows it just where each of them does, and then
the demand of the faulty record fails in each.
"""
import random
import re
import subprocess

from case_table import case_files, name_of
import pytest
from cases import count, right
from session_text import LOGS, SessionText
from small_sessions import every_order_shows, small_session

# How many are made of a session, and of one with so many lines, in which a slow model takes seconds: one.
CHANGES, LARGE = 6, 1000
SMALL = 300
NAMED = re.compile(rf"[Ll]ine ([0-9]+) \(({'|'.join(LOGS)}) ([0-9]+)\)")


class Session(SessionText):
    def changed(self, rng):
        """Changes a record of some log, if there is one."""
        log = rng.choice([log for log in LOGS if self.logs[log]] or [None])
        if log is None:
            return
        records = self.logs[log]
        at = rng.randrange(len(records))
        kind = rng.choice(("less", "about", "number"))
        if kind == "less":
            del records[at]
        elif kind == "about" and at + 1 < len(records):
            records[at], records[at + 1] = records[at + 1], records[at]
        else:
            words = records[at].split(" ")
            places = [i for i, word in enumerate(words) if i and word.isdigit() and len(word) < 8]
            if places:
                words[rng.choice(places)] = str(rng.randrange(12))
            records[at] = " ".join(words)


def says(program, command, text):
    ran = subprocess.run([program, command, "-"], input=text.encode("latin-1"), capture_output=True)
    return ran.stdout.decode("latin-1"), ran.returncode


def line_of(text, log, place):
    """The line at which a session's text has a record; none where it has no such record."""
    session = SessionText(text)
    return session.line(log, place) if place < len(session.logs[log]) else None


def wrong_of(program, text):
    """What is wrong with what `explain` says of a text, or None; and the kind of the report."""
    report, status = says(program, "audit", text)
    told, answered = says(program, "explain", text)
    first = report.split("\n")[0]
    if answered != status:
        return f"status {answered}, and of `audit` {status}", first
    if told.split("\n")[0] != first:
        return f"'{told[:40]}', and `audit` says '{first}'", first
    if told.count("\n") < 2 or not told.endswith("\n"):
        return "nothing stands after the first line", first
    for line, log, place in NAMED.findall(told):
        if line_of(text, log, int(place)) != int(line):
            return f"the record {log} {place} does not stand at line {line}", first
    return None, first


def is_large(text):
    return text.count("\n") >= LARGE


def made_texts():
    """The sessions of the folders, and those made from them: the file of each, and its text."""
    files = case_files("session")
    rng, texts = random.Random(7), []
    for file in files:
        with open(file, encoding="latin-1", newline="") as given:
            texts.append((file, given.read()))
    for file, text in list(texts):
        try:
            Session(text)
        except (IndexError, ValueError):
            continue
        for _ in range(1 if is_large(text) else CHANGES):
            session = Session(text)
            for _ in range(rng.randrange(1, 4)):
                session.changed(rng)
            texts.append((f"{file}, changed", session.text()))
    return texts


def small_sessions_told(program):
    """What is wrong with what is said of the orders of small sessions; and by reason, whether every order shows the fault and
    whether the demand of its record fails in each, how many there are."""
    rng, wrong, kinds = random.Random(29), [], {}
    for _ in range(SMALL):
        text = small_session(rng)
        told = says(program, "explain", text)[0]
        head = told.split("\n")[0].split(" ")
        if head[0] != "faulty":
            continue
        fault = next((log, int(place)) for line, log, place in NAMED.findall(told) if line == head[2])
        every = every_order_shows(text, fault, head[3])
        if every is None:
            continue
        kinds[head[3], every] = kinds.get((head[3], every), 0) + 1
        if every.is_shown != ("every order of the records" in told) or every.is_shown > every.is_broken:
            wrong.append(f"{told!r} of a session of which {every}:\n{text}")
    return wrong, kinds


@pytest.mark.cases(2100)
def test_explained(program):
    kinds = set()
    for file, text in made_texts():
        wrong, first = wrong_of(program, text)
        words = first.split(" ")
        kinds.add(" ".join([words[0], *words[3:]]))
        right(wrong, name_of(file))
    wanted = {"clean", "knot", "session-text", *(f"shape {r}" for r in ("phases", "named", "start", "second-send", "both")),
              *(f"faulty {r}" for r in ("read", "early", "given", "stale", "twice", "altered", "unfit", "over"))}
    assert not wanted - kinds, "no session comes out so"


@pytest.mark.cases(180)
def test_every_order(program):
    wrong, kinds = small_sessions_told(program)
    for it in wrong:
        count(False, it)
    for _ in range(sum(kinds.values()) - len(wrong)):
        count(True, "")
    wanted = {("early", (True, True)), ("early", (False, True)), ("early", (False, False)), ("over", (True, True)), ("over", (False, False))}
    assert not wanted - {*kinds}, "no small session comes out so"

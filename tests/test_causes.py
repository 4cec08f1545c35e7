"""Whether `explain` says first what went wrong: a migration is run with bugs that are known (own_migration.py), again and again.

Without a bug each session is clean, and shows the whole migration. With one, a session in which the bug made a record wrong is faulty, unless
a write was lost that nobody could miss; and the first record that `explain` names, which is that of its object's cause, has to be one that
the bug made wrong. Each run of a seed is the same.
"""
import collections
import json
import random
import re
import subprocess
import sys

from cause_model import cause_of
from check_model import Session
import pytest
from cases import count, same
from own_migration import BUGS
from page_text import TOP
from session_text import LOGS, SessionText

# The seeds of the gate, and those of --all.
SEEDS = 3, 20

# By bug, how many of the gate's sessions and of those of --all are faulty.
FAULTY = {
    "early": (3, 20), "early-table": (3, 20), "stale": (3, 20), "flip": (3, 20), "wrong-page": (3, 20), "twice": (3, 20), "lost-write": (3, 15),
    "lost-write-source": (2, 13), "over-write": (2, 15), "zero-owed": (3, 19), "send-released": (2, 14), "write-after-halt": (3, 20), "both-run": (3, 20),
}


def run(room, bug, seeds):
    """The records that the bug made wrong, by seed."""
    words = [sys.executable, "-B", f"{TOP}/tests/own_migration.py", room, bug, *map(str, range(seeds))]
    ran = subprocess.run(words, stdout=subprocess.PIPE, env={"PYTHONPATH": f"{TOP}/bindings/python"}, check=True, timeout=600)
    return list(map(json.loads, ran.stdout.splitlines()))


def said(program, *words):
    return subprocess.run([program, *words], stdout=subprocess.PIPE, stderr=subprocess.DEVNULL, encoding="ascii").stdout


def first_named(told):
    """The first record that the sentences of `explain` name: its log and its number."""
    found = re.search(r"\bline [0-9]+ \(([a-z]+) ([0-9]+)\)", told.partition("\n")[2], re.I)
    return found and [found[1], int(found[2])]


def test_right_migrations(program, room, pytestconfig):
    seeds = SEEDS[pytestconfig.getoption("--all")]
    for seed, wrong in enumerate(run(room, "none", seeds)):
        same(f"seed {seed}", (wrong, said(program, "audit", "--quiet", "--complete", f"{room}/{seed}")), ([], "clean\n"))
    run(f"{room}/again", "none", 1)
    same("a run of the same seed", *(said(program, "session", f"{folder}/0") for folder in (f"{room}/again", room)))


@pytest.mark.parametrize("bug", BUGS)
def test_bug(program, room, pytestconfig, bug):
    is_all, faulty = pytestconfig.getoption("--all"), 0
    for seed, wrong in enumerate(run(room, bug, SEEDS[is_all])):
        told = said(program, "explain", f"{room}/{seed}")
        if told.startswith("clean\n"):
            count(not wrong or "lost" in bug, f"seed {seed} is clean, and the bug made {wrong} wrong")
        else:
            faulty += 1
            first = first_named(told)
            count(first in wrong, f"seed {seed}: the first record that is named is {first}, and the bug made {wrong} wrong")
            cause = json.loads(said(program, "explain", "--format", "json", f"{room}/{seed}")).get("cause")
            count(not cause or [cause.get("log"), cause.get("record")] == first, f"seed {seed}: the cause is {cause}, and the first record that is named is {first}")
    same("faulty sessions", faulty, FAULTY[bug][is_all])


def test_two_bugs(program, room, pytestconfig):
    """The pager also puts a packet in the place of another page. A stale page is told all the same, and what the source did, unless it is that page."""
    told = 0
    for seed, wrong in enumerate(run(room, "wrong-page+stale", SEEDS[pytestconfig.getoption("--all")])):
        session = SessionText(said(program, "session", f"{room}/{seed}"))
        misplaced = [session.page(*record) for record in wrong if record[0] == "pager"]
        stale = [session.page(*record) for record in wrong if record[0] == "source"]
        same(f"the report of seed {seed}", said(program, "audit", "--quiet", f"{room}/{seed}").split()[0], "shape" if misplaced else "faulty")
        pages = json.loads(said(program, "audit", "--all", "--format", "json", f"{room}/{seed}")).get("pages", [])
        same(f"the pages of seed {seed}", [it["page"] for it in pages], [page for page in stale if page not in misplaced])
        if misplaced and pages:
            told += 1
            story = said(program, "explain", f"{room}/{seed}").partition("Apart from that")[2]
            count(first_named(story) in wrong, f"seed {seed}: the first record of the page apart is {first_named(story)}, and the bugs made {wrong} wrong")
    count(told > 1, "a stale page beside a misplaced one is seldom told")


# Small sessions with a wrong read, by seed, and kinds of causes that no order of the records gives.
SMALL, UNEXPLAINED = 400, ("lost-write", "unrecorded")


def small_read(rng):
    """A session of one cell, which the guest uses at the target, and which comes there, or comes again, or does not."""
    values = [f"{n:016x}" for n in range(4)]
    early, sent, placed = rng.choice((1, 1, 2)), rng.choice(values[1:3]), rng.choice(("", "", "", *values))
    guest = ["w 0 0 0 1", *([f"w 0 0 0 {early}"] if early > 1 else []), "halt", "resume 1"]
    uses = [rng.choice(("r 0 0 0 0", "r 0 0 0 1", "r 0 0 0 1", "r 0 0 0 2", "r 0 0 0 3", "w 0 0 0 3", "w 0 0 0 2", "z 0 0", "miss 0 0", "see", "see")) for _ in range(rng.randrange(2, 6))]
    misses = [[f"fault {len(guest) + n}"] for n, use in enumerate(uses) if use.startswith("miss") and rng.random() < 0.7]
    comes = [rng.choice((f"place 0 2 {placed or sent}", f"place 0 2 {placed or sent}", "zero 0")) for _ in range(rng.choice((0, 1, 1, 2, 2)))]
    pager = ["got 0", "ready", "got 1"]
    for n in range(len(comes) + len(misses)):
        pager += misses.pop(0) if misses and (not comes or rng.random() < 0.4) else [comes.pop(0)] if comes else []
    placements = [n for n, record in enumerate(pager) if record.startswith(("place", "zero"))] or [1]
    guest += [f"see {rng.choice(placements)}" if use == "see" else use for use in uses]
    logs = {"guest": guest, "source": [f"halted {guest.index('halt')}", "state", f"send 0 {sent}"], "link": ["down 1", "down 2"], "lane": [], "pager": pager}
    told = "".join(f"{log} {len(records)}\n" + "".join(f"{it}\n" for it in records) for log, records in logs.items())
    return f"postcopy-session 2\npages 1\ncells 1\ninit 0\n{told}end\n"


def is_explained(text, n):
    """Whether an order of the records has what a read gives in the target's memory just before it, or does not have the page there."""
    session, resumed = SessionText(text), Session(text).resumed()
    value, first = int(session.logs["guest"][n].split(" ")[4]), (dict.fromkeys(LOGS, 0), 0, False)
    fronts, seen = [first], set()
    while fronts:
        taken, memory, is_there = fronts.pop()
        if taken["guest"] == n and (not is_there or memory == value):
            return True
        for log in LOGS:
            if not session.is_ready(log, taken) or (log, taken[log]) == ("guest", n):
                continue
            words, after, came = session.logs[log][taken[log]].split(" "), memory, is_there
            if words[0] in ("place", "zero"):
                after, came = int(words[3], 16) if words[0] == "place" else 0, True
            elif log == "guest" and taken[log] > resumed and words[0] in "wz":
                after, came = (0, True) if words[0] == "z" else (int(words[4]) if is_there else memory, is_there)
            front = ({**taken, log: taken[log] + 1}, after, came)
            key = (*front[0].values(), after, came)
            if key not in seen:
                seen.add(key)
                fronts.append(front)
    return False


@pytest.mark.cases(3 * SMALL)
def test_small_reads(program, room):
    """A record is named as the cause of a wrong read at the target just where an order of the records explains the read; and a write is lost
    just where none does, and the cell had the value before this write. This record, and what it is set against, are those of cause_model.py."""
    rng, kinds = random.Random(31), collections.Counter()
    while kinds.total() < SMALL:
        text = small_read(rng)
        with open(f"{room}/session", "w", encoding="ascii") as file:
            file.write(text)
        told = json.loads(said(program, "explain", "--format", "json", f"{room}/session"))
        if told.get("reason") != "read":
            continue
        session, n, cause = Session(text), told["record"], told["cause"]
        kinds[cause["kind"]] += 1
        named = [(it["log"], it["record"]) if "log" in it else None for it in (cause, cause.get("against", {}))]
        same(f"the cause in {text}, and what it is set against", named, [*cause_of(SessionText(text), "read", "guest", n)])
        same(f"whether an order explains {text}", cause["kind"] not in UNEXPLAINED, is_explained(text, n))
        value, changed = int(session.guest[n][4]), [m for m in range(n) if session.guest[m][0] in "wz"]
        is_older = bool(changed) and any(session.cell_before(m, 0, 0) == value for m in range(changed[-1] + 1))
        same(f"whether a write is lost in {text}", cause["kind"] == "lost-write", is_older and cause["kind"] in UNEXPLAINED)
    same("the kinds that were met", sorted(kinds), ["altered", "early", "lost-write", "never-placed", "placed-again", "placed-over", "stale-send", "unrecorded", "zeroed"])

"""Asks for complete sessions, and compares each answer with a slow model.

The sessions are those of the example folders and of the test cases, given or answered there, and these with records left out,
as a converter leaves them out: the end of a log, or of each log; all that follows the halt, with a source that starts its guest
again; a placement that becomes a drop, and a drop that becomes a
record that says nothing of it; a release of a page; an `all` or a `done`; or with an `all` or a `done` in another place of its
log. They are the same in each run.

`audit --complete` and `check --complete` have to answer as without the option, but for a session that is clean and lacks
something: there they have to name the first thing that is missing, with status 1. So have they with `--complete-pages`, which asks
for the halt, the resume and the pages alone, and with both options as with `--complete`. The model goes by docs/FORMATS.md, and
looks through whole logs for each page and each record.

On standard error they have to say beside `clean` and `yes` how many owed pages never came, if some did not and the guest was resumed,
and whether the guest used no page; and beside an answer that something is missing, that nothing in the logs is wrong.
"""
import random
import subprocess

from case_table import case_files
import pytest
from cases import count, each
from note_model import note, was_owed
from session_text import RECEIPTS, SessionText
from test_explained import is_large

CHANGES = 6
WHOLE, PAGES = "--complete", "--complete-pages"


def missing(session, asked):
    """The line that says what a session lacks first, or None where it is complete, as this option asks it."""
    logs = {log: [record.split(" ") for record in records] for log, records in session.logs.items()}
    guest, pager = logs["guest"], logs["pager"]
    kinds = {log: [record[0] for record in records] for log, records in logs.items()}
    if "halt" not in kinds["guest"]:
        return "incomplete halt"
    if "resume" not in kinds["guest"]:
        return "incomplete returned" if "back" in kinds["source"] else "incomplete resume"
    halt, resume = kinds["guest"].index("halt"), kinds["guest"].index("resume")
    pages = int(session.head[1].split(" ")[1])
    for page in range(pages):
        placed = any(record[0] in ("place", "zero") and int(record[1]) == page for record in pager)
        freed = any(record[0] == "z" and int(record[2]) == page for record in guest[resume:])
        if was_owed(guest[:halt], page) and not placed and not freed:
            return f"incomplete page {page}"
    if asked == PAGES:
        return None
    owed = {page for page in range(pages) if was_owed(guest[:halt], page)}
    placements = [n for n, record in enumerate(pager) if record[0] in ("place", "zero") and int(record[1]) in owed]
    ends = [n for n, kind in enumerate(kinds["pager"]) if kind == "all" and all(placement < n for placement in placements)]
    if not ends:
        return "incomplete all"
    ups = {n for n, record in enumerate(logs["link"]) if record[0] == "up" and int(record[1]) in ends}
    asks = [n for n, record in enumerate(logs["source"]) if record[0] == "ask" and int(record[1]) in ups]
    if not any(kind == "done" and any(ask < n for ask in asks) for n, kind in enumerate(kinds["source"])):
        return "incomplete done"
    settled = {int(record[-1]) for record in pager if record[0] == "skip"} | {int(record[2]) for record in pager if record[0] == "place"}
    for number, record in enumerate(pager):
        if number > 0 and record[0] in ("got", "pull") and number not in settled:
            return f"incomplete line {session.line('pager', number)}"
    return None


LACKS = 'note: nothing in the logs is wrong, but they do not tell of a whole migration: "postcopy explain" with the same option says what is missing'


def known():
    """The sessions of the folders, once each."""
    found = set()
    for name in ("session", "stdin", "stdout"):
        for path in case_files(name):
            with open(path, encoding="utf-8", errors="replace", newline="") as file:
                text = file.read()
            end = text.find("\nend\n")
            if text.startswith("postcopy-session ") and end >= 0:
                found.add(text[:end + 5])
    return sorted(found)


# Which field of a record names a record of which log, where it does.
NAMING = {**{word: (1, log) for word, log in RECEIPTS.items()}, "again": (1, "source"), "join": (1, "pager"), "skip": (1, "pager"), "place": (2, "pager")}


def move(session, log, old, new):
    """Moves a record to another place of its log. The records of this log are named by their new places."""
    order = list(range(len(session.logs[log])))
    order.insert(new, order.pop(old))
    places = {number: place for place, number in enumerate(order)}
    session.logs[log] = [session.logs[log][number] for number in order]
    for records in session.logs.values():
        for n, fields in enumerate(record.split(" ") for record in records):
            field, named = NAMING.get(fields[0], (0, None))
            if named == log:
                fields[field] = str(places[int(fields[field])])
                records[n] = " ".join(fields)


def returned(session):
    """A session of the third version of which the guest's log ends with its halt, and the source's with a `back`."""
    guest = session.logs["guest"]
    for log in ("link", "lane", "pager"):
        del session.logs[log][:]
    del guest[guest.index("halt") + 1 if "halt" in guest else 0:]
    session.logs["source"] = [record for record in session.logs["source"] if not record.startswith(("ask ", "back"))][:2] + ["back"]
    session.tell_in(3)
    return session.text()


def changed(rng, text):
    """A session with some records left out, or with one in another place."""
    session = SessionText(text)
    kind = rng.choice(["one log", "each log", "returned", "place", "word", "word", "word"])
    if kind == "each log":
        part = rng.random()
        for log in session.told():
            del session.logs[log][int(len(session.logs[log]) * part):]
    elif kind == "returned":
        return returned(session)
    elif kind == "one log":
        log = rng.choice(session.told())
        del session.logs[log][rng.randint(0, len(session.logs[log])):]
    elif kind == "place":
        log, word = rng.choice([("pager", "all"), ("source", "done")])
        if word in session.logs[log]:
            move(session, log, session.logs[log].index(word), rng.randrange(len(session.logs[log])))
    else:
        log, word, other = rng.choice([("pager", "place", "skip"), ("pager", "skip", "want 0"), ("pager", "all", "want 0"), ("source", "done", None), ("guest", "z", None), ("pager", "zero", "want 0")])
        places = [n for n, record in enumerate(session.logs[log]) if record.split(" ")[0] == word]
        for n in places if rng.random() < 0.3 else places[-1:]:
            fields = session.logs[log][n].split(" ")
            session.logs[log][n] = f"skip {fields[2]}" if other == "skip" else other
        session.logs[log] = [record for record in session.logs[log] if record is not None]
    return session.text()


def run(program, *words):
    done = subprocess.run([program, *words], capture_output=True, text=True, timeout=60)
    return done.returncode, done.stdout, done.stderr


def wanted(name, text, plain, asked):
    """What the command has to answer that asks for a complete session by this option, by what it answers without asking."""
    if plain[0] != 0:
        return plain
    line = missing(SessionText(text), asked)
    return plain if line is None else (1, f"{line}\n", f"{name}: {LACKS}\n")


def compare(program, folder, text, counts, early):
    """Compares the answers to one session. Which of `all` and `done` stands too early in it is noted."""
    files = [f"{folder}/session", f"{folder}/certificate"]
    with open(files[0], "w", encoding="ascii", newline="") as file:
        file.write(text)
    status, certificate, _ = run(program, "certify", files[0])
    with open(files[1], "w", encoding="ascii", newline="") as file:
        file.write(certificate)
    for command, *names in (["audit", files[0]], ["check", *files]):
        plain = run(program, command, *names)
        if plain[0] == 0:
            said = note(SessionText(text))
            count(plain[2] == (f"{files[0]}: {said}\n" if said else ""), f"{command} says {plain[2]!r}, and the model {said!r}:\n{text}")
            counts[(said or "").partition(":")[2][:11]] = counts.get((said or "").partition(":")[2][:11], 0) + 1
        other = ((WHOLE, [*names, WHOLE]), (PAGES, [*names, PAGES]), (WHOLE, [PAGES, *names, WHOLE]))[sum(counts.values()) % 3]
        for asked, words in ((WHOLE, [WHOLE, *names]), (PAGES, [PAGES, *names]), other):
            want, got = wanted(files[0], text, plain, asked), run(program, command, *words)
            count(got == want, f"{command} {' '.join(words)} answers {got[0]} {got[1][:40]!r} {got[2]!r}, and the model {want[0]} {want[1][:40]!r} {want[2]!r}:\n{text}")
        if command == "audit":
            lines = [wanted(files[0], text, plain, asked)[1].split("\n")[0] for asked in (WHOLE, PAGES)]
            kind = " ".join(lines[0].split(" ")[:2])
            counts[kind] = counts.get(kind, 0) + 1
            for word in ("all", "done"):
                if kind == f"incomplete {word}" and f"\n{word}\n" in text:
                    early.add(word)
            if lines[0] != lines[1]:
                counts["pages alone"] = counts.get("pages alone", 0) + 1


def sessions():
    """Those of the folders, and these with changes."""
    for text in known():
        try:
            is_whole = missing(SessionText(text), WHOLE) is None
        except (IndexError, ValueError):
            continue
        rng = random.Random(text)
        yield from (text, *(changed(rng, text) for _ in range(0 if is_large(text) else CHANGES if is_whole else 2)))


@pytest.mark.slow
@pytest.mark.cases(3600)
def test_completeness(program, room):
    counts, early = {}, set()
    for text in each(sessions()):
        compare(program, room, text, counts, early)
    for kind in ("halt", "returned", "resume", "page", "all", "done", "line"):
        count(counts.get(f"incomplete {kind}"), f"no session lacks this first: {kind}")
    for word in ("all", "done"):
        count(word in early, f"no session has this too early: {word}")
    count(counts.get("clean"), "no session is complete")
    for kind in ("", " owed pages", " the guest "):
        count(counts.get(kind), f"no clean session has this note: {kind!r}")
    count(counts.get("pages alone"), "no session tells of its pages and not of the whole")

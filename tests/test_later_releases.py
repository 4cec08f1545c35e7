"""Judges sessions of the second version, and compares each answer with slow models.

The sessions are those of random schedules, told in the second version, with releases, reads and writes put into the guest's
log after the resume, and some looks and placements left out; they are the same in each run. A quarter of them are recorded of
scripts of the second version, half of these with a lane. Of half of all the lane carries some packets, or all, in the order in
which they came by the link, or in another, in which some cannot be; and of half of these a record is changed. Of an eighth of all
the source starts its guest again, so these are of the third version: at the end of its log, or before that, where it has to be
of the wrong shape; after a resume, or where the guest's log ends with its halt.

The slow models are report_model.py, world_model.py, check_model.py and the orders of session_text.py. `audit` has to name the
first fault of the shape, the record at which a knot is found, or the first fault of a page; in the order that it shows, which
has to be the found order or the one that comes late to a placement, the demand of the named record has to fail, and `replay`
has to name the first record of that order whose demand fails. Of a clean session, the certificate has to be right, with the
found order. Told in the first version, a session without a lane that releases no page after the handover has to get the same
answer, and one that does has to be of the wrong shape at its first such release. Told in the first version or in the second, a
session whose source starts its guest again has to be refused at that record.
"""
import os
import random
import re
from concurrent.futures import ThreadPoolExecutor

import pytest
import test_random_schedules as schedules
from cases import each, right
from check_model import Session, verdict
from report_model import first_line, judgement
from session_text import SessionText
from steps_model import recorded
from world_model import broken

TOP = os.path.dirname(os.path.dirname(os.path.abspath(__file__)))
SESSIONS = 800


def resumed(session):
    return next((n for n, record in enumerate(session.logs["guest"]) if record.startswith("resume ")), None)


def put(rng, session, resume):
    """Puts a release, a read or a write into the guest's log, somewhere after the resume."""
    pages, cells = (int(line.split(" ")[1]) for line in session.head[1:3])
    page, cell, kind = rng.randrange(pages), rng.randrange(cells), rng.choice("zzzrw")
    at = rng.randint(resume + 1, len(session.logs["guest"]))
    session.insert("guest", at, f"z 0 {page}" if kind == "z" else f"{kind} 0 {page} {cell} {rng.choice((0, 3))}")


def leave_out_look(rng, session):
    looks = [n for n, record in enumerate(session.logs["guest"]) if record.startswith("see ")]
    if looks:
        at = rng.choice(looks)
        del session.logs["guest"][at]
        session.move("guest", at, -1)


def skip_placement(rng, session):
    """Has the pager skip a page that it placed, where no look is at this placement."""
    seen = {record for record in session.logs["guest"] if record.startswith("see ")}
    places = [n for n, record in enumerate(session.logs["pager"]) if record.startswith("place ") and f"see {n}" not in seen]
    if places:
        at = rng.choice(places)
        session.logs["pager"][at] = f"skip {session.logs['pager'][at].split(' ')[2]}"


def with_right_reads(rng, text):
    """The session with the values that one machine reads, or, seldom, one value as it was."""
    session, models = SessionText(text), Session(text)
    reads = [n for n, record in enumerate(models.guest) if record[0] == "r"]
    kept = rng.choice(reads) if reads and rng.random() < 0.3 else None
    for n in reads:
        record = models.guest[n]
        if n != kept:
            value = models.cell_before(n, int(record[2]), int(record[3]))
            session.logs["guest"][n] = " ".join([*record[:4], str(value)])
    return session.text()


def changed(rng, text):
    """A recorded session, told in the second version, with changes."""
    session = SessionText(text)
    session.tell_in(2)
    resume = resumed(session)
    if resume is not None:
        for _ in range(rng.choice((0, 1, 1, 2, 3))):
            put(rng, session, resume)
        for change, chance in ((leave_out_look, 0.15), (skip_placement, 0.4)):
            if rng.random() < chance:
                change(rng, session)
    return with_right_reads(rng, session.text())


def over_the_lane(rng, text):
    """The session, told in the second version, where the lane carries some packets that the link carried: in their order, or
    with two of them changed about, or in any."""
    session, share, order = SessionText(text), rng.choice((0.3, 0.6, 1)), rng.choice(("kept", "kept", "swapped", "any"))
    session.tell_in(2)
    carried = [n for n, record in enumerate(session.logs["link"]) if record.startswith("down ") and rng.random() < share]
    if order == "any":
        rng.shuffle(carried)
    elif order == "swapped" and len(carried) > 1:
        at = rng.randrange(len(carried) - 1)
        carried[at:at + 2] = reversed(carried[at:at + 2])
    session.carry(carried)
    return session.text()


def with_a_change(rng, text):
    """The session with a record that names another, or comes twice, or later, or not at all."""
    session = SessionText(text)
    records = session.logs[rng.choice(("guest", "source", "link", "lane", "lane", "pager", "pager"))]
    if not records:
        return text
    at = rng.randrange(len(records))
    kind, *words = records[at].split(" ")
    how = rng.choice(("names", "names", "names", "twice", "later", "never"))
    if how == "names" and words and kind not in ("r", "w", "z", "miss", "send", "want", "zero"):
        words[kind == "place"] = str(max(0, int(words[kind == "place"]) + rng.choice((-3, -2, -1, 1, 2, 3))))
        records[at] = " ".join([kind, *words])
    elif how == "twice":
        records.insert(at, records[at])
    elif how == "later":
        records[at:at + 2] = reversed(records[at:at + 2])
    elif how == "never":
        del records[at]
    return session.text()


def with_a_back(rng, text):
    """The session in the third version, where the source starts the guest again: behind its last record, or, seldom, before it; and,
    now and then, where nothing comes of the handover."""
    session = SessionText(text)
    session.tell_in(3)
    guest, source = session.logs["guest"], session.logs["source"]
    if "halt" in guest and rng.random() < 0.3:
        del guest[guest.index("halt") + 1:]
        session.logs.update(source=source[:2], link=["down 1"], lane=[], pager=["got 0", "ready"])
        source = session.logs["source"]
    source.insert(rng.choice((len(source), len(source), len(source), rng.randrange(len(source) + 1))), "back")
    return session.text()


def in_version(text, version):
    session = SessionText(text)
    session.tell_in(version)
    return session


def wanted_before(text, report, version):
    """The first line of the report on the same records in a version before."""
    session = in_version(text, version)
    if "back" in session.logs["source"]:
        return f"session-text line {session.line('source', session.logs['source'].index('back'))}"
    return wanted_of_first(text, report) if version == 1 else report.split("\n")[0]


def wanted_of_first(text, report):
    """The first line of the report on the same records in the first version."""
    first, second = in_version(text, 1), SessionText(text)
    resume = resumed(first)
    releases = [n for n, record in enumerate(first.logs["guest"]) if record.startswith("z ") and resume is not None and n > resume]
    if releases:
        return f"shape line {first.line('guest', releases[0])} phases"
    line = re.match(r"faulty line (\d+) ", report)
    if line and int(line[1]) >= second.line("pager", 0):
        return f"faulty line {int(line[1]) - 1} {report.split()[3]}"
    return report.split("\n")[0]


def says(program, command, *texts):
    return schedules.says(program, command, *texts)[0]


def order_of(session, runs):
    counts = [run.split(" ")[1:] for run in runs.splitlines() if run.startswith("run ")]
    return session.in_order([(log, int(count)) for log, count in counts])


def order_shown(session, model, log, n, reason):
    """The order in which a faulty record is shown."""
    late = {"over": [n], "early": log == "guest" and model.placements(int(model.guest[n][2]))}.get(reason)
    return session.delayed_order("pager", late[0]) if late else session.found_order()


def shown_wrongly(program, text, model, runs, fault):
    """What is wrong with the order that is shown of a faulty record, or None."""
    session, name = SessionText(text), tuple(fault[:2])
    order = order_of(session, runs)
    if order != order_shown(session, model, *fault):
        return "another order is shown"
    failing = broken(model, order)
    if name not in failing:
        return "in the order that is shown the demand of the named record is met"
    said = says(program, "replay", text, runs)
    return None if said == f"broken line {session.line(*failing[0])}\n" else f"`replay` says {said!r}"


def certified_wrongly(program, text, model, certificate):
    """What is wrong with a clean session's certificate, or None."""
    wanted = verdict(model, certificate.encode())
    if wanted != "yes":
        return f"the slow checker says '{wanted}' of the certificate"
    if order_of(SessionText(text), certificate) != SessionText(text).found_order():
        return "the certificate has not the found order"
    if says(program, "certify", text) != certificate or says(program, "check", text, certificate) != "yes\n":
        return "the certificate is not taken, or `certify` writes another"
    runs = certificate[certificate.index("\nruns ") + 1:]
    return None if says(program, "replay", text, "postcopy-runs 1\n" + runs) == "safe\n" else "it is not replayed as safe"


def judged(program, text):
    """What a session comes out as, and what is wrong with the answers, or None."""
    word, *named = judgement(text)
    logs = SessionText(text).logs
    by = ", over the lane" if logs["lane"] or any(record.startswith("pull ") for record in logs["pager"]) else ""
    ended = ", with a back" if "back" in logs["source"] else ""
    kind = (named[2] if named[2:] else word) + by
    report = says(program, "audit", text)
    head, rest = report.split("\n", 1)
    if head != first_line(text):
        return kind, f"'{head}', not '{first_line(text)}'"
    for version in (1, 2) if ended and not by else (1,) if not by else ():
        before, wanted = says(program, "audit", in_version(text, version).text()).split("\n")[0], wanted_before(text, report, version)
        if before != wanted:
            return kind, f"in version {version} '{before}', not '{wanted}'"
    if word == "clean":
        fresh = ", with a fresh page" if " fresh " in rest else ""
        return word + fresh + ended + by, certified_wrongly(program, text, Session(text), rest)
    if word == "faulty":
        return kind, shown_wrongly(program, text, Session(text), rest, named)
    return kind, None if rest == "" else "more is said of it"


@pytest.mark.cases(SESSIONS)
def test_later_releases(program):
    rng, texts, with_lane = random.Random(5), [], 0
    for seed in range(SESSIONS):
        text = changed(rng, recorded(*schedules.random_schedule(seed, 2 if seed % 4 == 2 else 1)).session())
        with_lane += SessionText(text).logs["lane"] != []
        carried = over_the_lane(rng, text) if seed % 2 else text
        texts.append(with_a_change(rng, carried) if seed % 4 == 3 else with_a_back(random.Random(seed), carried) if seed % 8 == 5 else carried)
    found = set()
    with ThreadPoolExecutor(os.cpu_count()) as pool:
        for seed, (kind, wrong) in each(enumerate(texts), lambda some: pool.map(lambda it: (it[0], judged(program, it[1])), some)):
            found.add(kind)
            right(wrong, f"session {seed}")
    kinds = ("clean", "clean, with a fresh page", "early", "read", "over")
    over = (*kinds, "knot", "named", "start", "second-send")
    assert with_lane, "no session was recorded over a lane"
    assert not {*kinds, "clean, with a back", "start", "both", *(f"{kind}, over the lane" for kind in over)} - found, "no session comes out so"

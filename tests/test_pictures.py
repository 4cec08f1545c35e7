"""Draws the sessions of the example folders, and many more, and compares each picture with the session's order.

Of some sessions a page is used often before it goes wrong. The further ones are recorded by random schedules of events, of half of them the lane carries some packets, and many are
changed at a record, so that they have faults of every kind; others are small, and place pages behind a use as well as before
it. They are the same in each run. Where `audit` refuses a session's
text, `draw` has to say the same line. Else it has to write a well-formed picture with no script, of at most 205 rows, in which
each record of the order has its place in one row, in the order's sequence: of the order that the report has, of the found order
as far as it goes where the report has none, and of the runs before the first bad one where runs are given. The heading has to
be the report's first line, and then what `explain` says first, which names the cause, and where that shows, and to say which
order that is, whether all show the fault, and how much there is. The row of the faulty record has to be marked, and those of
the cause and of the record that this is set against, by cause_model.py, which `explain` has to name; behind the order stand the
next of each log, these where it has not come to them, and a circle with its arrows. Each record's
row has one title, and its label in a box that has room for it. Which records have a row of their own, and no fold, is what
picture_rows.py says; where each box, arrow, stub, column and sign stands, how it is painted, and what the legend says of it, is
what picture_shapes.py wants of the order. So it is in a picture of a page of some of them, whether it has a fault or not.
"""
import random
import re
import xml.etree.ElementTree as ElementTree

import case_table
import pytest
import test_random_schedules as schedules
from cases import each, right
from check_model import Session, run_not_walked
from picture_model import Told, is_in_every_order, sentences_of
from picture_rows import own_rows
from picture_shapes import look_of, shown_wrongly
from session_text import LOGS, SessionText
from small_sessions import small_session
from steps_model import recorded
from test_later_releases import over_the_lane
from test_shown_orders import Program
from world_model import REASONS

MOST_ROWS = 205
RECORDED = 75
SVG = "{http://www.w3.org/2000/svg}"


def runs_of(text):
    return [(log, int(count)) for log, count in re.findall(r"^run (\w+) (\d+)$", text, re.M)]


def bad_run(session, runs):
    """The place of the first of the runs that cannot be taken, or their number where records are left, or None."""
    return run_not_walked(Session(session), [("run", *run) for run in runs])


def order_of(session, report, runs):
    """The records that are to be drawn, in their order: along the runs, if any are given, and else that of the report."""
    records, head = SessionText(session), report.split("\n", 1)[0]
    if runs is None and not head.startswith(("faulty", "clean")):
        return records.found_order()
    runs = runs_of(report if runs is None else runs)
    return records.in_order(runs[:bad_run(session, runs)])


def shown_order(told, text, runs, order):
    """What the heading has to say of the order."""
    session = told.session
    if runs is not None:
        bad = bad_run(text, runs_of(runs))
        stop = "" if bad is None else f", which are no merging: up to line {bad + 3} of their text, which cannot be taken"
        return f"Along the given runs{stop}"
    if told.head[0] == "faulty":
        return "It goes wrong in every order, as in this one" if is_in_every_order(told) else "In an order in which it goes wrong"
    is_whole = len(order) == sum(map(len, session.logs.values()))
    return "In the found order" + ("" if is_whole else ", as far as it goes")


def headed_wrongly(told, shown, picture):
    """What is wrong with the heading of a picture, or None: the report's first line, what is told first, which order, and how much."""
    first, *found = [line.text for line in picture.findall(SVG + "text")]
    wanted = told.report.split("\n", 1)[0] + "\n"
    if [picture.find(SVG + "title").text, first] != [wanted] * 2:
        return f"the heading {first!r}"
    sentences = sentences_of(told.report, told.told)
    if " ".join(found[:-2]) != " ".join(sentences):
        return f"the heading {found[:-2]}, not {sentences!r}"
    if told.cause and "({} {})".format(*told.cause) not in sentences[0]:
        return f"the heading {sentences[0]!r}, which does not name the cause {told.cause}"
    if found[-2] != shown:
        return f"the heading {found[-2]!r}, not {shown!r}"
    facts = facts_of(told.session)
    return None if found[-1] == facts else f"the heading {found[-1]!r}, not {facts!r}"


def facts_of(session):
    """What the heading has to say of how much there is."""
    def many(count, word):
        return f"{count} {word}{'s' * (count != 1)}"

    lengths = {log: len(records) for log, records in session.logs.items()}
    each = ", ".join(f"{log} {lengths[log]}" for log in LOGS if lengths[log])
    records = many(sum(lengths.values()), "record") + (f": {each}" if each else "")
    return f"{many(session.pages, 'page')} of {many(session.cells, 'cell')}, {records}"


def rows_of(picture):
    return [group for group in picture.iter(SVG + "g") if (group.get("class") or "").startswith("row")]


def is_behind(row):
    return "behind" in row.get("class").split()


def name_of(row):
    """The line of a row's record, and its log and place."""
    line, log, place = re.match(r"line (\d+) \((\w+) (\d+)\): ", row.find(SVG + "title").text).groups()
    return int(line), (log, int(place))


def ordered_wrongly(records, order, picture):
    """What is wrong with the rows of a picture beside its order, or None."""
    at, receipts = 0, 0
    rows = [row for row in rows_of(picture) if not is_behind(row)]
    if len(rows) > MOST_ROWS:
        return f"{len(rows)} rows"
    for row in rows:
        titles = row.findall(SVG + "title")
        if "fold-row" in row.get("class"):
            text = row.find(SVG + "text").text
            counts = {log: int(count) for log, count in re.findall(rf"({'|'.join(LOGS)}) (\d+)", text)}
            count = int(text.split()[0])
            part = order[at : at + count]
            if count < 2 or len(part) != count or {log: sum(name[0] == log for name in part) for log in LOGS if any(name[0] == log for name in part)} != counts:
                return f"a fold '{text}' of {part}"
            at += count
            continue
        if len(titles) != 1:
            return f"{len(titles)} titles"
        line, name = name_of(row)
        if at >= len(order) or name != order[at] or line != records.line(*order[at]):
            return f"a row of {name} in line {line}, not of {order[at:at + 1]}"
        receipts += records.named(*order[at]) is not None
        at += 1
    if at != len(order):
        return f"{at} of {len(order)} records"
    arrows = arrows_of(picture, "arrow") + arrows_of(picture, "arrow-page")
    return None if arrows == receipts else f"{arrows} arrows to {receipts} receipts"


def arrows_of(picture, kind):
    """How many arrows of a kind there are, but for the legend's."""
    legend = list(picture.find(f".//{SVG}g[@class='legend']").iter(SVG + "line"))
    return sum(1 for line in picture.iter(SVG + "line") if line.get("class") == kind and line not in legend)


def behind_wrongly(told, order, picture):
    """What is wrong with the records behind the order, or None: the next of each log, the faulty one, the cause, what it is set against, and a circle."""
    logs, taken = told.session.logs, {log: sum(name[0] == log for name in order) for log in LOGS}
    left = {(log, taken[log]) for log in LOGS if taken[log] < len(logs[log])} | ({told.fault, told.cause, told.against, *told.circle} - {None} - set(order))
    wanted = sorted(left, key=lambda name: (LOGS.index(name[0]), name[1]))
    found = [name_of(row)[1] for row in rows_of(picture) if is_behind(row)]
    if found != wanted:
        return f"{found} behind the order, not {wanted}"
    ties = arrows_of(picture, "arrow-tied")
    return None if ties == len(told.circle) else f"{ties} arrows of a circle of {len(told.circle)}"


def marked_wrongly(told, picture):
    """What is wrong with the marks of the faulty record, or of a circle, of the cause and of what it is set against, or None."""
    found = {mark: {name_of(row)[1] for row in rows_of(picture) if mark in row.get("class").split()} for mark in ("faulty", "cause", "against")}
    wanted = {"faulty": {told.fault, *told.circle} - {None}, "cause": {told.cause} - {None}, "against": {told.against} - {None, told.fault, told.cause}}
    if found != wanted:
        return f"{found} marked, not {wanted}"
    untold = [name for name in {*found["cause"], *found["against"]} if not told.names(name)]
    return f"{untold} marked, which `explain` does not name" if untold else None


def boxed_wrongly(told, picture):
    """What is wrong with the boxes and with the legend, or None."""
    legend = picture.find(f".//{SVG}g[@class='legend']")
    looks = set()
    for row in rows_of(picture):
        if "fold-row" in row.get("class"):
            continue
        number, label = (part.text for part in row.findall(f".//{SVG}tspan"))
        box, (_, name) = row.find(SVG + "rect"), name_of(row)
        looks.add(look_of(box, row))
        if (number, label) != (str(name[1]), told.label(name)):
            return f"a box {number!r} {label!r} of {name}, not {told.label(name)!r}"
        if 7 * (len(number) + len(label)) + 38 + 14 * (len(row.findall(SVG + "g")) > 1) > int(box.get("width")):
            return f"a box too narrow for {label!r}"
    known = {look_of(box, entry) for entry in legend.findall(SVG + "g") for box in entry.findall(SVG + "rect")}
    return None if known == looks else f"a legend of {known}, and boxes of {looks}"


def kept_wrongly(told, records, order, picture):
    """What is wrong with the records of the order that have a row of their own, or None."""
    found = [name_of(row)[1] for row in rows_of(picture) if not is_behind(row) and "fold-row" not in row.get("class")]
    wanted = own_rows(told, records, order)
    more, missing = [name for name in found if name not in wanted], [name for name in wanted if name not in found]
    return None if found == wanted else f"rows of {more} and none of {missing}"


def drawn_wrongly(program, session, runs=None):
    """What is wrong with the picture of a session, or None, and the kind of its report."""
    report, _ = program.says("audit", session=session)
    texts = {"session": session} if runs is None else {"session": session, "runs": runs}
    answer, status = program.says("draw", **texts)
    words = report.split("\n", 1)[0].split()
    kind = " ".join(words[:1] + words[3:] * (words[0] == "faulty"))
    if kind == "session-text":
        return (None if (answer, status) == (report, 1) else f"status {status}"), kind
    if status != 0 or "script" in answer.lower():
        return f"status {status}, or a script", kind
    try:
        picture = ElementTree.fromstring(answer)
    except ElementTree.ParseError as error:
        return f"no well-formed text: {error}", kind
    records, order = SessionText(session), order_of(session, report, runs)
    explained, _ = program.says("explain", session=session)
    told = Told(session, report, explained)
    told.look_at({records.line(log, n): (log, n) for log in LOGS for n in range(len(records.logs[log]))})
    shown = shown_order(told, session, runs, order)
    return (headed_wrongly(told, shown, picture) or ordered_wrongly(records, order, picture) or behind_wrongly(told, order, picture)
            or marked_wrongly(told, picture) or boxed_wrongly(told, picture) or kept_wrongly(told, records, order, picture)
            or shown_wrongly(picture, told.session, lambda name: records.named(*name), told.circle)), kind


def page_headed_wrongly(told, picture):
    """What is wrong with the heading of a picture of a page, or None."""
    title, *found, order, facts = [line.text for line in picture.findall(SVG + "text")]
    first, *lines = told.told.splitlines()
    shown = "In the found order" if first == "clean" else "In the order that shows the first fault of the session"
    if (title, order, facts) != (f"{first}\n", shown, facts_of(told.session)):
        return f"the heading {[title, order, facts]}"
    wanted = lines[:2] if told.fault else lines[:1]
    return None if " ".join(found) == " ".join(wanted) else f"the heading {found}, not {wanted}"


def drawn_of_a_page_wrongly(program, session, page):
    """What is wrong with the picture of a page of a session that is clean or has a fault of a page, or None."""
    report, _ = program.says("audit", session=session)
    faults, _ = program.says("audit --all", session=session)
    answer, status = program.says(f"draw --page {page}", session=session)
    if status != 0:
        return f"status {status}"
    picture, records, order = ElementTree.fromstring(answer), SessionText(session), order_of(session, report, None)
    told = Told(session, report, program.says(f"explain --page {page}", session=session)[0])
    fault = re.search(rf"^page {page} (line \d+ \S+)$", faults, re.M)
    told.topic, told.head = page, ["faulty", *fault[1].split(" ")] if fault else ["clean"]
    told.look_at({records.line(log, n): (log, n) for log in LOGS for n in range(len(records.logs[log]))})
    return (page_headed_wrongly(told, picture) or ordered_wrongly(records, order, picture) or behind_wrongly(told, order, picture)
            or marked_wrongly(told, picture) or boxed_wrongly(told, picture) or kept_wrongly(told, records, order, picture)
            or shown_wrongly(picture, told.session, lambda name: records.named(*name), told.circle))


def changed(rng, session):
    """The session with one record changed, left out or moved."""
    session = SessionText(session)
    log = rng.choice([log for log in LOGS if session.logs[log]] or [None])
    if log is None:
        return session.text()
    records = session.logs[log]
    at = rng.randrange(len(records))
    numbers = [n for n, word in enumerate(records[at].split()) if n and len(word) < 16]
    how = rng.random()
    if how < 0.5 and numbers:
        words, n = records[at].split(), rng.choice(numbers)
        words[n] = str(max(0, int(words[n]) + rng.choice((-1, 1, 2, -3))))
        records[at] = " ".join(words)
    elif how < 0.75 and at + 1 < len(records):
        records[at], records[at + 1] = records[at + 1], records[at]
    else:
        del records[at]
    return session.text()


def used_often(text):
    """The session, whose guest begins with many writes and reads of page 1."""
    session, more = SessionText(text), ["w 0 1 0 5", "r 0 1 0 5"] * 60
    session.logs["guest"][:0] = more
    for log in ("source", "pager"):
        for n, record in enumerate(session.logs[log]):
            word, *numbers = record.split(" ")
            if word in ("halted", "fault"):
                session.logs[log][n] = f"{word} {int(numbers[0]) + len(more)}"
    return session.text()


def sent_often(repeats):
    """A page is released often before the halt, sent, and then sent again so often; what is placed of it is altered. So its `send`,
    which this is set against, is neither among the first of its records nor among those nearest to the fault. Behind it the source
    sends another page, which does not concern the fault: a single record, if what comes next has a row."""
    one, two, three = ("%016x" % it for it in (5, 6, 7))
    logs = {
        "guest": ["z 0 0"] * 8 + ["w 0 0 0 5", "w 0 1 0 6", "halt", "resume 1"],
        "source": ["halted 10", "state", f"send 0 {one}", f"send 1 {two}", *["again 2"] * repeats],
        "link": ["down 1", "down 2", "down 3"],
        "pager": ["got 0", "ready", "got 1", f"place 0 2 {three}", "got 2", f"place 1 4 {two}"],
    }
    return "".join(["postcopy-session 1\npages 2\ncells 1\ninit 0\n", *("\n".join([f"{log} {len(records)}", *records, ""]) for log, records in logs.items()), "end\n"])


def stale_often(repeats):
    """A page is released often before the halt, and written, so what is written is none of the first. It is sent with another value,
    and then sent again so often. So this `send`, which is the cause of the wrong read at the target, is far from the read."""
    logs = {
        "guest": [*["z 0 0"] * 8, "w 0 0 0 5", *["w 0 0 0 6"] * 2, "halt", "resume 1", "see 3", "r 0 0 0 5"],
        "source": ["halted 11", "state", "send 0 %016x" % 5, *["again 2"] * repeats],
        "link": ["down 1", "down 2"],
        "pager": ["got 0", "ready", "got 1", "place 0 2 %016x" % 5],
    }
    return "".join(["postcopy-session 1\npages 1\ncells 1\ninit 0\n", *("\n".join([f"{log} {len(records)}", *records, ""]) for log, records in logs.items()), "end\n"])


def never_resumed(repeats):
    """The state is sent again so often, and the guest is never resumed: around the beginning most is shown."""
    logs = {"guest": ["halt"], "source": ["halted 0", "state", *["again 1"] * repeats], "link": [f"down {1 + it}" for it in range(repeats)], "pager": ["got 0"]}
    return "".join(["postcopy-session 1\npages 1\ncells 1\ninit 0\n", *("\n".join([f"{log} {len(records)}", *records, ""]) for log, records in logs.items()), "end\n"])


def sessions():
    yield "a guest that is never resumed", never_resumed(90)
    for repeats in range(36, 41):
        yield f"a page that is sent {repeats} times again", sent_often(repeats)
        yield f"a page that is sent stale, and {repeats} times again", stale_often(repeats)
    for file in case_table.case_files("session"):
        with open(file, encoding="latin-1") as text:
            yield case_table.name_of(file), text.read()
    for name in ("explain-stale-page", "explain-wrong-read", "explain-early-access", "explain-second-placement"):
        with open(f"{case_table.CASES}/{name}/session", encoding="latin-1") as text:
            yield f"{name}, a page used often", used_often(text.read())
    rng = random.Random(20)
    for n in range(RECORDED):
        session = recorded(*schedules.random_schedule(n)).session()
        if n % 2:
            session = over_the_lane(rng, session)
        yield f"schedule {n}", session
        yield f"schedule {n}, changed", changed(rng, session)
        yield f"schedule {n}, changed twice", changed(rng, changed(rng, session))
        yield f"small session {n}", small_session(rng)


@pytest.mark.slow
@pytest.mark.cases(1800)
def test_pictures(program, room):
    kinds, asked = set(), Program(program, room)
    for number, (name, session) in each(enumerate(sessions()), name=lambda it: it[1][0]):
        found, kind = drawn_wrongly(asked, session)
        kinds.add(kind)
        right(found, name)
        report, _ = asked.says("audit", session=session)
        lines = re.findall(r"^run .*$", report, re.M)
        for some in (lines, lines[:-1], lines[1:]) if len(lines) > 2 else ():
            runs = "\n".join(["postcopy-runs 1", f"runs {len(some)}", *some, "end", ""])
            right(drawn_wrongly(asked, session, runs)[0], f"{name}, along runs")
        if number % 3 == 0 and kind.startswith(("clean", "faulty")):
            page = number // 3 % Session(session).pages
            right(drawn_of_a_page_wrongly(asked, session, page), f"{name}, page {page}")
    wanted = {"clean", "knot", "session-text", "shape", *(f"faulty {reason}" for reason in REASONS)}
    assert not wanted - kinds, "no session comes out so"

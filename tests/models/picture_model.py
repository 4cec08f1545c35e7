"""What a picture has to say of a session besides its order: what is marked, what stands in the boxes, and what is told.

It goes by the session's text and by what `explain` says of it.
"""
import re

from cause_model import NAMES, cause_of, concerned_by, contents_at, page_of
from check_model import Session
from session_text import LOGS, SessionText

WORDS = {"r": "read", "w": "write", "z": "release"}
TOLD = re.compile(rf"line \d+ \(({'|'.join(LOGS)}) (\d+)\)")


def sentences_of(report, told):
    """What a heading has of what `explain` says: what goes wrong and where it shows or why, or that nothing is wrong."""
    lines = told.split("\n")[1:-1]
    if not report.startswith(("faulty", "shape")):
        return lines[:1]
    shows = [line for line in lines if line.startswith("It shows at ")]
    return [lines[0], *(shows or lines[1:])[:1]]


def circle_of(report, told):
    """The records that wait for one another, by log and place, as `explain` names them."""
    lines = told.split("\n") if report.startswith("knot") else []
    return [(log, int(n)) for line in lines if line.startswith("  ") for log, n in [TOLD.search(line).groups()]]


def label_of(session, log, place):
    """What stands in the box of a record."""
    word, *numbers = session.logs[log][place]
    if word in ("r", "w"):
        return f"{WORDS[word]} p{numbers[1]}[{numbers[2]}] = {numbers[3]}"
    if word in ("z", "miss"):
        return f"{WORDS.get(word, word)} p{numbers[1]}"
    if word in ("send", "want", "zero"):
        return f"{word} p{numbers[0]}"
    if word == "place":
        return f"place p{numbers[0]} pager {numbers[1]}"
    return " ".join([word, *(f"{named} {n}" for named, n in zip(NAMES.get(word, []), numbers))])


def faulty_label(session, head, log, place):
    """What stands in the box of the faulty record: of a wrong value with the right one."""
    record = session.logs[log][place]
    if head[0] == "faulty" and head[3] == "read":
        page, cell = int(record[2]), int(record[3])
        return f"read p{page}[{cell}] = {record[4]}, right: {session.cell_before(place, page, cell)}"
    if head[0] == "faulty" and head[3] in ("stale", "altered"):
        cell, wrong, right = contents_at(session, record)
        return f"{record[0]} p{page_of(record)}[{cell}] = {wrong}, right: {right}"
    return label_of(session, log, place)


def is_in_every_order(told):
    """Whether every order shows a fault of a page: where the page is placed too late, its placement depends on the use."""
    reason, session, (log, place) = told.head[3], told.session, told.fault
    if reason not in ("early", "over"):
        return True
    page = page_of(session.logs[log][place])
    late = told.text.dependents("guest", place if reason == "early" else session.first_use(page))
    return all(("pager", n) in late for n in session.placements(page))


class Told:
    """A session with its report and what `explain` says of it."""

    def __init__(self, text, report, told):
        # (what goes wrong apart from the shape is not drawn)
        drawn = re.sub("(?<=\n)Apart from that, (?s:.*)", "", told)
        self.session, self.text, self.report, self.told = Session(text), SessionText(text), report, drawn
        self.head = report.split("\n", 1)[0].split()
        self.circle = circle_of(report, told)
        self.fault = self.cause = self.against = None
        self.topic = None  # the page that was named

    def look_at(self, names):
        """Takes the name of the record at each line."""
        if self.head[0] in ("faulty", "shape"):
            self.fault = names[int(self.head[2])]
            self.cause, self.against = cause_of(self.text, self.head[3], *self.fault) if self.head[0] == "faulty" else (None, None)
            self.against = self.against or concerned_by(self.session, self.head, *self.fault)

    def label(self, name):
        return faulty_label(self.session, self.head, *name) if name == self.fault else label_of(self.session, *name)

    def names(self, name):
        """Whether `explain` names this record."""
        return f"({name[0]} {name[1]})" in self.told

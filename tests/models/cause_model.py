"""What a fault concerns, and its cause, slowly and plainly: the record with which a page goes wrong, and what this is set against.

It goes by docs/ANSWERS.md and the tables of docs/FORMATS.md. Whether an order has one record before another, it reads off what
depends on what: so the causes are those of sessions that have a merging.
"""
from check_model import Session

# What the numbers of a record name, in the order of its line.
NAMES = {"resume": ["pager"], "see": ["pager"], "halted": ["guest"], "again": ["source"], "ask": ["link"], "up": ["pager"], "got": ["link"],
         "pull": ["lane"], "fault": ["guest"], "join": ["pager"], "down": ["source"], "place": [None, "pager"], "skip": ["pager"]}


def page_of(record):
    return int(record[2] if record[0] in "rwz" else record[1])


def setter(session, n, page, cell):
    """The last record of the guest before this one that gives a cell a value."""
    sets = [m for m, rec in enumerate(session.guest[:n]) if rec[:1] + rec[2:4] == ["w", str(page), str(cell)] or rec[:1] + rec[2:3] == ["z", str(page)]]
    return ("guest", sets[-1]) if sets else None


def contents_at(session, record):
    """The first cell in which a record's contents are not those of its page at the halt, with both values."""
    page, contents = page_of(record), session.contents(record[-1])
    right = session.at_halt(page)
    cell = next(c for c in range(session.cells) if contents[c] != right[c])
    return cell, contents[cell], right[cell]


def concerned_by(session, head, log, place):
    """The record that a faulty record concerns by its reason, by log and place, or None."""
    kind, reason, record = head[0], head[3], session.logs[log][place]
    if kind == "shape":
        return concerned_by_shape(session, reason, place, record)
    page = page_of(record)
    changes = [n for n, rec in enumerate(session.guest[:session.halt()]) if rec[0] in "wz" and rec[2] == str(page)]
    if reason == "read":
        return setter(session, place, page, int(record[3]))
    if reason == "stale":
        return setter(session, session.halt(), page, contents_at(session, record)[0])
    if reason in ("given", "unfit"):
        return ("guest", changes[-1]) if changes else None
    if reason in ("early", "twice"):
        return next((("pager", n) for n in session.placements(page)), None)
    if reason == "altered":
        return next((("source", n) for n, rec in enumerate(session.source) if rec[:2] == ["send", str(page)]), None)
    return "guest", session.first_use(page)


def concerned_by_shape(session, reason, at, record):
    if reason == "second-send":
        return next(("source", n) for n, rec in enumerate(session.source) if rec[:2] == record[:2])
    if reason == "both":
        return "guest", session.resumed()
    if reason == "named":
        log = NAMES[record[0]][-1]
        number = int(record[NAMES[record[0]].index(log) + 1])
        return (log, number) if number < len(session.logs[log]) else None
    if reason == "phases":
        needs_resume = record[0] in ("miss", "see") or record[0] == "resume" and session.resumed() != at
        place = session.resumed() if needs_resume else session.halt()
        return ("guest", place) if place < len(session.guest) else None
    return None


def came_to(session, page):
    """The last record that has a page on its way: the first with which the pager takes it, or that delivers it, or sends it; or None."""
    sends = [n for n, record in enumerate(session.source) if record[:2] == ["send", str(page)]]
    sent = {n for n, record in enumerate(session.source) if n in sends or record[0] == "again" and int(record[1]) in sends}
    carried = {log: [n for n, record in enumerate(session.logs[log]) if record[0] == "down" and int(record[1]) in sent] for log in ("link", "lane")}
    taken = [n for n, (word, *numbers) in enumerate(session.pager) if word in ("got", "pull") and int(numbers[0]) in carried["link" if word == "got" else "lane"]]
    found = {"pager": taken, **carried, "source": sends}
    return next(((log, places[0]) for log, places in found.items() if places), None)


def last_change(session, before, page):
    """The guest's last record before this one that changes a page, or None."""
    return next((("guest", n) for n in reversed(range(before)) if session.guest[n][0] in "wz" and page_of(session.guest[n]) == page), None)


class Read:
    """A wrong read of the guest, and what may have led to its value."""

    def __init__(self, text, n):
        self.session, self.text, self.n = Session(text.text()), text, n
        self.page, self.cell, self.value = map(int, self.session.guest[n][2:5])
        self.placements, self.touch = self.session.placements(self.page), self.session.first_use(self.page)
        self.is_released = self.touch is not None and self.session.guest[self.touch][0] == "z"
        self.change = setter(self.session, n, self.page, self.cell)

    def puts(self, placement):
        """The value that a placement puts into the cell."""
        record = self.session.pager[placement]
        return self.session.contents(record[3])[self.cell] if record[0] == "place" else 0

    def may_precede(self, one, other):
        """Whether an order has one record before another."""
        return one not in self.text.dependents(*other)

    def may_give(self, placement):
        """Whether an order has a placement last for the page between the cell's last change and the read."""
        read, placed = ("guest", self.n), ("pager", placement)
        later = [("pager", n) for n in self.placements if n > placement]
        return (self.puts(placement) == self.value and (self.change is None or self.may_precede(self.change, placed))
                and self.may_precede(placed, read) and all(self.may_precede(read, other) for other in later))

    def missing(self):
        """The cause where the page is used before it comes, or does not come, or None."""
        if self.is_released:
            return None
        if not self.placements:
            return ("guest", self.touch), came_to(self.session, self.page)
        first = ("pager", self.placements[0])
        return (("guest", self.touch), first) if self.may_precede(("guest", self.touch), first) else None

    def of_first(self):
        """The cause where the page's first placement gives the value, or None."""
        session, first, halt = self.session, ("pager", self.placements[0]), self.session.halt()
        if session.cell_before(halt, self.page, self.cell) == self.value:
            return (first, ("guest", self.touch)) if self.is_released else self.missing()
        lacked, right = setter(session, halt, self.page, self.cell), session.at_halt(self.page)[self.cell]
        sends = [n for n, record in enumerate(session.source) if record[:2] == ["send", str(self.page)]]
        if sends and session.contents(session.source[sends[0]][2])[self.cell] != right:
            return ("source", sends[0]), lacked
        return first, last_change(session, halt, self.page) if session.pager[first[1]][0] == "zero" else lacked

    def at_target(self):
        """The cause that the page's way to the target explains, or None."""
        giver = next((n for n in self.placements if self.may_give(n)), None)
        if giver is None:
            return self.missing()
        return self.of_first() if giver == self.placements[0] else (("pager", giver), self.change)

    def lost(self):
        """The cause where the cell had the value earlier, or that there is none."""
        read, change = ("guest", self.n), self.change
        had = change and {self.session.cell_before(n, self.page, self.cell) for n in range(change[1] + 1)}
        return (change, read) if change and self.value in had else (None, None)

    def cause(self):
        found = self.at_target() if self.touch is not None and self.touch <= self.n else None
        return found or self.lost()


def cause_of(text, reason, log, place):
    """The record that is the cause of a fault of a page, and the one that this is set against, each by log and place, or None."""
    if reason == "read":
        return Read(text, place).cause()
    session, fault = Session(text.text()), (log, place)
    page = page_of(session.logs[log][place])
    if reason == "early" and not session.placements(page):
        return fault, came_to(session, page)
    return fault, concerned_by(session, ["faulty", "line", "", reason], log, place)

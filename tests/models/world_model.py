"""What each record of a session finds in an order, and which records have a fault of their page, slowly and plainly.

It goes by docs/FORMATS.md, and looks through the logs for each question. It takes sessions of the right shape.
"""
from session_text import LOGS

# Why a record is a fault of its page, in the order in which reasons count.
REASONS = ("read", "early", "given", "stale", "twice", "altered", "unfit", "over")


class World:
    """Where the guest is, the memories of both machines, and the pages that are resident, placed and touched at the target, or released."""

    def __init__(self, session):
        self.session = session
        self.home = "source"
        self.source = {page: list(session.initial.get(page, [0] * session.cells)) for page in range(session.pages)}
        self.target = {page: [0] * session.cells for page in range(session.pages)}
        self.resident, self.placed, self.touched, self.ledger = set(), set(), set(), set()

    def finds(self, log, n):
        """Whether a record's demand is met."""
        words = self.session.logs[log][n]
        kind, page = words[0], int(words[2] if log == "guest" and words[0] in "rwz" else words[1]) if len(words) > 1 else None
        if kind in ("r", "w"):
            memory, cell = self.source if self.home == "source" else self.target, int(words[3])
            is_there = self.home == "source" or (self.home == "target" and page in self.resident)
            value = int(words[4])
            return is_there and (kind == "w" or value == memory[page][cell] == self.session.cell_before(n, page, cell))
        if kind == "send":
            return self.home != "source" and self.session.contents(words[2]) == self.source[page] and page not in self.ledger
        if kind in ("place", "zero"):
            is_due = self.session.contents(words[3]) == self.source[page] if kind == "place" else page in self.ledger
            return page not in self.placed and page not in self.touched and is_due
        return True

    def moves(self, log, n):
        """What a record leaves."""
        words = self.session.logs[log][n]
        if log == "guest":
            self.guest_moves(words)
        elif words[0] in ("place", "zero"):
            page = int(words[1])
            self.target[page] = self.session.contents(words[3]) if words[0] == "place" else [0] * self.session.cells
            self.resident.add(page)
            self.placed.add(page)

    def guest_moves(self, words):
        if words[0] == "halt":
            self.home = "nowhere"
        elif words[0] == "resume":
            self.home = "target"
        elif words[0] in "rwz" and self.home == "target":
            page = int(words[2])
            self.touched.add(page)
            if words[0] == "z":
                self.resident.add(page)
                self.target[page] = [0] * self.session.cells
            elif words[0] == "w" and page in self.resident:
                self.target[page][int(words[3])] = int(words[4])
        elif words[0] in "wz" and self.home == "source":
            page = int(words[2])
            if words[0] == "z":
                self.ledger.add(page)
                self.source[page] = [0] * self.session.cells
            else:
                self.ledger.discard(page)
                self.source[page][int(words[3])] = int(words[4])


def broken(session, order):
    """The records of an order, by log and place, whose demands fail."""
    world, found = World(session), []
    for log, n in order:
        if not world.finds(log, n):
            found.append((log, n))
        world.moves(log, n)
    return found


def has_looked(session, page, n):
    """Whether a look before guest record n is at a placement of the page, or at a later record."""
    looks = [int(record[1]) for record in session.guest[:n] if record[0] == "see"]
    return any(place <= look for look in looks for place in session.placements(page))


def guest_faults(session):
    for n, record in enumerate(session.guest):
        if record[0] not in "rw":
            continue
        page = int(record[2])
        if record[0] == "r" and int(record[4]) != session.cell_before(n, page, int(record[3])):
            yield n, "read"
        is_freed = any(r[0] == "z" and r[2] == record[2] for r in session.guest[session.resumed():n])
        if n > session.resumed() and not is_freed and not has_looked(session, page, n):
            yield n, "early"


def source_faults(session):
    for n, record in enumerate(session.source):
        if record[0] == "send":
            if session.is_released(int(record[1])):
                yield n, "given"
            if session.contents(record[2]) != session.at_halt(int(record[1])):
                yield n, "stale"


def pager_faults(session):
    for n, record in enumerate(session.pager):
        if record[0] not in ("place", "zero"):
            continue
        page = int(record[1])
        use = session.first_use(page)
        if session.placements(page)[0] != n:
            yield n, "twice"
        elif use is not None and session.guest[use][0] == "z" and not has_looked(session, page, use):
            yield n, "over"
        if record[0] == "place" and session.contents(record[3]) != session.at_halt(page):
            yield n, "altered"
        if record[0] == "zero" and not session.is_released(page):
            yield n, "unfit"


def faults(session):
    """Each fault of a page, from the first on: its log, its place there and its reason."""
    finders = {"guest": guest_faults, "source": source_faults, "pager": pager_faults}
    found = [(LOGS.index(log), n, REASONS.index(reason)) for log in finders for n, reason in finders[log](session)]
    return [(LOGS[log], n, REASONS[reason]) for log, n, reason in sorted(found)]


def first_fault(session):
    """The first fault of a page, or None."""
    return next(iter(faults(session)), None)


def page_of(session, log, n):
    """The page of a record that is a fault."""
    words = session.logs[log][n]
    return int(words[2] if log == "guest" else words[1])


def faults_by_reason(session, page):
    """The faults of a page: each reason that there is, with its records by log and place, in the order of the reasons."""
    own = [it for it in faults(session) if page_of(session, *it[:2]) == page]
    found = {reason: [(log, n) for log, n, of in own if of == reason] for reason in REASONS}
    return {reason: records for reason, records in found.items() if records}


def page_faults(session):
    """The first fault of each page that has one, in the order of pages."""
    first = {}
    for log, n, reason in faults(session):
        first.setdefault(page_of(session, log, n), (log, n, reason))
    return dict(sorted(first.items()))

"""Which record of a session has a fault of the shape, slowly and plainly.

It goes by the tables of docs/FORMATS.md, and looks through the logs for each question. It takes sessions that are well formed.
"""
from session_text import RECEIPTS, SessionText

# What the record has to be that a number names: of another log, or, earlier, of the record's own.
NAMED = {
    "resume": ("ready",), "see": ("place", "zero"), "halted": ("halt",), "fault": ("miss",), "down": ("state", "send", "again"),
    "up": ("want", "all"), "ask": ("up",), "got": ("down",), "pull": ("down",),
    "again": ("state", "send"), "join": ("want",), "skip": ("got", "pull"), "place": ("got", "pull"),
}


class Shape:
    def __init__(self, text):
        session = SessionText(text)
        self.is_first = session.head[0] == "postcopy-session 1"
        self.logs = {log: [record.split(" ") for record in records] for log, records in session.logs.items()}

    def record(self, log, n):
        """A record's words; none where there is no such record."""
        return self.logs[log][n] if n < len(self.logs[log]) else [""]

    def kinds_before(self, log, n):
        return [record[0] for record in self.logs[log][:n]]

    def delivery(self, taking):
        """The record of the source that a `got` or `pull` of the pager brings, or the one that it repeats."""
        kind, *numbers = self.record("pager", taking)
        carried = self.record(RECEIPTS[kind], int(numbers[0])) if kind in ("got", "pull") else [""]
        sent = self.record("source", int(carried[1])) if carried[0] == "down" else [""]
        return self.record("source", int(sent[1])) if sent[0] == "again" else sent

    def is_out_of_phase(self, log, n):
        kind, before = self.record(log, n)[0], self.kinds_before(log, n)
        is_halted, is_resumed = "halt" in before, "resume" in before
        if log != "guest":
            return False
        if kind in "rwz":
            return is_halted and not is_resumed or kind == "z" and is_resumed and self.is_first
        return {"halt": is_halted, "resume": is_resumed or not is_halted}.get(kind, not is_resumed)

    def is_misnamed(self, log, n):
        kind, *words = self.record(log, n)
        if kind not in NAMED:
            return False
        number = int(words[1] if kind == "place" else words[0])
        named = self.record(RECEIPTS.get(kind, log), number)[0]
        if named not in NAMED[kind] or kind not in RECEIPTS and number >= n:
            return True
        return kind == "place" and self.delivery(number)[:2] != ["send", words[0]]

    def is_misplaced(self, log, n):
        """Whether a record is not what its log begins with, or is, and stands elsewhere, or is a `back` in front of others."""
        kind = self.record(log, n)[0]
        if log == "source":
            is_early = kind == "back" and n + 1 < len(self.logs[log])
            return len(self.logs[log]) == 1 or is_early or (n == 0) != (kind == "halted") or (n == 1) != (kind == "state")
        if log == "pager" and n == 0:
            return kind not in ("got", "pull") or self.delivery(n) != ["state"]
        return log == "pager" and (n == 1) != (kind == "ready")

    def is_sent_again(self, log, n):
        record = self.record(log, n)
        return record[0] == "send" and any(before[:2] == record[:2] for before in self.logs[log][:n])

    def is_at_both(self, log, n):
        """Whether it starts the guest again at the source that was resumed at the target."""
        return self.record(log, n)[0] == "back" and "resume" in self.kinds_before("guest", len(self.logs["guest"]))


REASONS = {
    "phases": Shape.is_out_of_phase, "named": Shape.is_misnamed, "start": Shape.is_misplaced, "second-send": Shape.is_sent_again,
    "both": Shape.is_at_both,
}


def shape_faults(text):
    """The faults of the shape, from the first on: of each the record's log, its place there and the reason."""
    shape = Shape(text)
    records = ((log, n) for log in shape.logs for n in range(len(shape.logs[log])))
    return ((log, n, reason) for log, n in records for reason, has in REASONS.items() if has(shape, log, n))


def shape_fault(text):
    """The first fault of the shape, or None."""
    return next(shape_faults(text), None)


def pages_apart(text):
    """The pages that are judged apart from the faults of the shape: those that no such record is about. There are none where a log
    begins wrongly, or a look is such a record, or one is about no page."""
    session = SessionText(text)
    pages = set(range(int(session.head[1].split(" ")[1])))
    for log, n, reason in shape_faults(text):
        page = session.page(log, n)
        if reason == "start" or page is None or session.logs[log][n].startswith("see "):
            return set()
        pages.discard(page)
    return pages

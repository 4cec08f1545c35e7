"""The text of a session, cut into what stands before the logs and the records of each log."""

LOGS = ("guest", "source", "link", "lane", "pager")

# The log that a receipt names a record of.
RECEIPTS = {"resume": "pager", "see": "pager", "halted": "guest", "fault": "guest", "down": "source", "up": "pager", "ask": "link", "got": "link", "pull": "lane"}

# The receipts of the handover, which are about no page.
HANDOVER = ("resume", "halted")

# The records that tell a page, by the place of it among their words. (No log has a word of another with a page in another place.)
PAGE = {"r": 2, "w": 2, "z": 2, "miss": 2, "send": 1, "want": 1, "place": 1, "zero": 1}

# The records that name one of their own log, and the place of the name.
OWN = {"again": 1, "join": 1, "skip": 1, "place": 2}


def logs_of(version):
    """The logs that a session of this version has; the first has no lane."""
    return [log for log in LOGS if log != "lane" or version > 1]


class SessionText:
    """The lines of a well-formed session. They may be changed, and written again."""

    def __init__(self, text):
        lines = text.split("\n")
        at = 4 + int(lines[3].split()[1])
        self.head, self.logs = lines[:at], {log: [] for log in LOGS}
        for log in self.told():
            count = int(lines[at].split()[1])
            self.logs[log] = lines[at + 1:at + 1 + count]
            at += 1 + count

    def told(self):
        """The logs that a session of its version has."""
        return logs_of(int(self.head[0].split()[1]))

    def text(self):
        lines = list(self.head)
        for log in self.told():
            lines += [f"{log} {len(self.logs[log])}", *self.logs[log]]
        return "\n".join(lines + ["end", ""])

    def line(self, log, place):
        """The line of a record, where lines count from 1."""
        before = self.told()[:self.told().index(log)]
        return len(self.head) + sum(1 + len(self.logs[name]) for name in before) + 2 + place

    def named(self, log, place):
        """The record of another log that a record is a receipt for, or None."""
        words = self.logs[log][place].split(" ")
        return (RECEIPTS[words[0]], int(words[1])) if words[0] in RECEIPTS else None

    def page(self, log, place):
        """The page that a record is about, itself or by what it names, in at most five records; or None."""
        for _ in range(5):
            words = self.logs[log][place].split(" ") if place < len(self.logs[log]) else [""]
            if words[0] in PAGE:
                return int(words[PAGE[words[0]]])
            if words[0] in HANDOVER or words[0] not in (*RECEIPTS, *OWN):
                return None
            log, place = RECEIPTS.get(words[0], log), int(words[1])
        return None

    def insert(self, log, place, *records):
        """Puts records into a log. What was named there is named still."""
        self.logs[log][place:place] = records
        self.move(log, place, len(records))

    def move(self, log, place, by):
        """Has all records name the same records of a log, where those from a place on moved."""
        for other, records in self.logs.items():
            for n, record in enumerate(records):
                words = record.split(" ")
                at = 1 if RECEIPTS.get(words[0]) == log else OWN.get(words[0]) if other == log else None
                if at is not None and int(words[at]) >= place:
                    records[n] = " ".join([*words[:at], str(int(words[at]) + by), *words[at + 1:]])

    def in_order(self, runs):
        """The records, by log and place, in the order that runs give; each run is a log and a count."""
        taken, order = dict.fromkeys(LOGS, 0), []
        for log, count in runs:
            order += [(log, taken[log] + n) for n in range(count)]
            taken[log] += count
        return order

    def is_ready(self, log, taken):
        """Whether a log has a further record, where so many of each are taken, and what this one names is taken."""
        if taken[log] >= len(self.logs[log]):
            return False
        named = self.named(log, taken[log])
        return named is None or named[1] < taken[named[0]]

    def found_order(self):
        """The records, by log and place, in the found order, as far as it goes."""
        taken, order, current = dict.fromkeys(LOGS, 0), [], "guest"
        while True:
            ready = [log for log in LOGS if self.is_ready(log, taken)]
            if not ready:
                return order
            current = current if current in ready else ready[0]
            order.append((current, taken[current]))
            taken[current] += 1

    def dependents(self, log, place):
        """A record with all that depends on it: what is later in a log, and the receipts."""
        late = {(log, place)}
        for name in self.found_order():
            if (name[0], name[1] - 1) in late or self.named(*name) in late:
                late.add(name)
        return late

    def delayed_order(self, log, place):
        """The found order, where a record comes last with all that depends on it."""
        late = self.dependents(log, place)
        return sorted(self.found_order(), key=lambda name: name in late)

    def tell_in(self, version):
        """Makes it one of this version, with the same records."""
        self.head[0] = f"postcopy-session {version}"

    def carry(self, carried):
        """Has the lane deliver these packets, in this order, and the link no more. Each is a `down` of the link, by its place;
        the session is of the right shape."""
        link = self.logs["link"]
        kept = [n for n in range(len(link)) if n not in carried]
        self.logs["link"], self.logs["lane"] = [link[n] for n in kept], [link[n] for n in carried]
        for log, kind in (("source", "ask"), ("pager", "got")):
            for n, record in enumerate(self.logs[log]):
                words = record.split(" ")
                if words[0] == kind:
                    at = int(words[1])
                    self.logs[log][n] = f"pull {carried.index(at)}" if at in carried else f"{kind} {kept.index(at)}"

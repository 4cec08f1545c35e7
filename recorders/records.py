"""Sessions whose records name one another with names that the recorder chooses.

A recorder appends what happened to the log of a party, with the calls and fields of postcopy.records, and under a name that it
chooses:

    session.add("source", "send", name=("sent", 7), page=3, contents="00000000000000ff")
    session.add("link", "down", name=("handed over", 7), sent=("sent", 7))

A field that names another record has that record's name. Its number is the place of the record. The record need not exist yet:
logs can be written in any order.
"""
from postcopy import sessions
from postcopy.records import LOGS, LOST, RECEIVED, RECORDS

# By log and by call: the word, and the names of the fields. Records that replace a log that nobody wrote are in no session.
CALLS = {log: {kind.call: (kind.word, tuple(field.name for field in kind.fields))
               for kind in kinds.values() if kind.word not in RECEIVED} for log, kinds in RECORDS.items()}

# By log and by word: the fields of a record that name another one, by their places, and the log of each.
NAMING = {log: {kind.word: [(place, field.log) for place, field in enumerate(kind.fields, 1) if field.log]
                for kind in kinds.values()} for log, kinds in RECORDS.items()}


class Hole(Exception):
    """Something is missing from a recording. The message says what."""


class Session:
    """The logs of a migration. A record is a tuple of its word and its fields, with names in place of numbers."""

    def __init__(self, pages, cells, has_lane=False):
        self.pages, self.cells, self.has_lane = pages, cells, has_lane
        self.is_from_halt = False  # whether it begins with the memory at the halt
        self.logs = {log: [] for log in LOGS}
        self.numbers = {log: {} for log in LOGS}
        self.initial = {}  # the initial contents of pages, by page

    def add(self, log, call, name=None, **fields):
        """Appends a record."""
        if name is not None:
            if name in self.numbers[log]:
                raise Hole(f"{log}: a second {name}")
            self.numbers[log][name] = len(self.logs[log])
        word, names = CALLS[log][call]
        self.logs[log].append((word, *map(fields.__getitem__, names)))

    def name_too(self, log, name, other):
        """Gives a record a second name."""
        self.numbers[log][other] = self.numbers[log][name]

    def number(self, log, name):
        """Returns the number of the record with this name."""
        return self.numbers[log].get(name, LOST)

    def is_last(self, log, name):
        return self.number(log, name) == len(self.logs[log]) - 1

    def numbered(self, log, record):
        """Returns the record with numbers in place of names."""
        places = NAMING[log][record[0]]
        if not places:
            return record
        parts = list(record)
        for place, other in places:
            parts[place] = self.number(other, record[place])
        return tuple(parts)

    def with_numbers(self):
        zeros = "0" * 16 * self.cells
        initial = {page: contents for page, contents in self.initial.items() if contents != zeros}
        logs = {log: [self.numbered(log, record) for record in records] for log, records in self.logs.items()}
        return sessions.Session(self.pages, self.cells, initial, logs, self.has_lane)

    def cut(self):
        """Cuts the logs so that no record names a missing one. Returns how many records were left out.

        This makes it possible to judge logs that end early: a fault in what is left is a fault of the migration.
        """
        whole, left_out = self.with_numbers(), 0
        whole.cut()
        for log, records in self.logs.items():
            left_out += len(records) - len(whole.logs[log])
            del records[len(whole.logs[log]):]
        return left_out

    def check(self):
        """Raises Hole if a record names one that does not exist."""
        for log, records in self.logs.items():
            for number, record in enumerate(records):
                for place, other in NAMING[log][record[0]]:
                    if self.number(other, record[place]) >= len(self.logs[other]):
                        raise Hole(f"the {log}'s record {number} tells of the {other}'s {record[place]}, which was not recorded")

    def text(self):
        self.check()
        return self.with_numbers().text()

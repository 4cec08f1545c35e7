"""The records of a session's logs: the word of each, its fields, and which fields name another record.

A record is a tuple of its word and its fields: numbers, and contents as a text of 16 hexadecimal digits for each cell. This is for
converters, which make sessions from other programs' traces; postcopy.sessions puts records together. Nothing here needs the
library.

    >>> read_record("pager", "place 2 15 e3960d5b18af7c42")
    ('place', 2, 15, 'e3960d5b18af7c42')
    >>> list(named("pager", ("place", 2, 15, "e3960d5b18af7c42")))
    [('pager', 15)]
"""
from __future__ import annotations

import re
from typing import Dict, Iterator, NamedTuple, Optional, Tuple, Union

__all__ = [
    "Field", "Kind", "LARGE", "LOGS", "LOST", "Limits", "MOST_CELLS", "RECEIVED", "RECORDS", "Record", "SMALL",
    "named", "page_in", "page_of", "read_record", "spelled",
]

Record = Tuple[Union[str, int], ...]

#: The logs of a session, in the order of its text. The first version has no lane.
LOGS = ("guest", "source", "link", "lane", "pager")


class Limits(NamedTuple):
    """The most pages of a session's machine, the most cells of all pages together, and the most records of each log."""

    pages: int
    in_all: int
    records: int


#: The limits of the first and the second version, and those of the third.
SMALL = Limits(65536, 1048576, 1048576)
LARGE = Limits(16777216, 16777216, 134217728)

#: The most cells of a page.
MOST_CELLS = 512

#: What a recorder returns in place of a number if a record was not written.
LOST = 2**32 - 1


class Field(NamedTuple):
    """A field of a record: its name, and the log whose record it names, if it names one."""

    name: str
    log: Optional[str]


class Kind(NamedTuple):
    """A kind of record: its log, its word, the recorder's call that writes it, and its fields."""

    log: str
    word: str
    call: str
    fields: Tuple[Field, ...]

    def place(self, name: str) -> Optional[int]:
        """The place of the field with this name in a record of this kind."""
        return next((at for at, field in enumerate(self.fields, 1) if field.name == name), None)


# The log, the word, the call, and the fields: a field of another record is LOG:NAME.
_TABLE = """
guest r read vcpu page cell value
guest w write vcpu page cell value
guest z release vcpu page
guest miss miss vcpu page
guest halt halt
guest resume resume pager:ready
guest see see pager:placement
source halted halted guest:halt
source state state
source send send page contents
source again again source:sent
source ask ask link:up
source done done
source back back
link down down source:sent
link up up pager:sent
lane down down source:sent
pager got got link:down
pager pull pull lane:down
pager ready ready
pager fault fault guest:miss
pager join join pager:want
pager want want page
pager place place page pager:got contents
pager zero zero page
pager skip skip pager:got
pager all all
"""

# What a recorder writes if nobody writes a log of the link or the lane: the number came with the message.
_RECEIVED = """
source ask-sent ask_sent pager:sent
pager got-sent got_sent source:sent
pager pull-sent pull_sent source:sent
"""

#: The log that such a receipt must name, by its word.
RECEIVED = {"ask-sent": "link", "got-sent": "link", "pull-sent": "lane"}


def _kinds(table: str) -> Iterator[Kind]:
    for line in table.strip().splitlines():
        log, word, call, *fields = line.split()
        parts = (field.rpartition(":") for field in fields)
        yield Kind(log, word, call, tuple(Field(name, of or None) for of, _, name in parts))


#: The kinds of records, by log and by word: those of a session, and those that only a recorder writes.
RECORDS: Dict[str, Dict[str, Kind]] = {log: {} for log in LOGS}
for _kind in _kinds(_TABLE + _RECEIVED.lstrip()):
    RECORDS[_kind.log][_kind.word] = _kind

_NUMBER = re.compile("0|[1-9][0-9]*", re.ASCII)
_CONTENTS = re.compile("(?:[0-9a-f]{16})+", re.ASCII)
_LIMITS = {"vcpu": 64, "page": 2**63, "cell": MOST_CELLS, "value": 2**64}


def _field(field: Field, text: str) -> Union[str, int]:
    if field.name == "contents":
        if _CONTENTS.fullmatch(text):
            return text
        raise ValueError(f"{text[:60]!a} is no contents: 16 digits of 0 to 9 and a to f for each cell")
    limit = _LIMITS.get(field.name, LOST + 1)
    if _NUMBER.fullmatch(text) and len(text) <= 20 and int(text) < limit:
        return int(text)
    raise ValueError(f"{text[:60]!a} is no {field.name}: a number from 0 to {limit - 1}")


def read_record(log: str, text: str) -> Record:
    """Returns the record of a log that a text spells. Raises ValueError if it spells none."""
    word, *fields = text.split(" ")
    kind = RECORDS[log].get(word)
    if kind is None:
        raise ValueError(f"the {log}'s log has no record {word[:60]!a}")
    if len(fields) != len(kind.fields):
        raise ValueError(f"'{word}' has {len(kind.fields)} fields and not {len(fields)}")
    return (word, *map(_field, kind.fields, fields))


def spelled(record: Record) -> str:
    """Returns the text of a record."""
    return " ".join(map(str, record))


def page_of(log: str, record: Record) -> Optional[int]:
    """Returns the page that a record of a log names in a field of its own, if it names one."""
    place = RECORDS[log][str(record[0])].place("page")
    return None if place is None else int(record[place])


def page_in(line: str) -> Optional[int]:
    """Returns the page that a line of a session names, if it is a record that names one. (Only `down` is a word of two logs.)"""
    word = line.partition(" ")[0]
    log = next((log for log in LOGS if word in RECORDS[log]), None)
    return None if log is None else page_of(log, read_record(log, line))


def named(log: str, record: Record) -> Iterator[Tuple[str, int]]:
    """Yields the records that a record of a log names: the log and the number of each."""
    for field, value in zip(RECORDS[log][str(record[0])].fields, record[1:]):
        if field.log is not None:
            yield field.log, int(value)

"""At which line a text is refused, slowly and plainly: by the tables of docs/FORMATS.md, line by line and word by word."""
import functools
import itertools
import re
from typing import Callable, NamedTuple

from session_text import logs_of

MOST_LINES = 2**24


class Limits(NamedTuple):
    """How many pages a machine may have, how many cells a page by that, how many records a log, and the greatest number of one."""

    pages: int
    cells: Callable[[int], int]
    records: int
    number: int


def sized(pages, in_all, records):
    """The limits of a size of machines and logs, by the most pages, cells in all and records a log."""
    return Limits(pages, lambda of: min(512, in_all // of), records, records - 1)


SMALL, LARGE = sized(2**16, 2**20, 2**20), sized(2**24, 2**24, 2**27)
# The limits of sessions and of certificates by their version.
OF_VERSION = {1: SMALL, 2: SMALL, 3: LARGE}

NUMBER = re.compile("0|[1-9][0-9]*")

# What stands after a record's kind: a virtual processor, a page, a cell, a value, a record's number, a page's contents.
RECORDS = {
    "guest": {"r": "vpcx", "w": "vpcx", "z": "vp", "miss": "vp", "halt": "", "resume": "n", "see": "n"},
    "source": {"halted": "n", "state": "", "send": "ph", "again": "n", "ask": "n", "done": "", "back": ""},
    "link": {"down": "n", "up": "n"},
    "lane": {"down": "n"},
    "pager": {"got": "n", "pull": "n", "ready": "", "fault": "n", "join": "n", "want": "p", "place": "pnh", "zero": "p", "skip": "n", "all": ""},
}
# The first version that has records of a kind, where the first of all has not.
SINCE = {"pull": 2, "back": 3}
FATES = ("deliver", "lose", "repeat", "back")
REASONS = {"read", "early", "given", "stale", "twice", "altered", "unfit", "over"}
EVENTS = {"halt", "push", "serve", "source-tick", "pop", "pop-lane", "flush", "pager-tick", "fault", "deliver"}
EVENTS |= {f"link {direction} {fate}" for direction in ("down", "up", "lane") for fate in FATES}


class Refused(Exception):
    """A line is not one that the text may have there."""


def demand(is_well):
    if not is_well:
        raise Refused


def number(word, least, most):
    # A word of more digits than any limit has is not read, however long it is.
    demand(NUMBER.fullmatch(word) and len(word) <= 20 and least <= int(word) <= most)
    return int(word)


def keyed(line, key, least, most):
    words = line.split(" ")
    demand(len(words) == 2 and words[0] == key)
    return number(words[1], least, most)


def contents(word, cells):
    demand(len(word) == 16 * cells and re.fullmatch("[0-9a-f]*", word))


def field(kind, word, pages, cells, limits):
    if kind == "h":
        contents(word, cells)
    else:
        number(word, 0, {"v": 63, "p": pages - 1, "c": cells - 1, "x": 2**64 - 1, "n": limits.number}[kind])


def fielded(line, kinds, pages, cells, limits=SMALL):
    """A line whose first word is one of these kinds, with the fields of that kind."""
    kind, *words = line.split(" ")
    demand(kind in kinds and len(words) == len(kinds[kind]))
    for which, word in zip(kinds[kind], words):
        field(which, word, pages, cells, limits)


def machine(line, limits=SMALL):
    """The lines of a machine with its initial pages. What comes back is its pages and cells."""
    pages = keyed(line(), "pages", 1, limits.pages)
    cells = keyed(line(), "cells", 1, limits.cells(pages))
    least = 0
    for to_come in reversed(range(keyed(line(), "init", 0, pages))):
        words = line().split(" ")
        demand(len(words) == 3 and words[0] == "page")
        least = number(words[1], least, pages - 1 - to_come) + 1
        contents(words[2], cells)
        demand(words[2].strip("0"))
    return pages, cells


def session(line):
    version = keyed(line(), "postcopy-session", 1, max(OF_VERSION))
    limits = OF_VERSION[version]
    pages, cells = machine(line, limits)
    for log in logs_of(version):
        kinds = {kind: fields for kind, fields in RECORDS[log].items() if version >= SINCE.get(kind, 1)}
        for _ in range(keyed(line(), log, 0, limits.records)):
            fielded(line(), kinds, pages, cells, limits)


def runs(line, version):
    """Runs of the logs that sessions of this version have, as many as these logs may have records."""
    logs, most, before = logs_of(version), OF_VERSION[version].records, None
    for _ in range(keyed(line(), "runs", 0, len(logs) * most)):
        words = line().split(" ")
        demand(len(words) == 3 and words[0] == "run" and words[1] in logs and words[1] != before)
        number(words[2], 1, most)
        before = words[1]


def runs_alone(line):
    """Runs with no certificate. They may be of sessions of each version."""
    demand(line() == "postcopy-runs 1")
    runs(line, max(OF_VERSION))


def certificate(line):
    version = keyed(line(), "postcopy-certificate", 1, max(OF_VERSION))
    limits = OF_VERSION[version]
    for page in range(keyed(line(), "pages", 1, limits.pages)):
        words = line().split(" ")
        demand(words[:2] == ["page", str(page)] and len(words) > 2 and len(words) - 3 == {"none": 0, "fresh": 1, "source": 4, "balloon": 3}.get(words[2]))
        demand(words[2] != "fresh" or version > 1)
        numbers = words[3:-2] if words[-2:] == ["-", "-"] else words[3:]
        for word in numbers:
            number(word, 0, limits.number)
    runs(line, version)


def order(line):
    """What tells an order: runs or a certificate, alone or below the first line of a report."""
    first = line()
    words = first.split(" ")
    if first == "clean":
        certificate(line)
    elif words[:2] == ["faulty", "line"]:
        demand(len(words) == 4 and words[3] in REASONS)
        number(words[2], 1, 2**32 - 1)
        runs_alone(line)
    else:
        lines = itertools.chain([first], iter(line, None))
        (certificate if words[0] == "postcopy-certificate" else runs_alone)(lambda: next(lines))


def fates(line, direction):
    demand(re.fullmatch(f"{direction} (-|[dlrb]{{1,4096}})", line))


def script(line):
    version = keyed(line(), "postcopy-script", 1, 2)
    pages, cells = machine(line)
    keyed(line(), "pivots", 1, 16)
    keyed(line(), "window", 1, 65536)
    for direction in ("down", "up"):
        fates(line(), direction)
    if version == 2 and keyed(line(), "lanes", 1, 2) == 2:
        fates(line(), "lane")
    early = {"r": "pc", "w": "pcx", "z": "p"}
    late = {kind: early[kind] for kind in ("rw", "rwz")[version - 1]}
    for _ in range(keyed(line(), "vcpus", 1, 64)):
        words = line().split(" ")
        demand(len(words) == 3 and words[0] == "vcpu")
        before, after = (number(word, 0, 65536) for word in words[1:])
        for _ in range(before):
            fielded(line(), early, pages, cells)
        for _ in range(after):
            fielded(line(), late, pages, cells)


def events(line):
    demand(line() == "postcopy-events 1")
    for _ in range(keyed(line(), "events", 0, SMALL.records)):
        event = line()
        if event not in EVENTS:
            keyed(event, "guest", 0, 63)


TEXTS = {"session": session, "certificate": certificate, "runs": order, "script": script, "events": events}


@functools.lru_cache(maxsize=16)
def refusal_line(kind, text):
    """The line at which a text of this kind is refused, or None."""
    *ended, rest = text.decode("latin-1").split("\n")
    at = 0

    def line():
        nonlocal at
        at += 1
        demand(at <= len(ended))
        return ended[at - 1]

    try:
        TEXTS[kind](line)
        demand(line() == "end")
    except Refused:
        return at
    return None if at == len(ended) and rest == "" else at + 1


def lines_refusal(text):
    """The line at which a table of lines is refused, of which each has a number of 64 bits alone; or None."""
    *ended, rest = text.decode("latin-1").split("\n")
    for at, line in enumerate(ended, 1):
        try:
            demand(at <= MOST_LINES)
            number(line, 0, 2**64 - 1)
        except Refused:
            return at
    return None if rest == "" else len(ended) + 1

"""Sessions in the making: logs of records, which are cut to what is whole, seen through a window, and written as a text.

This is for programs that make sessions from the traces of others. The program's command `session` makes those of a recorder's files.
Nothing here needs the library.
"""
from __future__ import annotations

import os
import secrets
from bisect import bisect_left
from collections import Counter
from dataclasses import dataclass, field
from typing import Callable, Dict, Iterator, List, Tuple

from .recorder import head_of, join
from .records import LARGE, LOGS, LOST, MOST_CELLS, RECEIVED, RECORDS, SMALL, Limits, Record, named, page_of, spelled

__all__ = ["Session"]

PLACEMENTS = ("place", "zero")

#: Names a log's record in a message, perhaps with its place.
Place = Callable[[str, int], str]


def _place(log: str, number: int) -> str:
    return f"record {number} of the {log}'s log"


def _no_logs() -> Dict[str, List[Record]]:
    return {log: [] for log in LOGS}


@dataclass
class Session:
    """A machine, the initial contents of its pages that do not begin as zeros, and the logs.

    A large session has the third version even if it is within the limits of the others, as a window of a large session can be.
    """

    pages: int
    cells: int
    initial: Dict[int, str] = field(default_factory=dict)
    logs: Dict[str, List[Record]] = field(default_factory=_no_logs)
    has_lane: bool = False
    is_large: bool = False

    def fits(self, limits: Limits) -> bool:
        """Returns whether the machine and the logs are within these limits."""
        is_fit = self.pages <= limits.pages and self.cells <= MOST_CELLS and self.pages * self.cells <= limits.in_all
        return is_fit and all(len(records) <= limits.records for records in self.logs.values())

    def version(self) -> int:
        """Returns the version of its text. It is the third if the session is large or beyond the limits of the others, or if the
        source started the guest again. Otherwise it is the second if there is a lane, or a release after the resume, and else the
        first."""
        if self.is_large or not self.fits(SMALL) or ("back",) in self.logs["source"]:
            return 3
        words = [record[0] for record in self.logs["guest"]]
        is_late = "resume" in words and "z" in words[words.index("resume"):]
        is_carried = self.has_lane or bool(self.logs["lane"]) or any(record[0] == "pull" for record in self.logs["pager"])
        return 2 if is_carried or is_late else 1

    def text(self) -> str:
        """Returns the text of the session. Raises ValueError if the machine or a log is beyond the limits of a session."""
        if not self.fits(LARGE):
            longest = max(map(len, self.logs.values()))
            raise ValueError(
                f"{self.pages} pages of {self.cells} cells, with up to {longest} records a log, are too many: a session has at most "
                f"{LARGE.pages} pages, {MOST_CELLS} cells a page, {LARGE.in_all} cells in all and {LARGE.records} records a log; "
                "a window shows some of the pages"
            )
        return "".join(self.lines())

    def _check_cells(self) -> None:
        if self.cells > MOST_CELLS:
            raise ValueError(f"{self.cells} cells are too many: a page has at most {MOST_CELLS}")

    def lines(self) -> Iterator[str]:
        """Yields the lines of the text, each with its line feed. The machine and the logs may have any size: then they are those of a
        recording, of which `windows` makes sessions. Raises ValueError if a page has too many cells."""
        self._check_cells()
        version = self.version()
        yield f"postcopy-session {version}\n"
        yield f"pages {self.pages}\n"
        yield f"cells {self.cells}\n"
        yield f"init {len(self.initial)}\n"
        for page in sorted(self.initial):
            yield f"page {page} {self.initial[page]}\n"
        for log in LOGS:
            if log != "lane" or version > 1:
                yield f"{log} {len(self.logs[log])}\n"
                for record in self.logs[log]:
                    yield f"{spelled(record)}\n"
        yield "end\n"

    def write_files(self, folder: str) -> None:
        """Writes the files that recorders leave, one for each log, into a new folder. The machine and the logs may have any size: the
        program's command `session` makes the session of the files, and `window` that of some pages. A log of the link that has no record
        gets no file, nor does one of the lane, unless there is a lane. Raises ValueError if a page has too many cells, and OSError if the
        folder is there or cannot be written."""
        self._check_cells()
        has_lane, name = self.has_lane or bool(self.logs["lane"]), secrets.token_hex(16)
        machine = [f"pages {self.pages} {self.cells} {int(has_lane)}", *(f"page {page} {self.initial[page]}" for page in sorted(self.initial))]
        logs = {log: self.logs[log] for log in LOGS if self.logs[log] or log != "link" and (has_lane or log != "lane")}
        os.mkdir(folder)
        join(folder, name)
        for log, lines in (("machine", machine), *((log, map(spelled, records)) for log, records in logs.items())):
            with open(os.path.join(folder, f"{log}.1.0"), "x", encoding="ascii") as file:
                file.write(head_of(name, log, 0, 0))
                file.writelines(f"{number} {line}\n" for number, line in enumerate(lines))
                file.write(f"end {len(logs.get(log, machine))}\n")

    def deliver(self, place: Place = _place) -> None:
        """Makes the logs of the link and the lane, if the receiver of each message recorded which one it is.

        Each packet is delivered just before the pager takes it. What the pager sends is delivered as soon as it is sent, so after
        the last packet that the pager took before. Raises ValueError if such a log exists anyway.
        """
        for log in ("source", "pager"):
            for number, record in enumerate(self.logs[log]):
                other = RECEIVED.get(str(record[0]), "")
                if self.logs.get(other):
                    word = str(record[0]).split("-")[0]
                    raise ValueError(f"{place(log, number)}, '{spelled(record)}': the {other} has a log of its own, whose number '{word}' names")
        times = Counter(record[1] for record in self.logs["source"] if record[0] == "ask-sent")
        ups: Dict[int, List[int]] = {}
        for number, record in enumerate(self.logs["pager"]):
            if record[0] in RECEIVED:
                delivered = self.logs[RECEIVED[str(record[0])]]
                self.logs["pager"][number] = (str(record[0]).split("-")[0], len(delivered))
                delivered.append(("down", record[1]))
            for _ in range(times[number]):
                ups.setdefault(number, []).insert(0, len(self.logs["link"]))
                self.logs["link"].append(("up", number))
        for number, record in enumerate(self.logs["source"]):
            if record[0] == "ask-sent":
                self.logs["source"][number] = ("ask", ups[int(record[1])].pop() if record[1] in ups else LOST)

    def cut(self, most: int = LARGE.records, place: Place = _place) -> List[str]:
        """Cuts each log before its first record that names a missing one, until there is none, and returns messages about what was
        left out. Also cuts a `halted` that is alone, and the records beyond `most`: those of a session, or more if a window follows."""
        reach = {log: _Reach(log, self.logs[log]) for log in LOGS}
        lengths = {log: min(len(self.logs[log]), most) for log in LOGS}
        lacking = {log: "" for log in LOGS if lengths[log] < len(self.logs[log])}
        _cut_further(reach, lengths, lacking)
        if lengths["source"] == 1 and self.logs["source"][0][0] == "halted":
            lengths["source"], lacking["source"] = 0, ""
            _cut_further(reach, lengths, lacking)
        told = [f"{log}: {len(self.logs[log]) - lengths[log]} records left out: {self._lack(log, lengths[log], most, lacking[log], place)}"
                for log in LOGS if log in lacking]
        for log in LOGS:
            del self.logs[log][lengths[log]:]
        return told

    def _lack(self, log: str, end: int, most: int, other: str, place: Place) -> str:
        """Says why a log is cut before this record: because a record of the other log is missing, if there is another log."""
        if end == most:
            return f"a session's log has {most} records at most"
        if not other:
            return "a halted that is alone tells nothing"
        record = self.logs[log][end]
        number = next(it for of, it in named(log, record) if of == other)
        if number == LOST:
            return f"{place(log, end)}, '{spelled(record):.60}', names no record of the {other}'s log: the number was lost"
        why = "left out too" if number < len(self.logs[other]) else "not there"
        if other in RECEIVED.values() and not self.logs[other]:
            why += f": where nobody writes the {other}'s log it is '{record[0]}_sent' that takes the sender's number"
        return f"{place(log, end)}, '{spelled(record):.60}', names record {number} of the {other}'s log, which is {why}"

    def window(self, first: int, last: int) -> "Session":
        """Returns the session seen through some of its pages, which are numbered from 0. Records about another page are left out, and
        so are records that name those. A look names the newest placement that is kept, and is left out if an earlier look named
        the same one. The version stays: the windows of a large session are large. No record of this session may name a missing
        one. Raises ValueError if the machine does not have all of these pages."""
        if not 0 <= first <= last < self.pages:
            raise ValueError(f"the machine has {self.pages} pages, from 0 on, and a window from {first} to {last} is none of it")
        return next(self._seen(first, last - first + 1, last + 1))

    def windows(self, size: int) -> Iterator["Session"]:
        """Yields the session seen through consecutive windows of this many pages, until each page was in one. The last window may
        have fewer pages. This takes little longer than one window. Raises ValueError if the number is below 1."""
        if size < 1:
            raise ValueError(f"windows of {size} pages show nothing")
        return self._seen(0, size, self.pages)

    def _seen(self, first: int, size: int, end: int) -> Iterator["Session"]:
        """Yields the windows of this many pages, from the first page on, up to `end`, which is not included."""
        def window_of(page: int) -> int:
            return (page - first) // size if first <= page < end else _NONE

        homes, version = self._homes(window_of), self.version()
        kept = {log: _by_home(homes[log]) for log in LOGS}
        looks = self._looks(homes["pager"])
        initial: Dict[int, Dict[int, str]] = {}
        for page, contents in self.initial.items():
            initial.setdefault(window_of(page), {})[page] = contents
        for window, start in enumerate(range(first, end, size)):
            numbers = {log: sorted(kept[log].get(_ALL, []) + kept[log].get(window, [])) for log in LOGS}
            seen = looks.get(window, {})
            numbers["guest"] = sorted(numbers["guest"] + list(seen))
            logs = self._renumbered(numbers, seen, start)
            pages = {page - start: contents for page, contents in initial.get(window, {}).items()}
            yield Session(min(size, end - start), self.cells, pages, logs, version > 1, version > 2)

    def _renumbered(self, kept: Dict[str, List[int]], looks: Dict[int, int], first: int) -> Dict[str, List[Record]]:
        """Returns the records and looks with these numbers, with their pages numbered from this one on. A look gets its placement."""
        places = {log: {number: place for place, number in enumerate(kept[log])} for log in LOGS}

        def moved(log: str, number: int) -> Record:
            record = list(self.logs[log][number])
            if log == "guest" and number in looks:
                record[1] = looks[number]
            for place, part in enumerate(RECORDS[log][str(record[0])].fields, 1):
                if part.log is not None:
                    record[place] = places[part.log][int(record[place])]
                elif part.name == "page":
                    record[place] = int(record[place]) - first
            return tuple(record)

        return {log: [moved(log, number) for number in kept[log]] for log in LOGS}

    def _homes(self, window_of: Callable[[int], int]) -> Dict[str, List[int]]:
        """Returns the window that keeps each record: that of its page, and of each record that it names. Looks have another rule."""
        homes = {log: [_home(log, record, window_of) for record in records] for log, records in self.logs.items()}
        naming = {log: list(self._naming(log)) for log in LOGS}
        while any([_narrow(log, naming[log], homes) for log in LOGS]):
            pass
        return homes

    def _naming(self, log: str) -> Iterator[Tuple[int, str, int]]:
        """Yields the records of a log that name another, except looks: a record's number, and the log and the number of the other."""
        for number, record in enumerate(self.logs[log]):
            if record[0] != "see":
                for other, it in named(log, record):
                    yield number, other, it

    def _looks(self, homes: List[int]) -> Dict[int, Dict[int, int]]:
        """Returns the looks that each window keeps, with the newest placement of the window that each of them shows. A window keeps
        a look that shows a newer placement than all looks before it."""
        placed = [(number, homes[number]) for number, record in enumerate(self.logs["pager"]) if record[0] in PLACEMENTS]
        looks: Dict[int, Dict[int, int]] = {}
        told = 0
        for number, record in enumerate(self.logs["guest"]):
            if record[0] == "see":
                while told < len(placed) and placed[told][0] <= int(record[1]):
                    placement, window = placed[told]
                    looks.setdefault(window, {})[number] = placement
                    told += 1
        return looks


# The windows that keep a record, if it is not one window: all of them, or none.
_ALL, _NONE = -1, -2


def _home(log: str, record: Record, window_of: Callable[[int], int]) -> int:
    if record[0] == "see":
        return _NONE
    page = page_of(log, record)
    return _ALL if page is None else window_of(page)


def _both(one: int, other: int) -> int:
    """Returns the windows that are in both."""
    if one == _ALL:
        return other
    return one if other in (_ALL, one) else _NONE


def _narrow(log: str, naming: List[Tuple[int, str, int]], homes: Dict[str, List[int]]) -> bool:
    """Keeps the records of a log only in windows that keep what they name. Returns whether this changed anything."""
    of_log, is_changed = homes[log], False
    for number, other, it in naming:
        home = _both(of_log[number], homes[other][it])
        if home != of_log[number]:
            of_log[number], is_changed = home, True
    return is_changed


def _by_home(homes: List[int]) -> Dict[int, List[int]]:
    """Returns the numbers of the records that each window keeps, or that all windows keep."""
    kept: Dict[int, List[int]] = {}
    for number, home in enumerate(homes):
        if home != _NONE:
            kept.setdefault(home, []).append(number)
    return kept


class _Reach:
    """How far a log reaches, given how many records another log has."""

    def __init__(self, log: str, records: List[Record]) -> None:
        self._greatest: Dict[str, List[int]] = {}  # for each log that is named, the greatest number so far ..
        self._first: Dict[str, List[int]] = {}  # .. and the record that names it
        self._length = len(records)
        for number, record in enumerate(records):
            for other, it in named(log, record):
                self._note(other, it, number)

    def _note(self, other: str, it: int, number: int) -> None:
        greatest = self._greatest.setdefault(other, [])
        if not greatest or it > greatest[-1]:
            greatest.append(it)
            self._first.setdefault(other, []).append(number)

    def logs(self) -> Iterator[str]:
        return iter(self._greatest)

    def end(self, other: str, length: int) -> int:
        """Returns the first record that names a record of the other log beyond this length, or else the length of this log."""
        at = bisect_left(self._greatest[other], length)
        return self._first[other][at] if at < len(self._first[other]) else self._length


def _cut_further(reach: Dict[str, _Reach], lengths: Dict[str, int], lacking: Dict[str, str]) -> None:
    """Cuts each log before its first record that names a missing one, until there is none. Notes the log of the missing one."""
    is_cut = True
    while is_cut:
        is_cut = False
        for log in LOGS:
            for other in reach[log].logs():
                end = reach[log].end(other, lengths[other])
                if end < lengths[log]:
                    lengths[log], lacking[log], is_cut = end, other, True

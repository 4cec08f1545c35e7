#!/usr/bin/env python3
"""Writes a session from the traces of a test guest, a source, a relay and a pager, and of a lane if there is one.

    session_from_traces.py FOLDER [--cut] > session

FOLDER has guest.trace, source.trace, link.trace and pager.trace. Where a second link carried pages down, the lane, it has
lane.trace too, and the session is of the second version; where the source started its guest again, or the first two versions
have no room for so many pages or records, it is of the third. A line of a trace is a time, the event's name, what happened, and
with what, as KEY=VALUE. A key that is a log's name tells of an event in that log's trace, and `of` tells of an earlier one in the
same trace. The times are of clocks that do not agree, and nothing here looks at them.

A page has one cell: the sum, which is a hash of 64 bits of the whole page, and 0 for a page of zeros.

Where an event tells of one that no trace has, there is a hole, and no session is written. With --cut that event is left out
with all that follow it in its trace, until there is no hole, and standard error says so. A last line that was not written to
its end is a hole too, and so is a number that no event of a trace has, as a lost one leaves it: names are a letter and a number,
and each trace numbers its events. Another name is refused, and so is an event that is in no table here, lacks a key, has one twice,
or has a frame, a sum or an actor that is none, and so are a second begin, and a frame that is found a second time. So are more
pages, records or actors than any session may have.
"""
import argparse
import os
import re
import sys

LOGS = ("guest", "source", "link", "lane", "pager")

# The records, by the log and by what happened.
RECORDS = {
    "guest": {
        "read": "r {actor} {frame} 0 {value}",
        "write": "w {actor} {frame} 0 {value}",
        "free": "z {actor} {frame}",
        "wait": "miss {actor} {frame}",
        "stop": "halt",
        "start": "resume {pager}",
        "look": "see {pager}",
        "woken": "see {pager}",
    },
    "source": {
        "stopped": "halted {guest}",
        "state": "state",
        "page": "send {frame} {sum}",
        "repeat": "again {of}",
        "request": "ask {link}",
        "finish": "done",
        "restart": "back",
    },
    "link": {"down": "down {source}", "up": "up {pager}"},
    "lane": {"down": "down {source}"},
    "pager": {
        "packet": "got {link}",
        "pushed": "pull {lane}",
        "ready": "ready",
        "fault": "fault {guest}",
        "join": "join {of}",
        "request": "want {frame}",
        "place": "place {frame} {of} {sum}",
        "zero": "zero {frame}",
        "drop": "skip {of}",
        "complete": "all",
    },
}
# The events that become no record.
OTHERS = {"guest": ("begin", "found"), "source": (), "link": ("hold",), "lane": ("hold",), "pager": ("devices", "wake")}
# The keys of an event that becomes no record, where something is made of it.
KEYS = {"begin": ("frames", "actors"), "found": ("frame", "sum")}
# An event's name, with its number, and the text of a frame or of a sum.
NAME, HEXADECIMAL, SUM = re.compile("[^0-9]*([0-9]+)"), re.compile("[0-9a-fA-F]+"), re.compile("[0-9a-fA-F]{1,16}")
FRAMES = re.compile("([0-9a-fA-F]+)-([0-9a-fA-F]+)")
# The most pages and the most records of a log in a session of the first two versions, and in one of the third; the most actors.
SMALL, LARGE = (65536, 1048576), (16777216, 134217728)
MOST_ACTORS = 64
LOOKS = ("look", "woken")
PLACEMENTS = ("place", "zero")


class Hole(Exception):
    """What the traces lack, in words."""


class Event:
    """What happened, by the trace of this log."""

    def __init__(self, log, what, fields):
        self.log, self.what, self.fields = log, what, fields

    def told(self):
        """The events that this one tells of: for each key, the log and the name."""
        logs = {**{log: log for log in LOGS}, "of": self.log}
        return {key: (logs[key], name) for key, name in self.fields.items() if key in logs}


def keys_of(log, what):
    """The keys that an event has to have. (A value is a sum, as a number.)"""
    return KEYS.get(what) or re.findall(r"\{(\w+)\}", RECORDS[log].get(what, "").replace("{value}", "{sum}"))


def trace(folder, log, cut):
    """The events of a trace by their names, in their order, and what is to be said of a last line that was not written to its end."""
    events, said, numbers = {}, [], set()
    with open(f"{folder}/{log}.trace", encoding="ascii", errors="backslashreplace") as lines:
        for number, line in enumerate(lines, 1):
            if line.startswith("#"):
                continue
            if not line.endswith("\n"):
                said.append(f"{log}.trace: the last line was not written to its end")
                continue
            try:
                _time, name, what, *fields = line.split()
                event = Event(log, what, dict(field.split("=", 1) for field in fields))
            except ValueError:
                raise Hole(f"{log}.trace: line {number} is no event") from None
            if not NAME.fullmatch(name):
                raise Hole(f"{log}.trace: line {number} has the name '{name}', which is no letter and a number")
            if number_of(name) in numbers:
                raise Hole(f"{log}.trace: line {number} names a second {name}")
            if what not in (*RECORDS[log], *OTHERS[log]):
                raise Hole(f"{log}.trace: line {number} has the event '{what}', which is in no table here")
            if len(event.fields) < len(fields):
                raise Hole(f"{log}.trace: line {number} has a key twice")
            for key in keys_of(log, what):
                if key not in event.fields:
                    raise Hole(f"{log}.trace: line {number} has no {key}")
            for key in ("frame", "sum"):
                if not HEXADECIMAL.fullmatch(event.fields.get(key, "0")):
                    raise Hole(f"{log}.trace: line {number} has a {key} that is no hexadecimal number")
            if not SUM.fullmatch(event.fields.get("sum", "0")):
                raise Hole(f"{log}.trace: line {number} has a sum of more than 16 digits")
            if what == "begin" and not frames_of(event):
                raise Hole(f"{log}.trace: line {number} has frames that are not FIRST-LAST, in hexadecimal")
            numbers.add(number_of(name))
            events[name] = event
    if said and not cut:
        raise Hole(said[0])
    return events, said


def frames_of(begin):
    """The frames that an event tells of, from the first to the last; none where it tells of none."""
    found = FRAMES.fullmatch(begin.fields["frames"])
    return range(int(found[1], 16), int(found[2], 16) + 1) if found else range(0)


def number_of(name):
    return int(NAME.fullmatch(name)[1])


def missing(events):
    """The first number that is missing among the names of a trace, as a name, and the first event behind it; None where none is."""
    numbers = set(map(number_of, events))
    lost = next((number for number in range(min(numbers, default=0), max(numbers, default=0)) if number not in numbers), None)
    if lost is None:
        return None
    behind = next(name for name in events if number_of(name) > lost)
    return f"{behind.rstrip('0123456789')}{lost}", behind


class Recording:
    """The traces, and what of them becomes a record."""

    def __init__(self, folder, cut):
        self.has_lane = os.path.exists(f"{folder}/lane.trace")
        read = {log: trace(folder, log, cut) if log != "lane" or self.has_lane else ({}, []) for log in LOGS}
        self.traces = {log: events for log, (events, _) in read.items()}
        self.left_out = [f"{it}: left out" for _, said in read.values() for it in said]
        self.cut_at_holes(cut)
        begin = self.begin()
        self.frames = frames_of(begin)
        self.pages = self.frames.stop - self.frames.start
        self.actors = begin.fields["actors"].split(",")
        self.traces["guest"] = self.with_placements(self.traces["guest"])
        self.kept = {log: {name: event for name, event in self.traces[log].items() if self.is_kept(event)} for log in LOGS}
        if cut and len(self.kept["source"]) == 1:
            self.left_out.append(f"source.trace: {next(iter(self.kept['source']))} alone is no log of a source: left out")
            self.kept["source"] = {}
        self.look_for_limits()
        self.numbers = {(log, name): number for log in LOGS for number, name in enumerate(self.kept[log])}

    def begin(self):
        """The first event of the guest, which tells of its frames and its actors."""
        first, *others = self.traces["guest"] or [None]
        if first is None or self.traces["guest"][first].what != "begin":
            raise Hole("guest.trace: the first event is no begin")
        for name in others:
            if self.traces["guest"][name].what == "begin":
                raise Hole(f"guest.trace: {name} is a second begin")
        return self.traces["guest"][first]

    def cut_at_holes(self, cut):
        """Refuses traces with a hole, or cuts each in front of its first one."""
        while hole := next(self.holes(), None):
            log, name, said = hole
            if not cut:
                raise Hole(said)
            names = list(self.traces[log])
            lost = names[names.index(name):]
            self.left_out.append(f"{said}: {len(lost)} event{'s' if len(lost) > 1 else ''} left out")
            for name in lost:
                del self.traces[log][name]

    def holes(self):
        """The events in front of which a trace has a hole, or that tell of one that no trace has: the log, the name, and what is to be said."""
        for log in LOGS:
            lost = missing(self.traces[log])
            if lost:
                yield log, lost[1], f"{log}.trace: there is no {lost[0]} before {lost[1]}: an event was lost"
            earlier = set()
            for name, event in self.traces[log].items():
                for told in event.told().values():
                    if told[1] not in (earlier if told[0] == log else self.traces[told[0]]):
                        before = " before it" if told[0] == log else ""
                        yield log, name, f"{log}.trace: {name} tells of {told[1]}, which {told[0]}.trace has not{before}"
                earlier.add(name)

    def fits(self, limits):
        """Whether a session with these limits has room for the pages, and for the records of each log."""
        return self.pages <= limits[0] and all(len(self.kept[log]) <= limits[1] for log in LOGS)

    def look_for_limits(self):
        if self.pages > LARGE[0]:
            raise Hole(f"guest.trace: begin has {self.pages} frames, and a session at most {LARGE[0]} pages")
        for log in LOGS:
            if len(self.kept[log]) > LARGE[1]:
                raise Hole(f"{log}.trace: there are {len(self.kept[log])} records, and a session has at most {LARGE[1]} of a log")

    def is_in_window(self, event):
        return "frame" not in event.fields or int(event.fields["frame"], 16) in self.frames

    def is_kept(self, event):
        """Whether an event becomes a record: it is in the table, of a recorded frame if of any, and tells of such alone."""
        return (
            event.what in RECORDS[event.log]
            and self.is_in_window(event)
            and all(self.is_kept(self.traces[log][name]) for log, name in event.told().values())
        )

    def with_placements(self, guest):
        """The guest's trace, where each look tells of the newest placement that the pager had made by then.

        A look brings the name of the pager's last event, and what the guest hoped for is not asked: a look that shows no
        placement, or none that an earlier one did not show, is left out.
        """
        placements, by_then = [None], {}
        for name, event in self.traces["pager"].items():
            if event.what in PLACEMENTS and self.is_kept(event):
                placements.append(name)
            by_then[name] = len(placements) - 1
        seen, events = 0, {}
        for name, event in guest.items():
            if event.what in LOOKS:
                shown = by_then[event.fields["pager"]]
                if shown <= seen:
                    continue
                seen = shown
                event = Event(event.log, event.what, {"pager": placements[shown]})
            events[name] = event
        return events

    def record(self, event):
        """The text of an event's record."""
        values = {key: self.numbers[told] for key, told in event.told().items()}
        if "frame" in event.fields:
            values["frame"] = int(event.fields["frame"], 16) - self.frames.start
        if "actor" in event.fields:
            if event.fields["actor"] not in self.actors:
                raise Hole(f"guest.trace: '{event.fields['actor']}' is no actor that begin has")
            values["actor"] = self.actors.index(event.fields["actor"])
            if values["actor"] >= MOST_ACTORS:
                raise Hole(f"guest.trace: '{event.fields['actor']}' is none of the first {MOST_ACTORS} actors of begin, and a session has no more")
        if "sum" in event.fields:
            values["value"] = int(event.fields["sum"], 16)
            values["sum"] = f"{values['value']:016x}"
        return RECORDS[event.log][event.what].format(**values)

    def initial_pages(self):
        """How many pages did not begin as zeros, and a line for each."""
        sums = {}
        for name, event in self.traces["guest"].items():
            if event.what == "found" and self.is_in_window(event):
                page = int(event.fields["frame"], 16) - self.frames.start
                if page in sums:
                    raise Hole(f"guest.trace: {name} has a frame that was found before")
                sums[page] = int(event.fields["sum"], 16)
        sums = {page: value for page, value in sums.items() if value != 0}
        return [f"init {len(sums)}", *(f"page {page} {sums[page]:016x}" for page in sorted(sums))]

    def version(self):
        """The version of the session: a guest that was started again is of the third, as is what the first two have no room for, and a
        lane is of the second."""
        if any(event.what == "restart" for event in self.kept["source"].values()) or not self.fits(SMALL):
            return 3
        return 2 if self.has_lane else 1

    def text(self):
        version = self.version()
        lines = [f"postcopy-session {version}", f"pages {self.pages}", "cells 1", *self.initial_pages()]
        for log in LOGS if version > 1 else [log for log in LOGS if log != "lane"]:
            lines += [f"{log} {len(self.kept[log])}", *map(self.record, self.kept[log].values())]
        return "\n".join([*lines, "end", ""])


def main():
    words = argparse.ArgumentParser(description="Writes a session from the traces of a migration.")
    words.add_argument("folder")
    words.add_argument("--cut", action="store_true", help="cut the traces in front of what tells of a missing event")
    asked = words.parse_args()
    try:
        recording = Recording(asked.folder, asked.cut)
        for said in recording.left_out:
            print(f"session_from_traces.py: {said}", file=sys.stderr)
        sys.stdout.write(recording.text())
    except (OSError, Hole) as fault:
        sys.exit(f"session_from_traces.py: {fault}")


if __name__ == "__main__":
    main()

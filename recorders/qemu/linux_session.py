"""The session of a recorded Linux guest, whose log is a file; the self-test of the recording; and the verdict.

The guest's log is too long for lists. A program in C makes its lines, and they go into the session's text unchanged.
"""
import mmap
import os
import shutil
import struct
import subprocess
from dataclasses import dataclass, field

import build
import judge
from contents import Contents
from convert import Recording
from files import naming
from postcopy.records import LARGE
from records import Hole
from results import UNFINISHED
from source_side import SourceSide
from stream import PAGE_BYTES
from target_side import TargetSide
from wire import ZERO

CELLS = 512
NONE = 0xFFFFFFFF
GATES = 256
RECORD_BYTES = 16
SIDES = ("source", "target")
UNTOLD = ("unseen", "frames_untold", "parts_untold", "unlocated")  # what both libraries could not record, and count


class LazyCells:
    """Contents that are spelled when they are written, so that a session holds their place for each page, and not their text."""

    def __init__(self, contents, file, place):
        self.contents, self.file, self.place = contents, file, place

    def __str__(self):
        return Contents.cells(self.contents, self.file, self.place)


class LazyContents(Contents):
    def cells(self, file, place):
        return LazyCells(self, file, place)


class LinuxSource(SourceSide):
    def guest_halts(self):
        """The guest's log is made elsewhere."""


class LinuxTarget(TargetSide):
    """`told` has each placement that the library recorded: the name of the pager's record or None, the page, and the place of its contents."""

    def __init__(self, *words):
        super().__init__(*words)
        self.told, self.last_of = [], {}

    def act(self, moment, fields):
        if moment in ("have", "place", "zero"):
            page = int(fields["page"])
            self.last_of[page] = len(self.told)
            self.told.append([None, page, fields.get("place", ZERO)])
        if moment == "miss":
            self.add("fault", miss=("miss", int(fields["number"])))
        elif moment != "fault":  # of a thread that had run nothing yet
            super().act(moment, fields)

    def place(self, page, contents):
        super().place(page, contents)
        self.told[self.last_of[page]][0] = ("placement", self.placements)

    def resume(self):
        self.is_resumed = True


class Lines:
    """Stands in for the guest's log: this many records, which are in a file."""

    def __init__(self, count):
        self.count = count

    def __len__(self):
        return self.count

    def __iter__(self):
        return iter(())


@dataclass
class SelfTest:
    """What the recorder reports about its own work. `counts` are by side, with those of guest_log under `log`; `cells` are some that differ."""
    counts: dict
    cells: list = field(default_factory=list)
    has_end: bool = True

    def faults(self):
        """Yields each reason why nothing can be said about the migration, in words."""
        log = self.counts["log"]
        for when, what in (("halt", "the source's memory at the halt"), ("end", "the target's memory at the end")):
            if log[f"{when}-differs"]:
                yield f"{what} is not what was recorded, in {log[f'{when}-differs']} cells: {self.some(when)}"
        if not self.has_end:
            yield "the target's memory at the end was not kept"
        for side in SIDES:
            counts = self.counts[side]
            for what in UNTOLD:
                if counts.get(what):  # (the first recordings have no count of unlocated accesses)
                    yield f"{side}: {what.replace('_', ' ')} {counts[what]}"
            if counts["gates"] != GATES:
                yield f"{side}: {counts['gates']} of the guest's {GATES} interrupt gates are known"
            if counts["records"] != counts["kept"]:
                yield f"{side}: of {counts['records']} records {counts['kept']} were kept"
        if not self.counts["target"]["accesses"]:
            yield "target: the guest made no access"
        for what in ("unseen", "behind"):
            if log[what]:
                yield f"the guest's log: {what} {log[what]}"

    def some(self, when):
        return "; ".join(f"page {page} cell {cell}, recorded {recorded} and found {found}"
                         for told, page, cell, recorded, found in self.cells if told == when)

    def line(self):
        """Returns the line about a recording that passes."""
        log, target = self.counts["log"], self.counts["target"]
        return (f"memory at the halt and at the end is what was recorded, but for {log['halt-marks']} and {log['end-marks']} marks in page "
                f"tables; frames {self.counts['source']['frames']} and {target['frames']}, unseen writes 0; the target waited {target['misses']} "
                f"times, and {target['words']} times it is the kernel's word alone that it waited")


class LinuxRecording(Recording):
    """The recording in a folder."""

    source_side, target_side = LinuxSource, LinuxTarget

    def __init__(self, folder):
        self.folder, self.open = folder, {}
        super().__init__(self.file)
        self.contents = LazyContents(self.file, self.plan.words)

    def file(self, name):
        """Returns a file's bytes. Files of memory and of pages are mapped, and not read."""
        path = f"{self.folder}/{name}"
        if not name.endswith((".mem", ".pages")) or not os.path.getsize(path):
            with open(path, "rb") as file:
                return file.read()
        if name not in self.open:
            with open(path, "rb") as file:
                self.open[name] = mmap.mmap(file.fileno(), 0, access=mmap.ACCESS_READ)
        return self.open[name]

    def counts(self, side):
        *lines, rest = self.file(f"{side}.counts").decode().split("\n")
        found = {name: int(count) for name, count in (line.split() for line in lines)}
        if rest or "words" not in found:  # (which stands behind those that are looked at)
            raise Hole(f"{side}.counts ends early")
        return {**found, "kept": os.path.getsize(f"{self.folder}/{side}.accesses") // RECORD_BYTES}

    def write_placements(self, session):
        path = f"{self.folder}/placements"
        with naming(path), open(path, "wb") as out:
            for name, page, contents in self.target.told:
                number = NONE if name is None else session.numbers["pager"][name]
                out.write(struct.pack("=3I", number, page, NONE if contents == ZERO else int(contents)))

    def make_guest_log(self, session):
        """Makes the lines of the guest's log, and enters the numbers of its records into the session. Returns the SelfTest."""
        self.write_placements(session)
        done = subprocess.run([build.build_guest_log(), str(session.pages), str(session.numbers["pager"][("ready",)])], cwd=self.folder, capture_output=True, text=True)
        if done.returncode not in (0, 1):
            raise Hole(f"the guest's log: {done.stderr.strip() or f'the program that makes it ended with the status {done.returncode}'}")
        found = SelfTest({side: self.counts(side) for side in SIDES}, has_end=done.returncode == 0)
        found.counts["log"] = log = {}
        for line in done.stdout.splitlines():
            what, *words = line.split()
            if what == "cell":
                found.cells.append(words)
            elif what == "miss":
                session.numbers["guest"]["miss", int(words[0])] = int(words[1])
            elif what == "halt":
                session.numbers["guest"][("halt",)] = int(words[0])
            else:
                log[what] = int(words[0])
        session.logs["guest"] = Lines(log["lines"])
        return found

    def initial(self):
        """Returns, by page, what memory held when recording began, for pages that were not all zeros."""
        memory, zeros = self.file("init.mem"), bytes(PAGE_BYTES)
        return {page: self.contents.cells("init.mem", page) for page in range(self.plan.pages)
                if memory[page * PAGE_BYTES:(page + 1) * PAGE_BYTES] != zeros}

    def write_session(self):
        """Writes the session, and returns the SelfTest."""
        session = self.session()
        found = self.make_guest_log(session)
        session.initial = self.initial()
        session.check()
        whole = session.with_numbers()
        whole.is_large = True
        if not whole.fits(LARGE) or len(session.logs["guest"]) > LARGE.records:
            raise Hole(f"{len(session.logs['guest'])} records of the guest are more than a session has")
        path = f"{self.folder}/session"
        with naming(path), open(path, "wb") as out:
            for line in whole.lines():
                if line != "guest 0\n":
                    out.write(line.encode())
                    continue
                out.write(b"guest %d\n" % len(session.logs["guest"]))
                with open(f"{self.folder}/guest.lines", "rb") as lines:
                    shutil.copyfileobj(lines, out, 1 << 24)
        os.unlink(f"{self.folder}/guest.lines")
        return found


def judged(folder, ended="", say=lambda line: None):
    """Judges a recording, and writes what was found to its folder. There is no verdict if the self-test fails, or if the migration did not
    come to its end: `ended` says how it ended then. Returns the Verdict, and the SelfTest or None."""
    found, faults = None, []
    try:
        found = LinuxRecording(folder).write_session()
        faults = list(found.faults())
    except (Hole, OSError, ValueError) as fault:
        faults = [str(fault)]
    if ended:  # which is why anything else is missing
        faults = [f"{UNFINISHED}{ended}"]
    if faults:
        verdict = judge.Verdict(f"not judged: {'; '.join(faults)}")
    else:
        say(f"self-test: {found.line()}")
        judge.write(f"{folder}/self-test", found.line() + "\n")
        say("judges")
        verdict = judge.Verdict(judge.verdict_line(folder))
    judge.write(f"{folder}/verdict", verdict.line + "\n")
    return verdict, found


def faulty_pages(folder):
    """Returns the pages that have a fault, from a session that is not clean."""
    report, _ = judge.ask(folder, "audit", "--all", "session")
    return [int(line.split()[1]) for line in report.splitlines() if line.startswith("page ")]


def waited_for(folder):
    """Returns the first page that the guest waited for, or 0."""
    page = 0
    with open(f"{folder}/target.raw", "rb") as lines:
        for line in lines:
            if line.startswith(b"uffd fault "):
                page = int(line.split()[2])
            elif line.startswith(b"uffd miss "):
                break
    return page


def explain_and_draw(folder, is_clean):
    """Explains and draws the window of one page: the first that has a fault, or if none has, the first that the guest waited for. Returns
    the story and the page, or None."""
    page = next(iter([] if is_clean else faulty_pages(folder)), None)
    page = waited_for(folder) if page is None else page
    _, status = judge.ask(folder, "window", "session", str(page), "1", "-o", "page", "--lines", "lines")
    if status:
        return None
    words = judge.explain_and_draw(folder, "--lines", "lines", session="page")
    return None if words is None else (words, page)

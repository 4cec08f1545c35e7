"""Kept recordings of QEMU, and each fact that their conversion rests on, told wrong in one of them."""
import contextlib
import hashlib
import io
import os
import re
import shlex
import sys
import tempfile
from types import SimpleNamespace
from unittest import mock

import convert
import judge
import one
from dialect import Moments
from pack import unpacked
from pipe import Access, InFlight, Pipe
from records import Hole
from run import Outcome
from source_side import SourceSide
from stream import PAGE_BYTES
from target_side import TargetSide
from versions_test import command
from wire import ZERO
from witness import pages_that_differ

TOP = os.path.dirname(os.path.dirname(os.path.dirname(os.path.abspath(__file__))))
RECORDINGS = f"{TOP}/recorders/qemu/recordings"
EXAMPLES = {"example-live": "qemu-live", "example-preempt": "qemu-preempt", "lost-write": "qemu-lost-write"}
WINDOW = ("11.1-both-ran", "qemu-both-ran", 51, 56)  # from the halt, the first and the last page
DIED = "source completed, target ENDED"
UNFINISHED = f"not judged: the migration did not come to its end: {DIED}"


def kept():
    """The kept recordings: the name, the hash of the session and its verdict."""
    with open(f"{RECORDINGS}/expected", encoding="ascii") as lines:
        return [line.rstrip("\n").split(" ", 2) for line in lines]


def files_of(name):
    return unpacked(f"{RECORDINGS}/{name}.tar.xz")


def session_of(files, source_side=SourceSide, target_side=TargetSide):
    recording = convert.Recording(files.__getitem__)
    recording.source_side, recording.target_side = source_side, target_side
    return recording.session()


def verdict_of(session, ended=""):
    with tempfile.TemporaryDirectory() as room:
        judge.write(f"{room}/session", session.text())
        return judge.verdict_line(room, ended)


def reason_of(session):
    return re.sub(r" line \d+", "", verdict_of(session))


# A fact that is told wrong in the recording's files: lines of the pipes, which a line of the pipe is whole in.

def replaced(data, *changes):
    for old, new in changes:
        if not data.count(old):
            raise AssertionError(f"the recording has no {old!r}")
        data = data.replace(old, new)
    return data


def halted_when_the_state_is_set(files):
    """The halt is told where QEMU sets the state of the run, before its processors stand still."""
    return {**files, "source.raw": replaced(
        files["source.raw"], (b"vm_state_notify running 0", b"vm_state_notified running 0"),
        (b"runstate_set current_run_state 9 (running) new_state 7 (finish-migrate)", b"vm_state_notify running 0 reason 7 (finish-migrate)"))}


def ready_when_it_returns(files):
    """The target is told to be ready where the handling of `listen` returns, which is behind the first pages."""
    return {**files, "target.raw": replaced(
        files["target.raw"], (b"loadvm_postcopy_handle_listen after uffd", b"loadvm_postcopy_handle_listen after"),
        (b"loadvm_postcopy_handle_listen return", b"loadvm_postcopy_handle_listen after uffd"))}


def placed_by_the_trace(files):
    """A placement is told where QEMU's trace has it, which is behind the wake."""
    told, waiting = [], []
    for part in re.split(rb"(?<=\n)", files["target.raw"]):
        ascii_of = bytes(byte for byte in part if byte < 0x80)
        if ascii_of.startswith((b"uffd place", b"uffd zero")):
            waiting.append(ascii_of)
            told.append(bytes(byte for byte in part if byte >= 0x80))
        elif ascii_of.startswith((b"postcopy_place_page host", b"postcopy_place_page_zero host")) and waiting:
            told += [part, *waiting]
            waiting.clear()
        else:
            told.append(part)
    return {**files, "target.raw": b"".join(told)}


def told_behind_a_cut(files):
    return {**files, "relay.log": files["relay.log"] + b"up 0 message\n"}


def a_connection_for_the_other(files):
    """What came by the main connection is told of the lane, and the other way round."""
    lines = files["target.raw"]
    return {**files, "target.raw": lines.replace(b"chan=0", b"chan=2").replace(b"chan=1", b"chan=0").replace(b"chan=2", b"chan=1")}


class ZerosLate(SourceSide):
    """Pages of zeros, which no trace tells of, are told as sent behind all others."""

    late = ()

    def send(self, connection):
        place = self.position[connection.number]
        if connection.taken[place].contents == ZERO and connection.taken[place].page is not None:
            self.late = (*self.late, (connection, place))
            self.position[connection.number] += 1
        else:
            super().send(connection)

    def send_rest(self, upto=None):
        super().send_rest(upto)
        if upto is None:
            for connection, place in self.late:
                self.position[connection.number] = place
                super().send(connection)
                self.position[connection.number] = len(connection.taken)
            self.late = ()


class NotBack(SourceSide):
    """That the source starts its guest again is told nowhere."""

    def start_again(self):
        super().start_again()
        self.session.logs["source"].pop()


class FirstAsAnyOther(TargetSide):
    """The first access at the target is told there, whatever the halt came into."""

    def is_told_first(self, access):
        return True


class OneConnection(TargetSide):
    """What came by the connection behind the cut is told as if it had come by the one before."""

    def act(self, moment, fields):
        if moment != "pages over a new connection":
            super().act(moment, fields)


class OneConnectionOfRequests(TargetSide):
    """The same of requests."""

    def act(self, moment, fields):
        if moment != "messages over a new connection":
            super().act(moment, fields)


class SecondRequestJoins(TargetSide):
    """A request for a page that was asked for already is told as one that waits for the first."""

    def message(self, kind):
        before = len(self.session.logs["pager"])
        super().message(kind)
        new = self.session.logs["pager"][before:]
        if new and new[0][0] == "want":
            page = new[0][1]
            self.wanted = getattr(self, "wanted", {})
            if page in self.wanted:
                self.session.logs["pager"][-1] = ("join", self.wanted[page])
            else:
                self.wanted[page] = [name for name, number in self.session.numbers["pager"].items() if number == before][0]


WRONG_FILES = (
    ("the halt", "live", halted_when_the_state_is_set, "shape phases"),
    ("the moment at which the target is ready", "live", ready_when_it_returns, "shape start"),
    ("placements", "preempt-recovery", placed_by_the_trace, "faulty early"),
)
WRONG_SIDES = (
    ("pages of zeros", "live", {"source_side": ZerosLate}, "knot"),
    ("the read that the halt came into", "10.0-live", {"target_side": FirstAsAnyOther}, "faulty early"),
    ("that the source starts its guest again", "11.1-both-ran", {"source_side": NotBack}, "incomplete page 55"),
    ("the write that the halt came into", "11.1-both-ran", {"source_side": NotBack, "target_side": FirstAsAnyOther}, "faulty early"),
    ("a request that is made a second time", "recovery", {"target_side": SecondRequestJoins}, "shape named"),
)
HOLES = (
    ("nothing is told of a connection behind its cut", "recovery", told_behind_a_cut, {}),
    ("the connection of a page with preempt", "preempt-recovery", a_connection_for_the_other, {}),
    ("the connection of a page behind a cut", "recovery", None, {"target_side": OneConnection}),
    ("the connection of a request behind a cut", "recovery", None, {"target_side": OneConnectionOfRequests}),
)


def of_recordings(tests):
    for name, digest, verdict in kept():
        session = session_of(files_of(name))
        tests.wants(f"the session of {name}, byte for byte", hashlib.sha256(session.text().encode()).hexdigest(), digest)
        tests.wants(f"the verdict of {name}", verdict_of(session), verdict)


def of_examples(tests):
    """The sessions in examples/ are those of kept recordings, and the pictures are the program's."""
    for name, example in EXAMPLES.items():
        with open(f"{TOP}/examples/{example}/session", encoding="ascii") as file:
            tests.wants(f"the session of examples/{example}", session_of(files_of(name)).text() == file.read(), True)
    name, example, first, last = WINDOW
    window = convert.Recording(files_of(name).__getitem__).session(is_from_halt=True).with_numbers().window(first, last)
    with open(f"{TOP}/examples/{example}/session", encoding="ascii") as file:
        tests.wants(f"the session of examples/{example}", window.text() == file.read(), True)
    for example in ("qemu-lost-write", "qemu-both-ran"):
        with open(f"{TOP}/examples/{example}/picture.svg", encoding="ascii") as file:
            picture = judge.ask(f"{TOP}/examples/{example}", "draw", "session")[0]
            tests.wants(f"the picture of examples/{example}", picture == file.read(), True)


def of_word(records, word):
    return [record for record in records if record[0] == word]


def of_witness(tests):
    """A lost write is seen without the auditor too: what went over the wire last is not what the source had at the halt."""
    found = {name: pages_that_differ(convert.Recording(files_of(name).__getitem__))[0] for name, _, _ in kept()}
    tests.wants("pages that differ from the source's memory", {name for name in found if found[name]}, {"lost-write"})
    session = session_of(files_of("lost-write"))
    tests.wants("how many", len(found["lost-write"]), 7)
    contents = {page: contents for word, page, contents in of_word(session.logs["source"], "send")}
    placed = {page: contents for word, page, _packet, contents in of_word(session.logs["pager"], "place")}
    tests.wants("and they are those that were placed otherwise than sent",
                [page for page in sorted(placed) if placed[page] != contents[page]], found["lost-write"])


class PageByPage(bytes):
    """A memory of which no more than a page is copied at once."""

    def __getitem__(self, key):
        part = super().__getitem__(key)
        if isinstance(key, slice) and len(part) > PAGE_BYTES:
            raise AssertionError(f"{len(part)} bytes are copied")
        return part


def of_its_copies(tests):
    files = files_of("lost-write")
    files["halt.mem"] = PageByPage(files["halt.mem"])
    tests.wants("the witness copies a page at a time", len(pages_that_differ(convert.Recording(files.__getitem__))[0]), 7)


def of_facts(tests):
    for what, name, change, reason in WRONG_FILES:
        tests.wants(f"told wrong: {what}", reason_of(session_of(change(files_of(name)))), reason)
    for what, name, sides, reason in WRONG_SIDES:
        tests.wants(f"told wrong: {what}", reason_of(session_of(files_of(name), **sides)), reason)
    for what, name, change, sides in HOLES:
        files = files_of(name)
        tests.refuses(f"told wrong: {what}", Hole, lambda: session_of(change(files) if change else files, **sides).text())


def of_pipes(tests):
    """The guest's bytes within lines, and the moment of an event, which is its last byte."""
    access = bytes([0xC1, 0x85, 0x80, 0x80, 0xC2, 0x85, 0x80, 0x80, 0x81, 0x80, *[0x87] + [0x80] * 10])
    for cut in range(1, len(access)):
        told = list(Pipe().tokens(b"one " + access[:cut] + b"line\ntwo\n" + access[cut:] + b"three\n"))
        events = [token for token in told if not isinstance(token, str)]
        tests.wants(f"lines around a cut at {cut}", [token for token in told if isinstance(token, str)], ["one line", "two", "three"])
        tests.wants(f"the events around a cut at {cut}", [(type(event).__name__, event.page) for event in events], [("Look", 5), ("Access", 5)])
        tests.wants(f"the access is behind the lines at {cut}", told.index(events[1]) > told.index("two"), True)
    both = Pipe()
    first, second = list(both.tokens(access[:9])), list(both.tokens(access[9:]))
    tests.wants("an access that is told to its end at the target", ([type(e).__name__ for e in first], second[0].value), (["Look"], 7))
    tests.refuses("bytes that are no event", Hole, lambda: list(Pipe().tokens(bytes([0xC5]) * 100)))


def write_of(value, page=5, cell=1):
    return bytes([0xC3, 0x80 | page, 0x80, 0x80, 0x80 | cell, 0x80, *(0x80 | value >> 6 * place & 63 for place in range(11))])


def of_the_halt(tests):
    """An access that the halt comes into: on which side it was, by what was told of it and by the memory."""
    wrote, read = write_of(77), bytes([0xC2, *write_of(77)[1:]])
    for what, begun, rest, memory, wanted in (
            ("a write that the memory has", wrote, b"\xc4", 77, ("write", 5, 1, 77)), ("one that it has not", wrote, b"\xc4", 76, None),
            ("a write that was not told but for its last byte", wrote[:16], wrote[16:] + b"\xc4", 77, None),
            ("a read of which a byte of the value is told", read[:7], read[7:], 0, ("read", 5, 1, 77)),
            ("a read of which none is", read[:6], read[6:], 77, None), ("a read that is told to its end nowhere", read[:7], b"", 77, None)):
        found = InFlight(begun, 0, 2).done(b"a line\n" + rest, lambda page, cell: memory if (page, cell) == (5, 1) else None)
        tests.wants(f"done before the halt: {what}", found and (found.what, found.page, found.cell, found.value), wanted)
    for looks, begun, is_by_block, wanted in ((0, b"", False, False), (0, b"\xc1", False, False), (1, b"", True, False), (1, b"", False, True),
                                              (1, b"\xc1", True, True), (2, b"", True, True), (2, b"\xc3", True, True)):
        tests.wants(f"the page may be touched: {looks} looks, {begun}, {is_by_block}", InFlight(begun, 0, looks).is_behind_touch(is_by_block), wanted)
    both = Pipe()
    list(both.tokens(bytes([0xC0, 0x82, 0xC1, 0x85, 0x80, 0x80]) + wrote[:3]))
    tests.wants("what is in flight", both.in_flight(), InFlight(wrote[:3], 2, 1))
    tests.wants("it is told to its end by the other side", [token.value for token in Pipe(both.in_flight()).tokens(wrote[3:] + b"\xc4")], [77])


class Told:
    """In the place of a session: what is told."""

    def __init__(self):
        self.records = []

    def add(self, log, what, name=None, **fields):
        self.records.append((what, fields.get("page")))

    def is_last(self, log, name):
        return True


def of_the_first_access(tests):
    """The first access at the target, where its page was touched at the source: no look of the target waited for it."""
    look, read, write = bytes([0xC1, 0x85, 0x80, 0x80]), bytes([0xC2, *write_of(77)[1:]]), write_of(77) + b"\xc4"
    for what, is_in_flight, is_done, placed, data, wanted in (
            ("a read is left out", True, False, True, read, []),
            ("a write is told, with the placement", True, False, True, write, [("see", None), ("write", 5)]),
            ("a write before the placement", True, False, False, write, [("write", 5)]),
            ("what was done at the source is not told again", True, True, True, read + write, [("write", 5)]),
            ("a look that showed the page", True, False, True, look + read, [("see", None), ("read", 5)]),
            ("an access that was not in flight", False, False, True, read, [("read", 5)])):
        told = Told()
        side = TargetSide(told, None, None, 0, "10.0.13", is_in_flight, is_done)
        side.is_ready = side.is_guarded = True
        if placed:
            side.placed[5] = 1
        side.read(Pipe(), data)
        tests.wants(f"the first access: {what}", told.records, wanted)


class NoWire:
    """In the place of a Wire of a migration that came to nothing."""
    connections, has_state, left = (), False, ()

    def of(self, is_lane, generation):
        return None


def of_a_source_that_goes_on(tests):
    """That the source's guest is started again is told, and what it does then is not. The target goes on from the halt."""
    told, found = Told(), []
    side = SourceSide(told, NoWire(), None, False, "10.0.13", found.append)
    begun, line = write_of(77)[:9], b"vm_state_notify running %d reason 7 (any)\n"
    side.read(Pipe(), bytes([0xC2, *write_of(5)[1:]]) + begun + line % 0 + line % 1 + write_of(77)[9:] + b"\xc4" + write_of(8, page=6) + b"\xc4")
    tests.wants("what is told", told.records, [("read", 5), ("halt", None), ("halted", None), ("back", None)])
    tests.wants("what the target goes on with", (side.in_flight, found), (InFlight(begun, 0, 0), [InFlight(begun, 0, 0)]))
    side = SourceSide(Told(), NoWire(), None, False, "10.0.13", lambda in_flight: Access(0, "write", 4, 0, 9))
    side.read(Pipe(), line % 0)
    tests.wants("an access that was done stands in front of the halt", side.session.records, [("write", 4), ("halt", None), ("halted", None)])


def judged(files):
    """The verdict on a recording whose QEMUs did not come to their end, and what it left of that in its folder."""
    with tempfile.TemporaryDirectory() as room:
        for name, data in files.items():
            with open(f"{room}/{name}", "wb") as out:
                out.write(data)
        verdict = judge.judge(room, DIED)
        with open(f"{room}/restart", encoding="ascii") as file:
            return verdict, file.read()


def of_restarts(tests):
    """Where the source started its guest again: the verdict, and how many accesses each side tells since."""
    found = {name: convert.Recording(files_of(name).__getitem__).restart() for name, _, _ in kept()}
    tests.wants("of the kept recordings", {name: one for name, one in found.items() if one},
                {"11.1-both-ran": convert.Restart(True, 621, 9, 9), "11.1-returned": convert.Restart(False, 76, 0, 0)})
    again = "the source started its guest again; it told"
    for name, line, ran in (("11.1-both-ran", "shape line 4162 both", f"both ran: {again} 621 accesses since, and the guest at the target 9; "
                             "the first 9 of both are the same"),
                            ("11.1-returned", "incomplete returned", f"returned: {again} 76 accesses since, and the guest never ran at the target")):
        verdict, left = judged(files_of(name))
        tests.wants(f"where the source of {name} goes on", (verdict.line, verdict.is_clean, verdict.restart.line(), left), (line, False, ran, f"{ran}\n"))


def of_files_that_end_early(tests):
    """Of pages that are in no file, as after a full disk, nothing is judged, and nothing is seen: nor are two of them alike."""
    files = files_of("example-live")
    for cut, hole, of_witness in ((["relay.pages"], "relay.pages ends before page 34", "relay.pages ends before page 25"),
                                  (["halt.mem"], "halt.mem ends before page 0", "halt.mem ends before page 0"),
                                  (["relay.pages", "halt.mem"], "halt.mem ends before page 0", "relay.pages ends before page 25"),
                                  (["target.pages"], "target.pages ends before page 0", None)):
        for left in (0, 5):
            with tempfile.TemporaryDirectory() as room:
                for name, data in files.items():
                    with open(f"{room}/{name}", "wb") as out:
                        out.write(data[:left] if name in cut else data)
                line, seen = judge.judge(room).line, judge.witness(room)
            tests.wants(f"where {' and '.join(cut)} end", (line, seen), (
                f"not judged: {hole}", f"nothing, since {of_witness}\n" if of_witness else "2 pages that pre-copy sent were not sent again, and are what the source has at the halt\n"))


def of_an_end_that_is_missing(tests):
    """The last byte of the last page is missing, which the guest does not use: nothing is judged either."""
    files = files_of("example-live")
    for cut in ("relay.pages", "target.pages"):
        with tempfile.TemporaryDirectory() as room:
            for name, data in files.items():
                with open(f"{room}/{name}", "wb") as out:
                    out.write(data[:-1] if name == cut else data)
            tests.wants(f"{cut} without its last byte", judge.judge(room).line, f"not judged: {cut} ends before page {len(files[cut]) // PAGE_BYTES - 1}")
    cut_off = convert.Recording({**files, "halt.mem": files["halt.mem"][:-1]}.__getitem__)
    page = len(files["halt.mem"]) // PAGE_BYTES - 1
    said = tests.refuses("a cell at the halt that is in no file", Hole, lambda: cut_off.cell_at_halt(page, 511))
    tests.wants("which page it is", said, f"halt.mem ends before page {page}")


def of_a_target_that_ends_early(tests):
    """What the target recorded ends where the recorder stops the guest. Without that a migration is not judged as one that came to its end."""
    for name, _, _ in kept():
        recording = convert.Recording(files_of(name).__getitem__)
        if recording.restart() is None:  # (each of the others came to its end)
            recording.require_end()
    files = files_of("example-live")
    told, runs, stops = files["target.raw"], *(files["target.raw"].rindex(f"vm_state_notify running {it} ".encode()) for it in (1, 0))
    tests.wants("the guest runs at the target before it is stopped", runs < stops, True)
    for left in (stops, stops - 1, (runs + 2 * stops) // 3):
        for ended, wanted in (("", "not judged: target.raw: its end is missing"), (DIED, UNFINISHED)):
            with tempfile.TemporaryDirectory() as room:
                for name, data in {**files, "target.raw": told[:left]}.items():
                    with open(f"{room}/{name}", "wb") as out:
                        out.write(data)
                tests.wants(f"{left} of {len(told)} bytes of target.raw, {ended}", judge.judge(room, ended).line, wanted)


def of_statuses(tests):
    """What ends early is no success, though what is left is clean; nor is a migration of which QEMU says that it came to its end, and
    whose logs do not tell that each page came; nor one whose source started its guest again, whatever the program says of it."""
    again = judge.Verdict("clean, yes", restart=convert.Restart(False, 7, 0, 0))
    tests.wants("a source that goes on beside a clean session", (again.is_clean, again.status(True)), (False, 1))
    files = files_of("example-live")
    with tempfile.TemporaryDirectory() as room:
        for name, data in files.items():
            with open(f"{room}/{name}", "wb") as out:
                out.write(data)
        for ended, line, status in (("", "clean, yes", 0), (DIED, UNFINISHED, 1)):
            verdict = judge.judge(room, ended)
            tests.wants(f"a recording of one that ended: {ended}", (verdict.line, verdict.status(not ended)), (line, status))
        with open(f"{room}/source.raw", "wb") as out:
            out.write(replaced(files["source.raw"], (b"source_return_path_thread_shut 0x0\n", b"")))
        verdict = judge.judge(room)
        tests.wants("a source that did not learn of the end", (verdict.line, verdict.status(True)), ("incomplete done", 1))
        with open(f"{room}/program", "w", encoding="utf-8") as out:
            out.write(f'#!/bin/sh\ncase "$*" in *--complete*) kill -9 $$ ;; esac\nexec {shlex.quote(judge.program())} "$@"\n')
        os.chmod(f"{room}/program", 0o755)
        with mock.patch.dict(os.environ, POSTCOPY=f"{room}/program"):
            verdict = judge.judge(room)
        tests.wants("where the program is killed before it says so", (verdict.line.split(":")[0], verdict.status(True)), ("not judged", 1))
        with mock.patch.dict(os.environ, POSTCOPY=f"{room}/none"), contextlib.redirect_stderr(io.StringIO()) as told:
            verdict = judge.judge(room)
        wanted = f"{room}/none: No such file or directory: the program, which the variable POSTCOPY may name\n"
        tests.wants("where there is no program", (verdict.line, verdict.status(True), told.getvalue()), ("not judged: the program said nothing", 1, wanted))


def of_a_side_that_died(tests):
    """Where a QEMU did not come to its end nothing is green: neither what was recorded until then, nor a session that tells of a whole
    migration, as where the target aborts behind the last page."""
    recorder, files = command("migrate"), files_of("example-live")
    placed = [match.end() for match in re.finditer(rb"uffd place [^\n]*\n", files["target.raw"])]
    died = Outcome("completed", "ENDED", deaths=["target aborted: Assertion `it' failed."])
    for left, outcome, wanted in ((None, Outcome("completed", "completed"), ("clean", "clean, yes", True, 0)),
                                  (None, died, ("not", f"not judged: the migration did not come to its end: {died.death}", False, 1)),
                                  (placed[5], died, ("incomplete", "incomplete page", False, 1))):
        with tempfile.TemporaryDirectory() as room:
            told, status = migrated(recorder, {**files, "target.raw": files["target.raw"][:left]}, outcome, room=room)
            with open(f"{room}/verdict", encoding="utf-8") as verdict, open(f"{room}/report", encoding="utf-8") as report:
                found = report.read().split()[0], re.sub(r"(?<=page) \d+$", "", verdict.read().rstrip("\n")), os.path.exists(f"{room}/certificate"), status
        tests.wants(f"what is left of one of which {left} bytes are told, {outcome.line()}", found, wanted)
        tests.wants("what is said of the side", f"\nThe {died.death}\n" in told, outcome is died)
    with tempfile.TemporaryDirectory() as room:
        plan = io.StringIO(files["plan.json"].decode())
        with mock.patch.object(sys, "stdin", plan), mock.patch.object(sys, "argv", ["one.py", room, "any", "any"]), of_qemu(one, files, room, died):
            one.main()
        with open(f"{room}/verdict", encoding="utf-8") as verdict:
            tests.wants("the same in a campaign", (verdict.read().startswith("not judged: the migration did not come"), os.path.exists(f"{room}/certificate")), (True, False))


def of_what_is_not_put_in(tests):
    """A clean migration in which a fault or a cut was to be put in, and was not, is told as such."""
    recorder, files = command("migrate"), files_of("example-live")
    for words, log, remarks, wanted in (
            ((), b"", [], (None, 0)), (("--fault", "flip"), b"", [], ("flip not reached", 4)), (("--fault", "flip"), b"fault flip 3\n", [], (None, 0)),
            (("--cut", "9"), b"", ["1 cut not reached"], ("1 cut not reached", 4)), (("--cut", "9"), b"", [], (None, 0))):
        told, status = migrated(recorder, {**files, "relay.log": log + files["relay.log"]}, Outcome("completed", "completed", remarks=remarks), *words)
        found = re.search("^Put in: (.*)$", told, re.MULTILINE)
        tests.wants(f"what is told of {words} with {log}", (found and found[1], status), wanted)
    told, _ = migrated(recorder, files, Outcome("completed", "completed", remarks=["gave up: migrate: no room"]))
    tests.wants("why the recorder gave up, with --quiet", "\nThe recorder gave up: migrate: no room\n" in told, True)


def of_qemu(recorder, files, room, outcome):
    """In the place of the QEMUs of a recorder: a migration that ended so, of which these files are left."""
    def run():
        for name, data in files.items():
            with open(f"{room}/{name}", "wb") as out:
                out.write(data)
        return outcome

    return mock.patch.multiple(recorder, Emulator=mock.Mock(NAME="any"), Migration=mock.Mock(return_value=SimpleNamespace(run=run)))


def migrated(recorder, files, outcome, *words, room=None):
    """What the recorder writes of a migration that ended so, of which these files are left; and its status."""
    with tempfile.TemporaryDirectory() as other:
        room = room or other
        given = mock.patch.object(sys, "argv", ["migrate", "live", room, "--quiet", *words])
        with of_qemu(recorder, files, room, outcome), given, mock.patch.object(sys, "stdout", io.TextIOWrapper(io.BytesIO())) as out:
            status = recorder.main()
            out.seek(0)
            return out.read(), status


def of_a_long_log(tests):
    """A guest's log that is too long for a session is cut at the halt, and that is told where it was not asked for."""
    recorder, files = command("migrate"), files_of("example-live")
    for most, words, wanted in ((1 << 20, (), False), (100, (), True), (100, ("--from-halt",), False)):
        with mock.patch.object(convert, "SMALL", convert.SMALL._replace(records=most)):
            told, status = migrated(recorder, files, Outcome("completed", "completed"), *words)
        tests.wants(f"with room for {most} records {words}", ("begins with the memory at the halt" in told, status), (wanted, 0))


def of_the_last_of_the_source(tests):
    """Nothing of the source stands behind the record that it starts its guest again, and what was sent before stands in front of it."""
    files = files_of("11.1-both-ran")
    again, ask = b"vm_state_notify running 1 reason 9 (running)\n", b"migrate_handle_rp_req_pages in (null) at 0x438000 len 0x1000\n"
    for what, source, asks in (
            ("a request behind it", (again + ask).join(replaced(files["source.raw"], (ask, b"")).rsplit(again, 1)), 1),
            ("pages that no trace tells of", replaced(files["source.raw"], (b"ram_save_page", b"ram_save_pages")), 2)):
        told = session_of({**files, "source.raw": source}).logs["source"]
        tests.wants(f"{what}: it is the last", [place - len(told) for place, record in enumerate(told) if record[0] == "back"], [-1])
        tests.wants(f"{what}: what stands before it", (len(of_word(told, "ask")), len(of_word(told, "send"))), (asks, 64))


def of_a_strange_stream(tests):
    """What the stream has that is not known is told, and is no lack of post-copy."""
    files = files_of("live")
    log = files["relay.log"].split(b"down 0 state")[0] + b"strange a command 99\n"
    said = tests.refuses("a stream that was not understood", Hole, lambda: session_of({**files, "relay.log": log}))
    tests.wants("what", said, "the stream has what is not known here: a command 99")
    told = tests.refuses("a library that was not preloaded", Hole,
                         lambda: session_of({**files, "target.raw": files["target.raw"].replace(b"uffd guard", b"uffd other")}))
    tests.wants("that is told", "preloaded library" in told, True)


def of_ends(tests):
    """Recordings that end early, as when a QEMU ends: what is left is judged, and is not clean, or it is told what it lacks."""
    files = files_of("recovery")
    for name in ("source.raw", "target.raw", "relay.log"):
        seen = set()
        for length in (*range(0, len(files[name]), len(files[name]) // 6), len(files[name]) - 200, len(files[name]) - 1):
            short = {**files, name: files[name][:length]}
            try:
                session = session_of(short)
            except Hole:
                seen.add("hole")
                continue
            session.cut()
            seen.add(verdict_of(session, DIED).split()[0])
        tests.wants(f"verdicts where {name} ends early", seen | {"not"}, {"hole", "incomplete", "not"})


def of_moments(tests):
    for side in ("source", "target"):
        tests.wants("a line that is no moment", list(Moments(side).of("postcopy_start")), [])
    tests.wants("a moment with its fields", list(Moments("target").of("uffd fault 7 123")), [("fault", {"page": "7", "thread": "123"})])
    recover = "migrate_set_state new state postcopy-recover"
    for version, line, moments in (
            ("5.2.0", "1234@1764236000.123456:vm_state_notify running 1 reason 9 (running)", ["resume"]),
            ("7.2.22", "1234@1764236000.123456:vm_state_notify running 1 reason 9 (running)", []),
            ("5.2.0", "ram_load_postcopy_loop @400000 8", ["taken"]), ("10.0.13", "ram_load_postcopy_loop @400000 8", []),
            ("5.2.0", "postcopy_ram_enable_notify", ["ready"]), ("10.0.13", "postcopy_ram_enable_notify", []),
            ("11.1.3", "loadvm_postcopy_handle_listen after uffd", ["ready"]), ("5.2.0", "loadvm_postcopy_handle_listen after uffd", []),
            ("10.0.13", recover, ["messages over a new connection"]), ("10.0.13", f"{recover}-setup", [])):
        tests.wants(f"the moments of '{line}' in {version}", [moment for moment, _ in Moments("target", version).of(line)], moments)


def run(tests):
    of_pipes(tests)
    of_moments(tests)
    of_recordings(tests)
    of_examples(tests)
    of_witness(tests)
    of_its_copies(tests)
    of_facts(tests)
    of_the_halt(tests)
    of_the_first_access(tests)
    of_a_source_that_goes_on(tests)
    of_restarts(tests)
    of_files_that_end_early(tests)
    of_an_end_that_is_missing(tests)
    of_a_target_that_ends_early(tests)
    of_statuses(tests)
    of_a_side_that_died(tests)
    of_what_is_not_put_in(tests)
    of_a_long_log(tests)
    of_the_last_of_the_source(tests)
    of_a_strange_stream(tests)
    of_ends(tests)

"""Kept recordings of CRIU 4.1.1 and 4.2.1, and each fact that their conversion rests on, told wrong in one of them."""
import importlib.machinery
import importlib.util
import io
import os
import re
import sys
import tempfile
from dataclasses import replace
from types import SimpleNamespace
from unittest import mock

import criu_judge
import judge
import kept
from criu_plans import BASE, plan_from_text, plan_of
from criu_session import Recording, Sides, Wire
from lazy_migration import RECORDED, Outcome
from page_server import NARROW, PAGE_BYTES, Message, Strange
from records import Hole


def session_of(files, **others):
    """The session of a recording's files. `others` are classes in the place of those of the conversion."""
    recording = Recording(files.__getitem__)
    vars(recording).update(others)
    return recording.session()


def verdict_of(session):
    with tempfile.TemporaryDirectory() as room:
        judge.write(f"{room}/session", session.text())
        return judge.verdict_line(room)


def reason_of(session):
    """The verdict without its number."""
    return re.sub(r" \d+", "", verdict_of(session))


def of_kept(tests):
    tests.wants("the files of a recording", set(kept.FILES), {"plan.json", *RECORDED})
    versions = set()
    for name, (digest, verdict) in kept.expected().items():
        recording = Recording(kept.files_of(name).__getitem__)
        versions.add(recording.plan.criu)
        session = recording.session()
        session.cut()
        tests.wants(f"{name}: its session, byte for byte", kept.hash_of(session.text()), digest)
        tests.wants(f"{name}: its verdict", verdict_of(session), verdict)
    tests.wants("both forms of the protocol", versions, {"4.1.1", "4.2.1"})


def of_cut(tests):
    """Where the connection ends the process goes on with zeros: that is seen in what it told too."""
    with tempfile.TemporaryDirectory() as room:
        judge.write(f"{room}/log", kept.files_of("cut")["log"].decode())
        tests.wants("cut: reads of what was not written", criu_judge.wrong_reads(room) > 0, True)
        judge.write(f"{room}/log", kept.files_of("live")["log"].decode())
        tests.wants("live: reads of what was not written", criu_judge.wrong_reads(room), 0)


def of_files_that_end_early(tests):
    """Of pages that are in no file, as after a full disk, nothing is judged: nor where the end of one is missing."""
    files = kept.files_of("live")
    for name in ("relay.pages", "target.pages"):
        last = len(files[name]) // PAGE_BYTES - 1
        for left, page in ((0, 0), (5, 0), (len(files[name]) - 1, last), (len(files[name]) - PAGE_BYTES, last)):
            with tempfile.TemporaryDirectory() as room:
                for file, data in files.items():
                    with open(f"{room}/{file}", "wb") as out:
                        out.write(data[:left] if file == name else data)
                tests.wants(f"{left} bytes of {name}", criu_judge.judged(room).line, f"not judged: {name} ends before page {page}")


def of_a_log_that_ends_early(tests):
    """The log's last line says how long it is. Where it does not, nothing is judged; and of a migration that did not come to its end nothing
    is clean, also where the log tells of a whole one."""
    files, digest = kept.files_of("live"), kept.expected()["live"][0]
    plan = replace(plan_from_text(files["plan.json"].decode()), log_has_end=True)
    whole = {**files, "plan.json": plan.to_text().encode(), "log": files["log"] + b"end %d\n" % len(files["log"])}
    tests.wants("a log with an end", kept.hash_of(session_of(whole).text()), digest)
    end = len(whole["log"])
    last = whole["log"].rindex(b"\ng ")  # (what the process told last)
    for left in (end - 1, end - 2, len(files["log"]), len(files["log"]) - 1, last + 1, last, end // 2, 0):
        cut = {**whole, "log": whole["log"][:left]}
        said = tests.refuses(f"{left} of {end} bytes of the log", Hole, lambda: session_of(cut))
        tests.wants(f"what is told of {left} bytes", said, "log: its end is missing")
    lacking = {**whole, "log": whole["log"][:last + 1] + whole["log"][whole["log"].rindex(b"end "):]}
    tests.refuses("a log that lacks a line before its end", Hole, lambda: session_of(lacking))
    with tempfile.TemporaryDirectory() as room:
        for file, data in {**whole, "log": whole["log"][:last + 1]}.items():
            with open(f"{room}/{file}", "wb") as out:
                out.write(data)
        unfinished = "not judged: the migration did not come to its end: dump waits"
        for ended, wanted in (("", "not judged: log: its end is missing"), ("dump waits", unfinished)):
            tests.wants(f"the verdict on a log without an end, {ended}", criu_judge.judged(room, ended).line, wanted)
        tests.wants("there is no certificate", os.path.exists(f"{room}/certificate"), False)


def migrated(files, outcome, *words):
    """What the recorder writes of a migration that ended so, of which these files are left; and its status."""
    loader = importlib.machinery.SourceFileLoader("criu_migrate", f"{os.path.dirname(os.path.abspath(kept.__file__))}/migrate")
    recorder = importlib.util.module_from_spec(importlib.util.spec_from_loader(loader.name, loader))
    loader.exec_module(recorder)
    with tempfile.TemporaryDirectory() as room:
        def run():
            for name, data in files.items():
                with open(f"{room}/{name}", "wb") as out:
                    out.write(data)
            return outcome

        made = mock.Mock(return_value=SimpleNamespace(run=run))
        given = mock.patch.object(sys, "argv", ["migrate", "live", room, "--quiet", *words])
        with given, mock.patch.object(recorder, "Migration", made), mock.patch.object(sys, "stdout", io.TextIOWrapper(io.BytesIO())) as out:
            status = recorder.main()
            out.seek(0)
            return out.read(), status


def of_what_is_left_out(tests):
    """Of a migration that did not come to its end it is told how many records are left out: those that tell of one that is not there."""
    files = kept.files_of("hang")
    session = session_of(files)
    before = sum(map(len, session.logs.values()))
    session.cut()
    left_out = before - sum(map(len, session.logs.values()))
    told, status = migrated(files, Outcome("waits", "hangs", 0))
    tests.wants("what is told of a hang", (f"\nThe logs may end early: {left_out} records were left out, and the verdict is on the others\n" in told, status), (True, 1))
    told, status = migrated(kept.files_of("live"), Outcome(0, 0, 0))
    tests.wants("and of one that came to its end", ("left out" in told, status), (False, 0))
    told, status = migrated(kept.files_of("live"), Outcome("waits", "hangs", 0))
    unfinished = "not judged: the migration did not come to its end: dump waits, lazy-pages hangs, restore ended"
    tests.wants("a hang behind the last page", (f"\nThe audit says: {unfinished}\n" in told, status), (True, 1))


def of_what_is_not_put_in(tests):
    """A clean migration in which a fault was to be put in, and was not, is told as such."""
    files = kept.files_of("live")
    for words, log, wanted in (((), b"", (None, 0)), (("--fault", "flip"), b"", ("flip not reached", 4)), (("--fault", "flip"), b"fault flip 1000\n", (None, 0)),
                               (("--fault", "flip", "--plain"), b"", ("flip not reached", 4))):
        told, status = migrated({**files, "relay.log": log + files["relay.log"]}, Outcome(0, 0, 0), *words)
        told = re.search("^Put in: (.*)$", told, re.MULTILINE)
        tests.wants(f"what is told of {words} with {log}", (told and told[1], status), wanted)


def of_hang(tests):
    """A hang is seen in what the process told too, and `audit` alone says that nothing is wrong."""
    for name in ("hang", "split"):
        with tempfile.TemporaryDirectory() as room:
            for file, data in kept.files_of(name).items():
                with open(f"{room}/{file}", "wb") as out:
                    out.write(data)
            verdict = criu_judge.judged(room, "dump waits")
            waited, missing = criu_judge.waited_for(room), int(verdict.line.split()[-1])
            tests.wants(f"{name}: the process waits for a page", len(waited), 1)
            tests.wants(f"{name}: of all that is absent this is not the first", missing <= waited[0], True)
            tests.wants(f"{name}: as far as it goes nothing is wrong", judge.ask(room, "audit", "--quiet", "session"), ("clean\n", 0))
            tests.wants(f"{name}: it is explained", f"Page {missing} was owed" in judge.explain_and_draw(room, "--complete"), True)
            tests.wants(f"{name}: and drawn", os.path.getsize(f"{room}/picture.svg") > 1000, True)
            with open(f"{room}/verdict", encoding="ascii") as line:
                tests.wants(f"{name}: the verdict is left", line.read(), f"{verdict.line}\n")
    with tempfile.TemporaryDirectory() as room:
        judge.write(f"{room}/log", "g 0 w 1 0 0000000000000005\ng 0 r 1 0 0000000000000005\ng 0 r 2 0 0000000000000000\n"
                    "p fault 3\ng 0 r 1 0 0000000000000000\ng 0 z 1\ng 0 r 1 0 0000000000000000\n")
        tests.wants("reads of what was not written", criu_judge.wrong_reads(room), 1)
        judge.write(f"{room}/log", "g 0 m 7\ng 1 m 3\ng 0 r 7 0 0000000000000000\ng 1 m 3\np fault 3\ng 2 m 9")
        tests.wants("the last word of each thread, and no line that is not whole", criu_judge.waited_for(room), [3])


def released_under_way(placed_after):
    """A page that is given up while it is on its way, and is put in place before or after lazy-pages takes the message of it."""
    plan = plan_of("releases", pages=2, words=1, criu="4.1.1", log_has_end=False)
    first, second = f"{BASE:x}", f"{BASE + PAGE_BYTES:x}"
    request, end = Message("get", 2, BASE, 1), Message("force-close", 0, 0, 0)
    places = [f"p down {NARROW.size + 2 * PAGE_BYTES}", f"p place {first} 0", f"p place {second} 1"]
    remove = f"p remove {first} {second}"
    log = ["g 0 w 0 0 0000000000000001", "g 0 w 1 0 0000000000000002", "s halted", f"p up {request.to_bytes(NARROW).hex()}", "t resume",
           "g 0 z 0", *([remove, *places] if placed_after else [*places, remove]),
           "g 0 r 1 0 0000000000000002", "g 0 r 0 0 0000000000000000", f"p up {end.to_bytes(NARROW).hex()}"]
    pages = b"".join(value.to_bytes(8, "little").ljust(PAGE_BYTES, b"\0") for value in (1, 2))
    return {"plan.json": plan.to_text().encode(), "log": "".join(f"{line}\n" for line in log).encode(), "target.pages": pages,
            "relay.log": f"up get 2 {BASE:x}\ndown pages 2 {BASE:x} 0 2\nup force-close 0 0\ndown status 0\n".encode(), "relay.pages": pages}


def of_repeats(tests):
    """A page that the process gave up is asked for over and over: each answer is the same page once more, and each is dropped."""
    session = session_of(kept.files_of("split-two"))
    session.cut()
    again = [record for record in session.logs["source"] if record[0] == "again"]
    tests.wants("one page is sent again and again", (len(again) > 1, len({record[1] for record in again})), (True, 1))
    tests.wants("what is missing is the end", verdict_of(session), "incomplete all")


def of_releases(tests):
    tests.wants("a page that came before it was given up", verdict_of(session_of(released_under_way(False))), "clean, yes")
    tests.wants("one that is put in place after that", reason_of(session_of(released_under_way(True))), "faulty line over")


# A fact that is told wrong in the files of a recording

def lines_of(files):
    return files["log"].decode().split("\n")[:-1]


def with_log(files, lines):
    return {**files, "log": "".join(f"{line}\n" for line in lines).encode()}


def placed_behind_the_wake(files):
    """Placements are told behind the access that comes next, as what is told after the wake may be."""
    text = "".join(f"{line}\n" for line in lines_of(files))
    return {**files, "log": re.sub(r"((?:p place .*\n)+)(g \d+ [rw] .*\n)", r"\2\1", text).encode()}


def halted_too_early(files):
    """The halt is told before the process stands still."""
    lines = lines_of(files)
    at = lines.index("s halted")
    lines[at - 5:at + 1] = [lines[at], *lines[at - 5:at]]
    return with_log(files, lines)


def without(what):
    def changed(files):
        lines = [line for line in lines_of(files) if not line.startswith(what)]
        if len(lines) == len(lines_of(files)):
            raise AssertionError(f"the recording has no line '{what}'")
        return with_log(files, lines)
    return changed


def without_an_answer(files):
    """An answer is not told, as if the relay wrote it down behind handing it over and was stopped between."""
    lines = files["relay.log"].decode().split("\n")
    del lines[next(at for at, line in enumerate(lines) if line.startswith("down pages"))]
    return {**files, "relay.log": "\n".join(lines).encode()}


def of_other_headers(files):
    version = {b'"4.1.1"': b'"4.2.1"', b'"4.2.1"': b'"4.1.1"'}
    old = next(it for it in version if it in files["plan.json"])
    return {**files, "plan.json": files["plan.json"].replace(old, version[old])}


TOLD_WRONG = [
    ("placements behind the wake", "live", placed_behind_the_wake, "faulty line early"),
    ("no end of the guard", "released", without("p end"), "faulty line early"),
    ("no message of what was taken", "live", without("p down"), Hole),
    ("a halt before the process stands still", "live", halted_too_early, Hole),
    ("no halt", "live", without("s halted"), Hole),
    ("no resume", "live", without("t resume"), Hole),
    ("an answer that is missing", "live", without_an_answer, Hole),
    ("headers of 4.2 read as of 4.1", "threads", of_other_headers, Strange),
    ("headers of 4.1 read as of 4.2", "live", of_other_headers, (Hole, Strange)),
]


# A fact that the conversion overlooks

class NothingDropped(Sides):
    """What arrived and was not put in place is not said to be dropped."""

    def drop_arrived(self):
        self.arrived.clear()


class NoLook(Sides):
    """What a look shows is not told."""

    def look(self, page):
        pass


class ZerosOfAll(Sides):
    """Zeros of a page that was released at the halt are nobody's."""

    def zero(self, page):
        pass


class AnswersByPage(Wire):
    """A page that is answered a second time is told as sent anew."""

    def pages(self, count, address, first, given):
        self.sent.clear()
        super().pages(count, address, first, given)


OVERLOOKED = [
    ("what CRIU drops", "releases", {"sides": NothingDropped}, "incomplete line"),
    ("that a look shows placements", "live", {"sides": NoLook}, "faulty line early"),
    ("zeros for what was released", "released", {"sides": ZerosOfAll}, "faulty line early"),
    ("that a page comes again", "short", {"wire": AnswersByPage}, "shape line second-send"),
]


def of_facts(tests):
    for what, name, change, wanted in TOLD_WRONG:
        files = change(kept.files_of(name))
        if isinstance(wanted, str):
            tests.wants(what, reason_of(session_of(files)), wanted)
        else:
            tests.refuses(what, wanted, lambda: session_of(files).text())
    for what, name, others, wanted in OVERLOOKED:
        tests.wants(f"without {what}", reason_of(session_of(kept.files_of(name), **others)), wanted)


def run(tests):
    of_kept(tests)
    of_files_that_end_early(tests)
    of_a_log_that_ends_early(tests)
    of_what_is_not_put_in(tests)
    of_what_is_left_out(tests)
    of_hang(tests)
    of_cut(tests)
    of_repeats(tests)
    of_releases(tests)
    of_facts(tests)

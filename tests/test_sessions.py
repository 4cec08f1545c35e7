"""Makes sessions of the files of recorders by `session`, and compares each with what the slow model makes of them.

The model is models/recorded_model.py. The folders are those of made_folders.py: a third of them are whole, a third lack something, and a
third are refused. Of each, the text has to be the model's byte for byte, with the same lines on standard
error; a part is written with --cut alone, and what is refused never. STRICTER has the rules of the program that the model does not have.

And files that nobody should have: lines that do not end, files that grow, thousands of files, files that cannot be read, and pipes.
With --all there are some thousand recordings more.
"""
import contextlib
import itertools
import os
import random
import re
import resource
import shutil
import subprocess
import threading
from unittest import mock

import pytest
import recorded_model
from cases import leave_out, same
from made_folders import DAMAGES, File, damaged, made_folders, recording_of_text, small_known_texts
from made_sessions import called, files_of
from recorded_faults import MOVED
from recorded_model import COMPRESSED, PREFIX, answer_of, model_of, told
from session_text import LOGS, SessionText
from text_judge import refusal_line

from postcopy.recorder import Log

# How many recordings there are, in the gate and with --all.
RECORDINGS, ALL = 480, 5000

# The memory that a run may use where it reads a file that is larger than that.
LITTLE = 40_000_000

# The sentences of the model, each of which has to be told of some recording of the gate.
PATHS = r"\S+\.\d+"
PLACE = rf"({PATHS}:\d+: )?record \d+ of the \w+'s log"
WHY = "(" + "|".join((
    rf"{PLACE}, .*, names record \d+ of the \w+'s log, which is (not there|left out too)", "records? .* missing")) + ")"
SENTENCES = {
    "two recordings": rf"{PATHS} is of the recording \S+, and {PATHS} of the recording \S+: these are two recordings, .*",
    "another name": rf"\S+/recording-name names another recording, and {PATHS} is of the recording \S+: these are two recordings, .*",
    "two ends": rf"{PATHS}:\d+: a second end of the \w+'s log from record \d+ on, beside {PATHS}:\d+: two recordings are in one folder, .*",
    "an end below a record": rf"{PATHS}:\d+: found '(end|next) \d+', where the \w+'s log has a record \d+",
    "two beginnings": rf"{PATHS}:3: found 'log .*', where {PATHS} begins with record \d+",
    "no line": rf"{PATHS}:\d+: found .*, which is no record: expected its number, its word and its fields",
    "a line behind the end": rf"{PATHS}:\d+: found .* after the log's end, '.*'",
    "no header": rf"{PATHS}:1: found .*; expected 'postcopy-records 1': no recorder of this release wrote it",
    "no name": rf"{PATHS}:2: found .*; expected 'recording NAME'",
    "no log": rf"{PATHS}:3: found .*; expected 'log \w+ FIRST OPENING'",
    "a record before the part": rf"{PLACE} is in a file of the records from \d+ on",
    "a record behind the end": rf"{PLACE} is after the end that {PATHS}:\d+ tells",
    "a number twice": rf"{PATHS}:\d+: a second record \d+ of the \w+'s log, beside {PLACE}: two recordings are in one folder, .*",
    "a number of two parts": rf"{PATHS}:\d+: a second record \d+ of the \w+'s log, beside {PLACE}: a log is gone on with from .*",
    "a folder twice": r"\S+ is named twice",
    "a compressed file": rf"{PATHS}\.\w+ is compressed, and is not read: unpack it first",
    "no files": r"\S+(, \S+)*: there is no file of a recorder, PARTY.PROCESS.N",
    "no file of the machine": "there is no file of the machine's log, .*",
    "no record of the machine's": rf"{PLACE}: found .*; expected 'pages PAGES CELLS LANE' or 'page PAGE CONTENTS'",
    "two machines": rf"{PLACE}: a second '.*', beside {PLACE}: '.*'",
    "a page twice": rf"{PLACE}: what page \d+ holds at first is told twice, beside {PLACE}",
    "no machine": rf"{PATHS}(, {PATHS})*: no record tells how many pages there are: .*",
    "no file of the lane": r"lane: there is no file of its log, of which the machine's log tells \(.*\)",
    "a lane of which nothing is told": r"lane: the machine's log tells that it has no log: where it has one, call .*",
    "a first page outside": rf"{PLACE}: there is no page \d+: the machine has \d+ pages, from 0 on",
    "a first page of other cells": rf"{PLACE}: contents of \d+ cells, where a page of the machine has \d+",
    "no word": rf"{PLACE}, .*: the \w+'s log has no record .*",
    "other fields": rf"{PLACE}, .*: '.*' has \d fields and not \d+",
    "no contents": rf"{PLACE}, .*: .* is no contents: 16 digits .*",
    "no number": rf"{PLACE}, .*: .* is no \w+: a number from 0 to \d+",
    "a page outside": rf"{PLACE}, .*: there is no page \d+: the machine has \d+ pages, from 0 on",
    "a cell outside": rf"{PLACE}, .*: there is no cell \d+: a page has \d+ cells, from 0 on",
    "other cells": rf"{PLACE}, .*: contents of \d+ cells, where a page of the machine has \d+",
    "receipts beside a log": rf"{PLACE}, .*: the (link|lane) has a log of its own, whose number '\w+' names",
    "too many cells": rf"{PLACE}: \d+ cells are too many: a page has at most 512",
    "the end of a head": rf"\w+: {PATHS} ends in its head: its process died as it began the file",
    "a late part": rf"\w+: {PATHS} begins with record \d+, where the log has \d+ in front of it: a log is gone on with from .*",
    "no end": rf"\w+: {PATHS} has no end: its process died, or did not close the log .*",
    "a lost record": rf"\w+: {PATHS}:\d+: a record was not written: .*",
    "handed over": rf"\w+: {PATHS}:\d+: handed over with \d+ records, and there is no file of who went on",
    "a missing record": r"\w+: record \d+ is missing",
    "missing records": r"\w+: records \d+ to \d+ are missing",
    "left out behind a record": r"\w+: \d+ records left out: record \d+ is missing",
    "left out behind records": r"\w+: \d+ records left out: records \d+ to \d+ are missing",
    "pages for zeros": r"machine: record.* missing: pages whose contents are not told are taken for zeros",
    "no resume": rf"guest: {PLACE} comes after the halt, and there is no resume: .*",
    "left out with another": rf"\w+: \d+ records left out: {PLACE}, .*, names record \d+ of the \w+'s log, which is left out too",
    "left out without another": rf"\w+: \d+ records left out: {PLACE}, (?!'ask-sent ).*, names record \d+ of the \w+'s log, which is not there",
    "left out with no log": rf"\w+: \d+ records left out: {PLACE}, .*, which is not there: where nobody writes the \w+'s log it is '\w+_sent' .*",
    "a lost number": rf"\w+: \d+ records left out: {PLACE}, .*, names no record of the \w+'s log: the number was lost",
    "an ask of no record": rf"source: \d+ records left out: {PLACE}, 'ask-sent \d+', names record \d+ of the pager's log, which is not there",
    "halted alone": r"source: 1 records left out: a halted that is alone tells nothing|source: \d+ records left out: a halted that is alone tells nothing",
    "no record": r"\w+: there is no record",
}


class Tests:
    """Runs the program in a folder, which is the working folder."""

    same = staticmethod(same)

    def __init__(self, program, room):
        self.program, self.room, self.seen = program, room, {}

    def note(self, what):
        self.seen[what] = self.seen.get(what, 0) + 1

    def run(self, *words, **more):
        """What the program writes, what it tells, and its status."""
        ran = subprocess.run([self.program, "session", *words], stdin=subprocess.DEVNULL, capture_output=True, **{"timeout": 120, **more})
        return ran.stdout.decode("latin-1"), ran.stderr.decode("utf-8"), ran.returncode

    def put(self, name, text):
        os.makedirs(os.path.dirname(name), exist_ok=True)
        with open(name, "w", encoding="latin-1", newline="") as file:
            file.write(text)


def wanted_of(text, said, is_cut):
    """What is written, told and answered, where the model makes this of the folders."""
    output, lines, status = answer_of(text, said, is_cut)
    return output, told(lines), status


# The rules of the program that the model does not have, in the order in which a file is looked through.
#
# The program reads a file in little memory, and takes the records of a log from its files as they come: so a line has at most so many bytes,
# also one without an end, and the numbers of a file rise from the first one of its part on, as those of a thread do. It has no number that no
# recorder writes. An empty line at a file's beginning is one.
LONGEST_LINE, LAST = 8459, 2**32 - 2
NUMBERED = re.compile(rb"(0|[1-9][0-9]{0,9}) (.+)", re.DOTALL)
TOLD = re.compile(rb"(?:end|next|lost) (0|[1-9][0-9]{0,9})")
OPENED = re.compile(rb"log [a-z]+ (0|[1-9][0-9]{0,9}) (0|[1-9][0-9]{0,9})")


def stricter_line(path):
    """The first line of a file that the program refuses by a rule of its own, or None."""
    with open(path, "rb") as file:
        written, zero, _ = file.read().partition(b"\0")
    *lines, rest = written.split(b"\n")
    low = 0
    for place, line in enumerate([*lines, rest], 1):
        if len(line) > LONGEST_LINE:
            return place
        if place > len(lines):
            return None
        opened, numbered, last = (pattern.fullmatch(line) for pattern in (OPENED, NUMBERED, TOLD))
        if place == 1 and not line or place == 3 and opened and max(map(int, opened.groups())) > LAST or place > 3 and last and int(last[1]) > LAST:
            return place
        if place == 3 and opened:
            low = int(opened[1])
        if place > 3 and last and not line.startswith(b"lost") and int(last[1]) < low:
            return place
        if place > 3 and numbered:
            if not low <= int(numbered[1]) <= LAST:
                return place
            low = int(numbered[1]) + 1
    return None


def stricter(words):
    """The first line that the program refuses by a rule of its own, as FILE:LINE, or None."""
    for path in files_in(words):
        line = stricter_line(path)
        if line is not None:
            return f"{path}:{line}"
    return None


def files_in(words):
    """The files of recorders in folders, in the order in which they are read."""
    file = re.compile(rf"(machine|{'|'.join(LOGS)})\.[0-9]+\.[0-9]+", re.ASCII)
    return [os.path.join(folder, name) for folder in words for name in sorted(os.listdir(folder)) if file.fullmatch(name)]


def other_refusals(words):
    """What the model says of folders from which some files are gone, or in which a record is a right one. Where a recording is refused for two
    reasons, the program may tell the other one: it reads each file by itself first, and the model goes on with what it has read."""
    yield from refusals_of_other_records(words)
    paths = files_in(words)
    parties = {path: os.path.basename(path).split(".")[0] for path in paths}
    kept = [[path for path in paths if path != gone] for gone in paths]
    for number in range(1, 2**len(LOGS)):
        logs = {"machine", *(log for at, log in enumerate(LOGS) if number >> at & 1)}
        kept.append([path for path in paths if parties[path] in logs])
    for log in ("machine", *LOGS):
        those = [path for path in paths if parties[path] == log]
        kept += [[path for path in paths if path in (one, other) or parties[path] == "machine" != log] for one in those for other in those]
    for those in kept:
        with mock.patch("os.listdir", lambda folder, those=those: [name for name in {*map(os.path.basename, those)} if os.path.join(folder, name) in those]):
            text, said = model_of(words)
        if text is None:
            yield told(said)


# A record that is right wherever it stands, by its log.
RIGHT = {"guest": "miss 0 0", "source": "state", "link": "down 0", "lane": "down 0", "pager": "all"}


class Forgetful(dict):
    """The records of a log of which the model does not see that a number comes twice."""

    def __contains__(self, _):
        return False


def refusals_of_other_records(words):
    """What the model says of folders in which no number comes twice, in which one record is another one, or in the machine's log is gone, and in
    which all others are."""
    def begun(log, name, begin=recorded_model._Log.__init__):
        begin(log, name)
        log.texts = Forgetful()

    with mock.patch.object(recorded_model._Log, "__init__", begun):
        text, said = model_of(words)
    if text is None:
        yield told(said)
    try:
        logs = recorded_model._read(words)
    except recorded_model.Unfit:
        return
    right = {name: dict.fromkeys(log.texts, RIGHT[name]) for name, log in logs.items() if name in RIGHT}
    for name, texts in right.items():
        for number in texts:
            with contextlib.ExitStack() as stack:
                stack.enter_context(mock.patch("recorded_model._read", lambda _: logs))
                for other, log in logs.items():
                    if other in right:
                        alone = {number: log.texts[number]} if other == name else {}
                        stack.enter_context(mock.patch.object(log, "texts", {**right[other], **alone}))
                text, said = model_of(words)
            if text is None:
                yield told(said)
    for log in logs.values():
        for number in log.texts:
            others = {other: text for other, text in log.texts.items() if other != number}
            if log.name in RIGHT:
                others[number] = RIGHT[log.name]
            with mock.patch("recorded_model._read", lambda _: logs), mock.patch.object(log, "texts", others):
                text, said = model_of(words)
            if text is None:
                yield told(said)


# A record whose text is empty: the model refuses its line, and the program refuses the record where it takes it, not behind a number that is
# missing. And contents of more cells than a page may have: the program takes no such record, and the model tells of it at last.
NO_TEXT, TEXTS = re.compile(r"\S+:\d+: found '\d+ ', which is no record: .*"), re.compile("(0|[1-9][0-9]{0,9}) (.*)", re.ASCII)
MANY_CELLS = re.compile(rf"{re.escape(PREFIX)}{PLACE}: found 'page .*'; expected 'pages PAGES CELLS LANE' or 'page PAGE CONTENTS'\n")


def has_many_cells(path):
    """Whether a file tells of a page that has more cells than pages may have."""
    with open(path, "rb") as file:
        return re.search(rb"(?m)^[0-9]+ page [0-9]+ [0-9a-f]{8193,}$", file.read()) is not None


def own_rule(words, text, said, is_cut, found):
    """By which rule an answer is right that is not the model's, if there is one."""
    output, errors, status = found
    front = told(line for line in said if line.endswith(COMPRESSED))
    errors = errors[len(front):] if is_cut and errors.startswith(front) else errors
    if text is None and NO_TEXT.fullmatch(said[-1]):
        with mock.patch("recorded_model._LINE", TEXTS):
            if found == wanted_of(*model_of(words), is_cut) or (output, status) == ("", 1) and errors in other_refusals(words):
                return "a record with no text that is not taken"
    if (output, status) != ("", 1) or errors.count("\n") != 1:
        return None
    if text is None and MANY_CELLS.fullmatch(errors) and any(has_many_cells(path) for path in files_in(words)):
        return "contents of too many cells"
    at = stricter(words)
    if at is not None and errors.startswith(f"{PREFIX}{at}: "):
        return "refused by a stricter rule"
    return "refused for another reason" if text is None and errors in other_refusals(words) else None


def compared(tests, what, words, into=None, with_sentences=True):
    """Compares the program with the model, without --cut and with it. With `into`, the text goes into a file of that name."""
    text, said = model_of(words)
    for line in said if with_sentences else ():
        kinds = [kind for kind, sentence in SENTENCES.items() if re.fullmatch(sentence, line, re.S)]
        tests.same(f"the sentences of {line!r}", len(kinds), 1)
        for kind in kinds:
            tests.note(kind)
    tests.note("refused" if text is None else "lacking" if said else "whole")
    for more in ([], ["--cut"]):
        name = f"session {' '.join([*words, *more])} of {what}"
        if into is None:
            found = tests.run(*words, *more)
        else:
            tests.put(f"./{into}", "as it was\n")
            output, *told_of = tests.run(*words, "-o", into, *more)
            tests.same(f"the output of {name} into a file", output, "")
            with open(into, encoding="latin-1") as file:
                found = (file.read().replace("as it was\n", ""), *told_of)
        wanted = wanted_of(text, said, bool(more))
        rule = None if found == wanted else own_rule(words, text, said, bool(more), found)
        if rule is not None:
            tests.note(rule)
            wanted = found
        tests.same(name, found, wanted)
    return text, said


@pytest.fixture
def tests(program, room, monkeypatch):
    monkeypatch.chdir(room)
    return Tests(program, room)


# Random recordings.


@pytest.mark.cases(3 * RECORDINGS)
def test_sessions(tests, pytestconfig):
    count, ways = ALL if pytestconfig.getoption("--all") else RECORDINGS, set()
    for number, made in enumerate(made_folders(40, count)):
        compared(tests, f"recording {number}, {', '.join(made.did) or 'as it was'}", made.put("."), "out" if number % 3 == 0 else None)
        ways |= {*made.did}
    assert not {*DAMAGES} - ways, "no recording is damaged so"
    assert not {*SENTENCES} - {*tests.seen}, "no recording has it told"
    assert tests.seen["refused by a stricter rule"] and tests.seen["refused for another reason"], "no recording is refused so"
    assert min(tests.seen[kind] for kind in ("whole", "lacking", "refused")) > count // 5, "there are too few of a kind"


@pytest.mark.cases(500)
def test_form(tests):
    """The files of made_folders.py are those that a recorder writes; and sessions of a recorder's files, with logs that are handed over, or that
    an exception ended."""
    rng = random.Random(5)
    for number, text in enumerate(small_known_texts()[:40]):
        folder, session = f"form-{number}", SessionText(text)
        pages, cells = (line.split(" ")[1] for line in session.head[1:3])
        texts = {"machine": [f"pages {pages} {cells} {int('lane' in session.told())}", *session.head[4:]], **session.logs}
        calls = {party: [] for party in ("machine", *session.told())}
        for party, call, fields in called(session):
            calls[party].append((call, [[int(it[at:at + 16], 16) for at in range(0, len(it), 16)] if len(it) % 16 == 0 else int(it) for it in fields]))
        for party, those in calls.items():
            cuts = [0, *([rng.randrange(len(those) + 1)] if rng.random() < 0.5 else []), len(those)]
            for part, (first, end) in enumerate(zip(cuts, cuts[1:])):
                log = Log(folder, party, first)
                for call, fields in those[first:end]:
                    getattr(log, call)(*fields)
                last = "end" if end == len(those) and part == len(cuts) - 2 else "next"
                (log.close if last == "end" else log.hand_over)()
                made = File(party, 0, str(os.getpid()), part, part, first, log.recording, list(enumerate(texts[party]))[first:end], last=f"{last} {end}")
                with open(f"{folder}/{made.file()}", "rb") as file:
                    same(f"the file of the {party} of session {number}", file.read(), made.data())
        compared(tests, f"recorded session {number}", [folder])
        with contextlib.suppress(KeyboardInterrupt), Log(folder, "guest", len(calls["guest"])) as log:
            log.halt()
            raise KeyboardInterrupt
        compared(tests, f"recorded session {number}, with a process that died", [folder])


# Files that nobody should have.

def base(folder, **changed):
    """A folder with a right recording, but for these logs: records, or the bytes behind the head."""
    os.makedirs(folder)
    for log, records in {**MOVED, **changed}.items():
        body = records if isinstance(records, bytes) else "".join(f"{it} {record}\n" for it, record in enumerate(records)).encode() + f"end {len(records)}\n".encode()
        with open(f"{folder}/{log}.1.0", "wb") as file:
            file.write(f"postcopy-records 1\nrecording made\nlog {log} 0 0\n".encode() + body)
    return folder


def body(log, more=b"", last=True):
    """The records of a log, as they stand in a file."""
    return "".join(f"{it} {record}\n" for it, record in enumerate(MOVED[log])).encode() + more + (f"end {len(MOVED[log])}\n".encode() if last else b"")


def little():
    resource.setrlimit(resource.RLIMIT_AS, (LITTLE, LITTLE))


def long_lines(tests):
    """Lines of 200 MB, with an end and without, and as many bytes 0 behind the last line: in little memory, and at once."""
    limit = {"preexec_fn": little}
    if subprocess.run([tests.program, "--version"], capture_output=True, **limit).returncode:
        limit = {}
        leave_out("the limit on memory, within which the program does not begin")
    base("right")
    text = tests.run("right")[0]
    base("zeros", guest=body("guest"))
    os.truncate("zeros/guest.1.0", 200_000_000_000)
    tests.same("200 GB of bytes 0 behind the end", tests.run("zeros", **limit), (text, "", 0))
    base("open", guest=body("guest", last=False))
    os.truncate("open/guest.1.0", 200_000_000_000)
    said = "guest: open/guest.1.0 has no end: its process died, or did not close the log (postcopy_log_close, or Log.close)"
    tests.same("200 GB of bytes 0 with no end before them", tests.run("open", "--cut", **limit), (text, told([said]), 0))
    for what, head, tail in (("a line of 200 MB with no end", b"5 r 0 0 0 ", b""), ("a line of 200 MB", b"5 r 0 0 0 ", b"\n"), ("a name of 200 MB", None, b"\n")):
        folder = what.replace(" ", "-")
        base(folder, guest=body("guest", last=False))
        with open(f"{folder}/guest.1.0", "ab" if head else "wb") as file:
            file.write(head or b"postcopy-records 1\nrecording ")
            for _ in range(200):
                file.write(b"7" * 1_000_000)
            file.write(tail)
        output, errors, status = tests.run(folder, **limit)
        tests.same(what, (output, errors.startswith(f"{PREFIX}{folder}/guest.1.0:{9 if head else 2}: "), errors.count("\n"), status), ("", True, 1, 1))
        os.remove(f"{folder}/guest.1.0")


def great_numbers(tests):
    """Numbers at the limits of those that there are, in each place, and beyond."""
    for cells in (512, 513, 999, 1000):
        compared(tests, f"{cells} cells", [base(f"great-page-{cells}", machine=[f"pages 2 {cells}"])])
    for number in (2**32 - 2, 2**32 - 1, 2**32, 2**63, 2**64 - 1, 2**64, 2**64 + 5, 10**19, 10**30):
        for what, changed in (
            ("a record's number", {"guest": body("guest", f"{number} r 0 0 0 5\n".encode(), last=False)}),
            ("an end", {"guest": body("guest", f"end {number}\n".encode(), last=False)}),
            ("a record that is named", {"guest": [*MOVED["guest"], f"see {number}"]}),
            ("a page", {"guest": [*MOVED["guest"], f"z 0 {number}"]}),
            ("a value", {"guest": [*MOVED["guest"], f"w 0 0 0 {number}"]}),
            ("the pages", {"machine": [f"pages {number} 1"]}),
            ("the cells", {"machine": [f"pages 2 {number}"]}),
            ("a first page", {"machine": ["pages 2 1", f"page {number} 0000000000000007"]}),
        ):
            folder = base(f"great-{what.replace(' ', '-').replace(chr(39), '')}-{number}", **changed)
            compared(tests, f"{what}, {number}", [folder])
        folder = base(f"great-first-{number}")
        tests.put(f"{folder}/guest.2.0", f"postcopy-records 1\nrecording made\nlog guest {number} 0\n")
        compared(tests, f"a part from {number} on", [folder])
        tests.put(f"{folder}/guest.2.0", f"postcopy-records 1\nrecording made\nlog guest 5 {number}\nend 5\n")
        compared(tests, f"an opening {number}", [folder])
        os.rename(f"{folder}/guest.2.0", f"{folder}/guest.{number}.{number}")
        compared(tests, f"a file of the process {number}", [folder])


def edges(tests):
    """Records that are just right, and just wrong."""
    page = "0000000000000005"
    for log, texts in (
        ("guest", ("w 63 0 0 5", "w 64 0 0 5", "w 00 0 0 5", "w 0 1 0 5", "w 0 2 0 5", "w 0 01 0 5", "w 0 0 1 5", "w 0 0 00 5", "w 0 0 512 5", f"w 0 0 0 {2**64 - 1}", f"w 0 0 0 {2**64}", "w 0 0 0 05",
                   "w 0 0 0 +5", "w 0 0 0", "w 0 0 0 5 ", "w  0 0 0 5", "w 0 0 0 5 5", "W 0 0 0 5", "z 0 1", "z 0 2", "see 3", "see 03", "see 4", f"see {2**32 - 1}", f"see {2**32}", "halted 1", "back", "halt ",
                   *("x" * length for length in (59, 60, 61)), *("r " + "y" * length for length in (57, 58, 59, 60)), "'", "\"", "'\"", "\\", "\t", "\xe9", "\x7f")),
        ("source", (f"send 0 {page}", f"send 0 {page.upper()}", f"send 0 {page[:-1]}A", f"send 0 {page[:-1]}a", f"send 0 {page}{page}", f"send 0 {page[1:]}", "send 0 ", "send 0", f"send 2 {page}", "again 2",
                    "again 3", "again 4", "back", "back 0", "ask 0", "ask-sent 0", "done")),
        ("link", ("down 2", "down 3", "up 3", "up 4", "up 03", "got 0")),
        ("pager", ("got 1", "got 2", "got-sent 1", "pull 0", "pull-sent 1", "join 4", "join 5", "skip 2", f"place 1 2 {page}", f"place 1 9 {page}", f"place 1 9 {page * 3}", "want 1", "want 2", "fault 0", "fault 9")),
        ("machine", ("pages 2 1", f"page 0 {page}", f"page 1 {page}", f"page 2 {page}", f"page 00 {page}", f"page 0 {page[:-1]}A", f"page 0 {page}{page}", "page 0 0000000000000000", "page 0", "pages 3 1")),
    ):
        for number, text in enumerate(texts):
            compared(tests, f"a last record {text!r} of the {log}", [base(f"edge-{log}-{number}", **{log: [*MOVED[log], text]})], with_sentences=False)
        count = len(MOVED[log])
        compared(tests, f"a record of the {log} with no text", [base(f"empty-{log}", **{log: [*MOVED[log], ""]})])
        compared(tests, f"such a record behind a hole of the {log}", [base(f"behind-{log}", **{log: body(log, f"{count + 1} \nend {count + 2}\n".encode(), last=False)})])


def parts(tests):
    """Processes that went on with a log: each combination of some, of which one may have written no record, and of how they left it."""
    lasts = (None, "end", "next", "lost")
    some = [(first, end, last) for first, end in ((0, 2), (2, 5), (2, 4), (1, 1), (2, 2), (5, 5), (0, 0), (6, 6)) for last in lasts]
    rng = random.Random(3)
    for number in range(160):
        folder = base(f"parts-{number}")
        os.remove(f"{folder}/guest.1.0")
        chosen = [(0, 2, rng.choice(lasts)), (2, 5, rng.choice(lasts)), *rng.sample(some, rng.choice((1, 1, 2)))] if number % 4 else rng.sample(some, 3)
        rng.shuffle(chosen)
        taken = set()
        for process, (first, end, last) in enumerate(chosen):
            records = [it for it in range(first, end) if it not in taken]
            taken |= {*records}
            left = "" if last is None else "lost 28\n" if last == "lost" else f"{last} {end}\n"
            tests.put(f"{folder}/guest.{process}.0", f"postcopy-records 1\nrecording made\nlog guest {first} 0\n" + "".join(f"{it} {MOVED['guest'][it]}\n" for it in records) + left)
        compared(tests, f"the parts {chosen}", [folder])


def twice(tests):
    """A number that two files of a log have, where one of them may be of a part of its own, and another number may be missing; and a log that a process of
    the same number goes on with in another folder."""
    for log, records in MOVED.items():
        last = len(records) - 1
        front = "".join(f"{it} {record}\n" for it, record in enumerate(records[:last]))
        for name, first, missing in itertools.product(("one/{}.1.1", "one/{}.2.0", "two/{}.1.0"), (0, last), (0, 1)):
            room, name = f"twice-{log}-{first}-{missing}-{name[:3]}-{name[-3:]}", name.format(log)
            folders = [base(f"{room}/one", **{log: f"{front}{last} {records[last]}\nend {last + 1 + missing}\n".encode()})]
            tests.put(f"{room}/{name}", f"postcopy-records 1\nrecording made\nlog {log} {first} 0\n{last} {records[last]}\n")
            compared(tests, f"the last record of the {log} in {name} too", [*folders, *([f"{room}/two"] if name.startswith("two") else [])])
        folder = base(f"goes-on-{log}/one", **{log: f"{front}next {last}\n".encode()})
        tests.put(f"goes-on-{log}/two/{log}.1.0", f"postcopy-records 1\nrecording made\nlog {log} {last} 0\n{last} {records[last]}\nend {last + 1}\n")
        text, said = compared(tests, f"a process that goes on with the log of the {log} in another folder", [folder, f"goes-on-{log}/two"])
        tests.same(f"the session of a log of the {log} in two folders", (text is None, said), (False, []))


def heirs(tests):
    """A hand-over that nobody took, beside parts of no records with the same number: each hand-over has to have a later part."""
    text = tests.run(base("heirs-none"))[0]
    empty = "postcopy-records 1\nrecording made\nlog guest 5 0\n"
    missing = "handed over with 5 records, and there is no file of who went on"
    for what, first, lefts, said in (
        ("taken-on", "next 5", ("next 5", "end 5"), []),
        ("taken-on-in-another-order", "next 5", ("end 5", "next 5"), []),
        ("by-each-other", "end 5", ("next 5", "next 5"), ["guest: heirs-by-each-other/guest.3.0:4: " + missing]),
        ("by-nobody", "next 5", ("next 5", "next 5"), ["guest: heirs-by-nobody/guest.3.0:4: " + missing]),
    ):
        folder = base(f"heirs-{what}", guest=body("guest", f"{first}\n".encode(), last=False))
        for process, left in enumerate(lefts, 2):
            tests.put(f"{folder}/guest.{process}.0", f"{empty}{left}\n")
        tests.same(f"empty parts, {what}", tests.run(folder), (text, "", 0) if not said else ("", told([*said, recorded_model.NOTHING]), 1))


def asks(tests):
    """An ask whose record of the pager is in no file: it is told as it stands in its file."""
    for number, words in ((5, "'ask-sent 5', names record 5 of the pager's log, which is not there"), (2**32 - 1, "'ask 4294967295', names no record of the link's log: the number was lost")):
        folder = base(f"asks-{number}", source=["halted 1", "state", f"ask-sent {number}"])
        for log in ("link", "pager"):
            os.remove(f"{folder}/{log}.1.0")
        line = f"session: source: 1 records left out: asks-{number}/source.1.0:6: record 2 of the source's log, {words}"
        tests.same(f"an ask of the record {number}", line in tests.run(folder)[1].splitlines(), True)


def growing(tests):
    """A file that grows while it is read: what is written is a session, with some of the records; or it is said that the file has changed."""
    base("growing", guest=body("guest", last=False))
    is_over = threading.Event()

    def append():
        number = len(MOVED["guest"])
        with open("growing/guest.1.0", "ab", buffering=0) as file:
            while not is_over.wait(0.0005):
                file.write("".join(f"{it} r 0 0 0 5\n" for it in range(number, number + 300)).encode())
                number += 300

    writer = threading.Thread(target=append)
    writer.start()
    try:
        for _ in range(12):
            output, errors, status = tests.run("growing", "--cut")
            if status == 0:
                reads = output.count("\nr 0 0 0 5")
                tests.same("a session of a file that grows", (refusal_line("session", output.encode()), f"\nguest {4 + reads}\n" in output), (None, True))
            else:
                tests.same("what is told of a file that grows", (output, status, "changed" in errors or "same each time" in errors), ("", 3, True))
    finally:
        is_over.set()
        writer.join()


def many_files(tests):
    """A folder with some thousand files: of one log, and of all."""
    rng = random.Random(4)
    text = next(text for text in small_known_texts() if text.count("\n") > 60)
    files_of(SessionText(text), "many", 400, rng)
    tests.same("how many files there are", len(os.listdir("many")) >= 2000, True)
    compared(tests, "2,000 files", ["many"], "out")
    base("of-one", guest=[])
    for number in range(1, 2001):
        tests.put(f"of-one/guest.1.{number}", f"postcopy-records 1\nrecording made\nlog guest 0 0\n{f'{number - 1} r 0 0 0 0' if number > 1 else '0 w 0 0 0 5'}\n")
    tests.put("of-one/guest.1.0", "postcopy-records 1\nrecording made\nlog guest 0 0\nend 2000\n")
    compared(tests, "2,000 files of a log", ["of-one"])
    limit = lambda: resource.setrlimit(resource.RLIMIT_NOFILE, (256, 256))
    output, errors, status = tests.run("of-one", "--cut", preexec_fn=limit)
    is_told = re.fullmatch(r"file (of-one/guest\.1\.[0-9]+)\n\1: too many open files\n", errors) is not None
    tests.same("2,000 files of a log, of which 256 may be open", (output, is_told, status), ("", True, 3))


def unread(tests):
    """Files and folders that cannot be read, and what is no file."""
    no_such, folder = "no such file or directory", "it is a directory"
    base("rec")
    for words, name, why in ((["none"], "none", no_such), (["rec", "none"], "none", no_such), ([""], "", no_such), (["rec", ""], "", no_such),
                             (["rec/guest.1.0"], "rec/guest.1.0", "it is not a directory")):
        for more in ([], ["--cut"]):
            tests.same(f"session {words} {more}", tests.run(*words, *more), ("", f"file {name}\n{name}: {why}\n", 3))
    os.mkdir("rec/guest.2.0")
    tests.same("a folder as a file", tests.run("rec"), ("", f"file rec/guest.2.0\nrec/guest.2.0: {folder}\n", 3))
    os.rmdir("rec/guest.2.0")
    os.symlink("none", "rec/guest.2.0")
    tests.same("a link to nothing", tests.run("rec"), ("", f"file rec/guest.2.0\nrec/guest.2.0: {no_such}\n", 3))
    os.remove("rec/guest.2.0")
    os.rename("rec/guest.1.0", "elsewhere")
    os.symlink("../elsewhere", "rec/guest.1.0")
    compared(tests, "a link to a file", ["rec"])
    os.symlink("rec", "linked")
    compared(tests, "a link to a folder", ["linked"])
    compared(tests, "a folder and a link to it", ["rec", "linked"])
    os.remove("rec/guest.1.0")
    os.mkfifo("rec/guest.1.0")
    for more in ([], ["--cut"]):
        try:
            output, errors, status = tests.run("rec", *more, timeout=20)
            why = "it is read several times and has to be the same each time, as a pipe is not"
            tests.same("a pipe as a file", (output, errors, status), ("", f"file rec/guest.1.0\nrec/guest.1.0: {why}\n", 3))
        except subprocess.TimeoutExpired:
            tests.same("a pipe as a file", "waits", "is told")
    os.remove("rec/guest.1.0")
    os.rename("elsewhere", "rec/guest.1.0")
    forbidden(tests)


def forbidden(tests):
    """A file, and a folder, without permission. (One who may read all runs the program as another.)"""
    program, other = tests.program, {}
    if os.getuid() == 0:
        other = {"user": 65534, "group": 65534, "extra_groups": []}
        shutil.copy(program, "program")
        os.chmod("program", 0o755)
        os.chmod(".", 0o755)
        tests.program = os.path.realpath("program")
    os.chmod("rec", 0o755)
    os.chmod("rec/pager.1.0", 0)
    for more in ([], ["--cut"]):
        tests.same(f"a file without permission {more}", tests.run("rec", *more, **other), ("", "file rec/pager.1.0\nrec/pager.1.0: permission denied\n", 3))
    os.chmod("rec/pager.1.0", 0o644)
    os.chmod("rec", 0o311)
    tests.same("a folder without permission", tests.run("rec", **other), ("", "file rec\nrec: permission denied\n", 3))
    os.chmod("rec", 0o755)
    tests.program = program


def outputs(tests):
    """-o: the file is whole, or as it was; and words that are none."""
    base("rec")
    base("lacking", guest=body("guest", last=False))
    text = tests.run("rec")[0]
    for words in (["rec", "-o", "out"], ["-o", "out", "rec"], ["--output", "out", "rec"], ["rec", "-o", "out", "--cut"], ["--cut", "-o", "out", "lacking"]):
        tests.put("./out", "as it was\n")
        output, errors, status = tests.run(*words)
        with open("out", encoding="ascii") as file:
            tests.same(f"session {words}", (output, errors != "", status, file.read()), ("", "lacking" in words, 0, text))
    for name, told_of, status in (("none/out", "output\nnone/out: no such file or directory\n", 3), ("rec", "output\nrec: it is a directory\n", 3), ("/dev/null", "", 0),
                                  ("/dev/full", "output\n/dev/full: no space left on the device\n", 3)):
        tests.same(f"session -o {name}", tests.run("rec", "-o", name), ("", told_of, status))
    ran = subprocess.run([tests.program, "session", "rec"], stdin=subprocess.DEVNULL, stdout=open("/dev/full", "wb"), stderr=subprocess.PIPE, text=True)
    tests.same("a full output", (ran.returncode, ran.stderr), (3, "output\nstandard output: no space left on the device\n"))
    end, pipe = os.pipe()
    os.close(end)
    ran = subprocess.run([tests.program, "session", "rec"], stdin=subprocess.DEVNULL, stdout=pipe, stderr=subprocess.PIPE, text=True)
    tests.same("an output that nobody reads", (ran.returncode, ran.stderr), (0, ""))
    ran = subprocess.run([tests.program, "session", "--cut", "lacking"], stdin=subprocess.DEVNULL, stdout=subprocess.PIPE, stderr=pipe, text=True)
    tests.same("errors that nobody reads", (ran.returncode, ran.stdout), (0, text))
    os.close(pipe)
    for words in (["--", "rec"], ["rec", "--"], ["--cut", "--", "rec"]):
        tests.same(f"session {words}", tests.run(*words), (text, "", 0))
    for words in ([], ["--cut"], ["-o", "out"], ["--cut", "--cut", "rec"], ["rec", "--cuts"], ["rec", "--window", "0-1"], ["rec", "--recording"],
                  ["rec", "-o"], ["rec", "--lines", "out"], ["rec", "--format", "json"], ["rec", "--cut", "--complete"]):
        output, errors, status = tests.run(*words)
        tests.same(f"session {words}", (output, errors != "", status), ("", True, 2))
    tests.same("what is left of files", [name for name in os.listdir(".") if name.endswith(".part")], [])


def larger_text(pages, cells):
    """A session of so many pages, each pushed, placed, looked at and read."""
    def contents(page):
        return f"{page + 1:016x}" + "0" * 16 * (cells - 1)

    logs = {"guest": ["halt", "resume 1"], "source": ["halted 0", "state"], "link": ["down 1"], "lane": [], "pager": ["got 0", "ready"]}
    for page in range(pages):
        logs["guest"] += [f"see {3 + 2 * page}", f"r 0 {page} 0 {page + 1}"]
        logs["source"].append(f"send {page} {contents(page)}")
        logs["link"].append(f"down {2 + page}")
        logs["pager"] += [f"got {1 + page}", f"place {page} {2 + 2 * page} {contents(page)}"]
    lines = ["postcopy-session 2", f"pages {pages}", f"cells {cells}", f"init {pages}", *(f"page {page} {contents(page)}" for page in range(pages))]
    return "".join(f"{line}\n" for line in lines + [line for log, records in logs.items() for line in (f"{log} {len(records)}", *records)] + ["end"])


def larger(tests):
    """Files of several pieces: of many lines, and of lines of many cells. Some are damaged."""
    rng, texts = random.Random(8), (larger_text(9000, 1), larger_text(70, 512))
    for number in range(12):
        made = recording_of_text(rng, texts[number % 2])
        ways = [rng.choice(sorted(DAMAGES)), "lost_record"] if number % 4 > 1 else []
        compared(tests, f"a larger recording {number}, {ways}", damaged(made, ways).put("."), "out")


def large(tests):
    """A recording that is larger than the memory that may be used for it, of three threads."""
    limit, count = {"preexec_fn": little}, 2_000_005
    base("small")
    wanted = model_of(["small"])[0]
    for few, many in (("session 1\n", "session 3\n"), ("\npager", "\nlane 0\npager"), ("\nguest 5\n", f"\nguest {count}\n"), ("\nr 0 0 0 5\n", "\nr 0 0 0 5" * (count - 4) + "\n")):
        wanted = wanted.replace(few, many)
    base("large", guest=body("guest", last=False))
    for number in (1, 2):
        tests.put(f"large/guest.1.{number}", "postcopy-records 1\nrecording made\nlog guest 0 0\n")
    files = [open(f"large/guest.1.{number}", "a", encoding="ascii") for number in range(3)]
    for start in range(5, count, 1000):
        files[start // 1000 % 3].writelines(f"{number} r 0 0 0 5\n" for number in range(start, start + 1000))
    files[1].write(f"end {count}\n")
    for file in files:
        file.close()
    found = tests.run("large", **limit)
    tests.same("a large recording", (found[0] == wanted, *found[1:]), (True, "", 0))


def names(tests):
    """Folders of odd names."""
    for number, name in enumerate(("a b", "it's", "\u00e9", "x\ny", "\x1b[0m", "\x7f", "\u0085", "a\u200bb", "%s", "*", "." * 200, "rec-0.0")):
        base(name, guest=body("guest", last=False))
        base(f"{name}/nested")
        compared(tests, f"a folder of the name {name!r}", [name], with_sentences=False)
        compared(tests, f"a nested folder of the name {name!r}", [f"{name}/nested", f"./{name}"], with_sentences=False)
    os.rename("%s", b"\xff")
    ran = subprocess.run([tests.program, "session", b"\xff"], stdin=subprocess.DEVNULL, capture_output=True)
    tests.same("a name that is not UTF-8", (ran.stdout, ran.returncode), (b"", 2))


@pytest.mark.parametrize("part", (
    pytest.param(long_lines, marks=pytest.mark.cases(5)), pytest.param(edges, marks=pytest.mark.cases(200)), pytest.param(great_numbers, marks=pytest.mark.cases(150)), pytest.param(parts, marks=pytest.mark.cases(480)), pytest.param(twice, marks=pytest.mark.cases(180)), pytest.param(heirs, marks=pytest.mark.cases(4)), pytest.param(asks, marks=pytest.mark.cases(2)), pytest.param(growing, marks=pytest.mark.cases(1)),
    pytest.param(many_files, marks=pytest.mark.cases(8)), pytest.param(unread, marks=pytest.mark.cases(20)), pytest.param(outputs, marks=pytest.mark.cases(20)),
    pytest.param(larger, marks=pytest.mark.cases(50)), pytest.param(large, marks=pytest.mark.cases(1)),
    pytest.param(names, marks=pytest.mark.cases(49))), ids=lambda it: it.__name__)
def test_alone(tests, part):
    part(tests)

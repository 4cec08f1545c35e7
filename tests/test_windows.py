"""Cuts windows out of recordings, and compares each with that of a slow model, and has windows explained by the recording's lines.

The model is window_model.py, which refuses nothing: the line at which a session is refused comes of text_judge.py. Cut are the
sessions of made_recordings.py, each through several windows; texts with a change in some line, cut short, or with numbers at
their limits; and sessions with many pages, and many records in a log. Where a session has the right shape
and an order, the window of all its pages has to be judged as it is. Where no record names what is not there,
bindings/python/postcopy/sessions.py has to cut the same, and so has `window` of a folder with the files that recorders write, and
recorders/session of these, also where it cuts many windows out of larger ones. A recording of more than a hundred megabytes, of a machine
that is larger than any session's, is cut out of its files in memory of a small part of it.

What `explain --lines` says has to be what `explain` says, with each number after the word `line` or `Line` told by the table.
"""
import os
import random
import re
import resource
import subprocess

import pytest
from cases import leave_out, same
from expected_words import place_of, texts_beyond, texts_of
from made_recordings import GREATEST, known_texts, machine, pages_of, random_text, recorded_texts, refused_texts, some_windows
from made_sessions import TOP, files_of, run_script, text_of
from session_text import LOGS, SessionText
from test_sessions import larger_text
from text_judge import lines_refusal, refusal_line
from window_model import lines_text, window

from postcopy.records import read_record
from postcopy.sessions import Session

# How many sessions are recorded of random schedules, and how many are of random records; of how many windows explanations are asked.
RECORDED, RANDOM, EXPLAINED = 75, 200, 20

# What is told of a folder from which the file with the recording's name is gone.
GONE = ("{0}: note: the file recording-name is gone, which each recorder writes; that the files are of one recording is known by their "
        "second lines\n")

# The recording that is larger than the memory that may be used for it: so many bytes of each, about.
LARGE, LITTLE = 160_000_000, 40_000_000

# What is told of a refused recording, and of a line to which only a line feed is lacking.
REFUSED = re.compile(r"recording:\d+:\d+: (this is |found |the text )[ -~]+\n")
LINE_FEED = "expected a line feed after "
NOTHING = '-:1:1: the text is empty; expected "postcopy-session 1", "postcopy-session 2" or "postcopy-session 3", the header of a session\n'
CUT = 'cut:4:6: the text ends in the middle of a line, after "init "; expected N, a number from 0 to 4, as in "init N"\n'

# The line of a text with the number of cells.
CELLS_LINE = 3

# The most pages of a session of the first version.
MOST_PAGES = 65_536

# What is told of pages that the machine does not have.
OUTSIDE = "recording: the window has no page, or one that the machine of this recording does not have\n"


class Tests:
    """Runs the program in a folder."""

    same = staticmethod(same)

    def __init__(self, program, room):
        self.program, self.room, self.kinds = program, room, {}

    def note(self, kind):
        self.kinds[kind] = self.kinds.get(kind, 0) + 1

    def run(self, *words, given="", **more):
        """What the program writes, what it tells on standard error, and its status."""
        ran = subprocess.run([self.program, *map(str, words)], cwd=self.room, input=given.encode("latin-1"), capture_output=True, **more)
        return ran.stdout.decode("latin-1"), ran.stderr.decode("latin-1"), ran.returncode

    def put(self, name, text):
        with open(f"{self.room}/{name}", "w", encoding="latin-1", newline="") as file:
            file.write(text)

    def has(self, name):
        """What a file has, or None where it is not there."""
        try:
            with open(f"{self.room}/{name}", encoding="latin-1", newline="") as file:
                return file.read()
        except FileNotFoundError:
            return None

    def cut(self, what, text, first, count):
        """Compares a window of the text that stands in the file `recording`. Answers the window and its lines, where there is one."""
        told, lines = wanted_of(text, first, count)
        return (told, lines) if self.is_cut(what, first, count, told, lines) and lines is not None else None

    def why(self, what, told, errors):
        """What is told of a refused recording: its line, and as expected what is not refused there; and of a window that is none, why."""
        if not told.startswith("session-text line "):
            self.same(f"the errors of {what}", errors, OUTSIDE if told == "no-such-pages\n" else "")
            return
        self.same(f"the words of {what}", REFUSED.fullmatch(errors) is not None, True)
        line = int(told.split(" ")[2])
        self.same(f"the line of the words of {what}", place_of(errors)[0], line)
        for changed in texts_of(errors.rstrip("\n"), self.has("recording")):
            self.put("changed", changed)
            again, more, _ = self.run("window", "changed", 0, 1)
            # (how many cells a page may have also depends on the number of pages, which is not told)
            is_there = again == told and place_of(more)[1] <= place_of(errors)[1] and LINE_FEED not in more and line != CELLS_LINE
            self.same(f"what {errors!r} of {what} expects", is_there, False)
        for changed in texts_beyond(errors.rstrip("\n"), self.has("recording")):
            self.same(f"whether {changed.splitlines()[line - 1]!r} in the place of {errors!r} of {what} is refused", refusal_line("session", changed.encode("latin-1")), line)

    def is_cut(self, what, first, count, told, lines):
        """Whether what is told of a window of the file `recording` is this, with these lines; with none where there is no window."""
        if self.has("lines") is not None:
            os.remove(f"{self.room}/lines")
        self.note(told.split(" ")[0].strip() if lines is None else "cut")
        table = None if lines is None else lines_text(lines)
        output, errors, status = self.run("window", "recording", first, count, "--lines", "lines")
        is_told = self.same(f"the window {first} {count} of {what}", (output, status), (told, int(lines is None)))
        self.why(f"the window {first} {count} of {what}", told, errors)
        return self.same(f"the lines of the window {first} {count} of {what}", self.has("lines"), table) and is_told


def wanted_of(text, first, count):
    """The model's answer: the window and its lines, or the line that is written where there is none."""
    line = refusal_line("session", text.encode("latin-1"))
    if line is not None:
        return f"session-text line {line}\n", None
    if count == 0 or first + count > pages_of(text):
        return "no-such-pages\n", None
    return window(text, first, count)


def windows_of_all(tests, rng):
    """Each recording through several windows. Answers those of which there is a window of all pages, with this and its lines."""
    whole = []
    for texts, most in ((known_texts(), 6), (list(recorded_texts(rng, RECORDED)), 4), ([(f"random {it}", random_text(rng)) for it in range(RANDOM)], 3)):
        for what, text in texts:
            tests.put("recording", text)
            line = refusal_line("session", text.encode("latin-1"))
            for first, count in some_windows(rng, pages_of(text), most) if line is None else [(0, 1)]:
                found = tests.cut(what, text, first, count)
                if found and count == pages_of(text):
                    whole.append((what, text, *found))
    return whole


# Judging windows, and the other ways to cut them.


def told_by(table, text, pattern=r"(?<=[Ll]ine )(0|[1-9][0-9]*)(?![0-9])"):
    """A text in which each number after the word `line` is that of a table; one that the table has not stays."""
    def told(number):
        line = int(number[0])
        return str(table[line - 1]) if 0 < line <= len(table) else number[0]

    return re.sub(pattern, told, text)


def told_in_json(table, text):
    return told_by(table, text, r'(?<="line":)(0|[1-9][0-9]*)(?![0-9])')


def judged_alike(tests, whole):
    """Of a session of the right shape with an order, the window of all pages has the same faults. Answers those that are judged."""
    judged = []
    for what, text, cut, lines in whole:
        tests.put("session", text)
        said = tests.run("audit", "--all", "session")[0]
        if said.split()[0] in ("clean", "faulty"):
            tests.put("seen", cut)
            tests.same(f"the faults of {what}, all pages of it", told_by(lines, tests.run("audit", "--all", "seen")[0]), said)
            tests.note("judged alike")
            judged.append((what, text))
        elif said.startswith("knot"):
            tests.put("seen", cut)
            tests.same(f"the knot of {what}", told_by(lines, tests.run("audit", "--quiet", "seen")[0]), said)
            tests.note("knots")
    return judged


def session_of_text(text):
    """A session in the making, of a session's text."""
    lines = SessionText(text)
    logs = {log: [read_record(log, record) for record in lines.logs[log]] for log in LOGS}
    initial = {int(page): contents for _, page, contents in (line.split(" ") for line in lines.head[4:])}
    pages, cells = (int(line.split(" ")[1]) for line in lines.head[1:3])
    return Session(pages, cells, initial, logs, len(lines.told()) == 5, lines.head[0] == "postcopy-session 3")


def cut_by_python(tests, rng, judged):
    """bindings/python/postcopy cuts the same, window by window, where no record names what is not there."""
    for what, text in judged:
        session, pages = session_of_text(text), pages_of(text)
        size = rng.randint(1, pages)
        for first, seen in zip(range(0, pages, size), session.windows(size)):
            tests.same(f"the window {first} by {size} of {what}, cut in Python", seen.text(), window(text, first, min(size, pages - first))[0])


def script(tests, *words):
    return run_script(tests.program, *words, cwd=tests.room)


def cut_out_of_a_folder(tests, what, text, folder):
    """The windows of the files of a session, where these lack nothing, are those of what `session` writes of them, with the same lines."""
    files_of(SessionText(text), f"{tests.room}/{folder}", 2, random.Random(5))
    session, errors, status = tests.run("session", folder)
    pages = pages_of(text)
    for first, count in ((0, pages), (pages - 1, 1), (0, pages + 1)):
        told = tests.run("window", folder, first, count, "--lines", f"lines-{folder}")
        if status:
            wanted = ("", f"{errors}file {folder}\n{folder}: its files make no session\n", 3)
            tests.same(f"the window {first} {count} of the files of {what}, which lack something", told, wanted)
            tests.note("lacking")
        elif first + count > pages:
            wanted = ("no-such-pages\n", GONE.format(folder) + OUTSIDE.replace("recording:", f"{folder}:"), 1)
            tests.same(f"the window {first} {count} of the files of {what}", told, wanted)
        else:
            cut, lines = window(session, first, count)
            tests.same(f"the window {first} {count} of the files of {what}", told, (cut, GONE.format(folder), 0))
            tests.same(f"the lines of the window {first} {count} of the files of {what}", tests.has(f"lines-{folder}"), lines_text(lines))
            tests.note("cut out of files")


def cut_by_the_recorders(tests, judged):
    """recorders/session writes the whole recording, out of which the windows that it cuts itself are cut."""
    for number, (what, text) in enumerate(judged[::12]):
        cut_out_of_a_folder(tests, what, text, f"of-{number}")
        if "\nlane 0\n" in text:
            continue
        folder, size = f"by-{number}", max(1, pages_of(text) // 2)
        files_of(SessionText(text), f"{tests.room}/{folder}", 2, random.Random(3))
        ran = script(tests, folder, "--recording", "--cut", "-o", f"recording-{number}")
        tests.same(f"the recording of the files of {what}", (ran.stdout, ran.returncode, tests.has(f"recording-{number}")), ("", 0, text))
        ran = script(tests, folder, "--windows", str(size), "--cut", "-o", f"{folder}/windows")
        tests.same(f"the windows of the files of {what}", (ran.stdout, ran.returncode), ("", 0))
        for name in os.listdir(f"{tests.room}/{folder}/windows"):
            first, last = map(int, name.split("-"))
            cut = tests.run("window", f"recording-{number}", first, last - first + 1)[0]
            tests.same(f"the window {name} of the files of {what}", cut, tests.has(f"{folder}/windows/{name}"))


def many_windows(tests):
    """recorders/session cuts so many windows that not each is cut out of the whole: records that name others of other pages too."""
    rng, pages = random.Random(12), 80
    texts = larger_text(pages, 2), *(random_text(rng, pages, (300, 500), 1) for _ in range(3))
    for number, text in enumerate(texts):
        files_of(SessionText(text), f"{tests.room}/many-{number}", 2, rng)
        ran = script(tests, f"many-{number}", "--recording", "--cut")
        tests.same(f"the recording of many windows {number}", (ran.returncode, ran.stdout.count("\n") > 300), (0, True))
        recording = ran.stdout
        for size in (1, 3):
            ran = script(tests, f"many-{number}", "--windows", str(size), "--cut", "-o", f"by-{number}-{size}")
            tests.same(f"many windows {number} of {size} pages", (ran.stdout, ran.returncode), ("", 0))
            wanted = {f"{first}-{min(first + size, pages) - 1}": window(recording, first, min(size, pages - first))[0] for first in range(0, pages, size)}
            tests.same(f"many windows {number} of {size} pages", {name: tests.has(f"by-{number}-{size}/{name}") for name in os.listdir(f"{tests.room}/by-{number}-{size}")}, wanted)


# Texts that are refused, and words that are none.


def refusals(tests, rng):
    for what, text in refused_texts(rng):
        tests.put("recording", text)
        tests.cut(what, text, 0, 1)
    text = machine(MOST_PAGES, 1, [f"page {MOST_PAGES - 1} 0000000000000001"])
    tests.put("recording", text)
    for first, count in ((0, 0), (1, 0), (MOST_PAGES, 0), (MOST_PAGES, 1), (MOST_PAGES - 1, 1), (MOST_PAGES - 1, 2), (0, MOST_PAGES), (1, MOST_PAGES),
                         (GREATEST, 0), (GREATEST, 1), (0, GREATEST), (GREATEST, GREATEST)):
        tests.cut("a machine of the most pages", text, first, count)


def wrong_words(tests):
    """What is no command, and what is not read; the files of the answer stay as they were."""
    text = text_of(f"{TOP}/examples/recording/session")
    tests.put("recording", text)
    tests.put("-", "no session\n")  # a file of this name can be read, and is not meant
    tests.put("kept", "as it was\n")
    tests.put("cut", text[:40])
    os.mkdir(f"{tests.room}/folder")
    for words in ([], ["recording"], ["recording", "0"], ["recording", "0", "1", "2"], ["recording", "-1", "1"], ["recording", "0", "one"], ["recording", "0", ""],
                  ["recording", str(2**63), "1"], ["recording", "0", str(2**64)], ["recording", "0", "1", "--lines"], ["recording", "0", "1", "-o"],
                  ["recording", "0", "1", "--format", "json"], ["recording", "0", "1", "--complete"]):
        output, errors, status = tests.run("window", *words)
        tests.same(f"window {' '.join(words)}", (output, errors != "", status), ("", True, 2))
    tests.put("table", "as it was\n")
    both = ("-o", "kept", "--lines", "table")
    for words, wanted in (
        (("-", 4, 1), ("session-text line 1\n", NOTHING, 1)),
        (("none", 0, 1), ("", "file none\nnone: no such file or directory\n", 3)),
        (("folder", 0, 1), ("", "session: folder: there is no file of a recorder, PARTY.PROCESS.N\nfile folder\nfolder: its files make no session\n", 3)),
        (("recording", 4, 1), ("no-such-pages\n", OUTSIDE, 1)),
        (("recording", 0, 0), ("no-such-pages\n", OUTSIDE, 1)),
        (("cut", 0, 1), ("session-text line 4\n", CUT, 1)),
    ):
        tests.same(f"window {words}", tests.run("window", *words), wanted)
        tests.same(f"window {words} into files", tests.run("window", *words, *both), wanted)
        tests.same(f"the files of window {words}", (tests.has("kept"), tests.has("table")), ("as it was\n", "as it was\n"))
    told, lines = window(text, 1, 2)
    for words in (("recording", "1", "2", "-o", "new"), ("recording", "+1", "02", "--output", "new"), ("-o", "new", "recording", "1", "2")):
        tests.put("new", "as it was\n")
        tests.same(f"window {words}", tests.run("window", *words), ("", "", 0))
        tests.same(f"the file of window {words}", tests.has("new"), told)
    tests.same("lines for a device", tests.run("window", "recording", 1, 2, "--lines", "/dev/null"), (told, "", 0))
    tests.same("a window into two files", tests.run("window", "recording", 1, 2, "-o", "kept", "--lines", "table"), ("", "", 0))
    tests.same("the two files", (tests.has("kept"), tests.has("table")), (told, lines_text(lines)))
    for option, name, why in (("-o", "not-there/new", "no such file or directory"), ("--lines", "not-there/table", "no such file or directory"),
                              ("-o", "folder", "it is a directory"), ("--lines", "folder", "it is a directory")):
        tests.same(f"window {option} {name}", tests.run("window", "recording", 1, 2, option, name), ("", f"output\n{name}: {why}\n", 3))
    tests.same("what is left of files", [name for name in os.listdir(tests.room) if name.endswith(".part")], [])


def pipes(tests):
    """A session's text may come by a pipe; a file in a folder may not, since it is read several times."""
    text = text_of(f"{TOP}/examples/recording/session")
    tests.put("recording", text)
    told = tests.run("window", "recording", 1, 2)[0]
    tests.same("the window of the input", tests.run("window", "-", 1, 2, given=text), (told, "", 0))
    os.mkfifo(f"{tests.room}/pipe")
    for line in ("{cat} > pipe & {window} pipe 1 2; kill $! 2> {null}; wait", "{cat} | {window} /dev/stdin 1 2", "{window} /dev/fd/7 1 2 7< <({cat})"):
        line = "timeout 20 " + line if line.startswith("{window}") else line.replace("{window}", "timeout 20 {window}")
        line = line.format(cat="cat recording", window=f"'{tests.program}' window", null=os.devnull)
        ran = subprocess.run(["bash", "-c", line], cwd=tests.room, stdin=subprocess.DEVNULL, capture_output=True, text=True)
        tests.same(f"the window of a pipe by {line}", (ran.stdout, ran.stderr), (told, ""))
    files_of(SessionText(text), f"{tests.room}/piped")
    os.remove(f"{tests.room}/piped/guest.1.0")
    os.mkfifo(f"{tests.room}/piped/guest.1.0")
    output, errors, status = tests.run("window", "piped", 1, 2)
    wanted = "file piped/guest.1.0\npiped/guest.1.0: it is read several times and has to be the same each time, as a pipe is not\n"
    tests.same("the window of a folder with a pipe", (output, errors, status), ("", wanted + "file piped\npiped: its files make no session\n", 3))


# The recording's lines in an explanation.


def explained(tests, rng, whole):
    """What `explain --lines` says of windows, of the report, of a page, of a line, and as an object."""
    texts = [(what, text) for what, text, _, _ in whole if len(text) < 10000]
    for what, text in rng.sample(texts, min(EXPLAINED, len(texts))) + known_texts()[:20]:
        if refusal_line("session", text.encode("latin-1")) is not None:
            cut, lines = text, [2 * line for line in range(1, text.count("\n") + 1)]
        else:
            first = rng.randrange(pages_of(text))
            cut, lines = window(text, first, rng.randint(1, pages_of(text) - first))
        tests.put("session", cut)
        explained_by(tests, what, (lines, lines[:len(lines) // 2], [2**64 - 1 - line for line in lines]), rng.randint(1, len(lines)))
    tests.put("session", text_of(f"{TOP}/examples/early-access/session"))
    for table in ("", "\n", "1", "1\n\n", "01\n", " 1\n", "1 \n", "-1\n", "1\n2\n3x\n", f"{2**64 - 1}\n", f"{2**64}\n", "1\n2", "end\n", "1\r\n", "1\n" * 12 + "0\n" * 40):
        refused_table(tests, repr(table[:20]), table, lines_refusal(table.encode()))
    tests.put("table", "1\n2\n03\n")
    tests.same("a table and a session that are refused", tests.run("explain", "--lines", "table", "table")[::2], ("lines-text line 3\n", 1))
    explained_from_the_input(tests)
    tests.same("a table that is not there", tests.run("explain", "--lines", "none", "session"), ("", "file none\nnone: no such file or directory\n", 3))
    tests.same("a session that is not there", tests.run("explain", "--lines", "table", "none"), ("", "file none\nnone: no such file or directory\n", 3))


def explained_from_the_input(tests):
    """The session, the table or both on standard input."""
    cut, lines = window(text_of(f"{TOP}/examples/early-access/session"), 1, 1)
    tests.put("session", cut)
    tests.put("table", lines_text(lines))
    wanted = told_by(lines, tests.run("explain", "session")[0]), "", 1
    for table, session, given in (("table", "session", ""), ("-", "session", lines_text(lines)), ("table", "-", cut), ("-", "-", cut + lines_text(lines))):
        tests.same(f"explain --lines {table} {session}", tests.run("explain", "--lines", table, session, given=given), wanted)


def explained_by(tests, what, tables, line):
    """Compares what is explained by tables with what is explained without them, of this line too."""
    for words in ([], ["--complete"], ["--page", "0"], ["--line", line], ["--format", "json"], ["--format", "json", "--complete"]):
        said, _, status = tests.run("explain", *words, "session")
        for table in tables:
            tests.put("table", lines_text(table))
            wanted = (told_in_json if "json" in words else told_by)(table, said)
            tests.same(f"explain {words} of a window of {what}", tests.run("explain", *words, "--lines", "table", "session")[::2], (wanted, status))
            tests.note("told by other lines" if wanted != said else "told by the same lines")


def refused_table(tests, what, table, line):
    tests.put("table", table)
    found, why, status = tests.run("explain", "--lines", "table", "session")
    if line is None:
        said, _, status_without = tests.run("explain", "session")
        first = re.findall("(?m)^.+$", table[:1000])
        tests.same(f"a table of {what}", (found, status), (told_by([int(it) for it in first], said), status_without))
    else:
        tests.same(f"a table of {what}", (found, status), (f"lines-text line {line}\n", 1))
        wanted = rf'table:{line}:\d+: found (a carriage return at the end of the line; .*|.*; expected "N", the number of a line(; words are .*)?)\n'
        tests.same(f"what is told of a table of {what}, {why}", bool(re.fullmatch(wanted, why)), True)


# Large recordings.


def larger(tests, rng):
    """More pages than a session's machine has, and more records than its logs have, in the recording and in a window."""
    pages, reads = 70_000, 1_060_000
    session = Session(pages, 1, {page: f"{page + 1:016x}" for page in range(0, pages, 7)})
    sent = sorted(rng.sample(range(pages), 400))
    value = {page: page + 1 if page in session.initial else 0 for page in sent}
    session.logs["guest"] = [("halt",), ("resume", 1)]
    session.logs["source"] = [("halted", 0), ("state",), *(("send", page, f"{value[page]:016x}") for page in sent)]
    session.logs["link"] = [("down", 1 + place) for place in range(len(sent) + 1)]
    session.logs["pager"] = [("got", 0), ("ready",)]
    for place, page in enumerate(sent):
        session.logs["pager"] += [("got", place + 1), ("place", page, 2 + 2 * place, f"{value[page]:016x}")]
        session.logs["guest"] += [("see", 3 + 2 * place), ("r", 0, page, 0, value[page])]
    text = "".join(session.lines())
    tests.put("recording", text)
    for first, seen in zip(range(0, pages, 30_000), session.windows(30_000)):
        found = tests.cut("a large machine", text, first, min(30_000, pages - first))
        tests.same(f"the window {first} of a large machine, cut in Python", found and found[0], seen.text())
    found = tests.cut("a large machine", text, sent[0], sent[-1] - sent[0])
    tests.put("session", found[0] if found else "")
    verdict = tests.run("audit", "--quiet", "session")[0]
    tests.same("a session of more pages than one of the second version may have", (sent[-1] - sent[0] > 65536, verdict), (True, "clean\n"))
    tests.put("session", (found[0] if found else "").replace("postcopy-session 3\n", "postcopy-session 2\n"))
    tests.same("the same in the second version", tests.run("audit", "session")[0], "session-text line 2\n")
    many = re.sub("(?m)^r .*\n", lambda line: line[0] * (reads // len(sent)), text).replace("\nguest 802\n", f"\nguest {402 + reads}\n")
    tests.put("recording", many)
    for first, count in ((0, pages), (sent[-1], 1)):
        found = window(many, first, count)
        tests.is_cut("a large recording", first, count, *found)
        if count == 1:
            tests.put("session", found[0])
            tests.same("the verdict on a window of a large recording", tests.run("audit", "--quiet", "session")[0], "clean\n")


def memory(tests):
    """A recording of a machine that is larger than any session's, of which a window is cut in memory of a small part of it. What is of other
    pages stands at the end of each log, so that nothing that is kept has another number for it, and the model need not see it."""
    few = SessionText(text_of(f"{TOP}/examples/recording/session"))
    few.tell_in(3)
    contents = few.head[4].split(" ")[2]
    cells = len(contents) // 16
    more = {"guest": f"r 63 4000000000 0 {2**64 - 1}", "source": f"send 4000000000 {'0123456789abcdef' * cells}", "pager": "want 4000000000"}
    numbers = {log: LARGE // len(more) // (len(line) + 8) for log, line in more.items()}
    pages = pages_of(few.text())
    cut, lines = window(few.text(), 0, pages)
    os.mkdir(f"{tests.room}/large")
    for log, records in (("machine", ["pages 4000000001 " + few.head[2].split(" ")[1], *few.head[4:]]), *((log, few.logs[log]) for log in few.told())):
        length = len(records) + numbers.get(log, 0)
        with open(f"{tests.room}/large/{log}.1.0", "w", encoding="ascii") as file:
            file.write(f"postcopy-records 1\nrecording made\nlog {log} 0 0\n" + "".join(f"{number} {record}\n" for number, record in enumerate(records)))
            for part in range(len(records), length, 10_000):
                file.write("".join(f"{number} {more[log]}\n" for number in range(part, min(part + 10_000, length))))
            file.write(f"end {length}\n")

    def moved(line):
        return line + sum(number for log, number in numbers.items() if line >= few.line(log, len(few.logs[log])))

    limit = {"preexec_fn": lambda: resource.setrlimit(resource.RLIMIT_AS, (LITTLE, LITTLE))}
    if tests.run("--version", **limit)[2] != 0:
        limit = {}
        leave_out("the limit on memory, within which the program does not begin")
    found = tests.run("window", "large", 0, pages, "--lines", "table", **limit)
    tests.same("the window of a recording that is larger than memory", found, (cut, GONE.format("large"), 0))
    tests.same("its lines", tests.has("table"), lines_text(map(moved, lines)))


def beyond_by_the_recorders(tests):
    """recorders/session cuts the windows of a machine that is larger than any session's out of the files, in one folder or in two, or of the
    files that the package for Python writes."""
    few, pages, size = SessionText(text_of(f"{TOP}/examples/recording/session")), 20_000_000, 7_000_000
    few.tell_in(3)
    few.head[1] = f"pages {pages}"
    whole = {f"{first}-{min(first + size, pages) - 1}": window(few.text(), first, min(size, pages - first))[0] for first in range(0, pages, size)}
    for folder in ("one", "here"):
        files_of(few, f"{tests.room}/{folder}")
        tests.put(f"{folder}/read.me", "")
    session_of_text(few.text()).write_files(f"{tests.room}/made")
    os.mkdir(f"{tests.room}/there")
    os.rename(f"{tests.room}/here/pager.1.0", f"{tests.room}/there/pager.1.0")
    tests.put("there/read.me", "")
    for folders in (["one"], ["here", "there"], ["made"]):
        ran = script(tests, *folders, "--window", "1-2", "-o", f"window-{folders[0]}")
        wanted = ("", 0, window(few.text(), 1, 2)[0])
        tests.same(f"a window of the files in {folders}", (ran.stdout, ran.returncode, tests.has(f"window-{folders[0]}")), wanted)
        ran = script(tests, *folders, "--windows", str(size), "-o", f"windows-{folders[0]}")
        found = {name: tests.has(f"windows-{folders[0]}/{name}") for name in os.listdir(f"{tests.room}/windows-{folders[0]}")}
        tests.same(f"the windows of the files in {folders}", (ran.stdout, ran.returncode, found), ("", 0, whole))
    tests.same("a window of the files that Python writes", tests.run("window", "made", 1, 2), (window(few.text(), 1, 2)[0], "", 0))
    ran = script(tests, "one", "--window", "1-2", "--cut")
    told = "session: beyond the limits of a session, windows are cut out of files that lack nothing\n"
    tests.same("a window with --cut", (ran.stdout, ran.stderr.endswith(told), ran.returncode), ("", True, 2))
    # (the guest's log is handed over to a process of the same number on another host)
    files_of(few, f"{tests.room}/parts")
    os.mkdir(f"{tests.room}/other")
    *head, _, first, rest = tests.has("parts/guest.1.0").split("\n", 4)
    tests.put("parts/guest.1.0", "\n".join([*head, "log guest 0 0", first, "next 1", ""]))
    tests.put("other/guest.1.0", "\n".join([*head, "log guest 1 0", rest]))
    ran = script(tests, "parts", "other", "--window", "1-2")
    told = "session: other/guest.1.0: another folder has a file of this name: rename one, to cut windows\n"
    tests.same("a file of one name in two folders", (ran.stdout, ran.stderr.endswith(told), ran.returncode), ("", True, 2))


def beyond_in_python(tests):
    """A window that has pages which the machine does not have is refused in Python too, and all others are not."""
    session = Session(3, 1)
    for first, last in ((0, 3), (3, 3), (2, 1), (-1, 0), (0, 2), (2, 2)):
        try:
            found = session.window(first, last).pages
        except ValueError as fault:
            found = str(fault).split(",")[0]
        tests.same(f"the window of the pages {first} to {last} of 3", found, last - first + 1 if 0 <= first <= last < 3 else "the machine has 3 pages")
    for size, wanted in ((2, [2, 1]), (0, "windows of 0 pages show nothing"), (-2, "windows of -2 pages show nothing")):
        try:
            found = [seen.pages for seen in session.windows(size)]
        except ValueError as fault:
            found = str(fault)
        tests.same(f"the windows of {size} pages", found, wanted)


@pytest.fixture
def tests(program, room):
    return Tests(program, room)


@pytest.mark.slow
@pytest.mark.cases(7050)
def test_windows(tests):
    rng = random.Random(9)
    whole = windows_of_all(tests, rng)
    judged = judged_alike(tests, whole)
    cut_by_python(tests, rng, judged)
    cut_by_the_recorders(tests, judged)
    refusals(tests, rng)
    explained(tests, rng, whole)
    larger(tests, rng)
    assert {*tests.kinds} >= {"cut", "session-text", "no-such-pages", "judged alike", "knots", "told by other lines", "cut out of files"}


@pytest.mark.parametrize("part", (
    pytest.param(wrong_words, marks=pytest.mark.cases(45)), pytest.param(pipes, marks=pytest.mark.cases(5)), pytest.param(many_windows, marks=pytest.mark.cases(20)),
    pytest.param(memory, marks=pytest.mark.cases(2)), pytest.param(beyond_by_the_recorders, marks=pytest.mark.cases(9)), pytest.param(beyond_in_python, marks=pytest.mark.cases(9))), ids=lambda it: it.__name__)
def test_alone(tests, part):
    part(tests)

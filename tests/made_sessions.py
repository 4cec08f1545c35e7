"""Sessions that are made of recorders' files, beside sessions that are known: those of the example folders and of the test
cases, spread over files, and those that examples/recording/session_from_traces.py writes of traces that are cut short."""
import importlib.util
import os
import random
import re
import subprocess
import sys

import forked
from case_table import case_files
from recorded_model import Unfit, session_of
from session_text import LOGS, SessionText
from window_model import window

from postcopy.records import LARGE, RECORDS, SMALL

TOP = os.path.dirname(os.path.dirname(os.path.abspath(__file__)))

TRACES = "examples/recording"


def read(name):
    with open(f"{TOP}/{name}", encoding="ascii", newline="") as file:
        return file.read()


def script_of_traces():
    """The script of the example traces, as a module."""
    spec = importlib.util.spec_from_file_location("session_from_traces", f"{TOP}/{TRACES}/session_from_traces.py")
    script = importlib.util.module_from_spec(spec)
    spec.loader.exec_module(script)
    return script


def text_of(path):
    """A file's text, or nothing where it has bytes that no text has."""
    with open(path, "rb") as file:
        data = file.read()
    return data.decode("ascii") if data.isascii() else ""


def known_sessions(audit):
    """Sessions of the right shape, once each: the texts and the first lines of their reports."""
    found = {}
    for path in case_files("session"):
        text = text_of(path)
        if text and text not in found:
            said = audit(text)
            if said.split()[0] in ("clean", "faulty", "knot"):
                found[text] = said
    return found


def text_of_file(log, records, first=0, last=None, name="made"):
    """The text of a recorder's file: its head, the records, which have their numbers, and perhaps how the log was closed."""
    lines = ["postcopy-records 1", f"recording {name}", f"log {log} {first} 0", *records, *([last] if last else [])]
    return "".join(f"{line}\n" for line in lines)


def numbered(records, first=0):
    return [f"{number} {record}" for number, record in enumerate(records, first)]


def files_of(session, folder, parts=1, chance=None, lengths=None):
    """Writes the files that recorders would have of a session, each log's records by so many threads. A log of which only so many
    records are written has no end."""
    os.makedirs(folder)
    machine = [" ".join(line.split(" ")[1] for line in session.head[1:3])]
    logs = {"machine": [f"pages {machine[0]}", *session.head[4:]], **{log: session.logs[log] for log in session.told()}}
    for log, records in logs.items():
        length = (lengths or {}).get(log)
        spread = [[] for _ in range(parts)]
        for line in numbered(records)[:length]:
            (chance.choice(spread) if chance else spread[0]).append(line)
        for part, some in enumerate(spread):
            with open(f"{folder}/{log}.1.{part}", "w", encoding="ascii") as file:
                file.write(text_of_file(log, some, last=f"end {len(records)}" if length is None and part == 0 else None))
                if chance and chance.random() < 0.5:
                    file.write(chance.choice(["\0" * 100, f"{len(records)} rea", "\0\0w 1 2 3 4\n\0"]))


def run_script(program, *words, **more):
    """Runs recorders/session by this program, in a fork where nothing is to be done before."""
    if {*more} <= {"cwd"}:
        return forked.run(f"{TOP}/recorders/session", *words, env={"POSTCOPY": program}, encoding="ascii", **more)
    return subprocess.run([sys.executable, f"{TOP}/recorders/session", *words], capture_output=True, encoding="ascii", timeout=120,
                          env={**os.environ, "POSTCOPY": program}, **more)


def called(session):
    """The recorder's calls that a session's records are: the party, the call and its words."""
    pages, cells = (line.split(" ")[1] for line in session.head[1:3])
    yield "machine", "machine_with_lane" if "lane" in session.told() else "machine", [pages, cells]
    for line in session.head[4:]:
        yield "machine", "initial", line.split(" ")[1:]
    for log in session.told():
        for record in session.logs[log]:
            word, *fields = record.split(" ")
            yield log, RECORDS[log][word].call, fields


def without_links(session):
    """The records of a session where those who received a message wrote its number: with no logs of the link and the lane."""
    logs = {log: list(session.logs[log]) for log in ("guest", "source", "pager")}
    for log, kind, of in (("source", "ask", "link"), ("pager", "got", "link"), ("pager", "pull", "lane")):
        for place, record in enumerate(logs[log]):
            word, *fields = record.split(" ")
            if word == kind:
                logs[log][place] = f"{kind}-sent {session.logs[of][int(fields[0])].split(' ')[1]}"
    return logs


class MadeSessions:
    def __init__(self, tests, room):
        self.tests, self.room, self.made = tests, room, 0
        self.known = known_sessions(tests.audit)

    def folder(self):
        self.made += 1
        return f"{self.room}/made-{self.made}"

    def made_of(self, folder):
        """The session of a folder's files, and what is said of it; or why there is none."""
        try:
            session, said = session_of([folder])
            return session.text(), said
        except Unfit as fault:
            return None, [str(fault)]

    def script(self, *words):
        return run_script(self.tests.program, *words)

    def run(self):
        self.of_known_sessions()
        self.of_links()
        self.of_cuts_and_windows()
        self.of_larger_machines()
        self.of_holes()
        self.of_the_script()

    def of_known_sessions(self):
        chance = random.Random(1)
        for text in self.known:
            folder = self.folder()
            files_of(SessionText(text), folder, 3, chance)
            made, said = self.made_of(folder)
            self.tests.same("a session of files", made, self.of_least_size(text))
            self.tests.same("what is said of it", [it for it in said if "there is no record" not in it], [])
            for name in os.listdir(folder):
                if name.startswith("lane") and "\nlane 0\n" in text:
                    os.remove(f"{folder}/{name}")
            self.tests.same("with no file of the lane", self.made_of(folder)[0], self.of_least_version(text))

    @staticmethod
    def of_least_size(text):
        """The session, of the second version in the place of the third where its machine keeps the second's limits, and its source
        does not start the guest again."""
        session = SessionText(text)
        pages, cells = (int(line.split(" ")[1]) for line in session.head[1:3])
        is_small = pages <= SMALL.pages and pages * cells <= SMALL.in_all and "back" not in session.logs["source"]
        return text.replace("postcopy-session 3\n", "postcopy-session 2\n") if is_small else text

    @classmethod
    def of_least_version(cls, text):
        """The session, of the first version where nothing in it is of a later one."""
        text = cls.of_least_size(text)
        if text.startswith("postcopy-session 3\n"):
            return text
        is_late = re.search("^resume .*^z .*^source ", text, re.M | re.S)
        if is_late or "\nlane 0\n" not in text or "\npull " in text:
            return text
        return text.replace("postcopy-session 2\n", "postcopy-session 1\n").replace("\nlane 0\n", "\n")

    def of_links(self):
        """The logs of the link and the lane made anew: each record has the same fault, and each page the same entry."""
        for text, said in self.known.items():
            if said.startswith("knot"):
                continue
            known = SessionText(text)
            folder = self.folder()
            bare = SessionText(text)
            bare.logs.update(without_links(known), link=[], lane=[])
            files_of(bare, folder)
            made, _ = self.made_of(folder)
            told = self.tests.audit(made)
            self.tests.same("a fault over links that were made", self.fault(made, told), self.fault(text, said))
            entries = [re.findall("^page .*", self.tests.report(it), re.M) for it in (made, text)]
            self.tests.same("entries over links that were made", *entries)

    @staticmethod
    def fault(text, said):
        """The first line of a report, with the record in the place of its line."""
        if said == "clean":
            return said
        session, (_, _, line, reason) = SessionText(text), said.split(" ")
        for log in session.told():
            place = int(line) - session.line(log, 0)
            if 0 <= place < len(session.logs[log]):
                return log, place, reason
        return None

    def of_cuts_and_windows(self):
        """Logs that end early, at each record, and windows, beside the script of the traces. The frame that the traces have
        outside of their window is put beside the others, so that each event of a frame becomes a record."""
        script = script_of_traces()
        traces = {log: read(f"{TRACES}/{log}.trace").replace("7f3a1", "40004") for log in LOGS if log != "lane"}

        def recording(frames="40000-40004", ended=None):
            folder = self.folder()
            os.makedirs(folder)
            for log, text in traces.items():
                text = text.replace("frames=40000-40003", f"frames={frames}")
                if ended and ended[0] == log:
                    text = re.sub(rf"^[^ \n]+ {ended[1]} .*", "", text, flags=re.M | re.S)
                with open(f"{folder}/{log}.trace", "w", encoding="ascii") as file:
                    file.write(text)
            return script.Recording(folder, True)

        whole = recording()
        for (log, name), number in whole.numbers.items():
            folder = self.folder()
            files_of(SessionText(whole.text()), folder, lengths={log: number})
            made, said = self.made_of(folder)
            self.tests.same(f"the logs where the {log}'s ends before {name}", made, recording(ended=(log, name)).text())
            self.tests.same("its verdict", self.tests.audit(made), "clean")
        folder = self.folder()
        files_of(SessionText(whole.text()), folder)
        for first in range(5):
            for last in range(first, 5):
                made = self.script(folder, "--window", f"{first}-{last}")
                self.tests.same(f"the window {first}-{last}", made.stdout, recording(f"4000{first}-4000{last}").text())
        for size in range(1, 7):
            made = self.script(folder, "--windows", str(size), "-o", f"{folder}/by-{size}")
            self.tests.same(f"windows of {size} pages", (made.stdout, made.stderr, made.returncode), ("", "", 0))
            wanted = {f"{first}-{min(first + size, 5) - 1}" for first in range(0, 5, size)}
            self.tests.same("their names", set(os.listdir(f"{folder}/by-{size}")), wanted)
            for name in wanted:
                with open(f"{folder}/by-{size}/{name}", encoding="ascii") as file:
                    self.tests.same(f"the window {name} of {size} pages", file.read(), self.script(folder, "--window", name).stdout)

    def larger_machine(self, pages, reads):
        """The files of a machine of which two pages are moved: one is read again and again, and the last is read wrongly in the end."""
        folder = self.folder()
        os.makedirs(folder)
        last = pages - 1
        logs = {
            "machine": [f"pages {pages} 1", "page 7 0000000000000005", f"page {last} 0000000000000006"],
            "source": ["halted 0", "state", "send 7 0000000000000005", f"send {last} 0000000000000006"],
            "pager": ["got-sent 1", "ready", "got-sent 2", "place 7 2 0000000000000005", "got-sent 3", f"place {last} 4 0000000000000006"],
            "guest": ["halt", "resume 1", "see 3", *["r 0 7 0 5"] * reads, "see 5", f"r 0 {last} 0 9"],
        }
        for log, records in logs.items():
            with open(f"{folder}/{log}.1.0", "w", encoding="ascii") as file:
                file.write(text_of_file(log, numbered(records), last=f"end {len(records)}"))
        return folder

    def of_larger_machines(self):
        """A machine with more pages than one of the second version, and a log with more records; and more pages than any session's."""
        folder = self.larger_machine(66000, SMALL.records)
        made = self.script(folder)
        self.tests.same("the first line of a larger one", (made.stdout[:19], made.stderr, made.returncode), ("postcopy-session 3\n", "", 0))
        self.tests.same("its verdict", self.tests.audit(made.stdout), f"faulty line {12 + SMALL.records} read")
        folder = self.larger_machine(66000, 1)
        made = self.script(folder)
        self.tests.same("such a machine in one session", (made.stdout[:32], made.returncode), ("postcopy-session 3\npages 66000\nc", 0))
        self.tests.same("its verdict", self.tests.audit(made.stdout), "faulty line 13 read")
        made = self.script(folder, "--windows", "60000", "-o", f"{folder}/windows")
        self.tests.same("what is said of windows", (made.stdout, made.stderr, made.returncode), ("", "", 0))
        versions = {text_of(f"{folder}/windows/{name}")[:19] for name in ("0-59999", "60000-65999")}
        self.tests.same("the version of the windows", versions, {"postcopy-session 3\n"})
        verdicts = [self.tests.audit(text_of(f"{folder}/windows/{name}")) for name in ("0-59999", "60000-65999")]
        self.tests.same("the verdicts through windows", verdicts, ["clean", "faulty line 10 read"])
        made = self.script(folder, "--window", "65998-65999")
        self.tests.same("the window of the last pages", self.tests.audit(made.stdout), "faulty line 10 read")
        ran = self.script(folder, "--recording", "-o", f"{folder}/recording")
        self.tests.same("the recording of such a machine", (ran.stdout, ran.stderr, ran.returncode), ("", "", 0))
        recording = text_of(f"{folder}/recording")
        self.tests.same("a window of that recording", window(recording, 65998, 2)[0], made.stdout)
        self.tests.same("how large it is", recording.split("\n")[1], "pages 66000")
        folder = self.larger_machine(LARGE.pages, 1)
        made = self.script(folder)
        self.tests.same("a machine of the most pages", (made.stdout[:34], made.returncode), ("postcopy-session 3\npages 16777216\n", 0))
        folder = self.larger_machine(LARGE.pages + 1, 1)
        made = self.script(folder)
        self.tests.same("a machine of a page more", (made.stdout, made.returncode), ("", 2))
        self.tests.same("what is said of it", made.stderr.startswith("session: 16777217 pages of 1 cells, "), True)
        made = self.script(folder, "--window", "16777215-16777216")
        self.tests.same("the verdict through a window of it", self.tests.audit(made.stdout), "faulty line 10 read")

    def of_holes(self):
        """A record that is missing in the middle, a second one of a number, and files that are none."""
        session = SessionText(read(f"{TRACES}/session"))
        for log in ("guest", "source", "link", "pager"):
            hole, ended = self.folder(), self.folder()
            files_of(session, hole)
            files_of(session, ended, lengths={log: 3})
            with open(f"{hole}/{log}.1.0", encoding="ascii") as file:
                lines = file.readlines()
            with open(f"{hole}/{log}.1.0", "w", encoding="ascii") as file:
                file.write("".join(lines[:6] + lines[7:]))
            made, said = self.made_of(hole)
            self.tests.same(f"a hole in the {log}'s log", made, self.made_of(ended)[0])
            wanted = f"{log}: {len(lines) - 8} records left out: record 3 is missing"
            self.tests.same("what is said of it", wanted in said, True)
        for log in ("guest", "source", "link", "pager"):
            missing, empty = self.folder(), self.folder()
            files_of(session, missing)
            files_of(session, empty, lengths={log: 0})
            os.remove(f"{missing}/{log}.1.0")
            made, said = self.made_of(missing)
            self.tests.same(f"no file of the {log}", made, self.made_of(empty)[0])
            self.tests.same("what is said of it", f"{log}: there is no record" in said, True)
            self.tests.same("its verdict", self.tests.audit(made), "clean")
    def of_the_script(self):
        """The program: its folders, its options and its statuses."""
        session = SessionText(read(f"{TRACES}/session"))
        both, first, second = self.folder(), self.folder(), self.folder()
        files_of(session, both)
        files_of(session, first)
        os.makedirs(second)
        for log in ("guest", "pager"):
            os.rename(f"{first}/{log}.1.0", f"{second}/{log}.1.0")
        wanted = read(f"{TRACES}/session")
        for words in ([], ["--recording"]):
            ran = self.script(both, *words)
            self.tests.same(f"a session {words}", (ran.stdout, ran.stderr, ran.returncode), (wanted, "", 0))
        ran = self.script(first, second, "-o", f"{both}/session")
        with open(f"{both}/session", encoding="ascii") as file:
            self.tests.same("a session of two folders", (ran.stdout, ran.returncode, file.read()), ("", 0, wanted))
        for words in ([], ["--recording"]):
            ran = self.script(first, *words)
            self.tests.same(f"a part {words}", (ran.stdout, ran.returncode), ("", 1))
            ran = self.script(first, "--cut", *words)
            self.tests.same(f"a part, cut {words}", (ran.stdout[:16], ran.returncode), ("postcopy-session", 0))
            self.tests.same("what is said of it", "session: guest: there is no record\n" in ran.stderr, True)
        for words, said in (
            ([both, "--window", "2-4"], "session: the machine has 4 pages\n"),
            ([f"{both}/none"], f"session: {both}/none: no such file or directory\n"),
        ):
            ran = self.script(*words)
            self.tests.same(f"session {words}", (ran.stdout, ran.stderr, ran.returncode), ("", said, 2))
        for words in (["--window", "3-2"], ["--windows", "2"], ["--windows", "0", "-o", f"{both}/by"], ["--window", "0-1", "--windows", "1", "-o", f"{both}/by"],
                      ["--window", "0-1", "--recording"], ["--windows", "1", "--recording", "-o", f"{both}/by"]):
            self.tests.same(f"words that are none, {words}", self.script(both, *words).returncode, 2)

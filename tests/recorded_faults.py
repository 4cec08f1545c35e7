"""Recordings that are not whole, or are none: what recorders/session says of each, its status, and that it writes nothing.

Each is a right recording with one fault: of the disk, of a file, of the program that records. And what the script writes with -o,
where others write there too, or the disk is full.
"""
import contextlib
import copy
import errno
import os
import pickle
import re
import resource
import shutil
import signal
import stat
import subprocess
import sys
import threading
import time
import warnings

from cases import each
from made_sessions import TOP, numbered, run_script, text_of_file
from recorded_model import session_of

from postcopy.recorder import LOST, Log, join

# A machine of two pages of one cell, and one of them moved. By log, the records.
MOVED = {
    "machine": ["pages 2 1", "page 1 0000000000000007"],
    "guest": ["w 0 0 0 5", "halt", "resume 1", "see 3", "r 0 0 0 5"],
    "source": ["halted 1", "state", "send 0 0000000000000005"],
    "link": ["down 1", "down 2"],
    "pager": ["got 0", "ready", "got 1", "place 0 2 0000000000000005"],
}

ENDLESS = "its process died, or did not close the log (postcopy_log_close, or Log.close)"

PAGES = 64  # of the machine whose recording does not fit on a small disk


def limited(length):
    """What a process calls so that no file of its grows past this length."""
    return lambda: resource.setrlimit(resource.RLIMIT_FSIZE, (length, length))


class Faults:
    """Recordings with faults, for the program at this path. The second program is bindings/c/tests/recording.c."""

    def __init__(self, tests, room, command=None, program=None):
        self.tests, self.room, self.command, self.program, self.made = tests, room, command, program, 0
        self.written = {**os.environ, "WRITTEN": "1"}  # (where the program maps no file of a log)

    def folder(self):
        self.made += 1
        return f"{self.room}/fault-{self.made}"

    def session(self, *words, **more):
        """What the script writes and says, and its status."""
        return run_script(self.command, *words, **more)

    def put(self, name, text):
        os.makedirs(os.path.dirname(name), exist_ok=True)
        with open(name, "w", encoding="ascii") as file:
            file.write(text)

    def has(self, name):
        with open(name, encoding="ascii") as file:
            return file.read()

    def recording(self, **changed):
        """A folder with the right recording, but for these logs: the text of the file, or the records."""
        folder = self.folder()
        for log, records in {**MOVED, **changed}.items():
            if records is not None:
                is_text = isinstance(records, str)
                self.put(f"{folder}/{log}.1.0", records if is_text else text_of_file(log, numbered(records), last=f"end {len(records)}"))
        self.put(f"{folder}/recording-name", "made\n")
        return folder

    def told(self, what, ran, status, *lines, folder=""):
        """Whether nothing was written, with this status and with a line of these words, where FOLDER is the folder."""
        said = ran.stderr.replace(folder, "FOLDER") if folder else ran.stderr
        self.tests.same(f"{what}: status and output", (ran.returncode, ran.stdout), (status, ""))
        for line in lines:
            is_said = f"session: {line}\n" in said
            self.tests.same(f"{what}: what is said", (is_said, line if is_said else said), (True, line))

    def wants(self, what, folder, status, *lines):
        self.told(what, self.session(folder), status, *lines, folder=folder)
        if status == 1:
            ran = self.session(folder, "--cut")
            self.tests.same(f"{what}, cut", (ran.returncode, ran.stdout[:17]), (0, "postcopy-session "))
            for line in lines:
                self.tests.same(f"{what}, cut: what is said", f"session: {line}\n" in ran.stderr.replace(folder, "FOLDER"), True)

    def run(self):
        for part in each((self.of_two_recordings, self.of_whole_ones, self.of_limits, self.of_lost_files, self.of_slips, self.of_words, self.of_machines, self.of_lanes,
                          self.of_children, self.of_closed_files, self.of_python, self.of_dropped, self.of_output), name=lambda it: it.__name__):
            part()

    def of_whole_ones(self):
        folder = self.recording()
        ran = self.session(folder)
        self.tests.same("a whole recording", (ran.returncode, ran.stderr, self.tests.audit(ran.stdout)), (0, "", "clean"))
        self.tests.same("an option that there is no more", self.session(folder, "--whole").returncode, 2)
        for log in MOVED:
            lines = text_of_file(log, numbered(MOVED[log]))
            self.wants(f"the {log}'s log has no end", self.recording(**{log: lines}), 1, f"{log}: FOLDER/{log}.1.0 has no end: {ENDLESS}")
            lines += "lost 28\n"
            self.wants(f"a record of the {log} is lost", self.recording(**{log: lines}), 1, f"{log}: FOLDER/{log}.1.0:{len(MOVED[log]) + 4}: a record was not written: No space left on device")

    def of_limits(self):
        """A recording that does not fit, as a file may not grow. With room it is one of a fault."""
        folder = self.folder()
        self.tests.same("with room", subprocess.run([self.program, "moved", folder, str(PAGES)]).returncode, 0)
        ran = self.session(folder)
        self.tests.same("with room: its verdict", (ran.returncode, ran.stderr, self.tests.audit(ran.stdout)), (0, "", f"faulty line {PAGES + 9} read"))
        folder = self.folder()
        ran = subprocess.run([self.program, "moved", folder, str(PAGES)], preexec_fn=limited(300000))
        self.tests.same("a file that may not grow ends no process", ran.returncode, 0)
        self.wants("a file that may not grow", folder, 1, f"machine: FOLDER/{self.only(folder, 'machine')}:36: a record was not written: File too large")
        for env in (os.environ, self.written):
            ran = subprocess.run([self.program, "full", self.folder()], preexec_fn=limited(0), stdout=subprocess.PIPE, env=env)
            self.tests.same("a limit of no bytes ends no process", ran.returncode, 1)

    def only(self, folder, log):
        """The name of a log's only file."""
        name, = [name for name in os.listdir(folder) if name.startswith(f"{log}.")]
        return name

    def of_lost_files(self):
        """A thread's file that is missing, the one with the log's end, and a tail."""
        for log, records in MOVED.items():
            lines = numbered(records)
            for what, files, kept, said in (
                ("a thread's file", (lines[:-1], lines[-1:]), 0, f"{log}: record {len(lines) - 1} is missing"),
                ("the file with the end", (lines[-1:], lines[:-1]), 1, f"{log}: FOLDER/{log}.1.1 has no end: {ENDLESS}"),
            ):
                folder = self.recording(**{log: text_of_file(log, files[0], last=f"end {len(lines)}")})
                self.put(f"{folder}/{log}.1.1", text_of_file(log, files[1]))
                self.tests.same(f"{what} of the {log} is there", self.session(folder).returncode, 0)
                os.remove(f"{folder}/{log}.1.{1 - kept}")
                if log == "machine" and kept == 0:
                    said += ": pages whose contents are not told are taken for zeros"
                self.wants(f"{what} of the {log} is missing", folder, 1, said)
        self.wants("a tail of initial pages", self.recording(machine=text_of_file("machine", numbered(MOVED["machine"]), last="end 65")), 1,
                   "machine: records 2 to 64 are missing: pages whose contents are not told are taken for zeros")
        folder = self.recording(guest=text_of_file("guest", numbered(MOVED["guest"])[:2], last="next 2"))
        self.wants("who went on with the guest's log", folder, 1, "guest: FOLDER/guest.1.0:6: handed over with 2 records, and there is no file of who went on")
        self.put(f"{folder}/guest.2.0", text_of_file("guest", numbered(MOVED["guest"])[2:], first=2, last="end 5"))
        self.tests.same("the guest's log is gone on with", self.session(folder).returncode, 0)
        self.put(f"{folder}/guest.2.0", text_of_file("guest", numbered(MOVED["guest"])[2:], first=2, last="next 5"))
        self.put(f"{folder}/guest.3.0", text_of_file("guest", [], first=5, last="next 5"))
        self.wants("who went on with no record", folder, 1, "guest: FOLDER/guest.3.0:4: handed over with 5 records, and there is no file of who went on")

    def of_slips(self):
        """Slips of a program that records. (The first four are those of an audit that was `clean`.)"""
        on = "a log is gone on with from the number that postcopy_log_hand_over or Log.hand_over answers"
        source = text_of_file("guest", numbered(MOVED["guest"])[:2], last="end 2")
        folder = self.recording(guest=source)
        self.put(f"{folder}/guest.2.0", text_of_file("guest", numbered(MOVED["guest"][2:], 3), first=3, last="end 6"))
        self.wants("the guest's log opened one record too late", folder, 1, "guest: 3 records left out: record 2 is missing",
                   f"guest: FOLDER/guest.2.0 begins with record 3, where the log has 2 in front of it: {on}")
        folder = self.recording(guest=source)
        self.put(f"{folder}/guest.2.0", text_of_file("guest", numbered(MOVED["guest"][2:], 1), first=1, last="end 4"))
        self.wants("the guest's log opened one record too early", folder, 2,
                   f"FOLDER/guest.2.0:4: a second record 1 of the guest's log, beside FOLDER/guest.1.0:5: record 1 of the guest's log: {on}")
        folder = self.recording(guest=text_of_file("guest", numbered(MOVED["guest"])[:1], last="end 1"))
        self.put(f"{folder}/guest.2.0", text_of_file("guest", numbered(MOVED["guest"][2:], 2), first=2, last="end 5"))
        self.wants("a halt that was forgotten", folder, 1, "guest: 3 records left out: record 1 is missing")
        self.wants("got for got_sent", self.recording(link=None, pager=["got 1", *MOVED["pager"][1:]]), 1,
                   "pager: 4 records left out: FOLDER/pager.1.0:4: record 0 of the pager's log, 'got 1', names record 1 of the link's log, which is not "
                   "there: where nobody writes the link's log it is 'got_sent' that takes the sender's number")
        self.wants("a number that was lost", self.recording(pager=[f"got {LOST}", *MOVED["pager"][1:]]), 1,
                   f"pager: 4 records left out: FOLDER/pager.1.0:4: record 0 of the pager's log, 'got {LOST}', names no record of the link's log: the number was lost")
        self.wants("no resume", self.recording(guest=[*MOVED["guest"][:2], "r 0 0 0 5"]), 1,
                   "guest: FOLDER/guest.1.0:6: record 2 of the guest's log comes after the halt, and there is no resume: postcopy_record_resume, or "
                   "Log.resume, where the guest runs at the target")
        for log in ("guest", "source", "pager"):
            self.wants(f"no record of the {log}", self.recording(**{log: []}), 1, f"{log}: there is no record")

    def of_two_recordings(self):
        twice = "two recordings are in one folder, or the log was opened twice from this number on"
        folder = self.recording()
        for log, records in MOVED.items():
            self.put(f"{folder}/{log}.2.0", text_of_file(log, numbered(records), last=f"end {len(records)}"))
        self.wants("two runs in a folder", folder, 2, f"FOLDER/guest.2.0:4: a second record 0 of the guest's log, beside FOLDER/guest.1.0:4: record 0 of the guest's log: {twice}")
        folder = self.recording(pager=text_of_file("pager", numbered(MOVED["pager"]), last="end 4", name="other"))
        both = ("these are two recordings, each of which has its own session (a folder at a second machine is given the name: postcopy_recording_join, or join)")
        self.wants("files of two names", folder, 2, f"FOLDER/pager.1.0 is of the recording other, and FOLDER/machine.1.0 of the recording made: {both}")
        folder = self.recording()
        self.told("a folder that is named twice", self.session(folder, f"{folder}/."), 2, f"{folder}/. is named twice")
        first, second, third = self.folder(), self.folder(), self.folder()
        with Log(first, "guest") as log:
            join(second, log.recording)
            join(second, log.recording)
            join(third, "another")
        with Log(second, "source") as source, Log(third, "source") as other:
            self.tests.same("the name at a second machine", (source.recording, other.recording), (log.recording, "another"))
        for what, error, call in (("another name", FileExistsError, lambda: join(second, "another")), ("no name", ValueError, lambda: join(third, "a b"))):
            try:
                call()
                self.tests.same(what, "taken", "refused")
            except error:
                self.tests.same(what, "refused", "refused")
        ran = subprocess.run([self.program, "named", self.folder()], stdout=subprocess.PIPE, timeout=120)
        self.tests.same("the names in C", (ran.returncode, ran.stdout), (0, b""))
        for length in (63, 64, 65):
            folder, name, found = self.folder(), "n" * length, None
            with contextlib.suppress(ValueError):
                join(folder, name)
                with Log(folder, "guest") as log:
                    found = log.recording
            self.tests.same(f"a name of {length} letters", found, name if length < 65 else None)
        self.of_planted_names()

    def of_planted_names(self):
        """What somebody has put in the place of a recording's name: a pipe that nobody writes, a folder, a link, to nothing or to another name; and
        a file with no name, or with one that is too long."""
        script = """if True:
            import errno, os, sys
            from postcopy.recorder import Log, join
            os.makedirs(sys.argv[1])
            os.chdir(sys.argv[1])
            with open("stranger", "w") as file:
                file.write("secret\\n")
            def put(text):
                with open("recording-name", "w") as file:
                    file.write(text)
            name = "recording-name"
            for plant in (lambda: os.mkfifo(name), lambda: os.mkdir(name), lambda: os.symlink("none", name), lambda: os.symlink("stranger", name),
                          lambda: put("no name\\n"), lambda: put("n" * 65 + "\\n")):
                plant()
                for call in (lambda: Log(".", "guest").recording, lambda: join(".", "another")):
                    try:
                        print(call())
                    except OSError as error:
                        print(errno.errorcode[error.errno], end=" ")
                os.rmdir(name) if os.path.isdir(name) else os.remove(name)
        """
        ran = subprocess.run([sys.executable, "-B", "-c", script, self.folder()], env={**os.environ, "PYTHONPATH": f"{TOP}/bindings/python"},
                             capture_output=True, encoding="ascii", timeout=120)
        wanted = [*["EBADMSG"] * 4, *["ELOOP"] * 4, *["EBADMSG"] * 4]
        self.tests.same("what is no name, in Python", (ran.stdout.split(), ran.stderr), (wanted, ""))

    def of_words(self):
        """Lines that are none: which file, which line, what stands there, and what it should be."""
        def line(log, changed, *said, at=4):
            lines = text_of_file(log, numbered(MOVED[log]), last=f"end {len(MOVED[log])}").split("\n")
            lines[at - 1:at] = [changed] if isinstance(changed, str) else changed
            self.wants(f"{changed!r} in the {log}'s log", self.recording(**{log: "\n".join(lines)}), 2, *said)

        record = "FOLDER/guest.1.0:4: record 0 of the guest's log, "
        line("guest", "0 w 64 0 0 5", f"{record}'w 64 0 0 5': '64' is no vcpu: a number from 0 to 63")
        line("guest", "0 w 0 2 0 5", f"{record}'w 0 2 0 5': there is no page 2: the machine has 2 pages, from 0 on")
        line("guest", "0 w 0 0 1 5", f"{record}'w 0 0 1 5': there is no cell 1: a page has 1 cells, from 0 on")
        far = ["w 0 4999999999 1 5", *MOVED["guest"]]
        self.wants("no cell of a far page", self.recording(machine=["pages 5000000000 1"], guest=text_of_file("guest", numbered(far), last=f"end {len(far)}")), 2,
                   f"{record}'w 0 4999999999 1 5': there is no cell 1: a page has 1 cells, from 0 on")
        line("guest", "0 w 0 0 0", f"{record}'w 0 0 0': 'w' has 4 fields and not 3")
        line("guest", "0 ww 0 0 0 5", f"{record}'ww 0 0 0 5': the guest's log has no record 'ww'")
        line("source", "2 send 0 05", "FOLDER/source.1.0:6: record 2 of the source's log, 'send 0 05': '05' is no contents: 16 digits of 0 to 9 and a to f for each cell", at=6)
        line("source", f"2 send 0 {'0' * 32}", f"FOLDER/source.1.0:6: record 2 of the source's log, 'send 0 {'0' * 32}': contents of 2 cells, where a page of the machine has 1", at=6)
        no_record = "which is no record: expected its number, its word and its fields"
        line("guest", "w 0 \x1b[0m", f"FOLDER/guest.1.0:4: found 'w 0 \\x1b[0m', {no_record}")
        line("guest", "", f"FOLDER/guest.1.0:4: found '', {no_record}")
        line("guest", ["end 5", "5 r 0 0 0 5"], "FOLDER/guest.1.0:10: found '5 r 0 0 0 5' after the log's end, 'end 5'", at=9)
        line("guest", "end 4", "FOLDER/guest.1.0:9: found 'end 4', where the guest's log has a record 4", at=9)
        line("guest", "0 halt", "FOLDER/guest.1.0:1: found '0 halt'; expected 'postcopy-records 1': no recorder of this release wrote it", at=1)
        line("guest", "recording a b", "FOLDER/guest.1.0:2: found 'recording a b'; expected 'recording NAME'", at=2)
        line("guest", "log pager 0 0", "FOLDER/guest.1.0:3: found 'log pager 0 0'; expected 'log guest FIRST OPENING'", at=3)
        line("guest", "log guest 2 0", "FOLDER/guest.1.0:4: record 0 of the guest's log is in a file of the records from 2 on", at=3)
        line("pager", "0 got-sent 1", "FOLDER/pager.1.0:4: record 0 of the pager's log, 'got-sent 1': the link has a log of its own, whose number 'got' names")
        folder = self.recording(guest=text_of_file("guest", numbered(MOVED["guest"])[:4], last="end 4"))
        self.put(f"{folder}/guest.1.1", text_of_file("guest", numbered(MOVED["guest"])[4:]))
        self.wants("a record behind the end", folder, 2, "FOLDER/guest.1.1:4: record 4 of the guest's log is after the end that FOLDER/guest.1.0:8 tells")
        for text in ("", "postcopy-records 1\nrecord", "postcopy-records 1\n\0\0\0"):
            self.wants("a file that ends in its head", self.recording(guest=text), 1, "guest: FOLDER/guest.1.0 ends in its head: its process died as it began the file")

    def of_machines(self):
        """What is told of the machine: once, and of its pages alone."""
        call = "postcopy_record_machine, or Log.machine"
        place = "FOLDER/machine.1.0:%d: record %d of the machine's log"
        for what, records, said in (
            ("two machines", ["pages 2 1", "pages 4 1"], f"{place % (5, 1)}: a second 'pages 4 1', beside {place % (4, 0)}: 'pages 2 1'"),
            ("a page that is told twice", ["pages 2 1", *["page 1 0000000000000007"] * 2], f"{place % (6, 2)}: what page 1 holds at first is told twice, beside {place % (5, 1)}"),
            ("a page past the last", ["page 2 0000000000000007", "pages 2 1"], f"{place % (4, 0)}: there is no page 2: the machine has 2 pages, from 0 on"),
            ("a page of two cells", ["pages 2 1", f"page 1 {'0' * 31}7"], f"{place % (5, 1)}: contents of 2 cells, where a page of the machine has 1"),
            ("another record", ["pages 2 1", "cells 1"], f"{place % (5, 1)}: found 'cells 1'; expected 'pages PAGES CELLS LANE' or 'page PAGE CONTENTS'"),
            ("no machine", ["page 1 0000000000000007"], f"FOLDER/machine.1.0: no record tells how many pages there are: {call}"),
            ("no file of the machine", None, f"there is no file of the machine's log, which tells how many pages there are: {call}"),
        ):
            self.wants(what, self.recording(machine=records), 2, said)
        folder = self.folder()
        os.makedirs(folder)
        odd = self.folder() + "\n\x1b[0m\x85"
        os.makedirs(odd)
        self.told("a folder of an odd name", self.session(odd), 2, odd[:-6] + "\\u000a\\u001b[0m\\u0085: there is no file of a recorder, PARTY.PROCESS.N")
        self.told("a folder whose name is no text", self.session(odd + "\udcff"), 2, f'"{odd[:-6]}\\u000a\\u001b[0m\\u0085\\udcff": the name of this folder is not UTF-8')
        self.wants("an empty folder", folder, 2, "FOLDER: there is no file of a recorder, PARTY.PROCESS.N")

    def of_lanes(self):
        """A lane's log of which the machine's log tells has a file, which may have no records; recorders of before did not tell."""
        def recording(told, lane):
            return self.recording(machine=[f"pages 2 1{told}", MOVED["machine"][1]], lane=lane)

        call = "postcopy_record_machine_with_lane, or Log.machine_with_lane"
        lost = f"lane: there is no file of its log, of which the machine's log tells ({call})"
        untold = f"lane: the machine's log tells that it has no log: where it has one, call {call}"
        for told, lane, said in (
            (" 1", None, lost), (" 0", [], untold), (" 0", ["down 2"], untold),
            (" 1", text_of_file("lane", ["0 down 2"]), f"lane: FOLDER/lane.1.0 has no end: {ENDLESS}"),
            (" 1", text_of_file("lane", [], last="end 1"), "lane: record 0 is missing"),
        ):
            self.wants(f"a machine{told} and a lane {lane!r}", recording(told, lane), 1, said)
        for told, lane, version in ((" 1", [], 2), (" 1", ["down 2"], 2), ("", ["down 2"], 2), ("", None, 1), (" 0", None, 1)):
            ran = self.session(recording(told, lane))
            self.tests.same(f"a machine{told} and a lane {lane}", (ran.returncode, ran.stderr, ran.stdout[:18]), (0, "", f"postcopy-session {version}"))

    def of_children(self):
        """Forked children: none hangs, none records, and none does anything to its parent's files."""
        for mode, env in (("forked", os.environ), ("leaving", os.environ), ("forked", self.written), ("leaving", self.written)):
            folder = self.folder()
            ran = subprocess.run([self.program, mode, folder], stdout=subprocess.PIPE, timeout=120, env=env)
            self.tests.same(f"bindings/c/tests/recording.c {mode}", (ran.returncode, ran.stdout), (0, b""))
            ends = sum("\nnext " in self.has(f"{folder}/{name}") for name in os.listdir(folder))
            self.tests.same(f"the ends of {mode} logs", ends, {"forked": 1, "leaving": 200}[mode])
        folder = self.folder()
        ran = subprocess.run([self.program, "elsewhere", folder], stdout=subprocess.PIPE, timeout=120)
        records = sorted(line for name in os.listdir(folder) for line in self.has(f"{folder}/{name}").splitlines()[3:])
        self.tests.same("a process that changes its working folder", (ran.returncode, ran.stdout, records), (0, b"", ["0 halt", "end 1"]))
        log, is_over = Log(self.folder(), "guest"), threading.Event()

        def append():
            while not is_over.is_set():
                log.read(0, 0, 0, 1)

        threads = [threading.Thread(target=append) for _ in range(2)]
        for thread in threads:
            thread.start()
        ends = []
        for _ in range(30):
            child = os.fork()
            if child == 0:
                answers = (log.hand_over(), log.close())
                os._exit(0 if answers == (LOST, None) else 1)
            ends.append(self.waited(child))
        is_over.set()
        for thread in threads:
            thread.join()
        self.tests.same("forked children in Python", ends, [0] * 30)
        self.tests.same("the parent goes on", log.read(0, 0, 0, 3) != LOST, True)
        log.close()
        self.tests.same("what its file tells", self.ends_of(log), ["r", "end"])
        self.of_strays()

    def of_strays(self):
        """Calls that cannot be recorded: on a log by a child of its process, and on a closed one, as by a thread that ends late. What was recorded
        stays, and the log says that a record was not written."""
        for env in (os.environ, self.written):
            folder = self.folder()
            ran = subprocess.run([self.program, "stray", folder], stdout=subprocess.PIPE, timeout=120, env=env)
            self.tests.same("bindings/c/tests/recording.c stray", (ran.returncode, ran.stdout), (0, b""))
            self.tests.same("a child's call in C", self.has(f"{folder}/{self.only(folder, 'guest')}").split("\n", 3)[3], f"0 halt\n1 resume 1\nlost {errno.EPERM}\n")
        log = Log(self.folder(), "guest")
        log.halt()
        child = os.fork()
        if child == 0:
            os._exit(0 if log.see(1) == LOST else 1)
        answers = self.waited(child), log.resume(1), log.hand_over(), log.error.errno
        self.tests.same("a child's call in Python", (*answers, self.ends_of(log)), (0, 1, 2, errno.EPERM, ["resume", "lost"]))
        for forks in (False, True):
            log = Log(self.folder(), "guest")
            log.halt()
            log.close()
            self.tests.same("a log that was closed", self.ends_of(log), ["halt", "end"])
            child = os.fork() if forks else None
            if child is None:
                self.tests.same("a late call", (log.see(1), log.error.errno), (LOST, errno.EBADF))
            elif child == 0:
                os._exit(0 if log.see(1) == LOST else 1)
            else:
                self.tests.same("a late call of a child", self.waited(child), 0)
            self.tests.same("what its file tells then", (self.ends_of(log), log.see(1), self.ends_of(log)), (["halt", "lost"], LOST, ["halt", "lost"]))
        self.of_late_children()
        self.of_handlers()
        made = self.folder()
        log = Log(made, "guest")
        log.close()
        shutil.rmtree(made)
        other = Log(made, "guest")
        other.close()
        self.tests.same("a late call whose recording is gone", (log.see(1), self.ends_of(other)), (LOST, ["end"]))

    def of_handlers(self):
        """A signal handler that calls while its thread is in a call on the log, or closes it: nothing waits forever, and the log tells of it."""
        script = """if True:
            import signal, sys
            from postcopy.recorder import LOST, Log
            class Within(int):  # (what is written is asked for in the middle of a call, where a handler may come in)
                def __str__(self):
                    answers.append(self.call())
                    return "7"
            for call in ("see", "close", "hand_over"):
                log, answers = Log(f"{sys.argv[1]}.{call}", "guest"), []
                value = Within()
                value.call = {"see": lambda: log.see(1), "close": log.close, "hand_over": log.hand_over}[call]
                log.halt()
                log.read(0, 0, 0, value)
                log.close()
                print(call, answers, log.error.errno, log.see(1) == LOST)
            log, calls = Log(f"{sys.argv[1]}.often", "guest"), []
            signal.signal(signal.SIGALRM, lambda *_: calls.append(log.halt()))
            signal.setitimer(signal.ITIMER_REAL, 0.001, 0.001)
            while log.error is None and len(calls) < 300:
                log.read(0, 0, 0, 1)
            signal.setitimer(signal.ITIMER_REAL, 0)
            lost = calls.count(LOST)
            log.close()
            print(lost > 0, log.error is not None)
        """
        place = self.folder()
        env = {**os.environ, "PYTHONPATH": f"{TOP}/bindings/python"}
        ran = subprocess.run([sys.executable, "-B", "-c", script, place], env=env, capture_output=True, encoding="ascii", timeout=60)
        *told, often = ran.stdout.splitlines() or [""]
        busy = errno.EBUSY
        self.tests.same("handlers' calls", told, [f"see [{LOST}] {busy} True", f"close [None] {busy} True", f"hand_over [{LOST}] {busy} True"])
        self.tests.same("a handler that comes often", often in ("True True", "False False"), True)
        for call in ("see", "close", "hand_over"):
            folder = f"{place}.{call}"
            last = self.has(f"{folder}/{self.only(folder, 'guest')}").splitlines()[-1]
            self.tests.same(f"the last line where a handler makes the call {call}", last, f"lost {busy}")

    def of_late_children(self):
        """A child that was forked off in front of the close, and calls behind it: the log says that a record was not written."""
        for env in (os.environ, self.written):
            folder = self.folder()
            ran = subprocess.run([self.program, "late", folder], stdout=subprocess.PIPE, timeout=120, env=env)
            self.tests.same("bindings/c/tests/recording.c late", (ran.returncode, ran.stdout), (0, b""))
            ends = {}
            for name in os.listdir(folder):
                if name.startswith("guest."):
                    first, *_, last = self.has(f"{folder}/{name}").split("\n", 2)[2].splitlines()
                    ends[first.split()[2]] = last
            self.tests.same("the last lines in C", ends, {**dict.fromkeys("024", f"lost {errno.EPERM}"), "6": "end 8"})
        for how in ("that may open nothing", "that has nothing open", "that does not call"):
            log, (told, tell) = Log(self.folder(), "guest"), os.pipe()
            log.halt()
            child = os.fork()
            if child == 0:
                is_told = os.read(told, 1) == b"."
                if how == "that may open nothing" and os.getuid() == 0:
                    os.setgid(65534)
                    os.setuid(65534)
                elif how == "that has nothing open":
                    os.dup2(told, log._file)
                answer = LOST if how == "that does not call" else log.see(1) if is_told else None
                os._exit(0 if answer == LOST else 1)
            number = log.hand_over()
            os.write(tell, b".")
            self.tests.same(f"a child {how}, behind the close", (number, self.waited(child)), (1, 0))
            self.tests.same(f"what its file tells of a child {how}", self.ends_of(log), ["halt", "next" if how == "that does not call" else "lost"])
            os.close(told)
            os.close(tell)

    def of_closed_files(self):
        """A program that closes what it did not open, and opens its own file, which gets the numbers: not a byte of it changes, and it stays open.
        The log is lost, which is told, with few records and with more than a mapping holds."""
        place = self.folder()
        os.makedirs(place)
        text = bytes(range(256)) * 4000
        for env in (os.environ, self.written):
            for first, count in ((3, 0), (3, 30000), (4, 1)):  # (of all its files, or of a thread's alone)
                folder, own = self.recording(guest=None), f"{place}/own"
                self.put(f"{folder}/recording-name", "made\n")
                with open(own, "wb") as file:
                    file.write(text)
                ran = subprocess.run([self.program, "closed", folder, own, str(first), str(count)], stdout=subprocess.PIPE, env=env)
                with open(own, "rb") as file:
                    self.tests.same("a program's own file, in C", (ran.returncode, ran.stdout, file.read() == text), (0, b"", True))
                ran = self.session(folder)
                self.tests.same("what is said then", (ran.returncode, ran.stdout, "Bad file descriptor" in ran.stderr or ENDLESS in ran.stderr), (1, "", True))
        script = """if True:
            import os, sys
            from postcopy.recorder import LOST, Log
            log, dropped = Log(sys.argv[1], "guest"), Log(sys.argv[1], "pager")
            log.halt()
            os.closerange(3, 64)
            files = [os.open(sys.argv[2], os.O_RDWR) for _ in range(16)]
            print({log.halt() for _ in range(int(sys.argv[3]))} <= {LOST}, log.hand_over() == LOST, log.error.errno)
            del log, dropped
            print(len({(it.st_dev, it.st_ino) for it in map(os.fstat, files)}))
        """
        for count in (0, 100):
            with open(own, "wb") as file:
                file.write(text)
            words = [sys.executable, "-B", "-c", script, self.folder(), own, str(count)]
            ran = subprocess.run(words, capture_output=True, encoding="ascii", env={**os.environ, "PYTHONPATH": f"{TOP}/bindings/python"})
            with open(own, "rb") as file:
                found = ran.stdout.split(), ran.stderr, file.read() == text
            self.tests.same("a program's own file, in Python", found, (["True", "True", str(errno.EBADF), "1"], "", True))

    @staticmethod
    def ends_of(log):
        """The words of the last lines of a log's file, behind its head: of two where there are two."""
        with open(log._path, encoding="ascii") as file:
            return [line.split()[0 if line[0].isalpha() else 1] for line in file.read().splitlines()[3:][-2:]]

    @staticmethod
    def waited(child):
        """A child's status; where it hangs it is killed."""
        for _ in range(500):
            pid, status = os.waitpid(child, os.WNOHANG)
            if pid:
                return status
            time.sleep(0.01)
        os.kill(child, 9)
        return os.waitpid(child, 0)[1]

    def of_python(self):
        """Python's recorder: what a `with` leaves that an exception ended, a log that is handed over, and half a record."""
        folder = self.folder()
        try:
            with Log(folder, "machine") as log:
                log.machine(2, 1)
                raise KeyboardInterrupt
        except KeyboardInterrupt:
            pass
        with Log(folder, "guest") as guest:
            guest.halt()
            number = guest.hand_over()
            self.tests.same("a log that was handed over", (number, guest.hand_over()), (1, LOST))
        with Log(folder, "guest", number) as guest:
            self.tests.same("who goes on", guest.resume(1), 1)
        lost = Log(folder, "pager", LOST)
        self.tests.same("a log that nobody could hand over", (lost.ready(), lost.hand_over(), lost.error is None), (LOST, LOST, False))
        said = session_of([folder])[1]
        self.tests.same("an exception leaves no end", [it for it in said if it.startswith(("machine", "guest: /"))],
                        [f"machine: {folder}/{self.only(folder, 'machine')} has no end: {ENDLESS}"])
        folder = self.folder()
        words = ("import sys; from postcopy.recorder import LOST, Log; log = Log(sys.argv[1], 'machine'); log.machine(64, 512)\n"
                 "lost = sum(log.initial(page, [7] * 512) == LOST for page in range(64)); log.close()\n"
                 "print(lost, log.error.errno)")
        for limit, last in ((100000, b"lost 27\n"), (8322 + 75, b"")):
            shutil.rmtree(folder, ignore_errors=True)
            ran = subprocess.run([sys.executable, "-B", "-c", words, folder], stdout=subprocess.PIPE, preexec_fn=limited(limit), env={**os.environ, "PYTHONPATH": f"{TOP}/bindings/python"})
            lost, error = map(int, ran.stdout.split())
            with open(f"{folder}/{self.only(folder, 'machine')}", "rb") as file:
                text = file.read()
            self.tests.same("half a record is taken back", (error, text.endswith(last), text.count(b"\n") - text.count(b"lost")), (27, True, 4 + 64 - lost))
            self.tests.same("what is said of it", any(it.startswith("machine: ") for it in session_of([folder])[1]), True)

    def of_dropped(self):
        """Logs that nobody refers to any more: their files are closed, by the process that opened them alone, and such a log has no end."""
        folder = self.recording(guest=None)
        self.put(f"{folder}/recording-name", "made\n")
        log = Log(folder, "guest")
        self.tests.same("its calls", (log.write(0, 0, 0, 5), log.halt(), log.resume(1), log.see(3), log.read(0, 0, 0, 5)), (0, 1, 2, 3, 4))
        file = log._file
        child = os.fork()
        if child == 0:
            del log
            os._exit(0 if os.path.samestat(os.fstat(file), os.stat(f"{folder}/{self.only(folder, 'guest')}")) else 1)
        self.tests.same("a child that drops its parent's log", self.waited(child), 0)
        child = os.fork()
        if child == 0:
            taken, give = os.pipe()
            os.dup2(give, file)  # (as where a child closes what it did not open, and then opens its own)
            del log
            os.write(file, b".")
            os._exit(0 if os.read(taken, 1) == b"." else 1)
        self.tests.same("a child that drops it and has another file of this number", self.waited(child), 0)
        with warnings.catch_warnings(record=True) as told:
            warnings.simplefilter("always")
            name = log._path
            del log
        self.tests.same("what Python tells", [(it.category, str(it.message)) for it in told], [(ResourceWarning, f"a log was not closed: {name}")])
        self.tests.same("whether its file is open", os.path.realpath(name) in self.open_files(), False)
        self.wants("a log that was dropped", folder, 1, f"guest: FOLDER/{self.only(folder, 'guest')} has no end: {ENDLESS}")
        with warnings.catch_warnings(record=True) as told:
            warnings.simplefilter("always")
            for drop in (lambda: Log(folder, "lane").close(), lambda: Log(None, "lane"), lambda: Log(folder, "guest", LOST)):
                drop()
            for wrong in (-1, "none"):
                with contextlib.suppress(ValueError, TypeError):
                    Log(folder, "lane", wrong)
        self.tests.same("what Python tells of logs that were closed, or have no file", [str(it.message) for it in told], [])
        with Log(self.folder(), "guest") as log:
            for copied in (copy.copy, copy.deepcopy, pickle.dumps):
                try:
                    copied(log)
                    self.tests.same("no refusal", True, False)
                except TypeError as refusal:
                    self.tests.same(f"a copy by {copied.__name__}", str(refusal), "a log cannot be copied")
        words = "import sys; from postcopy.recorder import Log; log = Log(sys.argv[1], 'guest'); log.itself = log; log.halt()"
        env = {**os.environ, "PYTHONPATH": f"{TOP}/bindings/python"}
        folder = self.folder()
        ran = subprocess.run([sys.executable, "-B", "-W", "always::ResourceWarning", "-c", words, folder], capture_output=True, encoding="utf-8", env=env)
        name = f"{folder}/{self.only(folder, 'guest')}"
        said = re.sub("^.*ResourceWarning", "ResourceWarning", ran.stderr.splitlines()[0] if ran.stderr else "")
        self.tests.same("a process that ends", (ran.returncode, said, "Traceback" in ran.stderr), (0, f"ResourceWarning: a log was not closed: {name}", False))
        self.tests.same("the file of a process that ends", self.has(name).splitlines()[3:], ["0 halt"])

    @staticmethod
    def open_files():
        return [os.path.realpath(f"/proc/self/fd/{it}") for it in os.listdir("/proc/self/fd")]

    def of_last_window(self, folder, place):
        """Where the last window cannot be cut, the others have no name either: a judge of what stands there would find all of it clean."""
        program = f"{place}/program"
        self.put(program, f'#!/bin/sh\nif [ "$1 $4" = "window 1" ]; then sleep 1; echo "x: gone" >&2; exit 3; fi\nexec "{self.command}" "$@"\n')
        os.chmod(program, 0o755)
        for words, wanted in ((("1",), (2, "session: x: gone\n", [])), (("2",), (0, "", ["0-1"]))):
            ran = subprocess.run([sys.executable, f"{TOP}/recorders/session", folder, "-o", f"{place}/last", "--windows", *words],
                                 capture_output=True, encoding="utf-8", env={**os.environ, "POSTCOPY": program})
            self.tests.same(f"windows of {words[0]} pages", (ran.returncode, ran.stderr, os.listdir(f"{place}/last")), wanted)

    def of_output(self):
        """-o: the file is whole, or as it was; it keeps its mode, and what somebody planted beside it stays."""
        folder, place = self.recording(), self.folder()
        os.makedirs(place)
        wanted = self.session(folder).stdout
        old = os.umask(0o027)
        try:
            self.tests.same("a new file", (self.session(folder, "-o", f"{place}/new").returncode, self.has(f"{place}/new"), self.mode(f"{place}/new")), (0, wanted, 0o640))
            self.put(f"{place}/kept", "as it was\n")
            os.chmod(f"{place}/kept", 0o606)
            with open(f"{place}/kept", encoding="ascii") as before:
                self.tests.same("a file that is there", (self.session(folder, "-o", f"{place}/kept").returncode, self.has(f"{place}/kept")), (0, wanted))
                self.tests.same("who had it open reads what it was", before.read(), "as it was\n")
            self.tests.same("its mode", self.mode(f"{place}/kept"), 0o606)
        finally:
            os.umask(old)
        os.symlink("kept", f"{place}/link")
        self.put(f"{place}/kept", "as it was\n")
        self.tests.same("a link", (self.session(folder, "-o", f"{place}/link").returncode, os.readlink(f"{place}/link"), self.has(f"{place}/kept")), (0, "kept", wanted))
        for name in ("kept.part", ".kept.part"):
            os.symlink("victim", f"{place}/{name}")
        self.put(f"{place}/victim", "mine\n")
        self.put(f"{place}/kept", "as it was\n")
        self.session(folder, "-o", f"{place}/kept")
        self.tests.same("what somebody planted", self.has(f"{place}/victim"), "mine\n")
        self.put(f"{place}/kept", "as it was\n")
        names = set(os.listdir(place))
        for words in (("-o", f"{place}/kept"), ("-o", f"{place}/none"), ("--windows", "2", "-o", f"{place}/by")):
            ran = self.session(folder, *words, preexec_fn=limited(100))
            said = f"session: {words[-1]}: the file would be too large\n"
            self.tests.same("a full disk", (ran.returncode, ran.stderr, self.has(f"{place}/kept")), (2, said, "as it was\n"))
        self.tests.same("a full disk leaves nothing", set(os.listdir(place)), names)
        for words, name, why in (
            (("-o", f"{place}/no/file"), f"{place}/no/file", "No such file or directory"), (("-o", place), place, "Is a directory"),
            (("-o", f"{place}/kept", "--windows", "2"), f"{place}/kept", "File exists"), (("-o", "/dev/full"), "/dev/full", "No space left on device"),
        ):
            ran = self.session(folder, *words)
            self.tests.same(f"an output {words}", (ran.returncode, ran.stderr, self.has(f"{place}/kept")), (2, f"session: {name}: {why}\n", "as it was\n"))
        os.makedirs(f"{place}/by/0-0")
        ran = self.session(folder, "--windows", "1", "-o", f"{place}/by")
        self.tests.same("a window whose file cannot be", (ran.returncode, ran.stderr), (2, f"session: {place}/by/0-0: Is a directory\n"))
        self.tests.same("it leaves no window", os.listdir(f"{place}/by"), ["0-0"])
        self.of_last_window(folder, place)
        cut = self.recording(pager=None)
        ran = self.session(cut, "-o", f"{place}/kept")
        self.tests.same("a part", (ran.returncode, self.has(f"{place}/kept")), (1, "as it was\n"))
        self.tests.same("a device", self.session(folder, "-o", "/dev/null").returncode, 0)
        for words in ((), ("--recording",)):
            ran = self.session(folder, "-o", "/dev/stdout", *words)
            self.tests.same("a pipe", (ran.returncode, ran.stdout), (0, wanted))
            with open("/dev/full", "w", encoding="ascii") as full:
                env = {**os.environ, "POSTCOPY": self.command}
                ran = subprocess.run([sys.executable, f"{TOP}/recorders/session", folder, *words], stdout=full, stderr=subprocess.PIPE, encoding="utf-8", env=env)
            self.tests.same("an output that is full", (ran.returncode, ran.stderr), (2, "session: standard output: No space left on device\n"))
            ran = self.session(folder, *words, preexec_fn=lambda: os.close(1))
            self.tests.same("an output that is closed", (ran.returncode, ran.stdout, ran.stderr), (2, "", "session: standard output: it is closed, or not open for this\n"))
            self.put(f"{place}/kept", "as it was\n")
            ran = self.session(folder, "-o", f"{place}/kept", *words, preexec_fn=lambda: os.closerange(0, 3))
            self.tests.same("a file where all else is closed", (ran.returncode, self.has(f"{place}/kept")), (0, wanted))
        self.of_two_writers(place)
        self.of_ended_scripts()
        self.of_programs(folder, place, wanted)

    def of_two_writers(self, place):
        """Two at once: the file is what one of them wrote. The other may find it there, and then writes nothing."""
        long = [*MOVED["guest"], *["r 0 0 0 5"] * 30000]
        folders = self.recording(), self.recording(guest=long)
        texts = [self.session(folder).stdout for folder in folders]
        for _ in range(3):
            env = {**os.environ, "POSTCOPY": self.command}
            writers = [subprocess.Popen([sys.executable, f"{TOP}/recorders/session", folder, "-o", f"{place}/shared"], env=env, stderr=subprocess.DEVNULL) for folder in folders]
            statuses = {writer.wait() for writer in writers}
            self.tests.same("two writers", (0 in statuses, statuses <= {0, 2}, self.has(f"{place}/shared") in texts), (True, True, True))
            os.remove(f"{place}/shared")
        self.tests.same("two writers leave nothing", [name for name in os.listdir(place) if re.match(r"\.(session|postcopy-session)", name)], [])

    def of_ended_scripts(self):
        """A script that is ended while it writes: what is there is whole, and nothing else is."""
        place, longer = self.folder(), self.recording(guest=[*MOVED["guest"], *["r 0 0 0 5"] * 100000])
        os.makedirs(place)
        wanted = {}
        for words in (("--windows", "1", "-o", f"{place}/by"), ("--window", "0-0", "-o", f"{place}/one"), ("-o", f"{place}/all")):
            self.tests.same("a script that is not ended", self.session(longer, *words).returncode, 0)
        for name in ("by/0-0", "by/1-1", "one", "all"):
            wanted[name] = self.has(f"{place}/{name}")
        for number in range(12):
            shutil.rmtree(place)
            os.makedirs(place)
            words = (("--windows", "1", "-o", f"{place}/by"), ("--window", "0-0", "-o", f"{place}/one"), ("-o", f"{place}/all"))[number % 3]
            ran = subprocess.Popen([sys.executable, f"{TOP}/recorders/session", longer, *words], env={**os.environ, "POSTCOPY": self.command}, stderr=subprocess.PIPE)
            time.sleep(0.06 + 0.03 * number)
            ran.terminate()
            said = ran.communicate()[1]
            self.tests.same("how it ends", (said, ran.returncode in (0, -signal.SIGTERM, 128 + signal.SIGTERM)), (b"", True))
            found = [os.path.relpath(os.path.join(folder, name), place) for folder, _, names in os.walk(place) for name in names]
            self.tests.same("what is there", [name for name in found if self.has(f"{place}/{name}") != wanted.get(name)], [])

    def of_programs(self, folder, place, wanted):
        """The program that the script calls: the one that is named, the one beside the script, and one that is none."""
        self.put(f"{place}/ended", "#!/bin/sh\nkill -9 $$\n")
        self.put(f"{place}/silent", "#!/bin/sh\n")
        self.put(f"{place}/other", "#!/bin/sh\necho 'postcopy-sessions 1'\n")
        self.put(f"{place}/failed", "#!/bin/sh\nexit 1\n")
        self.put(f"{place}/told", f"#!/bin/sh\necho 'postcopy: built here' >&2\nexec '{self.command}' \"$@\"\n")
        for name in ("ended", "silent", "other", "failed", "told"):
            os.chmod(f"{place}/{name}", 0o755)
        for name, said, status in (
            ("none", f"session: {place}/none: No such file or directory: the program, which the variable POSTCOPY may name\n", 2),
            ("ended", "session: the program was ended by the signal 9\n", 2),
            ("silent", "session: the program, which the variable POSTCOPY may name, wrote no session\n", 2),
            ("other", "session: the program, which the variable POSTCOPY may name, wrote no session\n", 2),
            ("failed", "session: the program, which the variable POSTCOPY may name, ended with the status 1, and said nothing\n", 2),
            ("told", "postcopy: built here\n", 0),
        ):
            for words in ((), ("--recording",)):
                ran = run_script(f"{place}/{name}", folder, *words)
                self.tests.same(f"a program {name} {words}", (ran.stdout, ran.stderr, ran.returncode), ("" if status else wanted, said, status))
        self.put(f"{place}/kept", "as it was\n")
        ran = run_script(f"{place}/silent", folder, "--recording", "-o", f"{place}/kept")
        self.tests.same("a file of a silent program", (ran.returncode, self.has(f"{place}/kept")), (2, "as it was\n"))
        ran = self.session(f"{place}/file of none")
        self.tests.same("a folder whose name begins as a kind of failure", (ran.stderr, ran.returncode), (f"session: {place}/file of none: no such file or directory\n", 2))
        ran = self.session("file of none", cwd=place)
        self.tests.same("such a folder beside it", (ran.stderr, ran.returncode), ("session: file of none: no such file or directory\n", 2))
        os.makedirs(f"{place}/prefix/bin")
        shutil.copytree(f"{TOP}/share/postcopy/python", f"{place}/prefix/share/postcopy/python")
        shutil.copy(f"{TOP}/recorders/session", f"{place}/prefix/bin/postcopy-session")
        shutil.copytree(f"{TOP}/bindings/python/postcopy", f"{place}/prefix/share/postcopy/python/postcopy")
        os.symlink(self.command, f"{place}/prefix/bin/postcopy")
        env = {name: value for name, value in os.environ.items() if name != "POSTCOPY"}
        ran = subprocess.run([f"{place}/prefix/bin/postcopy-session", folder], capture_output=True, encoding="ascii", env=env)
        self.tests.same("the program beside the script", (ran.stdout, ran.stderr, ran.returncode), (wanted, "", 0))

    @staticmethod
    def mode(name):
        return stat.S_IMODE(os.stat(name).st_mode)

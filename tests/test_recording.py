"""Writes sessions from the traces of examples/recording and examples/recording-woken-early, and has them judged.

Each folder's traces have to give its session, byte for byte, and the program its answers to that. The times in the traces
have to be no matter. And each change of the traces, which is one thing that goes wrong in a migration, has to be found at
the record that tells of it. Where the lane brings some of the packets, it has a trace too, and the session is of the second
version; but for that it has to be the same, with the same entries in its certificate. And the C of docs/RECORDING.md has to
compile, and its skeleton to record a session that is judged as the page shows.
"""
import os
import re
import shutil
import subprocess

import forked
import pytest
from cases import leave_out, same
from made_sessions import script_of_traces
from page_text import commands_of

from postcopy.recorder import Log
from session_text import LOGS, SessionText, logs_of

TOP = os.path.dirname(os.path.dirname(os.path.abspath(__file__)))
RIGHT, EARLY = "examples/recording", "examples/recording-woken-early"
SCRIPT = f"{TOP}/{RIGHT}/session_from_traces.py"

# What goes wrong, the changes of the right traces (what stands in a trace just once, and what takes its place), and the first
# line of the report.
CHANGES = (
    ("a page is sent as it was before the disk wrote to it", {
        "source": [("a9 page frame=40002 sum=e3960d5b18af7c42", "a9 page frame=40002 sum=51e07c3b86d4f92a")],
        "pager": [("of=p21 sum=e3960d5b18af7c42", "of=p21 sum=51e07c3b86d4f92a")],
    }, "faulty line 34 stale"),
    ("a page is changed on its way", {"pager": [("of=p13 sum=27b4e8135c90fa6d", "of=p13 sum=27b4e8135c90fa6c")]}, "faulty line 57 altered"),
    ("a packet that comes late is placed over a write", {"pager": [("drop of=p19", "place frame=40001 of=p19 sum=27b4e8135c90fa6d")]}, "faulty line 61 twice"),
    ("a write is lost", {"guest": [("g24 read actor=cpu0 frame=40001 sum=6ac5d90f3e8271b4", "g24 read actor=cpu0 frame=40001 sum=27b4e8135c90fa6d")]}, "faulty line 25 read"),
    ("a released page is sent", {
        "source": [("a9 page frame=40002 sum=e3960d5b18af7c42", "a9 page frame=40003 sum=0000000000000000")],
        "pager": [("place frame=40002 of=p21 sum=e3960d5b18af7c42", "drop of=p21")],
    }, "faulty line 34 given"),
    ("a page that was written after its release is placed as zeros", {
        "guest": [
            ("g10 free actor=cpu1 frame=40003\n", "g10 free actor=cpu1 frame=40003\n0 g25 write actor=cpu1 frame=40003 sum=b00c55e2974af3d1\n"),
            ("g23 read actor=cpu1 frame=40003 sum=0000000000000000", "g23 read actor=cpu1 frame=40003 sum=b00c55e2974af3d1"),
        ],
    }, "faulty line 60 unfit"),
    ("a wake tells of what came only after it", {"guest": [("g17 woken actor=cpu0 pager=p15", "g17 woken actor=cpu0 pager=p18")]}, "knot line 19"),
    ("a repeat is told as a second page", {"source": [("repeat of=a5", "page frame=40001 sum=27b4e8135c90fa6d")]}, "shape line 33 second-send"),
    ("the source starts its guest again", {"source": [("a11 finish\n", "a11 finish\n0 a12 restart\n")]}, "shape line 37 both"),
    ("nothing, seen through one page", {"guest": [("frames=40000-40003", "frames=40001-40001")]}, "clean"),
    ("nothing, seen through one page, where a look shows a newer placement of another", {
        "guest": [("frames=40000-40003", "frames=40000-40000"), ("look actor=disk0 frame=40000 pager=p11", "look actor=disk0 frame=40000 pager=p15")],
    }, "clean"),
)

# The packets of the right traces that the lane may bring as well, which are those of the pages that were pushed: what the link's
# trace and the pager's have of them, their places in the link's log, and the lane's trace.
BY_THE_LANE = {
    "link": [("t5 down source=a6", "t5 hold source=a6"), ("t9 down source=a9", "t9 hold source=a9")],
    "pager": [("p10 packet link=t5", "p10 pushed lane=l1"), ("p21 packet link=t9", "p21 pushed lane=l2")],
}
CARRIED = (2, 6)
LANE = "# The lane. Time: none.\n- l1 down source=a6\n- l2 down source=a9\n"
LANE_CHANGES = (
    ("nothing", {}, "clean"),
    ("a page is changed on its way by the lane", {"pager": [("of=p10 sum=9d2c41f07ab35e68", "of=p10 sum=9d2c41f07ab35e69")]}, "faulty line 55 altered"),
    ("the lane brings what the source did not send down", {"lane": [("l2 down source=a9", "l2 down source=a10")]}, "shape line 46 named"),
)

# What the C of docs/RECORDING.md takes for given.
PRELUDE = """
#include <linux/userfaultfd.h>
#include <pthread.h>
#include <postcopy_record.h>
#include <sys/ioctl.h>
extern int uffd;
extern uint32_t placed_as[];
extern postcopy_log *pager;
extern pthread_mutex_t pager_lock;
extern uint64_t address_of(uint32_t page);
"""

# The same, of the traces where the pager wakes the guest too early.
EARLY_CHANGES = (
    ("seen through the page that it woke the guest for", {"guest": [("frames=40000-40003", "frames=40001-40001")]}, "faulty line 11 early"),
    ("seen through two other pages", {"guest": [("frames=40000-40003", "frames=40002-40003")]}, "clean"),
)


def read(name):
    with open(f"{TOP}/{name}", encoding="ascii", newline="") as file:
        return file.read()


def traces_of(folder):
    return {log: read(f"{folder}/{log}.trace") for log in logs_of(1)}


def traces_with_a_lane():
    return {**changed(traces_of(RIGHT), BY_THE_LANE), "lane": LANE}


def changed(traces, changes):
    """The traces with each old text, which has to stand just once, replaced by the new one."""
    traces = dict(traces)
    for log, texts in changes.items():
        for old, new in texts:
            if traces[log].count(old) != 1:
                raise ValueError(f"'{old}' does not stand once in {log}.trace")
            traces[log] = traces[log].replace(old, new)
    return traces


def front_of(session, counts):
    """A session whose logs have just their first records, so many of each."""
    front = SessionText(session)
    for log, count in counts.items():
        del front.logs[log][count:]
    return front.text()


class Tests:
    wants = staticmethod(same)

    def __init__(self, program, room):
        self.program, self.room = program, room

    def written(self, traces, *options):
        """What the script writes of these traces, what it says, and its status."""
        for log in LOGS:
            if log in traces:
                with open(f"{self.room}/{log}.trace", "w", encoding="ascii") as file:
                    file.write(traces[log])
            elif os.path.exists(f"{self.room}/{log}.trace"):
                os.remove(f"{self.room}/{log}.trace")
        ran = forked.run(SCRIPT, self.room, *options, encoding="ascii")
        return ran.stdout, ran.stderr, ran.returncode

    def answer(self, command, *texts):
        """What the program answers to these texts, and its status."""
        for number, text in enumerate(texts):
            with open(f"{self.room}/{number}", "w", encoding="ascii") as file:
                file.write(text)
        ran = subprocess.run([self.program, command, *map(str, range(len(texts)))], cwd=self.room, capture_output=True, encoding="ascii")
        return ran.stdout, ran.returncode

    def of_folders(self):
        for folder in (RIGHT, EARLY):
            self.wants(f"the session of {folder}", self.written(traces_of(folder)), (read(f"{folder}/session"), "", 0))
            timeless = {log: re.sub("^[0-9][^ ]*", "0", text, flags=re.MULTILINE) for log, text in traces_of(folder).items()}
            self.wants(f"{folder} with no times", self.written(timeless), (read(f"{folder}/session"), "", 0))
        session, certificate = read(f"{RIGHT}/session"), read(f"{RIGHT}/certificate")
        self.wants("audit", self.answer("audit", session), ("clean\n" + certificate, 0))
        self.wants("certify", self.answer("certify", session), (certificate, 0))
        self.wants("check", self.answer("check", session, certificate), ("yes\n", 0))
        early = read(f"{EARLY}/session")
        self.wants("audit of an early wake", self.answer("audit", early), (read(f"{EARLY}/stdout"), 1))
        self.wants("certify of an early wake", self.answer("certify", early), ("faulty line 19 early\n", 1))

    def of_changes(self):
        for folder, changes in ((RIGHT, CHANGES), (EARLY, EARLY_CHANGES)):
            for what, texts, wanted in changes:
                session, said, status = self.written(changed(traces_of(folder), texts))
                self.wants(f"writing: {what}", (said, status), ("", 0))
                self.wants(what, self.answer("audit", session)[0].split("\n", 1)[0], wanted)

    def of_lane(self):
        traces, session = traces_with_a_lane(), SessionText(read(f"{RIGHT}/session"))
        session.tell_in(2)
        session.carry(CARRIED)
        self.wants("the session with a lane", self.written(traces), (session.text(), "", 0))
        report, _ = self.answer("audit", session.text())
        entries = re.findall("^page .*", read(f"{RIGHT}/certificate"), re.MULTILINE)
        self.wants("its entries", re.findall("^page .*", report, re.MULTILINE), entries)
        for what, texts, wanted in LANE_CHANGES:
            text, said, status = self.written(changed(traces, texts))
            self.wants(f"writing: {what}", (said, status), ("", 0))
            self.wants(what, self.answer("audit", text)[0].split("\n", 1)[0], wanted)
        del traces["lane"]
        hole = "session_from_traces.py: pager.trace: p10 tells of l1, which lane.trace has not\n"
        self.wants("no trace of the lane", self.written(traces), ("", hole, 1))

    def of_holes(self):
        """Traces that tell of what is not there, and traces that end early: what came of later events is left out."""
        traces, session = traces_of(RIGHT), read(f"{RIGHT}/session")
        later = changed(traces, {"pager": [("drop of=p19", "drop of=p21")]})
        self.wants("a later packet", self.written(later), ("", "session_from_traces.py: pager.trace: p20 tells of p21, which pager.trace has not before it\n", 1))
        twice = changed(traces, {"pager": [(" p19 packet", " p16 packet")]})
        self.wants("a name that comes twice", self.written(twice), ("", "session_from_traces.py: pager.trace: line 20 names a second p16\n", 1))
        other = {**traces, "guest": traces["guest"].replace(" g8 ", " h7 ")}
        self.wants("a number that comes twice", self.written(other), ("", "session_from_traces.py: guest.trace: line 10 names a second h7\n", 1))
        # (such names tell of no event that is lost)
        marked = {log: re.sub(r"\b([gatp][0-9]+)\b", r"\1x", text) for log, text in traces.items()}
        marked["guest"] = re.sub("^[^ \n]+ g20x .*\n", "", marked["guest"], flags=re.MULTILINE)
        said = "session_from_traces.py: guest.trace: line 3 has the name 'g1x', which is no letter and a number\n"
        self.wants("names with no number at their end", self.written(marked), ("", said, 1))
        for log, name, behind, left in (("guest", "g8", "g9", 16), ("source", "a4", "a5", 7), ("link", "t4", "t5", 6), ("pager", "p8", "p9", 15)):
            lost = {**traces, log: re.sub(f"^[^ \n]+ {name} .*\n", "", traces[log], flags=re.MULTILINE)}
            said = f"session_from_traces.py: {log}.trace: there is no {name} before {behind}: an event was lost"
            self.wants(f"{name} is lost", self.written(lost), ("", f"{said}\n", 1))
            text, told, status = self.written(lost, "--cut")
            self.wants(f"{name} is lost, cut", (told.splitlines()[0], status, self.answer("audit", text)[0].split("\n", 1)[0]), (f"{said}: {left} events left out", 0, "clean"))
        half = {**traces, "pager": traces["pager"] + "81354"}
        said = "session_from_traces.py: pager.trace: the last line was not written to its end"
        self.wants("a line that ends early", self.written(half), ("", f"{said}\n", 1))
        self.wants("the same, cut", self.written(half, "--cut"), (session, f"{said}: left out\n", 0))
        unknown = changed(traces, {"guest": [("g24 read", "g24 raed")]})
        said = "session_from_traces.py: guest.trace: line 26 has the event 'raed', which is in no table here\n"
        self.wants("an event that is not known", self.written(unknown), ("", said, 1))
        for what, old, new, said in (("a key that is not there", "g12 start pager=p3", "g12 start", "has no pager"), ("a sum that is not there", " sum=", " som=", "has no sum"),
                                     ("a key that comes twice", "g12 start pager=p3", "g12 start pager=p3 pager=p4", "has a key twice"),
                                     ("a sum that is no number", "sum=9d2c41f07ab35e68", "sum=none", "has a sum that is no hexadecimal number"),
                                     ("a frame with a sign", "frame=40001", "frame=-1", "has a frame that is no hexadecimal number"),
                                     *((f"the frames {it}", "frames=40000-40003", f"frames={it}", "has frames that are not FIRST-LAST, in hexadecimal")
                                       for it in ("40003-40000", "40000", "40000-40001-40003", "-40003", "any-40003"))):
            wrong = {**traces, "guest": traces["guest"].replace(old, new, 1)}
            text, told, status = self.written(wrong)
            self.wants(what, (text, re.sub("line [0-9]+", "line N", told), status), ("", f"session_from_traces.py: guest.trace: line N {said}\n", 1))
        capital = changed(traces, {"guest": [("g8 write actor=cpu1 frame=7f3a1", "g8 write actor=cpu1 frame=7F3A1")]})
        self.wants("a frame in capital digits", self.written(capital), (session, "", 0))
        again = changed(traces, {"guest": [("g3 found frame=40001", "g3 found frame=40000")]})
        self.wants("a frame that is found twice", self.written(again), ("", "session_from_traces.py: guest.trace: g3 has a frame that was found before\n", 1))
        second = {**traces, "guest": f"{traces['guest']}0 g25 begin frames=40000-40001 actors=cpu0\n"}
        for options in ((), ("--cut",)):
            self.wants("a second begin", self.written(second, *options), ("", "session_from_traces.py: guest.trace: g25 is a second begin\n", 1))
        stranger = changed(traces, {"guest": [("g24 read actor=cpu0", "g24 read actor=cpu7")]})
        self.wants("an actor that begin does not have", self.written(stranger), ("", "session_from_traces.py: guest.trace: 'cpu7' is no actor that begin has\n", 1))
        text, told, status = self.written({**traces, "link": "\x1f\x0b no text"})
        self.wants("a trace that is none", (text, told, status), ("", "session_from_traces.py: link.trace: the last line was not written to its end\n", 1))
        alone = {log: "".join(traces[log].partition(f" {ends}\n")[:2]) for log, ends in (("guest", "g11 stop"), ("source", "a1 stopped guest=g11"))}
        text, said, status = self.written({**alone, "link": "", "pager": ""})
        verdict = self.answer("audit", text)[0].split("\n", 1)[0]
        self.wants("a source's log that is one event is not left out", (said, status, verdict), ("", 0, "shape line 15 start"))
        for log, ends, said, more, counts in (
            ("link", "t8", "source.trace: a10 tells of t10, which link.trace has not",
             (": 2 events left out", "pager.trace: p19 tells of t8, which link.trace has not: 5 events left out"),
             {"guest": 17, "source": 8, "link": 5, "pager": 13}),
            ("source", "a2", "link.trace: t1 tells of a2, which source.trace has not",
             (": 10 events left out", "pager.trace: p1 tells of t1, which link.trace has not: 23 events left out",
              "guest.trace: g12 tells of p3, which pager.trace has not: 13 events left out", "source.trace: a1 alone is no log of a source: left out"),
             {"guest": 5, "source": 0, "link": 0, "pager": 0}),
        ):
            ended = {**traces, log: re.sub(f"^[^ \n]+ {ends} .*", "", traces[log], flags=re.MULTILINE | re.DOTALL)}
            self.wants(f"{log}.trace ends before {ends}", self.written(ended), ("", f"session_from_traces.py: {said}\n", 1))
            cut = front_of(session, counts)
            told = "".join(f"session_from_traces.py: {it}\n" for it in (said + more[0], *more[1:]))
            self.wants("the same, cut", self.written(ended, "--cut"), (cut, told, 0))
            self.wants("audit of what was cut", self.answer("audit", cut)[0].split("\n", 1)[0], "clean")

    def of_limits(self):
        """Machines, logs and numbers of the greatest size that a session may have, and ones that are greater by one."""
        traces = {log: text.replace("frame=7f3a1 ", "frame=7f3a1ff ") for log, text in traces_of(RIGHT).items()}
        session = SessionText(read(f"{RIGHT}/session"))
        for last, pages, version in (("4ffff", 65536, 1), ("50000", 65537, 3), ("103ffff", 16777216, 3)):
            session.tell_in(version)
            session.head[1] = f"pages {pages}"
            ran = self.written(changed(traces, {"guest": [("frames=40000-40003", f"frames=40000-{last}")]}))
            self.wants(f"{pages} pages", ran, (session.text(), "", 0))
            if pages == 65537:
                self.wants("their verdict", self.answer("audit", ran[0])[0].split("\n", 1)[0], "clean")
        for last, pages in (("1040000", 16777217), ("4" + 19 * "0" + "3ffff", 4 * 16**24)):
            said = f"session_from_traces.py: guest.trace: begin has {pages} frames, and a session at most 16777216 pages\n"
            for options in ((), ("--cut",)):
                self.wants(f"{pages} pages {options}", self.written(changed(traces, {"guest": [("frames=40000-40003", f"frames=40000-{last}")]}), *options), ("", said, 1))
        for number, wanted in ((63, ""), (64, "session_from_traces.py: guest.trace: 'cpu1' is none of the first 64 actors of begin, and a session has no more\n")):
            names = ",".join(["cpu0", "disk0", *(f"none{it}" for it in range(number - 2)), "cpu1"])
            text, said, status = self.written(changed(traces, {"guest": [("actors=cpu0,cpu1,disk0", f"actors={names}")]}))
            verdict = self.answer("audit", text)[0].split("\n", 1)[0] if text else ""
            self.wants(f"an actor with {number} in front of it", (verdict, said, status), ("" if wanted else "clean", wanted, 1 if wanted else 0))
        told = {log: re.sub("sum=([0-9a-f]+)", lambda found: f"sum={found[1].lstrip('0').upper() or '0'}", text) for log, text in traces_of(RIGHT).items()}
        self.wants("sums in capital digits, and with no zeros in front", self.written(told), (read(f"{RIGHT}/session"), "", 0))
        for log, line in (("guest", 3), ("source", 5), ("pager", 9)):
            longer = {**traces, log: re.sub("sum=", "sum=1", traces[log], count=1)}
            text, said, status = self.written(longer)
            said = re.sub("line [0-9]+", "line N", said)
            self.wants(f"a sum of 68 bits in {log}.trace", (text, said, status), ("", f"session_from_traces.py: {log}.trace: line N has a sum of more than 16 digits\n", 1))
        self.of_records()

    def of_records(self):
        """Logs of a script with lesser limits: the pager's, which is the longest, has 18 records."""
        for log, text in traces_of(RIGHT).items():
            with open(f"{self.room}/{log}.trace", "w", encoding="ascii") as file:
                file.write(text)
        script, session = script_of_traces(), SessionText(read(f"{RIGHT}/session"))
        self.wants("the limits", (script.SMALL, script.LARGE), ((65536, 1048576), (16777216, 134217728)))
        longest = max(len(session.logs[log]) for log in LOGS)
        for small, large, version in ((longest, longest, 1), (longest - 1, longest, 3)):
            script.SMALL, script.LARGE = (4, small), (4, large)
            session.tell_in(version)
            self.wants(f"{longest} records, with room for {small} and {large}", script.Recording(self.room, False).text(), session.text())
        script.LARGE = (4, longest - 1)
        with pytest.raises(script.Hole, match=f"there are {longest} records, and a session has at most {longest - 1} of a log"):
            script.Recording(self.room, False)


@pytest.mark.quick
@pytest.mark.cases(97)
def test_recording(program, room):
    tests = Tests(program, room)
    tests.of_folders()
    tests.of_changes()
    tests.of_lane()
    tests.of_holes()
    tests.of_limits()


def skeleton_in(room, program, name):
    """Puts the skeleton in C of docs/RECORDING.md into a folder in which the page's commands run, and answers the page and the skeleton."""
    page = read("docs/RECORDING.md")
    skeleton = re.search(r"Save it as `smallest\.c`.*?```c\n(.*?)```", page, re.S)[1]
    for folder in ("bindings", "recorders"):
        os.symlink(f"{TOP}/{folder}", f"{room}/{folder}")
    os.symlink(program, f"{room}/postcopy")
    with open(f"{room}/{name}", "w", encoding="ascii") as file:
        file.write(skeleton)
    return page, skeleton


def test_skeleton(program, cc, room):
    """The skeleton in C of docs/RECORDING.md: it compiles without a warning, and what it records is judged as the
    page shows; and with the change that the page names, too."""
    page, skeleton = skeleton_in(room, program, "smallest.c")
    assert skeleton.count("\n") <= 40
    (compiling, nothing, _), (judging, shown, _) = commands_of(page)[:2]
    assert (compiling.startswith(f"{cc} -pthread "), nothing, shown) == (True, [], ["clean"])
    strict = compiling.replace(f"{cc} ", f"{cc} -std=c11 -Wall -Wextra -Werror ", 1)
    right, wrong = re.search(r"Change `(.+?)` in the call of `memcpy` to `(.+?)`", page).groups()
    assert skeleton.count(f"memcpy(at_target[page], {right}") == 1
    for text, lines in (
        (skeleton, shown),
        (skeleton.replace(f"[page], {right}", f"[page], {wrong}"), [re.search(r"and the audit says `(.+?)`", page)[1]]),
    ):
        with open(f"{room}/smallest.c", "w", encoding="ascii") as file:
            file.write(text)
        shutil.rmtree(f"{room}/recording", ignore_errors=True)
        ran = subprocess.run(["bash", "-c", f"{strict} && {judging}"], cwd=room, stdout=subprocess.PIPE, encoding="ascii")
        assert ran.stdout.splitlines() == lines
    assert no_folder(room) == (1, "/dev/null: Not a directory\n")


def no_folder(room):
    """The status of a skeleton that can open no log, and what it tells: an audit would judge the files of an earlier run."""
    ran = subprocess.run([f"{room}/smallest", "/dev/null"], stdout=subprocess.PIPE, stderr=subprocess.STDOUT, encoding="utf-8")
    return ran.returncode, ran.stdout


def test_skeletons_of_other_languages(program, room, cc):
    """The skeleton is C++ too, and the one in Rust, bindings/rust/smallest.rs, records what is judged as the page shows."""
    page, _ = skeleton_in(room, program, "smallest.cpp")
    for compiler in ("c++", "rustc"):
        if not shutil.which(compiler):
            leave_out(f"the skeleton by {compiler}, which is not there")
            continue
        commands = commands_of(page)
        at = next(at for at, (command, _, _) in enumerate(commands) if command.startswith("rustc "))
        (object_file, _, _), (linking, _, _), (judging, shown, _) = commands[at - 1:at + 2]
        assert (object_file.startswith(f"{cc} -O2 -pthread "), shown) == (True, ["clean"])
        if compiler == "c++":
            linking = "c++ -std=c++17 -Wall -Wextra -Werror -pthread -Ibindings/c -o smallest smallest.cpp postcopy_record.o"
        shutil.rmtree(f"{room}/rust-recording", ignore_errors=True)
        ran = subprocess.run(["bash", "-c", f"{object_file} && {linking} && {judging}"], cwd=room, stdout=subprocess.PIPE, stderr=subprocess.STDOUT, encoding="utf-8")
        assert ran.stdout.splitlines() == shown
        status, told = no_folder(room)
        assert (status != 0, "Not a directory" in told) == (True, True)


def test_lines_in_their_order(program, room, cc):
    """The lines of the page that record by a program in C, by userfaultfd and by a program in Rust, each once in the page's order and in one
    folder, as they are copied: none of them finds the recording of another in its own folder."""
    page, _ = skeleton_in(room, program, "smallest.c")

    def wrote(*lines):
        ran = subprocess.run(["bash", "-e", "-c", "\n".join(lines)], cwd=room, stdin=subprocess.DEVNULL, capture_output=True, encoding="utf-8")
        return ran.returncode, ran.stdout.partition("\n")[0], ran.stderr

    commands = [command for command, _, _ in commands_of(page)]
    assert commands[0].startswith(f"{cc} -pthread ")
    assert wrote(*commands[:2]) == (0, "clean", "")
    compiling, moving, explaining = re.search(r"^```sh\n(cc .*?uffd.*?)^```$", page, re.M | re.S)[1].splitlines()
    status, _, why = wrote(compiling, moving)
    if status == 3:
        leave_out(f"the lines by userfaultfd: {why.strip()}")
    else:
        status, first, told = wrote(explaining)
        assert (status, re.sub("[0-9]+", "N", first), told) == (1, "faulty line N early", "")
    if not shutil.which("rustc"):
        leave_out("the lines by rustc, which is not there")
        return
    at = next(at for at, command in enumerate(commands) if command.startswith("rustc "))
    assert wrote(*commands[at - 1:at + 2]) == (0, "clean", "")


def record(folder, placed=lambda page: page + 1, is_closed=True):
    """Writes the files of a migration of 8 pages. A page holds the cell page + 1, and `placed` is what stands in its place at the target."""
    shutil.rmtree(folder, ignore_errors=True)
    machine, guest, source, pager = logs = [Log(folder, party) for party in ("machine", "guest", "source", "pager")]
    machine.machine(8, 1)
    source.halted(guest.halt())
    pager.got_sent(source.state())
    guest.resume(pager.ready())
    for page in range(8):
        machine.initial(page, [page + 1])
        guest.see(pager.place(page, pager.got_sent(source.send(page, [page + 1])), [placed(page)]))
        guest.read(0, page, 0, placed(page))
    source.ask_sent(pager.all())
    source.done()
    for log in logs if is_closed else logs[:-1]:
        log.close()


def test_lines_for_windows(program, room):
    """The lines of docs/PERFORMANCE.md that judge a larger machine through windows, on one machine and by an array job, whose tasks run here one
    after the other. Their status is 0 if each window is clean, and only then: not if what they show cannot be written, nor if the recording
    made no text and that of an earlier one is there. So it is too where the last window has fewer pages than the others."""
    written, cut, judged, _, as_tasks, put_together = re.findall(r"^```sh\n(.*?)^```$", read("docs/PERFORMANCE.md"), re.M | re.S)
    as_tasks = f'sbatch() {{ for SLURM_ARRAY_TASK_ID in $(seq "${{2#--array=1-}}"); do export SLURM_ARRAY_TASK_ID; sh -c "$4"; done; }}\n{as_tasks}'
    os.symlink(program, f"{room}/postcopy")

    def status(size, judging, *how):
        lines = "".join((written, *judging)).replace("16384", size) + f"({put_together.strip()}){''.join(how)}"
        ran = subprocess.run(["bash", "-c", lines], cwd=room, stdin=subprocess.DEVNULL, capture_output=True, encoding="ascii")
        return ran.returncode, ran.stdout

    recording = f"{room}/recording"
    # (as many lines stand in front of a window's guest as it has pages, and five; two records more, and two for each page up to the faulty one,
    # which is read in the last of them)
    for size, told in (("2", "4 faulty line 13 read\n"), ("3", "3 faulty line 16 read\n"), ("7", "0 faulty line 26 read\n"), ("16384", "0 faulty line 27 read\n")):
        for judging in ((cut, judged), (as_tasks,)):
            record(recording)
            assert (size, *status(size, judging)) == (size, 0, "")
            record(recording, is_closed=False)
            assert status(size, judging)[0] == 1
            record(recording, lambda page: page + 1 + (page == 5))
            assert (size, *status(size, judging)) == (size, 1, told)
            assert [status(size, judging, how)[0] for how in (" > /dev/full", " >&-")] == [1, 1]


def test_lines_of_the_man_page(program, room):
    """The lines of the man page that make a session and judge it: they judge no session of before, if none is made."""
    lines, = re.findall(r"^Make the session of a recording, and judge it:\n.*?^\.nf\n(.*?)^\.fi$", read("share/man/man1/postcopy.1"), re.M | re.S)
    os.symlink(program, f"{room}/postcopy")

    def status():
        env = {**os.environ, "PATH": f"{room}:{os.environ['PATH']}"}
        return subprocess.run(["sh", "-c", lines.replace("\\-", "-")], cwd=room, stdin=subprocess.DEVNULL, capture_output=True, env=env).returncode

    record(f"{room}/recording")
    assert status() == 0
    record(f"{room}/recording", is_closed=False)
    assert status() == 1


def test_page(cc):
    """The further C that docs/RECORDING.md shows. Its other commands are run by test_pages.py."""
    shown, = re.findall(r"```c\n(static void place\(.*?)```", read("docs/RECORDING.md"), re.S)
    words = [cc, "-std=c11", "-Wall", "-Wextra", "-Werror", "-Wno-unused-function", "-fsyntax-only", f"-I{TOP}/bindings/c", "-x", "c", "-"]
    assert subprocess.run(words, input=PRELUDE + shown, encoding="ascii").returncode == 0

"""What postcopy-annotate tells other tools of sessions, beside what the program says of them."""
import glob
import json
import os
import random
import re
import shutil
import signal
import subprocess
import sys
import time
import unicodedata
import xml.etree.ElementTree as ElementTree
from urllib.parse import unquote

from case_table import CASES
import forked
import pytest
from cases import same
from sarif_shape import faults

TOP = os.path.dirname(os.path.dirname(os.path.realpath(__file__)))
SCRIPT, REPORT, SESSION = f"{TOP}/share/bin/postcopy-annotate", f"{TOP}/share/bin/postcopy-report", f"{TOP}/recorders/session"

# Names that a form writes otherwise than they stand, or that a program would take for an option.
NAMES = ("plain", "a:b,c%d", "<&\">'", "-dash", "two words", "\u00e9")
CONTENTS = {"clean": "handover", "early": "early-access", "knot": "circle-of-receipts", "shape": "wrong-shape", "refused": "leading-zero"}

# A letter of each kind that an output has as it is.
EVEN = "aZ0 .,:;%&<>'\"\\#?=\u00a0\u00e9\u0301\u05d0\u4e00\ue000\U0001f600"


def is_odd(letter):
    """Whether no output has this as it is, by Unicode's table."""
    return unicodedata.category(letter) in ("Cc", "Cf", "Zl", "Zp")


def odd_names(count, size):
    """So many names of files, with so many odd characters each, among others: each odd one, and others at random."""
    chance = random.Random(7)
    odd = [*filter(is_odd, map(chr, range(1, sys.maxunicode + 1)))]
    letters = odd + chance.choices([*odd, "\ufffe", "\uffff", "\udc80", "\udcff"], k=size * count - len(odd))
    return ["n" + "".join(chance.sample(letters[at::count] + chance.choices(EVEN, k=4), size + 4)) for at in range(count)]


class Tests:
    same = staticmethod(same)

    def __init__(self, program, room):
        self.program, self.room = program, room
        self.version = subprocess.run([program, "--version"], capture_output=True, text=True).stdout.split()[1]

    def asked(self, command, name):
        path = f"./{name}"
        child = subprocess.run([self.program, command, path], cwd=self.room, stdin=subprocess.DEVNULL, capture_output=True, text=True)
        return child.returncode, child.stdout.splitlines(), child.stderr.removeprefix(path)

    def notes(self, names):
        """What the program notes of clean sessions."""
        return subprocess.run([self.program, "audit", *names], cwd=self.room, stdin=subprocess.DEVNULL, capture_output=True, text=True).stderr

    def told(self, *words, program=None):
        ran = forked.run(SCRIPT, "--program", program or self.program, *words, cwd=self.room, encoding="utf-8")
        return ran.returncode, ran.stdout, ran.stderr

    def wanted(self, name):
        """The place, the reason and the text that are to be told of a session, or None of a clean one."""
        status, lines, errors = self.asked("audit", name)
        if status == 0:
            return None
        words = lines[0].split(" ")
        if errors:
            place, text = re.fullmatch(r":(\d+:\d+): (.*)\n", errors).groups()
            return place, words[0], text
        numbers = [words[at + 1] for at, it in enumerate(words) if it == "line"]
        reason = words[0] if words[-1] in numbers else words[-1]
        return numbers[0], reason, self.asked("explain", name)[1][1]

    def one_session(self, name):
        wanted = self.wanted(name)
        # (behind `--` a name may begin with a dash)
        status, output, errors = self.told("--", name)
        self.same(f"the status and the errors of {name}", (status, errors), (0 if wanted is None else 1, ""))
        lines = "" if wanted is None else f"{name}:{wanted[0]}: {wanted[1]}: {wanted[2]}\n"
        self.same(f"the lines of {name}", output, lines)
        self.same(f"the annotation of {name}", self.annotation(name), None if wanted is None else (name, *wanted))
        self.same(f"the result of {name}", self.sarif(name), None if wanted is None else (name, *wanted))
        self.same(f"the test of {name}", self.junit(name), (name, wanted and (wanted[1], wanted[2], f"{name}:{wanted[0]}: {wanted[2]}")))

    def annotation(self, name):
        """What GitHub's runner reads of the annotation: the file, the place, the title and the message."""
        output = self.told("--as", "github", "--", name)[1]
        found = re.fullmatch(r"::error file=([^,:]*),line=([^,:]*)(?:,col=([^,:]*))?,title=([^,:]*)::(.*)\n", output)
        if not found:
            return None
        file, line, column, title, text = (re.sub("%([0-9A-F]{2})", lambda it: chr(int(it[1], 16)), it or "") for it in found.groups())
        return file, f"{line}:{column}" if column else line, title, text

    def sarif_log(self, *words):
        """A log of SARIF, which has the form of its standard."""
        log = json.loads(self.told("--as", "sarif", *words)[1])
        self.same(f"what is wrong with the form of a log over {words}", faults(log), [])
        return log

    def sarif(self, name):
        """What SARIF tells of a session, as for an annotation; its rule is one that the tool names."""
        run, = self.sarif_log("--", name)["runs"]
        self.same(f"the end of the run over {name}", run["invocations"], [{"executionSuccessful": True, "toolExecutionNotifications": []}])
        if not run["results"]:
            return None
        result, = run["results"]
        driver = run["tool"]["driver"]
        rule, = driver["rules"]
        words = rule["shortDescription"]["text"]
        self.same(f"the rules of {name}", (rule["id"], rule["fullDescription"]["text"], len(words) > 10), (result["ruleId"], f"{words[0].upper()}{words[1:]}.", True))
        self.same(f"the driver's version for {name}", driver["version"], self.version)
        place = result["locations"][0]["physicalLocation"]
        region = ":".join(str(place["region"][it]) for it in ("startLine", "startColumn") if it in place["region"])
        return unquote(place["artifactLocation"]["uri"]), region, result["ruleId"], result["message"]["text"]

    def junit(self, name):
        output = self.told("--as", "junit", "--", name)[1]
        case = ElementTree.fromstring(output.encode()).find("testcase")
        failure = case.find("failure")
        return case.get("name"), None if failure is None else (failure.get("type"), failure.get("message"), failure.text)

    def many(self):
        """Several sessions in one call, and one that cannot be judged."""
        alone = "".join(self.told(name)[1] for name in CONTENTS)
        self.same("several sessions", self.told(*CONTENTS), (1, alone, ""))
        self.same("clean sessions", self.told("clean", "clean"), (0, "", ""))
        self.same("a file that is not there", self.told("nothing", "early")[:2], (3, "nothing: not judged: no such file or directory\n" + self.told("early")[1]))
        for name, shown in (("a\nb: clean", '"a\\u000ab: clean"'), ("x\x1b[31m", '"x\\u001b[31m"'), ('"q"', '"\\"q\\""'), ("back\\slash é", "back\\slash é")):
            shutil.copy(f"{CASES}/refused-page-past-the-machine/session", f"{self.room}/{name}")
            status, output, errors = self.told(name)
            self.same(f"a session of the name {shown}", (status, output.startswith(f"{shown}:7:5: session-text: found "), output.count("\n"), errors), (1, True, 1, ""))
        os.makedirs(f"{self.room}/folder/guest.1.0")
        self.same("a folder with a file that cannot be read", self.told("folder")[:2], (3, "folder: not judged: folder/guest.1.0: it is a directory\n"))
        os.rmdir(f"{self.room}/folder/guest.1.0")
        self.same("a folder without files", self.told("folder")[:2], (3, "folder: not judged: session: folder: there is no file of a recorder, PARTY.PROCESS.N\n"))
        report = ElementTree.fromstring(self.told("--as", "junit", "nothing", *CONTENTS)[1].encode())
        counts = [report.get(it) for it in ("tests", "failures", "errors")]
        self.same("the counts of a report", counts, ["6", "4", "1"])
        run, = self.sarif_log("nothing", *CONTENTS)["runs"]
        notes = [it["message"]["text"] for it in run["invocations"][0]["toolExecutionNotifications"]]
        self.same("a log with a session that was not judged", (len(run["results"]), run["invocations"][0]["executionSuccessful"], notes),
                  (4, False, ["nothing: no such file or directory"]))
        self.same("the error of a report", report.find("testcase").find("error").get("message"), "no such file or directory")

    def calls(self):
        """How often the program is called, and with how many words."""
        log = f"{self.room}/calls"
        with open(f"{self.room}/counting", "w", encoding="ascii") as file:
            file.write(f'#!/bin/sh\necho "$1 $#" >> {log}\nexec {self.program} "$@"\n')
        os.chmod(file.name, 0o755)
        def made(*words):
            open(log, "w").close()
            answer = self.told(*words, program=file.name)
            with open(log, encoding="ascii") as calls:
                return answer, calls.read().splitlines()
        self.same("1,200 clean sessions", made(*["clean"] * 1200), ((0, "", ""), ["audit 501", "audit 501", "audit 201"]))
        self.same("one more that is clean", made(*["clean"] * 1201)[1], ["audit 501", "audit 501", "audit 202"])
        self.same("one that is left over", made(*["clean"] * 501), ((0, "", ""), ["audit 501", "audit 2"]))
        early = self.told("early")[1]
        self.same("two of 600 that are not", made(*["clean"] * 300, "early", *["clean"] * 298, "early"), ((1, early * 2, ""), ["audit 501", "audit 101", "explain 2", "explain 2"]))
        gone = "nothing: not judged: no such file or directory\n"
        self.same("two that are not there", [made(*["clean"] * 3, "nothing", "clean", "early", "nothing")[0]], [(3, gone + early + gone, "")])
        self.same("none that is there", self.told("nothing", "nothing")[:2], (3, gone * 2))
        self.same("a program that always fails", self.told("early", "clean", program="false")[:2],
                  (3, "early: not judged: the program ended with the status 1\nclean: not judged: the program ended with the status 1\n"))
        self.same("a program that says nothing", self.told("early", "clean", program="true")[:2],
                  (3, "early: not judged: the program ended with the status 0\nclean: not judged: the program ended with the status 0\n"))

    def outputs(self):
        """Where what is found cannot be written, and where its reader has closed the pipe."""
        words = [SCRIPT, "--program", self.program, "--as", "junit", "clean"]
        said = "postcopy-annotate: standard output: "
        with open("/dev/full", "w", encoding="ascii") as full:
            child = subprocess.run(words, cwd=self.room, stdout=full, stderr=subprocess.PIPE, text=True)
        self.same("a full disk", (child.returncode, child.stderr), (3, f"{said}No space left on device\n"))
        child = subprocess.run(words, cwd=self.room, stderr=subprocess.PIPE, text=True, preexec_fn=lambda: os.close(1))
        self.same("an output that is closed", (child.returncode, child.stderr), (3, f"{said}it is closed\n"))
        for name, status in (("clean", 0), ("early", 1)):
            reader, writer = os.pipe()
            os.close(reader)
            child = subprocess.run([*words[:-1], name], cwd=self.room, stdout=writer, stderr=subprocess.PIPE, text=True)
            os.close(writer)
            self.same(f"a pipe that nobody reads, of {name}", (child.returncode, child.stderr), (status, ""))

    def odd_names(self):
        """Names that a list of lines could be read wrong by, and one that is no text."""
        names = ("ok\nclean: clean", "x: clean", "\x1b[31mred", "line\u2028end", os.fsdecode(b"not-utf-8-\xff"), "a %20 b#c?")
        for name in names:
            shutil.copy(f"{self.room}/early", f"{self.room}/{name}")
        text = self.wanted("early")[2]
        shown = ('"ok\\u000aclean: clean"', "x: clean", '"\\u001b[31mred"', '"line\\u2028end"', '"not-utf-8-\\udcff"', "a %20 b#c?")
        self.same("names in lines", self.told(*names, "clean"), (1, "".join(f"{it}:13: early: {text}\n" for it in shown), ""))
        run, = self.sarif_log("clean", *names)["runs"]
        places = [unquote(it["locations"][0]["physicalLocation"]["artifactLocation"]["uri"], errors="surrogateescape") for it in run["results"]]
        self.same("names in SARIF", places, list(names))
        self.same("a name that is not there", self.told("no\nthing", "clean")[1], '"no\\u000athing": not judged: no such file or directory\n')

    def no_odd_character(self, what, text):
        self.same(f"odd characters in {what}", sorted({it for it in text.replace("\n", "") if is_odd(it) or it in "\ufffe\uffff"}), [])

    def thousand_names(self):
        """Names with odd characters, in each form: none is told as it is, and the name is read back."""
        names = odd_names(1000, 3)
        for name in names:
            os.symlink(f"{CASES}/complete-four-empty-logs/session", f"{self.room}/{name}")
        def back(told):
            return [json.loads(it) if it.startswith('"') else it for it in told]
        told = {form: self.told("--complete-pages", "--as", form, *names) for form in ("lines", "github", "junit", "sarif")}
        for form, (status, output, errors) in told.items():
            self.same(f"the status and the errors of {form}", (status, errors), (1, ""))
            self.no_odd_character(form, output)
        self.same("names in lines", back(it.partition(": incomplete: ")[0] for it in told["lines"][1].splitlines()), names)
        files = re.findall("^::error file=([^,:]*),title=incomplete::", told["github"][1], re.M)
        self.same("names in annotations", back(re.sub("%(25|2C|3A)", lambda it: chr(int(it[1], 16)), it) for it in files), names)
        self.same("names in a JUnit report", back(it.get("name") for it in ElementTree.fromstring(told["junit"][1].encode())), names)
        results = json.loads(told["sarif"][1])["runs"][0]["results"]
        uris = [it["locations"][0]["physicalLocation"]["artifactLocation"]["uri"] for it in results]
        self.same("names in SARIF", [unquote(it, errors="surrogateescape") for it in uris], names)
        noted = self.told(*names)
        self.no_odd_character("notes", noted[2])
        self.same("names in notes", back(it.partition(": note: ")[0] for it in noted[2].splitlines()), names)
        run, = json.loads(self.told("--as", "sarif", *names)[1])["runs"]
        notices = [it["message"]["text"] for it in run["invocations"][0]["toolExecutionNotifications"]]
        self.no_odd_character("notifications", "\n".join(notices))
        self.same("names in notifications", back(it.partition(": note: ")[0] for it in notices), names)

    def other_scripts(self):
        """What the scripts tell of files and folders that are not there, of wrong words, and of a program that is none: no odd character."""
        for name in odd_names(6, 40):
            for script, words in ((SCRIPT, (name,)), (REPORT, (name, "-o", "report")), (SESSION, (name,)), (SESSION, (name, "-o", f"{name}/{name}"))):
                for more in ((), (f"--{name}",)):
                    child = forked.run(script, *words, *more, cwd=self.room, env={"POSTCOPY": self.program if not more else f"./{name}"})
                    what = f"what {os.path.basename(script)} tells of {ascii((words, more))}"
                    self.same(f"whether something is said: {what}", (child.returncode > 0, bool(child.stdout + child.stderr)), (True, True))
                    self.no_odd_character(what, child.stdout.decode() + child.stderr.decode())

    def meanings(self):
        """Each reason has its words in SARIF."""
        with open(f"{TOP}/bindings/c/postcopy.h", encoding="utf-8") as file:
            words = re.findall(r"POSTCOPY_REASON_(\w+) = ", file.read())
        reasons = {*(it.lower().replace("_", "-") for it in words), "knot", "session-text", "incomplete"}
        with open(SCRIPT, encoding="utf-8") as file:
            told = re.findall(r'^    "([a-z-]+)": "[^"]+",$', file.read(), re.MULTILINE)
        self.same("what has a meaning", sorted(told), sorted(reasons))

    def incomplete(self):
        """Sessions that do not tell of a whole migration, where that is asked for."""
        front = "the session does not tell of a whole migration: incomplete"
        for case, place, rest in (("four-empty-logs", "", "halt"), ("placement-left-out", "", "page 2"), ("drop-left-out", ":60", "line 60")):
            shutil.copy(f"{CASES}/complete-{case}/session", f"{self.room}/{case}")
            for times in (1, 2):
                notes = self.notes([case] * times)
                self.same(f"whether something is noted of {case}, {times} times", bool(notes), case != "drop-left-out")
                self.same(f"{case}, {times} times, without asking", self.told(*[case] * times), (0, "", notes))
            told = 1, f"{case}{place}: incomplete: {front} {rest}\n", ""
            self.same(case, self.told("--complete", case), told)
            self.same(f"{case}, twice", self.told("--complete", case, case), (1, told[1] * 2, ""))
            of_pages = (0, "", "") if case == "drop-left-out" else told
            self.same(f"{case}, by its pages", self.told("--complete-pages", case), of_pages)
            self.same(f"{case}, by its pages, twice", self.told("--complete-pages", case, case), (of_pages[0], of_pages[1] * 2, ""))
            self.same(f"{case}, by both", self.told("--complete", "--complete-pages", case), told)
            run, = self.sarif_log("--complete", case)["runs"]
            region = run["results"][0]["locations"][0]["physicalLocation"].get("region")
            self.same(f"the place of {case}", region, {"startLine": int(place[1:])} if place else None)
        shutil.copy(f"{CASES}/complete-whole-migration/session", f"{self.room}/whole")
        self.same("a whole migration", self.told("--complete", "whole"), (0, "", ""))
        self.same("a fault, where a whole migration is asked for", self.told("--complete", "early"), self.told("early"))

    def noted(self):
        """What is noted of a clean session is told in each form that a viewer shows, and not only on standard error."""
        shutil.copy(f"{TOP}/examples/right/session", f"{self.room}/a,b")
        note = self.notes(["a,b"]).removeprefix("a,b: ").rstrip("\n")
        self.same("a note", note.startswith("note: the guest neither reads nor writes"), True)
        told = {form: self.told("--as", form, "clean", "a,b") for form in ("lines", "github", "junit")}
        self.same("in lines", told["lines"], (0, "", f"a,b: {note}\n"))
        self.same("of GitHub", told["github"], (0, f"::warning file=a%2Cb::{note}\n", f"a,b: {note}\n"))
        cases = ElementTree.fromstring(told["junit"][1].encode()).findall("testcase")
        self.same("in a JUnit report", (told["junit"][0], [it.findtext("system-err") for it in cases]), (0, [None, note]))
        run, = self.sarif_log("clean", "a,b")["runs"]
        self.same("in SARIF", run["invocations"], [{"executionSuccessful": True, "toolExecutionNotifications": [{"level": "warning", "message": {"text": f"a,b: {note}"}}]}])

    def refused(self):
        """Texts that are refused, with the words that stand in their folders."""
        for case in ("page-past-the-machine", "upper-case-contents", "count-too-large", "gzip-file"):
            at = f"{CASES}/refused-{case}"
            shutil.copy(f"{at}/session", f"{self.room}/{case}")
            with open(f"{at}/stderr", encoding="ascii") as file:
                place, text = re.fullmatch(r"session:(\d+:\d+): (.*)\n", file.read()).groups()
            self.same(case, self.told(case), (1, f"{case}:{place}: session-text: {text}\n", ""))

    def wrong_words(self):
        self.same("no session", self.told()[:2], (2, ""))
        self.same("a form that is none", self.told("--as", "prose", "early")[:2], (2, ""))
        status, output, errors = self.told("early", program=f"{self.room}/no-program")
        self.same("a program that is not there", (status, output, "no-program" in errors), (3, "", True))

    def streams(self):
        """Sessions that come by standard input or a pipe: they are read once, and judged as the same file is."""
        def fed(data, *names, **others):
            child = subprocess.run([SCRIPT, "--program", self.program, *names], cwd=self.room, input=data, capture_output=True, **others)
            return child.returncode, child.stdout.decode(), child.stderr.decode()
        for kind in ("clean", "early", "refused"):
            with open(f"{self.room}/{kind}", "rb") as file:
                data = file.read()
            status, output, errors = self.told(kind)
            name = "/dev/stdin" if kind == "refused" else "-"
            self.same(f"{kind} by {name}", fed(data, name), (status, output.replace(f"{kind}:", f"{name}:", 1), errors))
            with open(f"{self.room}/{kind}", "rb") as file:
                child = subprocess.run([SCRIPT, "--program", self.program, "/dev/stdin"], cwd=self.room, stdin=file, capture_output=True)
            self.same(f"{kind}, a file that is standard input", child.returncode, status)
        os.mkfifo(f"{self.room}/pipe")
        with subprocess.Popen(["sh", "-c", "cat early > pipe"], cwd=self.room):
            self.same("a pipe with a name", self.told("clean", "pipe"), (1, self.told("early")[1].replace("early:", "pipe:", 1), ""))
        self.same("a standard input that is closed", fed(None, "-", preexec_fn=lambda: os.close(0)), (3, "", "postcopy-annotate: -: Bad file descriptor\n"))

    def ended(self):
        """A signal in the middle leaves nothing temporary, and no verdict. And which program is run where none is named."""
        rooms = f"{self.room}/rooms"
        os.mkdir(rooms)
        with open(f"{self.room}/waits", "w", encoding="ascii") as file:
            file.write("#!/bin/sh\nexec sleep 60\n")
        os.chmod(file.name, 0o755)
        for number in (signal.SIGINT, signal.SIGTERM, signal.SIGHUP):
            script = subprocess.Popen([SCRIPT, "--program", file.name, "clean"], cwd=self.room, stdin=subprocess.DEVNULL, stdout=subprocess.PIPE, stderr=subprocess.PIPE,
                                      env={**os.environ, "TMPDIR": rooms}, preexec_fn=lambda number=number: signal.signal(number, signal.SIG_DFL if number != signal.SIGINT else signal.default_int_handler))
            until = time.monotonic() + 30
            while not glob.glob(f"{rooms}/*/0.session") and time.monotonic() < until:
                time.sleep(0.01)
            script.send_signal(number)
            self.same(f"the end by the signal {number}", (*script.communicate(), script.returncode, os.listdir(rooms)), (b"", b"", 128 + number, []))
        env = {name: value for name, value in os.environ.items() if name != "POSTCOPY"}
        for named in ({}, {"POSTCOPY": ""}):
            child = subprocess.run([SCRIPT, "clean"], cwd=self.room, env={**env, **named, "PATH": "/usr/bin:/bin"}, capture_output=True)
            self.same("the program of the checkout", (child.returncode, child.stderr), (0, b""))

    def each(self):
        for kind in CONTENTS:
            self.one_session(kind)
        for name in NAMES:
            shutil.copy(f"{self.room}/early", f"{self.room}/{name}")
            self.one_session(name)


def parts(*cases_of, marks=()):
    """The parts of the tests, each with the least number of its cases."""
    return [pytest.param(part, marks=[pytest.mark.cases(least), *marks]) for part, least in cases_of]


@pytest.mark.parametrize("part", [
    *parts((Tests.each, 86), (Tests.many, 12), (Tests.calls, 8), (Tests.outputs, 4), (Tests.odd_names, 3), (Tests.meanings, 1), (Tests.incomplete, 23),
           (Tests.refused, 4), (Tests.wrong_words, 3), (Tests.streams, 8), (Tests.ended, 5), (Tests.noted, 6), marks=[pytest.mark.quick]),
    *parts((Tests.thousand_names, 16), (Tests.other_scripts, 96))], ids=lambda it: it.__name__)
def test_annotated(program, room, part):
    for kind, example in CONTENTS.items():
        shutil.copy(f"{TOP}/examples/{example}/session", f"{room}/{kind}")
    part(Tests(program, room))

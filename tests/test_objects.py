"""What audits, checks and explanations write as objects of JSON, beside the lines that they write of the same texts, and `--quiet`.

The texts are those of the example folders and of the test cases, with and without `--complete`. Of each answer in lines of text
an object is made here, by docs/FORMATS.md and the session's own lines; the program has to write that object, on one line with no
space, with the same status and the same words on standard error. The object of an explanation is that of the audit with records, each
of a kind that its role has, and named in the words of the explanation. About a page or a line, its topic says what these words say.
"""
import itertools
import json
import os
import re
import subprocess

from case_table import case_files, name_of
import pytest
from cases import same

from session_text import SessionText
from told_topics import steps_of, topic_of

# What names the page of a record of these words, by its place among the record's fields.
PAGE_FIELD = {"r": 2, "w": 2, "send": 1, "place": 1, "zero": 1}


# The fields of the object of a refused text, in their order.
REFUSED = ("verdict", "line", "column", "found", "expected", "reason")

# The kinds of causes.
CAUSES = "altered", "early", "given-send", "lost-write", "never-placed", "placed-again", "placed-over", "stale-send", "unrecorded", "zeroed"

# The first sentence on a fault of a page, and the first record in it.
CAUSED = re.compile(r"^(Page \d+ goes wrong|No record explains|Line \d+ \([a-z]+ \d+\) is wrong: )", re.M)
FIRST = re.compile(r"[Ll]ine (\d+) \(([a-z]+) (\d+)\)")

# What the first word of a record of each role is, where the role says it.
ROLES = {
    "changed": ("w", "z"), "halt": ("halt",), "sent": ("send",), "delivered": ("down",), "taken": ("got", "pull"),
    "placed": ("place", "zero"), "placed-again": ("place", "zero"), "look": ("see",), "touch": ("r", "w", "z"), "resume": ("resume",), "faulty": None, "waits": None, "named": None,
}


def record_of(session, line):
    """The log and the number of the record at a line of a session's text, and the page that it is of."""
    for log, records in session.logs.items():
        first = session.line(log, 0) if records else 0
        if records and first <= line < first + len(records):
            words = records[line - first].split(" ")
            field = PAGE_FIELD.get(words[0])
            return {"log": log, "record": line - first}, field and int(words[field])
    raise ValueError(f"no record at line {line}")


def runs_of(lines):
    """The runs among the lines of a report or a certificate."""
    return [[word, int(count)] for key, word, count in (line.split(" ") for line in lines if line.startswith("run "))]


def found_runs(session):
    """The runs of the found order, as far as it goes."""
    return [[log, len(list(names))] for log, names in itertools.groupby(session.found_order(), key=lambda name: name[0])]


def incomplete(session, words):
    """The object of a session that lacks something."""
    if words[0] == "page":
        return {"verdict": "incomplete", "missing": "page", "page": int(words[1])}
    if words[0] == "line":
        line = int(words[1])
        return {"verdict": "incomplete", "missing": "placement", "line": line, **record_of(session, line)[0]}
    return {"verdict": "incomplete", "missing": words[0]}


# The words on a refused text: its line, the column, what was found there, and what is expected.
WORDS = re.compile(r'[^:]*:(\d+):(\d+): (.*)')
FOUND = re.compile(r'found "(.*?)"(\.\.)?(?: (?:in|after) ".*"(?:\.\.)?)?; expected .*')
AS_IN = re.compile(r'.*, as in "(.*?)"(?:; .*)?')
QUOTED = re.compile(r'"([^"]*)"')


def refused(verdict, line, errors):
    """The object of a refused text, by the words on standard error. The forms are told only if there are few."""
    told, column, words = WORDS.match(errors.decode().splitlines()[0]).groups()
    found = {"verdict": verdict, "line": line, "column": int(column)}
    same("the line of the words", int(told), line)
    at = FOUND.match(words)
    if at:
        found["found"] = at[1] + (at[2] or "")
    return found, words


def is_refused(given, verdict, line, errors):
    """Whether this object says what standard error says of a refused text."""
    found, words = refused(verdict, line, errors)
    given = dict(given)
    forms, reason = given.pop("expected", None), given.pop("reason")
    same(f"the fields of {words}", given, found if "carriage return" not in words else {**found, "found": "\\x0d"})
    same(f"the reason of {words}", reason, words)
    if forms is None:
        return any(part in words for part in ("carriage return", "line feed after", "unpack it", "UTF-16", "byte order mark", "nothing after"))
    form = AS_IN.match(words)
    few = QUOTED.findall(words.rpartition("; expected ")[2])
    return (form[1] in forms) if form else all(name in few for name in forms) if len(forms) <= 3 and few else len(forms) > 0


def object_of(text, session_bytes):
    """The object of an answer in lines. The runs of a knot, which stand in no line, are those of a slow model."""
    lines = text.decode().splitlines()
    words = lines[0].split(" ")
    verdict = {"verdict": words[0]}
    if words[0] in ("yes", "pages"):
        return verdict
    if words[0] == "clean":
        return {**verdict, "runs": runs_of(lines)}
    if words[0] in ("runs", "page"):
        return {**verdict, "line": int(words[2])}
    session = SessionText(session_bytes.decode())
    if words[0] == "incomplete":
        return incomplete(session, words[1:])
    line = int(words[2])
    record, page = record_of(session, line)
    found = {**verdict, "line": line, **record}
    if words[0] == "knot":
        return {**found, "runs": found_runs(session)}
    found["reason"] = words[3]
    return found if words[0] == "shape" else {**found, "page": page, "runs": runs_of(lines)}


class Tests:
    same = staticmethod(same)

    def __init__(self, program, room):
        self.program, self.room = program, room
        self.seen, self.roles, self.reasons, self.causes = set(), set(), set(), set()
        self.texts, self.known = {}, {}

    def ran(self, *words):
        """What the program answers, which it is asked once of the same texts."""
        asked = words, *map(self.texts.get, words)
        if asked not in self.known:
            child = subprocess.run([self.program, *words], cwd=self.room, stdin=subprocess.DEVNULL, capture_output=True)
            self.known[asked] = child.returncode, child.stdout, child.stderr
        return self.known[asked]

    def one(self, what, words, session_bytes):
        """The object of an answer, and its first line alone."""
        status, text, errors = self.ran(*words)
        if words[0] == "audit":
            self.same(f"--quiet of {what}", self.ran("audit", "--quiet", *words[1:]), (status, text.splitlines(keepends=True)[0], errors))
        given, output, told = self.ran(words[0], "--format", "json", *words[1:])
        self.same(f"the status and the errors of {what}", (given, told), (status, errors))
        if words[0] == "audit":
            self.same(f"--quiet of the object of {what}", self.ran("audit", "--quiet", "--format", "json", *words[1:]), (given, output, told))
        found = json.loads(output)
        self.seen.add((found["verdict"], found.get("reason") or found.get("missing")))
        self.same(f"the line of {what}", output.decode(), json.dumps(found, separators=(",", ":")) + "\n")
        first = text.decode().split("\n")[0].split(" ")
        if first[0] in ("session-text", "certificate-text"):
            self.same(f"the object of {what}", is_refused(found, first[0], int(first[2]), errors), True)
            self.same(f"the order of the fields of {what}", [name for name in REFUSED if name in found], list(found))
        else:
            self.same(f"the object of {what}", list(found.items()), list(object_of(text, session_bytes).items()))

    def told(self, what, options, report):
        """The object of an explanation with these options, beside that of the audit: its topic and its records, and the words. Where it has the
        fault of a page apart, this is one that the audit lists."""
        status, output, errors = self.ran("explain", "--format", "json", *options, "session")
        words = self.ran("explain", *options, "session")
        self.same(f"the status of the story of {what}", status, words[0])
        self.same(f"the first line beside the story of {what}", errors.split(b"\n")[0], words[2].split(b"\n")[0])
        found = json.loads(output)
        self.same(f"the line of the story of {what}", output.decode(), json.dumps(found, separators=(",", ":")) + "\n")
        names = list(found)
        topic, fault, cause, faults, records = (found.pop(name, None) for name in ("topic", "fault", "cause", "faults", "records"))
        self.same(f"the story of {what}", list(found.items()), list(report.items()))
        self.same(f"the last fields of the story of {what}", names[len(found):],
                  [name for name, it in (("topic", topic), ("fault", fault), ("cause", cause), ("faults", faults), ("records", records)) if it is not None])
        self.apart(what, fault, options, report)
        self.same(f"whether faults are listed in the story of {what}", faults is not None, "page" in (topic or {}) and "pages" not in topic)
        self.cause(what, cause, records, words[1].decode())
        return topic, records, words[1].decode()

    def apart(self, what, fault, options, report):
        """The first fault, by line, of the pages apart from the faults of the shape."""
        pages = json.loads(self.ran("audit", "--all", "--format", "json", "session")[1]).get("pages") if report["verdict"] == "shape" and not options else None
        first = min(pages, key=lambda it: it["line"]) if pages else None
        self.same(f"the fault apart of {what}", fault and {name: fault[name] for name in ("page", "line", "reason")}, first)

    def cause(self, what, cause, records, told):
        """The cause of a fault of a page, which is there just where the words tell such a fault. Its record is the first that they name."""
        faulty = CAUSED.search(told.partition("\n")[2])
        self.same(f"whether there is a cause in {what}", cause is not None, faulty is not None)
        if cause is None:
            return
        self.causes.add(cause["kind"])
        if cause["kind"] == "unrecorded":
            self.same(f"the cause of {what}", list(cause), ["kind"])
        else:
            line, log, n = FIRST.search(told.partition("\n")[2], faulty.start()).groups()
            self.same(f"the cause of {what}", [cause[name] for name in ("line", "log", "record")], [int(line), log, int(n)])
        for it in (cause, cause.get("against", {})):
            if "log" in it:
                self.same(f"the place of {it} of {what}", f"line {it['line']} ({it['log']} {it['record']})" in told.replace("\nLine ", "\nline "), True)

    def story(self, what, session_bytes):
        """The object of an explanation, beside that of the audit and the words."""
        report = json.loads(self.ran("audit", "--format", "json", "session")[1])
        topic, records, told = self.told(what, (), report)
        self.same(f"the topic of {what}", topic, None)
        if records:
            self.records(what, SessionText(session_bytes.decode()), records, told)

    def topics(self, what, session_bytes):
        """The objects of explanations about pages and lines."""
        report = json.loads(self.ran("audit", "--format", "json", "session")[1])
        if report["verdict"] == "session-text":
            self.same(f"the topic of {what}", self.told(what, ("--page", "0"), report)[:2], (None, None))
            return
        session = SessionText(session_bytes.decode())
        reasons = {(it["page"], it["line"]): it["reason"] for it in json.loads(self.ran("audit", "--all", "--format", "json", "session")[1]).get("pages", [])}
        lines = {report.get("line", 1), 7, session_bytes.count(b"\n") // 2}
        for option, number in [("--page", 0), ("--page", 1), *(("--line", line) for line in sorted(lines))]:
            asked = f"{what} {option} {number}"
            topic, records, told = self.told(asked, (option, str(number)), report)
            wanted = topic_of(told)
            if "fault" in wanted:
                given = topic.get("fault", {}).get("reason")
                self.reasons.add(given)
                at = wanted["page"], wanted["fault"]["line"]
                wanted["fault"]["reason"] = reasons.get(at, given) if report["verdict"] in ("shape", "knot") else reasons.get(at)
            self.same(f"the topic of {asked}", json.dumps(topic), json.dumps(wanted))
            self.records(asked, session, records, told)
            named = [(record["line"], record["log"], record["record"]) for record in records]
            steps = steps_of(told)
            self.same(f"the steps of {asked}", [step for step in steps if step not in named], [])
            first = [named[0]] if "log" in topic else []
            self.same(f"the record of {asked}", [it for it, record in zip(named, records) if record["role"] == "named"], first)
            self.same(f"the line of {asked}", [(topic["line"], topic["log"], topic["record"])] if first else [], first)
            faults = [topic["fault"]] if "fault" in topic else []
            if report["verdict"] != "shape":
                faulty = [{name: record[name] for name in ("line", "log", "record")} for record in records if record["role"] == "faulty"]
                self.same(f"the faulty record of {asked}", faulty, [{name: it[name] for name in ("line", "log", "record")} for it in faults])

    def records(self, what, session, records, told):
        """The records of a story, of which each has the kind of its role, and is named in the words."""
        for record in records:
            line, log, n = (record[name] for name in ("line", "log", "record"))
            self.same(f"the line of {record} of {what}", session.line(log, n), line)
            kinds = ROLES[record["role"]]
            self.same(f"the kind of {record} of {what}", kinds is None or session.logs[log][n].split(" ")[0] in kinds, True)
            self.roles.add(record["role"])
            if record["role"] != "delivered":
                self.same(f"the name of {record} of {what}", f"line {line} ({log} {n})" in told.replace("\nLine ", "\nline "), True)

    def write(self, name, text):
        self.texts[name] = text
        with open(f"{self.room}/{name}", "wb") as file:
            file.write(text)

    def session(self, what, text):
        self.write("session", text)
        for more in ((), ("--complete",)):
            self.one(f"{what} {' '.join(more)}", ["audit", *more, "session"], text)
        self.story(what, text)
        self.topics(what, text)

    def pair(self, what, text, certificate):
        self.write("session", text)
        self.write("certificate", certificate)
        for more in ((), ("--complete",)):
            self.one(f"{what}, with its certificate {' '.join(more)}", ["check", *more, "session", "certificate"], text)


def texts(folder):
    """The session and the certificate of a folder, where it has them."""
    found = []
    for name in ("session", "certificate"):
        path = f"{folder}/{name}"
        found.append(open(path, "rb").read() if os.path.isfile(path) else None)
    return found


@pytest.mark.quick
@pytest.mark.cases(35000)
def test_objects(program, room):
    tests = Tests(program, room)
    for folder in case_files(""):
        session, certificate = texts(folder)
        what = name_of(folder)
        if session is not None and len(session) < 1_000_000:
            tests.session(what, session)
            if certificate is not None:
                tests.pair(what, session, certificate)
    reasons = {reason for verdict, reason in tests.seen if verdict == "faulty"}
    every = ["altered", "early", "given", "over", "read", "stale", "twice", "unfit"]
    same("the faults that were met", sorted(reasons), every)
    same("the faults of topics that were met", sorted(tests.reasons), every)
    verdicts = {verdict for verdict, _ in tests.seen}
    every = ["certificate-text", "clean", "faulty", "incomplete", "knot", "page", "pages", "runs", "session-text", "shape", "yes"]
    same("the verdicts that were met", sorted(verdicts), every)
    missing = {reason for verdict, reason in tests.seen if verdict == "incomplete"}
    same("the roles that were met", sorted(tests.roles), sorted(ROLES))
    same("the causes that were met", sorted(tests.causes), sorted(CAUSES))
    same("what was missing", sorted(missing), ["all", "done", "halt", "page", "placement", "resume", "returned"])


ZERO = "0" * 16


def of_zeros(pages, guest, source, link, pager):
    """A session of the first version, of a machine whose pages are zeros at the start and have one cell each."""
    logs = "".join(f"{name} {len(log)}\n" + "".join(f"{it}\n" for it in log) for name, log in (("guest", guest), ("source", source), ("link", link), ("pager", pager)))
    return f"postcopy-session 1\npages {pages}\ncells 1\ninit 0\n{logs}end\n".encode()


def missed_one_by_one(pages):
    """The guest misses each page in turn, and reads it once it came: so the orders have some eight runs for each."""
    guest = [it for n in range(pages) for it in (f"miss 0 {n}", f"see {4 * n + 5}", f"r 0 {n} 0 0")]
    source = [it for n in range(pages) for it in (f"ask {2 * n + 1}", f"send {n} {ZERO}")]
    link = [it for n in range(pages) for it in (f"up {4 * n + 3}", f"down {2 * n + 3}")]
    pager = [it for n in range(pages) for it in (f"fault {3 * n + 2}", f"want {n}", f"got {2 * n + 2}", f"place {n} {4 * n + 4} {ZERO}")]
    return of_zeros(pages, ["halt", "resume 1", *guest], ["halted 0", "state", *source, f"ask {2 * pages + 1}", "done"],
                    ["down 1", *link, f"up {4 * pages + 2}"], ["got 0", "ready", *pager, "all"])


def read_before_they_came(pages):
    """The guest reads each page at the target, and none is placed there."""
    return of_zeros(pages, ["halt", "resume 1", *(f"r 0 {n} 0 0" for n in range(pages))], ["halted 0", "state"], ["down 1"], ["got 0", "ready"])


def moved(told, lines):
    """An object whose lines are so many higher."""
    if isinstance(told, list):
        return [moved(it, lines) for it in told]
    return {name: it + lines if name == "line" else moved(it, lines) for name, it in told.items()} if isinstance(told, dict) else told


@pytest.mark.quick
@pytest.mark.cases(330)
def test_large_objects(program, room):
    """Objects with thousands of runs, with a long one, with hundreds of pages, and with lines of 64 bits."""
    tests = Tests(program, room)
    tests.session("a machine whose pages are missed one by one", missed_one_by_one(400))
    runs = json.loads(tests.ran("audit", "--format", "json", "session")[1])["runs"]
    same("whether they have thousands of runs", len(runs) > 2000, True)
    tests.session("a long run", of_zeros(1, ["r 0 0 0 0"] * 70000, [], [], []))
    same("the long run", json.loads(tests.ran("audit", "--format", "json", "session")[1])["runs"], [["guest", 70000]])
    tests.session("a machine whose pages are read before they came", read_before_they_came(600))
    told = json.loads(tests.ran("audit", "--all", "--format", "json", "session")[1])
    same("all of these pages", told["pages"], [{"page": n, "line": n + 8, "reason": "early"} for n in range(600)])
    far = 1 << 63
    tests.write("lines", "".join(f"{n + far}\n" for n in range(1, 700)).encode())
    for topic in ((), ("--page", "7"), ("--line", "9")):
        told = json.loads(tests.ran("explain", "--format", "json", *topic, "session")[1])
        given = json.loads(tests.ran("explain", "--format", "json", "--lines", "lines", *topic, "session")[1])
        same(f"the object by lines of 64 bits {' '.join(topic)}", given, moved(told, far))

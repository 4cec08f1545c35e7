"""Texts of the third version, whose machines and logs may be larger than those of the first and the second.

Each limit, of each version, is taken, and one more is refused at its line, as docs/FORMATS.md has it; text_judge.py has to say the
same. A page past 65,535 comes, and is told from the one that 16 bits would take it for. A look at a record past the 1,048,575th is
certified, and is early where it is one record too old. Sessions that are known are judged in the third version as in the second.
"""
import subprocess

import pytest
from cases import same
from made_sessions import known_sessions, read
from session_text import SessionText, logs_of
from text_judge import refusal_line

# By version: the most pages, the most cells in all, and the most records a log.
LIMITS = {1: (65_536, 1_048_576, 1_048_576), 2: (65_536, 1_048_576, 1_048_576), 3: (16_777_216, 16_777_216, 134_217_728)}


pytestmark = pytest.mark.quick


class Tests:
    """Runs the program in a folder."""

    same = staticmethod(same)

    def __init__(self, program, room):
        self.program, self.room = program, room

    def put(self, name, text):
        with open(f"{self.room}/{name}", "w", encoding="ascii") as file:
            file.write(text)

    def run(self, *words, given=""):
        """What the program writes, and its status."""
        ran = subprocess.run([self.program, *words], cwd=self.room, input=given.encode(), stdout=subprocess.PIPE, stderr=subprocess.DEVNULL)
        return ran.stdout.decode(), ran.returncode

    def audit(self, text):
        """The first line of the report on a session."""
        return self.run("audit", "--quiet", "-", given=text)[0].strip()

    def refused(self, what, kind, words, text, line):
        """A text, which is refused at this line by the program and by the slow judge."""
        said = {"session": "session-text", "certificate": "certificate-text", "runs": "runs-text"}[kind]
        self.same(f"{what}, by text_judge.py", refusal_line(kind, text.encode()), line)
        self.same(what, self.run(*words, given=text), (f"{said} line {line}\n", 1))


# The limits.


def empty(version, pages, cells=1):
    """A session of a machine of which nothing is told."""
    return "".join(f"{line}\n" for line in (f"postcopy-session {version}", f"pages {pages}", f"cells {cells}", "init 0", *(f"{log} 0" for log in logs_of(version)), "end"))


def limits_of_machines(tests, version, pages, in_all):
    words = "replay", "-", "runs"
    for most, cells in ((pages, in_all // pages), (in_all // 512, 512), (1, 512)):
        tests.same(f"{most} pages of {cells} cells in version {version}", tests.run(*words, given=empty(version, most, cells)), ("safe\n", 0))
    for most, cells, line in ((pages + 1, 1, 2), (pages, in_all // pages + 1, 3), (in_all // 512 + 1, 512, 3), (1, 513, 3), (0, 1, 2)):
        tests.refused(f"{most} pages of {cells} cells in version {version}", "session", words, empty(version, most, cells), line)
    text = empty(version, pages).replace("guest 0\n", "guest 1\nw 0 {page} 0 7\n")
    tests.same(f"a write into the last page in version {version}", tests.run("replay", "-", "one-write", given=text.format(page=pages - 1)), ("safe\n", 0))
    tests.refused(f"a write behind it in version {version}", "session", words, text.format(page=pages), 6)


def limits_of_logs(tests, version, records):
    """A count that is taken is refused at the line after it, where the text ends."""
    words = "replay", "-", "runs"
    for place, log in enumerate(logs_of(version)):
        front = empty(version, 1).partition(f"{log} 0\n")[0]
        for count, line in ((records, 6 + place), (records + 1, 5 + place)):
            tests.refused(f"{count} records of the {log} in version {version}", "session", words, f"{front}{log} {count}\n", line)
    text = empty(version, 1).replace("pager 0\n", "pager 1\nskip {number}\n")
    line = 6 + len(logs_of(version)) - 1
    tests.same(f"the last record's number in version {version}", tests.audit(text.format(number=records - 1)), f"shape line {line} named")
    tests.refused(f"the number behind it in version {version}", "session", words, text.format(number=records), line)


def limits_of_certificates(tests, version, pages, records):
    words, first = ("check", "session", "-"), f"postcopy-certificate {version}\n"
    for count, line in ((pages, 3), (pages + 1, 2)):
        tests.refused(f"a certificate of {count} pages in version {version}", "certificate", words, f"{first}pages {count}\n", line)
    most = len(logs_of(version)) * records
    for count, line in ((most, 5), (most + 1, 4)):
        tests.refused(f"a certificate of {count} runs in version {version}", "certificate", words, f"{first}pages 1\npage 0 none\nruns {count}\n", line)
    for count, line in ((records, 6), (records + 1, 5)):
        tests.refused(f"a run of {count} records in version {version}", "certificate", words, f"{first}pages 1\npage 0 none\nruns 2\nrun guest {count}\n", line)
    entry = f"{first}pages 1\npage 0 source {{0}} {{0}} {{0}} {{0}}\n"
    for number, line in ((records - 1, 4), (records, 3)):
        tests.refused(f"an entry with the record {number} in version {version}", "certificate", words, entry.format(number), line)


def limits_of_runs(tests):
    """A text of runs may be of a session of each version, so it has the greatest limits of all."""
    words, records = ("replay", "session", "-"), LIMITS[3][2]
    for count, line in ((5 * records, 3), (5 * records + 1, 2)):
        tests.refused(f"{count} runs", "runs", words, f"postcopy-runs 1\nruns {count}\n", line)
    for count, line in ((LIMITS[2][2] + 1, 4), (records, 4), (records + 1, 3)):
        tests.refused(f"a run of {count} records", "runs", words, f"postcopy-runs 1\nruns 2\nrun lane {count}\n", line)
    tests.refused("a second version of runs", "runs", words, "postcopy-runs 2\nruns 0\nend\n", 1)


def limits(tests):
    tests.put("session", empty(1, 1))
    tests.put("runs", "postcopy-runs 1\nruns 0\nend\n")
    tests.put("one-write", "postcopy-runs 1\nruns 1\nrun guest 1\nend\n")
    for version, (pages, in_all, records) in LIMITS.items():
        limits_of_machines(tests, version, pages, in_all)
        limits_of_logs(tests, version, records)
        limits_of_certificates(tests, version, pages, records)
    limits_of_runs(tests)
    for kind, words in (("session", ("audit", "-")), ("certificate", ("check", "session", "-"))):
        for version in (0, 4, 33):
            tests.refused(f"a {kind} of version {version}", kind, words, f"postcopy-{kind} {version}\npages 1\n", 1)


# Pages and records past those of the other versions.

FAR = 70_000
# (what 16 bits would take it for)
NEAR = FAR - 65_536


def far_pages(**changed):
    """Two pages that come, with contents of their own, and are read."""
    told = {"sent": 5, "placed": 5, "read": 5, "looked": 5, **changed}
    return f"""postcopy-session 3
pages {FAR + 1}
cells 1
init 2
page {NEAR} 0000000000000004
page {FAR} 0000000000000005
guest 6
halt
resume 1
see 3
r 0 {NEAR} 0 4
see {told['looked']}
r 0 {FAR} 0 {told['read']}
source 4
halted 0
state
send {NEAR} 0000000000000004
send {FAR} {told['sent']:016x}
link 3
down 1
down 2
down 3
lane 0
pager 6
got 0
ready
got 1
place {NEAR} 2 0000000000000004
got 2
place {FAR} 4 {told['placed']:016x}
end
"""


def pages_past(tests):
    """The certificate by hand, and what is found where one of the two pages goes wrong."""
    entries = {NEAR: "source 2 3 3 2", FAR: "source 3 5 5 4"}
    pages = "".join(f"page {page} {entries.get(page, 'none')}\n" for page in range(FAR + 1))
    runs = "runs 5\nrun guest 1\nrun source 4\nrun link 3\nrun pager 6\nrun guest 5\nend\n"
    certificate = f"postcopy-certificate 3\npages {FAR + 1}\n{pages}{runs}"
    tests.put("far", far_pages())
    tests.put("far-runs", f"postcopy-runs 1\n{runs}")
    tests.same("certify, of a page past 65,535", tests.run("certify", "far"), (certificate, 0))
    tests.same("check, of its certificate", tests.run("check", "far", "-", given=certificate), ("yes\n", 0))
    tests.same("replay, along its runs", tests.run("replay", "far", "far-runs"), ("safe\n", 0))
    swapped = certificate.replace(f"page {FAR} {entries[FAR]}", f"page {FAR} {entries[NEAR]}")
    tests.same("check, of an entry of the other page", tests.run("check", "far", "-", given=swapped), (f"page line {FAR + 3}\n", 1))
    tests.refused("a certificate of the second version", "certificate", ("check", "far", "-"), certificate.replace("certificate 3", "certificate 2"), 2)
    for changed, wanted in (({"sent": 4}, "line 18 stale"), ({"placed": 4}, "line 30 altered"), ({"read": 4}, "line 13 read"), ({"looked": 3}, "line 13 early")):
        text = far_pages(**changed)
        tests.same(f"a far page with {changed}", tests.audit(text), f"faulty {wanted}")
        tests.same(f"its page, with {changed}", tests.run("audit", "--all", "-", given=text), (f"faulty {wanted}\nfaulty-pages 1\npage {FAR} {wanted}\n", 1))
    for version in (1, 2):
        text = far_pages().replace("session 3", f"session {version}").replace("lane 0\n", "lane 0\n" * (version == 2))
        tests.refused(f"such a page in version {version}", "session", ("audit", "-"), text, 2)


def long_log(version, wants, late):
    """A page comes after so many wants of it, and is read after a look at its placement, or at the record so many before that."""
    lane = "lane 0\n" * (version > 1)
    front = f"postcopy-session {version}\npages 1\ncells 1\ninit 1\npage 0 0000000000000005\nguest 4\nhalt\nresume 1\nsee {3 + wants - late}\nr 0 0 0 5\n"
    middle = f"source 3\nhalted 0\nstate\nsend 0 0000000000000005\nlink 2\ndown 1\ndown 2\n{lane}pager {4 + wants}\ngot 0\nready\n"
    return front + middle + "want 0\n" * wants + f"got 1\nplace 0 {2 + wants} 0000000000000005\nend\n"


def records_past(tests):
    """A log with four records more than one of the second version may have, and a receipt for its last."""
    wants = LIMITS[2][2]
    last = wants + 3
    runs = f"runs 5\nrun guest 1\nrun source 3\nrun link 2\nrun pager {last + 1}\nrun guest 3\nend\n"
    certificate = f"postcopy-certificate 3\npages 1\npage 0 source 2 {last} 3 2\n{runs}"
    tests.put("long", long_log(3, wants, 0))
    tests.same("certify, of a long log", tests.run("certify", "long"), (certificate, 0))
    tests.same("check, of its certificate", tests.run("check", "long", "-", given=certificate), ("yes\n", 0))
    tests.same("replay, along its runs", tests.run("replay", "long", "-", given=f"postcopy-runs 1\n{runs}"), ("safe\n", 0))
    tests.same("a look at the record before, which is no placement", tests.audit(long_log(3, wants, 1)), "shape line 9 named")
    early = long_log(3, wants, 0).replace(f"guest 4\nhalt\nresume 1\nsee {last}\nr 0 0 0 5\n", f"guest 4\nhalt\nresume 1\nr 0 0 0 5\nsee {last}\n")
    report = tests.run("audit", "-", given=early)[0]
    tests.same("a read before the look", report.split("\n")[:2], ["faulty line 9 early", "postcopy-runs 1"])
    tests.put("early", early)
    tests.same("replay, along the order that shows it", tests.run("replay", "early", "-", given=report), ("broken line 9\n", 1))
    for version in (1, 2):
        line = {1: 18, 2: 19}[version]
        tests.refused(f"the number in version {version}", "session", ("audit", "-"), long_log(version, wants, 0), 9)
        few = long_log(version, wants - 3, 3)
        tests.refused(f"the count in version {version}", "session", ("audit", "-"), few, line)


# Sessions of the second version.


def told_in_the_third(tests):
    """Each known session that the second version can tell has the same report in the third, with that one's certificate."""
    count = 0
    for text in known_sessions(tests.audit):
        session = SessionText(text)
        if int(session.head[1].split(" ")[1]) > LIMITS[2][0] or "back" in session.logs["source"]:
            continue
        session.tell_in(2)
        said = tests.run("audit", "-", given=session.text())
        session.tell_in(3)
        wanted = said[0].replace("postcopy-certificate 2\n", "postcopy-certificate 3\n"), said[1]
        tests.same("a known session in the third version", tests.run("audit", "-", given=session.text()), wanted)
        count += 1
    tests.same("that there are some", count > 50, True)


def versions_together(tests):
    """A certificate of each version goes with a session of each, where both tell of as many pages."""
    for version in LIMITS:
        session = SessionText(read("examples/handover/session"))
        session.tell_in(version)
        tests.put("handover", session.text())
        for other in LIMITS:
            certificate = read("examples/handover/certificate").replace("certificate 1", f"certificate {other}")
            tests.same(f"a session of version {version} with a certificate of version {other}", tests.run("check", "handover", "-", given=certificate), ("yes\n", 0))


@pytest.mark.parametrize("part", (
    pytest.param(limits, marks=pytest.mark.cases(185)), pytest.param(pages_past, marks=pytest.mark.cases(18)),
    pytest.param(records_past, marks=pytest.mark.cases(14)), pytest.param(told_in_the_third, marks=pytest.mark.cases(68)),
    pytest.param(versions_together, marks=pytest.mark.cases(9))), ids=lambda it: it.__name__)
def test_large_machines(program, room, part):
    part(Tests(program, room))

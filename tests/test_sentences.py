"""Compares what `explain` writes, sentence by sentence, with cases that were written by hand.

The cases are those folders of tests/cases and examples whose `args` ask to explain. Of each the program has to write what the
folder's `stdout` has; and each line of these, after the first one, has to be a sentence of the table below. Each sentence of the
table has to stand in a case, in each of its forms. The table has to have the sentences that the sources have, and no other: so one
that is new has to be written here too, and needs a case.

Two sessions have a record of each kind. What each of these did is written here by hand, and so is what is told where such a record
names one that it must not name: the session is changed there. The object of an explanation has to have the records of the sentences.
"""
import json
import os
import re
import subprocess

from case_table import CASES, case_file, case_files, name_of
import pytest
from cases import count, same

TOP = os.path.dirname(os.path.dirname(os.path.realpath(__file__)))
SOURCE = f"{TOP}/crates/story_words/src/sentences.rt"

PLACE = r"line \d+ \((?:guest|source|link|lane|pager) \d+\)"

# What a record did: each kind has one form.
EACH_DONE = (
    r"virtual processor \d+ reads \d+ in cell \d+ of page \d+", r"virtual processor \d+ writes \d+ into cell \d+ of page \d+",
    r"virtual processor \d+ releases page \d+", r"virtual processor \d+ misses page \d+", "the guest is halted at the source",
    r"the guest is resumed at the target, for which pager \d+ was ready", r"the guest looks at the placement pager \d+",
    r"the source learns of the halt guest \d+", "the source sends the processor state", r"the source sends page \d+",
    r"the source sends once more what source \d+ sent", r"the source takes what link \d+ delivered",
    "the source learns that every owed page is placed", "the source starts the guest again", r"the link delivers to the pager what source \d+ sent",
    r"the link delivers to the source what pager \d+ sent", r"the lane delivers to the pager what source \d+ sent",
    r"the pager takes what link \d+ delivered", r"the pager pulls what lane \d+ delivered", "the pager is ready for the guest",
    r"the pager learns of the miss guest \d+", r"the pager lets a miss wait for the page that pager \d+ asked for",
    r"the pager asks for page \d+", r"the pager places page \d+, which came with pager \d+", r"the pager places page \d+ as zeros",
    r"the pager drops what came with pager \d+", "the pager says that every owed page is placed")
DONE = f"(?:{'|'.join(EACH_DONE)})"
RECORD = f"{PLACE}: {DONE}"
VALUE = r"\d+, [0-9a-f]{16},"
SINCE = rf"(?:since {RECORD}|as at the start)\."

# What a record has to name: each kind has one form, and three of the pager's have another where the lane has records.
EACH_WANTED = (
    "the pager's `ready`", "a `place` or a `zero` of the pager", "the guest's `halt`", "a `state` or a `send` before it", "an `up` of the link",
    "a `state`, a `send` or an `again` of the source", "a `want` or an `all` of the pager", "a `down` of the link", "a `down` of the lane",
    "a `miss` of the guest", "a `want` before it", "a `got` before it that took a `send` of the page, or a repeat of it",
    "a `got` or a `pull` before it that took a `send` of the page, or a repeat of it", "a `got` before it", "a `got` or a `pull` before it")
WANTED = f"(?:{'|'.join(EACH_WANTED)})"

# What the faults of a page are, by their reason. tests/test_all_faults.py has a page with each.
WRONG = ("wrong reads", "early uses", "sendings although it is released", "sendings of other contents", "further placements",
         "placements of other contents", "placements as zeros", "placements over a release")

# Each sentence, by its name in the sources, and the forms that it has.
FORMS = {
    "Wrong": [rf"L{PLACE[1:]} is wrong: {DONE}\."],
    "GoesWrong": [rf"Page \d+ goes wrong at {PLACE}: {how}\." for how in (
        "the source sends other contents than it has at the halt", "the pager places other contents than it has at the halt",
        "the pager puts zeros in its place", "the pager places it a second time", "the pager places it over a release of the guest",
        "the guest uses it before it has come", "the guest uses it at the target, and the pager never places it", r"the write of \d+ into cell \d+ is lost", "its release is lost")],
    "Keeps": [rf"Cell \d+ keeps \d+, which it has since {RECORD}\.", r"Cell \d+ keeps \d+, as at the start\."],
    "Unexplained": [r"No record explains what page \d+ has: somebody writes to it who records nothing, or memory is damaged\."],
    "AtSource": [r"The guest is at the source by then: the migration has no part in it\."],
    "Shows": [rf"It shows at {RECORD}\."],
    "OneMachine": [rf"One machine that never moved has \d+ there, since {RECORD}\.",
                   rf"One machine that never moved has {VALUE} there, as at the start\."],
    "NotThere": [r"The guest is at the target by then, and the page is never placed there\."],
    "Unreached": [rf"The guest is at the target by then, and no look before this use reaches the placement of the page, {PLACE}\."],
    "FurthestLook": [rf"Of the looks before it, this one reaches furthest: {RECORD}\.", r"The guest looks at no placement before it\."],
    "LateForUse": [rf"The first look that reaches it comes after the use: {RECORD}\.", r"No look reaches it at all\."],
    "LateForRelease": [rf"The first look that reaches it comes after the release: {RECORD}\.", r"No look reaches it at all\."],
    "ReleasedFirst": [rf"The first use of the page at the target is a release, which makes it zeros there: {RECORD}\."],
    "MayComeAfter": [r"No look before this release reaches the placement, so the placement may come after the release and put "
                     rf"{what}\." for what in ("zeros over what the guest writes by then", "old contents over the zeros")],
    "RightOrder": [r"It would be right if the guest looked at this placement before the release, or if there were no placement: the "
                   r"pager skips a page that was released there first\."],
    "Contents": [rf"The page is {how} with {VALUE} in cell \d+, where it has {VALUE} at the halt, {SINCE}" for how in ("sent", "placed")],
    "SentWith": [rf"What came with pager \d+ was sent with {VALUE} there: {RECORD}\."],
    "ReleasedAtHalt": [r"The page is released at the halt, so it is not sent: the pager places it as zeros\."],
    "NotReleasedAtHalt": [r"The page is not released at the halt, so it must not be placed as zeros\."],
    "ChangedLast": [rf"Its last change before the halt is {RECORD}\.", r"The guest neither writes nor releases it before the halt\."],
    "PlacedBefore": [rf"A page is placed once, and this one was placed before: {RECORD}\."],
    "EveryOrder": [r"In every order of the records the use finds no page\.", r"It is wrong in every order of the records\."],
    "ShownOrder": [r"The order that the audit shows puts the placement, and all that has to come after it, behind " + where + r"\."
                   for where in ("this use, which then finds no page", "the release, and so over the zeros")],
    "Faults": [r"Page \d+ has \d+ faults in all:"],
    "FaultsFor": [rf"  (?:{'|'.join(WRONG)}): {many}" for many in (rf"1, at {PLACE}", rf"\d+, the first at {PLACE}")],
    "Apart": [r"Apart from that, page \d+ goes wrong too\. No record of wrong shape is about it\."],
    "MoreFaulty": [r"1 more page has a fault; audit --all lists every one\.", r"\d+ more pages have a fault; audit --all lists every one\."],
    "Misshapen": [rf"L{PLACE[1:]} does not have the right shape: {DONE}\."],
    "OutOfPhase": [rf"{rule} Its first halt is {PLACE}, and (?:its first resume is {PLACE}|it is never resumed)\." for rule in (
                       r"The guest is halted once\.", r"The guest is resumed once, after its halt\.",
                       r"The guest releases pages only before its halt\.", r"The guest does nothing between its halt and its resume\.")]
                  + [rf"{rule} (?:Its first halt is {PLACE}|It is never halted), and (?:its first resume is {PLACE}|it is never resumed)\."
                     for rule in (r"The guest misses pages only after its resume\.",
                                  r"The guest looks at placements only after its resume\.")]
                  + [rf"The guest is resumed once, after its halt\. It is never halted, and its first resume is {PLACE}\."],
    "Names": [rf"It has to name {WANTED}, and names {RECORD}\.", rf"It has to name {WANTED}, and names \w+ \d+, which is not there\."],
    "Begins": [r"The source's log begins with `halted` and `state`, and has them nowhere else\.",
               r"The pager's log begins with the `got` of the state and with `ready`, and has no other `ready`\.",
               r"The pager's log begins with the `got` or the `pull` of the state and with `ready`, and has no other `ready`\.",
               r"The source's log has its `back` nowhere but at its end\."],
    "SentBefore": [rf"A page is sent once, and then repeated by `again`; this one was sent before: {RECORD}\."],
    "ResumedToo": [rf"The guest was resumed at the target, so from this `back` on it may run at both sides: {RECORD}\."],
    "FirstAccess": [rf"Its first access there: {RECORD}\.", r"It read and wrote nothing there\."],
    "NoOrder": [r"No order of the records keeps the order of each log and puts each record after the record of another log that it names: "
                r"each of these waits for the next, and the last for one of them\."],
    "Waits": [rf"  {RECORD}; it has to come after {PLACE}", rf"  {RECORD}; it has to come after {PLACE}, which its log has after {PLACE}"],
    "StoryOf": [r"What the logs say of page \d+:"],
    "Change": [rf"  {RECORD}, its last change before the halt", rf"  {RECORD}, its last change",
               "  the guest neither writes nor releases it before the halt", "  the guest neither writes nor releases it"],
    "Halt": [rf"  {PLACE}: the guest is halted at the source", "  the guest is not halted"],
    "Sending": [rf"  {PLACE}: the source sends page \d+", "  the source does not send it"],
    "Delivery": [rf"  {PLACE}: the link delivers to the pager what source \d+ sent", "  the link does not deliver it",
                 rf"  {PLACE}: the lane delivers to the pager what source \d+ sent", "  neither the link nor the lane delivers it"],
    "Taking": [rf"  {PLACE}: the pager takes what link \d+ delivered", rf"  {PLACE}: the pager pulls what lane \d+ delivered",
               "  the pager does not take it"],
    "Placement": [rf"  {PLACE}: the pager places page \d+, which came with pager \d+", rf"  {PLACE}: the pager places page \d+ as zeros",
                  "  the pager does not place it"],
    "SecondPlacement": [rf"  {RECORD}, its second placement"],
    "FirstLook": [rf"  {RECORD}, the first look that reaches its placement", "  no look of the guest reaches a placement of it"],
    "FirstUse": [rf"  {RECORD}, its first use at the target", rf"  {RECORD}, its first use at the target, after which it is there as zeros",
                 "  the guest does not use it at the target"],
    "Clean": [r"In every order of the records each read gives what one machine that never moved would give\."],
    "SentPages": [r"Pages that were sent and placed: \d+"],
    "ZeroedPages": [r"Released pages that came back as zeros: \d+"],
    "UnplacedPages": [r"Pages that were not placed: \d+"],
    "FreshPages": [r"Pages that were released at the target and never placed: \d+"],
    "OtherPages": [r"Other pages that were not placed: \d+"],
    "ReleasedPages": [r"Pages that were released at the halt, and so not sent: \d+"],
    "LeftPages": [r"Owed pages that never came: \d+"],
    "UsedPages": [r"Pages that the guest read, wrote or released at the target: \d+"],
    "Reads": [r"Reads that were recorded at the target: \d+"],
    "Sendings": [r"Sendings of a page: \d+, of which unasked: \d+"],
    "Repeats": [r"Repeats of a packet: \d+"],
    "UndeliveredPackets": [r"Packets that were sent and not delivered: \d+"],
    "LanePackets": [r"Packets that the lane delivered: \d+"],
    "DroppedPackets": [r"Packets that the pager dropped: \d+"],
    "Requests": [r"Requests for a page: \d+, of which not delivered: \d+"],
    "Misses": [r"Misses of the guest: \d+, of which waited for a page that was asked for before: \d+"],
    "NoPage": [r"The machine has no page \d+: it has \d+ pages, and the first is page 0\.",
               r"The machine has no page \d+: it has 1 page, which is page 0\."],
    "Verdict": [r"Page \d+ has a fault\.", r"Page \d+ has no fault\."],
    "NoRecord": [r"Line \d+ tells no record of the logs\."],
    "Stands": [rf"This is {RECORD}\."],
    "NotWhole": [r"Nothing in the logs is wrong, but they do not tell of a whole migration\."],
    "Owed": [r"Page \d+ was owed to the target at the halt\. The pager never placed it, and the guest did not release it there\."],
    "CameTo": [rf"The pager has it: {RECORD}\.", rf"It came as far as the link: {RECORD}\.", rf"It came as far as the lane: {RECORD}\.",
               rf"It was sent, and not delivered: {RECORD}\.", r"The source never sent it\."],
    "NeverHalted": [r"The guest was never halted: its log has no `halt`, so nothing says that a migration began\."],
    "Returned": [r"The guest returned to the source: it was never resumed at the target, and the source started it again\."],
    "StartedAgainAt": [rf"It was started again at {PLACE}\."],
    "NeverResumed": [r"The guest was never resumed at the target: its log has no `resume`\."],
    "HaltedAt": [rf"It was halted at {PLACE}\."],
    "NeverSaid": [r"The pager never said that every owed page had come: its log has no `all` behind their placements\. Each of them came\."],
    "NeverLearned": [r"The source never learned that every owed page had come: its log has no `done` behind the `ask` of that\."],
    "SaidAt": [rf"The pager said so at {PLACE}\."],
    "Untaken": [rf"The pager has no `place` and no `skip` of what it took at {RECORD}\."],
}

# What is told of a text that is refused is no sentence on a session.
REFUSED = r"This is no text of a session: .*"

RECORDED, BY_THE_LANE, RETURNED = (case_file(f"{name}/session") for name in ("examples/recording", "examples/pushed-by-the-lane", "tests/cases/explain-incomplete-returned"))

# A record of each kind: its session, its line, its log and number, and what it did.
RECORDS = (
    (RECORDED, 9, "guest 0", "virtual processor 0 writes 2861166833142135405 into cell 0 of page 1"),
    (RECORDED, 11, "guest 2", "virtual processor 1 reads 11325499664036486760 in cell 0 of page 0"),
    (RECORDED, 12, "guest 3", "virtual processor 1 releases page 3"),
    (RECORDED, 13, "guest 4", "the guest is halted at the source"),
    (RECORDED, 14, "guest 5", "the guest is resumed at the target, for which pager 1 was ready"),
    (RECORDED, 22, "guest 13", "virtual processor 1 misses page 3"),
    (RECORDED, 17, "guest 8", "the guest looks at the placement pager 7"),
    (RECORDED, 27, "source 0", "the source learns of the halt guest 4"),
    (RECORDED, 28, "source 1", "the source sends the processor state"),
    (RECORDED, 29, "source 2", "the source takes what link 1 delivered"),
    (RECORDED, 34, "source 7", "the source sends page 2"),
    (RECORDED, 33, "source 6", "the source sends once more what source 3 sent"),
    (RECORDED, 36, "source 9", "the source learns that every owed page is placed"),
    (RECORDED, 40, "link 2", "the link delivers to the pager what source 4 sent"),
    (RECORDED, 41, "link 3", "the link delivers to the source what pager 8 sent"),
    (BY_THE_LANE, 18, "lane 0", "the lane delivers to the pager what source 2 sent"),
    (RECORDED, 53, "pager 6", "the pager takes what link 2 delivered"),
    (BY_THE_LANE, 22, "pager 2", "the pager pulls what lane 0 delivered"),
    (RECORDED, 48, "pager 1", "the pager is ready for the guest"),
    (RECORDED, 51, "pager 4", "the pager learns of the miss guest 7"),
    (RECORDED, 52, "pager 5", "the pager lets a miss wait for the page that pager 3 asked for"),
    (RECORDED, 50, "pager 3", "the pager asks for page 1"),
    (RECORDED, 54, "pager 7", "the pager places page 0, which came with pager 6"),
    (RECORDED, 59, "pager 12", "the pager places page 3 as zeros"),
    (RECORDED, 61, "pager 14", "the pager drops what came with pager 13"),
    (RECORDED, 64, "pager 17", "the pager says that every owed page is placed"),
    (RETURNED, 13, "source 3", "the source starts the guest again"),
)

# A record that names another than it must: its session, the lines that are changed there, the faulty one first, and what is told of it.
NAMED = (
    (RECORDED, {14: "resume 0"}, "It has to name the pager's `ready`, and names line 47 (pager 0): the pager takes what link 0 delivered."),
    (RECORDED, {17: "see 6"}, "It has to name a `place` or a `zero` of the pager, and names line 53 (pager 6): the pager takes what link 2 delivered."),
    (RECORDED, {27: "halted 6"}, "It has to name the guest's `halt`, and names line 15 (guest 6): virtual processor 0 misses page 1."),
    (RECORDED, {29: "ask 0"}, "It has to name an `up` of the link, and names line 38 (link 0): the link delivers to the pager what source 1 sent."),
    (RECORDED, {33: "again 2"}, "It has to name a `state` or a `send` before it, and names line 29 (source 2): the source takes what link 1 delivered."),
    (RECORDED, {38: "down 0"}, "It has to name a `state`, a `send` or an `again` of the source, and names line 27 (source 0): the source learns of the halt guest 4."),
    (RECORDED, {39: "up 2"}, "It has to name a `want` or an `all` of the pager, and names line 49 (pager 2): the pager learns of the miss guest 6."),
    (RECORDED, {53: "got 1"}, "It has to name a `down` of the link, and names line 39 (link 1): the link delivers to the source what pager 3 sent."),
    (RECORDED, {49: "fault 3"}, "It has to name a `miss` of the guest, and names line 12 (guest 3): virtual processor 1 releases page 3."),
    (RECORDED, {52: "join 8"}, "It has to name a `want` before it, and names line 55 (pager 8): the pager asks for page 1."),
    (RECORDED, {54: "place 0 0 9d2c41f07ab35e68"},
     "It has to name a `got` before it that took a `send` of the page, or a repeat of it, and names line 47 (pager 0): the pager takes what link 0 delivered."),
    (RECORDED, {61: "skip 12"}, "It has to name a `got` before it, and names line 59 (pager 12): the pager places page 3 as zeros."),
    (BY_THE_LANE, {18: "down 0"}, "It has to name a `state`, a `send` or an `again` of the source, and names line 12 (source 0): the source learns of the halt guest 0."),
    (BY_THE_LANE, {22: "pull 1"}, "It has to name a `down` of the lane, and names lane 1, which is not there."),
    (BY_THE_LANE, {23: "place 0 0 0000000000000006"},
     "It has to name a `got` or a `pull` before it that took a `send` of the page, or a repeat of it, and names line 20 (pager 0): the pager takes what link 0 delivered."),
    (BY_THE_LANE, {23: "skip 1", 9: "r 0 0 0 6"}, "It has to name a `got` or a `pull` before it, and names line 21 (pager 1): the pager is ready for the guest."),
)


def read(path):
    with open(path, encoding="latin-1") as file:
        return file.read()


def variants():
    """The sentences that the sources have."""
    body = re.search(r"pub enum Sentence \{\n(.*?)\n\}", read(SOURCE), re.S)[1]
    return re.findall(r"^    ([A-Z]\w*)", body, re.M)


def cases():
    """The folders whose arguments ask to explain a text, with what these are and what is wanted."""
    for path in case_files("args"):
        words, folder = read(path).split("\n")[:-1], os.path.dirname(path)
        if words[:1] == ["explain"] and "json" not in words and os.path.exists(f"{folder}/stdout"):
            yield folder, words, read(f"{folder}/stdout")


@pytest.mark.quick
@pytest.mark.cases(640)
def test_sentences(program):
    same("the sentences of the table", sorted(FORMS), sorted(variants()))
    forms = {(name, form): re.compile(form) for name in FORMS for form in FORMS[name]}
    reached = set()
    for folder, args, wanted in cases():
        what = name_of(folder)
        stdin = f"{folder}/stdin" if os.path.exists(f"{folder}/stdin") else os.devnull
        with open(stdin, "rb") as file:
            ran = subprocess.run([program, *args], cwd=folder, stdin=file, capture_output=True)
        same(f"what is told of {what}", ran.stdout.decode("latin-1"), wanted)
        for line in wanted.split("\n")[1:-1]:
            found = {key for key, form in forms.items() if form.fullmatch(line)}
            reached |= found
            count(found or re.fullmatch(REFUSED, line), f"no sentence of the table, in {what}: {line!r}")
    for name, form in forms:
        count((name, form) in reached, f"no case of {name}: {form!r}")


def explained(program, *words):
    """The lines that the program explains something in."""
    return subprocess.run([program, "explain", *words], stdin=subprocess.DEVNULL, capture_output=True, text=True).stdout.splitlines()


@pytest.mark.quick
@pytest.mark.cases(54)
def test_records(program):
    """What each kind of record did."""
    for session, line, name, done in RECORDS:
        told = explained(program, "--line", str(line), session)
        same(f"line {line} of {name_of(session)}", told[1:2], [f"This is line {line} ({name}): {done}."])
    for form in EACH_DONE:
        count(any(re.fullmatch(form, done) for _, _, _, done in RECORDS), f"no record of {form!r}")


@pytest.mark.quick
@pytest.mark.cases(31)
def test_named(program, room):
    """What a record has to name, told of one that names another."""
    for session, changes, wanted in NAMED:
        lines = read(session).split("\n")
        for line, record in changes.items():
            lines[line - 1] = record
        with open(f"{room}/session", "w", encoding="ascii") as file:
            file.write("\n".join(lines))
        told, line = explained(program, f"{room}/session"), next(iter(changes))
        same(f"{changes} in {name_of(session)}", [told[0], told[2]], [f"shape line {line} named", wanted])
    for wanted in EACH_WANTED:
        count(any(told.startswith(f"It has to name {wanted}, and names ") for _, _, told in NAMED), f"no record that has to name {wanted}")


@pytest.mark.quick
@pytest.mark.cases(1)
def test_back_for_the_state(program, room):
    """A `back` in the place of the `state` breaks the rule of how the source's log begins. It does not come too early."""
    with open(f"{room}/session", "w", encoding="ascii") as file:
        file.write("postcopy-session 3\npages 1\ncells 1\ninit 0\nguest 1\nhalt\nsource 3\nhalted 0\nback\nstate\nlink 0\nlane 0\npager 0\nend\n")
    same("what is told of it", explained(program, f"{room}/session"),
         ["shape line 9 start", "Line 9 (source 1) does not have the right shape: the source starts the guest again.",
          "The source's log begins with `halted` and `state`, and has them nowhere else."])


# Sessions of one page that comes to the target, each with what else is told of it, and of which page.
def of_one_page(version, source, link, lane, pager, uses=()):
    """A session of a page with 6 in its one cell, of which the guest is halted and resumed, and uses the page."""
    logs = (("guest", ["halt", "resume 1", *uses]), ("source", ["halted 0", "state", *source]), ("link", ["down 1", *link]), ("lane", lane), ("pager", ["got 0", "ready", *pager]))
    told = "".join(f"{log} {len(records)}\n" + "".join(f"{it}\n" for it in records) for log, records in logs if log != "lane" or version > 1)
    return f"postcopy-session {version}\npages 1\ncells 1\ninit 1\npage 0 {SIX}\n{told}end\n"


SIX, SEVEN = "0000000000000006", "0000000000000007"
SENT = f"send 0 {SIX}"
STORIES = (
    ("a page that the lane brought, and nobody took", of_one_page(2, [SENT], [], ["down 2"], []), ("--page", "0"), [
        "  line 12 (source 2): the source sends page 0", "  line 16 (lane 0): the lane delivers to the pager what source 2 sent", "  the pager does not take it"]),
    ("a page that both links brought, and nobody took", of_one_page(2, [SENT], ["down 2"], ["down 2"], []), ("--page", "0"), [
        "  line 12 (source 2): the source sends page 0", "  line 15 (link 1): the link delivers to the pager what source 2 sent", "  the pager does not take it"]),
    ("how far that came", of_one_page(2, [SENT], ["down 2"], ["down 2"], []), ("--complete",), [
        "Page 0 was owed to the target at the halt. The pager never placed it, and the guest did not release it there.",
        "It came as far as the link: line 15 (link 1): the link delivers to the pager what source 2 sent."]),
    ("a page that both links brought, and the lane first", of_one_page(2, [SENT], ["down 2"], ["down 2"], ["pull 0", f"place 0 2 {SIX}"]), ("--page", "0"), [
        "  line 17 (lane 0): the lane delivers to the pager what source 2 sent", "  line 21 (pager 2): the pager pulls what lane 0 delivered"]),
    ("a page that is placed otherwise than a repeat of it had it", of_one_page(1, [SENT, "again 2"], ["down 3"], [], ["got 1", f"place 0 2 {SEVEN}"]), (), [
        "Line 21 (pager 3) is wrong: the pager places page 0, which came with pager 2.",
        f"The page is placed with 7, {SEVEN}, in cell 0, where it has 6, {SIX}, at the halt, as at the start.",
        f"What came with pager 2 was sent with 6, {SIX}, there: line 12 (source 2): the source sends page 0."]),
    ("zeros in the place of a page that is not released", of_one_page(1, [], [], [], ["zero 0"], ["see 2", "r 0 0 0 0"]), (), [
        "Page 0 goes wrong at line 19 (pager 2): the pager puts zeros in its place.",
        "The page is not released at the halt, so it must not be placed as zeros.", "The guest neither writes nor releases it before the halt.",
        "It shows at line 10 (guest 3): virtual processor 0 reads 0 in cell 0 of page 0."]),
    ("a second placement over a write", of_one_page(1, [SENT], ["down 2"], [], ["got 1", f"place 0 2 {SIX}", f"place 0 2 {SIX}"], ["see 3", "w 0 0 0 9", "r 0 0 0 6"]), (), [
        "Page 0 goes wrong at line 24 (pager 4): the pager places it a second time.",
        "A page is placed once, and this one was placed before: line 23 (pager 3): the pager places page 0, which came with pager 2.",
        "It shows at line 11 (guest 4): virtual processor 0 reads 6 in cell 0 of page 0."]),
    ("a second placement that the write was told of, so that the write is lost",
     of_one_page(1, [SENT], ["down 2"], [], ["got 1", f"place 0 2 {SIX}", f"place 0 2 {SIX}"], ["see 4", "w 0 0 0 9", "r 0 0 0 6"]), (), [
         "faulty line 11 read", "Page 0 goes wrong at line 10 (guest 3): the write of 9 into cell 0 is lost.", "Cell 0 keeps 6, as at the start.",
         "It shows at line 11 (guest 4): virtual processor 0 reads 6 in cell 0 of page 0."]),
    ("a release that is lost", of_one_page(2, [SENT], ["down 2"], [], ["got 1", f"place 0 2 {SIX}"], ["see 3", "w 0 0 0 9", "z 0 0", "r 0 0 0 9"]), (), [
        "Page 0 goes wrong at line 11 (guest 4): its release is lost.",
        "Cell 0 keeps 9, which it has since line 10 (guest 3): virtual processor 0 writes 9 into cell 0 of page 0.",
        "It shows at line 12 (guest 5): virtual processor 0 reads 9 in cell 0 of page 0."]),
    ("a value that the cell never had", of_one_page(1, [SENT], ["down 2"], [], ["got 1", f"place 0 2 {SIX}"], ["see 3", "r 0 0 0 9"]), (), [
        "No record explains what page 0 has: somebody writes to it who records nothing, or memory is damaged.",
        "It shows at line 10 (guest 3): virtual processor 0 reads 9 in cell 0 of page 0."]),
    ("a write that is lost at the source", of_one_page(1, [], [], [], []).replace("guest 2\nhalt\n", "guest 4\nw 0 0 0 9\nr 0 0 0 6\nhalt\n").replace("halted 0", "halted 2"), (), [
        "Page 0 goes wrong at line 7 (guest 0): the write of 9 into cell 0 is lost.", "Cell 0 keeps 6, as at the start.",
        "The guest is at the source by then: the migration has no part in it.", "It shows at line 8 (guest 1): virtual processor 0 reads 6 in cell 0 of page 0."]),
    ("a value of no record at the source", of_one_page(1, [], [], [], []).replace("guest 2\nhalt\n", "guest 3\nr 0 0 0 9\nhalt\n").replace("halted 0", "halted 1"), (), [
        "No record explains what page 0 has: somebody writes to it who records nothing, or memory is damaged.",
        "The guest is at the source by then: the migration has no part in it."]),
    ("the same of a page that never comes", of_one_page(1, [], [], [], [], ["w 0 0 0 7"]).replace("guest 3\nhalt\n", "guest 4\nr 0 0 0 9\nhalt\n").replace("halted 0", "halted 1"), (), [
        "faulty line 7 read", "No record explains what page 0 has: somebody writes to it who records nothing, or memory is damaged.",
        "The guest is at the source by then: the migration has no part in it."]),
    ("a placement over a release, which a read gives", of_one_page(2, [SENT], ["down 2"], [], ["got 1", f"place 0 2 {SIX}"], ["z 0 0", "r 0 0 0 6"]), (), [
        "Page 0 goes wrong at line 23 (pager 3): the pager places it over a release of the guest.",
        "The first use of the page at the target is a release, which makes it zeros there: line 9 (guest 2): virtual processor 0 releases page 0."]),
    ("a read before the page has come", of_one_page(1, [SENT], ["down 2"], [], ["got 1", f"place 0 2 {SIX}"], ["r 0 0 0 0"]), (), [
        "Page 0 goes wrong at line 9 (guest 2): the guest uses it before it has come.",
        "The guest is at the target by then, and no look before this use reaches the placement of the page, line 21 (pager 3).",
        "The guest looks at no placement before it.", "No look reaches it at all.",
        "It shows at line 9 (guest 2): virtual processor 0 reads 0 in cell 0 of page 0."]),
    ("a pager that says twice that all is there", of_one_page(1, [SENT], ["down 2"], [], ["got 1", f"place 0 2 {SIX}", "all", "all"]), ("--complete",), [
        "The source never learned that every owed page had come: its log has no `done` behind the `ask` of that.", "The pager said so at line 22 (pager 5)."]),
    ("a release between the halt and the resume, where a release at the target is no fault",
     of_one_page(2, [], [], [], []).replace("guest 2\nhalt\n", "guest 3\nhalt\nz 0 0\n"), (), [
         "Line 8 (guest 1) does not have the right shape: virtual processor 0 releases page 0.",
         "The guest does nothing between its halt and its resume. Its first halt is line 7 (guest 0), and its first resume is line 9 (guest 2)."]),
    ("a fault that the report does not name", read(f"{CASES}/audit-all/session"), ("--page", "1"), [
        "Of the looks before it, this one reaches furthest: line 11 (guest 4): the guest looks at the placement pager 5.",
        "No look reaches it at all.", "Page 1 has 2 faults in all:", "  early uses: 2, the first at line 13 (guest 6)", "What the logs say of page 1:"]),
)


@pytest.mark.quick
@pytest.mark.cases(len(STORIES))
def test_stories(program, room):
    """What is told of a page that came by two ways, that was repeated, or that has a fault which is not the report's, and of a release too early."""
    for what, session, options, wanted in STORIES:
        with open(f"{room}/session", "w", encoding="ascii") as file:
            file.write(session)
        told = explained(program, *options, f"{room}/session")
        at = told.index(wanted[0]) if wanted[0] in told else 0
        same(what, told[at:at + len(wanted)], wanted)


# The sentences that tell of a record with a role in the object of JSON.
ROLES = {"Wrong": "faulty", "Shows": "faulty", "Misshapen": "faulty", "Change": "changed", "Halt": "halt", "Sending": "sent", "SentBefore": "sent", "Delivery": "delivered",
         "Taking": "taken", "Placement": "placed", "SecondPlacement": "placed-again", "FirstLook": "look", "FirstUse": "touch", "ResumedToo": "resume", "Waits": "waits"}


def roles_in(lines, forms):
    """The records of such sentences, with their roles, in order."""
    for line in lines:
        name = next((name for name, form in forms if form.fullmatch(line)), None)
        record = re.search(r"[Ll]ine (\d+) \((\w+) (\d+)\)", line)
        if name and record:
            yield {"role": ROLES[name], "log": record[2], "record": int(record[3]), "line": int(record[1])}


@pytest.mark.quick
@pytest.mark.cases(450)
def test_records_of_objects(program):
    """The object of an explanation has the records of the sentences, in their order. Where both links delivered, the sentences have one."""
    forms = [(name, re.compile(form)) for name in ROLES for form in FORMS[name]]
    roles = set()
    for path in case_files("session"):
        told = explained(program, "--format", "json", path)
        if os.path.getsize(path) > 1_000_000 or not told or '"records":' not in told[0]:
            continue
        records, what = json.loads(told[0])["records"], name_of(path)
        wanted = list(roles_in(explained(program, path)[1:], forms))
        same(f"the records of {what}", [it for it in records if it["role"] != "delivered"], [it for it in wanted if it["role"] != "delivered"])
        count(all(it in records for it in wanted), f"a delivery is told in words alone, in {what}")
        roles.update(it["role"] for it in wanted)
    same("the roles that were met", sorted(roles), sorted(set(ROLES.values())))

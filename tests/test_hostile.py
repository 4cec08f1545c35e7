"""Uses the program as a hostile surrounding would: texts, memory, reads and writes, sizes.

Texts of each kind are cut after each byte, and have each byte changed and a byte more before each; numbers have thousands of
digits, are what a reader of 32 or 64 bits would take for the right one, or stand at a limit. An eighth of these is tried, the same in each
run. Each answer is compared with
text_judge.py, and, where the text is one, with report_model.py, check_model.py, steps_model.py or what the program says of its
own answer; and of a text that is refused one line of plain words has to say why, and what it tells as expected must not be
refused there in its place. Then memory is refused by limits on the address space (test_refused_growths.py refuses each growth);
each open, read and write fails in turn, is cut short or interrupted; inputs and outputs are closed, full, or directories; and
logs, runs and lines have the greatest size. With --all, which takes some minutes, all are tried, and there are more texts and more changes
of each byte.
"""
import errno
import os
import random
import re
import resource
import signal
import subprocess
import sys
import tempfile
import threading
from concurrent.futures import ProcessPoolExecutor
from typing import NamedTuple

import pytest
from case_table import case_file
from cases import each, right
from check_model import Session, run_not_walked, verdict
from expected_words import place_of, texts_beyond, texts_of
from note_model import NO_USE, note
from report_model import first_line
from session_text import SessionText, logs_of
from steps_model import recorded
from text_judge import refusal_line

TOP = os.path.dirname(os.path.dirname(os.path.abspath(__file__)))
TOLD = 99
MEMORY = b"out of memory\n"
NO_MERGING = b"-: these runs do not take each record of the session once, after the record that it names\n"
NOTE = f"note: {NO_USE}\n".encode()

# A session with a record of each kind, and scripts with an operation of each, at the limits of their fields.
KINDS = b"""postcopy-session 1
pages 3
cells 2
init 2
page 0 00000000000000050000000000000000
page 2 0000000000000000fedcba9876543210
guest 7
w 0 0 0 0
r 63 2 1 18446744073709551615
z 63 2
miss 63 2
halt
resume 1048575
see 1048575
source 6
halted 1048575
state
send 2 0000000000000000ffffffffffffffff
again 1048575
ask 1048575
done
link 2
down 1048575
up 1048575
pager 9
got 1048575
ready
fault 1048575
join 1048575
want 2
place 2 1048575 ffffffffffffffff0000000000000000
zero 2
skip 1048575
all
end
"""
# The same in the second version, with a lane.
LANE_KINDS = KINDS.replace(b"session 1\n", b"session 2\n").replace(b"pager 9\n", b"lane 1\ndown 1048575\npager 10\n").replace(b"ready\n", b"pull 1048575\nready\n")
# The same in the third version.
LARGE_KINDS = LANE_KINDS.replace(b"session 2\n", b"session 3\n").replace(b"1048575", b"134217727")
OPERATIONS = b"""postcopy-script 1
pages 3
cells 2
init 1
page 2 0000000000000000fedcba9876543210
pivots 16
window 65536
down dlrb
up -
vcpus 2
vcpu 3 1
z 2
w 2 1 18446744073709551615
r 2 1
w 0 0 7
vcpu 0 1
r 2 1
end
"""
# The same in the second version, and a page is released after the move.
RELEASES = OPERATIONS.replace(b"script 1\n", b"script 2\n").replace(b"up -\n", b"up -\nlanes 1\n").replace(b"vcpu 0 1\n", b"vcpu 0 2\nz 2\n")
# The same with a lane.
LANES = RELEASES.replace(b"lanes 1\n", b"lanes 2\nlane dlrb\n")
ALL_EVENTS = b"""postcopy-events 1
events 25
guest 0
guest 0
guest 0
halt
push
source-tick
link down deliver
link down repeat
link down back
link down lose
link lane back
link lane repeat
link lane lose
pop
pop
pop-lane
deliver
guest 1
fault
flush
link up deliver
serve
deliver
pager-tick
guest 63
end
"""

# How a text of each kind is given, where the others lie in files, and how its refusal is told.
ASKED = {
    "session": ("audit -", "session-text line"),
    "certificate": ("check session -", "certificate-text line"),
    "runs": ("replay session -", "runs-text line"),
    "script": ("steps - events", "script-text line"),
    "events": ("steps script -", "events-text line"),
}

# Texts of its own, on pages of two cells.
OWN = {
    "own/script": OPERATIONS,
    "own/events": ALL_EVENTS,
    "own/session": recorded(OPERATIONS.decode(), ALL_EVENTS.decode()).session().encode(),
}


def read(name):
    if name in OWN:
        return OWN[name]
    with open(case_file(name), "rb") as file:
        return file.read()


class Outcome(NamedTuple):
    status: int
    output: bytes
    errors: bytes


class Runner:
    """Runs the program in a folder, over files in memory."""

    def __init__(self, program, folder, refusing):
        self.program, self.refusing = program, refusing
        os.chdir(folder)
        self.files = [os.memfd_create(name) for name in ("input", "output", "errors", "told")]
        self.counts = []

    def ran(self, words, given=b"", refusing=None, seconds=None):
        """What a command makes of an input, and with `refusing` how many calls there were and were refused. After so many
        seconds, if any are given, it is killed."""
        for file, text in zip(self.files, (given, b"", b"", b"")):
            os.ftruncate(file, 0)
            os.pwrite(file, text, 0)
            os.lseek(file, 0, os.SEEK_SET)
        actions = [(os.POSIX_SPAWN_DUP2, file, at) for file, at in zip(self.files, (0, 1, 2, TOLD))]
        env = {} if refusing is None else {"LD_PRELOAD": self.refusing, "REFUSING": refusing}
        child = os.posix_spawn(self.program, [self.program, *words.split()], env, file_actions=actions)
        killing = seconds and threading.Timer(seconds, os.kill, (child, signal.SIGKILL))
        if killing:
            killing.start()
        status = os.waitstatus_to_exitcode(os.waitpid(child, 0)[1])
        if killing:
            killing.cancel()
        output, errors, told = (os.pread(file, os.fstat(file).st_size, 0) for file in self.files[1:])
        self.counts = [int(word) for word in told.split()]
        return Outcome(status, output, errors)


runner = None


def start(program, room, refusing):
    """Begins a process of its own, in a folder of its own."""
    global runner
    runner = Runner(program, tempfile.mkdtemp(dir=room), refusing)


# Texts.


def cut_and_changed(text, changes, more):
    """A text cut after each byte, with each byte changed, and with a byte more before each and at its end."""
    yield from (text[:n] for n in range(len(text) + 1))
    yield from (text[:n] + bytes([byte]) + text[n + 1:] for n in range(len(text)) for byte in changes)
    yield from (text[:n] + bytes([byte]) + text[n:] for n in range(len(text) + 1) for byte in more)


def other_numbers(text, digits):
    """A text with each number as a careless reader would take it for the same, and at the limits of all numbers."""
    limits = [0, 1, 63, 64, 65535, 65536, 65537, 2**20 - 1, 2**20, 2**20 + 1, 2**22, 2**22 + 1, 5 * 2**20, 5 * 2**20 + 1]
    limits += [2**24, 2**24 + 1, 2**27 - 1, 2**27, 2**27 + 1, 5 * 2**27, 5 * 2**27 + 1, 2**32 - 1, 2**64 - 1, 2**64]
    for found in re.finditer(rb"(?<= )\d+(?=[ \n])", text):
        word = found[0]
        others = [str(int(word) + more).encode() for more in (2**32, 2**64, 2**128)]
        others += [b"0" + word, b"+" + word, b"-" + word, word + b"\0", b"0" * digits + word, b"9" * digits, b""]
        others += [str(limit).encode() for limit in limits]
        yield from (text[:found.start()] + other + text[found.end():] for other in others)


def fault_of_report(session, found):
    """What is wrong with the report on a session; of the certificate or the order in it, by what the program says of these."""
    head, _, rest = found.output.partition(b"\n")
    wanted = first_line(session.decode())
    said = note(SessionText(session.decode())) if wanted == "clean" else None
    errors = f"-: {said}\n".encode() if said else b""
    if head.decode() != wanted or (found.status, found.errors) != (int(head != b"clean"), errors):
        return wanted
    if head == b"clean" and runner.ran("check - -", session + rest) != (0, b"yes\n", errors):
        return "has a certificate that is not right"
    if head.startswith(b"faulty") and not runner.ran("replay - -", session + rest).output.startswith(b"broken line "):
        return "has an order in which all goes well"
    return None


def is_told(errors, name, line):
    """Whether the errors are a line that says why the text under a name is refused at a line."""
    return re.fullmatch(rb"%s:%d:[1-9][0-9]*: [ -~]+\n" % (re.escape(name.encode()), line), errors) is not None


def is_refused(found, refusal, line):
    """Whether the text that the input is, is refused at this line, and it is told why."""
    return found[:2] == (1, f"{refusal} {line}\n".encode()) and is_told(found[2], "-", line)


def is_misfit_told(errors, text, told):
    """Whether it is told why this is the verdict on the certificate that the input is, of a session that has a right one."""
    if told == "yes":
        return errors == b""
    line = 2 if told == "pages" else int(told.rpartition(" ")[2])
    begin = b"-:%d: " % line
    if told.startswith("page"):
        lines = (it.splitlines()[line - 1] for it in (text, runner.ran("certify session", b"").output))
        begin += b'found "%s"; expected "%s"' % tuple(lines)
    return re.fullmatch(re.escape(begin) + rb"[ -~]+\n", errors) is not None


LINE_FEED = "; expected a line feed after "
expected_before = set()


def misled(kind, text, line, words, errors):
    """What the words on a text that is refused tell as expected though it is refused there as well, or do not tell though it is taken,
    or None. Of each that is expected at a line this looks once."""
    said, begun = errors.decode(), text.partition(b"\n")[0]
    told = (kind, begun, line, said.rpartition("; expected ")[2])
    if told in expected_before:
        return None
    expected_before.add(told)
    for other in texts_of(said, text.decode("latin-1")):
        changed = other.encode("latin-1")
        again = runner.ran(words, changed).errors.decode() if refusal_line(kind, changed) == line else LINE_FEED
        if LINE_FEED not in again and place_of(again)[1] <= place_of(said)[1]:
            return f"expects {changed.splitlines()[line - 1]!r}, which is refused"
    for other in texts_beyond(said, text.decode("latin-1")):
        changed = other.encode("latin-1")
        if refusal_line(kind, changed) != line:
            return f"does not expect {changed.splitlines()[line - 1]!r}, which is taken"
    return None


def misjudged(case):
    """What is wrong with the answer to a text of a kind, or None."""
    kind, text, others = case
    words, refusal = ASKED[kind]
    for name, other in others.items():
        with open(name, "wb") as file:
            file.write(other)
    found = runner.ran(words, text)
    line = refusal_line(kind, text)
    if line is not None:
        wrong = f"refused at {line}" if not is_refused(found, refusal, line) else misled(kind, text, line, words, found.errors)
    elif kind == "session":
        wrong = fault_of_report(text, found)
    elif kind == "runs":
        # (of a session that is safe in every merging)
        runs = text.decode().partition("\nruns ")[2].splitlines()[1:-1]
        walked = run_not_walked(Session(others["session"].decode()), [run.split(" ") for run in runs]) is None
        wrong = found != ((0, b"safe\n", b"") if walked else (1, b"no-merging\n", NO_MERGING)) and "another replay"
    elif kind == "certificate":
        line = verdict(Session(others["session"].decode()), text)
        wrong = found[:2] != (int(line != "yes"), f"{line}\n".encode()) and line
        wrong = wrong or not is_misfit_told(found.errors, text, line) and "another reason"
    else:
        script, events = (text, others["events"]) if kind == "script" else (others["script"], text)
        wrong = found != (0, recorded(script.decode("latin-1"), events.decode("latin-1")).session().encode(), b"") and "another session"
    return f"{kind} {text[:300]!r} gives {str(found)[:200]}: {wrong}" if wrong else None


def texts(is_all):
    """Texts of each kind, with the files that are read beside them."""
    folders = ["examples/two-wait-for-a-page", "examples/released-and-pushed"] + ["examples/lost-and-repeated"] * is_all
    sessions = [f"examples/{it}/session" for it in ("handover", "released-page", "placed-over-a-release", "pushed-by-the-lane")] + [f"{it}/stdout" for it in folders] * is_all
    yield from (("session", read(name), {}) for name in sessions)
    yield from (("session", text, {}) for text in (KINDS, LANE_KINDS, LARGE_KINDS))
    for it in ("examples/replayed", "tests/cases/replay-over-the-lane"):
        yield "runs", read(f"{it}/runs"), {"session": read(f"{it}/session")}
    yield "runs", b"faulty line 13 early\n" + read("examples/replayed/runs"), {"session": read("examples/replayed/session")}
    yield "runs", b"clean\n" + read("examples/handover/certificate"), {"session": read("examples/handover/session")}
    for it in ("handover", "released-at-the-target", "pushed-by-the-lane"):
        yield "certificate", read(f"examples/{it}/certificate"), {"session": read(f"examples/{it}/session")}
    folders += ["examples/wanted-before-the-pushed"] * is_all
    pairs = [(read(f"{it}/script"), read(f"{it}/events")) for it in folders] + [(script, ALL_EVENTS) for script in (OPERATIONS, RELEASES, LANES)]
    for script, events in pairs:
        yield "script", script, {"events": events}
        yield "events", events, {"script": script}


def odd_lanes():
    """Scripts whose lines about lanes are others than they may be, or stand elsewhere, or have as many fates as there may be."""
    lanes, fates = b"lanes 2\n", b"lane dlrb\n"
    less = LANES.replace(lanes + fates, b"")
    yield from (text.replace(b"script 2\n", b"script 1\n") for text in (LANES, LANES.replace(lanes, b""), LANES.replace(fates, b"")))
    for other in (b"", lanes, fates, fates + lanes, lanes + fates + fates, lanes + lanes + fates, b"lanes 1\n" + fates, b"lanes 3\n" + fates, b"lanes 3\n" + fates * 2):
        yield LANES.replace(lanes + fates, other)
    for other in (b"lane", b"lane ", b"lane --", b"lane -d", b"lane d-", b"lane D", b"lane d d", b"lanes -", b"down -", b"Lane -", b"lane " + b"dlrb" * 1024, b"lane " + b"dlrb" * 1024 + b"d"):
        yield LANES.replace(fates, other + b"\n")
    for found in re.finditer(b"\n", less):
        yield from (less[:found.end()] + other + less[found.end():] for other in (lanes + fates, lanes, fates, b"lanes 1\n"))


def judged_texts(is_all):
    changes, more, digits = b"0 \n\xff", b"0 ", 5000
    if is_all:
        changes, more, digits = bytes(range(0, 256, 5)) + b"\n -09azf", b"\n -09af\0\r\xff", 50000
    for kind, text, others in texts(is_all):
        cases = dict.fromkeys(other_numbers(text, digits))
        if kind != "certificate":
            # (test_changed_certificates.py does this to certificates)
            cases.update(dict.fromkeys(cut_and_changed(text, changes, more)))
        chosen = cases if is_all else random.Random(text).sample([*cases], len(cases) // 8)
        yield from ((kind, case, others) for case in chosen)
    yield from (("script", script, {"events": ALL_EVENTS}) for script in odd_lanes())


# Opens, reads and writes that fail.

# Folders with texts, words, and what the input has of the folder.
SHOWN = (
    ("examples/handover", "check session certificate", ""),
    ("examples/handover", "check - -", "session certificate"),
    ("examples/released-page", "certify session", ""),
    ("examples/released-page", "audit session", ""),
    ("examples/early-access", "audit session", ""),
    ("examples/early-access", "certify -", "session"),
    ("examples/early-access", "explain session", ""),
    ("examples/stale-page", "explain session", ""),
    ("examples/released-at-the-target", "certify session", ""),
    ("examples/placed-over-a-release", "audit session", ""),
    ("examples/placed-over-a-release", "explain session", ""),
    ("examples/pushed-by-the-lane", "check session certificate", ""),
    ("examples/pushed-by-the-lane", "certify session", ""),
    ("tests/cases/audit-early-access-by-the-lane", "audit session", ""),
    ("tests/cases/audit-early-access-by-the-lane", "explain session", ""),
    ("tests/cases/replay-over-the-lane", "replay session runs", ""),
    ("tests/cases/audit-circle-of-receipts", "audit session", ""),
    ("tests/cases/audit-circle-of-receipts", "explain session", ""),
    ("tests/cases/misfit-zeroed-page", "check session certificate", ""),
    ("tests/cases/look-below-the-placement", "check session certificate", ""),
    ("examples/circle-of-receipts", "check session certificate", ""),
    ("examples/wrong-shape", "check session certificate", ""),
    ("examples/leading-zero", "check session certificate", ""),
    ("examples/replayed-too-early", "replay session runs", ""),
    ("examples/two-wait-for-a-page", "steps script events", ""),
    ("examples/released-and-pushed", "steps - events", "script"),
    ("examples/woken-by-a-release", "steps script events", ""),
    ("examples/wanted-before-the-pushed", "steps script events", ""),
    ("tests/cases/window-of-the-second-version", "window recording 1 1", ""),
    ("tests/cases/window-of-a-refused-recording", "window recording 0 1", ""),
    ("tests/cases/explain-by-the-lines-of-the-recording", "explain --lines lines session", ""),
    ("own", "steps script events", ""),
    ("own", "audit session", ""),
    ("examples/handover", "--help", ""),
    ("examples/handover", "--version", ""),
    ("examples/handover", "audit", ""),
    ("examples/handover", "audit missing", ""),
)


def read_in_order(words, names):
    """The inputs of a command as they are opened and read: a table of lines after its session."""
    return sorted((word for word in words.split()[1:] if word in names or word == "-"), key=lambda it: it == "lines")


def failed(name, why):
    """What comes of a text that is not read."""
    return Outcome(3, b"", f"file {name}\n{name}: {why}\n".encode())


def refused_in_turn(case):
    """What is wrong with a command where each call fails in turn: for each try what went wrong, or None."""
    folder, words, put_in = case
    names = [it for it in words.split()[1:] if f"{folder}/{it}" in OWN or os.path.isfile(case_file(f"{folder}/{it}"))]
    for name in names:
        with open(name, "wb") as file:
            file.write(read(f"{folder}/{name}"))
    given = b"".join(read(f"{folder}/{name}") for name in put_in.split())
    plain = runner.ran(words, given)
    tries = []

    def same(refusing, *wanted):
        found = runner.ran(words, given, refusing)
        is_well = (found in wanted or any(callable(it) and it(found) for it in wanted)) and runner.counts[-1] > 0
        tries.append(None if is_well else f"{words} of {folder} with {refusing}: {found}, and refused {runner.counts[-1]}")

    def is_failed_output(found):
        return found.status == 3 and plain.output.startswith(found.output) and found.errors.startswith(b"output\nstandard output: ") and found.errors.count(b"\n") == 2

    def is_closed_output(found):
        return found.status == plain.status and plain.output.startswith(found.output) and found.errors == plain.errors

    def is_failed_error(found):
        # (what is told beside an answer changes neither it nor its status)
        return found[:2] == plain[:2] and found.errors != plain.errors and plain.errors.startswith(found.errors)

    tries.append(None if runner.ran(words, given, "-") == plain else f"{words} of {folder}: another answer where calls are counted")
    _, reads, writes, opens, *_ = runner.counts
    starved = Outcome(4, b"", MEMORY)
    inputs = read_in_order(words, names)
    shared = inputs == ["-", "-"]
    for n in range(1, reads + 1):
        # Each input is read until it ends: by two reads.
        name = inputs[0] if shared else inputs[(n - 1) // 2]
        same(f"read {n} {n} {errno.EIO}", failed(name, "input/output error"))
        same(f"read {n} {n} {errno.EINTR}", plain)
        same(f"read {n} {n} {errno.ENOMEM}", starved)
    for n in range(1, opens + 1 if plain.status < 2 else 1):
        name = [it for it in inputs if it != "-"][n - 1]
        same(f"open {n} {n} {errno.EACCES}", failed(name, "permission denied"))
        same(f"open {n} {n} {errno.EMFILE}", failed(name, "too many open files"))
        same(f"open {n} {n} {errno.ENOMEM}", starved)
    for n in range(1, writes + 1):
        same(f"write {n} {n} {errno.EINTR}", plain)
        if plain.status < 2:
            for how in (errno.EIO, errno.ENOSPC, "none"):
                same(f"write {n} {n} {how}", is_failed_output, is_failed_error)
            same(f"write {n} {n} {errno.EPIPE}", is_closed_output, is_failed_error)
        else:
            # A failed write to the errors changes no status.
            told = [plain.errors[:length] for length in range(len(plain.errors))]
            same(f"write {n} 9999999 {errno.EIO}", *(Outcome(plain.status, b"", errors) for errors in told))
    if reads:
        same("read 1 9999999 short", plain)
        # (an interrupted read counts, so that it is not made for ever)
        same(f"read 1 9999999 {errno.EINTR}", failed(inputs[0], "the text comes in too many pieces"))
    if writes:
        same("write 1 9999999 short", plain)
    return tries


# Limits on the address space.


def within(limit):
    """What a child does before the program begins, so that its address space is so large at most."""
    return lambda: resource.setrlimit(resource.RLIMIT_AS, (limit, limit))


def limited(program, words, limit, given=b""):
    """What a command makes of an input with so much address space, or None where the program could not begin."""
    try:
        child = subprocess.run([program, *words.split()], input=given, capture_output=True, preexec_fn=within(limit))
    except (OSError, subprocess.SubprocessError):
        return None
    # (127 is the loader's own status)
    return None if child.returncode == 127 else Outcome(child.returncode, child.stdout, child.stderr)


# The most address space that an answer to a small text may take beside that of the program itself.
SMALL = 1 << 20

LITTLE = b"pages 1\ncells 1\ninit 0\n"
WIDE = b"pages 65536\ncells 16\ninit 65536\n"
WIDEST = b"pages 16777216\ncells 1\ninit 16777216\n"
SCRIPTED = b"postcopy-script 1\n" + LITTLE + b"pivots 1\nwindow 1\ndown -\nup -\nvcpus 64\n"
SECOND_SCRIPTED = SCRIPTED.replace(b"script 1\n", b"script 2\n").replace(b"vcpus", b"lanes 1\nvcpus")

# Texts that end with the greatest count.
COUNTS = (
    ("session", b"postcopy-session 1\n" + WIDE),
    ("session", b"postcopy-session 1\n" + LITTLE + b"guest 1048576\n"),
    ("session", b"postcopy-session 1\n" + LITTLE + b"guest 0\nsource 1048576\n"),
    ("session", b"postcopy-session 1\n" + LITTLE + b"guest 0\nsource 0\nlink 1048576\n"),
    ("session", b"postcopy-session 1\n" + LITTLE + b"guest 0\nsource 0\nlink 0\npager 1048576\n"),
    ("session", b"postcopy-session 2\n" + LITTLE + b"guest 0\nsource 0\nlink 0\nlane 1048576\n"),
    ("session", b"postcopy-session 2\n" + LITTLE + b"guest 0\nsource 0\nlink 0\nlane 0\npager 1048576\n"),
    ("session", b"postcopy-session 3\n" + WIDEST),
    ("session", b"postcopy-session 3\n" + LITTLE + b"guest 134217728\n"),
    ("session", b"postcopy-session 3\n" + LITTLE + b"guest 0\nsource 134217728\n"),
    ("session", b"postcopy-session 3\n" + LITTLE + b"guest 0\nsource 0\nlink 134217728\n"),
    ("session", b"postcopy-session 3\n" + LITTLE + b"guest 0\nsource 0\nlink 0\nlane 134217728\n"),
    ("session", b"postcopy-session 3\n" + LITTLE + b"guest 0\nsource 0\nlink 0\nlane 0\npager 134217728\n"),
    ("certificate", b"postcopy-certificate 1\npages 65536\n"),
    ("certificate", b"postcopy-certificate 1\npages 1\npage 0 none\nruns 4194304\n"),
    ("certificate", b"postcopy-certificate 2\npages 1\npage 0 none\nruns 5242880\n"),
    ("certificate", b"postcopy-certificate 3\npages 16777216\n"),
    ("certificate", b"postcopy-certificate 3\npages 1\npage 0 none\nruns 671088640\n"),
    ("runs", b"postcopy-runs 1\nruns 671088640\n"),
    ("script", b"postcopy-script 1\n" + WIDE),
    ("script", SCRIPTED),
    ("script", SCRIPTED + b"vcpu 65536 65536\n"),
    ("script", SECOND_SCRIPTED + b"vcpu 65536 65536\n"),
    ("events", b"postcopy-events 1\nevents 1048576\n"),
)


def starved_commands(program, wide):
    """Commands with less and less address space. What comes is what went wrong, or None, for each try."""
    steps = [4096 * n for n in range(0, 160, 8)] + [1 << n for n in range(20, 27)]
    begun = (0, 4)
    less, least = 1 << 20, 1 << 26
    while least - less > 4096:
        limit = (less + least) // 8192 * 4096
        less, least = (less, limit) if (limited(program, "--version", limit) or [None])[0] in begun else (limit, least)
    for words, given in [(words, b"") for words in (*WRITING, "audit")] + [("audit -", wide)]:
        plain = limited(program, words, 1 << 31, given)
        for step in steps:
            found = limited(program, words, least + step, given)
            is_well = found == plain or found == (4, b"", MEMORY)
            yield None if is_well else f"{words} with {least + step} bytes: {str(found)[:200]}"
        yield None if limited(program, words, least + (64 << 20), given) == plain else f"{words} with ample memory"
    for kind, text in COUNTS:
        words, refusal = ASKED[kind]
        found = limited(program, words, least + SMALL, text)
        yield None if is_refused(found, refusal, text.count(10) + 1) else f"a count alone, {text[-40:]!r}: {found}"


# Inputs and outputs.


def redirected(program, words, how):
    """What a command answers under redirections of a shell."""
    child = subprocess.run(["bash", "-c", f'exec "$0" {words} {how}', program], input=b"", capture_output=True)
    return Outcome(child.returncode, child.stdout, child.stderr)


# Words, with the name of the input that is not there, no file, or a standard input that cannot be read.
NO_FILE, FOLDER = "no such file or directory", "it is a directory"

# Why a folder with no files of recorders, but a file `session`, is no session, and the lines before that.
NO_SESSION = "its files make no session"
NO_RECORDING = "session: {0}: there is no file of a recorder, PARTY.PROCESS.N\nsession: {0}: it has a file session: to read that, name {0}/session\n"

# Words of which a text is not read, the name that is told, and why, where it is not the standard input that fails.
UNREAD = (
    ("audit -", "-", None),
    ("check - certificate", "-", None),
    ("check session -", "-", None),
    ("steps - -", "-", None),
    ("", "-", None),
    ("certify missing", "missing", NO_FILE),
    ("check session ''", "", NO_FILE),
    ("audit .", ".", NO_SESSION),
    ("check . certificate", ".", NO_SESSION),
    ("check session .", ".", FOLDER),
    ("replay session .", ".", FOLDER),
    ("steps script .", ".", FOLDER),
    ("window - 0 1", "-", None),
    ("window . 0 1", ".", NO_SESSION),
    ("window missing 0 1", "missing", NO_FILE),
    ("explain --lines . session", ".", FOLDER),
    ("audit session/x", "session/x", "a part of its path is not a directory"),
    (f"audit {'x' * 5000}", "x" * 5000, "its name is too long"),
    ("audit 'a b\nc'", '"a b\\u000ac"', NO_FILE),
)
NO_COMMANDS = (
    "audit",
    "certify session session",
    "no-command",
    "check session",
    "window session 0",
    "--no-option",
    "audit $'\\xff'",
    "check session $'a\\xffb'",
    "''",
)
WRITING = (
    "check session certificate",
    "certify session",
    "audit session",
    "audit early",
    "explain early",
    "replay session runs",
    "steps script events",
    "window session 0 1",
    "draw session",
    "draw session runs",
    "--help",
    "--version",
)


# What is told of a stream that is closed, or open for the other way alone.
CLOSED = "it is closed, or not open for this"


def streams(program):
    """Words, redirections of a shell, and what has to come of them."""
    for words in WRITING:
        for how, why in ((">&-", CLOSED), ("> /dev/full", "no space left on the device"), ("1< /dev/null", CLOSED)):
            yield words, how, (3, b"", f"output\nstandard output: {why}\n".encode())
        for how in ("> /dev/full 2> /dev/full", "<&- >&- 2>&-"):
            yield words, how, (3, b"", b"")
        for how in ("<&-", "2>&-"):
            yield words, how, redirected(program, words, "")
    for words, name, cause in UNREAD:
        for how, why in (("<&-", CLOSED), ("< .", FOLDER), ("0> /dev/null", CLOSED)):
            front = NO_RECORDING.format(name) if cause == NO_SESSION else ""
            yield words, how, (3, b"", f"{front}file {name}\n{name}: {cause or why}\n".encode())
        for how in ("<&- 2>&-", "< . 2> /dev/full"):
            yield words, how, (3, b"", b"")
    for words in NO_COMMANDS:
        for how in ("2> /dev/full", "2>&-"):
            yield words, how, (2, b"", b"")


def failed_stream(program, words, how, wanted):
    found = redirected(program, words, how)
    return None if found == wanted else f"{words} {how}: {str(found)[:200]}, not {str(wanted)[:200]}"


def piped(program, words, pieces, takes=None):
    """The status and errors of a command whose input comes in pieces, and its output, of which so many bytes are taken."""
    child = subprocess.Popen([program, *words.split()], stdin=subprocess.PIPE, stdout=subprocess.PIPE, stderr=subprocess.PIPE)

    def feed():
        try:
            for piece in pieces:
                child.stdin.write(piece)
                child.stdin.flush()
            child.stdin.close()
        except BrokenPipeError:
            pass

    feeding = threading.Thread(target=feed)
    feeding.start()
    output = child.stdout.read() if takes is None else child.stdout.read(takes)
    child.stdout.close()
    errors = child.stderr.read()
    feeding.join()
    return Outcome(child.wait(), output, errors)


def pipes(program, session, greatest):
    """Pipes by single bytes, one that has no byte and is not waited for, and one whose reader goes away."""
    plain = limited(program, "certify -", 1 << 31, session)
    found = piped(program, "certify -", (session[n:n + 1] for n in range(len(session))))
    yield None if found == plain else f"an input by single bytes: {found}"
    reading, writing = os.pipe()
    os.set_blocking(reading, False)
    child = subprocess.run([program, "certify", "-"], stdin=reading, capture_output=True)
    os.close(reading)
    os.close(writing)
    found = Outcome(child.returncode, child.stdout, child.stderr)
    wanted = (3, b"", b"file -\n-: it has no bytes ready\n")
    yield None if found == wanted else f"an input with no byte ready: {found}"
    for takes in (0, 1, 70000):
        found = piped(program, "certify -", [greatest], takes)
        yield None if (found.status, found.errors) == (0, b"-: " + NOTE) else f"a reader that goes away after {takes} bytes: {found.status} {found.errors}"


# Texts of the greatest size.

LONGEST = 60_000_000


def with_long_lines():
    """Texts with a line of 60 MB, in pieces: what comes before it, a byte of it, and where it is refused."""
    yield "audit -", b"", b"p", "session-text line 1"
    yield "audit -", b"postcopy-session 1\npages ", b"1", "session-text line 2"
    yield "certify -", b"postcopy-session 1\npages 1\ncells 1\ninit 1\npage 0 ", b"0", "session-text line 5"
    yield "check session -", b"postcopy-certificate 1\npages 1\npage 0 source ", b"9", "certificate-text line 3"
    yield "replay session -", b"postcopy-runs 1\nruns 1\nrun guest ", b" ", "runs-text line 3"
    yield "steps - events", b"postcopy-script 1\npages 1\ncells 1\ninit 0\npivots 1\nwindow 1\ndown ", b"d", "script-text line 7"
    yield "steps - events", b"postcopy-script 2\npages 1\ncells 1\ninit 0\npivots 1\nwindow 1\ndown -\nup -\nlanes 2\nlane ", b"d", "script-text line 10"
    yield "steps script -", b"postcopy-events 1\nevents 1\n", b"\0", "events-text line 3"


def long_line(program, words, front, byte, refusal):
    """Whether a line of 60 MB is refused, and in no more than two and a half times as much address space."""
    piece = byte * (1 << 20)
    child = subprocess.Popen([program, *words.split()], stdin=subprocess.PIPE, stdout=subprocess.PIPE, stderr=subprocess.PIPE, preexec_fn=within(LONGEST * 5 // 2))
    try:
        with child.stdin as into:
            into.write(front)
            for _ in range(LONGEST // len(piece)):
                into.write(piece)
            into.write(b"\n")
    except BrokenPipeError:
        pass
    output, errors = child.stdout.read(), child.stderr.read()
    found, (kind, _, line) = (child.wait(), output, errors), refusal.rpartition(" ")
    return None if is_refused(found, kind, int(line)) else f"{words} of a long line: {found}"


FULL = 2**20


def full_logs(version, full=FULL):
    """A session of this version whose logs are all full, or have so many records, and runs of it, all but one of a single record."""
    records = {
        "guest": (b"halt\nresume 1\n", b"miss 0 0\n", 2),
        "source": (b"halted 0\nstate\n", b"again 1\n", 2),
        "link": (b"", b"down 1\n", 0),
        "lane": (b"", b"down 1\n", 0),
        "pager": (b"got 0\nready\n", b"skip 0\n", 2),
    }
    session, runs = f"postcopy-session {version}\npages 1\ncells 1\ninit 0\n".encode(), ""
    for log in logs_of(version):
        first, more, count = records[log]
        session += f"{log} {full}\n".encode() + first + more * (full - count)
    links = "".join(f"run {log} 1\n" for log in logs_of(version)[2:])
    first = "run guest 1\nrun source 2\n" + links * 2 + "run guest 1\n"
    runs = first + f"run source 1\n{links}run guest 1\n" * (full - 2)
    return session + b"end\n", runs.encode()


def greatest_sizes(program, version):
    session, runs = full_logs(version)
    logs, full = logs_of(version), f"full-{version}"
    count = len(logs) * FULL - 1
    entry = f"postcopy-certificate {version}\npages 1\npage 0 none\n".encode()
    found_runs = ["run guest 1", *(f"run {log} {FULL}" for log in logs[1:]), f"run guest {FULL - 1}"]
    with open(full, "wb") as file:
        file.write(session)
    past = f"-:{count + 5}: the run takes link {FULL}, and the link's log has {FULL} records (0 to {FULL - 1})\n"
    # (its one page was owed, and never came, however many records there are)
    noted = f"{full}: {note(SessionText(full_logs(version, 4)[0].decode()))}\n".encode()
    left = f"-:{count + 4}: no run takes the session's line {FULL + 5} (guest {FULL - 1})\n"
    tries = (
        (f"check {full} -", entry + f"runs {count}\n".encode() + runs + b"end\n", (0, b"yes\n", noted)),
        (f"check {full} -", entry + f"runs {count + 1}\n".encode() + runs + b"run link 1\nend\n", (1, f"runs line {count + 5}\n".encode(), past.encode())),
        (f"check {full} -", entry + f"runs {count - 1}\n".encode() + runs[:-len(b"run guest 1\n")] + b"end\n", (1, f"runs line {count + 4}\n".encode(), left.encode())),
        (f"replay {full} -", b"postcopy-runs 1\n" + f"runs {count}\n".encode() + runs + b"end\n", (0, b"safe\n", b"")),
        (f"certify {full}", b"", (0, entry + "\n".join([f"runs {len(found_runs)}", *found_runs, "end", ""]).encode(), noted)),
    )
    # (the lane is what the first version has not)
    for words, given, wanted in tries if version == 2 else tries[-1:]:
        child = subprocess.run([program, *words.split()], input=given, capture_output=True)
        found = child.returncode, child.stdout, child.stderr
        yield None if found == wanted else f"{words} of full logs: {str(found)[:200]}"


def starved_by_the_greatest(program):
    """Full logs with less and less address space."""
    for words in ("audit full-1", "certify full-1", "certify full-2", "steps script events", "check full-1 certificate", "replay full-1 runs"):
        plain = limited(program, words, 1 << 40)
        for megabytes in range(4, 260, 4):
            found = limited(program, words, megabytes << 20)
            yield None if found in (plain, (4, b"", MEMORY)) else f"{words} with {megabytes} MiB: {str(found)[:200]}"


def larger_session(program, folder):
    """Makes a session of some thousand records, its certificate and runs, and answers the words that are tried with them."""
    os.mkdir(folder)
    session = f"{folder}/session"
    subprocess.run([sys.executable, f"{TOP}/bench/commands", "--make", session, "--records", "3000", "--pages", "60", "--cells", "3"], check=True)
    with open(f"{folder}/certificate", "wb") as file:
        subprocess.run([program, "certify", session], stdout=file, check=True)
    with open(f"{folder}/runs", "wb") as file:
        file.write(b"postcopy-runs 1\nruns " + read(f"{folder}/certificate").partition(b"\nruns ")[2])
    return [(folder, words, "") for words in ("check session certificate", "certify session", "audit session", "replay session runs", "draw session", "draw session runs")]


def alone(program, is_all):
    """What is tried without other tries beside it."""
    pair, released = "examples/two-wait-for-a-page", read("examples/released-page/session")
    names = {"session": "examples/handover/session", "certificate": "examples/handover/certificate", "early": "examples/early-access/session"}
    for name, source in {**names, "script": f"{pair}/script", "events": f"{pair}/events"}.items():
        with open(name, "wb") as file:
            file.write(read(source))
    with open("runs", "wb") as file:
        file.write(b"postcopy-runs 1\n" + read("examples/handover/certificate").partition(b"page 1 source 4 7 7 6\n")[2])
    greatest = b"postcopy-session 1\npages 65536\ncells 16\ninit 0\nguest 0\nsource 0\nlink 0\npager 0\nend\n"
    yield from starved_commands(program, greatest)
    yield from (failed_stream(program, *case) for case in streams(program))
    yield from pipes(program, released, greatest)
    yield from (long_line(program, *case) for case in with_long_lines())
    for version in (1, 2):
        yield from greatest_sizes(program, version)
    if is_all:
        yield from starved_by_the_greatest(program)


pytestmark = pytest.mark.slow


@pytest.fixture
def is_all(pytestconfig):
    """Whether there are more texts, more changes of each byte and the greatest script, which takes some minutes."""
    return pytestconfig.getoption("--all")


@pytest.fixture
def pool(program, room, refusing):
    with ProcessPoolExecutor(2, initializer=start, initargs=(program, room, refusing)) as made:
        yield made
        # (where a test has ended before its last case)
        made.shutdown(cancel_futures=True)


@pytest.mark.cases(800)
def test_refused(program, room, pool, is_all):
    """Each open, read and write is refused in turn."""
    for found in each([*SHOWN, *(larger_session(program, f"{room}/larger") if is_all else [])], lambda some: pool.map(refused_in_turn, some)):
        for wrong in found:
            right(wrong)


@pytest.mark.cases(6500)
def test_texts(pool, is_all):
    for wrong in pool.map(misjudged, judged_texts(is_all), chunksize=50):
        right(wrong)


@pytest.mark.cases(500)
def test_alone(program, room, monkeypatch, is_all):
    monkeypatch.chdir(room)
    for wrong in alone(program, is_all):
        right(wrong)

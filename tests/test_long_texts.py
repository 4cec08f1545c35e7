"""Long texts, of which several threads read parts: whole ones, and ones with a fault in each part.

A session of 16 MB and runs of 14 MB, which are read in the first 8 MiB and in three pieces of 2 MiB behind it and more, are
replayed: both from files, and each of them from the standard input. Of a text that is refused the line has to be told, and
what was found there. An input that fails in a later piece is told too; one of
which a read is interrupted there, since the program is stopped while it waits for more, is replayed as ever.

A table of lines may have as many lines as the text of a session of a large machine: one with more lines than a machine has
pages, and one of more bytes than a text may have that is not long, are read by `explain --lines`.

A text takes 1,048,576 reads, with the one that finds its end, and a table of lines, which may be long, takes more. A line that has
not ended has 268,435,456 bytes. One read more and one byte more are refused.

A text has 268,435,456 bytes. By its first bytes it may be longer: a session or a certificate of the third version, runs, and a report.

The initial pages of a session are read at once up to the first that leaves no room for those to come, and not one by one.
"""
import errno
import functools
import os
import resource
import signal
import socket
import struct
import subprocess
import sys
import time

import pytest
from cases import each, leave_out, same

TOP = os.path.realpath(f"{os.path.dirname(os.path.realpath(__file__))}/..")
# How many writes a session has, and how many runs a merging, and the line of the first of each.
WRITES, FIRST_WRITE = 474_000, 6
RUNS, FIRST_RUN = 1_258_000, 3
# Which write or run is wrong: in the first 8 MiB, in parts of each piece behind it, and the last.
WRONG_WRITES = (1_000, 259_000, 274_000, 290_000, 306_000, 324_000, 354_000, 374_000, 389_000, 424_000, 444_000, WRITES - 1)
WRONG_RUNS = (5_000, 738_000, 788_000, 838_000, 968_000, 1_088_000, 1_238_000, RUNS - 1)
# After how many bytes an input fails, or a read of it is interrupted: in the first 8 MiB, at its end, and in each piece behind it.
BROKEN = (8_000_000, 8 << 20, 9_000_000, 10 << 20, 11_000_000, 13_000_000, 15_000_000)


@functools.cache
def writes():
    return [b"w 3 %d 0 18446744073709551615\n" % (at % 65_536) for at in range(WRITES)]


def joined(lines, wrong, line):
    """The lines, of which the one of this index is another."""
    return b"".join(lines if wrong is None else (*lines[:wrong], line, *lines[wrong + 1:]))


def session(wrong=None):
    """A session of a guest that only writes. The write of this index is of no page."""
    head = b"postcopy-session 1\npages 65536\ncells 1\ninit 0\nguest %d\n" % WRITES
    return head + joined(writes(), wrong, b"w 3 65536 0 18446744073709551615\n") + b"source 0\nlink 0\npager 0\nend\n"


def merging(wrong=None):
    """Runs by turns of two logs. The run of this index has no record."""
    turns = [b"run guest 1\n", b"run link 1\n"]
    line = turns[wrong % 2].replace(b"1", b"0") if wrong is not None else b""
    return b"postcopy-runs 1\nruns %d\n" % RUNS + joined(turns * (RUNS // 2), wrong, line) + b"end\n"


WRONG_WRITE = 'found "65536" in "w 3 65536 0 18446744073709551615"; expected P, a page from 0 to 65535, as in "w V P C X"'
WRONG_RUN = 'found "0" in "run {log} 0"; expected N, a number from 1 to 134217728, as in "run {log} N"'


NO_MERGING = "these runs do not take each record of the session once, after the record that it names"


def cases():
    """What is tried, the two texts, the line that is to be written, and what is to be told behind the name of the first text or the second."""
    whole, runs = session(), merging()
    yield "both are whole", whole, runs, b"no-merging\n", 1, f" {NO_MERGING}"
    for at in WRONG_WRITES:
        line = FIRST_WRITE + at
        yield f"write {at} is wrong", session(at), runs, b"session-text line %d\n" % line, 0, f"{line}:5: {WRONG_WRITE}"
    for at in WRONG_RUNS:
        line, log = FIRST_RUN + at, "link" if at % 2 else "guest"
        told = f"{line}:{len('run ' + log) + 2}: {WRONG_RUN.format(log=log)}"
        yield f"run {at} is wrong", whole, merging(at), b"runs-text line %d\n" % line, 1, told


def failed_after(program, room, text):
    """What comes of a replay whose input gives this text and then fails."""
    near, far = socket.socketpair()
    # What is sent to the near end and not read there makes of its closing a failure at the far end.
    far.sendall(b"\n")
    child = subprocess.Popen(
        [program, "replay", "-", "runs"], cwd=room, stdin=far, stdout=subprocess.PIPE, stderr=subprocess.PIPE
    )
    far.close()
    near.sendall(text)
    near.close()
    return (*child.communicate(), child.returncode)


def is_waiting(child):
    """Whether a thread of a process waits in a call on the standard input."""
    for thread in os.listdir(f"/proc/{child.pid}/task"):
        try:
            with open(f"/proc/{child.pid}/task/{thread}/syscall") as file:
                if file.read().split(" ")[1:2] == ["0x0"]:
                    return True
        except (FileNotFoundError, ProcessLookupError):
            # (the thread has ended)
            pass
    return False


def interrupted(command, room, first, rest):
    """What comes of a command that is stopped, and goes on, while it waits for the rest of its input. A read of a socket that has
    a limit of time is interrupted by that."""
    near, far = socket.socketpair()
    far.setsockopt(socket.SOL_SOCKET, socket.SO_RCVTIMEO, struct.pack("ll", 1000, 0))
    child = subprocess.Popen(command, cwd=room, stdin=far, stdout=subprocess.PIPE, stderr=subprocess.PIPE)
    far.close()
    near.sendall(first)
    while child.poll() is None and not is_waiting(child):
        time.sleep(0.001)
    if child.returncode is None:
        child.send_signal(signal.SIGSTOP)
        os.waitpid(child.pid, os.WUNTRACED)
        child.send_signal(signal.SIGCONT)
        try:
            near.sendall(rest)
        except BrokenPipeError:
            pass
    near.close()
    return (*child.communicate(), child.returncode)


# Reads the standard input until nothing comes, and tells the error of the last read.
READER = """
import ctypes
room, system = ctypes.create_string_buffer(100), ctypes.CDLL(None, use_errno=True)
while system.read(0, room, 100) > 0:
    pass
print(ctypes.get_errno())
"""


def is_interrupted(room):
    """Whether a read is interrupted so here, and the system tells what a thread waits for."""
    if not os.path.exists("/proc/self/syscall"):
        return False
    try:
        return interrupted([sys.executable, "-c", READER], room, b"some", b"more")[0] == b"%d\n" % errno.EINTR
    except PermissionError:
        return False


# What is told by the lines of a table, and how many lines it has and what stands in each.
NO_RESUME = "postcopy-session 1\npages 1\ncells 1\ninit 0\nguest 1\nresume 1\nsource 0\nlink 0\npager 2\ngot 0\nready\nend\n".encode()
TABLES = ((16_777_217, 7), (13_421_773, 1_000_000_000_000_000_007))


def write(room, name, text):
    with open(f"{room}/{name}", "wb") as file:
        file.write(text)


def on_one_processor():
    """What a child does before the program begins: it may use one processor alone."""
    os.sched_setaffinity(0, sorted(os.sched_getaffinity(0))[:1])


def replayed(program, room, before=None):
    """Replays of long texts: what is tried, what comes of it, and what has to. The texts come in turn from files and from the standard input."""
    for number, (what, first, second, wanted, refused, why) in enumerate(cases()):
        write(room, "session", first)
        write(room, "runs", second)
        ways = (("session", "runs"), b""), (("-", "runs"), first), (("session", "-"), second)
        for names, given in ways[number % 3:][:1] if number else ways:
            ran = subprocess.run([program, "replay", *names], cwd=room, input=given, capture_output=True, preexec_fn=before)
            yield f"{what}, replay {' '.join(names)}", (ran.stdout, ran.stderr, ran.returncode), (wanted, f"{names[refused]}:{why}\n".encode(), 1)


def replayed_by_one_thread(program, room):
    """The same on one processor, where one thread reads pieces of 128 KiB to the end."""
    yield from replayed(program, room, on_one_processor)


# What is told where the input's other end is closed with something unread in it.
FAILED_INPUT = b"file -\n-: the connection was closed\n"


def broken(program, room):
    """The same of inputs that fail, or of which a read is interrupted."""
    whole = session()
    write(room, "runs", merging())
    for count in BROKEN:
        yield f"an input that fails after {count} bytes", failed_after(program, room, whole[:count]), (b"", FAILED_INPUT, 3)
    if not is_interrupted(room):
        leave_out("an input of which a read is interrupted, since none is interrupted here")
        return
    for count in BROKEN:
        found = interrupted([program, "replay", "-", "runs"], room, whole[:count], whole[count:])
        yield f"an input of which a read is interrupted after {count} bytes", found, (b"no-merging\n", f"runs: {NO_MERGING}\n".encode(), 1)


def told_by_tables(program, room):
    """The same of what is told by long tables of lines."""
    write(room, "session", NO_RESUME)
    for count, line in TABLES:
        with open(f"{room}/table", "wb") as file:
            for at in range(0, count, 1_000_000):
                file.write(b"%d\n" % line * min(1_000_000, count - at))
        ran = subprocess.run([program, "explain", "--lines", "table", "session"], cwd=room, capture_output=True)
        first = ran.stdout.split(b"\n")[0]
        yield f"a table of {count} lines", (first, ran.stderr, ran.returncode), (b"shape line %d phases" % line, b"", 1)
        os.remove(f"{room}/table")


# How many initial pages a session has, and for how many seconds of processor its text may be read.
INITIAL, SECONDS = 60_000, 10


def pages_without_room(program, room):
    """The same of a session whose last initial page but one is the machine's last."""
    pages = b"".join(b"page %d 0000000000000001\n" % page for page in (*range(INITIAL - 2), 65_535, 65_535))
    write(room, "session", b"postcopy-session 1\npages 65536\ncells 1\ninit %d\n%sguest 0\nsource 0\nlink 0\npager 0\nend\n" % (INITIAL, pages))
    limit = lambda: resource.setrlimit(resource.RLIMIT_CPU, (SECONDS, SECONDS))
    ran = subprocess.run([program, "audit", "session"], cwd=room, capture_output=True, preexec_fn=limit)
    wanted = b'session:60003:6: found "65535" in "page 65535 0000000000000001"; expected N, a number from 59998 to 65534, as in "page N HEX"\n'
    yield "a page that leaves no room", (ran.stdout, ran.stderr, ran.returncode), (b"session-text line 60003\n", wanted, 1)


# How many reads a text takes, with the one that finds its end, and how many bytes a line has that has not ended, at most.
MOST_READS, LONGEST_LINE = 1 << 20, 1 << 28

# What the shortest line of a write is, and one that has a byte more.
SHORT, LONGER = b"w 0 0 0 1\n", b"w 0 0 0 11\n"


def session_of(size):
    """A session whose text has so many bytes."""
    def text(writes, longer):
        records = SHORT * (writes - longer) + LONGER * longer
        return b"postcopy-session 1\npages 1\ncells 1\ninit 0\nguest %d\n%ssource 0\nlink 0\npager 0\nend\n" % (writes, records)

    writes = (size - len(text(0, 0)) - len(str(size))) // len(SHORT)
    return text(writes, size - len(text(writes, 0)))


def read_by_bytes(program, room, library):
    """The same of texts of which each read gives one byte."""
    by_bytes = {**os.environ, "LD_PRELOAD": library, "REFUSING": f"read 1 {1 << 30} short"}
    note = b"session: note: the guest neither reads nor writes a page after a resume, so no use of one was judged\n"
    too_many = b"file session\nsession: the text comes in too many pieces\n"
    for what, size, table, wanted in each((
        ("a session that may be read", MOST_READS - 1, None, (b"clean", note, 0)), ("a session that takes too many reads", MOST_READS, None, (b"", too_many, 3)),
        ("a table", None, b"7\n" * (MOST_READS // 2 + 1), (b"shape line 7 phases", b"", 1)),
    ), name=lambda it: it[0]):
        write(room, "session", session_of(size) if size else NO_RESUME)
        write(room, "table", table or b"")
        words = ("explain", "--lines", "table") if table else ("audit", "--quiet")
        ran = subprocess.run([program, *words, "session"], cwd=room, env=by_bytes, capture_output=True)
        yield what, (ran.stdout.split(b"\n")[0], ran.stderr, ran.returncode), wanted


def write_zeros(room, name, front, *sizes):
    """Writes a text that begins so, and whose lines are filled up with zeros to these sizes. The last one does not end."""
    with open(f"{room}/{name}", "wb") as file:
        file.write(front)
        for at, size in enumerate(sizes):
            file.seek(size - (0 if at else len(front)), os.SEEK_CUR)
            file.write(b"\n" if at < len(sizes) - 1 else b"")
        file.truncate()


def long_lines(program, room, _library):
    """The same of tables of which a line is as long as may be, or longer."""
    write(room, "session", NO_RESUME)
    too_long = b'file table\ntable: longer than the limit for such a text; "postcopy window" takes a recording of any size\n'
    for sizes, wanted in each((((1_000_000,), (b"lines-text line 1\n", 1)), ((LONGEST_LINE,), (b"lines-text line 1\n", 1)), ((LONGEST_LINE + 1,), (too_long, 3)),
                               ((200_000_000, 200_000_000), (b"lines-text line 1\n", 1)), ((5, LONGEST_LINE), (b"lines-text line 1\n", 1)),
                               ((5, LONGEST_LINE + 1), (too_long, 3))), name=lambda it: str(it[0])):
        write_zeros(room, "table", b"1", *sizes)
        ran = subprocess.run([program, "explain", "--lines", "table", "session"], cwd=room, capture_output=True)
        yield f"a table with lines of {sizes} bytes", (ran.stdout or ran.stderr, ran.returncode), wanted


TOO_LONG = b'file -\n-: longer than the limit for such a text; "postcopy window" takes a recording of any size\n'
NOT_READ = 3, b"", TOO_LONG
IS_ANOTHER = b"-:1:1: this is %s; expected a session\n"
A_REPORT = 1, b"session-text line 1\n", IS_ANOTHER % b"a report of audit"
NO_PAGES = 1, b"session-text line 2\n", b'-:2:1: found an empty line; expected "pages N", the number of pages\n'
NO_FIRST_LINE = 1, b"session-text line 1\n", b'-:1:1: found an empty line; expected "postcopy-session 1", "postcopy-session 2" or "postcopy-session 3", the header of a session\n'

# The most bytes of a text that may not be long.
MOST_BYTES = 1 << 28

# The first lines of a text, how many bytes come behind them, whether the first of these ends a line, and what comes of its audit.
FRONTS = (
    (b"", MOST_BYTES, True, NO_FIRST_LINE),
    (b"", MOST_BYTES + 1, True, NOT_READ),
    (b"postcopy-session 3\n", MOST_BYTES + 1, True, NO_PAGES),
    (b"postcopy-session 2\n", MOST_BYTES + 1, True, NOT_READ),
    (b"postcopy-session 3\n\n", LONGEST_LINE, False, NO_PAGES),
    (b"postcopy-session 3\n\n", LONGEST_LINE + 1, False, NOT_READ),
    (b"postcopy-certificate 3\n", MOST_BYTES + 1, True, (1, b"session-text line 1\n", IS_ANOTHER % b"a certificate")),
    (b"postcopy-certificate 2\n", MOST_BYTES + 1, True, NOT_READ),
    (b"postcopy-runs 1\n", MOST_BYTES + 1, True, (1, b"session-text line 1\n", IS_ANOTHER % b"a text of runs")),
    (b"clean\npostcopy-certificate 3\n", MOST_BYTES + 1, True, A_REPORT),
    (b"clean\npostcopy-certificate 2\n", MOST_BYTES + 1, True, NOT_READ),
    (b"faulty line 9 read\n", MOST_BYTES + 1, True, A_REPORT),
    (b"shape line 9 named\n", MOST_BYTES + 1, True, NOT_READ),
)


def long_inputs(program, room, _library):
    """The same of inputs that are as long as may be, or longer."""
    for front, count, ends_line, wanted in FRONTS:
        with open(f"{room}/input", "wb") as file:
            file.write(front + (b"\n" if ends_line else b""))
            file.truncate(len(front) + count)
        with open(f"{room}/input", "rb") as file:
            ran = subprocess.run([program, "audit", "-"], cwd=room, stdin=file, capture_output=True)
        yield f"{count} bytes behind {front}", (ran.returncode, ran.stdout, ran.stderr), wanted


@pytest.mark.parametrize("tries", (
    pytest.param(long_inputs, marks=pytest.mark.cases(len(FRONTS))),
    pytest.param(read_by_bytes, marks=pytest.mark.cases(3)), pytest.param(long_lines, marks=pytest.mark.cases(6))), ids=lambda it: it.__name__)
def test_limits(program, room, refusing, tries):
    for case in tries(program, room, refusing):
        same(*case)


@pytest.mark.parametrize("tries", (
    pytest.param(replayed, marks=pytest.mark.cases(23)), pytest.param(replayed_by_one_thread, marks=pytest.mark.cases(23)), pytest.param(broken, marks=pytest.mark.cases(14)),
    pytest.param(told_by_tables, marks=pytest.mark.cases(2)), pytest.param(pages_without_room, marks=pytest.mark.cases(1))), ids=lambda it: it.__name__)
def test_long_texts(program, room, tries):
    for case in tries(program, room):
        same(*case)

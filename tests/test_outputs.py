"""An output whose reader goes away is no fault: the status stays the one of the answer, and nothing is told of the output. An
output that fails otherwise is one.

Over each folder of examples/ and tests/cases/, with a reader that is gone at the start; in pipelines of a shell, as they
stand in scripts; with answers that are longer than a pipe holds, whose reader takes some of them; and with a session that is
written in pieces. And the words on each error with which a file is not opened or read, or an output not written.
"""
import errno
import os
import resource
import select
import signal
import subprocess

import pytest
from case_table import case_files
from cases import right, same
from test_saved import Run

# A session whose certificate has 65,536 pages: more than a pipe holds. Its guest reads a page at the target.
LARGE = b"""postcopy-session 1
pages 65536
cells 1
init 0
guest 4
halt
resume 1
see 3
r 0 0 0 0
source 3
halted 0
state
send 0 0000000000000000
link 2
down 1
down 2
pager 4
got 0
ready
got 1
place 0 2 0000000000000000
end
"""

# What a shell answers where each part of a pipeline counts: the program's status, since `head` has 0.
PIPELINES = (
    ("{program} certify large | head -1", 0, b"postcopy-certificate 1\n"),
    ("{program} audit large | head -2", 0, b"clean\npostcopy-certificate 1\n"),
    ("{program} audit large | grep -q '^clean'", 0, b""),
    ("{program} audit early | head -1", 1, b"faulty line 9 early\n"),
    ("{program} --help | head -0", 0, b""),
)

# A guest that reads its page with no look at a placement.
EARLY = b"""postcopy-session 1
pages 1
cells 1
init 1
page 0 0000000000000005
guest 3
halt
resume 1
r 0 0 0 5
source 2
halted 0
state
link 1
down 1
pager 2
got 0
ready
end
"""


def folders():
    yield from case_files("")


def words_of(folder):
    with open(f"{folder}/args", encoding="utf-8") as file:
        return file.read().splitlines()


def ran(program, folder, output):
    """The status and the errors of a folder's words, with this output."""
    words = words_of(folder)
    given = f"{folder}/stdin" if os.path.exists(f"{folder}/stdin") else os.devnull
    with open(given, "rb") as file:
        child = subprocess.run([program, *words], cwd=folder, stdin=file, stdout=output, stderr=subprocess.PIPE)
    return child.returncode, child.stderr


def with_no_reader(program, folder):
    reader, writer = os.pipe()
    os.close(reader)
    try:
        return ran(program, folder, writer)
    finally:
        os.close(writer)


def is_of_several(words, folder):
    """Whether words name several sessions: why one of them is refused is told as it is read, before the answer is written."""
    return words[:1] == ["audit"] and sum(os.path.exists(f"{folder}/{word}") for word in words[1:]) > 1


def wrong_folder(program, folder):
    """What is wrong with a folder's answer where its reader is gone, or its output is full."""
    plain, gone = ran(program, folder, subprocess.DEVNULL), with_no_reader(program, folder)
    if gone != plain:
        return f"{folder}: {gone} with no reader, and {plain} with one"
    with open("/dev/full", "wb") as full:
        found = ran(program, folder, full)
    words = words_of(folder)
    wanted = (3, b"output\nstandard output: no space left on the device\n") if plain[0] < 2 or is_of_several(words, folder) else plain
    if words[:1] == ["session"] or words[:1] == ["window"] and os.path.isdir(f"{folder}/{words[1]}"):
        # (what recorders' files lack is told first, and only where they lack nothing, or are cut, is there an answer)
        wanted = (3, plain[1] + wanted[1]) if plain[0] == 0 else plain
    return None if found == wanted else f"{folder}: {found} on a full disk, not {wanted}"


def wrong_pipeline(program, room, line, status, output):
    words = ["bash", "-o", "pipefail", "-c", line.format(program=f"'{program}'")]
    child = subprocess.run(words, cwd=room, stdin=subprocess.DEVNULL, capture_output=True)
    found = (child.returncode, child.stdout, child.stderr)
    errors = b"large" + NOTE if "large" in line else b""
    return None if found == (status, output, errors) else f"{line}: {found}, not {(status, output, errors)}"


# What is noted of the large session, by the name that it has, of which one page came.
NOTE = b": note: owed pages that never came: 65535 (with --complete-pages that is status 1)\n"


def wrong_taking(program, room, takes):
    """What is wrong where a reader takes so many bytes of a long answer and goes away."""
    words = [program, "certify", f"{room}/large"]
    child = subprocess.Popen(words, stdin=subprocess.DEVNULL, stdout=subprocess.PIPE, stderr=subprocess.PIPE)
    taken = child.stdout.read(takes)
    child.stdout.close()
    errors = child.stderr.read()
    found = (child.wait(), len(taken), errors)
    return None if found == (0, takes, words[-1].encode() + NOTE) else f"a reader that takes {takes} bytes: {found}"


def answers_of_a_pipe(program, room):
    """What comes of an audit of a session and a pipe, before the pipe has a text and after, and its status."""
    os.mkfifo(f"{room}/pipe")
    child = subprocess.Popen([program, "audit", "early", "none", "pipe"], cwd=room, stdin=subprocess.DEVNULL, stdout=subprocess.PIPE, stderr=subprocess.PIPE)
    seen, _, _ = select.select([child.stdout], [], [], 60)
    if not seen:
        child.kill()
        return (b"", *child.communicate(), child.returncode)
    first = os.read(child.stdout.fileno(), 1000)
    with open(f"{room}/pipe", "wb") as pipe:
        pipe.write(LARGE)
    rest, errors = child.communicate(timeout=60)
    return first, rest, errors, child.returncode


@pytest.fixture
def texts(room):
    for name, text in (("large", LARGE), ("early", EARLY)):
        with open(f"{room}/{name}", "wb") as file:
            file.write(text)
    return room


@pytest.mark.cases(355)
def test_folders(program):
    for folder in folders():
        right(wrong_folder(program, folder))


@pytest.mark.cases(len(PIPELINES) + 3)
def test_pipelines(program, texts):
    for pipeline in PIPELINES:
        right(wrong_pipeline(program, texts, *pipeline))
    for takes in (0, 1, 70000):
        right(wrong_taking(program, texts, takes))


# A guest that halts and does nothing else, how many ticks of the source make a session of more than three pieces, and how many bytes
# of it an output takes.
SCRIPT = b"postcopy-script 1\npages 1\ncells 1\ninit 0\npivots 1\nwindow 65536\ndown -\nup -\nvcpus 1\nvcpu 0 0\nend\n"
TICKS, TAKES = 60000, (0, 1, 100000, 131072, 200000, 300000)


def taken(program, room, most):
    """What becomes of a session that is written to a file with room for so many bytes."""
    def limit():
        resource.setrlimit(resource.RLIMIT_FSIZE, (most, most))
        signal.signal(signal.SIGXFSZ, signal.SIG_IGN)

    with open(f"{room}/taken", "w+b") as file:
        child = subprocess.run([program, "steps", "script", "events"], cwd=room, stdout=file, stderr=subprocess.PIPE, preexec_fn=limit, restore_signals=False)
        file.seek(0)
        return child.returncode, child.stderr, file.read()


@pytest.mark.cases(len(TAKES) + 1)
def test_pieces(program, room):
    """A session is written in pieces: an output that takes no more has its front, and the fault is told."""
    for name, text in (("script", SCRIPT), ("events", b"postcopy-events 1\nevents %d\nhalt\n" % (TICKS + 1) + b"source-tick\n" * TICKS + b"end\n")):
        with open(f"{room}/{name}", "wb") as file:
            file.write(text)
    status, errors, whole = taken(program, room, 1 << 30)
    same("a session of ticks", (status, errors, whole.count(b"\nagain 1"), whole.endswith(b"\nend\n")), (0, b"", TICKS, True))
    for most in TAKES:
        same(f"{most} bytes of it", taken(program, room, most), (3, b"output\nstandard output: the file would be too large\n", whole[:most]))


@pytest.mark.cases(1)
def test_one_by_one(program, texts):
    """Of several sessions each is answered before the next is read, and one that is not there is told and left out."""
    wanted = (b"early: faulty line 9 early\n", b"pipe: clean\n1 of 3 sessions are clean\n", b"file none\nnone: no such file or directory\npipe" + NOTE, 3)
    same("an audit of a session, no session and a pipe", answers_of_a_pipe(program, texts), wanted)


# What the words say of an error of the system: where a file is opened, where it is read, and where an output is written.
CAUSES = {
    "open": (
        ("no such file or directory", ("ENOENT",)),
        ("permission denied", ("EACCES", "EPERM")),
        ("a part of its path is not a directory", ("ENOTDIR",)),
        ("its path has too many symbolic links", ("ELOOP",)),
        ("its name is too long", ("ENAMETOOLONG",)),
        ("the system does not take this name", ("EINVAL",)),
        ("the file system is read-only", ("EROFS",)),
        ("the file is in use", ("EBUSY", "ETXTBSY")),
        ("too many open files", ("ENFILE", "EMFILE")),
        ("input/output error", ("EIO",)),
        ("the system reports an error of another kind", ("ENXIO", "ENODEV", "EOVERFLOW")),
    ),
    "read": (
        ("input/output error", ("EIO",)),
        ("it is a directory", ("EISDIR",)),
        ("it is closed, or not open for this", ("EBADF",)),
        ("it has no bytes ready", ("EAGAIN",)),
        ("the connection was closed", ("ECONNRESET", "ECONNABORTED")),
        ("the system reports an error of another kind", ("ETIMEDOUT", "ESTALE")),
    ),
    "write": (
        ("no space left on the device", ("ENOSPC",)),
        ("the disk quota is exceeded", ("EDQUOT",)),
        ("the file would be too large", ("EFBIG",)),
        ("input/output error", ("EIO",)),
        ("it is closed, or not open for this", ("EBADF",)),
        ("it has no bytes ready", ("EAGAIN",)),
        ("the connection was closed", ("ECONNRESET",)),
    ),
}


@pytest.mark.cases(32)
def test_causes(program, texts, refusing):
    """The words on a file that is not opened or read, and on an output that is not written, are those on the error of the system."""
    run = Run(program, texts, refusing)
    for call, causes in CAUSES.items():
        told = "output\nstandard output" if call == "write" else "file early\nearly"
        for words, errors in causes:
            for name in errors:
                found, _ = run.counted(f"{call} 1 1 {getattr(errno, name)}", "audit", "early")
                same(f"a call of {call} with the error {name}", found, (3, b"", f"{told}: {words}\n".encode()))
    same("a write that takes nothing", run.counted("write 1 1 none", "audit", "early")[0], (3, b"", b"output\nstandard output: no more bytes are taken\n"))

"""How many threads judge: as many as there are processors, with one more for the shape, and where no further thread may be made, the
one that there is. A migration, which cannot do with one, says what it lacks, and so it does where one of its threads is refused.

The superuser has no limit on threads, so the program is run as another user then. What is judged is long enough that several threads
would read and judge it. Calls that make a thread are counted by bindings/c/tests/refusing.c.
"""
import errno
import os
import re
import resource
import shutil
import subprocess
import tempfile

import pytest
from cases import each, same

TOP = os.path.dirname(os.path.dirname(os.path.realpath(__file__)))

# A user who has no other process, where the superuser runs this.
NOBODY = 54321

# Where refusing.c writes how many calls there were, and which of the counts is that of threads.
TOLD, THREADS = 99, 4

# A session of no record, and yet many pages: so little text is read by one thread.
MANY_PAGES = b"postcopy-session 1\npages 65536\ncells 1\ninit 0\nguest 0\nsource 0\nlink 0\npager 0\nend\n"

# How many writes the long session has: some 11 MB.
WRITES = 600_000


def limited():
    """What a child does before the program begins: its user may have one process, or thread."""
    resource.setrlimit(resource.RLIMIT_NPROC, (1, 1))
    if os.geteuid() == 0:
        os.setgroups([])
        os.setgid(NOBODY)
        os.setuid(NOBODY)


def run(program, words, given, before=None, **env):
    child = subprocess.run([program, *words], input=given, capture_output=True, cwd="/", preexec_fn=before, env={**os.environ, **env}, timeout=30)
    return child.returncode, child.stdout, child.stderr


def begun(program, counting, words, given, processors):
    """How many threads a command begins that may use so many processors, where `counting` stands before its calls."""
    with tempfile.TemporaryFile() as told:
        os.dup2(told.fileno(), TOLD)
        usual = os.sched_getaffinity(0)
        os.sched_setaffinity(0, sorted(usual)[:processors])
        subprocess.run([program, *words], input=given, stdout=subprocess.DEVNULL, stderr=subprocess.DEVNULL, check=True, pass_fds=(TOLD,),
                       env={"LD_PRELOAD": counting, "REFUSING": "-"})
        os.sched_setaffinity(0, usual)
        os.close(TOLD)
        told.seek(0)
        return int(told.read().split()[THREADS])


def counted(program, counting):
    """No processor is without work, and one of them has the thread that there is. Each judges a range of the pages. In an audit, a
    certify, an explanation and a check, one more judges the shape and the runs or the order, where there are several."""
    commands = ("audit", "-"), ("certify", "-"), ("explain", "-"), ("audit", "--all", "-"), ("check", "-", "-")
    tries = [(words, processors) for processors in range(1, min(4, len(os.sched_getaffinity(0))) + 1) for words in commands]
    for words, processors in each(tries, name=lambda it: f"{' '.join(it[0])} on {it[1]}"):
        others, more = processors - 1, run(program, ("certify", "-"), MANY_PAGES)[1] if words[0] == "check" else b""
        wanted = others if "--all" in words else others + min(1, others)
        yield f"threads begun by {words} on {processors} processors", begun(program, counting, words, MANY_PAGES + more, processors), wanted
    few = MANY_PAGES.replace(b"65536", b"8")
    yield "threads begun by an audit of few pages", begun(program, counting, ("audit", "-"), few, 4), 0


def long_session():
    """A session of many writes before its halt, and one fault at its end: the page is not placed."""
    writes = b"".join(b"w 0 %d 0 %d\n" % (number % 65536, number) for number in range(WRITES))
    return (b"postcopy-session 1\npages 65536\ncells 1\ninit 0\nguest %d\n" % (WRITES + 3) + writes + b"halt\nresume 1\nr 0 7 0 1\n"
            + b"source 2\nhalted %d\nstate\nlink 1\ndown 1\npager 2\ngot 0\nready\nend\n" % WRITES)


def tries(program):
    session = long_session()
    clean = session.replace(b"r 0 7 0 1\n", b"").replace(b"guest %d\n" % (WRITES + 3), b"guest %d\n" % (WRITES + 2))
    for what, text in (("faulty", session), ("clean", clean)):
        for words in (("audit", "-"), ("certify", "-"), ("explain", "-"), ("draw", "-"), ("audit", "--all", "-")):
            wanted = run(program, words, text)
            yield f"{words} of a long {what} session", wanted[0] < 2 and len(wanted[1]) > 0, True
            yield f"{words} of a long {what} session, with one thread", run(program, words, text, limited), wanted
    both = clean + run(program, ("certify", "-"), clean)[1]
    wanted = run(program, ("check", "-", "-"), both)
    yield "the check of a long certificate", wanted[:2], (0, b"yes\n")
    yield "the check of a long certificate, with one thread", run(program, ("check", "-", "-"), both, limited), wanted


def migrations(program, refusing):
    """Three parties and the virtual processors have a thread each: none of them may be made, or one of them, which is told."""
    refused = (3, b"", b"threads\n")
    for example in ("migrated", "migrated-over-a-lane"):
        with open(f"{TOP}/examples/{example}/script", "rb") as file:
            script = file.read()
        threads = 3 + int(re.search(rb"^vcpus (\d+)$", script, re.M)[1])
        for link in ("memory", "tcp"):
            words = ("migrate", "--link", link, "-")
            yield f"{example} over {link}", run(program, words, script)[0], 0
            yield f"{example} over {link}, with one thread", run(program, words, script, limited), refused
            for number in range(1, threads + 1):
                found = run(program, words, script, LD_PRELOAD=refusing, REFUSING=f"thread {number} {number} {errno.EAGAIN}")
                yield f"{example} over {link}, without thread {number}", found, refused


@pytest.fixture
def open_program(program, room):
    """The program in a folder that another user may enter."""
    os.chmod(room, 0o755)
    return shutil.copy(program, room)


@pytest.mark.cases(6)
def test_threads_begun(program, refusing):
    for case in counted(program, refusing):
        same(*case)


@pytest.mark.cases(22)
def test_one_thread(open_program):
    for case in tries(open_program):
        same(*case)


@pytest.mark.cases(24)
def test_migrations(open_program, refusing):
    for case in migrations(open_program, refusing):
        same(*case)

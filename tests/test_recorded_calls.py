"""Records with the C recorder and with Python's, makes sessions of the files, and has them judged.

Numbers under threads and under a lock, processes that are killed while they record, full disks of five file systems; every call
of both recorders, and of C's where it maps no file; sessions of files beside known ones (made_sessions.py); and a real migration by
userfaultfd, with no mistake and with each of its three, and with one of its processes or both killed. What is wanted comes of what
the mistake is.
"""
import contextlib
import errno
import glob
import os
import random
import re
import resource
import shutil
import signal
import struct
import subprocess
import sys
import tempfile
import time

import pytest
from cases import leave_out, same
from made_sessions import TOP, MadeSessions, called
from recorded_faults import Faults
from recorded_model import session_of
from session_text import SessionText

from postcopy.recorder import LOST, Log, page_hash

STRICT = ["-std=c11", "-Wall", "-Wextra", "-Wpedantic", "-Werror", "-O2", "-pthread"]
RUNS = 12  # of the migration with each mistake
KILLS = 12  # of each recorder, and of the migration

# Each mistake of the example, the reason that it has to be found for, and the record: one of page 5. Before it is placed the
# guest may use the page in either way; the old page is sent, and the second placement is one.
MISTAKES = (("--wake-first", "early", "[rw] [01] 5 "), ("--old-page", "stale", "send 5 "), ("--place-twice", "twice", "place 5 "))

# The environment in which the C program maps no file, but writes each line.
WRITTEN = {**os.environ, "WRITTEN": "1"}

# File systems on small disks: what mounts one on the folder `disk`. The C recorder maps files on the first two.
DISKS = {
    "tmpfs": "mount -t tmpfs -o size=1m none disk",
    "ext4": "truncate -s 8M image && mkfs.ext4 -q image && mount -o loop image disk",
    "xfs": "truncate -s 300M image && mkfs.xfs -q image && mount -o loop image disk",
    "btrfs": "truncate -s 120M image && mkfs.btrfs -q image && mount -o loop image disk",
    "overlay": "mount -t tmpfs -o size=1m none upper && mkdir upper/new upper/work && mount -t overlay -o lowerdir=lower,upperdir=upper/new,workdir=upper/work none disk",
}

# Fills the disk while a log is open on it, whose first records are written: where they are in a snapshot too, they are copied when more is
# written behind them.
FILL = """exec 2> /dev/null
sync -f disk
! findmnt -t btrfs disk > /dev/null || btrfs -q subvolume snapshot disk disk/snapshot
for size in 67108864 4194304 262144 4096; do
    while fallocate -l $size disk/fill.$size.$n; do n=$((n + 1)); done
done
cat /dev/zero > disk/rest
sync -f disk
"""

# Records until it is killed, and keeps what was answered last as the C program does.
ENDLESS = """
import mmap, os, struct, sys, threading
from postcopy.recorder import Log
folder, threads = sys.argv[1], int(sys.argv[2])
log = Log(folder, "source")
file = os.open(f"{folder}/ANSWERED", os.O_RDWR | os.O_CREAT)
os.ftruncate(file, 4096)
answered = mmap.mmap(file, 4096)
answered[:64] = b"\\xff" * 64
def append(thread):
    n = 0
    while True:
        cells = n * 7 % 512 + 1
        last = struct.unpack_from("<I", answered, 4 * thread)[0]
        contents = [0] * cells
        contents[0] = contents[-1] = last
        struct.pack_into("<I", answered, 4 * thread, log.send(thread, contents))
        n += 1
for thread in range(threads):
    threading.Thread(target=append, args=(thread,)).start()
"""


# The calls of a migration of two of three pages, at whose end a write does not reach the memory.
LOST_WRITE = """machine machine 3 2
machine initial 0 =00000000000000050000000000000006
machine initial 2 =00000000000000070000000000000008
guest halt
source halted 0
source state
source send 0 =00000000000000050000000000000006
source send 2 =00000000000000070000000000000008
pager got_sent 1
pager ready
guest resume 1
pager got_sent 2
pager place 0 2 =00000000000000050000000000000006
pager got_sent 3
pager place 2 4 =00000000000000070000000000000008
guest see 5
guest write 0 0 1 9
"""


class Tests:
    same, left_out = staticmethod(same), staticmethod(leave_out)

    def __init__(self, program):
        self.program = program

    def answer(self, command, *texts):
        """What the program answers to these texts, and its status."""
        names = []
        with tempfile.TemporaryDirectory() as room:
            for number, text in enumerate(texts):
                names.append(f"{room}/{number}")
                with open(names[-1], "w", encoding="ascii") as file:
                    file.write(text)
            ran = subprocess.run([self.program, command, *names], stdout=subprocess.PIPE, stderr=subprocess.DEVNULL, encoding="ascii")
        return ran.stdout, ran.returncode

    def report(self, session):
        return self.answer("audit", session)[0]

    def audit(self, session):
        """The first line of the report."""
        return self.report(session).split("\n", 1)[0]

    def is_clean(self, what, session):
        """Whether a session is clean, certified, and its certificate right."""
        self.same(what, self.audit(session), "clean")
        certificate, status = self.answer("certify", session)
        self.same(f"{what}: certify", status, 0)
        self.same(f"{what}: check", self.answer("check", session, certificate), ("yes\n", 0))


def lines_of(folder):
    """The lines of a folder's files, by the files."""
    found = {}
    for name in sorted(os.listdir(folder)):
        if re.fullmatch("[a-z]+[.][0-9]+[.][0-9]+", name):
            with open(f"{folder}/{name}", "rb") as file:
                found[name] = file.read()
    return found


def records_of(text):
    """The lines of a file that are records."""
    return [line for line in text.splitlines() if line[:1].isdigit()]


class Recorders:
    """The two recorders, by themselves."""

    def __init__(self, tests, room):
        self.tests, self.room = tests, room
        self.program = f"{room}/recording"
        sources = [f"{TOP}/bindings/c/tests/recording.c", f"{TOP}/bindings/c/postcopy_record.c"]
        subprocess.run(["cc", *STRICT, "-Wl,--wrap=fstatfs", "-o", self.program, *sources], check=True)
        self.made = 0

    def folder(self):
        self.made += 1
        return f"{self.room}/recorded-{self.made}"

    def run_c(self, *words, given=None, **more):
        ran = subprocess.run([self.program, *words], input=given, stdout=subprocess.PIPE, **more)
        self.tests.same(f"bindings/c/tests/recording.c {words[0]}", ran.returncode, 0)
        return ran.stdout

    def run(self, known):
        self.of_all_memory()
        self.of_calls(known)
        self.of_threads()
        self.of_kills()
        self.of_limits()
        self.of_full_disks()
        self.of_refused_calls()
        self.of_hashes()

    def of_calls(self, known):
        """Every call of both recorders: the records of known sessions, recorded anew, give the same sessions, and each call
        answers its record's number."""
        for text in known:
            calls = list(called(SessionText(text)))
            numbers, counts = [], {}
            for party, _, _ in calls:
                numbers.append(counts.get(party, 0))
                counts[party] = numbers[-1] + 1
            by_c, by_python, written = self.folder(), self.folder(), self.folder()
            given = "".join(" ".join([party, call, *map(self.of_c, fields)]) + "\n" for party, call, fields in calls)
            for folder, env in ((by_c, None), (written, WRITTEN)):
                answered = self.run_c("calls", folder, given=given.encode(), env=env).split()
                self.tests.same("the numbers that C answers", answered, [b"%d" % number for number in numbers])
            self.tests.same("files that are not mapped", *(sorted(text.partition(b"\nlog ")[2] for text in lines_of(it).values()) for it in (written, by_c)))
            logs = {party: Log(by_python, party) for party in counts}
            answered = [getattr(logs[party], call)(*map(self.of_python, fields)) for party, call, fields in calls]
            self.tests.same("the numbers that Python answers", answered, numbers)
            for folder in (by_c, by_python):
                if "lane 0" in text:
                    Log(folder, "lane").close()
                session, _ = session_of([folder])
                session.is_large = text.startswith("postcopy-session 3")  # no log tells that a session is a window of a large one
                self.tests.same("a session recorded anew", session.text(), text)
            for log in logs.values():
                log.close()

    @staticmethod
    def of_c(field):
        return f"={field}" if len(field) % 16 == 0 else field

    @staticmethod
    def of_python(field):
        return [int(field[at : at + 16], 16) for at in range(0, len(field), 16)] if len(field) % 16 == 0 else int(field)

    def of_all_memory(self):
        """A write that is lost, in a page that nobody reads again: found if all memory is read at the end. A page that has not come is not read."""
        for reads, verdict in (([], "clean"), (["see 5", "r 0 0 0 5", "r 0 0 1 6", "r 0 2 0 7", "r 0 2 1 8"], "faulty line 14 read")):
            by_c, by_python = self.folder(), self.folder()
            self.run_c("calls", by_c, given=(LOST_WRITE + "guest read_all 0 5 3 =%016x%016x%016x%016x%016x%016x\n" % (5, 6, 2**64 - 1, 0, 7, 8) * bool(reads)).encode())
            logs = {party: Log(by_python, party) for party in ("machine", "guest", "source", "pager")}
            for party, call, *fields in map(str.split, LOST_WRITE.splitlines()):
                getattr(logs[party], call)(*(self.of_python(field.lstrip("=")) for field in fields))
            if reads:
                self.tests.same("the number of the last read", logs["guest"].read_all(0, 5, {0: (5, 6), 2: (7, 8)}.items()), 8)
            for log in logs.values():
                log.close()
            for folder in (by_c, by_python):
                ran = subprocess.run([self.tests.program, "session", folder], capture_output=True, encoding="ascii")
                guest = ran.stdout.partition("\nguest ")[2].partition("\nsource ")[0].split("\n")
                self.tests.same("what is recorded of it", guest[1:], ["halt", "resume 1", "see 5", "w 0 0 1 9", *reads])
                self.tests.same("its verdict", self.tests.audit(ran.stdout), verdict)

    def of_threads(self):
        for env in (None, WRITTEN):
            self.of_threads_in(env)

    def of_threads_in(self, env):
        folder = self.folder()
        self.run_c("threads", folder, "4", "20000", env=env)
        records = sorted((int(number), vcpu, int(last)) for text in lines_of(folder).values() for number, _, vcpu, _, _, last in (line.split() for line in records_of(text)))
        self.tests.same("numbers of threads", [number for number, _, _ in records], list(range(80000)))
        newest, is_chain = {}, True
        for number, vcpu, last in records:
            is_chain = is_chain and last == newest.get(vcpu, LOST)
            newest[vcpu] = number
        self.tests.same("the numbers that threads were answered", is_chain, True)
        folder = self.folder()
        self.run_c("locked", folder, "8", "2000")
        places = [(int(line.split()[0]), int(line.split()[5])) for text in lines_of(folder).values() for line in records_of(text)]
        self.tests.same("numbers under a lock", sorted(places), [(n, n) for n in range(16000)])

    def of_kills(self):
        chance, halves = random.Random(2), 0
        python = [sys.executable, "-B", "-c", ENDLESS]
        for name, start, env in (("C", [self.program, "endless"], os.environ), ("C, written", [self.program, "endless"], WRITTEN), ("Python", python, os.environ)):
            for _ in range(KILLS):
                folder = self.folder()
                os.makedirs(folder)
                ran = subprocess.Popen([*start, folder, "3"], env={**env, "PYTHONPATH": f"{TOP}/bindings/python"})
                while not any(text.count(b"\n") > 10 for text in lines_of(folder).values()):
                    time.sleep(0.01)
                time.sleep(chance.random() * 0.05)
                ran.send_signal(signal.SIGKILL)
                ran.wait()
                halves += self.of_killed(name, folder)
                shutil.rmtree(folder)
        self.tests.same("some record was cut in its middle", halves > 0, True)

    def of_killed(self, name, folder):
        """What a killed process has left: each record that a call answered for, whole; answers how many are half there."""
        with open(f"{folder}/ANSWERED", "rb") as file:
            answered = struct.unpack("<3I", file.read(12))
        found, halves, is_right = {}, 0, True
        for text in lines_of(folder).values():
            whole, _, rest = text.partition(b"\0")
            whole, _, half = whole.rpartition(b"\n")
            halves += bool(half or rest.strip(b"\0"))
            for line in records_of(whole):
                number, word, thread, contents = line.split(b" ")
                last, cells = found.get(thread, (LOST, 0))
                value = b"%016x" % last
                cells = cells % 512 + 1 if not cells else (cells - 1 + 7) % 512 + 1
                is_right = is_right and word == b"send" and len(contents) == 16 * cells and contents[:16] == contents[-16:] == value
                found[thread] = int(number), cells
        self.tests.same(f"{name}: each record is whole, and its thread's next", is_right, True)
        lost = [number for thread, number in enumerate(answered) if number != LOST and found.get(b"%d" % thread, (-1, 0))[0] < number]
        self.tests.same(f"{name}: records that were answered for and are not there", lost, [])
        return halves

    def of_limits(self):
        """A file that may not grow: the log ends there, and what was recorded before is a log."""
        limit = lambda: resource.setrlimit(resource.RLIMIT_FSIZE, (600000, 600000))
        for env in (None, WRITTEN):
            folder = self.folder()
            said = self.run_c("full", folder, preexec_fn=limit, env=env).split()
            self.tests.same("why a file did not grow", said[1], b"EFBIG")
            self.of_full(folder, int(said[0]), "File too large")
        folder = self.folder()
        words = ("import sys; from postcopy.recorder import LOST, Log; log, kept = Log(sys.argv[1], 'guest'), 0\n"
                 "while log.write(0, 0, 0, kept) == kept: kept += 1\n"
                 "print(kept, log.halt() == LOST, log.error.errno == 27)")
        ran = subprocess.run([sys.executable, "-B", "-c", words, folder], stdout=subprocess.PIPE, preexec_fn=limit, env={**os.environ, "PYTHONPATH": f"{TOP}/bindings/python"})
        kept, *said = ran.stdout.split()
        self.tests.same("a file that does not grow, in Python", said, [b"True", b"True"])
        self.of_full(folder, int(kept), "has no end")

    def of_full_disks(self):
        """A full disk of each file system: the process goes on, and the log ends there and says so."""
        script = 'PATH="$PATH:/usr/sbin:/sbin"; { %s; } > /dev/null 2>&1 || exit 77; "$1" full disk/log "$2" > said; echo $? >> said; cp -r disk/log log'
        unshare = ["unshare", "--mount", *([] if os.getuid() == 0 else ["--map-root-user"]), "sh", "-c"]
        for kind, mounting in DISKS.items():
            folder = self.folder()
            for name in ("disk", "lower", "upper"):
                os.makedirs(f"{folder}/{name}")
            with contextlib.suppress(FileNotFoundError):
                subprocess.run([*unshare, script % mounting, "", self.program, FILL], cwd=folder, stdin=subprocess.DEVNULL, stderr=subprocess.DEVNULL)
            if not os.path.exists(f"{folder}/said"):
                self.tests.left_out(f"a full disk of {kind}, since no small one can be mounted here")
                continue
            with open(f"{folder}/said", encoding="ascii") as file:
                kept, *said = file.read().split()
            self.tests.same(f"a full disk of {kind}", said, ["ENOSPC", "0"])
            self.of_full(f"{folder}/log", int(kept), "No space left on device", "has no end")

    def of_full(self, folder, kept, *why):
        with Log(folder, "machine") as machine:
            machine.machine(1, 1)
        session, _ = session_of([folder])
        self.tests.same("a log that ended on a full disk", session.logs["guest"], [("w", 0, 0, 0, n) for n in range(kept)])
        self.tests.same("is not empty", kept >= 1000, True)
        ran = subprocess.run([self.tests.program, "session", folder], capture_output=True, encoding="ascii")
        told = [it for it in why if it in ran.stderr]
        self.tests.same("what the program says of it", (ran.returncode, ran.stdout, bool(told) or ran.stderr), (1, "", True))

    def of_refused_calls(self):
        folder = self.folder()
        self.run_c("refused", folder)
        found = sorted(text.split(b"\n", 2)[2] for name, text in lines_of(folder).items() if name.startswith("link"))
        self.tests.same("a log that was gone on with", found, [b"log link 0 0\n0 down 4\nnext 1\n", b"log link 1 1\n1 down 5\nend 2\n"])
        folder = self.folder()
        self.tests.same("no folder, in Python", Log(None, "guest").halt(), LOST)
        log = Log(folder, "guest", 7)
        self.tests.same("the first number, in Python", log.halt(), 7)
        child = os.fork()
        if child == 0:
            os._exit(0 if log.halt() == LOST else 1)
        self.tests.same("a forked child, in Python", os.waitpid(child, 0)[1], 0)
        self.tests.same("the parent goes on", log.resume(1), 8)
        for wrong, kind in ((lambda: log.done(), ValueError), (lambda: Log(folder, "guests"), ValueError), (lambda: Log(folder, "guest", -1), ValueError),
                            (lambda: Log(folder, "guest", 1.0), TypeError)):
            files = len(os.listdir(folder))
            try:
                wrong()
                self.tests.same("no refusal", True, False)
            except kind:
                self.tests.same("a refused call makes no file", len(os.listdir(folder)), files)
        log.close()
        self.tests.same("a closed log", log.halt(), LOST)
        self.of_greatest_numbers()
        self.of_closed_outputs()
        ran = subprocess.run(["cc", "-fsyntax-only", "-D__cplusplus=201703L", f"{TOP}/bindings/c/postcopy_record.c"], stderr=subprocess.PIPE, encoding="utf-8", errors="replace")
        self.tests.same("a compiler for C++ is told what to do, in one error", (ran.returncode, "compile it by a compiler for C" in ran.stderr, ran.stderr.count("error:")), (1, True, 1))
        strict = ["-D_GNU_SOURCE", "-std=gnu11", *STRICT[1:], "-Wvla", "-Wshadow", "-Wundef", "-Wmissing-prototypes", "-Wstrict-prototypes"]
        ran = subprocess.run(["cc", *strict, "-c", "-o", os.devnull, f"{TOP}/bindings/c/postcopy_record.c"], stderr=subprocess.STDOUT, stdout=subprocess.PIPE, encoding="utf-8", errors="replace")
        self.tests.same("a build with the options of QEMU's own", (ran.returncode, ran.stdout), (0, ""))
        words = "import postcopy.recorder, postcopy.records, postcopy.sessions"
        env = {**os.environ, "PYTHONPATH": f"{TOP}/bindings/python", "POSTCOPY_LIBRARY": "/none"}
        self.tests.same("the recorder with no library", subprocess.run([sys.executable, "-B", "-c", words], env=env).returncode, 0)

    def of_greatest_numbers(self):
        """The number behind a log's last record is one that its last line may have: the files are refused at no line."""
        folder = self.folder()
        log = Log(folder, "source", LOST - 2)
        self.tests.same("the greatest number, in Python", (log.state(), log.hand_over()), (LOST - 2, LOST - 1))
        log = Log(folder, "source", LOST - 1)
        self.tests.same("no number left, in Python", (log.state(), log.error.errno), (LOST, errno.EOVERFLOW))
        log.close()
        with Log(folder, "machine") as machine:
            machine.machine(1, 1)
        ran = subprocess.run([self.tests.program, "session", folder], capture_output=True, encoding="ascii")
        wanted = f"a record was not written: {os.strerror(errno.EOVERFLOW)}\n"
        self.tests.same("the files with the greatest number", (ran.returncode, wanted in ran.stderr, "found" in ran.stderr), (1, True, False))

    def of_closed_outputs(self):
        """What a process prints whose standard output is closed goes into no file of its logs."""
        folder = self.folder()
        calls = "machine machine 2 1\nguest halt\n" + "pager want 1\n" * 3000
        self.run_c("calls", folder, given=calls.encode(), preexec_fn=lambda: os.close(1))
        self.tests.same("the heads of files in C", {text.split(b"\n")[0] for text in lines_of(folder).values()}, {b"postcopy-records 1"})
        folder = self.folder()
        child = os.fork()
        if child == 0:
            os.close(1)
            log = Log(folder, "guest")
            with contextlib.suppress(OSError):
                os.write(1, b"told\n")
            os._exit(0 if log.halt() == 0 else 1)
        self.tests.same("a child whose output is closed", os.waitpid(child, 0)[1], 0)
        self.tests.same("its file in Python", b"told" in b"".join(lines_of(folder).values()), False)

    def of_hashes(self):
        chance = random.Random(3)
        first = bytes(chance.randrange(256) for _ in range(4096))
        pages = [bytes(4096), b"\1" + bytes(4095), bytes(4095) + b"\1", first, first[:-1] + bytes([first[-1] ^ 1])]
        pages += [bytes(chance.randrange(256) for _ in range(4096)) for _ in range(20)]
        by_c = [int(line) for line in self.run_c("hash", given=b"".join(pages)).split()]
        self.tests.same("hashes", by_c, [page_hash(page) for page in pages])
        self.tests.same("of zeros", by_c[0], 0)
        self.tests.same("of different pages", len(set(by_c)), len(pages))
        for length in (1, 7, 12, 4095):
            with contextlib.suppress(ValueError):
                self.tests.same(f"a hash of {length} bytes", page_hash(b"\1" * length), None)
            short = first[:length]
            self.tests.same(f"a hash of {length} bytes in C", int(self.run_c("hash", given=short)), page_hash(short + bytes(-length % 8)))


class Migrations:
    """The example bindings/c/examples/uffd.c."""

    def __init__(self, tests, room):
        self.tests, self.room, self.made = tests, room, 0
        self.program = f"{room}/uffd"
        sources = [f"{TOP}/bindings/c/examples/uffd.c", f"{TOP}/bindings/c/examples/uffd_guest.c", f"{TOP}/bindings/c/postcopy_record.c"]
        subprocess.run(["cc", *[it for it in STRICT if it != "-Wpedantic"], f"-I{TOP}/bindings/c", "-o", self.program, *sources], check=True)

    def migrated(self, *words, kill=None):
        """A migration's status, its session, and what is said of it. Some of its processes may be killed meanwhile: so long
        after the first file of this name is there."""
        self.made += 1
        folder = f"{self.room}/moved-{self.made}"
        ran = subprocess.Popen([self.program, folder, "--seed", str(self.made), *words], stdout=subprocess.PIPE, encoding="ascii")
        sides = [int(it) for it in re.findall("(?:source|target) ([0-9]+)", ran.stdout.readline())]
        if kill:
            name, moment, killed = kill
            held = [os.pidfd_open(sides[side]) for side in killed]
            while not glob.glob(f"{folder}/{name}") and ran.poll() is None:
                time.sleep(0.0002)
            time.sleep(moment)
            for side in held:
                with contextlib.suppress(ProcessLookupError):
                    signal.pidfd_send_signal(side, signal.SIGKILL)
                os.close(side)
        status = ran.wait(60)
        ran.stdout.close()
        session, said = session_of([folder])
        shutil.rmtree(folder)
        return status, session.text(), said

    def of_words(self):
        """Words that are not known are refused, and not left out: without its mistake, a migration is clean."""
        for words in (["--wake-frist", "other"], ["other", "--seed"], ["other", "more"], [], ["other", "--old-page", "--place-twice"], ["other", "--operations", "10k"], ["other", "--seed", "-1"]):
            ran = subprocess.run([self.program, *words], cwd=self.room, capture_output=True, encoding="ascii")
            found = ran.returncode, ran.stdout, ran.stderr.startswith("usage: "), os.path.exists(f"{self.room}/other")
            self.tests.same(f"the words {words}", found, (2, "", True, False))

    def run(self):
        self.of_words()
        ran = subprocess.run([self.program, f"{self.room}/moved"], stdout=subprocess.DEVNULL, stderr=subprocess.PIPE, encoding="ascii")
        if ran.returncode == 3:
            self.tests.left_out(f"migrations by userfaultfd: {ran.stderr.strip()}")
            return
        self.of_right_ones()
        self.of_mistakes()
        self.of_kills()

    def of_right_ones(self):
        words = set()
        for _ in range(RUNS):
            status, text, said = self.migrated()
            self.tests.same("a migration", (status, said), (0, []))
            self.tests.is_clean("a migration", text)
            words.update(record.split(" ")[0] for records in SessionText(text).logs.values() for record in records)
        wanted = "r w z miss halt resume see halted state send again ask done down up got ready fault want place zero skip all"
        self.tests.same("records of all kinds", words >= set(wanted.split()), True)

    def of_mistakes(self):
        for mistake, reason, record in MISTAKES:
            for _ in range(RUNS):
                status, text, said = self.migrated(mistake)
                self.tests.same(mistake, (status, said), (0, []))
                verdict = re.fullmatch("faulty line ([0-9]+) ([a-z-]+)", self.tests.audit(text))
                self.tests.same(f"{mistake} is found", verdict and verdict[2], reason)
                if verdict:
                    line = text.split("\n")[int(verdict[1]) - 1]
                    self.tests.same(f"{mistake} is found where it was made", (bool(re.match(record, line)), line), (True, line))

    def of_kills(self):
        """What is left where a process dies is judged like all else: nothing was wrong, and nothing is found."""
        chance, phases = random.Random(4), set()
        for number in range(KILLS):
            killed = ((0,), (1,), (0, 1))[number % 3]
            name = ("guest.*.1", "pager.*.1")[number // 3 % 2]
            status, text, _ = self.migrated("--operations", "12000", kill=(name, chance.random() * 0.01, killed))
            self.tests.same(f"a migration where {killed} died", self.tests.audit(text), "clean")
            phases.add((status != 0, "\nresume 1\n" in text))
        self.tests.same("some died before the move and some after it", phases >= {(True, False), (True, True)}, True)


@pytest.mark.slow
@pytest.mark.cases(520)
def test_made_sessions(program, room):
    MadeSessions(Tests(program), room).run()


@pytest.mark.slow
@pytest.mark.cases(700)
def test_recorders(program, room, cc):
    tests = Tests(program)
    Recorders(tests, room).run(MadeSessions(tests, room).known)


@pytest.mark.slow
@pytest.mark.cases(356)
def test_faults(program, room, cc):
    tests = Tests(program)
    Faults(tests, room, program, Recorders(tests, room).program).run()


@pytest.mark.slow
@pytest.mark.cases(153)
def test_migrations(program, room, cc):
    Migrations(Tests(program), room).run()

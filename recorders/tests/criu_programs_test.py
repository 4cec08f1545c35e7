"""What the recorder of CRIU has of C: the process that is moved, the library in lazy-pages, and the one that gives CRIU its pipe."""
import fcntl
import os
import re
import shutil
import subprocess
import sys
import tempfile
import time

import build
import criu_build
import criu_judge

LINE = re.compile(r"g [01] (?:[rw] \d+ [0-3] [0-9a-f]{16}|[mz] \d+)")
BASE = 0x100000000000

# Does with userfaultfd and a connection what lazy-pages does, one thing after another; the addresses are told first.
PAGER = r"""
import ctypes, fcntl, os, signal, socket, struct, sys, threading
libc = ctypes.CDLL(None, use_errno=True)
libc.mmap.restype = ctypes.c_void_p
libc.mmap.argtypes = [ctypes.c_void_p, ctypes.c_size_t, ctypes.c_int, ctypes.c_int, ctypes.c_int, ctypes.c_long]
libc.madvise.argtypes = [ctypes.c_void_p, ctypes.c_size_t, ctypes.c_int]
libc.ioctl.argtypes = [ctypes.c_int, ctypes.c_ulong, ctypes.c_void_p]
API, REGISTER, COPY, ZEROPAGE = 0xc018aa3f, 0xc020aa00, 0xc028aa03, 0xc020aa04
PAGE, REMOVE = 4096, 1 << 3
guard = libc.syscall(int(sys.argv[1]), os.O_CLOEXEC | 1)
window = libc.mmap(None, 5 * PAGE, 3, 0x22, -1, 0)
contents = libc.mmap(None, 5 * PAGE, 3, 0x22, -1, 0)
ctypes.memset(contents, 7, 5 * PAGE)

def control(request, form, *values):
    words = ctypes.create_string_buffer(struct.pack(form, *values))
    answer = libc.ioctl(guard, request, ctypes.cast(words, ctypes.c_void_p))
    return answer, ctypes.get_errno() if answer else 0, struct.unpack(form, words.raw[:struct.calcsize(form)])[-1]

def copy(page, count=1):
    return control(COPY, "<QQQQq", window + page * PAGE, contents, count * PAGE, 0, 0)

def message():
    libc.read(guard, ctypes.create_string_buffer(32), 32)

assert control(API, "<QQQ", 0xaa, REMOVE, 0)[0] == 0
assert control(REGISTER, "<QQQQ", window, 5 * PAGE, 1, 0)[0] == 0
print(hex(window), flush=True)
ours, theirs = socket.socketpair()
os.dup2(ours.fileno(), 50)
libc.send(50, bytes(range(24)), 24, 0)
theirs.sendall(bytes(100))
libc.recv(50, ctypes.create_string_buffer(60), 60, 0)
libc.recv(50, ctypes.create_string_buffer(60), 60, 0)
libc.send(theirs.fileno(), b"not told", 8, 0)
seen = []
first = ctypes.create_string_buffer(1)

def touch():
    libc.memcpy(first, ctypes.c_void_p(window + PAGE + 5), ctypes.c_size_t(1))
    seen.append(first.raw)

reader = threading.Thread(target=touch)
reader.start()
message()
told = open(os.environ["RECORD_LOG"])
fcntl.flock(told, fcntl.LOCK_EX)
placer = threading.Thread(target=lambda: seen.append(copy(1)))
placer.start()
placer.join(0.2)
assert seen == [], "a page is put in place only under the lock"
signal.signal(signal.SIGUSR1, lambda *_: None)
signal.siginterrupt(signal.SIGUSR1, True)
signal.pthread_kill(placer.ident, signal.SIGUSR1)
placer.join(0.2)
assert seen == [], "also where a signal interrupts the wait for it"
fcntl.flock(told, fcntl.LOCK_UN)
placer.join()
reader.join(10)
assert sorted(map(str, seen)) == ["(0, 0, 4096)", "b'\\x07'"], seen
assert copy(1)[:2] == (-1, 17)
assert copy(0, 2) == (-1, 11, 4096)
assert control(ZEROPAGE, "<QQQq", window + 2 * PAGE, PAGE, 0, 0)[0] == 0
remover = threading.Thread(target=lambda: libc.madvise(window + 2 * PAGE, PAGE, 4))
remover.start()
os.set_blocking(guard, True)
message()
remover.join(10)
libc.close(theirs.detach())
libc.close(guard)
"""
TOLD = """p up 000102030405060708090a0b0c0d0e0f1011121314151617
p down 60
p down 100
p fault 1
p place 1 0
p refused 1 1000 17
p place 0 1
p refused 1 1000 11
p zero 2
p remove 2 3
p end
"""


def wait_for(path, seconds, is_there):
    """Waits until a file has what is looked for; answers what it has."""
    until = time.monotonic() + seconds
    while True:
        with open(path, encoding="ascii") as file:
            text = file.read()
        if is_there(text) or time.monotonic() > until:
            return text
        time.sleep(0.01)


def tail_of(path, size):
    with open(path, encoding="ascii") as file:
        file.seek(size)
        return file.read()


def of_walk(tests, walk, room):
    log, gate = f"{room}/log", f"{room}/gate"
    for name in (log, gate):
        open(name, "wb").close()
    with open(gate, "r+b") as held, subprocess.Popen([walk, log, gate, "16", "4", "2", "10", "16", "8", "0"]) as process:
        try:
            wait_for(log, 20, lambda text: text.count("\n") > 500)
            fcntl.flock(held, fcntl.LOCK_EX)
            size = os.path.getsize(log)
            time.sleep(0.2)
            tests.wants("who holds the gate stops all threads", os.path.getsize(log), size)
            with open(log, "rb") as told:
                fcntl.flock(told, fcntl.LOCK_EX)
                fcntl.flock(held, fcntl.LOCK_UN)
                time.sleep(0.2)
                tests.wants("who holds the log stops all accesses", re.search("[rwm]", tail_of(log, size)), None)
                fcntl.flock(told, fcntl.LOCK_UN)
            fcntl.flock(held, fcntl.LOCK_EX)
            with open(f"/proc/{process.pid}/smaps", encoding="ascii") as maps:
                parts = re.findall(r"^([0-9a-f]+)-\S+ \S+ \S+ \S+ \S+ *(.*)\n(?:\w+: .*\n)*?VmFlags:(.*)", maps.read(), re.MULTILINE)
            unlocked = [(int(start, 16), name) for start, name, flags in parts if "lo" not in flags.split() and not name.startswith("[v")]
            tests.wants("all memory but the window is locked", unlocked, [(BASE, "")])
            size = os.path.getsize(log)
            held.truncate(1)
            fcntl.flock(held, fcntl.LOCK_UN)
            wait_for(log, 20, lambda text: len(text) > size + 10000)
            fcntl.flock(held, fcntl.LOCK_EX)
        finally:
            process.kill()
    with open(log, encoding="ascii") as file:
        lines = file.read().split("\n")
    before = "\n".join(lines)[:size].count("\n")
    tests.wants("each line is whole", [line for line in lines[:-1] if not LINE.fullmatch(line)], [])
    tests.wants("pages are given up at first", any(" z " in line for line in lines[:before]), True)
    tests.wants("and not while the gate is not empty", any(" z " in line for line in lines[before:]), False)
    tests.wants("both threads tell", {line[:3] for line in lines[:-1]}, {"g 0", "g 1"})
    tests.wants("each page is written first", [line.split()[2:4] for line in lines[:16]], [["w", str(page)] for page in range(16)])
    tests.wants("the order of the lines is that of the accesses", criu_judge.wrong_reads(room), 0)


def of_library(tests, library, room):
    log = f"{room}/told"
    open(log, "wb").close()
    telling = {"LD_PRELOAD": library, "RECORD_LOG": log, "RECORD_PAGES": f"{room}/pages", "RECORD_SOCKET": "50"}
    number = str(build.USERFAULTFD[os.uname().machine])
    done = subprocess.run([sys.executable, "-B", "-c", PAGER, number], capture_output=True, text=True, env={**os.environ, **telling}, timeout=60)
    tests.wants("the pager's own answers", (done.returncode, done.stderr), (0, ""))
    window = int(done.stdout or "0", 16)

    with open(log, encoding="ascii") as file:
        told = re.sub(r"\b[0-9a-f]{9,16}\b", lambda address: f"{(int(address[0], 16) - window) // 4096:x}", file.read())
    tests.wants("what the library told", told, TOLD)
    with open(f"{room}/pages", "rb") as pages:
        tests.wants("the contents that were put in place", pages.read(), b"\7" * 8192)


def of_pipe(tests, library):
    words = "import fcntl, os; end = os.pipe()[0]; fcntl.fcntl(end, 1031, 819 * 4096); print(fcntl.fcntl(end, 1032) >= 1 << 16)"
    done = subprocess.run([sys.executable, "-c", words], capture_output=True, text=True, env={**os.environ, "LD_PRELOAD": library})
    tests.wants("a pipe as large as may be", (done.stdout, done.stderr), ("True\n", ""))


def run(tests):
    if not shutil.which("gcc"):
        tests.leave_out("what the recorder of CRIU has of C: gcc not found")
        return
    walk, library, pipe_size = criu_build.build()
    of_pipe(tests, pipe_size)
    with tempfile.TemporaryDirectory() as room:
        if os.geteuid() == 0:
            of_walk(tests, walk, room)
        else:
            tests.leave_out("the process that CRIU moves: it locks its memory, as root may")
        if build.can_guard_memory():
            of_library(tests, library, room)
        else:
            tests.leave_out("the library in lazy-pages: userfaultfd cannot be used here")

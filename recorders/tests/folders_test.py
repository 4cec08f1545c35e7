"""The folders that a recorder takes, and what it leaves alone in all others; and who may enter where its sockets are."""
import io
import json
import lzma
import os
import resource
import shutil
import signal
import socket
import stat
import subprocess
import sys
import tarfile
import tempfile
import time
from types import SimpleNamespace
from unittest import mock

import files
import folders
import judge
import lazy_migration
import linux_run
import pack
import packing
from kinds import plan_of
from machine import Machine
from relay import Relay, Window
from run import Migration, Outcome

HERE = os.path.dirname(os.path.abspath(__file__))
QEMU = f"{os.path.dirname(HERE)}/qemu"
OF_A_USER = ("report.pdf", "source.tar.gz", "guest.img", "picture.png", "session", "plan.json")


def fill(folder, names=OF_A_USER):
    os.makedirs(folder)
    for name in names:
        with open(f"{folder}/{name}", "w", encoding="ascii") as out:
            out.write(name)


def held(folder):
    """The names in a folder, with what each file holds."""
    found = {}
    for name in sorted(os.listdir(folder)):
        with open(f"{folder}/{name}", encoding="utf-8") as file:
            found[name] = file.read()
    return found


def of_a_users_folder(tests, room):
    folder = f"{room}/mine"
    fill(folder)
    before = held(folder)
    said = tests.refuses("a folder with files of a user", folders.NotOurs, lambda: folders.take(folder))
    tests.wants("it is named", folder in said and "not empty" in said, True)
    tests.wants("nothing of it is gone", held(folder), before)
    for words in (["migrate", "live"], ["campaign", "1", "--folder"]):
        done = subprocess.run([sys.executable, f"{QEMU}/{words[0]}", *words[1:], folder], capture_output=True, text=True)
        tests.wants(f"{words[0]} into it", (done.returncode, done.stdout, done.stderr), (2, "", f"{words[0]}: {said}\n"))
        tests.wants(f"what {words[0]} left there", held(folder), before)
    folders.remove(folder)
    tests.wants("nor is it removed", held(folder), before)
    file = f"{folder}/session"
    tests.refuses("a file", folders.NotOurs, lambda: folders.take(file))
    tests.refuses("a folder in a file", folders.NotOurs, lambda: folders.take(f"{file}/more"))
    tests.refuses("a name that is too long", folders.NotOurs, lambda: folders.take(f"{room}/{'x' * 300}"))


def of_a_word_alone(tests, room):
    """What names a kind or a workload, with no folder behind it, is no folder: another kind would be recorded there than was asked for."""
    for command, word, others in (("qemu/migrate", "preempt", ["live", "preempt"]), ("criu/migrate", "threads", ["live", "threads"]), ("qemu/linux", "busy", ["./busy"])):
        words = [sys.executable, f"{os.path.dirname(QEMU)}/{command}"]
        done = subprocess.run([*words, word], cwd=room, capture_output=True, text=True)
        tests.wants(f"{command} {word}", (done.returncode, done.stdout, f"'{word}' is a " in done.stderr, os.path.exists(f"{room}/{word}")), (2, "", True, False))
        # (the folder is taken, and the number behind it is refused)
        done = subprocess.run([*words, *others, "--cpus" if "qemu" in command else "--threads", "99"], cwd=room, capture_output=True, text=True)
        tests.wants(f"{command} {' '.join(others)}", (done.returncode, "is a " in done.stderr), (2, False))


def of_a_folder_of_its_own(tests, room):
    for what, folder in (("a folder that is not there", f"{room}/new/within"), ("an empty folder", f"{room}/empty")):
        if what.startswith("an"):
            os.mkdir(folder)
        folders.take(folder)
        tests.wants(f"{what} is taken", (os.listdir(folder), folders.is_ours(folder)), ([folders.MARK], True))
    for name in (*folders.FILES, *OF_A_USER):
        with open(f"{folder}/{name}", "w", encoding="ascii") as out:
            out.write(name)
    folders.take(folder)
    kept = {folders.MARK, *OF_A_USER} - set(folders.FILES)
    tests.wants("a second run replaces its own files alone", set(os.listdir(folder)), kept)
    folders.remove(folder)
    tests.wants("what else is in a folder stays where it is removed", set(os.listdir(folder)), kept)
    for name in kept - {folders.MARK}:
        os.unlink(f"{folder}/{name}")
    folders.remove(folder)
    tests.wants("a folder with nothing else is removed", os.path.exists(folder), False)
    folders.take(folder)
    os.mkdir(f"{folder}/source.raw")
    with open(f"{folder}/session", "w", encoding="ascii"):
        pass
    said = tests.refuses("a folder that has a file's name", folders.NotOurs, lambda: folders.take(folder))
    tests.wants("it is named", f"{folder}/source.raw" in said, True)
    tests.wants("and nothing is gone", set(os.listdir(folder)), {folders.MARK, "session", "source.raw"})


def of_another_recorder(tests, room):
    """What another recorder left in a folder is no part of a recording that is made there later."""
    folder = f"{room}/shared"
    folders.take(folder, linux_run.FILES)
    for name in ("restart", "self-test", "init.mem", "notes"):
        with open(f"{folder}/{name}", "w", encoding="ascii") as out:
            out.write(name)
    folders.take(folder, lazy_migration.FILES, "criu")
    tests.wants("what is left", set(os.listdir(folder)), {folders.MARK, "notes"})
    for name in ("lazy-pages.log", "results"):
        with open(f"{folder}/{name}", "w", encoding="ascii") as out:
            out.write(name)
    folders.take(folder, ("results",))
    tests.wants("where a campaign is made, which is no recording", set(os.listdir(folder)), {folders.MARK, "notes", "lazy-pages.log"})
    with open(f"{folder}/results", "w", encoding="ascii") as out, open(f"{folder}/{folders.MARK}", "a", encoding="ascii") as mark:
        out.write("results")
        mark.write("../elsewhere\n")
    with open(f"{room}/elsewhere", "w", encoding="ascii") as out:
        out.write("elsewhere")
    folders.take(folder)
    tests.wants("and a recording behind it", set(os.listdir(folder)), {folders.MARK, "notes", "results"})
    tests.wants("nothing elsewhere is removed", os.path.exists(f"{room}/elsewhere"), True)


def of_two_at_once(tests, room):
    """A folder that a process records into is refused to every other, and what is in it stays; once it has ended the folder is taken again."""
    folder = f"{room}/at once"
    script = ("import sys, time\nsys.path[:0] = sys.argv[1:3]\nimport folders\nfolders.take(sys.argv[3])\nfolders.take(sys.argv[3])\n"
              "open(f'{sys.argv[3]}/session', 'w').close()\nprint('taken', flush=True)\nsys.stdin.read()")
    words = [sys.executable, "-B", "-c", script, QEMU, os.path.dirname(QEMU), folder]
    with subprocess.Popen(words, stdin=subprocess.PIPE, stdout=subprocess.PIPE, text=True) as first:
        tests.wants("the first", first.stdout.readline(), "taken\n")
        said = tests.refuses("the second", folders.NotOurs, lambda: folders.take(folder))
        tests.wants("it is named", said.startswith(f"{folder} is being recorded into by another process"), True)
        tests.wants("what is in it", sorted(os.listdir(folder)), [folders.MARK, "session"])
        first.communicate("")
    folders.take(folder)
    tests.wants("behind the first", os.listdir(folder), [folders.MARK])
    folders.remove(folder)
    folders.take(folder)
    tests.wants("one that was removed", os.listdir(folder), [folders.MARK])


def of_signals(tests, room):
    """A signal ends a recorder with its status, and its temporary folder is gone."""
    script = ("import sys, time\nsys.path[:0] = sys.argv[1:3]\nimport folders\nfolders.end_in_order()\nroom = folders.Room()\n"
              "try:\n    print(room.path, flush=True)\n    time.sleep(60)\nfinally:\n    room.end()")
    for number in (signal.SIGTERM, signal.SIGHUP):
        with subprocess.Popen([sys.executable, "-B", "-c", script, QEMU, os.path.dirname(QEMU)], stdout=subprocess.PIPE, text=True,
                              preexec_fn=lambda number=number: signal.signal(number, signal.SIG_DFL)) as recorder:
            path = recorder.stdout.readline().rstrip("\n")
            is_there = os.path.isdir(path)
            recorder.send_signal(number)
        tests.wants(f"the signal {number}", (is_there, recorder.returncode, os.path.exists(path)), (True, 128 + number, False))


def modes_of(path):
    return stat.S_IMODE(os.stat(path).st_mode)


def of_a_room(tests, room):
    before = tempfile.tempdir
    for what, top in (("a long path", f"{room}/{'x' * 90}"), ("a comma", f"{room}/a,b"), ("a percent sign", f"{room}/a%d"), ("a plain one", room)):
        os.makedirs(top, exist_ok=True)
        tempfile.tempdir = top
        made = folders.Room()
        tests.wants(f"a room with {what} as the folder of temporary files", (modes_of(made.path), os.path.dirname(made.path) == top), (0o700, top == room))
        with socket.socket(socket.AF_UNIX) as one:
            one.bind(made.name("target-12345"))
        made.end()
        tests.wants("it is gone at the end", os.path.exists(made.path), False)
    tempfile.tempdir = before


def of_the_sockets(tests, room):
    """Where the relay and the monitors listen, and what QEMU is told of it; a program that only waits stands in for QEMU."""
    folder = f"{room}/a,b %d"
    folders.take(folder)
    os.makedirs(f"{room}/bin")
    qemu = f"{room}/bin/qemu"
    with open(qemu, "w", encoding="ascii") as out:
        out.write("#!/bin/sh\nunset LD_PRELOAD\npwd > where\nexec sleep 60\n")
    os.chmod(out.name, 0o755)
    made = folders.Room()
    relay = Relay(folder, made, Window(0x400000, 8), made.name("target"))
    machine = Machine("target", folder, made, plan_of("live"), f"{room}/a library.so", qemu)
    tests.wants("the relay listens on a socket", relay.listener.family, socket.AF_UNIX)
    tests.wants("the sockets and the pipe stand in the room", {os.path.dirname(it) for it in (relay.path, machine.socket, machine.pipe)}, {made.path})
    tests.wants("which is for this user alone", modes_of(made.path), 0o700)
    with open(f"{folder}/target.command", encoding="utf-8") as file:
        words = file.read()
    tests.wants("no option has the name of the folder", "a,b" in words or "tcp" in words, False)
    until = time.monotonic() + 10
    while not (os.path.exists(f"{folder}/where") and os.path.getsize(f"{folder}/where")) and time.monotonic() < until:
        time.sleep(0.01)
    with open(f"{folder}/where", encoding="utf-8") as file:
        tests.wants("QEMU stands in the folder", os.path.samefile(file.read().rstrip("\n"), folder), True)
    machine.end(False)
    relay.end()
    made.end()


def of_a_full_disk(tests, room):
    """A file of what QEMU recorded has no more room: the migration is not whole, though both sides came to their end."""
    folder, qemu, limits = f"{room}/full", f"{room}/bin/talker", resource.getrlimit(resource.RLIMIT_FSIZE)
    folders.take(folder)
    with open(qemu, "w", encoding="ascii") as out:
        out.write('#!/bin/sh\nunset LD_PRELOAD\nwhile [ "$1" != -D ]; do shift; done\nhead -c 30000 /dev/zero > "$2"\n')
    os.chmod(qemu, 0o755)
    for most, wanted in ((1 << 20, (30000, True, [])), (10000, (10000, False, ["target.raw: File too large"]))):
        one, made = Migration.__new__(Migration), folders.Room()
        one.outcome, one.say = Outcome("completed", "completed"), lambda line: None
        resource.setrlimit(resource.RLIMIT_FSIZE, (most, limits[1]))
        try:
            one.machines = [Machine("target", folder, made, plan_of("live"), f"{room}/a library.so", qemu)]
            one.machines[0].process.wait(10)
            one.end_machines()
        finally:
            resource.setrlimit(resource.RLIMIT_FSIZE, limits)
            made.end()
        found = os.path.getsize(f"{folder}/target.raw"), one.outcome.is_whole, one.outcome.remarks
        tests.wants(f"what is told with room for {most} bytes", found, wanted)


class Recorded(Migration):
    """One in which both sides come to their end at once. The relay's contents are beyond what a disk takes."""

    def prepare(self, library):
        return "pc", {"source": (), "target": ()}

    def build(self):
        return None

    def put_guest(self):
        os.symlink("/dev/full", f"{self.folder}/relay.pages")

    def record(self, *words):
        self.machine_class = lambda *_: SimpleNamespace(waited=lambda: 0.0, end=lambda is_well: "")
        super().record(*words)

    def migrate(self):
        self.outcome.source = self.outcome.target = "completed"
        self.relay.contents.write(b"any")


def of_a_relay_on_a_full_disk(tests, room):
    """What the relay could not record is told, and the migration is not whole, though both sides came to their end."""
    folder, emulator = f"{room}/relay-full", SimpleNamespace(version_text="10.0.13", path="none")
    with mock.patch("build.require_tools"):
        outcome = Recorded(plan_of("live"), folder, lambda line: None, [emulator, emulator]).run()
    lost = ["relay.pages: No space left on device"]
    tests.wants("what is told", (outcome.lost, outcome.remarks, outcome.is_whole), (lost, lost, False))
    with open(f"{folder}/outcome.json", encoding="utf-8") as file:
        tests.wants("and kept", json.load(file)["lost"], lost)


def of_what_cannot_be_written(tests, room):
    """A command says which file it could not write, or that it was its output, and has the status of one that cannot record."""
    os.symlink("/dev/full", f"{room}/no room")
    command = "import sys, folders; sys.exit(folders.status_of('any', lambda: %s))"
    reader, closed = os.pipe()
    os.close(reader)
    with open("/dev/full", "w", encoding="ascii") as full:
        for act, out, wanted in (("folders.write('no room', 'x')", None, (3, "any: no room: No space left on device\n")),
                                 ("print('x')", full, (3, "any: standard output: No space left on device\n")),
                                 ("print('x')", closed, (3, "any: standard output: Broken pipe\n")),
                                 ("open('none')", None, (3, "any: none: No such file or directory\n")),
                                 ("exec('raise KeyboardInterrupt')", None, (130, "")), ("7", None, (7, ""))):
            for buffered in ({}, {"PYTHONUNBUFFERED": "1"}):
                environment = {name: value for name, value in os.environ.items() if name != "PYTHONUNBUFFERED"}
                done = subprocess.run([sys.executable, "-B", "-c", command % act], cwd=room, stdout=out, stderr=subprocess.PIPE, text=True,
                                      env={**environment, "PYTHONPATH": f"{QEMU}:{os.path.dirname(HERE)}", **buffered})
                tests.wants(f"{act} {buffered}", (done.returncode, done.stderr), wanted)
    os.close(closed)
    for name in ("campaign", "compare", "found", "linux", "linux_runs", "migrate", "shows", "versions", "../criu/campaign",
                 "../criu/migrate", "../criu/versions"):
        done = subprocess.run(["sh", "-c", '"$@" >&-', "sh", sys.executable, "-B", f"{QEMU}/{name}", "--help"], capture_output=True, text=True)
        word = os.path.basename(name)
        tests.wants(f"{name} without an output", (done.returncode, done.stderr), (3, f"{word}: standard output: it is closed\n"))


def of_a_strange_name(tests, room):
    """A recording is judged in a folder whose name is no text."""
    folder = f"{room}/a, b %d\n" + os.fsdecode(b"\xff")
    os.mkdir(folder)
    shutil.copy(f"{os.path.dirname(os.path.dirname(HERE))}/examples/qemu-live/session", folder)
    tests.wants("the verdict in a folder with a strange name", judge.verdict_line(folder), "clean, yes")
    tests.wants("what was found is left there", sorted(os.listdir(folder)), ["certificate", "report", "session"])


def of_a_link(tests, room):
    """A file behind a link is replaced in its own folder, and the link stays."""
    for name in ("links", "files"):
        os.mkdir(f"{room}/{name}")
    folders.write(f"{room}/files/results", "before")
    os.chmod(f"{room}/files/results", 0o640)
    os.symlink("../files/results", f"{room}/links/results")
    files.replace(f"{room}/links/results", b"after")
    with open(f"{room}/files/results", "rb") as file:
        tests.wants("the file", (file.read(), modes_of(file.name), os.listdir(f"{room}/files")), (b"after", 0o640, ["results"]))
    tests.wants("the link", (os.readlink(f"{room}/links/results"), os.listdir(f"{room}/links")), ("../files/results", ["results"]))


def of_packed(tests, room):
    """A packed recording that names a file of elsewhere."""
    packed = io.BytesIO()
    with tarfile.open(fileobj=packed, mode="w") as archive:
        archive.addfile(tarfile.TarInfo("../outside"))
    with open(f"{room}/packed", "wb") as out:
        out.write(lzma.compress(packed.getvalue()))
    said = tests.refuses("a packed file that is none of a recording", ValueError, lambda: pack.unpack(f"{room}/packed", f"{room}/unpacked"))
    tests.wants("it is named", "../outside" in said, True)
    tests.wants("and not written", os.path.exists(f"{room}/outside"), False)


def of_packing(tests, room):
    """A recording is packed, and unpacked into a folder without one: no file of a recording is written over."""
    fill(f"{room}/to-pack", pack.FILES)
    before = held(f"{room}/to-pack")

    def told(*words):
        done = subprocess.run([sys.executable, "-B", f"{QEMU}/pack.py", *words], cwd=room, capture_output=True, text=True)
        return done.returncode, done.stdout, done.stderr

    there = "it is there already, and is a file of a recording\n"
    for words, wanted in ((("to-pack", "small"), (0, "", "")), (("--out", "small", "out-of-it"), (0, "", "")),
                          (("--out", "small", "to-pack"), (1, "", f"pack.py: to-pack/plan.json: {there}")),
                          (("to-pack", "to-pack/halt.mem"), (1, "", f"pack.py: to-pack/halt.mem: {there}")),
                          (("none", "other"), (1, "", "pack.py: none/plan.json: No such file or directory\n")),
                          (("to-pack", "/dev/full"), (1, "", "pack.py: /dev/full: No space left on device\n")),
                          (("--out", "to-pack/plan.json", "other"), (1, "", "pack.py: to-pack/plan.json: Input format not supported by decoder\n"))):
        tests.wants(f"pack.py {' '.join(words)}", told(*words), wanted)
    with open(f"{room}/small", "rb") as file:
        small = file.read()
    os.chmod(f"{room}/small", 0o640)
    names, limits = sorted(os.listdir(room)), resource.getrlimit(resource.RLIMIT_FSIZE)
    resource.setrlimit(resource.RLIMIT_FSIZE, (10, limits[1]))
    try:
        tests.wants("pack.py without room", [told("to-pack", name) for name in ("small", "other")],
                    [(1, "", f"pack.py: {name}: File too large\n") for name in ("small", "other")])
    finally:
        resource.setrlimit(resource.RLIMIT_FSIZE, limits)
    with open(f"{room}/small", "rb") as file:
        tests.wants("the file of before, and no other", (file.read() == small, sorted(os.listdir(room))), (True, names))
    tests.wants("once more, with room", (told("to-pack", "small"), modes_of(f"{room}/small")), ((0, "", ""), 0o640))
    fill(f"{room}/of-linux", (*pack.FILES, *pack.OF_LINUX))
    tests.wants("pack.py of a Linux guest", (told("of-linux", "of-it"), told("--out", "of-it", "out-of-linux"), held(f"{room}/out-of-linux")),
                ((0, "", ""), (0, "", ""), held(f"{room}/of-linux")))
    for name in ("plan.json", *pack.OF_LINUX):
        lacks = f"{room}/without-{name}"
        shutil.copytree(f"{room}/of-linux", lacks)
        os.remove(f"{lacks}/{name}")
        tests.wants(f"pack.py of a Linux guest without {name}", (told(lacks, "other"), os.path.exists(f"{room}/other")),
                    ((1, "", f"pack.py: {lacks}/{name}: No such file or directory\n"), False))
        packing.pack(lacks, os.listdir(lacks), f"{room}/lacking")
        tests.wants(f"pack.py --out without {name}", told("--out", "lacking", "other"), (1, "", f"pack.py: lacking: a recording also has {name}\n"))
    packing.pack(f"{room}/to-pack", (*pack.FILES, "halt.mem"), f"{room}/twice")
    tests.wants("pack.py --out of a file that is there twice", told("--out", "twice", "other"), (1, "", "pack.py: twice: twice contains a file twice\n"))
    os.truncate(f"{room}/small", os.path.getsize(f"{room}/small") - 20)
    tests.wants("one that ends early", told("--out", "small", "other")[::2], (1, "pack.py: small: Compressed data ended before the end-of-stream marker was reached\n"))
    tests.wants("what is there", (held(f"{room}/to-pack"), held(f"{room}/out-of-it"), os.path.exists(f"{room}/other")), (before, before, False))


def run(tests):
    with tempfile.TemporaryDirectory() as room:
        of_a_users_folder(tests, room)
        of_a_word_alone(tests, room)
        of_a_folder_of_its_own(tests, room)
        of_another_recorder(tests, room)
        of_two_at_once(tests, room)
        of_signals(tests, room)
        of_a_room(tests, room)
        of_the_sockets(tests, room)
        of_a_full_disk(tests, room)
        of_a_relay_on_a_full_disk(tests, room)
        of_what_cannot_be_written(tests, room)
        of_a_strange_name(tests, room)
        of_a_link(tests, room)
        of_packed(tests, room)
        of_packing(tests, room)

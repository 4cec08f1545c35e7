"""What differs between QEMUs: what one lacks is told before, roots of other releases, one that hangs, and a guest at both sides."""
import contextlib
import fcntl
import functools
import importlib.machinery
import importlib.util
import io
import itertools
import os
import socket
import stat
import subprocess
import sys
import tarfile
import tempfile
import threading
import time
from types import SimpleNamespace
from unittest import mock

import build
import emulator
import found_page
import machine
import plain
import qmp
import releases
import run as migration
import waits
from emulator import Emulator
from files import lines_of
from kinds import plan_of
from results import Result, of_campaign, result_from_text

QEMU = f"{os.path.dirname(os.path.dirname(os.path.abspath(__file__)))}/qemu"


def command(name):
    """A command of recorders/qemu, as a module."""
    loader = importlib.machinery.SourceFileLoader(f"{name}_command", f"{QEMU}/{name}")
    module = importlib.util.module_from_spec(importlib.util.spec_from_loader(loader.name, loader))
    loader.exec_module(module)
    return module


def read(path):
    with open(path, encoding="utf-8") as file:
        return file.read()


def program(path, *lines):
    with open(path, "w", encoding="ascii") as out:
        print("#!/bin/sh", *lines, sep="\n", file=out)
    os.chmod(path, 0o755)
    return path


def qemu_like(room, version, events, refusal="", stream=1, machines="pc  Standard PC (alias of pc-i440fx-7.2)\\npc-i440fx-7.2  Standard PC"):
    """A program that answers as a QEMU does where it is asked what it is."""
    answer = f'{{"error": {{"desc": "{refusal}"}}}}' if refusal else '{"return": {}}'
    return program(f"{room}/qemu-{version}", 'case "$*" in',
                   f"*version*) echo 'QEMU emulator version {version} (Debian 1:{version})' ;;",
                   f"*trace*) printf '%s\\n' {' '.join(events)} >&{stream} ;;",
                   f"*'machine help'*) printf '{machines}\\n' ;;",
                   f"*) cat > {room}/asked; printf '%s\\n' '{{\"return\": {{}}}}' '{answer}' ;;", "esac")


def of_what_is_lacking(tests, room):
    needed = emulator.dialect.events_of("target", (10, 0))
    tests.wants("what a side needs has no line of the library", [event for event in needed if event == emulator.dialect.LIBRARY], [])
    one = Emulator(qemu_like(room, "10.0.13", [*needed, "runstate_set", "other"]))
    tests.wants("a version", (str(one), one.version), ("QEMU 10.0.13", (10, 0)))
    tests.wants("what is traced: what moments need, and of the rest what is there", one.trace("target"), [*needed, "runstate_set"])
    old = Emulator(qemu_like(room, "5.2.0", emulator.dialect.events_of("target", (5, 2)), stream=2))
    tests.wants("events that are told on standard error", old.trace("target"), emulator.dialect.events_of("target", (5, 2)))
    tests.wants("5.2 is asked for no event of a lane", "postcopy_pause_fast_load_continued" in old.trace("target"), False)
    said = tests.refuses("a QEMU that lacks an event", build.Missing, lambda: one.trace("source"))
    tests.wants("the event is named", "vm_state_notify" not in said and "ram_save_page" in said, True)
    library = program(f"{room}/library")
    refusing = Emulator(qemu_like(room, "5.2.1", needed, "Invalid parameter postcopy-preempt"))
    said = tests.refuses("a QEMU that refuses a capability", build.Missing, lambda: refusing.require(plan_of("preempt"), library))
    tests.wants("in its own words", said.endswith("cannot migrate with postcopy-ram, postcopy-blocktime, postcopy-preempt: Invalid parameter postcopy-preempt"), True)
    said = tests.refuses("a library that cannot be preloaded", build.Missing, lambda: one.require(plan_of("live"), library))
    tests.wants("that is told", "does not take the preloaded library" in said, True)
    access, free, os.access, emulator.free_huge_pages = os.access, emulator.free_huge_pages, lambda path, mode: False, lambda: 31
    for kind, words in (("kvm", "no /dev/kvm"), ("huge", "32 free pages of 2 MiB are needed, and there are 31")):
        said = tests.refuses(f"a machine that has nothing for {kind}", build.Missing, lambda: one.require(plan_of(kind), library))
        tests.wants("it is told as left out", words in said and "left out" in said, True)
    os.access, emulator.free_huge_pages = access, free
    tests.wants("what is asked of a QEMU", '"capability": "postcopy-ram", "state": true' in read(f"{room}/asked"), True)
    tests.wants("capabilities of multifd", plan_of("multifd").capabilities(), ["postcopy-ram", "postcopy-blocktime", "multifd"])
    tests.refuses("a QEMU that is not there", build.Missing, lambda: Emulator(f"{room}/nothing"))
    tests.refuses("a program that is no QEMU", build.Missing, lambda: Emulator(program(f"{room}/other", "echo hello")))
    newer = Emulator(qemu_like(room, "11.1.3", needed, machines="pc  PC (alias of pc-i440fx-11.1)\\npc-i440fx-11.1  PC\\npc-i440fx-7.2  PC"))
    seven = Emulator(qemu_like(room, "7.2.22", needed))
    tests.wants("the machine of both, from older to newer and back, and alone",
                (seven.machine_for(newer), newer.machine_for(seven), newer.machine_for(newer)), ("pc-i440fx-7.2", "pc-i440fx-7.2", "pc"))
    none = Emulator(qemu_like(room, "12.0.0", needed, machines="pc  PC (alias of pc-i440fx-12.0)\\npc-i440fx-12.0  PC"))
    tests.refuses("a newer QEMU without the older's machine", build.Missing, lambda: seven.machine_for(none))


def of_roots(tests, room):
    """A package is unpacked into a root: what QEMU runs with, below usr, without rights of others."""
    before, os.environ["PATH"] = os.environ["PATH"], f"{room}/bin:{os.environ['PATH']}"
    os.makedirs(f"{room}/bin")
    program(f"{room}/bin/dpkg-deb", 'cat "$2"')
    with tarfile.open(f"{room}/package.deb", "w") as archive:
        for name, mode, link in (("./lib/x86_64-linux-gnu/ld-2.31.so", 0o4755, ""), ("./usr/lib/x86_64-linux-gnu/liba.so.1", 0o644, ""),
                                 ("./lib64/ld-linux-x86-64.so.2", 0o777, "/lib/x86_64-linux-gnu/ld-2.31.so"), ("./bin/su", 0o4755, ""),
                                 ("./usr/share/qemu/bios.bin", 0o644, ""), ("./usr/share/doc/readme", 0o644, ""), ("../../outside", 0o644, "")):
            member = tarfile.TarInfo(name)
            member.mode, member.type, member.linkname = mode, tarfile.SYMTYPE if link else tarfile.REGTYPE, link
            archive.addfile(member, io.BytesIO())
    root = f"{room}/cache/postcopy/qemu/trixie"
    os.makedirs(root)
    releases.unpack(f"{room}/package.deb", root)
    found = sorted(os.path.relpath(os.path.join(where, name), root) for where, _, names in os.walk(root) for name in names)
    tests.wants("what is unpacked", found, ["usr/lib/x86_64-linux-gnu/ld-2.31.so", "usr/lib/x86_64-linux-gnu/liba.so.1",
                                           "usr/lib64/ld-linux-x86-64.so.2", "usr/share/qemu/bios.bin"])
    tests.wants("no rights of others", stat.S_IMODE(os.stat(f"{root}/usr/lib/x86_64-linux-gnu/ld-2.31.so").st_mode), 0o755)
    tests.wants("a link stays within", os.path.samefile(f"{root}/usr/lib64/ld-linux-x86-64.so.2", f"{root}/usr/lib/x86_64-linux-gnu/ld-2.31.so"), True)
    releases.write_start(root, root)
    with open(releases.qemu_of(root), encoding="utf-8") as file:
        tests.wants("QEMU is started by the root's loader", f"exec {root}/usr/lib/x86_64-linux-gnu/ld-2.31.so --library-path" in file.read(), True)
    kept, os.environ["XDG_CACHE_HOME"] = os.environ.get("XDG_CACHE_HOME"), f"{room}/cache"
    tests.wants("a release is found by its name", releases.found("trixie"), releases.qemu_of(root))
    tests.refuses("one without a root", build.Missing, lambda: releases.found("sid"))
    program(f"{room}/bin/debootstrap", "echo 'I: Retrieving qemu-system-x86 1'; echo 'E: no network' >&2; exit 1")
    said = tests.refuses("a root that cannot be made", build.Missing, lambda: releases.make("sid", "http://nowhere", lambda line: None))
    tests.wants("why, and nothing is left of it", ("no network" in said, os.listdir(f"{room}/cache/postcopy/qemu")), (True, ["trixie"]))
    program(f"{room}/bin/debootstrap", f"echo >> {room}/tries", 'to=$5/var/cache/apt/archives', 'mkdir -p "$to"',
            f'[ -e "$to/a.deb" ] || {{ cp {room}/package.deb "$to/a.deb"; echo "E: no network"; exit 1; }}')
    made = releases.make("sid", "http://nowhere", lambda line: None)
    tests.wants("what fails once is tried again, with what is there already", (releases.found("sid"), len(read(f"{room}/tries"))), (releases.qemu_of(made), 2))
    tests.wants("the downloads are gone", sorted(os.listdir(f"{room}/cache/postcopy/qemu")), ["sid", "trixie"])
    before_it = read(f"{room}/tries")
    releases.make("sid", "http://nowhere", lambda line: None, is_anew=False)
    tests.wants("what another process has made is taken", read(f"{room}/tries"), before_it)
    said, folder = [], os.open(f"{room}/cache/postcopy/qemu", os.O_RDONLY)
    fcntl.flock(folder, fcntl.LOCK_EX)
    second = threading.Thread(target=releases.make, args=("sid", "http://nowhere", said.append, False))
    second.start()
    while not said:
        time.sleep(0.01)
    tests.wants("while another process makes a root", (second.is_alive(), said), (True, ["wait: another process makes a root"]))
    os.close(folder)
    second.join(60)
    tests.wants("and once it has ended", second.is_alive(), False)
    tests.refuses("a name that is no release", build.Missing, lambda: releases.make("../up", "http://nowhere", lambda line: None))
    os.environ["PATH"] = before
    os.environ.pop("XDG_CACHE_HOME")
    if kept is not None:
        os.environ["XDG_CACHE_HOME"] = kept


class Silent:
    """In the place of a Qmp: QEMU does not answer."""
    calls = 0

    def __call__(self, command, **arguments):
        self.calls += 1
        raise qmp.Hangs("it has not answered for 20 s")


def qmp_of_a_late_one(path, waited):
    """What a monitor answers that is three times as late as it may be. `waited` has the seconds that it had no processor."""
    is_over = threading.Event()

    def answer():
        connection, _ = listener.accept()
        time.sleep(0.6)
        connection.sendall(b'{"QMP": {}}\n{"return": {}}\n{"event": "STOP"}\n{"return": {}}\n')
        is_over.wait()
        connection.close()

    with socket.socket(socket.AF_UNIX) as listener:
        listener.bind(path)
        listener.listen()
        thread = threading.Thread(target=answer, daemon=True)
        thread.start()
        try:
            return qmp.Qmp(path, lambda: True, 0.2, lambda: {"main": 7.0, "other": next(waited)})("stop")
        finally:
            time.sleep(0.7)  # in which it answers one that is still there
            is_over.set()
            thread.join()


def of_no_roots(tests, room):
    """Where there is no root, that is told, and how one is made."""
    done = subprocess.run([sys.executable, "-B", f"{QEMU}/versions"], capture_output=True, text=True, env={**os.environ, "XDG_CACHE_HOME": room})
    wanted = f"versions: no QEMU of another release is there. This makes a root with one, by debootstrap, in {room}/postcopy/qemu:\n    recorders/qemu/versions trixie\n"
    tests.wants("what is told", (done.returncode, done.stdout, done.stderr), (3, "", wanted))


def of_one_that_hangs(tests, room):
    path = f"{room}/monitor"
    with socket.socket(socket.AF_UNIX) as listener:
        listener.bind(path)
        listener.listen()
        tests.refuses("a monitor that does not answer", qmp.Hangs, lambda: qmp.Qmp(path, lambda: True, 0.2))
    tests.wants("one that had no processor is given more time", qmp_of_a_late_one(f"{room}/late", itertools.count(0.0, 0.2)), {})
    tests.refuses("one that had, and is as late", qmp.Hangs, lambda: qmp_of_a_late_one(f"{room}/idle", itertools.count(0.0, 0.01)))
    for step, is_given in ((0.2, True), (0.01, False)):
        waited, tries = itertools.count(0.0, step), itertools.count()
        one = qmp.Qmp.__new__(qmp.Qmp)
        one.seconds, one.waits = 0.1, lambda waited=waited: {"main": 7.0, "other": next(waited)}
        one.socket = mock.Mock(connect=mock.Mock(side_effect=lambda path, tries=tries: None if next(tries) > 7 else one.socket.refuse()), refuse=mock.Mock(side_effect=FileNotFoundError))
        if is_given:
            tests.wants("one that starts late, and had no processor, is given more time", one.connect("", lambda: True), None)
        else:
            tests.refuses("one that had, and is as late", qmp.Gone, lambda: one.connect("", lambda: True))
    tests.wants("a thread that ran", 0 <= waits.seconds_waited("/proc/self") < 1e6, True)
    tests.wants("one that is not there", waits.seconds_waited(room), 0.0)
    tests.wants("all threads of two processes", set(waits.waits_of("self", os.getppid())), {f"/proc/{process}/task/{task}" for process in ("self", os.getppid()) for task in os.listdir(f"/proc/{process}/task")})
    tests.wants("the longest of all, and since a time", [waits.longest({"a": 9.0, "b": 5.0}), waits.longest({"a": 9.0, "b": 5.0}, {"a": 8.0}), waits.longest({"a": 9.0, "b": 5.0}, {"a": 8.0, "b": 3.0}), waits.longest({})], [9.0, 5.0, 2.0, 0.0])
    hanging = machine.Machine.__new__(machine.Machine)
    hanging.name, hanging.qmp, hanging.lock, hanging.hangs = "target", Silent(), threading.Lock(), False
    hanging.is_running = lambda: True
    tests.wants("where its migration stands", [hanging.migration(), hanging.wait_for(("completed",), 30)], ["hangs", "hangs"])
    tests.wants("it is waited for once", hanging.qmp.calls, 1)
    side = plain.Side.__new__(plain.Side)
    side.name, side.qmp, side.hangs = "target", Silent(), False
    tests.wants("one that is asked without the recorder", (side.stands(), side.stands(), side.qmp.calls), (("hangs", "hangs"), ("hangs", "hangs"), 1))
    one = migration.Migration.__new__(migration.Migration)
    one.outcome, one.say = migration.Outcome(), lambda line: None
    tests.wants("how it ended", (one.end_of(hanging, "hangs"), one.outcome.remarks), ("HANGS", ["target: it runs, and does not answer"]))
    hanging.is_running = lambda: False
    hanging.how_it_ended = lambda: "exited: load of migration failed"
    tests.wants("one that ended", (one.end_of(hanging, "hangs"), one.outcome.deaths), ("ENDED", ["target exited: load of migration failed"]))
    waited = []
    late = SimpleNamespace(name="target", hangs=False, migration=lambda: "ended", wait_for_end=waited.append, is_running=lambda: not waited, how_it_ended=lambda: "aborted: it")
    tests.wants("one that does not answer, as it is about to end", one.end_of(late, "completed"), "ENDED")


@contextlib.contextmanager
def made_up(series, words, make_all, **changes):
    """A command of many migrations that gets these words, with QEMUs and migrations that are made up. Yields what it says."""
    with contextlib.ExitStack() as patches:
        said = SimpleNamespace(out=patches.enter_context(contextlib.redirect_stdout(io.TextIOWrapper(io.BytesIO(), write_through=True))),
                               err=patches.enter_context(contextlib.redirect_stderr(io.StringIO())))
        for where, its in ((series, {"Emulator": lambda name: SimpleNamespace(path=f"/{name}", version_text="10.0.13"), **changes}), (sys, {"argv": words}),
                           (series.build, {"require_tools": lambda: None, "build": lambda: ("rom", "library")}), (series.series, {"make_all": make_all})):
            patches.enter_context(mock.patch.multiple(where, **its))
        yield said


def of_the_table(tests):
    compare = command("compare")
    plan = plan_of("live")
    missed = Result(plan, "clean, yes", "completed", is_cut_missed=True)
    tests.wants("one that a cut was planned for, and not reached", (missed.in_a_word, missed.is_clean), ("cut not reached", True))
    ended = Result(plan, "clean, yes", "target ENDED; 1 cut not reached; target: load of migration failed", is_cut_missed=True)
    tests.wants("one that ended behind its first cut, in front of the second", ended.in_a_word, "target ended while it loaded")
    results = [Result(plan, "clean, yes", "completed"), Result(plan, "clean, yes", "completed", restart="both ran: ..", version="10.0.13"),
               Result(plan, "clean, yes", "source failed, target HANGS", restart="returned: .."),
               Result(plan, "faulty line 7 early", "completed"), Result(plan, "not judged: the guest's bytes c2 are no event", "ended"),
               Result(plan, "not judged: there was no post-copy: ..", "completed"),
               Result(plan, "clean, yes", "source postcopy-paused, target ENDED; target: load of migration failed")]
    tests.wants("what became of each, in a word", [result.in_a_word for result in results],
                ["clean", "both ran", "returned and target hangs", "`early`", "lost stack", "no post-copy", "target ended while it loaded"])
    old, new = Result(plan, "", ""), Result(plan, "", "")
    old.path, old.version_text, new.path, new.version_text = "/old", "7.2.22", "/new", "10.0.13"
    found = {("live", "/old"): "it lacks something", ("live", "/new"): [results[0], results[1], results[0]]}
    tests.wants("the table", compare.table(["live"], [old, new], found), [["", "7.2.22", "10.0.13"], ["none", "not there", "2 clean, 1 both ran"]])


def of_comparisons(tests, room):
    """Each migration has a folder of its own, also where two QEMUs are of one version; and where no QEMU can make any case, nothing was compared."""
    compare, made = command("compare"), []

    def make_all(todo, jobs):
        made.extend(os.path.basename(folder) for _, folder, _ in todo)
        return [Result(plan, "clean, yes", "completed") for plan, _, _ in todo]

    words = ["compare", "one", "other", "one", "--case", "live", "--runs", "2", "--folder", f"{room}/compared"]
    for lacks, wanted in (("", (0, ["live-10.0.13-0", "live-10.0.13-1", "live-10.0.13-by-1-0", "live-10.0.13-by-1-1"])), ("no userfaultfd", (3, []))):
        made.clear()
        with made_up(compare, words, make_all, lacks=lambda *_, lacks=lacks: lacks):
            tests.wants(f"the status and the folders where QEMU lacks '{lacks}'", (compare.main(), made), wanted)


def of_builds(tests, room):
    """Where a case changes in a list of builds, and how few of them are asked."""
    compare = command("compare")
    for clean in ([True] * 5 + [False] * 12, [False] * 16 + [True], [True, False]):
        asked = []
        found = compare.change(list(range(len(clean))), lambda one, clean=clean, asked=asked: asked.append(one) or clean[one])
        at = clean.index(not clean[0])
        tests.wants(f"the change at {at} of {len(clean)}", found, (at - 1, at))
        tests.wants("each is asked once, and few are", (len(set(asked)), len(asked) <= 2 + (len(clean) - 2).bit_length()), (len(asked), True))
    tests.wants("where the ends are alike", compare.change([1, 2, 3], lambda one: one != 2), None)
    with open(f"{room}/builds", "w", encoding="ascii") as out:
        out.write("one\ntwo\n\nthree\nfour\n")

    def make_all(todo, jobs):
        return [Result(plan, "clean, yes" if path in first else "faulty line 7 read", "completed") for plan, _, (path, _) in todo]

    words = ["compare", "--builds", f"{room}/builds", "--case", "live", "--runs", "1", "--folder", f"{room}/bisected"]
    for first, lacks, wanted in ((("/one", "/two"), "", (1, "live changes between /two, clean, and /three, not clean")),
                                 (("/four",), "", (1, "live changes between /three, not clean, and /four, clean")),
                                 (("/one", "/two", "/three", "/four"), "", (0, "live is clean with the first and with the last")),
                                 ((), "", (1, "live is not clean with the first and with the last")), ((), "no userfaultfd", (3, "compare: no userfaultfd"))):
        with made_up(compare, words, make_all, lacks=lambda *_, lacks=lacks: lacks) as said:
            status = compare.main()
        tests.wants(f"what is told where {first} are clean", (status, (said.out.buffer.getvalue().decode() + said.err.getvalue()).splitlines()[-1]), wanted)
    for words, said in (([], "there are QEMUs, or --builds"), (["one", "--builds", "x"], "there are QEMUs, or --builds"), (["--builds", "x"], "and one --case")):
        done = subprocess.run([sys.executable, "-B", f"{QEMU}/compare", *words], capture_output=True, text=True)
        tests.wants(f"the words {words}", (done.returncode, said in done.stderr), (2, True))


def of_a_full_disk(tests, room):
    """A series that cannot write its results or its table names that file."""
    for name, words, file in (("campaign", ["1", "--no-axes", "--qemu", "one"], "results"), ("campaign", ["1", "--no-axes", "--qemu", "one"], "table"), ("compare", ["one", "--case", "live", "--runs", "1"], "table")):
        series, folder = command(name), f"{room}/{name}-{file}"

        def make_all(todo, *_, path=f"{folder}/{file}"):
            with contextlib.suppress(FileNotFoundError):
                os.unlink(path)
            os.symlink("/dev/full", path)
            return [Result(plan, "clean, yes", "completed") for plan in [plan_of("live")]]

        with made_up(series, [name, *words, "--folder", folder], make_all, **({"lacks": lambda *_: ""} if name == "compare" else {})) as said:
            status = series.folders.status_of(name, series.main)
        tests.wants(f"{name} without room for the {file}", (status, said.err.getvalue()), (3, f"{name}: {folder}/{file}: No space left on device\n"))


def of_what_was_found(tests, room):
    """The tables of campaigns: by version, from old to new, and of each kind; and where they stand in the page."""
    found = command("found")
    live, paused = plan_of("live"), plan_of("paused")
    ended = "source postcopy-paused, target ENDED; target: load of migration failed"
    made = [Result(live, "clean, yes", "completed", version="10.0.13", load=9.4), Result(live, "clean, yes", "completed", version="7.2.22", load=3.6),
            Result(paused, "clean, yes", ended, version="7.2.22", load=21.2), Result(live, "shape line 7 both", "failed", restart="both ran: ..", version="10.0.13"),
            Result(paused, "clean, yes", ended, version="7.2.22", load=5.0), Result(live, "not judged: the recorder ended with a word", "")]
    for name, some in (("one", made[:2]), ("other", made[2:])):
        os.makedirs(f"{room}/{name}")
        with open(f"{room}/{name}/results", "w", encoding="utf-8") as out:
            out.writelines(f"{result.to_text()}\n" for result in some)
    with open(f"{room}/one/results", "rb") as whole, open(f"{room}/cut", "wb") as out:
        out.write(whole.read()[:-5])
    os.makedirs(f"{room}/short")
    os.rename(f"{room}/cut", f"{room}/short/results")
    with open(f"{room}/other-form", "w", encoding="ascii") as out:
        out.write("{}\n")
    said = tests.refuses("another object", ValueError, lambda: lines_of(f"{room}/other-form", result_from_text, "result"))
    tests.wants("which line that is", said, f"{room}/other-form:1: this line is no result, or not whole")
    said = tests.refuses("results that are not whole", ValueError, lambda: of_campaign(f"{room}/short"))
    tests.wants("which line it is", said, f"{room}/short/results:2: this line is no result of a campaign, or not whole")
    tests.wants("what campaigns left", of_campaign(f"{room}/one") + of_campaign(f"{room}/other"), made)
    tests.wants("the tables", found.tables(made).splitlines(), [
        "6 migrations, 2 of them clean, at a load of 0 to 21; 1 were not recorded, and stand in no column:", "",
        "| What became of it | 7.2.22 | 10.0.13 |", "| --- | --- | --- |", "| clean | 1 | 1 |", "| target ended while it loaded | 2 | |",
        "| both ran | | 1 |", "| not judged | | |", "| in all | 3 | 2 |", "",
        "| Clean, of the kind | 7.2.22 | 10.0.13 |", "| --- | --- | --- |", "| `live` | 1 of 1 | 1 of 2 |", "| `paused` | 0 of 2 | |"])
    put = functools.partial(found_page.put, both=found.MARKS)
    page = f"before\n{found.BEGIN}old\n{found.END}after\n"
    tests.wants("the page", put(page, "new\n"), f"before\n{found.BEGIN}\nnew\n\n{found.END}after\n")
    tests.wants("and once more", put(put(page, "new\n"), "new\n"), put(page, "new\n"))
    tests.refuses("a page without their place", ValueError, lambda: put("before\n", "new\n"))


def run(tests):
    for of_them in (of_what_is_lacking, of_roots, of_no_roots, of_one_that_hangs, of_comparisons, of_builds, of_a_full_disk, of_what_was_found):
        with tempfile.TemporaryDirectory() as room:
            of_them(tests, room)
    of_the_table(tests)

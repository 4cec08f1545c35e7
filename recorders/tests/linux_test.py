"""Linux guests whose accesses were recorded: what the conversion rests on, each told wrong in a recording made by hand, and kept ones.

The recording made by hand has four pages. Page 0 was left at the target by pre-copy, page 1 is waited for, page 2 comes unasked, and
page 3 is of zeros.
"""
import hashlib
import os
import re
import shutil
import struct
import subprocess
import sys
import tempfile
from unittest import mock

import judge
import linux_cut
import linux_session
from convert import Recording
from kinds import Plan
from pack import unpack, unpacked
from stream import PAGE_BYTES
from versions_test import QEMU, read
from witness import pages_that_differ

TOP = os.path.dirname(os.path.dirname(QEMU))
RECORDINGS = f"{QEMU}/recordings/linux"
BASE = 0x100000
CELLS = 512
PAGES = 4
STACK, ENTRY, CODE, USED = 100, 7, 30, 9  # cells, of pages 0, 0, 2 and 1
COUNTS = {"records": 0, "accesses": 9, "implied": 0, "unseen": 0, "frames": 1, "frames_untold": 0, "parts_untold": 0, "unlocated": 0, "gates": 256, "misses": 1, "words": 0}


def place(page, cell):
    return page * CELLS + cell


def records(*told):
    """The bytes of records: the kind, the processor, the cell or page, and the value."""
    return b"".join(struct.pack("<QIBBH", value, where, ord(kind), vcpu, 0) for kind, vcpu, where, value in told)


class Memory:
    """A memory of the four pages, cell by cell."""

    def __init__(self, cells):
        self.cells = dict(cells)

    def with_cells(self, cells):
        return Memory({**self.cells, **cells})

    def bytes(self):
        return b"".join(self.cells.get(at, 0).to_bytes(8, "little") for at in range(PAGES * CELLS))

    def page(self, number):
        return self.bytes()[number * PAGE_BYTES:(number + 1) * PAGE_BYTES]


INIT = Memory({place(0, ENTRY): 0x1001, place(1, USED): 5, place(2, CODE): 0x9090, place(2, 0): 77})
# The guest counts in page 1, an interrupt pushes a frame in page 0, and the processor marks an entry of a page table.
SOURCE = (("w", 0, place(1, USED), 6), ("f", 0, place(0, STACK), 0x33), ("h", 63, 0, 0))
HALT = INIT.with_cells({place(1, USED): 6, place(0, STACK): 0x33, place(0, ENTRY): 0x1021})
# It goes on at the target: looks at page 0, waits for page 1, counts on, is interrupted, goes to the code of page 2.
TARGET = (
    ("p", 63, 0, 1), ("g", 63, 0, 0), ("s", 0, 0, 1), ("r", 0, place(0, STACK), 0x33), ("r", 0, place(0, ENTRY), 0x1021),
    ("q", 0, 1, 1), ("p", 63, 1, 2), ("s", 0, 1, 2), ("w", 0, place(1, USED), 7), ("f", 0, place(0, STACK), 0x34), ("r", 0, place(0, STACK), 0x34),
    ("p", 63, 2, 3), ("p", 63, 3, 4), ("s", 0, 2, 4), ("c", 0, place(2, CODE), 0x9090), ("m", 0, place(0, ENTRY), 0x1061), ("h", 63, 0, 0))
END = HALT.with_cells({place(1, USED): 7, place(0, STACK): 0x34, place(0, ENTRY): 0x1061})
LOG = """open 0 main new
down 0 page pre pc.ram {0} 0 0
down 0 discard pc.ram {1} 12288
down 0 state 100
up 0 request pc.ram {1} 4096
down 0 page post pc.ram {1} 1 1
down 0 page post pc.ram {2} 2 2
down 0 page post pc.ram {3} zero zero
up 0 shut 0
"""
SOURCE_RAW = """vm_state_notify running 0 reason 7 (finish-migrate)
migrate_handle_rp_req_pages in pc.ram at 0x101000 len 0x1000
ram_save_page pc.ram: offset: 0x101000 host: 0x7f0000000000
ram_save_page pc.ram: offset: 0x102000 host: 0x7f0000000000
source_return_path_thread_shut 0
"""
TARGET_RAW = """loadvm_handle_cmd_packaged_received 0
uffd guard 7f0000000000 8000000
uffd have 0 0
loadvm_postcopy_handle_listen after uffd
vm_state_notify running 1 reason 9 (running)
uffd fault 1 99
uffd miss 1
migrate_send_rp_message 3: len 12
ram_load_postcopy_loop chan=0 addr=0x101000 flags=0x8
uffd place 1 1
ram_load_postcopy_loop chan=0 addr=0x102000 flags=0x8
uffd place 2 2
ram_load_postcopy_loop chan=0 addr=0x103000 flags=0x2
uffd zero 3
migrate_send_rp_message 1: len 4
"""
UNPLACED = TARGET_RAW.replace("ram_load_postcopy_loop chan=0 addr=0x102000 flags=0x8\nuffd place 2 2\n", "")


def without(told, *wrong):
    return tuple(one for one in told if one not in wrong)


def made(source=SOURCE, target=TARGET, halt=HALT, end=END, target_raw=TARGET_RAW, log=LOG, counts=None, placed=HALT):
    """The files of the recording, with what is told otherwise."""
    sides = {"source": source, "target": target}
    return {
        "plan.json": Plan(kind="linux", pages=PAGES, words=CELLS, base=BASE).to_text().encode(),
        "relay.log": log.format(*(BASE + page * PAGE_BYTES for page in range(PAGES))).encode(),
        "relay.pages": HALT.page(0) + HALT.page(1) + HALT.page(2), "target.pages": placed.page(0) + placed.page(1) + placed.page(2),
        "source.raw": SOURCE_RAW.encode(), "target.raw": target_raw.encode(),
        "init.mem": INIT.bytes(), "halt.mem": halt.bytes(), **({"end.mem": end.bytes()} if end else {}),
        **{f"{side}.accesses": records(*told) for side, told in sides.items()},
        **{f"{side}.counts": "".join(f"{name} {count}\n" for name, count in {**COUNTS, "records": len(told), **(counts or {}).get(side, {})}.items()).encode()
           for side, told in sides.items()}}


def write(files, folder):
    os.makedirs(folder, exist_ok=True)
    for name, data in files.items():
        with open(f"{folder}/{name}", "wb") as out:
            out.write(data)


def verdict_of(files, ended=""):
    with tempfile.TemporaryDirectory() as folder:
        write(files, folder)
        return linux_session.judged(folder, ended)[0].line


def reason_of(files):
    return judge.Verdict(verdict_of(files)).reason


def of_one_by_hand(tests):
    """The session of the recording made by hand, line by line."""
    with tempfile.TemporaryDirectory() as folder:
        write(made(), folder)
        verdict, found = linux_session.judged(folder)
        with open(f"{folder}/session", encoding="ascii") as file:
            lines = [re.sub("0{100,}", "0..", line) for line in file.read().splitlines()]
        left = sorted(set(os.listdir(folder)) & {"guest.lines", "self-test", "report", "certificate"})
    cells = {page: re.sub("0{100,}", "0..", "".join(f"{HALT.cells.get(place(page, cell), 0):016x}" for cell in range(CELLS))) for page in range(PAGES)}
    began = {page: re.sub("0{100,}", "0..", "".join(f"{INIT.cells.get(place(page, cell), 0):016x}" for cell in range(CELLS))) for page in range(PAGES)}
    tests.wants("the session", lines, [
        "postcopy-session 3", "pages 4", "cells 512", "init 3", *(f"page {page} {began[page]}" for page in (0, 1, 2)),
        "guest 16", "w 0 1 9 6", "w 0 0 100 51", "w 63 0 7 4129", "halt", "resume 1", "see 3", "r 0 0 100 51", "r 0 0 7 4129", "miss 0 1", "see 7",
        "w 0 1 9 7", "w 0 0 100 52", "r 0 0 100 52", "see 11", "r 0 2 30 37008", "w 63 0 7 4193",
        "source 9", "halted 3", "state", f"send 0 {cells[0]}", "ask 2", *(f"send {page} {cells[page]}" for page in (1, 2, 3)), "ask 6", "done",
        "link 7", "down 1", "down 2", "up 5", "down 4", "down 5", "down 6", "up 12", "lane 0",
        "pager 13", "got 0", "ready", "got 1", f"place 0 2 {cells[0]}", "fault 8", "want 1", "got 3", f"place 1 6 {cells[1]}", "got 4",
        f"place 2 8 {cells[2]}", "got 5", f"place 3 10 {cells[3]}", "all", "end"])
    tests.wants("its verdict", verdict.line, "clean, yes")
    tests.wants("what is left of it", left, ["certificate", "report", "self-test"])
    tests.wants("the self-test", (list(found.faults()), found.counts["log"]["halt-marks"], found.counts["log"]["end-marks"]), ([], 1, 0))


def of_facts(tests):
    """Each fact that a session of a Linux guest rests on, told wrong or left out; and what comes of it."""
    code, mark, frame, wrote = TARGET[14], TARGET[15], TARGET[9], TARGET[8]
    marked = ("r", 0, place(0, ENTRY), 0x1061)
    behind = tuple(one for one in TARGET if one[:3] != ("s", 0, 1))
    behind = behind[:behind.index(wrote) + 1] + (("s", 0, 1, 2),) + behind[behind.index(wrote) + 1:]
    for what, files, wanted in (
            ("a frame that an interrupt pushed at the target, of which the stack is read", made(target=without(TARGET, frame), end=None), "not judged"),
            ("a mark of a page table that is read", made(target=(*without(TARGET, TARGET[-1]), marked, TARGET[-1])), "clean, yes"),
            ("the same, where nobody told the mark", made(target=(*without(TARGET, mark, TARGET[-1]), marked, TARGET[-1])), "faulty read"),
            ("code that is fetched before its page is in place", made(target=(*TARGET[:5], code, *without(TARGET[5:], code))), "faulty early"),
            ("the same, where the fetch is not told", made(target=without(TARGET, code)), "clean, yes"),
            ("a look that is told behind the access", made(target=behind), "faulty early"),
            ("a page whose contents were changed on the way", made(placed=HALT.with_cells({place(2, 0): 76}), end=END.with_cells({place(2, 0): 76})), "faulty altered"),
            ("a page that was left at the target and is old", made(placed=HALT.with_cells({place(0, STACK): 0}), target=without(TARGET, TARGET[3])), "faulty altered")):
        tests.wants(f"told: {what}", reason_of(files), wanted)


def of_a_page_that_is_given_up(tests):
    """A page that was there when memory was guarded, and that the target shall forget, is no placement of the session."""
    later = {value: value + 1 for value in (2, 3, 4)}
    target = (TARGET[0], ("p", 63, 3, 2), *((kind, vcpu, where, later.get(value, value) if kind in "sp" else value) for kind, vcpu, where, value in TARGET[1:]))
    seen = tuple(("s", 0, 0, 2) if one == ("s", 0, 0, 1) else one for one in target)
    have = TARGET_RAW.replace("uffd have 0 0\n", "uffd have 0 0\nuffd have 3 0\n")
    with tempfile.TemporaryDirectory() as folder:
        write(made(target=seen, target_raw=have), folder)
        verdict, _ = linux_session.judged(folder)
        with open(f"{folder}/session", encoding="ascii") as file:
            looks = [line for line in file if line.startswith("see ")]
    tests.wants("a look that showed it shows what came before it", (verdict.line, looks), ("clean, yes", ["see 3\n", "see 7\n", "see 11\n"]))


def of_the_page_that_is_shown(tests):
    """One page is explained and drawn: the first that has a fault, or else the first that the guest waited for."""
    wrong = {"placed": HALT.with_cells({place(2, 0): 76}), "end": END.with_cells({place(2, 0): 76})}
    for what, files, page, first in (("clean", made(), 1, "clean"), ("faulty", made(**wrong), 2, "faulty")):
        with tempfile.TemporaryDirectory() as folder:
            write(files, folder)
            verdict, _ = linux_session.judged(folder)
            words, shown = linux_session.explain_and_draw(folder, verdict.is_clean)
            tests.wants(f"the page that is shown of one that is {what}", (shown, words.split()[0], read(f"{folder}/explained") == words, read(f"{folder}/picture.svg")[:4]),
                        (page, first, True, "<svg"))
            os.remove(f"{folder}/picture.svg")
            with mock.patch.dict(os.environ, POSTCOPY=program_without(folder, "draw")):
                tests.wants(f"no page is shown of one that is {what}, where the program cannot draw", (linux_session.explain_and_draw(folder, verdict.is_clean),
                            os.path.exists(f"{folder}/picture.svg")), (None, False))


def program_without(folder, command):
    """A program that is out of memory at a command, and otherwise the one that the variable POSTCOPY names."""
    with open(f"{folder}/program", "w", encoding="utf-8") as file:
        file.write(f"#!/bin/sh\n[ \"$1\" != {command} ] || exit 4\nexec {judge.program()} \"$@\"\n")
    os.chmod(file.name, 0o755)
    return file.name


def of_a_page_that_never_came(tests):
    """All memory is read at the end: so a page that nobody placed and nobody used is found where it is not what it should be."""
    target = tuple((kind, vcpu, where, 3 if value == 4 else value) for kind, vcpu, where, value in without(TARGET, TARGET[11], TARGET[14]))
    log = LOG.replace("down 0 page post pc.ram {2} 2 2\n", "lost 0 page post pc.ram {2} 2 2\n")
    lost = END.with_cells({place(2, CODE): 0, place(2, 0): 0})
    tests.wants("a page that never came", reason_of(made(target=target, target_raw=UNPLACED, log=log, end=lost)), "faulty read")
    tests.wants("where the memory is as it should be all the same", reason_of(made(target=target, target_raw=UNPLACED, log=log, end=END)), "not judged")
    kept = made(target=target, target_raw=UNPLACED, log=log.replace("{2} 2 2", "{2} zero zero"), end=lost, halt=HALT.with_cells({place(2, CODE): 0, place(2, 0): 0}),
                source=(*SOURCE[:2], ("w", 0, place(2, CODE), 0), ("w", 0, place(2, 0), 0), SOURCE[2]))
    tests.wants("and one of zeros", reason_of(kept).split()[0], "incomplete")


def of_a_page_that_was_kept(tests):
    """A page that the target was to forget, and that is there with what pre-copy sent; its newer contents never come, and nobody uses it."""
    target = (TARGET[0], ("p", 63, 2, 2), *((kind, vcpu, where, {2: 3, 3: 3, 4: 4}.get(value, value) if kind in "sp" else value)
                                            for kind, vcpu, where, value in without(TARGET[1:], TARGET[11], TARGET[14])))
    have = UNPLACED.replace("uffd have 0 0\n", "uffd have 0 0\nuffd have 2 2\n")
    log = LOG.replace("down 0 page post pc.ram {2} 2 2\n", "lost 0 page post pc.ram {2} 2 2\n")
    old = {place(2, 0): 76}
    told = {"target": target, "target_raw": have, "log": log}
    tests.wants("an old page that nobody uses", reason_of(made(**told, placed=HALT.with_cells(old), end=END.with_cells(old))), "faulty read")
    tests.wants("one that is as it should be", reason_of(made(**told)).split()[0], "incomplete")


def of_the_self_test(tests):
    """No verdict where the recorder did not record all, or where the migration did not come to its end."""
    at_halt = "not judged: the source's memory at the halt is not what was recorded, in 1 cells: page 0 cell 100, recorded 0 and found 0x33"
    at_end = "not judged: the target's memory at the end is not what was recorded, in 1 cells: page 1 cell 9, recorded 0x6 and found 0x7"
    for what, files, wanted in (
            ("a frame at the source that is not told", made(source=without(SOURCE, SOURCE[1])), at_halt),
            ("a write at the target that is not told", made(target=without(TARGET, TARGET[8])), at_end),
            ("a change of a page table that is no mark", made(halt=HALT.with_cells({place(0, ENTRY): 0x1023}), placed=HALT),
             "not judged: the source's memory at the halt is not what was recorded, in 1 cells: page 0 cell 7, recorded 0x1001 and found 0x1023"),
            ("marks in a cell that is no entry of a page table", made(halt=HALT.with_cells({place(0, 1): 0x60}), placed=HALT),
             "not judged: the source's memory at the halt is not what was recorded, in 1 cells: page 0 cell 1, recorded 0 and found 0x60"),
            ("a change that nobody told", made(source=(("u", 0, 3, 4), *SOURCE)), "not judged: the guest's log: unseen 1"),
            ("a write behind the halt", made(source=(*SOURCE, ("w", 0, 3, 0))), "not judged: the guest's log: behind 1"),
            ("no memory of the end", made(end=None), "not judged: the target's memory at the end was not kept"),
            ("frames that were not found", made(counts={"target": {"frames_untold": 2}}), "not judged: target: frames untold 2"),
            ("parts of accesses", made(counts={"source": {"parts_untold": 1}}), "not judged: source: parts untold 1"),
            ("accesses of which QEMU does not say where they were", made(counts={"target": {"unlocated": 3}}), "not judged: target: unlocated 3"),
            ("a guest that never went on", made(counts={"target": {"accesses": 0}}), "not judged: target: the guest made no access"),
            ("gates that are not known", made(counts={"target": {"gates": 0}}), "not judged: target: 0 of the guest's 256 interrupt gates are known"),
            ("records that were lost", made(counts={"source": {"records": 9}}), "not judged: source: of 9 records 3 were kept"),
            ("a source that was never halted", made(source=SOURCE[:2]), "not judged: the guest's log: source.accesses: the guest was never halted"),
            ("bytes that are no record", made(source=(("x", 0, 0, 0), *SOURCE)), "not judged: the guest's log: source.accesses: record 0 is none")):
        tests.wants(f"the self-test: {what}", verdict_of(files), wanted)
    with tempfile.TemporaryDirectory() as room:
        with open(f"{room}/guest_log", "w", encoding="ascii") as out:
            out.write("#!/bin/sh\necho halt 3\nkill -9 $$\n")
        os.chmod(out.name, 0o755)
        with mock.patch.object(linux_session.build, "build_guest_log", lambda: out.name):
            tests.wants("a program that is killed while it makes the guest's log", verdict_of(made()),
                        "not judged: the guest's log: the program that makes it ended with the status -9")
    tests.wants("a migration that did not end", verdict_of(made(), "source failed, target ENDED"),
                "not judged: the migration did not come to its end: source failed, target ENDED")
    tests.wants("one of which there is no session either", verdict_of({**made(), "source.accesses": b"", "target.raw": b""}, "source failed, target ENDED"),
                "not judged: the migration did not come to its end: source failed, target ENDED")


def kept():
    """The kept recordings: the name, the hash of the session and its verdict."""
    with open(f"{RECORDINGS}/expected", encoding="ascii") as lines:
        return [line.rstrip("\n").split(" ", 2) for line in lines]


def changed(data, change):
    """The bytes of records, each as `change` answers it, or None to leave it out."""
    told = (change((chr(kind), vcpu, where, value)) for value, where, kind, vcpu, _ in struct.iter_unpack("<QIBBH", data))
    return records(*filter(None, told))


def of_recordings(tests):
    """Windows of migrations of Debian's kernel. The hash is that of the window of the whole session, as the program cut it."""
    for name, digest, wanted in kept():
        with tempfile.TemporaryDirectory() as folder:
            unpack(f"{RECORDINGS}/{name}.tar.xz", folder)
            verdict, _ = linux_session.judged(folder)
            with open(f"{folder}/session", "rb") as file:
                tests.wants(f"the session of {name}, byte for byte", hashlib.sha256(file.read()).hexdigest(), digest)
            tests.wants(f"the verdict of {name}", verdict.line, wanted)


def of_accesses_that_are_nowhere(tests):
    """A real recording in which QEMU did not say of each access where it was."""
    with tempfile.TemporaryDirectory() as folder:
        unpack(f"{RECORDINGS}/frames.tar.xz", folder)
        with open(f"{folder}/target.counts", "a", encoding="ascii") as out:
            out.write("unlocated 1\n")
        tests.wants("a recording that lacks an access", linux_session.judged(folder)[0].line, "not judged: target: unlocated 1")


def of_the_example(tests):
    """The example is the kept recording's session; the words and the picture are the program's; and the witness finds the page too."""
    example = f"{TOP}/examples/linux-lost-write"
    with open(f"{example}/session", "rb") as file:
        digest = hashlib.sha256(file.read()).hexdigest()
    tests.wants("the session of examples/linux-lost-write", [digest], [wanted for name, wanted, _ in kept() if name == "lost-write"])
    tests.wants("its picture", judge.ask(example, "draw", "session")[0] == read(f"{example}/picture.svg"), True)
    lost = {name: pages_that_differ(Recording(unpacked(f"{RECORDINGS}/{name}.tar.xz").__getitem__))[0] for name, _, _ in kept()}
    tests.wants("pages that differ from the source's memory at the halt", {name: pages for name, pages in lost.items() if pages}, {"lost-write": [0], "11.1-lost-write": [0]})


def of_a_cut(tests):
    """A recording of which some pages are cut has the session of their window."""
    with tempfile.TemporaryDirectory() as folder:
        write(made(), folder)
        linux_session.judged(folder)
        for first, count in ((0, 4), (0, 1), (1, 2), (2, 2), (3, 1)):
            window, _ = judge.ask(folder, "window", "session", str(first), str(count))
            out = f"{folder}/{first}-{count}"
            linux_cut.Cut(folder, first, count, out).make()
            verdict, _ = linux_session.judged(out)
            with open(f"{out}/session", encoding="ascii") as file:
                tests.wants(f"{count} pages from {first} on", (file.read() == window, verdict.line), (True, "clean, yes"))


def of_counts_that_end_early(tests):
    """What the recorder counted of its own work is missing, as after a full disk: nothing is judged."""
    for side in ("source", "target"):
        whole = made()[f"{side}.counts"]
        for left in (0, whole.index(b"gates"), whole.index(b"misses"), len(whole) - 1):
            tests.wants(f"{left} bytes of {side}.counts", verdict_of({**made(), f"{side}.counts": whole[:left]}), f"not judged: {side}.counts ends early")


def of_what_is_not_cut(tests):
    """A recording is cut into no folder that has one, as its own, and not where a file ends early or a page is none."""
    with tempfile.TemporaryDirectory() as folder:
        write(made(), f"{folder}/whole")
        write({**made(), "relay.pages": made()["relay.pages"][:-1]}, f"{folder}/early")
        def has():
            found = {}
            for name in os.listdir(f"{folder}/whole"):
                with open(f"{folder}/whole/{name}", "rb") as file:
                    found[name] = file.read()
            return found

        before = has()
        pages = len(before["relay.pages"]) // PAGE_BYTES
        for words, status, said in ((("whole", "0", "2", "whole"), 1, "linux_cut.py: whole/plan.json: it is there already, and is a file of a recording\n"),
                                    (("whole", "0", "2", "early"), 1, "linux_cut.py: early/plan.json: it is there already, and is a file of a recording\n"),
                                    (("early", "0", "4", "out"), 1, f"linux_cut.py: early/relay.pages ends before page {pages - 1}\n"),
                                    (("whole", "3", "2", "other"), 1, "linux_cut.py: whole has 4 pages, from 0 on\n"),
                                    (("none", "0", "1", "other"), 1, "linux_cut.py: none/plan.json: No such file or directory\n"),
                                    (("whole", "-1", "2", "other"), 2, ""), (("whole", "0", "0", "other"), 2, "")):
            done = subprocess.run([sys.executable, "-B", linux_cut.__file__, *words], cwd=folder, capture_output=True, text=True)
            tests.wants(f"linux_cut.py {' '.join(words)}", (done.returncode, done.stdout, done.stderr if said else ""), (status, "", said))
        tests.wants("the recording stays", (has() == before, os.path.exists(f"{folder}/other")), (True, False))


def of_frames_that_are_missing(tests):
    """A real recording without what interrupts pushed: memory at the halt is not what is told."""
    with tempfile.TemporaryDirectory() as folder:
        unpack(f"{RECORDINGS}/frames.tar.xz", folder)
        for side in ("source", "target"):
            with open(f"{folder}/{side}.accesses", "rb") as file:
                data = file.read()
            left = changed(data, lambda record: None if record[0] == "f" else record)
            tests.wants(f"{side}: there are frames", len(left) < len(data), True)
            with open(f"{folder}/{side}.accesses", "wb") as out:
                out.write(left)
            with open(f"{folder}/{side}.counts", "a", encoding="ascii") as out:
                out.write(f"records {len(left) // 16}\n")
        verdict, found = linux_session.judged(folder)
        tests.wants("there is no verdict", verdict.line.startswith("not judged: the source's memory at the halt is not what was recorded"), True)


def run(tests):
    if not shutil.which("gcc"):
        tests.leave_out("recordings of Linux guests: there is no gcc, which builds the program that makes the guest's log")
        return
    of_one_by_hand(tests)
    of_recordings(tests)
    of_accesses_that_are_nowhere(tests)
    of_the_example(tests)
    of_a_cut(tests)
    of_counts_that_end_early(tests)
    of_what_is_not_cut(tests)
    of_frames_that_are_missing(tests)
    of_facts(tests)
    of_a_page_that_is_given_up(tests)
    of_the_page_that_is_shown(tests)
    of_a_page_that_never_came(tests)
    of_a_page_that_was_kept(tests)
    of_the_self_test(tests)

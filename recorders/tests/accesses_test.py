"""The recorder of a guest's accesses, without QEMU: it is linked with a program that stands for one, and does what it is told."""
import os
import shutil
import struct
import subprocess
import tempfile

import build

HERE = os.path.dirname(os.path.abspath(__file__))
PAGE, PAGES = 4096, 4
GATE, GATE_WITH_CODE = 0x100000, 0x100010
NOWHERE = 1 << 32
GATES = f"{GATE:x} 5\n{GATE_WITH_CODE:x} 6\n" + "".join(f"{0x200000 + number:x} 5\n" for number in range(254))


def host(room):
    """The program, built in a folder."""
    path = f"{room}/host"
    build.run("gcc", "-O2", "-Wall", "-Wextra", "-DINTERFACE=1", f"-I{build.HERE}", "-o", path, f"{HERE}/plugin_host.c",
              f"{build.HERE}/accesses.c", f"{build.HERE}/preload.c", "-ldl", "-lpthread")
    return path


def told(program, lines, is_target=False, gates=GATES):
    """What is recorded where the host does this: the records, without the source's start, and the counts."""
    with tempfile.TemporaryDirectory() as room:
        os.mkfifo(f"{room}/pipe")
        pipe = os.open(f"{room}/pipe", os.O_RDONLY | os.O_NONBLOCK)
        with open(f"{room}/gates", "w", encoding="ascii") as out:
            out.write(gates)
        at_source = {} if is_target else {"RECORD_START": f"{room}/start", "RECORD_INIT": f"{room}/init"}
        environment = dict(os.environ, RECORD_PIPE=f"{room}/pipe", RECORD_CONTENTS=f"{room}/pages", RECORD_ACCESSES=f"{room}/accesses",
                           RECORD_GATES=f"{room}/gates", RECORD_COUNTS=f"{room}/counts", RECORD_RAM=str(PAGES * PAGE), RECORD_BASE="0",
                           RECORD_PAGES=str(PAGES), **at_source)
        subprocess.run([program], input="".join(f"{line}\n" for line in lines), text=True, env=environment, check=True, timeout=60)
        os.close(pipe)
        with open(f"{room}/accesses", "rb") as file:
            records = [(chr(kind), vcpu, place, value) for value, place, kind, vcpu, _ in struct.iter_unpack("<QIBBH", file.read())]
        with open(f"{room}/counts", encoding="ascii") as file:
            return records, {name: int(count) for name, count in map(str.split, file)}


def of_the_source(tests, program):
    def source(*lines):
        return told(program, ("block 0 0x1000 0", *lines))

    records, counts = source("store 0 0x1008 8 7", "load 0 0x1008 8", "store 0 0x1008 8 7", "store 1 0x100a 2 0x0102", "store 0 0x1014 8 0x500000003")
    tests.wants("stores, each with all of its cell, and what they say already is left out", records,
                [("w", 0, 513, 7), ("w", 1, 513, 0x01020007), ("w", 0, 514, 3 << 32), ("w", 0, 515, 5)])
    tests.wants("what is counted", (counts["accesses"], counts["implied"], counts["unseen"], counts["records"], counts["gates"]), (5, 2, 0, 4, 256))
    records, counts = source("poke 0x1008 9", "load 0 0x1008 8")
    tests.wants("a change that nobody told", (records, counts["unseen"]), ([("u", 0, 513, 9)], 1))
    records, counts = source("poke 0x1008 0x500", "store 0 0x1008 1 1")
    tests.wants("one of the bytes that a store leaves alone", (records, counts["unseen"]), ([("u", 0, 513, 0x500), ("w", 0, 513, 0x501)], 1))
    marked = ("store 0 0x1008 8 0x7001", "poke 0x1008 0x7061", "load 0 0x1008 8")
    tests.wants("marks of a page table", (source(*marked)[0], source(*marked)[1]["unseen"]), ([("w", 0, 513, 0x7001), ("m", 0, 513, 0x7061)], 0))
    for what, was, now in (("a mark that is taken away", "0x7061", "0x7001"), ("another bit", "0x7001", "0x7003"), ("an entry that is none", "0x7000", "0x7060")):
        tests.wants(f"no mark: {what}", source(f"store 0 0x1008 8 {was}", f"poke 0x1008 {now}", "load 0 0x1008 8")[1]["unseen"], 1)
    records, counts = source("store 0 0x1ffc 8 0x600000002")
    tests.wants("an access to two pages", records, [("w", 0, 1023, 2 << 32), ("w", 0, 1024, 6)])
    records, counts = source("load 0 0x10000000000 8")
    tests.wants("one of which QEMU does not say where it was", (records, counts["accesses"], counts["unlocated"]), ([], 1, 1))
    tests.wants("one whose second page is nowhere", source(f"store 0 {PAGES * PAGE - 4:#x} 8 1")[1]["parts_untold"], 1)


def of_frames(tests, program):
    pushed = [f"poke {0x2000 + 8 * place:#x} {place + 1}" for place in range(6)]
    load = "load 0 0x2000 8"
    records, counts = told(program, [*pushed, f"block 0 {GATE:#x} 0x2000", load])
    tests.wants("a frame", (records, counts["frames"], counts["unseen"]), ([("f", 0, 1024 + place, place + 1) for place in range(5)], 1, 0))
    tests.wants("one with an error's code", len(told(program, [*pushed, f"block 1 {GATE_WITH_CODE:#x} 0x2000"])[0]), 6)
    records, counts = told(program, [*pushed, "block 0 0x1000 0x2000", load])
    tests.wants("without it the frame is a change that nobody told", (records, counts["unseen"]), ([("u", 0, 1024, 1)], 1))
    records, counts = told(program, [*pushed, f"block 0 {GATE:#x} 0x2000", load], gates="")
    tests.wants("and so where no gate is known", (records, counts["gates"]), ([("u", 0, 1024, 1)], 0))
    tests.wants("a frame that is nowhere", told(program, [f"block 0 {GATE:#x} {NOWHERE:#x}"])[1]["frames_untold"], 5)
    records, counts = told(program, ["block 0 0x1000 0", *pushed, f"stop 0 {GATE:#x} 0x2000"])
    tests.wants("a halt between the push and the block", (records[:-1], records[-1][0], counts["frames_at_halt"]),
                ([("f", 0, 1024 + place, place + 1) for place in range(5)], "h", 1))
    tests.wants("a halt elsewhere", told(program, ["block 0 0x1000 0", *pushed, "stop 0 0x1000 0x2000"])[0], [("h", 63, 0, 0)])


def of_the_target(tests, program):
    def target(*lines):
        return told(program, lines, is_target=True)

    records, counts = target("page 1", "block 0 0x1000 0", "load 0 0x1008 8", "load 0 0x1008 8", "load 0 0x1010 8")
    tests.wants("a look stands in front of the first access, and each cell's first one is told", records,
                [("p", 63, 1, 1), ("s", 0, 1, 1), ("r", 0, 513, 0), ("r", 0, 514, 0)])
    tests.wants("it was no word of the kernel", counts["words"], 0)
    records, _ = target("page 1", "page 2", "block 0 0x1000 0", "load 0 0x1008 8", "load 0 0x2008 8")
    tests.wants("a look shows all that was placed", [record for record in records if record[0] == "s"], [("s", 0, 1, 2)])
    records, counts = target("page 1", "block 0 0x1000 0", "page 2", "load 0 0x2008 8", "page 3", "block 0 0x1000 0", "load 0 0x3008 8")
    tests.wants("a page that comes within the block is the kernel's word, and the next block's is none", (records[2:4], records[5:], counts["words"]),
                ([("s", 0, 2, 2), ("r", 0, 1025, 0)], [("s", 0, 3, 3), ("r", 0, 1537, 0)], 1))
    records, counts = target("block 0 0x1000 0", "load 0 0x1008 8")
    tests.wants("an access to a page that nobody placed has no look", (records, counts["unplaced"]), ([("r", 0, 513, 0)], 1))
    records, _ = target("page 1", "block 0 0x1000 0", "poke 0x1008 9", "load 0 0x1008 8", "store 0 0x1010 1 1", "poke 0x1010 0x201", "store 0 0x1010 1 2")
    tests.wants("what is not as it was placed is read so, also of the bytes that a store leaves alone", records[2:],
                [("r", 0, 513, 9), ("w", 0, 514, 1), ("r", 0, 514, 0x201), ("w", 0, 514, 0x202)])
    records, _ = target("page 1", "block 0 0x1000 0", "poke 0x1008 1", "page 1", "poke 0x1008 0x21", "load 0 0x1008 8")
    tests.wants("a mark on what was placed, and the first read", records[-2:], [("m", 0, 513, 0x21), ("r", 0, 513, 0x21)])
    records, _ = target("page 1", "block 0 0x1000 0", "code 0 0x100c 0f05c3aabbcc", "load 0 0x1008 8", "code 0 0x100c 0f05c3aabbcc")
    tests.wants("code that is translated is read, once", records[1:],
                [("s", 0, 1, 1), ("c", 0, 513, 0xaac3050f << 32), ("c", 0, 514, 0xccbb), ("r", 0, 513, 0), ("c", 0, 513, 0xaac3050f << 32)])


def of_waits(tests, program):
    def target(*lines):
        return told(program, lines, is_target=True)

    first = ("page 1", "block 0 0x1000 0")
    records, counts = target(*first, "fault 2", "page 2", "block 0 0x1000 0")
    tests.wants("a wait for a page", (records[1:], counts["misses"], counts["went_on"]), ([("q", 0, 2, 1), ("p", 63, 2, 2)], 1, 0))
    records, counts = target(*first, "fault 2", "block 0 0x1000 0")
    tests.wants("a thread that goes on, and nobody placed the page", (records[1:], counts["went_on"]), ([("q", 0, 2, 1), ("r", 0, 1024, 0)], 1))
    records, counts = target(*first, "fault 2", "fault 3")
    tests.wants("or waits for another one", (records[1:], counts["went_on"]), ([("q", 0, 2, 1), ("r", 0, 1024, 0), ("q", 0, 3, 2)], 1))
    records, counts = target(*first, "fault 2", "fault 2")
    tests.wants("or for the same", (records[1:], counts["went_on"]), ([("q", 0, 2, 1), ("q", 0, 2, 2)], 0))
    records, counts = target("fault 2", "block 0 0x1000 0")
    tests.wants("a thread that had run nothing has no miss; that it goes on is told", (records, counts["misses"], counts["misses_before_first"]),
                ([("r", 0, 1024, 0)], 0, 1))
    records, _ = target(*first, "stop 0 0x1000 0", "go", "block 0 0x1000 0")
    tests.wants("the machine stands still and goes on", [record[0] for record in records], ["p", "h", "g"])


def run(tests):
    if not shutil.which("gcc") or os.uname().machine != "x86_64":
        tests.leave_out("the recorder of accesses: it is built by gcc for x86-64")
        return
    with tempfile.TemporaryDirectory() as room:
        program = host(room)
        for of_them in (of_the_source, of_frames, of_the_target, of_waits):
            of_them(tests, program)
    tests.wants("it is built for each interface that is known", [os.path.exists(build.build_recorder(interface)) for interface in (1, 4, 7)], [True] * 3)

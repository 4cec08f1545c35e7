"""The guests that bench/prepaging moves: scripts by pages, some made here by a rule, and some of recorded programs."""
import lzma
import os
import random
from collections import namedtuple
from fractions import Fraction

from texts import page_lines, script_text

HERE = os.path.dirname(os.path.abspath(__file__))
PAGES, USED, EACH = 2048, 800, 4

# What a guest is, its text, and the microseconds that it works between two operations.
Guest = namedtuple("Guest", "name what text work")


def made(name, what, pages_in_order, work=10):
    """A guest that reads or writes each of these pages so often, one after another."""
    chance = random.Random(1)
    operations = []
    for page in pages_in_order:
        operations += [f"r {page} 0" if chance.randrange(3) else f"w {page} 0 {len(operations) + 1}"]
    init = page_lines([[page + 1] for page in range(PAGES)])
    return Guest(name, what, script_text(PAGES, 1, init, [([], operations)]), work)


def several(pages, times=EACH):
    return [page for page in pages for _ in range(times)]


def hot(chance):
    """Nine of ten accesses go to a tenth of the pages, the others anywhere."""
    pages = chance.sample(range(PAGES), USED)
    few = pages[:USED // 10]
    return [chance.choice(few) if chance.randrange(10) else chance.choice(pages) for _ in range(USED * EACH)]


def streams(chance):
    """Three that go on in turns, some pages at a time."""
    starts, at, found = (100, 900, 1700), [0, 0, 0], []
    while min(at) < 250:
        turn = chance.choice([it for it in range(3) if at[it] < 250])
        for _ in range(min(1 + chance.randrange(4), 250 - at[turn])):
            found.append(starts[turn] + at[turn])
            at[turn] += 1
    return several(found)


def by_rule():
    """The guests that are made here: of 2,048 pages some 700 are used."""
    chance = random.Random(2)
    yield made("sequential", "reads and writes 800 pages one after another, from page 600 on", several(range(600, 1400)))
    yield made("strided", "each third page, from page 0 on", several(range(0, PAGES, 3)))
    some = chance.sample(range(PAGES), USED)
    yield made("random", "800 of all pages, each time any of them", [chance.choice(some) for _ in range(USED * EACH)])
    yield made("hot set", "800 of all pages; nine of ten accesses go to a tenth of these", hot(chance))
    yield made("three streams", "three places of 250 pages, in turns of 1 to 4 pages", streams(chance))


# How they were made, on Debian 12: by its busybox, where `source` is what assignments.awk writes; its ls; its tcc; and its kernel 6.1 under its
# QEMU 7.2, where vmlinuz and initrd are what recorders/qemu/linux leaves in the folder of a run without these two words.
#     valgrind --tool=lackey --trace-mem=yes --log-file=trace busybox awk -f compile.awk source
#     head -n 2000007 trace | recorders/script - --move 1/4 --thin 60
#     valgrind --tool=lackey --trace-mem=yes --log-file=trace tcc -c -o words.o words.c
#     recorders/script trace --move 1/4 --thin 1000
#     recorders/qemu/linux boot --kernel vmlinuz --initrd initrd --memory 128 --append loglevel=7 --ready 'devtmpfs: initialized' --recorded 0 \
#         --pre-pages 0 --run-on 20
#     recorders/script boot --vcpus 0 --thin 400 --gap 8
# Of the accesses one in so many is kept, and the first of each page; a program makes some 1,000 in a microsecond.
Recorded = namedtuple("Recorded", "what thin")
A_MICROSECOND = 1000
RECORDED = {
    "awk": Recorded("busybox's awk, which compiles assignments to code for a stack: its first 2,000,000 accesses, a quarter of them before the move", 60),
    "ls": Recorded("Debian's ls of a folder: all of its 767,798 accesses, a quarter of them before the move", 60),
    "tcc": Recorded("Debian's tcc, which compiles a program of 39 lines: all of its 13,595,999 accesses, a quarter of them before the move", 1000),
    "linux": Recorded("Debian's kernel, which boots in 128 MiB: 2,880,798 accesses from `devtmpfs: initialized` on, all but 189 of them after the move; of each gap between its pages 8 are left", 400),
}


def recorded():
    """Programs that Valgrind's lackey traced, and a Linux that QEMU recorded, whose scripts are kept as recorders/script wrote them."""
    for name, (what, thin) in RECORDED.items():
        with lzma.open(f"{HERE}/scripts/{name}.script.xz", "rt", encoding="ascii") as file:
            yield Guest(name, what, file.read(), Fraction(thin, A_MICROSECOND))

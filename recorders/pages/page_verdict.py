"""What the program says of both sides of a recording by page contents, with the places of pages in QEMU's memory."""
import bisect
import glob
import json
import os
import re
import subprocess
import tempfile
from dataclasses import dataclass

import build
from judge import program
from page_source import ABSENT, NAMES
from page_target import BLOCKS

PAGE = 4096
MOST_TOLD = 10
NOTHING = ", where the source had nothing"
FIRST_SEND = 2  # the number of page 0's `send`, as pages.h has it


@dataclass
class Block:
    first: int
    pages: int
    name: str


def lines(path):
    try:
        with open(path, encoding="utf-8", errors="replace") as file:
            return file.read().splitlines()
    except FileNotFoundError:
        return None


def blocks_of(folder):
    """Returns the blocks of a side, or None if it has recorded none."""
    found = lines(f"{folder}/{BLOCKS}")
    try:
        return None if found is None else [Block(int(first), int(pages), path) for _, first, pages, path in (line.split(" ", 3) for line in found)]
    except ValueError:
        raise build.Missing(f"{folder}/{BLOCKS} is not whole") from None


def name_blocks(blocks, names):
    """Gives blocks the names that QEMU has for them, if these are of as many blocks of the same lengths."""
    told = sorted((line.split(" ", 1) for line in names or []), key=lambda one: -int(one[0]))  # equal ones stay in QEMU's order
    if [int(length) for length, _ in told] == [block.pages * PAGE for block in blocks]:
        for block, (_, name) in zip(blocks, told):
            block.name = name


def place_of(page, blocks):
    """Returns where a page is: the name of its block, and the address in it."""
    for number, block in enumerate(blocks):
        if block.first <= page < block.first + block.pages:
            return f"{block.name or f'block {number}'} + {(page - block.first) * PAGE:#x}"
    return "in no block"


def absent_among(pages, source):
    """Returns those of the pages in which there was nothing at the source: they were never used, or given back."""
    ranges = [(int(first), int(count)) for first, count in map(str.split, lines(f"{source}/{ABSENT}") or [])]
    starts = [first for first, _ in ranges]
    found = ((page, bisect.bisect_right(starts, page) - 1) for page in pages)
    return {page for page, at in found if at >= 0 and page < sum(ranges[at])}


def ask(*words):
    done = subprocess.run([program(), *words], stdout=subprocess.PIPE, stderr=subprocess.PIPE, text=True)
    return done.stdout, done.stderr, done.returncode


@dataclass
class Verdict:
    """What was found: the program's verdict, what it tells, whether both recordings were whole, the places of the pages that it tells of, in how
    many of these the source had nothing, and the places of those that were refused, where post-copy broke off."""
    word: str
    told: list
    is_whole: bool
    places: tuple = ()
    pages: int = 0
    nothing: int = 0
    refused: tuple = ()
    unwritten: int = -1  # -1: writes were not tracked

    @property
    def is_clean(self):
        return self.word == "clean" and self.is_whole


def judged(target, source):
    """Returns the Verdict on two sides. Raises Missing if they are not the sides of one migration."""
    sides = {"target": blocks_of(target), "source": blocks_of(source)}
    for (side, blocks), folder in zip(sides.items(), (target, source)):
        if not os.path.isdir(folder):
            raise build.Missing(f"{folder} is not there")
        if blocks is None:
            raise build.Missing(f"{folder}: nothing was recorded at the {side}: " + (
                "its QEMU was not started with the library, or there was no post-copy" if side == "target" else "the observer did not see the halt"))
    if [block.pages for block in sides["target"]] != [block.pages for block in sides["source"]]:
        raise build.Missing("the two sides have different blocks of memory, of so many pages: "
                            + "; ".join(f"{side} {' '.join(str(block.pages) for block in blocks)}" for side, blocks in sides.items()))
    blocks = sides["source"]
    name_blocks(blocks, lines(f"{source}/{NAMES}"))
    with tempfile.TemporaryDirectory() as room:
        _, said, status = ask("session", target, source, "-o", f"{room}/session")
        is_whole = status == 0
        if not is_whole:
            _, why, status = ask("session", "--cut", target, source, "-o", f"{room}/session")
            if status:
                raise build.Missing(why.strip() or said.strip())
        said = [] if is_whole else [line[9:] for line in said.splitlines()[:-1]]  # but for what `session` is told to do
        refused = [] if is_whole else [(page, place_of(page, blocks)) for page in refused_at(target)]
        said += [f"page {page}, {place}: it came when it was there already, and was refused" for page, place in refused]
        return verdict_of(f"{room}/session", blocks, is_whole, said, [place for _, place in refused], lambda pages: absent_among(pages, source))


def refused_at(target):
    """Returns the pages that the kernel did not put in place, since they were there."""
    texts = (text for path in sorted(glob.glob(f"{glob.escape(target)}/pager.*")) for text in ["\n".join(lines(path))])
    return [int(send) - FIRST_SEND for text in texts for _, send in re.findall(r"^(\d+) got-sent (\d+)\n\d+ skip \1$", text, re.MULTILINE)]


def verdict_of(session, blocks, is_whole, said, refused, absent):
    answer, error, status = ask("audit", "--all", "--format", "json", session)
    if status not in (0, 1):
        raise build.Missing(error.strip())
    found, pages = json.loads(answer), sum(block.pages for block in blocks)
    word, wrong = found["verdict"], [(page["page"], page["reason"]) for page in found.get("pages", [])]
    if word != "faulty":
        answer, _, _ = ask("audit", "--complete-pages", "--quiet", session)
        word = answer.strip()
        if word.startswith("incomplete page"):
            wrong[:0] = [(page, "it never came") for page in not_placed_in(session, pages)]
    places, nothing = [place_of(page, blocks) for page, _ in wrong], absent([page for page, _ in wrong])
    told = [*said, *(f"page {page}, {place}: {reason}{NOTHING if page in nothing else ''}" for (page, reason), place in zip(wrong[:MOST_TOLD], places))]
    if len(wrong) > MOST_TOLD:
        told.append(f"and {len(wrong) - MOST_TOLD} more pages" + (f". Of all {len(wrong)}, the source had nothing in {len(nothing)}: never used, given back, or unplugged" if nothing else ""))
    return Verdict(word, told, is_whole, tuple(places), pages, len(nothing), tuple(refused), unwritten_in(session))


def not_placed_in(session, pages):
    """Returns the pages, of so many, that were not put in place."""
    with open(session, encoding="ascii") as file:
        placed = {int(line.split(" ", 2)[1]) for line in file if line.startswith("place ")}
    return [page for page in range(pages) if page not in placed]


def unwritten_in(session):
    """Returns how many pages were looked at in the end, or -1."""
    with open(session, encoding="ascii") as file:
        count = sum(line.startswith("r ") for line in file)
    return count or -1

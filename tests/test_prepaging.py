"""What pre-paging brings: scripts that are made of traces, and schedules of links that take time.

`recorders/script` makes the script of a trace at random that a slow model makes, which is written here of its words alone; and refuses
what does not fit or is no trace. The two pictures show what the table of all settings has. Of scripts at random, over links that are slow or far or lose packets, bench/schedule makes events
whose session the program finds clean and complete, and which has the records that the schedule counts; events that lack one, and a rule
that is not the host's, are found.
"""
import gzip
import os
import random
import re
import sys
import xml.etree.ElementTree as ElementTree
from fractions import Fraction

import forked
import pytest
from cases import count, same

TOP = os.path.dirname(os.path.dirname(os.path.realpath(__file__)))
sys.path.append(f"{TOP}/bench")

import scheduled  # noqa: E402
import timed  # noqa: E402

pytestmark = pytest.mark.quick


def run(*words, given=""):
    return forked.run(*words, given=given.encode(), encoding="utf-8")


# Scripts of traces.


def model(trace, move, thin, first, taken, pages, gap, vcpus):
    """The script of a trace of (vcpu, kind, page) and at most one "halt", slowly: each rule goes through the whole trace."""
    place = trace.index("halt") if "halt" in trace else None
    numbered = [(number, it, place is not None and number >= place) for number, it in enumerate(it for it in trace if it != "halt")]
    low, high = pages or (0, 10 ** 9)
    left = [it for it in numbered if low <= it[1][2] <= high and (vcpus is None or it[1][0] in vcpus)][first:][:taken]
    if vcpus:
        left = [(number, (vcpus.index(it[0]), *it[1:]), is_after) for number, it, is_after in left]
    if move is not None or place is None:
        share = len(left) * (move if move is not None else Fraction(1, 2))
        left = [(number, it, at >= int(share)) for at, (number, it, _) in enumerate(left)]
    before, after = ([(number, *it) for number, it, is_after in left if is_after == side] for side in (False, True))
    used = sorted({it[3] for it in before + after})
    if pages:
        number_of, size = {page: page - low for page in used}, high - low + 1
    else:
        skipped = [min(gap, b - a - 1) for a, b in zip(used, used[1:])]
        number_of = {page: at + sum(skipped[:at]) for at, page in enumerate(used)}
        size = max(number_of.values()) + 1
    changes = [it for it in before if it[2] != "r" and not any(other[3] == it[3] and other[0] > it[0] and other[2] != "r" for other in before)]
    kept = []
    for it in after:
        own = [other for other in after if other[1] == it[1]]
        is_first = not any(other[3] == it[3] and other[0] < it[0] for other in own)
        if it[2] == "z" or is_first or own.index(it) % thin == 0:
            kept.append(it)
    text = [f"postcopy-script {2 if any(it[2] == 'z' for it in kept) else 1}", f"pages {size}", "cells 1", f"init {size}"]
    text += [f"page {page} {page + 1:016x}" for page in range(size)] + ["pivots 4", "window 16", "down -", "up -"]
    text += ["lanes 1"] * text[0].endswith("2")
    vcpus = 1 + max(it[1] for it in changes + kept)
    text.append(f"vcpus {vcpus}")
    for vcpu in range(vcpus):
        sides = [[it for it in side if it[1] == vcpu] for side in (changes, kept)]
        text.append(f"vcpu {len(sides[0])} {len(sides[1])}")
        for number, _, kind, page in sides[0] + sides[1]:
            text.append({"r": f"r {number_of[page]} 0", "w": f"w {number_of[page]} 0 {number + 1}", "z": f"z {number_of[page]}"}[kind])
    return "\n".join([*text, "end", ""])


def random_trace(rng):
    trace, page = [], 0
    for _ in range(rng.randrange(20, 200)):
        page = page if rng.randrange(3) else rng.choice((page + 1, rng.randrange(40), 1000 + rng.randrange(5)))
        trace.append((rng.randrange(3), rng.choice("rrrwwz"), page))
    if rng.randrange(2):
        trace.insert(rng.randrange(len(trace) + 1), "halt")
    return trace


@pytest.mark.cases(12)
def test_scripts_of_traces(tmp_path):
    for seed in range(12):
        rng = random.Random(seed)
        trace = random_trace(rng)
        move, thin, first = rng.choice((None, None, Fraction(9, 10))), rng.choice((1, 1, 2, 7)), rng.choice((0, 0, 5))
        taken, pages, gap = rng.choice((None, 15)), rng.choice((None, None, (3, 30))), rng.choice((0, 2))
        vcpus = rng.choice((None, None, [1], [2, 0]))
        (tmp_path / "trace").write_text("".join("halt\n" if it == "halt" else f"{it[0]} {it[1]} {it[2]}\n" for it in trace))
        words = ["--thin", f"{thin}", "--from", f"{first}", "--gap", f"{gap}"]
        words += ["--move", f"{move}"] * (move is not None)
        words += ["--count", f"{taken}"] * (taken is not None)
        words += ["--pages", f"{pages[0]}-{pages[1]}"] if pages else []
        words += ["--vcpus", ",".join(map(str, vcpus))] if vcpus else []
        words = [it for it in words if it]
        made = run(f"{TOP}/recorders/script", f"{tmp_path}/trace", *words)
        same(f"seed {seed}, {words}: {made.stderr}", (made.returncode, made.stdout), (0, model(trace, move, thin, first, taken, pages, gap, vcpus)))


LACKEY = """==1== Lackey, an example Valgrind tool
==1==
I  04001000,3
 L 1fff000ffc,8
 S 04002008,8
the program says something
 M 04001ff8,4
I  04001003,5
"""


def test_lackey():
    """Pages of 4 KiB, an access over two pages, a modify, and lines of the program itself."""
    made = run(f"{TOP}/recorders/script", "-", "--move", "0", given=LACKEY)
    operations = ["r 0 0", "r 2 0", "r 3 0", "w 1 0 4", "w 0 0 5", "r 0 0"]
    assert made.stdout.splitlines()[12:] == ["vcpus 1", "vcpu 0 6", *operations, "end"]
    assert "1 lines of the trace are no accesses" in made.stderr


def test_session():
    """The guest's log of a recording, whose pages keep their numbers."""
    made = run(f"{TOP}/recorders/script", f"{TOP}/examples/released-and-pushed/stdout")
    assert made.returncode == 0, made.stderr
    assert made.stdout == ("postcopy-script 1\npages 2\ncells 1\ninit 2\npage 0 0000000000000001\npage 1 0000000000000002\npivots 4\nwindow 16\n"
                           "down -\nup -\nvcpus 1\nvcpu 1 1\nz 1\nr 1 0\nend\n")


def test_gap_of_a_session():
    """Of a session, too, --gap numbers the pages as they are used: of pages 2 and 9 of ten, with one that is kept between them, it makes three."""
    given = "postcopy-session 1\npages 10\ncells 1\ninit 0\nguest 4\nhalt\nresume 0\nr 0 2 0 0\nw 0 9 0 5\nsource 0\n"
    for words, pages, operations in (((), 10, ["r 2 0", "w 9 0 2"]), (("--gap", "1"), 3, ["r 0 0", "w 2 0 2"])):
        lines = run(f"{TOP}/recorders/script", "-", *words, given=given).stdout.splitlines()
        same(f"{words}", (lines[1], lines[-3:-1]), (f"pages {pages}", operations))


def test_folder():
    """The session in a folder."""
    made = run(f"{TOP}/recorders/script", f"{TOP}/examples/handover")
    assert made.stdout.splitlines()[10:] == ["vcpus 1", "vcpu 1 3", "w 1 0 1", "r 0 0", "w 1 0 3", "r 1 0", "end"], made.stderr


REFUSED = {
    "pages": ("".join(f"0 r {page}\n" for page in range(65_537)), 1, "65,537 pages, and a script has 65,536 at most"),
    "operations": ("0 r 1\n" * 65_537, 1, "65,537 operations of processor 0 after the move"),
    "kind": ("0 r 1\n1 x 1\n", 2, "line 2: '1 x 1' is no"),
    "processor": ("64 r 1\n", 2, "line 1: processor 64"),
    "halts": ("halt\n0 r 1\nhalt\n", 2, "line 3"),
    "cut": ("postcopy-session 1\npages 1\ncells 1\ninit 0\nguest 2\nhalt\n", 2, "cut short"),
    "text": ("hello\n", 2, "this is no session"),
}


@pytest.mark.parametrize("given, status, said", REFUSED.values(), ids=REFUSED)
def test_refused(given, status, said):
    made = run(f"{TOP}/recorders/script", "-", "--move", "0", given=given)
    assert (made.returncode, made.stdout) == (status, "")
    assert said in made.stderr


def test_fit():
    """The least N with which the script has room."""
    given = "".join(f"0 r {number % 7}\n" for number in range(70_000))
    made = run(f"{TOP}/recorders/script", "-", "--move", "0", "--thin", "fit", given=given)
    assert made.returncode == 0
    assert "after it 35,003 of 70,000: first ones, and one in 2" in made.stderr


def test_example(tmp_path):
    """The script of the example is that of its trace."""
    example = f"{TOP}/examples/migrated-program"
    with gzip.open(f"{example}/trace.gz", "rb") as packed:
        (tmp_path / "trace").write_bytes(packed.read())
    made = run(f"{TOP}/recorders/script", f"{tmp_path}/trace", "--move", "1/4", "--thin", "150")
    with open(f"{example}/script", encoding="ascii") as file:
        assert made.stdout == file.read()


# Schedules.

LINKS = (
    timed.Link(Fraction(1, 3), 20), timed.Link(Fraction(1, 330), 200), timed.Link(Fraction(1, 33), 5000),
    timed.Link(Fraction(2), 0), timed.Link(Fraction(1, 33), 100, Fraction(1, 10), 3), timed.Link(Fraction(5, 7), 40, Fraction(1, 4), 5),
)


def script_at_random(seed):
    rng = random.Random(seed)
    version, pages = rng.choice((1, 2)), rng.choice((1, 40, 150))
    def operation(kinds):
        kind, page = rng.choice(kinds), rng.randrange(pages)
        return {"r": f"r {page} 0", "w": f"w {page} 0 {rng.randrange(9)}", "z": f"z {page}"}[kind]
    lines = [f"postcopy-script {version}", f"pages {pages}", "cells 1", f"init {pages}", *(f"page {page} {page + 1:016x}" for page in range(pages))]
    lines += [f"pivots {rng.choice((1, 2, 16))}", f"window {rng.choice((1, 4, 64))}", "down -", "up -", *["lanes 1"] * (version == 2)]
    vcpus = rng.choice((1, 3))
    lines.append(f"vcpus {vcpus}")
    for _ in range(vcpus):
        sides = [[operation(kinds) for _ in range(rng.randrange(60))] for kinds in ("rwz", "rw" if version == 1 else "rrwz")]
        lines += [f"vcpu {len(sides[0])} {len(sides[1])}", *sides[0], *sides[1]]
    return "\n".join([*lines, "end", ""])


class Schedule:
    """A script at random with its events, in a folder."""

    def __init__(self, seed, folder, rule=timed.Bubbling):
        self.script, self.session = f"{folder}/script", f"{folder}/session"
        text = script_at_random(seed)
        with open(self.script, "w", encoding="ascii") as file:
            file.write(text)
        self.timed = timed.Timed(scheduled.script_of(text, self.script), LINKS[seed % len(LINKS)], seed % 3 * 10,
                                 waiting=timed.WAITING[seed % 2], pushing=timed.PUSHING[seed // 2 % 2], rule=rule)
        self.counts = self.timed.run()
        self.folder = folder

    def wrong(self, program, events):
        """What the program finds wrong with these events, or None."""
        try:
            scheduled.judged(program, self.script, scheduled.written(events, f"{self.folder}/events"), self.timed, self.session)
        except scheduled.Wrong as why:
            return str(why)
        return None


@pytest.mark.cases(12)
def test_schedules(program, tmp_path):
    for seed in range(12):
        schedule = Schedule(seed, tmp_path)
        same(f"seed {seed}", schedule.wrong(program, schedule.timed.events), None)


def test_planted(program, tmp_path):
    """Events without the last one, and those of a source that pushes pages in order."""
    schedule = Schedule(0, tmp_path)
    assert schedule.wrong(program, schedule.timed.events[:-1]) == "audit: incomplete done"
    found = [Schedule(seed, tmp_path, timed.InOrder) for seed in range(4)]
    assert any(it.wrong(program, it.timed.events) for it in found)


TWO_PAGES = ("postcopy-script 1\npages 2\ncells 1\ninit 2\npage 0 0000000000000001\npage 1 0000000000000002\npivots 1\nwindow 8\ndown -\nup -\n"
             "vcpus 1\nvcpu 0 2\nr 0 0\nr 1 0\nend\n")


def over_link(host):
    return host(scheduled.script_of(TWO_PAGES, "text"), timed.Link(Fraction(1, 7), 5), 1).run()


def test_link():
    """Of two pages that are pushed over a link, when the guest goes on and when the last one comes, by hand: the state takes 5 ticks, and
    each page 7 on the wire and 5 more."""
    counts = over_link(timed.Timed)
    assert (counts.resumed, counts.last) == (5, 19)
    # Page 0 is missed at 5; the want comes at 10, and page 0 at 12: asked for and come. Its repeat is sent after page 1.
    assert (counts.asked, counts.used, counts.early, counts.waited, counts.ended) == (2, 2, 0, 13, 19)


def test_rules():
    """The page that each rule chooses, and a host that sends no page twice, by hand."""
    for rule, wanted in ((timed.Bubbling, 9), (timed.InOrder, 2), (timed.Leaning, 14), (timed.Dying, 9)):
        chooser = rule(timed.Unsent(16, [page in (2, 9, 14) for page in range(16)]), 1)
        chooser.fault_at(10)
        same(rule.__name__, chooser.choose(), wanted)
    dying = timed.Dying(timed.Unsent(16, [page == 2 for page in range(16)]), 2)
    for page in (3, 10):
        dying.fault_at(page)
    same("the pivot that dies", (dying.choose(), dying.pivots), (2, [3]))
    same("repeats", (over_link(timed.Timed).again, over_link(timed.Frugal).again), (2, 0))


def test_command(program, tmp_path):
    schedule = Schedule(4, tmp_path)
    said = [run(f"{TOP}/bench/schedule", schedule.script, "-o", f"{tmp_path}/{name}", "--program", program, "--loss", "0.1") for name in "ab"]
    count(said[0].stdout == said[1].stdout and said[0].stdout.startswith("used "), said[0].stderr)
    assert (tmp_path / "a").read_text() == (tmp_path / "b").read_text()
    assert run(f"{TOP}/bench/schedule", f"{TOP}/examples/handover/session", "--program", program).returncode == 2


# The pictures.

SVG = "{http://www.w3.org/2000/svg}"


def table_of_results():
    """By guest, link and setting, the pages that were asked for and used, and the milliseconds that were waited."""
    found = {}
    with open(f"{TOP}/bench/results/prepaging.md", encoding="utf-8") as file:
        for line in file:
            if line.startswith("### "):
                guest, link = line[4:].strip().split(", ")
            match = re.fullmatch(r"\| (.+?) \| (\d+) of (\d+) \| ([\d.,]+) \| .*\n", line)
            if match:
                found[guest, link, match[1]] = int(match[2]), int(match[3]), float(match[4].replace(",", ""))
    return found


def row_of(table, guest, link, pattern):
    return next(row for (one, other, name), row in table.items() if (one, other) == (guest, link) and re.fullmatch(pattern, name))


def told_of(picture):
    """What a picture tells in words: by link and guest, the percentages of what is drawn."""
    found = {}
    for line in picture.find(f"{SVG}desc").text.splitlines():
        link, guest, shown = re.fullmatch(r"(\w+), (.+?): (.+ %)", line).groups()
        found[link, guest] = {name: int(share) for name, share in re.findall(r"(\S.*?) (\d+) %(?:, |$)", shown)}
    return found


def picture(name):
    return ElementTree.parse(f"{TOP}/docs/prepaging-{name}.svg").getroot()


def test_picture_of_asked():
    """Each bar is as long as its share of the pages, which stands beside it and in the description."""
    table, drawn = table_of_results(), picture("asked")
    told = told_of(drawn)
    shares = []
    for link in ("near", "slow", "far"):
        for guest in dict.fromkeys(it[0] for it in table):
            for name, value in told[link, guest].items():
                asked, used, _ = row_of(table, guest, link, name.replace(", a", r", window \d+, a").replace("*", r"\*"))
                shares.append((100 * asked / used, value))
    assert all(abs(share - value) <= 0.5 for share, value in shares)
    bars = [float(it.get("width")) for it in drawn.iter(f"{SVG}rect") if it.get("height") == "9"]
    same("bars", len(bars), len(shares))
    longest = max(bars)
    assert all(abs(width - max(0.5, longest * share / 100)) < 0.2 for width, (share, _) in zip(bars, shares))


def test_picture_of_windows():
    """A line for each guest and link, with a mark for each window, at the waits of the table."""
    table, drawn = table_of_results(), picture("window")
    told = told_of(drawn)
    guests = {it[0] for it in table}
    same("guests", set(told), {(link, guest) for link in ("near", "slow", "far") for guest in guests})
    for (link, guest), shown in told.items():
        demand = table[guest, link, "demand only"][2]
        for window, share in shown.items():
            waited = row_of(table, guest, link, rf"4 pivots, {window}(, a round trip)?")[2]
            assert abs(share - 100 * waited / demand) <= 1 + share / 50, (link, guest, window)
    lines = [it for it in drawn.iter(f"{SVG}path") if it.get("class").startswith("guest-")]
    same("lines", sorted(it.get("d").count("L") + 1 for it in lines), sorted(map(len, told.values())))

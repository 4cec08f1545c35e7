"""Many migrations on this machine, recorded by page contents: with guests, memories and ways in rows that have each pair of them, and every second
one with a fault. What came of each is kept in a file, so that several campaigns of one folder have one table."""
import collections
import concurrent.futures
import json
import os
import random
import shutil
import tempfile
import threading
import time

import axes
import build
import faults
import page_tls
import page_verdict
from dialect import PC_RAM
from files import lines_of, write
from kinds import MEMORIES
from page_migration import FAULTS, PAGE, Migration, Settings
from page_source import Lost
from plain import Ended
from results import markdown

BALLOON = "Linux with a balloon, TCG"
SMALL = "small"  # what the guest needs
# The values of each axis, by its name. The first is what any QEMU has.
AXES = {
    "guest": ("test, TCG", "test, KVM", "Linux, TCG", BALLOON),
    "memory": tuple(memory for memory in MEMORIES if memory != "virtio-mem"),  # whose pages come only where the guest has plugged them
    "size": (SMALL, "512 MiB", "1 GiB", "2 GiB"),
    "pages": ("4 KiB", "2 MiB"),
    "way": ("plain", "preempt", "cut"),
    "TLS": ("none", *page_tls.KINDS),
    "writes": ("not tracked", "tracked"),
}
KINDS = tuple(kind for fault in FAULTS for kind in ("", fault))  # every second one has a fault
RESULTS = "results"  # the file of a folder, with a line for each migration
CLEAN, TOLD, FAILED, NOT_PUT_IN, NOT_RECORDED = "clean", "told by its pages, and no other", "not clean, and QEMU says so itself", "not put in", "not recorded"
REFUSED = "told by its page, and QEMU says so itself"
GIVEN_BACK = "with pages that were given back once they had been sent"  # as the answer says of each, and of no other
SLOWLY = 20000  # that pages which pre-copy has sent are not all written to again
SILENT = "source completed, target completed"  # as QEMU has it

Result = collections.namedtuple("Result", "row fault word version load")  # of one migration


def ram_of(row):
    """Returns the MiB of a row's first block."""
    if row["size"] == SMALL:
        return 160 if "Linux" in row["guest"] else 64
    number, unit = row["size"].split()
    return int(number) << (10 if unit == "GiB" else 0)


def settings_of(row, fault=""):
    is_linux, has_balloon = "Linux" in row["guest"], row["guest"] == BALLOON
    return Settings(ram=ram_of(row), memory=row["memory"], huge=row["pages"] == "2 MiB", kvm="KVM" in row["guest"], is_linux=is_linux, workload="work=200:100",
                    has_balloon=has_balloon, pre=2.5 if has_balloon else 1.5 if fault == "keep-drop" else 0.5,  # a page that was sent has to change since
                    further=["postcopy-preempt"] if row["way"] == "preempt" else [], tls=row["TLS"] if row["TLS"] in page_tls.KINDS else "", cuts=[640] if row["way"] == "cut" else [],
                    is_tracking=row["writes"] == "tracked", fault=fault, pace=SLOWLY if fault == "preflip" else 0)


def fit_for(row, fault):
    """Returns a row as a fault needs it: a way that the relay can read and that does not heal it, and pages that can be lost or kept one by one."""
    if not fault:
        return row
    way = "cut" if fault in faults.NEED_CUT else "plain" if row["way"] == "cut" else row["way"]
    return {**row, "TLS": "none", "way": way, "pages": row["pages"] if fault in ("flip", "flip-end", "stale", "swap") else "4 KiB"}


def drawn(count, seed, values, kinds=KINDS):
    """Yields as many rows, with these kinds of faults in turn. Rows that are drawn anew have each pair of the values."""
    random_one, left = random.Random(seed), []
    for number in range(count):
        left = left or axes.rows(random_one, values)
        fault = kinds[number % len(kinds)]
        yield fit_for(left.pop(), fault), fault


def made(row, fault, folder, emulator, turns, room):
    """Makes a migration in one of the turns, and returns what came of it, in words. It is judged while the next one has the turn. Linux boots once
    for each kind of machine, and is kept in the room."""
    settings = settings_of(row, fault)
    if settings.is_linux:
        settings.booted = f"{room}/{'-'.join(row[axis].replace(' ', '-') for axis in ('guest', 'memory', 'size', 'pages'))}"
    migration = Migration(settings, folder, emulator, lambda line: None)
    migration.is_asked = True
    try:
        with turns:
            outcome = migration.run()
        verdict = page_verdict.judged(f"{folder}/target", f"{folder}/source")
    except (Lost, build.Missing, Ended, ConnectionError) as why:
        return f"{NOT_RECORDED}: {why}"
    return what_came(settings, outcome, verdict, migration.put_in() if fault else [])


def what_came(settings, outcome, verdict, put_in):
    """Returns in words what came of a migration that was recorded, with a fault in these pages. It may have ended for another cause, before the fault
    could be told, or be put in."""
    places = sorted(f"{PC_RAM} + {page * PAGE:#x}" for page in put_in)
    if put_in and not verdict.is_clean and sorted(verdict.places) == places:
        return TOLD
    if put_in and outcome != SILENT and sorted(verdict.refused) == places:
        return REFUSED
    has_ended = verdict.word.startswith("incomplete") or settings.fault in faults.FOUND_BY_QEMU
    if not verdict.is_clean and outcome != SILENT and (not settings.fault or put_in and has_ended):
        return FAILED
    if verdict.is_clean and not put_in:
        return NOT_PUT_IN if settings.fault else CLEAN
    if settings.fault and not put_in and outcome != SILENT:
        return f"{NOT_PUT_IN}: {verdict.word}; {outcome}"
    if settings.has_balloon and not settings.fault and outcome == SILENT and verdict.places and verdict.nothing == len(verdict.places):
        return GIVEN_BACK
    return f"{verdict.word}, {len(verdict.places)} pages, {len(put_in)} put in; {outcome}"


def in_words(count):
    others = "".join(f", {count[word]} {word}" for word in (FAILED, GIVEN_BACK) if count[word])
    return f"{count[CLEAN]} of {count.total()} clean{others}"


def table(found):
    """Returns the table of how many were clean of those without a fault, in all and by each value of each axis, and how many faults were told, of
    those that were recorded."""
    recorded = [one for one in found if not one.word.startswith(NOT_RECORDED)]
    clean, told = collections.defaultdict(collections.Counter), collections.defaultdict(collections.Counter)
    for one in recorded:
        for part in [("all", ""), *one.row.items()] if not one.fault else ():
            clean[part][one.word if one.word in (CLEAN, FAILED, GIVEN_BACK) else "other"] += 1
        if one.fault and not one.word.startswith(NOT_PUT_IN):
            told[one.fault][one.word] += 1
    values = [(axis, value) for axis, of_axis in [("all", ("",)), *AXES.items()] for value in of_axis]
    lines = [[axes.in_words([part]).strip(), in_words(clean[part])] for part in values if part in clean]
    for fault in (fault for fault in FAULTS if fault in told):
        words = [word for word in (TOLD, REFUSED, FAILED) if told[fault][word]] or [TOLD]
        parts = [f"{told[fault][word]} of {told[fault].total()} {word}" for word in words]
        lines.append([f"{fault}: {faults.KINDS[fault].split(':')[0]}", "; ".join(parts)])
    loads = sorted(one.load for one in found)
    told_first = (f"{len(found)} migrations of {' and '.join(sorted({one.version for one in found}))}, at a load of {loads[0]:.0f} to {loads[-1]:.0f}; "
                  f"{len(found) - len(recorded)} were not recorded:")
    return f"{told_first}\n\n{markdown([['Migrations', ''], *lines])}"


def results_of(folder):
    """Returns the Result of each migration that the campaigns of a folder have made."""
    return lines_of(f"{folder}/{RESULTS}", lambda line: Result(**json.loads(line)), "result of a campaign")


def run(count, seed, minutes, jobs, chosen, kinds, folder, emulator, say):
    """Makes so many migrations, as long as there are minutes left, several at once, with these kinds of faults in turn. `chosen` has the values of axes
    that are not all tried. Returns how many were made, and whether each was as it should be. Folders with something to look at are kept."""
    until = time.monotonic() + 60 * minutes
    values, refused = axes.possible(lambda row: emulator.require(settings_of(row), build.build()[1]), {**AXES, **chosen})
    for part, why in refused.items():
        say(f"left out, {axes.in_words([part])}: {why}")
    os.makedirs(folder, exist_ok=True)

    def make(one):
        number, (row, fault) = one
        if time.monotonic() > until:
            return None
        place = f"{folder}/{seed}-{number:03}"
        word = made(row, fault, place, emulator, turns, room)
        write(f"{folder}/{RESULTS}", json.dumps(Result(row, fault, word, str(emulator), os.getloadavg()[0])._asdict()) + "\n", "a")
        if is_well := word in (CLEAN, TOLD, REFUSED, FAILED, NOT_PUT_IN, GIVEN_BACK):
            shutil.rmtree(place)
        say(f"{number:03} {axes.in_words(row.items())}{f', {fault}' if fault else ''}: {word}")
        return is_well

    turns, room = threading.BoundedSemaphore(jobs), tempfile.mkdtemp(dir=folder)
    pool = concurrent.futures.ThreadPoolExecutor(2 * jobs)  # whose threads stay, as the processes end with those that started them
    try:
        found = [is_well for is_well in pool.map(make, enumerate(drawn(count, seed, values, kinds))) if is_well is not None]
    finally:
        pool.shutdown(cancel_futures=True)  # where somebody ends it
        shutil.rmtree(room)
    return len(found), all(found)

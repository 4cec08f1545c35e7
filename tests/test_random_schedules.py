"""Runs random schedules of events, and compares what the program records of each with a slow model.

Each schedule is a small script and a list of events, made from a fixed seed. A quarter of the scripts have a lane; events of
the lane come with any script. `steps` has to write the session that steps_model.py makes of it. `audit` has to say that this
is clean, and `certify` to write a certificate to which `check` says yes. The order in which the model made the records has to
be replayed as safe. In the guest's log each virtual processor has to do what the script says, in order; of a script with no
lane, no record may be of one; and where the source was told that all is there, each owed page has to be placed. The example
folders of `steps` are schedules too: what they want has to be what the model makes.
"""
import os
import random
import subprocess
from concurrent.futures import ProcessPoolExecutor
from functools import partial

from case_table import case_files, name_of
import pytest
from cases import each, right
from guests import AFTER, BEFORE, guest_log, random_op, strays_from_the_script
from steps_model import Migration, Script, contents_of, recorded

SCHEDULES = 400
FATES = ("deliver", "lose", "repeat", "back")
ALONE = ("halt", "push", "serve", "source-tick", "pop", "pop-lane", "fault", "flush", "deliver", "pager-tick")
EVENTS = ALONE + ("guest",) + tuple(f"link {direction} {fate}" for direction in ("down", "up", "lane") for fate in FATES)
RECORDS = {"r", "w", "z", "miss", "halt", "resume", "see", "halted", "state", "send", "again", "ask", "done", "down", "up", "got", "pull", "ready", "fault", "join", "want", "place", "zero", "skip", "all"}


def random_fates(rng):
    return rng.choice(("-", "".join(rng.choice("dlrb") for _ in range(rng.randint(1, 9)))))


def lane_lines(rng, version):
    """The lines of a script that tell how many links go down: of the second version, and half of these have a lane."""
    if version == 1:
        return []
    return rng.choice((["lanes 1"], ["lanes 2", f"lane {random_fates(rng)}"]))


def random_script(rng, version):
    pages, cells = rng.choice((1, 2, 2, 3, 4, 6, 9, 20)), rng.choice((1, 1, 2, 3))
    initial = [page for page in range(pages) if rng.random() < 0.4]
    lines = [f"postcopy-script {version}", f"pages {pages}", f"cells {cells}", f"init {len(initial)}"]
    lines += [f"page {page} {contents_of([0] * (cells - 1) + [rng.choice((page + 1, rng.getrandbits(64) | 1))])}" for page in initial]
    lines += [f"pivots {rng.choice((1, 2, 3, 16))}", f"window {rng.choice((1, 2, 3, 65536))}"]
    lines += [f"down {random_fates(rng)}", f"up {random_fates(rng)}"] + lane_lines(rng, version)
    vcpus = rng.choice((1, 2, 3, 4))
    lines.append(f"vcpus {vcpus}")
    for _ in range(vcpus):
        before, after = rng.randrange(4), rng.randrange(6)
        lines.append(f"vcpu {before} {after}")
        lines += [random_op(rng, pages, cells, BEFORE) for _ in range(before)] + [random_op(rng, pages, cells, AFTER[version]) for _ in range(after)]
    return "\n".join(lines + ["end", ""])


def random_events(rng, vcpus):
    """Events at random, some kinds more often than others, and in half the schedules a steady course before the last of them."""
    names = EVENTS + ("link down deliver", "link up deliver", "link lane deliver")
    weights = [rng.choice((0.2, 1, 1, 3)) * (4 if name == "guest" else 1) for name in names]
    events = rng.choices(names, weights, k=rng.choice((30, 100, 200)))
    if rng.random() < 0.5:
        rounds = ["guest"] * 4 + ["halt", "push", "link down deliver", "pop", "deliver", "fault", "flush", "link up deliver", "serve"]
        over_lane = ["link lane deliver", "pop-lane", "deliver"]
        for _ in range(rng.randint(5, 20)):
            events += rounds + rng.choice(([], over_lane)) + rng.choice(([], ["pager-tick"], ["source-tick"], ["link down deliver", "pop", "deliver"]))
        events += rng.choices(names, weights, k=10)
    return [f"guest {rng.choice(list(range(vcpus)) * 9 + [vcpus, 63])}" if event == "guest" else event for event in events]


def random_schedule(seed, version=1):
    rng = random.Random(seed)
    script = random_script(rng, version)
    events = random_events(rng, len(Script(script).vcpus))
    return script, "\n".join(["postcopy-events 1", f"events {len(events)}"] + events + ["end", ""])


def says(program, command, *texts):
    """What the program writes of texts in one input, and its status."""
    ran = subprocess.run([program, command, *("-" for _ in texts)], input="".join(texts).encode(), capture_output=True)
    return ran.stdout.decode("latin-1"), ran.returncode


def fault_of(program, script, events, migration):
    """What is wrong with what the program says of a schedule, or None."""
    session, status = says(program, "steps", script, events)
    if (session, status) != (migration.session(), 0):
        return "`steps` writes another session than the model"
    if strays_from_the_script(migration.script, guest_log(session)):
        return "a virtual processor does not do what the script says"
    if not migration.script.has_lane and (migration.logs["lane"] or migration.has("pager", "pull")):
        return "there is a record of a lane, and no lane"
    if migration.has("source", "done") and not all(migration.is_resident(page) for page in migration.owed()):
        return "the source was told that all is there, and a page is not"
    report, status = says(program, "audit", session)
    if status != 0 or not report.startswith("clean\n"):
        return "`audit` does not say that the session is clean"
    certificate = report[len("clean\n"):]
    if says(program, "certify", session) != (certificate, 0):
        return "`certify` does not write the certificate of the report"
    if says(program, "check", session, certificate) != ("yes\n", 0):
        return "the certificate is not right"
    if says(program, "replay", session, migration.runs()) != ("safe\n", 0):
        return "the order in which the records were made is not replayed as safe"
    return None


def books_of(migration):
    return repr((migration.lines, migration.arrivals, migration.waiting, migration.inbox, migration.outbox, migration.left, len(migration.order)))


def found_in(script, events):
    """The kinds of records that a schedule makes, and which events do something and which nothing, in which phase, and of the
    lane's events in which version and with how many lanes."""
    migration, found = Migration(Script(script)), set()
    lanes = (migration.script.version, 1 + migration.script.has_lane)
    phases = (("guest", "halt"), ("guest", "resume"), ("source", "done"))
    for line in events.splitlines()[2:-1]:
        phase = sum(migration.has(log, kind) for log, kind in phases)
        before = books_of(migration)
        migration.happen(tuple(line.split(" ")))
        name = "guest" if line.startswith("guest") else line
        found.add((name, phase))
        found.add((name, "nothing" if books_of(migration) == before else "something"))
        if "lane" in name:
            found.add((name, lanes))
    return found | {record[0] for log in migration.logs.values() for record in log}


def tried(program, seed):
    """A schedule's number, what it shows, and what is wrong. Half of them are of the second version, and half of these have a lane."""
    script, events = random_schedule(seed // 2, seed % 2 + 1)
    return seed, (found_in(script, events), fault_of(program, script, events, recorded(script, events)))


def folder_fault(program, folder):
    """What is wrong with an example folder of `steps`, or None."""
    texts = {}
    for name in os.listdir(folder):
        with open(os.path.join(folder, name), encoding="latin-1") as file:
            texts[name] = file.read()
    migration = recorded(texts["script"], texts["events"])
    if texts["stdout"] != migration.session():
        return "the folder wants another session than the model makes"
    if "certificate" in texts and says(program, "certify", texts["stdout"]) != (texts["certificate"], 0):
        return "`certify` does not write the folder's certificate of its session"
    return fault_of(program, texts["script"], texts["events"], migration)


def folders():
    """The example folders in which `steps` records a session of the files beside it."""
    for folder in case_files(""):
        with open(f"{folder}/args") as args, open(f"{folder}/status") as status:
            if args.read().split() == ["steps", "script", "events"] and status.read() == "0\n":
                yield folder


def test_folders(program):
    """The example folders of `steps`."""
    examples = list(folders())
    assert examples
    for folder in examples:
        right(folder_fault(program, folder), name_of(folder))


@pytest.mark.cases(SCHEDULES)
def test_random_schedules(program):
    found = set()
    with ProcessPoolExecutor(os.cpu_count()) as pool:
        for seed, (shown, wrong) in each(range(SCHEDULES), lambda seeds: pool.map(partial(tried, program), seeds, chunksize=5)):
            found |= shown
            right(wrong, f"schedule {seed}")
    wanted = RECORDS | {(event, what) for event in EVENTS for what in (0, 1, 2, 3, "something", "nothing")}
    wanted |= {(event, lanes) for event in EVENTS if "lane" in event for lanes in ((1, 1), (2, 1), (2, 2))}
    assert not wanted - found, "no schedule has it"

"""Plans of lazy migrations, the table of what became of them, and what the recorder of CRIU says where it cannot record."""
import importlib.machinery
import importlib.util
import os
import random
import subprocess
import sys
import tempfile
from dataclasses import replace
from types import SimpleNamespace
from unittest import mock

import criu_build
import criu_judge
import folders
import kept
import roots
from criu_campaign import DRAWN, Result, random_plan, table
from criu_plans import FAULTS, IN_LIBRARY, KINDS, plan_from_text, plan_of
from lazy_migration import Outcome
from relay_faults import IN_RELAY

SUITES = {"trixie": "4.1.1", "sid": "4.2.1"}
CRIU = os.path.dirname(os.path.abspath(criu_build.__file__))


def plans(seed, count=300, **options):
    drawn = random.Random(seed)
    return [random_plan(drawn, SUITES, **options) for _ in range(count)]


def of_plans(tests):
    drawn = plans(1, with_faults=True)
    tests.wants("the same seed gives the same plans", plans(1, with_faults=True), drawn)
    tests.wants("another gives others", plans(2, with_faults=True) == drawn, False)
    tests.wants("all kinds are drawn, but those that hang", {plan.kind for plan in drawn}, set(KINDS) - {"split", "split-two"})
    tests.wants("or those that are asked for", {plan.kind for plan in plans(1, kinds=["split"])}, {"split"})
    tests.wants("all faults are", {plan.fault for plan in drawn}, {"", *FAULTS})
    tests.wants("none that is not asked for", {plan.fault for plan in plans(1)}, {""})
    tests.wants("each fault is somebody's", {*IN_RELAY, *IN_LIBRARY}, set(FAULTS))
    tests.wants("both versions are drawn", {plan.criu for plan in drawn}, set(SUITES))
    tests.wants("windows fit a session", [plan for plan in drawn if plan.pages * plan.words > 1 << 20 or plan.words > 512], [])
    tests.wants("visits are of 64", [plan for plan in drawn if plan.writes + plan.releases + plan.ahead > 64], [])
    tests.wants("a plan's text and back", [plan_from_text(plan.to_text()) for plan in drawn], drawn)
    tests.wants("which sessions are of the second version", {plan.kind for plan in map(plan_of, KINDS) if plan.has_releases_at_target},
                {"releases", "split", "split-two"})
    tests.wants("those that are drawn are kinds", set(DRAWN) <= set(KINDS), True)


def of_results(tests):
    whole, hung = Outcome(0, 0, 0), Outcome("waits", "hangs", 0)
    tests.wants("CRIU came to its end", (whole.is_whole, str(whole), whole.ended), (True, "dump ended, lazy-pages ended, restore ended", ""))
    tests.wants("it did not", (hung.is_whole, str(hung), hung.ended), (False, *["dump waits, lazy-pages hangs, restore ended"] * 2))
    tests.wants("it did, and something is to be said of it", Outcome(0, 0, 0, ["a remark"]).is_whole, False)
    failed = Outcome(1, remarks=["the process was not dumped"])
    tests.wants("it failed", str(failed), "dump failed (1), lazy-pages not started, restore not started; the process was not dumped")
    clean = Result(plan_of("live"), "4.1.1", "clean, yes", "completed")
    tests.wants("clean", (clean.is_clean, clean.is_settled), (True, True))
    tests.wants("clean, and CRIU hangs", replace(clean, end=str(hung)).is_clean, False)
    flipped = replace(clean, plan=plan_of("live", fault="flip"), was_put_in=True)
    tests.wants("clean, and a fault was put in", (flipped.is_clean, flipped.is_settled), (True, False))
    tests.wants("a fault that was not reached", replace(flipped, was_put_in=False).fault, "flip, not reached")
    found = replace(flipped, verdict="faulty line 7 read")
    missing = replace(clean, verdict="incomplete page 7", end=str(hung))
    tests.wants("the table", table([clean, found, clean, missing, replace(missing, verdict="incomplete page 8")], 9.6).split("\n"), [
        "5 migrations in 10 s, 2 clean",
        "",
        "kind  CRIU   fault  verdict          CRIU says                                    how often",
        "live  4.1.1  -      clean, yes       completed                                    2",
        "live  4.1.1  -      incomplete page  dump waits, lazy-pages hangs, restore ended  2",
        "live  4.1.1  flip   faulty read      completed                                    1",
    ])


def of_what_was_put_in(tests, room):
    """A fault is put in by the relay, which tells it in its log, or by the library, which tells it in that of the process."""
    for relay, log, wanted in (("up get 2 0\n", "p place 0 0\np earlier\n", False), ("fault flip 3\n", "p place 0 0\n", True), ("up get 2 0\n", "s halted\np early 3\n", True)):
        for name, text in (("relay.log", relay), ("log", log)):
            folders.write(f"{room}/{name}", text)
        tests.wants(f"put in: {relay!r} {log!r}", criu_judge.was_put_in(room), wanted)


def of_words(tests, room):
    """What the commands say of wrong words, of a folder with somebody's files, and where there is no CRIU."""
    def said(command, *words, **environment):
        done = subprocess.run([sys.executable, "-B", f"{CRIU}/{command}", *words], capture_output=True, text=True,
                              env={**os.environ, "POSTCOPY_ROOTS": f"{room}/roots", **environment})
        return done.returncode, done.stdout, done.stderr.rstrip().split("\n")[-1].strip()

    for words, wrong in ((["live", f"{room}/x", "--pages", "1"], "2 to 65536 pages"), (["live", f"{room}/x", "--writes", "60", "--releases", "5"], "64 at most"),
                         (["live", f"{room}/x", "--plain", "--fault", "early"], "--plain leaves out"), (["none", f"{room}/x"], "invalid choice")):
        status, out, line = said("migrate", *words)
        tests.wants(f"migrate {' '.join(words)}", (status, out, wrong in line), (2, "", True))
    tests.wants("versions none", said("versions", "none"), (2, "", "versions: error: 'none' is none of the suites: trixie, sid"))
    if os.geteuid() != 0:
        tests.leave_out("what the recorder of CRIU says to root")
        return
    for command, words in (("migrate", ["live", f"{room}/x"]), ("campaign", ["1", "--folder", f"{room}/x"]), ("versions", [])):
        status, _, line = said(command, *words)
        tests.wants(f"{command} without a CRIU", (status, line), (3, "recorders/criu/versions trixie"))
    tests.wants("nothing was left", os.path.exists(f"{room}/x"), False)
    os.makedirs(f"{room}/mine/table")
    tests.wants("a folder with somebody's files", said("campaign", "1", "--folder", f"{room}/mine")[0], 2)
    tests.wants("they are still there", os.listdir(f"{room}/mine"), ["table"])
    before = os.environ.get("POSTCOPY_ROOTS")
    os.environ["POSTCOPY_ROOTS"] = f"{room}/roots"
    try:
        line = tests.refuses("a root that is not there", roots.Missing, criu_build.root_and_version)
        tests.wants("how one is made", "recorders/criu/versions" in line, True)
    finally:
        os.environ.pop("POSTCOPY_ROOTS")
        if before is not None:
            os.environ["POSTCOPY_ROOTS"] = before


def of_a_campaign(tests, room):
    """A folder that no recorder made stays as it is: its migration is told as not judged, and the others are made. Of one that did not come to
    its end nothing is clean."""
    path = f"{os.path.dirname(os.path.abspath(criu_build.__file__))}/campaign"
    loader = importlib.machinery.SourceFileLoader("criu_campaign_command", path)
    campaign = importlib.util.module_from_spec(importlib.util.spec_from_loader(loader.name, loader))
    loader.exec_module(campaign)
    os.makedirs(f"{room}/00000")
    open(f"{room}/00000/mine", "w").close()

    def take(plan, folder, _):
        return SimpleNamespace(run=lambda: folders.take(folder, ["session"], "criu"))

    def hang(plan, folder, _):
        def run():
            os.makedirs(folder)
            for name, data in kept.files_of("live").items():
                with open(f"{folder}/{name}", "wb") as out:
                    out.write(data)
            return Outcome("waits", "hangs", 0)
        return SimpleNamespace(run=run)

    with mock.patch.object(campaign, "Migration", hang):
        result = campaign.record(plan_of("live", criu="sid"), f"{room}/00001")
    tests.wants("one that hangs behind its last page", (result.verdict.startswith("not judged: the migration did not come to its end: dump waits"), result.end,
                os.path.exists(f"{room}/00001/certificate")), (True, "dump waits, lazy-pages hangs, restore ended", False))
    with mock.patch.object(campaign, "Migration", take):
        result = campaign.record(plan_of("live", criu="sid"), f"{room}/00000")
    tests.wants("what is told", (result.verdict, result.is_clean, os.listdir(f"{room}/00000")),
                (f"not judged: {room}/00000 is not empty, and was not made by this recorder: name a new or an empty folder", False, ["mine"]))


def run(tests):
    of_plans(tests)
    of_results(tests)
    with tempfile.TemporaryDirectory() as room:
        of_what_was_put_in(tests, room)
        of_words(tests, room)
        of_a_campaign(tests, f"{room}/campaign")

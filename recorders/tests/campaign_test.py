"""Plans of a campaign, and the table of what became of them."""
import itertools
import json
import os
import random
import signal
import subprocess
import sys
import tempfile
import time
from dataclasses import asdict, replace
from types import SimpleNamespace
from unittest import mock
from xml.etree import ElementTree

import folders
import results
import series
from faults import NEED_CUT
from kinds import Plan, plan_from_text, plan_of
from plans import DRAWN, random_plan
from qmp import Refused
from results import Result, outcome_in_words, result_from_text
from run import Migration, Outcome
from versions_test import command, made_up

RECORDERS = os.path.dirname(os.path.dirname(os.path.abspath(__file__)))


def plans(seed, count=300, **options):
    drawn = random.Random(seed)
    return [random_plan(drawn, **options) for _ in range(count)]


def of_plans(tests):
    drawn = plans(1, with_faults=True, without_flush=True)
    tests.wants("the same seed gives the same plans", plans(1, with_faults=True, without_flush=True), drawn)
    tests.wants("another gives others", plans(2, with_faults=True, without_flush=True) == drawn, False)
    tests.wants("all kinds are drawn", {plan.kind for plan in drawn}, set(DRAWN))
    tests.wants("windows fit the memory", [plan for plan in drawn if plan.base + plan.pages * 4096 > plan.ram << 20], [])
    tests.wants("and a session", [plan for plan in drawn if plan.pages * plan.words > 1 << 20 or plan.words > 512], [])
    tests.wants("what needs a cut has one", [plan for plan in drawn if plan.fault in NEED_CUT and not plan.cuts], [])
    tests.wants("some have a fault, and some have none", {bool(plan.fault) for plan in drawn}, {True, False})
    tests.wants("none has one that is not asked for", {plan.fault for plan in plans(1)}, {""})
    tests.wants("nor keeps translations", {plan.flush for plan in plans(1)}, {True})
    tests.wants("a plan's text and back", [plan_from_text(plan.to_text()) for plan in drawn], drawn)
    result = Result(drawn[0], "clean, yes", "completed", True, "both ran: it", "10.0.13", True, 7.5)
    tests.wants("a result's text and back", result_from_text(result.to_text()), result)
    one = plan_of("recovery")
    one.cuts.append(7)
    tests.wants("a kind's own plan does not change", plan_of("recovery").cuts, [200])


def of_results(tests):
    whole = {"source": "completed", "target": "completed", "remarks": ["1 cut not reached"], "lost": [], "stands_still": False}
    ended = {"source": "postcopy-paused", "target": "ENDED", "remarks": ["no recovery: target ended"], "lost": [], "stands_still": False}
    cut_off = {**whole, "remarks": ["target.raw: File too large"], "lost": ["target.raw: File too large"]}
    tests.wants("both came to the end", outcome_in_words(whole), "completed")
    tests.wants("and the end of a file is lost", outcome_in_words(cut_off), "source completed, target completed; target.raw: File too large")
    tests.wants("one did not", outcome_in_words(ended), "source postcopy-paused, target ENDED; no recovery: target ended")
    plan = Plan()
    clean = Result(plan, "clean, yes", "completed")
    tests.wants("clean", clean.is_clean, True)
    tests.wants("clean, and QEMU ended", Result(plan, "clean, yes", outcome_in_words(ended)).is_clean, False)
    flipped = replace(plan, fault="flip")
    tests.wants("clean, and a fault was put in", Result(flipped, "clean, yes", "completed", True).is_settled, False)
    tests.wants("a fault that was not reached", Result(flipped, "clean, yes", "completed").fault, "flip, not reached")
    tests.wants("not judged", Result(plan, "not judged: a hole", "completed").is_clean, False)
    both = Result(plan, "clean, yes", "completed", restart="both ran: the source started its guest again", version="10.0")
    tests.wants("clean, and the guest ran at both sides", (both.is_clean, both.is_settled, both.reason), (False, False, "both ran; clean, yes"))
    found = [clean, clean, Result(plan, "faulty line 7 read", "completed"), Result(plan, "faulty line 99 read", "completed"), both,
             Result(replace(plan, kind="wide"), "not judged: page 7 of 9", outcome_in_words(ended)),
             replace(both, restart="returned: the source", verdict="faulty line 3 early")]
    found = [replace(one, version=one.version or "7.2") for one in found]
    lines = [line.split() for line in results.table(found, 12).splitlines()]
    tests.wants("the table", lines, [
        "7 migrations in 12 s, 2 clean, 1 both ran, 1 returned".split(), [], "version kind fault verdict QEMU how often".split(),
        "7.2 live - clean, yes completed 2".split(), "7.2 live - faulty read completed 2".split(),
        "10.0 live - both ran; clean, yes completed 1".split(), "10.0 live - returned; faulty early completed 1".split(),
        "7.2 wide - not judged: page of source postcopy-paused, target ENDED; no recovery: target ended 1".split()])
    for name, words in (("source waits for itself", "source postcopy-active, target postcopy-paused; no recovery: migrate: Cannot resume "
                         "if there is no paused migration"),
                        ("target ended while it loaded", "source postcopy-paused, target ENDED; target: qemu-system-x86_64: load of migration failed: "
                         "Input/output error"),
                        ("target aborted", "source completed, target ENDED; target: qemu-system-x86_64: util/yank.c:107: Assertion `it' failed."),
                        ("target ended while it loaded", "source ENDED, target ENDED; target: load of migration failed; source: Assertion `it' failed."),
                        ("pre-copy came to its end", "source none, target none; gave up: pre-copy: device; pre-copy came to its end"),
                        ("target hangs", "source postcopy-paused, target HANGS; target: it runs, and does not answer"),
                        ("not at its end within its limit", "source postcopy-active, target postcopy-active; it took more than 30 s"),
                        ("not at its end on a busy machine", "source postcopy-active, target postcopy-active; it took more than 30 s; "
                         "the machine was busy: QEMU had no processor for 20 of 39 s"),
                        ("target hangs", "source postcopy-paused, target HANGS; target: it runs, and does not answer; "
                         "the machine was busy: QEMU had no processor for 20 of 39 s"),
                        ("not at its end on a busy machine", "source none, target none; gave up: the guest does not walk; "
                         "the machine was busy: QEMU had no processor for 31 of 41 s"),
                        ("target ended: `Operation not permitted`", "source failed, target ENDED; target: qemu-system-x86_64: loadvm failed during postcopy: -1: "
                         "Failed to load section ID: stream error: -1: Channel error: Operation not permitted"),
                        ("something new, N times", "something new, 3 times")):
        tests.wants(f"the end's name: {name}", Result(plan, "clean, yes", words).end, name)
    busy = "gave up: the guest does not walk; the machine was busy: QEMU had no processor for 31 of 41 s"
    tests.wants("in a word: what the machine was too busy for, and a fault all the same", [
        Result(plan, verdict, busy).in_a_word for verdict in ("not judged: there was no post-copy", "faulty line 7 read")], [results.BUSY, "`read`"])


def of_reports(tests, room):
    """The report for a CI: of each migration that was asked for, what was not clean, and what was not judged or not made."""
    plan = plan_of("live")
    made = [Result(plan, "clean, yes", "completed", version="7.2.22"), Result(plan, "faulty line 7 read", "completed", version="10.0.13"),
            Result(plan, "not judged: the recorder ended with <\x1b&>", ""), Result(plan, "clean, yes", "completed", restart="both ran: it")]
    suite = ElementTree.fromstring(results.junit(made, 5))
    tests.wants("its counts", {name: suite.get(name) for name in ("tests", "failures", "errors")}, {"tests": "5", "failures": "2", "errors": "2"})
    tests.wants("each migration", [(case.get("name"), case.get("classname"), [(it.tag, it.get("type")) for it in case]) for case in suite],
                [("00000", "7.2.22", []), ("00001", "10.0.13", [("failure", "`read`")]), ("00002", "", [("error", "not judged")]),
                 ("00003", "", [("failure", "both ran")]), ("00004", "", [("error", "not made")])])
    tests.wants("what XML cannot have", "ended with <?&>" in suite[2][0].get("message"), True)
    campaign, kept = command("campaign"), []

    def make_all(todo, *_):
        with open(f"{room}/report", encoding="utf-8") as file:
            kept.append(file.read())
        return made[:2]

    words = ["campaign", "3", "--no-axes", "--minutes", "7", "--qemu", "one", "--junit", f"{room}/report", "--folder", f"{room}/campaign"]
    with made_up(campaign, words, make_all):
        tests.wants("the status", campaign.main(), 1)
    with open(f"{room}/report", encoding="utf-8") as file:
        tests.wants("the file before and after", [*kept, file.read()], [results.junit([], 3), results.junit(made[:2], 3)])


def of_deaths(tests):
    """A QEMU that died is the end of its migration, in its words: a source at any time, since the target ends with it, and a target in
    pre-copy. Of post-copy's other ends each has its name."""
    unjudged, cut = "not judged: there was no post-copy: the state was never handed over in a package", "incomplete page 7"
    unfinished = "not judged: the migration did not come to its end: target aborted"
    failed = "qemu-system-x86_64: ../../system/physmem.c:864: tlb_reset_dirty_range_all: Assertion `block == qemu_get_ram_block(end - 1) || !x' failed."
    source, target, killed = f"source aborted: {failed}", "target exited: qemu-system-x86_64: load of migration failed: Invalid argument", "target was killed by signal 9: status -9"
    name = "source aborted: Assertion `block == qemu_get_ram_block(end - 1) || !x' failed."
    both, alone = f"source ENDED, target ENDED; gave up: pre-copy: ended; {target}; {source}", "source active, target ENDED; gave up: pre-copy: failed"
    for verdict, outcome, death, wanted in (
            (unjudged, both, source, name), (cut, both, source, name), ("not judged: the guest's bytes c2 are no event", both, source, name),
            (unjudged, f"{alone}; {target}", target, "target exited: load of migration failed: Invalid argument"), (unjudged, f"{alone}; {killed}", killed, killed),
            (cut, f"source postcopy-paused, target ENDED; {target}", target, "target ended while it loaded"),
            (cut, f"source postcopy-paused, target ENDED; {killed}", killed, killed), (unfinished, f"source completed, target ENDED; target aborted: {failed}",
                                                                                    f"target aborted: {failed}", "target aborted"),
            (cut, "source postcopy-active, target HANGS; target: it runs, and does not answer", "", "target hangs"),
            (unjudged, "source HANGS, target setup; source: it runs, and does not answer", "", "source hangs"),
            (cut, "source postcopy-active, target postcopy-paused; no recovery: migrate: Cannot resume if there is no paused migration", "", "source waits for itself"),
            (unjudged, "source none, target none; gave up: pre-copy: completed", "", "no post-copy"),
            (unjudged, "source none, target none; gave up: pre-copy: failed", "", "pre-copy failed"), ("incomplete done", "completed", "", "incomplete done"),
            ("shape line 7 phases", both, "", "shape phases"), ("faulty line 7 early", both, source, "`early`")):
        result = Result(Plan(), verdict, outcome, death=death)
        tests.wants(f"in a word: {verdict}; {outcome}", (result.in_a_word, result.is_clean, result.is_settled), (wanted, False, False))
        tests.wants("as a text and back", result_from_text(result.to_text()), result)
    tests.wants("in a table", results.markdown([["What"], [name]]).splitlines()[-1], "| source aborted: Assertion `block == qemu_get_ram_block(end - 1) \\|\\| !x' failed. |")


def of_a_recorder_that_fails(tests):
    """A recorder that fails behind its verdict is told, whatever that verdict is."""
    whole, died = Outcome("completed", "completed"), Outcome("ENDED", "ENDED", deaths=["target exited: it", "source aborted: it"])
    plan = Plan(source_version="10.0.13", target_version="10.0.13")
    for status, said, outcome, wanted in ((0, "", whole, ("clean, yes", True, "")), (1, "Traceback:\nOSError: no room\n", whole, ("not judged: the recorder ended with OSError: no room", False, "")),
                                          (-9, "", whole, ("not judged: the recorder ended with nothing", False, "")), (0, "", died, ("clean, yes", False, "source aborted: it"))):
        with tempfile.TemporaryDirectory() as folder:
            for name, text in (("verdict", "clean, yes\n"), ("outcome.json", json.dumps(asdict(outcome))), ("plan.json", plan.to_text())):
                folders.write(f"{folder}/{name}", text)
            result = results.result_of(plan, folder, SimpleNamespace(returncode=status, stderr=said))
        tests.wants(f"the result of one with status {status}", (result.verdict, result.is_clean, result.death), wanted)


def of_an_end_in_precopy(tests):
    """Both QEMUs end before anything is moved: how each did is told, and what it said. (The program is asked nothing else here.)"""
    with tempfile.TemporaryDirectory() as room:
        qemu, folder, said = f"{room}/qemu", f"{room}/made", []
        folders.write(qemu, "#!/bin/sh\nunset LD_PRELOAD\n[ $2 = target ] || { echo \"it: Assertion \\`one' failed.\" >&2; echo more >&2; kill -ABRT $$; }\n"
                      "echo 'load of migration failed' >&2; exit 1\n")
        os.chmod(qemu, 0o755)
        emulator = SimpleNamespace(path=qemu, version_text="10.0.13")
        one = Migration(plan_of("live", limit=1.0), folder, said.append, [emulator, emulator])
        one.prepare, one.build, one.put_guest = lambda library: ("pc", {"source": (), "target": ()}), lambda: "library", lambda: None
        with mock.patch("build.require_tools"):
            outcome = one.run()
        deaths = ["source aborted: it: Assertion `one' failed.", "target exited: load of migration failed"]
        tests.wants("how they ended", (outcome.source, outcome.target, sorted(outcome.deaths), outcome.ended, outcome.is_whole), ("ENDED", "ENDED", deaths, deaths[0], False))
        tests.wants("what is told, and kept", (set(deaths) < set(said), json.loads(results.read(f"{folder}/outcome.json"))["deaths"]), (True, outcome.deaths))
        tests.wants("in a word", Result(one.plan, "not judged: there was no post-copy", outcome_in_words(asdict(outcome)), death=outcome.death).in_a_word,
                    "source aborted: Assertion `one' failed.")


def of_a_busy_machine(tests):
    """What took too long where QEMU had no processor for half of the time is told apart."""
    late, ended = ["it took more than 30 s"], ["target: load of migration failed"]
    for wanted, outcome in ((True, Outcome(seconds=40, waited=20, remarks=late)), (False, Outcome(seconds=40, waited=19, remarks=late)),
                            (True, Outcome(seconds=40, waited=20, remarks=[*ended, "gave up: the guest does not walk"])),
                            (True, Outcome(seconds=40, waited=20, remarks=["no recovery: source postcopy-recover"])),
                            (True, Outcome(seconds=40, waited=9, remarks=late, late=[8, 4])), (False, Outcome(seconds=40, waited=9, remarks=late, late=[8, 3])),
                            (False, Outcome(seconds=40, waited=39, remarks=ended))):
        tests.wants(f"held up: {outcome}", outcome.is_held_up, wanted)


def of_a_guest_that_stands_still(tests):
    """Both QEMUs say that they came to the end, and the guest does not go on at the target: that is no success."""
    waits = iter((3.0, 2.0, 7.0))  # seconds for which a QEMU had no processor: where each part begins, and where it is late
    for goes_on, is_success, remarks in ((True, True, []), (False, False, ["it took more than 10 s for 3000 accesses at the target"])):
        one = Migration.__new__(Migration)
        one.plan, one.say, one.outcome = Plan(), lambda line: None, Outcome("completed", "completed")
        one.target = SimpleNamespace(wait_for_accesses=lambda count, seconds, goes_on=goes_on: goes_on)
        one.waits = lambda: {"a thread": next(waits)}
        one.run_on()
        tests.wants("how long it had no processor, where it is late", one.outcome.late[1:], [] if goes_on else [5.0])
        tests.wants(f"a guest that goes on: {goes_on}", (one.outcome.is_whole, one.outcome.is_success, one.outcome.remarks), (True, is_success, remarks))
        words = "completed" if is_success else f"source completed, target completed; {remarks[0]}"
        tests.wants("in words", outcome_in_words(asdict(one.outcome)), words)


class Clock:
    """In the place of the module time: at each look a second has passed."""

    def __init__(self):
        self.monotonic = itertools.count().__next__


def of_the_limit(tests):
    """Behind the moment at which a series ends no migration is begun, and what was made is answered in its order."""
    make, clock, series.make, series.time = series.make, series.time, lambda number: number, Clock()
    tests.wants("those that were begun in time", list(series.make_all([(number,) for number in range(200)], 1, 9)), list(range(10)))
    tests.wants("without a limit", list(series.make_all([(1,), (2,), (3,)], 2)), [1, 2, 3])
    series.make, series.time = make, clock


ONE = """import os, sys, time
sys.path[:0] = [%r, %r]
import folders
folders.end_in_order()
print(os.getpid(), file=open(sys.argv[1], "w"))
try:
    time.sleep(60)
finally:
    open(sys.argv[1] + " ended", "w").close()
"""


def of_the_end_of_a_series(tests):
    """A migration ends in order with the series that it is made for, also where that one is killed."""
    script = (f"import sys\nsys.path[:0] = [{RECORDERS!r}, '{RECORDERS}/qemu', '{RECORDERS}/../bindings/python']\nimport series\nfrom kinds import plan_of\n"
              "series.HERE = sys.argv[1]\nlist(series.make_all([(plan_of('live'), sys.argv[2], [])], 1))")
    for number in (signal.SIGTERM, signal.SIGKILL):
        with tempfile.TemporaryDirectory() as room:
            with open(f"{room}/one.py", "w", encoding="utf-8") as out:
                out.write(ONE % (f"{RECORDERS}/qemu", RECORDERS))
            made = f"{room}/made"
            with subprocess.Popen([sys.executable, "-B", "-c", script, room, made]) as parent:
                is_begun = wait_for(made, os.path.getsize)
                parent.send_signal(number)
            tests.wants(f"a series that ends by signal {number}", (is_begun, wait_for(f"{made} ended", os.path.isfile)), (True, True))


def wait_for(path, is_there):
    """Waits half a minute for a file of which this holds. Returns whether it is there."""
    until = time.monotonic() + 30
    while not (os.path.exists(path) and is_there(path)) and time.monotonic() < until:
        time.sleep(0.01)
    return os.path.exists(path)


def of_words(tests):
    """A series of no migrations is no command: nothing would be wrong in it."""
    for words in (["qemu/campaign", "0"], ["qemu/campaign", "2", "--jobs", "0"], ["qemu/compare", "x", "--runs", "0"], ["qemu/shows", "hang", "--runs", "0"],
                  ["criu/campaign", "0"], ["criu/campaign", "2", "--jobs", "x"], ["qemu/linux_runs", "-5", "x"],
                  *(["qemu/migrate", "x", option, number] for option in ("--pre", "--pace", "--warm", "--skip", "--multifd") for number in ("-1", "nan")),
                  ["qemu/migrate", "x", "--cut", "-2"], ["criu/migrate", "x", "--delay", "-5"], ["criu/migrate", "x", "--after", "-5"],
                  ["qemu/linux", "x", "--recorded", "-1"], ["qemu/linux", "x", "--limit", "inf"], ["qemu/linux", "x", "--skip", "-1"]):
        least = 0 if words[0] in ("qemu/linux_runs", "qemu/migrate", "criu/migrate", "qemu/linux") else 1  # (of no runs linux_runs writes the table of those before)
        ran = subprocess.run([sys.executable, "-B", f"{RECORDERS}/{words[0]}", *words[1:]], capture_output=True, text=True)
        tests.wants(f"the words {' '.join(words)}", (ran.returncode, ran.stdout, f"is not a number of {least} or more" in ran.stderr), (2, "", True))
    for words, wanted in ((["qemu/migrate", "x", "--writes", "17"], "--writes is 16 at most"), (["qemu/migrate", "x", "--pace", "4294967296"], "--pace less than 4294967296"),
                          (["criu/migrate", "x", "--delay", "3600001"], "--delay is 3600000 at most")):
        ran = subprocess.run([sys.executable, "-B", f"{RECORDERS}/{words[0]}", *words[1:]], capture_output=True, text=True)
        tests.wants(f"the words {' '.join(words)}", (ran.returncode, ran.stdout, wanted in ran.stderr), (2, "", True))


def of_a_refusal(tests):
    """What a QEMU refuses is told, and is no traceback."""
    def refuse():
        raise Refused("migrate-set-parameters: Parameter 'multifd-channels' expects a value between 1 and 255")

    with tempfile.TemporaryDirectory() as room:
        one, said = Migration.__new__(Migration), []
        one.plan, one.folder, one.outcome, one.say, one.machines, one.migrate, one.room = Plan(), room, Outcome(), said.append, [], refuse, folders.Room()
        one.machine_class, one.source_emulator, one.target_emulator = (lambda *_: SimpleNamespace(waited=lambda: 0.0, end=lambda is_well: "", migration=lambda: "none")), *[SimpleNamespace(path="")] * 2
        one.record(None, "pc", {"source": (), "target": ()})
        one.room.end()
    told = ["gave up: migrate-set-parameters: Parameter 'multifd-channels' expects a value between 1 and 255"]
    tests.wants("what is told", (said, one.outcome.remarks, one.outcome.is_whole), (told, told, False))


def run(tests):
    of_words(tests)
    of_plans(tests)
    of_results(tests)
    of_deaths(tests)
    of_a_recorder_that_fails(tests)
    of_an_end_in_precopy(tests)
    of_a_busy_machine(tests)
    of_a_guest_that_stands_still(tests)
    of_the_limit(tests)
    of_the_end_of_a_series(tests)
    of_a_refusal(tests)
    with tempfile.TemporaryDirectory() as room:
        of_reports(tests, room)

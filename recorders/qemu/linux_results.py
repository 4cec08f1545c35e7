"""The results of migrations of Linux guests, one line for each, and the table of them by version."""
import contextlib
import json
import os
import re
import time
from dataclasses import asdict, dataclass
from typing import Optional

import dialect
from convert import recording_in
from files import lines_of, replace, write
from records import Hole
from results import markdown, name_of, was_put_in
from witness import pages_that_differ

FILE = "result.json"
OWN = "own kernel"  # the workload of a kernel that the user has brought
# In a line of the console that reports something wrong. `panic=1` on the kernel's command line is nothing wrong, and neither is `DEBUG:`.
WRONG = re.compile(r"guest: WRONG|\bBUG: |kernel BUG at|\bOops: |Kernel panic|segfault at|general protection")
IN_FIRST_ROUND = "the switch in pre-copy's first round"
LATER = "the switch in a later round"
PLAIN = "pre-copy alone"
NO_POSTCOPY = "not judged: there was no post-copy"
NOT_REACHED = ", not reached"
GREEN = ("clean", "nothing lost", "nothing lost in pre-copy")
BARE = ("nothing lost", "lost pages", "something wrong")
RUIN = ("clean", "faulty", "incomplete", "not judged", *BARE, *(f"{word} in pre-copy" for word in BARE))


@dataclass
class Result:
    version: str
    is_bare: bool
    cpus: int
    workload: str        # its name
    is_first_round: bool  # whether the switch came before pre-copy had sent each page once
    fault: str           # the kind that was put in, or that had no chance to be
    verdict: str         # of the audit, or `not judged: ..`; for a bare migration nothing, or the latter
    lost: int            # pages that pre-copy left at the target, and that differ from the source's at the halt; None where this is not known
    says: list           # what the guest reports on its console as wrong
    seconds: float = 0.0
    load: float = 0.0    # of the machine, at the end; 0 where this is not known
    made: str = ""       # when it ended, by UTC
    word: str = ""       # what became of it, where this alone is known
    is_precopy: bool = False  # whether pre-copy alone was asked for
    stands_still: Optional[bool] = None  # whether the guest stood still at the target; None where nobody looked
    death: str = ""      # how a QEMU ended by itself, in its words

    def to_text(self):
        later = {"stands_still": None, "death": ""}  # (the line of an earlier result stays as it was)
        return json.dumps({name: value for name, value in asdict(self).items() if name not in later or value != later[name]})

    @property
    def in_a_word(self):
        if self.word:
            return self.word
        if self.is_bare:
            return self.word_of_bare
        if self.verdict.startswith("not judged"):
            return self.not_judged
        return "clean" if self.verdict == "clean, yes" else self.verdict.split(" ")[0]

    @property
    def word_of_bare(self):
        """Returns what became of a bare migration. If post-copy was asked for and pre-copy came to its end before it, the word says so."""
        is_known = self.lost is not None and self.verdict in ("", NO_POSTCOPY)
        if not (is_known or self.lost or self.is_wrong_at_target):
            return self.not_judged
        word = "lost pages" if self.lost else "something wrong" if self.says or self.stands_still else "nothing lost"
        return word + " in pre-copy" * (self.verdict == NO_POSTCOPY)

    @property
    def not_judged(self):
        """Returns what became of a migration that is not judged: how a QEMU died, if one did."""
        return name_of(self.death) if self.death else "not judged"

    @property
    def status(self):
        """Returns the status of `linux` for a migration that came to its end."""
        if self.is_bare:
            return {"not judged": 4, "nothing lost in pre-copy": 4, "nothing lost": 0}.get(self.in_a_word, 1)
        if self.verdict.startswith("not judged"):
            return 4
        if self.verdict != "clean, yes" or self.is_wrong_at_target:
            return 1
        return 4 if self.fault.endswith(NOT_REACHED) else 0

    @property
    def is_wrong_at_target(self):
        """Returns whether the guest stands still at the target, or reports there that something is wrong. This needs no post-copy."""
        return bool(self.stands_still) or any(line.startswith("target: ") for line in self.says)

    @property
    def row(self):
        """Returns a row about the runs that are counted together."""
        switch = PLAIN if self.is_precopy else IN_FIRST_ROUND if self.is_first_round else LATER
        return (f"{'bare' if self.is_bare else 'recorded'}, {self.cpus} processor{'s' if self.cpus > 1 else ''}, `{self.workload}`, "
                f"{switch}" + (f", with {self.fault}" if self.fault else ""))


def result_from_text(text):
    return Result(**json.loads(text))


def plain(line):
    """Returns a line of a console as a terminal shows it: what is not printable is escaped, since the guest may write anything."""
    return "".join(it if it.isprintable() else ascii(it)[1:-1] for it in line.strip())


def what_guest_says(folder):
    """Returns lines of the consoles that report something wrong."""
    lines = []
    for side in ("source", "target"):
        path = f"{folder}/{side}.console"
        if os.path.exists(path):
            with open(path, encoding="utf-8", errors="replace") as file:
                lines += [f"{side}: {plain(line)}" for line in file if WRONG.search(line)]
    return lines


def result_of(folder, workload, is_bare, verdict, seconds, stands_still=False, death=""):
    """Returns the result of the migration in a folder, and writes it there."""
    recording = recording_in(folder)
    plan, lost = recording.plan, None
    if os.path.exists(f"{folder}/halt.mem") and not recording.wire.strange:
        with contextlib.suppress(Hole):
            lost = len(pages_that_differ(recording)[0])
    if not recording.wire.has_state and not plan.is_precopy:
        verdict = verdict or NO_POSTCOPY
    fault = plan.fault and (plan.fault if was_put_in(folder) else plan.fault + NOT_REACHED)
    result = Result(plan.source_version, is_bare, plan.cpus, workload, plan.pre_pages <= plan.pages, fault, verdict, lost,
                    what_guest_says(folder), round(seconds, 1), round(os.getloadavg()[0], 1), time.strftime("%Y-%m-%dT%H:%M:%S", time.gmtime()),
                    is_precopy=plan.is_precopy, stands_still=stands_still, death=death)
    write(f"{folder}/{FILE}", f"{result.to_text()}\n")
    return result


def results_in(path):
    """Returns the results that a file has, a line each. Raises ValueError, with the line, if one is none."""
    if not os.path.exists(path):
        return []
    return lines_of(path, result_from_text, "result of linux_runs")


def write_results(path, results):
    replace(path, "".join(f"{result.to_text()}\n" for result in results).encode())


def heading(results):
    """Returns the line above the table. The load of a run that was kept without one is not known."""
    loads = sorted(result.load for result in results if result.load)
    some = "" if len(loads) == len(results) else f"{len(loads)} of them "
    return f"{len(results)} migrations" + (f", {some}at a load of {loads[0]:.0f} to {loads[-1]:.0f}" if loads else "") + ":"


def table(results):
    """Returns the table of how often the runs of each kind had each result, by version."""
    versions = sorted({result.version for result in results}, key=dialect.version_of)
    lines = []
    for row in sorted({result.row for result in results}):
        cells = []
        for version in versions:
            words = [result.in_a_word for result in results if (result.row, result.version) == (row, version)]
            cells.append(", ".join(f"{words.count(word)} {word}" for word in (*RUIN, *sorted(set(words) - set(RUIN))) if word in words))
        lines.append([row, *cells])
    return markdown([["Migrations of", *versions], *lines])

"""Random plans of lazy migrations, and the table of their results."""
import collections
import re
from dataclasses import dataclass

from criu_plans import FAULTS, plan_of
from results import rows

DRAWN = ("live", "live", "wide", "cells", "threads", "released", "releases")


def random_plan(drawn, suites, with_faults=False, kinds=DRAWN):
    """Returns a random plan of one of these kinds. `drawn` is a random.Random."""
    kind = drawn.choice(kinds)
    plan = plan_of(kind, criu=drawn.choice(sorted(suites)))
    plan.pages = plan.pages if kind in ("wide", "cells") else drawn.choice((64, 128, 256, 512, 1024))
    plan.words = plan.words if kind in ("wide", "cells") else drawn.choice((1, 2, 8, 16, 32))
    if kind == "threads":
        plan.threads = drawn.choice((2, 3, 4, 8))
    elif not kind.startswith("split"):
        plan.threads = drawn.choice((1, 1, 1, 2, 4))
    plan.pace = drawn.choice((3, 12, 50))
    plan.writes = drawn.choice((4, 16, 32))
    plan.warm = drawn.choice((200, 1000, 4000))
    plan.after = drawn.choice((200, 1000))
    plan.delay = drawn.choice((0, 0, 2, 10)) if not kind.startswith("split") else plan.delay
    if kind in ("released", "releases"):
        plan.releases = drawn.choice((1, 2, 6))
    if with_faults and drawn.random() < 0.5:
        plan.fault = drawn.choice(sorted(FAULTS))
        plan.skip = drawn.choice((0, 1, 3))
    return plan


@dataclass
class Result:
    """The result of one. `version` is that of CRIU, and `was_put_in` says whether the fault was put in."""
    plan: object
    version: str
    verdict: str
    end: str
    was_put_in: bool = False

    @property
    def is_clean(self):
        return self.verdict == "clean, yes" and self.end == "completed"

    @property
    def is_settled(self):
        """Whether nothing about it must be kept."""
        return self.is_clean and not self.plan.fault

    @property
    def reason(self):
        """Returns the verdict without the number of its line or page."""
        return re.sub(r" line \d+|(?<=page) \d+", "", self.verdict.split(":")[0])

    @property
    def fault(self):
        if not self.plan.fault:
            return "-"
        return self.plan.fault if self.was_put_in else f"{self.plan.fault}, not reached"

    def line(self):
        return f"{self.plan.kind}, CRIU {self.version}, fault {self.fault}: {self.verdict}; {self.end}"


def table(results, seconds):
    counts = collections.Counter((result.plan.kind, result.version, result.fault, result.reason, result.end) for result in results)
    return "\n".join([f"{len(results)} migrations in {seconds:.0f} s, {sum(result.is_clean for result in results)} clean", "",
                      *rows(("kind", "CRIU", "fault", "verdict", "CRIU says"), counts)])

"""Plans of migrations: random ones, and those that compare versions."""
import axes
from faults import KINDS as FAULTS
from faults import NEED_CUT, pages_before
from kinds import plan_of

DRAWN = ("live", "left", "cells", "wide", "paused", "processors", "preempt", "recovery", "preempt-recovery")

CUT_BEHIND_PACKAGE = {"pages": 64, "warm": 200, "cuts": [-1]}

# What the migration does, its kind, and what differs in its plan.
COMPARED = {
    "live": ("none", "live", {"warm": 200, "after": 500}),
    "recovery": ("none, with a recovery", "recovery", {"pages": 256, "warm": 200, "after": 500, "cuts": [100]}),
    "preempt-recovery": ("none, with preempt and a recovery", "preempt-recovery",
                         {"pages": 256, "warm": 200, "after": 500, "cuts": [100]}),
    "multifd": ("none, with multifd", "multifd", {"pages": 256, "warm": 200, "after": 500}),
    "kvm": ("none, by KVM", "kvm", {}),
    "dirty-ring": ("none, by KVM with a dirty ring", "dirty-ring", {}),
    "lost-write": ("64 pages without `--flush`: lost writes", "lost-write", {}),
    "hot-pages": ("the guest goes over to writing pages that are not sent yet", "hot-pages", {}),
    "second-block": ("the same in the second RAM block", "lost-write", {"memory": "numa"}),
    "shorter-block": ("the same, and the first block is shorter", "lost-write", {"memory": "uneven"}),
    "cut-behind-last-page": ("a cut after the last page", "recovery", {"pages": 64, "warm": 200, "cuts": [55]}),
    "cut-behind-package": ("a cut after the package", "recovery", CUT_BEHIND_PACKAGE),
    "cut-behind-package-preempt": ("a cut after the package, with preempt", "preempt", CUT_BEHIND_PACKAGE),
    "failed-load": ("the same without preempt, and a QEMU that fails ends 0.1 s later", "recovery",
                    {"pages": 64, "cpus": 2, "writes": 15, "pace": 20000, "warm": 200, "pre_pages": 80, "cuts": [-1], "linger": 100}),
}


def plan_compared(name):
    _, kind, changes = COMPARED[name]
    return plan_of(kind, **changes)


def ram_for(plan):
    """Returns how many MiB of memory the window needs."""
    return max(32, (plan.base >> 20) + (plan.pages >> 8) + 8)


def random_plan(drawn, with_faults=False, without_flush=False):
    """Returns a random plan. `drawn` is a random.Random."""
    kind = drawn.choice(DRAWN)
    plan = plan_of(kind)
    plan.words = plan.words if kind in ("cells", "wide") else drawn.choice((1, 2, 8, 16, 32))
    plan.pages = plan.pages if kind == "wide" else drawn.choice((64, 128, 256, 512, 1024))
    plan.ram = ram_for(plan)
    plan.cpus = drawn.choice((2, 3, 4)) if kind == "processors" else drawn.choice((1, 1, 1, 2, 4))
    plan.writes = drawn.choice((1, 4, 8, 15))
    plan.pace = drawn.choice((0, 0, 500, 2000))
    plan.bandwidth = drawn.choice((500_000, 1_000_000, 2_000_000, 5_000_000))
    plan.post_bandwidth = drawn.choice((500_000, 1_000_000, 2_000_000, 4_000_000))
    if kind == "wide":
        plan.post_bandwidth = max(plan.post_bandwidth, 4_000_000)
    plan.warm = drawn.choice((0, 200, 2000))
    plan.pre_pages = drawn.choice((0, plan.pages // 2, plan.pages, plan.pages * 5 // 4))
    plan.pre = drawn.choice((0.0, 0.05, 0.3))
    plan.after = drawn.choice((200, 2000))
    plan.limit = 30.0
    if "recovery" in kind:
        plan.cuts = random_cuts(drawn, plan)
    if without_flush and drawn.random() < 0.5:
        plan.flush = False
    if with_faults and drawn.random() < 0.5:
        plan.fault = drawn.choice([fault for fault in FAULTS if plan.cuts or fault not in NEED_CUT])
        plan.skip = drawn.choice((0, 3, 20))
        plan.pre_pages = max(plan.pre_pages, pages_before(plan.fault, plan.pages))
    return plan


def plan_by_axes(drawn, row):
    """Returns a plan with the values of a row of axes, whose sizes, rates and moments are random. `drawn` is a random.Random."""
    plan = plan_of("live", ram=16, pages=drawn.choice((64, 64, 128, 256)), words=drawn.choice((1, 8, 32)), writes=drawn.choice((4, 8, 15)),
                   bandwidth=drawn.choice((500_000, 1_000_000, 2_000_000)), post_bandwidth=drawn.choice((300_000, 1_000_000)),
                   warm=drawn.choice((0, 200, 2000)), pre=0.0, after=drawn.choice((200, 2000)), limit=30.0, **axes.fields_of(row))
    # A guest that is stopped dirties no page again, and one that keeps translations loses what it writes to a page that was sent.
    plan.pre_pages = plan.pages // 2 if plan.paused else plan.pages * 9 // 8 if row["guest"] == axes.KEEPS else drawn.choice((plan.pages // 2, plan.pages * 9 // 8))
    if plan.hot and row["capability"] == "auto-converge":
        # From the second round on it synchronizes the bitmap each 5 s. So a round takes 26 s, and sends the hot pages after 19 s.
        plan.pages, plan.ram, plan.words, plan.writes, plan.bandwidth, plan.pre_pages, plan.limit = 8192, 64, 1, 15, 1_300_000, 15360, 150.0
    elif plan.hot:
        plan.pages, plan.bandwidth, plan.pre_pages = 512, 1_000_000, 448
    if plan.kvm:
        # A KVM that emulates this guest, as on some machines, makes some hundred accesses a second.
        plan.pages, plan.ram, plan.warm, plan.after, plan.bandwidth, plan.post_bandwidth, plan.limit = 128 if plan.hot else 64, 16, 50, 100, 200_000, 200_000, 40.0
        plan.pre_pages = plan.pages * 7 // 8 if plan.hot else min(plan.pre_pages, plan.pages // 2)
    moved = axes.moved(plan)
    # (A cut that is earlier ends the targets of old versions. One at the last pages loses up to 22 of them.)
    plan.cuts = {axes.UNCUT: [], axes.EARLY: [drawn.randrange(moved // 8, moved // 4)], axes.LATE: [moved - drawn.randrange(5, 14)]}[row["cut"]]
    return plan


def random_cuts(drawn, plan):
    """Returns where the connection is cut, once or twice: after the package, at its first page, or later."""
    first = drawn.choice((-1, 0, drawn.randrange(plan.pages), drawn.randrange(plan.pages)))
    return [first] if drawn.random() < 0.7 else [first, drawn.randrange(plan.pages)]

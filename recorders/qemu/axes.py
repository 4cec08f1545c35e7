"""The axes of a campaign's plans, rows in which each pair of their values stands, and what each pair gave."""
import collections
import itertools

from build import Missing
from kinds import ENTRIES, MEMORIES
from results import GOOD, markdown, versions_of

DROPS, KEEPS, HOT, PAUSED = "drops translations", "keeps translations", "writes hot pages", "is paused"  # the guest, in pre-copy
TCG, KVM, RING = "tcg", "kvm", "kvm with a dirty ring"
UNCUT, EARLY, LATE = "no", "early", "at the last pages"  # where the connection is cut

# The values of each axis, by its name. The first is what a plan has that is drawn without axes.
AXES = {
    "memory": tuple(MEMORIES),
    "machine": ("pc", "q35"),
    "capability": ("none", "auto-converge", "xbzrle", "multifd"),
    "transport": ("unix", "tcp"),  # (fd has neither preempt nor multifd)
    "guest": (DROPS, KEEPS, HOT, PAUSED),
    "preempt": ("no", "yes"),
    "cut": (UNCUT, EARLY, LATE),
    "processors": (1, 2, 4),
    "accelerator": (TCG, KVM, RING),
}

# Pairs with which QEMU was found to lose memory, or to run the guest on both sides.
FOUND = ((("memory", "one"), ("guest", HOT)), (("guest", DROPS), ("cut", LATE)), (("memory", "uneven"), ("guest", KEEPS)), (("memory", "numa"), ("guest", KEEPS)))


def pairs_of(row, values=AXES):
    """Returns the pairs of a row, each as ((axis, value), (axis, value))."""
    return set(itertools.combinations(((axis, row[axis]) for axis in values), 2))


def all_pairs(values=AXES):
    return {((one, a), (other, b)) for one, other in itertools.combinations(values, 2) for a in values[one] for b in values[other]}


def possible(requires, every=AXES):
    """Returns the axes with the values that a QEMU can have, each beside the first of all others, and why it cannot have the rest, as
    {(axis, value): why}. `requires` raises Missing for a row that it cannot make."""
    first, refused = {axis: values[0] for axis, values in every.items()}, {}
    for axis, values in every.items():
        for value in values[1:]:
            try:
                requires({**first, axis: value})
            except Missing as fault:
                refused[axis, value] = str(fault)
    return {axis: tuple(value for value in values if (axis, value) not in refused) for axis, values in every.items()}, refused


def rows(drawn, values):
    """Returns rows, each with a value of each axis, so that each pair of these values stands in one of them. `drawn` is a random.Random."""
    found, left = [], all_pairs(values)
    while left:
        row = dict(drawn.choice(sorted(left, key=str)))
        for axis in drawn.sample(list(values), len(values)):
            if axis not in row:
                row[axis] = max(drawn.sample(values[axis], len(values[axis])), key=lambda value: len(left & new_pairs(row, axis, value, list(values))))
        found.append(row)
        left -= pairs_of(row, values)
    return found


def in_order(drawn, values, seen=()):
    """Returns the rows of a campaign: first one of each pair of FOUND, with the first value of all other axes, and then those of `rows`, each time
    the one with most pairs that are new. `seen` has pairs that are not."""
    first, seen = {axis: of_axis[0] for axis, of_axis in values.items()}, set(seen)
    found = [{**first, **dict(pair)} for pair in FOUND if all(value in values[axis] for axis, value in pair)]
    left = rows(drawn, values)
    seen.update(*map(pairs_of, found))
    while left:
        found.append(max(left, key=lambda row: len(pairs_of(row) - seen)))
        left.remove(found[-1])
        seen |= pairs_of(found[-1])
    return found


def new_pairs(row, axis, value, places):
    """Returns the pairs that a value of a further axis makes with those of a row. `places` has all axes, in order."""
    return {tuple(sorted([(axis, value), other], key=lambda one: places.index(one[0]))) for other in row.items()}


def fields_of(row):
    """Returns what a row sets in a plan, but for its cuts."""
    return {"memory": row["memory"], "machine": row["machine"], "further": [row["capability"]] if row["capability"] not in ("none", "multifd") else [],
            "multifd": 2 if row["capability"] == "multifd" else 0, "transport": row["transport"], "flush": row["guest"] in (DROPS, PAUSED),
            "hot": 32 if row["guest"] == HOT else 0, "paused": row["guest"] == PAUSED, "preempt": row["preempt"] == "yes", "cpus": row["processors"],
            "kvm": row["accelerator"] != TCG, "dirty_ring": ENTRIES if row["accelerator"] == RING else 0}


def row_of(plan):
    """Returns the row of a plan that was drawn by axes."""
    return {"memory": plan.memory, "machine": plan.machine, "capability": "multifd" if plan.multifd else plan.further[0] if plan.further else "none",
            "transport": plan.transport, "guest": PAUSED if plan.paused else HOT if plan.hot else DROPS if plan.flush else KEEPS,
            "preempt": "yes" if plan.preempt else "no", "cut": UNCUT if not plan.cuts else LATE if plan.cuts[0] * 2 > moved(plan) else EARLY,
            "processors": plan.cpus, "accelerator": RING if plan.dirty_ring else KVM if plan.kvm else TCG}


def moved(plan):
    """Returns how many pages of the window a plan that was drawn by axes leaves to post-copy, about."""
    return plan.hot or (plan.pages // 2 if plan.paused else plan.pages)


def in_words(part):
    return ", ".join(f"{axis} {value}" for axis, value in part)


def counted(results):
    """Returns what each value and each pair gave, as {part: {version: Counter}}. A part is a tuple of one or two (axis, value)."""
    found = collections.defaultdict(lambda: collections.defaultdict(collections.Counter))
    for result in results:
        row = row_of(result.plan)
        for part in [*((one,) for one in row.items()), *pairs_of(row)]:
            found[part][result.version][result.in_a_word] += 1
    return found


def order(part):
    return len(part), str(part)


def gave(results):
    """Returns the versions, and what each value and each pair gave by each of them: [(part, [words of a version])]."""
    versions, found = versions_of(results), counted(results)
    return versions, [(part, [", ".join(f"{count} {word}" for word, count in found[part][version].most_common()) for version in versions]) for part in sorted(found, key=order)]


def table(results):
    """Returns the table of what each value and each pair gave, by version."""
    versions, found = gave(results)
    return markdown([["Of the migrations with", *versions], *([in_words(part), *cells] for part, cells in found)])


def in_common(results):
    """Yields a line for each version and each thing that became of two or more migrations that were not clean: the values that all of these
    have, and of how many migrations with these values it became."""
    versions = sorted({result.version for result in results})
    for version, word in sorted({(result.version, result.in_a_word) for result in results} - {(version, word) for version in versions for word in GOOD}):
        of_version = [(row_of(result.plan).items(), result.in_a_word) for result in results if result.version == version]
        found = [row for row, its in of_version if its == word]
        common = [one for one in found[0] if all(one in row for row in found)]
        every = sum(all(one in row for one in common) for row, _ in of_version)
        if len(found) > 1:
            yield f"{version or 'no QEMU'}: {len(found)} {word}; {len(found)} of {every} with {in_words(common) or 'nothing in common'}"


def not_made(results):
    """Returns the pairs that no migration had."""
    return all_pairs().difference(*(pairs_of(row_of(result.plan)) for result in results))

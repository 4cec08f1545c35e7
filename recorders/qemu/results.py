"""The results of the migrations of a campaign, and the table of them."""
import collections
import json
import os
import re
from dataclasses import asdict, dataclass, field
from xml.etree import ElementTree

from dialect import version_of
from files import lines_of
from kinds import plan_from_text

BUSY = "not at its end on a busy machine"
# The names of a migration's ends in the table, and of some what QEMU says. Any other end is there in QEMU's words.
ENDS = (
    ("source waits for itself", "Cannot resume if there is no paused migration"),
    (BUSY, "(it took more than|the guest does not walk|no recovery: source postcopy-).*the machine was busy"),
    ("source waits forever", "no recovery: source postcopy-(active|device|recover)"),
    ("target aborted", "target ENDED.*; target(:| aborted:) [^;]*Assertion .* failed"),
    ("target ended: `Operation not permitted`", "target ENDED.*loadvm failed during postcopy: -1: .*Operation not permitted"),
    ("target ended while it loaded", "target ENDED.*(load of migration failed|loadvm failed)"),
    ("target failed while it loaded", "no recovery: source [a-z-]+, target failed$"),
    ("target hangs", "target HANGS"),
    ("source hangs", "source HANGS"),
    ("target failed by itself", "the target went to"),
    ("source failed after a cut", "no recovery: source failed"),
    ("pre-copy came to its end", "pre-copy: (completed|device)"),
    ("pre-copy failed{}", "gave up: pre-copy: failed(?P<words>: [^;]*)?"),
    ("refused{}", "gave up(?P<words>: (?:migrate|cont|stop)[a-z-]*: [^;]*)"),
    ("not at its end within its limit", "it took more than"),
)

# Why a recording is not judged, and the word for it.
NO_POSTCOPY = "there was no post-copy"
NOT_MADE = "not made"
UNFINISHED = "the migration did not come to its end: "  # and how it ended
UNJUDGED = (("lost pages in pre-copy", r"; pre-copy lost \d"), ("nothing lost in pre-copy", "; pre-copy lost none"), ("no post-copy", NO_POSTCOPY), ("lost stack", "are no event"), ("unknown stream", "the stream has what is not known here"),
            ("refused{}", "cannot migrate with [^:]*(?P<words>: .*)"), ("machine not there", "has no machine"))


# Whose an end is, by the word of a result. The first that fits is the owner; of what fits none it is not known.
NOBODY, NOT_KNOWN = "nobody", "not known"
GOOD = ("clean", "cut not reached", "nothing lost in pre-copy")  # words of results that are no fault
OWNERS = (
    (NOBODY, "|".join(GOOD)),
    ("the machine", BUSY),
    ("the plan", "no post-copy|pre-copy came to its end|machine not there|refused: .*"),
    ("the target", "(.* and )?target .*"),
    ("the source", "both ran.*|returned.*|source .*"),
    ("QEMU", "`.*`|lost pages in pre-copy|pre-copy failed.*"),
    ("the recorder", "not judged|unknown stream"),
)


# The sections of docs/FOUND.md by what shows them: the word of a result, and what its plan has. The first that fits is the one.
LOST = "`(read|altered)`|lost pages in pre-copy"
KNOWN = (
    ("the-source-aborts-in-pre-copy", r"source aborted: Assertion `block == qemu_get_ram_block", lambda plan: plan.memory != "one"),
    ("lost-writes-to-each-ram-block-but-the-first", LOST, lambda plan: plan.memory != "one" and plan.keeps),
    ("lost-writes-to-pages-not-sent-yet", LOST, lambda plan: plan.hot and plan.keeps),
    ("others-of-qemu", LOST, lambda plan: plan.keeps),
    ("the-guest-runs-on-both-sides", "both ran", lambda plan: plan.cuts),
    ("the-target-hangs-with-preempt", "(returned and )?target hangs", lambda plan: plan.preempt and not plan.multifd),
    ("a-lost-answer", "returned$|source waits forever", lambda plan: plan.cuts and not plan.multifd),
    ("a-post-copy-with-nothing-left-to-send", "target ended: `Operation not permitted`", lambda plan: True),
    ("the-source-waits-for-itself", "source waits for itself", lambda plan: plan.cuts),
    ("a-guest-started-after-a-failed-load", "`early`", lambda plan: plan.cuts),
    ("others-of-qemu", "target (aborted|hangs|was killed)|source waits forever", lambda plan: plan.multifd),
    ("others-of-qemu", "target ended while it loaded", lambda plan: plan.cuts),
)
LONGEST_LIST = 8  # pages that a line names


@dataclass
class Result:
    plan: object
    verdict: str
    outcome: str
    is_put_in: bool = False  # whether the plan's fault was put in
    restart: str = ""        # the message, if the source started its guest again
    version: str = ""        # of QEMU, or of both
    is_cut_missed: bool = False  # whether it ended before a planned cut
    load: float = 0.0        # of the machine, after the migration: how many processes wanted to run
    death: str = ""          # how a QEMU ended by itself, in its words: the source, or else the target
    pages: list = field(default_factory=list)  # that pre-copy left at the target and that differ from the source's at the halt

    def to_text(self):
        return json.dumps({**asdict(self), "plan": json.loads(self.plan.to_text())})

    @property
    def ran(self):
        """`both ran` or `returned`, or nothing."""
        return self.restart.split(":")[0]

    @property
    def reason(self):
        """Returns the verdict without its line's number, and without what only this one has."""
        verdict = re.sub(r" line \d+|0x[0-9a-f]+|\d+", "", self.verdict).strip()
        return f"{self.ran}; {verdict}" if self.ran else verdict

    @property
    def in_a_word(self):
        """Returns the result, in the words of a table of versions."""
        if self.ran:
            return " and ".join([self.ran, *([self.end] if self.end.endswith("hangs") else [])])
        if self.verdict.startswith("faulty"):
            return f"`{self.verdict.split()[-1]}`"
        if self.end == BUSY:
            return BUSY
        if self.is_clean:
            return "cut not reached" if self.is_cut_missed else "clean"
        if self.is_unfinished:
            return self.end
        if self.verdict.startswith("not judged"):
            return named(UNJUDGED, self.verdict) or "not judged"
        return self.reason

    @property
    def is_unfinished(self):
        """Returns whether the end says what became of it: a QEMU died, hangs, or failed in pre-copy, or what was recorded until then is right."""
        is_right = self.verdict.startswith(("clean", "incomplete", f"not judged: {UNFINISHED}"))
        is_in_precopy = NO_POSTCOPY in self.verdict and (self.end.endswith("hangs") or self.end.startswith(("pre-copy failed", "refused")))
        return self.outcome != "completed" and is_right or self.is_by_death or is_in_precopy

    @property
    def is_by_death(self):
        """Returns whether all else followed from the death of a QEMU: of the source, or of the target in pre-copy."""
        return bool(self.death) and (self.death.startswith("source") or NO_POSTCOPY in self.verdict)

    @property
    def is_clean(self):
        return self.verdict == "clean, yes" and self.outcome == "completed" and not self.ran

    @property
    def end(self):
        """Returns the name of the end, or the message about it."""
        if self.outcome == "completed":
            return self.outcome
        known = named(ENDS, self.outcome)
        if self.death and (self.is_by_death or not known):
            return name_of(self.death)
        return known or re.sub(r"\d+", "N", self.outcome)

    @property
    def is_settled(self):
        """Returns whether there is nothing to look at: everything went well, and no fault was put in that should have been found."""
        return self.is_clean and not self.is_put_in

    @property
    def test(self):
        """Returns what it is as a test: passed (nothing), a `failure`, or an `error` if it was not judged."""
        return "" if self.is_clean else "error" if self.verdict.startswith("not judged") else "failure"

    @property
    def owner(self):
        """Returns whose its end is."""
        if self.is_put_in:
            return "the fault that was put in"
        return next((owner for owner, form in OWNERS if re.fullmatch(form, self.in_a_word)), NOT_KNOWN)

    @property
    def known(self):
        """Returns the section of docs/FOUND.md that it looks like, or nothing. (What a fault that was put in gave is none.)"""
        return "" if self.is_put_in else next((section for section, form, fits in KNOWN if re.match(form, self.in_a_word) and fits(self.plan)), "")

    @property
    def fault(self):
        if not self.plan.fault:
            return "-" if self.plan.flush else "no flush"
        return self.plan.fault if self.is_put_in else f"{self.plan.fault}, not reached"

    def plan_in_words(self):
        plan = self.plan
        parts = [plan.kind, f"{plan.pages} pages of {plan.words}", f"{plan.cpus} processors"]
        parts += [f"cut at {' '.join(map(str, plan.cuts))}"] if plan.cuts else []
        parts += [] if self.fault == "-" else [self.fault]
        parts += [f"{what} {value}" for what, value in (("memory", plan.memory), ("machine", plan.machine), ("transport", plan.transport)) if value not in ("one", "pc", "unix")]
        parts += [*plan.further, *(f"{name} {value}" for name, value in plan.parameters.items())]
        parts += [what for what in ("hot", "paused", "preempt", "multifd") if getattr(plan, what) and what not in plan.kind]
        return ", ".join(parts)

    def told(self):
        """Returns the verdict, which pages it lost, and what QEMU says."""
        more = len(self.pages) - LONGEST_LIST
        lost = f"lost page{'s' if len(self.pages) > 1 else ''} {' '.join(map(str, self.pages[:LONGEST_LIST]))}{f' and {more} more' if more > 0 else ''}" if self.pages else ""
        return "; ".join(filter(None, [self.verdict, self.restart, lost, self.outcome]))

    def line(self):
        return f"{self.plan_in_words()}: {self.told()}"


def named(names, words):
    """Returns the first of these names whose form is in the words, with what the form takes from them; or nothing."""
    for name, form in names:
        if match := re.search(form, words):
            return name.format(match.groupdict().get("words") or "")
    return ""


def name_of(death):
    """Returns how a QEMU died, without its name and the place in its source."""
    return re.sub(r"(?<=: )(\S*qemu-system-\S*: |.*(?=Assertion ))", "", death)


def result_from_text(text):
    fields = json.loads(text)
    return Result(**{**fields, "plan": plan_from_text(json.dumps(fields["plan"]))})


def of_campaign(folder):
    """Returns the results that a campaign left in its folder. One that is under way will do."""
    return lines_of(f"{folder}/results", result_from_text, "result of a campaign")


def known(found):
    """Yields a line for each section of docs/FOUND.md that results look like, by version, with their numbers in the campaign."""
    of_each = collections.defaultdict(list)
    for number, result in enumerate(found):
        if result.known:
            of_each[result.version or "no QEMU", result.known].append(f"{number:05}")
    for (version, section), numbers in of_each.items():
        yield f"{version}: {len(numbers)} as docs/FOUND.md#{section}: {' '.join(numbers)}"


def read(path):
    if not os.path.exists(path):
        return ""
    with open(path) as file:
        return file.read()


def result_of(plan, folder, done):
    """Returns the result of a migration. `done` is the process that made it."""
    verdict = read(f"{folder}/verdict").strip()
    if done.returncode or not verdict:
        said = (done.stderr.strip().splitlines() or ["nothing"])[-1]
        return Result(plan, f"not judged: the recorder ended with {said}", "")
    outcome, made = json.loads(read(f"{folder}/outcome.json")), json.loads(read(f"{folder}/plan.json"))
    version = " to ".join(dict.fromkeys([made["source_version"], made["target_version"]]))
    is_cut_missed = any("cut not reached" in remark for remark in outcome["remarks"])
    return Result(plan, verdict, outcome_in_words(outcome), was_put_in(folder), read(f"{folder}/restart").strip(), version, is_cut_missed,
                  death=min(outcome["deaths"], default=""), pages=lost_pages(folder))


def lost_pages(folder):
    """Returns the pages that the witness names."""
    return [int(page) for page in read(f"{folder}/witness").partition("at the halt: ")[2].split()]


def was_put_in(folder):
    """Returns whether the relay or the preloaded library put a fault in."""
    if any(line.startswith("fault ") for line in read(f"{folder}/relay.log").splitlines()):
        return True
    path = f"{folder}/target.raw"
    if not os.path.exists(path):
        return False
    with open(path, "rb") as file:
        return b"uffd early" in file.read()


def outcome_in_words(outcome):
    if outcome["source"] == outcome["target"] == "completed" and not outcome["lost"] and not outcome["stands_still"]:
        return "completed"
    return "; ".join([f"source {outcome['source']}, target {outcome['target']}", *outcome["remarks"]])


def versions_of(found):
    """Returns the versions of the recorded migrations, from old to new."""
    return sorted({result.version for result in found} - {""}, key=lambda text: [version_of(one) for one in text.split(" to ")])


def rows(head, counts):
    lines = [[*head, "how often"], *([*key, str(count)] for key, count in sorted(counts.items(), key=lambda one: (-one[1], one[0])))]
    widths = [max(len(line[place]) for line in lines) for place in range(len(lines[0]))]
    return ["  ".join(word.ljust(width) for word, width in zip(line, widths)).rstrip() for line in lines]


def markdown(lines):
    """Returns a Markdown table. The first line is its head."""
    head, *rest = [[cell.replace("|", "\\|") for cell in line] for line in lines]
    return "\n".join(f"| {' | '.join(line)} |".replace("|  ", "| ") for line in [head, ["---"] * len(head), *rest])


def table(results, seconds):
    """Returns the table of how often each version had each verdict for each kind, and messages about those that were not clean."""
    counts = collections.Counter(
        (result.version, result.plan.kind, result.fault, result.reason, result.end)
        for result in results)
    ran = collections.Counter(result.ran for result in results if result.ran)
    of_all = [f"{sum(result.is_clean for result in results)} clean", *(f"{count} {name}" for name, count in sorted(ran.items()))]
    return "\n".join([f"{len(results)} migrations in {seconds:.0f} s, {', '.join(of_all)}", "",
                      *rows(("version", "kind", "fault", "verdict", "QEMU"), counts)])


def junit(found, count):
    """Returns a report of a campaign of so many migrations, in JUnit's form. What was not clean is a failure; what was not judged, or not made,
    is an error."""
    suite, counts = ElementTree.Element("testsuite", name="campaign", tests=str(count)), collections.Counter()
    for number, result in enumerate([*found, *[None] * (count - len(found))]):
        case = ElementTree.SubElement(suite, "testcase", classname=result.version if result else "", name=f"{number:05}")
        if result and result.is_clean:
            continue
        what = result.test if result else "error"
        counts[what] += 1
        words = (result.in_a_word, result.line()) if result else (NOT_MADE, f"it was {NOT_MADE}")
        ElementTree.SubElement(case, what, dict(zip(("type", "message"), map(printable, words))))
    suite.attrib.update(failures=str(counts["failure"]), errors=str(counts["error"]))
    return ElementTree.tostring(suite, encoding="unicode") + "\n"


def printable(text):
    """Returns a text without what XML cannot have."""
    return "".join(character if character.isprintable() else "?" for character in text)

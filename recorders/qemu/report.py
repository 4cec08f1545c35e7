"""A report of many migrations as one page of HTML. It is whole without a network, without scripts and without another file."""
import collections
import os
import re
from dataclasses import dataclass
from urllib.parse import quote
from xml.etree import ElementTree

import axes
from files import replace
from results import NOBODY, NOT_MADE, Result, printable

HERE = os.path.dirname(os.path.abspath(__file__))
FOUND = f"{HERE}/../../docs/FOUND.md"
STYLE = """
:root { color-scheme: light dark; --text: #1b1f24; --page: #fff; --line: #d0d7de; --head: #f3f5f7; --quiet: #57606a; --failure: #b3261e; --error: #8a5300; --passed: #1a6b35; --link: #0b57d0; }
@media (prefers-color-scheme: dark) { :root { --text: #e6e8eb; --page: #15181c; --line: #3a4149; --head: #1f242a; --quiet: #a0a8b1; --failure: #ff8a80; --error: #f2b85c; --passed: #7ad69a; --link: #8ab4f8; } }
body { margin: 2rem auto; max-width: 84rem; padding: 0 1rem; background: var(--page); color: var(--text); font: 15px/1.5 system-ui, sans-serif; }
h1 { font-size: 1.6rem; margin-bottom: .2rem; } h2 { font-size: 1.15rem; margin: 2rem 0 .6rem; } a { color: var(--link); }
p.of { color: var(--quiet); margin-top: 0; }
ul.counts { display: flex; flex-wrap: wrap; gap: .8rem; list-style: none; padding: 0; }
ul.counts li { border: 1px solid var(--line); border-radius: .5rem; padding: .4rem .9rem; } ul.counts b { display: block; font-size: 1.5rem; line-height: 1.3; }
.wide { overflow-x: auto; } table { border-collapse: collapse; width: 100%; font-size: .93rem; }
th, td { border-bottom: 1px solid var(--line); padding: .3rem .5rem; text-align: left; vertical-align: top; }
th { background: var(--head); white-space: nowrap; } td:first-child { white-space: nowrap; }
.failure .word, li.failure b { color: var(--failure); } .error .word, li.error b { color: var(--error); } .passed .word, li.passed b { color: var(--passed); }
.word { font-weight: 600; } .said { overflow-wrap: anywhere; min-width: 18rem; }
details { margin: .5rem 0; } summary { cursor: pointer; } pre { white-space: pre-wrap; font: inherit; border-left: 3px solid var(--line); padding-left: .9rem; }
"""


@dataclass
class Run:
    """A migration of a report: its name, its folder, and its result, or None if it was not made."""
    name: str
    folder: str
    result: Result = None

    @property
    def kind(self):
        return (self.result.test or "passed") if self.result else "error"

    @property
    def word(self):
        return self.result.in_a_word if self.result else NOT_MADE

    @property
    def fault(self):
        """Returns what it is counted under: its QEMU, the section that it looks like or its word, and whose it is."""
        return self.result.version or "no QEMU", self.result.known, "" if self.result.known else self.word, self.result.owner


def plain(text):
    """Returns a text of lines without what a page cannot have."""
    return "\n".join(map(printable, text.split("\n")))


def node(tag, /, *inside, **attributes):
    """Returns an element with texts and elements inside, of which each text is escaped where the page is written. `of` is its class."""
    made = ElementTree.Element(tag, {{"of": "class"}.get(key, key): plain(value) for key, value in attributes.items()})
    for one in inside:
        if isinstance(one, ElementTree.Element):
            made.append(one)
        elif len(made):
            made[-1].tail = (made[-1].tail or "") + plain(one)
        else:
            made.text = (made.text or "") + plain(one)
    return made


def table(head, rows, **attributes):
    """Returns a table. A row is its cells, or an element."""
    made = [row if isinstance(row, ElementTree.Element) else node("tr", *(node("td", cell) for cell in row)) for row in rows]
    body = node("table", node("thead", node("tr", *(node("th", cell) for cell in head))), node("tbody", *made), **attributes)
    return node("div", body, of="wide")


def sections():
    """Returns the title and the text of each section of docs/FOUND.md, by its name in links."""
    with open(FOUND, encoding="utf-8") as page:
        parts = [part.partition("\n") for part in re.split("^## ", page.read(), flags=re.MULTILINE)[1:]]
    return {title.lower().replace(" ", "-"): (title, text.strip()) for title, _, text in parts}


def place_of(folder, page):
    """Returns where a folder is, for a link in a page."""
    return quote(os.fsencode(f"./{os.path.relpath(folder, os.path.dirname(os.path.abspath(page)))}"))


def links(runs):
    """Returns links to the rows of migrations, with spaces between."""
    return [part for run in runs for part in (node("a", run.name, href=f"#run-{run.name}"), " ")][:-1]


def faults(runs, titles):
    """Returns the table of what was not clean, first what has a page: each fault with its page or its word, whose it is, and what QEMU said in the
    first of these."""
    found = collections.defaultdict(list)
    for run in runs:
        if run.result and run.result.test:
            found[run.fault].append(run)
    rows = []
    for (version, section, word, owner), of_it in sorted(found.items(), key=lambda one: (not one[0][1], one[0][0], -len(one[1]), one[0])):
        title, _ = titles.get(section, (f"docs/FOUND.md#{section}", ""))
        name = node("a", title, href=f"#{section}", of="word") if section in titles else node("span", word or title, of="word")
        rows.append(node("tr", node("td", version), node("td", name), node("td", owner), node("td", str(len(of_it))), node("td", *links(of_it)),
                         node("td", of_it[0].result.outcome, of="said"), of=of_it[0].kind))
    return table(["QEMU", "What", "Whose", "How often", "Migrations", "QEMU says of the first"], rows, id="faults") if rows else node("p", "Nothing.")


def row_of(run, page, titles):
    """Returns the row of a migration."""
    result = run.result
    if not result:
        return node("tr", node("td", run.name), *(node("td") for _ in range(2)), node("td", run.word, of="word"), *(node("td") for _ in range(4)), id=f"run-{run.name}", of=run.kind)
    section = [node("a", titles[result.known][0], href=f"#{result.known}")] if result.known in titles else [result.known]
    kept = [node("a", "folder", href=place_of(run.folder, page))] if os.path.isdir(run.folder) else []
    cells = [run.name, result.version, result.plan_in_words()]
    return node("tr", *(node("td", cell) for cell in cells), node("td", run.word, of="word"), node("td", "" if result.owner == NOBODY else result.owner), node("td", *section),
                node("td", result.told(), of="said"), node("td", *kept), id=f"run-{run.name}", of=run.kind)


def by_axes(results):
    """Returns what each value of an axis gave, and each pair of values, and which pairs no migration had."""
    versions, gave = axes.gave(results)
    head = ["Of the migrations with", *versions]
    alone, pairs = ([[axes.in_words(part), *cells] for part, cells in gave if len(part) == length] for length in (1, 2))
    missing = sorted(map(axes.in_words, axes.not_made(results)))
    return [node("h2", "By axis and by pair"), node("p", f"Of each two migrations one has values of the axes. {len(results)} of these were made, with {len(pairs)} pairs of values."), table(head, alone, id="values"),
            node("details", node("summary", f"Each of the {len(pairs)} pairs"), table(head, pairs, id="pairs")),
            node("details", node("summary", f"{len(missing)} pairs were not made"), node("ul", *(node("li", pair) for pair in missing)), id="missing")]


def untold(runs, left_out):
    """Returns what this report says nothing of: what was left out or not made, and what the recorder does not see."""
    unseen = collections.Counter(unseen for run in runs if run.result for unseen in run.result.plan.not_looked_at())
    items = [*left_out, *(f"{what} ({count} of {len(runs)} migrations)" for what, count in unseen.items())]
    if missed := [run for run in runs if run.result and run.result.is_cut_missed]:
        items.append(node("span", "a cut was not reached: ", *links(missed)))
    if without := sum(not run.result for run in runs):
        items.append(f"{without} of {len(runs)} migrations were not made")
    return node("ul", *(node("li", item) for item in items), id="untold") if items else node("p", "Nothing.")


def counts(runs):
    """Returns how many of the migrations are clean, and how many are not, by why."""
    made = collections.Counter(run.kind for run in runs if run.result)
    words = (("passed", "clean", made["passed"]), ("failure", "not clean", made["failure"]), ("error", "not judged", made["error"]), ("error", NOT_MADE, len(runs) - sum(made.values())))
    return node("ul", *(node("li", node("b", str(count)), word, of=kind if count else "none") for kind, word, count in words), of="counts")


def text_of(page, title, told, runs, left_out, more):
    """Returns the page of this path. `told` is a line about how the migrations were made, `left_out` has what was left out and why, and `more` has
    further elements."""
    titles = sections()
    known = {run.result.known for run in runs if run.result}
    body = [node("h1", title), node("p", told, of="of"), counts(runs),
            node("h2", "What was found"), faults(runs, titles),
            *(node("details", node("summary", f"{title} (docs/FOUND.md)"), node("pre", text), id=name) for name, (title, text) in titles.items() if name in known),
            node("h2", "Left out, and not looked at"), untold(runs, left_out), *more,
            node("h2", "All migrations"), table(["", "QEMU", "Plan", "What became of it", "Whose", "As in FOUND", "What was said", "Kept"], [row_of(run, page, titles) for run in runs], id="runs")]
    head = [node("meta", charset="utf-8"), node("meta", name="viewport", content="width=device-width, initial-scale=1"), node("title", title), node("style", STYLE)]
    return "<!doctype html>\n" + ElementTree.tostring(node("html", node("head", *head), node("body", *body), lang="en"), encoding="unicode", method="html") + "\n"


def write(page, *words):
    """Writes a report to a file, which has all of it or stays as it was."""
    replace(page, text_of(page, *words).encode())

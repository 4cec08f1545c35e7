"""The report of a series of migrations as a page: its rows beside the results and the JUnit report of the same run, and that it needs nothing else."""
import html.parser
import os
import random
import re
import tempfile
from dataclasses import replace
from types import SimpleNamespace
from urllib.parse import unquote
from xml.etree import ElementTree

import axes
import plans
import report
import results
from kinds import plan_of
from results import Result, result_from_text
from versions_test import command, made_up, read

HOSTILE = "<script>alert('1')</script> & \"it\" \x1b é"
VOID = ("meta",)  # of the tags that a page here has, those without an end


class Page(html.parser.HTMLParser):
    """A page, read by a parser that is not that of its writer: its tags, texts, tables and links. What is not nested is a fault."""

    def __init__(self, text):
        super().__init__()
        self.open, self.tags, self.ids, self.hrefs, self.attributes, self.tables, self.style, self.texts, self.faults = [], set(), [], [], set(), {}, "", {}, []
        self.feed(text)
        self.close()
        self.faults += [f"{tag} is open" for tag, _ in self.open]

    def handle_starttag(self, tag, attrs):
        attrs = dict(attrs)
        self.tags.add(tag)
        self.attributes.update(attrs)
        self.ids += [attrs["id"]] if "id" in attrs else []
        self.hrefs += [attrs["href"]] if "href" in attrs else []
        if tag == "table":
            self.rows = self.tables.setdefault(attrs.get("id", ""), [])
        elif tag == "tr":
            self.rows.append(SimpleNamespace(kind=attrs.get("class"), id=attrs.get("id"), cells=[], hrefs=[]))
        elif tag in ("td", "th"):
            self.rows[-1].cells.append("")
        elif tag == "a" and self.tables:
            self.rows[-1].hrefs.append(attrs["href"])
        if tag not in VOID:
            self.open.append((tag, attrs.get("id")))

    def handle_endtag(self, tag):
        if not self.open or self.open.pop()[0] != tag:
            self.faults.append(f"{tag} ends")

    def handle_data(self, data):
        tags = [tag for tag, _ in self.open]
        if "style" in tags:
            self.style += data
        if {"td", "th"} & set(tags):
            self.rows[-1].cells[-1] += data
        for _, name in self.open:
            self.texts[name] = self.texts.get(name, "") + data


def results_of_all():
    """Results of each kind, of which every second one is of a plan with axes."""
    first = {axis: values[0] for axis, values in axes.AXES.items()}

    def of_row(number, **values):
        return plans.plan_by_axes(random.Random(number), {**first, **values})

    aborted = "source aborted: qemu-system-x86_64: ../system/physmem.c:872: it: Assertion `block == qemu_get_ram_block(end - 1)' failed."
    return [
        Result(plan_of("live"), "clean, yes", "completed", version="11.1.3"),
        Result(of_row(1, memory="numa", guest=axes.KEEPS), "faulty line 7 read", "completed", version="11.1.3", pages=list(range(11))),
        Result(plan_of("recovery"), "shape line 9 both", "source failed, target postcopy-paused", restart="both ran: 7 accesses", version="10.0.13"),
        Result(of_row(2, memory="uneven", guest=axes.KEEPS), "not judged: there was no post-copy", f"source ENDED, target ENDED; {aborted}", death=aborted, version="11.1.3"),
        Result(plan_of("multifd"), f"not judged: the recorder ended with {HOSTILE}", ""),
        Result(of_row(3, memory="numa", guest=axes.KEEPS), "faulty line 9 read", "completed", version="11.1.3"),
        Result(plan_of("recovery"), "clean, yes", "completed", version="11.1.3", is_cut_missed=True),
        Result(of_row(4, capability="xbzrle"), "incomplete page 7", f"source postcopy-active, target HANGS; {HOSTILE}", version="10.0.13"),
        Result(replace(plan_of("live"), fault="flip"), "faulty line 3 altered", "completed", is_put_in=True, version="11.1.3"),
    ]


def made(room, found, count):
    """A campaign that made these results of so many: its status, what its reports said at its beginning, and at its end."""
    campaign, begun, paths = command("campaign"), [], [f"{room}/report.xml", f"{room}/report.html"]
    folder = f"{room}/{os.fsdecode(b'it%20#?<')}"

    def make_all(todo, *_):
        begun.extend(map(read, paths))
        for (_, its, _), result in zip(todo, found):
            if not result.is_settled:
                os.mkdir(its)
        return found

    words = ["campaign", str(count), "--minutes", "7", "--qemu", "one", "--junit", paths[0], "--html", paths[1], "--folder", folder]
    # (the QEMU that is made up can have all values but one)
    with made_up(campaign, words, make_all, possible=lambda *_: ({"/one": axes.AXES}, [f"left out, machine q35: {HOSTILE}"])):
        status = campaign.main()
    return status, begun, [*map(read, paths)], folder


def of_campaigns(tests, room):
    found, count = results_of_all(), 12
    status, begun, (junit, text), folder = made(room, found, count)
    page, cases = Page(text), list(ElementTree.fromstring(junit))
    head, *rows = page.tables["runs"]
    kept = [result_from_text(line) for line in read(f"{folder}/results").splitlines()]
    tests.wants("the status", status, 1)
    tests.wants("what was kept of the run", kept, found)
    tests.wants("a row for each migration", [row.cells[0] for row in rows], [case.get("name") for case in cases])
    tests.wants("as many as were asked for", len(rows), count)
    tests.wants("each QEMU", [row.cells[1] for row in rows], [case.get("classname") for case in cases])
    tests.wants("passed, failure or error", [row.kind for row in rows], [case[0].tag if len(case) else "passed" for case in cases])
    tests.wants("what became of each, as in the JUnit report", [row.cells[3] for row in rows if row.kind != "passed"], [case[0].get("type") for case in cases if len(case)])
    tests.wants("and as in the results", [row.cells[3] for row in rows], [*(results.printable(result.in_a_word) for result in kept), *["not made"] * 3])
    tests.wants("each plan and what was said stand in the message", [f"{row.cells[2]}: {row.cells[6]}" for row in rows[:9] if row.kind != "passed"], [case[0].get("message") for case in cases[:9] if len(case)])
    owners = ["", "QEMU", "the source", "the source", "the recorder", "QEMU", "", "the target", "the fault that was put in", "", "", ""]
    tests.wants("whose each is", [row.cells[4] for row in rows], owners)
    titles = {"Lost writes to each RAM block but the first": [1, 5], "The source aborts in pre-copy": [3], "The guest runs on both sides": [2]}
    tests.wants("the sections of what was found", [row.cells[5] for row in rows], [next((title for title, its in titles.items() if number in its), "") for number in range(count)])
    tests.wants("a folder for each that was kept", [[os.path.realpath(f"{room}/{unquote(href)}") for href in row.hrefs if not href.startswith("#")] for row in rows],
                [[os.path.realpath(f"{folder}/{number:05}")] if number < 9 and not found[number].is_settled else [] for number in range(count)])
    tests.wants("an escaped text", [HOSTILE.replace("\x1b", "?") in row.cells[6] for row in rows].count(True), 2)
    of_faults(tests, page, cases, titles)
    tests.wants("the values of axes", [row.cells for row in page.tables["values"][1:]] + [row.cells for row in page.tables["pairs"][1:]],
                [[axes.in_words(part), *cells] for part, cells in axes.gave(kept[1::2])[1]])
    tests.wants("pairs that were not made", [page.texts["missing"].count(axes.in_words(pair)) > 0 for pair in axes.not_made(kept[1::2])].count(False), 0)
    told = ["left out, machine q35: ", "is judged (3 of 12 migrations)", "what pre-copy sent over the connections of multifd (1 of 12 migrations)", "a cut was not reached: 00006", "3 of 12 migrations were not made"]
    tests.wants("what is left out", [line in page.texts["untold"] for line in told], [True] * 5)
    tests.wants("how it was made", "campaign 12 --minutes 7 --qemu one" in page.texts[None], True)
    of_a_whole_page(tests, page)
    before = Page(begun[1])
    tests.wants("the page before: none was made", ([row.cells[3] for row in before.tables["runs"][1:]], "12 of 12 migrations were not made" in before.texts["untold"]), (["not made"] * 12, True))
    of_a_whole_page(tests, before)


def of_faults(tests, page, cases, titles):
    """What was not clean stands in the table of faults, each once, with links to its rows, and has its section of FOUND in the page."""
    rows = page.tables["faults"][1:]
    wrong = sorted(case.get("name") for case in cases if len(case) and case[0].get("type") != "not made")
    tests.wants("each that is not clean", sorted(name for row in rows for name in row.cells[4].split()), wrong)
    tests.wants("how many", sum(int(row.cells[3]) for row in rows), len(wrong))
    tests.wants("their sections", sorted(row.cells[1] for row in rows if row.cells[1] in titles), sorted(titles))
    tests.wants("QEMU's words", [("Assertion `block == qemu_get_ram_block(end - 1)' failed." in row.cells[5]) == (row.cells[1] == "The source aborts in pre-copy") for row in rows], [True] * len(rows))
    tests.wants("what has a page comes first", [row.cells[1] in titles for row in rows], sorted([row.cells[1] in titles for row in rows], reverse=True))
    for name, (title, text) in report.sections().items():
        tests.wants(f"the section {name} is there where it is needed", text in page.texts.get(name, ""), title in titles)


def of_a_whole_page(tests, page):
    """The page needs nothing else, and each link in it has its place."""
    tests.wants("its nesting", page.faults, [])
    tests.wants("nothing that runs or is fetched", page.tags & {"script", "link", "img", "iframe", "object", "embed", "base", "form", "video", "audio", "svg"}, set())
    tests.wants("no attribute that runs or fetches", [name for name in page.attributes if name.startswith("on") or name in ("src", "srcset", "action", "style", "background")], [])
    tests.wants("no style from elsewhere", re.findall(r"url\(|@import", page.style), [])
    tests.wants("names are told once", len(page.ids), len(set(page.ids)))
    tests.wants("links within it, or to a folder", [href for href in page.hrefs if not (href[1:] in page.ids if href.startswith("#") else href.startswith("./"))], [])


def of_compared(tests, room):
    """The report of the same migrations by several QEMUs has its table too."""
    compare, result = command("compare"), Result(plan_of("live"), "faulty line 7 read", "completed", version="10.0.13")
    words = ["compare", "one", "other", "--case", "live", "--case", "kvm", "--runs", "2", "--html", f"{room}/compared.html", "--folder", f"{room}/compared"]
    begun = []

    def make_all(todo, *_):
        begun.append(Page(read(f"{room}/compared.html")))
        return iter([result] * len(todo))

    with made_up(compare, words, make_all, lacks=lambda emulator, plan, _: "no KVM" if plan.kvm else ""):
        tests.wants("its status", compare.main(), 1)
    page = Page(read(f"{room}/compared.html"))
    tests.wants("its rows", [(row.cells[0], row.cells[3]) for row in page.tables["runs"][1:]], [(f"live-{label}-{number}", "`read`") for label in ("10.0.13", "10.0.13-by-1") for number in (0, 1)])
    tests.wants("its table", [row.cells for row in page.tables[""]], [["", "10.0.13", "10.0.13"], ["none", "2 `read`", "2 `read`"], ["none, by KVM", "not there", "not there"]])
    tests.wants("what is left out", "kvm: no KVM" in page.texts["untold"], True)
    tests.wants("before", [row.cells[3] for row in begun[0].tables["runs"][1:]], ["not made"] * 4)
    of_a_whole_page(tests, page)


def of_owners(tests):
    """Each name of an end, and each word of what is not judged, has an owner."""
    named = [name for name, _ in (*results.ENDS, *results.UNJUDGED)]
    owners = {name: next((owner for owner, form in results.OWNERS if re.fullmatch(form, name.format(": it"))), results.NOT_KNOWN) for name in [*named, "returned and target hangs"]}
    tests.wants("of whom it is not known", sorted(name for name, owner in owners.items() if owner == results.NOT_KNOWN), ["lost stack", "not at its end within its limit"])
    tests.wants("some of them", [owners[name] for name in ("source waits forever", "target hangs", "returned and target hangs", results.BUSY, "refused{}", "pre-copy failed{}", "lost pages in pre-copy", "nothing lost in pre-copy")],
                ["the source", "the target", "the target", "the machine", "the plan", "QEMU", "QEMU", "nobody"])


def run(tests):
    of_owners(tests)
    for of_them in (of_campaigns, of_compared):
        with tempfile.TemporaryDirectory() as room:
            of_them(tests, room)

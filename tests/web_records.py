"""Tests of what the page finds in the records of a session, in node: beside the session's text, the program's orders, and the slow
checker's model."""
import json
import os
import re
import subprocess

from cases import count, same
from check_model import Session
from cause_model import NAMES
from session_text import SessionText
from web_checks import TOP, read, words_of

# How many pages of a session are looked at: of those that have a fault, and of all.
MOST_FAULTY, MOST_PAGES = 3, 2


def named_by(text):
    """Each record's line, with the line of the record that it names, if it is there."""
    for log in text.told():
        for place, record in enumerate(text.logs[log]):
            words = record.split(" ")
            names = [(other, int(number)) for other, number in zip(NAMES.get(words[0], []), words[1:]) if other]
            yield text.line(log, place), [text.line(other, number) for other, number in names if number < len(text.logs[other])]


def page_of(text, log, place, left=8):
    """The page that a record tells, or the one of what it names."""
    words = text.logs[log][place].split(" ")
    if words[0] in ("r", "w", "z", "miss"):
        return int(words[2])
    if words[0] in ("send", "want", "place", "zero"):
        return int(words[1])
    for other, number in zip(NAMES.get(words[0], []), words[1:]):
        if left and int(number) < len(text.logs[other]):
            return page_of(text, other, int(number), left - 1)
    return -1


def check_records(what, text, found):
    """Where each record stands, what it says, what is around it, and of which page it is."""
    wanted = [(text.line(log, place), log, place, record) for log in text.told() for place, record in enumerate(text.logs[log])]
    same(f"the records of {what}", [(it["line"], it["log"], it["number"], it["text"]) for it in found["around"]], [(*it[:3], it[3][:2000]) for it in wanted])
    names = dict(named_by(text))
    same(f"what the records of {what} name", [[it["line"] for it in found["around"][at]["names"]] for at in range(len(wanted))], list(names.values()))
    namers = {line: [] for line in names}
    for line, others in names.items():
        for it in others:
            namers[it].append(line)
    same(f"what names the records of {what}", [[it["line"] for it in each["namedBy"]] for each in found["around"]], [it[:20] for it in namers.values()])
    same(f"how many name the records of {what}", [it["named"] for it in found["around"]], [len(it) for it in namers.values()])
    beside = [(it.get("earlier", {}).get("number"), it.get("later", {}).get("number")) for it in found["around"]]
    same(f"what stands beside the records of {what}", beside, [(place - 1 if place else None, place + 1 if place + 1 < len(text.logs[log]) else None) for _, log, place, _ in wanted])
    same(f"the pages of the records of {what}", [it["page"] for it in found["around"]], [page_of(text, log, place) for _, log, place, _ in wanted])
    vcpus = [int(it.split(" ")[1]) for it in text.logs["guest"] if it.split(" ")[0] in ("r", "w", "z", "miss")]
    same(f"what the processors of {what} did", found["vcpus"], [vcpus.count(it) for it in range(4)])


def contents_after(model, page, numbers):
    """A page's contents after each of these records of the guest, on one machine that never moved."""
    contents, found = list(model.initial.get(page, [0] * model.cells)), {}
    for number, record in enumerate(model.guest):
        if record[0] == "w" and record[2] == str(page):
            contents[int(record[3])] = int(record[4])
        if record[0] == "z" and record[2] == str(page):
            contents = [0] * model.cells
        if number in numbers:
            found[number] = [str(it) for it in contents]
    return found


def check_life(what, model, page, life, is_clean):
    """A page's contents at each step: those of the model, and what is wrong where the model says so."""
    flat, target, first = life["initial"]["contents"], None, model.initial.get(page, [0] * model.cells)
    same(f"the first contents of page {page} of {what}", flat, [str(it) for it in first])
    after = contents_after(model, page, {it["number"] for it in life["steps"] if it["log"] == "guest"})
    for it in life["steps"]:
        flat, target = it.get("flat", flat), it.get("target", target)
        words, log, number = model.logs[it["log"]][it["number"]], it["log"], it["number"]
        if log == "guest":
            wanted = after[number]
            count(flat == wanted, f"the contents of page {page} of {what} after guest {number}: {flat}, not {wanted}")
        if words[0] in ("place", "zero"):
            contents = model.contents(words[3]) if words[0] == "place" else [0] * model.cells
            same(f"the contents of page {page} of {what} at the target after pager {number}", target, [str(it) for it in contents])
        if words[0] == "r" and it.get("wrong") != "the page is not there":
            right = model.cell_before(number, page, int(words[3]))
            same(f"what is said of guest {number} of {what}", it.get("wrong"), None if str(right) == words[4] else f"right: {right}")
        if words[0] == "send":
            is_wrong = model.is_released(page) or model.contents(words[2]) != model.at_halt(page)
            same(f"whether source {number} of {what} is wrong", "wrong" in it, is_wrong)
        if is_clean:
            same(f"what is wrong at line {it['line']} of {what}, which is clean", it.get("wrong"), None)


def runs_of(text):
    return [(log, int(number)) for log, number in re.findall(r"^run (\w+) (\d+)$", text, re.M)]


def tests_of_records(program, node, sessions):
    """The records of each session that the program reads."""
    jobs = []
    for name in sessions:
        report = words_of(program, "audit", name)
        if report.startswith("session-text"):
            continue
        told = json.loads(words_of(program, "audit", "--all", "--format", "json", name))
        faulty = [int(it) for it in re.findall(r"^page (\d+) ", words_of(program, "audit", "--all", name), re.M)]
        delayed = {"early": {"page": told.get("page")}, "over": {"line": told.get("line")}}.get(told.get("reason"), {})
        pages = sorted({*faulty[:MOST_FAULTY], *([told["page"]] if told["verdict"] == "faulty" else []), *range(min(MOST_PAGES, int(read(name).split(b"\n")[1].split(b" ")[1])))})
        jobs.append((name, report, told, delayed, pages))
    given = "\n".join(json.dumps({"file": name, "delayed": delayed, "pages": pages}) for name, _, _, delayed, pages in jobs).encode()
    ran = subprocess.run([*node, f"{TOP}/tests/web_records.js"], input=given, stdout=subprocess.PIPE)
    answers = [json.loads(it) for it in ran.stdout.decode().splitlines()]
    same("the sessions whose records are found", len(answers), len(jobs))
    delays = 0
    for (name, report, told, delayed, pages), found in zip(jobs, answers):
        what, content = os.path.relpath(name, TOP), read(name, "r")
        text, model = SessionText(content), Session(content)
        check_records(what, text, found)
        order = [text.line(*it) for it in text.in_order(runs_of(report))]
        if order:
            same(f"the order of {what}", found["delayed" if delayed else "found"], order)
            delays += bool(delayed) and found["found"] != found["delayed"]
        if told["verdict"] != "shape":
            same(f"whether the records of {what} have an order", len(found["found"]) == len(found["around"]), told["verdict"] != "knot")
        if told["verdict"] in ("clean", "faulty"):
            for page in pages:
                for life in found["lives"][str(page)]:
                    check_life(what, model, page, life, told["verdict"] == "clean")
        if told["verdict"] == "faulty":
            steps = {it["line"]: it for it in found["lives"][str(told["page"])][bool(delayed)]["steps"]}
            count("wrong" in steps.get(told["line"], {}), f"nothing is wrong at line {told['line']} of {what}, which is faulty")
    count(delays > 5, f"the delayed order is another one of {delays} sessions alone")

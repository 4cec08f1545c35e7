"""What tools/pages makes of the crates: what must be believed for a promise, and the files of the reference."""
import ast
import glob
import os
import re
import sys

from calls import Calls, calls_on_memory
from definitions import TOP, Definitions, read

GUARANTEES = "docs/GUARANTEES.md"
RUN, FOLDERS, INTO, HEADLINE = "commands::run", "commands::run_over_folders", "commands::run_into", "judged_texts::check_texts"
KEPT_MARKS = r"pytest\.mark\.(quick|slow|toolchain|browser|qemu)\b"


def sentence(text):
    """A text that begins with a capital letter and ends with a stop."""
    text = text.strip()
    return text[:1].upper() + text[1:] + ("" if text.endswith((".", "?", "!")) else ".")


class Reference:
    def __init__(self):
        self.definitions = Definitions()
        self.calls = Calls(self.definitions)
        (self.run,), (self.folders,), (self.into,), (self.check,) = map(self.calls.named, (RUN, FOLDERS, INTO, HEADLINE))
        self.exports = [it for it in self.calls.functions if it.source.crate == "postcopy_c" and it.is_public and 'extern "C"' in it.head]

    def part_of(self, function, clause, record, fields):
        """What some fields of a record rest on that a clause of a function gives."""
        cited = self.calls.cited(function, function.named((clause,)))
        return self.definitions.closure([it.only(fields) if it.name == record else it for it in cited if not isinstance(it, str)])

    def headline(self):
        """What the headline rests on: the claims of check_texts, without its clause about each other verdict."""
        return self.calls.closure([(self.check, [it for it in self.check.clauses if it.name != "verdict"])])

    def reached(self):
        """What all that the program and the library for C promise rests on."""
        return self.calls.closure([(it, it.clauses) for it in (self.run, self.folders, self.into, *self.exports)])

    def between_crates(self):
        """The definitions outside specs/inner/ on which neither rests."""
        reached = self.reached().found
        outer = (one for it in self.definitions.modules.values() if "/inner/" not in it.file for one in it.definitions.values())
        return [it for it in outer if (it.module, it.name) not in reached]

    def believed(self):
        """The part of GUARANTEES that says how much must be read, and in which order."""
        headline, others = self.headline(), self.between_crates()
        rows = (
            ("the headline: `check_texts`", headline),
            ("that status 0 of `check` carries it",
             self.part_of(self.run, "headlines", "CarriesHeadlines", ("checked",))),
            ("that status 0 of `audit` of a folder carries it", self.part_of(self.folders, "folders", "ShowsFolders", ("clean",))),
            ("all that the program promises", self.calls.closure([(it, it.clauses) for it in (self.run, self.folders, self.into)])),
            ("all that the library for C promises", self.calls.closure([(it, it.clauses) for it in self.exports])),
            ("all that the two promise", self.reached()),
        )
        table = "".join(f"| {what} | {it.sum()} |\n" for what, it in rows)
        order = {}
        for file, some in headline.files:
            order.setdefault(file.split("/")[1], []).append(f"{file.split('/')[-1].removesuffix('.antt')} {sum(len(it.lines) for it in some)}")
        rest = sum(len(it.lines) for it in others)
        return (f"| To believe | Read |\n|---|---|\n{table}\n"
                "The headline's files, `crates/CRATE/specs/NAME.antt`, in reading order, with the lines that are meant: "
                f"{'; '.join(f'`{crate}`: ' + ', '.join(some) for crate, some in order.items())}.\n\n"
                f"Contracts between crates cite {rest:,} further lines of `crates/*/specs`. Nothing that the program or the library promises rests on them.\n")

    def headline_page(self):
        return ("# What the headline rests on\n\nThe definitions in reading order: each stands after those that it names. What is of the toolchain's "
                f"library, and the types that the code declares, are not shown. {self.headline().sum()}.\n{definitions_of(self.headline())}"
                f"\nTypes of the code: {types_of(self.headline())}\n")

    def definitions_page(self):
        others = {}
        for it in self.between_crates():
            others.setdefault(it.file, []).append(it)
        rest = "".join(f"| `{file}` | {', '.join(f'`{it.name}`' for it in some)} |\n" for file, some in sorted(others.items()))
        return (f"# What the program and the library for C rest on\n\n{self.reached().sum()}, in reading order.\n{definitions_of(self.reached())}"
                "\n## Cited only by contracts between crates\n\nNothing that the program or the library for C promises rests on these.\n\n"
                f"| File | Definitions |\n|---|---|\n{rest}")

    def guarantees_page(self):
        """For each row of GUARANTEES with a contract, what its clauses rest on."""
        page = "# What each promise rests on\n\nFor each row of docs/GUARANTEES.md: the files in reading order, with the definitions that are meant and their lines.\n"
        for promise, parts in promises(self.calls, read(GUARANTEES)):
            closure = self.calls.closure(parts)
            page += f"\n## {promise}\n\n"
            page += "".join(f"- `{it.source.crate}::{it.call}`: {', '.join(f'`{one.name}`' if one.name else 'its clause' for one in some)}\n" for it, some in parts)
            page += f"\n{closure.sum()}:\n\n"
            page += "".join(f"- `{file}`: {', '.join(f'{it.name} ({places(it)})' for it in some)}\n" for file, some in closure.files)
        return page

    def calls_page(self):
        page = "# The public calls\n\nBy crate and file, with the comment of each and the clauses of its contract.\n"
        for crate in self.calls.crates:
            for source, some in self.calls.public(crate):
                page += f"\n## `{source.file.removeprefix('crates/')}`\n"
                for it in some:
                    code = "\n".join([it.head.strip(), *(f"    {one.text}" for one in it.clauses)])
                    comment = "\n".join(it.doc)
                    page += f"\n### `{it.call}`\n\n{comment}\n\n```rust\n{code}\n```\n"
        rows = "".join(f"| `{crate}` | {', '.join(f'`{it}`' for it in found)} |\n" for crate, found in calls_on_memory(self.calls))
        return (f"{page}\n## Calls that can run out of memory\n\nTheir types let them answer so. `commands::run` says it by status 4, and the library for C "
                f"by `NO_MEMORY`. All other calls take no memory.\n\n| Crate | Calls |\n|---|---|\n{rows}")

    def bodies_page(self):
        """The wrong bodies, with the function that each changes and what refuses it."""
        page = "# Wrong bodies, and what refuses each\n\nA clause refuses the mutants of a crate, and the named test finds a planted body.\n"
        rows = {}
        for it in wrong_bodies():
            refused = f"`{it.test}`" if it.test else "a clause, in each gate" if "/must-fail/" in it.file else "a clause"
            rows.setdefault(it.crate or "outside the crates", []).append(f"| {it.name.replace('_', ' ')} | `{self.changed(it.crate, it.text)}` | {refused} |\n")
        for crate in sorted(rows):
            page += f"\n## {crate}\n\n| Wrong body | Of | Refused by |\n|---|---|---|\n{''.join(rows[crate])}"
        return page

    def changed(self, crate, edit):
        """The function that an edit changes first, or the file."""
        file, old = re.search(r"^file: (.*)", edit, re.M)[1], re.search(r"^old: (.*)", edit, re.M)[1].strip()
        for source in self.calls.of(crate):
            if source.file == f"crates/{crate}/{file}" and old in source.text:
                line = source.text[:source.text.index(old)].count("\n") + 1
                before = [it for it in source.functions if it.first <= line]
                return before[-1].call if before else file
        return file

    def pages(self):
        return {"headline.md": self.headline_page(), "guarantees.md": self.guarantees_page(), "definitions.md": self.definitions_page(),
                "calls.md": self.calls_page(), "wrong-bodies.md": self.bodies_page(), "scripts.md": scripts_page()}


def places(definition):
    last = definition.first + definition.text.count("\n")
    return f"{definition.first}" if last == definition.first else f"{definition.first} to {last}"


def types_of(closure):
    return ", ".join(f"`{it}`" for it in sorted(closure.types)) + "."


def definitions_of(closure):
    """The definitions of a closure, whole, file by file."""
    text = ""
    for file, some in closure.files:
        shown = "\n\n".join("\n".join([*it.above, it.text]) for it in some)
        text += f"\n## {file}\n\n```text\n{shown}\n```\n"
    return text


def promises(calls, page):
    """The promises of a page that name a contract: each with functions and the clauses of these that carry it."""
    head = None
    for line in page.split("\n"):
        cells = [it.strip() for it in re.split(r"(?<!\\)\|", line)[1:-1]]
        head = cells if cells and head is None else head if cells else None
        if not cells or "Contract" not in head or cells == head or set("".join(cells)) <= set("-: "):
            continue
        spans = re.findall(r"`([^`]+)`", cells[head.index("Contract")])
        names = [it for it in spans if re.fullmatch(r"\w+", it)]
        parts = [(it, it.named(names)) for span in spans if "::" in span for path in expanded(span) for it in calls.named(path)]
        parts = [(it, some) for it, some in parts if some]
        if parts:
            yield cells[0], parts


def expanded(span):
    """The paths that `a::{b, c}` stands for."""
    found = re.fullmatch(r"((?:\w+::)*)\{([\w:, ]+)\}", span)
    return [f"{found[1]}{it.strip()}" for it in found[2].split(",")] if found else [span]


def head_of(name):
    """What a script begins with: the docstring of a module, or a comment."""
    text = read(name)
    if name.endswith(".py") or text.startswith("#!/usr/bin/env python3\n"):
        return ast.get_docstring(ast.parse(text)) or ""
    if name.endswith((".c", ".h")):
        return re.sub(r"(?m)^ \*+ ?", "", re.match(r"/\*(.*?)\*/", text, re.S)[1])
    comment = re.match(r"(?:#!.*\n)?((?:(?:#|//).*\n)*)", text)[1]
    return re.sub(r"(?m)^(?:#|//) ?", "", comment)


def what_it_does(name):
    """The first sentence that a script begins with."""
    text = " ".join(head_of(name).strip().split("\n\n")[0].split())
    found = re.split(r"(?<=[.]) ", text)[0].rstrip(".:").replace("|", "\\|")
    return found or sys.exit(f"tools/pages: {name} does not begin with what it does")


def wrong_bodies():
    """All mutants, and the planted bodies, as tests/mutants.py reads them."""
    sys.path.append(f"{TOP}/tests")
    import mutants
    return [*(it for crate in mutants.crates() for it in mutants.mutants(crate)), *mutants.planted()]


def files(*patterns):
    found = (it for pattern in patterns for it in glob.glob(f"{TOP}/{pattern}"))
    return sorted(os.path.relpath(it, TOP) for it in found if os.path.isfile(it))


def scripts():
    """The tests, what stands beside them, and the other scripts."""
    tests = files("tests/test_*.py")
    beside = [it for it in files("tests/*.py", "tests/models/*.py") if it not in tests]
    others = files("tests/[!.]*", "tools/*", "bench/*", "share/bin/*", "recorders/*", "recorders/*/*")
    return tests, beside, [it for it in others if not re.fullmatch(r"tests/.*\.py|recorders/tests/.*|.*/(?:expected|rom\.ld)|.*\.md", it)]


def scripts_page():
    """What each test does, with its marks; and what each other script does."""
    tests, beside, others = scripts()
    marks = {it: ", ".join(f"`{one}`" for one in sorted(set(re.findall(KEPT_MARKS, read(it))))) for it in tests}
    return ("# Tests and scripts\n\nThe first sentence of each.\n\n## Tests\n\n| Test | What it does | Marks |\n|---|---|---|\n"
            + "".join(f"| `{it}` | {what_it_does(it)} | {marks[it]} |\n" for it in tests)
            + "\n## Beside the tests\n\n| Module | What it is |\n|---|---|\n" + "".join(f"| `{it}` | {what_it_does(it)} |\n" for it in beside)
            + "\n## Scripts\n\n| Script | What it does |\n|---|---|\n" + "".join(f"| `{it}` | {what_it_does(it)} |\n" for it in others))

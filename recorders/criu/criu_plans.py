"""The kinds of lazy migrations, as plans: the process, and how it is moved."""
import json
from dataclasses import asdict, dataclass, replace

BASE = 0x100000000000  # where walk.c has its window

KINDS = {
    "live": ("the process runs, and asks for what it needs", {}),
    "wide": ("2,048 pages of one cell", {"pages": 2048, "words": 1, "pace": 100}),
    "cells": ("512 cells a page: each byte of a page is judged word by word", {"pages": 128, "words": 512}),
    "threads": ("four threads", {"pages": 512, "threads": 4}),
    "released": ("pages are given up before the halt, and are zeros at the target", {"releases": 4, "keep_at_target": True}),
    "releases": ("pages are given up at the target too: a session of the second version", {"releases": 2, "delay": 0}),
    "split": ("pages of requests that are under way are given up: CRIU 4.1 and 4.2 hang here", {"ahead": 16, "delay": 50}),
    "split-two": ("the same while another page is waited for: CRIU asks for the same pages over and over, too",
                  {"ahead": 40, "delay": 50, "threads": 4}),
}

FAULTS = {
    "flip": "a bit of a page's first word is flipped",
    "flip-end": "a bit of a page's last byte is flipped, outside of what the process uses",
    "zero": "a page comes as zeros",
    "stale": "a page comes with contents that it had before the halt",
    "swap": "two pages of an answer come with each other's contents",
    "short": "the last page of an answer does not come: CRIU asks for it again",
    "lose": "an answer never comes: CRIU waits for it for ever",
    "cut": "the connection ends, as when the source's machine fails: CRIU lets the process go on, with zeros",
    "early": "a page is open to the process 0.2 s before its contents are there",
}
IN_LIBRARY = ("early",)


@dataclass
class Plan:
    """How to make one migration."""
    kind: str = "live"
    pages: int = 256        # of the window
    words: int = 16         # of each page that the process uses, which are the cells
    threads: int = 1
    pace: int = 12          # visits, after which a thread rests for a millisecond
    writes: int = 16        # of 64 visits
    releases: int = 0       # of 64 visits
    ahead: int = 0          # of 64 visits that release a page that is on its way to the target
    keep_at_target: bool = False  # whether the process releases no pages at the target
    warm: int = 1000        # accesses before the halt
    after: int = 1000       # accesses at the target, after the end
    delay: int = 5          # milliseconds by which the relay delays each answer
    fault: str = ""
    skip: int = 3           # of the pages or the answers that the fault could take
    limit: float = 60.0     # seconds for each part of the migration
    plain: bool = False     # without the library in lazy-pages: nothing is judged
    criu: str = ""          # the version
    log_has_end: bool = True  # whether the log's last line says how long it is: of an early recording it does not

    def to_text(self):
        return json.dumps(asdict(self), indent=1)

    @property
    def has_releases_at_target(self):
        return (self.releases > 0 or self.ahead > 0) and not self.keep_at_target


def plan_of(kind, **changes):
    """Returns the plan of a kind, with changes."""
    return replace(Plan(kind=kind, **KINDS[kind][1]), **changes)


def plan_from_text(text):
    return Plan(**{"log_has_end": False, **json.loads(text)})

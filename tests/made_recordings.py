"""Recordings for tests of what is cut out of them: sessions that are known, recorded ones with changes, random ones whose records
name what they like, and texts that are refused, or nearly so."""
import os
import re

import test_later_releases as later
import test_random_schedules as schedules
import text_judge
from made_sessions import TOP, text_of
from session_text import LOGS, SessionText, logs_of
from steps_model import recorded
from test_explained import made_texts

# The greatest number of a recording.
GREATEST = 2**63 - 1


def pages_of(text):
    return int(re.search("^pages (.*)$", text, re.M)[1])


def known_texts():
    """The sessions of the folders, once each, the refused ones too."""
    found = {}
    for what, text in made_texts():
        if not what.endswith(", changed"):
            found.setdefault(text, os.path.relpath(what, TOP))
    return [(what, text) for text, what in found.items()]


def recorded_texts(rng, count):
    """So many sessions that were recorded of random schedules, of both versions, some over a lane; half of them with changes."""
    for seed in range(count):
        text = later.changed(rng, recorded(*schedules.random_schedule(seed, 2 if seed % 4 == 2 else 1)).session())
        text = later.over_the_lane(rng, text) if seed % 3 == 0 else text
        yield f"schedule {seed}", with_changes(rng, text) if seed % 2 else text


def with_changes(rng, text):
    """A session of which some records name others, come twice or later or not at all, or whose logs end early."""
    session = SessionText(text)
    for _ in range(rng.randrange(1, 5)):
        log = rng.choice(session.told())
        records = session.logs[log]
        if not records:
            continue
        at = rng.randrange(len(records))
        how = rng.choice(("names", "names", "names", "twice", "later", "never", "back", "cut"))
        if how == "names":
            records[at] = renamed(rng, log, records[at], len(records))
        elif how == "twice":
            records.insert(at, records[at])
        elif how == "later":
            records.append(records.pop(at))
        elif how == "never":
            del records[at]
        elif how == "back":
            session.tell_in(3)
            put_back(rng, session)
        else:
            del records[at:]
    return session.text()


def put_back(rng, session):
    """The source of a session of the third version starts its guest again: at the end of its log, or now and then before."""
    records = session.logs["source"]
    records.insert(rng.choice((len(records), len(records), rng.randrange(len(records) + 1))), "back")


def any_name(rng, length):
    """The number of a record of a log of this length, or, now and then, one that no record has."""
    return rng.choice((*[rng.randrange(length + 1)] * 8, length + rng.randrange(4), rng.choice((2**20, 2**27, 2**32, GREATEST))))


def renamed(rng, log, record, length):
    kind, *words = record.split(" ")
    places = [place for place, field in enumerate(text_judge.RECORDS[log][kind]) if field == "n"]
    for place in places:
        words[place] = str(any_name(rng, length))
    return " ".join([kind, *words])


# What a record names, by its kind: the log, and the kinds of records there that it names as a rule.
NAMES = {
    "resume": ("pager", "ready"), "see": ("pager", "place zero"), "halted": ("guest", "halt"), "again": ("source", "send state"),
    "ask": ("link", "up"), "down": ("source", "send state again"), "up": ("pager", "want all"), "got": ("link", "down"),
    "pull": ("lane", "down"), "fault": ("guest", "miss"), "join": ("pager", "want"), "place": ("pager", "got pull"), "skip": ("pager", "got pull"),
}


def random_text(rng, pages=None, lengths=(0, 3, 8, 16, 30), fitting=0.8):
    """A recording of random records. Most of them name one of the kind that they should, before or after their own."""
    version, pages, cells = rng.choice((1, 2, 2, 3)), pages or rng.randrange(1, 7), rng.choice((1, 1, 2))
    kinds = {}
    for log in logs_of(version):
        those = [kind for kind in text_judge.RECORDS[log] if version >= text_judge.SINCE.get(kind, 1)]
        kinds[log] = [rng.choice(those) for _ in range(rng.choice(lengths))]

    def field(kind, which):
        if which == "n":
            log, right = NAMES[kind]
            places = [place for place, other in enumerate(kinds.get(log, ())) if other in right.split()]
            return str(rng.choice(places) if places and rng.random() < fitting else any_name(rng, len(kinds.get(log, ()))))
        if which == "h":
            return "".join(f"{rng.choice((0, 1, 2**64 - 1)):016x}" for _ in range(cells))
        return str(rng.randrange({"v": 64, "p": pages, "c": cells, "x": 2**64}[which]))

    lines = [f"postcopy-session {version}", f"pages {pages}", f"cells {cells}"]
    initial = [page for page in range(pages) if rng.random() < 0.4]
    lines += [f"init {len(initial)}", *(f"page {page} {page + 1:0{16 * cells}x}" for page in initial)]
    for log, those in kinds.items():
        lines += [f"{log} {len(those)}", *(" ".join([kind, *(field(kind, it) for it in text_judge.RECORDS[log][kind])]) for kind in those)]
    return "\n".join([*lines, "end", ""])


def some_windows(rng, pages, most):
    """Windows of a machine, no more than so many: all of it, and of single pages, the middle, and any."""
    first = rng.randrange(pages)
    others = [(0, 1), (pages - 1, 1), (first, 1), (pages // 3, max(1, pages // 3)), (first, rng.randint(1, pages - first))]
    others = list(dict.fromkeys(it for it in others if it != (0, pages)))
    return [(0, pages), *rng.sample(others, min(most - 1, len(others)))]


BASES = ("examples/recording/session", "examples/pushed-by-the-lane/session", "examples/released-page/session")


def changed_texts(rng, text):
    """A text with one change, in many ways: some are refused, and some are recordings."""
    lines = text.split("\n")[:-1]
    for place, line in enumerate(lines):
        words = line.split(" ")
        others = [f"{line} ", f" {line}", f"{line} 0", " ".join(words[:-1]), line.upper(), ""]
        for at, word in enumerate(words):
            if word.isdigit() and len(word) < 16:
                for number in (GREATEST, 2**63, 2**64, int(word) + 1, f"0{word}", f"-{word}", f"+{word}", "00", "99999999999999999999999"):
                    others.append(" ".join([*words[:at], str(number), *words[at + 1:]]))
        for other in rng.sample(others, min(4, len(others))):
            yield f"line {place + 1} as '{other}'", lines[:place] + [other] + lines[place + 1:]
        if rng.random() < 0.2:
            yield f"no line {place + 1}", lines[:place] + lines[place + 1:]
            yield f"line {place + 1} twice", lines[:place + 1] + lines[place:]


def refused_texts(rng):
    """Recordings that are refused for one reason each, and others that are near to these."""
    for name in BASES:
        text = text_of(f"{TOP}/{name}")
        for how, lines in changed_texts(rng, text):
            yield f"{name} with {how}", "".join(f"{line}\n" for line in lines)
        for at in (0, 1, len(text) - 1, *rng.sample(range(len(text)), 12)):
            yield f"the first {at} bytes of {name}", text[:at]
        for more in ("\n", "e", "end\n", " ", "\0", text):
            yield f"{name} and {more[:4]!r}", text + more
        for _ in range(25):
            at = rng.randrange(len(text))
            yield f"{name} with byte {at} changed", text[:at] + chr(rng.randrange(256)) + text[at + 1:]
    for pages, initial in ((GREATEST, [0, GREATEST - 1]), (GREATEST, [0, GREATEST]), (2**63, []), (3, [1, 0]), (3, [1, 1]), (3, [2, 2]), (3, [2, 1, 0]), (2, [2])):
        yield f"{pages} pages with the initial {initial}", machine(pages, 1, [f"page {page} 0000000000000001" for page in initial])
    yield "a page that begins as zeros", machine(3, 1, ["page 1 0000000000000000"])
    yield "a page of more cells", machine(3, 1, ["page 1 00000000000000010000000000000000"])
    yield "a page of two cells", machine(3, 2, ["page 1 00000000000000010000000000000000"])
    for cells in (0, 1, 512, 513, GREATEST):
        yield f"{cells} cells of many pages", machine(GREATEST, cells, [])
    for count in (GREATEST, 2**63):
        for log in ("init", *LOGS):
            yield f"{log} of {count}", machine(GREATEST, 1, [], version=2).replace(f"\n{log} 0\n", f"\n{log} {count}\n")
    for version in range(5):
        yield f"version {version}", machine(GREATEST, 512, [f"page 5 {1:08192x}"], version)
        yield f"version {version} with no lane", machine(3, 1, [], version).replace("\nlane 0\n", "\n")


def machine(pages, cells, initial, version=1):
    logs = "".join(f"{log} 0\n" for log in LOGS if log != "lane" or version > 1)
    return f"postcopy-session {version}\npages {pages}\ncells {cells}\ninit {len(initial)}\n" + "".join(f"{line}\n" for line in initial) + f"{logs}end\n"

"""Recordings at random, as the files of recorders: sessions that are known, recorded, or of random records, spread over folders,
processes and threads as bindings/c/postcopy_record.c and bindings/python/postcopy/recorder.py leave them. About half of them are damaged, once
or twice, each time in one of the ways of DAMAGES: as disks, processes that die, programs that record wrongly, and people who copy files do."""
import os
import random
import re
import shutil
from dataclasses import dataclass, field, replace
from typing import List, Optional

from made_recordings import known_texts, random_text, recorded_texts
from session_text import LOGS, SessionText
from text_judge import refusal_line

from postcopy.records import LOST, RECORDS, SMALL, named, read_record

# The longest text of a known session that is taken.
LONGEST = 9000

# How often a recording is drawn anew at most, to which a damage does nothing.
MOST_DRAWN = 60

# How a number with a message is told, by the log that has no file: of which records, and in which log.
RECEIPTS = {"link": (("source", "ask"), ("pager", "got")), "lane": (("pager", "pull"),)}

# What a process left behind the last line of a file.
TAILS = (b"", b"", b"", b"\0" * 100, b"7 rea", b"7 r 0 0 0 1\0\0", b"\0\0w 1 2 3 4\n\0", b"end 5", b"\0end 5\n")

# What stands beside the files of recorders and is none.
OTHERS = ("recording-name.5", "guest.1", "guest.1.x", "Guest.1.0", "guest.1.0.old", "guest..0", "guest.1.0~", "guests.1.0", ".guest.1.0", "pager.1.-1",
          "guest.\u0663.0", "notes", "link.1.0 ", "lane.1.0x", "machine.1.0.zip", "guest.1.0\udcff", "pager.1.0\n", "guest.1.gz", "lane.1.0.gz.1", "link.1.x.xz",
          ".gz", "source.1.0..gz", "pager.1.0gz", "lane.1.0.gz.xz")


# What the name of a file gets as it is compressed.
ENDINGS = ("bz2", "gz", "lz4", "lzma", "xz", "zst")


@dataclass
class File:
    """A file of a thread. Of a part that a process writes, which it opened with the record `first`, `opening` is the first one."""

    party: str
    folder: int
    process: str
    number: int
    opening: int
    first: int
    name: str = "made"
    records: List[tuple] = field(default_factory=list)
    strays: List[tuple] = field(default_factory=list)  # lines that are none, each with the number of records before it
    last: Optional[str] = None
    more: str = ""
    tail: bytes = b""
    head: Optional[str] = None

    def file(self):
        return f"{self.party}.{self.process}.{self.number}"

    def part(self):
        return self.party, self.folder, self.process, self.opening

    def data(self):
        head = f"postcopy-records 1\nrecording {self.name}\nlog {self.party} {self.first} {self.opening}\n" if self.head is None else self.head
        lines = [f"{number} {text}" for number, text in self.records]
        for place, line in sorted(self.strays, reverse=True):
            lines.insert(place, line)
        lines += [] if self.last is None else [self.last]
        return (head + "".join(f"{line}\n" for line in lines) + self.more).encode("latin-1") + self.tail


class Recording:
    """The files of a recording, by folders; `did` has the ways in which it was made and damaged."""

    def __init__(self, rng):
        self.rng, self.files, self.folders, self.did, self.machine = rng, [], 1, [], (1, 1)
        self.words, self.others = [], {}

    def of(self, log):
        return [it for it in self.files if it.party == log]

    def parts(self, log):
        """The files of each part of a log, in the order of the parts' records."""
        found = {}
        for file in self.of(log):
            found.setdefault(file.part(), []).append(file)
        return sorted(found.values(), key=lambda part: part[0].first)

    def records(self, log=None):
        """Each record that stands somewhere: its file and its place there."""
        return [(file, place) for file in self.files if log in (None, file.party) for place in range(len(file.records))]

    def any_log(self, least=1):
        """A log that has so many records."""
        logs = [log for log in ("machine", *LOGS) if len(self.records(log)) >= least]
        return self.rng.choice(logs) if logs else None

    def any_part(self, log=None):
        """The files of a part."""
        parts = [part for party in ([log] if log else ("machine", *LOGS)) for part in self.parts(party)]
        return self.rng.choice(parts) if parts else None

    def more_of(self, part):
        """Another file of a part, of a thread that has written nothing yet, in any place among the part's files."""
        numbers = {it.number for it in self.files if it.folder == part[0].folder and it.process == part[0].process and it.party == part[0].party}
        number = self.rng.choice([it for it in range(max(numbers) + 2) if it not in numbers])
        more = replace(part[0], number=number, records=[], strays=[], last=None, more="", tail=b"", head=None)
        self.files.append(more)
        return more

    def put(self, room):
        """Writes the files into folders that are made anew. Answers the words of the command that name the folders."""
        names = [f"rec-{number}" for number in range(self.folders)]
        for number, name in enumerate(names):
            shutil.rmtree(f"{room}/{name}", ignore_errors=True)
            os.mkdir(f"{room}/{name}")
            for other, data in self.others.get(number, {}).items():
                with open(f"{room}/{name}/{other}", "wb") as file:
                    file.write(data)
        for file in self.files:
            with open(f"{room}/{names[file.folder]}/{file.file()}", "wb") as out:
                out.write(file.data())
        words = [how.replace("%s", name) for how, name in zip(self.words or ["%s"] * self.folders, names)]
        return words + self.words[self.folders:]


# Sessions.


def small_known_texts():
    """The known sessions that a recorder could have recorded."""
    return [text for _, text in known_texts() if len(text) <= LONGEST and refusal_line("session", text.encode("latin-1")) is None]


def recordable(text):
    """A recording of random records whose numbers fit a recorder's file: greater ones are those that were lost."""
    def fit(word):
        return str(LOST) if word[0].isdigit() and len(word) < 16 and int(word) > LOST else word

    return "\n".join(" ".join(map(fit, line.split(" "))) if line[:1] not in "rw" else line for line in text.split("\n"))


def texts(rng, count):
    """What draws a text: of a known session, of one of so many schedules that were recorded, or of random records. With one known session more it draws
    another one seldom."""
    known, recorded = small_known_texts(), list(recorded_texts(rng, count))
    recorded = [text if rng.random() < 0.1 else recordable(text) for _, text in recorded if len(text) <= LONGEST]

    def drawn(rng):
        kind = rng.choice(("known", "known", "known", "recorded", "recorded", "recorded", "recorded", "random"))
        if kind == "known":
            salt = rng.random()
            return max(known, key=lambda text: random.Random(f"{salt} {text}").random())
        return recordable(random_text(rng)) if kind == "random" else rng.choice(recorded)

    return drawn


# Spreading a session over files.


def machine_records(rng, made, session, has_lane):
    """The records of the machine's log: the pages that are told in any order, zeros among them now and then. Recorders of before did not
    tell whether the lane has a log."""
    pages, cells = (int(line.split(" ")[1]) for line in session.head[1:3])
    initial = [line.split(" ")[1:] for line in session.head[4:]]
    told = {int(page) for page, _ in initial}
    if rng.random() < 0.2:
        zeros = [page for page in range(min(pages, 100)) if page not in told]
        initial += [[str(page), "0" * 16 * cells] for page in rng.sample(zeros, min(2, len(zeros)))]
        made.did.append("zeros told")
    if rng.random() < (0.5 if cells > 16 else 0.1):
        most = SMALL.in_all // cells
        pages = rng.choice((SMALL.pages, SMALL.pages + 1, 16777216, 16777217, LOST, LOST + 1, 9999999999) if most > SMALL.pages else (most, most + 1, SMALL.pages))
        if pages > 9 and rng.random() < 0.5:
            last = min(pages, LOST + 1) - 1
            initial.append([str(last), f"{rng.getrandbits(64):016x}" + "0" * 16 * (cells - 1)])
        made.did.append("many pages")
    made.machine = pages, cells
    records = [f"page {page} {contents}" for page, contents in initial]
    if rng.random() < 0.4:
        rng.shuffle(records)
    lane = rng.choice(("", f" {int(has_lane)}", f" {int(has_lane)}"))
    records.insert(rng.choice((0, 0, rng.randrange(len(records) + 1))), f"pages {pages} {cells}{lane}")
    return records


def widened(rng, session):
    """A session whose pages have more cells, and the same in the first of them."""
    before = int(session.head[2].split(" ")[1])
    cells = rng.choice((before + 1, 7, 32, 128, 512))
    if cells < before:
        return
    more = "0" * 16 * (cells - before)
    session.head[2] = f"cells {cells}"
    session.head[4:] = [f"{line}{more}" for line in session.head[4:]]
    for log, word in (("source", "send"), ("pager", "place")):
        session.logs[log] = [f"{line}{more}" if line.startswith(f"{word} ") else line for line in session.logs[log]]


def without_log(session, logs, of):
    """Has those who received the messages of the link, or of the lane, tell the number that came with each."""
    for log, kind in RECEIPTS[of]:
        for place, record in enumerate(logs[log]):
            word, *numbers = record.split(" ")
            if word == kind:
                number = int(numbers[0])
                told = session.logs[of][number].split(" ")[1] if number < len(session.logs[of]) else str(LOST)
                logs[log][place] = f"{kind}-sent {told}"
    del logs[of]


def cuts_of(rng, log, records):
    """Where a log is handed over to another process: as a rule the guest's, after its halt."""
    if log == "guest" and "halt" in records and rng.random() < 0.5:
        return [records.index("halt") + 1]
    return sorted(rng.randrange(len(records) + 1) for _ in range(rng.choice((0,) * 12 + (1, 1, 2))))


def spread(rng, made, log, records):
    """Puts a log's records into the files of one process or several, and of their threads."""
    cuts = [0, *cuts_of(rng, log, records), len(records)]
    processes = [rng.choice(("1", "1", "12", "4194304", "01")) for _ in cuts[1:]]
    for place, (first, end) in enumerate(zip(cuts, cuts[1:])):
        folder = rng.randrange(made.folders)
        used = [it.number for it in made.of(log) if it.folder == folder and it.process == processes[place]]
        opening, threads = max(used, default=rng.choice((-1, -1, 4))) + 1, rng.choice((1, 1, 1, 2, 3))
        numbers = [opening]
        for _ in range(threads - 1):
            numbers.append(numbers[-1] + rng.choice((1, 1, 1, 2, 8)))
        files = [File(log, folder, processes[place], number, opening, first) for number in numbers]
        for number in range(first, end):
            rng.choice(files).records.append((number, records[number]))
        rng.choice(files if rng.random() < 0.3 else files[:1]).last = f"{'end' if place == len(cuts) - 2 else 'next'} {end}"
        for file in files:
            file.tail = rng.choice(TAILS) if rng.random() < 0.3 else b""
        made.files += files
    if len(cuts) > 2:
        made.did.append("handed over")


def recording_of_text(rng, text):
    """The files of a session's text."""
    session, made = SessionText(text), Recording(rng)
    made.folders = rng.choice((1, 1, 1, 2, 3))
    if rng.random() < 0.06:
        widened(rng, session)
        made.did.append("wide pages")
    logs = {log: list(session.logs[log]) for log in session.told()}
    for of in ("link", "lane"):
        if of in logs and rng.random() < 0.5:
            without_log(session, logs, of)
            made.did.append(f"told {of}")
        elif of == "lane" and rng.random() < 0.1:
            logs.setdefault("lane", [])
            made.did.append("empty lane")
    for log, records in {"machine": machine_records(rng, made, session, "lane" in logs), **logs}.items():
        spread(rng, made, log, records)
    for number in range(made.folders):
        if rng.random() < 0.15:
            made.others[number] = {other: b"postcopy-records 7\n" for other in rng.sample(OTHERS, 3)}
        if rng.random() < 0.5:
            made.others.setdefault(number, {})["recording-name"] = b"made\n"
    if rng.random() < 0.2:
        made.words = [rng.choice(("%s", "./%s", "%s/", "%s/.", ".//%s//")) for _ in range(made.folders)]
    return made


# Damages. Each is a function of a recording that answers whether it did anything.


DAMAGES = {}


def damage(function):
    DAMAGES[function.__name__] = function
    return function


def of_some_log(made, least=1):
    log = made.any_log(least)
    return log, made.records(log) if log else []


def numbers_of(made, log):
    return sorted({file.records[place][0] for file, place in made.records(log)})


@damage
def lost_record(made):
    """A record is missing."""
    _, found = of_some_log(made)
    if found:
        file, place = made.rng.choice(found)
        del file.records[place]
    return found


@damage
def lost_records(made):
    """Consecutive records are missing."""
    log, _ = of_some_log(made, 3)
    if log:
        numbers = numbers_of(made, log)
        at = made.rng.randrange(len(numbers))
        lost = set(numbers[at:at + made.rng.randint(1, 4)])
        for file in made.of(log):
            file.records = [it for it in file.records if it[0] not in lost]
    return log


@damage
def two_holes(made):
    return lost_record(made) and lost_record(made)


@damage
def lost_file(made):
    """A file is missing."""
    made.files.remove(made.rng.choice(made.files))
    return True


@damage
def lost_log(made):
    """No file of a log is there."""
    log = made.rng.choice([it.party for it in made.files])
    made.files = [it for it in made.files if it.party != log]
    return True


@damage
def empty_log(made):
    """A log has no record, and says so."""
    log = made.rng.choice(LOGS)
    for file in made.of(log):
        file.records = []
        file.last = file.last and f"{file.last.split(' ')[0]} {file.first}"
    return made.of(log)


@damage
def no_end(made):
    """A part has no end: a process died."""
    for file in made.any_part():
        file.last = None
    return True


@damage
def died(made):
    """A process died: each file of its part ends somewhere."""
    for file in made.any_part():
        file.last = None
        if file.records:
            kept = made.rng.randrange(len(file.records) + 1)
            file.tail = f"{file.records[kept][0]} {file.records[kept][1]}"[:-1].encode("latin-1") if kept < len(file.records) else b""
            file.records = file.records[:kept]
    return True


@damage
def lost_by_error(made):
    """A record was not written, and the log ends there."""
    part = made.any_part()
    closing = next((it for it in part if it.last), part[0])
    closing.last = f"lost {made.rng.choice((1, 5, 22, 27, 28, 28, 28, 75, 116, 122))}"
    if made.rng.random() < 0.5:
        most = max((number for file in part for number, _ in file.records), default=None)
        for file in part:
            file.records = [it for it in file.records if it[0] != most]
    return True


@damage
def two_ends(made):
    """A part has two ends."""
    part = made.any_part()
    other = next((it for it in part if not it.last), None) or made.more_of(part)
    if other.last is None:
        count = max((number for file in part for number, _ in file.records), default=part[0].first - 1) + 1
        other.last = made.rng.choice((f"end {count}", f"next {count}", "lost 28", f"end {count + 3}"))
    return True


@damage
def end_too_low(made):
    """An end tells fewer records than there are."""
    part = made.any_part()
    closing = next((it for it in part if it.last and not it.last.startswith("lost")), None)
    if closing:
        word, count = closing.last.split(" ")
        closing.last = f"{word} {max(0, int(count) - made.rng.randint(1, 3))}"
    return closing


@damage
def end_too_high(made):
    """An end tells more records than there are."""
    part = made.any_part()
    closing = next((it for it in part if it.last and not it.last.startswith("lost")), None)
    if closing:
        word, count = closing.last.split(" ")
        closing.last = f"{word} {made.rng.choice((int(count) + 1, int(count) + 2, 4294967294))}"
    return closing


@damage
def end_elsewhere(made):
    """The end of a part is told by another thread's file, or by a file with no record, which is read before or after."""
    part = made.any_part()
    closing = next((it for it in part if it.last), None)
    if closing:
        other = made.more_of(part)
        other.last, closing.last = closing.last, None
    return closing


@damage
def nobody_went_on(made):
    """A log was handed over, and nobody has gone on."""
    part = (made.rng.choice([made.parts(log) for log in ("machine", *LOGS) if made.of(log)]))[-1]
    closing = next((it for it in part if it.last and it.last.startswith("end")), None)
    if closing:
        closing.last = f"next{closing.last[3:]}"
    return closing


@damage
def gone_on_too_late(made):
    """A process goes on with a log from a number that it worked out: some records too late."""
    return gone_on_at_another_number(made, (1, 1, 2, 5))


@damage
def gone_on_too_early(made):
    """A process goes on with a log from a number that it worked out: some records too early."""
    return gone_on_at_another_number(made, (-1, -1, -2, -5))


def gone_on_at_another_number(made, ways):
    logs = [log for log in ("machine", *LOGS) if len(made.parts(log)) > 1]
    if not logs:
        log = made.rng.choice([it for it in ("guest", "source", "pager") if made.records(it)] or [None])
        if log is None or len(made.parts(log)) != 1:
            return False
        hand_over(made, log)
        logs = [log]
    part = made.rng.choice(made.parts(made.rng.choice(logs))[1:])
    by = max(made.rng.choice(ways), -part[0].first)
    for file in part:
        file.first += by
        file.records = [(number + by, text) for number, text in file.records]
        file.last = file.last and re.sub("[0-9]+", lambda count: str(int(count[0]) + by), file.last) if file.last and not file.last.startswith("lost") else file.last
    return by


def hand_over(made, log):
    """Has another process write the records of a log from some number on."""
    numbers = numbers_of(made, log)
    at = made.rng.choice(numbers)
    part = made.parts(log)[0]
    rest = [it for file in part for it in file.records if it[0] >= at]
    closing = next((it for it in part if it.last), None)
    made.files.append(replace(part[0], process="99", number=0, opening=0, first=at, records=sorted(rest), last=closing and closing.last, strays=[], more="", tail=b""))
    for file in part:
        file.records = [it for it in file.records if it[0] < at]
    if closing:
        closing.last = f"next {at}"


@damage
def second_number(made):
    """A number twice, in two files of a part, or of two parts; with the same record or another."""
    log, found = of_some_log(made)
    if found:
        file, place = made.rng.choice(found)
        number, text = file.records[place]
        others = [it for it in made.of(log) if it is not file] or [made.more_of([file])]
        other = made.rng.choice(others)
        other.records = sorted([*other.records, (number, made.rng.choice((text, "halt", text)))])
    return found


@damage
def second_number_in_file(made):
    """A number twice in a file, one after the other or later."""
    _, found = of_some_log(made)
    if found:
        file, place = made.rng.choice(found)
        file.records.insert(made.rng.randint(place + 1, len(file.records)), file.records[place])
    return found


@damage
def second_number_behind_a_hole(made):
    """A number twice behind a number that is missing."""
    log, found = of_some_log(made, 3)
    numbers = numbers_of(made, log) if log else []
    if len(numbers) < 3:
        return False
    at = made.rng.randrange(len(numbers) - 1)
    for file in made.of(log):
        file.records = [it for it in file.records if it[0] != numbers[at]]
    file, place = made.rng.choice([it for it in made.records(log) if it[0].records[it[1]][0] > numbers[at]])
    other = made.more_of([file])
    other.records = [file.records[place]]
    return True


@damage
def log_twice(made):
    """Another process opened a log that there is, from its first record on."""
    part = made.any_part()
    first = part[0].first
    records = made.rng.choice(([], [(first, "halt")], [it for file in part for it in file.records]))
    made.files.append(replace(part[0], process="777", number=0, opening=0, records=sorted(records), strays=[],
                              last=made.rng.choice((None, f"end {first + len(records)}")), more="", tail=b""))
    return True


@damage
def two_names(made):
    """A file, a folder or a process of another recording."""
    file = made.rng.choice(made.files)
    files = made.rng.choice(([file], [it for it in made.files if it.folder == file.folder], [it for it in made.files if it.process == file.process]))
    for it in files:
        it.name = made.rng.choice(("other", "made.", "Made", "x" * 64, "-"))
    return True


@damage
def unlike_openings(made):
    """The files of a part begin with another record."""
    part = made.any_part()
    file = made.rng.choice(part) if len(part) > 1 else made.more_of(part)
    file.first = made.rng.choice((file.first + 1, file.first + 2, max(0, file.first - 1), 4294967294))
    return True


@damage
def opened_later(made):
    """A part says that it begins with a later record than it has."""
    part = made.any_part()
    by = made.rng.choice((1, 1, 2, 3))
    for file in part:
        file.first += by
    return True


@damage
def other_opening(made):
    """A file says that it was begun in another opening of the log: it is a part by itself."""
    file = made.rng.choice(made.files)
    file.opening = made.rng.choice((file.opening + 1, file.number + 1, 4294967294))
    return True


def behind(made, word):
    parts = [part for log in ("machine", *LOGS) for part in made.parts(log) if any(it.last and it.last.startswith(word) for it in part)]
    if parts:
        part = made.rng.choice(parts)
        closing = next(it for it in part if it.last and it.last.startswith(word))
        others = [it for it in part if it is not closing and it.number > closing.number] or [made.more_of(part)]
        number = int(closing.last.split(" ")[1]) + (made.rng.choice((0, 0, 1)) if word == "end" else 1000)
        other = made.rng.choice(others)
        other.records = [*other.records, (number, "page 0 0000000000000001" if part[0].party == "machine" else "halt")]
    return parts


@damage
def behind_the_end(made):
    """A record behind the told end, which stands in another file."""
    return behind(made, "end")


@damage
def behind_the_next(made):
    """A record behind the number with which the log was handed over."""
    return behind(made, "next")


@damage
def unordered(made):
    """Two records of a file stand in the other order."""
    files = [it for it in made.files if len(it.records) > 1]
    if files:
        file = made.rng.choice(files)
        at = made.rng.randrange(len(file.records) - 1)
        file.records[at:at + 2] = reversed(file.records[at:at + 2])
    return files


WORDS_OF_OTHERS = ("halt", "state", "done", "all", "ready", "down 0", "up 0", "got 0", "got-sent 1", "pages 5 1", "page 0 0000000000000001",
                   "r 0 0 0 0", "send 0 0000000000000000", "x", "back")


def changed_words(made, log, text):
    """A record's text with a change."""
    rng, words = made.rng, text.split(" ")
    ways = [f"{text} ", f" {text}", f"{text} 0", text.upper(), text.replace(" ", "  ", 1), text.replace(" ", "\t", 1), f"{text}\r", f"{text}\x1b[0m",
            f"{text}'", f"{text}\"'\\", f"\xe9{text}", text + " x" * 40, f"{text}\x7f", "x" * 60, "x" * 61, "'" * 70, " "]
    if len(words) > 1:
        ways += [" ".join(words[:-1]), f"{words[0]} " + " ".join(words[2:])]
    fields = []
    for at, word in enumerate(words[1:], 1):
        if len(word) < 16 or len(word) % 16:
            fields += [(at, it) for it in (f"0{word}", f"+{word}", f"-{word}", "", "x", "1e3", "4294967295", "4294967296", str(2**64 - 1), str(2**64), "9" * 21,
                                           "64", "63", "511", "512", str(made.machine[0]), "\u00b2")]
        else:
            fields += [(at, it) for it in (word[:-1], word[1:], word + "0" * 16, word[:-16], word[:-1] + "A", word[:-1] + "g", word + " ", "0" * 16 * 513)]
    ways += [" ".join([*words[:at], it, *words[at + 1:]]) for at, it in rng.sample(fields, min(24, len(fields)))]
    return rng.choice([*ways, *rng.sample(WORDS_OF_OTHERS, 3)])


@damage
def wrong_record(made):
    """A record has a wrong text, or is one of another log."""
    log, found = of_some_log(made)
    if found:
        file, place = made.rng.choice(found)
        number, text = file.records[place]
        file.records[place] = number, changed_words(made, log, text)
    return found


def with_another_field(made, name, other):
    """Changes a field of this name in some record: `other` answers the word in the place of one."""
    found = []
    for file, place in made.records():
        words = file.records[place][1].split(" ")
        kind = RECORDS.get(file.party, {}).get(words[0])
        found += [(file, place, at) for at, part in enumerate(kind.fields if kind else (), 1) if part.name == name and at < len(words)]
    if found:
        file, place, at = made.rng.choice(found)
        number, text = file.records[place]
        words = text.split(" ")
        words[at] = other(words[at])
        file.records[place] = number, " ".join(words)
    return found


@damage
def record_of_another_log(made):
    """A record of another log, or with a word that is none."""
    _, found = of_some_log(made)
    if found:
        file, place = made.rng.choice(found)
        own = RECORDS.get(file.party, {"pages": None, "page": None})
        file.records[place] = file.records[place][0], made.rng.choice([it for it in WORDS_OF_OTHERS if it.split(" ")[0] not in own])
    return found


@damage
def page_outside(made):
    """A record names a page that the machine does not have."""
    return made.machine[0] <= LOST and with_another_field(made, "page", lambda _: str(min(LOST, made.machine[0] + made.rng.choice((0, 0, 1, 7)))))


@damage
def cell_outside(made):
    """A record names a cell that a page does not have."""
    return made.machine[1] < 512 and with_another_field(made, "cell", lambda _: str(min(511, made.machine[1] + made.rng.choice((0, 0, 3)))))


@damage
def contents_of_other_cells(made):
    """A record has contents of more cells than a page, or fewer."""
    return with_another_field(made, "contents", lambda word: word + "0" * 16 if made.rng.random() < 0.5 or len(word) <= 16 else word[16:])


@damage
def contents_of_no_cells(made):
    """A record has contents that are none."""
    return with_another_field(made, "contents", lambda word: made.rng.choice((word[:-1], word + "0", word[:-1] + "g", word[:-1] + "A", word[:-1] + "F", "x" * 70, "")))


FIELDS = {"vcpu": 64, "cell": 512, "value": 2**64}


@damage
def field_at_its_limit(made):
    """A field of a record is the greatest number that it may be, or one more."""
    name = made.rng.choice(("vcpu", "vcpu", "value", "value", "cell", "page", "sent", "down", "up", "halt", "miss", "want", "got", "placement", "ready"))
    return with_another_field(made, name, lambda _: str(FIELDS.get(name, LOST + 1) - made.rng.choice((0, 0, 1))))


@damage
def field_of_other_digits(made):
    """A number of a record has a sign, zeros before it, no digits or others."""
    name = made.rng.choice(("vcpu", "value", "cell", "page", "page", "sent", "down"))
    return with_another_field(made, name, lambda word: made.rng.choice((
        f"0{word}", f"0{word}", f"00{word}", f"+{word}", f"-{word}", "", f"{word}.", "\u00b2", f"0x{word}", "9" * 21, f"{word}_0", f"{word}\t")))


@damage
def words_at_their_length(made):
    """A text that is told has as many characters as are told of one, or one more."""
    _, found = of_some_log(made)
    if found:
        file, place = made.rng.choice(found)
        text = made.rng.choice(("x", "w ", "halt ", "' ", "r 0 0 0 ")) + "x" * 70
        file.records[place] = file.records[place][0], text[:made.rng.choice((60, 60, 60, 61, 58))]
    return found


@damage
def too_few_fields(made):
    """A record has a field too few, or too many."""
    _, found = of_some_log(made)
    if found:
        file, place = made.rng.choice(found)
        number, text = file.records[place]
        file.records[place] = number, text.rpartition(" ")[0] if " " in text and made.rng.random() < 0.5 else f"{text} 0"
    return found


@damage
def other_name(made):
    """A record names another record: one that is not there, one later, itself, or none, since the number was lost."""
    found = []
    for file, place in made.records():
        try:
            found += [(file, place, of) for of, _ in named(file.party, read_record(file.party, file.records[place][1]))] if file.party != "machine" else []
        except ValueError:
            continue
    if found:
        file, place, of = made.rng.choice(found)
        number, text = file.records[place]
        count = len(made.records(of))
        words = text.split(" ")
        at = next(at for at, part in enumerate(RECORDS[file.party][words[0]].fields, 1) if part.log == of)
        words[at] = str(made.rng.choice((count, count, count + 1, max(0, count - 1), number, LOST, LOST, LOST - 1, count + 70)))
        file.records[place] = number, " ".join(words)
    return found


def with_another_receipt(made, pattern, other):
    """Changes the word of some receipt."""
    found = [(file, place) for file, place in made.records() if file.party in ("source", "pager") and re.match(pattern, file.records[place][1])]
    if found:
        file, place = made.rng.choice(found)
        number, text = file.records[place]
        file.records[place] = number, re.sub(pattern, other, text, count=1)
    return found


@damage
def receipt_of_a_log(made):
    """A receipt names a link's record, where those who received tell the senders' numbers."""
    return with_another_receipt(made, "(got|pull|ask)-sent ", r"\1 ")


@damage
def receipt_of_a_sender(made):
    """A receipt tells a sender's number, where the link has a log."""
    return with_another_receipt(made, "(got|pull|ask) ", r"\1-sent ")


@damage
def link_beside_receipts(made):
    """Those who received a message tell its number, and the link has a log too: with records, or only behind one that is missing."""
    ways = [("link", "(got|ask)-sent "), ("lane", "pull-sent ")]
    made.rng.shuffle(ways)
    for of, pattern in ways:
        if not made.of(of) and any(re.match(pattern, file.records[place][1]) for file, place in made.records()):
            first = made.rng.choice((0, 0, 1))
            made.files.append(File(of, 0, "1", 0, 0, 0, records=[(first, "down 0")], last=f"end {first + 1}"))
            return True
    return False


@damage
def ask_of_a_receipt(made):
    """The source was asked by a record of the pager that takes a packet."""
    asks = [(file, place) for file, place in made.records("source") if file.records[place][1].startswith("ask-sent ")]
    if not made.of("link") and not asks and made.records("source"):
        texts_ = [*texts_of(made, "source"), "ask-sent 0"]
        put_records(made, "source", texts_)
        asks = [(made.of("source")[0], len(texts_) - 1)]
    taken = [file.records[place][0] for file, place in made.records("pager") if re.match("(got|pull)-sent ", file.records[place][1])]
    if asks and taken:
        file, place = made.rng.choice(asks)
        file.records[place] = file.records[place][0], f"ask-sent {made.rng.choice(taken)}"
    return asks and taken


@damage
def lost_sender(made):
    """The number that came with a message was lost, or is one of no record."""
    found = [(file, place) for file, place in made.records() if re.match("(got|pull|ask)-sent ", file.records[place][1])]
    if found:
        file, place = made.rng.choice(found)
        number, text = file.records[place]
        count = len(made.records("pager" if text.startswith("ask") else "source"))
        file.records[place] = number, f"{text.split(' ')[0]} {made.rng.choice((LOST, LOST, LOST - 1, count, count + 1, number, number + 1))}"
    return found


def put_records(made, log, texts_):
    """Has one part and one file of a log with these records."""
    file = made.of(log)[0]
    made.files = [it for it in made.files if it.party != log] + [file]
    file.first, file.records, file.last = 0, list(enumerate(texts_)), f"end {len(texts_)}"


def texts_of(made, log):
    return [text for _, text in sorted(file.records[place] for file, place in made.records(log))]


def told_otherwise(made, change):
    """Has the machine's log tell what a change leaves of its records. It gets them, and the place of the one that tells of the machine."""
    texts_ = texts_of(made, "machine")
    at = next((at for at, text in enumerate(texts_) if text.startswith("pages ")), None)
    if at is None:
        return False
    change(texts_, at)
    put_records(made, "machine", texts_)
    return True


def put_anywhere(made, texts_, text):
    texts_.insert(made.rng.randrange(len(texts_) + 1), text)


@damage
def no_machine(made):
    """No record tells of the machine."""
    return told_otherwise(made, lambda texts_, at: texts_.pop(at))


@damage
def second_machine(made):
    """Two records tell of the machine."""
    return told_otherwise(made, lambda texts_, at: put_anywhere(made, texts_, made.rng.choice((texts_[at], "pages 3 1"))))


@damage
def other_machine(made):
    """The machine has other pages, or other cells, than it had."""
    pages, cells = made.machine

    def change(texts_, at):
        texts_[at] = f"pages {made.rng.choice((1, 2, pages + 1))} {made.rng.choice((cells, cells, cells + 1))}"

    return told_otherwise(made, change)


@damage
def other_name_of_a_folder(made):
    """A folder has the name of another recording, or of none."""
    folder = made.others.setdefault(made.rng.randrange(made.folders), {})
    folder["recording-name"] = made.rng.choice((b"other\n", b"mad\n", b"made \n", b"\nmade\n", b"", b"made\0\n", b"x" * 20000))
    return True


@damage
def other_lane(made):
    """The machine's log tells of a lane with a log, and there is none, or the other way round."""
    def change(texts_, at):
        texts_[at] = f"{' '.join(texts_[at].split(' ')[:3])} {int(not made.of('lane'))}"

    return told_otherwise(made, change)


@damage
def lost_lane(made):
    """No file of the lane's log is there."""
    lane = made.of("lane")
    made.files = [it for it in made.files if it.party != "lane"]
    return lane


@damage
def wrong_machine(made):
    """The machine's pages or cells are none, or beyond the limits."""
    pages, cells = made.machine

    def change(texts_, at):
        texts_[at] = made.rng.choice(("pages 0 1", "pages 1 0", "pages 5 1000", "pages 10000000000 1", f"pages 0{pages} {cells}", f"pages {pages}",
                                      f"pages {pages} {cells} 2", f"pages {pages} {cells} 01", f"pages {pages} {cells} 1 1", f"pages {pages} 0{cells}"))

    return told_otherwise(made, change)


def with_more_cells(made, cells):
    """Has the machine's pages have so many cells, and all contents too."""
    pages, before = made.machine
    more = "0" * 16 * (cells - before)
    for file in made.files:
        word = {"machine": "page", "source": "send", "pager": "place"}.get(file.party, "-")
        file.records = [(number, f"{text}{more}" if text.startswith(f"{word} ") else text) for number, text in file.records]
        file.records = [(number, f"pages {pages} {cells}" if file.party == "machine" and text.startswith("pages ") else text) for number, text in file.records]
    made.machine = pages, cells


@damage
def too_many_cells(made):
    """The machine's pages have more cells than a page may have, and all contents do."""
    if made.machine[1] < 512 and made.of("machine"):
        with_more_cells(made, made.rng.choice((513, 513, 520)))
    return made.machine[1] > 512


@damage
def long_record_left_out(made):
    """A placement of many cells names a record that is not there."""
    found = [(file, place) for file, place in made.records("pager") if file.records[place][1].startswith("place ")]
    if found and made.machine[1] < 512:
        with_more_cells(made, made.machine[1] + 3)
        file, place = made.rng.choice(found)
        number, text = file.records[place]
        file.records[place] = number, " ".join([*text.split(" ")[:2], str(made.rng.choice((LOST, len(made.records("pager"))))), *text.split(" ")[3:]])
    return found


@damage
def page_told_twice(made):
    """What a page holds at first is told twice."""
    pages, cells = made.machine

    def change(texts_, _):
        page = made.rng.randrange(min(pages, LOST))
        for _ in range(2):
            put_anywhere(made, texts_, f"page {page} {made.rng.choice((0, 7)):0{16 * cells}x}")

    return told_otherwise(made, change)


@damage
def first_page_outside(made):
    """What a page holds at first is told, and the machine does not have it."""
    pages, cells = made.machine
    text = f"page {made.rng.choice((pages, pages, pages + 1, LOST, 10**10 - 1))} {made.rng.choice((0, 7)):0{16 * cells}x}"
    return told_otherwise(made, lambda texts_, _: put_anywhere(made, texts_, text))


@damage
def first_page_of_other_cells(made):
    """What a page holds at first has other cells than the machine's pages."""
    pages, cells = made.machine
    free = [page for page in range(min(pages, 50)) if not any(text.startswith(f"page {page} ") for text in texts_of(made, "machine"))]
    text = f"page {made.rng.choice(free or [0])} {made.rng.choice((0, 7)):0{16 * made.rng.choice((cells + 1, max(1, cells - 1)))}x}"
    return told_otherwise(made, lambda texts_, _: put_anywhere(made, texts_, text))


@damage
def no_first_page(made):
    """A record of the machine's log is none."""
    wrong = ("cells 1", "page 0", "page 00 0000000000000007", "page 0 000000000000000G", "page 0  0000000000000007", "end", "halt", "pages",
             "page x 0000000000000000", "page 10000000000 0000000000000007", "page 0 007")
    return told_otherwise(made, lambda texts_, _: put_anywhere(made, texts_, made.rng.choice(wrong)))


@damage
def page_behind_a_hole(made):
    """A record of the machine is missing, and others are behind it."""
    texts_ = texts_of(made, "machine")
    if not made.of("machine") or not texts_:
        return False
    pages, cells = made.machine
    texts_ += [f"page {page} {page + 9:0{16 * cells}x}" for page in range(min(pages, 3)) if not any(text.startswith(f"page {page} ") for text in texts_)]
    put_records(made, "machine", texts_)
    del made.of("machine")[0].records[made.rng.randrange(len(texts_))]
    return True


@damage
def alone_halted(made):
    """The source has recorded that the guest halted, and no more; or the rest names what is not there."""
    if not made.of("source"):
        return False
    put_records(made, "source", made.rng.choice((["halted 0"], ["halted 0"], ["halted 0", "again 9"], ["halted 0", f"ask {LOST}"], ["halted 0", "ask-sent 0"], ["state"],
                                                 ["halted 9999"])))
    if made.rng.random() < 0.7 and made.of("guest"):
        put_records(made, "guest", ["halt"])
    return True


@damage
def no_resume(made):
    """The resume was not recorded."""
    texts_ = texts_of(made, "guest")
    kept = [text for text in texts_ if not text.startswith("resume ")]
    if not made.of("guest") or "halt" not in kept:
        return False
    if kept[-1] == "halt" and made.rng.random() < 0.7:
        kept.append("r 0 0 0 0")
    put_records(made, "guest", kept)
    return True


@damage
def started_again(made):
    """The source starts its guest again."""
    texts_ = texts_of(made, "source")
    if not made.of("source"):
        return False
    texts_.insert(made.rng.choice((len(texts_), len(texts_), made.rng.randrange(len(texts_) + 1))), "back")
    put_records(made, "source", texts_)
    return True


@damage
def late_release(made):
    """The guest releases a page after its resume."""
    texts_ = texts_of(made, "guest")
    if not any(text.startswith("resume ") for text in texts_):
        return False
    put_records(made, "guest", [*texts_, made.rng.choice(("z 0 0", "z 63 0"))])
    return True


NUMBERS = (LOST - 2, LOST - 1, LOST, LOST + 1, 10**10 - 1, 10**10, 2**64 - 1, 2**64, 10**40 - 1)


@damage
def great_number(made):
    """The last record of a file has a number at the limits."""
    files = [it for it in made.files if it.records]
    if files:
        file = made.rng.choice(files)
        file.records[-1] = made.rng.choice(NUMBERS), file.records[-1][1]
        if made.rng.random() < 0.5 and file.last:
            file.last = None
    return files


@damage
def great_count(made):
    """The count of an end, or the number of an error, is at the limits."""
    file = made.rng.choice([it for it in made.files if it.last] or made.files)
    file.last = f"{made.rng.choice(('end', 'next', 'lost'))} {made.rng.choice(NUMBERS)}"
    if file.last.startswith("lost"):
        file.last = f"lost {made.rng.choice(('134', '9999', '2147483647'))}"
    return True


@damage
def great_first(made):
    """A part begins at the limits."""
    part = made.any_part()
    first, opening = made.rng.choice(NUMBERS), made.rng.choice((part[0].opening, part[0].opening, *NUMBERS))
    for file in part:
        file.first, file.opening = first, opening
    return True


@damage
def no_line(made):
    """A line is none of a recorder's."""
    file = made.rng.choice(made.files)
    line = made.rng.choice(("", "5", " 5 halt", "halt", "end", "end 05", "END 5", "end 5 ", "next", "lost", "lost -1", "05 halt", "5\thalt", "+5 halt", "-5 halt",
                            "pages 5 1", "x" * 60, "x" * 61, "it's none", 'say "no"',
                            "it's \"none\"", "\\", "\x1b[0m", "5 halt\rend 9", "\xff\xfe", "\x7f", "e" * 9000, "lost 28 x", "end 4 end 4", "postcopy-records 1"))
    file.strays = [(made.rng.randrange(len(file.records) + 1), line)]
    return True


@damage
def after_the_end(made):
    """Lines follow the end of a log."""
    files = [it for it in made.files if it.last]
    if files:
        made.rng.choice(files).more = made.rng.choice(("7 halt\n", "end 7\n", "x\n", "\n", "x\ny\n", "lost 28\n", "7 hal", "0 halt\nend 1\n"))
    return files


def with_another_head(made, place, other):
    """Changes a line of the head of some file: `other` answers it, or None where there is no such line."""
    file = made.rng.choice(made.files)
    lines = ["postcopy-records 1", f"recording {file.name}", f"log {file.party} {file.first} {file.opening}"]
    lines[place:place + 1] = [] if made.rng.random() < 0.1 else [other(file)]
    file.head = "".join(f"{line}\n" for line in lines)
    return True


@damage
def wrong_header(made):
    """The first line of a file is none of a recorder's."""
    others = ("postcopy-records 2", "postcopy-record 1", "postcopy-records 1 ", "", "0 halt", "postcopy-session 1", "postcopy-records 1\r",
              "\xef\xbb\xbfpostcopy-records 1", "x" * 70)
    return with_another_head(made, 0, lambda _: made.rng.choice(others))


@damage
def wrong_name(made):
    """The second line of a file has no name of a recording."""
    others = ("recording ", "recording a b", "recording " + "a" * 65, "recording a/b", "recording \xe9", "Recording made", "recording made\r",
              "recording  made", "log guest 0 0")
    return with_another_head(made, 1, lambda _: made.rng.choice(others))


@damage
def wrong_opening(made):
    """The third line of a file does not tell how the log was opened, or is of another log."""
    def other(file):
        party = made.rng.choice([it for it in ("machine", *LOGS) if it != file.party])
        return made.rng.choice((
            f"log {party} {file.first} {file.opening}", f"log {file.party} 0{file.first} {file.opening}",
            f"log {file.party} {file.first}", f"log {file.party} {file.first} {file.opening} 0",
            f"log {file.party} -1 0", f"log {file.party}  {file.first} {file.opening}", f"log {file.party} 0 12345678901", f"log {file.party} 0 00", "end 0", "0 halt"))

    return with_another_head(made, 2, other)


def cut_at(file, at):
    data = file.data()[:at]
    file.head, file.records, file.strays, file.last, file.more, file.tail = "", [], [], None, "", data


@damage
def ends_in_head(made):
    """A file ends within its head."""
    file = made.rng.choice(made.files)
    head = file.data().index(f"\nlog {file.party}".encode()) + 2 if file.head is None and b"\nlog " in file.data() else 20
    cut_at(file, made.rng.choice((0, 1, 18, 19, 20, made.rng.randrange(head + 6), made.rng.randrange(head + 6))))
    if made.rng.random() < 0.3:
        file.tail += made.rng.choice((b"\0" * 50, b"\0\nrecording made\n"))
    return True


@damage
def cut_short(made):
    """A file is cut short somewhere."""
    file = made.rng.choice(made.files)
    cut_at(file, made.rng.randrange(len(file.data()) + 1))
    return True


@damage
def zero_within(made):
    """A byte 0 stands somewhere in a file."""
    file = made.rng.choice(made.files)
    data = bytearray(file.data())
    if data:
        data[made.rng.randrange(len(data))] = 0
    cut_at(file, 0)
    file.tail = bytes(data)
    return True


@damage
def other_byte(made):
    """Some byte of a file is another one."""
    file = made.rng.choice(made.files)
    data = bytearray(file.data())
    if data:
        data[made.rng.randrange(len(data))] = made.rng.choice((10, 32, 48, 57, 97, made.rng.randrange(256)))
    cut_at(file, 0)
    file.tail = bytes(data)
    return True


@damage
def long_line(made):
    """A line is as long as one may be, or longer, or has no end."""
    file = made.rng.choice(made.files)
    length = made.rng.choice((8458, 8459, 8460, 65536, 70000))
    number = file.records[-1][0] + 1 if file.records else file.first
    text = "x" * (length - len(f"{number} "))
    if made.rng.random() < 0.5:
        file.records.append((number, text))
    else:
        file.tail = f"{number} {text}".encode()
    return True


@damage
def only_a_line_feed(made):
    """A file has nothing but an empty line."""
    file = made.rng.choice(made.files)
    cut_at(file, 0)
    file.tail = made.rng.choice((b"\n", b"\nx", b"\n\0", b"\n\n"))
    return True


@damage
def process_of_no_record(made):
    """A process has opened a log and written no record."""
    log = made.rng.choice(("machine", *LOGS))
    count = len(made.records(log))
    made.files.append(File(log, made.rng.randrange(made.folders), "55", 0, 0, made.rng.choice((0, count, count, count + 1, count + 2)),
                           last=made.rng.choice((None, None, f"end {count}", f"next {count}", "lost 2"))))
    return True


@damage
def process_of_no_record_between(made):
    """Beside processes that went on with a log, one that has opened it before and written no record."""
    logs = [log for log in LOGS if len(made.records(log)) > 1]
    if logs:
        log = made.rng.choice(logs)
        if len(made.parts(log)) == 1:
            hand_over(made, log)
        first = made.rng.randint(1, max(1, max(part[0].first for part in made.parts(log)) - 1))
        made.files.append(File(log, made.rng.randrange(made.folders), "56", 0, 0, first, last=made.rng.choice((f"end {first}", f"end {first}", None))))
    return logs


@damage
def two_processes_from_one_record(made):
    """Two processes opened a log with the same number, and neither has an end."""
    part = made.any_part()
    for file in part:
        file.last = None
    made.files.append(File(part[0].party, made.rng.randrange(made.folders), made.rng.choice(("0", "99")), 0, 0, part[0].first))
    return True


@damage
def copied_folder(made):
    """A folder is there twice, with all its files, under two names."""
    copied = made.rng.randrange(made.folders)
    made.files += [replace(it, folder=made.folders, records=list(it.records), strays=list(it.strays)) for it in made.files if it.folder == copied]
    made.folders += 1
    made.words = made.words and [*made.words, "%s"]
    return any(it.folder == copied for it in made.files)


@damage
def moved_file(made):
    """A file of a part was moved into a folder of its own."""
    file = made.rng.choice(made.files)
    file.folder = made.folders
    made.folders += 1
    made.words = made.words and [*made.words, "%s"]
    return True


@damage
def compressed_file(made):
    """Somebody has compressed some files, and for some of them the file itself is there too."""
    gone = made.rng.sample(made.files, made.rng.choice((1, 1, 2, len(made.files))) if len(made.files) > 1 else 1)
    for file in gone:
        made.others.setdefault(file.folder, {})[f"{file.file()}.{made.rng.choice(ENDINGS)}"] = b"\x1f\x8b"
    if made.rng.random() < 0.7:
        made.files = [it for it in made.files if it not in gone]
    return True


@damage
def folder_of_none(made):
    """A folder has no file of a recorder."""
    made.folders += 1
    made.words = made.words and [*made.words, "%s"]
    made.others[made.folders - 1] = {"guest.1": b"x"}
    return True


@damage
def no_file(made):
    """No folder has a file of a recorder."""
    made.files = []
    return True


@damage
def no_file_of_the_machine(made):
    """No file of the machine's log is there."""
    made.files = [it for it in made.files if it.party != "machine"]
    return made.files


@damage
def folder_twice(made):
    """A folder is named twice, in the same words."""
    made.words = [*(made.words or ["%s"] * made.folders), "rec-0"]
    return True


@damage
def folder_by_two_names(made):
    """A folder is named twice, in other words."""
    made.words = [*(made.words or ["%s"] * made.folders), made.rng.choice(("rec-0//", ".//./rec-0", "rec-0/./", "rec-0/../rec-0"))]
    return True


def damaged(made, ways):
    """The recording with the damage of the first way that does anything to it."""
    for way in ways:
        if made.files and DAMAGES[way](made):
            made.did.append(way)
            break
    return made


def made_folders(seed, count):
    """So many recordings, half of them damaged, and a quarter of these twice. Each way comes in its turn, to a recording to which it does anything. Nothing
    of a recording is by what was drawn for another one."""
    ways, drawn = sorted(DAMAGES), texts(random.Random(seed), count)
    random.Random(seed).shuffle(ways)
    for number in range(count):
        rng, turn = random.Random(f"{seed} {number}"), number // 2 % len(ways)
        made = recording_of_text(rng, drawn(rng))
        for _ in range(number % 2 * MOST_DRAWN):
            if ways[turn] in damaged(made, [ways[turn]]).did:
                break
            made = recording_of_text(rng, drawn(rng))
        yield damaged(made, ways[turn + 1:] + ways[:turn]) if number % 8 == 3 else made

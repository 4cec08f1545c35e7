"""The slow model of `session`: what it writes and tells of the files of recorders, which are those of bindings/c/postcopy_record.h and
those of postcopy.recorder. It keeps the whole recording in memory.

A log's records are in files with the name PARTY.PROCESS.N, in one folder or in several. Each thread that appended to the log has
a file:

    postcopy-records 1
    recording NAME
    log PARTY FIRST OPENING
    NUMBER RECORD       for each record
    end COUNT           in one of the files, if the log was closed

So a process writes a part of the log: the records from FIRST on, up to COUNT, which is not included. OPENING is the N of the
part's first file. In place of `end COUNT`, the last line is `next COUNT` if the log was handed over to another process, and `lost
ERRNO` if a record was not written. A file ends at a byte 0, or with a line that has no end, if its process died. A log is whole
if each of its parts was closed, and if they have each number from 0 on once.

A file that is only there compressed, as PARTY.PROCESS.N.gz, is not read.
"""
from __future__ import annotations

import functools
import os
import re
import unicodedata
from typing import Dict, Iterable, Iterator, List, Optional, Tuple

from postcopy import records
from postcopy.records import LOGS, LOST, MOST_CELLS, RECORDS
from postcopy.sessions import Session

# What stands before each line that is told, and the last line where something is missing.
PREFIX = "session: "
NOTHING = "nothing was written: repair this, or use session --cut to write what is left"

# How the line ends that tells of a file that is compressed.
COMPRESSED = " is compressed, and is not read: unpack it first"

_FILE = re.compile(rf"(machine|{'|'.join(LOGS)})\.([0-9]+)\.[0-9]+", re.ASCII)
_ENDING = re.compile(r"\.(bz2|gz|lz4|lzma|xz|zst)")
_HEAD = ("postcopy-records 1", "recording ([A-Za-z0-9_.-]{1,64})", "log %s (0|[1-9][0-9]{0,9}) (0|[1-9][0-9]{0,9})")
_TOLD = ("'postcopy-records 1': no recorder of this release wrote it", "'recording NAME'", "'log %s FIRST OPENING'")
_LINE = re.compile("(0|[1-9][0-9]{0,9}) (.+)", re.ASCII)
_LAST = re.compile("(end|next|lost) (0|[1-9][0-9]{0,9})", re.ASCII)
_MACHINE = re.compile("pages ([1-9][0-9]{0,19}) ([1-9][0-9]{0,2})(?: [01])?|page (0|[1-9][0-9]{0,19}) ((?:[0-9a-f]{16})+)", re.ASCII)

# The calls that tell that the lane has a log.
_LANE_CALL = "postcopy_record_machine_with_lane, or Log.machine_with_lane"

# (many logs have the same record)
read_record = functools.lru_cache(maxsize=1 << 17)(records.read_record)


class Unfit(ValueError):
    """Why no session can be made from the files, in words."""


def _quoted(text: str) -> str:
    return ascii(text if len(text) <= 60 else f"{text[:57]}...")


def _lines(path: str) -> List[str]:
    """Returns the lines of a file that were written to their ends."""
    with open(path, "rb") as file:
        whole = file.read().partition(b"\0")[0].rpartition(b"\n")[0]
    return whole.decode("ascii", "backslashreplace").split("\n") if whole else []


class _Name:
    """The recording's name, which is the same in all files."""

    def __init__(self) -> None:
        self.name, self.path = "", ""

    def take(self, name: str, path: str) -> None:
        if self.name and name != self.name:
            raise Unfit(f"{path} is of the recording {name}, and {self.path} of the recording {self.name}: these are two recordings, each of "
                        "which has its own session (a folder at a second machine is given the name: postcopy_recording_join, or join)")
        self.name, self.path = name, path

    def check(self, path: str) -> None:
        """Compares the name of a folder, which this file has."""
        with open(path, "rb") as file:
            name = file.readline().rstrip(b"\n")
        if self.name and name != self.name.encode():
            raise Unfit(f"{path} names another recording, and {self.path} is of the recording {self.name}: these are two recordings, each of "
                        "which has its own session (a folder at a second machine is given the name: postcopy_recording_join, or join)")


class _Part:
    """The part of a log that a process wrote after it opened the log."""

    def __init__(self, path: str, first: int) -> None:
        self.path, self.first, self.count = path, first, first  # `count`: the number after its last record
        self.word, self.where, self.error = "", "", 0  # how and where it was closed, and why a record was not written

    def close(self, log: str, where: str, word: str, number: int) -> None:
        if self.word:
            raise Unfit(f"{where}: a second end of the {log}'s log from record {self.first} on, beside {self.where}: {_TWICE}")
        if word == "lost":
            self.error = number
        elif number < self.count:
            raise Unfit(f"{where}: found '{word} {number}', where the {log}'s log has a record {self.count - 1}")
        else:
            self.count = number
        self.word, self.where = word, where


_TWICE = "two recordings are in one folder, or the log was opened twice from this number on"
_GONE_ON = "a log is gone on with from the number that postcopy_log_hand_over or Log.hand_over answers"


class _Log:
    """The files of a log."""

    def __init__(self, name: str) -> None:
        self.name = name
        self.paths: List[str] = []
        self.parts: Dict[Tuple[str, str, str], _Part] = {}  # by folder, process and opening
        self.texts: Dict[int, str] = {}  # of the records, by their numbers
        self.said: List[str] = []

    def read(self, path: str, process: str, recording: _Name) -> None:
        """Takes a file."""
        self.paths.append(path)
        lines = _lines(path)
        head = self._head(path, lines)
        if len(head) < 3:
            self.said.append(f"{self.name}: {path} ends in its head: its process died as it began the file")
            return
        recording.take(head[1][1], path)
        first = int(head[2][1])
        part = self.parts.setdefault((os.path.dirname(path), process, head[2][2]), _Part(path, first))
        if part.first != first:
            # (of the two faults of such a file, an end in front of what the part has is told)
            last = _LAST.fullmatch(lines[-1])
            if last is not None and not part.word and last[1] != "lost":
                part.close(self.name, f"{path}:{len(lines)}", last[1], int(last[2]))
            raise Unfit(f"{path}:3: found '{lines[2]}', where {part.path} begins with record {part.first}")
        numbers = []
        for place, line in enumerate(lines[3:], 4):
            match = _LINE.fullmatch(line)
            if match is not None:
                number = int(match[1])
                if number in self.texts:
                    raise Unfit(self._twice(path, place, part, number))
                self.texts[number] = match[2]
                numbers.append(number)
            elif not _LAST.fullmatch(line):
                raise Unfit(f"{path}:{place}: found {_quoted(line)}, which is no record: expected its number, its word and its fields")
            elif place < len(lines):
                raise Unfit(f"{path}:{place + 1}: found {_quoted(lines[place])} after the log's end, '{line}'")
        self._take(part, path, numbers, len(lines), lines[-1])

    def _head(self, path: str, lines: List[str]) -> List["re.Match[str]"]:
        found = []
        for place, (pattern, told, line) in enumerate(zip(_HEAD, _TOLD, lines), 1):
            match = re.fullmatch(pattern.replace("%s", self.name), line, re.ASCII)
            if match is None:
                raise Unfit(f"{path}:{place}: found {_quoted(line)}; expected {told.replace('%s', self.name)}")
            found.append(match)
        return found

    def _take(self, part: _Part, path: str, numbers: List[int], place: int, line: str) -> None:
        """Adds a file's records, and its last line if it is one that ends a log, to its part."""
        if numbers and min(numbers) < part.first:
            raise Unfit(f"{self.place(min(numbers))} is in a file of the records from {part.first} on")
        most = max(numbers, default=part.first - 1) + 1
        if part.word in ("end", "next") and most > part.count:
            raise Unfit(f"{self.place(most - 1)} is after the end that {part.where} tells")
        part.count = max(part.count, most)
        last = _LAST.fullmatch(line)
        if last is not None:
            part.close(self.name, f"{path}:{place}", last[1], int(last[2]))

    def _twice(self, path: str, place: int, part: _Part, number: int) -> str:
        """The message about a second record with a number."""
        others = {it.first for it in self.parts.values() if it is not part}
        why = _GONE_ON if others and part.first not in others else _TWICE
        return f"{path}:{place}: a second record {number} of the {self.name}'s log, beside {self.place(number)}: {why}"

    def place(self, number: int) -> str:
        """The name of a record in messages, with its place. (It is searched for each time, because few are needed.)"""
        start = f"{number} "
        for path in self.paths:
            for place, line in enumerate(_lines(path), 1):
                if line.startswith(start):
                    return f"{path}:{place}: record {number} of the {self.name}'s log"
        return f"record {number} of the {self.name}'s log"

    def lacks(self) -> Iterator[str]:
        """Says in words why the log's parts are not the whole log."""
        yield from self.said
        parts, at = sorted(self.parts.values(), key=lambda part: (part.first, part.count, part.word != "next")), 0
        for place, part in enumerate(parts):
            if part.first != at and part.count > part.first:
                yield f"{self.name}: {part.path} begins with record {part.first}, where the log has {at} in front of it: {_GONE_ON}"
            if not part.word:
                yield f"{self.name}: {part.path} has no end: its process died, or did not close the log (postcopy_log_close, or Log.close)"
            elif part.word == "lost":
                # (the system's word for no error is 'Success')
                why = os.strerror(part.error) if part.error else "Unknown error 0"
                yield f"{self.name}: {part.where}: a record was not written: {why}"
            elif part.word == "next" and all(it.first != part.count for it in parts[place + 1:]):
                yield f"{self.name}: {part.where}: handed over with {part.count} records, and there is no file of who went on"
            at = max(at, part.count)

    def missing(self) -> Tuple[int, str]:
        """Returns the first number that is missing, and says in words which numbers are."""
        count = max((part.count for part in self.parts.values()), default=0)
        first = next(number for number in range(len(self.texts) + 1) if number not in self.texts)
        end = min((number for number in self.texts if number > first), default=count)
        return first, "" if first >= count else f"record {first} is missing" if end == first + 1 else f"records {first} to {end - 1} are missing"


def _listed(folders: Iterable[str]) -> Dict[str, List[str]]:
    """Returns the names in each of these folders."""
    found: Dict[str, List[str]] = {}
    for folder in folders:
        if os.path.realpath(folder) in map(os.path.realpath, found):
            raise Unfit(f"{folder} is named twice")
        found[folder] = sorted(os.listdir(folder))
    return found


def _compressed(folders: Iterable[str]) -> List[str]:
    """Says in words which recorders' files in these folders are only there compressed."""
    said = []
    for folder, names in _listed(folders).items():
        for name in names:
            whole, ending = os.path.splitext(name)
            if _ENDING.fullmatch(ending) and _FILE.fullmatch(whole) and whole not in names:
                said.append(f"{os.path.join(folder, name)}{COMPRESSED}")
    return said


def _read(folders: Iterable[str]) -> Dict[str, _Log]:
    """Returns the logs that have a file in these folders."""
    logs: Dict[str, _Log] = {}
    listed, recording = _listed(folders), _Name()
    for folder, names in listed.items():
        for name in names:
            match = _FILE.fullmatch(name)
            if match:
                logs.setdefault(match[1], _Log(match[1])).read(os.path.join(folder, name), match[2], recording)
    for folder, names in listed.items():
        if "recording-name" in names:
            recording.check(os.path.join(folder, "recording-name"))
    if not logs:
        raise Unfit(f"{', '.join(listed)}: there is no file of a recorder, PARTY.PROCESS.N")
    return logs


def _machine(log: Optional[_Log]) -> Tuple[Session, List[str]]:
    """Returns a session of the machine that its log describes, with no records, and messages about that log."""
    if log is None:
        raise Unfit("there is no file of the machine's log, which tells how many pages there are: postcopy_record_machine, or Log.machine")
    pages, told = None, {}
    for number, text in sorted(log.texts.items()):
        match = _MACHINE.fullmatch(text)
        if match is None or int(match[1] or 0) >= 2**63 or int(match[3] or 0) >= 2**64:
            raise Unfit(f"{log.place(number)}: found {_quoted(text)}; expected 'pages PAGES CELLS LANE' or 'page PAGE CONTENTS'")
        if match[2] and int(match[2]) > MOST_CELLS:
            raise Unfit(f"{log.place(number)}: {match[2]} cells are too many: a page has at most {MOST_CELLS}")
        if match[1] and pages is not None:
            raise Unfit(f"{log.place(number)}: a second {_quoted(text)}, beside {log.place(pages)}: {_quoted(log.texts[pages])}")
        if match[1]:
            pages = number
        elif told.setdefault(int(match[3]), number) != number:
            raise Unfit(f"{log.place(number)}: what page {match[3]} holds at first is told twice, beside {log.place(told[int(match[3])])}")
    if pages is None:
        raise Unfit(f"{', '.join(log.paths)}: no record tells how many pages there are: postcopy_record_machine, or Log.machine")
    session = Session(*map(int, log.texts[pages].split(" ")[1:3]))
    for page, number in told.items():
        contents = log.texts[number].rpartition(" ")[2]
        wrong = _wrong(session, "page", page) or _wrong(session, "contents", contents)
        if wrong:
            raise Unfit(f"{log.place(number)}: {wrong}")
        if contents.strip("0"):
            session.initial[page] = contents
    missing = log.missing()[1]
    return session, [*log.lacks(), *([f"machine: {missing}: pages whose contents are not told are taken for zeros"] if missing else [])]


def _lane(machine: _Log, lane: Optional[_Log]) -> Iterator[str]:
    """The message about a lane with a log of which the machine's log does not tell, or the other way round. Recorders of before did not tell."""
    told = next(text for text in machine.texts.values() if text.startswith("pages ")).split(" ")[3:]
    if told == ["1"] and lane is None:
        yield f"lane: there is no file of its log, of which the machine's log tells ({_LANE_CALL})"
    elif told == ["0"] and lane is not None:
        yield f"lane: the machine's log tells that it has no log: where it has one, call {_LANE_CALL}"


def _wrong(session: Session, field: str, value: object) -> str:
    """Says in words why a field's value does not fit the machine, or nothing if it does."""
    limit = {"page": session.pages, "cell": session.cells}.get(field)
    if limit is not None and int(str(value)) >= limit:
        return f"there is no {field} {value}: {f'the machine has {limit} pages' if field == 'page' else f'a page has {limit} cells'}, from 0 on"
    if field == "contents" and len(str(value)) != 16 * session.cells:
        return f"contents of {len(str(value)) // 16} cells, where a page of the machine has {session.cells}"
    return ""


def _records(session: Session, log: _Log) -> List[str]:
    """Puts a log's records into the session, up to the first number that is missing. Returns messages about the log."""
    length, missing = log.missing()
    records = session.logs[log.name]
    for number in range(length):
        try:
            record = read_record(log.name, log.texts[number])
        except ValueError as fault:
            raise Unfit(f"{log.place(number)}, {_quoted(log.texts[number])}: {fault}") from None
        for field, value in zip(RECORDS[log.name][str(record[0])].fields, record[1:]):
            if field.name in ("page", "cell", "contents"):
                wrong = _wrong(session, field.name, value)
                if wrong:
                    raise Unfit(f"{log.place(number)}, {_quoted(log.texts[number])}: {wrong}")
        records.append(record)
    behind = len(log.texts) - length
    return [*log.lacks(), *([f"{log.name}: {behind} records left out: {missing}" if behind else f"{log.name}: {missing}"] if missing else [])]


def _unresumed(session: Session, log: Optional[_Log]) -> Iterator[str]:
    """The message about a guest that runs after its halt without a resume."""
    words = [record[0] for record in session.logs["guest"]]
    if log is not None and "halt" in words and "resume" not in words and words[-1] != "halt":
        yield (f"guest: {log.place(words.index('halt') + 1)} comes after the halt, and there is no resume: "
               "postcopy_record_resume, or Log.resume, where the guest runs at the target")


def _asked(line: str, log: Optional[_Log]) -> str:
    """The message about a source's log that is cut, where its file has the number of a record of the pager that is not there, and not that of a record that was lost."""
    lost = re.fullmatch(rf"(source: .* record ([0-9]+) of the source's log, )'ask {LOST}', names no record .*", line)
    text = log.texts[int(lost[2])] if lost and log is not None else ""
    if not text.startswith("ask-sent ") or text == f"ask-sent {LOST}":
        return line
    return f"{lost[1]}'{text}', names record {text.split()[1]} of the pager's log, which is not there"


def recording_of(folders: Iterable[str]) -> Tuple[Session, List[str]]:
    """Returns the recording from the files in these folders, cut so that no record names one that is missing, and messages about
    what was left out or is missing; there are none if it is whole. Its machine may have more pages than that of a session, and its
    logs more records: windows show some of the pages. Raises Unfit if the files make no recording, and OSError if they cannot be
    read."""
    logs = _read(folders)
    session, said = _machine(logs.get("machine"))
    said += _lane(logs["machine"], logs.get("lane"))
    session.has_lane = "lane" in logs
    for name in LOGS:
        said += _records(session, logs.get(name, _Log(name)))
    said += _unresumed(session, logs.get("guest"))

    def place(log: str, number: int) -> str:
        return logs.get(log, _Log(log)).place(number)

    try:
        session.deliver(place)
    except ValueError as fault:
        raise Unfit(str(fault)) from None
    missing = [log for log in LOGS if not session.logs[log] and log != "lane"]
    # (the text stays one of the second version, or of the third, also where the record that makes it one is cut off)
    session.has_lane |= any(record[0] == "pull" for record in session.logs["pager"])
    session.is_large |= ("back",) in session.logs["source"]
    cuts = [_asked(line, logs.get("source")) for line in session.cut(LOST, place)]
    return session, said + cuts + [f"{log}: there is no record" for log in missing]


def session_of(folders: Iterable[str]) -> Tuple[Session, List[str]]:
    """Returns the session from the files in these folders, cut as `recording_of` does, and to the number of records that a session
    may have; and messages about what was left out or is missing. Raises as `recording_of` does."""
    session, said = recording_of(folders)
    return session, said + session.cut()


def model_of(folders: Iterable[str]) -> Tuple[Optional[str], List[str]]:
    """Returns the text of the recording, or None where the files make none, and what is said. Files that are compressed come first."""
    compressed: List[str] = []
    try:
        compressed += _compressed(folders)
        recording, said = recording_of(folders)
        return "".join(recording.lines()), compressed + said
    except ValueError as fault:
        return None, [*compressed, str(fault)]


def told(lines: Iterable[str]) -> str:
    """Returns what is told of these lines. Characters that are not shown as they are have the escapes of JSON."""
    def shown(it: str) -> str:
        is_odd = unicodedata.category(it) in ("Cc", "Cf", "Zl", "Zp", "Cs", "Cn")
        return re.sub("(....)", r"\\u\1", it.encode("utf-16-be", "surrogatepass").hex()) if is_odd else it

    return "".join(f"{PREFIX}{''.join(map(shown, line))}\n" for line in lines)


def answer_of(text: Optional[str], said: List[str], is_cut: bool) -> Tuple[str, List[str], int]:
    """Returns what `session` writes, the lines that it tells, and its status, where this is made of the folders. If a file is compressed, no
    other is read without --cut."""
    compressed = [line for line in said if line.endswith(COMPRESSED)]
    if compressed and not is_cut:
        return "", [*compressed, NOTHING], 1
    if text is None:
        return "", said, 1
    if said and not is_cut:
        return "", [*said, NOTHING], 1
    return text, said, 0

"""The proved checker and auditor of recorded live migrations.

    >>> import postcopy
    >>> print(postcopy.check("session", "certificate"))
    yes
    >>> report = postcopy.audit("session")
    >>> print(report)
    clean

Each function takes a text as bytes, or as the path of a file, which is mapped and not copied; a session also as the path of a
recorder's folder, of which `session` makes it. Bytes and files must not change while a call runs. Other threads run during a call. `help(postcopy.Kind)` and `help(postcopy.Reason)` say what the answers mean.

It is proved that a session with the answer YES or CLEAN is safe: in every merging of its logs, each read or write after the
handover finds its page resident, and each read gives what one machine that never moved gives. It is assumed that the logs say
what happened.
"""
from __future__ import annotations

import contextlib
import ctypes
import ctypes.util
import enum
import errno
import functools
import io
import itertools
import mmap
import operator
import os
import shutil
import stat
import subprocess
import warnings
from dataclasses import dataclass, field, replace
from pathlib import Path
from typing import BinaryIO, Callable, List, NamedTuple, Optional, Tuple, TypeVar, Union

from .records import page_in

__all__ = ["Answer", "Asks", "Fault", "Kind", "OutOfMemory", "Question", "Reason", "Refused", "Report", "Text", "answers", "audit",
           "audit_all", "certify", "check", "draw", "explain", "missing", "missing_pages", "replay", "session", "version", "why"]

__version__ = "1.1.0"

#: Bytes, or the path of a file with them. For a session also the path of a folder of recorders' files.
Text = Union[bytes, bytearray, memoryview, str, "os.PathLike[str]"]


class OutOfMemory(MemoryError):
    """Memory ran out, and nothing is said about the texts."""


class Refused(ValueError):
    """A text is refused. `kind` says which one: SESSION_TEXT, CERT_TEXT or RUNS_TEXT. `line` and `column` say where, both counted
    from 1, and the column in bytes. `why` says in words what was found there and what is allowed there. The words may change with
    a version, and no program should parse them."""

    def __init__(self, kind: "Kind", line: int, column: int = 0, why: str = "") -> None:
        super().__init__(kind, line, column, why)
        self.kind, self.line, self.column, self.why = kind, line, column, why

    def __str__(self) -> str:
        return f"{self.kind.word} line {self.line}"


class Kind(enum.IntEnum):
    """Which answer it is.

    YES: the certificate is right, and every merging of the session is safe. CLEAN: every merging is safe. SESSION_TEXT, CERT_TEXT,
    RUNS_TEXT: the text is refused at the line. SHAPE: the session does not have the right shape. PAGES: the session and the
    certificate have different numbers of pages. RUNS, PAGE: the run, or the entry, at the line of the certificate is not right. KNOT: the session's
    records wait for one another in a cycle. FAULTY: the session is not safe, because of the record at the line.

    READ: no line of a text is refused; `why` returns None then. INCOMPLETE, only from `missing` and `missing_pages`: every merging
    is safe, but the session is not complete, or not complete as to its pages.

    Only from `replay`, and so about one order: SAFE: the demand of each record holds; other orders may go wrong. NO_MERGING: the
    runs spell no merging of the session. BROKEN: the record at the line is the first whose demand fails.
    """

    YES = 1
    CLEAN = 2
    SESSION_TEXT = 3
    CERT_TEXT = 4
    SHAPE = 5
    PAGES = 6
    RUNS = 7
    PAGE = 8
    KNOT = 9
    FAULTY = 10
    NO_MEMORY = 11
    SAFE = 12
    RUNS_TEXT = 13
    NO_MERGING = 14
    BROKEN = 15
    READ = 16
    INCOMPLETE = 17
    NO_QUESTION = 18

    @property
    def word(self) -> str:
        """The word that the program writes for the kind."""
        return "certificate-text" if self is Kind.CERT_TEXT else self.name.lower().replace("_", "-")


class Reason(enum.IntEnum):
    """Why a session does not have the right shape, or a page is faulty.

    PHASES: a record in the wrong phase. NAMED: it names a record that does not exist, or one of the wrong kind. START: a log does
    not begin as it must, or the source's `back` is not the last record of its log. SECOND_SEND: a page is sent twice. BOTH: the
    source starts the guest again, although it was resumed at the target. READ: a wrong value. EARLY: a use of a page before a look
    showed its placement. GIVEN: a released page is sent. STALE, ALTERED: a page is sent, or placed, with other contents than it has
    at the halt. TWICE: a second placement. UNFIT: zeros for a page that was not released. OVER: a placement over the guest's
    release at the target.
    """

    PHASES = 1
    NAMED = 2
    START = 3
    SECOND_SEND = 4
    BOTH = 5
    READ = 11
    EARLY = 12
    GIVEN = 13
    STALE = 14
    TWICE = 15
    ALTERED = 16
    UNFIT = 17
    OVER = 18

    @property
    def word(self) -> str:
        """The word that the program writes for the reason."""
        return self.name.lower().replace("_", "-")


class Asks(enum.IntEnum):
    """What a question of `answers` asks.

    The answer is that of the function with this name. EXPLAIN_PAGE and EXPLAIN_LINE are `explain` with a page or a line, and
    DRAW_PAGE is `draw` with a page. A name that ends in OBJECT asks for a JSON object, as the program writes it with
    `--format json`. The object of a refused text has only the verdict and the line: `why` says why.
    """

    AUDIT = 1
    CERTIFY = 2
    AUDIT_ALL = 3
    MISSING = 4
    MISSING_PAGES = 5
    EXPLAIN = 6
    EXPLAIN_PAGE = 7
    EXPLAIN_LINE = 8
    DRAW = 9
    DRAW_PAGE = 10
    AUDIT_OBJECT = 11
    AUDIT_ALL_OBJECT = 12
    EXPLAIN_OBJECT = 13


#: What a question is about that comes with a number.
_TOPICS = {Asks.EXPLAIN_PAGE: "page", Asks.EXPLAIN_LINE: "line", Asks.DRAW_PAGE: "page"}

#: What is asked, with the number of the page or of the line if the question is about one.
Question = Union[Asks, Tuple[Asks, int]]


class Fault(NamedTuple):
    """A page that has a fault: its number, and the line and the reason of its first fault."""

    page: int
    line: int
    reason: Reason


#: The kinds of answers that refuse a text, in the order in which the texts are given.
_REFUSED = (Kind.SESSION_TEXT, Kind.CERT_TEXT, Kind.RUNS_TEXT)


@dataclass(frozen=True)
class Answer:
    """An answer: its kind, the line of a text that it names, its reason, and its text.

    The text is the one that the program's command writes. For `certify` it is the certificate, or the first line of the report;
    for `audit` the report; for `audit_all` its first line and each page that has a fault; for `missing` and `missing_pages` the
    line that says what is missing; for `explain` the story in words; and for `draw` a picture as SVG. `check` and `replay` have no
    text. A notebook shows a picture. If a text is refused, `column` and `why` say more, as in Refused.
    """

    kind: Kind
    line: Optional[int] = None
    reason: Optional[Reason] = None
    text: bytes = field(default=b"", repr=False)
    column: Optional[int] = None
    why: Optional[str] = field(default=None, repr=False)

    @property
    def is_safe(self) -> bool:
        """Whether a right certificate or the audit says that every merging of the session is safe. A replay never says so."""
        return self.kind in (Kind.YES, Kind.CLEAN, Kind.INCOMPLETE)

    @property
    def verdict(self) -> str:
        """The word of the kind, such as "faulty"."""
        return self.kind.word

    def raise_if_refused(self) -> None:
        """Raises Refused if the answer is that a text is refused."""
        if self.kind in _REFUSED:
            raise Refused(self.kind, self.line or 0, self.column or 0, self.why or "")

    def __bool__(self) -> bool:
        """Raises TypeError: each answer would be true, also one that is bad, as in `assert audit(session)`."""
        raise TypeError(f"an answer is neither true nor false, and this one is '{self}': ask for its is_safe or its kind")

    def __str__(self) -> str:
        """The first line of what the program writes."""
        if self.kind is Kind.INCOMPLETE:
            return self.text.decode("ascii").rstrip("\n")
        line = "" if self.line is None else f" line {self.line}"
        reason = "" if self.reason is None else f" {self.reason.word}"
        return f"{self.verdict}{line}{reason}"

    def _repr_svg_(self) -> Optional[str]:
        """The picture in the answer of `draw`, for a notebook."""
        return self.text.decode("ascii") if self.text.startswith(b"<svg ") else None


@dataclass(frozen=True)
class Report(Answer):
    """The answer of `audit`: the report on a session, and the session as it was given, or as it was made of a folder.

    `page`, `faults`, `explain` and `draw` read the session again at each call, so its file must still be there, unchanged.
    A notebook shows a report as the picture of its session.
    """

    session: Text = field(default=b"", repr=False, compare=False)  # (the bytes, where it came by a pipe or of a folder)

    @property
    def certificate(self) -> Optional[bytes]:
        """The certificate of the session, if it is clean."""
        return self._behind_first_line() if self.kind is Kind.CLEAN else None

    @property
    def runs(self) -> Optional[bytes]:
        """The runs of an order that shows the fault, if the session is faulty."""
        return self._behind_first_line() if self.kind is Kind.FAULTY else None

    @functools.cached_property
    def page(self) -> Optional[int]:
        """The page of the first fault, if the session is faulty: the one that the record at the line names."""
        return page_in(_line(self.session, self.line or 0)) if self.kind is Kind.FAULTY else None

    def faults(self) -> List[Fault]:
        """Each page that has a fault, in ascending order, with its first fault; of a misshapen session, each such page that no
        misshapen record touches. The list is empty if there is none."""
        return _faults(audit_all(self.session).text) if self.kind in (Kind.FAULTY, Kind.SHAPE) else []

    def explain(self, page: Optional[int] = None, line: Optional[int] = None) -> str:
        """The story of the session in words, after the first line of the report; or that of a page, or of the record at a line of
        the session's text and of its page."""
        return explain(self.session, page, line).text.decode("ascii")

    def draw(self, page: Optional[int] = None) -> str:
        """The picture of the session in the order of the report, as SVG. It is about what the report is about, or about a page.
        Raises Refused if the session's text is refused."""
        self.raise_if_refused()
        return draw(self.session, page).text.decode("ascii")

    def _behind_first_line(self) -> bytes:
        return self.text.partition(b"\n")[2]

    def _repr_svg_(self) -> Optional[str]:
        """The picture of the session, for a notebook."""
        return draw(self.session)._repr_svg_()


class _Answer(ctypes.Structure):
    _fields_ = [
        ("kind", ctypes.c_uint32),
        ("line", ctypes.c_uint32),
        ("reason", ctypes.c_uint32),
        ("text_len", ctypes.c_size_t),
    ]


class _Refusal(ctypes.Structure):
    _fields_ = [
        ("kind", ctypes.c_uint32),
        ("line", ctypes.c_uint32),
        ("column", ctypes.c_uint32),
        ("text_len", ctypes.c_size_t),
    ]


class _Question(ctypes.Structure):
    _fields_ = [("asks", ctypes.c_uint32), ("about", ctypes.c_uint32)]


_Numbers = TypeVar("_Numbers", _Answer, _Refusal)


class _Bytes:
    """Bytes in memory: their address and their number. They stay there until this is closed."""

    def __init__(self, text: Text) -> None:
        self._file: Optional[mmap.mmap] = None
        taken = self._taken(text)
        self.length = len(taken)
        if not isinstance(taken, bytes) and self.length:
            self._held: object = (ctypes.c_char * self.length).from_buffer(taken)
            self.at = ctypes.addressof(self._held)
        else:
            # (bytes have an address of their own, even if there are none)
            self._held = bytes(taken)
            self.at = ctypes.cast(ctypes.c_char_p(self._held), ctypes.c_void_p).value or 0

    def _taken(self, text: Text) -> Union[bytes, bytearray, memoryview, mmap.mmap]:
        if isinstance(text, (str, os.PathLike)):
            return self._mapped(text)
        if isinstance(text, memoryview):
            return text.cast("B") if text.contiguous and not text.readonly else text.tobytes()
        if isinstance(text, (bytes, bytearray)):
            return text
        raise TypeError(f"a text is bytes or a path, and not {type(text).__name__}")

    def _mapped(self, name: Union[str, "os.PathLike[str]"]) -> Union[bytes, mmap.mmap]:
        if isinstance(name, str) and name.startswith("postcopy-") and "\n" in name:
            raise TypeError("a str is the path of a file, and not a text: give the text as bytes, such as text.encode()")
        if os.path.isdir(name):
            raise IsADirectoryError(errno.EISDIR, "it is a folder, and only a session may be one", os.fspath(name))
        with open(name, "rb") as file:
            if os.fstat(file.fileno()).st_size == 0:
                return file.read()
            # (ctypes needs writable memory; nothing writes to it, and the file would not change)
            self._file = mmap.mmap(file.fileno(), 0, access=mmap.ACCESS_COPY)
            return self._file

    def __enter__(self) -> "_Bytes":
        return self

    def __exit__(self, *_: object) -> None:
        del self._held
        if self._file is not None:
            self._file.close()


def _lines(text: Text) -> BinaryIO:
    """A text, to be read line by line."""
    return open(text, "rb") if isinstance(text, (str, os.PathLike)) else io.BytesIO(bytes(text))


def _line(text: Text, number: int) -> str:
    """A line of a text, counted from 1."""
    with _lines(text) as lines:
        return next(itertools.islice(lines, number - 1, None), b"").decode("ascii").rstrip("\n")


def _beside() -> Optional[str]:
    """The library of the wheel, or that of a checkout: the one for the sources there, as tools/library says, or else the one that
    was built there last, with a warning."""
    here = Path(__file__).resolve().parent
    top = here.parent.parent.parent
    of_wheel, built = here / "libpostcopy.so", top / "crates/postcopy_c/out/libpostcopy.so"
    if of_wheel.is_file():
        return str(of_wheel)
    if (top / "shipped").is_dir():
        ran = subprocess.run(["sh", str(top / "tools/library"), "--where"], stdin=subprocess.DEVNULL, stdout=subprocess.PIPE)
        if ran.returncode == 0:
            return os.path.join(os.fsdecode(ran.stdout)[:-1], "libpostcopy.so")
        if built.is_file():
            warnings.warn(f"{built} is not of the sources that are there: tools/library builds it anew", RuntimeWarning, stacklevel=2)
    return str(built) if built.is_file() else None


@functools.lru_cache(maxsize=None)
def _library() -> ctypes.CDLL:
    """The shared library: the one that POSTCOPY_LIBRARY names, that of the wheel, that of a checkout, or the system's."""
    name = os.environ.get("POSTCOPY_LIBRARY") or _beside() or ctypes.util.find_library("postcopy")
    if name is None:
        raise ImportError("there is no libpostcopy: in a checkout tools/library builds it, and tools/install installs it")
    library = ctypes.CDLL(name)
    text = [ctypes.c_void_p, ctypes.c_size_t]
    for name in ("check", "replay", "certify", "audit", "audit_all", "missing", "missing_pages", "explain", "draw"):
        call = getattr(library, f"postcopy_{name}", None)  # (an older library does not have all: calling one of those fails)
        if call is not None:
            call.argtypes, call.restype = text + text, _Answer
    for name in ("explain_page", "explain_line", "draw_page"):
        call = getattr(library, f"postcopy_{name}")
        call.argtypes, call.restype = [*text, ctypes.c_uint32, *text], _Answer
    answers = getattr(library, "postcopy_answers", None)
    if answers is not None:
        ends = ctypes.POINTER(ctypes.c_size_t)
        answers.argtypes, answers.restype = [*text, ctypes.POINTER(_Question), ctypes.c_size_t, ends, ctypes.c_size_t, *text], _Answer
    library.postcopy_why.argtypes, library.postcopy_why.restype = [*text, ctypes.c_uint32, *text], _Refusal
    library.postcopy_version.argtypes, library.postcopy_version.restype = [], ctypes.c_uint32
    return library


def _kind(numbers: Union[_Answer, _Refusal]) -> Kind:
    kind = Kind(numbers.kind)
    if kind is Kind.NO_MEMORY:
        raise OutOfMemory("memory was refused")
    return kind


def _told(numbers: _Answer, text: bytes, *given: _Bytes) -> Answer:
    """The answer about the given texts, with why one of them is refused."""
    kind = _kind(numbers)
    answer = Answer(kind, numbers.line or None, Reason(numbers.reason) if numbers.reason else None, text)
    refused = _why(given[0 if kind is Kind.SESSION_TEXT else -1], kind) if kind in _REFUSED else None
    return answer if refused is None else replace(answer, column=refused.column, why=refused.why)


def _in_room(length: int, call: "Callable[[object, int], _Numbers]") -> "tuple[_Numbers, bytes]":
    """The answer of a call that writes a text into a room, and this text. `length` is the size of the first room, in bytes."""
    while True:
        # (mapped memory that nobody touches takes up none)
        with mmap.mmap(-1, length) as room:
            held = (ctypes.c_char * length).from_buffer(room)
            numbers = call(held, length)
            del held
            if numbers.text_len <= length:
                return numbers, room[: numbers.text_len]
        length = numbers.text_len


def _with_text(call: "ctypes._FuncPointer", session: Text, *topic: int) -> Answer:
    """The answer of a call that writes a text about a session. Some calls also take a page or a line."""
    with _Bytes(_kept(session)) as given:
        numbers, text = _in_room(given.length + mmap.PAGESIZE, lambda room, length: call(given.at, given.length, *topic, room, length))
        return _told(numbers, text, given)


def _topic(what: str, number: int) -> int:
    """The number of a page or of a line, if a call can take it. (ctypes would truncate any other.)"""
    number = operator.index(number)
    if not 0 <= number < 1 << 32:
        raise ValueError(f"no {what} has the number {number}")
    return number


def _faults(text: bytes) -> List[Fault]:
    """The pages that have a fault, from the text that `audit_all` writes."""
    pages = (it.split(" ") for it in text.decode("ascii").splitlines() if it.startswith("page "))
    return [Fault(int(page), int(line), Reason[reason.upper().replace("-", "_")]) for _, page, _, line, reason in pages]


def _on_two(call: "ctypes._FuncPointer", session: Text, other: Text) -> Answer:
    with _Bytes(_kept(session)) as first, _Bytes(other) as second:
        return _told(call(first.at, first.length, second.at, second.length), b"", first, second)


def _kept(text: Text) -> Text:
    """The session of a folder, and the bytes of a file that can be read only once, such as a pipe. Any other text as it is."""
    mode = 0
    if isinstance(text, (str, os.PathLike)):
        with contextlib.suppress(OSError, ValueError):
            mode = os.stat(text).st_mode
        if stat.S_ISDIR(mode):
            return session(text)
        if stat.S_ISFIFO(mode):
            with open(text, "rb") as file:
                return file.read()
    return text


def _why(given: _Bytes, kind: Kind) -> Optional[Refused]:
    """Why bytes are refused as a text of a kind, or None if they are not."""
    call = _library().postcopy_why
    numbers, words = _in_room(mmap.PAGESIZE, lambda room, length: call(given.at, given.length, kind, room, length))
    return None if _kind(numbers) is Kind.READ else Refused(kind, numbers.line, numbers.column, words.decode("utf-8", "replace"))


def _program() -> str:
    """The program: the one that POSTCOPY names, that of a checkout, or the one in PATH."""
    top = Path(__file__).resolve().parent.parent.parent.parent
    here = str(top / "postcopy") if (top / "shipped").is_dir() else shutil.which("postcopy")
    name = os.environ.get("POSTCOPY") or here
    if name is None:
        raise FileNotFoundError(errno.ENOENT, "it makes the session of a folder, and is not in PATH: tools/install installs it", "postcopy")
    return name


def session(*folders: Union[str, "os.PathLike[str]"]) -> bytes:
    """Returns the session that the program makes of a recording in these folders, as the command `session` does. Raises OSError, with
    the program's words, if something of it is missing, the files make no session, or one is not read; and OutOfMemory if memory
    runs out."""
    ran = subprocess.run([_program(), "session", "--", *folders], stdin=subprocess.DEVNULL, stdout=subprocess.PIPE, stderr=subprocess.PIPE)
    if ran.returncode == 4:
        raise OutOfMemory("memory was refused")
    if ran.returncode:
        raise OSError(errno.EBADMSG, ran.stderr.decode("utf-8", "replace").rstrip("\n"), *map(os.fspath, folders[:1]))
    return ran.stdout


def check(session: Text, certificate: Text) -> Answer:
    """Checks the certificate of a session, as the command `check` does. Raises OutOfMemory if memory runs out."""
    return _on_two(_library().postcopy_check, session, certificate)


def replay(session: Text, runs: Text) -> Answer:
    """Replays a session in the one order that a text of runs, a certificate or a report gives, as the command `replay` does. SAFE is
    about this order alone. Raises OutOfMemory if memory runs out."""
    return _on_two(_library().postcopy_replay, session, runs)


def certify(session: Text) -> Answer:
    """Returns the certificate of a clean session, or for any other session the first line of its report, as the command `certify`
    writes it. Raises OutOfMemory if memory runs out."""
    return _with_text(_library().postcopy_certify, session)


def audit(session: Text) -> Report:
    """Returns the report on a session, as the command `audit` writes it. Raises OutOfMemory if memory runs out."""
    session = _kept(session)
    answer = _with_text(_library().postcopy_audit, session)
    return Report(answer.kind, answer.line, answer.reason, answer.text, answer.column, answer.why, session)


def audit_all(session: Text) -> Answer:
    """Returns the first line of the report on a session, and each page that has a fault, as the command `audit --all` writes them. If
    the session does not have the right shape, these are pages that no record of the wrong shape touches. Raises OutOfMemory if memory runs out."""
    return _with_text(_library().postcopy_audit_all, session)


def missing(session: Text) -> Answer:
    """Returns what is missing first from a clean session: the line that `audit --complete` writes, with the kind INCOMPLETE. If
    the session tells of a whole migration, the kind is CLEAN, with no text. For any other session, returns the first line of its
    report. Raises OutOfMemory if memory runs out."""
    return _with_text(_library().postcopy_missing, session)


def missing_pages(session: Text) -> Answer:
    """Like `missing`, but a clean session needs only this: the guest was halted and resumed, and each page that the target was
    owed was placed or released there. The line is the one that `audit --complete-pages` writes. Raises OutOfMemory if memory runs
    out."""
    return _with_text(_library().postcopy_missing_pages, session)


def explain(session: Text, page: Optional[int] = None, line: Optional[int] = None) -> Answer:
    """Returns the story of a session in words, after the first line of its report, as the command `explain` writes it; or that of a
    page, as with `explain --page`; or that of the record at a line of the text and of its page, as with `explain --line`. Raises
    ValueError if both are given, and OutOfMemory if memory runs out."""
    if page is not None and line is not None:
        raise ValueError("it is told of a page or of a line, and not of both")
    if page is not None:
        return _with_text(_library().postcopy_explain_page, session, _topic("page", page))
    if line is not None:
        return _with_text(_library().postcopy_explain_line, session, _topic("line", line))
    return _with_text(_library().postcopy_explain, session)


def draw(session: Text, page: Optional[int] = None) -> Answer:
    """Returns the picture of a session in the order of its report, as the command `draw` writes it, or about a page, as with
    `draw --page`. The answer has the kind of the report. Raises OutOfMemory if memory runs out."""
    if page is not None:
        return _with_text(_library().postcopy_draw_page, session, _topic("page", page))
    return _with_text(_library().postcopy_draw, session)


def _asked(question: Question) -> Tuple[Asks, int]:
    asks, *about = question if isinstance(question, tuple) else (question,)
    asks, topic = Asks(asks), _TOPICS.get(Asks(asks))
    if len(about) != (topic is not None):
        raise ValueError(f"{asks.name} needs the number of a {topic}, as in (Asks.{asks.name}, 7)" if topic else f"{asks.name} is about no page and no line")
    return asks, _topic(topic, about[0]) if topic else 0


def _answer_to(asks: Asks, told: Answer, text: bytes, session: Text) -> Answer:
    """The answer of the function with a question's name, given the answer about the session and the text for the question."""
    if asks is Asks.AUDIT:
        return Report(told.kind, told.line, told.reason, text, told.column, told.why, session)
    is_lack = asks in (Asks.MISSING, Asks.MISSING_PAGES) and told.kind is Kind.CLEAN and text
    return replace(told, kind=Kind.INCOMPLETE if is_lack else told.kind, text=text)


def answers(session: Text, *questions: Question) -> List[Answer]:
    """Returns the answers to several questions about one session, which is read once and judged once. Each answer is that of the
    function with the question's name. A question about a page or a line comes with its number, as in (Asks.DRAW_PAGE, 7). Raises
    ValueError if a question is unknown, or its number is missing or means nothing, and OutOfMemory if memory runs out."""
    asked, session = [_asked(it) for it in questions], _kept(session)
    taken, ends = (_Question * len(asked))(*asked), (ctypes.c_size_t * len(asked))()
    call = _library().postcopy_answers
    with _Bytes(session) as given:
        numbers, text = _in_room(given.length + mmap.PAGESIZE, lambda room, length: call(given.at, given.length, taken, len(asked), ends, len(asked), room, length))
        told = _told(numbers, b"", given)
    return [_answer_to(asks, told, text[start:end], session) for (asks, _), start, end in zip(asked, [0, *ends], ends)]


def why(text: Text, kind: Kind = Kind.SESSION_TEXT) -> Optional[Refused]:
    """Returns why a text is refused as a session, with CERT_TEXT as a certificate, or with RUNS_TEXT as an order that `replay`
    takes; or None if it is not refused. Raises OutOfMemory if memory runs out."""
    if kind not in _REFUSED:
        raise ValueError(f"no text is of the kind {kind!r}")
    with _Bytes(_kept(text) if kind is Kind.SESSION_TEXT else text) as given:
        return _why(given, Kind(kind))


def version() -> str:
    """Returns the version of the library."""
    number = _library().postcopy_version()
    return f"{number // 10000}.{number // 100 % 100}.{number % 100}"

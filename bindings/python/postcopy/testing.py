"""Assertions for tests of programs that record sessions, with pytest or any other runner.

    from postcopy.testing import assert_clean

    def test_migration(tmp_path):
        assert_clean(recorded(tmp_path))
"""
from __future__ import annotations

import warnings
from typing import Optional

from . import Answer, Asks, Kind, Report, Text, _lines, answers

__all__ = ["assert_clean"]

#: What a test can require of a session besides that it is clean, and how to require less.
_ASKED = {
    "pages": (Asks.MISSING_PAGES, "Where that is meant, as of a migration that failed, complete=None asks for a clean session alone."),
    "whole": (Asks.MISSING, 'complete="pages" asks for the halt, the resume and each owed page alone, and complete=None for a clean session.'),
}

#: What is missing, by the word after `incomplete` and the number after that.
_MISSING = {
    "halt": "The guest was never halted: its log has no `halt`, so nothing says that a migration began.",
    "returned": "The guest returned to the source: its log has no `resume`, and the source started it again.",
    "resume": "The guest never went on at the target: its log has no `resume`.",
    "page": "Page {} was owed to the target at the halt, and was neither placed nor released there.",
    "all": "The pager never said that every owed page had come: its log has no `all` behind their placements.",
    "done": "The source never learned that every owed page had come: its log has no `done` behind the `ask` of that.",
    "line": "What the pager took by its record at line {} was neither placed nor dropped.",
}


def assert_clean(session: Text, complete: Optional[str] = "pages") -> Report:
    """Fails if a session is not clean, and says what happened, in the words of `explain`, or why its text is refused. Returns the
    session's report.

    Empty logs are clean, so it also fails if a session does not tell of a migration. It warns, as the program notes, if the session
    tells of no use of a page after the resume, because then no use was judged. With "pages", the guest must have been halted
    and resumed, and each page that the target was owed must have been placed or released there. With "whole", the pager must also
    have said that every owed page had come, the source must have learned of it, and everything that the pager took must have been
    placed or dropped. With None, none of that is required. Raises ValueError for any other word."""
    __tracebackhide__ = True  # (pytest shows the line of the test)
    if complete is not None and complete not in _ASKED:
        raise ValueError(f'complete is "pages", "whole" or None, and not {complete!r}')
    asks, less = _ASKED["pages" if complete is None else complete]
    report, lacks = answers(session, Asks.AUDIT, asks)  # (read once: the file may change meanwhile)
    assert isinstance(report, Report)
    if not report.is_safe:
        raise AssertionError(_what_happened(report))
    if complete is not None and lacks.kind is not Kind.CLEAN:
        raise AssertionError(f"{lacks}\n{_what_is_missing(lacks)}\n{less}")
    if not _tells_use(report.session):
        warnings.warn("the guest neither reads nor writes a page after a resume, so no use of one was judged", stacklevel=2)
    return report


def _tells_use(session: Text) -> bool:
    """Whether the guest of a clean session reads or writes a page after a resume. (No other log has records of these words.)"""
    with _lines(session) as lines:
        for line in lines:
            if line.startswith(b"resume "):
                return any(it.startswith((b"r ", b"w ")) for it in lines)
    return False


def _what_happened(report: Report) -> str:
    """The words of `explain`. If the text is refused, also what was found in it, and what is allowed there."""
    told = report.explain()
    return told if report.why is None else f"{told}Line {report.line}, column {report.column}: {report.why}\n"


def _what_is_missing(lacks: Answer) -> str:
    _, what, *number = str(lacks).split(" ")
    return f"Nothing in the logs is wrong, but they do not tell of a whole migration.\n{_MISSING[what].format(*number)}"

"""What the package for Python says of sessions that lack something: `missing`, `missing_pages` and `testing.assert_clean`."""
import contextlib
import os
import warnings

from case_table import CASES, case_files
from session_text import SessionText

TOP = os.path.dirname(os.path.dirname(os.path.abspath(__file__)))
WHOLE = f"{CASES}/complete-whole-migration/session"
EMPTY = b"postcopy-session 1\npages 2\ncells 1\ninit 0\nguest 0\nsource 0\nlink 0\npager 0\nend\n"
# What docs/ANSWERS.md says that the program notes.
NOTE = "the guest neither reads nor writes a page after a resume, so no use of one was judged"
# A whole session of the second version whose guest only releases its page at the target.
RELEASED = (b"postcopy-session 2\npages 1\ncells 1\ninit 0\nguest 3\nhalt\nresume 1\nz 0 0\nsource 4\nhalted 0\nstate\nask 1\ndone\n"
            b"link 2\ndown 1\nup 2\nlane 0\npager 3\ngot 0\nready\nall\nend\n")
CLEAR = 'complete="pages"', "complete=None"


def without_done():
    """The session of a whole migration, of which the source does not say that it learned so."""
    with open(WHOLE, encoding="ascii") as file:
        session = SessionText(file.read())
    session.logs["source"].remove("done")
    return session.text().encode()


WITHOUT_DONE = without_done()


@contextlib.contextmanager
def by_pipe(session):
    """The name of a pipe by which a session comes: its bytes, or those of a file."""
    if isinstance(session, str):
        with open(session, "rb") as file:
            session = file.read()
    ours, theirs = os.pipe()
    try:
        os.write(theirs, session)
        os.close(theirs)
        yield f"/dev/fd/{ours}"
    finally:
        os.close(ours)


def said(act):
    """What is raised, as its type's name and its words; None where nothing is."""
    try:
        act()
    except (AssertionError, ValueError) as fault:
        return type(fault).__name__, str(fault)
    return None


def fails(same, what, found, *words):
    """Counts whether an assertion failed with all of these words."""
    kind, told = found or ("nothing", "")
    same(f"{what} fails, with its words", (kind, [it for it in words if it not in told]), ("AssertionError", []))


def of_calls(postcopy, same):
    """Pages are complete exactly where what is missing first is told after them, or nothing is."""
    found = set()
    for name in (EMPTY, WITHOUT_DONE, *case_files("session")):
        whole, pages = postcopy.missing(name), postcopy.missing_pages(name)
        is_later = whole.kind is postcopy.Kind.INCOMPLETE and str(whole).split(" ")[1] not in ("halt", "returned", "resume", "page")
        wanted = (postcopy.Kind.CLEAN, b"") if is_later else (whole.kind, whole.text)
        same(f"what {name!r} lacks of its pages", (pages.kind, pages.text), wanted)
        found.add(str(whole).split(" ")[1] if whole.kind is postcopy.Kind.INCOMPLETE else whole.verdict)
    same("what they lack", {"halt", "returned", "resume", "page", "all", "done", "line", "clean", "faulty"} - found, set())


def of_assertions(postcopy, same):
    from postcopy.testing import assert_clean
    told = "Nothing in the logs is wrong, but they do not tell of a whole migration."
    for what, text, line, words in (
            ("four empty logs", EMPTY, "incomplete halt", "The guest was never halted"),
            ("a guest that is never resumed", f"{CASES}/explain-incomplete-resume/session", "incomplete resume", "The guest never went on at the target"),
            ("a guest that returned", f"{CASES}/complete-returned/session", "incomplete returned", "The guest returned to the source"),
            ("a page that never came", f"{CASES}/complete-placement-left-out/session", "incomplete page 2", "Page 2 was owed to the target")):
        for how in ({}, {"complete": "pages"}, {"complete": "whole"}):
            fails(same, f"{what}, {how}", said(lambda: assert_clean(text, **how)), f"{line}\n", told, words, *CLEAR[how.get("complete") != "whole":])
        same(f"{what}, where nothing is asked", said(lambda: assert_clean(text, complete=None)), None)
    for what, text, line, words in (
            ("without all and done", f"{TOP}/examples/handover/session", "incomplete all", "The pager never said"),
            ("without done", WITHOUT_DONE, "incomplete done", "The source never learned"),
            ("a drop that is left out", f"{CASES}/complete-drop-left-out/session", "incomplete line 60", "by its record at line 60")):
        for how in ({}, {"complete": "pages"}, {"complete": None}):
            same(f"{what}, {how}", said(lambda: assert_clean(text, **how)), None)
        fails(same, f"{what}, as a whole migration", said(lambda: assert_clean(text, complete="whole")), f"{line}\n", told, words, *CLEAR)
    for how in ({}, {"complete": "pages"}, {"complete": "whole"}, {"complete": None}):
        same(f"a whole migration, {how}", assert_clean(WHOLE, **how), postcopy.audit(WHOLE))
        fails(same, f"a faulty one, {how}", said(lambda: assert_clean(f"{TOP}/examples/stale-page/session", **how)),
              "faulty line 18 stale\n", "Line 18 (source 4) is wrong: ")
        fails(same, f"a text that is refused, {how}", said(lambda: assert_clean(f"{TOP}/examples/leading-zero/session", **how)),
              "session-text line 7\n", 'Line 7, column 9: found "03" in "r 0 0 0 03"; expected X', "a number has no leading zero")
    for how in ({}, {"complete": "whole"}, {"complete": None}):
        for what, text, notes in (("with uses", WHOLE, []), ("with a release alone", RELEASED, [NOTE]), ("without any", f"{CASES}/complete-with-nothing-owed/session", [NOTE])):
            with warnings.catch_warnings(record=True) as caught:
                warnings.simplefilter("always")
                assert_clean(text, **how)
            same(f"what is noted of a whole migration {what}, {how}", [str(it.message) for it in caught], notes)
    for session in (WITHOUT_DONE, WHOLE):
        with by_pipe(session) as name:
            found = said(lambda: assert_clean(name, complete="whole"))
        same("a session that comes by a pipe, and is read once", found and found[1].splitlines()[0], "incomplete done" if session is WITHOUT_DONE else None)
    for word in ("page", "", "all", True, 1, ()):
        kind, told = said(lambda: assert_clean(WHOLE, complete=word)) or ("nothing", "")
        same(f"{word!r} as what is asked", (kind, '"pages", "whole" or None' in told, repr(word) in told), ("ValueError", True, True))


def tests_of_assertions(postcopy, same):
    of_calls(postcopy, same)
    of_assertions(postcopy, same)

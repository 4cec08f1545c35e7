"""The first line of what `audit` says of a session, slowly and plainly, by docs/FORMATS.md. It takes sessions that are well formed."""
from check_model import Session
from session_text import LOGS, SessionText
from shape_model import pages_apart, shape_fault
from world_model import first_fault, page_faults


def knot_of(session):
    """The first record, by line, that is next in its log where the found order ends: its log and its place there; or None."""
    order = session.found_order()
    taken = {log: sum(name[0] == log for name in order) for log in LOGS}
    return next(((log, taken[log]) for log in LOGS if taken[log] < len(session.logs[log])), None)


def judgement(text):
    """The first word of the report, and the log, the place there and the reason of the record that it names, as far as it does."""
    misshapen = shape_fault(text)
    if misshapen is not None:
        return ("shape", *misshapen)
    knot = knot_of(SessionText(text))
    if knot is not None:
        return ("knot", *knot)
    fault = first_fault(Session(text))
    return ("clean",) if fault is None else ("faulty", *fault)


def told_faults(text):
    """The first fault of each page of which it is told, by page, as a record's log, its place there and the reason. Of a session of the wrong
    shape these are the pages apart, and of one without a merging there are none."""
    word, found = judgement(text)[0], page_faults(Session(text))
    if word == "shape":
        apart = pages_apart(text)
        return {page: fault for page, fault in found.items() if page in apart}
    return {} if word == "knot" else found


def first_line(text):
    word, *named = judgement(text)
    return " ".join([word, "line", str(SessionText(text).line(*named[:2])), *named[2:]]) if named else word

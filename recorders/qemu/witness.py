"""What can be seen of a lost write without the auditor.

For each page that the target was not told to forget, the contents that pre-copy sent last must be those at the source at the halt. If
pre-copy came to its end, no page is forgotten.
"""
import os

from convert import recording_in
from records import Hole


def pages_that_differ(recording):
    """Returns the pages that were left at the target and differ from the source's memory at the halt, and how many were left. Raises Hole if
    one of them is not in the files."""
    wire, contents = recording.wire, recording.contents
    left = sorted(wire.last_before.keys() - wire.discarded)
    return [page for page in left if contents.page("relay.pages", wire.last_before[page]) != contents.page("halt.mem", page)], len(left)


def of_precopy(folder):
    """Returns how many pages a pre-copy that came to its end has lost, in words, or nothing if it is not known."""
    if not os.path.exists(f"{folder}/halt.mem"):
        return ""
    try:
        recording = recording_in(folder)
        differ, sent = pages_that_differ(recording)
    except (Hole, OSError):
        return ""
    if recording.wire.has_state or recording.wire.strange or not sent:
        return ""
    return f"; pre-copy lost {len(differ) or 'none'} of {sent} pages"


def witness(folder):
    if not os.path.exists(f"{folder}/halt.mem"):
        return "the source's memory at the halt was not kept\n"
    try:
        differ, left = pages_that_differ(recording_in(folder))
    except Hole as fault:
        return f"nothing, since {fault}\n"
    if not differ:
        return f"{left} pages that pre-copy sent were not sent again, and are what the source has at the halt\n"
    return (f"{left} pages that pre-copy sent were not sent again; of these {len(differ)} are not what the source has at the "
            f"halt: {' '.join(map(str, differ))}\n")

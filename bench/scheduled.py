"""Has the program record the session of a schedule, and judge it."""
import subprocess
import sys

from measure import TOP, surroundings
from texts import LOG, events_text

sys.path[:0] = [f"{TOP}/tests/models", f"{TOP}/share/postcopy/python"]
from postcopy_outputs import TEXTS, text_at  # noqa: E402
from session_text import SessionText  # noqa: E402
from steps_model import Script  # noqa: E402


class Refused(Exception):
    """A file is none of those that this reads."""


class Wrong(Exception):
    """What came out is not what has to come out."""


def read_script(path):
    """The script in a file. What the program says of a wrong one, its `steps` tells."""
    try:
        with open(path, encoding="ascii") as file:
            return script_of(file.read(), path)
    except (OSError, UnicodeDecodeError) as fault:
        raise Refused(f"{path}: {fault}") from None


def script_of(text, name):
    if not text.startswith(("postcopy-script 1\n", "postcopy-script 2\n")):
        raise Refused(f"{name} is no script: recorders/script makes one of a trace")
    try:
        script = Script(text)
    except (ValueError, IndexError, KeyError):
        raise Refused(f"{name} is no whole script; postcopy steps tells the line") from None
    if script.has_lane:
        raise Refused(f"{name} has a lane, of which the schedule knows nothing: bench/lane measures it")
    return script


def written(events, path):
    """Writes events to a file."""
    if text_at(path) not in (None, TEXTS[b"events"]):
        raise Refused(f"{path} is {text_at(path)}: remove it first, or name another file")
    if len(events) > LOG:
        raise Wrong(f"{len(events)} events, and a text has {LOG} at most: make the script shorter")
    with open(path, "w", encoding="ascii") as file:
        file.write(events_text(events))
    return path


def answer(program, *words):
    """The first line that the program answers, and its status."""
    ran = subprocess.run([program, *words], stdin=subprocess.DEVNULL, stdout=subprocess.PIPE, stderr=subprocess.PIPE, env=surroundings(), text=True, check=False)
    return (ran.stdout or ran.stderr).partition("\n")[0], ran.returncode


def judged(program, script, events, timed, session):
    """Records the session, and raises Wrong where it is not clean and complete, or where it has not what the schedule counts."""
    with open(session, "wb") as out:
        ran = subprocess.run([program, "steps", script, events], stdin=subprocess.DEVNULL, stdout=out, stderr=subprocess.PIPE, env=surroundings(), check=False)
    if ran.returncode:
        with open(session, encoding="ascii", errors="replace") as file:
            raise Wrong(f"steps: {file.readline().strip()} {ran.stderr.decode().strip()}")
    said, status = answer(program, "audit", "--complete", "--quiet", session)
    if (said, status) != ("clean", 0):
        raise Wrong(f"audit: {said}")
    with open(session, encoding="ascii") as file:
        found = recorded_counts(SessionText(file.read()).logs)
    wanted = timed.recorded()
    if found != wanted:
        raise Wrong(f"the session has {found}, and the schedule {wanted}")


def recorded_counts(logs):
    """What a session records of the counts of a schedule."""
    source, pager = logs["source"], logs["pager"]
    pages = [record.split(" ", 2)[1] for record in source if record.startswith("send ")]
    return {
        "sent": list(map(int, pages)),
        "again": sum(record.startswith("again ") and record != "again 1" for record in source),
        "asked": sum(record.startswith("want ") and before.startswith("fault ") for before, record in zip(pager, pager[1:])),
        "placed": [int(record.split(" ", 2)[1]) for record in pager if record.startswith("place ")],
        "operations": sum(record[:2] in ("r ", "w ", "z ") for record in logs["guest"]),
        "done": "done" in source,
    }

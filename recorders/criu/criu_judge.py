"""The program's verdict on a recording, whether the recording is complete, and what can be seen in it without the program."""
import judge
from criu_session import recording_in, whole_lines
from records import Hole

ZERO = "0" * 16


def session_of(folder, is_whole):
    """Returns the recording's session. If CRIU did not come to its end, the logs are cut so that no record names a missing one."""
    session = recording_in(folder).session(is_whole)
    left_out = 0 if is_whole else session.cut()
    return session, left_out


def judged(folder, ended=""):
    """Judges a recording, and writes what was found to its folder. `ended` says how the migration ended, if it did not come to its end."""
    try:
        session, left_out = session_of(folder, not ended)
        judge.write(f"{folder}/session", session.text())
    except (Hole, OSError) as fault:
        verdict = judge.Verdict(f"not judged: {fault}")
    else:
        verdict = judge.Verdict(judge.verdict_line(folder, ended), session, left_out)
    judge.write(f"{folder}/verdict", verdict.line + "\n")
    return verdict


def wrong_reads(folder):
    """Returns how often the process read a value that it had not written, from its own record alone: the file has its accesses in order."""
    memory, wrong = {}, 0
    with open(f"{folder}/log", "rb") as log:
        for words in map(str.split, whole_lines(log.read())):
            if words[0] != "g":
                continue
            page = memory.setdefault(words[3], {})
            if words[2] == "z":
                page.clear()
            elif words[2] == "w":
                page[words[4]] = words[5]
            elif words[2] == "r":
                wrong += page.get(words[4], ZERO) != words[5]
    return wrong


def was_put_in(folder):
    """Returns whether the relay or the library recorded a fault."""
    with open(f"{folder}/relay.log", encoding="ascii") as relay, open(f"{folder}/log", encoding="ascii") as log:
        return any(line.startswith("fault ") for line in relay) or any(line.startswith("p early ") for line in log)


def waited_for(folder):
    """Returns the pages that threads wait for at the end, from the process's own record alone."""
    with open(f"{folder}/log", "rb") as log:
        last = {words[1]: words for words in map(str.split, whole_lines(log.read())) if words[0] == "g"}
    return sorted({int(words[3]) for words in last.values() if words[2] == "m"})

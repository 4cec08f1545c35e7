"""The program's answers about a recording: its session, the verdict, the story and the picture."""
import functools
import os
import re
import subprocess
import sys

from convert import recording_in
from files import write
from records import Hole
from results import UNFINISHED
from witness import of_precopy, witness

NOT_RUN = 127  # the status of a program that cannot be run, as a shell has it
TOP = os.path.dirname(os.path.dirname(os.path.dirname(os.path.abspath(__file__))))


def program():
    """Returns the program: the checkout's launcher, or the one that POSTCOPY names."""
    name = os.environ.get("POSTCOPY") or f"{TOP}/postcopy"
    return os.path.abspath(name) if "/" in name else name


def ask(folder, *words):
    """Returns what the program writes, and its status. It runs in the folder, so the words name files there."""
    try:
        done = subprocess.run([program(), *words], cwd=folder, stdout=subprocess.PIPE)
    except OSError as fault:
        tell_once(f"{program()}: {fault.strerror}: the program, which the variable POSTCOPY may name")
        return "", NOT_RUN
    return done.stdout.decode(), done.returncode


@functools.lru_cache(maxsize=None)
def tell_once(line):
    print(line, file=sys.stderr)


class Verdict:
    """A verdict as a line, such as `clean, yes`, `faulty line 7 read` or `not judged: ..`; and a Restart or None."""

    def __init__(self, line, session=None, left_out=0, restart=None):
        self.line, self.session, self.left_out, self.restart = line, session, left_out, restart

    @property
    def reason(self):
        """Returns the verdict without its line's number."""
        return re.sub(r" line \d+", "", self.line.split(":")[0])

    @property
    def is_clean(self):
        return self.line == "clean, yes" and not self.restart

    def of_cut_logs(self):
        """Returns what is to be said of logs that were cut, since a side did not come to its end."""
        return f"The logs may end early: {self.left_out} records were left out, and the verdict is on the others"

    def status(self, is_whole):
        """Returns the status of a recorder: 0 if the session is clean, and both sides came to the end. If they did not, the logs are cut."""
        return 0 if self.is_clean and is_whole else 1


def session_of(folder, is_whole, is_from_halt):
    """Returns the recording's session. If a QEMU ended early, the logs are cut so that no record names a missing one."""
    recording = recording_in(folder)
    session = recording.session(is_from_halt)
    if not is_whole:
        return session, session.cut()
    recording.require_end()
    return session, 0


def judge(folder, ended="", is_from_halt=False):
    """Judges a recording, and writes what was found to its folder. `ended` says how the migration ended, if it did not come to its end."""
    restart = restart_of(folder)
    try:
        session, left_out = session_of(folder, not ended, is_from_halt)
        write(f"{folder}/session", session.text())
    except (Hole, OSError) as fault:
        verdict = Verdict(f"not judged: {fault}{of_precopy(folder)}")
    else:
        verdict = Verdict(verdict_line(folder, ended), session, left_out)
    verdict.restart = restart
    if verdict.restart:
        write(f"{folder}/restart", verdict.restart.line() + "\n")
    write(f"{folder}/verdict", verdict.line + "\n")
    write(f"{folder}/witness", witness(folder))
    return verdict


def restart_of(folder):
    try:
        return recording_in(folder).restart()
    except (Hole, OSError):
        return None  # the verdict says so


def verdict_line(folder, ended=""):
    """Returns the verdict on a session as a line. It is `incomplete ..` if the session is clean and does not tell of a whole migration. A
    migration that did not come to its end has no certificate, whatever its session tells: `ended` says how it ended."""
    report, _ = ask(folder, "audit", "--complete", "session")
    first, _, certificate = report.partition("\n")
    if first == "clean" and ended:
        first = f"not judged: {UNFINISHED}{ended}"
        report = f"{first}\n"
    write(f"{folder}/report", report)
    if first != "clean":
        return first or "not judged: the program said nothing"
    write(f"{folder}/certificate", certificate)
    return f"clean, {ask(folder, 'check', '--complete', 'session', 'certificate')[0].strip()}"


def explain_and_draw(folder, *options, session="session"):
    """Writes the story of a session, and its picture, to its folder. Returns the story, or None if the program cannot make both."""
    words, told = ask(folder, "explain", *options, session)
    picture, drawn = ask(folder, "draw", session)
    if told not in (0, 1) or drawn != 0 or words.count("\n") < 2:
        return None
    write(f"{folder}/explained", words)
    write(f"{folder}/picture.svg", picture)
    return words

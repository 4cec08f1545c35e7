"""Replays the order that each refusal shows, and has each certificate that is made checked.

Each session of the example folders is audited. Of a faulty one, the order that the report shows is replayed: it has to be
broken at the named record, or at one that comes before it in that order. Of a clean one, `certify` has to write the
certificate of the report, and `check` has to say `yes` to it; in its order the session has to be safe. Of each, `replay` and
`draw` have to answer to the report as it stands what they answer to the text below its first line.
"""
import functools
import subprocess

from case_table import case_files, name_of
import pytest
from cases import right
from session_text import SessionText


def lines_in_order(session, runs):
    """The lines of a session's records, in the order that a runs text gives."""
    session = SessionText(session)
    counts = [run.split(" ")[1:] for run in runs.splitlines()[2:-1]]
    return [session.line(*name) for name in session.in_order([(log, int(count)) for log, count in counts])]


class Program:
    def __init__(self, file, folder):
        self.file, self.folder = file, folder

    @functools.lru_cache(maxsize=8)
    def says(self, command, **texts):
        """What the program writes of these texts, and its status. Options may stand behind the command. It is not run again where it was just run so."""
        for name, text in texts.items():
            with open(f"{self.folder}/{name}", "w", encoding="latin-1") as file:
                file.write(text)
        ran = subprocess.run([self.file, *command.split(" "), *texts], cwd=self.folder, stdin=subprocess.DEVNULL, stdout=subprocess.PIPE, stderr=subprocess.DEVNULL)
        return ran.stdout.decode("latin-1"), ran.returncode


def report_taken_wrongly(program, session, report):
    """Which command does not take a report as the order that it has, or None."""
    below = report.split("\n", 1)[1]
    for command in ("replay", "draw"):
        if program.says(command, session=session, report=report) != program.says(command, session=session, below=below):
            return f"`{command}` does not take the report as it takes the text below its first line"
    return None


def fault_shown_wrongly(program, session, report):
    """What is wrong with the order that a report shows of a faulty session, or None."""
    head, runs = report.split("\n", 1)
    named = int(head.split()[2])
    answer, status = program.says("replay", session=session, runs=runs)
    if status != 1 or not answer.startswith("broken line "):
        return f"the order of '{head}' is replayed as '{answer.strip()}'"
    order = lines_in_order(session, runs)
    if order.index(int(answer.split()[2])) > order.index(named):
        return f"the order of '{head}' is broken only later: '{answer.strip()}'"
    return report_taken_wrongly(program, session, report)


def clean_told_wrongly(program, session, report):
    """What is wrong with the certificate of a clean session, or None."""
    certificate = report.split("\n", 1)[1]
    if program.says("certify", session=session) != (certificate, 0):
        return "`certify` does not write the certificate of the report"
    if program.says("check", session=session, certificate=certificate) != ("yes\n", 0):
        return "the certificate of the report is not right"
    if program.says("replay", session=session, certificate=certificate) != ("safe\n", 0):
        return "the session is not safe in the order of its certificate"
    return report_taken_wrongly(program, session, report)


@pytest.mark.quick
@pytest.mark.cases(172)
def test_shown_orders(program, room):
    asked, kinds = Program(program, room), set()
    for file in case_files("session"):
        with open(file, encoding="latin-1", newline="") as text:
            session = text.read()
        report, _ = asked.says("audit", session=session)
        for kind, wrong in (("faulty ", fault_shown_wrongly), ("clean\n", clean_told_wrongly)):
            if report.startswith(kind):
                kinds.add(kind)
                right(wrong(asked, session, report), name_of(file))
    assert len(kinds) == 2, "no faulty session, or no clean one, was found"

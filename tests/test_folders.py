"""A folder with files of recorders in the place of a session: a command answers as of the text that `session` writes of it"""
import os
import random
import shutil
import subprocess

import pytest
from cases import same
from made_sessions import files_of, known_sessions
from recorded_faults import Faults
from session_text import SessionText
from test_saved import Run
from test_session_command import Beside, Silent

TOP = os.path.dirname(os.path.dirname(os.path.realpath(__file__)))

UNREAD = "its files make no session"


def folders_of(room):
    """A recording that is whole, one with a fault, and one that lacks a log."""
    faults = Faults(Silent(), room)
    whole, lacking = faults.recording(), faults.recording(pager=None)
    faulty = faults.recording()
    for name in sorted(os.listdir(faulty)):
        if name.startswith("pager."):
            with open(f"{faulty}/{name}", "r+", encoding="ascii") as file:
                lines = file.read().splitlines(keepends=True)
                at = next(at for at, line in enumerate(lines) if " place " in line)
                lines[at] = f"{lines[at][:-17]}{'5' * 16}\n"
                file.seek(0)
                file.writelines(lines)
    return whole, faulty, lacking


@pytest.fixture(name="run")
def fixture_run(program, room):
    def run(*words):
        return subprocess.run([program, *words], cwd=room, capture_output=True, encoding="utf-8", timeout=60, check=False)

    return run


@pytest.mark.quick
@pytest.mark.cases(22)
def test_as_the_text(run, room):
    whole, faulty, _ = folders_of(room)
    for folder in (whole, faulty):
        text = f"{folder}.text"
        same("a text", run("session", folder, "-o", text).returncode, 0)
        cert, runs = f"{folder}.cert", f"{folder}.runs"
        for command, name in (("certify", cert), ("audit", runs)):
            with open(name, "w", encoding="ascii") as file:
                file.write(run(command, text).stdout)
        for words in (("audit",), ("audit", "--all"), ("audit", "--format", "json"), ("audit", "--quiet"), ("explain",), ("explain", "--page", "0"),
                      ("draw",), ("certify",), ("check", cert), ("replay", runs), ("window", "0", "1")):
            command, *more = words
            behind = [it for it in more if it in (cert, runs, "0", "1") and command in ("check", "replay", "window")]
            options = [it for it in more if it not in behind]
            told, wanted = (run(command, *options, it, *behind) for it in (folder, text))
            named = wanted.stderr.replace(text, folder)
            same(" ".join(words), (told.returncode, told.stdout, told.stderr), (wanted.returncode, wanted.stdout, named))
    same("a verdict of each kind", (run("audit", "--quiet", whole).stdout, run("audit", "--quiet", faulty).stdout.split()[0]), ("clean\n", "faulty"))


OWED = "note: owed pages that never came: 1 (with --complete-pages that is status 1)"
NAME_GONE = "note: the file recording-name is gone, which each recorder writes; that the files are of one recording is known by their second lines"


@pytest.mark.quick
@pytest.mark.cases(14)
def test_name_gone(run, room):
    """A folder is judged without the file that names its recording too, and then it is told that the file is gone."""
    whole, faulty, _ = folders_of(room)
    cert = f"{room}/cert"
    with open(cert, "w", encoding="ascii") as file:
        file.write(run("certify", whole).stdout)
    asked = [(command, *more, "--", folder, *behind) for folder in (whole, faulty) for command, more, behind in
             (("audit", ("--quiet",), ()), ("explain", (), ()), ("check", (), (cert,)), ("draw", (), ()), ("certify", (), ()))]
    before = [run(*words) for words in asked]
    for folder in (whole, faulty):
        os.remove(f"{folder}/recording-name")
    for words, there in zip(asked, before):
        folder, ran = next(it for it in (whole, faulty) if it in words), run(*words)
        same(f"{words} without the file", (ran.returncode, ran.stdout, ran.stderr), (there.returncode, there.stdout, f"{folder}: {NAME_GONE}\n{there.stderr}"))
    several = run("audit", whole, faulty)
    same("two at once", several.stderr, f"{whole}: {NAME_GONE}\n{whole}: {OWED}\n{faulty}: {NAME_GONE}\n")
    same("no note where the file is there", [it.stderr for it in before if "recording-name" in it.stderr], [])
    same("the session of one, which no command judges", (run("session", whole).returncode, run("session", whole).stderr), (0, ""))
    same("a name with a slash behind it", run("audit", "--quiet", f"{whole}/").stderr, f"{whole}/: {NAME_GONE}\n{whole}/: {OWED}\n")


@pytest.mark.quick
@pytest.mark.cases(13)
def test_no_session(run, room):
    """What is missing is told, and there is no verdict; of several, the others are judged."""
    whole, _, lacking = folders_of(room)
    missing = run("session", lacking)
    behind = f"file {lacking}\n{lacking}: {UNREAD}\n"
    told = run("audit", lacking)
    same("a folder that lacks a log", (told.returncode, told.stdout, told.stderr), (3, "", missing.stderr + behind))
    same("words on it", missing.returncode == 1 and missing.stderr.startswith("session: "), True)
    told = run("audit", lacking, whole)
    same("several", (told.returncode, told.stdout.splitlines()[:1]), (3, [f"{whole}: clean"]))
    os.mkdir(f"{room}/none")
    told = run("explain", "none")
    none, wanted = "session: none: there is no file of a recorder, PARTY.PROCESS.N\n", f"file none\nnone: {UNREAD}\n"
    same("a folder without files of recorders", (told.returncode, told.stdout, told.stderr), (3, "", none + wanted))
    run("session", whole, "-o", "none/session")
    for command, *more in (("audit",), ("explain",), ("draw",), ("certify",), ("window", "0", "1"), ("check", whole), ("replay", whole)):
        told = run(command, "none", *more)
        same(f"{command} of a folder with a session", (told.returncode, told.stdout, told.stderr), (3, "", f"{none}session: none: it has a file session: to read that, name none/session\n{wanted}"))
    told = run("audit", "none/", whole)
    same("several", (told.returncode, told.stdout.splitlines()[:1], "to read that, name none/session\n" in told.stderr), (3, [f"{whole}: clean"], True))
    shutil.copy(f"{lacking}/guest.1.0", f"{room}/none")
    same("a folder with a session and a file of a recorder", "to read that" in run("audit", "none").stderr, False)


@pytest.mark.quick
@pytest.mark.cases(14)
def test_other_words(run, room):
    """A folder in the place of anything but a session is refused as one, whether its files make a session or not."""
    whole, _, lacking = folders_of(room)
    run("session", whole, "-o", "text")
    for folder in (whole, lacking):
        for words in (("check", "text", folder), ("replay", "text", folder), ("draw", "text", folder), ("explain", "--lines", folder, "text"),
                      ("steps", folder, "text"), ("steps", f"{TOP}/examples/lost-and-repeated/script", folder), ("migrate", folder)):
            told = run(*words)
            same(" ".join(words), (told.returncode, told.stdout, told.stderr), (3, "", f"file {folder}\n{folder}: it is a directory\n"))


@pytest.mark.cases(4)
def test_read_once(program, room, refusing):
    """What `session` opens once is opened no more often for a judgement, also where no session comes of it."""
    whole, _, lacking = folders_of(room)
    ran, opened = Run(program, room, refusing), 3
    for folder in (whole, lacking):
        (_, made), (_, audited), (_, told) = (ran.counted("-", command, folder) for command in ("session", "audit", "explain"))
        same(f"audit of {folder}", audited[opened] <= made[opened], True)
        same(f"explain of {folder}", told[opened] <= made[opened], True)


@pytest.mark.quick
@pytest.mark.cases(5)
def test_beyond_limits(run, room):
    """A folder with a recording that is no session is refused at the line at which its text is."""
    folder = Faults(Silent(), room).recording(machine=["pages 99999999999 1"])
    same("a recording", run("session", folder, "-o", "text").returncode, 0)
    for command in ("audit", "certify", "explain", "draw"):
        told, wanted = run(command, folder), run(command, "text")
        found = (told.returncode, told.stdout, told.stderr.replace(folder, "text"))
        same(f"{command} of it", (found, wanted.returncode), ((wanted.returncode, wanted.stdout, wanted.stderr), 1))


NOTHING = "session: nothing was written: repair this, or use session --cut to write what is left\n"

# Names that recorders' files do not get as they are compressed.
OTHERS = ("guest.1.gz", "lane.1.0.zip", "lane.1.0gz", "lane.1.0..gz", "lane.1.0.gz.1", "lanes.1.0.gz", "lane.1.0.GZ", "lane.x.0.gz")


def told_of(folder, *names):
    """What is told of these files, which are compressed."""
    return "".join(f"session: {folder}/{name} is compressed, and is not read: unpack it first\n" for name in names)


@pytest.mark.quick
@pytest.mark.cases(27)
def test_compressed(run, room):
    """A file that is only there compressed is lacking, also where all others are a whole session. With --cut that is written."""
    def answers(what, ran, *wanted):
        same(what, (ran.returncode, ran.stdout, ran.stderr), wanted)

    faults = Faults(Silent(), room)
    folder, whole = faults.recording(), faults.recording()
    text, logs = run("session", folder).stdout, ("machine", "guest", "source", "link", "lane", "pager")
    for name in (*OTHERS, "guest.1.0.gz", "pager.1.0.zst"):
        faults.put(f"{folder}/{name}", "any")
    answers("other names, and files that are there too", run("session", folder), 0, text, "")
    for log, ending in zip(logs, ("bz2", "gz", "lz4", "lzma", "xz", "zst")):
        name = f"{log}.12.34.{ending}"
        faults.put(f"{folder}/{name}", "any")
        told = told_of(folder, name)
        answers(f"a session without {name}", run("session", folder), 1, "", told + NOTHING)
        answers(f"what is left without {name}", run("session", "--cut", folder), 0, text, told)
        answers(f"an audit without {name}", run("audit", folder), 3, "", f"{told}{NOTHING}file {folder}\n{folder}: {UNREAD}\n")
        os.remove(f"{folder}/{name}")
    faults.put(f"{folder}/lane.1.0.gz", "any")
    behind = f"{told_of(folder, 'lane.1.0.gz')}{NOTHING}file {folder}\n{folder}: {UNREAD}\n"
    for command, *more in (("explain",), ("draw",), ("certify",), ("window", "0", "1")):
        answers(f"{command} without lane.1.0.gz", run(command, folder, *more), 3, "", behind)
    answers("the audit of several", run("audit", folder, whole), 3, f"{whole}: clean\n1 of 2 sessions are clean\n", f"{behind}{whole}: {OWED}\n")
    for log in logs:
        if log != "lane":
            os.rename(f"{folder}/{log}.1.0", f"{folder}/{log}.1.0.gz")
    told = told_of(folder, "guest.1.0.gz", "lane.1.0.gz", "link.1.0.gz", "machine.1.0.gz", "pager.1.0.gz", "pager.1.0.zst", "source.1.0.gz")
    answers("a folder in which all are compressed", run("session", folder), 1, "", told + NOTHING)
    answers("the same, cut", run("session", "--cut", folder), 1, "", f"{told}session: {folder}: there is no file of a recorder, PARTY.PROCESS.N\n")
    answers("two folders", run("session", folder, whole), 1, "", told + NOTHING)


class BesideItsText(Beside):
    """What commands answer to a folder, beside what they answer to the text that `session` writes of it."""

    def __init__(self, room, program, commands):
        super().__init__(room, program, has_script=False)
        self.commands, self.forms = commands, set()

    def session(self, *words):
        made = self.by_command(*words)
        if len(words) == 1 and words[0].isprintable():
            self.compare(words[0], made)
        return made

    def compare(self, folder, made):
        self.put(f"{self.room}/text", made.stdout)
        self.forms.add((made.returncode, made.stdout[:18]))
        unread = f"{made.stderr}file {folder}\n{folder}: {UNREAD}\n"
        for command in self.commands:
            told, wanted = (subprocess.run([self.command, *command, it], capture_output=True, encoding="utf-8", timeout=60, check=False)
                            for it in (folder, f"{self.room}/text"))
            gone = "" if os.path.exists(f"{folder}/recording-name") else f"{folder}: {NAME_GONE}\n"
            answer = (wanted.returncode, wanted.stdout, gone + wanted.stderr.replace(f"{self.room}/text", folder))
            wants = (3, "", unread) if made.returncode else answer
            same(f"{' '.join(command)} {folder}", (told.returncode, told.stdout, told.stderr), wants)


FORMS = [(0, f"postcopy-session {version}") for version in (1, 2, 3)]


@pytest.mark.cases(480)
def test_known_sessions(program, room):
    """Sessions of each version that are known, as recorders' files, whole and cut short."""
    def audit(text):
        return subprocess.run([program, "audit", "--quiet", "-"], input=text, stdout=subprocess.PIPE, encoding="ascii", check=False).stdout

    beside, chance = BesideItsText(room, program, [("audit", "--all", "--format", "json"), ("explain",)]), random.Random(11)
    for text in known_sessions(audit):
        session = SessionText(text)
        for parts, lengths in ((1, None), (3, None), (2, {log: chance.randrange(len(session.logs[log]) + 1) for log in session.told()})):
            folder = beside.folder()
            files_of(session, folder, parts, chance, lengths)
            beside.session(folder)
    same("a session of each version, and none", beside.forms.issuperset([*FORMS, (1, "")]), True)


@pytest.mark.quick
@pytest.mark.cases(5)
def test_messages_beside_a_file_of_the_link(program, room):
    """Records that name their senders though the link has a file: one with no record, and one beside a lane without a file."""
    beside = BesideItsText(room, program, [("audit",), ("explain",)])
    behind = ["place 0 2 0000000000000005"]
    beside.session(beside.recording(link=[], pager=["got-sent 1", "ready", "got-sent 2", *behind]))
    beside.session(beside.recording(link=["down 1"], pager=["got 0", "ready", "pull-sent 2", *behind]))
    same("a session with a lane, and one without", beside.forms, {FORMS[0], FORMS[1]})


@pytest.mark.cases(50)
def test_faults(program, room):
    """Recordings with faults: what keeps them from being a session is told once."""
    beside = BesideItsText(room, program, [("audit",)])
    for run in (beside.of_whole_ones, beside.of_lost_files, beside.of_slips, beside.of_two_recordings, beside.of_machines, beside.of_lanes):
        run()

"""The command `session` and recorders/session beside the slow model: of each recording they write its text and say the same. The
command ends with 1 if it writes nothing; the script does so if something is missing, and with 2 if the files make no session.

The recordings are whole, or lack something, or are none: those of recorded_faults.py, and sessions that are known, spread over
files, whole and cut short at random.
"""
import errno
import os
import random
import resource
import subprocess
import tempfile

import pytest
from cases import count, each, same
from made_sessions import files_of, known_sessions, numbered, run_script, text_of_file
from recorded_faults import MOVED, Faults
from recorded_model import NOTHING, answer_of, model_of, told
from session_text import SessionText
from test_saved import Run

from postcopy.records import RECORDS

TOP = os.path.dirname(os.path.dirname(os.path.realpath(__file__)))


class Silent:
    """What the faults are told of by their own test."""

    @staticmethod
    def same(*_):
        return

    @staticmethod
    def left_out(*_):
        return

    @staticmethod
    def audit(_):
        return ""


class Beside(Faults):
    """The script and the command on the same folders, beside the model."""

    def __init__(self, room, program, has_script=True):
        super().__init__(Silent(), room, program, "/bin/true")
        self.has_script = has_script

    def by_command(self, *words):
        return subprocess.run([self.command, "session", *words], capture_output=True, encoding="utf-8", errors="surrogateescape", timeout=60)

    def session(self, *words):
        """What the script says by the model, to which both are compared."""
        folders = [word for word in words if word != "--cut"]
        if any("\udcff" in word or word == "--whole" for word in words):
            return run_script(self.command, *words)
        made, said = model_of(folders)
        text, lines, status = answer_of(made, said, "--cut" in words)
        ran = self.by_command(*words)
        same(f"session {' '.join(words)}", (ran.returncode, ran.stdout, ran.stderr), (status, text, told(lines)))
        wanted = subprocess.CompletedProcess(words, 2 if made is None and lines[-1] != NOTHING else status, text, told(lines))
        if self.has_script:
            ran = run_script(self.command, *words)
            same(f"recorders/session {' '.join(words)}", (ran.returncode, ran.stdout, ran.stderr), (wanted.returncode, wanted.stdout, wanted.stderr))
        return wanted


@pytest.mark.cases(200)
def test_faults(program, room):
    beside = Beside(room, program)
    for run in (beside.of_whole_ones, beside.of_lost_files, beside.of_slips, beside.of_two_recordings, beside.of_words, beside.of_machines, beside.of_lanes):
        run()


def whole_recordings():
    """The logs of a recording whose link has a log, or none, and whose lane has none, one that nobody takes a packet of, or one that the pager
    takes the page of."""
    for got, page, both in (("got 0", "got 1", ["down 1", "down 2"]), ("got-sent 1", "got-sent 2", None)):
        for lane, taken in ((None, page), ([], page), (["down 2"], page), (["down 2"], "pull 0"), (None, "pull-sent 2")):
            yield {**MOVED, "machine": [f"pages 2 1 {int(lane is not None)}", MOVED["machine"][1]], "lane": lane,
                   "link": both if taken == page else both and both[:1], "pager": [got, "ready", taken, MOVED["pager"][3]]}


@pytest.mark.quick
@pytest.mark.cases(370)
def test_lost_logs(program, room):
    """Whichever logs have lost all of their files, that is told."""
    beside = Beside(room, program, has_script=False)
    for logs in whole_recordings():
        same("a whole recording", beside.session(beside.recording(**logs)).returncode, 0)
        there = [log for log, records in logs.items() if records is not None]
        for number in range(1, 2 ** len(there)):
            lost = [log for at, log in enumerate(there) if number >> at & 1]
            left = beside.recording(**{**logs, **dict.fromkeys(lost)}) if len(lost) < len(there) else beside.folder()
            os.makedirs(left, exist_ok=True)
            same(f"the loss of {', '.join(lost)}", beside.session(left).returncode > 0, True)


@pytest.mark.cases(500)
def test_known_sessions(program, room):
    def audit(text):
        return subprocess.run([program, "audit", "--quiet", "-"], input=text, stdout=subprocess.PIPE, encoding="ascii", check=False).stdout

    beside, chance = Beside(room, program), random.Random(7)
    for number, text in enumerate(known_sessions(audit)):
        session = SessionText(text)
        for parts, lengths in ((1, None), (3, None), (2, {log: chance.randrange(len(session.logs[log]) + 1) for log in session.told()})):
            folder = beside.folder()
            files_of(session, folder, parts, chance, lengths)
            beside.has_script = number % 4 == 0
            for words in ((), ("--cut",)):
                beside.session(folder, *words)


def shared_links(room):
    """Links to a file that stand in a folder that all may write to, with what comes of a text that goes there: of another user's link, which
    only the superuser can make, and of one's own."""
    os.mkdir(f"{room}/all")
    os.chmod(f"{room}/all", 0o1777)
    for name in ("theirs", "own") if os.geteuid() == 0 else ("own",):
        with open(f"{room}/old", "w", encoding="ascii") as file:
            file.write("as it was\n")
        os.symlink("../old", f"{room}/all/{name}")
        if name == "theirs":
            os.chown(f"{room}/all/{name}", 65534, 65534, follow_symlinks=False)
        yield f"{room}/all/{name}", (0, "", False) if name == "own" else (2, f"session: {room}/all/{name}: Permission denied\n", True)


@pytest.mark.quick
@pytest.mark.cases(37)
def test_outputs(program, room):
    """A text goes to the file of -o. If nothing is written, the file stays; what cannot be read is told with its name."""
    beside = Beside(room, program)
    folder, lacking = beside.recording(), beside.recording(pager=None)
    wanted = beside.by_command(folder).stdout
    name = f"{room}/session"
    same("a text in its file", (beside.by_command(folder, "-o", name).returncode, beside.has(name)), (0, wanted))
    ran = beside.by_command(folder, "-o", name)
    same("a session that is there", (ran.returncode, ran.stdout, beside.has(name)), (2, "", wanted))
    beside.put(name, "as it was\n")
    ran = beside.by_command("-o", name, lacking)
    same("a file that stays", (ran.returncode, ran.stdout, beside.has(name)), (1, "", "as it was\n"))
    ran = beside.by_command("--cut", lacking, "-o", name)
    same("a text that is cut in its file", (ran.returncode, ran.stdout, beside.has(name) == wanted), (0, "", False))
    same("the text of a whole recording, cut", beside.by_command("--cut", folder).stdout, wanted)
    for what, words, why in (
        ("a folder that is none", (f"{room}/none",), "no such file or directory"),
        ("a file for a folder", (f"{folder}/guest.1.0",), "it is not a directory"),
    ):
        ran = beside.by_command(*words)
        same(what, (ran.returncode, ran.stdout, ran.stderr), (3, "", f"file {words[0]}\n{words[0]}: {why}\n"))
    beside.put(f"{folder}/recording-name", "made\n")
    for file, text in (("there", "postcopy-session 2\n"), ("by/0-0", "postcopy-session 1\n"), ("cert", "postcopy-certificate 3\n"), ("lane.1.0", "")):
        os.makedirs(f"{room}/by", exist_ok=True)
        beside.put(f"{room}/{file}", text)
    os.symlink(f"{folder}/recording-name", f"{room}/link")
    for file, what in ((f"{folder}/guest.1.0", "a file of a recorder"), (f"{folder}/recording-name", "a file of a recorder"), (f"{room}/link", "a file of a recorder"),
                       (f"{room}/lane.1.0", "a file of a recorder"), (f"{room}/there", "a session"), (f"{room}/cert", "a certificate")):
        kept, why = beside.has(file), f"session: {file} is {what}: remove it first, or name another file behind -o\n"
        for words in ((), ("--cut",), ("--recording",), ("--window", "0-0")):
            ran = run_script(beside.command, folder, *words, "-o", file)
            same(f"an output onto {what} {words}", (ran.returncode, ran.stdout, ran.stderr, beside.has(file)), (2, "", why, kept))
    ran = run_script(beside.command, folder, "--windows", "1", "-o", f"{room}/by")
    same("a window onto a session", (ran.returncode, ran.stdout, os.listdir(f"{room}/by"), beside.has(f"{room}/by/0-0")), (2, "", ["0-0"], "postcopy-session 1\n"))
    for name, wanted in shared_links(room):
        ran = run_script(beside.command, folder, "-o", name)
        same(f"an output by the link {name}", (ran.returncode, ran.stderr, beside.has(f"{room}/old") == "as it was\n"), wanted)
    for words in ((), ("-o", "/dev/null"), ("--window", "0-0")):
        ran = run_script(beside.command, folder, *words, preexec_fn=lambda: resource.setrlimit(resource.RLIMIT_FSIZE, (10, 10)))
        same(f"a temporary folder without room {words}", (ran.returncode, ran.stdout, ran.stderr), (2, "", f"session: {tempfile.gettempdir()}: the file would be too large\n"))
    same("no folder", beside.by_command().returncode, 2)
    same("a word that is no option", beside.by_command(lacking, "--whole").returncode, 2)


@pytest.mark.quick
@pytest.mark.cases(17)
def test_names_of_folders(program, room):
    """A folder with the name of another recording than its files have is told as files of two recordings are, and not what stands there."""
    beside = Beside(room, program, has_script=False)
    folder, secret = beside.recording(), f"{room}/secret"
    name, why = f"{folder}/recording-name", "it is read several times and has to be the same each time, as a pipe is not"
    for text in ("made\n", "made", "other\n", "mad\n", "\n", ""):
        beside.put(name, text)
        for words in ((), ("--cut",)):
            same(f"a folder with the name {text!r} {words}", beside.session(folder, *words).returncode == 0, text.strip() == "made")
    ran = subprocess.run([program, "audit", folder], capture_output=True, encoding="utf-8", timeout=60, check=False)
    same("its audit", (ran.returncode, ran.stdout, f"session: {name} names another recording, and " in ran.stderr), (3, "", True))
    beside.put(secret, "a secret\n")
    os.remove(name)
    os.symlink(secret, name)
    ran = beside.session(folder)
    same("a link to a secret", (ran.returncode, "secret" in ran.stderr), (2, False))
    os.remove(name)
    os.mkfifo(name)
    ran = beside.by_command(folder)
    same("a pipe", (ran.returncode, ran.stdout, ran.stderr), (3, "", f"file {name}\n{name}: {why}\n"))


@pytest.mark.cases(4)
def test_two_folders(program, room):
    """A recording that is spread over two folders, named in either order."""
    beside = Beside(room, program)
    folder = beside.recording()
    wanted = beside.by_command(folder).stdout
    other = beside.folder()
    os.mkdir(other)
    for log in list(MOVED)[2:]:
        os.rename(f"{folder}/{log}.1.0", f"{other}/{log}.1.0")
    for words in ((folder, other), (other, folder), ("--cut", folder, other), (f"{other}/", f"{folder}//")):
        ran = beside.by_command(*words)
        same("two folders", (ran.returncode, ran.stdout, ran.stderr), (0, wanted, ""))


@pytest.mark.cases(12)
def test_packed_files(program, room):
    """A file of a recorder that somebody has compressed is missing, also where nothing else is; but for one whose own file is there."""
    beside = Beside(room, program)
    folder = beside.recording()
    wanted = run_script(beside.command, folder)
    for name in ("lane.1.0.gz", "guest.12.34.zst", "guest.1.0.xz", "guest.gz", "pager.1.0.txt", "a\nguest.2.0.gz"):
        beside.put(f"{folder}/{name}", "any")
    told = [f"session: {folder}/{name} is compressed, and is not read: unpack it first\n" for name in ("guest.12.34.zst", "lane.1.0.gz")]
    nothing = "session: nothing was written: repair this, or use session --cut to write what is left\n"
    for words in ((), ("--recording",), ("-o", f"{room}/none"), ("-o", f"{room}/none", "--window", "0-0"), ("-o", f"{room}/none", "--windows", "1")):
        ran = run_script(beside.command, folder, *words)
        same(f"a recording with packed files {words}", (ran.returncode, ran.stdout, ran.stderr, os.path.exists(f"{room}/none")), (1, "", "".join(told) + nothing, False))
    ran = run_script(beside.command, folder, "--cut")
    same("the same, cut", (ran.returncode, ran.stdout, ran.stderr), (0, wanted.stdout, "".join(told)))
    os.rename(f"{folder}/guest.1.0", f"{folder}/guest.1.0.gz")
    ran = run_script(beside.command, f"{folder}/", "--cut")
    same("one that lacks it", (ran.returncode, ran.stderr.split("\n")[0]), (0, f"session: {folder}/guest.1.0.gz is compressed, and is not read: unpack it first"))
    count(f"session: {folder}/guest.1.0.xz is compressed, and is not read: unpack it first\n" in ran.stderr, "and in another form")
    for log in list(MOVED):
        if os.path.exists(f"{folder}/{log}.1.0"):
            os.rename(f"{folder}/{log}.1.0", f"{folder}/{log}.1.0.bz2")
            ran = run_script(beside.command, folder)
            count(f"{folder}/{log}.1.0.bz2 is compressed" in ran.stderr and ran.returncode, f"the log of the {log}")


@pytest.mark.cases(6)
def test_beyond_the_limits(program, room):
    """The script writes no session that is beyond the limits, neither of all pages nor of some, and leaves the output as it was."""
    beside = Beside(room, program)
    logs = {"guest": ["halt", "resume 1"], "source": ["halted 0", "state"], "link": ["down 1"], "pager": ["got 0", "ready"]}
    folder, name = beside.recording(machine=["pages 32769 512"], **logs), f"{room}/session"
    for words, status in (((), 2), (("-o", name), 2), (("--window", "0-32768", "-o", name), 2), (("--windows", "32769", "-o", f"{room}/by"), 2),
                          (("--recording", "-o", name), 0), (("--window", "0-1", "-o", name), 0)):
        beside.put(name, "as it was")
        ran = run_script(beside.command, folder, *words)
        is_told = ran.stderr.startswith("session: 32769 pages of 512 cells, ") and ", are too many: a session has at most " in ran.stderr
        left = os.listdir(f"{room}/by") if os.path.exists(f"{room}/by") else []
        same(f"a machine with too many cells {words}", (ran.returncode, ran.stdout, is_told, beside.has(name) == "as it was", left),
             (status, "", status != 0, status != 0, []))


MOST_OF_A_SMALL_LOG = 1048576


def greatest_recording(folder, records):
    """A recording whose pager has so many records."""
    os.mkdir(folder)
    logs = {"machine": ["pages 1 1"], "guest": ["halt", "resume 1"], "source": ["halted 0", "state"], "pager": ["got-sent 1", "ready"]}
    logs["pager"] += ["all"] * (records - len(logs["pager"]))
    for party, log in logs.items():
        with open(f"{folder}/{party}.1.0", "w", encoding="ascii") as file:
            file.write(f"postcopy-records 1\nrecording greatest\nlog {party} 0 0\n")
            file.writelines(f"{number} {record}\n" for number, record in enumerate(log))
            file.write(f"end {len(log)}\n")


@pytest.mark.cases(4)
def test_greatest_logs(program, room):
    """A log with as many records as the first version allows is of that version, and one with a record more of the third."""
    for records, version in ((MOST_OF_A_SMALL_LOG, 1), (MOST_OF_A_SMALL_LOG + 1, 3)):
        folder = f"{room}/{records}"
        greatest_recording(folder, records)
        text = subprocess.run([program, "session", folder], capture_output=True, encoding="ascii", timeout=60, check=True).stdout
        same(f"the version of {records} records", text.split("\n", 1)[0], f"postcopy-session {version}")
        ran = subprocess.run([program, "audit", "--quiet", folder], capture_output=True, encoding="ascii", timeout=60, check=False)
        same(f"the verdict on {records} records", (ran.returncode, ran.stdout), (0, "clean\n"))


@pytest.mark.quick
@pytest.mark.cases(13)
def test_control_characters(program, room):
    """No control character of a folder's name is written as it is, of one byte or of two, and every other character is."""
    for name, shown in (*((f"a{it}b", f"a\\u{ord(it):04x}b") for it in "\x01\x1b\x1f\x7f\x80\x9b\x9f"), ("a\tb", "a\\u0009b"), ("a\nb", "a\\u000ab"),
                        *((f"a{it}b", f"a{it}b") for it in (" ", "~", "\xa0", "\xc2"))):
        os.mkdir(f"{room}/{name}")
        ran = subprocess.run([program, "session", name], cwd=room, capture_output=True, encoding="utf-8", timeout=60, check=False)
        same("the words on such a folder", (ran.returncode, ran.stderr), (1, f"session: {shown}: there is no file of a recorder, PARTY.PROCESS.N\n"))


# What is quoted: texts that are just short enough to be quoted whole, or just too long, and what a quotation escapes.
QUOTED = (*(length * "x" for length in (56, 57, 58, 59, 60, 61, 120)), *(f"{(length - 2) * 'x'}'\\" for length in (59, 60, 61)),
          "it's", 'say"no"', "it's\"no\"", "a\\b", "a\tb", "\x1b\x7f")
CELLS = ("pages 2 513", "pages 2 999", "pages 2 1000", "pages 0 513", "pages 0 1", "pages 2 0",
         "pages 2 513 0", "pages 2 513 1", "pages 2 513 2", "pages 2 1 2", "pages 2 1 01", "pages 2 1 ", "pages 2 1 1 1", "pages 2 0 1")


@pytest.mark.quick
@pytest.mark.cases(2 * len(QUOTED) + len(CELLS))
def test_quotes(program, room):
    """What is quoted of a line that is no record, of a word that is no field, and of a wrong number of cells, beside the model."""
    beside = Beside(room, program, has_script=False)
    for text in each((*QUOTED, *CELLS)):
        if text in CELLS:
            beside.session(beside.recording(machine=[text]))
        else:
            beside.session(beside.recording(guest=text_of_file("guest", [*numbered(["halt"]), text], last="end 2")))
            beside.session(beside.recording(guest=["halt", f"resume {text}"]))


# How many errors of the system the command has words for. It tells another one by its number.
KNOWN_ERRORS = 33


@pytest.mark.cases(136)
def test_system_errors(program, room):
    """Where a record was not written, the error has the words of the system, if the command has words for it."""
    beside, known = Beside(room, program), 0
    folder = beside.recording()
    with open(f"{folder}/guest.1.0", encoding="ascii") as file:
        head = file.readlines()[:3]
    for number in each(range(1, 136), name=str):
        with open(f"{folder}/guest.1.0", "w", encoding="ascii") as file:
            file.writelines([*head, f"lost {number}\n"])
        said = beside.by_command(folder).stderr
        words, unknown = os.strerror(number), f"Unknown error {number}"
        is_known = words != unknown and f"a record was not written: {words}\n" in said
        known += is_known
        same(f"the words on error {number}", is_known or f"a record was not written: {unknown}\n" in said, True)
    same("errors with words", known, KNOWN_ERRORS)


@pytest.mark.quick
@pytest.mark.cases(2)
def test_lone_halted_that_is_named(program, room):
    """A `halted` that is alone is left out with the records that name it, and those that name these."""
    for number, carried in enumerate(({"link": "down 0", "pager": "got 0"}, {"pager": "got-sent 0"})):
        folder = f"{room}/lone-{number}"
        os.mkdir(folder)
        for party, record in ({"machine": "pages 1 1", "guest": "halt", "source": "halted 0"} | carried).items():
            with open(f"{folder}/{party}.1.0", "w", encoding="ascii") as file:
                file.write(f"postcopy-records 1\nrecording lone\nlog {party} 0 0\n0 {record}\nend 1\n")
        text = subprocess.run([program, "session", "--cut", folder], capture_output=True, encoding="ascii", timeout=60, check=True).stdout
        same("the text", text, "postcopy-session 1\npages 1\ncells 1\ninit 0\nguest 1\nhalt\nsource 0\nlink 0\npager 0\nend\n")


# How many bytes of a file are read at a time, and of a text written.
PIECE = 65536

# What is told of a file that a pass does not read to its end.
NOT_READ = b"the file was not read to its end, or has changed since"

# What is told of the folder of a recording of which some file has changed before the last pass.
CHANGED = b"a file of this recording was not read to its end, or has changed since"


@pytest.mark.cases(130)
def test_refused_calls(program, room, refusing):
    """A read that fails, in any pass, is told with the name of its file, and makes no session. An interrupted read is made again."""
    run, folder = Run(program, room, refusing), Beside(room, program).recording()
    files = {f"{folder}/{name}".encode() for name in os.listdir(folder)}
    for words in (("session", folder), ("session", "--cut", folder)):
        plain, (_, reads, *_) = run.counted("-", *words)
        same(f"{words}: a whole recording", (plain[0], plain[2][:8]), (0, b""))
        told_of = set()
        for number in range(1, reads + 1):
            (status, output, errors), _ = run.counted(f"read {number} {number} {errno.EIO}", *words)
            name = errors.split(b"\n")[0].removeprefix(b"file ")
            same(f"{words}: read {number} fails", (status, output, errors), (3, b"", b"file %s\n%s: %s\n" % (name, name, NOT_READ)))
            told_of.add(name)
            same(f"{words}: read {number} is interrupted", run.counted(f"read {number} {number} {errno.EINTR}", *words)[0], plain)
        same(f"{words}: the files that are told", told_of, files)
        run.put("kept", b"as it was\n")
        found = run.counted(f"read {reads} {reads} {errno.EIO}", *words, "-o", "kept")[0]
        same(f"{words}: the file of an answer whose last read fails", (found[:2], run.has("kept")), ((3, b""), b"as it was\n"))


@pytest.mark.cases(60)
def test_refused_calls_of_an_audit(program, room, refusing):
    """An audit of a folder reads its files less often than `session`, which writes their text. A read that fails is told with the name of
    its file, and nothing is judged. An interrupted read is made again."""
    run, folder = Run(program, room, refusing), Beside(room, program).recording()
    words = ("audit", folder)
    plain, (_, reads, *_) = run.counted("-", *words)
    same("a whole recording", (plain[0], plain[2]), (0, b"%s: note: owed pages that never came: 1 (with --complete-pages that is status 1)\n" % folder.encode()))
    count(reads < run.counted("-", "session", folder)[1][1], f"an audit reads {reads} times")
    behind = b"file %s\n%s: its files make no session\n" % (folder.encode(), folder.encode())
    for number in range(1, reads + 1):
        same(f"read {number} is interrupted", run.counted(f"read {number} {number} {errno.EINTR}", *words)[0], plain)
        for last in (number, 9999999):
            (status, output, errors), _ = run.counted(f"read {number} {last} {errno.EIO}", *words)
            name = errors.split(b"\n")[0].removeprefix(b"file ")
            same(f"reads {number} to {last} fail", (status, output, errors), (3, b"", b"file %s\n%s: %s\n%s" % (name, name, NOT_READ, behind)))


@pytest.mark.cases(20)
def test_failed_late(program, room, refusing):
    """What is written of a longer text before a read fails is its beginning, and so where a file is shorter than it was. Nothing is
    written before the last pass."""
    run, folder = Run(program, room, refusing), Beside(room, program).recording(guest=[*MOVED["guest"], *[f"w 63 0 0 {2**64 - 1}"] * 6600])
    plain, (_, reads, *_) = run.counted("-", "session", folder)
    same("a longer recording", (plain[0], len(plain[1]) > 3 * PIECE, plain[2]), (0, True, b""))
    lengths, changed = [], 0
    for number in each(range(1, reads + 1), name=str):
        (status, output, errors), _ = run.counted(f"read {number} {number} {errno.EIO}", "session", folder)
        same(f"read {number} fails", (status, plain[1].startswith(output), errors.count(b"\n"), errors.endswith(b": %s\n" % NOT_READ)), (3, True, 2, True))
        lengths.append(len(output))
        if output:
            found = run.counted(f"read {number} {number} none", "session", folder)[0]
            changed += found != plain
            is_told = (found[0], plain[1].startswith(found[1])) == (3, True) and found[2].endswith((b": %s\n" % NOT_READ, b"%s: %s\n" % (folder.encode(), CHANGED)))
            count(found == plain or is_told, f"nothing more comes at read {number}: {str(found)[-300:]}")
    same("a file that is shorter in the last pass", changed > 2, True)
    run.put("kept", b"as it was\n")
    found = run.counted(f"read {reads} {reads} {errno.EIO}", "session", folder, "-o", "kept")[0]
    same("the file of an answer whose last read fails, and the output", (found[:2], run.has("kept")), ((3, b""), b"as it was\n"))
    same("how much is written", (lengths[0], lengths == sorted(lengths), PIECE < lengths[-1] < len(plain[1])), (0, True, True))


def guest_up_to(place):
    """The beginning of a guest's file with so many bytes, and how many lines these are. The last two have values of as many digits as that takes."""
    text = text_of_file("guest", numbered(MOVED["guest"]))
    number = len(MOVED["guest"])
    while place - len(text) > 60:
        text, number = f"{text}{number} r 0 0 0 5\n", number + 1
    for size in ((place - len(text)) // 2, None):
        front = f"{number} r 0 0 0 "
        text, number = f"{text}{front.ljust((size or place - len(text)) - 1, '5')}\n", number + 1
    return text, number + 3


@pytest.mark.cases(36)
def test_lines_of_long_files(program, room):
    """A line that is no record is told with its number and its words, in whichever piece of its file it stands, and over two."""
    beside, wrong = Beside(room, program), "no record at all"
    for pieces in (1, 2, 3):
        for more in (-len(wrong) - 1, -len(wrong), -9, -1, 0, 1):
            front, lines = guest_up_to(pieces * PIECE + more)
            same("the place of the line", len(front), pieces * PIECE + more)
            folder = beside.recording(guest=f"{front}{wrong}\nend 5\n")
            ran = beside.by_command(folder)
            words = f"session: {folder}/guest.1.0:{lines + 1}: found '{wrong}', which is no record: expected its number, its word and its fields\n"
            same(f"a line {more} bytes from the end of piece {pieces}", (ran.returncode, ran.stdout, ran.stderr), (1, "", words))


@pytest.mark.quick
@pytest.mark.cases(16)
def test_second_record_behind_a_hole(program, room):
    """Two records of one number are no session, with --cut as without, also where an earlier number is missing."""
    beside = Beside(room, program)
    for log, records in (("guest", ["w 0 0 0 5", "halt", "resume 1", "see 3", "r 0 0 0 5"]), ("pager", ["got 0", "ready", "got 1", "place 0 2 0000000000000005"])):
        for missing in (1, 2):
            lines = numbered(records)
            folder = beside.recording(**{log: text_of_file(log, lines[:missing] + lines[missing + 1:], last=f"end {len(lines) + 9}")})
            beside.put(f"{folder}/{log}.1.1", text_of_file(log, lines[3:4]))
            place = f"{folder}/{log}.1.1:4: a second record 3 of the {log}'s log, beside {folder}/{log}.1.0:6: record 3 of the {log}'s log: "
            for words in ((folder,), ("--cut", folder)):
                ran = beside.by_command(*words)
                same(f"{words}", (ran.returncode, ran.stdout, ran.stderr[:9 + len(place)]), (1, "", f"session: {place}"))
                same(f"{words}: one line", ran.stderr.count("\n"), 1)


# A right text of each field, by its name, on a machine of two pages of one cell, and a number that is none, one too many, or past the
# machine. Any other field is the number of a record.
FIELDS = {"vcpu": ("0", ("64",)), "page": ("0", ("2", str(2**32), str(2**63))), "cell": ("0", ("1", "511", "512")), "value": ("5", (str(2**64),)),
          "contents": ("0" * 15 + "5", ("0" * 15, "0" * 15 + "G", "0" * 32))}
NUMBER = ("0", (str(2**32), "-1", ""))


@pytest.mark.quick
@pytest.mark.cases(163)
def test_fields(program, room):
    """Of a record with a wrong field it is told which one it is, and what it may be: each field of each record, beside the model."""
    beside = Beside(room, program, has_script=False)
    for log, word in each([(log, word) for log, kinds in RECORDS.items() for word in kinds], name=" ".join):
        texts = [FIELDS.get(field.name, NUMBER) for field in RECORDS[log][word].fields]
        for place, (_, wrong) in enumerate(texts):
            for other in (*wrong, "x", "00"):
                fields = [other if at == place else right for at, (right, _) in enumerate(texts)]
                beside.session(beside.recording(**{log: [*MOVED.get(log, ()), " ".join([word, *fields])]}))

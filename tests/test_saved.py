"""An answer that goes to a file, by `-o FILE`: the file has all of it, or stays as it was.

What goes to a file is what goes to standard output without the option, and for a migration, whose records depend on its
threads, what `check` says `yes` to.
"""
import errno
import os
import resource
import shutil
import signal
import stat
import subprocess

import pytest
from cases import count, same

TOP = os.path.dirname(os.path.dirname(os.path.realpath(__file__)))

STEPS = f"{TOP}/examples/lost-and-repeated"
SCRIPT = f"{TOP}/examples/migrated/script"

# How a recording of one page begins.
RECORDING = b"postcopy-session 1\npages 1\ncells 1\ninit 0\n"

# What is told where the lines of a window and its session are to go to one file.
ONE_FILE = b"error: --lines and --output name one file\n"

# What is told where an input would be written over, and where something else would be that is there.
READ = b"error: %s names a file that the command reads: name another\n"
THERE = b"error: %s names %s: remove it first, or name another\n"
RECORDED = b"a file of a recorder"

# Where bindings/c/tests/refusing.c tells how many calls there were.
COUNTS = 99


class Run:
    """The program in a room of its own, the library that refuses calls, and how many races are run."""

    def __init__(self, program, room, library, races=300):
        self.program, self.room, self.library, self.races = program, room, library, races

    def __call__(self, *words, stdin=b"", at=None, **more):
        child = subprocess.run([self.program, *words], cwd=at or self.room, input=stdin, capture_output=True, **more)
        return child.returncode, child.stdout, child.stderr

    def counted(self, what, *words):
        """What comes of words where these calls of the system are refused, and how many calls of each kind there were."""
        with open(f"{self.room}/counts", "w+b") as counts:
            os.dup2(counts.fileno(), COUNTS)
            found = self(*words, env={"LD_PRELOAD": self.library, "REFUSING": what}, pass_fds=(COUNTS,))
            os.close(COUNTS)
            counts.seek(0)
            return found, [int(word) for word in counts.read().split()]

    def refusing(self, what, *words):
        """The same, with how many calls for memory there were."""
        found, counts = self.counted(what, *words)
        return found, (counts or [0])[0]

    def has(self, name):
        """What a file of the room has; None where it is not there."""
        try:
            with open(f"{self.room}/{name}", "rb") as file:
                return file.read()
        except FileNotFoundError:
            return None

    def put(self, name, text):
        with open(f"{self.room}/{name}", "wb") as file:
            file.write(text)

    def link(self, name):
        """A device under a name of the room: a wrong program may put a file in its place, and the device stays."""
        os.symlink(f"/dev/{name}", f"{self.room}/{name}")
        return name


def steps_words(*options):
    return ("steps", *options, f"{STEPS}/script", f"{STEPS}/events")


def a_new_file(run):
    plain = run(*steps_words())
    yield "without the option", plain[0], 0
    for options in (("-o", "new"), ("-onew",), ("--output", "new"), ("--output=new",)):
        yield f"{options}", run(*steps_words(*options)), (0, b"", b"")
        yield f"the file of {options}", run.has("new"), plain[1]
        os.remove(f"{run.room}/new")
    yield "after the names", run("steps", f"{STEPS}/script", f"{STEPS}/events", "-o", "new"), (0, b"", b"")
    yield "the file of an option after the names", run.has("new"), plain[1]


def an_old_file(run):
    run.put("old", b"what was there before, which is longer than nothing\n" * 100)
    yield "over an old file", run(*steps_words("-o", "old")), (0, b"", b"")
    yield "the old file", run.has("old"), run(*steps_words())[1]


def the_users_own(run):
    """A file of the user's own is no draft, whatever its name is, and no link is followed to another."""
    run.put("new.part", b"what the user has there\n")
    run.put("victim", b"what the user has behind a link\n")
    os.symlink("victim", f"{run.room}/linked.part")
    for name in ("new", "linked"):
        yield f"over {name}", run(*steps_words("-o", name)), (0, b"", b"")
        yield f"the file {name}", run.has(name), run(*steps_words())[1]
    yield "the user's own file", run.has("new.part"), b"what the user has there\n"
    yield "the user's own file behind a link", run.has("victim"), b"what the user has behind a link\n"
    yield "the user's own link", os.readlink(f"{run.room}/linked.part"), "victim"
    yield "no other files", sorted(os.listdir(run.room)), ["linked", "linked.part", "new", "new.part", "victim"]


def who_may_read(run):
    """The permissions of a file that is there stay, and no other bit of its mode; those of a new one are left to the process's mask."""
    for mask, name, mode in ((0o22, "plain", 0o644), (0o77, "private", 0o600), (0, "open", 0o666)):
        yield f"a new file under the mask {mask:o}", run(*steps_words("-o", name), umask=mask), (0, b"", b"")
        yield f"its mode under the mask {mask:o}", stat.S_IMODE(os.stat(f"{run.room}/{name}").st_mode), mode
    for mode in (0o600, 0o640, 0o664, 0o755, 0o444):
        run.put("old", b"what was there\n")
        os.chmod(f"{run.room}/old", mode)
        yield f"over a file of mode {mode:o}", run(*steps_words("-o", "old"), umask=0o22), (0, b"", b"")
        yield f"the mode {mode:o}", stat.S_IMODE(os.stat(f"{run.room}/old").st_mode), mode
        yield f"the file of mode {mode:o}", run.has("old"), run.has("plain")
        os.remove(f"{run.room}/old")
    for mode in (0o4755, 0o2750, 0o1644):
        run.put("old", b"what was there\n")
        os.chmod(f"{run.room}/old", mode)
        yield f"over a file of mode {mode:o}", run(*steps_words("-o", "old"), umask=0o22), (0, b"", b"")
        yield f"what is left of the mode {mode:o}", stat.S_IMODE(os.stat(f"{run.room}/old").st_mode), mode & 0o777
        os.remove(f"{run.room}/old")


def who_owns_it(run):
    """The owner and the group of a file that is there stay where the process may give them, as the superuser's may."""
    if os.geteuid() != 0:
        return
    run.put("old", b"what was there\n")
    os.chmod(f"{run.room}/old", 0o640)
    os.chown(f"{run.room}/old", 12345, 23456)
    yield "over another's file", run(*steps_words("-o", "old")), (0, b"", b"")
    found = os.stat(f"{run.room}/old")
    yield "another's file", (found.st_uid, found.st_gid, stat.S_IMODE(found.st_mode)), (12345, 23456, 0o640)
    run.put("old", b"what was there\n")
    os.chown(f"{run.room}/old", os.geteuid(), 23456)
    yield "over a file of one's own, of another group", run(*steps_words("-o", "old")), (0, b"", b"")
    found = os.stat(f"{run.room}/old")
    yield "a file of one's own, of another group", (found.st_uid, found.st_gid, stat.S_IMODE(found.st_mode)), (os.geteuid(), 23456, 0o640)


def by_another(run, mode):
    """What comes of an answer to a file of the superuser's, in a folder of this mode, by another user, who is also of the file's group."""
    program = shutil.copy(run.program, f"{run.room}/program")
    for name in ("script", "events"):
        shutil.copy(f"{STEPS}/{name}", run.room)
    os.mkdir(f"{run.room}/all")
    run.put("all/old", b"as it was\n")
    os.chown(f"{run.room}/all/old", 0, 23456)
    for name, bits in ((".", 0o755), ("all", mode), ("all/old", 0o664)):
        os.chmod(f"{run.room}/{name}", bits)
    other = {"user": 65534, "group": 65534, "extra_groups": [23456]}
    child = subprocess.run([program, "steps", "-o", "all/old", "script", "events"], cwd=run.room, capture_output=True, **other)
    return child.returncode, child.stdout, child.stderr


def whose_group_it_is(run):
    """Where the process may not give the owner of a file that is there, it gives the group, if it is of that."""
    if os.geteuid() != 0:
        return
    yield "over a file of the superuser's", by_another(run, 0o777), (0, b"", b"")
    found = os.stat(f"{run.room}/all/old")
    yield "its owner, its group and its mode", (found.st_uid, found.st_gid, stat.S_IMODE(found.st_mode)), (65534, 23456, 0o664)


def a_name_that_is_not_given(run):
    """A text that may not get its name, as nobody else's file may be replaced in a folder such as /tmp, is gone."""
    if os.geteuid() != 0:
        return
    yield "over the superuser's file in such a folder", by_another(run, 0o1777), (3, b"", b"output\nall/old: permission denied\n")
    yield "the file that stays", run.has("all/old"), b"as it was\n"
    yield "no other files there", os.listdir(f"{run.room}/all"), ["old"]


def a_strangers_link(run):
    """In a folder that all may write to, such as /tmp, a link is followed only if it belongs to the user or to the folder's owner."""
    if os.geteuid() != 0:
        return
    os.mkdir(f"{run.room}/all")
    refused = (3, b"", b"output\n%s: permission denied\n")
    for mode, folder, link, is_followed in ((0o1777, 0, 65534, False), (0o1777, 12345, 65534, False), (0o1777, 12345, 12345, True), (0o1777, 12345, 0, True),
                                            (0o777, 0, 65534, True), (0o1755, 0, 65534, True), (0o1775, 0, 65534, True)):
        os.chmod(f"{run.room}/all", mode)
        os.chown(f"{run.room}/all", folder, folder)
        for name, leads_to in (("link", "../victim"), ("to-none", "../none"), ("again", "link")):
            run.put("victim", b"as it was\n")
            for at in ("link", name):
                if os.path.lexists(f"{run.room}/all/{at}"):
                    os.remove(f"{run.room}/all/{at}")
                os.symlink(leads_to if at == name else "../victim", f"{run.room}/all/{at}")
                os.chown(f"{run.room}/all/{at}", link, link, follow_symlinks=False)
            found = run(*steps_words("-o", f"all/{name}"))
            file = "none" if name == "to-none" else "victim"
            what = f"a link {name} of {link} in a folder of {folder} with the mode {mode:o}"
            yield what, found, (0, b"", b"") if is_followed else (refused[0], refused[1], refused[2] % f"all/{name}".encode())
            yield f"behind {what}", (run.has(file) or b"")[:9], b"postcopy-" if is_followed else b"" if file == "none" else b"as it was"
            if run.has("none"):
                os.remove(f"{run.room}/none")


def swapped(run, **more):
    """What comes of a report over a file of another user's, in that user's folder, and who owns a file of the superuser's then."""
    folder = f"{run.room}/theirs"
    if os.path.lexists(f"{folder}/report"):
        os.remove(f"{folder}/report")
    run.put("theirs/report", b"as it was\n")
    os.chown(f"{folder}/report", 65534, 65534)
    os.chown(f"{run.room}/victim", 0, 0)
    found = run("audit", "--quiet", f"{TOP}/examples/handover/session", "-o", "theirs/report", **more)
    victim = os.stat(f"{run.room}/victim")
    return found, (victim.st_uid, victim.st_gid, stat.S_IMODE(victim.st_mode), run.has("victim"))


def a_swapped_draft(run):
    """Whoever owns the folder of a file can put a link in the place of what is written to it: nothing of what the link leads to changes."""
    if os.geteuid() != 0:
        return
    os.mkdir(f"{run.room}/theirs")
    os.chown(f"{run.room}/theirs", 65534, 65534)
    run.put("victim", b"the superuser's\n")
    os.chmod(f"{run.room}/victim", 0o600)
    kept = (0, 0, 0o600, b"the superuser's\n")
    env = {"LD_PRELOAD": run.library, "SWAPPED": f"{run.room}/victim"}
    yield "a draft that is swapped at once", swapped(run, env=env), ((0, b"", b""), kept)
    yield "the link that took its place", os.readlink(f"{run.room}/theirs/report"), f"{run.room}/victim"
    racer = f"{run.room}/racer"
    subprocess.run(["cc", "-O2", "-o", racer, f"{TOP}/bindings/c/tests/swapping.c"], check=True)
    os.chmod(run.room, 0o755)
    racing = subprocess.Popen([racer, f"{run.room}/theirs", f"{run.room}/victim"], user=65534, group=65534, extra_groups=[])
    try:
        for turn in range(run.races):
            found, victim = swapped(run)
            yield f"a race, turn {turn}", (found[0] in (0, 3), victim), (True, kept)
    finally:
        racing.kill()
        racing.wait()
    for name in os.listdir(f"{run.room}/theirs"):
        if os.path.islink(f"{run.room}/theirs/{name}"):
            os.remove(f"{run.room}/theirs/{name}")


def a_link(run):
    """A link to a file stays, and the file that it leads to gets the text; so does a new file where a link leads to none."""
    text = run(*steps_words())[1]
    for folder in ("far", "other"):
        os.mkdir(f"{run.room}/{folder}")
    run.put("far/old", b"what was there\n")
    links = (("link", "far/old"), ("other/again", "../link"), ("whole", f"{run.room}/far/whole"), ("none", "far/new"))
    for name, leads_to in links:
        os.symlink(leads_to, f"{run.room}/{name}")
    for name, leads_to, file in (*((*link, "far/old") for link in links[:2]), (*links[2], "far/whole"), (*links[3], "far/new")):
        yield f"through {name}", run(*steps_words("-o", name)), (0, b"", b"")
        yield f"the link {name}", os.readlink(f"{run.room}/{name}"), leads_to
        yield f"the file behind {name}", run.has(file), text
        run.put("far/old", b"what was there\n")
    yield "the files behind links", sorted(os.listdir(f"{run.room}/far")), ["new", "old", "whole"]
    os.symlink("round", f"{run.room}/round")
    yield "a link to itself", run(*steps_words("-o", "round")), (3, b"", b"output\nround: its path has too many symbolic links\n")


def many_links(run):
    """As many links are followed as the system follows, or nearly: a longer chain is told."""
    for number in range(1, 42):
        os.symlink(f"chain-{number - 1}", f"{run.room}/chain-{number}")
    yield "through 39 links", run(*steps_words("-o", "chain-39")), (0, b"", b"")
    yield "the file behind 39 links", run.has("chain-0"), run(*steps_words())[1]
    run.put("chain-0", b"as it was\n")
    yield "through 41 links", run(*steps_words("-o", "chain-41")), (3, b"", b"output\nchain-41: its path has too many symbolic links\n")
    yield "the file behind 41 links", run.has("chain-0"), b"as it was\n"


def two_writers(run):
    """Two that write one file at once: the file has the text of one of them, and each ends well."""
    texts = []
    for name, guest in (("a", b"guest 0\n"), ("b", b"guest 1\nw 0 0 0 1\n")):
        run.put(name, RECORDING.replace(b"pages 1\n", b"pages 40000\n") + guest + b"source 0\nlink 0\npager 0\nend\n")
        status, text, _ = run("audit", name)
        texts.append(text)
        yield f"the report on {name}", (status, len(text) > 500_000), (0, True)
    for turn in range(30):
        writers = [subprocess.Popen([run.program, "audit", "-o", "shared", name], cwd=run.room, stderr=subprocess.DEVNULL) for name in ("a", "b")]
        yield f"two writers, turn {turn}", [writer.wait() for writer in writers], [0, 0]
        yield f"the file of two writers, turn {turn}", run.has("shared") in texts, True


def two_names(run):
    """The lines of a window and its session go to two files: one that both words name is refused, and nothing is written."""
    run.put("recording", RECORDING + b"guest 0\nsource 0\nlink 0\npager 0\nend\n")
    session = run("window", "recording", "0", "1")[1]
    os.mkdir(f"{run.room}/folder")
    os.symlink("new", f"{run.room}/link")
    os.symlink("folder", f"{run.room}/other")
    run.put("old", b"as it was\n")
    one = (("new", "new"), ("old", "old"), ("new", "./new"), ("old", f"{run.room}/old"), ("link", "new"), ("folder/new", "other/new"),
           ("folder/../new", "new"), ("/dev/null", "/dev/null"))
    before = sorted(os.listdir(run.room))
    for lines, output in (*one, *(names[::-1] for names in one)):
        status, told, errors = run("window", "--lines", lines, "-o", output, "recording", "0", "1")
        yield f"one file for {lines} and {output}", (status, told, errors), (2, b"", ONE_FILE)
    yield "the old file", run.has("old"), b"as it was\n"
    yield "no new files", sorted(os.listdir(run.room)), before
    yield "two files", run("window", "--lines", "lines", "-o", "session", "recording", "0", "1"), (0, b"", b"")
    yield "the session", run.has("session"), session
    yield "its lines", run.has("lines"), b"".join(b"%d\n" % line for line in range(1, session.count(b"\n") + 1))
    yield "the same name in two folders", run("window", "--lines", "folder/both", "-o", "both", "recording", "0", "1"), (0, b"", b"")
    yield "the lines in another folder", run.has("folder/both"), run.has("lines")


def a_limit_on_files(run):
    """A limit on the size of files, where whoever starts the program has set its signal aside."""
    def limit():
        signal.signal(signal.SIGXFSZ, signal.SIG_IGN)
        resource.setrlimit(resource.RLIMIT_FSIZE, (100, 100))
    run.put("old", b"as it was\n")
    yield "a file that is too large", run(*steps_words("-o", "old"), preexec_fn=limit, restore_signals=False), (3, b"", b"output\nold: the file would be too large\n")
    yield "the file that stays", run.has("old"), b"as it was\n"


def lines_of_nothing(run):
    """Where the session goes nowhere, the file of its lines stays as it was."""
    run.put("recording", RECORDING + b"guest 0\nsource 0\nlink 0\npager 0\nend\n")
    run.put("lines", b"as it was\n")
    for output, why in (("not-there/new", "no such file or directory"), (run.link("full"), "no space left on the device")):
        wanted = (3, b"", f"output\n{output}: {why}\n".encode())
        yield f"no session in {output}", run("window", "--lines", "lines", "-o", output, "recording", "0", "1"), wanted
        yield f"the lines of no session in {output}", run.has("lines"), b"as it was\n"


def a_refused_script(run):
    run.put("kept", b"as it was\n")
    run.put("no-script", b"nothing\n")
    refused = run("steps", "no-script", f"{STEPS}/events")
    yield "a refused script", refused[:2], (1, b"script-text line 1\n")
    yield "a refused script with the option", run("steps", "-o", "kept", "no-script", f"{STEPS}/events"), refused
    yield "the file that stays", run.has("kept"), b"as it was\n"
    yield "a refused script and a new file", run("steps", "-o", "none", "no-script", f"{STEPS}/events"), refused
    yield "the file that is not made", run.has("none"), None


def no_text(run):
    run.put("kept", b"as it was\n")
    yield "a script that is not there", run("migrate", "-o", "kept", "not-there"), (3, b"", b"file not-there\nnot-there: no such file or directory\n")
    yield "the file that stays where nothing was read", run.has("kept"), b"as it was\n"


def no_place(run):
    def failed(name, why):
        return (3, b"", f"output\n{name}: {why}\n".encode())

    yield "a folder that is not there", run(*steps_words("-o", "not-there/new")), failed("not-there/new", "no such file or directory")
    os.mkdir(f"{run.room}/folder")
    yield "a folder", run(*steps_words("-o", "folder")), failed("folder", "it is a directory")
    yield "the folder", os.listdir(f"{run.room}/folder"), []
    yield "a full device", run(*steps_words("-o", run.link("full"))), failed("full", "no space left on the device")
    yield "no name", run(*steps_words("-o", "")), failed("", "no such file or directory")


def a_device(run):
    yield "a device", run(*steps_words("-o", run.link("null"))), (0, b"", b"")
    yield "the device", stat.S_ISCHR(os.stat(f"{run.room}/null").st_mode), True
    yield "standard output by its name", run(*steps_words("-o", run.link("stdout")))[:2], run(*steps_words())[:2]
    run.put("log", b"what was there\n")
    with open(f"{run.room}/log", "ab") as log:
        child = subprocess.run([run.program, *steps_words("-o", "stdout")], cwd=run.room, stdout=log, stderr=subprocess.PIPE)
    yield "standard output that is a file", (child.returncode, child.stderr), (0, b"")
    yield "the file goes on", run.has("log"), b"what was there\n" + run(*steps_words())[1]
    yield "the link to standard output", os.readlink(f"{run.room}/stdout"), "/dev/stdout"


def recorded(run, folder, pages):
    """The files of a recording of so many pages, each of which is sent, placed, seen and read."""
    logs = {
        "machine": [f"pages {pages} 1", *(f"page {page} {page + 1:016x}" for page in range(pages))],
        "guest": ["halt", "resume 1", *(record for page in range(pages) for record in (f"see {3 + 2 * page}", f"r 0 {page} 0 {page + 1}"))],
        "source": ["halted 0", "state", *(f"send {page} {page + 1:016x}" for page in range(pages))],
        "pager": ["got-sent 1", "ready", *(record for page in range(pages) for record in (f"got-sent {2 + page}", f"place {page} {2 + 2 * page} {page + 1:016x}"))],
    }
    os.mkdir(f"{run.room}/{folder}")
    run.put(f"{folder}/recording-name", b"long\n")
    for log, records in logs.items():
        text = "".join(f"{number} {record}\n" for number, record in enumerate(records))
        run.put(f"{folder}/{log}.1.0", f"postcopy-records 1\nrecording long\nlog {log} 0 0\n{text}end {len(records)}\n".encode())
    return folder


def a_recorders_file(run):
    """No answer is written over a file of a recorder, by whatever name, as where the session's own was left out."""
    folder = recorded(run, "whole", 3)
    guest, told = run.has(f"{folder}/guest.1.0"), (2, b"", THERE % (b"--output", RECORDED))
    run.put("recording", run("session", folder)[1])
    run.put("cut", b"postcopy-records 1")
    os.symlink(f"{folder}/guest.1.0", f"{run.room}/link")
    for words in (("session", folder), ("audit", folder), ("explain", folder), steps_words(), ("window", "recording", "0", "1")):
        for name in (f"{folder}/guest.1.0", f"./{folder}/../{folder}/guest.1.0", "link", "cut"):
            yield f"{words[0]} over {name}", run(*words, "-o", name), told
    os.mkdir(f"{run.room}/named")
    run.put("named/recording-name", b"one\n")
    os.symlink("named/recording-name", f"{run.room}/to-the-name")
    for words in (("session", folder), ("audit", folder)):
        for place, name in ((run.room, "named/recording-name"), (f"{run.room}/named", "recording-name"), (run.room, "to-the-name")):
            target = os.path.relpath(f"{run.room}/{folder}", place)
            yield f"{words[0]} over {name}", run(words[0], target, "-o", name, at=place), told
    yield "the recording's name", run.has("named/recording-name"), b"one\n"
    yield "a name that only ends so", run("session", folder, "-o", "named/a-recording-name"), (0, b"", b"")
    for name, text in (("guest.1.0", b""), ("machine.23.456", b""), ("lane.1.0", bytes(100))):
        run.put(f"named/{name}", text)
        os.symlink(f"named/{name}", f"{run.room}/begun")
        for begun in (f"named/{name}", "begun"):
            yield f"over {begun}, which is {name} before its first line", (run("audit", folder, "-o", begun), run.has(begun)), (told, text)
        os.remove(f"{run.room}/begun")
    for name, text in (("guest.1", b""), ("guests.1.0", b""), ("guest.1.0.txt", b""), ("guest.2.0", b"clean\n"), ("new", b"")):
        run.put(f"named/{name}", text)
        yield f"over {name}, which is no recorder's", run("audit", folder, "-o", f"named/{name}"), (0, b"", b"")
    shutil.rmtree(f"{run.room}/named")
    os.remove(f"{run.room}/to-the-name")
    yield "the table of lines", run("window", "recording", "0", "1", "--lines", "link"), (2, b"", THERE % (b"--lines", RECORDED))
    yield "the recorder's file", run.has(f"{folder}/guest.1.0"), guest
    yield "another", run.has("cut"), b"postcopy-records 1"
    yield "no new files", sorted(os.listdir(run.room)), ["cut", "link", "recording", folder]


# What begins as a text does that tells of a migration, in each of its versions and in one to come, and what it is told as.
BEGUN = ((b"session 1", b"a session"), (b"session 2", b"a session"), (b"session 3", b"a session"), (b"session 4", b"a session"),
         (b"certificate 1", b"a certificate"), (b"certificate 2", b"a certificate"), (b"certificate 3", b"a certificate"), (b"runs 1", b"a text of runs"),
         (b"script 1", b"a script"), (b"script 2", b"a script"), (b"events 1", b"a list of events"), (b"records 1", RECORDED), (b"records 2", RECORDED))

# What may be replaced: what commands tell, and what is no text of theirs.
REPLACED = (b"", b"\n", b"clean\npostcopy-certificate 1\n", b"faulty line 13 early\npostcopy-runs 1\n", b"shape line 9 phases\n", b"incomplete halt\n", b"yes\n",
            b'{"verdict":"clean"}\n', b"<svg xmlns", b"1\n2\n3\n", b"postcopy-recorded 1\n", b"postcopy-session", b" postcopy-session 1\n")


def a_text_that_is_there(run):
    """A text that tells of a migration stays, whoever would write over it: its first line says what it is."""
    shutil.copy(f"{TOP}/examples/handover/session", f"{run.room}/session")
    shutil.copy(f"{TOP}/examples/handover/certificate", f"{run.room}/certificate")
    shutil.copy(SCRIPT, f"{run.room}/script")
    commands = (("audit", "session"), ("audit", "session", "session"), ("explain", "session"), ("certify", "session"), ("draw", "session"), ("check", "session", "certificate"),
                ("replay", "session", "certificate"), ("migrate", "script"), ("window", "session", "0", "1"), steps_words())
    for number, (begun, what) in enumerate(BEGUN):
        text = b"postcopy-" + begun + b"\nmine\n"
        run.put("there", text)
        for words in (commands[number % len(commands)], commands[0]):
            yield f"{words} over {begun}", (run(*words, "-o", "there"), run.has("there")), ((2, b"", THERE % (b"--output", what)), text)
        found = run("window", "session", "0", "1", "--lines", "there", "-o", "new")
        yield f"lines over {begun}", (found, run.has("there"), run.has("new")), ((2, b"", THERE % (b"--lines", what)), text, None)
    for words in commands:
        run.put("there", b"postcopy-session 1")
        yield f"{words} over a session", (run(*words, "-o", "there"), run.has("there")), ((2, b"", THERE % (b"--output", b"a session")), b"postcopy-session 1")
    for text in REPLACED:
        run.put("there", text)
        yield f"over {text}", (run("audit", "--quiet", "session", "-o", "there"), run.has("there")), ((0, b"", b""), b"clean\n")
        run.put("there", text)
        yield f"lines over {text}", (run("window", "session", "0", "1", "--lines", "there")[0], run.has("there")[:4]), (0, b"1\n2\n")


def inputs_of(words):
    """Words with the option for an output before or behind them, in each form, and the option that is told: for each word of them that is
    a letter, which names a file that they read."""
    forms = (("-o", "{}"), ("-o{}",), ("--output", "{}"), ("--output={}",))
    if words[0] == "window":
        forms += (("--lines", "{}"), ("--lines={}",))
    for name in (it for it in words if len(it) == 1 and it.isupper()):
        for form in forms:
            yield (*words, *form), name, b"--lines" if "lines" in form[0] else b"--output"
            yield (words[0], *form, *words[1:]), name, b"--lines" if "lines" in form[0] else b"--output"


def an_input(run):
    """What a command reads stays, by whatever link it is named: nothing is read, and nothing written. What stands in it is never looked at."""
    for name in "ABCD":
        run.put(name, b"the user's own " + name.encode())
    os.mkdir(f"{run.room}/folder")
    for name in "AB":
        os.symlink(name, f"{run.room}/link-{name}")
        os.symlink(f"../link-{name}", f"{run.room}/folder/again-{name}")
        os.link(f"{run.room}/{name}", f"{run.room}/hard-{name}")
    before = {name: run.has(name) for name in os.listdir(run.room) if name != "folder"}
    for words in (("audit", "A"), ("audit", "C", "A", "B"), ("audit", "--format", "json", "A"), ("explain", "A"), ("explain", "--lines", "B", "A"), ("certify", "A"),
                  ("draw", "A"), ("draw", "A", "B"), ("check", "A", "B"), ("replay", "A", "B"), ("steps", "A", "B"), ("migrate", "A"), ("window", "A", "0", "1"),
                  ("session", "A"), ("session", "B", "A")):
        for asked, name, option in inputs_of(words):
            yield f"{asked} of {name}", run(*(it.format(name) for it in asked)), (2, b"", READ % option)
        for name in (it for it in words if it in ("A", "B")):
            for other in (f"./{name}", f"folder/../{name}", f"{run.room}/{name}", f"link-{name}", f"folder/again-{name}", f"hard-{name}"):
                yield f"{words} over {other}", run(*words, "-o", other), (2, b"", READ % b"--output")
                yield f"{words} of {other}", run(*(other if it == name else it for it in words), "-o", name), (2, b"", READ % b"--output")
    yield "the window's lines by a link", run("window", "A", "0", "1", "--lines", "folder/again-A", "-o", "new"), (2, b"", READ % b"--lines")
    for words in (("audit", "none"), ("audit", "./none"), ("check", "A", "folder/../none")):
        yield f"{words} of what is not there", run(*words, "-o", "none"), (2, b"", READ % b"--output")
    for words in (("audit", "-"), ("audit", "/dev/stdin"), ("check", "B", "-"), ("window", "/dev/fd/0", "0", "1")):
        with open(f"{run.room}/A", "rb") as file:
            child = subprocess.run([run.program, *words, "-o", "hard-A"], cwd=run.room, stdin=file, capture_output=True)
        yield f"{words} of standard input", (child.returncode, child.stdout, child.stderr), (2, b"", READ % b"--output")
    yield "what is there", {name: run.has(name) for name in os.listdir(run.room) if name != "folder"}, before
    yield "a device", run("audit", "/dev/null", "-o", "/dev/null"), (1, b"", run("audit", "/dev/null")[2])


def least_memory(run, *words):
    """The least limit on the address space, in MiB, under which the program does what it is asked for."""
    def is_enough(mebibytes):
        def limit():
            resource.setrlimit(resource.RLIMIT_AS, (mebibytes << 20, mebibytes << 20))
        run.put("new", b"as it was\n")
        return run(*words, preexec_fn=limit)[0] == 0

    low, high = 0, 256
    while high - low > 1:
        middle = (low + high) // 2
        low, high = (low, middle) if is_enough(middle) else (middle, high)
    return high


def a_long_answer(run):
    """An answer that is too long to be held goes to its file piece by piece, and the file has all of it or stays as it was."""
    folder = recorded(run, "long", 20000)
    plain = run("session", folder)
    yield "without the option", (plain[0], plain[2], len(plain[1]) > 2 << 20), (0, b"", True)
    yield "a new file", (run("session", folder, "-o", "new"), run.has("new")), ((0, b"", b""), plain[1])
    run.put("old", b"as it was\n")
    os.chmod(f"{run.room}/old", 0o640)
    os.symlink("old", f"{run.room}/link")
    yield "an old file behind a link", (run("session", folder, "-o", "link", umask=0o22), run.has("old")), ((0, b"", b""), plain[1])
    yield "its mode", stat.S_IMODE(os.stat(f"{run.room}/old").st_mode), 0o640
    yield "the link", os.readlink(f"{run.room}/link"), "old"
    yield "a device", (run("session", folder, "-o", run.link("null")), stat.S_ISCHR(os.stat(f"{run.room}/null").st_mode)), ((0, b"", b""), True)
    yield "a folder that is not there", run("session", folder, "-o", "not-there/new"), (3, b"", b"output\nnot-there/new: no such file or directory\n")

    def limit():
        signal.signal(signal.SIGXFSZ, signal.SIG_IGN)
        resource.setrlimit(resource.RLIMIT_FSIZE, (1500000, 1500000))

    run.put("old", b"as it was\n")
    yield "a file that is too large", run("session", folder, "-o", "old", preexec_fn=limit, restore_signals=False), (3, b"", b"output\nold: the file would be too large\n")
    yield "the file that stays", run.has("old"), b"as it was\n"
    os.remove(f"{run.room}/long/source.1.0")
    status, output, errors = run("session", folder, "-o", "old")
    yield "a recording that is not whole", (status, output, errors != b"", run.has("old")), (1, b"", True, b"as it was\n")
    yield "no other files", sorted(os.listdir(run.room)), ["link", "long", "new", "null", "old"]


def a_long_list(run):
    """A list of which a session cannot be read goes to standard output however long it is, as without the option."""
    run.put("session", open(f"{TOP}/examples/handover/session", "rb").read())
    names = ["./" * 400 + "session"] * 1400 + ["not-there"]
    plain = run("audit", *names)
    yield "without the option", (plain[0], plain[2], len(plain[1]) > 1 << 20), (3, b"file not-there\nnot-there: no such file or directory\n", True)
    yield "with it", run("audit", "-o", "new", *names), plain
    yield "no file of it", run.has("new"), None
    yield "a folder that is not there", run("audit", "-o", "not-there/new", *names), (3, b"", plain[2] + b"output\nnot-there/new: no such file or directory\n")


def a_write_that_fails(run):
    """Where one write of a long answer fails, whichever it is, and those after it do not, the file stays as it was."""
    folder = recorded(run, "long", 20000)
    plain, found = run("session", folder, "-o", "new"), run.has("new")
    run.put("new", b"as it was\n")
    _, (_, _, writes, *_) = run.counted("-", "session", folder, "-o", "new")
    yield "the writes of a long answer", (plain, writes > 3), ((0, b"", b""), True)
    for number in range(1, writes + 1):
        run.put("new", b"as it was\n")
        yield f"write {number}", run.refusing(f"write {number} {number} {errno.ENOSPC}", "session", folder, "-o", "new")[0], (3, b"", b"output\nnew: no space left on the device\n")
        yield f"the file of write {number}", run.has("new"), b"as it was\n"
        yield f"write {number} that is interrupted", (run.refusing(f"write {number} {number} {errno.EINTR}", "session", folder, "-o", "new")[0], run.has("new")), ((0, b"", b""), found)
    yield "no other files", sorted(os.listdir(run.room)), ["counts", "long", "new"]


def a_long_answer_whose_lines_go_nowhere(run):
    """Nothing is left of a long answer whose lines cannot be written."""
    pages = b"".join(b"page %d %s\n" % (page, b"0123456789abcdef" * 512) for page in range(140))
    run.put("recording", b"postcopy-session 1\npages 140\ncells 512\ninit 140\n" + pages + b"guest 0\nsource 0\nlink 0\npager 0\nend\n")
    run.put("new", b"as it was\n")
    words = ("window", "--lines", "not-there/lines", "-o", "new", "recording", "0", "140")
    yield "lines in a folder that is not there", (run(*words), run.has("new")), ((3, b"", b"output\nnot-there/lines: no such file or directory\n"), b"as it was\n")
    yield "no other files", sorted(os.listdir(run.room)), ["new", "recording"]
    words = ("window", "--lines", run.link("full"), "-o", "new", "recording", "0", "140")
    yield "lines to a full device", (run(*words), run.has("new")), ((3, b"", b"output\nfull: no space left on the device\n"), b"as it was\n")
    yield "no other files then", sorted(os.listdir(run.room)), ["full", "new", "recording"]
    plain = run("window", "recording", "0", "140")
    yield "the long window", (plain[0], len(plain[1]) > 1 << 20), (0, True)


def a_long_answer_that_gets_no_name(run):
    """Nothing is left of a long answer where a session of several cannot be read."""
    reads = b"".join(b"r 0 %d 0 0\n" % page for page in range(6_000))
    run.put("session", b"postcopy-session 1\npages 6000\ncells 1\ninit 0\nguest 6002\nhalt\nresume 1\n" + reads + b"source 2\nhalted 0\nstate\nlink 1\ndown 1\npager 2\ngot 0\nready\nend\n")
    run.put("new", b"as it was\n")
    status, output, errors = run("audit", "--all", "--format", "json", "-o", "new", *["session"] * 5, "not-there")
    yield "five sessions of many faults, and one that is not there", (status, errors, run.has("new")), (3, b"file not-there\nnot-there: no such file or directory\n", b"as it was\n")
    yield "no other files", sorted(os.listdir(run.room)), ["new", "session"]
    yield "their list", (len(output) > 1 << 20, output.count(b'{"file":"session"'), output.count(b'{"page":')), (True, 5, 30_000)


def a_long_answer_in_little_memory(run):
    """A long answer that goes to a file takes hardly more memory than one that goes to standard output."""
    folder = recorded(run, "long", 100000)
    plain, saved = least_memory(run, "session", folder), least_memory(run, "session", folder, "-o", "new")
    size = len(run("session", folder)[1]) >> 20
    yield f"{plain} and {saved} MiB for a text of {size} MiB", saved <= plain + 4 < plain + size // 2 < 256, True


def a_migration(run):
    yield "a migration", run("migrate", SCRIPT, "-o", "both"), (0, b"", b"")
    yield "the check of it", run(stdin=run.has("both")), (0, b"yes\n", b"")


def other_commands(run):
    """A report goes to the file also where it is not that all is well; what is no certificate and no picture goes to standard output."""
    clean, faulty = f"{TOP}/examples/handover", f"{TOP}/examples/early-access/session"
    run.put("no-session", b"nothing\n")
    for words in (("audit", f"{clean}/session"), ("audit", faulty), ("audit", f"{clean}/session", faulty), ("audit", "--format", "json", faulty), ("audit", "no-session"),
                  ("explain", faulty), ("check", f"{clean}/session", f"{clean}/session"), ("replay", f"{clean}/session", "no-session"),
                  ("certify", f"{clean}/session"), ("draw", f"{clean}/session")):
        plain = run(*words)
        yield f"{words} into a file", run(*words, "-o", "new"), (plain[0], b"", plain[2])
        yield f"the file of {words}", run.has("new"), plain[1]
        os.remove(f"{run.room}/new")
    for words in (("certify", faulty), ("draw", "no-session")):
        plain = run(*words)
        yield f"{words} into no file", run(*words, "-o", "new"), plain
        yield f"the status of {words}", plain[0], 1
        yield f"no file of {words}", run.has("new"), None
    yield "a session that is not there", run("audit", "-o", "new", "not-there"), (3, b"", b"file not-there\nnot-there: no such file or directory\n")
    yield "no file of no session", run.has("new"), None


ALL = (a_new_file, an_old_file, the_users_own, who_may_read, who_owns_it, whose_group_it_is, a_name_that_is_not_given, a_strangers_link, a_swapped_draft, a_link, many_links, two_writers, two_names, a_limit_on_files, lines_of_nothing,
       a_refused_script, no_text, no_place, a_device, a_recorders_file, a_text_that_is_there, an_input, a_long_answer, a_write_that_fails, a_long_answer_whose_lines_go_nowhere, a_long_answer_that_gets_no_name, a_long_list,
       a_long_answer_in_little_memory,
       a_migration, other_commands)


# How many cases each has at least.
LEAST = {other_commands: 28, a_link: 14, two_writers: 62, two_names: 23, who_may_read: 27, the_users_own: 8, a_new_file: 11, a_device: 6, a_recorders_file: 34, a_long_answer: 11, a_write_that_fails: 13, a_long_answer_whose_lines_go_nowhere: 5, a_long_answer_that_gets_no_name: 3, a_long_list: 4}


@pytest.mark.parametrize("tested", [pytest.param(it, marks=pytest.mark.cases(LEAST.get(it, 1)), id=it.__name__) for it in ALL])
def test_saved(program, room, refusing, pytestconfig, tested):
    for case in tested(Run(program, room, refusing, 10_000 if pytestconfig.getoption("--all") else 300)):
        same(*case)
    left = [name for _, _, names in os.walk(room) for name in names if name.startswith(".")]
    if left:
        count(False, f"{tested.__name__} leaves {left}")

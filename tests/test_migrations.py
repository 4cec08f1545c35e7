"""Migrates the guests of scripts, again and again, and looks at what each run wrote.

Which records a migration makes depends on its threads. What every run has to write is looked at here: status 0 and a session
with its certificate, of which the program, given both with no word, says yes; the script's machine and its initial pages;
each virtual processor's operations, all of them and in order; of each read the value that one machine reads at that place
of the guest's log; and at the source that all is there. The link of some of the scripts loses, repeats and sends back packets.
The source pushes the page that is next by the pivots that the requests before left, with no more packets under way on their
channel than the window allows; and of each line at least as many packets are lost as its fates begin with. A link over TCP
fails where there is no network, and one in memory does not.
Where a script has a lane, that brings the pages that were pushed, each of them if it loses none and the guest has not released
the page at the target, and the link all else; some of them are taken from the lane; and `audit` says that the session is clean.
Over a link that loses and repeats nothing, the pager says at most twice that all is there: once, and once more if it looks just
before the source learns of it. The connection of a link over TCP is one of the loopback address, which no other machine reaches.
A guest whose log has no room is answered by log-full, at the source and at the target. Nothing waits for ever, or goes round for two minutes
of processor.
"""
import contextlib
import os
import random
import re
import subprocess
import tempfile

import pytest
from cases import each, leave_out, right
from guests import AFTER, BEFORE, guest_log, random_op, strays_from_the_script, wrong_read
from session_text import SessionText
from steps_model import Script, contents_of

TOP = os.path.dirname(os.path.dirname(os.path.abspath(__file__)))


# A run waits for ever where so many looks at it, each a second behind the one before, find that it has not run since, or where it has taken so
# many seconds of processor.
LOOKS, MOST = 5, 120
TICK = os.sysconf("SC_CLK_TCK")


def stat_of(task):
    """The state of a process, or of one of its threads, and for how many seconds it has run."""
    with open(f"/proc/{task}/stat", encoding="latin-1") as file:
        words = file.read().rpartition(")")[2].split()
    return words[0], (int(words[11]) + int(words[12])) / TICK


def has_run(number):
    """For how many seconds a process has run, and whether one of its threads has a processor, waits for one, or for a disk."""
    states = set()
    for thread in os.listdir(f"/proc/{number}/task"):
        with contextlib.suppress(OSError):
            states.add(stat_of(f"{number}/task/{thread}")[0])
    return stat_of(number)[1], not states.isdisjoint("RD")


def ended(words, given, **how):
    """What came of a program that reads this from a file, as subprocess.run tells it. By the clock it may take as long as it likes: the machine may have
    much else to do. (A pipe would not do: `communicate` gives none of the rest to a program that has not read all at the first look.)"""
    taken, idle = 0, 0
    with tempfile.TemporaryFile() as file:
        file.write(given)
        file.seek(0)
        with subprocess.Popen(words, stdin=file, stdout=subprocess.PIPE, stderr=subprocess.PIPE, **how) as process:
            while True:
                try:
                    told = process.communicate(timeout=1)
                    return subprocess.CompletedProcess(words, process.returncode, *told)
                except subprocess.TimeoutExpired:
                    before, (taken, is_ready) = taken, has_run(process.pid)
                    idle = 0 if is_ready or taken > before + 1 / TICK else idle + 1
                    if idle == LOOKS or taken > MOST:
                        process.kill()
                        raise


# Two virtual processors that wait for a page each, and two that wait for the same one.
WORKED = (
    "postcopy-script 1 / pages 4 / cells 1 / init 2 / page 0 0000000000000005 / page 3 0000000000000008 / pivots 1 / window 4"
    " / down - / up - / vcpus 2 / vcpu 0 2 / r 0 0 / r 3 0 / vcpu 0 1 / r 0 0 / end",
    "postcopy-script 1 / pages 2 / cells 1 / init 1 / page 1 0000000000000007 / pivots 1 / window 4"
    " / down - / up - / vcpus 2 / vcpu 0 1 / r 1 0 / vcpu 0 1 / r 1 0 / end",
)
# A page that is released at the target and then read; and one that a virtual processor waits for and another releases.
RELEASED = (
    "postcopy-script 2 / pages 1 / cells 1 / init 1 / page 0 0000000000000006 / pivots 1 / window 4"
    " / down - / up - / lanes 1 / vcpus 1 / vcpu 0 2 / z 0 / r 0 0 / end",
    "postcopy-script 2 / pages 2 / cells 1 / init 2 / page 0 0000000000000005 / page 1 0000000000000007 / pivots 1 / window 4"
    " / down " + "l" * 40 + " / up - / lanes 1 / vcpus 2 / vcpu 0 2 / r 1 0 / r 0 0 / vcpu 0 2 / z 1 / w 1 0 9 / end",
)
# A page that comes over the lane; and pages over a lane that loses, repeats and sends back, some of which are waited for.
PUSHED = (
    "postcopy-script 2 / pages 1 / cells 1 / init 1 / page 0 0000000000000006 / pivots 1 / window 4"
    " / down - / up - / lanes 2 / lane - / vcpus 1 / vcpu 0 1 / r 0 0 / end",
    "postcopy-script 2 / pages 6 / cells 1 / init 2 / page 0 0000000000000005 / page 5 0000000000000007 / pivots 1 / window 2"
    " / down dl / up r / lanes 2 / lane lrbdb / vcpus 2 / vcpu 0 2 / r 5 0 / w 0 0 9 / vcpu 1 2 / z 3 / z 1 / r 5 0 / end",
)


def script_of(pages, cells, window, fates, vcpus, version=1):
    """A script whose pages with an even number begin with contents; of each virtual processor its operations before `move` and
    after. The third fates, if there are any, are the lane's."""
    initial = [f"page {page} {contents_of([page + 1] * cells)}" for page in range(0, pages, 2)]
    lines = [f"postcopy-script {version}", f"pages {pages}", f"cells {cells}", f"init {len(initial)}"] + initial
    lines += ["pivots 4", f"window {window}", f"down {fates[0]}", f"up {fates[1]}"]
    lines += [f"lanes {len(fates) - 1}"] * (version == 2) + [f"lane {lane}" for lane in fates[2:]]
    lines.append(f"vcpus {len(vcpus)}")
    for before, after in vcpus:
        lines += [f"vcpu {len(before)} {len(after)}"] + before + after
    return "\n".join(lines + ["end", ""])


def busy_script(seed, pages, ops, chances, version=1, lanes=1):
    """Sixteen virtual processors, with so many operations before `move` and after; of each fate, how often it is met."""
    rng = random.Random(seed)
    fates = ["".join(rng.choices("dlrb", chances, k=400)) for _ in range(1 + lanes)]
    each = lambda kinds: [random_op(rng, pages, 4, kinds) for _ in range(ops)]
    return script_of(pages, 4, 8, fates, [(each(BEFORE), each(AFTER[version])) for _ in range(16)], version)


def losing_script(seed, line):
    """Sixteen virtual processors, and one line whose first packets are lost, with a lane where that is the line."""
    rng = random.Random(seed)
    fates = ["l" * 30 if name == line else "-" for name in ("down", "up", "lane")]
    version = 2 if line == "lane" else 1
    each = lambda kinds: [random_op(rng, 64, 4, kinds) for _ in range(30)]
    return script_of(64, 4, 8, fates if version == 2 else fates[:2], [(each(BEFORE), each(AFTER[version])) for _ in range(16)], version)


def window_script(window, has_lane):
    """Sixteen virtual processors, and a channel of the pushed pages that sends as many packets back as the window lets be under
    way, and then delivers one: whenever more are under way, a packet arrives before one that left earlier."""
    rng, fates = random.Random(15), ("b" * window + "d") * 60
    ops = [[random_op(rng, 32, 4, kinds) for _ in range(20)] for kinds in (BEFORE, AFTER[1]) for _ in range(16)]
    return script_of(32, 4, window, ["-", "-", fates] if has_lane else [fates, "-"], list(zip(ops[:16], ops[16:])), 2 if has_lane else 1)


def full_script(is_after):
    """More reads than a log has room for, before `move`, while another virtual processor is at its move and waits; or after it."""
    reads = ["r 0 0"] * 65_536
    return script_of(1, 1, 1, "--", [([], ["r 0 0"])] + [([], reads) if is_after else (reads, [])] * 17)


def ran(program, words, text):
    """What the program writes, to both outputs, and its status; or it took too long."""
    try:
        done = ended([program, *words], text.encode())
    except subprocess.TimeoutExpired:
        return "", "it waits for ever", None
    return done.stdout.decode("latin-1"), done.stderr.decode("latin-1"), done.returncode


def is_short(script, log):
    """Whether a virtual processor did not do all of its operations."""
    wanted = sum(len(before) + len(after) for before, after in script.vcpus)
    return sum(record[0] in ("r", "w", "z") for record in log) != wanted


def brought_wrongly(script, text, session):
    """What is wrong with which link brought which packets down, or None."""
    source, guest = session.logs["source"], session.logs["guest"]
    over_link, over_lane = ({int(record.split(" ")[1]) for record in session.logs[log] if record.startswith("down ")} for log in ("link", "lane"))
    pushed = {n for n in range(len(source)) if is_push(source, n)}
    if not script.has_lane:
        return "a lane that is not there brought packets" if over_lane else None
    if over_link & pushed:
        return "the link brought a page that was pushed"
    if over_lane - pushed:
        return "the lane brought what was not pushed"
    released = {record.split(" ")[2] for record in guest[guest.index("resume 1"):] if record.startswith("z ")}
    is_lossy = "l" in re.search("^lane (.*)$", text, re.MULTILINE)[1]
    left = [n for n in pushed - over_lane if source[n].split(" ")[1] not in released]
    return "the lane did not bring a page that was pushed" if left and not is_lossy else None


def is_push(source, n):
    """Whether the source sent a page unasked: what answers a want stands right after its `ask`."""
    return source[n].startswith("send ") and not source[n - 1].startswith("ask ")


def asked_for(session, n):
    """The page that the source was asked for by its record, or None where it was told that all is there."""
    up = int(session.logs["source"][n].split(" ")[1])
    told = session.logs["pager"][int(session.logs["link"][up].split(" ")[1])].split(" ")
    return int(told[1]) if told[0] == "want" else None


def owed_pages(script, guest):
    """The pages that the guest had not released when it was halted."""
    owed = set(range(script.pages))
    for record in guest[:guest.index("halt")]:
        words = record.split(" ")
        if words[0] in ("w", "z"):
            (owed.add if words[0] == "w" else owed.discard)(int(words[2]))
    return owed


def pushed_wrongly(script, session):
    """The first page that the source pushed where another one was next, by the pivots of the requests before it, or None."""
    source, unsent = session.logs["source"], owed_pages(script, session.logs["guest"])
    owed, pivots, turn = set(unsent), [0], 0
    for n, record in enumerate(source):
        words = record.split(" ")
        if words[0] == "ask":
            page = asked_for(session, n)
            if page in owed and page not in pivots:
                pivots, turn = ([page] + pivots)[:script.pivots], 0
        elif words[0] == "send":
            page, pivot = int(words[1]), pivots[turn]
            if is_push(source, n):
                turn = (turn + 1) % len(pivots)
                if page != min(unsent, key=lambda it: (abs(it - pivot), -it)):
                    return f"page {page}, at a turn of pivot {pivot}"
            unsent.discard(page)
    return None


def pushed_too_many(script, session):
    """The first push at which more packets were under way on its channel than the window allows, or None. Whatever was put there
    at a push or before, and comes to the other end no earlier than what was put there at it or after, was under way at it."""
    source = session.logs["source"]
    arrived = [int(record.split(" ")[1]) for record in session.logs["lane" if script.has_lane else "link"] if record.startswith("down ")]
    for push in (n for n in range(len(source)) if is_push(source, n)):
        later = [at for at, packet in enumerate(arrived) if packet >= push]
        under_way = {packet for packet in arrived[later[0]:] if packet <= push} if later else set()
        if len(under_way) > script.window:
            return f"{len(under_way)} packets were under way at the push {source[push]}"
    return None


def lost_too_few(text, session):
    """The line on which fewer packets were lost than its fates begin with, where none of them repeats a packet, or None."""
    source, fates = session.logs["source"], dict(re.findall("^(down|up|lane) (.*)$", text, re.MULTILINE))
    pushed = sum(is_push(source, n) for n in range(len(source)))
    down = sum(record.split(" ")[0] in ("state", "send", "again") for record in source) - pushed * ("lane" in fates)
    put = {"down": down, "up": sum(record.split(" ")[0] in ("want", "all") for record in session.logs["pager"]), "lane": pushed}
    for line, met in fates.items():
        log = session.logs["lane" if line == "lane" else "link"]
        arrived = sum(record.startswith("up " if line == "up" else "down ") for record in log)
        lost = len(met) - len(met.lstrip("l"))
        if "r" not in met and arrived and put[line] - arrived < lost:
            return line
    return None


def told_too_often(text, session):
    """How often the pager said that all is there, where each packet arrives once and it said so more than twice, or None."""
    fates = dict(re.findall("^(down|up|lane) (.*)$", text, re.MULTILINE))
    often = session.logs["pager"].count("all")
    return often if often > 2 and set("".join(fates.values())) <= set("-d") else None


def fault_of(program, text, words, kinds):
    """What is wrong with a run of a script, or None. The kinds of the pager's records join those that are given."""
    written, told, status = ran(program, words, text)
    if (status, told) != (0, ""):
        return f"status {status}, {written[:60]!r}, {told[:200]!r}"
    checked = ran(program, [], written)
    if checked != ("yes\n", "", 0):
        return f"the program does not say yes to it: {checked}"
    script = Script(text)
    session = written[:written.index("\nend\n") + 5]
    if session.splitlines()[:len(script.opening)] != script.opening:
        return "the session has not the script's machine or its initial pages"
    log = guest_log(session)
    if strays_from_the_script(script, log) or is_short(script, log):
        return "a virtual processor does not do what the script says"
    wrong = wrong_read(script, log)
    if wrong:
        return f"one machine does not read this in the guest's log: {wrong}"
    if "done" not in SessionText(session).logs["source"]:
        return "the source was not told that all is there"
    if script.has_lane and not ran(program, ["audit", "-"], session)[0].startswith("clean\n"):
        return "`audit` does not say that the session is clean"
    read = SessionText(session)
    kinds.update(record.split(" ")[0] for record in read.logs["pager"])
    pushed = pushed_wrongly(script, read)
    if pushed:
        return f"another page was next where the source pushed {pushed}"
    many = pushed_too_many(script, read)
    if many:
        return f"{many}, with a window of {script.window}"
    often = told_too_often(text, read)
    if often:
        return f"the pager said {often} times that all is there"
    line = lost_too_few(text, read)
    if line:
        return f"fewer packets were lost on the line `{line}` than the script says"
    return brought_wrongly(script, text, read)


def is_carried_wrongly(program):
    """What is wrong with the link of a process that has no network, or None; or why none could be made."""
    alone = ["unshare", "--net", *([] if os.getuid() == 0 else ["--map-root-user"])]
    try:
        if subprocess.run([*alone, "true"], stderr=subprocess.DEVNULL).returncode != 0:
            return None, "no process without a network can be made here"
    except FileNotFoundError:
        return None, "there is no `unshare` here"
    for worked in (WORKED[0], PUSHED[0]):
        text = worked.replace(" / ", "\n") + "\n"
        done = [ended([*alone, program, "migrate", "-", "--link", link], text.encode()) for link in ("memory", "tcp")]
        if (done[0].returncode, done[0].stderr) != (0, b""):
            return "a link in memory wants a network", None
        if (done[1].returncode, done[1].stdout, done[1].stderr) != (3, b"", b"link\n"):
            return f"a link over TCP wants no network: status {done[1].returncode}, {done[1].stderr[:60]!r}", None
    return None, None


# Stands before the system's call, and tells the address to which a socket is bound.
BOUND = """
#define _GNU_SOURCE
#include <arpa/inet.h>
#include <dlfcn.h>
#include <stdio.h>
#include <stdlib.h>
int bind(int socket, const struct sockaddr *address, socklen_t length)
{
    int (*real)(int, const struct sockaddr *, socklen_t) = (int (*)(int, const struct sockaddr *, socklen_t))dlsym(RTLD_NEXT, "bind");
    char words[64] = "another";
    if (address->sa_family == AF_INET)
        inet_ntop(AF_INET, &((const struct sockaddr_in *)address)->sin_addr, words, sizeof words);
    FILE *file = fopen(getenv("BOUND"), "a");
    fprintf(file, "%s\\n", words);
    fclose(file);
    return real(socket, address, length);
}
"""


def addresses(program, cc, room):
    """The addresses to which a migration over TCP binds sockets."""
    with open(f"{room}/bound.c", "w", encoding="ascii") as file:
        file.write(BOUND)
    subprocess.run([cc, "-shared", "-fPIC", "-o", f"{room}/bound.so", file.name, "-ldl"], check=True)
    ended([program, "migrate", "--link", "tcp", "-"], WORKED[0].replace(" / ", "\n").encode() + b"\n",
          env={"LD_PRELOAD": f"{room}/bound.so", "BOUND": f"{room}/bound"}).check_returncode()
    with open(f"{room}/bound", encoding="ascii") as file:
        return file.read().split()


def late_script(reads):
    """A script of one virtual processor that reads a page often at the target, and then one that it released before it moved: the
    source was told by then that all is there, and the pager is still needed."""
    return script_of(2, 1, 4, ("-", "-"), [(["z 0"], ["r 1 0"] * reads + ["r 0 0"])])


def quiet_script():
    """A script whose pages are pushed over a lane, one at a time, while nothing else is under way and nobody waits."""
    return script_of(12, 1, 1, ("-", "-", "-"), [([], ["r 0 0"])], 2)


def scripts():
    """The name of each script, its text, the words after `migrate`, and how many runs there are."""
    for number, worked in enumerate(WORKED):
        yield f"worked script {number}", worked.replace(" / ", "\n") + "\n", ["-"], 100
    yield "one that needs a released page late", late_script(20_000), ["-"], 5
    yield "pages over a lane where nothing else is under way", quiet_script(), ["-"], 5
    yield "a released page that is waited for before the resume", script_of(2, 1, 4, ("-", "-"), [(["z 0"], ["r 0 0"])]), ["-"], 10
    yield "one that has released all pages before it moves", script_of(2, 1, 4, ("-", "-"), [(["z 0", "z 1"], ["r 0 0", "w 1 0 5"])]), ["-"], 10
    yield "two that do nothing at the target", script_of(4, 1, 4, ("-", "-"), [(["w 0 0 5"], []), ([], ["r 3 0"]), ([], [])]), ["-"], 10
    yield "pages that come where the state is lost", script_of(4, 1, 4, ("l", "-"), [([], ["r 0 0"])]), ["-"], 30
    yield "sixteen virtual processors", busy_script(1, 64, 30, (1, 0, 0, 0)), ["--link", "memory", "-"], 20
    yield "sixteen over a bad link", busy_script(2, 64, 30, (7, 1, 1, 1)), ["-"], 50
    yield "sixteen over a worse link", busy_script(3, 20, 10, (1, 1, 1, 1)), ["-"], 30
    for line in ("down", "up"):
        yield f"sixteen whose first packets {line} are lost", losing_script(12, line), ["-"], 10
        yield f"sixteen whose first packets {line} are lost, over TCP", losing_script(13, line), ["-", "--link", "tcp"], 5
    yield "sixteen whose first pushed pages are lost", losing_script(14, "lane"), ["-"], 10
    for window in (1, 3):
        yield f"sixteen with a window of {window}", window_script(window, False), ["-"], 10
        yield f"sixteen with a window of {window} on a lane", window_script(window, True), ["-"], 10
    yield "a worked script over TCP", WORKED[0].replace(" / ", "\n") + "\n", ["-", "--link", "tcp"], 20
    yield "sixteen over TCP and a bad link", busy_script(4, 64, 30, (7, 1, 1, 1)), ["-", "--link=tcp"], 20
    for number, worked in enumerate(RELEASED):
        yield f"worked script {number} with a release at the target", worked.replace(" / ", "\n") + "\n", ["-"], 100
    yield "sixteen that release at the target", busy_script(5, 64, 30, (7, 1, 1, 1), 2), ["-"], 50
    yield "sixteen that release few pages at the target", busy_script(6, 6, 40, (3, 1, 1, 1), 2), ["-"], 50
    yield "sixteen that release at the target, over TCP", busy_script(7, 64, 30, (7, 1, 1, 1), 2), ["-", "--link=tcp"], 20
    for number, worked in enumerate(PUSHED):
        yield f"worked script {number} with a lane", worked.replace(" / ", "\n") + "\n", ["-"], 50
        yield f"worked script {number} with a lane, over TCP", worked.replace(" / ", "\n") + "\n", ["-", "--link", "tcp"], 10
    yield "sixteen with a lane", busy_script(8, 64, 30, (1, 0, 0, 0), 2, 2), ["-"], 20
    yield "sixteen with a bad link and lane", busy_script(9, 64, 30, (7, 1, 1, 1), 2, 2), ["-"], 50
    yield "sixteen that release few pages at the target, with a lane", busy_script(10, 6, 40, (3, 1, 1, 1), 2, 2), ["-"], 50
    yield "sixteen with a bad link and lane, over TCP", busy_script(11, 64, 30, (7, 1, 1, 1), 2, 2), ["-", "--link=tcp"], 20


@pytest.mark.slow
@pytest.mark.cases(1070)
def test_migrations(program):
    kinds = set()
    for name, text, words, runs in each(scripts(), name=lambda it: it[0]):
        for run in range(runs):
            right(fault_of(program, text, ["migrate", *words], kinds), f"{name}, run {run}")
    assert "pull" in kinds, "no run took a page from a lane"


@pytest.mark.parametrize("is_after", (False, True), ids=("at_the_source", "at_the_target"))
def test_full_log(program, is_after):
    assert ran(program, ["migrate", "-"], full_script(is_after)) == ("log-full\n", "", 1)


def test_loopback(program, cc, room):
    assert addresses(program, cc, room) == ["127.0.0.1"]


def test_network(program):
    wrong, left_out = is_carried_wrongly(program)
    if left_out:
        leave_out(f"what carries a link, since {left_out}")
    assert wrong is None

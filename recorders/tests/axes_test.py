"""The axes of plans: rows with each pair, the plans of rows, what each pair gave, and how a QEMU and the words of `migrate` have them."""
import contextlib
import io
import json
import os
import random
import socket
import subprocess
import sys
import tempfile
from types import SimpleNamespace
from unittest import mock

import axes
import build
import kinds
import machine
import plans
import qmp
import results
import witness
from emulator import Emulator
from folders import Room
from kinds import plan_from_text, plan_of
from records import Hole
from relay import ANY_PORT, Relay, Window, connected_to
from relay_test import BASE, BEFORE, PAGES
from results import Result
from run import Migration, Outcome, PrecopyEnded
from shows_test import received
from versions_test import QEMU, command, program, qemu_like, read


def of_rows(tests):
    for seed in range(20):
        rows = axes.rows(random.Random(seed), axes.AXES)
        tests.wants("each pair stands in a row", axes.all_pairs().difference(*map(axes.pairs_of, rows)), set())
        tests.wants("in few of them", len(rows) < 30, True)
        tests.wants("the same seed, the same rows", axes.rows(random.Random(seed), axes.AXES), rows)
        order = axes.in_order(random.Random(seed), axes.AXES)
        tests.wants("a campaign begins with the pairs of what was found", [set(pair) <= set(row.items()) for row, pair in zip(order, axes.FOUND)], [True] * 4)
        tests.wants("and has each row", sorted(map(str, order[4:])), sorted(map(str, rows)))
        seen = set().union(*map(axes.pairs_of, [*order[:4], order[5]]))
        later = axes.in_order(random.Random(seed), axes.AXES, seen)[4:]
        for place, row in enumerate(later):
            tests.wants("each next row has most pairs that are new", len(axes.pairs_of(row) - seen), max(len(axes.pairs_of(one) - seen) for one in later[place:]))
            seen |= axes.pairs_of(row)
        made = [plans.plan_by_axes(random.Random(seed), row) for row in rows]
        tests.wants("a plan has the values of its row", [axes.row_of(plan) for plan in made], rows)
        tests.wants("a plan's text and back", [plan_from_text(plan.to_text()) for plan in made], made)
    of_kvm = [plans.plan_by_axes(random.Random(seed), row) for seed in range(20) for row in axes.rows(random.Random(seed), axes.AXES) if row["accelerator"] != axes.TCG]
    tests.wants("KVM's windows fit the memory, and its switches can be reached", [plan for plan in of_kvm if plan.base + plan.pages * 4096 > plan.ram << 20 or plan.pre_pages > plan.pages or plan.hot > plan.pages // 4], [])
    tests.wants("and both ways in which KVM tells dirty pages are drawn", {plan.dirty_ring for plan in of_kvm}, {0, kinds.ENTRIES})
    tests.wants("a plan that is drawn without axes has the first value of each", [value for value in axes.row_of(plan_of("live")).values()], [values[0] for values in axes.AXES.values()])


def of_results(tests):
    """What each value and each pair gave, what those have in common that were not clean, and what was not made."""
    first = {axis: values[0] for axis, values in axes.AXES.items()}

    def result(verdict, version="10.0.13", **values):
        return Result(plans.plan_by_axes(random.Random(1), {**first, **values}), verdict, "completed", version=version)

    made = [result("clean, yes"), result("clean, yes", memory="numa"), *[result("faulty line 7 read", memory="numa", guest=axes.KEEPS)] * 2,
            *[result("faulty line 7 read", "7.2.22", guest=axes.KEEPS)] * 2, result("faulty line 9 read", memory="dimm")]
    tests.wants("what all have in common of which it became", list(axes.in_common(made)), [
        "10.0.13: 3 `read`; 3 of 5 with machine pc, capability none, transport unix, preempt no, cut no, processors 1, accelerator tcg",
        "7.2.22: 2 `read`; 2 of 2 with memory one, machine pc, capability none, transport unix, guest keeps translations, preempt no, cut no, processors 1, accelerator tcg"])
    apart = [result("faulty line 1 read", **{axis: values[-1] for axis, values in axes.AXES.items()}), result("faulty line 1 read")]
    tests.wants("where that is nothing", list(axes.in_common(apart)), ["10.0.13: 2 `read`; 2 of 2 with nothing in common"])
    tests.wants("of one alone, and of what is no fault, nothing is said", list(axes.in_common(made[:2] + made[-1:])), [])
    lines = axes.table(made).splitlines()
    tests.wants("the table", [line for line in lines if line.startswith(("| Of", "| memory numa, guest keeps translations |"))],
                ["| Of the migrations with | 7.2.22 | 10.0.13 |", "| memory numa, guest keeps translations | | 2 `read` |"])
    tests.wants("pairs that were not made", (("memory", "uneven"), ("machine", "pc")) in axes.not_made(made), True)
    tests.wants("and one that was", (("memory", "numa"), ("guest", axes.KEEPS)) in axes.not_made(made), False)
    tests.wants("a line", result("clean, yes", memory="numa", machine="q35", transport="tcp", guest=axes.HOT, capability="xbzrle", preempt="yes").line().split(":")[0].split(", ")[3:],
                ["no flush", "memory numa", "machine q35", "transport tcp", "xbzrle", "hot", "preempt"])


def of_campaigns(tests):
    """Every second plan is of a row, each QEMU gets each row, and without axes the plans are those of the seed alone."""
    campaign, emulators = command("campaign"), [SimpleNamespace(path="one"), SimpleNamespace(path="other")]
    values = {"one": axes.AXES, "other": {**axes.AXES, "capability": ("none", "xbzrle")}}
    asked = SimpleNamespace(seed=5, count=120, axes=True, faults=False, no_flush=False)
    made = list(campaign.plans_of(asked, emulators, values))
    tests.wants("as many as are asked for", len(made), 120)
    tests.wants("the same seed gives the same", list(campaign.plans_of(asked, emulators, values)), made)
    for emulator in emulators:
        rows = [axes.row_of(plan) for plan, its in made[1::2] if its == emulator]
        tests.wants("each QEMU gets each pair of the values that it can have", set().union(*map(axes.pairs_of, rows)), axes.all_pairs(values[emulator.path]))
    def requires(row):
        if row["capability"] == "multifd" or row["machine"] == "q35":
            raise build.Missing("it cannot")

    found, refused = axes.possible(requires)
    tests.wants("the values that a QEMU can have", (found["capability"], found["machine"], found["memory"], refused),
                (("none", "auto-converge", "xbzrle"), ("pc",), tuple(kinds.MEMORIES), {("capability", "multifd"): "it cannot", ("machine", "q35"): "it cannot"}))
    lacking = SimpleNamespace(path="one", require=lambda plan, library: requires(axes.row_of(plan) | {"machine": ""}), machine_for=lambda emulator, name: name)
    its, left_out = campaign.possible([lacking], "library")
    tests.wants("of each", its["one"]["capability"], ("none", "auto-converge", "xbzrle"))
    tests.wants("what is left out is told", left_out, ["left out, capability multifd: it cannot"])
    drawn = random.Random(5)
    tests.wants("the others are drawn as without axes", [plan for plan, _ in made[::2]], [plans.random_plan(drawn) for _ in range(60)])
    tests.wants("by each QEMU in turn", [its for _, its in made[::2]], emulators * 30)
    drawn, asked.axes = random.Random(5), False
    tests.wants("without axes", list(campaign.plans_of(asked, emulators, values)), [(plans.random_plan(drawn), emulators[number % 2]) for number in range(120)])
    with tempfile.TemporaryDirectory() as room, contextlib.redirect_stdout(io.StringIO()) as said:
        campaign.tell_axes([Result(plan, "faulty line 1 read", "completed", version="7.2.22") for plan, _ in made[1::2]][:4], room)
        tests.wants("what is told", (said.getvalue().split("\n")[1].split(";")[1], "  7.2.22: 4 `read`; 4 of 4 with " in said.getvalue(), read(f"{room}/pairs").startswith("| Of the")),
                    (f" {len(axes.not_made([Result(plan, '', '') for plan, _ in made[1:9:2]]))} pairs were not made", True, True))


def of_machines(tests, room):
    """The options of a QEMU for the memory, and what it is asked for before."""
    for memory, wanted in (("one", ["-m", "32M"]),
                           ("numa", ["-m", "80M", "-object", "memory-backend-ram,id=front,size=48M", "-object", "memory-backend-ram,id=pc.ram,size=32M",
                                     "-numa", "node,nodeid=0,memdev=pc.ram", "-numa", "node,nodeid=1,memdev=front"]),
                           ("uneven", ["-m", "48M", "-object", "memory-backend-ram,id=front,size=16M", "-object", "memory-backend-ram,id=pc.ram,size=32M",
                                       "-numa", "node,nodeid=0,memdev=pc.ram", "-numa", "node,nodeid=1,memdev=front"]),
                           ("dimm", ["-m", "32M,slots=1,maxmem=128M", "-object", "memory-backend-ram,id=front,size=48M", "-object", "memory-backend-ram,id=pc.ram,size=32M",
                                     "-machine", "memory-backend=pc.ram", "-device", "pc-dimm,memdev=front"]),
                           ("virtio-mem", ["-m", "32M,slots=1,maxmem=128M", "-object", "memory-backend-ram,id=front,size=48M", "-object", "memory-backend-ram,id=pc.ram,size=32M",
                                           "-machine", "memory-backend=pc.ram", "-device", "virtio-mem-pci,memdev=front"])):
        tests.wants(f"the options of {memory}", machine.memory(plan_of("live", memory=memory)), wanted)
    tests.wants("each memory has its options", set(kinds.MEMORIES), {"one", "numa", "uneven", "dimm", "virtio-mem"})
    named = ["-object", "memory-backend-ram,id=pc.ram,size=32M", "-machine", "memory-backend=pc.ram"]
    tests.wants("those of another machine", machine.memory(plan_of("live", machine="q35")), ["-m", "32M", *named])
    tests.wants("of huge pages", machine.memory(plan_of("huge"))[3], "memory-backend-memfd,hugetlb=on,hugetlbsize=2M,id=pc.ram,size=32M")
    plan = plan_of("live", further=["xbzrle", "postcopy-ram"], parameters={"cpu-throttle-initial": 5})
    tests.wants("capabilities, each once", plan.capabilities(), ["postcopy-ram", "postcopy-blocktime", "xbzrle"])
    tests.wants("and of pre-copy alone", plan_of("live", further=["xbzrle"], is_precopy=True).capabilities(), ["xbzrle"])
    tests.wants("what is not looked at", [len(plan_of(kind, memory=memory).not_looked_at()) for kind, memory in (("live", "one"), ("live", "numa"), ("multifd", "dimm"))], [0, 1, 2])
    emulator = Emulator(qemu_like(room, "10.0.13", [], "Invalid parameter it"))
    said = tests.refuses("a parameter that is refused", build.Missing, lambda: emulator.require(plan, program(f"{room}/library")))
    tests.wants("it is named", "cannot migrate with postcopy-ram, postcopy-blocktime, xbzrle, cpu-throttle-initial: Invalid parameter it" in said, True)
    tests.wants("what is asked", '"migrate-set-parameters", "arguments": {"cpu-throttle-initial": 5}' in read(f"{room}/asked"), True)
    tests.wants("a machine that is there", emulator.machine_for(emulator, "pc-i440fx-7.2"), "pc-i440fx-7.2")
    said = tests.refuses("one that is not", build.Missing, lambda: emulator.machine_for(emulator, "q35"))
    tests.wants("in a word", Result(plan, f"not judged: the recorder ended with build.Missing: {said}", "").in_a_word, "machine not there")


def of_accelerators(tests, room):
    """What QEMU runs the guest by, and what is told where there is no dirty ring: QEMU's words."""
    for kind, options in (("live", "tcg"), ("kvm", "kvm"), ("dirty-ring", "kvm,dirty-ring-size=4096")):
        tests.wants(f"the options of {kind}", machine.Machine.hardware(None, "q35", plan_of(kind)), ["-machine", "q35", "-accel", options])
    tests.wants("who keeps translations", [plan_of(kind, flush=flush).keeps for kind in ("live", "kvm") for flush in (False, True)], [True, False, False, False])
    answers = ['case "$*" in', "*version*) echo 'QEMU emulator version 10.0.13' ;;", f"*) cat > {room}/asked; echo \"$*\" > {room}/options; echo 'qemu: warning: KVM dirty ring not available, using bitmap method' >&2; echo '{{}}' ;;", "esac"]
    emulator, library = Emulator(program(f"{room}/warns", *answers)), program(f"{room}/library")
    with mock.patch("os.access", lambda *_: True):
        said = tests.refuses("a KVM without a dirty ring", build.Missing, lambda: emulator.require(plan_of("dirty-ring"), library))
        tests.wants("it is told in QEMU's words", "says of this machine's KVM: dirty ring not available, using bitmap method: left out" in said, True)
        tests.wants("QEMU was asked for it", "-machine none -accel kvm,dirty-ring-size=4096 " in read(f"{room}/options"), True)
        said = tests.refuses("a library that is none, with KVM's bitmap", build.Missing, lambda: emulator.require(plan_of("kvm"), library))
        tests.wants("there is nothing to warn of", "does not take the preloaded library" in said, True)
        refusing = Emulator(qemu_like(room, "11.1.3", [], "Postcopy is not compatible with the dirty ring"))
        said = tests.refuses("a QEMU that refuses it with post-copy", build.Missing, lambda: refusing.require(plan_of("dirty-ring"), library))
    tests.wants("that is told too", said.endswith("cannot migrate with postcopy-ram, postcopy-blocktime: Postcopy is not compatible with the dirty ring"), True)


def of_words(tests):
    migrate = command("migrate")
    parser = migrate.words()
    asked = parser.parse_intermixed_args(["live", "x", "--memory", "numa", "--machine", "q35", "--transport", "tcp", "--hot", "64", "--capability", "xbzrle", "--capability", "auto-converge",
                                          "--parameter", "a=5", "--parameter", "b=zlib", "--parameter", "c=true"])
    plan = migrate.plan_of_words(parser, asked)
    tests.wants("the plan", (plan.memory, plan.machine, plan.transport, plan.hot, plan.further, plan.parameters), ("numa", "q35", "tcp", 64, ["xbzrle", "auto-converge"], {"a": 5, "b": "zlib", "c": True}))
    plan = migrate.plan_of_words(parser, parser.parse_intermixed_args(["live", "x", "--kvm", "--dirty-ring", "2048"]))
    tests.wants("a dirty ring", (plan.kvm, plan.dirty_ring), (True, 2048))
    for words, pages in (([], 0), (["--fault", "stale"], 320), (["--fault", "keep-drop", "--pages", "512"], 640), (["--fault", "stale", "--pre-pages", "7"], 7), (["--fault", "flip"], 0)):
        plan = migrate.plan_of_words(parser, parser.parse_intermixed_args(["live", "x", *words]))
        tests.wants(f"pages of pre-copy before the switch: {' '.join(words)}", plan.pre_pages, pages)
    for words, said in ((["--capability", "release-ram"], "'release-ram' cannot be recorded: "), (["--parameter", "a"], "'a' is not NAME=VALUE"), (["--memory", "two"], "invalid choice"), (["--transport", "rdma"], "invalid choice"),
                        (["--hot", "65"], "at most a quarter of --pages"), (["--dirty-ring", "4096"], "--dirty-ring needs --kvm")):
        done = subprocess.run([sys.executable, "-B", f"{QEMU}/migrate", "x", *words], capture_output=True, text=True)
        tests.wants(f"the words {' '.join(words)}", (done.returncode, said in done.stderr), (2, True))


class Listening:
    """A target that stands in for QEMU: it listens where it is told to."""

    def __init__(self):
        self.listener = None

    def __call__(self, command, descriptor=None, **words):
        if command == "getfd":
            self.handed = socket.socket(fileno=os.dup(descriptor))
        elif command == "query-migrate":
            host, port = self.listener.getsockname()
            return {"socket-address": [{"host": host, "port": str(port)}]}
        else:
            kind, _, address = words["uri"].partition(":")
            if kind != "fd":
                self.listener = socket.create_server(("127.0.0.1", 0)) if kind == "tcp" else socket.socket(socket.AF_UNIX)
            if kind == "unix":
                self.listener.bind(address)
                self.listener.listen()
        return {}

    def accepted(self):
        return self.listener.accept()[0] if self.listener else self.handed


def of_transports(tests, room):
    """Both QEMUs are connected over each transport, and once more after a cut; a source and a target that are written here stand in for them."""
    for transport in kinds.TRANSPORTS:
        one = Migration.__new__(Migration)
        os.mkdir(f"{room}/{transport}")
        one.plan, one.room, one.source, one.target = plan_of("live", transport=transport), Room(), Listening(), Listening()
        one.relay = Relay(f"{room}/{transport}", one.room, Window(BASE, PAGES), None, path=ANY_PORT if transport == "tcp" else None)
        for time, asks in enumerate(("migrate-incoming", "migrate-recover")):
            one.relay.recover(one.incoming(asks, f"target-{time}"))
            kind, _, address = one.outgoing().partition(":")
            tests.wants("the source's transport", kind, transport)
            source = one.source.handed if kind == "fd" else connected_to((address.split(":")[0], int(address.split(":")[1])) if kind == "tcp" else address)
            with source, one.target.accepted() as target:
                target.settimeout(10)
                source.sendall(BEFORE)
                source.shutdown(socket.SHUT_WR)
                tests.wants(f"what comes over {transport}", received(target), BEFORE)
            one.relay.cut()
        one.relay.end()
        one.room.end()
    monitor, theirs = socket.socketpair()
    one = qmp.Qmp.__new__(qmp.Qmp)
    one.socket, one.begun = monitor, b'{"return": 7}\n'
    with monitor, theirs, open(f"{room}/handed", "w+b") as file:
        tests.wants("the answer to a command that hands a descriptor over", one("getfd", descriptor=file.fileno(), fdname="it"), 7)
        asked, handed, *_ = socket.recv_fds(theirs, 1 << 16, 2)
        tests.wants("the command", json.loads(asked), {"execute": "getfd", "arguments": {"fdname": "it"}})
        tests.wants("the descriptor", [os.path.sameopenfile(descriptor, file.fileno()) for descriptor in handed], [True])
        os.close(handed[0])


def of_hot_pages(tests):
    """The source's guest is told when the bitmap was synchronized twice, and the switch waits for that."""
    for paused, counts, wanted in ((False, [1, 1, 2, 2], 3), (True, [1], 0)):
        one, told = Migration.__new__(Migration), []
        one.plan, one.relay = plan_of("hot-pages", paused=paused, pre_pages=0), SimpleNamespace(sent_before=0)
        left = iter(counts)

        def source(asks, **words):
            told.append(asks)
            return {"ram": {"dirty-sync-count": next(left)}} if asks == "query-migrate" else {}

        one.source = mock.Mock(side_effect=source, wait_for=lambda states, seconds: "active", migration=lambda: "active")
        one.wait_for_precopy()
        tests.wants(f"a guest that is told, paused {paused}", told, ["query-migrate"] * wanted + ["send-key"] * bool(wanted))


def of_failed_recoveries(tests):
    """A recovery that nobody listens for is refused by some QEMUs, and leaves the source paused."""
    for refuses in (False, True):
        one, told = Migration.__new__(Migration), []
        one.plan, one.room, one.say = plan_of("reconnect"), SimpleNamespace(name=lambda name: f"/{name}"), told.append
        one.source = mock.Mock(side_effect=qmp.Refused("it cannot") if refuses else None, wait_for=lambda states, seconds: states[0])
        one.fail_to_connect()
        tests.wants("what the source is asked", one.source.call_args, mock.call("migrate", uri="unix:/nobody", resume=True))
        tests.wants("what is told", told, ["a recovery found nobody who listens: source postcopy-paused"])


class Resuming(Listening):
    """A source that stands in for QEMU: it connects where it is to resume, and is in each state that is waited for."""

    name = "source"

    def __call__(self, command, **words):
        self.asked = command, words.get("resume")
        self.end = connected_to(words["uri"].partition(":")[2])

    def wait_for(self, states, seconds):
        return states[0]


def of_broken_recoveries(tests, room):
    """A recovery whose connections are lost leaves both paused, and its connection is one of the relay's, over which nothing came."""
    one, told = Migration.__new__(Migration), []
    one.plan, one.room, one.say, one.source, one.target = plan_of("handshake"), Room(), told.append, Resuming(), Listening()
    one.relay = Relay(room, one.room, Window(BASE, PAGES), None)
    one.target.name, one.target.wait_for = "target", one.source.wait_for
    tests.wants("both are paused", one.break_handshake("broken"), {"source": "postcopy-paused", "target": "postcopy-paused"})
    with one.source.end, one.target.accepted() as target:
        tests.wants("nothing came, and both connections are over", (received(one.source.end), received(target)), (b"", b""))
    tests.wants("what the source was asked, and what is told", (one.source.asked, told), (
        ("migrate", True), ["a recovery lost its connections: source postcopy-recover, target postcopy-recover, and then source postcopy-paused, target postcopy-paused"]))
    tests.wants("that is no cut of the plan", one.relay.was_cut.is_set(), False)
    one.relay.end()
    tests.wants("the relay's log", read(f"{room}/relay.log"), "open 0 main new\ncut 0\n")
    one.room.end()


def of_suspended_guests(tests, room):
    """The guest suspends itself once a key is pressed, and is woken at the target; older QEMUs wake it themselves."""
    one, states, asked = Migration.__new__(Migration), iter(("running", "suspended")), []
    one.plan = plan_of("suspended")

    def source(command, **words):
        asked.append(command)
        return {"status": next(states)} if command == "query-status" else {}

    one.source = source
    one.suspend()
    tests.wants("the source is asked", asked, ["send-key", "query-status", "query-status"])
    one.outcome, one.target, one.ask_both, one.run_on, one.at_end, one.look_at_ends, one.say = Outcome(target="completed"), mock.Mock(), *[lambda: None] * 4, asked.append
    one.source = mock.Mock(return_value={"ram": {"postcopy-requests": 3}})
    one.finish()
    tests.wants("the target is asked", [call.args for call in one.target.call_args_list], [("system_wakeup",), ("stop",)])
    emulator = Emulator(qemu_like(room, "7.2.22", []))
    said = tests.refuses("an older QEMU", build.Missing, lambda: emulator.require(one.plan, ""))
    tests.wants("it is told", "wakes a suspended guest before it moves it" in said, True)


def of_owners(tests):
    """Each end has whose it is, in QEMU's words."""
    plan, unjudged = plan_of("live"), "not judged: there was no post-copy: the state was never handed over in a package"
    for verdict, outcome, wanted in (
            (unjudged, "source failed, target failed; gave up: pre-copy: failed: Unable to write to socket: Broken pipe; more", "pre-copy failed: Unable to write to socket: Broken pipe"),
            (unjudged, "source failed, target failed; gave up: pre-copy: failed", "pre-copy failed"),
            (unjudged, "source none, target none; gave up: migrate-set-capabilities: Postcopy is not compatible with it", "refused: migrate-set-capabilities: Postcopy is not compatible with it"),
            ("not judged: the recorder ended with build.Missing: QEMU 10.0.13 (/q) cannot migrate with postcopy-ram, multifd: Postcopy is not yet compatible with multifd", "",
             "refused: Postcopy is not yet compatible with multifd"),
            (f"{unjudged}; pre-copy lost 3 of 64 pages", "completed", "lost pages in pre-copy"), (f"{unjudged}; pre-copy lost none of 64 pages", "completed", "nothing lost in pre-copy"),
            (unjudged, "completed", "no post-copy"), ("not judged: the stream has what is not known here: a page with flags 0x60", "completed", "unknown stream"),
            ("incomplete page 7", "source postcopy-device, target postcopy-paused; source: migrate-pause: it is refused; no recovery: source postcopy-device, target postcopy-paused",
             "source waits forever"),
            ("incomplete page 7", "source postcopy-recover, target postcopy-paused; no recovery: source postcopy-recover; the machine was busy: QEMU had no processor for 9 of 10 s",
             "not at its end on a busy machine"),
            ("incomplete page 7", "source failed, target postcopy-paused; no recovery: source failed, target postcopy-paused", "source failed after a cut")):
        result = Result(plan, verdict, outcome)
        tests.wants(f"in a word: {wanted}", (result.in_a_word, result.is_clean), (wanted, False))


def of_what_is_known(tests, room):
    """A result names the section of the page that it looks like, and the pages whose writes are lost."""
    first = {axis: values[0] for axis, values in axes.AXES.items()}

    def result(verdict, outcome="completed", restart="", death="", plan=None, **values):
        return Result(plan or plans.plan_by_axes(random.Random(1), {**first, **values}), verdict, outcome, restart=restart, death=death, version="11.1.3", pages=list(range(9)) if "read" in verdict else [])

    aborted = "source aborted: qemu-system-x86_64: ../system/physmem.c:872: it: Assertion `block == qemu_get_ram_block(end - 1)' failed."
    found = [result("faulty line 7 read", guest=axes.HOT), result("faulty line 7 read", memory="numa", guest=axes.KEEPS), result("faulty line 7 read", guest=axes.KEEPS),
             result("not judged: there was no post-copy", f"source ENDED, target ENDED; {aborted}", death=aborted, memory="uneven"),
             result("shape line 9 both", "source failed, target postcopy-paused", "both ran: 7 accesses", cut=axes.LATE), result("faulty line 7 read"), result("clean, yes", cut=axes.LATE),
             result("faulty line 7 altered", guest=axes.HOT), result("faulty line 7 read", guest=axes.HOT, accelerator=axes.KVM)]
    sections = ["lost-writes-to-pages-not-sent-yet", "lost-writes-to-each-ram-block-but-the-first", "others-of-qemu", "the-source-aborts-in-pre-copy", "the-guest-runs-on-both-sides", "", "", "lost-writes-to-pages-not-sent-yet", ""]
    tests.wants("the sections", [one.known for one in found], sections)
    tests.wants("in lines", list(results.known(found[:7])), [f"11.1.3: 1 as docs/FOUND.md#{section}: {number:05}" for number, section in enumerate(sections[:7]) if section])
    tests.wants("the pages", found[0].line().split("; ")[-2], "lost pages 0 1 2 3 4 5 6 7 and 1 more")
    with open(f"{QEMU}/../../docs/FOUND.md", encoding="utf-8") as page:
        titles = {line.lstrip("# ").strip().lower().replace(" ", "-") for line in page if line.startswith("#")}
    tests.wants("each section is there", {section for section, _, _ in results.KNOWN} - titles, set())
    for words, wanted in (("9 pages that pre-copy sent were not sent again; of these 2 are not what the source has at the halt: 3 17\n", [3, 17]), ("the source's memory at the halt was not kept\n", [])):
        with open(f"{room}/witness", "w", encoding="ascii") as out:
            out.write(words)
        tests.wants("pages of the witness", results.lost_pages(room), wanted)
    with open(f"{room}/results", "w", encoding="ascii") as out:
        out.write(found[0].to_text() + "\n")
    tests.wants("an earlier campaign", command("campaign").earlier(room), found[:1])


def of_the_end_of_precopy(tests, room):
    """Pre-copy that comes to its end is compared, and one that fails has QEMU's words."""
    wire = SimpleNamespace(has_state=False, strange="")
    open(f"{room}/halt.mem", "wb").close()
    for differ, sent, changes, wanted in (([1, 5], 64, {}, "; pre-copy lost 2 of 64 pages"), ([], 64, {}, "; pre-copy lost none of 64 pages"), ([], 0, {}, ""),
                                          ([1], 64, {"has_state": True}, ""), ([1], 64, {"strange": "a command 12"}, "")):
        recording = SimpleNamespace(wire=SimpleNamespace(**{**vars(wire), **changes}))
        with mock.patch.multiple(witness, recording_in=lambda folder, recording=recording: recording, pages_that_differ=lambda recording, found=(differ, sent): found):
            tests.wants(f"pre-copy that lost {differ} of {sent}, {changes}", witness.of_precopy(room), wanted)
    with mock.patch.multiple(witness, recording_in=mock.Mock(side_effect=Hole("a page is not there"))):
        tests.wants("one whose files are not whole", witness.of_precopy(room), "")
    tests.wants("one of which no memory was kept", witness.of_precopy(f"{room}/none"), "")
    one = Migration.__new__(Migration)
    one.plan, one.outcome, one.say, saved = plan_of("live", pre=0.0), Outcome(), lambda line: None, []
    one.relay, one.save_memory = SimpleNamespace(sent_before=0, is_post=False), lambda: saved.append("memory")
    for status, asked in (("completed", None), ("failed", {"error-desc": "it broke"})):
        one.source = mock.Mock(return_value=asked, wait_for=lambda wanted, seconds, status=status: status)
        if asked:
            tests.wants("its words", tests.refuses("pre-copy that fails", PrecopyEnded, one.switch), "pre-copy: failed: it broke")
        else:
            one.switch()
            one.at_end()
            tests.wants("pre-copy that comes to its end", (one.outcome.remarks, saved), (["pre-copy: completed"], ["memory"]))
    one.relay.is_post = True
    one.at_end()
    tests.wants("where there was a post-copy, the memory of the halt stays", saved, ["memory"])
    tests.wants("in a word", results.Result(one.plan, "not judged: there was no post-copy", "source completed, target completed; pre-copy: completed").end, "pre-copy came to its end")


def run(tests):
    of_rows(tests)
    of_results(tests)
    of_campaigns(tests)
    of_words(tests)
    of_hot_pages(tests)
    of_failed_recoveries(tests)
    of_owners(tests)
    for of_them in (of_machines, of_accelerators, of_transports, of_broken_recoveries, of_suspended_guests, of_what_is_known, of_the_end_of_precopy):
        with tempfile.TemporaryDirectory() as room:
            of_them(tests, room)

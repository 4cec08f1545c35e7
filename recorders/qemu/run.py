"""Records one migration: both QEMUs, the relay between them, and what they record, in a folder."""
import contextlib
import json
import socket
import time
from dataclasses import asdict, dataclass, field, replace

import build
import folders
from dialect import ENDS, IN_POSTCOPY, IN_RECOVERY
from machine import DEAD, Machine
from qmp import Gone, Refused
from relay import ANY_PORT, PRECOPY_ENDED, CutPlan, Relay, Window, connected_to
from waits import longest, waits_of

GAVE_UP = "gave up: "
TOO_LONG = ("it took more than", f"{GAVE_UP}the guest does not walk", "no recovery: source postcopy-")  # the beginnings of messages about a time limit
SECONDS_TO_END = 2  # within which a target whose load failed ends, if it does
QEMUS_DOWNTIME = 300  # milliseconds: QEMU's own limit, where no other is asked for


def told(stands):
    """Returns where each stands, in words."""
    return ", ".join(f"{name} {status}" for name, status in stands.items())


class PrecopyEnded(Gone):
    """Pre-copy was over before the switch. `why` has QEMU's words."""

    def __init__(self, status, why=""):
        super().__init__(f"pre-copy: {status}{why and f': {why}'}")
        self.status = status


@dataclass
class Outcome:
    """How a migration ended, according to the QEMUs."""
    source: str = "none"
    target: str = "none"
    recoveries: int = 0
    requests: int = 0
    seconds: float = 0.0
    waited: float = 0.0  # seconds for which a thread of a QEMU has waited for a processor
    late: list = field(default_factory=list)  # of the part that took too long: its seconds, and those for which a thread had no processor
    remarks: list = field(default_factory=list)
    deaths: list = field(default_factory=list)  # which of them ended by itself, and how, in its words
    lost: list = field(default_factory=list)  # why something of what they recorded is in no file
    stands_still: bool = False  # whether the guest did less at the target than it was waited for

    @property
    def is_whole(self):
        """Returns whether both came to the end, so that the logs must be whole."""
        return self.source == self.target == "completed" and not self.lost

    @property
    def death(self):
        """Returns how one of them ended, or nothing. If both did, it is the source: the target ends with it, and not the other way round."""
        return min(self.deaths, default="")

    @property
    def ended(self):
        """Returns how the migration ended, or what of its recording is lost; or nothing, if it is whole."""
        if self.is_whole:
            return ""
        why = [self.death, *self.lost, *(remark for remark in self.remarks if remark.startswith(GAVE_UP))]
        return next(filter(None, why), self.line())

    @property
    def is_success(self):
        """Returns whether the guest also went on at the target."""
        return self.is_whole and not self.stands_still

    @property
    def is_held_up(self):
        """Returns whether it took too long, on a machine that gave it no processor for half of the time or more, or of that of the late part."""
        return any(remark.startswith(TOO_LONG) for remark in self.remarks) and any(waited >= seconds / 2 for seconds, waited in self.times)

    @property
    def times(self):
        """Returns how many seconds it took, and its late part, each with those for which a thread had no processor."""
        return [(self.seconds, self.waited), *([tuple(self.late)] if self.late else [])]

    def line(self):
        parts = [f"source {self.source}", f"target {self.target}"]
        if self.recoveries:
            parts.append(f"{self.recoveries} recovered")
        return ", ".join([*parts, f"{self.requests} requests"])


class Migration:
    """A migration that is recorded into `folder`, which folders.take must accept. `say` takes lines of progress. `emulators` are those of the
    source and of the target."""

    files, machine_class, seconds_between_lines = folders.FILES, Machine, 1
    machines, part = (), (0.0, {})

    def __init__(self, plan, folder, say, emulators):
        self.source_emulator, self.target_emulator = emulators
        self.plan = replace(plan, source_version=self.source_emulator.version_text, target_version=self.target_emulator.version_text)
        self.folder, self.say, self.outcome = folder, say, Outcome()
        self.machines = []

    def run(self):
        folders.look_at(self.folder, self.files)
        build.require_tools()
        library = self.build()
        machine, traces = self.prepare(library)
        folders.take(self.folder, self.files)
        folders.write(f"{self.folder}/plan.json", self.plan.to_text())
        self.put_guest()
        began = time.monotonic()
        self.room = folders.Room()
        try:
            self.record(library, machine, traces)
        finally:
            self.room.end()
        if self.relay.complaint and not (self.plan.is_precopy and self.relay.complaint == PRECOPY_ENDED):
            self.remark(self.relay.complaint)
        self.outcome.seconds = round(time.monotonic() - began, 1)
        if self.outcome.is_held_up:
            seconds, waited = self.outcome.times[-1]
            self.remark(f"the machine was busy: QEMU or the recorder had no processor for {waited:.0f} of {seconds:.0f} s")
        folders.write(f"{self.folder}/outcome.json", json.dumps(asdict(self.outcome), indent=1))
        return self.outcome

    def build(self):
        """Returns the library that both QEMUs preload."""
        self.rom, library = build.build()
        return library

    def put_guest(self):
        """Writes the files to the folder from which the guest starts."""
        build.rom_for(self.plan, self.rom, f"{self.folder}/guest.bin")

    def prepare(self, library):
        """Decides the type of both machines, and what each side traces. Raises Missing if a QEMU lacks something that the plan needs."""
        for emulator in {self.source_emulator, self.target_emulator}:
            emulator.require(self.plan, library)
        return (self.source_emulator.machine_for(self.target_emulator, self.plan.machine),
                {"source": self.source_emulator.trace("source"), "target": self.target_emulator.trace("target")})

    def record(self, library, machine, traces):
        cuts = [CutPlan(behind) for behind in self.plan.cuts]
        self.relay = Relay(self.folder, self.room, Window(self.plan.base, self.plan.pages), None,
                           self.plan.fault, self.plan.skip, cuts, bool(self.plan.multifd), self.save_memory,
                           "xbzrle" in self.plan.capabilities(), ANY_PORT if self.plan.transport == "tcp" else None)

        def start(name, emulator, *extra):
            self.machines.append(self.machine_class(name, self.folder, self.room, self.plan, library, emulator.path, machine, traces[name], extra))
            return self.machines[-1]

        try:
            self.target = start("target", self.target_emulator, "-incoming", "defer")
            self.source = start("source", self.source_emulator)
            self.migrate()
        except (Gone, Refused) as fault:
            self.remark(f"{GAVE_UP}{fault}")
            if any(machine.migration() in DEAD for machine in self.machines):
                self.ask_both()
                self.look_at_ends()
        finally:
            self.outcome.waited = round(max((machine.waited() for machine in self.machines), default=0.0), 1)
            self.end_machines()
            self.relay.end()
            self.note_lost(self.relay.unrecorded)

    def end_machines(self):
        """Ends both QEMUs. A migration of whose recording something is lost is not whole, whatever they say."""
        is_well = self.outcome.is_whole
        for lost in [machine.end(is_well) for machine in reversed(self.machines)]:
            self.note_lost(lost)

    def note_lost(self, lost):
        """Notes why something of what was recorded is in no file, if it is so."""
        if lost:
            self.outcome.lost.append(lost)
            self.remark(lost)

    def save_memory(self):
        """Saves the source's memory when the package has arrived and the target does not have it yet. So it is the memory at the halt, even if
        the source starts its guest again later."""
        try:
            self.source("pmemsave", val=self.plan.base, size=self.plan.pages * 4096, filename="halt.mem")
        except (Gone, Refused) as fault:
            self.remark(f"source: {fault}")

    def remark(self, words):
        self.outcome.remarks.append(words)
        self.say(words)
        if words.startswith(TOO_LONG):
            began, before = self.part
            self.outcome.late = [round(time.monotonic() - began, 1), round(longest(self.waits(), before), 1)]

    def begin_part(self):
        """Begins a part of the migration that has a limit of its own."""
        self.part = time.monotonic(), self.waits()

    def waits(self):
        """Returns for how many seconds each thread has waited for a processor: those of the QEMUs, and of the recorder, which hands on what they send."""
        return waits_of("self", *(machine.process.pid for machine in self.machines))

    def migrate(self):
        plan = self.plan
        self.set_up()
        self.relay.target = self.incoming("migrate-incoming", "target")
        versions = " to ".join(dict.fromkeys([plan.source_version, plan.target_version]))
        self.say(f"QEMU {versions}, {'KVM' if plan.kvm else 'TCG'}{' with a dirty ring' if plan.dirty_ring else ''}")
        self.say(self.guest_line())
        self.warm_up()
        if plan.paused:
            self.source("stop")
        if plan.suspended:
            self.suspend()
        self.source("migrate", uri=self.outgoing())
        if not plan.is_precopy:
            self.switch()
        self.follow()
        self.finish()

    def suspend(self):
        """Has the guest suspend itself."""
        self.press_key()
        until = time.monotonic() + self.plan.limit
        while self.source("query-status")["status"] != "suspended":
            if time.monotonic() > until:
                raise Gone("the guest does not suspend itself")
            time.sleep(0.02)

    def press_key(self):
        self.source("send-key", keys=[{"type": "qcode", "data": "spc"}])

    def incoming(self, command, name):
        """Has the target wait for a connection, and returns the address for the relay."""
        if self.plan.transport == "tcp":
            self.target(command, uri="tcp:127.0.0.1:0")
            address = self.target("query-migrate")["socket-address"][0]
            return address["host"], int(address["port"])
        if self.plan.transport == "fd":
            ours, theirs = socket.socketpair()
            self.target(command, uri=self.handed_over(self.target, theirs))
            return ours
        path = self.room.name(name)
        self.target(command, uri=f"unix:{path}")
        return path

    def outgoing(self):
        """Returns where the source connects to the relay."""
        if self.plan.transport == "tcp":
            return "tcp:{}:{}".format(*self.relay.listener.getsockname())
        return self.handed_over(self.source, connected_to(self.relay.path)) if self.plan.transport == "fd" else f"unix:{self.relay.path}"

    @staticmethod
    def handed_over(machine, end):
        """Hands a socket over to a QEMU, and returns where it connects then."""
        with end:
            machine("getfd", descriptor=end.fileno(), fdname="migration")
        return "fd:migration"

    def switch(self):
        """Waits for pre-copy, and asks for post-copy, unless pre-copy comes to its end first. The guest goes on at the target then too, and may
        be wrong there. Raises PrecopyEnded if pre-copy fails."""
        try:
            self.wait_for_precopy()
        except PrecopyEnded as fault:
            if fault.status not in ("device", "completed"):
                raise
            self.remark(str(fault))
            return
        self.say(f"pre-copy: {self.relay.sent_before} pages; now post-copy")
        self.source("migrate-start-postcopy")

    def guest_line(self):
        plan = self.plan
        return f"guest: {plan.pages} pages of {plan.words} words, {plan.cpus} processor{'s' if plan.cpus > 1 else ''}"

    def warm_up(self):
        """Waits until the guest has done its accesses before the migration."""
        self.begin_part()
        if not self.source.wait_for_accesses(self.plan.pages * 3 // 4 + self.plan.warm, self.plan.limit):
            raise Gone("the guest does not walk")

    def run_on(self):
        """Waits until the guest has done its accesses at the target, after the end."""
        self.begin_part()
        if not self.target.wait_for_accesses(self.plan.after, self.plan.limit / 4):
            self.outcome.stands_still = True
            self.remark(f"it took more than {self.plan.limit / 4:.0f} s for {self.plan.after} accesses at the target")

    def set_up(self):
        capabilities = [{"capability": name, "state": True} for name in self.plan.capabilities()]
        for machine in (self.target, self.source):
            machine("migrate-set-capabilities", capabilities=capabilities)
            if self.plan.multifd:
                machine("migrate-set-parameters", **{"multifd-channels": self.plan.multifd})
            if self.plan.parameters:
                machine("migrate-set-parameters", **self.plan.parameters)
        # With a downtime of 1 ms, pre-copy does not end by itself. If it did, nothing would be left for post-copy.
        self.source("migrate-set-parameters", **{
            "max-bandwidth": self.plan.bandwidth, "max-postcopy-bandwidth": self.plan.post_bandwidth,
            "downtime-limit": QEMUS_DOWNTIME if self.plan.is_precopy else 1})

    def wait_for_precopy(self):
        """Waits for pre-copy, which must run before post-copy can be asked for. It may come to its end by itself."""
        until = time.monotonic() + self.plan.limit
        status = self.source.wait_for(("active", *ENDS), self.plan.limit)
        pages = 0 if self.plan.multifd else self.plan.pre_pages  # multifd's are not read
        waits = self.plan.hot and not self.plan.paused
        while status == "active" and (self.relay.sent_before < pages or waits) and time.monotonic() < until:
            if waits and self.source("query-migrate").get("ram", {}).get("dirty-sync-count", 0) > 1:
                self.press_key()
                waits = False
            time.sleep(0.005)
            status = self.source.migration()
        if status != "active":
            raise PrecopyEnded(status, self.source("query-migrate").get("error-desc", "") if status == "failed" else "")
        time.sleep(self.plan.pre)
        while 0 <= self.plan.left < self.source("query-migrate").get("ram", {}).get("remaining", 0) and time.monotonic() < until:
            pass  # the moment is short: pre-copy comes to its end at its next look

    def follow(self):
        """Waits for the end, and resumes the migration if a connection is cut."""
        cuts_seen = 0
        while True:
            self.wait_with_progress()
            if not self.relay.was_cut.is_set():
                break
            cuts_seen += 1
            self.say(f"the connection was cut behind {self.relay.sent_after} pages")
            if not self.recover():
                break
        if cuts_seen < len(self.plan.cuts):
            self.remark(f"{len(self.plan.cuts) - cuts_seen} cut not reached")

    def wait_with_progress(self):
        """Waits for an end, for a cut, or for a failure of the target."""
        self.begin_part()
        until, told = time.monotonic() + self.plan.limit, time.monotonic()
        while True:
            status, there = self.source.migration(), self.target.migration()
            if self.relay.was_cut.is_set() or self.relay.unrecorded or status in ENDS or status in DEAD or there in DEAD:
                return
            if time.monotonic() > until:
                self.remark(f"it took more than {self.plan.limit:.0f} s")
                return
            if there in ("failed", "postcopy-paused"):
                self.remark(f"the target went to {there} by itself")
                return
            if time.monotonic() - told > self.seconds_between_lines:
                told = time.monotonic()
                self.say(self.stands())
            time.sleep(0.02)

    def stands(self):
        """Returns how far the migration has come."""
        return f"pre-copy: {self.relay.sent_before} pages" if self.plan.is_precopy else f"post-copy: {self.relay.sent_after} pages"

    def paused(self, machine):
        """Waits until a QEMU has noticed the cut. If it does not notice, tells it to pause."""
        status = machine.wait_for(("postcopy-paused", "completed", "failed"), 2)
        if status in IN_POSTCOPY:
            try:
                machine("migrate-pause")
                self.remark(f"the {machine.name} did not notice the cut, and was told")
            except (Refused, Gone) as fault:
                self.remark(f"{machine.name}: {fault}")
            status = machine.wait_for(("postcopy-paused", "completed", "failed"), 5)
        return status

    def recover(self):
        """Resumes the migration over a new connection. Returns whether there is more to wait for."""
        stands = {machine.name: self.paused(machine) for machine in (self.source, self.target)}
        self.relay.was_cut.clear()
        if stands["target"] != "postcopy-paused" or stands["source"] not in ("postcopy-paused", "postcopy-active"):
            self.remark("no recovery: " + told(stands))
            return False
        for _ in range(self.plan.fails):
            self.fail_to_connect()
        try:
            for number in range(self.plan.broken):
                stands = self.break_handshake(f"broken-{self.outcome.recoveries}-{number}")
                if set(stands.values()) != {"postcopy-paused"}:
                    self.remark("no recovery after a broken one: " + told(stands))
                    return False
            self.relay.recover(self.incoming("migrate-recover", f"target-{self.outcome.recoveries + 1}"))
            self.source("migrate", uri=self.outgoing(), resume=True)
        except (Refused, Gone) as fault:
            self.remark(f"no recovery: {fault}")
            return False
        self.begin_part()
        status = self.source.wait_for(("postcopy-active", "completed", "failed"), self.plan.limit)
        if status not in ("postcopy-active", "completed"):
            self.remark(f"no recovery: source {status}")
            return False
        self.outcome.recoveries += 1
        self.say("recovered")
        return True

    def fail_to_connect(self):
        """Has the source resume over a connection that nobody listens at. It is paused afterwards, as it was before."""
        with contextlib.suppress(Refused):  # (older QEMUs do not refuse it, and say so in their errors)
            self.source("migrate", uri=f"unix:{self.room.name('nobody')}", resume=True)
        status = self.source.wait_for(("postcopy-paused", *ENDS), self.plan.limit)
        self.say(f"a recovery found nobody who listens: source {status}")

    def break_handshake(self, name):
        """Has both begin to recover over connections that hand on nothing, and closes these. Returns where each stands then."""
        silent = self.room.name(f"{name}-source")
        with socket.socket(socket.AF_UNIX) as listener:
            listener.bind(silent)
            listener.listen()
            listener.settimeout(self.plan.limit)
            target = connected_to(self.incoming("migrate-recover", name))
            self.source("migrate", uri=f"unix:{silent}", resume=True)
            source = listener.accept()[0]
        during = {machine.name: machine.wait_for(IN_RECOVERY, 5) for machine in (self.source, self.target)}
        self.relay.lose(source, target)
        stands = {machine.name: self.paused(machine) for machine in (self.source, self.target)}
        self.say(f"a recovery lost its connections: {told(during)}, and then {told(stands)}")
        return stands

    def ask_both(self):
        """Asks both QEMUs where the migration stands."""
        self.outcome.source, self.outcome.target = self.source.migration(), self.target.wait_for(ENDS, 3)

    def finish(self):
        """Asks both QEMUs what is needed at the end."""
        plan, outcome = self.plan, self.outcome
        self.ask_both()
        try:
            if plan.paused and outcome.target == "completed":
                self.target("cont")
            if plan.suspended and outcome.target == "completed":
                self.target("system_wakeup")
            if outcome.target == "completed":
                self.run_on()
                self.target("stop")
                self.at_end()
        except (Gone, Refused) as fault:
            self.remark(f"target: {fault}")
        try:
            outcome.requests = self.source("query-migrate").get("ram", {}).get("postcopy-requests", 0)
        except (Gone, Refused) as fault:
            self.remark(f"source: {fault}")
        self.look_at_ends()
        self.say(outcome.line())

    def at_end(self):
        """Does what must be done while the guest is stopped at the target. If pre-copy came to its end, the source has stood still since then."""
        if not self.relay.is_post:
            self.save_memory()

    def look_at_ends(self):
        """Looks whether the QEMUs have ended by themselves. A target whose load failed does so soon."""
        outcome = self.outcome
        if outcome.target == "failed":
            self.target.wait_for_end(SECONDS_TO_END)
        outcome.target, outcome.source = self.end_of(self.target, outcome.target), self.end_of(self.source, outcome.source)

    def end_of(self, machine, status):
        """Returns how a QEMU ended: ENDED if the process has ended, HANGS if it does not answer, or otherwise what it says."""
        if machine.migration() == "ended":
            machine.wait_for_end(SECONDS_TO_END)
        if not machine.is_running():
            self.outcome.deaths.append(f"{machine.name} {machine.how_it_ended()}")
            self.remark(self.outcome.deaths[-1])
            return "ENDED"
        if machine.hangs:
            self.remark(f"{machine.name}: it runs, and does not answer")
            return "HANGS"
        return status

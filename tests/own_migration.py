"""A post-copy migration of three real processes, recorded as docs/RECORDING.md teaches, into which bugs can be put:

    python3 own_migration.py ROOM BUGS SEED..

The source runs a guest of two processors, halts it, and sends its pages. The link loses, repeats and reorders pages and requests. The
target's pager places pages, while the guest goes on there, and reads all memory at the end. BUGS is one of those below, or several with a
`+` between, or `none`. The recording of a seed is the folder ROOM/SEED. A line for each seed tells the records that the bugs made wrong: their
logs and numbers. The processes act in turns, in an order that the seed gives: so each run of a seed has the same records.
"""
import json
import multiprocessing
import random
import sys

from postcopy.recorder import Log

PAGES, CELLS = 8, 2
ACCESSES, TURNS = 40, 500  # of the guest on each side, and of the processes
ACTS = (("run", 0), ("run", 0), ("run", 1), ("run", 1), ("send",), ("carry",), ("carry",), ("place",), ("place",))

BUGS = (
    "early", "early-table",  # a packet has come, and is placed later: a processor that waits is woken; the guest takes the page for there
    "stale", "send-released",  # the source sends a copy from before the last write; it sends released pages
    "flip", "wrong-page", "twice",  # the pager changes a bit; puts a packet in the place of another page; places repeats
    "over-write", "zero-owed",  # it places a page that the guest has released meanwhile; it puts zeros for one that was not released
    "lost-write", "lost-write-source",  # a write does not reach the memory, at the target or at the source
    "write-after-halt", "both-run",  # a processor of the source writes after the halt; the source starts its guest again
)


class Party:
    """A process that acts when it has a turn, and its logs. `planted` has the records that the bugs made wrong."""

    def __init__(self, folder, seed, bugs, *links):
        self.folder, self.bugs, self.links, self.logs, self.planted = folder, set(bugs.split("+")), links, [], []
        self.rng = random.Random(f"{type(self).__name__} {seed}")

    def log(self, party, first=0):
        self.logs.append(Log(self.folder, party, first))
        return self.logs[-1]

    def wrote(self, log, number, is_wrong):
        if is_wrong:
            self.planted.append((log, number))
        return number

    def serve(self, turns):
        while (turn := turns.recv()) is not None:
            getattr(self, turn[0])(*turn[1:])
            turns.send(None)
        for log in self.logs:
            log.close()
        turns.send(self.planted)


class Host(Party):
    """What the source and the target have in common: memory, and the guest's accesses to it."""

    def __init__(self, *words):
        super().__init__(*words)
        self.link, = self.links
        self.memory, self.value, self.accesses, self.lost = [[0] * CELLS for _ in range(PAGES)], 1000, 0, None

    def access(self, cpu, act, page, cell):
        """Makes an access and records it. Returns the record's number."""
        self.accesses += 1
        if act == "read":
            return self.guest.read(cpu, page, cell, self.memory[page][cell])
        if act == "release":
            self.memory[page] = [0] * CELLS
            return self.guest.release(cpu, page)
        self.value += 1
        is_lost = self.loses in self.bugs and self.lost is None and self.accesses > ACCESSES - 8
        if is_lost:
            self.lost = page
        else:
            self.memory[page][cell] = self.value
        return self.wrote("guest", self.guest.write(cpu, page, cell, self.value), is_lost)

    def chosen(self):
        return self.rng.choices(("read", "write", "release"), (8, 10, 2))[0], self.rng.randrange(PAGES), self.rng.randrange(CELLS)


class Source(Host):
    loses = "lost-write-source"

    def __init__(self, *words):
        super().__init__(*words)
        self.guest, self.source, self.is_sending, self.released, self.sent = self.log("guest"), self.log("source"), False, set(), {}
        self.memory = [[page * CELLS + cell + 1 for cell in range(CELLS)] for page in range(PAGES)]
        machine = self.log("machine")
        machine.machine(PAGES, CELLS)
        for page, contents in enumerate(self.memory):
            machine.initial(page, contents)

    def run(self, cpu):
        if self.accesses >= ACCESSES:
            return
        act, page, cell = self.chosen()
        self.access(cpu, act, page, cell)
        if act != "read":
            (self.released.add if act == "release" else self.released.discard)(page)
        if self.accesses == ACCESSES // 2:
            self.copies = [list(contents) for contents in self.memory]
        if self.accesses < ACCESSES:
            return
        halt = self.guest.halt()
        if "write-after-halt" in self.bugs:
            self.wrote("guest", self.access(0, "write", min(set(range(PAGES)) - self.released), 0), True)
        self.source.halted(halt)
        self.link.send(("state", self.source.state(), self.guest.hand_over(), self.released, self.value))
        self.is_sending = True

    def send(self):
        if not self.is_sending:
            return
        unsent = [page for page in range(PAGES) if page not in self.sent and ("send-released" in self.bugs or page not in self.released)]
        if "both-run" in self.bugs and len(self.sent) == PAGES // 2:
            self.wrote("source", self.source.back(), True)
            self.is_sending = False
        elif self.link.poll():
            what, up, *page = self.link.recv()
            self.source.ask(up)
            (self.send_page if what == "want" else self.source.done)(*page)
        elif unsent:
            self.send_page(self.rng.choice(unsent))

    def send_page(self, page):
        if page in self.sent:
            number = self.source.again(self.sent[page])
        else:
            is_stale = "stale" in self.bugs and not self.planted and self.copies[page] != self.memory[page]
            self.memory[page] = self.copies[page] if is_stale else self.memory[page]
            is_wrong = is_stale or page in self.released or page == self.lost
            number = self.sent[page] = self.wrote("source", self.source.send(page, self.memory[page]), is_wrong)
        self.link.send(("page", number, page, self.memory[page]))


class Link(Party):
    """Carries the state and `all` once, and loses, repeats and reorders all else."""

    def __init__(self, *words):
        super().__init__(*words)
        self.record, self.held = self.log("link"), []

    def carry(self):
        for link, other, call in ((*self.links, self.record.down), (*self.links[::-1], self.record.up)):
            while link.poll():
                self.held.append((other, call, *link.recv()))
        if self.held:
            held = self.held.pop(0 if self.held[0][2] == "state" else self.rng.randrange(len(self.held)))
            other, call, what, sent, *more = held
            outcome = self.rng.choices(("lost", "repeated", "carried"), (2, 3, 7))[0] if what in ("page", "want") else "carried"
            if outcome == "repeated":
                self.held.append(held)
            if outcome != "lost":
                other.send((what, call(sent), *more))


class Target(Host):
    loses = "lost-write"

    def __init__(self, *words):
        super().__init__(*words)
        self.guest, self.pager, self.released, self.is_all = None, self.log("pager"), set(), False
        self.table, self.seen = {}, -1  # the placement of each page that is there, or -1 where the guest released it; what the guest has seen
        self.waiting, self.faults, self.wanted = {}, [], {}
        self.late, self.trusted = [], set()  # packets that were taken, and are placed later; pages that the guest took for there

    def run(self, cpu):
        if self.guest is None or (self.accesses >= ACCESSES and cpu not in self.waiting):
            return
        first = ("release", min(self.absent()), 0) if not self.accesses else self.chosen()  # (a page that has not come)
        act, page, cell = self.waiting.get(cpu, first)
        is_taken = any(page == late for late, *_ in self.late) and ("early-table" in self.bugs or cpu in self.waiting)
        if page not in self.table and act != "release" and not is_taken:
            if cpu not in self.waiting:
                self.faults.append((self.guest.miss(cpu, page), page))
            self.waiting[cpu] = (act, page, cell)
            return
        self.waiting.pop(cpu, None)
        if is_taken and "early-table" in self.bugs:
            self.trusted.add(page)
        if self.table.get(page, -1) > self.seen and page not in self.trusted:
            self.seen = self.table[page]
            self.guest.see(self.seen)
        is_early = act != "release" and self.table.get(page, self.seen + 1) > self.seen
        self.wrote("guest", self.access(cpu, act, page, cell), is_early)
        if act == "release":
            self.table.setdefault(page, -1)

    def absent(self):
        """The pages that are owed, and are not there."""
        return set(range(PAGES)) - self.released - set(self.table)

    def place(self):
        if self.late and self.rng.random() < 0.3:
            self.put(*self.late.pop(0))
        elif self.link.poll():
            self.take(*self.link.recv())
        elif self.faults:
            self.answer(*self.faults.pop(0))
        elif self.guest and self.absent() and self.rng.random() < 0.2:
            self.want(self.rng.choice(sorted(self.absent())))
        elif self.guest and not self.is_all and not self.absent():
            self.is_all = True
            self.link.send(("all", self.pager.all()))

    def take(self, what, down, *more):
        got = self.pager.got(down)
        if what == "state":
            first, self.released, self.value = more
            self.guest = self.log("guest", first)
            self.guest.resume(self.pager.ready())
        elif self.bugs & {"early", "early-table"} and more[0] not in self.table:
            self.late.append((more[0], got, more[1]))
        else:
            self.put(more[0], got, more[1])

    def put(self, page, got, contents):
        is_wrong, others = page in self.table and ("over-write" if self.table[page] == -1 else "twice") in self.bugs, self.absent() - {page}
        if page in self.table and not is_wrong:
            self.pager.skip(got)
            return
        if "flip" in self.bugs and not self.planted:
            contents, is_wrong = [contents[0] ^ 1 << 40, *contents[1:]], True
        elif "wrong-page" in self.bugs and not self.planted and others:
            page, is_wrong = min(others), True
        self.memory[page], self.table[page] = list(contents), self.wrote("pager", self.pager.place(page, got, contents), is_wrong)

    def answer(self, miss, page):
        self.pager.fault(miss)
        is_wrong = "zero-owed" in self.bugs and not self.planted and page in self.absent()
        if is_wrong or page in self.released and page not in self.table:
            self.memory[page], self.table[page] = [0] * CELLS, self.wrote("pager", self.pager.zero(page), is_wrong)
        elif page in self.wanted and page in self.absent():
            self.pager.join(self.wanted[page])
        elif page in self.absent():
            self.want(page)

    def want(self, page):
        self.wanted[page] = self.pager.want(page)
        self.link.send(("want", self.wanted[page], page))

    def read_all(self):
        self.guest.read_all(0, max(self.table.values()), ((page, self.memory[page]) for page in self.table))


def migrate(folder, seed, bugs):
    """Runs a migration. Returns the records that the bugs made wrong."""
    system, rng, parties = multiprocessing.get_context("fork"), random.Random(seed), []
    (down, at_source), (up, at_target) = system.Pipe(), system.Pipe()
    for party, links in ((Source, (at_source,)), (Link, (down, up)), (Target, (at_target,))):
        turns, other = system.Pipe()
        system.Process(target=lambda: party(folder, seed, bugs, *links).serve(other), daemon=True).start()
        other.close()
        parties.append((party, turns))
    for turn in (*rng.choices(ACTS, k=TURNS), ("read_all",)):
        for turns in (turns for party, turns in parties if hasattr(party, turn[0])):
            turns.send(turn)
            turns.recv()
    return [record for _, turns in parties if turns.send(None) is None for record in turns.recv()]


if __name__ == "__main__":
    for number in map(int, sys.argv[3:]):
        print(json.dumps(migrate(f"{sys.argv[1]}/{number}", number, sys.argv[2])))

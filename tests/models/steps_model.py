#!/usr/bin/env python3
"""What the events of a migration record, slowly and plainly.

    tests/models/steps_model.py SCRIPT EVENTS [runs]

Writes the session that the events record of the script, or `log-full`; with `runs`, the order in which its records were
made. It goes by the table of events in docs/FORMATS.md, and looks through the logs for each question. It takes texts that
are well formed.
"""
import sys

from session_text import LOGS, logs_of
from text_judge import SMALL

class Script:
    def __init__(self, text):
        lines = text.splitlines()
        self.pages, self.cells, initial = (int(line.split(" ")[1]) for line in lines[1:4])
        self.version = int(lines[0].split(" ")[1])
        self.opening = [f"postcopy-session {self.version}"] + lines[1:4 + initial]
        self.memory = {page: [0] * self.cells for page in range(self.pages)}
        for line in lines[4:4 + initial]:
            _, page, contents = line.split(" ")
            self.memory[int(page)] = cells_of(contents)
        self.pivots, self.window = (int(line.split(" ")[1]) for line in lines[4 + initial:6 + initial])
        # (in the second version the number of lanes stands here, and after two of them the fates of the second)
        self.has_lane = lines[8 + initial] == "lanes 2"
        at = 8 + initial + self.version + self.has_lane
        self.vcpus = []
        for _ in range(int(lines[at - 1].split(" ")[1])):
            before, after = (int(word) for word in lines[at].split(" ")[1:])
            ops = [tuple(line.split(" ")) for line in lines[at + 1:at + 1 + before + after]]
            self.vcpus.append((ops[:before], ops[before:]))
            at += 1 + before + after


def events_of(text):
    return [tuple(line.split(" ")) for line in text.splitlines()[2:-1]]


def cells_of(contents):
    return [int(contents[i:i + 16], 16) for i in range(0, len(contents), 16)]


def contents_of(cells):
    return "".join(f"{cell:016x}" for cell in cells)


class LogFull(Exception):
    """An event needs more records than a log has room for."""


class Migration:
    """All that the parties hold. A packet is its kind, its record's number, and what it carries."""

    def __init__(self, script):
        self.script = script
        self.logs = {log: [] for log in LOGS}
        self.order = []
        # The memory where the guest is; from the halt on the source keeps its own, and the target's begins as zeros.
        self.memory = {page: list(cells) for page, cells in script.memory.items()}
        self.source_memory = None
        self.left = [(list(before), list(after)) for before, after in script.vcpus]
        self.pivots, self.turn = [0], 0
        self.lines = {"down": [], "up": [], "lane": []}
        self.arrivals = {"down": [], "up": [], "lane": []}
        self.pushed_on = "lane" if script.has_lane else "down"
        self.released_told = None
        # The pages that the guest released at the target while they were absent; of these, those that the pager has not
        # settled, and those that it has.
        self.freed, self.unsettled, self.settled = set(), [], set()
        self.waiting = []
        self.inbox, self.outbox = [], []

    # What the logs say.

    def record(self, log, *words):
        if len(self.logs[log]) == SMALL.records:
            raise LogFull
        self.order.append(log)
        self.logs[log].append(tuple(str(word) for word in words))
        return len(self.logs[log]) - 1

    def has(self, log, kind):
        return any(record[0] == kind for record in self.logs[log])

    def is_released(self, page):
        """Whether a page is released at the halt, or now where there was none."""
        last = None
        for record in self.logs["guest"]:
            if record[0] == "halt":
                break
            if record[0] in "wz" and int(record[2]) == page:
                last = record[0]
        return last == "z"

    def owed(self):
        return [page for page in range(self.script.pages) if not self.is_released(page)]

    def send_of(self, page):
        return self.last("source", lambda record: record[0] == "send" and int(record[1]) == page)

    def placement_of(self, page):
        return self.last("pager", lambda record: record[0] in ("place", "zero") and int(record[1]) == page)

    def is_resident(self, page):
        """Whether a page is there at the target: placed, or released there."""
        return page in self.freed or self.placement_of(page) is not None

    def want_of(self, page):
        return self.last("pager", lambda record: record[0] == "want" and int(record[1]) == page)

    def last(self, log, is_it):
        return next((n for n, record in reversed(list(enumerate(self.logs[log]))) if is_it(record)), None)

    def frontier(self):
        return max((int(record[1]) for record in self.logs["guest"] if record[0] == "see"), default=-1)

    def has_missed(self, vcpu):
        """Whether the last that a virtual processor recorded is a miss."""
        own = [record[0] for record in self.logs["guest"] if record[0] in ("r", "w", "z", "miss") and int(record[1]) == vcpu]
        return own[-1:] == ["miss"]

    def miss_not_taken(self):
        taken = {int(record[1]) for record in self.logs["pager"] if record[0] == "fault"}
        return next((n for n, record in enumerate(self.logs["guest"]) if record[0] == "miss" and n not in taken), None)

    # The events.

    def happen(self, event):
        if event[0] == "guest":
            self.guest_step(int(event[1]))
        elif event[0] == "link":
            self.link_turn(event[1], event[2])
        else:
            {
                "halt": self.halt,
                "push": self.push,
                "serve": self.serve,
                "source-tick": self.source_tick,
                "pop": self.pager_pop,
                "pop-lane": self.pager_pull,
                "fault": self.pager_fault,
                "flush": self.pager_flush,
                "deliver": self.pager_deliver,
                "pager-tick": self.pager_tick,
            }[event[0]]()

    def guest_step(self, vcpu):
        if vcpu >= len(self.left):
            return
        before, after = self.left[vcpu]
        if not self.has("guest", "halt"):
            if before:
                self.do(vcpu, before.pop(0))
        elif self.has("guest", "resume") and after:
            page = int(after[0][1])
            placement = self.placement_of(page)
            if not self.is_resident(page) and after[0][0] == "z":
                self.freed.add(page)
                self.unsettled.append(page)
            if not self.is_resident(page):
                if not self.has_missed(vcpu):
                    self.record("guest", "miss", vcpu, page)
                return
            if placement is not None and self.frontier() < placement:
                self.record("guest", "see", placement)
            self.do(vcpu, after.pop(0))

    def do(self, vcpu, op):
        cells = self.memory[int(op[1])]
        if op[0] == "r":
            self.record("guest", "r", vcpu, op[1], op[2], cells[int(op[2])])
        elif op[0] == "w":
            cells[int(op[2])] = int(op[3])
            self.record("guest", "w", vcpu, *op[1:])
        else:
            cells[:] = [0] * len(cells)
            self.record("guest", "z", vcpu, op[1])

    def halt(self):
        if self.has("guest", "halt") or any(before for before, _ in self.left):
            return
        place = self.record("guest", "halt")
        self.record("source", "halted", place)
        number = self.record("source", "state")
        self.source_memory = self.memory
        self.memory = {page: [0] * self.script.cells for page in range(self.script.pages)}
        self.lines["down"].append(self.state(number))

    def state(self, number):
        return ("state", number, [page for page in range(self.script.pages) if self.is_released(page)])

    def send(self, page):
        number = self.record("source", "send", page, contents_of(self.source_memory[page]))
        return ("page", number, page)

    def push(self):
        line = self.lines[self.pushed_on]
        if not self.has("guest", "halt") or self.has("source", "done") or len(line) >= self.script.window:
            return
        unsent = [page for page in self.owed() if self.send_of(page) is None]
        if unsent:
            pivot = self.pivots[self.turn]
            self.turn = (self.turn + 1) % len(self.pivots)
            line.append(self.send(min(unsent, key=lambda page: (abs(page - pivot), -page))))

    def fault_at(self, page):
        if page not in self.pivots:
            self.pivots = ([page] + self.pivots)[:self.script.pivots]
            self.turn = 0

    def serve(self):
        if not self.arrivals["up"]:
            return
        number, packet = self.arrivals["up"].pop(0)
        self.record("source", "ask", number)
        if packet[0] == "all":
            if not self.has("source", "done"):
                self.record("source", "done")
        elif packet[2] in self.owed():
            page = packet[2]
            self.fault_at(page)
            sent = self.send_of(page)
            answer = self.send(page) if sent is None else ("page", self.record("source", "again", sent), page)
            self.lines["down"].insert(0, answer)

    def source_tick(self):
        if self.has("guest", "halt") and not self.has("source", "ask"):
            self.lines["down"].append(self.state(self.record("source", "again", 1)))

    def link_turn(self, direction, fate):
        line = self.lines[direction]
        if not line:
            return
        packet = line.pop(0)
        if fate in ("deliver", "repeat"):
            number = self.record("lane", "down", packet[1]) if direction == "lane" else self.record("link", direction, packet[1])
            self.arrivals[direction].append((number, packet))
        if fate in ("repeat", "back"):
            line.append(packet)

    def pager_pop(self):
        if not self.arrivals["down"]:
            return
        number, packet = self.arrivals["down"].pop(0)
        if self.has("pager", "ready"):
            self.take("got", number, packet)
        elif packet[0] == "state":
            self.record("pager", "got", number)
            self.record("pager", "ready")
            self.released_told = packet[2]

    def pager_pull(self):
        if not self.arrivals["lane"]:
            return
        number, packet = self.arrivals["lane"].pop(0)
        if self.has("pager", "ready"):
            self.take("pull", number, packet)

    def take(self, kind, number, packet):
        taken = self.record("pager", kind, number)
        if packet[0] == "state":
            self.record("pager", "skip", taken)
        else:
            self.inbox.append((taken, packet[2]))

    def settle(self):
        """Nobody waits any more for the pages that the guest released at the target."""
        self.waiting = [entry for entry in self.waiting if entry[0] not in self.unsettled]
        self.settled.update(self.unsettled)
        self.unsettled = []

    def pager_fault(self):
        self.settle()
        miss = self.miss_not_taken()
        if miss is None:
            return
        _, vcpu, page = self.logs["guest"][miss]
        vcpu, page = int(vcpu), int(page)
        self.record("pager", "fault", miss)
        waiters = next((waiters for pending, waiters in self.waiting if pending == page), None)
        if self.is_resident(page) or any(vcpu in others for _, others in self.waiting):
            return
        if page in self.released_told:
            self.record("pager", "zero", page)
            self.memory[page] = [0] * self.script.cells
        elif waiters is not None:
            waiters.append(vcpu)
            self.record("pager", "join", self.want_of(page))
        else:
            self.waiting.append((page, [vcpu]))
            self.outbox.append(("want", self.record("pager", "want", page), page))

    def pager_flush(self):
        if self.outbox:
            self.lines["up"].append(self.outbox.pop(0))

    def pager_deliver(self):
        if not self.has("pager", "ready"):
            return
        if not self.has("guest", "resume"):
            self.record("guest", "resume", 1)
            return
        self.settle()
        if not self.inbox:
            return
        taken, page = self.inbox.pop(0)
        if self.is_resident(page):
            self.record("pager", "skip", taken)
            return
        self.memory[page] = list(self.source_memory[page])
        self.record("pager", "place", page, taken, contents_of(self.memory[page]))
        self.waiting = [entry for entry in self.waiting if entry[0] != page]

    def pager_tick(self):
        if not self.has("pager", "ready"):
            return
        there = self.settled.union(self.released_told)
        absent = [page for page in range(self.script.pages) if page not in there and self.placement_of(page) is None]
        if absent:
            page = self.waiting[0][0] if self.waiting else absent[0]
            self.lines["up"].append(("want", self.record("pager", "want", page), page))
        else:
            self.lines["up"].append(("all", self.record("pager", "all")))

    # The texts.

    def session(self):
        lines = list(self.script.opening)
        for log in logs_of(self.script.version):
            lines.append(f"{log} {len(self.logs[log])}")
            lines += [" ".join(record) for record in self.logs[log]]
        return "\n".join(lines + ["end", ""])

    def runs(self):
        """The recorded order, as runs."""
        runs = []
        for log in self.order:
            if runs and runs[-1][0] == log:
                runs[-1][1] += 1
            else:
                runs.append([log, 1])
        return "\n".join(["postcopy-runs 1", f"runs {len(runs)}"] + [f"run {log} {count}" for log, count in runs] + ["end", ""])


def recorded(script, events):
    """The migration after these events of a script, or None where a log is full."""
    migration = Migration(Script(script))
    try:
        for event in events_of(events):
            migration.happen(event)
    except LogFull:
        return None
    return migration


def main():
    texts = []
    for name in sys.argv[1:3]:
        with open(name) as file:
            texts.append(file.read())
    migration = recorded(*texts)
    if migration is None:
        print("log-full")
        sys.exit(1)
    sys.stdout.write(migration.runs() if sys.argv[3:] == ["runs"] else migration.session())


if __name__ == "__main__":
    main()

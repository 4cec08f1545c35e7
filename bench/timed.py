"""A host with a clock: what the parties of `steps` do over a link that takes time, as the events that make them do it.

Time is in ticks. At tick 0 the guest halts.

- The link carries one packet at a time down, in the order of the host's line: an answer goes before what was pushed and is not yet
  on the wire. A page takes 1 / bandwidth ticks, and arrives a delay later. The state takes as long as so many bytes of pages; a
  packet up takes a delay and no more.
- A packet is under way until the source knows that it has arrived, which is a delay after it did. The source pushes as long as
  fewer than `window` packets are under way.
- A virtual processor works so many ticks between two operations. One that misses a page waits until it is placed; the others go
  on, or all stand still.
- A packet is lost with a probability. A page that somebody waits for is asked for once more each `retry` ticks, and one that
  nobody waits for once all were sent.

The parties themselves take no time. Nothing here is taken from a clock or from threads: the same words give the same events.
"""
import heapq
import math
import random
from collections import deque, namedtuple
from fractions import Fraction

PAGE_BYTES = 4096
# The bytes of a packet beside a page's contents or the released pages, by its kind.
HEADS = {"state": 13, "page": 13, "want": 13, "all": 9}

# Pages a tick, ticks, and the probability that a packet is lost, with the seed that says which.
Link = namedtuple("Link", "bandwidth delay loss seed", defaults=(Fraction(0), 1))

# What a processor does while it waits for a page: the others go on, or the whole guest stands still.
WAITING = ("alone", "all")
# When the source pushes: always, or only once the guest has nothing left to do.
PUSHING = ("always", "last")

# What a migration came to: pages that the guest used at the target, other than released ones; wants for a page that was missed; the
# ticks that processors waited; when the guest was resumed, when it had done its last operation, and when the last page came; pages
# and bytes that were sent; of the used pages, those that came before they were wanted; pages that were sent and not used; packets
# that were lost; and pages that were sent once more.
Counts = namedtuple("Counts", "used asked waited resumed ended last sent bytes early unused lost again")


class Unsent:
    """The pages that are owed and were not sent. It finds the nearest above and below in about constant time."""

    def __init__(self, pages, owed):
        self.pages, self.count = pages, sum(owed)
        # Where to look on from a page: itself if it is unsent. The page before 0 is -1.
        self.above = [page if owed[page] else page + 1 for page in range(pages)] + [pages]
        self.below = [-1] + [page if owed[page] else page - 1 for page in range(pages)]

    def next_above(self, page):
        """The least unsent page from this one on, or None."""
        found = self.find(self.above, page, 0)
        return found if found < self.pages else None

    def next_below(self, page):
        """The greatest unsent page up to this one, or None."""
        found = self.find(self.below, page, 1)
        return found if found >= 0 else None

    @staticmethod
    def find(links, page, shift):
        found = page
        while links[found + shift] != found:
            found = links[found + shift]
        while links[page + shift] != found:
            links[page + shift], page = found, links[page + shift]
        return found

    def has(self, page):
        return self.above[page] == page

    def drop(self, page):
        self.count -= 1
        self.above[page], self.below[page + 1] = page + 1, page - 1


class Bubbling:
    """The host's rule: the unsent page nearest to the pivot in turn, of two equally near the greater."""

    def __init__(self, unsent, most):
        self.unsent, self.most = unsent, most
        self.pivots, self.turn = [0], 0

    def fault_at(self, page):
        if page not in self.pivots:
            self.pivots, self.turn = [page, *self.pivots][:self.most], 0

    def next_pivot(self):
        pivot = self.pivots[self.turn]
        self.turn = (self.turn + 1) % len(self.pivots)
        return pivot

    def choose(self):
        return self.nearest(self.next_pivot())

    def nearest(self, pivot):
        above, below = self.unsent.next_above(pivot), self.unsent.next_below(pivot)
        if above is None or below is None:
            return below if above is None else above
        return above if self.distance_above(above - pivot) <= pivot - below else below

    def distance_above(self, distance):
        return distance


class InOrder(Bubbling):
    """The least unsent page, whatever was asked for."""

    def choose(self):
        return self.unsent.next_above(0)


class Dying(Bubbling):
    """A pivot dies when its own pages are all sent: when the unsent page nearest to it is nearer to another one."""

    def choose(self):
        while True:
            pivot = self.next_pivot()
            page = self.nearest(pivot)
            if len(self.pivots) == 1 or abs(page - pivot) <= min(abs(page - other) for other in self.pivots if other != pivot):
                return page
            at = self.pivots.index(pivot)
            self.pivots.remove(pivot)
            self.turn = at % len(self.pivots)


class Leaning(Bubbling):
    """The pages above a pivot go four times as fast as those below."""
    FASTER = 4

    def distance_above(self, distance):
        return Fraction(distance, self.FASTER)


class Packet:
    __slots__ = ("kind", "page", "is_lost")

    def __init__(self, kind, page=None):
        self.kind, self.page, self.is_lost = kind, page, False


class Timed:
    """A migration of a script's guest over a link. `run` makes the events, and what they come to."""

    def __init__(self, script, link, work, retry=None, waiting="alone", pushing="always", rule=Bubbling, window=None):
        self.script, self.link, self.waiting_kind, self.pushing = script, link, waiting, pushing
        self.window = window or script.window
        # Inside, a tick is as many units as make each time a whole number of them.
        times = [1 / Fraction(link.bandwidth), *map(Fraction, (link.delay, work, retry or 0))]
        self.unit = math.lcm(*(it.denominator for it in times))
        self.page_time, self.delay, self.work, self.retry = (int(it * self.unit) for it in times)
        self.retry = self.retry or 4 * (self.page_time + self.delay)
        self.chance = random.Random(link.seed)
        self.events, self.times, self.happenings = [], [], 0
        self.now = 0
        pages = script.pages
        self.released = self.released_at_halt()
        owed = [page not in self.released for page in range(pages)]
        self.unsent = Unsent(pages, owed)
        self.rule = rule(self.unsent, script.pivots)
        self.absent, self.resident = sum(owed), bytearray(pages)
        self.sent, self.first_sent, self.placed = bytearray(pages), [], []
        self.cancelled = set()
        self.line, self.queue, self.is_sending, self.under_way = deque(), deque(), False, 0
        self.vcpus = [(deque(after), number) for number, (_, after) in enumerate(script.vcpus)]
        self.busy = sum(bool(after) for after, _ in self.vcpus)
        self.standing = []                 # the processors that wait until the whole guest goes on
        self.pending = {}                  # by a page that was asked for: who waits for it, the oldest first
        self.asked_at = {}
        self.since = {}                    # by a processor that waits: since when
        self.is_ready = self.is_resumed = self.is_heard = self.is_done = False
        self.reports = 0
        # What is counted.
        self.touched = bytearray(pages)
        self.used = self.asked = self.early = self.lost = self.again = self.bytes = self.pages_sent = self.waited = 0
        self.resumed_at = self.last_at = self.ended_at = 0

    def released_at_halt(self):
        """The pages whose last write or release before the halt is a release: what `bench/schedule` makes happen is one processor
        after another, as this goes."""
        released = set()
        for before, _ in self.script.vcpus:
            for operation in before:
                if operation[0] == "z":
                    released.add(int(operation[1]))
                elif operation[0] == "w":
                    released.discard(int(operation[1]))
        return released

    # Time.

    def at(self, time, do, *given):
        self.happenings += 1
        heapq.heappush(self.times, (time, self.happenings, do, given))

    def run(self):
        for number, (before, _) in enumerate(self.script.vcpus):
            self.events += [f"guest {number}"] * len(before)
        self.events.append("halt")
        self.offer(Packet("state"))
        self.push()
        while self.times and not (self.is_done and not self.busy):
            self.now, _, do, given = heapq.heappop(self.times)
            do(*given)
        return self.counts()

    def counts(self):
        def ticks(units):
            return units / self.unit
        return Counts(self.used, self.asked, ticks(self.waited), ticks(self.resumed_at), ticks(self.ended_at), ticks(self.last_at), self.pages_sent,
                      self.bytes, self.early, self.pages_sent - self.again - self.used, self.lost, self.again)

    def recorded(self):
        """What the session has to have recorded: the pages in the order of their `send`, and of their placements, and counts of records."""
        operations = sum(len(before) + len(after) for before, after in self.script.vcpus)
        return {"sent": self.first_sent, "again": self.again, "asked": self.asked, "placed": self.placed, "operations": operations, "done": self.is_done}

    # The link.

    def is_losing(self):
        is_lost = bool(self.link.loss) and self.chance.random() < self.link.loss
        self.lost += is_lost
        return is_lost

    def size(self, packet):
        more = {"state": 4 * len(self.released), "page": PAGE_BYTES}.get(packet.kind, 0)
        return HEADS[packet.kind] + more

    def offer(self, packet, is_answer=False):
        self.bytes += self.size(packet)
        self.under_way += 1
        if is_answer:
            self.line.appendleft(packet)
            self.queue.appendleft(packet)
        else:
            self.line.append(packet)
            self.queue.append(packet)
        self.send()

    def send(self):
        """Puts the next packet on the wire, if that is free."""
        if self.is_sending or not self.queue:
            return
        packet = self.queue.popleft()
        packet.is_lost = self.is_losing()
        pages = 1 if packet.kind == "page" else self.size(packet) // PAGE_BYTES
        self.is_sending = True
        self.at(self.now + pages * self.page_time, self.on_wire, packet)

    def on_wire(self, packet):
        self.is_sending = False
        self.at(self.now + self.delay, self.arrive, packet)
        self.send()

    def arrive(self, packet):
        while self.line[0] is not packet:
            self.line.rotate(-1)
            self.events.append("link down back")
        self.line.popleft()
        self.at(self.now + self.delay, self.is_told)
        if packet.is_lost:
            self.events.append("link down lose")
            if packet.kind == "state":
                self.at(self.now + self.retry, self.source_tick)
            self.look_for_lost()
            return
        self.events += ["link down deliver", "pop"]
        if packet.kind == "state":
            self.ready()
        elif self.is_ready:
            self.events.append("deliver")
            self.place(packet.page)
        self.look_for_lost()

    def is_told(self):
        self.under_way -= 1
        self.push()

    def send_up(self, packet):
        self.bytes += self.size(packet)
        self.at(self.now + self.delay, self.arrive_up, packet, self.is_losing())

    def arrive_up(self, packet, is_lost):
        if is_lost:
            self.events.append("link up lose")
        else:
            self.events += ["link up deliver", "serve"]
            self.serve(packet)

    # The source.

    def push(self):
        while self.under_way < self.window and self.unsent.count and not self.is_done and (self.pushing == "always" or not self.busy):
            page = self.rule.choose()
            self.events.append("push")
            self.sends(page)
            self.offer(Packet("page", page))

    def sends(self, page):
        self.pages_sent += 1
        if self.sent[page]:
            self.again += 1
        else:
            self.sent[page] = True
            self.first_sent.append(page)
            self.unsent.drop(page)

    def serve(self, packet):
        self.is_heard = True
        if packet.kind == "all":
            self.is_done = True
            return
        self.rule.fault_at(packet.page)
        self.sends(packet.page)
        self.offer(Packet("page", packet.page), is_answer=True)

    def source_tick(self):
        if not self.is_heard and not self.is_ready:
            self.events.append("source-tick")
            self.offer(Packet("state"))

    # The pager.

    def ready(self):
        if self.is_ready:
            return
        self.is_ready = self.is_resumed = True
        self.resumed_at = self.now
        self.events.append("deliver")
        for _, number in self.vcpus:
            self.at(self.now, self.step, number)
        self.report()

    def place(self, page):
        if self.resident[page]:
            return
        self.resident[page] = True
        self.placed.append(page)
        self.absent -= 1
        self.last_at = self.now
        self.wake(self.pending.pop(page, ()))
        self.report()

    def wake(self, numbers):
        for number in numbers:
            self.waited += self.now - self.since.pop(number)
            self.at(self.now, self.step, number)
        if numbers and not self.since:
            for number, since in self.standing:
                self.waited += self.now - since
                self.at(self.now, self.step, number)
            self.standing = []

    def fault(self, number, page):
        """The pager learns of a miss at once."""
        self.events.append("fault")
        if page in self.released:
            self.resident[page] = True
            self.at(self.now, self.step, number)
            return
        self.since[number] = self.now
        if page in self.pending:
            self.pending[page].append(number)
            return
        self.pending[page] = [number]
        self.asked += 1
        self.events.append("flush")
        self.ask(page)

    def ask(self, page):
        self.asked_at[page] = self.now
        self.send_up(Packet("want", page))
        self.at(self.now + self.retry, self.ask_again, page)

    def ask_again(self, page):
        """A tick asks for the page that was waited for longest."""
        if self.resident[page] or self.now < self.asked_at[page] + self.retry:
            return
        oldest = next(iter(self.pending), page)
        self.tick(oldest)
        if oldest != page:
            self.at(self.now + self.retry, self.ask_again, page)
            self.asked_at[page] = self.now

    def tick(self, page):
        self.events.append("pager-tick")
        self.ask(page)

    def look_for_lost(self):
        """Once all was sent and nothing is under way, a tick asks for the least page that is not there."""
        if not self.is_ready or self.line or self.unsent.count or self.pending or not self.absent:
            return
        page = next(page for page in range(self.script.pages) if not (self.resident[page] or page in self.released))
        if page not in self.asked_at or self.now >= self.asked_at[page] + self.retry:
            self.tick(page)

    def report(self):
        """Says that all is there, once more each time that this is lost."""
        if not self.absent and self.is_ready and not self.is_done:
            self.events.append("pager-tick")
            self.send_up(Packet("all"))
            self.at(self.now + self.retry, self.report)

    # The guest.

    def step(self, number):
        after, _ = self.vcpus[number]
        if not after:
            return
        if self.since and self.waiting_kind == "all":
            self.standing.append((number, self.now))
            return
        operation = after[0]
        page = int(operation[1])
        self.events.append(f"guest {number}")
        if not self.resident[page]:
            if operation[0] == "z":
                self.free(page)
            else:
                self.touch(page, True)
                self.fault(number, page)
                return
        self.touch(page, False)
        after.popleft()
        if after:
            self.at(self.now + self.work, self.step, number)
        else:
            self.busy -= 1
            if not self.busy:
                self.ended_at = self.now
                self.push()

    def touch(self, page, is_missed):
        if self.touched[page]:
            return
        self.touched[page] = True
        if page in self.released or page in self.cancelled:
            return
        self.used += 1
        self.early += not is_missed

    def free(self, page):
        """The guest releases a page that is not there: it is there as zeros, and nobody waits for it."""
        self.resident[page] = True
        self.events.append("fault")
        if page not in self.released:
            self.cancelled.add(page)
            self.absent -= 1
            self.wake(self.pending.pop(page, ()))
            self.report()


class Frugal(Timed):
    """A source that does not send a page twice while it is under way: one that waits in the line goes to the front of it."""

    def serve(self, packet):
        copies = [it for it in self.line if it.page == packet.page] if packet.kind == "want" else []
        if not copies:
            super().serve(packet)
            return
        self.is_heard = True
        self.rule.fault_at(packet.page)
        if copies[0] in self.queue:
            self.queue.remove(copies[0])
            self.queue.appendleft(copies[0])

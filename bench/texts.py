"""The texts that the bench scripts make: sessions, scripts and events."""
import random

# The most records that a log may have, and the most events of a text.
LOG = 1_048_576


def hexadecimal(values):
    return "".join(f"{value:016x}" for value in values)


def contents(chance, pages, cells):
    """Pages at random, none of which begins with zeros alone."""
    return [[chance.getrandbits(64) | 1 for _ in range(cells)] for _ in range(pages)]


def page_lines(memory):
    return [f"page {page} {hexadecimal(values)}" for page, values in enumerate(memory)]


# Sessions.


def session_text(pages, cells, init, guest, source, link, pager):
    lines = ["postcopy-session 1", f"pages {pages}", f"cells {cells}", f"init {len(init)}", *init]
    for name, log in (("guest", guest), ("source", source), ("link", link), ("pager", pager)):
        assert len(log) <= LOG, (name, len(log))
        lines += [f"{name} {len(log)}", *log]
    return "\n".join(lines + ["end", ""])


class Guest:
    """The guest's log, and the memory of one machine that obeys it."""

    def __init__(self, pages, cells, chance):
        self.chance = chance
        self.memory = contents(chance, pages, cells)
        self.released = [False] * pages
        self.log = []

    def read(self, vcpu, page, cell):
        self.log.append(f"r {vcpu} {page} {cell} {self.memory[page][cell]}")

    def write(self, vcpu, page, cell):
        self.memory[page][cell] = value = self.chance.getrandbits(self.chance.choice((20, 64)))
        self.released[page] = False
        self.log.append(f"w {vcpu} {page} {cell} {value}")

    def release(self, vcpu, page):
        self.memory[page] = [0] * len(self.memory[page])
        self.released[page] = True
        self.log.append(f"z {vcpu} {page}")

    def use(self, pages, cells, may_release):
        vcpu, page, cell = self.chance.randrange(64), self.chance.randrange(pages), self.chance.randrange(cells)
        kind = self.chance.randrange(100)
        if kind == 0 and may_release:
            self.release(vcpu, page)
        elif kind < 40:
            self.write(vcpu, page, cell)
        else:
            self.read(vcpu, page, cell)


def plain_session(records, pages, cells, faulty=False, resent=0):
    """A session of so many records in all: the guest runs at the source, is halted and resumed, every page that it has not
    released is sent and placed, and it goes on at the target. It ends with a wrong read where it is faulty; and page 0 may
    be sent so many times more, which is no right shape."""
    chance = random.Random(1)
    guest = Guest(pages, cells, chance)
    init = page_lines(guest.memory)
    uses = max(2, records - 5 * pages - 8)
    for _ in range(uses // 2):
        guest.use(pages, cells, True)
    halt = len(guest.log)
    guest.log += ["halt", "resume 1"]
    source, link, pager = [f"halted {halt}", "state"], ["down 1"], ["got 0", "ready"]
    for page in chance.sample(range(pages), pages):
        if guest.released[page]:
            pager.append(f"zero {page}")
        else:
            values = hexadecimal(guest.memory[page])
            link.append(f"down {len(source)}")
            source.append(f"send {page} {values}")
            pager.append(f"got {len(link) - 1}")
            pager.append(f"place {page} {len(pager) - 1} {values}")
    source += [f"send 0 {hexadecimal(guest.memory[0])}"] * resent
    guest.log += [f"see {place}" for place, record in enumerate(pager) if record.startswith(("place", "zero"))]
    for _ in range(uses - uses // 2):
        guest.use(pages, cells, False)
    if faulty:
        guest.log.append(f"r 0 0 0 {(guest.memory[0][0] + 1) % 2**64}")
    return session_text(pages, cells, init, guest.log, source, link, pager)


def records_of(path):
    """How many records the session in this file has."""
    with open(path, encoding="ascii") as text:
        counts = (line.split() for line in text if line.startswith(("guest ", "source ", "link ", "lane ", "pager ")))
        return sum(int(count) for _, count in counts)


# Scripts and events.


def script_text(pages, cells, init, vcpus, version=1, pivots=1, window=65_536, down="-", up="-", lanes=1):
    """A script; of each virtual processor the operations before `move` and after."""
    lines = [f"postcopy-script {version}", f"pages {pages}", f"cells {cells}", f"init {len(init)}", *init]
    lines += [f"pivots {pivots}", f"window {window}", f"down {down}", f"up {up}"]
    lines += [f"lanes {lanes}"] * (version == 2) + ["lane -"] * (lanes == 2) + [f"vcpus {len(vcpus)}"]
    for before, after in vcpus:
        lines += [f"vcpu {len(before)} {len(after)}", *before, *after]
    return "\n".join(lines + ["end", ""])


def events_text(events):
    assert len(events) <= LOG, len(events)
    return "\n".join(["postcopy-events 1", f"events {len(events)}", *events, "end", ""])


# A guest for scripts: how much it does, and on which machine.
FATES = 4_096


def operations(chance, shape, vcpu, count, releases=False):
    """Reads and writes, seven of eight in the pages of this virtual processor; where it releases, one in fifty is that."""
    pages = max(1, shape.pages // shape.vcpus)
    for _ in range(count):
        page = vcpu * pages % shape.pages + chance.randrange(pages) if chance.randrange(8) else chance.randrange(shape.pages)
        cell = chance.randrange(shape.cells)
        if releases and chance.randrange(50) == 0:
            yield f"z {page}"
            continue
        yield f"r {page} {cell}" if chance.randrange(10) < 6 else f"w {page} {cell} {chance.getrandbits(32)}"


def plain_script(shape, has_fates=False, version=1):
    """A script whose pages all begin with contents, by a shape with `pages`, `cells`, `pivots`, `window`, `vcpus`, and the
    operations of each `before` and `after`. Where it has fates, one packet in twenty is lost, repeated or sent back, as long
    as 4,096 in each direction last. In the second version the guest releases pages after `move`."""
    chance = random.Random(1)
    init = page_lines(contents(chance, shape.pages, shape.cells))
    down, up = ("".join(chance.choice("lrb") if chance.randrange(20) == 0 else "d" for _ in range(FATES)) for _ in range(2))
    vcpus = []
    for vcpu in range(shape.vcpus):
        before = list(operations(chance, shape, vcpu, shape.before))
        vcpus.append((before, list(operations(chance, shape, vcpu, shape.after, version == 2))))
    fates = {"down": down, "up": up} if has_fates else {}
    return script_text(shape.pages, shape.cells, init, vcpus, version, shape.pivots, shape.window, **fates)


def plain_events(shape):
    """Events that let this guest run, halt it, bring all pages over, and let it go on; as many as a text may have."""
    guest = [f"guest {vcpu}" for vcpu in range(shape.vcpus)]
    events = guest * shape.before + ["halt", "link down deliver", "pop", "deliver"]
    events += ["push", "link down deliver", "pop", "deliver"] * shape.pages
    return events_text((events + guest * shape.after)[:LOG])

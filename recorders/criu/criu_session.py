"""Makes the session from the recording of a lazy migration.

A page in an answer has the name (answer, place in it), and a request for a page has the name (request, place in it). The n-th message
that was sent over a connection is the n-th that arrived over it. The parties' logs name each other's records with these names.
"""
from contents import Contents
from criu_plans import BASE, plan_from_text
from page_server import PAGE_BYTES, Requests, header_of
from records import Hole, Session


def whole_lines(data):
    """Returns the lines, without a last one that was not written to its end."""
    return data.decode("ascii").split("\n")[:-1]


def end_of_log(length):
    """Returns the last line of a log in which so many bytes stand before it."""
    return f"end {length}\n"


class Wire:
    """The logs of the source and of the link, from the relay's log."""

    def __init__(self, recording, session):
        self.recording, self.session = recording, session
        self.contents, self.sent = recording.contents("relay.pages"), {}
        self.requests = self.answers = 0
        self.handed = []  # for each answer that was handed over: the bytes up to its end, its number, and its pages' addresses
        self.end = 0
        session.add("source", "halted", halt="halt")
        session.add("source", "state", name="state")
        session.add("link", "down", name="state", sent="state")

    def read(self, words):
        what, *fields = words
        if what == "up":
            self.up(fields[0], int(fields[1]), int(fields[2], 16))
        elif fields[0] == "pages":
            self.pages(int(fields[1]), int(fields[2], 16), int(fields[3]), int(fields[4]))
        elif fields[0] == "status":
            self.handed_over(4, [])

    def up(self, command, pages, address):
        """The source's side has no recorder of its own. What the relay hands over counts as what the source takes."""
        names = [("request", self.requests, place) for place in range(pages) if self.page(address, place) is not None]
        if command != "get":
            names = [("end", self.requests)]
        self.requests += 1
        for name in names:
            self.session.add("link", "up", name=name, sent=name)
            self.session.add("source", "ask", up=name)
        if command != "get":
            self.session.add("source", "done")

    def page(self, address, place):
        return self.recording.page_of(address + place * PAGE_BYTES)

    def pages(self, count, address, first, given):
        """Takes an answer. The first `given` of its pages were handed over."""
        addresses = [address + place * PAGE_BYTES for place in range(count)]
        for place, at in enumerate(addresses):
            page = self.recording.page_of(at)
            if page is None:
                continue
            name = ("page", self.answers, place)
            if page in self.sent:
                self.session.add("source", "again", name=name, sent=self.sent[page])
            else:
                self.sent[page] = name
                self.session.add("source", "send", name=name, page=page, contents=self.contents(first + place))
            if place < given:
                self.session.add("link", "down", name=name, sent=name)
        if given:
            self.handed_over(self.recording.header.size + given * PAGE_BYTES, addresses[:given])
        self.answers += 1

    def handed_over(self, length, addresses):
        self.end += length
        self.handed.append((self.end, self.answers, addresses))


class Sides:
    """The logs of the guest and of the pager, from the file that the process and lazy-pages both write."""

    def __init__(self, recording, session, wire):
        self.recording, self.session, self.wire = recording, session, wire
        self.contents = recording.contents("target.pages")
        self.requests, self.asked = Requests(recording.header), 0
        self.taken = 0          # whole answers that the pager took
        self.arrived = {}       # by page, what the pager took and has not placed: the name of its record
        self.placed = {}        # by page, the number of its placement
        self.placements = self.seen = self.misses = 0
        self.waiting = {}       # by page, its misses without a recorded fault
        self.released = set()   # pages that are released at the halt
        self.settled = set()    # pages that were released at the target
        self.giving_up = None   # a thread and a page that it is about to release
        self.is_halted = self.is_resumed = self.is_ready = False

    def read(self, words):
        who, *rest = words
        if who == "g":
            self.guest(int(rest[0]), rest[1], int(rest[2]), rest[3:])
        elif who == "p":
            self.pager(rest[0], rest[1:])
        elif who == "s":
            self.is_halted = True
            self.session.add("guest", "halt", name="halt")
        elif who == "t":
            self.be_ready()
            self.is_resumed = True
            self.session.add("guest", "resume", ready="ready")

    def end(self):
        self.give_up()
        self.drop_arrived()

    # The guest

    def guest(self, thread, what, page, fields):
        if self.is_halted and not self.is_resumed:
            raise Hole("log: the process told something between its halt and its resume")
        self.give_up()
        if what in "rw":
            self.look(page)
            self.session.add("guest", {"r": "read", "w": "write"}[what], vcpu=thread, page=page, cell=int(fields[0]), value=int(fields[1], 16))
            if what == "w" and not self.is_halted:
                self.released.discard(page)
        elif what == "m" and self.is_resumed and page not in self.settled and page not in self.placed:
            self.misses += 1
            self.waiting.setdefault(page, []).append(("miss", self.misses))
            self.session.add("guest", "miss", name=("miss", self.misses), vcpu=thread, page=page)
        elif what == "z":
            self.giving_up = thread, page
            if not self.is_resumed:
                self.give_up()

    def look(self, page):
        """Takes a look at a page, which shows its placement, if that was recorded before."""
        number = self.placed.get(page, 0)
        if self.is_resumed and page not in self.settled and number > self.seen:
            self.seen = number
            self.session.add("guest", "see", placement=("placement", number))

    def give_up(self):
        """Releases the page that was about to be released. At the target this is when lazy-pages takes the message, and at the latest
        when the process continues, because it waits for that."""
        if self.giving_up is None:
            return
        thread, page = self.giving_up
        self.giving_up = None
        self.look(page)
        self.session.add("guest", "release", vcpu=thread, page=page)
        (self.settled if self.is_resumed else self.released).add(page)

    # The pager

    def be_ready(self):
        """Memory is guarded before lazy-pages has the descriptor that it needs for everything, and before the process runs."""
        if not self.is_ready:
            self.is_ready = True
            self.session.add("pager", "got", down="state")
            self.session.add("pager", "ready", name="ready")

    def pager(self, what, fields):
        self.be_ready()
        if what in ("place", "zero"):
            if (page := self.recording.page_of(int(fields[0], 16))) is not None:
                self.place(page, int(fields[1])) if what == "place" else self.zero(page)
        elif what in ("refused", "early"):
            pass  # what is refused is dropped, but a page that was opened too early is placed
        else:
            self.drop_arrived()
            self.went_on(what, fields)

    def went_on(self, what, fields):
        if what == "fault":
            self.fault(self.recording.page_of(int(fields[0], 16)))
        elif what == "remove":
            self.remove(int(fields[0], 16), int(fields[1], 16))
        elif what == "up":
            for message in self.requests.feed(bytes.fromhex(fields[0])):
                self.ask(message)
        elif what == "down":
            self.take(int(fields[0]))
        elif what == "end":
            self.give_up_guard()

    def fault(self, page):
        """A message names no thread. It is the miss of the only thread that waits for the page."""
        if len(misses := self.waiting.get(page, [])) == 1:
            self.session.add("pager", "fault", miss=misses.pop())

    def remove(self, start, end):
        if self.giving_up and start <= BASE + self.giving_up[1] * PAGE_BYTES < end:
            self.give_up()

    def ask(self, message):
        if message.command == "get":
            for place, address in enumerate(message.addresses()):
                if (page := self.recording.page_of(address)) is not None:
                    self.session.add("pager", "want", name=("request", self.asked, place), page=page)
        else:
            self.session.add("pager", "all", name=("end", self.asked))
        self.asked += 1

    def take(self, count):
        """Takes this many bytes of the answers, in all."""
        handed = self.wire.handed
        while self.taken < len(handed) and handed[self.taken][0] <= count:
            _, answer, addresses = handed[self.taken]
            for place, address in enumerate(addresses):
                if (page := self.recording.page_of(address)) is not None:
                    name = self.arrived[page] = ("page", answer, place)
                    self.session.add("pager", "got", name=name, down=name)
            self.taken += 1

    def drop_arrived(self):
        """CRIU places as much of an answer as it can before it does anything else. What is left is dropped."""
        for name in self.arrived.values():
            self.session.add("pager", "skip", got=name)
        self.arrived.clear()

    def place(self, page, contents):
        if page not in self.arrived:
            raise Hole(f"log: page {page} is put in place, and no answer with it was taken")
        self.put(page, "place", got=self.arrived.pop(page), contents=self.contents(contents))

    def zero(self, page):
        """Zeros are a placement if the page was released at the halt. For any other page they are nobody's."""
        if page in self.released and page not in self.settled and page not in self.placed:
            self.put(page, "zero")

    def give_up_guard(self):
        """Without a guard the kernel gives zeros for each absent page. They are right for pages that were released at the halt."""
        for page in sorted(self.released):
            self.zero(page)

    def put(self, page, call, **fields):
        self.placements += 1
        self.placed.setdefault(page, self.placements)
        self.waiting.pop(page, None)
        self.session.add("pager", call, name=("placement", self.placements), page=page, **fields)


class Recording:
    """The files of a recording; `read(name)` returns the bytes of one."""

    wire, sides = Wire, Sides

    def __init__(self, read):
        self.read = read
        self.plan = plan_from_text(read("plan.json").decode())
        self.header = header_of(self.plan.criu)

    def page_of(self, address):
        """Returns the number of a page of the window, or None."""
        page = (address - BASE) // PAGE_BYTES
        return page if 0 <= page < self.plan.pages else None

    def contents(self, name):
        """Returns a function that reads the cells of a page in a file of contents."""
        contents = Contents(self.read, self.plan.words)
        return lambda place: contents.cells(name, place)

    def log(self, is_whole):
        """Returns the log without its end, which must be there if the recording is whole."""
        data = self.read("log")
        before = data[:data.rfind(b"\n", 0, -1) + 1]
        if data[len(before):] == end_of_log(len(before)).encode("ascii"):
            return before
        if is_whole and self.plan.log_has_end:
            raise Hole("log: its end is missing")
        return data

    def session(self, is_whole=True):
        """Returns the session. If the recording is not whole, its log may end early."""
        session = Session(self.plan.pages, self.plan.words, self.plan.has_releases_at_target)
        wire = self.wire(self, session)
        for line in whole_lines(self.read("relay.log")):
            wire.read(line.split())
        sides = self.sides(self, session, wire)
        for line in whole_lines(self.log(is_whole)):
            sides.read(line.split())
        if not sides.is_resumed:
            raise Hole("there was no post-copy: the process was not resumed at the target")
        sides.end()
        return session


def recording_in(folder):
    def read(name):
        with open(f"{folder}/{name}", "rb") as file:
            return file.read()
    return Recording(read)

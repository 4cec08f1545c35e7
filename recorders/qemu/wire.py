"""The relay's log: what went over which connection, and the order of the link and of the lane.

A page has the name (connection, place among the pages that were taken from it), and a request has the name (connection, place among
its requests). The parties' logs name each other's records with these names.
"""
from dataclasses import dataclass, field

from records import Hole
from stream import PAGE_BYTES

ZERO = "zero"


@dataclass(frozen=True)
class Taken:
    """A page as the relay took it. `page` is None outside the window."""
    page: object
    contents: str


@dataclass
class Connection:
    number: int
    is_lane: bool
    taken: list = field(default_factory=list)      # Taken, in order
    handed: list = field(default_factory=list)     # their places in `taken`, in the order in which they were handed over
    requests: list = field(default_factory=list)   # pages, or None
    is_cut: bool = False

    @property
    def log(self):
        return "lane" if self.is_lane else "link"


class Wire:
    def __init__(self, lines, page_of, pages):
        """`page_of(block, offset)` returns a page of the window or None."""
        self.page_of, self.pages = page_of, pages
        self.connections, self.discarded, self.last_before = [], set(), {}
        self.order = []       # (log, "down" or "up", name), which is ("state",), ("left", page), ("page", c, n) ..
        self.has_state = self.is_shut = False
        self.strange = ""     # what was not understood in the stream
        for line in lines:
            self.read(line.split())

    def read(self, words):
        what, *fields = words
        if what in ("fault", "multifd", "late"):
            return
        if what == "strange":
            self.strange = " ".join(fields)
            return
        if what == "open":
            self.connections.append(Connection(len(self.connections), fields[1] == "lane"))
            return
        connection = self.connections[int(fields[0])]
        if what == "cut":
            connection.is_cut = True
        elif connection.is_cut:
            raise Hole(f"relay.log tells of connection {connection.number} after its cut: {' '.join(words)}")
        elif fields[1] == "page":
            self.page(what, connection, *fields[2:])
        elif fields[1] == "discard":
            self.discard(fields[2], int(fields[3]), int(fields[4]))
        elif fields[1] == "state":
            self.state(connection)
        elif fields[1] == "request":
            self.request(connection, self.page_of(fields[2], int(fields[3])))
        elif fields[1] == "shut":
            self.is_shut = True
            self.order.append((connection.log, "up", ("shut",)))

    def page(self, how, connection, phase, block, offset, taken, given):
        page = self.page_of(block, int(offset))
        if phase == "pre":
            if page is not None and how != "lost":
                self.last_before[page] = given
            return
        if how != "again":
            connection.taken.append(Taken(page, taken))
        if how == "lost":
            return
        place = len(connection.taken) - 1
        connection.handed.append(place)
        if page is not None:
            self.order.append((connection.log, "down", ("page", connection.number, place, len(connection.handed) - 1)))

    def discard(self, block, start, length):
        self.discarded.update(
            page for offset in range(start, start + length, PAGE_BYTES) if (page := self.page_of(block, offset)) is not None)

    def state(self, connection):
        """Takes the package. Pages that are not discarded are at the target already: they count as if they went with it."""
        if self.has_state:
            raise Hole("relay.log: a second package")
        self.has_state = True
        self.left = [page for page in range(self.pages) if page not in self.discarded]
        self.order.append((connection.log, "down", ("state",)))
        self.order += [(connection.log, "down", ("left", page)) for page in self.left]

    def request(self, connection, page):
        connection.requests.append(page)
        if page is not None:
            self.order.append((connection.log, "up", ("request", connection.number, len(connection.requests) - 1)))

    def of(self, is_lane, generation):
        """Returns the main connection or the lane after this many recoveries, or None."""
        same = [connection for connection in self.connections if connection.is_lane == is_lane]
        return same[generation] if generation < len(same) else None

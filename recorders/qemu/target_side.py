"""The guest's log from the resume on, and the pager's log."""
from dialect import Moments
from pipe import Access, Look
from records import Hole
from stream import PAGE, PAGE_BYTES, REQUEST, REQUEST_WITH_BLOCK, SHUT
from stream import ZERO as ZERO_FLAG
from wire import ZERO


class TargetSide:
    """`is_in_flight` says that the guest may have touched the page of its first access at the source, and `is_first_done` that it did
    this access there."""

    def __init__(self, session, wire, contents, base, version, is_in_flight, is_first_done):
        self.session, self.wire, self.contents, self.base = session, wire, contents, base
        self.moments = Moments("target", version)
        self.is_in_flight, self.is_first_done = is_in_flight, is_first_done
        self.is_guarded = self.is_ready = self.is_resumed = self.has_state = self.is_shut = False
        self.is_first, self.is_shown = True, False  # whether there was no access yet, and whether the last look showed its page
        self.have = []        # pages that were there when memory was guarded, with the places of their contents
        self.placed = {}      # by page, the number of its first placement among all placements
        self.placements = self.seen = self.misses = 0
        self.missed = {}      # by page, the name of its last miss
        self.arrived = {}     # by page, the name of its last packet
        self.over = {False: 0, True: 0}           # main connection, lane: after this many recoveries
        self.messages_over = 0
        self.count = {False: 0, True: 0}          # pages that came over each
        self.requested = 0

    def read(self, pipe, data):
        for token in pipe.tokens(data):
            if isinstance(token, str):
                for moment, fields in self.moments.of(token):
                    self.act(moment, fields)
            elif isinstance(token, Look):
                self.look(token)
            elif isinstance(token, Access):
                if not self.is_first or self.is_told_first(token):
                    self.session.add("guest", token.what, vcpu=token.actor, page=token.page, cell=token.cell, value=token.value)
                self.is_first = False
        if not self.is_ready:
            raise Hole("target.raw: the target never listened")
        if not self.is_guarded:
            raise Hole("target.raw: the preloaded library reported no guarded memory")

    def is_told_first(self, access):
        """Returns whether the first access at the target belongs to the target's log.

        If its page was touched at the source, no look at the target waited for the page. Then a read is left out, because it may have
        been done at the source. A write was done at the target; only the kernel says that it waited.
        """
        if self.is_first_done:
            return False
        if self.is_shown or not self.is_in_flight:
            return True
        if access.what == "read":
            return False
        if access.page in self.placed:
            self.see(self.placed[access.page])
        return True

    def add(self, what, name=None, **fields):
        self.session.add("pager", what, name, **fields)

    def act(self, moment, fields):
        if moment == "state":
            if not self.has_state:
                self.has_state = True
                self.add("got", down=("state",))
        elif moment == "ready":
            self.ready()
        elif moment == "resume":
            self.resume()
        elif moment == "taken":
            self.take(int(fields.get("channel", 0)) > 0, int(fields["offset"], 16), int(fields["flags"], 16))
        elif moment == "message":
            self.message(int(fields["kind"]))
        elif moment == "messages over a new connection":
            self.messages_over, self.requested = self.messages_over + 1, 0
        elif moment in ("pages over a new connection", "pages over a new lane"):
            is_lane = moment == "pages over a new lane"
            self.over[is_lane], self.count[is_lane] = self.over[is_lane] + 1, 0
        elif moment == "guard":
            self.is_guarded = True
        elif moment == "have":
            self.have.append((int(fields["page"]), fields["place"]))
        elif moment == "fault":
            if int(fields["page"]) in self.missed:
                self.add("fault", miss=self.missed[int(fields["page"])])
        elif moment in ("place", "zero"):
            self.place(int(fields["page"]), fields.get("place", ZERO))
        elif moment == "refused":
            if int(fields["page"]) in self.arrived:
                self.add("skip", got=self.arrived[int(fields["page"])])

    # The guest

    def look(self, look):
        """Takes a look. It shows the page's placement, if that comes before it in the pipe."""
        self.is_shown = look.page in self.placed
        if self.is_shown:
            self.see(self.placed[look.page])
            return
        if look.page in self.missed and self.session.is_last("guest", self.missed[look.page]):
            return  # the second look of one access
        self.misses += 1
        self.missed[look.page] = name = ("miss", self.misses)
        self.session.add("guest", "miss", name=name, vcpu=look.actor, page=look.page)

    def see(self, placement):
        if placement > self.seen:
            self.seen = placement
            self.session.add("guest", "see", placement=("placement", placement))

    def resume(self):
        if self.is_resumed:
            return
        self.is_resumed = True
        self.session.add("guest", "resume", ready=("ready",))
        if self.placements:
            self.see(self.placements)

    # The pager

    def ready(self):
        self.is_ready = True
        self.add("ready", name=("ready",))
        left = set(self.wire.left)
        for page, place in self.have:
            if page in left:
                self.arrived[page] = ("left", page)
                self.add("got", name=("left", page), down=("left", page))
                self.place(page, place)

    def take(self, is_lane, offset, flags):
        """Takes a page: the n-th that is taken from a connection is the n-th that was handed over there."""
        if not flags & (ZERO_FLAG | PAGE):
            return
        connection = self.wire.of(is_lane, self.over[is_lane])
        place, self.count[is_lane] = self.count[is_lane], self.count[is_lane] + 1
        if not connection or place >= len(connection.handed):
            raise Hole(f"target.raw: page {place} of a connection that handed over fewer pages")
        page = connection.taken[connection.handed[place]].page
        if page is None:
            return
        if offset != self.base + page * PAGE_BYTES:
            raise Hole(f"target.raw: page {place} of connection {connection.number} is at {offset:#x}, and {page} was handed over")
        name = ("packet", connection.number, place)
        self.arrived[page] = name
        self.add("pull" if is_lane else "got", name=name, down=("handed", connection.number, place))

    def message(self, kind):
        """Takes a request: the n-th that the target makes is the n-th that its connection hands over. Those after a cut are lost."""
        if kind == SHUT:
            if not self.is_shut:
                self.is_shut = True
                self.add("all", name=("shut",))
            return
        if kind not in (REQUEST, REQUEST_WITH_BLOCK):
            return
        connection = self.wire.of(False, self.messages_over)
        place, self.requested = self.requested, self.requested + 1
        if connection and place < len(connection.requests) and connection.requests[place] is not None:
            self.add("want", name=("request", connection.number, place), page=connection.requests[place])

    def place(self, page, contents):
        if page not in self.arrived:
            raise Hole(f"target.raw: page {page} is placed, but no packet with it was taken")
        self.placements += 1
        self.placed.setdefault(page, self.placements)
        self.add("place", name=("placement", self.placements), page=page, got=self.arrived[page],
                 contents=self.contents.cells("target.pages", contents))

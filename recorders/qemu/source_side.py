"""The guest's log up to the halt, and the source's log."""
from dialect import Moments
from pipe import Access, InFlight
from records import Hole
from wire import ZERO


class SourceSide:
    """`done(in_flight)` returns the access that the halt interrupted, if it was done before the halt."""

    def __init__(self, session, wire, contents, is_from_halt, version, done):
        self.session, self.wire, self.contents, self.is_from_halt, self.done_before = session, wire, contents, is_from_halt, done
        self.moments = Moments("source", version)
        self.is_halted = self.is_done = self.is_started_again = False
        self.in_flight, self.last = InFlight(), None  # at the halt; the access that it interrupted, if that was done before
        self.pages_over = self.asks_over = 0   # after this many recoveries
        self.asked = 0                         # requests that were taken from their connection
        self.position = {connection.number: 0 for connection in wire.connections}
        self.sent = set()

    def add(self, what, name=None, **fields):
        self.session.add("source", what, name, **fields)

    def read(self, pipe, data):
        for token in pipe.tokens(data):
            if isinstance(token, Access):
                if not self.is_started_again:  # no record is about a guest that continues at the source
                    self.access(token)
            elif isinstance(token, str):
                for moment, fields in self.moments.of(token):
                    if moment == "halt" and not self.is_halted:
                        self.in_flight = pipe.in_flight()
                    self.act(moment, fields)
        if not self.is_started_again:
            self.in_flight = pipe.in_flight()
        if not self.is_halted:
            raise Hole("source.raw: the guest was never halted")
        self.send_rest()

    def access(self, access):
        self.session.add("guest", access.what, vcpu=access.actor, page=access.page, cell=access.cell, value=access.value)

    def act(self, moment, fields):
        if moment == "halt":
            if not self.is_halted:
                self.halt()
        elif not self.is_halted or self.is_started_again:
            return
        elif moment == "start again":
            self.start_again()
        elif moment == "page":
            self.page_is_traced(self.wire.page_of(fields["block"], int(fields["offset"], 16)))
        elif moment == "ask":
            self.ask()
        elif moment == "shut":
            self.done()
        elif moment == "pages over a new connection":
            self.send_rest(upto=self.pages_over)
            self.pages_over += 1
            self.send_untraced()
        elif moment == "asks over a new connection":
            self.asks_over, self.asked = self.asks_over + 1, 0

    def halt(self):
        self.is_halted = True
        self.guest_halts()
        self.add("halted", halt=("halt",))
        if not self.wire.has_state:
            return
        self.add("state", name=("state",))
        for page in self.wire.left:
            self.add("send", name=("left", page), page=page, contents=self.contents.cells("halt.mem", page))
        self.send_untraced()

    def guest_halts(self):
        """Ends the guest's log at the source."""
        self.last = self.done_before(self.in_flight)
        if self.last:
            self.access(self.last)
        if self.is_from_halt:
            self.session.logs["guest"].clear()
            self.session.initial = {page: self.contents.cells("halt.mem", page) for page in range(self.session.pages)}
        self.session.add("guest", "halt", name=("halt",))

    def start_again(self):
        """Writes the last record of the source: after it, the source does nothing for a migration."""
        self.send_rest()
        self.add("back")
        self.is_started_again = True

    # Pages have the order of their connection. Between connections, and among requests, the order is that of the trace.

    def connections(self):
        both = (self.wire.of(is_lane, self.pages_over) for is_lane in (False, True))
        return [connection for connection in both if connection]

    def next_of(self, connection):
        place = self.position[connection.number]
        return connection.taken[place] if place < len(connection.taken) else None

    def send(self, connection):
        place = self.position[connection.number]
        taken = connection.taken[place]
        self.position[connection.number] += 1
        if taken.page is None:
            return
        name = ("page", connection.number, place)
        if taken.page in self.sent:
            self.add("again", name=name, sent=("sent", taken.page))
            return
        self.sent.add(taken.page)
        self.add("send", name=name, page=taken.page, contents=self.contents.cells("relay.pages", taken.contents))
        self.session.name_too("source", name, ("sent", taken.page))

    def send_untraced(self):
        """A page of zeros is in no trace. It is sent as early as its connection allows, so never after something that it caused."""
        for connection in self.connections():
            while (taken := self.next_of(connection)) and (taken.page is None or taken.contents == ZERO):
                self.send(connection)

    def page_is_traced(self, page):
        if page is None:
            return
        for connection in self.connections():
            taken = self.next_of(connection)
            if taken and taken.page == page:
                self.send(connection)
                self.send_untraced()
                return

    def send_rest(self, upto=None):
        """Sends what was taken from connections that have ended, and was not traced."""
        rest = []
        for generation in range(len(self.wire.connections) if upto is None else upto + 1):
            for is_lane in (False, True):
                connection = self.wire.of(is_lane, generation)
                if connection and self.position[connection.number] < len(connection.taken):
                    rest.append(connection)
        for connection in rest:
            while self.position[connection.number] < len(connection.taken):
                self.send(connection)

    # Answers

    def ask(self):
        """Takes a request: the n-th that the source takes is the n-th that its connection handed over."""
        connection = self.wire.of(False, self.asks_over)
        place, self.asked = self.asked, self.asked + 1
        if connection and place < len(connection.requests) and connection.requests[place] is not None:
            self.add("ask", up=("request", connection.number, place))

    def done(self):
        if self.wire.is_shut and not self.is_done:
            self.is_done = True
            self.send_rest()
            self.add("ask", up=("shut",))
            self.add("done")

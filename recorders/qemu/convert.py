"""Makes the session from the recording of a migration, and says whether the source started its guest again."""
from dataclasses import dataclass

from contents import Contents
from dialect import RUNS, STOPS
from kinds import plan_from_text
from pipe import Access, Pipe, text_of
from postcopy.records import SMALL
from records import Hole, Session
from relay import Window
from source_side import SourceSide
from target_side import TargetSide
from wire import Wire


@dataclass(frozen=True)
class Restart:
    """The source started its guest again after the halt. This has the accesses on each side since then, and how many of them are the
    same, from the first on. `is_both` says that the target had started the guest too."""
    is_both: bool
    at_source: int
    at_target: int
    same: int

    @property
    def name(self):
        return "both ran" if self.is_both else "returned"

    def line(self):
        since = f"the source started its guest again; it told {self.at_source} accesses since"
        if not self.is_both:
            return f"returned: {since}, and the guest never ran at the target"
        return f"both ran: {since}, and the guest at the target {self.at_target}; the first {self.same} of both are the same"


class Recording:
    """The files of a recording; `read(name)` returns the bytes of one."""

    source_side, target_side = SourceSide, TargetSide

    def __init__(self, read):
        self.read = read
        self.plan = plan_from_text(read("plan.json"))
        self.window = Window(self.plan.base, self.plan.pages)
        self.contents = Contents(read, self.plan.words)
        whole_lines = read("relay.log").decode().split("\n")[:-1]  # without a last line that was not written to its end
        self.wire = Wire(whole_lines, self.window.page, self.plan.pages)

    def session(self, is_from_halt=False):
        """Returns the session. With `is_from_halt` it begins with the memory at the halt."""
        plan = self.plan
        session = Session(plan.pages, plan.words, plan.preempt)
        session.is_from_halt = is_from_halt
        if not self.wire.has_state and self.wire.strange:
            raise Hole(f"the stream has what is not known here: {self.wire.strange}")
        if not self.wire.has_state:
            raise Hole("there was no post-copy: the state was never handed over in a package")
        source = self.source_side(session, self.wire, self.contents, is_from_halt, plan.source_version, self.done_before)
        source.read(Pipe(), self.read("source.raw"))
        is_in_flight = source.in_flight.is_behind_touch(is_by_block=not plan.kvm)
        target = self.target_side(session, self.wire, self.contents, plan.base, plan.target_version, is_in_flight, bool(source.last))
        target.read(Pipe(source.in_flight), self.read("target.raw"))
        self.target = target
        self.links(session)
        if len(session.logs["guest"]) > SMALL.records and not is_from_halt:
            return self.session(is_from_halt=True)
        return session

    def require_end(self):
        """Raises Hole if what the target recorded has no end. The recorder stops the guest there, so nothing is told behind that."""
        told = text_of(self.read("target.raw"))
        if told.rfind(STOPS) < told.rfind(RUNS):
            raise Hole("target.raw: its end is missing")

    def done_before(self, in_flight):
        """Returns the access that the halt interrupted, if it was done before the halt."""
        return in_flight.done(self.read("target.raw"), self.cell_at_halt)

    def cell_at_halt(self, page, cell):
        return int.from_bytes(self.contents.page("halt.mem", page)[cell * 8:cell * 8 + 8], "little")

    def restart(self):
        """Returns the Restart, or None if the source did not start its guest again."""
        told = text_of(self.read("source.raw"))
        halt = told.find(STOPS)
        if not self.wire.has_state or halt < 0 or told.find(RUNS, halt) < 0:
            return None
        pipe, in_flight, is_again, since = Pipe(), None, False, []
        for token in pipe.tokens(self.read("source.raw")):
            if isinstance(token, str):
                if STOPS in token and in_flight is None:
                    in_flight = pipe.in_flight()
                is_again = is_again or in_flight is not None and RUNS in token
            elif is_again and isinstance(token, Access):
                since.append(token)
        there = []
        try:
            there.extend(token for token in Pipe(in_flight).tokens(self.read("target.raw")) if isinstance(token, Access))
        except Hole:
            pass  # a guest that lost its stack: what it recorded before that counts
        same = next((place for place, (one, other) in enumerate(zip(since, there)) if one != other), min(len(since), len(there)))
        return Restart(RUNS in text_of(self.read("target.raw")), len(since), len(there), same)

    def links(self, session):
        """Makes the logs of the link and of the lane, in the relay's order."""
        for log, what, name in self.wire.order:
            if what == "up":
                session.add(log, "up", name=name, sent=name)
            elif name[0] == "page":
                _, connection, taken, handed = name
                session.add(log, "down", name=("handed", connection, handed), sent=("page", connection, taken))
            else:
                session.add(log, "down", name=name, sent=name)


def recording_in(folder):
    def read(name):
        with open(f"{folder}/{name}", "rb") as file:
            return file.read()
    return Recording(read)

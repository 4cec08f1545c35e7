"""What one QEMU wrote to its pipe, in order: the guest's events, and lines of QEMU's trace and of the preloaded library.

The guest's bytes have bit 7 set, and everything else is ASCII, so they can be told apart even within a line.
"""
import re
from dataclasses import dataclass

from records import Hole

GUEST = re.compile(rb"\xc0(?P<actor>[\x80-\xbf])|\xc1(?P<look>[\x80-\xbf]{3})|\xc2(?P<read>[\x80-\xbf]{16})"
                   rb"|\xc3(?P<write>[\x80-\xbf]{16})\xc4", re.S)
PARTS = re.compile(rb"[\x80-\xff]+|[\x00-\x7f]+")
GUESTS = bytes(range(0x80, 0x100))  # the guest's bytes
CELL = (1 << 64) - 1
READ, WRITE = 0xc2, 0xc3
READ_HEAD = 6     # bytes of a read before its value
WRITE_WHOLE = 17  # bytes of a write before its last one
LOOKS = 2         # looks of the guest before each access


@dataclass(frozen=True)
class Look:
    actor: int
    page: int


@dataclass(frozen=True)
class Access:
    actor: int
    what: str
    page: int
    cell: int
    value: int


def number(data):
    return sum((byte & 63) << 6 * place for place, byte in enumerate(data))


def text_of(data):
    """Returns the lines of a pipe, without the guest's bytes."""
    return data.translate(None, GUESTS).decode()


@dataclass(frozen=True)
class InFlight:
    """What the guest has written about its current access: the bytes of an event that it has begun, and the looks before it."""
    begun: bytes = b""
    actor: int = 0
    looks: int = 0

    def is_behind_touch(self, is_by_block):
        """Returns whether the guest may have touched the page of its access already, so that no later look at it waits for the page.

        The touch is between the first look and the second. `is_by_block` says that a processor stops only between an `out` and what
        follows it.
        """
        return self.looks == LOOKS or self.looks == 1 and (bool(self.begun) or not is_by_block)

    def done(self, rest, memory_at):
        """Returns the access if it was done already, or None. `rest` is what follows, and `memory_at(page, cell)` is the memory now.

        A read was done if a byte of its value was written; the other bytes follow. A write was done if everything but its last byte was
        written, and the memory has its value.
        """
        if len(self.begun) == WRITE_WHOLE and self.begun[0] == WRITE:
            page, cell, value = number(self.begun[1:4]), number(self.begun[4:6]), number(self.begun[6:]) & CELL
            return Access(self.actor, "write", page, cell, value) if memory_at(page, cell) == value else None
        if len(self.begun) > READ_HEAD and self.begun[0] == READ:
            return next((token for token in Pipe(self).tokens(rest) if isinstance(token, Access)), None)
        return None


class Pipe:
    """Reads tokens: Look, Access, or a line of text. An event that the guest has begun continues in the next pipe."""

    def __init__(self, in_flight=InFlight()):
        self.begun, self.actor, self.looks = bytearray(in_flight.begun), in_flight.actor, in_flight.looks

    def in_flight(self):
        return InFlight(bytes(self.begun), self.actor, self.looks)

    def tokens(self, data):
        line = ""
        for match in PARTS.finditer(data):
            part = match.group()
            if part[0] >= 0x80:
                yield from self.events(part)
            else:
                *whole, line = (line + part.decode()).split("\n")
                yield from whole

    def events(self, part):
        """Yields the guest's events that these bytes complete. The moment of an event is its last byte."""
        self.begun += part
        end = 0
        for match in GUEST.finditer(self.begun):
            if match.start() != end:
                break
            end = match.end()
            what = match.lastgroup
            data = match.group(what)
            if what == "actor":
                self.actor = number(data)
            elif what == "look":
                self.looks += 1
                yield Look(self.actor, number(data))
            else:
                self.looks = 0
                yield Access(self.actor, what, number(data[:3]), number(data[3:5]), number(data[5:]) & CELL)
        del self.begun[:end]
        if len(self.begun) > 64:
            raise Hole(f"the guest's bytes {self.begun[:32].hex()} are no event")

"""The protocol between `criu lazy-pages` and the page server of `criu dump --lazy-pages`.

A message is a header: a command, a count of pages, an address, and the owner of the memory. The page server answers requests in their
order: a request for pages with a header and their contents, and the end with a number.
"""
import struct
from collections import deque
from dataclasses import dataclass

PAGE_BYTES = 4096
COMMANDS = {4: "open", 5: "parent", 6: "add", 7: "get", 0x1023: "close", 0x1024: "force-close"}
NUMBERS = {name: number for number, name in COMMANDS.items()}
IS_PRESENT = 1 << 2  # among the flags of `add`: contents follow
STATUS = struct.Struct("<i")
MOST_PAGES = 1 << 20  # of a message; CRIU asks for 4 MiB at most

# The header: up to 4.1 the count of pages has 32 bits, from 4.2 on 64.
NARROW, WIDE = struct.Struct("<IIQQ"), struct.Struct("<I4xQQQ")


class Strange(Exception):
    """The protocol has something unknown. The message says what."""


def header_of(version):
    """Returns the form of the headers for a version of CRIU, such as `4.1.1`."""
    return WIDE if tuple(int(part) for part in version.split(".")[:2]) >= (4, 2) else NARROW


@dataclass(frozen=True)
class Message:
    """A message. `contents` are those of the pages that came with it."""
    command: str
    pages: int
    address: int
    whose: int
    flags: int = 0
    contents: bytes = b""

    def to_bytes(self, header):
        return header.pack(NUMBERS[self.command] | self.flags << 16, self.pages, self.address, self.whose) + self.contents

    def addresses(self):
        """Returns the address of each page."""
        return range(self.address, self.address + self.pages * PAGE_BYTES, PAGE_BYTES)


@dataclass(frozen=True)
class Status:
    """The answer to the end."""
    value: int

    def to_bytes(self, header):
        return STATUS.pack(self.value)


def message_of(header, data):
    command, pages, address, whose = header.unpack_from(data)
    if command & 0xffff not in COMMANDS:
        raise Strange(f"a message of the page server's protocol has the unknown command {command & 0xffff}")
    if pages > MOST_PAGES:
        raise Strange(f"a message of the page server's protocol is of {pages} pages")
    return Message(COMMANDS[command & 0xffff], pages, address, whose, command >> 16)


class Requests:
    """Reads requests. `feed` returns the messages that are whole with these bytes."""

    def __init__(self, header):
        self.header, self.data = header, bytearray()

    def feed(self, data):
        self.data += data
        at, found = 0, []
        while len(self.data) - at >= self.header.size:
            found.append(message_of(self.header, self.data[at:at + self.header.size]))
            at += self.header.size
        del self.data[:at]
        return found


class Answers:
    """Reads answers, in the order in which `asked` was called."""

    def __init__(self, header):
        self.header, self.data, self.waiting = header, bytearray(), deque()

    def asked(self, message):
        if message.command not in ("get", "close", "force-close"):
            raise Strange(f"'{message.command}' was asked of a page server that serves a lazy migration")
        self.waiting.append(message)

    def feed(self, data):
        self.data += data
        at, found = 0, []
        while answer := self.whole(at):
            found.append(answer[0])
            at += answer[1]
            self.waiting.popleft()
        del self.data[:at]
        return found

    def whole(self, at):
        """Returns the whole answer at a place, with its length, or None."""
        if len(self.data) == at:
            return None
        if not self.waiting:
            raise Strange("the page server answered, but nobody had asked")
        if self.waiting[0].command != "get":
            return (Status(*STATUS.unpack_from(self.data, at)), STATUS.size) if len(self.data) - at >= STATUS.size else None
        begin = at + self.header.size
        if len(self.data) < begin:
            return None
        head = message_of(self.header, self.data[at:begin])
        if head.command != "add" or not head.flags & IS_PRESENT:
            raise Strange(f"a request for pages was answered with '{head.command}' and the flags {head.flags}")
        end = begin + head.pages * PAGE_BYTES
        if len(self.data) < end:
            return None
        return Message(head.command, head.pages, head.address, head.whose, head.flags, bytes(self.data[begin:end])), end - at

"""The migration stream of QEMU as items, as far as a post-copy migration of memory needs it, and the answers that go back.

The main connection carries sections of `ram`, commands and the end, after a header, which a resumed stream does not have. The devices'
state is in a package with a length, and is not read. The second connection of postcopy-preempt carries only pages. A tap reads from
anything with `read(length)`, which returns fewer bytes only at its end.

Each item has the bytes that it was read from, so that exactly these bytes can be handed on.
"""
import struct
from dataclasses import dataclass, field

from dialect import COMMANDS

PAGE_BYTES = 4096
ZERO, MEM_SIZE, PAGE, EOS, CONTINUE, XBZRLE, MULTIFD_FLUSH = 0x02, 0x04, 0x08, 0x10, 0x20, 0x40, 0x200  # flags in a page's header
DELTA = 1  # the only kind of delta that there is
EOF, SECTION_START, SECTION_PART, SECTION_END, SECTION_FULL = 0x00, 0x01, 0x02, 0x03, 0x04
CONFIGURATION, COMMAND, FOOTER = 0x07, 0x08, 0x7E
MAGIC = b"QEVM\0\0\0\3"
EARLY = "/virtio-mem-device-early"  # what the name ends with of the only device whose state comes before all pages
MULTIFD_MAGIC = b"\x11\x22\x33\x44"  # the beginning of a connection of multifd
SHUT, PONG, REQUEST_WITH_BLOCK, REQUEST, BITMAP = 1, 2, 3, 4, 5  # kinds of answers


class Strange(Exception):
    """A stream has something that is not understood here. The message says what."""


class DeviceOutside(Strange):
    """A device's state outside a package: pre-copy came to its end, and there is no post-copy."""


@dataclass
class Item:
    """An item that needs no closer look."""
    raw: bytes


@dataclass
class Page(Item):
    """A page of post-copy or of pre-copy. `head` is its header, with or without the block's name.

    `came` has the contents that arrived, if `contents` are to be different.
    """
    block: str = ""
    offset: int = 0
    head: bytes = b""
    contents: bytes = b""
    came: bytes = b""

    @property
    def is_zero(self):
        return len(self.contents) == 1

    @property
    def names_block(self):
        return len(self.head) > 8


@dataclass
class Delta(Page):
    """A page of pre-copy as what changed in it since it was sent last. Its contents are set once they are known."""
    delta: bytes = b""


@dataclass
class EndOfPages(Item):
    """The end of a section's pages."""


@dataclass
class Command(Item):
    name: str = ""
    data: bytes = b""


@dataclass
class Package(Item):
    """The devices' state, with what must be handled in order with it."""
    length: int = 0


@dataclass
class Discard(Item):
    """Ranges of a block, in bytes, that the target must forget."""
    block: str = ""
    ranges: list = field(default_factory=list)


@dataclass
class Request(Item):
    block: str = ""
    offset: int = 0
    length: int = 0


@dataclass
class Shut(Item):
    """The target says that it has everything, or that it failed."""
    value: int = 0


@dataclass
class Bitmap(Item):
    """The pages of a block that the target has: `bits` is their place in `raw`."""
    block: str = ""
    bits: slice = None


class Tap:
    """Reads exactly as many bytes as are asked for, and keeps the bytes of the item."""

    def __init__(self, reader):
        self.reader, self.raw = reader, bytearray()

    def take(self, length):
        data = self.reader.read(length)
        if len(data) < length:
            raise EOFError
        self.raw += data
        return data

    def number(self, form):
        return struct.unpack(">" + form, self.take(struct.calcsize(form)))[0]

    def name(self):
        return self.take(self.number("B")).decode()

    def end(self):
        raw, self.raw = bytes(self.raw), bytearray()
        return raw


def items(tap, is_resumed=False):
    """Yields what comes down the main connection. Ends with EOFError, as each stream does here."""
    if not is_resumed:
        if tap.take(len(MAGIC)) != MAGIC:
            raise Strange("this is no migration stream of version 3")
        yield Item(tap.end())
    blocks = [""]
    while True:
        kind = tap.number("B")
        if kind == CONFIGURATION:
            tap.take(tap.number("I"))
        elif kind in (SECTION_START, SECTION_FULL, SECTION_PART, SECTION_END):
            tap.take(4)
            if kind in (SECTION_START, SECTION_FULL):
                name = tap.name()
                tap.take(8)
                if name.endswith(EARLY):
                    early_state(tap)
                    yield Item(tap.end())
                    continue
                if name != "ram":
                    raise DeviceOutside(f"a section of {name} outside of the package")
            yield Item(tap.end())
            yield from section(tap, blocks)
            continue
        elif kind == COMMAND:
            yield command(tap)
            continue
        elif kind == FOOTER:
            tap.take(4)
        elif kind != EOF:
            raise Strange(f"a section of kind {kind:#x}")
        yield Item(tap.end())


def early_state(tap):
    """Takes the state of a device virtio-mem, which has a bit for each block of its memory."""
    tap.take(8)
    length, block = tap.number("Q"), tap.number("Q")
    tap.take(12 + (length // block + 63) // 64 * 8)


def pages(tap):
    """Yields what comes down the second connection."""
    blocks = [""]
    while True:
        yield from section(tap, blocks)


def section(tap, blocks):
    """Yields a section's pages, up to their end. `blocks` has the block that was named last."""
    while True:
        head = tap.number("Q")
        flags, offset = head & 0xFFF, head & ~0xFFF
        if flags & MEM_SIZE:
            lengths(tap, offset)
            yield Item(tap.end())
        elif flags & (ZERO | PAGE | XBZRLE):
            if not flags & CONTINUE:
                blocks[0] = tap.name()
            if not blocks[0]:
                raise Strange(f"a page of no block, with flags {flags:#x}")
            if flags & XBZRLE:
                if tap.number("B") != DELTA:
                    raise Strange(f"a delta of an unknown kind, with flags {flags:#x}")
                delta = tap.take(tap.number("H"))
                yield Delta(tap.end(), blocks[0], offset, delta=delta)
                continue
            length = len(tap.raw)
            contents = tap.take(PAGE_BYTES if flags & PAGE else 1)
            raw = tap.end()
            yield Page(raw, blocks[0], offset, raw[:length], contents, contents)
        elif flags == MULTIFD_FLUSH:
            yield Item(tap.end())
        elif flags == EOS:
            yield EndOfPages(tap.end())
            return
        else:
            raise Strange(f"a page with flags {flags:#x}")


def changed(old, delta):
    """Returns the contents of a page after a delta, which has runs of bytes that stay and of new bytes in turn, each with its length in 7 or 14
    bits. A page of zeros may be one byte."""
    page, at, place, is_new = bytearray(old if len(old) == PAGE_BYTES else PAGE_BYTES), 0, 0, False
    try:
        while place < len(delta):
            length, place = delta[place], place + 1
            if length & 0x80:
                length, place = length & 0x7F | delta[place] << 7, place + 1
            if is_new:
                page[at:at + length] = delta[place:place + length]
                place += length
            at, is_new = at + length, not is_new
    except IndexError:
        place += 1
    if at > PAGE_BYTES or place > len(delta):
        raise Strange("a delta that is longer than a page, or not whole")
    return bytes(page)


def lengths(tap, total):
    """Returns the blocks and their lengths. A block of huge pages has the length of these pages after its own, in 64 bits, and nothing says
    so. It begins with 0, as no name's length does."""
    while total > 0:
        name = tap.number("B")
        if name == 0:
            tap.take(7)
            continue
        tap.take(name)
        total -= tap.number("Q")


def command(tap):
    number = tap.number("H")
    if number not in COMMANDS:
        raise Strange(f"a command {number}")
    name, data = COMMANDS[number], tap.take(tap.number("H"))
    if name == "package":
        length = struct.unpack(">I", data)[0]
        tap.take(length)
        return Package(tap.end(), length)
    if name == "discard":
        end = 2 + data[1]
        return Discard(tap.end(), data[2:end].decode(), list(struct.iter_unpack(">QQ", data[end + 1:])))
    return Command(tap.end(), name, data)


def with_ranges(discard, ranges):
    """Returns a discard with other ranges. The bytes before the ranges stay; the lengths are new."""
    data = discard.raw[5:5 + 2 + len(discard.block) + 1] + b"".join(struct.pack(">QQ", *part) for part in ranges)
    return Discard(discard.raw[:3] + struct.pack(">H", len(data)) + data, discard.block, ranges)


def answers(tap):
    """Yields the answers. A bitmap is a message with a name, followed by its size in 64 bits, the bits, and an ending."""
    block = ""
    while True:
        kind, data = tap.number("H"), tap.take(tap.number("H"))
        if kind in (REQUEST_WITH_BLOCK, REQUEST):
            offset, length = struct.unpack(">QI", data[:12])
            block = data[13:].decode() if kind == REQUEST_WITH_BLOCK else block
            yield Request(tap.end(), block, offset, length)
        elif kind == SHUT:
            yield Shut(tap.end(), struct.unpack(">I", data)[0])
        elif kind == BITMAP:
            start = len(tap.raw) + 8
            length = tap.number("Q")
            tap.take(length + 8)
            yield Bitmap(tap.end(), data[1:].decode(), slice(start, start + length))
        else:
            yield Item(tap.end())

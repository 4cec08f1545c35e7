"""Bytes of migration streams, made by hand from what QEMU 7.2 writes."""
import io
import struct

HEADER = b"QEVM" + struct.pack(">I", 3)
CONFIGURATION = b"\x07" + struct.pack(">I", 11) + b"pc-i440fx-7"
EOS = struct.pack(">Q", 0x10)
END = b"\x00"


def name(text):
    return bytes([len(text)]) + text.encode()


def section_start(number=2, of="ram"):
    return b"\x01" + struct.pack(">I", number) + name(of) + struct.pack(">II", 0, 4)


def section_part(number=2):
    return b"\x02" + struct.pack(">I", number)


def footer(number=2):
    return b"\x7e" + struct.pack(">I", number)


def sizes(*blocks):
    """The first thing in a section that starts: how long each block is."""
    total = sum(length for _, length in blocks)
    return struct.pack(">Q", total | 0x04) + b"".join(name(block) + struct.pack(">Q", length) for block, length in blocks)


def page(offset, contents, block=None):
    """A page with contents, with its block's name or in the block that was named last."""
    return struct.pack(">Q", offset | 0x08 | (0 if block else 0x20)) + (name(block) if block else b"") + contents


def zeros(offset, block=None):
    return struct.pack(">Q", offset | 0x02 | (0 if block else 0x20)) + (name(block) if block else b"") + b"\0"


def delta(offset, changes, block=None):
    """A page as a delta of xbzrle."""
    return struct.pack(">Q", offset | 0x40 | (0 if block else 0x20)) + (name(block) if block else b"") + b"\1" + struct.pack(">H", len(changes)) + changes


def command(number, data=b""):
    return b"\x08" + struct.pack(">HH", number, len(data)) + data


def package(contents):
    return command(7, struct.pack(">I", len(contents))) + contents


def discard(block, *ranges):
    return command(6, b"\0" + name(block) + b"\0" + b"".join(struct.pack(">QQ", *part) for part in ranges))


def answer(kind, data):
    return struct.pack(">HH", kind, len(data)) + data


def request(offset, length=4096, block=None):
    return answer(3 if block else 4, struct.pack(">QI", offset, length) + (name(block) if block else b""))


def bitmap(block, bits):
    return answer(5, name(block)) + struct.pack(">Q", len(bits)) + bits + struct.pack(">Q", 0x0123456789ABCDEF)


def reader(data):
    return io.BytesIO(data)

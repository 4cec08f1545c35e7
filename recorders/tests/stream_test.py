"""The parser of the migration stream, on bytes made by hand; and the cells of a page."""
import struct

import contents
import stream
from streams import (CONFIGURATION, END, EOS, HEADER, answer, bitmap, command, delta, discard, footer, name, package, page, reader,
                     request, section_part, section_start, sizes, zeros)

A, B = bytes([1]) * 4096, bytes([2]) * 4096
WHOLE = (HEADER + CONFIGURATION + command(1) + command(2, b"\0\0\0\1") + command(3, bytes(16)) +
         section_start() + sizes(("pc.ram", 1 << 20), ("vga.vram", 4096)) + EOS + footer() +
         section_part() + page(0x5000, A, "pc.ram") + zeros(0x6000) + page(0x7000, B) + EOS + footer() +
         discard("pc.ram", (0x5000, 0x1000), (0x9000, 0x3000)) + package(b"devices' state: any bytes \x08\x02") +
         section_part() + page(0, B, "vga.vram") + EOS + footer() + END)


def taken(items):
    """The items of a stream to its end."""
    found = []
    try:
        for item in items:
            found.append(item)
    except EOFError:
        pass
    return found


def down(data, is_resumed=False):
    return taken(stream.items(stream.Tap(reader(data)), is_resumed))


def of_cells(tests):
    """The guest's words are a page's cells. Each byte behind them changes the last cell, each otherwise, and no other one."""
    for words in (1, 8, 511):
        page = struct.pack("<512Q", *range(1, words + 1), *[0] * (512 - words))
        cells = [f"{word:016x}" for word in range(1, words + 1)]
        tests.wants(f"the cells of {words} words", contents.cells_of(page, words), "".join(cells))
        changed = [contents.cells_of(page[:at] + b"\1" + page[at + 1:], words) for at in range(8 * words, 4096)]
        tests.wants("all but the last stay", {it[:-16] for it in changed}, {"".join(cells[:-1])})
        tests.wants("the last is another for each byte", len({cells[-1], *(it[-16:] for it in changed)}), 1 + 4096 - 8 * words)
    tests.wants("a page of 512 words has nothing behind them", contents.cells_of(struct.pack("<512Q", *range(512)), 512), "".join(f"{it:016x}" for it in range(512)))


def of_deltas(tests):
    """A delta makes a page of the one before: the example of QEMU's own page about xbzrle."""
    old = bytes(1001) + bytes.fromhex("05060708090a0b0c0d0e0f101112136800006b006d") + bytes(3074)
    new = bytes(1001) + bytes.fromhex("0102030405060708090a0b0c0d0e0f68000067 0069") + bytes(3074)
    changes = bytes.fromhex("e9070f0102030405060708090a0b0c0d0e0f03016701 0169")
    tests.wants("the example", stream.changed(old, changes), new)
    tests.wants("of a page of zeros", stream.changed(b"\0", b"\x02\x01\x07"), bytes(2) + b"\7" + bytes(4093))
    tests.wants("nothing that changed", stream.changed(old, b""), old)
    for wrong in (b"\x02\x05\x07", b"\xff\x7f\x01\x07", b"\x80", b"\x02\x81"):
        tests.refuses(f"a delta that is not whole, or longer than a page: {wrong!r}", stream.Strange, lambda wrong=wrong: stream.changed(old, wrong))
    data = HEADER + section_part() + page(0x5000, A, "pc.ram") + delta(0x5000, changes) + delta(0x6000, b"", "vga.vram") + EOS
    found = [item for item in down(data) if isinstance(item, stream.Delta)]
    tests.wants("deltas", [(item.block, item.offset, item.delta) for item in found], [("pc.ram", 0x5000, changes), ("vga.vram", 0x6000, b"")])
    tests.wants("no byte is lost", b"".join(item.raw for item in down(data)), data)
    tests.refuses("a delta of another kind", stream.Strange, lambda: down(HEADER + section_part() + struct.pack(">Q", 0x5040) + name("pc.ram") + b"\2"))


def of_an_early_state(tests):
    """The state of a device virtio-mem comes before all pages: QEMU 11.1 writes it first, with 64 bits for each 64 blocks of 2 MiB or part of it."""
    for blocks, words in ((12, 1), (64, 1), (65, 2)):
        state = (b"\x04" + struct.pack(">I", 0x26) + name("0000:00:02.0/virtio-mem-device-early") + struct.pack(">II", 0, 1) +
                 struct.pack(">QQQIQ", 1 << 32, blocks << 21, 2 << 20, 0, 0) + bytes(8 * words) + footer(0x26))
        items = down(HEADER + CONFIGURATION + state + section_part() + page(0x5000, A, "pc.ram") + EOS)
        tests.wants(f"pages behind the state of {blocks} blocks", [item.offset for item in items if isinstance(item, stream.Page)], [0x5000])
        tests.wants("no byte of it is lost", state in b"".join(item.raw for item in items), True)


def run(tests):
    of_cells(tests)
    of_deltas(tests)
    of_an_early_state(tests)
    items = down(WHOLE)
    tests.wants("no byte is lost", b"".join(item.raw for item in items), WHOLE)
    pages = [(item.block, item.offset, item.is_zero, item.names_block) for item in items if isinstance(item, stream.Page)]
    tests.wants("pages, each in the block that was named last", pages, [
        ("pc.ram", 0x5000, False, True), ("pc.ram", 0x6000, True, False), ("pc.ram", 0x7000, False, False),
        ("vga.vram", 0, False, True)])
    tests.wants("a page is its header and its contents", [item.head + item.contents == item.raw for item in items
                                                          if isinstance(item, stream.Page)], [True] * 4)
    tests.wants("commands", [item.name for item in items if isinstance(item, stream.Command)], ["open-return-path", "ping", "advise"])
    tests.wants("each command that is known", [item.name for item in down(HEADER + command(9) + command(11))[1:]], ["resume", "switchover-start"])
    tests.wants("the package is not looked into", [item.length for item in items if isinstance(item, stream.Package)], [28])
    found = [item for item in items if isinstance(item, stream.Discard)]
    tests.wants("ranges", [(item.block, item.ranges) for item in found], [("pc.ram", [(0x5000, 0x1000), (0x9000, 0x3000)])])
    tests.wants("a discard of other ranges", stream.with_ranges(found[0], [(0x9000, 0x3000)]).raw, discard("pc.ram", (0x9000, 0x3000)))
    for length in range(len(HEADER + CONFIGURATION), len(WHOLE), 997):
        part = down(WHOLE[:length])
        tests.wants(f"a stream of {length} bytes gives the items that are whole", part, items[:len(part)])

    huge = struct.pack(">Q", (1 << 22) + 4096 | 0x04) + name("pc.ram") + struct.pack(">QQ", 1 << 22, 1 << 21) + name("vga") + struct.pack(">Q", 4096)
    found = down(HEADER + section_start() + huge + EOS + footer() + section_part() + page(0x5000, A, "pc.ram") + EOS)
    tests.wants("a block of huge pages", [item.block for item in found if isinstance(item, stream.Page)], ["pc.ram"])
    tests.refuses("a page of no block", stream.Strange, lambda: down(HEADER + section_part() + page(0x5000, A)))
    flush = struct.pack(">Q", 0x200)
    found = down(HEADER + section_part() + page(0x5000, A, "pc.ram") + flush + page(0x6000, B) + EOS)
    tests.wants("the channels of multifd are flushed", ([item.raw for item in found].count(flush), sum(isinstance(item, stream.Page) for item in found)), (1, 2))

    resumed = command(1) + command(9) + command(10, b"\6pc.ram") + section_part() + page(0x8000, A, "pc.ram") + EOS
    tests.wants("a resumed stream has no header", b"".join(item.raw for item in down(resumed, True)), resumed)
    tests.refuses("the same as a new one", stream.Strange, lambda: down(resumed))
    tests.refuses("a header in a resumed one", stream.Strange, lambda: down(WHOLE, True))
    tests.refuses("a device's section outside of the package", stream.Strange, lambda: down(HEADER + section_start(3, "timer")))
    tests.refuses("a page that is compressed", stream.Strange, lambda: down(HEADER + section_part() + bytes(6) + b"\1\0"))
    tests.refuses("an unknown command", stream.Strange, lambda: down(HEADER + command(99)))

    lane = page(0x5000, A, "pc.ram") + EOS + page(0x7000, B, "pc.ram") + EOS
    found = taken(stream.pages(stream.Tap(reader(lane))))
    tests.wants("the second connection has pages alone", [type(item).__name__ for item in found], ["Page", "EndOfPages"] * 2)

    back = (answer(2, b"\0\0\0\1") + request(0x5000, block="pc.ram") + request(0x9000) + bitmap("pc.ram", b"\xff\x01" + bytes(6)) +
            request(0xA000) + answer(1, b"\0\0\0\0"))
    found = taken(stream.answers(stream.Tap(reader(back))))
    tests.wants("no byte of the answers is lost", b"".join(item.raw for item in found), back)
    tests.wants("requests, each in the block that was named last", [(item.block, item.offset, item.length) for item in found
                                                                    if isinstance(item, stream.Request)],
                [("pc.ram", 0x5000, 4096), ("pc.ram", 0x9000, 4096), ("pc.ram", 0xA000, 4096)])
    bits = [item.raw[item.bits] for item in found if isinstance(item, stream.Bitmap)]
    tests.wants("a bitmap has its size before it and an ending behind it", bits, [b"\xff\x01" + bytes(6)])
    tests.wants("the end", [item.value for item in found if isinstance(item, stream.Shut)], [0])

"""The relay between a source and a target that are written here: what it hands over, what it tells, and each fault."""
import io
import os
import socket
import tempfile
import threading
import time

import stream
from folders import Room
from relay import CutPlan, Relay, Window
from streams import END, EOS, HEADER, bitmap, command, delta, discard, footer, package, page, request, section_part

BASE, PAGES = 0x400000, 8


def filled(number):
    return bytes([number]) * 4096


def section(*pages):
    return section_part() + b"".join(pages) + EOS + footer()


def at(number):
    return BASE + number * 4096


BEFORE = HEADER + section(page(0x1000, filled(9), "pc.ram"), *(page(at(n), filled(n)) for n in range(PAGES)))
SWITCH = discard("pc.ram", (at(0), 6 * 4096)) + package(b"state")
AFTER = section(page(at(0), filled(100), "pc.ram"), *(page(at(n), filled(100 + n)) for n in range(1, 6))) + END


class Ends:
    """A source and a target on both sides of a relay."""

    def __init__(self, folder, kind=Relay, **options):
        self.folder, self.room = folder, Room()
        self.listener = socket.socket(socket.AF_UNIX)
        self.listener.bind(self.room.name("target"))
        self.listener.listen()
        self.listener.settimeout(10)
        self.relay = kind(folder, self.room, Window(BASE, PAGES), self.room.name("target"), **options)

    def connect(self):
        source = socket.socket(socket.AF_UNIX)
        source.settimeout(10)
        source.connect(self.relay.path)
        target, _ = self.listener.accept()
        target.settimeout(10)
        return source, target

    def end(self):
        self.relay.end()
        self.listener.close()
        self.room.end()
        return self.told()

    def told(self):
        with open(f"{self.folder}/relay.log") as log:
            return log.read().splitlines()


def read_all(target):
    data = b""
    try:
        while part := target.recv(1 << 16):
            data += part
    except OSError:
        pass
    return data


def through(data, **options):
    """What comes out of the relay for what goes in, and the log."""
    with tempfile.TemporaryDirectory() as room:
        ends = Ends(room, **options)
        source, target = ends.connect()
        source.sendall(data)
        source.shutdown(socket.SHUT_WR)
        found = read_all(target)
        log = ends.end()
        for one in (source, target):
            one.close()
    return found, log


def pages_of(data):
    """The window's pages of post-copy that came, with the first and the last byte of each."""
    pages, is_post = [], False
    try:
        for item in stream.items(stream.Tap(io.BytesIO(data))):
            is_post = is_post or isinstance(item, stream.Package)
            if is_post and isinstance(item, stream.Page):
                pages.append(((item.offset - BASE) // 4096, item.contents[0], item.contents[-1]))
    except EOFError:
        pass
    return pages


RIGHT = [(n, 100 + n, 100 + n) for n in range(6)]
FAULTS = (
    ("flip", [(0, 100, 100), (1, 101 ^ 16, 101), *RIGHT[2:]]),
    ("flip-end", [(0, 100, 100), (1, 101, 101 ^ 16), *RIGHT[2:]]),
    ("stale", [(0, 100, 100), (1, 1, 1), *RIGHT[2:]]),
    ("swap", [(0, 100, 100), (1, 102, 102), (2, 101, 101), *RIGHT[3:]]),
    ("drop", [(0, 100, 100), (1, 101, 101), *RIGHT[3:]]),
    ("twice", [(0, 100, 100), (1, 101, 101), (1, 101, 101), *RIGHT[2:]]),
)


def told(log, start):
    return [line for line in log if line.startswith(start)]


def of_faults(tests):
    data = BEFORE + SWITCH + AFTER
    found, log = through(data)
    tests.wants("without a fault all is handed over as it came", found, data)
    tests.wants("what is told", [line.split()[:6] for line in told(log, "down 0 page post")],
                [["down", "0", "page", "post", "pc.ram", str(at(n))] for n in range(6)])
    tests.wants("contents outside of the window are not kept", told(log, "down 0 page pre")[0], "down 0 page pre pc.ram 4096 - -")
    for kind, wanted in FAULTS:
        found, log = through(data, fault=kind, skip=1)
        tests.wants(f"fault {kind}", pages_of(found), wanted)
        tests.wants(f"fault {kind} is told", len(told(log, f"fault {kind}")), 1)
    tests.wants("a dropped page is told as lost", [line.split()[5] for line in told(through(data, fault="drop", skip=1)[1], "lost")], [str(at(2))])
    found, log = through(data, fault="keep-drop", skip=1)
    tests.wants("fault keep-drop: the discard without a page", discard("pc.ram", (at(0), 4096), (at(2), 4 * 4096)) in found, True)
    tests.wants("fault keep-drop: the page does not come", [page[0] for page in pages_of(found)], [0, 2, 3, 4, 5])
    tests.wants("the discard is told as it came", told(log, "down 0 discard"), [f"down 0 discard pc.ram {at(0)} {6 * 4096}"])
    found, _ = through(data, fault="preflip", skip=0)
    tests.wants("fault preflip", found[:len(BEFORE)].count(bytes([1 ^ 16]) + filled(1)[1:]), 1)


def of_a_cut(tests):
    """Two connections are cut; what is still read from them is not told, and the next two are told apart from them."""
    with tempfile.TemporaryDirectory() as room:
        ends = Ends(room, cuts=[CutPlan(2, lose=1)])
        source, target = ends.connect()
        lane, lane_target = ends.connect()
        source.sendall(BEFORE + SWITCH + section(page(at(0), filled(100), "pc.ram"), page(at(1), filled(101))))
        target.sendall(request(at(3), block="pc.ram"))
        wait_for(lambda: ends.relay.sent_after == 2)
        source.sendall(section(page(at(2), filled(102), "pc.ram"), page(at(3), filled(103)), page(at(4), filled(104))))
        wait_for(ends.relay.was_cut.is_set)
        for late in (lambda: target.sendall(request(at(4))), lambda: lane.sendall(page(at(5), filled(105), "pc.ram") + EOS)):
            try:
                late()
            except OSError:
                pass
        tests.wants("what came before the cut", pages_of(read_all(target)), RIGHT[:2])
        late, late_target = ends.connect()
        late.sendall(b"any bytes")
        tests.wants("what comes behind the cut goes to the target", late_target.recv(100), b"any bytes")
        ends.relay.recover(ends.relay.target)
        tests.wants("until the migration goes on", (late.recv(100), late_target.recv(100)), (b"", b""))
        again, there = ends.connect()
        again.sendall(command(9) + section(page(at(2), filled(102), "pc.ram")))
        second_lane, _ = ends.connect()
        wait_for(lambda: ends.relay.sent_after >= 5)
        log = ends.end()
    after = log[log.index("late") + 1:]
    tests.wants("who was opened", told(log, "open"), ["open 0 main new", "open 1 lane new", "open 2 main resumed", "open 3 lane new"])
    tests.wants("both were cut", told(log, "cut"), ["cut 0", "cut 1"])
    tests.wants("nothing is told of a connection behind its cut", [line for line in after if line.split()[1] in "01"], [])
    tests.wants("what was lost", [int(line.split()[5]) for line in told(log, "lost")], [at(2), at(3)][:len(told(log, "lost"))])
    tests.wants("a page over the next one", told(log, "down 2 page post"), [line for line in after if " page " in line])


class Late(Relay):
    """Takes no connection by itself."""

    def accept(self):
        pass


def of_what_is_on_its_way(tests):
    """A recovery closes the connections that nobody has taken yet."""
    with tempfile.TemporaryDirectory() as room:
        ends, on_its_way = Ends(room, Late), [socket.socket(socket.AF_UNIX) for _ in range(3)]
        for one in on_its_way:
            one.settimeout(10)
            one.connect(ends.relay.path)
        ends.relay.recover("another")
        tests.wants("they are closed", [one.recv(100) for one in on_its_way], [b""] * 3)
        tests.wants("the next goes there", (ends.relay.target, ends.relay.is_cut_off), ("another", False))
        for one in on_its_way:
            one.close()
        ends.end()


def of_few_pages(tests):
    """Fewer pages come than were to be lost: the connection is cut all the same."""
    with tempfile.TemporaryDirectory() as room:
        ends = Ends(room, cuts=[CutPlan(2)])
        source, target = ends.connect()
        source.sendall(BEFORE + SWITCH + section(*(page(at(n), filled(100 + n), "pc.ram") for n in range(3))))
        tests.wants("what came before the loss", pages_of(read_all(target)), RIGHT[:2])
        log = ends.end()
        source.close()
    tests.wants("the cut behind it", log[-2:], [f"lost 0 page post pc.ram {at(2)} 10 10", "cut 0"])


def of_a_bitmap(tests):
    """The bitmap says of a lost page that it came: of the one behind so many, or else of the last."""
    for skip, lost in ((0, at(1)), (3, at(2))):
        with tempfile.TemporaryDirectory() as room:
            ends = Ends(room, fault="forget", skip=skip)
            ends.relay.lost = [at(1), at(2)]
            source, target = ends.connect()
            target.sendall(bitmap("pc.ram", bytes(256)))
            target.shutdown(socket.SHUT_WR)
            wanted = bytearray(256)
            wanted[lost // 4096 // 8] |= 1 << lost // 4096 % 8
            source.settimeout(10)
            found = b""
            while len(found) < len(bitmap("pc.ram", bytes(256))):
                found += source.recv(4096)
            tests.wants(f"fault forget, skip {skip}", found, bitmap("pc.ram", bytes(wanted)))
            ends.end()


def of_a_target_that_waits(tests):
    """A target that reads nothing before it has a second connection gets it, also where more is sent meanwhile than the sockets hold."""
    of_lane = page(at(0), filled(2), "pc.ram") + EOS
    of_a_second(tests, "the lane", of_lane, ["open 0 main new", "open 1 lane new"])
    of_a_second(tests, "multifd's", stream.MULTIFD_MAGIC + b"any bytes", ["open 0 main new", "multifd"], has_multifd=True)


def of_a_second(tests, name, of_second, opened, **options):
    count = 2048
    data = HEADER + section(page(at(0), filled(1), "pc.ram"), *(page(at(n % PAGES), filled(n % 256)) for n in range(1, count)))
    with tempfile.TemporaryDirectory() as room:
        ends = Ends(room, **options)
        source, target = ends.connect()
        source.settimeout(None)  # the relay's end ends it
        sending = threading.Thread(target=sent, args=(source, data), daemon=True)
        sending.start()
        tests.wants(f"{name}: the relay stands still before all is handed over", stand_of(ends.relay) < count, True)
        second = there = None
        try:
            second, there = ends.connect()
            second.sendall(of_second)
            wait_for(lambda: opened[1] in ends.told())
            tests.wants(f"{name}: it is opened meanwhile", told(ends.told(), ("open", "multifd")), opened)
            found = read_bytes(target, len(data)) + read_bytes(there, len(of_second))
        except OSError as fault:
            found = fault
        tests.wants(f"{name}: it comes all the same, and all that was sent", found == data + of_second, True)
        log = ends.end()
        sending.join(10)
        for one in (source, target, second, there):
            if one:
                one.close()
    tests.wants(f"{name}: each page is told, in a line of its own", len([line for line in told(log, "down 0 page pre") if len(line.split()) == 8]), count)


def sent(source, data):
    try:
        source.sendall(data)
    except OSError:
        pass


def stand_of(relay, still=0.3):
    """How many pages the relay has taken once it takes no more."""
    taken, since = -1, time.monotonic()
    while time.monotonic() - since < still or not taken:
        if relay.sent_before != taken:
            taken, since = relay.sent_before, time.monotonic()
        time.sleep(0.01)
    return taken


def read_bytes(target, count):
    data = b""
    while len(data) < count and (part := target.recv(1 << 16)):
        data += part
    return data


class Slowly:
    """A file to which each word is written slowly."""

    def __init__(self, file):
        self.file, self.flush, self.close = file, file.flush, file.close

    def write(self, text):
        time.sleep(0.001)
        return self.file.write(text)


def of_lines_told_at_once(tests):
    with tempfile.TemporaryDirectory() as room:
        ends = Ends(room)
        ends.relay.log = Slowly(ends.relay.log)
        threads = [threading.Thread(target=ends.relay.tell, args=[number] * 20) for number in range(4)]
        for thread in threads:
            thread.start()
        for thread in threads:
            thread.join()
        log = ends.end()
    tests.wants("what is told at once stands in lines of its own", sorted(log), [" ".join(f"{number}" * 20) for number in range(4)])


def of_what_is_strange(tests):
    """A device's state outside of a package is the end of pre-copy. What is not known is told as such, and with its number."""
    for data, complaint, log in (
            (b"\x04" + bytes(4) + b"\5timer" + bytes(100), "pre-copy came to its end, and nothing was left to post-copy", []),
            (command(99) + bytes(100), "the stream has what is not known here: a command 99", ["strange a command 99"]),
            (b"\x55" + bytes(100), "the stream has what is not known here: a section of kind 0x55", ["strange a section of kind 0x55"])):
        with tempfile.TemporaryDirectory() as room:
            ends = Ends(room)
            source, target = ends.connect()
            source.sendall(HEADER + data)
            source.shutdown(socket.SHUT_WR)
            tests.wants("what is not understood is handed over all the same", read_all(target), HEADER + data)
            told_of = ends.end()
            tests.wants("and told of", (ends.relay.complaint, told(told_of, "strange")), (complaint, log))


def of_the_package(tests):
    """What is to be done before the package goes on is done when it has come, and the target has not got it."""
    found = []
    with tempfile.TemporaryDirectory() as room:
        ends = Ends(room, before_package=lambda: found.append((ends.relay.is_post, receives(target))))
        source, target = ends.connect()
        source.sendall(BEFORE)
        read_until(target, BEFORE)
        source.sendall(SWITCH)
        wait_for(lambda: ends.relay.is_post)
        tests.wants("once, and in front of the package", found, [(False, discard("pc.ram", (at(0), 6 * 4096)))])
        ends.end()


def receives(target):
    """What has come, and was not read."""
    return target.recv(1 << 16, socket.MSG_PEEK)


def read_until(target, data):
    while data:
        data = data[len(target.recv(min(len(data), 1 << 16))):]


def of_multifd(tests):
    """A connection that begins as multifd's is handed on in both directions, unread; and it is cut with the others."""
    with tempfile.TemporaryDirectory() as room:
        ends = Ends(room, has_multifd=True)
        source, target = ends.connect()
        source.sendall(BEFORE)
        more, there = ends.connect()
        more.sendall(stream.MULTIFD_MAGIC + b"any bytes")
        tests.wants("what goes down", there.recv(100), stream.MULTIFD_MAGIC + b"any bytes")
        there.sendall(b"back")
        tests.wants("what comes back", more.recv(100), b"back")
        with ends.relay.lock:
            ends.relay.cut()
        tests.wants("it is cut with the others", there.recv(100), b"")
        log = ends.end()
    tests.wants("what is told of it", ([line for line in log if line.startswith(("open", "multifd"))]), ["open 0 main new", "multifd"])


def has_ended(end):
    """Whether the other side has ended a connection, over which nothing came. (One that stays open is a timeout, which is raised.)"""
    try:
        return end.recv(1) == b""
    except ConnectionResetError:
        return True


FULL = "No space left on device"


def of_a_full_disk(tests):
    """What cannot be recorded is not handed over. It ends all connections, is told, and is no end of one; nor does a later one open."""
    for full in ("relay.log", "relay.pages"):
        with tempfile.TemporaryDirectory() as room:
            os.symlink("/dev/full", f"{room}/{full}")
            ends = Ends(room, has_multifd=True)
            source, target = ends.connect()
            source.sendall(BEFORE)
            found = read_all(target)
            tests.wants(f"no page is handed over, with a full {full}", (len(found) < len(BEFORE) - 8 * 4096, filled(1) in found), (True, False))
            tests.wants("the source hears of it", has_ended(source), True)
            for first in (HEADER, stream.MULTIFD_MAGIC):
                more, there = ends.connect()
                more.sendall(first)
                tests.wants("nothing is handed over that comes then", (has_ended(there), has_ended(more)), (True, True))
            ends.relay.end()
            tests.wants("it is told", (ends.relay.unrecorded, ends.relay.was_cut.is_set()), (f"{full}: {FULL}", False))
            ends.listener.close()
            ends.room.end()


def of_a_disk_that_is_full_at_the_end(tests):
    """What is left to write at the end, and cannot be, is told too."""
    with tempfile.TemporaryDirectory() as room:
        os.symlink("/dev/full", f"{room}/relay.pages")
        ends = Ends(room)
        ends.relay.contents.write(b"any")
        ends.end()
    tests.wants("at the end", ends.relay.unrecorded, f"relay.pages: {FULL}")


def wait_for(is_so, seconds=10):
    until = time.monotonic() + seconds
    while not is_so() and time.monotonic() < until:
        time.sleep(0.01)


def of_deltas(tests):
    """The page that a delta makes is kept, and the delta is handed on; one of a page that was not kept is strange, and what follows is handed on all the same."""
    one, other = b"\x01\x01\x63", b"\x02\x01\x64"  # (byte 1 is 0x63; byte 2 is 0x64)
    data = BEFORE + section(delta(0x1000, one, "pc.ram"), delta(at(3), one), delta(at(3), other)) + SWITCH + AFTER
    contents = {}

    class Kept(Relay):
        def store(self, page):
            contents[self.stored] = page
            return super().store(page)

    for fault, first in ((None, 3), ("preflip", 3 ^ 16)):
        found, log = through(data, kind=Kept, has_deltas=True, fault=fault)
        tests.wants("no byte of a delta is lost", found.count(delta(at(3), one) + delta(at(3), other)), 1)
        *_, taken, given = [line.split() for line in told(log, f"down 0 page pre pc.ram {at(3)}")][-1]
        tests.wants(f"the page that came, and the one at the target, with {fault}", [contents[int(place)][:4] for place in (taken, given)],
                    [bytes([3, 0x63, 0x64, 3]), bytes([first, 0x63, 0x64, 3])])
    tests.wants("nothing is strange", told(log, "strange"), [])
    for why, options in (("of a page that was not sent", {"has_deltas": True}), ("where none is expected", {})):
        data = HEADER + section(page(0x1000, filled(9), "pc.ram"), delta(at(3), one)) + SWITCH + AFTER
        found, log = through(data, **options)
        tests.wants(f"a delta {why}", (found == data, len(told(log, "strange a delta of a page that was not kept")), told(log, "down 0 state")), (True, 1, []))


def run(tests):
    of_faults(tests)
    of_deltas(tests)
    of_a_cut(tests)
    of_what_is_on_its_way(tests)
    of_few_pages(tests)
    of_a_bitmap(tests)
    of_a_target_that_waits(tests)
    of_lines_told_at_once(tests)
    of_what_is_strange(tests)
    of_the_package(tests)
    of_multifd(tests)
    of_a_full_disk(tests)
    of_a_disk_that_is_full_at_the_end(tests)

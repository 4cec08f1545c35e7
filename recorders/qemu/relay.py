"""Stands between two QEMUs that migrate, forwards both directions, and writes down what it hands over.

Each item is handed over whole, after it is written down, under one lock. A connection is accepted without that lock, because a target
may read nothing from the first before it has the second. `before_package` is called when the package has arrived, before it is handed
on: the guest has stopped then, and cannot run at the target yet. A line of the log begins with the kind of item and with the number of
the connection. Connections are counted from 0 in the order in which they open:

    open C main|lane new|resumed
    down C page pre|post BLOCK OFFSET TAKEN GIVEN   contents as they arrived and as they were handed on: places in the file
                                                    of contents, `zero`, or `-` for a page outside the window
    again C page ..             handed over a second time
    lost C page ..              never handed over
    down C discard BLOCK START LENGTH   a range that the target must forget, in bytes, as it arrived
    down C state LENGTH         the package
    down C command NAME
    up C request BLOCK OFFSET LENGTH
    up C shut VALUE
    up C message
    cut C
    fault KIND PAGE..           what was put in
    multifd                     a connection of multifd was opened: it is handed on unread
    late                        a connection that was on its way at a cut: it is handed on unread, until the recovery
    strange WORDS               the stream has something unknown next; from there on it is handed on, and not recorded

After a connection is cut, nothing more is recorded about it: what is still read from it went nowhere. Where something cannot be recorded,
as on a full disk, all connections end, and nothing is handed over any more: `unrecorded` says which file, and why.
"""
import contextlib
import select
import socket
import threading

import stream
from dialect import PC_RAM
from faults import fault_of

LONGEST_LOSS = 0.5  # seconds from the first page that is lost to the cut
PRECOPY_ENDED = "pre-copy came to its end, and nothing was left to post-copy"
LONGEST_SILENCE = 0.3  # seconds within which a connection of multifd begins


class Cut(Exception):
    """The connection was cut."""


class Window:
    """The pages of memory that are recorded."""

    def __init__(self, base, pages):
        self.base, self.pages = base, pages

    def page(self, block, offset):
        """Returns the number of a page, or None outside the window."""
        page = (offset - self.base) // stream.PAGE_BYTES
        return page if block == PC_RAM and 0 <= page < self.pages else None


class CutPlan:
    """When to cut a connection: after this many pages of the window the next `lose` pages are lost, and then it is cut."""

    def __init__(self, behind, lose=21):
        self.behind, self.lose = behind, lose


class Connection:
    def __init__(self, number, is_lane, is_resumed, source, target):
        self.number, self.is_lane, self.is_resumed = number, is_lane, is_resumed
        self.source, self.target = source, target
        self.is_cut = self.is_losing = False

    def shut(self):
        shut(self.source, self.target)

    def close(self):
        for end in (self.source, self.target):
            end.close()


def shut(*ends):
    for end in ends:
        with contextlib.suppress(OSError):
            end.shutdown(socket.SHUT_RDWR)


# The address of any free port of this machine.
ANY_PORT = ("127.0.0.1", 0)


def socket_for(address):
    """Returns a socket for an address: a path, or a host and a port."""
    return socket.socket(socket.AF_UNIX if isinstance(address, str) else socket.AF_INET)


def connected_to(address):
    """Returns a socket that is connected to an address, or that socket if it is one that is connected already."""
    if isinstance(address, socket.socket):
        return address
    end = socket_for(address)
    try:
        end.connect(address)
    except OSError:
        end.close()
        raise
    return end


class Relay:
    """Listens at the address `path`, a socket in `room` if none is named, and connects to the address `target`.

    `recover` has the address for the next connections. A connection that opens between a cut and `recover` was on its way before: it is
    handed on unread, and `recover` closes it.

    `lock` is held while an item is recorded and handed over, so its holder may wait for a peer. `books` guards the log and the
    connections. It is held only for a moment, also by the holder of `lock`, and its holder waits for nobody.
    """

    def __init__(self, folder, room, window, target, fault=None, skip=0, cuts=(), has_multifd=False, before_package=lambda: None, has_deltas=False, path=None):
        self.log = open(f"{folder}/relay.log", "w")
        self.contents = open(f"{folder}/relay.pages", "wb")
        self.window, self.target, self.cuts = window, target, list(cuts)
        self.fault = fault_of(fault, skip, window, self.tell)
        self.lock, self.books = threading.Lock(), threading.RLock()
        self.stored, self.is_post = 0, False
        self.connections, self.threads, self.lost, self.complaint, self.unrecorded = [], [], [], None, ""
        self.has_multifd, self.unread = has_multifd, []
        self.before_package = before_package
        self.last = {} if has_deltas else None  # by offset, the contents that came and that were handed on last, of each page of the window
        self.was_cut, self.is_cut_off = threading.Event(), False
        self.sent_before = self.sent_after = 0
        self.path = path or room.name("relay")
        self.listener = socket_for(self.path)
        self.listener.bind(self.path)
        self.listener.listen()
        self.listener.setblocking(False)
        self.accepting = threading.Thread(target=self.accept, daemon=True)
        self.accepting.start()

    @contextlib.contextmanager
    def recording(self, name):
        """Ends all connections if something cannot be recorded, and raises Cut then and from there on."""
        with self.books:
            try:
                if self.unrecorded:
                    raise Cut
                yield
            except OSError as fault:
                self.unrecorded = f"{name}: {fault.strerror}"
                for connection in self.connections:
                    connection.is_cut = True
                    connection.shut()
                shut(*self.unread)
                raise Cut from None

    def tell(self, *fields):
        with self.recording("relay.log"):
            print(*fields, file=self.log, flush=True)

    def store(self, contents):
        if len(contents) == 1:
            return "zero"
        with self.recording("relay.pages"):
            self.contents.write(contents)
            self.contents.flush()
        self.stored += 1
        return self.stored - 1

    def end(self):
        shut(self.listener)  # which wakes whoever waits for the next one
        self.listener.close()
        self.accepting.join(5)  # so no connection opens that would not be closed
        for connection in self.connections:
            connection.shut()
        shut(*self.unread)
        for thread in self.threads:
            thread.join(5)
        for connection in self.connections:
            connection.close()
        for end in self.unread:
            end.close()
        for name, file in (("relay.pages", self.contents), ("relay.log", self.log)):
            try:
                with self.lock:
                    file.close()
            except OSError as fault:
                self.unrecorded = self.unrecorded or f"{name}: {fault.strerror}"

    # Connections

    def accept(self):
        while True:
            try:
                select.select([self.listener], [], [])
                with self.books:
                    source, address = self.listener.accept()[0], self.target
            except BlockingIOError:
                continue  # `recover` has closed it
            except (OSError, ValueError):
                return  # the listener is closed
            try:
                target = connected_to(address)
            except OSError:
                source.close()
                continue
            try:
                self.connected(source, target, address)
            except Cut:  # nothing is recorded any more
                source.close()
                target.close()

    def connected(self, source, target, address):
        """Begins to hand on what comes over a connection."""
        if self.has_multifd and self.begins_with(source, stream.MULTIFD_MAGIC):
            self.hand_on(source, target, "multifd")
            return
        with self.books:
            connection = None if self.is_cut_off or self.target != address else self.opened(source, target)
        if not connection:
            self.hand_on(source, target, "late")
            return
        self.start(self.down, connection)
        self.start(self.up, connection)

    def recover(self, target):
        """Sends the next connections to this address. Closes those that opened since the cut, because they belong to the migration before it."""
        with self.books:
            while select.select([self.listener], [], [], 0)[0]:
                self.listener.accept()[0].close()
            shut(*self.unread)
            self.target, self.is_cut_off = target, False

    def lose(self, source, target):
        """Takes both ends of a new connection after a cut, over which nothing came or comes, and cuts it, too."""
        with self.lock, self.books:
            self.opened(source, target)
            self.cut()
        self.was_cut.clear()

    def start(self, work, *words):
        thread = threading.Thread(target=self.guarded, args=(work, *words), daemon=True)
        thread.start()
        self.threads.append(thread)

    @staticmethod
    def begins_with(source, magic):
        """Returns whether a connection begins with this. If nothing arrives for a moment, it does not."""
        source.settimeout(LONGEST_SILENCE)
        try:
            return source.recv(len(magic), socket.MSG_PEEK) == magic
        except OSError:
            return False
        finally:
            source.settimeout(None)

    def hand_on(self, source, target, why):
        """Hands on a connection in both directions, unread."""
        with self.books:
            self.tell(why)
            self.unread += [source, target]
        self.start(self.copy, source, target)
        self.start(self.copy, target, source)

    @staticmethod
    def copy(here, there):
        while data := here.recv(1 << 16):
            there.sendall(data)
        there.shutdown(socket.SHUT_WR)

    def opened(self, source, target):
        """Notes that a connection was opened. The first one, and the first after a cut, is the main connection; the next is the lane. The caller
        holds `books`."""
        is_lane = any(not (one.is_cut or one.is_lane) for one in self.connections)
        connection = Connection(len(self.connections), is_lane, bool(self.connections) and not is_lane, source, target)
        self.connections.append(connection)
        self.tell("open", connection.number, "lane" if is_lane else "main", "resumed" if connection.is_resumed else "new")
        return connection

    def guarded(self, work, *words):
        try:
            work(*words)
        except (EOFError, OSError, Cut, ValueError):
            pass  # the connection is at its end, or closed by us

    def cut(self):
        """Cuts all open connections. The caller holds `lock`."""
        with self.books:
            self.is_cut_off = True
            for connection in self.connections:
                if not connection.is_cut:
                    connection.is_cut = True
                    self.tell("cut", connection.number)
                    connection.shut()
            shut(*self.unread)
        self.was_cut.set()

    def cut_losing(self):
        """Cuts connections that lose pages: there may be fewer pages than the plan loses."""
        with self.lock:
            if any(one.is_losing and not one.is_cut for one in self.connections):
                if self.cuts and self.cuts[0].behind == 0:
                    self.cuts.pop(0)
                self.cut()

    def check(self, connection):
        if connection.is_cut:
            raise Cut

    # The way down

    def down(self, connection):
        tap = stream.Tap(connection.source.makefile("rb", 1 << 16))
        try:
            for item in stream.pages(tap) if connection.is_lane else stream.items(tap, connection.is_resumed):
                with self.lock:
                    self.check(connection)
                    self.take(connection, item)
        except stream.Strange as fault:
            if isinstance(fault, stream.DeviceOutside) and not self.is_post:
                self.complaint = PRECOPY_ENDED
            else:
                self.complaint = f"the stream has what is not known here: {fault}"
                with self.lock:
                    self.tell("strange", fault)
            self.copy_rest(connection, tap)
        finally:
            self.cut_losing()  # the stream may have ended before all was lost
            with contextlib.suppress(OSError):
                connection.target.shutdown(socket.SHUT_WR)

    def copy_rest(self, connection, tap):
        """Hands on the rest, which is not understood."""
        data = tap.end() or tap.reader.read1(1 << 16)
        while data:
            connection.target.sendall(data)
            data = tap.reader.read1(1 << 16)

    def take(self, connection, item):
        """Records an item, and hands it over."""
        if isinstance(item, stream.Delta):
            self.take_delta(connection, item)
            return
        if isinstance(item, stream.Page):
            self.take_page(connection, item)
            return
        if isinstance(item, stream.EndOfPages):
            for page in self.fault.end_of_section():
                self.hand_over(connection, page)
        elif isinstance(item, stream.Package):
            self.before_package()
            self.tell("down", connection.number, "state", item.length)
            self.is_post = True
        elif isinstance(item, stream.Discard):
            for start, length in item.ranges:
                self.tell("down", connection.number, "discard", item.block, start, length)
            ranges = self.fault.discarded(item.block, item.ranges)
            item = item if ranges == item.ranges else stream.with_ranges(item, ranges)
        elif isinstance(item, stream.Command):
            self.tell("down", connection.number, "command", item.name)
        self.send(connection, item.raw)
        if isinstance(item, stream.Package) and self.cuts and self.cuts[0].behind < 0:
            self.cuts.pop(0)
            self.cut()

    def send(self, connection, raw):
        if not connection.is_losing:
            connection.target.sendall(raw)

    def take_page(self, connection, page):
        is_inside = self.window.page(page.block, page.offset) is not None
        self.count(is_inside)
        if self.is_post and (is_inside and self.loses(connection, page) or connection.is_losing):
            if not connection.is_cut:
                self.tell_page("lost", connection, page)
            return
        given = [page]
        if is_inside and not page.is_zero:
            given = self.fault.after(page) if self.is_post else self.fault.before(page)
        if not given and self.fault.held is not page:
            self.tell_page("lost", connection, page)
        for place, one in enumerate(given):
            self.hand_over(connection, one, "again" if place and one is given[place - 1] else "down")

    def take_delta(self, connection, page):
        """Records the page that a delta makes, and hands on the delta. (No fault is put into one.)"""
        is_inside = self.window.page(page.block, page.offset) is not None
        if is_inside:
            try:
                page.came, page.contents = (stream.changed(old, page.delta) for old in self.last[page.offset])
            except (KeyError, TypeError, stream.Strange):
                self.send(connection, page.raw)
                raise stream.Strange(f"a delta of a page that was not kept, or that is none, at {page.offset:#x}") from None
        self.count(is_inside)
        self.remember(page)
        self.tell_page("down", connection, page)
        self.send(connection, page.raw)

    def remember(self, page):
        if self.last is not None and not self.is_post and self.window.page(page.block, page.offset) is not None:
            self.last[page.offset] = page.came, page.contents

    def count(self, is_inside):
        if is_inside:
            self.sent_after += self.is_post
            self.sent_before += not self.is_post

    def loses(self, connection, page):
        """Returns whether the page is lost with its connection, which is cut when enough pages were lost."""
        if not self.cuts or self.cuts[0].behind < 0:
            return False
        cut = self.cuts[0]
        if cut.behind > 0:
            cut.behind -= 1
            return False
        if not connection.is_losing:
            connection.is_losing = True
            timer = threading.Timer(LONGEST_LOSS, self.guarded, [self.cut_losing])
            timer.daemon = True
            timer.start()
        self.lost.append(page.offset)
        cut.lose -= 1
        if cut.lose < 0:
            self.cuts.pop(0)
            self.cut()
        return True

    def hand_over(self, connection, page, how="down"):
        self.remember(page)
        self.tell_page(how, connection, page)
        self.send(connection, page.head + page.contents)

    def tell_page(self, how, connection, page):
        places = ["-", "-"]
        if self.window.page(page.block, page.offset) is not None:
            place = self.store(page.came)
            places = [place, place if page.contents == page.came else self.store(page.contents)]
        phase = "post" if self.is_post else "pre"
        self.tell(how, connection.number, "page", phase, page.block, page.offset, *places)

    # The way up

    def up(self, connection):
        for item in stream.answers(stream.Tap(connection.target.makefile("rb", 1 << 16))):
            with self.lock:
                self.check(connection)
                raw = item.raw
                if isinstance(item, stream.Request):
                    self.tell("up", connection.number, "request", item.block, item.offset, item.length)
                elif isinstance(item, stream.Shut):
                    self.tell("up", connection.number, "shut", item.value)
                else:
                    if isinstance(item, stream.Bitmap):
                        raw = self.fault.bitmap(item, self.lost)
                    self.tell("up", connection.number, "message")
                connection.source.sendall(raw)

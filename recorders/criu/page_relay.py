"""Stands between `criu lazy-pages` and the page server, forwards both directions, and writes down what it hands over.

Each message is handed over whole, after it is written down, under one lock. The lines of the log are

    up COMMAND PAGES ADDRESS
    down pages PAGES ADDRESS FIRST GIVEN   contents as they came, places in the file of contents from FIRST on; the first GIVEN went on
    down status VALUE
    fault KIND ADDRESS                     what was put in
"""
import contextlib
import socket
import threading

from page_server import Answers, Requests, Status, Strange
from relay_faults import fault_of

PIECE = 1 << 20


def shut(end, how):
    try:
        end.shutdown(how)
    except OSError:
        pass  # it is


@contextlib.contextmanager
def recording():
    """Tells that something cannot be recorded apart from a connection that ends."""
    try:
        yield
    except OSError as fault:
        raise Strange(f"the relay cannot record: {fault.strerror}") from None


class Relay:
    """`pager` and `server` are our ends of the two connections; CRIU has the other ends."""

    def __init__(self, folder, header, pager, server, plan, before):
        self.log = open(f"{folder}/relay.log", "w", encoding="ascii")
        self.contents = open(f"{folder}/relay.pages", "wb")
        self.header, self.pager, self.server, self.delay = header, pager, server, plan.delay / 1000
        self.fault = fault_of(plan, before, self.tell)
        self.requests, self.answers = Requests(header), Answers(header)
        self.lock, self.stored, self.complaint, self.is_delaying = threading.Lock(), 0, None, False
        self.is_cut, self.is_ended = False, threading.Event()
        self.last, self.repeats = None, 0  # what was asked last, and how often in a row before
        self.threads = [threading.Thread(target=self.guarded, args=(work, *ends), daemon=True)
                        for work, ends in ((self.up, (pager, server)), (self.down, (server, pager)))]
        for thread in self.threads:
            thread.start()

    def tell(self, *fields):
        with recording():
            print(*fields, file=self.log, flush=True)

    def guarded(self, work, source, sink):
        """Forwards until the connection ends, and then ends the other connection in this direction."""
        try:
            while not self.is_cut and (data := source.recv(PIECE)):
                work(data, sink)
        except OSError:
            pass  # one end is closed
        except Strange as fault:
            self.complaint = str(fault)
        is_over = self.complaint or self.is_cut
        for end in (source, sink) if is_over else (sink,):
            shut(end, socket.SHUT_RDWR if is_over else socket.SHUT_WR)

    def is_waited_for(self):
        """Returns whether an answer is still to come, or to be handed over."""
        with self.lock:
            return bool(self.answers.waiting) or self.is_delaying

    def up(self, data, sink):
        for message in self.requests.feed(data):
            with self.lock:
                self.answers.asked(message)
                self.repeats = self.repeats + 1 if message == self.last else 0
                self.last = message
                self.tell("up", message.command, message.pages, f"{message.address:x}")
                sink.sendall(message.to_bytes(self.header))

    def down(self, data, sink):
        with self.lock:
            answers = self.answers.feed(data)
            self.is_delaying = bool(answers)
        try:
            for answer in answers:
                if self.is_ended.wait(self.delay):
                    break
                with self.lock:
                    given = self.told(answer)
                    if given is not None:
                        sink.sendall(given.to_bytes(self.header))
                    self.is_cut = self.fault.ends_connections and self.fault.is_done
                if self.is_cut:
                    break
        finally:
            self.is_delaying = False

    def told(self, answer):
        """Writes an answer down, and returns what is handed over in its place, or None."""
        if isinstance(answer, Status):
            self.tell("down", "status", answer.value)
            return answer
        given = self.fault.of(answer)
        with recording():
            self.contents.write(answer.contents)
            self.contents.flush()
        self.tell("down", "pages", answer.pages, f"{answer.address:x}", self.stored, given.pages if given else 0)
        self.stored += answer.pages
        return given

    def end(self):
        """Ends both connections. Nothing is recorded after this."""
        self.is_ended.set()
        for one in (self.pager, self.server):
            shut(one, socket.SHUT_RDWR)
        for thread in self.threads:
            thread.join()
        self.pager.close()
        self.server.close()
        for file in (self.contents, self.log):
            try:
                with self.lock, recording():
                    file.close()
            except Strange as fault:
                self.complaint = self.complaint or str(fault)

"""The accesses of a recorded guest, by pages: of a session, of lines `vcpu r|w|z page`, or of what Valgrind's lackey writes.

A trace is kept as runs of accesses of one processor to one page, so that one with hundreds of millions has room in memory.
"""
import re
from array import array

KINDS = "rwz"
PAGE_SHIFT = 12
# How a run is packed: the page, then 6 bits for the processor and 2 for the kind.
MOST_VCPUS, VCPU_SHIFT, PAGE_AT = 64, 2, 8
MOST_PAGES = 1 << 56

LACKEY = re.compile(rb"(?:I | L| S| M) {1,2}[0-9a-f]+,\d+$")
# Of a line with as many digits as an offset has, what stands in front of these.
OFFSET_DIGITS, HEAD = PAGE_SHIFT // 4, re.compile(rb"(?:I | L| S| M) {1,2}[0-9a-f]*$")
KIND_OF = {b"I ": "r", b" L": "r", b" S": "w", b" M": "w"}
# What Valgrind itself says, beside the accesses.
VALGRIND = re.compile(rb"(==|--)\d+(==|--)|$")
PLAIN = re.compile(rb"(\d+) ([rwz]) (\d+)$")


class BadTrace(Exception):
    """A line is none of the form that the trace has."""


class Trace:
    """Accesses in their order, the place of the move among them or None, and how many pages the machine has or None."""

    def __init__(self):
        self.keys, self.counts = array("Q"), array("Q")
        self.move, self.pages, self.total, self.others = None, None, 0, 0

    def add(self, vcpu, kind, page):
        if vcpu >= MOST_VCPUS:
            raise BadTrace(f"processor {vcpu}, and a script has 0 to {MOST_VCPUS - 1}")
        if page >= MOST_PAGES:
            raise BadTrace(f"page {page} is beyond 56 bits")
        self.append(page << PAGE_AT | vcpu << VCPU_SHIFT | KINDS.index(kind))

    def append(self, key):
        """Adds an access that is packed as a run is."""
        keys = self.keys
        if keys and keys[-1] == key and self.total != self.move:
            self.counts[-1] += 1
        else:
            keys.append(key)
            self.counts.append(1)
        self.total += 1

    def runs(self):
        """Each run: the number of its first access, how many there are, and their processor, kind and page. None goes over the move."""
        number = 0
        for key, count in zip(self.keys, self.counts):
            yield number, count, key >> VCPU_SHIFT & MOST_VCPUS - 1, KINDS[key & 3], key >> PAGE_AT
            number += count


def read_trace(lines):
    """The trace that these lines of bytes are, by what the first one that says it looks like."""
    lines = enumerate(lines, 1)
    held = []
    for number, line in lines:
        text = line.rstrip(b"\n")
        held.append((number, line))
        if VALGRIND.match(text):
            continue
        if text.startswith(b"postcopy-session "):
            read = read_session
        elif LACKEY.match(text):
            read = read_lackey
        elif PLAIN.match(text) or text == b"halt":
            read = read_plain
        else:
            break
        return read(chained(held, lines))
    raise BadTrace("this is no session, no line 'vcpu r|w|z page', and nothing that valgrind --tool=lackey --trace-mem=yes writes")


def chained(held, lines):
    yield from held
    yield from lines


def wrong(number, text, wanted):
    shown = text[:60].decode("ascii", "backslashreplace")
    return BadTrace(f"line {number}: '{shown}' is no {wanted}")


def read_plain(lines):
    trace = Trace()
    for number, line in lines:
        text = line.rstrip(b"\n")
        match = PLAIN.match(text)
        if match:
            add(trace, number, int(match[1]), match[2].decode(), int(match[3]))
        elif text == b"halt" and trace.move is None:
            trace.move = trace.total
        else:
            raise wrong(number, text, "'vcpu r|w|z page', and no first 'halt'")
    return trace


def add(trace, number, *access):
    try:
        trace.add(*access)
    except BadTrace as why:
        raise BadTrace(f"line {number}: {why}") from None


def read_lackey(lines):
    """One processor. An access that goes over the end of a page is one to each page; a modify is a write."""
    trace = Trace()
    # What lines begin with up to the page's number, as the key of its access, and what they end with, as the pages that it goes on for.
    keys, spans = {}, {}
    for _, line in lines:
        at = line.find(b",") - OFFSET_DIGITS
        key, span = keys.get(line[:at]), spans.get(line[at:])
        if key is None or span is None:
            # (of Valgrind's own lines nothing is told; the program that is traced may write to the same file, which is)
            if not LACKEY.match(line):
                trace.others += not VALGRIND.match(line)
                continue
            key, span = access_of(line)
            if HEAD.match(line[:at]):
                keys[line[:at]], spans[line[at:]] = key, span
        trace.append(key)
        if span:
            for page in range(1, span + 1):
                trace.append(key + (page << PAGE_AT))
    return trace


def access_of(line):
    """The key of a line's access, and how many pages it goes on for behind the first."""
    comma = line.index(b",")
    first, size = int(line[2:comma], 16), int(line[comma + 1:])
    page = first >> PAGE_SHIFT
    return page << PAGE_AT | KINDS.index(KIND_OF[line[:2]]), (first + size - 1 >> PAGE_SHIFT) - page


def read_session(lines):
    """The guest's log of a session or a recording. Its pages keep their numbers."""
    trace = Trace()
    words = (line.split() for _, line in lines)
    head = [next(words, [b""]) for _ in range(4)]
    if [it[0:1] for it in head[1:]] != [[b"pages"], [b"cells"], [b"init"]]:
        raise BadTrace("its first lines are not those of a session")
    trace.pages = int(head[1][1])
    for _ in range(int(head[3][1])):
        next(words, None)
    guest = next(words, [])
    if guest[:1] != [b"guest"]:
        raise BadTrace("it has no guest's log after its pages")
    left = int(guest[1])
    for record in words:
        if not left:
            return trace
        left -= 1
        word = record[0] if record else b""
        if word in (b"r", b"w", b"z"):
            trace.add(int(record[1]), word.decode(), int(record[2]))
        elif word == b"halt":
            trace.move = trace.total
    raise BadTrace("it is cut short in the guest's log")

"""Faults that the relay can put in, each once: those of a broken source, link or target.

A fault sees each page of the window that has contents, and returns what is handed over in its place: a list of pages with their
contents. A page that it holds back, and does not hand over later, is lost. `skip` is how many pages it leaves alone before it acts.
`tell` records in the relay's log what was done.
"""
from dataclasses import replace

from dialect import PC_RAM
from stream import PAGE_BYTES

KINDS = {
    "flip": "a bit of a page's first word is flipped",
    "flip-end": "a bit of a page's last byte is flipped, outside of what the guest uses",
    "stale": "a page comes with the contents that pre-copy sent",
    "swap": "two pages come with each other's contents",
    "drop": "a page never comes",
    "keep-drop": "the target is not told to forget a page, and its newer contents never come",
    "preflip": "a bit in each of 64 pages of pre-copy is flipped",
    "forget": "after a cut the target says of a lost page that it has it",
    "early": "the target opens a page to the guest 0.2 s before its contents are there",
    "keep": "the target is not told to forget a page: QEMU finds this one itself",
    "twice": "a page comes twice: QEMU finds this one itself",
}
NEED_CUT = ("forget",)
NEED_PRECOPY = ("stale", "keep-drop", "preflip", "keep")  # which take pages that pre-copy sent
FOUND_BY_QEMU = ("keep", "twice")


def pages_before(fault, pages):
    """Returns how many pages pre-copy sends before the switch at least, of a window of so many, for this fault to have an occasion: all of them,
    and some of them once more."""
    return pages * 5 // 4 if fault in NEED_PRECOPY else 0


def flipped(page, at):
    """Returns a page with a flipped bit in its contents."""
    contents = page.contents[:at] + bytes([page.contents[at] ^ 0x10]) + page.contents[at + 1:]
    return replace(page, contents=contents)


class Fault:
    """No fault: everything is handed over as it came."""
    held = None  # a page that is held back

    def __init__(self, kind, skip, window, tell):
        self.kind, self.skip, self.window, self.tell = kind, skip, window, tell
        self.is_done = False

    def is_taken(self):
        """Returns whether the fault is to be put in here."""
        if self.is_done:
            return False
        self.skip -= 1
        self.is_done = self.skip < 0
        return self.is_done

    def told(self, *pages):
        self.tell("fault", self.kind, *(self.window.page(page.block, page.offset) for page in pages))

    def before(self, page):
        """Takes a page of pre-copy."""
        return [page]

    def after(self, page):
        """Takes a page of post-copy."""
        return [page]

    def end_of_section(self):
        """Returns what was held back and must go now."""
        return []

    def discarded(self, block, ranges):
        return ranges

    def bitmap(self, bitmap, lost):
        """Returns the bitmap's bytes. `lost` has the offsets of the pages that were lost with the connection."""
        return bitmap.raw


class Flip(Fault):
    def after(self, page):
        if not self.is_taken():
            return [page]
        self.told(page)
        return [flipped(page, PAGE_BYTES - 1 if self.kind == "flip-end" else 0)]


class FlipBefore(Fault):
    count = 64

    def before(self, page):
        if self.count == 0:
            return [page]
        self.count -= 1
        self.told(page)
        return [flipped(page, 0)]


class Stale(Fault):
    def __init__(self, *words):
        super().__init__(*words)
        self.first = {}

    def before(self, page):
        self.first.setdefault(page.offset, page.contents)
        return [page]

    def after(self, page):
        old = self.first.get(page.offset, page.contents)
        if old == page.contents or not self.is_taken():
            return [page]
        self.told(page)
        return [replace(page, contents=old)]


class Swap(Fault):
    def after(self, page):
        if self.held:
            other, self.held = self.held, None
            self.told(other, page)
            return [replace(other, contents=page.contents), replace(page, contents=other.contents)]
        if not self.is_taken():
            return [page]
        self.held = page
        return []

    def end_of_section(self):
        """If no other page came in this section, the page goes as it is, and the fault waits for the next section."""
        if not self.held:
            return []
        page, self.held, self.is_done = self.held, None, False
        return [page]


class Drop(Fault):
    def after(self, page):
        if page.names_block or not self.is_taken():
            return [page]  # a header that names the block must come
        self.told(page)
        return []


class Twice(Fault):
    def after(self, page):
        if not self.is_taken():
            return [page]
        self.told(page)
        return [page, page]


class Keep(Fault):
    """A page that pre-copy sent is not discarded. With keep-drop it is not sent again either."""
    kept = None

    def __init__(self, *words):
        super().__init__(*words)
        self.sent = set()

    def before(self, page):
        self.sent.add(page.offset)
        return [page]

    def discarded(self, block, ranges):
        kept = []
        for start, length in ranges:
            inside = (offset for offset in range(start, start + length, PAGE_BYTES)
                      if self.window.page(block, offset) is not None and offset in self.sent)
            offset = next((offset for offset in inside if self.is_taken()), None)
            if offset is None:
                kept.append((start, length))
                continue
            self.kept = offset
            self.tell("fault", self.kind, self.window.page(block, offset))
            parts = [(start, offset - start), (offset + PAGE_BYTES, start + length - offset - PAGE_BYTES)]
            kept += [part for part in parts if part[1]]
        return kept

    def after(self, page):
        return [] if self.kind == "keep-drop" and page.offset == self.kept else [page]


class Forget(Fault):
    """The target's bitmap says that a lost page has arrived: the last one, if so many were not lost as are to be left alone."""

    def bitmap(self, bitmap, lost):
        if bitmap.block != PC_RAM or not lost or self.is_done:
            return bitmap.raw
        self.is_done, at = True, lost[min(self.skip, len(lost) - 1)]
        raw, page = bytearray(bitmap.raw), at // PAGE_BYTES
        raw[bitmap.bits.start + page // 8] |= 1 << page % 8
        self.tell("fault", self.kind, self.window.page(bitmap.block, at))
        return bytes(raw)


CLASSES = {"flip": Flip, "flip-end": Flip, "stale": Stale, "swap": Swap, "drop": Drop, "twice": Twice, "keep": Keep,
           "keep-drop": Keep, "preflip": FlipBefore, "forget": Forget}


def fault_of(kind, skip, window, tell):
    return CLASSES.get(kind, Fault)(kind, skip, window, tell)

"""Faults that the relay can put in, each once: those of a broken page server or connection.

A fault sees each answer with pages, and returns what is handed over in its place. `skip` is how many pages, or answers, it leaves alone
before it acts.
"""
from dataclasses import replace

from criu_plans import BASE, IN_LIBRARY
from page_server import PAGE_BYTES


class Fault:
    """No fault: everything is handed over as it came."""
    ends_connections = False

    def __init__(self, plan, before, tell):
        self.kind, self.skip, self.pages, self.before, self.tell = plan.fault, plan.skip, plan.pages, before, tell
        self.is_done = False

    def of(self, answer):
        return answer

    def is_taken(self, address):
        """Returns whether the fault is to be put in here. If so, records that."""
        if self.is_done:
            return False
        self.skip -= 1
        self.is_done = self.skip < 0
        if self.is_done:
            self.tell("fault", self.kind, f"{address:x}")
        return self.is_done

    def page_of(self, address):
        """Returns the number of a page of the window, or None."""
        page = (address - BASE) // PAGE_BYTES
        return page if 0 <= page < self.pages else None


class OfAPage(Fault):
    """A fault that changes the contents of a page."""

    def of(self, answer):
        contents = answer.contents
        for place, address in enumerate(answer.addresses()):
            page, at = self.page_of(address), place * PAGE_BYTES
            was = contents[at:at + PAGE_BYTES]
            if page is not None and (now := self.changed(page, was)) != was and self.is_taken(address):
                contents = contents[:at] + now + contents[at + PAGE_BYTES:]
        return replace(answer, contents=contents)


def flipped(contents, at):
    return contents[:at] + bytes([contents[at] ^ 0x10]) + contents[at + 1:]


class Flip(OfAPage):
    def changed(self, page, contents):
        return flipped(contents, 0)


class FlipEnd(OfAPage):
    def changed(self, page, contents):
        return flipped(contents, PAGE_BYTES - 1)


class Zero(OfAPage):
    def changed(self, page, contents):
        return bytes(PAGE_BYTES)


class Stale(OfAPage):
    def changed(self, page, contents):
        return self.before[page * PAGE_BYTES:(page + 1) * PAGE_BYTES]


class Swap(Fault):
    def of(self, answer):
        first, second = answer.contents[:PAGE_BYTES], answer.contents[PAGE_BYTES:2 * PAGE_BYTES]
        if answer.pages < 2 or first == second or self.page_of(answer.address) is None or not self.is_taken(answer.address):
            return answer
        return replace(answer, contents=second + first + answer.contents[2 * PAGE_BYTES:])


class Short(Fault):
    def of(self, answer):
        if answer.pages < 2 or self.page_of(answer.address) is None or not self.is_taken(answer.address):
            return answer
        return replace(answer, pages=answer.pages - 1, contents=answer.contents[:-PAGE_BYTES])


class Lose(Fault):
    def of(self, answer):
        return None if self.page_of(answer.address) is not None and self.is_taken(answer.address) else answer


class Cut(Lose):
    """Nothing arrives any more: the relay ends both connections when this is put in."""
    ends_connections = True


IN_RELAY = {"flip": Flip, "flip-end": FlipEnd, "zero": Zero, "stale": Stale, "swap": Swap, "short": Short, "lose": Lose, "cut": Cut}


def fault_of(plan, before, tell):
    """Returns the fault of a plan. `before` is the memory of the window some time before the halt."""
    return (Fault if not plan.fault or plan.fault in IN_LIBRARY else IN_RELAY[plan.fault])(plan, before, tell)

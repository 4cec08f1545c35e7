"""The cases of the test that runs: how many came out as wanted, which did not, and what was left out."""
import pytest

# So many characters of a value are told, and so many cases of a test that failed.
MOST, TOLD = 400, 40


class Cases:
    def __init__(self):
        self.passed, self.failed, self.left_out, self.item = 0, [], [], None

    def made(self):
        return self.passed + len(self.failed)


running = Cases()
# Whether a test ends at its first case that failed; after how many cases it ends, and which item of its list it tries alone, where
# numbers are given.
ends_at_first, most, alone = False, None, None


def begin():
    """A test begins."""
    global running
    running = Cases()


def each(items, through=iter, name=None):
    """The items of the test's list, or what comes of them through a function. One that failed is told by its name, by which it can be tried alone: what
    the function `name` makes of it, or else its number."""
    names = []

    def wanted():
        for number, item in enumerate(items):
            called = str(number if name is None else name(item))
            if alone in (None, called):
                names.append(called)
                yield item
                if alone is not None:
                    return

    for at, made in enumerate(through(wanted())):
        running.item = names[at]
        yield made
    if alone is not None:
        pytest.skip(f"all items but {alone}")


def count(is_well, what):
    """Counts a case, tells what failed, and answers whether it came out."""
    if is_well:
        running.passed += 1
    else:
        running.failed.append(what)
        if len(running.failed) <= TOLD:
            print(f"failed: {what}")
        if ends_at_first:
            of = "" if running.item is None else f" of item {running.item}"
            pytest.fail(f"case {running.made()}{of} failed, and the others are left out", pytrace=False)
    if most is not None and running.made() >= most:
        pytest.skip(f"the cases after the first {most}")
    return bool(is_well)


def same(what, found, wanted):
    """Counts whether what was found is what was wanted, and answers it."""
    return count(found == wanted, "" if found == wanted else f"{what}: {str(found)[:MOST]!r}, not {str(wanted)[:MOST]!r}")


def right(wrong, what=""):
    """Counts a case of which something is wrong, or nothing (None)."""
    count(wrong is None, f"{what}: {wrong}" if what else wrong)


def leave_out(what):
    """Tells that a part of the test is left out, and why."""
    running.left_out.append(what)

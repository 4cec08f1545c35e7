"""What a session holds: contents that are placed as they were sent are held once, and other contents each for itself.

A guest begins with contents in each page, writes to each, releases every fourth, and halts. Each page that it has not
released is sent as it was before the guest ran, and placed: once as it was sent, and once with other contents. Both sessions are audited,
and the first takes less memory, by most of what those contents take. So does one whose page is sent again and again, beside one that is
sent with other contents each time. And what is sent and not placed is held once.
"""
import os
import subprocess
import sys

import pytest
from cases import same

pytestmark = pytest.mark.quick

# So many that what their contents take can be told from what the program takes anyway.
PAGES, CELLS = 8_192, 128
SENDS = 2 * PAGES


def contents(page, value):
    """The contents of a page whose first cell has a value."""
    return f"{value:016x}{page + 1:016x}" + "0" * 16 * (CELLS - 2)


def session(is_other):
    """A session whose pages are placed as they were sent, or with other contents."""
    released = range(0, PAGES, 4)
    sent = [page for page in range(PAGES) if page % 4]
    yield f"postcopy-session 1\npages {PAGES}\ncells {CELLS}\ninit {PAGES}\n"
    yield from (f"page {page} {contents(page, 7)}\n" for page in range(PAGES))
    yield f"guest {PAGES + len(released) + 2}\n"
    yield from (f"w 0 {page} 0 9\n" for page in range(PAGES))
    yield from (f"z 0 {page}\n" for page in released)
    yield f"halt\nresume 1\nsource {len(sent) + 2}\nhalted {PAGES + len(released)}\nstate\n"
    yield from (f"send {page} {contents(page, 7)}\n" for page in sent)
    yield f"link {len(sent) + 1}\n"
    yield from (f"down {1 + number}\n" for number in range(len(sent) + 1))
    yield f"pager {2 * len(sent) + 2}\ngot 0\nready\n"
    placed = [contents(page, 8 if is_other else 7) for page in sent]
    yield from (f"got {1 + number}\nplace {page} {2 + 2 * number} {placed[number]}\n" for number, page in enumerate(sent))
    yield "end\n"


def unplaced(is_sent):
    """A session whose pages are sent, or not, and not placed."""
    sent = range(PAGES if is_sent else 0)
    yield f"postcopy-session 1\npages {PAGES}\ncells {CELLS}\ninit {PAGES}\n"
    yield from (f"page {page} {contents(page, 7)}\n" for page in range(PAGES))
    yield f"guest 2\nhalt\nresume 1\nsource {len(sent) + 2}\nhalted 0\nstate\n"
    yield from (f"send {page} {contents(page, 7)}\n" for page in sent)
    yield "link 1\ndown 1\npager 2\ngot 0\nready\nend\n"


def resent(is_other):
    """A session whose page is sent again and again, with the same contents or with others each time."""
    yield f"postcopy-session 1\npages 1\ncells {CELLS}\ninit 1\npage 0 {contents(0, 7)}\nguest 2\nhalt\nresume 1\n"
    yield f"source {SENDS + 2}\nhalted 0\nstate\n"
    yield from (f"send 0 {contents(number if is_other else 0, 7)}\n" for number in range(SENDS))
    yield "link 1\ndown 1\npager 2\ngot 0\nready\nend\n"


# Runs a program on some processors, and tells its status and the most memory that it held. (By a small process: what a process holds
# that starts a program counts as the program's.)
MEASURING = """import os, sys
os.sched_setaffinity(0, {int(it) for it in sys.argv[1].split()})
to_nothing = [(os.POSIX_SPAWN_OPEN, output, os.devnull, os.O_WRONLY, 0) for output in (1, 2)]
_, status, used = os.wait4(os.posix_spawn(sys.argv[2], sys.argv[2:], os.environ, file_actions=to_nothing), 0)
print(os.waitstatus_to_exitcode(status), 1024 * used.ru_maxrss)"""


def audited(program, room, text, processors):
    """The status of an audit on so many processors, and the most memory that it held."""
    with open(f"{room}/session", "w", encoding="ascii") as file:
        file.writelines(text)
    words = [" ".join(map(str, processors)), program, "audit", "--quiet", f"{room}/session"]
    told = subprocess.run([sys.executable, "-ISc", MEASURING, *words], check=True, capture_output=True, text=True).stdout
    return [*map(int, told.split())]


def compared(program, room, text, status, is_right):
    """Compares the statuses of two sessions, and looks whether it is right how much more the second one holds."""
    for processors in ({min(os.sched_getaffinity(0))}, os.sched_getaffinity(0)):
        first, second = (audited(program, room, text(is_second), processors) for is_second in (False, True))
        more = second[1] - first[1]
        same(f"on {len(processors)} processors", (first[0], second[0], is_right(more) or more), (status, status, True))


@pytest.mark.cases(2)
def test_contents_placed_as_sent(program, room):
    compared(program, room, session, 1, lambda more: more > PAGES * 3 // 4 * CELLS * 8 // 2)


@pytest.mark.cases(2)
def test_contents_sent_again(program, room):
    compared(program, room, resent, 1, lambda more: more > SENDS * CELLS * 8 // 2)


@pytest.mark.cases(2)
def test_contents_sent_once(program, room):
    compared(program, room, unplaced, 0, lambda more: more < PAGES * CELLS * 8 * 8 // 5)

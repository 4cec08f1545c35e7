"""What is asked of a session besides its report: all of its faults, what is missing, a page, a line, and the picture of a page."""
import re
import subprocess
from typing import NamedTuple, Optional


class Topic(NamedTuple):
    """A call of the library without its prefix, the program's command and option that say the same, and the page or the line, if
    it is of one."""

    call: str
    command: str
    option: str
    session: str
    number: Optional[int] = None

    @property
    def words(self):
        """The words of the program."""
        return [self.command, self.option, *self._numbers, self.session]

    @property
    def line(self):
        """The call, as bindings/c/tests/embedding.c takes it."""
        return " ".join([self.call, self.session, *self._numbers])

    @property
    def _numbers(self):
        return [] if self.number is None else [str(self.number)]

    def said(self, program):
        """What the program writes of it."""
        how = {"stdin": subprocess.DEVNULL, "stdout": subprocess.PIPE, "stderr": subprocess.DEVNULL}
        return text_of(self.call, subprocess.run([program, *self.words], **how).stdout)

    def told(self, postcopy):
        """What Python answers."""
        topic = {} if self.number is None else {self.option[2:]: self.number}
        return getattr(postcopy, self.command if topic else self.call)(self.session, **topic)


def text_of(call, written):
    """The text of a call, by what the program writes: where it is asked what is missing, the first line, and none of a session that
    is clean and lacks nothing."""
    if call not in ("missing", "missing_pages"):
        return written
    first = written[: written.find(b"\n") + 1]
    return b"" if first == b"clean\n" else first


def topics_of(session):
    """What is asked of a session: all faults, what is missing, of the whole and of its pages, two pages and one that no machine
    has, the first line of the guest's log, a line that tells no record, and the picture of a page."""
    with open(session, "rb") as file:
        text = file.read()
    guest = re.search(rb"^guest \d+$", text, re.M)
    line = text[: guest.end()].count(b"\n") + 2 if guest else 1
    yield Topic("audit_all", "audit", "--all", session)
    yield Topic("missing", "audit", "--complete", session)
    yield Topic("missing_pages", "audit", "--complete-pages", session)
    for page in (0, 1, 65536):
        yield Topic("explain_page", "explain", "--page", session, page)
    for line in (line, 1):
        yield Topic("explain_line", "explain", "--line", session, line)
    yield Topic("draw_page", "draw", "--page", session, 1)

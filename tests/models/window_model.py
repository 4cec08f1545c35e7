"""The window of a recording, slowly and plainly: by docs/RECORDS.md, 'Larger machines', and exactly by
crates/audit_model/specs/Windows.antt, where records name what is not there, or is of another kind, too.

It takes recordings that are well formed. Their numbers have no limit here.
"""
import functools

from session_text import OWN, PAGE, RECEIPTS, SessionText

# The records that are kept whatever they name, beside those of a page of the window.
ALWAYS = {"guest": {"halt", "resume"}, "source": {"halted", "state", "done", "back"}, "link": set(), "lane": set(), "pager": {"ready", "all"}}


@functools.lru_cache(maxsize=4)
def words_of(text):
    """The words of each record, by the log. Records that are the same are one object."""
    words = functools.cache(lambda record: tuple(record.split(" ")))
    return {log: [*map(words, records)] for log, records in SessionText(text).logs.items()}


class Recording(SessionText):
    """A recording, of which a window of pages is seen."""

    def __init__(self, text, first, count):
        super().__init__(text)
        self.pages, self.words = range(first, first + count), words_of(text)
        self.is_seen, self.with_page = functools.cache(self.is_seen), functools.cache(self.with_page)
        # What is kept of each log. What a log's records are kept by comes before it.
        self.kept = {}
        for log in ("link", "lane", "source", "pager"):
            self.kept[log] = [self.is_kept(log, record) for record in self.words[log]]
        self.reached = self.reaches()
        self.kept["guest"] = self.kept_of_guest()
        self.before = {log: ranks(marks) for log, marks in self.kept.items()}

    def record(self, log, number):
        """The words of a record; of none where there is no such record."""
        return self.words[log][number] if number < len(self.words[log]) else [""]

    def is_seen(self, record):
        """Whether a record tells a page of the window."""
        return record[0] in PAGE and int(record[PAGE[record[0]]]) in self.pages

    def is_sending(self, record):
        return record[0] == "state" or record[0] == "send" and self.is_seen(record)

    def is_asking(self, record):
        return record[0] == "all" or record[0] == "want" and self.is_seen(record)

    def delivers(self, record):
        """Whether a record of the link or the lane delivers what is kept."""
        number = int(record[1])
        if record[0] == "up":
            return self.is_asking(self.record("pager", number))
        sent = self.record("source", number)
        return self.is_sending(self.record("source", int(sent[1])) if sent[0] == "again" else sent)

    def takes(self, record):
        """Whether a record of the pager takes a delivery that is kept."""
        if record[0] not in ("got", "pull"):
            return False
        return self.delivers_at(RECEIPTS[record[0]], int(record[1]))

    def delivers_at(self, log, number):
        return number < len(self.words[log]) and self.delivers(self.words[log][number])

    def is_kept(self, log, record):
        """Whether a record is kept that is none of the guest's."""
        kind = record[0]
        if kind in ALWAYS[log]:
            return True
        if kind in PAGE:
            return self.is_seen(record)
        number = int(record[1])
        if kind in ("down", "up"):
            return self.delivers(record)
        if kind == "again":
            return self.is_sending(self.record("source", number))
        if kind == "ask":
            return self.delivers_at("link", number)
        if kind == "fault":
            missed = self.record("guest", number)
            return missed[0] == "miss" and self.is_seen(missed)
        if kind == "join":
            return self.is_asking(self.record("pager", number))
        return self.takes(record if kind in ("got", "pull") else self.record("pager", number))

    def reaches(self):
        """For each place in the pager's log one more than that of the newest placement of the window before it, or 0."""
        newest, found = 0, [0]
        for place, record in enumerate(self.words["pager"]):
            if record[0] in ("place", "zero") and self.is_seen(record):
                newest = place + 1
            found.append(newest)
        return found

    def reach(self, look):
        """How far a look reaches: past the newest placement of the window that is no newer than the one that it names, or 0."""
        return self.reached[min(int(look[1]) + 1, len(self.reached) - 1)]

    def kept_of_guest(self):
        furthest, kept = 0, []
        for record in self.words["guest"]:
            if record[0] == "see":
                kept.append(self.reach(record) > furthest)
                furthest = max(furthest, self.reach(record))
            else:
                kept.append(record[0] in ALWAYS["guest"] or self.is_seen(record))
        return kept

    def moved(self, log, number):
        """The number that a record has in the window: how many of those before it are kept."""
        return str(self.before[log][min(number, len(self.before[log]) - 1)])

    def with_page(self, record):
        """A record of a page, with this numbered anew."""
        at = PAGE[record[0]]
        return " ".join([*record[:at], str(int(record[at]) - self.pages.start), *record[at + 1:]])

    def anew(self, log, record):
        """A record that is kept, with its page and what it names numbered anew."""
        kind = record[0]
        if kind in PAGE and kind not in OWN:
            return self.with_page(record)
        words = self.with_page(record).split(" ") if kind in PAGE else list(record)
        if kind == "see":
            words[1] = self.moved("pager", self.reach(record) - 1)
        elif kind in RECEIPTS:
            words[1] = self.moved(RECEIPTS[kind], int(record[1]))
        elif kind in OWN:
            words[OWN[kind]] = self.moved(log, int(record[OWN[kind]]))
        return " ".join(words)

    def seen(self):
        """The lines of the window, each with the number of the recording's line that it is."""
        initial = [(line.split(" "), 5 + place) for place, line in enumerate(self.head[4:])]
        initial = [(words, line) for words, line in initial if int(words[1]) in self.pages]
        yield self.head[0], 1
        yield f"pages {len(self.pages)}", 2
        yield self.head[2], 3
        yield f"init {len(initial)}", 4
        for (word, page, contents), line in initial:
            yield f"{word} {int(page) - self.pages.start} {contents}", line
        for log in self.told():
            first = self.line(log, 0)
            yield f"{log} {sum(self.kept[log])}", first - 1
            for place, record in enumerate(self.words[log]):
                if self.kept[log][place]:
                    yield self.anew(log, record), first + place
        yield "end", self.line("pager", len(self.words["pager"]))


def ranks(marks):
    """For each place, and past the last, how many marks before it are set."""
    found = [0]
    for mark in marks:
        found.append(found[-1] + mark)
    return found


def window(text, first, count):
    """The text of the session of so many pages from one on, and for each of its lines the number of the recording's line that it is."""
    told = list(Recording(text, first, count).seen())
    return "".join(f"{line}\n" for line, _ in told), [number for _, number in told]


def lines_text(lines):
    """The text of a table of lines."""
    return "".join(f"{line}\n" for line in lines)

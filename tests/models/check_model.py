"""What `check` says of a session and a certificate, slowly and plainly.

It goes by docs/FORMATS.md alone, and looks through the logs for each question. It takes sessions of the right shape.
"""
from session_text import LOGS, RECEIPTS, SessionText
from text_judge import refusal_line


class Session:
    def __init__(self, text):
        cut = SessionText(text)
        head = [line.split(" ") for line in cut.head]
        self.pages, self.cells = int(head[1][1]), int(head[2][1])
        self.initial = {int(line[1]): self.contents(line[2]) for line in head[4:]}
        self.logs = {log: [line.split(" ") for line in cut.logs[log]] for log in LOGS}
        self.guest, self.source, self.pager = (self.logs[log] for log in ("guest", "source", "pager"))

    def contents(self, hexadecimal):
        return [int(hexadecimal[i:i + 16], 16) for i in range(0, 16 * self.cells, 16)]

    def cell_before(self, n, page, cell):
        """What a cell of the flat machine holds before guest record n."""
        for record in reversed(self.guest[:n]):
            if record[0] == "w" and record[2:4] == [str(page), str(cell)]:
                return int(record[4])
            if record[0] == "z" and record[2] == str(page):
                return 0
        return self.initial.get(page, [0] * self.cells)[cell]

    def halt(self):
        return next((n for n, record in enumerate(self.guest) if record[0] == "halt"), len(self.guest))

    def at_halt(self, page):
        held = self.initial.get(page, [0] * self.cells)[:]
        for record in self.guest[:self.halt()]:
            if record[0] == "w" and record[2] == str(page):
                held[int(record[3])] = int(record[4])
            elif record[0] == "z" and record[2] == str(page):
                held = [0] * self.cells
        return held

    def is_released(self, page):
        uses = [record[0] for record in self.guest[:self.halt()] if record[0] in "wz" and record[2] == str(page)]
        return uses[-1:] == ["z"]

    def resumed(self):
        return next((n for n, record in enumerate(self.guest) if record[0] == "resume"), len(self.guest))

    def first_use(self, page):
        """The first record after the resume that reads, writes or releases a page, or None."""
        resumed = self.resumed()
        return next((n for n, record in enumerate(self.guest) if n > resumed and record[0] in "rwz" and record[2] == str(page)), None)

    def placements(self, page):
        return [n for n, record in enumerate(self.pager) if record[0] in ("place", "zero") and record[1] == str(page)]

    def delivers(self, taking, send):
        """Whether a `got` or a `pull` of the pager took a `send`, or a repeat of it."""
        kind, down = self.pager[taking]
        sent = int(self.logs[RECEIPTS[kind]][int(down)][1])
        return sent == send or self.source[sent] == ["again", str(send)]


def is_right(session, page, entry):
    for n, record in enumerate(session.guest):
        if record[0] == "r" and record[2] == str(page) and session.cell_before(n, page, int(record[3])) != int(record[4]):
            return False
    sends = [n for n, record in enumerate(session.source) if record[:2] == ["send", str(page)]]
    placements = session.placements(page)
    use, held, released = session.first_use(page), session.at_halt(page), session.is_released(page)
    if sends and released or any(session.contents(session.source[n][2]) != held for n in sends):
        return False
    if entry == ["none"]:
        return placements == [] and use is None
    if entry[0] == "fresh":
        return placements == [] and use == int(entry[1]) and session.guest[use][0] == "z"
    *numbers, first, see = entry[1:]
    place = int(numbers[-1])
    if placements != [place]:
        return False
    record = session.pager[place]
    if entry[0] == "source":
        send = int(numbers[0])
        if record[0] != "place" or send not in sends or not session.delivers(int(record[2]), send) or session.contents(record[3]) != held:
            return False
    elif record[0] != "zero" or not released:
        return False
    if use is None or first == "-":
        return use is None and first == "-"
    look = session.guest[int(see)] if int(see) < int(first) == use else [""]
    return look[0] == "see" and place <= int(look[1])


def run_not_walked(session, runs):
    """The first of the runs, as lists of words, that no merging has so; their number where records are left; or None."""
    taken = dict.fromkeys(LOGS, 0)
    for n, (_, log, count) in enumerate(runs):
        for _ in range(int(count)):
            if taken[log] == len(session.logs[log]):
                return n
            record = session.logs[log][taken[log]]
            if record[0] in RECEIPTS and taken[RECEIPTS[record[0]]] <= int(record[1]):
                return n
            taken[log] += 1
    return len(runs) if any(taken[log] < len(session.logs[log]) for log in LOGS) else None


def verdict(session, text):
    """What `check` says of a session of the right shape and the text of a certificate."""
    line = refusal_line("certificate", text)
    if line is not None:
        return f"certificate-text line {line}"
    lines = [line.split(" ") for line in text.decode().splitlines()]
    pages = int(lines[1][1])
    if pages != session.pages:
        return "pages"
    run = run_not_walked(session, lines[pages + 3:-1])
    if run is not None:
        return f"runs line {pages + 4 + run}"
    for page in range(pages):
        if not is_right(session, page, lines[2 + page][2:]):
            return f"page line {3 + page}"
    return "yes"

"""The commands that judge a session, over plain sessions of a shape."""
import os
import subprocess
from collections import namedtuple

import measure
from measure import ALL, OURS, compared, mebibytes, pair
from texts import plain_session, records_of

# How a session is made: see `plain_session`.
Shape = namedtuple("Shape", "records pages cells resent faulty", defaults=(0, False))

# Programs that read the same files, and do not look at what the bytes mean.
FLOORS = ("`cat`", "`wc -l`")

# A command over a session: the words, how its answer begins, and the bytes that it reads.
Case = namedtuple("Case", "words wanted size")


def shape_of(records, pages, cells):
    """So many records on at most so many pages, so that the guest has something to do beside their migration."""
    return Shape(records, max(1, min(pages, records // 16)), cells)


class Judged:
    """A session in a folder, with its certificate and runs where it is clean."""

    def __init__(self, program, folder, shape):
        self.shape = shape
        self.session, self.certificate, self.runs, self.empty = (f"{folder}/{name}" for name in ("session", "certificate", "runs", "empty"))
        measure.side_by_side([lambda: measure.write(self.session, plain_session(**shape._asdict()))])
        measure.write(self.empty, "")
        if not shape.faulty and not shape.resent:
            self.certify(program)
        self.size = os.path.getsize(self.session)
        self.records = records_of(self.session) if shape.resent else shape.records

    def certify(self, program):
        with open(self.certificate, "wb") as text:
            subprocess.run([program, "certify", self.session], stdout=text, check=True)
        with open(self.certificate, encoding="ascii") as text, open(self.runs, "w", encoding="ascii") as runs:
            runs.write("postcopy-runs 1\n")
            runs.writelines(line for line in text if line.startswith(("run", "end")))

    def case(self, wanted, command, *paths):
        return Case([command, *paths], wanted, sum(map(os.path.getsize, paths)))

    def cases(self):
        """Each command by its name, and before them a `check` with an empty certificate: the session is read, and nothing is
        judged."""
        session, reading = self.session, self.case(b"certificate-text line 1\n", "check", self.session, self.empty)
        if self.shape.resent:
            return {"reading alone": reading, "`audit`": self.case(b"shape line ", "audit", session)}
        if self.shape.faulty:
            return {f"`{name}`": self.case(b"faulty line ", name, session) for name in ("audit", "certify")}
        return {
            "reading alone": reading,
            "`check`": self.case(b"yes\n", "check", session, self.certificate),
            "`certify`": self.case(b"postcopy-certificate 1\n", "certify", session),
            "`audit`": self.case(b"clean\n", "audit", session),
            "`replay`": self.case(b"safe\n", "replay", session, self.runs),
            "`explain`": self.case(b"clean\n", "explain", session),
            "`draw`": self.case(b"<svg", "draw", session),
        }

    def floors(self):
        """The words and the files of these programs, by their names."""
        paths = [it for it in (self.session, self.certificate) if os.path.exists(it)]
        return {name: (name.strip("`").split(" "), paths) for name in FLOORS}

    def measured(self, programs, times, counts=None, names=None):
        """The best runs of each command, or of these, on all processors and on one, or on so many by its name; and of the floors."""
        cases = {name: it for name, it in self.cases().items() if names is None or name in names}
        found = {name: compared(programs, it.words, it.wanted, (counts or {}).get(name, sorted({1, ALL})), times) for name, it in cases.items()}
        for name, (words, paths) in self.floors().items():
            found[name] = compared({OURS: words[0]}, words[1:] + paths, b"", (ALL,), times)
        return found

    def sizes(self):
        """How many bytes each command reads, by its name."""
        found = {name: it.size for name, it in self.cases().items()}
        return {**found, **{name: sum(map(os.path.getsize, paths)) for name, (_, paths) in self.floors().items()}}


def speed(size):
    """Shows the MB/s of a run over so many bytes."""
    return lambda run: f"{size / run.seconds / 1e6:,.0f}"


def memory(runs, size):
    """The most memory of a command, in MiB and in bytes for each byte of input."""
    most = max(run.memory for (name, _), run in runs.items() if name == OURS)
    return f"{mebibytes(most)}, {most / size:.2f}"


def told(name, runs, size):
    """The cells of a command after its times: speed and memory."""
    return [pair(speed(size), runs), "" if name in FLOORS else memory(runs, size)]

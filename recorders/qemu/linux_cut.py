"""Cuts some pages out of the recording of a Linux guest, as a recording of its own.

    python3 recorders/qemu/linux_cut.py FOLDER FIRST COUNT OUT

The window of a recording's session is the session of what this leaves in OUT, except for numbers. Only those lines of the trace stay
from which a session is made. The recording must have one connection. OUT may have no recording. The status is 1 if a file cannot be read or
written, or ends early, and 2 for wrong words.
"""
import argparse
import os
import struct
import sys

HERE = os.path.dirname(os.path.abspath(__file__))
sys.path[:0] = [HERE, os.path.dirname(HERE), f"{HERE}/../../bindings/python"]
import pack  # noqa: E402
from counts import above_0, from_0  # noqa: E402
from dialect import Moments  # noqa: E402
from kinds import plan_from_text  # noqa: E402
from records import Hole  # noqa: E402
from stream import PAGE, PAGE_BYTES, REQUEST, REQUEST_WITH_BLOCK, ZERO  # noqa: E402
from wire import ZERO as ZEROS  # noqa: E402

CELLS = 512
RECORD = struct.Struct("<QIBBH")
CHUNK = RECORD.size << 16
SEE, MISS, PLACED, HALT, RESUME = b"sqphg"  # kinds of records that name no cell
MEMORIES = ("init.mem", "halt.mem", "end.mem")


class Pages:
    """A file of pages, some of which go into another file."""

    def __init__(self, path, out):
        self.path, self.source, self.out, self.places = path, open(path, "rb"), open(out, "wb"), {}

    def place(self, place):
        """Returns the place of a page there, which may be `zero` or `-`."""
        if place in (ZEROS, "-"):
            return place
        if place not in self.places:
            self.source.seek(int(place) * PAGE_BYTES)
            page = self.source.read(PAGE_BYTES)
            if len(page) < PAGE_BYTES:
                raise Hole(f"{self.path} ends before page {place}")
            self.out.write(page)
            self.places[place] = str(len(self.places))
        return self.places[place]

    def close(self):
        self.source.close()
        self.out.close()


class Cut:
    def __init__(self, folder, first, count, out):
        self.folder, self.first, self.count, self.out = folder, first, count, out
        with open(f"{folder}/plan.json", encoding="ascii") as file:
            self.plan = plan_from_text(file.read())
        if first + count > self.plan.pages:
            raise Hole(f"{folder} has {self.plan.pages} pages, from 0 on")
        self.start = self.plan.base + first * PAGE_BYTES
        self.end = self.start + count * PAGE_BYTES
        self.handed, self.requests = [], []       # whether each stays, in the relay's order
        self.placements, self.misses = [0], [0]   # by the old number, how many up to it stay

    def make(self):
        os.makedirs(self.out, exist_ok=True)
        pack.refuse((*pack.FILES, *pack.OF_LINUX), self.out)
        self.plan.base, self.plan.pages = self.start, self.count
        with open(f"{self.out}/plan.json", "w", encoding="ascii") as out:
            out.write(self.plan.to_text())
        self.relay()
        for side, lines in (("source", self.source_lines), ("target", self.target_lines)):
            moments = Moments(side, getattr(self.plan, f"{side}_version"))
            with open(f"{self.folder}/{side}.raw", encoding="ascii") as file:
                kept = [line for line in lines(map(str.rstrip, file), moments) if line]
            with open(f"{self.out}/{side}.raw", "w", encoding="ascii") as out:
                out.writelines(f"{line}\n" for line in kept)
        for side in ("source", "target"):
            self.accesses(side)
        for name in MEMORIES:
            with open(f"{self.folder}/{name}", "rb") as file, open(f"{self.out}/{name}", "wb") as out:
                file.seek(self.first * PAGE_BYTES)
                out.write(file.read(self.count * PAGE_BYTES))

    def is_inside(self, block, offset):
        return block == "pc.ram" and self.start <= int(offset) < self.end

    # The relay's log

    def relay(self):
        pages = Pages(f"{self.folder}/relay.pages", f"{self.out}/relay.pages")
        with open(f"{self.folder}/relay.log", encoding="ascii") as lines, open(f"{self.out}/relay.log", "w", encoding="ascii") as out:
            for line in lines:
                kept = self.relay_line(line.split(), pages)
                if kept:
                    print(*kept, file=out)
        pages.close()

    def relay_line(self, words, pages):
        """Returns a line of the relay's log, or None if it is about other pages."""
        what, *fields = words
        if what in ("open", "strange"):
            return words
        if what in ("fault", "multifd", "late"):
            return None
        if fields[1] == "page":
            _, _, phase, block, offset, *places = fields
            is_inside = self.is_inside(block, offset)
            if phase == "post" and what != "lost":
                self.handed.append(is_inside)
            return [what, *fields[:5], *map(pages.place, places)] if is_inside else None
        if fields[1] == "discard":
            _, _, block, start, length = fields
            start, end = max(self.start, int(start)), min(self.end, int(start) + int(length))
            return [what, *fields[:3], start, end - start] if block == "pc.ram" and start < end else None
        if fields[1] == "request":
            self.requests.append(self.is_inside(fields[2], fields[3]))
            return words if self.requests[-1] else None
        return words if fields[1] in ("state", "shut") else None

    # The traces

    def source_lines(self, lines, moments):
        asked = 0
        for line in lines:
            for moment, fields in moments.of(line):
                if moment == "ask":
                    asked += 1
                    yield line if self.requests[asked - 1] else None
                else:
                    yield line if moment != "page" or self.is_inside(fields["block"], int(fields["offset"], 16)) else None

    def target_lines(self, lines, moments):
        pages = Pages(f"{self.folder}/target.pages", f"{self.out}/target.pages")
        taken = requested = 0
        is_inside = False  # whether the fault told last is
        for line in lines:
            for moment, fields in moments.of(line):
                if moment == "taken":
                    if int(fields["flags"], 16) & (ZERO | PAGE):
                        taken += 1
                        yield line if self.handed[taken - 1] else None
                elif moment == "message":
                    if int(fields["kind"]) in (REQUEST, REQUEST_WITH_BLOCK):
                        requested += 1
                        yield line if requested > len(self.requests) or self.requests[requested - 1] else None
                    else:
                        yield line
                elif moment == "miss":
                    self.misses.append(self.misses[-1] + is_inside)
                    yield f"uffd miss {self.misses[-1]}" if is_inside else None
                elif "page" in fields:
                    page = int(fields["page"]) - self.first
                    is_inside = 0 <= page < self.count
                    if moment in ("have", "place", "zero"):
                        self.placements.append(self.placements[-1] + is_inside)
                    yield self.of_page(moment, page, fields, pages) if is_inside else None
                else:
                    yield line
        pages.close()

    @staticmethod
    def of_page(moment, page, fields, pages):
        rest = {"fault": ("thread",), "refused": ("error",)}.get(moment, ())
        places = [pages.place(fields["place"])] if "place" in fields else []
        return " ".join(["uffd", moment, str(page), *places, *(fields[name] for name in rest)])

    # The accesses

    def accesses(self, side):
        first, end = self.first * CELLS, (self.first + self.count) * CELLS
        kept = seen = 0
        with open(f"{self.folder}/{side}.accesses", "rb") as file, open(f"{self.out}/{side}.accesses", "wb") as out:
            while chunk := file.read(CHUNK):
                for value, place, kind, vcpu, spare in RECORD.iter_unpack(chunk):
                    if kind in (HALT, RESUME):
                        pass
                    elif kind in (SEE, MISS, PLACED):
                        is_inside = self.first <= place < self.first + self.count
                        numbers = self.misses if kind == MISS else self.placements
                        value = numbers[min(value, len(numbers) - 1)]
                        if value == seen if kind == SEE else not is_inside:
                            continue
                        seen = value if kind == SEE else seen
                        place = place - self.first if is_inside else 0
                    elif first <= place < end:
                        place -= first
                    else:
                        continue
                    kept += 1
                    out.write(RECORD.pack(value, place, kind, vcpu, spare))
        with open(f"{self.folder}/{side}.counts", encoding="ascii") as file, open(f"{self.out}/{side}.counts", "w", encoding="ascii") as out:
            for line in file:
                out.write(f"records {kept}\n" if line.startswith("records ") else line)


def main():
    words = argparse.ArgumentParser(prog="linux_cut.py", description=__doc__, formatter_class=argparse.RawDescriptionHelpFormatter, usage=argparse.SUPPRESS)
    words.add_argument("folder", help=argparse.SUPPRESS)
    words.add_argument("first", type=from_0, help=argparse.SUPPRESS)
    words.add_argument("count", type=above_0, help=argparse.SUPPRESS)
    words.add_argument("out", help=argparse.SUPPRESS)
    asked = words.parse_args()
    try:
        Cut(asked.folder, asked.first, asked.count, asked.out).make()
    except OSError as fault:
        sys.exit(f"linux_cut.py: {fault.filename or asked.out}: {fault.strerror}")
    except (Hole, ValueError, struct.error) as fault:
        sys.exit(f"linux_cut.py: {fault}")


if __name__ == "__main__":
    main()

"""Refuses each growth of memory in turn to the library's calls, of which each is made again once it was refused.

The calls are made by the tests in tests/calls/refused_calls, over the texts of some examples, and their growths are refused by
bindings/c/tests/refusing.c, which stands before the system's calls. Each growth is refused twice: with all later ones of its call, and
alone; of what threads judge, alone.
Each time the call has to answer that there was no memory, and nothing else; what its contract says has to stay as it was; and
once none is refused the call has to give its answer, on the value that the refusals left. Of a call that takes no memory
there has to be no growth. A call that makes its growths again, or that goes on without a thread, may go on where one is
refused, with its right answer.

The tables below have every call that is tried. One that is not made, or that no growth is refused to, has failed, and so
has one that is made and stands in none. `commands::run` is the program itself, to which test_refused_growths.py refuses them.

Packets are cut before each byte and have each byte changed besides, and what a stream answers is compared with a slow reader.

The program is that of test_calls.py.
"""
import os
import subprocess

import pytest
from cases import count, same
from planted_programs import program_with_bodies

TOP = os.path.dirname(os.path.dirname(os.path.realpath(__file__)))
# How long all calls may take, in seconds by the clock.
LIMIT = 600
# What a test ends with.
ENDED, NOT_ENDED = "all were made", "not all were made"

# The calls that each test makes, by the beginnings of their names.
PARTS = {
    "containers": "balloon_ledger bubbling fault_queue migration_types::Geometry page_store residency",
    "packets": "page_stream",
    "texts": "cert_text guest_script session_log",
    "judges": "cert_check cert_maker judged_texts merge_runs migration_types::Session migration_types::line_of",
    "reports": "audit_report",
    "wide": "audit_report::audit cert_check::check_par",
    "books": "active_push full_log link_book target_side",
    "cores": "session_core",
    "hosts": "host_threads",
}

# The calls that take memory, by crate.
REFUSED = {
    "page_store": "Store::zeroed Store::from_init",
    "balloon_ledger": "Ledger::new Ledger::released_list",
    "residency": "Residency::new",
    "bubbling": "Bubbles::new",
    "fault_queue": "FaultQueue::fault",
    "page_stream": "encode Stream::feed pump",
    "session_log": "read_session Room::new write_session SessionReader::feed",
    "cert_text": "read_cert write_cert CertReader::feed read_runs write_runs RunsReader::feed",
    "merge_runs": "replay",
    "cert_check": "shape check check_par",
    "judged_texts": "check_texts",
    "cert_maker": "find_order make",
    "audit_report": "audit print_report",
    "active_push": "SourceBook::halted SourceBook::push SourceBook::serve SourceBook::tick",
    "link_book": "LinkBook::room LinkBook::turn",
    "target_side": "GuestBook::new GuestBook::access GuestBook::halt TargetBook::access PagerBook::new PagerBook::pop PagerBook::pull "
                   "PagerBook::next_fault PagerBook::deliver PagerBook::tick",
    "session_core": "Core::start Core::step Core::session run",
    "guest_script": "read_script read_events",
    "host_threads": "migrate migrate_over migrate_tcp",
}

# Those that take none.
NONE = {
    "migration_types": "Geometry::new Session::named line_of",
    "page_store": "Store::read Store::write Store::release Store::page Store::install",
    "balloon_ledger": "Ledger::release Ledger::wrote Ledger::holds Ledger::owed_count",
    "residency": "Residency::resident Residency::mark Residency::placed_at Residency::frontier Residency::saw Residency::covers",
    "bubbling": "Bubbles::fault_at Bubbles::next Bubbles::mark_sent Bubbles::left",
    "fault_queue": "FaultQueue::new FaultQueue::served FaultQueue::first FaultQueue::pages",
    "page_stream": "fits Stream::new",
    "session_log": "SessionReader::finish write_in_pieces",
    "merge_runs": "is_merging",
    "active_push": "SourceBook::source_log SourceBook::sent SourceBook::geometry",
    "link_book": "LinkBook::new LinkBook::offer_down LinkBook::offer_up LinkBook::head LinkBook::peek_down LinkBook::peek_up "
                 "LinkBook::pop_down LinkBook::pop_up LinkBook::down_len LinkBook::quiet LinkBook::link_log "
                 "LinkBook::offer_lane LinkBook::lane_len LinkBook::peek_lane LinkBook::pop_lane",
    "target_side": "GuestBook::guest_log TargetBook::guest_log TargetBook::geometry TargetBook::into_parts PagerBook::pager_log "
                   "PagerBook::flush PagerBook::next_page",
    # (where the log is full)
    "full_log": "TargetBook::halted PagerBook::deliver PagerBook::tick pager_tick",
}

# Those that make the growth of a line again, by itself, where it was refused to them among others; or that make it as lines come, where
# it was refused for all of them.
AGAIN = {
    "guest_script": "read_script read_events",
    "session_log": "read_session SessionReader::feed",
    "cert_text": "read_cert CertReader::feed read_runs RunsReader::feed",
    "judged_texts": "check_texts",
}

# Those of them whose piece may end where room was made for the lines to come, and nothing was read into it.
EARLY = {
    "session_log": "SessionReader::feed",
    "cert_text": "CertReader::feed RunsReader::feed",
}

# Those that go on without a thread that they do not get.
THREADS = {
    "cert_check": "check_par",
    "judged_texts": "check_texts",
    "audit_report": "audit",
}


def names(table, part=""):
    """The calls of a table: all, or those that a test makes."""
    found = {f"{crate}::{call}" for crate, calls in table.items() for call in calls.split()}
    return {it for it in found if it.startswith(tuple(PARTS[part].split()))} if part else found


# Packets of a machine of two pages of one cell, and what a byte of them is changed to.
PACKETS = bytes.fromhex(
    "000000090100000001000000000000000d0100000001000000010000000100000011020000000300000000000000000000000500000009030000000300000000000000050400000009"
)
NEW = (0, 1, 2, 4, 5, 13, 16, 255)


def has_fields(kind, body):
    """Whether these are the fields of a packet of this kind, on a machine of two pages of one cell."""
    numbers = [int.from_bytes(body[at:at + 4], "big") for at in range(0, len(body), 4)]
    if len(body) % 4 or not numbers or numbers[0] >= 2**20:
        return False
    if kind == 1:
        pages = numbers[2:]
        return len(numbers) > 1 and numbers[1] == len(pages) and pages == sorted(set(pages)) and all(page < 2 for page in pages)
    return len(numbers) == {2: 4, 3: 2, 4: 1}[kind] and (kind == 4 or numbers[1] < 2)


def slow_answer(data):
    """What a stream answers to bytes, by the table of packets in docs/FORMATS.md: a letter for each packet, and for a fault."""
    found = ""
    while len(data) >= 4:
        length = int.from_bytes(data[:4], "big")
        if not 1 <= length <= 262_153:
            return found + "l"
        if len(data) > 4 and not 1 <= data[4] <= 4:
            return found + "k"
        if len(data) < 4 + length:
            return found
        if not has_fields(data[4], data[5:4 + length]):
            return found + "f"
        found, data = found + " SPWA"[data[4]], data[4 + length:]
    return found


def slow_answers():
    for at in range(len(PACKETS)):
        yield slow_answer(PACKETS[:at])
        yield from (slow_answer(PACKETS[:at] + bytes([new]) + PACKETS[at + 1:]) for new in NEW)


class Call:
    """One call that was made: which growth was to be refused, and what was written of it."""

    def __init__(self, name, number, is_on):
        self.name, self.number, self.is_on = name, number, is_on
        self.growths = self.refused = None
        self.told = []

    def may_go_on(self):
        is_early = self.refused == 1 and self.name in names(EARLY)
        return self.name in names(THREADS) or (is_early or not self.is_on) and self.name in names(AGAIN)

    def is_right_after(self, answer):
        """Whether it gave this answer, and nothing about it was wrong."""
        return self.told[:1] == [answer] and set(self.told[1:]) == {"right"}

    def fault(self):
        """What is wrong with it, or None."""
        if self.refused is None:
            return "did not end"
        if self.number == 0 and self.growths:
            return f"took memory {self.growths} times"
        if self.refused == 0:
            if 0 < self.number <= self.growths:
                return "met no refusal of a growth that it had"
            is_well = self.is_right_after("answered") or self.number == 0 and self.told == ["answered"]
            return None if is_well else f"with all its memory: {self.told}"
        if self.told == ["memory"] or self.is_right_after("went on") and self.may_go_on():
            return None
        return f"with growth {self.number}{' and all later ones' if self.is_on else ''} refused: {self.told}"


def calls_in(said):
    """The calls that the program made, what it wrote of streams, and its last line."""
    calls, streams, last = [], [], ""
    for line in said.splitlines():
        words, last = line.split(" "), line
        if words[0] == "refuse":
            calls.append(Call(words[1], int(words[2]), words[3:] == ["on"]))
        elif words[0] == "growths":
            calls[-1].growths, calls[-1].refused = int(words[1]), int(words[3])
        elif words[0] == "stream":
            streams.append(words[1])
        elif line not in ("made", ENDED, NOT_ENDED):
            calls[-1].told.append(line)
    return calls, streams, last


def faults_of(calls, part):
    yield from (f"{it.name} {it.fault()}" for it in calls if it.fault())
    met = {it.name for it in calls}
    refused = {it.name for it in calls if it.refused}
    yield from (f"{name} stands in no table" for name in sorted(met - names(REFUSED, part) - names(NONE, part)))
    yield from (f"{name} was not made" for name in sorted(names(NONE, part) - met))
    yield from (f"{name} was refused nothing" for name in sorted(names(REFUSED, part) - refused))


def run(program, part, refusing):
    """Makes the calls: what a test wrote, and what it failed with."""
    with open(os.devnull, "wb") as nothing:
        os.dup2(nothing.fileno(), 99)
    try:
        ran = subprocess.run([program, "calls", f"refused_calls::of_{part}"], cwd=TOP, env={"LD_PRELOAD": refusing, "REFUSING": "told"}, stdin=subprocess.DEVNULL,
                             capture_output=True, text=True, errors="replace", pass_fds=(99,), timeout=LIMIT)
    except subprocess.TimeoutExpired as ran:
        return (ran.stdout or b"").decode(), f"the calls did not end in {LIMIT} seconds"
    return ran.stdout, f"status {ran.returncode} {ran.stderr[-2000:]}" if ran.returncode or ran.stderr else ""


@pytest.mark.toolchain
@pytest.mark.slow
@pytest.mark.xdist_group("calls")
@pytest.mark.cases(1)
@pytest.mark.parametrize("part", PARTS)
def test_refused_calls(made_once, refusing, pytestconfig, part):
    said, failed = run(pytestconfig.getoption("--calls") or program_with_bodies(made_once), part, refusing)
    calls, streams, last = calls_in(said)
    for fault in dict.fromkeys(faults_of(calls, part)):
        count(False, fault)
    same("packets that are cut or changed", streams, list(slow_answers()) if part == "packets" else [])
    same(f"the end of the program, after {calls[-1].name if calls else 'no call'}", (failed, last), ("", ENDED))
    for _ in range(len(names(REFUSED, part)) + len(names(NONE, part)) + sum(it.refused or 0 for it in calls)):
        count(True, "")


def test_each_call_is_of_a_test():
    assert {it for part in PARTS for it in (*names(REFUSED, part), *names(NONE, part))} == {*names(REFUSED), *names(NONE)}

"""The parser of the protocol of CRIU's page server, the relay that reads it, and the faults that it puts in."""
import os
import random
import socket
import tempfile
import time

from criu_plans import BASE, plan_of
from page_relay import Relay
from page_server import NARROW, PAGE_BYTES, WIDE, Answers, Message, Requests, Status, Strange, header_of
from plain import wait_until
from relay_faults import fault_of

OF = 0x3e8


def get(page, pages):
    return Message("get", pages, BASE + page * PAGE_BYTES, OF)


def page_of(number):
    return number.to_bytes(8, "little") * (PAGE_BYTES // 8)


def add(page, pages, first=1):
    """An answer, whose pages are numbered."""
    return Message("add", pages, BASE + page * PAGE_BYTES, OF, 4, b"".join(page_of(first + page + at) for at in range(pages)))


END = Message("force-close", 0, 0, 0)
ASKED = [get(0, 3), get(7, 1), get(3, 2), END]
ANSWERED = [add(0, 3), add(7, 1), add(3, 1), Status(0)]


def in_pieces(data, drawn):
    while data:
        length = drawn.randrange(1, 9000)
        yield data[:length]
        data = data[length:]


def of_bytes(tests):
    """Bytes that CRIU sent, as they were recorded."""
    narrow = bytes.fromhex("070000001000000000600200001000 00e803000000000000")
    tests.wants("a request of 4.1", Requests(NARROW).feed(narrow), [Message("get", 16, 0x100000026000, OF)])
    wide = bytes.fromhex("07000000 00000000 1000000000000000 0060020000100000 e803000000000000")
    tests.wants("a request of 4.2", Requests(WIDE).feed(wide), [Message("get", 16, 0x100000026000, OF)])
    tests.wants("its bytes", Message("get", 16, 0x100000026000, OF).to_bytes(WIDE), wide)
    end = bytes.fromhex("24100000" + "00" * 20)
    tests.wants("the end", Requests(NARROW).feed(end), [END])
    tests.wants("the lengths of headers", [header_of(version).size for version in ("3.17", "4.1.1", "4.2", "4.2.1", "4.10", "5.0")],
                [24, 24, 32, 32, 32, 32])


def of_pieces(tests):
    """However the bytes are cut, the messages are the same."""
    drawn = random.Random(7)
    for header in (NARROW, WIDE):
        up = b"".join(message.to_bytes(header) for message in ASKED)
        down = b"".join(answer.to_bytes(header) for answer in ANSWERED)
        for _ in range(20):
            requests, answers = Requests(header), Answers(header)
            found = [message for piece in in_pieces(up, drawn) for message in requests.feed(piece)]
            tests.wants("what is asked", found, ASKED)
            for message in found:
                answers.asked(message)
            tests.wants("what is answered", [answer for piece in in_pieces(down, drawn) for answer in answers.feed(piece)], ANSWERED)
        tests.wants("as bytes", b"".join(message.to_bytes(header) for message in found), up)
        answers = Answers(header)
        answers.asked(ASKED[0])
        tests.wants("an answer that is not whole", answers.feed(ANSWERED[0].to_bytes(header)[:-1]), [])
        tests.wants("its last byte", answers.feed(ANSWERED[0].to_bytes(header)[-1:]), [ANSWERED[0]])


def of_strange_bytes(tests):
    tests.refuses("a command that is not known", Strange, lambda: Requests(NARROW).feed(NARROW.pack(99, 1, BASE, OF)))
    tests.refuses("more pages than are asked for", Strange, lambda: Requests(WIDE).feed(WIDE.pack(7, 1 << 40, BASE, OF)))
    tests.refuses("a header of 4.2 for one of 4.1", Strange, lambda: [Requests(NARROW).feed(get(0, 1).to_bytes(WIDE) * 3)])
    tests.refuses("an answer that nobody asked for", Strange, lambda: Answers(NARROW).feed(b"\0"))
    for what, answer in (("another command", get(0, 1)), ("no contents", Message("add", 1, BASE, OF, 1))):
        answers = Answers(NARROW)
        answers.asked(get(0, 1))
        tests.refuses(f"an answer with {what}", Strange, lambda: answers.feed(answer.to_bytes(NARROW)))
    tests.refuses("a request that a lazy migration has not", Strange, lambda: Answers(NARROW).asked(Message("add", 1, BASE, OF)))


def given_by(kind, answers, skip=0, before=b""):
    """What a fault hands over in the place of answers, and what is told of it."""
    told = []
    fault = fault_of(plan_of("live", pages=16, fault=kind, skip=skip), before, lambda *fields: told.append(fields))
    return [fault.of(answer) for answer in answers], told


def of_faults(tests):
    answers = [add(0, 3), Message("add", 2, 0x7fff00000000, OF, 4, page_of(1) + page_of(2)), add(3, 2), add(7, 1)]
    tests.wants("no fault", given_by("", answers), (answers, []))
    tests.wants("a fault of the library", given_by("early", answers), (answers, []))

    def first(page, contents):
        return Message("add", 3, BASE, OF, 4, contents) if page == 0 else None

    pages = [page_of(1), page_of(2), page_of(3)]
    changed = {
        "flip": [b"\x11" + pages[0][1:], *pages[1:]],
        "flip-end": [pages[0][:-1] + b"\x10", *pages[1:]],
        "zero": [bytes(PAGE_BYTES), *pages[1:]],
        "stale": [page_of(9), *pages[1:]],
        "swap": [pages[1], pages[0], pages[2]],
    }
    old = page_of(9) + b"".join(page_of(1 + page) for page in range(1, 16))
    for kind, contents in changed.items():
        given, told = given_by(kind, answers, before=old)
        tests.wants(f"{kind}, once", (given[0].contents, given[1:]), (b"".join(contents), answers[1:]))
        tests.wants(f"{kind} is told", told, [("fault", kind, f"{BASE:x}")])
    given, told = given_by("flip", answers, skip=3)
    tests.wants("pages that are left alone, and others' memory", ([it != was for it, was in zip(given, answers)], told),
                ([False, False, True, False], [("fault", "flip", f"{BASE + 3 * PAGE_BYTES:x}")]))
    same = page_of(1) + b"".join(page_of(1 + page) for page in range(1, 16))
    tests.wants("contents that are no older", given_by("stale", answers, before=same), (answers, []))
    given, told = given_by("short", answers)
    tests.wants("a shorter answer", (given[0], given[1:], told),
                (Message("add", 2, BASE, OF, 4, pages[0] + pages[1]), answers[1:], [("fault", "short", f"{BASE:x}")]))
    tests.wants("an answer that is lost", given_by("lose", answers, skip=1)[0], [answers[0], answers[1], None, answers[3]])


def of_relay(tests):
    """What went through the relay, and what it wrote down."""
    shorter = Message("add", 2, BASE, OF, 4, page_of(1) + page_of(2)).to_bytes(WIDE)
    for fault, given, wanted in (("", 3, add(0, 3).to_bytes(WIDE)), ("short", 2, shorter), ("lose", 0, b""), ("cut", 0, b"")):
        with tempfile.TemporaryDirectory() as folder:
            (pager, ours), (server, theirs) = socket.socketpair(), socket.socketpair()
            relay = Relay(folder, WIDE, ours, theirs, plan_of("live", pages=16, delay=0, fault=fault, skip=0), b"")
            pager.sendall(get(0, 3).to_bytes(WIDE) + END.to_bytes(WIDE))
            asked = server.recv(WIDE.size * 2, socket.MSG_WAITALL)
            tests.wants("what the page server was asked", asked, get(0, 3).to_bytes(WIDE) + END.to_bytes(WIDE))
            tests.wants("it waits for an answer", relay.is_waited_for(), True)
            server.sendall(add(0, 3).to_bytes(WIDE) + Status(0).to_bytes(WIDE))
            server.close()
            last = b"" if fault == "cut" else Status(0).to_bytes(WIDE)
            got = bytearray()
            while data := pager.recv(1 << 16):
                got += data
            tests.wants("what lazy-pages was answered", bytes(got), wanted + last)
            if fault != "cut":
                tests.wants("nothing is waited for", relay.is_waited_for(), False)
            pager.close()
            relay.end()
            with open(f"{folder}/relay.log", encoding="ascii") as log:
                told = log.read().splitlines()
            put_in = [f"fault {fault} {BASE:x}"] if fault else []
            tests.wants("what it wrote down", told, ["up get 3 100000000000", "up force-close 0 0", *put_in, f"down pages 3 100000000000 0 {given}", *([] if fault == "cut" else ["down status 0"])])
            tests.wants("and the contents as they came", os.path.getsize(f"{folder}/relay.pages"), 3 * PAGE_BYTES)
            tests.wants("nothing was strange", relay.complaint, None)


def of_ended_relay(tests):
    """A relay that is ended hands no more answers over, however many have come, and does not wait until the next one would be handed over."""
    for delay in (50, 20_000):
        with tempfile.TemporaryDirectory() as folder:
            (pager, ours), (server, theirs) = socket.socketpair(), socket.socketpair()
            relay = Relay(folder, WIDE, ours, theirs, plan_of("live", pages=64, delay=delay), b"")
            pager.sendall(b"".join(get(page, 1).to_bytes(WIDE) for page in range(40)))
            server.recv(WIDE.size * 40, socket.MSG_WAITALL)
            server.sendall(b"".join(add(page, 1).to_bytes(WIDE) for page in range(40)))
            if delay < 1000:
                pager.recv(1)
            else:
                wait_until(lambda relay=relay: relay.is_delaying)
            began = time.monotonic()
            relay.end()
            tests.wants(f"it ends at once, with a delay of {delay} ms", time.monotonic() - began < 1.5, True)
            tests.wants("and all its threads", [thread.is_alive() for thread in relay.threads], [False, False])
            pager.close()
            server.close()


def of_strange_relay(tests):
    """What is not understood is told, and not handed on."""
    with tempfile.TemporaryDirectory() as folder:
        (pager, ours), (server, theirs) = socket.socketpair(), socket.socketpair()
        relay = Relay(folder, NARROW, ours, theirs, plan_of("live"), b"")
        pager.sendall(NARROW.pack(99, 1, BASE, OF))
        tests.wants("the other side hears of no more", server.recv(100), b"")
        relay.end()
        tests.wants("it is told", "command 99" in (relay.complaint or ""), True)
        pager.close()
        server.close()


def of_full_disk(tests):
    """What cannot be recorded is not handed over, and is told: it is no end of a connection."""
    for full in ("relay.log", "relay.pages"):
        with tempfile.TemporaryDirectory() as folder:
            os.symlink("/dev/full", f"{folder}/{full}")
            (pager, ours), (server, theirs) = socket.socketpair(), socket.socketpair()
            for end in (pager, server):
                end.settimeout(10)
            relay = Relay(folder, NARROW, ours, theirs, plan_of("live"), b"")
            pager.sendall(get(0, 1).to_bytes(NARROW))
            if full == "relay.pages":
                server.recv(NARROW.size)
                server.sendall(add(0, 1).to_bytes(NARROW))
            tests.wants(f"neither side hears of more, with a full {full}", (pager.recv(100), server.recv(100)), (b"", b""))
            relay.end()
            tests.wants("it is told", relay.complaint, "the relay cannot record: No space left on device")
            pager.close()
            server.close()


def run(tests):
    of_bytes(tests)
    of_pieces(tests)
    of_strange_bytes(tests)
    of_faults(tests)
    of_relay(tests)
    of_ended_relay(tests)
    of_strange_relay(tests)
    of_full_disk(tests)

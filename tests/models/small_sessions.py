"""Small sessions of the right shape, made at random, all their mergings, and whether a fault shows in each of these."""
from typing import NamedTuple

from check_model import Session
from session_text import LOGS, SessionText
from world_model import broken

# Of a session with more mergings nothing is said.
MOST = 2000
CONTENTS, OTHER = "0000000000000000", "0000000000000007"


def small_session(rng):
    """A session of one or two pages, of which some uses miss, and some misses are told to the pager before it places a page."""
    pages = rng.choice((1, 1, 2))
    given_back = [page for page in range(pages) if rng.random() < 0.2]
    guest = [f"z 0 {page}" for page in given_back] + ["halt", "resume 1"]
    halt = len(given_back)
    for _ in range(rng.randrange(1, 4)):
        page = rng.randrange(pages)
        guest.append(rng.choice((f"r 0 {page} 0 0", f"w 0 {page} 0 1", f"z 0 {page}", f"miss 0 {page}", f"miss 0 {page}", "see")))
    sent = [page for page in range(pages) if page not in given_back]
    source = [f"halted {halt}", "state", *(f"send {page} {CONTENTS}" for page in sent)]
    link = [f"down {n}" for n in range(1, len(source))]
    asked = [[f"fault {n}"] for n, record in enumerate(guest) if record.startswith("miss") and rng.random() < 0.8]
    events = asked + [["got", page] for page in sent] + [["zero", page] for page in given_back]
    rng.shuffle(events)
    pager = ["got 0", "ready"]
    for event in events:
        if event[0] == "got":
            pager += [f"got {1 + sent.index(event[1])}", f"place {event[1]} {len(pager)} {rng.choice((CONTENTS, CONTENTS, OTHER))}"]
        else:
            pager.append(" ".join(map(str, event)))
    logs = {"guest": guest, "source": source, "link": link, "lane": [], "pager": pager}
    placed = [n for n, record in enumerate(pager) if record.startswith(("place", "zero"))]
    logs["guest"] = [f"see {rng.choice(placed)}" if record == "see" else record for record in guest]
    lines = ["postcopy-session 2", f"pages {pages}", "cells 1", "init 0"]
    for log, records in logs.items():
        lines += [f"{log} {len(records)}", *records]
    return "\n".join([*lines, "end", ""])


class Every(NamedTuple):
    """Whether every order shows a fault, and whether the demand of its record fails in each."""
    is_shown: bool
    is_broken: bool


def mergings(text):
    """All orders of a session's records, by log and place; none where they are more than MOST."""
    session, found, fronts = SessionText(text), [], [(dict.fromkeys(LOGS, 0), [])]
    whole = sum(map(len, session.logs.values()))
    while fronts:
        taken, order = fronts.pop()
        if len(order) == whole:
            found.append(order)
        if len(found) + len(fronts) > MOST:
            return []
        for log in LOGS:
            if session.is_ready(log, taken):
                fronts.append(({**taken, log: taken[log] + 1}, [*order, (log, taken[log])]))
    return found


def page_of(session, name):
    log, place = name
    return int(session.logs[log][place][2 if log == "guest" else 1])


def shows(session, fault, reason, order):
    """Whether an order shows a fault: an early use before each placement of its page, a release before the placement over it,
    and else a record whose demand fails."""
    if reason not in ("early", "over"):
        return fault in broken(session, order)
    place, page = fault[1], page_of(session, fault)
    use = place if reason == "early" else session.first_use(page)
    behind = order[order.index(("guest", use)):]
    return all(("pager", n) in behind for n in session.placements(page))


def every_order_shows(text, fault, reason):
    """Whether every order of a session shows a fault, as Every; None where it has too many."""
    session, orders = Session(text), mergings(text)
    if not orders:
        return None
    return Every(all(shows(session, fault, reason, order) for order in orders), all(fault in broken(session, order) for order in orders))

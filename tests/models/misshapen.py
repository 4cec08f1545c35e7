"""Sessions into which records are put that have a fault of the shape, and pages that have faults of their own."""
from session_text import LOGS, RECEIPTS, SessionText
from shape_model import NAMED

# The words with which a record of a log names another.
NAMING = {"guest": ("see", "resume"), "source": ("again", "ask", "halted"), "link": ("down", "up"), "lane": ("down",),
          "pager": ("got", "pull", "fault", "join", "place", "skip")}


def misname(rng, session, log, page):
    """Puts a record into a log that names a wrong one, if there is such a record; or has the handover name one."""
    word = rng.choice(NAMING[log])
    named = session.logs[RECEIPTS.get(word, log)]
    wrong = [n for n, record in enumerate(named) if record.split(" ")[0] not in NAMED[word]]
    number = rng.choice(wrong) if wrong and rng.random() < 0.9 else len(named) + 5
    places = [n for n, record in enumerate(session.logs[log]) if record.split(" ")[0] == word]
    if word in ("resume", "halted"):
        session.logs[log][places[0]:places[0] + 1] = [f"{word} {number}"] * bool(places)
        return
    session.insert(log, rng.randint(min(2, len(session.logs[log])), len(session.logs[log])),
                   f"place {page} {number} {contents(rng, session)}" if word == "place" else f"{word} {number}")


def contents(rng, session):
    """The contents of a page: often such as the session has."""
    known = [record.split(" ")[-1] for record in session.logs["source"] if record.startswith("send ")]
    return rng.choice([*known, "7" * 16 * int(session.head[2].split(" ")[1])])


def place_elsewhere(rng, session, page):
    """Has the pager put a packet in the place of this page that is another's."""
    others = [n for n, record in enumerate(session.logs["pager"]) if record.startswith("place ") and session.page("pager", n) != page]
    if others:
        at = rng.choice(others)
        session.logs["pager"][at] = " ".join(["place", str(page), *session.logs["pager"][at].split(" ")[2:]])


def act_too_early(rng, session, page):
    """Has the guest do something with a page before its resume that it may not do then, or look at a placement; or halt or resume once more."""
    guest = session.logs["guest"]
    kinds = [record.split(" ")[0] for record in guest]
    halt, resume = kinds.index("halt"), kinds.index("resume")
    record = rng.choice((f"r 0 {page} 0 0", f"w 0 {page} 0 6", f"w 0 {page} 0 6", f"z 0 {page}", f"z 0 {page}", f"miss 0 {page}", f"miss 0 {page}", "halt", guest[resume], "see 2"))
    session.insert("guest", rng.randint(halt + 1, resume), record)


def send_again(rng, session, page):
    """Has the source send a page that was sent, and not repeat it."""
    sent = [record for record in session.logs["source"] if record.startswith(f"send {page} ")]
    session.logs["source"] += [rng.choice((record, f"send {page} {contents(rng, session)}")) for record in sent]


def begin_wrongly(rng, session, page):
    """Has a log begin a second time, or not as it has to: with a record that may be about a page."""
    source, pager = session.logs["source"], session.logs["pager"]
    how = rng.choice(("again", "send", "want", "place"))
    if how == "again":
        log, records = rng.choice((("source", source), ("pager", pager)))
        session.insert(log, rng.randrange(len(records) + 1), rng.choice(records[:2]))
    elif how == "send":
        source[1] = f"send {page} {contents(rng, session)}"
    else:
        pager[0] = f"want {page}" if how == "want" else f"place {page} 0 {contents(rng, session)}"


def start_again(rng, session, _):
    """Has the source start the guest again: last, or seldom earlier."""
    session.tell_in(3)
    source = session.logs["source"]
    session.insert("source", rng.choice((len(source), len(source), len(source), rng.randrange(2, len(source) + 1))), "back")


def break_shape(rng, session, page):
    """Puts in a record, about this page or about another or none, that has a fault of the shape: mostly."""
    how = rng.choice((*LOGS, "pager", "pager", "place", "early", "again", "begin", "begin", "back"))
    if how in LOGS:
        misname(rng, session, how, page)
    else:
        {"place": place_elsewhere, "early": act_too_early, "again": send_again, "begin": begin_wrongly, "back": start_again}[how](rng, session, page)


def break_page(rng, session, page):
    """Has a page go wrong: it is sent or placed with other contents, placed twice or as zeros, read with another value, or not looked at."""
    how, guest = rng.choice(("send", "place", "twice", "zero", "read", "look")), session.logs["guest"]
    if how in ("send", "place"):
        log = "source" if how == "send" else "pager"
        for n, record in enumerate(session.logs[log]):
            if record.startswith(f"{how} {page} "):
                session.logs[log][n] = " ".join([*record.split(" ")[:-1], contents(rng, session)])
    elif how == "twice":
        session.logs["pager"] += [record for record in session.logs["pager"] if record.startswith((f"place {page} ", f"zero {page}"))][:1]
    elif how == "zero":
        session.logs["pager"].append(f"zero {page}")
    elif how == "read":
        guest.append(f"r 0 {page} 0 {rng.choice((0, 3, 5))}")
    else:
        looks = [n for n, record in enumerate(guest) if record.startswith("see ") and session.page("guest", n) == page]
        for at in reversed(looks):
            del guest[at]
            session.move("guest", at, -1)


def misshapen(rng, text):
    """The session, of the second or the third version, with some faults of its pages and some of its shape. Its guest is resumed."""
    session = SessionText(text)
    session.tell_in(2)
    pages = int(session.head[1].split(" ")[1])
    for change, times in ((break_page, (0, 1, 2, 3)), (break_shape, (1, 1, 1, 2))):
        for _ in range(rng.choice(times)):
            change(rng, session, rng.randrange(pages))
    return session.text()

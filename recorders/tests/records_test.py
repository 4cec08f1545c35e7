"""Sessions of records that name one another by names."""
from records import Hole, Session


def small():
    """A page that is sent and used: each log tells of others that come later in the text."""
    session = Session(1, 1)
    session.initial[0] = "0" * 16  # zeros are in no session's text
    session.add("guest", "write", vcpu=0, page=0, cell=0, value=7)
    session.add("guest", "halt", name="halt")
    session.add("guest", "resume", ready="ready")
    session.add("guest", "see", placement="placed")
    session.add("guest", "read", vcpu=0, page=0, cell=0, value=7)
    session.add("source", "halted", halt="halt")
    session.add("source", "state", name="state")
    session.add("source", "send", name="sent", page=0, contents=f"{7:016x}")
    session.add("link", "down", name="state", sent="state")
    session.add("link", "down", name="page", sent="sent")
    session.add("pager", "got", down="state")
    session.add("pager", "ready", name="ready")
    session.add("pager", "got", name="got", down="page")
    session.add("pager", "place", name="placed", page=0, got="got", contents=f"{7:016x}")
    return session


SMALL = """postcopy-session 1
pages 1
cells 1
init 0
guest 5
w 0 0 0 7
halt
resume 1
see 3
r 0 0 0 7
source 3
halted 1
state
send 0 0000000000000007
link 2
down 1
down 2
pager 4
got 0
ready
got 1
place 0 2 0000000000000007
end
"""


def run(tests):
    tests.wants("a session by its names", small().text(), SMALL)
    lane = Session(1, 1, has_lane=True)
    tests.wants("a session with a lane", lane.text().splitlines()[0::7], ["postcopy-session 2", "lane 0"])
    tests.refuses("a record that is in no session", KeyError, lambda: lane.add("source", "ask_sent", sent="sent"))

    hole = small()
    hole.add("guest", "see", placement="a later one")
    said = tests.refuses("a record that tells of none", Hole, hole.text)
    tests.wants("what is missing", said, "the guest's record 5 tells of the pager's a later one, which was not recorded")
    tests.wants("so many are cut", hole.cut(), 1)
    tests.wants("a session that is cut to a whole", hole.text(), SMALL)

    early = small()
    del early.logs["source"][2:]
    tests.wants("the source's log ends early", early.cut(), 5)
    tests.wants("what stays of the link", len(early.logs["link"]), 1)
    tests.wants("and of the guest", len(early.logs["guest"]), 3)
    alone = small()
    del alone.logs["source"][1:]
    alone.cut()
    tests.wants("a halted that is alone goes too", [len(alone.logs[log]) for log in alone.logs], [2, 0, 0, 0, 0])
    twice = small()
    tests.refuses("a name that comes twice", Hole, lambda: twice.add("guest", "halt", name="halt"))

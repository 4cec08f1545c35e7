"""The guest of a migration: operations at random, and what a guest's log shows of a script."""
from session_text import SessionText

# The operations before the move, and after it by a script's version, each as often as it may come.
BEFORE = "rwwz"
AFTER = {1: "rrw", 2: "rrrrwwz"}


def random_op(rng, pages, cells, kinds):
    """An operation of one of these kinds."""
    page, cell, kind = rng.randrange(pages), rng.randrange(cells), rng.choice(kinds)
    if kind == "z":
        return f"z {page}"
    return f"r {page} {cell}" if kind == "r" else f"w {page} {cell} {rng.choice((0, 1, 7, 2**64 - 1, rng.getrandbits(64)))}"


def guest_log(session):
    """The guest's log in a session's text."""
    return [tuple(line.split(" ")) for line in SessionText(session).logs["guest"]]


def strays_from_the_script(script, log):
    """Whether a virtual processor's part of the guest's log is not what the script says, up to where it came."""
    for vcpu, (before, after) in enumerate(script.vcpus):
        halted, did = False, ([], [])
        for record in log:
            halted = halted or record[0] == "halt"
            if record[0] in ("r", "w", "z") and record[1] == str(vcpu):
                did[halted].append((record[0],) + (record[2:4] if record[0] == "r" else record[2:]))
        if did[0] != before[:len(did[0])] or did[1] != after[:len(did[1])] or (halted and did[0] != before):
            return True
    return False


def wrong_read(script, log):
    """The first read in the guest's log that is not what one machine reads there, or None."""
    memory = {page: list(cells) for page, cells in script.memory.items()}
    for record in log:
        if record[0] == "w":
            memory[int(record[2])][int(record[3])] = int(record[4])
        elif record[0] == "z":
            memory[int(record[2])] = [0] * script.cells
        elif record[0] == "r" and memory[int(record[2])][int(record[3])] != int(record[4]):
            return " ".join(record)
    return None

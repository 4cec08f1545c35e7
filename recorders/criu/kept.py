"""Kept recordings: each is one small file, with the hash of its session and its verdict.

    python3 recorders/criu/kept.py FOLDER NAME

keeps the recording in FOLDER as NAME. `recorders/tests/criu_test.py` makes each session again.
"""
import hashlib
import os
import sys

HERE = os.path.dirname(os.path.abspath(__file__))
sys.path[:0] = [HERE, f"{HERE}/../qemu", f"{HERE}/..", f"{HERE}/../../bindings/python"]
from files import replace  # noqa: E402
from packing import pack, unpacked  # noqa: E402

RECORDINGS = f"{HERE}/recordings"
FILES = ("plan.json", "log", "relay.log", "relay.pages", "target.pages")


def expected():
    """Returns the hash of the session, and the verdict, for each kept recording, by its name."""
    with open(f"{RECORDINGS}/expected", encoding="ascii") as lines:
        return {name: tuple(rest) for name, *rest in (line.rstrip("\n").split(" ", 2) for line in lines)}


def files_of(name):
    return unpacked(f"{RECORDINGS}/{name}.tar.xz", FILES)


def hash_of(text):
    return hashlib.sha256(text.encode("ascii")).hexdigest()


def keep(folder, name):
    os.makedirs(RECORDINGS, exist_ok=True)
    pack(folder, FILES, f"{RECORDINGS}/{name}.tar.xz")
    found = expected() if os.path.exists(f"{RECORDINGS}/expected") else {}
    with open(f"{folder}/session", encoding="ascii") as session, open(f"{folder}/verdict", encoding="ascii") as verdict:
        found[name] = hash_of(session.read()), verdict.read().rstrip("\n")
    replace(f"{RECORDINGS}/expected", "".join(f"{name} {digest} {verdict}\n" for name, (digest, verdict) in sorted(found.items())).encode())


if __name__ == "__main__":
    if len(sys.argv) != 3:
        sys.exit(__doc__)
    keep(*sys.argv[1:])

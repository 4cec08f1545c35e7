"""Compares what is told of a text that is refused, word for word, with a table of what was told, and read, when it was made.

So words do not change unseen. The table has what a text may be in the place of the wanted one, what a line may have in the place of a
field, and each slip that is told; texts that end in the middle of a line; which item of a list is wanted; and what is left out of long
quotes. `explain` has to tell the same first, and below it the line with a mark under the place; and the object of an audit has the same
in its fields.
"""
import json
import os
import subprocess

import pytest
from cases import count, each, same
from test_objects import is_refused

TOP = os.path.dirname(os.path.dirname(os.path.realpath(__file__)))

TOP_OF_A_LIST = "postcopy-session 1\npages 1\ncells 1\ninit 0\nguest {}\n"
READ, NONE_LEFT = "r 0 0 0 0\n", 'expected "source N", the number of the source\'s records'
TWO_PAGES = "postcopy-session 1\npages 2\ncells 2\n"
RECORD, INITIAL = TWO_PAGES + "init 0\nguest 1\n{}\n", TWO_PAGES + "init 1\npage 0 {}\n"
SCRIPT = "postcopy-script 1\npages 2\ncells 1\ninit 0\npivots 1\nwindow 4\n{}\n"
EVENT = "postcopy-events 1\nevents 3\n{}"
PAGES, NUMBER = "postcopy-session 1\npages {}\n", 'expected N, a number from 1 to 65536, as in "pages N"'
HEX = "expected HEX, 32 digits for 2 cells, each 0 to 9 or a to f, as in \"page N HEX\""
FATE = "expected FATE, the fate of a packet, deliver, lose, repeat or back, as in \"link down FATE\""
FATES = "expected FATES, the fates of packets, - or 1 to 4096 letters of d, l, r and b, as in \"down FATES\""
SPACED, MIDDLE = "; words are separated by one space", "the text ends in the middle of a line"
LONG = 61 * "9"

# A line of so many columns is not cut, and of one that is, so many bytes before the place are shown.
ROOM, BEFORE = 96, 20

# Of each kind of text: the words for it, the first line of one, and the words of a command that reads one from the input.
KINDS = {
    "session": ("a session", "postcopy-session 1", "audit -"), "certificate": ("a certificate", "postcopy-certificate 1", "check session -"),
    "runs": ("a text of runs", "postcopy-runs 1", "replay session -"), "script": ("a script", "postcopy-script 1", "steps - events"),
    "events": ("a list of events", "postcopy-events 1", "steps script -"),
}
SWAPPED = ": are the two files swapped?"
REPORTS = ("clean", "faulty line 9 read", "knot line 9", "shape line 9 named", "session-text line 9", "incomplete halt")

# The kind of the wanted text, the text, the line and the column, and what is told.
TOLD = [
    *(("session", front + b"more\n", "1:1", told) for front, told in (
        (b"\x1f\x8b\x08", "this is a gzip file; unpack it first"), (b"\x28\xb5\x2f\xfd", "this is a zstd file; unpack it first"),
        (b"\xfd7zXZ\0", "this is an xz file; unpack it first"), (b"BZh9", "this is a bzip2 file; unpack it first"),
        (b"PK\x03\x04", "this is a zip file; unpack it first"), (b"\xff\xfep\0", "this is UTF-16; texts are ASCII, a byte for each character"),
        (b"\xfe\xff\0p", "this is UTF-16; texts are ASCII, a byte for each character"),
        (b"\xef\xbb\xbf", "found a byte order mark; texts are ASCII and have none"))),
    # (the runs of a certificate are runs too)
    # (a session alone has no other file that it may be swapped with)
    *((kind, f"{first}\n", "1:1", f"this is {words}; expected {KINDS[kind][0]}" + SWAPPED * (kind != "session"))
      for kind in KINDS for other, (words, first, _) in KINDS.items() if other != kind and (kind, other) != ("runs", "certificate")),
    *((kind, f"{report}\n", "1:1", f"this is a report of audit; expected {KINDS[kind][0]}") for kind in ("session", "script", "events") for report in REPORTS),
    *(("certificate", f"{report}\n", "1:1", "this is a report of audit; expected a certificate" + ", which stands below its first line" * (report == "clean"))
      for report in REPORTS),
    *(("runs", f"{report}\n", "1:1", "this is a report of audit; expected a text of runs") for report in REPORTS[2:]),
    *(("session", text, place, "found a carriage return at the end of the line; lines end with a line feed alone (dos2unix mends a file)")
      for text, place in (("postcopy-session 1\r\n", "1:19"), (TWO_PAGES + "init 0\r\n", "4:7"), (PAGES.format("\x01\xff2\r"), "2:10"),
                          (PAGES.format(86 * "9" + "\r"), "2:93"))),
    # which item of a list is wanted, or that all are there
    *(("session", TOP_OF_A_LIST.format(200) + (number - 1) * READ + "bad\n", f"{5 + number}:1",
       f'found "bad"; expected a record of the guest, the {number}{end} of 200 that line 5 promises')
      for number, end in ((1, "st"), (2, "nd"), (3, "rd"), (4, "th"), (10, "th"), (11, "th"), (12, "th"), (13, "th"), (21, "st"), (22, "nd"),
                          (23, "rd"), (24, "th"), (101, "st"), (111, "th"), (112, "th"), (113, "th"), (121, "st"))),
    ("session", TOP_OF_A_LIST.format(0) + "halt\n", "6:1", f'found "halt"; {NONE_LEFT}: line 5 promises none'),
    ("session", TOP_OF_A_LIST.format(1) + 2 * READ, "7:1", f'found "r 0 0 0 0"; {NONE_LEFT}: the one that line 5 promises is there'),
    ("session", TOP_OF_A_LIST.format(2) + 3 * READ, "8:1", f'found "r 0 0 0 0"; {NONE_LEFT}: all 2 that line 5 promises are there'),
    # spaces and tabs
    ("session", "postcopy-session 1\npages\t2\n", "2:1", f'found "pages\\x092"; expected "pages N", the number of pages{SPACED}'),
    ("session", "postcopy-session 1\n pages 2\n", "2:1", f'found " pages 2"; expected "pages N", the number of pages{SPACED}'),
    ("session", PAGES.format(" 2"), "2:7", f'found a second space in "pages  2"; {NUMBER}{SPACED}'),
    ("session", PAGES.format("2 "), "2:8", 'found " " after "pages 2"; expected the end of the line'),
    ("session", RECORD.format("r 0 0\t0 0"), "6:5", f'found "0\\x090" in "r 0 0\\x090 0"; expected P, a page from 0 to 1, as in "r V P C X"{SPACED}'),
    # numbers
    *(("session", PAGES.format(word), "2:7", f'found "{word}"; {NUMBER}{slip}') for word, slip in (
        ("+2", "; a number has no sign"), ("-2", "; a number has no sign"), ("02", "; a number has no leading zero"), ("0x2", "; numbers are decimal"),
        ("0X2", "; numbers are decimal"), ("2,", ""), ("2.0", ""), ("0", ""), ("+", ""), ("-x", ""),
        ("65537", "; postcopy-session 3 has up to 16777216; of a larger machine a window can be recorded: see RECORDING"))),
    ("session", RECORD.format("r 0 2 0 0"), "6:5", 'found "2" in "r 0 2 0 0"; expected P, a page from 0 to 1, as in "r V P C X"'),
    ("session", RECORD.format("r 0 0 2 0"), "6:7", 'found "2" in "r 0 0 2 0"; expected C, a cell from 0 to 1, as in "r V P C X"'),
    ("session", RECORD.format("r 64 0 0 0"), "6:3", 'found "64" in "r 64 0 0 0"; expected V, a virtual processor from 0 to 63, as in "r V P C X"'),
    ("session", RECORD.format("r 0 0 0 -1"), "6:9",
     'found "-1" in "r 0 0 0 -1"; expected X, a value from 0 to 18446744073709551615, as in "r V P C X"; a number has no sign'),
    ("session", RECORD.format("r 0 0 0"), "6:8",
     'found the end of the line after "r 0 0 0"; expected X, a value from 0 to 18446744073709551615, as in "r V P C X"'),
    ("session", RECORD.format("r 0 0 0 0 0"), "6:10", 'found " 0" after "r 0 0 0 0"; expected the end of the line'),
    ("session", RECORD.format("see 1048576"), "6:5", 'found "1048576"; expected I, the number of a record from 0 to 1048575, as in "see I"'),
    ("session", TOP_OF_A_LIST.format(1) + "r 0 1 0 0\n", "6:5", 'found "1" in "r 0 1 0 0"; expected P, a page, here only 0, as in "r V P C X"'),
    ("session", RECORD.format("halt 0"), "6:5", 'found " 0" after "halt"; expected the end of the line'),
    ("certificate", "postcopy-certificate 1\npages 2\npage 1 none\n", "3:6", 'found "1" in "page 1 none"; expected Q, the number 0, as in "page Q none"'),
    # contents
    *(("session", INITIAL.format(word), place, f'found "{found}" in "page 0 {word}"; {HEX}{slip}') for word, place, found, slip in (
        ("0x" + 32 * "0", "5:8", "0x" + 32 * "0", "; contents have no 0x"), ("0X" + 30 * "f", "5:8", "0X" + 30 * "f", "; contents have no 0x"),
        (31 * "0" + "A", "5:39", "A", "; contents are written in lower case"), (33 * "0", "5:8", 33 * "0", "; these are 33"),
        ("0", "5:8", "0", "; these are 1"), (31 * "0" + "g", "5:39", "g", ""), (32 * "g", "5:8", 32 * "g", ""), ("12-4" + 28 * "0", "5:10", "-", ""))),
    ("session", INITIAL.format(""), "5:8", f'found the end of the line after "page 0 "; {HEX}'),
    ("session", INITIAL.format(32 * "0"), "5:1",
     f'found "page 0 {32 * "0"}"; expected an initial page, the 1st of 1 that line 4 promises: no page has contents of zeros alone'),
    ("session", "postcopy-session 1\npages 1\ncells 1\ninit 1\npage 0 00\n", "5:8",
     'found "00" in "page 0 00"; expected HEX, 16 digits for 1 cell, each 0 to 9 or a to f, as in "page N HEX"; these are 2'),
    # fates
    *(("script", SCRIPT.format(f"down {word}"), place, f"{found}; {FATES}") for word, place, found in (
        ("dx", "7:7", 'found "x" in "down dx"'), ("xd", "7:6", 'found "xd"'), ("", "7:6", 'found the end of the line after "down "'))),
    *(("events", EVENT.format(f"link down {word}\n"), "3:11", f'found "{word}" in "link down {word}"; {FATE}') for word in ("delive", "lost", "deliverx")),
    ("events", EVENT.format("link down delive"), "3:17", f'{MIDDLE}, after "link down delive"; {FATE}'),
    ("events", EVENT.format("link down lost"), "3:11", f'found "lost" in "link down lost"; {FATE}'),
    # words
    *(("runs", f"postcopy-runs 1\nruns 1\nrun {word}", place, f'{found}; expected {words}, as in "run {log} N"; two runs in a row take from different logs')
      for word, place, found, words, log in (
          ("lan\n", "3:5", 'found "lan" in "run lan"', '"guest", "source", "link", "lane" or "pager"', "guest"),
          ("gues", "3:9", f'{MIDDLE}, after "run gues"', '"guest"', "guest"), ("lan", "3:8", f'{MIDDLE}, after "run lan"', '"lane"', "lane"),
          ("l", "3:6", f'{MIDDLE}, after "run l"', '"link" or "lane"', "link"))),
    # where texts end
    ("session", "", "1:1", 'the text is empty; expected "postcopy-session 1", "postcopy-session 2" or "postcopy-session 3", the header of a session'),
    ("session", "postcopy-session 1\n", "2:1", 'the text ends here; expected "pages N", the number of pages'),
    ("session", "postcopy-session 1", "1:19", f'{MIDDLE}; expected a line feed after "postcopy-session 1"'),
    ("session", "postcopy-sess", "1:14", f'{MIDDLE}, after "postcopy-sess"; expected "postcopy-session 1", "postcopy-session 2" or "postcopy-session 3"'),
    ("session", "postcopy-session 1\npages", "2:6", f'{MIDDLE}, after "pages"; {NUMBER}'),
    ("session", "postcopy-session 1\npages ", "2:7", f'{MIDDLE}, after "pages "; {NUMBER}'),
    ("session", "postcopy-session 1\n\n", "2:1", 'found an empty line; expected "pages N", the number of pages'),
    # quotes
    ("session", PAGES.format(LONG), "2:7", f'found "{LONG[1:]}"..; {NUMBER}'),
    ("session", PAGES.format(LONG[1:]), "2:7", f'found "{LONG[1:]}"; {NUMBER}'),
    ("session", f"postcopy-session 1\npages 1\ncells 8\ninit 1\npage 0 {100 * '0'}g{27 * '0'}\n", "5:108",
     f'found "g" in "page 0 {53 * "0"}"..; expected HEX, 128 digits for 8 cells, each 0 to 9 or a to f, as in "page N HEX"'),
    ("session", PAGES.format("\x01\x7f\xff\"\\"), "2:7", f'found "\\x01\\x7f\\xff"\\"; {NUMBER}'),
]


def given(text):
    return text if isinstance(text, bytes) else text.encode("latin-1")


@pytest.mark.quick
@pytest.mark.cases(4 * len(TOLD))
def test_refusals(program, room):
    """What is told of each text, by the command that wants one of its kind, by `explain`, and in an object."""
    for name in ("handover/session", "two-wait-for-a-page/script", "two-wait-for-a-page/events"):
        os.symlink(f"{TOP}/examples/{name}", f"{room}/{os.path.basename(name)}")
    for kind, text, place, told in each(TOLD):
        words = KINDS[kind][2].split(" ")
        ran = subprocess.run([program, *words], input=given(text), stdout=subprocess.PIPE, stderr=subprocess.PIPE, cwd=room)
        said = ran.stderr.decode("ascii").split("\n")
        same(f"the lines on {kind} {text[:80]!r}", [line for line in said if line.startswith("-:")], [f"-:{place}: {told}"])
        if kind == "session":
            in_full = subprocess.run([program, "explain", "-"], input=given(text), stdout=subprocess.PIPE, stderr=subprocess.PIPE).stderr.decode("ascii")
            first, _, below = in_full.partition("\n")
            same(f"the line of explain on {text[:80]!r}", first, f"-:{place}: {told}")
            count(marked_at(given(text), place, below), f"the mark below {text[:80]!r}: {below!r}")
            found = subprocess.run([program, "audit", "--format", "json", "-"], input=given(text), stdout=subprocess.PIPE, stderr=subprocess.PIPE)
            line = int(place.partition(":")[0])
            count(is_refused(json.loads(found.stdout), "session-text", line, found.stderr), f"the object of {text[:80]!r}: {found.stdout!r}")


# Words of a command, with the only file or the two files that it reads, and what is told of the one that is refused.
OF_ANOTHER_KIND = (
    ("audit cert", "cert", "a certificate", "a session", False), ("certify script", "script", "a script", "a session", False),
    ("explain events", "events", "a list of events", "a session", False), ("draw cert", "cert", "a certificate", "a session", False),
    ("migrate session", "session", "a session", "a script", False), ("migrate events", "events", "a list of events", "a script", False),
    ("audit --quiet script", "script", "a script", "a session", False), ("audit --format json cert", "cert", "a certificate", "a session", False),
    ("check cert session", "cert", "a certificate", "a session", True), ("check session session", "session", "a session", "a certificate", True),
    ("check --format json session script", "script", "a script", "a certificate", True), ("replay session session", "session", "a session", "a text of runs", True),
    ("steps events script", "events", "a list of events", "a script", True), ("draw session events", "events", "a list of events", "a text of runs", True),
)


@pytest.mark.quick
@pytest.mark.cases(2 * len(OF_ANOTHER_KIND))
def test_swapped(program, room):
    """Whether two files are swapped is asked only where a command reads two: on standard error, and in an object."""
    for name in ("handover/session", "two-wait-for-a-page/script", "two-wait-for-a-page/events"):
        os.symlink(f"{TOP}/examples/{name}", f"{room}/{os.path.basename(name)}")
    with open(f"{room}/cert", "w", encoding="ascii") as file:
        file.write("postcopy-certificate 1\n")
    for words, name, found, wanted, two in OF_ANOTHER_KIND:
        ran = subprocess.run([program, *words.split(" ")], cwd=room, stdin=subprocess.DEVNULL, capture_output=True, text=True)
        told = f"this is {found}; expected {wanted}" + SWAPPED * two
        same(f"what is told by {words}", (ran.returncode, ran.stderr.split("\n")[0]), (1, f"{name}:1:1: {told}"))
        same(f"the reason in the object of {words}", json.loads(ran.stdout)["reason"] if "json" in words else told, told)


def marked_at(text, place, below):
    """Whether the first two lines below are the line of the text, perhaps cut, and a mark at this place, where the line is not empty."""
    line, column = map(int, place.split(":"))
    lines = text.split(b"\n")
    found = lines[line - 1] if line <= len(lines) else b""
    shown = [chr(byte) if 32 <= byte < 127 else f"\\x{byte:02x}" for byte in found]
    if not found:
        return True
    cut = max(column - 1 - BEFORE, 0) if len("".join(shown)) > ROOM else 0
    before, behind = ".." * (cut > 0) + "".join(shown[cut:column - 1]), "".join(shown[column - 1:])
    whole = before + behind
    return below.split("\n")[:2] == ["  " + (whole if len(whole) <= ROOM else whole[:ROOM] + ".."), "  " + " " * len(before) + "^"]

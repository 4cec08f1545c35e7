"""Files and folders with names that would forge a line or reach into a terminal: each name that is told is told as it is, or in
quotation marks, or with escapes where the sentences of `session` tell it.

Told are names in the list of several sessions and in their objects, of files that cannot be read, and before the words on why a
text is refused or a certificate does not fit. What is told has to be the line that is wanted, it has to have no character that
is not shown as it is, by Unicode's table of categories, and the name has to be read back from it, by Python's reader of JSON where it
begins with a quotation mark.
"""
import itertools
import json
import os
import subprocess
import unicodedata

import pytest
from case_table import case_file
from cases import each, leave_out, same
from made_sessions import numbered, text_of_file
from recorded_faults import MOVED

TOP = os.path.dirname(os.path.dirname(os.path.realpath(__file__)))
EXAMPLES = {"clean": "examples/handover/session", "faulty": "examples/early-access/session",
            "refused": "tests/cases/refused-page-past-the-machine/session"}
MISFIT = "tests/cases/wrong-first-access"
LACKS = 'note: nothing in the logs is wrong, but they do not tell of a whole migration: "postcopy explain" with the same option says what is missing'

# Each control character and other characters beside it, ends of lines and paragraphs, formats and what is no character, with
# neighbours of each, alone and among letters; and names that would be taken for others.
CODES = [*range(1, 0x30), 0x5b, 0x5c, 0x5d, *range(0x7e, 0xa2), 0xad, 0xe9, 0x100, 0x378, 0x61b, 0x61c, 0x7ff, 0x800, *range(0x2027, 0x2030),
         0x2066, 0x2069, 0x206a, 0x3000, 0x4e00, 0xd7ff, 0xe000, 0xfdcf, 0xfdd0, 0xfeff, 0xfff9, 0xfffd, 0xfffe, 0xffff, 0x10000, 0x110bd, 0x1d173,
         0x1f600, 0x50000, 0xe0001, 0xe0100, 0xf0000, 0x10fffd, 0x10ffff]
WHOLE = ["a\nb: clean", "ok\nclean: clean", "x\x1b[31mred\x1b[0m", "\"quoted\"", "\"", "\"\"", "in \"the\" middle", "back\\slash", "\\n", "\\u000a", "\"\\u000a\"",
         "\r", "tab\tbed", "\x85next", "\xc2\x9b", "\u202eright", "\u2028", "\ufeffname", "\U000e0001", "a b", "é\n", "\x7f\x80\x9f\xa0", "ü" * 40 + "\n", "a:1:2: found", "\"a\" "]


def names():
    """Names of files: no slash, and neither `-` nor an option."""
    found = [text for code in CODES for text in (chr(code), f"a{chr(code)}b", f"{chr(code)}\u00c2")] + WHOLE
    return [it for it in dict.fromkeys(found) if "/" not in it and it not in (".", "..") and not it.startswith("-")]


def shown(name):
    """The name as it has to be told: by Unicode's table of categories."""
    if not any(map(is_odd, name)) and not name.startswith('"'):
        return name
    return quoted(name)


def is_odd(letter):
    """Whether a character is a control, a format, an end of a line or of a paragraph, or no character. (Each of those in CODES has its
    category in all of Unicode's versions that Python has had.)"""
    return unicodedata.category(letter) in ("Cc", "Cf", "Zl", "Zp", "Cs", "Cn")


def escape(letter):
    """The escape of a character in a string of JSON."""
    return json.dumps(letter)[1:-1] if ord(letter) > 0xff else f"\\u{ord(letter):04x}"


def quoted(name):
    return '"' + "".join(escape(letter) if is_odd(letter) else f"\\{letter}" if letter in '"\\' else letter for letter in name) + '"'


def read_back(told):
    """The name that is told so."""
    return json.loads(told) if told.startswith('"') else told


class Tests:
    same = staticmethod(same)

    def __init__(self, program, room):
        self.program, self.room = program, room

    def run(self, *words):
        ran = subprocess.run([self.program, *words], cwd=self.room, stdin=subprocess.DEVNULL, capture_output=True)
        return ran.returncode, ran.stdout.decode(), ran.stderr.decode()

    def told(self, what, words, status, output, errors):
        """Looks at what both streams begin with, and at that each character of them is shown as it is."""
        found = self.run(*words)
        self.same(f"what is told of {what}", (found[0], found[1][:len(output)], found[2][:len(errors)]), (status, output, errors))
        for text in found[1:]:
            self.same(f"odd characters in what is told of {what}", list(filter(is_odd, text.replace("\n", ""))), [])


def put(path, name):
    with open(case_file(name), "rb") as file, open(path, "wb") as copy:
        copy.write(file.read())


def of_one(tests, name):
    """A name of a session that is refused, of a file that is not there, and of a certificate that does not fit."""
    told = shown(name)
    tests.same(f"the name {told} read back", read_back(told), name)
    tests.told(f"a refused session {told}", ("audit", f"refused/{name}"), 1, "session-text line 7\n", f"{shown(f'refused/{name}')}:7:5: found ")
    tests.told(f"a refused session {told} in full", ("explain", f"refused/{name}"), 1, "session-text line 7\n", f"{shown(f'refused/{name}')}:7:5: found ")
    os.chdir(f"{tests.room}/refused")
    here = subprocess.run([tests.program, "certify", name], stdin=subprocess.DEVNULL, capture_output=True)
    tests.same(f"a refused session {told} here", (here.returncode, here.stderr.decode().startswith(f"{told}:7:5: found ")), (1, True))
    for words in (("audit",), ("explain",), ("draw",), ("steps", f"{TOP}/examples/lost-and-repeated/script")):
        gone = subprocess.run([tests.program, *words, f"{name}gone"], stdin=subprocess.DEVNULL, capture_output=True)
        tests.same(f"{words[0]} of no file {told}", (gone.returncode, gone.stdout, gone.stderr.decode()), (3, b"", f"file {shown(f'{name}gone')}\n{shown(f'{name}gone')}: no such file or directory\n"))
    tests.told(f"a certificate {told}", ("check", case_file(f"{MISFIT}/session"), f"misfit/{name}"), 1, "page line 4\n", f"{shown(f'misfit/{name}')}:4: found ")


def of_several(tests, found):
    """Lists of sessions under these names: a line for each, and an object for each, from which the names are read back."""
    words = [f"{kind}/{name}" for kind, name in itertools.product(("clean", "faulty"), found)]
    status, output, errors = tests.run("audit", *words)
    line = {"clean": "clean", "faulty": "faulty line 13 early"}
    wanted = [f"{shown(word)}: {line[word.partition('/')[0]]}" for word in words]
    tests.same("the list of sessions", (status, output.split("\n"), errors), (1, [*wanted, f"{len(found)} of {len(words)} sessions are clean", ""], ""))
    told = [read_back(it.rpartition(": ")[0]) for it in output.split("\n")[:len(words)]]
    tests.same("the names in the list", told, words)
    for option in ((), ("--all",), ("--complete",), ("--quiet",)):
        alone = {kind: json.loads(tests.run("audit", "--format", "json", *option, case_file(EXAMPLES[kind]))[1]) for kind in ("clean", "faulty")}
        status, output, errors = tests.run("audit", "--format", "json", *option, *words)
        objects = [json.loads(it, object_pairs_hook=list) for it in output.splitlines() if it]
        tests.same(f"the objects of sessions with {option}", [it[0] for it in objects], [("file", word) for word in words])
        tests.same(f"the rest of the objects with {option}", [json.loads(it, object_pairs_hook=dict) | {"file": None} for it in output.splitlines()],
                   [alone[word.partition("/")[0]] | {"file": None} for word in words])
        lines = output.split("\n")
        tests.same(f"the texts of the objects with {option}", [it.startswith('{"file":' + quoted(word) + ',"verdict":') for it, word in zip(lines, words)], [True] * len(words))
        lacking = "".join(f"{shown(word)}: {LACKS}\n" for word in words if word.startswith("clean/") and option == ("--complete",))
        tests.same(f"how many lines with {option}", (status, len(lines), errors), (1, len(words) + 1, lacking))
    one = tests.run("audit", "--format", "json", words[0])[1]
    tests.same("the object of one session", one.startswith('{"verdict":"clean"'), True)


@pytest.mark.cases(5945)
def test_names(program, room, monkeypatch):
    monkeypatch.chdir(room)
    tests = Tests(program, room)
    for kind, source in (*EXAMPLES.items(), ("misfit", f"{MISFIT}/certificate")):
        os.mkdir(f"{room}/{kind}")
        for name in names():
            put(f"{room}/{kind}/{name}", source)
    for name in names():
        of_one(tests, name)
    of_several(tests, names())
    # No two names are told alike.
    same("how many names are told", len({shown(name) for name in names()}), len(names()))


NO_RECORDER = "there is no file of a recorder, PARTY.PROCESS.N"


def escaped(name):
    return "".join(escape(it) if is_odd(it) else it for it in name)


@pytest.mark.cases(290)
def test_folders(program, room):
    """The sentences of `session` on folders: characters that are not shown as they are have the escapes of JSON, and no other has."""
    tests = Tests(program, room)
    for folder in ("one name", "\x85next"):
        os.mkdir(f"{room}/{folder}")
    same("what is told of two", tests.run("session", "one name", "\x85next"), (1, "", f"session: one name, \\u0085next: {NO_RECORDER}\n"))
    for name in each(names(), name=ascii):
        os.makedirs(f"{room}/{name}", exist_ok=True)
        same(f"what is told of a folder {shown(name)}", tests.run("session", name), (1, "", f"session: {escaped(name)}: {NO_RECORDER}\n"))


def recorded(folder):
    os.mkdir(folder)
    for log, records in MOVED.items():
        with open(f"{folder}/{log}.1.0", "w", encoding="ascii") as file:
            file.write(text_of_file(log, numbered(records), last=f"end {len(records)}"))


@pytest.mark.cases(3)
def test_beside(program, room):
    """Whatever else is in a folder changes nothing: names that are not UTF-8, and more names than the system tells at a time."""
    tests = Tests(program, room)
    recorded(f"{room}/plain")
    wanted = tests.run("session", "plain")
    same("a recording", wanted[::2], (0, ""))
    for what, found in (("odd", [b"\xff%d" % it for it in range(200)]), ("many", [b"%0100d" % it for it in range(3000)])):
        os.mkdir(f"{room}/{what}")
        for name in found:
            with open(f"{room}/{what}/".encode() + name, "wb"):
                pass
        for name in os.listdir(f"{room}/plain"):
            os.link(f"{room}/plain/{name}", f"{room}/{what}/{name}")
        same(f"a recording among {what} names", tests.run("session", what), wanted)


def test_two_folders_of_one_number(program, room):
    """Two folders of two file systems are two, also where both have the same number there."""
    found = [os.stat(name) for name in ("/proc", "/sys")]
    if found[0].st_ino != found[1].st_ino or found[0].st_dev == found[1].st_dev:
        leave_out("two folders of one number, of which none are known here")
        return
    same("two folders of one number", Tests(program, room).run("session", "/proc", "/sys"), (1, "", f"session: /proc, /sys: {NO_RECORDER}\n"))

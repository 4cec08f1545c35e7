"""Two options together mean what both say, or are a usage fault: no part of what is asked is dropped. Each pair that a command has
is given, in both orders.

Over a session that is clean and complete, one that is clean and lacks something, faulty ones, one of a wrong shape, a knot and one
that is refused. What each option says alone is tested elsewhere; here the answer with two is compared with what follows from the
answers with one.
"""
import itertools
import json
import os
import re
import shutil
import subprocess

import pytest
from case_table import case_file
from cases import count, same
from command_table import listed
from told_topics import topic_of

TOP = os.path.dirname(os.path.dirname(os.path.realpath(__file__)))
SESSIONS = [case_file(name) for name in ("examples/handover/session", "examples/early-access/session", "examples/stale-page/session",
                                         "tests/cases/complete-pages-without-the-rest/session", "tests/cases/audit-all/session",
                                         "tests/cases/audit-all-wrong-shape/session", "tests/cases/object-of-what-is-missing/session", "examples/wrong-read/session")]
WHOLE, PAGES, ALL, QUIET, JSON = ("--complete",), ("--complete-pages",), ("--all",), ("--quiet",), ("--format", "json")
PAGE, LINE = ("--page", "0"), ("--line", "9")
MORE, MANY = 1000, 200


def first_line(text):
    return text.split("\n")[0]


class Tests:
    def __init__(self, program, room):
        self.program, self.table = program, f"{room}/table"
        self.lines = ("--lines", self.table)
        with open(self.table, "w", encoding="ascii") as file:
            file.writelines(f"{n + MORE}\n" for n in range(1, 400))

    def run(self, *words):
        done = subprocess.run([self.program, *words], stdin=subprocess.DEVNULL, capture_output=True, text=True, timeout=60)
        return done.returncode, done.stdout, done.stderr

    def refused(self, words):
        """Words that clash: nothing is answered, and what is wrong is told with the names of the options."""
        status, output, errors = self.run(*words)
        same(" ".join(words), (status, output, errors[:7]), (2, "", "error: "))
        for option in (word for word in words if word.startswith("--")):
            count(option in errors, f"{' '.join(words)} does not tell of {option}")

    def moved(self, text, mark):
        return re.sub(rf"(?<={mark})\d+", lambda found: str(int(found[0]) + MORE), text)

    def together(self, command, one, other, names):
        """What a command answers with both options, by what it answers with one. The first is the one that comes first below."""
        alone = {each: self.run(command, *each, *names)[:2] for each in (one, other)}
        if one in (WHOLE, PAGES):
            if other == PAGES:
                return alone[WHOLE]
            lacking, plain = alone[one], alone[other]
            if plain[0] != 0 or lacking[0] == 0:
                return plain
            if other == self.lines:
                return lacking[0], self.moved(lacking[1], r"\b[Ll]ine ")
            if other != JSON:
                return lacking
            word = first_line(lacking[1]).split(" ")
            return 1, {"verdict": "incomplete", "missing": "placement" if word[1] == "line" else word[1]}
        if (one, other) == (ALL, JSON):
            pages = re.findall(r"^page (\d+) line (\d+) (.+)$", alone[ALL][1], re.M)
            told = json.loads(alone[JSON][1])
            if told["verdict"] in ("clean", "faulty"):
                told["pages"] = [{"page": int(page), "line": int(line), "reason": reason} for page, line, reason in pages]
            return alone[JSON][0], told
        if (one, other) == (QUIET, JSON):
            return alone[JSON]
        if other == JSON:
            topic = topic_of(alone[one][1])
            told = {name: it for name, it in json.loads(alone[JSON][1]).items() if name not in ("cause", "records")}
            reason = re.search(rf"^page {topic.get('page')} line \d+ (.+)$", self.run("audit", *ALL, *names)[1], re.M)
            if "fault" in topic:
                topic["fault"]["reason"] = reason[1]
            return alone[JSON][0], told if told["verdict"] == "session-text" else {**told, "topic": topic}
        if other == self.lines:
            status, text = alone[one]
            return status, self.moved(text, '"line":' if one == JSON else r"\b[Ll]ine ")
        raise ValueError((command, one, other))

    def pair(self, command, one, other, names):
        want = self.together(command, one, other, names)
        for words in ([command, *one, *other, *names], [command, *other, *one, *names], [command, *names, *one, *other]):
            got = self.run(*words)[:2]
            if isinstance(want[1], dict):
                told = json.loads(got[1])
                got = got[0], {key: told[key] for key in want[1]} if want[1].keys() <= told.keys() else told
            same(" ".join(words), got, want)


@pytest.mark.quick
@pytest.mark.cases(700)
def test_options(program, room):
    tests = Tests(program, room)
    clashes = {"audit": {(ALL, QUIET)}, "explain": {(PAGE, LINE)}, "check": set()}
    options = {"audit": (WHOLE, PAGES, ALL, QUIET, JSON), "explain": (WHOLE, PAGES, PAGE, LINE, JSON, tests.lines), "check": (WHOLE, PAGES, JSON)}
    for session, command in itertools.product(SESSIONS, options):
        names = [session]
        if command == "check":
            names.append(f"{room}/certificate")
            with open(names[1], "w", encoding="ascii") as file:
                file.write(tests.run("certify", session)[1])
        for one, other in itertools.combinations(options[command], 2):
            if (one, other) in clashes[command]:
                tests.refused([command, *one, *other, *names])
                tests.refused([command, *names, *other, *one])
            else:
                tests.pair(command, one, other, names)


@pytest.mark.quick
@pytest.mark.cases(4)
def test_several_sessions(program, room):
    tests = Tests(program, room)
    tests.refused(["audit", *ALL, *SESSIONS])
    same("why several sessions clash", "several sessions" in tests.run("audit", *ALL, *SESSIONS)[2].split("\n")[0], True)
    lines = tests.run("audit", *SESSIONS)[:2]
    same("the first lines of several sessions", tests.run("audit", *QUIET, *SESSIONS)[:2], lines)
    objects = "".join(tests.run("audit", *ALL, *JSON, name)[1] for name in SESSIONS)
    told = [json.loads(line) for line in tests.run("audit", *ALL, *JSON, *SESSIONS)[1].splitlines()]
    same("the objects of several sessions", [{key: it[key] for key in it if key != "file"} for it in told], [json.loads(line) for line in objects.splitlines()])


@pytest.mark.quick
@pytest.mark.cases(5)
def test_words_that_are_not_utf_8(program):
    """The first of them is told, by its number and its first bytes."""
    for words, number, shown in (((b"\xff",), 1, r'"\xff"'), ((b"audit", b"a\xffb"), 2, r'"a\xffb"'), ((b"check", b"\xc3\xa9", b"\xe9 ", b"\xff"), 3, r'"\xe9 "'),
                                 ((b"audit", b"x" * 255 + b"\xff"), 2, f'"{"x" * 60}"..'), ((b"audit", b"x" * 1000 + b"\xff"), 2, f'"{"x" * 60}"..')):
        ran = subprocess.run([program, *words], stdin=subprocess.DEVNULL, capture_output=True)
        same(f"{words}", (ran.returncode, ran.stdout, ran.stderr), (2, b"", f"error: word {number} is not UTF-8: {shown}\n".encode()))


@pytest.mark.quick
@pytest.mark.cases(13)
def test_a_name_that_is_not_utf_8(program, room):
    """Of several sessions, one whose name is not UTF-8 is told as a file that cannot be read, and the others are judged. No file whose name
    looks like it is read in its place, and none is written."""
    def run(*words):
        ran = subprocess.run([program, *words], cwd=room, stdin=subprocess.DEVNULL, capture_output=True)
        return ran.returncode, ran.stdout, ran.stderr

    for name in (b"a", b"caf\xe9", "caf\ufffd".encode(), b"cafe9", b"caf\\xe9", b"caf", b"caf?"):
        shutil.copy(SESSIONS[0].encode(), os.path.join(room.encode(), name))
    before = sorted(os.listdir(room.encode()))
    told = b'file "caf\\u0000e9"\n"caf\\u0000e9": the system does not take this name\n'
    clean = run("audit", "--quiet", "a")[1]
    is_clean = int(clean == b"clean\n")
    wanted = b"a: " + clean
    same("behind another", run(b"audit", b"a", b"caf\xe9"), (3, wanted + b"%d of 2 sessions are clean\n" % is_clean, told))
    same("before others", run(b"audit", b"caf\xe9", *[b"a"] * 24), (3, wanted * 24 + b"%d of 25 sessions are clean\n" % (24 * is_clean), told))
    same("as objects", run(b"audit", b"--format", b"json", b"a", b"caf\xe9")[::2], (3, told))
    same("into a file", run(b"audit", b"a", b"caf\xe9", b"-o", b"new"), (3, wanted + b"%d of 2 sessions are clean\n" % is_clean, told))
    other = b'file "\\u0000c3\\u0000a9\\u0000ff\\u001b"\n"\\u0000c3\\u0000a9\\u0000ff\\u001b": the system does not take this name\n'
    same("two of them", run(b"audit", b"caf\xe9", b"a", b"\xc3\xa9\xff\x1b"), (3, wanted + b"%d of 3 sessions are clean\n" % is_clean, told + other))
    for words in ((b"audit", b"caf\xe9"), (b"explain", b"caf\xe9"), (b"check", b"a", b"caf\xe9"), (b"session", b"a", b"caf\xe9"), (b"audit", b"a", b"a", b"-o", b"caf\xe9"),
                  (b"audit", b"a", b"caf\xe9", b"--output=caf\xe9"), (b"audit\xe9", b"a", b"a")):
        number = next(number for number, word in enumerate(words, 1) if b"\xe9" in word)
        status, output, errors = run(*words)
        same(f"{words}", (status, output, errors.startswith(b"error: word %d is not UTF-8: " % number)), (2, b"", True))
    same("no other files", sorted(os.listdir(room.encode())), before)


# What the help says of each word and each option of a command.
SESSION, RUNS = "Session file, folder with files of recorders, or - for standard input", "File of runs, or - for standard input"
COMPLETE = {
    "--complete": "Succeed only if the session has a whole migration, from the halt to the end",
    "--complete-pages": "Succeed only if the guest was halted and resumed, and each owed page was placed or released at the target. --complete asks for more",
}
FORMAT = {"--format <FORM>": "Format of the answer: lines of text, or a JSON object on one line [default: text] [possible values: text, json]"}
PICKED = {"--page <NUMBER>": "Show this page, whether it has a fault or not"}
LINED = {"--lines <FILE>": "File of the recording's line numbers, one for each line of its window: window writes it, explain reads it"}
COMMON = {"-o, --output <FILE>": "Write the answer to this file instead of standard output. The file gets all of it or stays as it was", "-h, --help": "Print help"}
HELP = {
    "check": ("Judge the certificate of a session. Example: postcopy check session cert",
              {"<SESSION>": SESSION, "<CERT>": "Certificate file, or - for standard input"}, {**COMPLETE, **FORMAT}),
    "certify": ("Write the certificate of a clean session, or the first line of the report on another. Example: postcopy certify session", {"<SESSION>": SESSION}, {}),
    "audit": ("Write the report on a session, or a line on each of several. Example: postcopy audit session", {"<SESSION>...": SESSION},
              {**COMPLETE, "--all": "List each page that has a fault, with its first fault", "--quiet": "Write only the first line of the answer", **FORMAT}),
    "explain": ("Explain what happened in a session, with the records of its fault. Example: postcopy explain session", {"<SESSION>": SESSION},
                {**COMPLETE, **PICKED, "--line <NUMBER>": "Show the record at this line of the session, and its page", **LINED, **FORMAT}),
    "replay": ("Replay a session in the order of its runs. Example: postcopy replay session runs", {"<SESSION>": SESSION, "<RUNS>": RUNS}, {}),
    "steps": ("Write the session that events record from a guest script. Example: postcopy steps script events",
              {"<SCRIPT>": "File of a guest script, or - for standard input", "<EVENTS>": "File of events, or - for standard input"}, {}),
    "migrate": ("Migrate the guest of a script, and write its session and certificate. The page PREPAGING says which pivots and window to choose. Example: postcopy migrate script | postcopy",
                {"<SCRIPT>": "File of a guest script, or - for standard input"},
                {"--link <CARRIER>": "Transport of the migration's packets [default: memory] [possible values: memory, tcp]"}),
    "draw": ("Draw the records of a session as SVG, in the order of its report or of runs. Example: postcopy draw session -o picture.svg",
             {"<SESSION>": SESSION, "[RUNS]": RUNS}, PICKED),
    "window": ("Write the session of some pages of a recording. Example: postcopy window recording 4096 1024 -o session",
               {"<INPUT>": "Folder with files of recorders, of a recording of any size. Or a session file, or - for standard input", "<FIRST>": "Number of the first page", "<COUNT>": "Number of pages"}, LINED),
    "session": ("Make the session of the files that recorders left in folders. Example: postcopy session recording -o session",
                {"<FOLDER>...": "Folder with files of recorders. A recording may be spread over several folders"},
                {"--cut": "If something is missing, write what is left, cut so that no record names one that is missing"}),
}


FIRST_OF_HELP = "Record post-copy migrations, and audit recorded sessions. Without a command, it runs: check - -"
END_OF_HELP = """ - means standard input. Two such files share it: the first text ends at its first line 'end'.

Exit status:
  0  success
  1  any other answer
  2  usage error
  3  a file, a link or an output failed
  4  out of memory
"""


@pytest.mark.quick
@pytest.mark.cases(6 * len(HELP) + 6)
def test_help(program, room):
    """What the help says of each command, each of its words and each of its options, in which order, and whichever way it is asked for."""
    tests = Tests(program, room)
    overall = tests.run("--help")[1]
    same("the first line of the help", overall.partition("\n")[0], FIRST_OF_HELP)
    same("the end of the help", overall.partition("\n\nThe file name")[2], END_OF_HELP)
    with open(f"{TOP}/VERSION", encoding="ascii") as file:
        same("the version", tests.run("--version"), (0, f"postcopy {file.read().strip()}\n", ""))
    about = {name: words for name, (words, *_) in HELP.items()}
    same("the commands", listed(overall, "Commands"), list({**about, "help": "Print this message or the help of the given subcommand(s)"}.items()))
    for word in ("-h", "help"):
        same(f"the help by {word}", tests.run(word), (0, overall, ""))
    for name, (words, arguments, options) in HELP.items():
        status, told, errors = tests.run(name, "--help")
        same(f"the help of {name}", (status, errors, told.split("\n")[0]), (0, "", words))
        same(f"the usage of {name}", told.split("\n")[2], f"Usage: {os.path.basename(program)} {name} [OPTIONS] {' '.join(arguments)}")
        same(f"the words of {name}", listed(told, "Arguments"), list(arguments.items()))
        same(f"the options of {name}", listed(told, "Options"), list({**options, **COMMON}.items()))
        for words in ((name, "-h"), ("help", name)):
            same(f"the help by {' '.join(words)}", tests.run(*words), (0, told, ""))


NEEDED, UNKNOWN = "the following required arguments were not provided:\n", "unexpected argument"
VALUE, TWICE = "invalid value", "cannot be used multiple times"
# Words that are no command, and what is told of them, each kind of error once at least.
WRONG_WORDS = (
    ("check session", f"{NEEDED}  <CERT>"),
    ("check", f"{NEEDED}  <SESSION>\n  <CERT>"),
    ("window recording", f"{NEEDED}  <FIRST>\n  <COUNT>"),
    ("audit -o file", f"{NEEDED}  <SESSION>..."),
    ("session --cut", f"{NEEDED}  <FOLDER>..."),
    ("check session cert more", f"{UNKNOWN} 'more' found"),
    ("draw session runs more", f"{UNKNOWN} 'more' found"),
    ("certify --quiet session", f"{UNKNOWN} '--quiet' found"),
    ("--quiet", f"{UNKNOWN} '--quiet' found"),
    ("send session", "unrecognized subcommand 'send'"),
    ("help send", "unrecognized subcommand 'send'"),
    ("--", f"'{{name}}' requires a subcommand but one was not provided\n  [subcommands: {', '.join(HELP)}, help]"),
    ("migrate script --link paper", f"{VALUE} 'paper' for '--link <CARRIER>'\n  [possible values: memory, tcp]"),
    ("audit --format xml session", f"{VALUE} 'xml' for '--format <FORM>'\n  [possible values: text, json]"),
    ("audit session --format", "a value is required for '--format <FORM>' but none was supplied\n  [possible values: text, json]"),
    ("explain session --lines", "a value is required for '--lines <FILE>' but none was supplied"),
    ("draw --page first session", f"{VALUE} 'first' for '--page <NUMBER>': invalid digit found in string"),
    ("explain --line 4294967296 session", f"{VALUE} '4294967296' for '--line <NUMBER>': 4294967296 is not in 0..=4294967295"),
    ("window recording first 1", f"{VALUE} 'first' for '<FIRST>': invalid digit found in string"),
    ("window recording 0 9223372036854775808", f"{VALUE} '9223372036854775808' for '<COUNT>': 9223372036854775808 is not in 0..=9223372036854775807"),
    ("audit --quiet=yes session", "unexpected value 'yes' for '--quiet' found; no more were expected"),
    ("audit --quiet --quiet session", f"the argument '--quiet' {TWICE}"),
    ("check session cert -o one -o other", f"the argument '--output <FILE>' {TWICE}"),
    ("explain --page 0 --line 9 session", "the argument '--page <NUMBER>' cannot be used with '--line <NUMBER>'"),
    ("audit --all --quiet session", "the argument '--all' cannot be used with '--quiet'"),
    ("audit --all session other", "the argument '--all' cannot be used with several sessions, unless '--format json' is given"),
)


@pytest.mark.quick
@pytest.mark.cases(len(WRONG_WORDS))
def test_wrong_words(program, room):
    """What is told of words that are no command: which of them is wrong, and what may stand there where it is one of few."""
    tests = Tests(program, room)
    for words, told in WRONG_WORDS:
        status, output, errors = tests.run(*words.split(" "))
        first = re.split(r"\n\n(?=  tip: |Usage: |For more )", errors)[0]
        wanted = f"error: {told.format(name=os.path.basename(program))}"
        same(words, (status, output, first, errors.split("\n")[-2]), (2, "", wanted, "For more information, try '--help'."))


@pytest.mark.quick
@pytest.mark.cases(3)
def test_many_sessions(program, room):
    """As many sessions as words: a line, or an object, on each."""
    names, kinds = [SESSIONS[0], SESSIONS[2]] * MANY, ["clean", "faulty line 18 stale"] * MANY
    tests = Tests(program, room)
    status, output, _ = tests.run("audit", *names)
    same("the status for many", status, 1)
    wanted = [f"{name}: {told}" for name, told in zip(names, kinds)]
    same("the lines of many", output.splitlines(), [*wanted, f"{MANY} of {2 * MANY} sessions are clean"])
    objects = [json.loads(it) for it in tests.run("audit", *JSON, *names)[1].splitlines()]
    same("the objects of many", [(it["file"], it["verdict"]) for it in objects], [(name, told.split(" ")[0]) for name, told in zip(names, kinds)])

"""Tests the library for C, the Python package over it, and what is installed.

Every example of `check`, `replay`, `certify`, `audit`, `explain` and `draw` has to get the program's answer, and of the session
of each example of `audit` so have all faults, pages and lines, and all questions at once: from C, where each allocation fails in turn, the room is of many
lengths, four threads call at once and the memory after texts and room may not be touched; and from Python. The header's numbers,
its struct and its calls are compared with the crate's, and so are Python's and Rust's. Only the header's calls may be visible, and
the man page has each of them. No call takes more of the stack and of memory than docs/EMBEDDING.md says. The examples for C, Python and Rust are built and run against an installation, and a test of sessions
by pytest. What lacks a command is left out: the header in C++, the example for Rust, an installation by pip.
"""
import json
import os
import re
from case_table import case_files, name_of
import runpy
import shlex
import shutil
import subprocess
import sys
import tempfile
import time
import zipfile

import pytest
from cases import count, leave_out, same
from library_assertions import by_pipe, fails, said as raised, tests_of_assertions
from library_claims import tests_of_claims
from session_topics import topics_of

TOP = os.path.dirname(os.path.dirname(os.path.abspath(__file__)))
OUT = f"{TOP}/crates/postcopy_c/out"
COMMANDS = {"check": 2, "replay": 2, "certify": 1, "audit": 1, "explain": 1, "draw": 1}
C_TYPES = {"u32": "uint32_t", "usize": "size_t", "PostcopyAnswer": "postcopy_answer", "PostcopyRefusal": "postcopy_refusal",
           "PostcopyQuestion": "postcopy_question"}
C_SLICES = {"&[u8]": "const uint8_t", "&mut [u8]": "uint8_t", "&[PostcopyQuestion]": "const postcopy_question", "&mut [usize]": "size_t"}
# The kinds of texts that are asked why they are refused, as bindings/c/tests/embedding.c names them, and which text of a command each is.
WHY = {"session": ("SESSION_TEXT", 1), "certificate": ("CERT_TEXT", 2), "order": ("RUNS_TEXT", 2)}
# C asks all questions of one in so many of the sessions that are audited: it asks them with rooms of hundreds of lengths.
EVERY = 16
STRICT = ["-std=c11", "-Wall", "-Wextra", "-Werror", "-O2"]
WRAPPED = "-Wl,--wrap=malloc,--wrap=realloc,--wrap=free"

# The calls on empty texts, and the texts of their answers.
WRITERS = ("certify", "audit", "audit_all", "missing", "missing_pages", "draw", "draw_page")
EMPTY = {"check - -": b"", "replay - -": b"", **{f"{it} -": b"session-text line 1\n" for it in WRITERS}}

# A machine of the greatest size, whose logs are empty.
GREATEST = b"postcopy-session 1\npages 65536\ncells 16\ninit 0\nguest 0\nsource 0\nlink 0\npager 0\nend\n"

# Certifies the input with little memory, and then with more.
SHORT_OF_MEMORY = """
import resource, sys
import postcopy
postcopy.version()
session = sys.stdin.buffer.read()
with open("/proc/self/statm") as file:
    taken = int(file.read().split()[0]) * resource.getpagesize()
before = resource.getrlimit(resource.RLIMIT_AS)
resource.setrlimit(resource.RLIMIT_AS, (taken + (1 << 21), before[1]))
try:
    print(postcopy.certify(session).kind)
except postcopy.OutOfMemory as error:
    print(type(error).__name__)
resource.setrlimit(resource.RLIMIT_AS, before)
print("clean" if postcopy.certify(session).is_safe else "not clean")
"""

def read(name, how="r"):
    with open(f"{TOP}/{name}" if not name.startswith("/") else name, how) as file:
        return file.read()


def run(*words, **how):
    """What a command writes; it has to end well."""
    if "input" not in how:
        how["stdin"] = subprocess.DEVNULL
    ran = subprocess.run(words, stdout=subprocess.PIPE, check=True, **how)
    return ran.stdout


# What is said of the same thing in several languages.


def of_crate():
    """The crate's numbers by their names, as its definitions have them, its structs' fields, and its calls as C would declare them."""
    table = read("crates/postcopy_c/specs/Numbers.antt")
    kinds = named(re.findall(r"^\w+ \(.*?\b(?:verdict|report|outcome)\.(\w+).* = numbers (\d+) ", table, re.M))
    kinds["NO_MEMORY"] = re.search(r"^no_memory = numbers (\d+) ", table, re.M)[1]
    kinds["READ"] = re.search(r"^read_number = (\d+)$", read("crates/postcopy_c/specs/Refusals.antt"), re.M)[1]
    questions = read("crates/postcopy_c/specs/Questions.antt")
    kinds["NO_QUESTION"] = re.search(r"^no_question = numbers (\d+) ", questions, re.M)[1]
    asks = re.findall(r"^  pub (\w+) : question.asks ≡ (\d+) →", questions, re.M)
    kinds["INCOMPLETE"] = re.search(r" lacks : .* ≡ numbers (\d+) ", read("crates/postcopy_c/specs/Showings.antt"))[1]
    reasons = named(re.findall(r"^(?:shape|page)_number \w+\.(\w+) = (\d+)$", table, re.M))
    structs = (("PostcopyAnswer", "answer"), ("PostcopyRefusal", "refusals"), ("PostcopyQuestion", "asking"))
    fields = [fields_of(*it) for it in structs]
    calls = []
    exports = r'#\[unsafe\(no_mangle\)\]\npub extern "C" fn (\w+)\((.*?)\) -> (\w+)'
    for name, given, answer in re.findall(exports, read("crates/postcopy_c/src/lib.rt"), re.S):
        words = []
        for word, kind in re.findall(r"(\w+): ([^,]+)", given):
            if kind in C_TYPES:
                words.append(f"{C_TYPES[kind]} {word}")
            elif kind != "Global":
                words += [f"{C_SLICES[kind]} *{word}", f"size_t {word}_len"]
        calls.append(f"{C_TYPES[answer]} {name}({', '.join(words) or 'void'});")
    return numbers(kinds), numbers(reasons), fields, sorted(calls), numbers(named(asks))


def fields_of(struct, module):
    """The fields of a struct of the crate, as C would declare them."""
    inside = re.search(rf"#\[repr\(C\)\][^{{]*pub struct {struct} \{{(.*?)\n\}}", read(f"crates/postcopy_c/src/{module}.rt"), re.S)[1]
    return [(name, C_TYPES[kind]) for name, kind in re.findall(r"pub (\w+): (\w+),", inside)]


def named(rows):
    """The numbers of rows by their names, as C has these."""
    return {re.sub(r"(?<=[a-z])(?=[A-Z])", "_", name).upper(): number for name, number in rows}


def numbers(found):
    return {name: int(number.replace("_", "")) for name, number in found.items()}


def of_header():
    """The same of the header."""
    text = re.sub(r"/\*.*?\*/", "", read("bindings/c/postcopy.h"), flags=re.S)
    reasons = dict(re.findall(r"POSTCOPY_REASON_(\w+) = (\d+)", text))
    asks = dict(re.findall(r"POSTCOPY_ASKS_(\w+) = (\d+)", text))
    kinds = dict(re.findall(r"POSTCOPY_(?!REASON_|ASKS_)(\w+) = (\d+)", text))
    names = ("postcopy_answer", "postcopy_refusal", "postcopy_question")
    structs = [re.search(rf"typedef struct \{{([^}}]*)\}} {it};", text)[1] for it in names]
    fields = [[(name, kind) for kind, name in re.findall(r"(\w+) (\w+);", it)] for it in structs]
    calls = re.findall(r"^\w+ postcopy_\w+\([^)]*\);", text, re.M)
    return numbers(kinds), numbers(reasons), fields, sorted(re.sub(r"\s+", " ", it) for it in calls), numbers(asks)


def of_man_page():
    """The calls of the man page, with no spaces."""
    lines = re.findall(r"^\.BI? (?!#)(.*)$", read("share/man/man3/postcopy.3").partition(".fi")[0], re.M)
    return sorted(re.sub(r'[" ]', "", "".join(lines)).replace(";", ";\n").split())


def compare_languages(postcopy, program):
    crate, header = of_crate(), of_header()
    for what, found, wanted in zip(("kinds", "reasons", "structs", "calls", "questions"), header, crate):
        same(f"the header's {what}", found, wanted)
    same("Python's kinds", {it.name: it.value for it in postcopy.Kind}, crate[0])
    same("Python's questions", {it.name: it.value for it in postcopy.Asks}, crate[4])
    same("Python's reasons", {it.name: it.value for it in postcopy.Reason}, crate[1])
    c_type = {"c_uint32": "uint32_t", "c_size_t": "size_t", "c_uint": "uint32_t", "c_ulong": "size_t"}
    structs = [[(name, c_type[kind.__name__]) for name, kind in it._fields_] for it in (postcopy._Answer, postcopy._Refusal, postcopy._Question)]
    same("Python's structs", structs, crate[2])
    rust = re.search(r"struct Answer \{(.*?)\}", read("bindings/rust/src/main.rs"), re.S)[1]
    same("Rust's struct", [(name, C_TYPES[kind]) for name, kind in re.findall(r"(\w+): (\w+),", rust)], crate[2][0])
    same("the calls of the man page", of_man_page(), sorted(it.replace(" ", "") for it in header[3]))
    version = run(program, "--version").decode().split()[1]
    same("the library's version", postcopy.version(), version)
    same("the package's version", postcopy.__version__, version)
    for file, flags in (("libpostcopy.a", ["-g"]), ("libpostcopy.so", ["-D"])):
        said = run("nm", "--defined-only", *flags, f"{OUT}/{file}").decode()
        visible, calls = re.findall(r" [A-Z] (\S+)$", said, re.M), re.findall(r"postcopy_\w+(?=\()", " ".join(crate[3]))
        same(f"what is visible in {file}", sorted(visible), sorted(calls))


# The examples.


def examples(folder):
    """The examples of these commands: the folder's name, the words with files for their texts, and the status and output that are wanted."""
    for at in case_files(""):
        words = read(f"{at}args").split()
        names = [f"{at}{it}" if it != "-" else "-" for it in words[1:]]
        if not words or COMMANDS.get(words[0]) != len(names) or not all(it == "-" or os.path.isfile(it) for it in names):
            continue
        given = read(f"{at}stdin", "rb") if os.path.isfile(f"{at}stdin") else b""
        parts = [given]
        if names.count("-") == 2:
            end = re.search(rb"^end\n", given, re.M)
            parts = [given[: end.end()], given[end.end() :]] if end else [given, b""]
        for place, name in enumerate(names):
            if name == "-":
                names[place] = f"{folder}/{os.path.basename(at[:-1])}-{place}"
                with open(names[place], "wb") as file:
                    file.write(parts.pop(0))
        yield name_of(at), [words[0], *names], int(read(f"{at}status")), read(f"{at}stdout", "rb")


def run_from_c(found, room):
    """The answers to the examples, and to empty texts, from C: each one's kind, line, reason and text."""
    test = f"{room}/embedding"
    run("cc", *STRICT, f"-I{TOP}/bindings/c", "-o", test, f"{TOP}/bindings/c/tests/embedding.c", f"{OUT}/libpostcopy.a", WRAPPED, "-pthread")
    lines = [" ".join(words) for _, words, _, _ in found] + list(EMPTY) + [f"{it} {name}" for it, name in asked(found)]
    lines += [it.line for it in topics(found)]
    lines += [f"{command} {name} {number}" for name, number in several(found)[::EVERY] for command in ("answers", "unknown")]
    ran = subprocess.run([test], input="\n".join(lines).encode() + b"\n", stdout=subprocess.PIPE)
    count(ran.returncode == 0, f"bindings/c/tests/embedding.c ended with status {ran.returncode}")
    said = ran.stdout
    while said:
        head, _, said = said.partition(b"\n")
        kind, line, reason, length = map(int, head.split())
        yield kind, line, reason, said[:length]
        said = said[length:]


def asked(found):
    """Which texts of the examples are asked why they are refused, and as what."""
    texts = {("session", words[1]) for _, words, _, _ in found}
    texts |= {("certificate" if words[0] == "check" else "order", words[2]) for _, words, _, _ in found if len(words) > 2}
    return sorted(texts)


def topics(found):
    """What is asked besides, of the session of each example of `audit`: of one this, of the next that."""
    return [it for _, words, _, _ in found if words[0] == "audit" for it in topics_of(words[1])][::4]


def several(found):
    """The sessions that are asked all questions at once, each with the number of a page and of a line."""
    return [(words[1], place % 20) for place, (_, words, _, _) in enumerate(found) if words[0] == "audit"]


def without_reason(written):
    """An object of the program as the library has it: of a text that is refused without why, which `postcopy_why` says."""
    told = json.loads(written)
    if "reason" not in told or "column" not in told:
        return written
    return b'{"verdict":"%s","line":%d}\n' % (told["verdict"].encode(), told["line"])


def compare_several(postcopy, program, found, from_c):
    """The answers to all questions at once, from C and from Python: those of the functions that take one, and the program's objects."""
    same("the answers to several questions from C", len(from_c), 2 * len(several(found)[::EVERY]))
    for place, (name, number) in enumerate(several(found)):
        told = postcopy.answers(name, *[(it, number) if it.name.endswith(("_PAGE", "_LINE")) else it for it in postcopy.Asks])
        singly = [getattr(postcopy, it)(name) for it in ("audit", "certify", "audit_all", "missing", "missing_pages", "explain")]
        singly += [postcopy.explain(name, page=number), postcopy.explain(name, line=number), postcopy.draw(name), postcopy.draw(name, page=number)]
        same(f"{name}, all questions about {number}", told[:-3], singly)
        for answer, words in zip(told[-3:], (["audit"], ["audit", "--all"], ["explain"])):
            ran = subprocess.run([program, *words, "--format", "json", name], stdin=subprocess.DEVNULL, stdout=subprocess.PIPE, stderr=subprocess.DEVNULL)
            same(f"{name}, the object of {words} among all questions", answer.text, without_reason(ran.stdout))
        if place % EVERY == 0:
            of_c, unknown_of_c = from_c[2 * place // EVERY : 2 * place // EVERY + 2]
            texts = b"".join(it.text for it in told)
            same(f"{name}, all questions from C", of_c, (told[0].kind, told[0].line or 0, told[0].reason or 0, texts))
            same(f"{name}, one that is none from C", unknown_of_c, (postcopy.Kind.NO_QUESTION, 0, 0, b""))
    same("no question", postcopy.answers(name), [])
    for question in (0, 14, (postcopy.Asks.DRAW_PAGE, -1), (postcopy.Asks.EXPLAIN_LINE, 1 << 32), postcopy.Asks.DRAW_PAGE, (postcopy.Asks.EXPLAIN_LINE,),
                     (postcopy.Asks.AUDIT, 5), (postcopy.Asks.EXPLAIN_OBJECT, 0), (postcopy.Asks.EXPLAIN_PAGE, 1, 2), ()):
        try:
            postcopy.answers(name, question)
            count(False, f"{question} is a question")
        except ValueError:
            count(True, "")


def compare_topics(postcopy, program, found, from_c):
    """All faults, pages and lines, from C and from Python, as the program tells them."""
    same("the answers from C", len(from_c), len(topics(found)))
    for it, numbers_of_c in zip(topics(found), from_c):
        told, said = it.told(postcopy), it.said(program)
        same(it.line, told.text, said)
        same(f"{it.line}, from C", numbers_of_c, (told.kind, told.line or 0, told.reason or 0, told.text))
        if it.call == "audit_all":
            faults = re.findall(r"^page (\d+) line (\d+) (\S+)$", said.decode(), re.M)
            found_by_python = [(str(page), str(line), reason.word) for page, line, reason in postcopy.audit(it.session).faults()]
            same(f"{it.line}, as a list", found_by_python, faults)
    report = postcopy.audit(f"{TOP}/examples/stale-page/session")
    same("a report's page, explained", report.explain(page=1), postcopy.explain(report.session, page=1).text.decode())
    same("a report's line, explained", report.explain(line=18), postcopy.explain(report.session, line=18).text.decode())
    same("a report's page, drawn", report.draw(page=1), postcopy.draw(report.session, page=1).text.decode())
    for topic in ({"page": -1}, {"line": 1 << 32}, {"page": 1, "line": 1}):
        try:
            report.explain(**topic)
            count(False, f"it is told of {topic}")
        except ValueError:
            count(True, "")


def compare_refusals(postcopy, program, found, from_c):
    """Why texts are refused, from C and from Python, as the program says it on standard error."""
    for (what, name), numbers_of_c in zip(asked(found), from_c):
        kind = postcopy.Kind[WHY[what][0]]
        by_path, by_bytes = postcopy.why(name, kind), postcopy.why(read(name, "rb"), kind)
        is_session = what == "session"
        words = ["audit", name] if is_session else ["check" if what == "certificate" else "replay", f"{TOP}/examples/handover/session", name]
        ran = subprocess.run([program, *words], stdin=subprocess.DEVNULL, stdout=subprocess.PIPE, stderr=subprocess.PIPE)
        is_refused = ran.stdout.split(b" ")[0] == kind.word.encode()
        same(f"whether {name} is refused as {what}", by_path is not None, is_refused)
        told = by_path and (by_path.kind, by_path.line, by_path.column, by_path.why)
        same(f"why {name} is refused as {what}, by bytes", by_bytes and (by_bytes.kind, by_bytes.line, by_bytes.column, by_bytes.why), told)
        same(f"why {name} is refused as {what}, from C", numbers_of_c, (*told[:3], told[3].encode()) if told else (postcopy.Kind.READ, 0, 0, b""))
        if told:
            # (a command that reads two files also asks this)
            said = ran.stderr.replace(b": are the two files swapped?\n", b"\n")
            same(f"why {name} is refused as {what}", f"{name}:{told[1]}:{told[2]}: {told[3]}\n".encode(), said)


def compare_answers(postcopy, found, from_c):
    same("empty texts from C", from_c[len(found) :], [(postcopy.Kind.SESSION_TEXT, 1, 0, text) for text in EMPTY.values()])
    for (name, words, status, wanted), numbers_of_c in zip(found, from_c):
        by_path = getattr(postcopy, words[0])(*words[1:])
        by_bytes = getattr(postcopy, words[0])(*(read(it, "rb") for it in words[1:]))
        same(f"{name}, by paths and by bytes", by_path, by_bytes)
        same(f"{name}, from C", numbers_of_c, (by_path.kind, by_path.line or 0, by_path.reason or 0, by_path.text))
        if words[0] == "draw":
            is_picture = by_path.kind is not postcopy.Kind.SESSION_TEXT
            same(f"{name}, whether it is drawn", is_picture, status == 0)
            same(f"{name}, as a notebook shows it", by_path._repr_svg_(), wanted.decode() if is_picture else None)
        elif words[0] == "replay":
            same(f"{name}, whether this order is safe, and all are", (by_path.kind is postcopy.Kind.SAFE, by_path.is_safe), (status == 0, False))
        else:
            same(f"{name}, whether it is safe", by_path.is_safe, status == 0)
        if COMMANDS[words[0]] == 2:
            same(name, f"{by_path}\n".encode(), wanted)
        else:
            same(name, by_path.text, wanted)
            is_certificate = words[0] == "certify" and by_path.is_safe
            has_line = words[0] != "draw" and not is_certificate
            same(f"{name}, its line", str(by_path), wanted.decode().split("\n")[0] if has_line else str(postcopy.audit(words[1])))


def refusal(postcopy, call):
    """The refusal that a call raises, or None."""
    try:
        call()
    except postcopy.Refused as refused:
        return str(refused), refused.kind, refused.line
    return None


def told_by(postcopy, call):
    """Where and why a text is refused, by the refusal that a call raises."""
    try:
        call()
    except postcopy.Refused as refused:
        return refused.line, refused.column, refused.why
    return None


def compare_reports(postcopy, program, found):
    """What a report has besides its text, and what it tells when it is asked, as the program writes it."""
    for name, (command, *words), _, wanted in found:
        if command != "audit":
            continue
        report, by_bytes = postcopy.audit(words[0]), postcopy.audit(read(words[0], "rb"))
        first, _, behind = wanted.partition(b"\n")
        explained, drawn = (subprocess.run([program, it, *words], stdout=subprocess.PIPE, stderr=subprocess.DEVNULL).stdout.decode() for it in ("explain", "draw"))
        same(f"{name}, its verdict", report.verdict, first.decode().split(" ")[0])
        same(f"{name}, its certificate", report.certificate, behind if first == b"clean" else None)
        same(f"{name}, its runs", report.runs, behind if first.startswith(b"faulty ") else None)
        same(f"{name}, explained", report.explain(), explained)
        page = re.search(r"^What the logs say of page (\d+):$", explained, re.M)
        same(f"{name}, its page, by path and by bytes", [report.page, by_bytes.page], [page and int(page[1])] * 2)
        is_refused = first.startswith(b"session-text ")
        same(f"{name}, as a notebook shows it", report._repr_svg_(), None if is_refused else drawn)
        refused = (first.decode(), postcopy.Kind.SESSION_TEXT, report.line) if is_refused else None
        same(f"{name}, whether it is refused", refusal(postcopy, report.raise_if_refused), refused)
        same(f"{name}, drawn", refusal(postcopy, report.draw) if is_refused else report.draw(), refused if is_refused else drawn)
    certificate = postcopy.check(f"{TOP}/examples/handover/session", b"")
    same("a certificate that is refused", refusal(postcopy, certificate.raise_if_refused), ("certificate-text line 1", postcopy.Kind.CERT_TEXT, 1))
    said = told_by(postcopy, certificate.raise_if_refused)
    same("why it is refused", said, (1, 1, postcopy.why(b"", postcopy.Kind.CERT_TEXT).why))
    runs = postcopy.replay(f"{TOP}/examples/handover/session", b"")
    same("runs that are refused", refusal(postcopy, runs.raise_if_refused), ("runs-text line 1", postcopy.Kind.RUNS_TEXT, 1))


def compare_texts(postcopy):
    """Texts of every kind that Python has, and what is no text."""
    session = read("examples/stale-page/session", "rb")
    wanted = postcopy.audit(session)
    for text in (bytearray(session), memoryview(session), memoryview(bytearray(session)), memoryview(session + b"more")[:-4]):
        report = postcopy.audit(text)
        same(f"a session as {type(text).__name__}", (report, report.page, report.explain()), (wanted, wanted.page, wanted.explain()))
    with by_pipe(session) as name:
        report = postcopy.audit(name)
        same("a session that comes by a pipe", (report, report.page, report.explain()), (wanted, wanted.page, wanted.explain()))
    for answer in (wanted, postcopy.check(session, session), postcopy.audit(read("examples/handover/session", "rb"))):
        try:
            count(False, f"an answer is {bool(answer)}")
        except TypeError as fault:
            count(f"this one is '{answer}'" in str(fault), f"the words on an answer's truth: {fault}")
    for text in (b"", bytearray(), memoryview(b""), os.devnull):
        same(f"an empty text as {text!r}", str(postcopy.check(text, text)), "session-text line 1")
    for text, error, words in ((7, TypeError, "bytes or a path"), (f"{TOP}/no-such-file", FileNotFoundError, "no-such-file"),
                               (session.decode(), TypeError, "give the text as bytes"), (TOP, IsADirectoryError, "only a session may be one")):
        try:
            postcopy.check(session, text)
            count(False, f"{text!r} is taken for a text")
        except error as fault:
            count(words in str(fault), f"the words on {text!r}: {fault}")
    same("an exception when out of memory", issubclass(postcopy.OutOfMemory, MemoryError), True)
    # a text that is longer than the session by much, so that a second room is wanted
    pages = "".join(f"page {page} none\n" for page in range(65536))
    wanted = f"postcopy-certificate 1\npages 65536\n{pages}runs 0\nend\n".encode()
    same("the certificate of the greatest machine", postcopy.certify(GREATEST).text == wanted, True)
    said = run(sys.executable, "-B", "-c", SHORT_OF_MEMORY, env={**os.environ, "PYTHONPATH": f"{TOP}/bindings/python"}, input=GREATEST)
    same("a call short of memory, and the next", said, b"OutOfMemory\nclean\n")


def compare_folders(postcopy, program, folder):
    """A recorder's folder is taken for the session that the program makes of it, by each function; and what makes none says why."""
    from postcopy.recorder import Log
    from postcopy.testing import assert_clean
    guest, source, pager, machine = logs = [Log(folder, party) for party in ("guest", "source", "pager", "machine")]
    machine.machine(pages=1, cells=1)
    source.halted(guest.halt())
    pager.got_sent(source.state())
    guest.resume(pager.ready())
    why = subprocess.run([program, "session", folder], stdout=subprocess.PIPE, stderr=subprocess.STDOUT, text=True).stdout
    with pytest.raises(OSError, match="has no end") as fault:
        postcopy.audit(folder)
    same("logs that are not closed", (fault.value.strerror, fault.value.filename), (why.rstrip("\n"), folder))
    for log in logs:
        log.close()
    session = run(program, "session", folder)
    same("a folder, and what one answers of it", (postcopy.session(folder), postcopy.audit(folder).session), (session, session))
    for name in ("audit", "audit_all", "certify", "draw", "explain", "missing", "missing_pages", "why"):
        same(f"{name} of a folder", getattr(postcopy, name)(folder), getattr(postcopy, name)(session))
    for name, kind in (("check", postcopy.Kind.YES), ("replay", postcopy.Kind.SAFE)):
        same(f"{name} of a folder", getattr(postcopy, name)(folder, postcopy.audit(session).certificate).kind, kind)
    asks = postcopy.Asks.AUDIT, postcopy.Asks.MISSING
    same("questions about a folder", postcopy.answers(folder, *asks), postcopy.answers(session, *asks))
    fails(same, "a folder in which a page never came", raised(lambda: assert_clean(folder)), "incomplete page 0\n")
    with pytest.raises(OSError, match="none: no such file"):
        postcopy.session(folder, f"{folder}/none")


def of_reads(count):
    """A session that only reads, and its order: one run."""
    session = f"postcopy-session 1\npages 1\ncells 1\ninit 0\nguest {count}\n" + "r 0 0 0 0\n" * count + "source 0\nlink 0\npager 0\nend\n"
    return session.encode(), f"postcopy-runs 1\nruns 1\nrun guest {count}\nend\n".encode()


def compare_questions(postcopy):
    """Questions in any order, more than once, alone and by the hundred: each is answered as by its own function."""
    asks, session = postcopy.Asks, f"{TOP}/examples/stale-page/session"
    singly = {it: getattr(postcopy, it.name.lower())(session) for it in list(asks)[:6]}
    singly.update({(asks.EXPLAIN_PAGE, n): postcopy.explain(session, page=n) for n in range(4)})
    singly.update({(asks.EXPLAIN_LINE, n): postcopy.explain(session, line=n) for n in range(24)})
    singly.update({asks.DRAW: postcopy.draw(session), (asks.DRAW_PAGE, 1): postcopy.draw(session, page=1)})
    every = list(singly)
    lists = {"none": [[]], "each alone": [[it] for it in every], "backwards": [every[::-1]], "each twice": [[it, it] for it in every], "all twice": [every * 2], "many": [every * 10]}
    for what, asked in lists.items():
        same(f"questions, {what}", [postcopy.answers(session, *it) for it in asked], [[singly[question] for question in it] for it in asked])


# A page and a line that no session has, the greatest that a call takes, and what is told of them.
GREATEST_NUMBER = (1 << 32) - 1
NO_TOPICS = (({"page": 2}, "The machine has no page 2: it has 2 pages, and the first is page 0."),
             ({"page": GREATEST_NUMBER}, f"The machine has no page {GREATEST_NUMBER}: it has 2 pages, and the first is page 0."),
             ({"line": 0}, "Line 0 tells no record of the logs."), ({"line": GREATEST_NUMBER}, f"Line {GREATEST_NUMBER} tells no record of the logs."))


def compare_limits(postcopy, program):
    """What is told of pages and lines that are not there, and of long texts."""
    session = f"{TOP}/examples/stale-page/session"
    for topic, words in NO_TOPICS:
        same(f"{topic}, explained", postcopy.explain(session, **topic).text.decode(), f"faulty line 18 stale\n{words}\n")
    for page in (1, 2, GREATEST_NUMBER):
        said = subprocess.run([program, "draw", "--page", str(page), session], stdin=subprocess.DEVNULL, stdout=subprocess.PIPE).stdout
        same(f"page {page}, drawn", postcopy.draw(session, page=page).text, said)
    long, runs = of_reads(150000)
    certificate = b"postcopy-certificate 1\npages 1\npage 0 none\n" + runs.partition(b"\n")[2]
    same("the certificate of a long session", postcopy.certify(long).text, certificate)
    same("a long session that is checked", postcopy.check(long, certificate).kind, postcopy.Kind.YES)
    for name, order in (("runs", runs), ("a certificate", certificate)):
        same(f"a long session that is replayed by {name}", postcopy.replay(long, order).kind, postcopy.Kind.SAFE)
    told = postcopy.why(long[: -len(b"end\n")] + b"edn\n")
    same("why a long text is refused at its end", (told.line, told.column), (150009, 1))
    wrong = long.replace(b"r 0 0 0 0\nsource", b"r 0 0 0 x\nsource")
    told = postcopy.why(wrong)
    same("why a record of it is refused", (told.line, told.column), (150005, 9))
    same("why an order with a long line is refused", postcopy.why(b"postcopy-runs 1\nruns " + b"1" * 200000 + b"\n", postcopy.Kind.RUNS_TEXT).line, 2)


# Texts that are refused at an empty line, or behind their last one, with the line, the column and what is said.
HEADERS = '"postcopy-session 1", "postcopy-session 2" or "postcopy-session 3", the header of a session'
REFUSED_LINES = (
    (b"", 1, 1, f"the text is empty; expected {HEADERS}"),
    (b"\n", 1, 1, f"found an empty line; expected {HEADERS}"), (b"\n\n", 1, 1, f"found an empty line; expected {HEADERS}"),
    (b"postcopy-session 1\n\npages 1\n", 2, 1, 'found an empty line; expected "pages N", the number of pages'),
    (b"postcopy-session 1\npages 1\n\n", 3, 1, 'found an empty line; expected "cells N", the number of cells'),
    (b"postcopy-session 1\n", 2, 1, 'the text ends here; expected "pages N", the number of pages'),
    (b"postcopy-session 1\npages 1", 2, 8, 'the text ends in the middle of a line; expected a line feed after "pages 1"'),
    (b"postcopy-session 1\npages x\n", 2, 7, 'found "x"; expected N, a number from 1 to 65536, as in "pages N"'),
)


def compare_refused_lines(postcopy):
    """Where and why texts are refused whose line has nothing to show, or little; and one that is not refused."""
    for text, line, column, words in REFUSED_LINES:
        told = postcopy.why(text)
        same(f"why {text} is refused", told and (told.line, told.column, told.why), (line, column, words))
        for call in (postcopy.check, postcopy.replay):
            told = call(text, f"{TOP}/examples/handover/certificate")
            same(f"why {call.__name__} refuses {text}", (told.kind, told.line, told.column, told.why), (postcopy.Kind.SESSION_TEXT, line, column, words))
    same("why a text is not refused", postcopy.why(f"{TOP}/examples/handover/session"), None)


# What is installed.


def installed(room):
    """Installs under a prefix of its own, which it answers. What stands there is compared by the test of releases."""
    prefix = f"{room}/prefix"
    run(f"{TOP}/tools/install", prefix)
    return prefix


def pkg_config(prefix, *fields):
    """What the pkg-config file says to a compiler."""
    said = read(f"{prefix}/lib/pkgconfig/postcopy.pc")
    while "${" in said:
        for name, value in re.findall(r"^(\w+)=(.*)$", said, re.M):
            said = said.replace(f"${{{name}}}", value)
    return shlex.split(" ".join(re.search(rf"^{it}: (.*)$", said, re.M)[1] for it in fields))


def tests_of_program(prefix):
    """The program that was installed, its man page and its completions."""
    program = f"{prefix}/bin/postcopy"
    said = run(program, "--help").decode()
    commands = re.findall(r"^  ([a-z-]+) ", said.partition("Commands:")[2].partition("\n\n")[0], re.M)
    page = read(f"{prefix}/share/man/man1/postcopy.1")
    for it in commands:
        count(it == "help" or f'.BI {it} "' in page, f"the man page says nothing of the command {it}")
    script = 'source "$1"; COMP_WORDS=("$2" ""); COMP_CWORD=1; _postcopy; echo "${COMPREPLY[@]}"'
    offered = run("bash", "-c", script, "", f"{prefix}/share/bash-completion/completions/postcopy", program).decode().split()
    same("what bash offers", offered, [*commands, "--help", "--version"])
    script = 'source "$1"; COMP_WORDS=("${@:2}"); COMP_CWORD=$(($# - 2)); _postcopy; echo "${COMPREPLY[@]}"'
    offers = lambda *words: run("bash", "-c", script, "", f"{prefix}/share/bash-completion/completions/postcopy", program, *words).decode().split()
    for it in [it for it in commands if it != "help"]:
        told = run(program, it, "--help").decode().partition("Options:")[2]
        options = re.findall(r"^ +(?:-\w, |    )?(--[a-z-]+)", told, re.M)
        same(f"what bash offers to {it}", offers(it, "--"), options)
        same(f"the options of {it}, without --help, on the man page", [option for option in options if option.replace("-", "\\-") not in page], [])
    same("what bash offers as a form", offers("audit", "--format", ""), ["text", "json"])
    same("what bash offers as a carrier", offers("migrate", "--link", ""), ["memory", "tcp"])
    ran = subprocess.run([f"{prefix}/bin/postcopy-session", f"{prefix}/share"], stdout=subprocess.PIPE, stderr=subprocess.PIPE)
    wanted = f"postcopy-session: {prefix}/share: there is no file of a recorder, PARTY.PROCESS.N\n".encode()
    same("postcopy-session, of a folder with no logs", (ran.stdout, ran.stderr, ran.returncode), (b"", wanted, 2))


def numbers_line(answer):
    return f"kind {answer.kind} line {answer.line or 0} reason {answer.reason or 0}\n"


def said(words, **how):
    """What a program writes, and its status."""
    ran = subprocess.run(words, capture_output=True, **how)
    return ran.returncode, ran.stdout, ran.stderr


def tests_of_examples(postcopy, prefix, room):
    """The examples for C, Python and Rust, each run on a right certificate and on a wrong one."""
    programs = {}
    for how, more in (("static", []), ("shared", [f"-Wl,-rpath,{prefix}/lib"])):
        libs = [f"{prefix}/lib/libpostcopy.a"] if how == "static" else [*pkg_config(prefix, "Libs"), *more]
        for name in ("check", "audit"):
            words = [*STRICT, *pkg_config(prefix, "Cflags"), "-o", f"{room}/{name}-{how}", f"{TOP}/bindings/c/examples/{name}.c"]
            run("cc", *words, *libs)
        programs[f"C, {how}"] = f"{room}/check-{how}"
        for folder in ("handover", "stale-page", "leading-zero", "wrong-shape"):
            session = f"{TOP}/examples/{folder}/session"
            answer = postcopy.audit(session)
            ran = subprocess.run([f"{room}/audit-{how}"], input=read(session, "rb"), stdout=subprocess.PIPE)
            same(f"the audit in C, {how}, {folder}", (ran.stdout, ran.returncode), (answer.text, int(not answer.is_safe)))
        texts = [f"{TOP}/examples/handover/{it}" for it in ("session", "certificate")]
        for name, words, given in (("audit", [], read(texts[0], "rb")), ("check", texts, b"")):
            with open("/dev/full", "wb") as full:
                ran = subprocess.run([f"{room}/{name}-{how}", *words], input=given, stdout=full, stderr=subprocess.PIPE)
            same(f"the {name} in C, {how}, whose answer cannot be written", (ran.returncode, ran.stderr), (3, b"standard output: No space left on device\n"))
        folder = os.open(room, os.O_RDONLY)
        same(f"the audit in C, {how}, of what cannot be read", said([f"{room}/audit-{how}"], stdin=folder), (3, b"", b"standard input: Is a directory\n"))
        os.close(folder)
        for words, status, wanted in (([texts[0], os.devnull], 3, f"{os.devnull}: only a file can be mapped"), ([texts[0], f"{room}/none"], 3, f"{room}/none: No such file or directory"),
                                      ([], 2, "usage: check SESSION CERT")):
            same(f"the check in C, {how}, of {words}", said([f"{room}/check-{how}", *words]), (status, b"", f"{wanted}\n".encode()))
    if shutil.which("c++"):
        headers = [f"{prefix}/include/{it}.h" for it in ("postcopy", "postcopy_record")]
        ran = subprocess.run(["c++", "-Wall", "-Wextra", "-Werror", "-fsyntax-only", "-x", "c++", *headers])
        count(ran.returncode == 0, "the headers are no C++")
    else:
        leave_out("the header in C++ (there is no c++)")
    if shutil.which("cargo"):
        # (a copy, since cargo writes beside what it builds)
        shutil.copytree(f"{TOP}/bindings/rust", f"{room}/rust", ignore=shutil.ignore_patterns("target", "Cargo.lock"))
        how = {"CARGO_TARGET_DIR": f"{room}/cargo", "POSTCOPY_LIB_DIR": f"{prefix}/lib", "CARGO_NET_OFFLINE": "true"}
        run("cargo", "build", "--quiet", "--release", cwd=f"{room}/rust", env={**os.environ, **how})
        os.utime(f"{prefix}/lib/libpostcopy.a", (time.time() + 9, time.time() + 9))
        ran = subprocess.run(["cargo", "build", "--release"], cwd=f"{room}/rust", env={**os.environ, **how}, stderr=subprocess.PIPE)
        same("a program in Rust whose library is newer is linked again", (ran.returncode, b"Compiling postcopy-example" in ran.stderr), (0, True))
        programs["Rust"] = f"{room}/cargo/release/postcopy-example"
        for words in (texts[:1], texts):
            with open("/dev/full", "wb") as full:
                ran = subprocess.run([programs["Rust"], *words], stdout=full)
            same(f"the example for Rust with {len(words)} texts, whose answer cannot be written", ran.returncode, 3)
    else:
        leave_out("the example for Rust (there is no cargo)")
    for folder in ("handover", "circle-of-receipts", "leading-zero", "wrong-shape"):
        texts = [f"{TOP}/examples/{folder}/session", f"{TOP}/examples/{folder}/certificate"]
        if "Rust" in programs:
            told = postcopy.explain(texts[0])
            ran = subprocess.run([programs["Rust"], texts[0]], stdout=subprocess.PIPE)
            same(f"what the example for Rust tells of {folder}", (ran.stdout, ran.returncode), (told.text, int(not told.is_safe)))
        answer = postcopy.check(*texts)
        for name, program in programs.items():
            ran = subprocess.run([program, *texts], stdout=subprocess.PIPE, stderr=subprocess.DEVNULL)
            same(f"the example for {name}, {folder}", (ran.stdout.decode(), ran.returncode), (numbers_line(answer), int(not answer.is_safe)))


def tests_of_page(room):
    """The code that docs/EMBEDDING.md shows."""
    page = read("docs/EMBEDDING.md")
    shown = {}
    for language, code in re.findall(r"^```(\w+)\n(.*?)^```$", page, re.M | re.S):
        shown.setdefault(language, []).append(code)
    with open(f"{room}/page.c", "w") as file:
        file.write(shown["c"][0] + """
int main(void) {
    uint8_t nothing[] = "";
    size_t len;
    uint8_t *text = report(nothing, 0, &len);
    int is_well = text && len == 20 && is_safe(nothing, 0, nothing, 0) == 0;
    free(text);
    return !is_well;
}
""")
    run("cc", *STRICT, f"-I{TOP}/bindings/c", "-o", f"{room}/page", f"{room}/page.c", f"{OUT}/libpostcopy.a")
    same("the C of docs/EMBEDDING.md", subprocess.run([f"{room}/page"]).returncode, 0)
    env = {**os.environ, "PYTHONPATH": f"{TOP}/bindings/python"}
    said = run(sys.executable, "-B", "-c", shown["python"][0], cwd=f"{TOP}/examples/handover", env=env)
    same("the Python of docs/EMBEDDING.md", said, b"clean\nyes\n")
    session = "".join(shown["pycon"])
    with open(f"{room}/session.txt", "w") as file:
        file.write(session)
    # (it ends with status 1 where anything but what is shown comes)
    ran = subprocess.run([sys.executable, "-B", "-m", "doctest", "-o", "ELLIPSIS", f"{room}/session.txt"], cwd=TOP, env=env)
    same("the session of Python in docs/EMBEDDING.md", (ran.returncode, session.count(">>>") > 4), (0, True))
    tests_of_pytest(room, TOP, shown["python"][1], " 1 failed, 1 passed ", shown["text"][0])


def tests_of_pytest(room, folder, test, sums, failure):
    """A test that a page shows, by pytest in a folder: how it ends, and what the page shows of its failure."""
    with open(f"{room}/test_shown.py", "w") as file:
        file.write(test)
    words = [sys.executable, "-m", "pytest", "-p", "no:cacheprovider", "--color=no", f"--rootdir={room}", f"{room}/test_shown.py"]
    ran = subprocess.run(words, stdout=subprocess.PIPE, cwd=folder, env={**os.environ, "PYTHONPATH": f"{TOP}/bindings/python", "PYTHONDONTWRITEBYTECODE": "1"})
    said = ran.stdout.decode()
    same(f"a test by pytest: {said}", (ran.returncode, sums in said), (int(bool(failure)), True))
    same("what the page shows of it", [it for it in failure.replace("...\n", "").splitlines() if it not in said.splitlines()], [])
    count("testing.py" not in said, "pytest shows more than the test")


def tests_of_fixture(room):
    """The fixture of docs/RECORDING.md, over the script above it, as that stands there and without its fault."""
    page = read("docs/RECORDING.md")
    script, fixture = re.findall(r"^```python\n(.*?)^```$", page, re.M | re.S)
    fault = re.search(r"    if page == 2:\n.*\n", script)[0]
    for recording, sums, failure in ((script, " 1 passed, 1 error ", re.search(r"^```text\n(.*?)^```$", page, re.M | re.S)[1]),
                                     (script.replace(fault, ""), " 1 passed, 1 warning ", "")):
        with open(f"{room}/smallest.py", "w") as file:
            file.write(recording)
        tests_of_pytest(room, room, fixture, sums, failure)


def tests_of_wheel(room):
    """The example for Python, over a checkout and over the wheel."""
    wheel = run(sys.executable, f"{TOP}/bindings/python/wheel_of_library.py", f"{room}/wheels").decode().strip()
    run(sys.executable, "-c", "import sys, zipfile; zipfile.ZipFile(sys.argv[1]).extractall(sys.argv[2])", f"{room}/wheels/{wheel}", f"{room}/site")
    with zipfile.ZipFile(f"{room}/wheels/{wheel}") as made:
        names = made.namelist()
    record = read(f"{room}/site/{next(it for it in names if it.endswith('/RECORD'))}")
    same("the wheel's record", [it.split(",")[0] for it in record.splitlines()], names)
    places = {"checkout": f"{TOP}/bindings/python", "wheel": f"{room}/site"}
    if subprocess.run([sys.executable, "-m", "pip", "--version"], stdout=subprocess.DEVNULL, stderr=subprocess.DEVNULL).returncode == 0:
        words = ["-m", "pip", "install", "--quiet", "--no-index", "--no-deps", "--disable-pip-version-check"]
        words += ["--target", f"{room}/installed", f"{TOP}/bindings/python"]
        run(sys.executable, *words, env={**os.environ, "PIP_ROOT_USER_ACTION": "ignore"})
        places["checkout, installed by pip"] = f"{room}/installed"
    else:
        leave_out("the installation by pip (there is no pip)")
    for name, place in places.items():
        env = {it: value for it, value in os.environ.items() if it != "POSTCOPY_LIBRARY"}
        for folder, status, wanted in (("handover", 0, "clean\nyes\n"), ("stale-page", 1, "faulty line 18 stale\n")):
            words = [sys.executable, "-B", f"{TOP}/bindings/python/examples/check.py", f"{TOP}/examples/{folder}/session"]
            ran = subprocess.run(words, stdout=subprocess.PIPE, cwd=room, env={**env, "PYTHONPATH": place})
            same(f"the example for Python over a {name}, {folder}", (ran.stdout.decode(), ran.returncode), (wanted, status))


@pytest.fixture(scope="module")
def postcopy(library, program):
    """The package for Python, over the library that was built here, by whichever toolchain, and the program."""
    with pytest.MonkeyPatch.context() as patch:
        patch.setenv("POSTCOPY_LIBRARY", f"{library}/libpostcopy.so")
        patch.setenv("POSTCOPY", program)
        import postcopy as package
        yield package


@pytest.fixture(scope="module")
def found():
    """The examples, with files for their texts."""
    with tempfile.TemporaryDirectory(prefix="postcopy-tests-") as folder:
        yield list(examples(folder))


@pytest.fixture(scope="module")
def prefix(library):
    """Where all is installed."""
    with tempfile.TemporaryDirectory(prefix="postcopy-tests-") as folder:
        yield installed(folder)


@pytest.mark.cases(15)
def test_languages(postcopy, program):
    compare_languages(postcopy, program)


@pytest.mark.slow
@pytest.mark.cases(2800)
def test_from_c(postcopy, program, found, room):
    from_c = list(run_from_c(found, room))
    refusals_at = len(found) + len(EMPTY)
    topics_at = refusals_at + len(asked(found))
    compare_answers(postcopy, found, from_c[:refusals_at])
    compare_refusals(postcopy, program, found, from_c[refusals_at:topics_at])
    several_at = topics_at + len(topics(found))
    compare_topics(postcopy, program, found, from_c[topics_at:several_at])
    compare_several(postcopy, program, found, from_c[several_at:])


@pytest.mark.cases(459)
def test_reports(postcopy, program, found):
    compare_reports(postcopy, program, found)


@pytest.mark.cases(17)
def test_texts(postcopy):
    compare_texts(postcopy)


@pytest.mark.cases(14)
def test_folders(postcopy, program, room):
    compare_folders(postcopy, program, f"{room}/recording")


@pytest.mark.cases(6)
def test_questions(postcopy):
    compare_questions(postcopy)


@pytest.mark.cases(14)
def test_limits(postcopy, program):
    compare_limits(postcopy, program)


@pytest.mark.cases(3 * len(REFUSED_LINES) + 1)
def test_refused_lines(postcopy):
    compare_refused_lines(postcopy)


@pytest.mark.cases(296)
def test_assertions(postcopy):
    tests_of_assertions(postcopy, same)


@pytest.mark.slow
@pytest.mark.cases(109)
def test_claims(library, room):
    measuring = f"{room}/measuring"
    run("cc", *STRICT, f"-I{TOP}/bindings/c", "-o", measuring, f"{TOP}/bindings/c/tests/measuring.c", f"{OUT}/libpostcopy.a", WRAPPED, "-pthread")
    tests_of_claims(measuring, room, count)


@pytest.mark.cases(32)
def test_installed(prefix):
    tests_of_program(prefix)


@pytest.mark.slow
@pytest.mark.cases(32)
def test_examples(postcopy, prefix, room):
    tests_of_examples(postcopy, prefix, room)


@pytest.mark.cases(8)
def test_example_for_python(postcopy, monkeypatch, capsys, room):
    """The example for Python goes by what the check answers, and not by the report alone. Where there is no answer it says why."""
    session = f"{TOP}/examples/handover/session"
    for words, output, status, why in (([session], os.devnull, 0, ""), ([f"{room}/none"], os.devnull, 3, f"check.py: {room}/none: No such file or directory\n"),
                                       ([room], os.devnull, 3, f"check.py: {room}: session: {room}: there is no file of a recorder"), ([session], "/dev/full", 3, "check.py: standard output: No space left on device\n"),
                                       ([], os.devnull, 2, "Audits a session"), ([session, session], os.devnull, 2, "Audits a session")):
        with open(output, "w", encoding="utf-8") as out:
            ran = subprocess.run([sys.executable, "-B", f"{TOP}/bindings/python/examples/check.py", *words], stdout=out, stderr=subprocess.PIPE, text=True,
                                 env={**os.environ, "PYTHONPATH": f"{TOP}/bindings/python"})
        same(f"the example for Python, {words} > {output}", (ran.returncode, ran.stderr[:len(why) or None]), (status, why))
    for answer, status in ((postcopy.Answer(postcopy.Kind.YES), 0), (postcopy.Answer(postcopy.Kind.RUNS, 7), 1)):
        monkeypatch.setattr(postcopy, "check", lambda *_, answer=answer: answer)
        main = runpy.run_path(f"{TOP}/bindings/python/examples/check.py")["main"]
        same(f"where the check says {answer}", (main(f"{TOP}/examples/handover/session"), capsys.readouterr().out), (status, f"clean\n{answer}\n"))


@pytest.mark.cases(12)
def test_pages(postcopy, room):
    tests_of_page(room)
    tests_of_fixture(room)


@pytest.mark.cases(7)
def test_wheel(postcopy, room):
    tests_of_wheel(room)

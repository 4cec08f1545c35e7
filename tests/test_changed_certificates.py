"""Checks certificates that were changed in small ways, and compares each verdict with that of a slow checker.

The slow checker is check_model.py. Each certificate is cut after each byte, has each byte changed and a byte more before
each, and has each number of each entry and the length of each run replaced by small ones, and its log by the others: a quarter of these
is tried, the same in each run, and all with --all. And each session meets the certificates of the others.
"""
import itertools
import os
import random
import subprocess
from concurrent.futures import ThreadPoolExecutor

import pytest
from case_table import case_file
from cases import same
from check_model import Session, verdict
from session_text import LOGS

BYTES = b"0149 \n\r-\xff"
MORE = b"0 \n"


def changes(session, text):
    """The changes of a certificate, each once."""
    found = dict.fromkeys(text[:n] for n in range(len(text)))
    found.update(dict.fromkeys(text[:n] + bytes([byte]) + text[n + 1:] for n in range(len(text)) for byte in BYTES))
    found.update(dict.fromkeys(text[:n] + bytes([byte]) + text[n:] for n in range(len(text) + 1) for byte in MORE))
    lines = text.decode().split("\n")
    for page in range(session.pages):
        for entry in entries(session, lines[2 + page].split(" ")[2:]):
            found["\n".join(lines[:2 + page] + [" ".join(["page", str(page)] + entry)] + lines[3 + page:]).encode()] = None
    for n in range(session.pages + 3, len(lines) - 2):
        _, log, length = lines[n].split(" ")
        for run in [f"run {log} {other}" for other in range(10)] + [f"run {other} {length}" for other in LOGS]:
            found["\n".join(lines[:n] + [run] + lines[n + 1:]).encode()] = None
    return [it for it in found if it != text]


def entries(session, entry):
    """Other entries of a page: with the first two numbers or the last two replaced, and of the other kinds."""
    def up_to(size):
        return [str(n) for n in range(size + 1)]
    guest, source, pager = (up_to(len(log)) for log in (session.guest, session.source, session.pager))
    seen = entry[-2:] if entry[0] in ("source", "balloon") else ["-", "-"]
    sent = entry[1:-2] if entry[0] == "source" else ["0", entry[1] if entry[0] == "balloon" else "0"]
    looks = [list(pair) for pair in itertools.product(guest, guest)] + [["-", "-"]]
    yield ["none"]
    for use in guest:
        yield ["fresh", use]
    for pair in itertools.product(source, pager):
        yield ["source", *pair, *seen]
    for look in looks:
        yield ["source", *sent, *look]
        yield ["balloon", sent[1], *look]
    for place in pager:
        yield ["balloon", place, *seen]


# Of a page that comes back as zeros, and that was written after its release: with no such write it would be right.
OF_A_WRITE = b"\n".join((
    b"postcopy-certificate 1", b"pages 2", b"page 0 none", b"page 1 balloon 3 6 5", b"runs 7", b"run guest 3", b"run source 2", b"run link 1", b"run pager 2",
    b"run guest 2", b"run pager 2", b"run guest 2", b"end", b""))

CERTIFICATES = (
    ("tests/cases/audit-zeros-over-a-write/session", OF_A_WRITE),
    ("examples/handover/session", "examples/handover/certificate"),
    ("examples/released-page/session", "examples/released-page/certificate"),
    ("examples/initial-memory/session", "examples/initial-memory/certificate"),
    ("tests/cases/placed-by-a-repeat/session", "tests/cases/placed-by-a-repeat/certificate"),
    ("tests/cases/look-below-the-placement/session", "tests/cases/look-below-the-placement/certificate"),
    ("examples/released-at-the-target/session", "examples/released-at-the-target/certificate"),
    ("tests/cases/first-version-of-a-certificate/session", "tests/cases/first-version-of-a-certificate/certificate"),
    ("examples/pushed-by-the-lane/session", "examples/pushed-by-the-lane/certificate"),
    ("tests/cases/placed-by-a-repeat-of-the-lane/session", "tests/cases/placed-by-a-repeat-of-the-lane/certificate"),
    ("tests/cases/certify-asked-for-and-pushed/session", "tests/cases/certify-asked-for-and-pushed/stdout"),
)


def text_of(certificate):
    """A certificate, which stands here or in a file."""
    if isinstance(certificate, bytes):
        return certificate
    with open(case_file(certificate), "rb") as text:
        return text.read()


def test_two_wrong_reads(program):
    """Of two pages that are misread, and are judged by different threads, the lower one is named."""
    with open(case_file("tests/cases/audit-least-line-first/session"), "rb") as text:
        session = text.read()
    pages = b"".join(b"page %d none\n" % page for page in range(4096))
    certificate = b"postcopy-certificate 1\npages 4096\n%sruns 1\nrun guest 2\nend\n" % pages
    ran = subprocess.run([program], input=session + certificate, capture_output=True)
    assert (ran.stdout, ran.returncode) == (b"page line 6\n", 1)


@pytest.mark.slow
@pytest.mark.cases(6600)
def test_changed_certificates(program, pytestconfig):
    found, others = set(), [text_of(certificate) for _, certificate in CERTIFICATES]
    with ThreadPoolExecutor(os.cpu_count()) as pool:
        for path, certificate in CERTIFICATES:
            with open(case_file(path), "rb") as text:
                recorded = text.read()
            session, right = Session(recorded.decode()), text_of(certificate)
            changed = changes(session, right)
            if not pytestconfig.getoption("--all"):
                changed = random.Random(right).sample(changed, len(changed) // 4)
            texts = list(dict.fromkeys(others + changed))

            def answer(text):
                # The two texts in one input: the session ends at its own line `end`.
                return subprocess.run([program], input=recorded + text, capture_output=True).stdout.decode().rstrip("\n")

            for text, answered in zip(texts, pool.map(answer, texts)):
                wanted = verdict(session, text)
                found.add(wanted.split(" line ")[0])
                same(f"{path}, of {text!r}", answered, wanted)
    assert found == {"certificate-text", "pages", "runs", "page", "yes"}

"""Tests of the verdicts that the page shows: on sessions of each kind, on certificates, and on what a clean session lacks."""
import re

from case_table import CASES
from cases import same
from web_checks import example, is_shown, read, write

# What a session that is clean lacks, by the case that has it, and what the page says of it; none where all that it needs is told.
LACKS = {
    "complete-four-empty-logs": "No record says that the guest was halted",
    "explain-incomplete-halt": "No record says that the guest was halted",
    "explain-incomplete-resume": "No record says that the guest went on at the target",
    "complete-returned": "The guest returned to the source",
    "explain-incomplete-page-at-the-link": "No record says that page 0 came",
    "complete-placement-left-out": "No record says that page 2 came",
    "explain-incomplete-all": None,
    "explain-incomplete-done": None,
    "explain-incomplete-placement": None,
    "complete-whole-migration": None,
}
# A whole session of the second version whose guest only releases its page at the target.
RELEASED = (b"postcopy-session 2\npages 1\ncells 1\ninit 0\nguest 3\nhalt\nresume 1\nz 0 0\nsource 4\nhalted 0\nstate\nask 1\ndone\n"
            b"link 2\ndown 1\nup 2\nlane 0\npager 3\ngot 0\nready\nall\nend\n")
FOUND, UNUSED = "the guest found each page in place", "tells of no use of any page after the resume"


def tests_of_verdicts(browser, room):
    is_shown(browser, "a safe session", example("handover"), "good", "Safe.")
    is_shown(browser, "a session with its certificate", example("handover", "session", "certificate"), "good", "Safe.", "The certificate is right")
    is_shown(browser, "a faulty session", example("stale-page"), "bad", "Not safe.", "line 18", "other contents than it has at the halt")
    is_shown(browser, "a knot", example("circle-of-receipts"), "bad", "cannot all have happened", "line 10")
    is_shown(browser, "a wrong shape", example("wrong-shape"), "bad", "not the right shape", "line 22")
    is_shown(browser, "no session", example("leading-zero"), "odd", "not a session", "Line 7")
    is_shown(browser, "a wrong certificate", example("circle-of-receipts", "certificate", "session"), "bad", "cannot all have happened")
    is_shown(browser, "a session of QEMU", example("qemu-lost-write"), "bad", "Not safe.", "line 2566")
    handover = read(example("handover", "certificate")[0])
    for what, text, sentence in (
        ("a certificate that is cut", handover[:-4], "is not a certificate"),
        ("a certificate with another entry", handover.replace(b"page 1", b"page 0"), "certificate"),
        ("a certificate of a smaller machine", b"postcopy-certificate 1\npages 1\npage 0 none\nruns 0\nend\n", "another size"),
        ("a certificate with no runs", re.sub(rb"(?s)runs .*", b"runs 0\nend\n", handover), "run"),
    ):
        is_shown(browser, what, [*example("handover"), write(f"{room}/certificate", text)], "good", "Safe.", sentence)
    is_shown(browser, "a file that is none", [write(f"{room}/picture.png", bytes(range(256)) * 40)], "odd", "not a session")
    is_shown(browser, "an empty file", [write(f"{room}/empty", b"")], "odd", "not a session", "Line 1")
    is_shown(browser, "a certificate alone", example("handover", "certificate"), "odd", "There is no session")
    is_shown(browser, "a session with runs", example("replayed", "session", "runs"), "bad", "Not safe.", "In the order of runs ")


def tests_of_lacks(browser, room):
    """A session that does not tell that its guest moved is not green, nor said to show how the guest found its pages."""
    for name, lack in LACKS.items():
        files = [f"{CASES}/{name}/session"]
        if lack:
            is_shown(browser, name, files, "odd", "Not a whole migration.", "Nothing went wrong in what was recorded", lack)
        else:
            is_shown(browser, name, files, "good", "Safe.", FOUND)
        same(f"whether each page is said to be found in place, {name}", FOUND in browser.text("#verdict"), not lack)
    right = "The certificate is right: it shows that nothing goes wrong in what was recorded."
    is_shown(browser, "a certificate of a session that lacks something", example("released-page", "session", "certificate"), "odd", "page 0 came", right)
    text = re.sub(rb"(?m)^(?:r 0 0 0 5|w 0 1 0 9|r 0 1 0 9)\n", b"", read(example("handover")[0])).replace(b"guest 9", b"guest 6")
    is_shown(browser, "a session with no use after the resume", [write(f"{room}/unused", text)], "good", "Safe.", UNUSED)
    same("whether each page is said to be found in place, where none is used", FOUND in browser.text("#verdict"), False)
    is_shown(browser, "a session whose guest only releases a page after the resume", [write(f"{room}/released", RELEASED)], "good", "Safe.", UNUSED)
    same("whether each page is said to be found in place, where one is released", FOUND in browser.text("#verdict"), False)

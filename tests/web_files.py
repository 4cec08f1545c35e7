"""Tests of the files that are handed to the page: which of them is judged, and what is told of the others."""
import gzip
import os
import re
import subprocess

from cases import count, same
from web_checks import example, is_shown, read, rows_drawn, rows_shown, says, squeezed, words_of, write

from postcopy.recorder import Log

IS_LISTED = "return document.getElementById('sessions').hidden ? null : [...document.querySelectorAll('#list tr')].map((it) => [it.className, [...it.cells].map((cell) => cell.textContent).join(': ')])"
WATCH = "addEventListener('unhandledrejection', () => { document.body.dataset.rejected = 'yes' })"


def listed(browser):
    """The sessions that are listed: the kind of each, and what is said of it; None where there is no list."""
    return browser.run(IS_LISTED)


def choose_listed(browser, place):
    browser.run("delete document.body.dataset.done; document.querySelectorAll('#list button')[arguments[0]].click()", place)
    browser.settle()


def tests_of_reading(browser, room):
    """What cannot be read is told by its name, and nothing stays of the session before."""
    safe = write(f"{room}/safe", read(example("handover")[0]))
    gone, lost = (write(f"{room}/{it}", read(safe)) for it in ("gone", "lost"))
    is_shown(browser, "a session, before one that is gone", [safe], "good", "Safe.", "safe")
    browser.hold(gone)
    browser.run("document.getElementById('held').files[0].size")
    os.remove(gone)
    same("the verdict when a file is dropped", browser.drop_held(), "")
    says(browser, "a file that is gone", "odd", "There is no session.", "gone could not be read: ")
    same("what is shown of the session before", browser.run("return document.getElementById('story').hidden"), True)
    is_shown(browser, "a session, before it and one that is gone", [safe], "good", "Safe.")
    browser.hold(safe, lost)
    os.remove(lost)
    browser.drop_held()
    says(browser, "a session, with a file that is gone", "good", "Safe.", "lost could not be read: ")
    left = write(f"{room}/left", read(safe))
    browser.choose(left)
    os.remove(left)
    browser.run("delete document.body.dataset.done; const it = document.getElementById('page'); it.value = 1; it.onchange()")
    browser.settle()
    same("a page of a session that is gone since it was judged", browser.text("#topic"), "page 1")
    browser.fill("#line", 1)
    browser.wait_for(lambda: "left could not be read: " in browser.text("#extent"), "nothing is said of a text that is gone")


def tests_of_choosing_again(browser, room):
    """A file that is chosen again, or dropped, is read again."""
    again = f"{room}/again"
    for name, kind in (("handover", "good"), ("stale-page", "bad"), ("handover", "good")):
        is_shown(browser, f"a file that has become {name}", [write(again, read(example(name)[0]))], kind, "again")
    browser.drop(write(again, read(example("stale-page")[0])))
    says(browser, "a file that was recorded anew, dropped", "bad", "again")


def tests_of_folder(browser, room):
    """The files of a folder are taken, and of the folders in it; those of a recorder are told of as one."""
    folder, recording = f"{room}/a folder", f"{room}/a 'recording'"
    os.makedirs(f"{folder}/below/empty")
    write(f"{folder}/session", read(example("handover")[0]))
    write(f"{folder}/below/session", read(example("stale-page")[0]))
    Log(recording, "guest").close()
    write(f"{recording}/pager.7.0", b"")
    browser.drop_folder(recording)
    said = "a 'recording' has a recorder's files, which are no sessions: postcopy session 'a '\\''recording'\\''' -o session makes the session of them."
    same("what is said of a recorder's folder", browser.run("return [...document.getElementById('verdict').children].map((it) => it.textContent)"), ["There is no session.", said])
    browser.drop(*example("handover"), *(f"{recording}/{it}" for it in os.listdir(recording)))
    says(browser, "a session, with a recorder's files", "good", "Safe.", "A recorder's files are no sessions: postcopy session FOLDER -o session makes the session of their folder.")
    same("the list of a session with a recorder's files", listed(browser), None)
    os.rename(recording, f"{folder}/recording")
    browser.drop_folder(folder)
    says(browser, "a folder", "bad", "Not safe.", "a folder/below/session", "a folder/below/empty is a folder without files.", "a folder/recording has a recorder's files")
    same("the sessions of a folder", sorted(said.partition(":")[0] for _, said in listed(browser)), ["a folder/below/session", "a folder/session"])


def tests_of_refused(browser, room, program):
    """What is said of a text that is no session is what the program says."""
    for name, text in (("a.gz", gzip.compress(b"")), ("empty", b""), ("words", b"# Words\n"), ("zero", read(example("leading-zero")[0]))):
        file = write(f"{room}/{name}", text)
        said = subprocess.run([program, "audit", file], stdin=subprocess.DEVNULL, capture_output=True, text=True).stderr.splitlines()[0]
        _, line, column, why = said.split(":", 3)
        is_shown(browser, name, [file], "odd", "This is not a session.", f"Line {line}, column {column}:{why}.")


# Names, and how they are shown: as they are, or with characters that are not seen or turn others as a string of JSON.
QUOTED = {'plain é\\"': 'plain é\\"', '"quoted"': r'"\"quoted\""', "\x1b[31m\x9f": r'"\u001b[31m\u009f"', "safe\u202e\u2066": r'"safe\u202e\u2066"',
          "\u2028\u2029é": r'"\u2028\u2029é"', "\\\u00ad\U000e0041": r'"\\\u00ad\udb40\udc41"'}


def tests_of_quoted(browser, room):
    """How names are shown: in the verdict, in the title, and in the list."""
    files = [write(f"{room}/{it}", read(example("handover")[0])) for it in QUOTED]
    for file, shown in zip(files, QUOTED.values()):
        browser.drop(file)
        same(f"how {shown} is shown", (browser.text("#verdict p"), browser.run("return document.title")), (shown, f"postcopy: {shown}"))
    browser.drop(*files)
    same("how names are listed", [said for _, said in listed(browser)], [f"{it}: Safe." for it in QUOTED.values()])


def tests_of_sessions(browser, room, program):
    """Of several sessions each is judged, the worst is shown, and each other can be."""
    safe, faulty = write(f"{room}/first", read(example("handover")[0])), write(f"{room}/second", read(example("stale-page")[0]))
    knot, none = write(f"{room}/third", read(example("circle-of-receipts")[0])), write(f"{room}/fourth", read(example("leading-zero")[0]))
    browser.choose(safe)
    same("the list of one session", listed(browser), None)
    browser.drop(safe, faulty)
    says(browser, "two sessions", "bad", "Not safe.", "second", "line 18")
    stale = "second: Not safe. A page is sent with other contents than it has at the halt: line 18."
    same("the list of two sessions", listed(browser), [["good", "first: Safe."], ["bad", stale]])
    choose_listed(browser, 0)
    says(browser, "the first of two sessions", "good", "Safe.", "first")
    same("which is marked in the list", browser.text("#list [aria-current=true]"), "first")
    same("the words on the first of two", squeezed(browser.text("#words")), squeezed(words_of(program, "explain", safe)))
    same("the rows of the picture of the first of two", rows_shown(browser), rows_drawn(program, safe))
    choose_listed(browser, 1)
    same("the words on the second of two", squeezed(browser.text("#words")), squeezed(words_of(program, "explain", faulty)))
    browser.drop(none, safe, knot)
    says(browser, "three sessions", "bad", "cannot all have happened", "third")
    same("the kinds of three sessions", [it for it, _ in listed(browser)], ["odd", "good", "bad"])
    choose_listed(browser, 0)
    says(browser, "one of them that is none", "odd", "This is not a session.", "fourth", "Line 7")


def tests_of_companions(browser, room, program):
    """What goes with a session is taken as what it is, wherever it stands among the files."""
    safe, faulty = example("handover")[0], example("stale-page")[0]
    first, last = write(f"{room}/0-report", words_of(program, "audit", safe)), write(f"{room}/z-report", words_of(program, "audit", faulty))
    for files in ([first, safe], [safe, first]):
        browser.drop(*files)
        says(browser, "a session with its report", "good", "Safe.", "session", "The report 0-report says the same: clean.")
        same("the list of a session with its report", listed(browser), None)
    browser.drop(safe, last)
    says(browser, "a session with the report on another", "good", "Safe.", "The report z-report is not on this session: it says faulty line 18 stale.")
    browser.drop(first)
    says(browser, "a report alone", "odd", "There is no session.", "0-report is a report")
    slip = write(f"{room}/a-slip", read(example("handover", "certificate")[0]).replace(b"certificate", b"certifcate", 1))
    browser.drop(slip, safe)
    says(browser, "a session with a certificate that has a slip", "good", "Safe.", "session")
    (_, said), other = listed(browser)
    count(said.startswith("a-slip: This is not a session.") and '"postcopy-certifcate 1"' in said, f"a slip is told: {said}")
    same("the session beside a slip", other, ["good", "session: Safe."])
    right, wrong = example("handover", "certificate")[0], write(f"{room}/wrong", b"postcopy-certificate 1\npages 1\npage 0 none\nruns 0\nend\n")
    browser.drop(wrong, safe, right)
    says(browser, "a session with two certificates", "good", "Safe.", "wrong, tried with this session: The certificate is of a machine of another size",
         "certificate, tried with this session: The certificate is right")
    browser.drop(right, *example("leading-zero"))
    says(browser, "no session, with a certificate", "odd", "This is not a session.", "The certificate is not judged")


def tests_of_memory(browser, room):
    """What docs/EMBEDDING.md says of the memory that judging takes, for each byte of a session, and for each page that one names."""
    text = read(example("handover")[0]).decode()
    long = text.replace("guest 9", "guest 1000009").replace("see 7\n", "see 7\n" * 1_000_001)
    wide = f"postcopy-session 3\npages {1 << 20}\ncells 1\ninit 0\n" + "".join(f"{it} 0\n" for it in ("guest", "source", "link", "lane", "pager")) + "end\n"
    for what, given, most in (("a long session", long, 7.4 * len(long)), ("a session of many pages", wide, 76 * (1 << 20))):
        browser.choose(write(f"{room}/{what}", given))
        taken = float(re.search(r"with ([\d.]+) MiB of memory", browser.text("#numbers"))[1]) * (1 << 20)
        count(most / 2 < taken < most, f"the memory for {what}: {taken}, of {most}")


def tests_of_address(browser, url):
    """The address names an example while that is shown, and the verdict names what it is on."""
    browser.open("about:blank")
    browser.open(f"{url}#stale-page")
    browser.settle()
    says(browser, "an example", "bad", "Not safe.", "the example stale-page")
    is_shown(browser, "a file after an example", example("handover"), "good", "Safe.", "session")
    same("the address then", browser.run("return location.href"), url)
    browser.open(browser.run("return location.href"))
    says(browser, "nothing, when the page is loaded anew", "")
    browser.run("location.hash = '#stale-page'")
    browser.settle()
    browser.drop(*example("handover"))
    browser.run("delete document.body.dataset.done; document.querySelector('#examples a[href=\"#stale-page\"]').click()")
    browser.settle()
    says(browser, "an example that is chosen again", "bad", "Not safe.", "the example stale-page")


def run_all(browser, room, program, url):
    browser.run(WATCH)
    tests_of_reading(browser, room)
    tests_of_choosing_again(browser, room)
    tests_of_folder(browser, room)
    tests_of_refused(browser, room, program)
    tests_of_quoted(browser, room)
    tests_of_sessions(browser, room, program)
    tests_of_companions(browser, room, program)
    same("whether a promise was left rejected", browser.run("return document.body.dataset.rejected ?? 'no'"), "no")
    tests_of_address(browser, url)

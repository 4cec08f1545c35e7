"""Tests of postcopy-report, and of what it makes: the page with sessions in it."""
import base64
import gzip
import json
import os
import re
import stat
import subprocess

from cases import count, same
from web_checks import TOP, example, read, says, words_of, write
from web_viewing import line_in_view

SCRIPT = f"{TOP}/share/bin/postcopy-report"
PAGE = f"{TOP}/crates/postcopy_c/out/postcopy.html"
KEPT = re.compile(r'<script type="application/json" id="kept">(.*?)</script>', re.S)

# Names and contents that would end an element, begin a script or another text, or reach into a terminal.
HOSTILE = ("</script><script>document.body.dataset.foreign = 1</script>", "<img src=x onerror=\"document.body.dataset.foreign = 1\">", "<svg onload=document.body.dataset.foreign=1>",
           "<!--<script>", "a\nb: clean", "'\"&lt;\\u003c", "\x1b[31m", "\u2028", "${name}$&$1", "__proto__", os.fsdecode(b"not-utf-8-\xff"))
SHOWN = {"a\nb: clean": r'"a\u000ab: clean"', "\x1b[31m": r'"\u001b[31m"', "\u2028": r'"\u2028"'}


def made(room, *words, program="false"):
    """What the script says of these words, and the report: its entries, and the page without them."""
    report = f"{room}/report.html"
    if os.path.exists(report):
        os.remove(report)
    ran = subprocess.run([SCRIPT, "--page", PAGE, "--program", program, "-o", report, *words], cwd=room, stdin=subprocess.DEVNULL, capture_output=True)
    text = read(report, "r") if os.path.exists(report) else None
    return ran.returncode, ran.stderr.decode(), [] if text is None else entries_of(text), text


def entries_of(text):
    """What a report has: of each file the name, the bytes, what is said of it besides, and what the audit says of one that is left out."""
    entries = json.loads(KEPT.search(text)[1])
    return [(it["name"], gzip.decompress(base64.b64decode(it["packed"])) if "packed" in it else None, it.get("word") or it.get("left"), it.get("says")) for it in entries]


def put(room, name, content):
    """Writes a file of such a name, in the folders that its slashes ask for."""
    os.makedirs(os.path.dirname(f"{room}/{name}"), exist_ok=True)
    write(f"{room}/{name}", content)
    return name


def tests_of_script(room):
    """What the script puts into the page, and when it makes none."""
    page, session = read(PAGE, "r"), example("qemu-lost-write")[0]
    status, said, entries, text = made(room, session)
    same("a report of a session", (status, said, entries), (0, "", [(session, read(session), None, None)]))
    same("the page of a report", KEPT.sub("", text, count=1), KEPT.sub("", page, count=1))
    same("the same report again", made(room, session)[3], text)
    for at, name in enumerate(HOSTILE):
        content = f"{name}\n".encode(errors="surrogateescape") * 3
        status, said, entries, text = made(room, "--", put(room, name, content))
        same(f"a report of a hostile name and contents {at}", (status, said, entries), (0, "", [(name, content, None, None)]))
        same(f"what it could end {at}", ("<" in KEPT.search(text)[1], text.count("<script"), text.count("</script")), (False, page.count("<script"), page.count("</script")))


# So many records more make a session of more than a mebibyte.
MIB, MORE = 1 << 20, 110_000


def large_of(name, more):
    """The text of an example whose guest says once more what it said last, so many times."""
    front, back = read(example(name)[0], "r").split("\nsource ", 1)
    counted, last = re.search(r"^guest (\d+)\n", front, re.M), re.findall(r"^(?:[rw] .*|see .*)$", front, re.M)[-1]
    return front.replace(counted[0], f"guest {int(counted[1]) + more}\n", 1) + f"\n{last}" * more + f"\nsource {back}"


def tests_of_windows(room, program):
    """Of a large session, windows of its faulty pages are put in, with a word, and what the audit says of it."""
    large = write(f"{room}/large", large_of("qemu-lost-write", 40_000))
    status, said, entries, _ = made(room, "--most", "1", "--windows", "2", "large", example("handover")[0], program=program)
    same("the status of a report with windows", status, 1)
    same("what is said of it", said, f"postcopy-report: large has {os.path.getsize(large) / MIB:.1f} MiB, so the report does not have all of it\n")
    first, *pages = words_of(program, "audit", "--all", large).splitlines()
    faults = sorted((int(line), page, reason) for page, line, reason in re.findall(r"^page (\d+) line (\d+) (\S+)$", "\n".join(pages), re.M))
    same("the entries of it", [(it[0], it[3]) for it in entries], [(f"large, page {faults[0][1]}", None), (f"large, page {faults[1][1]}", None), ("large", first), (example("handover")[0], None)])
    for (name, data, word, _), (line, page, reason) in zip(entries, faults[:2]):
        same(f"the window {name}", data, words_of(program, "window", large, page, "1").encode())
        here = re.fullmatch(r"faulty line (\d+) (\S+)\n(?s:.*)", words_of(program, "audit", write(f"{room}/seen", data)))
        count(f"page {page} of large alone, as page 0" in word and f"There the fault is line {line} {reason}, which is line {here[1]} here." in word and here[2] == reason, f"what is said of the window {name}: {word}")
    count(f"is not in this report but for windows. The audit says of it: {first}. {len(faults) - 2} more of its pages have a fault." in entries[2][2], f"what is said of it: {entries[2]}")
    # (the verdict is that of the small session; of the last the window is large too)
    for name, wanted, pages in (("handover", "clean", []), ("circle-of-receipts", "knot line 10", []), ("wrong-shape", f"shape line {MORE + 22} second-send", []), ("early-access", "faulty line 13 early", [1])):
        write(f"{room}/{name}", large_of(name, MORE))
        status, _, entries, _ = made(room, "--most", "1", name, program=program)
        same(f"what the report has of {name}", (status, [(it[0], it[1], it[3]) for it in entries]), (1, [*((f"{name}, page {it}", None, wanted) for it in pages), (name, None, wanted)]))
    beside = write(f"{room}/beside", read(example("handover", "certificate")[0]) + b" " * MIB)
    same("what is said of a certificate that is large", made(room, "--most", "1", "beside", program=program)[2], [("beside", None, f"beside has {os.path.getsize(beside) / MIB:.1f} MiB, and is not in this report.", None)])


def tests_of_refusals(room):
    """When there is no report: nothing is written then, and what was there stays."""
    session = example("handover")[0]
    for what, words, wanted, part in (
        ("no session", ["-o", "out.html"], 2, "required"),
        ("no report", [session], 2, "required"),
        ("a size that is none", ["--most", "0", session, "-o", "out.html"], 2, "1 or more"),
        ("a file that is not there", [session, "no\nthing", "-o", "out.html"], 3, '"no\\u000athing": No such file'),
        ("a folder", [room, "-o", "out.html"], 3, "Is a directory: 'postcopy session' makes"),
        ("a report in place of a folder", [session, "-o", room], 3, "Is a directory"),
        ("a page that is none", ["--page", session, session, "-o", "out.html"], 3, "is not a page of postcopy for a report"),
        ("a place that is not there", [session, "-o", "no/out.html"], 3, "No such file"),
    ):
        write(f"{room}/out.html", "as it was")
        ran = subprocess.run([SCRIPT, "--page", PAGE, *words], cwd=room, stdin=subprocess.DEVNULL, capture_output=True)
        same(f"{what}: {ran.stderr.decode()}", (ran.returncode, part in ran.stderr.decode(), ran.stdout), (wanted, True, b""))
        same(f"the report that was there, with {what}", (read(f"{room}/out.html"), os.listdir(room)), (b"as it was", ["out.html"]))
    os.remove(f"{room}/out.html")
    for name, was in (("out.html", read(session)), ("out.html", read(example("handover", "certificate")[0])), ("out.html", b"faulty line 32 altered\n"),
                      ("out.html", b"clean\n"), ("out.html", b"incomplete page 7\n"), ("guest.1.0", b"postcopy-records 1\n"), ("guest.1.0", b""), ("recording-name", b"told\n")):
        write(f"{room}/{name}", was)
        ran = subprocess.run([SCRIPT, "--page", PAGE, session, "-o", name], cwd=room, stdin=subprocess.DEVNULL, capture_output=True)
        same(f"{was[:20]} in the report's place", (ran.returncode, ran.stdout, ran.stderr.startswith(f"postcopy-report: {name} is a session or another text of postcopy".encode())), (3, b"", True))
        same("what was there", (read(f"{room}/{name}"), os.listdir(room)), (was, [name]))
        os.remove(f"{room}/{name}")
    write(f"{room}/told", b"as it was\n")
    for name in ("told", "./told"):
        ran = subprocess.run([SCRIPT, "--page", PAGE, session, "told", "-o", name], cwd=room, stdin=subprocess.DEVNULL, capture_output=True)
        same(f"what is to be read, by {name}", (ran.returncode, ran.stderr, read(f"{room}/told")), (3, f"postcopy-report: {name} is to be read: name another REPORT behind -o\n".encode(), b"as it was\n"))
    os.remove(f"{room}/told")


def tests_of_outputs(room):
    """Where a report goes: into the file that a link leads to, with the permissions that it has, and through a pipe, which stays one."""
    session = example("handover")[0]
    made(room, session)
    wanted = read(f"{room}/report.html")
    def put_out(name):
        ran = subprocess.Popen([SCRIPT, "--page", PAGE, session, "-o", name], cwd=room, stdin=subprocess.DEVNULL, stdout=subprocess.PIPE, stderr=subprocess.STDOUT)
        told = subprocess.run(["timeout", "60", "cat", "pipe"], cwd=room, capture_output=True).stdout if name == "pipe" else b""
        return told + ran.communicate()[0], ran.returncode
    write(f"{room}/target", "as it was")
    os.chmod(f"{room}/target", 0o640)
    os.symlink("target", f"{room}/link")
    same("a report by a link", (put_out("link"), read(f"{room}/target") == wanted, os.readlink(f"{room}/link")), ((b"", 0), True, "target"))
    same("the permissions of a report that was there", stat.S_IMODE(os.stat(f"{room}/target").st_mode), 0o640)
    if os.geteuid() == 0:
        os.mkdir(f"{room}/all")
        os.chmod(f"{room}/all", 0o1777)
        write(f"{room}/target", "as it was")
        os.symlink("../target", f"{room}/all/link")
        os.chown(f"{room}/all/link", 65534, 65534, follow_symlinks=False)
        same("a report by another user's link in such a folder as /tmp", (put_out("all/link"), read(f"{room}/target")), ((b"postcopy-report: all/link: Permission denied\n", 3), b"as it was"))
        os.remove(f"{room}/all/link")
        os.rmdir(f"{room}/all")
        write(f"{room}/target", wanted)
    os.mkfifo(f"{room}/pipe")
    told, status = put_out("pipe")
    same("a report through a pipe", (told == wanted, status, stat.S_ISFIFO(os.stat(f"{room}/pipe").st_mode)), (True, 0, True))
    told, status = put_out("/dev/stdout")
    same("a report to standard output", (told == wanted, status), (True, 0))
    same("the files beside the reports", sorted(os.listdir(room)), ["link", "pipe", "report.html", "target"])
    with open(f"{room}/gone", "w+") as gone:
        os.remove(gone.name)
        ran = subprocess.run([SCRIPT, "--page", PAGE, session, "-o", f"/dev/fd/{gone.fileno()}"], cwd=room, pass_fds=[gone.fileno()], capture_output=True)
    same("a report by a link that the system alone can follow", (ran.returncode, b"No such file" in ran.stderr, len(os.listdir(room))), (3, True, 4))


def tests_of_words():
    """The options that the script tells of itself are on its man page, and no others."""
    told = subprocess.run([SCRIPT, "--help"], capture_output=True, text=True).stdout
    page = read(f"{TOP}/share/man/man1/postcopy-report.1", "r").replace("\\-", "-").partition(".SH OPTIONS")[2].partition(".SH EXIT")[0]
    options = sorted(set(re.findall(r"(?<!\w)--?[a-z]+", told.partition("\n\n")[2].partition("\n\n")[0])))
    same("the options of postcopy-report on its man page", sorted(re.findall(r'^\.BI "(\S+) ', page, re.M)), options)
    same("the statuses of postcopy-report on its man page", re.findall(r"^\.B ([0-3])$", read(f"{TOP}/share/man/man1/postcopy-report.1", "r"), re.M), ["0", "1", "2", "3"])


# What it makes, in a browser.


def open_report(browser, room, *words, program="false"):
    opened(browser, write(f"{room}/opened.html", made(room, *words, program=program)[3]))


def opened(browser, name):
    browser.open("about:blank")
    browser.open(f"file://{name}")
    browser.settle()


def tests_of_reports(browser, room, program):
    """A report opens by itself, shows what went wrong, and runs nothing that is in its sessions."""
    browser.resize(1366, 768)
    open_report(browser, room, *example("qemu-lost-write"))
    says(browser, "a report", "bad", "Not safe.", "line 2566", "examples/qemu-lost-write/session")
    same("whether a report has to be scrolled sideways", browser.run("return document.documentElement.scrollWidth <= innerWidth"), True)
    same("whether the wrong record and the lost write are in view", [line_in_view(browser, it) for it in (2566, 2472)], [True, True])
    told = "return [...document.querySelectorAll('#words [data-line]')].filter((it) => { const { top, bottom, right } = it.getBoundingClientRect(); return top >= 0 && bottom <= innerHeight && right <= innerWidth }).map((it) => it.dataset.line)"
    same("the records that are told in view", [it in browser.run(told) for it in ("3004", "2472", "2566")], [True, True, True])
    names = HOSTILE[:-1]
    for at, name in enumerate(names):
        put(room, name, read(example("early-access")[0]) if at % 2 else f"postcopy-session 1\n{name}\n".encode())
    open_report(browser, room, "--", *names)
    same("the sessions of a hostile report", browser.run("return [...document.querySelectorAll('#list tr')].map((it) => it.cells[0].textContent)"), [SHOWN.get(it, it) for it in names])
    same("whether a foreign script ran", browser.run("return [document.body.dataset.foreign ?? 'no', document.images.length, document.querySelectorAll('body svg').length]"), ["no", 0, 0])
    for place in range(len(names)):
        browser.run("delete document.body.dataset.done; document.querySelectorAll('#list button')[arguments[0]].click()", place)
        browser.settle()
    same("whether a foreign script ran, each being shown", browser.run("return [document.body.dataset.foreign ?? 'no', document.images.length]"), ["no", 0])
    write(f"{room}/large", large_of("qemu-lost-write", 40_000))
    open_report(browser, room, "--most", "1", "--windows", "2", "large", program=program)
    says(browser, "a window in a report", "bad", "Not safe.", "large, page 7", "This is a window: page 7 of large alone", "5 more of its pages have a fault")
    write(f"{room}/broken.html", KEPT.sub('<script type="application/json" id="kept">[{"name": "x", "packed": "AAAA"}]</script>', read(PAGE, "r"), count=1))
    browser.open(f"file://{room}/broken.html")
    browser.wait_for(lambda: "This report is not whole." in browser.text("#verdict"), "a report that is cut is not told")


def tests_of_saving(browser, room, url):
    """The page saves itself with what is open in it, as often as one saves a report out of a report; what is not so any more is not saved."""
    saved, report = f"{room}/saved", f"{room}/saved.html"
    os.mkdir(saved)
    browser.open("about:blank")
    browser.open(url)
    files = [write(f"{room}/<!--<script>", read(example("early-access")[0])), *example("handover", "session", "certificate")]
    browser.choose(*files)
    same("what is said of a report", browser.save_report(saved, report), "The report is saved.")
    same("what a saved report has", entries_of(read(report, "r")), [(os.path.basename(it), read(it), None, None) for it in files])
    opened(browser, report)
    says(browser, "a saved report", "bad", "Not safe.", "line 13", "certificate, tried with this session")
    for name, kind in (("handover", "good"), ("stale-page", "bad"), ("handover", "good")):
        browser.choose(write(f"{room}/{name}", read(example(name)[0])))
        browser.save_report(saved, report)
        opened(browser, report)
        says(browser, f"a report out of a report, with {name}", kind, name)
        same("its title", (browser.run("return document.title"), re.search("<title>(.*)</title>", read(report, "r"))[1]), (f"postcopy: {name}",) * 2)
        same("what it has", entries_of(read(report, "r")), [(name, read(example(name)[0]), None, None)])
    text = read(report)
    browser.choose(write(f"{room}/anew", read(example("handover")[0])))
    write(f"{room}/anew", read(example("stale-page")[0]))
    said = browser.save_report(saved, report)
    count(said.startswith("There is no report: "), f"a report of a file that became another one: {said}")
    same("what was saved of it", (os.listdir(saved), read(report)), ([], text))


def tests_of_large_reports(browser, room, program):
    """What is left out of a report counts: of two sessions of which the large one is red, the report is red, and so is what is saved out of it."""
    saved, report = f"{room}/saved", f"{room}/saved.html"
    write(f"{room}/large", large_of("wrong-shape", MORE))
    write(f"{room}/small", read(example("handover")[0]))
    open_report(browser, room, "--most", "1", "small", "large", program=program)
    for what in ("a report", "a report out of it"):
        says(browser, f"{what} with a large session", "bad", "This session has not the right shape.", "large has 1.0 MiB, and is not in this report. The audit says of it: shape line 110022 second-send.")
        listed = "return [...document.querySelectorAll('#list tr')].map((it) => [it.className, ...[...it.cells].map((cell) => cell.textContent)])"
        same(f"the list of {what}", [it[:2] for it in browser.run(listed)], [["good", "small"], ["bad", "large"]])
        browser.save_report(saved, report)
        same(f"what is saved of {what}", [(it[0], it[3]) for it in entries_of(read(report, "r"))], [("small", None), ("large", "shape line 110022 second-send")])
        opened(browser, report)


def tests_of_leaving_out(browser, room, url):
    """The page leaves out what is too large, and has its verdict; it has no report where one would say something else, or has no place."""
    saved, report = f"{room}/saved", f"{room}/saved.html"
    browser.open(url)
    browser.choose(write(f"{room}/large", b"postcopy-session 1\n" + (b" " * 99 + b"\n") * 90_000), *example("handover", "session", "certificate"))
    said = browser.save_report(saved, report)
    count(said.startswith("1 of these files has more than 8.0 MiB"), f"what is said of a large file: {said}")
    same("what is saved with a large file", [(it[0], it[3]) for it in entries_of(read(report, "r"))], [("large", "session-text line 2"), ("session", None), ("certificate", None)])
    opened(browser, report)
    says(browser, "a report with a large file", "odd", "This is not a session.", "large has 8.6 MiB, and is not in this report. The audit says of it: session-text line 2.")
    browser.choose(*example("handover"))
    browser.run("handed[0].file = new File([arguments[0]], 'session')", read(example("stale-page")[0], "r"))
    same("a report that would say something else", browser.save_report(saved, report), "There is no report: it would say faulty line 18 stale of session, and here that is clean. Open the files anew.")
    browser.run("PAGE.querySelector('#kept').id = 'kapt'")
    same("a report without a place", browser.save_report(saved, report), "There is no report: the page has no place for sessions.")
    same("what was saved of them", os.listdir(saved), [])
    same("what a saved report complains of", browser.complaints(), [])

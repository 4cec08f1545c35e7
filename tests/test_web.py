"""Tests the page, crates/postcopy_c/out/postcopy.html, and what it is made of.

The module in the page has to answer what the program answers, byte for byte, to every session of examples/ and tests/cases/, on
some of its pages and lines too, and to each certificate beside its session: in node, where one is there that knows 64-bit memories.
What the page finds in the records is compared in node with the text, the program's orders and a slow model. The module's heap is tried
natively, by random calls under sanitizers, and its product, beside that of the machine. The build of the page has to stop at a module
with anything that it does not know. postcopy-report has to put into the page what it is given, or to say what it leaves out. And in a
headless Chromium the page is handed sessions of each verdict, one and several at a time, certificates, files that are none or cannot be
read, and a large one, is looked at in windows of four sizes and in two looks, is read by the keyboard, is opened and saved as a report,
and may ask for nothing; in Firefox it is handed the same, but for the large one. What lacks a command that cannot be installed here is left out.
"""
import base64
import glob
import html
import json
import os
import re
import shutil
import socket
import subprocess

from case_table import CASES, case_files, name_of
import pytest
import web_files
import web_reports
import web_viewing
from cases import count, same
from needed import can_have
from session_topics import text_of, topics_of
from web_browser import Chromium, Firefox, rows_of
from web_checks import example, is_shown, read, rows_drawn, rows_shown, squeezed, words_of, write
from web_records import tests_of_records
from web_verdicts import tests_of_lacks, tests_of_verdicts

import postcopy

TOP = os.path.dirname(os.path.dirname(os.path.abspath(__file__)))
PAGE = f"{TOP}/crates/postcopy_c/out/postcopy.html"
CALLS = ("audit", "certify", "explain", "draw")
KEYS = {"up": "\ue013", "down": "\ue015", "escape": "\ue00c", "enter": "\ue007"}

# A module that the build of the page knows, with a place for more.
KNOWN = """target datalayout = "e-m:e-p270:32:32-p271:32:32-p272:64:64-i64:64-i128:128-f80:128-n8:16:32:64-S128"
target triple = "x86_64-unknown-linux-gnu"
declare {{ i64, i64 }} @rattle_alloc(i64, i64)
declare void @llvm.trap()
{more}
define i32 @postcopy_version() #0 {{
  %got = call {{ i64, i64 }} @rattle_alloc(i64 8, i64 8)
  {code}
  ret i32 10000
}}
{others}
attributes #0 = {{ nounwind "probe-stack"="inline-asm" "target-cpu"="x86-64-v2" {attributes} }}
"""

# A product of 128 bits, as the look for a product of 64 bits that is too large has it.
PRODUCT = """%a = load volatile i128, ptr inttoptr (i64 64 to ptr)
  %b = mul i128 %a, %a
  store volatile i128 %b, ptr inttoptr (i64 64 to ptr)"""

OF_32_BITS = """target datalayout = "e-m:e-p:32:32-p270:32:32-p271:32:32-p272:64:64-i128:128-f64:32:64-f80:32-n8:16:32-S128"
target triple = "i686-unknown-linux-gnu"
"""

# What it does not know: what is more in the module, and what the build says.
UNKNOWN = {
    "a call of the C library": ({"more": "declare i32 @puts(ptr)", "code": "call i32 @puts(ptr null)"}, "a call of puts"),
    "an intrinsic of x86": ({"more": "declare void @llvm.x86.sse2.pause()", "code": "call void @llvm.x86.sse2.pause()"}, "a call of llvm.x86.sse2.pause"),
    "assembly": ({"code": 'call void asm sideeffect "nop", ""()'}, "assembly: nop"),
    "assembly of a module": ({"more": 'module asm "nop"'}, "assembly of the whole module"),
    "a value from elsewhere": ({"more": "@stdout = external global ptr"}, "a value from elsewhere: stdout"),
    "a thread local": ({"more": "@kept = thread_local global i32 0"}, "what only some machines have"),
    "another attribute": ({"attributes": '"sanitize"="yes"'}, "an attribute sanitize"),
}

# What a script may send by, or lead elsewhere, or have foreign words run.
WAYS_OUT = (r"\b(?:fetch|XMLHttpRequest|WebSocket\w*|WebTransport|EventSource|RTC\w+|sendBeacon|importScripts|import|eval|Function|innerHTML|outerHTML(?!}`;$)"
            r"|insertAdjacentHTML|setHTML\w*|srcdoc|preconnect|prefetch|prerender|iframe|rel|relList|src|action|submit|ping|serviceWorker|SharedWorker)\b|\bopen\(|\bwrite\(|navigation|navigator"
            r"|location(?!\.hash ===|\.href\.split)")


# The heap, the product, and the build.


def tests_in_c(room, name):
    """Compiles a test of bindings/web/ and runs it with three seeds."""
    test = f"{room}/{name}"
    words = ["-std=c11", "-Wall", "-Wextra", "-Werror", "-O1", "-g", "-fsanitize=address,undefined", "-fno-sanitize-recover=all"]
    subprocess.run(["cc", *words, "-o", test, f"{TOP}/bindings/web/{name}.c"], check=True)
    for seed in (1, 2, 3):
        ran = subprocess.run([test, "100000", str(seed)], stdout=subprocess.PIPE, stderr=subprocess.STDOUT)
        same(f"{name}, seed {seed}: {ran.stdout.decode(errors='replace')}", ran.returncode, 0)


def linked(room, of=KNOWN, **parts):
    """What the build of the page says of a module, and whether it made anything."""
    source, out = f"{room}/some.ll", f"{room}/some.wasm"
    others = "\n".join(f"define void @{it}() {{\n  ret void\n}}" for it in postcopy_calls() if it != "postcopy_version")
    write(source, of.format(**{"more": "", "code": "", "attributes": "", "others": others, **parts}))
    ran = subprocess.run([f"{TOP}/tools/page", "--link", source, out], stdin=subprocess.DEVNULL, stderr=subprocess.PIPE)
    is_made = os.path.exists(out)
    if is_made:
        os.remove(out)
    return ran.returncode, is_made, ran.stderr.decode()


def postcopy_calls():
    """The calls of the header."""
    return sorted(set(re.findall(r"^\w+ (postcopy_\w+)\(", read(f"{TOP}/bindings/c/postcopy.h", "r"), re.M)))


def tests_of_build(room):
    same("a module that is known", linked(room)[:2], (0, True))
    same("a product of 128 bits", linked(room, code=PRODUCT)[:2], (0, True))
    for what, (parts, why) in UNKNOWN.items():
        status, is_made, said = linked(room, **parts)
        same(f"{what}: {said}", (status, is_made, why in said), (1, False, True))
    status, is_made, said = linked(room, re.sub(r"(?s)^.*?(?=declare)", OF_32_BITS, KNOWN))
    same(f"a module of another target: {said}", (status, is_made, "another target" in said), (1, False, True))


# The module in the page, beside the program.


def module_of_page(room):
    found = re.search(rb'<script type="text/plain" id="module">([A-Za-z0-9+/=]+)</script>', read(PAGE))
    return write(f"{room}/postcopy.wasm", base64.b64decode(found[1]))


def node_for(module):
    """The words with which node takes a module with a 64-bit memory, where it does."""
    for words in (["node"], ["node", "--experimental-wasm-memory64"]):
        script = "new WebAssembly.Module(require('fs').readFileSync(process.argv[1]))"
        ran = subprocess.run([*words, "-e", script, module], stdin=subprocess.DEVNULL, stdout=subprocess.DEVNULL, stderr=subprocess.DEVNULL)
        if ran.returncode == 0:
            return words
    return None


def sessions():
    """Each file of the examples and cases that is a session or was to be one, once, with the certificates beside it."""
    seen = set()
    for folder in case_files(""):
        for name in ("session", "stdin"):
            if os.path.isfile(f"{folder}{name}"):
                certificate = f"{folder}certificate"
                texts = read(f"{folder}{name}"), read(certificate) if os.path.isfile(certificate) else None
                if texts not in seen:
                    seen.add(texts)
                    yield f"{folder}{name}", certificate if texts[1] is not None else None


def told(answer):
    """The line that the program writes of an answer of the module."""
    kind = postcopy.Kind[answer["kind"]]
    return str(postcopy.Answer(kind, answer["line"] or None, postcopy.Reason(answer["reason"]) if answer["reason"] else None))


def tests_of_calls(room, program):
    module = module_of_page(room)
    words = node_for(module) if can_have("node:nodejs") else None
    if not words:
        pytest.skip("there is no node that knows 64-bit memories")
    jobs = []
    for number, (session, certificate) in enumerate(sessions()):
        jobs += [([call, [session], None], [call, session]) for call in CALLS]
        # (every second topic, of the next session the others)
        jobs += [([it.call, [session], it.number], it.words) for it in [*topics_of(session)][number % 2::2]]
        jobs += [(["check", [session, certificate], None], ["check", session, certificate])] if certificate else []
    given = "\n".join(json.dumps(asked) for asked, _ in jobs).encode()
    ran = subprocess.run([*words, f"{TOP}/tests/web_calls.js", module], input=given, stdout=subprocess.PIPE)
    same("the module's calls in node end", ran.returncode, 0)
    exports, *answers = [json.loads(it) for it in ran.stdout.decode().splitlines()]
    same("what the module hands out", exports, sorted(["free", "malloc", "memory", *postcopy_calls()]))
    same("the number of the module's answers", len(answers), len(jobs))
    for ((call, names, topic), said_so), answer in zip(jobs, answers):
        ran = subprocess.run([program, *said_so], stdin=subprocess.DEVNULL, stdout=subprocess.PIPE, stderr=subprocess.PIPE)
        wanted, what = text_of(call, ran.stdout), f"{call} of {' and '.join(name_of(it) for it in names)}, {topic}"
        same(f"how much the memory grows by the same again, {what}", answer["grown"], 0)
        if "why" in answer:
            refused = names[-1 if answer["kind"] == "CERT_TEXT" else 0]
            said = f"{refused}:{answer['line']}:{answer['column']}: {answer['why']}\n"
            same(f"{what}, why it is refused", said.encode(), ran.stderr.split(b"\n")[0] + b"\n")
        found = f"{told(answer)}\n".encode() if call == "check" else base64.b64decode(answer["text"])
        same(what, found, wanted)
        if call == "audit":
            same(f"the numbers of {name_of(names[0])}", told(answer).encode(), wanted.split(b"\n")[0])


# The page in a browser.


def tests_of_topics(browser, program):
    """The way from one fault to the next, by buttons and by keys, and to any page."""
    faulty, clean = f"{CASES}/audit-all/session", example("handover")[0]

    def is_told(topic, *words):
        browser.settle()
        same(f"what the page tells of, {words}", browser.text("#topic"), topic)
        same(f"the words on it, {words}", squeezed(browser.text("#words")), squeezed(words_of(program, "explain", *words)))
        same(f"the rows of its picture, {words}", rows_shown(browser), rows_drawn(program, *words))

    browser.choose(faulty)
    is_told("fault 1 of 2: page 0", faulty)
    browser.run("const it = document.getElementById('next-fault'); it.focus(); it.click()")
    is_told("fault 2 of 2: page 1", "--page", "1", faulty)
    same("the line of its fault", browser.run("return document.getElementById('line').value"), "13")
    for key, topic, page in (("n", "fault 1 of 2: page 0", "0"), ("p", "fault 2 of 2: page 1", "1"), (KEYS["enter"], "fault 1 of 2: page 0", "0")):
        browser.run("delete document.body.dataset.done")
        browser.press(key)
        is_told(topic, "--page", page, faulty)
    browser.fill("#page", "")
    is_told("fault 1 of 2: page 0", faulty)
    browser.fill("#page", "7")
    is_told("page 7", "--page", "7", faulty)
    browser.run("document.getElementById('previous-fault').click()")
    is_told("fault 2 of 2: page 1", "--page", "1", faulty)
    hidden = "return ['next-fault', 'about'].map((it) => document.getElementById(it).hidden)"
    browser.choose(clean)
    same("what a clean session has", browser.run(hidden), [True, False])
    browser.fill("#page", "1")
    is_told("page 1", "--page", "1", clean)
    browser.choose(*example("leading-zero"))
    same("what no session has", browser.run(hidden)[1], True)


def tests_of_showing(browser, program):
    """The words, the picture and the texts, and the way from one to another."""
    for name in ("stale-page", "circle-of-receipts", "handover", "qemu-lost-write"):
        session = example(name)[0]
        browser.choose(session)
        same(f"the words on {name}", squeezed(browser.text("#words")), squeezed(words_of(program, "explain", session)))
        same(f"the rows of the picture of {name}", rows_shown(browser), rows_drawn(program, session))
        texts = {"Report": words_of(program, "audit", session), **({"Certificate": words_of(program, "certify", session)} if name == "handover" else {})}
        for text, wanted in texts.items():
            browser.run("[...document.querySelectorAll('#which button')].find((it) => it.textContent === arguments[0]).click()", text)
            lines = wanted.splitlines()[:400]
            browser.wait_for(lambda: browser.run("return [...document.querySelectorAll('#lines li')].map((it) => it.textContent)") == lines, f"the {text} is not shown")
    browser.choose(*example("stale-page"))
    browser.run("document.querySelector('#words [data-line=\"32\"]').click()")
    row = "document.getElementById('picture').shadowRoot.querySelector('.marked')"
    browser.wait_for(lambda: browser.run("return document.querySelector('#lines .marked') !== null"), "no line is marked")
    same("the row that a record in the words leads to", browser.run(f"return {row}.dataset.line"), "32")
    same("the line that is marked", browser.text("#lines .marked"), "place 1 6 0000000000000000")
    same("the row has the focus", browser.run("return document.getElementById('picture').shadowRoot.activeElement?.dataset.line"), "32")
    focused = "document.getElementById('picture').shadowRoot.activeElement?.dataset.line"
    browser.press(KEYS["up"], KEYS["up"], KEYS["down"], KEYS["enter"])
    browser.wait_for(lambda: browser.text("#lines .marked") == "got 3", "a row that is chosen by keys marks no line")
    browser.wait_for(lambda: browser.run(f"return {focused}") == "31", "a row that is chosen loses the focus")
    browser.press(KEYS["escape"])
    browser.wait_for(lambda: browser.run("return document.getElementById('bar').hidden"), "a record stays marked")
    browser.wait_for(lambda: browser.run(f"return {focused}") == "31", "the focus is lost with the mark of a row")
    browser.press(KEYS["enter"])
    browser.wait_for(lambda: browser.run("return !document.getElementById('bar').hidden"), "a row is not marked again")
    browser.wait_for(lambda: browser.run("return document.querySelector('#lines .marked')?.textContent === 'got 3'"), "a row that is marked anew marks no line")
    browser.press(KEYS["enter"])
    browser.wait_for(lambda: browser.run("return document.activeElement.textContent") == "got 3", "a row that is marked leads to no line")
    browser.press(KEYS["enter"])
    browser.wait_for(lambda: browser.run("return document.activeElement.dataset.line") == "31", "a line leads to no words")
    browser.press(KEYS["escape"])
    browser.wait_for(lambda: browser.run("return document.getElementById('bar').hidden"), "a record stays marked")
    browser.press(KEYS["enter"])
    browser.wait_for(lambda: browser.run(f"return {focused}") == "31", "the words lead to no row")
    browser.press(KEYS["enter"])
    browser.wait_for(lambda: browser.run("return document.activeElement.textContent") == "got 3", "a row leads to no line")
    browser.press(KEYS["escape"])
    browser.wait_for(lambda: browser.run("return document.getElementById('bar').hidden"), "a record stays marked in the text")
    browser.wait_for(lambda: browser.run("return document.activeElement.textContent") == "got 3", "the focus is lost with the mark")
    faulty = "const it = document.getElementById('picture').shadowRoot.querySelector('.faulty'); return it.ariaLabel"
    same("the name of the faulty row", browser.run(faulty), "line 18 (source 4): the source sends page 1, faulty, the cause")


def tests_of_tour(browser, room, program):
    """The way of docs/TOUR.md through the page: it says what stands there, on the texts that are made there."""
    made = subprocess.run([program, "steps", *example("released-and-pushed", "script", "events")], stdout=subprocess.PIPE, check=True).stdout
    session, changed = write(f"{room}/session", made), write(f"{room}/changed", re.sub(rb"(?m)^see 8$", b"see 6", made))
    certificate = write(f"{room}/certificate", words_of(program, "certify", session))
    steps = re.findall(r"^\d\. (.*)$", read(f"{TOP}/docs/TOUR.md", "r").partition("## The same in a browser")[2], re.M)
    said = [[it for it in re.findall(r"`([^`]+)`", step) if it.endswith(".")] for step in steps[:2]]
    same("the sentences of the tour", [len(it) for it in said], [2, 3])
    is_shown(browser, "the session of the tour", [session, certificate], "good", *said[0])
    is_shown(browser, "the changed session of the tour", [changed, certificate], "bad", *said[1])
    name, line = re.findall(r"`([^`]+)`", steps[2])[1:]
    browser.run("[...document.querySelectorAll('#words button')].find((it) => it.textContent === arguments[0]).click()", name)
    browser.wait_for(lambda: browser.text("#lines .marked") == line, "the record of the tour marks no line")
    browser.run("[...document.querySelectorAll('#which button')].find((it) => it.textContent === arguments[0]).click()", re.search("`(.*?)`", steps[3])[1])
    browser.wait_for(lambda: browser.text("#lines li") == "faulty line 11 early", "the report of the tour is not shown")


def tests_of_large(browser, room, program):
    """A session of some 10 MB."""
    session = read(example("handover")[0]).decode()
    count_line, last = re.search(r"^guest (\d+)\n", session, re.M), re.findall(r"^r .*\n", session, re.M)[-1]
    more = 1_000_000
    text = session.replace(count_line[0], f"guest {int(count_line[1]) + more}\n").replace(last, last * (more + 1), 1)
    large = write(f"{room}/large", text)
    wanted = words_of(program, "audit", large).split("\n")[0]
    same("the program on a large session", wanted, "clean")
    browser.run("delete document.body.dataset.done; window.most = 0;"
                "window.ticks = setInterval(() => { const now = performance.now(); window.most = Math.max(window.most, now - (window.last ?? now)); window.last = now }, 10)")
    browser.type("#files", large)
    browser.settle()
    most = browser.run("clearInterval(window.ticks); return window.most")
    count(most < 1500, f"the page stood still for {most} ms")
    same("the verdict on a large session", browser.text("#verdict h2"), "Safe.")
    lines = text.count("\n")
    browser.fill("#line", lines)
    browser.wait_for(lambda: browser.run("return document.querySelector('#lines li:last-child')?.textContent") == "end", "its last line is not shown")
    same("the number of its lines", browser.text("#extent").split(",")[0], f"of {lines}")
    browser.run("judged(handed.map(({ file }) => ({ file }))); setTimeout(() => document.getElementById('stop').click(), 20)")
    browser.wait_for(lambda: browser.text("#verdict h2") == "Stopped.", "it is not stopped")
    is_shown(browser, "a session, after one that was stopped", example("stale-page"), "bad", "Not safe.")


def tests_of_memory(browser, url):
    """What is said where memory is refused."""
    browser.open("about:blank")
    browser.open(url)
    browser.run("document.getElementById('worker').textContent += ';Postcopy.prototype.room = () => { throw new OutOfMemory(\"refused by the test\") };'")
    is_shown(browser, "a session with no memory", example("handover"), "odd", "The memory did not suffice", "Nothing is said of the session")


def tests_of_changed_files(browser, url):
    """What is said of a file that is longer or shorter once it is read."""
    for more in ("yield* was(file); yield new Uint8Array([10]);", "for await (const piece of was(file)) yield piece.subarray(1);"):
        browser.open("about:blank")
        browser.open(url)
        browser.run(f"document.getElementById('worker').textContent += ';const was = piecesOf; piecesOf = async function* (file) {{ {more} }};'")
        is_shown(browser, f"a session that changes: {more}", example("handover"), "odd", "The session could not be judged.", "became another one while it was read")


def tests_of_look(browser, url, room):
    """Screenshots, the dark look, a narrow window, and print."""
    browser.open("about:blank")
    browser.open(f"{url}#qemu-lost-write")
    browser.settle()
    same("the example of a link", "line 2566" in browser.text("#verdict"), True)
    shot = browser.screenshot()
    write(f"{room}/page.png", shot)
    count(rows_of(shot) > 200, "the screenshot is empty")
    background = "return getComputedStyle(document.body).backgroundColor"
    light = browser.run(background)
    browser.cdp("Emulation.setEmulatedMedia", features=[{"name": "prefers-color-scheme", "value": "dark"}])
    count(browser.run(background) != light, "the dark page is as the light one")
    browser.cdp("Emulation.setEmulatedMedia", features=[])
    browser.cdp("Emulation.setDeviceMetricsOverride", width=360, height=700, deviceScaleFactor=1, mobile=False)
    size = browser.run("return [document.documentElement.scrollWidth, innerWidth]")
    count(size[0] <= size[1], f"a narrow window has to be scrolled sideways: {size}")
    count(rows_of(browser.screenshot()) > 100, "the screenshot of a narrow window is empty")
    browser.cdp("Emulation.setDeviceMetricsOverride", width=720, height=1000, deviceScaleFactor=1, mobile=False)
    browser.cdp("Emulation.setEmulatedMedia", media="print")
    edges = browser.run("return [document.getElementById('picture').shadowRoot.querySelector('.sheet').getBoundingClientRect().right, innerWidth]")
    count(edges[0] <= edges[1], f"paper cuts the picture: {edges}")
    shown = "return ['#verdict', '#drawn-head', '#fault-list', '#words', '#step-list'].map((it) => { const { height, right } = document.querySelector(it).getBoundingClientRect(); return height > 0 && right <= innerWidth })"
    same("what stands on paper", browser.run(shown), [True] * 5)
    rolled = "return [...document.querySelectorAll('.rolls, #steps, #picture')].filter((it) => it.checkVisibility() && it.scrollHeight > it.clientHeight + 1).map((it) => it.id || it.parentElement.id)"
    same("what is cut on paper", browser.run(rolled), [])
    browser.cdp("Emulation.setEmulatedMedia", media="")
    browser.cdp("Emulation.clearDeviceMetricsOverride")
    count(len(browser.printed()) > 20000, "what is printed is empty")
    nameless = "return [...document.querySelectorAll('button, input, a')].filter((it) => !it.textContent && !it.labels?.length && !it.ariaLabel).length"
    same("what has no name for a screen reader", browser.run(nameless), 0)


def tests_of_network(browser, url):
    """Nothing was asked for but the page, and nothing can be."""
    folder = os.path.dirname(url)
    own = {f"{folder}/{it}.html" for it in ("postcopy", "opened", "saved", "broken")}
    foreign = [it for it in browser.requests() if not it.startswith(("blob:", "data:", "about:")) and it.partition("#")[0] not in own]
    same("what the page asked for", foreign, [])
    same("what the browser complained of", browser.complaints(), [])
    with socket.create_server(("127.0.0.1", 0)) as server:
        server.settimeout(0.5)
        place = f"http://127.0.0.1:{server.getsockname()[1]}/"
        sent = "fetch(place, { method: 'POST', body: 'a record' }).then(() => 'sent', () => 'refused')"
        same("a page that would send", browser.run_later(f"const [place, done] = arguments; {sent}.then(done)", place), "refused")
        worker = f"const place = '{place}'; {sent}.then(postMessage)"
        begin = "const it = new Worker(URL.createObjectURL(new Blob([arguments[0]]))), done = arguments[1]; it.onmessage = ({ data }) => done(data)"
        same("a worker that would send", browser.run_later(begin, worker), "refused")
        browser.run("document.body.append(Object.assign(new Image(), { src: arguments[0] }))", place)
        browser.run("document.body.append(Object.assign(document.createElement('script'), { textContent: 'document.body.dataset.foreign = 1' }))")
        same("whether another script ran", browser.run("return document.body.dataset.foreign ?? 'no'"), "no")
        try:
            server.accept()[0].close()
            count(False, "the page reached a server")
        except socket.timeout:  # (a TimeoutError only from Python 3.10 on)
            count(True, "")


def copied_page(room):
    """The place of a copy of the page: a browser that the system holds apart may not see the checkout."""
    return f"file://{shutil.copy(PAGE, f'{room}/postcopy.html')}"


def tests_of_viewing(browser, room, program, url):
    tests_of_verdicts(browser, room)
    tests_of_lacks(browser, room)
    web_files.run_all(browser, room, program, url)
    tests_of_showing(browser, program)
    tests_of_topics(browser, program)
    tests_of_tour(browser, room, program)
    web_viewing.run_all(browser, room, program, url, lambda scheme: browser.has_look(prefers_color_scheme=scheme))


def tests_of_chromium(room, program):
    binary = shutil.which("chromium") or shutil.which("chromium-browser") or shutil.which("google-chrome")
    if not (binary and shutil.which("chromedriver")) and can_have("chromium:chromium", "chromedriver:chromium-driver"):
        binary = shutil.which("chromium")
    if not (binary and shutil.which("chromedriver")):
        pytest.skip("there is no Chromium with its driver")
    with socket.create_server(("127.0.0.1", 0)) as free:
        port = free.getsockname()[1]
    url = copied_page(room)
    with Chromium(shutil.which("chromedriver"), binary, port) as browser:
        browser.open(url)
        tests_of_viewing(browser, room, program, url)
        web_viewing.tests_of_progress(browser)
        web_viewing.tests_of_forced_colours(browser)
        web_viewing.tests_of_tree(browser)
        web_reports.tests_of_reports(browser, room, program)
        web_reports.tests_of_saving(browser, room, url)
        web_reports.tests_of_large_reports(browser, room, program)
        web_reports.tests_of_leaving_out(browser, room, url)
        browser.cdp("Emulation.clearDeviceMetricsOverride")
        browser.open(url)
        web_files.tests_of_memory(browser, room)
        tests_of_large(browser, room, program)
        tests_of_memory(browser, url)
        tests_of_changed_files(browser, url)
        tests_of_look(browser, url, room)
        tests_of_network(browser, url)


def tests_of_firefox(room, program):
    if not can_have("firefox-esr:firefox-esr"):
        pytest.skip("there is no Firefox")
    with Firefox("firefox-esr", f"{room}/profile") as browser:
        url = copied_page(room)
        browser.open(url)
        tests_of_viewing(browser, room, program, url)
        count(rows_of(browser.screenshot()) > 200, "the screenshot of Firefox is empty")
        web_reports.tests_of_reports(browser, room, program)
        web_reports.tests_of_saving(browser, room, url)
        web_reports.tests_of_large_reports(browser, room, program)


def tests_of_text():
    """What the page says in words that stand elsewhere too."""
    page = read(PAGE, "r")
    data = json.loads(html.unescape(re.search(r'id="data">(.*?)</script>', page, re.S)[1]))
    for it in data:
        same(f"the example {it['name']}", it["session"].encode(), read(example(it["name"])[0]))
    for name in glob.glob(f"{TOP}/bindings/web/*.js"):
        same(f"the ways out of the page in {os.path.basename(name)}", re.findall(WAYS_OUT, read(name, "r"), re.M), [])
    script = read(f"{TOP}/bindings/web/verdicts.js", "r")
    shown = dict(re.findall(r"^  (\d+): \"(.*)\",$", script, re.M))
    same("the reasons that the page has words for", sorted(map(int, shown)), sorted(it.value for it in postcopy.Reason))
    kinds = re.search(r"const KINDS = \[(.*?)\]", read(f"{TOP}/bindings/web/postcopy.js", "r"), re.S)[1]
    same("the kinds by their numbers", re.findall(r'"(\w*)"', kinds), ["", *(it.name for it in sorted(postcopy.Kind))])
    questions = re.search(r"const QUESTIONS = \[(.*?)\]", read(f"{TOP}/bindings/web/postcopy.js", "r"), re.S)[1]
    same("the questions by their numbers", re.findall(r'"(\w*)"', questions), ["", *(it.name.lower() for it in sorted(postcopy.Asks) if not it.name.endswith("_OBJECT"))])


@pytest.mark.cases(3)
@pytest.mark.parametrize("name", ("heap_test", "product_test"))
def test_in_c(cc, room, name):
    tests_in_c(room, name)


@pytest.mark.toolchain
@pytest.mark.cases(1)
def test_build(page, room):
    tests_of_build(room)


@pytest.mark.cases(24)
def test_text(page):
    tests_of_text()


@pytest.mark.cases(10000)
def test_records(program):
    if not can_have("node:nodejs"):
        pytest.skip("there is no node")
    tests_of_records(program, ["node"], sorted({session for session, _ in sessions()}))


@pytest.mark.slow
@pytest.mark.cases(4000)
def test_calls(page, program, room):
    tests_of_calls(room, program)


@pytest.mark.cases(2)
def test_words(page):
    web_reports.tests_of_words()


@pytest.mark.cases(25)
def test_script(page, room):
    web_reports.tests_of_script(room)


@pytest.mark.cases(13)
def test_windows(page, program, room):
    web_reports.tests_of_windows(room, program)


@pytest.mark.cases(30)
def test_refusals(page, room):
    web_reports.tests_of_refusals(room)


@pytest.mark.cases(6)
def test_outputs(page, room):
    web_reports.tests_of_outputs(room)


@pytest.mark.browser
@pytest.mark.slow
@pytest.mark.cases(1)
def test_chromium(page, program, room):
    tests_of_chromium(room, program)


@pytest.mark.browser
@pytest.mark.slow
@pytest.mark.cases(271)
def test_firefox(page, program, room):
    tests_of_firefox(room, program)

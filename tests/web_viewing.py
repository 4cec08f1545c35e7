"""Tests of the page as a place to look: what stands where, and the ways from anything to everything."""
import re

from cases import count, same
from session_text import SessionText
from web_checks import example, read, words_of, write

FLAGSHIP = "qemu-lost-write"
SIZES = ((400, 800), (1000, 800), (1366, 768), (1600, 900))

# What stands where: the page, the picture's frame, its boxes and its heads, and the text of each box with its colours.
STANDS = """const host = document.getElementById('picture'), root = host.shadowRoot, place = (it) => { const { left, right, top, bottom } = it.getBoundingClientRect(); return { left, right, top, bottom } };
host.scrollTop = arguments[0] ? host.scrollHeight : 0;
const colour = (it, name) => { const canvas = Object.assign(document.createElement('canvas'), { width: 1, height: 1 }).getContext('2d'); canvas.fillStyle = getComputedStyle(it)[name]; canvas.fillRect(0, 0, 1, 1); return [...canvas.getImageData(0, 0, 1, 1).data] };
const frame = place(host);
return { page: [document.documentElement.scrollWidth, innerWidth, innerHeight], frame: { ...frame, right: frame.left + host.clientWidth, bottom: frame.top + host.clientHeight },
  boxes: [...root.querySelectorAll('.row .box')].map((it) => ({ ...place(it), line: it.parentElement.dataset.line, ink: colour(it.querySelector('.words'), 'color'), paper: colour(it, 'backgroundColor') })),
  heads: [...root.querySelectorAll('.head')].map((it) => ({ ...place(it), name: it.textContent })),
  columns: ['left', 'middle', 'right'].map((it) => place(document.getElementById(it))), paper: colour(document.body, 'backgroundColor') }"""

# The fields whose placeholder is wider than they are.
CUT = """return [...document.querySelectorAll('[placeholder]')].filter((it) => { it.value = it.placeholder; const isCut = it.scrollWidth > it.clientWidth; it.value = ''; return isCut }).map((it) => it.id)"""

# The arrows, each by the lines of the boxes that its ends touch, and the rows whose arrow comes from no row.
ARROWS = """const root = document.getElementById('picture').shadowRoot, svg = root.querySelector('.arrows'), { left, top, width, height } = svg.getBoundingClientRect(), count = svg.viewBox.baseVal.height;
const boxes = [...root.querySelectorAll('.record .box, .stuck .box')].map((it) => ({ line: it.parentElement.dataset.line, rect: it.getBoundingClientRect() }));
const touched = (x, y) => boxes.find(({ rect }) => Math.abs(y - (rect.top + rect.bottom) / 2) < rect.height / 2 && Math.min(Math.abs(x - rect.left), Math.abs(x - rect.right)) < 3)?.line;
const end = (it, which) => touched(left + it.getAttribute('x' + which) / 100 * width, top + it.getAttribute('y' + which) / count * height);
return [[...svg.querySelectorAll('line')].map((it) => [+end(it, 1), +end(it, 2)]), [...root.querySelectorAll('.stub')].map((it) => +it.closest('.row').dataset.line)]"""


def is_within(it, frame, sides=("left", "right", "top", "bottom")):
    """Whether a box stands in a frame, but for a pixel."""
    below = {"left": 1, "top": 1, "right": -1, "bottom": -1}
    return all((it[side] - frame[side]) * below[side] >= -1 for side in sides)


def contrast(ink, paper):
    """The contrast of two colours, by the rule of WCAG."""
    def light(colour):
        parts = [it / 255 for it in colour[:3]]
        return sum(weight * (it / 12.92 if it <= 0.04045 else ((it + 0.055) / 1.055) ** 2.4) for weight, it in zip((0.2126, 0.7152, 0.0722), parts))
    dark, bright = sorted((light(ink), light(paper)))
    return (bright + 0.05) / (dark + 0.05)


def line_in_view(browser, line):
    """Whether the row of a line stands wholly in the picture's frame, and the frame in the window."""
    found = browser.run(STANDS, False)
    box, = [it for it in found["boxes"] if it["line"] == str(line)]
    return is_within(box, found["frame"]) and found["frame"]["bottom"] <= found["page"][2] and found["frame"]["right"] <= found["page"][1]


def tests_of_places(browser, url, look):
    """The boxes and the heads in each size, in a light look, and at last in a dark one too; `look` sets it."""
    browser.open(f"{url}#{FLAGSHIP}")
    browser.settle()
    papers = []
    for scheme in ("light", "dark"):
        look(scheme)
        for width, height in SIZES if scheme == "light" else SIZES[-1:]:
            what = f"at {width} pixels, {scheme}"
            browser.resize(width, height)
            for at_end in (False, True):
                found = browser.run(STANDS, at_end)
                count(found["page"][0] <= found["page"][1], f"the page has to be scrolled sideways {what}: {found['page']}")
                out = [it["line"] for it in found["boxes"] if not is_within(it, found["frame"], ("left", "right"))]
                same(f"the boxes that are cut {what}", (out, len(found["boxes"]) > 10), ([], True))
                hidden = [it["name"] for it in found["heads"] if not is_within(it, found["frame"])]
                same(f"the heads that are out of view {what}, at the {'end' if at_end else 'beginning'}", (hidden, len(found["heads"])), ([], 4))
            same(f"the placeholders that are cut {what}", browser.run(CUT), [])
            pale = [it["line"] for it in found["boxes"] if contrast(it["ink"], it["paper"]) < 4.5]
            same(f"the boxes that are hard to read {what}", pale, [])
            left, middle, right = found["columns"]
            columns = (left["right"] <= middle["left"] and middle["right"] <= right["left"], left["bottom"] <= middle["top"] and middle["right"] <= right["left"], left["bottom"] <= middle["top"] and middle["bottom"] <= right["top"])
            edges = min(it["left"] for it in found["columns"]), found["page"][1] - max(it["right"] for it in found["columns"])
            count(max(edges) <= 32, f"the columns leave room at the sides {what}: {edges}")
            same(f"how the columns stand {what}", columns.index(True), 2 if width < 720 else 1 if width < 1200 else 0)
            papers.append(tuple(found["paper"]))
        browser.resize(1366, 768)
        count(line_in_view(browser, 2566), f"the wrong record is out of view at 1366 by 768, {scheme}")
        count(line_in_view(browser, 2472), f"the lost write is out of view at 1366 by 768, {scheme}")
    same("the papers of the two looks", [len(set(papers[:4])), len(set(papers))], [1, 2])
    look("light")


def tests_of_picture(browser, url):
    """Long values, the size, what comes before a record and what waits for it."""
    browser.open("about:blank")
    browser.open(f"{url}#{FLAGSHIP}")
    browser.settle()
    row = "document.getElementById('picture').shadowRoot.querySelector('[data-line=\"{}\"]')"
    same("a long value in its box", browser.run(f"return {row.format(2566)}.querySelector('.words').textContent"), "read p7[0] = 287…674, right: 301…701")
    cut = "return [...document.getElementById('picture').shadowRoot.querySelectorAll('.faulty .words, .cause .words, .against .words')].map((it) => it.scrollWidth > it.clientWidth)"
    same("whether the box of the wrong record, of its cause or of the lost write is cut", browser.run(cut), [False] * 3)
    browser.run(f"{row.format(2566)}.focus()")
    count("reads 2870600003493473674 in cell 0 of page 7" in browser.text("#hint"), f"the full value is not told: {browser.text('#hint')}")
    browser.run(f"{row.format(3003)}.dispatchEvent(new MouseEvent('mouseenter'))")
    hint = browser.text("#hint")
    count(re.search(r"Comes after: it names line 2922 \(link 8\) down 9; before it in its log: line 3002 .*Waits for it: it is named by line 3004 \(pager 17\)", hint), f"what is around a record is not told: {hint}")
    around = "return ['before', 'after'].map((kind) => [...document.getElementById('picture').shadowRoot.querySelectorAll(`.${kind}`)].map((it) => it.dataset.line))"
    same("the rows before and after a record", browser.run(around), [["2922"], ["3004"]])
    browser.run(f"{row.format(3003)}.click()")
    browser.wait_for(lambda: browser.text("#record-text") == "got 8", "a row that is chosen has no story")
    browser.run("document.getElementById('unmark').focus()")
    browser.press("\ue007")
    focused = "return document.getElementById('picture').shadowRoot.activeElement?.dataset.line"
    browser.wait_for(lambda: browser.run(focused) == "3003", "the focus is lost with the button that unmarks")
    width = "return Math.round(document.getElementById('picture').shadowRoot.querySelector('.sheet').getBoundingClientRect().width)"
    first = browser.run(width)
    sizes = []
    for key in ("+", "+", "-", "0"):
        browser.press(key)
        sizes.append(browser.run(width) / first)
    same("the picture's size by keys", [round(it, 2) for it in sizes], [1.25, 1.56, 1.25, 1])
    browser.run("document.getElementById('larger').click()")
    same("the picture's size by a button", round(browser.run(width) / first, 2), 1.25)
    browser.run("document.getElementById('fit').click(); document.getElementById('keys').click()")
    browser.press("+", "n")
    same("keys that are switched off", (browser.run(width), browser.text("#topic")), (first, "fault 1 of 7: page 7"))
    browser.run("document.getElementById('keys').click()")


def tests_of_arrows(browser):
    """From each record that is received to the one that receives it, where both have a row, and else a stub."""
    for name in (FLAGSHIP, "early-access", "handover", "stale-page", "pushed-by-the-lane"):
        session = example(name)[0]
        browser.choose(session)
        text, shown = SessionText(read(session, "r")), browser.run("return [...document.getElementById('picture').shadowRoot.querySelectorAll('.record')].map((it) => +it.dataset.line)")
        named = {text.line(log, place): text.named(log, place) for log in text.told() for place in range(len(text.logs[log]))}
        wanted = [(text.line(*named[it]), it) for it in shown if named[it]]
        arrows, stubs = browser.run(ARROWS)
        same(f"the arrows of {name}", sorted(arrows), sorted([list(it) for it in wanted if it[0] in shown]))
        same(f"the stubs of {name}", sorted(stubs), sorted(it for named_line, it in wanted if named_line not in shown))


def tests_of_faults(browser, room, program):
    """The list of all faults, sorted and filtered, and the table of several sessions."""
    rows = "return [...document.querySelectorAll('#fault-list tr')].map((it) => [...it.cells].slice(0, 2).map((cell) => cell.textContent).concat(it.querySelector('strong').textContent))"
    session = example(FLAGSHIP)[0]
    browser.choose(session)
    wanted = [[page, line, reason] for page, line, reason in re.findall(r"^page (\d+) line (\d+) (\S+)$", words_of(program, "audit", "--all", session), re.M)]
    same("the faults, by line", browser.run(rows), sorted(wanted, key=lambda it: int(it[1])))
    going = "delete document.body.dataset.done; document.getElementById(arguments[0]).click()"

    def gone(button, times):
        """The topics of the faults that a button leads to, one after another."""
        found = []
        for _ in range(times):
            browser.run(going, button)
            browser.settle()
            found.append(browser.text("#topic"))
        return found
    topics = [f"fault {place} of 7: page {page}" for place, (page, _, _) in enumerate(sorted(wanted, key=lambda it: int(it[1])), 1)]
    same("the faults, one after another", gone("next-fault", 8), [*topics[1:], *topics[:2]])
    same("the faults, backwards", gone("previous-fault", 2), [topics[0], topics[6]])
    sort = "const head = [...document.querySelectorAll('#fault-heads th')][arguments[0]]; head.querySelector('button').click(); return head.ariaSort"
    same("how they are sorted", [browser.run(sort, 0), browser.run(rows)], ["ascending", wanted])
    same("how they are sorted then", [browser.run(sort, 0), browser.run(rows)], ["descending", wanted[::-1]])
    same("the faults, one after another, as they are sorted then", [browser.text("#topic"), *gone("next-fault", 2)], ["fault 1 of 7: page 8", "fault 2 of 7: page 7", "fault 3 of 7: page 5"])
    same("the faults, by reason", [browser.run(sort, 2), browser.run(rows)], ["ascending", sorted(wanted, key=lambda it: (it[2], int(it[1])))])
    filtered = "const it = document.getElementById('filter'); it.value = arguments[0]; it.oninput(); return document.getElementById('fault-count').textContent"
    same("a filter", [browser.run(filtered, "altered"), browser.run(rows)], ["3 of 7 faults", [it for it in sorted(wanted, key=lambda it: int(it[1])) if it[2] == "altered"]])
    same("the faults that the filter shows, one after another", gone("next-fault", 4), [f"fault {place} of 7: page {page}" for place, page in ((1, 1), (2, 3), (3, 8), (1, 1))])
    same("a filter with a number", [browser.run(filtered, "altered 3"), browser.run(rows)], ["1 of 7 faults", [it for it in wanted if it[0] == "3"]])
    browser.run(sort, 1)
    browser.run("delete document.body.dataset.done; document.querySelector('#fault-list button').click()")
    browser.settle()
    same("the fault that is chosen", (browser.text("#topic"), browser.run("return document.querySelector('#fault-list [aria-current=true]')?.textContent")), ("fault 6 of 7: page 3", "2996"))
    browser.choose(*example("wrong-shape"))
    same("the fault of a shape", browser.run(rows), [["–", "22", "second-send"]])
    browser.choose(*example("handover"))
    same("the faults of a clean session", browser.run("return document.getElementById('left').hidden"), True)
    files = [write(f"{room}/{at}-of-many", read(example(name)[0])) for at, name in enumerate(("handover", FLAGSHIP, "early-access"))]
    browser.choose(*files)
    table = "return [...document.querySelectorAll('#list tr')].map((it) => [it.cells[0].textContent, it.className, it.cells[1].dataset.line])"
    same("the table of sessions", browser.run(table), [["0-of-many", "good", ""], ["1-of-many", "bad", "2566"], ["2-of-many", "bad", "13"]])


def sought(browser, words):
    """Looks for something by the field, and tells the record that is marked then and what was found besides."""
    browser.run("delete document.body.dataset.sought; document.getElementById('sought').value = arguments[0]; document.getElementById('seek').requestSubmit()", words)
    browser.wait_for(lambda: browser.run("return document.body.dataset.sought !== undefined"), f"nothing comes of {words}")
    return browser.run("return [document.getElementById('bar').hidden ? '' : document.getElementById('name').textContent.split(':')[0], document.getElementById('finds').hidden ? '' : document.getElementById('finds-head').textContent]")


def tests_of_search(browser, program):
    """A record by its line, by its log and number, by its page and by its virtual processor, and what is told of it."""
    session = example(FLAGSHIP)[0]
    browser.choose(session)
    lines = read(session, "r").split("\n")
    for words, line in (("2566", "line 2566 (guest 2560)"), ("line 2570", "line 2570 (guest 2564)"), ("pager 17", "line 3004 (pager 17)"), ("Guest  12", "line 18 (guest 12)"), ("link 0", "line 2914 (link 0)")):
        same(f"what is found by {words}", sought(browser, words), [line, ""])
        browser.wait_for(lambda: browser.text("#record-text") == lines[int(line.split()[1]) - 1], f"the text of {line} is not told")
    told = "the guest looks at the placement pager 51"
    sought(browser, "2570")
    browser.wait_for(lambda: told in browser.text("#name"), "a record that the picture has not is not told in words")
    browser.wait_for(lambda: "it names line 3038 (pager 51)" in browser.text("#record-around"), "what it names is not told")
    for words, said in (("2", "Line 2 tells no record."), ("lane 0", "The log of the lane has no record 0."), ("vcpu 5", "Virtual processor 5 did nothing."), ("what?", "Look for a line")):
        found = sought(browser, words)[1]
        count(found.startswith(said), f"what is said of {words}: {found}")
    browser.run("document.getElementById('show-texts').click(); const it = document.getElementById('lines'); it.children[2571 - it.start].click()")
    browser.wait_for(lambda: browser.text("#name").startswith("line 2571 (guest 2565): "), "a line of the text leads to no story")
    uses = [line for line in lines if re.match(r"(?:[rwz]|miss) 0 ", line)]
    same("what a virtual processor did", sought(browser, "vcpu 0")[1], f"What virtual processor 0 did: the first 500 of {len(uses)}")
    items = browser.run("return [...document.querySelectorAll('#found li')].map((it) => it.textContent.split(') ')[1])")
    same("its first records", items, uses[:500])
    browser.run("delete document.body.dataset.done")
    sought(browser, "page 45")
    browser.settle()
    same("the page that is looked for", browser.text("#topic"), "page 45")


def tests_of_life(browser, program):
    """A page's life, step by step, and the two orders of an early use."""
    browser.choose(*example(FLAGSHIP))
    same("whose life it is", browser.text("#life-head"), "The life of page 7")
    step = "return [document.getElementById('step').textContent.replace(/^step \\d+ of \\d+: /, ''), document.getElementById('contents').textContent]"
    wrong = "cell 0: never moved 301012717382643701; at the target 2870600003493473674 ✗"
    same("the step that it begins with", browser.run(step), ["line 2566 (guest 2560), wrong", wrong])
    rows = browser.run("return [...document.querySelectorAll('#step-list tr')].slice(0, 2).map((it) => [...it.cells].map((cell) => cell.textContent))")
    same("the first rows of it", rows, [["–", "init: zeros", "0", "not there"], ["11", "guest 5: w 0 7 0 506…718", "506…718", ""]])
    for button, told in (("previous-step", ["line 2562 (guest 2556)", wrong]), ("first-step", ["line 11 (guest 5)", "cell 0: never moved 506381209866536718; at the target not there"]), ("next-step", ["line 83 (guest 77)", "cell 0: never moved 506381209866536718; at the target not there"])):
        browser.run("document.getElementById(arguments[0]).click()", button)
        same(f"the step by {button}", browser.run(step), told)
    browser.run("document.getElementById('last-step').click()")
    same("the last step", browser.run(step)[0], "line 2828 (guest 2822)")
    same("the buttons at the last step", browser.run("return ['first-step', 'next-step', 'last-step'].map((it) => document.getElementById(it).disabled)"), [False, True, True])
    wrongs = browser.run("return [...document.querySelectorAll('#step-list tr.wrong td:first-child')].map((it) => it.textContent)")
    same("the steps that are wrong", wrongs, ["3004", "2566", "2792"])
    same("whether two orders are shown of a fault that is wrong in each", browser.run("return ['orders', 'orders-beside'].map((it) => document.getElementById(it).hidden)"), [True, True])
    early = example("early-access")[0]
    browser.choose(early)
    beside = "return [...document.querySelectorAll('#beside ol')].map((list) => [...list.querySelectorAll('[data-to]')].map((it) => +it.dataset.to))"
    here, there = browser.run(beside)
    same("the use and the placement in both orders", [[it for it in order if it in (13, 34)] for order in (here, there)], [[13, 34], [34, 13]])
    rows = "return [...document.getElementById('picture').shadowRoot.querySelectorAll('.record')].map((it) => +it.dataset.line)"
    drawn = browser.run(rows)
    browser.run("document.querySelectorAll('#orders button')[1].click()")
    found = browser.run(rows)
    same("the rows in the found order", (sorted(found), found == drawn, found.index(34) < found.index(13)), (sorted(drawn), False, True))
    life = "return [...document.querySelectorAll('#step-list tr.wrong td:first-child')].map((it) => it.textContent)"
    same("what is wrong in an order in which it goes wrong", browser.run(life), ["13", "14"])
    browser.run("const it = document.getElementById('life-order'); it.selectedIndex = 1; it.onchange()")
    browser.wait_for(lambda: browser.run(life) == [], "something is wrong in the found order")
    for page, is_hidden in (("0", False), ("7", True)):
        browser.fill("#page", page)
        browser.run("delete document.body.dataset.done; const it = document.getElementById('page'); it.onchange()")
        browser.settle()
        same(f"whether no life of page {page} of two is shown", browser.run("return document.getElementById('life').hidden"), is_hidden)
    browser.choose(*example("replayed-too-early", "session", "runs"))
    count("In the order of runs it goes wrong first at line 13." in browser.text("#verdict"), f"runs are not replayed: {browser.text('#verdict')}")
    same("the orders with runs", browser.run("return [...document.getElementById('life-order').options].map((it) => it.textContent)")[-1], "the order of runs")


def tests_of_cost(browser, room):
    """What a session with many pages takes is told before it is taken."""
    head = f"postcopy-session 3\npages {1 << 24}\ncells 1\ninit 0\n" + "".join(f"{it} 0\n" for it in ("guest", "source", "link", "lane", "pager")) + "end\n"
    browser.choose(write(f"{room}/wide", head))
    said = browser.text("#verdict")
    count("wide has 1 KiB and names 16,777,216 pages: to judge it takes up to 1184.0 MiB of memory and some 13 seconds." in said, f"what a session takes is not told: {said}")
    same("what is judged of it", browser.run("return [document.getElementById('question').hidden, document.getElementById('numbers').textContent]"), [False, ""])
    browser.run("document.getElementById('agree').click()")
    same("what is done then", browser.run("return [document.getElementById('question').hidden, document.getElementById('busy').hidden]"), [True, False])
    browser.run("document.getElementById('stop').click()")
    same("what is said when it is stopped", browser.text("#verdict h2"), "Stopped.")


def tests_of_progress(browser):
    """Screen readers are told of each quarter that is read, and not of each piece."""
    said = browser.run("const said = []; for (let it = 0; it <= 100; it++) { busy(`Reading x: ${it}`, it, 100); said.push(document.getElementById('progress-words').textContent) } busy(); return [...new Set(said)]")
    same("what screen readers are told of the progress", said, [f"Reading x: {it} of 100" for it in (0, 25, 50, 75, 100)])


def tests_of_names(browser):
    """What a screen reader is told, and the colours that are forced."""
    browser.choose(*example(FLAGSHIP))
    same("the verdict's head", browser.run("return document.querySelector('#verdict h2').textContent"), "Not safe.")
    nameless = "return [...document.querySelectorAll('button, input, select, a, [tabindex]')].filter((it) => !it.textContent && !it.labels?.length && !it.ariaLabel && !it.shadowRoot).length"
    same("what has no name for a screen reader", browser.run(nameless), 0)


def tests_of_tree(browser):
    """What Chromium hands to a screen reader: the picture with its description, and the faulty row."""
    browser.choose(*example(FLAGSHIP))
    nodes = [{key: it.get(key, {}).get("value") for key in ("role", "name", "description")} for it in browser.cdp("Accessibility.getFullAXTree")["nodes"] if not it["ignored"]]
    described = [it["description"] for it in nodes if it["name"] == "The records in an order"]
    count(len(described) == 1 and "Page 7 goes wrong at line 3004" in (described[0] or ""), f"what describes the picture: {described}")
    same("the faulty row", [it["role"] for it in nodes if (it["name"] or "").startswith("line 2566 ") and it["name"].endswith(", faulty")], ["button"])
    same("the verdict", [it["role"] for it in nodes if it["name"] == "Not safe." and it["role"] == "heading"], ["heading"])


def tests_of_forced_colours(browser):
    browser.choose(*example(FLAGSHIP))
    style = "return getComputedStyle(document.getElementById('picture').shadowRoot.querySelector('.faulty .box')).borderTopStyle"
    plain = browser.run(style)
    browser.has_look(forced_colors="active")
    same("the faulty box, where colours are forced", (plain, browser.run(style)), ("solid", "double"))
    browser.has_look()


def run_all(browser, room, program, url, look):
    tests_of_places(browser, url, look)
    tests_of_picture(browser, url)
    tests_of_arrows(browser)
    tests_of_faults(browser, room, program)
    tests_of_search(browser, program)
    tests_of_life(browser, program)
    tests_of_cost(browser, room)
    tests_of_names(browser)

"""Whether what the pages claim is so: counts, sums, sizes, answers, and sentences that were once untrue."""
import os
import re

from case_table import CASES
from page_text import links, number_of, read, rows, terms

GUARANTEES, FORMATS, ANSWERS = "docs/GUARANTEES.md", "docs/FORMATS.md", "docs/ANSWERS.md"
PERFORMANCE, BENCHES = "docs/PERFORMANCE.md", "bench/results/tables.md"
MAN1, MAN5 = "share/man/man1/postcopy.1", "share/man/man5/postcopy.5"

# The words that have to be explained.
TERMS = ("merging", "receipt", "knot", "cycle", "halt", "owed page", "cancelled", "look", "guard", "sum", "flat machine", "pivot",
         "delivery outcome", "lane", "certificate", "cut", "run", "party", "channel", "mutant")

# Sentences that were untrue, by the pages that may not have them (or all), and what is true.
UNTRUE = (
    (None, r"bytes that come in", "what is proved is of the bytes that were read"),
    (None, r"when each error comes", "not so of migrate, of status 3 and of plan"),
    (None, r"each owed page came(?! or)", "or was released at the target"),
    (None, r"(?:every|each) owed page (?:was|is) placed(?!,? (?:or|and|neither))", "or was released at the target, and settled"),
    (None, r"says that all are placed(?! or)", "or settled"),
    (None, r"three to six times", "the table has other ratios"),
)

# What a page has to say beside what would be untrue alone: the page, the line it is about, and what that line must have.
ALSO = (
    (GUARANTEES, r"Every function is safe", r"once their threads have ended", "those that start threads wait for them"),
    (GUARANTEES, r"`released_as_zeros`", r"never sent", "the headline's last claim has an exact clause"),
    (GUARANTEES, r"^`rt ci`", r"from nothing, or keeps .*checksum", "what passed on the machine before is kept"),
    (ANSWERS, r"^\| 0 \|", r"--help.*--version", "help and version have status 0"),
    (FORMATS, r"^`--help` writes", r"status 0", "help and version have status 0"),
)


def lines(page):
    return enumerate(page.split("\n"), 1)


def wrong_counts(pages, sources):
    """Counts of what is in the tree."""
    tried, others = sources.mutants()
    counts = {
        "crates": {len(sources.crates), len(sources.crates | sources.test_crates)},
        "mutants": {tried, others, tried + others},
        "examples": {sources.folders_in("examples")},
        "cases": {len(os.listdir(CASES))},
    }
    pattern = rf"(?<![\d,.])(\d[\d,]*) ({'|'.join(counts)})\b"
    for name, page in pages.items():
        for number, line in lines(page):
            for count, what in re.findall(pattern, line):
                if number_of(count) not in counts[what]:
                    yield f"{name}, line {number}: {count} {what}, and there are {' or '.join(map(str, sorted(counts[what])))}"


def wrong_lists(pages):
    """Headings that count the numbered list below them."""
    for name, page in pages.items():
        for heading, count, body in re.findall(r"^(## [^\n]*: (\d+) files)\n(.*?)(?=^## |\Z)", page, re.M | re.S):
            items = [it.split(":")[0] for it in re.findall(r"^\d+\. (.*)", body, re.M)]
            found = sum(max(1, it.count(".rt`") - it.count(" or ")) for it in items)
            if items and found != int(count):
                yield f"{name}: '{heading}', and the list below has {found}"


def as_number(cell):
    found = re.match(r"\*{0,2}([\d,]+(?:\.\d+)?)\b", cell)
    return float(found[1].replace(",", "")) if found else None


def wrong_sums(pages):
    """Rows of tables that say what the rows above them make together."""
    for name, page in pages.items():
        above = []
        for number, cells, _ in rows(page):
            if above and above[-1][0] + 1 != number:
                above = []
            if re.match(r"\*{0,2}(?:All|Sum|Total|Together|In all)\b", cells[0]):
                for at in range(1, len(cells)):
                    some = [as_number(it[1][at]) for it in above if at < len(it[1])]
                    said, whole = as_number(cells[at]), sum(it for it in some if it is not None)
                    if said is not None and any(it is not None for it in some) and abs(said - whole) > len(above) / 2:
                        yield f"{name}, line {number}: {cells[at]}, and the rows above make {whole:g}"
            above.append((number, cells))


def wrong_gate(pages):
    """Each part of the gate is named where it is described."""
    for it in re.findall(r"^part (rt ci|(?:tests|tools)/[\w-]+)", read("tests/run"), re.M):
        if f"`{it}" not in pages["CONTRIBUTING.md"]:
            yield f"CONTRIBUTING.md does not say what the gate does by {it}"


def wrong_scripts(pages):
    """What different pages say of how much the same test tries."""
    said = {}
    for name, page in pages.items():
        for script, count in re.findall(r"`(tests/[\w.-]+)`(?: \|)?[^`|.;]*?\bsome ([\w, -]*?(?:\d[\d,]*|thousand|hundred))\b", page):
            said.setdefault(script, {}).setdefault(count, []).append(name)
    for script, counts in said.items():
        if len(counts) > 1:
            yield f"{script} does " + ", but ".join(f"some {count} in {', '.join(names)}" for count, names in counts.items())


def wrong_sentences(pages):
    for where, pattern, truth in UNTRUE:
        for name, page in pages.items():
            if where in (None, name):
                for number, line in lines(page):
                    if re.search(pattern, line):
                        yield f"{name}, line {number}: untrue, '{pattern}': {truth}"
    for name, about, wanted, truth in ALSO:
        if name in pages:
            found = [line for _, line in lines(pages[name]) if re.search(about, line)]
            if not any(re.search(wanted, it) for it in found):
                yield f"{name}: where it says '{about}' it has to say '{wanted}': {truth}"


def wrong_ratios():
    """How a record of a migration compares with one of `steps`, by the table above the sentence."""
    page = read(BENCHES)
    each = {}
    for _, cells, head in rows(page):
        if head[:3] == ["Run", "Records", "Time"]:
            each[cells[0]] = float(cells[2].split(" ")[0]) / number_of(cells[1])
    steps = next((each[it] for it in each if it.startswith("`steps`")), None)
    runs = ("`migrate`, a good link", "`migrate`, a bad link over TCP")
    said = re.search(r"takes ([\d.]+) times that of `steps` over a good link, and ([\d.]+) times over TCP with a bad one", page)
    if not said or not steps or any(it not in each for it in runs):
        yield f"{BENCHES}: it does not say how a record of a migration compares with one of `steps`"
        return
    for run, number in zip(runs, said.groups()):
        ratio = each[run] / steps
        if abs(ratio - float(number)) > 0.06:
            yield f"{BENCHES}: {number} times, and the table has {ratio:.1f}"


def wrong_tables(pages):
    """The page of performance, and that of the benches: each table stands between the marks of bench/all, and the day of each is told
    at the top."""
    blocks = []
    for name, page in ((PERFORMANCE, pages[PERFORMANCE]), (BENCHES, read(BENCHES))):
        found = re.findall(r"^<!-- bench: (\w+)(?:, ([\d-]+))? -->\n(.*?)^<!-- end -->$", page, re.M | re.S)
        measured = next((text for block, _, text in found if block == "measured"), "")
        for block, day, _ in found:
            if block != "measured" and (not day or f"Measured on {day}" not in measured):
                yield f"{name} does not say at its top when {block} was measured"
        for number, cells, _ in rows(re.sub(r"^<!-- bench: .*?^<!-- end -->$", lambda it: "\n" * it[0].count("\n"), page, flags=re.M | re.S)):
            yield f"{name}, line {number}: no bench writes this table: {cells[0]}"
        blocks += found
    if len(blocks) < 9:
        yield f"{PERFORMANCE} and {BENCHES} have {len(blocks)} blocks of bench/all"
    setting = r"glibc\.malloc\.\w+=\d+"
    if set(re.findall(setting, pages[PERFORMANCE])) != set(re.findall(setting, read("postcopy"))):
        yield f"{PERFORMANCE} does not set what the launcher sets"


def headline(text):
    """The claims of the headline, from its first words on."""
    found = re.search(r"the bytes spell one session, and in every merging.*?comes back as zeros\.", text)
    return found and found[0]


def wrong_readme(pages):
    readme = pages["README.md"]
    if not re.search(r"!\[[^\]]+\]\(docs/[\w-]+\.svg\)", readme):
        yield "README.md has no picture"
    if not headline(readme) or headline(readme) != headline(pages[GUARANTEES]):
        yield "README.md and docs/GUARANTEES.md do not have the same headline"


def wrong_words(pages):
    for it in TERMS:
        if it not in terms(pages[ANSWERS]):
            yield f"{ANSWERS} does not explain: {it}"
    for name, page in pages.items():
        if name != ANSWERS and not any(target.endswith("ANSWERS.md#words") for _, target in links(page)):
            yield f"{name} has no link to what the words mean"


def answers(sources):
    """The lines, reasons and words on standard error that the program can answer, by its sources."""
    texts = [read(it) for it in sorted(sources.files) if re.match(r"crates/(?:command_texts|judge_commands|host_commands|windows|commands|audit_report)/src/.*\.rt$", it)]
    found = {it.strip() for text in texts for it in re.findall(r'b"([a-z-]+(?: [a-z]+)*) ?(?:\\n)?"', text)} - {"end", "line"}
    reasons = re.findall(r'=> b"([a-z-]+)"', read("crates/audit_model/src/reasons.rt"))
    return found, reasons


def wrong_answers(pages, sources):
    found, reasons = answers(sources)
    for name in (ANSWERS, MAN1):
        text = (pages[name] if name in pages else read(name)).replace("\\-", "-")
        for it in sorted(found) + reasons:
            if not re.search(rf"(?<![\w-]){re.escape(it)}(?![\w-])", text):
                yield f"{name} says nothing of the answer {it}"
    named = {span for _, cells, _ in rows(pages[ANSWERS]) for span in re.findall(r"^`([a-z-]+(?: [a-z]+)*)", cells[0])}
    for it in sorted({*found, *reasons} - named):
        yield f"{ANSWERS}: no row begins with the answer {it}"
    if len(found) < 20 or len(reasons) < 12:
        yield "test_pages.py finds no answers in the sources"


def wrong_texts(pages):
    """The words of the texts, by FORMATS, in the man page of the texts."""
    text = re.sub(r"\\f[BIR]|\\", "", read(MAN5))
    for _, cells, head in rows(pages[FORMATS]):
        if head[:2] in (["Log", "Record"], ["Lines", "Rule"], ["Line", "Finds work if"]):
            for span in re.findall(r"`([a-z][\w-]+)", " ".join(cells[:2])):
                if not re.search(rf"(?<![\w-]){re.escape(span)}(?![\w-])", text):
                    yield f"{MAN5} says nothing of {span}"


def wrong_silences(pages, sources):
    """What is left out in silence."""
    for name in sorted(it for it in sources.files if re.fullmatch(r"tests/[\w-]+(?:\.py)?", it)):
        for number, line in lines(read(name)):
            if re.search(r"(?:\bprint\(|\becho ).*(?:skipped|left out)", line):
                yield f"{name}, line {number}: what is left out is told by leave_out of cases.py, or by pytest.skip"
    if "left out: " not in read("tests/conftest.py"):
        yield "tests/conftest.py does not tell what was left out"
    status = read(MAN1).partition(".SH EXIT STATUS")[2].partition(".SH ")[0]
    if "help" not in status or "version" not in status:
        yield f"{MAN1}: help and version have status 0, too"


def wrong_licence():
    for name in ("LICENSE", "bindings/python/pyproject.toml", MAN1, MAN5):
        if "the Tingaro authors" not in read(name) or "MIT" not in read(name):
            yield f"{name} does not name the licence and the Tingaro authors"


def wrong_installed(sources):
    """What installed files say of pages that are not installed with them."""
    for name in sorted(it for it in sources.files if re.fullmatch(r"bindings/c/\w+\.h|bindings/python/postcopy/\w+\.py|share/man/man\d/.*", it)):
        text = re.sub(r"\\f[BIR]", "", read(name))
        for page in re.findall(r"docs/\w+\.md|README\.md", text):
            yield f"{name} names {page}, which is not installed"
        for page, section in re.findall(r"(postcopy[\w-]*)\s?\((\d)\)", text.replace("\\-", "-")):
            if f"share/man/man{section}/{page}.{section}" not in sources.files:
                yield f"{name} names {page}({section}), which is no man page"


def wrong(pages, sources):
    """All that is wrong with what is claimed."""
    found = [*wrong_counts(pages, sources), *wrong_lists(pages), *wrong_sums(pages), *wrong_gate(pages), *wrong_scripts(pages)]
    found += [*wrong_sentences(pages), *wrong_ratios()]
    found += [*wrong_tables(pages), *wrong_readme(pages), *wrong_words(pages), *wrong_answers(pages, sources), *wrong_texts(pages)]
    return [*found, *wrong_silences(pages, sources), *wrong_licence(), *wrong_installed(sources)]

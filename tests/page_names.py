"""Whether each name that the pages have is one: crates, functions, clauses, definitions, files, links, terms."""
import os
import re

from page_text import TOP, anchor, code_spans, headings, italics, links, read, rows, terms

# Pages about other programs, whose identifiers are not ours; paths are looked up there too.
OF_OTHERS = ("docs/RECORDING.md", "docs/RECORDS.md", "docs/PERFORMANCE.md", "docs/SYSTEMS.md", "docs/FOUND.md", "examples/recording/README.md")
# Files that come of a build or of a command that the page shows, and names of other people's files.
MADE = re.compile(r"crates/\w+/out\b|.*libpostcopy\.(?:so|a)\b|postcopy\.pc|changed\.svg|(?:stale-page|fault|picture)\.svg|shipped/")
PLACEHOLDER = re.compile(r"[A-Z]{4,}|[*<>$]|\.\.|^[/~-]|^https?:")
ENDING = re.compile(r"^[\w.-]+\.(?:rt|antt|py|c|h|md|svg|toml|trace|edit|in)$")
IDENTIFIER = re.compile(r"^(?=.*[a-z])(?=.*_|.*[a-z][A-Z]|[A-Z][a-z])[A-Za-z_]\w*$")
# Files that need not be there: what cargo writes, a trace that a migration with a lane has, and a program that a page shows.
FOREIGN = {"Cargo.lock", "lane.trace", "smallest.c", "smallest.py", "test_migration.py"}

looked_up = 0


def count():
    global looked_up
    looked_up += 1


def expanded(span):
    """The paths of names that `a::{b, c}` stands for, each as a list."""
    found = re.fullmatch(r"((?:\w+::)*)\{([\w:, ]+)\}", span)
    if found:
        return [f"{found[1]}{it.strip()}".split("::") for it in found[2].split(",")]
    return [span.split("::")]


def is_path_of_names(parts, sources):
    """Whether there is what `crate::name`, `Type::member` or `crate::Type::member` says."""
    if parts[0] in sources.crates | sources.test_crates:
        crate, rest = parts[0], parts[1:]
        return sources.is_in_crate(crate, rest[0]) and (len(rest) == 1 or sources.is_member(*rest[:2]))
    is_of_module = parts[-1] in sources.functions and any(it.endswith(f"/{parts[0]}.rt") for it in sources.files)
    return len(parts) == 2 and (sources.is_member(*parts) or is_of_module)


def is_file(span, page, sources):
    """Whether a path leads to a file or a folder, from the top, from crates/ or from any crate."""
    path = span.rstrip("/").removeprefix("./")
    if MADE.match(path):
        return True
    found = sources.files | sources.folders
    starts = ("", "crates/", f"{os.path.dirname(page)}/")
    if any(f"{start}{path}".lstrip("/") in found for start in starts):
        return True
    return any(f"crates/{crate}/{path}" in found for crate in sources.crates) or f"/{path}/" in read("tools/install")


def wrong_span(span, page, sources):
    """What is wrong with a word in backticks, or None."""
    if " " in span and "::" not in span or PLACEHOLDER.search(span):
        first = span.split(" ")[0]
        is_script = re.match(r"(?:tests|tools|bench)/[\w-]+$", first)
        return f"there is no {first}" if is_script and first not in sources.files else None
    if "::" in span:
        span = re.sub(r"\(.*\)$|;$", "", span)
        bad = [it for it in expanded(span) if not is_path_of_names(it, sources)]
        return f"the sources have no {'::'.join(bad[0])}" if bad and page not in OF_OTHERS else None
    if "/" in span and re.match(r"[\w.-]+/", span):
        return None if is_file(span, page, sources) else f"there is no {span}"
    if ENDING.match(span) and not MADE.match(span) and span not in FOREIGN:
        return None if any(os.path.basename(it) == span for it in sources.files) else f"there is no file {span}"
    if IDENTIFIER.match(span) and page not in OF_OTHERS:
        return None if span in sources.words else f"the sources have no {span}"
    return None


def wrong_spans(name, page, sources):
    for line, span in code_spans(page):
        count()
        said = wrong_span(span, name, sources)
        if said:
            yield f"{name}, line {line}: {said}"


def wrong_italics(name, page, sources, explained):
    """Definitions and terms in italics; other italics are emphasis where they are no identifier and no page of promises."""
    for line, span in italics(page):
        count()
        if IDENTIFIER.match(span):
            if span not in sources.definitions | sources.words:
                yield f"{name}, line {line}: no file of definitions has {span}"
        elif name == "docs/GUARANTEES.md" and span not in sources.definitions and span.lower() not in explained and span != "italics":
            yield f"{name}, line {line}: neither a definition nor one of the words that docs/ANSWERS.md explains: {span}"


def functions_in(cell, sources):
    """The functions and methods that a cell names, by their last names."""
    found = []
    for span in re.findall(r"`([^`]+)`", cell):
        found += [it[-1] for it in expanded(span) if it[-1] in sources.functions]
    return found


def wrong_clauses(name, page, sources):
    """Clauses that no function of their row, or of the row that it goes on with, has."""
    before = []
    for line, cells, head in rows(page):
        column = next((it for it in ("Contract", "Clause") if it in head), None)
        if not column:
            continue
        cell = cells[head.index(column)]
        named = functions_in(" ".join(cells[: head.index(column) + 1]), sources)
        before = [it for it in named if sources.clauses([it])] or before
        clauses = sources.clauses(set(named) | set(before))
        asked = [it for some in re.findall(r"clauses? ((?:`\w+`(?:, | and | to )?)+)", cell) for it in re.findall(r"\w+", some)]
        asked = [it for it in asked if it not in ("and", "to")]
        if column == "Clause":
            asked += [it for it in re.findall(r"`(\w+)`", cell) if it not in sources.functions]
        for it in re.findall(r"`(\w+)`", cell):
            if it not in sources.functions and it in sources.words and it.islower() and it not in sources.crates:
                asked.append(it)
        for it in asked:
            count()
            if it not in clauses and not ("*" in cell and it in sources.fields):
                yield f"{name}, line {line}: no function of this row has a clause {it}"


def wrong_crates(name, page, sources):
    """Crates in the first column of a table of crates."""
    for line, cells, head in rows(page):
        if head[0] == "Crate":
            for it in re.findall(r"`(\w+)`", cells[0]):
                count()
                if it not in sources.crates | sources.test_crates:
                    yield f"{name}, line {line}: there is no crate {it}"


def missing_crates(name, page, sources):
    """Crates of the program that a table of all crates lacks."""
    named = {it for _, cells, head in rows(page) if head[0] == "Crate" for it in re.findall(r"`(\w+)`", cells[0])}
    for it in sorted(sources.crates - named):
        if not re.search(rf"`{it}[`/:]", page):
            yield f"{name}: no row has the crate {it}"


def wrong_links(name, page, pages):
    for line, target in links(page):
        count()
        if re.match(r"https?:|mailto:", target):
            continue
        path, _, place = target.partition("#")
        file = os.path.normpath(os.path.join(os.path.dirname(name), path)) if path else name
        if not os.path.exists(f"{TOP}/{file}"):
            yield f"{name}, line {line}: the link {target} leads nowhere"
        elif place and file in pages and place not in map(anchor, headings(pages[file])):
            yield f"{name}, line {line}: {file} has no part #{place}"


def wrong(pages, sources):
    """All that is wrong with names."""
    explained = terms(pages["docs/ANSWERS.md"])
    found = []
    for name, page in pages.items():
        found += wrong_spans(name, page, sources)
        found += wrong_italics(name, page, sources, explained)
        found += wrong_clauses(name, page, sources)
        found += wrong_crates(name, page, sources)
        found += wrong_links(name, page, pages)
    return [*found, *missing_crates("docs/ARCHITECTURE.md", pages["docs/ARCHITECTURE.md"], sources)]

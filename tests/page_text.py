"""The pages of the repository, cut into what tests look at."""
import glob
import os
import re

TOP = os.path.dirname(os.path.dirname(os.path.abspath(__file__)))


def read(name):
    with open(f"{TOP}/{name}", encoding="utf-8") as file:
        return file.read()


def page_names():
    """Each page, by its path from the top."""
    written = [os.path.relpath(it, TOP) for kind in ("docs/*.md", "examples/README.md", "examples/recording/README.md") for it in sorted(glob.glob(f"{TOP}/{kind}"))]
    return ["README.md", "CONTRIBUTING.md", "CHANGELOG.md", "SECURITY.md", *written]


def commands_of(page):
    """The commands of the `console` blocks, each with the lines that the page shows below it, and the last Python above it."""
    found, script = [], ""
    for language, block in re.findall(r"^```(\w*)\n(.*?)^```$", page, re.M | re.S):
        if language == "python":
            script = block
        for line in block.splitlines() if language == "console" else ():
            if line.startswith("$ "):
                found.append((line[2:], [], script))
            elif found:
                found[-1][1].append(line)
    return found


def prose(page):
    """A page without its fenced blocks: an empty line for each of their lines."""
    return re.sub(r"^```.*?^```$", lambda block: "\n" * block[0].count("\n"), page, flags=re.M | re.S)


def without_written(page):
    """A page without what a program writes into it: an empty line for each of these lines."""
    return re.sub(r"^<!-- written by .*?^<!-- end[^\n]*$", lambda block: "\n" * block[0].count("\n"), page, flags=re.M | re.S)


def plain(page):
    """The prose without what stands in backticks."""
    return re.sub(r"`[^`\n]*`", "``", prose(page))


def numbered_lines(text):
    return enumerate(text.split("\n"), 1)


def code_spans(page):
    """What stands in backticks, each with the number of its line."""
    for number, line in numbered_lines(prose(page)):
        for span in re.findall(r"`([^`]+)`", line):
            yield number, span


def italics(page):
    """What stands in italics, each with the number of its line."""
    for number, line in numbered_lines(plain(page)):
        for span in re.findall(r"(?<![*\w])\*([^*]+)\*(?![*\w])", line):
            yield number, span


def rows(page):
    """The rows of the tables, each with the number of its line, as the cells and the heading of the first column."""
    head = None
    for number, line in numbered_lines(prose(page)):
        if not line.startswith("|"):
            head = None
            continue
        cells = [it.strip() for it in re.split(r"(?<!\\)\|", line)[1:-1]]
        if head is None:
            head = cells
        elif not all(re.fullmatch(r":?-+:?", it) for it in cells):
            yield number, cells, head


def headings(page):
    return re.findall(r"^#+ (.*)$", prose(page), re.M)


def terms(page):
    """The words that the tables of a page explain in its last part, 'Words'."""
    return {it.lower() for _, cells, _ in rows(page.partition("\n## Words\n")[2]) for it in cells[0].split(", ")}


def anchor(heading):
    """The anchor that a heading gets."""
    return re.sub(r"[^\w\- ]", "", heading.lower()).replace(" ", "-")


def links(page):
    """The targets of the links and pictures, each with the number of its line."""
    for number, line in numbered_lines(prose(page)):
        for target in re.findall(r"\]\(([^)\s]+)\)", line):
            yield number, target


def number_of(text):
    return int(text.replace(",", ""))

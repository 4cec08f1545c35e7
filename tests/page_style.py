"""How the pages are written: words that have a plainer one are refused, and so are paragraphs that are too long."""
import re

from page_text import numbered_lines, plain, prose, without_written

# The most words that a paragraph, an item of a list or a cell of a table may have.
LONGEST = 90

# The most bytes of a page, which one sitting is to be enough for; and of one that has to be shorter.
LARGEST = 51200
LARGEST_OF = {"README.md": 6144, "CONTRIBUTING.md": 9216, "docs/ARCHITECTURE.md": 16384, "docs/CHANGING.md": 11264, "docs/DECISIONS.md": 12288,
              "docs/GUARANTEES.md": 13312, "docs/PREPAGING.md": 6144, "docs/SYSTEMS.md": 32256}

# Words that were thrown out, in every page, and what is said instead. What stands in backticks is not looked at.
WORDS = {
    r"[Ww]ant of memory": "out of memory",
    r"\bcrews?\b": "pool of workers",
    r"\bdear(?:er|est)?\b": "expensive",
    r"\b[Ss]tands? (?:on|upon)\b(?! (?:its|their|two|one) feet)": "depends on",
    r"\b[Bb]ehind\b": "after",
    r"\bmust-fail edits?\b|\bedits? (?:of the code )?that the prover\b": "mutants",
    r"\b[Ff]ates?\b": "delivery outcome",
    r"\b[Ss]ettle[ds]?\b": "cancelled",
    r"\b[Mm]end(?:ed|s|ing)?\b": "repaired",
    r"\bfor ever\b": "forever",
    r"\b[Oo]ne's own\b": "your own",
    r"\b[Ll]eft away\b|\b[Ll]eave .{0,30}\baway\b": "leave out",
    r"\b[Rr]eader (?:goes|has gone|that goes) away\b": "its reader closes it",
    r"\bby another than\b": "by somebody other than",
    r"\b[Tt]hat has to be:": "You must record:",
    r"\bWrong is\b": "is wrong",
    r"\bat both sides\b": "on both sides",
    r"\b(?:has|have) not (?:the|a|this|these)\b": "does not have",
}


def paragraphs(page):
    """The paragraphs of a page, its items of lists, and its cells of tables, each with the number of its first line."""
    first, words = 0, []
    for number, line in numbered_lines(without_written(prose(page)) + "\n"):
        text = line.strip()
        is_row = text.startswith("|")
        if words and (not text or is_row or re.match(r"#|<!--|!\[|[-*] |\d+\. ", text)):
            yield first, words
            words = []
        if is_row:
            yield from ((number, cell.split()) for cell in re.split(r"(?<!\\)\|", text)[1:-1])
        elif not re.match(r"#|<!--|!\[", text):
            first = first if words else number
            words += text.split()


def wrong_words(name, page):
    for number, line in numbered_lines(plain(without_written(page))):
        for pattern, better in WORDS.items():
            if re.search(pattern, line):
                yield f"{name}, line {number}: '{re.search(pattern, line)[0]}' is '{better}'"


def long_paragraphs(name, page):
    for number, words in paragraphs(page):
        if len(words) > LONGEST:
            yield f"{name}, line {number}: a paragraph of {len(words)} words, and {LONGEST} are the most"


def large_page(name, page):
    size, most = len(page.encode()), LARGEST_OF.get(name, LARGEST)
    if size > most:
        yield f"{name} has {size} bytes, and may have {most}"


def wrong(pages):
    """All that is wrong with how the pages are written."""
    return [it for name, page in pages.items() for it in (*wrong_words(name, page), *long_paragraphs(name, page), *large_page(name, page))]

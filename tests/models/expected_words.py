"""What is told as expected where a text is refused, put into that text."""
import re

PLACE = re.compile(r"^[^:]*:(\d+):(\d+): ")
QUOTED = re.compile(r'"([^"]*)"')
FIRST_QUOTED = re.compile(r'("[^"]*"(, | or )?)+')
NUMBERS = re.compile(r"\b(?:from (\d+) to (\d+)|here only (\d+)|the number (\d+))")
DIGITS = re.compile(r"\b(\d+) digits for")
FIELD = re.compile(r"\b[A-Z]+\b")


def place_of(said):
    """The line and the column that the words on a refused text name."""
    return tuple(map(int, PLACE.match(said).groups()))


def words_of(fields):
    """The words that are told: those in quotes, the least and the greatest of numbers, and contents."""
    numbers = [word for found in NUMBERS.finditer(fields) for word in found.groups() if word is not None]
    return QUOTED.findall(fields) + numbers + ["f" * int(count) for count in DIGITS.findall(fields)]


def with_word(line, column, word, form):
    """A line with another word at a column, and the words behind it as they were, as far as the form has some."""
    before, rest = line[:column - 1], line[column - 1:]
    before = before[:before.rfind(" ") + 1] if rest else before.rstrip(" ") + " "
    behind = rest.split(" ")[1:form.count(" ") - before.count(" ") + 1]
    return " ".join([before + word, *behind])


def lines_of(said, line):
    """The lines that are told as expected in place of a line; none where it is not told how they are written."""
    (_, column), expected = place_of(said), said.rpartition("; expected ")[2]
    fields, is_told, form = expected.partition(", as in ")
    if is_told and "the text ends in the middle" in said:
        return []
    if is_told:
        form = QUOTED.search(form)[1]
        return [with_word(line, column, word, form) for word in words_of(fields)]
    if expected.startswith("the end of the line"):
        return [line[:column - 1]]
    forms = FIRST_QUOTED.match(expected)
    return [form for form in QUOTED.findall(forms[0]) if not FIELD.search(form)] if forms else []


def lines_beyond(said, line):
    """The lines with the next number below those that are told as expected, and above; none where it is not told how they are written."""
    (_, column), expected = place_of(said), said.rpartition("; expected ")[2]
    fields, is_told, form = expected.partition(", as in ")
    if not is_told or "the text ends in the middle" in said or '"' in fields:
        return []
    ends = [(int(low or only or one), int(high or only or one)) for low, high, only, one in NUMBERS.findall(fields)]
    beyond = [number for low, high in ends for number in (low - 1, high + 1) if number >= 0 and len(ends) == 1]
    return [with_word(line, column, str(number), QUOTED.search(form)[1]) for number in beyond]


def put_into(said, text, lines_by):
    at = place_of(said)[0] - 1
    lines = text.split("\n")
    for line in lines_by(said, lines[at]) if at < len(lines) else ():
        yield "\n".join([*lines[:at], line, *lines[at + 1:]])


def texts_of(said, text):
    """The text with each line that is told as expected in the place of the one that is refused."""
    return put_into(said, text, lines_of)


def texts_beyond(said, text):
    """The text with each line of a number just beyond those that are told as expected there."""
    return put_into(said, text, lines_beyond)

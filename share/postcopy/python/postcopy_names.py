"""How the scripts tell the names of files: in one line, and without a character that a terminal takes for more than itself."""
import argparse
import re
import unicodedata

# Controls, formats (as a change of direction), ends of lines and of paragraphs, what was no UTF-8, and what is no character. The program
# goes by the same categories.
ODD = {"Cc", "Cf", "Zl", "Zp", "Cs", "Cn"}


def is_odd(letter):
    """Whether a character is not told as it is."""
    return unicodedata.category(letter) in ODD


def escaped(text):
    """A text whose odd characters are escaped as in a string of JSON."""
    return "".join(re.sub("(....)", r"\\u\1", it.encode("utf-16-be", "surrogatepass").hex()) if is_odd(it) else it for it in text)


def shown(name):
    """A name: one that has odd characters, or begins with a quotation mark, as a string of JSON."""
    if not any(map(is_odd, name)) and not name.startswith('"'):
        return name
    return '"' + escaped(re.sub(r'(["\\])', r"\\\1", name)) + '"'


class Words(argparse.ArgumentParser):
    """The words of a command. What is wrong with them is told with their odd characters escaped."""

    def error(self, message):
        super().error(escaped(message))

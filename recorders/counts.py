"""Numbers in the words of a command line."""
import argparse
import math


def number(text, least):
    if not (text.isascii() and text.isdecimal() and int(text) >= least):
        raise argparse.ArgumentTypeError(f"'{text}' is not a number of {least} or more")
    return int(text)


def from_0(text):
    """Returns a number of 0 or more."""
    return number(text, 0)


def seconds(text):
    """Returns a number of seconds, 0 or more."""
    try:
        value = float(text)
    except ValueError:
        value = math.nan
    if not 0 <= value < math.inf:
        raise argparse.ArgumentTypeError(f"'{text}' is not a number of 0 or more")
    return value


def above_0(text):
    """Returns a number of 1 or more. A series of none would be one in which nothing was wrong."""
    return number(text, 1)

"""The table of the command line as the program's help tells it: the commands, their words, and each way to give each of their options."""
import itertools
import re
from typing import NamedTuple

HELP = "-h, --help"


class Command(NamedTuple):
    """A command, its words as its usage has them, `<SESSION> [RUNS]`, and of each option the ways to give it, by no word too."""
    name: str
    words: str
    ways: list

    def combinations(self):
        return [sum(chosen, ()) for chosen in itertools.product(*self.ways)]


def listed(told, heading):
    """What stands in a list of a help, each with the word that it is about."""
    part = told.partition(f"\n{heading}:\n")[2].partition("\n\n")[0]
    return [tuple(re.split(r"  +", line.strip(), maxsplit=1)) for line in part.splitlines()]


def ways_of(option, about, values):
    name, takes = re.fullmatch(r"(?:-\w, )?(--[a-z-]+)( <[A-Z]+>)?", option).groups()
    if not takes:
        return [(), (name,)]
    few = re.search(r"\[possible values: (.*)\]", about)
    return [(), *((name, value) for value in (few[1].split(", ") if few else values[name]))]


def commands(tell, values):
    """The commands, where `tell` answers what the program writes. `values` has, of an option that takes any text, those that are given."""
    for name, _ in listed(tell("--help"), "Commands"):
        if name != "help":
            told = tell(name, "--help")
            words = re.search(r"^Usage: \S+ \S+ \[OPTIONS\] (.*)$", told, re.M)[1]
            yield Command(name, words, [ways_of(*it, values) for it in listed(told, "Options") if it[0] != HELP])

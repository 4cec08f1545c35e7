"""The program that has all wrong bodies of tests/planted, each behind its number (switched.py), and the tests of tests/calls: it is compiled once.

None of the bodies runs in it, so that tests of what is right run it too; `plant` makes the copy in which one does.
"""
import shutil
import tempfile

import mutants
from call_crates import copy_to, join_to
from compiled import compile_program
from switched import put_switches

BODIES = {it.name: it for it in mutants.planted()}
# The number of each body that stands in the program.
NUMBERS = {name: at + 1 for at, name in enumerate(it for it in BODIES if BODIES[it].crate)}


def program_with_bodies(made_once):
    """The program, which is compiled where it is not there yet."""
    def make(made):
        with tempfile.TemporaryDirectory(prefix="planted-") as room:
            copy_to(room)
            join_to(room)
            put_switches(room, {number: BODIES[body] for body, number in NUMBERS.items()})
            program, said = compile_program(room, "postcopy")
            if program:
                shutil.copy(program, made)
            return None if program else said[-6000:]

    return made_once.file("program with all bodies", make)

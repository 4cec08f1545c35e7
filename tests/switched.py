"""The sources with wrong bodies behind numbers, and a program of them that is told which one it has.

Each function that a body changes has all its wrong bodies beside the right one, and asks `crate::is_planted` by their numbers which of
them runs. That compares with the number of no body, so the program is right, and `plant` writes a copy of its code that compares with another
number. So one program, compiled once and with no call inlined, has as many wrong bodies as there are.
"""
import os
import re

import mutants

# The number of no body, which each `is_planted` of the right program compares with: no program has it elsewhere.
NONE = 0x7E57B0D1
# A function as 'rt fmt' lays it out, and the message of an error.
FUNCTION = re.compile(r"( *)(?:(?:pub(?:\([a-z]+\))?|const|final|unsafe) )*fn \w+")
MESSAGE = re.compile(r'( *#\[error\()(".*")(\)\])')
ASKED = f"\n/// Whether the planted body of this number runs.\npub(crate) fn is_planted(number: u32) -> bool {{\n    number == {NONE}\n}}\n"


def function_around(lines, at):
    """The function of whose body this line is one: where it begins, and the lines of its two braces."""
    for first in range(at, -1, -1):
        found = FUNCTION.match(lines[first])
        if found:
            last = lines.index(f"{found[1]}}}", first)
            opening = next(it for it in range(first, last) if lines[it].endswith("{") and (lines[it] + " ")[len(found[1])] != " ")
            if opening < at < last:
                return opening, last
            return None
    return None


def switched(text, changes):
    """A source with the changes of bodies, each (number, old, new), behind their numbers."""
    lines, places = text.split("\n"), {}
    for number, old, new in changes:
        at = text[: text.index(old)].count("\n")
        places.setdefault(function_around(lines, at) or (at, None), {}).setdefault(number, []).append((old, new))
    for (first, last), bodies in sorted(places.items(), reverse=True):
        if last is None:
            message = MESSAGE.fullmatch(lines[first])
            (number, [(_, new)]), = bodies.items()
            other = MESSAGE.fullmatch(new if new.startswith(" ") else f"    {new}")
            if not message or not other:
                raise ValueError(f"this is in no body of a function: {lines[first]}")
            lines[first] = f'{message[1]}"{{}}", if crate::is_planted({number}) {{ {other[2]} }} else {{ {message[2]} }}{message[3]}'
            continue
        right = "\n".join(lines[first + 1 : last])
        made = []
        for number, pairs in bodies.items():
            wrong = right
            for old, new in pairs:
                if wrong.count(old) != 1:
                    raise ValueError(f"in one body this stands {wrong.count(old)} times, and not once: {old}")
                wrong = wrong.replace(old, new)
            made.append(f"if crate::is_planted({number}) {{\n{wrong}\n}} else ")
        lines[first + 1 : last] = ["".join(made) + f"{{\n{right}\n}}"]
    return "\n".join(lines)


def put_switches(room, bodies):
    """Puts wrong bodies into a copy of the sources, each behind its number: `bodies` are by their numbers."""
    files = {}
    for number, body in bodies.items():
        for path, old, new in mutants.changes_in(body):
            files.setdefault(body.crate, {}).setdefault(path, []).append((number, old, new))
    for crate, changed in files.items():
        top = f"{room}/crates/{crate}/src"
        for path, changes in changed.items():
            with open(f"{room}/crates/{crate}/{path}", encoding="utf-8") as file:
                text = file.read()
            with open(file.name, "w", encoding="utf-8") as file:
                file.write(switched(text, changes))
        with open(next(it for it in (f"{top}/lib.rt", f"{top}/main.rt") if os.path.isfile(it)), "a", encoding="utf-8") as file:
            file.write(ASKED)


def plant(program, number, to):
    """Writes a copy of a program in which the wrong body of this number runs."""
    with open(program, "rb") as file:
        code = file.read()
    if NONE.to_bytes(4, "little") not in code:
        raise ValueError(f"{program} has no place for a number")
    with open(to, "wb") as file:
        file.write(code.replace(NONE.to_bytes(4, "little"), number.to_bytes(4, "little")))
    os.chmod(to, 0o755)

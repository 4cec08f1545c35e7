"""Whether crates.txt says what the crates depend on, and no more.

Each crate that a line lists has to be named by a source, a definition or a proof of the line's own crate, comments aside. A line
stands after those of the crates that it lists, and lists each once, in the order of the alphabet. The same is asked of the lines
of tests/calls/crates.list, which stand after all of crates.txt. Each line of crates.txt stands under the heading of its floor, the
lowest above those of the crates that it lists.

No definition that a reader has to believe is made of one in specs/inner: no file of specs/ outside inner imports from there, and no
clause of a call that a crate hands out names what its file imports from there. Needs no prover, and takes some two seconds.
"""
import os
import re

import pytest
from cases import count

TOP = os.path.realpath(f"{os.path.dirname(os.path.realpath(__file__))}/..")
LISTS = (("crates.txt", "crates"), ("tests/calls/crates.list", "tests/calls"))
COMMENTS = {".rt": r"//.*", ".rs": r"//.*", ".antt": r"--.*"}
INNER = re.compile(r"^ *(?:pub )?(?:ghost )?use Rattle\.\w+\.specs\.inner\b(?:\.\w+)*(?:\.\{([^}]*)\}| as (\w+))?", re.M)
CALL = re.compile(r"^( *)pub (?:unsafe )?(?:extern \"C\" )?fn (\w+)(.*?)(?:\n\1\{|;\n|\n\1 *\}\n)", re.M | re.S)


def text_of(folder):
    """The sources, definitions and proofs of a crate, with no comments."""
    texts = []
    for place, folders, files in os.walk(f"{TOP}/{folder}"):
        folders[:] = [it for it in folders if it != "out"]
        for file in files:
            comment = COMMENTS.get(os.path.splitext(file)[1])
            if comment:
                with open(f"{place}/{file}", encoding="utf-8") as opened:
                    texts.append(re.sub(comment, "", opened.read()))
    return "\n".join(texts)


def names(text, crate):
    """Whether a text names a crate, in a path or a module."""
    return any(it in text and re.search(rf"\b{re.escape(it)}", text) for it in (f"{crate}::", f"Rattle.{crate}."))


def listed():
    """Each crate of the lists: its list, its folder, and the crates that its line lists."""
    for path, folder in LISTS:
        with open(f"{TOP}/{path}", encoding="utf-8") as file:
            lines = file.read().split("\n")
        for line in lines:
            head, colon, others = line.partition("#")[0].partition(":")
            if colon:
                crate = head.split()[0]
                yield path, crate, f"{folder}/{crate}", others.split()


def wrong_lines(lines):
    """What is wrong with the lines of the lists."""
    crates, above = {crate for _, crate, _, _ in lines}, set()
    for path, crate, folder, others in lines:
        text = text_of(folder)
        for other in others:
            if not names(text, other):
                yield f"{path}: {crate} lists {other}, which nothing of it names"
            if other in crates and other not in above:
                yield f"{path}: {crate} stands before {other}, which it lists"
        if others != sorted(set(others)):
            yield f"{path}: what {crate} lists is not in the order of the alphabet, or twice there"
        above.add(crate)


def wrong_floors(text):
    """What is wrong with the floors of crates.txt."""
    floors, heading = {}, 0
    for line in text.split("\n"):
        found = re.fullmatch(r"# Floor (\d+)", line)
        if found:
            if int(found[1]) != heading + 1:
                yield f"crates.txt: floor {found[1]} stands after floor {heading}"
            heading = int(found[1])
        crate, colon, others = line.partition("#")[0].partition(":")
        if colon:
            crate = crate.split()[0]
            floors[crate] = 1 + max((floors.get(it, 0) for it in others.split()), default=0)
            if floors[crate] != heading:
                yield f"crates.txt: {crate} stands under floor {heading}, and is of floor {floors[crate]}"


def read(path):
    """A source or a definition, with no comments."""
    with open(path, encoding="utf-8") as file:
        return re.sub(COMMENTS[os.path.splitext(path)[1]], "", file.read())


def files_of(crate, part, ending):
    for place, _, files in sorted(os.walk(f"{TOP}/crates/{crate}/{part}")):
        yield from (f"{place}/{it}" for it in sorted(files) if it.endswith(ending))


def names_of_inner(text):
    """What a file calls the definitions that it imports from specs/inner."""
    words = [word for found in INNER.findall(text) for word in (*found[0].split(","), found[1])]
    return {word.split(" as ")[-1].strip() for word in words} - {""}


def handed_out(crate):
    """The names of the calls and the types that a crate hands out."""
    text = read(next(files_of(crate, "src", "lib.rt"), f"{TOP}/crates/{crate}/src/main.rt"))
    exported = re.findall(r"\w+", " ".join(re.findall(r"^pub use ([^;]*);", text, re.M)))
    return {*exported, *re.findall(r"^pub (?:extern \"C\" )?(?:fn|struct|enum|trait) (\w+)", text, re.M)}


def public_calls(crate, text):
    """The calls of a file that its crate hands out, each with its arguments and its clauses."""
    exported, owner = handed_out(crate), ""
    for part in re.split(r"^(?=impl\b|\}$)", text, flags=re.M):
        head = re.match(r"impl(?:<[^{]*?>)? (?:[^{]*? for )?(\w+)", part)
        owner = head[1] if head else "" if part.startswith("}") else owner
        yield from ((name, rest) for indent, name, rest in CALL.findall(part) if (owner if indent else name) in exported)


def inner_in_sight():
    """Where a definition of specs/inner is imported outside, or a clause of a public call names one; and how many files were read."""
    wrong, count = [], 0
    for crate in sorted(os.listdir(f"{TOP}/crates")):
        for path in files_of(crate, "specs", ".antt"):
            if "/specs/inner" not in path:
                count += 1
                wrong += [f"{os.path.relpath(path, TOP)} imports from inner"] if INNER.search(read(path)) else []
        for path in files_of(crate, "src", ".rt"):
            text = read(path)
            inner = names_of_inner(text)
            count += 1
            for name, rest in public_calls(crate, text) if inner else ():
                clauses = re.search(r"\n *(?:requires|ensures)\b.*", rest, re.S)
                arguments = set(re.findall(r"(\w+): ", rest[: clauses.start()] if clauses else rest))
                words = set(re.findall(r"(?<![\w.'-])[\w'-]+", clauses[0] if clauses else ""))
                named = (inner & words) - arguments
                if named:
                    wrong.append(f"{crate}: a clause of {name} names {', '.join(sorted(named))}, which stands in inner")
    return wrong, count


pytestmark = pytest.mark.quick


@pytest.mark.cases(380)
def test_dependencies():
    lines = list(listed())
    with open(f"{TOP}/crates.txt", encoding="utf-8") as file:
        floors = wrong_floors(file.read())
    for wrong in (*wrong_lines(lines), *floors):
        count(False, wrong)
    for _ in range(len(lines) + sum(len(others) for *_, others in lines)):
        count(True, "")


@pytest.mark.cases(600)
def test_nothing_inner_is_in_sight():
    wrong, files = inner_in_sight()
    for it in wrong:
        count(False, it)
    for _ in range(files - len(wrong)):
        count(True, "")

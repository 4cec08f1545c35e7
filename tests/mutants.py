#!/usr/bin/env python3
"""Tries mutants: wrong bodies, each of which the prover has to refuse.

    tests/mutants.py CRATE ..      every mutant of these crates
    tests/mutants.py --few [N]     N mutants of one crate, 4 where no number is given
    tests/mutants.py --check       whether each mutant can be applied, with no prover

A mutant is a line 'file: src/lib.rt', and then pairs of lines 'old: TEXT' and 'new: TEXT', where each old text stands in that file
exactly once. 'rt ci' tries those of crates/CRATE/must-fail, each a file NAME.edit. It does not try those of crates/CRATE/mutants, which are
such files too, and of crates/CRATE/mutants.edits, where each stands below a line 'mutant: NAME': a crate's first mutant costs a proof of the
whole crate. Try all of a crate, here, once its sources, its specifications or a library below it have changed. Each crate has one file
NAME.edit at least, which 'rt must-fail' reads as it is.

Those in tests/planted/CRATE.edits no clause refuses, and those in outside.edits are of files in no crate. Each has a line
'test: TEST', as pytest names a test, and perhaps 'item: NAME' for the item of that test's list (cases.each): test_planted.py shows that it finds
the body. Here they are looked at by --check alone.

--few takes some of those that 'rt ci' does not try. The commit's hash chooses which, so that over many commits each is
likely to be tried. All that it takes are of one crate, whose whole proof is paid once. Run it after 'rt ci', whose libraries it uses.

The tries are made in a copy, by 'rt must-fail', over the libraries that are proved already: all those that 'rt ci' left, or
those of 'rt check' and 'tools/build'. Any other library is proved first. The status is 0 where the prover refuses
each mutant. A mutant that can't be applied or read is not refused.
"""
import datetime
import importlib.machinery
import importlib.util
import os
import re
import shutil
import subprocess
import sys
import tempfile
from typing import NamedTuple

TOP = os.path.realpath(f"{os.path.dirname(os.path.realpath(__file__))}/..")
PARTS = ("src", "specs", "proofs")
NAME = re.compile(r"[A-Za-z0-9_-][A-Za-z0-9_.-]*")
FEW = 4


def stop(why):
    sys.exit(f"tests/mutants.py: {why}")


def crates():
    """The names that crates.txt lists."""
    with open(f"{TOP}/crates.txt", encoding="utf-8") as file:
        lines = [line.partition("#")[0] for line in file]
    return [line.partition(":")[0].split()[0] for line in lines if ":" in line]


def read(name):
    with open(f"{TOP}/{name}", encoding="utf-8") as file:
        return file.read()


class Mutant(NamedTuple):
    """A wrong body: its name, the file that has it, the crate that it is of (or '' for none), and its lines."""

    name: str
    file: str
    crate: str
    text: str

    @property
    def test(self):
        """The test that finds it, where no clause refuses it."""
        found = re.search("^test: (.*)$", self.text, re.M)
        return found[1] if found else ""

    @property
    def item(self):
        """The item of that test's list that found it last, or None where the test has no list."""
        found = re.search("^item: (.*)$", self.text, re.M)
        return found[1] if found else None


def mutants_in(file, crate):
    """The mutants of a file that has several. (What stands above the first is one whose name is none.)"""
    parts = f"\n{read(file)}".split("\nmutant: ") if os.path.isfile(f"{TOP}/{file}") else []
    split = (part.partition("\n") for part in parts if part)
    return [Mutant(name, file, crate, text) for name, _, text in split]


def mutants_of(folder, crate):
    """The mutants of a folder, each in a file of its own."""
    names = sorted(os.listdir(f"{TOP}/{folder}")) if os.path.isdir(f"{TOP}/{folder}") else []
    return [Mutant(name[:-len(".edit")] if name.endswith(".edit") else "", f"{folder}/{name}", crate, read(f"{folder}/{name}")) for name in names]


def tried_by_gate(crate):
    """The mutants that 'rt ci' tries."""
    return mutants_of(f"crates/{crate}/must-fail", crate)


def kept_back(crate):
    """The mutants that 'rt ci' does not try."""
    return mutants_of(f"crates/{crate}/mutants", crate) + mutants_in(f"crates/{crate}/mutants.edits", crate)


def mutants(crate):
    return tried_by_gate(crate) + kept_back(crate)


def planted():
    """The wrong bodies that no clause refuses."""
    return [it for crate in ("", *crates()) for it in mutants_in(f"tests/planted/{crate or 'outside'}.edits", crate)]


def require_rt():
    if not shutil.which("rt"):
        stop("the Rattle toolchain is not installed: there is no command rt")


# Whether the mutants can be applied.


class Unfit(Exception):
    """Why a mutant can't be applied."""


def changes_in(mutant):
    """What a mutant changes: file, old text and new text."""
    path, old = None, None
    for line in mutant.text.split("\n"):
        if line.startswith("file: "):
            path = line[len("file: ") :].strip()
        elif line.startswith("old: "):
            old = line[len("old: ") :]
        elif line.startswith("new:"):
            if not path or not old:
                raise Unfit("a line 'new:' has no line 'file:' or 'old:' before it")
            yield path, old, line[len("new:") :].removeprefix(" ")
            old = None
        elif line and not line.startswith(("test: ", "item: ")):
            raise Unfit(f"this is no line of a mutant: {line}")
    if not path or old is not None:
        raise Unfit("it has no pair of lines 'old:' and 'new:'")


def changed_by(mutant):
    """The files of its crate that a mutant changes, or of the tree where there is no crate, each with its new text."""
    texts, crate = {}, mutant.crate
    for path, old, new in changes_in(mutant):
        if path not in texts:
            is_there = path.startswith(tuple(f"{part}/" for part in PARTS)) if crate else not path.startswith(("crates/", "."))
            name = f"crates/{crate}/{path}" if crate else path
            if not is_there or not os.path.isfile(f"{TOP}/{name}"):
                raise Unfit(f"there is no file {name}" if is_there else f"a body of this kind is in no {path}")
            texts[path] = read(name)
        if old == new:
            raise Unfit(f"it changes nothing: {old}")
        count = texts[path].count(old)
        if count != 1:
            raise Unfit(f"in {path} this stands {count} times, and not once: {old}")
        texts[path] = texts[path].replace(old, new)
    if not texts:
        raise Unfit("it has no pair of lines 'old:' and 'new:'")
    return texts


def fault_in(mutant):
    """What is wrong with a mutant before any prover sees it, if anything is."""
    if not NAME.fullmatch(mutant.name):
        return "its name is not of letters, digits, '_', '-' and '.', in a line 'mutant: NAME' or a file's name with '.edit' at the end"
    try:
        changed_by(mutant)
    except Unfit as why:
        return str(why)
    return None


def fault_of_planted(body):
    """What is wrong with a wrong body that a test finds, if anything is."""
    found = re.fullmatch(r"(tests/test_\w+\.py)::(\w+)(\[[\w/-]+\])?", body.test)
    if not found or not os.path.isfile(f"{TOP}/{found[1]}") or f"def {found[2]}(" not in read(found[1]):
        return f"there is no test '{body.test}'"
    return fault_in(body)


def strays(files):
    """The files of mutants besides these."""
    for at, folders, names in os.walk(TOP):
        folders[:] = sorted(it for it in folders if it not in (".git", "out"))
        found = (os.path.relpath(f"{at}/{it}", TOP) for it in sorted(names) if it.endswith((".edit", ".edits")))
        yield from (it for it in found if it not in files)


def checked():
    """Whether each mutant and each planted body can be applied, and each crate has a file NAME.edit: how many of both there are, and what is wrong."""
    of_crates, others = {it: mutants(it) for it in crates()}, planted()
    every = [it for some in of_crates.values() for it in some]
    faults = [f"{it}: it is in no place whose mutants are tried" for it in strays({it.file for it in every + others})]
    faults += [f"{it} has no mutant in a file NAME.edit" for it, some in of_crates.items() if not any(one.file.endswith(".edit") for one in some)]
    for some in (*of_crates.values(), others):
        names = [it.name for it in some]
        faults += [f"{it.file}: two mutants are named {it.name}" for it in some if names.count(it.name) > 1]
    for some, fault_of in ((every, fault_in), (others, fault_of_planted)):
        told = ((it, fault_of(it)) for it in some)
        faults += [f"{it.file}, {it.name}: {why}" for it, why in told if why]
    return len(every), len(others), faults


def check():
    count, others, faults = checked()
    print("\n".join([*faults, f"{count} mutants and {others} planted bodies, {len(faults)} faults"]))
    return 1 if faults else 0


# The tries.


def tool_that_builds():
    """tools/build, which knows how the libraries of 'rt ci' are told from others."""
    loader = importlib.machinery.SourceFileLoader("build", f"{TOP}/tools/build")
    made = importlib.util.module_from_spec(importlib.util.spec_from_loader("build", loader))
    loader.exec_module(made)
    return made


def put(source, to):
    """Puts a file into the copy, without a copy of its bytes where that can be."""
    try:
        os.link(source, to)
    except OSError:
        shutil.copy2(source, to)


def copy_of(room, crate, chosen):
    """Makes a copy of the repository's crates, in which one crate has these mutants, and the libraries below it that are proved."""
    shutil.copyfile(f"{TOP}/crates.txt", f"{room}/crates.txt")
    for name in crates():
        for part in PARTS:
            if os.path.isdir(f"{TOP}/crates/{name}/{part}"):
                shutil.copytree(f"{TOP}/crates/{name}/{part}", f"{room}/crates/{name}/{part}")
    os.mkdir(f"{room}/crates/{crate}/must-fail")
    for mutant in chosen:
        with open(f"{room}/crates/{crate}/must-fail/{mutant.name}.edit", "w", encoding="utf-8") as file:
            file.write(mutant.text)
    build = tool_that_builds()
    below = next(it for it in build.library_of_rt().crates_below(f"{TOP}/crates/{crate}") if it.name == crate).below()
    # The libraries of one kind don't go with those of the other.
    are_of_gate = all(map(build.is_of_gate, below))
    proved = [it for it in below if are_of_gate or it.is_built()]
    for it in proved:
        kept = f"{room}/crates/{it.name}/out/rlib"
        shutil.copytree(f"{it.folder}/out/rlib", kept, copy_function=put)
        if are_of_gate:
            # A library of 'rt ci' has no stamp, and 'rt must-fail' takes only those that have one.
            with open(f"{kept}/stamp", "w", encoding="utf-8") as file:
                file.write(it.stamp())
    return [it.name for it in below if it not in proved]


def try_some(crate, chosen):
    """Tries mutants of a crate, and tells whether the prover refuses each, and whether one is still proved."""
    print(f"== {crate}: {len(chosen)} mutants", flush=True)
    with tempfile.TemporaryDirectory(prefix="mutants-") as room:
        unproved = copy_of(room, crate, chosen)
        if unproved:
            print(f"to be proved first: {' '.join(unproved)}", flush=True)
        ran = subprocess.run(["rt", "must-fail", crate], cwd=room, stdin=subprocess.DEVNULL, stdout=subprocess.PIPE,
                             stderr=subprocess.STDOUT, errors="replace")
    print(ran.stdout, end="", flush=True)
    refused = len(re.findall(r"^rt: must-fail \S+: refused, as it must be", ran.stdout, re.M))
    print(f"{crate}: {refused} of {len(chosen)} refused", flush=True)
    return ran.returncode == 0 and refused == len(chosen), "NOT REFUSED" in ran.stdout


def try_all(names):
    for crate in names:
        if crate not in crates():
            stop(f"crates.txt lists no {crate}")
    return 0 if all([try_some(crate, mutants(crate))[0] for crate in names]) else 1


def number_of_commit():
    """The commit's hash as a number, or the date where there is no commit."""
    ran = subprocess.run(["git", "rev-parse", "HEAD"], cwd=TOP, capture_output=True, text=True)
    return int(ran.stdout, 16) if ran.returncode == 0 else datetime.date.today().toordinal()


def try_few(count):
    groups = []
    for crate in crates():
        found = kept_back(crate)
        groups += [(crate, found[at : at + count]) for at in range(0, len(found), count)]
    if not groups:
        stop("no crate has a mutant that 'rt ci' does not try")
    crate, chosen = groups[number_of_commit() % len(groups)]
    is_well, is_proved = try_some(crate, chosen)
    if not is_well and not is_proved:
        # A prover may have been killed, for example where it ran out of memory: once more.
        is_well, _ = try_some(crate, chosen)
    return 0 if is_well else 1


def main(words):
    if words == ["--check"]:
        return check()
    if words[:1] == ["--few"] and len(words) <= 2 and all(re.fullmatch("[1-9][0-9]*", it) for it in words[1:]):
        require_rt()
        return try_few(int(words[1]) if words[1:] else FEW)
    if not words or any(it.startswith("-") for it in words):
        sys.exit(__doc__)
    require_rt()
    return try_all(words)


if __name__ == "__main__":
    sys.exit(main(sys.argv[1:]))

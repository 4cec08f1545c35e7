"""What the sources define: crates, functions with their clauses, types with their members, definitions, and all words."""
import glob
import os
import re
import sys
from fnmatch import fnmatch

import mutants
from page_text import TOP, read

sys.path.insert(0, f"{TOP}/tools")
from calls import Calls  # noqa: E402
from definitions import Definitions  # noqa: E402

ITEM = r"^(?:pub(?:\(crate\))? )?(?:struct|enum|trait|type|const|static|mod) (\w+)"
MEMBERS = r"^    (?:pub(?:\(crate\))? )?(?:fn|const) (\w+)|^    (\w+)(?:\(.*| \{.*)?,$"
OWNER = r"^(?:pub )?(?:impl(?:<[^>]*>)? (?:[^\n]* for )?|trait |enum |struct )(\w+)[^{;]*\{\n(.*?)^\}"
WORDS_IN = ("*.rt", "*.antt", "*.py", "*.c", "*.h", "*.rs", "*.toml", "*.in", "postcopy") + tuple(
    f"{folder}/*" for folder in ("bench", "recorders", "share", "tests", "tools"))


def tree():
    """Each file of the repository, but those that .gitignore names, and each folder. (A checkout may have no git, and an archive has none.)"""
    ignored = [it if it.startswith("/") else f"*/{it}" for it in read(".gitignore").split()]
    files = set()
    for at, folders, names in os.walk(TOP):
        place = at[len(TOP):]
        folders[:] = [it for it in folders if it != ".git" and not any(fnmatch(f"{place}/{it}/", pattern) for pattern in ignored)]
        files |= {f"{place}/{it}"[1:] for it in names if it != ".git" and not any(fnmatch(f"{place}/{it}", pattern) for pattern in ignored)}
    folders = {"/".join(it.split("/")[:depth]) for it in files for depth in range(1, it.count("/") + 1)}
    return files, folders


class Sources:
    def __init__(self):
        self.files, self.folders = tree()
        self.crates = {it.split("/")[1] for it in self.folders if re.fullmatch(r"crates/\w+/src", it)}
        self.test_crates = {it.split("/")[2] for it in self.folders if re.fullmatch(r"tests/calls/\w+/src", it)}
        self.functions, self.items, self.members = {}, {}, {}
        for name in sorted(self.files):
            if name.endswith(".rt"):
                self.take(name.split("/")[1], read(name))
        definitions = Definitions()
        for it in Calls(definitions).functions:
            self.functions.setdefault(it.name, []).append((it.source.crate, {one.name for one in it.clauses if one.name}))
            self.items[it.source.crate].add(it.name)
        self.definitions = {name for module in definitions.modules.values() for name in module.definitions}
        self.fields = {word for name in self.files if "/specs/" in name for word in re.findall(r"^  pub (\w+) :", read(name), re.M)}
        self.words = set().union(*(re.findall(r"\w+", read(name)) for name in self.files if is_source(name)))
        self.words |= self.crates | self.test_crates | {os.path.basename(it).partition(".")[0] for it in self.files}

    def take(self, crate, text):
        """Takes in what a file of a crate defines."""
        items = self.items.setdefault(crate, set())
        items.update(re.findall(ITEM, text, re.M))
        for names in re.findall(r"^pub use [\w:]+::(\{[^}]*\}|\w+);", text, re.M):
            items.update(re.findall(r"\w+", names))
        for owner, body in re.findall(OWNER, text, re.M | re.S):
            found = {one or other for one, other in re.findall(MEMBERS, body, re.M)}
            self.members.setdefault(owner, set()).update(found)

    def clauses(self, names):
        """All clauses of the functions of these names."""
        return set().union(*(clauses for name in names for _, clauses in self.functions.get(name, ())))

    def is_in_crate(self, crate, name):
        return name in self.items.get(crate, ())

    def is_member(self, owner, name):
        return name in self.members.get(owner, ())

    def mutants(self):
        """How many mutants there are that the prover refuses: those that the gate tries, and the others."""
        return tuple(sum(len(some(crate)) for crate in mutants.crates()) for some in (mutants.tried_by_gate, mutants.kept_back))

    def folders_in(self, folder):
        return sum(os.path.isdir(it) for it in glob.glob(f"{TOP}/{folder}/*"))


def is_source(name):
    """Whether the words of a file are names of the code."""
    is_text = not name.endswith((".md", ".svg", ".bin", ".gz", ".xz")) and not name.startswith(("examples/", "tests/cases/", "shipped/"))
    return name.endswith(".py") or is_text and any(fnmatch(name, it) for it in WORDS_IN)

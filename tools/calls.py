"""The functions of the crates with their doc comments and their clauses, and the definitions that a clause cites."""
import glob
import os
import re

from definitions import TOKEN, TOP, Imports, bare, read

GHOST_USE = re.compile(r"^ *(pub )?ghost use ([\w.«»]+?)(?:\.\{([^}]*)\}| as (\w+))?;$", re.M)
FUNCTION = re.compile(r"^ *(pub(?:\(crate\))? )?(?:extern \"C\" )?fn (\w+)")
CLAUSE = re.compile(r"^ +(requires|ensures) (?:(\w+) )?\{")

# Calls whose type has a fault of memory, and which take none: some hand on what others said, one tells it apart, and the readers of
# lines without contents never return it.
TAKE_NONE = {
    "TextReader::finish", "reason_of", "Bell::into_reason", "left_by",
    "TextFault::refused_line",
    "WideGuest::read", "WideLane::read", "WideLink::read",
}


class Clause:
    def __init__(self, kind, name, text):
        self.kind, self.name, self.text = kind, name, text


class Function:
    """A function of a crate."""

    def __init__(self, source, owner, found, first, doc, head, clauses):
        self.source, self.owner, self.name, self.first = source, owner, found[2], first
        self.is_public, self.doc, self.head, self.clauses = found[1] == "pub ", doc, head, clauses
        self.call = f"{owner}::{self.name}" if owner else self.name

    def answer(self):
        """The type that it answers, or nothing."""
        return self.head.rpartition("->")[2] if "->" in self.head else ""

    def named(self, names):
        """Its clauses of these names; all of them if there are none."""
        return [it for it in self.clauses if not names or it.name in names]


class Source:
    """A file of a crate's code."""

    def __init__(self, file):
        self.file, self.crate = file, file.split("/")[1]
        self.text = read(file)
        self.imports = Imports(GHOST_USE.findall(self.text))
        self.functions = list(self._functions())
        self.models = {it[1]: it[2] for it in re.finditer(r"^impl(?:<[^>]*>)? Model for (\w+).*?\{\n(.*?)^\}", self.text, re.M | re.S)}

    def _functions(self):
        lines, owner, doc, at = self.text.split("\n"), "", [], 0
        while at < len(lines):
            line = lines[at]
            block = re.match(r"(?:pub )?impl(?:<[^{]*?>)? (?:.* for )?(\w+)|(?:pub )?trait (\w+)", line)
            owner = (block[1] or block[2]) if block else "" if line == "}" else owner
            found = FUNCTION.match(line)
            if not found:
                doc = [*doc, line.strip()[3:].strip()] if line.strip().startswith("///") else doc if line.strip().startswith("#[") else []
                at += 1
                continue
            first = at
            head, clauses, at = self._contract(lines, at)
            yield Function(self, owner, found, first + 1, doc, head, clauses)
            doc = []

    @staticmethod
    def _contract(lines, at):
        """The head of the function that begins at a line, its clauses, and the line after these."""
        head, clauses = [], []
        while at < len(lines):
            start = CLAUSE.match(lines[at])
            if start:
                text = [lines[at].strip()]
                while bare(" ".join(text)).count("{") > bare(" ".join(text)).count("}"):
                    at += 1
                    text.append(lines[at].strip())
                clauses.append(Clause(start[1], start[2], " ".join(text)))
            elif clauses:
                break
            else:
                head.append(lines[at].strip())
                if lines[at].rstrip().endswith(("{", ";", "{}")):
                    at += 1
                    break
            at += 1
        return re.sub(r"\( ", "(", re.sub(r",? \)", ")", re.sub(r" ?\{\}?$|;$", "", " ".join(head)))), clauses, at


class Calls:
    """All functions of the crates."""

    def __init__(self, definitions):
        self.definitions = definitions
        found = sorted(glob.glob(f"{TOP}/crates/*/src/**/*.rt", recursive=True))
        self.sources = [Source(os.path.relpath(it, TOP)) for it in found]
        self.crates = sorted({it.crate for it in self.sources})
        self.functions = [one for it in self.sources for one in it.functions]

    def of(self, crate):
        return [it for it in self.sources if it.crate == crate]

    def named(self, path):
        """The functions that `crate::name`, `Type::name`, `crate::Type::name` or `name` means."""
        *owner, name = path.split("::")
        return [it for it in self.functions if it.name == name and (not owner or owner[-1] == it.owner or (owner == [it.source.crate] and not it.owner)
                                                                     ) and (len(owner) < 2 or owner[0] == it.source.crate)]

    def cited(self, function, clauses):
        """The definitions and types that some clauses of a function name, and what its arguments mean to them."""
        text = "\n".join(bare(it.text) for it in clauses)
        yield from self._in(function.source, text)
        for word in dict.fromkeys(re.findall(r"\b[A-Z]\w+", function.head + " " + function.owner)):
            for source in self._with_model(function.source, word):
                yield from self._in(source, source.models[word])

    def _with_model(self, source, word):
        """The file in which a type is declared that a contract sees as a value of a definition: this one, one of this crate, or one that
        this one imports from."""
        if word in source.models:
            return [source]
        uses = {source.crate, *re.findall(rf"^(?:pub )?use (\w+)::[^;]*\b{word}\b[^;]*;", source.text, re.M)}
        return [it for it in self.sources if word in it.models and it.crate in uses]

    def _in(self, source, text):
        for path in dict.fromkeys(TOKEN.findall(text)):
            found = source.imports.find(path)
            one = self.definitions.find(*found) if found else None
            if one:
                yield one

    def closure(self, parts):
        """All that clauses rest on: parts are functions with clauses of theirs."""
        return self.definitions.closure([one for function, clauses in parts for one in self.cited(function, clauses)])

    def exported(self, crate):
        """The names that a crate hands out."""
        root = f"crates/{crate}/src"
        text = read(f"{root}/lib.rt") if os.path.exists(f"{TOP}/{root}/lib.rt") else ""
        found = set(re.findall(r"^pub (?:extern \"C\" )?(?:fn|struct|enum|type|trait|const) (\w+)", text, re.M))
        for names in re.findall(r"^pub use \w+::(\{[^}]*\}|\w+);", text, re.M):
            found.update(re.findall(r"\w+", names))
        for module in re.findall(r"^pub mod (\w+);", text, re.M):
            found.update(re.findall(r"^pub fn (\w+)", read(f"{root}/{module}.rt"), re.M))
        return found

    def public(self, crate):
        """The public calls of a crate, file by file."""
        names = self.exported(crate)
        for source in self.of(crate):
            found = [it for it in source.functions if it.is_public and it.call.split("::")[0] in names]
            if found:
                yield source, found


def faults_of_memory(calls):
    """The types by which a call says that there was no memory."""
    enums = r"^pub enum (\w+)[^{]*\{(.*?)\n\}"
    found = (it for source in calls.sources for it in re.findall(enums, source.text, re.M | re.S))
    named = {name for name, body in found if re.search(r"^    Memory\b", body, re.M)}
    carriers = {"FaultKind": "TextFault", "StreamFaultKind": "StreamFault"}
    aliases = (it for source in calls.sources for it in re.findall(r"^pub use \w+::(\w+) as (\w+);", source.text, re.M))
    return {"AllocError"} | named | {new for old, new in aliases if old in named} | {carriers[it] for it in named & carriers.keys()}


def can_lack_memory(function, faults):
    """Whether a call of this type can answer that there is no memory. A clause may say that it never does; and where it
    answers a FaultKind, that it does."""
    types, clauses = set(re.findall(r"\w+", function.answer())), "\n".join(it.text for it in function.clauses)
    if not faults & types or function.call in TAKE_NONE or re.search(r"\.Memory → ⊥", clauses):
        return False
    return "FaultKind" not in types or "FaultKind.Memory →" in clauses


def calls_on_memory(calls):
    """For each crate the public calls that can run out of memory."""
    faults = faults_of_memory(calls)
    for crate in calls.crates:
        found = sorted({it.call for _, some in calls.public(crate) for it in some if can_lack_memory(it, faults)})
        if found:
            yield crate, found

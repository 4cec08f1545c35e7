"""The definitions that contracts cite, and what each rests on: the files crates/*/specs/**/*.antt, cut into definitions.

A definition is known by its module and its name. `closure` finds all that some definitions rest on, file by file, in an order in which
a file stands after those that it rests on: crate by crate, as crates.txt has them. What is of the toolchain's library is left out; types that the code declares are named and not
followed, since their declarations are code.
"""
import functools
import glob
import os
import re

TOP = os.path.dirname(os.path.dirname(os.path.abspath(__file__)))
USE = re.compile(r"^(pub )?use ([\w.«»]+?)(?:\.\{([^}]*)\}| as (\w+))? *$", re.M)
START = re.compile(r"^(?:abbrev |unfoldable |pub |record |data )+([^\W\d]\w*)")
TOKEN = re.compile(r"[^\W\d]\w*(?:\.\w+)*")
BINDER = re.compile(r"[({]([\w ]+) :|λ ([\w ]+)\.")


def read(name):
    with open(f"{TOP}/{name}", encoding="utf-8") as file:
        return file.read()


def bare(line):
    """A line without texts in quotation marks and without its comment."""
    return re.sub(r"--.*", "", re.sub(r'"[^"]*"', '""', line))


def names_of_use(listed):
    """The names that a list in braces brings in, each with its name where it is defined."""
    for item in filter(None, (it.strip() for it in listed.split(","))):
        name, _, other = item.partition(" as ")
        yield (other or name).strip(), name.strip()


class Imports:
    """What the `use` lines of a text bring in: names, and modules by another name."""

    def __init__(self, uses):
        self.names, self.modules, self.handed_on = {}, {}, {}
        for is_public, module, listed, other in uses:
            if other or not listed:
                self.modules[other or module.rpartition(".")[2]] = module
            for name, defined in names_of_use(listed or ""):
                self.names[name] = module, defined
                if is_public:
                    self.handed_on[name] = module, defined

    def find(self, path):
        """The module and the name that a path of names means, or None where it is of no import."""
        head, _, rest = path.partition(".")
        if head in self.names:
            return self.names[head]
        if head in self.modules and rest:
            return self.modules[head], rest.partition(".")[0]
        return None


class Definition:
    def __init__(self, module, file, name, first, above, lines):
        self.module, self.file, self.name, self.first, self.above = module, file, name, first, above
        self.text = "\n".join(lines).rstrip()
        self.lines = [it for it in self.text.split("\n") if bare(it).strip()]
        self.constructors = re.findall(r"^  (?:pub )?([^\W\d]\w*) :", self.text, re.M) if re.match(r"pub data", self.text) else []

    def only(self, fields):
        """A record with these fields alone."""
        kept = [it for it in self.text.split("\n") if not it.startswith("  pub ") or it.split()[1] in fields]
        return Definition(self.module, self.file, self.name, self.first, self.above, kept)

    def paths(self):
        """The paths of names in it, but those that it binds itself: by an equation's patterns, by a binder or as a field."""
        fields = set(re.findall(r"^  pub (\w+) :", self.text, re.M))
        for part in re.split(r"\n(?=\S)", self.text):
            part = "\n".join(map(bare, part.split("\n")))
            bound = {it for one in BINDER.findall(part) for it in " ".join(one).split()}
            if part.startswith(f"{self.name} "):
                pattern = re.split(r" =(?=\s)", part)[0]
                bound |= {it for it in TOKEN.findall(pattern)[1:] if it[0].islower() and "." not in it}
            for path in TOKEN.findall(part):
                head = path.partition(".")[0]
                if head not in bound and (head not in fields or "." not in path and not is_name_of_field(part, head)):
                    yield path


def is_name_of_field(part, name):
    """Whether a name stands in a record only as a field of it."""
    return not re.search(rf"(?<![\w.]){name}\b(?! :| =)", re.sub(rf"^  pub {name} :", "", part, flags=re.M))


class Module:
    """A file of definitions."""

    def __init__(self, file):
        self.file, text = file, read(file)
        self.name = "Rattle." + file.removeprefix("crates/").removesuffix(".antt").replace("/", ".")
        self.imports = Imports(USE.findall(text))
        self.definitions, self.comment = {}, re.match(r"(?:--.*\n)*", text)[0]
        lines, above, at = text.split("\n"), [], 0
        while at < len(lines):
            found = START.match(lines[at])
            if found and not lines[at].startswith(("pub use", "pub mod")):
                end = at + 1
                while end < len(lines) and not START.match(lines[end]) and not lines[end].startswith(("--", "use ")):
                    end += 1
                self.definitions[found[1]] = Definition(self.name, file, found[1], at + 1, above, lines[at:end])
                above, at = [], end
                continue
            above = [*above, lines[at]] if lines[at].startswith("--") else []
            at += 1
        self.by_constructor = {it: one for one in self.definitions.values() for it in one.constructors}


class Definitions:
    """All definitions of the repository."""

    def __init__(self):
        found = sorted(glob.glob(f"{TOP}/crates/*/specs/**/*.antt", recursive=True))
        files = (os.path.relpath(it, TOP) for it in found)
        self.modules = {it.name: it for it in map(Module, files)}
        self.crates = re.findall(r"^(\w+).*:", read("crates.txt"), re.M)
        self.unknown = set()

    def find(self, module, name):
        """The definition of a name in a module, also where the module only hands it on; a type of the code, as a text; or None."""
        if ".specs.declared." in module:
            return type_of_code(module, name)
        held = self.modules.get(module)
        if not held:
            return None
        if name in held.definitions:
            return held.definitions[name]
        if name in held.by_constructor:
            return held.by_constructor[name]
        if name in held.imports.handed_on:
            return self.find(*held.imports.handed_on[name])
        self.unknown.add(f"{module}.{name}")
        return None

    @functools.cache
    def cited(self, definition):
        """The definitions and the types of the code that a definition names."""
        module, cited = self.modules[definition.module], []
        for path in definition.paths():
            found = module.imports.find(path)
            one = self.find(*found) if found else module.definitions.get(path.partition(".")[0]) or module.by_constructor.get(path.partition(".")[0])
            if one and one is not definition:
                cited.append(one)
        return cited

    def closure(self, roots):
        """All that some definitions rest on, and these."""
        found, types, left = {}, set(), list(roots)
        while left:
            one = left.pop()
            if isinstance(one, str):
                types.add(one)
            elif (one.module, one.name) not in found:
                found[one.module, one.name] = one
                left += self.cited(one)
        return Closure(self, found, types)


def type_of_code(module, name):
    """A type that the code declares, as `crate::file::Type`."""
    path = module.removeprefix("Rattle.").split(".")
    crate, rest = path[0], path[3:]
    rest = [it for it in rest if it != "TheVariants"] or [name]
    return "::".join([crate, *rest])


class Closure:
    """Definitions with all that they rest on: files in an order in which they can be read, with the definitions of each that are meant."""

    def __init__(self, definitions, found, types):
        self.found, self.types = found, types
        by_file = {}
        for one in found.values():
            by_file.setdefault(one.module, []).append(one)
        order, seen = [], set()
        for module in sorted(by_file):
            self._add(definitions, module, by_file, order, seen)
        order.sort(key=lambda it: definitions.crates.index(it.split(".")[1]))
        self.files = [(definitions.modules[it].file, sorted(by_file[it], key=lambda one: one.first)) for it in order]

    def _add(self, definitions, module, by_file, order, seen):
        """Adds a file to the order, after those that it rests on."""
        if module in seen:
            return
        seen.add(module)
        for one in by_file[module]:
            for other in definitions.cited(one):
                if not isinstance(other, str) and other.module != module:
                    self._add(definitions, other.module, by_file, order, seen)
        order.append(module)

    def lines(self):
        """How many lines the definitions have, without comments."""
        return sum(len(one.lines) for one in self.found.values())

    def sum(self):
        return f"{self.lines():,} lines in {len(self.files)} files"

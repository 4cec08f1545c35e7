#!/usr/bin/env python3
"""The crates of tests in tests/calls, and copies of them beside the other crates.

    tests/call_crates.py     lays out their sources as 'rt fmt' does
"""
import os
import re
import shutil
import subprocess
import sys
import tempfile

TOP = os.path.realpath(f"{os.path.dirname(os.path.realpath(__file__))}/..")
CALLS = f"{TOP}/tests/calls"

def listed():
    """The lines of tests/calls/crates.list, by the crate's name."""
    with open(f"{CALLS}/crates.list", encoding="utf-8") as file:
        lines = [line for line in file.read().splitlines() if line and not line.startswith("#")]
    return {line.partition(":")[0]: line for line in lines}


def sources(name):
    return sorted(f"{CALLS}/{name}/{it}" for it in os.listdir(f"{CALLS}/{name}"))


def tests_of(name):
    """The tests of each module of a crate that has any, by the module's path in the program."""
    found = {}
    for source in sources(name):
        module = os.path.basename(source).removesuffix(".rs")
        with open(source, encoding="utf-8") as file:
            text = file.read()
        tests = re.findall(r"(?m)^#\[test\]\nfn (\w+)\(rt: HostRuntime\)", text)
        if len(tests) != text.count("#[test]"):
            raise ValueError(f"{source} has a test of another form")
        if tests:
            path = name if module == "lib" else f"{name}::{module}"
            found[path] = [f"{path}::{test}" for test in tests]
    return found


def copied(source, folder):
    """Where a source stands in the copy."""
    return f"{folder}/src/{os.path.basename(source).removesuffix('.rs')}.rt"


# What its main function alone may do, what the program does first, and how it runs a test.
MAY = ("std::process::Abort + std::thread::Threads + std::sync::Wait + Sync"
       " + std::net::Net<Listener = std::net::TcpListener, Stream = std::net::TcpStream>")
WORDS = "    let words = words.as_slice();\n"
ASKED = """    if words.len() == 3 && words[1] == "calls" {
        return run_test(words[2], rt, &rt);
    }
"""
RUN = """
// Runs the test of this name.
fn run_test<M: {}>(name: &str, rt: HostRuntime, main: &M) -> ExitCode {{
{}    ExitCode::from(2)
}}
"""


def called(text):
    """A source of tests as a module of the program, whose main function calls each test and has to hand it what only that function may do."""
    text = re.sub(r"(?m)^( *)#\[(?:test|cfg\(test\))\]\n *", r"\1pub ", text)
    text = re.sub(r"(?m)^(pub fn \w+)\(rt: HostRuntime\)", rf"\1<M: {MAY}>(rt: HostRuntime, main: &M)", text)
    return re.sub(r"(\bassert\w*!\()rt\b|&rt\b(?!\.)", r"\1main", text)


def join_to(room):
    """Makes the crates of tests modules of the copy of the program: by the words `calls NAME` it runs the test of this name."""
    top, lines = f"{room}/crates/postcopy/src", listed()
    for name in lines:
        os.makedirs(f"{top}/{name}")
        for source in sources(name):
            module = os.path.basename(source).removesuffix(".rs")
            with open(source, encoding="utf-8") as file:
                text = file.read().replace("crate::", f"crate::{name}::")
            with open(f"{top}/{name}.rt" if module == "lib" else f"{top}/{name}/{module}.rt", "w", encoding="utf-8") as file:
                file.write(called(text))
    with open(f"{top}/main.rt", encoding="utf-8") as file:
        text = file.read()
    if text.count(WORDS) != 1:
        raise ValueError("the program's main function is another")
    tests = [test for name in lines for some in tests_of(name).values() for test in some]
    arms = "".join(f'    if name == "{it}" {{\n        return {it}(rt, main).report(&rt);\n    }}\n' for it in tests)
    text = text.replace(WORDS, WORDS + ASKED).replace("use std::process::ExitCode;", "use std::process::{ExitCode, Termination};")
    with open(file.name, "w", encoding="utf-8") as file:
        file.write(text + RUN.format(MAY, arms) + "".join(f"mod {name};\n" for name in sorted(lines)))
    needed = {it for line in lines.values() for it in line.partition(":")[2].split()}
    with open(f"{room}/crates.txt", encoding="utf-8") as file:
        text = file.read()
    own = re.search("(?m)^postcopy: (.*)$", text)
    with open(file.name, "w", encoding="utf-8") as file:
        file.write(text.replace(own[0], f"postcopy: {' '.join(sorted({*own[1].split(), *needed}))}"))


def copy_to(room, lines=()):
    """Copies the crates' sources, and beside them those of the crates of tests, by their lines in the list."""
    for name in os.listdir(f"{TOP}/crates"):
        for part in ("src", "specs", "proofs"):
            if os.path.isdir(f"{TOP}/crates/{name}/{part}"):
                shutil.copytree(f"{TOP}/crates/{name}/{part}", f"{room}/crates/{name}/{part}")
    for name in (line.partition(":")[0] for line in lines):
        os.makedirs(f"{room}/crates/{name}/src")
        for source in sources(name):
            shutil.copy(source, copied(source, f"{room}/crates/{name}"))
    with open(f"{TOP}/crates.txt", encoding="utf-8") as file:
        text = file.read()
    with open(f"{room}/crates.txt", "w", encoding="utf-8") as file:
        file.write(text + "".join(f"{line}\n" for line in lines))


def lay_out(lines):
    with tempfile.TemporaryDirectory(prefix="lay-out-") as room:
        copy_to(room, lines.values())
        for name in lines:
            folder = f"{room}/crates/{name}"
            if subprocess.run(["rt", "fmt"], cwd=folder).returncode:
                return 1
            for source in sources(name):
                shutil.copyfile(copied(source, folder), source)
    return 0


if __name__ == "__main__":
    if len(sys.argv) > 1:
        sys.exit(__doc__)
    if not shutil.which("rt"):
        sys.exit("tests/call_crates.py: the Rattle toolchain is not installed: there is no command rt")
    sys.exit(lay_out(listed()))

"""What must be believed: the definitions that a clause rests on, in a small tree that was counted by hand, and in the repository, where one
more citation changes the page. And the reference that tools/pages writes: it has each call, each wrong body and each promise."""
import os
import re
import shutil
import subprocess
import sys

import pytest
from cases import count, same

TOP = os.path.dirname(os.path.dirname(os.path.abspath(__file__)))
sys.path.insert(0, f"{TOP}/tools")
import calls  # noqa: E402
import definitions  # noqa: E402
import reference  # noqa: E402

# (one process reads the tree's sources)
pytestmark = pytest.mark.xdist_group("reference")

# Two crates. By hand: `safe` rests on IsSafe (2 lines), Demand (4), with_cell (2), Move (3), of which the file of Moves comes first, and
# not on `start`, which IsSafe binds, nor on `unused`. The contract of `answer` rests on Told (3) too, as its argument is of a type that it sees so.
# The field `left` of Told alone (2) rests on nothing else.
TREE = {
    "crates.txt": "# Two crates\nlow: thiserror\n\nhigh staticlib: low\n",
    "crates/low/specs/Moves.antt": """-- What moves.
use Rattle.std.specs.Prelude.{ℕ, List}

-- a move
pub data Move : Type 0 where
  Here : ℕ → Move
  There : Move

-- memory with a cell
abbrev pub with_cell : ℕ → ℕ
with_cell n = n + 1 -- one more

-- nobody's
abbrev pub unused : ℕ
unused = 1
""",
    "crates/low/specs/More.antt": """-- Handed on.
pub use Rattle.low.specs.Moves.{with_cell}

abbrev pub start : ℕ
start = 7
""",
    "crates/high/specs/Safe.antt": """-- What is safe.
use Rattle.low.specs.More.{with_cell, start}
use Rattle.low.specs.Moves as moves

-- what a move demands
abbrev pub Demand : Move → ℕ → Type 0
Demand moves.There n =
    with_cell n ≡ n
Demand _ n = Unit {0}

abbrev pub IsSafe : ℕ → Type 0
IsSafe start = (n : ℕ) → Demand moves.There (n + start)

-- two numbers
pub record Told (start : ℕ) : Type 0 where
  pub left : start ≡ 1

  pub right : IsSafe left
""",
    "crates/high/src/lib.rt": """//! Answers.
ghost use Rattle.high.specs.Safe.{IsSafe};

mod held;

/// Returns what is so.
pub fn answer(held: &Held, from: Net<Stream = TcpStream>) -> Result<u8, AllocError>
    requires { 1 ≤ 2 }
    ensures safe { IsSafe result }
    ensures plain { 1 ≤ 2 }
{
    Ok(1)
}
""",
    "crates/low/src/lib.rt": """//! Types of the names of others.
pub struct Held;

impl Model for Held {
    ghost use Rattle.low.specs.Moves.{unused};

    ghost Value = { unused };
}

pub struct Stream;

impl Model for Stream {
    ghost use Rattle.low.specs.Moves.{unused};

    ghost Value = { unused };
}
""",
    "crates/high/src/held.rt": """//! What is held.
pub struct Held;

impl Model for Held {
    ghost use Rattle.high.specs.Safe.{Told};

    ghost Value = { Told 1 };
}
""",
}


@pytest.fixture
def small(tmp_path, monkeypatch):
    """The calls of the small tree."""
    for name, text in TREE.items():
        os.makedirs(os.path.dirname(f"{tmp_path}/{name}"), exist_ok=True)
        with open(f"{tmp_path}/{name}", "w", encoding="utf-8") as file:
            file.write(text)
    monkeypatch.setattr(definitions, "TOP", str(tmp_path))
    monkeypatch.setattr(calls, "TOP", str(tmp_path))
    return calls.Calls(definitions.Definitions())


def found(closure):
    return [(file, [it.name for it in some]) for file, some in closure.files], closure.lines()


@pytest.mark.quick
def test_small_tree(small):
    safe = small.definitions.closure([small.definitions.find("Rattle.high.specs.Safe", "IsSafe")])
    low, high = "crates/low/specs/Moves.antt", "crates/high/specs/Safe.antt"
    assert found(safe) == ([(low, ["Move", "with_cell"]), (high, ["Demand", "IsSafe"])], 11)
    answer, = small.named("high::answer")
    assert (answer.head, answer.doc, [it.name for it in answer.clauses]) == (
        "pub fn answer(held: &Held, from: Net<Stream = TcpStream>) -> Result<u8, AllocError>", ["Returns what is so."], [None, "safe", "plain"])
    assert found(small.closure([(answer, answer.named(["safe"]))])) == ([(low, ["Move", "with_cell"]), (high, ["Demand", "IsSafe", "Told"])], 14)
    left = small.definitions.find("Rattle.high.specs.Safe", "Told").only(("left",))
    assert found(small.definitions.closure([left])) == ([(high, ["Told"])], 2)
    assert [*calls.calls_on_memory(small)] == [("high", ["answer"])]


@pytest.fixture(scope="module")
def whole():
    return reference.Reference()


@pytest.mark.quick
def test_promises(whole):
    """Each contract in GUARANTEES is found, and each definition that a clause of the headline names there is one that it rests on."""
    page = reference.read(reference.GUARANTEES)
    rows = re.findall(r"^\| .* \| `\w+::.* \|$", page, re.M)
    assert len(rows) == len([*reference.promises(whole.calls, page)]) >= 20
    named = re.findall(r"^\| .* \| `\w+`: \*(\w+)\* \|$", page, re.M)
    assert len(named) == 9 and set(named) <= {name for _, name in whole.headline().found}
    assert whole.definitions.unknown == set()


@pytest.mark.quick
def test_inner(whole):
    """Nothing that the program or the library promises rests on a definition that only proofs use."""
    assert [it.file for it in whole.reached().found.values() if "/inner/" in it.file] == []


@pytest.mark.quick
@pytest.mark.cases(170)
def test_order(whole):
    """A file stands after those that it rests on."""
    before = set()
    for file, some in whole.reached().files:
        cited = {one.file for it in some for one in whole.definitions.cited(it) if not isinstance(one, str)} - {file}
        count(cited <= before, f"{file} stands before {', '.join(sorted(cited - before))}")
        before.add(file)


def reference_file(name):
    with open(name, encoding="utf-8") as file:
        return file.read()


@pytest.mark.cases(2200)
def test_reference(whole, room):
    """The reference has each public call with its clauses, each wrong body, each script, and each file that a promise rests on."""
    pages = whole.pages()
    for crate in whole.calls.crates:
        for _, some in whole.calls.public(crate):
            for it in some:
                count(f"### `{it.call}`" in pages["calls.md"] and all(one.text in pages["calls.md"] for one in it.clauses), f"calls.md lacks {it.call}")
    for it in reference.wrong_bodies():
        count(f"| {it.name.replace('_', ' ')} | " in pages["wrong-bodies.md"], f"wrong-bodies.md lacks {it.name}")
    for it in (one for some in reference.scripts() for one in some):
        count(f"| `{it}` | " in pages["scripts.md"], f"scripts.md lacks {it}")
    for file, some in whole.reached().files:
        count(file in pages["guarantees.md"] and all(it.text in pages["definitions.md"] for it in some), f"a page lacks {file}")
    same("the files", sorted(pages), ["calls.md", "definitions.md", "guarantees.md", "headline.md", "scripts.md", "wrong-bodies.md"])
    ran = subprocess.run([f"{TOP}/tools/pages", "--reference", room], stdout=subprocess.PIPE, stderr=subprocess.STDOUT, text=True)
    same("what is said of them", (ran.returncode, sorted(it.split(":")[0] for it in ran.stdout.splitlines())), (0, [f"{room}/{it}" for it in sorted(pages)]))
    for name, text in pages.items():
        same(name, reference_file(f"{room}/{name}"), text)


def test_new_citation(tmp_path):
    """Where the headline cites one definition more, the page of guarantees is out of date."""
    for name in ("tools", "docs", "examples", "tests/cases"):
        shutil.copytree(f"{TOP}/{name}", f"{tmp_path}/{name}", symlinks=True)
    shutil.copy(f"{TOP}/crates.txt", tmp_path)
    for crate in os.listdir(f"{TOP}/crates"):
        for part in ("src", "specs"):
            if os.path.isdir(f"{TOP}/crates/{crate}/{part}"):
                shutil.copytree(f"{TOP}/crates/{crate}/{part}", f"{tmp_path}/crates/{crate}/{part}")

    def check():
        ran = subprocess.run([f"{tmp_path}/tools/pages", "--check"], stdout=subprocess.PIPE, stderr=subprocess.STDOUT, text=True)
        return ran.returncode, ran.stdout
    assert check() == (0, "")
    path = f"{tmp_path}/crates/audit_model/specs/Laws.antt"
    with open(path, encoding="utf-8") as file:
        text = file.read()
    old = "abbrev pub ReadsFlat : Recorded → Type 0\n"
    assert text.count(old) == 1
    with open(path, "w", encoding="utf-8") as file:
        file.write(text.replace(old, "abbrev pub MoreIsRead : ℕ\nMoreIsRead = 1\n\n" + old).replace("ReadsFlat s =", "ReadsFlat s = MoreIsRead ≡ 1 →"))
    assert check() == (1, "docs/GUARANTEES.md is out of date: run tools/pages\n")

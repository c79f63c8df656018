"""tests/audit reads the sources as it says: which definitions the clauses of `run` reach, and which contracts a file has."""

from __future__ import annotations

from pathlib import Path

import pytest
from audit.contracts import contracts_in
from audit.definitions import ROOT, Definition, Module, Named, imports_of, read_module, used_by
from audit.reached import Walk

_DEFINITIONS = """\
-- Colours.
use Rattle.abi_base.specs.Lists.{◌⊕◌, first as foremost, last}

-- a colour
pub data Colour : Type 0 where
  Red : Colour
  Green : (shade : ℕ) → Colour

-- the shade of a colour, or of
-- the foremost one
abbrev pub shade_of : Colour → ℕ
shade_of Red = foremost 0 ⊕ 1
shade_of (Green shade) = shade -- never last

unfoldable pub is_red : Colour → Bool
is_red c = True
"""
_CALLS = """\
/// A list of shades. More of it is
/// said here.
pub trait Shades {
    /// The next shade.
    fn next(&mut self) -> u8
        ensures told { True } // ensures nothing
        ensures { True };
}

// A call of this file.
fn own() -> u8
    ensures same { True }
{ 1 }

impl Colour {
    /// The shade. It is a number.
    #[inline]
    pub fn shade(&self) -> u8
        ensures is { True }
        ensures small { True }
    { 1 }
}

/// Without a clause.
pub fn plain() -> u8 { 1 }
"""


def test_definitions_of_a_file(tmp_path: Path) -> None:
    path = tmp_path / "Colours.antt"
    path.write_text(_DEFINITIONS)
    module = read_module(path)
    colour = Definition("Colour", "-- a colour\npub data Colour : Type 0 where\n  Red : Colour\n  Green : (shade : ℕ) → Colour", 4)
    assert module.definitions["Colour"] == module.definitions["Red"] == module.definitions["Green"] == colour
    assert [made.lines for made in dict.fromkeys(module.definitions.values())] == [4, 5, 2]
    lists = "Rattle.abi_base.specs.Lists"
    assert module.imports == {"◌⊕◌": Named(lists, "◌⊕◌"), "foremost": Named(lists, "first"), "last": Named(lists, "last")}
    placed = Module(ROOT / "crates/abi_base/specs/In/Colours.antt", module.definitions, module.imports)
    here = "Rattle.abi_base.specs.In.Colours"
    assert set(used_by(module.definitions["shade_of"].text, placed)) == {
        Named(here, "shade_of"), Named(here, "Colour"), Named(here, "Red"), Named(here, "Green"), Named(lists, "◌⊕◌"), Named(lists, "first")}


def test_an_alias_of_a_module() -> None:
    text = "ghost use Rattle.abi_base.specs.declared.limit.Limit.TheVariants as limit;\n"
    assert imports_of(text) == {"limit": Named("Rattle.abi_base.specs.declared.limit.Limit.TheVariants", "")}


def test_contracts_of_a_file(tmp_path: Path) -> None:
    path = tmp_path / "calls.rt"
    path.write_text(_CALLS)
    assert [(made.name, made.sentence, made.clauses) for made in contracts_in(path)] == [
        ("Shades::next", "The next shade.", ("told",)), ("Colour::shade", "The shade.", ("is", "small"))]


@pytest.mark.parametrize("file, name, reached", [
    ("abi_top/specs/Verdicts.antt", "MeansYes", True),
    ("cli_args/specs/ParsedArguments.antt", "PlainArguments", True),
    ("pair_rules/specs/Closed.antt", "IsClosed", True),
    ("psabi/specs/Cleanup.antt", "cleaned_up", True),
    ("suppressions/specs/Subjects.antt", "asked", True),
    ("type_notes/specs/Notes.antt", "kind_name", False),
    ("explain/specs/Limits.antt", "limit_words", False),
])
def test_what_the_clauses_of_run_reach(file: str, name: str, reached: bool) -> None:
    """What a yes means reaches rules, call places and rule files; notes and sentences are beside the answer."""
    found = {made.name for made in Walk().run().definitions.get(ROOT / "crates" / file, [])}
    assert name in read_module(ROOT / "crates" / file).definitions and (name in found) == reached

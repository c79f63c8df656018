"""tests/wrong_edits.py: which wrong edits share a check, and what the words of a check say of each."""

from __future__ import annotations

from pathlib import Path

import pytest
from wrong_edits import Edit, Function, batches_of, bodies_of, functions_of, refused_in

_SOURCE = """\
// The most.
const MOST: usize = 5;

// One more.
fn next(count: usize) -> usize
    requires { count < 5 }
    ensures { result ≡ count + 1 }
{
    count + 1
}

impl Table {
    /// Whether nothing is there.
    pub fn is_empty(&self) -> bool
        ensures { result ≡ false }
    {
        self.count == 0
    }

    fn free(&self) -> bool {
        self.count < MOST
    }
}
"""
_EDITS = {
    "one_too_many": ("src/a/mod.rt", "    count + 1", "    count + 2"),
    "none_more": ("src/a/mod.rt", "    count + 1", "    count"),
    "never_empty": ("src/a/mod.rt", "        self.count == 0", "        false"),
    "another_most": ("src/a/mod.rt", "const MOST: usize = 5;", "const MOST: usize = 6;"),
    "without_a_contract": ("src/a/mod.rt", "        self.count < MOST", "        true"),
    "another_contract": ("src/a/mod.rt", "    ensures { result ≡ count + 1 }", "    ensures { result ≡ count }"),
}
_NEXT = Function("src/a/mod.rt", "a::next", 9, 9)
_IS_EMPTY = Function("src/a/mod.rt", "a::Table::is_empty", 17, 17)


@pytest.fixture(name="crate")
def _crate(tmp_path: Path) -> Path:
    """A crate with one source file."""
    (tmp_path / "crate/src/a").mkdir(parents=True)
    (tmp_path / "crate/src/a/mod.rt").write_text(_SOURCE)
    return tmp_path / "crate"


@pytest.fixture(name="edits")
def _edits(tmp_path: Path) -> dict[str, Edit]:
    """The edits of the crate, by their names."""
    made = {}
    for name, (path, old, new) in _EDITS.items():
        file = tmp_path / f"{name}.edit"
        file.write_text(f"file: {path}\nold: {old}\nnew: {new}\n")
        made[name] = Edit("crate", file)
    return made


def test_functions_with_a_contract() -> None:
    assert functions_of("src/a/mod.rt", _SOURCE) == [_NEXT, _IS_EMPTY]


def test_only_edits_of_bodies_with_a_contract_share_a_check(crate: Path, edits: dict[str, Edit]) -> None:
    assert {name: bodies_of(crate, edit) for name, edit in edits.items()} == {
        "one_too_many": {_NEXT},
        "none_more": {_NEXT},
        "never_empty": {_IS_EMPTY},
        "another_most": frozenset(),
        "without_a_contract": frozenset(),
        "another_contract": frozenset(),
    }
    # Two edits of one function never share a check, and an edit that would be alone in one is not tried so.
    batches = batches_of(crate, list(edits.values()))
    assert [[edit.path.stem for edit in batch] for batch in batches] == [["one_too_many", "never_empty"]]


@pytest.mark.parametrize(
    ("said", "refused"),
    [
        ("fn crate::a::next: no proof: expected answers\nfn crate::a::Table::is_empty: not proved\n", {"crate/one_too_many", "crate/never_empty"}),
        ("fn crate::a::next: not proved\nfn crate::a::Table::is_empty: proved\nfn crate::b::next: proved\n", {"crate/one_too_many"}),
        # A function that calls one that is not proved is not proved for that reason, or also for its own.
        (
            "fn crate::a::next: not proved\nfn crate::a::Table::is_empty: not proved; it calls `crate::a::next`, which is not proved\n"
            "fn crate::b::next: no proof: it calls `crate::a::next`, which is not proved\n",
            {"crate/one_too_many"},
        ),
        # A closure of a function is not proved.
        ("fn crate::a::fn::next::map: not proved\nfn crate::a::next: proved\n", {"crate/one_too_many"}),
        # Something else is not proved, so the check says nothing of the edits.
        ("fn crate::a::next: not proved\nfn crate::a::Table::is_empty: not proved\nfn crate::b::next: not proved\n", set()),
        # The check comes to no function.
        ("src/a/mod.rt:9:5: error[types]: no such name\n", set()),
    ],
)
def test_what_a_check_says_of_each_edit(edits: dict[str, Edit], said: str, refused: set[str]) -> None:
    batch = {edits["one_too_many"]: frozenset({_NEXT}), edits["never_empty"]: frozenset({_IS_EMPTY})}
    assert refused_in("crate", batch, said + "logic=not-proved\n") == refused
    assert refused_in("crate", batch, said + "only=2 proved=1\n") == refused
    assert refused_in("crate", batch, said) == set()

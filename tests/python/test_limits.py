"""docs/manual/LIMITS.md agrees with the sources, and bench/limits counts what was counted by hand."""

from __future__ import annotations

import re
import sys
from pathlib import Path

import pytest

from conftest import ROOT, done, needs

sys.path.insert(0, str(ROOT / "bench"))

from elftools.elf.elffile import ELFFile  # noqa: E402
from limits import debug_tables, elf_tables, graphs, held, rule_files  # noqa: E402
from limits.entries import Entries, Entry, Unit, read_entries  # noqa: E402
from limits.figures import Figure, constant, rate  # noqa: E402
from limits.graphs import Node  # noqa: E402
from limits.rows import ROWS, Row  # noqa: E402

_PAGE = ROOT / "docs" / "manual" / "LIMITS.md"
_MEASURED = ROOT / "docs" / "evidence" / "LIMITS.md"
_SOURCE = """
struct p { int x, y; union { int a; struct { short b, c; }; }; };
static inline __attribute__((always_inline)) int next(int x) { return x + 1; }
int f(struct p *p, struct p q) { return next(p->x) + q.y; }
"""


@pytest.mark.parametrize("row", ROWS, ids=lambda row: str(row.name))
def test_the_page_has_the_limits_of_the_sources(row: Row) -> None:
    assert f"| {row.counted} | {row.named} | {row.limit} |\n" in _PAGE.read_text()
    assert f"| {row.counted} | " in _MEASURED.read_text()


def test_the_page_names_the_constants_of_limits_with_a_fault() -> None:
    found = re.findall(r"^\| .* \| ([\d,]+) \| \d+ \| `([A-Z_]+)` in `crates/([^`]*)` \|$", _PAGE.read_text(), re.MULTILINE)
    assert len(found) == 5
    for limit, name, source in found:
        assert f"{constant(source, name):,}" == limit


def test_the_manual_page_has_the_limits_of_the_sources() -> None:
    page = (ROOT / "share" / "man" / "man1" / "abi.1").read_text()
    section = page.partition(".SH LIMITS\n")[2].partition(".SH ")[0]
    assert f"{rate('Patterns').base:,}" in section
    assert f"{constant('abi_base/src/lib.rt', 'INPUT_LIMIT'):,}" in section


@pytest.mark.parametrize("figure,text", [
    (Figure(1000, 64000), "1,000 of 64,000 (1.6 %)"),
    (Figure(1, 10_000_000), "1 of 10,000,000 (under 0.001 %)"),
    (Figure(0, 4_096), "0 of 4,096 (0 %)"),
    (Figure(0, 0), "none"),
])
def test_a_figure_is_shown(figure: Figure, text: str) -> None:
    assert str(figure) == text


@pytest.fixture(scope="module")
def library(tmp_path_factory: pytest.TempPathFactory) -> Path:
    """A small library: two nameless aggregates in a structure, which is passed by value and by pointer."""
    needs("gcc", "readelf")
    folder = tmp_path_factory.mktemp("limits")
    (folder / "small.c").write_text(_SOURCE)
    done("gcc", "-shared", "-fPIC", "-g", "-nostdlib", "-Wl,-soname,libsmall.so", folder / "small.c", "-o", folder / "small.so")
    return folder / "small.so"


def test_entries_are_counted(library: Path) -> None:
    entries = read_entries(str(library))
    tags = [entry.tag for entry in entries.types.values()]
    assert len(entries.units) == 1 and entries.lists == []
    # The inlined call of next and its parameter.
    assert held.longest_chain(entries).found == 1 and len(entries.origins) >= 2
    assert (tags.count("structure_type"), tags.count("union_type"), tags.count("member")) == (2, 1, 7)
    assert sorted(len(entry.members) for entry in entries.types.values() if entry.members) == [2, 2, 3]


def test_names_are_counted(library: Path) -> None:
    with open(library, "rb") as stream:
        elf = ELFFile(stream)
        # The reserved symbol and f.
        assert elf_tables.symbols(elf).found == 2 * 24 + 1
        assert elf_tables.exports(elf) == Figure(1, 64 * 24 * 2)
        assert elf_tables.definitions(elf) == elf_tables.needs(elf) == Figure(0, 0)
        assert elf_tables.soname(elf).found == len("libsmall.so")


# A function of the entry 5 passes the structure 1 by value, which holds the array 2 of 3 structures 3 with two members.
_NODES = {
    0: Node("void", 0, 0, 0, 0),
    1: Node("structure", 40, 0, 1, 1, [("member", 2), ("member", 4)]),
    2: Node("array", 24, 3, 0, 0, [("element", 3)]),
    3: Node("structure", 8, 0, 2, 0, [("member", 4), ("member", 4)]),
    4: Node("scalar", 4, 0, 3, 1),
    5: Node("function", 0, 0, 0, 0, [("result", 0), ("param", 1)]),
}
_TYPES = {
    1: Entry("structure_type", members=[11, 12]), 11: Entry("member", True, type=2), 12: Entry("member", False, type=6),
    2: Entry("array_type", type=3),
    3: Entry("structure_type", members=[13, 14]), 13: Entry("member", True, type=4), 14: Entry("member", True, type=4),
    6: Entry("typedef", type=3),
}


def test_types_are_counted() -> None:
    assert graphs.parts(_NODES) == 7
    # 3 for each structure inside the array, 1 for the array, 1 for the scalar and 1 for the structure.
    assert graphs.walk_steps(_NODES) == Figure(3 * 3 + 3, 64 * 6 + 16_777_216)
    assert graphs.labels(_NODES) == Figure(2, 16 * 5 + 1_048_576)
    assert graphs.letters(_NODES, 100) == Figure(6, 32 * 100 + 33_554_432)


def test_names_of_declarations_are_counted() -> None:
    lines = ["export f@@V1 entry 64 named f_impl", "export g entry 0 named g", r"export h entry 9 named a\x20b", "node 0 void"]
    assert graphs.declared_letters(lines, 100) == Figure(6 + 1 + 3, 64 * 100)


def test_what_types_hold_is_counted() -> None:
    found = held.Held(_NODES, _TYPES)
    # The structure 3 weighs 3, the array and the typedef 4 each.
    assert [found.facts(place) for place in (4, 3, 2, 6, 1, 5, None)] == [(0, 1), (1, 3), (2, 4), (2, 4), (3, 9), (4, 1), (0, 1)]


def test_links_are_counted() -> None:
    assert held.longest_chain(Entries(origins={5: 4, 4: 1, 9: 1})) == Figure(2, 8)
    assert held.longest_chain(Entries()) == Figure(0, 8)


def test_tables_that_do_not_fit_are_read_again(monkeypatch: pytest.MonkeyPatch) -> None:
    # Two tables, each with one abbreviation of one pair. First there is room to keep only one of them.
    table = bytes([1, 0x11, 0, 3, 8, 0, 0, 0])
    monkeypatch.setattr(debug_tables, "contents", lambda elf, name: 2 * table)
    monkeypatch.setattr(debug_tables, "constant", lambda source, name: 8)
    by_turns = [Unit(abbreviations=at) for at in (0, 8, 8, 0)]
    assert debug_tables.abbreviations(None, by_turns).found == 3 * 7
    monkeypatch.undo()
    monkeypatch.setattr(debug_tables, "contents", lambda elf, name: 2 * table)
    assert debug_tables.abbreviations(None, by_turns).found == 2 * 7


def test_patterns_weigh(tmp_path: Path) -> None:
    rules = tmp_path / "rules"
    rules.write_text("[suppress_type]\nname_regexp = ^a\\w\\.$\nname = plain\n")
    assert rule_files.weight(rules).found == 64 + len("^a\\w\\.$") + 64

"""The table of docs/PACKAGES.md that says which library is compared with which one: each of its rows is a test."""

from __future__ import annotations

import random
import re
from pathlib import Path
from typing import Iterator, Sequence

import pytest
from conftest import ROOT

from abi_tools.found_libraries import PackagedLibrary, Unreadable
from abi_tools.library_names import LibraryNames
from abi_tools.package_judging import file_names
from abi_tools.package_trees import File, Link, Tree
from abi_tools.pairing import Pair, _Sides, pairs_of, with_unreadable
from abi_tools.unpacking import Package

_PAGE = ROOT / "docs" / "PACKAGES.md"
_SONAME = "libx.so.1"
_PACKAGE = Package(Path("package.deb"), Tree())
_NAME = re.compile(r"(damaged )?`([^`]+)`(?: → `([^`]+)`)?")


def rows() -> Iterator[tuple[str, str, str]]:
    """The rows of the table."""
    text = _PAGE.read_text()
    start = text.index("| Old | New | Answer |")
    for line in text[start:text.index("\n\n", start)].splitlines()[2:]:
        old, new, answer = (cell.strip() for cell in line.strip("|").split("|"))
        yield old, new, answer


def side(cell: str) -> tuple[LibraryNames, list[Unreadable]]:
    """The libraries of a cell with the links to them, and the files that cannot be read."""
    tree = Tree()
    libraries, unreadable = [], []
    for damaged, short, target in _NAME.findall(cell):
        name = short.replace("/H/", "/glibc-hwcaps/")
        tree.entries[name] = Link(target) if target else File()
        if damaged:
            unreadable.append(Unreadable(name, _PACKAGE, "it is damaged"))
        elif not target:
            libraries.append(PackagedLibrary(name, Path(name), _SONAME, _PACKAGE))
    return LibraryNames(libraries, [tree]), unreadable


def said(pair: Pair, old: Sequence[PackagedLibrary], new: Sequence[PackagedLibrary]) -> str:
    """A pair in the words of the table."""
    first = None if pair.old is None else old.index(pair.old) + 1
    second = None if pair.new is None else new.index(pair.new) + 1
    if first is None and second is None:
        return "1 cannot tell" if pair.trouble.startswith("in the old packages") else "1 cannot tell new"
    if pair.trouble:
        return f"{first} cannot tell" if second is None else f"{second} cannot tell new"
    if first is None or second is None:
        return f"{first} gone" if second is None else f"{second} new"
    return f"{first} with {second}{', no yes' if pair.doubt else ''}"


@pytest.mark.parametrize("row", rows(), ids=lambda row: f"{row[0]} to {row[1]}".replace("`", ""))
def test_each_row_of_the_page_is_what_is_compared(row: tuple[str, str, str]) -> None:
    (old, old_unreadable), (new, new_unreadable) = side(row[0]), side(row[1])
    found = with_unreadable(pairs_of(old, new), old_unreadable, new_unreadable)
    assert sorted(said(pair, old.libraries, new.libraries) for pair in found) == sorted(re.split(r", (?=\d)", row[2])), found
    names = [pair.name for pair in found]
    assert len(set(names)) == len(names) == len(set(file_names(found)))


def test_no_step_is_missed_where_one_library_is_on_each_side(monkeypatch: pytest.MonkeyPatch) -> None:
    """All libraries are paired as if each step ran, for sides of names that are drawn at random."""
    draw = random.Random(7)
    folders = ("usr/lib/", "lib/", "usr/lib/x86_64-linux-gnu/", "usr/lib/H/x86-64-v3/", "opt/x/", "usr/local/lib/")
    names = [f"{folder}{name}" for folder in folders for name in (_SONAME, "libx.so.1.2", "libx.so.1.3")]
    for _ in range(400):
        sides = []
        for _ in range(2):
            picked = draw.sample(names, draw.randint(0, 2)) + [f"{draw.choice(folders)}{_SONAME}"]
            sides.append(side(" ".join([f"`{name}`" for name in picked[:-1]] + [f"`{picked[-1]}` → `{picked[0].rpartition('/')[2]}`"])))
        (old, _), (new, _) = sides
        found = pairs_of(old, new)
        with monkeypatch.context() as patched:
            patched.setattr(_Sides, "is_done", lambda _: False)
            assert pairs_of(old, new) == found


def test_too_many_pairs_are_not_left_out() -> None:
    """Each library of one soname in `usr/lib64` would be compared with each one in `usr/lib`."""
    names = ["`usr/lib/libx.so.1`", *(f"`usr/lib/{number}/x.so`" for number in "abcdefghi")]
    old = side(", ".join([*names, *(f"`usr/lib/tls{'/tls' * number}/libx.so.1` → `/usr/lib/{one}/x.so`"
                                    for number, one in enumerate("abcdefghi"))]))[0]
    new = side(", ".join([*names, *(f"`usr/lib64/tls{'/tls' * number}/libx.so.1` → `/usr/lib/{one}/x.so`"
                                    for number, one in enumerate("abcdefghi"))]))[0]
    found = pairs_of(old, new)
    assert len(found) == 10 and all("more than 64 pairs" in pair.trouble for pair in found), found


def test_the_table_has_rows() -> None:
    assert len(list(rows())) >= 34


def test_names_on_this_machine_are_safe() -> None:
    names = ["../../x", "..", ".", "", "a/b", "a_b", "A_B", "-rf", "x" * 300, "\udcff\n", "x" * 299]
    made = file_names([Pair(name, None, None) for name in names])
    assert len({name.lower() for name in made}) == len(names)
    for name in made:
        assert re.fullmatch(r"[A-Za-z0-9_+][A-Za-z0-9._+-]*", name) and len(name) < 200, name

"""`abi-packages` on packages whose links and folders lead into each other, on hard links, on headers of rpm, and on segments that mislead."""

from __future__ import annotations

import ctypes
import struct
import tarfile
from dataclasses import replace
from pathlib import Path
from typing import Sequence

import pytest
from conftest import FIRST, SECOND
from package_support import CHANGED, Build, Member, hostile_deb, installed, link, packages
from fuzz_packages import corpus as fuzzed

from abi_tools.faults import Fault
from abi_tools.loader_views import loader_view
from abi_tools.package_sides import Side

SONAME = "libshapes.so.1"
DEBUG = "usr/lib/debug"
_BUILT: dict[str, bytes] = {}
_PT_LOAD, _PT_DYNAMIC, _PT_NOTE = 1, 2, 4
_DT_SYMTAB, _DT_GNU_HASH = 6, 0x6FFFFEF5


@pytest.fixture
def library(build: Build) -> dict[str, bytes]:
    """A library, one that may not replace it, and another one."""
    if not _BUILT:
        _BUILT.update(good=build("good.so", FIRST, soname=SONAME).read_bytes(), bad=build("bad.so", CHANGED, soname=SONAME).read_bytes(),
                      other=build("other.so", SECOND, soname="libother.so.1").read_bytes())
    return _BUILT


def sides(folder: Path, old: Sequence[Sequence[Member]], new: Sequence[Sequence[Member]]) -> list[object]:
    """The arguments for packages of these members on both sides."""
    made: list[list[Path]] = [[hostile_deb(folder / f"{side}{number}.deb", members) for number, members in enumerate(packed)]
                              for side, packed in (("old", old), ("new", new))]
    return [*made[0], "--", *made[1]]


@pytest.mark.parametrize("name, target, place", (
    ("usr/lib/private/a.so", f"../debug/{SONAME}", f"{DEBUG}/{SONAME}"), ("usr/lib/private", "debug/p", f"{DEBUG}/p/{SONAME}"),
    ("usr/lib/private", f"/{DEBUG}", f"{DEBUG}/p/{SONAME}")))
def test_a_link_of_one_package_leads_to_debug_information_of_another(library: dict[str, bytes], tmp_path: Path, name: str, target: str,
                                                                     place: str) -> None:
    """In one package the library is judged; in two the packages are refused."""
    first = [Member("usr/lib/libother.so.1", library["other"]), link(name, target)]
    for contents, status in ((library["good"], 0), (library["bad"], 1)):
        both = [[*first, Member(place, one)] for one in (library["good"], contents)]
        assert packages(tmp_path, *sides(tmp_path, both[:1], both[1:])).status == status
        ended = packages(tmp_path, *sides(tmp_path, [first, [Member(place, library["good"])]], [first, [Member(place, contents)]]))
        assert ended.status == 2 and f"leads to {place}" in ended.errors and ended.out == "", ended
    # so is a package that is only searched for debug information
    files = [hostile_deb(tmp_path / f"{number}.deb", members) for number, members in enumerate((first, [Member(place, library["bad"])]))]
    with pytest.raises(Fault, match=f"leads to {place}"):
        Side.unpacked(files, tmp_path / "unpacked", shipping=1)


def test_links_in_the_folder_of_debug_information_are_followed(library: dict[str, bytes], tmp_path: Path) -> None:
    """A link from outside leads to a folder there, and a link in this folder on to the library."""
    def members(contents: bytes, target: str) -> list[Member]:
        return [link("usr/lib/p", "debug/p"), link(f"{DEBUG}/p/{SONAME}", f"../{target}/a.so"), Member(f"{DEBUG}/q/a.so", contents),
                Member(f"{DEBUG}/r/a.so", library["bad"]), Member("usr/lib/libother.so.1", library["other"])]

    old = members(library["good"], "q")
    for new, status in ((old, 0), (members(library["bad"], "q"), 1), (members(library["good"], "r"), 1)):
        ended = packages(tmp_path, *sides(tmp_path, [old], [new]))
        assert ended.status == status, ended


def test_what_depends_on_the_order_of_packages_is_refused(library: dict[str, bytes], tmp_path: Path) -> None:
    good, bad = library["good"], library["bad"]
    place = f"usr/lib/p/{SONAME}"
    first = [Member(place, good)]
    for number, (members, words) in enumerate((
            ([[*first, link("usr/lib/q", "p")], [Member(f"usr/lib/q/{SONAME}", bad)]], "the link usr/lib/q, which is a folder"),
            ([[*first, link("usr/lib/q", "p")], [Member("usr/lib/q/b.so", bad)]], "the link usr/lib/q, which is a folder"),
            ([[*first, link("usr/lib/q", "p")], [Member("usr/lib/q/text", b"text")]], "the link usr/lib/q, which is a folder"),
            ([[*first, link("usr/lib/q", "p")], [link(f"usr/lib/q/{SONAME}", "../b.so"), Member("usr/lib/b.so", bad)]], "usr/lib/q"),
            ([[*first, link("lib/q", "p")], [Member(f"usr/lib/q/{SONAME}", bad)]], "the link usr/lib/q, which is a folder"),
            ([[*first, link("usr/lib/a.so", place)], [link("usr/lib/a.so", "b.so"), Member("usr/lib/b.so", bad)]], "usr/lib/a.so"),
            ([[*first, link("usr/lib/a.so", f"p/{SONAME}")], [Member("usr/lib/a.so", b"text")]], "usr/lib/a.so"),
            ([first, [Member(place, b"text")]], place), ([first, [link(place, "b.so")]], place),
            ([first, [Member(place, kind=tarfile.DIRTYPE)]], place))):
        for order in (members, members[::-1]):
            ended = packages(tmp_path, *sides(tmp_path, [first], order))
            assert ended.status == 2 and words in ended.errors and len(ended.errors.splitlines()) == 1, (number, ended)


def test_packages_may_share_what_all_of_them_bring_alike(library: dict[str, bytes], tmp_path: Path) -> None:
    """Folders, equal links, files that are no libraries, and the links of a merged system."""
    common = [Member("usr/lib", kind=tarfile.DIRTYPE), link("usr/lib/same", "p"), Member("usr/share/doc/text", b"text")]
    first = [*common, link("lib64", "usr/lib64"), Member(f"lib/{SONAME}", library["good"]), link("usr/share/doc/q", "p")]
    second = [*common, Member("lib64", kind=tarfile.DIRTYPE), Member("lib64/libother.so.1", library["other"]),
              Member("usr/share/doc/q/text", b"other"), Member("usr/lib/p", kind=tarfile.DIRTYPE)]
    ended = packages(tmp_path, *sides(tmp_path, [first, second], [second, first]))
    assert ended.status == 0 and ended.out.endswith("2 libraries: 2 yes\n"), ended


def test_a_hard_link_to_a_symbolic_link_is_one(library: dict[str, bytes], tmp_path: Path) -> None:
    """It has the same target, but lies in another folder."""
    for name, contents, status in (("good", library["good"], 0), ("bad", library["bad"], 1)):
        members = [[Member("usr/lib/a/x.so", library["good"]), link("usr/lib/a/link", "x.so"), Member("usr/lib/b/x.so", one),
                    Member(f"usr/lib/b/{SONAME}", kind=tarfile.LNKTYPE, target="usr/lib/a/link")] for one in (library["good"], contents)]
        arguments = sides(tmp_path, members[:1], members[1:])
        assert (installed(tmp_path / "new0.deb", tmp_path / f"{name}.tree") / f"usr/lib/b/{SONAME}").read_bytes() == contents
        ended = packages(tmp_path, *arguments)
        assert ended.status == status and f"usr/lib/b/{SONAME}" not in ended.errors, ended


def test_hard_links_and_sizes_in_an_rpm_are_those_of_its_header(library: dict[str, bytes], tmp_path: Path) -> None:
    """rpm writes files as the header says: as many bytes, and the contents of the last name into all names of an inode."""
    good, bad = library["good"], library["bad"]
    old = hostile_deb(tmp_path / "old.deb", [Member(f"usr/lib/{SONAME}", good), Member("usr/lib/b.so", bad)])
    whole = [fuzzed.Member(f"./usr/lib/{SONAME}", contents=good), fuzzed.Member("./usr/lib/b.so", contents=bad)]
    linked = [whole[0], replace(whole[1], kind=tarfile.LNKTYPE)]
    one_file = [fuzzed.Member(f"./usr/lib/{SONAME}"), fuzzed.Member("./usr/lib/b.so", tarfile.LNKTYPE, good)]
    for number, (listed, members, status) in enumerate((
            (whole, whole, 0), (linked, whole, 2), (whole, one_file, 2), (one_file, one_file, 1),
            (whole[:1], [replace(whole[0], contents=good[:-1])], 2),
            ([replace(whole[0], contents=good + b"x")], whole[:1], 2), ([replace(whole[0], contents=b"")], whole[:1], 2))):
        new = tmp_path / f"{number}.rpm"
        new.write_bytes(fuzzed.rpm(listed, fuzzed.cpio(members)))
        ended = packages(tmp_path, old, "--", new)
        assert ended.status == status, (number, ended)
        assert status != 2 or "says otherwise of" in ended.errors, (number, ended)


def segments(contents: bytes) -> list[tuple[int, list[int]]]:
    """The offset and the fields of each program header."""
    at, count = struct.unpack_from("<Q", contents, 32)[0], struct.unpack_from("<H", contents, 56)[0]
    return [(at + 56 * number, list(struct.unpack_from("<IIQQQQQQ", contents, at + 56 * number))) for number in range(count)]


def with_segment(contents: bytes, before: int, **changes: int) -> bytes:
    """A library with changes of the first program header of a type: the type, the offset, or the address."""
    changed = bytearray(contents)
    at, fields = next(one for one in segments(contents) if one[1][0] == before)
    for name, value in changes.items():
        fields[{"kind": 0, "offset": 2, "address": 3}[name]] = value
    struct.pack_into("<IIQQQQQQ", changed, at, *fields)
    return bytes(changed)


def test_segments_that_name_two_dynamic_sections_are_no_yes(library: dict[str, bytes], tmp_path: Path) -> None:
    """The loader takes the last one by its address; others take the first one by its offset."""
    good = library["good"]
    dynamic = next(fields for _, fields in segments(good) if fields[0] == _PT_DYNAMIC)
    second = with_segment(good, _PT_NOTE, kind=_PT_DYNAMIC)
    moved = with_segment(good, _PT_DYNAMIC, offset=dynamic[2] + 16)
    elsewhere = with_segment(good, _PT_DYNAMIC, address=dynamic[3] + 16)
    for contents in (second, moved, elsewhere):
        for old, new in ((good, contents), (contents, good)):
            ended = packages(tmp_path, *sides(tmp_path, [[Member(f"usr/lib/{SONAME}", old)]], [[Member(f"usr/lib/{SONAME}", new)]]))
            assert ended.status == 2 and ended.out.startswith(f"cannot tell {SONAME}: "), ended


def test_addresses_in_two_segments_are_no_yes(library: dict[str, bytes], tmp_path: Path) -> None:
    """Which of them is at the address depends on the loader."""
    good = library["good"]
    loaded = next(fields for _, fields in segments(good) if fields[0] == _PT_LOAD)
    at = next(at for at, fields in segments(good) if fields[0] == _PT_NOTE)
    doubled = bytearray(good)
    struct.pack_into("<IIQQQQQQ", doubled, at, *loaded[:2], loaded[2] + 8, *loaded[3:])
    ended = packages(tmp_path, *sides(tmp_path, [[Member(f"usr/lib/{SONAME}", good)]], [[Member(f"usr/lib/{SONAME}", bytes(doubled))]]))
    assert ended.status == 2 and ended.out.startswith(f"cannot tell {SONAME}: "), ended


def entry_of(contents: bytes, tag: int) -> int:
    """Where an entry of the dynamic section lies in a file."""
    at, size = next((fields[2], fields[5]) for _, fields in segments(contents) if fields[0] == _PT_DYNAMIC)
    return next(place for place in range(at, at + size, 16) if struct.unpack_from("<q", contents, place)[0] == tag)


@pytest.mark.parametrize("tag", (_DT_SYMTAB, _DT_GNU_HASH))
def test_symbols_that_the_loader_does_not_find_are_no_yes(library: dict[str, bytes], tmp_path: Path, tag: int) -> None:
    """The dynamic section of the new library names no table of symbols, or no hash table; the sections have both."""
    hidden = bytearray(library["good"])
    struct.pack_into("<q", hidden, entry_of(library["good"], tag), 0x60000000)
    for old, new in ((library["good"], bytes(hidden)), (bytes(hidden), library["good"])):
        ended = packages(tmp_path, *sides(tmp_path, [[Member(f"usr/lib/{SONAME}", old)]], [[Member(f"usr/lib/{SONAME}", new)]]))
        assert ended.status == 2 and f"cannot tell {SONAME}: " in ended.out and "different tables of symbols" in ended.out, ended


@pytest.mark.parametrize("place, value", ((7, 9), (8, 1), (15, 1)))
def test_headers_that_the_loader_refuses_are_no_yes(library: dict[str, bytes], tmp_path: Path, place: int, value: int) -> None:
    other = bytearray(library["good"])
    other[place] = value
    (tmp_path / "other.so").write_bytes(other)
    with pytest.raises(OSError):
        ctypes.CDLL(str(tmp_path / "other.so"))
    ended = packages(tmp_path, *sides(tmp_path, [[Member(f"usr/lib/{SONAME}", library["good"])]],
                                      [[Member(f"usr/lib/{SONAME}", bytes(other))]]))
    assert ended.status == 2 and "a system that the loader refuses" in ended.out, ended


def test_symbols_of_the_hash_table_of_the_gabi_are_counted(build: Build, tmp_path: Path) -> None:
    """The sections of the old library end before the last symbol, which the loader finds by DT_HASH."""
    plain = build("old.so", FIRST, "-Wl,--hash-style=sysv", "-g", soname=SONAME)
    assert loader_view(plain).hashed > 2
    contents = bytearray(plain.read_bytes())
    table, count = struct.unpack_from("<Q", contents, 40)[0], struct.unpack_from("<H", contents, 60)[0]
    at = next(table + 64 * one for one in range(count) if struct.unpack_from("<I", contents, table + 64 * one + 4)[0] == 11)
    struct.pack_into("<Q", contents, at + 32, struct.unpack_from("<Q", contents, at + 32)[0] - 24)
    whole = [Member(f"usr/lib/{SONAME}", plain.read_bytes())]
    ended = packages(tmp_path, *sides(tmp_path, [[Member(f"usr/lib/{SONAME}", bytes(contents))]], [whole]))
    assert ended.status == 2 and "different tables of symbols" in ended.out, ended
    assert packages(tmp_path, *sides(tmp_path, [whole], [whole])).status == 0


def test_pairing_is_limited(library: dict[str, bytes], tmp_path: Path) -> None:
    """Chains of links with long targets: each of 3,000 links costs 50,000 steps."""
    far = "../" * 1300
    members = [Member(f"usr/lib/{SONAME}", library["good"]), *(link(f"c/{number}", f"{far}c/{number + 1}") for number in range(38)),
               *(link(f"c/a{number}", "0") for number in range(3000))]
    ended = packages(tmp_path, "--seconds", "1", *sides(tmp_path, [members], [members]))
    assert ended.status == 2 and ended.errors == "abi-packages: pairing the libraries took more than its limit of 1 seconds of processor time\n"

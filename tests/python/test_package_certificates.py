"""`abi-packages --verify`: a receiver checks the certificates of a packager from the packages alone."""

from __future__ import annotations

import gzip
import os
import shutil
from pathlib import Path
from typing import NamedTuple

import pytest
from abi_tools.limits import LARGEST_FILE
from conftest import FIRST, TOOLS, abi, done, run, shared, tool
from package_support import CHANGED, Build, deb, parted

SONAME = "libshapes.so.1"
SAME = FIRST.replace("* s->at->y", "+ s->at->y")


class Made(NamedTuple):
    """Old packages, new ones that may replace them, new ones that may not, and the folder with the certificate of the first pair."""

    old: list[Path]
    new: list[Path]
    broken: list[Path]
    certificates: Path


@pytest.fixture
def made(build: Build, tmp_path: Path) -> Made:
    """Packages of a library and of its debug information, and a certificate."""
    sides = []
    for name, text in (("old", FIRST), ("new", SAME), ("broken", CHANGED)):
        library, debug, _ = parted(build, tmp_path, text, name, SONAME)
        sides.append([deb(tmp_path, name, library), deb(tmp_path, f"{name}-dbgsym", debug)])
    kept = tmp_path / "certificates"
    assert tool("abi-packages", "--certificates", kept, *sides[0], "--", *sides[1]).status == 0
    return Made(sides[0], sides[1], sides[2], kept)


def verify(made: Made, *new: Path) -> tuple[int, str]:
    """The status of --verify, and its first line. Nothing in the folder may change."""
    before = {place.name: place.lstat().st_mtime_ns for place in made.certificates.iterdir()}
    ended = tool("abi-packages", "--verify", made.certificates, *made.old, "--", *new)
    assert ended.errors == "" and {place.name: place.lstat().st_mtime_ns for place in made.certificates.iterdir()} == before
    return ended.status, ended.out.splitlines()[0]


def test_a_certificate_is_checked_from_packages(made: Made) -> None:
    status, line = verify(made, *made.new)
    assert status == 0 and line == (f"yes {SONAME}: 2 exports compared, 2 with types; exports with types: old 2 of 2, new 2 of 2; "
                                    f"accepted certificate {made.certificates}/{SONAME}.cert")


def test_a_compressed_certificate_is_inflated(made: Made) -> None:
    """dh_compress leaves `NAME.cert.gz` of a certificate of more than 4 KiB. One that is damaged, cut short or too long is no yes."""
    plain, place = made.certificates / f"{SONAME}.cert", made.certificates / f"{SONAME}.cert.gz"
    packed = gzip.compress(plain.read_bytes())
    plain.unlink()
    place.write_bytes(packed)
    status, line = verify(made, *made.new)
    assert status == 0 and line.endswith(f"accepted certificate {place}"), line
    for hostile in (packed[:-9], packed + b"more", packed[:20] + b"\xff" + packed[21:], gzip.compress(b"\n" * (LARGEST_FILE + 1)), b""):
        place.write_bytes(hostile)
        status, line = verify(made, *made.new)
        assert status == 2 and line.startswith(f"cannot tell {SONAME}: {place} "), line
    place.unlink()
    place.symlink_to(made.certificates.parent / "old.deb")
    assert verify(made, *made.new)[0] == 2


def test_another_machine_accepts_it(made: Made, tmp_path: Path) -> None:
    """Other names and folders of the packages, another locale, and another seed of Python's tables."""
    there = tmp_path / "there"
    (there / "tmp").mkdir(parents=True)
    for number, file in enumerate((*made.old, *made.new)):
        shutil.copy(file, there / f"{number}.deb")
    ended = run("env", "LC_ALL=C", "PYTHONHASHSEED=7", f"TMPDIR={there}/tmp", TOOLS / "abi-packages", "--verify", made.certificates,
                "1.deb", "0.deb", "--", "3.deb", "2.deb", folder=there)
    assert ended.status == 0 and ended.out.startswith(f"yes {SONAME}: "), ended


def test_a_certificate_of_other_libraries_is_no_yes(made: Made) -> None:
    """A library that breaks, one whose debug information is missing, and the old library in place of the new one."""
    for new in (made.broken, made.new[:1], made.old):
        status, line = verify(made, *new)
        assert status == 2 and line.startswith(f"cannot tell {SONAME}: ") and "OtherInput" in line, line


def test_a_certificate_that_is_none_is_no_yes(made: Made, tmp_path: Path) -> None:
    place = made.certificates / f"{SONAME}.cert"
    text = place.read_text()
    for hostile in (text.replace("bind", "bond", 1), text.rpartition("end")[0], "", text + "\x1b[2Jyes all\n"):
        place.write_text(hostile)
        status, line = verify(made, *made.new)
        assert status == 2 and line.startswith(f"cannot tell {SONAME}: {place} is no certificate of these libraries: "), line
        assert line.isprintable()
    place.unlink()
    assert verify(made, *made.new) == (2, f"cannot tell {SONAME}: there is no certificate {place}")
    other = tmp_path / "other.cert"
    other.write_text(text)
    for make in (lambda: place.symlink_to(other), lambda: os.mkfifo(place), place.mkdir):
        make()
        status, line = verify(made, *made.new)
        assert status == 2 and line.startswith(f"cannot tell {SONAME}: "), line
        place.rmdir() if place.is_dir() and not place.is_symlink() else place.unlink()


def test_a_certificate_is_of_the_rule_file_too(made: Made, tmp_path: Path) -> None:
    rules = tmp_path / "abi.rules"
    rules.write_text("[suppress_function]\nname = call\n")
    kept = tmp_path / "with-rules"
    sides = [*made.old, "--", *made.broken]
    assert tool("abi-packages", "--rules", rules, "--certificates", kept, *sides).status == 0
    assert tool("abi-packages", "--rules", rules, "--verify", kept, *sides).status == 0
    ended = tool("abi-packages", "--verify", kept, *sides)
    assert ended.status == 2 and ended.out.startswith(f"cannot tell {SONAME}: "), ended


def test_a_library_that_is_gone_is_a_no(made: Made, tmp_path: Path, build: Build) -> None:
    library, _, _ = parted(build, tmp_path, FIRST, "next", "libshapes.so.2")
    assert verify(made, deb(tmp_path, "next", library)) == (1, f"gone {SONAME}: old.deb had it")


def test_wrong_arguments(made: Made, tmp_path: Path) -> None:
    assert tool("abi-packages", "--verify", made.certificates, "--keep", tmp_path, *made.old, "--", *made.new).status == 64
    ended = tool("abi-packages", "--verify", tmp_path / "none", *made.old, "--", *made.new)
    assert ended.status == 2 and ended.errors == f"abi-packages: there is no folder {tmp_path / 'none'}\n", ended


def test_join_debug_makes_the_same_bytes_everywhere(build: Build, tmp_path: Path) -> None:
    """From copies of the files in other folders, in other locales, with other seeds of Python's tables, and from the packages."""
    whole = [build(f"{number}.so", text, "-g", "-gz", soname=f"lib{number}.so.1") for number, text in ((1, FIRST), (2, CHANGED))]
    debugs = []
    for library in whole:
        done("objcopy", "--decompress-debug-sections", library)
        debug = tmp_path / f"{library.stem}.debug"
        done("objcopy", "--only-keep-debug", library, debug)
        done("objcopy", "--strip-debug", f"--add-gnu-debuglink={debug}", library, library.with_suffix(".stripped"))
        debugs.append(debug)
    shared(debugs, tmp_path / "supplementary", "-M", "../supplementary")
    joined = set()
    settings_of = (("LC_ALL=C", "PYTHONHASHSEED=0"), ("LC_ALL=C.UTF-8", "PYTHONHASHSEED=1"), ("LANG=", "PYTHONHASHSEED=2"))
    for number, settings in enumerate(settings_of):
        folder = tmp_path / f"machine-{number}/usr/lib/debug/any"
        folder.mkdir(parents=True)
        shutil.copy(tmp_path / "1.stripped", folder / "lib1.so")
        shutil.copy(debugs[0], folder / "1.debug")
        shutil.copy(tmp_path / "supplementary", folder.parent / "supplementary")
        done("env", *settings, TOOLS / "join-debug", "--root", tmp_path / f"machine-{number}", "lib1.so", "joined.so", "1.debug",
             folder=folder)
        joined.add((folder / "joined.so").read_bytes())
    assert len(joined) == 1
    assert abi("exports", tmp_path / "machine-0/usr/lib/debug/any/joined.so").out.count("untyped") == 0

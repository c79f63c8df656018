"""Unpacked trees as packages, and packages with those of their debug information, as `abi-release` reads them."""

from __future__ import annotations

import os
import signal
import tarfile
from pathlib import Path
from typing import Any

import pytest
from conftest import FIRST, TOOLS, done, run
from package_support import CHANGED, Build, Member, deb, hostile_deb, link

from abi_tools.found_libraries import contents_of
from abi_tools.package_sides import Side
from abi_tools.unpacked_trees import folder_package

SONAME = "libshapes.so.1"


def test_nothing_but_files_is_opened(build: Build, tmp_path: Path) -> None:
    """A FIFO, which would wait for ever, a device, links out of the tree, a loop, and a program without section headers."""
    library = build("good.so", FIRST, soname=SONAME)
    root = tmp_path / "root"
    (root / "usr/lib").mkdir(parents=True)
    (root / "usr/lib" / SONAME).write_bytes(library.read_bytes())
    os.mkfifo(root / "usr/lib/libfifo.so")
    (root / "usr/lib/libzero.so").symlink_to("/dev/zero")
    (root / "usr/lib/libout.so").symlink_to(library)
    (root / "usr/loop").symlink_to("../usr")
    (root / "outside").symlink_to("/usr/lib")
    (tmp_path / "main.c").write_text("int main(void) { return 0; }\n")
    done("gcc", "-o", tmp_path / "program", tmp_path / "main.c")
    bare = bytearray((tmp_path / "program").read_bytes())
    bare[40:48], bare[58:64] = bytes(8), bytes(6)
    (root / "usr/lib/bare").write_bytes(bare)
    signal.alarm(20)
    found = contents_of(folder_package(root))
    signal.alarm(0)
    assert [(one.name, one.soname, one.trouble) for one in found.libraries] == [(f"usr/lib/{SONAME}", SONAME, "")]
    assert found.unreadable == [] and found.others == 1


def test_what_only_root_may_read_is_no_answer(build: Build, tmp_path: Path, monkeypatch: pytest.MonkeyPatch) -> None:
    """A program of mode 4111 is no library; a library or a folder that cannot be read may be one."""
    library = build("good.so", FIRST, soname=SONAME)
    for name in ("usr/lib/good.so", "usr/lib/locked.so", "usr/bin/locked", "usr/lib/folder/x.so"):
        (tmp_path / "root" / name).parent.mkdir(parents=True, exist_ok=True)
        (tmp_path / "root" / name).write_bytes(library.read_bytes())
    opened, listed = os.open, os.scandir

    def refusing(path: Any, *arguments: Any, **more: Any) -> int:
        if "locked" in str(path):
            raise PermissionError(13, "Permission denied", str(path))
        return opened(path, *arguments, **more)

    def refusing_folder(path: Any) -> Any:
        if str(path).endswith("folder"):
            raise PermissionError(13, "Permission denied", str(path))
        return listed(path)

    monkeypatch.setattr(os, "open", refusing)
    monkeypatch.setattr(os, "scandir", refusing_folder)
    found = contents_of(folder_package(tmp_path / "root"))
    assert [one.name for one in found.libraries] == ["usr/lib/good.so"]
    assert [(one.name, one.reason) for one in found.unreadable] == [
        ("usr/lib/folder", "Permission denied"), ("usr/lib/locked.so", "Permission denied")]


def test_debug_packages_ship_no_libraries(build: Build, tmp_path: Path) -> None:
    """As libpython3.11-dbg does: a library for debugging is none of the three packages that name the debug package."""
    good, bad = build("good.so", FIRST, soname=SONAME), build("bad.so", CHANGED, soname="libdebug.so.1")
    first = deb(tmp_path, "first", {f"usr/lib/{SONAME}": good})
    debug = deb(tmp_path, "first-dbg", {"usr/lib/libdebug.so.1": bad})
    assert [one.soname for one in Side.unpacked([first, debug], tmp_path / "both", shipping=1).libraries] == [SONAME]
    assert {one.soname for one in Side.unpacked([first, debug], tmp_path / "all").libraries} == {SONAME, "libdebug.so.1"}
    for side in ("old", "new"):
        (tmp_path / side).mkdir()
        for package in (first, debug):
            (tmp_path / side / f"{package.stem}_1_amd64.deb").write_bytes(package.read_bytes())
    ended = run(TOOLS / "abi-release", "old", "new", "--out", "out", "--workers", "1", "--memory", "1000", folder=tmp_path)
    assert ended.status == 0 and "1 line: 1 yes" in ended.out, ended


def test_a_file_of_two_packages_is_refused(build: Build, tmp_path: Path) -> None:
    good = build("good.so", FIRST, soname=SONAME).read_bytes()
    made = [hostile_deb(tmp_path / f"{name}.deb", [Member("usr", kind=tarfile.DIRTYPE), Member(f"usr/lib/{SONAME}", good)])
            for name in ("one", "two")]
    with pytest.raises(Exception, match="another package brings, too"):
        Side.unpacked(made, tmp_path / "both")
    other = hostile_deb(tmp_path / "other.deb", [link(f"usr/lib/{SONAME}", "other.so")])
    for number, files in enumerate(((made[0], other), (other, made[0]))):
        with pytest.raises(Exception, match="another package brings, too"):
            Side.unpacked(files, tmp_path / str(number))

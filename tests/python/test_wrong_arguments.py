"""What the tools say of arguments that are wrong, and of files that are none."""

from __future__ import annotations

from pathlib import Path

import pytest
from conftest import script, tool

_PACKAGES = ("one.deb", "--", "two.deb")


@pytest.mark.parametrize("name, arguments, said", (
    ("abi-packages", ("one.deb",), "the new packages are missing: they come after --; or --fetch gets the old ones"),
    ("abi-packages", ("one.deb", "--"), "the new packages are missing: they come after --; or --fetch gets the old ones"),
    ("abi-packages", ("--mirror", "http://localhost bookworm main", *_PACKAGES), "--mirror says where --fetch looks: give --fetch, too"),
    ("abi-packages", ("--fetch", "--mirror", "http://localhost/debian", "one.deb"),
     "argument --mirror: http://localhost/debian is no line of sources.list(5): it needs an address and a suite"),
    ("abi-packages", ("--fetch", "--mirror", "[trusted=yes] ./", "one.deb"),
     "argument --mirror: [trusted=yes] ./ is no line of sources.list(5): it needs an address and a suite"),
    ("abi-packages", ("--debuginfod", "localhost:8002", *_PACKAGES),
     "argument --debuginfod: localhost:8002 is no address of a server: it must begin with http:// or https://"),
    ("abi-packages", ("--seconds", "1m", *_PACKAGES), "argument --seconds: 1m is no number above 0"),
    ("abi-packages", ("--workers", "0", *_PACKAGES), "argument --workers: 0 is no number above 0"),
    ("abi-packages", ("--memory", "-1", *_PACKAGES), "argument --memory: -1 is no number above 0"),
    ("abi-packages", ("--require-types", "most", *_PACKAGES), "argument --require-types: most is no percentage from 0 to 100"),
    ("abi-packages", ("--require-types", "101", *_PACKAGES), "argument --require-types: 101 is no percentage from 0 to 100"),
    ("abi-packages", ("--require-types", "nan", *_PACKAGES), "argument --require-types: nan is no percentage from 0 to 100"),
    ("abi-gate", ("--require-types", "-1", "old.so", "new.so"), "argument --require-types: -1 is no percentage from 0 to 100"),
    ("abi-gate", ("--seconds", "²", "old.so", "new.so"), "argument --seconds: ² is no number above 0"),
    ("abi-gate", ("old.so",), "it takes an old and a new library"),
))
def test_a_sentence_says_what_is_wrong(name: str, arguments: tuple[str, ...], said: str) -> None:
    ended = tool(name, *arguments)
    assert (ended.status, ended.out) == (64, ""), ended
    assert ended.errors.startswith(f"usage: {name} ") and ended.errors.splitlines()[-1] == f"{name}: {said}", ended


@pytest.mark.parametrize("name", ("abi-baseline", "abi-gate", "abi-history", "abi-packages", "abi-release", "abi-report", "join-debug",
                                  "make-packages"))
def test_all_tools_have_one_convention(name: str, tmp_path: Path) -> None:
    """64 for wrong arguments, and the usage; 2 and a sentence where a file is missing. 1 means no."""
    ended = script(name, "--not-an-option")
    assert (ended.status, ended.out) == (64, "") and ended.errors.startswith(f"usage: {name} "), ended
    files = {"abi-packages": ("none.deb", "--", "none.deb"), "abi-history": ("1=none.so", "2=none.so"), "abi-release": ("--out", "out", "old", "new"),
             "make-packages": ("--version", "1", "prefix", "made")}
    ended = script(name, *files.get(name, ("none.so", "other.so")), folder=tmp_path)
    assert ended.status == 2 and len((ended.errors or ended.out).splitlines()) == 1, ended


def test_a_folder_is_no_package(tmp_path: Path) -> None:
    """A maintainer may give the folder in which the packages are."""
    ended = tool("abi-packages", "--certificates", tmp_path / "kept", tmp_path, "--", tmp_path)
    assert (ended.status, ended.out, ended.errors) == (2, "", f"abi-packages: {tmp_path} is a folder: name the packages in it\n"), ended

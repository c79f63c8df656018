"""The macros for rpmbuild and the module for CMake: each with a project that knows nothing but them."""

from __future__ import annotations

import os
import shutil
from pathlib import Path

import pytest

from conftest import ROOT, TOOLS, Ended, done, needs, path_without_tools, run, tool

SOURCE = (ROOT / "examples/stream/stream.c").read_text()
BREAK = SOURCE.replace("unsigned char *next;", "unsigned char *next; long position;")
# A release whose structure has two bytes of padding at its end, and a build that has a member there.
PADDED = SOURCE.replace("int status;", "short status;")
FILLED = SOURCE.replace("int status;", "short status, more;")
YES = "yes: 2 exports compared, 2 with types"
STRICT = "cannot tell: 2 differences that no rule judges can break compiled callers: member in padding: "
BROKEN = "L7 stream_left param 1 / target: member left at bit"

SPEC = """\
Name: stream
Version: 1.0
Release: 1
Summary: Small library
License: MIT
%description
A small library.
%build
gcc -g -O1 -fPIC -shared -Wl,-soname,libstream.so.1 -o libstream.so.1 %{sources}/stream.c
%check
%abi_check WORDS%{sources}/released.abi libstream.so.1
%abi_baseline libstream.so.1 kept.abi
test -s kept.abi
%files
"""
CMAKE = """\
cmake_minimum_required(VERSION 3.18)
project(stream LANGUAGES C)
add_library(stream SHARED stream.c)
set_target_properties(stream PROPERTIES SOVERSION 1)
target_compile_options(stream PRIVATE -g)
enable_testing()
find_package(Abi REQUIRED)
abi_add_test(TARGET stream)
"""
OPTIONS = "NAME interface RULES abi.rules BASELINE abi/stream.abi"


@pytest.fixture
def prefix(tmp_path: Path, monkeypatch: pytest.MonkeyPatch) -> Path:
    """A folder with the programs and modules, as an installation has them, whose programs alone are on the PATH."""
    folder = tmp_path / "prefix"
    (folder / "bin").mkdir(parents=True)
    (folder / "bin/abi").symlink_to(Path(os.environ["ABI"]).resolve())
    for name in ("abi-gate", "abi-baseline"):
        (folder / "bin" / name).symlink_to(TOOLS / name)
    shutil.copytree(ROOT / "share", folder / "share")
    monkeypatch.setenv("PATH", f"{folder / 'bin'}:{path_without_tools(tmp_path / 'others/bin')}")
    monkeypatch.delenv("ABI")
    return folder


def rpm_build(folder: Path, words: str = "") -> Ended:
    """A build with the macros, which rpm finds in its own folders if they are installed."""
    (folder / "stream.spec").write_text(SPEC.replace("WORDS", words))
    usual = done("rpm", "--eval", "%{_rpmconfigdir}").strip()
    options = ("--define", f"_topdir {folder / 'made'}", "--define", f"sources {folder}", "--define", "debug_package %{nil}")
    return run("rpmbuild", f"--load={TOOLS / 'rpm/macros.abi'}", "-bb", *options, folder / "stream.spec", folder=Path(usual))


def kept(folder: Path, source: str) -> None:
    """Makes the baseline of a release with this source."""
    (folder / "stream.c").write_text(source)
    library = folder / "libstream.so.1"
    done("gcc", "-g", "-O1", "-fPIC", "-shared", "-Wl,-soname,libstream.so.1", "-o", library, folder / "stream.c")
    assert tool("abi-baseline", library, folder / "released.abi").status == 0


def test_rpm_macros(prefix: Path, tmp_path: Path) -> None:
    needs("rpmbuild", "rpm", "gcc")
    kept(tmp_path, SOURCE)
    ended = rpm_build(tmp_path)
    assert ended.status == 0 and YES in ended.out and "--require-types 90" in ended.errors, ended
    (tmp_path / "stream.c").write_text(BREAK)
    ended = rpm_build(tmp_path)
    assert ended.status != 0 and BROKEN in ended.out, ended
    (tmp_path / "abi.rules").write_text("[suppress_type]\nname = stream\n")
    ended = rpm_build(tmp_path, f"-r {tmp_path}/abi.rules -t 50 ")
    assert ended.status == 0 and YES in ended.out and "--require-types 50" in ended.errors, ended
    kept(tmp_path, PADDED)
    (tmp_path / "stream.c").write_text(FILLED)
    assert rpm_build(tmp_path).status == 0
    ended = rpm_build(tmp_path, "-s ")
    assert ended.status != 0 and STRICT in ended.out, ended


def cmake_build(folder: Path, *options: object) -> Ended:
    """Configures, builds and tests the project."""
    done("cmake", "-S", folder, "-B", folder / "build", *options)
    done("cmake", "--build", folder / "build")
    return run("ctest", "--output-on-failure", "-V", folder=folder / "build")


def test_cmake_module(prefix: Path, tmp_path: Path) -> None:
    """CMake finds the module by the folder `bin` of the installation on the PATH."""
    needs("cmake", "ctest")
    folder = tmp_path / "stream"
    folder.mkdir()
    (folder / "stream.c").write_text(SOURCE)
    (folder / "CMakeLists.txt").write_text(CMAKE)
    ended = cmake_build(folder)
    assert ended.status != 0 and "abi-baseline LIBRARY FILE" in ended.out, ended
    done("cmake", "--build", folder / "build", "--target", "keep-abi-stream")
    ended = cmake_build(folder)
    assert ended.status == 0 and YES in ended.out and "abi-stream" in ended.out, ended
    (folder / "stream.c").write_text(BREAK)
    ended = cmake_build(folder)
    assert ended.status != 0 and BROKEN in ended.out, ended
    (folder / "abi.rules").write_text("[suppress_type]\nname = stream\n")
    (folder / "CMakeLists.txt").write_text(CMAKE.replace("TARGET stream)", f"TARGET stream {OPTIONS})"))
    ended = cmake_build(folder)
    assert ended.status == 0 and YES in ended.out and "interface" in ended.out, ended
    (folder / "stream.c").write_text(PADDED)
    (folder / "CMakeLists.txt").write_text(CMAKE)
    cmake_build(folder)
    done("cmake", "--build", folder / "build", "--target", "keep-abi-stream")
    (folder / "stream.c").write_text(FILLED)
    assert cmake_build(folder).status == 0
    (folder / "CMakeLists.txt").write_text(CMAKE.replace("TARGET stream)", "TARGET stream STRICT)"))
    ended = cmake_build(folder)
    assert ended.status != 0 and STRICT in ended.out, ended
    (folder / "CMakeLists.txt").write_text(CMAKE.replace("TARGET stream)", "stream)"))
    ended = run("cmake", "-S", folder, "-B", folder / "build")
    assert ended.status != 0 and "abi_add_test takes TARGET" in ended.errors


def test_cmake_module_without_programs(prefix: Path, tmp_path: Path, monkeypatch: pytest.MonkeyPatch) -> None:
    """A module that finds no programs says so, and a project may go on."""
    needs("cmake")
    for name in ("abi-gate", "abi-baseline"):
        (prefix / "bin" / name).unlink()
    folder = tmp_path / "stream"
    folder.mkdir()
    (folder / "stream.c").write_text(SOURCE)
    text = CMAKE.replace("Abi REQUIRED)", "Abi)\nif(Abi_FOUND)") + "endif()\n"
    (folder / "CMakeLists.txt").write_text(text)
    # not in the folders of the system, where a package of abi may be installed
    words = ("cmake", "-S", folder, "-B", folder / "build", "-DCMAKE_FIND_USE_CMAKE_SYSTEM_PATH=OFF")
    ended = run(*words)
    assert ended.status == 0 and "there is no abi-gate" in ended.out + ended.errors, ended
    (folder / "CMakeLists.txt").write_text(CMAKE)
    ended = run(*words)
    assert ended.status != 0 and "Abi" in ended.errors, ended

"""How much must have types for a yes: all tools that judge ask for the same share of the compared exports, and say what it was."""

from __future__ import annotations

from pathlib import Path

import pytest
from conftest import TOOLS, Ended, abi, done, run
from release_support import deb

SONAME = "libten.so.1"
SAID = "1 of 10 exports have types in both libraries, which is less than 90 of 100: no types of "
# One function with types, and nine in a unit without debug information, whose signatures change.
_TYPED = "int first(int a) { return a; }\n"
_NINE = "".join(f"int f{number}(int a) {{ return a + {number}; }}\n" for number in range(9))
_OTHER_NINE = "".join(f"int f{number}(int *a, long b) {{ return *a + b + {number}; }}\n" for number in range(9))


@pytest.fixture
def libraries(tmp_path: Path) -> tuple[Path, Path]:
    """Two libraries with ten exports, of which one has types. `abi` says yes of them."""
    made = []
    for name, second in (("old", _NINE), ("new", _OTHER_NINE)):
        for number, text, option in ((1, _TYPED, "-g"), (2, second, "-g0")):
            (tmp_path / f"{name}-{number}.c").write_text(text)
            done("gcc", "-fPIC", "-c", option, "-o", tmp_path / f"{name}-{number}.o", tmp_path / f"{name}-{number}.c")
        made.append(tmp_path / f"{name}.so")
        done("gcc", "-shared", f"-Wl,-soname,{SONAME}", "-o", made[-1], tmp_path / f"{name}-1.o", tmp_path / f"{name}-2.o")
    assert abi("check", *made).status == 0
    return made[0], made[1]


def ended(tool: str, folder: Path, libraries: tuple[Path, Path], *options: str) -> Ended:
    """How a tool ends that judges both libraries, or their packages."""
    old, new = libraries
    if tool in ("abi-gate", "abi-report"):
        return run(TOOLS / tool, *options, old, new)
    if tool == "abi-history":
        return run(TOOLS / tool, *options, "--out", folder / "history", f"1={old}", f"2={new}")
    sides = [folder / name for name in ("before", "after")]
    for side, library in zip(sides, libraries):
        if not side.exists():
            deb(side, "libten1", {f"usr/lib/{SONAME}": library})
    if tool == "abi-release":
        return run(TOOLS / tool, *options, "--out", folder / "release", "--workers", "1", *sides)
    files = [next(side.glob("*.deb")) for side in sides]
    return run(TOOLS / tool, *options, "--certificates", folder / "certificates", files[0], "--", files[1])


@pytest.mark.parametrize("tool", ("abi-gate", "abi-packages", "abi-release", "abi-history", "abi-report"))
def test_one_typed_export_of_ten_is_no_yes(tool: str, libraries: tuple[Path, Path], tmp_path: Path) -> None:
    """The share is 90 of 100, unless another number is asked for."""
    kept = tmp_path / "release/release.json"
    first = ended(tool, tmp_path, libraries)
    printed = first.out + (kept.read_text() if kept.exists() else "")
    assert first.status == 2 and SAID in printed, first
    assert ended(tool, tmp_path, libraries, "--require-types", "11").status == 2
    second = ended(tool, tmp_path, libraries, "--require-types", "10")
    assert second.status == 0, second
    if tool in ("abi-gate", "abi-packages"):
        assert "10 exports compared, 1 with types (10 % of the 10 that can have some)" in second.out, second

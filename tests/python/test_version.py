"""What the programs print for --version agrees with the places that name the release, the logic of the kit and the formats."""

from __future__ import annotations

import os
import re
from pathlib import Path

from conftest import ROOT, abi, run

from abi_tools import VERSION

_CRATES = ROOT / "crates"


def _found(path: Path, pattern: str) -> str:
    """What the group of a pattern finds in a file, where the pattern must match once."""
    found: list[str] = re.findall(pattern, path.read_text(), re.MULTILINE | re.DOTALL)
    assert len(found) == 1, f"{path}: {pattern} matches {len(found)} times"
    return found[0]


def _text(program: str) -> str:
    """The version text of a program, from the source."""
    return program + _found(_CRATES / "cli_args/src/release.rt", r'const ABOUT: &str = "([^"]*)";')


def test_the_release_is_that_of_the_tools() -> None:
    assert _text("abi").splitlines()[0] == f"abi {VERSION}"
    assert _found(ROOT / "pyproject.toml", r'^version = "([^"]*)"$') == VERSION
    releases = re.findall(r"^## ([0-9.]+) \(", (ROOT / "CHANGELOG.md").read_text(), re.MULTILINE)
    assert releases[0] == VERSION
    assert set(re.findall(r"abi_([0-9.]+)_amd64\.deb", (ROOT / "README.md").read_text())) == {VERSION}


def test_the_logic_is_that_of_the_readme() -> None:
    logic = _found(ROOT / "README.md", r"^Proved with the logic `([0-9a-f]{16})` of Rattle")
    pages = (ROOT / "README.md").read_text() + (ROOT / "CONTRIBUTING.md").read_text()
    assert set(re.findall(r"logic `?([0-9a-f]{16})\b", pages)) == {logic}
    assert _text("abi").splitlines()[1] == f"proved with Rattle, logic {logic}"


def test_the_formats_are_those_of_the_sources() -> None:
    answers = re.findall(r'Version::\w+ => b"yes (\d+)"', (_CRATES / "cert_text/src/head.rt").read_text())
    written = _found(_CRATES / "cert_text/src/writing.rt", r'b"yes (\d+)\\n"')
    document = _found(_CRATES / "document_head/src/head.rt", r"^const FORMAT: u64 = (\d+);$")
    assert _text("abi").splitlines()[2:] == [
        f"reads certificates of versions {' and '.join(answers)}, writes version {written}; documents of format {document}"]


def test_the_definition_has_the_text_of_the_source() -> None:
    pieces = re.findall(r'codes "([^"]*)"', (_CRATES / "cli_args/specs/Release.antt").read_text().partition("version_text program =")[2])
    assert "".join(f"{piece}\n" for piece in pieces) == _text("")


def test_the_specification_shows_it() -> None:
    assert f"$ abi --version\n{_text('abi')}```\n" in (ROOT / "docs/SPECIFICATION.md").read_text()


def test_abi_prints_it() -> None:
    ended = abi("--version")
    assert (ended.status, ended.out, ended.errors) == (0, _text("abi"), "")
    assert abi("--version", "--version").status == 64
    assert abi("check", "--version").status == 64
    assert abi("--version=1").status == 64


def test_abi_json_prints_it() -> None:
    ended = run(os.environ["ABI_JSON"], "--version")
    assert (ended.status, ended.out, ended.errors) == (0, _text("abi-json"), "")

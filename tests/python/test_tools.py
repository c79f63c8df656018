"""The tools as a Python package."""

from __future__ import annotations

import importlib
import tomllib

import pytest
from conftest import ROOT, TOOLS, run

from abi_tools import VERSION

_PROJECT = tomllib.loads((ROOT / "pyproject.toml").read_text())["project"]


@pytest.mark.parametrize("name", sorted(_PROJECT["scripts"]))
def test_each_entry_point_is_a_tool_with_a_version(name: str) -> None:
    module, _, function = _PROJECT["scripts"][name].partition(":")
    assert callable(getattr(importlib.import_module(module), function))
    ended = run(TOOLS / name, "--version")
    assert (ended.status, ended.out, ended.errors) == (0, f"{name} {VERSION}\n", "")


def test_the_version_is_that_of_the_release() -> None:
    assert _PROJECT["version"] == VERSION and f"\n## {VERSION} (" in (ROOT / "CHANGELOG.md").read_text()


def test_a_missing_library_has_a_sentence() -> None:
    """Python would print a traceback and end with 1, which means no."""
    for module, package in (("libarchive", "python3-libarchive-c"), ("a.b", "")):
        text = (f"import sys; sys.path.insert(0, {str(TOOLS)!r}); import abi_tools.starting as one\n"
                "def missing(_): raise ModuleNotFoundError(name='" + module + "')\n"
                "one.importlib.import_module = missing\nsys.exit(one.start('abi-packages', 'packages_command', 2))")
        ended = run("/usr/bin/python3", "-c", text)
        assert ended.status == 2 and package in ended.errors and len(ended.errors.splitlines()) == 1, ended

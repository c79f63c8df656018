"""`abi-report` on baselines, which have no line tables, and digests of the inputs."""

from __future__ import annotations

import hashlib
from pathlib import Path

import pytest

from conftest import tool
from report_support import HEADER, SOURCE, Project, document, report


@pytest.fixture
def project(tmp_path: Path) -> Project:
    """A project in a folder of its own."""
    return Project(tmp_path)


def test_a_baseline_takes_places_and_rule_sections_from_the_new_library(project: Project) -> None:
    """A baseline has no line tables; its types are those of the library."""
    source = SOURCE.replace("old_name", "gone_name").replace("int status;", "int status; struct limits held;")
    header = HEADER.replace("int low, high;", "long low, high;")
    old, new = project.build("old"), project.build("new", header, source)
    kept = project.folder / "kept.abi"
    assert tool("abi-baseline", old, kept).status == 0
    lines = report(kept, new).out.splitlines()
    # With a baseline, nothing marks what only the new library has.
    whole = [line.removesuffix(" (new)") for line in report(old, new).out.splitlines()]
    other = [line.replace(str(kept), str(old)) for line in lines]
    assert "struct state  src/stream.c:3" in lines and "    name = state" in lines, lines
    assert [line for line in lines if line.endswith("struct limits grew (include/stream.h:3)")], lines
    assert lines[-1] == (f"  {kept} has no line tables (a baseline has none): files and lines are taken from {new}, where it declares the "
                         "same name")
    # Only a symbol that is gone has no place.
    assert [line for line in whole if line not in other] == [line for line in whole if "old_name" in line], (whole, other)


def test_two_baselines_have_no_places(project: Project) -> None:
    old, new = project.build("old"), project.build("new", HEADER.replace("unsigned avail", "unsigned long avail"))
    kept = [one.with_suffix(".abi") for one in (old, new)]
    for one, baseline in zip((old, new), kept):
        assert tool("abi-baseline", one, baseline).status == 0
    lines = report(*kept).out.splitlines()
    assert "struct stream" in lines and not any("stream.h" in line for line in lines), lines
    assert lines[-1] == "  neither library has line tables (baselines have none): there are no files and lines, and no rule sections"


def test_digests_are_those_of_the_bytes_that_were_read(project: Project) -> None:
    """`abi-json` makes them in the run that judges."""
    old, missing = project.build("old"), project.folder / "missing.so"
    digests = [one["sha256"] for one in document(old, missing)["inputs"]]
    assert digests == [hashlib.sha256(old.read_bytes()).hexdigest(), None]

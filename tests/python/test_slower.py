"""bench/slower.py: what grew, what is less, what cannot be compared, and the file of the table."""

from __future__ import annotations

import math
import os
import shutil
import sys
from dataclasses import replace
from pathlib import Path
from typing import Callable

import pytest

from conftest import ROOT

sys.path.insert(0, str(ROOT / "bench"))

import measured_libraries  # noqa: E402
import slower  # noqa: E402
from measured_libraries import CannotBeHad, Recipe, nearest_first  # noqa: E402
from slower import ROWS, Failed, Table, Took, compare, markdown, merged, millions, read, write  # noqa: E402

LIBC = Took("libc6 1", 0.3, 0.15, 3.0, 50.0, 1400)
TINY = Took("gcc 12", 0.004, 0.002, None, 2.0, 8)
KEPT = Table("a processor", "callgrind", {"libc": LIBC, "exports_10000": TINY}, "kept.tsv")


def table(**rows: Took) -> Table:
    """A table of this run, on the processor and with the counter of the kept one."""
    return replace(KEPT, rows=rows, place="this run")


@pytest.mark.parametrize("change,words", [
    ({"instructions": 1541}, "libc: 1,541 million instructions, 1,400 million instructions in kept.tsv (+10.1 %)"),
    ({"memory": 55.2}, "libc: peak memory of 55.2 MB, peak memory of 50.0 MB in kept.tsv (+10.4 %)"),
    ({"seconds": 0.36}, "libc: 2.40 times as long as sha256sum, 2.00 times as long as sha256sum in kept.tsv (+20.0 %)"),
    # abi is as fast as it was, on a machine that is twice as fast with sha256sum.
    ({"sha256sum": 0.075}, "libc: 4.00 times as long as sha256sum, 2.00 times as long as sha256sum in kept.tsv (+100.0 %)"),
])
def test_what_grew_by_more_than_a_tenth_is_named(change: dict[str, float], words: str) -> None:
    found = compare(table(libc=replace(LIBC, **change)), KEPT, ["libc"])
    assert (found.status, found.grown) == (1, [words])
    assert found.shrunk == found.unknown == found.noted == []


@pytest.mark.parametrize("change", [
    {}, {"instructions": 1540}, {"memory": 55.0}, {"seconds": 0.33}, {"seconds": 0.6, "sha256sum": 0.3}, {"abidiff": 30.0}, {"abidiff": None},
])
def test_a_tenth_is_no_growth(change: dict[str, float]) -> None:
    found = compare(table(libc=replace(LIBC, **change)), KEPT, ["libc"])
    assert found == slower.Compared()
    assert found.status == 0


def test_small_differences_are_chance() -> None:
    """Twice as much of next to nothing is within the least differences."""
    within = replace(TINY, seconds=0.0085, memory=3.0, instructions=18)
    assert compare(table(exports_10000=within), KEPT, ["exports_10000"]).status == 0
    for beyond in (replace(within, seconds=0.0095), replace(within, memory=3.1), replace(within, instructions=19)):
        found = compare(table(exports_10000=beyond), KEPT, ["exports_10000"])
        assert found.status == 1 and len(found.grown) == 1, found


def test_what_shrank_is_no_growth() -> None:
    found = compare(table(libc=replace(LIBC, seconds=0.1, memory=40.0, instructions=700)), KEPT, ["libc"])
    assert found.status == 0 and found.grown == []
    assert [line.rpartition(" (")[2] for line in found.shrunk] == ["-50.0 %)", "-20.0 %)"]


def test_each_figure_that_grew_is_named() -> None:
    found = compare(table(libc=replace(LIBC, memory=60.0, instructions=1800), exports_10000=replace(TINY, memory=9.0)), KEPT,
                    ["libc", "exports_10000"])
    assert [line.partition(":")[0] for line in found.grown] == ["libc", "libc", "exports_10000"]


def test_missing_rows_are_never_a_pass() -> None:
    found = compare(table(libc=LIBC), KEPT, ["libc", "exports_10000"])
    assert (found.status, found.unknown) == (2, ["exports_10000: it was not measured"])
    found = compare(table(libc=LIBC, glibc=LIBC), KEPT, ["libc", "glibc"])
    assert (found.status, found.unknown) == (2, ["glibc: kept.tsv has no such row"])
    found = compare(table(libc=LIBC), replace(KEPT, rows={**KEPT.rows, "another": LIBC}), ["libc"])
    assert (found.status, found.unknown) == (2, ["another: only kept.tsv has this row"])


def test_rows_that_were_not_asked_for_do_not_count() -> None:
    assert compare(table(libc=LIBC), KEPT, ["libc"]).status == 0


def test_growth_is_named_beside_a_missing_row() -> None:
    found = compare(table(libc=replace(LIBC, memory=60.0)), KEPT, ["libc", "exports_10000"])
    assert found.status == 1 and len(found.grown) == len(found.unknown) == 1


def test_other_libraries_are_not_compared() -> None:
    found = compare(table(libc=replace(LIBC, of="libc6 2", instructions=9000)), KEPT, ["libc"])
    assert (found.status, found.grown) == (2, [])
    assert found.unknown == ["libc: the libraries are of libc6 2, and in kept.tsv of libc6 1"]


def test_another_counter_is_not_compared() -> None:
    found = compare(replace(table(libc=LIBC), counter="perf"), KEPT, ["libc"])
    assert found.status == 2 and "perf" in found.unknown[0] and "callgrind" in found.unknown[0]


def test_times_under_load_or_of_another_processor_do_not_decide() -> None:
    now = table(libc=replace(LIBC, seconds=0.9))
    for found in (compare(now, KEPT, ["libc"], loaded=True), compare(replace(now, processor="another"), KEPT, ["libc"])):
        assert (found.status, found.grown) == (0, []) and len(found.noted) == 1
    larger = replace(table(libc=replace(LIBC, memory=90.0)), processor="another")
    assert compare(larger, KEPT, ["libc"], loaded=True).status == 1


def test_a_table_is_written_and_read(tmp_path: Path) -> None:
    path = tmp_path / "table.tsv"
    stopped = replace(LIBC, abidiff=math.inf)
    write(path, replace(KEPT, rows={"exports_10000": TINY, "libc": stopped}))
    assert read(path) == replace(KEPT, rows={"libc": stopped, "exports_10000": TINY}, place=str(path))
    assert [line.partition("\t")[0] for line in path.read_text().splitlines()[2:]] == ["row", "libc", "exports_10000"]
    assert f"| no end after {slower.LONGEST} s |" in markdown(read(path))


@pytest.mark.parametrize("damage", [
    lambda text: "", lambda text: text.replace("# processor", "# engine"), lambda text: text.replace("\tmemory", "\tmass"),
    lambda text: text.replace("1400", "many"), lambda text: text.replace("\t50.0\t1400", ""),
    # Nothing is more than this.
    lambda text: text.replace("50.0", "nan"), lambda text: text.replace("50.0", "inf"),
])
def test_a_damaged_table_is_no_table(tmp_path: Path, damage: Callable[[str], str]) -> None:
    path = tmp_path / "table.tsv"
    write(path, KEPT)
    path.write_text(damage(path.read_text()))
    with pytest.raises(Failed, match="is no table of this script"):
        read(path)


def test_rows_that_were_not_measured_stay() -> None:
    now = table(libc=replace(LIBC, memory=60.0))
    assert merged(now, KEPT).rows == {"libc": now.rows["libc"], "exports_10000": TINY}
    with pytest.raises(Failed, match="not measured: exports_10000"):
        merged(replace(now, processor="another"), KEPT)
    everything = replace(table(libc=LIBC, exports_10000=TINY), processor="another")
    assert merged(everything, KEPT) == everything


def test_what_counters_print_is_read() -> None:
    assert millions("==7== Events    : Ir\n==7== Collected : 1404499999\n", "callgrind") == 1404
    assert millions("# started on Wed\n\n2500000001,,instructions:u,1000200,100.00,,\n", "perf") == 2500
    for said, counter in (("", "callgrind"), ("<not supported>,,instructions:u,0,100.00,,\n", "perf")):
        with pytest.raises(Failed, match="counted no instructions"):
            millions(said, counter)


def ended(words: list[str], capsys: pytest.CaptureFixture[str]) -> tuple[int, str]:
    """The exit status of the script, and what it says beside its table."""
    status = slower.main(words)
    return status, capsys.readouterr().err


@pytest.fixture(name="measured")
def _measured(tmp_path: Path, monkeypatch: pytest.MonkeyPatch) -> list[str]:
    """The words of a run on a program that ends with 0, whose libraries are empty files."""
    monkeypatch.setattr(slower, "MADE", tmp_path)
    monkeypatch.setattr(slower, "made", lambda recipe: f"{recipe.name} 1")
    monkeypatch.setattr(slower, "instructions", lambda command, status, counter: 1400)
    monkeypatch.setattr(shutil, "which", lambda tool: tool)
    for name in ROWS["libc"].files:
        (tmp_path / name).touch()
    return ["--rows", "libc", "--runs", "1", "--no-abidiff", "--against", str(tmp_path / "kept.tsv")]


def test_a_run_writes_the_table_and_compares_with_it(measured: list[str], tmp_path: Path, capsys: pytest.CaptureFixture[str]) -> None:
    status, said = ended([*measured, "/bin/true"], capsys)
    assert status == 2 and "--write makes it" in said
    assert ended([*measured, "--write", "/bin/true"], capsys)[0] == 0
    assert ended([*measured, "/bin/true"], capsys)[0] == 0
    path = tmp_path / "kept.tsv"
    kept = read(path)
    write(path, replace(kept, rows={"libc": replace(kept.rows["libc"], instructions=1200)}))
    status, said = ended([*measured, "/bin/true"], capsys)
    assert status == 1 and "GREW: libc: 1,400 million instructions, 1,200 million" in said
    assert ended([*measured, "--old", "/bin/true", "/bin/true"], capsys)[0] == 0
    # Who writes the table takes it as it is.
    assert ended([*measured, "--write", "/bin/true"], capsys)[0] == 0
    assert read(path).rows["libc"].instructions == 1400


def test_abidiff_is_stopped_if_it_takes_too_long(measured: list[str], tmp_path: Path, monkeypatch: pytest.MonkeyPatch,
                                                 capsys: pytest.CaptureFixture[str]) -> None:
    monkeypatch.setattr(slower, "LONGEST", 1)
    monkeypatch.setenv("PATH", f"{tmp_path}:{os.environ['PATH']}")
    words = [word for word in measured if word != "--no-abidiff"]
    for script, column in (("exit 12", "0.0"), ("while :; do :; done", "inf")):
        (tmp_path / "abidiff").write_text(f"#!/bin/sh\n{script}\n")
        (tmp_path / "abidiff").chmod(0o755)
        assert ended([*words, "--write", "/bin/true"], capsys)[0] == 0
        assert (tmp_path / "kept.tsv").read_text().splitlines()[-1].split("\t")[4].startswith(column)
    (tmp_path / "abidiff").write_text("#!/bin/sh\nexit 1\n")
    assert ended([*words, "/bin/true"], capsys)[0] == 2


def test_a_command_that_fails_is_never_a_pass(measured: list[str], tmp_path: Path, capsys: pytest.CaptureFixture[str]) -> None:
    status, said = ended([*measured, "--write", "/bin/false"], capsys)
    assert status == 2 and "status 1, not 0" in said
    assert not (tmp_path / "kept.tsv").exists()


def test_libraries_that_cannot_be_had_are_named(measured: list[str], tmp_path: Path, monkeypatch: pytest.MonkeyPatch,
                                                capsys: pytest.CaptureFixture[str]) -> None:
    assert ended([*measured, "--write", "/bin/true"], capsys)[0] == 0

    def no_network(recipe: Recipe) -> str:
        raise CannotBeHad("there is no network")

    monkeypatch.setattr(slower, "made", no_network)
    for words in (measured, [*measured, "--write"]):
        status, said = ended([*words, "/bin/true"], capsys)
        assert status == 2 and "libc is left out: there is no network" in said
    assert list(read(tmp_path / "kept.tsv").rows) == ["libc"]


@pytest.mark.parametrize("words", [["--rows", "libd"], ["--runs", "0"], ["--against"], ["/no/such/program"], ["--count", "by_hand"]])
def test_wrong_arguments(words: list[str], capsys: pytest.CaptureFixture[str]) -> None:
    with pytest.raises(SystemExit) as why:
        slower.main(words)
    assert why.value.code == 64 and "slower: " in capsys.readouterr().err


def test_the_kept_table_has_each_row() -> None:
    assert list(read(slower.KEPT).rows) == list(ROWS)


@pytest.mark.parametrize("wanted,versions,order", [
    ("2-1", ["2-1", "3-1"], ["2-1", "3-1"]),
    ("2-7", ["2-5", "2-8", "2-14"], ["2-5", "2-8", "2-14"]),
    ("2-10", ["2-9", "2-2", "1-99"], ["2-9", "2-2", "1-99"]),
    ("2-1", [], []),
])
def test_the_nearest_versions_are_tried_first(wanted: str, versions: list[str], order: list[str]) -> None:
    assert nearest_first(wanted, reversed(versions)) == order


def test_libraries_are_made_once_and_anew_if_they_are_of_something_else(tmp_path: Path, monkeypatch: pytest.MonkeyPatch) -> None:
    monkeypatch.setattr(measured_libraries, "MADE", tmp_path)
    times = list[str]()

    def make(folder: Path) -> str:
        times.append("made")
        (folder / "one.so").touch()
        return "one 1"

    recipe = Recipe("one", ("one.so",), make, lambda: "one 1")
    assert [measured_libraries.made(recipe) for _ in range(2)] == 2 * ["one 1"]
    assert len(times) == 1
    measured_libraries.made(replace(recipe, expected=lambda: "one 2"))
    assert len(times) == 2

    def missing(folder: Path) -> str:
        raise CannotBeHad("there is no compiler")

    with pytest.raises(CannotBeHad):
        measured_libraries.made(replace(recipe, make=missing, expected=lambda: "one 2"))
    assert not (tmp_path / "one.so").exists()

"""`abi-release` on small releases that dpkg-deb makes, and on each kind of fault."""

from __future__ import annotations

import contextlib
import json
import lzma
import os
import pty
import re
import shutil
import signal
import socket
import struct
import subprocess
import sys
import zlib
from collections import deque
from pathlib import Path
from typing import Any, Callable, Iterator

import pytest
from abi_release.clusters import LocalChoice
from abi_release.digests import digest_of_file
from abi_release.judging import Part, Settings
from abi_release.limited_program import Limits
from abi_release.needs import version_and_depends
from abi_release.progress import PlainProgress
from abi_release.scheduling import Given, Run, _Lost, _Turn, done_in_turn
from abi_release.small_packages import SmallPackage, small_side
from abi_release.sources import Work
from abi_release.stored_files import Store
from abi_release.unpacked import Joined
from abi_tools.faults import Fault
from abi_tools.package_sides import Side
from conftest import ROOT, TOOLS, Ended, build_id, done, run, split, system_place
from distributed import KilledWorker
from package_support import rpm
from release_support import (LIBRARIES, THREE, TOOL, answers, bundle, compiled, deb, judged, library, lines, packaged, release, results, started,
                             stop, table, three, tree, unmeasured, wait_for, wrapper_of)
from report_support import needs_json


KILLED = "the worker died over it: the signal SIGKILL ended it: perhaps the machine ran out of memory"


def test_a_release_and_the_next(tmp_path: Path) -> None:
    """Lines of each kind, the packages that are hit, a second run that judges nothing, and one that judges only what changed."""
    three(tmp_path)
    first, moved = library(tmp_path, "libgone.so.1"), library(tmp_path, "libmoved.so.1", number=9)
    packaged(tmp_path / "old", first)
    packaged(tmp_path / "old", moved, package="libmoved1")
    packaged(tmp_path / "new", moved, package="libmoved1t64")
    packaged(tmp_path / "new", library(tmp_path, "libnew.so.1"))
    # debug information in a package of its own, on both sides
    plain = library(tmp_path, "libdebug.so.1", number=5)
    stripped = split(plain, tmp_path / "debug")
    for side in ("old", "new"):
        deb(tmp_path / side, "libdebug", {f"{LIBRARIES}/libdebug.so.1": stripped})
        deb(tmp_path / side, "libdebug-dbgsym", {str(system_place(Path(), build_id(plain))): tmp_path / "debug"})
        (tmp_path / side / "random_1_amd64.deb").write_bytes(bytes(range(256)) * 64)
        deb(tmp_path / side, "other", {f"{LIBRARIES}/libother.so": plain}, architecture="arm64")
    # an older version that a mirror may still have, and two that need the broken library
    packaged(tmp_path / "old", library(tmp_path, "lib2.so.1", "char"), version="0.9")
    (tmp_path / "area.c").write_text("int area(void *);\nint main(void) { return area(0); }\n")
    done("gcc", "-o", tmp_path / "program", tmp_path / "area.c", tmp_path / "lib1.so.1")
    for side, version in (("old", "1"), ("new", "2")):
        deb(tmp_path / side, "program", {"usr/bin/program": tmp_path / "program"}, depends="lib0 | lib1 (>= 1)", version=version)
        deb(tmp_path / side, "metapackage", {}, depends="lib1", architecture="all")
    ended = release(tmp_path, workers=2)
    assert ended.status == 1, ended
    assert answers(tmp_path) == {**THREE, "libdebug libdebug.so.1": "yes", "libgone libgone.so.1": "cannot tell", "libnew libnew.so.1": "new",
                                 "libmoved1 -> libmoved1t64 libmoved.so.1": "yes", "random -": "cannot tell"}
    found = lines(tmp_path)
    assert found["libgone libgone.so.1"]["reason"] == (
        "its package has lost it, and of the new packages these could not be read: random_1_amd64.deb")
    assert found["random -"]["tries"] == 2 and "neither a .deb nor a .rpm" in found["random -"]["reason"]
    assert found["lib1 lib1.so.1"]["breaks"] == {"L2": 2, "L7": 1}
    assert found["lib1 lib1.so.1"]["hit"] == [
        {"package": "metapackage", "depends": True, "exports": [], "imports": 0, "rebuilt": False},
        {"package": "program", "depends": True, "exports": ["area"], "imports": 1, "rebuilt": True,
         "app": {"answer": "no", "exports": ["area"], "programs": ["usr/bin/program"]}}]
    assert found["libdebug libdebug.so.1"]["types"] == {"old": [1, 1], "new": [1, 1]}
    for line in found.values():
        for kind in ("certificate", "report"):
            assert kind not in line or (tmp_path / "out" / line[kind]).is_file()
    assert "2 old files of" not in ended.errors and "1 old files of other architectures are passed over" in ended.errors
    page = (tmp_path / "out/index.html").read_text()
    assert page.count("<tr class=") == len(found) and 'id="filter"' in page and "http" not in page
    text = (tmp_path / "out/table.txt").read_text()
    assert text.splitlines()[-1] == ended.out.strip() == "8 lines: 2 cannot tell, 1 new, 1 no, 4 yes"

    before = {path: path.stat().st_mtime_ns for path in (tmp_path / "out").rglob("*") if path.parent.name not in ("out", "")}
    again = release(tmp_path)
    assert judged(again) == (0, 5) and again.out == ended.out
    assert {path: path.stat().st_mtime_ns for path in before if path.is_file()} == {
        path: when for path, when in before.items() if path.is_file()}
    assert (tmp_path / "out/table.txt").read_text() == text
    packaged(tmp_path / "new", library(tmp_path, "lib0.so.1", "long"), version="2")
    assert judged(release(tmp_path)) == (1, 4) and answers(tmp_path)["lib0 lib0.so.1"] == "no"
    # all new packages can be read: the library is gone
    (tmp_path / "new/random_1_amd64.deb").unlink()
    assert judged(release(tmp_path)) == (0, 5) and answers(tmp_path)["libgone libgone.so.1"] == "gone"


def test_the_same_table_on_any_number_of_workers(tmp_path: Path) -> None:
    three(tmp_path)
    for number in range(3, 9):
        for side in ("old", "new"):
            packaged(tmp_path / side, library(tmp_path, f"lib{number}.so.1", "short" if side == "new" and number % 2 else "int", number))
    found = []
    for workers in (1, 2, 4):
        assert release(tmp_path, workers=workers, out=f"out{workers}").status == 1
        found.append(table(tmp_path, f"out{workers}"))
    assert len(found[0]["lines"]) == 9
    assert unmeasured(found[0]) == unmeasured(found[1]) == unmeasured(found[2])
    assert found[0]["digest"] == found[1]["digest"] == found[2]["digest"]


def test_each_library_of_a_package_is_a_task(tmp_path: Path) -> None:
    """On any number of workers, also if one library kills a worker each time, and in a later run that goes on."""
    wanted = bundle(tmp_path)
    assert release(tmp_path, workers=1).status == 1 and answers(tmp_path) == wanted
    # a worker waits for another one to begin a library of the same package
    wait = f"echo $worker >>{tmp_path}/workers; while [ $(sort -u {tmp_path}/workers | wc -l) -lt 2 ]; do sleep 0.1; done"
    ended = release(tmp_path, workers=2, out="two", wrapper=wrapper_of(tmp_path, f"case \"$judged\" in *libpart*) {wait} ;; esac"))
    assert ended.status == 1 and unmeasured(table(tmp_path)) == unmeasured(table(tmp_path, "two")), ended
    wrapper = wrapper_of(tmp_path, f"[ -e {tmp_path}/go ] || case \"$judged\" in *libpart1.so.1*) kill -9 $worker; sleep 10 ;; esac")
    ended = release(tmp_path, out="killed", wrapper=wrapper)
    assert ended.status == 1 and answers(tmp_path, "killed") == {**wanted, "bundle libpart1.so.1": "cannot tell"}, ended
    assert lines(tmp_path, "killed")["bundle libpart1.so.1"]["reason"] == KILLED
    (tmp_path / "go").touch()
    ended = release(tmp_path, out="killed", wrapper=wrapper)
    assert ended.status == 1 and judged(ended) == (1, 4), ended
    assert unmeasured(table(tmp_path)) == unmeasured(table(tmp_path, "killed"))
    assert list((tmp_path / "killed/opened").iterdir()) == []
    assert judged(release(tmp_path, out="killed", wrapper=wrapper)) == (0, 5)


def test_each_no_has_a_page_of_what_changed(tmp_path: Path) -> None:
    """On request: it is made once for equal libraries, it is not made again, and the table has the same digest with and without it."""
    needs_json()
    three(tmp_path)
    for side in ("old", "new"):
        shutil.copy(tmp_path / side / "lib1_1_amd64.deb", tmp_path / side / "copy_1_amd64.deb")
    ended = release(tmp_path, "--reports", "pages")
    assert ended.status == 1, ended
    found = lines(tmp_path)
    page = tmp_path / "out" / found["lib1 lib1.so.1"]["page"]
    assert list((tmp_path / "pages").iterdir()) == [page.resolve()] and "struct point" in page.read_text()
    assert found["copy lib1.so.1"]["page"] == found["lib1 lib1.so.1"]["page"]
    assert [name for name, line in found.items() if "page" in line] == ["copy lib1.so.1", "lib1 lib1.so.1"]
    assert f'href="../pages/{page.name}"' in (tmp_path / "out/index.html").read_text()
    made = page.stat().st_mtime_ns
    assert release(tmp_path, "--reports", "pages").status == 1 and page.stat().st_mtime_ns == made
    with_pages = table(tmp_path)["digest"]
    assert release(tmp_path).status == 1 and table(tmp_path)["digest"] == with_pages and "page" not in lines(tmp_path)["lib1 lib1.so.1"]
    # what cannot be made is said, and changes no answer
    page.unlink()
    (tmp_path / "abi_json").write_text("#!/bin/sh\nexit 2\n")
    (tmp_path / "abi_json").chmod(0o755)
    ended = release(tmp_path, "--reports", "pages", before=("env", f"ABI_JSON={tmp_path / 'abi_json'}"))
    assert ended.status == 1 and "1 of 1 pages of abi-report could not be made" in ended.errors, ended
    assert table(tmp_path)["digest"] == with_pages
    ended = release(tmp_path, "--reports", "pages", out="other", before=("env", "ABI_JSON=none"))
    assert ended.status == 2 and "there is no program none" in ended.errors and not (tmp_path / "other/table.txt").exists(), ended


def test_results_that_are_in_pieces_are_judged_again(tmp_path: Path) -> None:
    """A machine that loses power may leave empty files."""
    three(tmp_path)
    assert release(tmp_path).status == 1
    found = table(tmp_path)
    first, second, third = results(tmp_path)
    first.write_bytes(b"")
    kept = json.loads(second.read_text())
    (tmp_path / "out" / kept.get("certificate", kept.get("report"))).write_bytes(b"")
    next((tmp_path / "out/packages").iterdir()).write_bytes(b"{")
    assert judged(release(tmp_path)) == (2, 1) and unmeasured(table(tmp_path)) == unmeasured(found)
    assert third.stat().st_size > 0


APP = """\
case "$1" in
--help) echo 'usage: abi check OLD NEW'; echo '       abi app [--rules FILE] APP OLD NEW'; exit 0 ;;
app) echo "$*" >>asked
    shift; [ "$1" != -- ] || shift
    [ -f "$2" ] && [ -f "$3" ] || exit 3
    case "$1" in
    */spared) echo 'yes app'; echo 'use area'; exit 0 ;;
    */damaged) echo 'fault 1 Magic at 0'; echo 'app: no ELF file' >&2; exit 2 ;;
    esac
    echo no; echo 'L2 area param 1 / target: size 8, now 16'; exit 1 ;;
esac
"""


def test_who_is_hit_by_what_abi_app_says(tmp_path: Path) -> None:
    """With the command `app`: packages that depend on a broken library, with programs that survive the break and programs that do not."""
    three(tmp_path)
    (tmp_path / "area.c").write_text("int area(void *);\nint main(void) { return area(0); }\n")
    done("gcc", "-o", tmp_path / "program", tmp_path / "area.c", tmp_path / "lib1.so.1")
    for side in ("old", "new"):
        for name in ("spared", "hit", "damaged"):
            deb(tmp_path / side, name, {f"usr/bin/{name}": tmp_path / "program"}, depends="lib1")
        deb(tmp_path / side, "unasked", {}, depends="lib1")
        deb(tmp_path / side, "quiet", {"usr/bin/spared": tmp_path / "program"})
    wrapper = wrapper_of(tmp_path, APP.replace(">>asked", f">>{tmp_path}/asked"))
    ended = release(tmp_path, wrapper=wrapper, workers=2)
    assert ended.status == 1, ended
    found = {one["package"]: one.get("app") for one in lines(tmp_path)["lib1 lib1.so.1"]["hit"]}
    assert found == {"hit": {"answer": "no", "programs": ["usr/bin/hit"], "exports": ["area"]},
                     "damaged": {"answer": "cannot tell", "programs": [], "exports": [], "reason": "usr/bin/damaged: app: no ELF file"},
                     "spared": {"answer": "yes", "programs": [], "exports": []}, "unasked": None}
    text = (tmp_path / "out/table.txt").read_text()
    assert "hits 3 packages: damaged (imports 1, abi app: cannot tell), hit (imports 1, abi app: no usr/bin/hit), unasked" in text
    assert "spares 1 package: spared (imports 1, abi app: yes)" in text
    asked = (tmp_path / "asked").read_text().splitlines()
    assert len(asked) == 4
    # the answers are kept, and `abi app` is asked again if a library changed
    assert release(tmp_path, wrapper=wrapper).out == ended.out and len((tmp_path / "asked").read_text().splitlines()) == 4
    packaged(tmp_path / "new", library(tmp_path, "lib1.so.1", "short"), version="2")
    assert release(tmp_path, wrapper=wrapper).status == 1 and len((tmp_path / "asked").read_text().splitlines()) == 8
    # a program without the command is not asked
    ended = release(tmp_path, out="plain")
    assert {one["package"] for one in lines(tmp_path, "plain")["lib1 lib1.so.1"]["hit"]} >= {"hit", "quiet", "unasked"}
    assert len((tmp_path / "asked").read_text().splitlines()) == 8


def test_a_worker_that_is_killed_loses_nothing(tmp_path: Path) -> None:
    """A worker is killed once, and then each time that it judges one library."""
    three(tmp_path)
    wrapper = wrapper_of(tmp_path, f"mkdir {tmp_path}/killed 2>/dev/null && kill -9 $worker && sleep 10")
    ended = release(tmp_path, wrapper=wrapper)
    assert ended.status == 1 and (tmp_path / "killed").is_dir() and answers(tmp_path) == THREE, ended
    wrapper = wrapper_of(tmp_path, f"case \"$judged\" in *lib1.so.1*) echo >>{tmp_path}/deaths; kill -9 $worker; sleep 10 ;; esac")
    ended = release(tmp_path, wrapper=wrapper, out="other")
    assert ended.status == 2 and answers(tmp_path, "other") == {**THREE, "lib1 lib1.so.1": "cannot tell"}, ended
    assert lines(tmp_path, "other")["lib1 lib1.so.1"]["reason"] == KILLED
    # twice, and once more if Dask itself gives the task to the next worker before it reports the death
    assert len((tmp_path / "deaths").read_text()) in (2, 3)
    # the next run tries it again
    assert release(tmp_path, out="other").status == 1 and answers(tmp_path, "other") == THREE


def test_a_package_that_waited_at_a_worker_that_died_is_not_blamed(tmp_path: Path) -> None:
    """Dask queues the first packages at a worker before the worker begins them."""
    three(tmp_path)
    wrapper = wrapper_of(tmp_path, "case \"$judged\" in *lib0.so.1*) kill -9 $worker; sleep 10 ;; esac")
    ended = release(tmp_path, "--tries", 1, wrapper=wrapper)
    assert ended.status == 1 and answers(tmp_path) == {**THREE, "lib0 lib0.so.1": "cannot tell"}, ended


@pytest.mark.parametrize("packing", ["gzip", "xz", "zstd", "none"])
def test_small_packages_are_read_as_all_are(tmp_path: Path, packing: str) -> None:
    """They are read in memory, with each compression of dpkg-deb."""
    path = deb(tmp_path, "packed", {f"{LIBRARIES}/lib0.so.1": library(tmp_path, "lib0.so.1")}, depends="libc6", packing=packing)
    small = SmallPackage.read(path)
    assert small is not None
    in_memory, on_disk = small_side([small], tmp_path / "memory"), Side.unpacked([path], tmp_path / "disk")
    assert [one.soname for one in in_memory.libraries] == [one.soname for one in on_disk.libraries] == ["lib0.so.1"]
    assert tree(tmp_path / "memory") == tree(tmp_path / "disk") != {}
    assert version_and_depends(path, small.control) == version_and_depends(path) == ("1", ["libc6"])


def test_what_a_package_needs_is_read_without_programs(tmp_path: Path, monkeypatch: pytest.MonkeyPatch) -> None:
    """The programs of a machine would decide what is kept."""
    first = compiled(tmp_path, "libfirst.so.1", "int first(void) { return 1; }\n", "-shared", "-fPIC", "-Wl,-soname,libfirst.so.1")
    second = compiled(tmp_path, "libsecond.so.1", "int first(void);\nint second(void) { return first(); }\n", "-shared", "-fPIC", first)
    made = rpm(tmp_path, "second", {"usr/lib64/libsecond.so.1": second})
    version, *names = done("rpm", "-qp", "--nosignature", "--qf", r"%{VERSION}-%{RELEASE}\n[%{REQUIRES}\n]", made).splitlines()
    assert "libfirst.so.1()(64bit)" in names
    packed = deb(tmp_path, "packed", {f"{LIBRARIES}/libfirst.so.1": first}, version="3", depends="libc6", packing="zstd")
    monkeypatch.setenv("PATH", "")
    assert version_and_depends(made) == (version, sorted(set(names)))
    assert version_and_depends(packed) == ("3", ["libc6"])
    whole = made.read_bytes()
    for size in (0, 90, 200, 3000):
        made.write_bytes(whole[:size])
        with pytest.raises(Fault, match="is damaged"):
            version_and_depends(made)


@pytest.mark.parametrize("packing", ["gzip", "xz", "zstd"])
def test_packages_that_inflate_to_much_are_no_small_ones(tmp_path: Path, packing: str) -> None:
    """A package of zeros, and one of a file with many hard links."""
    (tmp_path / "zeros").write_bytes(bytes(64 << 20))
    path = deb(tmp_path, "zeros", {"usr/lib/zeros": tmp_path / "zeros"}, packing=packing)
    assert path.stat().st_size < 1 << 20 and SmallPackage.read(path) is None
    control, data = tmp_path / "control.tar", tmp_path / "data.tar"
    first, second = tmp_path / "first", tmp_path / "second"
    first.write_bytes(bytes(1000))
    second.hardlink_to(first)
    (tmp_path / "control").write_text("Package: links\nVersion: 1\n")
    (tmp_path / "debian-binary").write_text("2.0\n")
    done("tar", "-cf", control, "./control", folder=tmp_path)
    done("tar", "-cf", data, "./first", "./second", folder=tmp_path)
    done("ar", "r", tmp_path / "links.deb", "debian-binary", "control.tar", "data.tar", folder=tmp_path)
    assert SmallPackage.read(tmp_path / "links.deb") is None


def test_a_damaged_package_is_no_small_one(tmp_path: Path) -> None:
    path = deb(tmp_path, "cut", {f"{LIBRARIES}/lib0.so.1": library(tmp_path, "lib0.so.1")})
    whole = path.read_bytes()
    for size in (0, 7, 100, len(whole) // 2, len(whole) - 20):
        path.write_bytes(whole[:size])
        assert SmallPackage.read(path) is None
    path.write_bytes(bytes(range(256)) * 64)
    assert SmallPackage.read(path) is None


def settings_of(folder: Path, store: Store) -> Settings:
    """The settings of a run without packages."""
    return Settings("run", str(folder), str(folder), str(store.folder), None, "", 0.0, Limits(100, 10, 100, 100))


def test_a_batch_ends_in_time_and_what_is_left_is_done_then(tmp_path: Path, monkeypatch: pytest.MonkeyPatch) -> None:
    """The first task of a batch is always done, however long it takes, and no result is lost."""
    store = Store(tmp_path / "out")
    os.close(store.open())
    settings = settings_of(tmp_path, store)
    parts = [Part(Work(f"lib{number}", ("old.deb",), ("new.deb",))) for number in range(3)]
    given = [Given(part, ()) for part in parts]
    assert len(done_in_turn(given, settings)) == 3
    monkeypatch.setattr("abi_release.scheduling._LONGEST_BATCH", -1.0)
    outcomes = done_in_turn(given, settings)
    assert len(outcomes) == 1
    turn = _Turn(Run(settings, store, LocalChoice(1, 100), tries=1, patience=1), None, iter(()), deque(),
                 PlainProgress(3, "packages", sys.stderr))
    ended = LostResult()
    monkeypatch.setattr(ended, "result", lambda: outcomes)
    nexts = turn._next_after(parts, ended)  # pylint: disable=protected-access
    assert [one.is_done for one in nexts] == [True, False] and nexts[-1].rest == parts[1:]


class Turn:
    """The part of a run that one cluster does: it is lost as often as `losses` says, and else done at once."""

    losses = 0

    def __init__(self, *_: object) -> None:
        """Takes what a turn takes."""

    def run(self) -> None:
        """Does nothing."""
        Turn.losses -= 1
        if Turn.losses >= 0:
            raise _Lost("the scheduler is gone")


def test_a_run_keeps_its_cluster(tmp_path: Path, monkeypatch: pytest.MonkeyPatch) -> None:
    """One cluster does all that a run does, until it is lost. The last one ends with the run."""
    clusters: list[str] = []

    @contextlib.contextmanager
    def client(_choice: LocalChoice) -> Iterator[object]:
        clusters.append("begun")
        yield object()
        clusters.append("ended")

    monkeypatch.setattr(LocalChoice, "client", client)
    monkeypatch.setattr("abi_release.scheduling._Turn", Turn)
    store = Store(tmp_path / "out")
    os.close(store.open())
    with Run(settings_of(tmp_path, store), store, LocalChoice(1, 100), tries=1, patience=1) as judging:
        for Turn.losses in (0, 0, 1, 0):
            judging.over([Part(Work("lib0", ("old.deb",), ("new.deb",)))], PlainProgress(1, "packages", sys.stderr))
        assert clusters == ["begun", "ended", "begun"]
    assert clusters == ["begun", "ended", "begun", "ended"]


class LostResult:
    """The future of a task that Dask did again, because the worker with the result died, and that failed the second time."""

    key, status = "judged-0", "finished"

    def result(self) -> None:
        """The result, which is fetched from the worker."""
        raise KilledWorker(self.key, None, 0)

    def release(self) -> None:
        """Releases the future."""


def test_a_result_that_is_lost_with_its_worker_is_made_again(tmp_path: Path) -> None:
    store = Store(tmp_path / "out")
    os.close(store.open())
    settings = settings_of(tmp_path, store)
    part = Part(Work("lib0", ("old.deb",), ("new.deb",)))
    judging = Run(settings, store, LocalChoice(1, 100), tries=2, patience=1)
    turn = _Turn(judging, None, iter(()), deque(), PlainProgress(1, "packages", sys.stderr))
    assert turn._next_after([part], LostResult())[0].again == [part] and not judging.failures  # pylint: disable=protected-access


@pytest.mark.parametrize("has_room", [True, False])
def test_notes_of_begun_tasks_are_in_memory_or_on_the_disk(tmp_path: Path, has_room: bool) -> None:
    memory = tmp_path / "memory"
    store = Store(tmp_path / "out", memory)
    os.close(store.open())
    if has_room:
        memory.mkdir()
    assert store.begun("task") is None and store.why("task") == ""
    for name in ("", "lib0.so.1", "lib"):
        store.begin("task", name)
        assert store.begun("task") == name and store.begun("other") is None
    store.put_why("task", "too long")
    places = memory if has_room else tmp_path / "out/started"
    assert len(list(places.iterdir())) == 2 and len(list(tmp_path.glob("*/started/*"))) == (0 if has_room else 2)
    assert store.why("task") == "too long" and store.why("task") == ""
    store.end("task")
    assert store.begun("task") is None and not list(places.iterdir())


def test_a_file_for_abi_is_made_for_a_new_result_alone(tmp_path: Path, monkeypatch: pytest.MonkeyPatch) -> None:
    """The digest of a small library is that of the file that it gets, and a large library has its file at once."""
    path = deb(tmp_path, "lib0", {f"{LIBRARIES}/lib0.so.1": library(tmp_path, "lib0.so.1")})
    side = Side.unpacked([path], tmp_path / "unpacked")
    joined = Joined.of(side.libraries[0], side, tmp_path, "old")
    assert not (tmp_path / "old").exists() and joined.reason == ""
    assert digest_of_file(tmp_path / joined.put()) == joined.digest
    monkeypatch.setattr("abi_release.unpacked._MOST_IN_MEMORY", 100)
    joined = Joined.of(side.libraries[0], side, tmp_path, "new")
    assert digest_of_file(tmp_path / "new") == joined.digest


def test_a_run_that_is_killed_goes_on_when_it_is_started_again(tmp_path: Path) -> None:
    three(tmp_path)
    # the third library waits for the test
    wrapper = wrapper_of(tmp_path, f"case \"$judged\" in *lib2.so.1*) while [ ! -e {tmp_path}/go ]; do sleep 0.1; done ;; esac")
    process = started(tmp_path, "--workers", 1, wrapper=wrapper)
    wait_for(lambda: len(results(tmp_path)) == 2)
    ended = release(tmp_path)
    assert ended.status == 2 and "another run works in" in ended.errors, ended
    process.send_signal(signal.SIGKILL)
    process.wait()
    (tmp_path / "go").touch()
    assert len(results(tmp_path)) == 2 and all(json.loads(path.read_text()) for path in results(tmp_path))
    assert not (tmp_path / "out/table.txt").exists()
    ended = release(tmp_path, wrapper=wrapper)
    assert ended.status == 1 and judged(ended) == (1, 2) and answers(tmp_path) == THREE, ended
    assert list((tmp_path / "out/unfinished").iterdir()) == [] == list((tmp_path / "out/started").iterdir())


@pytest.fixture
def cluster(tmp_path: Path) -> Iterator[Callable[[], tuple[str, list[subprocess.Popen[bytes]]]]]:
    """Starts the processes of a cluster, always at the same address: a scheduler, and a worker without this repository's modules."""
    with socket.socket() as free:
        free.bind(("127.0.0.1", 0))
        port = free.getsockname()[1]
    address = f"tcp://127.0.0.1:{port}"
    processes: list[subprocess.Popen[bytes]] = []

    def start() -> tuple[str, list[subprocess.Popen[bytes]]]:
        commands = (["dask-scheduler", "--host", "127.0.0.1", "--port", str(port), "--no-dashboard"],
                    ["dask-worker", address, "--nthreads", "1", "--no-dashboard", "--local-directory", str(tmp_path / "dask")])
        made = [subprocess.Popen(command, cwd="/", env={**os.environ, "ABI": str(tmp_path / "abi")}, stdout=subprocess.DEVNULL,
                                 stderr=subprocess.DEVNULL, start_new_session=True) for command in commands]
        processes.extend(made)
        return address, made

    yield start
    for process in processes:
        stop(process)


def test_a_scheduler_that_is_killed_and_started_again(tmp_path: Path, cluster: Callable[[], Any]) -> None:
    three(tmp_path)
    wrapper = wrapper_of(tmp_path, f"case \"$judged\" in *lib2.so.1*) while [ ! -e {tmp_path}/go ]; do sleep 0.1; done ;; esac")
    address, first = cluster()
    process = started(tmp_path, "--scheduler", address, "--insecure", "--patience", 300, wrapper=wrapper)
    wait_for(lambda: len(results(tmp_path)) == 2)
    for one in first:
        stop(one)
    (tmp_path / "go").touch()
    _, second = cluster()
    out, errors = process.communicate(timeout=400)
    assert process.returncode == 1 and answers(tmp_path) == THREE, (out, errors)
    # without a worker, and without a scheduler, each package has a line
    stop(second[1])
    ended = release(tmp_path, "--scheduler", address, "--insecure", "--patience", 1, out="other")
    assert ended.status == 2 and len(answers(tmp_path, "other")) == 3, ended
    assert {line["reason"] for line in lines(tmp_path, "other").values()} == {"no worker was there for 1 seconds"}
    stop(second[0])
    packaged(tmp_path / "new", library(tmp_path, "lib0.so.1", "long"), version="2")
    ended = release(tmp_path, "--scheduler", address, "--insecure", "--patience", 1)
    assert ended.status == 2, ended
    assert set(answers(tmp_path).values()) == {"cannot tell"}
    assert all("the scheduler cannot be reached" in line["reason"] for line in lines(tmp_path).values())


def test_a_full_disk_is_a_reason(tmp_path: Path) -> None:
    """No file may have a megabyte, so one library cannot be unpacked."""
    three(tmp_path)
    large = tmp_path / "lib1.so.1"
    large.write_bytes(large.read_bytes() + os.urandom(1 << 20))
    packaged(tmp_path / "new", large)
    ended = release(tmp_path, before=("prlimit", "--fsize=1000000", "--"))
    found = lines(tmp_path)
    assert ended.status == 2 and answers(tmp_path) == {"lib0 lib0.so.1": "yes", "lib1 -": "cannot tell", "lib2 lib2.so.1": "yes"}
    assert found["lib1 -"]["reason"] == "File too large" and found["lib1 -"]["tries"] == 2
    assert release(tmp_path).status == 1 and answers(tmp_path) == THREE


# Runs in a mount namespace of its own: `disk` is a file system of $1 bytes, $2 of them taken. In the end `disk/out` is copied to `kept`.
ON_A_DISK = """\
mount -t tmpfs -o size=$1 tmpfs disk && mkdir disk/out && head -c $2 /dev/zero >disk/filler && shift 2 || exit 64
status=0
"$@" || status=$?
rm -f disk/filler
mkdir kept && cp -r disk/out/. kept
exit $status
"""


def on_a_disk(folder: Path, size: int, filled: int, **environment: str) -> Ended:
    """Runs the tool with its results on a disk of `size` bytes, of which `filled` are taken."""
    (folder / "disk").mkdir()
    ended = release(folder, out="disk/out", before=("unshare", "--map-root-user", "--mount", "env", *(
        f"{name}={value}" for name, value in environment.items()), "sh", "-c", ON_A_DISK, "sh", size, filled))
    (folder / "disk").rmdir()
    return ended


def needs_mounts(folder: Path) -> None:
    """Skips a test if the system does not let programs mount a file system in a namespace of their own."""
    if run("unshare", "--map-root-user", "--mount", "mount", "-t", "tmpfs", "tmpfs", folder).status != 0:
        pytest.skip("there is no right to mount a file system")


def test_results_on_a_full_disk(tmp_path: Path) -> None:
    """Nothing can be written: each package has a line, and the table is printed."""
    needs_mounts(tmp_path)
    three(tmp_path)
    ended = on_a_disk(tmp_path, 1 << 16, 1 << 16)
    assert ended.status == 2 and "a table could not be written, so it is printed: " in ended.errors, ended
    assert ended.out.splitlines() == [f"cannot tell lib{one}: No space left on device, tried 2 times" for one in range(3)] + [
        "3 lines: 3 cannot tell"] * 2


def test_packages_are_unpacked_on_a_full_disk(tmp_path: Path) -> None:
    """One library is larger than the disk."""
    needs_mounts(tmp_path)
    three(tmp_path)
    large = tmp_path / "lib1.so.1"
    large.write_bytes(large.read_bytes() + os.urandom(3 << 20))
    packaged(tmp_path / "new", large)
    ended = on_a_disk(tmp_path, 2 << 20, 0, TMPDIR=str(tmp_path / "disk"))
    assert ended.status == 2, ended
    assert answers(tmp_path, "kept") == {"lib0 lib0.so.1": "yes", "lib1 -": "cannot tell", "lib2 lib2.so.1": "yes"}
    assert lines(tmp_path, "kept")["lib1 -"]["reason"] == "No space left on device"


def test_a_table_that_cannot_be_written_is_printed(tmp_path: Path) -> None:
    three(tmp_path)
    (tmp_path / "out/release.json").mkdir(parents=True)
    ended = release(tmp_path)
    assert ended.status == 1 and "could not be written" in ended.errors
    assert [line.split(":")[0] for line in ended.out.splitlines()] == [
        "yes lib0 lib0.so.1", "no lib1 lib1.so.1", "yes lib2 lib2.so.1", "3 lines", "3 lines"]


def compressed(path: Path, size: int, packed: bytes) -> None:
    """Turns `.debug_info` of a library into a compressed section that claims this size."""
    objcopy = path.with_suffix(".section")
    objcopy.write_bytes(struct.pack("<IIQQ", 1, 0, size, 1) + packed)
    done("objcopy", "--update-section", f".debug_info={objcopy}", path)
    contents = bytearray(path.read_bytes())
    table_at, = struct.unpack_from("<Q", contents, 40)
    listed = done("readelf", "--wide", "--sections", path)
    number = int(next(line for line in listed.splitlines() if " .debug_info " in line).split("]")[0].strip(" ["))
    flags_at = table_at + 64 * number + 8
    struct.pack_into("<Q", contents, flags_at, 0x800)
    path.write_bytes(contents)


def test_libraries_that_ask_for_gigabytes_cost_a_line_each(tmp_path: Path) -> None:
    """A section that claims 10 GB, one that has a gigabyte, which is too much, and a file without segments, which no loader takes, so that
    `abi` is not asked about its types, for which it would need more than 10 GB."""
    three(tmp_path)
    says, has = library(tmp_path, "libsays.so.1"), library(tmp_path, "libhas.so.1")
    compressed(says, 10 << 30, zlib.compress(b"\0" * 1000))
    packer = zlib.compressobj(1)
    compressed(has, 1 << 30, b"".join(packer.compress(bytes(1 << 24)) for _ in range(64)) + packer.flush())
    made = tmp_path / "hostile"
    made.mkdir()
    done("bash", ROOT / "bench/hostile.sh", "--make", made, "rings_of_sizes", 1000)
    for side in ("old", "new"):
        for path in (says, has):
            packaged(tmp_path / side, path)
        deb(tmp_path / side, "libasks", {f"{LIBRARIES}/libasks.so.1": made / side})
    ended = release(tmp_path, "--memory", 300)
    found = answers(tmp_path)
    assert ended.status == 1 and {name: found[name] for name in THREE} == THREE
    reasons = {name.split()[0]: line.get("reason", "") for name, line in lines(tmp_path).items()}
    assert "10737418240 bytes" in reasons["libsays"]
    assert "1073741824 bytes once it is inflated, which is too much" in reasons["libhas"]
    assert "its program headers are damaged" in reasons["libasks"]


def test_abi_that_gives_no_answer_is_told_as_what_it_was(tmp_path: Path) -> None:
    """Memory ran out under the limit, a signal ended it, it ended with a status that it does not have, and a count would pass a limit."""
    three(tmp_path)
    for side in ("old", "new"):
        packaged(tmp_path / side, library(tmp_path, "lib3.so.1"))
    ways = {"lib0": "echo 'abi: out of memory' >&2; exit 4", "lib1": "kill -9 $$", "lib2": "exit 1",
            "lib3": "echo 'abi: past the limit on pairs of types (LIMITS in abi(1))' >&2; exit 4"}
    text = " ".join(f"*{name}.so.1*) {way} ;;" for name, way in ways.items())
    ended = release(tmp_path, "--memory", 900, "--tries", 1, wrapper=wrapper_of(tmp_path, f"case \"$judged\" in {text} esac"))
    assert ended.status == 2 and {line["answer"] for line in lines(tmp_path).values()} == {"cannot tell"}, ended
    assert [line["reason"] for line in lines(tmp_path).values()] == [
        "abi ran out of memory under its limit of 900 MB",
        "abi gave no answer: the signal SIGKILL ended it: perhaps the machine ran out of memory", "abi ended with status 1",
        "past the limit on pairs of types (LIMITS in abi(1))"]


def test_what_cannot_be_printed_is_no_answer(tmp_path: Path) -> None:
    """Standard output is a full disk: the tables are there, and the status is that of a fault."""
    three(tmp_path)
    with Path("/dev/full").open("wb") as full:
        ended = subprocess.run([TOOL, "old", "new", "--out", "out", "--workers", "1"], cwd=tmp_path, stdout=full, stderr=subprocess.PIPE,
                               text=True, check=False)
    assert ended.returncode == 2 and "No space left on device" in ended.stderr and answers(tmp_path) == THREE


def test_a_library_that_takes_too_long_costs_a_line(tmp_path: Path) -> None:
    three(tmp_path)
    wrapper = wrapper_of(tmp_path, 'case "$judged" in *lib1.so.1*) while :; do :; done ;; esac')
    ended = release(tmp_path, "--seconds", 3, "--tries", 1, wrapper=wrapper)
    assert ended.status == 2 and answers(tmp_path) == {**THREE, "lib1 lib1.so.1": "cannot tell"}, ended
    assert lines(tmp_path)["lib1 lib1.so.1"]["reason"] == "abi was ended: its limit is 3 seconds of processor time"


PROGRESS = """\
import sys
from abi_release.progress import progress_of
progress = progress_of(3, "packages", sys.stderr)
for _ in range(3):
    progress.advance()
progress.end()
"""


def test_progress_is_a_bar_on_a_terminal_and_lines_elsewhere(tmp_path: Path) -> None:
    """Both show how many packages are done, the rate, and the time left."""
    command = ["/usr/bin/python3", "-c", PROGRESS]
    environment = {**os.environ, "PYTHONPATH": str(TOOLS), "TERM": "xterm", "COLUMNS": "100"}
    plain = subprocess.run(command, env=environment, capture_output=True, text=True, check=True).stderr.splitlines()
    assert len(plain) == 1 and re.fullmatch(r"abi-release: 3 of 3 packages, [\d.]+ a second, 0 seconds left", plain[0]), plain
    terminal, other_end = pty.openpty()
    with subprocess.Popen(command, env=environment, stderr=other_end) as process:
        os.close(other_end)
        said = b""
        # Linux reports EIO if no process has the other end open.
        with contextlib.suppress(OSError):
            while part := os.read(terminal, 1 << 16):
                said += part
    os.close(terminal)
    words = re.sub(r"\x1b\[[0-9;?]*[A-Za-z]", "", said.decode())
    assert process.returncode == 0 and re.search(r"packages .* 3/3 [\d.]+ a second, left \d:\d\d:\d\d", words), said


def test_unpacked_trees(tmp_path: Path) -> None:
    for side, kind in (("old", "int"), ("new", "long")):
        for number in (0, 1):
            place = tmp_path / side / f"lib{number}" / LIBRARIES
            place.mkdir(parents=True)
            shutil.copy(library(tmp_path, f"lib{number}.so.1", kind if number else "int"), place)
    assert release(tmp_path).status == 1
    assert answers(tmp_path) == {"lib0 lib0.so.1": "yes", "lib1 lib1.so.1": "no"}
    assert judged(release(tmp_path)) == (0, 2)
    for side in ("old", "new"):
        (tmp_path / side).rename(tmp_path / f"{side}.folder")
        (tmp_path / f"{side}.folder/lib1").rename(tmp_path / side)
    assert release(tmp_path, out="root").status == 1 and answers(tmp_path, "root") == {"root lib1.so.1": "no"}


def test_the_packages_of_a_mirror(tmp_path: Path) -> None:
    """The commands of the page take the packages of each release out of a pool that has both."""
    page = (ROOT / "docs/manual/RELEASES.md").read_text()
    commands = page.partition("## From a mirror")[2].partition("```sh\n")[2].partition("```")[0]
    mirror = tmp_path / "mirror"
    pool = mirror / "pool/main/m/made"
    for name, version, kind in (("bullseye", "1", "int"), ("bookworm", "2", "long")):
        path = library(tmp_path, "libmade.so.1", kind)
        stripped = split(path, tmp_path / "debug")
        made = [packaged(pool, stripped, version), deb(pool, "made-dbg", {str(system_place(Path(), build_id(path))): tmp_path / "debug"}, version),
                deb(pool, "made-bin", {"usr/bin/made": stripped}, version)]
        lists = mirror / "dists" / name / "main/binary-amd64"
        lists.mkdir(parents=True)
        text = "".join(f"Package: {one.name.partition('_')[0]}\nFilename: {one.relative_to(mirror)}\n\n" for one in made)
        (lists / "Packages.xz").write_bytes(lzma.compress(text.encode()))
    done("sh", "-ec", commands.replace("/srv/debian", str(mirror)), folder=tmp_path)
    for side, name in (("old", "bullseye"), ("new", "bookworm")):
        (tmp_path / name).rename(tmp_path / side)
    assert release(tmp_path).status == 1
    assert {name: (line["answer"], line["versions"]) for name, line in lines(tmp_path).items()} == {
        "libmade libmade.so.1": ("no", {"old": "1", "new": "2"})}


def test_wrong_arguments_and_folders(tmp_path: Path) -> None:
    (tmp_path / "old").mkdir()
    (tmp_path / "new").mkdir()
    assert "holds neither packages nor unpacked trees" in release(tmp_path).errors
    three(tmp_path)
    for options, words in ((("--rules", "none"), "there is no rule file none"), (("--tries", "0"), "0 is no number from 1"),
                           (("more",), "unrecognized arguments"), (("--memory", "9" * 30), "is no number from 1 to 1000000000"),
                           (("--seconds", "many"), "many is no number from 1"), (("--patience", "nan"), "nan is no number of seconds"),
                           (("--require-types", "101"), "is no percentage from 0 to 100")):
        ended = release(tmp_path, *options)
        assert ended.status == (2 if "--rules" in options else 64) and words in ended.errors, ended
    rules = tmp_path / "rules"
    rules.write_text("[suppress_function]\nname = area\n")
    assert release(tmp_path, "--rules", rules).status == 2
    assert set(answers(tmp_path).values()) == {"cannot tell"}

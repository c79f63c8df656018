"""What `abi-release` keeps follows from digests alone: not from names of packages or folders, nor from what happens to workers."""

from __future__ import annotations

import errno
import os
import shutil
import signal
import struct
import subprocess
from pathlib import Path
from typing import Callable

import pytest
from abi_release.package_cache import PackageCache
from abi_release.unpacked import Trouble, side_of
from conftest import TOOLS, build_id, done, split, system_place
from release_support import (LIBRARIES, THREE, Cluster, answers, bundle, deb, judged, library, lines, packaged, release, results, started,
                             table, three, tree, unmeasured, wait_for, wrapper_of)

# How many times workers and the scheduler are ended in a run. Starting them again takes longer than all else.
_MOMENTS = int(os.environ.get("MOMENTS", "4"))


def twins(folder: Path) -> None:
    """Two packages with the same two libraries, which have no debug information."""
    for side in ("old", "new"):
        files = {}
        for name in ("libsame.so.1", "libtwin.so.1"):
            built = library(folder, name, number=len(name))
            done("strip", built)
            files[f"{LIBRARIES}/{name}"] = built
        for package in ("anna", "berta"):
            deb(folder / side, package, files)


def test_packages_with_equal_libraries(tmp_path: Path) -> None:
    """Each line names its own package, whichever package was judged first, and by how many workers."""
    twins(tmp_path)
    assert release(tmp_path, workers=1).status == 2
    assert release(tmp_path, workers=2, out="two").status == 2
    for name, line in lines(tmp_path).items():
        package = name.split()[0]
        other = {"anna": "berta", "berta": "anna"}[package]
        assert f"{package}_1_amd64.deb" in line["reason"] and other not in line["reason"], line
    assert table(tmp_path)["digest"] == table(tmp_path, "two")["digest"]
    stored = b"".join(tree(tmp_path / "out/results").values()) + b"".join(tree(tmp_path / "out/packages").values())
    assert b"anna" not in stored and b"berta" not in stored
    assert len(results(tmp_path)) == 2


def test_nothing_that_is_kept_names_a_folder_of_the_worker(tmp_path: Path) -> None:
    """The debug file belongs to another build; the folder for temporary files has two names."""
    plain, other = library(tmp_path, "libdebug.so.1"), library(tmp_path, "libother.so.1", number=1)
    stripped = split(plain, tmp_path / "debug")
    split(other, tmp_path / "other-debug")
    for side in ("old", "new"):
        deb(tmp_path / side, "libdebug", {f"{LIBRARIES}/libdebug.so.1": stripped})
        deb(tmp_path / side, "libdebug-dbgsym", {str(system_place(Path(), build_id(plain))): tmp_path / "other-debug"})
    (tmp_path / "real").mkdir()
    (tmp_path / "link").symlink_to("real")
    found = []
    for out, place in (("out", "link"), ("other", "real")):
        ended = release(tmp_path, out=out, before=("env", f"TMPDIR={tmp_path / place}"))
        assert ended.status == 2 and "is of another build" in lines(tmp_path, out)["libdebug libdebug.so.1"]["reason"], ended
        found.append(table(tmp_path, out)["digest"])
        stored = b"".join(tree(tmp_path / out).values())
        assert b"/real/" not in stored and b"/link/" not in stored and b"joined-" not in stored and b"trees-" not in stored
    assert found[0] == found[1]


def test_folders_that_go_while_abi_runs(tmp_path: Path) -> None:
    """Several times, what the workers unpacked goes away while `abi` runs: nothing is kept of that, and it is tried again."""
    bundle(tmp_path)
    three(tmp_path)
    for side in ("old", "new"):
        # with debug information that they share, packages are unpacked to the disk
        deb(tmp_path / side, "all-dbg", {})
    (tmp_path / "tmp").mkdir()
    assert release(tmp_path).status == 1
    once = f"{tmp_path}/done-$(cat old* new* old/* new/* 2>/dev/null | sha256sum | cut -c 1-64)"
    text = f"[ \"$1\" != check ] || ! mkdir {once} 2>/dev/null || find {tmp_path}/tmp -type f ! -name lock -delete"
    ended = release(tmp_path, "--tries", 9, out="other", wrapper=wrapper_of(tmp_path, text), before=("env", f"TMPDIR={tmp_path}/tmp"))
    assert len(list(tmp_path.glob("done-*"))) >= 6
    assert ended.status == 1 and unmeasured(table(tmp_path)) == unmeasured(table(tmp_path, "other")), ended
    assert table(tmp_path)["digest"] == table(tmp_path, "other")["digest"]


def test_a_repair_of_the_tools_judges_again(tmp_path: Path) -> None:
    """Another module of the tools may give another result, so nothing of the old one is used."""
    three(tmp_path)
    shutil.copytree(TOOLS, tmp_path / "tools", ignore=shutil.ignore_patterns("__pycache__"))

    def run_of(tools: Path) -> tuple[int, int]:
        command = [tools / "abi-release", "old", "new", "--out", "out", "--workers", "1", "--memory", "1000"]
        ended = subprocess.run(command, capture_output=True, text=True, check=False, cwd=tmp_path)
        words = next(line for line in ended.stderr.splitlines() if "pairs of libraries judged" in line).split()
        return int(words[words.index("pairs") - 1]), int(words[words.index("kept;") - 1])

    assert run_of(tmp_path / "tools") == (3, 0) and run_of(tmp_path / "tools") == (0, 3)
    module = tmp_path / "tools/abi_tools/gates.py"
    module.write_text(module.read_text() + "# repaired\n")
    assert run_of(tmp_path / "tools") == (3, 0)


def test_what_a_run_of_abi_leaves_behind_writes_into_no_other_answer(tmp_path: Path) -> None:
    """The process above `abi` is killed, and `abi` goes on until another library is judged."""
    three(tmp_path)
    assert release(tmp_path).status == 1
    text = (f"case \"$1 $judged\" in 'check lib0.so.1') if mkdir {tmp_path}/once 2>/dev/null; then kill -9 $parent; "
            f"while [ ! -e {tmp_path}/go ]; do sleep 0.1; done; fi ;; 'check lib2.so.1') touch {tmp_path}/go; sleep 3 ;; esac")
    ended = release(tmp_path, out="other", wrapper=wrapper_of(tmp_path, text))
    assert ended.status == 1 and (tmp_path / "go").exists() and table(tmp_path)["digest"] == table(tmp_path, "other")["digest"], ended
    for name, line in lines(tmp_path).items():
        kept = [(tmp_path / out / one[kind]).read_bytes() for out, one in (("out", line), ("other", lines(tmp_path, "other")[name]))
                for kind in ("certificate", "report") if kind in one]
        assert len(kept) == 2 and kept[0] == kept[1], name


def test_a_rule_file_that_changes_while_abi_runs(tmp_path: Path) -> None:
    """Nothing is judged by rules that are not those of the start of the run, and nothing is kept of it."""
    three(tmp_path)
    rules = tmp_path / "abi.rules"
    rules.write_text("# none\n")
    text = (f"if [ \"$1\" = check ] && mkdir {tmp_path}/once 2>/dev/null; then "
            f"printf '[suppress_type]\\nname = point\\n' >{rules}; fi")
    wrapper = wrapper_of(tmp_path, text)
    ended = release(tmp_path, "--rules", rules, wrapper=wrapper)
    assert ended.status == 2 and set(answers(tmp_path).values()) == {"cannot tell"}, ended
    assert {line["reason"] for line in lines(tmp_path).values()} == {"the rule file is another one than at the start of the run"}
    assert results(tmp_path) == []
    rules.write_text("# none\n")
    ended = release(tmp_path, "--rules", rules, wrapper=wrapper)
    assert judged(ended) == (3, 0) and answers(tmp_path) == THREE, (ended, lines(tmp_path))


def test_a_file_of_a_tree_that_the_system_does_not_give_is_no_statement(tmp_path: Path, monkeypatch: pytest.MonkeyPatch) -> None:
    """Its digest was read before."""
    place = tmp_path / "tree/usr/lib/libsame.so.1"
    place.parent.mkdir(parents=True)
    shutil.copy(library(tmp_path, "libsame.so.1"), place)

    def fail(*_: object) -> int:
        raise OSError(errno.EIO, os.strerror(errno.EIO))

    monkeypatch.setattr("abi_tools.unpacked_trees.os.open", fail)
    with pytest.raises(Trouble, match=f"libsame.so.1: {os.strerror(errno.EIO)}"):
        side_of(PackageCache(tmp_path, 1), [tmp_path / "tree"], tmp_path / "root")


def test_a_library_is_not_gone_if_a_new_package_could_not_be_read(tmp_path: Path) -> None:
    """It may be in that package; without that package, it is gone."""
    three(tmp_path)
    packaged(tmp_path / "old", library(tmp_path, "libmoved.so.1"), package="before")
    after = packaged(tmp_path / "new", library(tmp_path, "libmoved.so.1"), package="after")
    whole = after.read_bytes()
    after.write_bytes(whole[:-40])
    assert release(tmp_path).status == 1
    assert answers(tmp_path)["before libmoved.so.1"] == "cannot tell" == answers(tmp_path)["after -"]
    assert "after_1_amd64.deb" in lines(tmp_path)["before libmoved.so.1"]["reason"]
    after.write_bytes(whole)
    assert release(tmp_path).status == 1 and answers(tmp_path)["before -> after libmoved.so.1"] == "yes"
    after.unlink()
    assert release(tmp_path).status == 1 and answers(tmp_path)["before libmoved.so.1"] == "gone"


def without_segments(place: Path) -> None:
    """Makes a library one that no loader takes: its header says that it has no segments."""
    contents = bytearray(place.read_bytes())
    struct.pack_into("<H", contents, 56, 0)
    place.write_bytes(contents)


def cut(place: Path) -> None:
    """Makes a library a file of which only the header is left."""
    place.write_bytes(place.read_bytes()[:64])


@pytest.mark.parametrize("damage, folders, words", [
    (cut, ("",), f"of the new packages these could not be read: {LIBRARIES}/libmoved.so.1 in after_1_amd64.deb"),
    (without_segments, ("",), "nothing says which library of other new packages replaces it"),
    (lambda _: None, ("", "/some"), "nothing says which library of other new packages replaces it"),
])
def test_a_library_that_another_package_could_not_give_is_not_gone(tmp_path: Path, damage: Callable[[Path], None], folders: tuple[str, ...],
                                                                   words: str) -> None:
    """The other package was read; the file in it that is the library, or may be it, was not; or it has several."""
    three(tmp_path)
    moved = library(tmp_path, "libmoved.so.1", number=7)
    packaged(tmp_path / "old", moved, package="before")
    damage(moved)
    deb(tmp_path / "new", "after", {f"{LIBRARIES}{folder}/libmoved.so.1": moved for folder in folders})
    ended = release(tmp_path)
    assert ended.status == 1 and lines(tmp_path)["before libmoved.so.1"]["answer"] == "cannot tell", ended
    assert words in lines(tmp_path)["before libmoved.so.1"]["reason"]
    # nothing but this is a no
    assert {name for name, answer in answers(tmp_path).items() if answer in ("no", "gone")} == {"lib1 lib1.so.1"}


def test_a_library_that_moved_is_not_gone_if_it_cannot_be_judged(tmp_path: Path) -> None:
    """Nor if several packages have got it."""
    three(tmp_path)
    packaged(tmp_path / "old", library(tmp_path, "libmoved.so.1", number=7), package="before")
    packaged(tmp_path / "new", library(tmp_path, "libmoved.so.1", number=7), package="after")
    text = "case \"$1\" in check) if grep -q libmoved.so.1 \"$PWD/old\" \"$PWD\"/old/* 2>/dev/null; then kill -9 $worker; sleep 9; fi ;; esac"
    assert release(tmp_path, wrapper=wrapper_of(tmp_path, text)).status == 1
    found = answers(tmp_path)
    assert found["before -> after libmoved.so.1"] == "cannot tell" and "gone" not in found.values() and "new" not in found.values()
    packaged(tmp_path / "new", library(tmp_path, "libmoved.so.1", number=7), package="third")
    assert release(tmp_path).status == 1
    found = answers(tmp_path)
    assert found["before libmoved.so.1"] == "cannot tell" and found["after libmoved.so.1"] == found["third libmoved.so.1"] == "new"


def test_libraries_of_debug_packages_have_no_lines(tmp_path: Path) -> None:
    """A debug package of several packages brings a library, which breaks."""
    for side, kind in (("old", "int"), ("new", "long")):
        for name in ("libone", "libtwo"):
            packaged(tmp_path / side, library(tmp_path, f"{name}.so.1"))
        deb(tmp_path / side, "source-dbg", {f"{LIBRARIES}/debug/libslow.so.1": library(tmp_path, "libslow.so.1", kind)})
    assert release(tmp_path).status == 0
    assert answers(tmp_path) == {"libone libone.so.1": "yes", "libtwo libtwo.so.1": "yes"}


@pytest.mark.parametrize("number", [signal.SIGTERM, signal.SIGKILL], ids=["gracefully", "killed"])
def test_workers_and_schedulers_that_end(tmp_path: Path, number: signal.Signals) -> None:
    """Workers and the scheduler of a cluster end, gracefully or not, while `abi` runs, and start again: the table stays the same. Each
    moment comes when `abi` was started anew since the moment before, and lets some libraries be judged."""
    names = [*(f"libpart{one}.so.1" for one in range(8)), *(f"lib{one}.so.1" for one in range(3))]
    bundle(tmp_path, count=8)
    three(tmp_path)
    assert release(tmp_path).status == 1
    runs = tmp_path / "runs"
    runs.touch()
    wrapper = wrapper_of(tmp_path, f"[ \"$1\" != check ] || {{ echo >>{runs}; while [ ! -e {tmp_path}/go-$judged ]; do sleep 0.1; done; }}")
    with Cluster(tmp_path, workers=2) as cluster:
        process = started(tmp_path, "--out", "other", "--scheduler", cluster.address, "--insecure", "--tries", 50, "--patience", 300,
                          wrapper=wrapper)
        for moment in range(_MOMENTS):
            before = runs.stat().st_size
            wait_for(lambda: cluster.goes_on() and runs.stat().st_size > before)
            assert process.poll() is None
            cluster.end(moment % 3, number)
            cluster.begin(moment % 3)
            for name in names[len(names) * moment // _MOMENTS:len(names) * (moment + 1) // _MOMENTS]:
                (tmp_path / f"go-{name}").touch()
        wait_for(lambda: cluster.goes_on() and process.poll() is not None, seconds=900)
        out, errors = process.communicate()
    assert process.returncode == 1 and table(tmp_path)["digest"] == table(tmp_path, "other")["digest"], (out, errors)


def test_what_another_run_left_in_the_place_of_a_record_is_not_read(tmp_path: Path) -> None:
    """A worker of an earlier run writes the record of other versions of the packages while this run goes on."""
    three(tmp_path)
    assert release(tmp_path).status == 1
    before = (tmp_path / "out/packages/lib0.json").read_bytes()
    packaged(tmp_path / "new", library(tmp_path, "lib0.so.1", "long"))
    (tmp_path / "before").write_bytes(before)
    # the last library is judged when the record of the first one is there
    text = f"[ \"$1\" != check ] || [ ! -e {tmp_path}/go ] || cp {tmp_path}/before {tmp_path}/out/packages/lib0.json"
    packaged(tmp_path / "new", library(tmp_path, "lib2.so.1", "long"))
    (tmp_path / "go").touch()
    wrapper = wrapper_of(tmp_path, text)
    ended = release(tmp_path, wrapper=wrapper)
    assert ended.status == 1 and answers(tmp_path)["lib0 -"] == "cannot tell", ended
    (tmp_path / "go").unlink()
    assert judged(release(tmp_path, wrapper=wrapper)) == (0, 3) and answers(tmp_path)["lib0 lib0.so.1"] == "no"

"""`abi-packages` on packages that dpkg-deb and rpmbuild make."""

from __future__ import annotations

import gzip
import os
import shutil
import signal
from pathlib import Path
from typing import Sequence

import pytest
from conftest import FIRST, SECOND, TOOLS, abi, build_id, done, needs, run, script, shared, split, system_place, tool
from package_support import CHANGED, LIBRARIES, Build, Member, deb, hostile_deb, link, packages, parted, rpm


@pytest.fixture
def old(build: Build, tmp_path: Path) -> tuple[Path, Path]:
    """The old packages: one of a library, and one of its debug information."""
    library, debug, _ = parted(build, tmp_path, FIRST, "old", "libshapes.so.1")
    return deb(tmp_path, "libshapes1", library), deb(tmp_path, "libshapes1-dbgsym", debug)


def test_a_yes_has_a_certificate_of_the_joined_libraries(old: tuple[Path, Path], build: Build, tmp_path: Path) -> None:
    library, debug, _ = parted(build, tmp_path, FIRST.replace("* s->at->y", "+ s->at->y"), "new", "libshapes.so.1")
    new = deb(tmp_path, "new", library, "gzip"), deb(tmp_path, "new-dbgsym", debug, "zstd")
    ended = script("abi-packages", "--certificates", tmp_path / "certificates", *old, "--", *new)
    kept = tmp_path / "certificates/libshapes.so.1.cert"
    assert (ended.status, ended.out.splitlines()) == (0, [
        "yes libshapes.so.1: 2 exports compared, 2 with types; exports with types: old 2 of 2, new 2 of 2; certificate " + str(kept),
        "1 library: 1 yes"])
    for side, name in (("old", "old"), ("new", "new")):
        assert tool("join-debug", tmp_path / f"{name}.stripped", tmp_path / f"{side}.joined", tmp_path / f"{name}.debug").status == 0
    assert abi("verify", tmp_path / "old.joined", tmp_path / "new.joined", kept).out == "accepted\n"


def test_a_no_has_the_report_of_abi(old: tuple[Path, Path], build: Build, tmp_path: Path) -> None:
    library, debug, whole = parted(build, tmp_path, CHANGED, "new", "libshapes.so.1")
    ended = packages(tmp_path, *old, "--", deb(tmp_path, "new", library), deb(tmp_path, "new-dbgsym", debug))
    assert ended.status == 1 and ended.out.startswith("no libshapes.so.1: "), ended
    report = tmp_path / "certificates/libshapes.so.1.report"
    assert report.read_text() == abi("check", tmp_path / "old.so", whole).out


def test_a_report_is_kept_where_it_cannot_be_told(old: tuple[Path, Path], build: Build, tmp_path: Path) -> None:
    """`abi` says no since the debug package of the new library is missing; its report says what it saw."""
    library, _, _ = parted(build, tmp_path, FIRST, "new", "libshapes.so.1")
    ended = packages(tmp_path, *old, "--", deb(tmp_path, "new", library))
    report = tmp_path / "certificates/libshapes.so.1.report"
    assert ended.status == 2 and ended.out.startswith("cannot tell libshapes.so.1: the types of 2 exports are gone: "), ended
    assert f"; report {report}; " in ended.out
    assert sorted(report.read_text().splitlines()) == ["X6 area: type gone", "X6 call: type gone", "no"]


def test_a_no_may_keep_both_libraries(old: tuple[Path, Path], build: Build, tmp_path: Path) -> None:
    """The line has the command that shows what broke, and the command works; a later yes removes the libraries."""
    library, debug, _ = parted(build, tmp_path, CHANGED, "new", "libshapes.so.1")
    (tmp_path / "abi.rules").write_text("[suppress_function]\nname = nothing\n")
    new = deb(tmp_path, "new", {**library, "usr/share/doc/new/abi.rules": tmp_path / "abi.rules"}), deb(tmp_path, "new-dbgsym", debug)
    kept = tmp_path / "a folder"
    ended = packages(tmp_path, "--keep", kept, *old, "--", *new)
    command = ended.out.splitlines()[0].partition("; see ")[2]
    names = "".join(f" '{kept}/{name}libshapes.so.1{end}'" for name, end in (("", ".rules"), ("old/", ""), ("new/", "")))
    assert ended.status == 1 and command == f"abi-report --rules{names}", ended
    shown = run("sh", "-c", f"{TOOLS}/{command}")
    assert shown.status == 1 and shown.out.startswith("no: "), shown
    assert packages(tmp_path, "--keep", kept, *old, "--", *old).status == 0
    assert [path for path in kept.rglob("*") if path.is_file()] == []


def test_a_library_may_be_left_out(old: tuple[Path, Path], build: Build, tmp_path: Path) -> None:
    other, _, _ = parted(build, tmp_path, CHANGED, "other", "libother.so.1")
    packed = deb(tmp_path, "other", other)
    sides = (*old, packed, "--", *old, packed)
    assert packages(tmp_path, *sides).status == 2
    ended = packages(tmp_path, "--leave-out", "libother.so.1", *sides)
    assert ended.status == 0 and ended.out.splitlines()[1] == "left out libother.so.1", ended
    assert ended.out.splitlines()[-1] == "2 libraries: 1 left out, 1 yes"
    ended = packages(tmp_path, "--leave-out", "libother.so.1", "--leave-out", "libshapes.so.1", *sides)
    assert ended.status == 2 and "all libraries are left out" in ended.errors
    ended = packages(tmp_path, "--leave-out", "libother", *sides)
    assert ended.status == 2 and ended.errors == "abi-packages: no library has the soname libother, which --leave-out names\n"


def test_notes_are_those_of_abi(old: tuple[Path, Path], build: Build, tmp_path: Path, monkeypatch: pytest.MonkeyPatch) -> None:
    library, debug, _ = parted(build, tmp_path, FIRST + "int added(void) { return 1; }\n", "new", "libshapes.so.1")
    new = deb(tmp_path, "new", library), deb(tmp_path, "new-dbgsym", debug)
    assert packages(tmp_path, *old, "--", *new).errors == ""
    monkeypatch.setenv("ABI_NOTES", "1")
    ended = packages(tmp_path, *old, "--", *new)
    assert ended.status == 0 and "abi-packages: libshapes.so.1: note: export added: added\n" in ended.errors, ended


def test_libraries_that_are_gone_or_new_have_a_line(old: tuple[Path, Path], build: Build, tmp_path: Path) -> None:
    library, debug, _ = parted(build, tmp_path, FIRST, "new", "libshapes.so.2")
    ended = packages(tmp_path, *old, "--", deb(tmp_path, "new", library), deb(tmp_path, "new-dbgsym", debug))
    assert ended.status == 1
    assert ended.out.splitlines() == ["gone libshapes.so.1: libshapes1.deb had it", "new libshapes.so.2: new.deb has it",
                                      "2 libraries: 1 gone, 1 new; not yes: libshapes.so.1"]
    both = {**library, f"{LIBRARIES}/libshapes.so.1": tmp_path / "old.stripped"}
    ended = packages(tmp_path, *old, "--", deb(tmp_path, "both", both), old[1])
    assert ended.status == 0 and [line.split()[0] for line in ended.out.splitlines()] == ["yes", "new", "2"]


def test_without_debug_packages_it_cannot_be_told(old: tuple[Path, Path], build: Build, tmp_path: Path) -> None:
    library, debug, _ = parted(build, tmp_path, FIRST.replace("* s->at->y", "+ s->at->y"), "new", "libshapes.so.1")
    new = deb(tmp_path, "new", library)
    for first, second in (((old[0],), (new,)), (old, (new,)), ((old[0],), (new, deb(tmp_path, "new-dbgsym", debug)))):
        ended = packages(tmp_path, *first, "--", *second)
        assert ended.status == 2 and ended.out.startswith("cannot tell libshapes.so.1: "), ended
        assert "there is no debug file of usr/lib" in ended.out and "-dbgsym, -dbg or -debuginfo package of" in ended.out
    assert list((tmp_path / "certificates").iterdir()) == []


def test_debug_information_of_another_build_is_not_taken(old: tuple[Path, Path], build: Build, tmp_path: Path) -> None:
    """The debug package of the new library has that of the old one, under the name that the new one asks for."""
    library, debug, _ = parted(build, tmp_path, FIRST.replace("* s->at->y", "+ s->at->y"), "new", "libshapes.so.1")
    wrong = {name: tmp_path / "old.debug" for name in debug}
    ended = packages(tmp_path, *old, "--", deb(tmp_path, "new", library), deb(tmp_path, "new-dbgsym", wrong))
    assert ended.status == 2 and ended.out.startswith("cannot tell libshapes.so.1: "), ended
    assert f"{next(iter(debug))} is of another build than {LIBRARIES}/libshapes.so.1.1.2: its build id is " in ended.out


def test_an_export_that_is_gone_is_a_no_also_without_debug_packages(old: tuple[Path, Path], build: Build, tmp_path: Path) -> None:
    library, _, _ = parted(build, tmp_path, SECOND, "new", "libshapes.so.1")
    assert packages(tmp_path, *old, "--", deb(tmp_path, "new", library)).status == 1


def test_a_package_may_bring_its_rule_file(old: tuple[Path, Path], build: Build, tmp_path: Path) -> None:
    library, debug, _ = parted(build, tmp_path, CHANGED, "new", "libshapes.so.1")
    rules = tmp_path / "abi.rules"
    rules.write_text("[suppress_function]\nname = call\n")
    (tmp_path / "abi.rules.gz").write_bytes(gzip.compress(rules.read_bytes()))
    symbols = deb(tmp_path, "new-dbgsym", debug)
    for name, more in (("plain", "abi.rules"), ("packed", "abi.rules.gz")):
        new = deb(tmp_path, name, {**library, f"usr/share/doc/{name}/{more}": tmp_path / more})
        ended = packages(tmp_path, *old, "--", new, symbols)
        assert ended.status == 0 and f"rules usr/share/doc/{name}/{more} (new)" in ended.out, ended
    ended = packages(tmp_path, "--rules", rules, *old, "--", deb(tmp_path, "bare", library), symbols)
    assert ended.status == 0
    rules.write_text("[nothing]\n")
    ended = packages(tmp_path, "--rules", rules, *old, "--", tmp_path / "bare.deb", symbols)
    assert ended.status == 2 and "no section of this name" in ended.out
    assert packages(tmp_path, "--rules", tmp_path / "none", *old, "--", tmp_path / "bare.deb").status == 2


def test_rpm_packages_with_a_supplementary_file(build: Build, tmp_path: Path) -> None:
    """As on Fedora: debug files by name, links by build id, and a supplementary file whose name is relative to the debug file."""
    whole = [build(f"{number}.so", text, soname=f"lib{number}.so.1") for number, text in ((1, FIRST), (2, SECOND))]
    stripped, files = [], {}
    for library in whole:
        stripped.append(split(library, tmp_path / f"{library.stem}.debug", link=False))
    shared([tmp_path / "1.debug", tmp_path / "2.debug"], tmp_path / "shapes-1", "-M", "../../../.dwz/shapes-1")
    files["usr/lib/debug/.dwz/shapes-1"] = tmp_path / "shapes-1"
    for library in whole:
        files[f"usr/lib/debug/usr/lib64/{library.stem}-1.debug"] = tmp_path / f"{library.stem}.debug"
        link = tmp_path / f"{library.stem}.link"
        link.symlink_to(f"../../usr/lib64/{library.stem}-1.debug")
        files[str(system_place(Path(), build_id(library)))] = link
    made = [rpm(tmp_path, "shapes", {f"usr/lib64/lib{number}.so.1": one for number, one in zip((1, 2), stripped)}),
            rpm(tmp_path, "shapes-debuginfo", files)]
    ended = packages(tmp_path, *made, "--", *made)
    assert ended.status == 0 and "2 libraries: 2 yes" in ended.out, ended
    assert ended.out.count("exports with types: old 2 of 2, new 2 of 2") == 2
    # a receiver checks both certificates from the same packages
    ended = tool("abi-packages", "--verify", tmp_path / "certificates", *made, "--", *made)
    assert ended.status == 0 and ended.out.count("; accepted certificate ") == 2, ended


def test_a_soname_may_stand_in_several_folders(build: Build, tmp_path: Path) -> None:
    whole = build("one.so", FIRST, soname="libshapes.so.1")
    files = {f"{LIBRARIES}/libshapes.so.1": whole, f"{LIBRARIES}/glibc-hwcaps/x86-64-v3/libshapes.so.1": whole,
             f"{LIBRARIES}/plugin.so": build("plugin.so", SECOND), "usr/bin/program": tmp_path / "shapes.h"}
    made = deb(tmp_path, "several", files)
    ended = packages(tmp_path, made, "--", made)
    assert ended.status == 0, ended
    assert [line.split(":")[0] for line in ended.out.splitlines()] == [
        "yes plugin.so", f"yes {LIBRARIES}/glibc-hwcaps/x86-64-v3/libshapes.so.1", f"yes {LIBRARIES}/libshapes.so.1", "3 libraries"]


def test_a_package_writes_nothing_outside_of_its_folder(old: tuple[Path, Path], build: Build, tmp_path: Path) -> None:
    contents = build("evil.so", FIRST).read_bytes()
    outside = tmp_path / "outside"
    outside.mkdir()
    hostile = [[Member("../../outside/evil.so", contents)], [Member(f"usr/{'../' * 9}tmp/evil.so", contents)],
               [link("usr/lib", str(outside)), Member("usr/lib/evil.so", contents)],
               [link("usr/evil.so", str(outside / "evil.so")), Member("usr/evil.so", contents)]]
    for number, members in enumerate(hostile):
        ended = packages(tmp_path, hostile_deb(tmp_path / f"hostile{number}.deb", members), "--", *old)
        assert ended.status == (1 if number == 2 else 2), ended
        assert list(outside.iterdir()) == [] and not Path("/tmp/evil.so").exists()


def test_what_is_no_package_is_refused(old: tuple[Path, Path], tmp_path: Path) -> None:
    cut = tmp_path / "cut.deb"
    contents = old[0].read_bytes()
    for share in (0, 5, 50, 95):
        cut.write_bytes(contents[:len(contents) * share // 100])
        ended = packages(tmp_path, cut, "--", *old)
        assert ended.status == 2 and len(ended.errors.splitlines()) == 1 and "cut.deb" in ended.errors, ended
    ended = packages(tmp_path, tmp_path / "none.deb", "--", *old)
    assert ended.status == 2 and "there is no package" in ended.errors
    ended = packages(tmp_path, old[0], old[0], "--", *old)
    assert ended.status == 2 and "another package brings" in ended.errors
    for arguments in ((*old,), (*old, "--"), ("--", *old), (*old, "--", *old, "--rules", "x")):
        assert packages(tmp_path, *arguments).status == 64
    nothing = deb(tmp_path, "nothing", {"usr/share/doc/nothing/readme": tmp_path / "shapes.h"})
    ended = packages(tmp_path, nothing, "--", nothing)
    assert ended.status == 2 and "no library is in the old packages" in ended.errors


def test_without_abi_no_package_is_read(old: tuple[Path, Path], tmp_path: Path, monkeypatch: pytest.MonkeyPatch) -> None:
    """One sentence, and not one for each library."""
    monkeypatch.setenv("ABI", "abi-that-is-nowhere")
    ended = packages(tmp_path, *old, "--", *old)
    said = "abi-packages: there is no program abi-that-is-nowhere: put abi on the PATH, or name it by the variable ABI\n"
    assert (ended.status, ended.out, ended.errors) == (2, "", said), ended


def mirror(folder: Path, packages_of_it: Sequence[Path]) -> list[str]:
    """A mirror of packages on this machine. Returns the options with which apt-get uses only this mirror."""
    pool, state = folder / "mirror", folder / "apt"
    pool.mkdir()
    for number, package in enumerate(packages_of_it):
        shutil.copy(package, pool / f"{number}.deb")
    (pool / "Packages").write_text(done("dpkg-scanpackages", "--multiversion", ".", folder=pool))
    for name in ("lists/partial", "cache/archives/partial"):
        (state / name).mkdir(parents=True)
    (state / "status").touch()
    (state / "sources.list").write_text(f"deb [trusted=yes] copy:{pool} ./\n")
    values = {"Dir::Etc::SourceList": state / "sources.list", "Dir::Etc::SourceParts": "-", "Dir::State": state,
              "Dir::State::Status": state / "status", "Dir::Cache": state / "cache", "APT::Architecture": "amd64",
              "APT::Sandbox::User": "root", "Acquire::Languages": "none"}
    options = [f"-o{name}={value}" for name, value in values.items()]
    done("apt-get", *options, "update")
    return options


def test_two_versions_that_apt_downloads(build: Build, tmp_path: Path) -> None:
    """As for a packager: two versions of a package and of its debug package, named as by `apt-get download`, and one command."""
    needs("apt-get", "dpkg-scanpackages")
    made = []
    versions = ("1:1.2-1", "1:1.2-1+deb12u1", "1:1.3-1")
    for version, text in zip(versions, (FIRST, FIRST.replace("* s->at->y", "+ s->at->y"), CHANGED)):
        folder = tmp_path / version.replace(":", "_")
        folder.mkdir()
        library, debug, _ = parted(build, folder, text, "built", "libshapes.so.1")
        made += [deb(folder, "libshapes1", library, version=version), deb(folder, "libshapes1-dbgsym", debug, version=version)]
    work = tmp_path / "work"
    work.mkdir()
    done("apt-get", *mirror(tmp_path, made), "download",
         *(f"{name}={version}" for version in versions for name in ("libshapes1", "libshapes1-dbgsym")), folder=work)
    assert len(list(work.glob("libshapes1*_1%3a1.*_amd64.deb"))) == 6
    for new, status, first in (("1.2-1+deb12u1", 0, "yes libshapes.so.1: 2 exports compared, 2 with types; "),
                               ("1.3-1", 1, "no libshapes.so.1: ")):
        ended = run("sh", "-c", f"{TOOLS}/abi-packages libshapes1*_1%3a1.2-1_*.deb -- libshapes1*_1%3a{new}_*.deb", folder=work)
        assert ended.status == status and ended.out.startswith(first), ended
        assert "exports with types: old 2 of 2, new 2 of 2; " in ended.out
    assert sorted(path.name for path in (work / "abi-certificates").iterdir()) == ["libshapes.so.1.report"]


@pytest.mark.parametrize("number", (signal.SIGKILL, signal.SIGTERM))
def test_a_run_that_is_killed_leaves_no_half_file(build: Build, tmp_path: Path, monkeypatch: pytest.MonkeyPatch,
                                                  number: signal.Signals) -> None:
    """The run is killed at the last of three libraries: the files of the others are whole, and the next run keeps all three."""
    files: dict[str, Path] = {}
    for one in (1, 2, 3):
        library = build(f"{one}.so", FIRST, soname=f"lib{one}.so.1")
        files[f"{LIBRARIES}/lib{one}.so.1"] = library
    made = deb(tmp_path, "three", files)
    temporary, kept = tmp_path / "temporary", tmp_path / "certificates"
    temporary.mkdir()
    monkeypatch.setenv("TMPDIR", str(temporary))
    program = os.environ["ABI"]
    monkeypatch.setenv("ABI", str(killer_of_tool(tmp_path, number, "check*lib3.so.1")))
    ended = script("abi-packages", "--workers", 1, "--certificates", kept, made, "--", made)
    assert ended.status == (-number if number == signal.SIGKILL else 128 + number) and ended.out == "", ended
    assert sorted(path.name for path in kept.iterdir()) == ["lib1.so.1.cert", "lib2.so.1.cert"]
    assert (number == signal.SIGKILL) == (list(temporary.iterdir()) != [])
    monkeypatch.setenv("ABI", program)
    library = tmp_path / "1.so"
    assert tool("join-debug", library, tmp_path / "joined.so").status == 0
    assert abi("verify", tmp_path / "joined.so", tmp_path / "joined.so", kept / "lib1.so.1.cert").out == "accepted\n"
    assert packages(tmp_path, made, "--", made).status == 0
    assert sorted(path.name for path in kept.iterdir()) == [f"lib{one}.so.1.cert" for one in (1, 2, 3)]


def killer_of_tool(folder: Path, number: signal.Signals, arguments: str) -> Path:
    """A program `abi` that sends a signal to the tool, whose step runs it, if its arguments match a shell pattern."""
    path = folder / "killing_abi"
    path.write_text(f"#!/bin/sh\ncase \"$*\" in *{arguments}*) kill -{int(number)} $(cut -d ' ' -f 4 /proc/$PPID/stat); sleep 10 ;; "
                    f"esac\nexec '{Path(os.environ['ABI']).resolve()}' \"$@\"\n")
    path.chmod(0o755)
    return path


def test_the_worst_library_is_the_status(build: Build, tmp_path: Path) -> None:
    """No outranks cannot tell, and that outranks yes. A library that is new does not count."""
    sides: dict[str, dict[str, Path]] = {"old": {}, "new": {}}
    for side, texts in (("old", (FIRST, FIRST, FIRST)), ("new", (FIRST, FIRST, CHANGED))):
        for name, text in zip(("yes", "untold", "no"), texts):
            options = ("-g0",) if name == "untold" else ("-g",)
            sides[side][name] = build(f"{side}.{name}", text, *options, soname=f"lib{name}.so.1")
    sides["new"]["new"] = build("new.new", FIRST, soname="libnew.so.1")
    for names, status in ((("yes",), 0), (("yes", "untold"), 2), (("yes", "untold", "no"), 1), (("no",), 1), (("untold",), 2)):
        made = [deb(tmp_path, f"{side}-{'-'.join(names)}", {f"{LIBRARIES}/lib{name}.so.1": sides[side][name] for name in (
            *names, *(["new"] if side == "new" else []))}) for side in ("old", "new")]
        ended = packages(tmp_path, made[0], "--", made[1])
        assert ended.status == status and len(ended.out.splitlines()) == len(names) + 2, ended

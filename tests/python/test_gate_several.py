"""`abi-gate` on several libraries: pairs, one answer, what is left out, limits, and the documents and remarks beside the answer."""

from __future__ import annotations

import json
import os
import socket
from pathlib import Path
from typing import Any, Callable
from xml.etree import ElementTree

import jsonschema
import pytest

from conftest import ROOT, TOOLS, Ended, abi, done, needs, run, script, tool

Build = Callable[..., Path]

OLD = "struct point { int x, y; };\nint area(struct point *p) { return p->x * p->y; }\nint other(int a) { return a + 1; }\n"
NEW = OLD.replace("int x, y;", "long x, y;")


@pytest.fixture
def sides(build: Build, tmp_path: Path) -> tuple[Path, Path]:
    """Two folders: baselines of four libraries, and their next builds, of which one breaks, one has no types and one is gone. One more
    library is new, and one is for a machine with 32 bits."""
    old, new = tmp_path / "abi", tmp_path / "lib"
    old.mkdir()
    new.mkdir()
    for name in ("yes", "no", "untold", "gone"):
        library = build(f"{name}.old", OLD, soname=f"lib{name}.so.1")
        assert tool("abi-baseline", library, old / f"lib{name}.so.1.abi").status == 0
    for name, text, *options in (("yes", OLD), ("no", NEW), ("untold", OLD, "-g0"), ("new", OLD)):
        build(f"{name}.new", text, *options, soname=f"lib{name}.so.1").rename(new / f"lib{name}.so.1.0")
        (new / f"lib{name}.so.1").symlink_to(f"lib{name}.so.1.0")
    (new / "libno.so").write_text("/* GNU ld script */\nINPUT ( libno.so.1 )\n")
    (new / "README").write_text("no library\n")
    small = bytearray((new / "libyes.so.1.0").read_bytes())
    small[4] = 1
    (new / "libsmall.so.1").write_bytes(small)
    return old, new


def words(ended: Ended) -> list[str]:
    """The beginning of each line."""
    return [line.split(":")[0] for line in ended.out.splitlines()]


def test_a_folder_of_baselines_has_a_line_each_and_one_answer(sides: tuple[Path, Path]) -> None:
    old, new = sides
    ended = tool("abi-gate", old, new)
    assert ended.status == 1 and words(ended) == [
        "no libno.so.1", "gone libgone.so.1", "cannot tell libuntold.so.1", "yes libyes.so.1", "new libnew.so.1", "left out libsmall.so.1",
        "no"], ended
    assert ended.out.splitlines()[-1] == "no: 6 libraries: 1 no, 1 gone, 1 cannot tell, 1 yes, 1 new, 1 left out"
    assert "it is not for x86-64 with 64 bits" in ended.out
    assert f"see abi-report {old / 'libno.so.1.abi'} {new / 'libno.so.1'}" in ended.out.splitlines()[0]


@pytest.mark.parametrize("names, status", ((("yes",), 0), (("yes", "untold"), 2), (("yes", "untold", "no"), 1), (("no", "yes"), 1)))
def test_no_comes_before_cannot_tell_before_yes(sides: tuple[Path, Path], names: tuple[str, ...], status: int) -> None:
    """Libraries are named one by one, in any order, before and after `--`."""
    old, new = ([folder / f"lib{name}.so.1{suffix}" for name in names] for folder, suffix in zip(sides, (".abi", ".0")))
    ended = tool("abi-gate", *old, "--", *reversed(new))
    assert ended.status == status and ended.out.splitlines()[-1].startswith({0: "yes: ", 1: "no: ", 2: "cannot tell: "}[status]), ended
    assert sorted(words(ended)[:-1]) == sorted(
        f"{ {'yes': 'yes', 'untold': 'cannot tell', 'no': 'no'}[name]} lib{name}.so.1" for name in names)


def test_what_cannot_be_read_makes_nothing_gone(sides: tuple[Path, Path]) -> None:
    """A damaged library may be the one that is missed. Two libraries of one name are no pair."""
    old, new = sides
    (new / "libgone.so.1").write_bytes((new / "libyes.so.1").read_bytes()[:5000])
    (new / "libyes.so.2").write_bytes((new / "libyes.so.1").read_bytes())
    ended = tool("abi-gate", old, new)
    lines = {line.split(":")[0]: line for line in ended.out.splitlines()}
    assert ended.status == 1 and "gone libgone.so.1" not in lines, ended
    assert "which may be this library" in ended.out and "is cut short" in ended.out
    assert "several new libraries have this name" in lines["cannot tell libyes.so.1"]
    (new / "libno.so.1.0").unlink()
    (old / "libno.so.1.abi").unlink()
    assert tool("abi-gate", old, new).status == 2


def test_nothing_to_compare_cannot_be_told(sides: tuple[Path, Path], tmp_path: Path) -> None:
    old, new = sides
    (tmp_path / "empty").mkdir()
    ended = tool("abi-gate", tmp_path / "empty", new / "libyes.so.1")
    assert ended.status == 2 and ended.out.splitlines()[-1] == "cannot tell: 1 library: 1 new", ended
    ended = tool("abi-gate", old / "libyes.so.1.abi", "--", new / "libsmall.so.1")
    assert ended.status == 1 and words(ended) == ["gone libyes.so.1", "left out libsmall.so.1", "no"]


def test_wrong_arguments_have_their_own_status(sides: tuple[Path, Path], tmp_path: Path) -> None:
    old, new = sides
    one, two = old / "libyes.so.1.abi", new / "libyes.so.1"
    for arguments in ([], [one], [one, two, two], [one, "--"], ["--require-types", "101", one, two], ["--unknown", one, two],
                      ["--certificate", tmp_path / "cert", old, new], ["--workers", "0", one, two], [one, "--", "--rules", two]):
        ended = script("abi-gate", *arguments)
        assert (ended.status, ended.out) == (64, "") and "abi-gate: " in ended.errors, (arguments, ended)
    assert script("abi-gate", "--", one, two).status == 0
    for name in ("abi-baseline", "join-debug", "abi-report"):
        assert script(name, "--unknown").status == 64


# ---- limits


def test_what_is_no_file_is_not_opened(sides: tuple[Path, Path], tmp_path: Path) -> None:
    """A FIFO would hang for ever, and a device may have no end."""
    old, _ = sides
    one = old / "libyes.so.1.abi"
    os.mkfifo(tmp_path / "fifo.so")
    with socket.socket(socket.AF_UNIX) as made:
        made.bind(str(tmp_path / "socket.so"))
    with (tmp_path / "large.so").open("wb") as stream:
        stream.truncate((256 << 20) + 1)
    for path, said in (("fifo.so", "is a FIFO"), ("socket.so", "is a socket"), ("/dev/zero", "is a device"),
                       ("large.so", "abi reads no file of more than 268435456 bytes"), ("missing.so", "No such file or directory")):
        for arguments in ((one, tmp_path / path), (one, "--", tmp_path / path)):
            ended = run("timeout", "20", TOOLS / "abi-gate", *arguments)
            assert ended.status == 2 and said in ended.out, (arguments, ended)
    for option in ("--rules", "--symbols", "--dev"):
        ended = run("timeout", "20", TOOLS / "abi-gate", option, tmp_path / "fifo.so", one, one)
        assert ended.status == 2 and "is a FIFO" in ended.errors, ended


@pytest.mark.parametrize("text, said", (
    ("kill -9 $$", "the signal SIGKILL ended it: perhaps the machine ran out of memory"), ("kill -SEGV $$", "the signal SIGSEGV ended it"),
    ("kill -XCPU $$", "it took more than its limit of processor time"), ("kill -9 $PPID", "the signal SIGKILL ended it"),
    ("echo limit of $(ulimit -t) >&2; exit 77", "limit of 1"), ("exit 77", "abi ended with status 77"),
    ("exec /usr/bin/python3 -c 'bytes(3 << 30)'", "MemoryError")))
def test_what_ended_abi_is_told(sides: tuple[Path, Path], tmp_path: Path, monkeypatch: pytest.MonkeyPatch, text: str, said: str) -> None:
    program = tmp_path / "abi.sh"
    program.write_text(f"#!/bin/sh\n{text}\n")
    program.chmod(0o755)
    monkeypatch.setenv("ABI", str(program))
    ended = tool("abi-gate", "--seconds", "1", "--memory", "500", sides[0] / "libyes.so.1.abi", sides[1] / "libyes.so.1")
    assert ended.status == 2 and ended.out.startswith("cannot tell: ") and said in ended.out, ended


# ---- documents and reports


def test_documents_say_what_the_lines_say(sides: tuple[Path, Path], tmp_path: Path) -> None:
    """The breaks are the rows of `abi check`, and their places those of the source."""
    kept = {name: tmp_path / name for name in ("json", "junit", "sarif", "reports", "certificates")}
    options = [word for name, path in kept.items() for word in (f"--{name}", path)]
    ended = tool("abi-gate", *options, *sides)
    assert ended.status == 1
    rows = abi("check", sides[0] / "libno.so.1.abi", sides[1] / "libno.so.1").out.splitlines()[1:]
    found = json.loads(kept["json"].read_text())
    jsonschema.validate(found, json.loads((ROOT / "docs" / "gate.schema.json").read_text()))
    libraries = {one["name"]: one for one in found["libraries"]}
    assert [f"{one['answer']} {one['name']}" for one in found["libraries"]] == words(ended)[:-1] and found["answer"] == "no"
    assert [one["row"] for one in libraries["libno.so.1"]["breaks"]] == rows
    assert all(one["place"] == {"file": str(tmp_path / "no.new.c"), "line": 1} for one in libraries["libno.so.1"]["breaks"])
    check_junit(ElementTree.parse(kept["junit"]).getroot(), rows)
    check_sarif(json.loads(kept["sarif"].read_text()), len(rows), tmp_path / "no.new.c")
    reports = {name: one["report"] for name, one in libraries.items() if one["report"]}
    assert reports == {f"lib{name}.so.1": str(kept["reports"] / f"lib{name}.so.1.html") for name in ("no", "untold")}
    assert all("<!DOCTYPE html>" in Path(path).read_text() for path in reports.values())
    assert f"report {reports['libno.so.1']}" in ended.out.splitlines()[0]
    assert [path.name for path in kept["certificates"].iterdir()] == ["libyes.so.1.cert"]
    certificate = kept["certificates"] / "libyes.so.1.cert"
    assert abi("verify", sides[0] / "libyes.so.1.abi", sides[1] / "libyes.so.1", certificate).out == "accepted\n"


def check_junit(suites: ElementTree.Element, rows: list[str]) -> None:
    """Checks the document as programs read it: the counts, and what became of each test."""
    (suite,) = suites
    assert (suites.tag, suite.tag) == ("testsuites", "testsuite")
    assert {name: suite.get(name) for name in ("tests", "failures", "errors", "skipped")} == {
        "tests": "6", "failures": "2", "errors": "1", "skipped": "2"}
    cases = {case.get("name", ""): case for case in suite.iter("testcase")}
    assert {name: [child.tag for child in case] for name, case in cases.items()} == {
        "libno.so.1": ["failure"], "libgone.so.1": ["failure"], "libuntold.so.1": ["error"], "libyes.so.1": ["system-out"],
        "libnew.so.1": ["skipped"], "libsmall.so.1": ["skipped"]}
    failure = cases["libno.so.1"].find("failure")
    assert failure is not None and (failure.text or "").splitlines()[:-1] == rows and "libno.so.1.html" in failure.get("message", "")


def check_sarif(document: dict[str, Any], breaks: int, source: Path) -> None:
    """Checks what SARIF 2.1.0 requires (3.13, 3.14, 3.18, 3.19, 3.20, 3.27), and the results."""
    assert document["version"] == "2.1.0" and len(document["runs"]) == 1
    (one,) = document["runs"]
    driver = one["tool"]["driver"]
    assert driver["name"] == "abi-gate" and len({rule["id"] for rule in driver["rules"]}) == len(driver["rules"])
    for result in one["results"]:
        assert driver["rules"][result["ruleIndex"]]["id"] == result["ruleId"] and result["message"]["text"]
        assert result["level"] == "error" and result["locations"][0]["physicalLocation"]["artifactLocation"]["uri"]
    named = [result["ruleId"] for result in one["results"]]
    assert named.count("gone") == 1 and named.count("cannot-tell") == 1 and len(named) == breaks + 2
    place = one["results"][0]["locations"][0]["physicalLocation"]
    uri = str(source.relative_to(Path.cwd())) if source.is_relative_to(Path.cwd()) else f"file://{source}"
    assert place == {"artifactLocation": {"uri": uri}, "region": {"startLine": 1}}
    (invocation,) = one["invocations"]
    assert invocation["exitCode"] == 1 and invocation["executionSuccessful"] is False
    assert all(told["message"]["text"] for told in invocation["toolExecutionNotifications"])


def test_paths_of_sarif_are_relative_to_the_folder_of_the_run(sides: tuple[Path, Path], tmp_path: Path) -> None:
    tool("abi-gate", "--sarif", tmp_path / "sarif", *sides, folder=tmp_path)
    (one,) = json.loads((tmp_path / "sarif").read_text())["runs"]
    assert one["results"][0]["locations"][0]["physicalLocation"]["artifactLocation"]["uri"] == "no.new.c"


def test_hostile_names_break_no_document(build: Build, tmp_path: Path) -> None:
    """A soname with a newline, an escape, a byte that is no UTF-8 and U+202E."""
    soname = b"lib\x1b[2J\nyes x\xff\xe2\x80\xae\x01.so"
    library = build("plain.so", OLD, soname="l" * len(soname))
    library.write_bytes(library.read_bytes().replace(b"l" * len(soname) + b"\0", soname + b"\0"))
    kept = {name: tmp_path / name for name in ("json", "junit", "sarif")}
    ended = tool("abi-gate", *(word for name, path in kept.items() for word in (f"--{name}", path)), library, "--", library)
    assert ended.status == 0 and len(ended.out.splitlines()) == 2 and ended.out.isascii() and "\x1b" not in ended.out, ended
    for name in ("json", "sarif"):
        json.loads(kept[name].read_text())
    (case,) = ElementTree.parse(kept["junit"]).getroot().iter("testcase")
    assert "\\x0a" in case.get("name", "") and "\u202e" not in case.get("name", "")


def test_a_report_that_cannot_be_made_changes_no_answer(sides: tuple[Path, Path], tmp_path: Path, monkeypatch: pytest.MonkeyPatch) -> None:
    monkeypatch.setenv("ABI_JSON", str(tmp_path / "none"))
    ended = tool("abi-gate", "--reports", tmp_path / "reports", sides[0] / "libno.so.1.abi", sides[1] / "libno.so.1")
    assert ended.status == 1 and "no report: there is no program" in ended.errors, ended
    assert list((tmp_path / "reports").iterdir()) == []


# ---- files of symbols, and headers


def test_symbols_of_dpkg_are_held_beside_the_answer(build: Build, tmp_path: Path) -> None:
    """dpkg-gensymbols made the file from the old library. What it says of the new library is what the remarks say."""
    needs("dpkg-gensymbols")
    (tmp_path / "map").write_text("V1 { global: area; other; local: *; };\n")
    (tmp_path / "map2").write_text("V1 { global: area; more; local: *; };\n")
    old = build("libx.so.1", OLD, "-g", "-Wl,--version-script=map", soname="libx.so.1")
    (tmp_path / "debian").mkdir()
    (tmp_path / "debian/control").write_text(
        "Source: x\nMaintainer: a <a@example.org>\n\nPackage: libx1\nArchitecture: amd64\nDescription: x\n")
    file = tmp_path / "x.symbols"
    done("dpkg-gensymbols", "-v1.0", "-plibx1", f"-e{old}", f"-O{file}", folder=tmp_path)
    assert {"area@V1", "other@V1", "V1@V1"} <= set(file.read_text().split())
    new = build("new.so", OLD.replace("other", "more"), "-g", "-Wl,--version-script=map2", soname="libx.so.1")
    ended = tool("abi-gate", "--symbols", file, old, old)
    assert ended.status == 0 and ended.errors == "", ended
    file.write_text(file.read_text() + ' (optional)maybe@V1 1.0\n (arch=arm64)far@V1 1.0\n (arch=!amd64)no@V1 1.0\n#MISSING: 1# past@V1 1\n'
                    ' (c++)"a::b()@V1" 1.0\n#include "more.symbols"\n')
    (tmp_path / "more.symbols").write_text(' (regex|optional)"^never" 1.0\n')
    ended = tool("abi-gate", "--symbols", file, old, "--", new)
    assert ended.status == 1 and ended.errors.splitlines() == [
        f"abi-gate: libx.so.1: {file} lists 1 export that the new library lacks: other@V1",
        f"abi-gate: libx.so.1: {file} lacks 1 export that the new library has: more@V1"], ended
    compared = run("dpkg-gensymbols", "-v2.0", "-plibx1", f"-e{new}", f"-I{file}", f"-O{tmp_path}/out", folder=tmp_path)
    changes = [line for line in (compared.out + compared.errors).splitlines() if line.startswith(("-", "+"))]
    assert "+ more@V1 2.0" in changes and "+#MISSING: 2.0# other@V1 1.0" in changes, compared
    for pattern in ('(symver)V1', '(regex)"^mo.*@V1$"'):
        (tmp_path / "more.symbols").write_text(f" {pattern} 1.0\n")
        assert [line for line in tool("abi-gate", "--symbols", file, old, "--", new).errors.splitlines()] == ended.errors.splitlines()[:1]


@pytest.mark.parametrize("text, said", (
    ("", "names no library"), (" a@Base 1\n", "names no library before"),
    ('libx.so.1 x #MINVER#\n#include "../../etc/passwd"\n', "not in its folder"),
    ('libx.so.1 x #MINVER#\n#include "bad.symbols"\n', "included too deeply")))
def test_a_file_of_symbols_that_is_none_is_told(build: Build, tmp_path: Path, text: str, said: str) -> None:
    library = build("libx.so.1", OLD, soname="libx.so.1")
    (tmp_path / "bad.symbols").write_text(text)
    ended = tool("abi-gate", "--symbols", tmp_path / "bad.symbols", library, library)
    assert (ended.status, ended.out) == (2, "") and said in ended.errors, ended


def test_a_development_package_says_which_types_callers_see(build: Build, tmp_path: Path) -> None:
    """The type of the header in the package is public; that of the other one gets a rule section in the report."""
    needs("dpkg-deb")
    source = '#include "seen.h"\n#include "hidden.h"\nint run(struct seen *s) { return s->inside->one; }\n'
    libraries = []
    for name, kind in (("old", "int"), ("new", "long")):
        (tmp_path / "seen.h").write_text(f"struct seen {{ {kind} one; struct hidden *inside; }};\n")
        (tmp_path / "hidden.h").write_text(f"struct hidden {{ {kind} one; }};\n")
        libraries.append(build(f"{name}.so", source))
    package = tmp_path / "package"
    (package / "DEBIAN").mkdir(parents=True)
    (package / "DEBIAN/control").write_text(
        "Package: x-dev\nVersion: 1\nArchitecture: all\nMaintainer: a <a@example.org>\nDescription: x\n")
    (package / "usr/include/x").mkdir(parents=True)
    (package / "usr/include/x/seen.h").write_text("")
    done("dpkg-deb", "--root-owner-group", "-b", package, tmp_path / "x-dev.deb")
    ended = run(TOOLS / "abi-report", "--dev", tmp_path / "x-dev.deb", *libraries)
    assert ended.status == 1 and "    name = hidden\n" in ended.out and "name = seen" not in ended.out, ended
    tool("abi-gate", "--reports", tmp_path / "reports", "--dev", tmp_path / "x-dev.deb", *libraries)
    (page,) = (tmp_path / "reports").iterdir()
    assert "name = hidden" in page.read_text() and "name = seen" not in page.read_text()
    ended = run(TOOLS / "abi-report", "--dev", libraries[0], *libraries)
    assert ended.status == 2 and "is neither a .deb nor a .rpm" in ended.errors, ended

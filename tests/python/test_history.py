"""`abi-history` on libraries that gcc builds: each cell is what `abi check` says of the two versions."""

from __future__ import annotations

import json
import os
import re
import signal
import subprocess
from pathlib import Path
from typing import Any

import pytest
from conftest import TOOLS, Ended, abi, done, run
from release_support import LIBRARIES, children, deb, is_alive, wait_for, wrapper_of

TOOL = TOOLS / "abi-history"


def built(folder: Path, name: str, text: str, soname: str = "libmade.so.1") -> Path:
    """Builds a version of the library."""
    source, place = folder / f"{name}.c", folder / f"{name}.so"
    source.write_text(text)
    done("gcc", "-g", "-O1", "-shared", "-fPIC", f"-Wl,-soname,{soname}", "-o", place, source)
    return place


def text_of(functions: int, first: str = "int", lost: int = 0) -> str:
    """A library of some functions, each with a structure of its own; the first member of the first one has this type."""
    return "".join(f"struct s{number} {{ {first if number == 1 else 'int'} a; struct s{number} *next; }};\n"
                   f"int f{number}(struct s{number} *s) {{ return s->a + {number}; }}\n"
                   for number in range(1, functions + 1) if number != lost)


def history(folder: Path, *arguments: object) -> Ended:
    """Runs the tool."""
    return run(TOOL, "--out", "out", *arguments, folder=folder)


def document(folder: Path) -> dict[str, Any]:
    """The document of a run."""
    found: dict[str, Any] = json.loads((folder / "out/history.json").read_text())
    return found


def test_ten_versions(tmp_path: Path) -> None:
    """Exports come and go, and a type changes twice. Longer ways are composed exactly where all steps in between are yes."""
    versions = [("int", 5, 0), ("int", 6, 0), ("int", 8, 0), ("int", 8, 0), ("long", 8, 0), ("long", 9, 0), ("long", 9, 2), ("long", 10, 2),
                ("long", 10, 0), ("char", 11, 0)]
    files = [built(tmp_path, f"v{number}", text_of(functions, first, lost)) for number, (first, functions, lost) in enumerate(versions)]
    ended = history(tmp_path, *(f"1.{number}={file}" for number, file in enumerate(files)))
    assert ended.status == 1, ended
    found = document(tmp_path)
    answers = {(pair["old"], pair["new"]): pair for pair in found["pairs"]}
    assert len(answers) == 45
    for (old, new), pair in answers.items():
        checked = abi("check", files[old], files[new])
        assert checked.status == {"yes": 0, "no": 1}[pair["answer"]], (old, new)
        kept = (tmp_path / "out" / pair["file"]).read_text()
        if pair["answer"] == "no":
            assert kept == checked.out
        else:
            assert abi("verify", files[old], files[new], tmp_path / "out" / pair["file"]).out == "accepted\n"
    no_steps = [new for new in range(1, 10) if answers[new - 1, new]["answer"] == "no"]
    assert no_steps == [4, 6, 9]
    for (old, new), pair in answers.items():
        assert pair["composed"] == (new - old > 1 and not any(old < step <= new for step in no_steps)), (old, new)
    # the lost export comes back, so the version after it may replace those before
    assert answers[5, 8]["answer"] == "yes" and answers[4, 8]["answer"] == "yes"
    exports = {one["export"]: (one["came"], one["last"], one["gaps"]) for one in found["exports"]}
    assert exports["f1"] == (0, 9, False) and exports["f2"] == (0, 9, True) and exports["f11"] == (9, 9, False)
    lines = ended.out.splitlines()
    assert lines[0] == "yes 1.0 -> 1.1: 5 exports compared, 5 with types; certificate out/1-2.cert"
    assert re.fullmatch(r"no 1\.5 -> 1\.6: 1 break \(X2 1\); report out/6-7\.report", lines[5]), lines
    assert re.fullmatch(r"10 versions, 45 pairs: \d+ no, \d+ yes; \d+ composed", lines[-1]), lines
    page = (tmp_path / "out/index.html").read_text()
    assert "<script" not in page and "http" not in page
    # the rows and columns of the page in their order
    shown = re.findall(r'<td class="pair"><a href="([^"]+)"><span class="[a-z-]+">([a-z ]+)</span></a>(\*?)', page)
    assert shown == [(pair["file"], pair["answer"], "*" if pair["composed"] else "") for _, pair in sorted(answers.items())]
    assert "1 exports went: f2" in page and "1 exports came: f2" in page
    for name in re.findall(r'href="([^"]+)"', page):
        assert (tmp_path / "out" / name).is_file()


def test_packages_and_baselines(tmp_path: Path) -> None:
    """A package with a debug package, one with the library as it is, and a baseline."""
    first, second = built(tmp_path, "v1", text_of(2)), built(tmp_path, "v2", text_of(3))
    (tmp_path / "libmade.so.1").write_bytes(first.read_bytes())
    done("objcopy", "--only-keep-debug", first, tmp_path / "v1.debug")
    done("strip", "-o", tmp_path / "stripped", first)
    identifier = re.search(r"Build ID: ([0-9a-f]+)", done("readelf", "--notes", first))
    assert identifier is not None
    digits = identifier.group(1)
    package = deb(tmp_path / "debs", "made", {f"{LIBRARIES}/libmade.so.1": tmp_path / "stripped"}, version="1")
    debug = deb(tmp_path / "debs", "made-dbg", {f"usr/lib/debug/.build-id/{digits[:2]}/{digits[2:]}.debug": tmp_path / "v1.debug"})
    done(TOOLS / "abi-baseline", second, tmp_path / "v2.abi")
    # what an earlier run left, and a file that is none of the tool's
    (tmp_path / "out").mkdir()
    for name in ("1-2.report", "7-9.cert", "index.html", "notes-1.txt"):
        (tmp_path / "out" / name).touch()
    ended = history(tmp_path, f"{package},{debug}", f"2={tmp_path / 'v2.abi'}", f"3={second}")
    assert {path.name for path in (tmp_path / "out").iterdir()} == {
        "1-2.cert", "2-3.cert", "1-3.cert", "history.json", "index.html", "notes-1.txt"}
    assert ended.status == 0 and ended.out.startswith("yes 1 -> 2: 2 exports compared, 2 with types"), ended
    assert [version["name"] for version in document(tmp_path)["versions"]] == ["1", "2", "3"]
    ended = history(tmp_path, package, f"2={second}")
    assert ended.status == 2 and "1 is judged as it was shipped" in ended.errors and ended.out.startswith("cannot tell 1 -> 2: "), ended
    # with a rule file all pairs are judged
    (tmp_path / "rules").write_text("[suppress_function]\nname = f1\n")
    ended = history(tmp_path, "--rules", tmp_path / "rules", *(f"{number}={first}" for number in range(3)))
    assert ended.status == 0 and ended.out.splitlines()[-1].endswith("0 composed"), ended


def test_what_cannot_be_told_is_neither_yes_nor_no(tmp_path: Path) -> None:
    """A version that `abi` refuses, one without debug information, and names that would forge lines."""
    first = built(tmp_path, "v1", text_of(2))
    done("strip", "-o", tmp_path / "stripped", first)
    (tmp_path / "random").write_bytes(bytes(range(256)))
    ended = history(tmp_path, f"a={first}", f"b\nyes b={tmp_path / 'random'}", f"<i>c={tmp_path / 'stripped'}", f"d={first}")
    assert ended.status == 2, ended
    lines = ended.out.splitlines()
    assert len(lines) == 4 and all(line.startswith("cannot tell ") for line in lines[:2]), lines
    page = (tmp_path / "out/index.html").read_text()
    assert "<i>c" not in page and r"b\x0ayes b" in lines[0]
    # sentences call a version by its name
    assert "version-" not in ended.out and "<i>c has no debug information" in lines[2], lines
    # of a version that cannot be read it is not known which exports it has: none came or went
    assert page.count("Which exports came and went is not known.") == 2 and " exports went: " not in page and " exports came: " not in page
    assert [version["exports"] for version in document(tmp_path)["versions"]] == [2, None, 2, 2]
    assert {one["export"]: (one["came"], one["last"], one["gaps"]) for one in document(tmp_path)["exports"]} == {
        "f1": (0, 3, False), "f2": (0, 3, False)}
    assert {(pair["old"], pair["new"]): pair["answer"] for pair in document(tmp_path)["pairs"]}[0, 3] == "yes"


def test_abi_that_gives_no_answer_is_told_as_what_it_was(tmp_path: Path) -> None:
    """For the second of three versions, memory runs out, a signal ends `abi`, or its time is up."""
    files = [built(tmp_path, f"v{number}", text_of(number)) for number in (1, 2, 3)]
    for way, words in (("exit 4", "abi ran out of memory under its limit of 900 MB"), ("kill -9 $$", "the signal SIGKILL ended it"),
                       ("exec /bin/sh -c 'while :; do :; done'", "its limit is 1 seconds of processor time"), ("exit 1", "with status 1")):
        wrapper = wrapper_of(tmp_path, f"case \"$*\" in 'check -- version-1 version-2') {way} ;; esac")
        ended = run("env", f"ABI={wrapper}", TOOL, "--memory", 900, "--seconds", 1, "--out", "out", *files, folder=tmp_path)
        assert ended.status == 2 and words in ended.out.splitlines()[0], ended
        answers = {(pair["old"], pair["new"]): pair for pair in document(tmp_path)["pairs"]}
        assert [answers[pair]["answer"] for pair in ((0, 1), (1, 2), (0, 2))] == ["cannot tell", "yes", "yes"]
        assert not any(pair["composed"] for pair in answers.values())


@pytest.mark.parametrize("number", [signal.SIGINT, signal.SIGTERM, signal.SIGKILL])
def test_what_a_history_leaves_behind(tmp_path: Path, number: signal.Signals) -> None:
    """It is ended while `abi` works: no process goes on, and no folder stays, or the next run removes it."""
    files = [built(tmp_path, f"v{number}", text_of(number)) for number in (1, 2)]
    (tmp_path / "tmp").mkdir()
    wrapper = wrapper_of(tmp_path, f"echo $$ >>{tmp_path}/runs; [ -e {tmp_path}/go ] || exec sleep 1000")
    environment = {**os.environ, "ABI": str(wrapper), "TMPDIR": str(tmp_path / "tmp")}
    command = [str(word) for word in (TOOL, "--out", "out", *files)]
    with subprocess.Popen(command, cwd=tmp_path, env=environment, stdout=subprocess.DEVNULL) as process:
        wait_for((tmp_path / "runs").exists)
        ours = children(process.pid) - {process.pid}
        process.send_signal(number)
        assert process.wait(timeout=100) == (-number if number == signal.SIGKILL else 128 + number)
    wait_for(lambda: not any(is_alive(one) for one in {*ours, *map(int, (tmp_path / "runs").read_text().split())}), seconds=100)
    assert bool(list((tmp_path / "tmp").iterdir())) == (number == signal.SIGKILL)
    (tmp_path / "go").touch()
    assert subprocess.run(command, cwd=tmp_path, env=environment, stdout=subprocess.DEVNULL, check=False).returncode == 0
    assert list((tmp_path / "tmp").iterdir()) == []


def test_wrong_arguments(tmp_path: Path) -> None:
    first = built(tmp_path, "v1", text_of(1))
    two = deb(tmp_path, "two", {f"{LIBRARIES}/liba.so.1": built(tmp_path, "a", text_of(1), "liba.so.1"),
                                f"{LIBRARIES}/libb.so.1": built(tmp_path, "b", text_of(1), "libb.so.1")})
    many = deb(tmp_path, "many", {f"{LIBRARIES}/b/libb.so.1": tmp_path / "b.so", **{
        f"{LIBRARIES}/a{number}.so": built(tmp_path, f"a{number}", text_of(1), f"a{number}") for number in range(6)}})
    for arguments, status, words in (((first,), 64, "a history needs two versions"), ((), 64, "required"),
                                     ((first, first), 64, "two versions have the name"), ((first, "x=none"), 2, "there is no file none"),
                                     ((first, f"b={first},{first}"), 64, "b: only packages have several files"),
                                     ((first, f"b={first}", "--workers", "0"), 64, "0 is no number from 1"),
                                     (("--rules", "none", first, f"b={first}"), 2, "there is no rule file none"),
                                     ((two, f"b={two}"), 2, "name one of liba.so.1, libb.so.1 by --library"),
                                     ((many, f"b={many}"), 2, "has 7 libraries: name one of libb.so.1, a0, a1, a2, a3 and 2 more by --library")):
        ended = history(tmp_path, *arguments)
        assert ended.status == status and words in ended.errors and "Traceback" not in ended.errors, ended
    ended = history(tmp_path, "--library", "libb.so.1", two, f"b={two}")
    assert ended.status == 0, ended
    assert subprocess.run([TOOL, "--help"], capture_output=True, check=True).returncode == 0

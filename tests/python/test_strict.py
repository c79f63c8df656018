"""`--strict` of the gates: a yes with notes on what can break compiled callers is `cannot tell`, and so is one without its notes."""

from __future__ import annotations

import json
import os
import re
from pathlib import Path
from typing import Callable

import jsonschema
import pytest
from conftest import ROOT, done, tool
from package_support import deb, packages, parted
from release_support import lines, release
from report_support import report

from abi.answers import CAN_BREAK_CALLERS
from abi_tools.side_notes import NOT_MADE, Weighty, weighty

Build = Callable[..., Path]

# A change in a library, the kind of note that it has, and whether that can break compiled callers.
PADDED = ("struct s { char a; int b; };\nint f(struct s *s) { return s->b; }\n", "char a;", "char a, c;")
ROWS = (
    (*PADDED, "member in padding", True),
    ("struct n { char (*row)[][16]; };\nint f(struct n *n) { return n != 0; }\n", "16", "32", "array dimensions", True),
    ("int object = 3;\nint f(void) { return object; }\n", "int object", "const int object", "object qualifiers", True),
    ("__thread char mine[4];\nint f(void) { return mine[0]; }\n", "[4]", "[8]", "thread-local object", True),
    ("int f(int first) { return 1; }\n", "first", "other", "parameter name", False),
    ("int f(char *text) { return text != 0; }\n", "char", "const char", "qualifiers", False),
    ("int f(int a) { return a; }\n", "int f", "int g(int a) { return a + 1; }\nint f", "export added", False),
)
SAID = " that no rule judges can break compiled callers: "


def sides(build: Build, text: str, before: str, after: str) -> tuple[Path, Path]:
    """A library, and one with a change."""
    assert text.count(before) == 1
    return build("old.so", text, "-g", soname="libf.so.1"), build("new.so", text.replace(before, after), "-g", soname="libf.so.1")


def test_the_weights_of_kinds_are_those_of_their_definition() -> None:
    """`crates/type_notes` defines what each kind is called, and what it weighs."""
    text = (ROOT / "crates/type_notes/specs/Notes.antt").read_text()
    names = dict(re.findall(r'^kind_name (\w+) = codes "([^"]+)"$', text, re.MULTILINE))
    weights = dict(re.findall(r"^weight_of (\w+) = (\w+)$", text, re.MULTILINE))
    assert set(names) == set(weights) and set(weights.values()) == {"CanBreakCallers", "OnlyTold"}
    assert {names[kind] for kind, weight in weights.items() if weight == "CanBreakCallers"} == CAN_BREAK_CALLERS
    (listed,) = re.findall(r"^Eleven kinds name what \*\*can break compiled callers\*\*.*$", (ROOT / "docs/GUIDE.md").read_text(), re.MULTILINE)
    assert set(re.findall(r"`([^`]+)`", listed)) - {"--strict", "abi-report", "dh_abi", "cannot tell"} == CAN_BREAK_CALLERS


@pytest.mark.parametrize("text, before, after, kind, can_break", ROWS, ids=[row[3] for row in ROWS])
def test_a_strict_gate(build: Build, tmp_path: Path, text: str, before: str, after: str, kind: str, can_break: bool) -> None:
    """Without the option each of these changes is a yes, without a note. The certificate is kept on yes alone."""
    old, new = sides(build, text, before, after)
    ended = tool("abi-gate", old, new)
    assert ended.status == 0 and "note: " not in ended.errors, ended
    kept = tmp_path / "cert"
    ended = tool("abi-gate", "--strict", "--certificate", kept, old, new)
    assert kept.exists() != can_break
    if not can_break:
        assert ended.status == 0 and ended.out.startswith("yes: ") and ended.errors == "", ended
        return
    assert ended.status == 2 and ended.out.startswith(f"cannot tell: 1 difference{SAID}{kind}: "), ended
    noted = ended.out.split(SAID)[1]
    assert ended.errors == f"abi: note: {noted}", ended


def test_a_strict_gate_keeps_a_no(build: Build, monkeypatch: pytest.MonkeyPatch) -> None:
    text, before, after = PADDED
    old, new = sides(build, text, "int b;", "long b;")
    plain, strict = tool("abi-gate", old, new), tool("abi-gate", "--strict", old, new)
    assert (strict.status, strict.out, strict.errors) == (1, plain.out, plain.errors)
    old, new = sides(build, text, before, after)
    monkeypatch.setenv("ABI_NOTES", "1")
    ended = tool("abi-gate", old, new)
    assert ended.status == 0 and "abi: note: member in padding: " in ended.errors and "abi: note: exports of OLD: " in ended.errors


def many(count: int) -> str:
    """A library with this many structures that have padding."""
    return "".join(f"struct s{n} {{ char a; int b; }};\nint f{n}(struct s{n} *s) {{ return s->b + {n}; }}\n" for n in range(count))


def test_many_differences_are_counted(build: Build, tmp_path: Path) -> None:
    """A reason names five, and the notes are the first ten of a kind, as `abi` prints them."""
    old, new = build("old.so", many(23)), build("new.so", many(23).replace("char a;", "char a, c;"))
    document = tmp_path / "answer.json"
    ended = tool("abi-gate", "--strict", "--json", document, "--junit", tmp_path / "junit.xml", old, new)
    assert ended.status == 2 and ended.out.startswith(f"cannot tell: 23 differences{SAID}"), ended
    assert ended.out.count("member in padding: ") == 5 and ended.out.endswith("; and 18 more\n")
    notes = ended.errors.splitlines()
    assert len(notes) == 11 and notes[-1] == "abi: note: member in padding: and 13 more"
    found = json.loads(document.read_text())
    jsonschema.validate(found, json.loads((ROOT / "docs/gate.schema.json").read_text()))
    assert found["libraries"][0]["notes"] == [line.removeprefix("abi: note: ") for line in notes]
    assert "and 13 more" in (tmp_path / "junit.xml").read_text()


def test_a_strict_gate_on_several_libraries(build: Build, tmp_path: Path) -> None:
    old, new = sides(build, *PADDED)
    same = build("same.so", PADDED[0], "-g", soname="libsame.so.1")
    ended = tool("abi-gate", "--strict", "--reports", tmp_path / "reports", old, same, "--", new, same)
    first, second, last = ended.out.splitlines()
    assert ended.status == 2 and first.startswith(f"cannot tell libf.so.1: 1 difference{SAID}member in padding: "), ended
    assert second.startswith("yes libsame.so.1: ") and last == "cannot tell: 2 libraries: 1 cannot tell, 1 yes"
    assert ended.errors.startswith("abi-gate: libf.so.1: note: member in padding: ")
    assert "cannot tell" in (tmp_path / "reports/libf.so.1.html").read_text()


def test_a_yes_without_its_notes_cannot_be_told(build: Build, tmp_path: Path, monkeypatch: pytest.MonkeyPatch) -> None:
    """As if memory for notes ran out: a program that never prints any."""
    program = tmp_path / "abi"
    program.write_text(f"#!/bin/sh\nexec env ABI_NOTES=0 '{Path(os.environ['ABI']).resolve()}' \"$@\"\n")
    program.chmod(0o755)
    same = build("same.so", PADDED[0])
    monkeypatch.setenv("ABI", str(program))
    assert tool("abi-gate", same, same).status == 0
    ended = tool("abi-gate", "--strict", same, same)
    assert (ended.status, ended.out) == (2, f"cannot tell: {NOT_MADE}\n"), ended


@pytest.mark.parametrize("notes, printed, count", (
    ("", None, 0),
    ("abi: note: packing: f: was packed, now not\n", None, 0),
    ("abi: note: exports of OLD: 1 compared, 0 dropped by the rule file, 0 gone\n", (), 0),
    ("abi: packing: f\nabi: note: export added: packing\nabi: note: packings: f\nabi: note: exports of OLD: 1\n", (), 0),
    ("abi: note: packing: and\nabi: note: packing: and 2 more\nabi: note: exports of OLD: 1\n", ("packing: and", "packing: and 2 more"), 3)))
def test_what_is_read_of_notes(notes: str, printed: tuple[str, ...] | None, count: int) -> None:
    """Only whole notes count, each under its own kind. An export may be called `and`."""
    assert weighty(notes) == (None if printed is None else Weighty(printed, count))


def test_strict_packages(build: Build, tmp_path: Path) -> None:
    text, before, after = PADDED
    both = []
    for side, source in (("old", text), ("new", text.replace(before, after))):
        library, debug, _ = parted(build, tmp_path, source, side, "libf.so.1")
        both.append((deb(tmp_path, side, library), deb(tmp_path, f"{side}-dbgsym", debug)))
    assert packages(tmp_path, *both[0], "--", *both[1]).status == 0
    assert (tmp_path / "certificates/libf.so.1.cert").exists()
    ended = packages(tmp_path, "--strict", *both[0], "--", *both[1])
    assert ended.status == 2 and ended.out.startswith(f"cannot tell libf.so.1: 1 difference{SAID}member in padding: "), ended
    assert ended.errors.startswith("abi-packages: libf.so.1: note: member in padding: ")
    assert not list((tmp_path / "certificates").iterdir())
    assert packages(tmp_path, "--strict", *both[0], "--", *both[0]).status == 0
    ended = packages(tmp_path, "--strict", "--verify", tmp_path, *both[0], "--", *both[0])
    assert ended.status == 64 and "--strict and --verify exclude each other" in ended.errors


def test_a_strict_release(build: Build, tmp_path: Path) -> None:
    """What a run with the option found is no answer of one without it, and the other way round."""
    text, before, after = PADDED
    for side, source in (("old", text), ("new", text.replace(before, after))):
        library = build(f"{side}.so", source, soname="libf.so.1")
        deb(tmp_path, "libf1", {"usr/lib/x86_64-linux-gnu/libf.so.1": library}, version="1").rename(_place(tmp_path, side))
        done("rm", "-r", tmp_path / "libf1.tree")
    for options, status, answer in (((), 0, "yes"), (("--strict",), 2, "cannot tell"), ((), 0, "yes"), (("--strict",), 2, "cannot tell")):
        ended = release(tmp_path, *options)
        line = lines(tmp_path)["libf1 libf.so.1"]
        assert ended.status == status and line["answer"] == answer, ended
        if answer != "yes":
            assert line["reason"].startswith(f"1 difference{SAID}member in padding: ")
            assert [note.partition(":")[0] for note in line["notes"]] == ["member in padding"]


def _place(folder: Path, side: str) -> Path:
    """The place of the package of a side."""
    (folder / side).mkdir()
    return folder / side / "libf1_1_amd64.deb"


def test_a_strict_report(build: Build, tmp_path: Path) -> None:
    """The report has the answer of the gate, also if it leaves out what takes time."""
    old, new = sides(build, *PADDED)
    kept = tmp_path / "cert"
    for options in ((), ("--fast",), ("--quiet",)):
        assert report(*options, old, new).status == 0
        ended = report("--strict", "--certificate", kept, *options, old, new)
        assert ended.status == 2 and ended.out.startswith(f"cannot tell: 1 difference{SAID}member in padding: "), ended
        assert report("--strict", *options, old, old).status == 0
    assert not kept.exists()

"""The library for Python: answers as data, and an exception wherever there is neither a yes nor a no."""

from __future__ import annotations

import os
import stat
from pathlib import Path

import pytest
from conftest import TOOLS, needs, run

import abi


def built(folder: Path, name: str, source: str) -> Path:
    """A shared library of a source, with debug information."""
    (folder / f"{name}.c").write_text(source, encoding="utf-8")
    assert run("gcc", "-shared", "-fPIC", "-g", "-o", folder / f"{name}.so", folder / f"{name}.c").status == 0
    return folder / f"{name}.so"


OLD = "struct point { int x, y; };\nint sum(struct point *p) { return p->x + p->y; }\n"


def program(folder: Path, lines: str) -> Path:
    """A program in place of `abi-json`."""
    path = folder / "program"
    path.write_text(f"#!/bin/sh\n{lines}\n", encoding="utf-8")
    path.chmod(path.stat().st_mode | stat.S_IXUSR)
    return path


def test_no_names_each_break(tmp_path: Path) -> None:
    """A member that moved is a break, with its place in the source, its types and both values."""
    old, new = built(tmp_path, "old", OLD), built(tmp_path, "new", OLD.replace("int x", "long x"))
    answer = abi.check(old, new)
    assert answer.verdict is abi.Verdict.NO and not answer.certificate and answer.notes is None
    moved = next(found for found in answer.breaks if found.rule == "L7")
    assert (moved.export, moved.part, moved.was, moved.now) == ("sum", "y", abi.Value(32, "bits"), abi.Value(64, "bits"))
    assert moved.old_type == "struct point" and moved.old_place == abi.Place(str(tmp_path / "old.c"), 1)
    assert [one.role for one in answer.inputs] == ["old", "new"] and all(one.sha256 for one in answer.inputs)
    with pytest.raises(TypeError):
        bool(answer)


def test_yes_has_a_certificate_that_is_accepted(tmp_path: Path) -> None:
    """The certificate of a yes under a rule file is what `abi verify` accepts; notes come if they are asked for."""
    old, new = built(tmp_path, "old", OLD), built(tmp_path, "new", OLD.replace("int x", "long x") + "int more(void) { return 1; }\n")
    rules = tmp_path / "rules"
    rules.write_text("[suppress_type]\nname = point\n", encoding="utf-8")
    answer = abi.check(old, new, rules=rules, notes=True)
    assert answer.verdict is abi.Verdict.YES and answer.breaks == ()
    assert answer.notes is not None and any(note.kind == "new export" and note.now == "more" or note.export == "more" for note in answer.notes)
    (tmp_path / "cert").write_bytes(answer.certificate)
    ended = run(os.environ["ABI"], "verify", f"--rules={rules}", old, new, tmp_path / "cert")
    assert (ended.status, ended.out) == (0, "accepted\n")


@pytest.mark.parametrize("lines, why", [
    ("exit 0", "printed no document"),
    ("echo '{}'; exit 0", "printed no document"),
    ("""echo '{"format": 2}'; exit 0""", "the format 2"),
    ("""echo '{"format": 1, "answer": "yes"}'; exit 1""", "the answer is yes"),
    ("""echo '{"format": 1, "answer": "no"}'; exit 0""", "the answer is no"),
    ("""echo '{"format": 1, "answer": "yes"}'; exit 0""", "printed no document"),
    ("echo 'abi-json: out of memory' >&2; exit 4", "out of memory"),
    ("kill -KILL $$", "SIGKILL"),
])
def test_neither_yes_nor_no_raises(tmp_path: Path, lines: str, why: str) -> None:
    """Whatever the program prints, an answer needs a document whose answer and exit status agree."""
    with pytest.raises(abi.NoAnswer, match=why):
        abi.check("old.so", "new.so", program=program(tmp_path, lines))


def test_faults_programs_and_time(tmp_path: Path) -> None:
    """A file with a fault, a program that is not there, and one that does not end."""
    text = tmp_path / "text"
    text.write_text("no library", encoding="utf-8")
    with pytest.raises(abi.NoAnswer) as found:
        abi.check(text, text)
    assert found.value.status == 2 and found.value.fault is not None and found.value.fault["input"] == "old"
    with pytest.raises(abi.NoAnswer, match="there is no program"):
        abi.check(text, text, program=tmp_path / "missing")
    with pytest.raises(abi.NoAnswer, match="within 0.2 seconds"):
        abi.check(text, text, program=program(tmp_path, "exec sleep 5"), timeout=0.2)


def test_a_checker_of_types_knows_the_library(tmp_path: Path) -> None:
    """As it is installed: in a folder of modules of Python, and not among the sources of a project."""
    needs("mypy")
    assert run("/usr/bin/python3", "-m", "venv", "--without-pip", tmp_path / "environment").status == 0
    (modules,) = (tmp_path / "environment/lib").glob("python3*/site-packages")
    (modules / "abi").symlink_to(TOOLS / "abi")
    project = tmp_path / "project"
    project.mkdir()
    text = 'import abi\n\nwords: list[str] = [found.rule for found in abi.check("old.so", "new.so").breaks]\n'
    wrong = "error: List comprehension has incompatible type"
    for source, status, words in ((text, 0, "Success"), (text.replace("found.rule", "found.was"), 1, wrong)):
        (project / "judge.py").write_text(source, encoding="utf-8")
        ended = run("env", "-u", "MYPYPATH", "mypy", "--strict", "--cache-dir=/dev/null", "--python-executable", tmp_path / "environment/bin/python3",
                    "judge.py", folder=project)
        assert ended.status == status and words in ended.out, ended


def test_notes_say_whether_they_can_break_callers(tmp_path: Path) -> None:
    padded = "struct s { char a; int b; };\nint f(struct s *s) { return s->b; }\n"
    old = built(tmp_path, "old", padded)
    new = built(tmp_path, "new", padded.replace("char a;", "char a, c;") + "int more(void) { return 1; }\n")
    answer = abi.check(old, new, notes=True)
    assert answer.verdict is abi.Verdict.YES and answer.notes is not None
    assert {note.kind for note in answer.notes if note.can_break_callers} == {"member in padding"}
    assert any(note.kind == "export added" for note in answer.notes)

"""What `abi-report` itself reads of debug information: names as C writes them, layouts and lines; and likely successors."""

from __future__ import annotations

import random
import re
from pathlib import Path

import pytest

from conftest import ROOT, abi, done, needs, run

from abi_report.entries import Entries, Entry
from abi_report.layouts import PADDING, rooms_of
from abi_report.records import Records
from abi_report.successors import Successors

_STRUCTURES = ROOT / "tests" / "layouts" / "structures.h"
_BUILDS = [(compiler, version) for compiler in ("gcc", "clang") for version in (4, 5)]
# Declarations of parameters: as a header writes them, and as the tool writes them.
_DECLARED = [
    ("int number", "int number"), ("const char *text", "const char *text"), ("char *const text", "char *const text"),
    ("struct s *s", "struct s *s"), ("union u **u", "union u **u"), ("enum e e", "enum e e"), ("number n", "number n"),
    ("const volatile number *n", "const volatile number *n"), ("int (*call)(struct s *, ...)", "int (*call)(struct s *, ...)"),
    ("int (*table)[4]", "int (*table)[4]"), ("void (*(*nested)(int))(void)", "void (*(*nested)(int))(void)"),
    ("nameless *n", "nameless *n"), ("_Bool flag", "_Bool flag"), ("int *restrict p", "int *restrict p"), ("void *p", "void *p"),
]
_TYPES = "struct s { int a; };\nunion u { int a; };\nenum e { E };\ntypedef int number;\ntypedef struct { int a; } nameless;\n"


@pytest.mark.parametrize(("compiler", "version"), _BUILDS)
def test_types_are_named_as_c_writes_them(compiler: str, version: int, tmp_path: Path) -> None:
    needs(compiler)
    text = _TYPES + "".join(f"void f{k}({written}) {{}}\n" for k, (written, _) in enumerate(_DECLARED))
    records = read(tmp_path, text, compiler, f"-gdwarf-{version}")
    for number, (_, wanted) in enumerate(_DECLARED):
        function = records.export(f"f{number}@@V1")
        assert function is not None
        found = records.names.prototype(function)
        assert found in (f"void f{number}({wanted})", f"void f{number}({turned(wanted)})"), found


def turned(words: str) -> str:
    """The declaration with its qualifiers in the other order, which means the same."""
    return words.replace("const volatile", "volatile const").replace("_Bool", "_Bool")


def read(folder: Path, text: str, compiler: str, *options: str) -> Records:
    """Builds a library from this source, and reads what it declares."""
    (folder / "source.c").write_text(text)
    done(compiler, "-shared", "-fPIC", "-g", *options, "-o", "library.so", "source.c", folder=folder)
    return Records(Entries(folder / "library.so"))


@pytest.mark.parametrize(("compiler", "version"), _BUILDS)
def test_layouts_are_those_of_abi_layout(compiler: str, version: int, tmp_path: Path) -> None:
    """The structures with a tag in the sources that tests/layouts.sh compares with pahole."""
    needs(compiler)
    header = _STRUCTURES.read_text()
    tags = list(dict.fromkeys(re.findall(r"^(?:struct|union) (\w+) *\{", header, re.MULTILINE)))
    kinds = dict((tag, kind) for kind, tag in re.findall(r"^(struct|union) (\w+) *\{", header, re.MULTILINE))
    text = f'#include "{_STRUCTURES}"\n' + "".join(f"int use_{tag}({kinds[tag]} {tag} *p) {{ return p != 0; }}\n" for tag in tags)
    records = read(tmp_path, text, compiler, f"-gdwarf-{version}")
    for tag in tags:
        wanted = abi("layout", tmp_path / "library.so", tag).out.splitlines()
        function = records.export(f"use_{tag}")
        assert function is not None
        found = records.walk(function, ("param 1", "target"))
        record = records.record(found.offset) if found is not None else None
        assert record is not None, tag
        size = record.number("byte_size")
        assert size is not None and wanted[0].split()[:4] == ["layout", tag, "size", str(size)]
        lines = [line for line in wanted[1:] if line.startswith(("member ", "hole ", "padding "))]
        assert sorted(lines) == sorted(layout_lines(records, record, size)), tag


def layout_lines(records: Records, record: Entry, size: int) -> list[str]:
    """A layout, in the form of the lines of `abi layout`."""
    lines = []
    for room in rooms_of(records.members(record), size):
        word = room.label if room.is_free else f"member {room.label.split('#')[0]}"
        lines.append(f"{word} bit {room.bit} width {room.width}")
    return lines


def test_lines_of_members_are_those_of_the_source(tmp_path: Path) -> None:
    for compiler, version in _BUILDS:
        needs(compiler)
        records = read(tmp_path, "struct s {\n    int a;\n\n    long b;\n};\nint f(struct s *s) { return s->a; }\n", compiler,
                       f"-gdwarf-{version}")
        function = records.export("f")
        assert function is not None
        found = records.walk(function, ("param 1", "target"))
        assert found is not None
        places = [(member.name, member.place.line if member.place else None, Path(member.place.file).name if member.place else None)
                  for member in records.members(found)]
        assert places == [("a", 2, "source.c"), ("b", 4, "source.c")], (compiler, version, places)


def test_damaged_debug_information_never_ends_the_reading(tmp_path: Path) -> None:
    records = read(tmp_path, _TYPES + "int f(struct s *s, nameless *n) { return s->a + n->a; }\n", "gcc")
    library = tmp_path / "library.so"
    whole = library.read_bytes()
    chance = random.Random(40)
    sections = [records.entries.file.first(name) for name in (".debug_info", ".debug_abbrev", ".debug_line", ".debug_str")]
    for _ in range(100):
        data = bytearray(whole)
        section = chance.choice([one for one in sections if one is not None])
        for _ in range(chance.randint(1, 4)):
            data[section.offset + chance.randrange(section.size)] = chance.randrange(256)
        library.write_bytes(data)
        read_all(library)


def read_all(library: Path) -> None:
    """Reads what a report would read. Only a fault of the units may be raised."""
    from abi_tools.faults import Fault

    try:
        records = Records(Entries(library))
    except Fault:
        return
    function = records.export("f")
    if function is None:
        return
    records.names.prototype(function)
    records.place(function)
    for steps in (("param 1", "target"), ("param 2", "target"), ("result",)):
        found = records.walk(function, steps)
        record = records.record(found.offset) if found is not None else None
        if record is not None:
            rooms = rooms_of(records.members(record), record.number("byte_size") or 0)
            assert all(room.label != PADDING or room.is_free for room in rooms)


@pytest.mark.parametrize(("gone", "wanted"), [
    ("open_file@@V1", ["open_file@@V2"]), ("inflate", ["inflate2@@V2"]), ("set_colour", ["set_color"]), ("unlike_all", []),
    ("close", ["stream_close"]),
])
def test_successors(gone: str, wanted: list[str]) -> None:
    old = ["open_file@@V1", "inflate", "set_colour", "unlike_all", "close", "kept"]
    new = ["open_file@@V2", "inflate2@@V2", "set_color", "kept", "stream_close", "zzz"]
    assert Successors(old, new, 5).of(gone) == wanted


def test_many_symbols_that_are_gone_take_no_long_time() -> None:
    old = [f"library_function_{k}" for k in range(3000)]
    new = [f"function_of_another_{k}" for k in range(3000)]
    found = Successors(old, new, len(old))
    assert [found.of(label) for label in old[:50]] == [[]] * 50
    assert run("true").status == 0

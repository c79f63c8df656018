"""`abi-gate`: its exit statuses 0, 1 and 2."""

from __future__ import annotations

import os
import signal
from pathlib import Path
from typing import Callable

import pytest
from conftest import TOOLS, Ended, abi, done, killer_of_tool, run, script, tool

from abi_tools.elf_files import ElfFile
from abi_tools.file_needs import FileNeeds

Build = Callable[..., Path]

OLD = """\
struct point { int x, y; };
int area(struct point *p) { return p->x * p->y; }
int other(int a) { return a + 1; }
int object = 3;
void plain(void) { }
"""
NEW = OLD.replace("int x, y;", "long x, y;")


def gate(*arguments: object) -> Ended:
    """Runs the gate, whose output must begin with its answer."""
    ended = tool("abi-gate", *arguments)
    assert ended.out.startswith({0: "yes", 1: "no", 2: "cannot tell: "}[ended.status]), ended
    return ended


def told(ended: Ended, *words: str) -> None:
    """Checks that the gate cannot tell, and that the reason has these words."""
    assert ended.status == 2 and len(ended.out.splitlines()) == 1, ended
    assert all(word in ended.out for word in words), ended.out


@pytest.fixture(params=("gcc -gdwarf-5", "gcc -gdwarf-4 -ffunction-sections", "clang -gdwarf-5 -ffunction-sections", "clang -gdwarf-4"))
def levels(request: pytest.FixtureRequest, build: Build, tmp_path: Path) -> dict[str, Path]:
    """A library with types, with debug information of level 1, and stripped; and its next build."""
    compiler, *options = request.param.split()
    made = {"full": build("full.so", OLD, *options, "-g", compiler=compiler),
            "next": build("next.so", NEW, *options, "-g", compiler=compiler),
            "one": build("one.so", OLD, *options, "-g1", compiler=compiler),
            "none": tmp_path / "none.so"}
    done("strip", "-o", made["none"], made["full"])
    return made


def test_yes_and_no_are_those_of_abi(levels: dict[str, Path], tmp_path: Path) -> None:
    certificate = tmp_path / "cert"
    ended = gate("--certificate", certificate, levels["full"], levels["full"])
    assert (ended.status, ended.out) == (0, "yes: 4 exports compared, 4 with types\n")
    assert abi("verify", levels["full"], levels["full"], certificate).out == "accepted\n"
    ended = gate("--certificate", certificate, levels["full"], levels["next"])
    assert (ended.status, ended.out) == (1, abi("check", levels["full"], levels["next"]).out)
    names = f"{levels['full']} {levels['next']}"
    assert ended.errors.endswith(f"abi-gate: {levels['next']} may not replace {levels['full']}; see abi-report {names}\n")
    assert run("sh", "-c", f"{TOOLS}/abi-report {names}").status == 1
    assert not certificate.exists()


def test_missing_types_are_told(levels: dict[str, Path]) -> None:
    full, one, none, following = (levels[name] for name in ("full", "one", "none", "next"))
    told(gate(none, none), "no types were compared", "no debug information")
    told(gate(one, one), "no types were compared", "-g1")
    told(gate(full, none), "are gone", "no debug information")
    told(gate(full, one), "are gone", "-g1")
    told(gate(none, full), "no types were compared", "no debug information")
    told(gate(one, following), "-g1")
    told(gate(none, one), "no types were compared")
    told(gate(one, none), "-g1")


def test_a_break_is_a_no_also_without_types(levels: dict[str, Path], build: Build) -> None:
    without = build("without.so", OLD.replace("int other(int a) { return a + 1; }", ""), "-g0")
    for name in ("full", "one", "none"):
        ended = gate(levels[name], without)
        assert ended.status == 1 and "X2 other: gone" in ended.out


def test_parts_of_a_library_may_lack_types(tmp_path: Path) -> None:
    """A library of two units. The new library has types of only one of them."""
    (tmp_path / "one.c").write_text("struct point { int x, y; };\nint area(struct point *p) { return p->x; }\n")
    (tmp_path / "two.c").write_text("int other(int a) { return a + 1; }\nint third(long *a) { return *a > 1; }\n")
    for name, unit, options in (("a", "one", "-g"), ("b", "two", "-g"), ("c", "two", "-g1"), ("d", "two", "-g0")):
        done("gcc", "-fPIC", "-c", options, "-o", tmp_path / f"{name}.o", tmp_path / f"{unit}.c")
    for name in "bcd":
        done("gcc", "-shared", "-o", tmp_path / f"a{name}.so", tmp_path / "a.o", tmp_path / f"{name}.o")
    full, level_one, untyped = (tmp_path / f"a{name}.so" for name in "bcd")
    told(gate(full, level_one), "2 exports", "-g1")
    told(gate(full, untyped), "2 exports", "no debug information of them")
    told(gate(level_one, full), "2 exports", "-g1")
    told(gate(untyped, untyped), "1 of 3 exports", "90 of 100")
    ended = gate("--require-types", "33", untyped, untyped)
    assert ended.out == "yes: 3 exports compared, 1 with types (33.3 % of the 3 that can have some)\n"
    told(gate("--require-types", "34%", untyped, untyped), "1 of 3 exports", "34 of 100")
    told(gate("--require-types", "34", level_one, level_one), "1 of 3 exports")


@pytest.mark.parametrize("options", (("-flto", "-gdwarf-5"), ("-flto", "-gdwarf-4")))
def test_functions_without_parameters_have_types_after_link_time_optimization(build: Build, options: tuple[str, ...]) -> None:
    """The entry with the code is in a unit of its own, and its prototype in another one."""
    source = "int count;\nvoid start(void) { count = 1; }\nvoid stop(void) { count = 0; }\n"
    full = build("full.so", source, "-O2", *options)
    assert gate(full, full).out == "yes: 3 exports compared, 3 with types\n"
    level_one = build("one.so", source.replace("int count;", "static int count;"), "-O2", *options, "-g1")
    told(gate(level_one, level_one), "no types were compared")


FOLDED = "int first(int a) { return a * 3 + 7; }\nint second(int a) { return a * 3 + 8; }\nint third(int a) { return a; }\n"


def test_equal_functions_that_gcc_folds_are_told(build: Build) -> None:
    """The entry of a folded function has no address, so `abi` reports X6. With another break besides, the answer is still no."""
    mended = FOLDED.replace("+ 8", "+ 7")
    old, new = build("old.so", FOLDED, "-g", "-O2"), build("new.so", mended, "-g", "-O2")
    assert abi("check", old, new).out == "no\nX6 second: type gone\n"
    told(gate(old, new), "the types of 1 export are gone: ", "new.so", "-fno-ipa-icf")
    broken = gate(old, build("broken.so", mended.replace("third(int a)", "third(long a)"), "-g", "-O2"))
    assert broken.status == 1 and "X6 second: type gone\n" in broken.out
    assert gate(build("a.so", FOLDED, "-g", "-O2", "-fno-ipa-icf"), build("b.so", mended, "-g", "-O2", "-fno-ipa-icf")).status == 0
    clang = [build(f"{name}.so", text, "-g", "-O2", compiler="clang") for name, text in (("c", FOLDED), ("d", mended))]
    assert gate(*clang).status == 0


def test_exports_without_types_are_named(build: Build) -> None:
    """At most five are."""
    folded = build("folded.so", FOLDED.replace("+ 8", "+ 7"), "-g", "-O2")
    ended = gate("--require-types", "90", folded, folded)
    told(ended, "2 of 3 exports have types in both libraries, which is less than 90 of 100: no types of second; ", "-fno-ipa-icf")
    assert "assembler" not in ended.out
    code = "".join(f'asm(".globl f{n}; .type f{n}, @function; f{n}: ret; .size f{n}, 1");' for n in range(1, 8))
    written = build("written.so", f"int first(int a) {{ return a; }}\n{code}\n", "-g", "-O2")
    ended = gate("--require-types", "90", written, written)
    told(ended, "1 of 8 exports", "no types of f")
    assert ended.out.count(", f") == 4 and " and 2 more" in ended.out, ended


def test_nothing_compared_is_told(build: Build, tmp_path: Path) -> None:
    empty = build("empty.so", "static int nothing;\n", "-g", "-nostdlib")
    told(gate(empty, empty), "nothing was compared")
    whole = build("whole.so", OLD)
    (tmp_path / "all.rules").write_text("[suppress_function]\nname_regexp = .*\n[suppress_variable]\nname_regexp = .*\n")
    told(gate("--rules", tmp_path / "all.rules", whole, whole), "nothing was compared")


@pytest.mark.parametrize("share", ("0", "90", "100"))
def test_exports_of_size_0_are_no_types(build: Build, share: str) -> None:
    """As in assembler without .size: without types of other exports, nothing was compared but names. If there are types, they count."""
    code = "".join(f'asm(".globl f{n}; .type f{n}, @function; f{n}: ret");' for n in range(3))
    written = build("written.so", f"static int unused;\n{code}\n", "-g", "-O2", "-nostdlib")
    told(gate("--require-types", share, written, written), "no types were compared", "have size 0")
    one = build("one.so", f"int first(int a) {{ return a; }}\n{code}\n")
    assert gate("--require-types", share, one, one).out == "yes: 4 exports compared, 1 with types (100 % of the 1 that can have some)\n"


# Ten functions, of which nine are in the second unit.
_ONE = "int first(int a) { return a; }\n"
_NINE = "".join(f"int f{n}(int a) {{ return a + {n}; }}\n" for n in range(9))


def two_units(folder: Path, name: str, second: str, *options: str) -> Path:
    """A library of two units, of which the first has types."""
    (folder / "one.c").write_text(_ONE)
    suffix = "s" if second.startswith(".") else "c"
    (folder / f"{name}.{suffix}").write_text(second)
    for source, given in (("one.c", ("-g",)), (f"{name}.{suffix}", options)):
        done("gcc", "-fPIC", "-c", *given, "-o", folder / f"{source}.o", folder / source)
    done("gcc", "-shared", "-o", folder / f"{name}.so", folder / "one.c.o", folder / f"{name}.{suffix}.o")
    return folder / f"{name}.so"


def test_one_typed_export_is_not_enough(tmp_path: Path) -> None:
    """The signatures of the nine functions without types change, and `abi` does not see it."""
    old = two_units(tmp_path, "old", _NINE, "-g0")
    new = two_units(tmp_path, "new", _NINE.replace("(int a)", "(int *a, long b)").replace("return a", "return *a + b"), "-g0")
    assert abi("check", old, new).status == 0
    told(gate(old, new), "1 of 10 exports have types in both libraries, which is less than 90 of 100")
    ended = gate("--require-types", "10", old, new)
    assert (ended.status, ended.out) == (0, "yes: 10 exports compared, 1 with types (10 % of the 10 that can have some)\n")


@pytest.mark.parametrize("second", (
    "static int one(int a) { return a; }\nstatic void *choose(void) { return one; }\n" + "".join(
        f'int g{n}(int a) __attribute__((ifunc("choose")));\n' for n in range(9)),
    "".join(f".globl g{n}\n.type g{n}, @function\ng{n}: ret\n.size g{n}, 1\n" for n in range(9)),
    "".join(f"__thread int g{n} = {n + 1};\n" for n in range(9))), ids=("indirect", "assembler", "thread-local"))
def test_what_never_has_types_does_not_count(tmp_path: Path, second: str) -> None:
    """Indirect functions, thread-local objects, and functions in a unit that is written in assembler. A library that has nothing else is
    a yes that says so."""
    library = two_units(tmp_path, "mixed", second, "-g")
    ended = gate("--require-types", "100", library, library)
    assert ended.out == "yes: 10 exports compared, 1 with types (100 % of the 1 that can have some)\n", ended
    (alone,) = [path for path in tmp_path.glob("mixed.[cs].o")]
    done("gcc", "-shared", "-o", tmp_path / "alone.so", alone)
    ended = gate(tmp_path / "alone.so", tmp_path / "alone.so")
    assert ended.out == "yes: 9 exports compared, all of them indirect functions, thread-local or in assembler, which have no types\n", ended


def test_objects_without_types_have_advice_of_their_own(tmp_path: Path) -> None:
    """gcc folds functions, and no objects."""
    old = two_units(tmp_path, "old", "int table[4] = { 1 }, size = 4;\n", "-g")
    new = two_units(tmp_path, "new", "int table[4] = { 1 }, size = 4;\n", "-g0")
    assert sorted(abi("check", old, new).out.splitlines()) == ["X6 size: type gone", "X6 table: type gone", "no"]
    ended = gate(old, new)
    told(ended, "the types of 2 exports are gone: ", "none of 2 objects, ", "table", "size", "in a unit that is built without -g")
    assert "folded" not in ended.out


def needing(build: Build, name: str, body: str, *words: str) -> Path:
    """A library whose one export has this body."""
    declared = "extern int low(void), other(void), high(void); extern int none(void) __attribute__((weak));"
    return build(name, f"{declared}\nint f(void) {{ return {body}; }}\n", "-g", "-nostdlib", "-Wl,--no-as-needed", *words)


@pytest.fixture
def others(build: Build, tmp_path: Path) -> list[str]:
    """Two libraries for others to need. Each symbol of the first one has a version of its own."""
    versions = tmp_path / "low.map"
    versions.write_text("LOW_1 { global: low; local: *; };\nLOW_2 { global: other; } LOW_1;\n")
    low = build("liblow.so", "int low(void) { return 1; }\nint other(void) { return 2; }\n", "-g", f"-Wl,--version-script={versions}",
                soname="liblow.so.1")
    return [str(low), str(build("libhigh.so", "int high(void) { return 3; }\n", soname="libhigh.so.1"))]


def test_what_only_the_new_library_needs_is_counted(build: Build, others: list[str], monkeypatch: pytest.MonkeyPatch) -> None:
    """As often as `abi` has a note on it."""
    low, high = others
    old = needing(build, "old.so", "low() + none()", low)
    rows = (("low() - 1", [low], ""), ("low() + none()", [low, high], "1 library"), ("low() + other()", [low], "1 version, 1 symbol"),
            ("low() + other() + high()", [low, high], "1 library, 1 version, 2 symbols"), ("none()", [], ""))
    for number, (body, words, more) in enumerate(rows):
        new = needing(build, f"new-{number}.so", body, *words)
        ended = gate(old, new)
        assert ended.out == f"yes: 1 exports compared, 1 with types{f'; needs more of other files: {more}' if more else ''}\n", ended
        monkeypatch.setenv("ABI_NOTES", "1")
        notes = abi("check", old, new).errors
        monkeypatch.delenv("ABI_NOTES")
        kinds = [(notes.count(f"note: needs {kind}: "), kind) for kind in ("library", "version", "symbol")]
        assert more == ", ".join(f"{count} {kind}{'s' if count > 1 else ''}" for count, kind in kinds if count), notes
    baseline = old.with_suffix(".abi")
    assert tool("abi-baseline", old, baseline).status == 0
    assert gate(baseline, old).out == "yes: 1 exports compared, 1 with types\n"


def test_damaged_needs_change_no_answer(build: Build, others: list[str]) -> None:
    """A count of 2^32 - 1 needed files whose entries all are the first one, and one whose names end nowhere."""
    old, new = (needing(build, name, "low() + other()", others[0]) for name in ("old.so", "new.so"))
    (section,) = [one for one in ElfFile(new).sections if one.kind == 0x6FFFFFFE]
    headers = ElfFile(new).header.sections_at + 64 * section.number
    whole = new.read_bytes()
    endless = bytearray(whole)
    endless[headers + 44:headers + 48] = b"\xff" * 4
    endless[section.offset + 12:section.offset + 16] = bytes(4)
    nameless = bytearray(whole)
    nameless[section.offset + 4:section.offset + 8] = b"\xff" * 4
    for contents in (endless, nameless):
        new.write_bytes(contents)
        assert FileNeeds.read(ElfFile(new)) is None
        assert gate(old, new).out == "yes: 1 exports compared, 1 with types\n"


def test_a_status_without_its_text_is_no_answer(build: Build, tmp_path: Path, monkeypatch: pytest.MonkeyPatch) -> None:
    whole = build("whole.so", OLD)
    program = tmp_path / "abi"
    for text, status in (("", 0), ("", 1), ("no", 0), ("yes 2", 1)):
        program.write_text(f"#!/bin/sh\necho '{text}'\nexit {status}\n")
        program.chmod(0o755)
        monkeypatch.setenv("ABI", str(program))
        told(gate(whole, whole), "")


def test_rules_are_those_of_abi(build: Build, tmp_path: Path) -> None:
    old, new = build("old.so", OLD), build("new.so", NEW)
    (tmp_path / "abi.rules").write_text("[suppress_type]\nname = point\n")
    assert gate("--rules", tmp_path / "abi.rules", old, new).status == 0
    (tmp_path / "abi.rules").write_text("[suppress_nothing]\nname = point\n")
    told(gate("--rules", tmp_path / "abi.rules", old, new), "there is no section of this name")


def test_what_abi_refuses_is_told(build: Build, tmp_path: Path) -> None:
    whole = build("whole.so", OLD)
    cut = tmp_path / "cut.so"
    cut.write_bytes(whole.read_bytes()[:5000])
    told(gate(whole, cut), "cut.so")
    told(gate(tmp_path / "missing.so", whole), "missing.so", "abi-baseline LIBRARY FILE")
    told(gate(whole, tmp_path / "missing.so"), "missing.so")
    told(gate(whole, build("other.so", OLD, "-g", "-gz=zlib")), "is compressed")


def test_the_script_ends_with_2_where_nothing_can_be_told(build: Build, tmp_path: Path) -> None:
    whole = build("whole.so", OLD)
    assert script("abi-gate", whole, whole).status == 0
    killed = tmp_path / "abi"
    killed.write_text("#!/bin/sh\nkill -9 $$\n")
    killed.chmod(0o755)
    for program, words in ((killed, "the signal SIGKILL ended it: perhaps the machine ran out of memory"),
                           (tmp_path / "none", "there is no program")):
        ended = run("env", f"ABI={program}", TOOLS / "abi-gate", whole, whole)
        assert ended.status == 2 and words in ended.out + ended.errors
    killed.unlink()
    killed.symlink_to(Path(os.environ["ABI"]).resolve())
    assert run("env", "-u", "ABI", f"PATH={tmp_path}:/usr/bin:/bin", TOOLS / "abi-gate", whole, whole).status == 0


@pytest.mark.parametrize("number", (signal.SIGKILL, signal.SIGTERM))
def test_a_run_that_is_killed_leaves_no_certificate(build: Build, tmp_path: Path, number: signal.Signals) -> None:
    """It also leaves none of an earlier run, and no other file."""
    whole, folder = build("whole.so", OLD), tmp_path / "kept"
    folder.mkdir()
    names = ("--certificate", "--json", "--junit", "--sarif")
    for name in names:
        (folder / name).write_text("of an earlier run")
    options = [word for name in names for word in (name, folder / name)]
    ended = run("env", f"ABI={killer_of_tool(tmp_path, number, 'check')}", TOOLS / "abi-gate", *options, whole, whole)
    assert ended.status == (-number if number == signal.SIGKILL else 128 + number) and ended.out == ""
    assert list(folder.iterdir()) == []
    assert script("abi-gate", "--certificate", folder / "cert", whole, whole).status == 0
    assert abi("verify", whole, whole, folder / "cert").out == "accepted\n"

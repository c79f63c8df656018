"""`abi-baseline`: `abi` judges a baseline as it judges the library."""

from __future__ import annotations

import os
from pathlib import Path
from typing import Callable

import pytest
from conftest import FIRST, SECOND, Ended, abi, done, exports, refused, run, script, section_bytes, shared, split, tool

Build = Callable[..., Path]

VERSIONED = """\
struct held { int a; long b; };
struct held object = { 1, 2 };
__thread int of_thread;
int old_call(struct held *h) { return h->a; }
long new_call(struct held *h, double d) { return h->b + (long)d; }
__asm__(".symver old_call, call@LIB_1");
__asm__(".symver new_call, call@@LIB_2");
int constant(void) { return 3; }
static int chosen(void) { return 4; }
static void *choose(void) { return chosen; }
int indirect(void) __attribute__((ifunc("choose")));
"""
MAP = "LIB_1 { global: object; constant; local: *; }; LIB_2 { global: indirect; of_thread; } LIB_1;\n"


def undigested(ended: Ended) -> tuple[int, list[str]]:
    """An answer of `abi check`, without the lines of digests."""
    return ended.status, [line for line in ended.out.splitlines() if not line.startswith(("old ", "new "))]


@pytest.fixture(params=("gcc -g", "gcc -g -gdwarf-4", "clang -g", "clang -g -gdwarf-4 -ffunction-sections", "gcc -g1", "gcc -g0"))
def library(request: pytest.FixtureRequest, build: Build, tmp_path: Path) -> Path:
    """A library with symbol versions and exports of all kinds."""
    (tmp_path / "versions.map").write_text(MAP)
    compiler, *options = request.param.split()
    return build("versioned.so", VERSIONED, *options, "-Wl,--version-script=versions.map", soname="libheld.so.1", compiler=compiler)


def test_a_baseline_is_judged_as_the_library(library: Path, build: Build, tmp_path: Path) -> None:
    kept = tmp_path / "kept.abi"
    assert tool("abi-baseline", library, kept).status == 0
    assert kept.stat().st_size < library.stat().st_size / 2
    assert exports(kept) == exports(library)
    other = build("other.so", VERSIONED.replace("long b", "int b").replace("int constant", "long constant"), "-g",
                  "-Wl,--version-script=versions.map", soname="libheld.so.2")
    for one in (other, library):
        assert undigested(abi("check", kept, one)) == undigested(abi("check", library, one))
        assert undigested(abi("check", one, kept)) == undigested(abi("check", one, library))
    assert abi("entries", kept).out == abi("entries", library).out


def test_debug_information_is_untouched_and_code_is_left_out(build: Build, tmp_path: Path) -> None:
    library = build("whole.so", FIRST)
    kept = tmp_path / "kept.abi"
    assert script("abi-baseline", library, kept).status == 0
    for name in (".debug_info", ".debug_abbrev", ".debug_str", ".dynsym"):
        assert section_bytes(kept, name, tmp_path) == section_bytes(library, name, tmp_path)
    names = done("readelf", "--wide", "--sections", kept)
    assert not any(name in names for name in (" .text ", " .data ", " .symtab ", ".debug_line ", ".debug_aranges"))
    assert done("readelf", "--wide", "--notes", kept).split("Build ID:")[1] == done(
        "readelf", "--wide", "--notes", library).split("Build ID:")[1]


def test_compressed_sections_are_inflated(build: Build, tmp_path: Path) -> None:
    text = FIRST + "".join(f"int many_functions_{one}(int a) {{ return a; }}\n" for one in range(60))
    packed, plain = build("packed.so", text, "-g", "-gz=zlib"), build("plain.so", text, "-g")
    assert run(os.environ["ABI"], "exports", packed).status == 2
    assert tool("abi-baseline", packed, tmp_path / "kept.abi").status == 0
    assert exports(tmp_path / "kept.abi") == exports(plain)


def test_a_baseline_of_packages_has_the_bytes_of_one_of_the_build(build: Build, tmp_path: Path) -> None:
    """Packages ship debug information apart and compressed, and partly in a file that dwz makes for several libraries."""
    libraries = [build(f"{number}.so", text, soname=f"lib{number}.so.1") for number, text in ((1, FIRST), (2, SECOND))]
    for name in ("whole", "shared"):
        if name == "shared":
            shared(libraries, tmp_path / "common.debug")
        folder = tmp_path / name
        folder.mkdir()
        done("cp", *libraries, folder)
        if name == "shared":
            done("cp", tmp_path / "common.debug", folder)
        debug = tmp_path / f"{name}.debug"
        stripped = split(folder / "1.so", debug)
        done("objcopy", "--compress-debug-sections", debug)
        kept = []
        for library, words in ((folder / "1.so", []), (stripped, [debug])):
            joined = tmp_path / f"{name}-{library.suffix}.joined"
            assert tool("join-debug", library, joined, *words).status == 0
            assert tool("abi-baseline", joined, joined.with_suffix(".abi")).status == 0
            kept.append(joined.with_suffix(".abi").read_bytes())
        assert kept[0] == kept[1] and len(kept[0]) > 1000


def test_what_cannot_be_kept_is_refused(build: Build, tmp_path: Path) -> None:
    kept = tmp_path / "kept.abi"
    one, two = build("one.so", FIRST), build("two.so", FIRST.replace("area", "surface"))
    stripped = split(one, tmp_path / "one.debug")
    assert "has no debug information" in tool("abi-baseline", stripped, kept).errors
    assert exports(kept) == exports(stripped)
    shared([one, two], tmp_path / "common.debug")
    refused(tool("abi-baseline", one, kept), 2, "supplementary file", kept)
    refused(tool("abi-baseline", tmp_path / "shapes.h", kept), 2, "is no ELF file", kept)
    done("gcc", "-c", "-o", tmp_path / "object.o", tmp_path / "one.so.c", folder=tmp_path)
    refused(tool("abi-baseline", tmp_path / "object.o", kept), 2, "is no shared object", kept)
    assert script("abi-baseline", one).status == 64

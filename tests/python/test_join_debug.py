"""`join-debug` on libraries that are split as distributions split them."""

from __future__ import annotations

import errno
import os
import random
import signal
import struct
import subprocess
import time
from pathlib import Path
from typing import Any, Callable

import pytest
from abi_tools import output_file
from abi_tools.dwarf_tables import padded_number
from abi_tools.supplementary import DebugSections, leads_out
from conftest import (FIRST, SECOND, TOOLS, build_id, done, exports, refused, run, script, section_bytes, sections, shared, split,
                      system_place, tool)

Build = Callable[..., Path]
COMPRESSIONS = ("none", "zlib", "zlib-gnu", "zstd")


def dumped(library: Path) -> str:
    """The entries of a library as readelf prints them."""
    return done("readelf", "--wide", "--debug-dump=info", library)


def test_a_named_debug_file_gives_what_the_whole_library_had(build: Build, tmp_path: Path) -> None:
    whole = build("whole.so", FIRST)
    stripped = split(whole, tmp_path / "whole.debug")
    joined = tmp_path / "joined.so"
    ended = tool("join-debug", stripped, joined, tmp_path / "whole.debug")
    assert (ended.status, ended.out, ended.errors) == (0, "", "")
    assert exports(joined) == exports(whole)
    for name in (".debug_info", ".debug_abbrev", ".debug_str", ".text", ".dynsym"):
        assert section_bytes(joined, name, tmp_path) == section_bytes(whole, name, tmp_path)


def test_eu_unstrip_puts_the_same_debug_sections_in(build: Build, tmp_path: Path) -> None:
    stripped = split(build("whole.so", FIRST), tmp_path / "whole.debug")
    done("eu-unstrip", "--output", tmp_path / "theirs.so", stripped, tmp_path / "whole.debug")
    assert tool("join-debug", stripped, tmp_path / "ours.so", tmp_path / "whole.debug").status == 0
    assert dumped(tmp_path / "ours.so") == dumped(tmp_path / "theirs.so")
    assert "No errors" in done("eu-elflint", "--gnu-ld", tmp_path / "ours.so")


@pytest.mark.parametrize("compression", COMPRESSIONS)
def test_compressed_sections_are_inflated(build: Build, tmp_path: Path, compression: str) -> None:
    whole = build("whole.so", FIRST + "".join(f"int many_functions_{one}(int a) {{ return a; }}\n" for one in range(60)))
    stripped = split(whole, tmp_path / "plain.debug")
    debug = tmp_path / "packed.debug"
    done("objcopy", f"--compress-debug-sections={compression}", tmp_path / "plain.debug", debug)
    joined = tmp_path / "joined.so"
    assert tool("join-debug", stripped, joined, debug).status == 0
    assert not any("C" in flags or name.startswith(".zdebug") for name, flags in sections(joined).items())
    assert section_bytes(joined, ".debug_info", tmp_path) == section_bytes(whole, ".debug_info", tmp_path)
    assert exports(joined) == exports(whole)


def test_a_debug_file_is_found_by_build_id(build: Build, tmp_path: Path) -> None:
    whole = build("whole.so", FIRST)
    root = tmp_path / "root"
    stripped = split(whole, system_place(root, build_id(whole)), link=False)
    assert tool("join-debug", "--root", root, stripped, tmp_path / "joined.so").status == 0
    assert exports(tmp_path / "joined.so") == exports(whole)


def test_a_build_id_may_be_a_link_from_the_folder_of_the_root(build: Build, tmp_path: Path) -> None:
    """As on Fedora: the name by build id is a symbolic link, and a target that begins with `/` is relative to the root."""
    whole = build("whole.so", FIRST)
    root = tmp_path / "root"
    stripped = split(whole, root / "usr/lib/debug/usr/lib64/whole.so-1.debug", link=False)
    place = system_place(root, build_id(whole))
    place.parent.mkdir(parents=True)
    place.symlink_to("/usr/lib/debug/usr/lib64/whole.so-1.debug")
    assert tool("join-debug", "--root", root, stripped, tmp_path / "joined.so").status == 0
    assert exports(tmp_path / "joined.so") == exports(whole)


def test_a_debug_file_is_found_by_its_name_and_checksum(build: Build, tmp_path: Path) -> None:
    """A library without a build id, below the root; its debug file is where `.gnu_debuglink` says."""
    whole = build("whole.so", FIRST, "-g", "-Wl,--build-id=none")
    root = tmp_path / "root"
    stripped = split(whole, root / "usr/lib/debug/usr/lib/whole.debug")
    (root / "usr/lib").mkdir(exist_ok=True, parents=True)
    library = stripped.rename(root / "usr/lib/whole.so")
    joined = tmp_path / "joined.so"
    assert tool("join-debug", "--root", root, library, joined).status == 0
    assert exports(joined) == exports(whole)
    with (root / "usr/lib/debug/usr/lib/whole.debug").open("ab") as debug:
        debug.write(b"one more byte")
    refused(tool("join-debug", "--root", root, library, joined), 2, "is of another build", joined)


def test_without_a_root_the_system_is_searched(build: Build, tmp_path: Path) -> None:
    """If `.gnu_debuglink` names the file: beside the library, and in `.debug` beside it; then by build id in /usr/lib/debug."""
    whole = build("whole.so", FIRST)
    stripped, joined = split(whole, tmp_path / "whole.debug"), tmp_path / "joined.so"
    assert tool("join-debug", stripped, joined).status == 0
    assert exports(joined) == exports(whole)
    (tmp_path / ".debug").mkdir()
    (tmp_path / "whole.debug").rename(tmp_path / ".debug/whole.debug")
    assert tool("join-debug", stripped, joined).status == 0
    assert exports(joined) == exports(whole)
    (tmp_path / ".debug/whole.debug").unlink()
    refused(tool("join-debug", stripped, joined), 2, str(system_place(Path(), build_id(whole))), joined)


def test_a_library_with_debug_information_needs_no_debug_file(build: Build, tmp_path: Path) -> None:
    whole = build("whole.so", FIRST, "-g", "-gz=zlib")
    assert tool("join-debug", whole, tmp_path / "joined.so").status == 0
    assert exports(tmp_path / "joined.so") == exports(build("plain.so", FIRST, "-g"))


def test_a_debug_file_of_another_build_is_refused(build: Build, tmp_path: Path) -> None:
    stripped = split(build("one.so", FIRST), tmp_path / "one.debug")
    split(build("two.so", FIRST.replace("s->at->x *", "s->at->x +")), tmp_path / "two.debug")
    joined = tmp_path / "joined.so"
    refused(tool("join-debug", stripped, joined, tmp_path / "two.debug"), 2, build_id(tmp_path / "two.so"), joined)


def test_without_any_identity_a_debug_file_is_refused(build: Build, tmp_path: Path) -> None:
    stripped = split(build("one.so", FIRST, "-g", "-Wl,--build-id=none"), tmp_path / "one.debug", link=False)
    joined = tmp_path / "joined.so"
    refused(tool("join-debug", stripped, joined, tmp_path / "one.debug"), 2, "cannot be told", joined)
    refused(tool("join-debug", "--root", tmp_path, stripped, joined), 2, "name its debug file", joined)


def test_what_is_missing_is_named(build: Build, tmp_path: Path) -> None:
    stripped = split(build("one.so", FIRST), tmp_path / "one.debug", link=False)
    joined = tmp_path / "joined.so"
    refused(tool("join-debug", tmp_path / "none.so", joined), 2, "there is no file", joined)
    refused(tool("join-debug", stripped, joined, tmp_path / "none.debug"), 2, "there is no file", joined)
    refused(tool("join-debug", "--root", tmp_path, stripped, joined), 2, f"{build_id(stripped)[2:]}.debug", joined)
    refused(tool("join-debug", stripped, joined, stripped), 2, "has no debug information", joined)
    nowhere = tmp_path / "no/joined.so"
    assert tool("join-debug", stripped, nowhere, tmp_path / "one.debug").status == 2


@pytest.mark.parametrize("share", (0, 3, 50, 99))
def test_a_file_that_is_cut_short_is_refused(build: Build, tmp_path: Path, share: int) -> None:
    stripped = split(build("one.so", FIRST), tmp_path / "one.debug")
    joined = tmp_path / "joined.so"
    for whole, arguments in ((stripped, ("cut", tmp_path / "one.debug")), (tmp_path / "one.debug", (stripped, "cut"))):
        contents = whole.read_bytes()
        cut = tmp_path / "cut"
        cut.write_bytes(contents[:len(contents) * share // 100])
        given = [cut if word == "cut" else word for word in arguments]
        refused(tool("join-debug", given[0], joined, given[1]), 2, "cut", joined)


def test_bytes_that_are_changed_never_give_a_trace(build: Build, tmp_path: Path) -> None:
    """Each run ends with status 0, or with one sentence and status 1, whatever the bytes are."""
    stripped = split(build("one.so", FIRST), tmp_path / "one.debug")
    contents = (tmp_path / "one.debug").read_bytes()
    chosen = random.Random(41)
    joined = tmp_path / "joined.so"
    for _ in range(40):
        damaged = bytearray(contents)
        for _ in range(chosen.randint(1, 30)):
            damaged[chosen.randrange(len(damaged))] = chosen.randrange(256)
        (tmp_path / "damaged.debug").write_bytes(damaged)
        ended = tool("join-debug", stripped, joined, tmp_path / "damaged.debug")
        if ended.status == 0:
            assert joined.exists() and ended.errors == ""
            joined.unlink()
        else:
            refused(ended, 2, "join-debug: ", joined)


def test_64_bit_dwarf_is_refused(build: Build, tmp_path: Path) -> None:
    joined = tmp_path / "joined.so"
    stripped = split(build("one.so", FIRST, "-g", "-gdwarf64"), tmp_path / "one.debug")
    refused(tool("join-debug", stripped, joined, tmp_path / "one.debug"), 2, "64-bit format", joined)


def test_an_output_is_there_exactly_where_the_run_succeeded(build: Build, tmp_path: Path) -> None:
    stripped = split(build("one.so", FIRST), tmp_path / "one.debug")
    joined = tmp_path / "joined.so"
    joined.write_text("of an earlier run")
    refused(tool("join-debug", stripped, joined, tmp_path / "none.debug"), 2, "there is no file", joined)
    contents = stripped.read_bytes()
    ended = tool("join-debug", stripped, stripped, tmp_path / "one.debug")
    assert ended.status == 2 and "is an input, too" in ended.errors and stripped.read_bytes() == contents
    assert script("join-debug", stripped).status == 64
    assert script("join-debug", "--help").status == 0
    assert script("join-debug", stripped, joined, tmp_path / "one.debug").status == 0


def killed_while_writing(output: Path, contents: bytes) -> None:
    """Writes a file in a process that is killed when half of it is written."""
    child = os.fork()
    if child == 0:
        write = os.write

        def half(file: int, part: Any) -> int:
            write(file, part[:len(part) // 2])
            os.kill(os.getpid(), signal.SIGKILL)
            return 0

        os.write = half
        output_file.write_whole(output, contents)
        os._exit(0)
    assert os.waitstatus_to_exitcode(os.waitpid(child, 0)[1]) == -signal.SIGKILL


def test_a_run_that_is_killed_leaves_nothing(build: Build, tmp_path: Path, monkeypatch: pytest.MonkeyPatch) -> None:
    folder = tmp_path / "output"
    folder.mkdir()
    killed_while_writing(folder / "joined.so", bytes(100_000))
    assert list(folder.iterdir()) == []
    # On a file system without O_TMPFILE, a temporary file with another name stays.
    monkeypatch.setattr(output_file, "_NO_UNNAMED_FILES", (errno.ENOTDIR,))
    monkeypatch.setattr(os, "O_TMPFILE", os.O_DIRECTORY | os.O_CREAT | os.O_EXCL)
    opened = os.open

    def refuse(path: Path, flags: int, mode: int = 0o777) -> int:
        if flags & os.O_DIRECTORY and flags & os.O_WRONLY:
            raise OSError(errno.ENOTDIR, "no files without a name")
        return opened(path, flags, mode)

    monkeypatch.setattr(os, "open", refuse)
    killed_while_writing(folder / "joined.so", bytes(100_000))
    assert not (folder / "joined.so").exists()
    output_file.write_whole(folder / "joined.so", b"whole")
    assert (folder / "joined.so").read_bytes() == b"whole"


@pytest.mark.parametrize("name", ("join-debug", "abi-baseline"))
def test_a_run_that_is_ended_leaves_nothing_or_the_whole_file(build: Build, tmp_path: Path, name: str) -> None:
    """If a signal comes after the file got its name, the file is whole."""
    whole = build("whole.so", FIRST)
    stripped = split(whole, tmp_path / "whole.debug")
    output = tmp_path / "output/made.so"
    output.parent.mkdir()
    arguments = (stripped, output, tmp_path / "whole.debug") if name == "join-debug" else (whole, output)
    for number, wait in ((signal.SIGKILL, 0.1), (signal.SIGTERM, 0.15), (signal.SIGKILL, 0.2)):
        running = subprocess.Popen([TOOLS / name, *arguments])
        time.sleep(wait)
        running.send_signal(number)
        if running.wait() == 0 or output.exists():
            assert exports(output) == exports(whole)
            output.unlink()
        assert list(output.parent.iterdir()) == []


@pytest.fixture(params=("-gdwarf-4", "-gdwarf-5", "-gdwarf-5 standard"))
def two(request: pytest.FixtureRequest, build: Build, tmp_path: Path) -> tuple[list[Path], list[Path], Path]:
    """Two libraries before and after dwz, and the supplementary file that both share."""
    version, *standard = request.param.split()
    whole = [build(f"whole_{number}.so", text, "-g", version) for number, text in ((1, FIRST), (2, SECOND))]
    kept = []
    for library in whole:
        done("cp", library, library.with_suffix(".dwz"))
        kept.append(library.with_suffix(".dwz"))
    shared(kept, tmp_path / "common.debug", *(["-5"] if standard else []))
    return whole, kept, tmp_path / "common.debug"


def test_a_supplementary_file_is_put_in(two: tuple[list[Path], list[Path], Path], tmp_path: Path) -> None:
    whole, kept, _ = two
    for library, parted in zip(whole, kept):
        joined = tmp_path / "joined.so"
        assert run(os.environ["ABI"], "exports", parted).status == 2
        assert tool("join-debug", parted, joined).status == 0
        assert exports(joined) == exports(library)
        assert ".gnu_debugaltlink" not in sections(joined) and ".debug_sup" not in sections(joined)
        # For abi both libraries are the same: each may replace the other.
        for old, new in ((library, joined), (joined, library)):
            assert run(os.environ["ABI"], "check", old, new).status == 0
        ended = run("readelf", "--wide", "--debug-dump=info", joined)
        assert ended.status == 0 and "Warning" not in ended.errors and "alt" not in ended.out
        names = ("point", "shape", "quite_a_long_member_name", "callback_type")
        assert all(name in ended.out for name in names)


def test_a_supplementary_file_beside_a_debug_file(two: tuple[list[Path], list[Path], Path], tmp_path: Path) -> None:
    """The debug file is found by build id or named, and the supplementary file is found below the root in `/usr/lib/debug/.dwz`."""
    whole, kept, common = two
    root = tmp_path / "root"
    identifier = build_id(whole[0])
    stripped = split(kept[0], system_place(root, identifier), link=False)
    joined = tmp_path / "joined.so"
    place = root / "usr/lib/debug/.dwz/x86_64-linux-gnu" / common.name
    place.parent.mkdir(parents=True)
    common.rename(place)
    assert tool("join-debug", "--root", root, stripped, joined).status == 0
    assert exports(joined) == exports(whole[0])
    assert tool("join-debug", stripped, joined, system_place(root, identifier)).status == 0
    assert exports(joined) == exports(whole[0])


def test_a_supplementary_file_beside_a_debug_file_that_is_found_by_its_name(two: tuple[list[Path], list[Path], Path],
                                                                            tmp_path: Path) -> None:
    """Without a folder of build ids, `.gnu_debuglink` leads to the debug file, and that leads to the supplementary file beside it."""
    whole, kept, common = two
    root = tmp_path / "root"
    place = root / "usr/lib/debug/usr/lib/whole.debug"
    stripped = split(kept[0], place)
    (root / "usr/lib").mkdir(exist_ok=True)
    library = stripped.rename(root / "usr/lib/whole.so")
    joined = tmp_path / "joined.so"
    refused(tool("join-debug", "--root", root, library, joined), 2, "there is no supplementary file", joined)
    supplementary = root / "usr/lib/debug/.dwz" / common.name
    supplementary.parent.mkdir()
    common.rename(supplementary)
    assert tool("join-debug", "--root", root, library, joined).status == 0
    assert exports(joined) == exports(whole[0])


def test_forms_that_lead_out_are_found_in_any_encoding() -> None:
    """Abbreviations of one unit, with numbers in LEB128 that have zeros behind them (DWARF 5, 7.6): the test knows which forms it wrote."""
    chosen = random.Random(62)

    def number(value: int) -> bytes:
        size = max(1, (value.bit_length() + 6) // 7)
        return padded_number(value, chosen.choice((size, size, min(size + chosen.randrange(9), 10))))

    seen = set()
    for _ in range(2000):
        leads, table = False, b""
        for code in range(1, chosen.randrange(2, 5)):
            table += number(code) + number(chosen.randrange(1, 300)) + bytes([chosen.randrange(2)])
            for form in chosen.choices((0x01, 0x0b, 0x0e, 0x13, 0x20, 0x21, 0x21, 0x25), k=chosen.randrange(6)):
                form = chosen.choice((0x1c, 0x1d, 0x24, 0x1f20, 0x1f21)) if chosen.random() < 0.05 else form
                leads |= form in (0x1c, 0x1d, 0x24, 0x1f20, 0x1f21)
                table += number(chosen.randrange(1, 0x4000)) + number(form)
                table += number(chosen.choice((0, 0x1c, 0x1f20, 1 << 62))) if form == 0x21 else b""
            table += number(0) + number(0)
        unit = struct.pack("<IHBBI", 8, 5, 1, 8, 0)
        assert leads_out(DebugSections("it", {".debug_info": unit, ".debug_abbrev": table + b"\0"})) == leads, table.hex()
        seen.add(leads)
    assert seen == {False, True}


# A section of a megabyte in a frame of zstd whose window has 128 MB, where 64 MB are left.
WITHOUT_MEMORY = """\
import resource, struct, zstandard
from abi_tools.inflating import inflate
plain = bytes(1 << 20)
machine = zstandard.ZstdCompressor(compression_params=zstandard.ZstdCompressionParameters.from_level(1, window_log=27)).compressobj()
contents = struct.pack("<IIQQ", 2, 0, len(plain), 1) + machine.compress(plain) + machine.flush()
assert inflate(contents, "it") == plain
taken = int(open("/proc/self/statm").read().split()[0]) * resource.getpagesize()
resource.setrlimit(resource.RLIMIT_AS, (taken + (64 << 20), -1))
try:
    inflate(contents, "it")
except Exception as error:
    print(type(error).__name__)
"""


def test_a_decompressor_without_memory_says_nothing_of_the_section() -> None:
    assert done("env", f"PYTHONPATH={TOOLS}", "/usr/bin/python3", "-B", "-c", WITHOUT_MEMORY) == "MemoryError\n"


@pytest.mark.parametrize("compression", ("zlib", "zstd"))
def test_compressed_debug_and_supplementary_files_are_inflated(build: Build, tmp_path: Path, compression: str) -> None:
    many = "".join(f"int many_functions_{one}(struct shape *s) {{ return s->at->x; }}\n" for one in range(60))
    parted = [build(f"{number}.so", text + many, "-g") for number, text in ((1, FIRST), (2, SECOND))]
    before = exports(parted[0])
    common = tmp_path / "common.debug"
    shared(parted, common)
    stripped = split(parted[0], tmp_path / "plain.debug", link=False)
    for file in (common, tmp_path / "plain.debug"):
        done("objcopy", f"--compress-debug-sections={compression}", file)
        assert "C" in "".join(sections(file).values())
    assert tool("join-debug", stripped, tmp_path / "joined.so", tmp_path / "plain.debug").status == 0
    assert exports(tmp_path / "joined.so") == before


def test_a_wrong_supplementary_file_is_refused(two: tuple[list[Path], list[Path], Path], build: Build, tmp_path: Path) -> None:
    _, kept, common = two
    joined = tmp_path / "joined.so"
    contents = common.read_bytes()
    common.unlink()
    refused(tool("join-debug", kept[0], joined), 2, "there is no supplementary file", joined)
    common.write_bytes(build("third.so", FIRST.replace("area", "surface")).read_bytes())
    refused(tool("join-debug", kept[0], joined), 2, "is not the supplementary file", joined)
    common.write_bytes(contents[:len(contents) // 2])
    refused(tool("join-debug", kept[0], joined), 2, "cut short", joined)


def test_a_supplementary_file_of_64_bit_dwarf_is_refused(build: Build, tmp_path: Path) -> None:
    parted = [build(f"{number}.so", text, "-g") for number, text in ((1, FIRST), (2, SECOND))]
    common = tmp_path / "common.debug"
    shared(parted, common)
    contents = bytearray(common.read_bytes())
    info = section_bytes(common, ".debug_info", tmp_path)
    struct.pack_into("<I", contents, contents.index(info), 0xFFFFFFFF)
    common.write_bytes(contents)
    joined = tmp_path / "joined.so"
    refused(tool("join-debug", parted[0], joined), 2, "64-bit format", joined)


def test_600_000_entries_are_joined_in_20_seconds(build: Build, tmp_path: Path) -> None:
    """The test joins a tenth of them in a tenth of the processor time, so that it stays short."""
    structure = "struct node_{0} {{ struct node_{0} *next; int a, b, c, d, e; long f, g, h; char i[{0} + 1]; }};\n"
    types = "".join(structure.format(one) for one in range(4000))
    text = "".join(f"int {{0}}_{one}(struct node_{one} *p) {{{{ return p->a + p->i[0]; }}}}\n" for one in range(4000))
    parted = [build(f"{name}.so", types + text.format(name), "-g", "-O0") for name in ("first", "second")]
    before = exports(parted[0])
    shared(parted, tmp_path / "common.debug")
    start = time.process_time()
    assert tool("join-debug", parted[0], tmp_path / "joined.so").status == 0
    seconds = time.process_time() - start
    listed = run(os.environ["ABI"], "entries", tmp_path / "joined.so")
    assert listed.status == 0 and listed.out.count("\n") > 60_000
    assert exports(tmp_path / "joined.so") == before
    assert seconds < 2

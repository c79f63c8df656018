"""`abi-packages` on packages that were made to mislead it, or to cost much."""

from __future__ import annotations

import gzip
import locale
import os
import shlex
import shutil
import signal
import subprocess
import tarfile
import tempfile
import time
from pathlib import Path
from typing import Callable, Iterator

import pytest
from conftest import FIRST, SECOND, TOOLS, done, needs, run, script, tool
from package_support import (CHANGED, LIBRARIES, Build, Member, deb, hostile_deb, installed, link, packages, packed, rpm, tar)

from fuzz_packages import corpus as fuzzed

from abi_tools import archives, jobs, packages_command, unpacking
from abi_tools.archives import Archive
from abi_tools.elf_files import ElfFile
from abi_tools.shown import line_shown

SONAME = "libshapes.so.1"


# The libraries of most tests, built once.
_BUILT: dict[str, bytes] = {}


def built_once(build: Build, text: str) -> bytes:
    """A library of a source."""
    if text not in _BUILT:
        _BUILT[text] = build("library.so", text, soname=SONAME).read_bytes()
    return _BUILT[text]


@pytest.fixture
def good(build: Build) -> bytes:
    """A library."""
    return built_once(build, FIRST)


@pytest.fixture
def bad(build: Build) -> bytes:
    """A library that may not replace the good one."""
    return built_once(build, CHANGED)


@pytest.fixture
def old(good: bytes, tmp_path: Path) -> Path:
    """A package of the good library."""
    return hostile_deb(tmp_path / "old.deb", [Member(f"usr/lib/{SONAME}", good)])


@pytest.fixture(params=("C", "C.UTF-8"))
def any_locale(request: pytest.FixtureRequest) -> Iterator[None]:
    """Runs a test in each locale: libarchive converts some names to the locale of the process."""
    before = locale.setlocale(locale.LC_CTYPE)
    locale.setlocale(locale.LC_CTYPE, request.param)
    yield
    locale.setlocale(locale.LC_CTYPE, before)


@pytest.mark.parametrize("target", ("{outside}", "../../../../../../../../..{outside}", "..{outside}"))
def test_a_link_to_a_folder_leads_to_files_of_the_package_alone(old: Path, good: bytes, bad: bytes, tmp_path: Path, target: str) -> None:
    """The folder exists on this machine, and has a library that may replace the old one."""
    outside = tmp_path / "outside"
    outside.mkdir()
    (outside / SONAME).write_bytes(good)
    new = hostile_deb(tmp_path / "new.deb", [link("usr/lib", target.format(outside=outside)), Member(f"usr/lib/{SONAME}", bad)])
    ended = packages(tmp_path, old, "--", new)
    assert ended.status == 1 and ended.out.startswith(f"no {SONAME}: "), ended
    assert (outside / SONAME).read_bytes() == good


def test_a_file_below_a_link_is_one_of_the_package(old: Path, good: bytes, bad: bytes, tmp_path: Path) -> None:
    """The link leads to a folder of the package."""
    for number, (contents, status) in enumerate(((good, 0), (bad, 1))):
        members = [Member("usr/lib64", kind=tarfile.DIRTYPE), link("usr/lib", "lib64"), Member(f"./usr/lib/{SONAME}", contents)]
        ended = packages(tmp_path, old, "--", hostile_deb(tmp_path / f"new{number}.deb", members))
        assert ended.status == status, ended


def test_each_library_of_a_soname_is_judged(good: bytes, bad: bytes, tmp_path: Path) -> None:
    """Two libraries of one soname in one folder, as in libfakeroot; one of them breaks, whatever their order."""
    folder = "usr/lib/libshapes"
    for name, first, second in (("both", good, good), ("first", bad, good), ("second", good, bad)):
        members = [Member(f"{folder}/shapes-sysv.so", first), Member(f"{folder}/shapes-tcp.so", second)]
        hostile_deb(tmp_path / f"{name}.deb", members)
        hostile_deb(tmp_path / f"{name}-turned.deb", members[::-1])
    for name, status in (("both", 0), ("first", 1), ("second", 1)):
        for turned in ("", "-turned"):
            ended = packages(tmp_path, tmp_path / "both.deb", "--", tmp_path / f"{name}{turned}.deb")
            assert ended.status == status and ended.out.splitlines()[-1].startswith("2 libraries: "), ended
            assert len(ended.out.splitlines()) == 3
    assert f"no {folder}/shapes-tcp.so: " in ended.out


P = "usr/lib/private"
NAMED = f"{P}/{SONAME}"


@pytest.mark.parametrize("before, after, status", (
    ((NAMED, f"{P}/two.so"), (NAMED, f"{P}/three.so"), 1), (("usr/lib/plugin.so", f"{P}/two.so"), ("usr/lib/plugin.so", f"{P}/three.so"), 1),
    (("usr/lib/p", "private"), ("usr/lib/p", "other"), 1), (("a", "b"), (f"usr/lib64/{SONAME}", f"../../{P}/three.so"), 1),
    (("a", "b"), ("usr/lib/glibc-hwcaps/x86-64-v3", "../other"), 1), (("a", "b"), (f"usr/lib64/{SONAME}", "../lib/debug/four.so"), 1),
    (("a", "b"), ("usr/lib/x86_64-linux-gnu", "debug"), 1), ((NAMED, f"{P}/two.so"), (NAMED, "/opt/two.so"), 2),
    ((NAMED, f"{P}/two.so"), ("a", "b"), 2), ((NAMED, f"{P}/two.so"), (NAMED, f"/{P}/two.so"), 0), (("a", "b"), ("a", "b"), 0)))
def test_what_a_name_leads_to_is_compared(good: bytes, bad: bytes, tmp_path: Path, before: tuple[str, str], after: tuple[str, str],
                                          status: int) -> None:
    """The files are the same on both sides, and some of them break the others; a link leads to another one of them, and the loader or
    `dlopen` follows it."""
    files = [Member(f"usr/lib/{SONAME}.1", good), Member(f"{P}/two.so", good), Member(f"{P}/three.so", bad),
             Member("usr/lib/other/two.so", bad), Member(f"usr/lib/other/{SONAME}", bad), Member("usr/lib/debug/four.so", bad),
             Member(f"usr/lib/debug/{SONAME}", bad)]
    linked = [link(name, f"/{target}" if target.startswith("usr/") else target) for name, target in (before, after)]
    made = [hostile_deb(tmp_path / f"{side}.deb", [one, *files]) for side, one in zip(("old", "new"), linked)]
    ended = packages(tmp_path, made[0], "--", made[1])
    assert ended.status == status, ended


@pytest.mark.parametrize("folder", ("usr/lib/haswell", "usr/lib64/tls/x86_64", "usr/local/lib", "usr/local/lib/x86_64-linux-gnu"))
def test_folders_that_some_loaders_search(old: Path, good: bytes, bad: bytes, tmp_path: Path, folder: str) -> None:
    """A second library of the soname that a loader may take in place of the first one."""
    for name, contents, status in (("good", good, 0), ("bad", bad, 1)):
        new = hostile_deb(tmp_path / f"{name}.deb", [Member(f"usr/lib/{SONAME}", good), Member(f"{folder}/{SONAME}", contents)])
        ended = packages(tmp_path, old, "--", new)
        assert ended.status == status and ended.out.splitlines()[-1].startswith("2 libraries: "), ended


@pytest.mark.parametrize("folder", ("usr/lib/schöne", "usr/lib/a\\b", "usr/lib/a b"))
def test_names_in_an_rpm_are_bytes(build: Build, tmp_path: Path, folder: str) -> None:
    made = [rpm(tmp_path, name, {f"{folder}/{SONAME}": build(f"{name}.so", text, soname=SONAME)})
            for name, text in (("old", FIRST), ("new", CHANGED))]
    for setting in ("C", "C.UTF-8"):
        ended = run("env", f"LC_ALL={setting}", TOOLS / "abi-packages", "--certificates", tmp_path / "kept", made[0], "--", made[1])
        assert ended.status == 1 and ended.out.startswith(f"no {SONAME}: "), ended


def test_an_rpm_installs_what_its_header_lists(old: Path, good: bytes, bad: bytes, tmp_path: Path) -> None:
    """rpm takes the kinds of files and the targets of links from the header, and refuses a file that it does not list."""
    library, other = fuzzed.Member(f"./usr/lib/{SONAME}", contents=good), fuzzed.Member("./usr/lib/b.so", contents=bad)
    leading = fuzzed.Member(f"./usr/lib/{SONAME}", tarfile.SYMTYPE, target="b.so")
    elsewhere = fuzzed.Member(f"./usr/lib/{SONAME}", tarfile.SYMTYPE, target="c.so")
    for number, (listed, members, words) in enumerate((
            ([library], [library], None), ([], [library], "does not list"), ([leading, other], [library, other], "says otherwise of"),
            ([leading, other], [elsewhere, other], "says otherwise of"), ([library], [library, other], "does not list"))):
        new = tmp_path / f"{number}.rpm"
        new.write_bytes(fuzzed.rpm(listed, fuzzed.cpio(members)))
        ended = packages(tmp_path, old, "--", new)
        assert ended.status == (0 if words is None else 2) and (words or "") in ended.errors, ended


@pytest.mark.parametrize("way", ("none", "xz"))
def test_of_two_archives_the_one_that_dpkg_takes_is_judged(old: Path, good: bytes, bad: bytes, tmp_path: Path, way: str) -> None:
    parts = {name: tar([Member(f"usr/lib/{SONAME}", contents)]) for name, contents in (("good", good), ("bad", bad))}
    name = "data.tar"
    if way == "xz":
        name = "data.tar.xz"
        parts = {one: subprocess.run(["xz"], input=data, capture_output=True, check=True).stdout for one, data in parts.items()}
    for first, second, status in (("bad", "good", 1), ("good", "bad", 0)):
        new = packed(tmp_path / f"{first}.deb", (name, parts[first]), (name, parts[second]))
        wanted = bad if first == "bad" else good
        assert (installed(new, tmp_path / f"{first}.tree") / "usr/lib" / SONAME).read_bytes() == wanted
        ended = packages(tmp_path, old, "--", new)
        assert ended.status == status, ended


def test_two_members_of_one_name_are_refused(old: Path, good: bytes, bad: bytes, tmp_path: Path) -> None:
    """dpkg takes the last one."""
    name = f"usr/lib/{SONAME}"
    hostile: list[list[Member]] = [
        [Member(name, good), Member(name, bad)], [Member(name, good), Member(f"./usr//lib/{SONAME}", b"text")],
        [Member(name, b"text"), Member(name, bad)], [Member(name, good), link(name, "other")],
        [Member(name, good), Member(name, kind=tarfile.DIRTYPE)]]
    for number, members in enumerate(hostile):
        ended = packages(tmp_path, old, "--", hostile_deb(tmp_path / f"{number}.deb", members))
        assert ended.status == 2 and f"two of its members have the name {name}" in ended.errors.replace("./usr//", "usr/"), ended


@pytest.mark.usefixtures("any_locale")
def test_members_that_dpkg_refuses_are_refused(old: Path, good: bytes, tmp_path: Path) -> None:
    name = f"usr/lib/{SONAME}"
    archive = tar([Member(name, good)])
    for number, (part, words) in enumerate((
            ([("data.tar.zip", archive)], "data.tar.zip"), ([("data\xa0\x9b", archive)], "data\\xa0\\x9b"),
            ([("other", b""), ("data.tar", archive)], "other where data.tar"),
            ([("control.tar", archive)], "control.tar where data.tar"), ([], "no member data.tar"),
            ([("data.tar", tar([Member(f"usr/lib/{'é' * 80}/{SONAME}", good)], tarfile.PAX_FORMAT))], "pax"),
            ([("data.tar.xz", archive)], "damaged"), ([("data.tar.gz", gzip.compress(archive) + b"more")], "other bytes follow"),
            ([("data.tar", archive[:len(archive) // 2])], "damaged"), ([("data.tar", b"\1" * 20000)], "damaged"))):
        ended = packages(tmp_path, old, "--", packed(tmp_path / f"{number}.deb", *part))
        assert ended.status == 2 and words in ended.errors and len(ended.errors.splitlines()) == 1, ended
    fine = packed(tmp_path / "fine.deb", ("_extra", b"x"), ("data.tar", archive), ("behind", b""))
    assert packages(tmp_path, old, "--", fine).status == 0


def headed(member: Member, magic: bytes, prefix: bytes = b"") -> bytes:
    """A member of tar whose header has these magic bytes and this prefix."""
    block = bytearray(tar([member])[:512 + -(-len(member.contents) // 512) * 512])
    block[257:257 + len(magic)], block[345:345 + len(prefix)] = magic, prefix
    # tarfile calls a folder without a name `/`.
    block[0:1] = block[0:1] if member.name else b"\0"
    block[148:156] = b" " * 8
    block[148:156] = b"%06o\0 " % sum(block[:512])
    return bytes(block)


def test_headers_that_dpkg_reads_in_another_way_are_refused(old: Path, good: bytes, bad: bytes, tmp_path: Path) -> None:
    """Each hides the library that breaks from one of several readers of tar. What all of them read in one way is judged."""
    name, end = f"usr/lib/{SONAME}", bytes(1024)
    first = headed(Member(name, good), b"ustar  \0")
    hard = headed(Member("usr/lib/empty"), b"ustar  \0") + headed(
        Member("usr/lib/hard", bytes(headed(Member(name, bad), bytes(8))), "usr/lib/empty", tarfile.REGTYPE), b"ustar\00000")
    linked = bytearray(hard)
    linked[512 + 156:512 + 157] = tarfile.LNKTYPE
    linked[512 + 157:512 + 170] = b"usr/lib/empty"
    linked[512 + 148:512 + 156] = b" " * 8
    linked[512 + 148:512 + 156] = b"%06o\0 " % sum(linked[512:1024])
    for number, (archive, status) in enumerate((
            (first + headed(Member(name, bad), b"ustar 00", b"other"), 2), (first + headed(Member(name, bad), b"ustarX00", b"other"), 2),
            (headed(Member(f"{name}/", good), b"ustar\00000"), 2), (first + bytes(linked), 2),
            (headed(Member("", kind=tarfile.DIRTYPE), b"ustar  \0") + first, 2), (first, 0),
            (headed(Member(name, good), b"ustar\00000"), 0), (headed(Member(SONAME, good), b"ustar\00000", b"usr/lib"), 0),
            (headed(Member(name, good), bytes(8)), 0))):
        new = packed(tmp_path / f"{number}.deb", ("data.tar", archive + end))
        ended = packages(tmp_path, old, "--", new)
        assert ended.status == status, (number, ended)
        assert status == 0 or len(ended.errors.splitlines()) == 1 and ("in another way" in ended.errors or number in (2, 3)), (number, ended)


def test_a_damaged_header_ends_no_archive_early(good: bytes, bad: bytes, tmp_path: Path) -> None:
    """The library after it would be neither seen in the old package nor missed in the new one."""
    archive = bytearray(tar([Member("usr/share/first", b"x" * 512), Member(f"usr/lib/{SONAME}", good)]))
    archive[1024 + 148] ^= 1
    made = hostile_deb(tmp_path / "damaged.deb", bytes(archive))
    new = hostile_deb(tmp_path / "new.deb", [Member(f"usr/lib/{SONAME}", bad)])
    for sides in ((made, "--", new), (new, "--", made)):
        ended = packages(tmp_path, *sides)
        assert ended.status == 2 and "damaged.deb is damaged" in ended.errors, ended


def test_a_soname_in_two_folders_and_a_merged_system(good: bytes, bad: bytes, tmp_path: Path) -> None:
    """/lib became /usr/lib, or there is one copy more: the libraries are neither gone nor new."""
    private = f"usr/lib/private/{SONAME}"
    old = hostile_deb(tmp_path / "old.deb", [Member(f"lib/{SONAME}", good), Member(private, good)])
    for name, contents, status in (("good", good, 0), ("bad", bad, 1)):
        new = hostile_deb(tmp_path / f"{name}.deb", [Member(f"usr/lib/{SONAME}", contents), Member(private, good)])
        ended = packages(tmp_path, old, "--", new)
        assert ended.status == status and "gone" not in ended.out and "new" not in ended.out.replace("new 2 of 2", ""), ended
    single = hostile_deb(tmp_path / "single.deb", [Member(f"lib/{SONAME}", good)])
    ended = packages(tmp_path, single, "--", tmp_path / "good.deb")
    assert ended.status == 0 and ended.out.splitlines()[-1] == "2 libraries: 1 new, 1 yes", ended


@pytest.mark.usefixtures("any_locale")
@pytest.mark.parametrize("name", ("schöne", "a\\b", "\udcff\udcfe", "é" * 120))
def test_names_in_archives_are_bytes(tmp_path: Path, name: str) -> None:
    """Those of members and of the targets of links, in each format that dpkg and rpm write."""
    def read(form: str, contents: bytes) -> list[tuple[str, str]]:
        return [(one.name, one.target) for one in Archive(iter([contents]), form, "it").members()]

    members = [Member(f"usr/{name}", b"text"), link("usr/soft", name), Member("usr/hard", kind=tarfile.LNKTYPE, target=f"usr/{name}")]
    names = [(f"usr/{name}", ""), ("usr/soft", name), ("usr/hard", f"usr/{name}")]
    assert read("tar", tar(members)) == names
    if len(os.fsencode(name)) < 100:
        assert read("tar", tar(members, tarfile.USTAR_FORMAT)) == names
    (tmp_path / name).write_bytes(b"text")
    (tmp_path / "soft").symlink_to(name)
    packing = subprocess.run(["bsdtar", "--format=newc", "-cf", "-", name, "soft"], cwd=tmp_path, capture_output=True, check=True)
    assert read("cpio", packing.stdout) == [(name, ""), ("soft", name)]


@pytest.mark.usefixtures("any_locale")
def test_what_cannot_be_unpacked_has_a_sentence(old: Path, good: bytes, tmp_path: Path) -> None:
    name = f"usr/lib/{SONAME}"
    deep = "/".join(["d"] * 1000)
    loop = [link("a", "b"), link("b", "a"), Member(f"a/{SONAME}", good)]
    for number, (members, words) in enumerate((
            ([Member(name, kind=tarfile.LNKTYPE, target="usr/lib/none")], "is a hard link to usr/lib/none, which it does not bring"),
            (loop, "loop of links"), ([Member(f"{deep}/{SONAME}", good)], "deeper than"),
            ([Member(f"{'d' * 5000}/{SONAME}", good)], "more than 4096 bytes"),
            ([Member("usr/lib", b"text"), Member(name, good)], "which is no folder"),
            ([Member(f"usr/../../{name}", good)], "outside of its folder"), ([link(name, "")], "no target"))):
        ended = packages(tmp_path, old, "--", hostile_deb(tmp_path / f"{number}.deb", members))
        assert ended.status == 2 and words in ended.errors and len(ended.errors.splitlines()) == 1, ended


def test_hard_links_are_files(old: Path, good: bytes, bad: bytes, tmp_path: Path) -> None:
    for number, (contents, status) in enumerate(((good, 0), (bad, 1))):
        members = [Member("usr/lib/first", contents), Member(f"usr/lib/{SONAME}", kind=tarfile.LNKTYPE, target="./usr/lib/first")]
        two = [Member("usr/lib/first", good), Member(f"usr/lib/{SONAME}", kind=tarfile.LNKTYPE, target="usr/lib/first")]
        before = hostile_deb(tmp_path / f"old{number}.deb", two)
        ended = packages(tmp_path, before, "--", hostile_deb(tmp_path / f"new{number}.deb", members))
        assert ended.status == status and ended.out.splitlines()[-1].startswith("2 libraries: 2 "), ended


def test_hard_links_in_an_rpm_have_the_contents_of_the_last_one(build: Build, tmp_path: Path) -> None:
    made = []
    for name, text in (("old", FIRST), ("new", CHANGED)):
        folder = tmp_path / f"{name}.tree/usr/lib"
        folder.mkdir(parents=True)
        library = build(f"{name}.so", text, soname=SONAME)
        (folder / "a.so").write_bytes(library.read_bytes())
        (folder / "b.so").hardlink_to(folder / "a.so")
        made.append(rpm(tmp_path, name, {}))
    for sides, status in (((made[0], "--", made[0]), 0), ((made[0], "--", made[1]), 1)):
        ended = packages(tmp_path, *sides)
        assert ended.status == status and ended.out.splitlines()[-1].startswith("2 libraries: 2 "), ended


def test_a_soname_of_any_bytes_forges_no_line(build: Build, tmp_path: Path) -> None:
    """A newline, an escape sequence, a character that turns the direction, and bytes that are no UTF-8."""
    plain = "libshapes-with-a-long-name.so.1"
    evil = b"x\nyes all\x1b[2J\xff\xe2\x80\xae.so"
    assert len(evil) < len(plain)
    hostile = {}
    for name, text in (("old", FIRST), ("new", CHANGED)):
        contents = build(f"{name}.so", text, soname=plain).read_bytes()
        hostile[name] = contents.replace(plain.encode() + b"\0", evil + bytes(len(plain) + 1 - len(evil)))
    made = [hostile_deb(tmp_path / f"{name}.deb", [Member("usr/lib/x\nyes\x1b[1m.so", contents)]) for name, contents in hostile.items()]
    for arguments, status in (((made[0], "--", made[1]), 1), ((made[0], "--", made[0]), 0), (("--leave-out", "none", *made[:1], "--", made[1]), 2)):
        ended = packages(tmp_path, *arguments)
        assert ended.status == status, ended
        for line in (ended.out + ended.errors).splitlines():
            assert line.isascii() and line.isprintable(), line
        if status != 2:
            assert ended.out.splitlines()[0].startswith(r"{} x\x0ayes\x20all\x1b[2J\xff\xe2\x80\xae.so: ".format("no" if status else "yes"))
            assert len(ended.out.splitlines()) == 2
    for place in (tmp_path / "certificates").iterdir():
        assert place.name.isascii() and place.name.isprintable() and "/" not in place.name


@pytest.mark.parametrize("text, shown", [
    ("yes \u0105 \u05d0", "yes \u0105 \u05d0"), ("x\nyes", r"x\x0ayes"), ("\x1b[2J", r"\x1b[2J"), ("\u202e", r"\xe2\x80\xae"), ("\udcff", r"\xff"),
    ("\u05fb", r"\xd7\xbb"), ("\ue000", r"\xee\x80\x80"), ("\u2028", r"\xe2\x80\xa8")])
def test_what_a_line_shows(text: str, shown: str) -> None:
    """Letters, a newline, an escape sequence, a turn of direction, a byte that is no UTF-8, a number that no character has, a character for
    private use, and a separator of lines."""
    assert line_shown(text) == shown and shown.isprintable()


def rules_deb(path: Path, library: bytes, *members: Member) -> Path:
    """A package of a library and of a rule file."""
    return hostile_deb(path, [Member(f"usr/lib/{SONAME}", library), *members])


def test_a_rule_file_is_one_of_the_package(old: Path, bad: bytes, tmp_path: Path) -> None:
    rules = b"[suppress_function]\nname = call\n"
    outside = tmp_path / "abi.rules"
    outside.write_bytes(rules)
    place = "usr/share/doc/p/abi.rules"
    bomb = gzip.compress(bytes(64 << 20))
    for number, (members, words) in enumerate((
            ([link(place, str(outside))], "leads to no rule file in the package"),
            ([link(f"{place}.gz", "/dev/zero")], "leads to no rule file in the package"),
            ([link("usr/share/doc/p", str(tmp_path))], None),
            ([Member(place, kind=tarfile.FIFOTYPE)], "leads to no rule file"),
            ([Member(f"{place}.gz", bomb)], "more than 1048576 bytes"),
            ([Member(place, b"#" * (2 << 20))], "leads to no rule file"),
            ([Member(f"{place}.gz", gzip.compress(rules)[:-4])], "cannot be inflated"),
            ([Member(place, rules), Member("usr/share/doc/q/abi.rules", rules)], "several rule files"))):
        ended = packages(tmp_path, old, "--", rules_deb(tmp_path / f"new{number}.deb", bad, *members))
        if words is None:
            assert ended.status == 1, ended
        else:
            assert ended.status == 2 and ended.out.startswith(f"cannot tell {SONAME}: ") and words in ended.out, ended
    linked = [link(place, "../q/abi.rules"), Member("usr/share/doc/q/more/abi.rules", rules)]
    ended = packages(tmp_path, old, "--", rules_deb(tmp_path / "linked.deb", bad, *linked[:1], Member("usr/share/q/abi.rules", rules)))
    assert ended.status == 2, ended


def peak(arguments: list[object]) -> tuple[int, int, str]:
    """The status of `abi-packages`, its peak memory in megabytes, that of its steps included, and what it printed."""
    command = ["/usr/bin/time", "--quiet", "--format=%M", str(TOOLS / "abi-packages"), *map(str, arguments)]
    ended = run(*command)
    return ended.status, int(ended.errors.splitlines()[-1]) // 1024, ended.out + ended.errors


@pytest.mark.parametrize("way, compressor", ((".gz", "gzip -1"), (".xz", "xz -0"), (".zst", "zstd -q --ultra --long=31")))
def test_a_bomb_is_refused_or_costs_no_memory(old: Path, tmp_path: Path, way: str, compressor: str) -> None:
    """A file of 450 MB that is no library, one of 2 GB that may be one, and a window of zstd that asks for 2 GB of memory."""
    whole = 450 << 20
    for name, start, size in (("text", "", whole), ("elf", "\\177ELF", 2 << 30)):
        (tmp_path / "head").write_bytes(tar([Member("usr/lib/zeros", size=size)])[:512])
        zeros = whole + 1024 - (4 if start else 0)
        done("sh", "-c", f"(cat head; printf '{start}'; head -c {zeros} /dev/zero) | {compressor} >bomb", folder=tmp_path)
        new = packed(tmp_path / f"{name}.deb", (f"data.tar{way}", (tmp_path / "bomb").read_bytes()))
        assert new.stat().st_size < 3 << 20
        status, megabytes, said = peak(["--certificates", tmp_path / "kept", old, "--", new])
        assert status in (1, 2) and megabytes < 400 and "Traceback" not in said, (status, megabytes, said)
        if way != ".zst":
            assert status == (2 if start else 1), said


def test_a_sparse_file_is_refused_before_its_zeros_are_made(old: Path, tmp_path: Path) -> None:
    """Twenty kilobytes of an archive that stand for a library of 8 GB, in both forms of GNU tar. dpkg installs neither."""
    (tmp_path / "usr/lib").mkdir(parents=True)
    with (tmp_path / "usr/lib" / SONAME).open("wb") as stream:
        stream.write(b"\x7fELF")
        stream.truncate(8 << 30)
    for form, words in (("gnu", "a sparse file"), ("posix", "a header of pax")):
        done("tar", "--sparse", f"--format={form}", "-cf", tmp_path / "data", "usr", folder=tmp_path)
        new = packed(tmp_path / f"{form}.deb", ("data.tar", (tmp_path / "data").read_bytes()))
        assert new.stat().st_size < 32768
        status, megabytes, said = peak(["--certificates", tmp_path / "kept", old, "--", new])
        assert status == 2 and words in said and megabytes < 200, (status, megabytes, said)


def test_a_file_that_is_too_large_is_named(old: Path, good: bytes, tmp_path: Path) -> None:
    """A library of 300 MB gets `cannot tell` with its size; the other one of its package is judged."""
    large = good + bytes(300 << 20)
    new = packed(tmp_path / "new.deb", ("data.tar.gz", gzip.compress(tar([Member(f"usr/lib/{SONAME}", large)]), 1)))
    ended = packages(tmp_path, old, "--", new)
    assert ended.status == 2 and f"it has {len(large)} bytes, and abi reads no file of more than 268435456 bytes" in ended.out, ended


def test_programs_and_damaged_files_beside_a_library(good: bytes, tmp_path: Path) -> None:
    """A program without section headers, one of 32 bits, a damaged file, and a library for another machine."""
    program = tmp_path / "program"
    (tmp_path / "main.c").write_text("int main(void) { return 0; }\n")
    done("gcc", "-o", program, tmp_path / "main.c")
    bare = bytearray(program.read_bytes())
    bare[40:48] = bytes(8)
    bare[58:64] = bytes(6)
    other = bytearray(good)
    other[18] = 183
    members = [Member(f"usr/lib/{SONAME}", good), Member("usr/bin/bare", bytes(bare)), Member("usr/lib/arm/libarm.so", bytes(other))]
    made = hostile_deb(tmp_path / "one.deb", members)
    ended = packages(tmp_path, made, "--", made)
    assert ended.status == 0 and ended.out.splitlines() == [
        ended.out.splitlines()[0], "left out usr/lib/arm/libarm.so: it is not for x86-64 with 64 bits",
        "2 libraries: 1 left out, 1 yes"], ended
    damaged = hostile_deb(tmp_path / "two.deb", [Member(f"usr/lib/{SONAME}", good[:200]), Member("usr/lib/libother.so", good[:30])])
    ended = packages(tmp_path, made, "--", damaged)
    assert ended.status == 2 and "gone" not in ended.out, ended
    assert [line.split(":")[0] for line in ended.out.splitlines()[:3]] == [
        f"cannot tell {SONAME}", "cannot tell usr/lib/libother.so", f"cannot tell usr/lib/{SONAME}"], ended


def test_a_library_without_section_headers_is_seen(old: Path, good: bytes, tmp_path: Path) -> None:
    """The loader needs none; `abi` does."""
    bare = bytearray(good)
    bare[40:48] = bytes(8)
    bare[58:64] = bytes(6)
    ended = packages(tmp_path, old, "--", hostile_deb(tmp_path / "new.deb", [Member(f"usr/lib/{SONAME}", bytes(bare))]))
    assert ended.status == 2 and ended.out.startswith(f"cannot tell {SONAME}: "), ended


def test_a_library_whose_sections_are_those_of_a_debug_file_is_seen(good: bytes, bad: bytes, build: Build, tmp_path: Path) -> None:
    """Its sections say that its dynamic symbols are not in the file; the loader finds them."""
    other = Member("usr/lib/libother.so.1", build("other.so", SECOND, soname="libother.so.1").read_bytes())
    (tmp_path / "good").write_bytes(good)
    symbols = next(one for one in ElfFile(tmp_path / "good").sections if one.name == ".dynsym")
    table = int.from_bytes(good[40:48], "little")
    hidden = bytearray(good)
    hidden[table + 64 * symbols.number + 4] = 8
    sides = [hostile_deb(tmp_path / f"{name}.deb", [Member(f"usr/lib/{SONAME}", bytes(contents)), other])
             for name, contents in (("hidden", hidden), ("bad", bad))]
    for old, new in (sides, sides[::-1]):
        ended = packages(tmp_path, old, "--", new)
        assert ended.status == 2 and f"cannot tell {SONAME}: " in ended.out and "gone" not in ended.out, ended


@pytest.mark.parametrize("section, place, step", ((".dynsym", 24, 24), (".dynsym", 24, -24), (".dynsym", 32, -24), (".dynstr", 24, 1)))
def test_a_library_whose_sections_hide_symbols_is_no_yes(old: Path, good: bytes, tmp_path: Path, section: str, place: int, step: int) -> None:
    """The headers of its sections say that the tables begin elsewhere, or end before the symbols that the loader finds."""
    (tmp_path / "good").write_bytes(good)
    number = next(one for one in ElfFile(tmp_path / "good").sections if one.name == section).number
    at = int.from_bytes(good[40:48], "little") + 64 * number + place
    hidden = bytearray(good)
    hidden[at:at + 8] = (int.from_bytes(good[at:at + 8], "little") + step).to_bytes(8, "little")
    new = hostile_deb(tmp_path / "new.deb", [Member(f"usr/lib/{SONAME}", bytes(hidden))])
    for sides in ((old, new), (new, old)):
        ended = packages(tmp_path, sides[0], "--", sides[1])
        assert ended.status == 2 and ended.out.startswith(f"cannot tell {SONAME}: "), ended
        assert "different tables of symbols" in ended.out or section == ".dynstr", ended


def test_a_run_that_is_ended_ends_its_steps(old: Path, tmp_path: Path, monkeypatch: pytest.MonkeyPatch) -> None:
    """`abi` waits for ever; the tool gets a signal: nothing that it started goes on, and its folder is gone."""
    temporary = tmp_path / "temporary"
    temporary.mkdir()
    waiting = tmp_path / "waiting_abi"
    waiting.write_text(f"#!/bin/sh\necho $$ >{tmp_path}/process\nsleep 1000\n")
    waiting.chmod(0o755)
    environment = {**os.environ, "ABI": str(waiting), "TMPDIR": str(temporary)}
    for number in (signal.SIGTERM, signal.SIGINT, signal.SIGHUP):
        process = subprocess.Popen([TOOLS / "abi-packages", "--certificates", tmp_path / "kept", old, "--", old], env=environment,
                                   stdout=subprocess.PIPE, stderr=subprocess.PIPE)
        place = tmp_path / "process"
        until = time.monotonic() + 30
        while not (place.exists() and place.read_text().strip()) and time.monotonic() < until:
            time.sleep(0.05)
        started = int(place.read_text())
        process.send_signal(number)
        out, errors = process.communicate(timeout=30)
        assert process.returncode == 128 + number and out == b"" and b"Traceback" not in errors, errors
        assert list(temporary.iterdir()) == []
        assert not Path(f"/proc/{started}").exists() or Path(f"/proc/{started}/stat").read_text().split()[2] == "Z"
        place.unlink()


@pytest.mark.parametrize("text, words", (
    ("kill -9 $$", "the signal SIGKILL ended it: perhaps the machine ran out of memory"), ("kill -SEGV $$", "the signal SIGSEGV ended it"),
    ("kill -XCPU $$", "it took more than its limit of processor time"), ("kill -9 $PPID", "the signal SIGKILL ended it"),
    ("while :; do :; done", "it took more than its limit of processor time"), ("exit 77", "abi ended with status 77"),
    ("exec /usr/bin/python3 -c 'bytes(3 << 30)'", "MemoryError")))
def test_what_ended_abi_is_told(old: Path, tmp_path: Path, monkeypatch: pytest.MonkeyPatch, text: str, words: str) -> None:
    program = tmp_path / "abi"
    program.write_text(f"#!/bin/sh\n{text}\n")
    program.chmod(0o755)
    monkeypatch.setenv("ABI", str(program))
    ended = packages(tmp_path, "--seconds", "1", "--memory", "500", old, "--", old)
    assert ended.status == 2 and ended.out.startswith(f"cannot tell {SONAME}: ") and words in ended.out, ended


def test_wrong_arguments_have_their_own_status(old: Path, tmp_path: Path) -> None:
    for arguments in ([], [old], [old, "--"], ["--", old], [old, "--", old, "--rules", "x"], ["--require-types", "101", old, "--", old],
                      ["--workers", "0", old, "--", old], ["--only", "what", old, "--", old], ["--unknown", old, "--", old]):
        ended = tool("abi-packages", *arguments)
        assert ended.status == 64 and ended.out == "" and "usage: abi-packages" in ended.errors, ended
    for name in ("abi-packages", "abi-gate"):
        assert script(name, "one").status == 64


def test_the_limits_are_listed() -> None:
    ended = script("abi-packages", "--limits")
    assert ended.status == 0 and "268,435,456 bytes" in ended.out and len(ended.out.splitlines()) > 8, ended


def test_a_closed_pipe_is_no_answer(old: Path, tmp_path: Path) -> None:
    ended = run("bash", "-c", f"set -o pipefail; {TOOLS}/abi-packages --certificates {tmp_path}/kept {old} -- {old} | true; "
                              "echo ${PIPESTATUS[0]}")
    assert ended.out.strip() != "1" and "Traceback" not in ended.errors, ended


def test_other_versions_of_the_binding_of_libarchive_do(old: Path, tmp_path: Path, monkeypatch: pytest.MonkeyPatch) -> None:
    """That of Debian 13 lacks names that the one of Debian 12 has."""
    for name in ("VOID_CB", "read_support_format_tar", "read_support_format_cpio"):
        monkeypatch.delattr(archives.ffi, name, raising=False)
    ended = packages(tmp_path, old, "--", old)
    assert ended.status == 0, ended


def test_without_proc_there_is_a_sentence(old: Path, tmp_path: Path, monkeypatch: pytest.MonkeyPatch) -> None:
    """As in a new chroot."""
    monkeypatch.setattr(jobs, "_MEMORY", str(tmp_path / "none"))
    ended = packages(tmp_path, old, "--", old)
    assert (ended.status, ended.out) == (2, "") and "there is no /proc: mount it" in ended.errors, ended
    assert len(ended.errors.splitlines()) == 1


def test_a_fault_of_the_tool_is_no_answer(old: Path, tmp_path: Path, monkeypatch: pytest.MonkeyPatch) -> None:
    """An exception that nobody expected ends with 2 and a sentence; Python would end with 1, which means no."""
    monkeypatch.setattr("abi_tools.packages_command.pairs", lambda *_: 1 / 0)
    ended = packages(tmp_path, old, "--", old)
    assert ended.status == 2 and ended.errors == "abi-packages: a fault of this tool: ZeroDivisionError: division by zero\n", ended


@pytest.mark.parametrize("place, lost, name", (
    ("abi_tools.package_sides.pairs_of", lambda *_: [], f"usr/lib/{SONAME}"),
    ("abi_tools.found_libraries._sort_dynamic", lambda *_: None, "two.deb"),
    ("abi_tools.packages_command._lines", lambda *_: iter(()), SONAME),
    ("abi_tools.packages_command._left_out", lambda *_: iter(()), "usr/lib/arm/libarm.so"),
    ("abi_tools.package_sides.with_unreadable", lambda pairs, *_: pairs, "usr/lib/libdamaged.so")))
def test_what_was_seen_is_counted_at_the_end(old: Path, good: bytes, tmp_path: Path, monkeypatch: pytest.MonkeyPatch, place: str,
                                             lost: Callable[..., object], name: str) -> None:
    """A fault that loses a library anywhere between the list of members and the lines."""
    other = bytearray(good)
    other[18] = 183
    two = hostile_deb(tmp_path / "two.deb", [Member(f"usr/lib/{SONAME}", good), Member("usr/lib/arm/libarm.so", bytes(other)),
                                             Member("usr/lib/libdamaged.so", good[:30])])
    assert "a fault" not in packages(tmp_path, two, "--", two).errors
    monkeypatch.setattr(place, lost)
    ended = packages(tmp_path, two, "--", two)
    assert ended.status == 2 and ended.out == "", ended
    assert ended.errors == f"abi-packages: a fault of this tool: {name} was seen and not judged\n", ended


def test_an_ordinary_user_gets_the_same_answers(old: Path, bad: bytes, tmp_path: Path) -> None:
    """Without the rights of root, in a folder of its own, with the tools of another user."""
    needs("setpriv")
    with tempfile.TemporaryDirectory(prefix="abi-ordinary-") as name:
        folder = Path(name)
        shutil.copytree(TOOLS, folder / "tools", ignore=shutil.ignore_patterns("__pycache__"))
        shutil.copy(os.environ["ABI"], folder / "abi")
        for file in (old, hostile_deb(tmp_path / "bad.deb", [Member(f"usr/lib/{SONAME}", bad)])):
            shutil.copy(file, folder)
        done("chmod", "-R", "a+rX", folder)
        home = folder / "home"
        home.mkdir()
        user = ["env", f"ABI={folder / 'abi'}", f"TMPDIR={home}"]
        if os.geteuid() == 0:
            os.chown(home, 65534, 65534)
            user = ["setpriv", "--reuid=65534", "--regid=65534", "--clear-groups", *user]
        command = [*user, folder / "tools/abi-packages", "--certificates", home / "kept", folder / "old.deb", "--"]
        for new, status in (("old", 0), ("bad", 1)):
            ended = run(*command, folder / f"{new}.deb")
            assert ended.status == status, ended
            own = packages(tmp_path, "--certificates", tmp_path / "kept", old, "--", tmp_path / f"{new}.deb")
            assert ended.out.replace(str(home), str(tmp_path)) == own.out
        assert sorted(place.name for place in home.iterdir()) == ["kept"]


@pytest.mark.parametrize("settings", (
    ("LC_ALL=C", "PYTHONUTF8=0", "PYTHONCOERCECLOCALE=0"), ("-u", "LANG", "-u", "LC_ALL"), ("LC_ALL=C.UTF-8",)))
def test_a_locale_that_lacks_a_character_changes_no_answer(old: Path, bad: bytes, tmp_path: Path, settings: tuple[str, ...]) -> None:
    """Names of this machine's folders are printed as they are, as far as the locale has their characters."""
    folder = tmp_path / "schön →"
    folder.mkdir()
    new = hostile_deb(folder / "→.deb", [Member(f"usr/lib/{SONAME}", bad)])
    ended = run("env", *settings, TOOLS / "abi-packages", "--certificates", folder, old, "--", new)
    assert ended.status == 1 and ended.out.startswith(f"no {SONAME}: ") and ended.out.endswith("1 library: 1 no\n"), ended
    ended = run("env", *settings, TOOLS / "abi-packages", "--certificates", folder, old, "--", folder / "→none.deb")
    assert ended.status == 2 and ended.errors.startswith("abi-packages: there is no package"), ended


def test_a_terminal_sees_progress(old: Path, tmp_path: Path) -> None:
    """On standard error, if that is a terminal; standard output has the lines alone."""
    command = shlex.join(map(str, (TOOLS / "abi-packages", "--certificates", tmp_path / "kept", old, "--", tmp_path / "two.deb")))
    shutil.copy(old, tmp_path / "two.deb")
    ended = run("script", "--quiet", "--return", "--command", f"TERM=xterm {command} >{tmp_path}/out", tmp_path / "terminal")
    assert ended.status == 0 and "packages" in ended.out and "2/2" in ended.out, ended
    assert (tmp_path / "out").read_text().splitlines()[-1] == "1 library: 1 yes"
    assert "\x1b" not in (tmp_path / "out").read_text()


def test_a_package_is_read_once(old: Path, tmp_path: Path, monkeypatch: pytest.MonkeyPatch) -> None:
    """It may stand on both sides, under two names."""
    again, seen = tmp_path / "again.deb", tmp_path / "seen"
    again.hardlink_to(old)
    unpack = packages_command.unpack

    def counted(file: Path, folder: Path) -> unpacking.Package:
        with seen.open("a") as stream:
            stream.write(f"{file.name}\n")
        return unpack(file, folder)

    monkeypatch.setattr(packages_command, "unpack", counted)
    assert packages(tmp_path, old, "--", again).status == 0
    assert len(seen.read_text().splitlines()) == 1


def test_lines_are_in_order_and_chosen(build: Build, tmp_path: Path) -> None:
    """No, gone, cannot tell, yes; the last line names what is no yes."""
    sides: dict[str, list[Member]] = {"old": [], "new": []}
    texts = {"a-yes": (FIRST, FIRST), "b-untold": (FIRST, FIRST), "c-no": (FIRST, CHANGED), "d-gone": (SECOND, ""), "e-new": ("", SECOND)}
    for name, pair in texts.items():
        for side, text in zip(sides, pair):
            if text:
                options = ("-g0",) if "untold" in name else ("-g",)
                library = build(f"{side}-{name}.so", text, *options, soname=f"lib{name}.so.1")
                sides[side].append(Member(f"usr/lib/lib{name}.so.1", library.read_bytes()))
    made = [hostile_deb(tmp_path / f"{side}.deb", members) for side, members in sides.items()]
    ended = packages(tmp_path, made[0], "--", made[1])
    assert ended.status == 1 and [line.split(":")[0] for line in ended.out.splitlines()] == [
        "no libc-no.so.1", "gone libd-gone.so.1", "cannot tell libb-untold.so.1", "yes liba-yes.so.1", "new libe-new.so.1",
        "5 libraries"], ended
    last = "5 libraries: 1 cannot tell, 1 gone, 1 new, 1 no, 1 yes; not yes: libc-no.so.1, libd-gone.so.1, libb-untold.so.1"
    assert ended.out.splitlines()[-1] == last
    ended = packages(tmp_path, "--only", "no", made[0], "--", made[1])
    assert [line.split(":")[0] for line in ended.out.splitlines()] == ["no libc-no.so.1", "gone libd-gone.so.1", "5 libraries"]
    assert packages(tmp_path, "--quiet", made[0], "--", made[1]).out == last + "\n"


def test_a_library_that_moved_out_of_what_the_loader_searches_is_no_yes(old: Path, good: bytes, bad: bytes, tmp_path: Path) -> None:
    for name, contents, status in (("good", good, 2), ("bad", bad, 1)):
        new = hostile_deb(tmp_path / f"{name}.deb", [Member(f"usr/lib/private/{SONAME}", contents)])
        ended = packages(tmp_path, old, "--", new)
        assert ended.status == status and "old in usr/lib, new in usr/lib/private" in ended.out, ended
    assert "usr/lib/private, which it searches only if" in packages(tmp_path, old, "--", tmp_path / "good.deb").out


def test_a_library_for_better_processors_is_compared_with_what_it_replaces(old: Path, good: bytes, bad: bytes, tmp_path: Path) -> None:
    better = f"usr/lib/glibc-hwcaps/x86-64-v3/{SONAME}"
    for name, contents, status in (("good", good, 0), ("bad", bad, 1)):
        new = hostile_deb(tmp_path / f"{name}.deb", [Member(f"usr/lib/{SONAME}", good), Member(better, contents)])
        assert packages(tmp_path, old, "--", new).status == status
        assert packages(tmp_path, new, "--", old).status == status


def test_a_library_without_exports_has_nothing_that_breaks(build: Build, tmp_path: Path) -> None:
    library = build("empty.so", "static int nothing;\n", "-g", "-nostdlib", soname="libempty.so.1")
    made = deb(tmp_path, "empty", {f"{LIBRARIES}/libempty.so.1": library})
    ended = packages(tmp_path, made, "--", made)
    assert ended.status == 0 and ended.out.startswith("yes libempty.so.1: the old library has no exports"), ended

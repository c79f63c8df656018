#!/usr/bin/python3
"""Makes the libraries that bench/check.sh and bench/slower.py measure, in bench/made/check: those that are not there yet.

usage: bench/measured_libraries.py [NAME..]

Prints a line for each, with what it is of, or says why it cannot be had. Ends with 2 if one cannot be had. The names, by default all:

libc               the C library of the running system, joined with its debug information
glibc              that of two versions of Debian 12, or of the nearest ones that the archives have
libcrypto          that of OpenSSL, and a build with one field changed (bench/openssl.sh, some ten minutes)
gcc, clang         generated C of which exports reach nearly all entries, and a build with one structure changed
wide               5,000 structures of 30 members, and a build in which each member is a long in place of an int
functions_COUNT    1,000, 10,000 or 50,000 exported functions, with one structure for each twenty

Packages come from the archives that apt knows. It needs gcc, eu-unstrip (of elfutils), dpkg and python3-debian, and for libcrypto make and
perl. The C library of the running system is made anew if it is another one since, and generated C if the compiler is. To make others anew,
remove the files `NAME.of` in that folder.
"""

from __future__ import annotations

import hashlib
import os
import subprocess
import sys
import tempfile
from collections.abc import Callable, Iterable
from dataclasses import dataclass
from functools import partial
from pathlib import Path

from debian.debian_support import Version

ROOT = Path(__file__).resolve().parents[1]
MADE = ROOT / "bench" / "made" / "check"
# The versions of Debian's C library whose pair is measured.
C_VERSIONS = ("2.36-9+deb12u7", "2.36-9+deb12u14")
_C_LIBRARY = Path("/lib/x86_64-linux-gnu/libc.so.6")
# The change in the generated C: a structure of two short members that an exported function takes.
_STRUCTURE = ("struct { short x, y; } place", "struct { int x, y; } place")
_DEBIAN_KEYS = "/usr/share/keyrings/debian-archive-keyring.gpg"


class CannotBeHad(Exception):
    """A library cannot be made here; the words say why."""


@dataclass(frozen=True)
class Recipe:
    """How libraries are made: their files, the function that makes these in an empty folder and returns what they are of, and, where that
    is known before, the function that says it."""

    name: str
    files: tuple[str, ...]
    make: Callable[[Path], str]
    expected: Callable[[], str] | None = None


def ran(*words: str | Path, folder: Path = ROOT) -> str:
    """The output of a command that must end with 0."""
    try:
        ended = subprocess.run([str(word) for word in words], cwd=folder, stdin=subprocess.DEVNULL, capture_output=True, text=True, check=False)
    except FileNotFoundError as error:
        raise CannotBeHad(f"there is no {words[0]}") from error
    if ended.returncode != 0:
        said = [line for line in ended.stderr.splitlines() if not line.startswith("W: ")] or [f"it ended with status {ended.returncode}"]
        raise CannotBeHad(f"{' '.join(Path(word).name for word in words[:2])}: {said[0]}")
    return ended.stdout


def first_file(folder: Path, pattern: str) -> Path:
    """A file of a folder that must have one."""
    for file in sorted(folder.glob(pattern)):
        return file
    raise CannotBeHad(f"there is no {pattern} in what was downloaded")


# ---- the C library


def installed_c_library() -> str:
    """What the C library of the running system is of."""
    return f"libc6 {ran('dpkg-query', '--show', '--showformat=${Version}', 'libc6:amd64')}"


def system_c_library(folder: Path) -> str:
    """The C library of the running system. Its debug information is downloaded if it is not installed."""
    of = installed_c_library()
    try:
        ran(ROOT / "tools" / "join-debug", _C_LIBRARY, folder / "libc.so")
    except CannotBeHad:
        c_library_of(of.split()[1], folder / "libc.so")
    return of


def c_library_of(version: str, to: Path) -> None:
    """The C library of a version of Debian's packages, joined with its debug information."""
    with tempfile.TemporaryDirectory(dir=to.parent) as name:
        folder = Path(name)
        ran("apt-get", "download", "--quiet", f"libc6:amd64={version}", f"libc6-dbg:amd64={version}", folder=folder)
        for package in folder.glob("*.deb"):
            ran("dpkg-deb", "--extract", package, folder / "root")
        library = first_file(folder / "root", f"**/x86_64-linux-gnu/{_C_LIBRARY.name}")
        ran(ROOT / "tools" / "join-debug", "--root", folder / "root", library, to)


def nearest_first(wanted: str, versions: Iterable[str]) -> list[str]:
    """Versions of a package, those that stand nearest to the wanted one first; of two as near, the older one."""
    known = set(versions)
    ordered = sorted(known | {wanted}, key=Version)
    return sorted(known, key=lambda version: (abs(ordered.index(version) - ordered.index(wanted)), ordered.index(version)))


def two_c_libraries(folder: Path) -> str:
    """The C library of two versions of Debian's packages: those of C_VERSIONS, or the nearest ones that can be had."""
    known = [line.split("|")[1].strip() for line in ran("apt-cache", "madison", "libc6:amd64").splitlines()]
    taken, whys = list[str](), dict[str, str]()
    for wanted in C_VERSIONS:
        for version in nearest_first(wanted, set(known) - set(taken) - set(whys)):
            try:
                c_library_of(version, folder / version)
            except CannotBeHad as why:
                whys[version] = str(why)
            else:
                taken.append(version)
                break
    if len(taken) < len(C_VERSIONS):
        raise CannotBeHad("; ".join(whys.values()) or f"apt knows no two versions of libc6, but only {', '.join(known) or 'none'}")
    old, new = sorted(taken, key=Version)
    os.replace(folder / old, folder / "libc_old.so")
    os.replace(folder / new, folder / "libc_new.so")
    return f"libc6 {old} and {new}"


# ---- libcrypto


def source_lists(folder: Path) -> list[str]:
    """The options with which apt knows sources: those of Debian's archives that it takes packages from, in lists of their own."""
    lists = ran("apt-get", "indextargets", "--format", f"deb-src [signed-by={_DEBIAN_KEYS}] $(REPO_URI) $(RELEASE) $(COMPONENT)",
                "Created-By: Packages", "Origin: Debian")
    for name in ("lists/partial", "cache/archives/partial"):
        (folder / name).mkdir(parents=True)
    (folder / "sources.list").write_text("".join(f"{line}\n" for line in sorted(set(lists.splitlines()))), encoding="utf-8")
    places = {"Dir::State::Lists": "lists", "Dir::Cache": "cache", "Dir::Etc::SourceList": "sources.list"}
    options = [f"--option={option}={folder / name}" for option, name in places.items()] + ["--option=Dir::Etc::SourceParts=/dev/null"]
    ran("apt-get", *options, "--quiet", "update")
    return options


def crypto_source(folder: Path) -> Path:
    """The source of the newest version of OpenSSL that the archives have, as its authors publish it."""
    options = list[str]()
    try:
        shown = ran("apt-cache", "showsrc", "--only-source", "openssl")
    except CannotBeHad:
        shown = ""
    if not shown.strip():
        options = source_lists(folder)
        shown = ran("apt-cache", *options, "showsrc", "--only-source", "openssl")
    why = CannotBeHad("apt knows no source of openssl")
    for version in sorted({line.split()[1] for line in shown.splitlines() if line.startswith("Version: ")}, key=Version, reverse=True):
        download = folder / version
        download.mkdir()
        try:
            ran("apt-get", *options, "source", "--quiet", "--only-source", "--download-only", f"openssl={version}", folder=download)
            return first_file(download, "openssl_*.orig.tar.gz")
        except CannotBeHad as error:
            why = error
    raise why


def crypto(folder: Path) -> str:
    """libcrypto and its changed build, which bench/openssl.sh puts in place."""
    source = crypto_source(folder)
    ran(ROOT / "bench" / "openssl.sh", source)
    return f"OpenSSL {source.name.removeprefix('openssl_').removesuffix('.orig.tar.gz')}, {version_of('gcc')}"


# ---- what is compiled from generated C


def version_of(compiler: str) -> str:
    """The name and the version of a compiler."""
    return f"{compiler} {ran(compiler, '-dumpversion' if compiler == 'clang' else '-dumpfullversion').strip()}"


def entries_source() -> str:
    """C of which exports reach nearly all entries."""
    return ran("awk", "-v", "first=1", "-v", "last=6500", "-f", ROOT / "tests" / "c" / "entries.awk")


def changed_source() -> str:
    """The same with one structure changed."""
    old = entries_source()
    if _STRUCTURE[0] not in old:
        raise CannotBeHad("the generated C has no structure to change")
    return old.replace(*_STRUCTURE, 1)


def functions_source(count: int) -> str:
    """So many functions, with one structure for each twenty."""
    lines = list[str]()
    for number in range(count):
        kind = number // 20
        if number % 20 == 0:
            lines.append(f"struct s{kind} {{ int a; struct s{kind} *next; long b[{number % 7 + 1}]; }};\n")
        lines.append(f"int f{number}(struct s{kind} *p, int x) {{ return x; }}\n")
    return "".join(lines)


def wide_source(side: int) -> str:
    """The old side of the wide change, or its new one."""
    with tempfile.TemporaryDirectory() as folder:
        paths = [Path(folder, name) for name in ("old.c", "new.c")]
        ran(sys.executable, ROOT / "tests" / "wide_changes.py", "wider_members", "5000", "30", *paths)
        return paths[side].read_text(encoding="ascii")


Sources = dict[str, Callable[[], str]]


def of_sources(compiler: str, sources: Sources) -> str:
    """What libraries that are compiled from sources are of: the compiler, and the first digits of the digest of the sources."""
    digest = hashlib.sha256("".join(source() for source in sources.values()).encode())
    return f"{version_of(compiler)}, sources {digest.hexdigest()[:8]}"


def compiled(compiler: str, sources: Sources, folder: Path) -> str:
    """Compiles each source with debug information, which has no names of folders of this machine."""
    for library, source in sources.items():
        (folder / f"{library}.c").write_text(source(), encoding="ascii")
        ran(compiler, "-shared", "-fPIC", "-w", "-g", "-O1", f"-ffile-prefix-map={folder}=.", f"{library}.c", "-o", library, folder=folder)
    return of_sources(compiler, sources)


def from_sources(name: str, compiler: str, sources: Sources) -> Recipe:
    """How libraries are compiled from sources."""
    return Recipe(name, tuple(sources), partial(compiled, compiler, sources), partial(of_sources, compiler, sources))


RECIPES = {recipe.name: recipe for recipe in (
    Recipe("libc", ("libc.so",), system_c_library, installed_c_library),
    Recipe("glibc", ("libc_old.so", "libc_new.so"), two_c_libraries),
    Recipe("libcrypto", ("openssl.so", "openssl_changed.so"), crypto),
    from_sources("gcc", "gcc", {"gcc.so": entries_source, "gcc_changed.so": changed_source}),
    from_sources("clang", "clang", {"clang.so": entries_source, "clang_changed.so": changed_source}),
    from_sources("wide", "gcc", {"wide_old.so": partial(wide_source, 0), "wide_new.so": partial(wide_source, 1)}),
    *(from_sources(f"functions_{count}", "gcc", {f"functions_{count}.so": partial(functions_source, count)})
      for count in (1_000, 10_000, 50_000)))}


# ---- making


def made(recipe: Recipe) -> str:
    """Makes the libraries of a recipe, unless they are there, and returns what they are of."""
    MADE.mkdir(parents=True, exist_ok=True)
    note, files = MADE / f"{recipe.name}.of", [MADE / name for name in recipe.files]
    expected = recipe.expected() if recipe.expected else None
    if note.is_file() and all(file.is_file() for file in files) and expected in (None, note.read_text(encoding="utf-8").strip()):
        return note.read_text(encoding="utf-8").strip()
    print(f"measured_libraries: making {recipe.name}", file=sys.stderr, flush=True)
    # Nothing of an earlier run is measured in place of what cannot be had.
    for file in (note, *files):
        file.unlink(missing_ok=True)
    with tempfile.TemporaryDirectory(dir=MADE) as folder:
        of = recipe.make(Path(folder))
        for file in files:
            if (Path(folder) / file.name).is_file():
                os.replace(Path(folder) / file.name, file)
    note.write_text(f"{of}\n", encoding="utf-8")
    return of


def longer(library: str) -> str:
    """Makes a copy of a library with one more byte, and returns its name."""
    name = f"{library.removesuffix('.so')}_longer.so"
    (MADE / name).write_bytes((MADE / library).read_bytes() + b"\0")
    return name


def main(names: list[str]) -> int:
    """Makes the named libraries, and names those that cannot be had."""
    if unknown := set(names) - set(RECIPES):
        print(f"measured_libraries: no such name: {', '.join(sorted(unknown))}\n\n{__doc__}", file=sys.stderr)
        return 64
    missing = 0
    for name in names or RECIPES:
        try:
            print(f"{name}: {made(RECIPES[name])}", flush=True)
        except CannotBeHad as why:
            print(f"{name} is left out: {why}", file=sys.stderr, flush=True)
            missing += 1
    return 2 if missing else 0


if __name__ == "__main__":
    sys.exit(main(sys.argv[1:]))

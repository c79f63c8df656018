"""Makes two releases of many small packages, each with one library of its own.

usage: python3 bench/made_release.py [--distinct N] FOLDER COUNT

FOLDER/old and FOLDER/new get COUNT packages each, a hundred in a folder. The libraries, which gcc makes, have 1 to 60 functions. A number in
the header of each (e_flags, which nothing reads) makes it a different file; after N different ones they repeat. In the new release every
tenth library has lost exports. It uses all processors: 30,000 pairs take two minutes of processor time and half a gigabyte of disk.
"""

from __future__ import annotations

import argparse
import gzip
import io
import itertools
import os
import struct
import subprocess
import tarfile
from concurrent.futures import ProcessPoolExecutor, ThreadPoolExecutor
from pathlib import Path
from typing import Callable

_KINDS = 60
_IN_A_FOLDER = 100
_BROKEN = 10
# Where an ELF-64 header has e_flags.
_FLAGS_AT = struct.Struct("<I"), 48
_STRUCTURE = "struct s{0} {{ {1} first; struct s{0} *next; double weight; }};\n{1} f{0}(struct s{0} *s, int n) {{ return s->first + n; }}\n"

Maker = Callable[[int, str], bytes]


def main() -> None:
    """Makes the releases."""
    parser = argparse.ArgumentParser()
    parser.add_argument("--distinct", type=int)
    parser.add_argument("folder", type=Path)
    parser.add_argument("count", type=int)
    given = parser.parse_args()
    folder, count = given.folder, given.count
    maker = _by_gcc(folder)
    with ThreadPoolExecutor(os.cpu_count()) as threads:
        made = {side: list(threads.map(maker, range(1, _KINDS + 1), itertools.repeat(side))) for side in ("old", "new")}
    numbers = [range(first, min(first + _IN_A_FOLDER, count)) for first in range(0, count, _IN_A_FOLDER)]
    with ProcessPoolExecutor(initializer=_Made.take, initargs=(folder, made, given.distinct or count)) as pool:
        for _ in pool.map(_write_packages, numbers):
            pass


class _Made:
    """The data of each process that writes packages: the folder, the libraries of each side, and how many packages differ."""

    folder: Path
    libraries: dict[str, list[bytes]]
    distinct: int

    @classmethod
    def take(cls, folder: Path, libraries: dict[str, list[bytes]], distinct: int) -> None:
        """Sets the data."""
        cls.folder, cls.libraries, cls.distinct = folder, libraries, distinct


def _write_packages(numbers: range) -> None:
    """Writes the packages of these numbers, on both sides."""
    for side in ("old", "new"):
        folder = _Made.folder / side / f"{numbers.start // _IN_A_FOLDER:04d}"
        folder.mkdir(parents=True, exist_ok=True)
        for number in numbers:
            # a library with fewer functions has lost some of the old exports
            is_broken = side == "new" and number % _BROKEN == _BROKEN - 1
            kind = (number % _KINDS) // (2 if is_broken else 1)
            library = bytearray(_Made.libraries[side][kind])
            _FLAGS_AT[0].pack_into(library, _FLAGS_AT[1], number % _Made.distinct)
            _write_deb(folder, number, side, bytes(library))


def _by_gcc(folder: Path) -> Maker:
    """A function that builds a library of some functions with gcc."""
    folder.mkdir(parents=True, exist_ok=True)

    def make(functions: int, side: str) -> bytes:
        source, output = folder / f"{side}{functions}.c", folder / f"{side}{functions}.so"
        source.write_text("".join(_STRUCTURE.format(number, ("int", "long", "short")[number % 3]) for number in range(functions)))
        subprocess.run(["gcc", "-O1" if side == "old" else "-O2", "-g", "-shared", "-fPIC", "-o", output, source], check=True)
        made = output.read_bytes()
        for file in (source, output):
            file.unlink()
        return made

    return make


def _write_deb(folder: Path, number: int, side: str, library: bytes) -> None:
    """Writes the package of a library. It depends on the previous package."""
    name, version = f"libmade{number:05d}", "1" if side == "old" else "2"
    depends = f"Depends: libmade{number - 1:05d}\n" if number else ""
    control = f"Package: {name}\nVersion: {version}\nArchitecture: amd64\nMaintainer: a <a@example.org>\n{depends}Description: made\n"
    parts = (("debian-binary", b"2.0\n"), ("control.tar.gz", _archive("./control", control.encode())),
             ("data.tar.gz", _archive(f"./usr/lib/{name}.so", library)))
    text = b"!<arch>\n"
    for part, contents in parts:
        text += f"{part:16}{0:<12}{0:<6}{0:<6}{'100644':8}{len(contents):<10}`\n".encode() + contents + b"\n" * (len(contents) % 2)
    (folder / f"{name}_{version}_amd64.deb").write_bytes(text)


def _archive(name: str, contents: bytes) -> bytes:
    """A compressed archive of one file."""
    plain = io.BytesIO()
    with tarfile.open(fileobj=plain, mode="w", format=tarfile.GNU_FORMAT) as archive:
        member = tarfile.TarInfo(name)
        member.size = len(contents)
        archive.addfile(member, io.BytesIO(contents))
    return gzip.compress(plain.getvalue(), 1, mtime=0)


if __name__ == "__main__":
    main()

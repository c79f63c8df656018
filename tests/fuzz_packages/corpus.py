"""Sound packages, and the parts from which changed ones are made."""

from __future__ import annotations

import gzip
import io
import itertools
import struct
import subprocess
import tarfile
from dataclasses import dataclass
from pathlib import Path
from typing import Iterator, Sequence, Union

LIBRARY = "usr/lib/libfuzz.so.1"
_SOURCE = "int fuzz({} a) {{ return (int) a; }}\n"
_CONTROL = b"Package: p\nVersion: 1\nArchitecture: amd64\nMaintainer: a <a@example.org>\nDescription: a package\n"
# The types of values in a header of rpm, and tags: a package's name and version, how its archive is packed, and its files by size, mode,
# target of a link, device, inode, folder and name.
_INT16, _INT32, _STRING, _STRINGS = 3, 4, 6, 8
_TEXTS = {1000: "p", 1001: "1", 1002: "1", 1021: "linux", 1022: "x86_64", 1124: "cpio", 1125: "gzip", 1126: "1"}
_SIZES, _FILE_MODES, _TARGETS, _DEVICES, _INODES = 1028, 1030, 1036, 1095, 1096
_FOLDER_NUMBERS, _FILE_NAMES, _FOLDERS = 1116, 1117, 1118
Value = Union[str, Sequence[str], Sequence[int]]


@dataclass(frozen=True)
class Corpus:
    """A library, and one that may not replace it."""

    good: bytes
    bad: bytes


@dataclass(frozen=True)
class Member:
    """A member of an archive: its name, its type as in tar, its contents, and the target of a link."""

    name: str
    kind: bytes = tarfile.REGTYPE
    contents: bytes = b""
    target: str = ""


def made_corpus(folder: Path) -> Corpus:
    """Makes the libraries with gcc."""
    return Corpus(*(_library(folder, name, kind).read_bytes() for name, kind in (("good", "int"), ("bad", "long"))))


def _library(folder: Path, name: str, kind: str) -> Path:
    source = folder / f"{name}.c"
    source.write_text(_SOURCE.format(kind))
    made = folder / f"{name}.so"
    subprocess.run(["gcc", "-shared", "-fPIC", "-nostdlib", "-Wl,-soname,libfuzz.so.1", "-o", str(made), str(source)], check=True)
    return made


def tar(members: Sequence[Member]) -> bytes:
    """An archive of tar."""
    made = io.BytesIO()
    with tarfile.open(fileobj=made, mode="w", format=tarfile.GNU_FORMAT, encoding="utf-8", errors="surrogateescape") as archive:
        for one in members:
            entry = tarfile.TarInfo(one.name)
            entry.type, entry.linkname, entry.size, entry.mode = one.kind, one.target, len(one.contents), 0o755
            archive.addfile(entry, io.BytesIO(one.contents))
    return made.getvalue()


_MODES = {tarfile.REGTYPE: 0o100644, tarfile.DIRTYPE: 0o040755, tarfile.SYMTYPE: 0o120777, tarfile.FIFOTYPE: 0o010644,
          tarfile.CHRTYPE: 0o020644}


def cpio(members: Sequence[Member]) -> bytes:
    """An archive of cpio in the form `newc`. A hard link is a second name of the file before it."""
    made = b""
    inode = 1
    last = Member("TRAILER!!!")
    for one, following in zip((*members, last), (*members[1:], last, last)):
        is_link = one.kind == tarfile.LNKTYPE
        inode += not is_link
        contents = one.target.encode("utf-8", "surrogateescape") if one.kind == tarfile.SYMTYPE else one.contents
        name = one.name.encode("utf-8", "surrogateescape") + b"\0"
        names = 2 if is_link or following.kind == tarfile.LNKTYPE else 1
        fields = (inode, _MODES.get(one.kind, 0o100644), 0, 0, names, 0, len(contents), 0, 0, 0, 0, len(name), 0)
        made += b"070701" + b"".join(b"%08x" % field for field in fields) + name
        made += bytes(-len(made) % 4) + contents
        made += bytes(-len(made) % 4)
    return made


def deb(parts: Sequence[tuple[str, bytes]]) -> bytes:
    """A .deb of these members after the version."""
    made = b"!<arch>\n"
    for name, data in (("debian-binary", b"2.0\n"), *parts):
        head = f"{name[:16]:<16}{0:<12}{0:<6}{0:<6}{'100644':<8}{len(data):<10}`\n"
        made += head.encode("latin-1", "replace") + data + b"\n" * (len(data) % 2)
    return made


def control() -> tuple[str, bytes]:
    """The member of control files."""
    return "control.tar", tar([Member("./control", contents=_CONTROL)])


def rpm(listed: Sequence[Member], archive: bytes) -> bytes:
    """A .rpm with an archive, and a header that lists members."""
    lead = b"\xed\xab\xee\xdb\x03\0" + struct.pack(">HH66sHH16x", 0, 1, b"p-1-1", 1, 5)
    signature = _header([(_SIZES, _INT32, [0])])
    head = lead + signature + bytes(-len(signature) % 8)
    return head + _header([*((tag, _STRING, text) for tag, text in _TEXTS.items()), *_files(listed)]) + gzip.compress(archive, 1)


def _files(listed: Sequence[Member]) -> Iterator[tuple[int, int, Value]]:
    """The values that list files."""
    members = {f"/{one.name.removeprefix('./').lstrip('/')}": one for one in listed}
    folders = [f"{name.rpartition('/')[0]}/" for name in members]
    unique = sorted(set(folders))
    targets = [one.target if one.kind == tarfile.SYMTYPE else "" for one in members.values()]
    yield _SIZES, _INT32, [len(target) or len(one.contents) for target, one in zip(targets, members.values())]
    yield _FILE_MODES, _INT16, [_MODES.get(one.kind, 0o100644) for one in members.values()]
    yield _TARGETS, _STRINGS, targets
    yield _DEVICES, _INT32, [1] * len(members)
    yield _INODES, _INT32, list(itertools.accumulate((one.kind != tarfile.LNKTYPE for one in members.values()), initial=1))[1:]
    yield _FOLDER_NUMBERS, _INT32, [unique.index(folder) for folder in folders]
    yield _FILE_NAMES, _STRINGS, [name.rpartition("/")[2] for name in members]
    yield _FOLDERS, _STRINGS, unique


def _header(values: Sequence[tuple[int, int, Value]]) -> bytes:
    """A header of rpm."""
    index, data = b"", b""
    for tag, kind, value in values:
        data += bytes(-len(data) % {_INT16: 2, _INT32: 4}.get(kind, 1))
        index += struct.pack(">IIII", tag, kind, len(data), 1 if kind == _STRING else len(value))
        if kind in (_INT16, _INT32):
            data += struct.pack(f">{len(value)}{'H' if kind == _INT16 else 'I'}", *value)
        else:
            texts = [value] if isinstance(value, str) else value
            data += b"".join(str(text).encode("utf-8", "surrogateescape") + b"\0" for text in texts)
    return b"\x8e\xad\xe8\x01" + bytes(4) + struct.pack(">II", len(index) // 16, len(data)) + index + data

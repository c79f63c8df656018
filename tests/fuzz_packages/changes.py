"""Random changes of packages."""

from __future__ import annotations

import bz2
import gzip
import lzma
import tarfile
from dataclasses import replace
from random import Random
from typing import Callable, Sequence

import zstandard

from fuzz_packages.corpus import LIBRARY, Corpus, Member, control, cpio, deb, rpm, tar

_USUAL = (LIBRARY, f"./{LIBRARY}", f"/{LIBRARY}", "usr/lib/libfuzz.so", "usr/lib/a/libfuzz.so.1", "usr/lib/a", "usr/lib64",
          "usr/lib64/libfuzz.so.1", "lib/libfuzz.so.1", "lib", "usr/lib/x86_64-linux-gnu/libfuzz.so.1",
          "usr/lib/glibc-hwcaps/x86-64-v3/libfuzz.so.1", "usr/lib/x86_64-linux-gnu", "usr/lib/glibc-hwcaps/x86-64-v3",
          "usr/lib/debug/libfuzz.so.1", "usr/lib/haswell/libfuzz.so.1", "usr/share/doc/p/abi.rules", "usr/share/doc/p", "usr/bin/p",
          "a", "b")
_NAMES = (f"usr//lib/./{LIBRARY[8:]}", "usr/lib", "usr", "../escaped", "usr/../../escaped", "a", "b", "", ".",
          "usr/lib/\udcff\n\x1b[2J.so", "d/" * 200 + "x", "n" * 300, "n" * 5000)
# Folders that several packages may share, and what lies in them.
_SHARED = ("usr/lib/libfuzz.so.1", "usr/lib/b.so", "usr/lib/a", "usr/lib/a/libfuzz.so.1", "usr/lib/a/b.so", "usr/lib/c", "usr/lib/c/b.so",
           "usr/lib/debug", "usr/lib/debug/libfuzz.so.1", "usr/lib/debug/c/libfuzz.so.1", "lib/libfuzz.so.1", "usr/lib64")
_SHARED_TARGETS = ("libfuzz.so.1", "b.so", "a", "c", "debug", "debug/libfuzz.so.1", "debug/c", "/usr/lib/a", "/usr/lib/c/b.so",
                   "../a/b.so", "lib", "/usr/lib/debug/c", "/lib/libfuzz.so.1")
_TARGETS = (LIBRARY, "libfuzz.so.1", "usr/lib/a", "/usr/lib", "../lib64", "{canary}", "/../../{canary}", "{canary}/libfuzz.so.1", "a", "b", "",
            "debug", "../a", "debug/libfuzz.so.1", "/usr/lib/a/libfuzz.so.1", "/dev/zero", "/etc/passwd", "../" * 50 + "etc/passwd",
            "t" * 5000, "lib64", "usr/lib/libfuzz.so")
_KINDS = (tarfile.REGTYPE, tarfile.REGTYPE, tarfile.DIRTYPE, tarfile.SYMTYPE, tarfile.SYMTYPE, tarfile.LNKTYPE, tarfile.FIFOTYPE,
          tarfile.CHRTYPE, b"x", b"g", b"S", b"L", b"K", b"V", b"7", b"Z")
_WAYS: dict[str, Callable[[bytes], bytes]] = {
    "": bytes, ".gz": lambda data: gzip.compress(data, 1), ".xz": lambda data: lzma.compress(data, preset=0),
    ".zst": lambda data: zstandard.ZstdCompressor(1).compress(data), ".bz2": lambda data: bz2.compress(data, 1),
    ".lzma": lambda data: lzma.compress(data, lzma.FORMAT_ALONE, preset=0)}
_BLOCK = 512
_CHECKSUM = slice(148, 156)


class Changer:
    """Makes packages from a corpus; `canary` is a folder of this machine with a library that no package may reach."""

    def __init__(self, random: Random, corpus: Corpus, canary: str) -> None:
        self._random = random
        self._corpus = corpus
        self._canary = canary

    def package(self, library: bytes) -> tuple[str, bytes]:
        """A changed package that mostly has the library, and its suffix."""
        members = self._members(library)
        if self._random.random() < 0.3:
            listed = members if self._random.random() < 0.85 else self._members(library)
            return ".rpm", self._bytes_changed(rpm(listed, self._bytes_changed(cpio(members), 0.3)), 0.15)
        archive = tar(members)
        if self._random.random() < 0.3:
            archive = self._headers_changed(archive)
        parts = self._parts(self._bytes_changed(archive, 0.2))
        return ".deb", self._bytes_changed(deb(parts), 0.2)

    def sharing(self, library: bytes) -> list[list[Member]]:
        """The members of two packages, sound each by itself, that bring files and links in the folders of each other. Those of the first
        one have the library."""
        sides = [[Member(LIBRARY, contents=self._corpus.good)] if self._random.random() < 0.7 else [], []]
        for side in sides:
            for _ in range(self._random.choice((1, 1, 2, 3))):
                side.append(self._shared_member(library))
            self._random.shuffle(side)
        return sides

    def change_one(self, sides: list[list[Member]]) -> None:
        """Changes a member of such packages: it gets the library that breaks, or other contents or another target; or one is dropped or
        added, or goes to the other package."""
        side = self._random.choice([one for one in sides if one])
        at = self._random.randrange(len(side))
        change = self._random.random()
        files = [(one, number) for one in sides for number, member in enumerate(one) if member.kind == tarfile.REGTYPE]
        if change < 0.4 and files:
            side, at = self._random.choice(files)
            side[at] = replace(side[at], contents=self._corpus.bad)
        elif change < 0.6:
            side[at] = replace(self._shared_member(self._corpus.bad), name=side[at].name)
        elif change < 0.7:
            del side[at]
        elif change < 0.9:
            self._random.choice(sides).append(self._shared_member(self._corpus.bad))
        else:
            self._random.choice(sides).append(side.pop(at))

    def _shared_member(self, library: bytes) -> Member:
        name = self._random.choice(_SHARED)
        kind = self._random.choice((tarfile.REGTYPE, tarfile.REGTYPE, tarfile.SYMTYPE, tarfile.SYMTYPE, tarfile.LNKTYPE, tarfile.DIRTYPE))
        if kind == tarfile.REGTYPE:
            return Member(name, kind, self._random.choice((library, self._corpus.good)))
        targets = _SHARED if kind == tarfile.LNKTYPE else _SHARED_TARGETS
        return Member(name, kind, target=self._random.choice(targets) if kind != tarfile.DIRTYPE else "")

    def _members(self, library: bytes) -> list[Member]:
        members = [Member("./usr", tarfile.DIRTYPE), Member("./usr/lib", tarfile.DIRTYPE), Member(LIBRARY, contents=library)]
        for _ in range(self._random.choice((0, 1, 1, 2, 3, 6))):
            place = self._random.randrange(len(members) + 1)
            change = self._random.random()
            if change < 0.6:
                members.insert(place, self._member())
            elif change < 0.75 and len(members) > 1:
                members.pop(self._random.randrange(len(members)))
            elif change < 0.9:
                self._random.shuffle(members)
            elif members:
                members.insert(place, self._random.choice(members))
        return members

    def _member(self) -> Member:
        kind = self._random.choice(_KINDS)
        target = self._random.choice(_TARGETS).replace("{canary}", self._canary)
        contents = self._random.choice((b"", b"text", self._corpus.good, self._corpus.bad, self._corpus.good[:100], b"\x7fELF"))
        names = _NAMES if self._random.random() < 0.2 else _USUAL
        has_contents = kind not in (tarfile.DIRTYPE, tarfile.SYMTYPE, tarfile.LNKTYPE)
        return Member(self._random.choice(names), kind, contents if has_contents else b"", target)

    def _headers_changed(self, archive: bytes) -> bytes:
        """Changes bytes of headers of tar, and mends their checksums."""
        changed = bytearray(archive)
        starts = [at for at in range(0, len(changed) - _BLOCK, _BLOCK) if changed[at + 257:at + 262] == b"ustar"]
        for at in self._random.sample(starts, min(len(starts), 2)):
            place = at + self._random.choice((0, 1, 100, 124, 125, 130, 134, 135, 156, 157, 257, 263, 345, 482))
            changed[place] = self._random.choice((0, 32, 48, 49, 53, 55, 128, 255, self._random.randrange(256)))
            block = changed[at:at + _BLOCK]
            block[_CHECKSUM] = b" " * 8
            changed[at + 148:at + 156] = b"%06o\0 " % sum(block)
        return bytes(changed)

    def _parts(self, archive: bytes) -> Sequence[tuple[str, bytes]]:
        """The members of a .deb."""
        way = self._random.choice(tuple(_WAYS))
        parts = [control(), (f"data.tar{way}", self._bytes_changed(_WAYS[way](archive), 0.1))]
        change = self._random.random()
        if change < 0.05:
            parts.insert(self._random.randrange(3), (self._random.choice(("_x", "x", "data.tar", "control.tar.gz", "#1/4")), b"more"))
        elif change < 0.15:
            other = tar([Member(LIBRARY, contents=self._random.choice((self._corpus.good, self._corpus.bad)))])
            parts.insert(self._random.randrange(1, 3), (f"data.tar{way}", _WAYS[way](other)))
        elif change < 0.2:
            self._random.shuffle(parts)
        elif change < 0.25:
            parts[1] = (self._random.choice(("data.tar.zip", "data.tar/", "data.tar.gz", "Data.tar", "data.tar.xz/x")), parts[1][1])
        elif change < 0.3:
            parts[1] = (parts[1][0], parts[1][1] + parts[1][1])
        return parts

    def _bytes_changed(self, data: bytes, share: float) -> bytes:
        """Changes, drops or repeats bytes, in this share of all cases."""
        if self._random.random() >= share or not data:
            return data
        changed = bytearray(data)
        for _ in range(self._random.choice((1, 1, 2, 8))):
            at = self._random.randrange(len(changed)) if self._random.random() < 0.5 else self._random.randrange(min(len(changed), 600))
            way = self._random.random()
            if way < 0.6:
                changed[at] = self._random.randrange(256)
            elif way < 0.8:
                del changed[at:at + self._random.choice((1, 2, 60, 512, len(changed)))]
            else:
                changed[at:at] = changed[at:at + self._random.choice((1, 2, 60, 512))]
            if not changed:
                break
        return bytes(changed)

"""Compressed streams in packages, inflated in pieces: a piece at a time is in memory, and the end of the stream is checked."""

from __future__ import annotations

import bz2
import lzma
import zlib
from typing import Iterator, Union

from abi_tools.faults import Fault
from abi_tools.inflating import check_memory
from abi_tools.limits import LARGEST_INFLATED, LARGEST_WINDOW

# How many bytes are read or inflated at once.
PIECE = 1 << 17
# A block of zstd takes as few as four bytes and gives up to 128 KiB, so its input is given in small parts.
_ZSTD_PIECE = 1 << 12
# zlib's wbits for the gzip format.
_GZIP = 31
_DAMAGED = (lzma.LZMAError, zlib.error, OSError, EOFError, ValueError)
_BEHIND = "other bytes follow its compressed data"
_CUT = "its compressed data is cut short"


def inflated(packed: Iterator[bytes], way: str, file: object) -> Iterator[bytes]:
    """The bytes of a stream that is compressed in a way, one of `WAYS`. Raises a fault that names the package `file` if the stream is
    damaged, cut short, followed by other bytes, or too long."""
    count = 0
    try:
        for piece in WAYS[way](packed):
            count += len(piece)
            if count > LARGEST_INFLATED:
                raise Fault(f"{file} inflates to more than {LARGEST_INFLATED} bytes")
            if piece:
                yield piece
    except _DAMAGED as error:
        check_memory(error)
        raise Fault(f"{file} is damaged: {error}") from error


def _plain(packed: Iterator[bytes]) -> Iterator[bytes]:
    return packed


def _xz(packed: Iterator[bytes]) -> Iterator[bytes]:
    return _by(lzma.LZMADecompressor(lzma.FORMAT_XZ, memlimit=LARGEST_WINDOW), packed)


def _lzma(packed: Iterator[bytes]) -> Iterator[bytes]:
    return _by(lzma.LZMADecompressor(lzma.FORMAT_ALONE, memlimit=LARGEST_WINDOW), packed)


def _bzip2(packed: Iterator[bytes]) -> Iterator[bytes]:
    return _by(bz2.BZ2Decompressor(), packed)


def _by(machine: Union[lzma.LZMADecompressor, bz2.BZ2Decompressor], packed: Iterator[bytes]) -> Iterator[bytes]:
    """Inflates by a decompressor of the standard library."""
    for piece in packed:
        if machine.eof:
            raise ValueError(_BEHIND)
        yield machine.decompress(piece, PIECE)
        while not machine.eof and not machine.needs_input:
            yield machine.decompress(b"", PIECE)
        if machine.unused_data:
            raise ValueError(_BEHIND)
    if not machine.eof:
        raise ValueError(_CUT)


def _gzip(packed: Iterator[bytes]) -> Iterator[bytes]:
    machine = zlib.decompressobj(_GZIP)
    for piece in packed:
        if machine.eof:
            raise ValueError(_BEHIND)
        plain = machine.decompress(piece, PIECE)
        yield plain
        while machine.unconsumed_tail or len(plain) == PIECE:
            plain = machine.decompress(machine.unconsumed_tail, PIECE)
            yield plain
        if machine.unused_data:
            raise ValueError(_BEHIND)
    if not machine.eof:
        raise ValueError(_CUT)


def _zstd(packed: Iterator[bytes]) -> Iterator[bytes]:
    """Inflates zstd, of which several frames may follow each other."""
    # Imported here, since only some packages need it.
    import zstandard

    machine = None
    try:
        for part in _parts(packed):
            while part:
                if machine is None:
                    machine = zstandard.ZstdDecompressor(max_window_size=LARGEST_WINDOW).decompressobj()
                yield machine.decompress(part)
                part = machine.unused_data
                machine = None if machine.eof else machine
    except zstandard.ZstdError as error:
        raise ValueError(str(error)) from error
    if machine is not None:
        raise ValueError(_CUT)


def _parts(packed: Iterator[bytes]) -> Iterator[bytes]:
    """The same bytes in smaller parts."""
    for piece in packed:
        for at in range(0, len(piece), _ZSTD_PIECE):
            yield piece[at:at + _ZSTD_PIECE]


# The ways of compression, by the suffixes that the archives of a .deb have.
WAYS = {"": _plain, ".gz": _gzip, ".xz": _xz, ".lzma": _lzma, ".bz2": _bzip2, ".zst": _zstd}

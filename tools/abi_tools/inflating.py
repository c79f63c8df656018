"""Compressed sections: those of the gABI ("Section Compression", zlib and zstd), and those of older tools (`.zdebug_`)."""

from __future__ import annotations

import struct
import zlib

from abi_tools.faults import Fault
from abi_tools.limits import LARGEST_FILE

SHF_COMPRESSED = 0x800
# Elf64_Chdr: ch_type, ch_reserved, ch_size, ch_addralign.
_COMPRESSION_HEADER = struct.Struct("<IIQQ")
_ZLIB = 1
_ZSTD = 2
# A `.zdebug_` section begins with these bytes, followed by its size in big endian.
_OLD_MAGIC = b"ZLIB"
_OLD_HEADER = struct.Struct(">4sQ")
_NO_MEMORY_OF_ZLIB = "Error -4 "
_NO_MEMORY_OF_ZSTD = "Allocation error"


def inflate(contents: bytes, where: str) -> bytes:
    """The contents of a section with the flag SHF_COMPRESSED, inflated. Raises a fault, which names `where`, if they are damaged or
    compressed by neither zlib nor zstd."""
    if len(contents) < _COMPRESSION_HEADER.size:
        raise Fault(f"{where} is cut short inside its compression header")
    kind, _, size, _ = _COMPRESSION_HEADER.unpack_from(contents)
    return _inflated(kind, contents[_COMPRESSION_HEADER.size:], size, where)


def inflate_old(contents: bytes, where: str) -> bytes:
    """The contents of a section whose name begins with `.zdebug_`, inflated. Raises a fault if they are damaged."""
    if len(contents) < _OLD_HEADER.size or not contents.startswith(_OLD_MAGIC):
        raise Fault(f"{where} does not begin as a compressed section does")
    _, size = _OLD_HEADER.unpack_from(contents)
    return _inflated(_ZLIB, contents[_OLD_HEADER.size:], size, where)


def _inflated(kind: int, packed: bytes, size: int, where: str) -> bytes:
    if size > LARGEST_FILE:
        raise Fault(f"{where} says that it has {size} bytes once it is inflated, which is too much")
    if kind == _ZLIB:
        plain = _inflated_zlib(packed, size, where)
    elif kind == _ZSTD:
        plain = _inflated_zstd(packed, size, where)
    else:
        raise Fault(f"{where} is compressed in a way that is neither zlib nor zstd (type {kind})")
    if len(plain) != size:
        raise Fault(f"{where} does not have the {size} bytes that it says once it is inflated")
    return plain


def check_memory(error: Exception) -> None:
    """Raises MemoryError if that is why a decompressor failed: zlib (Z_MEM_ERROR) and zstd raise their own errors, those of damaged bytes."""
    if str(error).startswith(_NO_MEMORY_OF_ZLIB) or _NO_MEMORY_OF_ZSTD in str(error):
        raise MemoryError from error


def _inflated_zlib(packed: bytes, size: int, where: str) -> bytes:
    try:
        return zlib.decompressobj().decompress(packed, size + 1)
    except zlib.error as error:
        check_memory(error)
        raise Fault(f"{where} cannot be inflated: {error}") from error


def _inflated_zstd(packed: bytes, size: int, where: str) -> bytes:
    # Imported here, since only sections compressed by zstd need it.
    import zstandard

    try:
        return bytes(zstandard.ZstdDecompressor().stream_reader(packed).read(size + 1))
    except zstandard.ZstdError as error:
        check_memory(error)
        raise Fault(f"{where} cannot be inflated: {error}") from error

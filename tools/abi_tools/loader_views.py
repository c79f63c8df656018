"""What the program loader reads of an ELF file: its segments and the dynamic section in them. Sections play no part."""

from __future__ import annotations

import os
import struct
from dataclasses import dataclass
from pathlib import Path
from typing import Iterator, Optional

from abi_tools.elf_files import EM_X86_64, ET_DYN, SYMBOL_SIZE
from abi_tools.faults import Fault

# e_ident (gABI, "ELF Identification"): the magic bytes, the class of 64 bits and the order of little endian.
_IDENTITY = b"\x7fELF\x02\x01"
_ORDER_AT, _LITTLE_ENDIAN = 5, 1
# EI_OSABI: ELFOSABI_NONE and ELFOSABI_GNU. The loader of glibc takes no others, and zeros after them.
_IDENTITY_SIZE, _SYSTEM, _SYSTEMS = 16, 7, (0, 3)
# The fields of the header from e_type to e_phnum, and of a program header.
_HEADER = struct.Struct("<16xHHIQQQIHHH")
_HEADER_SIZE = 64
_SEGMENT = struct.Struct("<IIQQQQQQ")
_PT_LOAD, _PT_DYNAMIC, _PT_INTERP = 1, 2, 3
# The escape value for the number of program headers; no loadable file has as many.
_PN_XNUM = 0xFFFF
_DYNAMIC_ENTRY = struct.Struct("<qQ")
_DT_NULL, _DT_HASH, _DT_STRTAB, _DT_SYMTAB, _DT_STRSZ, _DT_SONAME = 0, 4, 5, 6, 10, 14
_DT_GNU_HASH, _DT_VERSYM, _DT_VERDEF = 0x6FFFFEF5, 0x6FFFFFF0, 0x6FFFFFFC
# The tables that exports rest on: symbols, their names, their versions, and the definitions of these.
_TABLES = (_DT_SYMTAB, _DT_STRTAB, _DT_VERSYM, _DT_VERDEF)
# The header of a GNU hash table: the numbers of buckets, of the first symbol in it, and of the words of the filter, of eight bytes each.
_HASH = struct.Struct("<III4x")
_MOST_ENTRIES = 1 << 16
_LONGEST_SONAME = 4096


@dataclass(frozen=True)
class Header:
    """The beginning of an ELF file: whether it is of x86-64 with 64 bits, and whether its type is ET_DYN."""

    is_x86_64: bool
    is_dynamic: bool


# Where tables begin in a file: symbols, their names, their versions, and the definitions of these; None for a table that is not there.
Tables = tuple[Optional[int], ...]


@dataclass(frozen=True)
class LoaderView:
    """What the loader sees: the soname, if there is one, whether there are dynamic symbols, whether the file asks for a program loader,
    as programs do, where the tables of symbols begin, and how many symbols the hash table leads to."""

    soname: Optional[str]
    has_symbols: bool
    is_program: bool
    tables: Tables = ()
    hashed: int = 0


def header_of(path: Path) -> Optional[Header]:
    """The header of a file; None if it is cut short."""
    with path.open("rb") as stream:
        start = stream.read(_HEADER_SIZE)
    if len(start) < _HEADER_SIZE:
        return None
    order = "little" if start[_ORDER_AT] == _LITTLE_ENDIAN else "big"
    kind, machine = (int.from_bytes(start[at:at + 2], "little" if order == "little" else "big") for at in (16, 18))
    return Header(start.startswith(_IDENTITY) and machine == EM_X86_64, kind == ET_DYN)


def loader_view(path: Path) -> LoaderView:
    """What the loader sees of a shared object for x86-64. Raises a fault if its segments are damaged."""
    with path.open("rb", buffering=0) as stream:
        return _Reader(stream.fileno()).view()


def _numbers(data: bytes) -> Iterator[int]:
    """The numbers of four bytes each."""
    return (number for (number,) in struct.iter_unpack("<I", data))


class _Reader:
    """Reads a file by its segments."""

    def __init__(self, file: int) -> None:
        self._file = file
        self._size = os.fstat(file).st_size
        self._loaded: list[tuple[int, int, int]] = []

    def view(self) -> LoaderView:
        """What the loader sees."""
        identity = self._bytes(0, _IDENTITY_SIZE)
        if identity[_SYSTEM] not in _SYSTEMS or any(identity[_SYSTEM + 1:]):
            raise Fault("its header names a system that the loader refuses")
        fields = _HEADER.unpack(self._bytes(0, _HEADER.size))
        at, size, count = fields[4], fields[8], fields[9]
        if size != _SEGMENT.size or count == _PN_XNUM:
            raise Fault("its program headers are damaged")
        segments = list(_SEGMENT.iter_unpack(self._bytes(at, size * count)))
        self._loaded = [(one[3], one[5], one[2]) for one in segments if one[0] == _PT_LOAD]
        if any(offset + size > self._size for _, size, offset in self._loaded):
            raise Fault("it is cut short: a segment extends past its end")
        dynamic = [(one[3], one[2], one[5]) for one in segments if one[0] == _PT_DYNAMIC]
        # The loader takes the last one, by its address; other programs take the first one, by its offset.
        if len(dynamic) > 1 or any(size > 0 and self._place(address) != at for address, at, size in dynamic):
            raise Fault("its segments name two dynamic sections")
        table = self._dynamic(dynamic[0][1], dynamic[0][2]) if dynamic else {}
        is_program = any(one[0] == _PT_INTERP for one in segments)
        tables = tuple(self._place(table[tag]) if tag in table else None for tag in _TABLES)
        return LoaderView(self._soname(table), _DT_SYMTAB in table, is_program, tables, max(self._chained(table), self._hashed(table)))

    def _chained(self, table: dict[int, int]) -> int:
        """How many symbols there are by the hash table of the gABI: it has a chain for each, and says so in its second number."""
        if _DT_HASH not in table:
            return 0
        _, chains = _numbers(self._bytes(self._place(table[_DT_HASH]), 8))
        return chains

    def _hashed(self, table: dict[int, int]) -> int:
        """How many symbols there are at least, by the GNU hash table: the last bucket's symbols end with an odd hash."""
        if _DT_GNU_HASH not in table:
            return 0
        at = self._place(table[_DT_GNU_HASH])
        buckets, first, words = _HASH.unpack(self._bytes(at, _HASH.size))
        at += _HASH.size + 8 * words
        last = max(_numbers(self._bytes(at, 4 * buckets)), default=0)
        if last < first:
            return 0
        at += 4 * (buckets + last - first)
        while not next(_numbers(self._bytes(at, 4))) & 1:
            last, at = last + 1, at + 4
            if last > self._size // SYMBOL_SIZE:
                raise Fault("its hash table is damaged")
        return last + 1

    def _dynamic(self, at: int, size: int) -> dict[int, int]:
        """The entries of the dynamic section: of each tag the last value, as the loader of glibc takes it."""
        if size > _MOST_ENTRIES * _DYNAMIC_ENTRY.size:
            raise Fault("its dynamic section is damaged")
        table: dict[int, int] = {}
        for tag, value in _DYNAMIC_ENTRY.iter_unpack(self._bytes(at, size - size % _DYNAMIC_ENTRY.size)):
            if tag == _DT_NULL:
                break
            table[tag] = value
        return table

    def _soname(self, table: dict[int, int]) -> Optional[str]:
        if _DT_SONAME not in table:
            return None
        if _DT_STRTAB not in table or table[_DT_SONAME] >= table.get(_DT_STRSZ, 0):
            raise Fault("its soname lies outside of its strings")
        at = self._place(table[_DT_STRTAB]) + table[_DT_SONAME]
        text, end, _ = self._bytes(at, min(_LONGEST_SONAME, self._size - at)).partition(b"\0")
        if not end:
            raise Fault(f"its soname does not end within {_LONGEST_SONAME} bytes")
        return text.decode("utf-8", "surrogateescape")

    def _place(self, address: int) -> int:
        """Where the byte at an address lies in the file."""
        places = {address - start + offset for start, size, offset in self._loaded if start <= address < start + size}
        if len(places) != 1:
            raise Fault("a table of its dynamic section lies outside of its segments, or in two of them")
        return places.pop()

    def _bytes(self, at: int, size: int) -> bytes:
        if size < 0 or at + size > self._size:
            raise Fault("it is cut short, or damaged in its segments")
        return os.pread(self._file, size, at)

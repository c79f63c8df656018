"""The members of the archives in packages, as libarchive reads them. Nothing is placed on the disk, and no name is opened."""

from __future__ import annotations

import ctypes
import enum
import errno
import logging
import stat
from typing import Callable, Iterator, NamedTuple, Optional

from libarchive import ffi
from libarchive.exception import ArchiveError

from abi_tools.faults import Fault
from abi_tools.shown import name_shown

# libarchive's Python binding would print warnings of its own; each of them is a fault here.
logging.getLogger("libarchive").addHandler(logging.NullHandler())
logging.getLogger("libarchive").propagate = False

_PIECE = 1 << 16
_END: int = ffi.ARCHIVE_EOF
_FORMAT_PAX = (0x30002, 0x30003)
_format = ffi.libarchive.archive_format
_format.argtypes = [ctypes.c_void_p]
_sparse_parts = ffi.libarchive.archive_entry_sparse_reset
_sparse_parts.argtypes = [ctypes.c_void_p]
_header_position = ffi.libarchive.archive_read_header_position
_header_position.argtypes = [ctypes.c_void_p]
_header_position.restype = ctypes.c_int64
# A block of tar, the fields of a header (the size, the type, and the magic bytes with the version), and the magic bytes that dpkg, tar
# and libarchive read in one way: POSIX, GNU, and version 7. For others they differ on whether a name has a prefix.
_BLOCK = 512
_SIZE, _TYPE, _MAGIC = slice(124, 136), slice(156, 157), slice(257, 265)
_MAGICS = (b"ustar\00000", b"ustar  \0", bytes(8))
_LONG_NAMES = (b"L", b"K")
# How much of what was read last is kept: a header with long names.
_WINDOW = 1 << 16
_name_in_utf_8 = ffi.libarchive.archive_entry_pathname_utf8
_name_in_utf_8.argtypes = [ctypes.c_void_p]
_name_in_utf_8.restype = ctypes.c_char_p


class Kind(enum.Enum):
    """What a member of an archive is."""

    FILE = enum.auto()
    FOLDER = enum.auto()
    LINK = enum.auto()
    HARD_LINK = enum.auto()
    OTHER = enum.auto()


class Member(NamedTuple):
    """A member: its name, its kind, the size of its contents, and the target of a link. Bytes of names that are no UTF-8 are surrogates
    (PEP 383)."""

    name: str
    kind: Kind
    size: int
    target: str


class Archive:
    """An archive, `tar` or `cpio`, whose bytes come in pieces. `file` is the package that faults name."""

    def __init__(self, pieces: Iterator[bytes], form: str, file: object) -> None:
        self._pieces = pieces
        self._form = form
        self.file = file
        self._failed: Optional[BaseException] = None
        self._piece = b""
        self._window = b""
        self._read = 0
        self._buffer = ctypes.create_string_buffer(_PIECE)
        self._archive: Optional[int] = None

    def members(self) -> Iterator[Member]:
        """The members in order; `read` reads the contents of the last one. Raises a fault if the archive is damaged, or has what dpkg
        refuses: headers of pax, and sparse files. At the end all pieces were read, so that their decompressor has checked them."""
        archive, entry = ffi.read_new(), ffi.entry_new()
        # ctypes keeps no reference to a function that C calls.
        calls = ffi.OPEN_CALLBACK(_nothing), ffi.READ_CALLBACK(self._next_piece), ffi.CLOSE_CALLBACK(_nothing)
        try:
            self._archive = archive
            self._checked(_reading(self._form), archive)
            self._checked(ffi.read_open, archive, None, *calls)
            while self._is_next(archive, entry):
                yield self._member(archive, entry)
            for _ in self._pieces:
                pass
        finally:
            self._archive = None
            ffi.entry_free(entry)
            ffi.read_free(archive)

    def read(self, size: int) -> bytes:
        """The next bytes of the contents of the member, at most `size`; fewer at its end."""
        parts = []
        while size > 0:
            count = self._checked(ffi.read_data, self._archive, self._buffer, min(size, _PIECE))
            if not count:
                break
            parts.append(self._buffer.raw[:count])
            size -= count
        return b"".join(parts)

    def _next_piece(self, _archive: int, _context: int, place: int) -> int:
        """Hands the next piece to libarchive. An exception must not leave this function, since C calls it."""
        try:
            self._piece = next(self._pieces, b"")
        except BaseException as error:  # pylint: disable=broad-except
            self._failed = error
            return -1
        if self._form == "tar":
            self._window = self._window[-_WINDOW:] + self._piece
            self._read += len(self._piece)
        ctypes.cast(place, ctypes.POINTER(ctypes.c_char_p))[0] = self._piece
        return len(self._piece)

    def _is_next(self, archive: int, entry: int) -> bool:
        """Whether there is another member, whose header is read. A header of pax is refused for what it is: libarchive converts its name
        from UTF-8 to the locale of this process, and warns where it cannot. All other names stay bytes."""
        try:
            return self._checked(ffi.read_next_header2, archive, entry) != _END
        except Fault:
            self._refuse_pax(archive, entry)
            raise

    def _refuse_pax(self, archive: int, entry: int) -> None:
        if _format(archive) in _FORMAT_PAX or _sparse_parts(entry) > 0:
            name = _name_in_utf_8(entry) or ffi.entry_pathname(entry)
            raise Fault(f"{self.file} has a header of pax or a sparse file, which dpkg refuses: {_text(name)}")

    def _refuse_odd_headers(self, archive: int) -> None:
        """Raises a fault if a header of tar is one that dpkg and libarchive read in different ways."""
        at = _header_position(archive) - (self._read - len(self._window))
        kind = _LONG_NAMES[0]
        while kind in _LONG_NAMES:
            header = self._window[at:at + _BLOCK] if at >= 0 else b""
            digits = header[_SIZE].strip(b" \0")
            if header[_MAGIC] not in _MAGICS or not digits.isdigit() and header[_TYPE] in _LONG_NAMES:
                raise Fault(f"{self.file} has a header of tar that dpkg would read in another way")
            kind = header[_TYPE]
            at += _BLOCK + (-(-int(digits, 8) // _BLOCK) * _BLOCK if kind in _LONG_NAMES else 0)

    def _checked(self, function: object, *arguments: object) -> int:
        """What a function of libarchive returns. Raises a fault for an error and for a warning."""
        try:
            result: int = function(*arguments)  # type: ignore[operator]
        except ArchiveError as error:
            if self._failed is not None:
                raise self._failed from error
            if error.errno == errno.ENOMEM:
                raise MemoryError from error
            raise Fault(f"{self.file} is damaged: {error.msg or 'it is no archive'}") from error
        if result < 0:
            raise Fault(f"{self.file} is damaged: {_text(ffi.error_string(arguments[0]))}")
        return result

    def _member(self, archive: int, entry: int) -> Member:
        self._refuse_pax(archive, entry)
        if self._form == "tar":
            self._refuse_odd_headers(archive)
        hard, soft = ffi.entry_hardlink(entry), ffi.entry_symlink(entry)
        if hard is not None:
            kind = Kind.HARD_LINK
        else:
            kind = KINDS.get(stat.S_IFMT(ffi.entry_filetype(entry)), Kind.OTHER)
        member = Member(_text(ffi.entry_pathname(entry)), kind, ffi.entry_size(entry), _text(soft if hard is None else hard))
        # dpkg ends at a member without a name, takes a file whose name ends in a slash as a folder, and reads what follows a hard link
        # as a header.
        is_odd = not member.name or kind is Kind.FILE and member.name.endswith("/") or kind is Kind.HARD_LINK and member.size > 0
        if self._form == "tar" and is_odd:
            raise Fault(f"{self.file} has a member that dpkg would read in another way: {name_shown(member.name)}")
        return member


def _nothing(*_: object) -> int:
    """What libarchive calls to open and to close, where there is nothing to do."""
    return int(ffi.ARCHIVE_OK)


def _reading(form: str) -> Callable[[int], int]:
    """The function of libarchive that lets it read a form of archives. Only some versions of the binding have it."""
    function: Callable[[int], int] = getattr(ffi.libarchive, f"archive_read_support_format_{form}")
    function.argtypes, function.restype = [ctypes.c_void_p], ctypes.c_int  # type: ignore[attr-defined]
    return function


# The kinds of members by the bits of their modes.
KINDS = {stat.S_IFREG: Kind.FILE, stat.S_IFDIR: Kind.FOLDER, stat.S_IFLNK: Kind.LINK}


def _text(name: Optional[bytes]) -> str:
    return (name or b"").decode("utf-8", "surrogateescape")

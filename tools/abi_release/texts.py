"""Texts of packages as they are printed: what could drive a terminal, forge a line or turn the direction of text is escaped."""

from __future__ import annotations

import contextlib
import os
import sys
import unicodedata
from typing import Iterator

# Control characters, and those that change how others are shown: the directions of text, joiners, private and unpaired ones, and the
# separators of lines.
_HIDDEN = ("Cc", "Cf", "Cs", "Co", "Cn", "Zl", "Zp")
_BACKSLASH = "\\"


def shown(text: object) -> str:
    """A text without characters that a terminal or a browser obeys: each is written as `\\x1b` or `\\u202e`, and a backslash as
    `\\x5c`. Bytes that are no UTF-8 are written as `\\xff`."""
    plain = str(text)
    return plain if plain.isascii() and plain.isprintable() and _BACKSLASH not in plain else "".join(map(_shown, plain))


def _shown(character: str) -> str:
    code = ord(character)
    if 0xDC80 <= code <= 0xDCFF:
        return f"\\x{code - 0xDC00:02x}"
    if character == _BACKSLASH or unicodedata.category(character) in _HIDDEN:
        return f"\\x{code:02x}" if code < 0x100 else f"\\u{code:04x}" if code < 0x10000 else f"\\U{code:08x}"
    return character


@contextlib.contextmanager
def whole_output() -> Iterator[None]:
    """A context at whose end all is written that was printed. Raises OSError if it cannot be: Python would write it at the end of the
    program, and end that with a status of its own if this fails."""
    try:
        yield
    finally:
        try:
            sys.stdout.flush()
        except OSError:
            with open(os.devnull, "wb") as nowhere:
                os.dup2(nowhere.fileno(), sys.stdout.fileno())
            raise

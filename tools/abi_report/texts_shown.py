"""How text from libraries is shown."""

from __future__ import annotations

import posixpath


def shown(data: bytes) -> str:
    """Bytes as text: printable characters as they are, and other bytes as `\\x` and two digits."""
    text = data.decode("utf-8", "backslashreplace")
    return text if text.isprintable() else "".join(one if one.isprintable() else f"\\x{ord(one):02x}" for one in text)


def line_shown(text: str) -> str:
    """A text in one line: a character that moves the cursor, turns the direction of the line or is no UTF-8 as `\\x` and two digits for
    each of its bytes, and each other one as it is."""
    return text if text.isprintable() else "".join(map(_character_shown, text))


def _character_shown(character: str) -> str:
    if character.isprintable():
        return character
    return "".join(f"\\x{byte:02x}" for byte in character.encode("utf-8", "surrogateescape"))


def path_shown(path: str) -> str:
    """A path of a source in its shortest spelling, so that `./nptl/../nptl/descr.h` and `nptl/descr.h` are one file to the reader."""
    return posixpath.normpath(path) if path else path


def counted(count: int, thing: str, things: str = "") -> str:
    """A number with its noun, in the singular or the plural."""
    return f"{count:,} {thing if count == 1 else things or thing + 's'}"

"""How the tools print names and sentences that files bring: nothing of them can begin a line or drive a terminal."""

from __future__ import annotations

# The bytes of a name that are printed as they are: those of printable ASCII but the blank and the backslash.
_FIRST, _LAST, _BACKSLASH = 0x21, 0x7E, 0x5C


def name_shown(name: str) -> str:
    """A name of a file or a library, byte by byte as `abi` prints labels: a byte that is no printable ASCII, a blank and a backslash as
    `\\x` and two hexadecimal digits."""
    return "".join(chr(byte) if _FIRST <= byte <= _LAST and byte != _BACKSLASH else f"\\x{byte:02x}"
                   for byte in name.encode("utf-8", "surrogateescape"))


def line_shown(text: str) -> str:
    """A text in one line: each printable character as it is, and each byte of any other one as `\\x` and two hexadecimal digits. Not
    printable are control and format characters (those that turn a line among them), separators but the blank, characters for private
    use or of no meaning, and bytes that are no UTF-8."""
    return text if text.isprintable() else "".join(map(_character_shown, text))


def lines_shown(text: str) -> str:
    """A text of several lines, each as `line_shown` gives it."""
    return "".join(f"{line_shown(line)}\n" for line in text.split("\n")[:-1]) + line_shown(text.split("\n")[-1])


def _character_shown(character: str) -> str:
    if character.isprintable():
        return character
    return "".join(f"\\x{byte:02x}" for byte in character.encode("utf-8", "surrogateescape"))

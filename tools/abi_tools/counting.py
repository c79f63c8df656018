"""Counts in words."""

from __future__ import annotations


def counted(count: int, thing: str, things: str = "") -> str:
    """A count with its noun: `1 export`, `2 exports`. `things` is the plural if it is not `thing` with an s."""
    return f"{count} {thing if count == 1 else things or thing + 's'}"

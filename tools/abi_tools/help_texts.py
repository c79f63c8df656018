"""How the tools print their help: filled to the width of the terminal, or to the one that the variable COLUMNS gives."""

from __future__ import annotations

import argparse
import re
import textwrap
from typing import Any, Iterable, Iterator

# A line of a list: its first word, which stands alone, and what is said of it.
_ENTRY = re.compile(r"( {2}\S+ +)(.*)")
# A part of a usage that stays together, such as [--rules FILE].
_PART = re.compile(r"\[.*?\][.]*|\S+")
# What keeps the words of a part together; it is in no usage.
_KEPT_BLANK = "\N{NO-BREAK SPACE}"


class HelpText(argparse.HelpFormatter):
    """Fills paragraphs and lists. A line that ends in a colon is a heading, and a line that begins with two blanks begins an entry."""

    def _fill_text(self, text: str, width: int, indent: str) -> str:
        lines = (line for block in _blocks(text.splitlines()) for line in _filled(block, width) or [""])
        return "\n".join(f"{indent}{line}" if line else "" for line in lines)

    def _format_usage(self, usage: Any, actions: Any, groups: Any, prefix: Any) -> str:
        """A usage that the tool gives itself is filled like those that argparse makes."""
        if usage is None:
            return super()._format_usage(usage, actions, groups, prefix)
        start = "usage: " if prefix is None else str(prefix)
        kept = " ".join(part.replace(" ", _KEPT_BLANK) for part in _PART.findall(str(usage)))
        behind = " " * len(f"{start}{self._prog} ")
        lines = _wrapped(kept, self._width, start, behind)
        return "\n".join(lines).replace(_KEPT_BLANK, " ") + "\n\n"

    def _split_lines(self, text: str, width: int) -> list[str]:
        """Names such as abi-json stay whole."""
        return _wrapped(" ".join(text.split()), width)


def _blocks(lines: Iterable[str]) -> Iterator[list[str]]:
    """The lines of each paragraph, heading and entry."""
    block: list[str] = []
    for line in lines:
        begins = not line.strip() or not block or _ENTRY.fullmatch(line) is not None or block[-1].endswith(":") or line.endswith(":")
        if begins and block:
            yield block
            block = []
        if line.strip():
            block.append(line)
        else:
            yield []
    if block:
        yield block


def _filled(block: list[str], width: int) -> list[str]:
    """A paragraph, or an entry whose further lines stand below the text of the first."""
    entry = _ENTRY.fullmatch(block[0]) if block else None
    first, words = (entry[1], [entry[2], *block[1:]]) if entry is not None else ("", block)
    return _wrapped(" ".join(word.strip() for word in words), width, first, " " * len(first))


def _wrapped(text: str, width: int, first: str = "", others: str = "") -> list[str]:
    return textwrap.wrap(text, width, initial_indent=first, subsequent_indent=others, break_long_words=False, break_on_hyphens=False)

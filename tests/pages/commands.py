"""The commands that a page shows, each with the output that the page shows below it."""

from __future__ import annotations

import re
from dataclasses import dataclass
from pathlib import Path

_FENCE = re.compile(r"^```(\w*)$")
_DIGEST = re.compile(r"\b[0-9a-f]{8}\.\.$")


@dataclass(frozen=True)
class Command:
    """A command, the number of its first line, the number of the first line after its output, and the output that the page shows."""

    line: int
    end: int
    text: str
    shown: tuple[str, ...]

    def agrees(self, printed: list[str]) -> bool:
        """Whether the command printed what the page shows. A line `..` stands for any lines, and eight digits followed by `..` for a
        digest."""
        pattern = "".join(_line_pattern(line) for line in self.shown)
        return re.fullmatch(pattern, "".join(line + "\n" for line in printed), re.DOTALL) is not None


def _line_pattern(line: str) -> str:
    """A regular expression for a line that a page shows."""
    if line == "..":
        return r"(?:[^\n]*\n)*?"
    digest = _DIGEST.search(line)
    if digest:
        return re.escape(line[: digest.start()]) + r"[0-9a-f]{64}\n"
    return re.escape(line) + r"\n"


def commands_of(page: Path) -> list[Command]:
    """The commands of all ```console blocks of a page, in order."""
    lines = page.read_text(encoding="utf-8").split("\n")
    found: list[Command] = []
    language = None
    number = 0
    while number < len(lines):
        fence = _FENCE.match(lines[number])
        if fence:
            language = fence.group(1) if language is None else None
        elif language is not None and lines[number].startswith("$ "):
            if language != "console":
                raise ValueError(f"{page}:{number + 1}: a command stands outside of a block ```console")
            command = _command_at(lines, number)
            found.append(command)
            number = command.end - 1
        number += 1
    if not found:
        raise ValueError(f"{page} has no commands")
    return found


def _command_at(lines: list[str], start: int) -> Command:
    """The command that begins at a line. One that ends with a backslash goes on in the next line."""
    text = lines[start][2:]
    number = start + 1
    while text.endswith("\\"):
        text += "\n" + lines[number]
        number += 1
    shown = []
    while not lines[number].startswith("$ ") and not _FENCE.match(lines[number]):
        shown.append(lines[number])
        number += 1
    return Command(start + 1, number, text, tuple(shown))

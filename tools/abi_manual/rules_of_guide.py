"""The rules, and what to do about each, as the guide has them in a table."""

from __future__ import annotations

import re
from dataclasses import dataclass
from pathlib import Path
from typing import Iterator

GUIDE = Path(__file__).resolve().parents[2] / "docs/GUIDE.md"
_ROW = re.compile(r"\| ([XL]\d+) \| (.*) \| (.*) \| (.*) \|")
# [text](address)
_LINK = re.compile(r"\[([^]]*)\]\([^)]*\)")


@dataclass(frozen=True)
class Rule:
    """A rule: its word, what is broken, what happens to a caller, and what to do."""

    word: str
    broken: str
    caller: str
    remedy: str

    @property
    def text(self) -> str:
        """What the page says of it."""
        return f"An old caller {self.caller}. {self.remedy[0].upper()}{self.remedy[1:]}."


def rules() -> Iterator[Rule]:
    """The rules, in the order of the table."""
    for line in GUIDE.read_text(encoding="utf-8").splitlines():
        row = _ROW.fullmatch(line)
        if row is not None:
            yield Rule(row[1], *(_LINK.sub(r"\1", cell) for cell in row.groups()[1:]))

"""The pages of the repository, and their sections, tables and anchors."""

from __future__ import annotations

import re
from dataclasses import dataclass
from functools import cache
from pathlib import Path

ROOT = Path(__file__).resolve().parents[2]
DOCS = ROOT / "docs"
# What is made, or kept, and not part of the repository.
_MADE = {".git", "made", "out"}


@dataclass(frozen=True)
class Section:
    """A section of a page: its heading, how deep it is, its anchor, and its text without blocks of code and without sections below it."""

    page: Path
    title: str
    depth: int
    anchor: str
    text: str


def pages() -> list[Path]:
    """The pages of the repository."""
    return sorted(page for page in ROOT.rglob("*.md") if not _MADE & set(page.relative_to(ROOT).parts))


def prose(page: Path) -> str:
    """The text of a page without its blocks of code."""
    return re.sub(r"^( *)```.*?^\1```", "", page.read_text(encoding="utf-8"), flags=re.MULTILINE | re.DOTALL)


def anchor_of(heading: str) -> str:
    """The anchor of a heading, as GitHub makes it for the first of its name."""
    text = re.sub(r"\[([^]]*)\]\([^)]*\)", r"\1", heading.strip())
    return re.sub(r"[^\w\- ]", "", text.lower()).replace(" ", "-")


@cache
def sections(page: Path) -> tuple[Section, ...]:
    """The sections of a page in order, each with an anchor as GitHub makes it. The first one is the page's title."""
    found = list[Section]()
    for part in re.split(r"^(?=#+ )", prose(page), flags=re.MULTILINE):
        heading = re.match(r"(#+) +(.*?) *$", part, re.MULTILINE)
        if heading:
            first = anchor_of(heading[2])
            same = sum(anchor_of(section.title) == first for section in found)
            anchor = f"{first}-{same}" if same else first
            found.append(Section(page, heading[2], len(heading[1]), anchor, part[heading.end():]))
    return tuple(found)


def anchors(page: Path) -> frozenset[str]:
    """The anchors of the headings of a page."""
    return frozenset(section.anchor for section in sections(page))


def tables(text: str) -> list[list[list[str]]]:
    """The tables of a text: rows of cells, the head first."""
    found = list[list[list[str]]]()
    for block in re.findall(r"(?:^\|.*\n?)+", text, re.MULTILINE):
        lines = [line for line in block.splitlines() if not re.fullmatch(r"[|\-: ]+", line) or "---" not in line]
        found.append([[cell.strip() for cell in re.split(r" \| |^\| ?| ?\|$", line)[1:-1]] for line in lines])
    return found

"""Links of docs/INDEX.md to sections of the other pages."""

from __future__ import annotations

import os
import re
from pathlib import Path
from typing import Iterable

from .markdown import DOCS, Section, sections

EVIDENCE = sorted((DOCS / "evidence").glob("*.md"))


def name_of(page: Path) -> str:
    """The name by which links call a page."""
    return "evidence" if page == DOCS / "evidence" / "README.md" else f"evidence/{page.stem}" if page in EVIDENCE else page.stem


def path_of(section: Section) -> str:
    """The path of a section from docs/INDEX.md, with its anchor unless it is the whole page."""
    return os.path.relpath(section.page, DOCS) + (f"#{section.anchor}" if section.depth > 1 else "")


def link(section: Section) -> str:
    """A link to a section, by its page and its heading."""
    if section.depth == 1:
        return f"[{name_of(section.page)}]({path_of(section)})"
    return f"[{name_of(section.page)}: {without_links(section.title)}]({path_of(section)})"


def short(section: Section) -> str:
    """A link to a section by its heading alone, where the words before it say which page it is."""
    return link(section).replace(f"[{name_of(section.page)}: ", "[", 1)


def without_links(text: str) -> str:
    """A text with the words of its links alone."""
    return re.sub(r"\[([^]]*)\]\([^)]*\)", r"\1", text)


def found(page: Path, heading: str) -> Section:
    """The section of a page with this heading, which must be there, or the page if there is none."""
    (section,) = [section for section in sections(page) if (section.title == heading if heading else section.depth == 1)]
    return section


def at(page: Path, heading: str) -> str:
    """A link to the section of a page with this heading, or to the page."""
    return link(found(page, heading))


def short_at(page: Path, heading: str) -> str:
    """The same without the name of the page."""
    return short(found(page, heading))


def all_at(places: Iterable[tuple[Path, str]]) -> str:
    """Links to sections, each of a page and with a heading."""
    return ", ".join(at(page, heading) for page, heading in places)

"""Whether each link of a page leads somewhere, each path that a page names is there, each section of a long page is in its contents, and
docs/INDEX.md is what the pages and the sources say: tests/links.sh says how it is called.

A relative link leads to a file or a folder, and what stands behind its `#` is a heading of that page. A path in backticks that begins with a
folder of this repository leads to a file or a folder too, unless it has a word in capitals in place of a name, or a star.
"""

from __future__ import annotations

import difflib
import re
import sys
from pathlib import Path
from typing import Iterator

from .index import INDEX, made_index
from .markdown import ROOT, anchor_of, anchors, pages, prose

FOLDERS = ("bench", "crates", "docs", "edits", "examples", "share", "tests", "tools")
# A page with so many sections begins with its contents.
MANY = 7


def faults_of_links(page: Path) -> Iterator[tuple[str, str | None]]:
    """Each relative link of a page, with its fault."""
    for link in re.findall(r"\]\(([^)\s]+)\)", re.sub(r"`[^`\n]*`", "", prose(page))):
        if re.match(r"[a-z]+:", link):
            continue
        path, _, anchor = link.partition("#")
        target = (page.parent / path).resolve() if path else page
        if not target.exists():
            yield link, f"there is no {path}"
        elif anchor and (target.suffix != ".md" or anchor not in anchors(target)):
            yield link, f"there is no heading {anchor} in {target.relative_to(ROOT)}"
        else:
            yield link, None


def faults_of_paths(page: Path) -> Iterator[tuple[str, str | None]]:
    """Each path of this repository that a page names in backticks, with its fault."""
    for path in re.findall(r"`([\w.+-]+/[\w./+-]*)`", prose(page)):
        if path.split("/")[0] in FOLDERS and not re.search(r"\b[A-Z]{2,}\b(?!\.md)", path):
            yield path, None if (ROOT / path).exists() else f"there is no {path}"


def faults_of_contents(page: Path) -> Iterator[tuple[str, str | None]]:
    """Each section of a page that has many, with its fault if nothing above the first section leads to it."""
    head, *sections = re.split(r"^## +", prose(page), flags=re.MULTILINE)
    led = set(re.findall(r"\]\(#([^)\s]+)\)", head))
    for title in (section.partition("\n")[0] for section in sections if len(sections) >= MANY):
        found = anchor_of(title)
        yield title, None if found in led else f"no link above the first section leads to {found}"


def faults_of_index() -> Iterator[str]:
    """The lines by which docs/INDEX.md differs from what the pages and the sources say."""
    found = INDEX.read_text(encoding="utf-8") if INDEX.exists() else ""
    lines = difflib.unified_diff(found.splitlines(), made_index().splitlines(), "docs/INDEX.md", "tests/links.sh --write", lineterm="", n=0)
    yield from lines


def main(arguments: list[str]) -> int:
    """Checks all pages, or makes the index before. The pages of edits name files as they were when an edit was tried."""
    if arguments == ["--write"]:
        INDEX.write_text(made_index(), encoding="utf-8")
    count, faults = 0, list(faults_of_index())
    for page in pages():
        name = page.relative_to(ROOT)
        found = list(faults_of_links(page))
        if name.parts[0] not in ("edits", "CHANGELOG.md"):
            found += faults_of_paths(page)
        if name.parts[0] in ("README.md", "CONTRIBUTING.md", "docs"):
            found += faults_of_contents(page)
        count += len(found)
        faults += [f"{name}: {text}: {fault}" for text, fault in found if fault]
    print(*faults, sep="\n", end="\n" if faults else "", file=sys.stderr)
    print(f"{count} links and paths lead to what is there" if not faults else f"{len(faults)} faults")
    return 1 if faults else 0


if __name__ == "__main__":
    sys.exit(main(sys.argv[1:]))

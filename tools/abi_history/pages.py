"""The history as one HTML page that needs no other file and no scripts."""

from __future__ import annotations

from pathlib import Path
from typing import Any, Optional

from jinja2 import FileSystemLoader

from abi_release.pages import environment
from abi_history.judging import Cell, Export, History, changes, exports_of

# How many breaks of a step, and how many exports that came or went, the page names; the files beside it have all.
_MOST_ROWS = 200
_MOST_EXPORTS = 5_000


def page_of(history: History, document: dict[str, Any]) -> str:
    """The page."""
    made = environment(FileSystemLoader(Path(__file__).resolve().parent))
    steps = [(cell, came, went) for cell, (came, went) in zip(history.steps(), changes(history))]

    def cell(old: int, new: int) -> Cell:
        return history.cells[old, new]

    text: str = made.get_template("page.html.j2").render(
        history=history, document=document, cell=cell, steps=steps, exports=exports_of(history), most_rows=_MOST_ROWS,
        came_in=lambda one: _came_in(history, one), went_in=lambda one: _went_in(history, one),
        most_exports=_MOST_EXPORTS, size=len(history.names))
    return text


def _came_in(history: History, one: Export) -> str:
    """The version in which an export came. It may have come before in a version that cannot be read."""
    if not one.came:
        return "the first version"
    return f"{history.names[one.came]}{' or before' if history.known_labels(one.came - 1) is None else ''}"


def _went_in(history: History, one: Export) -> str:
    """The first version that is known to lack an export; empty if the last version has it."""
    later = range(one.last + 1, len(history.names))
    first: Optional[int] = next((number for number in later if history.known_labels(number) is not None), None)
    if first is None:
        return "unknown" if later else ""
    return f"{history.names[first]}{' or before' if first > one.last + 1 else ''}"

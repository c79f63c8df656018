"""The table as one HTML page that needs no other file: all its lines are there without scripts."""

from __future__ import annotations

import contextlib
import itertools
import os
import tempfile
from pathlib import Path
from typing import IO, Iterator, TextIO
from urllib.parse import quote

from jinja2 import Environment, FileSystemLoader, select_autoescape

from abi_release.judging import GONE, NEW
from abi_release.stored_files import Json
from abi_release.tables import Table
from abi_release.texts import shown
from abi_tools.verdicts import Verdict

# The groups of lines in the order of the page, each with its title.
_GROUPS = {Verdict.NO.words(): "No", GONE: "Gone", Verdict.CANNOT_TELL.words(): "Cannot tell", NEW: "New", Verdict.YES.words(): "Yes"}
# How many lines one part of the page has. A browser lays a part out when it comes near the window.
_LINES_OF_A_PART = 250
# About how many pixels a line is high.
_LINE_HEIGHT = 26
_PIECE = 1 << 16
_PIECES = 200


def environment(loader: FileSystemLoader) -> Environment:
    """Templates in which all texts are escaped, for HTML and for what a browser obeys in plain text."""
    made = Environment(loader=loader, trim_blocks=True, lstrip_blocks=True,
                       autoescape=select_autoescape(default=True, default_for_string=True), finalize=_final)
    made.filters["link"] = lambda path: quote(os.fsencode(path))
    return made


def _final(value: object) -> object:
    """What a template prints of a value: a text as it is shown, unless it is HTML already."""
    # HTML has a class of its own below `str`.
    return shown(value) if type(value) is str else value


def write_page(table: Table, head: Json, stream: TextIO) -> None:
    """Writes the page piece by piece. The lines are read once: those of each answer wait in a file of their own."""
    templates = environment(FileSystemLoader(Path(__file__).resolve().parent))
    # A macro, since a template makes a new context for each line.
    row = getattr(templates.get_template("line.html.j2").module, "row")
    with contextlib.ExitStack() as files:
        groups = {answer: _Group(answer, title, files.enter_context(tempfile.TemporaryFile("w+", encoding="utf-8")))
                  for answer, title in _GROUPS.items()}
        for line in table.lines():
            groups[line["answer"]].put(row(line))
        pieces = templates.get_template("page.html.j2").stream(
            head=head, groups=[group for group in groups.values() if group.count], summary=table.summary(), height=_LINE_HEIGHT)
        pieces.enable_buffering(_PIECES)
        pieces.dump(stream)


class _Group:
    """The lines with one answer, as HTML."""

    def __init__(self, answer: str, title: str, file: IO[str]) -> None:
        self.answer, self.title, self.count = answer, title, 0
        self._file = file
        self._sizes: list[int] = []

    def put(self, line: str) -> None:
        """Adds a line."""
        if self.count % _LINES_OF_A_PART == 0:
            self._sizes.append(0)
        self.count += 1
        self._sizes[-1] += self._file.write(line)

    def parts(self) -> Iterator[tuple[int, Iterator[str]]]:
        """The parts: how many lines each has, and its text in pieces."""
        self._file.flush()
        self._file.seek(0)
        for number, size in enumerate(self._sizes):
            lines = min(_LINES_OF_A_PART, self.count - number * _LINES_OF_A_PART)
            yield lines, self._pieces(size)

    def _pieces(self, size: int) -> Iterator[str]:
        for start in itertools.takewhile(lambda at: at < size, itertools.count(0, _PIECE)):
            yield self._file.read(min(_PIECE, size - start))

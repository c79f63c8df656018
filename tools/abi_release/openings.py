"""Packages with several pairs of libraries, each a task of its own: collects the lines of these tasks until all are done."""

from __future__ import annotations

from dataclasses import dataclass, field
from typing import Sequence

from abi_release.judging import Outcome, Part, line_of
from abi_release.sources import Work
from abi_release.stored_files import Json, Store, opened_name, record_name


@dataclass
class _Opened:
    """Two packages: the libraries that are not done yet, and the lines of the others."""

    waiting: set[str]
    lines: list[Json] = field(default_factory=list)


class Openings:
    """The packages that are open at the moment."""

    def __init__(self, store: Store) -> None:
        self._store = store
        self._opened: dict[str, _Opened] = {}

    def open(self, work: Work, outcome: Outcome) -> list[Part]:
        """The tasks for packages that a task has just opened."""
        self._opened[work.name] = _Opened(set(outcome.left))
        return [Part(work, library, outcome.identity) for library in outcome.left]

    def take(self, part: Part, line: Json) -> bool:
        """Takes the line of a library, and returns whether it was the last one. If so, writes the record. Raises OSError if that
        fails."""
        opened = self._opened[part.name]
        if part.library in opened.waiting:
            opened.waiting.remove(part.library)
            opened.lines.append(line)
        if opened.waiting:
            return False
        del self._opened[part.name]
        self._write(part.name, opened.lines)
        return True

    def _write(self, name: str, lines: Sequence[Json]) -> None:
        """Writes the record of packages once all lines are there."""
        record = self._store.json(opened_name(name))
        if record is None:
            raise OSError("what was known of the packages is gone")
        for line in lines:
            if "result" in line:
                result = self._store.result(line["result"])
                if result is None:
                    raise OSError("the result of a library is gone")
                line = line_of(line, result)
            record["lines"].append(line)
        record["lines"].sort(key=lambda one: str(one["library"]))
        self._store.put_json(record_name(name), record)
        self._store.drop(opened_name(name))

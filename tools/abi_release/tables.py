"""The lines of a run, from its records, as text and as JSON that follows `docs/release.schema.json`."""

from __future__ import annotations

import hashlib
import json
import os
from collections import Counter
from dataclasses import dataclass, field
from typing import Iterator, Optional, Protocol, Sequence, TextIO

from abi_release.apps import Ask
from abi_release.explaining import Explain
from abi_release.hits import Hits
from abi_release.judging import GONE, NEW, OF_RUN, OPEN
from abi_release.reports import Reports
from abi_release.scheduling import Failure
from abi_release.sources import MOVED, Work
from abi_release.stored_files import Json, Store
from abi_release.texts import shown
from abi_release.unpacked import NO_DEBUG_FILE
from abi_tools.verdicts import Verdict

# The member of a line with measurements, which differ from run to run, and those with names of files, which the program and the tools
# change. The digest of the table is over all others: what is told.
MEASURED = "measured"
_UNTOLD = (MEASURED, "result", "certificate", "report", "page")
# The members of a line of a record from which follows who is hit.
_OF_HITS = ("broken", "soname")
# How many new packages, or files in them, that could not be read a line names.
_MOST_UNREAD = 3


def moved(works: Sequence[Work], run: "Ran") -> list[Work]:
    """The libraries that moved to another package, as pairs of packages to judge: a library moved if exactly one old package lost it and
    exactly one new package got it."""
    places: dict[str, dict[str, list[int]]] = {GONE: {}, NEW: {}}
    for number, work in enumerate(works):
        record = run.record(work.name)
        for line in record["lines"] if record else ():
            if line["answer"] in places:
                places[line["answer"]].setdefault(line["library"], []).append(number)
    found: dict[tuple[int, int], list[str]] = {}
    for library, gone in places[GONE].items():
        new = places[NEW].get(library, [])
        if len(gone) == len(new) == 1:
            found.setdefault((gone[0], new[0]), []).append(library)
    return [Work(f"{works[one].name}{MOVED}{works[two].name}", works[one].old, works[two].new, tuple(sorted(libraries)), is_shared=True)
            for (one, two), libraries in sorted(found.items())]


class Ran(Protocol):
    """What a run knows when its tasks are done."""

    store: Store
    failures: dict[str, Failure]
    troubles: dict[str, dict[str, Failure]]

    def record(self, name: str) -> Optional[Json]:
        """The record of two packages, if this run made it or found that it still holds."""


@dataclass
class Table:
    """The lines of a run, sorted by package and by library. It holds no lines: it reads them again for each use, and counts them at
    the start. The sentences of lines are made here, from what is known by digests. `reports` says where the pages of `abi-report` are."""

    works: Sequence[Work]
    moves: Sequence[Work]
    run: Ran
    reports: Optional[Reports] = None
    counts: Counter[str] = field(default_factory=Counter)

    def __post_init__(self) -> None:
        self.hits = Hits(self.run.store)
        self._moved = {(side, library) for work in self.moves for side in work.name.split(MOVED) for library in work.only}
        self._unread: list[str] = []
        self._given: set[str] = set()
        for work in self.works:
            self._take_new(work)
        for record, counted in self._records():
            lines = list(counted)
            self.counts.update(line["answer"] for line in lines)
            self.hits.take_breaks(record, lines)
        for record, _ in self._records():
            if MOVED not in record["name"] and record["depends"] is not None:
                self.hits.take_needs(record)

    def _take_new(self, work: Work) -> None:
        """Takes what a new package brings, and what of it could not be read: the package, or files that may be libraries."""
        record = self.run.record(work.name)
        package = os.path.basename(work.new[0]) if work.new else ""
        if record is None:
            self._unread += [package] if package else []
            return
        self._unread += [f"{name} in {package}" for name in record["unread"]]
        self._given |= {line["soname"] for line in record["lines"] if line["answer"] == NEW} | set(record["unsure"])

    def _records(self) -> Iterator[tuple[Json, Iterator[Json]]]:
        """The record of each pair of packages, and its lines that count."""
        for work in sorted((*self.works, *self.moves)):
            record = self.run.record(work.name)
            if record is None:
                failure = self.run.failures.get(work.name) or Failure("its record is missing", 1)
                # A library that moved is named by the record that lost it.
                yield _empty(work.name), iter([_failed(library, failure) for library in work.only or (None,)])
            else:
                yield {**record, "name": work.name}, self._counted(work, record)

    def _counted(self, work: Work, record: Json) -> Iterator[Json]:
        """The lines of a record, without those of libraries that moved, which have a line in another record."""
        troubles = self.run.troubles.get(work.name, {})
        for line in sorted(record["lines"], key=lambda one: str(one["library"])):
            if line["answer"] == OPEN:
                yield _failed(line["library"], troubles.get(line["library"]) or Failure("it was not judged", 1))
            elif line["answer"] not in (GONE, NEW):
                yield _with_reason(line, work)
            elif (work.name, line["library"]) not in self._moved:
                yield self._gone(line) if line["answer"] == GONE else line

    def _gone(self, line: Json) -> Json:
        """The line of a library that the new package of the same name does not have. It is gone only if all new packages, and all files in
        them that may be libraries, could be read, and none of them has got it; else nobody can tell."""
        if line["soname"] in self._given:
            return _cannot_tell(line, "its package has lost it, and nothing says which library of other new packages replaces it")
        if self._unread:
            more = f" and {len(self._unread) - _MOST_UNREAD} more" if len(self._unread) > _MOST_UNREAD else ""
            names = ", ".join(self._unread[:_MOST_UNREAD])
            return _cannot_tell(line, f"its package has lost it, and of the new packages these could not be read: {names}{more}")
        return line

    def lines(self) -> Iterator[Json]:
        """All lines, with the packages that are hit."""
        for record, lines in self._records():
            name = record["name"]
            old, new = record["versions"]
            for line in lines:
                whole = {"package": name, "versions": {"old": old, "new": new},
                         **{key: value for key, value in line.items() if key not in _OF_HITS}}
                hit = self.hits.of(name.partition(MOVED)[0], line["library"]) if line["library"] else []
                yield {**whole, **self._page(line), **({"hit": hit} if hit else {})}

    def _page(self, line: Json) -> Json:
        """The page of `abi-report` on a no, if it was made: its place from the folder of the run."""
        if self.reports is None or line["answer"] != Verdict.NO.words():
            return {}
        page = self.reports.page(line["result"])
        return {"page": os.path.relpath(page, self.run.store.folder)} if page.is_file() else {}

    def explains(self) -> list[Explain]:
        """The tasks that make the missing pages: one for each result with a no."""
        if self.reports is None:
            return []
        works = {work.name: work for work in (*self.works, *self.moves)}
        found: dict[str, Explain] = {}
        for record, lines in self._records():
            for line in lines:
                if line["answer"] == Verdict.NO.words() and not self._page(line):
                    task = Explain(works[record["name"]], line["library"], line["result"], tuple(record["identity"]))
                    found.setdefault(task.result, task)
        return list(found.values())

    def asks(self) -> list[Ask]:
        """The tasks that ask `abi app` which packages are hit."""
        return self.hits.asks({work.name: work for work in (*self.works, *self.moves)})

    def verdict(self) -> Verdict:
        """No if one library has that answer or is gone; else cannot tell if one has that answer, or if none was compared; else yes."""
        if self.counts[Verdict.NO.words()] or self.counts[GONE]:
            return Verdict.NO
        if self.counts[Verdict.CANNOT_TELL.words()] or not self.counts[Verdict.YES.words()]:
            return Verdict.CANNOT_TELL
        return Verdict.YES

    def summary(self) -> str:
        """How many lines have each answer."""
        said = ", ".join(f"{count} {word}" for word, count in sorted(self.counts.items()))
        count = sum(self.counts.values())
        return f"{count} line{'s' if count != 1 else ''}{': ' + said if said else ''}"


def _empty(name: str) -> Json:
    return {"name": name, "identity": [], "versions": [None, None], "depends": None, "imports": {}}


def _failed(library: Optional[str], failure: Failure) -> Json:
    """The line of a library, or of two packages, that this run could not judge."""
    return {"library": library, "answer": Verdict.CANNOT_TELL.words(), "reason": failure.reason, "tries": failure.tries}


def _cannot_tell(line: Json, reason: str) -> Json:
    return {**line, "answer": Verdict.CANNOT_TELL.words(), "reason": reason}


def _with_reason(line: Json, work: Work) -> Json:
    """The line of a library that was judged, with its reasons in one sentence."""
    reasons = list(line.get("reasons", ()))
    if line["answer"] != Verdict.YES.words():
        reasons += [_unjoined(why, side, places[0]) for why, side, places in zip(
            line.get("unjoined", ()), ("old", "new"), (work.old, work.new)) if why]
    line = {key: value for key, value in line.items() if key not in ("reasons", "unjoined", "doubt")}
    return {**line, "reason": "; ".join(reasons)} if reasons else line


def _unjoined(why: str, side: str, place: str) -> str:
    """Why a library of the package in this place was judged as it was shipped."""
    if why != NO_DEBUG_FILE:
        return f"{side}: {why}"
    return f"{side} has no debug file: add the -dbgsym, -dbg or -debuginfo package of {os.path.basename(place)}"


def text_of(line: Json) -> str:
    """A line as text. Where nothing can be told, the reason comes first."""
    reason = [f"{line['reason']}{', tried ' + str(line['tries']) + ' times' if 'tries' in line else ''}"] if "reason" in line else []
    is_told = line["answer"] != Verdict.CANNOT_TELL.words()
    parts = [*(reason if not is_told else []), *_found(line), *(reason if is_told else []), *_of_package(line)]
    if "types" in line:
        parts.append("exports with types: " + ", ".join(f"{side} {some} of {all_}" for side, (some, all_) in sorted(
            line["types"].items(), reverse=True)))
    if MEASURED in line:
        parts.append(f"{line[MEASURED]['seconds']:.2f} s, {line[MEASURED]['megabytes']:.1f} MB")
    parts += [f"{kind} {line[kind]}" for kind in ("certificate", "report", "page") if kind in line]
    hit, spared = parted_hits(line)
    for word, found in (("hits", hit), ("spares", spared)):
        if found:
            parts.append(f"{word} {len(found)} package{'s' if len(found) != 1 else ''}: {', '.join(_hit(one) for one in found[:10])}"
                         f"{', ..' if len(found) > 10 else ''}")
    named = " ".join(str(word) for word in (line["answer"], line["package"], line["library"] or "") if word)
    return shown(f"{named}{': ' if parts else ''}{'; '.join(parts)}")


def _found(line: Json) -> Iterator[str]:
    """What was found, in words."""
    if "compared" in line:
        yield f"{line['compared']} exports compared, {line['typed']} with types" if line["compared"] else "no exports that can break"
    if "breaks" in line:
        count = sum(line["breaks"].values())
        yield f"{count} break{'s' if count != 1 else ''} ({', '.join(f'{rule} {times}' for rule, times in line['breaks'].items())})"


def _of_package(line: Json) -> Iterator[str]:
    """The versions of the packages, and the rule file that was used and whose it is."""
    old, new = line["versions"]["old"], line["versions"]["new"]
    if old or new:
        yield f"version {old}" if old == new else f"version {old or 'none'} to {new or 'none'}"
    rules = line.get("rule_file")
    if rules is not None:
        yield "rule file of the run" if rules["of"] == OF_RUN else f"rule file {rules['name']} of the {rules['of']} package"


def parted_hits(line: Json) -> tuple[list[Json], list[Json]]:
    """The packages that a break hits, and the packages that it spares: `abi app` says that their programs survive it."""
    parted: tuple[list[Json], list[Json]] = [], []
    for one in line.get("hit", ()):
        parted[one.get("app", {}).get("answer") == Verdict.YES.words()].append(one)
    return parted


def _hit(one: Json) -> str:
    said = [f"imports {one['imports']}"] if one["imports"] else []
    if "app" in one:
        said.append(f"abi app: {' '.join([one['app']['answer'], *one['app']['programs']])}")
    return f"{one['package']} ({', '.join(said)})" if said else str(one["package"])


def write_text(table: Table, stream: TextIO) -> None:
    """Writes all lines and the summary."""
    for line in table.lines():
        stream.write(text_of(line) + "\n")
    stream.write(table.summary() + "\n")


def write_json(table: Table, head: Json, stream: TextIO) -> None:
    """Writes the table as JSON, one line of text for each line, with a digest of what all lines tell."""
    digest = hashlib.sha256()
    stream.write(json.dumps(head, sort_keys=True)[:-1] + ', "lines": [')
    for number, line in enumerate(table.lines()):
        stream.write((",\n" if number else "\n") + json.dumps(line, sort_keys=True))
        told = {key: value for key, value in line.items() if key not in _UNTOLD}
        digest.update(json.dumps(told, sort_keys=True).encode() + b"\n")
    rest = json.dumps({"counts": table.counts, "digest": digest.hexdigest()}, sort_keys=True)
    stream.write("\n], " + rest[1:] + "\n")

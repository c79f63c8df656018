"""A report: the verdict, the blocks and all else that the text, the page and the document show, as data."""

from __future__ import annotations

import os
from dataclasses import dataclass
from functools import cached_property
from pathlib import PurePosixPath
from typing import Iterable, Iterator, Optional, Sequence

from abi_tools.verdicts import Verdict

from abi_report.blocks import Block, Line, blocks_of
from abi_report.causes import Causes
from abi_report.documents import SUCCESSOR, Break, Document, Json, Note, Place
from abi_report.judging import Judged, labels_of
from abi_report.positions import Steps, positions
from abi_report.reaching import Reaching
from abi_report.rows import Row, rows_of
from abi_report.rule_sections import Headers, rule_section
from abi_report.subjects import Described, Library, Side
from abi_report.successors import Successors
from abi_report.texts_shown import counted
from abi_report.ways import Ways

# A place of the old library, and one of the new library.
Places = tuple[Optional[Place], Optional[Place]]

# How many notes of a kind are shown with their places.
_PLACED = 20
_DEFINED = "defined at "
_NO_LABELS: Sequence[list[str]] = ([], [])
_KINDS = {"record": "type", "type": "type", "function": "function"}


@dataclass(frozen=True)
class Gone:
    """A symbol that is gone, and its likely successors."""

    block: Block
    successors: tuple[str, ...]


class Report:
    """A report on two libraries."""

    def __init__(self, document: Document, judged: Judged, libraries: tuple[Library, Library], headers: Headers,
                 searches: bool = False) -> None:
        """Takes a document, its verdict, both libraries and the public headers. With `searches`, the exports that reach a structure are
        searched for if the document does not name them."""
        self.document = document
        self.judged = judged
        self.old, self.new = (Side(document, side, library) for side, library in zip(("old", "new"), libraries))
        self.headers = headers
        self.blocks = blocks_of(document, self.old, self.new)
        ways = Ways(self.old, [(block, block.member_exports) for block in self.blocks if not block.is_exact])
        for block in self.blocks:
            block.lead(tuple(export for export in block.member_exports if ways.of(block, export) is not None))
        if searches and any(block.subject.kind == "record" and not block.names_all_exports for block in self.blocks):
            self._search()
        self._shown: dict[tuple[frozenset[str], frozenset[str]], Block] = {}

    def _search(self) -> None:
        """Finds the exports that reach each structure."""
        found = Reaching(self.old, labels_of(self.old.path, self.new.path)[0])
        for block in self.blocks:
            exports = found.of(self.old.records, block.subject.old.entry) if block.subject.kind == "record" else None
            if exports and not block.names_all_exports:
                block.lead(exports, is_searched=True)

    @property
    def answer(self) -> str:
        """The answer in a word or two, as the report begins."""
        return self.judged.verdict.words()

    @cached_property
    def sentence(self) -> str:
        """The answer as a sentence."""
        old, new = self.old.path, self.new.path
        if self.judged.verdict == Verdict.YES:
            return f"{new} may replace {old}"
        if self.judged.verdict == Verdict.NO:
            return f"{new} may not replace {old}"
        return "; ".join(self.judged.reasons)

    @cached_property
    def sonames(self) -> str:
        """What the sonames mean for programs built with the old library, if a library has one."""
        found = [self.document.inputs.get(side.side, {}).get("soname") for side in (self.old, self.new)]
        if self.judged.verdict == Verdict.CANNOT_TELL or not any(found):
            return ""
        if found[0] == found[1]:
            return f"Both have the soname {found[0]}: programs that were built with the old library load the new one."
        words = [f"the soname {name}" if name else "no soname" for name in found]
        return f"The old library has {words[0]} and the new one {words[1]}: programs that were built with the old one do not load it."

    @cached_property
    def causes(self) -> Causes:
        """The causes of what changed. Types that callers see stand before those that they do not see, since a change is reported at the
        shortest path, which may lead through a type that callers do not see."""
        blocks = [block for block in self.blocks if block.subject.kind in _KINDS]
        return Causes(sorted(blocks, key=lambda block: self.section(block) is not None), self.old, self.new)

    @cached_property
    def types(self) -> list[Block]:
        """The blocks of types and functions, each after those of its causes."""
        return self.causes.ordered()

    def because(self, block: Block) -> list[tuple[Block, str]]:
        """The causes of a change, each with the words that follow its name."""
        found = []
        for cause in self.causes.of(block) if block.subject.kind in _KINDS else ():
            place = self.places(cause.subject.old.place, cause.subject.new.place)
            found.append((cause, f"{self.causes.word(cause)}{f' ({place})' if place else ''}"))
        return found

    def because_word(self, block: Block) -> str:
        """The word before the causes."""
        return "also because" if self.causes.is_own(block) else "because"

    @cached_property
    def has_ways(self) -> bool:
        """Whether the report shows steps from an export to a type."""
        return any(block.steps for block in self.types)

    @cached_property
    def has_lines_without_rules(self) -> bool:
        """Whether a line of a block breaks no rule."""
        return any(not line.breaks for block in self.blocks for line in block.lines)

    @cached_property
    def others(self) -> list[Block]:
        """The blocks of the library and of exports that still exist."""
        return [block for block in self.blocks if block.subject.kind not in _KINDS and not block.is_gone]

    @cached_property
    def gone(self) -> list[Gone]:
        """The symbols that are gone."""
        blocks = [block for block in self.blocks if block.is_gone]
        if not blocks:
            return []
        noted = self._noted()
        unnoted = sum(block.first.export not in noted for block in blocks)
        # The exports are read only if a successor must be searched for.
        old, new = labels_of(self.old.path, self.new.path) if unnoted else _NO_LABELS
        search = Successors(old, new, unnoted)
        return [Gone(block, tuple(noted.get(block.first.export) or search.of(block.first.export))) for block in blocks]

    def _noted(self) -> dict[str, list[str]]:
        """The likely successors in the notes, for each export that is gone."""
        found: dict[str, list[str]] = {}
        for note in self.document.notes:
            if note.kind == SUCCESSOR:
                found.setdefault(note.was or note.export, []).append(note.now)
        return found

    @cached_property
    def notes(self) -> list[tuple[str, list[Note]]]:
        """The notes, by kind; the kind of sentences is empty."""
        found: dict[str, list[Note]] = {}
        if self.judged.verdict != Verdict.CANNOT_TELL or self.document.breaks:
            for note in self.document.notes:
                if note.kind != SUCCESSOR:
                    found.setdefault(note.kind, []).append(note)
        return list(found.items())

    def note_places(self, notes: Sequence[Note]) -> list[str]:
        """Where the exports of notes of a kind are declared, for the first notes."""
        places = [self.places(*self._places_of(note.export)) if note.export else "" for note in notes[:_PLACED]]
        return places + [""] * (len(notes) - len(places))

    @cached_property
    def found(self) -> str:
        """The numbers of changes and breaks, in words."""
        types = sum(_KINDS[block.subject.kind] == "type" for block in self.types)
        exports = sum(block.subject.kind == "export" for block in self.others)
        counts = [(types, "type"), (len(self.types) - types, "function"), (exports, "export")]
        words = [f"{counted(count, thing)} changed" for count, thing in counts if count]
        words += ["the soname changed"] if exports < len(self.others) else []
        gone = sum(block.is_gone for block in self.blocks)
        words += [f"{counted(gone, 'symbol')} gone"] if gone else []
        return f"{', '.join(words)}: {counted(len(self.document.breaks), 'break')} of the rules" if words else ""

    @cached_property
    def compared(self) -> list[str]:
        """How many exports were compared, and how many have types, in words."""
        words = []
        if self.judged.compared is not None:
            words.append(f"{counted(self.judged.compared, 'export')} compared, {self.judged.typed:,} with types in both libraries"
                         f"{self.judged.share}")
        for side in (self.old, self.new):
            found = self.document.counted(side.side)
            if found is not None:
                words.append(f"{side.path}: debug information has the types of {found[1]:,} of {found[0]:,} exports")
        return [*words, *self._without_places()]

    def _without_places(self) -> Iterator[str]:
        """Says which libraries have no line tables, and where the places in the report come from in that case."""
        lacking = [side for side in (self.old, self.new) if not side.says_places] if self.blocks else []
        if len(lacking) == 1:
            other = self.new if lacking[0] is self.old else self.old
            yield (f"{lacking[0].path} has no line tables (a baseline has none): files and lines are taken from {other.path}, where it "
                   "declares the same name")
        elif lacking:
            yield "neither library has line tables (baselines have none): there are no files and lines, and no rule sections"

    def section(self, block: Block) -> Optional[str]:
        """The rule section for a block whose type callers do not see."""
        return rule_section(block, self.headers)

    @cached_property
    def sections(self) -> list[str]:
        """All rule sections."""
        return list(dict.fromkeys(found for block in self.types if (found := self.section(block)) is not None))

    @property
    def unnamed(self) -> str:
        """A sentence to say that the report does not name all exports that reach a change; empty if it does."""
        is_complete = all(block.names_all_exports for block in self.blocks)
        return "" if is_complete else " Of the exports that a change reaches, only the first is named here."

    def is_of_itself(self, block: Block) -> bool:
        """Whether a block is about a function or an export, and no other export is known to reach it."""
        return block.subject.kind == "export" or (block.subject.kind == "function" and block.exports == (block.first.export,))

    def same_exports(self, block: Block, least: int) -> Optional[Block]:
        """The first block before this one that has the same exports in any order, if there are at least `least` of them."""
        if len(block.exports) + len(block.member_exports) < least:
            return None
        first = self._shown.setdefault((frozenset(block.exports), frozenset(block.member_exports)), block)
        return None if first is block else first

    def rule_name(self, rule: str) -> str:
        """The plain name of a rule."""
        return self._rule_names.get(rule, rule)

    @cached_property
    def _rule_names(self) -> dict[str, str]:
        return {one.rule: one.name for one in self.document.breaks}

    # ---- places

    def export_places(self, block: Block) -> Places:
        """Where the export of a block's first break is declared in both libraries."""
        return self._places_of(block.first.export)

    def _places_of(self, export: str) -> Places:
        old, new = (side.place(side.export(export), None) for side in (self.old, self.new))
        return old, new

    def was_at(self, block: Block) -> tuple[str, str]:
        """Where the export of a block's first break was: the words before the place, and the place."""
        place = self.place(self.old, self.export_places(block)[0]) or ""
        words = _DEFINED if place.startswith(_DEFINED) else "at "
        return (f"; it was {words}", place.removeprefix(_DEFINED)) if place else ("", "")

    @cached_property
    def a_place(self) -> str:
        """The first place of a type in the report, as an example."""
        places = (self.place(self.new, block.subject.new.place) for block in self.types)
        return next(filter(None, places), "")

    @cached_property
    def folders(self) -> list[tuple[str, str]]:
        """The folder above all places of each library, and words that name the library if the folders differ."""
        found = [(self._folders[side.side], f" ({side.path})") for side in (self.old, self.new) if self._folders[side.side]]
        return [(found[0][0], "")] if len(found) == 2 and found[0][0] == found[1][0] else found

    @cached_property
    def rules(self) -> list[tuple[str, str]]:
        """The rules that are broken, with their plain names."""
        return sorted(self._rule_names.items(), key=lambda one: (one[0][0] != "X", int(one[0][1:])))

    def rows(self, block: Block, is_whole: bool = False) -> list[tuple[Row, str]]:
        """The rows of a block, each with the place of its line. With `is_whole` no line stands for others."""
        rows = [Row(line) for line in block.lines] if is_whole else rows_of(block.lines)
        return [(row, self.line_place(block, row.line)) for row in rows]

    def line_place(self, block: Block, line: Line) -> str:
        """Where the part of a line is declared, if that is not the block's place."""
        old, new = block.subject.old.place, block.subject.new.place
        # If only one library has the part, only that library's place counts.
        own = self.places(line.old_place and old, line.new_place and new)
        found = self.places(line.old_place, line.new_place) if line.head else ""
        return "" if found == own else found

    def positions(self, block: Block, export: str) -> list[Steps]:
        """The steps from an export to each place of its signature where the changed type stands. Only types that are no structures need
        it: a structure is named wherever it stands."""
        return positions(self.old, self.new, export, block.subject) if block.subject.kind == "type" else []

    def place(self, side: Side, place: Optional[Place]) -> Optional[str]:
        """A place as the report shows it: without the folder that all places of the library share, and marked if it is a definition."""
        if place is None:
            return None
        folder = self._folders[side.side]
        file = place.file.removeprefix(f"{folder}/") if folder else place.file
        return f"{_DEFINED if place.is_definition else ''}{file}:{place.line}"

    def places(self, old: Optional[Place], new: Optional[Place]) -> str:
        """Both places, or one if they are the same. A place that only one library has names that library, unless the other library has no
        places at all."""
        first, second = self.place(self.old, old), self.place(self.new, new)
        if first is not None and second is not None:
            return first if first == second else f"{first}, now {second}"
        if first is not None:
            return f"{first} (old)" if self.new.says_places else first
        return "" if second is None else f"{second} (new)" if self.old.says_places else second

    @cached_property
    def _folders(self) -> dict[str, str]:
        found: dict[str, set[str]] = {"old": set(), "new": set()}
        is_one_tree = False
        for old, new in self._all_places():
            is_one_tree |= old is not None and new is not None and old.file == new.file
            for side, folder in zip(("old", "new"), _roots(old, new)):
                found[side] |= {folder} if folder is not None else set()
        if is_one_tree:
            found = dict.fromkeys(found, found["old"] | found["new"])
        return {side: os.path.commonpath(sorted(paths)) if _are_alike(paths) else "" for side, paths in found.items()}

    def _all_places(self) -> Iterator[Places]:
        """The places that the report shows."""
        for _, notes in self.notes:
            yield from (self._places_of(note.export) for note in notes[:_PLACED] if note.export)
        for block in self.blocks:
            subject = block.subject
            has_place = subject.old.place is not None or subject.new.place is not None
            yield (subject.old.place, subject.new.place) if has_place else self.export_places(block)
            yield from ((line.old_place, line.new_place) for line in block.lines)

    # ---- the document

    def whole(self) -> Json:
        """The document of `abi-json` with the member `report`."""
        numbers = {id(one): number for number, one in enumerate(self.document.breaks)}
        report = {
            "verdict": self.answer, "reasons": list(self.judged.reasons), "compared": self.judged.compared,
            "typed": self.judged.typed,
            "types": [self._block(block, numbers) for block in self.types],
            "exports": [self._block(block, numbers) for block in self.others],
            "gone": [{"export": one.block.first.export, "breaks": _numbers(one.block.breaks, numbers),
                      "successors": list(one.successors)} for one in self.gone],
        }
        return {**self.document.whole, "breaks": [self._typed(one, found) for one, found in
                                                  zip(self.document.breaks, self.document.whole["breaks"])], "report": report}

    def _typed(self, one: Break, found: Json) -> Json:
        """A break of the document with both types."""
        return {**found, "old_type": self._type(self.old, one, one.old_entry), "new_type": self._type(self.new, one, one.new_entry)}

    def _type(self, side: Side, one: Break, offset: Optional[int]) -> Optional[Json]:
        """The type of an entry of a break: its name as C writes it, and its place."""
        if offset is None:
            return None
        return _described(side.described(offset) if one.steps else side.function(one.export, offset))

    def _block(self, block: Block, numbers: dict[int, int]) -> Json:
        return {
            "kind": block.subject.kind, "title": block.title, "old": _described(block.subject.old),
            "new": _described(block.subject.new), "export": block.first.export, "steps": list(block.steps),
            "exports": list(block.exports), "member_exports": list(block.member_exports), "all_exports": block.names_all_exports,
            "because": [cause.title for cause, _ in self.because(block)],
            "changes": [_line(line, numbers) for line in block.lines], "rule_section": self.section(block),
        }


def _roots(old: Optional[Place], new: Optional[Place]) -> tuple[Optional[str], Optional[str]]:
    """The folders in which two places lie. If the last folders have the same names, the folders above them, so that both places look
    alike."""
    paths = [None if place is None else PurePosixPath(place.file).parent for place in (old, new)]
    first, second = paths
    while first is not None and second is not None and first != second and first.name == second.name != "":
        first, second = first.parent, second.parent
    return None if first is None else str(first), None if second is None else str(second)


def _are_alike(paths: set[str]) -> bool:
    """Whether paths can have a folder in common: all are absolute, or none is."""
    return bool(paths) and len({path.startswith("/") for path in paths}) == 1


def _numbers(breaks: Iterable[object], numbers: dict[int, int]) -> list[int]:
    return [numbers[id(one)] for one in breaks]


def _described(described: Described) -> Json:
    return {"name": described.name, "place": _place(described.place)}


def _place(place: Optional[Place]) -> Optional[Json]:
    return None if place is None else {"file": place.file, "line": place.line}


def _line(line: Line, numbers: dict[int, int]) -> Json:
    return {"part": line.head, "text": line.text, "rules": list(line.rules), "breaks": _numbers(line.breaks, numbers),
            "old_place": _place(line.old_place), "new_place": _place(line.new_place)}

"""Whether a new library may replace an old one, for a gate with a third verdict: cannot tell.

`abi` judges. This module adds whether its answer rests on types at all: without debug information, or with that of level 1 alone, a
yes says little, and a no may come from the missing types alone.
"""

from __future__ import annotations

import math
import os
from dataclasses import dataclass, replace
from functools import cached_property
from pathlib import Path
from typing import Iterable, Optional, Sequence

from abi_tools.abi_program import NO, Abi, Answer, Export
from abi_tools.counting import counted
from abi_tools.debug_levels import Levels
from abi_tools.elf_files import ElfFile
from abi_tools.faults import Fault
from abi_tools.file_needs import FileNeeds
from abi_tools.side_notes import ASKED_BY, NOT_MADE, weighty, without_notes
from abi_tools.verdicts import DEFAULT_SHARE, Verdict

# How many exports without types a reason names.
_NAMED = 5
_FOLDED = "gcc may have folded equal functions; build both libraries with -fno-ipa-icf, or by clang"
_UNDESCRIBED = ("what is defined in assembler, or in a unit that is built without -g, has no type; define it in C, in a unit that is built "
                "with -g")
# The kinds of exports whose types are found by their code; all others are objects.
_FUNCTIONS = ("FUNC", "NOTYPE")
# The kinds of exports that never have types: debug information has no address for thread-local objects, and indirect functions return one.
_UNTYPED = ("IFUNC", "TLS")


@dataclass(frozen=True)
class Library:
    """A library: its exports as `abi` reads them, which code has types, the values of its dynamic symbols, and what it needs of other
    files, if that can be read."""

    path: Path
    exports: dict[int, Export]
    levels: Levels
    values: list[int]
    needs: Optional[FileNeeds] = None

    @classmethod
    def read(cls, abi: Abi, path: Path) -> "Library":
        """Reads a library. Raises a fault if `abi` cannot read it."""
        exports = {export.number: export for export in abi.exports(path)}
        file = ElfFile(abi.folder / path)
        return cls(path, exports, Levels(file), file.symbol_values(), FileNeeds.read(file))

    @cached_property
    def by_label(self) -> dict[str, Export]:
        """The exports by their labels."""
        return {export.label: export for export in self.exports.values()}

    def lacks_types(self, export: Export) -> bool:
        """Whether `abi` reads the type of an export only because its debug information has no types."""
        if not export.may_lack_types:
            return False
        return export.said == "is void" or self.levels.untyped.has(self.values[export.number])

    def has_types(self, export: Export) -> bool:
        """Whether the debug information has the type of an export."""
        return export.is_typed and not self.lacks_types(export)

    def is_described(self, export: Export) -> bool:
        """Whether there is debug information with types: for a function, of its code; for an object, of any code."""
        if export.kind in _FUNCTIONS:
            return self.levels.typed.has(self.values[export.number])
        return self.levels.has_types

    def never_has_types(self, export: Export) -> bool:
        """Whether it is known that no debug information has a type of an export: it is an indirect function, a thread-local object, or
        written in assembler."""
        return export.kind in _UNTYPED or (export.kind in _FUNCTIONS and self.levels.assembler.has(self.values[export.number]))

    def typed_count(self) -> tuple[int, int]:
        """How many of the exports with a size above 0 have types, and how many such exports there are."""
        counted = [export for export in self.exports.values() if export.size]
        return sum(self.has_types(export) for export in counted), len(counted)


@dataclass(frozen=True)
class Judgement:
    """A verdict, the reasons if the gate cannot tell, the answer of `abi`, how many exports were compared, how many of them have types in
    both libraries, both libraries if they could be read, how many of the compared exports can have types (all, if it is not said), and
    the notes for which a strict gate cannot tell."""

    verdict: Verdict
    reasons: tuple[str, ...]
    answer: Optional[Answer]
    compared: int = 0
    typed: int = 0
    old: Optional[Library] = None
    new: Optional[Library] = None
    counted: Optional[int] = None
    notes: tuple[str, ...] = ()

    @property
    def counting(self) -> int:
        """How many of the compared exports count for the share of those with types."""
        return self.compared if self.counted is None else self.counted

    def words(self) -> str:
        """What was compared, in words."""
        if self.compared and not self.counting:
            return f"{self.compared} exports compared, all of them indirect functions, thread-local or in assembler, which have no types"
        return f"{self.compared} exports compared, {self.typed} with types{share_words(self.compared, self.counting, self.typed)}"

    def new_needs(self) -> str:
        """What only the new library needs of other files, in words; empty if that is nothing, or nothing is known. It is no part of the
        verdict."""
        if self.old is None or self.new is None or self.old.needs is None or self.new.needs is None:
            return ""
        more = self.new.needs.more(self.old.needs)
        return f"needs more of other files: {more}" if more else ""


def share_words(compared: int, counting: int, typed: int) -> str:
    """The share of exports with types, as words in brackets, if some of the compared exports lack them. It is rounded down, so that a share
    that is too small never looks large enough."""
    if typed == compared or not counting:
        return ""
    return f" ({math.floor(1000 * typed / counting) / 10:g} % of the {counting} that can have some)"


def judge(abi: Abi, old_path: Path, new_path: Path, rules: Optional[Path], least_share: float = DEFAULT_SHARE,
          is_strict: bool = False) -> Judgement:
    """The verdict on two libraries. At least `least_share` percent of the compared exports must have types. If `abi` refuses an input
    or dies, the gate cannot tell. A strict gate cannot tell either if `abi` said yes and has a note on what can break compiled callers."""
    judgement = _judged(abi, abi.check(old_path, new_path, rules, is_strict), old_path, new_path, least_share)
    return _strictly(judgement) if is_strict else judgement


def _judged(abi: Abi, answer: Answer, old_path: Path, new_path: Path, least_share: float) -> Judgement:
    """The verdict on two libraries, from the answer of `abi`."""
    if not answer.is_answer:
        return Judgement(Verdict.CANNOT_TELL, (answer.why(),), answer)
    try:
        old, new = Library.read(abi, old_path), Library.read(abi, new_path)
    except Fault as fault:
        return Judgement(Verdict.CANNOT_TELL, (str(fault),), answer)
    return judge_answer(answer, old, new, least_share)


def judge_answer(answer: Answer, old: Library, new: Library, least_share: float = DEFAULT_SHARE) -> Judgement:
    """The same verdict, from an answer yes or no of `abi` and from both libraries."""
    return _of_no(answer, old, new) if answer.status == NO else _of_yes(answer, old, new, least_share)


def _strictly(judgement: Judgement) -> Judgement:
    """The judgement of a strict gate. Notes that only this gate asked for are left out of the answer."""
    answer = judgement.answer
    assert answer is not None
    found = weighty(answer.notes)
    if os.environ.get(ASKED_BY) != "1":
        judgement = replace(judgement, answer=replace(answer, notes=without_notes(answer.notes)))
    if judgement.verdict != Verdict.YES or found is not None and not found.count:
        return judgement
    if found is None:
        return replace(judgement, verdict=Verdict.CANNOT_TELL, reasons=(NOT_MADE,))
    return replace(judgement, verdict=Verdict.CANNOT_TELL, reasons=(found.reason(),), notes=found.printed)


def _of_yes(answer: Answer, old: Library, new: Library, least_share: float) -> Judgement:
    """The verdict if `abi` said yes."""
    bound = [(old.exports[one], new.exports[two]) for one, two in answer.bound]
    counting = [(one, two) for one, two in bound if _counts(old, new, one, two)]
    is_without_types = all(old.never_has_types(one) and new.never_has_types(two) for one, two in bound)
    typed = sum(old.has_types(one) and new.has_types(two) for one, two in counting)
    lost = [two for one, two in bound if old.has_types(one) and new.lacks_types(two)]
    reasons = []
    if not bound:
        reasons.append("nothing was compared: no export of the old library, or none that the rule file does not leave out")
    elif lost:
        reasons.append(_lost(len(lost), f"{new.path} {new.levels.reason()}"))
    elif not typed and not is_without_types:
        reasons.append(f"no types were compared: {_without_types(old, new, counting)}")
    elif 100 * typed < least_share * len(counting):
        reasons.append(f"{typed} of {len(counting)} exports have types in both libraries, which is less than {least_share:g} of 100: "
                       f"{_untyped(counting, old, new)}")
    verdict = Verdict.CANNOT_TELL if reasons else Verdict.YES
    return Judgement(verdict, tuple(reasons), answer, len(bound), typed, old, new, len(counting))


def _counts(old: Library, new: Library, one: Export, two: Export) -> bool:
    """Whether an export counts for the share of those with types. Debug information never has a type of an indirect function, of a
    thread-local object, of a function in assembler, and of a symbol that a linker script, or assembler without `.size`, makes: it has
    the size 0 and no entry."""
    return not (old.never_has_types(one) or new.never_has_types(two)) and (one.size > 0 or old.has_types(one))


def _of_no(answer: Answer, old: Library, new: Library) -> Judgement:
    """The verdict if `abi` said no: the gate cannot tell if all rows come from missing types."""
    doubtful = [row for row in answer.rows if _is_doubtful(row, old, new)]
    if len(doubtful) < len(answer.rows):
        return Judgement(Verdict.NO, (), answer, old=old, new=new)
    labels = list(dict.fromkeys(row.split(" ", 2)[1].rstrip(":") for row in doubtful))
    if any(old.lacks_types(old.by_label[label]) for label in labels if label in old.by_label):
        reason = f"{counted(len(labels), 'export')} cannot be compared: {old.path} {old.levels.reason()}"
    elif all(new.is_described(new.by_label[label]) for label in labels if label in new.by_label):
        reason = _lost(len(labels), _beside_types([new.by_label[label] for label in labels if label in new.by_label], new))
    else:
        reason = _lost(len(labels), f"{new.path} {new.levels.reason()}")
    return Judgement(Verdict.CANNOT_TELL, (reason,), answer, old=old, new=new)


def _is_doubtful(row: str, old: Library, new: Library) -> bool:
    """Whether a row of the report comes from missing types: the type of the export is gone, either with the debug information or
    because the compiler folded equal functions, or `abi` read it from debug information without types."""
    rule, label = row.split(" ", 2)[:2]
    first, second = old.by_label.get(label.rstrip(":")), new.by_label.get(label.rstrip(":"))
    if first is None or second is None:
        return False
    return rule == "X6" or rule.startswith("L") and (old.lacks_types(first) or new.lacks_types(second))


def _lost(count: int, why: str) -> str:
    """Says how many exports lost their types, and why."""
    return f"the types of {counted(count, 'export')} are gone: {why}"


def _beside_types(exports: Sequence[Export], new: Library) -> str:
    """Says why exports may have no types although a library has types of other code, and what helps: functions were folded, and objects
    were not."""
    functions = [one.label for one in exports if one.kind in _FUNCTIONS]
    objects = [one.label for one in exports if one.kind not in _FUNCTIONS]
    said = []
    if functions:
        said.append(f"{new.path} has types for the code around {_named(functions)}: {_FOLDED}")
    if objects:
        said.append(f"{new.path} has types, but none of {counted(len(objects), 'object')}, {_named(objects)}: {_UNDESCRIBED}")
    return "; ".join(said)


def _named(labels: Iterable[str]) -> str:
    """The first labels, and how many more there are."""
    found = list(dict.fromkeys(labels))
    more = f" and {len(found) - _NAMED} more" if len(found) > _NAMED else ""
    return f"{', '.join(found[:_NAMED])}{more}"


def _untyped(pairs: Sequence[tuple[Export, Export]], old: Library, new: Library) -> str:
    """Names the first exports without types in one of the libraries, and says what helps: for functions that gcc may have folded, and for
    objects."""
    lacking = [(library, one) for pair in pairs for library, one in zip((old, new), pair) if not library.has_types(one)]
    beside = [one for library, one in lacking if not one.is_typed and library.is_described(one)]
    advice = [_FOLDED] if any(one.kind in _FUNCTIONS for one in beside) else []
    advice += [_UNDESCRIBED] if any(one.kind not in _FUNCTIONS for one in beside) else []
    return "; ".join([f"no types of {_named(export.label for _, export in lacking)}", *advice])


def _without_types(old: Library, new: Library, counting: Sequence[object]) -> str:
    """Says which library has no types, and why."""
    if not counting:
        return (f"all exports of {old.path} have size 0, as in assembler without .size, and no types"
                if all(not export.size for export in old.exports.values()) else
                f"all exports of {old.path} are indirect functions, thread-local, in assembler, or of size 0 and without types")
    untyped = [library for library in (old, new) if not library.typed_count()[0]] or [old, new]
    return ", and ".join(f"{one.path} {one.levels.reason()}" for one in untyped)

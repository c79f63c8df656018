"""Judges each pair of versions: steps by `abi check`, further ones by `abi compose` where each step is yes, and else by `abi check`. Each
pair is judged in a process of its own, under limits, which ends with the tool."""

from __future__ import annotations

import itertools
import re
from collections import Counter
from dataclasses import dataclass, field, replace
from functools import partial
from pathlib import Path
from typing import Callable, Iterator, Optional, Sequence, TypeVar

from abi_release.limited_program import LimitedAbi, Limits
from abi_tools.abi_program import YES
from abi_tools.gates import Judgement, Library, judge, judge_answer
from abi_tools.jobs import Failure, StepLimits, Steps
from abi_tools.verdicts import Verdict

Value = TypeVar("Value")
# The name of the file of a version in a sentence.
_FILE = re.compile(r"\bversion-([1-9][0-9]{0,8})\b")


def file_of(number: int) -> str:
    """The name of the file of a version, which sentences of `abi` have."""
    return f"version-{number + 1}"


def with_names(reason: str, names: Sequence[str]) -> str:
    """A sentence with the names of versions in place of their files."""
    return _FILE.sub(lambda found: names[int(found[1]) - 1] if int(found[1]) <= len(names) else found[0], reason)


@dataclass(frozen=True)
class Cell:
    """What is known of two versions, by their numbers: whether the later one may replace the earlier one, why not where nothing can be
    told, what `abi` printed, and whether the certificate was composed."""

    old: int
    new: int
    verdict: Verdict
    reasons: tuple[str, ...]
    text: str
    is_composed: bool
    compared: int = 0
    typed: int = 0

    @classmethod
    def of(cls, old: int, new: int, judgement: Judgement, is_composed: bool = False) -> "Cell":
        """The cell of a judgement."""
        text = "" if judgement.answer is None else judgement.answer.text
        return cls(old, new, judgement.verdict, judgement.reasons, text, is_composed, judgement.compared, judgement.typed)

    @classmethod
    def cannot_tell(cls, old: int, new: int, reason: str) -> "Cell":
        """The cell of two versions of which nothing can be told."""
        return cls(old, new, Verdict.CANNOT_TELL, (reason,), "", False)

    @property
    def rows(self) -> list[str]:
        """The breaks; empty unless the answer is no."""
        return self.text.splitlines()[1:] if self.verdict == Verdict.NO else []

    @property
    def breaks(self) -> dict[str, int]:
        """How many breaks there are by rule."""
        return dict(sorted(Counter(row.split(" ", 1)[0] for row in self.rows).items()))

    @property
    def file(self) -> str:
        """The name of the file with the certificate or the report; empty where nothing can be told."""
        if self.verdict == Verdict.CANNOT_TELL:
            return ""
        return f"{self.old + 1}-{self.new + 1}.{'cert' if self.verdict == Verdict.YES else 'report'}"


@dataclass(frozen=True)
class Judging:
    """How two versions are judged: the folder of their files, the rule file, the share of exports that must have types, and the limits of
    each run of `abi`. Its methods run in processes of their own."""

    folder: Path
    rules: Optional[Path]
    least_share: float
    limits: Limits

    def labels(self, number: int) -> list[str]:
        """The exports of a version. Raises a fault if `abi` cannot read it."""
        return sorted(export.label for export in self._abi().exports(Path(file_of(number))))

    def cell(self, old: int, new: int, is_composable: bool) -> Cell:
        """The cell of two versions: by the certificates up to the version before the last and from there, if there are both. The
        certificate of a yes is kept for longer ways."""
        found = (self._composed(old, new) if is_composable else None) or self._judged(old, new)
        if found.verdict == Verdict.YES:
            (self.folder / found.file).write_text(found.text, "utf-8", "surrogateescape")
        return found

    def _composed(self, old: int, new: int) -> Optional[Cell]:
        """The cell by composed certificates; None if `abi` cannot compose them."""
        numbers = old, new - 1, new
        certificates = [f"{one + 1}-{two + 1}.cert" for one, two in itertools.pairwise(numbers)]
        abi = self._abi()
        answer = abi.run("compose", *map(file_of, numbers), *certificates)
        if answer.status != YES or not answer.is_answer:
            return None
        first, second = (Library.read(abi, Path(file_of(number))) for number in (old, new))
        return Cell.of(old, new, judge_answer(answer, first, second, self.least_share), is_composed=True)

    def _judged(self, old: int, new: int) -> Cell:
        abi = self._abi()
        judgement = judge(abi, Path(file_of(old)), Path(file_of(new)), self.rules, self.least_share)
        return Cell.cannot_tell(old, new, abi.trouble) if abi.trouble else Cell.of(old, new, judgement)

    def _abi(self) -> LimitedAbi:
        return LimitedAbi(self.folder, self.limits)


@dataclass
class History:
    """The versions of a library, and what is known of each pair and of the exports of each version. `workers` pairs are judged at the
    same time."""

    names: Sequence[str]
    judging: Judging
    workers: int
    cells: dict[tuple[int, int], Cell] = field(default_factory=dict)
    labels: dict[int, list[str] | Failure] = field(default_factory=dict)

    def judge(self) -> None:
        """Judges all pairs: first the steps, and then longer ways by the certificates of shorter ones."""
        size = len(self.names)
        self.labels = dict(self._done([partial(self.judging.labels, number) for number in range(size)]))
        for length in range(1, size):
            pairs = [(old, old + length) for old in range(size - length)]
            work = [partial(self.judging.cell, *pair, self._is_composable(*pair)) for pair in pairs]
            for number, found in self._done(work):
                pair = pairs[number]
                cell = Cell.cannot_tell(*pair, found.reason) if isinstance(found, Failure) else found
                self.cells[pair] = replace(cell, reasons=tuple(with_names(reason, self.names) for reason in cell.reasons))

    def _done(self, work: Sequence[Callable[[], Value]]) -> Iterator[tuple[int, Value | Failure]]:
        limits = self.judging.limits
        return Steps[Value](StepLimits(limits.megabytes, limits.seconds), self.workers).run(work)

    def _is_composable(self, old: int, new: int) -> bool:
        """Whether there are certificates up to the version before the last and from there. With a rule file nothing is composed, since
        `abi compose` takes none."""
        if self.judging.rules is not None or new - old == 1:
            return False
        return self.cells[old, new - 1].verdict == self.cells[new - 1, new].verdict == Verdict.YES

    def steps(self) -> list[Cell]:
        """The cells of each version and the next."""
        return [self.cells[number, number + 1] for number in range(len(self.names) - 1)]

    def verdict(self) -> Verdict:
        """No if a step is no; else cannot tell if that is the answer to one; else yes."""
        verdicts = {cell.verdict for cell in self.steps()}
        return Verdict.NO if Verdict.NO in verdicts else Verdict.CANNOT_TELL if Verdict.CANNOT_TELL in verdicts else Verdict.YES

    def exports(self) -> dict[str, list[int]]:
        """The exports of all versions, each with the numbers of the versions that have it, in the order in which they came."""
        found: dict[str, list[int]] = {}
        for number in range(len(self.names)):
            for label in self.known_labels(number) or ():
                found.setdefault(label, []).append(number)
        return found

    def known_labels(self, number: int) -> Optional[list[str]]:
        """The exports of a version; None if it cannot be read."""
        labels = self.labels[number]
        return None if isinstance(labels, Failure) else labels


@dataclass(frozen=True)
class Export:
    """An export: the version in which it came, and the last one that has it, by number; `has_gaps` if a version in between lacks it."""

    label: str
    came: int
    last: int
    has_gaps: bool


def exports_of(history: History) -> list[Export]:
    """The exports in the order in which they came."""
    unread = {number for number in range(len(history.names)) if history.known_labels(number) is None}
    found = []
    for label, numbers in history.exports().items():
        between = set(range(numbers[0], numbers[-1])) - unread
        found.append(Export(label, numbers[0], numbers[-1], not between <= set(numbers)))
    return sorted(found, key=lambda one: (one.came, one.last, one.label))


def changes(history: History) -> list[tuple[list[str], list[str]]]:
    """The exports that came and those that went, for each step. Nothing is known of a step from or to a version that cannot be read."""
    found = []
    for old, new in itertools.pairwise(history.known_labels(number) for number in range(len(history.names))):
        is_known = old is not None and new is not None
        before, after = set(old or ()) if is_known else set(), set(new or ()) if is_known else set()
        found.append((sorted(after - before), sorted(before - after)))
    return found

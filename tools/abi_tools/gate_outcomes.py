"""The outcomes of a gate: one for each library, judged in a process of its own under limits."""

from __future__ import annotations

import shlex
from collections import Counter
from dataclasses import dataclass, replace
from functools import partial
from pathlib import Path
from typing import Iterator, Optional, Sequence

from abi_tools.abi_program import Abi
from abi_tools.counting import counted
from abi_tools.gate_inputs import Inputs, Named, Pair, trouble_of
from abi_tools.gates import Judgement, judge
from abi_tools.jobs import Failure, StepLimits, Steps
from abi_tools.shown import line_shown, name_shown
from abi_tools.side_notes import PREFIX
from abi_tools.symbols_files import SymbolsFile
from abi_tools.verdicts import Verdict

GONE, NEW, LEFT_OUT = "gone", "new", "left out"
# The order of the lines.
_ORDER = (Verdict.NO.words(), GONE, Verdict.CANNOT_TELL.words(), Verdict.YES.words(), NEW, LEFT_OUT)
_VERDICTS = {Verdict.NO.words(): Verdict.NO, GONE: Verdict.NO, Verdict.CANNOT_TELL.words(): Verdict.CANNOT_TELL,
             Verdict.YES.words(): Verdict.YES}


@dataclass(frozen=True)
class Break:
    """A row of the report of `abi`: the whole row, its rule and its export; and the plain name of the rule, and the file and line of the
    new type, if `abi-json` said them."""

    row: str
    rule: str
    export: str
    name: str = ""
    file: str = ""
    line: int = 0

    @classmethod
    def of_row(cls, row: str) -> "Break":
        """The break of a row."""
        words = row.split(" ", 2)
        return cls(row, words[0], words[1].rstrip(":") if len(words) > 1 else "")


@dataclass(frozen=True)
class Grown:
    """A type that has more than before: its name, whether these are `members` in holes or `enumerators`, their names, and the exports that
    lead to it."""

    type_name: str
    parts: str
    added: tuple[str, ...]
    exports: tuple[str, ...]


@dataclass(frozen=True)
class Outcome:
    """What became of a library: the word for it, its name, both files, the sentence, the text and the notes of `abi`, the breaks of a no,
    how many exports were compared, counted for the share, and had types, the remarks on files of symbols, the types of a yes that have
    grown (none if that cannot be told), and where the certificate and the report are kept, or why there is no report."""

    word: str
    name: str
    old: Optional[Path] = None
    new: Optional[Path] = None
    said: str = ""
    text: str = ""
    notes: tuple[str, ...] = ()
    breaks: tuple[Break, ...] = ()
    compared: int = 0
    counting: int = 0
    typed: int = 0
    remarks: tuple[str, ...] = ()
    grown: Optional[tuple[Grown, ...]] = ()
    certificate: Optional[Path] = None
    report: Optional[Path] = None
    no_report: str = ""

    @property
    def verdict(self) -> Optional[Verdict]:
        """The verdict; none of a library that is new or left out."""
        return _VERDICTS.get(self.word)

    @property
    def has_report(self) -> bool:
        """Whether `abi-report` can say more: on no and `cannot tell`, if both files are there."""
        return self.word in (Verdict.NO.words(), Verdict.CANNOT_TELL.words()) and not any(
            path is None or trouble_of(path) for path in (self.old, self.new))

    def line(self, rules: Optional[Path]) -> str:
        """The line on one of several libraries."""
        parts = [self.said, f"certificate {self.certificate}" if self.certificate else "", self.where(rules)]
        said = "; ".join(part for part in parts if part)
        return line_shown(f"{self.word} {name_shown(self.name)}{': ' if said else ''}{said}")

    def where(self, rules: Optional[Path]) -> str:
        """Where the report is, or the command that makes one."""
        if self.report is not None:
            return f"report {self.report}"
        if self.no_report:
            return f"no report: {self.no_report}"
        if self.word != Verdict.NO.words() or self.old is None or self.new is None:
            return ""
        options = [] if rules is None else ["--rules", str(rules)]
        return f"see {shlex.join(['abi-report', *options, str(self.old), str(self.new)])}"


@dataclass(frozen=True)
class Judging:
    """How libraries are judged: the program, the rule file, the share of exports that must have types, whether notes on what can break
    callers count, the files of symbols, and the limits of each process."""

    abi: Abi
    rules: Optional[Path]
    least_share: float
    is_strict: bool
    symbols: tuple[SymbolsFile, ...]
    limits: StepLimits
    workers: int

    def outcomes(self, inputs: Inputs) -> list[Outcome]:
        """The outcomes of all inputs: first no, then `cannot tell`, then yes."""
        found = [*self._judged(inputs.pairs), *_unjudged(inputs)]
        return sorted(found, key=lambda one: (_ORDER.index(one.word), one.name))

    def _judged(self, pairs: Sequence[Pair]) -> Iterator[Outcome]:
        for number, value in Steps[Outcome](self.limits, self.workers).run([partial(self._outcome, pair) for pair in pairs]):
            yield _cannot_tell(pairs[number], value.reason) if isinstance(value, Failure) else value

    def _outcome(self, pair: Pair) -> Outcome:
        """The outcome of a pair. Runs in a process of its own."""
        trouble = trouble_of(pair.old) or trouble_of(pair.new)
        if trouble:
            return _cannot_tell(pair, trouble)
        judgement = judge(self.abi, pair.old, pair.new, self.rules, self.least_share, self.is_strict)
        return replace(_outcome_of(pair, judgement), remarks=tuple(self._remarks(pair, judgement)))

    def _remarks(self, pair: Pair, judgement: Judgement) -> Iterator[str]:
        """What files of symbols say of the exports of the new library."""
        for file in self.symbols:
            if judgement.new is not None and pair.name in file.libraries:
                yield from file.remarks(pair.name, judgement.new.by_label)


def _outcome_of(pair: Pair, judgement: Judgement) -> Outcome:
    answer = judgement.answer
    found = Outcome(judgement.verdict.words(), pair.name, pair.old, pair.new, compared=judgement.compared, counting=judgement.counting,
                    typed=judgement.typed, text="" if answer is None else answer.text,
                    notes=() if answer is None else tuple(answer.notes.splitlines()))
    if judgement.verdict == Verdict.YES:
        return replace(found, said="; ".join(filter(None, (judgement.words(), judgement.new_needs()))))
    if judgement.verdict == Verdict.NO and answer is not None:
        return replace(found, said=counted(len(answer.rows), "break"), breaks=tuple(map(Break.of_row, answer.rows)))
    return replace(found, said="; ".join(judgement.reasons), notes=tuple(f"{PREFIX}{note}" for note in judgement.notes))


def _cannot_tell(pair: Pair, reason: str) -> Outcome:
    return Outcome(Verdict.CANNOT_TELL.words(), pair.name, pair.old, pair.new, reason)


def _unjudged(inputs: Inputs) -> Iterator[Outcome]:
    """The outcomes of libraries that are in no pair."""
    yield from (_unpaired(GONE, one, f"no new library has this name; {one.path} has it") for one in inputs.gone)
    yield from (_unpaired(Verdict.CANNOT_TELL.words(), one, one.reason) for one in inputs.unreadable)
    yield from (_unpaired(NEW, one, f"no old library has this name; {one.path} has it") for one in inputs.new)
    yield from (_unpaired(LEFT_OUT, one, one.reason) for one in inputs.left_out)


def _unpaired(word: str, one: Named, said: str) -> Outcome:
    is_new = word == NEW
    return Outcome(word, one.name, None if is_new else one.path, one.path if is_new else None, said)


def verdict_of(outcomes: Sequence[Outcome]) -> Verdict:
    """The answer: no if one library has it, else cannot tell if one has it or none was judged, else yes."""
    verdicts = {one.verdict for one in outcomes} - {None}
    if Verdict.NO in verdicts:
        return Verdict.NO
    return Verdict.YES if verdicts == {Verdict.YES} else Verdict.CANNOT_TELL


def counts_of(outcomes: Sequence[Outcome]) -> str:
    """How many libraries there are of each kind, in words."""
    counts = Counter(one.word for one in outcomes)
    said = ", ".join(f"{counts[word]} {word}" for word in _ORDER if counts[word])
    return f"{counted(len(outcomes), 'library', 'libraries')}{': ' + said if said else ''}"

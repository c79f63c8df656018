"""What a gate keeps beside its answer: reports for people by `abi-report`, and the places in the source of what broke, from `abi-json`.
Neither can change an answer."""

from __future__ import annotations

import contextlib
import importlib
import io
from dataclasses import dataclass, replace
from functools import partial
from pathlib import Path
from typing import Any, Callable, Optional, Sequence

from abi_tools.faults import Fault
from abi_tools.gate_outcomes import Break, Grown, Outcome
from abi_tools.jobs import Failure, StepLimits, Steps
from abi_tools.output_file import write_whole
from abi_tools.verdicts import Verdict

_SUFFIX = ".html"
_REPORTED = (1, 2)


@dataclass(frozen=True)
class Beside:
    """What is wanted beside the answer: the options of `abi-report`, the rule file, and the limits of each process."""

    options: tuple[str, ...]
    rules: Optional[Path]
    limits: StepLimits
    workers: int

    def with_reports(self, outcomes: Sequence[Outcome], folder: Path, names: dict[str, str]) -> list[Outcome]:
        """The outcomes, each no and `cannot tell` with a report in the folder, or with the reason why there is none. `names` has a file
        name for each library."""
        places = {number: folder / f"{names[one.name]}{_SUFFIX}" for number, one in enumerate(outcomes) if one.has_report}
        steps: list[Callable[[], Path]] = [partial(self._report, outcomes[number], place) for number, place in places.items()]
        found = list(outcomes)
        for at, value in Steps[Path](self.limits, self.workers).run(steps):
            number = list(places)[at]
            found[number] = (replace(found[number], no_report=value.reason) if isinstance(value, Failure)
                             else replace(found[number], report=value))
        return found

    def _report(self, one: Outcome, place: Path) -> Path:
        """Writes the report on a library. Raises a fault if there is none."""
        text = io.StringIO()
        rules = [] if self.rules is None else ["--rules", str(self.rules)]
        try:
            with contextlib.redirect_stdout(text):
                status = importlib.import_module("abi_report.command").main(
                    ["--format", "html", *self.options, *rules, "--", str(one.old), str(one.new)])
        except SystemExit as ended:
            raise Fault(f"abi-report ended with status {ended.code}") from ended
        if status not in _REPORTED:
            raise Fault(f"abi-report ended with status {status}")
        write_whole(place, text.getvalue().encode("utf-8", "backslashreplace"))
        return place

    def with_places(self, outcomes: Sequence[Outcome]) -> list[Outcome]:
        """The outcomes, the breaks of each with names and places as far as `abi-json` says them."""
        numbers = [number for number, one in enumerate(outcomes) if one.breaks]
        steps = [partial(self._placed, outcomes[number]) for number in numbers]
        found = list(outcomes)
        for at, value in Steps[tuple[Break, ...]](self.limits, self.workers).run(steps):
            if not isinstance(value, Failure):
                found[numbers[at]] = replace(found[numbers[at]], breaks=value)
        return found

    def with_grown(self, outcomes: Sequence[Outcome]) -> list[Outcome]:
        """The outcomes, each yes with the types that have more members or enumerators than before, if that can be told."""
        numbers = [number for number, one in enumerate(outcomes) if one.verdict == Verdict.YES]
        steps = [partial(self._grown, outcomes[number]) for number in numbers]
        found = list(outcomes)
        for at, value in Steps[tuple[Grown, ...]](self.limits, self.workers).run(steps):
            found[numbers[at]] = replace(found[numbers[at]], grown=None if isinstance(value, Failure) else value)
        return found

    def _grown(self, one: Outcome) -> tuple[Grown, ...]:
        """The types of a yes that have grown. Raises a fault if that cannot be told."""
        programs = importlib.import_module("abi.programs")
        try:
            notes = programs.check(one.old, one.new, self.rules, notes=True).notes
        except programs.NoAnswer as error:
            raise Fault(str(error)) from error
        if notes is None:
            raise Fault("memory or a limit left no notes")
        found = importlib.import_module("abi_report.added").added(one.old, one.new, one.text, notes)
        return tuple(Grown(more.type_name, more.parts, more.names, more.exports) for more in found)

    def _placed(self, one: Outcome) -> tuple[Break, ...]:
        """The breaks of an outcome with names and places. Raises a fault if `abi-json` does not say the same ones."""
        programs = importlib.import_module("abi.programs")
        try:
            found = programs.check(one.old, one.new, self.rules).breaks
        except programs.NoAnswer as error:
            raise Fault(str(error)) from error
        if [(two.rule, two.export) for two in found] != [(two.rule, two.export) for two in one.breaks]:
            raise Fault("abi-json has other breaks")
        places = {(said.export, said.steps): said.new_place or said.old_place for said in found}
        return tuple(_with_place(known, said.name, [places.get((said.export, said.steps[:end])) for end in range(len(said.steps), -1, -1)])
                     for known, said in zip(one.breaks, found))


def _with_place(known: Break, name: str, places: Sequence[Any]) -> Break:
    """A break with its name and the innermost of some places: that of its type, or else of a type that holds it."""
    place = next((one for one in places if one is not None), None)
    return replace(known, name=name) if place is None else replace(known, name=name, file=place.file, line=place.line)

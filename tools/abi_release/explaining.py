"""Makes the pages of `abi-report` on libraries with a no, if they are wanted."""

from __future__ import annotations

import sys
from pathlib import Path
from typing import NamedTuple

from abi_release.digests import digest_of_file
from abi_release.judging import Outcome, Settings, guarded, rules_of
from abi_release.limited_program import LimitedAbi, Limits
from abi_release.sources import Work
from abi_release.stored_files import Json, Store
from abi_release.unpacked import Trouble, unpacked
from abi_tools.abi_program import NO
from abi_tools.output_file import write_whole

_TOOLS = str(Path(__file__).resolve().parent.parent)
# Starts `abi-report` from the folder of these modules, whether they are installed or not.
_START = f"import sys; sys.path.insert(0, {_TOOLS!r}); from abi_tools.entry_points import abi_report; sys.exit(abi_report())"


class Explain(NamedTuple):
    """A task: to make the page on a library of two packages, which has this result; the packages were opened with this identity."""

    work: Work
    one: str
    result: str
    identity: tuple[str, ...]

    @property
    def name(self) -> str:
        """The names of the packages, and the library."""
        return f"{self.work.name} explained {self.one}"

    @property
    def library(self) -> str:
        """Empty: no line of a record comes of this task."""
        return ""

    @property
    def mark(self) -> str:
        """What identifies this task within a run."""
        return self.name

    def do(self, settings: Settings, _passed_over: tuple[str, ...] = ()) -> Outcome:
        """Does the task."""
        store = settings.store
        return guarded(lambda: _explained(self, settings, store), settings, store, self.mark)


class _LimitedReport(LimitedAbi):
    """The program `abi-report`, under the same limits."""

    def __init__(self, folder: Path, limits: Limits) -> None:
        super().__init__(folder, limits)
        self.command = [sys.executable, "-B", "-c", _START]


def _explained(task: Explain, settings: Settings, store: Store) -> Outcome:
    assert settings.reports is not None
    settings.reports.check()
    page, result = settings.reports.page(task.result), store.result(task.result)
    if result is None:
        raise Trouble("the result of the library is gone")
    if page.is_file():
        return Outcome()
    packages = unpacked(settings.to_unpack(task.work, task.identity))
    pair = packages.pairs[task.one]
    old, new = (one.put() for one in packages.joined(pair))
    rules = rules_of(settings, pair, packages).file
    _check_same(result, [packages.folder / file for file in (old, new)])
    report = _LimitedReport(packages.folder, settings.limits)
    answer = report.run("--format=html", *([] if rules is None else [f"--rules={rules}"]), "--", str(old), str(new))
    if report.trouble or answer.status != NO:
        raise Trouble(report.trouble or answer.notes.strip() or "abi-report does not say no")
    packages.check()
    write_whole(page, answer.text.encode("utf-8", "surrogateescape"))
    return Outcome()


def _check_same(result: Json, files: list[Path]) -> None:
    """Raises Trouble unless the files are those of the result."""
    if [digest_of_file(file) for file in files] != [result["digests"][side] for side in ("old", "new")]:
        raise Trouble("the libraries are others than those that were judged")

"""The command `abi-history`."""

from __future__ import annotations

import argparse
import contextlib
import json
import re
import sys
import tempfile
from collections import Counter
from functools import partial
from pathlib import Path
from typing import Any, Sequence

from abi_tools.abi_program import Abi
from abi_tools.arguments import Arguments, add_require_types
from abi_tools.counting import counted
from abi_tools.faults import Fault
from abi_tools.jobs import Failure, StepLimits, Steps, default_megabytes, processors
from abi_tools.output_file import write_whole
from abi_tools.verdicts import Verdict
from abi_release.digests import OF_NOTHING, digest_of_file
from abi_release.limited_program import CLOCK, Limits, check_time, limit_of
from abi_release.scratch import Scratch, sweep
from abi_release.texts import shown, whole_output
from abi_history.judging import Cell, History, Judging, exports_of, file_of
from abi_history.pages import page_of
from abi_history.versions import Given, same_name, soname_of

_DESCRIPTION = """\
Says of successive versions of a library which later one may replace which earlier one. RELEASE is [NAME=]FILE: a library or a baseline
of abi-baseline; or [NAME=]PACKAGE[,PACKAGE..]: a .deb or .rpm with the library, and those with its debug information. Versions come in
their order, the oldest first. `abi check` judges each version and the next; further pairs follow from the certificates in between by
`abi compose`, where each step is yes, and are else judged, too. `abi` is the one that the variable ABI names, or else the one on the PATH.
"""
_STATUSES = """\
It prints a line for each step. FOLDER gets index.html, history.json, and the certificate or the report of each pair.
Exit status:
  0   yes: each version may replace the one before it
  1   no: one may not
  2   it cannot tell for one step, and says no to none; also if an input cannot be read
  64  the arguments are wrong
"""
_OUTPUTS = ("history.json", "index.html")
_OF_PAIR = re.compile(r"[0-9]+-[0-9]+\.(cert|report)")


def main(arguments: Sequence[str]) -> int:
    """Judges versions as the arguments say, and returns the verdict on the steps."""
    with whole_output():
        return _main(arguments)


def _main(arguments: Sequence[str]) -> int:
    parser = _parser()
    given = parser.parse_args(arguments)
    versions = _versions(parser, given)
    if given.rules is not None and not given.rules.is_file():
        raise Fault(f"there is no rule file {given.rules}")
    Abi()
    check_time()
    _clear(given.out)
    sweep(Path(tempfile.gettempdir()))
    with contextlib.closing(Scratch.new(Path(tempfile.gettempdir()))) as scratch:
        limits = Limits(given.memory or default_megabytes(given.workers), given.seconds, CLOCK * given.seconds, 0)
        judging = Judging(scratch.folder, None if given.rules is None else given.rules.resolve(), given.require_types, limits)
        history = History([version.name for version in versions], judging, given.workers)
        _put(versions, given, judging)
        history.judge()
        _write(history, given)
    for cell in history.steps():
        print(line_of(history, cell, given.out))
    print(_summary(history))
    return int(history.verdict())


def _versions(parser: Arguments, given: argparse.Namespace) -> list[Given]:
    """The versions of the command line. Ends with an error of arguments if it does not name each of them once."""
    if len(given.release) < 2:
        parser.error("a history needs two versions")
    versions = [Given.parsed(text) for text in given.release]
    twice = same_name(versions)
    if twice is not None:
        parser.error(f"two versions have the name {twice}: name them as NAME=FILE")
    for version in versions:
        if len(version.files) > 1 and not version.is_package:
            parser.error(f"{version.name}: only packages have several files")
    return versions


def _clear(out: Path) -> None:
    """Makes the folder, and removes what an earlier run left there: its certificates may be of other versions."""
    out.mkdir(parents=True, exist_ok=True)
    for place in out.iterdir():
        if place.name in _OUTPUTS or _OF_PAIR.fullmatch(place.name):
            place.unlink()


def _put(versions: Sequence[Given], given: argparse.Namespace, judging: Judging) -> None:
    """Puts the libraries into the folder, each in a process of its own. Raises a fault if that fails for one."""
    work, limits = judging.folder, judging.limits
    steps = [partial(version.put, work / file_of(number), work, given.library) for number, version in enumerate(versions)]
    for number, why in sorted(Steps[str](StepLimits(limits.megabytes, limits.seconds), given.workers).run(steps)):
        name = versions[number].name
        if isinstance(why, Failure):
            raise Fault(f"{name}: {why.reason}")
        if why:
            print(f"abi-history: {shown(name)} is judged as it was shipped: {shown(why)}", file=sys.stderr)


def _parser() -> Arguments:
    parser = Arguments("abi-history", _DESCRIPTION, _STATUSES)
    parser.add_argument("--out", type=Path, default=Path("abi-history"), metavar="FOLDER",
                        help="where to put the page, the document, certificates and reports (default: abi-history)")
    parser.add_argument("--library", metavar="SONAME", help="the soname of the library in packages that have several")
    parser.add_argument("--rules", type=Path, metavar="FILE", help="a rule file of abi: then nothing is composed")
    add_require_types(parser)
    parser.add_argument("--workers", type=limit_of, default=processors(), metavar="N",
                        help="how many pairs to judge at the same time (default: one for each processor)")
    parser.add_argument("--memory", type=limit_of, metavar="MB",
                        help="the memory limit of each run of abi, in megabytes (default: a worker's share of half of the memory, from "
                             "1024 to 4096)")
    parser.add_argument("--seconds", type=limit_of, default=600, metavar="S",
                        help="the processor time limit of each run of abi (default: 600)")
    parser.add_argument("release", nargs="+", metavar="RELEASE",
                        help="a version of the library, the oldest first: a file, or packages of it")
    return parser


def line_of(history: History, cell: Cell, out: Path) -> str:
    """The line of two versions."""
    parts = list(cell.reasons)
    if cell.verdict == Verdict.YES:
        parts = [f"{cell.compared} exports compared, {cell.typed} with types"]
    elif cell.verdict == Verdict.NO:
        parts = [f"{counted(len(cell.rows), 'break')} ({', '.join(f'{rule} {times}' for rule, times in cell.breaks.items())})"]
    parts += [f"{'certificate' if cell.verdict == Verdict.YES else 'report'} {out / cell.file}"] if cell.file else []
    return shown(f"{cell.verdict.words()} {history.names[cell.old]} -> {history.names[cell.new]}: {'; '.join(parts)}")


def _summary(history: History) -> str:
    """How many pairs of versions have each answer."""
    counts = Counter(cell.verdict.words() for cell in history.cells.values())
    said = ", ".join(f"{count} {word}" for word, count in sorted(counts.items()))
    composed = sum(cell.is_composed for cell in history.cells.values())
    return f"{counted(len(history.names), 'version')}, {counted(len(history.cells), 'pair')}: {said}; {composed} composed"


def _write(history: History, given: argparse.Namespace) -> None:
    """Writes the certificates and reports, the document and the page."""
    for cell in history.cells.values():
        if cell.file:
            write_whole(given.out / cell.file, cell.text.encode("utf-8", "surrogateescape"))
    document = document_of(history, OF_NOTHING if given.rules is None else digest_of_file(given.rules))
    write_whole(given.out / _OUTPUTS[0], (json.dumps(document, indent=1, sort_keys=True) + "\n").encode())
    write_whole(given.out / _OUTPUTS[1], page_of(history, document).encode("utf-8", "surrogateescape"))


def document_of(history: History, rules: str) -> dict[str, Any]:
    """The history as a document. Versions are counted from 0."""
    pairs = [{"old": cell.old, "new": cell.new, "answer": cell.verdict.words(), "composed": cell.is_composed,
              **({"reasons": list(cell.reasons)} if cell.reasons else {}), **({"breaks": cell.breaks} if cell.rows else {}),
              **({"file": cell.file} if cell.file else {})} for _, cell in sorted(history.cells.items())]
    return {"version": 1, "rules": rules, "require_types": history.judging.least_share,
            "versions": [_version(history, number, name) for number, name in enumerate(history.names)],
            "pairs": pairs,
            "exports": [{"export": one.label, "came": one.came, "last": one.last, "gaps": one.has_gaps} for one in exports_of(history)]}


def _version(history: History, number: int, name: str) -> dict[str, Any]:
    """A version: its soname, its digest, and how many exports it has (null if `abi` cannot read it)."""
    place = history.judging.folder / file_of(number)
    labels = history.known_labels(number)
    return {"name": name, "soname": soname_of(place), "digest": digest_of_file(place), "exports": None if labels is None else len(labels)}

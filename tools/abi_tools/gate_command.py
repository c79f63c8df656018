"""The command `abi-gate`."""

from __future__ import annotations

import argparse
import sys
from dataclasses import replace
from pathlib import Path
from typing import Optional, Sequence

from abi_tools.abi_program import Abi
from abi_tools.arguments import Arguments, ShowLimits, add_require_types, add_strict, number_above_0
from abi_tools.faults import Fault
from abi_tools.gate_documents import Run
from abi_tools.gate_inputs import Inputs, Pair, file_names, first_fault, name_of, paired
from abi_tools.gate_outcomes import Judging, Outcome, counts_of, verdict_of
from abi_tools.gate_reports import Beside
from abi_tools.jobs import StepLimits, default_megabytes, processors
from abi_tools.output_file import clear_output, write_whole
from abi_tools.shown import line_shown, lines_shown, name_shown
from abi_tools.symbols_files import read_symbols
from abi_tools.verdicts import Verdict

_DESCRIPTION = """\
Runs `abi check` on a released library and a new build of it, to stop a build if the new library may not replace the old one, or if it
cannot tell. `abi` is the one that the variable ABI names, or else the one on the PATH.

With a folder of released libraries or baselines in place of OLD, or with several libraries before and after `--`, it pairs them by
soname (or by file name, if one has none), prints a line for each, first those that may not be replaced, and one answer at the end. An
old library without a new one is a no; a new one without an old one is named. A folder stands for the files in it that end in .abi or
have .so in their names.
"""
_STATUSES = """\
Exit status:
  0   yes: the new library may replace the old one, and so may all others that are given
  1   no: the report of abi is printed, and on standard error the command that shows the changed types
  2   it cannot tell, and a line says why: an input is refused, missing, no file or too large, a limit of memory or time ended the work,
      exports lost their types with the debug information (stripped, -g1), nothing was compared, no types were compared, or fewer than
      --require-types asks for; with --strict also if notes name what can break compiled callers
  64  the arguments are wrong
"""
_USAGE = "abi-gate [OPTION].. OLD NEW, abi-gate [OPTION].. BASELINES NEW.., or abi-gate [OPTION].. OLD.. -- NEW.."


def main(arguments: Sequence[str]) -> int:
    """Judges as the arguments say, prints the answer, and returns the verdict."""
    parser = _parser()
    before, after = _parted(arguments)
    given = parser.parse_args(before)
    files = _Files.of(given.files, after, parser)
    if given.certificate is not None and not files.is_single:
        parser.error("--certificate is for one library: for several, --certificates names a folder")
    _clear(given, files)
    outcomes = _judged(given, files)
    outcomes = _kept(given, outcomes)
    verdict = verdict_of(outcomes)
    _write_documents(given, Run(verdict, outcomes, given.rules))
    if files.is_single:
        _show_single(outcomes[0], given.rules)
    else:
        _show(outcomes, verdict, given.rules)
    return int(verdict)


def _parser() -> Arguments:
    parser = Arguments("abi-gate", _DESCRIPTION, _STATUSES)
    parser.usage = _USAGE
    parser.add_argument("--rules", type=Path, metavar="FILE", help="a rule file of abi, which says what is not compared")
    add_require_types(parser)
    add_strict(parser)
    parser.add_argument("--certificate", type=Path, metavar="FILE", help="keep the certificate of a yes in this file")
    parser.add_argument("--certificates", type=Path, metavar="FOLDER", help="keep the certificate of each yes in this folder")
    parser.add_argument("--reports", type=Path, metavar="FOLDER",
                        help="keep a page by abi-report on each no, and on each library of which it cannot tell, in this folder")
    for name, what in (("json", "JSON, by docs/gate.schema.json"), ("junit", "the XML of JUnit, with a test for each library"),
                       ("sarif", "SARIF 2.1.0, with a result for each break")):
        parser.add_argument(f"--{name}", type=Path, metavar="FILE", help=f"write the answer to this file as {what}")
    parser.add_argument("--symbols", type=Path, action="append", default=[], metavar="FILE",
                        help="a file debian/PACKAGE.symbols, which is held beside the exports of the new libraries: what it lists and they "
                             "lack, and what they have more, is a remark, and never an answer; may be given several times")
    parser.add_argument("--headers", type=Path, metavar="FOLDER", help="the public headers, for --reports: see abi-report")
    parser.add_argument("--dev", type=Path, action="append", default=[], metavar="PACKAGE",
                        help="a development package (.deb or .rpm) with public headers, for --reports: see abi-report")
    parser.add_argument("--workers", type=number_above_0, default=processors(), metavar="N",
                        help="how many libraries to read at a time (default: one for each processor)")
    parser.add_argument("--memory", type=number_above_0, metavar="MB",
                        help="the memory limit of each library and of each run of abi, in megabytes (default: a worker's share of half of "
                             "the memory, from 1024 to 4096)")
    parser.add_argument("--seconds", type=number_above_0, default=600, metavar="S",
                        help="the processor time limit of each library and of each run of abi (default: 600)")
    parser.add_argument("--limits", action=ShowLimits, help="print what is too much to be read, and exit")
    parser.add_argument("files", type=Path, nargs="*", metavar="FILE",
                        help="OLD, a released library or what abi-baseline kept of it, and NEW, a new build of it; both with their debug "
                             "information. BASELINES is a folder of such old ones")
    return parser


def _parted(arguments: Sequence[str]) -> tuple[list[str], Optional[list[str]]]:
    """The arguments before and after the first `--`."""
    if "--" not in arguments:
        return list(arguments), None
    at = list(arguments).index("--")
    return list(arguments[:at]), list(arguments[at + 1:])


class _Files:
    """The old and the new files, and whether they are one pair, whatever its names are."""

    def __init__(self, old: Sequence[Path], new: Sequence[Path], is_single: bool) -> None:
        self.old, self.new, self.is_single = old, new, is_single

    @classmethod
    def of(cls, before: Sequence[Path], after: Optional[Sequence[str]], parser: Arguments) -> "_Files":
        """Sorts the files of the command line. Ends the program if they are too few or too many."""
        if after is not None and before:
            if not after:
                parser.error("the new libraries are missing: they come after --")
            if any(name.startswith("-") for name in after):
                parser.error("options come before the files")
            return cls(before, [Path(name) for name in after], False)
        files = before if after is None else [Path(name) for name in after]
        if len(files) < 2:
            parser.error("it takes an old and a new library")
        old, *new = files
        if old.is_dir():
            return cls([old], new, False)
        if len(new) > 1:
            parser.error("several libraries are given as OLD.. -- NEW.., or with a folder of baselines first")
        return cls([old], new, not new[0].is_dir())

    @property
    def all(self) -> list[Path]:
        """All files."""
        return [*self.old, *self.new]


def _clear(given: argparse.Namespace, files: _Files) -> None:
    """Removes the files of an earlier run, and makes the folders. Raises a fault if a file beside the libraries cannot be read."""
    inputs = [path for path in (*files.all, given.rules, *given.symbols, *given.dev) if path is not None]
    for output in (given.certificate, given.json, given.junit, given.sarif):
        if output is not None:
            clear_output(output, inputs)
    for folder in (given.certificates, given.reports):
        if folder is not None:
            folder.mkdir(parents=True, exist_ok=True)
    first_fault([given.rules, *given.symbols, *given.dev])
    if given.headers is not None and not given.headers.is_dir():
        raise Fault(f"there is no folder {given.headers} of headers")


def _judged(given: argparse.Namespace, files: _Files) -> list[Outcome]:
    """The outcomes. If the old file is missing, the reason says how to make the first one."""
    old, new = files.old[0], files.new[0]
    if files.is_single and not old.exists():
        reason = f"there is no file {old}: `abi-baseline LIBRARY FILE` keeps the interface of a released library in a file"
        return [Outcome(Verdict.CANNOT_TELL.words(), name_of(new), old, new, reason)]
    inputs = Inputs([Pair(name_of(old), old, new)]) if files.is_single else paired(files.old, files.new)
    judging = Judging(Abi(), given.rules, given.require_types, given.strict, tuple(map(read_symbols, given.symbols)), _limits(given),
                      given.workers)
    return judging.outcomes(inputs)


def _limits(given: argparse.Namespace) -> StepLimits:
    return StepLimits(given.memory or default_megabytes(given.workers), given.seconds)


def _kept(given: argparse.Namespace, outcomes: list[Outcome]) -> list[Outcome]:
    """The outcomes with what is kept beside them: certificates, reports and places in the source."""
    names = file_names([one.name for one in outcomes])
    options = [*(["--headers", str(given.headers)] if given.headers else []), *(word for one in given.dev for word in ("--dev", str(one))),
               "--require-types", f"{given.require_types:g}", *(["--strict"] if given.strict else [])]
    beside = Beside(tuple(options), given.rules, _limits(given), given.workers)
    for folder, suffix in ((given.certificates, "cert"), (given.reports, "html")):
        for name in names.values() if folder is not None else ():
            (folder / f"{name}.{suffix}").unlink(missing_ok=True)
    found = [_certified(given, one, names[one.name]) for one in outcomes]
    if given.reports is not None:
        found = beside.with_reports(found, given.reports, names)
    if given.json is not None:
        found = beside.with_grown(found)
    return beside.with_places(found) if given.json is not None or given.sarif is not None else found


def _certified(given: argparse.Namespace, one: Outcome, name: str) -> Outcome:
    """The outcome, with its certificate kept if it is a yes and that is asked for."""
    places = [given.certificate, None if given.certificates is None else given.certificates / f"{name}.cert"]
    for place in places if one.verdict == Verdict.YES else []:
        if place is not None:
            write_whole(place, one.text.encode("utf-8", "surrogateescape"))
            one = replace(one, certificate=place)
    return one


def _write_documents(given: argparse.Namespace, run: Run) -> None:
    for output, contents in ((given.json, run.json), (given.junit, run.junit), (given.sarif, run.sarif)):
        if output is not None:
            write_whole(output, contents())


def _show_single(one: Outcome, rules: Optional[Path]) -> None:
    """Prints the answer on one pair for people."""
    sys.stderr.write(lines_shown("".join(f"{note}\n" for note in one.notes)))
    where = one.where(rules)
    if one.verdict == Verdict.YES:
        print(f"yes: {one.said}")
    elif one.verdict == Verdict.NO:
        sys.stdout.write(lines_shown(one.text))
        sys.stdout.flush()
        print(line_shown(f"abi-gate: {one.new} may not replace {one.old}; {where}"), file=sys.stderr)
    else:
        print(line_shown(f"cannot tell: {one.said}"), flush=True)
        if where:
            print(line_shown(f"abi-gate: {where}"), file=sys.stderr)
    _show_remarks(one)


def _show_remarks(one: Outcome) -> None:
    for remark in one.remarks:
        print(line_shown(f"abi-gate: {name_shown(one.name)}: {remark}"), file=sys.stderr)


def _show(outcomes: Sequence[Outcome], verdict: Verdict, rules: Optional[Path]) -> None:
    """Prints a line for each library, and the answer."""
    for one in outcomes:
        print(one.line(rules), flush=True)
        for note in one.notes:
            print(line_shown(f"abi-gate: {name_shown(one.name)}: {note.removeprefix('abi: ')}"), file=sys.stderr)
        _show_remarks(one)
    if not any(one.verdict is not None for one in outcomes):
        print("cannot tell: there is no library to compare", flush=True)
    print(f"{verdict.words()}: {counts_of(outcomes)}", flush=True)

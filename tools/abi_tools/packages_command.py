"""The command `abi-packages`."""

from __future__ import annotations

import argparse
import os
import sys
from collections import Counter
from dataclasses import replace
from functools import partial
from pathlib import Path
from typing import Callable, Iterator, NamedTuple, Optional, Sequence

from abi_tools.abi_program import Abi
from abi_tools.arguments import Arguments, ShowLimits, add_require_types, add_strict, address, mirror_line, number_above_0
from abi_tools.counting import counted
from abi_tools.debuginfod import Debuginfod
from abi_tools.faults import Fault
from abi_tools.found_libraries import Contents, contents_of
from abi_tools.jobs import Failure, StepLimits, Steps, default_megabytes, limited_time, processors
from abi_tools.package_judging import GONE, LEFT_OUT, NEW, Judging, Line, file_names, worst
from abi_tools.package_sides import Pair, Side, pairs
from abi_tools.progress import Progress
from abi_tools.shown import line_shown, name_shown
from abi_tools.signals import temporary_folder
from abi_tools.unpacking import Package, unpack
from abi_tools.verdicts import Verdict

_DESCRIPTION = """\
Says of each library in packages whether the one in the new packages may replace the one in the old packages. OLD and NEW are .deb or
.rpm files: those of the libraries, and those of their debug information. Libraries are paired by soname and joined with their debug
information; `abi check` judges each pair. Options come before the --.
"""
_STATUSES = """\
Exit status:
  0   yes: each library may be replaced by the new one
  1   no: one may not, or is gone
  2   it cannot tell for one library, and says no to none; also if no library is on both sides, or if a package cannot be read
  64  the arguments are wrong
"""
# The order of the lines, and the words that --only takes for each kind.
_ORDER = (Verdict.NO.words(), GONE, Verdict.CANNOT_TELL.words(), Verdict.YES.words(), NEW, LEFT_OUT)
_NOT_YES = _ORDER[:3]
_KINDS = {"no": _ORDER[:2], "cannot-tell": _ORDER[2:3], "yes": _ORDER[3:4], "new": _ORDER[4:5], "left-out": _ORDER[5:]}
# A package, and what it brings.
_Read = tuple[Package, Contents]
# How many libraries the last line names at most.
_MOST_NAMED = 8


def main(arguments: Sequence[str]) -> int:
    """Judges packages as the arguments say, prints a line for each library, and returns the worst verdict."""
    parser = _parser()
    before, new = _parted(arguments)
    given = parser.parse_args(before)
    if new is None and given.fetch:
        given.old, new = [], [str(file) for file in given.old]
    if not new:
        parser.error("the new packages are missing: they come after --; or --fetch gets the old ones")
    if given.mirror and not given.fetch:
        parser.error("--mirror says where --fetch looks: give --fetch, too")
    if any(name.startswith("-") for name in new):
        parser.error("options come before the --")
    if given.verify is not None and given.keep is not None:
        parser.error("--keep and --verify exclude each other")
    if given.verify is not None and given.strict:
        parser.error("--strict and --verify exclude each other: a certificate says nothing of what no rule judges")
    return int(_judge(given, [Path(name) for name in new]))


def _parser() -> Arguments:
    parser = Arguments("abi-packages", _DESCRIPTION, _STATUSES)
    parser.usage = ("abi-packages [--rules FILE] [--require-types SHARE] [--strict] [--certificates FOLDER | --verify FOLDER] [--keep FOLDER] "
                    "[--leave-out SONAME].. [--debuginfod URL].. [--only KIND].. [--quiet] [--workers N] [--memory MB] [--seconds S] "
                    "(OLD.. -- NEW.. | --fetch [--mirror LINE].. [OLD.. --] NEW..)")
    parser.add_argument("--rules", type=Path, metavar="FILE",
                        help="a rule file of abi (default: usr/share/doc/PACKAGE/abi.rules of the new package, or else of the old one)")
    add_require_types(parser)
    add_strict(parser)
    parser.add_argument("--certificates", type=Path, default=Path("abi-certificates"), metavar="FOLDER",
                        help="where to keep certificates and reports; they replace those of earlier runs on libraries with the same "
                             "sonames (default: abi-certificates)")
    parser.add_argument("--keep", type=Path, metavar="FOLDER",
                        help="where to keep both joined libraries of a no, for abi-report (default: nowhere)")
    parser.add_argument("--verify", type=Path, metavar="FOLDER",
                        help="do not judge, but check the certificates in FOLDER that an earlier run kept; a library without a certificate "
                             "that is accepted gets no yes")
    parser.add_argument("--fetch", action="store_true",
                        help="fetch what is not given by way of apt: the packages of debug information and, without --, the previous "
                             "versions of the packages, which are then those of the new build")
    parser.add_argument("--mirror", action="append", default=[], type=mirror_line, metavar="LINE",
                        help="where --fetch looks in place of the sources of apt: a line of sources.list(5) without the word deb, such as "
                             "'http://deb.debian.org/debian bookworm main'; may be given several times")
    parser.add_argument("--debuginfod", action="append", default=[], type=address, metavar="URL",
                        help="a server of debug files (debuginfod(8)) that the packages lack; may be given several times (default: with "
                             "--fetch those of the variable DEBUGINFOD_URLS, else none)")
    parser.add_argument("--leave-out", action="append", default=[], metavar="SONAME",
                        help="a library to leave out, such as one in C++; may be given several times")
    parser.add_argument("--only", action="append", default=[], choices=sorted(_KINDS), metavar="KIND",
                        help=f"print only the lines of this kind ({', '.join(_KINDS)}) and the last line; may be given several times")
    parser.add_argument("--quiet", action="store_true", help="print only the last line")
    parser.add_argument("--workers", type=number_above_0, default=processors(), metavar="N",
                        help="how many packages and libraries to read at a time (default: one for each processor)")
    parser.add_argument("--memory", type=number_above_0, metavar="MB",
                        help="the memory limit of each step and of each run of abi, in megabytes (default: a worker's share of half of "
                             "the memory, from 1024 to 4096)")
    parser.add_argument("--seconds", type=number_above_0, default=600, metavar="S",
                        help="the processor time limit of each step and of each run of abi (default: 600)")
    parser.add_argument("--limits", action=ShowLimits, help="print what is too much to be read, and exit")
    parser.add_argument("old", type=Path, nargs="+", metavar="PACKAGE",
                        help="OLD, the packages of the old build, and NEW, those of the new one: .deb or .rpm files of libraries and of "
                             "their debug information, in any order")
    return parser


def _parted(arguments: Sequence[str]) -> tuple[list[str], Optional[list[str]]]:
    """The arguments before and after the first `--`."""
    if "--" not in arguments:
        return list(arguments), None
    at = list(arguments).index("--")
    return list(arguments[:at]), list(arguments[at + 1:])


class _Files(NamedTuple):
    """The packages of both sides, and how many of each may ship libraries (all, if that is None): those behind them are searched for debug
    information alone."""

    old: Sequence[Path]
    new: Sequence[Path]
    shipping: tuple[Optional[int], Optional[int]]


def _judge(given: argparse.Namespace, new: Sequence[Path]) -> Verdict:
    if given.rules is not None and not given.rules.is_file():
        raise Fault(f"there is no rule file {given.rules}")
    # Without the program no package need be read.
    Abi()
    if given.verify is None:
        given.certificates.mkdir(parents=True, exist_ok=True)
    elif not given.verify.is_dir():
        raise Fault(f"there is no folder {given.verify}")
    limits = StepLimits(given.memory or default_megabytes(given.workers), given.seconds)
    with temporary_folder("abi-packages-") as work:
        files = _Files(given.old, new, (None, None)) if not given.fetch else _fetched(given, new, work / "fetched", limits)
        read = _read_all(files.old, files.new, work, limits, given.workers)
        with limited_time(given.seconds, "pairing the libraries"):
            first, second = map(_side, read, files.shipping)
            sides = _served((first, second), given, work / "served")
            found = pairs(*sides)
        _refuse_unknown(given.leave_out, found)
        judging = Judging(work / "libraries", sides, given.verify or given.certificates, given.keep,
                          given.rules.resolve() if given.rules else None, given.require_types, tuple(given.leave_out),
                          given.verify is not None, given.strict)
        lines = [*_lines(judging, found, limits, given.workers), *_left_out(sides)]
        _check_count(sides, found, lines)
    lines.sort(key=lambda line: (_ORDER.index(line.word), line.name))
    _print(lines, given)
    return worst(lines)


def _fetched(given: argparse.Namespace, new: Sequence[Path], folder: Path, limits: StepLimits) -> _Files:
    """Both sides, with what was not given. Raises a fault if it cannot be had."""
    # Imported here, since only --fetch needs the library for Debian's control files.
    from abi_tools.fetching import Completed, completed

    folder.mkdir()
    with Progress(1, "fetching what is not given", 1):
        _, found = next(Steps[Completed](limits, 1).run([partial(completed, given.old, new, folder, given.mirror)]))
    if isinstance(found, Failure):
        raise Fault(found.reason)
    for note in found.notes:
        print(line_shown(f"abi-packages: {note}"), file=sys.stderr)
    return _Files(found.old, found.new, found.shipping)


def _served(sides: tuple[Side, Side], given: argparse.Namespace, folder: Path) -> tuple[Side, Side]:
    """Both sides, with the servers that have their debug files."""
    named = given.debuginfod or (os.environ.get("DEBUGINFOD_URLS", "").split() if given.fetch else [])
    if not named:
        return sides
    folder.mkdir()
    old, new = (replace(side, servers=Debuginfod(tuple(named), folder)) for side in sides)
    return old, new


def _read_all(old: Sequence[Path], new: Sequence[Path], work: Path, limits: StepLimits, workers: int) -> tuple[list[_Read], list[_Read]]:
    """The packages of both sides. One that is given on both of them is read once. Raises a fault if one cannot be read."""
    keys = [_identity(file) for file in (*old, *new)]
    files = dict(zip(keys, (*old, *new)))
    steps = []
    for number, file in enumerate(files.values()):
        folder = work / "packages" / str(number)
        folder.mkdir(parents=True)
        steps.append(partial(_read, file, folder))
    found = _all_of(Steps[_Read](limits, workers), steps, "packages", list(files.values()))
    read = dict(zip(files, found))
    return [read[key] for key in keys[:len(old)]], [read[key] for key in keys[len(old):]]


def _side(read: Sequence[_Read], shipping: Optional[int]) -> Side:
    return Side.of([package for package, _ in read], [contents for _, contents in read[:shipping]])


def _identity(file: Path) -> tuple[object, ...]:
    """What two names of one file have in common."""
    try:
        status = file.stat()
    except OSError:
        return (file,)
    return status.st_dev, status.st_ino


def _read(file: Path, folder: Path) -> _Read:
    """A package, and what it brings."""
    package = unpack(file, folder)
    return package, contents_of(package)


def _all_of(steps: Steps[_Read], work: Sequence[Callable[[], _Read]], what: str,
            files: Sequence[Path]) -> list[_Read]:
    """The values of all steps. Raises a fault if the first of them that fails does so."""
    values: dict[int, _Read] = {}
    failures: dict[int, str] = {}
    with Progress(len(work), what) as progress:
        for number, value in steps.run(work):
            if isinstance(value, Failure):
                failures[number] = value.reason
            else:
                values[number] = value
            progress.advance()
    for number, reason in sorted(failures.items()):
        raise Fault(reason if str(files[number]) in reason else f"{files[number]}: {reason}")
    return [values[number] for number in range(len(work))]


def _lines(judging: Judging, found: Sequence[Pair], limits: StepLimits, workers: int) -> Iterator[Line]:
    """The lines of all pairs."""
    compared = []
    for pair in found:
        line = judging.line_without_work(pair)
        if line is None:
            compared.append(pair)
        else:
            yield line
    work = [partial(judging.line, pair, name) for pair, name in zip(compared, file_names(compared))]
    with Progress(len(work), "libraries") as progress:
        for number, value in Steps[Line](limits, workers).run(work):
            yield Line.cannot_tell(compared[number].name, value.reason) if isinstance(value, Failure) else value
            progress.advance()


def _left_out(sides: Sequence[Side]) -> Iterator[Line]:
    """The lines of libraries for other machines."""
    for name, reason in sorted({(one.name, one.reason) for side in sides for one in side.left_out}):
        yield Line(LEFT_OUT, name, reason, None)


def _check_count(sides: Sequence[Side], found: Sequence[Pair], lines: Sequence[Line]) -> None:
    """Raises a fault if a library was seen that has no line: that would be a fault of this tool, and no answer could be trusted."""
    named = Counter(line.name for line in lines)
    missing = [pair.name for pair in found if not named[pair.name]]
    paired = {id(library) for pair in found for library in (pair.old, pair.new)}
    missing += [library.name for side in sides for library in side.libraries if id(library) not in paired]
    missing += [one.name for side in sides for one in side.unreadable if not named[one.name]]
    missing += [one.name for side in sides for one in side.left_out if not named[one.name]]
    missing += [package.file.name for side in sides for package, contents in zip(side.packages, side.contents)
                if contents.count() != contents.seen]
    if missing:
        raise Fault(f"a fault of this tool: {name_shown(missing[0])} was seen and not judged")


def _refuse_unknown(left_out: Sequence[str], found: Sequence[Pair]) -> None:
    """Raises a fault if --leave-out names a soname that no library has."""
    for soname in left_out:
        if not any(pair.soname == soname for pair in found):
            raise Fault(f"no library has the soname {name_shown(soname)}, which --leave-out names")


def _print(lines: Sequence[Line], given: argparse.Namespace) -> None:
    """Prints the lines that are asked for, with their notes on standard error, and the last line."""
    words = {word for kind in given.only or _KINDS for word in _KINDS[kind]}
    for line in lines:
        if line.word in words and not given.quiet:
            print(line.text, flush=True)
            _print_notes(line)
    _summary(lines)


def _print_notes(line: Line) -> None:
    for note in line.notes:
        print(line_shown(f"abi-packages: {name_shown(line.name)}: note: {note}"), file=sys.stderr)


def _summary(lines: Sequence[Line]) -> None:
    """Prints how many libraries there were of each kind, and which of them are no yes, if they are few."""
    counts = Counter(line.word for line in lines)
    said = ", ".join(f"{count} {word}" for word, count in sorted(counts.items()))
    named = [name_shown(line.name) for line in lines if line.word in _NOT_YES]
    few = f"; not yes: {', '.join(named)}" if len(lines) > 1 and 0 < len(named) <= _MOST_NAMED else ""
    print(f"{counted(len(lines), 'library', 'libraries')}{': ' + said if said else ''}{few}", flush=True)
    if not any(line.verdict is not None for line in lines):
        why = "all libraries are left out or new" if counts[LEFT_OUT] else "no library is in the old packages"
        print(f"cannot tell: {why}", file=sys.stderr)

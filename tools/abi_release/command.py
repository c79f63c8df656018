"""The command `abi-release`."""

from __future__ import annotations

import argparse
import contextlib
import io
import os
import sys
import time
from pathlib import Path
from typing import Callable, Optional, Sequence, TextIO

from abi_tools.abi_program import Abi
from abi_tools.arguments import Arguments, add_require_types, add_strict
from abi_tools.faults import Fault
from abi_tools.shown import line_shown
from abi_tools.verdicts import Verdict
from abi_release.apps import has_command
from abi_release.clusters import Choice, Keys, LocalChoice, OtherChoice, default_disk, default_megabytes, processors, scratch
from abi_release.digests import OF_NOTHING, digest_of_file, program_digest
from abi_release.judging import Part, Settings
from abi_release.limited_program import CLOCK, Limits, check_time, limit_of
from abi_release.pages import write_page
from abi_release.progress import progress_of
from abi_release.reports import Reports, json_program
from abi_release.scheduling import Run, Task
from abi_release.sources import Release, Work, works
from abi_release.stored_files import Json, Store
from abi_release.tables import Table, moved, write_json, write_text
from abi_release.texts import whole_output
from abi_release.workers import memory_parent

_DESCRIPTION = """\
Says of each library of a release whether the one in the next release may replace it. OLD and NEW are folders of .deb or .rpm files,
as a mirror has them, or of unpacked packages. Packages are paired by name and their libraries by soname; each pair of packages is a
task on a Dask cluster: one on this machine, or the one at --scheduler, whose machines have the same folders. FOLDER keeps the results,
so that a second run does only what is missing or changed. `abi` is the one that the variable ABI names, or else the one on the PATH.
"""
_STATUSES = """\
FOLDER/table.txt, release.json and index.html have a line for each library, and for each pair of packages that could not be read.
Exit status:
  0   yes: each library may be replaced by the new one
  1   no: one may not, or is gone
  2   it cannot tell for one library, and says no to none; also if no library is on both sides, or if an input cannot be read
  64  the arguments are wrong
"""
_LONGEST_PATIENCE = 10_000_000
_OUTPUTS = ("table.txt", "release.json", "index.html")


def main(arguments: Sequence[str]) -> int:
    """Judges releases as the arguments say, writes the tables, and returns the worst verdict."""
    with whole_output():
        return _main(arguments)


def _main(arguments: Sequence[str]) -> int:
    parser = _parser()
    given = parser.parse_args(arguments)
    keys = _keys(parser, given)
    abi = Abi()
    check_time()
    releases = Release.of(given.old), Release.of(given.new)
    if given.rules is not None and not given.rules.is_file():
        raise Fault(f"there is no rule file {given.rules}")
    parts = contextlib.ExitStack()
    try:
        begun = None if given.scheduler is not None else _notes(parts)
        store = Store(given.out.resolve(), begun)
        parts.callback(os.close, store.open())
        limits = Limits(given.memory or default_megabytes(given.workers), given.seconds, given.clock or CLOCK * given.seconds,
                        given.disk or default_disk())
        settings = Settings(os.urandom(16).hex(), str(given.old.resolve()), str(given.new.resolve()), str(store.folder),
                            None if given.rules is None else str(given.rules.resolve()), program_digest(abi.path),
                            given.require_types, limits, reports=None if given.reports is None else Reports.into(given.reports),
                            rules_digest=OF_NOTHING if given.rules is None else digest_of_file(given.rules), is_strict=given.strict,
                            begun=None if begun is None else str(begun))
        os.environ["ABI"] = abi.path
        if settings.reports is not None:
            os.environ["ABI_JSON"] = json_program()
        choice: Choice = (LocalChoice(given.workers, limits.megabytes, given.dashboard) if given.scheduler is None
                          else OtherChoice(given.scheduler, keys, given.patience, settings.run))
        run = Run(settings, store, choice, given.tries, given.patience)
        for side, release in zip(("old", "new"), releases):
            for kind, count in sorted(release.passed_over.items()):
                print(f"abi-release: {count} {side} files of {kind} are passed over", file=sys.stderr)
        return _judge(run, abi, releases, _head(given, settings))
    finally:
        parts.close()


def _notes(parts: contextlib.ExitStack) -> Optional[Path]:
    """A folder in memory for notes of tasks that have begun, which `parts` removes; None if there is no room."""
    parent = memory_parent()
    if parent is None:
        return None
    try:
        return scratch(parts, parent).part("begun")
    except OSError:
        return None


def _parser() -> Arguments:
    parser = Arguments("abi-release", _DESCRIPTION, _STATUSES)
    parser.add_argument("old", type=Path, metavar="OLD", help="the folder with the packages of the old release")
    parser.add_argument("new", type=Path, metavar="NEW", help="the folder with the packages of the new release")
    parser.add_argument("--out", type=Path, required=True, metavar="FOLDER", help="where to keep results and tables")
    parser.add_argument("--rules", type=Path, metavar="FILE",
                        help="a rule file of abi (default: usr/share/doc/PACKAGE/abi.rules of the new package, or else of the old one)")
    parser.add_argument("--reports", type=Path, metavar="DIR",
                        help="make a page of abi-report on each library that may not be replaced, and keep it in DIR; this needs abi-json: "
                             "the one that the variable ABI_JSON names, or else the one on the PATH")
    add_require_types(parser)
    add_strict(parser)
    parser.add_argument("--workers", type=limit_of, default=processors(), metavar="N",
                        help="how many workers to start on this machine (default: one for each processor)")
    parser.add_argument("--dashboard", action="store_true",
                        help="have Dask's dashboard on this machine: all its users can read it (default: no HTTP server)")
    parser.add_argument("--scheduler", metavar="ADDRESS",
                        help="the scheduler of a Dask cluster that does the work instead, such as tls://HOST:8786")
    parser.add_argument("--tls-ca", metavar="FILE", help="the certificate of the authority that all of the cluster trust, in PEM")
    parser.add_argument("--tls-cert", metavar="FILE", help="the certificate of this run, which the authority has signed, in PEM")
    parser.add_argument("--tls-key", metavar="FILE", help="the key of that certificate, in PEM")
    parser.add_argument("--insecure", action="store_true",
                        help="use a cluster without TLS: everyone who reaches it can run programs as its user")
    parser.add_argument("--memory", type=limit_of, metavar="MB",
                        help="the memory limit of a worker, and also of each run of abi (default: a worker's share of half of the memory)")
    parser.add_argument("--seconds", type=limit_of, default=600, metavar="S",
                        help="the processor time limit of each run of abi, and of a worker for each library (default: 600)")
    parser.add_argument("--clock", type=limit_of, metavar="S",
                        help="the limit of each run of abi by the clock; a worker has twice as long for a library (default: ten times "
                             "--seconds)")
    parser.add_argument("--disk", type=limit_of, metavar="MB",
                        help="how much of the disk of each machine unpacked packages may take (default: half of what is free, at most "
                             "16 GB)")
    parser.add_argument("--tries", type=limit_of, default=2, metavar="N",
                        help="how often to try what fails (default: 2); the next run tries it again")
    parser.add_argument("--patience", type=_seconds, default=300.0, metavar="S",
                        help="how long to wait for a scheduler or a worker (default: 300)")
    return parser


def _keys(parser: Arguments, given: argparse.Namespace) -> Optional[Keys]:
    """The files of TLS. Ends with an error of arguments if some are missing, or if a cluster without TLS is not asked for in so many
    words."""
    files = [given.tls_ca, given.tls_cert, given.tls_key]
    if given.scheduler is None:
        if any(files) or given.insecure:
            parser.error("--tls-ca, --tls-cert, --tls-key and --insecure are for the cluster of --scheduler")
        return None
    if given.dashboard:
        parser.error("--dashboard is for the cluster of this machine: that of --scheduler has its own")
    if given.insecure:
        if any(files) or given.scheduler.startswith("tls://"):
            parser.error("--insecure is for a cluster without TLS")
        return None
    if not all(files) or not given.scheduler.startswith("tls://"):
        parser.error("a scheduler needs an address with tls://, and --tls-ca, --tls-cert and --tls-key: without them everyone who reaches "
                     "the cluster can run programs on it, and only --insecure allows that")
    return Keys(*files)


def _seconds(text: str) -> float:
    """Seconds to wait. Raises an argument error for what is none."""
    with contextlib.suppress(ValueError):
        if 0 <= float(text) <= _LONGEST_PATIENCE:
            return float(text)
    raise argparse.ArgumentTypeError(f"{text} is no number of seconds from 0 to {_LONGEST_PATIENCE}")


def _head(given: argparse.Namespace, settings: Settings) -> Json:
    """What the tables say about the run itself."""
    named = {} if given.rules is None else {"rules_file": str(given.rules)}
    return {"version": 2, "old": str(given.old), "new": str(given.new), "rules": settings.rules_digest, **named, "program": settings.program,
            "tools": settings.tools, "require_types": settings.least_share, "strict": settings.is_strict}


def _do(run: Run, tasks: Sequence[Task], what: str) -> None:
    """Does tasks, and shows progress."""
    if not tasks:
        return
    progress = progress_of(len(tasks), what, sys.stderr)
    try:
        run.over(tasks, progress)
    finally:
        progress.end()


def _judge(run: Run, abi: Abi, releases: Sequence[Release], head: Json) -> Verdict:
    start = time.monotonic()
    packages = works(*releases)
    with run:
        table = _table(run, abi, packages)
    print(f"abi-release: {len(packages)} packages in {time.monotonic() - start:.1f} seconds: {run.counts['judged']} pairs of libraries "
          f"judged, {run.counts['kept']} kept; this process took {_peak_megabytes():.0f} MB", file=sys.stderr)
    _write(table, head, run.store)
    print(table.summary())
    return table.verdict()


def _table(run: Run, abi: Abi, packages: Sequence[Work]) -> Table:
    """Judges all packages, and makes all that the lines of the table need."""
    _do(run, [Part(work) for work in sorted(packages, key=lambda work: work.group)], "packages")
    moves = moved(packages, run)
    _do(run, [Part(work) for work in moves], "packages")
    table = Table(packages, moves, run, run.settings.reports)
    asks = table.asks() if has_command(abi) else []
    if asks:
        _do(run, asks, "packages asked")
        _say_what_failed(run, asks, "packages that need a broken library could not be asked")
        table = Table(packages, moves, run, run.settings.reports)
    explains = table.explains()
    _do(run, explains, "pages")
    _say_what_failed(run, explains, "pages of abi-report could not be made")
    return table


def _say_what_failed(run: Run, tasks: Sequence[Task], what: str) -> None:
    """Prints how many tasks failed, and why the first one did."""
    failed = [task.name for task in tasks if task.name in run.failures]
    if failed:
        first = f"{failed[0]}: {run.failures[failed[0]].reason}"
        print(line_shown(f"abi-release: {len(failed)} of {len(tasks)} {what}; {first}"), file=sys.stderr)


def _peak_megabytes() -> float:
    """The peak memory of this process, which includes the scheduler of a local cluster."""
    with open("/proc/self/status", encoding="ascii", errors="replace") as stream:
        return next((int(line.split()[1]) / 1024 for line in stream if line.startswith("VmHWM:")), 0.0)


def _write(table: Table, head: Json, store: Store) -> None:
    """Writes the tables. If one cannot be written, prints the text table instead, so that the result is not lost."""
    writers: Sequence[Callable[[TextIO], None]] = (
        lambda stream: write_text(table, stream), lambda stream: write_json(table, head, stream),
        lambda stream: write_page(table, head, stream))
    failed = ""
    for name, writer in zip(_OUTPUTS, writers):
        try:
            store.write(name, writer)
        except OSError as error:
            failed = failed or f"{store.folder / name}: {error.strerror or error}"
            # A table of an earlier run would be taken for this run's.
            with contextlib.suppress(OSError):
                (store.folder / name).unlink(missing_ok=True)
    if failed:
        text = io.StringIO()
        write_text(table, text)
        sys.stdout.write(text.getvalue())
        print(f"abi-release: a table could not be written, so it is printed: {failed}", file=sys.stderr)
    else:
        print(f"abi-release: {', '.join(str(store.folder / name) for name in _OUTPUTS)}", file=sys.stderr)

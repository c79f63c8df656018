#!/usr/bin/python3
"""Says whether a change made `abi` slower or bigger: measures it on whole libraries, and compares with the table that is kept.

    bench/slower.py                     compares with bench/check.tsv
    bench/slower.py --write             puts the new table in its place; rows that were not measured stay
    bench/slower.py --old PROGRAM       compares with an earlier build of the program, which takes turns with the new one
    bench/slower.py --rows libc,glibc --runs 3 PROGRAM

The libraries come from Debian's archives and the compilers of this machine (bench/measured_libraries.py). For each row the script measures

- instructions, as callgrind counts them (of the package valgrind), or with `--count perf` the processor's own counter;
- peak memory, by GNU time (/usr/bin/time);
- processor time of user and system, the least of nine runs, in turn with `sha256sum` of the same files. `abidiff` runs once if it is there.

It prints the table in Markdown, and names what grew by more than a tenth. Instructions and memory do not depend on what else the machine
does. Seconds do, and so only their ratio to `sha256sum` is compared: what seems slower is timed again, twice at most, and with `--loaded`,
or beside a table of another processor, ratios do not decide. Differences of less than 10 million instructions, 1 MB or 5 ms do not count.

Ends with 0 if nothing grew, 1 if something did, 2 if a measured command failed or a row could not be compared, and 64 for wrong arguments.
With --write it ends with 0 if all rows were measured: who writes the table takes it as it is.
"""

from __future__ import annotations

import argparse
import csv
import math
import os
import re
import resource
import shutil
import signal
import subprocess
import sys
import tempfile
from collections.abc import Iterator, Mapping, Sequence
from dataclasses import asdict, dataclass, field, fields, replace
from pathlib import Path
from typing import NoReturn

from measured_libraries import MADE, RECIPES, ROOT, CannotBeHad, longer, made

KEPT = ROOT / "bench" / "check.tsv"
GROWTH = 1.1
# Smaller differences are chance: millions of instructions, megabytes, seconds.
LEAST_INSTRUCTIONS = 10
LEAST_MEMORY = 1.0
LEAST_SECONDS = 0.005
# How often what seems slower is timed again.
AGAIN = 2
# After so many seconds of processor time abidiff is stopped. In its exit status the bits 4 and 8 say that there are changes.
LONGEST = 200
STOPPED = -signal.SIGXCPU
ABIDIFF_STATUSES = (0, 4, 12, STOPPED)
COUNTERS = ("callgrind", "perf")


class Failed(Exception):
    """A measured command failed, or a file cannot be used; the words say why."""


@dataclass(frozen=True)
class Row:
    """A row of the table: its name, what it measures, the recipe of its libraries, the words after `abi`, and the status."""

    name: str
    what: str
    recipe: str
    words: tuple[str, ...]
    status: int = 0

    @property
    def files(self) -> list[str]:
        """The libraries, as often as they are named."""
        return [word for word in self.words if word.endswith(".so")]


def wide(style: str) -> Row:
    """The wide change in a style."""
    words = ("check", "--report", style, "wide_old.so", "wide_new.so")
    return Row(f"wide_{style}", f"a change of 5,000 structures, `--report {style}`: no", "wide", words, 1)


ROWS = {row.name: row for row in (
    Row("entries", "`abi entries` of the C library", "libc", ("entries", "libc.so")),
    Row("libc", "the C library against itself: yes", "libc", ("check", "libc.so", "libc.so")),
    Row("glibc", "two versions of the C library: no", "glibc", ("check", "libc_old.so", "libc_new.so"), 1),
    Row("libcrypto", "libcrypto against itself: yes", "libcrypto", ("check", "openssl.so", "openssl.so")),
    Row("libcrypto_longer", "libcrypto and one more byte: yes", "libcrypto", ("check", "openssl.so", "openssl_longer.so")),
    Row("libcrypto_changed", "libcrypto and its changed build: no", "libcrypto", ("check", "openssl.so", "openssl_changed.so"), 1),
    Row("reached", "generated C, nearly all reached, against itself: yes", "gcc", ("check", "gcc.so", "gcc.so")),
    wide("text"), wide("first"), wide("counts"),
    Row("exports_10000", "10,000 exports against themselves: yes", "functions_10000", ("check", *2 * ("functions_10000.so",))),
    Row("exports_50000", "50,000 exports against themselves: yes", "functions_50000", ("check", *2 * ("functions_50000.so",))))}


@dataclass(frozen=True)
class Took:
    """What a row took: what its libraries are of, the seconds of `abi`, `sha256sum` and `abidiff` (infinite if that was stopped), megabytes
    and millions of instructions."""

    of: str
    seconds: float
    sha256sum: float
    abidiff: float | None
    memory: float
    instructions: int

    @property
    def ratio(self) -> float:
        """How many times as long as `sha256sum` it took."""
        return self.seconds / max(self.sha256sum, 0.0001)


@dataclass(frozen=True)
class Table:
    """What rows took, on which processor, and what counted the instructions; and where the table is, in words."""

    processor: str
    counter: str
    rows: dict[str, Took] = field(default_factory=dict)
    place: str = "this run"


# ---- comparing


@dataclass
class Compared:
    """What two tables say: what grew, what is less by as much, what could not be compared, and what does not decide."""

    grown: list[str] = field(default_factory=list)
    shrunk: list[str] = field(default_factory=list)
    unknown: list[str] = field(default_factory=list)
    noted: list[str] = field(default_factory=list)

    @property
    def status(self) -> int:
        """The exit status."""
        return 1 if self.grown else 2 if self.unknown else 0


def has_grown(now: float, before: float, least: float) -> bool:
    """Whether something grew by more than a tenth, and by more than chance does."""
    return now > before * GROWTH and now - before > least


def is_slower(now: Took, before: Took) -> bool:
    """Whether the ratio to `sha256sum` grew. The least difference is one of seconds."""
    return has_grown(now.ratio, before.ratio, LEAST_SECONDS / max(now.sha256sum, 0.0001))


def compare(now: Table, kept: Table, asked: Sequence[str], loaded: bool = False) -> Compared:
    """Compares the rows that were asked for with the kept ones."""
    found = Compared()
    if now.counter != kept.counter:
        found.unknown.append(f"{now.counter} counted the instructions, and those of {kept.place} {kept.counter}")
        return found
    decides = not loaded and now.processor == kept.processor
    for name in asked:
        if name not in now.rows:
            found.unknown.append(f"{name}: it was not measured")
        elif name not in kept.rows:
            found.unknown.append(f"{name}: {kept.place} has no such row")
        elif now.rows[name].of != kept.rows[name].of:
            found.unknown.append(f"{name}: the libraries are of {now.rows[name].of}, and in {kept.place} of {kept.rows[name].of}")
        else:
            compare_row(name, now.rows[name], kept, found, decides)
    found.unknown += [f"{name}: only {kept.place} has this row" for name in kept.rows if name not in ROWS]
    return found


def compare_row(name: str, now: Took, kept: Table, found: Compared, decides: bool) -> None:
    """Compares the figures of one row. Whether its ratio decides is given."""
    before = kept.rows[name]
    in_seconds = LEAST_SECONDS / max(now.sha256sum, 0.0001)
    for words, new, old, least in (("{:,.0f} million instructions", now.instructions, before.instructions, LEAST_INSTRUCTIONS),
                                   ("peak memory of {:.1f} MB", now.memory, before.memory, LEAST_MEMORY),
                                   ("{:.2f} times as long as sha256sum", now.ratio, before.ratio, in_seconds)):
        line = f"{name}: {words.format(new)}, {words.format(old)} in {kept.place} ({change(new, old)})"
        of_times = "sha256sum" in words
        if has_grown(new, old, least):
            (found.grown if decides or not of_times else found.noted).append(line)
        elif has_grown(old, new, least) and not of_times:
            found.shrunk.append(line)


def change(now: float, before: float) -> str:
    """A change in percent."""
    return f"{(now / before - 1) * 100:+.1f} %" if before else "new"


# ---- the table


def figure(text: str) -> float:
    """A figure of a table."""
    value = float(text)
    if not 0 <= value < math.inf:
        raise ValueError(f"{text} is no figure")
    return value


def read(path: Path) -> Table:
    """The table of a file."""
    place = str(path.relative_to(ROOT)) if path.is_relative_to(ROOT) else str(path)
    try:
        lines = path.read_text(encoding="utf-8").splitlines()
        said = dict(line[2:].split(": ", 1) for line in lines if line.startswith("# "))
        rows = csv.DictReader([line for line in lines if not line.startswith("#")], delimiter="\t")
        took = {row["row"]: Took(row["of"], figure(row["seconds"]), figure(row["sha256sum"]), float(row["abidiff"]) if row["abidiff"] else None,
                                 figure(row["memory"]), int(row["instructions"])) for row in rows}
        return Table(said["processor"], said["instructions"], took, place)
    except OSError as error:
        raise Failed(f"{place}: {error.strerror} (--write makes it)") from error
    except (KeyError, TypeError, ValueError) as error:
        raise Failed(f"{place} is no table of this script: {error}") from error


def write(path: Path, table: Table) -> None:
    """Writes a table to a file, in the order of the rows."""
    path.parent.mkdir(parents=True, exist_ok=True)
    with path.open("w", encoding="utf-8", newline="") as file:
        file.write(f"# processor: {table.processor}\n# instructions: {table.counter}\n")
        rows = csv.DictWriter(file, ["row", *(each.name for each in fields(Took))], delimiter="\t", lineterminator="\n")
        rows.writeheader()
        rows.writerows({"row": name} | asdict(table.rows[name]) for name in ROWS if name in table.rows)


def merged(now: Table, kept: Table) -> Table:
    """The new rows, and the kept ones beside them, which must be of the same processor and counter."""
    others = [name for name in kept.rows if name in ROWS and name not in now.rows]
    if others and (now.processor, now.counter) != (kept.processor, kept.counter):
        raise Failed(f"{kept.place} is of another processor or counter, and these rows are not measured: {', '.join(others)}")
    return replace(now, rows=kept.rows | now.rows)


def markdown(table: Table) -> str:
    """The table in Markdown."""
    lines = ["| Work | Of | Time | Times `sha256sum` | `abidiff` | Peak memory | Instructions |", "|---|---|---|---|---|---|---|"]
    for name, took in table.rows.items():
        abidiff = "" if took.abidiff is None else f"{took.abidiff:.2f} s" if math.isfinite(took.abidiff) else f"no end after {LONGEST} s"
        lines.append(f"| {ROWS[name].what} | {took.of} | {took.seconds:.3f} s | {took.ratio:.2f} | {abidiff} | {took.memory:.1f} MB | "
                     f"{took.instructions:,} million |")
    return "\n".join(lines)


# ---- measuring


def run(command: Sequence[str], *statuses: int) -> subprocess.CompletedProcess[str]:
    """Runs a command in bench/made/check, which must end with one of the statuses. Its standard error is kept."""
    variables = {name: value for name, value in os.environ.items() if name != "ABI_NOTES"} | {"LC_ALL": "C"}
    try:
        ended = subprocess.run(command, cwd=MADE, env=variables, stdin=subprocess.DEVNULL, stdout=subprocess.DEVNULL, stderr=subprocess.PIPE,
                               text=True, errors="replace", check=False)
    except OSError as error:
        raise Failed(f"{command[0]}: {error.strerror}") from error
    if ended.returncode not in statuses:
        said = (ended.stderr.splitlines() or [""])[-1]
        raise Failed(f"{' '.join(command)}: status {ended.returncode}, not {' or '.join(map(str, statuses))}: {said}")
    return ended


def timed(command: Sequence[str], *statuses: int) -> tuple[float, int]:
    """The seconds of processor time of a run, of user and system, and its status."""
    before = resource.getrusage(resource.RUSAGE_CHILDREN)
    ended = run(command, *statuses)
    after = resource.getrusage(resource.RUSAGE_CHILDREN)
    return after.ru_utime + after.ru_stime - before.ru_utime - before.ru_stime, ended.returncode


def peak_memory(command: Sequence[str], status: int) -> float:
    """The peak memory of a run in megabytes."""
    with tempfile.NamedTemporaryFile("r", encoding="utf-8") as file:
        run(["/usr/bin/time", "--format=%M", f"--output={file.name}", *command], status)
        # Before it, GNU time says that the status is not 0.
        return int(file.read().splitlines()[-1]) / 1024


def instructions(command: Sequence[str], status: int, counter: str) -> int:
    """The millions of instructions of a run."""
    if counter == "callgrind":
        said = run(["valgrind", "--tool=callgrind", "--callgrind-out-file=/dev/null", *command], status).stderr
    else:
        with tempfile.NamedTemporaryFile("r", encoding="utf-8") as file:
            run(["perf", "stat", "--field-separator=,", "--event=instructions:u", f"--output={file.name}", "--", *command], status)
            said = file.read()
    return millions(said, counter)


def millions(said: str, counter: str) -> int:
    """The millions of instructions in what a counter prints."""
    found = re.search(r"Collected : (\d+)$" if counter == "callgrind" else r"^(\d+),[^,]*,instructions", said, re.MULTILINE)
    if not found:
        raise Failed(f"{counter} counted no instructions here")
    return round(int(found[1]) / 1e6)


def processor() -> str:
    """The name of the processor."""
    found = re.search(r"^model name\s*: (.*)$", Path("/proc/cpuinfo").read_text(encoding="utf-8"), re.MULTILINE)
    return found[1] if found else "unknown"


class Measuring:
    """Measures programs on rows, as the arguments say."""

    def __init__(self, given: argparse.Namespace) -> None:
        self._runs: int = given.runs
        self._counter: str = given.count
        self._with_abidiff = not given.no_abidiff
        self._abidiff: dict[tuple[str, ...], float] = {}
        if self._with_abidiff and not shutil.which("abidiff"):
            told("there is no abidiff, so its column is empty")
            self._with_abidiff = False

    def row(self, row: Row, of: str, programs: Sequence[Path], kept: Took | None) -> list[Took]:
        """What each program takes. The last one is timed again if it seems slower than the one before it, or than the kept row."""
        commands = [[str(program), *row.words] for program in programs]
        least = self._least(row, commands, {})
        for _ in range(AGAIN):
            took = [Took(of, least[command[0]], least["sha256sum"], None, 0, 0) for command in commands]
            before = took[0] if len(took) > 1 else kept
            if before is None or not is_slower(took[-1], before):
                break
            least = self._least(row, commands, least)
        abidiff = self._abidiff_of(row)
        return [Took(of, round(least[command[0]], 4), round(least["sha256sum"], 4), abidiff, round(peak_memory(command, row.status), 1),
                     instructions(command, row.status, self._counter)) for command in commands]

    def _least(self, row: Row, commands: Sequence[list[str]], least: Mapping[str, float]) -> dict[str, float]:
        """The least seconds of each program and of `sha256sum`, which take turns."""
        found = dict(least)
        for _ in range(self._runs):
            for command, status in (*((command, row.status) for command in commands), (["sha256sum", *row.files], 0)):
                seconds, _ = timed(command, status)
                found[command[0]] = min(seconds, found.get(command[0], seconds))
        return found

    def _abidiff_of(self, row: Row) -> float | None:
        """The seconds of one run of abidiff, if the row has two libraries."""
        pair = tuple(row.files)
        if not self._with_abidiff or len(pair) < 2:
            return None
        if pair not in self._abidiff:
            seconds, status = timed(["prlimit", f"--cpu={LONGEST}:{LONGEST + 1}", "abidiff", *pair], *ABIDIFF_STATUSES)
            self._abidiff[pair] = math.inf if status == STOPPED else round(seconds, 2)
        return self._abidiff[pair]


def prepared(names: Sequence[str]) -> Iterator[tuple[Row, str]]:
    """The rows whose libraries can be had, each with what these are of. The others are named."""
    whys: dict[str, str] = {}
    for row in (ROWS[name] for name in names):
        try:
            if row.recipe in whys:
                raise CannotBeHad(whys[row.recipe])
            of = made(RECIPES[row.recipe])
            for file in row.files:
                if file.endswith("_longer.so"):
                    longer(file.replace("_longer", ""))
            yield row, of
        except CannotBeHad as why:
            whys[row.recipe] = str(why)
            told(f"{row.name} is left out: {why}")


def measure(given: argparse.Namespace, kept: Table | None) -> tuple[Table, Table | None]:
    """The tables of the program and of the older one, if one is given. Tells of each row when it is done."""
    now = Table(processor(), given.count)
    old = replace(now, rows={}, place="the table of the old program") if given.old else None
    measuring = Measuring(given)
    for row, of in prepared(given.rows):
        kept_row = kept.rows.get(row.name) if kept else None
        *before, took = measuring.row(row, of, [*([given.old] if given.old else []), given.abi], kept_row)
        now.rows[row.name] = took
        if old and before:
            old.rows[row.name] = kept_row = before[0]
        said = f"{row.name}: {took.seconds:.3f} s, {took.memory:.1f} MB, {took.instructions:,} million instructions"
        changes = (change(took.memory, kept_row.memory), change(took.instructions, kept_row.instructions)) if kept_row else ()
        told(f"{said}{' (memory {}, instructions {})'.format(*changes) if changes else ''}, load {os.getloadavg()[0]:.1f}")
    return now, old


# ---- the command


def told(line: str) -> None:
    """Says something beside the table."""
    print(f"slower: {line}", file=sys.stderr, flush=True)


class Arguments(argparse.ArgumentParser):
    """Wrong arguments end the script with 64."""

    def error(self, message: str) -> NoReturn:
        """Prints the usage and what is wrong, and ends the script."""
        self.exit(64, f"{self.format_usage()}{self.prog}: {message}\n")


def row_names(text: str) -> list[str]:
    """The names of rows, with commas between them."""
    names = text.split(",")
    if wrong := [name for name in names if name not in ROWS]:
        raise argparse.ArgumentTypeError(f"no such row: {', '.join(wrong)}; the rows are {', '.join(ROWS)}")
    return names


def positive(text: str) -> int:
    """A number above 0."""
    if not text.isdecimal() or int(text) == 0:
        raise argparse.ArgumentTypeError(f"{text} is no number above 0")
    return int(text)


def program(text: str) -> Path:
    """The path of a program."""
    path = Path(text).resolve()
    if not os.access(path, os.X_OK) or not path.is_file():
        raise argparse.ArgumentTypeError(f"there is no program {text}")
    return path


def arguments() -> Arguments:
    """What the script takes."""
    parser = Arguments(prog="slower", description=__doc__, formatter_class=argparse.RawDescriptionHelpFormatter, allow_abbrev=False)
    parser.add_argument("abi", nargs="?", type=program, default=str(ROOT / "crates/abi_cli/out/abi_cli"), metavar="PROGRAM",
                        help="the program (default: that of this repository)")
    parser.add_argument("--rows", type=row_names, default=list(ROWS), metavar="ROW,..", help=f"only these rows of {', '.join(ROWS)}")
    parser.add_argument("--runs", type=positive, default=9, metavar="N", help="how often each program runs for its time (default: 9)")
    parser.add_argument("--against", type=Path, default=KEPT, metavar="TABLE", help="the table that is kept (default: bench/check.tsv)")
    parser.add_argument("--write", action="store_true", help="put the new table in its place")
    parser.add_argument("--old", type=program, metavar="PROGRAM", help="compare with this program, and not with the kept table")
    parser.add_argument("--loaded", action="store_true", help="the machine does other work: name ratios that grew, but let them not decide")
    parser.add_argument("--count", choices=COUNTERS, default=COUNTERS[0], help="what counts instructions (default: callgrind)")
    parser.add_argument("--no-abidiff", action="store_true", help="leave out abidiff")
    return parser


def judge(given: argparse.Namespace) -> int:
    """Measures, prints the table, compares it and, if that is asked, writes it."""
    for tool in ("sha256sum", "/usr/bin/time", "valgrind" if given.count == "callgrind" else given.count):
        if not shutil.which(tool):
            raise Failed(f"there is no {tool}")
    path = given.against.resolve()
    kept = read(path) if path.exists() or not (given.write or given.old) else None
    now, old = measure(given, None if given.old else kept)
    print(markdown(now), flush=True)
    found = compare(now, old or kept or now, given.rows, given.loaded)
    for said, lines in (("less", found.shrunk), ("does not decide", found.noted), ("not compared", found.unknown), ("GREW", found.grown)):
        for line in lines:
            told(f"{said}: {line}")
    if not given.write:
        return found.status
    write(path, merged(now, kept) if kept else now)
    return 0 if now.rows.keys() >= set(given.rows) else 2


def main(words: list[str]) -> int:
    """Does what the words ask for."""
    given = arguments().parse_args(words)
    try:
        return judge(given)
    except Failed as why:
        told(str(why))
        return 2


if __name__ == "__main__":
    sys.exit(main(sys.argv[1:]))

"""Runs a program on generated files under limits, and measures processor time and peak memory."""

import math
import os
import re
import subprocess
from dataclasses import dataclass
from pathlib import Path

from .cases import Case

MOST_MEMORY = 8_000_000_000
MOST_SECONDS = 120
# The bounds for a generated file: how many times the seconds of half the file it may take, and how many bytes of memory for each of its
# bytes. No limit is met below 64 MB and a quarter of a second of work, whatever the size of the file, and a list that grows may have half
# as much to spare: a small file may take that much.
MOST_GROWTH = 2.5
BYTES_A_BYTE = 64
BYTES_BESIDE = 100_000_000
SECONDS_A_MEGABYTE = 10
SECONDS_BESIDE = 0.25
# Shorter runs do not show how the time grows: a limit may end the larger one.
SHORT = 0.25
# Yes or accepted, no or refused, unreadable, and out of memory. Another status says that the program did not judge the files.
JUDGED = ("0", "1", "2", "4")


@dataclass(frozen=True)
class Run:
    """A run: its exit status, or the signal that ended it; its seconds of processor time; its peak memory in bytes; and, if the status
    is 4, the words of the limit that the program names, or that it ran out of memory without a limit."""

    status: str
    seconds: float
    memory: int
    limit: str = ""


@dataclass(frozen=True)
class Row:
    """The runs on a file of a kind, and on one that is twice as large."""

    name: str
    sizes: tuple[int, int]
    runs: tuple[Run, Run]

    def growth(self) -> float | None:
        """The ratio of the seconds for twice the bytes; a file that grew by less counts as twice as large."""
        small, large = self.runs
        if large.seconds < SHORT:
            return None
        doublings = max(1.0, math.log2(self.sizes[1] / self.sizes[0]))
        return float((large.seconds / max(small.seconds, 0.01)) ** (1 / doublings))

    def bytes_a_byte(self) -> float:
        return max(run.memory / size for run, size in zip(self.runs, self.sizes))

    def overs(self) -> list[str]:
        """The bounds that the kind exceeds."""
        found = []
        growth = self.growth()
        if growth is not None and growth > MOST_GROWTH:
            found.append("growth")
        if any(run.status not in JUDGED for run in self.runs):
            found.append("status")
        if any(run.seconds > SECONDS_A_MEGABYTE * size / 1e6 + SECONDS_BESIDE for run, size in zip(self.runs, self.sizes)):
            found.append("time")
        if any(run.memory > BYTES_A_BYTE * size + BYTES_BESIDE for run, size in zip(self.runs, self.sizes)):
            found.append("memory")
        return found

    def line(self) -> str:
        small, large = self.runs
        growth = self.growth()
        cells = [
            self.name,
            f"{self.sizes[1]:,}",
            f"{small.seconds:.2f}",
            f"{large.seconds:.2f}",
            "" if growth is None else f"{growth:.1f}",
            f"{large.memory / 1e6:.1f}",
            f"{self.bytes_a_byte():.0f}",
            large.status if small.status == large.status else f"{small.status}, {large.status}",
            large.limit if small.limit in ("", large.limit) else f"{small.limit}; {large.limit}",
            ", ".join(self.overs()),
        ]
        return "| " + " | ".join(cells) + " |"


HEAD = """| Made file | Bytes | Half of it, s | s | Ratio | Peak memory, MB | Bytes a byte | Status | Limit | Over |
|---|---|---|---|---|---|---|---|---|---|"""


OUT_OF_MEMORY = 4


def limit_told(said: str) -> str:
    """The words of the limit in what a program prints on standard error."""
    found = re.search(r"past the limit on (.*) \(LIMITS in ", said)
    if found:
        return found.group(1)
    return "out of memory" if "out of memory" in said else "no words"


def limited(words: list[str], output: str, with_notes: bool = False) -> Run:
    """One run of a command under limits of memory and processor time."""
    environment = {**os.environ, "ABI_NOTES": str(int(with_notes))}
    limits = ["prlimit", f"--as={MOST_MEMORY}", f"--cpu={MOST_SECONDS}", "--core=0"]
    timed = ["/usr/bin/time", "-o", "times", "-f", "%U %S %M %x"]
    with open(output, "wb") as to:
        ran = subprocess.run(timed + limits + words, stdout=to, stderr=subprocess.PIPE, env=environment, check=False)
    lines = Path("times").read_text().splitlines()
    user, system, kilobytes, status = lines[-1].split()
    if lines[0].startswith("Command terminated by signal"):
        status = "signal " + lines[0].split()[-1]
    limit = limit_told(ran.stderr.decode(errors="replace")) if status == str(OUT_OF_MEMORY) else ""
    return Run(status, float(user) + float(system), 1024 * int(kilobytes), limit)


def run_case(program: str, case: Case, runs: int) -> Run:
    """The fastest of some runs of a case; a case that takes long runs once."""
    for name, contents in case.files.items():
        Path(name).write_bytes(contents)
    if case.before:
        limited([program, *case.before], "made")
    words = [program, *case.words]
    least = limited(words, os.devnull, case.with_notes)
    for _ in range(runs - 1):
        if least.seconds > 1:
            break
        again = limited(words, os.devnull, case.with_notes)
        least = again if again.seconds < least.seconds else least
    return least

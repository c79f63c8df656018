#!/usr/bin/python3
"""What the gate takes: processor time, memory and the longest chain, crate by crate.

bench/gate.py watch LOG COMMAND..     runs the command, writes what each of its checks and compilers took to LOG, and ends with its status
bench/gate.py table LOG               prints the table of a log
bench/gate.py compare LOG             fails if a crate takes a third more than the table kept in bench/gate.tsv says
bench/gate.py keep LOG                writes that table anew

A log has one line of JSON for each process. A crate that an earlier run proved has none, so keep a table from a run that proved all.
"""

from __future__ import annotations

import json
import subprocess
import sys
import time
from collections import defaultdict
from dataclasses import asdict, dataclass
from pathlib import Path
from typing import Iterable

import psutil

ROOT = Path(__file__).resolve().parents[1]
KEPT = ROOT / "bench" / "gate.tsv"
KINDS = ("proof", "tests", "edits", "compilers")
# Below this many seconds a third more or less is chance.
LEAST = 30.0
SECONDS_BETWEEN_LOOKS = 0.5


@dataclass
class Took:
    """What one process of the gate took: seconds of processor time and of the clock, and megabytes at the most."""

    crate: str
    kind: str
    processor: float
    clock: float
    memory: float


def kind_of(words: list[str], folder: str) -> tuple[str, str] | None:
    """The crate and the kind of work of a process of the gate, or None if it is neither a check nor a compiler."""
    tool = Path(words[0]).name if words else ""
    if tool in ("clang", "rattle-link", "llc", "opt"):
        return "", "compilers"
    if tool != "rattle" or "--crate-name" not in words:
        return None
    crate = words[words.index("--crate-name") + 1]
    if "rt-edit" in folder:
        return crate, "edits"
    if "--test" in words:
        return crate, "tests"
    return crate, "compilers" if "--backend" in words or "--crate-checked" in words else "proof"


def watched(process: psutil.Process, begun: float) -> Took | None:
    """What a process has taken so far, or None if it is of no interest or gone."""
    try:
        with process.oneshot():
            found = kind_of(process.cmdline(), process.cwd())
            if not found:
                return None
            times = process.cpu_times()
            return Took(*found, times.user + times.system, time.time() - max(begun, process.create_time()), process.memory_info().rss / 1e6)
    except psutil.Error:
        return None


def watch(log: Path, command: list[str]) -> int:
    """Runs the command and looks at the processes below it twice a second; the last look at each one counts."""
    begun, seen = time.time(), dict[tuple[int, float], Took]()
    with subprocess.Popen(command) as running:
        top = psutil.Process(running.pid)
        while running.poll() is None:
            try:
                below = top.children(recursive=True)
            except psutil.Error:
                below = []
            for process in below:
                took = watched(process, begun)
                if took:
                    key = (process.pid, process.create_time())
                    took.memory = max(took.memory, seen[key].memory if key in seen else 0)
                    seen[key] = took
            time.sleep(SECONDS_BETWEEN_LOOKS)
    log.write_text("".join(f"{json.dumps(asdict(took))}\n" for took in seen.values()), encoding="utf-8")
    return running.returncode


def read_log(log: Path) -> list[Took]:
    """The processes of a log."""
    return [Took(**json.loads(line)) for line in log.read_text(encoding="utf-8").splitlines()]


def needs() -> dict[str, list[str]]:
    """The crates of the repository, each with those that it names in crates.txt."""
    lines = (line.split("#")[0] for line in (ROOT / "crates.txt").read_text(encoding="utf-8").splitlines())
    named = {name.strip(): rest.split() for line in lines if ":" in line for name, rest in [line.split(":", 1)]}
    return {name: [it for it in below if it in named] for name, below in named.items()}


def longest_chain(clock: dict[str, float]) -> list[str]:
    """The chain of crates, each standing on the one before, whose proofs take the longest by the clock."""
    below, chains = needs(), dict[str, list[str]]()

    def seconds(chain: list[str]) -> float:
        return sum(clock.get(name, 0.0) for name in chain)

    def chain_to(name: str) -> list[str]:
        if name not in chains:
            chains[name] = max((chain_to(it) for it in below[name]), key=seconds, default=[]) + [name]
        return chains[name]

    return max((chain_to(name) for name in below), key=seconds, default=[])


def minutes_by_crate(took: Iterable[Took]) -> dict[str, dict[str, float]]:
    """Minutes of processor time by crate and kind of work."""
    minutes: dict[str, dict[str, float]] = defaultdict(lambda: defaultdict(float))
    for it in took:
        minutes[it.crate or "(compilers)"][it.kind] += it.processor / 60
    return minutes


def table(log: Path) -> None:
    """Prints the table of a log."""
    took = read_log(log)
    minutes, memory, clock = minutes_by_crate(took), defaultdict[str, float](float), defaultdict[str, float](float)
    for it in took:
        memory[it.crate or "(compilers)"] = max(memory[it.crate or "(compilers)"], it.memory)
        if it.kind == "proof":
            clock[it.crate] += it.clock
    print("| Crate | Proof | Tests | Edits | Compilers | Memory |\n|---|---|---|---|---|---|")
    for name in sorted(minutes, key=lambda name: -sum(minutes[name].values())):
        cells = (f"{minutes[name][kind]:.1f}" if minutes[name].get(kind) else "" for kind in KINDS)
        print(f"| `{name}` | {' | '.join(cells)} | {memory[name] / 1000:.1f} GB |")
    sums = {kind: sum(row.get(kind, 0.0) for row in minutes.values()) for kind in KINDS}
    print(f"\nProcessor minutes: {sum(sums.values()):.0f} ({', '.join(f'{kind} {sums[kind]:.0f}' for kind in KINDS)}).")
    chain = longest_chain(clock)
    print(f"Longest chain: {sum(clock[name] for name in chain) / 60:.0f} minutes by the clock: {', '.join(chain)}.")


def kept_minutes() -> dict[str, float]:
    """The minutes of each crate in the table that is kept."""
    rows = (line.split("\t") for line in KEPT.read_text(encoding="utf-8").splitlines() if not line.startswith("#"))
    return {name: float(minutes) for name, minutes in rows}


def compare(log: Path) -> int:
    """Names the crates that take a third more than the kept table says."""
    kept, faults = kept_minutes(), 0
    for name, row in sorted(minutes_by_crate(read_log(log)).items()):
        now = sum(row.values())
        if name in kept and now * 60 > LEAST and now > kept[name] * 4 / 3:
            print(f"{name}: {now:.1f} minutes, {kept[name]:.1f} in the kept table", file=sys.stderr)
            faults += 1
    return 1 if faults else 0


def keep(log: Path) -> None:
    """Writes the table that is kept."""
    rows = sorted((name, sum(row.values())) for name, row in minutes_by_crate(read_log(log)).items())
    lines = "".join(f"{name}\t{minutes:.1f}\n" for name, minutes in rows)
    KEPT.write_text(f"# crate, minutes of processor time in a gate from nothing\n{lines}", encoding="utf-8")


def main(words: list[str]) -> int:
    """Does what the words ask for."""
    match words:
        case ["watch", log, *command] if command:
            return watch(Path(log), command)
        case ["table", log]:
            table(Path(log))
        case ["compare", log]:
            return compare(Path(log))
        case ["keep", log]:
            keep(Path(log))
        case _:
            print(__doc__, file=sys.stderr)
            return 64
    return 0


if __name__ == "__main__":
    sys.exit(main(sys.argv[1:]))

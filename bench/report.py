"""Times the reports of two builds of a library with many changed structures, and leaves the page for `bench/page.py`.

usage: /usr/bin/python3 bench/report.py [--structures COUNT | --libraries OLD NEW] [--programs ABI ABI_JSON]

Makes a library of COUNT structures (2,500 by default), builds it with gcc, and again with one member of each structure widened, which
breaks four rules in each. Or else it takes two libraries OLD and NEW; NEW may not replace OLD. Prints the seconds of `abi check`, of
`abi-json check` without digests, with digests, and with notes on what no rule judges, of `abi-json notes`, and of `tools/abi-report` for
the document and the page, with and without notes: the least of five runs, by the clock and by the processor, each also as a multiple of
the time of `abi check`. The commands take turns, so that other work on the machine slows all of them alike.
Python keeps its compiled modules, as it does by default. The page is then in `bench/made/report/page.html`.
"""

from __future__ import annotations

import argparse
import os
import resource
import subprocess
import sys
import time
from pathlib import Path

_TOP = Path(__file__).resolve().parents[1]
_MADE = _TOP / "bench" / "made" / "report"
_STRUCTURES = 2500
_RUNS = 5
_STRUCTURE = """\
struct buffer_{0} {{
    char *name;
    unsigned flags : 7;
    {1} length_of_part_{0};
    void (*on_event)(struct buffer_{0} *, int);
    char tail[{2}];
}};
int buffer_{0}_use(struct buffer_{0} *buffer);
"""
_FUNCTION = "int buffer_{0}_use(struct buffer_{0} *buffer) {{ return buffer->tail[0]; }}\n"


def built(name: str, kind: str, count: int) -> Path:
    """Builds the library with members of this type."""
    folder = _MADE / name
    (folder / "include").mkdir(parents=True, exist_ok=True)
    (folder / "include" / "buffers.h").write_text("".join(_STRUCTURE.format(one, kind, one % 9 + 1) for one in range(count)))
    functions = "".join(_FUNCTION.format(one) for one in range(count))
    (folder / "buffers.c").write_text(f'#include "buffers.h"\n{functions}')
    subprocess.run(["gcc", "-g", "-shared", "-fPIC", "-Iinclude", "-Wl,-soname,libbuffers.so.1", "-o", f"../{name}.so", "buffers.c"],
                   cwd=folder, check=True)
    return _MADE / f"{name}.so"


def timed(command: list[str], output: Path, variables: dict[str, str], status: int) -> tuple[float, float]:
    """The seconds of a run with these environment variables, by the clock and by the processor. It must end with the status."""
    before, start = resource.getrusage(resource.RUSAGE_CHILDREN), time.monotonic()
    with output.open("wb") as stream:
        ended = subprocess.run(command, stdout=stream, stderr=subprocess.DEVNULL, check=False, env={**os.environ, **variables})
    seconds, after = time.monotonic() - start, resource.getrusage(resource.RUSAGE_CHILDREN)
    if ended.returncode != status:
        sys.exit(f"report.py: {command[0]} ended with status {ended.returncode}, not {status}")
    return seconds, after.ru_utime + after.ru_stime - before.ru_utime - before.ru_stime


def main() -> int:
    """Measures as the arguments say."""
    parser = argparse.ArgumentParser(description="Times reports.")
    parser.add_argument("--structures", type=int, default=_STRUCTURES, metavar="COUNT")
    parser.add_argument("--libraries", nargs=2, metavar=("OLD", "NEW"))
    parser.add_argument("--programs", nargs=2, metavar=("ABI", "ABI_JSON"),
                        default=[str(_TOP / f"crates/{name}/out/{name}") for name in ("abi_cli", "abi_json")])
    given = parser.parse_args()
    abi, abi_json = given.programs
    os.environ.update(ABI=abi, ABI_JSON=abi_json)
    os.environ.pop("PYTHONDONTWRITEBYTECODE", None)
    _MADE.mkdir(parents=True, exist_ok=True)
    old, new = given.libraries or (str(built(name, kind, given.structures)) for name, kind in (("old", "int"), ("new", "long")))
    measure(abi, abi_json, old, new)
    return 0


def measure(abi: str, abi_json: str, old: str, new: str) -> None:
    """Prints a line for each program and its options."""
    report = str(_TOP / "tools" / "abi-report")
    commands: tuple[tuple[str, list[str], str, dict[str, str]], ...] = (
        ("abi check", [abi, "check"], "rows", {"ABI_NOTES": "0"}),
        ("ABI_DIGESTS=0 abi-json check", [abi_json, "check"], "undigested.json", {"ABI_NOTES": "0", "ABI_DIGESTS": "0"}),
        ("abi-json check", [abi_json, "check"], "json", {"ABI_NOTES": "0"}),
        ("abi-json notes", [abi_json, "notes"], "notes.json", {}),
        ("ABI_NOTES=1 abi-json check", [abi_json, "check"], "noted.json", {"ABI_NOTES": "1"}),
        ("abi-report", [report], "text", {}),
        ("abi-report --format json --fast", [report, "--format", "json", "--fast"], "fast.json", {}),
        ("abi-report --format json", [report, "--format", "json"], "report.json", {}),
        ("abi-report --format html --fast", [report, "--format", "html", "--fast"], "fast.html", {}),
        ("abi-report --format html", [report, "--format", "html"], "page.html", {}))
    times: dict[str, list[tuple[float, float]]] = {}
    for _ in range(_RUNS):
        for name, command, output, variables in commands:
            status = 0 if command[-1] == "notes" else 1
            times.setdefault(name, []).append(timed([*command, old, new], _MADE / output, variables, status))
    first: tuple[float, ...] = ()
    for name, _, output, _ in commands:
        least = tuple(min(one[number] for one in times[name]) for number in (0, 1))
        first = first or least
        clock, processor = (f"{own:.2f} s ({own / other:.2f})" for own, other in zip(least, first))
        print(f"{name}: {clock}, {processor} of the processor, {(_MADE / output).stat().st_size:,} bytes")


if __name__ == "__main__":
    sys.exit(main())

#!/usr/bin/python3
"""Holds each answer of abi-packages on pairs of real packages against `abi check` on what `dpkg-deb -x` unpacks of them.

    cd FOLDER && apt-get download NAME=VERSION..
    ABI=/path/of/abi bench/package_pairs.py FOLDER [NAME..]

FOLDER has packages in two or more versions each, and those of their debug information. Each version is compared with the next one. Prints a
row for each pair, and ends with 1 if an answer differs."""

from __future__ import annotations

import itertools
import os
import resource
import subprocess
import sys
import tempfile
from collections import Counter
from dataclasses import dataclass
from pathlib import Path
from typing import Iterator, Optional, Sequence

from debian.debian_support import Version

TOOLS = Path(__file__).resolve().parents[1] / "tools"
sys.path.insert(0, str(TOOLS))

from abi_tools.deb_control import about  # noqa: E402

_WORDS = {0: "yes", 1: "no"}
# The first words of the lines of abi-packages.
_SAID = ("yes", "no", "cannot tell", "gone", "new", "left out")


@dataclass(frozen=True)
class Pair:
    """Two versions of a package, each with its debug packages."""

    name: str
    versions: tuple[str, str]
    old: list[Path]
    new: list[Path]


def main(arguments: Sequence[str]) -> int:
    """Compares, and returns the exit status."""
    differ = 0
    counts: Counter[str] = Counter()
    for pair in _pairs(Path(arguments[0]), arguments[1:]):
        differ += _compared(pair, counts)
    print(", ".join(f"{count} {what}" for what, count in sorted(counts.items())), f"{differ} differences", file=sys.stderr)
    return 1 if differ else 0


def _compared(pair: Pair, counts: Counter[str]) -> int:
    """Prints the row of a pair, counts its answers, and returns how many of them differ."""
    said, seconds = _said(pair)
    by_hand = dict(_by_hand(pair))
    wrong = sorted(_differences(said, by_hand))
    words = Counter(word for words in said.values() for word in words)
    counts.update(words)
    counts["pairs"] += 1
    listed = ", ".join(f"{count} {word}" for word, count in sorted(words.items()))
    print(f"| {pair.name} | {' | '.join(pair.versions)} | {listed} | {seconds:.1f} | {'; '.join(wrong) or 'agrees'} |", flush=True)
    return len(wrong)


def _pairs(folder: Path, names: Sequence[str]) -> Iterator[Pair]:
    """The pairs of packages in a folder: each version with the next one."""
    files = {about(file): file for file in sorted(folder.glob("*.deb"))}
    packages = sorted((one for one in files if not one.is_debug and one.name in (names or [one.name])),
                      key=lambda one: (one.name, Version(one.version)))
    for old, new in itertools.pairwise(packages):
        if old.name == new.name:
            sides = [[files[side], *(file for one, file in files.items() if one.has_debug_of(side))] for side in (old, new)]
            yield Pair(old.name, (old.version, new.version), *sides)


def _said(pair: Pair) -> tuple[dict[str, list[str]], float]:
    """What abi-packages says: the words for each soname, and the seconds of processor time that it took."""
    with tempfile.TemporaryDirectory() as kept:
        before = resource.getrusage(resource.RUSAGE_CHILDREN)
        command = [TOOLS / "abi-packages", "--certificates", kept, *pair.old, "--", *pair.new]
        ended = subprocess.run(command, capture_output=True, text=True, check=False)
        after = resource.getrusage(resource.RUSAGE_CHILDREN)
    seconds = after.ru_utime + after.ru_stime - before.ru_utime - before.ru_stime
    if ended.stderr:
        print(ended.stderr, end="", file=sys.stderr)
    found: dict[str, list[str]] = {}
    for line in ended.stdout.splitlines()[:-1]:
        word = next(one for one in _SAID if line.startswith(f"{one} "))
        name = line[len(word) + 1:].split(":")[0].rpartition("/")[2]
        found.setdefault(name, []).append(word)
    return found, seconds


def _by_hand(pair: Pair) -> Iterator[tuple[str, set[str]]]:
    """For each soname of a library on both sides, the answers of `abi check` on all its pairs of files of one name without digits."""
    with tempfile.TemporaryDirectory() as work:
        sides = []
        for said, files in (("old", pair.old), ("new", pair.new)):
            root = Path(work, said)
            for file in files:
                subprocess.run(["dpkg-deb", "-x", file, root], check=True)
            sides.append(_libraries(root, Path(work, f"{said}-joined")))
        for soname in sorted({name for side in sides for name in side}):
            olds, news = (side.get(soname, {}) for side in sides)
            answers = {_checked(olds[name], news[name]) for name in olds.keys() & news.keys()}
            if not answers and len(olds) == len(news) == 1:
                answers = {_checked(*olds.values(), *news.values())}
            yield soname, answers or {"alone" if olds and news else "gone" if olds else "new"}


def _libraries(root: Path, joined: Path) -> dict[str, dict[str, Path]]:
    """The libraries of an unpacked package, joined with their debug files, by soname and by their name without digits."""
    found: dict[str, dict[str, Path]] = {}
    for place in sorted(root.rglob("*")):
        if place.is_symlink() or not place.is_file() or "usr/lib/debug/" in str(place) or place.open("rb").read(4) != b"\x7fELF":
            continue
        soname = _soname(place)
        if soname is None:
            continue
        output = joined / str(len(list(joined.iterdir()))) if joined.exists() else joined / "0"
        output.parent.mkdir(exist_ok=True)
        if subprocess.run([TOOLS / "join-debug", "--root", root, place, output], capture_output=True, check=False).returncode != 0:
            output.write_bytes(place.read_bytes())
        name = "".join(one for one in str(place.relative_to(root)).removeprefix("usr/") if not one.isdigit())
        of_soname = found.setdefault(soname, {})
        of_soname[str(place) if name in of_soname else name] = output
    return found


def _soname(place: Path) -> Optional[str]:
    """The soname of a shared object, as readelf shows it, or else its file name; None for other files."""
    shown = subprocess.run(["readelf", "--wide", "--file-header", "--dynamic", "--segments", place], capture_output=True, text=True,
                           errors="replace", check=False).stdout
    if "DYN (" not in shown or "X86-64" not in shown or "ELF64" not in shown or "(SYMTAB)" not in shown:
        return None
    named = [line.partition("[")[2].rpartition("]")[0] for line in shown.splitlines() if "(SONAME)" in line]
    return named[0] if named else place.name if ".so" in place.name else None


def _checked(old: Path, new: Path) -> str:
    """The answer of `abi check`."""
    ended = subprocess.run([os.environ["ABI"], "check", old, new], capture_output=True, check=False)
    return _WORDS.get(ended.returncode, "refused")


def _differences(said: dict[str, list[str]], by_hand: dict[str, set[str]]) -> Iterator[str]:
    """Where the two contradict each other. `cannot tell` contradicts nothing, but a library that the other way does not see."""
    for soname in said.keys() | by_hand.keys():
        words, answers = set(said.get(soname, ())) - {"left out"}, by_hand.get(soname, set())
        if not words or not answers:
            yield f"{soname}: {words or 'no line'}, by hand {answers or 'not seen'}"
        elif "cannot tell" not in words and "alone" not in answers and words != answers:
            yield f"{soname}: {', '.join(sorted(words))}, by hand {', '.join(sorted(answers))}"


if __name__ == "__main__":
    sys.exit(main(sys.argv[1:]))

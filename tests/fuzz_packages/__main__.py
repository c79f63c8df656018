"""`python3 -m fuzz_packages [--processes N] COUNT [SEED [FIRST]]` tries changed packages, with numbers from FIRST to below COUNT. A wrong
answer is kept in the folder that the variable FOUND names, or else in tests/found, and the exit status is then 1."""

from __future__ import annotations

import argparse
import datetime
import itertools
import multiprocessing
import os
import sys
import tempfile
from collections import Counter
from pathlib import Path
from random import Random
from typing import Optional, Sequence

sys.path.insert(0, str(Path(__file__).resolve().parents[2] / "tools"))

from fuzz_packages.changes import Changer  # noqa: E402
from fuzz_packages.corpus import LIBRARY, Corpus, Member, control, deb, made_corpus, tar  # noqa: E402
from fuzz_packages.trials import Trials, Wrong  # noqa: E402

_FOUND = Path(os.environ.get("FOUND") or Path(__file__).resolve().parents[1] / "found")


def sound(members: Sequence[Member]) -> bytes:
    """A sound package."""
    return deb([control(), ("data.tar", tar(members))])


def tried(number: int, seed: str, trials: Trials, corpus: Corpus, folder: Path) -> Optional[Wrong]:
    """What is wrong with the trial of a number. In most trials the new package is changed and has the library that breaks; in others
    the old one is changed, or each side has two packages that share folders."""
    random = Random(f"{seed}-{number}")
    changer = Changer(random, corpus, str(trials.canary))
    if random.random() < 0.25:
        return _sharing(number, random, changer, trials, folder)
    is_old = random.random() < 0.25
    suffix, contents = changer.package(corpus.good if is_old or random.random() < 0.3 else corpus.bad)
    changed, other = folder / f"changed{suffix}", folder / "other.deb"
    changed.write_bytes(contents)
    other.write_bytes(sound([Member(LIBRARY, contents=corpus.bad if is_old else corpus.good)]))
    return trials.wrong(number, *(([changed], [other]) if is_old else ([other], [changed])))


def _sharing(number: int, random: Random, changer: Changer, trials: Trials, folder: Path) -> Optional[Wrong]:
    """The trial of two packages on each side. Mostly both sides have the same members, but for one of them."""
    old = changer.sharing(trials.corpus.good)
    new = [list(side) for side in old]
    changer.change_one(new)
    sides = []
    for said, members in (("old", old), ("new", new)):
        sides.append([folder / f"{said}{one}.deb" for one in range(len(members))])
        for file, listed in zip(sides[-1], members):
            file.write_bytes(sound(listed))
        random.shuffle(sides[-1])
    return trials.wrong(number, *sides)


def part(count: int, seed: str, first: int) -> tuple[Counter[int], int]:
    """Tries packages with numbers from `first` to below `count`. Returns how many had each status, and how many answers were wrong."""
    wrong = 0
    with tempfile.TemporaryDirectory(prefix="abi-fuzz-") as name:
        folder = Path(name).resolve()
        packages = folder / "packages"
        packages.mkdir()
        corpus = made_corpus(folder)
        trials = Trials(folder, corpus)
        for number in range(first, count):
            found = tried(number, seed, trials, corpus, packages)
            if found is not None:
                wrong += 1
                _keep(number, seed, found, packages)
            for file in packages.iterdir():
                file.unlink()
    return trials.counts, wrong


def main(arguments: list[str]) -> int:
    """Tries packages as the arguments say, and returns how many answers were wrong, at most 1."""
    parser = argparse.ArgumentParser("fuzz_packages")
    parser.add_argument("count", type=int)
    parser.add_argument("seed", nargs="?", default=str(datetime.date.today()))
    parser.add_argument("first", nargs="?", type=int, default=0)
    parser.add_argument("--processes", type=int, default=1)
    given = parser.parse_args(arguments)
    edges = [given.first + (given.count - given.first) * one // given.processes for one in range(given.processes + 1)]
    work = [(end, given.seed, start) for start, end in itertools.pairwise(edges)]
    with multiprocessing.get_context("fork").Pool(given.processes) as pool:
        found = pool.starmap(part, work, chunksize=1)
    counts = sum((one for one, _ in found), Counter[int]())
    wrong = sum(one for _, one in found)
    said = ", ".join(f"{number} with status {status}" for status, number in sorted(counts.items()))
    print(f"seed {given.seed}: {sum(counts.values())} packages ({said}), {wrong} wrong answers")
    return 1 if wrong else 0


def _keep(number: int, seed: str, found: Wrong, folder: Path) -> None:
    """Keeps the packages of a trial."""
    place = _FOUND / f"package-{seed}-{number}"
    place.mkdir(parents=True, exist_ok=True)
    for package in folder.glob("*"):
        (place / package.name).write_bytes(package.read_bytes())
    print(f"{place}: {found.what}", flush=True)


if __name__ == "__main__":
    sys.exit(main(sys.argv[1:]))

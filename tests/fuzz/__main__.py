"""Tries inputs with random changes.

usage: python3 -m fuzz PROGRAM AGAIN CORPUS FOUND COUNT SEED FIRST STEP MEMORY

Tries the inputs with the numbers FIRST, FIRST + STEP and so on below COUNT, under a limit of MEMORY bytes, or without a limit if
that is 0. A process answers one command after the other, since AGAIN, the library that again.c makes, is loaded into it. For one of
499 inputs, each command is also answered by a process of its own. With an empty AGAIN, every command is.

CORPUS is the folder in which corpus.py made the sound files. The files of an input that shows a fault are kept in the folder FOUND. The
last line says how many inputs were tried, in how many runs of the program, and how many answers were wrong.
"""

import shutil
import sys
import time
from pathlib import Path

from .batches import Bench, Ways, wrong_ones
from .corpus import read
from .runs import Runner
from .trials import OTHER, SMALL, Wrong

MOST_FOUND = 20
BATCH = 100
BETWEEN_REPORTS = 600


def keep(found: Path, number: int, wrong: Wrong) -> None:
    """Keeps the files of an input with a wrong answer."""
    folder = found / str(number)
    folder.mkdir(parents=True, exist_ok=True)
    for file in map(Path, {SMALL, OTHER, *wrong.words}):
        if file.is_file():
            shutil.copy(file, folder / file.name)
    (folder / "wrong").write_text(f"{wrong}\n")
    print(f"input {number}: {wrong}\n    kept in {folder}", flush=True)


def tell_alone(bench: Bench, number: int) -> None:
    """Says what processes that answer one command each say to the input."""
    alone = wrong_ones(bench, [number], Ways.ALONE)
    print(f"input {number}: wrong in processes of its own: {'yes' if alone else 'no'}", flush=True)


def main(words: list[str]) -> int:
    program, again, corpus, found, count, seed, first, step, memory = words
    runner = Runner(program, Path(again), int(memory))
    bench = Bench(runner, read(Path(corpus)), seed)
    ways = Ways.AGAIN if again else Ways.ALONE
    numbers = range(int(first), int(count), int(step))
    wrongs = tried = 0
    reported = time.monotonic()
    while tried < len(numbers) and wrongs < MOST_FOUND:
        batch = numbers[tried : tried + BATCH]
        here = wrong_ones(bench, list(batch), ways)
        for number, wrong in here:
            keep(Path(found), number, wrong)
        for number, _ in here:
            tell_alone(bench, number)
        wrongs += len(here)
        tried += len(batch)
        if time.monotonic() - reported > BETWEEN_REPORTS:
            reported = time.monotonic()
            print(f"tried {tried} inputs in {runner.runs} runs, {wrongs} wrong", flush=True)
    print(f"tried {tried} inputs in {runner.runs} runs, {wrongs} wrong")
    return 1 if wrongs else 0


if __name__ == "__main__":
    if len(sys.argv) != 10:
        sys.exit(__doc__)
    sys.exit(main(sys.argv[1:]))

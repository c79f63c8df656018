"""Many trials at a time, so that few messages go to the process of the program and back."""

from dataclasses import dataclass
from enum import Enum, auto

from .answers import complaint
from .runs import Answer, Runner
from .trials import Sound, Trial, Words, Wrong, trial

# For one of so many inputs, each command is also answered by a process of its own.
COMPARED = 499


class Ways(Enum):
    """Whether processes answer many commands, or one command each."""

    AGAIN = auto()
    ALONE = auto()


@dataclass
class Bench:
    """What batches share."""

    runner: Runner
    sound: Sound
    seed: str


@dataclass
class Step:
    """A trial under way: the number of its input, and the commands whose answers it waits for."""

    number: int
    trial: Trial
    asked: list[Words]


def answers_to(bench: Bench, commands: list[Words], ways: Ways) -> list[Answer]:
    if ways == Ways.ALONE:
        return [bench.runner.run_alone(*words) for words in commands]
    return bench.runner.run_all(commands)


def judge(bench: Bench, step: Step, answers: list[Answer]) -> None:
    """Raises Wrong if one of the answers is not valid, or is not that of a process of its own."""
    for words, answer in zip(step.asked, answers, strict=True):
        what = complaint(words[0], answer)
        if what:
            raise Wrong(what, words)
        if step.number % COMPARED == 0 and answer != bench.runner.run_alone(*words):
            raise Wrong("a process of its own gives another answer", words)


def next_step(bench: Bench, step: Step, answers: list[Answer]) -> Step | None:
    """The step after this one; None if the trial is done. Raises Wrong if an answer is wrong."""
    judge(bench, step, answers)
    try:
        return Step(step.number, step.trial, step.trial.send(answers))
    except StopIteration:
        return None


def wrong_ones(bench: Bench, numbers: list[int], ways: Ways) -> list[tuple[int, Wrong]]:
    """Tries the inputs with these numbers. Returns the numbers of those with wrong answers."""
    found = []
    trials = [trial(bench.sound, bench.seed, number, slot) for slot, number in enumerate(numbers)]
    steps = [Step(number, it, next(it)) for number, it in zip(numbers, trials, strict=True)]
    while steps:
        answers = answers_to(bench, [words for step in steps for words in step.asked], ways)
        further = []
        for step in steps:
            own, answers = answers[: len(step.asked)], answers[len(step.asked) :]
            try:
                after = next_step(bench, step, own)
            except Wrong as wrong:
                found.append((step.number, wrong))
                continue
            if after:
                further.append(after)
        steps = further
    return found

"""Runs of a program under limits of memory and time."""

import os
import resource
import signal
from dataclasses import dataclass
from pathlib import Path
from types import FrameType

from .server import Server

SECONDS = 20
# After how many runs a process is replaced by a fresh one.
MOST_RUNS = 2000


@dataclass(frozen=True)
class Answer:
    """How a run ended: its exit status (negative if a signal ended it), and what it wrote."""

    status: int
    output: bytes
    errors: bytes


class Late(Exception):
    """The program did not end in time."""


def ring(_number: int, _frame: FrameType | None) -> None:
    raise Late


class Runner:
    """Runs the program again and again. Its output goes into the same two files each time."""

    def __init__(self, program: str, again: Path, memory: int) -> None:
        self.program = program
        self.again = again
        self.server: Server | None = None
        self.output = os.open("output", os.O_RDWR | os.O_CREAT | os.O_TRUNC)
        self.errors = os.open("errors", os.O_RDWR | os.O_CREAT | os.O_TRUNC)
        self.runs = 0
        signal.signal(signal.SIGALRM, ring)
        # The limits are those of this process; the program inherits them.
        resource.setrlimit(resource.RLIMIT_CORE, (0, 0))
        if memory:
            resource.setrlimit(resource.RLIMIT_AS, (memory, memory))

    def run_all(self, commands: list[tuple[str, ...]]) -> list[Answer]:
        """The answers to these commands, of a process that has answered others before. If a command ends the process, a new process
        answers those after it."""
        answers: list[Answer] = []
        while len(answers) < len(commands):
            answers += self.run_some(commands[len(answers) :])
        self.runs += len(answers)
        return answers

    def run_some(self, commands: list[tuple[str, ...]]) -> list[Answer]:
        """The answers to the first commands, up to one that ends the process."""
        self.empty()
        if self.server is None:
            self.server = Server(self.program, self.again, self.output, self.errors)
        records = self.server.records(commands)
        output, errors = self.written(self.output), self.written(self.errors)
        if len(records) < len(commands) or self.server.runs >= MOST_RUNS:
            ended = self.server.ended()
            self.server = None
            if len(records) < len(commands):
                records.append((ended, len(output), len(errors)))
        answers, at, beside = [], 0, 0
        for status, end, end_beside in records:
            answers.append(Answer(status, output[at:end], errors[beside:end_beside]))
            at, beside = end, end_beside
        return answers

    def run_alone(self, *words: str) -> Answer:
        """The answer of a process of its own."""
        self.runs += 1
        self.empty()
        actions = [(os.POSIX_SPAWN_DUP2, self.output, 1), (os.POSIX_SPAWN_DUP2, self.errors, 2)]
        process = os.posix_spawn(self.program, [self.program, *words], os.environ, file_actions=actions)
        signal.setitimer(signal.ITIMER_REAL, SECONDS)
        try:
            _, ended = os.waitpid(process, 0)
        except Late:
            os.kill(process, signal.SIGKILL)
            _, ended = os.waitpid(process, 0)
        signal.setitimer(signal.ITIMER_REAL, 0)
        return Answer(os.waitstatus_to_exitcode(ended), self.written(self.output), self.written(self.errors))

    def empty(self) -> None:
        """Empties the two files."""
        for file in (self.output, self.errors):
            os.ftruncate(file, 0)
            os.lseek(file, 0, os.SEEK_SET)

    @staticmethod
    def written(file: int) -> bytes:
        return os.pread(file, os.fstat(file).st_size, 0)

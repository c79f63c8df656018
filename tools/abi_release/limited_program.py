"""Runs the program `abi` under limits of memory and time, and measures what it takes."""

from __future__ import annotations

import argparse
import contextlib
import os
import resource
import select
import shlex
import signal
import subprocess
import tempfile
import threading
from dataclasses import dataclass
from pathlib import Path
from typing import IO, Optional, Sequence

from abi_tools.abi_program import NO, Abi, Answer, environment
from abi_tools.faults import Fault
from abi_tools.signals import ENDED_BY_SIGNAL

# GNU time. Linux counts the memory of Python itself for a process that Python starts, so a small process starts `abi`.
_TIME = "/usr/bin/time"
_MEGABYTE = 1 << 20
# How many bytes `abi` may print.
_LONGEST_TEXT = 1 << 29
# The exit status for a fault of the inputs, all those that say something about them (yes or done, no, and a fault), and the one for
# memory that ran out, or a limit.
FAULT = 2
_TOLD = (0, 1, FAULT)
_NO_MEMORY = 4
# How the sentence begins if not memory ran out, but a count of `abi` would pass a limit.
_PAST_A_LIMIT = "past the limit on "
# How many seconds by the clock a second of processor time may take, unless the caller says otherwise.
CLOCK = 10
# The largest number that a limit on the command line may have: the system counts bytes and microseconds in 64 bits.
_LARGEST = 10 ** 9
# The most seconds that poll(2) waits.
_LONGEST_WAIT = 2_000_000


@dataclass(frozen=True)
class Limits:
    """The limits of a process: megabytes of memory, seconds of processor time, and seconds by the clock; and how many megabytes of the
    disk all unpacked packages of a host may take."""

    megabytes: int
    seconds: int
    clock: int
    disk: int


def limit_of(text: str) -> int:
    """A limit on the command line. Raises an argument error if it is no number from 1 to a thousand million."""
    value = int(text) if text.isascii() and text.isdigit() else 0
    if not 1 <= value <= _LARGEST:
        raise argparse.ArgumentTypeError(f"{text} is no number from 1 to {_LARGEST}")
    return value


def check_time() -> None:
    """Raises a fault if there is no GNU time."""
    if not os.access(_TIME, os.X_OK):
        raise Fault(f"there is no {_TIME}: install the package time")


# One shell does several runs in turn. A line that begins with a random mark, which no run can know, ends the output of each. After each
# run the shell goes on only if the exit status was 0 or 1. A second shell waits for the end of the worker, however that comes, and then
# ends all that the first one started: its `read` returns when the last process with the other end of the pipe is gone.
_LIMITS = """\
exec 3<&0 </dev/null
(read ended <&3; kill -KILL 0) &
ulimit -S -v {kilobytes} && ulimit -S -t {seconds} && ulimit -S -f {blocks} && ulimit -S -c 0 || exit 125
"""
_RUN = """\
{command} 3<&-
status=$?
echo "{mark} $status"
echo "{mark}" >&2
"""
_NEXT = "[ $status -le 1 ] || { kill $!; exit 0; }\n"
_END = "kill $!\n"
_BLOCK = 512


class LimitedAbi(Abi):
    """The program, each run of which is under the limits. It keeps what the runs took, and `trouble`: why the answer of a run says
    nothing about its inputs."""

    def __init__(self, folder: Path, limits: Limits) -> None:
        super().__init__(folder)
        self.command = [self.path]
        self._limits = limits
        self._known: dict[tuple[str, ...], Answer] = {}
        self.seconds = 0.0
        self.megabytes = 0.0
        self.trouble = ""

    def check(self, old: Path, new: Path, rules: Optional[Path], with_notes: bool = False) -> Answer:
        """Runs `abi check`: may the new library replace the old one? On yes or no, the same shell also runs `abi exports` on both, and
        the answers are kept for `run`: for small libraries, starting three processes for each run takes longer than the run."""
        options = [] if rules is None else [f"--rules={rules}"]
        runs = [("check", *options, "--", str(old), str(new)), *(("exports", "--", str(library)) for library in (old, new))]
        answers = self._answers(runs, with_notes)
        self._known = dict(zip(runs[1:], answers[1:]))
        return self._told(answers[0])

    def run(self, *arguments: str, with_notes: bool = False) -> Answer:
        """Runs the program with these arguments, or returns the answer that `check` kept."""
        known = self._known.pop(arguments, None)
        return self._told(known or self._answers([arguments], with_notes)[0])

    def _told(self, answer: Answer) -> Answer:
        self.trouble = self.trouble or self._trouble(answer)
        return answer

    def _answers(self, runs: Sequence[tuple[str, ...]], with_notes: bool) -> list[Answer]:
        """The answers of several runs. If one answers neither yes nor no, those after it are left out."""
        limits = self._limits
        mark = os.urandom(16).hex()
        script = _LIMITS.format(kilobytes=_at_most(resource.RLIMIT_AS, limits.megabytes * _MEGABYTE) // 1024,
                                seconds=_at_most(resource.RLIMIT_CPU, limits.seconds),
                                blocks=_at_most(resource.RLIMIT_FSIZE, _LONGEST_TEXT) // _BLOCK)
        script += _NEXT.join(_RUN.format(command=shlex.join([*self.command, *run]), mark=mark) for run in runs) + _END
        out, errors, took = files = _files(self.folder)
        # GNU time opens its output file by name.
        command = [_TIME, "--quiet", "--format=%U %S %M", f"--output=/proc/self/fd/{took.fileno()}", "/bin/sh", "-c", script]
        try:
            with subprocess.Popen(command, stdin=_LIFE.fileno(), stdout=out, stderr=errors, cwd=self.folder,
                                  start_new_session=True, pass_fds=[took.fileno()], env=environment(with_notes)) as process:
                status = self._waited(process)
            if status != 0:
                self._end_group(process.pid)
            text, notes, said = (_contents(file) for file in files)
        finally:
            for file in files:
                os.ftruncate(file.fileno(), 0)
                os.lseek(file.fileno(), 0, os.SEEK_SET)
        self._take(said.split())
        return _parted(mark, status, text, notes)

    def _end_group(self, group: int) -> None:
        """Ends what a run that did not end by itself has left: it must not write to the files of the next run."""
        with contextlib.suppress(ProcessLookupError):
            os.killpg(group, signal.SIGKILL)
        _FILES.pop((os.getpid(), threading.get_ident(), self.folder), None)

    def _waited(self, process: subprocess.Popen[bytes]) -> int:
        """The exit status of the process; negative if a signal ended it."""
        if not _ends_within(process, self._limits.clock):
            os.killpg(process.pid, signal.SIGKILL)
            process.wait()
            self.trouble = f"abi was ended: its limit is {self._limits.clock} seconds by the clock"
            return -signal.SIGKILL
        return _signal_or_status(process.wait())

    def _take(self, took: list[str]) -> None:
        """Adds what a run took: seconds of user time and of system time, and kilobytes."""
        if len(took) == 3:
            self.seconds += float(took[0]) + float(took[1])
            self.megabytes = max(self.megabytes, int(took[2]) / 1024)

    def _trouble(self, answer: Answer) -> str:
        """Why an answer says nothing about the inputs; empty if it does."""
        if answer.status == _NO_MEMORY:
            is_limit_of_abi = _PAST_A_LIMIT in answer.notes
            return answer.why() if is_limit_of_abi else f"abi ran out of memory under its limit of {self._limits.megabytes} MB"
        if answer.status == -signal.SIGXCPU:
            return f"abi was ended: its limit is {self._limits.seconds} seconds of processor time"
        if answer.status not in _TOLD or (answer.status == NO and not answer.text):
            return answer.why()
        return ""


class _Life:
    """A pipe whose one end only this process has: its other end can be read when this process is gone. Each process has its own."""

    def __init__(self) -> None:
        self._made: dict[int, tuple[int, int]] = {}

    def fileno(self) -> int:
        """The end that the started processes read."""
        if os.getpid() not in self._made:
            self._made[os.getpid()] = os.pipe()
        return self._made[os.getpid()][0]


_LIFE = _Life()


# Each thread's files for the output of runs and of GNU time. They are kept, since making files takes longer than emptying them.
_FILES: dict[tuple[int, int, Path], tuple[IO[bytes], IO[bytes], IO[bytes]]] = {}


def _files(folder: Path) -> tuple[IO[bytes], IO[bytes], IO[bytes]]:
    """The files of this thread, which are empty between runs."""
    key = os.getpid(), threading.get_ident(), folder
    if key not in _FILES:
        out, errors, took = (tempfile.TemporaryFile(dir=folder, buffering=0) for _ in range(3))
        _FILES[key] = out, errors, took
    return _FILES[key]


def _contents(file: IO[bytes]) -> str:
    """The text in a file."""
    size = os.fstat(file.fileno()).st_size
    return os.pread(file.fileno(), size, 0).decode("utf-8", "surrogateescape")


def _signal_or_status(status: int) -> int:
    """Turns a shell's status into an exit status, or into the negative number of the signal that ended the process."""
    return ENDED_BY_SIGNAL - status if status > ENDED_BY_SIGNAL else status


def _ends_within(process: subprocess.Popen[bytes], seconds: int) -> bool:
    """Whether a process ends within some seconds. Python's own wait with a timeout polls with pauses of up to 50 milliseconds, which is
    longer than `abi` takes for a small library."""
    descriptor = os.pidfd_open(process.pid)
    try:
        ready = select.poll()
        ready.register(descriptor, select.POLLIN)
        return bool(ready.poll(1000 * min(seconds, _LONGEST_WAIT)))
    finally:
        os.close(descriptor)


def _at_most(limit: int, value: int) -> int:
    """The smaller of a value and the hard limit of this process."""
    most = resource.getrlimit(limit)[1]
    return value if most == resource.RLIM_INFINITY else min(value, most)


def _parted(mark: str, status: int, text: str, notes: str) -> list[Answer]:
    """The answers of runs, split at the mark that ends each. If the first run has no mark, its status is that of the shell."""
    texts, all_notes = text.split(f"{mark} "), notes.split(f"{mark}\n")
    answers = []
    for number, (said, noted) in enumerate(zip(texts, all_notes)):
        if number:
            _, _, said = said.partition("\n")
        if number + 1 < len(texts):
            ended = int(texts[number + 1].partition("\n")[0])
            answers.append(Answer(_signal_or_status(ended), said, noted))
        elif not answers:
            answers.append(Answer(status, said, noted))
    return answers

"""Steps that run in processes of their own, several at a time, each under limits of memory and of processor time. Whatever ends a step,
the tool goes on and says what it was; when the tool ends, all its steps end."""

from __future__ import annotations

import contextlib
import ctypes
import os
import pickle
import resource
import select
import signal
import time
from dataclasses import dataclass, field
from typing import Callable, Generic, Iterator, NoReturn, Sequence, TypeVar, Union

from abi_tools.faults import Fault, missing_library, said_of, said_of_signal
from abi_tools.signals import ENDING, check_signals, signals_held

_MEGABYTE = 1 << 20
_PAGE = resource.getpagesize()
# A step may last this many times its processor time.
_WAITS = 20
_PIECE = 1 << 20
# prctl(2)
_PR_SET_PDEATHSIG = 1
# How much memory this process has (proc(5)).
_MEMORY = "/proc/self/statm"

Value = TypeVar("Value")


@dataclass(frozen=True)
class StepLimits:
    """The limits of each process of a step: megabytes of memory, and seconds of processor time."""

    megabytes: int
    seconds: int


@dataclass(frozen=True)
class Failure:
    """Why a step has no value, in a sentence."""

    reason: str


@dataclass
class _Step:
    """A step that runs: its number, its process, the end of the pipe on which the value comes, the bytes so far, and when it must end."""

    number: int
    process: int
    pipe: int
    until: float
    parts: list[bytes] = field(default_factory=list)


class Steps(Generic[Value]):
    """Runs steps, at most `processes` at a time."""

    def __init__(self, limits: StepLimits, processes: int) -> None:
        self._limits = limits
        self._processes = processes
        self._running: dict[int, _Step] = {}
        self._ready = select.poll()

    def run(self, steps: Sequence[Callable[[], Value]]) -> Iterator[tuple[int, Union[Value, Failure]]]:
        """Runs all steps, and yields the number and the value of each as it ends. Raises a fault if the system cannot limit them."""
        if steps and not os.path.exists(_MEMORY):
            raise Fault("there is no /proc: mount it, as by mount -t proc proc /proc; memory cannot be limited without it")
        left = list(reversed(range(len(steps))))
        try:
            while left or self._running:
                while left and len(self._running) < self._processes:
                    number = left.pop()
                    self._start(number, steps[number])
                yield from self._ended()
        finally:
            self._stop()

    def _start(self, number: int, step: Callable[[], Value]) -> None:
        """Starts the process of a step. What Python runs before and after a fork loses exceptions, those of signals among them."""
        with signals_held():
            source, target = os.pipe()
            process = os.fork()
            if process == 0:
                os.close(source)
                _work(step, target, self._limits)
            with contextlib.suppress(OSError):
                os.setpgid(process, process)
            os.close(target)
            self._running[source] = _Step(number, process, source, time.monotonic() + _WAITS * self._limits.seconds)
            self._ready.register(source, select.POLLIN)

    def _ended(self) -> Iterator[tuple[int, Union[Value, Failure]]]:
        """Waits until a step says something, and yields those that ended."""
        for pipe, _ in self._ready.poll(1000):
            step = self._running[pipe]
            part = os.read(pipe, _PIECE)
            if part:
                step.parts.append(part)
            else:
                yield step.number, self._value(step)
        check_signals()
        now = time.monotonic()
        for step in [one for one in self._running.values() if one.until < now]:
            _kill(step.process)

    def _value(self, step: _Step) -> Union[Value, Failure]:
        status = self._reaped(step)
        if step.parts and os.WIFEXITED(status) and os.WEXITSTATUS(status) == 0:
            value: Union[Value, Failure] = pickle.loads(b"".join(step.parts))
            return value
        if step.until < time.monotonic():
            return Failure(f"it did not end within {_WAITS * self._limits.seconds} seconds")
        number = os.WTERMSIG(status) if os.WIFSIGNALED(status) else None
        return Failure(f"it ended with status {os.WEXITSTATUS(status)}" if number is None else self._said_of_signal(number))

    def _reaped(self, step: _Step) -> int:
        """How a process ended that ends now. Its number stays its own until it is reaped, so what it may have left running is ended
        before."""
        with signals_held():
            self._ready.unregister(step.pipe)
            os.close(step.pipe)
            del self._running[step.pipe]
            os.waitid(os.P_PID, step.process, os.WEXITED | os.WNOWAIT)
            _kill(step.process)
            return os.waitpid(step.process, 0)[1]

    def _said_of_signal(self, number: int) -> str:
        if number == signal.SIGXCPU:
            return f"it took more than its limit of {self._limits.seconds} seconds of processor time"
        return said_of_signal(number)

    def _stop(self) -> None:
        """Ends all steps that still run."""
        with signals_held():
            for step in self._running.values():
                _kill(step.process)
                os.close(step.pipe)
            for step in self._running.values():
                with contextlib.suppress(ChildProcessError):
                    os.waitpid(step.process, 0)
            self._running.clear()


def _kill(process: int) -> None:
    """Ends a process, and those that it started."""
    with contextlib.suppress(OSError):
        os.killpg(process, signal.SIGKILL)


def _work(step: Callable[[], object], target: int, limits: StepLimits) -> NoReturn:
    """Does a step in this process, which was made for it, and ends the process."""
    status = 1
    try:
        _become_step(limits)
        with os.fdopen(target, "wb") as output:
            pickle.dump(_value_of(step), output, protocol=pickle.HIGHEST_PROTOCOL)
        status = 0
    finally:
        os._exit(status)


def _become_step(limits: StepLimits) -> None:
    """Makes this process one that ends with the tool, and limits it."""
    os.setpgid(0, 0)
    ctypes.CDLL(None).prctl(_PR_SET_PDEATHSIG, signal.SIGKILL)
    for number in ENDING:
        signal.signal(number, signal.SIG_DFL)
    lower(resource.RLIMIT_AS, memory_taken() + limits.megabytes * _MEGABYTE)
    lower(resource.RLIMIT_CPU, int(time.process_time()) + limits.seconds)
    lower(resource.RLIMIT_CORE, 0)


def memory_taken() -> int:
    """How many bytes of memory this process has."""
    with open(_MEMORY, encoding="ascii") as stream:
        return int(stream.read().split()[0]) * _PAGE


def lower(limit: int, value: int) -> None:
    """Lowers a limit of this process to a value, if it is not lower already."""
    soft, hard = resource.getrlimit(limit)
    known = [one for one in (soft, hard) if one != resource.RLIM_INFINITY]
    resource.setrlimit(limit, (min([value, *known]), hard))


def _value_of(step: Callable[[], object]) -> object:
    """The value of a step, or why it has none."""
    try:
        return step()
    except (Fault, OSError, MemoryError) as error:
        return Failure(said_of(error))
    except ModuleNotFoundError as error:
        return Failure(missing_library(error))
    except Exception as error:  # pylint: disable=broad-except
        # A fault of the tools must not look like an answer.
        return Failure(f"a fault of this tool: {type(error).__name__}: {error}")


@contextlib.contextmanager
def limited_time(seconds: int, what: str) -> Iterator[None]:
    """Work of this process itself. Raises a fault if it takes more seconds of processor time."""
    def stop(_number: int, _frame: object) -> None:
        raise Fault(f"{what} took more than its limit of {seconds} seconds of processor time")

    before = signal.signal(signal.SIGPROF, stop)
    signal.setitimer(signal.ITIMER_PROF, seconds)
    try:
        yield
    finally:
        signal.setitimer(signal.ITIMER_PROF, 0)
        signal.signal(signal.SIGPROF, before)


def processors() -> int:
    """How many processors this process may use."""
    return len(os.sched_getaffinity(0))


def default_megabytes(processes: int) -> int:
    """The memory limit of a step if none is given: its share of half of the machine's memory, but at least 1 GB and at most 4 GB."""
    half = os.sysconf("SC_PHYS_PAGES") * _PAGE // (2 * _MEGABYTE)
    return max(1024, min(4096, half // max(processes, 1)))

"""The signals that end a tool. Python raises the exception of a signal wherever it is at that moment; where exceptions are lost (in what
runs before and after os.fork, and when an object goes), the signal would be lost with it."""

from __future__ import annotations

import contextlib
import signal
import sys
import tempfile
from pathlib import Path
from typing import Iterator

ENDING = (signal.SIGTERM, signal.SIGINT, signal.SIGHUP)
# A shell reports a program that a signal ended with this status plus the number of the signal.
ENDED_BY_SIGNAL = 128

_received: list[int] = []
_held: list[bool] = []


def end_on_signals() -> None:
    """Lets these signals end the program in an orderly way, so that temporary files are removed."""
    _received.clear()
    for number in ENDING:
        signal.signal(number, _end)
    sys.unraisablehook = _said_of_lost


def _said_of_lost(lost: "sys.UnraisableHookArgs") -> None:
    """Prints an exception that is lost, but for the one of a signal."""
    if lost.exc_type is not SystemExit:
        sys.__unraisablehook__(lost)


def _end(number: int, _frame: object) -> None:
    _received.append(number)
    if not _held:
        check_signals()


def check_signals() -> None:
    """Ends the program if it received such a signal."""
    if _received:
        sys.exit(ended_by_signal(0))


def ended_by_signal(status: int) -> int:
    """The exit status of a program that would end with a status: another one if it received such a signal."""
    return ENDED_BY_SIGNAL + _received[0] if _received else status


@contextlib.contextmanager
def signals_held() -> Iterator[None]:
    """Work that no such signal cuts in two: it ends the program after the work."""
    _held.append(True)
    try:
        yield
    finally:
        _held.pop()
    if not _held:
        check_signals()


@contextlib.contextmanager
def temporary_folder(prefix: str) -> Iterator[Path]:
    """A folder that is removed at the end, whatever signals come."""
    with signals_held():
        folder = tempfile.TemporaryDirectory(prefix=prefix)
    try:
        yield Path(folder.name)
    finally:
        with signals_held():
            folder.cleanup()

"""How the tools fail: with one sentence on standard error, and an exit status."""

from __future__ import annotations

import contextlib
import os
import signal
import sys
from typing import Callable, Sequence

from abi_tools.shown import line_shown
from abi_tools.signals import end_on_signals, ended_by_signal

# The exit status for wrong arguments, the same as that of `abi` (EX_USAGE of sysexits.h).
WRONG_ARGUMENTS = 64
# The exit status if a tool cannot do its work. It is that of `cannot tell`, and never 1, which means no.
FAULT = 2


class Fault(Exception):
    """A sentence that says what a tool cannot do, and why."""


def said_of(error: BaseException) -> str:
    """A sentence for a fault or a system error."""
    if isinstance(error, OSError):
        place = f"{os.fsdecode(error.filename)}: " if isinstance(error.filename, (str, bytes)) else ""
        return f"{place}{error.strerror or error}"
    if isinstance(error, MemoryError):
        return "memory ran out"
    return str(error)


def said_of_signal(number: int) -> str:
    """What a signal that ended a program means."""
    if number == signal.SIGXCPU:
        return "it took more than its limit of processor time (SIGXCPU)"
    if number == signal.SIGKILL:
        return "the signal SIGKILL ended it: perhaps the machine ran out of memory"
    try:
        return f"the signal {signal.Signals(number).name} ended it"
    except ValueError:
        return f"the signal {number} ended it"


# The libraries that do not come with Python, and their Debian packages.
PACKAGES = {"debian": "python3-debian", "zstandard": "python3-zstandard", "libarchive": "python3-libarchive-c",
            "dask": "python3-dask", "distributed": "python3-distributed", "jinja2": "python3-jinja2", "rich": "python3-rich"}


def missing_library(error: ModuleNotFoundError) -> str:
    """Says which package has a library for Python that is not installed, or that a module of the tools themselves is missing."""
    library = (error.name or "").split(".")[0]
    if library not in PACKAGES:
        return f"a fault of this tool: {error}"
    return f"there is no {library} for Python: install the package {PACKAGES[library]}"


def run_tool(tool: str, main: Callable[[Sequence[str]], int], arguments: Sequence[str], fault_status: int = FAULT) -> int:
    """Runs `main` and returns its exit status. If it raises an exception, prints a sentence on standard error and returns
    `fault_status`: an exception that Python prints would end the program with 1, which means no."""
    end_on_signals()
    try:
        return ended_by_signal(main(arguments))
    except (Fault, OSError, MemoryError) as error:
        said = said_of(error)
    except ModuleNotFoundError as error:
        said = missing_library(error)
    except Exception as error:  # pylint: disable=broad-except
        said = f"a fault of this tool: {type(error).__name__}: {error}"
    with contextlib.suppress(OSError):
        print(f"{tool}: {line_shown(said)}", file=sys.stderr)
    return fault_status

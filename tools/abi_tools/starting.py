"""Starts the scripts beside this package. Whatever is missing or goes wrong has a sentence and the status of a fault: an exception that
Python prints would end the program with 1, which means no."""

from __future__ import annotations

import importlib
import io
import sys

from abi_tools.faults import FAULT, missing_library, run_tool


def start(tool: str, module: str, fault_status: int = FAULT, package: str = "abi_tools") -> int:
    """Runs `main` of a module of `package` with the arguments of the command line, and returns its exit status, or `fault_status` if a
    library is missing. Modules import some libraries only when they need them."""
    if isinstance(sys.stdout, io.TextIOWrapper):
        # A character that the locale of this process lacks must not end the tool in the middle of its answer.
        sys.stdout.reconfigure(errors="backslashreplace")
    try:
        command = importlib.import_module(f"{package}.{module}")
        return run_tool(tool, command.main, sys.argv[1:], fault_status)
    except ModuleNotFoundError as error:
        print(f"{tool}: {missing_library(error)}", file=sys.stderr)
        return fault_status

"""The commands of the installed Python package. The scripts of `tools/` do the same without an installation."""

from __future__ import annotations

from abi_tools.starting import start


def abi_baseline() -> int:
    """The command `abi-baseline`."""
    return start("abi-baseline", "baseline_command")


def abi_gate() -> int:
    """The command `abi-gate`."""
    return start("abi-gate", "gate_command")


def abi_history() -> int:
    """The command `abi-history`."""
    return start("abi-history", "command", package="abi_history")


def abi_packages() -> int:
    """The command `abi-packages`."""
    return start("abi-packages", "packages_command")


def abi_release() -> int:
    """The command `abi-release`."""
    return start("abi-release", "command", package="abi_release")


def abi_report() -> int:
    """The command `abi-report`."""
    return start("abi-report", "command", package="abi_report")


def join_debug() -> int:
    """The command `join-debug`."""
    return start("join-debug", "join_command")

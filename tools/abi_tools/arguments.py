"""The command line arguments of the tools."""

from __future__ import annotations

import argparse
import contextlib
from typing import Any, NoReturn

from abi_tools import VERSION
from abi_tools.faults import WRONG_ARGUMENTS
from abi_tools.help_texts import HelpText
from abi_tools.limits import LIMITS
from abi_tools.shown import lines_shown
from abi_tools.verdicts import DEFAULT_SHARE


class Arguments(argparse.ArgumentParser):
    """An argument parser that ends the program with a chosen exit status if the arguments are wrong."""

    def __init__(self, tool: str, description: str, statuses: str, wrong: int = WRONG_ARGUMENTS) -> None:
        super().__init__(prog=tool, description=description, epilog=statuses, allow_abbrev=False,
                         # a tool may have a --version of its own, with a value
                         conflict_handler="resolve",
                         formatter_class=HelpText)
        self.add_argument("--version", action="version", version=f"{tool} {VERSION}", help="print the version, and exit")
        self._wrong = wrong

    def error(self, message: str) -> NoReturn:
        """Prints the usage and what is wrong, and ends the program."""
        self.exit(self._wrong, lines_shown(f"{self.format_usage()}{self.prog}: {message}\n"))


def share(text: str) -> float:
    """A percentage, from 0 to 100. Raises an argument error for any other text."""
    with contextlib.suppress(ValueError):
        value = float(text.removesuffix("%"))
        if 0 <= value <= 100:
            return value
    raise argparse.ArgumentTypeError(f"{text} is no percentage from 0 to 100")


def add_require_types(parser: argparse.ArgumentParser) -> None:
    """Adds the option that says how many exports must have types, with the default of all tools."""
    parser.add_argument("--require-types", type=share, default=DEFAULT_SHARE, metavar="SHARE",
                        help=f"the percentage of the compared exports that must have types in both libraries (default: {DEFAULT_SHARE:g}; "
                             "with 0, one export must). Exports that never have types do not count: indirect functions (ifunc), "
                             "thread-local objects, functions in units of assembler, and symbols of size 0 without an entry, as linker "
                             "scripts, and assembler without .size, make them")


def add_strict(parser: argparse.ArgumentParser) -> None:
    """Adds the option that makes a yes with some notes no yes."""
    parser.add_argument("--strict", action="store_true",
                        help="do not say yes if abi has a note on what no rule judges and what can break compiled callers, such as a member "
                             "that takes the place of padding: it cannot tell, and the notes are printed")


def number_above_0(text: str) -> int:
    """A number above 0, in decimal. Raises an argument error for any other text."""
    value = int(text) if text.isascii() and text.isdigit() else 0
    if value < 1:
        raise argparse.ArgumentTypeError(f"{text} is no number above 0")
    return value


def address(text: str) -> str:
    """An address of a server. Raises an argument error for any other text."""
    if not text.startswith(("http://", "https://")):
        raise argparse.ArgumentTypeError(f"{text} is no address of a server: it must begin with http:// or https://")
    return text


def mirror_line(text: str) -> str:
    """A line of sources.list(5), without the word `deb`. Raises an argument error for any other text."""
    line = text.strip().removeprefix("deb ").strip()
    _, _, behind = line.rpartition("] ") if line.startswith("[") else ("", "", line)
    if len(behind.split()) < 2:
        raise argparse.ArgumentTypeError(f"{text} is no line of sources.list(5): it needs an address and a suite")
    return line


class ShowLimits(argparse.Action):
    """Prints the limits of the tools, and ends the program."""

    def __init__(self, option_strings: list[str], dest: str, help: str) -> None:  # pylint: disable=redefined-builtin
        super().__init__(option_strings, argparse.SUPPRESS, nargs=0, help=help)

    def __call__(self, parser: argparse.ArgumentParser, *_: Any) -> None:
        lines = [f"{limit.value:>12,} {limit.unit:<8} {limit.what}\n" for limit in LIMITS]
        print("".join(lines), end="")
        parser.exit()

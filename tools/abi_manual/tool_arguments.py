"""What the tools in Python take, from their own parsers."""

from __future__ import annotations

import argparse
import importlib
from dataclasses import dataclass
from typing import Any, NoReturn, Optional
from unittest.mock import patch

from abi_tools.arguments import Arguments


@dataclass(frozen=True)
class ToolOption:
    """An option of a tool: its names, whether it takes a value, what the value is called, and the words that it may be."""

    names: tuple[str, ...]
    takes_value: bool
    value: str
    choices: tuple[str, ...]


class _Caught(BaseException):
    """Ends a tool when it begins to parse."""

    def __init__(self, parser: argparse.ArgumentParser) -> None:
        super().__init__()
        self.parser = parser


def _catch(parser: argparse.ArgumentParser, *_: Any, **__: Any) -> NoReturn:
    raise _Caught(parser)


def parser_of(module: str) -> argparse.ArgumentParser:
    """The parser of the tool that a module starts. The tool runs until it parses its arguments, and no further."""
    main = importlib.import_module(module).main
    with patch.object(Arguments, "parse_args", _catch):
        try:
            main([])
        except _Caught as caught:
            return caught.parser
    raise ValueError(f"{module} does not parse its arguments")


def options_of(module: str) -> list[ToolOption]:
    """The options of a tool, in the order of its help."""
    # argparse has no public list of what a parser takes.
    return [_option(action) for action in parser_of(module)._actions  # pylint: disable=protected-access
            if action.option_strings and action.help != argparse.SUPPRESS]


def _option(action: argparse.Action) -> ToolOption:
    value: Optional[object] = action.metavar
    return ToolOption(tuple(action.option_strings), action.nargs != 0, value if isinstance(value, str) else "",
                      tuple(str(one) for one in action.choices or ()))

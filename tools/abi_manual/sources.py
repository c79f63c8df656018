"""Reads the source, `commands.toml`."""

from __future__ import annotations

import tomllib
from dataclasses import dataclass
from functools import cached_property
from pathlib import Path
from typing import Any

SOURCE = Path(__file__).resolve().parent / "commands.toml"


@dataclass(frozen=True)
class Option:
    """An option: its name without dashes, its value, and what it does."""

    name: str
    value: str
    text: str

    @property
    def usage(self) -> str:
        """The option as the usage text writes it."""
        return f"[--{self.name} {self.value}]"

    @property
    def choices(self) -> list[str]:
        """The words that its value may be; empty if it is a file."""
        return self.value.split("|") if "|" in self.value else []


@dataclass(frozen=True)
class Command:
    """A command: its name, its options, the files that it takes and the words after them, and what it does."""

    name: str
    options: tuple[Option, ...]
    files: tuple[str, ...]
    words: tuple[str, ...]
    text: str

    @property
    def usage(self) -> str:
        """The command as the usage text writes it, after the name of the program."""
        return " ".join([self.name, *(option.usage for option in self.options), *self.files, *self.words])


@dataclass(frozen=True)
class Manual:
    """All that the source says."""

    source: dict[str, Any]

    @cached_property
    def options(self) -> dict[str, Option]:
        """The options, by name."""
        return {one["name"]: Option(one["name"], one["value"], one["text"]) for one in self.source["option"]}

    @cached_property
    def commands(self) -> list[Command]:
        """The commands, in order."""
        return [Command(one["name"], tuple(self.options[name] for name in one["options"]), tuple(one.get("files", ())),
                        tuple(one.get("words", ())), one["text"]) for one in self.source["command"]]

    @cached_property
    def tools(self) -> dict[str, Any]:
        """The part of the source on each tool in Python, by name."""
        return {one["name"]: one for one in self.source["tool"]}

    @cached_property
    def variables(self) -> dict[str, str]:
        """What each variable of the environment means, by name."""
        return {one["name"]: one["text"] for one in self.source["variable"]}

    def usage(self) -> str:
        """The usage text of `abi`."""
        lines = [f"abi {command.usage}" for command in self.commands]
        return "usage: " + "\n       ".join(lines) + "\n"


def read_manual() -> Manual:
    """The source."""
    with SOURCE.open("rb") as stream:
        return Manual(tomllib.load(stream))

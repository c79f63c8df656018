"""Manual pages of the tools in Python, made from what they print with --help."""

from __future__ import annotations

import os
import re
import subprocess
from pathlib import Path
from typing import Iterable, Iterator

from abi_manual.manual_pages import environment, examples, head, paragraphs, plain, see_also, sentences, words
from abi_manual.sources import Manual

_TOOLS = Path(__file__).resolve().parents[1]
# A width at which argparse breaks no line.
_COLUMNS = "100000"
_OPTIONS, _STATUSES = "options", "Exit status"
_HEADING = re.compile(rf"(positional arguments|{_OPTIONS}|{_STATUSES}):(.*)")
# An argument, an option or a status, and its description after blanks.
_ENTRY = re.compile(r"  (\S.*?)(?: {2,}(.*))?")
_STATUS_IN_LINE = re.compile(r"(\d+) ([^;]+?)(?:;|\.?$)")


def tool_page(manual: Manual, name: str) -> str:
    """The page of a tool."""
    tool = manual.tools[name]
    parts = _parts(_help(name))
    usage, *description = "\n".join(parts[""]).split("\n\n")
    lines = [
        *head(name, tool["brief"], manual.source["date"], "what the tool prints with --help"),
        ".SH SYNOPSIS", _synopsis(usage.removeprefix("usage: ").strip()),
        ".SH DESCRIPTION", *paragraphs("\n\n".join(" ".join(one.split()) for one in description if one.strip())),
        ".SH OPTIONS", *_entries(parts[_OPTIONS]),
        ".SH EXIT STATUS", *_entries(parts[_STATUSES]),
        *environment(manual, tool["environment"]),
        *examples(tool.get("example", ())),
        *see_also(tool["see"]),
    ]
    return "\n".join(lines) + "\n"


def _help(name: str) -> str:
    """What a tool prints with --help."""
    return subprocess.run([str(_TOOLS / name), "--help"], env=dict(os.environ, COLUMNS=_COLUMNS), stdin=subprocess.DEVNULL,
                          capture_output=True, text=True, check=True).stdout


def _parts(text: str) -> dict[str, list[str]]:
    """The lines under each heading. Lines that are not indented belong to no list: they are under the empty heading."""
    parts: dict[str, list[str]] = {"": []}
    at = ""
    for line in text.splitlines():
        heading = _HEADING.fullmatch(line)
        if heading is not None:
            at = heading[1]
            parts[at] = [f"  {number}  {said}" for number, said in _STATUS_IN_LINE.findall(heading[2])]
        else:
            parts[at if line.startswith(" ") else ""].append(line)
    return parts


def _synopsis(usage: str) -> str:
    name, _, rest = usage.partition(" ")
    return f"\\fB{plain(name)}\\fR {words(rest)}"


def _entries(lines: Iterable[str]) -> Iterator[str]:
    """The entries of a list, without those that have no description, since the usage has them."""
    found: list[tuple[str, list[str]]] = []
    for line in lines:
        entry = _ENTRY.fullmatch(line) if not line.startswith("   ") else None
        if entry is None:
            found[-1][1].append(line.strip())
        else:
            found.append((entry[1], [entry[2] or ""]))
    for name, said in found:
        if any(said):
            yield ".TP"
            yield f"\\fB{words(name)}\\fR"
            yield from sentences(_sentence(" ".join(said).strip()))


def _sentence(text: str) -> str:
    """A text as a sentence: with a capital letter and a full stop."""
    return f"{text[0].upper()}{text[1:]}{'' if text.endswith('.') else '.'}"

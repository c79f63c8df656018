"""Runs each command of the pages word by word, and compares what it prints with what the page shows.

    python3 -m pages FOLDER ABI ABI_JSON PAGE..           compares, and prints a line for each page
    python3 -m pages --print FOLDER ABI ABI_JSON PAGE     prints the page with the actual output of the commands
"""

from __future__ import annotations

import sys
from dataclasses import dataclass, field
from pathlib import Path
from typing import Mapping

from pages.commands import Command, commands_of
from pages.sessions import Session

ROOT = Path(__file__).resolve().parents[2]

# Commands that are not run: how they begin, and why.
LEFT_OUT = {
    "sudo ": "it installs packages",
    "./install.sh": "it proves for an hour",
    "rt ci": "it is what the gate runs",
    ".ci/run": "it is the gate",
}
# The command that fetches files from a mirror. If it fails, the commands that use the files are left out.
FETCHES = "apt-get download"


@dataclass
class Outcome:
    """The outcome for a page: how many commands agreed, which were left out, and what differed."""

    agreed: int = 0
    left_out: list[str] = field(default_factory=list)
    differing: list[str] = field(default_factory=list)
    printed: dict[int, tuple[Command, list[str]]] = field(default_factory=dict)


def run_page(page: Path, folder: Path, programs: Mapping[str, Path]) -> Outcome:
    """Runs the commands of a page."""
    outcome = Outcome()
    lacks_files = False
    with Session(folder / page.stem, ROOT, programs) as session:
        for command in commands_of(page):
            begin = next((begin for begin in LEFT_OUT if command.text.startswith(begin)), None)
            if begin or lacks_files and "_*" in command.text:
                outcome.left_out.append(command.text)
                continue
            if command.text.startswith(FETCHES):
                lacks_files = session.run(f"{command.text} >fetched 2>&1 || echo failed", ()) == ["failed"]
                (outcome.left_out.append(command.text) if lacks_files else None)
                continue
            printed = session.run(command.text, command.shown)
            outcome.printed[command.line] = command, printed
            if command.agrees(printed):
                outcome.agreed += 1
            else:
                outcome.differing.append(differing(page, command, printed))
    return outcome


def differing(page: Path, command: Command, printed: list[str]) -> str:
    """A comparison of what a page shows for a command with what the command printed."""
    return "\n".join([f"{page.relative_to(ROOT)}:{command.line}: $ {command.text}", *("- " + line for line in command.shown),
                      *("+ " + line for line in printed)])


def filled(page: Path, outcome: Outcome) -> str:
    """The page, with the actual output of the commands that differ."""
    lines = page.read_text(encoding="utf-8").split("\n")
    for number, (command, printed) in sorted(outcome.printed.items(), reverse=True):
        if not command.agrees(printed):
            lines[command.end - len(command.shown): command.end] = printed
    return "\n".join(lines)


def main(arguments: list[str]) -> int:
    """Runs the pages that are named."""
    prints = arguments[:1] == ["--print"]
    folder, abi, abi_json, *pages = (Path(word).resolve() for word in arguments[prints:])
    failed = False
    for page in pages:
        outcome = run_page(page, folder, {"abi": abi, "abi-json": abi_json})
        if prints:
            sys.stdout.write(filled(page, outcome))
            continue
        print(f"{page.relative_to(ROOT)}: {outcome.agreed} agree, {len(outcome.left_out)} left out")
        for text in outcome.left_out:
            print(f"left out: {text}")
        for text in outcome.differing:
            print(text)
        failed = failed or bool(outcome.differing)
    return 1 if failed else 0


sys.exit(main(sys.argv[1:]))

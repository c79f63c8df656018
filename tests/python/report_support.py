"""What the tests of reports share: the programs, and libraries that gcc builds from small sources."""

from __future__ import annotations

import contextlib
import io
import json
import os
import signal
from dataclasses import dataclass
from pathlib import Path
from typing import Any, Iterator

import jsonschema
import pytest

from conftest import ROOT, Ended, done, run

from abi_report.command import main
from abi_tools.faults import run_tool
from abi_tools.verdicts import Verdict

REPORT = ROOT / "tools" / "abi-report"
SCHEMA = ROOT / "docs" / "report.schema.json"
EDITS = ROOT / "tests" / "c" / "edits.txt"

HEADER = """\
#ifndef STREAM_H
#define STREAM_H
struct limits { int low, high; };
struct state;
struct stream {
    unsigned char *next;
    unsigned avail;
    struct limits limits;
    struct state *state;
};
struct state *state_new(struct stream *stream);
int deflate(struct stream *stream, int flush);
int inflate(const struct stream *stream);
int take(int number);
int give(int *number);
#endif
"""
SOURCE = """\
#include <stdlib.h>
#include "stream.h"
struct state { int status; };
struct state *state_new(struct stream *stream) { return stream->state = malloc(sizeof(struct state)); }
int deflate(struct stream *stream, int flush) { return stream->avail + flush; }
int inflate(const struct stream *stream) { return stream->avail; }
int take(int number) { return number; }
int give(int *number) { return *number; }
int old_name(int number) { return number; }
"""


def needs_json() -> None:
    """The variable ABI_JSON must name the program."""
    assert os.environ.get("ABI_JSON"), "the variable ABI_JSON names no program"


def report(*arguments: object, folder: Path | None = None) -> Ended:
    """Runs the tool in this process, since starting another one takes longer than the tool."""
    needs_json()
    out, errors = io.StringIO(), io.StringIO()
    before = Path.cwd()
    handlers = {number: signal.getsignal(number) for number in (signal.SIGTERM, signal.SIGINT, signal.SIGHUP)}
    try:
        os.chdir(folder or before)
        with contextlib.redirect_stdout(out), contextlib.redirect_stderr(errors):
            status = run_tool("abi-report", main, [str(word) for word in arguments], int(Verdict.CANNOT_TELL))
    except SystemExit as ended:
        status = int(ended.code or 0)
    finally:
        os.chdir(before)
        for number, handler in handlers.items():
            signal.signal(number, handler)
    return Ended(status, out.getvalue(), errors.getvalue())


def script(*arguments: object) -> Ended:
    """Runs the tool as a program."""
    return run(REPORT, *arguments)


def document(*arguments: object, folder: Path | None = None) -> dict[str, Any]:
    """The document that the tool prints."""
    ended = report("--format", "json", *arguments, folder=folder)
    found: dict[str, Any] = json.loads(ended.out)
    return found


@dataclass(frozen=True)
class Project:
    """A library with a public header in `include` and a source in `src`, and builds of it."""

    folder: Path

    def build(self, name: str, header: str = HEADER, source: str = SOURCE, *options: str) -> Path:
        """Builds the library from these texts in a folder of its own, which also has the sources."""
        home = self.folder / name
        for path, text in (("include/stream.h", header), ("src/stream.c", source)):
            (home / path).parent.mkdir(parents=True, exist_ok=True)
            (home / path).write_text(text)
        library = self.folder / f"{name}.so"
        done("gcc", "-shared", "-fPIC", *(options or ("-g",)), "-Wl,-soname,libstream.so.1", "-Iinclude", "-o", library, "src/stream.c",
             folder=home)
        return library


def stand_in(project: Project, monkeypatch: pytest.MonkeyPatch, **members: object) -> None:
    """Puts a program in place of abi-json that prints a document with these members."""
    made = project.folder / "made.json"
    made.write_text(json.dumps({"format": 1, "command": "check", "fault": None, "untyped": None, "places": None, "text": None, "notes": [],
                                "side_notes": None, "inputs": [], "answer": "no", "status": 1, **members}))
    jsonschema.validate(json.loads(made.read_text()), json.loads(SCHEMA.read_text()))
    program = project.folder / "stand_in"
    program.write_text(f"#!/bin/sh\ncat '{made}'\nexit 1\n")
    program.chmod(0o755)
    monkeypatch.setenv("ABI_JSON", str(program))


@dataclass(frozen=True)
class Edit:
    """An edit of tests/c/edits.txt: its name, the sources and version scripts of both libraries, and their options."""

    name: str
    sources: tuple[tuple[str, str], ...]
    maps: tuple[str, str]
    options: tuple[tuple[str, ...], tuple[str, ...]]
    is_no: bool

    def build(self, folder: Path) -> tuple[Path, Path]:
        """Builds both libraries."""
        folder.mkdir(parents=True)
        return self._build(folder, 0, "old"), self._build(folder, 1, "new")

    def _build(self, folder: Path, side: int, name: str) -> Path:
        files = []
        for number, texts in enumerate(self.sources, 1):
            files.append(folder / f"{name}_{number}.c")
            files[-1].write_text(texts[side])
        options = list(self.options[side])
        if self.maps[side]:
            (folder / f"{name}.map").write_text(self.maps[side])
            options.append(f"-Wl,--version-script={folder / f'{name}.map'}")
        done("gcc", "-shared", "-nostdlib", "-fPIC", "-w", "-Wno-psabi", "-g", *options, "-o", folder / f"{name}.so", *files)
        return folder / f"{name}.so"


def edits() -> Iterator[Edit]:
    """The edits that gcc can build and whose answer does not depend on compiler options."""
    for block in EDITS.read_text().split("\ncase ")[1:]:
        name, _, text = block.partition("\n")
        edit = _edit(name, text.splitlines())
        if edit is not None:
            yield edit


def _edit(name: str, lines: list[str]) -> Edit | None:
    files: list[list[list[str]]] = [[[], []]]
    maps: list[list[str]] = [[], []]
    options: list[tuple[str, ...]] = [(), ()]
    part = files[0]
    answers = []
    for line in lines:
        if line == "unit":
            files.append([[], []])
            part = files[-1]
        elif line == "map":
            part = maps
        elif line[:1] in (" ", "-", "+"):
            for side in (0, 1):
                if line[0] in (" ", "-+"[side]):
                    part[side].append(line[1:])
        elif line.startswith(("with ", "old-with ", "new-with ")):
            word, *given = line.split()
            sides = {"with": (0, 1), "old-with": (0,), "new-with": (1,)}[word]
            for side in sides:
                options[side] += tuple(given)
        elif line.split(" ")[0] in ("yes", "no"):
            answers.append(line)
    if len(answers) != 1 or " " in answers[0]:
        return None
    texts = [tuple("".join(f"{line}\n" for line in side) for side in file) for file in files]
    joined = ["".join(f"{line}\n" for line in side) for side in maps]
    return Edit(name, tuple((one[0], one[1]) for one in texts), (joined[0], joined[1]), (options[0], options[1]), answers[0] == "no")

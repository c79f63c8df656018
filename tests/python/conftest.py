"""What the tests share: they build libraries with gcc, run the tools, and read files with readelf."""

from __future__ import annotations

import contextlib
import importlib
import io
import os
import re
import shutil
import signal
import subprocess
import sys
from dataclasses import dataclass
from pathlib import Path
from typing import Callable, Sequence

import pytest

ROOT = Path(__file__).resolve().parents[2]
TOOLS = ROOT / "tools"
sys.path[:0] = [str(TOOLS), str(ROOT / "tests")]

from abi_tools.faults import run_tool  # noqa: E402

# The module of each tool, and its exit status for a fault.
COMMANDS = {"join-debug": ("join_command", 2), "abi-baseline": ("baseline_command", 2), "abi-gate": ("gate_command", 2),
            "abi-packages": ("packages_command", 2)}

HEADER = """\
struct point { int x, y; long quite_a_long_member_name; };
struct shape { const char *name; struct point *at; struct shape *next; double weight; };
enum colour { red_colour, green_colour, blue_colour };
typedef struct shape shape_type;
typedef int (*callback_type)(struct shape *, enum colour, void *);
"""
FIRST = """\
#include "shapes.h"
int area(struct shape *s) { return s->at->x * s->at->y; }
int call(callback_type f, shape_type *s) { return f(s, red_colour, 0); }
"""
SECOND = """\
#include "shapes.h"
int other(struct shape *s, enum colour c) { return s->at->x + c; }
int second(callback_type f, shape_type *s) { return f(s, green_colour, 0); }
"""


@dataclass(frozen=True)
class Ended:
    """How a program ended: its exit status and what it printed."""

    status: int
    out: str
    errors: str


def run(*command: object, folder: Path | None = None) -> Ended:
    """Runs a program."""
    ended = subprocess.run([str(word) for word in command], capture_output=True, text=True, errors="surrogateescape", check=False,
                           cwd=folder)
    return Ended(ended.returncode, ended.stdout, ended.stderr)


def done(*command: object, folder: Path | None = None) -> str:
    """Runs a program that must succeed, and returns its standard output."""
    ended = run(*command, folder=folder)
    assert ended.status == 0, f"{command}: {ended.status}: {ended.out}{ended.errors}"
    return ended.out


def tool(name: str, *arguments: object, folder: Path | None = None) -> Ended:
    """Runs a tool of this repository in this process, since starting another one takes longer than the tool."""
    module, fault_status = COMMANDS[name]
    main = importlib.import_module(f"abi_tools.{module}").main
    out, errors = io.StringIO(), io.StringIO()
    before = Path.cwd()
    handlers = {number: signal.getsignal(number) for number in (signal.SIGTERM, signal.SIGINT, signal.SIGHUP)}
    try:
        os.chdir(folder or before)
        with contextlib.redirect_stdout(out), contextlib.redirect_stderr(errors):
            status = run_tool(name, main, [str(word) for word in arguments], fault_status)
    except SystemExit as ended:
        status = int(ended.code or 0)
    finally:
        os.chdir(before)
        for number, handler in handlers.items():
            signal.signal(number, handler)
    return Ended(status, out.getvalue(), errors.getvalue())


def script(name: str, *arguments: object, folder: Path | None = None) -> Ended:
    """Runs a tool of this repository as a program."""
    return run(TOOLS / name, *arguments, folder=folder)


def abi(*arguments: object) -> Ended:
    """Runs the program `abi` under test."""
    return run(os.environ["ABI"], *arguments)


def path_without_tools(folder: Path) -> str:
    """The PATH without what an installed package of `abi` has there: if there is one, a folder with links to all other programs."""
    if shutil.which("abi-gate") is None:
        return os.environ["PATH"]
    for place in map(Path, os.get_exec_path()):
        for program in place.iterdir() if place.is_dir() else ():
            link = folder / program.name
            if not re.match("abi(-|$)|join-debug$|dh_abi$", program.name) and not link.is_symlink():
                folder.mkdir(parents=True, exist_ok=True)
                link.symlink_to(program)
    return str(folder)


def refused(ended: Ended, status: int, words: str, output: Path) -> None:
    """Checks that a tool ended with the status and one sentence with these words, and left no output file."""
    assert ended.status == status, ended
    lines = ended.errors.splitlines()
    assert len(lines) == 1 and words in lines[0], ended.errors
    assert not output.exists()
    assert [path for path in output.parent.iterdir() if path.name.startswith(f".{output.name}")] == []


@pytest.fixture
def build(tmp_path: Path) -> Callable[..., Path]:
    """A function that builds a shared library from C source with gcc."""

    def built(name: str, text: str, *options: str, soname: str | None = None, compiler: str = "gcc") -> Path:
        (tmp_path / "shapes.h").write_text(HEADER)
        source = tmp_path / f"{name}.c"
        source.write_text(text)
        library = tmp_path / name
        named = [f"-Wl,-soname,{soname}"] if soname else []
        done(compiler, "-shared", "-fPIC", "-O1", "-Wl,--build-id", *(options or ("-g",)), *named, "-o", library, source,
             folder=tmp_path)
        return library

    return built


def build_id(path: Path) -> str:
    """The build id of a file, as readelf shows it."""
    found = re.search(r"Build ID: ([0-9a-f]+)", done("readelf", "--wide", "--notes", path))
    assert found is not None
    return found.group(1)


def split(library: Path, debug: Path, link: bool = True) -> Path:
    """Splits a library as distributions do: moves its debug information to `debug`, and returns the stripped library."""
    stripped = library.with_suffix(".stripped")
    debug.parent.mkdir(parents=True, exist_ok=True)
    done("objcopy", "--only-keep-debug", library, debug)
    named = [f"--add-gnu-debuglink={debug}"] if link else []
    done("objcopy", "--strip-debug", *named, library, stripped)
    return stripped


def system_place(root: Path, identifier: str) -> Path:
    """The place of the debug file with a build id below a root folder."""
    return root / "usr/lib/debug/.build-id" / identifier[:2] / f"{identifier[2:]}.debug"


def exports(library: Path) -> str:
    """What `abi exports` prints for a library, which it must be able to read."""
    ended = abi("exports", library)
    assert ended.status == 0, ended
    return ended.out


def sections(library: Path) -> dict[str, str]:
    """The sections of a file, as readelf shows them: the flags for each name."""
    found = {}
    for line in done("readelf", "--wide", "--sections", library).splitlines():
        fields = re.match(r"\s*\[\s*\d+\] (\S+)\s+\S+\s+[0-9a-f]{16} [0-9a-f]+ [0-9a-f]+ [0-9a-f]+(.{4})", line)
        if fields is not None:
            found[fields.group(1)] = fields.group(2).strip()
    return found


def section_bytes(library: Path, name: str, folder: Path) -> bytes:
    """The bytes of a section, extracted by objcopy."""
    output = folder / "section"
    done("objcopy", f"--dump-section={name}={output}", library, folder / "rest")
    return output.read_bytes()


def shared(libraries: Sequence[Path], supplementary: Path, *options: str) -> None:
    """Moves what libraries have in common to a supplementary file, with dwz."""
    done("dwz", *options, "-m", supplementary, *libraries)


def needs(*programs: str) -> None:
    """Says which programs a test needs. A missing one is a failure or, with SKIP_MISSING_TOOLS, skips the test."""
    missing = [program for program in programs if shutil.which(program) is None]
    if missing and os.environ.get("SKIP_MISSING_TOOLS"):
        pytest.skip(f"there is no {', '.join(missing)}")
    assert not missing, f"there is no {', '.join(missing)} (with SKIP_MISSING_TOOLS=1 what needs it is left out)"


def killer_of_tool(folder: Path, number: signal.Signals, arguments: str) -> Path:
    """A program `abi` that sends a signal to the tool, whose step runs it, if its arguments match a shell pattern."""
    path = folder / "killing_abi"
    path.write_text(f"#!/bin/sh\ncase \"$*\" in *{arguments}*) kill -{int(number)} $(cut -d ' ' -f 4 /proc/$PPID/stat); sleep 10 ;; "
                    f"esac\nexec '{Path(os.environ['ABI']).resolve()}' \"$@\"\n")
    path.chmod(0o755)
    return path


@pytest.fixture(scope="session", autouse=True)
def program() -> None:
    """The variable ABI must name the program."""
    assert os.environ.get("ABI"), "the variable ABI names no program"

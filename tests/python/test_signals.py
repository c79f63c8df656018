"""Signals that end a tool, at whatever moment they come."""

from __future__ import annotations

import os
import signal
import subprocess
import sys
import time
from pathlib import Path
from random import Random

import pytest
from conftest import TOOLS

# A tool that starts many short processes, and makes a folder. With a moment it sends itself a signal there, in the third fork.
_TOOL = """
import os, signal, sys, time
from abi_tools.faults import run_tool
from abi_tools.jobs import StepLimits, Steps
from abi_tools.signals import temporary_folder

moment, number = sys.argv[1], int(sys.argv[2])
count = [0]

def send():
    count[0] += 1
    if count[0] == 3:
        os.kill(os.getpid(), number)

if moment in ("before", "after_in_parent"):
    os.register_at_fork(**{moment: send})

class Dying:
    def __del__(self):
        os.kill(os.getpid(), number)
        time.sleep(0)

def step():
    return b"x" * 100

def main(_arguments):
    print("begun", flush=True)
    with temporary_folder("signals-") as folder:
        (folder / "file").write_text("text")
        for _ in Steps(StepLimits(500, 10), 4).run([step] * (60 if moment != "any" else 600)):
            if moment == "__del__":
                Dying()
    if moment == "at the end":
        Dying()
    return 0

sys.exit(run_tool("tool", main, []))
"""
_NUMBERS = (signal.SIGTERM, signal.SIGINT, signal.SIGHUP)


def started(folder: Path, moment: str, number: int) -> "subprocess.Popen[str]":
    """The tool in a process of its own, which has a folder for temporary files."""
    return subprocess.Popen([sys.executable, "-B", "-c", _TOOL, moment, str(number)], stdout=subprocess.PIPE, stderr=subprocess.PIPE,
                            text=True, env={**os.environ, "PYTHONPATH": str(TOOLS), "TMPDIR": str(folder)}, start_new_session=True)


def left_running(session: int) -> list[str]:
    """The processes of a session that have not ended."""
    found = []
    for place in Path("/proc").glob("[0-9]*/stat"):
        try:
            state, _, _, of = place.read_text().rpartition(")")[2].split()[:4]
        except OSError:
            continue
        if int(of) == session and state != "Z":
            found.append(place.parent.name)
    return found


@pytest.mark.parametrize("number", _NUMBERS)
@pytest.mark.parametrize("moment", ("before", "after_in_parent", "__del__", "at the end"))
def test_a_signal_is_not_lost_where_exceptions_are(tmp_path: Path, moment: str, number: int) -> None:
    """Python ignores exceptions in what runs before and after a fork, and when an object goes."""
    process = started(tmp_path, moment, number)
    out, errors = process.communicate(timeout=60)
    assert (process.returncode, out, errors) == (128 + number, "begun\n", "")
    assert list(tmp_path.iterdir()) == [] and left_running(process.pid) == []


def test_a_signal_ends_a_tool_at_many_moments(tmp_path: Path) -> None:
    """The tool does nothing but start processes. It may be done before the signal comes."""
    random = Random(61)
    ended = 0
    for moment in range(40):
        process = started(tmp_path, "any", 0)
        assert process.stdout is not None and process.stdout.readline() == "begun\n"
        time.sleep(random.random() * 0.15)
        number = _NUMBERS[moment % len(_NUMBERS)]
        for _ in range(1 + moment % 3):
            process.send_signal(number)
        _, errors = process.communicate(timeout=60)
        assert process.returncode in (0, 128 + number) and errors == "", (process.returncode, errors)
        assert list(tmp_path.iterdir()) == [] and left_running(process.pid) == []
        ended += process.returncode != 0
    assert ended > 10

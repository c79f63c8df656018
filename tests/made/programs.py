"""Runs the proved programs in a folder of their inputs."""

from __future__ import annotations

import json
import os
import subprocess
from dataclasses import dataclass
from pathlib import Path
from typing import Any


@dataclass(frozen=True)
class Programs:
    """The paths of the programs."""

    abi: str
    abi_json: str
    graph_lines: str
    trial_library: str


class Runs:
    """A folder with inputs, and the programs that read them."""

    def __init__(self, programs: Programs, folder: Path) -> None:
        self.programs = programs
        self.folder = folder
        self.status = 0

    def inside(self, name: str) -> Runs:
        """The same programs in a folder below this one."""
        (self.folder / name).mkdir(exist_ok=True)
        return Runs(self.programs, self.folder / name)

    def write(self, name: str, data: bytes) -> None:
        """Writes an input."""
        (self.folder / name).parent.mkdir(exist_ok=True)
        (self.folder / name).write_bytes(data)

    def abi(self, *words: str) -> str:
        """What `abi` prints, given these words; its status is kept."""
        return self._run(words, {}).stdout.decode()

    def _run(self, words: tuple[str, ...], settings: dict[str, str]) -> subprocess.CompletedProcess[bytes]:
        environment = {**os.environ, **settings}
        ended = subprocess.run([self.programs.abi, *words], cwd=self.folder, capture_output=True, check=False, env=environment)
        self.status = ended.returncode
        if self.status < 0:
            raise AssertionError(f"{words}: it was killed by signal {-self.status}")
        return ended

    def said(self, *words: str) -> list[str]:
        """The sentences that `abi` writes to standard error, given these words; its status is kept."""
        return [line.removeprefix("abi: ") for line in self._run(words, {}).stderr.decode().splitlines()]

    def noted(self, *words: str) -> tuple[str, list[str]]:
        """What `abi` prints, and the sentences, with the notes on what is not judged."""
        ended = self._run(words, {"ABI_NOTES": "1"})
        return ended.stdout.decode(), [line.removeprefix("abi: ") for line in ended.stderr.decode().splitlines()]

    def graph(self, name: str) -> str:
        """The lines that `tool_graph_lines` prints of a library."""
        return subprocess.run([self.programs.graph_lines, name], cwd=self.folder, capture_output=True, check=False).stdout.decode()

    def breaks(self, *words: str) -> list[dict[str, Any]]:
        """The breaks in the document that `abi-json` prints, given these words."""
        ended = subprocess.run([self.programs.abi_json, *words], cwd=self.folder, capture_output=True, check=False)
        breaks: list[dict[str, Any]] = json.loads(ended.stdout)["breaks"]
        return breaks

    def notes(self, *words: str) -> list[str]:
        """The notes that `abi` writes to standard error, given these words."""
        return [line.removeprefix("note: ") for line in self.noted(*words)[1] if line.startswith("note: ")]

    def trial(self, count: str, side: str) -> bytes | None:
        """The library that `tool_trial_library` writes for a side, `old` or `new`, of a trial of this many functions, if there is one."""
        ended = subprocess.run([self.programs.trial_library, count, side], capture_output=True, check=False)
        return None if ended.returncode else ended.stdout

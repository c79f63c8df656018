"""A shell that runs the commands of a page, one after another, in a folder of its own."""

from __future__ import annotations

import os
import re
import subprocess
from pathlib import Path
from types import TracebackType
from typing import Mapping, Optional

_CAT = re.compile(r"^cat ([\w./-]+)$")
_END = "-- the command ended --"


class Session:
    """The shell of a page. The programs and the tools are on its PATH, and its folder has the repository folders that pages name."""

    def __init__(self, folder: Path, root: Path, named: Mapping[str, Path]) -> None:
        self.folder = folder
        programs = folder.parent / f"{folder.name}.programs"
        programs.mkdir()
        for name, program in named.items():
            (programs / name).symlink_to(program)
        folder.mkdir()
        for name in ("tools", "examples"):
            (folder / name).symlink_to(root / name)
        environment = dict(os.environ, LC_ALL="C", PATH=f"{programs}:{root / 'tools'}:{os.environ['PATH']}")
        for name in ("ABI", "ABI_JSON"):
            environment.pop(name, None)
        self.shell = subprocess.Popen(["bash", "--noprofile", "--norc"], cwd=folder, env=environment, text=True, errors="replace",
                                      stdin=subprocess.PIPE, stdout=subprocess.PIPE, stderr=subprocess.STDOUT)

    def __enter__(self) -> "Session":
        return self

    def __exit__(self, kind: Optional[type[BaseException]], error: Optional[BaseException],
                 trace: Optional[TracebackType]) -> None:
        assert self.shell.stdin is not None
        self.shell.stdin.close()
        self.shell.wait()

    def run(self, text: str, shown: tuple[str, ...]) -> list[str]:
        """Runs a command and returns the lines that it prints. `cat` of a missing file makes the file with the contents shown."""
        cat = _CAT.match(text)
        if cat and not (self.folder / cat.group(1)).exists():
            made = self.folder / cat.group(1)
            made.parent.mkdir(parents=True, exist_ok=True)
            made.write_text("".join(line + "\n" for line in shown), encoding="utf-8")
        assert self.shell.stdin is not None and self.shell.stdout is not None
        self.shell.stdin.write(f"{text}\n_status=$?; printf '%s\\n' '{_END}'; (exit $_status)\n")
        self.shell.stdin.flush()
        printed = ""
        while not printed.endswith(_END + "\n"):
            line = self.shell.stdout.readline()
            if not line:
                raise RuntimeError(f"the shell ended at: {text}")
            printed += line
        return printed[: -len(_END) - 1].splitlines()

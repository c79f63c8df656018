"""Where the pages of `abi-report` are. Like a result, each is named by a digest of all that it rests on."""

from __future__ import annotations

import os
import shutil
from dataclasses import dataclass
from functools import lru_cache
from pathlib import Path

from abi_release.digests import digest_of_json, digest_of_tools, program_digest
from abi_tools.faults import Fault


def json_program() -> str:
    """The program `abi-json`: the one that the variable ABI_JSON names, or else the one on the PATH. Raises a fault if there is none."""
    named = os.environ.get("ABI_JSON") or "abi-json"
    found = shutil.which(named)
    if found is None:
        raise Fault(f"there is no program {named}: put abi-json on the PATH, or name it by the variable ABI_JSON")
    return os.path.abspath(found)


@lru_cache(maxsize=1)
def _digest_of_report_tools() -> str:
    return digest_of_tools(("abi_report", "abi_tools"), ("*.py", "*.j2"))


@dataclass(frozen=True)
class Reports:
    """Where the pages of a run are: their folder, and the digests of `abi-json` and of the modules of `abi-report`."""

    folder: str
    program: str
    tools: str

    @classmethod
    def into(cls, folder: Path) -> "Reports":
        """Pages in a folder, which is made, by the `abi-json` and the modules of this machine."""
        folder.mkdir(parents=True, exist_ok=True)
        return cls(str(folder.resolve()), program_digest(json_program()), _digest_of_report_tools())

    def page(self, result: str) -> Path:
        """The page on the libraries of a result."""
        return Path(self.folder, f"{digest_of_json([result, self.program, self.tools])}.html")

    def check(self) -> None:
        """Raises a fault if this worker has another `abi-json`, or another `abi-report`."""
        if program_digest(json_program()) != self.program:
            raise Fault("abi-json on this worker is another program than the one of the run")
        if _digest_of_report_tools() != self.tools:
            raise Fault("abi-report on this worker is another one than that of the run")

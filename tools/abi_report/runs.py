"""Starts `abi-json` before Python imports the rest of this tool."""

from __future__ import annotations

import os
import shutil
import subprocess
import threading
from pathlib import Path
from typing import Mapping, Optional, Sequence

from abi_tools.faults import Fault, said_of_signal

# The variables that ask for notes on what no rule judges, and for digests of the inputs.
_NOTES = "ABI_NOTES"
_DIGESTS = "ABI_DIGESTS"


class Running:
    """A run of the program, whose output a thread reads. Leaving the context ends it."""

    def __init__(self, words: Sequence[str], environment: Mapping[str, str]) -> None:
        """Starts the program."""
        self._process = subprocess.Popen(words, stdin=subprocess.DEVNULL, stdout=subprocess.PIPE, stderr=subprocess.PIPE,
                                         env={**os.environ, **environment})
        self._printed = self._said = b""
        self._reader = threading.Thread(target=self._read, daemon=True)
        self._reader.start()

    def _read(self) -> None:
        self._printed, self._said = self._process.communicate()

    def __enter__(self) -> "Running":
        return self

    def __exit__(self, *_: object) -> None:
        if self._process.poll() is None:
            self._process.kill()
        self._reader.join()

    def printed(self) -> bytes:
        """The document that the program prints. Raises a fault if it prints none."""
        self._reader.join()
        status = self._process.returncode
        if status < 0:
            raise Fault(f"abi-json gave no answer: {said_of_signal(-status)}")
        if not self._printed:
            words = self._said.decode("utf-8", "replace").strip()
            raise Fault(f"abi-json ended with status {status} and printed nothing{': ' if words else ''}{words}")
        return self._printed


class AbiJson:
    """The program: the one that the variable ABI_JSON names, or else `abi-json` on the PATH."""

    def __init__(self) -> None:
        """Finds the program. Raises a fault if there is none."""
        named = os.environ.get("ABI_JSON") or "abi-json"
        found = shutil.which(named)
        if found is None:
            raise Fault(f"there is no program {named}: put abi-json on the PATH, or name it by the variable ABI_JSON")
        self._path = os.path.abspath(found)

    def started(self, old: Path, new: Path, rules: Optional[Path], with_notes: bool, with_digests: bool) -> Running:
        """Starts a run that judges two libraries, with the notes on what no rule judges and the digests of the inputs if they are
        wanted. All that its document says is of the bytes that this one run read."""
        words = [*([] if rules is None else [f"--rules={rules}"]), "--", str(old), str(new)]
        return Running([self._path, "check", *words], {_NOTES: str(int(with_notes)), _DIGESTS: str(int(with_digests))})

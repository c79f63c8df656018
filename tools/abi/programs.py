"""Runs `abi-json` and reads its document."""

from __future__ import annotations

import json
import os
import shutil
import signal
import subprocess
from typing import Optional, Union

from abi.answers import Answer, Json, Verdict, read_answer

FORMAT = 1
Path = Union[str, "os.PathLike[str]"]
# The exit status that goes with each answer.
_STATUSES = {Verdict.YES.value: 0, Verdict.NO.value: 1}


class NoAnswer(Exception):
    """There is neither a yes nor a no. The text says why; `status` is the exit status of the program, negative if a signal ended it, and
    None if it did not run or did not end in time. `fault` has the number, name and place of the fault of an input, if that is why."""

    def __init__(self, why: str, status: Optional[int] = None, fault: Optional[Json] = None) -> None:
        super().__init__(why)
        self.status = status
        self.fault = fault


def _program(named: Optional[Path]) -> str:
    wanted = os.fspath(named or os.environ.get("ABI_JSON") or "abi-json")
    found = shutil.which(wanted)
    if found is None:
        raise NoAnswer(f"there is no program {wanted}: put abi-json on the PATH, or name it by the variable ABI_JSON")
    return found


def _run(words: list[str], with_notes: bool, timeout: Optional[float]) -> "subprocess.CompletedProcess[bytes]":
    environment = {**os.environ, "ABI_NOTES": "1" if with_notes else "0", "ABI_DIGESTS": "1"}
    try:
        return subprocess.run(words, stdin=subprocess.DEVNULL, capture_output=True, check=False, env=environment, timeout=timeout)
    except subprocess.TimeoutExpired as error:
        raise NoAnswer(f"abi-json did not end within {timeout} seconds") from error
    except OSError as error:
        raise NoAnswer(f"abi-json does not start: {error.strerror}") from error


def _why(document: Json, said: str) -> str:
    sentences = [str(one) for one in document.get("notes") or ()]
    return "; ".join(sentences) or said or f"the answer is {document.get('answer')}"


def check(old: Path, new: Path, rules: Optional[Path] = None, *, notes: bool = False, program: Optional[Path] = None,
          timeout: Optional[float] = None) -> Answer:
    """Whether the library `new` may replace the library `old`, apart from what the rule file leaves out. `notes` also asks for what no
    rule judges, `program` names another `abi-json`, and `timeout` is in seconds. Raises NoAnswer if there is neither a yes nor a no."""
    options = [] if rules is None else [f"--rules={os.fspath(rules)}"]
    ended = _run([_program(program), "check", *options, "--", os.fspath(old), os.fspath(new)], notes, timeout)
    said = "; ".join(line.removeprefix("abi-json: ") for line in ended.stderr.decode("utf-8", "replace").splitlines())
    if ended.returncode < 0:
        raise NoAnswer(f"the signal {signal.Signals(-ended.returncode).name} ended abi-json", ended.returncode)
    try:
        document = json.loads(ended.stdout)
        if document["format"] != FORMAT:
            raise NoAnswer(f"abi-json prints the format {document['format']}; this library reads the format {FORMAT}", ended.returncode)
        if _STATUSES.get(document["answer"], -1) != ended.returncode:
            raise NoAnswer(_why(document, said), ended.returncode, document.get("fault"))
        return read_answer(document)
    except (ValueError, KeyError, TypeError, AttributeError) as error:
        raise NoAnswer(said or "abi-json printed no document", ended.returncode) from error

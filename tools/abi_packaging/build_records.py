"""The record of a package: what its programs were made from."""

from __future__ import annotations

import hashlib
import json
import os
import shutil
import subprocess
from dataclasses import dataclass
from pathlib import Path
from typing import Optional, Sequence

from abi_tools.faults import Fault

from abi_packaging.licences import kit_folder


@dataclass(frozen=True)
class Release:
    """What all packages of a release share: its number, the time of its files (seconds since 1970), and who makes it."""

    version: str
    time: int
    maintainer: str


def _git(sources: Path, *words: str) -> Optional[bytes]:
    """What git prints about the sources; nothing if they are no checkout."""
    if not (sources / ".git").exists() or shutil.which("git") is None:
        return None
    ended = subprocess.run(["git", "-C", str(sources), *words], capture_output=True, check=False)
    return ended.stdout if ended.returncode == 0 else None


def release_time(sources: Path) -> int:
    """The time of all files: SOURCE_DATE_EPOCH, or else the time of the commit. Raises a fault if there is neither."""
    given = os.environ.get("SOURCE_DATE_EPOCH") or (_git(sources, "log", "-1", "--format=%ct") or b"").decode().strip()
    if not given.isdecimal():
        raise Fault("the sources are no checkout of git: set SOURCE_DATE_EPOCH to the time of the release, in seconds since 1970")
    return int(given)


def record(sources: Path, version: str, programs: Sequence[Path], gate_log: Optional[Path]) -> bytes:
    """The record, as JSON. A member is null if nothing is known: there is no kit on the PATH, no checkout, or no log of the gate."""
    commit = _git(sources, "rev-parse", "HEAD")
    changed = _git(sources, "status", "--porcelain", "--untracked-files=no")
    contents = {
        "version": version,
        "kit": _kit(),
        "kit_made_from": _kit_made_from(),
        "commit": None if commit is None else commit.decode().strip(),
        "changed_since_commit": None if changed is None else bool(changed.strip()),
        "sources_sha256": _sources_digest(sources),
        "programs_sha256": {program.name: hashlib.sha256(program.read_bytes()).hexdigest() for program in programs},
        "gate": None if gate_log is None else _last_line(gate_log),
    }
    return (json.dumps(contents, indent=2) + "\n").encode()


def _kit() -> Optional[str]:
    """What `rt version` prints, if there is a kit."""
    if shutil.which("rt") is None:
        return None
    ended = subprocess.run(["rt", "version"], capture_output=True, text=True, check=False)
    return ended.stdout.strip() or None if ended.returncode == 0 else None


def _kit_made_from() -> Optional[dict[str, str]]:
    """The archive and the commit of the kit, from its file WHAT. Kits with the same ones prove the same, whatever their labels are."""
    folder = kit_folder()
    if folder is None or not (folder / "WHAT").is_file():
        return None
    said = dict(line.split(" ", 1) for line in (folder / "WHAT").read_text(encoding="utf-8").splitlines() if " " in line)
    return {name: said[name] for name in ("archive", "commit") if name in said}


def _sources_digest(sources: Path) -> Optional[str]:
    """One digest of all files that git tracks: that of the lines which `git ls-files -z | LC_ALL=C sort -z | xargs -0 sha256sum`
    prints."""
    listed = _git(sources, "ls-files", "-z")
    if listed is None:
        return None
    digest = hashlib.sha256()
    for name in sorted(filter(None, listed.split(b"\0"))):
        path = sources / os.fsdecode(name)
        if path.is_file():
            digest.update(hashlib.sha256(path.read_bytes()).hexdigest().encode() + b"  " + name + b"\n")
    return digest.hexdigest()


def _last_line(log: Path) -> str:
    """The last line of a log that is not blank. Raises a fault if there is none."""
    lines = [line.strip() for line in log.read_text(errors="replace").splitlines() if line.strip()]
    if not lines:
        raise Fault(f"{log} has no line: it is no log of the gate")
    return lines[-1]

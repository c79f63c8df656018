"""The archive that apt knows, or that of a mirror by way of apt. Whether a package is the one that the archive signs, apt alone says."""

from __future__ import annotations

import os
import shutil
import subprocess
from pathlib import Path
from typing import Sequence

from abi_tools.deb_control import DEBUG, About, about, about_fields
from abi_tools.faults import Fault, said_of_signal

# The architecture of packages that are for all of them.
ALL = "all"
_PRIVATE = """\
Dir::State "{folder}/state";
Dir::State::status "{folder}/status";
Dir::Cache "{folder}/cache";
Dir::Etc::SourceList "{folder}/sources.list";
Dir::Etc::SourceParts "-";
Acquire::Languages "none";
"""


class AptArchive:
    """What apt has in its lists. With mirrors, lines of sources.list(5) without `deb`, apt has a configuration of its own in `folder`, and
    these are its only sources; the keys are those of the system."""

    def __init__(self, folder: Path, mirrors: Sequence[str]) -> None:
        """Raises a fault if there is no apt, or if it cannot read a mirror."""
        for program in ("apt-get", "apt-cache"):
            if shutil.which(program) is None:
                raise Fault(f"there is no program {program}: --fetch takes packages from an archive by way of apt")
        self._folder = folder
        self._known: dict[tuple[str, str], list[About]] = {}
        self._environment = {**os.environ, "LC_ALL": "C.UTF-8"}
        if mirrors:
            self._environment["APT_CONFIG"] = str(_private(folder / "apt", mirrors))
            self._run("apt-get", "--quiet", "-o", "APT::Update::Error-Mode=any", "update")

    def versions(self, name: str, architecture: str) -> list[About]:
        """The versions of a package that can be downloaded, the latest first."""
        if (name, architecture) not in self._known:
            # Those of debug packages are wanted next, and apt may read its lists anew each time.
            names = [name, *(f"{name}{suffix}" for suffix in DEBUG if not name.endswith(DEBUG))]
            shown = self._shown([_named(one, architecture) for one in names])
            found = _latest_first(shown, names)
            for one in names:
                self._known[one, architecture] = [package for package in found if package.name == one]
        return self._known[name, architecture]

    def previous(self, package: About) -> list[About]:
        """The latest version of a package that is earlier than the given one, if there is one."""
        from debian.debian_support import version_compare

        earlier = [one for one in self.versions(package.name, package.architecture) if version_compare(one.version, package.version) < 0]
        return earlier[:1]

    def debug_packages(self, package: About) -> list[About]:
        """The packages with the debug information of a package: the one that is made beside it, or all `-dbg` packages of its source, since
        the one that is named after it may have other things (`libpython3.11-dbg` has another build of Python)."""
        beside = [one for one in self.versions(f"{package.name}{DEBUG[0]}", package.architecture) if one.version == package.version]
        if beside:
            return beside
        listed = self._run("apt-cache", "search", "--names-only", "--", f"{DEBUG[1]}$")
        names = [line.split(" ")[0] for line in listed.splitlines()]
        return [one for one in _latest_first(self._shown(names), names)
                if one.has_debug_of(package) and one.architecture == package.architecture]

    def download(self, packages: Sequence[About]) -> dict[About, Path]:
        """Downloads versions of packages. Raises a fault if apt does not get one, or does not find it to be the one that is signed."""
        if not packages:
            return {}
        folder = self._folder / "downloaded"
        folder.mkdir()
        named = [f"{_named(one.name, one.architecture)}={one.version}" for one in packages]
        self._run("apt-get", "--quiet", "download", "--", *named, folder=folder)
        files = {about(file): file for file in folder.iterdir()}
        missing = [str(one) for one in packages if one not in files]
        if missing:
            raise Fault(f"apt-get has not downloaded {', '.join(missing)}")
        return files

    def _shown(self, names: Sequence[str]) -> str:
        """What apt says of some packages; nothing of those that it does not know."""
        if not names:
            return ""
        ended = self._ended("apt-cache", "show", "--", *names)
        return ended.stdout

    def _run(self, *command: str, folder: Path | None = None) -> str:
        ended = self._ended(*command, folder=folder)
        if ended.returncode != 0:
            errors = [line.removeprefix("E: ") for line in ended.stderr.splitlines() if line.startswith("E: ")]
            why = "; ".join(errors) or f"it ended with status {ended.returncode}"
            raise Fault(f"{command[0]}: {said_of_signal(-ended.returncode) if ended.returncode < 0 else why}")
        return ended.stdout

    def _ended(self, *command: str, folder: Path | None = None) -> "subprocess.CompletedProcess[str]":
        return subprocess.run(command, stdin=subprocess.DEVNULL, capture_output=True, check=False, text=True, errors="surrogateescape",
                              cwd=folder, env=self._environment)


def _named(name: str, architecture: str) -> str:
    """A package as apt names it."""
    return name if architecture == ALL else f"{name}:{architecture}"


def _private(folder: Path, mirrors: Sequence[str]) -> Path:
    """Makes a configuration of apt that has no sources but these, and returns its file."""
    for name in ("state/lists/partial", "cache/archives/partial"):
        (folder / name).mkdir(parents=True)
    (folder / "status").touch()
    (folder / "sources.list").write_text("".join(f"deb {' '.join(line.split())}\n" for line in mirrors))
    (folder / "apt.conf").write_text(_PRIVATE.format(folder=folder))
    return folder / "apt.conf"


def _latest_first(shown: str, names: Sequence[str]) -> list[About]:
    """The versions of packages in what `apt-cache show` printed that are in an archive, the latest first."""
    from debian.deb822 import Deb822
    from debian.debian_support import Version

    wanted = set(names)
    found = []
    for fields in Deb822.iter_paragraphs(shown.splitlines(), use_apt_pkg=False) if shown.strip() else ():
        package = about_fields(fields)
        # A version that is installed and in no archive has no file.
        if package is not None and package.name in wanted and "Filename" in fields:
            found.append(package)
    return sorted(dict.fromkeys(found), key=lambda one: Version(one.version), reverse=True)

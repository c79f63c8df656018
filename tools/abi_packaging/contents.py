"""What each package says of itself, and the files of the package `dh-abi`."""

from __future__ import annotations

import gzip
import os
import subprocess
from pathlib import Path

from abi_tools.faults import Fault

from abi_packaging.packing import Package
from abi_packaging.program_needs import Needs
from abi_packaging.staging import place

_DESCRIPTION = (
    "says whether a new build of a C shared library may replace an old one",
    "abi compares two builds of a C shared library by their debug information. It answers yes with a certificate that anyone can check, "
    "or no with every break. A prover has checked that the code gives the answer of a written definition.",
    "The tools around it judge packages and releases, write reports, and stop builds whose library may not replace the released one.",
)
# What single tools need: abi-packages reads packages, abi-report writes pages and shows progress, and abi-release works side by side.
# Debian and Fedora have them by the same names.
_RECOMMENDED = ("python3-libarchive-c", "python3-zstandard", "python3-debian", "python3-jinja2", "python3-rich")
_SUGGESTED = ("python3-distributed", "python3-cryptography")
# The oldest Python that runs the tools.
_PYTHON = "3.9"
# Python's modules are compiled at installation, since users may not write there. The tools also run without.
_POSTINST = """\
#!/bin/sh
set -e
if [ "$1" = configure ] && command -v py3compile >/dev/null; then
    py3compile -p abi /usr/lib/abi/tools
fi
"""
_PRERM = """\
#!/bin/sh
set -e
if command -v py3clean >/dev/null; then
    py3clean -p abi
fi
"""


def abi_for_debian(needs: Needs) -> Package:
    """The package `abi` of Debian."""
    return Package("abi", "amd64", [*needs.debian(), f"python3 (>= {_PYTHON})"], _RECOMMENDED, _SUGGESTED, (), _DESCRIPTION,
                   (("postinst", _POSTINST), ("prerm", _PRERM)))


def abi_for_rpm(needs: Needs) -> Package:
    """The package `abi` of RPM."""
    return Package("abi", "x86_64", [*needs.rpm(), "/usr/bin/python3"], _RECOMMENDED, _SUGGESTED, (), _DESCRIPTION)


def dh_abi(version: str) -> Package:
    """The package `dh-abi` of Debian."""
    return Package("dh-abi", "all", [f"abi (= {version})", "debhelper (>= 13)", "perl"], [], [],
                   ["Multi-Arch: foreign", f"Provides: dh-sequence-abi (= {version})"],
                   ("debhelper add-on that stops where a library may not replace the released one",
                    "With Build-Depends: dh-sequence-abi, each build compares the libraries of a package with their released "
                    "interfaces, which are kept in debian/abi, and fails unless abi says yes."))


def stage_dh_abi(sources: Path, top: Path, time: int) -> None:
    """Lays out the files of the package `dh-abi` below `top`, as below `/usr`, with a manual page of the given time. Raises a fault if
    the page cannot be made."""
    tools = sources / "tools/debhelper"
    script = tools / "dh_abi"
    place(script.read_bytes(), top / "bin/dh_abi", 0o755)
    sequence = "Debian/Debhelper/Sequence/abi.pm"
    place((tools / sequence).read_bytes(), top / "share/perl5" / sequence)
    place(gzip.compress(_page(script, time), 9, mtime=0), top / "share/man/man1/dh_abi.1.gz")
    place((sources / "LICENSE").read_bytes(), top / "share/doc/dh-abi/copyright")


def _page(script: Path, time: int) -> bytes:
    """The manual page of a tool of debhelper, from its own text."""
    command = ["pod2man", "--section=1", "--name=DH_ABI", "--center=abi", "--release=abi", str(script)]
    try:
        ended = subprocess.run(command, capture_output=True, check=False, env={**os.environ, "LC_ALL": "C", "SOURCE_DATE_EPOCH": str(time)})
    except FileNotFoundError as error:
        raise Fault("there is no program pod2man: install the package perl") from error
    if ended.returncode != 0:
        raise Fault(f"pod2man failed: {ended.stderr.decode(errors='replace').strip()}")
    return ended.stdout

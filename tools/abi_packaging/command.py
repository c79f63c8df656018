"""The command `make-packages`."""

from __future__ import annotations

import argparse
import re
import tempfile
from pathlib import Path
from typing import Sequence

from abi_tools.arguments import Arguments
from abi_tools.faults import Fault

from abi_packaging.build_records import Release, record, release_time
from abi_packaging.contents import abi_for_debian, abi_for_rpm, dh_abi, stage_dh_abi
from abi_packaging.licences import crate_licences, library_licences
from abi_packaging.packing import archive, debian_package, rpm_package
from abi_packaging.program_needs import needs_of, release_number
from abi_packaging.staging import Installation, copied, place, stage, with_module

_DESCRIPTION = """\
Makes packages of an installation of `abi`: abi_VERSION_amd64.deb, dh-abi_VERSION_all.deb, abi-VERSION-1.x86_64.rpm and
abi-VERSION-x86_64.tar.xz. The installation is what install.sh of these sources made below PREFIX. The packages have the programs, the
tools, manual pages, completions, pages, licences of all that is linked in, and a record in share/doc/abi/record.json: the kit of the
prover, the commit, and digests of the sources and the programs. Programs of `install.sh --static` run on any Linux for x86-64. The same
files and the same SOURCE_DATE_EPOCH (by default the time of the commit) make the same bytes.
"""
_STATUSES = "Exit status: 0 made, and their names are printed; 2 not made, and a sentence says why; 64 wrong arguments."
# The C library of Debian 11, the oldest release on which packages are to run.
_NEWEST_LIBC = "2.31"
_SOURCES = Path(__file__).resolve().parents[2]


def main(arguments: Sequence[str]) -> int:
    """Makes the packages as the arguments say, prints their names, and returns 0. Raises a fault if they cannot be made."""
    parser = Arguments("make-packages", _DESCRIPTION, _STATUSES)
    parser.add_argument("--version", type=_version, required=True, metavar="VERSION", help="the version of the packages")
    parser.add_argument("--libc", type=_libc, default=_NEWEST_LIBC, metavar="VERSION",
                        help=f"the newest release of the C library that the programs may need (default: {_NEWEST_LIBC})")
    parser.add_argument("--licence", type=Path, action="append", default=[], metavar="FILE",
                        help="a licence to add to those of the kit's crates and of the C library, which are found; may be given more than once")
    parser.add_argument("--gate", type=Path, metavar="FILE", help="the log of the gate, whose last line goes into the record")
    parser.add_argument("--maintainer", default="The abi developers", metavar="NAME", help="who makes the packages")
    parser.add_argument("prefix", type=Path, metavar="PREFIX", help="the folder into which install.sh installed")
    parser.add_argument("output", type=Path, metavar="FOLDER", help="the folder for the packages")
    given = parser.parse_args(arguments)
    for path in _made(given, Release(given.version, release_time(_SOURCES), given.maintainer)):
        print(path)
    return 0


def _version(text: str) -> str:
    """A version that is one for Debian and for RPM alike: without a revision."""
    if re.fullmatch(r"\d[0-9A-Za-z.+~]*", text) is None:
        raise argparse.ArgumentTypeError(f"{text} is no version such as 0.2.0")
    return text


def _libc(text: str) -> str:
    """A release of the C library. Raises ValueError for any other text."""
    release_number(text)
    return text


def _made(given: argparse.Namespace, release: Release) -> list[Path]:
    """Makes all packages in a temporary folder, and moves them to the output together."""
    installation = Installation(given.prefix.resolve(), _SOURCES)
    installation.check()
    needs = needs_of(installation.programs, given.libc)
    if not given.output.is_dir():
        raise Fault(f"there is no folder {given.output} for the packages")
    with tempfile.TemporaryDirectory(prefix=".make-packages.", dir=given.output) as name:
        work = Path(name).resolve()
        output = work / "output"
        output.mkdir()
        top = work / "usr"
        stage(installation, top)
        _document(given, installation, top / "share/doc/abi", is_static=not needs.versions)
        stage_dh_abi(_SOURCES, work / "dh-abi/usr", release.time)
        made = [
            debian_package(abi_for_debian(needs), release, with_module(_root(top, work / "debian")), output),
            debian_package(dh_abi(release.version), release, work / "dh-abi", output),
            rpm_package(abi_for_rpm(needs), release, _root(top, work / "rpm"), output),
            archive("abi", release, top, output),
        ]
        return [path.rename(given.output / path.name) for path in made]


def _root(top: Path, root: Path) -> Path:
    """A folder in which the staged files are below `usr`."""
    copied(top, root / "usr")
    return root


def _document(given: argparse.Namespace, installation: Installation, folder: Path, is_static: bool) -> None:
    """Writes what the packages say of themselves: licences and the record."""
    place((installation.sources / "LICENSE").read_bytes(), folder / "copyright")
    licences = [*crate_licences(installation.sources), *(library_licences() if is_static else ())]
    licences += [(licence.name, licence.read_bytes()) for licence in given.licence]
    for name, text in licences:
        place(text, folder / "licences" / name)
    place(record(installation.sources, given.version, installation.programs, given.gate), folder / "record.json")

"""Debug files by build id from servers (debuginfod(8))."""

from __future__ import annotations

import re
from dataclasses import dataclass
from pathlib import Path, PurePosixPath
from typing import Iterator, Optional, Sequence

from abi_tools import VERSION
from abi_tools.debug_files import DEBUG_FOLDER
from abi_tools.elf_files import ElfFile
from abi_tools.faults import Fault, said_of
from abi_tools.limits import LARGEST_FILE
from abi_tools.output_file import write_whole
from abi_tools.package_debug import PackagePlaces
from abi_tools.shown import name_shown
from abi_tools.unpacking import Package

_BY_BUILD_ID = re.compile(re.escape(f"{DEBUG_FOLDER}/.build-id/") + r"([0-9a-f]{2})/([0-9a-f]+)\.debug")
_SECONDS = 90
_NOT_FOUND = 404


@dataclass(frozen=True)
class Debuginfod:
    """Servers, asked in order, and the folder in which what they gave is kept."""

    servers: tuple[str, ...]
    folder: Path

    def file(self, build_id: str) -> Optional[Path]:
        """The debug file or supplementary file with this build id; None if no server has it. Raises a fault if a server does not answer,
        since nobody knows whether it has the file."""
        place = self.folder / f"{build_id}.debug"
        for server in self.servers:
            if place.exists():
                break
            contents = _got(f"{server.rstrip('/')}/buildid/{build_id}/debuginfo")
            if contents is not None:
                write_whole(place, contents)
        return place if place.exists() else None


def _got(address: str) -> Optional[bytes]:
    """What lies at an address; None if the server says that it has nothing there."""
    # Imported here, since only some runs need it.
    import http.client
    import urllib.error
    import urllib.request

    request = urllib.request.Request(address, headers={"User-Agent": f"abi-packages/{VERSION}"})
    try:
        with urllib.request.urlopen(request, timeout=_SECONDS) as answer:
            contents: bytes = answer.read(LARGEST_FILE + 1)
    except urllib.error.HTTPError as error:
        if error.code == _NOT_FOUND:
            return None
        raise Fault(f"{name_shown(address)}: {error}") from error
    except urllib.error.URLError as error:
        why = said_of(error.reason) if isinstance(error.reason, OSError) else error.reason
        raise Fault(f"{name_shown(address)}: {why}") from error
    except (OSError, http.client.HTTPException) as error:
        raise Fault(f"{name_shown(address)}: {error}") from error
    if len(contents) > LARGEST_FILE:
        raise Fault(f"{name_shown(address)} has more than {LARGEST_FILE} bytes")
    return contents


class ServedPlaces(PackagePlaces):
    """The files of packages and, after them, those of servers."""

    said = " in the packages or on a server"

    def __init__(self, packages: Sequence[Package], servers: Debuginfod) -> None:
        super().__init__(packages)
        self._servers = servers
        self._served: dict[Path, str] = {}

    def name_of(self, path: Path) -> str:
        """The name of a file that is kept."""
        return self._served.get(path) or super().name_of(path)

    def named(self, name: PurePosixPath) -> Iterator[ElfFile]:
        """The files that a name leads to, one in each package and, if it is that of a debug file by build id, one of a server."""
        yield from super().named(name)
        found = _BY_BUILD_ID.fullmatch(str(name))
        place = None if found is None else self._servers.file(found[1] + found[2])
        if place is not None:
            self._served[place] = str(name).lstrip("/")
            yield self.read(place)

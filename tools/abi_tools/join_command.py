"""The command `join-debug`."""

from __future__ import annotations

from pathlib import Path
from typing import Sequence

from abi_tools.arguments import Arguments
from abi_tools.joining import join
from abi_tools.output_file import clear_output, write_whole

_DESCRIPTION = """\
Joins a library with the debug information that its distribution ships separately, in one file that `abi` reads: debug sections are put
in place and inflated, and the contents of a supplementary file (dwz -m) are merged in. Without DEBUG_FILE it looks for the debug file
below FOLDER, by the library's build id and by .gnu_debuglink; a library with debug information of its own needs none. The debug file
must be of the library's build. OUTPUT exists at the end if and only if the exit status is 0.
"""
_STATUSES = "Exit status: 0 joined; 2 not joined, and a sentence says why; 64 wrong arguments."


def main(arguments: Sequence[str]) -> int:
    """Joins as the arguments say, and returns 0. Raises a fault if that cannot be done."""
    parser = Arguments("join-debug", _DESCRIPTION, _STATUSES)
    parser.add_argument("--root", type=Path, default=Path("/"), metavar="FOLDER",
                        help="the folder of an unpacked package with its usr/lib/debug (default: /)")
    parser.add_argument("library", type=Path, metavar="LIBRARY", help="the library, as it is shipped")
    parser.add_argument("output", type=Path, metavar="OUTPUT", help="the file for both")
    parser.add_argument("debug_file", type=Path, nargs="?", metavar="DEBUG_FILE", help="the debug file of the library")
    given = parser.parse_args(arguments)
    inputs = [given.library] + ([given.debug_file] if given.debug_file else [])
    clear_output(given.output, inputs)
    write_whole(given.output, join(given.library, given.root, given.debug_file))
    return 0

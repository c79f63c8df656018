"""The command `abi-baseline`."""

from __future__ import annotations

import sys
from pathlib import Path
from typing import Sequence

from abi_tools.arguments import Arguments
from abi_tools.baselines import baseline
from abi_tools.elf_files import ElfFile
from abi_tools.output_file import clear_output, write_whole

_DESCRIPTION = """\
Writes what `abi` reads of a library to a file, the baseline, that a project can keep in its repository. `abi` judges the baseline as it
judges the library (the same exports, binds and reports), but it has a digest of its own. Code and data are left out; debug information
is unchanged, but inflated.
"""
_STATUSES = "Exit status: 0 written; 2 not written, and a sentence says why; 64 wrong arguments."


def main(arguments: Sequence[str]) -> int:
    """Writes the baseline as the arguments say, and returns 0. Raises a fault if that cannot be done."""
    parser = Arguments("abi-baseline", _DESCRIPTION, _STATUSES)
    parser.add_argument("library", type=Path, metavar="LIB", help="the library, with its debug information")
    parser.add_argument("output", type=Path, metavar="OUT", help="the file for the baseline")
    given = parser.parse_args(arguments)
    clear_output(given.output, [given.library])
    library = ElfFile(given.library)
    write_whole(given.output, baseline(library))
    if not library.has_debug_information:
        print(f"abi-baseline: {given.library} has no debug information: the file has names, versions, kinds and sizes alone",
              file=sys.stderr)
    return 0

"""Writes output files so that they exist whole or not at all."""

from __future__ import annotations

import errno
import os
from pathlib import Path
from typing import Sequence

from abi_tools.faults import Fault

# The errors of file systems without O_TMPFILE.
_NO_UNNAMED_FILES = (errno.EOPNOTSUPP, errno.EISDIR, errno.EINVAL, errno.ENOENT)
_PERMISSIONS = 0o666


def clear_output(output: Path, inputs: Sequence[Path]) -> None:
    """Removes the `output` of an earlier run, so that the file exists only if this run succeeds. Raises a fault if `output` is one of
    the inputs, or is not a file that can be replaced."""
    if not output.parent.is_dir():
        raise Fault(f"there is no folder {output.parent} for {output.name}")
    if not output.exists() and not output.is_symlink():
        return
    if any(given.exists() and output.exists() and output.samefile(given) for given in inputs):
        raise Fault(f"{output} is an input, too: name another file for the output")
    if output.exists() and not output.is_file():
        raise Fault(f"{output} is no file that can be replaced")
    output.unlink()


def write_whole(output: Path, contents: bytes) -> None:
    """Writes the file. It gets its name only when it is complete, so that a killed run leaves no partial file. Raises OSError if it
    cannot be written."""
    try:
        file = os.open(output.parent, os.O_TMPFILE | os.O_WRONLY, _PERMISSIONS)
    except OSError as error:
        if error.errno not in _NO_UNNAMED_FILES:
            raise
        _write_and_rename(output, contents)
        return
    try:
        _write_all(file, contents)
        _name(file, output)
    finally:
        os.close(file)


def _write_all(file: int, contents: bytes) -> None:
    """Writes all bytes, in as many calls as this takes."""
    left = memoryview(contents)
    while left:
        left = left[os.write(file, left):]


def _name(file: int, output: Path) -> None:
    """Gives the unnamed file its name, and replaces a file of that name."""
    folder = os.open(output.parent, os.O_PATH | os.O_DIRECTORY)
    try:
        output.unlink(missing_ok=True)
        os.link(f"/proc/self/fd/{file}", output.name, dst_dir_fd=folder, follow_symlinks=True)
    finally:
        os.close(folder)


def _write_and_rename(output: Path, contents: bytes) -> None:
    """Writes the file by way of a temporary file beside the output."""
    # Imported here, since few file systems need it.
    import tempfile

    file, temporary = tempfile.mkstemp(prefix=f".{output.name}.", dir=output.parent)
    try:
        _write_all(file, contents)
        mask = os.umask(0)
        os.umask(mask)
        os.fchmod(file, _PERMISSIONS & ~mask)
        os.rename(temporary, output)
    except BaseException:
        os.unlink(temporary)
        raise
    finally:
        os.close(file)

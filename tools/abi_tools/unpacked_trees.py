"""Reads a folder of this machine, the root of an unpacked package or system, as a package. Links are not followed, and nothing but
regular files is opened."""

from __future__ import annotations

import os
import stat
from pathlib import Path

from abi_tools.package_trees import Entry, File, Link, Node, Tree
from abi_tools.unpacking import ELF_MAGIC, Package

_SHARED = ".so"


def folder_package(root: Path) -> Package:
    """The folder as a package. Its files stay where they are. What cannot be read for want of permission is such an entry."""
    tree = Tree()
    left = [""]
    while left:
        folder = left.pop()
        try:
            with os.scandir(root / folder) as entries:
                found = sorted(entries, key=lambda entry: entry.name)
        except OSError as error:
            tree.entries[folder] = File(refused=f"{error.strerror}", is_elf=True)
            continue
        for entry in found:
            name = f"{folder}/{entry.name}" if folder else entry.name
            tree.entries[name] = _node(Path(entry.path))
            if tree.entries[name] is Entry.FOLDER:
                left.append(name)
    return Package(root, tree)


def _node(path: Path) -> Node:
    """What lies at a path."""
    status = path.lstat()
    if stat.S_ISLNK(status.st_mode):
        return Link(os.readlink(path))
    if stat.S_ISDIR(status.st_mode):
        return Entry.FOLDER
    if not stat.S_ISREG(status.st_mode):
        return Entry.OTHER
    try:
        with os.fdopen(os.open(path, os.O_RDONLY | os.O_NOFOLLOW | os.O_NONBLOCK | os.O_CLOEXEC), "rb", buffering=0) as stream:
            is_elf = stream.read(len(ELF_MAGIC)) == ELF_MAGIC
        return File(status.st_size, path, is_elf=is_elf)
    except OSError as error:
        # A program that only root may read is no library; a file with the name of a library may be one.
        return File(status.st_size, refused=f"{error.strerror}", is_elf=_SHARED in path.name)

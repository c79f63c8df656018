"""How much the tools read of a package, and how much a step may take. What is larger is refused before the work, with a sentence."""

from __future__ import annotations

from typing import NamedTuple

_MEGABYTE = 1 << 20


class Limit(NamedTuple):
    """A limit: its value, the unit of that, and what it limits."""

    value: int
    unit: str
    what: str


# `abi` reads no larger file.
LARGEST_FILE = 256 * _MEGABYTE
# A larger file is not even looked into.
LARGEST_KEPT_FILE = 1024 * _MEGABYTE
LARGEST_KEPT = 4096 * _MEGABYTE
LARGEST_INFLATED = 16384 * _MEGABYTE
LARGEST_RULES = _MEGABYTE
# The decoder's memory: `xz -9` takes 65 MiB, and zstd has windows of up to 128 MiB without `--ultra --long`.
LARGEST_WINDOW = 128 * _MEGABYTE
LARGEST_HEADER = 64 * _MEGABYTE
MOST_MEMBERS = 500_000
MOST_NAMES = 200_000
DEEPEST = 128
# Linux takes no longer name (PATH_MAX), and follows no more links (MAXSYMLINKS).
LONGEST_NAME = 4096
MOST_LINKS = 40

LIMITS = (
    Limit(LARGEST_FILE, "bytes", "a library, or a file of debug information, as abi reads it; a larger library gets `cannot tell`"),
    Limit(LARGEST_KEPT_FILE, "bytes", "an ELF file in a package; of a larger one nothing is read, and it gets `cannot tell`"),
    Limit(LARGEST_KEPT, "bytes", "all ELF files of a package together"),
    Limit(LARGEST_INFLATED, "bytes", "the archive in a package, inflated"),
    Limit(LARGEST_WINDOW, "bytes", "the memory that inflating an archive takes"),
    Limit(LARGEST_HEADER, "bytes", "the header of a .rpm"),
    Limit(LARGEST_RULES, "bytes", "a rule file in a package, inflated"),
    Limit(MOST_MEMBERS, "members", "the files, folders and links of a package"),
    Limit(MOST_NAMES, "names", "the names that lead to libraries of all packages of a side, by way of links or not"),
    Limit(DEEPEST, "folders", "the depth of a name in a package"),
    Limit(LONGEST_NAME, "bytes", "a name, or the target of a link, in a package"),
    Limit(MOST_LINKS, "links", "the links that one name leads through"),
)

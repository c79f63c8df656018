"""Whether the packages of a side can be installed together, and in one way only."""

from __future__ import annotations

from typing import Iterator, Sequence

from abi_tools.faults import Fault
from abi_tools.found_libraries import DEBUG, DebugLinks, folders_above
from abi_tools.library_names import MERGED, installed, merged_name
from abi_tools.package_trees import Entry, File, Link, Node
from abi_tools.shown import name_shown
from abi_tools.unpacking import Package

# Links below this folder concern no libraries.
_SHARED = "usr/share/"


def refuse_conflicts(packages: Sequence[Package]) -> None:
    """Raises a fault if what programs find depends on the order in which packages are installed, or on what seems to be debug information of
    another package."""
    _refuse_second(packages)
    _refuse_folders(packages)
    _refuse_debug_links(packages)


def _refuse_second(packages: Sequence[Package]) -> None:
    """Raises a fault if two packages bring an entry of the same name, and one of these is an ELF file or a link."""
    known: dict[str, Node] = {}
    for package in packages:
        own = package.tree.entries
        twice = sorted(name for name in own.keys() & known.keys() if _exclude(own[name], known[name]))
        if twice:
            raise Fault(f"{package.file} brings a file that another package brings, too: {name_shown(twice[0])}")
        known.update(own)


def _exclude(one: Node, other: Node) -> bool:
    """Whether it matters which of two entries of one name is installed. Links that are folders elsewhere are another matter."""
    if isinstance(one, File) and one.is_elf or isinstance(other, File) and other.is_elf:
        return True
    return (isinstance(one, Link) or isinstance(other, Link)) and one != other and Entry.FOLDER not in (one, other)


def _refuse_folders(packages: Sequence[Package]) -> None:
    """Raises a fault if one name is that of a link and that of a folder, and ELF files or links lie in one of them."""
    entries = [(merged_name(name), node, package) for package in packages for name, node in package.tree.entries.items()]
    folders = {name for name, node, _ in entries if node is Entry.FOLDER} - {folder.rstrip("/") for folder in MERGED}
    links = [(name, node, package) for name, node, package in entries if isinstance(node, Link) and name in folders]
    if not links:
        return
    tree = installed([package.tree for package in packages])
    tree.entries.update((name, node) for name, node, _ in links)
    matter = {name for name, node, _ in entries if _matters(name, node)}
    above = {folder for name in matter for folder in folders_above(name)}
    both = matter | above
    for name, _, package in links:
        if name in above or tree.resolved(name) in both:
            raise Fault(f"{package.file} brings the link {name_shown(name)}, which is a folder of the packages, too")


def _matters(name: str, node: Node) -> bool:
    return isinstance(node, File) and node.is_elf or isinstance(node, Link) and not name.startswith(_SHARED)


def _refuse_debug_links(packages: Sequence[Package]) -> None:
    """Raises a fault if a link of one package leads to what seems to be debug information of another one, whether that ships libraries or
    is only searched for debug files."""
    links = DebugLinks(installed([package.tree for package in packages])) if len(packages) > 1 else None
    for package in packages if links else ():
        reached = [name for name in _debug_files(package) if links is not None and links.lead_to(name)]
        own = DebugLinks(package.tree) if reached else None
        for name in reached:
            if own is not None and not own.lead_to(name):
                raise Fault(f"a link of another package leads to {name_shown(name)} of {package.file}, where debug information lies")


def _debug_files(package: Package) -> Iterator[str]:
    return (name for name, file in package.tree.files() if file.is_elf and name.startswith(DEBUG))

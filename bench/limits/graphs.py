"""The graph of the types that the exports of a library reach, as tool_graph_lines prints it."""

from __future__ import annotations

import re
import subprocess
from dataclasses import dataclass, field

from .entries import AGGREGATES, WRAPPERS, Entries, Entry
from .figures import Figure, constant, figure

_HIDDEN = re.compile(r"\\x[0-9a-f]{2}")
_LABEL = re.compile(r" (?:structure|union|enumeration|typedef|builtin):(\S+)")
_NODE = re.compile(r"node (\d+) (\w+) size (\d+) align (\d+) count (\d+)(?: .*)? tag (\S+) labels(.*)")
# The parts that are inside an object of an aggregate.
_INSIDE = ("member", "element")
_AGGREGATES = ("structure", "union", "array")


@dataclass
class Node:
    """A type: its kind, how many bytes and elements it has, the letters of its names and parts, how many names it has, and the kind and
    the entry of each part. An enumerator has no entry."""

    kind: str
    size: int
    count: int
    letters: int
    labels: int
    parts: list[tuple[str, int]] = field(default_factory=list)


def _letters(shown: str) -> int:
    return 0 if shown == "-" else len(_HIDDEN.sub("x", shown))


def _node(line: str) -> tuple[int, Node]:
    found = _NODE.fullmatch(line)
    assert found is not None, line
    labels = [_letters(name) for name in _LABEL.findall(found[7])]
    letters = _letters(found[6]) + sum(labels)
    return int(found[1]), Node(found[2], int(found[3]), int(found[5]), letters, len(labels))


def _take_part(node: Node, line: str) -> None:
    words = line.split()
    if words[0] in ("member", "enumerator"):
        node.letters += _letters(words[1])
    node.parts.append((words[0], 0 if words[0] == "enumerator" else int(words[-1])))


def read_lines(program: str, library: str) -> list[str]:
    """The lines that tool_graph_lines prints for a library."""
    return subprocess.run([program, library], stdout=subprocess.PIPE, check=True, text=True).stdout.splitlines()


def declared_letters(lines: list[str], size: int) -> Figure:
    """The letters of the names under which exports are declared, in a file of `size` bytes."""
    found = sum(_letters(line.split()[-1]) for line in lines if line.startswith("export "))
    return figure("DeclaredNames", found, size)


def read_graph(lines: list[str]) -> dict[int, Node]:
    """The types, by entry; void has 0."""
    nodes: dict[int, Node] = {}
    node = Node("", 0, 0, 0, 0)
    for line in lines:
        if line.startswith("node "):
            entry, node = _node(line)
            nodes[entry] = node
        elif not line.startswith("export "):
            _take_part(node, line)
    return nodes


def parts(nodes: dict[int, Node]) -> int:
    return sum(len(node.parts) for node in nodes.values())


def _flat(types: dict[int, Entry], entry: Entry) -> int:
    """How many members a structure or a union has, with the members of nameless ones in their place."""
    if entry.declared:
        return 0
    found = len(entry.members)
    for member in (types[place] for place in entry.members):
        inner = None if member.named else _peeled(types, member.type)
        found += _flat(types, inner) if inner and inner.tag in AGGREGATES else 0
    return found


def _peeled(types: dict[int, Entry], place: int | None) -> Entry | None:
    """The type behind typedefs and qualifiers."""
    entry = types.get(place) if place is not None else None
    while entry is not None and entry.tag in WRAPPERS:
        entry = types.get(entry.type) if entry.type is not None else None
    return entry


def reached_types(nodes: dict[int, Node], size: int) -> Figure:
    """The types that exports reach, in a file of `size` bytes. The node of void does not count."""
    return figure("Types", len(nodes) - 1, size)


def enumerators(nodes: dict[int, Node], size: int) -> Figure:
    """The enumerators of the enumerations that exports reach; their typedefs share them."""
    found = sum(len(node.parts) for node in nodes.values() if node.kind == "enumeration")
    return figure("Enumerators", found, size)


def flat_parts(nodes: dict[int, Node], entries: Entries, size: int) -> Figure:
    """The flat members and parameters that the program makes, for a file of `size` bytes."""
    found = 0
    for place, node in nodes.items():
        entry = entries.types.get(place)
        if node.kind == "function":
            found += sum(1 for sort, _ in node.parts if sort == "param")
        elif entry is not None and entry.tag in AGGREGATES:
            found += _flat(entries.types, entry)
    return figure("Members", found, size)


def held_parts(nodes: dict[int, Node], size: int) -> Figure:
    """The parts by which types are compared, for a file of `size` bytes."""
    return figure("Parts", parts(nodes), size)


def letters(nodes: dict[int, Node], size: int) -> Figure:
    """The letters of the names of types and parts, for a file of `size` bytes."""
    found = sum(node.letters for node in nodes.values())
    return figure("Letters", found, size)


def labels(nodes: dict[int, Node]) -> Figure:
    """The names of types."""
    found = sum(node.labels for node in nodes.values())
    return figure("TypeNames", found, len(nodes) - 1)


def _steps(nodes: dict[int, Node], place: int, known: dict[int, int]) -> int:
    """The steps of a walk to the leaves of an object: one, and the steps for all parts inside it."""
    node = nodes[place]
    if node.size == 0 or node.kind not in _AGGREGATES:
        return 1
    if place not in known:
        inside = sum(_steps(nodes, to, known) for sort, to in node.parts if sort in _INSIDE)
        known[place] = inside * (node.count if node.kind == "array" else 1) + 1
    return known[place]


def walk_steps(nodes: dict[int, Node]) -> Figure:
    """The steps of walks to the leaves of what functions pass, counted anew for each function."""
    most = constant("psabi/src/sizes.rt", "OBJECT_LIMIT")
    known: dict[int, int] = {}
    found = 0
    for node in nodes.values():
        passed = [to for sort, to in node.parts if sort in ("result", "param")]
        found += sum(_steps(nodes, to, known) for to in passed if nodes[to].size <= most and nodes[to].kind in _AGGREGATES)
    return figure("Leaves", found, len(nodes))

"""How deeply types hold each other by value, how much each type weighs, and how long chains of origins are."""

from __future__ import annotations

from typing import Optional

from .entries import AGGREGATES, Entries, Entry
from .figures import Figure, constant
from .graphs import Node

Place = Optional[int]


class Held:
    """The depth and the weight of types, each computed once."""

    def __init__(self, nodes: dict[int, Node], types: dict[int, Entry]) -> None:
        self._nodes = nodes
        self._types = types
        self._known: dict[int, tuple[int, int]] = {}

    def _steps(self, place: int) -> list[Place]:
        """The types that a type holds by value; for a function those of its result and parameters."""
        entry = self._types.get(place)
        if entry is None:
            node = self._nodes.get(place)
            return [to for sort, to in node.parts if sort in ("result", "param")] if node else []
        if entry.tag in AGGREGATES:
            return [self._types[member].type for member in entry.members]
        return [entry.type]

    def facts(self, place: Place) -> tuple[int, int]:
        """The depth of a type (how many steps by value lead on from it), and its weight: one more than the weights of what it holds, or 1
        for a function."""
        if not place:
            return 0, 1
        if place not in self._known:
            held = [self.facts(to) for to in self._steps(place)]
            depth = max((depth + 1 for depth, _ in held), default=0)
            is_function = place not in self._types
            self._known[place] = depth, 1 if is_function else 1 + sum(weight for _, weight in held)
        return self._known[place]


def longest_chain(entries: Entries) -> Figure:
    """The most links from an entry to those that it completes."""
    most = 0
    for place in entries.origins:
        links = 0
        origin: Place = place
        while origin in entries.origins:
            origin, links = entries.origins[origin], links + 1
        most = max(most, links)
    return Figure(most, constant("dwarf_entries/src/constants.rt", "CHAIN_LINKS"))


def deepest(nodes: dict[int, Node], entries: Entries) -> Figure:
    """The most steps by value that lead on from a type."""
    held = Held(nodes, entries.types)
    return Figure(max(held.facts(place)[0] for place in nodes), constant("type_reach/src/constants.rt", "DEPTH_LIMIT"))


def heaviest(nodes: dict[int, Node], entries: Entries) -> Figure:
    """The greatest weight of a type."""
    held = Held(nodes, entries.types)
    return Figure(max(held.facts(place)[1] for place in nodes), constant("type_graph/src/limits.rt", "WEIGHT_LIMIT"))

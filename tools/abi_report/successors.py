"""The likely successors of a symbol that is gone."""

from __future__ import annotations

from difflib import get_close_matches
from typing import Iterable

# How many names are shown, and how similar they must be (1 is equal).
_MOST = 3
_NEAR = 0.7
# Up to this many pairs of names are compared by letters. With more pairs, only a name that begins or ends with the other one counts.
_MOST_COMPARED = 400_000
_LEAST_COMMON = 4


class Successors:
    """Finds successors among the exports of the new library."""

    def __init__(self, old: Iterable[str], new: Iterable[str], gone: int) -> None:
        """Takes the labels of both libraries, and how many exports are gone."""
        self._by_name: dict[str, list[str]] = {}
        for label in new:
            self._by_name.setdefault(base(label), []).append(label)
        before = {base(label) for label in old}
        self._added = sorted(name for name in self._by_name if name not in before)
        self._compares = gone * len(self._added) <= _MOST_COMPARED

    def of(self, label: str) -> list[str]:
        """The likely successors: the same name in another version, or else added names that are similar."""
        name = base(label)
        if name in self._by_name:
            return self._by_name[name][:_MOST]
        near = [one for one in self._added if _extends(one, name)]
        names = sorted(near, key=len)[:_MOST]
        if self._compares:
            names += get_close_matches(name, self._added, _MOST, _NEAR)
        return [label for one in dict.fromkeys(names) for label in self._by_name[one]][:_MOST]


def base(label: str) -> str:
    """The name of an export without its version."""
    return label.split("@", 1)[0]


def _extends(one: str, other: str) -> bool:
    """Whether one of two names begins or ends with the other."""
    shorter, longer = sorted((one, other), key=len)
    return len(shorter) >= _LEAST_COMMON and (longer.startswith(shorter) or longer.endswith(shorter))

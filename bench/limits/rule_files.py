"""The weight of the patterns of a rule file."""

from __future__ import annotations

import re
from pathlib import Path

from .figures import Figure, constant, figure

_WEIGHT = "suppressions/src/weight.rt"
_PATTERN = re.compile(r"^\s*\w*regexp\s*=\s*(.*?)\s*$", re.MULTILINE)
_CLASS = re.compile(r"\\(.)", re.DOTALL)


def weight(rules: Path) -> Figure:
    """The weight of the patterns of a rule file: a weight for each pattern, 1 for each of its bytes, and a weight for each class."""
    each, class_weight = constant(_WEIGHT, "PATTERN_WEIGHT"), constant(_WEIGHT, "CLASS_WEIGHT")
    found = 0
    for pattern in _PATTERN.findall(rules.read_text()):
        classes = sum(1 for letter in _CLASS.findall(pattern) if letter.isascii() and letter.isalpha())
        found += each + len(pattern.encode()) + class_weight * classes
    return figure("Patterns", found, 0)

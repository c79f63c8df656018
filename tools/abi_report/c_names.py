"""Types as C writes them."""

from __future__ import annotations

from typing import Optional

from abi_report.entries import Entries, Entry

_TAGGED = {"structure_type": "struct", "union_type": "union", "enumeration_type": "enum"}
_QUALIFIERS = {"const_type": "const", "volatile_type": "volatile", "restrict_type": "restrict", "atomic_type": "_Atomic"}
_FUNCTIONS = ("subroutine_type", "subprogram")
# Types are written to this depth; deeper parts are left out.
_DEEPEST = 24
_LEFT_OUT = "..."


class Names:
    """Writes the types of a library as C does."""

    def __init__(self, entries: Entries) -> None:
        self._entries = entries
        self._typedefs: dict[int, dict[int, str]] = {}

    def of(self, offset: Optional[int], inner: str = "") -> str:
        """A declaration of `inner` with the type whose entry is at the offset; None stands for void."""
        return self._declared(offset, inner, _DEEPEST)

    def prototype(self, function: Entry) -> str:
        """A function as a header declares it."""
        return self._declared(function.offset, function.name or "", _DEEPEST)

    def signature(self, function: Entry) -> str:
        """The type of a function, without names of its own: that of its result, and those of its parameters."""
        kinds = [self.of(one.kind) if one.tag == "formal_parameter" else "..." for one in self._entries.children(function)
                 if one.tag in ("formal_parameter", "unspecified_parameters")]
        return f"{self.of(function.kind)}({', '.join(kinds)})"

    def _declared(self, offset: Optional[int], inner: str, depth: int) -> str:
        if offset is None:
            return _joined("void", inner)
        entry = self._entries.at(offset)
        if entry is None or depth == 0:
            return _joined(_LEFT_OUT, inner)
        if entry.tag == "pointer_type":
            return self._pointer(entry, inner, depth - 1)
        if entry.tag in _QUALIFIERS:
            return self._qualified(entry, inner, depth - 1)
        if entry.tag == "array_type":
            return self._declared(entry.kind, inner + self._counts(entry), depth - 1)
        if entry.tag in _FUNCTIONS:
            return self._declared(entry.kind, f"{inner}({self._parameters(entry, depth - 1)})", depth - 1)
        return _joined(self.plain(entry), inner)

    def plain(self, entry: Entry) -> str:
        """A type with a name of its own: a keyword and a tag, or one word. A type without a tag gets the name of a typedef of it."""
        keyword = _TAGGED.get(entry.tag)
        if keyword is None:
            return entry.name or _LEFT_OUT
        if entry.name is not None:
            return f"{keyword} {entry.name}"
        return self.typedef_of(entry) or f"{keyword} without a tag"

    def typedef_of(self, entry: Entry) -> Optional[str]:
        """The name of the first typedef in the unit that names exactly this entry."""
        start = entry.unit.start
        if start not in self._typedefs:
            root = self._entries.root(entry.unit)
            found: dict[int, str] = {}
            for one in self._entries.children(root) if root is not None else ():
                if one.tag == "typedef" and one.kind is not None and one.name is not None:
                    found.setdefault(one.kind, one.name)
            self._typedefs[start] = found
        return self._typedefs[start].get(entry.offset)

    def _pointer(self, entry: Entry, inner: str, depth: int) -> str:
        target = self._entries.at(entry.kind)
        while target is not None and target.tag in _QUALIFIERS:
            target = self._entries.at(target.kind)
        is_bracketed = target is not None and (target.tag == "array_type" or target.tag in _FUNCTIONS)
        return self._declared(entry.kind, f"(*{inner})" if is_bracketed else f"*{inner}", depth)

    def _qualified(self, entry: Entry, inner: str, depth: int) -> str:
        word = _QUALIFIERS[entry.tag]
        target = self._entries.at(entry.kind)
        if target is not None and target.tag == "pointer_type":
            return self._declared(entry.kind, _joined(word, inner), depth)
        return f"{word} {self._declared(entry.kind, inner, depth)}"

    def _counts(self, array: Entry) -> str:
        counts = [count_of(one) for one in self._entries.children(array) if one.tag == "subrange_type"]
        return "".join("[]" if count is None else f"[{count}]" for count in counts) or "[]"

    def _parameters(self, function: Entry, depth: int) -> str:
        words = []
        for one in self._entries.children(function):
            if one.tag == "formal_parameter":
                words.append(self._declared(one.kind, one.name or "", depth))
            elif one.tag == "unspecified_parameters":
                words.append("...")
        return ", ".join(words) or ("void" if "prototyped" in function.values else "")


def count_of(subrange: Entry) -> Optional[int]:
    """How many elements a dimension of an array has, if that is known."""
    count = subrange.number("count")
    if count is not None:
        return count
    bound = subrange.number("upper_bound")
    return None if bound is None else bound + 1


def _joined(word: str, inner: str) -> str:
    return f"{word} {inner}" if inner else word

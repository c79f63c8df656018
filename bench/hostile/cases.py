"""A generated case: the bytes of its files, and the command to measure on them."""

from collections.abc import Callable
from dataclasses import dataclass, field


@dataclass(frozen=True)
class Case:
    """Files by name, the words of the command to measure, and those of a command that runs before it and writes the file `made`. The
    command prints notes if they are wanted."""

    files: dict[str, bytes]
    words: list[str]
    before: list[str] = field(default_factory=list)
    with_notes: bool = False

    def size(self) -> int:
        return sum(len(contents) for contents in self.files.values())


@dataclass(frozen=True)
class Kind:
    """A kind of cases, which come in any size. Two sizes are measured, the second twice the first."""

    name: str
    what: str
    make: Callable[[int], Case]
    first: int


def listed(contents: bytes) -> Case:
    """`abi exports` of a library."""
    return Case({"old": contents}, ["exports", "old"])


def against_itself(contents: bytes) -> Case:
    """`abi check` of a library against itself."""
    return Case({"old": contents}, ["check", "old", "old"])


def against(old: bytes, new: bytes) -> Case:
    """`abi check` of two libraries."""
    return Case({"old": old, "new": new}, ["check", "old", "new"])


def noted(old: bytes, new: bytes) -> Case:
    """`abi check` of two libraries, with notes."""
    return Case({"old": old, "new": new}, ["check", "old", "new"], with_notes=True)


def applied(app: bytes, library: bytes) -> Case:
    """`abi app` of an application, and a library that replaces itself."""
    return Case({"app": app, "old": library}, ["app", "app", "old", "old"])


def ruled(contents: bytes, rules: str) -> Case:
    """`abi check` of a library against itself with a rule file."""
    return Case({"old": contents, "rules": rules.encode()}, ["check", "--rules", "rules", "old", "old"])

"""Cases: a run of the program over files, and the answer that it must give."""

import hashlib
from collections.abc import Iterator, Mapping
from dataclasses import dataclass, field

YES, NO, UNREADABLE, READ_FAULT, REFUSED, WRITE_FAULT, USAGE = 0, 1, 2, 3, 5, 6, 64

# The digest of no rule file.
NO_RULES = "e3b0c44298fc1c149afbf4c8996fb92427ae41e4649b934ca495991b7852b855"


@dataclass(frozen=True)
class Filled:
    """A file of equal bytes."""

    length: int
    value: int


@dataclass(frozen=True)
class Case:
    """The program, given the words, in a folder with the files, must end with the status and print the text (None: any one), and not
    the text `unlike`. The settings, which tests/c/faulty.c reads, make calls fail. Before it, the program makes the files of `before`:
    for each name its words, with which the program must say yes."""

    test: str
    row: str
    words: list[str]
    files: Mapping[str, bytes | Filled]
    status: int | None
    text: str | None
    settings: dict[str, str] = field(default_factory=dict)
    unlike: str | None = None
    before: dict[str, list[str]] = field(default_factory=dict)


def rows(text: str) -> Iterator[str]:
    """The lines of a table, without its empty lines and its remarks, which begin with `#`."""
    return (line for line in text.split("\n") if line and not line.startswith("#"))


def lines(cell: str, end: str = ";") -> str:
    """The lines that a cell separates by semicolons, each ended."""
    return "".join(line + "\n" for line in cell.split(end) if line)


def digest(data: bytes) -> str:
    return hashlib.sha256(data).hexdigest()


def certificate(old: bytes, new: bytes, cell: str, rules: bytes = b"") -> str:
    """The certificate of two libraries and a rule file with these lines after the digests, separated by semicolons."""
    return f"yes 2\nold {digest(old)}\nnew {digest(new)}\nrules {digest(rules)}\n" + lines(cell)


def check(test: str, row: str, old: bytes, new: bytes, status: int | None, text: str | None) -> Case:
    """The check of two libraries."""
    return Case(test, row, ["check", "old", "new"], {"old": old, "new": new}, status, text)


def is_yes(test: str, row: str, old: bytes, new: bytes, cell: str) -> Case:
    """The check of two libraries must print the certificate with these lines."""
    return check(test, row, old, new, YES, certificate(old, new, cell))


def breaks(test: str, row: str, old: bytes, new: bytes, cell: str) -> Case:
    """The check of two libraries must say no with these rows."""
    return check(test, row, old, new, NO, "no\n" + lines(cell))


def names_fault(test: str, row: str, old: bytes, new: bytes, fault: str) -> Case:
    """The check of two libraries must name the fault, which begins with the side."""
    return check(test, row, old, new, UNREADABLE, f"unreadable {fault}\n")


def refuses(test: str, row: str, bad: bytes, good: bytes, fault: str) -> Iterator[Case]:
    """The check must name the fault of a library, both as the old one and as the new one."""
    yield names_fault(test, row, bad, good, f"old {fault}")
    yield names_fault(test, row, good, bad, f"new {fault}")

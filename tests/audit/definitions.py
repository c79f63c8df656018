"""The definitions of crates/*/specs: which stand in a file, and which names of other files each of them uses."""

from __future__ import annotations

import re
from dataclasses import dataclass, field
from functools import cache
from pathlib import Path
from typing import Iterator, Optional

ROOT = Path(__file__).resolve().parents[2]
CRATES = tuple(re.findall(r"^(\w+):", (ROOT / "crates.txt").read_text(encoding="utf-8"), re.MULTILINE))

_HEAD = re.compile(r"^(?:(?:abbrev|unfoldable) pub|pub (?:record|data)) +([^\s:(]+)")
_CONSTRUCTOR = re.compile(r"^  (\w[\w']*) :", re.MULTILINE)
_USE = re.compile(r"^(?:ghost )?use ([\w.]+?)(?:\.\{([^}]*)\}| as (\w+));?$", re.MULTILINE)
_WORD = re.compile(r"[A-Za-z_][\w']*")


@dataclass(frozen=True, order=True)
class Named:
    """A name of a module, such as `IsClosed` of `Rattle.pair_rules.specs.Closed`. An alias of a module has no name of its own."""

    module: str
    name: str


@dataclass(frozen=True)
class Definition:
    """A definition: its name, its text with the comment before it, and how many lines these are."""

    name: str
    text: str
    lines: int


@dataclass
class Module:
    """A file of specs/: its definitions, each under its name and those of its constructors, and the names that it imports."""

    path: Path
    definitions: dict[str, Definition] = field(default_factory=dict)
    imports: dict[str, Named] = field(default_factory=dict)


def imports_of(text: str) -> dict[str, Named]:
    """The names that the `use` lines of a text bring in, also those behind `as`."""
    found = dict[str, Named]()
    for module, names, alias in _USE.findall(text):
        for name, renamed in re.findall(r"([^\s,]+)(?: as ([^\s,]+))?", names):
            found[renamed or name] = Named(module, name)
        if alias:
            found[alias] = Named(module, "")
    return found


def _blocks(text: str) -> Iterator[list[str]]:
    """The definitions of a text as lists of lines, each with the comment before it."""
    block, comment = list[str](), list[str]()
    for line in text.splitlines():
        if line.startswith("--"):
            comment.append(line)
        elif _HEAD.match(line):
            if block:
                yield block
            block, comment = [*comment, line], []
        elif not line.strip() or line.startswith("use "):
            comment = []
        elif block:
            block, comment = [*block, *comment, line], []
    if block:
        yield block


def path_of(module: str) -> Optional[Path]:
    """The file of a module of this repository; None for one of the kit, and for the types that code declares."""
    parts = module.split(".")
    if len(parts) < 4 or parts[1] not in CRATES or parts[2] != "specs" or parts[3] in ("contracts", "declared"):
        return None
    return ROOT / "crates" / parts[1] / "specs" / Path(*parts[3:]).with_suffix(".antt")


@cache
def read_module(path: Path) -> Module:
    """Reads a file of specs/."""
    text = path.read_text(encoding="utf-8")
    module = Module(path, imports=imports_of(text))
    for lines in _blocks(text):
        head = next(line for line in lines if _HEAD.match(line))
        matched = _HEAD.match(head)
        assert matched
        made = Definition(matched[1], "\n".join(lines), len(lines))
        module.definitions[made.name] = made
        if head.startswith("pub data"):
            module.definitions.update(dict.fromkeys(_CONSTRUCTOR.findall(made.text), made))
    return module


def is_used(name: str, words: frozenset[str], text: str) -> bool:
    """Whether a text, which has these words, uses a name. An operator is named by its signs between circles, which stand for operands."""
    signs = [part for part in name.split("◌") if part]
    return name in words if "◌" not in name else all(sign in text for sign in signs)


def named_by(name: str, target: Named, text: str) -> Iterator[Named]:
    """What an imported name stands for in a text: of the alias of a file of specs/, the names behind its dot; else the name itself."""
    if target.name or path_of(target.module) is None:
        yield target
    else:
        for behind in sorted(set(re.findall(rf"\b{re.escape(name)}\.([A-Za-z_][\w']*)", text))):
            yield Named(target.module, behind)


def used_by(text: str, module: Module) -> Iterator[Named]:
    """The names of a module, its own and those that it imports, that a text uses."""
    code = re.sub(r"--[^\n]*", "", text)
    words = frozenset(_WORD.findall(code))
    here = ".".join(("Rattle", module.path.relative_to(ROOT / "crates").parts[0], "specs",
                     *module.path.with_suffix("").parts[len(ROOT.parts) + 3:]))
    for name in module.definitions:
        if is_used(name, words, code):
            yield Named(here, name)
    for name, target in module.imports.items():
        if is_used(name, words, code):
            yield from named_by(name, target, code)

"""What the clauses of `run` reach: the definitions of specs/, the types that code declares, and what the kit defines."""

from __future__ import annotations

import re
from collections import defaultdict
from dataclasses import dataclass, field
from functools import cache
from pathlib import Path
from typing import Iterator

from .definitions import CRATES, ROOT, Definition, Named, imports_of, is_used, named_by, path_of, read_module, used_by

TOP = ROOT / "crates" / "abi_top" / "src" / "top.rt"


@dataclass
class Reached:
    """What is reached, in the order in which it was found: definitions by file, declared types by file, and modules of the kit."""

    definitions: dict[Path, list[Definition]] = field(default_factory=lambda: defaultdict(list))
    types: dict[Path, list[str]] = field(default_factory=lambda: defaultdict(list))
    kit: set[str] = field(default_factory=set)


def contract_of(text: str, function: str) -> str:
    """The signature and the clauses of a public function."""
    start = re.search(rf"^pub fn {function}\b", text, re.MULTILINE)
    assert start, f"there is no function {function}"
    return text[start.start() : text.index("\n{", start.start())]


def code_uses(text: str) -> Iterator[tuple[str, str]]:
    """The names that the `use` lines of code bring in, each with its path."""
    for path, names in re.findall(r"^use ([\w:]+?)::(\{[^}]*\}|\w+);", text, re.MULTILINE):
        for name in re.findall(r"\w+", names):
            yield name, path


@cache
def declaring(crate: str) -> dict[str, Path]:
    """The file in which a crate declares each of its types and traits."""
    found = dict[str, Path]()
    for source in sorted((ROOT / "crates" / crate / "src").rglob("*.rt")):
        for name in re.findall(r"^pub (?:struct|enum|trait) (\w+)", source.read_text(encoding="utf-8"), re.MULTILINE):
            found.setdefault(name, source)
    return found


def declaration_of(name: str, text: str) -> str:
    """The declaration of a type or a trait, without its comments."""
    matched = re.search(rf"^pub (?:struct|enum|trait) {name}\b.*?(?:;\n|\n\}}|\{{\}}\n)", text, re.MULTILINE | re.DOTALL)
    return re.sub(r"//[^\n]*", "", matched[0]) if matched else ""


def types_in(text: str, source: Path, uses: str) -> Iterator[tuple[Path, str]]:
    """The types of this repository that a text of a file names, with the files that declare them. `uses` has the file's `use` lines."""
    own = source.relative_to(ROOT / "crates").parts[0]
    paths = dict(code_uses(uses))
    for word in sorted(set(re.findall(r"\b[A-Z]\w*", text))):
        crate = paths.get(word, own).split("::")[0]
        crate = own if crate in ("crate", "super", "self") else crate
        if crate in CRATES and word in declaring(crate):
            yield declaring(crate)[word], word


class Walk:
    """A walk from the clauses of `run` over all that they reach."""

    def __init__(self) -> None:
        self.reached = Reached()
        self.seen = set[Named | tuple[Path, str]]()
        self.open = list[Named | tuple[Path, str]]()

    def meet(self, found: Named | tuple[Path, str]) -> None:
        """Enters what was not seen before."""
        if found not in self.seen:
            self.seen.add(found)
            self.open.append(found)

    def visit(self, found: Named | tuple[Path, str]) -> None:
        """Visits a definition, a declared type, or a module of the kit."""
        if isinstance(found, tuple):
            self.visit_type(*found)
        elif (path := path_of(found.module)) is not None:
            self.visit_definition(path, found.name)
        elif found.module.split(".")[1] in CRATES:
            self.visit_declared(found)
        else:
            self.reached.kit.add(found.module.removesuffix(".TheVariants"))

    def visit_declared(self, found: Named) -> None:
        """Meets a type that code declares, under the name that definitions give it. What they cite of its derived equality is no type."""
        module = found.module.removesuffix(".TheVariants").split(".")
        crate, name = module[1], module[-1]
        if name in declaring(crate):
            self.meet((declaring(crate)[name], name))

    def visit_type(self, source: Path, name: str) -> None:
        """Visits the declaration of a type or a trait in code, and meets the types that it holds, or what the contracts of the trait use."""
        text = source.read_text(encoding="utf-8")
        declared = declaration_of(name, text)
        self.reached.types[source].append(name)
        if declared.startswith("pub trait"):
            self.follow_ghosts(declared, text)
        else:
            for found in types_in(declared, source, text):
                self.meet(found)

    def visit_definition(self, path: Path, name: str) -> None:
        """Visits a definition of specs/."""
        module = read_module(path)
        made = module.definitions.get(name)
        if made is None:
            raise KeyError(f"{path} has no {name}")
        if made not in self.reached.definitions[path]:
            self.reached.definitions[path].append(made)
            for used in used_by(made.text, module):
                self.meet(used)

    def follow_ghosts(self, text: str, source: str) -> None:
        """Meets the definitions that a text of code uses by the `ghost use` lines of its source."""
        words = frozenset(re.findall(r"\w+", text))
        for name, target in imports_of(source).items():
            if is_used(name, words, text):
                for named in named_by(name, target, text):
                    self.meet(named)

    def run(self) -> Reached:
        """Walks to the end."""
        text = TOP.read_text(encoding="utf-8")
        contract = re.sub(r"//[^\n]*", "", contract_of(text, "run"))
        self.follow_ghosts(contract, text)
        for found in types_in(contract, TOP, text):
            self.meet(found)
        while self.open:
            self.visit(self.open.pop(0))
        return self.reached

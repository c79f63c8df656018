"""Whom a break hits: the old packages that depend on a broken library, and those whose programs import a broken export."""

from __future__ import annotations

from dataclasses import dataclass, field
from typing import Iterable, Iterator, Mapping, Optional

from abi_release.apps import Ask, answer_of
from abi_release.judging import GONE
from abi_release.needs import ANY_LIBRARY, Imports
from abi_release.sources import MOVED, Work
from abi_release.stored_files import Json, Store
from abi_tools.verdicts import Verdict

BROKEN = (Verdict.NO.words(), GONE)
# How many of the broken exports that a package imports are named.
_MOST_NAMED = 20


@dataclass
class _Broken:
    """A broken library: the name and identity of its record, its old package, its name there and its soname, and its broken exports (None
    if the library is gone)."""

    work: str
    identity: list[str]
    package: str
    library: str
    soname: str
    exports: Optional[frozenset[str]]
    hit: list[Json] = field(default_factory=list)

    def imported(self, imports: Imports) -> Optional[list[str]]:
        """The broken exports among these imports; None if the library is not needed."""
        if self.soname not in imports:
            return None
        if self.exports is None:
            return []
        with_version, plain = set(imports[self.soname]), set(imports.get(ANY_LIBRARY, ()))
        return sorted(label for label in self.exports
                      if label.replace("@@", "@") in with_version or label.partition("@")[0] in plain)


class Hits:
    """The broken libraries of a run, and the packages that each hits: as `abi app` says if the store has its answer, else by names."""

    def __init__(self, store: Store) -> None:
        self._store = store
        self._asks: dict[tuple[str, str], set[str]] = {}
        self._by_package: dict[str, list[_Broken]] = {}
        self._by_library: dict[str, list[_Broken]] = {}

    def take_breaks(self, record: Json, lines: Iterable[Json]) -> None:
        """Takes the broken libraries of two packages."""
        package = record["name"].partition(MOVED)[0]
        for line in lines:
            if line["answer"] in BROKEN:
                exports = frozenset(line["broken"]) if "broken" in line else None
                broken = _Broken(record["name"], record["identity"], package, line["library"], line["soname"], exports)
                self._by_package.setdefault(package, []).append(broken)
                self._by_library.setdefault(broken.soname, []).append(broken)

    def take_needs(self, record: Json) -> None:
        """Takes what an old package needs of the broken libraries."""
        name, (old, new) = record["name"], record["versions"]
        depends = {package for package in record["depends"] if package in self._by_package} - {name}
        for broken in self._needed(record["imports"], depends):
            if broken.package == name:
                continue
            exports = broken.imported(record["imports"])
            app = None
            if exports is not None and broken.exports is not None:
                self._asks.setdefault((broken.work, name), set()).add(broken.library)
                app = answer_of(self._store, record, broken.work, broken.identity, broken.library)
            is_hit = app["answer"] != Verdict.YES.words() if app else exports or (exports == [] and broken.exports is None)
            if broken.package in depends or is_hit:
                hit = {"package": name, "depends": broken.package in depends, "exports": (exports or [])[:_MOST_NAMED],
                       "imports": len(exports or []), "rebuilt": old != new}
                broken.hit.append({**hit, "app": app} if app else hit)

    def _needed(self, imports: Imports, depends: Iterable[str]) -> Iterator[_Broken]:
        """The broken libraries that a package may need, each once."""
        found = [broken for package in sorted(depends) for broken in self._by_package[package]]
        found += [broken for soname in imports for broken in self._by_library.get(soname, ())]
        return iter({id(broken): broken for broken in found}.values())

    def asks(self, works: Mapping[str, Work]) -> list[Ask]:
        """The tasks for `abi app`: one for each old package and each record with broken libraries that it needs, sorted by record."""
        return [Ask(works[hit], works[work], tuple(sorted(libraries))) for (work, hit), libraries in sorted(self._asks.items())]

    def of(self, package: str, library: str) -> list[Json]:
        """The packages that the breaks of a library hit."""
        return [one for broken in self._by_package.get(package, ()) if broken.library == library for one in broken.hit]

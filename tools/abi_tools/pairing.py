"""Which library of the new packages replaces which one of the old packages: docs/PACKAGES.md has the rules and a table of cases."""

from __future__ import annotations

import re
from collections import Counter
from dataclasses import dataclass, field, replace
from itertools import product
from typing import Callable, Hashable, Iterator, Optional, Sequence

from abi_tools.found_libraries import PackagedLibrary, Unreadable
from abi_tools.library_names import LibraryNames, Place
from abi_tools.shown import name_shown

# A package that has more libraries of one soname in such folders is no usual one.
_MOST_PAIRS = 64
_DIGITS = re.compile(r"[0-9]+")


@dataclass(frozen=True)
class Pair:
    """A library of the old packages and the one of the new packages that replaces it. `new` is None if the library is gone, and `old` is
    None if it is new. The name is the soname or, if several pairs have it, the folder and the soname. `trouble` says why nothing can be
    told, `folders` names both folders if they differ, and `doubt` says why the pair is no yes even if `abi` says yes."""

    name: str
    old: Optional[PackagedLibrary]
    new: Optional[PackagedLibrary]
    trouble: str = ""
    folders: str = ""
    doubt: str = ""
    soname: str = ""


def _stem(name: str) -> str:
    """A file name without the numbers of its version."""
    return _DIGITS.sub("", name)


@dataclass
class _Sides:
    """The libraries of one soname, by which names they are found, how they are paired so far, and why nothing can be told of any of
    them. A library is left as long as it is in no pair."""

    old: list[PackagedLibrary]
    new: list[PackagedLibrary]
    old_names: LibraryNames
    new_names: LibraryNames
    pairs: list[Pair] = field(default_factory=list)
    trouble: str = ""

    def pair(self, old: PackagedLibrary, new: PackagedLibrary) -> None:
        """Pairs two libraries, unless they are a pair."""
        if not any(pair.old is old and pair.new is new for pair in self.pairs):
            self.pairs.append(Pair("", old, new, old.trouble or new.trouble, _folders(old, new)))

    def is_done(self) -> bool:
        """Whether no further pair is possible: each side has one library and they are a pair, or one side has none."""
        return len(self.pairs) == len(self.old) * len(self.new) <= 1

    def left(self) -> tuple[list[PackagedLibrary], list[PackagedLibrary]]:
        """The libraries of both sides that are in no pair. An old one also counts as left if each new one is for better processors."""
        old = {pair.old for pair in self.pairs
               if pair.old and pair.new and _level(self.new_names, pair.new) <= _level(self.old_names, pair.old)}
        new = {pair.new for pair in self.pairs}
        return [one for one in self.old if one not in old], [one for one in self.new if one not in new]

    def pair_by(self, key: Callable[[PackagedLibrary], Hashable]) -> None:
        """Pairs those that are left and are the only ones of their sides with a key."""
        olds, news = (_by_key(side, key) for side in self.left())
        for one in olds:
            if len(olds[one]) == len(news.get(one, ())) == 1:
                self.pair(olds[one][0], news[one][0])

    def open_places(self) -> tuple[dict[PackagedLibrary, list[Place]], dict[PackagedLibrary, list[Place]]]:
        """The places of the libraries that are left, and of the names by which the loader opens others and that lead to no library of
        the soname on the other side."""
        old, new = self.left()
        return _open_places(self.old, old, self.old_names, self.new_names), _open_places(self.new, new, self.new_names, self.old_names)

    def pair_levels(self) -> None:
        """Pairs the libraries that the loader takes on a processor of each level, where one side has no library of this level."""
        places = {place for side in self.open_places() for found in side.values() for place in found if place.level}
        for place in sorted(places, key=lambda one: (one.folder, one.level)):
            old, new = _taken(self.old_names, self.old, place), _taken(self.new_names, self.new, place)
            if len(old) == 1 and len(new) == 1:
                self.pair(old[0], new[0])

    def pair_searched(self) -> None:
        """Pairs each library in such a place in a folder that a loader searches with each one of the other side in such folders."""
        open_old, open_new = ([one for one, places in side.items() if any(map(_is_found, places))] for side in self.open_places())
        old, new = _found(self.old_names, self.old), _found(self.new_names, self.new)
        if len(open_old) * len(new) + len(old) * len(open_new) > _MOST_PAIRS:
            self.trouble = f"more than {_MOST_PAIRS} pairs of libraries have this soname in folders that the loader searches"
            return
        for one, other in dict.fromkeys((*product(open_old, new), *product(old, open_new))):
            self.pair(one, other)

    def all_pairs(self) -> Iterator[Pair]:
        """The pairs, with what makes each of them no yes, and a pair of its own for each library that is left."""
        partners: dict[Optional[PackagedLibrary], list[PackagedLibrary]] = {}
        for pair in self.pairs:
            if pair.new is not None:
                partners.setdefault(pair.old, []).append(pair.new)
        doubts = {old: self._doubt(old, news) for old, news in partners.items() if old is not None}
        paired = (replace(pair, doubt=doubts[pair.old] if pair.old is not None else "") for pair in self.pairs)
        yield from (replace(pair, trouble=self.trouble or self._doubled(pair) or pair.trouble) for pair in (*paired, *_rest(self)))

    def _doubled(self, pair: Pair) -> str:
        """Why nothing can be told of a library if another file has its name on a merged system; empty if none has."""
        found = pair.old if pair.old in self.old_names.doubled else pair.new if pair.new in self.new_names.doubled else None
        return "" if found is None else f"on a merged system another file of the packages has the name of {name_shown(found.name)}"

    def _doubt(self, old: PackagedLibrary, news: Sequence[PackagedLibrary]) -> str:
        """Why a program that found the old library may find none of those that it is compared with; empty if it does."""
        searched = [one for one in self.old_names.places(old) if one.may_be_searched]
        places = {place for new in news for place in self.new_names.places(new)}
        if searched and not any(one.is_searched or one in searched for one in places):
            return (f"it moved from {name_shown(searched[0].folder)}, which the loader searches, to {name_shown(news[0].folder)}, which it "
                    "searches only if it is told to")
        folders = {Place.of(new.folder) for new in news}
        for name in self.old_names.loaded_names(old):
            if _leads(self.new_names, name, old.soname):
                continue
            place = Place.of(name.rpartition("/")[0])
            if self.new_names.has(name) or not place.may_be_searched and place in folders:
                return f"in the new packages {name_shown(name)}, by which programs find it, leads to no library of its soname"
        return ""


def _by_key(side: Sequence[PackagedLibrary], key: Callable[[PackagedLibrary], Hashable]) -> dict[Hashable, list[PackagedLibrary]]:
    found: dict[Hashable, list[PackagedLibrary]] = {}
    for one in side:
        found.setdefault(key(one), []).append(one)
    return found


def _level(names: LibraryNames, library: PackagedLibrary) -> int:
    """The least level of processors at which a loader finds a library."""
    places = list(names.places(library))
    return min(one.level for one in [place for place in places if place.may_be_searched] or places[:1])


def _is_found(place: Place) -> bool:
    """Whether some loader finds a library in a place on each processor without being told where."""
    return place.may_be_searched and not place.level


def _found(names: LibraryNames, side: Sequence[PackagedLibrary]) -> list[PackagedLibrary]:
    """The libraries that some loader finds on each processor without being told where."""
    return [one for one in side if any(map(_is_found, names.places(one)))]


def _open_places(side: Sequence[PackagedLibrary], left: Sequence[PackagedLibrary], names: LibraryNames,
                 others: LibraryNames) -> dict[PackagedLibrary, list[Place]]:
    """The places of libraries that nothing of the other side answers to yet."""
    found: dict[PackagedLibrary, list[Place]] = {}
    for one in side:
        if one in left:
            found[one] = list(names.places(one))
        else:
            found[one] = [Place.of(name.rpartition("/")[0]) for name in names.loaded_names(one) if not _leads(others, name, one.soname)]
    return found


def _leads(names: LibraryNames, name: str, soname: str) -> bool:
    """Whether a name leads to a library of a soname."""
    library = names.library(name)
    return library is not None and library.soname == soname


def _taken(names: LibraryNames, side: Sequence[PackagedLibrary], place: Place) -> list[PackagedLibrary]:
    """The libraries of the highest level in a folder that is not above the level of a place."""
    for level in range(place.level, -1, -1):
        found = [one for one in side if Place(place.folder, level) in names.places(one)]
        if found:
            return found
    return []


def _folders(old: PackagedLibrary, new: PackagedLibrary) -> str:
    """Both folders, if they differ in more than the level, or in more than that `/lib` became `/usr/lib`."""
    if Place.of(old.folder).folder == Place.of(new.folder).folder:
        return ""
    return f"old in {name_shown(old.folder)}, new in {name_shown(new.folder)}"


def pairs_of(old: LibraryNames, new: LibraryNames) -> list[Pair]:
    """The pairs of the libraries of both sides, sorted by name."""
    by_soname = {library.soname: _Sides([], [], old, new) for library in (*old.libraries, *new.libraries)}
    for one in old.libraries:
        by_soname[one.soname].old.append(one)
    for one in new.libraries:
        by_soname[one.soname].new.append(one)
    for one, other in dict.fromkeys(_of_one_name(old, new)):
        by_soname[one.soname].pair(one, other)
    found = []
    for soname, sides in sorted(by_soname.items()):
        _pair(sides)
        found += [replace(pair, soname=soname) for pair in sides.all_pairs()]
    return sorted(_named(found), key=lambda pair: pair.name)


def _of_one_name(old: LibraryNames, new: LibraryNames) -> Iterator[tuple[PackagedLibrary, PackagedLibrary]]:
    """The libraries of one soname that one name leads to on both sides. Programs that use this name get the new one for the old one."""
    for name in sorted({*old.names, *new.names}):
        one, other = old.library(name), new.library(name)
        if one is not None and other is not None and one.soname == other.soname:
            yield one, other


def _pair(sides: _Sides) -> None:
    """Pairs the libraries of one soname that no name leads to on both sides: by folder and file name without numbers, and by folder; then
    what the loader finds in folders that it searches; then what moved, by file name and, if one library is left on each side, by
    soname."""
    if sides.is_done():
        return
    sides.pair_by(lambda one: (Place.of(one.folder), _stem(one.file_name)))
    sides.pair_by(lambda one: Place.of(one.folder))
    sides.pair_levels()
    sides.pair_searched()
    sides.pair_by(lambda one: one.file_name)
    sides.pair_by(lambda one: _stem(one.file_name))
    sides.pair_by(lambda one: one.soname)


def _rest(sides: _Sides) -> Iterator[Pair]:
    """What is left: libraries that are gone, or new, or several of both, of which nothing says which replaces which."""
    old, new = sides.left()
    trouble = ""
    if old and new:
        trouble = (f"{_listed(old)} of the old packages and {_listed(new)} of the new ones have the same soname, and nothing says which "
                   "replaces which")
    for one in old:
        yield Pair("", one, None, trouble or one.trouble)
    for one in new:
        yield Pair("", None, one, trouble or one.trouble)


def _listed(libraries: Sequence[PackagedLibrary]) -> str:
    return ", ".join(name_shown(one.name) for one in libraries)


def _named(pairs: Sequence[Pair]) -> Iterator[Pair]:
    """The pairs with their names: the shortest of soname, folder with soname, name, and both names that no two pairs share."""
    ways: Sequence[Callable[[Pair], str]] = (lambda pair: pair.soname, _folder_and_soname, lambda pair: _first(pair).name, _both_names)
    left = list(pairs)
    taken: set[str] = set()
    for way in ways:
        counts = Counter(map(way, left))
        done = [pair for pair in left if counts[way(pair)] == 1 and way(pair) not in taken or way is _both_names]
        taken.update(map(way, done))
        yield from (replace(pair, name=way(pair)) for pair in done)
        named = {id(pair) for pair in done}
        left = [pair for pair in left if id(pair) not in named]


def _first(pair: Pair) -> PackagedLibrary:
    found = pair.old or pair.new
    assert found is not None
    return found


def _folder_and_soname(pair: Pair) -> str:
    library = _first(pair)
    return f"{library.folder}/{library.soname}"


def _both_names(pair: Pair) -> str:
    return "->".join(one.name for one in (pair.old, pair.new) if one is not None)


def with_unreadable(pairs: Sequence[Pair], old: Sequence[Unreadable], new: Sequence[Unreadable]) -> list[Pair]:
    """The pairs, and a row for each file that could not be read and may be a library. A library without a partner is neither gone nor
    new if the other side has such a file: it may be that one."""
    found = [_doubtful(pair, old, new) for pair in pairs]
    for side, said in ((old, "old"), (new, "new")):
        found += [Pair(one.name, None, None, f"in the {said} packages it cannot be read: {one.reason}", soname=one.name) for one in side]
    return sorted(found, key=lambda pair: pair.name)


def _doubtful(pair: Pair, old: Sequence[Unreadable], new: Sequence[Unreadable]) -> Pair:
    others = new if pair.new is None else old if pair.old is None else []
    if pair.trouble or not others:
        return pair
    listed = ", ".join(name_shown(one.name) for one in others)
    return replace(pair, trouble=f"{'the new' if pair.new is None else 'the old'} packages have it in no file that can be read, but "
                                 f"perhaps in {listed}")

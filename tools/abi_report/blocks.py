"""The blocks of a report: one for each changed type, function or export, with its changes and the exports that reach it."""

from __future__ import annotations

from dataclasses import dataclass, field
from functools import cached_property
from typing import Iterable, Optional, Sequence

from abi_report.changes import Change, bit_place, change_of, moved, size_of_bits
from abi_report.documents import Break, Document, Place
from abi_report.records import Member
from abi_report.subjects import GONE_RULES, Described, Side, Subject, Subjects

# What the rows of a rule are about, if they are not about a part of a type.
_WORDS = {"L1": "kind of type", "L2": "size", "L3": "sort of number", "L4": "alignment", "L5": "tag", "L11": "elements",
          "L12": "parameters", "L13": "prototype is variadic", "X1": "soname", "X4": "kind of symbol", "X5": "size of the object"}
_FIXED = {"X2": "the symbol is gone", "X3": "this version of the symbol is gone", "X6": "its type information is gone"}
_ENUMERATORS = ("L9", "L10")
_PARTS = ("L6", "L7", "L8")
_STEP = " / "
# The heads of lines on the size and the alignment of a whole type.
OF_WHOLE = (_WORDS["L2"], _WORDS["L4"])


# A member in the old and in the new library.
Pair = tuple[Optional[Member], Optional[Member]]


@dataclass(frozen=True)
class Line:
    """A change in a type: the part that changed, its types as C writes them, the words for the change, its breaks (none if it breaks
    nothing), where the part is declared in the old and the new library, both members if the part is a member, and whether another
    change only moved it."""

    head: str
    types: str
    said: str
    breaks: tuple[Break, ...]
    old_place: Optional[Place] = None
    new_place: Optional[Place] = None
    members: Pair = (None, None)
    is_moved: bool = False

    @property
    def names_part(self) -> bool:
        """Whether the part has a name."""
        return self.head.startswith(("member ", "enumerator "))

    @property
    def text(self) -> str:
        """The types, and the words for the change."""
        return ", ".join(word for word in (self.types, self.said) if word)

    @property
    def rules(self) -> tuple[str, ...]:
        """The rules that are broken."""
        return tuple(dict.fromkeys(one.rule for one in self.breaks))


@dataclass
class Block:
    """A changed type, function or export: its subject, its breaks with the steps from it to what broke, its lines, and those exports
    reaching types of its members from which a search found the type itself. `is_searched` says that a search found all exports in
    `leading`."""

    subject: Subject
    found: list[tuple[Break, tuple[str, ...]]] = field(default_factory=list)
    lines: list[Line] = field(default_factory=list)
    leading: tuple[str, ...] = ()
    is_searched: bool = False

    @property
    def breaks(self) -> list[Break]:
        """The breaks, in the order of the document."""
        return [one for one, _ in self.found]

    @property
    def first(self) -> Break:
        """The first break."""
        return self.found[0][0]

    @property
    def steps(self) -> tuple[str, ...]:
        """The steps from the export of the first break to the type."""
        one, rest = self.found[0]
        return one.steps[:len(one.steps) - len(rest)]

    def lead(self, exports: tuple[str, ...], is_searched: bool = False) -> None:
        """Says which exports a search found."""
        self.leading, self.is_searched = exports, is_searched
        for name in ("exports", "member_exports"):
            self.__dict__.pop(name, None)

    @cached_property
    def exports(self) -> tuple[str, ...]:
        """The exports that are known to reach the type, in the order of the document."""
        named = [label for one, rest in self.found if not rest for label in one.reaching]
        return tuple(dict.fromkeys([*named, *(one.export for one in self.breaks), *self.leading]))

    @cached_property
    def member_exports(self) -> tuple[str, ...]:
        """Further exports, which reach types of its members, but perhaps only through other types."""
        known = set(self.exports)
        return tuple(dict.fromkeys(label for one in self.breaks for label in one.exports if label not in known))

    @property
    def is_exact(self) -> bool:
        """Whether no further export reaches the type."""
        return not self.member_exports or any(one.exports for one, rest in self.found if not rest)

    @property
    def names_all_exports(self) -> bool:
        """Whether the document, or a search, names all exports that reach the type or the types of its members."""
        return self.is_searched or all(one.exports for one in self.breaks)

    @property
    def ways(self) -> dict[str, tuple[str, ...]]:
        """The known ways to the type: for each export, the steps."""
        found: dict[str, tuple[str, ...]] = {}
        for one, rest in self.found:
            found.setdefault(one.export, one.steps[:len(one.steps) - len(rest)])
        return found

    @property
    def is_gone(self) -> bool:
        """Whether the block is about a symbol that is gone."""
        return self.subject.kind == "export" and self.first.rule in GONE_RULES

    @property
    def title(self) -> str:
        """The name of what changed."""
        old, new = self.subject.old.name, self.subject.new.name
        if self.subject.kind == "library":
            return "the library"
        if self.subject.kind == "export":
            return self.first.export
        if old is None:
            return f"the type at {self.first.path} of {self.first.export}" if self.steps else self.first.export
        return old if new is None or new == old else f"{old} -> {new}"


def blocks_of(document: Document, old: Side, new: Side) -> list[Block]:
    """The blocks of a document, in the order of their first breaks."""
    subjects = Subjects(old, new, document.breaks)
    found: dict[tuple[object, ...], Block] = {}
    for one in document.breaks:
        subject, rest = subjects.of(one)
        found.setdefault(subject.key, Block(subject)).found.append((one, rest))
    for block in found.values():
        block.lines = Lines(block, old, new).all()
    return list(found.values())


class Lines:
    """The lines of a block."""

    def __init__(self, block: Block, old: Side, new: Side) -> None:
        self._block = block
        self._sides = (old, new)
        described = ((old, block.subject.old), (new, block.subject.new))
        self._members = [_members(side, one) for side, one in described]
        self._enumerators = [_enumerators(side, one) for side, one in described]

    def all(self) -> list[Line]:
        """First the lines on the type itself, and then those on its parts, in the order of declaration. Some parts changed without a
        break."""
        own: list[Line] = []
        parts: dict[str, list[tuple[Break, tuple[str, ...]]]] = {}
        for one, rest in self._block.found:
            head = _head(one, rest)
            if head:
                parts.setdefault(head, []).append((one, rest))
            else:
                own.append(self._own(one))
        lines = [*(self._part(head, found) for head, found in parts.items()), *self._beside(set(parts)), *self._added_enumerators()]
        order = {head: number for number, head in enumerate(self._declared())}
        return own + sorted(lines, key=lambda line: order.get(line.head.split(_STEP)[0], len(order)))

    def _declared(self) -> list[str]:
        """The parts of the type in the order of declaration: the old parts, and each new part after the one that precedes it."""
        members = [[f"member {label}" for label in side] for side in self._members]
        enumerators = [[f"enumerator {name}" for name in side] for side in self._enumerators]
        return [*merged(*members), *merged(*enumerators), "result"]

    def _own(self, one: Break) -> Line:
        """The line on the type, function or export itself."""
        subject = self._block.subject
        places = (subject.old.place, subject.new.place)
        if one.rule in _FIXED:
            return Line("", "", _FIXED[one.rule], (one,), *places)
        said = _amount(one, change_of(one)) or one.detail
        return Line(_WORDS.get(one.rule, one.name), "", said + (self._aligned(one) if one.rule == "L4" else ""), (one,), *places)

    def _aligned(self, one: Break) -> str:
        """Names the members with the alignment of the whole type, if theirs changed, since the type may have it from them."""
        change = change_of(one)
        side = 0 if change.now in ("0", None) else 1
        value = (change.was, change.now)[side]
        others = self._members[1 - side]
        labels = [label for label, member in self._members[side].items()
                  if str(member.alignment) == value and (label not in others or others[label].alignment != member.alignment)]
        return f", that of {'members' if len(labels) > 1 else 'member'} {', '.join(labels)}" if labels else ""

    def _part(self, head: str, found: Sequence[tuple[Break, tuple[str, ...]]]) -> Line:
        """The line on a member, an enumerator, a parameter or a result."""
        first, rest = found[0]
        label = _member_label(first, rest)
        old, new = (members.get(label or "") for members in self._members)
        rules = {one.rule for one, _ in found}
        # If a part of the member broke, the size in the break is not the member's.
        sizes = "" if len(rest) > 1 else _sizes(old, None if "L6" in rules else new)
        unsaid = ("L6", "L7", "L2") if sizes else ("L6", "L7")
        said = ["gone" if "L6" in rules else "", sizes, *(_said(one, left) for one, left in found if one.rule not in unsaid)]
        said.append(_place_of_member(found, old, new))
        is_moved = rules == {"L7"} and old is not None and new is not None and (old.declaration, old.width) == (new.declaration, new.width)
        return Line(head, self._types(first, rest, old, new), ", ".join(filter(None, said)), tuple(one for one, _ in found),
                    *_places(old, new), (old, new), is_moved)

    def _types(self, one: Break, rest: Sequence[str], old: Optional[Member], new: Optional[Member]) -> str:
        """The types of a part, as C writes them."""
        if len(rest) > 1:
            names = [side.type_name(side.entry(offset), offset)
                     for side, offset in zip(self._sides, (one.old_entry, one.new_entry))]
        else:
            # If the width of a bit field changed, the line says so in other words, so its type has no width.
            names = [None if member is None else member.type_name if one.rule == "L8" else member.declaration for member in (old, new)]
        first, second = names
        if first is not None and (second is not None or one.rule == "L6"):
            return first if second is None or first == second else f"{first} -> {second}"
        return ""

    def _beside(self, heads: set[str]) -> Iterable[Line]:
        """The members whose size changed, or whose type changed as that of another member did, but that no break names, since a report
        has a break of two types only once; and the members that only the new type has, which break nothing by themselves."""
        before, after = self._members
        if self._block.subject.kind != "record" or not before or not after:
            return
        broken = {self._cores(one.old_entry, one.new_entry) for one, rest in self._block.found if len(rest) == 1}
        for label, new in after.items():
            head = f"member {label}"
            old = before.get(label)
            if old is None:
                said = ["added", _sizes(None, new), f"at {bit_place(new.bit)}"]
                yield Line(head, new.declaration, ", ".join(filter(None, said)), (), *_places(None, new), (None, new))
            elif head not in heads and (old.width != new.width or self._cores(old.kind, new.kind) in broken):
                types = old.declaration if old.declaration == new.declaration else f"{old.declaration} -> {new.declaration}"
                said = [_sizes(old, new), _place_of_member((), old, new)]
                yield Line(head, types, ", ".join(filter(None, said)), (), *_places(old, new), (old, new))

    def _cores(self, old: Optional[int], new: Optional[int]) -> tuple[Optional[int], ...]:
        """The entries of two types without their typedefs and qualifiers."""
        found = (side.records.core(offset) if side.records is not None else None for side, offset in zip(self._sides, (old, new)))
        return tuple(None if entry is None else entry.offset for entry in found)

    def _added_enumerators(self) -> Iterable[Line]:
        """The enumerators that only the new type has, which break nothing by themselves."""
        old, new = self._enumerators
        if old and new:
            yield from (Line(f"enumerator {name}", "", f"added, {value}", ()) for name, value in new.items() if name not in old)


def _members(side: Side, described: Described) -> dict[str, Member]:
    if side.records is None or described.entry is None:
        return {}
    return {member.label: member for member in side.records.members(described.entry)}


def _enumerators(side: Side, described: Described) -> dict[str, int]:
    if side.records is None or described.entry is None or described.entry.tag != "enumeration_type":
        return {}
    return {one.name: one.value for one in side.records.enumerators(described.entry)}


def merged(old: Sequence[str], new: Sequence[str]) -> list[str]:
    """The names of both: the old ones in order, and each new one after the name that precedes it."""
    order = list(old)
    known = set(old)
    for before, name in zip(["", *new], new):
        if name not in known:
            order.insert(order.index(before) + 1 if before else 0, name)
    return order


def _head(one: Break, rest: Sequence[str]) -> str:
    """The part of the type that a break is about; an empty text for the type itself."""
    if rest:
        return _STEP.join(rest)
    part = change_of(one).part
    if one.rule in _PARTS:
        return f"member {part}"
    if one.rule in _ENUMERATORS:
        return f"enumerator {part}"
    return part or "" if one.rule == "L14" else ""


def _member_label(one: Break, rest: Sequence[str]) -> Optional[str]:
    if rest:
        return rest[0].removeprefix("member ")
    return change_of(one).part if one.rule in _PARTS else None


def _amount(one: Break, change: Change) -> str:
    """The old and the new value, in words that fit the rule."""
    if one.rule == "L4":
        words = ["none" if value in ("0", None) else f"{value} bytes" for value in (change.was, change.now)]
        return " -> ".join(words)
    return change.amount


def _said(one: Break, rest: Sequence[str]) -> str:
    """What a break says of a part besides its types and its place."""
    change = change_of(one)
    amount = _amount(one, change)
    if one.rule == "L8":
        return f"{change.was} -> {change.now} bits wide"
    if one.rule == "L11":
        return f"{amount} elements"
    if one.rule == "L9":
        return "gone"
    if one.rule == "L14" and rest:
        return f"{change.part} {amount}"
    if one.rule in ("L2", "L10", "L14"):
        return amount
    return f"{_WORDS.get(one.rule, one.name)} {amount or one.detail}"


def _places(old: Optional[Member], new: Optional[Member]) -> tuple[Optional[Place], Optional[Place]]:
    """Where a member is declared in both libraries."""
    return None if old is None else old.place, None if new is None else new.place


def _place_of_member(found: Iterable[tuple[Break, tuple[str, ...]]], old: Optional[Member], new: Optional[Member]) -> str:
    """The place of a member in both structures."""
    for one, _ in found:
        change = change_of(one)
        if one.rule == "L7" and change.was is not None and change.now is not None:
            return moved(change.was, change.now)
    if old is None:
        return ""
    return f"at {bit_place(old.bit)}" if new is None or new.bit == old.bit else moved(str(old.bit), str(new.bit))


def _sizes(old: Optional[Member], new: Optional[Member]) -> str:
    """The sizes of a member in both libraries. Empty for bit fields, whose types show their widths, and for members without a size."""
    found = [member.width for member in (old, new) if member is not None and not member.is_bit_field and member.width]
    if not found:
        return ""
    return size_of_bits(found[0]) if found[0] == found[-1] else f"{size_of_bits(found[0]).split()[0]} -> {size_of_bits(found[-1])}"

"""The lines of a layout, derived from the members of a structure and from what the lines mean, one bit at a time."""

from __future__ import annotations

from pahole import Member, Structure

Run = tuple[int, int]


def _names(members: list[Member]) -> list[str]:
    """The name of each member as paths print it: the second member of a name and later ones have a number."""
    count: dict[str, int] = {}
    names = []
    for member in members:
        count[member.name] = count.get(member.name, 0) + 1
        names.append(member.name if count[member.name] == 1 else f"{member.name}#{count[member.name]}")
    return names


def _order(members: list[Member]) -> list[int]:
    """The positions of the members in the order of a layout."""
    return sorted(range(len(members)), key=lambda at: (members[at].bit, members[at].width > 0, at))


def _bits(member: Member) -> set[int]:
    return set(range(member.bit, member.end))


def runs(bits: set[int]) -> list[Run]:
    """The longest runs of these bits: for each its first bit, and the bit after its last one."""
    firsts = sorted(bit for bit in bits if bit - 1 not in bits)
    ends = sorted(bit + 1 for bit in bits if bit + 1 not in bits)
    return list(zip(firsts, ends))


def free_bits(structure: Structure) -> set[int]:
    """The bits of a structure that no member holds."""
    held = set().union(*(_bits(member) for member in structure.members))
    return set(range(8 * structure.size)) - held


def clashes(structure: Structure) -> list[str]:
    """The lines on members that share bits with earlier members, and on members that end past the size."""
    members, names = structure.members, _names(structure.members)
    overlaps, outsides = [], []
    order = _order(members)
    for place, at in enumerate(order):
        shared = [(other, _bits(members[other]) & _bits(members[at])) for other in order[:place]]
        first = next(((other, bits) for other, bits in shared if bits), None)
        if first:
            overlaps.append(f"overlap {names[at]} {names[first[0]]} bit {min(first[1])}")
        if members[at].end > 8 * structure.size:
            outsides.append(f"outside {names[at]}")
    return overlaps + outsides


def _gaps(structure: Structure) -> list[tuple[int, str]]:
    last_held = max((member.end for member in structure.members if member.width), default=0)
    gaps = []
    for first, end in runs(free_bits(structure)):
        word = "hole" if first < last_held else "padding"
        gaps.append((first, f"{word} bit {first} width {end - first}"))
    return gaps


def lines(structure: Structure) -> list[str]:
    """The lines of the layout of a structure."""
    names = _names(structure.members)
    rows = []
    for at in _order(structure.members):
        member = structure.members[at]
        rows.append((member.bit, 2 if member.width else 0, f"member {names[at]} bit {member.bit} width {member.width}"))
    clash = clashes(structure)
    head = f"layout {structure.tag} size {structure.size}"
    if clash:
        return [f"{head} overlaps", *(row for _, _, row in rows), *clash]
    rows += [(bit, 1, row) for bit, row in _gaps(structure)]
    return [head, *(row for _, _, row in sorted(rows, key=lambda it: it[:2]))]

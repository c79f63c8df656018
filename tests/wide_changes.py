"""Writes the C sources of two builds of a library between which nearly everything changes, as when a type that many structures hold gets
wider.

    python3 tests/wide_changes.py --list
    python3 tests/wide_changes.py SHAPE STRUCTURES MEMBERS OLD.c NEW.c

Each shape is a change that a person may make. STRUCTURES is how many structures there are, each with MEMBERS members. Most shapes export
a function for each structure; those that begin with `crossed` export one for each pair of two structures.
"""

import sys
from collections.abc import Callable, Iterator
from dataclasses import dataclass

Lines = Iterator[str]


@dataclass(frozen=True)
class Size:
    """How many structures there are, and how many members each has."""

    structures: int
    members: int


def structure(number: int, member: str, size: Size, first: str = "", last: str = "") -> str:
    """The definition of a structure. The declaration of a member has its number in place of `@`."""
    members = " ".join(member.replace("@", str(k)) + ";" for k in range(size.members))
    return f"struct s{number} {{ {first}{members}{last} }};"


def structures(member: str, size: Size, first: str = "", last: str = "") -> Lines:
    for number in range(size.structures):
        yield structure(number, member, size, first, last)


def functions(size: Size, parameter: str, answer: str = "int", more: str = "") -> Lines:
    """A function for each structure. The parameter's type has the structure's number in place of `#`."""
    for number in range(size.structures):
        taken = parameter.replace("#", str(number))
        given = answer.replace("#", str(number))
        yield f"{given} f{number}({taken} value{more}) {{ (void)value; return ({given}){{0}}; }}"


def by_pointer(member: str, first: str = "", last: str = "") -> Callable[[Size], Lines]:
    """Functions that take structures with such members through pointers."""

    def lines(size: Size) -> Lines:
        yield from structures(member, size, first, last)
        yield from functions(size, "struct s# *")

    return lines


def taken_as(parameter: str, answer: str = "int", more: str = "", member: str = "int m@") -> Callable[[Size], Lines]:
    """Functions with such a parameter and such a result."""

    def lines(size: Size) -> Lines:
        yield from structures(member, size)
        yield from functions(size, parameter, answer, more)

    return lines


def held(inner: str) -> Callable[[Size], Lines]:
    """Structures whose members all hold one inner structure by value."""

    def lines(size: Size) -> Lines:
        yield f"struct inner {{ {inner} value; char rest; }};"
        yield from by_pointer("struct inner m@")(size)

    return lines


def nested(inner: str) -> Callable[[Size], Lines]:
    """Structures each of which holds the one before it by value, in chains of sixteen."""

    def lines(size: Size) -> Lines:
        for number in range(size.structures):
            first = f"struct s{number - 1} before; " if number % 16 else f"{inner} before; "
            yield structure(number, "int m@", size, first)
        yield from functions(size, "struct s# *")

    return lines


def linked(member: str) -> Callable[[Size], Lines]:
    """Structures each of which has a pointer to the next one, and the last to the first."""

    def lines(size: Size) -> Lines:
        for number in range(size.structures):
            after = (number + 1) % size.structures
            yield structure(number, member, size, f"struct s{after} *next; ")
        yield from functions(size, "struct s# *")

    return lines


def enumerations(value: int, letter: str) -> Callable[[Size], Lines]:
    """Enumerations whose values begin with this one."""

    def lines(size: Size) -> Lines:
        for number in range(size.structures):
            names = ", ".join(f"{letter}{number}_{k} = {k + value}" for k in range(size.members))
            yield f"enum s{number} {{ {names} }};"
        yield from functions(size, "enum s#")

    return lines


def tables(parameter: str) -> Callable[[Size], Lines]:
    """Structures of pointers to functions with such a parameter."""
    return by_pointer(f"int (*m@)({parameter}, void *)")


def typedefs(base: str) -> Callable[[Size], Lines]:
    """Structures whose members have a typedef of their own, all of one base."""

    def lines(size: Size) -> Lines:
        yield f"typedef {base} word;"
        for k in range(size.members):
            yield f"typedef word word{k};"
        yield from by_pointer("word@ m@")(size)

    return lines


def objects(member: str) -> Callable[[Size], Lines]:
    """Exported objects in place of functions."""

    def lines(size: Size) -> Lines:
        yield from structures(member, size)
        for number in range(size.structures):
            yield f"struct s{number} object{number} = {{0}};"

    return lines


def crossed(step: int, types: list[str]) -> Callable[[Size], Lines]:
    """A function for each pair of two structures, which takes the first one, or with a step another one for each second. The members of
    the structures have these types in turn."""

    def lines(size: Size) -> Lines:
        for number in range(size.structures):
            yield structure(number, f"{types[number % len(types)]} m@", size)
        for one in range(size.structures):
            for other in range(size.structures):
                taken = (one + step * other) % size.structures
                yield f"int f{one}_{other}(struct s{taken} *value) {{ (void)value; return 0; }}"

    return lines


def reordered(back: bool) -> Callable[[Size], Lines]:
    """Structures with their members in one order or the other."""

    def lines(size: Size) -> Lines:
        places = range(size.members)
        members = " ".join(f"{'int' if k % 2 else 'char'} m{k};" for k in (reversed(places) if back else places))
        for number in range(size.structures):
            yield f"struct s{number} {{ {members} }};"
        yield from functions(size, "struct s# *")

    return lines


def unrelated(size: Size) -> Lines:
    """Functions of the same names that have nothing else in common."""
    for number in range(size.structures):
        members = " ".join(f"double *n{k}[{k + 1}];" for k in range(size.members))
        yield f"union t{number} {{ {members} }};"
    for number in range(size.structures):
        taken = f"union t{(number + 1) % size.structures} *one, char *other"
        yield f"union t{number} *f{number}({taken}) {{ (void)one; (void)other; return 0; }}"


# Each shape: its old library and its new one.
SHAPES: dict[str, tuple[Callable[[Size], Lines], Callable[[Size], Lines]]] = {
    "wider_members": (by_pointer("int m@"), by_pointer("long m@")),
    "wider_floats": (by_pointer("float m@"), by_pointer("double m@")),
    "longer_arrays": (by_pointer("int m@[4]"), by_pointer("int m@[8]")),
    "wider_bits": (by_pointer("unsigned m@ : 3"), by_pointer("unsigned m@ : 5")),
    "a_first_member": (by_pointer("int m@"), by_pointer("int m@", "long added; ")),
    "a_last_member": (by_pointer("int m@"), by_pointer("int m@", "", " long added;")),
    "other_names": (by_pointer("int m@"), by_pointer("int n@")),
    "other_order": (reordered(False), reordered(True)),
    "a_wider_inner_structure": (held("int"), held("long")),
    "nested_structures": (nested("int"), nested("long")),
    "linked_structures": (linked("int m@"), linked("long m@")),
    "wider_typedefs": (typedefs("int"), typedefs("long long")),
    "tables_of_functions": (tables("int"), tables("long")),
    "later_enumerators": (enumerations(0, "E"), enumerations(1, "E")),
    "other_enumerators": (enumerations(0, "E"), enumerations(0, "F")),
    "wider_parameters": (taken_as("int"), taken_as("long")),
    "other_results": (taken_as("struct s# *", "struct s# *"), taken_as("struct s# *", "struct s# **")),
    "variadic_functions": (taken_as("struct s# *"), taken_as("struct s# *", more=", ...")),
    "values_in_memory": (taken_as("struct s#", member="char m@"), taken_as("struct s#", member="short m@")),
    "larger_objects": (objects("int m@"), objects("long m@")),
    "crossed": (crossed(0, ["int", "unsigned", "long"]), crossed(1, ["int", "unsigned", "long"])),
    "crossed_alike": (crossed(0, ["int"]), crossed(1, ["int"])),
    "unrelated": (by_pointer("int m@"), unrelated),
}


def main(words: list[str]) -> int:
    if words == ["--list"]:
        print("\n".join(SHAPES))
        return 0
    if len(words) != 5 or words[0] not in SHAPES:
        print(__doc__, file=sys.stderr)
        return 64
    size = Size(int(words[1]), int(words[2]))
    for lines, path in zip(SHAPES[words[0]], words[3:], strict=True):
        with open(path, "w", encoding="ascii") as file:
            file.writelines(line + "\n" for line in lines(size))
    return 0


if __name__ == "__main__":
    sys.exit(main(sys.argv[1:]))

"""`abi check` says yes exactly where all accesses land: on all small graphs, on random ones, and on worked examples. A walk by definitions
with one change gives another answer somewhere."""

from __future__ import annotations

import random
from dataclasses import dataclass, replace
from typing import Callable, Iterable, Iterator

from .accesses import SAME, WRONG, Reading, Spot, Task, all_land, first_accesses, lands, longer, walk
from .programs import Runs
from .shapes import (
    VOID,
    WITH_TAGS,
    File,
    Graph,
    Piece,
    Places,
    Shape,
    Sort,
    array,
    begins,
    declared,
    function,
    is_object,
    is_whole,
    member,
    pointer,
    scalar,
    whole,
)

# How many pairs of graphs stand in one pair of libraries.
BATCH = 400


def _place(types: Graph, to: int, text: str) -> str:
    # The place of a result or an argument of a type, eightbyte by eightbyte. An object in registers has one or two of them. What is printed
    # names the registers alone, so `rdi` may be that of the second eightbyte, if the first one holds nothing.
    in_registers = text not in ("none", "memory") and not text.startswith("stack+")
    return f"none+{text}" if in_registers and not begins(types, to) else text


def places_of(runs: Runs, graphs: Iterable[Graph]) -> dict[Graph, Places]:
    """The places of the functions of graphs: the registers are those that `abi exports` prints; tests/made/tables/calls.txt has rows for
    them."""
    distinct = list(dict.fromkeys(graphs))
    listed, asked = File(), list[tuple[int, int]]()
    for number, types in enumerate(distinct):
        entries = listed.add(types, f"t{number}")
        for node, shape in enumerate(types):
            if shape.kind == "fn":
                listed.export(f"f{len(asked)}", types, node, entries)
                asked.append((number, node))
    places: dict[Graph, Places] = {types: {} for types in distinct}
    runs.write("functions", listed.to_bytes())
    told = runs.abi("exports", "functions")
    assert runs.status == 0, told
    for line, (number, node) in zip(told.splitlines(), asked, strict=True):
        types = distinct[number]
        _, params, _, result = line.split()[-4:]
        texts = (result, *(() if params == "-" else params.split(",")))
        places[types][node] = tuple(_place(types, piece.to, text) for piece, text in zip(types[node].pieces, texts, strict=True))
    return places


def _rules(number: int, task: Task) -> str:
    marks = {"direct": task.direct, "pointer": task.pointer}
    return "".join(
        f"[suppress_type]\nname = t{number}_{node}\naccessed_through = {way}\n" for way, nodes in marks.items() for node in sorted(nodes)
    )


def _broken(runs: Runs, tasks: dict[int, Task]) -> set[int]:
    """The numbers of the pairs of graphs in whose exports `abi check` names a break, if these pairs stand in one pair of libraries."""
    old, new, rules = File(), File(), ""
    for number, task in tasks.items():
        entries = {"old": old.add(task.old, f"t{number}"), "new": new.add(task.new, f"t{number}")}
        for place, (old_root, new_root) in enumerate(task.roots):
            old.export(f"e{number}_{place}", task.old, old_root, entries["old"])
            new.export(f"e{number}_{place}", task.new, new_root, entries["new"])
        rules += _rules(number, task)
    for name, data in {"old": old.to_bytes(), "new": new.to_bytes(), "rules": rules.encode()}.items():
        runs.write(name, data)
    first, *lines = runs.abi("check", "--rules", "rules", "old", "new").splitlines()
    assert first == {0: "yes 2", 1: "no"}.get(runs.status), first
    return {int(line.split()[1].split("_")[0].removeprefix("e")) for line in lines} if runs.status else set()


def _unbroken(runs: Runs, tasks: dict[int, Task]) -> dict[int, Task]:
    """Those of these pairs of graphs on which `abi check` reports no break. It names a break of two types once, for the first export that
    leads to types alike to them. No typedef names the type of an exported function, so those without a result and without parameters
    are alike in all graphs. The pairs without a break are therefore asked again without the others, until none has a break."""
    left = tasks
    while left and (found := _broken(runs, left)):
        left = {number: task for number, task in left.items() if number not in found}
    return left


@dataclass
class Counts:
    """How many pairs of graphs had all their accesses land, and how many had not."""

    landing: int = 0
    missing: int = 0


def _compare(runs: Runs, tasks: list[Task], counts: Counts) -> list[bool]:
    """Whether all accesses of each of these pairs land; `abi check` must say yes of those and find a break in each other one."""
    landing = [all_land(task) for task in tasks]
    for are_landing in (True, False):
        asked = {number: task for number, task in enumerate(tasks) if landing[number] is are_landing}
        unbroken = _unbroken(runs, asked)
        wrong = [task for number, task in asked.items() if (number in unbroken) is not are_landing]
        assert not wrong, f"all accesses land: {are_landing}, but not for abi: {wrong[:1]}"
    counts.landing += sum(landing)
    counts.missing += len(landing) - sum(landing)
    return landing


def _batches(tasks: Iterable[Task]) -> Iterator[list[Task]]:
    batch: list[Task] = []
    for task in tasks:
        batch.append(task)
        if len(batch) == BATCH:
            yield batch
            batch = []
    if batch:
        yield batch


# ---- small graphs


def _types_of(before: Graph, count: int) -> Iterator[Shape]:
    """All types of a small set that may come after these in a graph of this many types."""
    number = len(before)
    shapes = [scalar(4), scalar(8), declared("a"), function(0), *(pointer(to) for to in range(count))]
    for to in range(number):
        shapes.append(Shape("struct", 8, (member("a", 0, to),)))
        shapes += [Shape("struct", 16, (member("a", 0, to), member("b", 64, second))) for second in range(number)]
        shapes += [array(2, to), function(0, to)]
    return (whole(before, shape) for shape in shapes if is_whole(before, shape))


def small_graphs() -> list[Graph]:
    """All graphs of two and of three types, with void, from the small set."""
    two = [(VOID, shape) for shape in _types_of((VOID,), 2)]
    three = [(VOID, first, second) for first in _types_of((VOID,), 3) for second in _types_of((VOID, first), 3)]
    return [*two, *three]


def _small_tasks(runs: Runs) -> Iterator[Task]:
    graphs = small_graphs()
    places = places_of(runs, graphs)
    for old in graphs:
        # None of the old types is marked, or the second one is: through a pointer, or at both ways. A rule file names no function.
        marked = frozenset({1} if old[1].kind != "fn" else ())
        for new in graphs:
            task = Task(old, new, places[old], places[new], ((len(old) - 1, len(new) - 1),))
            yield from (task, replace(task, pointer=marked), replace(task, direct=marked, pointer=marked))


def check_small(runs: Runs) -> Counts:
    """Compares all small graphs. The last types are those of an export."""
    counts = Counts()
    for tasks in _batches(_small_tasks(runs)):
        _compare(runs, tasks, counts)
    return counts


# ---- random graphs

# The number of types in a random graph, with void.
TYPES = 5
NAMES = "ab"
GROUPS = ("int", "uint", "float")
SIZES = (1, 4, 8)
BITS = (0, 32, 64)
VALUES = (0, 255, -1)
EXPORTED = ((3, 3), (4, 4))


class Dice:
    """Random types, the same in each run."""

    def __init__(self, seed: int) -> None:
        self.random = random.Random(seed)

    def one_in(self, cases: int) -> bool:
        """True in one of this many cases."""
        return self.random.randrange(cases) == 0

    def name(self) -> str:
        """A name of a member, an enumerator or a tag."""
        return self.random.choice(NAMES)

    def _held(self, before: Graph) -> int | None:
        objects = [number for number, shape in enumerate(before) if is_object(shape)]
        return self.random.choice(objects) if objects else None

    def _member(self, before: Graph) -> Piece | None:
        to = self._held(before)
        return None if to is None else member(self.name(), self.random.choice(BITS), to)

    def _members(self, before: Graph) -> tuple[Piece, ...]:
        made = [self._member(before) for _ in range(self.random.choice((1, 2)))]
        return tuple(piece for piece in made if piece)

    def _aggregate(self, before: Graph) -> Shape:
        kind = "union" if self.one_in(3) else "struct"
        members = self._members(before)
        return Shape(kind, 16 if members else 0, members, tag=self.name())

    def _scalar(self) -> Shape:
        group = self.random.choice(GROUPS)
        return scalar(self.random.choice(SIZES[1:] if group == "float" else SIZES), group)

    def _enumerators(self) -> tuple[Piece, ...]:
        return tuple(Piece(Sort.ENUMERATOR, name=self.name(), value=self.random.choice(VALUES)) for _ in range(2))

    def _function(self, before: Graph) -> Shape:
        result, params = self._held(before), [self._held(before) for _ in range(self.random.choice((1, 2)))]
        return function(0 if result is None or self.one_in(3) else result, *(to for to in params if to is not None))

    def shape(self, before: Graph) -> Shape:
        """A type that may follow these."""
        choice = self.random.randrange(12)
        if choice < 2:
            return self._scalar()
        if choice < 4:
            return pointer(self.random.randrange(TYPES))
        if choice < 7:
            return self._aggregate(before)
        if choice == 7:
            to = self._held(before)
            return scalar(4) if to is None else array(2, to)
        if choice in (8, 9):
            return self._function(before)
        if choice == 10:
            return Shape("enum", self.random.choice(SIZES), self._enumerators(), tag=self.name())
        return declared(self.name())

    def types(self) -> Graph:
        """Void, and random types."""
        types: Graph = (VOID,)
        for _ in range(1, TYPES):
            made = self.shape(types)
            types = (*types, whole(types, made) if is_whole(types, made) else scalar(4))
        return types

    def _other_value(self, shape: Shape) -> Shape:
        # A property that only types of this kind have.
        if shape.kind == "scalar":
            return replace(shape, group=self.random.choice(GROUPS[:2] if shape.size == 1 else GROUPS))
        if shape.kind == "array":
            return replace(shape, count=3)
        if shape.kind == "fn":
            return replace(shape, variadic=True)
        return replace(shape, tag=self.name()) if shape.kind in WITH_TAGS else shape

    def _other_whole(self, shape: Shape) -> Shape:
        choice = self.random.randrange(5)
        if choice == 0:
            sized = not shape.declared and shape.kind in (*WITH_TAGS, "scalar")
            return replace(shape, size=self.random.choice(SIZES[1:] if shape.group == "float" else SIZES)) if sized else shape
        if choice == 1:
            return replace(shape, align=16)
        if choice == 2:
            return replace(shape, kind={"struct": "union", "union": "struct"}.get(shape.kind, shape.kind))
        if choice == 3 and shape.kind in WITH_TAGS:
            return Shape(shape.kind, declared=True, tag=shape.tag)
        return self._other_value(shape)

    def _other_piece(self, piece: Piece, before: Graph) -> Piece:
        if self.one_in(3):
            to = self.random.randrange(TYPES) if piece.sort is Sort.TARGET else self._held(before)
            return piece if to is None or piece.sort is Sort.ENUMERATOR else replace(piece, to=to)
        if piece.sort is Sort.ENUMERATOR:
            return replace(piece, name=self.name()) if self.one_in(3) else replace(piece, value=self.random.choice(VALUES))
        if piece.sort is not Sort.MEMBER:
            return piece
        return self.random.choice((replace(piece, bit=self.random.choice(BITS)), replace(piece, width=3), replace(piece, name=self.name())))

    def _other_pieces(self, shape: Shape, before: Graph) -> Shape:
        at = self.random.randrange(3)
        return replace(shape, pieces=tuple(self._other_piece(p, before) if k == at else p for k, p in enumerate(shape.pieces)))

    def _moved_pieces(self, shape: Shape, before: Graph) -> Shape:
        if shape.kind == "fn":
            return replace(shape, pieces=shape.pieces[:2])
        if shape.kind not in WITH_TAGS or shape.declared:
            return shape
        more = self._member(before) if shape.kind != "enum" else None
        longer_list = (*shape.pieces, more) if more else shape.pieces
        return replace(shape, pieces=self.random.choice((shape.pieces[::-1], shape.pieces[1:], shape.pieces[:1], longer_list)))

    def changed(self, shape: Shape, before: Graph) -> Shape:
        """A type that differs from another one in at most one point, or entirely."""
        choice = self.random.randrange(8)
        if choice < 3:
            return self._other_whole(shape)
        if choice < 6:
            return self._other_pieces(shape, before)
        return self._moved_pieces(shape, before) if choice == 6 else self.shape(before)

    def changed_types(self, old: Graph) -> Graph:
        """The same types, each changed in one of three cases."""
        types: Graph = (VOID,)
        for shape in old[1:]:
            made = self.changed(shape, types) if self.one_in(3) else shape
            types = (*types, whole(types, made) if is_whole(types, made) else scalar(4))
        return types

    def marks(self, types: Graph) -> frozenset[int]:
        """A mark for each type that a rule file can name, set in one of five cases."""
        return frozenset(number for number, shape in enumerate(types) if shape.kind not in ("void", "fn") and self.one_in(5))


def _random_tasks(runs: Runs, count: int) -> Iterator[Task]:
    dice = Dice(1)
    for _ in range(count // BATCH):
        olds = [dice.types() for _ in range(BATCH)]
        pairs = [(old, dice.changed_types(old)) for old in olds]
        places = places_of(runs, (types for pair in pairs for types in pair))
        for old, new in pairs:
            yield Task(old, new, places[old], places[new], EXPORTED, dice.marks(old), dice.marks(old))


def check_random(runs: Runs) -> Counts:
    """Compares 10,000 pairs of random graphs. The last two types of both are those of exports."""
    examples = [work(runs) for work in WORKED]
    counts, left = Counts(), [reading for reading in WRONG if all(all_land(task, reading) is all_land(task) for task in examples)]
    for tasks in _batches(_random_tasks(runs, 10_000)):
        for task, landing in zip(tasks, _compare(runs, tasks, counts)):
            assert all(all_land(task, reading) is landing for reading in SAME), task
            left = [reading for reading in left if all_land(task, reading) is landing]
    assert not left, f"these readings give the same answer to all: {left}"
    return counts


# ---- worked examples


def _union(has_long: bool) -> Graph:
    # `union u { double d; }`, optionally with the member `long l`, and the functions `void f(union u *)`, `void g(union u)` and
    # `union u h(void)`. `g` takes the union in xmm0, or in rdi if the union has an integer; `h` returns it in xmm0, or in rax (psABI,
    # 3.2.3).
    members = (member("d", 0, 1), *((member("l", 0, 2),) if has_long else ()))
    return VOID, scalar(8, "float"), scalar(8), Shape("union", 8, members), pointer(3), function(0, 4), function(0, 3), function(3)


def _pair(runs: Runs, old: Graph, new: Graph, root: int) -> Task:
    places = places_of(runs, (old, new))
    return Task(old, new, places[old], places[new], ((root, root),))


def check_worked(runs: Runs) -> Counts:
    """Compares four worked examples."""
    counts = Counts()
    for work in WORKED:
        _compare(runs, [work(runs)], counts)
    assert (counts.landing, counts.missing) == (2, 2), counts
    return counts


def _union_behind_a_pointer(runs: Runs) -> Task:
    return _pair(runs, _union(False), _union(True), 5)


def _union_by_value(runs: Runs) -> Task:
    task = _pair(runs, _union(False), _union(True), 6)
    assert (task.old_places[6], task.new_places[6]) == (("none", "xmm0"), ("none", "rdi"))
    # The access that ends at g does not land, and the place of its parameter is the only reason. Those to the union and its member land.
    (at_function,) = first_accesses(task)
    assert not lands(task, at_function, Reading.AS_DEFINED) and lands(task, at_function, Reading.WITHOUT_PARAM_PLACES)
    behind = list(longer(task, at_function, Reading.AS_DEFINED))
    assert len(behind) == 2 and all(lands(task, access, Reading.AS_DEFINED) for access in behind)
    at_member = [last for access in behind for last in longer(task, access, Reading.AS_DEFINED)]
    assert len(at_member) == 1 and lands(task, at_member[0], Reading.AS_DEFINED)
    return task


def _union_as_result(runs: Runs) -> Task:
    task = _pair(runs, _union(False), _union(True), 7)
    assert (task.old_places[7], task.new_places[7]) == (("xmm0",), ("rax",))
    return task


def _member(is_in_union: bool) -> Graph:
    # `struct s { long a; long x; }`; optionally, `x` is in a nameless union, beside `y`: the members of a nameless member are also those of
    # the type. And `void p(struct s *)`.
    a, x, y = member("a", 0, 1), member("x", 64, 1), member("y", 64, 1)
    return VOID, scalar(8), Shape("struct", 16, (a, y, x) if is_in_union else (a, x)), pointer(2), function(0, 3)


def _member_in_a_nameless_union(runs: Runs) -> Task:
    task = _pair(runs, _member(False), _member(True), 4)
    spot = Spot(1, 64, 0, behind_pointer=True)
    moves = [(Sort.PARAM, "", 0), (Sort.TARGET, "", 0), (Sort.MEMBER, "x", 0)]
    assert walk(task.old, 4, moves) == walk(task.new, 4, moves) == spot
    return task


WORKED: tuple[Callable[[Runs], Task], ...] = (_union_behind_a_pointer, _union_by_value, _union_as_result, _member_in_a_nameless_union)

"""Types that rows spell: the breaks of two libraries, the places of calls, and layouts."""

from __future__ import annotations

import re
import string
from typing import Any

from .entries import Unit
from .programs import Runs
from .rules import text_of
from .spelled import library


def broken(runs: Runs, row: list[str]) -> tuple[str, int]:
    """The rows of the report on two libraries, and the number of pair lines of a certificate."""
    old_types, new_types, old_exports, new_exports, rules = row
    runs.write("old", library(old_types, old_exports))
    runs.write("new", library(new_types, new_exports))
    runs.write("rules", text_of(rules))
    first, *lines = runs.abi("check", "--rules", "rules", "old", "new").splitlines()
    assert first == ("no" if runs.status == 1 else "yes 2"), first
    pairs = sum(line.startswith("pair ") for line in lines)
    return ("; ".join(lines), 0) if runs.status == 1 else ("", pairs)


def alike(runs: Runs, old_types: str, new_types: str, number: int) -> str:
    """The types of each library that another one stands for, by the alike lines of a certificate."""
    runs.write("old", library(old_types, f"- f::function:16:{number}"))
    runs.write("new", library(new_types, f"- f::function:16:{number}"))
    told: dict[str, list[str]] = {"old": [], "new": []}
    for words in map(str.split, runs.abi("check", "old", "new").splitlines()):
        if words[0] == "alike":
            told[words[1]].append(f"{int(words[2]) // Unit.STEP}>{int(words[3]) // Unit.STEP}")
    assert runs.status == 0, "the second library may not replace the first one"
    return "|".join(" ".join(side) for side in told.values())


def _value(value: dict[str, Any] | None) -> str:
    if value is None:
        return "nothing"
    unit, number = value["unit"], value["value"]
    return {"word": f"{number}", "count": f"count {number}", "number": f"number {number}"}.get(unit, f"{number} {unit}")


def sides(runs: Runs, row: list[str]) -> str:
    """The breaks of a rule in the document on two libraries: the export, the detail, the part, and the old and the new value of each."""
    rule, old_types, new_types, old_exports, new_exports = row
    runs.write("old", library(old_types, old_exports))
    runs.write("new", library(new_types, new_exports))
    found = [found for found in runs.breaks("check", "old", "new") if found["rule"] == rule]
    return ", ".join(
        f"{one['export']}: {one['detail']}; {one['part'] or ''}; {_value(one['was'])}; {_value(one['is'])}" for one in found
    )


def numbered(types: str) -> tuple[str, dict[str, str]]:
    """Types that name one another, with numbers in place of names, and the number of each name."""
    heads = [text.split()[0] for text in types.split(";")]
    numbers = {head.split("/")[1]: str(number) for number, head in enumerate(heads, 1)}
    numbers["void"] = "0"
    return re.sub(r">(\w+)", lambda found: ">" + numbers[found[1]], types), numbers


def places(runs: Runs, types: str, names: str) -> str:
    """The places of the arguments and of the result of a function with these types, as `abi exports` prints them."""
    spelled, numbers = numbered(types)
    words = " ".join(f">{numbers[name]}" for name in names.split())
    number = len(spelled.split(";")) + 1
    runs.write("library", library(f"{spelled};fn {words}", f"- f::function:16:{number}"))
    told = runs.abi("exports", "library").strip()
    found = re.fullmatch(r"1 f FUNC 16 params (\S+) result (\S+)", told)
    assert found, told
    return f"{found[1]}|{found[2]}"


def graph(runs: Runs, spelled: str, number: int) -> str:
    """The nodes that are reached from the function or the variable with a number, but void and itself, or the fault."""
    runs.write("library", library(spelled, f"- f::function:16:{number}"))
    told = runs.graph("library")
    if told.startswith("unreadable"):
        return told.strip()
    nodes = "\n".join(told.splitlines()).split("\nnode ")[2:]
    return ";".join(node.replace("\n", ";") for node in nodes if not node.startswith(f"{number * Unit.STEP} "))


def _member(name: str, place: str) -> str:
    bit, width = place.split("+")
    return f"{name}@{bit}>3" if width == "0" else f"{name}@{bit}+{width}>4"


def layout(runs: Runs, size: str, members: str) -> str:
    """The lines that `abi layout` prints after the first one, for a structure with these members."""
    spelled = " ".join(_member(*pair) for pair in zip(string.ascii_lowercase, members.split()))
    runs.write("library", library(f"struct:{size}/s {spelled};ptr >1;struct:0;uint:8;fn >2", "- f::function:16:5"))
    first, *lines = runs.abi("layout", "library", "s").splitlines()
    assert first.split()[:4] == ["layout", "s", "size", size], first
    assert first.endswith(" overlaps") == any(line.split()[0] in ("overlap", "outside") for line in lines), first
    return ";".join(lines)


def _part_of(detail: str, words: list[str]) -> int:
    # The number of the part that a detail names, among the parts of the old type; of a function its result is the first.
    kind, _, name = detail.partition(" ")
    if kind == "result":
        return 0
    name = name.split()[0] if name else ""
    if kind == "param":
        return int(name)
    if kind not in ("member", "enumerator"):
        return 0
    named, _, number = name.partition("#")
    places = [place for place, word in enumerate(words) if re.split("[@=]", word)[0] == named]
    return places[int(number or 1) - 1]


def rules(runs: Runs, old: str, new: str) -> str:
    """The rules that the last of these types break, each with the number of its part. A variable points to them."""
    for name, spelled in {"old": old, "new": new}.items():
        number = len(spelled.split(";"))
        runs.write(name, library(f"{spelled};ptr >{number};var >{number + 1}", f"- v::object:8:{number + 2}"))
    told = runs.abi("check", "old", "new")
    words = old.split(";")[-1].split()[1:]
    found = re.findall(r"^(L\d+) v target: (.*)$", told, re.M) if runs.status == 1 else []
    assert runs.status in (0, 1), told
    return " ".join(f"{rule}.{_part_of(detail, words)}" for rule, detail in found)


# A type with a part of each sort that leads to type 1, for an export by value and behind a pointer.
_WITH_PART = {"target": "ptr >1", "result": "sub >1", "param": "sub >0 >1", "element": "array:2 >1", "member": "struct:4/s x@0>1"}


def ways(runs: Runs, part: str) -> str:
    """The ways by which a part leads to its type, from an export by value and through a pointer."""
    spelled, found = f"int:4/int;{_WITH_PART[part]}", []
    by_value = _WITH_PART[part].replace("sub", "fn") if "sub" in spelled else "var >2"
    for more, number in ((by_value, 3), ("ptr >2;var >3", 4)):
        data = library(f"{spelled};{more}", f"- v::none:0:{number}")
        runs.write("library", data)
        told = runs.abi("check", "library", "library")
        assert runs.status == 0, told
        found.append(" ".join(re.findall(rf"^pair {Unit.STEP} {Unit.STEP} (\w+)$", told, re.M)))
    return "|".join(found)

"""Rule files: their faults, and what they leave out."""

from __future__ import annotations

from .images import Image
from .programs import Runs
from .spelled import library

# The exports: a name, a version, a kind and the number of a function, which gives it the declared name g_decl.
EXPORTS = (
    "f:V1:function:16:0 g::function:16:1 i:V1:resolver:16:0 n::none:16:0 o:V2:object:16:0 c::common:16:0 t::thread-local:16:0"
)
# The named types after void, each of a size of its own, as an earlier and a later library have them. A structure is the target of a typedef.
TYPES = "struct:4/priv;struct:8/priv;def/priv_t >2;enum:1/e A=0;union:16/u;int:2/int;struct:32/priv"
GROWN = "struct:5/priv;struct:9/priv;def/priv_t >2;enum:2/e A=0;union:17/u;int:4/int;struct:33/priv"
# The numbers of the types in the order of a row's digits.
NAMED = [1, 3, 4, 5, 6, 7]


def text_of(cell: str) -> bytes:
    """The rule file of a cell."""
    text = cell.replace("/", "\n").replace("\\t", "\t").replace("\\r", "\r")
    return text.encode().replace(b"\\xff", b"\xff")


def fault_of(runs: Runs, cell: str) -> str:
    """The number and the line of a rule file's fault, or zeros."""
    runs.write("rules", text_of(cell))
    runs.write("library", library("int:4", "-"))
    words = runs.abi("check", "--rules", "rules", "library", "library").split()
    return f"{words[2]} {words[4]}" if words[:2] == ["unreadable", "rules"] else "0 0"


def _rows(runs: Runs, old: bytes, new: bytes, rules: bytes) -> list[list[str]]:
    for name, data in {"old": old, "new": new, "rules": rules}.items():
        runs.write(name, data)
    told = runs.abi("check", "--rules", "rules", "old", "new")
    assert runs.status in (0, 1), told
    return [line.split() for line in told.splitlines()] if runs.status == 1 else []


def _left_out_exports(runs: Runs, soname: str, rules: bytes) -> str:
    # The second library has none of the exports.
    old = library("fn/g_decl >0", f"{soname} {EXPORTS}")
    gone = [words[1].split("@")[0].rstrip(":") for words in _rows(runs, old, Image([], "" if soname == "-" else soname).to_bytes(), rules)[1:]]
    return "".join("0" if word.split(":")[0] in gone else "1" for word in EXPORTS.split())


def _variables(types: str, through_pointers: bool) -> tuple[str, list[int]]:
    # A variable of each type, or a pointer to it.
    made, numbers = types.split(";"), []
    for number in NAMED:
        if through_pointers:
            made.append(f"ptr >{number}")
        made.append(f"var >{len(made) if through_pointers else number}")
        numbers.append(len(made))
    return ";".join(made), numbers


def _left_out_types(runs: Runs, soname: str, rules: bytes, through_pointers: bool) -> str:
    def side(types: str) -> bytes:
        spelled, numbers = _variables(types, through_pointers)
        exports = " ".join(f"t_{place}::object:1:{number}" for place, number in enumerate(numbers))
        return library(spelled, f"{soname} {exports}")

    broken = {words[1].rstrip(":") for words in _rows(runs, side(TYPES), side(GROWN), rules) if words[0] == "L2"}
    # Void is in no rule.
    return "0" + "".join("0" if f"t_{place}" in broken else "1" for place in range(len(NAMED)))


def left_out(runs: Runs, cell: str, soname: str = "lib.so.1") -> str:
    """The digits of a rule file."""
    rules = text_of(cell)
    by_value = _left_out_types(runs, soname, rules, False)
    return f"{_left_out_exports(runs, soname, rules)} {by_value} {_left_out_types(runs, soname, rules, True)}"


def idle(runs: Runs, cell: str, soname: str = "lib.so.1") -> str:
    """The sections that the notes call idle for a library with the exports and the types of a row."""
    spelled, numbers = _variables(TYPES, True)
    exports = " ".join(f"t_{place}::object:1:{number}" for place, number in enumerate(numbers))
    data = library(f"{spelled};fn/g_decl >0", f"{soname} g::function:16:{len(spelled.split(';')) + 1} {exports}")
    # There are no notes on two files with the same bytes.
    for name, file in {"old": data, "new": data + b"\0", "rules": text_of(cell)}.items():
        runs.write(name, file)
    notes = runs.notes("check", "--rules", "rules", "old", "new")
    return ", ".join(note.removeprefix("idle section: ") for note in notes if note.startswith("idle section: "))

"""The sentences on standard error: on files with a fault, on exports without types, and on rule files."""

from __future__ import annotations

import struct
from typing import Callable

from .certificates import first_lines
from .entries import Unit
from .images import ELF_HEADER, SECTION_HEADER, SHT_PROGBITS, Image, Section, Symbol
from .programs import Runs
from .rules import text_of
from .spelled import library, sections

# Places in a section header (System V gABI, "Section Header").
SH_OFFSET, SH_ENTSIZE = 24, 56
# The first bytes of the entry of a unit are its code and its language.
LANGUAGE = Unit.HEADER + 1
LANG_C_PLUS_PLUS = 0x04
SYMBOL = 24
COMMENTED = ": a comment stands on a line of its own, so what looks like one is a part of the value: "
UNTYPED = "the debug information has no type"


def bytes_of(cell: str) -> bytes:
    """The bytes of a cell: two hexadecimal digits are a byte, `zN` is N zeros, `'` begins a text, and `..N` is zeros up to N bytes."""
    data = b""
    for word in cell.split():
        if word.startswith("'"):
            data += word[1:].encode()
        elif word.startswith("z"):
            data += bytes(int(word[1:]))
        elif word.startswith(".."):
            data = data.ljust(int(word[2:]), b"\0")
        else:
            data += bytes.fromhex(word)
    return data


def _fault_and_sentence(said: list[str], path: str) -> tuple[str, str]:
    # The fault of a sentence, which stands in brackets at its end, and what it says of the path.
    assert len(said) == 1 and said[0].startswith(f"{path}: "), said
    sentence, _, mark = said[0].removeprefix(f"{path}: ").rpartition(" (fault ")
    return mark.removesuffix(")"), sentence


def of_file(runs: Runs, data: bytes) -> str:
    """The fault of a library with these bytes, and the sentence on it."""
    runs.write("lib.so", data)
    return "|".join(_fault_and_sentence(runs.said("exports", "lib.so"), "lib.so"))


def _functions(names: str) -> Image:
    return Image([Symbol(name, "function", 16, 4096) for name in names.split()], "a.so")


def _patched(data: bytes, place: int, field: bytes) -> bytes:
    return data[:place] + field + data[place + len(field) :]


def _with_header_field(image: Image, number: int, field: int, value: int) -> bytes:
    # Another value in a header of a section, given the number of the section.
    data = image.to_bytes()
    (table,) = struct.unpack_from("<Q", data, 40)
    return _patched(data, table + SECTION_HEADER * number + field, struct.pack("<Q", value))


def _language() -> bytes:
    made = sections("int:4/int")
    return Image(debug={**made, ".debug_info": _patched(made[".debug_info"], LANGUAGE, bytes([LANG_C_PLUS_PLUS]))}).to_bytes()


def _third_abbreviation() -> bytes:
    # The abbreviations of a unit and of a base type, and one that says neither that it has children nor that it has none.
    made = bytes.fromhex("01 11 01 13 05 00 00  02 24 00 0b 0b 3e 0b 03 08 00 00  03 2e 02 00 00 00")
    return Image(debug={**sections("int:4/int"), ".debug_abbrev": made}).to_bytes()


class _Compressed(Image):
    """A library that begins with a section of this name."""

    def __init__(self, name: str) -> None:
        super().__init__()
        self.name = name

    def sections(self) -> list[Section]:
        return [Section(self.name, SHT_PROGBITS, b""), *super().sections()]


# The libraries with faults. Sections: 1 .dynsym, 2 .dynamic, 3 .dynstr; without a soname 2 .dynstr, 3 .shstrtab.
FAULTY: dict[str, Callable[[], bytes]] = {
    "names outside": lambda: _with_header_field(Image(), 3, SH_OFFSET, 1 << 32),
    "symbols of another size": lambda: _with_header_field(Image(), 1, SH_ENTSIZE, SYMBOL - 1),
    "name of symbol 5 outside": lambda: _patched(_functions("a b c d e f").to_bytes(), ELF_HEADER + 5 * SYMBOL, b"\xff\xff"),
    "dynamic entries of another size": lambda: _with_header_field(_functions("f"), 2, SH_ENTSIZE, 15),
    "seven exports": lambda: _functions("a b c d e f a").to_bytes(),
    "language": _language,
    "third abbreviation": _third_abbreviation,
    "compressed": lambda: _Compressed(".zdebug_info").to_bytes(),
    "compressed, with a line feed": lambda: _Compressed(".zdebug_\n").to_bytes(),
}


def of_place(runs: Runs, name: str) -> str:
    """The fault of a library, a rule file or a certificate, and the sentence on it."""
    if name in FAULTY:
        return of_file(runs, FAULTY[name]())
    data = library("int:4", "- f::none:16:0 g::none:16:0 h::none:16:0")
    runs.write("lib.so", data)
    if name == "rules":
        runs.write("rules", b"# 1\n# 2\n# 3\n[suppress_nothing]\n")
        return "|".join(_fault_and_sentence(runs.said("check", "--rules", "rules", "lib.so", "lib.so"), "rules"))
    lines = first_lines({"old": data, "new": data, "rules": b""}) + "bind 1 1\nbind 3 3\nbind 2 2\nend\n"
    runs.write("certificate", lines.encode())
    return "|".join(_fault_and_sentence(runs.said("verify", "lib.so", "lib.so", "certificate"), "certificate"))


def of_path(runs: Runs, cell: str) -> str:
    """How the sentence on an empty file shows its path."""
    path = bytes_of(cell).decode()
    runs.write(path, b"")
    (sentence,) = runs.said("exports", path)
    end = ": it is empty (fault 1 ShortFile at 0)"
    assert sentence.endswith(end), sentence
    return sentence.removesuffix(end)


def _sized(cell: str) -> bytes:
    # A library with this many exports that have a size, of which this many have no type, and with one that has none of both.
    count, untyped = map(int, cell.split())
    types = ";".join(["fn >0"] * max(count - untyped, 1))
    typed = [f"t{number}::function:16:{number}" for number in range(1, count - untyped + 1)]
    others = [f"u{number}::function:16:0" for number in range(untyped)]
    return library(types, " ".join(["-", "none::function:0:0", *typed, *others]))


def untyped(runs: Runs, cell: str) -> str:
    """The note on exports without types beside the check of a library against itself, or a minus."""
    runs.write("lib/a.so", _sized(cell))
    notes = [note for note in runs.said("check", "lib/a.so", "lib/a.so") if UNTYPED in note]
    return notes[0] if notes else "-"


def lost(runs: Runs, old: str, new: str) -> list[str]:
    """The notes beside the check of a library with these exports against another one."""
    runs.write("a.so", _sized(old))
    runs.write("b.so", _sized(new))
    return runs.said("check", "a.so", "b.so")


def beside(runs: Runs, answer: str) -> list[str]:
    """The sentences beside an answer."""
    runs.write("a.so", _sized("3 1" if answer.startswith("yes") else "3 0"))
    runs.write("b.so", b"" if answer == "unreadable new" else _sized("3 1"))
    words = {"done": ["entries", "a.so"], "help": ["--help"]}
    said = runs.said(*words.get(answer, ["check", "a.so", "b.so"]))
    wanted = {"yes, both untyped": 0, "no, the new one untyped": 1, "unreadable new": 2, "done": 0, "help": 0}
    assert runs.status == wanted[answer], (answer, runs.status)
    return said


def numbered(said: list[str], place: int, wanted: str) -> str:
    """The number of sentences, and the wanted beginning of one of them, or the whole."""
    chosen = said[place] if said else ""
    return f"{len(said)}|{wanted if wanted and chosen.startswith(wanted) else chosen}"


def comments(runs: Runs, cell: str) -> str:
    """The lines of a rule file that seem to end with a comment."""
    runs.write("library", library("int:4", "-"))
    runs.write("rules", text_of(cell))
    said = runs.said("check", "--rules", "rules", "library", "library")
    return ";".join(line.removeprefix(f"rules{COMMENTED}") for line in said if COMMENTED in line)

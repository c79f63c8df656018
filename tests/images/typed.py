"""Libraries with debug information: the certificates and the breaks of their types, their faults, what `exports` prints, and the
answers of `verify` to changed certificates."""

from collections.abc import Iterator

import units
from cases import NO_RULES, REFUSED, UNREADABLE, YES, Case, breaks, digest, is_yes, lines, refuses, rows
from images import Image, Symbol, changed, library

# The columns of a line: two libraries with the same types | the lines of the certificate after the digests. `5` and `4` are of these
# versions of DWARF, `type` has a type unit, and clang wrote `indexed`.
ALIKE = """\
5 5|bind 1 1;pair 15 15 direct;pair 22 22 direct;end
5 4|bind 1 1;pair 15 14 direct;pair 22 21 direct;end
5 type|bind 1 1;pair 15 25 direct;pair 22 48 direct;end
indexed indexed|bind 1 1;pair 25 25 direct;pair 29 29 direct;end
5 indexed|bind 1 1;pair 15 25 direct;pair 22 29 direct;end
"""

# The columns of a line: a change of the unit of the new library | the rows of the answer. In the last line the function has
# another address, so the export has no type.
BREAKS = """\
16=08|L2 f result: size 4, now 8
17=07|L3 f result: scalar signed, now unsigned
16=08,04|L14 f: result in rax, now xmm0;L2 f result: size 4, now 8;L3 f result: scalar signed, now float
30=20|X6 f: type gone
"""

# The columns of a line: a change of the unit | the fault. The first change replaces the base type by a typedef `t` of itself.
FAULTS = """\
15=04,74,00,0f,00,00,00|36 TooDeep 15
17=0b|35 Shape 15
25=0c|35 Shape 22
25=16|35 Shape 22
13=04|33 Language 12
15=07|26 AbbrevCode 15
"""

# The columns of a line: those of the first four lines of the library's own certificate that the text has, where x is the second line
# with another digest | the lines that follow | the answer. The library has the function `f` at symbol 1, with the type 22; it takes
# nothing and returns the `int` 15.
CERTIFICATES = """\
1234|bind 1 1;pair 15 15 direct;pair 22 22 direct;end|accepted
234|bind 1 1;pair 15 15 direct;pair 22 22 direct;end|unreadable certificate 60 Line 1
134|bind 1 1;pair 15 15 direct;pair 22 22 direct;end|unreadable certificate 60 Line 2
124|bind 1 1;pair 15 15 direct;pair 22 22 direct;end|unreadable certificate 60 Line 3
123|bind 1 1;pair 15 15 direct;pair 22 22 direct;end|unreadable certificate 60 Line 4
11234|bind 1 1;pair 15 15 direct;pair 22 22 direct;end|unreadable certificate 60 Line 2
1x34|bind 1 1;pair 15 15 direct;pair 22 22 direct;end|refused 70 OtherInput 2
1234|pair 15 15 direct;pair 22 22 direct;end|refused 72 Bindings 1
1234|bind 1 2;pair 15 15 direct;pair 22 22 direct;end|refused 72 Bindings 1
1234|bind 1 1;bind 2 1;pair 15 15 direct;pair 22 22 direct;end|refused 72 Bindings 2
1234|bind 4294967296 1;pair 15 15 direct;pair 22 22 direct;end|unreadable certificate 60 Line 5
1234|bind 1 1;bind 1 1;pair 15 15 direct;pair 22 22 direct;end|unreadable certificate 61 Order 6
1234|bind 1 1;pair 15 15 direct;pair 15 15 direct;pair 22 22 direct;end|unreadable certificate 61 Order 7
1234|bind 1 1;pair 15 15 direct;pair 22 22 direct;pair 22 22 direct;end|unreadable certificate 61 Order 8
1234|bind 1 1;pair 22 22 direct;pair 15 15 direct;end|unreadable certificate 61 Order 7
1234|bind 1 1;pair 015 15 direct;pair 22 22 direct;end|unreadable certificate 60 Line 6
1234|bind 1 1;pair 15 15 direct;pair 22 22 direct;end;end|unreadable certificate 62 End 9
1234|bind 1 1;pair 15 15 direct;pair 22 22 direct|unreadable certificate 62 End 8
1234|bind 1 1;alike old 22 22;pair 15 15 direct;pair 22 22 direct;end|refused 74 Alike 6
1234|bind 1 1;alike old 22 15;pair 15 15 direct;pair 22 22 direct;end|refused 74 Alike 6
1234|bind 1 1;pair 0 0 direct;pair 15 15 direct;pair 22 22 direct;end|accepted
1234|bind 1 1;pair 15 15 direct;pair 15 22 direct;pair 22 22 direct;end|refused 76 Rule 7
1234|bind 1 1;pair 15 15 direct;pair 16 15 direct;pair 22 22 direct;end|refused 76 Rule 7
1234|bind 1 1;pair 15 15 direct;end|refused 75 Root 1
1234|bind 1 1;pair 22 22 direct;end|refused 77 Partner 6
"""


def with_unit(unit: bytes, abbreviations: bytes = units.FUNCTION_ABBREVIATIONS) -> bytes:
    """A library that exports the function `f`, with these abbreviations and this unit."""
    image = Image()
    image.add_symbols([Symbol(b"f")])
    image.add_debug(abbreviations, unit)
    return image.file()


def indexed() -> bytes:
    """A library that exports the function `f`, whose name and address the entries give by indexes."""
    image = Image()
    image.add_symbols([Symbol(b"f")])
    image.add_debug(units.INDEXED_ABBREVIATIONS, units.INDEXED_UNIT)
    for name, data in units.INDEX_TABLES:
        image.add(name, data)
    return image.file()


LIBRARIES = {
    "5": with_unit(units.FUNCTION_UNIT),
    "4": with_unit(units.FUNCTION_UNIT_4),
    "type": with_unit(units.TYPE_UNIT, units.TYPE_ABBREVIATIONS),
    "indexed": indexed(),
}


def exports(test: str, row: str, file: bytes, status: int, text: str) -> Case:
    return Case(test, row, ["exports", "lib"], {"lib": file}, status, text)


def fault_cases() -> Iterator[Case]:
    test = "faults_of_types_are_named"
    for row in rows(FAULTS):
        changes, fault = row.split("|")
        # Only a fault of depth needs the abbreviation of a typedef.
        abbreviations = units.TYPEDEF_ABBREVIATIONS if "TooDeep" in fault else units.FUNCTION_ABBREVIATIONS
        bad = with_unit(changed(units.FUNCTION_UNIT, changes), abbreviations)
        yield from refuses(test, row, bad, LIBRARIES["5"], fault)
        yield exports(test, row, bad, UNREADABLE, f"unreadable library {fault}\n")


def certificate_cases() -> Iterator[Case]:
    test = "changed_certificates_are_refused"
    file = LIBRARIES["5"]
    heads = {
        "1": "yes 2\n",
        "2": f"old {digest(file)}\n",
        "3": f"new {digest(file)}\n",
        "4": f"rules {NO_RULES}\n",
        "x": f"old {'0' * 64}\n",
    }
    statuses = {"accepted": YES, "refused": REFUSED, "unreadable": UNREADABLE}
    for row in rows(CERTIFICATES):
        head, cell, answer = row.split("|")
        text = "".join(heads[letter] for letter in head) + lines(cell)
        files = {"old": file, "new": file, "cert": text.encode()}
        yield Case(test, row, ["verify", "old", "new", "cert"], files, statuses[answer.split()[0]], answer + "\n")


def cases() -> Iterator[Case]:
    for row in rows(ALIKE):
        pair, cell = row.split("|")
        old, new = pair.split()
        yield is_yes("a_library_may_replace_itself", row, LIBRARIES[old], LIBRARIES[new], cell)
    for row in rows(BREAKS):
        changes, cell = row.split("|")
        new_file = with_unit(changed(units.FUNCTION_UNIT, changes))
        yield breaks("breaks_of_types_have_rows", row, LIBRARIES["5"], new_file, cell)
    yield from fault_cases()
    for word, file in LIBRARIES.items():
        yield exports("exports_are_printed", word, file, YES, "1 f FUNC 16 params - result rax\n")
    yield exports("an_export_may_have_no_type", "f", library([b"f"]), YES, "1 f FUNC 16 untyped\n")
    yield from certificate_cases()

"""The answers about readable libraries."""

from collections.abc import Iterator

from cases import NO, YES, Case, breaks, check, rows
from images import Image, Symbol, library

# Another program computed the digests, from images that another program laid out.
YES_WITHOUT_EXPORTS = """\
yes 2
old 736380ed8ffd151f2afafc4738979385096fbdc71614ffad839e93136f36707a
new 736380ed8ffd151f2afafc4738979385096fbdc71614ffad839e93136f36707a
rules e3b0c44298fc1c149afbf4c8996fb92427ae41e4649b934ca495991b7852b855
end
"""

YES_TURNED_ROUND = """\
yes 2
old b24125b5125d89936635ba9329f6d86226c33c8bad09ce2600c0aeede364acf9
new 41b65a2c7a9b5b7d9be254b1f46906e3e93f9ab4d8c022e7ffb43944954705b7
rules e3b0c44298fc1c149afbf4c8996fb92427ae41e4649b934ca495991b7852b855
bind 1 2
bind 2 1
end
"""

# The columns of a line: the old library, as its soname and its exports | the new one | the rows of the answer.
BREAKS = """\
:f,g|:f|X2 g: gone
:a\x01\\|:|X2 a\\x01\\x5c: gone
:~! é|:|X2 ~!\\x20\\xc3\\xa9: gone
libx.so.1:|libx.so.2:|X1 -: SONAME libx.so.1, now libx.so.2
:|libx.so.2:|X1 -: SONAME none, now libx.so.2
libx.so.1:f|:f|X1 -: SONAME libx.so.1, now none
libx.so.1:z,f,a|libx.so.2:f|X1 -: SONAME libx.so.1, now libx.so.2;X2 z: gone;X2 a: gone
libx.so.1:z,f,a|libx.so.1:fa,b|X2 z: gone;X2 f: gone;X2 a: gone
"""

# The columns of a line: the info field of a symbol, which is the binding times 16 plus the type, its visibility and its section,
# in hexadecimal | whether it is an export | a description.
SYMBOLS = """\
12 0 1|yes|global function
02 0 1|no|local
22 0 1|yes|weak
32 0 1|no|a binding that is not used
a1 0 1|yes|unique
b1 0 1|no|a binding that is not used
10 0 1|yes|no type
11 0 1|yes|object
13 0 1|no|section
14 0 1|no|file
15 0 1|yes|common
16 0 1|yes|thread-local
17 0 1|no|a type that is not used
1a 0 1|yes|function by a resolver
1b 0 1|no|a type that is not used
12 1 1|no|internal
12 2 1|no|hidden
12 3 1|yes|protected
12 fc 1|yes|default, with bits that do not count
12 06 1|no|hidden, with a bit that does not count
12 0 0|no|undefined
12 0 fff1|yes|absolute
12 0 ff00|yes|the first number that is no section's
"""


GONE = "no\nX2 s: gone\n"


def plain_library(cell: str) -> bytes:
    """A library with a soname, if there is one, and with exports after a colon."""
    soname, _, exports = cell.partition(":")
    return library([name.encode() for name in exports.split(",") if name], soname.encode())


def of_symbol(cell: str) -> bytes:
    """The library whose only symbol is that of a row."""
    info, other, section = (int(word, 16) for word in cell.split())
    image = Image()
    image.add_symbols([Symbol(b"s", info=info, other=other, section=section)])
    return image.file()


def symbol_cases() -> Iterator[Case]:
    """An export of the old library is seen by its row, because the new library has no symbol; one of the new library is seen because
    the old one exports the name, and there is no row that says it is gone."""
    test = "exports_are_told_from_other_symbols"
    none, one = library([]), library([b"s"])
    for row in rows(SYMBOLS):
        symbol, is_export, _ = row.split("|")
        file = of_symbol(symbol)
        if is_export == "yes":
            yield check(test, row, file, none, NO, GONE)
            files = {"old": one, "new": file}
            yield Case(test, row, ["check", "old", "new"], files, None, None, unlike=GONE)
        else:
            yield check(test, row, file, none, YES, None)
            yield check(test, row, one, file, NO, GONE)


def cases() -> Iterator[Case]:
    test = "a_yes_prints_the_certificate"
    yield check(test, "no exports", plain_library(""), plain_library(""), YES, YES_WITHOUT_EXPORTS)
    yield check(test, ":f,g|:g,f", plain_library(":f,g"), plain_library(":g,f"), YES, YES_TURNED_ROUND)
    for row in rows(BREAKS):
        old, new, answer = row.split("|")
        yield breaks("a_no_prints_each_break", row, plain_library(old), plain_library(new), answer)
    yield from symbol_cases()

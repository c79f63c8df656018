"""Symbols with versions: what they bind to, how reports show them, and the faults of their tables."""

from collections.abc import Iterator

from cases import Case, breaks, is_yes, names_fault, refuses, rows
from images import (
    VER_FLG_BASE,
    VER_NDX_GLOBAL,
    VER_NDX_LOCAL,
    VERSYM_HIDDEN,
    Image,
    Symbol,
    Version,
    changed,
    library,
    marker,
    versioned_function,
)

# The columns of a line: the old library | the new one | how their symbols bind. A library has names of versions, whose indexes count
# from 1, and after a colon its symbols with their indexes, such as `f.2`, or `f.-2` for a hidden version; the symbol `V1` is that of
# the version. `f` alone is a function without versions.
BINDINGS = """\
# Without a version: to the one without a version, else to the first version, else to the only default one.
f|a.so,V1,V2:f.-2 f.3|bind 1 1;end
f|a.so,V1,V2:f.-2 f.1|bind 1 2;end
f|a.so,V1,V2:g.2 f.3|bind 1 2;end
# With a version: to the one of that version, hidden or not.
a.so,V1,V2:f.-2 f.3|a.so,V1,V2:f.-3 f.2|bind 1 2;bind 2 1;end
# The symbol of a version is no export.
a.so,V1,V2:f.2 V1.2|a.so,V1,V2:f.2|bind 1 1;end
# A symbol of index 0 is none either.
a.so,V1,V2:f.0|a.so,V1,V2:f.2|end
"""

# The columns of a line: the old library | the new one | the rows of the answer.
BREAKS = """\
a.so,V1,V2:f.-2 f.3|a.so,V1,V2:f.3|X3 f@V1: version gone
a.so,V1,V2:f.-2 f.3||X2 f@V1: gone;X2 f@@V2: gone
a.so,V1,V2:f.1 V1.3||X2 f: gone;X2 V1@@V2: gone
a.so,V1,V2:f.3|f|X3 f@@V2: version gone
# A hidden version other than the first is not bound to.
f|a.so,V1,V2:f.-3|X3 f: version gone
# Bytes that are not printed.
a.so,V 1:\x7f\\.2||X2 \\x7f\\x5c@@V\\x201: gone
"""

# The columns of a line: the old symbol, as its name, its type, which is 1 for an object, 2 for a function and 6 for what is
# thread-local, and its size | the new one | the rows of the answer.
KINDS = """\
f 2 16|f 1 16|X4 f: kind FUNC, now OBJECT
v 1 4|v 1 8|X5 v: object size 4, now 8
f 6 16|f 2 16|X4 f: kind TLS, now FUNC
"""

# Libraries with two exports of one name and version. The last one has two definitions of one name.
TWINS = """\
a.so,V1,V2:f.1 f.1
a.so,V1,V2:f.1 f.-1
a.so,V1,V2:f.2 f.-2
a.so,V,V:f.2 f.3
"""

# The columns of a line: a change of `GOOD` | its fault.
INDEXES = """\
# A size that is not that of two indexes.
536=00|15 VersionTable 0
536=02|15 VersionTable 0
536=03|15 VersionTable 0
536=05|15 VersionTable 0
536=06|15 VersionTable 0
# An index that no definition has, hidden or not.
122=04|17 VersionIndex 1
122=04,80|17 VersionIndex 1
# Fewer definitions, and none.
612=01|17 VersionIndex 1
572=01,00,00,00|17 VersionIndex 1
# The first of several comes.
536=03 128=02|15 VersionTable 0
122=04 128=02|16 VersionDefinition 0
"""

# The same for the chains of definitions.
CHAINS = """\
# Links to what is no string table.
608=00|16 VersionDefinition 0
608=01|16 VersionDefinition 0
608=07|16 VersionDefinition 0
# A section that ends inside a definition or inside its auxiliary entry.
600=13|16 VersionDefinition 0
600=1b|16 VersionDefinition 0
600=2f|16 VersionDefinition 1
600=53|16 VersionDefinition 2
# A next definition, and an auxiliary entry, that lie outside.
144=41|16 VersionDefinition 1
144=ff,ff,ff,ff|16 VersionDefinition 1
172=25|16 VersionDefinition 2
140=4d|16 VersionDefinition 0
196=15|16 VersionDefinition 2
# A chain that ends before its last definition.
144=00|16 VersionDefinition 0
172=00|16 VersionDefinition 1
612=04|16 VersionDefinition 2
"""

# The same for the fields of definitions.
FIELDS = """\
# Another version of the format, no auxiliary entry, and no index.
128=00|16 VersionDefinition 0
157=01|16 VersionDefinition 1
134=00|16 VersionDefinition 0
190=00|16 VersionDefinition 2
132=00|16 VersionDefinition 0
160=00,80|16 VersionDefinition 1
# An index that stood before.
160=01|16 VersionDefinition 1
188=02|16 VersionDefinition 2
188=02,80|16 VersionDefinition 2
# A name that begins behind the strings, and one that does not end in them.
148=0c|16 VersionDefinition 0
227=78|16 VersionDefinition 2
# The first of several comes.
188=02 160=01|16 VersionDefinition 1
"""

# The columns of a line: a change of the same library | the answer about it as the old library.
UNUSUAL = """\
# The index of `f`, and that of symbol 0, which is no export.
122=02,80|X2 f@V1: gone
122=03|X2 f@@V2: gone
122=01|X2 f: gone
122=01,80|X2 f: gone
120=09|X2 f@@V1: gone
# A bit of a definition's index that does not count, a hash, a name inside another one, and fewer definitions.
160=02,80|X2 f@@V1: gone
164=09|X2 f@@V1: gone
176=03|X2 f@@so: gone
612=02|X2 f@@V1: gone
"""


def version_index(word: str) -> int:
    """The index after the name of a symbol; a minus says that the version is hidden."""
    index = word.split(".")[1]
    return VERSYM_HIDDEN | int(index[1:]) if index.startswith("-") else int(index)


def of_row(row: str) -> bytes:
    """The library of a row."""
    names, _, cell = row.partition(":")
    if names in ("", "f"):
        return library([b"f"] if names else [])
    words = cell.split()
    symbols = [word.split(".")[0].encode() for word in words]
    image = Image()
    image.add_symbols([marker(name) if name == b"V1" else Symbol(name) for name in symbols])
    image.add_version_indexes([VER_NDX_LOCAL] + [version_index(word) for word in words])
    flags = [VER_FLG_BASE] + [0] * names.count(",")
    numbered = zip(range(VER_NDX_GLOBAL, 100), flags, names.split(","))
    image.add_versions([Version(index, flag, name.encode()) for index, flag, name in numbered])
    return image.file()


def of_symbol(cell: str) -> bytes:
    """The library whose only symbol has the name, the type and the size of a cell."""
    name, kind, size = cell.split()
    image = Image()
    image.add_symbols([Symbol(name.encode(), info=0x10 | int(kind), size=int(size))])
    return image.file()


# A library of 760 bytes that exports `f@@V1`.
#
# The indexes of its two symbols are at 120; the three definitions at 128, 156 and 184; their 12 bytes of strings at 216. The
# section header of the indexes, section 3, is at 504, and that of the definitions, section 4, at 568.
GOOD = of_row("a.so,V1,V2:f.2")


def pair_cases() -> Iterator[Case]:
    for row in rows(BINDINGS):
        old, new, answer = row.split("|")
        yield is_yes("exports_bind_by_name_and_version", row, of_row(old), of_row(new), answer)
    for row in rows(BREAKS):
        old, new, answer = row.split("|")
        yield breaks("breaks_of_versions_are_told", row, of_row(old), of_row(new), answer)
    for row in rows(KINDS):
        old, new, answer = row.split("|")
        yield breaks("kinds_and_sizes_are_compared", row, of_symbol(old), of_symbol(new), answer)


def damage_cases() -> Iterator[Case]:
    for test, table in [
        ("version_indexes_are_refused", INDEXES),
        ("chains_of_version_definitions_are_refused", CHAINS),
        ("fields_of_version_definitions_are_refused", FIELDS),
    ]:
        for row in rows(table):
            changes, fault = row.split("|")
            yield from refuses(test, row, changed(GOOD, changes), GOOD, fault)


def cases() -> Iterator[Case]:
    assert len(GOOD) == 760
    none = library([])
    yield from pair_cases()
    test = "exports_of_one_name_and_version_are_refused"
    for row in rows(TWINS):
        yield names_fault(test, row, of_row(row), none, "old 18 DuplicateExport 2")
    yield from damage_cases()
    for row in rows(UNUSUAL):
        changes, answer = row.split("|")
        yield breaks("unusual_versions_are_readable", row, changed(GOOD, changes), none, answer)
    test = "exports_with_versions_have_types"
    file = versioned_function([])
    yield is_yes(test, "f@@V1", file, file, "bind 1 1;pair 15 15 direct;pair 22 22 direct;end")
    # An export without a type does not require one.
    yield is_yes(test, "f", library([b"f"]), file, "bind 1 1;end")

"""The rows of docs/manual/LIMITS.md: for each limit what is counted, by which words `abi` names it, and how much there may be. The words
and the numbers come from the sources."""

from __future__ import annotations

from dataclasses import dataclass

from .figures import constant, rate, words

_SYMBOL = constant("elf/src/constants.rt", "SYM_SIZE")
_ROW = constant("pair_compare/src/reports/rows.rt", "ROW")


# What tells limits apart that `abi` names by the same words: by the names of their figures.
_APART = {
    "needs": "the table of needs", "imports": "imports",
    "report": "rows", "places": "places in the source", "typedefs": "names of typedefs",
    "listing": "lines of `exports`", "layout": "members in `layout`",
    "weight": "all patterns of a rule file", "classes": "classes in values", "blocks": "sections that one name finds",
    "read": "letters that patterns read",
    "joins": "lines that are joined", "lines": "lines that are written",
    "needed_for_notes": "needed files", "needed": "needed files, `app`", "notes": "all other notes",
    "affected": "bytes of their notes", "steps_to": "steps to find them",
}


@dataclass(frozen=True)
class Row:
    """A limit: the name of its figure, what it counts, its name in the table, and how much there may be."""

    name: str
    counted: str
    row: str
    limit: str

    @property
    def words(self) -> str:
        """The words by which `abi` names the limit."""
        return words(self.row)

    @property
    def apart(self) -> str:
        """What tells the limit apart from others with the same words, if there are any."""
        return _APART.get(self.name, "")

    @property
    def named(self) -> str:
        """The words, and what tells the limit apart: no two limits have the same."""
        return f"{self.words} ({self.apart})" if self.apart else self.words


def _times(name: str, counted: str, row: str, table: str) -> Row:
    """A limit that is a multiple of the bytes of a table."""
    return Row(name, counted, row, f"{rate(row).each} times {table}")


def _each(name: str, counted: str, row: str, thing: str) -> Row:
    """A limit that grows with the number of things, and has a constant part."""
    return Row(name, counted, row, f"{rate(row).each:,} for each {thing}, and {rate(row).base:,} more")


def _by_bytes(name: str, counted: str, row: str) -> Row:
    """A limit of one for each group of bytes of the file, with a constant part."""
    return Row(name, counted, row, f"1 for each {rate(row).units} bytes of the file, and {rate(row).base:,} more")


def _symbols(name: str, counted: str, row: str) -> Row:
    """A limit in bytes that grows with the number of symbols."""
    return Row(name, counted, row, f"{rate(row).each * _SYMBOL:,} bytes for each symbol")


def _alone(name: str, counted: str, row: str) -> Row:
    """A limit that grows with nothing."""
    return Row(name, counted, row, f"{rate(row).base:,}")


ROWS = [
    _times("symbols", f"Symbols: {_SYMBOL} bytes each, and its name", "Symbols",
           "the bytes of `.dynsym` and of its string table"),
    _times("definitions", "Definitions of versions: 20 bytes each, and its name", "VersionDefinitions",
           "the bytes of their section and of its string table"),
    _symbols("exports", "Exports: the bytes of the name and of its version", "ExportNames"),
    _times("declared", "Letters of the names under which exports are declared", "DeclaredNames", "the bytes of the file"),
    _times("needs", "`app`, needs of versions: 16 bytes for each file and each version, and the names", "VersionNeeds",
           "the bytes of their section and of its string table"),
    _symbols("imports", "`app`, imports: the names of the version and of the file that each one needs", "ImportNeeds"),
    _times("needed_for_notes", "Needed files, for notes: 16 bytes for each entry of the dynamic table, and the name", "NeededFiles",
           "the bytes of `.dynamic` and of its string table"),
    _times("needed", "`app`, remarks: the letters of each needed file's name that is compared with the soname", "NeededFiles",
           "the bytes of `.dynamic` and of its string table"),
    _times("lists", "Range lists of functions: the bytes of each up to its first range", "RangeLists",
           "the bytes of `.debug_rnglists` and `.debug_ranges`"),
    _times("tables", "Tables of abbreviations that are read: 5 bytes for each abbreviation, 2 for each attribute of it", "Abbreviations",
           "the bytes of `.debug_abbrev`"),
    Row("attributes", "Attributes of the entries of a unit", "Attributes", f"{rate('Attributes').each} for each byte of the unit"),
    _by_bytes("types", "Types that exports reach", "Types"),
    _by_bytes("flat", "Members and parameters that are made; those of a nameless structure in each structure around it", "Members"),
    _by_bytes("enumerators", "Enumerators", "Enumerators"),
    _by_bytes("parts", "Parts by which types are compared, counted again for each type: members, enumerators, parameters, targets",
              "Parts"),
    _each("letters", "Letters of the names of types and parts, counted again for each type", "Letters", "byte of the file"),
    _each("names", "Names of types: each has its own and those of its typedefs", "TypeNames", "type"),
    _each("steps", "Steps from types that functions pass by value to their leaves", "Leaves", "type"),
    _each("visits", "Pairs of types that are visited", "Pairs", "type of both libraries"),
    _each("compared", "Parts of the types of each pair that is visited, or that a certificate pairs; each 64 letters of a name are one "
          "more", "PairParts", "part of both libraries"),
    _each("breaks", "Rules that pairs of types break", "Breaks", "type of both libraries"),
    _each("report", f"Rows of a report: {_ROW} bytes each, and its texts", "Report", "byte of both files"),
    _each("places", "`abi-json`, places in the source: the bytes of each header of a line program that is read, and for each place the "
          "letters of the file's name and of its directories", "SourcePlaces", "byte of the file"),
    _each("typedefs", "`abi-json`, letters of the names of typedefs that name types without a tag", "TypedefNames", "byte of the file"),
    _each("listing", "Bytes that `exports` prints", "Listing", "byte of the file"),
    _each("layout", "Letters of the names of the members that `layout` prints", "LayoutNames", "byte of the file"),
    _alone("soname", "Bytes of the soname to which a rule file is applied", "Soname"),
    _alone("weight", "Weight of the patterns of a rule file", "Patterns"),
    _alone("classes", "Classes in the values of a rule file: each backslash before a letter and each `[`, eight times if the value has "
           "flags such as `(?i)`", "PatternClasses"),
    _alone("blocks", "Sections that test names and are found by one name, or by none, in a block of sections that are compiled at a time",
           "BlockSections"),
    _each("read", "Letters of names that patterns may read, times the weight of the patterns", "PatternLetters",
          "export and each name of a type"),
    _each("idle", "Tests that find the sections of a rule file that match nothing: one for each section and each export or name of a type",
          "IdleSections", "section and each test of one"),
    _each("joins", "Lines that `compose` joins: each line of the second certificate that meets one of the first, and each type between "
          "them", "PairLines", "pair line of both certificates"),
    _alone("lines", "Pair lines that `compose` writes", "ComposedLines"),
    _alone("certificate", "Bytes of the certificate that `compose` writes", "Certificate"),
    _each("notes", "Work and bytes of notes", "Notes", "byte of both files"),
    _each("affected", "Bytes of the notes on exports that reach a break", "AffectedExports", "byte of the old file"),
    _each("steps_to", "Visits and arrows along which the exports that reach a break are found", "AffectedSteps", "byte of the old file"),
]

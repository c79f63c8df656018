"""Generated rule files, with the libraries to which they are applied."""

import random

from .cases import Case, Kind, ruled
from .dwarf import AT_NAME, STRING, FREE, STRUCTURE, Abbreviation, AT_BYTE_SIZE, DATA4, Info
from .elf import Symbol, image, soname_section, symbol_sections
from .encode import short_name, text, u32
from .library import addresses, exporting, library
from .names import ends_of, of_versions, versioned

FIRST_LETTER = 0x4E00


def exact_names(count: int) -> Case:
    """Sections that each name a function that does not exist."""
    rules = "".join(f"[suppress_function]\nname = {short_name(number)}_\n" for number in range(count))
    return ruled(exporting(addresses(count)), rules)


def patterns(count: int) -> Case:
    """Sections with a pattern that matches no name."""
    rules = "".join(f"[suppress_function]\nname_regexp = {short_name(number)}_$\n" for number in range(count))
    return ruled(exporting(addresses(count)), rules)


def small_patterns(count: int) -> Case:
    """Patterns of a few bytes, and one export."""
    rules = "[suppress_function]\nname_regexp = ^_\n" * count
    return ruled(exporting(addresses(1)), rules)


def classes(count: int) -> Case:
    """Patterns of Unicode classes, of the greatest length allowed, and one export."""
    pattern = r"\w\d\s" * 42
    return ruled(exporting(addresses(1)), f"[suppress_function]\nname_regexp = {pattern}_\n" * count)


def folded_classes(count: int) -> Case:
    """Patterns of letters in both cases, of nearly the greatest length allowed, and one export."""
    pattern = "(?i)" + r"\pL" * 84
    return ruled(exporting(addresses(1)), f"[suppress_function]\nname_regexp = {pattern}\n" * count)


def folded_ranges(count: int) -> Case:
    """The same with ranges of letters. They have no backslash, so each pattern weighs little."""
    pattern = "(?i)" + "[\u0080-\U0010ffff]" * 28
    return ruled(exporting(addresses(1)), f"[suppress_function]\nname_regexp = {pattern}\n" * count)


def dotted_patterns(count: int) -> Case:
    """Patterns of 200 dots, and names in which each search meets many states."""
    letters = random.Random(1)
    text_of_two = bytes(letters.choice(b"ab") for _ in range(2500))
    pattern = "a" + "." * 200 + "c"
    rules = f"[suppress_function]\nname_regexp = {pattern}\n" * count
    return ruled(ends_of(text_of_two, 2500), rules)


def version_sections(count: int) -> Case:
    """Sections that each ask another version, and equally many exports. No section has a pattern or gives a name."""
    rules = "".join(f"[suppress_function]\nsymbol_version = {short_name(number)}_\n" for number in range(count))
    return ruled(versioned(count, "v"), rules)


def sections_of_a_name(count: int) -> Case:
    """Sections that give the same name and another version each, and equally many exports of this name."""
    rules = "".join(
        f"[suppress_function]\nname = f\nsymbol_version = {short_name(number)}_\n" for number in range(count)
    )
    return ruled(of_versions(count, "f", 0x8000), rules)


def heavy_pattern(count: int) -> Case:
    """One pattern of Unicode classes, and an export with a long name, which the pattern has to read to the end."""
    pattern = r"(?:\w+\d*\pL?)" * 14
    letters = "".join(chr(FIRST_LETTER + number % 1000) for number in range(count))
    names = b"\0" + text(letters)
    contents = image(symbol_sections([Symbol(1, 0x1000)], names))
    return ruled(contents, f"[suppress_function]\nname_regexp = {pattern}\\s\n")


def sonames(count: int) -> Case:
    """Sections that match against a long soname, and equally many exports."""
    names = bytearray(b"\0")
    symbols = []
    for number, value in enumerate(addresses(count)):
        symbols.append(Symbol(len(names), value))
        names += short_name(number).encode() + b"\0"
    at = len(names)
    names += b"a" * (20 * count) + b"\0"
    contents = image([*symbol_sections(symbols, bytes(names)), soname_section(at)])
    return ruled(contents, "[suppress_function]\nsoname_regexp = [bc][de]\n" * count)


def kinds_of_types(count: int) -> Case:
    """Sections without a name that match no type, and equally many structures with different names."""
    info = Info()
    info.begin()
    pointers = []
    for number in range(count):
        pointers.append(info.pointer(info.add(FREE, text(short_name(number)), u32(4))))
    info.function(0x1000, *pointers)
    info.close()
    info.end()
    further = [Abbreviation(FREE, STRUCTURE, False, ((AT_NAME, STRING), (AT_BYTE_SIZE, DATA4)))]
    return ruled(library(info, [0x1000], further), "[suppress_type]\ntype_kind = enum\n" * count)


KINDS = [
    Kind("exact_names", "n sections that give a name, n exports", exact_names, 3000),
    Kind("patterns", "n sections with a pattern of few bytes, n exports", patterns, 2000),
    Kind("small_patterns", "n sections with one small pattern, one export", small_patterns, 500),
    Kind("classes", "n patterns of Unicode classes, 256 bytes each", classes, 20),
    Kind("folded_classes", "n patterns of classes of letters in both cases, 256 bytes each", folded_classes, 20),
    Kind("folded_ranges", "n patterns of ranges of letters in both cases, 256 bytes each", folded_ranges, 40),
    Kind("dotted_patterns", "n patterns of 200 dots, 2,500 exports", dotted_patterns, 7),
    Kind("version_sections", "n sections that ask a version, n exports", version_sections, 3000),
    Kind("sections_of_a_name", "n sections that give one name and ask a version, n exports of this name", sections_of_a_name, 3000),
    Kind("heavy_pattern", "a pattern of Unicode classes, and a name of 3 n bytes", heavy_pattern, 50000),
    Kind("sonames", "n sections that ask a soname of 20 n bytes, n exports", sonames, 200),
    Kind("kinds_of_types", "n sections that ask a kind of types, n structures", kinds_of_types, 5000),
]

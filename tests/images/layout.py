"""The bytes of the images that `images` builds: for each, positions and the bytes that must be there."""

from collections.abc import Iterator

from images import VERSYM_HIDDEN, BASE, Image, Symbol, Version, functions, library

# A file with two exports and a soname: 72 bytes of symbols at 64, 5 of names at 136, 32 of the dynamic table at 144, 6 of the
# soname's strings at 176, 49 of section names at 184, and six section headers at 240. A line has a position and the bytes from there
# on, in hexadecimal; `zN` stands for N zeros, and a remark follows after a bar.
LIBRARY = """\
0   7f 45 4c 46 02 01 01 z9 | the identification
16  03 00 3e 00 01 00 00 00 | type, machine, version
24  z16                     | entry, program headers
40  f0 z7                   | section table
48  z10                     | flags, sizes and number of program headers
58  40 00 06 00 05 00       | section headers: their size, their number and the index of the section of names
432 11 00 00 00 06 00 00 00 | of the dynamic table: name and type
440 z16                     | flags and address
456 90 z7 20 z7             | offset and size
472 04 00 00 00 z4          | link and info
480 08 z7 10 z7             | alignment and size of entries
"""

# Four symbols of 24 bytes from 64 on, followed by their names.
NUMBERED = """\
136 07 00 00 00 12 00 01 00 20 10 z6 10 z7 | the last symbol
"""

# The version indexes are at 120, after the symbols and their names, the definitions at 128, and their names at 184.
VERSIONS = """\
120 00 00 02 80 z4                                        | the indexes
128 01 00 01 00 01 00 01 00 z4 14 00 00 00 1c 00 00 00    | the first definition
148 01 00 00 00 z4                                        | its name
156 01 00 00 00 02 00 01 00 z4 14 00 00 00 z4             | the second one
176 06 00 00 00 z4                                        | its name
184 00 61 2e 73 6f 00 56 31 00                            | the names
"""


def bytes_of(words: str) -> bytes:
    """The bytes in hexadecimal, with `zN` for N zeros."""
    return b"".join(bytes(int(word[1:])) if word.startswith("z") else bytes.fromhex(word) for word in words.split())


def table_parts(table: str) -> list[tuple[int, bytes]]:
    parts = []
    for line in table.splitlines():
        place, words = line.partition("|")[0].split(maxsplit=1)
        parts.append((int(place), bytes_of(words)))
    return parts


def with_sections() -> bytes:
    image = Image()
    image.add(".comment", b"text")
    assert len(image.sections) == 1
    image.add_symbols([Symbol(b"f")])
    image.add_soname(b"a.so")
    return image.file()


def with_versions() -> bytes:
    image = Image()
    image.add_symbols([Symbol(b"f")])
    image.add_version_indexes([0, VERSYM_HIDDEN | 2])
    image.add_versions([BASE, Version(2, 0, b"V1")])
    return image.file()


def with_names_in_the_middle() -> bytes:
    """The symbols are at 64, their names and those of the versions at 112, the version indexes at 120, the definition at 128, the
    section names at 160 and the note at 224."""
    image = Image()
    image.add_versioned_symbols([Symbol(b"f")], [0, 2], [Version(2, 0, b"V1")])
    image.add_section_names()
    image.add(".note", b"x")
    assert len(image.sections) == 6
    return image.file()


def numbered_library(count: int) -> bytes:
    image = Image()
    image.add_symbols(functions([f"f{number}".encode() for number in range(count)]))
    return image.file()


def parts() -> Iterator[tuple[str, bytes, int, bytes]]:
    """The name of each test, a file, a position, and the bytes that must be there."""
    names = b"\0.dynsym\0.dynstr\0.dynamic\0.dynamic.str\0.shstrtab\0\0\0\0\0\0\0\0"
    middle = b"\0.dynsym\0.dynstr\0.gnu.version\0.gnu.version_d\0.shstrtab\0.note\0"
    for test, file, wanted in [
        ("lays_out_a_library", library([b"f", b"g"], b"a.so"), table_parts(LIBRARY) + [(184, names)]),
        ("numbers_exports", numbered_library(3), table_parts(NUMBERED) + [(160, b"\0f0\0f1\0f2\0")]),
        ("adds_sections", with_sections(), [(64, b"text\0\0\0\0")]),
        ("adds_sections", library([b"f"]), [(112, b"\0f\0")]),
        ("adds_versions", with_versions(), table_parts(VERSIONS)),
        (
            "puts_section_names_in_the_middle",
            with_names_in_the_middle(),
            [(58, bytes_of("40 00 07 00 05 00")), (112, b"\0f\0V1\0"), (160, middle)],
        ),
    ]:
        for place, data in wanted:
            yield test, file, place, data

"""What is read of one image, section by section and symbol by symbol."""

from collections.abc import Iterator

from cases import YES, Case, breaks
from images import Image, Symbol, library


def commented() -> bytes:
    """Sections: 1 `.dynsym`, 2 `.dynstr`, 3 `.comment`, 4 `.dynamic`, 5 `.dynamic.str`, 6 `.comment`, 7 `.shstrtab`. The object has the
    binding STB_GNU_UNIQUE, the visibility STV_PROTECTED and the section SHN_ABS."""
    image = Image()
    data = Symbol(b"data", info=0xA1, other=3, section=0xFFF1, value=0x0123456789ABCDEF, size=8)
    image.add_symbols([Symbol(b"f"), data])
    first = image.add(".comment", b"first")
    first.link, first.info, first.entry_size = 5, 9, 3
    image.add_soname(b"libx.so.1")
    image.add(".comment", b"second")
    return image.file()


def cases() -> Iterator[Case]:
    files = {"lib": commented()}
    listed = "1 f FUNC 16 untyped\n2 data OBJECT 8 untyped\n"
    yield Case("symbols_are_read", "exports", ["exports", "lib"], files, YES, listed)
    cell = "X1 -: SONAME libx.so.1, now none;X2 f: gone;X2 data: gone"
    yield breaks("the_soname_is_read", "a library without one", commented(), library([]), cell)

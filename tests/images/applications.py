"""What `app` prints."""

import struct
from collections.abc import Iterator

from cases import Case, lines, rows
from images import SHT_GNU_VERNEED, SHT_STRTAB, Image, Symbol, described

OLD = """\
soname libx.so.1
version V1
function f V1
function g V1
"""

NEW = """\
soname libx.so.1
version V1
function f V1
"""

# The columns of a line: the functions that the application imports | their version index, which is 1 for no version and 2 for version
# V1 of a file | that file | the number of needs that its table states | the status | the answer.
ROWS = """\
f|2|libx.so.1|1|0|yes app;use f@@V1
f g|2|libx.so.1|1|1|no;X2 g@@V1: gone
g|2|liby.so.2|1|0|yes app
f|2|libx.so.1|2|2|unreadable app 41 VersionNeed 0
g|1|liby.so.2|1|1|no;X2 g@@V1: gone
"""


def application(imports: str, index: int, file: str, needs: int) -> bytes:
    """An application with these imports, and with one need of version V1 of a file."""
    image = Image()
    symbols = [Symbol(name.encode(), section=0) for name in imports.split()]
    image.add_symbols(symbols)
    image.add_version_indexes([0] + [index] * len(symbols))
    # The need and its auxiliary entry, for index 2: the name of the file is at byte 4 of the strings, and the version at byte 1.
    table = struct.pack("<HHIII", 1, 1, 4, 16, 0) + struct.pack("<IHHII", 0, 0, 2, 1, 0)
    section = image.add(".gnu.version_r", table, SHT_GNU_VERNEED)
    section.link, section.info = len(image.sections) + 1, needs
    image.add(".needstr", b"\0V1\0" + file.encode() + b"\0", SHT_STRTAB)
    return image.file()


def cases() -> Iterator[Case]:
    test = "only_what_the_application_imports_is_judged"
    for row in rows(ROWS):
        imports, index, file, needs, status, answer = row.split("|")
        app = application(imports, int(index), file, int(needs))
        files = {"app": app, "old": described(OLD), "new": described(NEW)}
        yield Case(test, row, ["app", "app", "old", "new"], files, int(status), lines(answer))

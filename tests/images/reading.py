"""One library as it is read."""

from collections.abc import Iterator

from growth import F_OF_INT
from images import described, library, versioned_function

# The columns of a line: a library | for its only export the symbol number, the label, the entry of its type and the name in the debug
# information | the entries of the nodes. Without debug information there is no type.
ROWS = """\
versioned|1 f@@V1 22 f|0 15 22
bare|1 f 0 f|0
other name|1 f@V1 57 f_v1|0 15 36 57
"""

LIBRARIES = {"versioned": versioned_function([]), "bare": library([b"f"]), "other name": described(F_OF_INT)}


def readings() -> Iterator[tuple[str, bytes, str, str, str]]:
    """Of each row a library, the start of its line in `exports`, the line of its export in the graph, and the nodes."""
    for row in ROWS.splitlines():
        name, export, nodes = row.split("|")
        number, label, entry, declared = export.split()
        yield row, LIBRARIES[name], f"{number} {label} ", f"export {label} entry {entry} named {declared}", nodes

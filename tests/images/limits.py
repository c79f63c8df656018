"""Libraries at the limits of the reader, and one step beyond them."""

from collections.abc import Iterator

from cases import UNREADABLE, YES, Case, check, rows
from images import described

# N stands for a number in each of these texts. An array with N elements, whose type is only declared.
COUNT = """\
function f
unit
15 declared s
18 array @15
23 count N
32 end
33 pointer @18
38 procedure f 4096
49 parameter @33
54 end
"""

# An array of arrays. Each count alone is within the limit.
COUNTS = """\
function f
unit
15 declared s
18 array @15
23 count 4294967296
32 count 4294967296
41 end
42 pointer @18
47 procedure f 4096
58 parameter @42
63 end
"""

# A structure with this size.
SIZE = """\
function f
unit
15 structure s N
26 end
27 pointer @15
32 procedure f 4096
43 parameter @27
48 end
"""

# A typedef with this alignment.
ALIGNMENT = """\
function f
unit
15 base int 4 5
36 aligned t @15 N
51 pointer @36
56 procedure f 4096
67 parameter @51
72 end
"""

# A member at this byte.
PLACE = """\
function f
unit
15 base int 4 5
36 structure s 8
47 member m @15 N
62 end
63 pointer @36
68 procedure f 4096
79 parameter @63
84 end
"""

# A union with a member at a large offset, in a structure that has the union as a nameless member at this byte.
FLAT_PLACE = """\
function f
unit
15 base int 4 5
36 union u 8
47 member m @15 576460752303423488
62 end
63 structure s 8
74 nameless @36 N
87 end
88 pointer @63
93 procedure f 4096
104 parameter @88
109 end
"""

# Four parameters: three with the largest size, and one with this size.
PARAMETERS = """\
function f
unit
15 structure s 1152921504606846976
26 end
27 structure t N
38 end
39 procedure f 4096
50 parameter @15
55 parameter @15
60 parameter @15
65 parameter @27
70 end
"""

# A function with eight links to its origin.
EIGHT_LINKS = """\
function f
unit
15 procedure f 8192
26 end
27 link @15
32 link @27
37 link @32
42 link @37
47 link @42
52 link @47
57 link @52
62 instance 4096 @57
"""

# A function with nine links to its origin.
NINE_LINKS = """\
function f
unit
15 procedure f 8192
26 end
27 link @15
32 link @27
37 link @32
42 link @37
47 link @42
52 link @47
57 link @52
62 link @57
67 instance 4096 @62
"""

# The columns of a row: a text | the number | the fault, or nothing.
LIMITS = """\
COUNT|2**60|
COUNT|2**60 + 1|37 TooLarge 18
COUNTS|0|37 TooLarge 18
SIZE|2**60|
SIZE|2**60 + 1|37 TooLarge 15
ALIGNMENT|2**32|
ALIGNMENT|2**32 + 1|37 TooLarge 36
PLACE|2**60 - 1|
PLACE|2**60|37 TooLarge 36
PLACE|2**62|37 TooLarge 36
FLAT_PLACE|2**59 - 1|
FLAT_PLACE|2**59|37 TooLarge 63
# The sizes plus four times 2^33 are 2^62.
PARAMETERS|2**60 - 2**35|
PARAMETERS|2**60 - 2**35 + 1|37 TooLarge 39
"""

TEXTS = {
    "COUNT": COUNT,
    "COUNTS": COUNTS,
    "SIZE": SIZE,
    "ALIGNMENT": ALIGNMENT,
    "PLACE": PLACE,
    "FLAT_PLACE": FLAT_PLACE,
    "PARAMETERS": PARAMETERS,
}


def power_sum(cell: str) -> int:
    """The number that a cell gives as a sum or difference of powers and numbers, such as `2**60 - 1`."""
    total, sign = 0, 1
    for word in cell.split():
        if word in "+-":
            sign = 1 if word == "+" else -1
        else:
            base, _, power = word.partition("**")
            total += sign * int(base) ** int(power or 1)
    return total


def typedefs(count: int) -> str:
    """A function that takes a pointer to the last of so many typedefs, each of the one before it."""
    return doubled(0, count)


def doubled(count: int, typedefs: int) -> str:
    """A function that takes a pointer, through so many typedefs, to a structure with so many levels. Each structure contains the next
    inner one twice."""
    text, last, place = "function f\nunit\n15 base int 4 5\n", 15, 36
    for _ in range(count):
        text += f"{place} structure s 8\n0 member a @{last} 0\n0 member b @{last} 0\n0 end\n"
        last, place = place, place + 42
    for _ in range(typedefs):
        text += f"{place} typedef t @{last}\n"
        last, place = place, place + 7
    return text + f"{place} pointer @{last}\n0 procedure f 4096\n0 parameter @{place}\n0 end\n"


def is_read(test: str, row: str, text: str, fault: str) -> Case:
    """The check must name the fault of the library, or if there is none, say that the library may replace itself."""
    file = described(text)
    if fault:
        return check(test, row, file, file, UNREADABLE, f"unreadable old {fault}\n")
    return check(test, row, file, file, YES, None)


def cases() -> Iterator[Case]:
    for row in rows(LIMITS):
        name, number, fault = row.split("|")
        text = TEXTS[name].replace("N", str(power_sum(number)))
        yield is_read("numbers_of_types_have_limits", row, text, fault)
    for row, text, fault in [
        ("eight links", EIGHT_LINKS, ""),
        ("nine links", NINE_LINKS, "39 OriginTooDeep 67"),
        ("512 typedefs", typedefs(512), ""),
        ("513 typedefs", typedefs(513), "36 TooDeep 3620"),
        # The weight of 19 structures, one in the other, is 2^20 - 1, and each typedef adds 1.
        ("19 levels, 1 typedef", doubled(19, 1), ""),
        ("19 levels, 2 typedefs", doubled(19, 2), "37 TooLarge 841"),
    ]:
        yield is_read("chains_have_limits", row, text, fault)

"""What `migrate`, `compose` and `layout` print."""

from collections.abc import Iterator

from cases import NO_RULES, REFUSED, YES, Case, certificate, digest
from images import described, versioned_function

# A function that takes a pointer to a structure with a member.
DEFINES = """\
function f
unit
15 base int 4 5
36 structure s 4
47 member x @15 0
62 end
63 pointer @36
68 procedure f 4096
79 parameter @63
84 end
"""

# The same function, where the structure is only declared.
DECLARES = """\
function f
unit
15 base int 4 5
36 declared s
39 pointer @36
44 procedure f 4096
55 parameter @39
60 end
"""

# A structure with a hole and padding.
WITH_A_HOLE = """\
function f
unit
15 base char 1 6
37 base int 4 5
58 structure s 12
69 member c @15 0
84 member i @37 4
99 member d @15 8
114 end
115 pointer @58
120 procedure f 4096
131 parameter @115
136 end
"""

# A structure with a nameless union.
OF_A_UNION = """\
function f
unit
15 base char 1 6
37 base int 4 5
58 union u 4
69 member a @37 0
84 member b @15 0
99 end
100 structure o 4
111 nameless @58 0
124 end
125 pointer @100
130 procedure f 4096
141 parameter @125
146 end
"""

# A text, a tag, and the status and the answer of `layout`.
LAYOUTS = [
    (
        WITH_A_HOLE,
        "s",
        YES,
        "layout s size 12\nmember c bit 0 width 8\nhole bit 8 width 24\nmember i bit 32 width 32\n"
        "member d bit 64 width 8\npadding bit 72 width 24\n",
    ),
    (
        OF_A_UNION,
        "o",
        YES,
        "layout o size 4 overlaps\nmember a bit 0 width 32\nmember b bit 0 width 8\noverlap b a bit 0\n",
    ),
    (WITH_A_HOLE, "o", REFUSED, "refused 85 NoTag 0\n"),
    (DECLARES, "s", REFUSED, "refused 85 NoTag 0\n"),
]


def own_cases() -> Iterator[Case]:
    """What becomes of the certificate of a library with itself."""
    file = versioned_function([])
    digests = f"old {digest(file)}\nnew {digest(file)}\nrules {NO_RULES}\n"
    before = f"yes 1\n{digests}bind 1 1\npair 15 15\npair 22 22\nend\n"
    after = certificate(
        file, file, "bind 1 1;pair 15 15 direct;pair 15 15 pointer;pair 22 22 direct;pair 22 22 pointer;end"
    )
    files = {"a": file, "cert": before.encode()}
    test = "a_migrated_pair_stands_at_both_ways"
    yield Case(test, "f", ["migrate", "a", "a", "cert"], files, YES, after)
    own = certificate(file, file, "bind 1 1;pair 15 15 direct;pair 22 22 direct;end")
    # Line 2 has the digest of a different file.
    other = own.replace(f"old {digest(file)}", f"old {'0' * 64}")
    files = {"a": file, "cert": own.encode(), "other": other.encode()}
    test = "a_certificate_composes_with_itself"
    yield Case(test, "itself", ["compose", "a", "a", "a", "cert", "cert"], files, YES, own)
    text = "refused second 70 OtherInput 2\n"
    yield Case(test, "another", ["compose", "a", "a", "a", "cert", "other"], files, REFUSED, text)


def composed(row: str, texts: list[str], answer: str) -> Case:
    """`compose` of the certificates that `check` prints for three libraries must be refused."""
    files = dict(zip("abc", map(described, texts)))
    before = {"one": ["check", "a", "b"], "other": ["check", "b", "c"]}
    words = ["compose", "a", "b", "c", "one", "other"]
    return Case("what_is_lost_in_the_middle_is_named", row, words, files, REFUSED, answer, before=before)


def cases() -> Iterator[Case]:
    yield from own_cases()
    # Through the middle library the function binds to the versioned one, and without it to the one without a version.
    bindings = ["function f\n", "version V1\nfunction f V1\n", "version V1\nfunction f\nfunction f V1\n"]
    yield composed("bindings", bindings, "refused 81 BindingBetween 1\n")
    yield composed("a declaration", [DEFINES, DECLARES, DEFINES], "refused 84 Declaration 36\n")
    for text, tag, status, answer in LAYOUTS:
        files = {"a": described(text)}
        yield Case("layouts_have_members_holes_and_padding", tag, ["layout", "a", tag], files, status, answer)

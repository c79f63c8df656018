"""What a yes prints, and what it leaves out."""

from collections.abc import Iterator

from cases import NO, YES, Case, certificate, is_yes
from images import described, library, versioned_function

# Another program computed the digest, from an image that another program laid out.
OF_A_VERSIONED_FUNCTION = """\
yes 2
old 910e4cd9cf0d2ef5bd2961889d3af781373eca7dc9bc8da9dd2e153d2ffa1725
new 910e4cd9cf0d2ef5bd2961889d3af781373eca7dc9bc8da9dd2e153d2ffa1725
rules e3b0c44298fc1c149afbf4c8996fb92427ae41e4649b934ca495991b7852b855
bind 1 1
pair 15 15 direct
pair 22 22 direct
end
"""

# Two structures with one tag, each with a pointer to the other.
RING_OF_TWO = """\
function r
unit
15 base int 4 5
36 pointer @46
41 pointer @88
46 structure a 16
57 member n @41 0
72 member v @15 8
87 end
88 structure a 16
99 member n @36 0
114 member v @15 8
129 end
130 procedure r 4096
141 parameter @36
146 end
"""

# Three of these structures in a ring.
RING_OF_THREE = """\
function r
unit
15 base int 4 5
36 pointer @51
41 pointer @93
46 pointer @135
51 structure a 16
62 member n @41 0
77 member v @15 8
92 end
93 structure a 16
104 member n @46 0
119 member v @15 8
134 end
135 structure a 16
146 member n @36 0
161 member v @15 8
176 end
177 procedure r 4096
188 parameter @36
193 end
"""

# The same, where the last structure has a longer member.
RING_WITH_A_LONG = """\
function r
unit
15 base int 4 5
36 base long 8 5
58 pointer @73
63 pointer @115
68 pointer @157
73 structure a 16
84 member n @63 0
99 member v @15 8
114 end
115 structure a 16
126 member n @68 0
141 member v @15 8
156 end
157 structure a 16
168 member n @58 0
183 member v @36 8
198 end
199 procedure r 4096
210 parameter @58
215 end
"""

# Every structure and every pointer except the first of each is alike to the first.
ALIKE_RINGS = (
    "bind 1 1;"
    "alike old 41 36;alike old 88 46;"
    "alike new 41 36;alike new 46 36;alike new 93 51;alike new 135 51;"
    "pair 0 0 direct;pair 15 15 pointer;pair 36 36 direct;pair 36 36 pointer;pair 46 51 pointer;pair 130 177 direct;"
    "end"
)

CHECK = ["check", "--rules", "rules", "old", "new"]


def digest_cases() -> Iterator[Case]:
    test = "a_yes_names_both_files_by_their_digests"
    file = versioned_function([])
    files = {"old": file, "new": file, "cert": OF_A_VERSIONED_FUNCTION.encode()}
    yield Case(test, "check", ["check", "old", "new"], files, YES, OF_A_VERSIONED_FUNCTION)
    yield Case(test, "verify", ["verify", "old", "new", "cert"], files, YES, "accepted\n")
    lines = "bind 1 1;pair 15 15 direct;pair 22 22 direct;end"
    yield is_yes("a_marker_beside_types_is_no_export", "V1", versioned_function([b"V1"]), file, lines)


def ring_cases() -> Iterator[Case]:
    test = "a_certificate_has_lines_for_what_binds_and_what_is_alike"
    # The only export is suppressed, so nothing is bound.
    rules = b"[suppress_function]\nsymbol_name = f\n"
    files = {"old": library([b"f"]), "new": library([]), "rules": rules}
    yield Case(test, "suppressed", CHECK, files, YES, certificate(files["old"], files["new"], "end", rules))
    # Rings of any length are alike: one structure and one pointer represent all.
    files = {"old": described(RING_OF_TWO), "new": described(RING_OF_THREE), "rules": b""}
    yield Case(test, "two, three", CHECK, files, YES, certificate(files["old"], files["new"], ALIKE_RINGS))
    files = {"old": described(RING_OF_TWO), "new": described(RING_WITH_A_LONG), "rules": b""}
    text = "no\nL2 r param 1 / target / member n / target / member n / target / member v: size 4, now 8\n"
    yield Case(test, "a longer member", CHECK, files, NO, text)


def cases() -> Iterator[Case]:
    yield from digest_cases()
    yield from ring_cases()

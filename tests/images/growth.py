"""Types that grow, with and without a rule file."""

from collections.abc import Iterator

from cases import NO, YES, Case, certificate
from images import described

# A union that is passed by value.
UNION = """\
function f
unit
15 base double 8 4
39 base long 8 5
61 union u 8
72 member d @15 0
87 end
88 pointer @61
93 procedure f 4096
104 parameter @61
109 end
"""

# The same union, passed through a pointer.
UNION_BEHIND = """\
function f
unit
15 base double 8 4
39 base long 8 5
61 union u 8
72 member d @15 0
87 end
88 pointer @61
93 procedure f 4096
104 parameter @88
109 end
"""

# The union with one more member, passed by value.
LARGER_UNION = """\
function f
unit
15 base double 8 4
39 base long 8 5
61 union u 8
72 member d @15 0
87 member l @39 0
102 end
103 pointer @61
108 procedure f 4096
119 parameter @61
124 end
"""

# The same, passed through a pointer.
LARGER_UNION_BEHIND = """\
function f
unit
15 base double 8 4
39 base long 8 5
61 union u 8
72 member d @15 0
87 member l @39 0
102 end
103 pointer @61
108 procedure f 4096
119 parameter @103
124 end
"""

# A library that is built like zlib: versions with their markers, and three units. One unit only declares a structure that another
# one defines.
STREAM = """\
soname libz.so.1
version Z_1
version Z_2
function deflate Z_1
function inflate Z_1
function crc32 Z_2
marker Z_1
marker Z_2
unit
15 base int 4 5
36 declared internal_state
52 pointer @36
57 structure z_stream 8
75 member state @52 0
94 end
95 pointer @57
100 function deflate 4096 @15
121 parameter @95
126 end
unit
143 base int 4 5
164 base long 8 5
186 structure internal_state 8
210 member mode @164 0
228 end
229 pointer @186
234 structure z_stream 8
252 member state @229 0
271 end
272 pointer @234
277 function inflate 4112 @143
298 parameter @272
303 end
unit
320 base ulong 8 7
343 function crc32 4128 @320
362 parameter @320
367 end
"""

# The same, with one more member in that structure.
LARGER_STREAM = """\
soname libz.so.1
version Z_1
version Z_2
function deflate Z_1
function inflate Z_1
function crc32 Z_2
marker Z_1
marker Z_2
unit
15 base int 4 5
36 declared internal_state
52 pointer @36
57 structure z_stream 8
75 member state @52 0
94 end
95 pointer @57
100 function deflate 4096 @15
121 parameter @95
126 end
unit
143 base int 4 5
164 base long 8 5
186 structure internal_state 16
210 member mode @164 0
228 member last @164 8
246 end
247 pointer @186
252 structure z_stream 8
270 member state @247 0
289 end
290 pointer @252
295 function inflate 4112 @143
316 parameter @290
321 end
unit
338 base ulong 8 7
361 function crc32 4128 @338
380 parameter @338
385 end
"""

# An export whose function has a different name in the debug information.
F_OF_INT = """\
version V1
hidden f V1
unit
15 base int 4 5
36 base int 4 5
57 function f_v1 4096 @36
75 parameter @15
80 end
"""

# The same, with another parameter.
F_OF_LONG = """\
version V1
hidden f V1
unit
15 base long 8 5
37 base int 4 5
58 function f_v1 4096 @37
76 parameter @15
81 end
"""

# The rule files.
LEAVES_OUT_U = b"[suppress_type]\nname = u\n"
LEAVES_OUT_THE_STATE = b"[suppress_type]\nname = internal_state\n"

CHECK = ["check", "--rules", "rules", "old", "new"]
VERIFY = ["verify", "--rules", "rules", "old", "new", "cert"]


def breaks_with(test: str, row: str, old: str, new: str, rules: bytes, answer: str) -> Case:
    """The check of two described libraries with a rule file must say no with this row."""
    files = {"old": described(old), "new": described(new), "rules": rules}
    return Case(test, row, CHECK, files, NO, f"no\n{answer}\n")


def cases() -> Iterator[Case]:
    test = "a_type_that_grows_breaks_what_passes_it"
    files = {"old": described(UNION_BEHIND), "new": described(LARGER_UNION_BEHIND), "rules": b""}
    lines = "bind 1 1;pair 0 0 direct;pair 15 15 pointer;pair 61 61 pointer;pair 88 103 direct;pair 93 108 direct;end"
    yield Case(test, "behind a pointer", CHECK, files, YES, certificate(files["old"], files["new"], lines))
    passed = "L14 f: param 1 in xmm0, now rdi"
    yield breaks_with(test, "by value", UNION, LARGER_UNION, b"", passed)
    # A suppression of a type does not suppress the place where a call passes it.
    yield breaks_with(test, "by value, left out", UNION, LARGER_UNION, LEAVES_OUT_U, passed)
    grown = "L2 inflate@@Z_1 param 1 / target / member state / target: size 8, now 16"
    yield breaks_with(test, "a stream", STREAM, LARGER_STREAM, b"", grown)
    yield breaks_with(test, "another name", F_OF_INT, F_OF_LONG, b"", "L2 f@V1 param 1: size 4, now 8")
    test = "a_structure_that_is_left_out_may_grow_behind_a_pointer"
    files = {"old": described(STREAM), "new": described(LARGER_STREAM), "rules": LEAVES_OUT_THE_STATE}
    yield Case(test, "a stream", VERIFY, files, YES, "accepted\n", before={"cert": CHECK})

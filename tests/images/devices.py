"""Inputs that are missing, that fail or that are too long, and an output that fails."""

from collections.abc import Iterator

from cases import NO, READ_FAULT, UNREADABLE, WRITE_FAULT, Case, Filled, rows
from images import library, versioned_function

# The columns of a line: the names of the inputs | the call to read that fails | the answer. A whole run over two files makes four such
# calls: for each file the one that gives its bytes, and the one that gives none. The number 0 is that of no call.
READS = """\
old missing|0|read fault new
missing new|0|read fault old
missing missing|0|read fault old
# A folder.
. .|0|read fault old
old new|1|read fault old
old new|2|read fault old
old new|3|read fault new
old new|4|read fault new
old new|5|no;X2 f: gone
"""

# The columns of a line: the lengths of the old and the new input and the value of their bytes, or that of the only input | the
# arguments | the answer.
LENGTHS = """\
268435457 0 0|check old new|unreadable old 40 TooLong 268435456
10 268435457 0|check old new|unreadable new 40 TooLong 268435456
268435456 0 0|check old new|unreadable old 2 NotElf 0
268435457 268435457 0|check old new|unreadable old 40 TooLong 268435456
268435457 127|entries lib|unreadable library 40 TooLong 268435456
64 64 127|check old new|unreadable old 2 NotElf 0
63 63 127|check old new|unreadable old 1 ShortFile 63
0 127|exports lib|unreadable library 1 ShortFile 0
"""

# The output of the check of a versioned function against itself. Another program computed the digest, from an image that another
# program laid out.
CERTIFICATE = """\
yes 2
old 910e4cd9cf0d2ef5bd2961889d3af781373eca7dc9bc8da9dd2e153d2ffa1725
new 910e4cd9cf0d2ef5bd2961889d3af781373eca7dc9bc8da9dd2e153d2ffa1725
rules e3b0c44298fc1c149afbf4c8996fb92427ae41e4649b934ca495991b7852b855
bind 1 1
pair 15 15 direct
pair 22 22 direct
end
"""


def read_cases() -> Iterator[Case]:
    files = {"old": library([b"f"]), "new": library([])}
    for row in rows(READS):
        names, call, answer = row.split("|")
        status = NO if answer.startswith("no") else READ_FAULT
        settings = {"READ_FAILS": call} if call != "0" else {}
        text = answer.replace(";", "\n") + "\n"
        words = ["check", *names.split()]
        yield Case("a_failed_read_names_the_input", row, words, files, status, text, settings)


def length_cases() -> Iterator[Case]:
    for row in rows(LENGTHS):
        sizes, words, answer = row.split("|")
        *lengths, value = map(int, sizes.split())
        names = words.split()[1:]
        files = {name: Filled(length, value) for name, length in zip(names, lengths, strict=True)}
        yield Case("long_inputs_are_refused", row, words.split(), files, UNREADABLE, answer + "\n")


def write_cases() -> Iterator[Case]:
    """The output takes one byte in each call, or ten, and then fails."""
    file = versioned_function([])
    files = {"old": file, "new": file}
    words = ["check", "old", "new"]
    test = "a_sink_that_fails_holds_what_was_written_before"
    for size in range(len(CERTIFICATE)):
        settings = {"WRITE_MOST": "1", "WRITE_FAILS": str(size + 1)}
        yield Case(test, f"{size} bytes", words, files, WRITE_FAULT, CERTIFICATE[:size], settings)
    files = {"old": library([b"f", b"g"]), "new": library([b"g", b"f"])}
    settings = {"WRITE_MOST": "10", "WRITE_FAILS": "2"}
    yield Case("a_failed_write_leaves_a_front", "10 bytes", words, files, WRITE_FAULT, "yes 2\nold ", settings)


def cases() -> Iterator[Case]:
    yield from read_cases()
    yield from length_cases()
    yield from write_cases()

"""Tests of the judge of answers and of the random changes. They run under pytest, or as python3 -m fuzz.test_fuzz."""

import contextlib
import random
import signal
import subprocess
import tempfile
from pathlib import Path

from hostile.layouts import typedefs

from . import damage, texts
from .answers import complaint
from .faults import ENTRIES, HEADERS, LIMITS, RULES, SAID, SYMBOLS
from .parts import apart
from .runs import MOST_RUNS, Answer, Runner
from .trials import agree_with_entries, same_fault

DIGEST = b"0" * 64
CERTIFICATE = b"yes 2\nold " + DIGEST + b"\nnew " + DIGEST + b"\nrules " + DIGEST + b"\nbind 1 2\npair 7 7 direct\nend\n"
SENTENCE = b"abi: x: it is empty\n"

GOOD = [
    ("check", Answer(0, CERTIFICATE, b"abi: a note\n")),
    ("check", Answer(1, b"no\nX2 f: gone\nL7 f@@V param 1 / member \\x20#2: member y at bit 32, now 64\n", b"")),
    ("check", Answer(2, b"unreadable new 36 TooDeep 12\n", SENTENCE)),
    ("check", Answer(4, b"", b"abi: out of memory\n")),
    ("check", Answer(4, b"", b"abi: past the limit on pairs of types (LIMITS in abi(1))\n")),
    ("check", Answer(4, b"", b"")),
    ("verify", Answer(0, b"accepted\n", b"")),
    ("verify", Answer(5, b"refused 72 Bindings 3\n", b"abi: c: the certificate does not prove that b may replace a\n")),
    ("exports", Answer(0, b"5 f FUNC 34 params rdi,stack+0:16 result rax+rdx\n6 v OBJECT 4 is struct\n7 w FUNC 0 untyped\n", b"")),
    ("entries", Answer(0, b"12 0 11\n", b"")),
]
BAD = [
    ("check", Answer(-11, b"", b"")),
    ("check", Answer(3, b"read fault old\n", b"abi: x: no\n")),
    ("check", Answer(0, CERTIFICATE[:-1], b"")),
    ("check", Answer(0, CERTIFICATE.replace(b"bind 1", b"bind 01"), b"")),
    ("check", Answer(1, b"no\nX7 f: gone\n", b"")),
    ("check", Answer(2, b"unreadable new 36 TooLarge 12\n", SENTENCE)),
    ("check", Answer(2, b"unreadable old 50 BadText 12\n", SENTENCE)),
    ("check", Answer(2, b"unreadable new 36 TooDeep 12\n", b"")),
    ("check", Answer(4, b"yes", b"")),
    ("check", Answer(4, b"", b"abi: past the limit on pears (LIMITS in abi(1))\n")),
    ("check", Answer(-27, b"", b"")),
    ("check", Answer(4, b"", b"abi: out of memory, or past a limit\n")),
    ("verify", Answer(1, b"no\n", b"")),
    ("verify", Answer(5, b"refused 71 Bindings 3\n", b"")),
    ("exports", Answer(0, b"5 f FUNC 34 params rdi result rax", b"")),
    ("exports", Answer(0, b"5 f FUNC 34\n", b"")),
    ("exports", Answer(0, b"5 f FUNC 34 untyped\n", b"abi: a note\n")),
    ("entries", Answer(0, b"12 0 0x11\n", b"")),
]


def test_good_answers() -> None:
    for command, answer in GOOD:
        assert complaint(command, answer) is None, (command, answer)


def test_bad_answers() -> None:
    for command, answer in BAD:
        assert complaint(command, answer) is not None, (command, answer)


def test_limits_of_the_page_are_known() -> None:
    page = Path(__file__).resolve().parents[2] / "docs" / "manual" / "LIMITS.md"
    tables = [part.split("\n\n")[0] for part in page.read_text().split("| What is counted | Words |")[1:]]
    # Brackets tell apart limits that share their words; the program does not print them.
    words = {row.split(" | ")[1].partition(" (")[0] for table in tables for row in table.splitlines()[2:]}
    assert len(words) > 20 and words <= LIMITS, words - LIMITS


def test_faults_of_the_page_are_found() -> None:
    counts = [len(faults) for faults in (HEADERS, SYMBOLS, ENTRIES, SAID, RULES)]
    assert counts == [11, 7, 13, 8, 9], counts


def unreadable(which: str, fault: str) -> Answer:
    return Answer(2, f"unreadable {which} {fault}\n".encode(), SENTENCE)


def test_faults_agree() -> None:
    assert same_fault(unreadable("library", "28 Cut 7"), unreadable("old", "28 Cut 7"), "old")
    assert not same_fault(unreadable("library", "28 Cut 7"), unreadable("old", "28 Cut 8"), "old")
    assert not same_fault(unreadable("library", "28 Cut 7"), Answer(0, b"", b""), "old")
    assert not same_fault(Answer(0, b"", b""), unreadable("old", "28 Cut 7"), "old")


def test_entries_ask_less() -> None:
    assert agree_with_entries(unreadable("library", "36 TooDeep 7"), Answer(0, b"", b""))
    assert agree_with_entries(unreadable("library", "17 VersionIndex 7"), unreadable("library", "28 Cut 7"))
    assert not agree_with_entries(unreadable("library", "28 Cut 7"), Answer(0, b"", b""))
    assert not agree_with_entries(Answer(0, b"", b""), unreadable("library", "28 Cut 7"))
    assert not agree_with_entries(unreadable("library", "36 TooDeep 7"), unreadable("library", "9 SectionRange 1"))


# Prints the arguments that main and a constructor are given, and ends with their number, unless the first one is `fall`.
PROGRAM = """
#include <signal.h>
#include <stdio.h>
#include <string.h>
static int kept;
static char **words;
__attribute__((constructor)) static void keep(int count, char **given) { kept = count; words = given; }
int main(int count, char **given)
{
    for (int i = 1; i < kept; i++)
        dprintf(1, "%s\\n", words[i]);
    dprintf(2, "%d\\n", count);
    if (count > 1 && strcmp(given[1], "fall") == 0)
        raise(SIGSEGV);
    return count;
}
"""


def built(options: list[str], output: str, source: str) -> Path:
    subprocess.run(["gcc", "-O1", *options, "-o", output, source], check=True)
    return Path(output).resolve()


def test_one_process_answers_again() -> None:
    again = Path(__file__).with_name("again.c").resolve()
    with tempfile.TemporaryDirectory() as folder, contextlib.chdir(folder):
        Path("program.c").write_text(PROGRAM)
        runner = Runner(str(built([], "program", "program.c")), built(["-shared", "-fPIC"], "again.so", str(again)), 0)
        asked = [("a", "b"), (), ("fall", "c"), ("d",)]
        fallen = Answer(-signal.SIGSEGV, b"fall\nc\n", b"3\n")
        wanted = [Answer(3, b"a\nb\n", b"3\n"), Answer(1, b"", b"1\n"), fallen, Answer(2, b"d\n", b"2\n")]
        assert runner.run_all(asked) == wanted
        assert [runner.run_alone(*words) for words in asked] == wanted
        assert runner.run_all([("e",)] * (MOST_RUNS + 1)) == [Answer(2, b"e\n", b"2\n")] * (MOST_RUNS + 1)
        assert runner.run_all([("f",)]) == [Answer(2, b"f\n", b"2\n")]


def made() -> damage.Base:
    return damage.Base("made", typedefs(5).files["old"], [12, 14, 17])


def test_parts_are_joined() -> None:
    base = made()
    image = apart(base.contents)
    assert [part.name for part in image.parts][1:4] == [".dynsym", ".dynstr", ".debug_info"]
    again = apart(image.joined())
    assert [part.contents for part in again.parts] == [part.contents for part in image.parts]


def test_changes_repeat() -> None:
    bases = [made()]
    for number in range(300):
        one = damage.damaged(random.Random(number), bases)[1]
        assert one == damage.damaged(random.Random(number), bases)[1]
        assert texts.rules(random.Random(number)) == texts.rules(random.Random(number))
        assert texts.certificate(random.Random(number), CERTIFICATE) == texts.certificate(random.Random(number), CERTIFICATE)


def test_changes_differ() -> None:
    bases = [made()]
    assert len({damage.damaged(random.Random(number), bases)[1] for number in range(300)}) > 200
    assert len({texts.rules(random.Random(number)) for number in range(300)}) > 250
    assert len({texts.certificate(random.Random(number), CERTIFICATE) for number in range(300)}) > 100


if __name__ == "__main__":
    for name, test in list(globals().items()):
        if name.startswith("test_"):
            test()

"""Trials of one input each: which commands run on it, and which answers must agree.

A trial is a generator. It yields commands that may run in any order, and is sent their answers, each of which goes with its command.
"""

import hashlib
import random
from collections.abc import Generator
from dataclasses import dataclass
from pathlib import Path

from . import damage, texts
from .answers import NO, NO_MEMORY, UNREADABLE, YES, fault_of
from .faults import ENTRIES, HEADERS, SYMBOLS
from .runs import Answer

# The files of a small library, and of another one.
SMALL, OTHER = "a", "b"

Words = tuple[str, ...]
Trial = Generator[list[Words], list[Answer], None]


class Wrong(Exception):
    """A wrong answer: what is wrong, and the files that show it."""

    def __init__(self, what: str, words: Words) -> None:
        super().__init__(f"{what}\n    abi {' '.join(words)}")
        self.words = words


@dataclass
class Sound:
    """What trials share: the sound libraries, and a small library with a certificate, for rule files and certificates."""

    bases: list[damage.Base]
    certificate: bytes


def number_of(answer: Answer) -> int | None:
    """The fault that an answer names."""
    fault = fault_of(answer) if answer.status == UNREADABLE else None
    return fault[1] if fault else None


def same_fault(exports: Answer, check: Answer, which: str) -> bool:
    """Whether `check` names the fault that `exports` names."""
    if exports.status != UNREADABLE:
        return check.status != UNREADABLE
    wanted, found = fault_of(exports), fault_of(check)
    return wanted is not None and found is not None and found == (which, *wanted[1:])


def agree_with_entries(exports: Answer, entries: Answer) -> bool:
    """Whether `entries`, which checks for fewer faults, names the fault of `exports` if it checks for it, and no other."""
    number, listed = number_of(exports), number_of(entries)
    if number in HEADERS or number in ENTRIES:
        return exports.output == entries.output
    if number in SYMBOLS:
        return listed is None or listed in ENTRIES
    return listed is None


def library(sound: Sound, rng: random.Random, slot: int) -> Trial:
    """A damaged library: all commands must name the same fault; without a fault, it must be able to replace itself. A library with a
    fault is checked either as the old one or as the new one, since the fault is found before the other library matters."""
    base, contents = damage.damaged(rng, sound.bases)
    file = f"x{slot}"
    Path(file).write_bytes(contents)
    old, new, which = (file, base.file, "old") if rng.randrange(2) else (base.file, file, "new")
    exports, entries, other = yield [("exports", file), ("entries", file), ("check", old, new)]
    if NO_MEMORY not in (exports.status, entries.status) and not agree_with_entries(exports, entries):
        raise Wrong(f"entries says {entries.output!r}, and exports {exports.output[:100]!r}", ("entries", file))
    must_agree(exports, other, ("check", old, new), which)
    if exports.status == UNREADABLE:
        return
    words = ("check", file, file)
    (itself,) = yield [words]
    must_agree(exports, itself, words, "old")
    if itself.status == NO:
        raise Wrong("a library may not replace itself", words)
    if itself.status == YES and rng.randrange(8) == 0:
        yield from accepted(itself, (file, file), slot)


def must_agree(exports: Answer, check: Answer, words: Words, which: str) -> None:
    """Raises Wrong if a check of the library does not name the fault that `exports` names."""
    if NO_MEMORY not in (exports.status, check.status) and not same_fault(exports, check, which):
        raise Wrong(f"check says {check.output[:100]!r}, and exports {exports.output[:100]!r}", words)


def accepted(made: Answer, words: Words, slot: int) -> Trial:
    """Checks that `verify` accepts a certificate that the program made of these words."""
    Path(f"c{slot}").write_bytes(made.output)
    asked = ("verify", *words, f"c{slot}")
    (answer,) = yield [asked]
    if answer.status not in (YES, NO_MEMORY):
        raise Wrong(f"a certificate that was made is not accepted: {answer.output!r}", asked)


def rule_file(rng: random.Random, slot: int) -> Trial:
    """A rule file: if it is sound, the certificate must have its digest, and `verify` must accept it."""
    contents = texts.rules(rng)
    Path(f"r{slot}").write_bytes(contents)
    words = ("--rules", f"r{slot}", SMALL, rng.choice((SMALL, OTHER)))
    (answer,) = yield [("check", *words)]
    if answer.status != YES:
        return
    if b"rules " + hashlib.sha256(contents).hexdigest().encode() not in answer.output:
        raise Wrong("the certificate has another digest of the rule file", ("check", *words))
    if rng.randrange(4) == 0:
        yield from accepted(answer, words, slot)


def certificate(sound: Sound, rng: random.Random, slot: int) -> Trial:
    """A certificate with random changes. `verify` must never accept it for another pair of libraries."""
    file = f"c{slot}"
    Path(file).write_bytes(texts.certificate(rng, sound.certificate))
    words = ("verify", SMALL, OTHER, file)
    _, other = yield [("verify", SMALL, SMALL, file), words]
    if other.status == YES:
        raise Wrong("the certificate of other libraries is accepted", words)


def trial(sound: Sound, seed: str, number: int, slot: int) -> Trial:
    """The input with this number: of ten inputs, seven are libraries, two are rule files, and one is a certificate. Its files have the
    slot in their names, and no other trial that is under way has this slot."""
    rng = random.Random(f"{seed} {number}")
    match number % 10:
        case 0:
            return certificate(sound, rng, slot)
        case 1 | 2:
            return rule_file(rng, slot)
        case _:
            return library(sound, rng, slot)

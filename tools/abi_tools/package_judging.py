"""Judges each library of two sets of packages."""

from __future__ import annotations

import hashlib
import os
import re
import shlex
from collections import Counter
from dataclasses import dataclass, replace
from pathlib import Path
from typing import Optional, Sequence

from abi_tools.abi_program import NO, YES, Abi
from abi_tools.counting import counted
from abi_tools.debug_files import NoDebugFile
from abi_tools.faults import Fault
from abi_tools.gates import Judgement, judge
from abi_tools.joining import join_from
from abi_tools.output_file import write_whole
from abi_tools.package_sides import PackagedLibrary, Pair, Side, package_rules
from abi_tools.shown import line_shown, name_shown
from abi_tools.side_notes import PREFIX
from abi_tools.verdicts import Verdict
from abi_tools.verifying import Libraries, certificate_in, verified

GONE, NEW, LEFT_OUT = "gone", "new", "left out"
# What a file name of this machine may have of a name from a package, and how long it may be.
_UNSAFE = re.compile(r"[^A-Za-z0-9._+-]")
_LONGEST = 120


@dataclass(frozen=True)
class Line:
    """The line printed for a library: its first words, the name, what follows, its verdict (none for a library that is new or left
    out), and the notes of `abi` on it."""

    word: str
    name: str
    said: str
    verdict: Optional[Verdict]
    notes: tuple[str, ...] = ()

    @property
    def text(self) -> str:
        """The whole line."""
        return line_shown(f"{self.word} {name_shown(self.name)}{': ' if self.said else ''}{self.said}")

    @classmethod
    def cannot_tell(cls, name: str, reason: str) -> "Line":
        """The line of a library of which nothing can be told."""
        return cls(Verdict.CANNOT_TELL.words(), name, reason, Verdict.CANNOT_TELL)


@dataclass(frozen=True)
class Judging:
    """How libraries are judged: the folder `work`, in which `abi` runs; both sides; the folder for certificates; the folder for the
    joined libraries of a no, if they are kept; the rule file of the command line; the share of exports that must have types; the sonames
    of libraries that are left out; whether the certificates are there already and only checked; and whether notes on what can break
    callers count."""

    work: Path
    sides: tuple[Side, Side]
    certificates: Path
    keep: Optional[Path]
    rules: Optional[Path]
    least_share: float
    left_out: tuple[str, ...]
    verifies: bool = False
    is_strict: bool = False

    def line_without_work(self, pair: Pair) -> Optional[Line]:
        """The line of a library that needs no comparison; None for any other."""
        if pair.soname in self.left_out:
            return Line(LEFT_OUT, pair.name, "", None)
        if pair.trouble:
            return Line.cannot_tell(pair.name, pair.trouble)
        if pair.new is None and pair.old is not None:
            return Line(GONE, pair.name, f"{pair.old.package.file.name} had it", Verdict.NO)
        if pair.old is None and pair.new is not None:
            return Line(NEW, pair.name, f"{pair.new.package.file.name} has it", None)
        return None

    def line(self, pair: Pair, name: str) -> Line:
        """The line of a library that both sides have. `name` is its name on this machine."""
        try:
            return self._judged(pair, name)
        except Fault as fault:
            return Line.cannot_tell(pair.name, str(fault))

    def _judged(self, pair: Pair, name: str) -> Line:
        folder = self.work / name
        for side in ("old", "new"):
            (folder / side).mkdir(parents=True)
        rules, said_of_rules = (self.rules, "") if self.rules else package_rules(pair, self.sides, folder)
        reasons = [put_joined(library, side, folder / place / name)
                   for library, side, place in zip((pair.old, pair.new), self.sides, ("old", "new"))]
        judgement = doubted(self._judgement(folder, name, rules), pair)
        kept = [*self._keep(name, judgement), *self._keep_libraries(name, judgement.verdict, rules)]
        more = [pair.folders, f"rules {said_of_rules}" if said_of_rules else ""]
        parts = [_outcome(judgement), *_types(judgement), *filter(None, (judgement.new_needs(), *more)), *kept]
        if judgement.verdict != Verdict.YES:
            parts += [reason for reason in reasons if reason]
        for place in ("old", "new"):
            (folder / place / name).unlink()
            (folder / place / f"{name}.abi").unlink(missing_ok=True)
        return Line(judgement.verdict.words(), pair.name, "; ".join(parts), judgement.verdict, _notes(judgement))

    def _judgement(self, folder: Path, name: str, rules: Optional[Path]) -> Judgement:
        """The judgement of `abi`, or that by the certificate."""
        abi, old, new = Abi(folder), Path("old", name), Path("new", name)
        if self.verifies:
            return verified(abi, Libraries(old, new, rules), certificate_in(self.certificates, name), self.least_share)
        return judge(abi, old, new, rules, self.least_share, self.is_strict)

    def _keep(self, name: str, judgement: Judgement) -> Sequence[str]:
        """Keeps the certificate of a yes or the report of a no of `abi`, and removes what an earlier run kept."""
        if self.verifies:
            return [f"accepted certificate {certificate_in(self.certificates, name)}"] if judgement.answer is not None else []
        for suffix in (".cert", ".report"):
            (self.certificates / f"{name}{suffix}").unlink(missing_ok=True)
        answer = judgement.answer
        if answer is None or answer.status not in (YES, NO) or (answer.status == YES) != (judgement.verdict == Verdict.YES):
            return []
        kind, suffix = ("certificate", ".cert") if answer.status == YES else ("report", ".report")
        place = self.certificates / f"{name}{suffix}"
        write_whole(place, answer.text.encode("utf-8", "surrogateescape"))
        return [f"{kind} {place}"]

    def _keep_libraries(self, name: str, verdict: Verdict, rules: Optional[Path]) -> Sequence[str]:
        """Keeps both joined libraries of a no, with the rule file, and returns the command that shows what broke. Removes what an earlier
        run kept."""
        if self.keep is None:
            return []
        libraries = [self.keep / side / name for side in ("old", "new")]
        kept_rules = self.keep / f"{name}.rules"
        for place in (*libraries, kept_rules):
            place.unlink(missing_ok=True)
        if verdict != Verdict.NO:
            return []
        for place in libraries:
            place.parent.mkdir(parents=True, exist_ok=True)
            write_whole(place, (self.work / name / place.parent.name / name).read_bytes())
        if rules is not None:
            write_whole(kept_rules, rules.read_bytes())
        options = [] if rules is None else ["--rules", str(kept_rules)]
        return [f"see {shlex.join(['abi-report', *options, *map(str, libraries)])}"]


def file_names(pairs: Sequence[Pair]) -> list[str]:
    """A name on this machine for each pair, no two of them equal: its own name, with characters that a file name should not have
    replaced, and with a digest if the name is too long or another pair has the same one."""
    plain = [safe_name(pair.name) for pair in pairs]
    counts = Counter(name.lower() for name in plain)
    return [name if counts[name.lower()] == 1 and len(name) <= _LONGEST else f"{name[:_LONGEST]}-{_digest(pair.name)}"
            for pair, name in zip(pairs, plain)]


def safe_name(name: str) -> str:
    """A name as a file name of this machine that leads nowhere else. Several names may have the same one."""
    return _UNSAFE.sub("_", name).lstrip(".-") or "_"


def _digest(name: str) -> str:
    return hashlib.sha256(name.encode("utf-8", "surrogateescape")).hexdigest()[:32]


def put_joined(library: Optional[PackagedLibrary], side: Side, output: Path) -> str:
    """Writes a library, joined with its debug information, to `output`, where `abi` reads it. If they cannot be joined, writes the
    library as it was shipped, and returns the reason."""
    assert library is not None
    output.parent.mkdir(exist_ok=True)
    contents, fault = joined_or_shipped(library, side)
    _put(output, contents)
    if isinstance(fault, NoDebugFile):
        return (f"there is no debug file of {name_shown(library.name)}: add the -dbgsym, -dbg or -debuginfo package of "
                f"{library.package.file.name}")
    return "" if fault is None else str(fault)


def joined_or_shipped(library: PackagedLibrary, side: Side) -> tuple[bytes, Optional[Fault]]:
    """A library joined with its debug information; or, if they cannot be joined, as it was shipped, and why."""
    try:
        return join_from(side.places.read(library.path), side.places), None
    except Fault as fault:
        return library.path.read_bytes(), fault


def _put(output: Path, contents: bytes) -> None:
    """Writes a file, and follows no link in its place."""
    file = os.open(output, os.O_WRONLY | os.O_CREAT | os.O_TRUNC | os.O_NOFOLLOW | os.O_CLOEXEC, 0o600)
    with os.fdopen(file, "wb") as stream:
        stream.write(contents)


def settled(judgement: Judgement) -> Judgement:
    """The judgement on two libraries of packages: one without exports has nothing that callers use."""
    answer = judgement.answer
    if answer is not None and answer.status == YES and judgement.old is not None and not judgement.old.exports:
        return replace(judgement, verdict=Verdict.YES, reasons=())
    return judgement


def doubted(judgement: Judgement, pair: Pair) -> Judgement:
    """The judgement on a pair of packages: a library that the loader may not find any more is no yes."""
    found = settled(judgement)
    if pair.doubt and found.verdict == Verdict.YES:
        return replace(found, verdict=Verdict.CANNOT_TELL, reasons=(pair.doubt,))
    return found


def _outcome(judgement: Judgement) -> str:
    """The outcome of a comparison, in words."""
    if judgement.verdict == Verdict.YES:
        if judgement.old is not None and not judgement.old.exports:
            return "the old library has no exports, so nothing that callers use can break"
        return judgement.words()
    if judgement.verdict == Verdict.NO and judgement.answer is not None:
        return counted(len(judgement.answer.rows), "break")
    return ", ".join(judgement.reasons)


def _types(judgement: Judgement) -> list[str]:
    """How many exports of each library have types."""
    if judgement.old is None or judgement.new is None:
        return []
    counts = [library.typed_count() for library in (judgement.old, judgement.new)]
    return [f"exports with types: old {counts[0][0]} of {counts[0][1]}, new {counts[1][0]} of {counts[1][1]}"]


def _notes(judgement: Judgement) -> tuple[str, ...]:
    """The notes of `abi` on what it saw and did not judge. It prints them if the variable ABI_NOTES asks for them; otherwise there are
    those for which a strict gate cannot tell."""
    lines = judgement.answer.notes.splitlines() if judgement.answer is not None else []
    return tuple(line.removeprefix(PREFIX) for line in lines if line.startswith(PREFIX)) or judgement.notes


def worst(lines: Sequence[Line]) -> Verdict:
    """The verdict on all packages: no if one library has it; else cannot tell if one library has it or none was compared; else yes."""
    verdicts = {line.verdict for line in lines}
    if Verdict.NO in verdicts:
        return Verdict.NO
    return Verdict.YES if verdicts - {None} == {Verdict.YES} else Verdict.CANNOT_TELL

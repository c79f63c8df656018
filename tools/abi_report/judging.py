"""The verdict on two libraries: the answer of `abi-json`, and whether it rests on types, judged as `abi-gate` does."""

from __future__ import annotations

from dataclasses import dataclass, replace
from pathlib import Path
from typing import Callable, Optional, TypeVar

from abi.answers import CAN_BREAK_CALLERS
from abi_tools.abi_program import NO, YES, Abi, Answer
from abi_tools.faults import Fault
from abi_tools.gates import Library, judge_answer, share_words
from abi_tools.side_notes import NOT_MADE, Weighty
from abi_tools.verdicts import Verdict

from abi_report.documents import Break, Document

Result = TypeVar("Result")

# The exit status of `abi-json` if reading an input failed.
_UNREAD = 3

# Rules whose breaks never come from missing types, unlike those of the other rules.
_CERTAIN = ("X1", "X2", "X3", "X4", "X5")


@dataclass(frozen=True)
class Judged:
    """A verdict, the reasons if the tool cannot tell, and for a yes how many exports were compared, how many of them have types in both
    libraries, and the share of these in words if some lack them."""

    verdict: Verdict
    reasons: tuple[str, ...] = ()
    compared: Optional[int] = None
    typed: Optional[int] = None
    share: str = ""


def judge_document(document: Document, old: Path, new: Path, least_share: float) -> Judged:
    """The verdict of a document on two libraries."""
    if document.status not in (YES, NO):
        unread = "; ".join(filter(None, map(_unread, (old, new)))) if document.status == _UNREAD else ""
        words = unread or "; ".join(note.text for note in document.notes) or document.text.strip()
        return Judged(Verdict.CANNOT_TELL, (words or f"abi-json ended with status {document.status}",))
    if document.status == NO and any(_is_certain(one) for one in document.breaks):
        return Judged(Verdict.NO)
    answer = Answer(document.status, _text(document), "")
    try:
        abi = Abi()
        first, second = _at_once(lambda path: Library.read(abi, path), old, new)
    except Fault as fault:
        return Judged(Verdict.CANNOT_TELL, (str(fault),))
    judgement = judge_answer(answer, first, second, least_share)
    if document.status != YES:
        return Judged(judgement.verdict, judgement.reasons)
    share = share_words(judgement.compared, judgement.counting, judgement.typed)
    return Judged(judgement.verdict, judgement.reasons, judgement.compared, judgement.typed, share)


def judge_strictly(judged: Judged, document: Document) -> Judged:
    """The verdict as `abi-gate --strict` has it: a yes with notes on what can break compiled callers is none."""
    reason = _strict_reason(document) if judged.verdict == Verdict.YES else ""
    return replace(judged, verdict=Verdict.CANNOT_TELL, reasons=(reason,)) if reason else judged


def _strict_reason(document: Document) -> str:
    if document.whole.get("side_notes") is None:
        return NOT_MADE
    found = tuple(f"{note.kind}: {note.text}" for note in document.notes if note.kind in CAN_BREAK_CALLERS)
    return Weighty(found, len(found)).reason() if found else ""


def _unread(path: Path) -> str:
    """Why the system cannot read a file, with its name, as `abi` says it; empty if the system can."""
    try:
        with path.open("rb") as stream:
            stream.read(1)
        return ""
    except OSError as error:
        return f"{path}: {error.strerror}"


def _is_certain(one: Break) -> bool:
    """Whether a break cannot come from missing types: it is about the export itself, or has steps, which only types provide. The result
    of a function without types is void, so that a step to it alone provides none."""
    return one.rule in _CERTAIN or (one.rule.startswith("L") and one.steps not in ((), ("result",)))


def _text(document: Document) -> str:
    """The text that `abi check` would print."""
    if document.status == YES:
        return document.text
    return "".join(f"{line}\n" for line in ("no", *(one.row for one in document.breaks)))


def labels_of(old: Path, new: Path) -> list[list[str]]:
    """The labels of the exports of both libraries; empty if they cannot be read."""
    return _at_once(_labels, old, new)


def _at_once(read: Callable[[Path], Result], old: Path, new: Path) -> list[Result]:
    """Reads both libraries, each in a thread of its own."""
    # Imported here, since most noes need no threads.
    from concurrent.futures import ThreadPoolExecutor

    with ThreadPoolExecutor() as pool:
        return list(pool.map(read, (old, new)))


def _labels(path: Path) -> list[str]:
    try:
        return [export.label for export in Abi().exports(path)]
    except Fault:
        return []

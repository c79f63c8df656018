"""A report as text: with colours on a terminal, without them elsewhere."""

from __future__ import annotations

import textwrap
from typing import Iterable, Iterator, Sequence, TextIO

from abi_tools.verdicts import Verdict

from abi_report.blocks import Block
from abi_report.documents import Note
from abi_report.reports import Report
from abi_report.texts_shown import counted, line_shown

# A piece of a line: the text, and its style on a terminal, as a style of rich.
Piece = tuple[str, str]
Words = Sequence[Piece]

_COLOURS = {Verdict.YES: "bold green", Verdict.NO: "bold red", Verdict.CANNOT_TELL: "bold yellow"}
_RULES_WIDTH = 7
_WIDTH = 110
_WAYS = "Below, `f / param 1 / target` is what the first parameter of f points to."
# Blocks with fewer exports than this name them even if an earlier block has the same ones.
_NAMED_AGAIN = 12
# How many of the exports that reach a type, and how many notes of a kind, are shown.
_NAMED = 12
_NOTED = 10


def write_text(report: Report, stream: TextIO, quiet: bool, is_whole: bool = False) -> None:
    """Writes the report: the answer alone if `quiet`, and each member that another change only moved if `is_whole`."""
    lines: Iterable[Words] = [_answer(report)] if quiet else _lines(report, is_whole)
    if stream.isatty():
        _write_coloured(lines, stream)
        return
    for words in lines:
        stream.write(line_shown("".join(text for text, _ in words).rstrip()) + "\n")


def _write_coloured(lines: Iterable[Words], stream: TextIO) -> None:
    # Imported here, since only a terminal needs it.
    from rich.console import Console
    from rich.text import Text

    console = Console(file=stream, highlight=False)
    for words in lines:
        console.print(Text.assemble(*((line_shown(text), style) for text, style in words)), soft_wrap=True)


def _answer(report: Report) -> Words:
    return [(report.answer, _COLOURS[report.judged.verdict]), (f": {report.sentence}", "bold")]


def _lines(report: Report, is_whole: bool) -> Iterator[Words]:
    """The lines: first the answer, then what changed, and last what was compared."""
    yield _answer(report)
    if report.found:
        yield [(report.found, "")]
    if report.sonames:
        yield [(report.sonames, "")]
    if report.rules:
        yield from _wrapped(f"Broken rules: {', '.join(f'{rule} {name}' for rule, name in report.rules)}", "", "  ")
    if report.has_ways:
        yield [(_WAYS, "")]
    for block in [*report.types, *report.others]:
        yield []
        yield from _block(report, block, is_whole)
    yield from _gone(report)
    yield from _listed("Notes", [line for kind, notes in report.notes for line in _of_kind(report, kind, notes)])
    yield from _listed("Compared", report.compared)


def _block(report: Report, block: Block, is_whole: bool) -> Iterator[Words]:
    subject = block.subject
    places = report.export_places(block) if subject.kind == "export" else (subject.old.place, subject.new.place)
    place = report.places(*places)
    yield [(block.title, "bold"), (f"  {place}" if place else "", "cyan")]
    yield from _because(report, block)
    for row, where in report.rows(block, is_whole):
        line = row.line
        yield [(f"  {' '.join(line.rules):<{_RULES_WIDTH}} ", "red" if line.rules else ""),
               (f"{line.head}: " if line.head else "", "bold" if line.rules else ""),
               (f"{line.text}{' (--all lists them)' if row.folded else ''}", ""),
               (f"  {where}" if where else "", "cyan")]
    if subject.kind != "library":
        yield from _reached(report, block)
    section = report.section(block)
    if section is not None:
        yield [("  Callers do not see this type. A rule file with this section leaves it out:", "")]
        yield from ([(f"    {line}", "green")] for line in section.splitlines())


def _reached(report: Report, block: Block) -> Iterator[Words]:
    """The exports that reach a type, and the way from the first one to it."""
    same = report.same_exports(block, _NAMED_AGAIN)
    if report.is_of_itself(block):
        return
    if same is not None:
        yield [(f"  reached by the same {counted(len(block.exports) + len(block.member_exports), 'export')} as {same.title}", "")]
    else:
        yield from _wrapped(_named_exports(block), "  ", "    ")
    if block.steps or block.subject.kind == "type":
        has_place = block.subject.old.place or block.subject.new.place
        place = "" if has_place else report.places(*report.export_places(block))
        ways = [block.steps or block.first.steps, *report.positions(block, block.first.export)]
        words = ", ".join(" / ".join((block.first.export, *steps)) for steps in dict.fromkeys(ways))
        yield [("  by way of ", ""), (words, "magenta"), (f"  {place}" if place else "", "cyan")]


def _because(report: Report, block: Block) -> Iterator[Words]:
    """What made a type change, if it did not change by itself."""
    found = report.because(block)
    if found:
        words = " and ".join(f"{cause.title} {said}" for cause, said in found)
        yield from _wrapped(f"{report.because_word(block)} {words}", "  ", "    ")


def _wrapped(text: str, first: str, later: str) -> Iterator[Words]:
    """Wraps a text into lines, with one prefix for the first line and another for the others."""
    for line in textwrap.wrap(text, _WIDTH, initial_indent=first, subsequent_indent=later, break_long_words=False, break_on_hyphens=False):
        yield [(line, "")]


def _named_exports(block: Block) -> str:
    """The exports that reach a type, and their number."""
    names, others = _cut(block.exports), block.member_exports
    if not block.names_all_exports:
        return f"reached by {names}, and perhaps by others"
    words = f"reached by {counted(len(block.exports), 'export')}: {names}"
    if not others:
        return words
    verb = "reaches" if len(others) == 1 else "reach"
    perhaps = "" if block.is_exact else ", and perhaps the type itself"
    return f"{words}; {counted(len(others), 'other')} {verb} types of its members{perhaps}: {_cut(others)}"


def _cut(names: Sequence[str]) -> str:
    """The first of some names, and how many more there are."""
    left = len(names) - _NAMED
    return ", ".join(names[:_NAMED]) + (f" and {counted(left, 'other')}" if left > 0 else "")


def _gone(report: Report) -> Iterator[Words]:
    if not report.gone:
        return
    yield []
    yield [("Symbols that are gone", "bold")]
    for one in report.gone:
        broken = one.block.first
        perhaps = f"; perhaps now {', '.join(one.successors)}" if one.successors else ""
        yield [(f"  {broken.rule:<{_RULES_WIDTH}} ", "red"), (broken.export, "bold"), (f": {one.block.lines[0].text}{perhaps}", ""),
               ("".join(report.was_at(one.block)), "")]


def _of_kind(report: Report, kind: str, notes: Sequence[Note]) -> Iterator[str]:
    """The first notes of a kind, with the places of their exports, and how many more there are."""
    for note, place in zip(notes[:_NOTED], report.note_places(notes)):
        yield f"{f'{kind}: ' if kind else ''}{note.text}{f'  {place}' if place else ''}"
    if len(notes) > _NOTED:
        yield f"{kind}: and {len(notes) - _NOTED:,} more"


def _listed(title: str, lines: Sequence[str]) -> Iterator[Words]:
    if not lines:
        return
    yield []
    yield [(title, "bold")]
    for line in lines:
        yield [(f"  {line}", "")]

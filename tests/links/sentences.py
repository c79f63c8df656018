"""Where docs/INDEX.md leads from a sentence that a program or a tool prints."""

from __future__ import annotations

import re
from itertools import chain, groupby
from typing import Iterator

from .linked import at, link, short, short_at, without_links
from .markdown import Section, sections, tables
from .sources import TOOLS, Named, faults, said, said_by_tools, said_of_faults
from .words import GUIDE, LIMITS, PACKAGES, RELEASES, REPORTS, SPECIFICATION

# The sections on what a module of the tools says, or on all modules of a folder.
_OF_TOOLS = {
    "abi_history": (RELEASES, "The history of one library"),
    "abi_release": (RELEASES, "On a cluster"),
    "abi_release/judging": (RELEASES, "Nothing is lost"),
    "abi_release/limited_program": (RELEASES, "Limits"),
    "abi_release/needs": (RELEASES, "What belongs together"),
    "abi_release/reports": (RELEASES, "What comes out"),
    "abi_release/scratch": (RELEASES, "Who can reach a run"),
    "abi_release/sources": (RELEASES, "What belongs together"),
    "abi_release/stored_files": (RELEASES, "Nothing is lost"),
    "abi_report": (REPORTS, "The document"),
    "abi_report/command": (REPORTS, "Options"),
    "abi_tools": (PACKAGES, "One file of a library and its debug information"),
    "abi_tools/abi_program": (PACKAGES, ""),
    "abi_tools/apt_archive": (PACKAGES, "What is not given"),
    "abi_tools/archives": (PACKAGES, "What is read of a package"),
    "abi_tools/arguments": (PACKAGES, ""),
    "abi_tools/baselines": (PACKAGES, "The interface of a release, kept"),
    "abi_tools/deb_control": (PACKAGES, "What is not given"),
    "abi_tools/deb_files": (PACKAGES, "What is read of a package"),
    "abi_tools/debuginfod": (PACKAGES, "What is not given"),
    "abi_tools/fetching": (PACKAGES, "What is not given"),
    "abi_tools/file_needs": (PACKAGES, "Two sets of packages"),
    "abi_tools/gate_command": (PACKAGES, "Several libraries in one run"),
    "abi_tools/gate_inputs": (PACKAGES, "Several libraries in one run"),
    "abi_tools/gate_reports": (PACKAGES, "Several libraries in one run"),
    "abi_tools/jobs": (PACKAGES, "Limits"),
    "abi_tools/library_names": (PACKAGES, "Which names lead to a library"),
    "abi_tools/loader_views": (PACKAGES, "Which files are libraries"),
    "abi_tools/output_file": (PACKAGES, ""),
    "abi_tools/package_conflicts": (PACKAGES, "What is read of a package"),
    "abi_tools/package_headers": (PACKAGES, "What is read of a package"),
    "abi_tools/package_trees": (PACKAGES, "What is read of a package"),
    "abi_tools/packages_command": (PACKAGES, "Two sets of packages"),
    "abi_tools/rpm_files": (PACKAGES, "What is read of a package"),
    "abi_tools/streams": (PACKAGES, "What is read of a package"),
    "abi_tools/symbols_files": (PACKAGES, "Several libraries in one run"),
    "abi_tools/unpacking": (PACKAGES, "What is read of a package"),
    "abi_tools/verifying": (PACKAGES, "Certificates that ship"),
    "debhelper": (GUIDE, "A gate with debhelper"),
}
# Lines that tools print on an answer, by their fixed words.
_LINES = {
    "`yes: 2 exports compared, 2 with types`, `cannot tell: ..` (`abi-gate`)": (PACKAGES, 'A gate that can say "cannot tell"'),
    "`exports with types: old 31 of 33, new 29 of 33` (`abi-packages`)": (PACKAGES, "Two sets of packages"),
    "`needs more of other files: 1 library, 2 versions, 3 symbols`": (PACKAGES, "Two sets of packages"),
}
# Longer sentences of tools are cut at a word.
_LONGEST = 40


def of_fault(fault: Named) -> Section:
    """The section of SPECIFICATION with a table that has a row for the fault, or else the last one that names it."""
    rows = [(section, row) for section in sections(SPECIFICATION) for rows in tables(section.text) for row in rows]
    found = [section for section, row in rows if re.fullmatch(rf"{fault.word}( \w+)?", row[0])]
    named = re.compile(rf"\b{fault.word} \w*{fault.name}\b")
    return [*(section for section in sections(SPECIFICATION) if named.search(section.text)), *found][-1]


def cut(words: str) -> str:
    """The first words of a sentence."""
    return words if len(words) <= _LONGEST else words[:words.rindex(" ", 0, _LONGEST)].strip(" .,;:") + " .."


def rows_of_sentences() -> Iterator[tuple[str, ...]]:
    """A row for each sentence that is in a table of what to do, for those that the sources have besides, and for those of the tools."""
    known = set[str]()
    notes = at(GUIDE, "Notes beside an answer")
    for page, head in ((GUIDE, "Note"), (PACKAGES, "The line says")):
        for section in sections(page):
            for row in chain.from_iterable(rows[1:] for rows in tables(section.text) if rows[0][0] == head):
                known.add(re.sub(r"[`.]", "", row[0]).strip())
                yield row[0], f"{without_links(row[1])}: {link(section)}"
    yield "`past the limit on ..`, `out of memory`", f"[by the limit](#limits), {at(LIMITS, 'What is counted')}"
    yield "`.. (fault NUMBER NAME at PLACE)`", "[by the number](#faults)"
    numbered = {fault.word: fault for fault in faults()}
    for words, numbers in said_of_faults().items():
        found = sorted((int(number), short(of_fault(numbered[number]))) for number in numbers)
        places = groupby(found, lambda one: one[1])
        yield f"`{words}`", ", ".join(f"fault {' or '.join(str(number) for number, _ in of)}: {where}" for where, of in places)
    for words, is_wrong in said():
        if not any(words[:30] in other for other in known):
            yield f"`{words}`", f"the arguments are wrong, status 64: {short_at(GUIDE, 'Notes beside an answer')}" if is_wrong else notes
    yield from ((words, at(*place)) for words, place in _LINES.items())
    yield from rows_of_tools()


def rows_of_tools() -> Iterator[tuple[str, ...]]:
    """A row for each section on what tools say when they end, or pass over an input."""
    by_place = dict[str, list[str]]()
    for path, words in said_by_tools():
        name = path.relative_to(TOOLS).with_suffix("")
        if words and name.parts[0] != "abi_packaging":
            place = _OF_TOOLS[str(name)] if str(name) in _OF_TOOLS else _OF_TOOLS[name.parts[0]]
            by_place.setdefault(at(*place), []).extend(f"`{cut(one)}`" for one in words)
    yield from ((", ".join(dict.fromkeys(found)), where) for where, found in by_place.items())

"""Makes and writes the report of a document."""

from __future__ import annotations

import json
import sys
from dataclasses import dataclass
from pathlib import Path
from typing import Callable, Iterator, Optional

from abi_tools.output_file import write_whole
from abi_tools.verdicts import Verdict

from abi_report.documents import read_document
from abi_report.judging import judge_document, judge_strictly
from abi_report.reports import Report
from abi_report.rule_sections import Headers
from abi_report.runs import Running
from abi_report.subjects import Library

Write = Callable[[Report], None]
# Two levels have a line for each member: the document, and its member `report`.
_OPENED = 2


@dataclass(frozen=True)
class Wanted:
    """What the arguments ask for: both libraries, the public headers, the least share of exports with types, the file for
    the certificate, the form, whether to print the answer alone, whether the text has a line for each member that another change only moved,
    whether exports are searched for that the document does not name, and whether notes on what can break callers count."""

    old: Path
    new: Path
    headers: Headers
    require_types: float
    certificate: Optional[Path]
    form: str
    quiet: bool
    is_whole: bool = False
    searches: bool = False
    is_strict: bool = False


def reported(running: Running, wanted: Wanted) -> Verdict:
    """Writes the report of a run, and returns the verdict."""
    write = writer_of(wanted.form, wanted.quiet, wanted.is_whole)
    libraries = (Library(wanted.old), Library(wanted.new))
    if not wanted.quiet:
        for library in libraries:
            library.prepare()
    document = read_document(running)
    judged = judge_document(document, wanted.old, wanted.new, wanted.require_types)
    if wanted.is_strict:
        judged = judge_strictly(judged, document)
    report = Report(document, judged, libraries, wanted.headers, wanted.searches)
    if wanted.certificate is not None and judged.verdict == Verdict.YES:
        write_whole(wanted.certificate, document.text.encode())
    write(report)
    return judged.verdict


def writer_of(form: str, quiet: bool, is_whole: bool = False) -> Write:
    """A function that writes a report in this form to standard output."""
    if form == "json" and not quiet:
        return _write_document
    # Only the modules for this form are imported.
    if form == "html" and not quiet:
        from abi_report.pages import page_writer

        write_page = page_writer()
        return lambda report: write_page(report, sys.stdout)
    from abi_report.texts import write_text

    return lambda report: write_text(report, sys.stdout, quiet, is_whole)


def _write_document(report: Report) -> None:
    sys.stdout.writelines(_pieces(report.whole(), _OPENED))
    sys.stdout.write("\n")


def _pieces(value: object, levels: int) -> Iterator[str]:
    """The text of a value: an object of the first levels has a line for each member, and a list of objects in it a line for each."""
    if isinstance(value, dict) and value and levels:
        opening = "{"
        for name, member in value.items():
            yield f"{opening}\n{json.dumps(name, ensure_ascii=False)}: "
            yield from _pieces(member, levels - 1)
            opening = ","
        yield "\n}"
    elif isinstance(value, list) and value and isinstance(value[0], dict):
        opening = "["
        for one in value:
            yield f"{opening}\n{json.dumps(one, ensure_ascii=False)}"
            opening = ","
        yield "]"
    else:
        yield json.dumps(value, ensure_ascii=False)

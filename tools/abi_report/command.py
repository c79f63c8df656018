"""The command `abi-report`."""

from __future__ import annotations

from pathlib import Path
from typing import Sequence

from abi_tools.arguments import Arguments, add_require_types, add_strict
from abi_tools.faults import Fault
from abi_tools.output_file import clear_output

from abi_report.runs import AbiJson

_DESCRIPTION = """\
Says whether a new build of a library may replace an old one, and what changed: a block for each changed type, with the lines of the
source to look at and the exports that reach it. The answer comes from `abi-json`: the one that the variable ABI_JSON names, or else the
one on the PATH. Some answers also need `abi` (the variable ABI, or the PATH).
"""
_STATUSES = """\
Exit status:
  0   yes: the new library may replace the old one
  1   no: the report says what changed
  2   it cannot tell, and the first line says why: an input is refused or missing, or the answer would not rest on types, as for
      abi-gate
  64  the arguments are wrong
"""
_FORMATS = ("text", "json", "html")


def main(arguments: Sequence[str]) -> int:
    """Reports as the arguments say, and returns the verdict."""
    given = _parser().parse_args(arguments)
    inputs = [path for path in (given.old, given.new, given.rules) if path is not None]
    if given.certificate is not None:
        clear_output(given.certificate, inputs)
    if given.headers is not None and not given.headers.is_dir():
        raise Fault(f"there is no folder {given.headers} of headers")
    if given.rules is not None:
        # a rule file that cannot be opened ends the run with the words of the system
        given.rules.open("rb").close()
    with_notes = given.strict or not (given.fast or given.quiet)
    with_digests = not (given.quiet or given.format == "text")
    with AbiJson().started(given.old, given.new, given.rules, with_notes, with_digests) as running:
        # The program judges while Python imports the rest of this tool and begins to read the libraries.
        from abi_report.reporting import Wanted, reported
        from abi_report.rule_sections import Headers

        headers = Headers.of(given.headers, given.dev)
        wanted = Wanted(given.old, given.new, headers, given.require_types, given.certificate, given.format, given.quiet,
                        given.all, not (given.fast or given.quiet or given.rules), given.strict)
        return int(reported(running, wanted))


def _parser() -> Arguments:
    parser = Arguments("abi-report", _DESCRIPTION, _STATUSES)
    parser.add_argument("--rules", type=Path, metavar="FILE", help="a rule file of abi, which says what is not compared")
    parser.add_argument("--headers", type=Path, metavar="FOLDER",
                        help="the public headers (.h, .hh, .hpp, .hxx, .inc; other files do not count): callers do not see types that none "
                             "of them declares, and these get a rule section by name")
    parser.add_argument("--dev", type=Path, action="append", default=[], metavar="PACKAGE",
                        help="a development package (.deb or .rpm) whose headers are public; may be given several times. It is read as "
                             "data, and nothing of it is placed on the disk")
    parser.add_argument("--format", choices=_FORMATS, default="text", metavar="FORMAT",
                        help="text (the default), json (the document of abi-json, with the blocks of the report), or html (one page that "
                             "needs no other file)")
    parser.add_argument("--fast", action="store_true",
                        help="leave out what takes time: the notes on what no rule judges, and the other exports that a change reaches")
    parser.add_argument("--all", action="store_true",
                        help="text: have a line for each member, also for those that one change moved together (the page has them behind a click)")
    parser.add_argument("--quiet", action="store_true", help="print only the answer, in one line")
    add_require_types(parser)
    add_strict(parser)
    parser.add_argument("--certificate", type=Path, metavar="FILE", help="keep the certificate of a yes in this file")
    parser.add_argument("old", type=Path, metavar="OLD", help="the library that programs were built against")
    parser.add_argument("new", type=Path, metavar="NEW", help="the build that is to replace it")
    return parser

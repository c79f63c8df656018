"""The command `make-manual`."""

from __future__ import annotations

from pathlib import Path
from typing import Sequence

from abi_tools.arguments import Arguments

from abi_manual.completions import completion
from abi_manual.manual_pages import abi_page, json_page
from abi_manual.sources import read_manual
from abi_manual.tool_completions import tool_completion
from abi_manual.tool_pages import tool_page

_DESCRIPTION = """\
Makes the manual pages and completions of share/ from tools/abi_manual/commands.toml and the table of rules in docs/GUIDE.md, and those
of the tools in Python also from what they print with --help and from the arguments that they take.
"""
_STATUSES = "Exit status: 0 written, or with --check all files are as they should be; 1 not; 64 wrong arguments."
SHARE = Path(__file__).resolve().parents[2] / "share"


def made() -> dict[str, str]:
    """The text of each file below share/."""
    manual = read_manual()
    return {
        "man/man1/abi.1": abi_page(manual), "man/man1/abi-json.1": json_page(manual),
        "bash-completion/completions/abi": completion(manual, "abi"),
        "bash-completion/completions/abi-json": completion(manual, "abi-json", ("report",)),
        **{f"man/man1/{name}.1": tool_page(manual, name) for name in manual.tools},
        **{f"bash-completion/completions/{name}": tool_completion(name, tool["module"]) for name, tool in manual.tools.items()},
    }


def main(arguments: Sequence[str]) -> int:
    """Writes the files or, with --check, says which of them are not as they should be."""
    parser = Arguments("make-manual", _DESCRIPTION, _STATUSES)
    parser.add_argument("--check", action="store_true", help="write nothing, and say which files are not as they should be")
    parser.add_argument("folder", type=Path, nargs="?", default=SHARE, metavar="FOLDER", help="in place of share/")
    given = parser.parse_args(arguments)
    status = 0
    for name, text in made().items():
        path = given.folder / name
        if given.check and (not path.is_file() or path.read_text() != text):
            print(f"{path} is not what tools/make-manual makes")
            status = 1
        elif not given.check:
            path.parent.mkdir(parents=True, exist_ok=True)
            path.write_text(text)
    return status

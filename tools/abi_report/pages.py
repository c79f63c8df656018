"""A report as one HTML page that needs no other file."""

from __future__ import annotations

from contextlib import suppress
from pathlib import Path
from typing import Callable, Optional, Sequence, TextIO

from jinja2 import Environment, FileSystemBytecodeCache, FileSystemLoader, select_autoescape
from jinja2.bccache import Bucket
from markupsafe import Markup

from abi_report.blocks import Block
from abi_report.layouts import BITS_OF_BYTE, Layouts, Room, layouts_of
from abi_report.records import RECORDS
from abi_report.reports import Report
from abi_report.texts_shown import counted, line_shown
from abi_report.ways import Steps, Ways

_PIECES = 200
# How many rows of layouts a page has. For further structures it names the `abi layout` command that prints them.
_MOST_ROWS = 3_000
# Layouts of more rooms get no bar, since its parts would be too small.
_MOST_PARTS = 64
# Blocks with fewer exports than this name them even if an earlier block has the same ones; how many exports are visible before a click;
# and how many names of exports a page has before it shortens the lists.
_NAMED_AGAIN = 12
_SEEN = 8
_MOST_NAMES = 200_000


class Page:
    """What the page template needs from a report."""

    def __init__(self, report: Report) -> None:
        self.report = report
        self._rows = 0
        self._names = 0
        seen = [(block, (*block.exports[:_SEEN], *block.member_exports[:_SEEN])) for block in report.types if not report.is_of_itself(block)]
        self._ways = Ways(report.old, seen)

    def layouts(self, block: Block) -> Optional[Layouts]:
        """Both layouts of a block's structure, if the page still has room for them."""
        if self._rows > _MOST_ROWS:
            return None
        found = layouts_of(block.subject, self.report.old, self.report.new)
        self._rows += len(found.rows) if found is not None else 0
        return found

    def layout_words(self, block: Block) -> Optional[str]:
        """The last words of the command that prints a layout for which the page has no room, after the program and the library."""
        entry = block.subject.old.entry
        return entry.name if entry is not None and entry.tag in RECORDS and block.subject.kind == "record" else None

    def has_bar(self, layouts: Layouts) -> bool:
        """Whether the layouts are also drawn as bars."""
        return len(layouts.rows) <= _MOST_PARTS and max(layouts.old_size, layouts.new_size) > 0 and not layouts.overlaps

    def share(self, layouts: Layouts, size: int) -> str:
        """How much of the page's width the bar of a layout of `size` bytes takes, relative to the larger of both."""
        return f"{100 * size / max(layouts.old_size, layouts.new_size):.4g}%"

    def cell(self, room: Room, size: int) -> str:
        """The place and width of a room in the bar of a layout of `size` bytes."""
        bits = size * BITS_OF_BYTE
        return f"left:{100 * room.bit / bits:.6g}%;width:{100 * room.width / bits:.6g}%"

    def named(self, exports: Sequence[str]) -> Sequence[str]:
        """The exports to name: all of them, if the page still has room."""
        if self._names > _MOST_NAMES:
            return exports[:_SEEN]
        self._names += len(exports)
        return exports

    def way(self, block: Block, export: str) -> Optional[Steps]:
        """The steps from an export to the type of a block, if they are known."""
        return self._ways.of(block, export)

    def same(self, block: Block) -> Optional[Block]:
        """An earlier block with the same exports."""
        return self.report.same_exports(block, _NAMED_AGAIN)


class _Kept(FileSystemBytecodeCache):
    """Keeps the compiled template beside the compiled modules, if Python keeps these."""

    def load_bytecode(self, bucket: Bucket) -> None:
        """Loads the compiled template, if there is one."""
        with suppress(OSError):
            super().load_bytecode(bucket)

    def dump_bytecode(self, bucket: Bucket) -> None:
        """Stores the compiled template, if that is possible."""
        with suppress(OSError):
            super().dump_bytecode(bucket)


def _finished(value: object) -> object:
    """A value as the page has it: no text of a library may turn the direction of a sentence. What a macro made stays as it is."""
    return "\n".join(map(line_shown, value.split("\n"))) if isinstance(value, str) and not isinstance(value, Markup) else value


def page_writer() -> Callable[[Report, TextIO], None]:
    """A function that writes the page of a report piece by piece."""
    folder = Path(__file__).resolve().parent
    environment = Environment(loader=FileSystemLoader(folder), trim_blocks=True, lstrip_blocks=True,
                              autoescape=select_autoescape(default=True, default_for_string=True), finalize=_finished,
                              bytecode_cache=_Kept(str(folder / "__pycache__")))
    environment.filters["arrows"] = lambda text: text.replace(" -> ", " → ")
    environment.filters["any"] = any
    environment.filters["counted"] = lambda count, thing: counted(count, thing)
    template = environment.get_template("page.html.j2")

    def write(report: Report, stream: TextIO) -> None:
        numbers = {id(block): number for number, block in enumerate(report.blocks, 1)}
        pieces = template.stream(report=report, page=Page(report), seen=_SEEN, number=lambda block: numbers[id(block)])
        pieces.enable_buffering(_PIECES)
        pieces.dump(stream)

    return write

"""A progress bar on a terminal."""

from __future__ import annotations

import sys
from types import TracebackType
from typing import Any, Optional


class Progress:
    """Shows on standard error how many of some things are done, if that is a terminal and the library for it is installed, and if there
    are at least `least` of them."""

    def __init__(self, count: int, what: str, least: int = 2) -> None:
        self._bar = _bar() if count >= least and sys.stderr.isatty() else None
        self._task = None if self._bar is None else self._bar.add_task(what, total=count)

    def __enter__(self) -> "Progress":
        if self._bar is not None:
            self._bar.start()
        return self

    def __exit__(self, _kind: Optional[type[BaseException]], _error: Optional[BaseException], _trace: Optional[TracebackType]) -> None:
        if self._bar is not None:
            self._bar.stop()

    def advance(self) -> None:
        """One more is done."""
        if self._bar is not None and self._task is not None:
            self._bar.advance(self._task)
            self._bar.refresh()


def _bar() -> Optional[Any]:
    """A bar that no thread refreshes, since processes are made beside it; None if `rich` is not installed."""
    try:
        from rich.console import Console
        from rich.progress import BarColumn, MofNCompleteColumn, TextColumn, TimeElapsedColumn
        from rich.progress import Progress as RichBar
    except ImportError:
        return None
    columns = (TextColumn("{task.description}"), BarColumn(), MofNCompleteColumn(), TimeElapsedColumn())
    return RichBar(*columns, console=Console(stderr=True), auto_refresh=False, transient=True)

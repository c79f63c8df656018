"""Shows the progress of a run: a bar on a terminal, plain lines elsewhere."""

from __future__ import annotations

import time
from typing import Optional, Protocol, TextIO

# Seconds between plain lines.
_EVERY = 10.0


class Progress(Protocol):
    """Shows progress."""

    def advance(self) -> None:
        """Counts one more task as done."""

    def end(self) -> None:
        """Stops showing progress."""


class PlainProgress:
    """Prints a line now and then."""

    def __init__(self, total: int, what: str, stream: TextIO) -> None:
        self._total, self._what, self._stream = total, what, stream
        self._done = 0
        self._start = self._said = time.monotonic()

    def advance(self) -> None:
        """Counts one more task as done."""
        self._done += 1
        now = time.monotonic()
        if now - self._said >= _EVERY or self._done == self._total:
            self._said = now
            rate = self._done / max(now - self._start, 1e-9)
            print(f"abi-release: {self._done} of {self._total} {self._what}, {rate:.1f} a second, "
                  f"{(self._total - self._done) / rate:.0f} seconds left", file=self._stream, flush=True)

    def end(self) -> None:
        """Stops showing progress."""


class BarProgress:
    """A bar with the number of tasks done, the rate and the time left."""

    def __init__(self, total: int, what: str) -> None:
        from rich.console import Console
        from rich.progress import BarColumn, MofNCompleteColumn, Progress as Bar, TextColumn, TimeRemainingColumn

        self._bar = Bar(TextColumn(what), BarColumn(), MofNCompleteColumn(), TextColumn("{task.fields[rate]} a second, left"),
                        TimeRemainingColumn(), console=Console(stderr=True))
        self._task = self._bar.add_task(what, total=total, rate="0.0")
        self._done = 0
        self._start = time.monotonic()
        self._bar.start()

    def advance(self) -> None:
        """Counts one more task as done."""
        self._done += 1
        rate = self._done / max(time.monotonic() - self._start, 1e-9)
        self._bar.update(self._task, advance=1, rate=f"{rate:.1f}")

    def end(self) -> None:
        """Stops showing progress."""
        self._bar.stop()


def progress_of(total: int, what: str, stream: TextIO) -> Progress:
    """A bar if the stream is a terminal, plain lines otherwise."""
    bar: Optional[Progress] = BarProgress(total, what) if stream.isatty() else None
    return bar or PlainProgress(total, what, stream)

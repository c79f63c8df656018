"""A worker's process: where it unpacks packages, and how much memory, processor time and time by the clock it may take."""

from __future__ import annotations

import atexit
import contextlib
import os
import resource
import signal
import tempfile
import threading
import time
from collections import Counter
from pathlib import Path
from typing import Any, Callable, Iterator, NamedTuple, Optional

from distributed import Worker, WorkerPlugin

from abi_release.scratch import IN_MEMORY, Scratch, make_private, sweep

_MEGABYTE = 1 << 20
_PAGE = resource.getpagesize()
_LOOKS_EVERY = 0.5
# How many seconds lie between heartbeats of a worker.
_BEATS_EVERY = 10
# After so many seconds without a task, a worker that several runs share leaves the folder of a run. If the run goes on, it is made again.
_IDLE = 60.0


class QuietWorker(Worker):
    """A worker without an HTTP server, with few heartbeats: each takes as long as a small library, and the run uses nothing of them."""

    def start_http_server(self, *_arguments: Any, **_options: Any) -> None:
        """Starts none."""

    async def heartbeat(self) -> None:
        """Sends a heartbeat. The scheduler's answer would have the next one come after half a second."""
        await super().heartbeat()
        self.periodic_callbacks["heartbeat"].callback_time = 1000 * _BEATS_EVERY


class Places(NamedTuple):
    """Where a worker may write: a folder on the disk, and one in memory for small packages (None if there is none)."""

    disk: Path
    memory: Optional[Path]


class _Own:
    """Whether the worker belongs to this run alone, so that the run may limit its process; its places, if the run made them; those that
    this process made for other runs, by run; how many tasks it does for each run right now; and when it last ended one."""

    is_limited = False
    places: Optional[Places] = None
    made: dict[str, Scratch] = {}
    tasks: Counter[str] = Counter()
    ended: dict[str, float] = {}
    lock = threading.Lock()


class LimitPlugin(WorkerPlugin):
    """Limits a worker of a run's own cluster, which has one thread: to `megabytes` more than it has at the start, and to the time that
    tasks allow. Also says where the worker may write."""

    def __init__(self, megabytes: int, places: Places) -> None:
        self.name = "abi-release-limits"
        self._megabytes = megabytes
        self._places = places

    def setup(self, worker: Worker) -> None:
        """Limits the process."""
        with open("/proc/self/statm", encoding="ascii") as stream:
            at_start = int(stream.read().split()[0]) * _PAGE
        most = resource.getrlimit(resource.RLIMIT_AS)[1]
        resource.setrlimit(resource.RLIMIT_AS, (at_start + self._megabytes * _MEGABYTE, most))
        resource.setrlimit(resource.RLIMIT_CORE, (0, 0))
        _Own.is_limited = True
        _Own.places = self._places


def places(run: str) -> Places:
    """Where this process may write for a run. On a cluster that is not the run's own it makes the folder, which all workers of the run on
    this host share."""
    if _Own.places is not None:
        make_private(_Own.places.disk)
        return _Own.places
    with _Own.lock:
        if run not in _Own.made:
            sweep(Path(tempfile.gettempdir()))
            _Own.made[run] = Scratch.of_run(run, Path(tempfile.gettempdir()))
            if len(_Own.made) == 1:
                atexit.register(leave_all)
        for other in _idle_runs(run):
            _Own.made.pop(other).leave()
        return Places(_Own.made[run].folder, None)


def _idle_runs(but: str) -> list[str]:
    """The runs for which this process has done nothing for some time: they may have been killed."""
    now = time.monotonic()
    return [run for run in _Own.made if run != but and not _Own.tasks[run] and now - _Own.ended.get(run, now) > _IDLE]


@contextlib.contextmanager
def at_work(run: str) -> Iterator[None]:
    """A context in which this process does a task for a run."""
    with _Own.lock:
        _Own.tasks[run] += 1
    try:
        yield
    finally:
        with _Own.lock:
            _Own.tasks[run] -= 1
            _Own.ended[run] = time.monotonic()


def leave(run: str) -> None:
    """Removes the folder of a run that is over, unless another process uses it."""
    with _Own.lock:
        made = _Own.made.pop(run, None)
    if made is not None:
        made.leave()


def leave_all() -> None:
    """The same for all runs."""
    for run in list(_Own.made):
        leave(run)


def memory_parent() -> Optional[Path]:
    """The folder of files in memory; None if there is none."""
    return IN_MEMORY if os.access(IN_MEMORY, os.W_OK | os.X_OK) else None


class _Clock:
    """Ends the process when a thread works on one thing for too long by the clock, for example on a file system that does not answer.
    Python cannot end a thread, and a thread that waits for the system takes no processor time."""

    def __init__(self) -> None:
        self._ends: dict[int, tuple[float, Callable[[], None]]] = {}
        self._lock = threading.Lock()
        self._thread: Optional[threading.Thread] = None

    def start(self, seconds: float, last_words: Callable[[], None]) -> None:
        """Gives the thread some seconds from now on. Calls `last_words` before it ends the process."""
        with self._lock:
            self._ends[threading.get_ident()] = time.monotonic() + seconds, last_words
            if self._thread is None:
                self._thread = threading.Thread(target=self._look, daemon=True)
                self._thread.start()

    def stop(self) -> None:
        """Ends the thread's limit."""
        with self._lock:
            self._ends.pop(threading.get_ident(), None)

    def _look(self) -> None:
        while True:
            time.sleep(_LOOKS_EVERY)
            with self._lock:
                late = [last_words for end, last_words in self._ends.values() if time.monotonic() > end]
            if late:
                # The file system of the results may be the one that does not answer.
                words = threading.Thread(target=late[0], daemon=True)
                words.start()
                words.join(_LOOKS_EVERY)
                os.kill(os.getpid(), signal.SIGKILL)


CLOCK = _Clock()


def allow_more_time(seconds: int) -> None:
    """If the process is limited, allows it this many seconds of processor time from now on."""
    if _Own.is_limited:
        most = resource.getrlimit(resource.RLIMIT_CPU)[1]
        resource.setrlimit(resource.RLIMIT_CPU, (int(time.process_time()) + 1 + seconds, most))

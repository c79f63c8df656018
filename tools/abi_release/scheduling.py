"""Schedules the tasks of a run: a bounded number at a time, each tried again if it fails, and none lost. Packages with one pair of
libraries are one task; packages with several are one task that opens them, and then one for each pair. Dask gets batches of tasks,
since a Dask task costs more than judging a small library."""

from __future__ import annotations

import contextlib
import itertools
import operator
import threading
import time
from collections import Counter, deque
from concurrent.futures import CancelledError
from dataclasses import dataclass, field
from typing import Iterator, NamedTuple, Optional, Sequence

from distributed import Client, Future, KilledWorker, as_completed

from abi_release.apps import Ask
from abi_release.clusters import Choice, LocalChoice, NotStarted
from abi_release.digests import digest_of_json
from abi_release.explaining import Explain
from abi_release.judging import DIED, Outcome, Part, Settings, open_line
from abi_release.openings import Openings
from abi_release.progress import Progress
from abi_release.stored_files import Json, Store, record_name
from abi_tools.faults import Fault

# How many batches the scheduler has for each worker thread, and how many at least.
_TASKS_FOR_A_THREAD = 4
_LEAST_TASKS = 16
# How many tasks a batch has at most; batches become smaller when fewer than _LEAST_BATCHES full ones are left for each worker thread. A
# worker begins no further task of a batch after _LONGEST_BATCH seconds.
_LARGEST_BATCH = 128
_LEAST_BATCHES = 16
_LONGEST_BATCH = 5.0
# How many clusters a run starts or connects to before it gives up, and how many seconds lie between checks for workers.
_MOST_CLUSTERS = 10
_LOOKS_EVERY = 1.0
# How many deaths of its worker a task that has not begun survives.
_MOST_WAITS = 20


Task = Part | Ask | Explain


class Given(NamedTuple):
    """A task of a batch, and the libraries that it skips."""

    task: Task
    passed_over: tuple[str, ...]


def done_in_turn(batch: Sequence[Given], settings: Settings) -> list[Outcome]:
    """Does the tasks of a batch in turn, and returns the outcomes of those for which there was time: at least the first."""
    end = time.monotonic() + _LONGEST_BATCH
    outcomes: list[Outcome] = []
    for task, passed_over in batch:
        if outcomes and time.monotonic() > end:
            break
        outcomes.append(task.do(settings, passed_over))
    return outcomes


class Failure(NamedTuple):
    """Why two packages, or a library of them, were not judged, and how often this was tried."""

    reason: str
    tries: int


class _Lost(Exception):
    """The cluster is lost; the run may go on with another one."""


class _NoWorkers(Exception):
    """The cluster has had no worker for too long."""


@dataclass
class Run:
    """A run over packages on a cluster. The results are in the store; what failed in this run is here: packages by name, and libraries by
    package and library. `identities` has a digest of the identity of each record that belongs to this run. As a context it keeps one
    cluster for all that it does, since starting one takes as long as hundreds of small libraries."""

    settings: Settings
    store: Store
    choice: Choice
    tries: int
    patience: float
    counts: Counter[str] = field(default_factory=Counter)
    failures: dict[str, Failure] = field(default_factory=dict)
    troubles: dict[str, dict[str, Failure]] = field(default_factory=dict)
    identities: dict[str, str] = field(default_factory=dict)
    _tried: Counter[tuple[str, str]] = field(default_factory=Counter)
    _deaths: dict[str, Counter[str]] = field(default_factory=dict)
    _waits: Counter[str] = field(default_factory=Counter)

    def __post_init__(self) -> None:
        self._source: Iterator[Task] = iter(())
        self._openings = Openings(self.store)
        self._cluster = contextlib.ExitStack()
        self._client: Optional[Client] = None
        self.keys = (f"judged-{number}" for number in itertools.count())

    def __enter__(self) -> "Run":
        return self

    def __exit__(self, *_: object) -> None:
        self._leave()

    def _joined(self) -> Client:
        """A client of the cluster, which starts unless it runs."""
        if self._client is None:
            self._client = self._cluster.enter_context(self.choice.client())
        return self._client

    def _leave(self) -> None:
        """Ends the cluster, or leaves it."""
        self._client = None
        self._cluster.close()

    def over(self, tasks: Sequence[Task], progress: Progress) -> None:
        """Does all tasks: those that open packages, that ask `abi app`, or that make pages. Tasks that cannot be done become failures."""
        left: deque[Task] = deque()
        source = self._source = iter(tasks)
        for _ in range(_MOST_CLUSTERS):
            reason = ""
            try:
                return _Turn(self, self._joined(), source, left, progress).run()
            except _NoWorkers as lost:
                reason = str(lost)
                if not isinstance(self.choice, LocalChoice):
                    break
            except (_Lost, NotStarted) as lost:
                reason = str(lost)
            except Fault as fault:
                reason = str(fault)
                break
            finally:
                if reason:
                    self._leave()
        for part in itertools.chain(left, source):
            if part.name not in self.failures:
                self.failures[part.name] = Failure(reason, self._tried[part.name, part.library] + 1)
                progress.advance()

    def record(self, name: str) -> Optional[Json]:
        """The record of two packages; None if they failed, or if another process has put another record in its place."""
        record = None if name in self.failures else self.store.json(record_name(name))
        if record is None or digest_of_json(record["identity"]) != self.identities.get(name):
            return None
        return record

    def waiting(self) -> int:
        """How many tasks have not been submitted yet."""
        return operator.length_hint(self._source)

    def came_of(self, part: Task, outcome: Outcome) -> "Next":
        """Takes the outcome of a task, and returns what to do next."""
        self.counts["judged"] += outcome.judged
        self.counts["kept"] += outcome.kept
        if outcome.identity:
            self.identities[part.name] = digest_of_json(outcome.identity)
        tried = part.name, part.library
        if outcome.left and isinstance(part, Part):
            self._tried.pop(tried, None)
            return Next(first=self._openings.open(part.work, outcome))
        if outcome.reason or outcome.troubles:
            self._tried[tried] += 1
            if self._tried[tried] < self.tries:
                return Next(again=[part])
        times = self._tried.pop(tried, 0)
        for library, reason in outcome.troubles.items():
            self.troubles.setdefault(part.name, {})[library] = Failure(reason, times)
        if isinstance(part, Part) and part.library:
            return self._take_line(part, outcome.line, Failure(outcome.reason, times))
        if outcome.reason:
            self.failures[part.name] = Failure(outcome.reason, times)
        return Next(is_done=True)

    def _take_line(self, part: Part, line: Optional[Json], failure: Failure) -> "Next":
        """Takes the line of one of several libraries; without one, the library failed."""
        if failure.reason:
            self.troubles.setdefault(part.name, {})[part.library] = failure
        is_judged = line is not None and "result" in line
        try:
            return Next(is_done=self._openings.take(part, line if line is not None and is_judged else open_line(part.library)))
        except OSError as error:
            self.failures[part.name] = Failure(error.strerror or str(error), 1)
            return Next(is_done=True)

    def died(self, part: Task, worker: str = "") -> "Next":
        """Takes the death of the worker, at this address, that had a task, and returns what to do next. The task is tried again, up to
        `tries` times for each library, and then without that library. A task that had not begun was only waiting at the worker."""
        begun = self.store.begun(part.mark)
        if begun is None:
            self._waits[part.mark] += 1
            if self._waits[part.mark] < _MOST_WAITS:
                return Next(again=[part])
        library = part.library or begun or ""
        deaths = self._deaths.setdefault(part.name, Counter())
        deaths[library] += 1
        reason = self.store.why(part.mark)
        if deaths[library] < self.tries:
            return Next(again=[part])
        failure = Failure(reason or self.choice.why_died(worker) or DIED, deaths[library])
        if library and isinstance(part, Part):
            self.troubles.setdefault(part.name, {})[library] = failure
            return self._take_line(part, None, failure) if part.library else Next(again=[part])
        self.failures[part.name] = failure
        return Next(is_done=True)

    def passed_over(self, part: Task) -> tuple[str, ...]:
        """The libraries that have made workers die as often as libraries are tried."""
        deaths = self._deaths.get(part.name, Counter())
        return tuple(sorted(library for library, times in deaths.items() if library and times >= self.tries))


class Next(NamedTuple):
    """What to do after a task: tasks to do `first`, tasks to try `again` at the end, the `rest` of its batch, which was not begun; and
    whether its packages are done."""

    first: Sequence[Task] = ()
    again: Sequence[Task] = ()
    rest: Sequence[Task] = ()
    is_done: bool = False


class _Turn:
    """The part of a run that one cluster does, until it is done or the cluster is lost."""

    def __init__(self, run: Run, client: Client, source: Iterator[Task], left: deque[Task], progress: Progress) -> None:
        self._run, self._client, self._source, self._left, self._progress = run, client, source, left, progress
        self._under_way: dict[str, list[Task]] = {}
        self._threads = 1
        self._first: deque[Task] = deque()
        self._again: deque[Task] = deque()

    def run(self) -> None:
        """Does all tasks that are left. Raises _Lost or _NoWorkers if the cluster fails; the remaining tasks are then in `left`."""
        watch = _Watch(self._client, self._run.patience)
        try:
            with watch:
                self._look_for_threads()
                ended = as_completed(self._submitted(self._most()), loop=self._client.loop, raise_errors=False)
                for number, future in enumerate(ended):
                    self._take(future, watch)
                    # Asking the scheduler takes as long as a task, so ask rarely.
                    if number % _LEAST_TASKS == 0:
                        self._look_for_threads()
                    for more in self._submitted(max(1, self._most() - len(self._under_way))):
                        ended.add(more)
        except OSError as error:
            raise _Lost("the scheduler is gone") from error
        finally:
            for parts in (*self._under_way.values(), self._first, self._again):
                self._left.extend(parts)

    def _look_for_threads(self) -> None:
        workers = self._client.scheduler_info()["workers"].values()
        self._threads = max(1, sum(worker["nthreads"] for worker in workers))

    def _most(self) -> int:
        """How many batches the scheduler should have."""
        return max(_LEAST_TASKS, _TASKS_FOR_A_THREAD * self._threads)

    def _submitted(self, count: int) -> list[Future]:
        """Submits the next batches, at most `count`."""
        batches = itertools.takewhile(bool, (self._batch() for _ in range(count)))
        return [self._submit(batch) for batch in batches]

    def _batch(self) -> list[Task]:
        """The next tasks: first libraries of open packages, then tasks that another cluster left, then tasks not tried yet, and last
        tasks to try again. One of several libraries is a batch of its own, and so is a task to try again."""
        if self._first:
            return [self._first.popleft()]
        waiting = len(self._left) + self._run.waiting()
        size = max(1, min(_LARGEST_BATCH, waiting // (_LEAST_BATCHES * self._threads)))
        batch: list[Task] = []
        while self._left and len(batch) < size:
            batch.append(self._left.popleft())
        batch += itertools.islice(self._source, size - len(batch))
        if not batch and self._again:
            batch.append(self._again.popleft())
        return batch

    def _submit(self, batch: list[Task]) -> Future:
        key = next(self._run.keys)
        self._under_way[key] = batch
        given = [Given(task, self._run.passed_over(task)) for task in batch]
        try:
            future: Future = self._client.submit(done_in_turn, given, self._run.settings, key=key, pure=False,
                                                 priority=1 if batch[0].library else 0)
        except Exception as error:
            raise _Lost("the scheduler is gone") from error
        return future

    def _take(self, future: Future, watch: "_Watch") -> None:
        """Takes the outcome of a batch."""
        if future.status in ("cancelled", "lost"):
            if watch.reason:
                raise _NoWorkers(watch.reason)
            raise _Lost("the scheduler is gone")
        nexts = self._next_after(self._under_way[future.key], future)
        del self._under_way[future.key]
        future.release()
        for then in nexts:
            self._first.extend(then.first)
            self._again.extend(then.again)
            self._left.extend(then.rest)
            if then.is_done:
                self._progress.advance()

    def _next_after(self, batch: Sequence[Task], future: Future) -> list[Next]:
        error = future.exception() if future.status == "error" else None
        if error is None:
            try:
                outcomes = future.result()
                return [*map(self._run.came_of, batch, outcomes), Next(rest=batch[len(outcomes):])]
            except (KilledWorker, CancelledError) as ended:
                # If the worker that holds the result dies, Dask does the batch again, and that may fail.
                error = ended
            except (TypeError, ValueError) as ended:
                # Dask takes the result for an exception if the future is cancelled, or fails, after the result came.
                if future.status == "finished":
                    raise
                raise _Lost("the scheduler is gone") from ended
        if isinstance(error, KilledWorker):
            worker = str(getattr(error.last_worker, "address", ""))
            return [self._run.died(task, worker) for task in batch]
        if isinstance(error, CancelledError):
            raise _Lost("the scheduler is gone") from error
        return [self._run.came_of(task, Outcome(reason=f"{type(error).__name__}: {error}")) for task in batch]


class _Watch:
    """Ends a run that has lost its workers: cancels the tasks once there has been no worker for `patience` seconds."""

    def __init__(self, client: Client, patience: float) -> None:
        self.reason = ""
        self._client, self._patience = client, patience
        self._ended = threading.Event()
        self._thread = threading.Thread(target=self._look, daemon=True)

    def __enter__(self) -> "_Watch":
        self._thread.start()
        return self

    def __exit__(self, *_: object) -> None:
        self._ended.set()
        self._thread.join()

    def _look(self) -> None:
        seen = time.monotonic()
        while not self._ended.wait(_LOOKS_EVERY):
            if self._client.scheduler_info()["workers"]:
                seen = time.monotonic()
            elif time.monotonic() - seen > self._patience:
                self.reason = f"no worker was there for {self._patience:g} seconds"
                self._client.cancel([Future(key, self._client) for key in list(self._client.futures)])
                return

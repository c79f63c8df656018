"""The Dask cluster that does the work: a local one, or one that is already running."""

from __future__ import annotations

import contextlib
import logging
import os
import site
import sys
import tempfile
import threading
from dataclasses import dataclass, field
from functools import partial
from pathlib import Path
from typing import Any, Iterator, Optional

import dask
from distributed import Client, Nanny, Scheduler, Security, SpecCluster

from abi_release.judging import DIED
from abi_release.scratch import Scratch, sweep
from abi_release.unpacked import let_go_of
from abi_release.workers import LimitPlugin, Places, QuietWorker, memory_parent
from abi_tools.faults import Fault, said_of_signal

_TOOLS = str(Path(__file__).resolve().parent.parent)
_MEGABYTE = 1 << 20
_LOOPBACK = "127.0.0.1"
PROTOCOL = "tls://"
# How many seconds a client may take to disconnect.
_CLOSES_IN = 2
# The scheduler gives each worker one task at a time, so that only one is suspected when the worker dies, and reports the death at once.
# It keeps short logs. On a busy machine it may take long until a worker restarts or sends a heartbeat, so the timeouts are long. Workers
# have a hard memory limit, so Dask need not spill or pause. Dask monitors itself seldom, since monitoring takes the workers' time.
_LOCAL_SETTINGS = {
    "distributed.comm.timeouts.connect": "5 minutes",
    "distributed.scheduler.worker-ttl": "1 hour",
    "distributed.scheduler.worker-saturation": 1.0,
    "distributed.scheduler.allowed-failures": 0,
    "distributed.deploy.lost-worker-timeout": "1 hour",
    "distributed.scheduler.transition-log-length": 100,
    "distributed.scheduler.events-log-length": 100,
    "distributed.scheduler.work-stealing-interval": "1s",
    "distributed.client.scheduler-info-interval": "1 minute",
    "distributed.admin.tick.interval": "2s",
    "distributed.admin.tick.cycle": "20s",
    "distributed.admin.system-monitor.interval": "5s",
    "distributed.worker.memory.monitor-interval": "1s",
    "distributed.worker.memory.target": False,
    "distributed.worker.memory.spill": False,
    "distributed.worker.memory.pause": False,
    "distributed.worker.profile.interval": "10s",
    "distributed.worker.profile.cycle": "100s",
}


# How many seconds it may take until a nanny says how its worker ended, after the scheduler has lost it.
_SAYS_IN = 5.0


class NotStarted(Exception):
    """The local cluster did not start, as can happen on an overloaded machine."""


class _QuietScheduler(Scheduler):
    """A scheduler without an HTTP server."""

    def start_http_server(self, *_arguments: Any, **_options: Any) -> None:
        """Starts none."""


class Deaths:
    """How the workers of a local cluster ended, by address. The nannies, which start the workers, run in this process."""

    def __init__(self) -> None:
        self._reasons: dict[str, str] = {}
        self._said = threading.Condition()

    def take(self, address: str, reason: str) -> None:
        """Takes how a worker ended."""
        with self._said:
            self._reasons[address] = reason
            self._said.notify_all()

    def reason(self, address: str) -> str:
        """How a worker ended; empty if nobody says so in time."""
        if not address:
            return ""
        with self._said:
            self._said.wait_for(lambda: address in self._reasons, _SAYS_IN)
            return self._reasons.get(address, "")


class _TellingNanny(Nanny):
    """A nanny that says how its worker ended."""

    def __init__(self, *arguments: Any, deaths: Deaths, megabytes: int, **options: Any) -> None:
        super().__init__(*arguments, **options)
        self._deaths, self._megabytes = deaths, megabytes
        self._ended = self._last_ended()

    def _last_ended(self) -> int:
        """The last worker's process that Dask ended because it took more memory than it may: by SIGTERM, and later by SIGKILL."""
        return int(self.memory_manager._last_terminated_pid)  # pylint: disable=protected-access

    def _on_worker_exit_sync(self, exitcode: int) -> None:
        if self.worker_address is not None:
            self._deaths.take(self.worker_address, self._how_it_ended(exitcode))
        super()._on_worker_exit_sync(exitcode)

    def _how_it_ended(self, exitcode: int) -> str:
        """Why the worker ended, by the exit status of its process: negative if a signal ended it."""
        before, self._ended = self._ended, self._last_ended()
        if self._ended != before:
            return f"{DIED}: it took more than its limit of {self._megabytes} MB"
        return f"{DIED}: {said_of_signal(-exitcode) if exitcode < 0 else f'it ended with status {exitcode}'}"


@dataclass(frozen=True)
class LocalChoice:
    """A local cluster: how many workers it has, how many megabytes each may take, and whether it has Dask's dashboard. Its processes
    listen on the loopback only, and talk to nobody without the certificate that the run makes for itself."""

    workers: int
    megabytes: int
    has_dashboard: bool = False
    deaths: Deaths = field(default_factory=Deaths)

    def why_died(self, worker: str) -> str:
        """Why the worker at an address died; empty if that is not known."""
        return self.deaths.reason(worker)

    @contextlib.contextmanager
    def client(self) -> Iterator[Client]:
        """A context with a client of the cluster. Raises NotStarted if the cluster does not start."""
        with contextlib.ExitStack() as folders, dask.config.set(_LOCAL_SETTINGS):
            disk, memory = scratch(folders, Path(tempfile.gettempdir())), None
            parent = memory_parent()
            if parent is not None:
                with contextlib.suppress(OSError):
                    memory = scratch(folders, parent).folder
            parts = contextlib.ExitStack()
            try:
                yield self._started(parts, Places(disk.folder, memory), disk.part("dask"))
            finally:
                # All results are stored by now, so a worker that does not end in time does no harm.
                with contextlib.suppress(OSError, TimeoutError, RuntimeError):
                    parts.close()

    def _started(self, parts: contextlib.ExitStack, places: Places, folder: Path) -> Client:
        """Starts the cluster and a client of it. `parts` closes both."""
        try:
            security = Security.temporary()
        except ImportError as error:
            raise Fault("there is no cryptography for Python: install the package python3-cryptography") from error
        everywhere = {"host": _LOOPBACK, "protocol": PROTOCOL, "security": security}
        worker = {"cls": _TellingNanny, "options": {
            **everywhere, "deaths": self.deaths, "megabytes": 2 * self.megabytes, "worker_class": QuietWorker, "nthreads": 1,
            "dashboard": False, "local_directory": str(folder), "memory_limit": 2 * self.megabytes * _MEGABYTE,
            "silence_logs": logging.CRITICAL}}
        scheduler = {"cls": Scheduler if self.has_dashboard else _QuietScheduler, "options": {
            **everywhere, "port": 0, "dashboard": self.has_dashboard, "dashboard_address": f"{_LOOPBACK}:0"}}
        try:
            cluster = parts.enter_context(SpecCluster(scheduler=scheduler, workers=dict.fromkeys(range(self.workers), worker),
                                                      security=security, silence_logs=logging.CRITICAL))
            if self.has_dashboard:
                print(f"abi-release: the dashboard is at {cluster.dashboard_link}", file=sys.stderr)
            client: Client = parts.enter_context(Client(cluster))
            client.register_worker_plugin(LimitPlugin(self.megabytes, places))
        except (OSError, TimeoutError, RuntimeError) as error:
            raise NotStarted(f"this machine's cluster did not start: {error}") from error
        return client


def scratch(folders: contextlib.ExitStack, parent: Path) -> Scratch:
    """Makes a folder for work in progress, which `folders` removes, and removes those of runs that were killed."""
    sweep(parent)
    return folders.enter_context(contextlib.closing(Scratch.new(parent)))


@dataclass(frozen=True)
class Keys:
    """The files of TLS, all in PEM: the certificate authority of the cluster, and this run's certificate and key."""

    authority: str
    certificate: str
    key: str

    def security(self) -> Security:
        """The same for Dask. Raises a fault if a file is missing or not in PEM."""
        security = Security(require_encryption=True, tls_ca_file=self.authority, tls_client_cert=self.certificate, tls_client_key=self.key)
        try:
            security.get_connection_args("client")
        except (OSError, ValueError) as error:
            raise Fault(f"the files of --tls-ca, --tls-cert and --tls-key cannot be used: {error}") from error
        return security


@dataclass(frozen=True)
class OtherChoice:
    """A running cluster: the address of its scheduler, the files of TLS (None for a cluster without TLS), how many seconds to wait for it,
    and the mark of the run."""

    address: str
    keys: Optional[Keys]
    patience: float
    run: str

    def why_died(self, _worker: str) -> str:
        """Why the worker at an address died: only its machine knows."""
        return ""

    @contextlib.contextmanager
    def client(self) -> Iterator[Client]:
        """A context with a client of the cluster. Raises a fault if the scheduler cannot be reached."""
        security = None if self.keys is None else self.keys.security()
        try:
            client = Client(self.address, timeout=self.patience, set_as_default=False, security=security)
            # The workers import this package from a folder of the same name as on this machine.
            client.register_worker_callbacks(setup=partial(site.addsitedir, _TOOLS))
        except (OSError, TimeoutError) as error:
            raise Fault(f"the scheduler cannot be reached: {error}") from error
        try:
            yield client
        finally:
            # The workers go on running, so they remove what they unpacked for this run. The scheduler may be gone.
            with contextlib.suppress(OSError, TimeoutError, RuntimeError):
                client.run(let_go_of, self.run, on_error="ignore")
            with contextlib.suppress(OSError, TimeoutError):
                client.close(timeout=_CLOSES_IN)


Choice = LocalChoice | OtherChoice


def default_disk() -> int:
    """How many megabytes of the disk unpacked packages may take: half of what is free in the folder for temporary files, at most 16 GB."""
    found = os.statvfs(tempfile.gettempdir())
    return max(1, min(16384, found.f_bavail * found.f_frsize // (2 * _MEGABYTE)))


def processors() -> int:
    """How many processors this process may use."""
    return len(os.sched_getaffinity(0))


def default_megabytes(workers: int) -> int:
    """A worker's share of half of the memory, since `abi` may take the other half; at most 4 GB."""
    total: Optional[int] = None
    with contextlib.suppress(ValueError, OSError):
        total = os.sysconf("SC_PAGE_SIZE") * os.sysconf("SC_PHYS_PAGES")
    return min(4096, (total or 8 << 30) // (2 * workers * _MEGABYTE))

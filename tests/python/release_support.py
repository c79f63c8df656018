"""What the tests of `abi-release` share: they make small releases with dpkg-deb, run the tool on them, and read its tables."""

from __future__ import annotations

import contextlib
import json
import os
import shutil
import signal
import socket
import subprocess
import time
from pathlib import Path
from typing import Any, Callable, Mapping, NamedTuple, Sequence

import jsonschema
from conftest import ROOT, TOOLS, Ended, done

Json = dict[str, Any]
TOOL = TOOLS / "abi-release"
SCHEMA = json.loads((ROOT / "docs/release.schema.json").read_text())
LIBRARIES = "usr/lib/x86_64-linux-gnu"
SHAPES = "struct point {{ {type} x, y; }};\nint area(struct point *p) {{ return p->x * p->y + {number}; }}\n"


def compiled(folder: Path, name: str, text: str, *options: str) -> Path:
    """Compiles a library, or a program, from C source."""
    source = folder / f"{name}.c"
    source.write_text(text)
    done("gcc", "-O1", "-g", "-Wl,--build-id", "-o", folder / name, source, *options, folder=folder)
    return folder / name


def library(folder: Path, name: str, kind: str = "int", number: int = 0) -> Path:
    """A library with one export, whose structure has members of this type."""
    return compiled(folder, name, SHAPES.format(type=kind, number=number), "-shared", "-fPIC", f"-Wl,-soname,{name}")


def deb(folder: Path, name: str, files: Mapping[str, Path], version: str = "1", depends: str = "", architecture: str = "amd64",
        packing: str = "gzip") -> Path:
    """Makes a .deb under the name that mirrors give it."""
    folder.mkdir(parents=True, exist_ok=True)
    tree = folder / f".{name}"
    for place, path in files.items():
        (tree / place).parent.mkdir(parents=True, exist_ok=True)
        shutil.copy(path, tree / place)
    (tree / "DEBIAN").mkdir(parents=True)
    more = f"Depends: {depends}\n" if depends else ""
    (tree / "DEBIAN/control").write_text(f"Package: {name}\nVersion: {version}\nArchitecture: {architecture}\n{more}"
                                         "Maintainer: a <a@example.org>\nDescription: a package\n")
    made = folder / f"{name}_{version}_{architecture}.deb"
    done("dpkg-deb", "--root-owner-group", f"-Z{packing}", "-b", tree, made)
    shutil.rmtree(tree)
    return made


def packaged(folder: Path, path: Path, version: str = "1", package: str = "") -> Path:
    """Makes the package of a library; without a name of its own it is named after the library."""
    return deb(folder, package or path.name.partition(".so")[0], {f"{LIBRARIES}/{path.name}": path}, version)


def release(folder: Path, *options: object, workers: int = 1, out: str = "out", wrapper: Path | None = None,
            before: tuple[object, ...] = ()) -> Ended:
    """Runs the tool on the folders `old` and `new`."""
    command = [*before, TOOL, "old", "new", "--out", out, "--workers", workers, "--memory", 1000, *options]
    environment = {**os.environ, "ABI": str(wrapper or os.environ["ABI"])}
    ended = subprocess.run([str(word) for word in command], capture_output=True, text=True, check=False, cwd=folder, env=environment)
    return Ended(ended.returncode, ended.stdout, ended.stderr)


def table(folder: Path, out: str = "out") -> Json:
    """The table of a run, which must follow the schema."""
    found: Json = json.loads((folder / out / "release.json").read_text())
    jsonschema.validate(found, SCHEMA)
    return found


def lines(folder: Path, out: str = "out") -> dict[str, Json]:
    """The lines of a run, by package and library."""
    return {f"{line['package']} {line['library'] or '-'}": line for line in table(folder, out)["lines"]}


def answers(folder: Path, out: str = "out") -> dict[str, str]:
    """The answers of a run."""
    return {name: line["answer"] for name, line in lines(folder, out).items()}


def judged(ended: Ended) -> tuple[int, int]:
    """How many pairs of libraries a run judged, and how many it kept."""
    words = next(line for line in ended.errors.splitlines() if "pairs of libraries judged" in line).split()
    return int(words[words.index("pairs") - 1]), int(words[words.index("kept;") - 1])


def unmeasured(found: Json) -> list[Json]:
    """What the lines of a table tell: without their measurements, and without names of files, which the program changes."""
    untold = ("measured", "result", "certificate", "report", "page")
    return [{key: value for key, value in line.items() if key not in untold} for line in found["lines"]]


def wrapper_of(folder: Path, text: str) -> Path:
    """A program `abi` that first runs a text in `sh`, in which `$worker` is the process of the worker, and `$judged` the soname of the
    old library."""
    path = folder / "abi"
    path.write_text(f"#!/bin/sh\nparent=$(cut -d ' ' -f 4 /proc/$PPID/stat)\n"
                    f"worker=$(cut -d ' ' -f 4 /proc/$parent/stat)\n"
                    f"judged=$([ ! -f old ] || grep -ao 'lib[a-z0-9]*[.]so[.]1' old | head -n 1)\n"
                    f"{text}\nexec '{Path(os.environ['ABI']).resolve()}' \"$@\"\n")
    path.chmod(0o755)
    return path


def three(folder: Path) -> None:
    """Two releases with three libraries. The second library breaks."""
    for side, kinds in (("old", ("int", "int", "int")), ("new", ("int", "long", "int"))):
        for number, kind in enumerate(kinds):
            packaged(folder / side, library(folder, f"lib{number}.so.1", kind, number))


THREE = {"lib0 lib0.so.1": "yes", "lib1 lib1.so.1": "no", "lib2 lib2.so.1": "yes"}


def bundle(folder: Path, broken: int = 2, count: int = 5) -> dict[str, str]:
    """A package of several libraries, and its answers. One library breaks, one is gone, one is new."""
    for side in ("old", "new"):
        files = [library(folder, f"libpart{number}.so.1", "long" if side == "new" and number == broken else "int", number)
                 for number in range(count)]
        files.append(library(folder, f"lib{side}.so.1"))
        deb(folder / side, "bundle", {f"{LIBRARIES}/{path.name}": path for path in files})
    answers_of = {f"bundle libpart{number}.so.1": "no" if number == broken else "yes" for number in range(count)}
    return {**answers_of, "bundle libold.so.1": "gone", "bundle libnew.so.1": "new"}


def started(folder: Path, *options: object, wrapper: Path, **environment: str) -> subprocess.Popen[str]:
    """Starts a run in the background."""
    command = [TOOL, "old", "new", "--out", "out", *options]
    return subprocess.Popen([str(word) for word in command], cwd=folder, env={**os.environ, **environment, "ABI": str(wrapper)}, text=True,
                            stdout=subprocess.PIPE, stderr=subprocess.PIPE)


def wait_for(holds: Callable[[], bool], seconds: float = 400) -> None:
    """Waits until a condition holds."""
    end = time.monotonic() + seconds
    while not holds():
        assert time.monotonic() < end, "it does not come"
        time.sleep(0.05)


def results(folder: Path) -> list[Path]:
    """The results that a run has kept."""
    return sorted((folder / "out").glob("results/*/*.json"))


def children(process: int) -> set[int]:
    """The processes that a process started, and those that they started."""
    found = {process}
    parents = {}
    for path in Path("/proc").glob("[0-9]*/stat"):
        with contextlib.suppress(OSError):
            fields = path.read_text().rpartition(")")[2].split()
            parents[int(path.parent.name)] = int(fields[1])
    while more := {one for one, parent in parents.items() if parent in found} - found:
        found |= more
    return found


def is_alive(process: int) -> bool:
    """Whether a process goes on: one that has ended may wait for its parent."""
    try:
        return Path(f"/proc/{process}/stat").read_text().rpartition(")")[2].split()[0] != "Z"
    except (FileNotFoundError, ProcessLookupError):
        return False


def stop(process: subprocess.Popen[bytes]) -> None:
    """Kills a process and its children."""
    if process.poll() is None:
        os.killpg(process.pid, signal.SIGKILL)
        process.wait()


def tree(root: Path) -> dict[str, bytes]:
    """The files below a folder."""
    return {str(path.relative_to(root)): path.read_bytes() for path in root.rglob("*") if path.is_file()}


# The HTTP servers of a scheduler and its workers cannot be turned off.
_QUIET = ("--no-dashboard", "--dashboard-address", "127.0.0.1:0")


class Host(NamedTuple):
    """A host of a cluster: its address, and the command that runs another one on it."""

    address: str = "127.0.0.1"
    command: tuple[str, ...] = ()


class Cluster:
    """The processes of a cluster, always at the same address: a scheduler on the first host, and a worker without this repository's
    modules on each of the others."""

    def __init__(self, folder: Path, workers: int = 1, protocol: str = "tcp", options: Sequence[object] = (),
                 hosts: Sequence[Host] = ()) -> None:
        with socket.socket() as free:
            free.bind(("127.0.0.1", 0))
            port = free.getsockname()[1]
        first, *others = hosts or (Host(),) * (workers + 1)
        self.address = f"{protocol}://{first.address}:{port}"
        more = ["--protocol", protocol, *_QUIET, *map(str, options)]
        self._folder = folder
        self._commands = [[*first.command, "dask-scheduler", "--host", first.address, "--port", str(port), *more]]
        self._commands += [[*host.command, "dask-worker", self.address, "--host", host.address, "--nthreads", "1", *more,
                            "--local-directory", str(folder / f"dask{number}")] for number, host in enumerate(others)]
        self.processes: list[subprocess.Popen[bytes]] = [self._started(command) for command in self._commands]

    def _started(self, command: list[str]) -> subprocess.Popen[bytes]:
        environment = {**os.environ, "ABI": str(self._folder / "abi")}
        return subprocess.Popen(command, cwd="/", env=environment, stdout=subprocess.DEVNULL, stderr=subprocess.DEVNULL,
                                start_new_session=True)

    def __enter__(self) -> "Cluster":
        return self

    def __exit__(self, *_: object) -> None:
        for process in self.processes:
            stop(process)

    def end(self, number: int, kind: signal.Signals = signal.SIGKILL) -> None:
        """Ends the scheduler (0) or a worker: with SIGKILL and its children, or gracefully."""
        process = self.processes[number]
        if kind == signal.SIGKILL:
            stop(process)
        else:
            process.send_signal(kind)
            with contextlib.suppress(subprocess.TimeoutExpired):
                process.wait(timeout=120)
            stop(process)

    def begin(self, number: int) -> None:
        """Starts it again."""
        self.processes[number] = self._started(self._commands[number])

    def goes_on(self) -> bool:
        """Starts again what has ended by itself: workers do so if their scheduler is gone. Returns True."""
        for number, process in enumerate(self.processes):
            if process.poll() is not None:
                self.begin(number)
        return True

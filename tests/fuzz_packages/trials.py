"""Gives packages to `abi-packages` in this process, and judges what it answers by what dpkg-deb and rpm2cpio unpack."""

from __future__ import annotations

import contextlib
import io
import itertools
import os
import pickle
import resource
import shutil
import subprocess
import sys
import tempfile
from collections import Counter
from dataclasses import dataclass
from pathlib import Path
from typing import Callable, Iterator, Optional, Sequence, TypeVar, Union

from abi_tools import jobs, package_judging, packages_command
from abi_tools.abi_program import Abi, Answer
from abi_tools.faults import run_tool
from abi_tools.found_libraries import DEBUG
from abi_tools.gates import Judgement
from abi_tools.jobs import Failure, Steps
from abi_tools.packages_command import main
from abi_tools.verdicts import Verdict
from fuzz_packages.corpus import LIBRARY, Corpus

# The limit of memory of each step in megabytes, and how much each process may take in all: what Python and the tool take is added.
MEGABYTES = 300
_MOST = (MEGABYTES + 150) << 10
_SECONDS = 60
# Names by which loaders and programs open the library.
LOADED = tuple(f"{folder}/{LIBRARY.rpartition('/')[2]}" for folder in (
    "usr/lib", "usr/lib64", "lib", "usr/lib/x86_64-linux-gnu", "usr/lib/glibc-hwcaps/x86-64-v3", "usr/lib/a", "a", "b"))
_MOST_STEPS = 1000
# One trial in so many starts a process for each step, as the tool does. The others do all steps in this process, which takes a fifth of
# the time.
_FORKS = 16

Value = TypeVar("Value")


@dataclass(frozen=True)
class Wrong:
    """What is wrong with an answer."""

    what: str


class StepsHere(Steps[Value]):
    """Steps that run in this process, one after the other. Their values are packed and unpacked, as those of others are."""

    def run(self, steps: Sequence[Callable[[], Value]]) -> Iterator[tuple[int, Union[Value, Failure]]]:
        """The numbers and values of all steps."""
        for number, step in enumerate(steps):
            yield number, pickle.loads(pickle.dumps(jobs._value_of(step), protocol=pickle.HIGHEST_PROTOCOL))


class Trials:
    """Trials in a folder of their own."""

    def __init__(self, folder: Path, corpus: Corpus) -> None:
        self._folder = folder
        self.corpus = corpus
        self.counts: Counter[int] = Counter()
        self.canary = folder / "canary"
        self.canary.mkdir()
        (self.canary / "libfuzz.so.1").write_bytes(corpus.good)
        self._outside = folder / "outside"
        work = folder / "work"
        work.mkdir()
        tempfile.tempdir = str(work)
        package_judging.judge = self._judge  # type: ignore[assignment]
        jobs.lower(resource.RLIMIT_AS, jobs.memory_taken() + (MEGABYTES << 20))
        _watch((str(work), str(folder / "certificates")), (str(folder / "packages"), "/proc/self/", sys.prefix, str(
            Path(package_judging.__file__).parents[1])), self._outside)

    def _judge(self, _abi: Abi, _old: Path, new: Path, *_asked: object) -> Judgement:
        """What `abi` would say: only one library may replace the other one, and only one may not."""
        contents = (_abi.folder / new).read_bytes()
        if contents == self.corpus.good:
            return Judgement(Verdict.YES, (), Answer(0, "yes 2\n", ""), 1, 1)
        if contents == self.corpus.bad:
            return Judgement(Verdict.NO, (), Answer(1, "no\nL2 fuzz: size\n", ""))
        return Judgement(Verdict.CANNOT_TELL, ("changed",), None)

    def wrong(self, number: int, old: Sequence[Path], new: Sequence[Path]) -> Optional[Wrong]:
        """What is wrong with the answer on packages; None if nothing is."""
        packages_command.Steps = StepsHere if number % _FORKS else Steps  # type: ignore[attr-defined,misc]
        out, errors = io.StringIO(), io.StringIO()
        with contextlib.redirect_stdout(out), contextlib.redirect_stderr(errors), _watched():
            status = run_tool("abi-packages", main, ["--certificates", str(self._folder / "certificates"), "--memory", str(MEGABYTES),
                                                     "--seconds", str(_SECONDS), "--workers", "1", *map(str, old), "--",
                                                     *map(str, new)], 2)
        self.counts[status] += 1
        said = out.getvalue() + errors.getvalue()
        if status not in (0, 1, 2) or "Traceback" in said or "fault of this tool" in said:
            return Wrong(f"status {status}: {said}")
        if any(not line.isprintable() for line in said.splitlines()):
            return Wrong(f"a line drives the terminal: {said!r}")
        if self._outside.exists():
            seen = self._outside.read_text()
            self._outside.unlink()
            return Wrong(f"files outside: {seen}")
        if any((self._folder / "work").iterdir()) or sorted(os.listdir(self._folder / "canary")) != ["libfuzz.so.1"]:
            return Wrong("a file is left")
        for who in (resource.RUSAGE_SELF, resource.RUSAGE_CHILDREN):
            if resource.getrusage(who).ru_maxrss > _MOST:
                return Wrong(f"{resource.getrusage(who).ru_maxrss} KB of memory")
        return self._wrong_yes(old, new) if status == 0 else None

    def _wrong_yes(self, old: Sequence[Path], new: Sequence[Path]) -> Optional[Wrong]:
        """A yes is wrong if a name leads to the library in the old packages, and to the one that may not replace it in the new ones, in
        whatever order they are installed. A name in the folder of debug information is that of a debug file."""
        sides = [[self._libraries(order) for order in itertools.permutations(side)] for side in (old, new)]
        for before, after in itertools.product(*sides):
            wrong = [name for name, library in before.items()
                     if (library, after.get(name)) == (self.corpus.good, self.corpus.bad) and not name.startswith(DEBUG)]
            if wrong:
                return Wrong(f"yes, and {wrong[0]!r} breaks")
        return None

    def _libraries(self, packages: Sequence[Path]) -> dict[str, bytes]:
        """What names lead to, of what dpkg-deb or rpm2cpio unpacks; nothing of a package that they refuse."""
        folder = self._folder / "unpacked"
        shutil.rmtree(folder, ignore_errors=True)
        folder.mkdir()
        for package in packages:
            with package.open("rb") as stream:
                is_deb = stream.read(8) == b"!<arch>\n"
            command = (["dpkg-deb", "-x", str(package), str(folder)] if is_deb
                       else ["sh", "-c", f"rpm2cpio '{package}' | bsdtar -xf - -C '{folder}'"])
            subprocess.run(command, capture_output=True, check=False, stdin=subprocess.DEVNULL)
            subprocess.run(["chmod", "-R", "u+rwX", str(folder)], capture_output=True, check=False)
        names = {os.path.relpath(os.path.join(at, name), folder) for at, _, files in os.walk(folder) for name in files}
        found = {name: leads_to(folder, name) for name in (*names, *LOADED)}
        return {name: place.read_bytes() for name, place in found.items() if place is not None and place.is_file()}


def leads_to(root: Path, name: str) -> Optional[Path]:
    """What a name leads to in a folder, as if it were the whole system; None if it leads through too many links."""
    at, left = root, [*reversed(name.split("/"))]
    for _ in range(_MOST_STEPS):
        if not left:
            return at
        part = left.pop()
        if part in ("", "."):
            continue
        if part == "..":
            at = at if at == root else at.parent
        elif (at / part).is_symlink():
            target = os.readlink(at / part)
            at = root if target.startswith("/") else at
            left += reversed(target.split("/"))
        else:
            at = at / part
    return None


_WRITES = ("os.mkdir", "os.rename", "os.link", "os.symlink", "os.remove", "os.rmdir", "os.chmod", "os.truncate", "os.chown")


def _watch(written: tuple[str, ...], read: tuple[str, ...], report: Path) -> None:
    """Writes each file that the tool opens elsewhere, or changes elsewhere, to a report. Steps are watched as well."""
    busy: list[bool] = []

    def hook(event: str, arguments: tuple[object, ...]) -> None:
        if busy or event not in ("open", *_WRITES) or not isinstance(arguments[0], (str, bytes, Path)):
            return
        path = os.fsdecode(os.fspath(arguments[0]))
        if _WATCHING[0] and os.path.isabs(path) and not path.startswith((*written, *(read if event in ("open", "os.link") else ()))):
            busy.append(True)
            with report.open("a") as stream:
                stream.write(f"{event} {path!r}\n")
            busy.pop()

    sys.addaudithook(hook)


# Whether the tool runs at the moment.
_WATCHING = [False]


@contextlib.contextmanager
def _watched() -> Iterator[None]:
    """Watches what the tool opens."""
    _WATCHING[0] = True
    try:
        yield
    finally:
        _WATCHING[0] = False

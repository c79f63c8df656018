"""Whether the programs of a package survive the breaks of a library: runs `abi app` on each, if `abi` has that command."""

from __future__ import annotations

import os
import re
import tempfile
from dataclasses import dataclass
from pathlib import Path
from typing import Iterable, Mapping, NamedTuple, Optional

from abi_tools.abi_program import NO, YES, Abi, Answer
from abi_tools.package_judging import safe_name
from abi_tools.unpacked_trees import folder_package
from abi_tools.unpacking import unpack
from abi_tools.verdicts import Verdict
from abi_release import workers
from abi_release.digests import digest_of_files, states
from abi_release.judging import Outcome, Settings, allow_more_time, check_ground, guarded, rules_of
from abi_release.limited_program import LimitedAbi
from abi_release.needs import files_that_need, programs
from abi_release.sources import Work
from abi_release.stored_files import Json, Store, app_name, record_name
from abi_release.unpacked import Trouble, Unpacked, unpacked

_COMMAND = re.compile(r"^(usage:)?\s*abi app ", re.MULTILINE)
# How many of the programs that break are named, and how many of the exports at fault.
_MOST_NAMED = 20
# The longest part of a program's name that is used in the name of a file.
_LONGEST = 100


class Ask(NamedTuple):
    """A task: to ask `abi app` whether the programs of the old package `hit` survive broken libraries of the packages `work`."""

    hit: Work
    work: Work
    libraries: tuple[str, ...]

    @property
    def name(self) -> str:
        """The names of both packages."""
        return f"{self.hit.name} asks {self.work.name}"

    @property
    def library(self) -> str:
        """Empty: this task covers all libraries at once."""
        return ""

    @property
    def mark(self) -> str:
        """What identifies this task within a run."""
        return self.name

    def do(self, settings: Settings, _passed_over: tuple[str, ...] = ()) -> Outcome:
        """Does the task."""
        store = settings.store
        return guarded(lambda: _asked(self, settings, store), settings, store, self.mark)


def has_command(abi: Abi) -> bool:
    """Whether `abi` has the command `app`."""
    said = abi.run("--help")
    return _COMMAND.search(f"{said.text}\n{said.notes}") is not None


def _asked(ask: Ask, settings: Settings, store: Store) -> Outcome:
    identities = [_identity(store, work) for work in (ask.hit, ask.work)]
    place = app_name(ask.hit.name, ask.work.name)
    known = store.json(place)
    if known is not None and known["identity"] == identities and all(library in known["answers"] for library in ask.libraries):
        return Outcome()
    packages = unpacked(settings.to_unpack(ask.work, tuple(identities[1])))
    abi = LimitedAbi(packages.folder, settings.limits)
    with tempfile.TemporaryDirectory(prefix="programs-", dir=workers.places(settings.run).disk) as folder:
        hit = settings.places(ask.hit)[0][0]
        read = [hit, *([] if settings.rules is None else [Path(settings.rules)])]
        before = [states([place]) for place in read], digest_of_files(settings.places(ask.hit)[0])
        files, needing = _programs(hit, Path(folder))
        answers = {}
        for library in ask.libraries:
            allow_more_time(settings, store, ask.mark)
            soname = packages.pairs[library].soname
            answers[library] = _Asking(abi, packages, settings, library).answer(files, needing.get(soname, ()))
        packages.check()
        check_ground(settings)
        after = [states([place]) for place in read], identities[0][0]
        if before != after or not all(map(os.path.lexists, files.values())):
            raise Trouble("the package changed, or what was unpacked went away, while it was read")
    if abi.trouble:
        return Outcome(reason=abi.trouble)
    store.put_json(place, {"identity": identities, "answers": answers})
    return Outcome()


def _identity(store: Store, work: Work) -> list[str]:
    record = store.json(record_name(work.name))
    return list(record["identity"]) if record is not None else []


def _programs(place: Path, folder: Path) -> tuple[Mapping[str, Path], Mapping[str, list[str]]]:
    """The programs of an old package by name, unpacked to `folder` unless it is a tree, and for each library those that need it."""
    if place.is_dir():
        files = programs(folder_package(place))
    else:
        found = programs(unpack(place, folder))
        files = {name: _with_name(path, folder / f"{number}.named", name) for number, (name, path) in enumerate(found.items())}
    return files, files_that_need(files)


def _with_name(path: Path, folder: Path, name: str) -> Path:
    """Gives the file of a program on this machine the program's file name, which `abi` names in its sentences, in a new folder. A file may
    have several names in its package."""
    folder.mkdir(mode=0o700)
    named = folder / safe_name(name.rpartition("/")[2])[:_LONGEST]
    os.link(path, named)
    return named


@dataclass(frozen=True)
class _Asking:
    """Asks `abi app` about one broken library."""

    abi: LimitedAbi
    packages: Unpacked
    settings: Settings
    library: str

    def answer(self, files: Mapping[str, Path], names: Iterable[str]) -> Json:
        """The answer for programs by their names: no if one breaks, else cannot tell if `abi` cannot tell for one, else yes."""
        broken: list[str] = []
        labels: set[str] = set()
        reason = ""
        for name in names:
            said = self._of(files[name])
            if said.status == NO:
                broken.append(name)
                labels.update(row.split(" ", 2)[1].rstrip(":") for row in said.rows if row.count(" "))
            elif said.status != YES:
                reason = reason or f"{name}: {self.packages.plain(said.why().replace(str(files[name]), name))}"
        verdict = Verdict.NO if broken else Verdict.CANNOT_TELL if reason else Verdict.YES
        answer: Json = {"answer": verdict.words(), "programs": broken[:_MOST_NAMED], "exports": sorted(labels)[:_MOST_NAMED]}
        return {**answer, "reason": reason} if reason else answer

    def _of(self, program: Path) -> Answer:
        """What `abi app` says of one program."""
        pair = self.packages.pairs[self.library]
        old, new = self.packages.kept(pair)
        rules = rules_of(self.settings, pair, self.packages).file
        options = [] if rules is None else [f"--rules={rules}"]
        return self.abi.run("app", *options, "--", str(program), str(old), str(new))


def answer_of(store: Store, hit: Json, work: str, identity: list[str], library: str) -> Optional[Json]:
    """The kept answer for the programs of the old package with the record `hit` and for a library of the packages `work`; None if these
    versions of the packages were not asked."""
    known = store.json(app_name(hit["name"], work))
    if known is None or known["identity"] != [hit["identity"], identity]:
        return None
    answer: Optional[Json] = known["answers"].get(library)
    return answer

"""What a worker does with two packages: it unpacks them, judges each pair of libraries that was not judged before, and keeps the
results. If the packages have several pairs, each pair is a task of its own.

Only what follows from digests is kept: a verdict of `abi`, or a fault that `abi` names, on files whose digests are known and that were
still in their places afterwards. All else, such as a file that is gone, a full disk, a limit, or a worker that ends, is a trouble of this
run: it is tried again, and never kept.
"""

from __future__ import annotations

import os
from collections import Counter
from dataclasses import dataclass, field
from pathlib import Path
from typing import Callable, Mapping, NamedTuple, Optional

from abi_tools.abi_program import NO, YES
from abi_tools.faults import Fault
from abi_tools.gates import Judgement, judge
from abi_tools.package_judging import settled
from abi_tools.package_sides import Pair, package_rules
from abi_tools.side_notes import NOT_MADE
from abi_tools.verdicts import Verdict
from abi_release import workers
from abi_release.digests import (OF_NOTHING, TOOLS, digest_of_file, digest_of_files, digest_of_json, known_digest, program_digest,
                                 state_of)
from abi_release.limited_program import FAULT, LimitedAbi, Limits
from abi_release.needs import imports, version_and_depends
from abi_release.reports import Reports
from abi_release.sources import Work
from abi_release.stored_files import Json, Store, opened_name, record_name, result_name
from abi_release.unpacked import Joined, ToUnpack, Trouble, Unpacked, let_go, unpacked

GONE = "gone"
NEW = "new"
# In a record: the library is on both sides, and there is no result.
OPEN = "open"
DIED = "the worker died over it"
# How many broken exports of a library are kept, to compare them with what other packages import.
_MOST_BROKEN = 10_000
# Members of a result that are no part of a line: what it rests on besides the digests of the files, and which files it has.
_GROUND = ("program", "tools", "least_share", "strict", "files")
# Members of a line that come from its packages; the others come from its result.
_OF_PACKAGES = ("library", "soname", "rule_file", "unjoined", "doubt", "result")
# Members of a yes that a line does not have if its packages leave it in doubt.
_OF_YES = ("compared", "typed", "certificate")
# Whose rule file was used: the one of the run, or that of a package.
OF_RUN = "run"


@dataclass(frozen=True)
class Settings:
    """What is the same for all packages of a run: a mark that no other run has, both folders and that of results, the rule file, the
    digest of the program, the share of exports that must have types, the limits of each process, the digest of the tools, where the
    pages of `abi-report` go, if they are wanted, the digest of the rule file, whether notes on what can break callers count, and the
    folder in memory for notes of tasks that have begun, if all workers are on this machine."""

    run: str
    old: str
    new: str
    out: str
    rules: Optional[str]
    program: str
    least_share: float
    limits: Limits
    tools: str = TOOLS
    reports: Optional[Reports] = None
    rules_digest: str = OF_NOTHING
    is_strict: bool = False
    begun: Optional[str] = None

    @property
    def store(self) -> Store:
        """The folder of results."""
        return Store(Path(self.out), None if self.begun is None else Path(self.begun))

    def places(self, work: Work) -> tuple[tuple[Path, ...], tuple[Path, ...]]:
        """The files of both sides."""
        return tuple(Path(self.old, name) for name in work.old), tuple(Path(self.new, name) for name in work.new)

    def plain(self, reason: str) -> str:
        """A reason without the names of the folders."""
        return reason.replace(f"{self.old}/", "").replace(f"{self.new}/", "")

    def to_unpack(self, work: Work, identity: tuple[str, ...]) -> ToUnpack:
        """Two packages as they are unpacked."""
        return ToUnpack(self.run, self.limits.disk, work, self.places(work), identity[:2])


class Part(NamedTuple):
    """A task. Without a library: open two packages, and judge their libraries unless several are on both sides. With a library: judge
    this one of several, of packages that were opened with this identity."""

    work: Work
    library: str = ""
    identity: tuple[str, ...] = ()

    @property
    def name(self) -> str:
        """The name of the packages."""
        return self.work.name

    @property
    def mark(self) -> str:
        """What identifies this task within a run."""
        return f"{self.work.name}\0{self.library}"

    def do(self, settings: Settings, passed_over: tuple[str, ...] = ()) -> "Outcome":
        """Does the task. It skips the libraries `passed_over`, which made a worker die. Whatever a package holds, there is an outcome."""
        task = _Task(self, settings, passed_over, settings.store)
        outcome = guarded(task.outcome, settings, task.store, self.mark)
        if outcome.reason or outcome.troubles:
            # Whoever tries again unpacks again.
            let_go()
        return outcome


class Outcome(NamedTuple):
    """The outcome of a task: how many pairs of libraries were judged, and how many were kept from earlier; the `troubles` of libraries,
    by name; `reason`, if nothing could be done at all; after packages were opened, the pairs that are `left` as tasks of their own, and
    the identity; after such a task, its line, or the name of its result in place of the line."""

    judged: int = 0
    kept: int = 0
    troubles: Mapping[str, str] = {}
    reason: str = ""
    left: tuple[str, ...] = ()
    identity: tuple[str, ...] = ()
    line: Optional[Json] = None


def guarded(task: Callable[[], Outcome], settings: Settings, store: Store, mark: str) -> Outcome:
    """The outcome of a task, even if it raises an exception."""
    with workers.at_work(settings.run):
        try:
            store.begin(mark, "")
            if settings.tools != TOOLS:
                raise Fault("the tools on this worker are others than those of the run")
            allow_more_time(settings, store, mark)
            check_ground(settings)
            return task()
        except Exception as error:  # pylint: disable=broad-except
            return Outcome(reason=settings.plain(reason_of(error)))
        finally:
            workers.CLOCK.stop()
            store.end(mark)


def allow_more_time(settings: Settings, store: Store, mark: str) -> None:
    """Gives a worker the time that it has for a library: some processor time, and some by the clock besides that of `abi`."""
    limits = settings.limits
    workers.allow_more_time(limits.seconds)
    workers.CLOCK.start(2 * limits.clock, lambda: store.put_why(mark, f"the worker took more than {2 * limits.clock} seconds over it"))


def reason_of(error: Exception) -> str:
    """What went wrong, in a sentence. The libraries that read packages raise more exceptions than they document, and none may lose a
    package."""
    if isinstance(error, (Fault, Trouble)):
        return str(error)
    if isinstance(error, OSError):
        return str(error.strerror or error)
    if isinstance(error, MemoryError):
        return "memory ran out under the limit of a worker"
    return f"{type(error).__name__}: {error}"


def check_ground(settings: Settings) -> None:
    """Raises a fault if `abi` on this worker is another program, or if the rule file of the run has other contents than at its start."""
    if program_digest(LimitedAbi(Path(), settings.limits).path) != settings.program:
        raise Fault("abi on this worker is another program than the one of the run")
    if settings.rules is not None:
        _check_rules(settings, known_digest(Path(settings.rules)))


def _check_rules(settings: Settings, digest: str) -> None:
    """Raises a fault if the rule file of the run has not this digest."""
    if settings.rules is not None and digest != settings.rules_digest:
        raise Fault("the rule file is another one than at the start of the run")


def identity_of(work: Work, settings: Settings) -> tuple[str, ...]:
    """What the record of two packages rests on: the digests of both sides, of the rule file, of the program and of the tools, and the
    settings that change results."""
    return (*(digest_of_files(places) for places in settings.places(work)), settings.rules_digest, settings.program, settings.tools,
            str(settings.least_share), str(settings.is_strict), *work.only)


class Rules(NamedTuple):
    """The rule file for a pair of libraries (None if there is none), and what a line says of it: whose it is, and its name in the
    package."""

    file: Optional[Path]
    said: Optional[dict[str, str]]


def rules_of(settings: Settings, pair: Pair, packages: Unpacked) -> Rules:
    """The rule file for a pair of libraries: the run's, or else a package's. Raises a fault if a package has several."""
    if settings.rules is not None:
        return Rules(Path(settings.rules), {"of": OF_RUN})
    file, said = package_rules(pair, packages.sides, packages.folder)
    if file is None:
        return Rules(None, None)
    name, _, side = said.removesuffix(")").rpartition(" (")
    return Rules(file, {"of": side, "name": name})


def line_of(line: Json, result: Json) -> Json:
    """The line of a library: what is known from its packages, and its result. A yes on two libraries is no yes if their packages leave a
    doubt, which is no part of the result."""
    whole = {**line, **{key: value for key, value in result.items() if key not in _GROUND}}
    if "doubt" not in line or whole["answer"] != Verdict.YES.words():
        return whole
    whole = {key: value for key, value in whole.items() if key not in _OF_YES}
    return {**whole, "answer": Verdict.CANNOT_TELL.words(), "reasons": [line["doubt"]]}


def open_line(library: str) -> Json:
    """The line of a library without a result."""
    return {"library": library, "answer": OPEN}


@dataclass
class _Task:
    """A task on a worker."""

    part: Part
    settings: Settings
    passed_over: tuple[str, ...]
    store: Store
    counts: Counter[str] = field(default_factory=Counter)
    troubles: dict[str, str] = field(default_factory=dict)

    def outcome(self) -> Outcome:
        """Does the part of the task that is not already stored."""
        work = self.part.work
        if self.part.library:
            packages = unpacked(self.settings.to_unpack(work, self.part.identity))
            line = self._line(packages.pairs[self.part.library], packages)
            return self._outcome(line={key: line[key] for key in _OF_PACKAGES if key in line})
        identity = identity_of(work, self.settings)
        record = self.store.json(record_name(work.name))
        if record is not None and self._is_whole(record, identity):
            return Outcome(kept=sum("result" in line for line in record["lines"]), identity=identity)
        packages = unpacked(self.settings.to_unpack(work, identity))
        several = [pair.name for pair in packages.pairs.values() if pair.old is not None and pair.new is not None and not pair.trouble]
        if len(several) > 1:
            self._put_record(opened_name(work.name), packages, identity, [
                _one_sided(pair) for pair in packages.pairs.values() if pair.name not in several])
            return self._outcome(left=tuple(several), identity=identity)
        lines = [self._line(pair, packages) for pair in packages.pairs.values()]
        self._put_record(record_name(work.name), packages, identity, lines)
        let_go()
        return self._outcome(identity=identity)

    def _outcome(self, left: tuple[str, ...] = (), identity: tuple[str, ...] = (), line: Optional[Json] = None) -> Outcome:
        return Outcome(self.counts["judged"], self.counts["kept"], self.troubles, left=left, identity=identity, line=line)

    def _is_whole(self, record: Json, identity: tuple[str, ...]) -> bool:
        """Whether a record has this identity and all its results are stored."""
        return record["identity"] == list(identity) and all(
            line["answer"] != OPEN and ("result" not in line or self.store.result(line["result"]) is not None)
            for line in record["lines"])

    def _put_record(self, name: str, packages: Unpacked, identity: tuple[str, ...], lines: list[Json]) -> None:
        """Keeps the record of two packages: what follows from their digests."""
        versions, depends = [], []
        for places in packages.places:
            version, needed = version_and_depends(places[0], packages.controls.get(places[0])) if places else (None, [])
            versions.append(version)
            depends.append(needed)
        record = {"identity": identity, "versions": versions, "depends": depends[0], "imports": imports(packages.files()), "lines": lines,
                  **_not_given(packages)}
        packages.check()
        self.store.put_json(name, record)

    def _line(self, pair: Pair, packages: Unpacked) -> Json:
        """The line of a library of either side. If this run cannot judge it, the line is open."""
        if pair.new is None or pair.old is None or pair.trouble:
            return _one_sided(pair)
        if pair.name in self.passed_over:
            return open_line(pair.name)
        try:
            if not self.part.library:
                self.store.begin(self.part.mark, pair.name)
                allow_more_time(self.settings, self.store, self.part.mark)
            return self._judged_line(pair, packages)
        except (Trouble, Fault, OSError, MemoryError) as error:
            self.troubles[pair.name] = self.settings.plain(packages.plain(reason_of(error)))
            return open_line(pair.name)

    def _judged_line(self, pair: Pair, packages: Unpacked) -> Json:
        """The line of a pair of libraries, from an earlier result or from a new one, which is then stored."""
        rules = rules_of(self.settings, pair, packages)
        line: Json = {"library": pair.name, "soname": pair.soname}
        line |= {key: value for key, value in (("rule_file", rules.said), ("doubt", pair.doubt)) if value}
        try:
            libraries = packages.joined(pair)
            packages.check()
            place, result = self._result(packages, libraries, rules.file)
        finally:
            packages.drop_joined()
        unjoined = [one.reason for one in libraries]
        if any(unjoined):
            line["unjoined"] = unjoined
        return line_of({**line, "result": place}, result)

    def _result(self, packages: Unpacked, libraries: tuple[Joined, Joined], rule_file: Optional[Path]) -> tuple[str, Json]:
        """The name of the result for two libraries, and the result."""
        old, new = (one.digest for one in libraries)
        rules = OF_NOTHING if rule_file is None else digest_of_file(rule_file)
        _check_rules(self.settings, rules)
        ground = {"digests": {"old": old, "new": new, "rules": rules}, "program": self.settings.program, "tools": self.settings.tools,
                  "least_share": self.settings.least_share, "strict": self.settings.is_strict}
        place = result_name(digest_of_json(ground))
        result = self.store.result(place)
        if result is None or any(result.get(key) != value for key, value in ground.items()):
            files = libraries[0].put(), libraries[1].put()
            inputs = _Inputs([packages.folder / file for file in files] + ([] if rule_file is None else [rule_file]))
            if (*inputs.digests, OF_NOTHING)[:3] != (old, new, rules):
                raise Trouble("the libraries changed before abi read them")
            abi = LimitedAbi(packages.folder, self.settings.limits)
            judgement = settled(judge(abi, *files, rule_file, self.settings.least_share, self.settings.is_strict))
            if abi.trouble or not _is_lasting(judgement):
                raise Trouble(abi.trouble or "; ".join(judgement.reasons))
            result = {**ground, **_said(judgement), "measured": {"seconds": round(abi.seconds, 3), "megabytes": round(abi.megabytes, 1)}}
            check_ground(self.settings)
            inputs.check()
            self.store.put_result(place, result, *_file(judgement))
            self.counts["judged"] += 1
        else:
            self.counts["kept"] += 1
        return place, result


class _Inputs:
    """The files that `abi` reads, with their digests."""

    def __init__(self, files: list[Path]) -> None:
        self._files = [(file, state_of(os.stat(file))) for file in files]
        self.digests = [digest_of_file(file) for file in files]

    def check(self) -> None:
        """Raises Trouble unless all are in their places as they were: `abi` may have read other bytes, or none."""
        try:
            is_same = all(state_of(os.stat(file)) == state for file, state in self._files)
        except OSError:
            is_same = False
        if not is_same:
            raise Trouble("the libraries went away while abi read them")


def _is_lasting(judgement: Judgement) -> bool:
    """Whether a judgement is a verdict on what both files say, or a fault that `abi` names."""
    answer = judgement.answer
    if answer is None or NOT_MADE in judgement.reasons:
        return False
    return answer.status == FAULT or answer.status in (YES, NO) and judgement.old is not None


def _one_sided(pair: Pair) -> Json:
    """The line of a library that only one side has, or of which the packages let nothing be told."""
    line: Json = {"library": pair.name, "soname": pair.soname}
    if pair.trouble:
        return {**line, "answer": Verdict.CANNOT_TELL.words(), "reasons": [pair.trouble]}
    return {**line, "answer": GONE if pair.new is None else NEW}


def _not_given(packages: Unpacked) -> Json:
    """What the new package may bring, and could not give: the sonames of libraries that `abi` cannot read or that nothing pairs, and the
    names of files that may be libraries."""
    unsure = {pair.soname for pair in packages.pairs.values() if pair.old is None and pair.new is not None and pair.trouble}
    return {"unsure": sorted(unsure), "unread": sorted({one.name for one in packages.sides[1].unreadable})}


def _file(judgement: Judgement) -> tuple[str, bytes]:
    """The kind of the text to keep for a judgement (certificate or report), and the text; both are empty if there is none."""
    if judgement.answer is None or judgement.verdict == Verdict.CANNOT_TELL:
        return "", b""
    kind = "certificate" if judgement.verdict == Verdict.YES else "report"
    return kind, judgement.answer.text.encode("utf-8", "surrogateescape")


def _said(judgement: Judgement) -> Json:
    """A judgement as it is stored."""
    said: Json = {"answer": judgement.verdict.words()}
    if judgement.reasons:
        said["reasons"] = list(judgement.reasons)
    if judgement.notes:
        said["notes"] = list(judgement.notes)
    if judgement.verdict == Verdict.YES:
        said["compared"], said["typed"] = judgement.compared, judgement.typed
    if judgement.old is not None and judgement.new is not None:
        said["types"] = {"old": list(judgement.old.typed_count()), "new": list(judgement.new.typed_count())}
    if judgement.verdict == Verdict.NO and judgement.answer is not None:
        rows = [row.split(" ", 2) for row in judgement.answer.rows]
        said["breaks"] = dict(sorted(Counter(row[0] for row in rows).items()))
        said["broken"] = sorted({row[1].rstrip(":") for row in rows})[:_MOST_BROKEN]
    return said

#!/usr/bin/python3
"""Compares C libraries of a release of Debian with those of the next one, with their debug information.

usage: tests/release_pairs.py FOLDER [DEBUG_PACKAGE..]     with the program `abi` in the variable ABI

Downloads missing packages to FOLDER by curl, joins each library with its debug information as `tools/join-debug` does, and prints a
line for each pair in Markdown: the answer of `abi check`, its breaks by rule, the notes by kind, the notes on each library compared
with itself, and the answer of abidiff. The last line counts the answers of both. Texts and notes are kept in FOLDER/results, and the
joined libraries in FOLDER/joined. It needs the network and abidiff, so it is not part of the gate.
"""

from __future__ import annotations

import functools
import hashlib
import lzma
import os
import re
import shutil
import signal
import subprocess
import sys
import tempfile
from collections import Counter
from dataclasses import dataclass
from pathlib import Path
from typing import Iterable, Iterator, Optional

sys.dont_write_bytecode = True
sys.path.insert(0, str(Path(__file__).resolve().parents[1] / "tools"))

from abi_tools.abi_program import NO, YES, Abi, Answer  # noqa: E402
from abi_tools.faults import WRONG_ARGUMENTS, Fault  # noqa: E402
from abi_tools.joining import join_from  # noqa: E402
from abi_tools.package_sides import PackagedLibrary, Side  # noqa: E402

_ARCHIVE = "http://deb.debian.org/debian"
_FIELD = re.compile(r"^([A-Z][A-Za-z0-9-]*): (.*)$", re.MULTILINE)
# A note by its kind, or how many more there are of a kind. The last two lines count exports, and are not notes.
_NOTE = re.compile(r"abi: note: (?!exports (?:of|with) )([a-z -]+)(?:: and (\d+) more$|:|$)")
# The folders of libraries, with the one to which a link of alternatives leads, and that of the plugins of libmp3splt. Files in other
# folders are plugins that programs load by path, and are skipped.
_FOLDERS = ("lib/x86_64-linux-gnu", "usr/lib/x86_64-linux-gnu", "usr/lib", "usr/lib/libpsm1", "usr/lib/libmp3splt0")
# How many seconds of processor time abidiff gets for a pair, and the status of a process that takes more.
_LONGEST = 200
_TOO_LONG = -signal.SIGXCPU
# The bits of abidiff's exit status.
_ABIDIFF_FAULTS = 3
_ABIDIFF_CHANGE = 4
_ABIDIFF_INCOMPATIBLE = 8
HEAD = """\
| Library | Old | New | Answer | Breaks | Notes | Notes beside itself | abidiff |
|---|---|---|---|---|---|---|---|"""

# The debug packages, the two releases of Debian to compare, and the packages of libraries, which may have another name in the later
# release (`old=new`).
_LIST = """\
libadns1-dbg bookworm trixie libadns1=libadns1t64
libao-dbg bookworm trixie libao4
libbinutils-dbg bullseye bookworm libbinutils
libc6-dbg bookworm trixie libc6
libctf-nobfd0-dbg bullseye bookworm libctf-nobfd0
libctf-nobfd0-dbg bookworm trixie libctf-nobfd0
libctf0-dbg bullseye bookworm libctf0
libctf0-dbg bookworm trixie libctf0
libdb5.3-dbg bullseye bookworm libdb5.3
libdb5.3-dbg bookworm trixie libdb5.3=libdb5.3t64
libedac1-dbg bullseye bookworm libedac1
libedac1-dbg bookworm trixie libedac1
libenca-dbg bullseye bookworm libenca0
libflickcurl0-dbg bullseye bookworm libflickcurl0
libftdi1-dbg bookworm trixie libftdi1
libgsl-dbg bullseye bookworm libgsl25=libgsl27
libgsl-dbg bookworm trixie libgsl27=libgsl28
libiptcdata0-dbg bookworm trixie libiptcdata0
libivykis0-dbg bookworm trixie libivykis0=libivykis0t64
libkibi-dbg bookworm trixie libkibi0
libkrb5-dbg bullseye bookworm libkrb5-3 libk5crypto3 libkrb5support0 libgssapi-krb5-2 libgssrpc4
libkrb5-dbg bullseye bookworm libkadm5clnt-mit12 libkadm5srv-mit12 libkdb5-10 libkrad0
libkrb5-dbg bookworm trixie libkrb5-3 libk5crypto3 libkrb5support0 libgssapi-krb5-2 libgssrpc4=libgssrpc4t64
libkrb5-dbg bookworm trixie libkadm5clnt-mit12 libkadm5srv-mit12 libkdb5-10=libkdb5-10t64 libkrad0
liblua5.1-0-dbg bullseye bookworm liblua5.1-0
liblua5.3-0-dbg bullseye bookworm liblua5.3-0
liblua5.3-0-dbg bookworm trixie liblua5.3-0
liblua5.4-0-dbg bullseye bookworm liblua5.4-0
libnet1-dbg bullseye bookworm libnet1
libnl-3-200-dbg bullseye bookworm libnl-3-200
libpcre3-dbg bullseye bookworm libpcre3
libpsm-infinipath1-dbg bullseye bookworm libpsm-infinipath1
libpsm-infinipath1-dbg bookworm trixie libpsm-infinipath1
librep-dbg bullseye bookworm librep16
librtfilter1-dbg bookworm trixie librtfilter1
libspf2-2-dbg bullseye bookworm libspf2-2
libustr-1.0-1-dbg bullseye bookworm libustr-1.0-1
libxdg-basedir1-dbg bookworm trixie libxdg-basedir1
libxmlrpc-epi0-dbg bullseye bookworm libxmlrpc-epi0
libxxf86vm1-dbg bookworm trixie libxxf86vm1
mp3splt-dbg bookworm trixie libmp3splt
trousers-dbg bullseye bookworm libtspi1
trousers-dbg bookworm trixie libtspi1
"""


@dataclass(frozen=True)
class Release:
    """A release of Debian: the fields of its packages, by name."""

    packages: dict[str, dict[str, str]]

    @classmethod
    @functools.cache
    def read(cls, name: str, folder: Path) -> "Release":
        """Reads the list of its packages, and downloads it if it is missing."""
        place = _downloaded(f"dists/{name}/main/binary-amd64/Packages.xz", folder / "lists" / f"{name}.xz")
        paragraphs = (dict(_FIELD.findall(part)) for part in lzma.decompress(place.read_bytes()).decode().split("\n\n"))
        return cls({fields["Package"]: fields for fields in paragraphs if fields})

    def file(self, package: str, folder: Path) -> Path:
        """The file of a package, downloaded if it is missing. Raises a fault if its digest is wrong."""
        fields = self.packages[package]
        place = _downloaded(fields["Filename"], folder / "packages" / Path(fields["Filename"]).name)
        if hashlib.sha256(place.read_bytes()).hexdigest() != fields["SHA256"]:
            raise Fault(f"{place} is not the file that the list of packages names")
        return place


def _downloaded(name: str, place: Path) -> Path:
    """Downloads a file of the archive. Raises a fault if that fails."""
    if not place.exists():
        place.parent.mkdir(parents=True, exist_ok=True)
        part = place.with_suffix(".part")
        command = ["curl", "--fail", "--silent", "--show-error", "--retry", "3", "--output", str(part), f"{_ARCHIVE}/{name}"]
        if subprocess.run(command, stdin=subprocess.DEVNULL, check=False).returncode != 0:
            raise Fault(f"{name} cannot be downloaded")
        part.rename(place)
    return place


@dataclass(frozen=True)
class Task:
    """A line of the list: the debug package, both releases, and the packages of libraries in each."""

    debug: str
    releases: tuple[str, str]
    packages: tuple[tuple[str, ...], tuple[str, ...]]

    @classmethod
    def parsed(cls, line: str) -> "Task":
        """Reads a line."""
        debug, old, new, *names = line.split()
        parted = [name.partition("=") for name in names]
        return cls(debug, (old, new), (tuple(name[0] for name in parted), tuple(name[2] or name[0] for name in parted)))


def _pairs(old: Side, new: Side) -> Iterator[tuple[PackagedLibrary, PackagedLibrary]]:
    """The libraries of both sides, paired by soname or, if that has changed, by soname without its number."""
    left, right = ({one.soname: one for one in side.libraries if one.folder in _FOLDERS} for side in (old, new))
    alike = {re.sub(r"[0-9.-]+", "", soname): one for soname, one in right.items() if soname not in left}
    for soname, library in left.items():
        other = right.get(soname) or alike.get(re.sub(r"[0-9.-]+", "", soname))
        if other is not None:
            yield library, other


@dataclass(frozen=True)
class Row:
    """A line of the table: its libraries, and what `abi` and abidiff say of them."""

    names: tuple[str, ...]
    answer: str
    breaks: str = "-"
    notes: str = "-"
    beside_itself: str = "-"
    abidiff: str = "-"

    def text(self) -> str:
        """The line in Markdown."""
        return f"| {' | '.join((*self.names, self.answer, self.breaks, self.notes, self.beside_itself, self.abidiff))} |"


def _judged(names: tuple[str, ...], old: Path, new: Path, results: Path) -> Row:
    """What `abi` and abidiff say of a pair. Keeps the texts of `abi` in a folder."""
    answer = _kept(Abi().check(old, new, None), results, "pair")
    if answer.status not in (YES, NO):
        return Row(names, answer.text.strip() or answer.why())
    beside_itself = [_kept(Abi().check(one, one, None), results, name) for one, name in ((old, "old"), (new, "new"))]
    rows = Counter(row.split(" ")[0] for row in answer.rows) if answer.status == NO else Counter[str]()
    itself = sum((_notes(one) for one in beside_itself), Counter[str]())
    return Row(names, "yes" if answer.status == YES else "no", _counted(rows), _counted(_notes(answer)), _counted(itself),
               _abidiff(old, new))


def _kept(answer: Answer, results: Path, name: str) -> Answer:
    """Keeps an answer of the program in a folder, and returns it."""
    results.mkdir(parents=True, exist_ok=True)
    for suffix, text in (("status", f"{answer.status}\n"), ("text", answer.text), ("notes", answer.notes)):
        (results / f"{name}.{suffix}").write_text(text, errors="surrogateescape")
    return answer


def _notes(answer: Answer) -> Counter[str]:
    """How many notes there are of each kind, including those that the program only counts."""
    found: Counter[str] = Counter()
    for line in answer.notes.splitlines():
        note = _NOTE.match(line)
        if note is not None:
            found[note.group(1)] += int(note.group(2) or 1)
    return found


def _counted(counts: Counter[str]) -> str:
    """Counts in words."""
    return ", ".join(f"{name} {count:,}" for name, count in sorted(counts.items())) or "-"


def _abidiff(old: Path, new: Path) -> str:
    """The answer of abidiff, from its exit status."""
    command = ["prlimit", f"--cpu={_LONGEST}:", "--", "abidiff", str(old), str(new)]
    status = subprocess.run(command, stdin=subprocess.DEVNULL, capture_output=True, check=False).returncode
    if status == _TOO_LONG:
        return f"more than {_LONGEST} s"
    if status < 0 or status & _ABIDIFF_FAULTS:
        return f"status {status}"
    if status & _ABIDIFF_INCOMPATIBLE:
        return "incompatible change"
    return "change" if status & _ABIDIFF_CHANGE else "no change"


def _rows(task: Task, folder: Path) -> Iterator[Row]:
    """The lines for the libraries of a task."""
    releases = [Release.read(name, folder) for name in task.releases]
    versions = [release.packages[names[0]]["Version"] for release, names in zip(releases, task.packages)]
    files = [[release.file(name, folder) for name in (*names, task.debug)] for release, names in zip(releases, task.packages)]
    with tempfile.TemporaryDirectory(prefix="release-pairs-") as work:
        sides = [Side.unpacked(some, Path(work, side)) for some, side in zip(files, ("old", "new"))]
        for pair in _pairs(*sides):
            name = f"{pair[0].soname}-{task.releases[0]}-{task.releases[1]}"
            joined = [folder / "joined" / release / one.soname for release, one in zip(task.releases, pair)]
            sonames = pair[0].soname if pair[0].soname == pair[1].soname else f"{pair[0].soname}, {pair[1].soname}"
            try:
                for place, side, one in zip(joined, sides, pair):
                    place.parent.mkdir(parents=True, exist_ok=True)
                    place.write_bytes(join_from(side.places.read(one.path), side.places))
            except Fault as fault:
                print(f"{sonames}: {str(fault).replace(f'{work}/', '')}", file=sys.stderr)
                continue
            yield _judged((sonames, *versions), joined[0], joined[1], folder / "results" / name)


def main(arguments: list[str]) -> int:
    """Compares the libraries of the list, or only those of the debug packages that the arguments name."""
    if not arguments:
        print("usage: tests/release_pairs.py FOLDER [DEBUG_PACKAGE..]", file=sys.stderr)
        return WRONG_ARGUMENTS
    os.environ["ABI_NOTES"] = "1"
    tasks: Iterable[Task] = map(Task.parsed, _LIST.splitlines())
    wanted: Optional[set[str]] = set(arguments[1:]) or None
    answers: Counter[str] = Counter()
    print(HEAD, flush=True)
    for task in tasks:
        if wanted is None or task.debug in wanted:
            for row in _rows(task, Path(arguments[0]).resolve()):
                answers[f"{row.answer} / {row.abidiff}"] += 1
                print(row.text(), flush=True)
    print(f"abi / abidiff: {_counted(answers)}", file=sys.stderr)
    return 0


if __name__ == "__main__":
    if any(shutil.which(tool) is None for tool in ("curl", "abidiff", "prlimit")):
        sys.exit("tests/release_pairs.py: curl, abidiff and prlimit must be there")
    try:
        sys.exit(main(sys.argv[1:]))
    except Fault as found:
        sys.exit(f"tests/release_pairs.py: {found}")

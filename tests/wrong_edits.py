"""Wrong edits of the code: whether each still applies, and whether the check refuses it. tests/edits.sh says how it is called."""

from __future__ import annotations

import argparse
import datetime
import os
import re
import shutil
import subprocess
import sys
import tempfile
from concurrent.futures import ThreadPoolExecutor
from dataclasses import dataclass
from pathlib import Path
from typing import Iterable

ROOT = Path(__file__).resolve().parents[1]
EDITS = ROOT / "edits"
TABLE = EDITS / "SEEN.md"
HEAD = """\
# What was seen

Each wrong edit of `edits/` and of `crates/*/must-fail/`, when it was last tried, and what the check said. `tests/edits.sh` writes this table.

| Edit | Result | Date | Kit |
|---|---|---|---|
"""
# What rt says of an edit, and the word for it in the table.
RESULTS = (("refused, as it must be", "refused"), ("NOT REFUSED", "gets through"), ("BAD EDIT", "does not compile"), ("NOT TRIED", "not tried"))


@dataclass(frozen=True)
class Edit:
    """A wrong edit: its crate and its file."""

    crate: str
    path: Path

    @property
    def name(self) -> str:
        """How the table and the sentences name the edit."""
        return f"{self.crate}/{self.path.stem}"


def all_edits() -> list[Edit]:
    """All edits, those that the gate tries among them, in the order of their names."""
    kept = [Edit(path.parent.name, path) for path in EDITS.glob("*/*.edit")]
    in_gate = [Edit(path.parents[1].name, path) for path in ROOT.glob("crates/*/must-fail/*.edit")]
    return sorted(kept + in_gate, key=lambda edit: edit.name)


@dataclass(frozen=True)
class Change:
    """One change of an edit: the source file below the crate's folder, its old text and the new one."""

    path: str
    old: str
    new: str


def changes_of(edit: Edit) -> list[Change]:
    """The changes that the edit's file lists. A new text without a file or an old text before it gets empty ones."""
    changes, path, old = [], "", ""
    for line in edit.path.read_text(encoding="utf-8").splitlines():
        word, _, rest = line.partition(": ")
        if word == "file":
            path = rest.strip()
        elif word == "old":
            old = rest
        elif line.startswith("new:"):
            changes.append(Change(path, old, rest))
            old = ""
    return changes


def changed_texts(crate: Path, changes: Iterable[Change]) -> dict[str, str] | str:
    """The sources of the crate in this folder after the changes, by their paths, or why one of them cannot be made."""
    texts: dict[str, str] = {}
    for change in changes:
        if not change.path or not change.old:
            return "a new text stands before the old one"
        source = crate / change.path
        if not change.path.startswith("src/") or not source.is_file():
            return f"the crate has no file {change.path}"
        text = texts.setdefault(change.path, source.read_text(encoding="utf-8"))
        if (found := text.count(change.old)) != 1:
            return f"its old text is {found} times in {change.path}"
        if change.old == change.new:
            return "it changes nothing"
        texts[change.path] = text.replace(change.old, change.new)
    return texts or "it has no old and new text"


def fault_of(edit: Edit) -> str | None:
    """Why the edit cannot be applied to the sources of its crate, or None."""
    made = changed_texts(ROOT / "crates" / edit.crate, changes_of(edit))
    return made if isinstance(made, str) else None


def changed_since(revision: str) -> set[str]:
    """The crates whose code or definitions differ from those of the commit."""
    listed = subprocess.run(["git", "diff", "--name-only", revision, "--", "crates"], cwd=ROOT, capture_output=True, text=True, check=True)
    found = (re.match(r"crates/(\w+)/(?:src|specs)/", line) for line in listed.stdout.splitlines())
    return {it[1] for it in found if it}


def kit() -> str:
    """The line by which the kit names itself."""
    return subprocess.run(["rt", "version"], capture_output=True, text=True, check=True).stdout.strip()


def results_in(said: str, edits: Iterable[Edit]) -> dict[str, str]:
    """What rt said of each edit, by its name; `not tried` of those that it does not name."""
    results = {edit.name: "not tried" for edit in edits}
    for line in said.splitlines():
        named = re.search(r"must-fail (\w+)/([\w.-]+)\.edit: (.*)", line)
        if named and (name := f"{named[1]}/{named[2]}") in results:
            results[name] = next((word for words, word in RESULTS if words in named[3]), "not tried")
    return results


@dataclass(frozen=True)
class Function:
    """A function with a contract of its own: its source file, its path below the crate as a check prints it, and the first and the
    last line of its body, from 1."""

    source: str
    path: str
    first: int
    last: int


def functions_of(source: str, text: str) -> list[Function]:
    """The functions with a contract of a source file that `rt fmt` has formatted. Those of a trait's impl have their contracts elsewhere."""
    lines, found, owner = text.split("\n"), [], ""
    module = re.sub(r"(^|/)(lib|main|mod)$", "", source.removeprefix("src/").removesuffix(".rt")).replace("/", "::")
    for number, line in enumerate(lines, 1):
        if block := re.match(r"(?:ghost )?(?:impl|pub trait|trait)\b(?:<[^{]*?>)? (\w+)", line):
            owner = block[1]
        elif line == "}":
            owner = ""
        named = re.match(r"( *)(?:pub(?:\(crate\))? )?(?:const )?fn (\w+)", line)
        if not named:
            continue
        last = next((at for at, it in enumerate(lines[number:], number + 1) if it == named[1] + "}"), 0)
        body = next((at for at, it in enumerate(lines[number:last], number + 1) if it == named[1] + "{"), 0)
        if body and any(it.strip().startswith("ensures") for it in lines[number:body]):
            path = "::".join(it for it in (module, owner, named[2]) if it)
            found.append(Function(source, path, body + 1, last - 1))
    return found


def bodies_of(crate: Path, edit: Edit) -> frozenset[Function]:
    """The functions whose bodies alone the edit changes; none if it also changes what lies outside of one."""
    found: set[Function] = set()
    for change in changes_of(edit):
        text = (crate / change.path).read_text(encoding="utf-8")
        line = text[: text.index(change.old)].count("\n") + 1
        within = [it for it in functions_of(change.path, text) if it.first <= line <= it.last]
        if not within or "fn " in change.old + change.new:
            return frozenset()
        found.add(within[-1])
    return frozenset(found)


def batches_of(crate: Path, edits: list[Edit]) -> list[dict[Edit, frozenset[Function]]]:
    """Edits that one check can refuse, each by itself: they change the bodies of different functions, and a function is checked
    against the contracts of the others. An edit of anything else stands in none."""
    batches: list[dict[Edit, frozenset[Function]]] = []
    for edit in edits:
        if not (bodies := bodies_of(crate, edit)):
            continue
        free = [it for it in batches if not any(bodies & other for other in it.values())]
        if not free:
            batches.append({})
        (free or batches)[0 if free else -1][edit] = bodies
    return [it for it in batches if len(it) > 1]


def refused_in(crate: str, batch: dict[Edit, frozenset[Function]], said: str) -> set[str]:
    """The names of the edits of a batch that a check of the crate refuses: it proves none of their functions, and not only because
    they call one that is not proved. None, if it comes to no end, or if a function that no edit changes is not proved by itself."""
    verdicts = re.findall(rf"^fn {crate}::(\S+): (.*)", said, re.MULTILINE)
    by_itself = [path for path, verdict in verdicts if verdict != "proved" and "it calls `" not in verdict]
    # A closure stands as `MODULE::fn::FUNCTION::..`.
    unproved = {path.replace("::fn::", "::").removeprefix("fn::") + "::" for path in by_itself}
    changed = {it.path for bodies in batch.values() for it in bodies}
    refused = {it for it in changed if any(path.startswith(f"{it}::") for path in unproved)}
    known = all(any(path.startswith(f"{it}::") for it in changed) for path in unproved)
    if not re.search(r"^(logic=not-proved|only=)", said, re.MULTILINE) or not known:
        return set()
    return {edit.name for edit, bodies in batch.items() if refused >= {it.path for it in bodies}}


def linked(one: str, other: str) -> None:
    """Makes the second file the first one by another name, or a copy of it on another file system."""
    try:
        os.link(one, other)
    except OSError:
        shutil.copy2(one, other)


def checked(folder: Path, crate: str, texts: dict[str, str], functions: Iterable[Function]) -> str:
    """What a check of these functions of a crate says, with these texts in place of its own. It is made on a copy, since other checks
    use the crate as it stands."""
    with tempfile.TemporaryDirectory(prefix="abi-edits-") as name:
        shutil.copytree(folder, name, copy_function=linked, dirs_exist_ok=True)
        place = Path(name, "crates", crate)
        for path, text in texts.items():
            (place / path).unlink()
            (place / path).write_text(text, encoding="utf-8")
        words = ["rt", "check", "--jobs", "1", *(word for it in functions for word in ("--only", it.path))]
        ended = subprocess.run(words, cwd=place, stdin=subprocess.DEVNULL, stdout=subprocess.PIPE, stderr=subprocess.STDOUT, text=True, check=False)
        return ended.stdout


def tried_together(folder: Path, edits: list[Edit]) -> set[str]:
    """Tries edits of one crate, several in each check, and gives the names of those that are refused."""
    crate = edits[0].crate
    refused: set[str] = set()
    for batch in batches_of(folder / "crates" / crate, edits):
        names = {""}
        # What is refused is left out of the next check, since nothing is known of a function that calls one that is not proved.
        while batch and names:
            made = changed_texts(folder / "crates" / crate, [change for edit in batch for change in changes_of(edit)])
            if isinstance(made, str):
                break
            said = checked(folder, crate, made, [it for bodies in batch.values() for it in bodies])
            names = refused_in(crate, batch, said)
            print(f"{crate}: {len(names)} of {len(batch)} edits were refused in one check", flush=True)
            refused |= names
            batch = {edit: bodies for edit, bodies in batch.items() if edit.name not in names}
    return refused


def copied(folder: Path) -> None:
    """Copies the crates into the folder, without what checks made and without edits."""
    for name in ("crates.txt", "HANDLES"):
        shutil.copy(ROOT / name, folder)
    shutil.copytree(ROOT / "crates", folder / "crates", ignore=shutil.ignore_patterns("out", "must-fail"))


def tried_alone(folder: Path, edits: list[Edit]) -> dict[str, str]:
    """Tries edits on the copy, each in a check of its own, and gives the result of each by its name."""
    for edit in edits:
        place = folder / "crates" / edit.crate / "must-fail"
        place.mkdir(exist_ok=True)
        shutil.copy(edit.path, place)
    words = ["rt", "must-fail", *sorted({edit.crate for edit in edits})]
    ended = subprocess.run(words, cwd=folder, stdin=subprocess.DEVNULL, stdout=subprocess.PIPE, stderr=subprocess.STDOUT, text=True, check=False)
    print(ended.stdout, end="", flush=True)
    return results_in(ended.stdout, edits)


def tried(edits: list[Edit]) -> dict[str, str]:
    """Tries the edits on a copy of the crates, as many checks at a time as rt runs, and gives the result of each by its name."""
    crates: dict[str, list[Edit]] = {}
    for edit in edits:
        crates.setdefault(edit.crate, []).append(edit)
    with tempfile.TemporaryDirectory(prefix="abi-edits-") as name:
        folder = Path(name)
        copied(folder)
        with ThreadPoolExecutor(int(os.environ.get("RT_JOBS") or os.cpu_count() or 1)) as pool:
            refused = set().union(*pool.map(lambda of_crate: tried_together(folder, of_crate), crates.values()))
        results = {name: "refused" for name in refused}
        alone = [edit for edit in edits if edit.name not in refused]
        return results | (tried_alone(folder, alone) if alone else {})


def rows_of_table() -> dict[str, str]:
    """The rows of the table, by the names of their edits."""
    lines = TABLE.read_text(encoding="utf-8").splitlines() if TABLE.is_file() else []
    return {found[1]: line for line in lines if (found := re.match(r"\| `([^`]+)` \|", line))}


def write_table(results: dict[str, str]) -> None:
    """Puts the results into the table, and drops the rows of edits that are gone."""
    rows, day, name = rows_of_table(), datetime.date.today().isoformat(), kit()
    rows |= {edit: f"| `{edit}` | {result} | {day} | {name} |" for edit, result in results.items()}
    TABLE.write_text(HEAD + "".join(f"{rows[edit.name]}\n" for edit in all_edits() if edit.name in rows), encoding="utf-8")


def chosen(arguments: argparse.Namespace) -> list[Edit]:
    """The edits that the arguments name."""
    edits = all_edits()
    if arguments.all:
        return edits
    wanted = set(arguments.crates) | (changed_since(arguments.since) if arguments.since else set())
    if unknown := set(arguments.crates) - {edit.crate for edit in edits}:
        sys.exit(f"edits: no edit is of the crate {min(unknown)}")
    return [edit for edit in edits if edit.crate in wanted]


def main() -> int:
    """Checks that all edits apply, and then tries those that the arguments name."""
    parser = argparse.ArgumentParser(prog="tests/edits.sh", description="Checks that each wrong edit applies, and tries those of the named crates.")
    parser.add_argument("crates", nargs="*", metavar="CRATE", help="tries the edits of this crate")
    parser.add_argument("--since", metavar="COMMIT", help="tries the edits of each crate whose code or definitions changed since the commit")
    parser.add_argument("--all", action="store_true", help="tries all edits")
    arguments = parser.parse_args()
    faults = [f"{edit.name}: {fault}" for edit in all_edits() if (fault := fault_of(edit))]
    if faults:
        print(*faults, sep="\n", file=sys.stderr)
        return 1
    print(f"{len(all_edits())} edits apply")
    edits = chosen(arguments)
    if not edits:
        return 0
    results = tried(edits)
    write_table(results)
    bad = {edit: result for edit, result in results.items() if result != "refused"}
    for edit, result in bad.items():
        print(f"{edit}: {result}", file=sys.stderr)
    print(f"{len(results) - len(bad)} of {len(results)} edits were refused")
    return 1 if bad else 0


if __name__ == "__main__":
    sys.exit(main())

"""Checks documents of `abi-json`: each must follow the schema, and its places and names of structures must be those in the sources.

usage: documents.py PROGRAM SCHEMA FOLDER COMPILER..
"""

from __future__ import annotations

import hashlib
import json
import os
import subprocess
import sys
import tempfile
import threading
from pathlib import Path
from typing import Any, Iterator

import jsonschema

COUNT = 12
LINES = 5


# The structures in the source: by the suffix of the function's name, the line and the name.
OWN = {"": (2, "struct own"), "_plain": (3, "plain")}


def sources(folder: Path, member: str) -> Path:
    """Writes the sources of a library whose structures each have a member of this type. The header has a folder of its own, and structure
    k begins there at line LINES * k + 1; the source has another structure at line 2, and one without a tag at line 3."""
    (folder / "inc").mkdir(parents=True, exist_ok=True)
    header = "".join(
        f"struct s{k} {{\n    int first;\n    {member} second;\n}};\n\n" for k in range(COUNT)
    )
    (folder / "inc" / "types.h").write_text(header)
    own = f"struct own {{ int first; {member} second; }};\n"
    plain = f"typedef struct {{ int first; {member} second; }} plain;\n"
    calls = "".join(f"int use{k}(struct s{k} *s) {{ return s->first; }}\n" for k in range(COUNT))
    uses = "int use(struct own *s) { return s->first; }\nint use_plain(plain *s) { return s->first; }\n"
    source = folder / "library.c"
    source.write_text(f'#include "types.h"\n{own}{plain}{uses}{calls}')
    return source


def built(compiler: str, version: int, folder: Path, member: str, absolute: bool) -> Path:
    """Builds the library in its folder."""
    source = sources(folder, member)
    out = folder / "library.so"
    name = str(source) if absolute else source.name
    subprocess.run(
        [compiler, f"-gdwarf-{version}", "-shared", "-fPIC", "-Iinc", "-o", str(out), name], cwd=folder, check=True
    )
    return out


def place_of(export: str, folder: Path) -> dict[str, Any]:
    """Where the structure that a function takes is declared."""
    number = export.removeprefix("use")
    if number in OWN:
        return {"file": str(folder / "library.c"), "line": OWN[number][0]}
    return {"file": str(folder / "inc" / "types.h"), "line": LINES * int(number) + 1}


def name_of(export: str) -> str:
    """The name of the structure that a function takes."""
    number = export.removeprefix("use")
    return OWN[number][1] if number in OWN else f"struct s{number}"


class Documents:
    """Runs the program, and checks what it prints against the schema."""

    def __init__(self, program: str, schema: str) -> None:
        self.program = program
        self.schema = json.loads(Path(schema).read_text())

    def of(self, *words: object, **variables: str) -> dict[str, Any]:
        """The document of a run with these environment variables."""
        ended = subprocess.run([self.program, *map(str, words)], capture_output=True, check=False, env={**os.environ, **variables})
        document: dict[str, Any] = json.loads(ended.stdout)
        jsonschema.validate(document, self.schema)
        assert document["status"] == ended.returncode, (words, document)
        return document


def hold_places(document: dict[str, Any], side: str, library: Path) -> int:
    """Checks that the structure that each function takes has its place in the sources, and its name. Returns how many there are."""
    rows = [row for row in document["breaks"] if row["steps"] == ["param 1", "target"] and row["rule"] == "L2"]
    for row in rows:
        entry = str(row[f"{side}_entry"])
        place, name = document["places"][side].get(entry), document["types"][side].get(entry)
        assert place == place_of(row["export"], library.parent), (row, place)
        assert name == name_of(row["export"]), (row, name)
    return len(rows)


def hold_member_types(document: dict[str, Any]) -> None:
    """Checks the types of the member that is an `int` in the old library and a `long` in the new one, where a break names them."""
    rows = [row for row in document["breaks"] if row["steps"][2:] == ["member second"]]
    assert rows, document
    for row in rows:
        names = [document["types"][side][str(row[f"{side}_entry"])] for side in ("old", "new")]
        assert names in (["int", "long"], ["int", "long int"]), (row, names)


def hold_pipes(documents: Documents, old: Path, new: Path) -> None:
    """Checks that the document of a library that comes through a pipe, which gives its bytes once, is that of the file."""
    whole = documents.of("check", old, new, ABI_NOTES="1")
    with tempfile.TemporaryDirectory() as folder:
        pipe = Path(folder, "pipe")
        os.mkfifo(pipe)
        writer = threading.Thread(target=pipe.write_bytes, args=(old.read_bytes(),), daemon=True)
        writer.start()
        piped = documents.of("check", pipe, new, ABI_NOTES="1")
        writer.join(timeout=10)
    assert [one["sha256"] for one in piped["inputs"]] == [hashlib.sha256(path.read_bytes()).hexdigest() for path in (old, new)], piped
    for member in ("answer", "breaks", "side_notes", "places", "types", "untyped"):
        assert piped[member] == whole[member], (member, piped, whole)


def hold_notes(documents: Documents, old: Path, new: Path) -> None:
    """Checks that `abi-json notes` gives the same notes as `check`, and that without digests the inputs are otherwise the same."""
    noted = documents.of("check", old, new, ABI_NOTES="1")
    alone = documents.of("notes", old, new)
    assert alone["answer"] == "done" and alone["side_notes"] == noted["side_notes"] != [], alone
    plain = documents.of("check", old, new, ABI_DIGESTS="0")
    assert plain["side_notes"] is None and [one["sha256"] for one in plain["inputs"]] == [None, None], plain
    assert [{**one, "sha256": None} for one in noted["inputs"]] == plain["inputs"] and noted["breaks"] == plain["breaks"], plain
    assert documents.of("notes", old, old.with_name("missing"))["answer"] == "read fault"
    assert documents.of("notes", old)["answer"] == "usage"
    damaged = documents.of("notes", old, __file__)
    assert damaged["answer"] == "unreadable" and damaged["fault"]["input"] == "new" and damaged["side_notes"] is None, damaged
    same = documents.of("notes", old, old)
    assert same["answer"] == "done" and same["side_notes"] == [] and same["missing_side_notes"] is None, same


def orders(command: str, files: list[str], rules: str) -> Iterator[list[str]]:
    """The same request in all orders of its words: the option anywhere, and `--` before the command or before a file."""
    words = [command, *files]
    for option in (["--rules", rules], [f"--rules={rules}"]):
        for at in range(len(words) + 1):
            yield words[:at] + option + words[at:]
        for at in range(len(words)):
            yield option + words[:at] + ["--"] + words[at:]


def hold_orders(documents: Documents, old: Path, new: Path, rules: Path) -> int:
    """Checks that each order of the words gives the same document, which names the command. Returns the number of documents."""
    rules.write_text("[suppress_function]\nname = use_plain\n")
    held = 0
    for command in ("check", "app", "notes"):
        files = [str(old), str(new)] if command != "app" else [str(old), str(old), str(new)]
        wanted = documents.of(command, "--rules", rules, *files, ABI_NOTES="1")
        assert wanted["command"] == command, wanted
        for words in orders(command, files, str(rules)):
            document = documents.of(*words, ABI_NOTES="1")
            assert document == wanted, (words, document)
            held += 1
    assert documents.of("--report", "text", "check", old, new)["answer"] == "usage"
    assert documents.of("--rules", "notes", "check", old, new)["answer"] == "read fault"
    return held


# Each structure has an `int`, and a member that is an `int` in the old library and a `long` in the new one (System V psABI, figure
# 3.1). By rule: the part, the old value and the new value that a break must have.
VALUES = {
    "L2": (None, (8, "bytes"), (16, "bytes")),
    "L7": ("second", (32, "bits"), (64, "bits")),
}


def hold_values(document: dict[str, Any]) -> int:
    """Checks that the breaks of each structure have its sizes and offsets. Returns how many breaks there are."""
    rows = [row for row in document["breaks"] if row["steps"] == ["param 1", "target"]]
    for row in rows:
        said = (row["part"], *((row[side]["value"], row[side]["unit"]) for side in ("was", "is")))
        assert said == VALUES[row["rule"]], row
    return len(rows)


def main() -> None:
    program, schema, folder, *compilers = sys.argv[1:]
    documents = Documents(program, schema)
    work = Path(folder)
    held = 0
    for compiler in compilers:
        for version in (4, 5):
            for absolute in (False, True):
                place = work / f"{compiler}-{version}-{absolute}"
                old = built(compiler, version, place / "old", "int", absolute)
                new = built(compiler, version, place / "new", "long", absolute)
                document = documents.of("check", old, new)
                assert document["answer"] == "no", document
                found = hold_places(document, "old", old) + hold_places(document, "new", new)
                assert found == 2 * (COUNT + len(OWN)), (compiler, version, found)
                assert hold_values(document) == len(VALUES) * (COUNT + len(OWN)), document
                hold_member_types(document)
                held += found
                assert documents.of("check", old, old)["answer"] == "yes"
                assert documents.of("exports", old)["answer"] == "done"
    hold_notes(documents, old, new)
    hold_pipes(documents, old, new)
    held += hold_orders(documents, old, new, work / "rules")
    assert documents.of("check", old, work / "missing")["answer"] == "read fault"
    assert documents.of("check", old, __file__)["answer"] == "unreadable"
    assert documents.of("check")["answer"] == "usage"
    print(f"{held} places and orders of words")


main()

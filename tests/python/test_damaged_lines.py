"""Damaged line programs: whatever bytes `.debug_line` and `.debug_line_str` have, `abi-json` gives the same status and breaks. Past the
limit on the names of source files or of typedefs it gives no document, and says why.

The last byte of `.debug_line_str` stays as it is: it ends the name of a unit in `.debug_info`, and an unterminated name is a fault.
"""

from __future__ import annotations

import json
import os
import random
import subprocess
from concurrent.futures import ThreadPoolExecutor
from functools import partial
from pathlib import Path
from typing import Any

import pytest
from conftest import ROOT, done, needs
from report_support import needs_json

from abi_tools.elf_files import ElfFile

_MUTATIONS = 1000
_SECTIONS = (".debug_line", ".debug_line_str")
# One structure points to another, so that a document has places of both.
_SOURCE = """\
struct inner { int a; %s b; };
struct outer { struct inner *inner; int c; };
int use(struct outer *outer) { return outer->c; }
"""
# Bytes that end numbers, begin long ones, or are the largest of a size.
_EXTREMES = (0x00, 0x01, 0x7F, 0x80, 0xFF)


def built(folder: Path, name: str, member: str, version: int) -> Path:
    """Builds a small library without the C library's start files."""
    (folder / f"{name}.c").write_text(_SOURCE % member)
    done("gcc", f"-gdwarf-{version}", "-shared", "-fPIC", "-nostdlib", "-o", f"{name}.so", f"{name}.c", folder=folder)
    return folder / f"{name}.so"


def mutated(library: Path, number: int) -> bytes:
    """The library with a few bytes of its line programs and their strings changed; `number` is the seed."""
    chance = random.Random(number)
    file = ElfFile(library)
    parts = [(section.offset, section.size - (name != _SECTIONS[0])) for name in _SECTIONS if (section := file.first(name)) is not None]
    data = bytearray(file.data)
    for _ in range(chance.randint(1, 4)):
        offset, size = chance.choice(parts)
        # Half of the changes are at the start of the section, where the header of the first program is.
        place = offset + chance.randrange(min(size, 64) if chance.random() < 0.5 else size)
        data[place] = chance.choice(_EXTREMES) if chance.random() < 0.5 else chance.randrange(256)
    return bytes(data)


def judged(old: Path, new: Path) -> tuple[int, Any]:
    """The status of a run, and the breaks of its document."""
    ended = subprocess.run([os.environ["ABI_JSON"], "check", str(old), str(new)], stdin=subprocess.DEVNULL, capture_output=True,
                           check=False)
    document = json.loads(ended.stdout)
    return ended.returncode, (document["status"], document["answer"], document["breaks"])


def judged_damaged(old: Path, new: Path, number: int) -> tuple[int, tuple[int, Any]]:
    """The same for mutations: of the old library, of the new one, and of both in turn."""
    sides = [old, new]
    for side in ((0,), (1,), (0, 1))[number % 3]:
        sides[side] = old.with_name(f"{number}-{side}.so")
        sides[side].write_bytes(mutated((old, new)[side], number))
    answer = judged(sides[0], sides[1])
    for side in set(sides) - {old, new}:
        side.unlink()
    return number, answer


@pytest.mark.parametrize("version", (4, 5))
def test_damaged_line_programs_never_change_status_or_breaks(version: int, tmp_path: Path) -> None:
    needs("gcc")
    needs_json()
    old, new = built(tmp_path, "old", "int", version), built(tmp_path, "new", "long", version)
    whole = judged(old, new)
    assert whole[0] == 1 and whole[1][2], whole
    with ThreadPoolExecutor(os.cpu_count()) as pool:
        answers = pool.map(partial(judged_damaged, old, new), range(_MUTATIONS // 2))
        assert [number for number, answer in answers if answer != whole] == []


@pytest.mark.parametrize("kind", ("long_file_name", "long_typedef_name"))
def test_long_names_have_a_limit(kind: str, tmp_path: Path) -> None:
    needs_json()
    done("bash", ROOT / "bench/hostile.sh", "--make", tmp_path, kind, 1000)
    ended = subprocess.run([os.environ["ABI_JSON"], "check", "old", "new"], stdin=subprocess.DEVNULL, capture_output=True, check=False,
                           cwd=tmp_path)
    said = b"abi-json: past the limit on bytes of a report (LIMITS in abi(1))\n"
    assert (ended.returncode, ended.stdout, ended.stderr) == (4, b"", said)

"""Runs the program on images that are built by hand, and compares its answers with those of the rows.

usage: python3 tests/images ABI GRAPH_LINES FAULTY_LIBRARY
"""

import os
import subprocess
import sys
import tempfile
from collections import Counter
from collections.abc import Iterator
from concurrent.futures import ThreadPoolExecutor
from pathlib import Path

import answers
import applications
import calls
import damage
import devices
import entries
import faults
import growth
import joined
import layout
import limits
import reading
import rings
import typed
import versions
from cases import Case, Filled

TABLES = [answers, faults, versions, entries, typed, damage, devices, growth, rings, joined, applications, limits, calls]

PIECE = 1 << 20


class Wrong(Exception):
    """An answer is not that of its row."""


def written(folder: Path, name: str, content: bytes | Filled) -> None:
    if isinstance(content, bytes):
        (folder / name).write_bytes(content)
        return
    with (folder / name).open("wb") as file:
        if content.value == 0:
            file.truncate(content.length)
            return
        for start in range(0, content.length, PIECE):
            file.write(bytes([content.value]) * min(PIECE, content.length - start))


def wrong_note(case: Case, status: int, text: str, said: str) -> bool:
    """Whether standard error says too much or too little: it says what is wrong, has one note on a refusal, and one more on a file that is
    not the one of the certificate, and may have notes on a yes or no."""
    notes = said.splitlines()
    if not all(note.startswith("abi: ") for note in notes):
        return True
    if status in (2, 3, 4, 6, 64):
        return not notes
    if status == 5:
        return len(notes) != (2 if "70 OtherInput" in text else 1)
    return bool(notes) and case.words[0] not in ("check", "app")


def run(program: str, words: list[str], folder: str, settings: dict[str, str]) -> tuple[int, str, str]:
    """The status, the output and the standard error of the program in a folder."""
    ran = subprocess.run([program, *words], cwd=folder, env=os.environ | settings, capture_output=True, timeout=600, check=False)
    return ran.returncode, ran.stdout.decode(), ran.stderr.decode()


def judge(program: str, faulty: str, case: Case) -> None:
    settings = case.settings | {"LD_PRELOAD": faulty} if case.settings else {}
    with tempfile.TemporaryDirectory() as folder:
        for name, content in case.files.items():
            written(Path(folder), name, content)
        for name, words in case.before.items():
            status, text, _ = run(program, words, folder, {})
            if status != 0:
                raise Wrong(f"{case.test}: {case.row}: {words}: status {status}: {text}")
            (Path(folder) / name).write_text(text)
        status, text, said = run(program, case.words, folder, settings)
    got = f"{case.test}: {case.row}: status {status}:\n{text}\n{said}"
    if case.status not in (None, status) or case.text not in (None, text) or text == case.unlike:
        raise Wrong(f"{got}\nand not {case.status}:\n{case.text}")
    if wrong_note(case, status, text, said):
        raise Wrong(f"{got}\nwhich is not the right number of notes")


def read_libraries(program: str, graph_lines: str) -> Iterator[str]:
    """Compares what is read of each library with its row."""
    test = "exports_and_their_types_are_read"
    for row, file, listed, export, nodes in reading.readings():
        with tempfile.TemporaryDirectory() as folder:
            (Path(folder) / "lib").write_bytes(file)
            _, exports, _ = run(program, ["exports", "lib"], folder, {})
            _, graph, _ = run(graph_lines, ["lib"], folder, {})
        got = [line for line in graph.splitlines() if line.startswith("export ")]
        entries_of = [line.split()[1] for line in graph.splitlines() if line.startswith("node ")]
        if got != [export] or sorted(entries_of, key=int) != nodes.split() or not exports.startswith(listed):
            raise Wrong(f"{test}: {row}:\n{exports}{graph}")
        yield test


def laid_out() -> Iterator[str]:
    """Compares the bytes of the images with those of the rows."""
    for test, file, place, wanted in layout.parts():
        if file[place : place + len(wanted)] != wanted:
            raise Wrong(f"{test}: at {place}: {file[place : place + len(wanted)]!r}")
        yield test


def main() -> int:
    program, graph_lines, faulty = sys.argv[1:]
    cases = [case for table in TABLES for case in table.cases()]
    counts = Counter(laid_out())
    with ThreadPoolExecutor(os.cpu_count()) as pool:
        for case, _ in zip(cases, pool.map(lambda case: judge(program, faulty, case), cases)):
            counts[case.test] += 1
    counts.update(read_libraries(program, graph_lines))
    for test, count in counts.items():
        print(f"ok: {test}: {count}")
    return 0


if __name__ == "__main__":
    try:
        sys.exit(main())
    except Wrong as wrong:
        sys.exit(f"FAILED: {wrong}")

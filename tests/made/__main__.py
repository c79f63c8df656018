"""Checks each row of the tables. Ends with 1 at the first row that a program answers in another way.

usage: python3 -m made ABI ABI_JSON GRAPH_LINES TRIAL_LIBRARY FOLDER
"""

from __future__ import annotations

import sys
from pathlib import Path
from typing import Callable

from . import agreement, arguments, certificates, rules, sentences, types, units
from .programs import Programs, Runs

TABLES = Path(__file__).parent / "tables"
Row = list[str]


def table(name: str) -> tuple[list[str], list[Row]]:
    """The remarks at the head of a table, which end with an empty line, and the cells of its rows."""
    head, rows = (TABLES / f"{name}.txt").read_text(encoding="utf-8").split("\n\n", 1)
    return head.splitlines(), [row.split("|") for row in rows.splitlines()]


def same(name: str, row: Row, told: str, wanted: str) -> None:
    """Ends the program if a row is answered in another way."""
    if told != wanted:
        sys.exit(f"{name}: {'|'.join(row)}\nanswered: {told}")


def each(name: str, answer: Callable[[Row], tuple[str, str]]) -> int:
    """Checks the rows of a table, given what a program says of a row and what it must say, and returns the number of rows."""
    rows = table(name)[1]
    for row in rows:
        same(name, row, *answer(row))
    print(f"{name}: {len(rows)} rows")
    return len(rows)


def breaks(runs: Runs, row: Row) -> tuple[str, str]:
    """The rows of two libraries, and the number of pairs if the row has one."""
    told, pairs = types.broken(runs, row[1:6])
    wanted, wanted_pairs = row[6], row[7]
    return f"{told}|{pairs if wanted_pairs else ''}", f"{wanted}|{wanted_pairs}"


def check(runs: Runs) -> int:
    """Checks all tables, and returns the number of rows."""
    spelled = ";".join(line.removeprefix("# TYPES ") for line in table("calls")[0] if line.startswith("# TYPES "))
    made = {row[0]: units.unit(row) for row in table("units")[1]}
    return sum(
        [
            each("breaks", lambda row: breaks(runs, row)),
            each("alike", lambda row: (types.alike(runs, row[1], row[2], int(row[3])), f"{row[4]}|{row[5]}")),
            each("sides", lambda row: (types.sides(runs, row[1:6]), row[6])),
            each("rules", lambda row: (types.rules(runs, row[1], row[2]), row[3])),
            each("ways", lambda row: (types.ways(runs, row[0]), f"{row[1]}|{row[2]}")),
            each("written", lambda row: ("|".join(certificates.written(runs, row[1:5])), "|".join(row[5:]))),
            each("certificates", lambda row: (certificates.judged(runs, row[1], row[2]), row[3])),
            each("certificate_texts", lambda row: (certificates.fault_of_text(runs, row[0], row[1]), row[2])),
            each("rule_texts", lambda row: (rules.fault_of(runs, row[0]), row[1])),
            each("rule_marks", lambda row: (rules.left_out(runs, row[0]), row[1])),
            each("rule_marks_without_soname", lambda row: (rules.left_out(runs, row[0], "-"), row[1])),
            each("idle_sections", lambda row: (rules.idle(runs, row[0]), row[1])),
            each("calls", lambda row: (types.places(runs, spelled, row[0]), f"{row[1]}|{row[2]}")),
            each("layouts", lambda row: (types.layout(runs, row[1], row[2]), row[3])),
            each("lists", lambda row: (units.range_address(runs, row[:3], row[3]), row[3])),
            each("addresses", lambda row: (units.address(runs, row[1:4], row[4]), row[4])),
            each("texts", lambda row: (units.text(runs, row[1:4]), row[4])),
            each("unit_faults", lambda row: (units.fault_of(runs, units.changed(made[row[0]], row[1])), row[2])),
            each("entries", lambda row: (units.listed(runs, made[row[0]]), row[1])),
            each("addressed", lambda row: (units.addressed(runs, made[row[0]], int(row[1], 16)), row[2])),
            each("graphs", lambda row: (units.graph(runs, made[row[0]], 4096), row[1])),
            each("spelled_graphs", lambda row: (types.graph(runs, row[1], int(row[2])), row[3])),
        ]
    )


def check_words(runs: Runs) -> int:
    """Checks the tables of arguments and sentences, and returns the number of rows."""
    return sum(
        [
            each("words", lambda row: (arguments.meaning(runs, row[0]), row[1])),
            each("wrong_words", lambda row: (arguments.wrong(runs, row[0]), row[1])),
            each("trial_lengths", lambda row: (arguments.lengths(runs, row[0]), row[1])),
            each("file_faults", lambda row: (sentences.of_file(runs, sentences.bytes_of(row[1])), f"{row[0]}|{row[2]}")),
            each("place_faults", lambda row: (sentences.of_place(runs, row[1]), f"{row[0]}|{row[2]}")),
            each("paths", lambda row: (sentences.of_path(runs, row[0]), row[1])),
            each("untyped", lambda row: (sentences.untyped(runs, row[0]), row[1])),
            each("lost", lambda row: (sentences.numbered(sentences.lost(runs, row[0], row[1]), -1, row[3]), f"{row[2]}|{row[3]}")),
            each("outcomes", lambda row: (sentences.numbered(sentences.beside(runs, row[0]), 0, row[2]), f"{row[1]}|{row[2]}")),
            each("rule_comments", lambda row: (sentences.comments(runs, row[0]), row[1])),
        ]
    )


def check_accesses(runs: Runs) -> int:
    """Compares the answers on graphs of types with a walk over all accesses, and returns the number of pairs of graphs."""
    pairs = 0
    for name, compared in (("worked", agreement.check_worked), ("small", agreement.check_small), ("random", agreement.check_random)):
        counts = compared(runs)
        print(f"{name} graphs: all accesses land in {counts.landing} pairs, and not in {counts.missing}")
        pairs += counts.landing + counts.missing
    return pairs


def main(words: list[str]) -> int:
    """Checks all tables and graphs, given the paths of the programs and a folder."""
    *programs, folder = words
    runs = Runs(Programs(*programs), Path(folder))
    print(check(runs) + check_words(runs) + check_accesses(runs))
    return 0


if __name__ == "__main__":
    sys.exit(main(sys.argv[1:]))

"""What the arguments of `abi` ask for, by what it does: each command has a folder with files of the names that rows use."""

from __future__ import annotations

import re
from dataclasses import dataclass
from typing import Callable

from .certificates import first_lines
from .images import Image, Symbol
from .programs import Runs
from .spelled import library

TYPES, TYPED = "int:4/int;struct:4/s x@0>1;ptr >2;fn >0 >3", "f::function:16:4"
# How many exports the old libraries of `check` and `app` have that the new ones have not: more than the style `first` prints.
MANY, FIRST = 12, 10
RULES = b"[suppress_function]\nname_regexp = _12$\n"
OTHER_RULES = "refused 70 OtherInput 4\n"
THIRD = library(TYPES, f"- {TYPED} more::function:16:0 most::function:16:0")


def _exporting(names: list[str]) -> bytes:
    return Image([Symbol(name, "function", 16, 4096) for name in names]).to_bytes()


def _many(start: str) -> list[str]:
    return [f"{start}_{number}" for number in range(1, MANY + 1)]


def _pair() -> dict[str, bytes]:
    return {"A": library(TYPES, f"- {TYPED}"), "B": library(TYPES, f"- {TYPED} more::function:16:0")}


def _check() -> dict[str, bytes]:
    olds = {name: _exporting(_many(start)) for name, start in {"A": "a", "-A": "dash", "-": "minus"}.items()}
    return {**olds, "B": _exporting(["b"]), "F": RULES}


def _app() -> dict[str, bytes]:
    program = Image([Symbol(name, "function", 0, 0, imported=True) for name in _many("a")]).to_bytes()
    return {"A": program, "B": _exporting(_many("a")), "C": _exporting(["c"]), "F": RULES}


def _certified(runs: Runs, first: str, second: str) -> str:
    told = runs.abi("check", first, second)
    assert told.startswith("yes 2\n"), told
    return told


def _verify(runs: Runs) -> dict[str, bytes]:
    return {"C": _certified(runs, "A", "B").encode(), "F": RULES}


def _migrate(runs: Runs) -> dict[str, bytes]:
    lines = _certified(runs, "A", "B").replace("yes 2", "yes 1").splitlines()
    first = [line.removesuffix(" direct").removesuffix(" pointer") for line in lines]
    return {"C": "".join(f"{line}\n" for line in dict.fromkeys(first)).encode(), "F": RULES}


def _compose(runs: Runs) -> dict[str, bytes]:
    runs.write("C", THIRD)
    return {"D": _certified(runs, "A", "B").encode(), "E": _certified(runs, "B", "C").encode()}


@dataclass(frozen=True)
class Answer:
    """What the program said: its status, its output, and its sentences with the notes on what is not judged."""

    status: int
    text: str
    said: list[str]


def _style(lines: list[str]) -> str:
    if not lines:
        return "own"
    if lines[-1].startswith("all "):
        return "counts"
    if " -: " in lines[0]:
        return "table"
    return "first" if len(lines) == FIRST else "text"


def _rules_and_style(answer: Answer) -> str:
    # The rule file drops one of the exports that are gone. Where the style does not show their number, a note on the exports does.
    first, *lines = answer.text.splitlines()
    assert (answer.status, first) == (1, "no"), answer
    style = _style(lines)
    if style == "counts":
        number = int(lines[-1].split()[-1])
    elif style in ("text", "table"):
        number = len(lines)
    else:
        dropped = re.search(r"(\d+) dropped by the rule file", "\n".join(answer.said))
        assert dropped, answer
        number = MANY - int(dropped[1])
    rules = {MANY: "-", MANY - 1: "F"}[number]
    return f"{rules} {style}"


def _names(answer: Answer) -> list[str]:
    # No export has a type, so there is a note on each library.
    end = ": the debug information has no types for the exports: "
    return [line.split(end)[0] for line in answer.said if end in line]


def _told_check(answer: Answer) -> str:
    old, new = _names(answer)
    assert new == "B", answer
    return f"check {_rules_and_style(answer)} {old}"


def _told_app(answer: Answer) -> str:
    names = _names(answer)
    assert any(line.startswith("A: ") for line in answer.said), answer
    return f"app {_rules_and_style(answer)} A {' '.join(names)}"


def _told_rules(command: str, done: str) -> Callable[[Answer], str]:
    # The certificate is one without a rule file, so that one with a rule file is refused.
    def told(answer: Answer) -> str:
        if answer.status == 5:
            assert answer.text == OTHER_RULES, answer
            return f"{command} F"
        assert answer.status == 0 and answer.text.startswith(done), answer
        return f"{command} -"

    return told


def _told_compose(answer: Answer) -> str:
    head = first_lines({"old": _pair()["A"], "new": THIRD, "rules": b""})
    assert answer.status == 0 and answer.text.startswith(head), answer
    return "compose"


def _told_listing(command: str, start: str) -> Callable[[Answer], str]:
    def told(answer: Answer) -> str:
        assert answer.status == 0 and answer.text.startswith(start), answer
        return command

    return told


TOLD: dict[str, Callable[[Answer], str]] = {
    "check": _told_check,
    "app": _told_app,
    "verify": _told_rules("verify", "accepted\n"),
    "migrate": _told_rules("migrate", "yes 2\n"),
    "compose": _told_compose,
    "layout": _told_listing("layout", "layout s size 4\n"),
    "exports": _told_listing("exports", "1 f FUNC 16 "),
    "entries": _told_listing("entries", "12 0 11\n"),
    "trial": lambda answer: " ".join(answer.text.split()[:2]),
}
PLAIN: dict[str, Callable[[], dict[str, bytes]]] = {"check": _check, "app": _app}
CERTIFIED: dict[str, Callable[[Runs], dict[str, bytes]]] = {"verify": _verify, "migrate": _migrate, "compose": _compose}


def _folder(runs: Runs, command: str) -> Runs:
    inside = runs.inside(f"arguments_{command}")
    for name, data in PLAIN.get(command, _pair)().items():
        inside.write(name, data)
    for name, data in CERTIFIED.get(command, lambda _: {})(inside).items():
        inside.write(name, data)
    return inside


def words_of(cell: str) -> list[str]:
    """The arguments of a cell."""
    return [] if cell == "(no words)" else cell.split(" ")


def meaning(runs: Runs, cell: str) -> str:
    """What the arguments ask for."""
    words = words_of(cell)
    command = next((word for word in words if word in TOLD), "check")
    inside = _folder(runs, command)
    text, said = inside.noted(*words)
    if inside.status == 64:
        return ""
    if text.startswith("usage: "):
        return "help"
    return TOLD[command](Answer(inside.status, text, said))


def wrong(runs: Runs, cell: str) -> str:
    """The sentence on wrong arguments, or nothing."""
    said = runs.said(*words_of(cell))
    if runs.status != 64:
        return ""
    (sentence,) = said
    return sentence


def lengths(runs: Runs, count: str) -> str:
    """The lengths of both libraries of a trial, or nothing if there is none."""
    return " ".join(str(len(data)) for side in ("old", "new") if (data := runs.trial(count, side)) is not None)

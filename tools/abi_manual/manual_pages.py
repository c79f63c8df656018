"""Manual pages, in the macros of man(7)."""

from __future__ import annotations

import re
import textwrap
from typing import Iterable, Iterator

from abi_manual.rules_of_guide import rules
from abi_manual.sources import Command, Manual

_WIDTH = 76
_OPTIONS = ("Options may come anywhere among the arguments, each once, as `--rules` *FILE* or `--rules=`*FILE*. After the argument `--` there "
            "are none.")
_MARKED = re.compile(r"`([^`]*)`|\*([^*]*)\*")
_RULES = "A line of a report begins with the rule that is broken. Exports have rules in X, and types in L."
# The variables of the environment that the programs read.
_READ_BY_ABI, _READ_BY_JSON = ("ABI_NOTES",), ("ABI_NOTES", "ABI_DIGESTS")
# Pages that come with packages of their own.
_ELSEWHERE = ("dh_abi",)
# Options that abi-json does not take.
_CHOSEN_BY_JSON = ("report",)


def abi_page(manual: Manual) -> str:
    """The page abi(1)."""
    source = manual.source
    lines = [
        *head("abi", source["brief"], source["date"]),
        *_synopsis("abi", [command.usage for command in manual.commands]),
        ".SH DESCRIPTION", *paragraphs(source["description"]),
        ".SH COMMANDS", *_commands(manual.commands),
        ".SH OPTIONS", *sentences(_OPTIONS),
        *_options(manual, ()),
        *_statuses(manual), ".PP", "With each status from 2 on, a sentence on standard error says what is wrong.",
        ".SH RULES", *sentences(_RULES), *_rules(),
        *environment(manual, _READ_BY_ABI),
        ".SH FILES", *paragraphs(source["files"]),
        ".SH LIMITS", *paragraphs(source["limits"]),
        *examples(source["example"]),
        *see_also(["abi-json", *manual.tools, *_ELSEWHERE, "abidiff", "readelf", "pahole"]),
    ]
    return "\n".join(lines) + "\n"


def json_page(manual: Manual) -> str:
    """The page abi-json(1)."""
    source = manual.source
    commands = [_without(command) for command in manual.commands]
    lines = [
        *head("abi-json", "does what abi does, and prints one JSON document", source["date"]),
        *_synopsis("abi-json", [command.usage for command in commands]),
        ".SH DESCRIPTION", *paragraphs(source["document"]),
        ".SH OPTIONS", *_options(manual, _CHOSEN_BY_JSON),
        *_statuses(manual), ".PP", "With status 4 and no document, a sentence on standard error says what is wrong.",
        *environment(manual, _READ_BY_JSON),
        *examples(source["json_example"]),
        *see_also(["abi", *manual.tools, *_ELSEWHERE, "jq"]),
    ]
    return "\n".join(lines) + "\n"


def _without(command: Command) -> Command:
    """A command as abi-json takes it."""
    options = tuple(option for option in command.options if option.name not in _CHOSEN_BY_JSON)
    return Command(command.name, options, command.files, command.words, command.text)


def head(name: str, brief: str, date: str, source: str = "tools/abi_manual/commands.toml") -> list[str]:
    """The first lines of a page."""
    return [f'.\\" Made by tools/make-manual from {source}.',
            f'.TH {plain(name.upper())} 1 "{date}" "abi" "User Commands"', ".SH NAME", f"{plain(name)} \\- {plain(brief)}"]


def _synopsis(name: str, usages: Iterable[str]) -> Iterator[str]:
    yield ".SH SYNOPSIS"
    yield ".nf"
    for usage in usages:
        command, _, rest = usage.partition(" ")
        yield f"\\fB{plain(name)} {plain(command)}\\fR {words(rest)}".rstrip()
    yield ".fi"


def words(usage: str) -> str:
    """The words of a usage line, with those in capitals as placeholders."""
    return re.sub(r"\b([A-Z][A-Z0-9_]*)\b", r"\\fI\1\\fR", plain(usage))


def paragraphs(text: str) -> Iterator[str]:
    """A text of paragraphs."""
    for number, paragraph in enumerate(text.strip().split("\n\n")):
        if number:
            yield ".PP"
        yield from sentences(paragraph)


def sentences(text: str) -> Iterator[str]:
    """The text with a line for each sentence, since roff itself puts the space after a sentence."""
    for sentence in re.split(r"(?<=[.:]) (?=[A-Z`])", text.strip()):
        for line in textwrap.wrap(_marked(sentence), _WIDTH, break_long_words=False, break_on_hyphens=False):
            yield _guarded(line)


def _marked(text: str) -> str:
    """A text whose words in backticks are bold, and those in stars italic."""
    parts = []
    at = 0
    for found in _MARKED.finditer(text):
        parts.append(plain(text[at:found.start()]))
        font, word = ("B", found[1]) if found[1] is not None else ("I", found[2])
        parts.append(f"\\f{font}{plain(word)}\\fR")
        at = found.end()
    return "".join(parts) + plain(text[at:])


def plain(text: str) -> str:
    """A text in which no character means something to roff."""
    return text.replace("\\", "\\e").replace("-", "\\-").replace("'", "\\(aq").replace("^", "\\(ha").replace("~", "\\(ti")


def _guarded(line: str) -> str:
    return f"\\&{line}" if line.startswith((".", "'")) else line


def _commands(commands: Iterable[Command]) -> Iterator[str]:
    for command in commands:
        yield ".TP"
        name, _, rest = command.usage.partition(" ")
        yield f"\\fB{plain(name)}\\fR {words(rest)}".rstrip()
        yield from sentences(command.text)


def _options(manual: Manual, left_out: Iterable[str]) -> Iterator[str]:
    for option in manual.options.values():
        if option.name not in left_out:
            value = "STYLE" if option.choices else option.value
            yield ".TP"
            yield f"\\fB\\-\\-{plain(option.name)}\\fR \\fI{value}\\fR"
            yield from sentences(option.text)
    yield ".TP"
    yield "\\fB\\-h\\fR, \\fB\\-\\-help\\fR"
    yield "Prints the usage."
    yield ".TP"
    yield "\\fB\\-\\-version\\fR"
    yield from sentences("Prints the name and the release of the program, the logic with which it is proved, and the formats that it "
                         "reads and writes. It must be the only argument.")


def _statuses(manual: Manual) -> Iterator[str]:
    yield ".SH EXIT STATUS"
    for status in manual.source["status"]:
        yield ".TP"
        yield f"\\fB{status['number']}\\fR"
        yield from sentences(status["text"])


def _rules() -> Iterator[str]:
    for rule in rules():
        yield ".TP"
        yield f"\\fB{rule.word}\\fR {_marked(rule.broken)}"
        yield from sentences(rule.text)


def environment(manual: Manual, names: Iterable[str]) -> Iterator[str]:
    """The section on the variables that a program reads; empty if it reads none."""
    for number, name in enumerate(names):
        yield from [".SH ENVIRONMENT"] * (number == 0)
        yield ".TP"
        yield f"\\fB{name}\\fR"
        yield from sentences(manual.variables[name])


def see_also(names: Iterable[str]) -> list[str]:
    """The last section, which names other pages."""
    first, *others = [f".BR {plain(name)} (1)" for name in names][::-1]
    return [".SH SEE ALSO", *(f"{name}," for name in others[::-1]), first]


def examples(given: Iterable[dict[str, str]]) -> Iterator[str]:
    """The section on examples, each a sentence and a command; empty if there are none."""
    for number, example in enumerate(given):
        yield ".PP" if number else ".SH EXAMPLES"
        yield from sentences(example["text"])
        yield from (".PP", ".nf", ".RS 4", _guarded(plain(example["line"])), ".RE", ".fi")

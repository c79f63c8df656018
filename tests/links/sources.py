"""What the sources say of what the pages are about: the names of rules, faults, limits, notes, options and clauses."""

from __future__ import annotations

import ast
import re
import sys
from dataclasses import dataclass
from functools import cache
from itertools import chain, takewhile
from pathlib import Path
from typing import Iterator

from .markdown import ROOT

sys.path.insert(0, str(ROOT / "bench"))

from limits.rows import ROWS  # noqa: E402

_CRATES = ROOT / "crates"
TOOLS = ROOT / "tools"
# The faults of default arms, by the first words of their sentences.
_DEFAULTS = {"the language of the unit": "Language", "the entry has a chain": "OriginTooDeep", "the certificate does not end": "End",
             "it is longer than 256": "TooLong"}
_MAN = sorted((ROOT / "share" / "man" / "man1").glob("*.1"))


@dataclass(frozen=True)
class Named:
    """Something that the program names: its name in the code (that of a fault is the printed one), the word or number for it, and what it is."""

    name: str
    word: str
    words: str


@cache
def read(path: str) -> str:
    """The text of a file of a crate."""
    return (_CRATES / path).read_text(encoding="utf-8")


def documented(path: str) -> dict[str, str]:
    """The variants of the enums of a file, each with its comment."""
    found = re.findall(r"((?:^ +///.*\n)+) +(\w+)(?:\(\w+\))?,$", read(path), re.MULTILINE)
    return {name: " ".join(re.findall(r"/// ?(.*)", comment)).rstrip(".") for comment, name in found}


def texts(path: str, function: str) -> dict[str, str]:
    """The words or numbers that a definition of a file gives to the variants of an enum."""
    found = re.findall(rf'^{function} (?:\w+\.)?(\w+) = (?:codes "([^"]*)"|(\d+))$', read(path), re.MULTILINE)
    return {name: words or number for name, words, number in found}


def rules() -> list[Named]:
    """The rules, in order."""
    found = re.findall(r'^entry_of (\w+) = entry \d+ \(codes "(\w+)"\) \(codes "([^"]*)"\)$', read("abi_types/specs/Rules.antt"), re.MULTILINE)
    return [Named(name, word, words) for name, word, words in found]


def faults() -> list[Named]:
    """The faults and the refusals of certificates, by their numbers."""
    found = list[Named]()
    for path, of, enums in (("abi_base/specs/Fault.antt", "fault", "abi_base/src/fault.rt"),
                            ("cert_check/specs/Refusals.antt", "refused", "cert_check/src/refused.rt")):
        names, when = texts(path, f"{of}_name"), documented(enums)
        found += [Named(names[name], number, when[name]) for name, number in texts(path, f"{of}_number").items()]
    (no_tag,) = re.findall(r"^-- (.*)\nabbrev pub HasNoTag ", read("library_layout/specs/Layouts.antt"), re.MULTILINE)
    found.append(Named("NoTag", "85", no_tag.capitalize()))
    return sorted(found, key=lambda fault: int(fault.word))


def said_of_faults() -> dict[str, list[str]]:
    """The sentences on faults, each with the numbers of its faults."""
    numbers = texts("abi_base/specs/Fault.antt", "fault_number")
    arms = r'((?:FaultKind::\w+[\s|]*)+|_|Some\(\w+\))\s*=>\s*\{?\s*(?:Some\(\s*)?"([^"{}]+)"'
    found = [(words, [numbers[kind] for kind in re.findall(r"FaultKind::(\w+)", kinds)] or _numbers_by_default(words, numbers))
             for kinds, words in re.findall(arms, read("explain/src/faults.rt"))]
    text = re.sub(r'b"[^"]*"', "", read("explain/src/files.rt"))
    for body in re.findall(r"^(?:pub\(crate\) )?fn \w+\(.*?^}", text, re.MULTILINE | re.DOTALL):
        (function,) = re.findall(r"fn (\w+)\(", body)
        kinds = re.findall(rf"FaultKind::(\w+) => {function}\(", text) + ["ShortFile"] * (function == "other_file")
        found += [(words, [numbers[kind] for kind in kinds]) for words in re.findall(r'(?:^| )"([^"\n{}\\]+)"', body, re.MULTILINE)
                  if function != "file_sentence"]
    found += [(words, [numbers[kind]] if kind else _numbers_by_default(words, numbers))
              for kind, words in re.findall(r'(?:FaultKind::(\w+)|_) =>\s*\{?\s*"([^"]+)"', text.partition("fn file_sentence")[2])]
    return {words: kinds for words, kinds in found if words.count(" ") > 2}


def _numbers_by_default(words: str, numbers: dict[str, str]) -> list[str]:
    """The number of the fault of a default arm, which the source does not name beside the words."""
    return [numbers[kind] for begin, kind in _DEFAULTS.items() if words.startswith(begin)]


def limits() -> list[Named]:
    """The limits, in the order of docs/manual/LIMITS.md, by their words and what tells apart those with the same words."""
    return [Named(f"Limit::{row.row}", row.named, row.counted) for row in ROWS]


def kinds_of_notes() -> list[tuple[Named, bool]]:
    """The kinds of notes, each with whether it can break callers."""
    path = "type_notes/specs/Notes.antt"
    about = documented("type_notes/src/note.rt")
    breaking = set(re.findall(r"^weight_of (\w+) = CanBreakCallers$", read(path), re.MULTILINE))
    return [(Named(name, words, about[name]), name in breaking) for name, words in texts(path, "kind_name").items()]


def clauses() -> list[str]:
    """The clauses of `run`, in order."""
    contract = read("abi_top/src/top.rt").split("pub fn run")[1].split("\n{\n")[0]
    return list(dict.fromkeys(re.findall(r"^ +ensures (\w+) \{", contract, re.MULTILINE)))


def options() -> Iterator[tuple[str, list[str]]]:
    """The options of the programs and tools, each with those that have it, by their manual pages."""
    found = dict[str, list[str]]()
    for page in _MAN:
        text = page.read_text(encoding="utf-8").replace("\\-", "-")
        for name in re.findall(r"^\\fB(?:-\w, )?(--[a-z-]+)", text, re.MULTILINE):
            found.setdefault(name, []).append(page.stem)
    found.setdefault("--report", []).insert(0, "abi")
    for name in re.findall(r"^=item .*?B<(--[a-z-]+)", (ROOT / "tools" / "debhelper" / "dh_abi").read_text(encoding="utf-8"), re.MULTILINE):
        found.setdefault(name, []).append("dh_abi")
    yield from ((name, list(dict.fromkeys(tools))) for name, tools in sorted(found.items()) if name not in ("--help", "--version"))


def variables() -> Iterator[tuple[str, list[str]]]:
    """The variables that the programs and tools read, each with those that read it, by their manual pages."""
    found = dict[str, list[str]]()
    for page in _MAN:
        section = page.read_text(encoding="utf-8").partition(".SH ENVIRONMENT\n")[2].partition("\n.SH ")[0]
        for name in re.findall(r"^\\fB([A-Z_, ]+)\\fR$", section, re.MULTILINE):
            for each in re.findall(r"[A-Z_]+", name):
                found.setdefault(each, []).append(page.stem)
    yield from sorted(found.items())


def said() -> Iterator[tuple[str, bool]]:
    """Sentences of `abi` beside an answer, as far as they are fixed words: those of more than three words, each with whether it is on
    the arguments."""
    paths = ("explain/specs/Sentences.antt", "explain/specs/OtherInputs.antt", "explain/specs/Programs.antt", "explain/specs/Tags.antt",
             "explain/specs/Applications.antt")
    lines = [line for path in paths for line in read(path).splitlines()]
    found = [(words, "SaysWrong" in line or line.startswith(("needless_words", "encoding_words")))
             for line in lines for words in re.findall(r'codes "([^"]*)"', line)]
    code = "".join(line for line in read("explain/src/wrong.rt").splitlines() if not line.strip().startswith("//"))
    found += [(re.sub(r"{[^}]*}", "..", words), True) for words in re.findall(r'"([^"]+)"', code)]
    known = dict[str, bool]()
    for words, is_wrong in found:
        if words.count(" ") > 2 and not words.startswith("refused"):
            known.setdefault(words.strip(" ,"), is_wrong)
    yield from known.items()


def said_by_tools() -> Iterator[tuple[Path, list[str]]]:
    """What ends a tool, or makes it pass over an input: the modules of the tools, each with its sentences of more than two fixed words."""
    for path in sorted(TOOLS.rglob("*.py")):
        calls = [node for node in ast.walk(ast.parse(path.read_text(encoding="utf-8"))) if isinstance(node, ast.Call) and node.args]
        named = [(getattr(call.func, "id", getattr(call.func, "attr", "")), call.args[0]) for call in calls]
        words = [fixed_words(first) for name, first in named if name in ("Fault", "Refused", "ArgumentTypeError", "error")]
        yield path, list(dict.fromkeys(one for one in words if one.count(" ") > 2))
    path = TOOLS / "debhelper" / "dh_abi"
    found = re.findall(r"""(?:error|warning)\((?:"([^"\\]+)|'([^']+)')""", path.read_text(encoding="utf-8"))
    sentences = [re.sub(r"\$(?:\w+|!)(?:->)?(?:[\[{][^]}]*[]}])*", "..", double or single).strip(". :(") for double, single in found]
    yield path, [one for one in sentences if one.count(" ") > 2]


def fixed_words(text: ast.expr) -> str:
    """A text of a module in Python, with two dots for each part that is not fixed, and none at its ends."""
    parts = text.values if isinstance(text, ast.JoinedStr) else [text]
    return "".join(str(part.value) if isinstance(part, ast.Constant) else ".." for part in parts).strip(". :")


def longest_crate() -> tuple[str, str]:
    """The crate that takes longest in bench/gate.tsv, with its minutes."""
    lines = (ROOT / "bench" / "gate.tsv").read_text(encoding="utf-8").splitlines()
    rows = [(name, minutes) for name, minutes in (line.split("\t") for line in lines if line[0] != "#") if name[0] != "("]
    return max(rows, key=lambda row: float(row[1]))


def scripts() -> Iterator[tuple[str, str]]:
    """The scripts of tests/, bench/ and tools/, each with the first sentence on what it does."""
    for path in chain.from_iterable(sorted((ROOT / folder).glob(form)) for folder, form in (
            ("tests", "*.sh"), ("bench", "*.sh"), ("bench", "*.py"), ("tools", "make-*"))):
        lines = path.read_text(encoding="utf-8").splitlines()
        if path.suffix == ".sh":
            words = " ".join(line[2:] for line in takewhile(lambda line: len(line) > 1, lines[1:]))
        else:
            words = ast.get_docstring(ast.parse("\n".join(lines))) or ""
        yield str(path.relative_to(ROOT)), re.split(r"(?<=[.:])\s", " ".join(words.split()) + " ")[0].rstrip(".:")

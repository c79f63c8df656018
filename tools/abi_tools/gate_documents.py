"""The documents of a gate for other programs: JSON, JUnit's XML, and SARIF 2.1.0."""

from __future__ import annotations

import json
import re
from dataclasses import dataclass
from pathlib import Path, PurePosixPath
from typing import Any, Optional, Sequence
from urllib.parse import quote
from xml.etree import ElementTree

from abi_tools import VERSION
from abi_tools.gate_outcomes import GONE, LEFT_OUT, NEW, Break, Grown, Outcome
from abi_tools.shown import line_shown, lines_shown, name_shown
from abi_tools.side_notes import PREFIX
from abi_tools.verdicts import Verdict

Json = dict[str, Any]
FORMAT = 1
_SARIF = "2.1.0"
_SCHEMA = "https://json.schemastore.org/sarif-2.1.0.json"
_CANNOT_TELL = "cannot-tell"
# What each rule of the gate itself means; those of `abi` have names in its documents.
_OWN_RULES = {GONE: "no new library has the name of an old one",
              _CANNOT_TELL: "it cannot be told whether the new library may replace the old one"}
# XML 1.0 has no other characters below U+10000.
_NO_XML = re.compile("[^\t\n\r\u0020-\ud7ff\ue000-\ufffd\U00010000-\U0010ffff]")


@dataclass(frozen=True)
class Run:
    """A whole run: the answer, the outcomes, and the rule file."""

    verdict: Verdict
    outcomes: Sequence[Outcome]
    rules: Optional[Path]

    def json(self) -> bytes:
        """The document in JSON, by docs/gate.schema.json."""
        return _bytes({"format": FORMAT, "tool": "abi-gate", "version": VERSION, "answer": self.verdict.words(),
                       "rules": _path(self.rules), "libraries": [_library(one) for one in self.outcomes]})

    def junit(self) -> bytes:
        """The document for programs that show tests: each library is a test."""
        cases = [_case(one, self.rules) for one in self.outcomes]
        counts = {name: str(sum(case.find(tag) is not None for case in cases))
                  for name, tag in (("failures", "failure"), ("errors", "error"), ("skipped", "skipped"))}
        suites = ElementTree.Element("testsuites", {"name": "abi-gate", "tests": str(len(cases)), **counts})
        suite = ElementTree.SubElement(suites, "testsuite", {"name": "abi-gate", "tests": str(len(cases)), **counts})
        suite.extend(cases)
        text: bytes = ElementTree.tostring(suites, "UTF-8", xml_declaration=True)
        return text + b"\n"

    def sarif(self) -> bytes:
        """The document for programs that show what tools find in sources."""
        results = [result for one in self.outcomes for result in _results(one, self.rules)]
        names = {one.rule: one.name for outcome in self.outcomes for one in outcome.breaks}
        rules = [_rule(name, _OWN_RULES.get(name, names.get(name, ""))) for name in dict.fromkeys(one["ruleId"] for one in results)]
        for one in results:
            one["ruleIndex"] = [rule["id"] for rule in rules].index(one["ruleId"])
        told = [{"level": "error", "message": {"text": one["message"]["text"]}} for one in results if one["ruleId"] == _CANNOT_TELL]
        run = {"tool": {"driver": {"name": "abi-gate", "version": VERSION, "rules": rules}}, "results": results,
               "invocations": [{"executionSuccessful": self.verdict != Verdict.CANNOT_TELL and not told, "exitCode": int(self.verdict),
                                "toolExecutionNotifications": told}]}
        return _bytes({"$schema": _SCHEMA, "version": _SARIF, "runs": [run]})


def _bytes(document: Json) -> bytes:
    """A document of ASCII letters, so that no name in it breaks it."""
    return json.dumps(document, indent=1).encode("ascii") + b"\n"


def _text(name: str) -> str:
    """A name or a path as text; bytes that are no UTF-8 are escaped."""
    return name.encode("utf-8", "surrogateescape").decode("utf-8", "backslashreplace")


def _path(path: Optional[Path]) -> Optional[str]:
    return None if path is None else _text(str(path))


def _library(one: Outcome) -> Json:
    counts: Json = {"compared": one.compared, "counting": one.counting, "typed": one.typed}
    return {"name": _text(one.name), "answer": one.word, "old": _path(one.old), "new": _path(one.new), "said": line_shown(one.said),
            **{name: count if one.verdict == Verdict.YES else None for name, count in counts.items()},
            "breaks": [_break(found) for found in one.breaks], "remarks": [line_shown(remark) for remark in one.remarks],
            "grown": None if one.grown is None else [_grown(found) for found in one.grown], "notes": _notes(one),
            "certificate": _path(one.certificate), "report": _path(one.report), "no_report": line_shown(one.no_report)}


def _notes(one: Outcome) -> list[str]:
    """The notes for which a strict gate cannot tell."""
    return [line_shown(note.removeprefix(PREFIX)) for note in one.notes] if one.verdict == Verdict.CANNOT_TELL else []


def _break(found: Break) -> Json:
    place = {"file": _text(found.file), "line": found.line} if found.file else None
    return {"rule": found.rule, "name": found.name, "export": line_shown(found.export), "row": line_shown(found.row), "place": place}


def _grown(found: Grown) -> Json:
    return {"type": line_shown(found.type_name), "parts": found.parts, "added": [name_shown(name) for name in found.added],
            "exports": [line_shown(label) for label in found.exports]}


def _xml(text: str) -> str:
    return _NO_XML.sub("?", lines_shown(text))


def _case(one: Outcome, rules: Optional[Path]) -> ElementTree.Element:
    """The test of a library."""
    case = ElementTree.Element("testcase", {"classname": "abi-gate", "name": _xml(line_shown(one.name))})
    where = one.where(rules)
    message = _xml(line_shown("; ".join(part for part in (one.said, where) if part)))
    if one.verdict == Verdict.NO:
        child = ElementTree.SubElement(case, "failure", {"message": message, "type": one.word})
        child.text = _xml("\n".join([*(found.row for found in one.breaks), where]).strip())
    elif one.verdict == Verdict.CANNOT_TELL:
        ElementTree.SubElement(case, "error", {"message": message, "type": one.word}).text = _xml("\n".join([message, *_notes(one)]))
    elif one.word in (NEW, LEFT_OUT):
        ElementTree.SubElement(case, "skipped", {"message": f"{one.word}: {message}"})
    output = [f"{one.word}: {one.said}"] if one.verdict == Verdict.YES else []
    if output or one.remarks:
        ElementTree.SubElement(case, "system-out").text = _xml("\n".join([*output, *one.remarks]))
    return case


def _rule(identifier: str, said: str) -> Json:
    return {"id": identifier, "shortDescription": {"text": said or identifier}}


def _results(one: Outcome, rules: Optional[Path]) -> list[Json]:
    """The results on a library: one for each break, or one that says that it is gone, or that nothing can be told."""
    if one.verdict == Verdict.CANNOT_TELL:
        return [_result(_CANNOT_TELL, one, f"cannot tell of {one.name}: {one.said}")]
    if one.word == GONE:
        return [_result(GONE, one, f"{one.name} is gone: {one.said}")]
    where = one.where(rules)
    return [_result(found.rule, one, f"{one.name}: {found.row} ({where})", found) for found in one.breaks]


def _result(rule: str, one: Outcome, text: str, found: Optional[Break] = None) -> Json:
    """A result. Its place is that of the new type in the source, if that is known, or else the new library."""
    library = one.new or one.old
    physical: Json = {"artifactLocation": {"uri": _uri(str(library))}}
    if found is not None and found.file and found.line > 0:
        physical = {"artifactLocation": {"uri": _uri(found.file)}, "region": {"startLine": found.line}}
    location: Json = {"physicalLocation": physical}
    if found is not None:
        location["logicalLocations"] = [{"fullyQualifiedName": line_shown(found.export)}]
    return {"ruleId": rule, "level": "error", "message": {"text": line_shown(text)}, "locations": [location]}


def _uri(path: str) -> str:
    """A path as a reference: a `file` URI if it begins at the root, or else relative, below the folder of the run if it lies there."""
    here = str(Path.cwd())
    if path.startswith(f"{here}/"):
        path = path[len(here) + 1:]
    text = quote(PurePosixPath(path).as_posix().encode("utf-8", "surrogateescape"))
    return f"file://{text}" if path.startswith("/") else text

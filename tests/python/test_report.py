"""`abi-report`: answers, changes, rule sections, documents that agree with the text of `abi`, and failures."""

from __future__ import annotations

import json
import os
import re
from pathlib import Path
from random import Random
from typing import Any

import jsonschema
import pytest

from conftest import ROOT, abi, done, needs, run
from report_support import HEADER, REPORT, SCHEMA, SOURCE, Edit, Project, document, edits, report, script, stand_in

from abi_report import entries as entries_read
from abi_report.blocks import merged
from abi_report.entries import Entries
from abi_report.reaching import circles
from abi_report.records import Records
from abi_report.ways import reached


@pytest.fixture
def project(tmp_path: Path) -> Project:
    """A project in a folder of its own."""
    return Project(tmp_path)


def changed(project: Project) -> tuple[Path, Path]:
    """Two builds: a public and a private structure grow, and a function is renamed."""
    old = project.build("old")
    header = HEADER.replace("unsigned avail", "unsigned long avail")
    source = SOURCE.replace("int status;", "int status; long pending;").replace("old_name", "old_name2")
    return old, project.build("new", header, source)


def test_yes_says_what_was_compared_and_keeps_the_certificate(project: Project) -> None:
    old = project.build("old")
    new = project.build("new", HEADER, SOURCE + "int more(void) { return 1; }\n")
    certificate = project.folder / "kept.cert"
    ended = report("--certificate", certificate, old, new)
    assert ended.status == 0, ended
    assert ended.out.splitlines()[0] == f"yes: {new} may replace {old}"
    assert "6 exports compared, 6 with types in both libraries" in ended.out
    assert certificate.read_text() == abi("check", old, new).out
    assert abi("verify", old, new, certificate).out == "accepted\n"


def test_no_has_a_block_for_each_type_with_the_lines_of_the_source(project: Project) -> None:
    old, new = changed(project)
    ended = report(old, new)
    assert ended.status == 1, ended
    lines = ended.out.splitlines()
    assert lines[0] == f"no: {new} may not replace {old}"
    stream = lines.index("struct stream  include/stream.h:5")
    block = lines[stream:lines.index("", stream)]
    avail = r"member avail: unsigned int -> (long unsigned int|unsigned long), 4 -> 8 bytes, at byte 8 +include/stream.h:7"
    assert any(re.search(avail, line) for line in block), block
    assert "struct state  src/stream.c:3" in lines
    assert any("old_name: the symbol is gone; perhaps now old_name2" in line for line in lines), lines


def test_members_that_only_moved_stand_behind_what_moved_them(project: Project) -> None:
    old = project.build("old")
    new = project.build("new", HEADER.replace("unsigned avail", "unsigned long avail"))
    (block,) = [one for one in document(old, new)["report"]["types"] if one["title"] == "struct stream"]
    parts = [change["part"] for change in block["changes"]]
    assert parts.index("member avail") < parts.index("member limits"), parts
    assert [change["rules"] for change in block["changes"]][-1] == ["L7"], block


def test_members_that_one_change_moved_stand_in_one_line(project: Project) -> None:
    """Behind `--all` each has a line of its own, and on the page each stands behind a click. Fewer than four keep their lines."""
    members = "".join(f"    long m{number};\n" for number in range(57))
    source = "struct inside {{\n    long first;\n{0}{1}}};\nint run(struct inside *all) {{ return all->first; }}\n"
    old = project.build("old", "", source.format("", members))
    new = project.build("new", "", source.format("    long added_inside;\n", members))
    lines = report(old, new).out.splitlines()
    assert [line.strip() for line in lines if " member" in line and line.startswith("  ")] == [
        "member added_inside: long int, added, 8 bytes, at byte 8  src/stream.c:3 (new)",
        "L7      the 57 members behind added_inside move by 8 bytes (--all lists them)"], lines
    whole = report("--all", old, new).out
    assert whole.count("\n  L7      member m") == 57 and "move by" not in whole
    page = report("--format", "html", old, new).out
    assert page.count("<summary>the 57 members behind added_inside move by 8 bytes</summary>") == 1 and "member m56" in page
    assert len(document(old, new)["report"]["types"][0]["changes"]) == 59
    few = [project.build(name, "", source.format(added, "    long a, b, c;\n")) for name, added in (("a", ""), ("b", "    long added_inside;\n"))]
    assert report(*few).out.count("\n  L7      member ") == 3
    assert "the 57 members behind added_inside move by 8 bytes towards the start" in report(new, old).out


def test_an_alignment_names_the_member_that_has_it(project: Project) -> None:
    source = "struct pair {{ int first; int second {0}; long *third {1}; }};\nint run(struct pair *all) {{ return all->first; }}\n"
    old, new, both = (project.build(name, "", source.format(*words)) for name, words in (
        ("old", ("", "")), ("new", ("__attribute__((aligned(8)))", "")), ("both", ["__attribute__((aligned(16)))"] * 2)))
    assert "  L4      alignment: none -> 8 bytes, that of member second\n" in report(old, new).out
    assert "  L4      alignment: 8 bytes -> none, that of member second\n" in report(new, old).out
    assert "  L4      alignment: 8 bytes -> 16 bytes, that of members second, third\n" in report(new, both).out
    whole = project.build("whole", "", "struct __attribute__((aligned(8))) pair { int first; int second; long *third; };\n"
                          "int run(struct pair *all) { return all->first; }\n")
    assert "  L4      alignment: none -> 8 bytes\n" in report(old, whole).out


def test_all_places_of_a_changed_number_are_named(project: Project) -> None:
    """`abi` reports a pair of types once, at the result."""
    source = "{0} scale({0} by, int times, const {0} *table) {{ return by * times + *table; }}\n"
    old, new = (project.build(name, "", source.format(kind)) for name, kind in (("old", "float"), ("new", "double")))
    assert abi("check", old, new).out == "no\nL2 scale result: size 4, now 8\n"
    assert "  by way of scale / result, scale / param 1, scale / param 3 / target  " in report(old, new).out
    page = report("--format", "html", old, new).out
    for step in ("param 1", "param 3"):
        assert f'<span class="code find">scale</span><li><span class="code">{step}</span>' in page
    members = "struct pair {{ {0} one, two; int *three; }};\nint run(struct pair *all) {{ return *all->three; }}\n"
    old, new = (project.build(name, "", members.format(kind)) for name, kind in (("first", "int"), ("second", "unsigned")))
    lines = [line.strip() for line in report(old, new).out.splitlines() if " member " in line]
    assert [line.split(",")[0] for line in lines] == ["L3      member one: int -> unsigned int", "member two: int -> unsigned int"], lines


def test_types_that_callers_see_stand_before_opaque_ones(project: Project) -> None:
    """The first path leads through the opaque type."""
    header = HEADER.replace("struct limits { int low, high; };", "struct limits { int low, %shigh; };")
    source = SOURCE.replace("int status;", "int status; struct limits *found;%s")
    old = project.build("old", header % "", source % "")
    new = project.build("new", header % "step, ", source % " long more;")
    titles = [one["title"] for one in document(old, new)["report"]["types"]]
    assert titles == ["struct limits", "struct state"]


def test_places_of_both_libraries_are_below_folders_of_the_same_depth(project: Project) -> None:
    """The new library has places only in its header."""
    old = project.build("old")
    new = project.build("new", HEADER.replace("unsigned avail", "unsigned long avail"), SOURCE.replace("old_name", "old_name2"))
    lines = report(old, new).out.splitlines()
    assert "struct stream  include/stream.h:5" in lines, lines
    assert any(line.endswith("it was defined at src/stream.c:9") for line in lines), lines


def test_paths_of_sources_have_one_spelling(project: Project) -> None:
    """The header is included by two names, of which one goes up and down again."""
    home = project.folder / "tree"
    made = []
    for name, more in (("old", ""), ("new", " long more;")):
        (home / "src").mkdir(parents=True, exist_ok=True)
        (home / "src" / "descr.h").write_text(f"struct inner {{ int one;{more} }};\nstruct outer {{ struct inner inner; int two; }};\n")
        (home / "src" / "a.c").write_text('#include "../src/./../src/descr.h"\nint run(struct outer *all) { return all->two; }\n')
        made.append(project.folder / f"{name}.so")
        done("gcc", "-shared", "-fPIC", "-g", "-o", made[-1], "./src/../src/a.c", folder=home)
    assert "/../" not in report(*made).out
    found = document(*made)["report"]["types"]
    assert {one["old"]["place"]["file"] for one in found} == {str(home / "src" / "descr.h")}, found
    assert {line["old_place"]["file"] for one in found for line in one["changes"] if line["old_place"]} == {str(home / "src" / "descr.h")}


def test_no_name_turns_a_sentence(project: Project) -> None:
    """The name of a file has the control character that turns the direction of a line (U+202E)."""
    made = []
    for name, more in (("old", ""), ("new", " long more;")):
        source = project.folder / "turned\u202e.c"
        source.write_text(f"struct inner {{ int one;{more} }};\nint run(struct inner *all) {{ return all->one; }}\n")
        made.append(project.folder / f"{name}\u202e.so")
        done("gcc", "-shared", "-fPIC", "-g", "-o", made[-1], source)
    text, page = report(*made).out, report("--format", "html", *made).out
    assert "\u202e" not in text + page and "new\\xe2\\x80\\xae.so may not replace" in text and "new\\xe2\\x80\\xae.so may not replace" in page


def test_a_variable_has_the_place_of_its_declaration(project: Project) -> None:
    header = "extern int table[%d];\n"
    old, new = (project.build(name, header % count, f'#include "stream.h"\nint table[{count}];\n')
                for name, count in (("old", 4), ("new", 6)))
    assert "table  include/stream.h:1" in report(old, new).out.splitlines()


def test_a_number_in_two_functions_has_one_block(project: Project) -> None:
    old = project.build("old")
    wide = {"take(int number)": "take(long number)", "give(int *number)": "give(long *number)"}
    texts = [HEADER, SOURCE]
    for before, after in wide.items():
        texts = [text.replace(before, after) for text in texts]
    found = document(old, project.build("new", texts[0], texts[1]))
    types = [one for one in found["report"]["types"] if one["kind"] == "type"]
    assert [(one["title"], one["changes"][0]["text"]) for one in types] == [("int -> long int", "4 -> 8 bytes")], types
    assert set(types[0]["exports"]) <= {"take", "give"} and types[0]["exports"]


def test_a_function_has_its_own_name_where_another_one_has_its_type(project: Project) -> None:
    """The document has the entry of one of several functions with one type, whatever their order is."""
    plain = "int {0}(const char *text) {{ return text[1]; }}\n"
    source = f"{plain.format('first')}int said(const char *words%s) {{ return *words; }}\n{plain.format('last')}"
    old, new = (project.build(name, "", source % more) for name, more in (("old", ", ..."), ("new", "")))
    title = "int said(const char *words, ...) -> int said(const char *words)"
    assert f"\n{title}  defined at src/stream.c:2\n" in report(old, new).out
    whole = document(old, new)
    assert [one["title"] for one in whole["report"]["types"]] == [title]
    assert [(one["old_type"]["name"], one["new_type"]["name"]) for one in whole["breaks"]] == [tuple(title.split(" -> "))]
    level1 = project.build("level1", "", source % "", "-g1")
    titles = [one["title"] for one in document(old, level1)["report"]["types"]]
    assert titles[:2] == ["int said(const char *words, ...) -> void said()", "int last(const char *text) -> void last()"], titles


def test_the_program_does_the_same(project: Project) -> None:
    old = project.build("old")
    assert script(old, old) == report(old, old)


def test_quiet_prints_the_answer_alone(project: Project) -> None:
    old, new = changed(project)
    assert report("--quiet", old, new).out == f"no: {new} may not replace {old}\n"
    assert report("--quiet", old, old).out == f"yes: {old} may replace {old}\n"


def test_the_program_says_how_it_is_asked_for_notes() -> None:
    """`abi-json notes` without the names of libraries."""
    for words in ((), ("old.so",), ("--rules", "x"), ("old.so", "new.so", "more.so")):
        ended = run(os.environ["ABI_JSON"], "notes", *words)
        printed = json.loads(ended.out)
        jsonschema.validate(printed, json.loads(SCHEMA.read_text()))
        assert (ended.status, printed["answer"], printed["text"]) == (64, "usage", "usage: abi-json notes [--rules FILE] OLD NEW\n"), ended


def test_statuses_where_it_cannot_be_told(project: Project) -> None:
    old = project.build("old")
    bare = project.build("bare", HEADER, SOURCE, "-g0")
    text = project.folder / "text"
    text.write_text("no library\n")
    for given, words in (((old, bare), "are gone"), ((bare, bare), "no types were compared"),
                         ((old, text), "ELF"), ((text, old), "ELF"), ((old, project.folder / "missing.so"), "missing.so")):
        ended = report(*given)
        assert ended.status == 2, (given, ended)
        assert ended.out.startswith("cannot tell: ") and words in ended.out.splitlines()[0], ended
    for arguments in (("--format", "yaml", str(old), str(old)), (str(old),), ("--require-types", "101", str(old), str(old))):
        ended = report(*arguments)
        assert ended.status == 64 and ended.errors.startswith("usage: abi-report"), ended


def test_lost_types_are_no_break_although_results_have_steps(project: Project) -> None:
    """With -g1 a function has no type, so that its result is void."""
    source = "struct pair { int a; long b; };\nlong total(struct pair *p) { return p->a + p->b; }\nint same(int x) { return x; }\n"
    old = project.build("old", "", source)
    new = project.build("new", "", source.replace("int a;", "int a, inserted;"), "-g1")
    ended = report(old, new)
    assert ended.status == 2 and ended.out.startswith("cannot tell: the types of 2 exports are gone"), ended


def test_the_share_of_exports_with_types_is_said(project: Project) -> None:
    """One of two functions is in assembler that gives it a size, and 90 of 100 must have types if nothing else is asked for."""
    code = 'asm(".globl other; .type other, @function; other: ret; .size other, 1");\n'
    old = project.build("old", "", f"int first(int a) {{ return a; }}\n{code}")
    ended = report(old, old)
    assert ended.status == 2 and ended.out.startswith("cannot tell: 1 of 2 exports have types in both libraries, which is less than 90 of 100")
    ended = report("--require-types", "50", old, old)
    assert ended.status == 0 and "2 exports compared, 1 with types in both libraries (50 % of the 2 that can have some)" in ended.out, ended


def test_what_changed_is_said_also_where_it_cannot_be_told(project: Project) -> None:
    """The types of both objects are gone: the answer names them, and so do the blocks."""
    old = project.build("old", "", "int table[4] = { 1 }, size = 4;\nint take(int a) { return a; }\n")
    home = project.folder / "new"
    home.mkdir()
    (home / "data.c").write_text("int table[4] = { 1 }, size = 4;\n")
    (home / "take.c").write_text("int take(int a) { return a; }\n")
    for name, option in (("data", "-g0"), ("take", "-g")):
        done("gcc", "-c", "-fPIC", option, f"{name}.c", folder=home)
    new = project.folder / "new.so"
    done("gcc", "-shared", "-Wl,-soname,libstream.so.1", "-o", new, "data.o", "take.o", folder=home)
    lines = report(old, new).out.splitlines()
    assert lines[0].startswith("cannot tell: the types of 2 exports are gone: ") and "none of 2 objects, " in lines[0], lines
    assert "folded" not in lines[0] and sum("its type information is gone" in line for line in lines) == 2, lines


def test_a_file_that_cannot_be_read_is_named_with_the_words_of_the_system(project: Project) -> None:
    old = project.build("old")
    missing = project.folder / "missing.so"
    assert report(missing, old).out.splitlines()[0] == f"cannot tell: {missing}: No such file or directory"
    assert f"abi: {missing}: No such file or directory" in abi("check", missing, old).errors
    assert report("--quiet", old, project.folder).out == f"cannot tell: {project.folder}: Is a directory\n"


def test_no_certificate_is_left_where_the_answer_is_no(project: Project) -> None:
    old, new = changed(project)
    certificate = project.folder / "kept.cert"
    certificate.write_text("an earlier one")
    assert report("--certificate", certificate, old, new).status == 1
    assert not certificate.exists()


def test_without_the_programs_a_sentence_names_them(project: Project, monkeypatch: pytest.MonkeyPatch) -> None:
    old = project.build("old")
    monkeypatch.setenv("ABI_JSON", str(project.folder / "none"))
    ended = report(old, old)
    assert ended.status == 2 and "put abi-json on the PATH" in ended.errors, ended
    monkeypatch.setenv("ABI_JSON", "/bin/true")
    ended = report(old, old)
    assert ended.status == 2 and "printed nothing" in ended.errors, ended
    monkeypatch.setenv("ABI_JSON", "/bin/echo")
    ended = report(old, old)
    assert ended.status == 2 and "printed no document" in ended.errors, ended


# ---- rule sections


def test_the_rule_section_of_a_type_in_a_source_leaves_it_out(project: Project) -> None:
    old = project.build("old")
    new = project.build("new", HEADER, SOURCE.replace("int status;", "int status; long pending;"))
    (block,) = document(old, new)["report"]["types"]
    assert block["title"] == "struct state"
    rules = project.folder / "abi.rules"
    rules.write_text(block["rule_section"])
    assert report("--rules", rules, old, new).status == 0
    assert f"    {block['rule_section'].splitlines()[0]}" in report(old, new).out.splitlines()


def test_headers_say_which_types_callers_see(project: Project) -> None:
    old, new = changed(project)
    public = project.folder / "old" / "include"
    private = project.folder / "empty"
    private.mkdir()
    seen = {one["title"]: one["rule_section"] is not None for one in document("--headers", public, old, new)["report"]["types"]}
    assert seen["struct stream"] is False and seen["struct state"] is True, seen
    # In the whole tree, the source that declares struct state does not count as a header.
    tree = document("--headers", project.folder / "old", old, new)["report"]["types"]
    assert {one["title"]: one["rule_section"] is not None for one in tree} == seen, tree
    unseen = {one["title"]: one["rule_section"] for one in document("--headers", private, old, new)["report"]["types"]}
    assert all(unseen.values()), unseen
    rules = project.folder / "abi.rules"
    rules.write_text("".join(str(section) for section in unseen.values()))
    assert abi("check", "--rules", rules, old, new).out.splitlines() == ["no", "X2 old_name: gone"]
    ended = report("--headers", project.folder / "none", old, new)
    assert ended.status == 2 and "there is no folder" in ended.errors, ended
    ended = report("--rules", project.folder / "none", old, new)
    assert ended.status == 2 and ended.errors.endswith("none: No such file or directory\n"), ended


def test_a_type_that_is_handed_over_by_value_gets_no_section(project: Project) -> None:
    source = "struct pair { int one; %s };\nint sum(struct pair pair) { return pair.one; }\n"
    old = project.build("old", "", source % "")
    new = project.build("new", "", source % "long two;")
    titles = {one["title"]: one["rule_section"] for one in document(old, new)["report"]["types"]}
    assert titles["struct pair"] is None, titles


def test_without_headers_a_type_of_a_header_counts_as_seen(project: Project) -> None:
    old, new = changed(project)
    types = {one["title"]: one["rule_section"] for one in document(old, new)["report"]["types"]}
    assert types["struct stream"] is None and types["struct state"] is not None, types


# ---- documents


def test_documents_of_all_answers_are_by_the_schema(project: Project) -> None:
    schema = json.loads(SCHEMA.read_text())
    old, new = changed(project)
    text = project.folder / "text"
    text.write_text("no library\n")
    for given, answer, verdict in (((old, old), "yes", "yes"), ((old, new), "no", "no"), ((text, new), "unreadable", "cannot tell"),
                                   ((old, project.folder / "none"), "read fault", "cannot tell")):
        found = document(*given)
        jsonschema.validate(found, schema)
        assert (found["answer"], found["report"]["verdict"]) == (answer, verdict)


def test_jq_reads_the_document(project: Project) -> None:
    needs("jq")
    old, new = changed(project)
    path = project.folder / "document.json"
    path.write_text(report("--format", "json", old, new).out)
    titles = done("jq", "-r", ".report.types[].title", path).splitlines()
    assert {"struct stream", "struct state"} <= set(titles)
    gone = done("jq", "-r", '.report.gone[] | "\\(.export) \\(.successors | join(","))"', path)
    assert gone == "old_name old_name2\n"
    assert done("jq", ".report.types[].changes[].breaks[]", path).split() != []


def test_each_break_has_both_types(project: Project) -> None:
    old, new = changed(project)
    found = document(old, new)
    rows = {(one["rule"], one["path"]): one for one in found["breaks"]}
    one = rows["L2", "param 1 / target / member avail"]
    assert (one["old_type"]["name"], one["new_type"]["name"]) in (("unsigned int", "long unsigned int"), ("unsigned int", "unsigned long"))
    state = rows["L2", "result / target"]
    assert [(side["name"], Path(side["place"]["file"]).name, side["place"]["line"]) for side in (state["old_type"], state["new_type"])] == [
        ("struct state", "stream.c", 3)] * 2
    assert rows["X2", ""]["old_type"] is None


# ---- notes on what no rule judges


def one_break(rule: str, export: str, path: str, **members: object) -> dict[str, object]:
    """A break of a document."""
    steps = path.split(" / ") if path else []
    return {"rule": rule, "name": "changed", "export": export, "steps": steps, "path": path, "detail": "size 8, now 16", "part": None,
            "was": {"value": 8, "unit": "bytes"}, "is": {"value": 16, "unit": "bytes"}, "old_entry": None, "new_entry": None, **members}


def one_note(kind: str, export: str | None, path: str | None = None, was: str | None = None, now: str | None = None) -> dict[str, object]:
    """A note of a document."""
    return {"kind": kind, "export": export, "path": path, "was": was, "is": now}


@pytest.mark.parametrize(("others", "words"), [
    (None, "reached by deflate, and perhaps by others"), ([], "reached by 1 export: deflate"),
    (["inflate", "take"], "reached by 3 exports: deflate, inflate, take"),
    ([f"f{k}" for k in range(42)],
     "reached by 43 exports: deflate, f0, f1, f2, f3, f4, f5, f6, f7, f8, f9, f10 and 31 others"),
])
def test_notes_name_all_exports_that_reach_a_type(project: Project, monkeypatch: pytest.MonkeyPatch, others: list[str] | None,
                                                  words: str) -> None:
    old = project.build("old")
    notes = None if others is None else [one_note("affected export", name, "as deflate param 1 / target") for name in others]
    stand_in(project, monkeypatch, side_notes=notes, breaks=[one_break("L2", "deflate", "param 1 / target")])
    lines = report(old, old).out.splitlines()
    assert f"  {words}" in lines and "Notes" not in lines, lines
    (block,) = document(old, old)["report"]["types"]
    assert (block["exports"], block["all_exports"]) == (["deflate", *(others or [])], others is not None)


def test_without_notes_the_exports_of_a_structure_are_searched_for(project: Project, monkeypatch: pytest.MonkeyPatch) -> None:
    """As when the notes on thousands of breaks pass a limit. With `--fast` or a rule file nothing is searched for."""
    old = project.build("old")
    records = Records(Entries(old))
    deflate = records.export("deflate")
    assert deflate is not None
    (stream,) = {one.offset for one, steps in reached(records, deflate, 100) if steps == ("param 1", "target")}
    stand_in(project, monkeypatch, breaks=[one_break("L2", "deflate", "param 1 / target", old_entry=stream, new_entry=stream)])
    (line,) = [line for line in report(old, old).out.splitlines() if line.startswith("  reached by ")]
    assert line.startswith("  reached by 3 exports: deflate, ") and "inflate" in line and "state_new" in line, line
    assert "perhaps" not in report("--format", "html", old, old).out
    (project.folder / "abi.rules").write_text("")
    for options in (["--fast"], ["--rules", project.folder / "abi.rules"]):
        assert "  reached by deflate, and perhaps by others\n" in report(*options, old, old).out


@pytest.mark.parametrize("shape, size, found", (("crossed", (96, 3), 96), ("linked_structures", (4000, 3), 4000)))
def test_each_of_12000_breaks_names_the_exports_that_it_reaches(tmp_path: Path, shape: str, size: tuple[int, int], found: int) -> None:
    """In `crossed` each structure has as many functions as there are structures; linked ones all reach each other."""
    sources = [tmp_path / f"{side}.c" for side in ("old", "new")]
    done("/usr/bin/python3", ROOT / "tests" / "wide_changes.py", shape, *map(str, size), *sources)
    for source in sources:
        done("gcc", "-g", "-O1", "-w", "-shared", "-fPIC", "-Wl,-soname,libwide.so.1", "-o", source.with_suffix(".so"), source)
    ended = run("prlimit", "--cpu=60", f"--as={1 << 30}", REPORT, tmp_path / "old.so", tmp_path / "new.so")
    counted = re.search(r"changed: ([0-9,]+) breaks", ended.out)
    assert ended.status == 1 and counted is not None and int(counted[1].replace(",", "")) > 12_000, ended.out[:2000] + ended.errors
    assert "perhaps" not in ended.out
    named = re.findall(r"\n  reached by (?:the same )?([0-9,]+) exports", ended.out)
    assert {int(one.replace(",", "")) for one in named} == {found} and len(named) == int(ended.out.split("\n")[1].split()[0].replace(",", ""))


def test_libraries_with_many_exports_are_read_as_others_are(project: Project, monkeypatch: pytest.MonkeyPatch) -> None:
    """After many searches for names, all names of a unit are read instead."""
    old, new = project.build("old"), project.build("new", HEADER.replace("unsigned avail", "long avail"))
    before = document(old, new)
    monkeypatch.setattr(entries_read, "_MANY", 0)
    assert document(old, new) == before and before["report"]["types"] != []


def test_what_reaches_each_other_is_one_circle() -> None:
    """Against a search from each key, on graphs at random."""
    random = Random(12)
    for size in (1, 2, 5, 9, 30):
        for _ in range(20):
            graph = {(one,): [(random.randrange(size),) for _ in range(random.choice((0, 1, 1, 2)))] for one in range(size)}
            reach = {key: {key} for key in graph}
            for _ in graph:
                reach = {key: found.union(*(reach[part] for one in found for part in graph[one])) for key, found in reach.items()}
            found = circles(graph)
            assert sorted(key for circle in found for key in circle) == sorted(graph)
            places = {key: place for place, circle in enumerate(found) for key in circle}
            for one in graph:
                assert {two for two in graph if places[two] == places[one]} == {two for two in reach[one] if one in reach[two]}
                assert all(places[two] <= places[one] for two in reach[one])


def test_what_reaches_the_type_of_a_member_may_not_reach_the_structure(project: Project, monkeypatch: pytest.MonkeyPatch) -> None:
    """If the structure itself breaks a rule, all exports that reach it are known."""
    old = project.build("old")
    path = "param 1 / target / member avail"
    records = Records(Entries(old))
    deflate = records.export("deflate")
    assert deflate is not None
    (stream,) = {one.offset for one, steps in reached(records, deflate, 100) if steps == ("param 1", "target")}
    breaks = [one_break("L2", "deflate", path),
              one_break("L4", "deflate", "param 1 / target", old_entry=stream, new_entry=stream)]
    notes = [one_note("affected export", name, f"as deflate {path}") for name in ("take", "inflate")]
    for count, perhaps in ((1, ", and perhaps the type itself"), (2, "")):
        stand_in(project, monkeypatch, breaks=breaks[:count], side_notes=notes)
        lines = report(old, old).out.splitlines()
        assert any(line.startswith("struct stream") for line in lines)
        reaching = ["deflate", "inflate"] if perhaps else ["deflate"]
        others = [name for name in ("take", "inflate") if name not in reaching]
        told = " ".join(" ".join(lines).split())
        assert f"reached by {len(reaching)} export" in told and f"{perhaps}: {', '.join(others)} by way of" in told, told
        (block,) = document(old, old)["report"]["types"]
        assert (block["exports"], block["member_exports"], block["all_exports"]) == (reaching, others, True)


def test_a_note_counts_for_all_breaks_of_its_two_types(project: Project, monkeypatch: pytest.MonkeyPatch) -> None:
    """For each pair of types only the first break has notes, and none belongs to a break of an export itself."""
    old = project.build("old")
    entries = {"old_entry": 1, "new_entry": 2}
    breaks = [one_break("X5", "table", ""), one_break("L2", "table", "", **entries), one_break("L4", "take", "param 1", **entries),
              one_break("L2", "give", "param 1")]
    stand_in(project, monkeypatch, side_notes=[one_note("affected export", "inflate", "as table")], breaks=breaks)
    told = document(old, old)["report"]
    assert [one["exports"] for one in told["types"]] == [["table", "inflate", "take"]] * 2 + [["give"]], told
    assert [one["exports"] for one in told["exports"]] == [["table"]], told


def test_one_run_makes_the_whole_document(project: Project, monkeypatch: pytest.MonkeyPatch) -> None:
    """With the notes and the digests that are shown."""
    old = project.build("old")
    stand_in(project, monkeypatch, breaks=[])
    asked = project.folder / "asked"
    program = project.folder / "stand_in"
    program.write_text(program.read_text().replace("cat", f"echo $1 $ABI_NOTES $ABI_DIGESTS >>'{asked}'\ncat", 1))
    monkeypatch.setenv("ABI_NOTES", "1")
    for options, line in (((), "check 1 0"), (("--fast",), "check 0 0"), (("--quiet",), "check 0 0"), (("--quiet", "--strict"), "check 1 0"),
                          (("--format", "json"), "check 1 1"), (("--format", "html", "--fast"), "check 0 1")):
        asked.write_text("")
        report(*options, old, old)
        assert asked.read_text().splitlines() == [line], (options, asked.read_text())


def test_a_report_says_why_it_has_no_notes(project: Project, monkeypatch: pytest.MonkeyPatch) -> None:
    """If they would pass a limit, the report says so, and a strict yes is none."""
    old = project.build("old")
    missing = "this passes the limit Notes"
    stand_in(project, monkeypatch, breaks=[one_break("X2", "old_name", "")], missing_side_notes=missing)
    assert f"there are no notes: {missing}" in report(old, old).out
    stand_in(project, monkeypatch, breaks=[], missing_side_notes=missing, answer="yes", status=0, text="")
    assert report("--strict", old, old).status == 2


def test_successors_of_notes_stand_in_place_of_a_search(project: Project, monkeypatch: pytest.MonkeyPatch) -> None:
    old = project.build("old")
    notes = [one_note("likely successor", "old_name", None, "old_name", "chosen_name")]
    stand_in(project, monkeypatch, breaks=[one_break("X2", "old_name", "")], side_notes=notes)
    monkeypatch.setenv("ABI", "/bin/false")
    ended = report(old, old)
    assert "perhaps now chosen_name; it was defined at stream.c:9" in ended.out and "Notes" not in ended.out, ended


def test_notes_of_other_kinds_are_shown_with_the_places_of_their_exports(project: Project, monkeypatch: pytest.MonkeyPatch) -> None:
    """Except those on the names of two types that break a rule."""
    old = project.build("old")
    notes = [one_note("idle section", None, None, "line 3"), one_note("object qualifiers", "take", None, None, "const"),
             one_note("defined elsewhere", "give", "param 1 / target", "4 bytes", "8 bytes"),
             one_note("name of type", "take", "param 1", "a", "b"), one_note("name of type", "give", "param 1 / target", "a", "b"),
             *(one_note("parameter name", f"f{k}", "param 1", "unsigned\\x20int", "b") for k in range(12))]
    stand_in(project, monkeypatch, breaks=[one_break("L2", "take", "param 1")], notes=["a sentence"], side_notes=notes)
    lines = report(old, old).out.splitlines()
    start = lines.index("Notes")
    assert lines[start + 1:start + 6] == [
        "  a sentence", "  idle section: line 3", "  object qualifiers: take: const  defined at stream.c:7",
        "  defined elsewhere: give param 1 / target: 4 bytes -> 8 bytes  defined at stream.c:8",
        "  parameter name: f0 param 1: unsigned int -> b"]
    assert "  parameter name: and 2 more" in lines, lines


# ---- what changed, in order


_POINTS = """\
struct point { %s x, y; };
struct box { struct point low, high; char name; };
struct page { struct box box; struct point *mark; };
enum kind { FIRST, %s LAST };
struct box bounds(struct page *page, enum kind kind);
"""
_BOUNDS = '#include "stream.h"\nstruct box bounds(struct page *page, enum kind kind) { (void)kind; return page->box; }\n'


def test_causes_stand_before_what_they_change(project: Project) -> None:
    old = project.build("old", _POINTS % ("int", ""), _BOUNDS)
    new = project.build("new", _POINTS % ("long", "MIDDLE,"), _BOUNDS)
    types = document(old, new)["report"]["types"]
    titles = [one["title"] for one in types]
    assert set(titles[:2]) == {"struct point", "enum kind"}, titles
    assert {one["title"]: one["because"] for one in types} == {
        "struct point": [], "enum kind": [], "struct box": ["struct point"], "struct page": ["struct point"],
        **{title: ["struct point"] for title in titles if "bounds" in title}}
    lines = report(old, new).out.splitlines()
    assert lines.count("  because struct point grew (include/stream.h:1)") == len(types) - 2, lines


def test_a_type_that_changed_itself_and_holds_another_one_says_both(project: Project) -> None:
    header = _POINTS % ("int", "")
    old = project.build("old", header, _BOUNDS)
    new = project.build("new", (_POINTS % ("long", "")).replace("char name", "long name"), _BOUNDS)
    assert "  also because struct point grew (include/stream.h:1)" in report(old, new).out.splitlines()


def test_members_and_enumerators_stand_in_the_order_of_their_declaration(project: Project) -> None:
    old = project.build("old", _POINTS % ("int", ""), _BOUNDS)
    new = project.build("new", _POINTS % ("long", "MIDDLE,"), _BOUNDS)
    lines = {one["title"]: [f"{line['part']}: {line['text']}" for line in one["changes"]] for one in document(old, new)["report"]["types"]}
    assert lines["enum kind"] == ["enumerator MIDDLE: added, 1", "enumerator LAST: 1 -> 2"]
    assert [re.sub(r"^(.*): \w+ -> [\w ]+, ", r"\1: ", line) for line in lines["struct point"] if line.startswith("member")] == [
        "member x: 4 -> 8 bytes, at byte 0", "member y: 4 -> 8 bytes, byte 4 -> 8"], lines
    assert [line for line in lines["struct box"] if line.startswith("member")] == [
        "member low: struct point, 8 -> 16 bytes, at byte 0", "member high: struct point, 8 -> 16 bytes, byte 8 -> 16",
        "member name: char, 1 byte, byte 16 -> 32"], lines


def test_names_are_merged_in_the_order_of_both() -> None:
    assert merged(["a", "b", "c"], ["x", "a", "c", "y", "z"]) == ["x", "a", "b", "c", "y", "z"]
    assert merged([], ["a", "b"]) == ["a", "b"] and merged(["a"], []) == ["a"]


def test_a_function_has_the_line_of_its_header_where_a_caller_has_it(tmp_path: Path) -> None:
    """gcc writes entries for the declarations of functions that optimized code calls."""
    (tmp_path / "take.h").write_text("\nint take(int *number, int more);\nint give(int, int);\n")
    (tmp_path / "take.c").write_text('#include "take.h"\nint take(int *number, int more) { return *number + more; }\n'
                                     "int give(int a, int b) { return a + b; }\n")
    (tmp_path / "call.c").write_text('#include "take.h"\nint call(int a, int b);\nint call(int a, int b) { return take(&b, a) + 1; }\n')
    done("gcc", "-shared", "-fPIC", "-O2", "-g", "-o", "library.so", "take.c", "call.c", folder=tmp_path)
    records = Records(Entries(tmp_path / "library.so"))
    functions = {name: records.export(name) for name in ("take", "give")}
    places = {name: records.place(entry) for name, entry in functions.items() if entry is not None}
    assert {name: (Path(place.file).name, place.line, place.is_definition) for name, place in places.items() if place is not None} == {
        "take": ("take.h", 2, False), "give": ("take.c", 3, True)}


def test_places_say_which_source_they_are_of(project: Project) -> None:
    old = project.build("old")
    header = HEADER.replace("    unsigned avail", "    long added;\n    unsigned avail").replace("    struct limits limits;\n", "")
    text = report(old, project.build("new", f"\n{header}")).out
    assert "struct stream  include/stream.h:5, now include/stream.h:6" in text
    assert "at byte 8  include/stream.h:8 (new)" in text and "at byte 12  include/stream.h:8 (old)" in text, text


def test_sonames_and_rules_stand_at_the_head(project: Project) -> None:
    old, new = changed(project)
    lines = report(old, new).out.splitlines()
    assert lines[2] == "Both have the soname libstream.so.1: programs that were built with the old library load the new one."
    assert lines[3].startswith("Broken rules: X2 export gone, L2 size changed")
    named = old.with_name("named.so")
    done("gcc", "-shared", "-fPIC", "-g", "-Wl,-soname,libstream.so.2", "-Iinclude", "-o", named, "src/stream.c", folder=old.with_suffix(""))
    assert "The old library has the soname libstream.so.1 and the new one the soname libstream.so.2" in report(old, named).out


# For some edits, a line of the report without its places.
_LINES = {
    "a member takes the place of reserved ones":
        "  L7 L2 L11 member reserved: long int [4] -> long int [3], 32 -> 24 bytes, 4 -> 3 elements, byte 8 -> 16",
    "an enumerator is removed": "  L9      enumerator B: gone",
    "a structure that was declared is defined without a tag": "  L5      tag: s -> none",
    "a bit field of a later storage unit is widened": "  L8      member third: long long int, 7 -> 9 bits wide, at bit 94",
    "a structure inside a structure grows": "          member i: struct in, 4 -> 8 bytes, at byte 0",
    "two parameters change places": "  L14     param 1: rdi -> xmm0",
    "a version is removed": "  X3      f@V1: this version of the symbol is gone; perhaps now f@@V2",
}


def test_lines_of_edits(tmp_path: Path) -> None:
    chosen = [edit for edit in edits() if edit.name in _LINES]
    assert len(chosen) == len(_LINES)
    for number, edit in enumerate(chosen):
        lines = report(*edit.build(tmp_path / str(number))).out.splitlines()
        wanted = _LINES[edit.name]
        assert any(line == wanted or line.startswith(f"{wanted}  ") for line in lines), (edit.name, lines)


@pytest.mark.parametrize("edit", [edit for edit in edits() if edit.is_no], ids=lambda edit: re.sub(r"\W+", "_", edit.name))
def test_documents_of_edits_agree_with_the_text_report_row_by_row(edit: Edit, tmp_path: Path) -> None:
    old, new = edit.build(tmp_path / "edit")
    rows = abi("check", old, new).out.splitlines()[1:]
    found = document(old, new)
    assert [row_of(one) for one in found["breaks"]] == rows
    named = [number for block in blocks_of(found) for number in block]
    assert sorted(named) == list(range(len(rows))), (rows, found["report"])
    text = report(old, new).out
    records = Records(Entries(old))
    for one in found["breaks"]:
        assert re.search(rf"^  [XL0-9 ]*\b{one['rule']}\b", text, re.MULTILINE), (one, text)
        assert is_found(records, one), one


def is_found(records: Records, one: dict[str, Any]) -> bool:
    """Whether a search from the export of a break finds its structure or union, in as few steps."""
    export, wanted = records.export(one["export"]), records.record(one["old_entry"])
    if export is None or wanted is None:
        return True
    found = (len(steps) for entry, steps in reached(records, export, 1000)
             if entry.offset == wanted.offset or (entry.tag, entry.name) == (wanted.tag, wanted.name))
    return next(found, len(one["steps"]) + 1) <= len(one["steps"])


def row_of(one: dict[str, str]) -> str:
    """The row of a break in the text report."""
    path = f" {one['path']}" if one["path"] else ""
    return f"{one['rule']} {one['export']}{path}: {one['detail']}"


def blocks_of(found: dict[str, object]) -> list[list[int]]:
    """The numbers of the breaks in each block of a document."""
    told = found["report"]
    assert isinstance(told, dict)
    blocks = [[number for change in block["changes"] for number in change["breaks"]] for block in told["types"] + told["exports"]]
    return blocks + [one["breaks"] for one in told["gone"]]

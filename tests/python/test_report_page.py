"""The page of `abi-report`: one file, escaped text from libraries, a structure that people and screen readers can follow, many rows."""

from __future__ import annotations

import re
from html.parser import HTMLParser
from pathlib import Path

import pytest

from conftest import done
from report_support import HEADER, SOURCE, Project, document, report, stand_in

# Two breaks for each structure.
_STRUCTURES = 2500
_BEHIND = 1_000_000
_MARKUP = "<img src=x onerror=alert(1)>"
# A tag of the same length, which the markup replaces.
_TAG = "t" * len(_MARKUP)


class Tags(HTMLParser):
    """The elements of a page, with their attributes, and the text outside of styles and scripts."""

    def __init__(self, page: str) -> None:
        super().__init__(convert_charrefs=True)
        self.found: list[tuple[str, dict[str, str | None]]] = []
        self._pieces: list[str] = []
        self._within = ""
        self.feed(page)
        self.text = "".join(self._pieces)

    def handle_starttag(self, tag: str, attrs: list[tuple[str, str | None]]) -> None:
        """Keeps an element."""
        self.found.append((tag, dict(attrs)))
        self._within = tag

    def handle_endtag(self, tag: str) -> None:
        """Notes the end of an element."""
        self._within = ""

    def handle_data(self, data: str) -> None:
        """Keeps text."""
        if self._within not in ("style", "script"):
            self._pieces.append(data)

    def having(self, tag: str, **attributes: str) -> list[dict[str, str | None]]:
        """The elements with this tag and these attributes; `of` stands for `class`."""
        wanted = {name.replace("of", "class"): value for name, value in attributes.items()}
        return [found for name, found in self.found if name == tag and wanted.items() <= found.items()]


def page_of(*arguments: object, folder: Path | None = None, status: int = 1) -> str:
    """The page that the tool prints."""
    ended = report("--format", "html", *arguments, folder=folder)
    assert ended.status == status, ended
    return ended.out


@pytest.fixture
def project(tmp_path: Path) -> Project:
    """A project in a folder of its own."""
    return Project(tmp_path)


def test_the_page_says_the_answer_and_which_line_to_look_at(project: Project) -> None:
    old = project.build("old")
    new = project.build("new", HEADER.replace("unsigned avail", "unsigned long avail"), SOURCE.replace("old_name", "old_name2"))
    page = Tags(page_of(old, new))
    assert page.found[0][0] == "html" and page.having("html", lang="en")
    assert len(page.having("h1")) == 1
    assert "struct stream" in page.text and "stream.h:7" in page.text
    assert "old_name2" in page.text
    assert [found for tag, found in page.found if tag == "title"] and "may not replace" in page.text
    assert f"Files are below {old.with_suffix('')} ({old}) and {new.with_suffix('')} ({new})." in page.text
    assert "Broken rules: X2 export gone L2 size changed L7 member moved" in page.text
    assert "Both have the soname libstream.so.1" in page.text


def test_a_yes_and_what_cannot_be_told_have_pages(project: Project) -> None:
    old = project.build("old")
    bare = project.build("bare", HEADER, SOURCE, "-g0")
    assert "may replace" in Tags(page_of(old, old, status=0)).text
    assert "are gone" in Tags(page_of(old, bare, status=2)).text


def test_the_page_needs_no_other_file(project: Project) -> None:
    old = project.build("old")
    new = project.build("new", HEADER.replace("unsigned avail", "unsigned long avail"))
    page = page_of(old, new)
    assert "://" not in page
    tags = Tags(page)
    assert not any(found.keys() & {"src", "srcset", "data", "poster"} for _, found in tags.found)
    assert not tags.having("link") and not tags.having("iframe")
    assert all((found.get("href") or "#").startswith("#") for _, found in tags.found)
    (policy,) = tags.having("meta", **{"http-equiv": "Content-Security-Policy"})
    assert (policy["content"] or "").startswith("default-src 'none'")


def test_keyboards_and_screen_readers_find_their_way(project: Project) -> None:
    old = project.build("old")
    new = project.build("new", HEADER.replace("unsigned avail", "unsigned long avail"), SOURCE.replace("old_name", "old_name2"))
    tags = Tags(page_of(old, new))
    levels = [int(tag[1]) for tag, _ in tags.found if re.fullmatch("h[1-6]", tag)]
    assert all(after <= before + 1 for before, after in zip(levels, levels[1:])), levels
    names = {found.get("id") for _, found in tags.found}
    assert tags.having("label", **{"for": "filter"}) and "filter" in names
    assert {found["aria-labelledby"] for tag, found in tags.found if "aria-labelledby" in found} <= names
    assert all(found.get("scope") for found in tags.having("th")), tags.having("th")
    assert tags.having("span", role="status") and tags.having("a", of="skip", href="#main") and "main" in names
    assert len(names) - (None in names) == len([1 for _, found in tags.found if "id" in found])
    opened = [tag for tag, _ in tags.found].count("details")
    assert opened == [tag for tag, _ in tags.found].count("summary") > 0


def test_texts_of_libraries_are_escaped(tmp_path: Path) -> None:
    home = tmp_path / "<b>home"
    home.mkdir()
    for name, kind in (("old", "int"), ("new", "long")):
        (home / f"{name}.c").write_text(f'# 7 "{home}/<script>alert(2).h"\nstruct {_TAG} {{ {kind} a; }};\n'
                                        f'# 1 "<i>.c"\nint f(struct {_TAG} *s) {{ return s->a; }}\n')
        assembly = done("gcc", "-g", "-S", "-fPIC", "-o", "-", home / f"{name}.c")
        assert f'"{_TAG}"' in assembly
        (home / f"{name}.s").write_text(assembly.replace(_TAG, _MARKUP))
        done("gcc", "-shared", "-nostdlib", f"-Wl,-soname,<u>{name[0]}", "-o", home / f"{name}.so", home / f"{name}.s")
    page = page_of(Path(home.name, "old.so"), Path(home.name, "new.so"), folder=tmp_path)
    tags = Tags(page)
    assert not {tag for tag, _ in tags.found} & {"img", "b", "i", "u"}
    assert len(tags.having("script")) == 1
    assert "<b>home/new.so" in tags.text and "<u>o" in tags.text and f"struct {_MARKUP}" in tags.text
    assert "<script>alert(2).h:7" in tags.text


def test_the_page_is_the_same_each_time(project: Project) -> None:
    old = project.build("old")
    new = project.build("new", HEADER.replace("unsigned avail", "unsigned long avail"))
    assert page_of(old, new) == page_of(old, new)


def test_parts_of_bars_stand_where_the_bytes_are(project: Project) -> None:
    old = project.build("old")
    page = page_of(old, project.build("new", HEADER.replace("int low, high", "long low, high")))
    bars = re.findall(r'<div class="bar" style="width:([0-9.]+)%">(.*?)</div>', page)
    assert [float(width) for width, _ in bars] == [50, 100, 80, 100], bars
    cells = [[(name, float(left)) for left, name in re.findall(r"left:([0-9.]+)%;width:[0-9.]+%\">(\w*)", cells)] for _, cells in bars[2:]]
    assert cells == [[("next", 0), ("avail", 25), ("limits", 37.5), ("", 62.5), ("state", 75)],
                     [("next", 0), ("avail", 20), ("", 30), ("limits", 40), ("state", 80)]]


def test_each_export_has_its_way_to_the_type(project: Project, monkeypatch: pytest.MonkeyPatch) -> None:
    """The document has one way. The tool searches for the others, for the first eight exports; it only names the later ones."""
    old = project.build("old")
    new = project.build("new", HEADER.replace("unsigned avail;", "unsigned avail; long more;"))
    made = document(old, new)
    (row,) = {f"as {one['export']} {one['path']}" for one in made["breaks"] if one["rule"] == "L2" and one["path"].endswith("target")}
    others = [name for name in ("deflate", "inflate", "state_new") if name != row.split()[1]] + [f"f{k}" for k in range(9)]
    notes = [{"kind": "affected export", "export": name, "path": row, "was": None, "is": None} for name in others]
    stand_in(project, monkeypatch, breaks=made["breaks"], places=made["places"], side_notes=notes)
    page = page_of(old, new)
    for name in ("deflate", "inflate", "state_new"):
        assert re.search(rf'The way from {name} to the type"><li><span class="code find">{name}</span><li><span class="code">param 1</span>'
                         r'<li><span class="code">target</span></ol>', page), name
    assert "12 exports:" in page and "<summary>and 4 others</summary>" in page
    assert "perhaps others" not in page


def test_boxes_name_what_made_them_change(project: Project) -> None:
    old = project.build("old")
    page = page_of(old, project.build("new", HEADER.replace("int low, high", "long low, high")))
    number = re.search(r'<article class="block" id="(block-\d+)" aria-labelledby="title-\d+">\n<div class="head"><h3 id="title-\d+">'
                       r'<code class="find">struct limits</code>', page)
    assert number is not None
    assert f'Because <a href="#{number[1]}"><code>struct limits</code></a> grew (include/stream.h:3).' in page
    assert page.index("struct limits</code></h3>") < page.index("struct stream</code></h3>")


def test_a_page_with_5000_rows(project: Project, monkeypatch: pytest.MonkeyPatch) -> None:
    """A stand-in for the program prints a document of that many breaks."""
    old = project.build("old")
    stand_in(project, monkeypatch, **many_breaks())
    page = page_of(old, old)
    assert page.count("<article") == _STRUCTURES
    assert set(re.findall(r"struct s(\d+)", page)) == {str(k) for k in range(_STRUCTURES)}
    assert set(re.findall(r"made\.h:(\d+)", page)) == {str(k + 1) for k in range(_STRUCTURES)}


def many_breaks() -> dict[str, object]:
    """A document with two breaks for each structure. Their entries have larger offsets than those of any library here."""
    rules = (("L2", "size", "size 16, now 24"), ("L4", "alignment", "alignment 4, now 8"))
    breaks = [{"rule": rule, "name": name, "export": f"use{k}", "steps": ["param 1", "target"], "path": "param 1 / target",
               "detail": detail, "part": None, "was": None, "is": None, "old_entry": _BEHIND + k, "new_entry": _BEHIND + k}
              for k in range(_STRUCTURES) for rule, name, detail in rules]
    side = {"types": {str(_BEHIND + k): f"struct s{k}" for k in range(_STRUCTURES)},
            "places": {str(_BEHIND + k): {"file": "made.h", "line": k + 1} for k in range(_STRUCTURES)}}
    both = {name: {"old": found, "new": found} for name, found in side.items()}
    return {"breaks": breaks, **both}

"""The manual pages, the completions and the usage text, which all come from one source."""

from __future__ import annotations

import os
import re
import shlex
from pathlib import Path

import pytest

from conftest import ROOT, TOOLS, abi, done, needs, run

from abi_manual.command import SHARE, made
from abi_manual.sources import read_manual
from abi_manual.tool_arguments import parser_of
from abi_tools.arguments import Arguments

_PAGES = ["man/man1/abi.1", "man/man1/abi-json.1"]
_COMPLETIONS = ["abi", "abi-json", *read_manual().tools]


def test_the_usage_text_is_that_of_the_program() -> None:
    ended = abi("--help")
    assert (ended.status, ended.out) == (0, read_manual().usage())


def test_the_files_are_those_that_are_made() -> None:
    for name, text in made().items():
        assert (SHARE / name).read_text() == text, f"run tools/make-manual: {name}"
    assert run(ROOT / "tools" / "make-manual", "--check").status == 0


def test_a_file_that_differs_is_told(tmp_path: Path) -> None:
    done(ROOT / "tools" / "make-manual", tmp_path)
    page = tmp_path / _PAGES[0]
    page.write_text(page.read_text() + "more\n")
    ended = run(ROOT / "tools" / "make-manual", "--check", tmp_path)
    assert (ended.status, ended.out) == (1, f"{page} is not what tools/make-manual makes\n")


@pytest.mark.parametrize("page", [*_PAGES, *(f"man/man1/{name}.1" for name in read_manual().tools)])
def test_pages_are_shown_without_a_warning(page: str) -> None:
    needs("groff")
    ended = run("groff", "-man", "-Tutf8", "-ww", SHARE / page)
    assert (ended.status, ended.errors) == (0, "")
    for heading in ("NAME", "SYNOPSIS", "DESCRIPTION", "EXIT STATUS"):
        assert heading in re.sub(r"\x1b\[[0-9;]*m|.\x08", "", ended.out)


@pytest.mark.parametrize("page", _PAGES)
def test_pages_name_all_commands_and_statuses(page: str) -> None:
    text = (SHARE / page).read_text()
    manual = read_manual()
    assert all(f"\\fB{command.name}\\fR" in text or f" {command.name}\\fR" in text for command in manual.commands)
    assert all(f"\n\\fB{status['number']}\\fR\n" in text for status in manual.source["status"])


@pytest.mark.parametrize("name", read_manual().tools)
def test_pages_of_tools_name_all_options_and_statuses(name: str) -> None:
    text = (SHARE / f"man/man1/{name}.1").read_text().replace("\\-", "-")
    printed = done(TOOLS / name, "--help")
    options = set(re.findall(r"^  (?:-h, )?(--[a-z-]+)", printed, re.MULTILINE))
    statuses = set(re.findall(r"^  (\d+)  |(?<=[:;] )(\d+) ", printed[printed.index("Exit status"):], re.MULTILINE))
    assert "--help" in options and len(statuses) in (3, 4)
    assert all(re.search(rf"^\\fB(-h, )?{option}\b", text, re.MULTILINE) for option in options)
    assert all(f"\n\\fB{first or second}\\fR\n" in text for first, second in statuses)


_MODULES = {name: tool["module"] for name, tool in read_manual().tools.items()}
_MODULES |= {"make-packages": "abi_packaging.command", "make-manual": "abi_manual.command"}


@pytest.mark.parametrize("name", _MODULES)
def test_help_keeps_to_the_width(name: str, monkeypatch: pytest.MonkeyPatch) -> None:
    for columns in (64, 80, 132):
        monkeypatch.setenv("COLUMNS", str(columns))
        printed = parser_of(_MODULES[name]).format_help()
        assert printed.startswith(f"usage: {name} ") and max(map(len, printed.splitlines())) < columns


@pytest.mark.parametrize("name", sorted(_MODULES))
def test_help_describes_each_argument(name: str) -> None:
    assert all(action.help for action in parser_of(_MODULES[name])._actions)


def test_help_fills_paragraphs_and_lists() -> None:
    parser = Arguments("tool", "One sentence\nin two lines.", "After it:\n  0   yes: one two\n      three\n  64  wrong\n")
    with pytest.MonkeyPatch.context() as patch:
        patch.setenv("COLUMNS", "18")
        printed = parser.format_help()
    assert "\n\nOne sentence in\ntwo lines.\n\n" in printed
    assert printed.endswith("\n\nAfter it:\n  0   yes: one\n      two three\n  64  wrong\n")


def test_the_page_of_abi_says_what_to_do_about_each_rule() -> None:
    """The words are those of the guide."""
    text = (SHARE / _PAGES[0]).read_text()
    words = [f"{kind}{number}" for kind, last in (("X", 6), ("L", 14)) for number in range(1, last + 1)]
    assert re.findall(r"\n\.TP\n\\fB([XL]\d+)\\fR \S", text) == words
    assert "allocates too little" in text and "Keep the soname, or ship both libraries." in text


# What each tool reads, by itself or by a program or library that it runs.
_VARIABLES = {
    "abi-report": {"ABI", "ABI_JSON"}, "abi-gate": {"ABI", "ABI_JSON", "ABI_NOTES"},
    "abi-packages": {"ABI", "ABI_NOTES", "DEBUGINFOD_URLS", "TMPDIR"}, "abi-release": {"ABI", "ABI_JSON", "TMPDIR"},
    "abi-history": {"ABI", "TMPDIR"}, "abi-baseline": set(), "join-debug": set()}


def test_pages_name_the_variables_that_programs_read() -> None:
    sources = {"abi": ROOT / "crates/abi_cli/src", "abi-json": ROOT / "crates/abi_json/src"}
    for program, folder in sources.items():
        read = {name for path in folder.glob("*.rt") for name in re.findall(r'"(ABI_[A-Z]+)"', path.read_text())}
        page = (SHARE / f"man/man1/{program}.1").read_text()
        assert read and read == set(re.findall(r"\n\\fB(ABI_[A-Z]+)\\fR\n", page[page.index(".SH ENVIRONMENT"):])), program
    for name, variables in _VARIABLES.items():
        page = (SHARE / f"man/man1/{name}.1").read_text()
        assert variables == set(re.findall(r"\n\\fB([A-Z_]+)\\fR\n", page.partition(".SH ENVIRONMENT")[2])), name
    read = {name for path in TOOLS.glob("abi_[!mp]*/*.py") for name in re.findall(r'environ\.get\("(\w+)"', path.read_text())}
    assert read <= set().union(*_VARIABLES.values()) and len(read) > 2


def test_files_that_pages_name_are_installed() -> None:
    """Below share/doc/abi, where abi(1) says that they are."""
    pages = {path.name: path.read_text().replace("\\-", "-") for path in (SHARE / "man/man1").iterdir()}
    assert "share/doc/abi," in pages["abi.1"].partition(".SH FILES")[2]
    named = {name for text in pages.values() for name in re.findall(r"\bdocs/[\w./]+\w", text)}
    assert {"docs/manual/LIMITS.md", "docs/gate.schema.json", "docs/report.schema.json"} <= named
    assert all((ROOT / name).is_file() for name in named), named


def test_examples_of_tools_have_options_that_the_tools_have() -> None:
    examples = [line for tool in read_manual().tools.values() for one in tool.get("example", ()) for line in one["line"].splitlines()]
    assert {line.split()[0] for line in examples} >= {"abi-report", "abi-gate", "abi-packages", "abi-baseline", "join-debug"}
    for name, *words in map(shlex.split, examples):
        if name in _MODULES:
            options = parser_of(_MODULES[name])._option_string_actions
            assert {word for word in words if word.startswith("-") and word != "--"} <= set(options), (name, words)
        text = "".join((SHARE / f"man/man1/{tool}.1").read_text() for tool in read_manual().tools).replace("\\-", "-")
        assert f"{name} {words[0]}" in text


def test_pages_of_the_programs_name_each_other_page() -> None:
    """That of dh_abi comes with a package of its own."""
    names = {path.name.removesuffix(".1") for path in (SHARE / "man/man1").iterdir()} | {"dh_abi"}
    for program in ("abi", "abi-json"):
        text = (SHARE / f"man/man1/{program}.1").read_text().replace("\\-", "-")
        assert names - {program} <= set(re.findall(r"^\.BR (\S+) \(1\)", text[text.index(".SH SEE ALSO"):], re.MULTILINE))


def completed(program: str, *words: str) -> list[str]:
    """The completions that bash offers for the last of some words."""
    script = f"""
        . {SHARE}/bash-completion/completions/{program}
        COMP_WORDS=({' '.join(f"'{word}'" for word in (program, *words))})
        COMP_CWORD={len(words)}
        _{program.replace('-', '_')}
        printf '%s\\n' "${{COMPREPLY[@]}}"
    """
    return sorted(done("bash", "-c", script).split())


def test_completion() -> None:
    commands = sorted(command.name for command in read_manual().commands)
    assert completed("abi", "") == sorted([*commands, "--help", "--version"])
    assert completed("abi", "ve") == ["verify"]
    assert completed("abi", "check", "-") == ["--report", "--rules"]
    assert completed("abi", "check", "--report", "t") == ["table", "text"]
    assert completed("abi", "check", "--report", "=", "c") == ["counts"]
    assert completed("abi", "check", "--report", "=") == ["counts", "first", "own", "table", "text"]
    assert completed("abi", "check", "--rules", "") == []
    assert completed("abi", "verify", "--re") == []
    assert completed("abi", "layout", "-") == []
    assert completed("abi-json", "app", "-") == ["--rules"]


@pytest.mark.parametrize("name", read_manual().tools)
def test_completion_of_tools_offers_what_help_lists(name: str) -> None:
    printed = parser_of(_MODULES[name]).format_help()
    options = re.findall(r"^  (?:-\w, )?(--[a-z-]+)", printed, re.MULTILINE)
    assert completed(name, "-") == sorted(options)


def test_completion_of_values(tmp_path: Path) -> None:
    (tmp_path / "folder").mkdir()
    (tmp_path / "file").write_text("")
    assert completed("abi-report", "--format", "") == ["html", "json", "text"]
    assert completed("abi-report", "--format", "=", "h") == ["html"]
    assert completed("abi-report", "--headers", f"{tmp_path}/f") == [f"{tmp_path}/folder"]
    assert completed("abi-gate", "--rules", f"{tmp_path}/f") == []
    assert completed("abi-packages", "--only", "n") == ["new", "no"]
    assert completed("join-debug", "--root", f"{tmp_path}/") == [f"{tmp_path}/folder"]


@pytest.mark.parametrize("program", _COMPLETIONS)
def test_completions_are_scripts(program: str) -> None:
    done("bash", "-n", SHARE / "bash-completion" / "completions" / program)


_TOOLCHAIN = """#!/bin/sh
if [ "$1" = doc ]; then echo "$(dirname "$0")/START-HERE.md"; exit 0; fi
for crate in abi_cli abi_json; do
    echo "== $crate"
    [ -z "$RESULT" ] || { echo "rt: $crate failed"; exit 1; }
    mkdir -p "crates/$crate/out"
    printf '#include <stdio.h>\\nint library(void);\\nint main(void) { puts("%s"); return library(); }\\n' "$crate" >"crates/$crate/out/$crate.c"
    gcc -fPIE -c -o "crates/$crate/out/$crate.o" "crates/$crate/out/$crate.c"
    gcc -o "crates/$crate/out/$crate" "crates/$crate/out/$crate.o" "$(dirname "$0")"/c/*.a
done
"""


@pytest.fixture
def sources(tmp_path: Path, monkeypatch: pytest.MonkeyPatch) -> Path:
    """A copy of what install.sh reads, and on the PATH a stand-in for the toolchain: it says that everything is proved, and builds
    programs that end with status 64, which a function of the kit's archives returns."""
    needs("gcc", "ar")
    for name in ("install.sh", "crates.txt", "HANDLES", "tools", "share", "docs", "examples", "README.md", "CHANGELOG.md", "LICENSE"):
        done("cp", "-r", ROOT / name, tmp_path / name)
    for crate in re.findall(r"^(\w+):", (ROOT / "crates.txt").read_text(), re.MULTILINE):
        (tmp_path / "crates" / crate / "src").mkdir(parents=True)
    kit = tmp_path / "kit"
    (kit / "c").mkdir(parents=True)
    (kit / "rt").write_text(_TOOLCHAIN)
    (kit / "rt").chmod(0o755)
    for name, text in (("libos_c", "int library(void) { return 64; }"), ("liblibc_c", "int nothing(void) { return 0; }")):
        (kit / "c" / f"{name}.c").write_text(text)
        done("gcc", "-c", "-o", kit / "c" / f"{name}.o", kit / "c" / f"{name}.c")
        done("ar", "rc", kit / "c" / f"{name}.a", kit / "c" / f"{name}.o")
    monkeypatch.setenv("PATH", f"{kit}:{os.environ['PATH']}")
    return tmp_path


def test_install_puts_everything_in_place(sources: Path) -> None:
    prefix = sources / "prefix"
    failed = run("env", "RESULT=refused", sources / "install.sh", prefix)
    assert failed.status == 1 and "nothing is installed" in failed.errors and not prefix.exists(), failed
    for _ in range(2):
        done(sources / "install.sh", prefix)
    for name, crate in (("abi", "abi_cli"), ("abi-json", "abi_json")):
        ended = run(prefix / "bin" / name)
        assert (ended.status, ended.out) == (64, f"{crate}\n")
    ended = run(prefix / "bin/abi-baseline", "--help")
    assert ended.status == 0 and ended.out.startswith("usage: abi-baseline"), ended
    assert {path.name for path in (prefix / "bin").iterdir()} == {"abi", "abi-json", *read_manual().tools}
    assert all((prefix / "bin" / name).resolve() == prefix / "lib/abi/tools" / name for name in read_manual().tools)
    for name, text in made().items():
        assert (prefix / "share" / name).read_text() == text
    assert (prefix / "lib/rpm/macros.d/macros.abi").read_bytes() == (TOOLS / "rpm/macros.abi").read_bytes()
    assert list(prefix.rglob("__pycache__")) == []


def test_installed_pages_lead_to_each_other(sources: Path) -> None:
    """So do the schemas and recipes that they name. Links into the sources of the programs and their measurements lead nowhere."""
    prefix = sources / "prefix"
    done(sources / "install.sh", prefix)
    folder = prefix / "share/doc/abi"
    assert (folder / "LICENSE").read_bytes() == (ROOT / "LICENSE").read_bytes()
    assert {path.name for path in (ROOT / "docs").iterdir()} == {path.name for path in (folder / "docs").iterdir()}
    assert os.access(folder / "examples/debian/debian/rules", os.X_OK) and not os.access(folder / "README.md", os.X_OK)
    links = [page.parent / link for page in folder.rglob("*.md") for link in re.findall(r"\]\(([^)#:]+)(?:#[^)]*)?\)", page.read_text())]
    sought = [Path(os.path.normpath(link)) for link in links]
    left = ("bench", "crates", "tests", "edits", "tools", "CONTRIBUTING.md", "crates.txt")
    assert len(sought) > 50
    assert {str(link.relative_to(folder)) for link in sought if not link.exists() and link.relative_to(folder).parts[0] not in left} == set()


def test_install_into_a_folder_of_packagers_and_statically(sources: Path) -> None:
    needs("readelf")
    staged = sources / "staged"
    done("env", f"DESTDIR={staged}", sources / "install.sh", "--static", "/usr")
    assert [path.name for path in staged.iterdir()] == ["usr"]
    program = staged / "usr/bin/abi"
    ended = run(program)
    assert (ended.status, ended.out) == (64, "abi_cli\n")
    assert "(NEEDED)" not in done("readelf", "--wide", "--dynamic", program)
    assert "INTERP" not in done("readelf", "--wide", "--program-headers", program)
    before = program.read_bytes()
    done("env", f"DESTDIR={staged}", sources / "install.sh", "--static", "/usr")
    assert program.read_bytes() == before


@pytest.mark.parametrize("words", (["--statically"], ["a", "b"], ["--static", "-x"]))
def test_wrong_arguments_install_nothing(words: list[str]) -> None:
    ended = run(ROOT / "install.sh", *words)
    assert ended.status == 64 and ended.errors.startswith("usage: ./install.sh")

"""The text of docs/INDEX.md: where each rule, fault, limit, status, note, option, sentence, promise, crate, script and table is."""

from __future__ import annotations

import re
from itertools import chain
from pathlib import Path
from typing import Iterable, Iterator

from .linked import EVIDENCE, all_at, at, link, path_of, short, short_at, without_links
from .markdown import DOCS, Section, anchor_of, anchors, sections, tables
from .sentences import of_fault, rows_of_sentences
from .sources import clauses, faults, kinds_of_notes, limits, longest_crate, options, rules, scripts, variables
from .words import (ARCHITECTURE, CONTRACTS, CONTRIBUTING, DECISIONS, FAQ, GAPS, GUIDE, LIMITS, MANUAL, PACKAGES, PROGRAMS, PROOFS, QUESTIONS,
                    README, RELEASES, REPORTS, RULE_FILES, SPECIFICATION)

INDEX = DOCS / "INDEX.md"
# The pages for users, in the order in which a word of theirs is looked for.
_FOR_USERS = [GUIDE, PACKAGES, *MANUAL, RULE_FILES, FAQ, README, SPECIFICATION]
_PAGES = [README, GUIDE, *MANUAL, PACKAGES, RULE_FILES, FAQ, SPECIFICATION, DECISIONS, PROOFS, ARCHITECTURE, CONTRIBUTING, *EVIDENCE]
# Where rules on what is gone, on two exports, and on types are defined and checked.
_GONE = ("pair_compare/specs/reports/ExportRows.antt", "pair_compare/src/reports/exports.rt")
_EXPORTS = ("pair_rules/specs/ExportRules.antt", "pair_rules/src/exports.rt")
_TYPES = ("pair_rules/specs/TypeRules.antt", "pair_rules/src/rules.rt")
_FILES_OF_RULES = {"X1": _GONE, "X2": _GONE, "X3": _GONE, "X4": _EXPORTS, "X5": _EXPORTS, "X6": _EXPORTS}
# Pages that scripts make, with a section for each crate.
_MADE = {"AUDIT", "CONTRACTS"}
# The head of the table of limits with a fault of their own.
_WITH_FAULTS = ["What", "Limit", "Fault", "In the code"]
# Tables whose rows have lines of their own in the index, by the heads of their first columns.
_IN_LINES = {"What is counted / Words / Limit", " / ".join(_WITH_FAULTS), "Property / Read / Difference", "Crate / What it is for / Uses",
             "Word / What it means / File", "Rule / Broken if / Detail", "Promise / Clause", "What holds / Call", "Promise / Call and clause",
             "No / Name / Exactly where / AT", "Fault / Where"}

_HEAD = """\
# Index

Where is what? Search this page for a word, a number or a name, whatever its case (`less -i`), and follow the link in its \
line. Two dots stand for words that are left out. \
Each tool also has a manual page, such as `man abi-gate`. `tests/links.sh --write` makes this page from the other pages and \
from the sources.

"""
_LIMIT_SENTENCE = "Past a limit the sentence is `abi: past the limit on WORDS (LIMITS in abi(1))`, with status 4; with a fault, status 2. " \
    "Some limits share their words: what stands in brackets tells them apart, and is not printed. Those called `Limit` " \
    "are in `crates/abi_base/src/limit.rt`.\n\n"
# The commands that print a refusal, from their least number on.
_REFUSING = {70: "`verify`, `migrate`, `compose`", 81: "`compose`", 85: "`layout`"}
# What a status of `abi` means, if its name does not say it.
_OF_STATUS = {"5": " (a certificate; of `layout`, that no structure has the tag)"}
# What variables and options are set to.
_SET_TO = {"ABI_NOTES": " (1: notes; any other value: as none; off on a terminal: `2>FILE`)"}
# What a line of a tool says of a library.
_ANSWERS = "`no`, `gone`, `cannot tell`, `yes`, `new` or `left out`"
_STATUSES = """\
| Of | Status or answer | Where |
|---|---|---|
{rows}| `abi`, `abi-json` | all of these in short | {short} |
| `abi-gate` | 0 yes, 1 no, 2 `cannot tell`, 64; of several libraries a line is {answers} | {gate}, {several} |
| `abi-packages` | 0 yes, 1 no, 2 `cannot tell`, 64; a line is {answers} | {packages}, {lines} |
| `abi-release` | 0 yes, 1 no, 2 `cannot tell`, 64; an answer is yes, no, `gone`, `new` or `cannot tell` | {release} |
| `abi-history` | 0 yes, 1 no, 2 `cannot tell`, 64 | {history} |
| `abi-report` | 0 yes, 1 no, 2 `cannot tell`, 64 | {report} |
| `abi-baseline`, `join-debug` | 0 done, 2 not, 64 | {tools} |
| `dh_abi` | the build stops on no and on `cannot tell` | {debhelper} |
| `make` with a gate | 2 on no and on `cannot tell` | {build} |
"""


def table(*head: str, rows: Iterable[tuple[str, ...]]) -> str:
    """A table."""
    lines = [f"| {' | '.join(cells)} |" for cells in rows]
    return "\n".join([f"| {' | '.join(head)} |", "|---" * len(head) + "|", *lines]) + "\n"


def where_option(option: str) -> list[Section]:
    """Up to two sections on an option: those in which it begins a row of a table or a point, or else those that name it."""
    named = re.compile(rf"{re.escape(option)}(?![\w-])")
    first = re.compile(rf"^(?:\| *|- \*\*|\*\*)`{re.escape(option)}(?![\w-])", re.MULTILINE)
    found = [section for page in _FOR_USERS for section in sections(page) if named.search(section.text)]
    return sorted(found, key=lambda section: not first.search(section.text))[:2]


def when_broken(rule: str) -> str:
    """When SPECIFICATION says that a rule is broken, if it does so in its table or beside the row of a report."""
    (verdict,) = [section for section in sections(SPECIFICATION) if section.title == "The verdict"]
    (of_types,) = [section for section in sections(SPECIFICATION) if section.title == "The rules of types"]
    in_table = [row[1] for rows in tables(of_types.text) for row in rows if row[0] == rule]
    beside = re.findall(rf"^ *- `{rule} [^`]*` if ([^,;]*)", verdict.text, re.MULTILINE)
    return "".join(": " + re.sub(r"^it\b", "an old export", words) for words in in_table + beside)


def rows_of_rules() -> Iterator[tuple[str, ...]]:
    """A row for each rule."""
    for rule in rules():
        exact = "the-verdict" if rule.word.startswith("X") else "the-rules-of-types"
        pages = f"[what to do](GUIDE.md#what-to-do-about-a-break), [exactly](SPECIFICATION.md#{exact})"
        yield rule.word, rule.words + when_broken(rule.word), pages, f"`{rule.name}`"


def files_of_rules() -> str:
    """Where the rules are defined and checked."""
    files = dict[tuple[str, str], list[str]]()
    for rule in rules():
        files.setdefault(_FILES_OF_RULES.get(rule.word, _TYPES), []).append(rule.word)
    said = [f"{of[0]} to {of[-1]} in " + " and ".join(f"`crates/{path}`" for path in paths) for paths, of in files.items()]
    return f"\nThe rules are defined and checked in the code: {'; '.join(said)}.\n"


def kind_of(number: int) -> str:
    """The word that is printed before the number of a fault or a refusal."""
    return "fault" if number < 70 else "refused"


def rows_of_faults() -> Iterator[tuple[str, ...]]:
    """A row for each fault and each refusal of a certificate."""
    for fault in faults():
        number = int(fault.word)
        by = [commands for least, commands in _REFUSING.items() if least <= number][-1:]
        yield f"{kind_of(number)} {number} {fault.name}", fault.words + "".join(f" ({one})" for one in by), short(of_fault(fault))


def numbers_of_no_fault() -> str:
    """The numbers below the last one that neither a fault nor a refusal has, each by itself, so that a search finds it."""
    known = {int(fault.word) for fault in faults()}
    return ", ".join(f"{kind_of(number)} {number}" for number in range(1, max(known)) if number not in known)


def rows_of_limits() -> Iterator[tuple[str, ...]]:
    """A row for each limit, with how much it allows. No two of them begin alike."""
    begun = set[str]()
    for limit in limits():
        ((section, allowed),) = [(section, row[2]) for section in sections(LIMITS) for rows in tables(section.text) for row in rows
                                 if row[:2] == [limit.words, limit.word]]
        if limit.word in begun:
            raise ValueError(f"two limits begin with {limit.word}")
        begun.add(limit.word)
        yield limit.word, limit.words, allowed, short(section), f"`{limit.name}`"
    numbered = {fault.word: fault for fault in faults()}
    for section in sections(LIMITS):
        for row in chain.from_iterable(rows[1:] for rows in tables(section.text) if rows[0] == _WITH_FAULTS):
            yield f"fault {row[2]} {numbered[row[2]].name}", row[0], row[1], short(section), row[3]


def others_of_limits() -> str:
    """What the page on limits says below the table of those with a fault of their own, and where the limits of the tools are."""
    (text,) = [section.text for section in sections(LIMITS) if section.title == "Limits with a fault of their own"]
    (found,) = re.findall(r"`abi trial` makes at most .*", text)
    return f"\n{found} Limits of the tools: {at(PACKAGES, 'Limits')}, {at(RELEASES, 'Limits')}.\n"


def rows_of_notes() -> Iterator[tuple[str, ...]]:
    """A row for each kind of note."""
    told, breaking = short_at(GUIDE, "What no rule judges"), short_at(GUIDE, "Notes on what can break callers")
    gaps = short_at(GAPS, "What abi does not see")
    more = {"idle section": short_at(RULE_FILES, "Sections that match nothing"), "qualifiers": gaps, "object qualifiers": gaps}
    examples = {"qualifiers": ", such as `const`", "object qualifiers": ": an object that became `const` or `volatile`, or no longer is",
                "no return": " (`noreturn`)"}
    for kind, can_break in kinds_of_notes():
        places = [breaking if can_break else told, *([more[kind.word]] if kind.word in more else [])]
        about = kind.words + examples.get(kind.word, "")
        yield f"`{kind.word}`", about, "can break callers" if can_break else "only told", ", ".join(places)


def rows_of_programs() -> Iterator[tuple[str, ...]]:
    """A row for each program, tool, format and style of reports."""
    for words, places in PROGRAMS.items():
        yield words, all_at(places)
    (reports,) = [section for section in sections(SPECIFICATION) if section.title == "Reports"]
    styles = re.findall(r"^- `(\w+)`: (.*)\.$", reports.text, re.MULTILINE)
    first, *others = (f"`{name}`" for name, _ in styles)
    names = f"{first} (the default), {', '.join(others)}"
    yield f"styles of reports, for `--report STYLE`: {names}", f"{link(reports)}, {at(CONTRIBUTING, 'A style of reports')}"
    for name, words in styles:
        yield f"style `{name}` of reports: {words}", link(reports)


def rows_of_properties() -> Iterator[tuple[str, ...]]:
    """A row for each property of rule files."""
    found = dict[tuple[str, str], list[str]]()
    for section in sections(RULE_FILES):
        for row in chain.from_iterable(rows[1:] for rows in tables(section.text) if rows[0][:2] == ["Property", "Read"]):
            for name in re.findall(r"`(\w+)`", row[0]):
                found.setdefault((name, row[1]), []).append(short(section))
    for (name, read), places in sorted(found.items()):
        yield f"`{name}`", read, ", ".join(places)


def rows_of_options() -> Iterator[tuple[str, ...]]:
    """A row for each option and each variable of the programs and tools."""
    yield "`--help`, `--version`", "all programs and tools", at(README, "Commands")
    for name, tools in chain(options(), variables()):
        places = [link(section) for section in where_option(name)] or [f"`man {tools[0]}`"]
        yield f"`{name}`{_SET_TO.get(name, '')}", ", ".join(f"`{tool}`" for tool in tools), ", ".join(places)


def begin_of(text: str, most: int) -> str:
    """The first words of a text, without links and marks: up to the end of a clause if one of six words or more ends among them."""
    words = re.sub(r"[*`]", "", without_links(text)).split()
    if len(words) <= most:
        return " ".join(words).rstrip(".")
    ends = [number for number in range(6, most + 1) if words[number - 1][-1] in ",;:."]
    return " ".join(words[:ends[-1] if ends else most]).rstrip(",;:.") + " .."


def rows_of_clauses() -> str:
    """A row for the clauses of `run` whose first promise is the same, with its begin, below the section that has them all."""
    (section,) = [section for section in sections(PROOFS) if section.title == "The call that the program makes"]
    promises = [row for rows in tables(section.text) if rows[0][-1] == "Clause" for row in rows[1:]]
    found = dict[str, list[str]]()
    for label in clauses():
        first = next(row for row in promises if f"`{label}`" in row[-1])
        found.setdefault(begin_of(first[0], 31), []).append(f"`{label}`")
    rows = [(", ".join(labels), promise) for promise, labels in found.items()]
    return f"{link(section)} has them whole, and `crates/abi_top/src/top.rt` in code.\n\n{table('Clause', 'What it promises', rows=rows)}"


def rows_of_laws() -> Iterator[tuple[str, ...]]:
    """A row for each promise of PROOFS on other calls than `run`: the calls and laws, and the begin of the promise."""
    for section in sections(PROOFS):
        for rows in tables(section.text):
            for row in rows[1:] if rows[0][-1] in ("Clause", "Call", "Call and clause") and section.title != "Limits" else []:
                names = [name for name in re.findall(r"`([^`]*)`", row[-1]) if "::" in name or "_" in name and name not in clauses()]
                if names:
                    yield ", ".join(f"`{name}`" for name in names), begin_of(row[0], 12), short(section)


def rows_of_points() -> Iterator[tuple[str, ...]]:
    """A row for each point of the pages on gaps and on decisions."""
    for section in chain(sections(GAPS), sections(DECISIONS)):
        for point in re.findall(r"^- \*\*(.*?)\*\*", section.text, re.MULTILINE):
            yield without_links(point).rstrip("."), short(section)


def rows_of_words() -> str:
    """The words of the glossary, each with its meaning and its file."""
    (glossary,) = [section for section in sections(ARCHITECTURE) if section.title == "Glossary"]
    words = [tuple(row) for rows in tables(glossary.text) for row in rows[1:]]
    return f"These are the words of {link(glossary)}.\n\n{table('Word', 'What it means', 'Defined in', rows=words)}"


def rows_of_crates() -> Iterator[tuple[str, ...]]:
    """A row for each crate: what it is for, its floor, and its contracts."""
    for section in sections(ARCHITECTURE):
        for row in chain.from_iterable(rows[1:] for rows in tables(section.text) if rows[0] == ["Crate", "What it is for", "Uses"]):
            for crate in re.findall(r"`(\w+)`", row[0]):
                contracts = f", [contracts](evidence/CONTRACTS.md#{crate})" if crate in anchors(CONTRACTS) else ""
                yield f"`{crate}`", begin_of(row[1], 11), short(section) + contracts


def rows_of_scripts() -> Iterator[tuple[str, ...]]:
    """A row for each script of tests/, bench/ and tools/."""
    yield from ((f"`{path}`", begin_of(does, 13)) for path, does in scripts())


def rows_of_questions() -> Iterator[tuple[str, ...]]:
    """A row for each thing that a reader may want to do or to know."""
    (times,) = [section for section in sections(CONTRIBUTING) if section.title == "How long it takes"]
    (gate,) = re.findall(r"a gate from nothing took (.*?):", times.text)
    (proofs,) = [rows for rows in tables(times.text) if rows[0] == ["Minutes", "Crates"]]
    proof = f"{proofs[1][1].split(',')[0]}, {proofs[1][0].split(',')[0]}"
    crate, minutes = longest_crate()
    for when, answer, places in QUESTIONS:
        yield when, answer.format(gate=gate, crate=f"`{crate}`, {minutes} minutes", proof=proof), all_at(places)
    touched = sections(CONTRIBUTING)
    first = [section.title for section in touched].index("What a change touches") + 1
    for section in touched[first:]:
        if section.depth < touched[first].depth:
            break
        yield f"add {section.title[0].lower()}{section.title[1:]}", "the files that it touches", link(section)


def shown(page: Path) -> list[Section]:
    """The sections of a page that the index names: of CONTRACTS each crate has its line."""
    found = [section for section in sections(page) if section.depth <= 2 or page.stem not in _MADE]
    return found[:1] if page == CONTRACTS else found


def columns(heads: Iterable[str]) -> str:
    """The columns of the tables of a section, each once, with those of a table together."""
    known, told = set[str](), list[str]()
    for head in heads:
        told.append(" / ".join(column for column in head.split(" / ") if column not in known))
        known.update(head.split(" / "))
    return "; ".join(filter(None, told))


def rows_of_tables() -> Iterator[tuple[str, ...]]:
    """A row for each section with tables whose rows have no lines here, with the heads of the tables; the first with its page's title."""
    named = set[Path]()
    for page in _PAGES:
        first, *others = shown(page)
        for section in (first, *others):
            heads = list(dict.fromkeys(" / ".join(cell for cell in rows[0] if cell.strip("|")) for rows in tables(section.text)))
            if heads and section.page.stem not in _MADE and not _IN_LINES >= set(heads):
                title = "" if page in named or first.title in page.stem else f" ({first.title})"
                named.add(page)
                yield link(section) + title, columns(heads)


def others(text: str) -> Iterator[str]:
    """A line for each page, with its sections to which nothing in a text leads."""
    led = set(re.findall(r"\]\(([^)]*)\)", text))
    for page in _PAGES:
        first, *below = shown(page)
        links = [short(section) for section in below if path_of(section) not in led]
        if links or path_of(first) not in led:
            yield f"- **{link(first)}**" + (f": {', '.join(links)}" if links else "")


def statuses() -> str:
    """Which section has which exit status."""
    answers = [row for section in sections(SPECIFICATION) if section.title == "Answers" for row in tables(section.text)[0][1:]]
    more = {"5": "; [what to do](GUIDE.md#notes-beside-an-answer)"}
    rows = [f"| `abi`, `abi-json` | exit status {number}: {status}{_OF_STATUS.get(number, '')} | {at(SPECIFICATION, 'Answers')}"
            f"{more.get(number, '')} |\n"
            for status, number, _ in answers]
    return _STATUSES.format(
        rows="".join(rows), answers=_ANSWERS, short=at(README, "Exit statuses"),
        gate=at(PACKAGES, 'A gate that can say "cannot tell"'), several=at(PACKAGES, "Several libraries in one run"),
        packages=at(PACKAGES, "Two sets of packages"), lines=at(PACKAGES, "What a line says"),
        release=at(RELEASES, "What comes out"), history=at(RELEASES, "The history of one library"),
        report=at(REPORTS, "What a report says"), tools=link(sections(PACKAGES)[0]),
        debhelper=at(GUIDE, "A gate with debhelper"), build=at(GUIDE, "A gate in a build"))


def parts() -> Iterator[tuple[str, str]]:
    """The sections of the index, each with its text."""
    yield "What do I do when", table("When", "In short", "Where", rows=rows_of_questions())
    yield "Rules", table("Rule", "What broke: exactly", "Pages", "In the code", rows=rows_of_rules()) + files_of_rules()
    yield "Programs and formats", table("Word", "Where", rows=rows_of_programs())
    unused = f"\nNothing has these numbers: {numbers_of_no_fault()}.\n"
    yield "Faults", table("As it is printed", "When", "Exactly", rows=rows_of_faults()) + unused
    yield "Statuses", statuses()
    yield "Limits", _LIMIT_SENTENCE + table(
        "Words of the sentence", "What is counted", "How much", "Where", "In the code", rows=rows_of_limits()) + others_of_limits()
    yield "Notes", table("Kind", "What it is about", "Weight", "Where", rows=rows_of_notes())
    yield "Rule files", table("Property", "Read", "Where", rows=rows_of_properties())
    yield "Options and variables", table("Name", "Of", "Where", rows=rows_of_options())
    yield "Sentences", table("Sentence", "What it means; where", rows=rows_of_sentences())
    yield "Clauses of run", rows_of_clauses()
    yield "Other promises", table("Calls and laws", "What they promise", "Where", rows=rows_of_laws())
    yield "Gaps and decisions", table("Point", "Where", rows=rows_of_points())
    yield "Words", rows_of_words()
    yield "Crates", table("Crate", "What it is for", "Where", rows=rows_of_crates())
    yield "Scripts", table("Script", "What it does", rows=rows_of_scripts())
    yield "Tables", table("Where", "Columns", rows=rows_of_tables())


def made_index() -> str:
    """The text of the index."""
    found = list(parts())
    found.append(("Other pages and sections", "\n".join(others("".join(text for _, text in found))) + "\n"))
    links = ", ".join(f"[{title}](#{anchor_of(title)})" for title, _ in found)
    return f"{_HEAD}{links}\n\n" + "\n".join(f"## {title}\n\n{text}" for title, text in found)

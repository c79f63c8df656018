"""Words that are neither numbers nor names of the sources, with the sections on them: programs, formats, and what a reader wants to do."""

from __future__ import annotations

from .markdown import DOCS, ROOT

README, GUIDE, PACKAGES, FAQ = ROOT / "README.md", DOCS / "GUIDE.md", DOCS / "PACKAGES.md", DOCS / "FAQ.md"
RULE_FILES, SPECIFICATION, PROOFS = DOCS / "RULE_FILES.md", DOCS / "SPECIFICATION.md", DOCS / "PROOFS.md"
ARCHITECTURE, DECISIONS, CONTRIBUTING = DOCS / "ARCHITECTURE.md", DOCS / "DECISIONS.md", ROOT / "CONTRIBUTING.md"
REPORTS, LAYOUTS, APPLICATIONS, RELEASES, GAPS, LIMITS = MANUAL = [
    DOCS / "manual" / f"{name}.md" for name in ("REPORTS", "LAYOUTS", "APPLICATIONS", "RELEASES", "GAPS", "LIMITS")]
BENCHMARKS, PEERS, AUDIT = DOCS / "evidence" / "BENCHMARKS.md", DOCS / "evidence" / "PEERS.md", DOCS / "evidence" / "AUDIT.md"
CONTRACTS, CALL_PLACES, PAHOLE, DEBIAN = (DOCS / "evidence" / f"{name}.md" for name in ("CONTRACTS", "CALL_PLACES", "PAHOLE", "DEBIAN"))

PROGRAMS = {
    "`abi check`": ((GUIDE, "Two builds"), (SPECIFICATION, "The verdict")),
    "`abi app`": ((APPLICATIONS, ""), (GUIDE, "One application")),
    "`abi verify`, `abi compose`, `abi migrate`": ((GUIDE, "Certificates"), (SPECIFICATION, "Certificates")),
    "`abi exports`, `abi entries`": ((SPECIFICATION, "The verdict"), (README, "Commands")),
    "`abi layout`": ((LAYOUTS, ""), (SPECIFICATION, "Layouts")),
    "lines of `abi layout`: `hole`, `padding`, `overlaps`, `overlap`, `outside`": ((LAYOUTS, ""), (SPECIFICATION, "Layouts")),
    "`abi trial`": ((SPECIFICATION, "Answers"),),
    "a line of a report, a path": ((GUIDE, "Reading a break"), (SPECIFICATION, "The verdict")),
    "`abi-gate`": ((GUIDE, "A gate in a build"), (PACKAGES, 'A gate that can say "cannot tell"')),
    "`abi-packages`": ((PACKAGES, "Two sets of packages"), (README, "Two packages in, an answer out")),
    "`abi-report`": ((REPORTS, ""),),
    "`abi-release`": ((RELEASES, ""),),
    "`abi-history`": ((RELEASES, "The history of one library"),),
    "`abi-baseline`": ((PACKAGES, "The interface of a release, kept"), (GUIDE, "A gate in a build")),
    "`join-debug`": ((PACKAGES, "One file of a library and its debug information"),),
    "`dh_abi`, `dh-sequence-abi`": ((GUIDE, "A gate with debhelper"),),
    "RPM, CMake, Meson, GitHub, GitLab": ((PACKAGES, "Recipes"),),
    "`import abi` (Python)": ((PACKAGES, "From Python"),),
    "`make-packages`, `record.json`, licences": ((GUIDE, "Packages of abi"),),
    "`install.sh`, `--static`, `DESTDIR`": ((CONTRIBUTING, "Building, proving, testing"), (README, "Install")),
    "certificate: `bind`, `alike`, `pair`": ((GUIDE, "Certificates"), (SPECIFICATION, "Certificates")),
    "rule file: `[suppress_type]`, label": ((RULE_FILES, ""), (SPECIFICATION, "Rule files")),
    "`abi-json`, its document, `report.schema.json`": ((REPORTS, "The document"),),
    "`gate.schema.json`, JUnit, SARIF": ((PACKAGES, "Several libraries in one run"),),
    "`release.json`, `release.schema.json`, `table.txt`": ((RELEASES, "What comes out"),),
    "what changed from release to release": ((ROOT / "CHANGELOG.md", ""),),
    "binding, default version": ((SPECIFICATION, "The verdict"),),
    "call places: registers, stack, the psABI": ((SPECIFICATION, "Call places"), (CALL_PLACES, "Where a compiler departs")),
    "layouts beside `pahole`": ((PAHOLE, ""),),
    "what is refused, such as C++": ((GAPS, "What is refused"), (FAQ, "Does it read C++?")),
    "`abidiff`: time and memory beside it, on the C library and others": ((BENCHMARKS, "Whole libraries: `bench/check.sh`"),),
    "`abidiff`: answers beside it, on small edits and on Debian's libraries": (
        (PEERS, ""), (DEBIAN, "Two releases beside each other"), (FAQ, "Why does abidiff say otherwise?")),
}

# What a reader wants to do or to know, the answer in a few words, and the sections with the whole of it.
QUESTIONS = (
    ("a new break shows up", "what changed: `abi-report OLD NEW`; what to do: by the rule",
     ((GUIDE, "What to do about a break"), (GUIDE, "Reading a break"))),
    ("accept one break (say yes to it) and go on", "a section of a rule file, `--rules FILE`, if no caller sees the type or symbol",
     ((GUIDE, "Opaque types and rule files"), (FAQ, "The break is in a symbol that is private. What now?"))),
    ("ship a true break", "a new soname, and a new baseline", ((GUIDE, "What is left is a true break"), (GUIDE, "A gate in a build"))),
    ("keep a baseline", "`abi-baseline LIBRARY FILE`; with debhelper `dh_abi --update`",
     ((PACKAGES, "The interface of a release, kept"), (GUIDE, "A gate in a build"), (GUIDE, "A gate with debhelper"))),
    ("a package has no debug information", "its `-dbgsym` package, `--fetch` or `--debuginfod URL`",
     ((PACKAGES, "What is not given"), (PACKAGES, 'What to do about "cannot tell"'))),
    ("the answer is `cannot tell`", "by the words of the line", ((PACKAGES, 'What to do about "cannot tell"'),)),
    ("get the old version of a package", "`--fetch`", ((FAQ, "I have only the new package. Where do I get the old one?"),)),
    ("check a certificate that came with a package, without the sources", "`abi-packages --verify`",
     ((PACKAGES, "Certificates that ship"),)),
    ("see the notes, or turn them off", "`ABI_NOTES=1`; off on a terminal by `2>FILE` alone", ((GUIDE, "What no rule judges"),)),
    ("what is trusted", "the toolchain, the statements of ported crates, LLVM, the system, a few lines that read and print",
     ((PROOFS, "Trusted"), (FAQ, 'How sure is "proved"?'))),
    ("who checks the checker", "people judge the definitions; the wrong edits show what contracts exclude",
     ((PROOFS, "What an auditor reads"), (PROOFS, "Refused wrong programs"))),
    ("read untrusted files", "under limits of the system", ((GUIDE, "Untrusted files"), (FAQ, "May I run it on files that I do not trust?"))),
    ("find the exit status of a tool", "[by its name](#statuses)", ((README, "Exit statuses"), (PACKAGES, ""))),
    ("a kit is missing", "`abi` cannot be built; the tools and their tests run with an installed one",
     ((CONTRIBUTING, "Without a kit"), (CONTRIBUTING, "The kit"))),
    ("a proof fails", "`install.sh` installs nothing; `rt check` in the folder of the crate",
     ((CONTRIBUTING, "How to prove, test and land a change"),)),
    ("a tool of the tests is missing", "by its package of Debian", ((CONTRIBUTING, "What the tests need"),)),
    ("how long do CI, `rt ci`, the gate and a proof of each crate take", "{gate}; longest: {crate} with tests and wrong edits; "
     "longest proof: {proof}; by crate: `bench/gate.tsv`", ((CONTRIBUTING, "How long it takes"),)),
    ("change (raise) a limit", "its numbers in the sources, and all proofs again; no option raises one",
     ((CONTRIBUTING, "A limit"), (LIMITS, "Limits with a fault of their own"))),
)

"""`make-packages`: what the packages hold, and that equal files make equal bytes. A stand-in that gcc builds is the proved program."""

from __future__ import annotations

import hashlib
import json
import os
import shutil
import tarfile
from pathlib import Path

import pytest

from conftest import ROOT, TOOLS, Ended, done, needs, run

from abi_packaging.program_needs import release_number
from abi_tools.faults import PACKAGES

VERSION = "9.8.7"
TIME = "1700000000"
NAMES = [f"abi_{VERSION}_amd64.deb", f"dh-abi_{VERSION}_all.deb", f"abi-{VERSION}-1.x86_64.rpm", f"abi-{VERSION}-x86_64.tar.xz"]
# The crates of the kit that crates.txt names.
KIT_CRATES = ("byteorder", "clap", "hex", "itoa", "regex", "regex_hir", "regex_syntax", "serde_json", "sha2", "strsim", "thiserror")
INSTALLED_TOOLS = ("abi-report", "abi-gate", "abi-packages", "abi-baseline", "abi-release", "abi-history", "join-debug")


def installation(prefix: Path, *options: str) -> Path:
    """An installation as install.sh makes it, with two programs that print a word."""
    (prefix / "bin").mkdir(parents=True)
    for name in ("abi", "abi-json"):
        source = prefix.parent / f"{name}.c"
        source.write_text(f'#include <stdio.h>\nint main(void) {{ return puts("{name}") < 0; }}\n')
        done("gcc", *options, "-o", prefix / "bin" / name, source)
    tools = prefix / "lib/abi/tools"
    tools.mkdir(parents=True)
    for tool in INSTALLED_TOOLS:
        shutil.copy(TOOLS / tool, tools)
        (prefix / "bin" / tool).symlink_to(f"../lib/abi/tools/{tool}")
    for package in ("abi", "abi_tools", "abi_report", "abi_release", "abi_history"):
        shutil.copytree(TOOLS / package, tools / package, ignore=shutil.ignore_patterns("__pycache__"))
    shutil.copytree(ROOT / "share", prefix / "share")
    for name in ("docs", "examples"):
        shutil.copytree(ROOT / name, prefix / "share/doc/abi" / name, ignore=shutil.ignore_patterns("*.so*"))
    for name in ("README.md", "CHANGELOG.md", "LICENSE"):
        shutil.copy(ROOT / name, prefix / "share/doc/abi")
    (prefix / "lib/rpm/macros.d").mkdir(parents=True)
    shutil.copy(TOOLS / "rpm/macros.abi", prefix / "lib/rpm/macros.d")
    (tools / "abi_tools/__pycache__").mkdir()
    (tools / "abi_tools/__pycache__/starting.cpython-311.pyc").write_text("made at the installation")
    return prefix


def crate(kit: Path, name: str, licence: str, *lines: str) -> None:
    """A crate of a kit with these lines of source, and with a licence unless its name is empty."""
    source = kit / "rattle" / name / "src/lib.rt"
    source.parent.mkdir(parents=True, exist_ok=True)
    source.write_text("".join(f"{line}\n" for line in lines))
    if licence:
        (kit / "rattle" / name / licence).write_text(f"the licence of {name}\n")


def make(prefix: Path, output: Path, *options: object) -> Ended:
    """Runs make-packages, with a kit of the prover on the PATH. Its crates that crates.txt names have licences; one of them uses a crate
    with another licence, which uses one without."""
    kit = prefix.parent / "kit"
    for name in KIT_CRATES:
        crate(kit, name, "LICENSE-MIT", *({"regex": ("// use csv::Reader;", "    pub use ucd_perl::{is_word};", "use input::Input;")}.get(name, ())))
    crate(kit, "ucd_perl", "LICENSE-UNICODE", "use std::alloc::AllocError;", "use regex::Regex;")
    crate(kit, "std", "")
    crate(kit, "csv", "LICENSE")
    (kit / "bin").mkdir(exist_ok=True)
    (kit / "WHAT").write_text("archive a1\ncommit c2\ncompiler d3\n")
    (kit / "bin/rt").write_text(f"#!/bin/sh\ncase $1 in\ndoc) echo '{kit}/START.md' ;;\nversion) echo kit 7 ;;\nesac\n")
    (kit / "bin/rt").chmod(0o755)
    output.mkdir(exist_ok=True)
    return run("env", f"SOURCE_DATE_EPOCH={TIME}", f"PATH={kit / 'bin'}:{os.environ['PATH']}", TOOLS / "make-packages", "--version", VERSION,
               *options, prefix, output)


@pytest.fixture(scope="module")
def made(tmp_path_factory: pytest.TempPathFactory) -> Path:
    """A folder with the packages, and the installation that they come from."""
    needs("dpkg-deb", "rpmbuild", "tar", "xz", "pod2man", "gcc")
    folder = tmp_path_factory.mktemp("packages")
    log = folder / "gate.log"
    log.write_text("much\n12 passed, 0 failed\n\n")
    licence = folder / "library.txt"
    licence.write_text("as you like\n")
    prefix = installation(folder / "prefix", "-static")
    ended = make(prefix, folder / "made", "--gate", log, "--licence", licence)
    assert ended.status == 0, ended
    assert ended.out.splitlines() == [str(folder / "made" / name) for name in NAMES]
    return folder


def test_the_same_files_make_the_same_bytes(made: Path) -> None:
    """A second installation has other times and is in another folder."""
    shutil.copytree(made / "prefix", made / "elsewhere/prefix", symlinks=True, copy_function=shutil.copy)
    ended = make(made / "elsewhere/prefix", made / "again", "--gate", made / "gate.log", "--licence", made / "library.txt")
    assert ended.status == 0, ended
    assert sorted(path.name for path in (made / "again").iterdir()) == sorted(NAMES)
    for name in NAMES:
        assert (made / "again" / name).read_bytes() == (made / "made" / name).read_bytes(), name


def unpacked(made: Path, tmp_path: Path) -> dict[str, Path]:
    """The files of each package of `abi`, as below /usr."""
    needs("bsdtar")
    done("dpkg-deb", "-x", made / "made" / NAMES[0], tmp_path / "deb")
    (tmp_path / "rpm").mkdir()
    done("bsdtar", "-xf", made / "made" / NAMES[2], "-C", tmp_path / "rpm")
    done("tar", "-xf", made / "made" / NAMES[3], "-C", tmp_path)
    return {"deb": tmp_path / "deb/usr", "rpm": tmp_path / "rpm/usr", "tar": tmp_path / f"abi-{VERSION}"}


def test_packages_hold_what_is_installed(made: Path, tmp_path: Path) -> None:
    found = unpacked(made, tmp_path)
    listed = {kind: sorted(str(path.relative_to(top)) for path in top.rglob("*")) for kind, top in found.items()}
    modules = ["lib/python3", "lib/python3/dist-packages", "lib/python3/dist-packages/abi"]
    assert [name for name in listed["deb"] if name not in modules] == listed["rpm"] == listed["tar"]
    assert not [name for name in listed["deb"] if "__pycache__" in name]
    told = run("env", f"PYTHONPATH={found['deb'] / 'lib/python3/dist-packages'}", "/usr/bin/python3", "-B", "-c", "import abi; print(abi.check)")
    assert told.status == 0 and "function check" in told.out, told
    for top in found.values():
        assert [run(top / "bin" / name).out for name in ("abi", "abi-json")] == ["abi\n", "abi-json\n"]
        for tool in INSTALLED_TOOLS:
            assert run(top / "bin" / tool, "--help").out.startswith(f"usage: {tool}")
        assert {path.name for path in (top / "share/man/man1").iterdir()} == {f"{name}.1.gz" for name in ("abi", "abi-json", *INSTALLED_TOOLS)}
        assert (top / "share/doc/abi/copyright").read_bytes() == (ROOT / "LICENSE").read_bytes()
        licences = top / "share/doc/abi/licences"
        assert (licences / "library.txt").read_text() == "as you like\n"
        assert {path.name for path in licences.iterdir()} == {
            "library.txt", "libc.a.copyright", "libgcc.a.copyright", "crates", "ucd_perl.LICENSE-UNICODE",
            *(f"{name}.LICENSE-MIT" for name in KIT_CRATES)}
        listed_crates = (licences / "crates").read_text().splitlines()
        assert [line.partition(":")[0] for line in listed_crates] == sorted((*KIT_CRATES, "std", "ucd_perl"))
        assert "std: the kit has no licence of its own for it" in listed_crates and "ucd_perl: LICENSE-UNICODE" in listed_crates
        assert "GNU Lesser General Public" in (licences / "libc.a.copyright").read_text()
        assert "LIBRARY EXCEPTION" in (licences / "libgcc.a.copyright").read_text().upper()
        for name in ("docs/GUIDE.md", "docs/report.schema.json", "examples/debian/debian/rules", "README.md"):
            assert (top / "share/doc/abi" / name).read_bytes() == (ROOT / name).read_bytes()
        assert os.access(top / "share/doc/abi/examples/debian/debian/rules", os.X_OK)
        assert (top / "lib/rpm/macros.d/macros.abi").is_file()
        assert (top / "share/bash-completion/completions/abi").is_file()


def test_the_record_says_what_the_programs_come_from(made: Path, tmp_path: Path) -> None:
    record = json.loads((unpacked(made, tmp_path)["tar"] / "share/doc/abi/record.json").read_text())
    digests = {name: hashlib.sha256((made / "prefix/bin" / name).read_bytes()).hexdigest() for name in ("abi", "abi-json")}
    assert (record["version"], record["kit"], record["gate"]) == (VERSION, "kit 7", "12 passed, 0 failed")
    assert record["programs_sha256"] == digests
    assert record["kit_made_from"] == {"archive": "a1", "commit": "c2"}
    if (ROOT / ".git").exists():
        assert record["commit"] == done("git", "-C", ROOT, "rev-parse", "HEAD").strip()
        listed = done("sh", "-c", f"cd '{ROOT}' && git ls-files -z | LC_ALL=C sort -z | xargs -0 sha256sum | sha256sum")
        assert record["sources_sha256"] == listed.split()[0]


def test_fields_owners_and_times(made: Path) -> None:
    deb, dh_abi, rpm, archive = (made / "made" / name for name in NAMES)
    assert done("dpkg-deb", "-f", deb, "Depends").strip() == "python3 (>= 3.9)"
    named = {name for field in ("Recommends", "Suggests") for name in done("dpkg-deb", "-f", deb, field).strip().split(", ")}
    # dask comes with distributed
    assert set(PACKAGES.values()) - named == {"python3-dask"}
    assert done("dpkg-deb", "-f", dh_abi, "Provides").strip() == f"dh-sequence-abi (= {VERSION})"
    assert done("dpkg-deb", "-f", dh_abi, "Depends").startswith(f"abi (= {VERSION}), debhelper")
    assert {line.split()[1] for line in done("dpkg-deb", "-c", deb).splitlines()} == {"root/root"}
    assert done("rpm", "-qp", "--queryformat", "%{NAME} %{ARCH} %{BUILDTIME} %{BUILDHOST}", rpm) == f"abi x86_64 {TIME} localhost"
    assert "/usr/bin/python3" in done("rpm", "-qp", "--requires", rpm).split()
    with tarfile.open(archive) as opened:
        assert {(one.uid, one.gid, one.mtime) for one in opened} == {(0, 0, int(TIME))}


def test_a_program_for_a_newer_c_library_is_refused(tmp_path: Path) -> None:
    """The programs call a function with the version 2.34, which readelf shows, too."""
    prefix = installation(tmp_path / "prefix")
    shown = done("readelf", "--version-info", "--wide", prefix / "bin/abi")
    newest = max((word.removeprefix("GLIBC_") for word in shown.split() if word.startswith("GLIBC_2")), key=release_number)
    ended = make(prefix, tmp_path / "made", "--libc", "2.2")
    assert ended.status == 2 and f"needs version {newest} of the C library, which is newer than 2.2" in ended.errors
    assert list((tmp_path / "made").iterdir()) == []
    ended = make(prefix, tmp_path / "made", "--libc", newest)
    assert ended.status == 0, ended
    assert done("dpkg-deb", "-f", tmp_path / "made" / NAMES[0], "Depends").strip() == f"libc6 (>= {newest}), python3 (>= 3.9)"
    assert "libc.a" not in done("dpkg-deb", "-c", tmp_path / "made" / NAMES[0])
    assert f"libc.so.6(GLIBC_{newest})(64bit)" in done("rpm", "-qp", "--requires", tmp_path / "made" / NAMES[2]).split()


def test_what_is_no_installation_of_these_sources_is_refused(made: Path, tmp_path: Path) -> None:
    prefix = tmp_path / "prefix"
    shutil.copytree(made / "prefix", prefix, symlinks=True)
    cases = (("share/man/man1/abi.1", "install them again"), ("lib/abi/tools/abi_tools/verdicts.py", "install them again"),
             ("bin/abi-json", "is no ELF file"))
    for name, words in cases:
        before = (prefix / name).read_bytes()
        (prefix / name).write_text("something else\n")
        ended = make(prefix, tmp_path / "made")
        assert ended.status == 2 and words in ended.errors and len(ended.errors.splitlines()) == 1, ended
        (prefix / name).write_bytes(before)
    licence = tmp_path / "kit/rattle/hex/LICENSE-MIT"
    shutil.move(licence, tmp_path / "LICENSE")
    named = f"PATH={tmp_path / 'kit/bin'}:{os.environ['PATH']}"
    ended = run("env", f"SOURCE_DATE_EPOCH={TIME}", named, TOOLS / "make-packages", "--version", VERSION, prefix, tmp_path / "made")
    assert ended.status == 2 and f"no licence of crates that the programs use: put a file LICENSE into {licence.parent}\n" in ended.errors
    (prefix / "bin/abi").unlink()
    ended = make(prefix, tmp_path / "made")
    assert ended.status == 2 and "is no folder into which install.sh installed" in ended.errors
    assert make(prefix, tmp_path / "made", "--version", "1-2").status == 64
    assert list((tmp_path / "made").iterdir()) == []


@pytest.mark.parametrize("first, second", (("2.9", "2.31"), ("2.2.5", "2.3"), ("2.31", "2.31.1"), ("2.34", "3.0")))
def test_releases_are_ordered_by_their_numbers(first: str, second: str) -> None:
    assert release_number(first) < release_number(second)


def test_a_packaged_program_is_of_the_crates_that_its_record_names(made: Path, tmp_path: Path) -> None:
    """Scripts of tests refuse a program that is older than the crates; a checkout is newer than what was packaged of it."""
    needs("git")
    top, sources = unpacked(made, tmp_path)["tar"], tmp_path / "sources"
    (sources / "tests").mkdir(parents=True)
    shutil.copy(ROOT / "tests/common.bash", sources / "tests")
    (sources / "tests/some.sh").write_text('title=some tools=sha256sum crate=abi_cli\n. "$(dirname "$0")/common.bash"\necho "$program"\n')
    (sources / "crates").mkdir()
    (sources / "crates/some.rt").write_text("fn some() {}\n")
    (sources / "crates.txt").write_text("some:\n")
    git = ("git", "-C", sources, "-c", "user.name=a", "-c", "user.email=a@example.org")
    for words in (("init", "-q"), ("add", "."), ("commit", "-qm", "some")):
        done(*git, *words)
    record = top / "share/doc/abi/record.json"
    said = {**json.loads(record.read_text()), "commit": done(*git, "rev-parse", "HEAD").strip(), "changed_since_commit": False}

    def tried(**changes: object) -> Ended:
        record.write_text(json.dumps({**said, **changes}, indent=2) + "\n")
        return run("env", f"ABI={top / 'bin/abi'}", "bash", sources / "tests/some.sh")

    assert (tried().status, tried().out) == (0, f"{top / 'bin/abi'}\n")
    for changes in ({"changed_since_commit": True}, {"commit": None}, {"commit": "0" * 40}, {"programs_sha256": {}}):
        ended = tried(**changes)
        assert ended.status == 1 and "is older than" in ended.errors, ended
    (sources / "tests/more").write_text("what is no crate\n")
    assert tried().status == 0
    (sources / "crates/some.rt").write_text("fn other() {}\n")
    assert tried().status == 1
    record.unlink()
    assert run("env", f"ABI={top / 'bin/abi'}", "bash", sources / "tests/some.sh").status == 1

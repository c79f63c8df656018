"""`dh_abi` and its sequence: debhelper builds a small package whose only mention of `abi` is `Build-Depends: dh-sequence-abi`."""

from __future__ import annotations

import json
import os
import re
from pathlib import Path

import pytest

from conftest import TOOLS, Ended, abi, done, needs, run

DEBHELPER = TOOLS / "debhelper"
SOURCE = """\
struct stream { unsigned char *next; unsigned left; int status; };
struct inside { int a; };
unsigned stream_left(const struct stream *stream) { return stream->left; }
int stream_inside(struct inside *inside) { return inside->a; }
"""
BREAK = SOURCE.replace("*next;", "*next; long position;")
CONTROL = """\
Source: stream
Section: libs
Priority: optional
Maintainer: Nobody <nobody@example.org>
Build-Depends: debhelper-compat (= 13), dh-sequence-abi
Standards-Version: 4.6.2
Rules-Requires-Root: no

Package: libstream1
Architecture: any
Depends: ${shlibs:Depends}, ${misc:Depends}
Description: small library

Package: stream-doc
Architecture: all
Depends: ${misc:Depends}
Description: package without a library
"""
CHANGELOG = "stream (1.0) unstable; urgency=medium\n\n  * A release.\n\n -- Nobody <nobody@example.org>  Sat, 28 Nov 2026 12:00:00 +0000\n"
RULES = "#!/usr/bin/make -f\n%:\n\tdh $@\n"
MAKEFILE = """\
SONAME = libstream.so.1
CFLAGS = -g -O1
all:
\tgcc $(CFLAGS) -fPIC -shared -Wl,--build-id -Wl,-soname,$(SONAME) -o $(SONAME) stream.c
clean:
\trm -f libstream.so.*
"""
BASELINE = "debian/abi/libstream.so.1.abi"
KEPT = "debian/.debhelper/abi/libstream1"


def write(folder: Path, texts: dict[str, str]) -> None:
    """Writes files of a source package."""
    for name, text in texts.items():
        path = folder / name
        path.parent.mkdir(parents=True, exist_ok=True)
        path.write_text(text)


@pytest.fixture
def package(tmp_path: Path, monkeypatch: pytest.MonkeyPatch) -> Path:
    """A source package without baselines, with dh_abi, the sequence and the tools where debhelper finds them."""
    needs("dpkg-buildpackage", "dh", "gcc")
    programs = tmp_path / "programs"
    programs.mkdir()
    (programs / "abi").symlink_to(Path(os.environ["ABI"]).resolve())
    (programs / "abi-json").symlink_to(Path(os.environ["ABI_JSON"]).resolve())
    monkeypatch.setenv("PATH", f"{programs}:{TOOLS}:{DEBHELPER}:{os.environ['PATH']}")
    monkeypatch.setenv("PERL5LIB", str(DEBHELPER))
    monkeypatch.setenv("DEB_BUILD_OPTIONS", "noautodbgsym")
    monkeypatch.delenv("DEB_BUILD_PROFILES", raising=False)
    folder = tmp_path / "stream-1.0"
    write(folder, {"stream.c": SOURCE, "Makefile": MAKEFILE, "debian/control": CONTROL, "debian/changelog": CHANGELOG,
                   "debian/rules": RULES, "debian/libstream1.install": "libstream.so.* usr/lib/x86_64-linux-gnu\n",
                   "debian/source/format": "3.0 (native)\n"})
    (folder / "debian/rules").chmod(0o755)
    return folder


def build(folder: Path, *options: str) -> Ended:
    """A build of the package. The package dh-abi is not installed, so what it needs is not checked."""
    return run("dpkg-buildpackage", "-us", "-uc", "-b", "-d", *options, folder=folder)


def contents(folder: Path, to: Path) -> Path:
    """The unpacked package of the library."""
    done("dpkg-deb", "-x", folder.parent / "libstream1_1.0_amd64.deb", to)
    return to / "usr"


def installed(folder: Path, *options: str) -> None:
    """Compiles the library, and installs it into the folder of its package, as all steps before dh_abi do."""
    done("make", "-s", *options, folder=folder)
    library = folder / "debian/libstream1/usr/lib/x86_64-linux-gnu"
    library.mkdir(parents=True, exist_ok=True)
    for path in folder.glob("libstream.so.*"):
        path.rename(library / path.name)


def assert_stopped(ended: Ended, *libraries: str) -> None:
    """The last lines before the error name each library that stops the build, with its answer."""
    lines = [line for line in ended.errors.splitlines() if line.startswith("dh_abi: ")]
    error = lines.index("dh_abi: error: a library may not replace the released one, or it cannot be told")
    assert lines[error - len(libraries):error] == [f"dh_abi: warning: stopped: {library}" for library in libraries], ended
    assert ended.errors.count("stopped: ") == len(libraries), ended


def test_a_package_from_its_first_build_to_a_break(package: Path, tmp_path: Path) -> None:
    """The first build fails, since no interface is released; the build of the next release passes, and that of a break fails."""
    ended = build(package)
    words = (f"cannot tell: there is no baseline {BASELINE} for libstream.so.1 of libstream1: if this tree is the last released version, "
             'run "dh_abi --update"; if not, run it in that tree and copy debian/abi here\n')
    assert ended.status != 0 and words in ended.errors and "stopped: libstream.so.1: cannot tell\n" in ended.errors, ended
    assert done("dh_abi", "--update", folder=package) == f"kept libstream.so.1: {BASELINE}, 2 exports, 2 with types\n"
    write(package, {"debian/abi.rules": "[suppress_type]\nname = inside\n",
                    "stream.c": SOURCE.replace("int a;", "long a;") + "int one(void) { return 1; }\n"})
    ended = build(package)
    assert ended.status == 0 and "yes: 2 exports compared, 2 with types" in ended.out, ended
    assert ended.out.index(" dh_dwz") < ended.out.index(" dh_abi") < ended.out.index(" dh_strip -a")
    usr = contents(package, tmp_path / "made")
    document = usr / "share/doc/libstream1"
    assert (document / "abi.rules").read_text() == "[suppress_type]\nname = inside\n"
    # After the build the library is stripped, and what dh_abi read is what the certificate is about.
    released = tmp_path / "released.abi"
    (package / BASELINE).rename(released)
    done("dh_abi", "--update", folder=package)
    ended = abi("verify", "--rules", document / "abi.rules", released, package / BASELINE, document / "libstream.so.1.cert")
    assert ended.out == "accepted\n", ended
    write(package, {"stream.c": BREAK})
    ended = build(package)
    report = package / KEPT / "libstream.so.1.report"
    assert ended.status != 0 and "struct stream\n  L2      size: 16 -> 24 bytes\n" in ended.out, ended
    assert "L7 stream_left param 1 / target: member left" not in ended.out
    assert "L7 stream_left param 1 / target: member left" in report.with_suffix(".answer").read_text()
    assert f"no: libstream.so.1 of libstream1 may not replace the released one; the report is {report.relative_to(package)}" in ended.errors
    assert report.read_text() in ended.out
    assert_stopped(ended, "libstream.so.1: no")
    assert not (package / KEPT / "libstream.so.1.cert").exists()


# Two libraries in one package: dh_dwz moves what they share to a file of its own.
TWO = MAKEFILE + "all: two\ntwo:\n\tgcc $(CFLAGS) -fPIC -shared -Wl,--build-id -Wl,-soname,libsecond.so.1 -o libsecond.so.1 stream.c\n"


def packages_of(folder: Path, to: Path) -> list[Path]:
    """The packages of a build, in a folder of their own."""
    to.mkdir()
    return [path.rename(to / f"{path.stem}.deb") for path in sorted(folder.parent.glob("libstream1*.*deb"))]


@pytest.mark.parametrize("makefile, install", ((MAKEFILE, "libstream.so.*"), (TWO, "lib*.so.*")), ids=("one", "two"))
def test_a_receiver_checks_the_certificate_that_ships(package: Path, tmp_path: Path, monkeypatch: pytest.MonkeyPatch, makefile: str,
                                                      install: str) -> None:
    """From the packages of both releases alone, in which the debug information is apart, compressed, and partly in a shared file."""
    monkeypatch.setenv("DEB_BUILD_OPTIONS", "")
    write(package, {"Makefile": makefile, "debian/libstream1.install": f"{install} usr/lib/x86_64-linux-gnu\n"})
    build(package)
    done("dh_abi", "--update", folder=package)
    assert build(package).status == 0
    old = packages_of(package, tmp_path / "old")
    assert [path.name.split("_")[0] for path in old] == ["libstream1-dbgsym", "libstream1"]
    write(package, {"stream.c": SOURCE + "int one(void) { return 1; }\n"})
    ended = build(package)
    assert ended.status == 0, ended
    new = packages_of(package, tmp_path / "new")
    for name, side in (("old", old), ("new", new)):
        done("dpkg-deb", "-x", side[1], tmp_path / f"{name}-unpacked")
    document = "usr/share/doc/libstream1"
    judged = run("abi-packages", "--verify", tmp_path / "new-unpacked" / document, *old, "--", *new, folder=tmp_path)
    assert judged.status == 0 and "accepted certificate" in judged.out and "2 exports compared, 2 with types" in judged.out, judged
    assert judged.out.splitlines()[-1].startswith(f"{1 + (makefile == TWO)} librar"), judged
    # The certificate of another step, another library, and packages without their debug information.
    for certificates, before, after in (("old", old, new), ("new", new, new), ("new", old, old), ("new", old[1:], new), ("new", old, new[1:])):
        ended = run("abi-packages", "--verify", tmp_path / f"{certificates}-unpacked" / document, *before, "--", *after, folder=tmp_path)
        assert ended.status == 2 and "OtherInput" in ended.out and "accepted" not in ended.out, ended


def judged(folder: Path, *options: str) -> Ended:
    """Runs dh_abi on an installed library."""
    return run("dh_abi", *options, folder=folder)


@pytest.fixture
def released(package: Path) -> Path:
    """A source package with the baseline of its release, and with its library installed."""
    installed(package)
    done("dh_abi", "--update", folder=package)
    return package


def test_a_lost_option_for_debug_information_cannot_be_told(released: Path) -> None:
    installed(released, "CFLAGS=-O1")
    ended = judged(released)
    words = "cannot tell whether libstream.so.1 of libstream1 may replace the released one"
    assert ended.status != 0 and words in ended.errors and "no debug information" in ended.out, ended
    assert_stopped(ended, "libstream.so.1: cannot tell")
    ended = judged(released, "--allow-cannot-tell")
    assert ended.status == 0 and words in ended.errors and "stopped" not in ended.errors, ended
    assert not list(released.rglob("*.cert"))


def test_a_changed_soname_is_told(released: Path) -> None:
    (released / "debian/libstream1/usr/lib/x86_64-linux-gnu/libstream.so.1").unlink()
    installed(released, "SONAME=libstream.so.2")
    ended = judged(released)
    assert ended.status != 0 and "there is no baseline debian/abi/libstream.so.2.abi" in ended.errors, ended
    assert f"no: no library of the packages has the soname of {BASELINE}" in ended.errors
    assert_stopped(ended, "libstream.so.2: cannot tell", "libstream.so.1: no")
    done("dh_abi", "--update", folder=released)
    assert [path.name for path in (released / "debian/abi").iterdir()] == ["libstream.so.2.abi"]
    assert judged(released).status == 0


def test_options_of_debhelper(released: Path, monkeypatch: pytest.MonkeyPatch) -> None:
    """A break, which each of these leaves out."""
    write(released, {"stream.c": BREAK})
    installed(released)
    baseline = (released / BASELINE).read_bytes()
    assert judged(released).status != 0
    for options in (["-pstream-doc"], ["-Nlibstream1"], ["-i"]):
        assert judged(released, *options).status == 0, options
    assert judged(released, "-plibstream1").status != 0
    assert judged(released, "-Xlibstream.so").status == 0
    ended = judged(released, "--no-act", "--verbose")
    assert ended.status == 0 and "abi-gate --require-types 90" in ended.out, ended
    # The files of the run before are there, and say nothing of this one.
    assert (released / KEPT / "libstream.so.1.answer").read_text().startswith("no\n") and "L7 stream_left" not in ended.out, ended
    judged(released, "--no-act", "--update")
    assert (released / BASELINE).read_bytes() == baseline
    monkeypatch.setenv("DEB_BUILD_OPTIONS", "nocheck")
    assert judged(released).status == 0 and not (released / KEPT).exists()
    monkeypatch.setenv("DEB_BUILD_OPTIONS", "")
    monkeypatch.setenv("DEB_HOST_ARCH", "arm64")
    assert judged(released).status == 0
    ended = judged(released, "--update")
    assert ended.status != 0 and "libraries for amd64 alone" in ended.errors and (released / BASELINE).read_bytes() == baseline, ended


def test_an_error_is_no_answer(released: Path, tmp_path: Path, monkeypatch: pytest.MonkeyPatch) -> None:
    """Stand-ins of abi-gate that end as it never does, or say yes without a certificate."""
    gate = tmp_path / "stand-ins/abi-gate"
    gate.parent.mkdir()
    monkeypatch.setenv("PATH", f"{gate.parent}:{os.environ['PATH']}")
    for ending, words in (("exit 0", "gave no answer"), ("exit 3", "ended with status 3"), ("kill -9 $$", "the signal 9 ended abi-gate")):
        gate.write_text(f"#!/bin/sh\n{ending}\n")
        gate.chmod(0o755)
        ended = judged(released, "--allow-cannot-tell")
        assert ended.status != 0 and words in ended.errors, ended
    gate.write_text("#!/bin/sh\necho words of the gate\nexit 3\n")
    ended = judged(released)
    assert "words of the gate\n" in ended.out, ended
    assert_stopped(ended, "libstream.so.1: no answer")
    gate.unlink()
    monkeypatch.setenv("ABI", str(tmp_path / "none"))
    ended = judged(released)
    assert ended.status != 0 and "there is no program" in ended.out + ended.errors, ended


def test_without_a_report_the_log_has_the_answer(released: Path, tmp_path: Path, monkeypatch: pytest.MonkeyPatch) -> None:
    """Stand-ins of abi-report that end as it never does on this break, or say something else than abi-gate."""
    report = tmp_path / "stand-ins/abi-report"
    report.parent.mkdir()
    monkeypatch.setenv("PATH", f"{report.parent}:{os.environ['PATH']}")
    write(released, {"stream.c": BREAK})
    installed(released)
    for status, words in ((0, "abi-report wrote no report"), (2, "the report is debian/"), (3, "abi-report wrote no report")):
        report.write_text(f"#!/bin/sh\necho other words\nexit {status}\n")
        report.chmod(0o755)
        ended = judged(released)
        assert ended.status != 0 and words in ended.errors and "L7 stream_left param 1 / target: member left" in ended.out, ended
        assert "other words" not in ended.out
        assert_stopped(ended, "libstream.so.1: no")


def test_a_long_report_is_cut_in_the_log(released: Path) -> None:
    """The log has 200 lines of it, and where the whole is."""
    more = "".join(f"struct s{number} {{ int a; }};\nint f{number}(struct s{number} *s) {{ return s->a + {number}; }}\n"
                   for number in range(100))
    write(released, {"stream.c": SOURCE + more})
    installed(released)
    done("dh_abi", "--update", folder=released)
    write(released, {"stream.c": SOURCE + more.replace("int a;", "int a, b;")})
    installed(released)
    ended = judged(released)
    report = f"{KEPT}/libstream.so.1.report"
    lines = (released / report).read_text().splitlines()
    assert len(lines) > 300 and ended.out.splitlines() == [*lines[:200], f"and {len(lines) - 200} more lines: the whole is {report}"], ended


def test_idle_sections_are_named_on_no(released: Path) -> None:
    """`name = struct stream` matches nothing; the section beside it does."""
    write(released, {"stream.c": BREAK,
                     "debian/abi.rules": "[suppress_type]\nname = struct stream\n\n[suppress_type]\nname = inside\n"})
    installed(released)
    ended = judged(released)
    words = ("debian/abi.rules: a section matches nothing: [suppress_type] name=struct stream: "
             "the name of a type is its tag alone, without struct\n")
    assert ended.status != 0 and words in ended.errors and ended.errors.count("matches nothing") == 1, ended
    assert_stopped(ended, "libstream.so.1: no")
    write(released, {"debian/abi.rules": "[suppress_type]\nname = stream\naccessed_through = pointer\n"})
    ended = judged(released)
    assert ended.status == 0 and "matches nothing" not in ended.errors, ended


def test_an_update_says_what_cannot_be_compared(package: Path) -> None:
    """A library in C++, beside one in C. -X leaves it out, and takes its baseline away."""
    needs("g++")
    installed(package)
    library = package / "debian/libstream1/usr/lib/x86_64-linux-gnu/libplus.so.1"
    (package / "plus.cc").write_text("int plus(int a) { return a; }\n")
    done("g++", "-g", "-fPIC", "-shared", "-Wl,-soname,libplus.so.1", "-o", library, package / "plus.cc")
    ended = judged(package, "--update")
    assert ended.status == 0 and ended.out == f"kept libstream.so.1: {BASELINE}, 2 exports, 2 with types\n", ended
    assert "warning: debian/abi/libplus.so.1.abi is of no use, since abi cannot compare it (cannot tell: " in ended.errors, ended
    assert "fault 33" in ended.errors and 'if it is in C++, run "dh_abi --update -Xlibplus.so.1", and give the same -X to' in ended.errors
    assert judged(package).status != 0
    ended = judged(package, "--update", "-Xlibplus.so.1")
    assert ended.status == 0 and "of no use" not in ended.errors, ended
    assert [path.name for path in (package / "debian/abi").iterdir()] == ["libstream.so.1.abi"]
    assert judged(package, "-Xlibplus.so.1").status == 0


def test_no_recommended_package_is_needed(package: Path, tmp_path: Path, monkeypatch: pytest.MonkeyPatch) -> None:
    """Python cannot import what the package abi recommends or suggests; yes, no and --update are as with these."""
    modules = ("libarchive", "zstandard", "debian", "jinja2", "rich", "distributed", "cryptography")
    (tmp_path / "sitecustomize.py").write_text(f"import sys\nsys.modules.update(dict.fromkeys({modules}))\n")
    monkeypatch.setenv("PYTHONPATH", str(tmp_path))
    for module in modules:
        assert run("/usr/bin/python3", "-c", f"import {module}", folder=tmp_path).status == 1, module
    installed(package)
    assert done("dh_abi", "--update", folder=package).startswith("kept ")
    ended = judged(package)
    assert ended.status == 0 and "yes: 2 exports compared, 2 with types" in ended.out, ended
    write(package, {"stream.c": BREAK})
    installed(package)
    ended = judged(package)
    assert ended.status != 0 and "struct stream\n  L2      size: 16 -> 24 bytes\n" in ended.out, ended
    assert_stopped(ended, "libstream.so.1: no")


def test_versions_of_symbols_to_raise_are_named(released: Path, monkeypatch: pytest.MonkeyPatch) -> None:
    """`struct stream` has a hole of four bytes at its end, which gets a member. All exports that lead to it are named, and those that lead
    to what the rule file leaves out are not."""
    more = "".join(f"int stream_{word}(struct stream *stream) {{ return stream->status; }}\n" for word in ("a", "b", "c", "d", "e"))
    hidden = "struct hidden { int *a; short b; };\nint stream_hidden(struct hidden *hidden) { return hidden->b; }\n"
    text = SOURCE.replace("unsigned left;", "long left;") + hidden
    write(released, {"stream.c": text, "debian/abi.rules": "[suppress_type]\nname = hidden\n"})
    installed(released)
    done("dh_abi", "--update", folder=released)
    grown = text.replace("int status;", "int status; int added;").replace("short b;", "short b; short c;")
    write(released, {"stream.c": grown})
    installed(released)
    assert "added" not in judged(released).errors
    write(released, {"debian/libstream1.symbols": "libstream.so.1 libstream1 #MINVER#\n stream_left@Base 1.0\n"})
    ended = judged(released)
    words = "debian/libstream1.symbols: raise the versions of the exports that lead to new members of struct stream (added): "
    assert ended.status == 0 and f"{words}stream_left\n" in ended.errors and ended.errors.count("raise") == 1, ended
    write(released, {"stream.c": text + more})
    installed(released)
    done("dh_abi", "--update", folder=released)
    write(released, {"stream.c": grown + more})
    installed(released)
    ended = judged(released)
    assert re.search(rf"{re.escape(words)}(stream_[a-z]+, ){{4}}stream_[a-z]+ and 1 more in {KEPT}/libstream.so.1.json\n", ended.errors), ended
    (library,) = json.loads((released / KEPT / "libstream.so.1.json").read_text())["libraries"]
    (found,) = library["grown"]
    assert (found["type"], found["parts"], found["added"]) == ("struct stream", "members", ["added"])
    assert sorted(found["exports"]) == [*(f"stream_{word}" for word in ("a", "b", "c", "d", "e")), "stream_left"]
    monkeypatch.setenv("ABI_JSON", "none")
    ended = judged(released)
    assert ended.status == 0 and "it cannot be told which members and enumerators are new" in ended.errors and "raise" not in ended.errors, ended


def test_a_strict_build_passes_no_member_in_padding(released: Path) -> None:
    write(released, {"stream.c": SOURCE.replace("unsigned left;", "long left;")})
    installed(released)
    done("dh_abi", "--update", folder=released)
    assert judged(released, "--strict").status == 0
    write(released, {"stream.c": SOURCE.replace("unsigned left; int status;", "long left; int status; int added;")})
    installed(released)
    assert judged(released).status == 0
    ended = judged(released, "--strict")
    assert ended.status != 0 and "cannot tell: 1 difference that no rule judges can break compiled callers: member in padding: " in ended.out, ended
    assert f"cannot tell whether libstream.so.1 of libstream1 may replace the released one; the report is {KEPT}/" in ended.errors
    assert "can break compiled callers: member in padding" in (released / KEPT / "libstream.so.1.report").read_text()
    assert judged(released, "--strict", "--allow-cannot-tell").status == 0


def test_exports_that_lead_to_a_new_enumerator_are_named(package: Path) -> None:
    """Also behind a typedef, a pointer and a structure. An enumeration that no export reaches, and one that is the same, have no line."""
    text = SOURCE + ("enum way { to, from };\ntypedef const enum way way_type;\nstruct held { way_type *way; };\nenum same { one };\n"
                     "enum unseen { none } unseen_by_callers(void);\n"
                     "int stream_way(struct held *held) { return *held->way + (enum unseen)0; }\nint stream_same(enum same same) { return same; }\n")
    write(package, {"stream.c": text, "debian/libstream1.symbols": "libstream.so.1 libstream1 #MINVER#\n stream_left@Base 1.0\n"})
    installed(package)
    done("dh_abi", "--update", folder=package)
    ended = judged(package)
    assert ended.status == 0 and "raise" not in ended.errors, ended
    write(package, {"stream.c": text.replace("from }", "from, across, along }").replace("{ none }", "{ none, more }")})
    installed(package)
    ended = judged(package)
    words = "raise the versions of the exports that lead to new enumerators of enum way (across, along): stream_way"
    assert ended.status == 0 and f"debian/libstream1.symbols: {words}\n" in ended.errors, ended
    assert ended.errors.count("raise the versions") == 1
    (package / "debian/libstream1.symbols").unlink()
    assert "raise" not in judged(package).errors


@pytest.mark.parametrize("relation, is_run", (("", True), (" [amd64]", True), (" [arm64]", False), (" <!nocheck>", True)))
def test_the_relation_may_be_for_some_architectures(package: Path, relation: str, is_run: bool) -> None:
    """The package abi is for amd64 alone, so that packages for others name it there."""
    write(package, {"debian/control": CONTROL.replace("dh-sequence-abi", f"dh-sequence-abi{relation}")})
    planned = done("dh", "binary", "--no-act", folder=package).split()
    assert ("dh_abi" in planned) == is_run and "dh_strip" in planned


def test_a_source_of_quilt_takes_the_baselines(package: Path) -> None:
    """dpkg-source takes only those binary files that are named; other lines of the list stay."""
    done("tar", "-cJf", package.parent / "stream_1.0.orig.tar.xz", "--exclude=debian", "-C", package.parent, package.name)
    write(package, {"debian/source/format": "3.0 (quilt)\n", "debian/changelog": CHANGELOG.replace("(1.0)", "(1.0-1)"),
                    "debian/source/include-binaries": "debian/logo.png\ndebian/abi/libgone.so.1.abi\n"})
    names = package / "debian/source/include-binaries"
    before = names.read_text()
    installed(package)
    done("dh_abi", "--update", "--no-act", folder=package)
    assert names.read_text() == before
    done("dh_abi", "--update", folder=package)
    assert names.read_text() == f"debian/logo.png\n{BASELINE}\n"
    done("dh_clean", folder=package)
    done("dpkg-source", "-b", package, folder=package.parent)
    names.unlink()
    ended = run("dpkg-source", "-b", package, folder=package.parent)
    assert ended.status != 0 and f"unwanted binary file: {BASELINE}" in ended.errors, ended


def test_an_override_replaces_the_call(released: Path) -> None:
    write(released, {"stream.c": BREAK, "debian/rules": RULES + "override_dh_abi:\n\techo my own gate\n"})
    ended = run("debian/rules", "binary", folder=released)
    assert ended.status == 0 and "my own gate\n" in ended.out, ended


def test_a_hostile_soname_is_refused(released: Path) -> None:
    library = released / "debian/libstream1/usr/lib/x86_64-linux-gnu"
    done("gcc", "-g", "-fPIC", "-shared", "-Wl,-soname,../../x", "-o", library / "libx.so", released / "stream.c")
    for options in ([], ["--update"]):
        ended = judged(released, *options)
        assert ended.status != 0 and "has an unusual soname" in ended.errors, ended
    assert not (released / "x.abi").exists()

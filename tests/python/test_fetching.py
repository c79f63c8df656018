"""`abi-packages --fetch`: the previous version and debug packages from a local archive of apt, and debug files from a local server."""

from __future__ import annotations

import contextlib
import http.server
import shlex
import shutil
import threading
from functools import partial
from pathlib import Path
from typing import Iterator, NamedTuple

import pytest
from conftest import FIRST, SECOND, TOOLS, Ended, build_id, done, needs, run, shared, split, tool
from package_support import CHANGED, LIBRARIES, Build, deb, packages, parted, rpm

SONAME = "libshapes.so.1"
SAME = FIRST.replace("* s->at->y", "+ s->at->y")
_CONFIGURATION = """\
Dir::State "{state}";
Dir::State::status "{state}/status";
Dir::Cache "{state}/cache";
Dir::Etc::SourceList "{state}/sources.list";
Dir::Etc::SourceParts "-";
APT::Architecture "amd64";
APT::Sandbox::User "root";
Acquire::Languages "none";
"""


class Version(NamedTuple):
    """A version of a package, and the package of its debug information."""

    package: Path
    debug: Path


@pytest.fixture
def versions(build: Build, tmp_path: Path) -> dict[str, Version]:
    """Four versions of a package: the last one breaks."""
    needs("apt-get", "dpkg-scanpackages")
    made = {}
    for version, text in (("1:1.9-1", CHANGED), ("1:1.10-1", FIRST), ("1:1.10-1+deb12u1", SAME), ("1:1.11-1", CHANGED)):
        folder = tmp_path / version.replace(":", "_")
        folder.mkdir()
        library, debug, _ = parted(build, folder, text, "built", SONAME)
        made[version] = Version(deb(folder, "libshapes1", library, version=version),
                                deb(folder, "libshapes1-dbgsym", debug, version=version))
    return made


def archive(folder: Path, files: list[Path], options: str = "[trusted=yes]") -> Path:
    """An archive of packages on this machine. Returns the pool; with the line in `sources.list` beside it apt reads it."""
    pool = folder / "pool"
    pool.mkdir(parents=True)
    for number, file in enumerate(files):
        shutil.copy(file, pool / f"{number}.deb")
    (pool / "Packages").write_text(done("dpkg-scanpackages", "--multiversion", ".", folder=pool))
    (folder / "line").write_text(f"{options} file:{pool} ./\n")
    return pool


def known(folder: Path, monkeypatch: pytest.MonkeyPatch) -> None:
    """Makes the archive the only one that apt knows."""
    state = folder / "apt"
    for name in ("lists/partial", "cache/archives/partial"):
        (state / name).mkdir(parents=True)
    (state / "status").touch()
    (state / "sources.list").write_text(f"deb {(folder / 'line').read_text()}")
    (state / "apt.conf").write_text(_CONFIGURATION.format(state=state))
    monkeypatch.setenv("APT_CONFIG", str(state / "apt.conf"))
    done("apt-get", "update")


def alone(folder: Path, file: Path) -> Path:
    """A copy of a package in a folder of its own."""
    folder.mkdir()
    return Path(shutil.copy(file, folder))


def test_a_new_package_alone_has_an_answer(versions: dict[str, Version], tmp_path: Path, monkeypatch: pytest.MonkeyPatch) -> None:
    """It is compared with the version before its own by dpkg's order, whatever else the archive has."""
    archive(tmp_path, [file for version in versions.values() for file in version])
    known(tmp_path, monkeypatch)
    for number, (version, before, status) in enumerate((("1:1.10-1+deb12u1", "1:1.10-1", 0), ("1:1.11-1", "1:1.10-1+deb12u1", 1),
                                                        ("1:1.10-1", "1:1.9-1", 1))):
        new = alone(tmp_path / f"new{number}", versions[version].package)
        ended = packages(tmp_path, new, "--fetch")
        assert ended.status == status and "exports with types: old 2 of 2, new 2 of 2" in ended.out, ended
        assert ended.errors.splitlines() == [
            f"abi-packages: old: fetched libshapes1 {before} amd64", f"abi-packages: old: fetched libshapes1-dbgsym {before} amd64",
            f"abi-packages: new: fetched libshapes1-dbgsym {version} amd64"], ended.errors
    assert list((tmp_path / "new0").iterdir()) == [tmp_path / "new0/libshapes1.deb"]


def test_a_terminal_sees_that_something_is_fetched(versions: dict[str, Version], tmp_path: Path, monkeypatch: pytest.MonkeyPatch) -> None:
    """apt may take half a minute."""
    archive(tmp_path, [file for version in versions.values() for file in version])
    known(tmp_path, monkeypatch)
    new = alone(tmp_path / "new", versions["1:1.10-1+deb12u1"].package)
    command = shlex.join(map(str, (TOOLS / "abi-packages", "--certificates", tmp_path / "kept", "--fetch", new)))
    ended = run("script", "--quiet", "--return", "--command", f"TERM=xterm {command} >{tmp_path}/out", tmp_path / "terminal")
    assert ended.status == 0 and ended.out.index("fetching what is not given") < ended.out.index("old: fetched libshapes1"), ended
    assert (tmp_path / "out").read_text().startswith(f"yes {SONAME}: "), ended


def test_debug_packages_beside_a_new_package_are_taken(versions: dict[str, Version], tmp_path: Path,
                                                       monkeypatch: pytest.MonkeyPatch) -> None:
    """As after a build: the archive has no such version."""
    archive(tmp_path, [*versions["1:1.10-1"]])
    known(tmp_path, monkeypatch)
    new = alone(tmp_path / "built", versions["1:1.10-1+deb12u1"].package)
    debug = new.parent / "libshapes1-dbgsym_1.10-1+deb12u1_amd64.deb"
    shutil.copy(versions["1:1.11-1"].debug, debug)
    ended = packages(tmp_path, "--fetch", new)
    assert ended.status == 2 and "found" not in ended.errors and "there is no debug file of" in ended.out, ended
    shutil.copy(versions["1:1.10-1+deb12u1"].debug, debug)
    ended = packages(tmp_path, "--fetch", new)
    assert ended.status == 0 and f"abi-packages: new: found {debug}\n" in ended.errors, ended


def test_debug_packages_of_given_packages_are_fetched(versions: dict[str, Version], tmp_path: Path,
                                                      monkeypatch: pytest.MonkeyPatch) -> None:
    archive(tmp_path, [versions["1:1.10-1"].debug, versions["1:1.10-1+deb12u1"].debug])
    known(tmp_path, monkeypatch)
    sides = (versions["1:1.10-1"].package, "--", versions["1:1.10-1+deb12u1"].package)
    assert packages(tmp_path, *sides).status == 2
    ended = packages(tmp_path, "--fetch", *sides)
    assert ended.status == 0 and len(ended.errors.splitlines()) == 2, ended


def test_it_is_told_that_an_archive_lacks_debug_packages(versions: dict[str, Version], tmp_path: Path,
                                                         monkeypatch: pytest.MonkeyPatch) -> None:
    """As with the usual sources of Debian, where only the debug archive has them. Those of the other side are there."""
    archive(tmp_path, [versions["1:1.10-1"].package, versions["1:1.10-1+deb12u1"].debug])
    known(tmp_path, monkeypatch)
    headers = deb(tmp_path, "libshapes-dev", {"usr/include/shapes.h": tmp_path / "shapes.h"})
    ended = packages(tmp_path, "--fetch", versions["1:1.10-1+deb12u1"].package, headers)
    assert ended.status == 2 and "there is no debug file of" in ended.out, ended
    assert ended.errors.splitlines() == [
        "abi-packages: old: fetched libshapes1 1:1.10-1 amd64",
        "abi-packages: old: the archive has no debug information of libshapes1 1:1.10-1 amd64: many archives keep -dbgsym packages apart",
        "abi-packages: new: fetched libshapes1-dbgsym 1:1.10-1+deb12u1 amd64",
        "abi-packages: the archive has no version of libshapes-dev before 1"], ended


def test_a_dbg_package_of_the_same_source_is_fetched(build: Build, tmp_path: Path, monkeypatch: pytest.MonkeyPatch) -> None:
    """The one of the same build, where the source has been built again."""
    needs("apt-get", "dpkg-scanpackages")
    files = []
    for version, text in (("1", FIRST), ("2", SAME), ("2+b1", SECOND)):
        library, debug, _ = parted(build, tmp_path, text, f"built{version}", SONAME)
        other = {"usr/share/doc/other": tmp_path / "shapes.h"}
        for name, contents in (("libshapes1", library), ("shapes-dbg", debug), ("other-dbg", other)):
            folder = tmp_path / f"{name}{version}"
            folder.mkdir()
            source = "" if name == "other-dbg" else f"Source: shapes ({version[0]})\n"
            files.append(deb(folder, name, contents, version=f"{version}\n{source}".rstrip()))
    archive(tmp_path, files)
    known(tmp_path, monkeypatch)
    ended = packages(tmp_path, "--fetch", files[3])
    assert ended.status == 0 and ended.errors.splitlines() == [
        "abi-packages: old: fetched libshapes1 1 amd64", "abi-packages: old: fetched shapes-dbg 1 amd64",
        "abi-packages: new: fetched shapes-dbg 2 amd64"], ended


def test_libraries_of_fetched_debug_packages_are_not_judged(build: Build, tmp_path: Path, monkeypatch: pytest.MonkeyPatch) -> None:
    """As of Debian's Python: the package that is named after that of the library has a build for debugging, in which all changes, and
    another package of the source has the debug files."""
    needs("apt-get", "dpkg-scanpackages")
    files: dict[str, list[Path]] = {}
    for version, text, debugging in (("1", FIRST, FIRST), ("2", SAME, CHANGED)):
        library, debug, _ = parted(build, tmp_path, text, f"built{version}", SONAME)
        other = build(f"debugging{version}.so", debugging, soname="libdebugging.so.1")
        for name, contents in (("libshapes1", library), ("libshapes1-dbg", {"usr/lib/libdebugging.so.1": other}), ("shapes-dbg", debug)):
            folder = tmp_path / f"{name}-{version}"
            folder.mkdir()
            files.setdefault(version, []).append(deb(folder, name, contents, version=f"{version}\nSource: shapes"))
    archive(tmp_path, [file for made in files.values() for file in made])
    known(tmp_path, monkeypatch)
    old, new = files.values()
    for given in (new[:1], new[:2], (*old[:2], "--", *new[:1]), (old[0], "--", *new[:2])):
        ended = packages(tmp_path, "--fetch", *given)
        assert ended.status == 0 and ended.out.splitlines()[-1] == "1 library: 1 yes", ended
        assert "exports with types: old 2 of 2, new 2 of 2" in ended.out
        assert ended.errors.count("fetched shapes-dbg") == 2 and "has no debug information" not in ended.errors, ended
    assert packages(tmp_path, *old, "--", *new).status == 1


def test_a_mirror_stands_for_the_sources_of_apt(versions: dict[str, Version], tmp_path: Path, monkeypatch: pytest.MonkeyPatch) -> None:
    archive(tmp_path / "empty", [])
    known(tmp_path / "empty", monkeypatch)
    archive(tmp_path, [file for version in versions.values() for file in version])
    new = versions["1:1.10-1+deb12u1"].package
    ended = packages(tmp_path, "--fetch", new)
    assert ended.status == 2 and "no earlier version of libshapes1 1:1.10-1+deb12u1 amd64: name the old packages" in ended.errors, ended
    for word in ("", "deb "):
        ended = packages(tmp_path, "--fetch", "--mirror", f"{word}{(tmp_path / 'line').read_text()}", new)
        assert ended.status == 0, ended
    ended = packages(tmp_path, "--fetch", "--mirror", f"[trusted=yes] file:{tmp_path}/none ./", new)
    assert ended.status == 2 and ended.errors.startswith("abi-packages: apt-get: "), ended


@pytest.mark.parametrize("options", ("", "[allow-insecure=yes]"))
def test_what_is_not_signed_is_not_taken(versions: dict[str, Version], tmp_path: Path, options: str) -> None:
    """Neither the lists of an archive without a signature, nor a package from one whose lists the user lets apt read."""
    archive(tmp_path, [file for version in versions.values() for file in version], options)
    ended = packages(tmp_path, "--fetch", "--mirror", (tmp_path / "line").read_text(), versions["1:1.11-1"].package)
    assert ended.status == 2 and ended.out == "" and ended.errors.startswith("abi-packages: apt-get: "), ended
    assert ("does not have a Release file" if not options else "could not be authenticated") in ended.errors


def test_a_package_that_the_archive_does_not_list_is_not_taken(versions: dict[str, Version], tmp_path: Path,
                                                               monkeypatch: pytest.MonkeyPatch) -> None:
    """Another file lies where the archive has one."""
    pool = archive(tmp_path, [*versions["1:1.10-1"]])
    known(tmp_path, monkeypatch)
    shutil.copy(versions["1:1.11-1"].package, pool / "0.deb")
    ended = packages(tmp_path, "--fetch", versions["1:1.10-1+deb12u1"].package)
    assert ended.status == 2 and ended.out == "" and ended.errors.startswith("abi-packages: apt-get: "), ended


def test_only_names_of_packages_are_given_to_apt(build: Build, tmp_path: Path) -> None:
    """A control file that names a file, an option or an expression in place of a package."""
    library, _, _ = parted(build, tmp_path, FIRST, "built", SONAME)
    made = deb(tmp_path, "libshapes1", library)
    for name, version in (("./x.deb", "1"), ("-oDir::State=x", "1"), ("lib.*", "1"), ("libshapes1", "1 2"), ("libshapes1", "-q")):
        hostile = tmp_path / "hostile.deb"
        control = f"Package: {name}\nVersion: {version}\nArchitecture: amd64\n"
        (tmp_path / "control").write_text(control)
        done("sh", "-c", f"cp {made} {hostile}; ar x {hostile} data.tar.xz debian-binary; tar -czf control.tar.gz ./control; rm {hostile}; "
                         f"ar rc {hostile} debian-binary control.tar.gz data.tar.xz", folder=tmp_path)
        ended = packages(tmp_path, "--fetch", hostile)
        assert ended.status == 2 and "does not say its name, its version and its architecture" in ended.errors, ended


def test_wrong_arguments(versions: dict[str, Version], tmp_path: Path) -> None:
    new = versions["1:1.10-1"].package
    for arguments in (("--mirror", "x", new, "--", new), ("--fetch",), ("--debuginfod", "file:///", new, "--", new), (new,)):
        assert tool("abi-packages", *arguments).status == 64


class _Server(http.server.SimpleHTTPRequestHandler):
    """Answers with the files of a folder, or with the status of a server that does not work."""

    def do_GET(self) -> None:
        if (Path(self.directory) / "broken").exists():
            self.send_error(503)
        else:
            super().do_GET()

    def log_message(self, *_: object) -> None:
        pass


@contextlib.contextmanager
def served(folder: Path) -> Iterator[str]:
    """A server of the files of a folder, on this machine alone."""
    with http.server.ThreadingHTTPServer(("127.0.0.1", 0), partial(_Server, directory=str(folder))) as server:
        thread = threading.Thread(target=server.serve_forever)
        thread.start()
        try:
            yield f"http://127.0.0.1:{server.server_address[1]}/"
        finally:
            server.shutdown()
            thread.join()


@pytest.fixture
def rpms(build: Build, tmp_path: Path) -> tuple[list[Path], Path]:
    """Two versions of an .rpm without debug information, and the folder of a server that has it, with a supplementary file."""
    folder = tmp_path / "served"
    whole = [build(f"{name}.so", text, soname=f"lib{name}.so.1") for name, text in (("shapes", FIRST), ("more", SECOND), ("same", SAME))]
    stripped = [split(library, tmp_path / f"{library.stem}.debug", link=False) for library in whole]
    shared([tmp_path / f"{library.stem}.debug" for library in whole], tmp_path / "both", "-M", "../../../.dwz/both")
    for library, debug in [*((library, tmp_path / f"{library.stem}.debug") for library in whole), (tmp_path / "both", tmp_path / "both")]:
        place = folder / "buildid" / build_id(library)
        place.mkdir(parents=True)
        shutil.copy(debug, place / "debuginfo")
    name = f"{LIBRARIES}/{SONAME}"
    files = {name: stripped[0]}, {name: stripped[0], f"{LIBRARIES}/libmore.so.1": stripped[1]}
    return [rpm(tmp_path, made, contents) for made, contents in zip(("old", "new"), files)], folder


def test_debug_files_come_from_a_server(rpms: tuple[list[Path], Path], tmp_path: Path, monkeypatch: pytest.MonkeyPatch) -> None:
    (old, new), folder = rpms
    monkeypatch.delenv("DEBUGINFOD_URLS", raising=False)
    assert packages(tmp_path, old, "--", new).status == 2
    with served(tmp_path) as empty, served(folder) as server:
        ended = packages(tmp_path, "--debuginfod", server, old, "--", new)
        assert ended.status == 0 and "exports with types: old 2 of 2, new 2 of 2" in ended.out, ended
        assert packages(tmp_path, "--debuginfod", empty, "--debuginfod", server, old, "--", new).status == 0
        ended = packages(tmp_path, "--debuginfod", empty, old, "--", new)
        assert ended.status == 2 and "there is no debug file of" in ended.out, ended
        monkeypatch.setenv("DEBUGINFOD_URLS", server)
        assert packages(tmp_path, old, "--", new).status == 2


def test_a_debug_file_of_another_build_is_not_taken(rpms: tuple[list[Path], Path], tmp_path: Path) -> None:
    (old, new), folder = rpms
    places = sorted((folder / "buildid").iterdir())
    contents = [(place / "debuginfo").read_bytes() for place in places]
    for place, other in zip(places, [*contents[1:], contents[0]]):
        (place / "debuginfo").write_bytes(other)
    with served(folder) as server:
        ended = packages(tmp_path, "--debuginfod", server, old, "--", new)
    assert ended.status == 2 and "is of another build than" in ended.out, ended


def test_a_server_that_does_not_answer_is_no_lack_of_debug_files(rpms: tuple[list[Path], Path], tmp_path: Path) -> None:
    (old, new), folder = rpms
    (folder / "broken").touch()
    with served(folder) as server:
        ended = packages(tmp_path, "--debuginfod", server, old, "--", new)
        assert ended.status == 2 and "HTTP Error 503" in ended.out and "there is no debug file" not in ended.out, ended
    ended = packages(tmp_path, "--debuginfod", server, old, "--", new)
    assert ended.status == 2 and "debuginfo: Connection refused" in ended.out, ended


def test_a_debug_file_of_any_size_is_no_matter(rpms: tuple[list[Path], Path], tmp_path: Path, monkeypatch: pytest.MonkeyPatch) -> None:
    (old, new), folder = rpms
    monkeypatch.setattr("abi_tools.debuginfod.LARGEST_FILE", 1000)
    with served(folder) as server:
        ended = packages(tmp_path, "--debuginfod", server, old, "--", new)
    assert ended.status == 2 and "has more than 1000 bytes" in ended.out, ended


def test_an_rpm_has_no_previous_version_here(rpms: tuple[list[Path], Path], tmp_path: Path) -> None:
    ended: Ended = packages(tmp_path, "--fetch", rpms[0][1])
    assert ended.status == 2 and "new.rpm is no .deb" in ended.errors, ended

"""The recipes of examples/: each runs with a library that may be replaced, and with one that may not."""

from __future__ import annotations

import hashlib
import os
import re
import shutil
from pathlib import Path
from typing import Callable, Iterator

import pytest
import yaml  # type: ignore[import]
from conftest import ROOT, TOOLS, Ended, done, needs, path_without_tools, run, tool

EXAMPLES = ROOT / "examples"
# Lines of the tools in the log of a build.
YES = "yes: 2 exports compared, 2 with types"
BREAK = "L7 stream_left param 1 / target: member left at bit"


@pytest.fixture
def project(tmp_path: Path, monkeypatch: pytest.MonkeyPatch) -> Iterator[Path]:
    """The small library of the recipes, with the baseline of its release in the folder `abi`, and the tools on the PATH. The source has
    one more function than the release: gcc would fold an old one into it, which would lose its type."""
    programs = tmp_path / "programs"
    programs.mkdir()
    (programs / "abi").symlink_to(Path(os.environ["ABI"]).resolve())
    (programs / "abi-json").symlink_to(Path(os.environ["ABI_JSON"]).resolve())
    monkeypatch.setenv("PATH", f"{programs}:{TOOLS}:{path_without_tools(tmp_path / 'others/bin')}")
    monkeypatch.delenv("ABI")
    monkeypatch.delenv("ABI_JSON")
    folder = tmp_path / "stream"
    shutil.copytree(EXAMPLES / "stream", folder)
    (folder / "abi").mkdir()
    done("make", "-s", "libstream.so.1", folder=folder)
    assert tool("abi-baseline", folder / "libstream.so.1", folder / "abi/libstream.so.1.abi").status == 0
    done("make", "-s", "clean", folder=folder)
    source = folder / "stream.c"
    equal = "(const struct stream *stream) { return stream->left; }"
    source.write_text(source.read_text().replace("unsigned stream_left", f"unsigned stream_room{equal}\nunsigned stream_left"))
    yield folder


def broken(folder: Path) -> None:
    """Adds a member in the source, so that all members after it move."""
    source = folder / "stream.c"
    source.write_text(source.read_text().replace("unsigned char *next;", "unsigned char *next; long position;"))
    (folder / "libstream.so.1").unlink(missing_ok=True)


def untyped(folder: Path) -> None:
    """Makes later builds compile without types."""
    makefile = folder / "Makefile"
    makefile.write_text(makefile.read_text().replace("-g -fPIC", "-g1 -fPIC"))
    (folder / "libstream.so.1").unlink(missing_ok=True)


def debian_build(folder: Path) -> Ended:
    """A build of the package."""
    return run("dpkg-buildpackage", "-us", "-uc", "-b", folder=folder)


def test_debian_rules_keep_a_baseline_beside_a_folder_of_their_name(project: Path) -> None:
    """Sources have folders `build`. What make finds in place of a target it does not make."""
    needs("dh")
    shutil.copytree(EXAMPLES / "debian/debian", project / "debian")
    for name in ("build", "keep-abi"):
        (project / name).mkdir()
    done("debian/rules", "keep-abi", folder=project)
    assert tool("abi-gate", project / "debian/abi/libstream.so.1.abi", project / "libstream.so.1").status == 0


def test_debian_rules(project: Path, tmp_path: Path) -> None:
    """debhelper builds the package, and two of its builds are compared as packages."""
    needs("dpkg-buildpackage", "dh")
    shutil.copytree(EXAMPLES / "debian/debian", project / "debian")
    shutil.move(project / "abi", project / "debian/abi")
    ended = debian_build(project)
    assert ended.status == 0 and YES in ended.out + ended.errors, ended
    first = tmp_path / "first"
    first.mkdir()
    for package in (*tmp_path.glob("*.deb"), *tmp_path.glob("*.ddeb")):
        package.rename(first / f"{package.stem}.deb")
    made = sorted(first.iterdir())
    assert [package.name.split("_")[0] for package in made] == ["libstream1-dbgsym", "libstream1"]
    ended = tool("abi-packages", *made, "--", *made, folder=tmp_path)
    assert ended.status == 0 and "rules usr/share/doc/libstream1/abi.rules (new)" in ended.out, ended
    assert "exports with types: old 3 of 3, new 3 of 3" in ended.out
    # With the packages alone, the joined library gives the baseline.
    for package in made:
        done("dpkg-deb", "-x", package, tmp_path / "released")
    joined, (library,) = tmp_path / "joined.so", (tmp_path / "released/usr/lib").glob("*/libstream.so.1")
    assert tool("join-debug", "--root", tmp_path / "released", library, joined).status == 0
    assert tool("abi-baseline", joined, tmp_path / "joined.abi").status == 0
    ended = tool("abi-gate", "--require-types", "100", tmp_path / "joined.abi", project / "libstream.so.1")
    assert (ended.status, ended.out) == (0, "yes: 3 exports compared, 3 with types\n"), ended
    broken(project)
    ended = debian_build(project)
    assert ended.status != 0 and BREAK in ended.out + ended.errors
    done("debian/rules", "keep-abi", folder=project)
    assert debian_build(project).status == 0


def rpm_build(project: Path, folder: Path, spec: Path = EXAMPLES / "rpm/libstream.spec") -> Ended:
    """A build of the package by rpmbuild, with options of a distribution."""
    sources = folder / "SOURCES"
    sources.mkdir(parents=True, exist_ok=True)
    for source in (project / "stream.c", project / "Makefile", project / "abi/libstream.so.1.abi"):
        shutil.copy(source, sources)
    return run("rpmbuild", "-bb", "--define", f"_topdir {folder}", "--define", "optflags -O2 -g -DOF_RPM", spec)


def test_rpm_check(project: Path, tmp_path: Path) -> None:
    needs("rpmbuild")
    ended = rpm_build(project, tmp_path / "rpmbuild")
    assert ended.status == 0 and YES in ended.out, ended
    # the options of the distribution are kept
    assert " -O2 -g -DOF_RPM -fno-ipa-icf " in ended.out, ended
    made = list((tmp_path / "rpmbuild/RPMS").rglob("libstream-1.0-1*.rpm"))
    assert len(made) == 1
    broken(project)
    ended = rpm_build(project, tmp_path / "rpmbuild")
    assert ended.status != 0 and BREAK in ended.out, ended


def steps(folder: Path, *scripts: str) -> Ended:
    """Runs the scripts of a job in turn, in the shell that CI runners use."""
    ended = Ended(0, "", "")
    for script in scripts:
        ended = run("bash", "-e", "-o", "pipefail", "-c", script, folder=folder)
        if ended.status != 0:
            break
    return ended


def job_holds(project: Path, scripts: list[str]) -> None:
    """Checks that a job ends with the exit statuses of the gate."""
    ended = steps(project, *scripts)
    assert ended.status == 0 and YES in ended.out and (project / "libstream.cert").is_file()
    broken(project)
    ended = steps(project, *scripts)
    assert ended.status == 1 and BREAK in ended.out and not (project / "libstream.cert").exists()
    untyped(project)
    ended = steps(project, *scripts)
    assert ended.status == 2 and "cannot tell: " in ended.out


def fails_in_three_ways(project: Path, build: Callable[[], Ended], misspell: Callable[[], None]) -> None:
    """Checks that a pipeline which passes fails without `abi`, with an option that does not exist, and if the source does not compile.
    Each is put right again before the next."""
    assert build().status == 0
    program = project.parent / "programs/abi"
    where = program.readlink()
    program.unlink()
    ended = build()
    assert ended.status != 0 and "there is no program abi" in ended.out + ended.errors, ended
    program.symlink_to(where)
    source = (project / "stream.c").read_text()
    (project / "stream.c").write_text(source + "what is no C\n")
    (project / "libstream.so.1").unlink(missing_ok=True)
    ended = build()
    assert ended.status != 0 and "stream.c" in ended.out + ended.errors, ended
    (project / "stream.c").write_text(source)
    misspell()
    ended = build()
    assert ended.status != 0 and YES not in ended.out, ended


def changed(recipe: Path, old: str, new: str) -> None:
    """Changes a recipe."""
    text = recipe.read_text()
    assert old in text
    recipe.write_text(text.replace(old, new))


_MAKEFILE = """
check: libstream.so.1
	abi-gate --require-types 90 abi/libstream.so.1.abi libstream.so.1
"""


def test_a_makefile_fails_in_three_ways(project: Path) -> None:
    """The rule is that of the guide."""
    assert "\tabi-gate --rules abi.rules abi/libcounter.so.1.abi" in (ROOT / "docs/GUIDE.md").read_text()
    makefile = project / "Makefile"
    makefile.write_text(makefile.read_text() + _MAKEFILE)
    fails_in_three_ways(project, lambda: run("make", "check", folder=project), lambda: changed(makefile, "--require-types", "--require"))


def test_debian_rules_fail_in_three_ways(project: Path) -> None:
    needs("dh")
    shutil.copytree(EXAMPLES / "debian/debian", project / "debian")
    shutil.move(project / "abi", project / "debian/abi")

    def build() -> Ended:
        done("dh_clean", folder=project)
        return run("debian/rules", "binary", folder=project)

    fails_in_three_ways(project, build, lambda: changed(project / "debian/rules", "--require-types", "--require"))


def test_the_spec_fails_in_three_ways(project: Path, tmp_path: Path) -> None:
    needs("rpmbuild")
    spec = tmp_path / "libstream.spec"
    shutil.copy(EXAMPLES / "rpm/libstream.spec", spec)
    fails_in_three_ways(project, lambda: rpm_build(project, tmp_path / "rpmbuild", spec),
                        lambda: changed(spec, "--require-types", "--require"))


def github_scripts(path: Path) -> list[str]:
    """The scripts of the workflow."""
    workflow = yaml.safe_load(path.read_text())
    parts = workflow["jobs"]["abi"]["steps"]
    assert all(("uses" in part) != ("run" in part) for part in parts)
    return [part["run"] for part in parts if "run" in part]


def test_github_actions(project: Path) -> None:
    job_holds(project, github_scripts(EXAMPLES / "github/abi.yml"))
    assert (project / "answer").read_text().startswith("cannot tell: ")
    kept = next(part for part in yaml.safe_load((EXAMPLES / "github/abi.yml").read_text())["jobs"]["abi"]["steps"]
                if "upload-artifact" in part.get("uses", ""))
    assert kept["if"] == "always()" and kept["with"]["path"].split() == ["answer", "report", "libstream.cert"]


def test_github_actions_fail_in_three_ways(project: Path, tmp_path: Path) -> None:
    recipe = tmp_path / "abi.yml"
    shutil.copy(EXAMPLES / "github/abi.yml", recipe)

    def build() -> Ended:
        ended = steps(project, *github_scripts(recipe))
        (project / "libstream.so.1").unlink(missing_ok=True)
        return ended

    fails_in_three_ways(project, build, lambda: changed(recipe, "--require-types 90 --certificate", "--require 90 --certificate"))


def test_gitlab_ci(project: Path) -> None:
    job = yaml.safe_load((EXAMPLES / "gitlab/gitlab-ci.yml").read_text())["abi"]
    assert "allow_failure" not in job and job["artifacts"] == {"when": "always", "paths": ["libstream.cert", "report"]}
    job_holds(project, job["script"])
    assert steps(project, *job["after_script"]).status == 0 and (project / "report").read_text()


def test_gitlab_ci_fails_in_three_ways(project: Path, tmp_path: Path) -> None:
    recipe = tmp_path / "gitlab-ci.yml"
    shutil.copy(EXAMPLES / "gitlab/gitlab-ci.yml", recipe)

    def build() -> Ended:
        (project / "libstream.so.1").unlink(missing_ok=True)
        return steps(project, *yaml.safe_load(recipe.read_text())["abi"]["script"])

    fails_in_three_ways(project, build, lambda: changed(recipe, "--require-types 90 --certificate", "--require 90 --certificate"))


@pytest.fixture
def archive(project: Path, tmp_path: Path) -> Path:
    """The archive of an installation, as make-packages makes it, and beside it `bare.tar.xz`, which lacks `abi`. The tools are no longer on
    the PATH."""
    top = tmp_path / "abi-9"
    (top / "lib/abi").mkdir(parents=True)
    shutil.copytree(TOOLS, top / "lib/abi/tools", ignore=shutil.ignore_patterns("__pycache__", "make-*"))
    (top / "bin").mkdir()
    for name in ("abi-gate", "abi-report"):
        (top / "bin" / name).symlink_to(f"../lib/abi/tools/{name}")
    for name in ("abi", "abi-json"):
        (top / "bin" / name).symlink_to((tmp_path / "programs" / name).readlink())
    shutil.copytree(ROOT / "share/abi", top / "share/abi")
    made = tmp_path / "abi-9-x86_64.tar.xz"
    done("tar", "-cJf", made, "-C", tmp_path, "abi-9")
    done("tar", "-cJf", tmp_path / "bare.tar.xz", "-C", tmp_path, "--exclude=abi-9/bin/abi", "abi-9")
    return made


def digest(path: Path) -> str:
    """The SHA-256 of a file."""
    return hashlib.sha256(path.read_bytes()).hexdigest()


def component_holds(project: Path, archive: Path, judge: Callable[..., Ended]) -> None:
    """Checks a job that installs the archive: its statuses, also with an archive that lacks `abi`, and what it keeps."""
    result = project / "abi-result"
    bare = archive.with_name("bare.tar.xz")
    done("make", "-s", "libstream.so.1", folder=project)
    ended = judge()
    assert ended.status == 0 and YES in ended.out, ended
    assert (result / "certificate").is_file() and "### abi: yes" in (result / "comment.md").read_text()
    broken(project)
    done("make", "-s", "libstream.so.1", folder=project)
    ended = judge()
    comment = (result / "comment.md").read_text()
    assert ended.status == 1 and BREAK in ended.out and not (result / "certificate").exists(), ended
    assert comment.startswith("### abi: no: ") and "    struct stream" in comment
    assert all(line.startswith("    ") for line in comment.splitlines()[2:])
    assert judge(old="none.abi").status == 2 and "### abi: cannot tell" in (result / "comment.md").read_text()
    assert judge(strict="yes").status == 64 and "### abi: no answer" in (result / "comment.md").read_text()
    assert judge(types="ninety").status == 64 and "### abi: no answer" in (result / "comment.md").read_text()
    assert judge(sha256="0" * 64).status == 2
    assert judge(archive=f"file://{bare}", sha256=digest(bare)).status == 2 and "### abi: yes" not in (result / "comment.md").read_text()
    # a structure with two bytes of padding at its end, and one that has a member there
    changed(project / "stream.c", "int status;", "short status;")
    done("make", "-s", "libstream.so.1", folder=project)
    assert tool("abi-baseline", project / "libstream.so.1", project / "abi/padded.abi").status == 0
    changed(project / "stream.c", "short status;", "short status, more;")
    done("make", "-s", "libstream.so.1", folder=project)
    assert judge(old="abi/padded.abi").status == 0
    ended = judge(old="abi/padded.abi", strict="true")
    comment = (result / "comment.md").read_text()
    assert ended.status == 2 and "can break compiled callers: member in padding: " in comment and comment.startswith("### abi: cannot tell"), ended
    assert not (result / "certificate").exists()
    hurt = "x; touch hurt; `touch hurt` $(touch hurt)"
    assert judge(old=hurt).status == 2 and not (project / "hurt").exists()


def test_the_action_of_github(project: Path, archive: Path, tmp_path: Path, monkeypatch: pytest.MonkeyPatch) -> None:
    """Each step gets the variables that its `env` says, and runs in the shell that it names."""
    needs("curl", "xz")
    action = yaml.safe_load((EXAMPLES / "github/action.yml").read_text())
    values = {"archive": f"file://{archive}", "sha256": digest(archive), "old": "abi/libstream.so.1.abi", "new": "libstream.so.1",
              **{name: one["default"] for name, one in action["inputs"].items() if "default" in one}}
    assert set(values) == set(action["inputs"])
    outputs = {name: tmp_path / name for name in ("GITHUB_PATH", "GITHUB_OUTPUT", "GITHUB_STEP_SUMMARY")}
    clean = os.environ["PATH"].replace(f"{tmp_path / 'programs'}:{TOOLS}:", "")

    def judge(**changes: str) -> Ended:
        given = {**values, **{{"types": "require-types"}.get(name, name): value for name, value in changes.items()}}
        shutil.rmtree(tmp_path / "runner", ignore_errors=True)
        (tmp_path / "runner").mkdir()
        ended, path = Ended(0, "", ""), clean
        for path_of in outputs.values():
            path_of.write_text("")
        for step in action["runs"]["steps"]:
            if "run" in step and ended.status == 0:
                assert "${{" not in step["run"] and step["shell"] == "bash"
                words = [f"{name}={re.sub(r'[$]{{ inputs[.]([a-z0-9-]+) }}', lambda found: given[found[1]], text)}"
                         for name, text in step["env"].items()]
                files = [f"{name}={file}" for name, file in outputs.items()]
                ended = run("env", *words, *files, f"RUNNER_TEMP={tmp_path / 'runner'}", f"PATH={path}", "bash", "--noprofile", "--norc",
                            "-e", "-o", "pipefail", "-c", step["run"], folder=project)
                path = ":".join([*outputs["GITHUB_PATH"].read_text().split(), clean])
        return ended

    component_holds(project, archive, judge)
    kept = action["runs"]["steps"][-1]
    assert kept["if"] == "always()" and kept["with"]["path"] == "abi-result"
    judge()
    assert outputs["GITHUB_STEP_SUMMARY"].read_text() == (project / "abi-result/comment.md").read_text()
    assert outputs["GITHUB_OUTPUT"].read_text() == "comment=abi-result/comment.md\n"


def test_the_component_of_gitlab(project: Path, archive: Path, tmp_path: Path) -> None:
    """GitLab puts the inputs into the text, and gives `variables` to the script."""
    needs("curl", "xz")
    text = (EXAMPLES / "gitlab/templates/abi.yml").read_text()
    inputs = next(yaml.safe_load_all(text))["spec"]["inputs"]
    values = {"archive": f"file://{archive}", "sha256": digest(archive), "build": "make libstream.so.1", "old": "abi/libstream.so.1.abi",
              "new": "libstream.so.1", **{name: one["default"] for name, one in inputs.items() if "default" in one}}
    assert set(values) == set(inputs)
    job = list(yaml.safe_load_all(text))[1]["abi"]
    assert job["artifacts"] == {"when": "always", "paths": ["abi-result"]} and "allow_failure" not in job
    clean = os.environ["PATH"].replace(f"{tmp_path / 'programs'}:{TOOLS}:", "")

    def judge(**changes: str) -> Ended:
        given = {**values, **{{"types": "require-types"}.get(name, name): value for name, value in changes.items()}}

        def put(one: str) -> str:
            return re.sub(r"\$\[\[ inputs\.([a-z0-9-]+) \]\]", lambda found: given[found[1]], one)

        # the runner's folder for all files that are not of the project
        shutil.rmtree(tmp_path / "runner", ignore_errors=True)
        (tmp_path / "runner").mkdir()
        variables = [*(f"{name}={put(one)}" for name, one in job["variables"].items()), f"TMPDIR={tmp_path / 'runner'}"]
        script = "\n".join(map(put, job["script"]))
        assert "/tmp" not in script
        return run("env", *variables, f"PATH={clean}", "bash", "-e", "-o", "pipefail", "-c", script, folder=project)

    component_holds(project, archive, judge)
    assert judge(build="make none").status != 0


def test_meson(project: Path, tmp_path: Path) -> None:
    needs("meson", "ninja")
    for name in ("meson.build", "meson_options.txt"):
        shutil.copy(EXAMPLES / "meson" / name, project)
    build = tmp_path / "build"
    done("meson", "setup", build, folder=project)
    ended = run("meson", "test", "-C", build, "-v", "abi")
    assert ended.status == 0 and YES in ended.out, ended
    fails_in_three_ways(project, lambda: run("meson", "test", "-C", build, "-v", "abi"),
                        lambda: changed(project / "meson.build", "--require-types", "--require"))
    shutil.copy(EXAMPLES / "meson/meson.build", project)
    broken(project)
    ended = run("meson", "test", "-C", build, "-v", "abi")
    assert ended.status != 0 and BREAK in ended.out
    done("meson", "compile", "-C", build, "keep-abi")
    assert run("meson", "test", "-C", build, "abi").status == 0


def test_meson_without_the_tools(project: Path, tmp_path: Path, monkeypatch: pytest.MonkeyPatch) -> None:
    needs("meson", "ninja")
    for name in ("meson.build", "meson_options.txt"):
        shutil.copy(EXAMPLES / "meson" / name, project)
    monkeypatch.setenv("PATH", os.environ["PATH"].replace(f"{TOOLS}:", ""))
    ended = run("meson", "setup", tmp_path / "build", folder=project)
    assert ended.status != 0 and "abi-gate" in ended.out + ended.errors, ended
    done("meson", "setup", "-Dabi=disabled", tmp_path / "build", folder=project)


@pytest.fixture
def prefix(project: Path, tmp_path: Path, monkeypatch: pytest.MonkeyPatch) -> Path:
    """An installation whose folder `bin` is on the PATH, as CMake finds modules."""
    folder = tmp_path / "prefix"
    (folder / "bin").mkdir(parents=True)
    for name in ("abi-gate", "abi-baseline"):
        (folder / "bin" / name).symlink_to(TOOLS / name)
    shutil.copytree(ROOT / "share/cmake", folder / "share/cmake")
    monkeypatch.setenv("PATH", os.environ["PATH"].replace(f"{TOOLS}:", f"{folder / 'bin'}:"))
    return folder


def test_cmake(project: Path, prefix: Path, tmp_path: Path) -> None:
    needs("cmake", "ctest")
    recipe = project / "CMakeLists.txt"
    shutil.copy(EXAMPLES / "cmake/CMakeLists.txt", project)
    build = tmp_path / "build"

    def tested() -> Ended:
        for command in (("cmake", "-S", project, "-B", build), ("cmake", "--build", build), ("ctest", "-V", "--test-dir", build)):
            ended = run(*command)
            if ended.status != 0:
                break
        return ended

    ended = tested()
    assert ended.status == 0 and YES in ended.out, ended
    fails_in_three_ways(project, tested, lambda: changed(recipe, "REQUIRE_TYPES", "REQUIRE_TYPE"))
    shutil.copy(EXAMPLES / "cmake/CMakeLists.txt", project)
    broken(project)
    ended = tested()
    assert ended.status != 0 and BREAK in ended.out
    shutil.rmtree(project / "abi")
    ended = tested()
    assert ended.status != 0 and "abi-baseline LIBRARY FILE" in ended.out
    done("cmake", "--build", build, "--target", "keep-abi-stream")
    assert tested().status == 0


def test_cmake_without_the_module(project: Path, tmp_path: Path) -> None:
    needs("cmake")
    shutil.copy(EXAMPLES / "cmake/CMakeLists.txt", project)
    # not in the folders of the system, where a package of abi may be installed
    ended = run("cmake", "-S", project, "-B", tmp_path / "build", "-DCMAKE_FIND_USE_CMAKE_SYSTEM_PATH=OFF")
    assert ended.status != 0 and "Abi" in ended.errors, ended
    done("cmake", "-S", project, "-B", tmp_path / "build", "-DSTREAM_ABI=OFF")

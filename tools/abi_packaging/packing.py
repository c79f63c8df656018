"""Makes packages of staged files, with the tools of Debian: dpkg-deb, rpmbuild and tar. Equal files make equal packages."""

from __future__ import annotations

import hashlib
import os
import shutil
import subprocess
from dataclasses import dataclass
from pathlib import Path
from typing import Sequence

from abi_tools.faults import Fault

from abi_packaging.build_records import Release
from abi_packaging.staging import copied, place, settle

_SCRIPT = 0o755
# The folders of a system, which no package owns.
_SYSTEM_FOLDERS = {"usr", "usr/bin", "usr/lib", "usr/lib/rpm", "usr/lib/rpm/macros.d", "usr/share", "usr/share/bash-completion",
                   "usr/share/bash-completion/completions", "usr/share/doc", "usr/share/man", "usr/share/man/man1", "usr/share/cmake"}


@dataclass(frozen=True)
class Package:
    """A package: its name, its architecture, what it needs, recommends and suggests, more fields for Debian, and its description: a
    line, and then paragraphs of one line each."""

    name: str
    architecture: str
    depends: Sequence[str]
    recommends: Sequence[str]
    suggests: Sequence[str]
    fields: Sequence[str]
    description: Sequence[str]
    scripts: Sequence[tuple[str, str]] = ()


def run(time: int, folder: Path, *command: str) -> None:
    """Runs a tool of Debian that writes files with the given time. Raises a fault, in the tool's words, if it fails."""
    if shutil.which(command[0]) is None:
        raise Fault(f"there is no program {command[0]}: install the packages dpkg, rpm, tar and xz-utils")
    environment = {**os.environ, "SOURCE_DATE_EPOCH": str(time), "LC_ALL": "C", "DPKG_DEB_THREADS_MAX": "1", "XZ_OPT": "-T1"}
    ended = subprocess.run(command, cwd=folder, env=environment, capture_output=True, text=True, errors="replace", check=False)
    if ended.returncode != 0:
        said = [line for line in (ended.stderr + ended.stdout).splitlines() if line.strip()]
        raise Fault(f"{command[0]} failed with status {ended.returncode}: {'; '.join(said[-3:])}")


def debian_package(package: Package, release: Release, root: Path, output: Path) -> Path:
    """Makes a `.deb` of the files below `root`, in the folder `output`."""
    files = [path for path in sorted(root.rglob("*")) if path.is_file() and not path.is_symlink()]
    size = sum((path.stat().st_size + 1023) // 1024 for path in files)
    place(_control(package, release, size).encode(), root / "DEBIAN/control")
    sums = "".join(f"{hashlib.md5(path.read_bytes()).hexdigest()}  {path.relative_to(root)}\n" for path in files)
    place(sums.encode(), root / "DEBIAN/md5sums")
    for name, text in package.scripts:
        place(text.encode(), root / "DEBIAN" / name, _SCRIPT)
    settle(root, release.time)
    made = output / f"{package.name}_{release.version}_{package.architecture}.deb"
    run(release.time, output, "dpkg-deb", "--root-owner-group", "-Zxz", "--build", str(root), str(made))
    return made


def _control(package: Package, release: Release, size: int) -> str:
    """The control file of a Debian package whose files take `size` KiB."""
    lists = (("Depends", package.depends), ("Recommends", package.recommends), ("Suggests", package.suggests))
    first, *paragraphs = package.description
    lines = [
        f"Package: {package.name}", f"Version: {release.version}", f"Architecture: {package.architecture}",
        f"Maintainer: {release.maintainer}", f"Installed-Size: {size}",
        *(f"{field}: {', '.join(names)}" for field, names in lists if names),
        "Section: devel", "Priority: optional", *package.fields,
        f"Description: {first}", "\n .\n".join(f" {paragraph}" for paragraph in paragraphs),
    ]
    return "\n".join(lines) + "\n"


def rpm_package(package: Package, release: Release, root: Path, output: Path) -> Path:
    """Makes an `.rpm` of the files below `root`, in the folder `output`."""
    settle(root, release.time)
    work = root.parent / "rpmbuild"
    place(_spec(package, release, root).encode(), work / f"{package.name}.spec")
    defined = {"_topdir": work, "_buildhost": "localhost", "use_source_date_epoch_as_buildtime": "1",
               "source_date_epoch_from_changelog": "0", "clamp_mtime_to_source_date_epoch": "1", "_build_id_links": "none",
               "debug_package": "%{nil}", "__os_install_post": "%{nil}", "_binary_payload": "w9.gzdio", "_rpmdir": work / "made",
               "_rpmfilename": "%{NAME}-%{VERSION}-%{RELEASE}.%{ARCH}.rpm"}
    options = [word for name, value in defined.items() for word in ("--define", f"{name} {value}")]
    run(release.time, output, "rpmbuild", "-bb", f"--target={package.architecture}-linux", *options, str(work / f"{package.name}.spec"))
    (made,) = (work / "made").glob("*.rpm")
    return Path(shutil.move(made, output / made.name))


def _spec(package: Package, release: Release, root: Path) -> str:
    """The spec file of an RPM package, which copies the files and lists each of them."""
    lists = (("Requires", package.depends), ("Recommends", package.recommends), ("Suggests", package.suggests))
    first, *paragraphs = package.description
    lines = [
        f"Name: {package.name}", f"Version: {release.version}", "Release: 1", f"Summary: {first}", "License: MIT", "AutoReqProv: no",
        *(f"{tag}: {name}" for tag, names in lists for name in names),
        "%description", "\n\n".join(paragraphs),
        "%install", f'mkdir -p "%{{buildroot}}"\ncp -a "{root}/." "%{{buildroot}}"',
        "%files", "%defattr(-,root,root)", *_listed(root),
    ]
    return "\n".join(lines) + "\n"


def _listed(root: Path) -> list[str]:
    """The lines of a spec file on the files below `root`."""
    lines = []
    for path in sorted(root.rglob("*")):
        name = str(path.relative_to(root))
        if path.is_symlink() or not path.is_dir():
            lines.append(f'"/{name}"')
        elif name not in _SYSTEM_FOLDERS:
            lines.append(f'%dir "/{name}"')
    return lines


def archive(name: str, release: Release, top: Path, output: Path) -> Path:
    """Makes a tar archive of the files below `top`, in the folder `output`, whose files are in one folder."""
    folder = f"{name}-{release.version}"
    renamed = copied(top, top.parent / folder) if top.name != folder else top
    settle(renamed, release.time)
    made = output / f"{folder}-x86_64.tar.xz"
    run(release.time, renamed.parent, "tar", "--create", "--xz", "--file", str(made), "--format=gnu", "--sort=name", "--owner=0",
        "--group=0", "--numeric-owner", f"--mtime=@{release.time}", folder)
    return made

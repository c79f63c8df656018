"""What the tests of packages share: they make packages with dpkg-deb and rpmbuild, and archives that neither of them would make."""

from __future__ import annotations

import io
import subprocess
import tarfile
from pathlib import Path
from typing import Callable, Mapping, NamedTuple, Optional, Sequence, Union

from conftest import FIRST, Ended, build_id, done, needs, split, system_place, tool

Build = Callable[..., Path]
Files = Mapping[str, Path]
LIBRARIES = "usr/lib/x86_64-linux-gnu"
CHANGED = FIRST.replace('#include "shapes.h"', '#include "shapes.h"\nstruct added { int a; };').replace(
    "int call(callback_type f, shape_type *s)", "int call(callback_type f, shape_type *s, int more)")
_CONTROL = "Package: {name}\nVersion: {version}\nArchitecture: amd64\nMaintainer: a <a@example.org>\nDescription: a package\n"


def tree(folder: Path, files: Files) -> Path:
    """Puts the files of a package in their places."""
    for name, path in files.items():
        (folder / name).parent.mkdir(parents=True, exist_ok=True)
        done("cp", "-P", path, folder / name)
    return folder


def deb(folder: Path, name: str, files: Files, compression: str = "xz", version: str = "1") -> Path:
    """Makes a .deb with dpkg-deb."""
    made = tree(folder / f"{name}.tree", files)
    (made / "DEBIAN").mkdir(parents=True)
    (made / "DEBIAN/control").write_text(_CONTROL.format(name=name, version=version))
    done("dpkg-deb", "--root-owner-group", f"-Z{compression}", "-b", made, folder / f"{name}.deb")
    return folder / f"{name}.deb"


def rpm(folder: Path, name: str, files: Files) -> Path:
    """Makes a .rpm with rpmbuild."""
    needs("rpmbuild")
    made = tree(folder / f"{name}.tree", files)
    spec = folder / f"{name}.spec"
    spec.write_text(f"Name: {name}\nVersion: 1\nRelease: 1\nSummary: a package\nLicense: MIT\n%description\n%install\n"
                    f"cp -a {made}/. %{{buildroot}}\n%files\n/usr\n")
    done("rpmbuild", "-bb", "--quiet", "--define", f"_topdir {folder / 'rpmbuild'}", "--define", "debug_package %{nil}", "--define",
         "__os_install_post %{nil}", "--define", "_build_id_links none", "--define", "_rpmfilename %{NAME}.rpm", spec)
    return folder / "rpmbuild/RPMS" / f"{name}.rpm"


def parted(build: Build, folder: Path, text: str, name: str, soname: str) -> tuple[Files, Files, Path]:
    """A library as its package ships it, the files of its debug package, and the whole library."""
    whole = build(f"{name}.so", text, soname=soname)
    debug = folder / f"{name}.debug"
    stripped = split(whole, debug)
    place = str(system_place(Path(), build_id(whole)))
    return {f"{LIBRARIES}/{soname}.1.2": stripped}, {place: debug}, whole


def packages(folder: Path, *arguments: object) -> Ended:
    """Runs `abi-packages`, with a folder of the test for certificates."""
    return tool("abi-packages", "--certificates", folder / "certificates", *arguments)


class Member(NamedTuple):
    """A member of an archive: its name, its contents or else the target of a link, and its type as in tar."""

    name: str
    contents: bytes = b""
    target: str = ""
    kind: bytes = tarfile.REGTYPE
    size: Optional[int] = None


def link(name: str, target: str) -> Member:
    """A symbolic link."""
    return Member(name, b"", target, tarfile.SYMTYPE)


def tar(members: Sequence[Member], form: int = tarfile.GNU_FORMAT) -> bytes:
    """An archive of tar. A member that says a size of its own has no contents."""
    made = io.BytesIO()
    with tarfile.open(fileobj=made, mode="w", format=form, errors="surrogateescape", encoding="utf-8") as archive:
        for one in members:
            member = tarfile.TarInfo(one.name)
            member.type, member.linkname = one.kind, one.target
            member.size = len(one.contents) if one.size is None else one.size
            archive.addfile(member, io.BytesIO(one.contents) if one.size is None else None)
    return made.getvalue()


def packed(path: Path, *parts: tuple[str, bytes]) -> Path:
    """A .deb of these members, in order, after the usual first two."""
    control = tar([Member("./control", _CONTROL.format(name=path.stem, version="1").encode())])
    contents = b"!<arch>\n"
    for name, data in (("debian-binary", b"2.0\n"), ("control.tar", control), *parts):
        contents += f"{name:<16}{0:<12}{0:<6}{0:<6}{'100644':<8}{len(data):<10}`\n".encode("latin-1") + data + b"\n" * (len(data) % 2)
    path.write_bytes(contents)
    return path


def hostile_deb(path: Path, members: Union[Sequence[Member], bytes]) -> Path:
    """A .deb whose archive of files dpkg-deb would not make."""
    return packed(path, ("data.tar", members if isinstance(members, bytes) else tar(members)))


def installed(package: Path, folder: Path) -> Path:
    """What dpkg-deb or rpm2cpio unpacks of a package."""
    folder.mkdir()
    if package.suffix == ".deb":
        subprocess.run(["dpkg-deb", "-x", package, folder], check=True, capture_output=True)
    else:
        subprocess.run(f"rpm2cpio '{package}' | bsdtar -xf - -C '{folder}'", shell=True, check=True, capture_output=True)
    return folder

"""Whom `abi-release` lets in, what it leaves behind, and what it may take: other users of the machine, folders, and processes."""

from __future__ import annotations

import contextlib
import dataclasses
import datetime
import multiprocessing
import os
import pwd
import re
import shutil
import signal
import socket
import ssl
import stat
import subprocess
import sys
import tempfile
import time
from pathlib import Path
from typing import Iterator, Sequence

import pytest
from abi_release import workers
from abi_release.package_cache import KeyedFile, PackageCache
from abi_release.scratch import IN_MEMORY, PREFIX, Scratch, sweep
from abi_tools import unpacking
from abi_tools.faults import Fault
from abi_tools.package_sides import Side
from abi_tools.package_trees import File, Link, Node
from conftest import TOOLS, done, needs, run
from cryptography import x509
from cryptography.hazmat.primitives import hashes, serialization
from cryptography.hazmat.primitives.asymmetric import rsa
from cryptography.x509.oid import NameOID
from release_support import (LIBRARIES, THREE, Cluster, Host, answers, children, deb, is_alive, library, release, started, three, tree,
                             wait_for, wrapper_of)

_WAIT = "touch {go}.begun; while [ ! -e {go} ]; do sleep 0.1; done"


def listening(process: int) -> list[tuple[str, int]]:
    """The addresses at which a process and its children listen."""
    ours = children(process)
    found = []
    for line in done("ss", "--no-header", "--listening", "--tcp", "--udp", "--numeric", "--processes").splitlines():
        if ours & {int(one) for one in re.findall(r"pid=(\d+)", line)}:
            host, _, port = line.split()[4].rpartition(":")
            found.append((host, int(port)))
    return found


def unix_sockets(process: int) -> list[str]:
    """The sockets of the machine at which a process and its children listen."""
    ours = children(process)
    return [line for line in done("ss", "--no-header", "--listening", "--unix", "--processes").splitlines()
            if ours & {int(one) for one in re.findall(r"pid=(\d+)", line)}]


# Asks at each place, as a client without TLS and with a certificate of its own. Who gets an answer can also run code.
INTRUDER = """\
import asyncio, socket, sys
from distributed import Security
from distributed.comm import connect
async def answer_of(address, security):
    arguments = security.get_connection_args("client") if security else {}
    comm = await connect(address, timeout=5, **arguments)
    await comm.write({"op": "identity", "reply": True})
    said = await comm.read()
    await comm.close()
    return said
for place in sys.argv[1:]:
    host, _, port = place.rpartition(":")
    socket.create_connection((host, int(port)), timeout=5).close()
    for kind, security in (("tcp", None), ("tls", Security.temporary())):
        try:
            said = asyncio.run(asyncio.wait_for(answer_of(f"{kind}://{place}", security), 20))
            print("served", kind, place, said)
        except Exception as error:
            print("refused", kind, place, type(error).__name__)
"""


def as_nobody(folder: Path, *command: object) -> subprocess.CompletedProcess[str]:
    """Runs a program as the user nobody."""
    nobody = pwd.getpwnam("nobody")
    return subprocess.run(["setpriv", f"--reuid={nobody.pw_uid}", f"--regid={nobody.pw_gid}", "--clear-groups", *map(str, command)],
                          capture_output=True, text=True, check=False, cwd="/", timeout=600,
                          env={"PATH": os.environ["PATH"], "HOME": "/nonexistent", "TMPDIR": str(folder)})


def intruder_as_nobody(*places: str) -> list[str]:
    """What the user nobody gets at each place."""
    with tempfile.TemporaryDirectory(dir="/tmp") as folder:
        os.chmod(folder, 0o755)
        public = Path(folder, "intruder.py")
        public.write_text(INTRUDER)
        said = as_nobody(Path("/tmp"), sys.executable, public, *places)
    words = said.stdout.splitlines()
    assert len(words) == 2 * len(places), (said.stdout, said.stderr)
    return words


def test_another_user_of_the_machine_is_not_served(tmp_path: Path) -> None:
    """The processes of a run listen on the loopback only, and talk to nobody who has not the run's certificate. Nobody else can look into
    its folders. A scheduler without TLS serves the same user."""
    needs("ss", "setpriv")
    if os.getuid() != 0:
        pytest.skip("there is no right to be another user")
    with Cluster(tmp_path, workers=0) as cluster:
        wait_for(lambda: bool(listening(cluster.processes[0].pid)))
        assert intruder_as_nobody(cluster.address.removeprefix("tcp://"))[0].startswith("served tcp")
    three(tmp_path)
    (tmp_path / "tmp").mkdir()
    wrapper = wrapper_of(tmp_path, _WAIT.format(go=tmp_path / "go"))
    process = started(tmp_path, "--workers", 2, wrapper=wrapper, TMPDIR=str(tmp_path / "tmp"))
    try:
        wait_for((tmp_path / "go.begun").exists)
        found = listening(process.pid)
        # the scheduler, and two workers with their nannies
        assert {host for host, _ in found} == {"127.0.0.1"} and len(found) == 5, found
        for port in [port for _, port in found]:
            with socket.create_connection(("127.0.0.1", port)) as plain, pytest.raises((ssl.SSLError, OSError)):
                tls = ssl.SSLContext(ssl.PROTOCOL_TLS_CLIENT)
                tls.check_hostname, tls.verify_mode = False, ssl.CERT_NONE
                with tls.wrap_socket(plain) as wrapped:
                    wrapped.sendall(b"\0" * 64)
                    assert wrapped.recv(1) == b"", "there is an answer without a certificate"
                    raise OSError("it was closed")
        words = intruder_as_nobody(*(f"127.0.0.1:{port}" for _, port in found))
        assert all(line.startswith("refused") for line in words), words
        assert unix_sockets(process.pid) == []
        folders = list((tmp_path / "tmp").glob("abi-release-*"))
        assert folders and all(stat.S_IMODE(folder.stat().st_mode) == 0o700 for folder in folders)
        assert len({folder.name for folder in folders}) == 1 and re.fullmatch(r"abi-release-\w{8}", folders[0].name)
    finally:
        (tmp_path / "go").touch()
        process.communicate(timeout=400)
    assert process.returncode == 1 and answers(tmp_path) == THREE
    assert list((tmp_path / "tmp").iterdir()) == []


def test_the_dashboard_is_on_the_loopback(tmp_path: Path) -> None:
    """Only where it was asked for; it is the only thing that answers without TLS."""
    needs("ss")
    three(tmp_path)
    process = started(tmp_path, "--workers", 1, "--dashboard", wrapper=wrapper_of(tmp_path, _WAIT.format(go=tmp_path / "go")))
    wait_for((tmp_path / "go.begun").exists)
    found = listening(process.pid)
    (tmp_path / "go").touch()
    _, errors = process.communicate(timeout=400)
    assert {host for host, _ in found} == {"127.0.0.1"} and len(found) == 4, found
    assert "the dashboard is at http://127.0.0.1:" in errors


def folders_of(processes: set[int]) -> set[Path]:
    """The folders for work in progress that processes use, on the disk and in memory."""
    found = set()
    for process in processes:
        for link in Path(f"/proc/{process}/fd").glob("*"):
            with contextlib.suppress(OSError):
                place = Path(os.readlink(link))
                if place.name == "lock" and place.parent.name.startswith(PREFIX):
                    found.add(place.parent)
    return found


@pytest.mark.parametrize("number", [signal.SIGINT, signal.SIGTERM, signal.SIGHUP, signal.SIGKILL])
def test_what_a_run_leaves_behind(tmp_path: Path, number: signal.Signals) -> None:
    """A run is ended while `abi` works: no process goes on, and no folder stays, or the next run removes it."""
    three(tmp_path)
    (tmp_path / "tmp").mkdir()
    wrapper = wrapper_of(tmp_path, f"echo $$ >>{tmp_path}/runs; [ -e {tmp_path}/go ] || exec sleep 1000")
    process = started(tmp_path, "--workers", 2, wrapper=wrapper, TMPDIR=str(tmp_path / "tmp"))
    wait_for((tmp_path / "runs").exists)
    ours = children(process.pid) - {process.pid}
    assert len(ours) >= 4
    folders = folders_of({process.pid})
    assert {folder.parent for folder in folders} == {tmp_path / "tmp", IN_MEMORY}
    process.send_signal(number)
    process.communicate(timeout=100)
    assert process.returncode == (-number if number == signal.SIGKILL else 128 + number)
    wait_for(lambda: not any(is_alive(one) for one in {*ours, *map(int, (tmp_path / "runs").read_text().split())}), seconds=100)
    assert {folder.exists() for folder in folders} == {number == signal.SIGKILL}, folders
    assert set((tmp_path / "tmp").iterdir()) == {folder for folder in folders if folder.exists() and folder.parent != IN_MEMORY}
    (tmp_path / "go").touch()
    assert release(tmp_path, wrapper=wrapper, before=("env", f"TMPDIR={tmp_path / 'tmp'}")).status == 1
    assert list((tmp_path / "tmp").iterdir()) == [] and not any(folder.exists() for folder in folders)


def test_folders_of_others_are_not_used(tmp_path: Path) -> None:
    """Another user may have made a folder or a link of the name; a folder that a living process uses is not removed."""
    run_of = tmp_path / "abi-release-some"
    for mode in (0o755, 0o770):
        run_of.mkdir()
        run_of.chmod(mode)
        with pytest.raises(Fault, match="not a private folder"):
            Scratch.of_run("some", tmp_path)
        run_of.rmdir()
    (tmp_path / "target").mkdir(mode=0o700)
    run_of.symlink_to("target")
    with pytest.raises(Fault, match="not a private folder"):
        Scratch.of_run("some", tmp_path)
    run_of.unlink()
    if os.getuid() == 0:
        run_of.mkdir(mode=0o700)
        os.chown(run_of, 65534, 65534)
        with pytest.raises(Fault, match="not a private folder"):
            Scratch.of_run("some", tmp_path)
        sweep(tmp_path)
        assert run_of.is_dir()
        run_of.rmdir()
    first, second = Scratch.of_run("some", tmp_path), Scratch.of_run("some", tmp_path)
    sweep(tmp_path)
    first.leave()
    assert run_of.is_dir()
    second.leave()
    assert not run_of.exists()
    dead = Scratch.new(tmp_path)
    os.close(dead._lock)  # type: ignore[arg-type]  # pylint: disable=protected-access
    sweep(tmp_path)
    assert not dead.folder.exists()


def test_a_worker_of_a_cluster_leaves_the_folders_of_runs_that_were_killed(tmp_path: Path, monkeypatch: pytest.MonkeyPatch) -> None:
    """It does so when it works for the next run; the folder of a run for which it is working stays."""
    monkeypatch.setattr("tempfile.tempdir", str(tmp_path))
    monkeypatch.setattr(workers, "_IDLE", 0.0)
    with workers.at_work("killed"):
        killed = workers.places("killed").disk
    assert stat.S_IMODE(killed.stat().st_mode) == 0o700
    with workers.at_work("working"):
        working = workers.places("working").disk
        assert not killed.exists()
        with workers.at_work("next"):
            assert workers.places("next").disk.is_dir() and working.is_dir()
    workers.leave_all()
    assert list(tmp_path.iterdir()) == []


def cache_of(folder: Path, megabytes: int = 100) -> PackageCache:
    """A cache below a folder."""
    (folder / "cache").mkdir(exist_ok=True)
    return PackageCache(folder / "cache", megabytes)


def keyed(path: Path) -> KeyedFile:
    """A package with the digest of its file."""
    return KeyedFile(path, done("sha256sum", path).split()[0])


def entries(packages: Sequence[unpacking.Package], root: Path) -> list[dict[str, Node]]:
    """What packages install, with the names of their kept files below a folder."""
    return [{name: dataclasses.replace(node, kept=node.kept.relative_to(root)) if isinstance(node, File) and node.kept else node
             for name, node in package.tree.entries.items()} for package in packages]


def test_packages_from_the_cache_are_those_that_are_unpacked(tmp_path: Path, monkeypatch: pytest.MonkeyPatch) -> None:
    """A side of several packages, with links; each is unpacked once, also after a process was killed in the middle of it."""
    (tmp_path / "link").symlink_to("libone.so.1")
    one = deb(tmp_path, "one", {f"{LIBRARIES}/libone.so.1": library(tmp_path, "libone.so.1")})
    built = tmp_path / "tree"
    (built / "DEBIAN").mkdir(parents=True)
    (built / "DEBIAN/control").write_text("Package: two\nVersion: 1\nArchitecture: amd64\nMaintainer: a <a@example.org>\nDescription: a\n")
    (built / "lib").symlink_to("usr/lib")
    (built / "usr/lib").mkdir(parents=True)
    (built / "usr/lib/libtwo.so").symlink_to("libtwo.so.1")
    shutil.copy(library(tmp_path, "libtwo.so.1"), built / "usr/lib")
    done("dpkg-deb", "--root-owner-group", "-b", built, tmp_path / "two.deb")
    files = [one, tmp_path / "two.deb"]
    count = []
    original = unpacking.unpack

    def counted(file: Path, root: Path) -> unpacking.Package:
        count.append(file)
        return original(file, root)

    monkeypatch.setattr("abi_release.package_cache.unpack", counted)
    wanted = Side.unpacked(files, tmp_path / "wanted")
    (tmp_path / "cache").mkdir()
    (tmp_path / "cache" / f"{keyed(one).digest}.part/files/1").mkdir(parents=True)
    for name in ("first", "second"):
        found = cache_of(tmp_path).put_side([keyed(file) for file in files], tmp_path / name)
        assert tree(tmp_path / name) == tree(tmp_path / "wanted") != {}
        assert entries(found, tmp_path / name) == entries(wanted.packages, tmp_path / "wanted")
        assert stat.S_IMODE((tmp_path / name / "0").stat().st_mode) == 0o700
    assert count == files and len(wanted.libraries) == 2
    assert sum(isinstance(node, Link) for package in wanted.packages for node in package.tree.entries.values()) == 2


def _put(folder: Path, file: Path, number: int) -> None:
    cache_of(folder).put_side([keyed(file)], folder / f"side{number}")


def test_processes_that_ask_for_a_package_at_once_unpack_it_once(tmp_path: Path) -> None:
    path = deb(tmp_path, "one", {f"{LIBRARIES}/libone.so.1": library(tmp_path, "libone.so.1")})
    processes = [multiprocessing.get_context("fork").Process(target=_put, args=(tmp_path, path, number)) for number in range(4)]
    for process in processes:
        process.start()
    for process in processes:
        process.join()
        assert process.exitcode == 0
    trees = [os.stat(tmp_path / f"side{number}" / "0/1").st_ino for number in range(4)]
    assert len(set(trees)) == 1


def test_the_cache_takes_no_more_of_the_disk_than_it_may(tmp_path: Path) -> None:
    """Packages that were used longest ago go; what was handed out stays."""
    cache = cache_of(tmp_path, megabytes=3)
    made = []
    for number in range(4):
        path = library(tmp_path, f"lib{number}.so.1")
        path.write_bytes(path.read_bytes() + os.urandom(1 << 20))
        made.append(keyed(deb(tmp_path, f"lib{number}", {f"{LIBRARIES}/{path.name}": path})))
    for number, one in enumerate(made):
        cache.put_side([one], tmp_path / f"side{number}")
        cache.put_side([made[0]], tmp_path / f"again{number}")
    kept = {path.name.partition(".")[0] for path in (tmp_path / "cache").glob("*.done")}
    assert kept == {made[0].digest, made[3].digest}
    assert all(len(tree(tmp_path / f"side{number}")) == 1 for number in range(4))


def test_a_run_takes_no_more_of_the_disk_than_it_may(tmp_path: Path) -> None:
    """Six pairs of packages have a megabyte each, and 3 MB may stay; the libraries of one pair are in use, and joined."""
    for side in ("old", "new"):
        for number in range(6):
            path = library(tmp_path, f"lib{number}.so.1")
            path.write_bytes(path.read_bytes() + os.urandom(1 << 20))
            deb(tmp_path / side, f"lib{number}", {f"{LIBRARIES}/{path.name}": path})
        # with debug information that they share, packages are unpacked to the disk
        deb(tmp_path / side, "all-dbg", {})
    (tmp_path / "tmp").mkdir()
    wrapper = wrapper_of(tmp_path, f"du --summarize --block-size=1M {tmp_path}/tmp >>{tmp_path}/taken 2>/dev/null")
    ended = release(tmp_path, "--disk", 3, wrapper=wrapper, before=("env", f"TMPDIR={tmp_path / 'tmp'}"))
    assert ended.status == 0 and set(answers(tmp_path).values()) == {"yes"}, ended
    taken = [int(line.split()[0]) for line in (tmp_path / "taken").read_text().splitlines()]
    assert len(taken) >= 6 and 3 <= max(taken) <= 9, taken


CLOCK = """\
import sys, time
from pathlib import Path
from abi_release.workers import CLOCK
CLOCK.start(100, lambda: None)
CLOCK.start(1, lambda: Path(sys.argv[1]).write_text("late"))
CLOCK.stop()
time.sleep(2)
CLOCK.start(1, lambda: Path(sys.argv[1]).write_text("late"))
time.sleep(100)
"""


def test_a_worker_that_waits_for_the_system_is_ended_by_the_clock(tmp_path: Path) -> None:
    start = time.monotonic()
    ended = subprocess.run([sys.executable, "-c", CLOCK, tmp_path / "words"], env={**os.environ, "PYTHONPATH": str(TOOLS)}, check=False)
    assert ended.returncode == -signal.SIGKILL and (tmp_path / "words").read_text() == "late" and time.monotonic() - start < 60


def test_abi_is_ended_by_the_clock(tmp_path: Path) -> None:
    """It waits, and takes no processor time."""
    three(tmp_path)
    wrapper = wrapper_of(tmp_path, "[ \"$1\" != check ] || ! grep -qa lib1.so.1 \"$PWD/old\" || exec sleep 1000")
    ended = release(tmp_path, "--clock", 3, "--tries", 1, wrapper=wrapper)
    assert ended.status == 2 and answers(tmp_path) == {**THREE, "lib1 lib1.so.1": "cannot tell"}, ended
    assert "its limit is 3 seconds by the clock" in (tmp_path / "out/table.txt").read_text()


# Reading one package takes long.
WAITING = """
def _waiting(cls, file, read=SmallPackage.read.__func__):
    import time
    time.sleep(1000 * file.name.startswith("lib0"))
    return read(cls, file)
SmallPackage.read = classmethod(_waiting)
"""


def test_a_package_at_which_a_worker_waits_costs_a_line(tmp_path: Path) -> None:
    """The tools wait for it, as on a file system that does not answer; the worker ends by its clock, and the others are judged."""
    three(tmp_path)
    shutil.copytree(TOOLS, tmp_path / "tools", ignore=shutil.ignore_patterns("__pycache__"))
    with (tmp_path / "tools/abi_release/small_packages.py").open("a") as module:
        module.write(WAITING)
    command = [tmp_path / "tools/abi-release", "old", "new", "--out", "out", "--workers", "1", "--clock", "10", "--tries", "1"]
    ended = run(*command, folder=tmp_path)
    assert ended.status == 1 and answers(tmp_path) == {"lib0 -": "cannot tell", **{key: THREE[key] for key in THREE if "lib0" not in key}}
    assert "the worker took more than 20 seconds over it" in (tmp_path / "out/table.txt").read_text(), ended


def keys(folder: Path, authority: str, *names: str) -> None:
    """Makes a certificate authority, and certificates that it signs, each with its key."""
    made = {}
    for name in (authority, *names):
        key = rsa.generate_private_key(public_exponent=65537, key_size=2048)
        issuer = made.get(authority, key)
        builder = x509.CertificateBuilder().subject_name(_name(name)).issuer_name(_name(authority)).public_key(key.public_key())
        now = datetime.datetime(2020, 1, 1)
        builder = builder.serial_number(x509.random_serial_number()).not_valid_before(now).not_valid_after(datetime.datetime(2100, 1, 1))
        builder = builder.add_extension(x509.BasicConstraints(ca=name == authority, path_length=None), critical=True)
        made[name] = key
        (folder / f"{name}.pem").write_bytes(builder.sign(issuer, hashes.SHA256()).public_bytes(serialization.Encoding.PEM))
        (folder / f"{name}.key").write_bytes(key.private_bytes(
            serialization.Encoding.PEM, serialization.PrivateFormat.PKCS8, serialization.NoEncryption()))


def _name(text: str) -> x509.Name:
    return x509.Name([x509.NameAttribute(NameOID.COMMON_NAME, text)])


def test_a_cluster_with_tls(tmp_path: Path) -> None:
    """It works with a certificate of the cluster's authority, and with no other; without TLS it must be asked for in so many words."""
    three(tmp_path)
    keys(tmp_path, "authority", "member")
    keys(tmp_path, "others", "stranger")
    wrapper = wrapper_of(tmp_path, "")
    files = ("--tls-ca-file", tmp_path / "authority.pem", "--tls-cert", tmp_path / "member.pem", "--tls-key", tmp_path / "member.key")
    with Cluster(tmp_path, protocol="tls", options=files) as cluster:
        given = ("--scheduler", cluster.address, "--tls-ca", tmp_path / "authority.pem", "--patience", 60)
        for cert in ("stranger", "none"):
            ended = release(tmp_path, *given, "--tls-cert", tmp_path / f"{cert}.pem", "--tls-key", tmp_path / f"{cert}.key", "--patience", 5,
                            out=cert)
            assert ended.status == 2 and set(answers(tmp_path, cert).values()) == {"cannot tell"}, ended
        ended = release(tmp_path, *given, "--tls-cert", tmp_path / "member.pem", "--tls-key", tmp_path / "member.key", wrapper=wrapper)
        assert ended.status == 1 and answers(tmp_path) == THREE, ended
        plain = cluster.address.replace("tls://", "tcp://")
        ended = release(tmp_path, "--scheduler", plain, "--insecure", "--patience", 5, out="plain")
        assert ended.status == 2 and set(answers(tmp_path, "plain").values()) == {"cannot tell"}, ended


def test_a_cluster_without_tls_is_refused(tmp_path: Path) -> None:
    three(tmp_path)
    some = ("--tls-ca", "a", "--tls-cert", "b", "--tls-key", "c")
    for options, words in ((("--scheduler", "tcp://127.0.0.1:1"), "only --insecure allows that"),
                           (("--scheduler", "tcp://127.0.0.1:1", *some), "only --insecure allows that"),
                           (("--scheduler", "tls://127.0.0.1:1", *some[:4]), "only --insecure allows that"),
                           (("--scheduler", "tls://127.0.0.1:1", "--insecure"), "a cluster without TLS"),
                           (("--scheduler", "tcp://127.0.0.1:1", "--insecure", *some), "a cluster without TLS"),
                           (some, "for the cluster of --scheduler"), (("--insecure",), "for the cluster of --scheduler"),
                           (("--scheduler", "tls://127.0.0.1:1", *some, "--dashboard"), "has its own")):
        ended = release(tmp_path, *options)
        assert ended.status == 64 and words in ended.errors and not (tmp_path / "out").exists(), ended


def on_host(name: str) -> tuple[str, ...]:
    """What runs a command in a network namespace. `ip netns exec` also mounts, which fails where the root is no mount point, as in a chroot."""
    return ("nsenter", f"--net=/run/netns/{name}")


@contextlib.contextmanager
def three_hosts() -> Iterator[list[Host]]:
    """Three hosts on one network, each in a network namespace of its own."""
    names = [f"abi-{os.getpid()}-{number}" for number in range(3)]
    first = on_host(names[0])
    try:
        for name in names:
            done("ip", "netns", "add", name)
            done(*on_host(name), "ip", "link", "set", "lo", "up")
        done(*first, "ip", "link", "add", "bridge", "type", "bridge")
        done(*first, "ip", "address", "add", "10.77.0.1/24", "dev", "bridge")
        done(*first, "ip", "link", "set", "bridge", "up")
        for number, name in enumerate(names[1:], 2):
            host = on_host(name)
            done(*host, "ip", "link", "add", "wire", "type", "veth", "peer", "name", f"wire{number}", "netns", names[0])
            done(*host, "ip", "address", "add", f"10.77.0.{number}/24", "dev", "wire")
            done(*host, "ip", "link", "set", "wire", "up")
            done(*first, "ip", "link", "set", f"wire{number}", "master", "bridge", "up")
        yield [Host(f"10.77.0.{number}", on_host(name)) for number, name in enumerate(names, 1)]
    finally:
        for name in names:
            run("ip", "netns", "delete", name)


def test_a_cluster_of_several_hosts(tmp_path: Path) -> None:
    """A host without a certificate of the cluster's authority gets no answer from the scheduler or the worker, and no run."""
    needs("ip", "nsenter", "ss")
    if os.getuid() != 0 or run("unshare", "--net", "true").status != 0:
        pytest.skip("there is no right to make networks")
    three(tmp_path)
    keys(tmp_path, "authority", "member")
    keys(tmp_path, "others", "stranger")
    wrapper = wrapper_of(tmp_path, "")
    files = [("--tls-ca", "--tls-ca-file"), ("--tls-cert",), ("--tls-key",)]
    members = [tmp_path / name for name in ("authority.pem", "member.pem", "member.key")]
    (tmp_path / "intruder.py").write_text(INTRUDER)
    with three_hosts() as hosts, Cluster(tmp_path, protocol="tls", hosts=hosts[:2], options=[
            word for (*_, name), file in zip(files, members) for word in (name, file)]) as cluster:
        given = [word for (name, *_), file in zip(files, members) for word in (name, file)]
        ended = release(tmp_path, "--scheduler", cluster.address, *given, wrapper=wrapper, before=hosts[0].command)
        assert ended.status == 1 and answers(tmp_path) == THREE, ended
        places = []
        for host in hosts[:2]:
            listed = done(*host.command, "ss", "--no-header", "--listening", "--tcp", "--numeric").splitlines()
            places += [place for place in (line.split()[3] for line in listed) if not place.startswith("127.0.0.1:")]
        assert {place.partition(":")[0] for place in places} == {"10.77.0.1", "10.77.0.2"}, places
        said = done(*hosts[2].command, sys.executable, tmp_path / "intruder.py", *places).splitlines()
        assert len(said) == 2 * len(places) and all(line.startswith("refused") for line in said), said
        strangers = ("--tls-ca", members[0], "--tls-cert", tmp_path / "stranger.pem", "--tls-key", tmp_path / "stranger.key")
        ended = release(tmp_path, "--scheduler", cluster.address, *strangers, "--patience", 5, out="stranger", before=hosts[2].command)
        assert ended.status == 2 and set(answers(tmp_path, "stranger").values()) == {"cannot tell"}, ended

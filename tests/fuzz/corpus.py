"""The sound files to change: libraries that gcc and clang make from the sources of the tests, one of the system, and generated ones
of kinds that take much time or memory when they are large.

usage: python3 -m fuzz.corpus PROGRAM SOURCES

Makes the files, and a list of them, in the folder that it runs in. SOURCES is the folder of C sources.
"""

import json
import shutil
import subprocess
import sys
from pathlib import Path

from hostile.__main__ import ALL
from hostile.layouts import typedefs_of_chain

from .damage import Base
from .runs import Runner
from .trials import OTHER, SMALL, Sound

LIST = "corpus.json"
CERTIFICATE = "certificate"
# Libraries by name: their sources, and how to build them.
BUILDS = {
    "old.c": ("-O1", "-gdwarf-5"),
    "unversioned.c": ("-O1",),
    "shapes_1.c": ("-O1", "-gdwarf-4"),
    "places.c": ("-O0", "-gdwarf-5"),
    "ruled_types.c": ("-O1", "-gdwarf-5"),
    "entries.c": ("-O2", "-gdwarf-5"),
}
SYSTEM = "/lib/x86_64-linux-gnu/libpthread.so.0"
# Generated libraries: their kinds, with sizes that make small files.
MADE = {
    "ranges": 20, "pairs_of_ranges": 20, "one_origin": 8, "enumerators": 80, "typedefs": 6,
    "colliding_signatures": 8, "short_versions": 6, "two_tables": 4, "rings": 5, "sonames": 6,
}  # fmt: skip
# A chain of 500 typedefs, as in bench/, takes a tenth of a second.
CHAIN = 40
LARGEST = 160_000
# No padding between segments, since no library is loaded, and a smaller file is read sooner.
DENSE = "-Wl,-z,noseparate-code,-z,norelro,-z,max-page-size=64,--build-id=none"


def compiled(compiler: str, name: str, output: str, options: tuple[str, ...]) -> None:
    words = [compiler, "-shared", "-fPIC", "-w", "-nostdlib", DENSE, *options, "-o", output, name]
    subprocess.run(words, check=True, capture_output=True)


def of_compilers(sources: Path) -> dict[str, bytes]:
    """Libraries by gcc, and by clang if it is installed."""
    awk = ["awk", "-v", "first=1", "-v", "last=3", "-f", str(sources / "entries.awk")]
    Path("entries.c").write_bytes(subprocess.run(awk, check=True, capture_output=True).stdout)
    made = {}
    for compiler in ("gcc", "clang"):
        if shutil.which(compiler) is None:
            continue
        for name, options in BUILDS.items():
            source = name if name == "entries.c" else str(sources / name)
            compiled(compiler, source, "made.so", options)
            made[f"{compiler} {name}"] = Path("made.so").read_bytes()
    compiled("gcc", "entries.c", "made.so", ("-gdwarf-5", "-fdebug-types-section"))
    made["gcc type units"] = Path("made.so").read_bytes()
    compiled("gcc", str(sources / "hand_entries.s"), "made.so", ())
    made["hand_entries.s"] = Path("made.so").read_bytes()
    script = f"-Wl,--version-script={sources / 'versions.map'}"
    compiled("gcc", str(sources / "versions.c"), "made.so", ("-DBUILD=1", "-g", script, "-Wl,-soname,versions.so.1"))
    made["gcc versions.c"] = Path("made.so").read_bytes()
    return made


def made_ones() -> dict[str, bytes]:
    kinds = {kind.name: kind for kind in ALL}
    made = {name: kinds[name].make(size).files["old"] for name, size in MADE.items()}
    return made | {"chained_names": typedefs_of_chain(CHAIN, 4).files["old"]}


def entries_of(runner: Runner, contents: bytes) -> list[int]:
    """The offsets of the entries of a library, as the program lists them."""
    Path("base").write_bytes(contents)
    answer = runner.run_alone("entries", "base")
    if answer.status != 0:
        return []
    return [int(line.split()[0]) for line in answer.output.splitlines()]


def libraries(sources: Path) -> dict[str, bytes]:
    found = of_compilers(sources) | made_ones()
    if Path(SYSTEM).exists():
        found["libpthread of the system"] = Path(SYSTEM).read_bytes()
    return {name: contents for name, contents in sorted(found.items()) if len(contents) <= LARGEST}


def make(program: str, sources: Path) -> None:
    """Makes the corpus in the folder that it runs in."""
    runner = Runner(program, Path(), 0)
    found = libraries(sources)
    for number, contents in enumerate(found.values()):
        Path(f"base{number}").write_bytes(contents)
    Path(SMALL).write_bytes(found["gcc ruled_types.c"])
    Path(OTHER).write_bytes(found["gcc old.c"])
    answer = runner.run_alone("check", SMALL, SMALL)
    if answer.status != 0:
        sys.exit(f"the sound library is answered with status {answer.status}")
    Path(CERTIFICATE).write_bytes(answer.output)
    Path(LIST).write_text(json.dumps({name: entries_of(runner, contents) for name, contents in found.items()}))


def read(folder: Path) -> Sound:
    """The corpus in a folder. The two libraries of rule files and certificates are copied into the folder that it runs in."""
    for name in (SMALL, OTHER):
        shutil.copy(folder / name, name)
    bases = []
    for number, (name, entries) in enumerate(json.loads((folder / LIST).read_text()).items()):
        file = folder / f"base{number}"
        bases.append(Base(name, file.read_bytes(), entries, str(file)))
    return Sound(bases, (folder / CERTIFICATE).read_bytes())


if __name__ == "__main__":
    if len(sys.argv) != 3:
        sys.exit(__doc__)
    make(sys.argv[1], Path(sys.argv[2]))

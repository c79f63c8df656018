"""Chains of builds: `abi verify` accepts what `abi compose` joins, and `abi check` on the ends of a chain agrees."""

from __future__ import annotations

import os
import random
from concurrent.futures import ThreadPoolExecutor
from dataclasses import dataclass, replace
from pathlib import Path
from typing import Callable

from conftest import abi, done

CHAINS = 200
VERSIONS = 10


@dataclass(frozen=True)
class Source:
    """The source of one build: structures and functions, and their order."""

    functions: tuple[str, ...]
    structures: tuple[str, ...] = ()
    typedefs: int = 0
    parameter: str = "s"
    const: bool = False
    order: int = 0

    def text(self) -> str:
        """The source in C."""
        rnd = random.Random(self.order)
        functions = list(self.functions)
        rnd.shuffle(functions)
        layers = ["typedef struct point { int x, y; long weight; struct point *next; } point_0;"]
        layers += [f"typedef point_{i} point_{i + 1};" for i in range(self.typedefs)]
        kept = "const " if self.const else ""
        shown = f"point_{self.typedefs}"
        bodies = [f"long {name}({kept}{shown} *{self.parameter}, int k) {{ return {self.parameter}->weight + k + {i}; }}"
                  for i, name in enumerate(functions)]
        extra = [f"struct {name} {{ int a; struct {name} *up; point_0 at; }}; int of_{name}(struct {name} *q) {{ return q->a; }}"
                 for name in self.structures]
        rnd.shuffle(extra)
        return "\n".join(layers + extra + bodies) + "\n"


def edited(source: Source, rnd: random.Random) -> Source:
    """The source after an edit that keeps its interface."""
    edits: list[Callable[[], Source]] = [
        lambda: replace(source, functions=(*source.functions, f"added_{len(source.functions)}")),
        lambda: replace(source, structures=(*source.structures, f"fresh_{len(source.structures)}")),
        lambda: replace(source, typedefs=source.typedefs + 1),
        lambda: replace(source, parameter=f"p{rnd.randrange(100)}"),
        lambda: replace(source, const=not source.const),
        lambda: replace(source, order=rnd.randrange(1000)),
    ]
    return rnd.choice(edits)()


def built(folder: Path, name: str, source: Source) -> Path:
    """Builds the library of a source."""
    library = folder / f"{name}.so"
    text = folder / f"{name}.c"
    text.write_text(source.text())
    done("gcc", "-shared", "-fPIC", "-g", "-O1", "-Wl,-soname,libchain.so.1", "-o", library, text)
    return library


def certificate(folder: Path, old: Path, new: Path) -> Path:
    """The certificate that `abi check` prints."""
    written = folder / f"{old.stem}-{new.stem}.cert"
    written.write_text(done(os.environ["ABI"], "check", old, new))
    return written


def composed(folder: Path, first: Path, middle: Path, last: Path, one: Path, other: Path) -> Path:
    """Composes two certificates. `abi verify` must accept the result for the ends of the chain."""
    text = done(os.environ["ABI"], "compose", first, middle, last, one, other)
    written = folder / f"{first.stem}-{last.stem}.composed"
    written.write_text(text)
    verified = abi("verify", first, last, written)
    assert (verified.status, verified.out) == (0, "accepted\n"), verified
    return written


def chain(folder: Path, seed: int) -> None:
    """Checks a chain of three libraries: its composed certificate is accepted, and its ends are compatible."""
    folder.mkdir()
    rnd = random.Random(seed)
    source = Source(functions=tuple(f"f{i}" for i in range(rnd.randrange(1, 4))))
    libraries = []
    for name in "abc":
        libraries.append(built(folder, name, source))
        source = edited(edited(source, rnd), rnd)
    first, middle, last = libraries
    composed(folder, first, middle, last, certificate(folder, first, middle), certificate(folder, middle, last))
    assert abi("check", first, last).status == 0


def test_certificates_of_chains_compose(tmp_path: Path) -> None:
    with ThreadPoolExecutor(os.cpu_count()) as pool:
        assert len(list(pool.map(lambda seed: chain(tmp_path / str(seed), seed), range(CHAINS)))) == CHAINS


def test_a_chain_of_ten_versions_folds_into_one_certificate(tmp_path: Path) -> None:
    rnd = random.Random(7)
    source = Source(functions=("f", "g", "h"))
    libraries = []
    for version in range(VERSIONS):
        libraries.append(built(tmp_path, f"v{version}", source))
        source = edited(source, rnd)
    first = libraries[0]
    joined = certificate(tmp_path, first, libraries[1])
    for middle, last in zip(libraries[1:], libraries[2:]):
        joined = composed(tmp_path, first, middle, last, joined, certificate(tmp_path, middle, last))
    assert abi("check", first, libraries[-1]).status == 0


def test_a_certificate_of_another_library_is_named(tmp_path: Path) -> None:
    source = Source(functions=("f",))
    first = built(tmp_path, "a", source)
    middle = built(tmp_path, "b", replace(source, functions=("f", "g")))
    last = built(tmp_path, "c", replace(source, functions=("f", "g", "h")))
    one, other = certificate(tmp_path, first, middle), certificate(tmp_path, middle, last)
    assert abi("compose", first, middle, last, other, other).out.startswith("refused first 70 OtherInput 2")
    assert abi("compose", first, middle, last, one, one).out.startswith("refused second 70 OtherInput 2")
    ended = abi("compose", first, middle, last, one, first)
    assert (ended.status, ended.out) == (2, "unreadable certificate2 60 Line 1\n"), ended

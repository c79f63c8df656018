"""Texts of certificates, and the answers of `abi verify` to them."""

from __future__ import annotations

import hashlib

from .programs import Runs
from .spelled import library

ONE = ("int:4/int;fn >1", "f::function:16:2")
TWO = ("int:4/int;fn >1;int:4/int;fn >3", "f::function:16:2 g::function:16:4")
# What a rule file leaves out for each word of a row.
RULES = {
    "direct": "[suppress_type]\nname = int\naccessed_through = direct\n",
    "pointer": "[suppress_type]\nname = int\naccessed_through = pointer\n",
    "dropped": "[suppress_function]\nname = f\n",
}
OTHER = "1" * 64


def digest(data: bytes) -> str:
    """The SHA-256 of an input in hexadecimal digits."""
    return hashlib.sha256(data).hexdigest()


def first_lines(inputs: dict[str, bytes], version: int = 2) -> str:
    """The lines of a certificate that name its inputs, which are `old`, `new` and `rules`."""
    return f"yes {version}\n" + "".join(f"{name} {digest(data)}\n" for name, data in inputs.items())


def _new_library(words: list[str]) -> bytes:
    types, exports = TWO if "two" in words else ONE
    if "wide" in words:
        types = types.replace("int:4", "int:8")
    if "kind" in words:
        exports = exports.replace("function", "object")
    return library(types, ("b.so " if "soname" in words else "a.so ") + exports)


def judged(runs: Runs, changes: str, lines: str) -> str:
    """The answer to the certificate with these lines for two libraries, of which the second may be changed."""
    words = changes.split()
    types, exports = TWO if "two" in words else ONE
    rules = "".join(text for word, text in RULES.items() if word in words)
    inputs = {"old": library(types, f"a.so {exports}"), "new": _new_library(words), "rules": rules.encode()}
    named = first_lines(inputs).splitlines()
    for number, name in enumerate(inputs, 1):
        if name in words:
            named[number] = f"{name} {OTHER}"
    return verified(runs, inputs, "\n".join([*named, *lines.split(";")]) + "\n")


def verified(runs: Runs, inputs: dict[str, bytes], text: str) -> str:
    """What `verify` answers, without the name of a fault of the text."""
    for name, data in inputs.items():
        runs.write(name, data)
    runs.write("certificate", text.encode())
    told = runs.abi("verify", "--rules", "rules", "old", "new", "certificate").strip()
    words = told.split()
    return f"unreadable {words[2]} {words[4]}" if words[:2] == ["unreadable", "certificate"] else told


def fault_of_text(runs: Runs, head: str, lines: str) -> str:
    """The number and the line of a text's fault, or zeros."""
    data = library(*ONE_OF_ITSELF)
    inputs = {"old": data, "new": data, "rules": b""}
    first = {"head": first_lines(inputs), "head 1": first_lines(inputs, 1)}.get(head)
    text = (head.replace("/", "\n") if first is None else first) + lines.replace("/", "\n").replace("\\r", "\r")
    told = verified(runs, inputs, text)
    return told.removeprefix("unreadable ") if told.startswith("unreadable ") else "0 0"


ONE_OF_ITSELF = (ONE[0], f"- {ONE[1]}")


def written(runs: Runs, row: list[str]) -> tuple[str, str]:
    """The lines that `check` writes for two libraries after those that name the inputs, and those that `migrate` makes of them if each
    pair line stands once, without its way. `verify` must accept both certificates."""
    old_types, new_types, old_exports, new_exports = row
    inputs = {"old": library(old_types, old_exports), "new": library(new_types, new_exports), "rules": b""}
    for name, data in inputs.items():
        runs.write(name, data)
    made = runs.abi("check", "old", "new")
    head = first_lines(inputs)
    assert made.startswith(head), made
    assert verified(runs, inputs, made) == "accepted", made
    first = [line.removesuffix(" direct").removesuffix(" pointer") for line in made.removeprefix(head).splitlines()]
    runs.write("first", (first_lines(inputs, 1) + "".join(f"{line}\n" for line in dict.fromkeys(first))).encode())
    migrated = runs.abi("migrate", "old", "new", "first")
    assert migrated.startswith(head), migrated
    assert verified(runs, inputs, migrated) == "accepted", migrated
    return tuple(";".join(text.removeprefix(head).splitlines()) for text in (made, migrated))  # type: ignore[return-value]

"""Checks certificates that were kept against the libraries of packages."""

from __future__ import annotations

import os
import stat
from dataclasses import dataclass
from pathlib import Path
from typing import Optional

from abi_tools.abi_program import YES, Abi, Answer
from abi_tools.baselines import baseline
from abi_tools.elf_files import ElfFile
from abi_tools.faults import Fault
from abi_tools.gates import Judgement, Library, judge_answer
from abi_tools.limits import LARGEST_FILE
from abi_tools.streams import inflated
from abi_tools.verdicts import Verdict

# The name in the folder in which `abi` runs.
_COPY = Path("certificate")
# The exit status of `abi verify` if it refuses a certificate.
_REFUSED = 5


@dataclass(frozen=True)
class Libraries:
    """Both libraries that a certificate must be of, and the rule file, if there is one."""

    old: Path
    new: Path
    rules: Optional[Path]

    def words(self) -> list[str]:
        """The arguments of `abi` for them."""
        options = [] if self.rules is None else [f"--rules={self.rules}"]
        return [*options, "--", str(self.old), str(self.new)]

    def baselines(self, folder: Path) -> Optional["Libraries"]:
        """The baselines of both, which are written beside them below the folder; None if they have none."""
        made = [path.with_name(f"{path.name}.abi") for path in (self.old, self.new)]
        try:
            for path, library in zip(made, (self.old, self.new)):
                (folder / path).write_bytes(baseline(ElfFile(folder / library)))
        except Fault:
            return None
        return Libraries(made[0], made[1], self.rules)


def verified(abi: Abi, libraries: Libraries, certificate: Path, least_share: float) -> Judgement:
    """The verdict on two libraries by a certificate of them or of their baselines: if `abi verify` accepts it, what the gate says of a
    yes with this certificate; otherwise that it cannot be told. What a certificate says is believed only when it has been accepted."""
    text = _text(certificate)
    (abi.folder / _COPY).write_bytes(text)
    checked = abi.run("verify", *libraries.words(), str(_COPY))
    if _is_of_others(checked):
        kept = libraries.baselines(abi.folder)
        again = None if kept is None else abi.run("verify", *kept.words(), str(_COPY))
        if kept is not None and again is not None and not _is_of_others(again):
            libraries, checked = kept, again
    if checked.status != YES or checked.text != "accepted\n":
        said = "; ".join([*checked.text.splitlines(), *(line.removeprefix("abi: ") for line in checked.notes.splitlines())])
        reason = f"{certificate} is no certificate of these libraries: {said}" if checked.status > 0 and said else checked.why()
        return Judgement(Verdict.CANNOT_TELL, (reason,), None)
    answer = Answer(YES, text.decode("utf-8", "surrogateescape"), checked.notes)
    return judge_answer(answer, Library.read(abi, libraries.old), Library.read(abi, libraries.new), least_share)


def _is_of_others(checked: Answer) -> bool:
    """Whether `abi verify` said that the digests in a certificate are those of other files."""
    return checked.status == _REFUSED and checked.text.startswith("refused 70 OtherInput ")


def certificate_in(folder: Path, name: str) -> Path:
    """The certificate of the library `name` in a folder: `NAME.cert` or, if there is none, the `NAME.cert.gz` that dh_compress makes of
    a longer one. Raises a fault if there is neither."""
    for place in (folder / f"{name}.cert", folder / f"{name}.cert.gz"):
        if os.path.lexists(place):
            return place
    raise Fault(f"there is no certificate {folder / name}.cert")


def _text(certificate: Path) -> bytes:
    """The bytes of a certificate, inflated. Raises a fault if it is no regular file (the folder may have come in a package) or is too
    long."""
    text = _stored(certificate)
    if certificate.suffix != ".gz":
        return text
    plain = bytearray()
    for piece in inflated(iter((text,)), ".gz", certificate):
        plain += piece
        if len(plain) > LARGEST_FILE:
            raise Fault(f"{certificate} inflates to more than {LARGEST_FILE} bytes")
    return bytes(plain)


def _stored(certificate: Path) -> bytes:
    """The bytes of the file that a certificate is."""
    try:
        file = os.open(certificate, os.O_RDONLY | os.O_NOFOLLOW | os.O_NONBLOCK | os.O_CLOEXEC)
    except FileNotFoundError as error:
        raise Fault(f"there is no certificate {certificate}") from error
    with os.fdopen(file, "rb") as stream:
        status = os.fstat(file)
        if not stat.S_ISREG(status.st_mode) or status.st_size > LARGEST_FILE:
            raise Fault(f"{certificate} is no file, or has more than {LARGEST_FILE} bytes")
        return stream.read(LARGEST_FILE + 1)

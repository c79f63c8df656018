"""May a new build of a C shared library replace the old one? The answer of the proved program `abi-json`, for Python.

    import abi

    answer = abi.check("old.so", "new.so", rules="abi.rules")
    if answer.verdict is abi.Verdict.YES:
        Path("upgrade.cert").write_bytes(answer.certificate)
    else:
        for found in answer.breaks:
            print(found.rule, found.export, found.path, found.detail)

`check` returns an answer only for yes and no. If there is neither, as for a file with a fault, it raises `NoAnswer`, which says why. So an
error is never a yes and never a no.
"""

from __future__ import annotations

from abi.answers import Answer, Break, Input, Note, Place, Value, Verdict
from abi.programs import NoAnswer, check

__all__ = ["Answer", "Break", "Input", "NoAnswer", "Note", "Place", "Value", "Verdict", "check"]

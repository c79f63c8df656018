"""A few hundred changed packages: `python3 -m fuzz_packages 20000` tries more."""

from __future__ import annotations

import datetime
import subprocess
import sys
from pathlib import Path

from conftest import needs

_TESTS = Path(__file__).resolve().parents[1]
# A judge that says yes to all, so that the fuzzer must find the library that breaks.
_ALWAYS_YES = """
import sys
from fuzz_packages import __main__ as fuzzer
from fuzz_packages.trials import Trials
from abi_tools.abi_program import Answer
from abi_tools.gates import Judgement
from abi_tools.verdicts import Verdict
Trials._judge = lambda *_: Judgement(Verdict.YES, (), Answer(0, "yes 2\\n", ""), 1, 1)
fuzzer._keep = lambda *_: None
sys.exit(fuzzer.main(["30", "a seed"]))
"""


def fuzzed(*arguments: str) -> "subprocess.CompletedProcess[str]":
    """Runs Python on the fuzzer. A shell starts it, since Linux counts the peak memory of the process that starts a program to the
    program, too, and that of the tests may be large."""
    needs("rpmbuild", "rpm2cpio", "bsdtar")
    return subprocess.run(["sh", "-c", '"$@"; exit $?', "sh", sys.executable, "-B", *arguments], cwd=_TESTS,
                          capture_output=True, text=True, check=False,
                          env={"PATH": "/usr/bin:/bin", "PYTHONPATH": f"{_TESTS}:{_TESTS.parent / 'tools'}", "ABI": "/bin/true"})


def test_changed_packages() -> None:
    ended = fuzzed("-m", "fuzz_packages", "200", str(datetime.date.today()))
    assert ended.returncode == 0 and " 0 wrong answers" in ended.stdout, ended


def test_the_fuzzer_sees_a_wrong_yes() -> None:
    ended = fuzzed("-c", _ALWAYS_YES)
    assert ended.returncode == 1 and ended.stderr == "" and not ended.stdout.endswith(" 0 wrong answers\n"), ended

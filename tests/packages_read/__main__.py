"""The command line of this package."""

from __future__ import annotations

import sys
from collections import Counter
from pathlib import Path

sys.dont_write_bytecode = True
sys.path.insert(0, str(Path(__file__).resolve().parents[2] / "tools"))

from packages_read.comparing import HEAD, PackageLine, compared  # noqa: E402
from packages_read.debian_packages import debug_packages, downloaded  # noqa: E402


def main() -> int:
    """Compares packages as the arguments say, and returns 0 if all were downloaded."""
    if len(sys.argv) < 2:
        print("usage: python3 -m packages_read FOLDER [DEBUG_PACKAGE..]", file=sys.stderr)
        return 64
    folder = Path(sys.argv[1])
    folder.mkdir(parents=True, exist_ok=True)
    print(HEAD)
    total = PackageLine("all")
    missing = []
    for debug in debug_packages(sys.argv[2:]):
        debug_files = [downloaded(name, folder) for name in (debug.name, *debug.others)]
        for name in debug.libraries:
            files = [file for file in (downloaded(name, folder), *debug_files) if file is not None]
            if len(files) < 2 + len(debug.others):
                missing.append(name)
                continue
            line = compared(name, files)
            total.counts.update(line.counts)
            print(line.text(), flush=True)
    print(total.text())
    print(_summary(total.counts, missing), file=sys.stderr)
    return 1 if missing else 0


def _summary(counts: Counter[str], missing: list[str]) -> str:
    """How many libraries there were, and which packages were not downloaded."""
    said = f"{counts['read']} of {counts['libraries']} libraries read, {counts['compared']} compared"
    return said + (f"; not downloaded: {', '.join(missing)}" if missing else "")


sys.exit(main())

"""Whether docs/evidence/AUDIT.md and docs/evidence/CONTRACTS.md say what the sources say: tests/audit.sh says how it is called."""

from __future__ import annotations

import difflib
import sys

from .definitions import ROOT
from .pages import PAGES


def main(arguments: list[str]) -> int:
    """Checks the pages, or writes them."""
    stale = 0
    for path, made in PAGES.items():
        name, text = str(path.relative_to(ROOT)), made()
        found = path.read_text(encoding="utf-8") if path.exists() else ""
        if arguments == ["--write"]:
            path.write_text(text, encoding="utf-8")
        elif text != found:
            print(*difflib.unified_diff(found.splitlines(), text.splitlines(), name, "the sources", lineterm="", n=0), sep="\n", file=sys.stderr)
            stale += 1
    print(f"{len(PAGES) - stale} pages are up to date" if not stale else f"{stale} pages are stale: tests/audit.sh --write makes them")
    return 1 if stale else 0


if __name__ == "__main__":
    sys.exit(main(sys.argv[1:]))

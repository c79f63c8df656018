#!/usr/bin/env bash
# Runs each command of the pages word by word, and compares what it prints with what the page shows.
#
#   tests/pages.sh [PAGE..]            builds the programs of this repository; runs all pages if none is named
#   ABI=/path/of/abi tests/pages.sh    uses another one; ABI_JSON does the same for abi-json
#   tests/pages.sh --print PAGE        prints a page with the actual output of its commands
#
# The commands are in ```console blocks, after `$ `. A line `..` stands for any lines, and `9aa62e3a..` for a digest. `cat` of a file
# that does not exist makes it. Commands that need a mirror of Debian are left out if no mirror answers. The packages of README take a
# minute or two of processor time.
set -eu
title="pages"
tools="gcc g++ abidiff objcopy strip make dh dpkg-buildpackage python3 bsdtar /usr/bin/python3 jq dask-scheduler dask-worker prlimit /usr/bin/time"
crate=abi_cli
print=
[ "${1:-}" != --print ] || { print=--print && shift; }
[ $# -gt 0 ] || set -- README.md docs/GUIDE.md docs/FAQ.md docs/RULE_FILES.md docs/PACKAGES.md \
    docs/manual/REPORTS.md docs/manual/LAYOUTS.md docs/manual/APPLICATIONS.md docs/manual/RELEASES.md
pages=$*
. "$(dirname "$0")/common.bash"

program_of abi_json 64 "${ABI_JSON:-}"
version=$(gcc -dumpfullversion)
if [ "${version%.*}" != 12.2 ]; then
    why="gcc $version is not the one of the pages, 12.2"
    [ -n "${SKIP_MISSING_TOOLS:-}" ] || fail "$why (with SKIP_MISSING_TOOLS=1 this is left out)"
    told "nothing ran, since $why"
    exit 0
fi

set --
for page in $pages; do
    set -- "$@" "$root/$page"
done
PYTHONPATH=$root/tests python3 -B -m pages $print "$work" "$program" "$found" "$@" >log || { cat log >&2 && fail "a page says something else"; }
cat log
[ -z "$print" ] || exit 0
checks=$(awk '/ agree, / { agree += $2 } END { print agree + 0 }' log)
left_out=$(sed -n 's/^left out: \([^ ]* [^ ]*\).*/\1/p' log | sort | uniq -c | awk '{ printf " %s %s (%d)", $2, $3, $1 }')
finished

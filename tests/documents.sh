#!/usr/bin/env bash
# Checks the documents of `abi-json` against their schema, and the places of types in them against the sources, for libraries by gcc and
# clang, in DWARF 4 and 5, with a header in a folder of its own, and with relative and absolute file names.
# tests/python/test_damaged_lines.py covers damaged line programs.
#
#   tests/documents.sh                  builds the program of this repository
#   ABI_JSON=/path/of/abi_json tests/documents.sh    uses another one
set -eu
title="documents"
tools="/usr/bin/python3 gcc readelf"
crate=
. "$(dirname "$0")/common.bash"

for module in jsonschema; do
    /usr/bin/python3 -c "import $module" 2>/dev/null && continue
    [ -n "${SKIP_MISSING_TOOLS:-}" ] || fail "there is no $module for /usr/bin/python3 (with SKIP_MISSING_TOOLS=1 nothing runs)"
    told "nothing ran, since there is no $module for /usr/bin/python3"
    exit 0
done

program_of abi_json 64 "${ABI_JSON:-}"
work=$(mktemp -d)
trap 'rm -rf "$work"' EXIT
compilers=gcc
! there clang || compilers="gcc clang"
# shellcheck disable=SC2086
/usr/bin/python3 -B "$root/tests/documents/documents.py" "$found" "$root/docs/report.schema.json" "$work" $compilers || fail "see above"

# The document on an argument that is not UTF-8 is that of the usage, and a sentence says why.
ended=0
said=$("$found" check $'\xff' b 2>&1 >"$work/usage.json") || ended=$?
[ "$ended" -eq 64 ] || fail "an argument that is not UTF-8: status $ended, not 64"
[ "$said" = "abi-json: an argument is not UTF-8; only files whose names are UTF-8 can be given" ] || fail "an argument that is not UTF-8: $said"
grep -q '"answer":"usage"' "$work/usage.json" || fail "an argument that is not UTF-8: no document of the usage"
told "passed"

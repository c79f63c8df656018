#!/usr/bin/env bash
# Runs the tests of the tools in Python and of the recipes of examples/, with libraries and packages that gcc, objcopy, dwz, dpkg-deb
# and rpmbuild make, and with the answers of the proved program.
#
#   tests/python.sh                 builds the program of this repository
#   ABI=/path/of/abi tests/python.sh    uses another one; ABI_JSON does the same for abi-json
set -eu
title="packages and recipes"
tools="/usr/bin/python3 gcc clang readelf objcopy ar strip dwz eu-unstrip eu-elflint dpkg-deb bsdtar make prlimit /usr/bin/time
    dask-scheduler dask-worker jq groff mypy flake8 rpm2cpio"
crate=abi_cli
. "$(dirname "$0")/common.bash"

for module in elftools debian libarchive zstandard yaml pytest xdist distributed jinja2 jsonschema rich cryptography; do
    /usr/bin/python3 -c "import $module" 2>/dev/null && continue
    [ -n "${SKIP_MISSING_TOOLS:-}" ] || fail "there is no $module for /usr/bin/python3 (with SKIP_MISSING_TOOLS=1 nothing runs)"
    told "nothing ran, since there is no $module for /usr/bin/python3"
    exit 0
done

(cd "$root" && mypy) >types.log 2>&1 || { tail -n 20 types.log >&2 && fail "the types of the tools"; }
(cd "$root" && flake8 tools tests bench) >style.log 2>&1 || { tail -n 20 style.log >&2 && fail "the style of the tools"; }

program_of abi_json 64 "${ABI_JSON:-}"
ABI=$program ABI_JSON=$found /usr/bin/python3 -B -m pytest --quiet --color=no -p no:cacheprovider -rs --numprocesses="$(nproc)" --dist=loadfile \
    --basetemp="$work/tests" "$root/tests/python" >log 2>&1 || { tail -n 60 log >&2 && fail "$(tail -n 1 log)"; }
cat log

# The last line of the log counts the tests; lines before it name what was left out.
checks=$(sed -n '$s/^\([0-9]*\) passed.*/\1/p' log)
[ "${checks:-0}" -gt 0 ] || fail "no test ran"
left_out=$(sed -n 's/^SKIPPED .*there is no \(.*\)$/ \1/p' log | sort -u | tr -d '\n')
for tool in rpmbuild dpkg-buildpackage meson cmake; do
    ! command -v "$tool" >/dev/null || ran="$ran $tool"
done
finished

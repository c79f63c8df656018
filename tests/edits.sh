#!/usr/bin/env bash
# Wrong edits of the code, in edits/CRATE/ and, those that the gate tries, in crates/CRATE/must-fail/: each plants one bug, and the check
# of its crate must refuse it.
#
#   tests/edits.sh                    checks that each edit applies to the sources; tries none
#   tests/edits.sh CRATE..            tries the edits of these crates
#   tests/edits.sh --since COMMIT     tries those of each crate whose code or definitions changed since the commit
#   tests/edits.sh --all              tries all; it takes an hour of processor time or more
#
# It tries them on a copy of the crates, as many checks at a time as rt runs (RT_JOBS), writes what it saw to edits/SEEN.md, and fails
# if an edit does not apply, does not compile, or is not refused. Edits that change the bodies of different functions share one check.
set -euo pipefail
title="wrong edits"
tools="python3"
crate=
. "$(dirname "$0")/common.bash"

/usr/bin/python3 -B "$root/tests/wrong_edits.py" "$@" | tee log
checks=$(sed -n 's/^\([0-9]*\) edits apply$/\1/p' log)
finished

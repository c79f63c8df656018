#!/usr/bin/env bash
# Checks that docs/evidence/AUDIT.md lists what the clauses of `run` reach, and docs/evidence/CONTRACTS.md the contracts of each crate, as the
# sources have them.
#
#   tests/audit.sh --write    makes both pages
set -euo pipefail
title="audit"
tools="python3"
crate=
. "$(dirname "$0")/common.bash"

PYTHONPATH=$root/tests /usr/bin/python3 -B -m audit "$@" | tee log
checks=$(sed -n 's/^\([0-9]*\) pages are up to date$/\1/p' log)
finished

#!/usr/bin/env bash
# Checks that each call and each clause that docs/PROOFS.md and the tables of tests/claims/ name is in the sources, and that each sentence
# of those tables is in its page. Fails too if a sentence of README on what is proved, or of the manual on a command, is in no table.
set -euo pipefail
title="claims"
tools="python3"
crate=
. "$(dirname "$0")/common.bash"

/usr/bin/python3 -B "$root/tests/claims" | tee log
checks=$(sed -n 's/^\([0-9]*\) claims .*/\1/p' log)
finished

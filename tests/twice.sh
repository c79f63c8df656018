#!/usr/bin/env bash
# Lists the lemmas that stand in more than one crate under one name, with one statement. It fails on one that tests/twice.txt does not
# list, and prints the lines of that file that hold no more. A lemma that two crates want stands once, in proofs/lemmas of the lower one.
set -euo pipefail
title="lemmas that stand twice"
tools="python3"
crate=
. "$(dirname "$0")/common.bash"

/usr/bin/python3 -B "$root/tests/twice.py" >log || { cat log >&2; fail "a lemma stands twice"; }
grep "no more" log || true
checks=$(sed -n 's/^\([0-9]*\) lemmas$/\1/p' log)
finished

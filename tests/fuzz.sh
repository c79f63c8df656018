#!/usr/bin/env bash
# Changes libraries, rule files and certificates at random, with knowledge of their structure, and runs the program on them under limits
# of memory (2 GB) and time (20 seconds). An answer must have a documented status and a text that goes with it; `exports`, `entries` and
# `check` must name the same fault of a library; a library that can be read may replace itself; and `verify` must accept each
# certificate that the program makes. Without a seed, the date (UTC) is the seed. A wrong answer is a failure; its files are kept in
# tests/found. A process answers up to 2,000 commands, since tests/fuzz/again.c calls the program's main again and again; for one of 499
# inputs each command is also answered by a process of its own, whose answer must be the same.
#
#   tests/fuzz.sh [COUNT [SEED [FIRST]]]    tries 2,000 inputs, or those with numbers from FIRST (0) to below COUNT
#   ABI=/path/of/abi tests/fuzz.sh          uses another program
#   FUZZ_JOBS=1 tests/fuzz.sh 1000000       uses one processor in place of two; for a long run
#   FUZZ_ALONE=1 tests/fuzz.sh              starts a process for each command
#   FUZZ_MEMORY=0 tests/fuzz.sh             sets no memory limit; a program with an address sanitizer needs this, and FUZZ_ALONE=1
set -eu
title="changed inputs"
tools="gcc awk python3"
crate=abi_cli
. "$(dirname "$0")/common.bash"
if there clang; then ran=clang; fi

count=${1:-2000}
seed=${2:-$(date -u +%Y-%m-%d)}
jobs=${FUZZ_JOBS:-2}
export PYTHONPATH=$root/tests:$root/bench PYTHONDONTWRITEBYTECODE=1
python3 -m fuzz.test_fuzz || fail "the judge or a change is wrong"

gcc -O2 -Wall -Werror -shared -fPIC -o again.so "$root/tests/fuzz/again.c"
again=$PWD/again.so
[ -z "${FUZZ_ALONE:-}" ] || again=
# The files change with each input, so they are better in memory.
jobs_folder=$PWD
if [ -d /dev/shm ] && [ -w /dev/shm ]; then
    jobs_folder=$(mktemp -d -p /dev/shm)
    trap 'rm -rf "$work" "$jobs_folder"' EXIT
fi

mkdir corpus
(cd corpus && python3 -m fuzz.corpus "$program" "$sources") || fail "the sound libraries"

echo "seed $seed"
for job in $(seq 0 $((jobs - 1))); do
    mkdir "$jobs_folder/job$job"
    (cd "$jobs_folder/job$job" && exec python3 -m fuzz "$program" "$again" "$work/corpus" "$root/tests/found" "$count" "$seed" \
        $((${3:-0} + job)) "$jobs" "${FUZZ_MEMORY:-2000000000}") &
    pids="${pids:-} $!"
done
failed=0
for pid in $pids; do wait "$pid" || failed=1; done
[ "$failed" -eq 0 ] || fail "seed $seed: wrong answers, kept in tests/found"
passed "$((count - ${3:-0})) inputs of seed $seed"
finished

#!/usr/bin/env bash
# Generates files that are meant to take much time or memory, each kind in two sizes, the second twice the first, and runs `abi` on them
# under limits of 8 GB and 120 seconds. Prints a table: the bytes of the larger size (of all files of the command), the seconds of
# processor time for both sizes (the least of three runs; with RUNS=1 of one), their ratio for twice the bytes, the peak memory for the
# larger size, the most bytes of memory for a byte of the files, how the runs ended, and for status 4 the words of the limit that the
# program names. The last column names the bounds that a kind exceeds: growth, more than 2.5 times the time for twice the file; time,
# more than 10 seconds a megabyte plus 0.25; memory, more than 64 bytes a byte plus 100 MB; status, an end that judges nothing, such as a
# signal. Ends with status 1 if a kind exceeds one.
#
# usage: bench/hostile.sh [ABI [KIND..]]   (default: the program that `rt run` built in crates/abi_cli/out, and all kinds)
#        TIMES=4 bench/hostile.sh ..       makes all files four times as large
#        bench/hostile.sh --list           names the kinds
#        bench/hostile.sh --make FOLDER KIND SIZE   writes the files of a kind
set -eu
top=$(cd "$(dirname "$0")/.." && pwd)
export PYTHONPATH=$top/bench PYTHONDONTWRITEBYTECODE=1
case ${1:-} in
--*) exec python3 -m hostile "$@" ;;
esac
kinds=("${@:2}")
. "$top/bench/common.bash" "$@"
for tool in python3 prlimit; do
    command -v "$tool" >/dev/null || { echo "bench: there is no $tool" >&2; exit 1; }
done
mkdir -p hostile
exec python3 -m hostile "$abi" hostile ${kinds[@]+"${kinds[@]}"}

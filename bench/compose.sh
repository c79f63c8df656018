#!/usr/bin/env bash
# Times `abi compose` on the certificates of a chain of three libraries, and `abi verify` on both certificates for comparison. The chain
# is the old library of a trial, and the new one twice. Prints the number of lines of a certificate, the seconds of processor time (the
# least of three runs), and the peak memory.
#
# usage: bench/compose.sh [ABI [TRIAL_LIBRARY]]   (default: the programs that `rt run` built in their crates' out)
set -eu
maker=$(readlink -f "${2:-$(dirname "$0")/../crates/tool_trial_library/out/tool_trial_library}")
. "$(dirname "$0")/common.bash"
mkdir -p compose
cd compose

for count in 1000 10000 21000 50000; do
    "$maker" "$count" old >first.so
    "$maker" "$count" new >middle.so
    "$abi" check first.so middle.so >one
    "$abi" check middle.so middle.so >other
    composed=$(least 3 "$abi" compose first.so middle.so middle.so one other)
    first=$(least 3 "$abi" verify first.so middle.so one)
    second=$(least 3 "$abi" verify middle.so middle.so other)
    memory=$(peak_memory "$abi" compose first.so middle.so middle.so one other)
    echo "a trial of $count: $(wc -l <one) and $(wc -l <other) lines, abi compose $composed s, abi verify of both $first s and $second s, peak $memory MB"
done

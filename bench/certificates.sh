#!/usr/bin/env bash
# Times `abi verify` on certificates: of libraries with 50,000 to 500,000 exported functions and no debug information, whose certificates
# have a line for each function, and of the libraries of trials, whose certificates have lines of all kinds. Prints the number of lines,
# the seconds of processor time (the least of three runs), the time for a line, and the peak memory.
#
# usage: bench/certificates.sh [ABI [TRIAL_LIBRARY]]   (default: the programs that `rt run` built in their crates' out)
set -eu
maker=$(readlink -f "${2:-$(dirname "$0")/../crates/tool_trial_library/out/tool_trial_library}")
. "$(dirname "$0")/common.bash"
mkdir -p certificates
cd certificates

# verified NAME OLD NEW: prints a line for `abi verify` on the certificate that `abi check` prints for the two libraries.
verified() {
    local lines ours
    "$abi" check "$2" "$3" >certificate
    lines=$(wc -l <certificate)
    ours=$(least 3 "$abi" verify "$2" "$3" certificate)
    echo "$1: $lines lines, abi verify $ours s, $(awk -v s="$ours" -v l="$lines" 'BEGIN { printf "%.2f", 1000000 * s / l }') us a line, peak $(peak_memory "$abi" verify "$2" "$3" certificate) MB"
}

for count in 50000 150000 500000; do
    [ -e "exports_$count.so" ] || {
        seq "$count" | awk '{ printf ".globl f%d\n.type f%d, @function\nf%d: ret\n.size f%d, 1\n", $1, $1, $1, $1 }' >functions.s
        gcc -shared -nostdlib -o "exports_$count.so" functions.s
    }
    verified "$count exports" "exports_$count.so" "exports_$count.so"
done
for count in 1000 10000 50000; do
    "$maker" "$count" old >old.so
    "$maker" "$count" new >new.so
    verified "a trial of $count" old.so new.so
done

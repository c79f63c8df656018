# What the scripts beside this one share: the folder where they work, the program that they measure, processor time, peak memory, ratios
# and generated C. A script sources this file with its own arguments. It ends if a measured command fails, or if gcc, readelf or GNU time
# (/usr/bin/time, of the package time) is missing.
set -o pipefail
for tool in gcc readelf /usr/bin/time; do
    command -v "$tool" >/dev/null || { echo "bench: there is no $tool" >&2; exit 1; }
done
top=$(cd "$(dirname "${BASH_SOURCE[0]}")/.." && pwd)
abi=$(readlink -f "${1:-$top/crates/abi_cli/out/abi_cli}")
made=$top/bench/made
mkdir -p "$made"
cd "$made"

# failed COMMAND..: a measured command failed, so there is nothing to measure. Ends the whole script, even from within a command
# substitution.
failed() {
    echo "bench: failed: $*: $(head -n 1 errors)" >&2
    kill -TERM $$
    exit 1
}

# Prints the peak memory of a command in megabytes.
peak_memory() {
    /usr/bin/time -f '%M' -o memory "$@" >/dev/null 2>errors || failed "$@"
    awk '{ printf "%.1f", $1 / 1024 }' memory
}

# says_yes OLD NEW: `abi check` must print a certificate, which goes to the file `answer`.
says_yes() {
    "$abi" check "$1" "$2" >answer 2>errors || failed "$abi" check "$1" "$2"
    [ "$(head -n 1 answer)" = "yes 2" ] || failed "$abi" check "$1" "$2"
}

# seconds COMMAND..: appends the seconds of processor time of a run to the file `times`.
seconds() {
    TIMEFORMAT='%U %S'
    { time "$@" >/dev/null 2>errors; } 2>>times || failed "$@"
}

# least RUNS COMMAND..: prints the least seconds of processor time of RUNS runs.
least() {
    local run runs=$1
    shift
    rm -f times
    for run in $(seq "$runs"); do seconds "$@"; done
    awk 'NR == 1 || $1 + $2 < cpu { cpu = $1 + $2 } END { printf "%.3f", cpu }' times
}

ratio() { awk -v a="$1" -v b="$2" 'BEGIN { if (b > 0) printf "%.2f", a / b; else printf "none" }'; }

# generate_c: writes groups.c, a C source of declarations of all kinds, and changed.c, in which one structure is changed.
generate_c() {
    awk -v first=1 -v last=6500 -f "$top/tests/c/entries.awk" >groups.c
    sed '0,/struct { short x, y; } place/s//struct { int x, y; } place/' groups.c >changed.c
    cmp -s groups.c changed.c && { echo "bench: nothing was changed in the sources" >&2; exit 1; }
    return 0
}

# built NAME COMMAND..: makes the library of this name by the command, if it is not there yet.
built() {
    local name=$1
    shift
    [ -e "$name" ] || "$@" -shared -fPIC -w -g -O1 -o "$name"
}

#!/usr/bin/env bash
# Times `abi check` on libraries of 1,000, 10,000 and 50,000 exports with twenty versions, which gcc makes from generated assembly: each
# against a second build, compared with readelf on the same two files, and with abidiff if it is installed. Prints the seconds of
# processor time, with those by the clock in brackets, ratios of both, and peak memory.
#
# usage: bench/versions.sh [ABI]   (default: the program that `rt run` built in crates/abi_cli/out)
set -eu
. "$(dirname "$0")/common.bash"

# repeat TIMES COMMAND..: runs a command TIMES times.
repeat() {
    local times=$1
    shift
    while [ "$times" -gt 0 ]; do
        "$@" || return 1
        times=$((times - 1))
    done
}

# measure NAME TIMES COMMAND..: appends a line to the file of this name: user, system and clock seconds of TIMES runs in a row.
measure() {
    local name=$1
    shift
    TIMEFORMAT='%U %S %R'
    { time repeat "$@" > /dev/null 2> errors; } 2>> "time_$name" || failed "$@"
}

# least_time NAME TIMES: prints the seconds of one run, by the processor and by the clock, each the least of its measurements.
least_time() {
    awk -v times="$2" '
        NR == 1 || $1 + $2 < cpu { cpu = $1 + $2 }
        NR == 1 || $3 < wall { wall = $3 }
        END { printf "%.4f %.4f\n", cpu / times, wall / times }' "time_$1"
}

gcc -O1 -o generator "$top/bench/versions.c"

previous=
for exports in 1000 10000 50000; do
    old=versions_${exports}_1.so
    new=versions_${exports}_2.so
    ./generator script "$exports" > versions.map
    for build in 1 2; do
        ./generator asm "$exports" "$build" > versions.s
        gcc -shared -nostdlib -Wl,-soname,libversions.so.1 -Wl,--version-script=versions.map -s \
            -o "versions_${exports}_$build.so" versions.s
    done
    says_yes "$old" "$new"
    [ "$(grep -c '^bind ' answer)" -eq "$exports" ]
    peer=
    if [ "$exports" -ge 10000 ] && command -v abidiff > /dev/null 2>&1; then
        abidiff "$old" "$new" > /dev/null
        peer=abidiff
    fi

    # Eleven rounds in which the commands take turns, so that a busy machine slows all of them equally.
    times=$((50000 / exports))
    rm -f time_*
    for _ in 1 2 3 4 5 6 7 8 9 10 11; do
        measure check "$times" "$abi" check "$old" "$new"
        measure readelf "$times" readelf --wide --dyn-syms "$old" "$new"
        measure sha256sum "$times" sha256sum "$old" "$new"
        [ -z "$peer" ] || measure abidiff 1 abidiff "$old" "$new"
    done
    read -r check wall < <(least_time check "$times")
    read -r symbols symbols_wall < <(least_time readelf "$times")
    read -r hash hash_wall < <(least_time sha256sum "$times")
    echo "$exports exports, $(stat -c %s "$old") bytes, against a second build:"
    echo "  abi check $check s ($wall s), peak $(peak_memory "$abi" check "$old" "$new") MB"
    echo "  readelf --dyn-syms of both $symbols s ($symbols_wall s), peak $(peak_memory readelf --wide --dyn-syms "$old" "$new") MB, ratio of abi check to it $(ratio "$check" "$symbols") ($(ratio "$wall" "$symbols_wall"))"
    echo "  sha256sum of both $hash s ($hash_wall s)"
    [ -z "$previous" ] || echo "  ratio of abi check to the size before: $(ratio "$check" "$previous") ($(ratio "$wall" "$previous_wall"))"
    previous=$check
    previous_wall=$wall
    if [ -n "$peer" ]; then
        read -r peer peer_wall < <(least_time abidiff 1)
        echo "  abidiff $peer s ($peer_wall s), peak $(peak_memory abidiff "$old" "$new") MB, ratio of abi check to it $(ratio "$check" "$peer") ($(ratio "$wall" "$peer_wall"))"
    fi
done

#!/usr/bin/env bash
# Times `abi entries` on libraries with debug information that gcc and clang make from generated C: one unit of 1,000 or of 4,000 groups
# of declarations, and 100 units of 40 groups. For comparison it runs readelf --debug-dump=info on the same file, and llvm-dwarfdump if it
# is installed. All print to /dev/null. Prints the seconds of processor time, ratios and peak memory.
#
# usage: bench/entries.sh [ABI]   (default: the program that `rt run` built in crates/abi_cli/out)
set -eu
. "$(dirname "$0")/common.bash"
source=$top/tests/c/entries.awk
mkdir -p entries
cd entries

# measured NAME LIBRARY: prints a line for each tool.
measured() {
    local entries size ours theirs
    entries=$("$abi" entries "$2" | wc -l)
    size=$(readelf --wide --section-headers "$2" | awk '/ \.debug_info / { sub(/^ *\[ *[0-9]+\]/, ""); print $5 }')
    ours=$(least 5 "$abi" entries "$2")
    theirs=$(least 5 readelf --debug-dump=info "$2")
    echo "$1: $entries entries, $((16#$size)) bytes of .debug_info, $(stat -c %s "$2") bytes of file"
    echo "  abi entries $ours s, peak $(peak_memory "$abi" entries "$2") MB"
    echo "  readelf --debug-dump=info $theirs s, peak $(peak_memory readelf --debug-dump=info "$2") MB, ratio of abi entries to it $(ratio "$ours" "$theirs")"
    if command -v llvm-dwarfdump >/dev/null; then
        theirs=$(least 5 llvm-dwarfdump --debug-info "$2")
        echo "  llvm-dwarfdump --debug-info $theirs s, ratio of abi entries to it $(ratio "$ours" "$theirs")"
    fi
}

for groups in 1000 4000; do
    awk -v first=1 -v last="$groups" -f "$source" >"groups_$groups.c"
done
units=
for unit in $(seq 1 100); do
    awk -v first=$((unit * 40 - 39)) -v last=$((unit * 40)) -f "$source" >"unit_$unit.c"
    units="$units unit_$unit.c"
done
compilers=gcc
if command -v clang >/dev/null; then compilers="gcc clang"; fi
for compiler in $compilers; do
    for version in 5 4; do
        for groups in 1000 4000; do
            "$compiler" -shared -fPIC -w -g -gdwarf-$version -O1 -o library.so "groups_$groups.c"
            measured "$compiler, DWARF $version, one unit of $groups groups" library.so
        done
    done
    # Unquoted on purpose: each source is a word.
    "$compiler" -shared -fPIC -w -g -gdwarf-5 -O1 -o library.so $units
    measured "$compiler, DWARF 5, 100 units of 40 groups" library.so
done

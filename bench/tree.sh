#!/usr/bin/env bash
# Times the reader of the tree of entries, by `abi exports`, on libraries of generated C with 470,000 entries and more: one unit of 6,500
# groups of declarations by gcc, one by clang, and 150 units of 44 groups. They are compiled with -fvisibility=hidden and have no exports,
# so the program makes the tree and little else. For comparison it runs `abi entries`, which reads the same entries one by one and keeps
# none, readelf --debug-dump=info, and llvm-dwarfdump if it is installed. Prints the seconds of processor time (the least of nine runs),
# ratios, and peak memory. For the first library, compiled with exports, it also prints the resident bytes for each entry, without those
# of the file, once the answer is there: it looks at the program while nobody reads its output, when the tree itself is already freed. Then
# it measures two files that are meant to take much: one of 8,300 entries of one byte, each with 8,300 attributes that take no bytes, and
# one of 4,200,000 entries of one byte.
#
# usage: bench/tree.sh [ABI]   (default: the program that `rt run` built in crates/abi_cli/out)
set -eu
. "$(dirname "$0")/common.bash"
source=$top/tests/c/entries.awk
mkdir -p tree
cd tree

# resident ENTRIES LIBRARY: prints how many bytes for each entry are resident while the program waits to print.
resident() {
    local pid size
    rm -f pipe
    mkfifo pipe
    "$abi" exports "$2" >pipe 2>errors &
    pid=$!
    exec 3<pipe
    sleep 3
    size=$(awk '/^VmRSS:/ { print $2 }' "/proc/$pid/status") && [ -n "$size" ] || failed "$abi" exports "$2"
    cat <&3 >/dev/null
    exec 3<&-
    wait "$pid" || failed "$abi" exports "$2"
    awk -v size="$size" -v file="$(stat -c %s "$2")" -v entries="$1" 'BEGIN { printf "%.0f", (1024 * size - file) / entries }'
}

# measured NAME LIBRARY: prints a line for each tool.
measured() {
    local entries ours
    entries=$("$abi" entries "$2" | wc -l)
    ours=$(least 9 "$abi" exports "$2")
    echo "$1: $entries entries, $(stat -c %s "$2") bytes of file, load $(cut -d ' ' -f 1 /proc/loadavg)"
    echo "  abi exports $ours s, peak $(peak_memory "$abi" exports "$2") MB"
    beside "$ours" "$abi" entries "$2"
    beside "$ours" readelf --debug-dump=info "$2"
    if command -v llvm-dwarfdump >/dev/null; then beside "$ours" llvm-dwarfdump --debug-info "$2"; fi
}

# alone NAME LIBRARY: prints a line for `abi exports` and one for `abi entries`, with the peak memory as a multiple of the file.
alone() {
    local entries ours memory size
    entries=$("$abi" entries "$2" | wc -l)
    ours=$(least 3 "$abi" exports "$2")
    memory=$(peak_memory "$abi" exports "$2")
    size=$(stat -c %s "$2")
    echo "$1: $entries entries, $size bytes of file, load $(cut -d ' ' -f 1 /proc/loadavg)"
    echo "  abi exports $ours s, peak $memory MB, $(ratio "$(awk -v m="$memory" 'BEGIN { print 1048576 * m }')" "$size") times the file"
    beside "$ours" "$abi" entries "$2"
}

# beside OURS COMMAND..: prints the seconds and the peak memory of another command, and the ratio to it.
beside() {
    local ours=$1 theirs
    shift
    theirs=$(least 9 "$@")
    echo "  $(basename "$1") $theirs s, peak $(peak_memory "$@") MB, ratio to it $(ratio "$ours" "$theirs")"
}

# built NAME COMMAND..: makes the library of this name by the command, if it is not there yet.
built() {
    local name=$1
    shift
    [ -e "$name" ] || "$@" -shared -fPIC -w -g -O1 -o "$name"
}

# assembled NAME ATTRIBUTES ENTRIES: makes a library of one unit. Its root has ENTRIES children of one byte, each with ATTRIBUTES
# attributes that take no bytes. DW_FORM_flag_present is 0x19.
assembled() {
    [ -e "$1" ] || gcc -shared -nostdlib -x assembler -o "$1" - <<END
.section .debug_abbrev, "", @progbits
.byte 1, 0x11, 1, 0x13, 0x0b, 0, 0
.byte 2, 0x0d, 0
.rept $2
.byte 0x3c, 0x19
.endr
.byte 0, 0, 0
.section .debug_info, "", @progbits
.long 11 + $3
.short 5
.byte 1, 8
.long 0
.byte 1, 0x0c
.fill $3, 1, 2
.byte 0
END
}

awk -v first=1 -v last=6500 -f "$source" >groups.c
units=
for unit in $(seq 1 150); do
    awk -v first=$((unit * 44 - 43)) -v last=$((unit * 44)) -f "$source" >"unit_$unit.c"
    units="$units unit_$unit.c"
done
# Unquoted on purpose: each source of a unit is a word.
built gcc_5.so gcc -gdwarf-5 -fvisibility=hidden groups.c
built gcc_4.so gcc -gdwarf-4 -fvisibility=hidden $units
built gcc_exports.so gcc -gdwarf-5 groups.c
measured "gcc, DWARF 5, one unit" gcc_5.so
measured "gcc, DWARF 4, 150 units" gcc_4.so
if command -v clang >/dev/null; then
    built clang_5.so clang -gdwarf-5 -fvisibility=hidden groups.c
    measured "clang, DWARF 5, one unit" clang_5.so
fi
entries=$("$abi" entries gcc_exports.so | wc -l)
echo "gcc, DWARF 5, one unit, with exports: $entries entries, $(resident "$entries" gcc_exports.so) bytes an entry resident beside the file"
assembled flags.so 8300 8300
assembled leaves.so 0 4200000
alone "entries with 8,300 flags each" flags.so
alone "entries of one byte" leaves.so

#!/usr/bin/env bash
# Times `abi exports`, which reads a whole library and prints a short line for each export, and `abi check`, on libraries with debug
# information: the C library of the running system, libcrypto of OpenSSL, and generated C with 500,000 entries by gcc and clang. Each
# library is checked against itself, which reads the file once, and against a copy with one more byte, which reads both; all except the
# first also against a build in which one structure is changed. The C library of Debian in two versions is checked, too, and a change of
# 5,000 structures with three styles of reports. For comparison it runs readelf --debug-dump=info on one library, sha256sum on both, and
# abidw and abidiff if they are installed. Prints the seconds of processor time (the least of five runs, or of one for libabigail's tools),
# ratios, and peak memory. For a library against itself it also measures `abi verify` on the certificate. Then it checks libraries of 1,000,
# 10,000 and 50,000 exported functions against themselves and against copies with one more byte, and runs trials of the same sizes, to show
# how the time grows.
#
# bench/measured_libraries.py makes the libraries that are not there yet, which takes some twenty minutes and the network. It prints what
# each is of, and names those that cannot be had; these are left out.
#
# usage: bench/check.sh [ABI]   (default: the program that `rt run` built in crates/abi_cli/out)
set -eu
. "$(dirname "$0")/common.bash"
mkdir -p check
cd check

# beside OURS COMMAND..: prints the seconds and the peak memory of another command, and the ratio to it.
beside() {
    local ours=$1 theirs
    shift
    theirs=$(least "${runs:-5}" "$@")
    echo "    $(basename "$1") $theirs s, peak $(peak_memory "$@") MB, ratio to it $(ratio "$ours" "$theirs")"
}

# answers STATUS COMMAND..: runs a command that must end with the status, and returns 0 if it does. In the status of abidiff the bits 4
# and 8 say that there are changes.
answers() {
    local ended=0 status=$1
    shift
    "$@" >/dev/null 2>&1 || ended=$?
    case $status in
    changes) [ "$ended" -eq 0 ] || [ "$ended" -eq 4 ] || [ "$ended" -eq 12 ] ;;
    *) [ "$ended" -eq "$status" ] ;;
    esac
}
export -f answers

# beside_abidiff OURS OLD NEW: prints the seconds and the peak memory of one run of abidiff, and the ratio to it. Kills abidiff after 200
# seconds.
beside_abidiff() {
    local ended=0 seconds memory
    /usr/bin/time -f '%U %S %M' -o run timeout 200 abidiff "$2" "$3" >/dev/null 2>errors || ended=$?
    case $ended in
    124) echo "    abidiff: no end after 200 s" ;;
    0 | 4 | 12)
        read -r seconds memory < <(tail -n 1 run | awk '{ printf "%.3f %.1f\n", $1 + $2, $3 / 1024 }')
        echo "    abidiff $seconds s, peak $memory MB, ratio to it $(ratio "$1" "$seconds")"
        ;;
    *) failed abidiff "$2" "$3" ;;
    esac
}

# read_whole NAME LIBRARY: prints a line for `abi exports`, and lines for the tools that it is compared with.
read_whole() {
    local entries ours
    entries=$("$abi" entries "$2" | wc -l)
    ours=$(least 5 "$abi" exports "$2")
    echo "$1: $entries entries, $(stat -c %s "$2") bytes, load $(cut -d ' ' -f 1 /proc/loadavg)"
    echo "  abi exports $ours s, peak $(peak_memory "$abi" exports "$2") MB"
    beside "$ours" readelf --debug-dump=info "$2"
    if command -v abidw >/dev/null; then runs=1 beside "$ours" abidw --out-file /dev/null "$2"; fi
}

# checked NAME STATUS OLD NEW: prints a line for `abi check`, which must end with the status, and lines for the other tools.
checked() {
    local ours
    ours=$(least 5 bash -c "answers $2 '$abi' check '$3' '$4'")
    echo "  $1: abi check $ours s, peak $(peak_memory bash -c "answers $2 '$abi' check '$3' '$4'") MB"
    beside "$ours" readelf --debug-dump=info "$3"
    beside "$ours" sha256sum "$3" "$4"
    if command -v abidiff >/dev/null; then beside_abidiff "$ours" "$3" "$4"; fi
}

# verified NAME OLD NEW: prints a line for `abi verify`, compared with `abi check`, on the certificate that `abi check` prints.
verified() {
    local ours
    "$abi" check "$2" "$3" >certificate
    ours=$(least 5 "$abi" verify "$2" "$3" certificate)
    echo "  $1: abi verify $ours s, peak $(peak_memory "$abi" verify "$2" "$3" certificate) MB"
    beside "$ours" "$abi" check "$2" "$3"
}

# longer LIBRARY: makes a copy of the library with one more byte, and prints its name.
longer() {
    cp "$1" longer.so
    printf '\0' >>longer.so
    echo longer.so
}

# has NAME FILE..: whether libraries are there; says so if they are not.
has() {
    local file name=$1
    shift
    for file in "$@"; do [ -e "$file" ] || { echo "$name: left out"; return 1; }; done
}

"$top/bench/measured_libraries.py" || [ $? -eq 2 ]

if has "the C library of the system" libc.so; then
    read_whole "the C library of the system" libc.so
    checked "against itself" 0 libc.so libc.so
    checked "against a copy with one more byte" 0 libc.so "$(longer libc.so)"
    verified "against itself" libc.so libc.so
fi

if has "the C library of Debian in two versions" libc_old.so libc_new.so; then
    echo "the C library of Debian in two versions"
    checked "$(cat glibc.of)" 1 libc_old.so libc_new.so
fi

if has "libcrypto of OpenSSL" openssl.so openssl_changed.so; then
    read_whole "libcrypto of OpenSSL" openssl.so
    checked "against itself" 0 openssl.so openssl.so
    checked "against a copy with one more byte" 0 openssl.so "$(longer openssl.so)"
    verified "against itself" openssl.so openssl.so
    checked "against a changed build" 1 openssl.so openssl_changed.so
fi

for compiler in gcc clang; do
    has "generated C by $compiler" "$compiler.so" "${compiler}_changed.so" || continue
    read_whole "generated C by $compiler" "$compiler.so"
    checked "against itself" 0 "$compiler.so" "$compiler.so"
    checked "against a copy with one more byte" 0 "$compiler.so" "$(longer "$compiler.so")"
    verified "against itself" "$compiler.so" "$compiler.so"
    checked "against a changed build" 1 "$compiler.so" "${compiler}_changed.so"
done

if has "a change of 5,000 structures" wide_old.so wide_new.so; then
    echo "a change of 5,000 structures"
    checked "in full" 1 wide_old.so wide_new.so
    for style in first counts; do
        reported=(bash -c "answers 1 '$abi' check --report $style wide_old.so wide_new.so")
        echo "  --report $style: abi check $(least 5 "${reported[@]}") s, peak $(peak_memory "${reported[@]}") MB"
    done
fi

for count in 1000 10000 50000; do
    library=functions_$count.so
    has "$count exported functions" "$library" || continue
    echo "$count exported functions"
    for other in "$library" "$(longer "$library")"; do
        echo "  against $other: abi check $(least 3 "$abi" check "$library" "$other") s, peak $(peak_memory "$abi" check "$library" "$other") MB"
    done
done

for count in 1000 10000 50000; do
    echo "abi trial $count: $(least 3 "$abi" trial "$count") s, peak $(peak_memory "$abi" trial "$count") MB"
done

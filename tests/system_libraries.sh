#!/usr/bin/env bash
# Compares what the proved program says of libraries from the system's packages with what sha256sum and readelf say: of each library
# against itself, and of pairs. It takes the libraries named below that are installed and have no debug information. There must be at
# least ten, and the last line names the others.
#
#   tests/system_libraries.sh                 builds the program of this repository
#   ABI=/path/of/abi tests/system_libraries.sh    uses another one
set -eu
title="system libraries"
tools="readelf sha256sum awk"
crate=abi_cli
. "$(dirname "$0")/common.bash"

# place NAME: prints the path of a library of the system, if it is there and is an ELF-64 library for x86-64 without debug information.
place() {
    local folder
    for folder in /usr/lib/x86_64-linux-gnu /lib/x86_64-linux-gnu /usr/lib64 /lib64 /usr/lib /lib; do
        [ -f "$folder/$1" ] || continue
        readelf --wide --file-header "$folder/$1" 2>/dev/null >header || continue
        grep -q '^ *Class: *ELF64$' header && grep -q '^ *Type: *DYN ' header && grep -q '^ *Machine: .*X86-64$' header || continue
        readelf --wide --sections "$folder/$1" >sections
        ! grep -q ' \.debug_info ' sections || continue
        echo "$folder/$1"
        return
    done
}

names="libc.so.6 libm.so.6 libstdc++.so.6 libgcc_s.so.1 libz.so.1 libzstd.so.1 liblzma.so.5 libbz2.so.1.0 libcrypto.so.3
    libssl.so.3 libtinfo.so.6 libselinux.so.1 libpcre2-8.so.0 libcrypt.so.1 libresolv.so.2 libacl.so.1 libattr.so.1
    libudev.so.1 libsystemd.so.0 libmount.so.1 libblkid.so.1 libgmp.so.10 libgnutls.so.30 libsqlite3.so.0
    libcc1.so.0"

: >found
for name in $names; do
    place "$name" >>found
done
number=$(wc -l <found)
if [ "$number" -lt 10 ]; then
    [ -n "${SKIP_MISSING_TOOLS:-}" ] || fail "only $number of the libraries that it knows are there"
    told "nothing ran, since only $number of the libraries that it knows are there"
    exit 0
fi
for name in $names; do
    grep -q "/$name\$" found || left_out="$left_out $name"
done

# Each against itself: each export binds to itself.
while read -r library; do
    {
        echo "yes 2"
        echo "old $(digest "$library")"
        echo "new $(digest "$library")"
        echo "rules $(digest /dev/null)"
        exports "$library" | awk -F '\t' '{ print "bind", $1, $1 }'
        echo "end"
    } >want
    expect "$library may replace itself, with $(grep -c '^bind ' want) exports" 0 check "$library" "$library"
done <found

# pair OLD NEW: NEW may not replace OLD, and the program must report each break.
pair() {
    breaks "$1" "$2" >rows
    [ -s rows ] || fail "readelf shows no break between $1 and $2"
    { echo no && cat rows; } >want
    expect "$2 may not replace $1, with $(wc -l <rows) breaks ($(cut -d ' ' -f 1 rows | sort | uniq -c | awk '{ print $2 ": " $1 }' | paste -s -d ' '))" \
        1 check "$1" "$2"
}

# Each against the next one.
previous=
while read -r library; do
    [ -z "$previous" ] || pair "$previous" "$library"
    previous=$library
done <found
pair "$previous" "$(head -n 1 found)"

# Pairs that have names in common, if they are there: with different versions, with and without versions, and without any.
while read -r old new; do
    first=$(place "$old")
    second=$(place "$new")
    if [ -n "$first" ] && [ -n "$second" ]; then
        pair "$first" "$second"
    else
        left_out="$left_out $old-with-$new"
    fi
done <<'END'
libpthread.so.0 libc.so.6
libdl.so.2 libc.so.6
libunwind.so.8 libgcc_s.so.1
libgcc_s.so.1 libunwind.so.8
libncurses.so.6 libncursesw.so.6
libexpat.so.1 libexpatw.so.1
libcurl.so.4 libcurl-gnutls.so.4
libcurl-gnutls.so.4 libcurl.so.4
libreadline.so.8 libedit.so.2
libedit.so.2 libreadline.so.8
libbsd.so.0 libc.so.6
libc.so.6 libbsd.so.0
libnsl.so.1 libnsl.so.2
libnsl.so.2 libnsl.so.1
END

finished

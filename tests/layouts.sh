#!/usr/bin/env bash
# Compares the layouts that the proved program prints with pahole's: for structures made for this test, and for those of the C library
# and of other libraries with debug information. Sizes, members, holes and padding must agree; docs/evidence/PAHOLE.md lists what pahole
# counts in another way.
#
#   tests/layouts.sh                 builds the program of this repository
#   ABI=/path/of/abi tests/layouts.sh    uses another one
#   LAYOUTS_EVERY=1 tests/layouts.sh     compares every structure of a system library, not every fourth; this takes minutes
set -eu
title="layouts"
tools="gcc pahole readelf awk /usr/bin/python3"
crate=abi_cli
. "$(dirname "$0")/common.bash"

made=$root/tests/layouts
total=0

# held NAME LIBRARY MINIMUM OPTION..: each structure that the library's exports reach must have the layout that pahole prints, and
# they must reach at least MINIMUM structures.
held() {
    local name=$1 library=$2 least=$3 laid overlaps left
    shift 3
    /usr/bin/python3 -B "$made/compare.py" "$program" "$library" "$@" >counts 2>differences ||
        { head -n 60 differences >&2 && fail "$name: other layouts"; }
    read -r laid overlaps left <counts
    [ "$laid" -ge "$least" ] || fail "$name: only $laid structures are reached"
    total=$((total + laid))
    passed "$name: $laid layouts, $overlaps of them with overlaps; $left tags that no export reaches"
}

# The structures made for this test. A function takes each.
structures=$(awk '/^struct .*\{/ { sub(/__attribute__\(\(([^()]|\([^()]*\))*\)\) /, ""); print $2 }' "$made/structures.h")
{
    echo "#include \"$made/structures.h\""
    for structure in $structures; do
        echo "void take_$structure(struct $structure *p) { (void)p; }"
    done
} >made.c
[ "$(echo "$structures" | wc -l)" -ge 60 ] || fail "structures.h has only $(echo "$structures" | wc -l) structures"
compilers=gcc
if there clang; then compilers="gcc clang"; ran="clang"; fi
for compiler in $compilers; do
    for version in 4 5; do
        "$compiler" -shared -fPIC -w -g "-gdwarf-$version" -o made.so made.c
        held "made structures by $compiler with DWARF $version" made.so 60 --all
    done
done

# header NAME MINIMUM HEADER..: the structures that the headers define, if the headers are there. A function takes each.
header() {
    local name=$1 least=$2 tag
    shift 2
    printf '#include <%s>\n' "$@" >headers.c
    gcc -g -fno-eliminate-unused-debug-types -c -o headers.o headers.c 2>/dev/null || { left_out="$left_out $name" && return; }
    pahole -F dwarf headers.o 2>/dev/null | sed -n 's/^struct \([A-Za-z_0-9]*\) {$/\1/p' | sort -u >tags
    while read -r tag; do echo "void take_$tag(struct $tag *p) { (void)p; }"; done <tags >>headers.c
    gcc -shared -fPIC -w -g -o headers.so headers.c
    held "$name" headers.so "$least" --all
}

header zlib.h 3 zlib.h
header "headers of OpenSSL" 100 openssl/{ssl,evp,x509v3,cms,ts,ocsp,pkcs12,asn1t,conf,err,engine,ui,dh,dsa,rsa,ec}.h

# joined NAME: writes the library of the system, joined with its debug information if that is there, to `joined.so`.
joined() {
    local library
    library=$(gcc -print-file-name="$1")
    rm -f joined.so
    [ -f "$library" ] && /usr/bin/python3 -B "$root/tools/join-debug" "$(readlink -f "$library")" joined.so 2>errors
}

every=${LAYOUTS_EVERY:-4}
while read -r library least; do
    if joined "$library"; then
        held "$library" joined.so $((least / every)) --every "$every"
    else
        left_out="$left_out $library"
    fi
done <<'END'
libc.so.6 100
libz.so.1 4
libcrypto.so.3 100
END
# libcrypto as bench/openssl.sh builds it
if [ -f "$root/bench/made/openssl.so" ]; then held "libcrypto of bench/openssl.sh" "$root/bench/made/openssl.so" 100; fi

# A tag that no structure has.
echo "refused 85 NoTag 0" >want
expect_refusal() {
    local ended=0
    "$program" layout made.so "$1" >got 2>errors || ended=$?
    [ "$ended" -eq 5 ] || fail "a tag that no structure has: status $ended, not 5"
    same "a tag that no structure has"
    passed "a tag that no structure has"
}
expect_refusal plainer
title="$title: $total structures"

finished

#!/usr/bin/env bash
# Compares what the proved program says of the system's programs with what readelf shows: which exports of their libraries they use;
# that a library without a used export may not replace the whole one, and that one without an unused export may. Then it checks that
# programs run with edited libraries exactly if the proved program says yes.
#
#   tests/app.sh                 builds the program of this repository
#   ABI=/path/of/abi tests/app.sh    uses another one
#   APP_PROGRAMS=100 tests/app.sh    takes up to 100 programs for each library, not 25
set -eu
title="applications"
tools="gcc readelf awk /usr/bin/python3"
crate=abi_cli
. "$(dirname "$0")/common.bash"

made=$root/tests/app
most=${APP_PROGRAMS:-25}

python() {
    /usr/bin/python3 -B "$made/$1.py" "${@:2}"
}

# said NAME STATUS ARGUMENT..: like `expect`, but standard error must have the note of `app` that says how many imports bind.
said() {
    local name=$1 status=$2 ended=0
    shift 2
    "$program" app "$@" >got 2>errors || ended=$?
    [ "$ended" -eq "$status" ] || { head -n 20 got >&2 && fail "$name: status $ended, not $status"; }
    grep -q '^abi: .* of its imports binds\? to ' errors || fail "$name: no note says how many imports bind"
    same "$name"
    passed "$name"
}

# position_independent FILE: whether it is a dynamically linked ELF-64 file for x86-64 that may be loaded anywhere.
position_independent() {
    readelf --wide --file-header "$1" 2>/dev/null >header || return 1
    grep -q '^ *Class: *ELF64$' header && grep -q '^ *Type: *DYN ' header && grep -q '^ *Machine: .*X86-64$' header
}

# programs LIBRARY: lists programs of the system that need the library.
programs() {
    local count=0 file
    for file in /usr/bin/*; do
        [ "$count" -lt "$most" ] || return 0
        [ -f "$file" ] && [ ! -L "$file" ] && position_independent "$file" || continue
        readelf --wide --dynamic "$file" 2>/dev/null | grep -q "(NEEDED).*\[$1\]" || continue
        echo "$file"
        count=$((count + 1))
    done
}

# hidden NAME NUMBER STATUS: checks the last program with the library in which the export of this number is hidden.
hidden() {
    [ "$2" -gt 0 ] || return 0
    python hide "$library" hidden.so "$2"
    if [ "$3" -eq 1 ]; then
        label=$(awk -F '\t' -v number="$2" '$1 == number { print $5 }' listing)
        printf 'no\nX2 %s: gone\n' "$label" >want
    fi
    said "$1" "$3" "$last" "$library" hidden.so
}

judged=0
for name in libc.so.6 libz.so.1 libcrypto.so.3 libm.so.6 libtinfo.so.6 libselinux.so.1; do
    library=$(readlink -f "$(gcc -print-file-name="$name")")
    if [ ! -f "$library" ]; then
        left_out="$left_out $name"
        continue
    fi
    exports "$library" >listing
    programs "$name" >list
    [ -s list ] || left_out="$left_out $name"
    while read -r file; do
        python uses "$file" "$name" listing numbers >want
        uses=$(($(wc -l <want) - 1))
        said "$file uses $uses exports of $name" 0 "$file" "$library" "$library"
        judged=$((judged + 1))
        last=$file
    done <list
    [ -s list ] || continue
    # The last program again: without an export that it uses, and without one that it does not use.
    cp want uses_all
    hidden "$last without an export of $name that it uses" "$(sed -n 1p numbers)" 1
    cp uses_all want
    hidden "$last without an export of $name that it does not use" "$(sed -n 2p numbers)" 0
done
[ "$judged" -ge 10 ] || fail "only $judged programs need one of the libraries"

# A program, a library that lacks what it needs, and the whole library.
echo 'int f(void) { return 0; } int g(void) { return 0; }' >whole.c
echo 'int f(void) { return 0; }' >part.c
echo 'V1 { global: f; g; local: *; };' >made.map
gcc -shared -fPIC -Wl,-soname,libpart.so.1,--version-script=made.map -o whole.so whole.c
gcc -shared -fPIC -Wl,-soname,libpart.so.1,--version-script=made.map -o part.so part.c
echo 'int f(void), g(void); int main(void) { return f() + g(); }' | gcc -pie -fPIC -o needs -x c - -x none whole.so
printf 'yes app\nuse f@@V1\n' >want
said "a program and a library that lacks what it needs" 0 needs part.so whole.so
grep -qx 'abi: needs: 1 of its imports binds to part.so' errors || fail "another number of imports binds"
grep -qx 'abi: needs: it does not run with part.so either, which lacks g' errors || fail "no note names what the library lacks"
printf 'no\nX2 g@@V1: gone\n' >want
said "a library that lacks what a program needs" 1 needs whole.so part.so
! grep -q lacks errors || fail "a note names what the library does not lack"

# The note names ten exports at most.
{ cat part.c && seq 12 | sed 's/.*/int g&(void) { return 0; }/'; } >many.c
echo 'V1 { global: f; g*; local: *; };' >many.map
gcc -shared -fPIC -Wl,-soname,libpart.so.1,--version-script=many.map -o many.so many.c
gcc -shared -fPIC -Wl,-soname,libpart.so.1,--version-script=many.map -o one.so part.c
{ sed 's/{.*/;/' many.c && echo "int main(void) { return f()$(seq 12 | sed 's/.*/ + g&()/' | tr -d '\n'); }"; } |
    gcc -pie -fPIC -o needs_many -x c - -x none many.so
printf 'yes app\nuse f@@V1\n' >want
said "a program and a library that lacks twelve exports" 0 needs_many one.so many.so
grep -q 'which lacks g[0-9]*\(, g[0-9]*\)\{9\} and 2 more$' errors || fail "the note names not ten of twelve exports"

# A program that is not position independent is no input.
echo 'int main(void) { return 0; }' | gcc -no-pie -o fixed -x c -
echo "unreadable app 6 NotShared 16" >want
expect "a program at a fixed address" 2 app fixed whole.so whole.so

# Programs that run with edited libraries.
python edits "$program" 40 >counts || fail "$(cat counts)"
read -r yes no <counts
[ "$yes" -ge 8 ] && [ "$no" -ge 8 ] || fail "only $yes edits keep the program, and $no break it"
passed "of 40 edited libraries, $yes run the program and $no do not, as it says"

title="$title: $judged programs"
finished

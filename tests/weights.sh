#!/usr/bin/env bash
# Checks what notes on a yes weigh, on small C libraries that gcc and clang build, from the table weights/pairs.txt: their kinds, and that
# `abi-gate --strict` says yes if they are only told, and that it cannot tell if what changes can break compiled callers.
#
#   tests/weights.sh                    builds the program of this repository
#   ABI=/path/of/abi tests/weights.sh   uses another one
set -eu
title="weights"
tools="gcc sed python3"
crate=abi_cli
. "$(dirname "$0")/common.bash"

compilers=gcc
if there clang; then
    ran=clang
    compilers="gcc clang"
fi

# built SIDE SOURCE: builds the library of a source with the compiler.
built() {
    printf '%s\n' "${2%%;;*}" >"$1_1.c"
    printf '%s\n' "${2#*;;}" >"$1_2.c"
    case "$2" in *";;"*) units="$1_1.c $1_2.c" ;; *) units="$1_1.c" ;; esac
    $compiler -g -w -O0 -fPIC -shared -o "$1.so" $units || fail "$compiler refuses the $1 source of $name"
}

# judged: the kinds of the notes on the two libraries, and the answer of a strict gate.
judged() {
    ABI_NOTES=1 "$program" check old.so new.so >answer 2>errors || fail "$name, $compiler: the answer is no yes"
    sed -n '/^abi: note: exports with types: /d; /^abi: note: exports of OLD: /d; s/^abi: note: \([a-z -]*\): .*/\1/p' errors >got
    printf '%s\n' "$kinds" | sed 's/, */\n/g; /^$/d' >want
    same "$name, $compiler: the notes"
    status=0
    ABI="$program" "$root/tools/abi-gate" --strict old.so new.so >answer 2>errors || status=$?
    case "$status" in 0) said=yes ;; 2) said="cannot tell" ;; *) said="status $status" ;; esac
    printf '%s\n' "$said" >got
    printf '%s\n' "$answer" >want
    same "$name, $compiler: the answer of a strict gate"
    passed "$name, $compiler"
}

# trimmed TEXT: the text without spaces around it.
trimmed() { sed 's/^ *//; s/ *$//' <<<"$1"; }

sed '1,/^$/d' "$root/tests/weights/pairs.txt" | sed '1,/^$/d' >rows
while IFS='|' read -r name with kinds answer old new; do
    name=$(trimmed "$name") kinds=$(trimmed "$kinds") answer=$(trimmed "$answer")
    for compiler in $compilers; do
        case " $with " in *" $compiler "*) ;; *) continue ;; esac
        built old "$old"
        built new "$new"
        judged
    done
done <rows
finished

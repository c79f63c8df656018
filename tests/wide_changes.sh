#!/usr/bin/env bash
# Builds pairs of libraries between which nearly everything changes (tests/wide_changes.py), with gcc and clang. `abi` must answer yes or
# no, in each style: no limit is met by what a compiler writes from C that a person wrote.
#
#   tests/wide_changes.sh [STRUCTURES MEMBERS]   so many structures with so many members each (20 and 10 by default)
#   tests/wide_changes.sh --large                by hand: the pairs that met limits once, and pairs of up to 20,000 exports; twice the
#                                                exports may take three times the processor time
#   ABI=/path/of/abi tests/wide_changes.sh ..    uses another program
set -eu
title="wide changes"
tools="gcc python3"
crate=abi_cli
. "$(dirname "$0")/common.bash"
shapes=$(python3 "$root/tests/wide_changes.py" --list)
compilers=gcc
if there clang; then
    ran=clang
    compilers="gcc clang"
fi

# built COMPILER SHAPE STRUCTURES MEMBERS: builds both libraries of the shape.
built() {
    local side
    python3 "$root/tests/wide_changes.py" "$2" "$3" "$4" old.c new.c
    for side in old new; do "$1" -w -shared -fPIC -g -o $side.so $side.c; done
}

# exports_of SHAPE STRUCTURES: the number of structures with which the shape has so many exports.
exports_of() {
    case $1 in
    crossed*) awk -v exports="$2" 'BEGIN { print int(sqrt(exports)) }' ;;
    *) echo "$2" ;;
    esac
}

# judged NAME STYLE: both libraries are judged: the answer is no, or yes where the shape's name says that the types stay equal.
judged() {
    local status=1
    case $1 in *alike*) status=0 ;; esac
    answers "$1, $2" "$status" check --report "$2" old.so new.so
}

# seconds: the seconds of processor time of the check of both libraries.
seconds() {
    local TIMEFORMAT='%U %S'
    { time "$program" check --report counts old.so new.so >/dev/null 2>&1 || true; } 2>&1 | awk '{ print $1 + $2 }'
}

# every STRUCTURES MEMBERS: all shapes, by all compilers, in all styles.
every() {
    local compiler shape style
    for compiler in $compilers; do
        for shape in $shapes; do
            built "$compiler" "$shape" "$(exports_of "$shape" "$1")" "$2"
            for style in text table counts first; do judged "$shape" $style; done
            passed "$compiler, $shape: $1 structures with $2 members"
        done
    done
}

# grows SHAPE EXPORTS MEMBERS: twice the exports take at most three times the processor time, and a quarter of a second more.
grows() {
    local once twice
    built gcc "$1" "$(exports_of "$1" $(($2 / 2)))" "$3"
    judged "$1" counts
    once=$(seconds)
    built gcc "$1" "$(exports_of "$1" "$2")" "$3"
    judged "$1" counts
    twice=$(seconds)
    awk -v once="$once" -v twice="$twice" 'BEGIN { exit !(twice <= 3 * once + 0.25) }' ||
        fail "$1: $once s, and $twice s for twice the exports"
    passed "$1: $2 exports, $3 members: $twice s, and $once s for half of them"
}

if [ "${1:-}" = --large ]; then
    for size in "wider_members 3000 50" "wider_members 200 1000" "crossed 1600 200" "crossed_alike 1600 200"; do
        set -- $size
        built gcc "$1" "$(exports_of "$1" "$2")" "$3"
        for style in text table counts first; do judged "$1" $style; done
        passed "$1: $2 exports, $3 members"
    done
    for shape in $shapes; do grows "$shape" 20000 10; done
else
    every "${1:-20}" "${2:-10}"
fi
finished

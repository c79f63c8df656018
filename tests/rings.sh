#!/usr/bin/env bash
# Compares two rings of structures whose lengths have no common factor, so that each structure of one meets each of the other, and each of
# them points to a large structure by a typedef of its own. A rule file leaves the typedefs out. So the certificate has a line for each two
# typedefs, whose parts are far above the limit, and none is compared: what `abi check` prints, `abi verify` must accept.
#
#   tests/rings.sh                 builds the program of this repository
#   ABI=/path/of/abi tests/rings.sh    uses another one
set -eu
title="rings"
tools="gcc"
crate=abi_cli
. "$(dirname "$0")/common.bash"

# ring LENGTH MEMBERS: the source of a library with a ring of LENGTH structures, beside a structure with MEMBERS members.
ring() {
    local number
    printf 'struct large {'
    printf ' int m%d;' $(seq "$2")
    printf ' };\n'
    for ((number = 0; number < $1; number++)); do
        echo "typedef struct large large$number;"
        echo "struct ring$number { struct ring$(((number + 1) % $1)) *next; large$number *value; };"
    done
    echo 'int walk(struct ring0 *ring) { return ring != 0; }'
}
printf '[suppress_type]\nname_regexp = ^large\n' >rules

# accepted OLD NEW MEMBERS LINES: two rings of these lengths, whose certificate must be accepted and have at least LINES lines.
accepted() {
    ring "$1" "$3" >old.c
    ring "$2" "$3" >new.c
    for side in old new; do gcc -shared -fPIC -g -o $side.so $side.c; done
    answers "rings of $1 and $2: check" 0 check --rules rules old.so new.so
    mv got certificate
    [ "$(wc -l <certificate)" -ge "$4" ] || fail "rings of $1 and $2: the certificate has too few lines"
    echo accepted >want
    expect "rings of $1 and $2: verify" 0 verify --rules rules old.so new.so certificate
}
accepted 2 3 4 20
accepted 41 43 200 5000
accepted 101 103 2000 30000
finished

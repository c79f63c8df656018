#!/usr/bin/env bash
# Writes the libraries of trials to disk and compares `abi trial` with `abi check` on them: the number of lines, and the digest of the
# text. readelf and abidiff must read the libraries without a complaint.
#
#   tests/trials.sh                 builds the programs of this repository
#   ABI=/path/of/abi TRIAL_LIBRARY=/path/of/tool_trial_library tests/trials.sh    uses other ones
set -eu
title="trials"
tools="gcc readelf sha256sum awk abidiff python3"
crate=abi_cli
. "$(dirname "$0")/common.bash"

program_of tool_trial_library 1 "${TRIAL_LIBRARY:-}"
maker=$found

# tried FUNCTIONS: compares the trial of this many functions with the libraries on disk.
tried() {
    "$maker" "$1" old >old.so
    "$maker" "$1" new >new.so
    answers "check of $1" 0 check old.so new.so
    printf '%s\n' "trial $1 yes exports $1 lines $(wc -l <got)" "digest $(digest got)" >want
    cp got certificate
    expect "trial of $1" 0 trial "$1"
    echo accepted >want
    expect "verify of $1" 0 verify old.so new.so certificate
}

for count in 1 2 6 7 14 42 99 100 101 200 1000; do tried $count; done

# The two libraries of 1,000 functions, read by readelf.
for side in old new; do
    readelf --wide --all --debug-dump=info,abbrev $side.so >listed 2>complaints || fail "readelf fails on the $side library"
    [ ! -s complaints ] || { head -n 5 complaints >&2 && fail "readelf complains of the $side library"; }
    [ "$(grep -c 'DW_TAG_subprogram)' listed)" -eq 1000 ] || fail "readelf lists another number of functions of the $side library"
    passed "readelf reads the $side library"
done

# loadable LIBRARY COPY: writes a copy with a program header (PT_LOAD) at the end.
loadable() {
    python3 - "$1" "$2" <<'END'
import struct, sys
data = bytearray(open(sys.argv[1], "rb").read())
data += bytes(-len(data) % 8)
place = len(data)
data += struct.pack("<IIQQQQQQ", 1, 5, 0, 0, 0, place, place, 4096)
struct.pack_into("<Q", data, 32, place)  # e_phoff
struct.pack_into("<HH", data, 54, 56, 1)  # e_phentsize, e_phnum
open(sys.argv[2], "wb").write(data)
END
}

# abidiff 2.2 ends with a failed assertion if a file with addresses has no program header, or if two units have no name, as in libraries
# of more than 100 functions.
for side in old new; do
    "$maker" 100 $side >$side.so
    loadable $side.so loadable_$side.so
done
abidiff loadable_old.so loadable_new.so >report 2>complaints || fail "abidiff ends with status $? on the libraries of 100 functions"
[ ! -s complaints ] || { head -n 5 complaints >&2 && fail "abidiff complains of the libraries of 100 functions"; }
passed "abidiff reads the libraries of 100 functions"
finished

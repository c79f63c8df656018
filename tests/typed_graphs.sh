#!/usr/bin/env bash
# Builds libraries with types of every kind with gcc and clang, and compares the graph that the proved reader makes of each with facts
# from the compiler that built it: a program with the same types prints their sizes, their requested alignments, where their members
# begin, the widths of bit fields (found by setting them and looking at the bytes), the values of enumerators, and the parameters and
# results of functions. Sizes and members are also compared with what pahole prints.
#
#   tests/typed_graphs.sh                 builds the program of this repository
#   GRAPH_LINES=/path/of/tool_graph_lines tests/typed_graphs.sh    uses another one
set -eu
title="typed graphs"
tools="gcc readelf awk timeout"
crate=tool_graph_lines
. "$(dirname "$0")/common.bash"

# build COMPILER OPTION..: builds kinds.so from two units, with the functions and the variables of kinds.h.
build() {
    local output
    for output in functions variables facts; do
        "$@" -E -P "$sources/kinds.h" | awk -v output=$output -f "$sources/kinds.awk" >"$output.c"
    done
    "$@" -shared -fPIC -w -Wno-psabi -g -I "$sources" -o kinds.so functions.c variables.c 2>errors || { cat errors >&2 && fail "$*"; }
}

# differ NAME: `got` must be the same as `want`. Prints all differences.
differ() {
    diff want got >differences || { cat differences >&2 && fail "$1: other facts, those of the compiler or of pahole first"; }
}

# agreed NAME: the graph of kinds.so must have the facts that the program with the same types prints. Leaves its lines in `lines`.
agreed() {
    ./facts | sort -u >want
    [ "$(wc -l <want)" -ge 420 ] || fail "$1: the compiler says $(wc -l <want) facts"
    "$program" kinds.so >lines 2>errors || fail "$1: $(head -n 1 lines)"
    [ ! -s errors ] || fail "$1: it wrote to standard error"
    awk -f "$sources/graph.awk" lines | sort -u >got
    differ "$1"
    passed "$1: $(wc -l <want) facts"
}

# laid_out NAME: `lines` must have the layouts that pahole prints for kinds.so.
laid_out() {
    there pahole || return 0
    { timeout 60 pahole -F dwarf -s kinds.so && timeout 60 pahole -F dwarf kinds.so; } 2>/dev/null |
        awk -f "$sources/pahole.awk" | sort -u >want
    [ "$(wc -l <want)" -ge 34 ] || fail "$1: pahole prints $(wc -l <want) layouts"
    awk -f "$sources/layouts.awk" lines | awk '
        FILENAME == "want" { printed[$1, $2] = 1; next }
        ($1, $2) in printed' want - | sort -u >got
    differ "$1, by pahole"
    passed "$1: $(wc -l <want) layouts by pahole"
}

# held COMPILER OPTION..: the graph of what the compiler builds must agree.
held() {
    build "$@"
    "$@" -w -Wno-psabi -I "$sources" -o facts facts.c 2>errors || { cat errors >&2 && fail "$*: the facts"; }
    agreed "$*"
}

# crossed COMPILER OPTION..: if bit_offset puts a bit field before the bytes of its type, the field has no valid place, and the program
# must report a fault at the structure.
crossed() {
    build "$@" -DCROSSING
    readelf --wide --debug-dump=info kinds.so 2>/dev/null | awk '
        match($0, /^ *<[0-9a-f]+><[0-9a-f]+>: Abbrev Number: [1-9]/) { split($0, field, /[<>]+/); entry = field[3]; tag = $0 }
        / DW_AT_name .* crossing_bits$/ && tag ~ /DW_TAG_structure_type/ { print entry; exit }' >crossing
    printf 'unreadable 35 %d\n' "0x$(cat crossing)" >want
    expect "$*: a bit field in more bytes than its type has" 1 kinds.so
}

# From DWARF 5 on, gcc gives the place of a bit field by data_bit_offset.
for level in -O0 -O2; do
    held gcc -gdwarf-5 $level -DCROSSING
    laid_out "gcc -gdwarf-5 $level"
    held gcc -gdwarf-4 $level
    laid_out "gcc -gdwarf-4 $level"
    # pahole never ends on type units.
    held gcc -gdwarf-5 $level -fdebug-types-section -DCROSSING
done
crossed gcc -gdwarf-4 -O0
held gcc -gdwarf-5 -O2 -flto -DCROSSING
held gcc -gdwarf-4 -O2 -flto
held gcc -funsigned-char -fshort-enums
held gcc -gdwarf-5 -fpack-struct=2 -DCROSSING

# Partial units hold what the units share.
if there dwz; then
    ran="$ran dwz"
    held gcc -gdwarf-5 -O2 -DCROSSING
    dwz kinds.so
    agreed "gcc -gdwarf-5 -O2, and dwz"
fi

if there clang; then
    ran="$ran clang"
    for level in -O0 -O2; do
        held clang -gdwarf-5 $level
        laid_out "clang -gdwarf-5 $level"
        # Its DWARF 4 has no alignments of typedefs.
        held clang -gdwarf-4 $level -DNO_TYPEDEF_ALIGNMENT
        laid_out "clang -gdwarf-4 $level"
        held clang -gdwarf-5 $level -fdebug-types-section
    done
    for version in 4 5; do crossed clang -gdwarf-$version -O0; done
    held clang -funsigned-char -fshort-enums
    if there ld.lld; then
        ran="$ran ld.lld"
        held clang -O2 -flto -fuse-ld=lld -Wno-unused-command-line-argument
    fi
fi
if there pahole; then ran="$ran pahole"; fi

finished

#!/usr/bin/env bash
# Builds libraries with gcc and clang, and compares the debug information entry that the proved readers find for each exported function
# and variable, and its name, with what readelf lists.
#
#   tests/typed_exports.sh                 builds the program of this repository
#   GRAPH_LINES=/path/of/tool_graph_lines tests/typed_exports.sh    uses another one
set -eu
title="typed exports"
tools="gcc readelf awk"
crate=tool_graph_lines
. "$(dirname "$0")/common.bash"

# addressed LIBRARY: prints a line for each export, in order: its name, and its value in hexadecimal, or `-` if the symbol has no
# address.
addressed() {
    exports "$1" >numbers
    readelf --wide --dyn-syms "$1" | awk '
        FILENAME == "numbers" { split($0, field, "\t"); name[field[1]] = field[2]; kind[field[1]] = field[6]; next }
        $1 ~ /^[0-9]+:$/ && ($1 + 0) in name {
            number = $1 + 0
            none = $0 ~ / ABS / || kind[number] == "TLS" || kind[number] == "IFUNC"
            value = $2
            sub(/^0+/, "", value)
            print name[number], none ? "-" : (value == "" ? "0" : value)
        }' numbers -
}

# typed LIBRARY: prints a line for each export, in order: its name, the offset of its entry and the entry's name, from readelf's lists of
# entries, ranges and indexed addresses.
typed() {
    addressed "$1" >wanted
    {
        # readelf fails if units share one table.
        readelf --wide --debug-dump=addr "$1" || true
        readelf --wide --debug-dump=Ranges "$1"
        readelf --wide --hex-dump=.debug_rnglists "$1"
        readelf --wide --debug-dump=info "$1"
    } 2>/dev/null | awk '
        function value(text,    i, sum) {
            sub(/^0x/, "", text)
            for (i = 1; i <= length(text); i++) sum = 16 * sum + index("0123456789abcdef", substr(text, i, 1)) - 1
            return sum
        }
        # a number in hexadecimal without leading zeros
        function short(text) {
            sub(/^(0x)?0*/, "", text)
            return text == "" ? "0" : text
        }
        # the text of an attribute after its form
        function said(text) {
            sub(/^[^:]*: /, "", text)
            sub(/^\([a-z_0-9]+\) */, "", text)
            sub(/^\((offset|index|indexed string): [^)]*\): /, "", text)
            sub(/[ \t]+$/, "", text)
            return text
        }
        function reference(text) {
            match(text, /<0x[0-9a-f]+>/)
            return short(substr(text, RSTART + 1, RLENGTH - 2))
        }

        # the number in some bytes of .debug_rnglists, in little endian
        function number(at, size,    i, sum) {
            for (i = size - 1; i >= 0; i--) sum = 256 * sum + bytes[at + i]
            return sum
        }
        # where the first range of the list at an offset begins; readelf shows only the first of the lists that no table names
        function first_range(at,    base, shift, sum) {
            while (bytes[at] == 5) { base = number(at + 1, 8); at += 9 }
            if (bytes[at] == 6 || bytes[at] == 7) return sprintf("%x", number(at + 1, 8))
            if (bytes[at] != 4) return ""
            for (shift = 1; bytes[++at] >= 128; shift *= 128) sum += shift * (bytes[at] - 128)
            return sprintf("%x", base + sum + shift * bytes[at])
        }

        FILENAME == "wanted" { name_of[++exports] = $1; value_of[exports] = $2; next }

        /^Contents of / {
            part = $4
            if ($3 == "section" || $4 == "section:") part = $3
            next
        }
        # addresses by unit and index
        part == ".debug_addr" && /For compilation unit at offset/ { unit = short($NF); sub(/:$/, "", unit); unit = short(unit); next }
        part == ".debug_addr" && $1 ~ /^[0-9]+:$/ { address[unit, $1 + 0] = short($2); next }
        # the first range of each list
        part == ".debug_rnglists" && /^ *Offset: / { list = $2; sub(/,/, "", list); list = short(list); next }
        part ~ /^\.debug_r(ngl|ang)/ && $1 ~ /^[0-9a-f]+$/ && $2 ~ /^[0-9a-f]+$/ {
            if (/base address/) next
            if (part == ".debug_ranges") list = short($1)
            if (!((part, list) in begin)) begin[part, list] = short($2)
            next
        }

        /^Hex dump of section / { part = "bytes"; count = 0; next }
        part == "bytes" && /^ *0x/ {
            text = substr($0, 14, 35)
            gsub(/ /, "", text)
            for (i = 1; i < length(text); i += 2) bytes[count++] = value(substr(text, i, 2))
            next
        }

        part == ".debug_info" && /Compilation Unit @ offset/ { unit = $NF; sub(/:$/, "", unit); unit = short(unit); next }
        part == ".debug_info" && /^ *Version: / { version[unit] = $2; next }
        part == ".debug_info" && /^ *Signature: / { signature = short($2); next }
        part == ".debug_info" && /^ *Type Offset: / { next }
        part == ".debug_info" && match($0, /^ *<[0-9a-f]+><[0-9a-f]+>: Abbrev Number: [1-9]/) {
            split($0, field, /[<>]+/)
            entry = field[3]
            order[++entries] = entry
            depth[entry] = field[2] + 0
            unit_of[entry] = unit
            tag[entry] = $0
            sub(/.*\(/, "", tag[entry])
            sub(/\).*/, "", tag[entry])
            next
        }
        part == ".debug_info" && / DW_AT_name / && !(entry in named) { named[entry] = said($0) }
        # units with the same base share the table that readelf shows for the first of them
        part == ".debug_info" && / DW_AT_addr_base *: / {
            base[unit] = $NF
            if (!(base[unit] in table)) table[base[unit]] = unit
        }
        part == ".debug_info" && / DW_AT_low_pc / { low[entry] = short($NF) }
        part == ".debug_info" && / DW_AT_ranges / { ranges[entry] = short($NF) }
        part == ".debug_info" && / DW_AT_abstract_origin/ { origin[entry] = reference($0) }
        part == ".debug_info" && / DW_AT_specification/ { specification[entry] = reference($0) }
        part == ".debug_info" && / DW_AT_declaration / { declared[entry] = 1 }
        part == ".debug_info" && / DW_AT_language .*assembler/ { assembler[unit] = 1 }
        part == ".debug_info" && / DW_AT_location / && match($0, /\(DW_OP_addr: [0-9a-f]+\)$/) {
            place[entry] = short(substr($0, RSTART + 13, RLENGTH - 14))
        }
        part == ".debug_info" && / DW_AT_location / && match($0, /\(DW_OP_addrx <[0-9a-fx]+>\)$/) {
            place[entry] = address[table[base[unit]], value(substr($0, RSTART + 14, RLENGTH - 16))]
        }

        END {
            for (i = 1; i <= entries; i++) {
                e = order[i]
                if (depth[e] != 1 || (e in declared) || (unit_of[e] in assembler)) continue
                at = ""
                if (tag[e] == "DW_TAG_variable" && (e in place)) at = place[e]
                if (tag[e] == "DW_TAG_subprogram") {
                    section = version[unit_of[e]] == 4 ? ".debug_ranges" : ".debug_rnglists"
                    if (e in low) at = low[e]
                    else if ((e in ranges) && ((section, ranges[e]) in begin)) at = begin[section, ranges[e]]
                    else if (e in ranges) at = first_range(value(ranges[e]))
                }
                if (at != "" && !(at in first)) first[at] = e
            }
            for (k = 1; k <= exports; k++) {
                if (!(value_of[k] in first)) { print name_of[k], "- -"; continue }
                e = first[value_of[k]]
                text = "-"
                for (f = e; f != ""; f = (f in origin) ? origin[f] : (f in specification ? specification[f] : ""))
                    if (f in named) { text = named[f]; break }
                print name_of[k], value(e), text
            }
        }' wanted -
}

# listed NAME LIBRARY LEAST: the program must find what readelf lists, which must be an entry for at least LEAST exports.
listed() {
    typed "$2" >want
    local found
    found=$(grep -vc -- ' - -$' want || true)
    [ "$found" -ge "$3" ] || { cat want >&2 && fail "$1: readelf lists entries for $found exports alone"; }
    answers "$1" 0 "$2"
    awk '$1 == "export" { sub(/@.*/, "", $2); print $2, $4 ? $4 " " $6 : "- -" }' got >named
    mv named got
    same "$1"
    passed "$1: entries for $found of $(wc -l <want) exports"
}

units="$sources/shapes_1.c $sources/shapes_2.c $sources/shapes_3.c"
versions="-DVERSIONS -Wl,--version-script=$sources/shapes.map"
compilers=gcc
if there clang; then compilers="gcc clang"; ran="clang"; fi
for compiler in $compilers; do
    for version in 4 5; do
        # gcc puts type units of version 4 into .debug_types, which is not read.
        types=
        if [ "$version" = 5 ]; then types="-fdebug-types-section"; fi
        for level in -O0 -O2 "-O2 $types -fno-inline" "-O0 $types -ffunction-sections -fdata-sections"; do
            # Unquoted on purpose: each option and each unit is a word.
            $compiler -shared -fPIC -w -g -gdwarf-$version $level -o shapes.so $units
            listed "$compiler -gdwarf-$version $level" shapes.so 20
            $compiler -shared -fPIC -w -g -gdwarf-$version $level $versions -o versions.so $units
            listed "$compiler -gdwarf-$version $level, versions" versions.so 19
        done
    done
    for part in 1 2; do
        awk -v first=$((part * 200 - 199)) -v last=$((part * 200)) -f "$sources/entries.awk" >"part_$part.c"
    done
    $compiler -shared -fPIC -w -g -gdwarf-5 -O2 -o many.so part_1.c part_2.c
    listed "$compiler, two large units" many.so 100
    $compiler -shared -fPIC -w -g -gdwarf-4 -O1 -c -o part_1.o part_1.c
    $compiler -shared -fPIC -w -g -gdwarf-5 -O1 -c -o part_2.o part_2.c
    $compiler -shared -o mixed.so part_1.o part_2.o
    listed "$compiler, one unit of version 4 and one of version 5" mixed.so 100
done
for version in 4 5; do
    gcc -shared -fPIC -w -g -gdwarf-$version -O2 -flto -o lto.so $units
    listed "gcc -gdwarf-$version -O2 -flto" lto.so 20
done
if there clang && there ld.lld; then
    clang -shared -fPIC -w -g -O2 -flto -fuse-ld=lld -o lto.so $units
    ran="$ran ld.lld"
    listed "clang -O2 -flto" lto.so 20
fi

# The signature of a type unit in .debug_types refers to no entry that is read: the fault is at the first entry that has one.
gcc -shared -fPIC -w -g -gdwarf-4 -O0 -fdebug-types-section -o types.so $units
readelf --wide --debug-dump=info types.so | awk '
    match($0, /^ *<[0-9a-f]+><[0-9a-f]+>: Abbrev Number: [1-9]/) { split($0, field, /[<>]+/); entry = field[3] }
    / DW_AT_type .*\(ref_sig8\)/ { print entry; exit }' >signed
printf 'unreadable 34 %d\n' "0x$(cat signed)" >want
expect "gcc -gdwarf-4 -fdebug-types-section: the first signature" 1 types.so

# A library without debug information has no entries, and an unreadable file is reported.
gcc -shared -fPIC -w -o bare.so $units
listed "gcc, no debug information" bare.so 0
printf 'unreadable 1 0\n' >want
: >empty.so
expect "an empty file has a fault" 1 empty.so

finished

#!/usr/bin/env bash
# Builds libraries with gcc and clang, with debug information in DWARF 5 and DWARF 4, with type units and with partial units (by dwz),
# and compares the entries that the proved program prints with those that readelf prints, line by line. Does the same for the C library
# of the system, joined with its debug information.
#
#   tests/debug_entries.sh                 builds the program of this repository
#   ABI=/path/of/abi tests/debug_entries.sh    uses another one
set -eu
title="debug entries"
tools="gcc readelf awk"
crate=abi_cli
. "$(dirname "$0")/common.bash"

# entries LIBRARY: prints a line for each entry of .debug_info, as readelf shows it: the offset, the depth, and the tag in hexadecimal.
# readelf prints depths in decimal, and by default it also lists the file that .gnu_debuglink names.
entries() {
    readelf --wide --debug-dump=info,no-follow-links "$1" | awk '
        function value(text,    i, sum) {
            for (i = 1; i <= length(text); i++) sum = 16 * sum + index("0123456789abcdef", substr(text, i, 1)) - 1
            return sum
        }

        BEGIN {
            # the tags of DWARF 5 (section 7.5.3) and of GNU
            count = split("array_type 1 class_type 2 entry_point 3 enumeration_type 4 formal_parameter 5 imported_declaration 8 " \
                "label a lexical_block b member d pointer_type f reference_type 10 compile_unit 11 string_type 12 " \
                "structure_type 13 subroutine_type 15 typedef 16 union_type 17 unspecified_parameters 18 variant 19 " \
                "common_block 1a common_inclusion 1b inheritance 1c inlined_subroutine 1d module 1e ptr_to_member_type 1f " \
                "set_type 20 subrange_type 21 with_stmt 22 access_declaration 23 base_type 24 catch_block 25 const_type 26 " \
                "constant 27 enumerator 28 file_type 29 friend 2a namelist 2b namelist_item 2c packed_type 2d subprogram 2e " \
                "template_type_param 2f template_value_param 30 thrown_type 31 try_block 32 variant_part 33 variable 34 " \
                "volatile_type 35 dwarf_procedure 36 restrict_type 37 interface_type 38 namespace 39 imported_module 3a " \
                "unspecified_type 3b partial_unit 3c imported_unit 3d condition 3f shared_type 40 type_unit 41 " \
                "rvalue_reference_type 42 template_alias 43 coarray_type 44 generic_subrange 45 dynamic_type 46 atomic_type 47 " \
                "call_site 48 call_site_parameter 49 skeleton_unit 4a immutable_type 4b GNU_call_site 4109 " \
                "GNU_call_site_parameter 410a", words, " ")
            for (i = 1; i < count; i += 2) tag["DW_TAG_" words[i]] = words[i + 1]
        }
        /^Contents of / { inside = / \.debug_info section/ }
        inside && match($0, /^ *<[0-9a-f]+><[0-9a-f]+>: Abbrev Number: [1-9][0-9]* \(DW_TAG_[A-Za-z_0-9]+\)/) {
            split($0, part, /[<>]+/)
            name = $0
            sub(/.*\(/, "", name)
            sub(/\).*/, "", name)
            if (!(name in tag)) { print "no number is known of " name; exit }
            printf "%d %d %s\n", value(part[3]), part[2], tag[name]
        }'
}

# listed NAME LIBRARY LEAST: the program must print the same entries as readelf, at least LEAST lines.
listed() {
    entries "$2" >want
    [ "$(wc -l <want)" -ge "$3" ] || fail "$1: readelf shows $(wc -l <want) entries: $(tail -n 1 want)"
    expect "$1: $(wc -l <want) entries" 0 entries "$2"
}

for part in 1 2 3; do
    awk -v first=$((part * 60 - 59)) -v last=$((part * 60)) -f "$sources/entries.awk" >"part_$part.c"
done
awk -v first=1 -v last=400 -f "$sources/entries.awk" >many.c

compilers=gcc
if there clang; then compilers="gcc clang"; ran="clang"; fi
for compiler in $compilers; do
    for options in "-gdwarf-5" "-gdwarf-4" "-fdebug-types-section -gdwarf-5"; do
        for level in -O0 -O2; do
            # Unquoted on purpose: each option is a word.
            $compiler -shared -fPIC -w -g $options $level -o small.so part_1.c part_2.c part_3.c
            listed "$compiler -g $options $level, three units" small.so 3000
        done
        $compiler -shared -fPIC -w -g $options -O2 -o many.so many.c
        listed "$compiler -g $options -O2, one unit" many.so 20000
    done
    $compiler -shared -fPIC -w -g -gdwarf-4 -O1 -c -o part_1.o part_1.c
    $compiler -shared -fPIC -w -g -gdwarf-5 -O1 -c -o part_2.o part_2.c
    $compiler -shared -o mixed.so part_1.o part_2.o
    listed "$compiler, one unit of version 4 and one of version 5" mixed.so 2000
    $compiler -shared -fPIC -w -O1 -o stripped.so part_1.c
    listed "$compiler, no debug information" stripped.so 0
done

if there dwz; then
    ran="$ran dwz"
    for version in 4 5; do
        gcc -shared -fPIC -w -g -gdwarf-$version -O2 -o twice.so part_1.c part_2.c part_3.c part_1.c -Wl,--allow-multiple-definition
        dwz -o partial.so twice.so 2>dwz_errors || fail "dwz does nothing: $(head -n 1 dwz_errors)"
        readelf --debug-dump=info partial.so | grep -q DW_TAG_partial_unit || fail "dwz makes no partial unit"
        listed "partial units of version $version" partial.so 2000
    done
fi

# A library of the system, joined with the debug information from its debug package.
if there eu-unstrip && there objcopy; then
    library=/lib/x86_64-linux-gnu/libc.so.6
    if "$root/tools/join-debug" "$library" joined.so 2>join_errors; then
        ran="$ran eu-unstrip objcopy"
        listed "$library with its debug information" joined.so 100000
    else
        [ -n "${SKIP_MISSING_TOOLS:-}" ] || fail "$(cat join_errors) (with SKIP_MISSING_TOOLS=1 this is left out)"
        left_out="$left_out libc6-dbg"
    fi
fi

# Files with faults are refused, whatever the fault is.
printf 'unreadable library 1 ShortFile 0\n' >want
: >empty.so
expect "an empty file has a fault" 2 entries empty.so
printf 'read fault library\n' >want
expect "a missing library cannot be read" 3 entries missing.so

finished

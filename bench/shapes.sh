#!/usr/bin/env bash
# Times `abi check` on libraries of a special shape, which gcc makes, each against one of the same shape with one more structure:
#
#   rings    two rings of structures with tags of their own. The lengths have no common factor, so each structure of one meets each of
#            the other: about 1,000, 10,000, 50,000 and 100,000 pairs
#   members  structures of 1,000, 2,000, 5,000 and 10,000 members, which are compared member by member
#   copies   50 sources with the same 10, 100 and 1,000 structures, which are classes of alike types
#   sections 50,000 exports and 20,000 structures, with a rule file of 10 and of 100 sections whose patterns match nothing
#
# For each it prints the milliseconds of processor time (the least of five runs) of `abi check`, those of reading both libraries (`abi
# exports` of each), the difference, and the peak memory of `abi check`.
#
# usage: bench/shapes.sh [ABI]   (default: the program that `rt run` built in crates/abi_cli/out)
set -eu
. "$(dirname "$0")/common.bash"
mkdir -p shapes
cd shapes

# more: the declarations that a second library has in addition.
more() {
    echo "struct more { int more; }; void take_more(struct more *p) {}"
}

# ring TAG COUNT: the source of a function that takes a pointer into a ring.
ring() {
    awk -v tag="$1" -v count="$2" 'BEGIN {
        for (i = 0; i < count; i++) printf "struct %s%d { struct %s%d *next; int value; };\n", tag, i, tag, (i + 1) % count
        printf "void walk(struct %s0 *first) {}\n", tag
    }'
}

# members COUNT: the source of a structure with that many members.
members() {
    awk -v count="$1" 'BEGIN {
        print "struct wide {"
        for (i = 0; i < count; i++) printf "int m%07d;\n", i
        print "};\nvoid take(struct wide *p) {}"
    }'
}

# copy COUNT NUMBER: a source with structures that other sources have, too.
copy() {
    awk -v count="$1" -v number="$2" 'BEGIN {
        print "struct s0 { int first; };"
        for (i = 1; i < count; i++) printf "struct s%d { struct s%d *before; int value; };\n", i, i - 1
        printf "void take%d(struct s%d *p) {}\n", number, count - 1
    }'
}

# exported: 50,000 functions and variables, and 20,000 structures that they take.
exported() {
    awk 'BEGIN {
        for (i = 0; i < 20000; i++) printf "struct some_name_%06d { char bytes[%d]; };\n", i, i + 1
        for (i = 0; i < 25000; i++) printf "void some_function_%06d(struct some_name_%06d *p) {}\nint some_object_%06d;\n", i, i % 20000, i
    }'
}

# sections COUNT: a rule file.
sections() {
    awk -v count="$1" 'BEGIN {
        for (i = 0; i < count; i++) {
            if (i % 3 == 0) printf "[suppress_function]\nname_regexp = ^some_.*_x%d$\n", i
            if (i % 3 == 1) printf "[suppress_variable]\nsymbol_name_regexp = (foo|bar)_%d\n", i
            if (i % 3 == 2) printf "[suppress_type]\nname_regexp = ^some_[a-z]+_x%d$\n", i
        }
    }'
}

# made NAME SOURCE..: builds the library of these sources, if it is not there yet.
made() {
    local name=$1
    shift
    [ -e "$name" ] || gcc -shared -fPIC -w -g -O0 -o "$name" "$@"
}

# milliseconds COMMAND..: those of the least of five runs.
milliseconds() {
    awk -v s="$(least 5 "$@")" 'BEGIN { printf "%.0f", 1000 * s }'
}

# measured NAME OLD NEW [OPTION..]: prints the line of a comparison.
measured() {
    local name=$1 old=$2 new=$3 whole first second
    shift 3
    "$abi" check "$@" "$old" "$new" >answer 2>errors || failed "$abi" check "$@" "$old" "$new"
    whole=$(milliseconds "$abi" check "$@" "$old" "$new")
    first=$(milliseconds "$abi" exports "$old")
    second=$(milliseconds "$abi" exports "$new")
    echo "$name: $whole ms, $((first + second)) ms of them for reading, $((whole - first - second)) ms for the comparison," \
        "$(grep -c '^pair ' answer || true) pairs, peak $(peak_memory "$abi" check "$@" "$old" "$new") MB"
}

echo "load $(cut -d ' ' -f 1-3 /proc/loadavg)"
for count in 22 71 158 223; do
    ring a "$count" >old.c
    ring b "$((count + 1))" >new.c
    made "ring_$count.so" old.c
    made "ring_more_$count.so" new.c
    measured "rings of $count and $((count + 1)) structures" "ring_$count.so" "ring_more_$count.so"
    # each pointer and each structure with each other, the first pointer by value, the function, void and int
    [ "$(grep -c '^pair ' answer)" -eq $((2 * count * (count + 1) + 4)) ] || failed "another number of pairs"
done
for count in 1000 2000 5000 10000; do
    members "$count" >old.c
    { members "$count" && more; } >new.c
    made "members_$count.so" old.c
    made "members_more_$count.so" new.c
    measured "a structure of $count members" "members_$count.so" "members_more_$count.so"
done
for count in 10 100 1000; do
    for number in $(seq 50); do copy "$count" "$number" >"copy_$number.c"; done
    more >more.c
    made "copies_$count.so" $(printf 'copy_%d.c ' $(seq 50))
    made "copies_more_$count.so" $(printf 'copy_%d.c ' $(seq 50)) more.c
    measured "50 copies of $count structures" "copies_$count.so" "copies_more_$count.so"
done
exported >old.c
{ exported && more; } >new.c
made exported.so old.c
made exported_more.so new.c
: >rules_0
for count in 0 10 100; do
    sections "$count" >"rules_$count"
    measured "50,000 exports and a rule file of $count sections" exported.so exported_more.so --rules "rules_$count"
done

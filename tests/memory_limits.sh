#!/usr/bin/env bash
# Runs each command under memory limits (ulimit -v) that grow in steps from the smallest under which the program starts. Each time it
# must give the same answer as without a limit, or end with status 4 and write nothing to standard output. The limits grow until the
# answer has come ten times in a row.
#
#   tests/memory_limits.sh                 builds the program of this repository
#   ABI=/path/of/abi tests/memory_limits.sh    uses another one
set -eu
title="memory limits"
tools="gcc awk"
crate=abi_cli
. "$(dirname "$0")/common.bash"

# limited KILOBYTES ARGUMENT..: runs the program, given the arguments, under a memory limit, and returns its status.
limited() {
    local limit=$1
    shift
    (
        ulimit -v "$limit"
        exec "$program" "$@"
    ) >got 2>errors
}

# The smallest limit, in steps of 64 kilobytes, under which the program starts: without arguments it then prints its usage.
least=64
until { limited "$least"; } 2>/dev/null; [ $? -eq 64 ]; do
    least=$((least + 64))
    [ "$least" -le 262144 ] || fail "the program does not start in 256 megabytes"
done

# under_limits NAME STATUS STEP ARGUMENT..: runs the command under limits that grow from the smallest in steps of STEP kilobytes, until it
# has given the right answer, which is in the file `want`, ten times in a row.
under_limits() {
    local name=$1 status=$2 step=$3 limit=$least right=0 refused=0 ended
    shift 3
    while [ "$right" -lt 10 ]; do
        ended=0
        limited "$limit" "$@" || ended=$?
        if [ "$ended" -eq "$status" ] && cmp -s want got; then
            right=$((right + 1))
        elif [ "$ended" -eq 4 ] && [ ! -s got ]; then
            right=0
            refused=$((refused + 1))
        else
            fail "$name: status $ended under $limit kilobytes: $(head -c 100 got) $(head -n 1 errors)"
        fi
        limit=$((limit + step))
        [ "$limit" -le 4194304 ] || fail "$name: no answer in 4 gigabytes"
    done
    [ "$refused" -gt 0 ] || fail "$name: no limit was too narrow"
    passed "$name: out of memory under $refused limits, the answer from there on"
}

# The libraries are so large that a program that can start may still run out of memory on them.
for i in $(seq 5000); do echo "int exported_$i(void) { return $i; }"; done >many.c
gcc -shared -nostdlib -fPIC -w -o many.so many.c
head -n 4000 many.c >fewer.c
gcc -shared -nostdlib -fPIC -w -o fewer.so fewer.c
awk -v first=1 -v last=200 -f "$sources/entries.awk" >entries.c
gcc -shared -fPIC -w -g -O1 -o entries.so entries.c

# answered NAME STATUS STEP ARGUMENT..: the program must give the same answer under limits as without one.
answered() {
    local name=$1 status=$2 step=$3 ended=0
    shift 3
    "$program" "$@" >want || ended=$?
    [ "$ended" -eq "$status" ] || fail "$name: status $ended, not $status, without a limit"
    under_limits "$name" "$status" "$step" "$@"
}

answered "a yes" 0 128 check many.so many.so
answered "a no" 1 128 check many.so fewer.so
answered "entries" 0 128 entries entries.so
answered "exports" 0 512 exports entries.so
answered "a yes on types" 0 512 check entries.so entries.so
printf '[suppress_type]\nname_regexp = ^node\n' >rules
answered "a yes with a rule file" 0 512 check --rules rules entries.so entries.so
cp want certificate
answered "a certificate" 0 512 verify --rules rules entries.so entries.so certificate
answered "a trial" 0 512 trial 100
answered "an unreadable library" 2 128 check many.so many.c

finished

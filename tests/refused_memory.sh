#!/usr/bin/env bash
# Refuses the requests for memory of abi and of abi-json one at a time, with a preloaded function that replaces the C library's. Each time
# the program must give the same answer as with all its memory, or end with status 4 and print nothing, or for abi-json the document that
# says so. For commands with many requests it tries some of them, spread evenly.
#
#   tests/refused_memory.sh [MOST]             tries at most MOST requests of each command (60 by default)
#   ABI=/path/of/abi ABI_JSON=/path/of/abi_json tests/refused_memory.sh   uses other programs
set -eu
title="refused memory"
tools="gcc awk sed jq"
crate=abi_cli
. "$(dirname "$0")/common.bash"
most=${1:-60}

gcc -shared -fPIC -O1 -o faulty.so "$sources/faulty.c"

tool=abi

# Whether the program printed nothing, or, for abi-json, the whole document that says that memory ran out.
says_no_memory() {
    [ ! -s got ] || { [ "$tool" = abi-json ] && jq -e '.answer == "no memory" and .status == 4' got >/dev/null; }
}

# refused NAME STATUS ARGUMENT..: runs the command again and again, each time with another request refused.
refused() {
    local name=$1 status=$2 ended=0 calls call tried=0 out=0
    shift 2
    COUNTS=counts LD_PRELOAD=$PWD/faulty.so "$program" "$@" >want 2>errors || ended=$?
    [ "$ended" -eq "$status" ] || fail "$name: status $ended, not $status, with all its memory"
    calls=$(cut -d ' ' -f 3 counts)
    for call in $(awk -v calls="$calls" -v most="$most" 'BEGIN {
        step = calls > most ? calls / most : 1
        for (at = 1; at <= calls; at += step) print int(at)
    }'); do
        ended=0
        ALLOC_FAILS=$call LD_PRELOAD=$PWD/faulty.so "$program" "$@" >got 2>errors || ended=$?
        tried=$((tried + 1))
        if [ "$ended" -eq 4 ] && says_no_memory; then
            out=$((out + 1))
            [ ! -s errors ] || [ "$(cat errors)" = "$tool: out of memory" ] ||
                fail "$name: without request $call it says: $(cat errors)"
        elif [ "$ended" -ne "$status" ] || ! cmp -s want got; then
            fail "$name: without request $call status $ended: $(head -c 100 got)"
        fi
    done
    [ "$out" -gt 0 ] || fail "$name: no request was needed"
    passed "$name: $tried of $calls requests refused, $out times out of memory"
}

cat >old.c <<'C'
struct node { struct node *next; long value; enum { ONE, TWO } kind; union { int a; float b; } part; };
typedef struct node node;
int first(node *n) { return n->part.a; }
long second(struct node n, double d) { return n.value + (long)d; }
int count = 1;
C
sed 's/long value/int value/' old.c >new.c
gcc -shared -fPIC -g -o old.so old.c
gcc -shared -fPIC -g -o new.so new.c
gcc -shared -fPIC -o plain.so old.c
printf '[suppress_type]\nname_regexp = ^no.e$\n[suppress_function]\nname = first\n' >rules
"$program" check --rules rules old.so old.so >certificate
sed 's/^\(bind [0-9]*\) .*/\1 0/' certificate >false_certificate
sed '5s/^/x/' certificate >damaged_certificate
head -c 3000 old.so >cut.so

refused "a yes without types" 0 check plain.so plain.so
refused "a yes" 0 check old.so old.so
for style in text table counts first; do refused "a no, style $style" 1 check --report $style old.so new.so; done
refused "a yes with a rule file" 0 check --rules rules old.so new.so
refused "a certificate" 0 verify --rules rules old.so old.so certificate
refused "a false certificate" 5 verify --rules rules old.so old.so false_certificate
refused "a damaged certificate" 2 verify --rules rules old.so old.so damaged_certificate
refused "entries" 0 entries old.so
refused "exports" 0 exports old.so
refused "an unreadable library" 2 exports cut.so
refused "a missing library" 3 exports missing.so
refused "help" 0 --help
refused "the version" 0 --version
system=/lib/x86_64-linux-gnu/libz.so.1
if [ -e "$system" ]; then refused "a library of the system" 0 check "$system" "$system"; fi

# The documents, with the notes in them.
program_of abi_json 64 "${ABI_JSON:-}"
program=$found tool=abi-json
export ABI_NOTES=1
refused "the document of a yes" 0 check old.so old.so
refused "the document of a no" 1 check old.so new.so
refused "the document of a yes with a rule file" 0 --rules rules check old.so new.so
refused "the document of an unreadable library" 2 exports cut.so
refused "the notes" 0 notes old.so new.so
refused "the notes on an unreadable library" 2 notes old.so cut.so

finished

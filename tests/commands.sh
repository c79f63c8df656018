#!/usr/bin/env bash
# Checks arguments, styles, rule files, certificates and trials of the program, on libraries that gcc builds. The expected answers were
# derived by hand from what the commands promise, except the digests of trials: tests/trials.sh compares trials with `abi check`.
#
#   tests/commands.sh                 builds the program of this repository
#   ABI=/path/of/abi tests/commands.sh    uses another one
set -eu
title="commands"
tools="gcc readelf sha256sum awk timeout"
crate=abi_cli
. "$(dirname "$0")/common.bash"

cat >usage <<'END'
usage: abi check [--rules FILE] [--report text|table|counts|first|own] OLD NEW
       abi verify [--rules FILE] OLD NEW CERT
       abi entries LIB
       abi exports LIB
       abi trial N
       abi migrate [--rules FILE] OLD NEW CERT
       abi app [--rules FILE] [--report text|table|counts|first|own] APP OLD NEW
       abi compose A B C CERT1 CERT2
       abi layout LIB TAG
END

# build LIBRARY < SOURCE
build() {
    gcc -shared -fPIC -g -O1 -Wl,-soname,libused.so.1 -o "$1" -x c -
}

# wanted LINE..: writes the lines that the program must print to `want`.
wanted() {
    [ $# -eq 0 ] || printf '%s\n' "$@"
} >want

# ---- arguments

echo 'int f(void) { return 1; }' | build plain.so
cp plain.so ./-plain.so
: >no_rules

cp usage want
while IFS='|' read -r status arguments; do
    # Blanks separate arguments; "" is an empty one, and \377 a byte that is not text.
    eval "set -- $arguments"
    expect "arguments: $arguments" "$status" "$@"
done <<'END'
64|
64|check
64|check plain.so
64|check plain.so plain.so plain.so
64|check plain.so plain.so --report
64|check plain.so plain.so --report loud
64|check plain.so plain.so --rules
64|check --rules no_rules --rules no_rules plain.so plain.so
64|check --report text --report text plain.so plain.so
64|check --rules no_rules
64|check --rules no_rules plain.so
64|check --rules -h
64|check --loud plain.so plain.so
64|--help=x
64|--version=x
64|--version plain.so
64|check --version
64|version
64|-V
64|Check plain.so plain.so
64|CHECK plain.so plain.so
64|plain.so check plain.so
64|Entries plain.so
64|"" plain.so plain.so
64|check plain.so $'\377'
64|verify plain.so plain.so
64|verify --report text plain.so plain.so no_rules
64|entries
64|entries plain.so plain.so
64|entries --rules no_rules plain.so
64|exports --report text plain.so
64|migrate plain.so plain.so
64|migrate --report text plain.so plain.so no_rules
64|compose plain.so plain.so plain.so no_rules
64|compose --rules no_rules plain.so plain.so plain.so no_rules no_rules
64|layout plain.so
64|layout plain.so s s
64|layout --rules no_rules plain.so s
64|trial
64|trial 0
64|trial 50001
64|trial 007
64|trial x
64|trial +1
64|trial 1 1
0|--help
0|-h
0|check --help
0|check -h
0|check plain.so --help
0|check plain.so -hx --loud
END

"$program" check plain.so plain.so >want
for arguments in "check -- plain.so plain.so" "check plain.so plain.so --rules no_rules" "check plain.so --rules no_rules plain.so" \
    "--rules no_rules check plain.so plain.so" "check --rules=no_rules plain.so plain.so" "check --report=text plain.so plain.so" \
    "check --report own plain.so plain.so" "check -- -plain.so plain.so"; do
    # Unquoted on purpose: each argument is a word.
    expect "arguments: $arguments" 0 $arguments
done

# An empty name is a name, too: that of a file that does not exist.
wanted "read fault rules"
expect "an empty name of a rule file" 3 check --rules= plain.so plain.so
wanted "read fault rules"
expect "a rule file that is not there" 3 check --rules missing plain.so plain.so
wanted "read fault certificate"
expect "a certificate that is not there" 3 verify plain.so plain.so missing
wanted "read fault old"
expect "a library that is not there goes first" 3 verify --rules missing missing plain.so missing
printf '[suppress_type]\nname = a\nlonely\n' >bad_rules
wanted "unreadable rules 51 Line 3"
expect "a rule file with a fault" 2 check --rules bad_rules plain.so plain.so
grep -q '^abi: bad_rules: line 3: ' errors || fail "the path of the rule file is not told: $(cat errors)"
wanted "unreadable rules 51 Line 3"
expect "the rule file goes before the certificate" 2 verify --rules bad_rules plain.so plain.so bad_rules
wanted "unreadable certificate 60 Line 1"
expect "a certificate with a fault" 2 verify plain.so plain.so bad_rules
grep -q '^abi: bad_rules: line 1: ' errors || fail "the path of the certificate is not told: $(cat errors)"
wanted "unreadable new 2 NotElf 0"
cp usage none.so
expect "a library with a fault goes before rules" 2 verify --rules bad_rules plain.so none.so bad_rules

# ---- styles

echo 'struct list { struct list *next; int v; }; int len(struct list *l) { return l->v; } void a(void) {} void b(void) {}' | build long_old.so
echo 'struct list { struct list *next; long v; }; int len(struct list *l) { return l->v; }' | build long_new.so
exports long_old.so | awk -F '\t' '$2 != "len" { print "X2 " $2 ": gone" }' >gone
len="L2 len param 1 / target / member v: size 4, now 8"
{ echo no && cat gone && echo "$len"; } >want
expect "a line for each break" 1 check long_old.so long_new.so
expect "a line for each break, as text" 1 check --report text long_old.so long_new.so
expect "the first ten of three breaks" 1 check --report first long_old.so long_new.so
{ echo no && sed 's/^\(X2\) \([^:]*\): \(.*\)/\1 \2 \3/' gone |
    awk '{ printf "%-5s%-32s -: %s\n", $1, $2, $3 }'
printf 'L2   %-32s %s\n' len "param 1 / target / member v: size 4, now 8"; } >want
expect "a table" 1 check --report table long_old.so long_new.so
printf 'no\nX2         2\nL2         1\nall        3\n' >want
expect "counts" 1 check --report counts long_old.so long_new.so
echo no >want
expect "no listener of its own style" 1 check --report own long_old.so long_new.so
for function in 1 2 3 4 5 6 7 8 9 10 11 12; do echo "void f$function(void) {}"; done | build many.so
echo 'static int none;' | build few.so
{ echo no && exports many.so | head -n 10 | awk -F '\t' '{ print "X2 " $2 ": gone" }'; } >want
expect "the first ten of twelve breaks" 1 check --report first many.so few.so

# ---- exports without a type

echo 'int typed(int x) { return x; }' >typed.c
# A symbol without a size does not count.
echo '__asm__(".globl bare\nbare: ret"); int first(void) { return 1; } int second(void) { return 2; } int third = 3;' >untyped.c
gcc -c -fPIC -g -o typed.o typed.c
gcc -c -fPIC -o untyped.o untyped.c
gcc -shared -o whole.so typed.o
gcc -shared -o part.so typed.o untyped.o
gcc -shared -o bare.so untyped.o

# noted NAME STATUS OLD NEW LINE..: `check` must end with the status, and write these lines to standard error.
noted() {
    answers "$1" "$2" check "$3" "$4"
    shift 4
    wanted "$@"
    diff -u want errors >differences || { cat differences >&2 && fail "another note"; }
    passed "a note on types: $*"
}

some="abi: part.so: the debug information has no type for 3 of the 4 exports that have a size: of these only names, versions, kinds and the sizes of objects were compared"
all="abi: bare.so: the debug information has no types for the exports: only names, versions, kinds and the sizes of objects were compared; compile with -g to compare types"
noted "all exports have types" 0 whole.so whole.so
noted "some exports have no type" 0 part.so part.so "$some"
noted "no export has a type" 0 bare.so bare.so "$all"
noted "each library has its note" 0 bare.so part.so "$all" "$some"
noted "a no has its note, too" 1 part.so whole.so "$some"
gcc -c -fPIC -o lost.o typed.c
gcc -shared -o lost.so lost.o
lost="the debug information has no types for the exports"
noted "types that are lost" 1 whole.so lost.so \
    "abi: lost.so: $lost: only names, versions, kinds and the sizes of objects were compared; compile with -g to compare types" \
    "abi: lost.so: $lost, but that of whole.so has: whether their types broke cannot be told"
echo '__asm__(".globl bare\nbare: ret");' | gcc -shared -fPIC -o sizeless.so -x c -
noted "no export has a size" 0 sizeless.so sizeless.so \
    "abi: sizeless.so: none of its exports has a size: names, versions and kinds were compared, and types only where an export without a size has one"

# ---- rule files

# A library like zlib: its stream points to a structure whose members no caller sees.
zlib() {
    cat <<END
struct internal_state { int status; $1 };
struct z_stream { unsigned char *next_in; unsigned avail_in; struct internal_state *state; };
int deflate(struct z_stream *s, int flush) { return s->state->status + flush; }
int inflate(struct z_stream *s) { return s->avail_in; }
END
}
zlib "" | build zlib_old.so
zlib "long pending;" | build zlib_new.so
printf '[suppress_type]\nname = internal_state\n' >zlib_rules
answers "a structure grew" 1 check zlib_old.so zlib_new.so
grep -q '^L2 deflate param 1 / target / member state / target: size 4, now 16$' got || fail "the growth is not told: $(cat got)"
passed "a structure grew"
answers "a structure that is left out" 0 check --rules zlib_rules zlib_old.so zlib_new.so
cp got zlib_cert
[ "$(sed -n 's/^rules //p' zlib_cert)" = "$(digest zlib_rules)" ] || fail "the certificate names another rule file"
passed "a structure that is left out"
wanted accepted
expect "its certificate" 0 verify --rules zlib_rules zlib_old.so zlib_new.so zlib_cert
wanted "refused 70 OtherInput 4"
expect "its certificate without the rule file" 5 verify zlib_old.so zlib_new.so zlib_cert
wanted "refused 70 OtherInput 2"
expect "its certificate of other libraries" 5 verify --rules zlib_rules zlib_new.so zlib_old.so zlib_cert

# A structure that an export reaches through a pointer and by value.
private() {
    echo "struct priv { long a; $1 }; void p($2) {}"
}
for taken in 'struct priv *x' 'struct priv x' 'struct priv *x, struct priv y'; do
    name=$(echo "$taken" | tr -dc '*x,y')
    private "" "$taken" | build "old_$name.so"
    private "long b, c;" "$taken" | build "new_$name.so"
done
printf '[suppress_type]\nname = priv\n' >any_way
printf '[suppress_type]\nname = priv\naccessed_through = pointer\n' >by_pointer
printf '[suppress_type]\nname = priv\naccessed_through = direct\n' >by_value
answers "behind a pointer" 0 check --rules by_pointer 'old_*x.so' 'new_*x.so'
answers "behind a pointer, by any way" 0 check --rules any_way 'old_*x.so' 'new_*x.so'
wanted no "L2 p param 1 / target: size 8, now 24"
expect "behind a pointer, by value alone" 1 check --rules by_value 'old_*x.so' 'new_*x.so'
wanted no "L14 p: param 1 in rdi, now stack+0:24" "L2 p param 1: size 8, now 24"
expect "by value" 1 check --rules by_pointer old_x.so new_x.so
# The rule file leaves out the structure, but not the places of the function's arguments.
wanted no "L14 p: param 1 in rdi, now stack+0:24"
expect "by value, by any way" 1 check --rules any_way old_x.so new_x.so
wanted no "L14 p: param 2 in rsi, now stack+0:24" "L2 p param 2: size 8, now 24"
expect "behind a pointer and by value" 1 check --rules by_pointer 'old_*x,y.so' 'new_*x,y.so'
printf '[suppress_type]\nname = priv\naccessed_through = reference\n' >by_reference
wanted "unreadable rules 53 Property 3"
expect "by a way that is not known" 2 check --rules by_reference old_x.so new_x.so

# ---- migration

# A certificate of version 1 has no ways: it has each pair line of version 2 once, and the other number in the first line.
first_version() {
    sed -e 's/^yes 2$/yes 1/' -e 's/^\(pair [0-9]* [0-9]*\) .*/\1/' "$1" | awk '!/^pair/ || !seen[$0]++'
}
# A migrated certificate has its pairs at both ways.
migrated() {
    sed 's/^yes 1$/yes 2/' "$1" | awk '/^pair/ { print $0 " direct"; print $0 " pointer"; next } { print }'
}
zlib "" | build zlib_same.so
answers "a certificate to migrate" 0 check zlib_old.so zlib_same.so
cp got same_cert
first_version same_cert >same_cert_1
migrated same_cert_1 >want
expect "a certificate of version 1 is migrated" 0 migrate zlib_old.so zlib_same.so same_cert_1
cp got same_cert_2
wanted accepted
expect "a migrated certificate is accepted" 0 verify zlib_old.so zlib_same.so same_cert_2
first_version zlib_cert >zlib_cert_1
migrated zlib_cert_1 >want
expect "a certificate with a rule file is migrated" 0 migrate --rules zlib_rules zlib_old.so zlib_new.so zlib_cert_1
wanted "refused 70 OtherInput 4"
expect "a migration without the rule file" 5 migrate zlib_old.so zlib_new.so zlib_cert_1
wanted "refused 70 OtherInput 2"
expect "a migration for other libraries" 5 migrate --rules zlib_rules zlib_new.so zlib_old.so zlib_cert_1
wanted "unreadable certificate 60 Line 1"
expect "a certificate of version 2 is not migrated" 2 migrate zlib_old.so zlib_same.so same_cert
expect "a certificate of version 1 is not verified" 2 verify zlib_old.so zlib_same.so same_cert_1

# ---- composition

{ zlib "" && echo 'int added(void) { return 1; }'; } | build zlib_more.so
{ zlib "" && echo 'int added(void) { return 1; } int once_more(void) { return 2; }'; } | build zlib_most.so
answers "the first of two certificates" 0 check zlib_old.so zlib_more.so
cp got first_cert
answers "the second of two certificates" 0 check zlib_more.so zlib_most.so
cp got second_cert
answers "the certificate that both compose" 0 compose zlib_old.so zlib_more.so zlib_most.so first_cert second_cert
cp got composed_cert
wanted accepted
expect "a composed certificate is accepted" 0 verify zlib_old.so zlib_most.so composed_cert
"$program" check zlib_old.so zlib_old.so >self_cert
cp self_cert want
expect "a certificate with itself" 0 compose zlib_old.so zlib_old.so zlib_old.so self_cert self_cert
wanted "refused first 70 OtherInput 2"
expect "the first certificate is that of others" 5 compose zlib_old.so zlib_more.so zlib_most.so second_cert second_cert
wanted "refused second 70 OtherInput 2"
expect "the second certificate is that of others" 5 compose zlib_old.so zlib_more.so zlib_most.so first_cert first_cert
wanted "unreadable certificate1 60 Line 1"
expect "the first certificate is none" 2 compose zlib_old.so zlib_more.so zlib_most.so bad_rules second_cert
wanted "unreadable middle 2 NotElf 0"
expect "the middle library is none" 2 compose zlib_old.so none.so zlib_most.so first_cert second_cert
grep -q '^abi: none.so: ' errors || fail "the path of the middle library is not told: $(cat errors)"
# A type that both ends define but the middle only declares is lost in the middle.
echo 'struct s { int x; }; void f(struct s *p) {}' | build ends.so
echo 'struct s; void f(struct s *p) {}' | build declares.so
answers "a middle that declares" 0 check ends.so declares.so
cp got first_cert
answers "a middle that declares, from there" 0 check declares.so ends.so
cp got second_cert
answers "a declaration between two definitions" 5 compose ends.so declares.so ends.so first_cert second_cert
grep -qx 'refused 84 Declaration [0-9]*' got || fail "another refusal: $(cat got)"
passed "a declaration between two definitions"

# ---- layouts

build layouts.so <<'END'
struct s { char c; int i; char d; };
struct o { union { int a; char b; }; };
struct bits { unsigned a : 3, b : 7; int c; };
struct flexible { int n; char tail[]; };
void f(struct s *s, struct o *o, struct bits *b, struct flexible *x) {}
END
wanted "layout s size 12" "member c bit 0 width 8" "hole bit 8 width 24" "member i bit 32 width 32" "member d bit 64 width 8" \
    "padding bit 72 width 24"
expect "holes and padding" 0 layout layouts.so s
wanted "layout o size 4 overlaps" "member a bit 0 width 32" "member b bit 0 width 8" "overlap b a bit 0"
expect "members that overlap" 0 layout layouts.so o
wanted "layout bits size 8" "member a bit 0 width 3" "member b bit 3 width 7" "hole bit 10 width 22" "member c bit 32 width 32"
expect "bit fields" 0 layout layouts.so bits
wanted "layout flexible size 4" "member n bit 0 width 32" "member tail bit 32 width 0"
expect "a flexible array" 0 layout layouts.so flexible

# untagged NAME LIBRARY TAG LINE: `layout` must refuse the tag, and write this line to standard error.
untagged() {
    answers "$1" 5 layout "$2" "$3"
    [ "$(cat got)" = "refused 85 NoTag 0" ] || fail "another answer to a tag that no structure has: $(cat got)"
    wanted "abi: $2: $4"
    diff -u want errors >differences || { cat differences >&2 && fail "another note on a tag"; }
    passed "$1"
}
untagged "a tag that no structure has" layouts.so flexibel \
    "its exports reach no structure with the tag flexibel; tags near it: flexible, bits, s, o"
untagged "a structure that is only declared" declares.so s "its exports reach no structure with the tag s that is defined; one is declared"

# ---- trials

wanted "trial 1 yes exports 1 lines 18" "digest 838083898562d1940837ad5f4349a5ac7cb242502cc161959f32ede5b42d000b"
expect "a trial of one" 0 trial 1
wanted "trial 1000 yes exports 1000 lines 3122" "digest bdd0473355c1c12cd7a3be0b9ccd2d3d1aa0cba2e204815c89fb51498ecdbe23"
expect "a trial of a thousand" 0 trial 1000
expect "a trial of a thousand, behind --" 0 trial -- 1000
# The largest trial ends within a minute.
ended=0
timeout 60 "$program" trial 50000 >got 2>errors || ended=$?
[ "$ended" -eq 0 ] && [ ! -s errors ] || fail "a trial of fifty thousand: status $ended after a minute at most"
head -n 1 got | grep -qx "trial 50000 yes exports 50000 lines 156002" || fail "a trial of fifty thousand: $(cat got)"
passed "a trial of fifty thousand"
finished

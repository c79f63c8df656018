#!/usr/bin/env bash
# Checks the notes of `abi check` on what no rule judges, on small C libraries that gcc and clang build: objects whose qualifiers change,
# structures that one unit only declares and another one defines, dimensions of open arrays, members in padding, unions without members,
# old-style functions, and libraries, versions and symbols that only the new library needs.
#
#   tests/notes.sh                    builds the program of this repository
#   ABI=/path/of/abi tests/notes.sh   uses another one
set -eu
title="notes"
tools="gcc sed grep"
crate=abi_cli
. "$(dirname "$0")/common.bash"

# Kinds of builds.
builds="gcc -gdwarf-5
gcc -gdwarf-4
gcc -gdwarf-5 -fdebug-types-section"
if there clang; then
    ran=clang
    builds="$builds
clang -gdwarf-5
clang -gdwarf-4"
fi

# Objects and functions, and structures that this unit only declares.
cat >outer.c <<'END'
int count = 1;
int row[2] = { 1, 2 };
int seen = 1;
struct pair { int left, right; } both = { 1, 2 };
int at(int (*table)[3], int i) { return (*table)[i]; }
struct inner;
int of_inner(struct inner *inner) { return inner != 0; }
union either;
int of_either(union either *either) { return either != 0; }
enum color;
int of_color(enum color *color) { return color != 0; }
END

# A structure that a second unit only declares: its definition gets one note, at the shorter path.
cat >again.c <<'END'
struct inner;
int of_inner_again(struct inner **inner) { return inner != 0; }
END

# No export reaches the structures of this unit.
cat >inner.c <<'END'
struct other { int a; };
union either { int whole; char bytes[4]; };
enum color { RED, GREEN };
struct inner { int first; struct other *second; unsigned third : 3, fourth : 4; };
__attribute__((visibility("hidden"))) int use(struct inner *inner, union either *either, enum color color) {
    return inner->first + inner->fourth + either->whole + (color == GREEN);
}
void local(void) {
    struct inner { char none; } here = { 0 };
    (void)here;
}
END

# units SIDE EDIT EDIT: writes the two units of a side, edited.
units() {
    sed "$2" outer.c >"$1_outer.c"
    sed "$3" inner.c >"$1_inner.c"
}

# built SIDE: builds the library of its units, with the compiler and the options in `build`.
built() {
    $build -O0 -fPIC -shared -o "$1.so" "$1_outer.c" again.c "$1_inner.c" 2>warnings || fail "$build refuses the units of $1"
}

# said NAME: the notes on the two sides must be those in the file `want`, for each kind of build.
said() {
    while read -r build; do
        built old
        built new
        ABI_NOTES=1 "$program" check old.so new.so >answer 2>errors || fail "$1, $build: the answer is no yes"
        sed -n '/^abi: note: exports with types: /d; /^abi: note: exports of OLD: /d; s/^abi: note: //p' errors >got
        same "$1, $build"
        passed "$1, $build"
    done <<<"$builds"
}

# notes NAME EDIT EDIT: the same, for the units before and after an edit of each.
notes() {
    units old "" ""
    units new "$2" "$3"
    said "$1"
}

# backward NAME EDIT EDIT: the same, with the edited units as the old side.
backward() {
    units old "$2" "$3"
    units new "" ""
    said "$1"
}

: >want
notes "nothing changes" "" ""

echo "object qualifiers: count: was none, now const" >want
notes "an object becomes const" "s/^int count/const &/" ""
echo "object qualifiers: count: was const, now none" >want
backward "an object stops being const" "s/^int count/const &/" ""
echo "object qualifiers: seen: was none, now volatile" >want
notes "an object becomes volatile" "s/^int seen/volatile &/" ""
echo "object qualifiers: row: was none, now const" >want
notes "an array becomes const" "s/^int row/const &/" ""
echo "object qualifiers: both: was none, now const" >want
notes "a structure becomes const" "s/^struct pair/const &/" ""
echo "qualifiers: at param 1: was none, now const" >want
notes "the elements behind a pointer become const" "s/int (\*table)/const &/" ""

echo "defined elsewhere: of_inner param 1 / target: was size 24, now size 32" >want
notes "a structure grows that another unit defines" "" "s/unsigned third/long more; &/"
echo "defined elsewhere: of_inner param 1 / target: was member first at byte 0: 4-byte signed integer, now member first at byte 0: 4-byte float" >want
notes "a member gets another type" "" "s/int first/float first/"
echo "defined elsewhere: of_inner param 1 / target: was member second at byte 8: pointer to struct other, now member second at byte 8: pointer to union either" >want
notes "a pointer gets another target" "" "s/struct other \*second/union either *second/"
echo "defined elsewhere: of_either param 1 / target: was member bytes at byte 0: array [4] of 1-byte signed integer, now member bytes at byte 0: array [3] of 1-byte signed integer" >want
notes "an array has other dimensions" "" "s/bytes\[4\]/bytes[3]/"
echo "defined elsewhere: of_color param 1 / target: was enumerator GREEN 1, now enumerator GREEN 7" >want
notes "an enumerator has another value" "" "s/GREEN }/GREEN = 7 }/"
echo "defined elsewhere: of_color param 1 / target: was none, now enumerator BLUE 2" >want
notes "an enumerator is added" "" "s/GREEN }/GREEN, BLUE }/"
: >want
notes "a structure that nothing declares alone changes" "" "s/int a;/long a;/"
notes "a structure inside a function changes" "" "s/char none/long none/"
echo "defined elsewhere: of_inner param 1 / target: was member third at bit 128, width 3: 4-byte unsigned integer, now member third at bit 128, width 5: 4-byte unsigned integer" >want
notes "a bit field is wider" "" "s/third : 3/third : 5/"

# ---- one form of bit fields against the other

# forms NAME OLD NEW: there must be no note on the same units, built by one compiler with two versions of DWARF. DWARF 4 counts a bit
# field from the other end of its storage.
forms() {
    units old "" ""
    units new "" ""
    build=$2
    built old
    build=$3
    built new
    : >want
    ABI_NOTES=1 "$program" check old.so new.so >answer 2>errors || fail "$1: the answer is no yes"
    sed -n '/^abi: note: exports /d; s/^abi: note: //p' errors >got
    same "$1"
    passed "$1"
}

forms "bit fields of DWARF 4, then of DWARF 5" "gcc -gdwarf-4" "gcc -gdwarf-5"
forms "bit fields of DWARF 5, then of DWARF 4" "gcc -gdwarf-5" "gcc -gdwarf-4"

# ---- two structures of one tag

# A second unit that defines the tag in another way.
cat >twice.c <<'END'
struct inner { short only; };
__attribute__((visibility("hidden"))) int use_twice(struct inner *inner) { return inner->only; }
END

# twice NAME OLD NEW EDIT: the notes on libraries that define a tag twice, with an edit of the second definition; OLD and NEW give the
# order of the units.
twice() {
    sed "$4" twice.c >twice_new.c
    while read -r build; do
        $build -O0 -fPIC -shared -o old.so outer.c again.c $2 2>warnings || fail "$build refuses the old units of $1"
        $build -O0 -fPIC -shared -o new.so outer.c again.c $3 2>warnings || fail "$build refuses the new units of $1"
        ABI_NOTES=1 "$program" check old.so new.so >answer 2>errors || fail "$1, $build: the answer is no yes"
        sed -n '/^abi: note: exports /d; s/^abi: note: //p' errors >got
        same "$1, $build"
        passed "$1, $build"
    done <<<"$builds"
}

: >want
twice "two structures of a tag change places" "inner.c twice.c" "twice.c inner.c" ""
twice "a third unit defines a tag as the first does" "inner.c twice.c" "twice_new.c twice.c inner.c" "s/use_twice/use_again/"
echo "defined elsewhere: of_inner param 1 / target: was size 2, now size 8" >want
twice "the second structure of a tag changes" "inner.c twice.c" "inner.c twice_new.c" "s/short/long/"
twice "the second structure of a tag changes, and stands first" "inner.c twice.c" "twice_new.c inner.c" "s/short/long/"

# ---- one source against another

# sources NAME COMPILERS OLD NEW: the notes on the libraries of two sources must be those in the file `want`, for each kind of build
# with one of the compilers.
sources() {
    while read -r build; do
        case " $2 " in *" ${build%% *} "*) ;; *) continue ;; esac
        echo "$3" | $build -w -O0 -fPIC -shared -o old.so -x c - || fail "$build refuses the old source of $1"
        echo "$4" | $build -w -O0 -fPIC -shared -o new.so -x c - || fail "$build refuses the new source of $1"
        ABI_NOTES=1 "$program" check old.so new.so >answer 2>errors || fail "$1, $build: the answer is no yes"
        sed -n '/^abi: note: exports with types: /d; /^abi: note: exports of OLD: /d; s/^abi: note: //p' errors >got
        same "$1, $build"
        passed "$1, $build"
    done <<<"$builds"
}

echo 'array dimensions: last param 1 / target / member name / target: was [][16], now [][32]' >want
sources "an inner dimension of an open array" "gcc clang" \
    'struct names { int count; char (*name)[][16]; }; int last(struct names *names) { return names->count; }' \
    'struct names { int count; char (*name)[][32]; }; int last(struct names *names) { return names->count; }'
echo 'member in padding: f param 1 / target: was none, now member c at bit 8' >want
sources "a member takes the place of padding" "gcc clang" \
    'struct p { char a; int b; }; int f(struct p *p) { return p->b; }' \
    'struct p { char a; char c; int b; }; int f(struct p *p) { return p->b + p->c; }'
echo 'union without members: g param 1: was size 8, members 0, now size 8, members 0' >want
sources "a transparent union, whose members gcc leaves out" gcc \
    'typedef union { int *i; unsigned *u; } any __attribute__((transparent_union)); int g(any a) { return *a.i; }' \
    'typedef union { int *i; long *u; } any __attribute__((transparent_union)); int g(any a) { return *a.i; }'
# itself NAME COMPILER SOURCE: there must be no note on a library and a copy of it.
itself() {
    echo "$3" | $2 -g -w -O0 -fPIC -shared -o old.so -x c - || fail "$2 refuses the source of $1"
    cp old.so new.so
    ABI_NOTES=1 "$program" check old.so new.so >answer 2>errors || fail "$1: the answer is no yes"
    sed -n '/^abi: note: exports /d; s/^abi: note: //p' errors >got
    : >want
    same "$1"
    passed "$1"
}

itself "a transparent union against itself" gcc \
    'typedef union { int *i; unsigned *u; } any __attribute__((transparent_union)); int g(any a) { return *a.i; }'
echo 'name of type: f param 1 / target: was one = struct without a tag, now two = struct without a tag' >want
sources "a structure without a tag gets another typedef" "gcc clang" \
    'typedef struct { int a; } one; int f(one *p) { return p->a; }' \
    'typedef struct { int a; } two; int f(two *p) { return p->a; }'
echo 'prototype: h: was prototyped, now none' >want
sources "a function of the old style" "gcc clang" 'int h(int a) { return a; }' 'int h(a) int a; { return a; }'

# ---- what the new library needs of other files

# Two libraries for others to need. The first one has two versions of one name.
echo 'int low_1(void) { return 1; } int low_2(void) { return 2; } int other(void) { return 3; }
__asm__(".symver low_1, low@LOW_1"); __asm__(".symver low_2, low@@LOW_2");' >low.c
echo 'LOW_1 { global: low; other; local: *; }; LOW_2 { } LOW_1;' >low.map
gcc -g -fPIC -shared -Wl,-soname,liblow.so.1 -Wl,--version-script=low.map -o liblow.so low.c
echo 'int high(void) { return 1; }' | gcc -g -fPIC -shared -Wl,-soname,libhigh.so.1 -o libhigh.so -x c -
uses='extern int low(void);'

# needs NAME OLD NEW WORD..: the notes on the libraries of two sources must be those in the file `want`; the words are for linking the
# new one.
needs() {
    name=$1
    echo "$uses $2" | gcc -g -O0 -fPIC -shared -nostdlib -o old.so -x c - -x none ./liblow.so || fail "gcc refuses the old source of $name"
    echo "$uses $3" | gcc -g -O0 -fPIC -shared -nostdlib -o new.so -x c - -x none ./liblow.so "${@:4}" || fail "gcc refuses the new source of $name"
    ABI_NOTES=1 "$program" check old.so new.so >answer 2>errors || fail "$name: the answer is no yes"
    sed -n '/^abi: note: exports /d; s/^abi: note: //p' errors >got
    same "$name"
    passed "$name"
}

one='int f(void) { return low(); }'
: >want
needs "the same needs" "$one" "$one"
echo "needs library: libhigh.so.1" >want
needs "one library more" "$one" "$one" -Wl,--no-as-needed ./libhigh.so
echo "needs library: libhigh.so.1
needs symbol: high" >want
needs "one library more, and a symbol of it" "$one" 'extern int high(void); int f(void) { return low() + high() - 1; }' ./libhigh.so
echo "needs version: LOW_1 of liblow.so.1
needs symbol: other@LOW_1" >want
needs "one symbol more, with its version" "$one" 'extern int other(void); int f(void) { return low() + other() - other(); }'
: >want
needs "one symbol less" 'extern int other(void); int f(void) { return low() + other() - other(); }' "$one"
needs "a weak symbol more" "$one" 'extern int none(void) __attribute__((weak)); int f(void) { return none() + low(); }'
echo "needs symbol: none" >want
needs "a weak symbol becomes one that must be there" 'extern int none(void) __attribute__((weak)); int f(void) { return none() + low(); }' \
    'extern int none(void); int f(void) { return none() + low(); }'
echo "needs version: LOW_2 of liblow.so.1
needs symbol: low@LOW_2" >want
needs "a newer version of a library" '__asm__(".symver low, low@LOW_1"); int f(void) { return low(); }' "$one"

# ---- how many exports are compared

# counts NAME RULES LINE: the line of counts for two libraries: the old one has three exports, and the new one two of them.
counts() {
    echo 'int f(void) { return 1; } int g(void) { return 2; } int h(void) { return 3; }' | gcc -g -fPIC -shared -o old.so -x c -
    echo 'int f(void) { return 1; } int g(void) { return 2; }' | gcc -g -fPIC -shared -o new.so -x c -
    echo "$2" >some.rules
    echo "$3" >want
    # The option may stand before the command and behind it.
    for words in "check --rules some.rules" "--rules some.rules check" "--rules=some.rules -- check"; do
        # Unquoted on purpose: each word is an argument.
        ABI_NOTES=1 "$program" $words old.so new.so >answer 2>errors || true
        sed -n 's/^abi: note: exports of OLD: //p' errors >got
        same "$1, $words"
    done
    passed "$1"
}

counts "an export is gone" "" "2 compared, 0 dropped by the rule file, 1 gone"
counts "an export is dropped" "[suppress_function]
name = g" "1 compared, 1 dropped by the rule file, 1 gone"
counts "an export that is gone is dropped" "[suppress_function]
name = h" "2 compared, 1 dropped by the rule file, 0 gone"

finished

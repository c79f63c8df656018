#!/usr/bin/env bash
# Compiles random functions and calls to them with gcc and clang, observes at run time where the compiled code puts each argument and
# result (tests/c/places.c says how), and compares that with the places that the proved program prints for the same library.
# docs/evidence/CALL_PLACES.md describes the kinds of types for which a compiler departs from the rules.
#
#   tests/call_places.sh                 builds the program of this repository
#   ABI=/path/of/abi tests/call_places.sh    uses another one
#
# The functions are the same in each run. If places differ, it prints the declarations of the first five such functions. A function of a
# kind for which a compiler departs from the rules may have other places; for each such kind a line says how many functions do.
set -eu
title="call places"
tools="gcc readelf awk python3"
crate=abi_cli
. "$(dirname "$0")/common.bash"

# Kinds of functions, as tests/c/places.py has them, and how many functions of each: kinds for which compilers follow the rules, and
# kinds for which one departs from them.
many=170
kinds="scalars structures floats unions bits wide_bits packed packed_nested aligned typedefs arrays empty complexes vectors int128s
    x87 large mixed"
few=50
odd_kinds="zero_arrays flexible unnamed_bits packed_unions packed_arrays packed_wide packed_aligned raised lowered int128_alone
    x87_unions quads vector_unions vectors_32 vectors_64 vectors_variadic vectors_short vectors_of_one vectors_int128 transparent
    atomic conventions"

# Kinds with a library of their own: a bit field may begin before the storage that the debug information gives it, and the program may
# refuse such a library.
lone_kinds="crossing_bits aligned_bits packed_bits"

# departures: prints a line for each kind for which a compiler departs from the rules: the compiler; `plain` (code without AVX), `wide`
# (code with AVX-512) or `all`; the kind; and the reason.
departures() {
    cat <<'END'
gcc all zero_arrays an array of no elements that begins inside an eightbyte has the class of its element there
clang all flexible a structure with a flexible array is in memory
gcc all unnamed_bits a bit field without a name is INTEGER, and debug information does not have it
clang all aligned_bits debug information does not have the alignment of a bit field
clang all packed_bits debug information does not say that a member as wide as its type is a bit field
gcc all packed_unions a bit field in a union is taken as an object of its type, which packing may leave unaligned
gcc all packed_arrays the elements of an array are taken as its first one is, though packing leaves others unaligned
gcc all half_elements the elements of an array are taken as its first one is, though eightbytes hold other parts of others
gcc all packed_wide packing lowers the alignment on the stack, and debug information does not say so
clang all packed_wide packing lowers the alignment on the stack, and debug information does not say so
gcc all packed_aligned packing lowers the alignment on the stack, and debug information does not say so
clang all packed_aligned packing lowers the alignment on the stack, or a member that its type wants aligned is not
gcc all raised the alignment of a typedef does not count on the stack
clang all raised the alignment of a typedef does not count on the stack
gcc all lowered a typedef that lowers the alignment of a member lowers that of the structure on the stack
clang all lowered a typedef that lowers the alignment of a member lowers what the member needs to be aligned
clang all int128_alone an __int128 may have the last register and the stack, and there has the alignment 8
gcc all x87_unions a union in a union is cleaned up for itself, and a long double beside an integer makes it MEMORY
clang all x87_unions a union in a union is cleaned up for itself, and a long double beside an integer makes it MEMORY
clang all quads an aggregate with a __float128 is in memory
gcc all complex_quads a complex _Float128 is returned in memory
clang wide vector_unions a union of a vector and an array of vectors is taken as one vector
gcc plain vectors_32 without AVX a vector of 32 bytes is in memory
clang plain vectors_32 without AVX a vector of 32 bytes is in memory, and as a result in two registers
gcc plain vectors_64 without AVX a vector of 64 bytes is in memory
clang plain vectors_64 without AVX a vector of 64 bytes is in memory, and as a result in four registers
gcc plain vectors_variadic without AVX a vector of 32 bytes is in memory
clang plain vectors_variadic without AVX a vector of 32 bytes is in memory, and as a result in two registers
clang wide vectors_variadic an argument with a vector of 32 bytes is in memory where the function takes unspecified parameters
gcc all vectors_short a vector of two or four bytes is INTEGER
clang all vectors_short a vector of two or four bytes is INTEGER
gcc all vectors_of_one a vector of one float or one double is in memory
clang all vectors_of_one a vector of one float is INTEGER, and one of one double is in memory, and as a result in xmm0
gcc all vectors_int128 of a vector of one __int128 in a structure half is passed, and one of two is in memory
clang all vectors_int128 a vector of two __int128 is in memory
gcc all transparent a transparent union is passed as its first member is, and debug information may not have its members
clang all transparent a transparent union is passed as its first member is
clang all atomic an atomic structure or union is in memory
clang all bit_precise a _BitInt of more than 64 bits has the alignment 8
gcc all conventions debug information does not say that a function has the calling convention of another system
clang all conventions the calling convention of another system is not asked for
END
}

# as_exported LIBRARY: prints what `exports` must print for it, from readelf and the places in the file `places`.
as_exported() {
    exports "$1" >numbers
    awk -F '\t' '
        FILENAME == "places" { name = $0; sub(/ .*/, "", name); place[name] = substr($0, length(name) + 1); next }
        { print $1, $5, $6, $7 ($2 in place ? place[$2] : " untyped") }' places numbers
}

# compared: compares the file `got` with `want`. Functions of the kinds in the file `odd` may have other places. The names of other
# functions that differ go to the file `wrong`, and the number of lines that agree to `agree`.
compared() {
    awk '
        FILENAME == "odd" { kind = $1; sub(/^[^ ]* /, ""); reason[kind] = $0; next }
        FILENAME == "want" { want[++lines] = $0; next }
        {
            split(want[FNR], wanted)
            kind = wanted[2]
            sub(/_[0-9]+$/, "", kind)
            count[kind]++
            if ($0 == want[FNR]) agree++
            else if (kind in reason && $2 == wanted[2] && $5 == "params") departed[kind]++
            else print wanted[2] == "" ? $2 : wanted[2] >"wrong"
        }
        END {
            if (FNR < lines) print "only " FNR " lines of " lines >"wrong"
            print agree + 0 >"agree"
            for (kind in reason) printf "    %s: %d of %d depart: %s\n", kind, departed[kind], count[kind], reason[kind] | "sort"
        }' odd want got
}

# shown: prints the first functions that differ, with the expected line and the printed one.
shown() {
    local name
    head -n 5 wrong | while read -r name; do
        case $name in *_[0-9]*) python3 "$sources/places.py" "${name%_*}" "$name" ;; *) echo "$name" ;; esac
        awk -v name="$name" '$2 == name { print "compiled code: " $0 }' want
        awk -v name="$name" '$2 == name { print "the program:   " $0 "\n" }' got
    done
}

# before_storage LIBRARY: whether a bit field has a negative bit offset; this offset counts from the end of the storage.
before_storage() {
    readelf --wide --debug-dump=info "$1" 2>/dev/null | grep -E 'DW_AT_bit_offset *:.*(0xffff|-)' >negative
}

# agree NAME COMPILER WIDTH KIND..: links the functions of these kinds, runs them to find the places of their arguments and results, and
# compares. WIDTH is how many bytes of a vector register calls use.
agree() {
    local name=$1 compiler=$2 width=$3 ended=0 all
    shift 3
    $compiler -shared -o places.so "${@/%/.o}"
    gcc -O1 -o say_places "$sources/places.c" "$sources/places_call.S" "${@/%/.o}"
    ./say_places "$width" >places || fail "$name: places cannot be read out of the code"
    as_exported places.so >want
    all=$(wc -l <want)
    "$program" exports places.so >got 2>errors || ended=$?
    if [ "$ended" -eq 2 ] && before_storage places.so && grep -q '^unreadable library 35 Shape [0-9]*$' got; then
        echo "    $*: refused, since a bit field begins before its storage: $(cat got)"
        return
    fi
    [ "$ended" -eq 0 ] || fail "$name: status $ended: $(head -n 1 got)"
    [ ! -s errors ] || fail "$name: the program wrote to standard error"
    rm -f wrong
    compared
    [ ! -s wrong ] || { shown >&2 && fail "$name: $(wc -l <wrong) functions of $all differ"; }
    passed "$name: $(cat agree) functions of $all agree, and the others are of the kinds that depart"
    total=$((total + $(cat agree)))
}

# built COMPILER BUILD WIDTH OPTION..: compiles the functions of all kinds, and compares their places with those of the program.
built() {
    local compiler=$1 build=$2 width=$3 own= odd="$odd_kinds bit_precise" quiet= kind count
    shift 3
    # gcc has more types, and prints notes on what it has changed.
    if [ "$compiler" = gcc ]; then
        own="decimals halves interchange empty_arrays"
        odd="$odd_kinds complex_quads half_elements"
        quiet="-Wno-psabi -Wno-packed-bitfield-compat"
    fi
    for kind in $kinds $own $odd $lone_kinds; do
        count=$few
        case " $(echo $kinds $own) " in *" $kind "*) count=$many ;; esac
        python3 "$sources/places.py" "$kind" "$count" >"$kind.c"
        # Unquoted on purpose: each option is a word.
        $compiler -I"$sources" -fPIC -w $quiet "$@" -c -o "$kind.o" "$kind.c" || fail "$compiler $*: $kind.c does not compile"
    done
    departures | awk -v compiler="$compiler" -v build="$build" '
        $1 == compiler && ($2 == "all" || $2 == build) { sub(/^[^ ]* [^ ]* /, ""); print }' >departing
    for kind in $lone_kinds; do
        grep "^$kind " departing >odd || true
        agree "$compiler $*, $kind" $compiler $width $kind
    done
    # Unquoted on purpose: each kind is a word.
    grep -vE "^($(echo $lone_kinds | tr ' ' '|')) " departing >odd
    agree "$compiler $*" $compiler $width $kinds $own $odd
}

# worked: examples whose places were worked out by hand from the psABI.
worked() {
    cat >worked.c <<'END'
union u { double d; };
struct two { long a, b; };
struct big { long a, b, c; };
struct nil {};
union late { long double d; struct { int : 32; int : 32; long i; } s; };
void g(union u x, long l) {}
int h(int a, int b, int c, int d, int e, struct two s, int f) { return 0; }
struct big m(int a) { struct big b = { a }; return b; }
long double q(long double a, __int128 b, float _Complex c) { return a; }
union late w(void) { union late x = { 0 }; return x; }
void z(struct nil a, int b) {}
END
    gcc -shared -fPIC -w -g -O1 -o worked.so worked.c
    sort >want <<'END'
g params xmm0,rdi result none
h params rdi,rsi,rdx,rcx,r8,stack+0:16,r9 result rax
m params rsi result memory
q params stack+0:16,rdi+rsi,xmm0 result st0
w params - result st0+rax
z params none,rdi result none
END
    placed worked.so
    # A function of two ranges. Its entry gets its name and parameters from its abstract origin.
    cat >parted.c <<'END'
__attribute__((cold, noreturn)) void bad(void);
int f(int a) { if (a < 0) bad(); return a + 1; }
int g(int a) { return f(a) * 2; }
int h(int a) { return f(a) - f(a + 3) + g(a); }
END
    gcc -shared -fPIC -w -g -O2 -fno-semantic-interposition -o parted.so parted.c
    readelf --debug-dump=info parted.so >entries
    grep -q DW_AT_ranges entries && grep -q DW_AT_abstract_origin entries || fail "gcc made no function of two ranges"
    printf '%s params rdi result rax\n' f g h >want
    placed parted.so
}

# placed LIBRARY: the program must print the places in the file `want`.
placed() {
    answers "worked examples" 0 exports "$1"
    sed 's/^[0-9]* \([^ ]*\) FUNC [0-9]* /\1 /' got | sort >places
    mv places got
    same "worked examples"
    passed "worked examples in $1"
}

worked
total=0
wide=
if grep -qw avx512f /proc/cpuinfo; then wide="64 -mavx512f"; else left_out="$left_out AVX-512"; fi
compilers=gcc
if there clang; then compilers="gcc clang"; ran="clang"; fi
for compiler in $compilers; do
    built $compiler plain 16 -O0 -g -gdwarf-5
    # Unquoted on purpose: the width and the option are words.
    [ -z "$wide" ] || built $compiler wide $wide -O1 -g -gdwarf-4
done
title="$title: $total functions"

finished

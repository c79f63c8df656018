#!/usr/bin/env bash
# Builds pairs of small libraries with gcc, with symbol versions and without, and compares what the proved program says of them with
# what sha256sum and readelf say.
#
#   tests/real_libraries.sh                 builds the program of this repository
#   ABI=/path/of/abi tests/real_libraries.sh    uses another one
set -eu
title="real libraries"
tools="gcc readelf sha256sum awk"
crate=abi_cli
. "$(dirname "$0")/common.bash"

# build NAME SOURCE OPTION..: builds the library NAME.so from a source.
build() {
    local name=$1 source=$2
    shift 2
    gcc -shared -nostdlib -fPIC "$@" -o "$name.so" "$sources/$source.c"
}

# broken NAME OLD NEW: both readelf and the program must find the breaks in the sorted file `rows`, and the program must print them in
# order.
broken() {
    breaks "$2" "$3" >breaks
    sort breaks | diff -u rows - >&2 || fail "$1: readelf shows other breaks"
    { echo no && cat breaks; } >want
    expect "$1" 1 check "$2" "$3"
}

cat >usage <<'END'
usage: abi check [--rules FILE] [--report text|table|counts|first|own] OLD NEW
       abi verify [--rules FILE] OLD NEW CERT
       abi entries LIB
       abi exports LIB
       abi trial N
       abi migrate [--rules FILE] OLD NEW CERT
       abi app [--rules FILE] [--report text|table|counts|first|own] APP OLD NEW
       abi compose A B C CERT1 CERT2
       abi layout LIB TAG
END

build old old
build more more
build less less
build old_1 old -Wl,-soname,libshape.so.1
build more_1 more -Wl,-soname,libshape.so.1
build less_1 less -Wl,-soname,libshape.so.1
build less_2 less -Wl,-soname,libshape.so.2
build old_2 old -Wl,-soname,libshape.so.2
build debug old -g

# Libraries with symbol versions, and libraries without versions that share names with them.
for number in 1 2 3; do
    build "versions_$number" versions "-DBUILD=$number" "-Wl,--version-script=$sources/versions.map"
done
build unversioned unversioned
build late unversioned -DLATE

# First check what readelf finds: six exports in old.so, two of which are not in less.so.
exports old.so | cut -f 2 | sort | tr '\n' ' ' >names
[ "$(cat names)" = "area around border count kept maybe " ] || fail "readelf names other exports of old.so: $(cat names)"
passed "readelf names the exports of old.so"
[ "$(breaks old.so less.so | sort | tr '\n' ' ')" = "X2 border: gone X2 count: gone " ] ||
    fail "readelf names other exports of less.so"
passed "readelf misses two of them in less.so"

# Yes, with a certificate.
certificate old.so old.so >want
expect "a library may replace itself" 0 check old.so old.so
certificate old.so more.so >want
[ "$(grep -c '^bind [0-9]* [0-9]*$' want)" -eq 6 ] || fail "not all six exports bind"
expect "a library with more exports may replace it" 0 check old.so more.so
certificate old_1.so more_1.so >want
expect "so it may where both have one soname" 0 check old_1.so more_1.so

# No, with a row for each break.
{ echo no && breaks old.so less.so; } >want
expect "a library with fewer exports may not" 1 check old.so less.so
{ echo no && breaks old_1.so less_1.so; } >want
expect "nor where both have one soname" 1 check old_1.so less_1.so
{ echo no && breaks more.so old.so; } >want
expect "nor may the old one replace the one with more" 1 check more.so old.so
printf 'no\nX1 -: SONAME libshape.so.1, now libshape.so.2\n' >want
expect "another soname is a break" 1 check old_1.so old_2.so
printf 'no\nX1 -: SONAME none, now libshape.so.1\n' >want
expect "a new soname is a break" 1 check old.so old_1.so
printf 'no\nX1 -: SONAME libshape.so.1, now none\n' >want
expect "a lost soname is a break" 1 check old_1.so more.so
{ echo no && breaks old_1.so less_2.so; } >want
[ "$(sed -n 2p want)" = "X1 -: SONAME libshape.so.1, now libshape.so.2" ] || fail "readelf shows no other soname first"
expect "the soname goes before the exports" 1 check old_1.so less_2.so

# Versions. First check what readelf finds.
exports versions_1.so | cut -f 5 | sort | tr '\n' ' ' >names
[ "$(cat names)" = "apart@@V2 apart@V1 lost@@V1 pick@@V2 pick@V1 plain@@V1 shape@@V1 table@@V1 " ] ||
    fail "readelf names other exports of versions_1.so: $(cat names)"
passed "readelf names the exports of versions_1.so"

certificate versions_1.so versions_2.so >want
[ "$(grep -c '^bind ' want)" -eq 8 ] || fail "not all eight exports bind"
expect "a library with one more version may replace it" 0 check versions_1.so versions_2.so
cat >rows <<'END'
X2 lost@@V1: gone
X3 apart@V1: version gone
X3 pick@@V2: version gone
X4 shape@@V1: kind FUNC, now OBJECT
X5 table@@V1: object size 4, now 8
END
broken "a library that lost versions may not" versions_1.so versions_3.so
cat >rows <<'END'
X2 late@V2: gone
X2 only@@V3: gone
X3 pick@@V3: version gone
END
broken "nor may the old one replace the one with one more" versions_2.so versions_1.so

# From no versions to versions: exports bind to the first version, or else to the only default one.
certificate unversioned.so versions_2.so >want
for name in pick@V1 plain@@V1 table@@V1 only@@V3; do
    number=$(exports versions_2.so | awk -F '\t' -v label="$name" '$5 == label { print $1 }')
    grep -q "^bind [0-9]* $number$" want || fail "nothing binds to $name"
done
expect "a library with versions may replace one without" 0 check unversioned.so versions_2.so
echo "X3 late: version gone" >rows
broken "not where a name has neither the first version nor a default one" late.so versions_2.so
echo "X2 only: gone" >rows
broken "nor where a name is gone" unversioned.so versions_1.so
cat >rows <<'END'
X2 apart@@V2: gone
X2 apart@V1: gone
X2 lost@@V1: gone
X2 shape@@V1: gone
X3 pick@@V2: version gone
X3 pick@V1: version gone
X3 plain@@V1: version gone
X3 table@@V1: version gone
END
broken "and a library without versions may not replace one with versions" versions_1.so unversioned.so

# Kinds: in kinds_old.so, `function_object` is a function, and in kinds_new.so an object; and so on for each pair of kinds.
kinds="notype object function gnu_indirect_function tls_object"
for side in old new; do
    for first in $kinds; do
        for second in $kinds; do
            [ "$side" = old ] && kind=$first || kind=$second
            case $kind in
            function | gnu_indirect_function) echo ".text" ;;
            tls_object) echo ".section .tdata, \"awT\", @progbits" ;;
            *) echo ".data" ;;
            esac
            echo ".globl ${first}_$second"
            echo ".type ${first}_$second, @$kind"
            echo ".size ${first}_$second, 4"
            echo "${first}_$second: .long 0"
        done
    done >kinds.s
    gcc -shared -nostdlib -o "kinds_$side.so" kinds.s
done
sort >rows <<'END'
X4 notype_tls_object: kind NOTYPE, now TLS
X4 object_function: kind OBJECT, now FUNC
X4 object_gnu_indirect_function: kind OBJECT, now IFUNC
X4 object_tls_object: kind OBJECT, now TLS
X4 function_object: kind FUNC, now OBJECT
X4 function_tls_object: kind FUNC, now TLS
X4 gnu_indirect_function_object: kind IFUNC, now OBJECT
X4 gnu_indirect_function_tls_object: kind IFUNC, now TLS
X4 tls_object_notype: kind TLS, now NOTYPE
X4 tls_object_object: kind TLS, now OBJECT
X4 tls_object_function: kind TLS, now FUNC
X4 tls_object_gnu_indirect_function: kind TLS, now IFUNC
END
broken "twelve of the twenty-five pairs of kinds disagree" kinds_old.so kinds_new.so

# With debug information: first the lines that a certificate without types has, then those on types.
answers "a library with debug information may replace itself" 0 check debug.so debug.so
certificate debug.so debug.so | grep -v '^end$' >start
head -n "$(wc -l <start)" got | diff -u start - >&2 || fail "the certificate of debug.so begins otherwise"
grep -Eq '^pair [0-9]+ [0-9]+ direct$' got || fail "the certificate of debug.so has no pair of types"
tail -n +"$(($(wc -l <start) + 1))" got | grep -Ev '^(alike (old|new) [0-9]+ [0-9]+|pair [0-9]+ [0-9]+ (direct|pointer)|end)$' >&2 &&
    fail "the certificate of debug.so has another line"
passed "a library with debug information may replace itself"
# One more byte at the end makes another file, so the program reads two files, not one as above. Only the digest of the new one differs.
cp got of_itself
cp debug.so longer.so
printf '\0' >>longer.so
answers "a copy with one more byte may replace it" 0 check debug.so longer.so
diff -u <(grep -v '^new ' of_itself) <(grep -v '^new ' got) >&2 || fail "the certificate of debug.so and longer.so is another one"
grep -q "^new $(sha256sum <longer.so | cut -d ' ' -f 1)$" got || fail "the certificate has no digest of longer.so"
passed "a copy with one more byte may replace it"
answers "a build without debug information says nothing of types" 1 check debug.so old.so
grep -q '^X6 .*: type gone$' got || fail "no type of debug.so is gone in old.so"
passed "a build without debug information says nothing of types"

# Unreadable.
echo "unreadable old 2 NotElf 0" >want
expect "a source is no library" 2 check "$sources/old.c" old.so
head -c 63 old.so >short
echo "unreadable new 1 ShortFile 63" >want
expect "63 bytes are too few" 2 check old.so short
head -c 4096 old.so >cut
echo "unreadable old 8 SectionTable 40" >want
expect "a cut library has no section table" 2 check cut old.so

# Not read, and wrong arguments.
echo "read fault old" >want
expect "a folder cannot be read" 3 check . old.so
expect "the old one is missed first" 3 check missing missing
echo "read fault new" >want
expect "the new one is missed" 3 check old.so missing
cp usage want
expect "no arguments are wrong" 64
expect "one file is not enough" 64 check old.so
expect "two libraries are too many for entries" 64 entries old.so old.so
expect "there is no such command" 64 replace old.so old.so
expect "an argument that is no UTF-8 is wrong" 64 check old.so $'\xff.so'

# Not written.
[ -c /dev/full ] || fail "there is no /dev/full"
ended=0
"$program" check old.so more.so >/dev/full 2>errors || ended=$?
[ "$ended" -eq 6 ] || fail "a full device: status $ended, not 6"
passed "a text that cannot be written has its status"

finished

#!/usr/bin/env bash
# Checks the sentences on standard error that say what is wrong with a call: one row for each sentence that an input can cause. The notes
# on exports without a type, which come with a yes or a no, have their rows in commands.sh.
#
#   tests/sentences.sh                    builds the program of this repository
#   ABI=/path/of/abi tests/sentences.sh   uses another one
set -eu
title="sentences"
tools="gcc clang objcopy readelf ar dd awk sed"
crate=abi_cli
. "$(dirname "$0")/common.bash"

# run ARGUMENT..: runs the program, given the arguments, with its output in the file `output`. If `limit` is set, it may take that many
# kilobytes of memory; if `preload` is set, that library is preloaded. Sets `ended` to its status; its standard error goes to the file
# `errors`, and is appended to the file `said`.
output=got
limit=
preload=
run() {
    ended=0
    (
        [ -z "$limit" ] || ulimit -v "$limit"
        [ -z "$preload" ] || export LD_PRELOAD="$preload"
        exec "$program" "$@"
    ) >"$output" 2>errors || ended=$?
    cat errors >>said
}

# mark: the end of a sentence on an input with a fault: the number, the name and the place that the answer gives.
mark() {
    [ "$ended" -ne 2 ] || awk 'NR == 1 { printf " (fault %s %s at %s)", $3, $4, $5 }' "$output"
}

# says STATUS SENTENCE ARGUMENT..: the program must end with the status and print only this sentence, with the mark of its fault.
says() {
    local status=$1 sentence=$2
    shift 2
    run "$@"
    sentence+=$(mark)
    [ "$ended" -eq "$status" ] || fail "status $ended, not $status: $*"
    [ "$(cat errors)" = "abi: $sentence" ] || fail "of $* it says: $(cat errors)"
    passed "$sentence"
}

# says_like STATUS PATTERN ARGUMENT..: the same, for a sentence that the pattern matches as a whole, before the mark.
says_like() {
    local status=$1 pattern=$2
    shift 2
    run "$@"
    [ "$ended" -eq "$status" ] || fail "status $ended, not $status: $*"
    [ "$(wc -l <errors)" -eq 1 ] && grep -qx "abi: $pattern$(mark)" errors || fail "of $* it says: $(cat errors)"
    passed "$(sed 's/^abi: //' errors)"
}

# readable LIBRARY: the library must have no fault, so that a fault of a damaged copy comes from the damage.
readable() {
    answers "$1 has no fault" 0 exports "$1"
    passed "$1 has no fault"
}

# patched FILE PLACE BYTES: overwrites bytes of the file, from this offset on.
patched() {
    printf "$3" | dd of="$1" bs=1 seek="$2" conv=notrunc status=none
}

# header FILE SENTENCE PLACE BYTES: checks the sentence on a copy of plain.so with other bytes in the file header.
header() {
    cp plain.so "$1"
    patched "$1" "$3" "$4"
    says 2 "$1: $2" exports "$1"
}

echo 'struct point { int x, y; }; int f(struct point *p) { return p->x; }' >f.c
gcc -shared -fPIC -g -o plain.so f.c
readable plain.so

# ---- calls that cannot be answered

mkdir folder
says_like 3 "folder: .*directory.*" exports folder
says_like 3 "missing.so: .*[Nn]o such file.*" check plain.so missing.so
# A device that fails once, at the second read of a file, and can be read when the program looks for the reason.
cat >once.c <<'C'
#include <errno.h>
#include <sys/syscall.h>
#include <unistd.h>
ssize_t read(int file, void *into, size_t size)
{
    static int calls;
    if (++calls != 2) return syscall(SYS_read, file, into, size);
    errno = EIO;
    return -1;
}
C
gcc -shared -fPIC -o once.so once.c
preload=$PWD/once.so says 3 "plain.so: reading failed" exports plain.so
output=/dev/full says 6 "writing failed" exports plain.so
# A pipe that its reader closed, as `head` does: the status alone says it.
exec 3> >(:)
wait $!
ended=0
"$program" entries plain.so >&3 2>errors || ended=$?
exec 3>&-
[ "$ended" -eq 6 ] && [ ! -s errors ] || fail "of a closed pipe: status $ended, $(cat errors)"
passed "nothing is said of a closed pipe"
limit=32768 says 4 "out of memory" trial 50000
truncate -s 268435457 long.so
says 2 "long.so: it is longer than 256 MiB" exports long.so

# ---- words that ask for nothing

# wrong SENTENCE WORD..: checks the sentence on wrong arguments, after which the program prints its usage.
wrong() {
    local sentence=$1
    shift
    says 64 "$sentence" "$@"
    grep -q '^usage: abi check' "$output" || fail "no usage after: $*"
}
wrong "no command is given"
wrong "chek: it is no command; did you mean check?" chek plain.so plain.so
wrong "diff: it is no command; the commands are check, app, verify, compose, migrate, exports, entries, layout and trial" diff plain.so
wrong 'two\x0alines: it is no command; the commands are check, app, verify, compose, migrate, exports, entries, layout and trial' "$(printf 'two\nlines')"
wrong "check: it takes OLD NEW, and 1 word is given" check plain.so
wrong "compose: it takes A B C CERT1 CERT2, and 3 words are given" compose plain.so plain.so plain.so
wrong "exports: it takes no --rules FILE" exports --rules plain.so plain.so
wrong "verify: it takes no --report STYLE" verify plain.so plain.so plain.so --report text
wrong "loud: it is no style of reports; the styles are text, table, counts, first and own" check --report loud plain.so plain.so
wrong "0: it is no number from 1 to 50000 in decimal" trial 0
wrong "--loud: it is no option; the options are --rules FILE and --report STYLE" check --loud plain.so plain.so
wrong "--rules: the option has no value" check plain.so plain.so --rules
wrong "--rules=plain.so: the option is given twice" check --rules=plain.so plain.so --rules plain.so plain.so
wrong "--help=all: the option takes no value" --help=all
wrong "an argument is not UTF-8; only files whose names are UTF-8 can be given" check plain.so $'\xff.so'
wrong "an argument is not UTF-8; only files whose names are UTF-8 can be given" $'\xff'

# ---- files of other kinds

: >empty
: >no_rules
says 2 "empty: it is empty" exports empty
# A path takes one line, whatever its characters are.
odd=$(printf 'two\nlines\033[0m')
cp empty "$odd"
says 2 'two\x0alines\x1b[0m: it is empty' exports "$odd"
says_like 3 'no\\x0afile: .*[Nn]o such file.*' exports "$(printf 'no\nfile')"
gcc -c -fPIC -g -o f.o f.c
ar rc f.a f.o
ar rcT thin.a f.o
for archive in f.a thin.a; do
    says 2 "$archive: it is a static archive; give the shared object (.so) itself" exports $archive
done
echo 2.0 >debian-binary
ar rc package.deb debian-binary
packages="give a shared object (.so) out of it, or compare packages with abi-packages"
says 2 "package.deb: it is a Debian package; $packages" exports package.deb
printf '\355\253\356\333\3\0' >package.rpm
says 2 "package.rpm: it is an RPM package; $packages" exports package.rpm
for start in '/* GNU ld script */' 'INPUT(f.so.1)' 'GROUP(f.so.1)' 'OUTPUT_FORMAT(elf64-x86-64)' 'OUTPUT_ARCH(i386:x86-64)'; do
    echo "$start" >script.so
    says 2 "script.so: it is a linker script; give the shared object that it names" exports script.so
done
says 2 "f.c: it is not an ELF file" exports f.c
head -c 20 plain.so >short.so
says 2 "short.so: it ends inside its ELF header" exports short.so
# A pipe gives its bytes once: the sentence comes from those that were judged.
mkfifo pipe
cat f.a >pipe &
says 2 "pipe: it is a static archive; give the shared object (.so) itself" exports pipe
says 2 "f.o: it is an object file (.o), not a shared object" exports f.o
echo 'int main(void) { return 0; }' | gcc -no-pie -o program -x c -
says 2 "program: it is an executable at a fixed address (compiled with -no-pie), not a shared object or a position-independent executable" exports program

# Offsets in the file header: 4 e_ident[EI_CLASS], 5 e_ident[EI_DATA], 6 e_ident[EI_VERSION], 16 e_type, 18 e_machine, 20 e_version
# and 40 e_shoff.
header bits "it is a 32-bit file; only 64-bit shared objects for x86-64 are read" 4 '\1'
header class "it is not a 64-bit file; only 64-bit shared objects for x86-64 are read" 4 '\0'
header order "it is a big-endian file; only shared objects for x86-64 are read" 5 '\2'
header order "it is not a little-endian file; only shared objects for x86-64 are read" 5 '\0'
header version "it is of an ELF version that does not exist" 6 '\0'
header core "it is a core dump, not a shared object" 16 '\4\0'
header other "it is not a shared object" 16 '\0\376'
header machine "it is for another processor than x86-64" 18 '\3\0'
header version "it is of an ELF version that does not exist" 20 '\2'
no_table="its section table is missing or damaged; a file whose section headers were stripped cannot be read"
header stripped "$no_table" 40 '\0\0\0\0\0\0\0\0'
head -c -1 plain.so >cut.so
says 2 "cut.so: $no_table" check plain.so cut.so
# An object file that calls itself a shared object has no dynamic symbols.
cp f.o unlinked.so
patched unlinked.so 16 '\3\0'
says 2 "unlinked.so: it has no table of dynamic symbols (.dynsym)" exports unlinked.so

# ---- damaged tables

# The library has f in two versions, V1 and V2, and its soname follows the name of a library that it needs.
cat >tables.c <<'C'
__asm__(".symver old_f, f@V1");
__asm__(".symver new_f, f@@V2");
int old_f(void) { return 1; }
int new_f(void) { return 2; }
C
echo 'V1 { global: f; local: *; }; V2 { global: f; };' >tables.map
gcc -shared -fPIC -Wl,--no-as-needed,-soname,tables.so.1,--version-script=tables.map -o tables.so tables.c
readable tables.so

# section NAME COLUMN: a column of readelf's line on a section of tables.so: 1 is its number, 5 its offset.
section() {
    readelf --wide --sections tables.so |
        awk -v name="$1" -v column="$2" 'sub(/^ *\[ */, "") && sub(/\]/, "") && $2 == name { print $column }'
}

# contents NAME AT: the offset in tables.so of byte AT of a section.
contents() {
    echo $((16#$(section "$1" 5) + $2))
}

# field NAME FIELD: the offset in tables.so of a field of a section header (gABI, "Section Header").
field() {
    local table at
    table=$(readelf --file-header tables.so | awk '/Start of section headers:/ { print $5 }')
    case $2 in
    sh_name) at=0 ;;
    sh_size) at=32 ;;
    sh_link) at=40 ;;
    sh_entsize) at=56 ;;
    esac
    echo $((table + 64 * $(section "$1" 1) + at))
}

# damaged SENTENCE PLACE BYTES: checks the sentence on a copy of tables.so with other bytes from this offset on.
damaged() {
    cp tables.so damaged.so
    patched damaged.so "$2" "$3"
    says 2 "damaged.so: $1" exports damaged.so
}

number=$(section .dynstr 1)
damaged "section $number (.dynstr) does not lie inside the file, which may have been cut short" \
    "$(field .dynstr sh_size)" '\377\377\377'
damaged "section $number has a name that does not end inside the section of names" "$(field .dynstr sh_name)" '\377\377'

# A symbol has 24 bytes and begins with st_name.
symbol=$(exports tables.so | awk -F '\t' '$5 == "f@V1" { print $1 }')
sentence="is damaged, or its name does not end inside the table of names"
damaged "the table of dynamic symbols is damaged" "$(field .dynsym sh_entsize)" '\27'
damaged "dynamic symbol $symbol $sentence" "$(contents .dynsym $((24 * symbol)))" '\377\377'

# An entry of the dynamic table has 16 bytes: d_tag, and from byte 8 on d_val.
named=$(readelf --wide --dynamic tables.so | awk '/^ 0x/ { if ($2 == "(SONAME)") print count + 0; count++ }')
damaged "the dynamic table is damaged, or its soname does not end inside the table of names" \
    "$(field .dynamic sh_entsize)" '\17'
damaged "entry $named of the dynamic table is damaged, or the soname does not end inside the table of names" "$(contents .dynamic $((16 * named + 8)))" '\377\377'

damaged "its table of symbol versions has not one entry for each dynamic symbol" "$(field .gnu.version sh_size)" '\2'
# The first version definition has 28 bytes, 8 of them for its name; the second one begins with vd_version.
damaged "version definition 0 is damaged" "$(field .gnu.version_d sh_link)" '\0'
damaged "version definition 1 is damaged" "$(contents .gnu.version_d 28)" '\2'

# The version of a symbol is the index of a definition, in two bytes: V1 has 2, V2 has 3, and no definition has 9.
later=$(exports tables.so | awk -F '\t' '$2 == "f" { print $1 }' | tail -n 1)
damaged "dynamic symbol $symbol has a version that is not defined" "$(contents .gnu.version $((2 * symbol)))" '\11\0'
damaged "dynamic symbol $later has the name and the version of an earlier export" \
    "$(contents .gnu.version $((2 * symbol)))" '\3\0'

# damaged_app SENTENCE PLACE BYTES: the same for a copy given as the application, which needs a version of the C library.
damaged_app() {
    cp tables.so damaged.so
    patched damaged.so "$2" "$3"
    says 2 "damaged.so: $1" app damaged.so tables.so tables.so
}

# A version need begins with vn_version.
damaged_app "version need 0 is damaged" "$(contents .gnu.version_r 0)" '\2'
imported=$(readelf --wide --dyn-syms tables.so | awk '$7 == "UND" && $8 ~ /^__cxa_finalize@/ { print $1 + 0 }')
damaged_app "dynamic symbol $imported is imported with a version that the file does not name among those that it needs" \
    "$(contents .gnu.version $((2 * imported)))" '\11\0'

# ---- debug information that is not read

# made SENTENCE SOURCE COMMAND..: checks the sentence on an entry or a unit of the library that the command makes from the source.
made() {
    local sentence=$1 source=$2
    shift 2
    "$@" -shared -fPIC -o made.so "$source"
    says_like 2 "made.so: offset 0x[0-9a-f]* of .debug_info: $sentence" exports made.so
}

objcopy --compress-debug-sections=zlib plain.so packed.so
uncompress="uncompress it with: objcopy --decompress-debug-sections FILE NEW_FILE"
says_like 2 "packed.so: section [0-9]* (\.debug_[a-z_]*) is compressed; $uncompress" exports packed.so
made "the unit is of a version of DWARF that is not read; compile with -gdwarf-5 or -gdwarf-4" f.c gcc -gdwarf-3 -gstrict-dwarf
split="the unit is of a type that is not read, as split debug information is; compile without -gsplit-dwarf"
made "$split" f.c gcc -g -gsplit-dwarf -gdwarf-5
made "the unit is in the 64-bit format of DWARF, which is not read" f.c gcc -g -gdwarf64
made "the language of the unit is not C or assembler; only units in these are read" f.c clang -g -x c++

not_there="the entry refers to one that is not there, as one in .debug_types is not, which DWARF 4 has by -fdebug-types-section; compile without it, or with -gdwarf-5"
made "$not_there" f.c gcc -gdwarf-4 -fdebug-types-section

# A bit field that begins before its storage, a structure around 600 others, and an array of 2^61 bytes.
echo 'struct __attribute__((packed)) flags { char head; int low : 5, across : 30; } flags;' >packed.c
made "the type lacks something that describes it, or is of a kind that is not read" packed.c gcc -gdwarf-4
awk 'BEGIN { print "struct s0 { int m; };"; for (i = 1; i <= 600; i++) print "struct s" i " { struct s" i - 1 " m; };" }' >deep.c
echo 'struct s600 deep;' >>deep.c
made "the type holds others by value more than 512 deep" deep.c gcc -g
echo 'typedef char large[1UL << 61]; large *f(void) { return 0; }' >large.c
made "the type, or the place of a member of it, is too large" large.c gcc -g
if there dwz; then
    ran=dwz
    cp plain.so first.so
    cp plain.so second.so
    dwz -m common first.so second.so 2>dwz_errors || fail "dwz does nothing: $(head -n 1 dwz_errors)"
    sentence="the entry refers to a supplementary file (made by dwz -m), which is not read"
    says_like 2 "first.so: offset 0x[0-9a-f]* of .debug_info: $sentence" exports first.so
fi

# ---- damaged entries

# written FILE [FIELD VALUE]: assembles hand_entries.s into a library, with another value in a field.
written() {
    local field=${2:-} value=${3:-}
    [ -z "$field" ] || [ "$(grep -c "## $field\$" "$sources/hand_entries.s")" -eq 1 ] || fail "no field, or several: $field"
    sed "s/[^ ,]* *## $field\$/$value/" "$sources/hand_entries.s" >entries.s
    gcc -shared -nostdlib -o "$1" entries.s
}

# offset LABEL: the offset of a label of hand_entries.s in its section of damaged.so.
offset() {
    printf '0x%x' "0x$(readelf --wide --symbols damaged.so | awk -v label="$1" '$8 == label { print $2 }')"
}

# entry LABEL SENTENCE FIELD VALUE: checks the sentence on the unit or the entry at the label, with another value in the field.
entry() {
    written damaged.so "$3" "$4"
    says 2 "damaged.so: offset $(offset "$1") of .debug_info: $2" exports damaged.so
}

written whole.so
readable whole.so
! grep untyped got || fail "an export of whole.so has no type"

entry unit "the header of the unit is damaged" "length" 0x1000
entry unit "the unit is in the 64-bit format of DWARF, which is not read" "length" 0xffffffff
entry unit "the unit is of a version of DWARF that is not read; compile with -gdwarf-5 or -gdwarf-4" "version" 3
entry unit "$split" "unit type" 4
entry unit "the unit has addresses that are not of eight bytes" "address size" 4
entry root "the language of the unit is not C or assembler; only units in these are read" "language" DW_LANG_C_plus_plus
entry type_unit "the type unit has no entry where its type should stand" "offset of the type" long-type_unit+1
written damaged.so "children of int" 2
says 2 "damaged.so: offset $(offset form_of_int) of .debug_abbrev: the abbreviation is damaged" exports damaged.so

entry root "the entries are not nested as they should be" "tag of the root" DW_TAG_typedef
entry int "the entry has an abbreviation that is not in its table" "code of int" 99
entry int "the entry has an attribute of a form that is not known" "form of the name of int" 2
entry int "the entry refers to a supplementary file (made by dwz -m), which is not read" "form of the name of int" DW_FORM_strp_sup
entry entry_of_v "the entry does not end inside its unit" "length of the location of v" 255
entry int "the name of the entry is no text that ends inside its section" "name of int" 0x1000
entry point "an index of the entry leads to no place in its section" "index of the name of point" 1
entry entry_of_f "$not_there" "result of f" 1
entry entry_of_h "the entry has a chain of more than 8 origins" "origin of h" entry_of_h-unit
entry entry_of_g "the list of ranges of the entry is damaged" "ranges of g" 0x1000
entry int "the type lacks something that describes it, or is of a kind that is not read" "encoding of int" 0
entry place "the type holds others by value more than 512 deep" "type of place" place-unit
entry point "the type, or the place of a member of it, is too large" "size of point" 0x2000000000000000

# ---- rule files and certificates

# rule LINE SENTENCE TEXT: checks the sentence on a line of a rule file.
rule() {
    printf "$3" >rules
    says 2 "rules: line $1: $2" check --rules rules plain.so plain.so
}
rule 1 "it is no comment, no section and no property of a section" 'lonely\n'
rule 1 "it is not UTF-8" '\377\n'
rule 1 "there is no section of this name: [suppress_nothing]; the sections are suppress_function, suppress_variable and suppress_type" '[suppress_nothing]\nname = a\n'
no_property="the section has no such property, or none with this value"
of_types="the properties of suppress_type are label, name, name_regexp, name_not_regexp, soname_regexp, type_kind and accessed_through"
of_exports="the properties of suppress_function and suppress_variable are label, name, name_regexp, name_not_regexp, symbol_name, symbol_name_regexp, symbol_version, symbol_version_regexp and soname_regexp"
rule 2 "$no_property: nothing = a; $of_types" '[suppress_type]\nnothing = a\n'
rule 4 "$no_property: symbol_name = a; $of_types" '[suppress_function]\nname = a\n[suppress_type]\nsymbol_name = a\n'
rule 4 "$no_property: type_kind = struct; $of_exports" '[suppress_type]\nname = a\n[suppress_variable]\n  type_kind = struct\n'
rule 2 "$no_property: type_kind = class; the values of type_kind are struct, union, enum, typedef and builtin" '[suppress_type]\ntype_kind = class\n'
rule 2 "$no_property: accessed_through = reference; the values of accessed_through are direct and pointer" '[suppress_type]\naccessed_through = reference\n'
rule 1 "there is no section of this name: [$(printf 'a%.0s' $(seq 59))..; the sections are suppress_function, suppress_variable and suppress_type" "[$(printf 'a%.0s' $(seq 99))]\n"
# The rules of a pipe are quoted as those of a file.
printf '[suppress_nothing]\n' >pipe &
says 2 "pipe: line 1: there is no section of this name: [suppress_nothing]; the sections are suppress_function, suppress_variable and suppress_type" check --rules pipe plain.so plain.so
printf '[suppress_type]\nnothing = a\n' >pipe &
says 2 "pipe: line 2: $no_property: nothing = a; $of_types" check --rules pipe plain.so plain.so
rule 1 "the section says nothing of what it leaves out" '[suppress_type]\n'
rule 2 "the pattern is no regular expression" '[suppress_type]\nname_regexp = (\n'
rule 2 "the pattern has more than 256 bytes" "[suppress_type]\nname_regexp = $(printf 'a%.0s' $(seq 257))\n"
rule 3 "the section has this property twice" '[suppress_type]\nname = a\nname = b\n'
rule 2 "the pattern has a brace, which is not read" '[suppress_type]\nname_regexp = a{2}\n'

"$program" check plain.so plain.so >certificate
# certificate SENTENCE COMMAND: checks the sentence on a certificate that the sed command changes.
certificate() {
    sed "$2" certificate >changed
    says_like 2 "changed: line [0-9]*: $1" verify plain.so plain.so changed
}
certificate "it is no line of a certificate, or not the one that belongs there" '2s/.*/nothing/'
certificate "it is out of order" '/^bind/p'
certificate "the certificate does not end with its line 'end'" '$d'

# A comment after a value is part of the value, and the answer stays the same.
commented="a comment stands on a line of its own, so what looks like one is a part of the value"
printf '[suppress_type]\nname_not_regexp = ^f # x\n' >rules
says 0 "rules: $commented: name_not_regexp = ^f # x" check --rules rules plain.so plain.so
printf '# name = a # b\n[suppress_type]\nname = a#b;c\n' >rules
"$program" check --rules rules plain.so plain.so >got 2>errors && [ ! -s errors ] || fail "a comment is seen where none is: $(cat errors)"

# Valid certificates that prove something else.
sed 's/int x, y/long x, y/' f.c | gcc -shared -fPIC -g -o other.so -x c -
cp f.c twin.c
gcc -shared -fPIC -g -o twin.so twin.c
printf '[suppress_type]\nname = point\n' >opaque
"$program" check --rules opaque plain.so plain.so >ruled
"$program" check plain.so twin.so >to_twin

# refuses FILE SENTENCE ARGUMENT..: of a certificate, the program must say what it does not prove, and then this sentence about the file.
refuses() {
    local sentence="$1: $2"
    shift 2
    run "$@"
    [ "$ended" -eq 5 ] || fail "status $ended, not 5: $*"
    [ "$(wc -l <errors)" -eq 2 ] && grep -q "does not prove that" errors || fail "of $* it says: $(cat errors)"
    [ "$(tail -n 1 errors)" = "abi: $sentence" ] || fail "of $* it says: $(cat errors)"
    passed "$sentence"
}
not_old="it is not the old library of the certificate"
not_new="it is not the new library of the certificate"
without_rules="it was made with a rule file, and none is given"
refuses other.so "$not_new certificate" verify plain.so other.so certificate
refuses other.so "$not_old certificate" verify other.so plain.so certificate
refuses opaque "it is not the rule file of the certificate certificate" verify --rules opaque plain.so plain.so certificate
refuses no_rules "it is not the rule file of the certificate ruled" verify --rules no_rules plain.so plain.so ruled
refuses ruled "$without_rules" verify plain.so plain.so ruled
refuses other.so "$not_old certificate" compose other.so plain.so plain.so certificate certificate
refuses other.so "$not_new certificate" compose plain.so other.so plain.so certificate certificate
refuses twin.so "$not_old certificate" compose plain.so twin.so plain.so to_twin certificate
refuses other.so "$not_new certificate" compose plain.so plain.so other.so certificate certificate
refuses ruled "$without_rules" compose plain.so plain.so plain.so ruled certificate
refuses ruled "$without_rules" compose plain.so plain.so plain.so certificate ruled
sed 's/^yes 2$/yes 1/; s/^\(pair [0-9]* [0-9]*\) .*/\1/' certificate | awk '!/^pair/ || !seen[$0]++' >first_version
refuses other.so "$not_old first_version" migrate other.so plain.so first_version
# A certificate of the right files that is refused for another cause is told in one sentence.
sed '/^bind/d' certificate >unbound
says 5 "unbound: the certificate does not prove that plain.so may replace plain.so" verify plain.so plain.so unbound

# ---- programs, and types that are no structures

echo 'int main(void) { return 0; }' >main.c
gcc -pie -fPIE -o pie main.c
gcc -pie -fPIE -rdynamic -g -o exporting main.c
(cat f.c; echo 'const char interpreter[] __attribute__((section(".interp"))) = "/lib64/ld-linux-x86-64.so.2";') | gcc -shared -fPIC -g -o interpreted.so -x c -
[ "$(readelf --wide --segments interpreted.so | grep -c ' INTERP ')" -eq 1 ] || fail "interpreted.so has no interpreter"
program_words="it is a program (a position-independent executable), not a library"
for made in pie exporting; do
    run check $made plain.so
    [ "$ended" -le 1 ] && grep -qx "abi: $made: $program_words" errors || fail "of $made it says: $(cat errors)"
    run check plain.so $made
    grep -qx "abi: $made: $program_words" errors || fail "of $made as the new one it says: $(cat errors)"
    run check $made $made
    [ "$(grep -cx "abi: $made: $program_words" errors)" -eq 1 ] || fail "of $made twice it says: $(cat errors)"
    passed "$made: $program_words"
done
# A program with a fault is told to be one, too, where a library is expected. This one has no section table.
cp pie faulty
patched faulty 40 '\0\0\0\0\0\0\0\0'
for call in "check faulty plain.so" "check plain.so faulty" "check faulty faulty" "app pie faulty plain.so" "app pie plain.so faulty"; do
    run $call
    [ "$ended" -eq 2 ] && [ "$(wc -l <errors)" -eq 2 ] || fail "of $call: status $ended, $(cat errors)"
    [ "$(tail -n 1 errors)" = "abi: faulty: $program_words" ] || fail "of $call it says: $(cat errors)"
done
passed "a program with a fault: $program_words"
run app faulty plain.so plain.so
[ "$ended" -eq 2 ] && [ "$(wc -l <errors)" -eq 1 ] || fail "of an application with a fault it says: $(cat errors)"
passed "an application may be a program"
for made in plain.so interpreted.so; do
    run check $made $made
    ! grep "it is a program" errors || fail "$made is a program"
done
passed "a library that names an interpreter is no program"
echo 'union number { int i; float f; }; enum color { RED }; int f(union number *n, enum color c) { return n->i + c; }' | gcc -shared -fPIC -g -o tags.so -x c -
says 5 "tags.so: number is a union, and layout prints structures alone" layout tags.so number
says 5 "tags.so: color is an enumeration, and layout prints structures alone" layout tags.so color

# ---- what is seen and not judged

# noted LINE OLD NEW: with ABI_NOTES=1, `check` must print this line.
noted() {
    local line=$1
    shift
    ABI_NOTES=1 run check "$@"
    grep -Fqx "abi: note: $line" errors || fail "of $* it says: $(cat errors)"
    passed "$line"
}

# unnoted KIND OLD NEW: with ABI_NOTES=1, `check` must print no line of this kind.
unnoted() {
    local kind=$1
    shift
    ABI_NOTES=1 run check "$@"
    ! grep -q "^abi: note: $kind" errors || fail "of $* it says: $(cat errors)"
    passed "no note: $kind, of $*"
}

echo 'V1 { global: *; };' >one.map
echo 'V2 { global: *; };' >two.map
for compiler in gcc clang; do
    # built LIBRARY ARGUMENT..: builds the library from the source on standard input.
    built() { "$compiler" -shared -fPIC -g -x c -o "$@" -; }
    echo '__thread int current;' | built int.so
    echo '__thread long current;' | built long.so
    echo '__thread float current;' | built float.so
    noted "thread-local object: current: was size 4, now size 8" int.so long.so
    unnoted "thread-local object" int.so int.so
    unnoted "thread-local object" int.so float.so

    echo 'int open_file(int fd) { return fd; }' | built first.so -Wl,--version-script=one.map
    echo 'int open_file(int fd) { return fd; }' | built second.so -Wl,--version-script=two.map
    noted "likely successor: open_file@@V1: was open_file@@V1, now open_file@@V2" first.so second.so
    unnoted "likely successor" first.so first.so
    echo 'int open_1(int fd) { return fd; } int close_(int fd) { return fd; }' | built one.so
    echo 'int open_2(int fd) { return fd; } int open_3(int fd) { return fd; } int shut(int fd) { return fd; }' | built two.so
    noted "likely successor: open_1: was open_1, now open_2" one.so two.so
    [ "$(grep -c "^abi: note: likely successor" errors)" -eq 1 ] || fail "another successor: $(cat errors)"

    echo 'int first(int a) { return a; } int second(int a) { return a + 1; } int third(char *a) { return *a; }' | built narrow.so
    echo 'int first(long a) { return a; } int second(long a) { return a + 1; } int third(char *a) { return *a; }' | built wide.so
    noted "affected export: second as first param 1" narrow.so wide.so
    ! grep -q "^abi: note: affected export: third" errors || fail "third is affected: $(cat errors)"
    struct_users='int f(struct s *s) { return s->a; } int g(struct s s) { return s.a; } int h(struct s **s) { return (*s)->b; }'
    echo "struct s { int a, b; }; $struct_users" | built small.so
    echo "struct s { long a; int b; }; $struct_users" | built large.so
    noted "affected export: f as g param 1" small.so large.so
    noted "affected export: h as g param 1 / member a" small.so large.so
done

# ---- each sentence has its row

# The texts of the crate explain for faults and their places; {..} stands for anything.
sed 's,//.*,,' "$root"/crates/explain/src/{allowed,faults,files}.rt | grep -o '[^b]"[^"]*"' >texts
sed 's,//.*,,' "$root/crates/explain/src/sentence.rt" | grep -o '"[^"]*{[^"]*"' >>texts
sed -i 's/^[^"]*"//; s/"$//; s/{[^}]*}/.*/g' texts
[ "$(wc -l <texts)" -ge 60 ] || fail "the sources have $(wc -l <texts) texts"
while read -r text; do
    grep -q -e "$text" said || fail "no row for: $text"
done <texts
passed "each sentence has its row"

finished

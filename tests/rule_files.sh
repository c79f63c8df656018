#!/usr/bin/env bash
# Gives the same rule files to `abi check` and to abidiff, and compares which breaks each leaves out, for exports that are gone and for
# functions whose types have changed.
#
#   tests/rule_files.sh                 builds the program of this repository
#   ABI=/path/of/abi tests/rule_files.sh    uses another one
set -eu
title="rule files"
tools="gcc abidiff"
crate=abi_cli
. "$(dirname "$0")/common.bash"

build() {
    gcc -shared -fPIC -g -O1 -Wl,-soname,libruled.so.1 "$@"
}
build -Wl,--version-script="$sources/ruled_old.map" -o old.so "$sources/ruled_old.c"
build -Wl,--version-script="$sources/ruled_new.map" -o new.so "$sources/ruled_new.c"
build -o types_old.so "$sources/ruled_types.c"
build -DGROWN -o types_new.so "$sources/ruled_types.c"

# reported OLD NEW RULES: writes the report of abidiff to the file `report`. Its exit status has bits for changes, and is 128 or more if
# a signal killed it, which happens if the value of a property begins with a bracket.
reported() {
    local ended=0
    abidiff --suppressions "$3" "$1" "$2" >report || ended=$?
    [ "$ended" -lt 128 ] || fail "abidiff ends with status $ended on: $(cat "$3")"
}

# removed RULES: lists the exports that abidiff reports as gone.
removed() {
    reported old.so new.so "$1"
    sed -n "s/^ *\[D\] '.*'  *{\([^@}]*\).*/\1/p" report | sort
}

# changed RULES: lists the functions that abidiff reports as changed.
changed() {
    reported types_old.so types_new.so "$1"
    sed -n "s/^ *\[C\] 'function [a-z]* \([a-z_]*\)(.*/\1/p" report | sort
}

printf '[suppress_function]\nname = of_none\n' >none
removed none >all_exports
[ "$(wc -l <all_exports)" -eq 6 ] || fail "abidiff reports other exports than the six that are gone"
changed none >all_functions
[ "$(wc -l <all_functions)" -eq 6 ] || fail "abidiff reports other functions than the six that have changed"

# checked OLD NEW: writes what the program reports with the rule file `rules` to the file `printed`.
checked() {
    local ended=0
    "$program" check --rules rules "$1" "$2" >printed 2>errors || ended=$?
    [ "$ended" -le 1 ] || fail "the rule file is refused: $(cat rules printed)"
}

# exports_agree: both must report the same exports as gone.
exports_agree() {
    removed rules >want
    checked old.so new.so
    sed -n 's/^X[23] \([^@:]*\).*/\1/p' printed | sort >got
    diff -u want got >&2 || fail "other exports are left out by: $(cat rules)"
}

# types_agree: both must report changed types for the same functions.
types_agree() {
    changed rules >want
    checked types_old.so types_new.so
    sed -n 's/^L[0-9]* \([^ :@]*\).*/\1/p' printed | sort -u >got
    diff -u want got >&2 || fail "other types are left out by: $(cat rules)"
}

# each LINES: a rule file of these lines, which are separated by `~`, must leave out the same in both tools.
each() {
    printf '%s\n' "$1" | tr '~' '\n' >rules
    exports_agree
    types_agree
    passed "$1: $(tr '\n' ' ' <got)"
}

# each_of_exports LINES: the same, for exports alone. For abidiff, members of structures are variables, too.
each_of_exports() {
    printf '%s\n' "$1" | tr '~' '\n' >rules
    exports_agree
    passed "$1: $(tr '\n' ' ' <got)"
}

F='[suppress_function]'
V='[suppress_variable]'
T='[suppress_type]'
each "$F~name = f_alpha"
each "$F~name = alpha"
each "$F~name_regexp = alpha"
each "$F~name_regexp = ^alpha"
each "$F~name_regexp = f_[ab].*ta"
each "$F~name_regexp = ^(f|g)_(alpha|none)\$"
each "$F~name_not_regexp = ^f_"
each "$F~symbol_name = g_beta"
each "$F~symbol_name_regexp = a\$"
each "$F~symbol_version = V2"
each "$F~symbol_version = V"
each "$F~symbol_version_regexp = ^V"
each "$F~name_regexp = alpha~symbol_version = V2"
each "$F~name_regexp = alpha~soname_regexp = ruled"
each "$F~name_regexp = alpha~soname_regexp = other"
each "$F~soname_regexp = ^libr"
each "$F~name_regexp = v_"
each "$V~name = v_one"
each "$V~name_regexp = two\$"
each_of_exports "$V~name_not_regexp = two\$"
each "$V~symbol_name = v_one"
each "$V~symbol_version = V2"
each "$V~symbol_name_regexp = _(one|two)\$"
each "$V~name_regexp = f_"
each "# a comment~$F~label = a label~name = f_alpha~; another~$V~  name  =  v_two  "
each "$F~name_regexp = f_a~$F~name_regexp = g_b"
each "$T~name = one"
each "$T~name = on"
each "$T~name = two"
each "$T~name = two_t"
each "$T~name = seven"
each "$T~name_regexp = ^t"
each "$T~type_kind = union"
each "$T~type_kind = typedef"
each "$T~type_kind = typedef~name = two"
each "$T~type_kind = struct~name = two"
each "$T~name_not_regexp = o"
each "$T~name_regexp = e~soname_regexp = ruled"
each "$T~name_regexp = e~soname_regexp = other"
each "$T~name = one~accessed_through = pointer"
each "$T~name = five~accessed_through = pointer"
each "$T~name = five~accessed_through = direct"
each "$T~name = six~$F~name = f_beta"

# differs LINES REPORTED HERE: with a rule file of these lines, which are separated by `~`, abidiff must still report REPORTED exports as
# gone. The program must report HERE exports, or refuse the file with the fault HERE. docs/RULE_FILES.md lists these differences.
differs() {
    local here ended=0
    printf "$1\n" | tr '~' '\n' >rules
    removed rules >want
    [ "$(wc -l <want)" -eq "$2" ] || fail "abidiff reports $(wc -l <want) exports that are gone, not $2, with: $1"
    "$program" check --rules rules old.so new.so >printed 2>errors || ended=$?
    here=$(sed -n 's/^unreadable rules \([0-9]*\) .*/fault \1/p' printed)
    [ -n "$here" ] || here=$(grep -c '^X[23] ' printed) || true
    [ "$here" = "$3" ] || fail "the program reports $here, not $3, with: $1"
    passed "they differ: $1: $2, $3"
}
differs "$F~name = f_alpha # x" 5 6
differs "$F~name = f_alpha ; x" 5 6
differs "$F~name = f_alpha#x" 5 6
differs "$F # x~name = f_alpha" 5 "fault 51"
differs "$F\r~name = f_alpha\r" 6 5
differs "[ suppress_function ]~name = f_alpha" 6 5
differs "$F~name =~  f_alpha" 5 "fault 51"
differs "$F~name =" 6 "fault 51"
differs "$F~name = f\\\\_alpha" 5 6
differs "$F~name = f_alpha~name = g_beta" 5 "fault 57"
differs "$F~property = x~name = f_alpha" 5 "fault 53"
finished

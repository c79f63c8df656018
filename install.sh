#!/usr/bin/env bash
# Proves the programs abi and abi-json and the crates that they use, several at a time, builds both, and installs them: the programs
# and links to the tools in PREFIX/bin, the tools in PREFIX/lib/abi/tools, the macros for rpmbuild in PREFIX/lib/rpm/macros.d, and manual
# pages, completions, the module for CMake, pages, schemas, recipes and the licence in PREFIX/share. Installs nothing unless every proof
# passes.
#
# usage: ./install.sh [--static] [PREFIX]   (default: $HOME/.local)
#
# --static links the programs with gcc and the C library's archive, so that they run on any Linux for x86-64. Otherwise they need the
# version of the C library that the kit has. With DESTDIR set, all files are put below that folder, as packagers need it.
#
# It proves on a copy, as the gate does, without tests and wrong edits. Some kits keep what the gate or an earlier run on this machine
# proved, and do not prove it again; others prove everything at each run. JOBS sets how many crates are proved at a time; rt chooses if it
# is not set.
set -euo pipefail

static=
if [ "${1:-}" = --static ]; then
    static=yes
    shift
fi
case $#:${1:-} in
0:* | 1:[!-]*) ;;
*)
    echo "usage: ./install.sh [--static] [PREFIX]" >&2
    exit 64
    ;;
esac
prefix=$(realpath -m "${1:-$HOME/.local}")
# Where files go; what they say of each other is relative.
[ -z "${DESTDIR:-}" ] || prefix=$(realpath -m "$DESTDIR")$prefix
cd "$(dirname "$0")"
root=$PWD
crates=$PWD/crates.txt
# Each program with its crate.
programs="abi:abi_cli abi-json:abi_json"

fail() {
    echo "install.sh: $1" >&2
    exit 1
}

command -v rt >/dev/null || fail "the command rt of the Rattle toolchain is missing: put the folder bin of a Rattle kit on PATH"
command -v python3 >/dev/null || fail "there is no python3, which rt needs: install the package python3"
[ -z "$static" ] || command -v gcc >/dev/null || fail "there is no gcc, which --static needs: install the packages gcc and libc6-dev"

work=$(mktemp -d)
trap 'rm -rf "$work"' EXIT

# needed: prints the lines of crates.txt on the crates of the programs, and on those that these use.
needed() {
    awk -v programs="$programs" '
        function visit(name,    i, uses, count) {
            if (seen[name]++ || !(name in below)) return
            print name ":" below[name]
            count = split(below[name], uses, " ")
            for (i = 1; i <= count; i++) visit(uses[i])
        }
        { sub(/#.*/, "") }
        split($0, part, ":") == 2 { below[part[1]] = part[2] }
        END {
            count = split(programs, program, " ")
            for (i = 1; i <= count; i++) visit(substr(program[i], index(program[i], ":") + 1))
        }' "$crates"
}

# proved_here CRATE: has rt prove the crate of a program in this run, also if it kept it from an earlier one, since rt leaves the object file
# of a program only then. It proves again what has one more file in its folder; no check reads this one.
proved_here() {
    printf '%s %s\n' "$$" "$(date +%s%N)" >"$work/crates/$1/src/linked-statically"
}

# linked_statically CRATE: links the object file of a program, which rt leaves beside it, with the kit's C code and the C library's archive.
linked_statically() {
    local out=$work/crates/$1/out/$1 kit
    kit=$(dirname "$(rt doc)")
    [ -f "$out.o" ] || fail "rt left no object file $1.o"
    gcc -static-pie -s -o "$out" "$out.o" "$kit/c/libos_c.a" "$kit/c/liblibc_c.a" || fail "the program of $1 cannot be linked statically"
}

# follow: keeps what rt prints in the log, and shows the progress by crate.
follow() {
    local line count=0 total
    total=$(wc -l <"$work/crates.txt")
    while IFS= read -r line; do
        printf '%s\n' "$line" >&3
        case $line in
        "== "*" again: "*) ;;
        "== "*) count=$((count + 1)) && echo "crate $count of $total: ${line#== }" ;;
        esac
    done 3>"$log"
}

needed >"$work/crates.txt"
cp "$root/HANDLES" "$work"
while IFS=: read -r crate _; do
    mkdir -p "$work/crates/$crate"
    (cd "$root/crates/$crate" && find . -mindepth 1 -maxdepth 1 ! -name out ! -name must-fail -exec cp -r '{}' "$work/crates/$crate" \;)
done <"$work/crates.txt"
for program in $programs; do
    [ -z "$static" ] || proved_here "${program#*:}"
done

log=$(mktemp)
echo "proving $(wc -l <"$work/crates.txt") crates; this takes half an hour or more, unless the kit has kept their proofs"
[ -z "${JOBS:-}" ] || export RT_JOBS=$JOBS
(cd "$work" && rt ci 2>&1) | follow || {
    grep -E '^rt: .*(NOT|failed)|error' "$log" >&2 || tail -n 20 "$log" >&2
    fail "not everything is proved, so nothing is installed; all that rt printed is in $log"
}
for program in $programs; do
    [ -x "$work/crates/${program#*:}/out/${program#*:}" ] || fail "the program of ${program#*:} was not built; all that rt printed is in $log"
    [ -z "$static" ] || linked_statically "${program#*:}"
done
rm -f "$log"

mkdir -p "$prefix/bin"
for program in $programs; do
    crate=${program#*:}
    install -m 755 "$work/crates/$crate/out/$crate" "$prefix/bin/${program%%:*}"
    echo "installed $prefix/bin/${program%%:*}"
done

# A tool resolves the link and finds its packages beside its own file.
rm -rf "$prefix/lib/abi/tools"
mkdir -p "$prefix/lib/abi/tools"
for tool in abi-report abi-gate abi-packages abi-baseline abi-release abi-history join-debug; do
    install -m 755 "$root/tools/$tool" "$prefix/lib/abi/tools/$tool"
    ln -sfn "../lib/abi/tools/$tool" "$prefix/bin/$tool"
done
for package in abi abi_tools abi_report abi_release abi_history; do
    mkdir "$prefix/lib/abi/tools/$package"
    install -m 644 "$root/tools/$package"/*.* "$prefix/lib/abi/tools/$package"
done
echo "installed the tools in $prefix/lib/abi/tools, with links in $prefix/bin"

install -D -m 644 "$root/tools/rpm/macros.abi" "$prefix/lib/rpm/macros.d/macros.abi"

(cd "$root/share" && find . -type f -print) | while IFS= read -r file; do
    install -D -m 644 "$root/share/$file" "$prefix/share/$file"
done
# The pages lie to each other as in the sources, so that their links lead somewhere.
rm -rf "$prefix/share/doc/abi"
(cd "$root" && find README.md CHANGELOG.md LICENSE docs examples -type f ! -name '*.so*' -print) | while IFS= read -r file; do
    mode=644
    [ ! -x "$root/$file" ] || mode=755
    install -D -m "$mode" "$root/$file" "$prefix/share/doc/abi/$file"
done
echo "installed manual pages, completions, pages, schemas and recipes in $prefix/share"

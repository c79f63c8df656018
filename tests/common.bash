# What the scripts beside this one share: they check for tools, find the program, count checks and fail, and derive from sha256sum and
# readelf what the program must answer. A script sets `title`, the `tools` that it needs and the `crate` of the program that it runs,
# and then sources this file. A script that runs no program of this repository sets an empty `crate`.
#
# A missing tool is a failure. With SKIP_MISSING_TOOLS set, what needs it is left out, and the last line names the tool.
export LC_ALL=C

root=$(cd "$(dirname "$0")/.." && pwd)
sources=$root/tests/c
# the optional tools that were found and used, and what was left out
ran=
left_out=

fail() {
    echo "$title: FAILED: $1" >&2
    exit 1
}

# told LINE: prints the last line of a script, which the gate lists again at its end.
told() {
    echo "$title: $1"
    [ -z "${TEST_SUMMARY:-}" ] || echo "$title: $1" >>"$TEST_SUMMARY"
}

# there TOOL: whether the tool is there. A missing tool is a failure, unless SKIP_MISSING_TOOLS is set.
there() {
    command -v "$1" >/dev/null && return
    [ -n "${SKIP_MISSING_TOOLS:-}" ] || fail "there is no $1 (with SKIP_MISSING_TOOLS=1 what needs it is left out)"
    case " $left_out " in
    *" $1 "*) ;;
    *) left_out="$left_out $1" ;;
    esac
    return 1
}

for tool in $tools; do
    there "$tool" || { told "nothing ran, since there is no $tool"; exit 0; }
done

# is_recorded PROGRAM: whether the record of a package beside the program says that it was made of the crates as they are here. The files
# of a package have the time of its commit, and those of a checkout the time of the checkout.
is_recorded() {
    local record commit
    record=$(dirname "$1")/../share/doc/abi/record.json
    [ -f "$record" ] && command -v git >/dev/null || return 1
    grep -q "\"$(sha256sum <"$1" | cut -c 1-64)\"" "$record" && grep -q '"changed_since_commit": false' "$record" || return 1
    commit=$(sed -n 's/^  "commit": "\([0-9a-f]*\)",*$/\1/p' "$record")
    [ -n "$commit" ] && git -C "$root" diff --quiet "$commit" -- crates crates.txt 2>/dev/null
}

# refuse_old PROGRAM: fails if the program is older than the sources of this repository, unless its package says that it is of these.
refuse_old() {
    local newer
    newer=$(find "$root/crates" "$root/crates.txt" -name out -prune -o \( -name '*.rt' -o -name '*.antt' -o -name crates.txt \) \
        -newer "$1" -print -quit)
    [ -z "$newer" ] || is_recorded "$1" || fail "the program at $1 is older than $newer"
}

# program_of CRATE STATUS GIVEN: sets `found` to the path of the crate's program: the path GIVEN, which must not be older than the
# sources, or else the program that rt builds, which it does only after a proof. rt also runs it, without arguments, and that run must
# end with the status.
program_of() {
    local built=0
    if [ -n "$3" ]; then
        found=$(readlink -f "$3") && [ -f "$found" ] && [ -x "$found" ] || fail "there is no program at $3"
        refuse_old "$found"
        return
    fi
    there rt || { told "nothing ran, since there is no rt"; exit 0; }
    found=$root/crates/$1/out/$1
    (cd "$root/crates/$1" && rt run) >/dev/null 2>&1 || built=$?
    [ "$built" -eq "$2" ] || fail "rt run of $1 ended with status $built, not $2"
}

case $crate in
abi_cli) program_of abi_cli 64 "${ABI:-}" ;;
tool_graph_lines) program_of tool_graph_lines 1 "${GRAPH_LINES:-}" ;;
"") found= ;;
*) fail "no program of the crate $crate is known" ;;
esac
program=$found

work=$(mktemp -d)
trap 'rm -rf "$work"' EXIT
cd "$work"

checks=0

# finished: prints the last line: how many checks agreed, with which tools, and what was left out.
finished() {
    told "$checks checks agree; tools:$(printf ' %s' $tools $ran); left out:${left_out:- nothing}"
}

# passed NAME: counts a check.
passed() {
    checks=$((checks + 1))
    echo "ok: $1"
}

# answers NAME STATUS ARGUMENT..: the program, given the arguments, must end with the status; its standard output goes to the file
# `got`. With the statuses 2, 3, 4, 6 and 64, standard error must say what is wrong; with 5 it must have one note, and one
# more on a file that is not the one of the certificate; with a yes or
# no of `check` it may have notes. Otherwise it must be empty.
answers() {
    local name=$1 status=$2 ended=0
    shift 2
    "$program" "$@" >got 2>errors || ended=$?
    [ "$ended" -eq "$status" ] || { head -n 20 got >&2 && fail "$name: status $ended, not $status"; }
    case "$ended $* " in
    [2346]" "* | "64 "*) grep -q '^abi: ' errors || fail "$name: nothing tells what is wrong" ;;
    [01]*" check "*) ! grep -v '^abi: ' errors >&2 || fail "$name: it wrote something else than notes to standard error" ;;
    "5 layout "*) [ "$(grep -c '^abi: ' errors)" -eq 1 ] || fail "$name: no note says which tags are near" ;;
    # A second note names the file that is not the one of the certificate.
    "5 "*) [ "$(grep -c '^abi: ' errors)" -eq $((1 + $(grep -c '^refused .*70 OtherInput' got))) ] || fail "$name: no note says what is not proved" ;;
    *) [ ! -s errors ] || fail "$name: it wrote to standard error" ;;
    esac
}

# same NAME: the file `got` must be the same as the file `want`.
same() {
    diff -u want got >differences || { head -n 40 differences >&2 && fail "$1: another text"; }
}

# expect NAME STATUS ARGUMENT..: the program, given the arguments, must end with the status and print the contents of the file `want`.
expect() {
    answers "$@"
    same "$1"
    passed "$1"
}

# exports LIBRARY: prints a line for each export that readelf shows, in the order of the symbol numbers. Its fields, separated by tabs,
# are the number, the name, the version (or empty), the version's index, the label, the kind and the size.
exports() {
    { readelf --wide --version-info "$1" && echo "symbols" && readelf --wide --dyn-syms "$1"; } | awk '
        # the value of a number in decimal, or in hexadecimal after 0x
        function value(text,    i, sum) {
            if (text !~ /^0x/) return text + 0
            for (i = 3; i <= length(text); i++) sum = 16 * sum + index("0123456789abcdef", substr(text, i, 1)) - 1
            return sum
        }

        BEGIN { count = 0 }
        $0 == "symbols" { part = "symbols" }

        # the version of each symbol: its index, an `h` if it is hidden, and its name in brackets
        /^Version symbols section / { part = "versions"; next }
        part == "versions" && $0 == "" { part = "" }
        part == "versions" && sub(/^ +[0-9a-f]+:/, "") {
            has_versions = 1
            while (match($0, /[0-9a-f]+[h ]\([^)]*\)/)) {
                word = substr($0, RSTART, RLENGTH)
                $0 = substr($0, RSTART + RLENGTH)
                open = index(word, "(")
                version_index[count] = value("0x" substr(word, 1, open - 2))
                hidden[count] = substr(word, open - 1, 1) == "h"
                version[count] = substr(word, open + 1, length(word) - open - 1)
                count++
            }
        }

        # a kind and a binding that readelf names only if the file header says GNU
        part == "symbols" && $4 " " $5 " " $6 == "<OS specific>: 10" { sub(/<OS specific>: 10/, "IFUNC") }
        part == "symbols" && $5 " " $6 " " $7 == "<OS specific>: 10" { sub(/<OS specific>: 10/, "UNIQUE") }

        part == "symbols" && $1 ~ /^[0-9]+:$/ && $5 ~ /^(GLOBAL|WEAK|UNIQUE)$/ && $6 ~ /^(DEFAULT|PROTECTED)$/ && $7 != "UND" {
            number = $1 + 0
            which = has_versions ? version_index[number] : 1
            if (which == 0) next
            name = label = $8
            sub(/@.*/, "", name)
            of = which > 1 ? version[number] : ""
            # a symbol that stands for a version
            if ($7 == "ABS" && name == of) next
            label = of == "" ? name : name (hidden[number] ? "@" : "@@") of
            printf "%d\t%s\t%s\t%d\t%s\t%s\t%.0f\n", number, name, of, which, label, $4, value($3)
        }'
}

# soname LIBRARY: its soname, or `none`.
soname() {
    readelf --wide --dynamic "$1" | awk '
        /\(SONAME\)/ && !found { found = 1; sub(/^[^[]*\[/, ""); sub(/\]$/, ""); print }
        END { if (!found) print "none" }'
}

# digest FILE: the SHA-256 of its bytes.
digest() {
    sha256sum <"$1" | cut -d ' ' -f 1
}

# bound OLD NEW: prints, for each old export in order, its `bind` line with the new export that it binds to, if there is one, and the
# rows of the report if there is none, or if the two do not agree.
bound() {
    exports "$1" >old_exports
    exports "$2" >new_exports
    bound_exports
}

# bound_exports: the same, for the exports in the files `old_exports` and `new_exports`.
bound_exports() {
    awk -F '\t' '
        function is_function(kind) { return kind == "FUNC" || kind == "IFUNC" }
        function is_object(kind) { return kind == "OBJECT" || kind == "COMMON" }
        function agree(a, b) {
            return is_function(a) && is_function(b) || is_object(a) && is_object(b) || a == "TLS" && b == "TLS" ||
                a == "NOTYPE" && b != "TLS" || b == "NOTYPE" && a != "TLS"
        }
        function partner(name, of) {
            if ((name, of) in exact) return exact[name, of]
            if (of != "") return ""
            if (name in first) return first[name]
            return defaults[name] == 1 ? default_of[name] : ""
        }

        FILENAME == "new_exports" {
            kind[$1] = $6
            size[$1] = $7
            named[$2] = 1
            exact[$2, $3] = $1
            if ($4 == 2 && !($2 in first)) first[$2] = $1
            if ($3 != "" && $5 ~ /@@/) { defaults[$2]++; default_of[$2] = $1 }
            next
        }
        {
            to = partner($2, $3)
            if (to == "") print $2 in named ? "X3 " $5 ": version gone" : "X2 " $5 ": gone"
            else print "bind", $1, to
            if (to != "" && !agree($6, kind[to])) print "X4 " $5 ": kind " $6 ", now " kind[to]
            if (to != "" && is_object($6) && is_object(kind[to]) && $7 != size[to])
                print "X5 " $5 ": object size " $7 ", now " size[to]
        }' new_exports old_exports
}

# certificate OLD NEW: prints the certificate that a yes must give.
certificate() {
    echo "yes 2"
    echo "old $(digest "$1")"
    echo "new $(digest "$2")"
    echo "rules $(digest /dev/null)"
    bound "$1" "$2" | grep '^bind ' || true
    echo "end"
}

# breaks OLD NEW: prints the rows of a report: that of the soname, and then those of the exports in the order of their numbers.
breaks() {
    local old new
    old=$(soname "$1")
    new=$(soname "$2")
    [ "$old" = "$new" ] || echo "X1 -: SONAME $old, now $new"
    bound "$1" "$2" | grep -v '^bind ' || true
}

#!/usr/bin/env bash
# Makes edits of small C libraries, builds each with gcc and clang, with several kinds of debug information, and compares what the proved
# program says of the two libraries with what the rules say, row by row: tests/c/edits.txt has the edits and their answers, which were
# derived from the rules by hand. Each library that is built must be able to replace itself, and so must each library of the system with
# debug information.
#
#   tests/typed_check.sh                 builds the program of this repository
#   ABI=/path/of/abi tests/typed_check.sh    uses another one
#   EDITS="3 17" tests/typed_check.sh    checks only these edits of the table, and no libraries of the system
set -eu
title="typed check"
tools="gcc readelf sha256sum awk"
crate=abi_cli
. "$(dirname "$0")/common.bash"
. "$root/tests/edits.bash"

# The kinds of builds. In version 5 gcc puts type units into .debug_info.
builds="gcc -gdwarf-5 -O0
gcc -gdwarf-4 -O2
gcc -gdwarf-5 -O2 -fdebug-types-section"
if there clang; then
    ran=clang
    builds="$builds
clang -gdwarf-5 -O0
clang -gdwarf-4 -O2"
fi

# offsets LIBRARY: prints the offsets of its debugging information entries, in decimal.
offsets() {
    readelf --wide --debug-dump=info,no-follow-links "$1" | awk '
        function value(text,    i, sum) {
            for (i = 1; i <= length(text); i++) sum = 16 * sum + index("0123456789abcdef", substr(text, i, 1)) - 1
            return sum
        }
        match($0, /^ *<[0-9a-f]+><[0-9a-f]+>: Abbrev Number: [1-9]/) { split($0, field, /[<>]+/); print value(field[3]) }'
}

# told_of SIDE LIBRARY: writes what readelf and sha256sum say of a library to the files SIDE_exports, SIDE_offsets and SIDE_digest; SIDE
# is old or new.
told_of() {
    exports "$2" >"$1_exports"
    offsets "$2" >"$1_offsets"
    digest "$2" >"$1_digest"
}

# ordered: sorts the rows of the file `rows_of_edit`, which are in order except for the numbers of exports: first X1, then the other rows
# on exports by number and rule, and then the rows on types by length of path and number. Of two names f|g it takes the one with the
# smaller number.
ordered() {
    awk '
        FILENAME == "old_exports" { split($0, field, "\t"); number[field[5]] = field[1]; next }
        {
            split($0, part, ": ")
            words = split(part[1], word, " ")
            label = word[2]
            if (split(label, either, "|") == 2) {
                label = number[either[1]] + 0 < number[either[2]] + 0 ? either[1] : either[2]
                sub(/ [^ :]+/, " " label)
            }
            if (label != "-" && !(label in number)) { print "there is no export " label; next }
            steps = words > 2 ? gsub(/ \/ /, "&", part[1]) + 1 : 0
            if (word[1] ~ /^X/) printf "0 %d %d %d\t%s\n", number[label], substr(word[1], 2), FNR, $0
            else printf "1 %d %d %d\t%s\n", steps, number[label], FNR, $0
        }' old_exports rows_of_edit | sort -n -k 1,1 -k 2,2 -k 3,3 -k 4,4 | cut -f 2
}

empty_digest=$(digest /dev/null)

# certified NAME SIDE SIDE: the output on two libraries, in the file `got`, must be a certificate: the lines that follow from sha256sum
# and readelf, and between them the lines for alike types and for pairs, well-formed and in order. These must name entries that exist,
# and pairs must not name an entry that another one stands for. If both sides are the same, each export must bind to itself, and each
# type must be paired with itself.
certified() {
    local name=$1 old=$2 new=$3
    {
        echo "yes 2"
        echo "old $(cat "${old}_digest")"
        echo "new $(cat "${new}_digest")"
        echo "rules $empty_digest"
        if [ "$old" = "$new" ]; then
            awk '{ print "bind", $1, $1 }' "${old}_exports"
        else
            bound_exports | grep '^bind ' || true
        fi
        echo "end"
    } >plain
    grep -v -E '^(alike|pair) ' got | diff -u plain - >differences ||
        { head -n 40 differences >&2 && fail "$name: other digests or bindings"; }
    awk -v old_file="${old}_offsets" -v new_file="${new}_offsets" '
        function bad(why) { if (!failed) print "line " FNR ", \"" $0 "\": " why; failed = 1 }
        # the line comes strictly after the previous one, if that has the same kind
        function ascends(kind, first, second, third) {
            if (kind == last_kind && (first < last_first || first == last_first && (second < last_second ||
                second == last_second && third <= last_third))) bad("not above the line before it")
            last_kind = kind; last_first = first; last_second = second; last_third = third
        }
        function place(kind) {
            if (kind < highest) bad("behind a later kind of lines")
            highest = kind
        }

        BEGIN {
            while ((getline line <old_file) > 0) is_old[line] = 1
            close(old_file)
            while ((getline line <new_file) > 0) is_new[line] = 1
            itself = old_file == new_file
        }
        /^bind / { place(1) }
        /^alike old [1-9][0-9]* (0|[1-9][0-9]*)$/ {
            place(2)
            ascends("old", $3 + 0, 0, 0)
            if (!($3 in is_old) || $4 != 0 && !($4 in is_old)) bad("no entry of the old library")
            if ($4 + 0 >= $3 + 0 || ($4 in old_stands)) bad("not the least of its class")
            old_stands[$3] = $4
            old_count++
            next
        }
        /^alike new [1-9][0-9]* (0|[1-9][0-9]*)$/ {
            place(3)
            ascends("new", $3 + 0, 0, 0)
            if (!($3 in is_new) || $4 != 0 && !($4 in is_new)) bad("no entry of the new library")
            if ($4 + 0 >= $3 + 0 || ($4 in new_stands)) bad("not the least of its class")
            if (itself && old_stands[$3] != $4) bad("not so on the old side")
            new_stands[$3] = $4
            new_count++
            next
        }
        /^pair (0|[1-9][0-9]*) (0|[1-9][0-9]*) (direct|pointer)$/ {
            place(4)
            ascends("pair", $2 + 0, $3 + 0, $4 == "pointer")
            if ($2 != 0 && !($2 in is_old) || $3 != 0 && !($3 in is_new)) bad("no entry")
            if (($2 in old_stands) || ($3 in new_stands)) bad("another entry stands for one of these")
            if (itself && $2 != $3) bad("a type is paired with another one of its own library")
            next
        }
        /^(alike|pair)/ { bad("no line of a certificate") }
        /^end$/ { place(5) }
        END {
            if (itself && old_count != new_count) bad("the two sides have other alike types")
            exit failed
        }' got >differences || fail "$name: $(cat differences)"
}

# accepted NAME OLD NEW: the command `verify` must accept the certificate in the file `got`.
accepted() {
    cp got certificate
    echo accepted >want
    answers "$1, verified" 0 verify "$2" "$3" certificate
    same "$1, verified"
    mv certificate got
}

# replaces_itself NAME SIDE LIBRARY: the program must say that the library may replace itself.
replaces_itself() {
    answers "$1, against itself" 0 check "$3" "$3"
    certified "$1, against itself" "$2" "$2"
    accepted "$1, against itself" "$3" "$3"
}

# types_named LIBRARY: for a library of one unit, prints the offset and the name of each entry of a type, a function or a variable. The
# names are those of the table of edits: T, *T, const:T, with `long` for what gcc calls `long int`, and _ for blanks.
types_named() {
    readelf --wide --debug-dump=info "$1" | awk '
        function value(text,    i, sum) {
            for (i = 1; i <= length(text); i++) sum = 16 * sum + index("0123456789abcdef", substr(text, i, 1)) - 1
            return sum
        }
        function spelled(e) {
            if (e == "") return "void"
            if (tag[e] == "pointer_type") return "*" spelled(to[e])
            if (tag[e] == "const_type") return "const:" spelled(to[e])
            return name[e]
        }
        match($0, /^ *<[0-9a-f]+><[0-9a-f]+>: Abbrev Number: [1-9]/) {
            split($0, field, /[<>]+/)
            inside = field[2] == 1
            if (!inside) next
            e = field[3]
            order[++count] = e
            tag[e] = $0
            sub(/.*\(DW_TAG_/, "", tag[e])
            sub(/\).*/, "", tag[e])
        }
        inside && / DW_AT_name / {
            text = $0
            sub(/^[^:]*: /, "", text)
            sub(/^\([a-z_0-9]+\) */, "", text)
            sub(/^\((offset|index|indexed string): [^)]*\): /, "", text)
            sub(/[ \t]+$/, "", text)
            sub(/^long int$/, "long", text)
            sub(/^long long int$/, "long long", text)
            gsub(/ /, "_", text)
            name[e] = text
        }
        inside && / DW_AT_type / { match($0, /<0x[0-9a-f]+>/); to[e] = substr($0, RSTART + 3, RLENGTH - 4) }
        END {
            print 0, "void"
            for (i = 1; i <= count; i++) print value(order[i]), spelled(order[i])
        }'
}

# known_pairs OLD NEW: prints the alike lines and pair lines that the file `rows_of_edit` names.
known_pairs() {
    types_named "$1" >old_types
    types_named "$2" >new_types
    awk '
        function entry(side, text) {
            if (!((side, text) in at)) { print "no " side " type is called " text; return -1 }
            return at[side, text]
        }
        function rep(side, e) { return (side, e) in stands ? stands[side, e] : e }
        FILENAME == "old_types" { if (!(("old", $2) in at)) at["old", $2] = $1; next }
        FILENAME == "new_types" { if (!(("new", $2) in at)) at["new", $2] = $1; next }
        $1 == "alike" {
            least = entry($2, $3)
            for (i = 4; i <= NF; i++) if (entry($2, $i) < least) least = entry($2, $i)
            for (i = 3; i <= NF; i++) {
                e = entry($2, $i)
                if (e == least) continue
                stands[$2, e] = least
                printf "%s %d 0 0\talike %s %d %d\n", ($2 == "old" ? 1 : 2), e, $2, e, least
            }
        }
        $1 == "pair" { pair[++count] = $0 }
        END {
            for (i = 1; i <= count; i++) {
                split(pair[i], word, " ")
                e = rep("old", entry("old", word[2]))
                f = rep("new", entry("new", word[3]))
                printf "3 %d %d %d\tpair %d %d %s\n", e, f, word[4] == "pointer", e, f, word[4]
            }
        }' old_types new_types rows_of_edit | sort -n -k 1,1 -k 2,2 -k 3,3 -k 4,4 | cut -f 2 | uniq
}

# holds NAME OLD NEW WORDS: the program must give the answer in the file `answer`, which is the one for a build with these words.
holds() {
    local name=$1 old=$2 new=$3
    sed 1d answer >rows_of_edit
    case $(head -n 1 answer) in
    no)
        { echo no && ordered; } >want
        answers "$name" 1 check "$old" "$new"
        same "$name"
        ;;
    yes)
        answers "$name" 0 check "$old" "$new"
        certified "$name" old new
        # Names identify types only within one unit.
        if [ -s rows_of_edit ] && [[ $4 != *types-section* ]]; then
            known_pairs "$old" "$new" >lines
            { sed '$d' plain && cat lines && echo end; } >want
            same "$name"
        fi
        accepted "$name" "$old" "$new"
        ;;
    *) fail "$name: the table has no answer, or several" ;;
    esac
}

cut_edits
for edit in ${EDITS:-$(seq "$edits")}; do
    name=$(cat "edits/$edit/name")
    folder=edits/$edit
    rm -f first.so
    while read -r build; do
        # Unquoted on purpose: the compiler and its options are words.
        build_edit "$edit" $build
        told_of old "$folder/old.so"
        told_of new "$folder/new.so"
        answer_of "$edit" $build >answer
        holds "$name ($build)" "$folder/old.so" "$folder/new.so" "$build"
        replaces_itself "$name ($build), old" old "$folder/old.so"
        replaces_itself "$name ($build), new" new "$folder/new.so"
        [ -f first.so ] || cp "$folder/old.so" first.so
        last=$build
    done <<<"$builds"
    # The old library by one compiler, and the edited one by another.
    crossed="$(head -n 1 <<<"$builds") $last"
    answer_of "$edit" $crossed >answer
    if [ -s answer ] && [[ $last = clang* ]]; then
        told_of old first.so
        holds "$name ($crossed)" first.so "$folder/new.so" "$crossed"
    fi
    passed "$name: $(head -n 1 "edits/$edit/answers")"
done

# Each library of the system that has debug information, joined with it.
if [ -z "${EDITS:-}" ] && there eu-unstrip && there objcopy; then
    ran="$ran eu-unstrip objcopy"
    joined=0
    for library in /lib/x86_64-linux-gnu/*.so* /usr/lib64/*.so*; do
        [ -f "$library" ] && [ ! -L "$library" ] || continue
        id=$(readelf --wide --notes "$library" 2>/dev/null | awk '/Build ID:/ { print $NF; exit }')
        [ -n "$id" ] && [ -f "/usr/lib/debug/.build-id/${id:0:2}/${id:2}.debug" ] || continue
        "$root/tools/join-debug" "$library" joined.so
        told_of old joined.so
        replaces_itself "$library with its debug information" old joined.so
        passed "$library with its debug information may replace itself, with $(grep -c '^pair ' got || true) pairs of types"
        joined=$((joined + 1))
    done
    if [ "$joined" -eq 0 ]; then
        [ -n "${SKIP_MISSING_TOOLS:-}" ] || fail "there is no debug information of a library (with SKIP_MISSING_TOOLS=1 this is left out)"
        left_out="$left_out libc6-dbg"
    fi
fi

finished

#!/usr/bin/env bash
# Checks that crates.txt goes from the ground up: each crate stands on crates of earlier lines alone, and its folder is there. Checks too
# that docs/ARCHITECTURE.md is true to it: its picture has each crate once, on its floor and above the crates on which it stands, and each
# word of its glossary is in the file that the glossary names.
set -euo pipefail
title="floors"
tools="awk"
crate=
. "$(dirname "$0")/common.bash"

awk -v crates="$root/crates" '
    { sub(/#.*/, "") }
    split($0, part, ":") == 2 { line[++count] = part[1]; below[part[1]] = part[2] }
    END {
        for (i = 1; i <= count; i++) {
            name = line[i]
            number = split(below[name], uses, " ")
            for (k = 1; k <= number; k++) if (uses[k] in below && !(uses[k] in done)) { print name " stands above " uses[k] "; its line comes later"; wrong = 1 }
            done[name]
        }
        exit wrong
    }' "$root/crates.txt" >&2 || fail "a crate stands on a later one"
for name in $(sed -n 's/^\([a-z_0-9]*\):.*/\1/p' "$root/crates.txt"); do
    [ -d "$root/crates/$name/src" ] || fail "there is no crate $name"
    checks=$((checks + 1))
done
[ "$checks" -eq "$(find "$root/crates" -mindepth 1 -maxdepth 1 -type d | wc -l)" ] || fail "a folder of crates/ has no line"

# The picture: its lines are those that begin with a bar; a line without a floor is on that of the line before. A line here has the number
# of the line in the page, the floor and a crate.
page=$root/docs/ARCHITECTURE.md
awk -F ' *│ *' '
    /^│/ { if ($2 != "") floor = $2; number = split($3, names, " "); for (k = 1; k <= number; k++) print NR, floor, names[k] }' "$page" >picture
awk '
    /^# [A-Za-z]*: / { floor = $2; sub(/:/, "", floor) }
    /^[a-z_0-9]*:/ { sub(/:.*/, ""); print floor, $0 }' "$root/crates.txt" | sort >want
cut -d ' ' -f 2- picture | sort >got
same "the picture of docs/ARCHITECTURE.md"
awk '
    FILENAME == "picture" { row[$3] = $1; next }
    { sub(/#.*/, "") }
    split($0, part, ":") == 2 {
        number = split(part[2], uses, " ")
        for (k = 1; k <= number; k++) if (uses[k] in row && row[uses[k]] <= row[part[1]]) { print part[1] " is not drawn above " uses[k]; wrong = 1 }
    }
    END { exit wrong }' picture "$root/crates.txt" >&2 || fail "the picture of docs/ARCHITECTURE.md"
passed "the picture of docs/ARCHITECTURE.md"

# The glossary: the word, then its meaning, and a file.
awk -F ' *[|] *' '/^## / { inside = $0 == "## Glossary" } inside && $4 ~ /^`/ { gsub(/`/, "", $4); print $2 "\t" $4 }' "$page" >words
while IFS=$'\t' read -r term file; do
    [ -f "$root/$file" ] || fail "glossary, $term: there is no $file"
    for word in $term; do grep -qi "$word" "$root/$file" || fail "glossary, $term: nothing says $word in $file"; done
    checks=$((checks + 1))
done <words
[ -s words ] || fail "docs/ARCHITECTURE.md has no glossary"
finished

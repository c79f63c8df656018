#!/usr/bin/env bash
# Runs abidiff, of the package abigail-tools, on the edits of tests/c/edits.txt, and compares its answers with the tables of
# docs/evidence/PEERS.md. It runs no program of this repository: the answers of `abi` come from the table of edits, which tests/typed_check.sh
# checks against the program.
#
#   tests/peers.sh           compares with the page, which is about one version of abidiff
#   tests/peers.sh --print   prints the tables of the page
set -eu
title="peers"
tools="gcc awk abidiff"
crate=
. "$(dirname "$0")/common.bash"
. "$root/tests/edits.bash"

page=$root/docs/evidence/PEERS.md
version=$(abidiff --version | awk '{ print $NF }')
if [ "${1:-}" != --print ] && ! grep -q "abidiff $version\b" "$page"; then
    why="abidiff $version is not the one of docs/evidence/PEERS.md"
    [ -n "${SKIP_MISSING_TOOLS:-}" ] || fail "$why (with SKIP_MISSING_TOOLS=1 this is left out)"
    told "nothing ran, since $why"
    exit 0
fi

# shown STATUS: the meaning of abidiff's exit status: 4 is a change, 8 an incompatible change, 1 and 2 are failures.
shown() {
    case $1 in
    0) echo "no change" ;;
    4) echo "change" ;;
    12) echo "incompatible change" ;;
    *) fail "abidiff ended with status $1" ;;
    esac
}

cut_edits
for edit in $(seq "$edits"); do
    build_edit "$edit" gcc -gdwarf-5 -O0
    ended=0
    abidiff "edits/$edit/old.so" "edits/$edit/new.so" >abidiff_text 2>&1 || ended=$?
    says=$(shown "$ended")
    answer=$(answer_of "$edit" gcc -gdwarf-5 -O0 | head -n 1)
    echo "$answer/$says" >>counted
    differs=
    case "$answer/$ended" in no/0 | yes/4 | yes/12) differs=1 ;; esac
    if [ -n "$differs" ] && [ -f "edits/$edit/abidiff" ]; then
        awk -v name="$(cat "edits/$edit/name")" -v answer="$answer" -v says="$says" '{
            who = $0
            sub(/:.*/, "", who)
            sub(/^[^:]*: /, "")
            printf "| %s | %s | %s | %s | %s |\n", name, answer, says, who, $0
        }' "edits/$edit/abidiff" >>"differing_$answer"
    elif [ -n "$differs" ] || [ -f "edits/$edit/abidiff" ]; then
        fail "$(cat "edits/$edit/name"): $answer, and abidiff shows $says: the table of edits says something else"
    fi
done

# many ANSWER SHOWN: how many edits have this answer of abi and this one of abidiff.
many() {
    grep -c -x "$1/$2" counted || true
}

{
    echo "| abi | abidiff: no change | change | incompatible change |"
    echo "|---|---|---|---|"
    for answer in yes no; do
        echo "| $answer | $(many "$answer" "no change") | $(many "$answer" "change") | $(many "$answer" "incompatible change") |"
    done
    for answer in no yes; do
        echo "| Edit | abi | abidiff | Right | Why |"
        echo "|---|---|---|---|---|"
        cat "differing_$answer"
    done
} >tables
if [ "${1:-}" = --print ]; then
    cat tables
    exit 0
fi
grep '^|' "$page" | diff -u - tables >differences || { cat differences >&2 && fail "docs/evidence/PEERS.md has other tables"; }
passed "docs/evidence/PEERS.md: $(cat differing_no differing_yes | wc -l) of $edits edits"
finished

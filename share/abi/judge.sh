#!/usr/bin/env bash
# What the pipelines of GitHub and GitLab run: abi-gate, and abi-report unless the answer is yes. Ends with the status of abi-gate.
#
# ABI_OLD, ABI_NEW     the released library or its baseline, and the new build
# ABI_RULES            a rule file; none if it is empty
# ABI_TYPES            the percentage of compared exports that must have types (90)
# ABI_STRICT           true: notes on what no rule judges and what can break compiled callers are no yes (false)
#
# The folder abi-result gets `answer` (what abi-gate printed), `certificate` (on yes), `report` (otherwise) and `comment.md`, the text of
# a comment in Markdown.
set -u

folder=abi-result
rm -rf "$folder"
mkdir -p "$folder" || exit 2
options=(--require-types "${ABI_TYPES:-90}")
[ -z "${ABI_RULES:-}" ] || options+=(--rules "$ABI_RULES")
case ${ABI_STRICT:-false} in
true) options+=(--strict) ;;
false) ;;
*)
    echo "judge.sh: ABI_STRICT is neither true nor false" | tee "$folder/answer" >&2
    printf '### abi: no answer: strict is neither true nor false\n' >"$folder/comment.md"
    exit 64
    ;;
esac

status=0
abi-gate "${options[@]}" --certificate "$folder/certificate" "${ABI_OLD-}" "${ABI_NEW-}" >"$folder/answer" 2>&1 || status=$?
cat "$folder/answer"
case $status in
0) word="yes: the new build may replace the release" ;;
1) word="no: the new build breaks programs" ;;
2) word="cannot tell whether the new build breaks programs" ;;
*) word="no answer: abi-gate ended with status $status" ;;
esac
if [ "$status" -eq 0 ] && [ ! -s "$folder/certificate" ]; then
    word="no answer: abi-gate made no certificate" status=2
fi
shown=$folder/answer
if [ "$status" -eq 1 ] || [ "$status" -eq 2 ]; then
    abi-report "${options[@]}" "$ABI_OLD" "$ABI_NEW" >"$folder/report" 2>&1 || true
    [ ! -s "$folder/report" ] || shown=$folder/report
fi
# Each line is indented, so that nothing in it can end the block.
{
    printf '### abi: %s\n\n' "$word"
    head -n 400 "$shown" | cut -c 1-400 | sed 's/^/    /'
} >"$folder/comment.md"
exit "$status"

#!/usr/bin/env bash
# What versions of the tools take for a release of real packages: judges it with each version in turn, since the load of a machine differs
# from hour to hour. Prints the processor time of each run, of all its processes, and a digest of its answers (library, answer and breaks),
# and at the end the least time of each version. Ends with 1 if the answers differ, and shows where.
#
# usage: bench/release_tools.sh ABI OLD NEW TIMES WORKERS TOOLS..     (folders of packages, and folders that have abi-release)
set -eu
. "$(dirname "$0")/common.bash" "$@"
old=$2 new=$3 times=$4 workers=$5
shift 5
folder=$PWD/release-tools
mkdir -p "$folder"
rm -f "$folder"/times.*
echo "| Tools | Processor time | Time | Lines | Answers |"
echo "|---|---|---|---|---|"
first= differ=0
for _ in $(seq "$times"); do
    for tools in "$@"; do
        rm -rf "$folder/out"
        ended=0
        ABI=$abi /usr/bin/time -o took -f '%U %S %e' "$tools/abi-release" "$old" "$new" --out "$folder/out" --workers "$workers" \
            >said 2>errors || ended=$?
        [ "$ended" -le 2 ] || failed abi-release, with status "$ended"
        name=$(tr -c 'A-Za-z0-9\n' _ <<<"$tools")
        answers=$folder/answers.$name
        jq -r '.lines[] | "\(.package) \(.library) \(.answer) \(.breaks)"' "$folder/out/release.json" | sort >"$answers"
        digest=$(sha256sum <"$answers" | cut -c 1-12)
        tail -n 1 took | awk '{ print $1 + $2 }' >>"$folder/times.$name"
        echo "| $tools | $(tail -n 1 "$folder/times.$name") s | $(tail -n 1 took | cut -d ' ' -f 3) s | $(wc -l <"$answers") | $digest |"
        cmp -s "${first:=$answers}" "$answers" || differ=1
    done
done
for tools in "$@"; do
    echo "$tools: $(sort -g "$folder/times.$(tr -c 'A-Za-z0-9\n' _ <<<"$tools")" | head -n 1) s"
done
[ "$differ" = 0 ] && exit
echo "bench: the answers differ" >&2
for tools in "${@:2}"; do
    diff "$first" "$folder/answers.$(tr -c 'A-Za-z0-9\n' _ <<<"$tools")" >&2 || true
done
exit 1

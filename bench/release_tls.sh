#!/usr/bin/env bash
# What TLS costs a release: judges two releases of small packages with `tools/abi-release`, in turn with TLS between its processes, as
# always, and without, which only this script can do, and also with another version of the tools, if a folder that has its abi-release is
# given. Prints the processor time of each run, of all its processes, and the ratios of the least ones.
#
# usage: bench/release_tls.sh [ABI [PAIRS [WORKERS [TIMES [TOOLS]]]]]
#            (default: the program that `rt run` built, 30000 pairs, 4 workers, once, no other tools)
#        DISTINCT=N bench/release_tls.sh ..     (N different libraries, which repeat)
set -eu
. "$(dirname "$0")/common.bash" "$@"
pairs=${2:-30000} workers=${3:-4} times=${4:-1} tools=${5:-}
folder=$PWD/release
mkdir -p "$folder"
rm -rf "$folder/old" "$folder/new" "$folder"/out*
/usr/bin/python3 "$top/bench/made_release.py" ${DISTINCT:+--distinct "$DISTINCT"} "$folder" "$pairs"

# The same tool, with plain TCP between its processes.
cat >"$folder/plain.py" <<END
import sys
sys.dont_write_bytecode = True
sys.path.insert(0, "$top/tools")
from abi_tools.starting import start
if __name__ == "__main__":
    from abi_release import clusters
    clusters.PROTOCOL = "tcp://"
    clusters.Security.temporary = classmethod(lambda cls: cls())
    sys.exit(start("abi-release", "command", fault_status=2, package="abi_release"))
END

# judge KIND COMMAND..: does a run, and appends its processor time to the file KIND.
judge() {
    local ended=0 kind=$1 digest
    shift
    rm -rf "$folder/out"
    ABI=$abi /usr/bin/time -o took -f '%U %S' "$@" "$folder/old" "$folder/new" --out "$folder/out" --workers "$workers" >said 2>errors ||
        ended=$?
    [ "$ended" -le 1 ] || failed abi-release, with status "$ended"
    awk 'END { print $1 + $2 }' took >>"$kind"
    digest=$(sed -n 's/^.*"digest": "\([0-9a-f]\{12\}\)[0-9a-f]*"}$/\1/p' "$folder/out/release.json" | tail -n 1)
    echo "| $pairs | $kind | $(tail -n 1 "$kind") s | $digest |"
}

# ratio KIND: prints the least time with TLS by the least time of a kind.
ratio() { awk -v tls="$(sort -g tls | head -n 1)" -v other="$(sort -g "$1" | head -n 1)" 'BEGIN { printf "%.2f", tls / other }'; }

rm -f tls plain other
echo "| Pairs of packages | Tools | Processor time | Digest |"
echo "|---|---|---|---|"
for _ in $(seq "$times"); do
    [ -z "$tools" ] || judge other "$tools/abi-release"
    judge tls "$top/tools/abi-release"
    judge plain /usr/bin/python3 "$folder/plain.py"
done
echo "with TLS: $(sort -g tls | head -n 1) s, without: $(sort -g plain | head -n 1) s, ratio $(ratio plain)"
[ -z "$tools" ] || echo "other tools: $(sort -g other | head -n 1) s, ratio $(ratio other)"

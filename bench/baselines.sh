#!/usr/bin/env bash
# Prints how many bytes each given library has: stripped, with its debug information, as a baseline by `tools/abi-baseline`, and as a
# baseline compressed by xz.
#
# usage: bench/baselines.sh LIBRARY..   (libraries that contain their debug information: bench/openssl.sh builds libcrypto, and
#                                        `tools/join-debug` joins others)
set -eu
tools=$(cd "$(dirname "$0")/../tools" && pwd)
work=$(mktemp -d)
trap 'rm -rf "$work"' EXIT

# bytes FILE: prints how many bytes a file has, with digits in groups of three.
bytes() {
    stat -L -c %s "$1" | sed ':a; s/\([0-9]\)\([0-9]\{3\}\)\($\|,\)/\1,\2\3/; ta'
}

echo "| Library | Stripped | With debug information | Baseline | Baseline, \`xz -9\` |"
echo "|---|---|---|---|---|"
for library in "$@"; do
    strip -o "$work/stripped" "$library"
    "$tools/abi-baseline" "$library" "$work/baseline"
    xz -9 --keep --force "$work/baseline"
    echo "| \`$(basename "$library")\` | $(bytes "$work/stripped") | $(bytes "$library") | $(bytes "$work/baseline") | $(bytes "$work/baseline.xz") |"
done

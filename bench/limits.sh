#!/usr/bin/env bash
# Measures how much of each limit of docs/manual/LIMITS.md ordinary libraries take: the C library of the running system joined with its
# debug information, libcrypto of OpenSSL if bench/openssl.sh has built it, and generated C by gcc. Each is compared with itself, and the
# last two also with a build in which one structure is changed. If there is another C library in bench/made/check/libc_changed.so, the
# first is compared with that. Prints a table, and ends with status 1 if a library takes more than a tenth of a limit.
#
# usage: bench/limits.sh [ABI [GRAPH_LINES]]   (default: the programs that `rt run` built in crates/abi_cli/out and
#                                              crates/tool_graph_lines/out)
set -eu
. "$(dirname "$0")/common.bash"
graph_lines=$(readlink -f "${2:-$top/crates/tool_graph_lines/out/tool_graph_lines}")
mkdir -p check
cd check

/usr/bin/python3 -c 'import elftools' || { echo "bench: there is no python3-pyelftools" >&2; exit 1; }
libc=/lib/x86_64-linux-gnu/libc.so.6
[ -e libc.so ] || "$top/tools/join-debug" "$libc" libc.so || echo "the C library of the system is left out"
generate_c
for compiled in gcc.so:groups.c gcc_changed.so:changed.c; do
    built "${compiled%:*}" gcc "${compiled#*:}"
done

libraries=()
for name in libc openssl gcc; do
    [ -e $name.so ] || { echo "$name.so is left out"; continue; }
    if [ -e ${name}_changed.so ]; then libraries+=("$name.so,${name}_changed.so"); else libraries+=("$name.so"); fi
done
PYTHONPATH=$top/bench PYTHONDONTWRITEBYTECODE=1 exec /usr/bin/python3 -m limits "$abi" "$graph_lines" "${libraries[@]}"

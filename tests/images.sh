#!/usr/bin/env bash
# Checks the program on small shared objects that tests/images builds byte by byte: the answers about readable libraries, the first fault
# of damaged ones, certificates, limits, and inputs and outputs that fail. The expected answers were worked out by hand from the rules
# and the formats; another program computed the digests, from images that another program laid out.
#
#   tests/images.sh                       builds the programs of this repository
#   ABI=/path/of/abi tests/images.sh      uses another one; GRAPH_LINES does the same for tool_graph_lines
set -eu
title="images"
tools="gcc python3"
crate=abi_cli
. "$(dirname "$0")/common.bash"
program_of tool_graph_lines 1 "${GRAPH_LINES:-}"

gcc -shared -fPIC -O1 -o faulty.so "$sources/faulty.c"
python3 -B "$root/tests/images" "$program" "$found" "$PWD/faulty.so" >log 2>errors || { cat errors >&2 && fail "see above"; }
cat log
checks=$(awk '{ sum += $NF } END { print sum + 0 }' log)
[ "$checks" -ge 3095 ] || fail "only $checks checks ran"
finished

#!/usr/bin/env bash
# Checks rows of text: shared objects that a few words or bytes describe, rule files and certificates, each with what the programs must
# say of it. tests/made/tables has the rows, whose answers were worked out by hand, and tests/made writes the files.
#
#   tests/made.sh                 builds the programs of this repository
#   ABI=/path/of/abi ABI_JSON=/path/of/abi_json GRAPH_LINES=/path/of/tool_graph_lines TRIAL_LIBRARY=/path/of/tool_trial_library \
#       tests/made.sh            uses others
set -eu
title="made files"
tools="python3"
crate=abi_cli
. "$(dirname "$0")/common.bash"

program_of abi_json 64 "${ABI_JSON:-}"
documents=$found
program_of tool_graph_lines 1 "${GRAPH_LINES:-}"
graphs=$found
program_of tool_trial_library 1 "${TRIAL_LIBRARY:-}"
trials=$found
export PYTHONPATH=$root/tests PYTHONDONTWRITEBYTECODE=1
mkdir made
python3 -m made "$program" "$documents" "$graphs" "$trials" made >rows || { cat rows >&2 && fail "see above"; }
cat rows
checks=$(tail -n 1 rows)
finished

#!/usr/bin/env bash
# Checks that each relative link of a page leads to a file or a heading, that each path of this repository that a page names is there,
# that a page with many sections begins with links to all of them, and that docs/INDEX.md has what the pages and the sources have.
#
#   tests/links.sh --write    makes docs/INDEX.md
set -euo pipefail
title="links"
tools="python3"
crate=
. "$(dirname "$0")/common.bash"

PYTHONPATH=$root/tests /usr/bin/python3 -B -m links "$@" | tee log
checks=$(sed -n 's/^\([0-9]*\) links .*/\1/p' log)
finished

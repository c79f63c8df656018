#!/usr/bin/env bash
# Makes old.so and new.so beside this script. They have a soname and dynamic symbols, and no symbol versions and no debug
# information. new.so lacks a function, so `abi check old.so new.so` answers no: square_area is gone.
set -eu
cd "$(dirname "$0")"
for library in old new; do
    "${CC:-gcc}" -shared -nostdlib -fPIC -O1 -Wl,-soname,libshapes.so.1 -o "$library.so" "$library.c"
done

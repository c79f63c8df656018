#!/usr/bin/env bash
# Times `abi check` on plain libraries that gcc makes: one of 200 MB against itself, compared with sha256sum on the same two files, and
# one of 50,000 exports against itself, compared with sha256sum and readelf on the same two files, and with abidiff if it is installed.
# Prints the seconds of processor time, ratios and peak memory.
#
# usage: bench/plain.sh [ABI]   (default: the program that `rt run` built in crates/abi_cli/out)
set -eu
. "$(dirname "$0")/common.bash"

if [ ! -e large.so ]; then
    head -c 200000000 /dev/urandom > large.bin
    echo 'asm(".section .rodata\n.incbin \"large.bin\"\n"); int f(void) { return 1; }' > large.c
    gcc -shared -nostdlib -fPIC -Wl,-soname,liblarge.so.1 -o large.so large.c
    rm large.bin
fi
if [ ! -e many.so ]; then
    for i in $(seq 50000); do echo "int library_function_$i(void) { return $i; }"; done > many.c
    gcc -shared -nostdlib -fPIC -O1 -Wl,-soname,libmany.so.1 -o many.so many.c
fi

says_yes large.so large.so
says_yes many.so many.so

check=$(least 5 "$abi" check large.so large.so)
hash=$(least 5 sha256sum large.so large.so)
echo "large.so, $(stat -c %s large.so) bytes, against itself:"
echo "  abi check $check s, sha256sum of both $hash s, ratio $(ratio "$check" "$hash"), peak $(peak_memory "$abi" check large.so large.so) MB"

check=$(least 5 "$abi" check many.so many.so)
hash=$(least 5 sha256sum many.so many.so)
symbols=$(least 5 readelf --wide --dyn-syms many.so many.so)
echo "many.so, 50000 exports, $(stat -c %s many.so) bytes, against itself:"
echo "  abi check $check s, sha256sum of both $hash s, readelf --dyn-syms of both $symbols s, ratio to readelf $(ratio "$check" "$symbols"), peak $(peak_memory "$abi" check many.so many.so) MB"
if command -v abidiff > /dev/null 2>&1; then
    peer=$(least 5 abidiff many.so many.so)
    echo "  abidiff $peer s, ratio of abi check to it $(ratio "$check" "$peer")"
fi

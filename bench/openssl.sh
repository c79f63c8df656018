#!/usr/bin/env bash
# Builds libcrypto of OpenSSL with gcc and debug information, and a second time with one field of one structure changed. It takes about ten
# minutes on one processor, and 1 GB of disk. bench/libraries.py downloads the source and runs this for bench/check.sh and bench/slower.py.
#
# usage: bench/openssl.sh SOURCE.tar.gz   (`apt-get source --download-only openssl` downloads openssl_VERSION.orig.tar.gz)
set -eu
source=$(readlink -f "$1")
made=$(cd "$(dirname "$0")" && pwd)/made/check
# What an earlier run left may be of the changed header, and newer than the header that is unpacked now.
rm -rf "$made/openssl"
mkdir -p "$made/openssl"
cd "$made/openssl"
tar -xf "$source" --strip-components=1
./Configure linux-x86_64 shared no-tests no-engine -g -O2 >configured
# First the headers that the build generates: the sources that include them do not wait for them.
make -j"$(nproc)" build_generated >built
make -j"$(nproc)" libcrypto.so >built
cp libcrypto.so unchanged.so
header=include/openssl/txt_db.h
sed -i 's/^    long error;$/    int error;/' $header
grep -q '^    int error;$' $header || { echo "openssl.sh: $header has no field to change" >&2; exit 1; }
# Recompiles the sources that include the header.
grep -rl --include='*.c' 'openssl/txt_db.h' crypto | xargs touch
make -j"$(nproc)" libcrypto.so >built
mv unchanged.so "$made/openssl.so"
cp libcrypto.so changed.so
mv changed.so "$made/openssl_changed.so"

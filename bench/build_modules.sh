#!/usr/bin/env bash
# Builds projects that know nothing but what the package `abi` installs: an RPM whose spec file has %abi_baseline and %abi_check, a project
# for CMake with find_package(Abi), and one for Meson with find_program. rpmbuild, CMake and Meson must find these without a path. Each
# project keeps the interface of a release, passes with it, fails with one more member in a structure of callers, and fails if the library
# lost its debug information. Prints a line for each build, and ends with 1 if one of them is not as it should be.
#
# usage: bench/build_modules.sh FOLDER
#
# Run it in a Debian that you can throw away, such as a chroot by debootstrap, with the package abi of tools/make-packages and the packages
# gcc, rpm, cmake, meson and ninja-build installed. It needs no network.
set -eu
folder=$(realpath -m "${1:?a folder for the projects and logs}")
examples=$(cd "$(dirname "$0")/../examples" && pwd)
export LC_ALL=C
unset ABI ABI_JSON PYTHONPATH CMAKE_PREFIX_PATH
mkdir -p "$folder"
cd "$folder"
failed=0

# rpm_project: an RPM that keeps the interface if it is built with --define "keep 1", and is not built if it breaks.
rpm_project() {
    cat >stream.spec <<'END'
Name: stream
Version: 1.0
Release: 1
Summary: Small library
License: MIT
%description
A small library.
%build
gcc %{?debug}%{!?debug:-g} -O2 -fno-ipa-icf -fPIC -shared -Wl,-soname,libstream.so.1 -o libstream.so.1 %{sources}/stream.c
%check
%if 0%{?keep}
%abi_baseline libstream.so.1 %{sources}/libstream.so.1.abi
%else
%abi_check %{sources}/libstream.so.1.abi libstream.so.1
%endif
%files
END
}

# rpm_build WORD..: builds the RPM.
rpm_build() {
    rm -rf made
    rpmbuild -bb --define "_topdir $PWD/made" --define "sources $PWD" --define "debug_package %{nil}" "$@" stream.spec
}
rpm_keep() { rpm_build --define "keep 1"; }
rpm_test() { rpm_build; }
rpm_plain() { rpm_build --define "debug -g0"; }

cmake_project() { cp "$examples/cmake/CMakeLists.txt" .; }

# cmake_build WORD..: configures and builds.
cmake_build() {
    rm -rf build
    cmake -S . -B build "$@" && cmake --build build
}
cmake_keep() { cmake_build && cmake --build build --target keep-abi-stream; }
cmake_test() { cmake_build && ctest -V --test-dir build; }
cmake_plain() { cmake_build -DCMAKE_BUILD_TYPE=Release && ctest -V --test-dir build; }

meson_project() {
    cp "$examples"/meson/meson* .
    mkdir abi
}

# meson_build WORD..: configures and builds.
meson_build() {
    rm -rf build
    meson setup build "$@" && meson compile -C build
}
meson_keep() { meson_build && meson compile -C build keep-abi; }
meson_test() { meson_build && meson test -v -C build; }
meson_plain() { meson_build --buildtype=release && meson test -v -C build; }

# tried TOOL CASE STEP STATUS WORDS: runs a step of the project in the current folder. STATUS says whether it passes, and WORDS what its
# log has.
tried() {
    local status=0 result=ended
    "$1_$3" >"$folder/$1-$2.log" 2>&1 || status=1
    [ "$status" -eq "$4" ] || result="should have status $4"
    grep -q "$5" "$folder/$1-$2.log" || result="lacks the words: $5"
    [ "$result" = ended ] || failed=1
    echo "$1: $2: status $status, $result"
}

for tool in rpm cmake meson; do
    rm -rf "$folder/$tool"
    mkdir "$folder/$tool"
    cd "$folder/$tool"
    cp "$examples/stream/stream.c" .
    "${tool}_project"
    tried "$tool" keep keep 0 ''
    tried "$tool" same test 0 'yes: 2 exports compared, 2 with types'
    tried "$tool" without_g plain 1 'cannot tell: '
    sed -i 's/unsigned char \*next;/& long inserted;/' stream.c
    tried "$tool" broken test 1 'L7 stream_left param 1 / target: member left at bit'
done
exit "$failed"

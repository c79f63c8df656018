#!/usr/bin/env bash
# Tries the packages of tools/make-packages on Debian 11, 12 and 13, each in a new chroot that has nothing else: installs the .deb with
# what it recommends, unpacks the archive and the .rpm, and runs programs and tools of each: an answer of each kind, a certificate that is
# checked, packages, a report, a baseline, the library for Python, and the manual pages. Prints a line for each release, and ends with 1
# if one of them is not as it should be.
#
# usage: bench/chroots.sh FOLDER PACKAGES [RELEASE..]   (default: bullseye bookworm trixie)
#
# PACKAGES is the folder with the packages, and FOLDER gets the chroots (300 MB each) and logs. Run it as root, with the packages
# debootstrap, gcc, dpkg-dev and libarchive-tools installed. It needs the network. A chroot RELEASE in FOLDER/base is copied and not made.
set -eu
folder=$(realpath -m "${1:?a folder for the chroots}")
packages=$(realpath "${2:?the folder with the packages}")
shift 2
[ $# -gt 0 ] || set -- bullseye bookworm trixie
examples=$(cd "$(dirname "$0")/../examples" && pwd)
export LC_ALL=C DEBIAN_FRONTEND=noninteractive
[ -d "$folder/base" ] || mkdir -p "$folder/base"
mkdir -p "$folder/data"
failed=0

# libraries: makes what is judged: a library, a build of it that may replace it, one that may not, and a package of each.
libraries() {
    local name
    cp "$examples/stream/stream.c" same.c
    sed 's/stream->left;/stream->left + 0u;/' same.c >next.c
    sed 's/unsigned left;/unsigned long left;/' same.c >broken.c
    for name in same next broken; do
        gcc -g -O2 -fPIC -shared -Wl,--build-id -Wl,-soname,libstream.so.1 -o "$name.so" "$name.c"
        rm -rf tree
        mkdir -p tree/DEBIAN tree/usr/lib
        printf 'Package: libstream1\nVersion: 1\nArchitecture: amd64\nMaintainer: a <a@example.org>\nDescription: a library\n' >tree/DEBIAN/control
        cp "$name.so" tree/usr/lib/libstream.so.1
        dpkg-deb --root-owner-group -b tree "$name.deb" >/dev/null
    done
}

# What runs in the chroot, with the programs of an installation on the PATH.
trial() {
    cat <<'END'
set -eu
cd /data
wants() {
    local wanted=$1 status=0
    shift
    "$@" >out 2>err || status=$?
    [ "$status" -eq "$wanted" ] || { echo "status $status of $*:"; cat out err; exit 1; }
}
has() { grep -q -- "$1" out err || { echo "no '$1':"; cat out err; exit 1; }; }
wants 0 abi check same.so next.so
cp out cert
wants 0 abi verify same.so next.so cert
has '^accepted$'
wants 5 abi verify same.so broken.so cert
wants 1 abi check same.so broken.so
has '^L2 stream_left'
wants 1 abi-json check same.so broken.so
wants 0 abi-gate same.so next.so
has '^yes: 2 exports compared, 2 with types$'
wants 1 abi-gate same.so broken.so
wants 0 abi-packages --certificates certs same.deb -- next.deb
has '^yes libstream.so.1: '
wants 0 abi-packages --verify certs same.deb -- next.deb
wants 1 abi-packages --certificates certs same.deb -- broken.deb
has '^no libstream.so.1: 3 breaks'
wants 1 abi-report same.so broken.so
has 'struct stream'
wants 1 abi-report --format html same.so broken.so
wants 0 abi-baseline same.so same.abi
wants 0 abi-gate same.abi next.so
wants 0 join-debug same.so joined.so
# What is only suggested is named.
wants 2 abi-history --out history 1=same.so 2=next.so
has 'install the package python3-distributed'
for tool in abi-gate abi-packages abi-report abi-baseline join-debug; do wants 0 "$tool" --help; done
wants 0 /usr/bin/python3 -c 'import abi; print(len(abi.check("same.so", "broken.so").breaks))'
has '^3$'
echo 'all held'
END
}

# tried RELEASE: installs and runs everything in a new chroot.
tried() {
    local root=$folder/$1 word
    [ -d "$folder/base/$1" ] || debootstrap --variant=minbase "$1" "$folder/base/$1" >"$folder/$1.log" 2>&1
    rm -rf "$root"
    cp -a "$folder/base/$1" "$root"
    cp /etc/resolv.conf "$root/etc/resolv.conf"
    mount -t proc proc "$root/proc"
    mkdir "$root/data" "$root/packages"
    cp "$folder"/data/*.so "$folder"/data/*.deb "$root/data"
    cp "$packages"/abi[_-]* "$root/packages"
    trial >"$root/trial"
    {
        chroot "$root" apt-get update
        chroot "$root" sh -c 'apt-get install -y --no-install-suggests /packages/abi_*_amd64.deb'
        chroot "$root" sh -c 'dpkg --audit; test -z "$(dpkg --audit)"; test -s /usr/share/doc/abi/record.json'
    } >>"$folder/$1.log" 2>&1 || return 1
    chroot "$root" bash /trial >"$folder/$1.deb" 2>&1 || return 1
    # The archive and the .rpm have the same files, and need the same packages; the package of Debian makes way for them.
    chroot "$root" dpkg -r abi >>"$folder/$1.log" 2>&1 || return 1
    mkdir "$root/archive" "$root/rpm"
    tar -xJf "$packages"/abi-*-x86_64.tar.xz --strip-components=1 -C "$root/archive" || return 1
    bsdtar -xf "$packages"/abi-*.x86_64.rpm -C "$root/rpm" || return 1
    for word in archive rpm/usr; do
        chroot "$root" env PATH="/$word/bin:/usr/bin:/bin" PYTHONPATH="/$word/lib/abi/tools" bash /trial >"$folder/$1.${word%/usr}" 2>&1 || return 1
    done
}

(cd "$folder/data" && libraries)
for release in "$@"; do
    if tried "$release"; then
        echo "$release: .deb, archive and .rpm: all held; $(chroot "$folder/$release" /usr/bin/python3 --version)"
    else
        echo "$release: failed; see $folder/$release.*"
        failed=1
    fi
    umount "$folder/$release/proc" 2>/dev/null || true
done
exit "$failed"

#!/usr/bin/env bash
# Builds real source packages of Debian in their own form, with dh_abi as the only change: a first build (no baseline yet), the same again
# (yes), one whose public structure has one more member (no), one without -g (cannot tell), one with another soname, and one with
# DEB_BUILD_OPTIONS=nocheck (not compared). abi-packages then checks the certificate that the package of the second build ships. Last, the
# recipe of docs/GUIDE.md stands in debian/rules in place of dh_abi: yes, and no. Prints a line for each build, and ends with 1 if one of
# them is not as it should be.
#
# usage: bench/debian_builds.sh FOLDER [SOURCE..]   (default: zlib popt lz4)
#
# Run it as root in a Debian 12 that you can throw away, such as a chroot by debootstrap, with the packages abi and dh-abi of
# tools/make-packages, build-essential and debhelper installed, and with a line deb-src in the sources of apt. It needs the network.
set -eu
folder=${1:?a folder for the sources and logs}
shift
[ $# -gt 0 ] || set -- zlib popt lz4
export DEBIAN_FRONTEND=noninteractive LC_ALL=C
mkdir -p "$folder"
cd "$folder"
failed=0
# Without the 32-bit libraries of zlib the chroot needs no second compiler.
profiles=()

# prepared SOURCE: adds dh_abi to the unpacked source in the current folder.
prepared() {
    case $1 in
    zlib)
        # Its rules call the tools of debhelper one by one.
        sed -i '0,/^Build-Depends: /s//&dh-abi, /' debian/control
        sed -i 's/^\tdh_strip/\tdh_abi -a\n&/' debian/rules
        ;;
    lz4)
        # Its rules ask dpkg-buildflags by $(shell ..), which does not get what make exports: DEB_CFLAGS_MAINT_APPEND has no effect there.
        sed -i '0,/^Build-Depends: /s//&dh-sequence-abi, /' debian/control
        sed -i 's/^export CFLAGS$/CFLAGS += -fno-ipa-icf\n&/' debian/rules
        # Its own tests take long.
        sed -i 's/^\tmake test/\ttrue/' debian/rules
        ;;
    *)
        sed -i '0,/^Build-Depends: /s//&dh-sequence-abi, /' debian/control
        sed -i '1a export DEB_CFLAGS_MAINT_APPEND = -fno-ipa-icf' debian/rules
        ;;
    esac
}

# by_hand SOURCE: adds the recipe of docs/GUIDE.md to the rules of the unpacked source in the current folder.
by_hand() {
    local soname built installed
    case $1 in
    zlib) soname=libz.so.1 built=$soname installed=zlib1g/lib ;;
    popt) soname=libpopt.so.0 built=src/.libs/$soname installed=libpopt0/usr/lib ;;
    lz4) soname=liblz4.so.1 built=lib/$soname installed=liblz4-1/usr/lib ;;
    esac
    installed="debian/$installed/\$(DEB_HOST_MULTIARCH)/$soname"
    sed -i '1a include /usr/share/dpkg/architecture.mk\nexport DEB_CFLAGS_MAINT_APPEND = -fno-ipa-icf' debian/rules
    case $1 in
    zlib) sed -i "s|^\tdh_strip|\tabi-gate debian/abi/$soname.abi $installed\n&|" debian/rules ;;
    lz4) sed -i -e 's/^export CFLAGS$/CFLAGS += -fno-ipa-icf\n&/' -e 's/^\tmake test/\ttrue/' debian/rules ;;
    esac
    {
        [ "$1" = zlib ] || printf '\nexecute_after_dh_install:\n\tabi-gate debian/abi/%s.abi %s\n\n.PHONY: build\nbuild:\n\tdh build\n' "$soname" "$installed"
        printf '\n.PHONY: keep-abi\nkeep-abi: build\n\tmkdir -p debian/abi\n\tabi-baseline %s debian/abi/%s.abi\n' "$built" "$soname"
    } >>debian/rules
}

# broken SOURCE: inserts a member in a structure that callers allocate.
broken() {
    case $1 in
    zlib) sed -i 's/^typedef struct z_stream_s {/&\n    long inserted;/' zlib.h ;;
    popt) sed -i '/argDescrip;/s/$/ long inserted;/' src/popt.h ;;
    lz4) sed -i 's/^  LZ4F_frameInfo_t frameInfo;/  long inserted;\n&/' lib/lz4frame.h ;;
    esac
}

# recipe_broken SOURCE: the same break, with the recipe.
recipe_broken() {
    broken "$1"
}

# renamed SOURCE: gives the library another soname.
renamed() {
    case $1 in
    zlib) sed -i 's/-soname,libz\.so\.1/-soname,libz.so.2/' configure ;;
    popt) sed -i 's/-version-info 0:2:0/-version-info 7:0:0/' src/Makefile.am ;;
    lz4) sed -i 's/-soname=liblz4[^ ]*/-soname=liblz4.so.2/' lib/Makefile ;;
    esac
}

# nocheck SOURCE: the same break, for a build that compares nothing.
nocheck() {
    broken "$1"
}

# build SOURCE CASE WANTED WORDS: builds a copy of the prepared tree after a change (the function CASE, if there is one). WANTED says
# whether the build passes, and WORDS (an extended regular expression) what its log has.
build() {
    local status=0 result=ended
    rm -rf "build/$2"
    mkdir -p build
    cp -a "$1-tree" "build/$2"
    (
        cd "build/$2"
        ! declare -F "$2" >/dev/null || "$2" "$1"
        dpkg-buildpackage -us -uc -b "${profiles[@]}"
    ) >"$1-$2.log" 2>&1 || status=1
    grep -qE "$4" "$1-$2.log" || result="lacks the words"
    case $3:$status in
    passes:0 | fails:1) ;;
    *) result="should be one that $3" ;;
    esac
    [ "$result" = ended ] || failed=1
    echo "$1: $2: status $status, $result: $(grep -E "$4" "$1-$2.log" | head -n 1)"
}

# checked SOURCE FOLDER: checks the certificates of the packages in FOLDER, which is both the old and the new release.
checked() {
    local unpacked=$2/unpacked result="not accepted" packages
    packages=("$2"/*.deb)
    for package in "${packages[@]}"; do dpkg-deb -x "$package" "$unpacked"; done
    for folder in "$unpacked"/usr/share/doc/*; do
        [ -n "$(find "$folder/" -name '*.cert*')" ] || continue
        abi-packages --verify "$folder" "${packages[@]}" -- "${packages[@]}" >"$1-checked.log" || true
        result=$(grep -o '^yes .*accepted certificate' "$1-checked.log" | head -n 1) || result="not accepted"
    done
    [ "$result" != "not accepted" ] || failed=1
    echo "$1: certificate: $result"
}

for source in "$@"; do
    rm -rf "$source-tree" build
    profiles=()
    [ "$source" != zlib ] || profiles=(-Pnobiarch)
    apt-get source -q --download-only "$source" >"$source.fetched"
    apt-get build-dep -o DPkg::Lock::Timeout=600 -y -q --no-install-recommends -P nobiarch "$source" >>"$source.fetched"
    dpkg-source -x "$source"_*.dsc "$source-tree" >>"$source.fetched"
    (cd "$source-tree" && prepared "$source")
    build "$source" first fails 'cannot tell: there is no baseline debian/abi/.*\.abi'
    (cd build/first && dh_abi --update)
    cp -a build/first/debian/abi "$source-tree/debian/abi"
    echo "$source: baselines: $(cd "$source-tree/debian/abi" && ls | paste -s -d ' ')"
    build "$source" same passes '^yes: [0-9]+ exports compared'
    rm -rf packages && mkdir packages && mv build/*.deb packages && checked "$source" packages
    build "$source" broken fails 'dh_abi: warning: no: .* may not replace the released one; the report is '
    DEB_CFLAGS_STRIP=-g build "$source" without_g fails 'dh_abi: warning: cannot tell whether .* may replace the released one; the report is '
    build "$source" renamed fails 'cannot tell: there is no baseline debian/abi/.*\.abi'
    DEB_BUILD_OPTIONS=nocheck build "$source" nocheck passes 'dpkg-deb: building package'
    rm -rf "$source-tree" build
    dpkg-source -x "$source"_*.dsc "$source-tree" >>"$source.fetched"
    mkdir build
    (cd "$source-tree" && by_hand "$source")
    (cp -a "$source-tree" build/kept && cd build/kept && DEB_BUILD_PROFILES=${profiles[0]:+nobiarch} debian/rules keep-abi) >"$source-keep.log" 2>&1
    cp -a build/kept/debian/abi "$source-tree/debian/abi"
    build "$source" recipe passes '^yes: [0-9]+ exports compared'
    build "$source" recipe_broken fails '^abi-gate: .* may not replace '
done
exit "$failed"

#!/usr/bin/env bash
# Puts ten versions of a library into a history (tools/abi-history), holds each of its cells against `abi check` on the two files, and each
# certificate against `abi verify`. The versions are those of the source package that apt has, built with gcc -g, and then the newest of
# them with one edit more each. Prints the answers as a table, what the history took, and how many cells differ; ends with 1 if one does.
#
# usage: bench/history.sh [ABI [zlib|libxml2]..]     (default: the program that `rt run` built, and both)
#
# It needs lines deb-src in the sources of apt, dpkg-dev, make and, for libxml2, autoconf and libtool. Versions that are built already, in
# bench/made/history, are used again.
set -eu
. "$(dirname "$0")/common.bash" "$@"
names=("${@:2}")
[ ${#names[@]} -gt 0 ] || names=(zlib libxml2)
mkdir -p "$PWD/history"

# sources NAME: gets the versions of a source package that apt has, and prints their folders, the newest first. Of versions that differ in
# Debian's part alone it takes the newest that the archive still has.
sources() {
    local version upstream taken=" "
    for version in $(apt-cache showsrc "$1" | sed -n "/^Package: $1\$/,/^\$/s/^Version: //p" | sort -u -V -r); do
        upstream=${version#*:} upstream=${upstream%-*}
        [[ $taken != *" $upstream "* ]] || continue
        got "$1" "$version" || { echo "bench: the archive lacks $1 $version" >&2; continue; }
        taken+="$upstream "
        echo "source-${version#*:}"
    done
}

# got NAME VERSION: gets the source of a version, and unpacks it, unless it is there. Names of files lack the epoch.
got() {
    local folder=source-${2#*:}
    [ -d "$folder" ] && return
    apt-get source --quiet --quiet --only-source --download-only "$1=$2" >log 2>&1 &&
        dpkg-source --no-check --extract "$1_${2#*:}.dsc" "$folder" >log 2>&1
}

# built_zlib FOLDER FILE, built_libxml2 FOLDER FILE: builds the library of a source folder.
built_zlib() {
    # Newer linkers refuse version scripts that name what is not there, and older ones have no option for it.
    local option
    for option in "" -Wl,--undefined-version; do
        (cd "$1" && gcc -g -O1 -fPIC -shared -w -DHAVE_UNISTD_H -DHAVE_STDARG_H -D_LARGEFILE64_SOURCE=1 -Wl,-soname,libz.so.1 \
            -Wl,--version-script,zlib.map $option ./*.c -o "$2") && return
    done
    return 1
}
built_libxml2() {
    # Patches have made the files that autotools wrote look old.
    (cd "$1" && { [ -x configure ] || autoreconf --force --install; } && {
        [ -e Makefile ] ||
            ./configure --disable-static --without-python --without-lzma --without-zlib --without-icu CFLAGS='-g -O0 -w'
    } && make libxml2.la ACLOCAL=: AUTOCONF=: AUTOHEADER=: AUTOMAKE=: && cp .libs/libxml2.so "$2")
}

# edit_zlib FOLDER NUMBER, edit_libxml2 FOLDER NUMBER: makes one edit more: an export comes, it takes another type, a structure of callers
# gets a member, both edits of types are undone, the export goes, and comes again.
edit_zlib() { edit "$1" "$2" zlib.h 's/^typedef struct z_stream_s {/&\n    long inserted;/' zutil.c; }
edit_libxml2() { edit "$1" "$2" include/libxml/tree.h 's/^struct _xmlEnumeration {/&\n    long inserted;/' chvalid.c; }
edit() {
    local added='__attribute__((visibility("default"))) int added_by_an_edit(int n) { return n; }'
    case $2 in
    1) echo "$added" >>"$1/$5" ;;
    2) sed -i 's/int added_by_an_edit(int/int added_by_an_edit(long/' "$1/$5" ;;
    3) sed -i "$4" "$1/$3" && grep -q 'long inserted;' "$1/$3" ;;
    4) sed -i 's/int added_by_an_edit(long/int added_by_an_edit(int/' "$1/$5" && sed -i '/^    long inserted;$/d' "$1/$3" ;;
    5) sed -i '/added_by_an_edit/d' "$1/$5" ;;
    *) echo "${added//added_by_an_edit/added_by_edit_$2}" >>"$1/$5" ;;
    esac
    # make need not know which objects a header is in.
    [ "$2" -gt 4 ] || find "$1" -name '*.lo' -delete
}

# versions NAME: builds ten versions, and writes their names and files into the file `versions`.
versions() {
    local folder number=0 last edits=0 all
    sources "$1" | tac >folders
    mapfile -t all <folders
    [ ${#all[@]} -gt 0 ] || { echo "bench: apt has no source of $1" >&2; exit 1; }
    rm -rf edited
    : >versions
    for folder in "${all[@]:0:10}"; do
        put "$1" "$folder" "${folder#source-}"
        last=$folder
        number=$((number + 1))
    done
    while [ "$number" -lt 10 ]; do
        edits=$((edits + 1)) number=$((number + 1))
        [ -d edited ] || cp -a "$last" edited
        "edit_$1" edited "$edits" || { echo "bench: edit $edits of $1 changed nothing" >&2; exit 1; }
        put "$1" edited "${last#source-}+edit$edits"
    done
}

# put NAME FOLDER VERSION: builds a version, if it is not there yet, and names it.
put() {
    [ -e "$PWD/$3.so" ] || "built_$1" "$2" "$PWD/$3.so" >log 2>&1 || { tail -n 5 log >&2; echo "bench: $1 $3 cannot be built" >&2; exit 1; }
    echo "$3=$PWD/$3.so" >>versions
}

# compare NAME: makes the history, and holds each cell against `abi check`.
compare() {
    local ended=0
    ABI=$abi /usr/bin/time -o took -f '%U %S %e' "$top/tools/abi-history" --out out $(cat versions) >said 2>errors || ended=$?
    [ "$ended" -le 1 ] || failed abi-history, with status "$ended"
    /usr/bin/python3 - "$abi" "$1" "$ended" <<'END_OF_PYTHON'
import json, subprocess, sys
from pathlib import Path
abi, name, ended = sys.argv[1:]
files = [line.split("=", 1) for line in Path("versions").read_text().split()]
pairs = json.loads(Path("out/history.json").read_text())["pairs"]
words, wrong, cells = {0: "yes", 1: "no"}, 0, {}
for pair in pairs:
    old, new = (files[pair[side]][1] for side in ("old", "new"))
    checked = subprocess.run([abi, "check", old, new], capture_output=True, text=True)
    said, kept = words.get(checked.returncode, f"status {checked.returncode}"), Path("out", pair.get("file", "-"))
    if said == "yes":
        verified = subprocess.run([abi, "verify", old, new, kept], capture_output=True, text=True)
        same = (verified.returncode, verified.stdout) == (0, "accepted\n")
    else:
        same = said == "no" and kept.read_text() == checked.stdout
    wrong += not (same and said == pair["answer"])
    cells[pair["old"], pair["new"]] = f"{pair['answer']}{'*' if pair['composed'] else ''}"
print(f"| {name} | {' | '.join(one for one, _ in files[1:])} |\n|---|{'---|' * (len(files) - 1)}")
for number, (one, _) in enumerate(files[:-1]):
    print(f"| {one} | {' | '.join(cells.get((number, new), '') for new in range(1, len(files)))} |")
user, system, wall = Path("took").read_text().split()[-3:]
steps = [pair for pair in pairs if pair["new"] == pair["old"] + 1]
wrong += int(ended) != int(any(step["answer"] == "no" for step in steps))
print(f"{name}: {len(files)} versions, {len(pairs)} pairs, {sum(pair['composed'] for pair in pairs)} composed; "
      f"{float(user) + float(system):.1f} s of processor time, {wall} s by the clock; {wrong} cells differ from abi check")
sys.exit(1 if wrong else 0)
END_OF_PYTHON
}

status=0
for name in "${names[@]}"; do
    mkdir -p "$top/bench/made/history/$name"
    cd "$top/bench/made/history/$name"
    versions "$name"
    compare "$name" || status=1
done
exit $status

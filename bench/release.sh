#!/usr/bin/env bash
# Makes two releases of small packages and judges them with `tools/abi-release`: for each set its number of pairs of packages, with each
# number of workers and no earlier results, and with the last number of workers again when all is done. Prints a line for each run: pairs,
# workers, seconds, pairs a second, pairs judged, the peak memory of the process with the scheduler, how much more memory that is for each
# pair than in a run of five pairs, and the digest of the table. All runs of a set must have the same digest, or the script fails. Then it
# prints how large the page is and how long it takes to write. If Chromium is installed, it opens the page of the last run (bench/page.py)
# and puts pictures into bench/made/release/pictures.
#
# usage: bench/release.sh [ABI [PAIRS:WORKERS[,WORKERS]..]..]
#            (default: the program that `rt run` built, and the sets 3000:1,2,4 and 30000:1,2,4)
#        DISTINCT=N bench/release.sh ..
#
# 30,000 pairs take 2 GB of disk: half of it or more for the packages, and the rest for the results of one run.
set -eu
. "$(dirname "$0")/common.bash" "$@"
sets=("${@:2}")
[ ${#sets[@]} -gt 0 ] || sets=(3000:1,2,4 30000:1,2,4)
folder=$PWD/release
mkdir -p "$folder"

# make PAIRS: makes the two releases.
make() {
    rm -rf "$folder/old" "$folder/new" "$folder"/out*
    /usr/bin/python3 "$top/bench/made_release.py" ${DISTINCT:+--distinct "$DISTINCT"} "$folder" "$1"
}

# judge OUT WORKERS: does a run, with its output in the files `said` and `errors`.
judge() {
    local ended=0
    ABI=$abi "$top/tools/abi-release" "$folder/old" "$folder/new" --out "$1" --workers "$2" >said 2>errors || ended=$?
    [ "$ended" -le 1 ] || failed abi-release, with status "$ended"
}

# line OUT WORKERS LEAST: prints the line of a run; LEAST is the megabytes of a run of five pairs. The digest must be that of the set's
# first run.
line() {
    local found
    found=$(sed -n 's/^.*"digest": "\([0-9a-f]\{64\}\)"}$/\1/p' "$1/release.json" | tail -n 1)
    [ -n "$found" ] && [ "${digest:=$found}" = "$found" ] || { echo "bench: the table of $1 has the digest $found, not $digest" >&2; exit 1; }
    /usr/bin/python3 - "$1/release.json" "$2" "$3" <<'END'
import json, re, sys
said = re.search(r"(\d+) packages in ([\d.]+) seconds: (\d+) pairs of libraries judged, .* took (\d+) MB", open("errors").read())
table = json.load(open(sys.argv[1]))
packages, seconds, megabytes = int(said[1]), float(said[2]), int(said[4])
more = 1024 * (megabytes - int(sys.argv[3])) / packages
print(f"| {packages:,} | {sys.argv[2]} | {seconds:.1f} s | {packages / seconds:.1f} | {int(said[3]):,} | {megabytes} MB | {more:.1f} KB | "
      f"{table['digest'][:12]} |", flush=True)
END
}

# page OUT: prints how large the page of a run is, and how long it takes to read the results and to write the page.
page() {
    PYTHONPATH=$top/tools /usr/bin/python3 -B - "$folder" "$1" <<'END'
import json, os, sys, time
from pathlib import Path
from abi_release.pages import write_page
from abi_release.sources import Release, works
from abi_release.stored_files import Store, record_name
from abi_release.tables import Table
folder, out = map(Path, sys.argv[1:])
class Ran:
    """A run that is over, of which the folder has all records."""
    store, failures, troubles = Store(out), {}, {}
    def record(self, name):
        return self.store.json(record_name(name))
start = time.process_time()
table = Table(works(*(Release.of(folder / side) for side in ("old", "new"))), [], Ran())
read = time.process_time()
head = {key: value for key, value in json.loads((out / "release.json").read_text()).items() if key not in ("lines", "counts", "digest")}
with open(os.devnull, "w", encoding="utf-8") as stream:
    write_page(table, head, stream)
print(f"The page has {(out / 'index.html').stat().st_size / 1e6:.1f} MB: {read - start:.1f} s of processor time to read the results, and "
      f"{time.process_time() - read:.1f} s to write it", flush=True)
END
}

make 5
judge "$folder/out" 4
least=$(sed -n 's/.* took \([0-9]*\) MB$/\1/p' errors)
echo "Five pairs on four workers: $least MB"
echo "| Pairs of packages | Workers | Time | Pairs a second | Judged | Memory | more, for a pair | Digest |"
echo "|---|---|---|---|---|---|---|---|"
for set in "${sets[@]}"; do
    make "${set%%:*}"
    digest=
    for number in $(tr , ' ' <<<"${set#*:}"); do
        # Saves disk space: the results of earlier runs are not needed.
        rm -rf "$folder"/out*
        judge "$folder/out$number" "$number"
        line "$folder/out$number" "$number" "$least"
    done
    judge "$folder/out$number" "$number"
    line "$folder/out$number" "$number" "$least"
    page "$folder/out$number"
done
! command -v chromium >/dev/null || /usr/bin/python3 "$top/bench/page.py" "$folder/out$number/index.html" "$folder/pictures"

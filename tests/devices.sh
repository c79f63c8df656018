#!/usr/bin/env bash
# Checks the program when files and devices fail: a call to read or write that fails, is interrupted or transfers few bytes; a file that
# shrinks while it is read; folders, pipes, sockets and devices as inputs; files above the limit; and output to a full device, a closed
# standard output or a broken pipe. A failure must give status 3 or 6 with its text, and never a signal.
#
#   tests/devices.sh                    builds the program of this repository
#   ABI=/path/of/abi tests/devices.sh   uses another one
set -eu
title="devices"
tools="gcc awk python3"
crate=abi_cli
. "$(dirname "$0")/common.bash"

gcc -shared -fPIC -O1 -o faulty.so "$sources/faulty.c"

# with SETTINGS ARGUMENT..: runs the program, given the arguments, with faulty.so, which makes calls fail as the settings say. Sets
# `ended` to its status; its output goes to the files `got` and `errors`.
with() {
    local settings=$1
    shift
    ended=0
    # Unquoted on purpose: each setting is a word.
    env LD_PRELOAD="$PWD/faulty.so" $settings "$program" "$@" >got 2>errors || ended=$?
}

# gives NAME STATUS TEXT: the last run must have ended with the status and printed the text. With the statuses 2, 3 and 6, standard
# error must have exactly one sentence.
gives() {
    [ "$ended" -eq "$2" ] || fail "$1: status $ended, not $2: $(head -n 1 errors)"
    printf '%b' "$3" >want
    same "$1"
    case $2 in
    [236]) [ "$(grep -c '^abi: ' errors)" -eq 1 ] && [ "$(wc -l <errors)" -eq 1 ] || fail "$1: it says: $(cat errors)" ;;
    esac
}

# run ARGUMENT..: runs the program, given the arguments, without failing calls.
run() {
    ended=0
    "$program" "$@" >got 2>errors || ended=$?
}

echo 'struct point { int x, y; }; int f(struct point *p) { return p->x; }' >f.c
gcc -shared -fPIC -g -o old.so f.c
sed 's/int x/long x/' f.c >g.c
gcc -shared -fPIC -g -o new.so g.c
printf '[suppress_type]\nname = other\n' >rules
"$program" check --rules rules old.so old.so >certificate
"$program" check --rules rules old.so old.so >yes
"$program" check old.so new.so >no || true
[ "$(head -n 1 no)" = no ] || fail "the two libraries do not differ"

# ---- calls that read

# reads_fail WORDS ARGUMENT..: makes each call to read fail in turn; the words name the inputs in the order in which they are read.
reads_fail() {
    local which calls call at=0 names=$1 status
    shift
    with COUNTS=counts "$@"
    calls=$(cut -d ' ' -f 1 counts) status=$ended
    cp got whole
    for which in $names; do
        # Reading an input takes two calls: one for its bytes, and one for the end.
        for call in $((at + 1)) $((at + 2)); do
            with "READ_FAILS=$call" "$@"
            gives "read $call of $* fails" 3 "read fault $which\n"
        done
        at=$call
    done
    # The rule file is read again for a note. If that fails, the answer stays the same.
    for call in $(seq $((at + 1)) "$calls"); do
        with "READ_FAILS=$call" "$@"
        [ "$ended" -eq "$status" ] && cmp -s got whole || fail "read $call of $* fails: the answer is another one"
    done
    passed "each of $calls calls to read fails: $names"
}
reads_fail library exports old.so
reads_fail library entries old.so
reads_fail "old new" check old.so new.so
reads_fail "old new rules" check --rules rules old.so new.so
reads_fail "old new rules certificate" verify --rules rules old.so old.so certificate

for settings in READ_MOST=1 READ_MOST=7 INTERRUPTED=1 "INTERRUPTED=1 READ_MOST=4095"; do
    with "$settings" check --rules rules old.so old.so
    gives "reading with $settings" 0 "$(sed 's/$/\\n/' yes | tr -d '\n')"
    passed "the answer with $settings"
done

# If the first call returns a part of a file and the next one no bytes, the input is the part that was read.
head -c -1 old.so >cut.so
cp old.so shrinking.so
with "SHRINKS=shrinking.so READ_MOST=1000" exports shrinking.so
gives "a file that shrinks" 2 'unreadable library 8 SectionTable 40\n'
cp old.so shrinking.so
with "SHRINKS=shrinking.so READ_MOST=40" check shrinking.so new.so
gives "a file that shrinks into its header" 2 'unreadable old 1 ShortFile 40\n'
passed "a file that shrinks while it is read"

# ---- inputs that are no files

mkdir folder
mkfifo pipe
python3 -c 'import socket; socket.socket(socket.AF_UNIX).bind("socket")'
for name in folder socket missing.so /proc/self/mem "" old.so/inside; do
    run exports "$name"
    gives "exports of '$name'" 3 'read fault library\n'
    run check old.so "$name"
    gives "check of '$name' as new" 3 'read fault new\n'
    run check --rules "$name" old.so old.so
    gives "check with '$name' as rules" 3 'read fault rules\n'
    run verify old.so old.so "$name"
    gives "verify of '$name'" 3 'read fault certificate\n'
    passed "what cannot be read: '$name'"
done

# from_pipe NAME STATUS TEXT BYTES: the program reads from a pipe that closes after the first BYTES bytes of a library.
from_pipe() {
    head -c "$4" old.so >pipe &
    run check pipe new.so
    wait
    gives "$1" "$2" "$3"
    passed "$1"
}
from_pipe "a pipe that closes at once" 2 'unreadable old 1 ShortFile 0\n' 0
from_pipe "a pipe that closes inside the header" 2 'unreadable old 1 ShortFile 63\n' 63
from_pipe "a pipe that closes inside the file" 2 'unreadable old 8 SectionTable 40\n' 5000
from_pipe "a pipe that gives the whole file" 1 "$(sed 's/\\/\\\\/g; s/$/\\n/' no | tr -d '\n')" 1000000
# The notes, too, come from the bytes that were read: a pipe gives them once.
ABI_NOTES=1 "$program" check old.so new.so >/dev/null 2>notes || true
cat old.so >pipe &
ABI_NOTES=1 timeout 60 "$program" check pipe new.so >/dev/null 2>notes_of_pipe || true
wait
[ -s notes ] && sed 's/pipe/old.so/' notes_of_pipe | cmp -s - notes || fail "the notes on a pipe are not those on the file"
passed "the notes on a pipe are those on the file"
run exports /dev/null
gives "an empty device" 2 'unreadable library 1 ShortFile 0\n'
passed "an empty device"

# ---- inputs above 256 MiB

truncate -s 268435456 most.so
truncate -s 268435457 more.so
truncate -s 1T sparse.so
run exports most.so
gives "a file of 256 MiB" 2 'unreadable library 2 NotElf 0\n'
for name in more.so sparse.so /dev/zero; do
    run check cut.so "$name"
    gives "$name as new" 2 'unreadable new 40 TooLong 268435456\n'
    passed "longer than 256 MiB: $name"
done
run check --rules more.so old.so new.so
gives "a long rule file" 2 'unreadable rules 40 TooLong 268435456\n'
run verify old.so old.so more.so
gives "a long certificate" 2 'unreadable certificate 40 TooLong 268435456\n'
passed "a long rule file and a long certificate"
rm most.so more.so sparse.so

# ---- calls that write

# writes_fail STATUS TEXT ARGUMENT..: the device takes one byte at a time, and fails at each byte of the text in turn. The output must
# be the text up to that byte.
writes_fail() {
    local status=$1 text=$2 size call
    shift 2
    size=$(wc -c <"$text")
    for call in $(seq "$size"); do
        with "WRITE_MOST=1 WRITE_FAILS=$call" "$@"
        [ "$ended" -eq 6 ] || fail "write $call of $* fails: status $ended, not 6"
        head -c $((call - 1)) "$text" | cmp -s - got || fail "write $call of $* fails: another text"
        grep -qx 'abi: writing failed' errors || fail "write $call of $* fails: it says: $(cat errors)"
    done
    with "WRITE_MOST=1 WRITE_FAILS=$((size + 1)) INTERRUPTED=1" "$@"
    [ "$ended" -eq "$status" ] && cmp -s "$text" got || fail "$*: another answer a byte at a time"
    passed "each of $size bytes fails: $1"
}
"$program" exports old.so >exported
writes_fail 0 exported exports old.so
writes_fail 1 no check old.so new.so

# to_device NAME DEVICE: all answers that are written to the device must fail with status 6.
to_device() {
    local arguments
    for arguments in "exports old.so" "check old.so old.so" "check old.so new.so" "exports f.c" "exports missing.so" --help ""; do
        ended=0
        # Unquoted on purpose: each argument is a word.
        "$program" $arguments >"$2" 2>errors || ended=$?
        [ "$ended" -eq 6 ] || fail "$arguments to $1: status $ended, not 6"
        grep -qx 'abi: writing failed' errors || fail "$arguments to $1: it says: $(cat errors)"
    done
    passed "status 6: $1"
}
to_device "a full device" /dev/full

# With standard output closed, the first file that is opened gets its number, and must only be read.
cp old.so whole.so
ended=0
"$program" check old.so new.so >&- 2>errors || ended=$?
[ "$ended" -eq 6 ] && grep -qx 'abi: writing failed' errors || fail "standard output is closed: status $ended: $(cat errors)"
cmp -s old.so whole.so || fail "a library was written to"
passed "standard output is closed"
ended=0
"$program" exports missing.so >got 2>&- || ended=$?
[ "$ended" -eq 3 ] || fail "standard error is closed: status $ended, not 3"
ended=0
"$program" check old.so new.so >&- 2>&- <&- || ended=$?
[ "$ended" -eq 6 ] || fail "all is closed: status $ended, not 6"
passed "standard error, and all, is closed"

# broken.py BYTES COMMAND..: the reader of a pipe reads BYTES bytes and closes it; the command must end with status 6, not by a signal.
cat >broken.py <<'END'
import os, subprocess, sys
taken, words = int(sys.argv[1]), sys.argv[2:]
reader, writer = os.pipe()
process = subprocess.Popen(words, stdout=writer, stderr=subprocess.PIPE)
os.close(writer)
while taken > 0:
    taken -= len(os.read(reader, taken))
os.close(reader)
errors = process.communicate()[1]
sys.exit(0 if (process.returncode, errors) == (6, b"") else f"status {process.returncode}, {errors!r}")
END
awk 'BEGIN { for (i = 0; i < 5000; i++) print "int exported_function_" i "(void) { return 0; }" }' >many.c
gcc -shared -nostdlib -fPIC -o many.so many.c
python3 broken.py 1 "$program" exports many.so || fail "a pipe that breaks after one byte"
python3 broken.py 70000 "$program" exports many.so || fail "a pipe that breaks within the text"
passed "a broken pipe is status 6, without a word and no signal"

finished

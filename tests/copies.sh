#!/bin/sh
# The word copy of the built program: the copy has the bytes of the file, of either version and of every order; a file that
# isn't whole and a path that isn't free are refused, with what stands in the way; and a copy that is stopped, or one of whose
# calls fails, leaves no file, or none that an opening takes, or the whole copy.
set -eu
cd "$(dirname "$0")/.."
here=$PWD
program=$(realpath "${1:-crates/recfile_program/out/recfile_program}")
room=$(mktemp -d -p /dev/shm 2> /dev/null || mktemp -d)
trap 'umount "$room/small" 2> /dev/null || true; rm -rf "$room"' EXIT
cc -O2 -shared -fPIC -o "$room/crash.so" tests/crash.c
cc -O2 -shared -fPIC -o "$room/refuse.so" tests/refuse.c
cd "$room"
runs=0

fail() {
    echo "copies: FAILED: $row: $*"
    ls -l
    cat out err
    exit 1
}

copy() { # FILE TO: its status, and what it tells
    runs=$((runs + 1))
    status=0
    "$program" copy "$@" > out 2> err || status=$?
}

refused() { # FILE TO FAULT LINE: nothing is made, and this is told
    before=$(cksum "$1" 2> /dev/null || true)
    copy "$1" "$2"
    [ $status = 1 ] && [ ! -s out ] || fail "status $status"
    [ "$(head -n 1 err)" = "recfile: $3" ] || fail "another fault"
    [ -z "$4" ] || grep -qxF "$4" err || fail "that isn't told: $4"
    [ "$(cksum "$1" 2> /dev/null || true)" = "$before" ] || fail "the file is another"
}

no_copy() { # TO: nothing stands there
    [ ! -e "$1" ] && [ ! -e "$1-journal" ] && [ ! -e "$1-journal-new" ] || fail "something stands at $1"
}

fill() { # FILE: records of many bytes
    awk 'BEGIN { print "begin"; for (i = 0; i < 400; i++) printf "put 1 k%03d =record%%00%d\n", i, i
        for (i = 0; i < 400; i += 3) printf "del 1 k%03d\n", i; print "commit 1" }' | "$program" run "$1" > replies
}

row="the same bytes"
for order in 1 2 7 16; do
    "$program" create --order $order a.rec
    copy a.rec empty.rec
    [ $status = 0 ] && [ ! -s out ] && [ ! -s err ] || fail "status $status"
    cmp a.rec empty.rec || fail "an empty file of order $order"
    fill a.rec
    cp a.rec before.rec
    copy a.rec b.rec
    [ $status = 0 ] && [ ! -s out ] && [ ! -s err ] || fail "status $status"
    cmp a.rec before.rec && cmp a.rec b.rec || fail "order $order"
    "$program" check b.rec > out 2> err || fail "the copy isn't whole"
    printf 'begin\nput 1 new =x\ncommit 1\n' | "$program" run --strict b.rec > out 2> err || fail "no session takes the copy"
    rm -f a.rec b.rec empty.rec
done

row="a file of the first version stays one"
"$program" create --order 1 a.rec
printf '\001' | dd of=a.rec bs=1 seek=9 conv=notrunc status=none
copy a.rec b.rec
[ $status = 0 ] && cmp a.rec b.rec || fail "status $status"
rm b.rec

row="two readers at once"
fill a.rec
if command -v flock > /dev/null; then
    runs=$((runs + 1))
    flock --shared a.rec "$program" copy a.rec b.rec > out 2> err || fail "a reader is in the way"
    cmp a.rec b.rec || fail "another copy"
    rm b.rec
    runs=$((runs + 1))
    status=0
    flock a.rec "$program" copy a.rec b.rec > out 2> err || status=$?
    [ $status = 1 ] && [ "$(head -n 1 err)" = "recfile: Device" ] || fail "a file that is written is copied"
    no_copy b.rec
fi

row="a path that isn't free"
echo other > there
refused a.rec there Device "there is there, and stays as it is"
[ "$(cat there)" = other ] || fail "the other file was changed"
refused a.rec a.rec Device "a.rec is there, and stays as it is"
ln -s nowhere link.rec
refused a.rec link.rec Device "link.rec is there, and stays as it is"
no_copy nowhere
refused a.rec nowhere/b.rec Device "there is no such folder: nowhere"
refused a.rec "" Device ""
: > b.rec-journal
refused a.rec b.rec BadJournal ""
[ -e b.rec-journal ] && [ ! -e b.rec ] || fail "the side file is gone, or a file was made"
rm b.rec-journal
: > b.rec-commits
refused a.rec b.rec BadCommits ""
[ -e b.rec-commits ] && [ ! -e b.rec ] || fail "the log is gone, or a file was made"
rm b.rec-commits

row="a file that isn't whole"
refused missing.rec b.rec Device "there is no such file in .: recfile create missing.rec makes one"
cp a.rec side.rec
: > side.rec-journal
refused side.rec b.rec NotClean ""
mv side.rec-journal side.rec-commits
refused side.rec b.rec NotClean ""
damaged() { # PLACE BYTES FAULT
    cp a.rec damaged.rec
    printf "$2" | dd of=damaged.rec bs=1 seek="$1" conv=notrunc status=none
    refused damaged.rec b.rec "$3" ""
    no_copy b.rec
}
damaged 0 X BadMagic
damaged 9 '\011' "BadVersion 9"
damaged 11 '\000' BadOrder
damaged 24 '\002' NotClean
damaged 25 X BadHeader
damaged 4096 '\007' "Damaged 1"
damaged 23 '\001' WrongCount
cp a.rec long.rec
printf x >> long.rec
refused long.rec b.rec BadLength ""
no_copy b.rec

row="words"
for words in "a.rec" "a.rec b.rec c.rec"; do
    runs=$((runs + 1))
    status=0
    "$program" copy $words > out 2> err || status=$?
    [ $status = 2 ] || fail "status $status"
    no_copy b.rec
done

# At each call that changes a file or a name, and then at none, of the copy of some twelve pages.
rm a.rec
"$program" create --order 2 a.rec
awk 'BEGIN { for (i = 10; i < 40; i++) printf "%d\tx\n", i }' | "$program" load a.rec
left() { # the copy is whole, or it is no file that is opened
    if [ -e b.rec ] && ! cmp -s a.rec b.rec; then
        "$program" check b.rec > out 2> err && fail "a part of a copy is opened"
        case $(cat err) in
        "recfile: BadLength" | "recfile: BadMagic") ;;
        *) fail "a part of a copy is $(cat err)" ;;
        esac
    fi
    return 0
}
for fate in killed lost noise halves 1 2 3 4; do
    row="a copy that is stopped, $fate"
    number=0
    while number=$((number + 1)); do
        rm -f b.rec met
        runs=$((runs + 1))
        env STOP_AT=$number FATE=$fate MET="$room/met" LD_PRELOAD="$room/crash.so" "$program" copy a.rec b.rec > out 2> err || true
        [ -e met ] || break
        left
    done
    cmp a.rec b.rec || fail "no copy"
    [ $number -gt 5 ] || fail "only $number calls"
done

row="a call that fails"
number=0
while number=$((number + 1)); do
    rm -f b.rec met
    runs=$((runs + 1))
    status=0
    env FAIL_AT=$number MET="$room/met" LD_PRELOAD="$room/crash.so" "$program" copy a.rec b.rec > out 2> err || status=$?
    [ -e met ] || break
    [ $status = 1 ] && [ "$(head -n 1 err)" = "recfile: Device" ] || fail "call $number: status $status"
    grep -q "b.rec" err || fail "call $number: the path isn't told"
    no_copy b.rec
done

row="memory that is refused"
number=0
while number=$((number + 1)); do
    rm -f b.rec met
    runs=$((runs + 1))
    status=0
    env REFUSE_GROWTH=$number MET="$room/met" LD_PRELOAD="$room/refuse.so" "$program" copy a.rec b.rec > out 2> err || status=$?
    [ -e met ] || break
    if [ $status = 0 ]; then cmp a.rec b.rec || fail "growth $number: another copy"; else no_copy b.rec; fi
done
[ $number -gt 3 ] || fail "only $number growths"

row="a full file system"
mkdir small
if mount -t tmpfs -o size=20k none small 2> /dev/null; then
    refused a.rec small/b.rec Device "a call of the system for small/b.rec failed, and now nothing is found that keeps it: its device may be full, or fail at times"
    [ -z "$(ls small)" ] || fail "something is left: $(ls small)"
    head -c 20480 /dev/zero > small/filler
    refused a.rec small/b.rec Device "the system makes no file in small: No space left on device (os error 28)"
    [ "$(ls small)" = filler ] || fail "something is left: $(ls small)"
    umount small
else
    echo "copies: $row: left out, since nothing can be mounted"
fi

# A copy takes no more memory than a check: of a file of 40 megabytes.
row="little memory"
"$program" create --order 16 large.rec
awk 'BEGIN { for (i = 0; i < 300000; i++) printf "%06d\tx\n", i }' | "$program" load large.rec
size=$(stat -c %s large.rec)
[ "$size" -gt 30000000 ] || fail "the file has $size bytes"
runs=$((runs + 1))
(ulimit -v 24576; "$program" copy large.rec copy.rec > out 2> err) || fail "more memory is taken"
cmp large.rec copy.rec || fail "another copy"

echo "copies: $runs passed, 0 failed"

#!/bin/sh
# What the words of the built program say and take: the words of a script in the help, the log of a session that asks
# for no limit, a file of 300,000 pages, 120,000 records that are listed and dumped, a dump that can't be written, what an
# order costs, and why the system refuses a file.
set -eu
cd "$(dirname "$0")/.."
program=$(realpath "${1:-crates/recfile_program/out/recfile_program}")
room=$(mktemp -d)
trap 'rm -rf "$room"' EXIT
cd "$room"
runs=0

fail() {
    echo "words: FAILED: $row: $*"
    exit 1
}

# Runs the program with these words; its replies, faults and status.
run() {
    runs=$((runs + 1))
    status=0
    "$program" "$@" > out 2> err || status=$?
}

expect() { # STATUS FAULT: the status, and what stands on standard error
    [ "$status" = "$1" ] || fail "status $status, $(cat err)"
    [ "$(cat err)" = "$2" ] || fail "faults $(cat err)"
}

expect_device() { # WHY: the line behind the first
    [ "$status:$(head -n 1 err)" = "1:recfile: Device" ] || fail "status $status, $(cat err)"
    [ "$(tail -n +2 err)" = "$1" ] || fail "told is $(cat err)"
}

row="the help"
run --help
expect 0 ""
for word in begin put del get claim save release back resume abort commit list from upto committed keys log; do
    grep -q "The lines of a script:.* $word\(,\|$\)" out || fail "$word isn't named"
done
for word in create run shell check copy dump load explain show rescue memory; do
    grep -q "^  $word  *[A-Z]" out || fail "$word has no line"
done

# It is an option of a session over a file.
row="the option --durable"
for word in run shell; do
    run $word --help
    expect 0 ""
    grep -q "^ *--durable  *Keep each commit on the device before it is answered" out || fail "$word --help doesn't name it"
done
for words in "shell --durable" "run --durable" "memory --durable" "--durable" "load --durable x.rec" "check --durable x.rec"; do
    run $words < /dev/null
    [ "$status" = 2 ] && grep -q "^error: " err && [ ! -s out ] || fail "$words: status $status, $(cat err)"
done
run shell --durable < /dev/null
grep -qF "Usage: recfile shell --durable <FILE>" err || fail "told is $(cat err)"

# A change that isn't taken back takes two of the log's records, one of them for taking it back.
row="the log of a session that asks for no limit"
awk 'BEGIN { print "begin"; for (i = 0; i < 2000001; i++) print "put 1 a =x"; print "log" }' > lines
run shell < lines
expect 0 ""
[ "$(wc -l < out)" = 2000003 ] || fail "replies $(wc -l < out)"
[ "$(tail -n 3 out | tr '\n' '|')" = "ok =x|no LogFull|ok 2000000 4000000|" ] || fail "the last replies are $(tail -n 3 out)"
run shell --log 4000000 < lines
[ "$(tail -n 2 out | tr '\n' '|')" = "no LogFull|ok 2000000 4000000|" ] || fail "with the greatest limit: $(tail -n 2 out)"
rm lines

# Pages that the tree doesn't reach are free, whatever they have.
row="a file of 300,000 pages"
run create --order 16 wide.rec
truncate -s $((300000 * 4096)) wide.rec
printf '\000\004\223\340' | dd of=wide.rec bs=1 seek=12 conv=notrunc status=none
run check wide.rec
expect 0 ""
[ "$(cat out)" = "order 16 height 0 records 0 pages 300000 free 299999" ] || fail "checked $(cat out)"
printf 'begin\nput 1 a =x\ncommit 1\n' > lines
run run wide.rec < lines
expect 0 ""
run check wide.rec
[ "$(cat out)" = "order 16 height 1 records 1 pages 300000 free 299998" ] || fail "checked $(cat out)"
rm wide.rec

row="records that are listed and dumped"
count=120000
awk -v count=$count 'BEGIN {
    print "begin"
    for (i = 0; i < count; i++) printf "put 1 %06d =%d\n", (i * 7919) % count, i
    print "commit 1"
    print "list"
}' > lines
sed -n 's/^put 1 //p' lines | LC_ALL=C sort > records
{ sed 's/^/- /' records; echo "ok $count"; } > listed
{ echo begin; sed 's/^/put 1 /' records; echo "commit 1"; } > dumped
run create --order 4 many.rec
run shell --strict many.rec < lines
expect 0 ""
tail -n $((count + 1)) out | cmp -s - listed || fail "other records are listed"
printf 'list\n' > lines
run run many.rec < lines
cmp -s out listed || fail "other records are listed of the file"
run dump many.rec
expect 0 ""
cmp -s out dumped || fail "other records are dumped"

row="a dump that can't be written"
runs=$((runs + 1))
status=0
"$program" dump many.rec > /dev/full 2> err || status=$?
expect 3 "recfile: WriteFault"
runs=$((runs + 1))
(
    trap '' PIPE
    { "$program" dump many.rec 2> err || echo $? > status; } | head -c 1 > /dev/null
)
status=$(cat status)
expect 3 "recfile: WriteFault"

row="what an order costs"
{ echo begin; seq -f 'put 1 k%03g =x' 40; echo 'commit 1'; } > lines
for cost in 2:77824 16:16384; do
    run create --order "${cost%:*}" "cost${cost%:*}.rec"
    run run "cost${cost%:*}.rec" < lines
    [ "$(wc -c < "cost${cost%:*}.rec")" = "${cost#*:}" ] || fail "an order of ${cost%:*} takes $(wc -c < "cost${cost%:*}.rec")"
done

row="why the system refuses a file"
: > lines
run create some.rec
run create some.rec
expect_device "some.rec is there, and stays as it is"
run create nowhere/some.rec
expect_device "there is no such folder: nowhere"
for word in run shell check dump rescue load; do
    run $word missing.rec < lines
    expect_device "the system doesn't open missing.rec: No such file or directory (os error 2)
there is no such file in .: recfile create missing.rec makes one"
    run $word . < lines
    expect_device ". is a folder, and no page file: it isn't opened"
done
mkfifo pipe.rec
run run pipe.rec < lines
expect_device "pipe.rec is a pipe, and no page file: it isn't opened"
if command -v flock > /dev/null; then
    for word in run check dump; do
        runs=$((runs + 1))
        status=0
        flock some.rec "$program" $word some.rec < lines > out 2> err || status=$?
        expect_device "another program has some.rec open: ask again when it has ended"
    done
fi
ln some.rec second.rec
run run some.rec < lines
expect_device "some.rec is one of 2 names of the file: each has a side file of its own, so keep one of them"
rm second.rec
long=$(printf '%0250d' 0)
cp some.rec "$long"
for word in create run; do
    [ $word = run ] || rm "$long"
    run $word "$long" < lines
    expect_device "$long has a name too long for that of a side file beside it"
    [ -e "$long" ] || cp some.rec "$long"
done

# Root may read and write every file, so root tries as a user who has no rights.
as=
[ "$(id -u)" != 0 ] || as="setpriv --reuid 65534 --regid 65534 --clear-groups"
row="rights that are missing"
if [ -z "$as" ] || command -v setpriv > /dev/null; then
    chmod 755 .
    cp "$program" recfile
    refused() { # WHY WORD FILE
        runs=$((runs + 1))
        status=0
        $as ./recfile "$2" "$room/$3" < lines > out 2> err || status=$?
        expect_device "$1"
    }
    chmod 000 some.rec
    refused "the system doesn't open $room/some.rec: Permission denied (os error 13)
you have no rights to read it, or to go through its folder: ask its owner, or run as one who has them" check some.rec
    chmod 444 some.rec
    refused "$room/some.rec is opened to be read, but not to be written: Permission denied (os error 13)" run some.rec
    mkdir closed
    cp some.rec closed/some.rec
    chmod 666 closed/some.rec
    chmod 555 closed
    refused "the system makes no file in $room/closed: Permission denied (os error 13)" create closed/new.rec
    refused "the system makes no file in $room/closed: Permission denied (os error 13)" run closed/some.rec
    chmod 755 closed
fi

row="a device that is full"
mkdir small
if mount -t tmpfs -o size=48k none small 2> /dev/null; then
    chmod 600 some.rec
    cp some.rec small
    head -c 60000 /dev/zero > small/rest 2> /dev/null || true
    run create small/new.rec
    [ ! -e small/new.rec ] || fail "a file stays"
    expect_device "the system makes no file in small: No space left on device (os error 28)"
    umount small
fi

echo "words: $runs passed, 0 failed"

#!/bin/sh
# Names and files that change beside the program. Whatever stands or comes where a side file stands or a path leads, a
# session puts old pages back over the file that they were kept of and over no other, writes to no file that it didn't
# open, and finds at opening what its closing would need.
set -eu
cd "$(dirname "$0")/.."
program=${PROGRAM:-$PWD/crates/recfile_program/out/recfile_program}
# In memory where the system has such a folder, since each session syncs.
room=$(mktemp -d -p /dev/shm 2> /dev/null || mktemp -d)
trap 'chmod -R u+rwx "$room"; rm -rf "$room"' EXIT
[ -x "$program" ] || {
    echo "side_files: there is no $program: rt ci makes it, and so does rt run in crates/recfile_program"
    exit 1
}
cc -O2 -shared -fPIC -o "$room/crash.so" tests/crash.c
cp tests/side_file.py "$room"
cd "$room"
runs=0

fail() {
    echo "side_files: FAILED: $row: $*"
    ls -l
    cat err
    exit 1
}

# Runs the program. $status, out and err are what it answers.
run() {
    runs=$((runs + 1))
    status=0
    timeout 20 "$program" "$@" > out 2> err || status=$?
}

expect() { # STATUS LINE: the first line on standard error, or none
    [ "$status:$(head -n 1 err)" = "$1:$2" ] || fail "status $status: $(cat err); expected is $1 $2"
}

same() { # FILE FILE
    cmp -s "$1" "$2" || fail "$1 has changed"
}

list_of() {
    printf 'list\n' | "$program" run "$1"
}

# A file with pages enough that a closing leaves some of them as they are, the same with a record changed on one of those,
# a file of another's, and what a session does.
"$program" create --order 1 old
awk 'BEGIN { print "begin"; for (i = 10; i < 60; i++) printf "put 1 k%d =old\n", i; print "commit 1" }' | "$program" run old > out
printf 'begin\nput 1 k10 =new\nput 1 k99 =new\ncommit 1\n' > session
printf 'begin\nput 1 k50 =copy\ncommit 1\n' > elsewhere
cp old copy
"$program" run copy < elsewhere > out
"$program" create --order 2 other
printf 'begin\nput 1 o =other\ncommit 1\n' | "$program" run other > out
cp old new
"$program" run new < session > out
list_of old > old_list
list_of new > new_list
: > empty

# Stops the session before its N-th call. Whether there is such a call.
stop_at() { # N FATE
    rm -rf file file-journal file-journal-new met
    cp -p old file
    MET="$room/met" STOP_AT=$1 FATE=$2 LD_PRELOAD="$room/crash.so" "$program" run file < session > out 2> err || true
    [ -e met ]
}

row="a side file beside another file"
number=0
stood=0
while number=$((number + 1)); do
    for other in copy other words short; do
        stop_at $number killed || break 2
        [ -e file-journal ] || continue
        stood=$((stood + 1))
        cp file-journal side
        case $other in
        words) printf 'dear diary\n' > file ;;
        short) head -c 8192 old > file ;;
        *) cp $other file ;;
        esac
        cp file before
        run run file < session
        expect 1 "recfile: BadJournal"
        same file before
        same file-journal side
        mv before moved
        mv moved file
        run shell file < session
        expect 1 "recfile: BadJournal"
        same file-journal side
    done
done
[ $stood -gt 12 ] || fail "a side file stood at $stood stops"

row="a side file beside its file, whose kept pages are torn"
number=0
while number=$((number + 1)); do
    stop_at $number noise || break
    [ -e file-journal ] || continue
    [ "$(stat -c %a file-journal)" = "$(stat -c %a file)" ] || chmod "$(stat -c %a file)" file-journal
    python3 side_file.py tear file file-journal
    run run file < empty
    expect 0 ""
    list_of file | cmp -s - old_list || fail "the old records aren't there at $number"
    stop_at $number killed
    python3 side_file.py spoil file file-journal
    cp file before
    cp file-journal side
    run run file < empty
    expect 1 "recfile: BadJournal"
    same file before
    same file-journal side
done

row="a side file of the first version"
number=0
until stop_at $((number += 1)) killed && [ -e file-journal ]; do :; done
python3 side_file.py first_version file file-journal
run run file < empty
expect 0 ""
[ ! -e file-journal ] && list_of file | cmp -s - old_list || fail "the old pages aren't put back"

# What is done to the names while a session has the file open, before each of its calls: the other file stays as it is.
# Until the side file is whole, and so about to get its name, the session says so; from then on it goes on with the file that
# it opened.
row="a path that leads elsewhere"
cat > look << 'END'
[ ! -e file-journal ] && [ "$(stat -c %a file-journal-new 2> /dev/null || echo 0)" = 0 ] && cmp -s file old || : > named
END
printf 'mv file gone; cp %s/other file\n' "$room" > do_1
printf 'rm file; cp %s/other file\n' "$room" > do_2
printf 'mv file file.bak; cp file.bak file\n' > do_3
printf 'cp %s/other next; mv next file\n' "$room" > do_4
for do in do_1 do_2 do_3 do_4; do
    number=0
    while number=$((number + 1)); do
        rm -rf file* gone next met named
        cp old file
        status=0
        runs=$((runs + 1))
        MET="$room/met" DO_AT=$number DO="$(cat look); $(cat $do)" LD_PRELOAD="$room/crash.so" \
            "$program" run file < session > out 2> err || status=$?
        [ -e met ] || break
        [ $do = do_3 ] || cmp -s file other || fail "$do before call $number: the other file was written over"
        if [ ! -e named ]; then
            expect 1 "recfile: Device"
            [ $do != do_3 ] || list_of file | cmp -s - old_list || fail "$do before call $number: the copy isn't the old file"
        else
            expect 0 ""
            [ $do != do_1 ] || list_of gone | cmp -s - new_list || fail "$do before call $number: the records are gone"
        fi
    done
    [ "$number" -gt 8 ] || fail "$do: only $number calls"
done
for do in do_1 do_2 do_3 do_4; do
    rm -rf file* gone next
    cp old file
    mkfifo lines
    "$program" shell file < lines > out 2> err &
    shell=$!
    exec 3> lines
    cat session >&3
    until [ "$(grep -c . out)" = 4 ]; do sleep 0.01; done
    sh -c "$(cat $do)"
    [ $do = do_3 ] || cp file before
    exec 3>&-
    status=0
    wait $shell || status=$?
    expect 1 "recfile: Device"
    [ ! -e file-journal ] && [ ! -e file-journal-new ] || fail "$do: something stands beside the file"
    [ $do = do_3 ] || same file before
    rm lines
done

row="what has the name of a side file that is being made"
rm -rf file*
cp old file
printf 'a text that is not ours' > target
for planted in 'ln -s target file-journal-new' 'ln -s nowhere file-journal-new' 'cp other file-journal-new' 'cp target file-journal-new' \
    'mkdir file-journal-new' 'mkfifo file-journal-new' 'printf text > file-journal-new'; do
    rm -rf file-journal-new
    sh -c "$planted"
    run run file < session
    expect 1 "recfile: BadJournal"
    same file old
    [ "$(cat target)" = 'a text that is not ours' ] && [ ! -e nowhere ] || fail "$planted: the target was written over"
    [ -e file-journal-new ] || [ -L file-journal-new ] || fail "$planted: it is gone"
done
rm -rf file-journal-new
cp other file-journal-new
run run file-journal-new < empty
expect 0 ""
same file-journal-new other
rm file-journal-new

row="what has the name of a log of commits"
printf '#\tx\n' > lines
for name in file-commits file-commits-new; do
    for planted in "ln -s target $name" "ln -s nowhere $name" "cp other $name" "cp target $name" "mkdir $name" "mkfifo $name" "printf commits > $name"; do
        rm -rf file*
        cp old file
        sh -c "$planted"
        for word in run shell "run --durable" "shell --durable" load; do
            run $word file < lines
            expect 1 "recfile: BadCommits"
            same file old
        done
        [ "$(cat target)" = 'a text that is not ours' ] && [ ! -e nowhere ] || fail "$planted: the target was written over"
        [ -e $name ] || [ -L $name ] || fail "$planted: it is gone"
    done
done
# A log without a head is none, and one that says nothing is taken away.
rm -rf file*
cp old file
: > file-commits
run run file < session
expect 1 "recfile: BadCommits"
[ -e file-commits ] || fail "an empty log is gone"
echo commits 1 2 3 > file-commits
run run file < empty
expect 0 ""
same file old
[ ! -e file-commits ] || fail "a log without commits is there"
rm lines
# One that a stop left while it was being made is taken away.
for planted in ': > file-commits-new' 'cp target file-commits-new; chmod 0 file-commits-new' 'echo commits 1 2 3 > file-commits-new'; do
    rm -rf file*
    cp old file
    sh -c "$planted"
    run run file < empty
    expect 0 ""
    same file old
    [ ! -e file-commits-new ] || fail "$planted: it is there"
done
rm -rf file*
cp target file-commits
run create --order 1 file
expect 1 "recfile: BadCommits"
[ ! -e file ] || fail "a file is made beside it"
run copy other file
expect 1 "recfile: BadCommits"
[ ! -e file ] || fail "a copy is made beside it"
same file-commits target
rm -rf file*

cp old file
row="a page file that has the name of a side file"
cp other file-journal
run run file < session
expect 1 "recfile: BadJournal"
same file-journal other
same file old
run run file-journal < empty
expect 0 ""
same file-journal other
rm file-journal

row="a page file that gets the name of a side file while a session has the file open"
rm -rf file*
cp old file
mkfifo lines
"$program" shell file < lines > out 2> err &
shell=$!
exec 3> lines
cat session >&3
until [ "$(grep -c . out)" = 4 ]; do sleep 0.01; done
cp other file-journal
exec 3>&-
status=0
wait $shell || status=$?
expect 1 "recfile: Device"
same file-journal other
same file old
rm -f lines file*

row="a log of commits that another takes away while a session has the file open"
# Whether a commit comes after it or the end: it isn't answered with ok, and what has the name of the log by then stays.
for do in 'rm file-commits' 'mv file-commits gone' 'mv file-commits gone; cp gone file-commits' 'mv file-commits gone; cp other file-commits' 'mv file gone' 'mv file gone; cp other file'; do
    for last in commit end; do
        rm -rf file* gone
        cp old file
        mkfifo lines
        "$program" shell --durable file < lines > out 2> err &
        shell=$!
        runs=$((runs + 1))
        exec 3> lines
        printf 'begin\nput 1 k99 =kept\ncommit 1\nbegin\nput 2 k98 =doubt\n' >&3
        until [ "$(grep -c . out)" = 5 ]; do sleep 0.01; done
        sh -c "$do"
        rm -f before
        [ ! -e file-commits ] || cp file-commits before
        [ $last = end ] || printf 'commit 2\n' >&3
        exec 3>&-
        status=0
        wait $shell || status=$?
        expect 1 "recfile: Device"
        [ $last = end ] || [ "$(tail -n 1 out)" = "no Doubt" ] || fail "$do: the commit: $(tail -n 1 out)"
        case $do in
        'mv file gone'*) [ -e file-commits ] || fail "$do: the log is gone" ;;
        *) [ ! -e before ] || same file-commits before ;;
        esac
        rm lines
    done
done
rm -f file* gone before

row="a new file"
for fate in lost halves; do
    rm -rf file met
    status=0
    MET="$room/met" STOP_AT=-1 FATE=$fate LD_PRELOAD="$room/crash.so" "$program" create --order 1 file 2> err || status=$?
    [ -e met ] || fail "the end wasn't met"
    run check file
    expect 0 ""
done
for fails in FAIL_AT FAIL_FROM; do
    number=0
    while number=$((number + 1)); do
        rm -rf file met
        status=0
        runs=$((runs + 1))
        env $fails=$number MET="$room/met" LD_PRELOAD="$room/crash.so" "$program" create --order 1 file > out 2> err || status=$?
        [ -e met ] || break
        expect 1 "recfile: Device"
        [ $fails = FAIL_FROM ] || [ ! -e file ] || fail "a file is left where call $number failed"
    done
done
most=$(printf '%0243d' 0)
run create --order 1 $most
expect 0 ""
run run $most < session
expect 0 ""
run create --order 1 ${most}0
expect 1 "recfile: Device"
[ ! -e ${most}0 ] || fail "a file is left that has too long a name"
cp old ${most}0
run run ${most}0 < session
expect 1 "recfile: Device"
same ${most}0 old
mkdir small
if mount -t tmpfs -o size=4k none small 2> /dev/null; then
    printf x > small/full
    run create --order 1 small/file
    expect 1 "recfile: Device"
    [ ! -e small/file ] || fail "a file is left on a full file system"
    umount small
else
    echo "side_files: $row: a full file system is left out, since nothing can be mounted"
fi

row="the mode and the owner of a side file"
for mode in 600 640 644 664 666; do
    number=0
    until umask 077 && stop_at $((number += 1)) killed && [ -e file-journal ]; do
        chmod $mode old
        [ $number -lt 200 ] || fail "no side file"
    done
    umask 022
    [ "$(stat -c %a file-journal)" = "$mode" ] || fail "mode $(stat -c %a file-journal) beside $mode"
    run run file < empty
    expect 0 ""
done
chmod 644 old
if [ "$(id -u)" = 0 ]; then
    number=0
    while number=$((number + 1)); do
        rm -rf file* met
        cp old file
        chown 65534:65534 file
        MET="$room/met" STOP_AT=$number FATE=killed LD_PRELOAD="$room/crash.so" "$program" run file < session > out 2> err || true
        [ -e met ] || fail "no side file"
        [ ! -e file-journal ] || break
    done
    [ "$(stat -c %u:%g file-journal)" = 65534:65534 ] || fail "the side file is root's"
fi

row="what is no regular file"
rm -rf file* pipe folder
cp old file
mkfifo pipe
mkdir folder
for path in pipe folder /dev/null /dev/zero; do
    for word in run shell check dump; do
        run $word $path < empty
        expect 1 "recfile: Device"
    done
    run create --order 1 $path
    expect 1 "recfile: Device"
done
for kind in mkfifo mkdir; do
    $kind file-journal
    run run file < empty
    expect 1 "recfile: Device"
    same file old
    rm -rf file-journal
done

row="a file with two names"
rm -rf file* second
cp old file
ln file second
for path in file second; do
    run run $path < session
    expect 1 "recfile: Device"
    run check $path
    expect 0 ""
    run dump $path
    expect 0 ""
done
rm second
run run file < session
expect 0 ""

row="standard descriptors that are closed"
for closed in '<&-' '>&-' '2>&-' '<&- >&-' '>&- 2>&-' '<&- >&- 2>&-'; do
    rm -f file*
    cp old file
    printf 'begin\nput 1 k10 =new\nput 1 k99 =new\ncommit 1\n' > session
    runs=$((runs + 1))
    case $closed in
    *'<&-'*) sh -c "'$program' run file $closed" || true; sh -c "'$program' shell file $closed" || true ;;
    *) sh -c "'$program' run file < session $closed" || true ;;
    esac
    list_of file > listed || fail "$closed: the file isn't opened"
    cmp -s listed old_list || cmp -s listed new_list || fail "$closed: other records"
    run check file
    expect 0 ""
done

row="words that can't be read"
run check "$(printf 'file\377')"
expect 2 "recfile: NotUtf8"

row="what a closing needs is found at opening"
rm -rf file* shut
mkdir shut
cp old shut/file
chmod 777 "$room"
chmod 666 shut/file
chmod 555 shut
as=
[ "$(id -u)" != 0 ] || as="setpriv --reuid 65534 --regid 65534 --clear-groups"
if [ -z "$as" ] || command -v setpriv > /dev/null; then
    cp "$program" recfile
    runs=$((runs + 1))
    status=0
    $as ./recfile run shut/file < session > out 2> err || status=$?
    expect 1 "recfile: Device"
    [ ! -s out ] || fail "lines were answered over a file in a folder that may not be written"
    $as ./recfile check shut/file > out || fail "check"
fi
chmod 755 shut
cp old file
for most in 4 5 6 7 8 9 10; do
    rm -f file*
    cp old file
    runs=$((runs + 1))
    status=0
    (exec < session > out 2> err; ulimit -n $most; exec "$program" run file) || status=$?
    case $status:$(grep -c . out) in
    0:4) ;;
    1:0) expect 1 "recfile: Device"; same file old ;;
    *) fail "with $most descriptors: status $status, $(grep -c . out) replies" ;;
    esac
done
[ $status = 0 ] || fail "ten descriptors are too few"

echo "side_files: $runs passed, 0 failed"

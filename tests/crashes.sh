#!/bin/sh
# Closings that are cut short. The built program is ended before each call by which it changes a file or a name, in a
# closing and in the opening after it, and the device then loses, tears or keeps what wasn't synced: the next session
# finds the records of the old file or those of the new one, and nothing stands beside it. What a program that was killed
# left unsynced may be lost as late as in the session after it. Each such call fails, alone and with all later ones: the file
# is the old one, or was closed. Each read and write is short once, or interrupted: nothing else comes out. And what else may
# stand in the way of a closing: a folder that may not be written, a full file system, a link, a file that is held, a side
# file that was changed or can't be read.
set -eu
cd "$(dirname "$0")/.."
program=${PROGRAM:-$PWD/crates/recfile_program/out/recfile_program}
# In memory where the system has such a folder, since each session syncs.
room=$(mktemp -d -p /dev/shm 2> /dev/null || mktemp -d)
trap 'umount "$room/small" 2> /dev/null || true; rm -rf "$room"' EXIT
[ -x "$program" ] || {
    echo "crashes: there is no $program: rt ci makes it, and so does rt run in crates/recfile_program"
    exit 1
}
cc -O2 -shared -fPIC -o "$room/crash.so" tests/crash.c
cp tests/log_rows.py "$room"
cd "$room"
runs=0
# What a row's session does with its lines.
task=run

fail() {
    echo "crashes: FAILED: $row: $*"
    ls -l
    cat err
    exit 1
}

# Runs a session over the file, with one of its calls met by a stop or a failure. Whether the call was met.
met() { # SCRIPT VARIABLE=VALUE..
    script=$1
    shift
    rm -f met
    runs=$((runs + 1))
    status=0
    word=run
    [ "$script" != session ] || word=$task
    env "$@" MET="$room/met" LD_PRELOAD="$room/crash.so" "$program" $word file < "$script" > out 2> err || status=$?
    [ -e met ]
}

list_of() {
    printf 'list\n' | "$program" run "$1"
}

# Expects the next session to find the old records or the new ones, and to leave nothing beside the file.
expect_either() {
    runs=$((runs + 1))
    "$program" run file < /dev/null > out 2> err || fail "$*: the next session fails"
    [ ! -e file-journal ] && [ ! -e file-journal-new ] || fail "$*: something stands beside the file"
    list_of file > listed
    cmp -s listed old_list || cmp -s listed new_list || fail "$*: the file has other records"
}

# Keeps the file and what stands beside it, or puts them back.
save() { rm -rf saved; mkdir saved; cp -p file* saved; }
put_back() { rm -f file*; cp -p saved/* .; }

# Stops the session that puts the old pages back, at each call, and the one after it, too.
stop_the_next() {
    save
    for later in killed lost noise 7; do
        next=0
        while next=$((next + 1)); do
            put_back
            met empty STOP_AT=$next FATE=$later || break
            met empty STOP_AT=$next FATE=halves || true
            expect_either "opening stopped at $next, $later"
        done
    done
}

# Stops the session behind one that was killed: what neither has asked the device to keep is lost then.
stop_after_killed() {
    save
    for later in lost noise 1; do
        next=0
        while next=$((next + 1)); do
            put_back
            met empty STOP_AT=$next FATE=$later PENDING="$room/file-pending" || break
            rm -f file-pending
            expect_either "killed, and stopped at $next of the next session, $later"
        done
        [ "$status" = 0 ] || fail "the session after one that was killed has status $status"
    done
    put_back
    rm -f file-pending file*.spare*
}

# Where a side file stands beside the file, a check says so, and changes nothing.
expect_unclean() {
    save
    status=0
    "$program" check file > out 2> err || status=$?
    [ $status = 1 ] && [ "$(cat err)" = "recfile: NotClean" ] || fail "check answers $status $(cat out err)"
    for kept in saved/*; do cmp -s "$kept" "${kept#saved/}" || fail "check changed $kept"; done
}

# Stops the row's session before each of its calls.
stop_in_turn() {
    for fate in killed lost noise halves 1 2 3; do
        number=0
        while number=$((number + 1)); do
            rm -f file*
            cp old file
            pending=
            [ $fate != killed ] || pending="$room/file-pending"
            met session STOP_AT=$number FATE=$fate ${pending:+PENDING="$pending"} || break
            [ "$status" = 99 ] || fail "the program wasn't stopped"
            [ $fate != killed ] || stop_after_killed
            if [ -e file-journal ]; then
                case $fate in
                killed) expect_unclean ;;
                lost | noise) stop_the_next; put_back ;;
                esac
            fi
            expect_either "stopped at $number, $fate"
        done
        [ "$status" = 0 ] || fail "the last run failed"
    done
    echo "crashes: $row: $((number - 1)) calls stopped"
}

# Lets each call of the row's session fail.
fail_in_turn() {
    for variable in FAIL_AT FAIL_FROM; do
        number=0
        while number=$((number + 1)); do
            rm -f file*
            cp old file
            met session $variable=$number || break
            # A load looks at the file first: where that fails alone, it goes on.
            [ "$status:$(head -n 1 err)" = "1:recfile: Device" ] || [ "$task:$status" = load:0 ] \
                || fail "$variable $number: status $status: $(cat err)"
            [ $variable = FAIL_FROM ] || [ -e file-journal ] || cmp -s file old || cmp -s file new \
                || fail "$variable $number: the file is neither the old one nor the new one"
            expect_either "$variable $number"
        done
    done
    echo "crashes: $row: $((number - 1)) calls failed"
}

# Lets each read and write of the row's session move one byte or half of its bytes, or be interrupted.
cut_in_turn() {
    for how in one half again; do
        number=0
        while number=$((number + 1)); do
            rm -f file*
            cp old file
            met session SHORT_AT=$number SHORT=$how || break
            [ "$status" = 0 ] && [ ! -s err ] && cmp -s out whole && cmp -s file new \
                || fail "a read or write that moves $how, $number: status $status"
        done
        [ $number -gt 10 ] || fail "there are $number reads and writes"
    done
    echo "crashes: $row: $((number - 1)) reads and writes cut"
}

# Runs a row: its name, the file that it begins with, and its script on standard input.
session() {
    row=$1
    cp "$2" old
    cat > session
    cp old new
    "$program" $task new < session > whole
    list_of old > old_list
    list_of new > new_list
    stop_in_turn
    fail_in_turn
    cut_in_turn
}

: > empty
"$program" create --order 1 order_1
printf 'begin\nput 1 b =2\nput 1 d =4\nput 1 f =6\nput 1 h =8\ncommit 1\n' > filled
printf 'begin\nput 1 b =other\nput 1 k =more\ncommit 1\n' > filled_more
cp order_1 four
"$program" run four < filled > out

# A new file that isn't made whole is refused by its name, or is the new one; it has no records to lose.
row="a new file"
for fate in killed lost noise halves 1 2 3; do
    number=0
    while number=$((number + 1)); do
        rm -f file* met
        runs=$((runs + 1))
        status=0
        env STOP_AT=$number FATE=$fate MET="$room/met" LD_PRELOAD="$room/crash.so" \
            "$program" create --order 1 file > out 2> err || status=$?
        [ -e met ] || break
        "$program" check file > out 2> err && continue
        case $(head -n 1 err) in
        'recfile: BadLength' | 'recfile: BadMagic' | 'recfile: NotClean') ;;
        'recfile: Device') [ ! -e file ] || fail "stopped at $number, $fate" ;;
        *) fail "stopped at $number, $fate" ;;
        esac
    done
    [ "$status" = 0 ] && cmp file order_1 || fail "the last run failed"
done

session "a first fill" order_1 << 'END'
begin
put 1 a =1
put 1 c =3
put 1 e =5
commit 1
END

session "two pages written over and one added" four << 'END'
begin
put 1 a =1
put 1 c =3
del 1 h
commit 1
begin
put 2 z =0
END

session "records are changed" four << 'END'
begin
put 1 b =x
put 1 f =y
commit 1
END

task=load
session "a file is filled with sorted records" order_1 << 'END'
a	1
c	3
e	5
g	7
i	9
END
task=run

# Another program's writes may be lost until a closing has begun, which first has the device keep them and the names; then
# none of them are.
row="a copy that wasn't synced"
cp four old
cp filled_more session
cp four new
"$program" run new < session > out
list_of old > old_list
list_of new > new_list
rm -f file*
cp four file
opening=0
while met empty STOP_AT=$((opening + 1)) FATE=killed; do opening=$((opening + 1)); done
rm -f file*
env PENDING="$room/file-pending" LD_PRELOAD="$room/crash.so" python3 -c '
import os
to = os.open("file", os.O_CREAT | os.O_RDWR, 0o644)
for place, page in enumerate(iter(lambda source=open("old", "rb"): source.read(4096), b"")):
    os.pwrite(to, page, 4096 * place)
'
cmp file old && [ -s file-pending ] || fail "nothing is pending"
save
begun=$((opening + 2))
for later in lost noise 1 2; do
    next=$begun
    while next=$((next + 1)); do
        put_back
        met session STOP_AT=$next FATE=$later PENDING="$room/file-pending" || break
        rm -f file-pending
        expect_either "stopped at $next, $later"
    done
    [ $next -gt $((begun + 9)) ] || fail "the session was stopped at $next, and $begun come before its first change"
done
rm -f file*

row="nothing is changed"
rm -f file*
cp four file
met empty STOP_AT=0 || true
[ $status = 0 ] && cmp file four

# Expects a session to ask the device so often to keep something.
expect_syncs() { # COUNT SCRIPT
    met "$2" SYNCS="$room/syncs" || true
    [ "$status:$(cat syncs)" = "0:$1" ] || fail "$2: status $status, $(cat syncs) syncs; expected are $1"
}

row="how often the device is asked to keep something"
printf 'begin\nget 1 b\nclaim 1 d\nput 1 =none\nabort 1\nlist\n' > read_only
expect_syncs 0 empty
expect_syncs 0 read_only
cmp file four
# The file and its folder, the side file, its name; the file, and the name again.
expect_syncs 6 filled_more
expect_syncs 6 session
# Durable: the file and its folder, the log, its name, the name that is gone; a commit with writes one more, and the closing four.
task="run --durable"
for count in 5:read_only 10:filled_more; do
    cp four file
    cp "${count#*:}" session
    expect_syncs "${count%:*}" session
done
printf 'begin\nput 2 b =x\ncommit 2\nbegin\nget 3 b\ncommit 3\n' >> session
expect_syncs 11 session
task=run
number=0
cp four file
until [ -e file-journal ]; do
    number=$((number + 1))
    met filled_more STOP_AT=$number FATE=killed || fail "no side file is made"
done
# The side file, the file and its folder; the file, and the name that is gone.
expect_syncs 5 empty
cmp file four

row="a link"
rm -f file*
mkdir deep
cp four deep/real
ln -s deep/real file
number=0
until [ -e deep/real-journal ]; do
    number=$((number + 1))
    met filled_more STOP_AT=$number FATE=killed || fail "no side file is made"
done
[ ! -e file-journal ] || fail "the side file doesn't stand beside the file itself"
"$program" run deep/real < empty 2> err || fail "the file isn't opened by its own name"
[ ! -e deep/real-journal ] && cmp deep/real four

row="a file that is held"
rm -f file*
cp four file
if command -v flock > /dev/null; then
    for word in run check dump; do
        status=0
        flock file "$program" "$word" file < filled > out 2> err || status=$?
        [ "$status:$(head -n 1 err)" = "1:recfile: Device" ] && cmp file four || fail "$word: status $status"
    done
    flock --shared file "$program" check file > out || fail "a check beside a reader"
    status=0
    flock --shared file "$program" run file < filled > out 2> err || status=$?
    [ "$status:$(head -n 1 err)" = "1:recfile: Device" ] && cmp file four || fail "run beside a reader"
else
    echo "crashes: $row: left out, since there is no flock"
fi

row="two programs at once"
for pause in 0 1 2 3 4 5 6 7 8 9 10 11 12 13 14 15 16 17 18 19; do
    rm -f file*
    cp order_1 file
    (printf 'begin\nput 1 first =1\ncommit 1\n'; sleep "0.00$pause") | "$program" run file > first_out 2> first_err &
    first=$!
    sleep "0.00$((19 - pause))"
    second_status=0
    printf 'begin\nput 1 second =1\ncommit 1\n' | "$program" run file > second_out 2> second_err || second_status=$?
    first_status=0
    wait $first || first_status=$?
    list_of file > listed 2> err || fail "the file isn't opened"
    for one in first second; do
        eval "status=\$${one}_status"
        case $status:$(head -n 1 ${one}_err) in
        0:) grep -q "^- $one =1\$" listed || fail "a commit is lost" ;;
        1:'recfile: Device') ! grep -q "^- $one" listed || fail "a program that answers Device has changed the file" ;;
        *) fail "$one: status $status" ;;
        esac
    done
done

# Leaves a side file beside the file.
leave_side_file() {
    rm -f file*
    cp four file
    number=0
    while number=$((number + 1)); do
        met filled_more STOP_AT=$number FATE=killed || fail "no side file is made"
        [ ! -e file-journal ] || break
        rm -f file*
        cp four file
    done
}
# Expects the file not to be opened for its side file, and both to stay.
expect_bad() {
    save
    status=0
    "$program" run file < empty > out 2> err || status=$?
    [ "$status:$(cat err)" = "1:recfile: BadJournal" ] || fail "$1: status $status: $(cat err)"
    cmp file saved/file && cmp file-journal saved/file-journal || fail "$1: something has changed"
}

# Writes bytes over those of the side file from a place on.
put_bytes() {
    printf "$2" | dd of=file-journal bs=1 seek="$1" conv=notrunc status=none
}

row="a side file that was changed"
leave_side_file
cp file-journal whole_journal
again() { cp whole_journal file-journal; }
put_bytes 0 X; expect_bad "another text"; again
put_bytes 9 '\003'; expect_bad "another version"; again
put_bytes 9 '\001'; expect_bad "the first version"; again
put_bytes 15 '\377'; expect_bad "another length"; again
put_bytes 19 '\377'; expect_bad "another count"; again
put_bytes 24 '\252\125\252'; expect_bad "another sum over the rest"; again
put_bytes 32 '\252\125\252'; expect_bad "another sum"; again
put_bytes 43 '\200'; expect_bad "another number"; again
put_bytes 48 '\252\125\252'; expect_bad "another page"; again
head -c 39 whole_journal > file-journal; expect_bad "less than a header"
head -c 4000 whole_journal > file-journal; expect_bad "cut in a page"
: > file-journal; expect_bad "empty"
again; printf x >> file-journal; expect_bad "a byte more"; again
head -c 4096 four > file; expect_bad "a file that is shorter"; cp saved/file file
"$program" run file < empty 2> err || status=$?

row="a side file that can't be read"
leave_side_file
save
mv file-journal aside
mkdir file-journal
status=0
"$program" run file < empty > out 2> err || status=$?
[ "$status:$(head -n 1 err)" = "1:recfile: Device" ] && cmp file saved/file || fail "a folder: status $status: $(cat err)"
rmdir file-journal
mv aside file-journal
"$program" run file < empty 2> err && cmp file four || fail "it isn't put back"

row="a side file beside no file"
leave_side_file
rm file
cp file-journal kept_journal
status=0
"$program" create --order 1 file 2> err || status=$?
[ "$status:$(cat err)" = "1:recfile: BadJournal" ] && [ ! -e file ] && cmp file-journal kept_journal || fail "create: status $status: $(cat err)"

# Runs the program as a user who has no rights.
if [ "$(id -u)" = 0 ]; then
    as="setpriv --reuid 65534 --regid 65534 --clear-groups"
    command -v setpriv > /dev/null || as=none
else
    as=
fi
row="a folder that may not be written"
if [ "$as" = none ]; then
    echo "crashes: $row: left out, since root has no setpriv"
else
    chmod 755 "$room"
    cp "$program" recfile
    leave_side_file
    mkdir closed
    cp four closed/file
    cp file closed/stopped
    cp file-journal closed/stopped-journal
    chmod 666 closed/*
    cp closed/stopped stopped
    chmod 555 closed
    status=0
    printf 'list\n' | $as ./recfile run closed/file > out 2> err || status=$?
    [ "$status:$(head -n 1 err)" = "1:recfile: Device" ] && [ ! -s out ] || fail "a session that changes nothing: status $status"
    status=0
    $as ./recfile run closed/file < filled_more > out 2> err || status=$?
    [ "$status:$(head -n 1 err)" = "1:recfile: Device" ] && cmp closed/file four || fail "a session: status $status"
    status=0
    $as ./recfile run closed/stopped < empty > out 2> err || status=$?
    [ "$status:$(head -n 1 err)" = "1:recfile: Device" ] && [ -e closed/stopped-journal ] || fail "a stopped file: status $status"
    chmod 755 closed
    "$program" run closed/stopped < empty 2> err && cmp closed/stopped four || fail "the stopped file isn't put back"
fi

row="a full file system"
mkdir small
if mount -t tmpfs -o size=48k none small 2> /dev/null; then
    cp four small/file
    awk 'BEGIN { print "begin"; for (i = 0; i < 400; i++) printf "put 1 k%d =%0100d\n", i, i; print "commit 1" }' > much
    status=0
    "$program" run small/file < much > out 2> err || status=$?
    [ "$status:$(head -n 1 err)" = "1:recfile: Device" ] && cmp small/file four && [ ! -e small/file-journal ] || fail "status $status"
    umount small
else
    echo "crashes: $row: left out, since nothing can be mounted"
fi

# A durable session's lines come byte by byte, so that a shell, too, answers each before it reads on.
export SINGLE_BYTES=1
mkdir wants seen
echo list > lister

# Tells the commits of the session that were answered, by the numbers of their lines, and these with the one that is in doubt or
# whose answer was still out; the records that they make are noted.
note_answers() {
    set -- $(awk '
        FILENAME == "out" { reply[FNR] = $0; replies = FNR; next }
        $1 == "commit" && reply[FNR] == "ok" { kept = kept "_" FNR }
        $1 == "commit" && !doubt && (FNR == replies + 1 || reply[FNR] == "no Doubt") { doubt = FNR }
        END { print "of" kept, "of" kept (doubt ? "_" doubt : "") }
    ' out session)
    answered=$1 doubtful=$2
    make_want $answered
    make_want $doubtful
}

# Notes the records that the session makes with these of its commits alone.
make_want() { # of_LINE_LINE..
    [ ! -e wants/$1 ] || return 0
    # What stands between flushes is a session; one while a transaction is open is refused.
    rm -f some_*
    awk -v kept="$1_" '
        $1 == "begin" { ++open }
        $1 == "commit" { --open }
        $1 == "flush" && !open { ++part }
        $1 != "commit" || index(kept, "_" FNR "_") { print > ("some_" part + 0) }
    ' session
    cp old wanted
    for some in some_*; do
        "$program" run wanted < $some > replies_of_some 2> err_of_some || fail "the session with the commits $1"
    done
    list_of wanted > wants/$1
}

# Puts the files there with which a durable session begins.
begin_again() {
    rm -f file*
    cp -p start/* .
}

is_alone() {
    for beside in file-journal file-journal-new file-commits file-commits-new; do
        [ ! -e $beside ] || return 1
    done
}

# Whether a state of the files wasn't met yet, with these answers.
is_new() { # USE
    set -- $1 $(tail -n +1 file* | cksum)
    [ ! -e seen/$1-$2-$answered-$doubtful ] && : > seen/$1-$2-$answered-$doubtful
}

# Expects the next session to find the records of the commits that were answered, or those with the one in doubt, and to leave
# nothing beside the file.
expect_committed() {
    runs=$((runs + 1))
    "$program" run file < lister > listed 2> err || fail "$*: the next session fails"
    is_alone || fail "$*: something stands beside the file"
    cmp -s listed wants/$answered || cmp -s listed wants/$doubtful \
        || fail "$*: of the commits $answered, perhaps $doubtful, there are the records $(cat listed)"
}

# Stops the session that puts the files right, before every other call, and the one after it, too.
stop_the_settling() {
    is_new settled || return 0
    save
    settlings=$((settlings + 1))
    set -- killed lost noise 7
    shift $((settlings % 4))
    next=$((settlings / 4 % 2 - 1))
    while next=$((next + 2)); do
        put_back
        met empty STOP_AT=$next FATE=$1 || break
        expect_left "settling stopped at $next, $1"
    done
    put_back
}

# What a stop in a settling left is stopped once more, where it is new.
expect_left() {
    if is_new stopped; then
        mkdir -p left
        rm -f left/*
        cp -p file* left
        met empty STOP_AT=$next FATE=halves || true
        expect_committed "$*, and once more"
        rm -f file*
        cp -p left/* .
    fi
    expect_committed "$*"
}

# Stops the session behind one that was killed, before every third call: what neither has asked the device to keep is lost then.
stop_behind_killed() {
    is_new pending || return 0
    save
    settlings=$((settlings + 1))
    set -- lost noise 1
    shift $((settlings % 3))
    next=$((settlings / 3 % 3 - 2))
    while next=$((next + 3)); do
        put_back
        met empty STOP_AT=$next FATE=$1 PENDING="$room/file-pending" || break
        rm -f file-pending
        expect_committed "killed, and stopped at $next of the next session, $1"
    done
    [ "$status" = 0 ] || fail "the session after one that was killed has status $status"
    put_back
    rm -f file-pending file*.spare*
}

# Stops the next session, too. A log that is being made is alike at each of its zeros.
stop_the_next_too() {
    case $fate in
    killed) [ -e file-commits-new ] || stop_behind_killed ;;
    lost | noise) [ ! -e file-commits ] || stop_the_settling ;;
    esac
}

# Stops a durable session before its calls from one on, with these fates, and the next session too behind some of them.
stop_durable() { # FROM FATE..
    from=$1
    shift
    for fate in "$@"; do
        number=$from
        while number=$((number + 1)); do
            begin_again
            pending=
            [ $fate != killed ] || pending="$room/file-pending"
            met session STOP_AT=$number FATE=$fate ${pending:+PENDING="$pending"} || break
            [ "$status" = 99 ] || fail "the program wasn't stopped: status $status"
            note_answers
            [ $next_too = no ] || stop_the_next_too
            expect_committed "stopped at $number, $fate"
        done
        [ "$status" = 0 ] && is_alone || fail "the last run failed: status $status: $(cat err)"
        note_answers
        list_of file | cmp -s - wants/$answered || fail "the last run has other records"
    done
    echo "crashes: $row: $((number - 1)) calls stopped"
}

# Lets the calls of a durable session fail, from one on; where one fails alone, the device loses then what wasn't kept.
fail_durable() { # FROM VARIABLE..
    from=$1
    shift
    for variable in "$@"; do
        number=$from
        while number=$((number + 1)); do
            begin_again
            met session $variable=$number || break
            note_answers
            case "$status:$(head -n 1 err)" in
            0:) is_alone && [ $answered = $doubtful ] || fail "$variable $number: something is left: $answered $doubtful" ;;
            "1:recfile: Device") ;;
            *) fail "$variable $number: status $status: $(cat err)" ;;
            esac
            expect_committed "$variable $number"
            [ $variable = FAIL_AT ] || continue
            fate=lost
            [ $((number % 2)) = 0 ] || fate=noise
            begin_again
            met session $variable=$number STOP_AT=-1 FATE=$fate
            note_answers
            expect_committed "$variable $number, $fate"
        done
    done
    echo "crashes: $row: $((number - 1)) calls failed"
}

# Leaves a durable session's log behind that has all its commits, as a kill before the closing does.
leave_log() {
    number=0
    while number=$((number + 1)); do
        begin_again
        met session STOP_AT=$number FATE=killed || fail "no log is left"
        [ "$(wc -l < out)" != "$(wc -l < session)" ] || break
    done
    [ -e file-commits ] && [ ! -e file-journal-new ] || fail "another state is left"
}

# A row of durable sessions, which begin with a file, and perhaps a log; the script is standard input.
durable() { # NAME WORD FILE [LOG]
    row=$1
    task="$2 --durable"
    rm -rf wants seen start
    mkdir wants seen start
    cp "$3" start/file
    [ -z "${4-}" ] || cp "$4" start/file-commits
    cat > session
    begin_again
    "$program" run file < empty || fail "the file isn't opened"
    cp file old
}

settlings=0

durable "three transactions in a durable run" run four << 'END'
begin
begin
put 1 a =1
put 2 c =3
commit 1
begin
put 3 h =open
put 3 x =open
del 2 d
commit 2
begin
put 4 a =gone
put 4 z =gone
abort 4
begin
put 5 e =5%20%25
commit 5
begin
put 6 b =open
END
next_too=yes
stop_durable 0 killed lost noise halves 1
fail_durable 0 FAIL_AT FAIL_FROM
leave_log
cp file left_file
cp file-commits left_log

durable "savepoints in a durable shell" shell four << 'END'
begin
begin
save 1
put 1 a =gone
back 1 1
put 1 c =1
claim 2 b
put 1 c =2
commit 1
get 2 c
put 2 b =3
put 2 i =4
save 2
del 2 d
commit 2
begin
commit 3
begin
put 4 f =open
END
next_too=no
stop_durable 0 4
fail_durable 0 FAIL_AT

durable "flushes in a durable shell" shell four << 'END'
begin
put 1 a =1
begin
put 2 c =2
commit 2
flush
commit 1
flush
begin
del 1 a
commit 1
flush
begin
put 1 x =open
begin
put 2 e =5
commit 2
END
stop_durable 0 killed lost noise
fail_durable 0 FAIL_AT

durable "a durable run that finds a log" run left_file left_log << 'END'
begin
begin
put 1 a =x
put 2 e =y
commit 2
commit 1
END
stop_durable 0 lost 3
fail_durable 0 FAIL_AT

# The third commit needs more paper.
long=$(printf '%0100d' 0)
unset SINGLE_BYTES
awk -v long="$long" 'BEGIN {
    for (t = 1; t <= 3; t++) {
        print "begin"
        for (i = 0; i < 250; i++) print "put " t " k" t " =" long
        print "commit " t
    }
}' > lines
durable "a log that grows" run four < lines
leave_log
[ "$(wc -c < file-commits)" -gt 100000 ] || fail "the log is $(wc -c < file-commits) bytes long"
stop_durable 25 lost 5
fail_durable 25 FAIL_AT

row="a disk without room for a longer log"
if mount -t tmpfs -o size=140k none small 2> /dev/null; then
    cp four small/file
    # The first and the third commit find room, and the second, which goes on, none.
    { sed 's/^put . k/put 1 m/; s/ [23]$/ 1/' lines | sed '/^begin$/d; /^commit/d'; echo commit 1; } > much
    { printf 'begin\nbegin\nput 2 n =x\ncommit 2\n'; cat much; printf 'begin\nput 3 o =x\ncommit 3\nabort 1\n'; } > session
    status=0
    "$program" run --durable small/file < session > out 2> err || status=$?
    [ "$status" = 0 ] && [ "$(grep -c '^no Device$' out)" = 1 ] || fail "status $status: $(grep -v '^ok' out; cat err)"
    [ "$(tail -n 1 out)" = "ok 750" ] && [ "$(echo small/*)" = small/file ] || fail "left are $(ls small): $(tail -n 1 out)"
    { list_of four | sed '$d'; printf -- '- n =x\n- o =x\nok 6\n'; } > want
    list_of small/file | cmp -s - want || fail "the file has other records"
    umount small
else
    echo "crashes: $row: left out, since nothing can be mounted"
fi

# Expects no session to take the log, and both files to stay.
expect_bad_commits() {
    save
    for word in run shell "run --durable" "shell --durable" load; do
        runs=$((runs + 1))
        status=0
        "$program" $word file < empty > out 2> err || status=$?
        [ "$status:$(cat err)" = "1:recfile: BadCommits" ] || fail "$1: $word: status $status: $(cat err)"
        cmp file saved/file && cmp file-commits saved/file-commits || fail "$1: $word: something has changed"
    done
}

# Puts a log, changed by sed where so asked, beside a file.
log_beside() { # FILE LOG [EDIT]
    rm -f file*
    cp "$1" file
    sed "${3-}" "$2" > file-commits
    [ -z "${3-}" ] || ! cmp -s "$2" file-commits || fail "$3 changes nothing"
}

row="a log that is none of the file's"
cp order_1 another
"$program" run another < filled_more > out
log_beside another left_log; expect_bad_commits "of another file"
log_beside order_1 left_log; expect_bad_commits "of a later state"
durable "" run left_file left_log < filled_more
leave_log
cp file later_file
cp file-commits later_log
row="a restored copy"
log_beside left_file later_log; expect_bad_commits "a restored copy under a log of a later state"
log_beside four left_log '1s/1 [0-9]*/2 4/'; expect_bad_commits "of another version"
log_beside four left_log '1s/1 [0-9]*/1 5/'; expect_bad_commits "of a file of more pages"
log_beside four left_log '1d'; expect_bad_commits "without a head"
log_beside four left_log '2,$s/^del/get/'; expect_bad_commits "a line that is none of a log"
log_beside four left_log; : > file-commits; expect_bad_commits "empty"
rm file*

row="a closed file with its log"
log_beside four left_log
"$program" run file < lister > listed && is_alone || fail "the log isn't taken"
cp file closed_file
log_beside closed_file left_log
"$program" run file < lister 2> err | cmp -s - listed && is_alone || fail "a closed file has other records"
log_beside later_file later_log
printf 'm\tx\n' > more
"$program" load file < more > out 2> err && is_alone || fail "records aren't loaded: $(cat err)"
list_of file > listed
grep -qx -- '- m =x' listed && grep -qx -- '- k =more' listed || fail "the file has the records $(cat listed)"

row="a log that was spoiled"
log_beside left_file left_log
python3 log_rows.py "$program" > spoiled || fail "$(cat spoiled)"
echo "crashes: $row: $(cat spoiled)"
runs=$((runs + $(sed 's/ .*//' spoiled)))

echo "crashes: $runs sessions passed, 0 failed"

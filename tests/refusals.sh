#!/bin/sh
# Runs the built program over page files with each growth of its memory refused in turn, alone and with all later ones. A
# number is counted upwards until a run doesn't meet it.
#
# Where memory is refused: the status and the fault are among those that the README names; every command that was run has
# its reply, but the one whose reply found no memory; the file is as it was, byte for byte, where it wasn't opened or closed
# or the session couldn't be ended, it is what a session without commands leaves where no script was read, and else it opens and
# has the records that the accepted commands leave by themselves. A line that is answered Memory is sent again, and a rollback
# that Memory stops is resumed (again.py): the session ends as one in which nothing is refused.
set -eu
cd "$(dirname "$0")/.."
program=${PROGRAM:-$PWD/crates/recfile_program/out/recfile_program}
# In memory where the system has such a folder, since each session syncs.
room=$(mktemp -d -p /dev/shm 2> /dev/null || mktemp -d)
trap 'rm -rf "$room"' EXIT
[ -x "$program" ] || {
    echo "refusals: there is no $program: rt ci makes it, and so does rt run in crates/recfile_program"
    exit 1
}
cc -O2 -shared -fPIC -o "$room/refuse.so" tests/refuse.c
cp tests/again.py "$room"
cd "$room"
runs=0

fail() {
    echo "refusals: FAILED: $row, $variable $number: $*"
    echo "status $status, faults and replies:"
    cat err out
    exit 1
}

# Runs the program with these words over the script, disturbed by the variable: its status, replies and faults.
disturbed() {
    rm -f met
    runs=$((runs + 1))
    status=0
    env "$variable=$number" MET="$room/met" LD_PRELOAD="$room/refuse.so" \
        "$program" "$@" < script > out 2> err || status=$?
    [ ! -e met ] || { echo "$variable: status $status $(tr '\n' ' ' < err)" >> outcomes; }
}

# How many replies there are in a file: lines but those of a list.
count_replies() {
    grep -c -v '^- ' "$1" || true
}

# The commands of the script that were accepted, by their replies, and the one of that number, whose reply is missing.
accepted_commands() {
    grep -v '^- ' out > replies || true
    awk -v done="$1" '
        FILENAME == "replies" { reply[FNR] = $0; next }
        FNR in reply ? reply[FNR] ~ /^ok/ : FNR == done' replies script
}

# The accepted replies, each with its list.
accepted_replies() {
    awk '/^- / { rows = rows $0 "\n"; next } /^ok/ { printf "%s%s\n", rows, $0 } { rows = "" }' out
}

# What the file of that path lists.
list_of() {
    printf 'list\n' > list
    "$program" run "$1" < list
}

# Expects the file to have what the accepted commands leave, and these to have had the same replies. A rollback that was
# stopped has another reply, and its transaction ends as if it had been aborted.
expect_accepted() {
    accepted_commands "$1" > alone
    cp old calm_file
    "$program" run $options calm_file < alone > alone_out 2> alone_err || fail "the accepted commands aren't run alone"
    if ! grep -q '^stopped ' out; then
        accepted_replies > kept
        head -n "$(wc -l < kept)" alone_out | cmp -s - kept || fail "an accepted command has another reply alone"
    fi
    list_of file > listed || fail "the file isn't opened"
    list_of calm_file > calm_listed
    cmp -s listed calm_listed || fail "the file has other records than the accepted commands leave"
}

# Expects so many replies.
expect_replies() {
    [ "$(count_replies out)" -eq "$1" ] || fail "there aren't $1 replies"
}

expect_old() {
    cmp -s file old || fail "the file isn't as it was"
}

# Expects one of the faults that a refused growth may have, with its status and what it leaves. The program's own words
# and its file's path take memory before anything is done.
expect_refused_run() {
    commands=$(wc -l < script)
    case "$status:$(tr '\n' ';' < err)" in
    0:)
        expect_replies "$commands"
        expect_accepted 0
        ;;
    2:'recfile: Memory;' | 1:'recfile: Device;'* | 2:'error: out of memory;')
        expect_replies 0
        expect_old
        ;;
    1:'recfile: Memory;')
        [ "$(count_replies out)" -eq 0 ] || expect_replies "$commands"
        expect_old
        ;;
    1:'recfile: Memory '[0-9]*';recfile: Memory;')
        done=$(head -n 1 err | sed 's/[^0-9]//g')
        expect_replies $((done > 0 ? done - 1 : 0))
        expect_old
        ;;
    3:'recfile: Memory 0;')
        expect_replies 0
        cmp -s file unchanged || fail "the file isn't what a session without commands leaves"
        ;;
    3:'recfile: Memory '[0-9]*';')
        done=$(sed 's/[^0-9]//g' err)
        expect_replies $((done - 1))
        expect_accepted "$done"
        ;;
    4:'recfile: Stopped '[0-9]*' '[0-9]*' '[0-9]*' Memory;')
        expect_replies "$commands"
        expect_old
        ;;
    4:'recfile: Memory '[0-9]*';recfile: Stopped '[0-9]*' '[0-9]*' '[0-9]*' Memory;')
        done=$(head -n 1 err | sed 's/[^0-9]//g')
        expect_replies $((done - 1))
        expect_old
        ;;
    *) fail "no such status and fault" ;;
    esac
}

# Refuses each growth of the row's session in turn: one alone, or all from that one on.
refuse_in_turn() {
    variable=$1
    number=0
    while number=$((number + 1)); do
        cp old file
        disturbed run $options file
        [ -e met ] || break
        expect_refused_run
    done
    expect_refused_run
    echo "refusals: $row: $variable: $((number - 1)) refused"
}

# Runs a row: its name, the file that it begins with, the options of its session, and its script on standard input. The
# file that it leaves is `new`.
session() {
    row=$1
    cp "$2" old
    options=$3
    cat > script
    cp old unchanged
    "$program" run $options unchanged < /dev/null || fail "a session without commands failed"
    refuse_in_turn REFUSE_GROWTH
    refuse_in_turn REFUSE_FROM
    python3 again.py "$program" ./refuse.so script old file $options || fail "asked again"
    cp old new
    "$program" run $options new < script > whole || fail "the session failed"
}

# Makes a new file of that order for the rows. Where that fails, no file is left.
make_file() {
    row="a new file of order $1"
    : > script
    for variable in REFUSE_GROWTH REFUSE_FROM; do
        number=0
        while number=$((number + 1)); do
            rm -f file
            disturbed create --order "$1" file
            [ -e met ] || break
            [ ! -e file ] || fail "a file is left"
        done
        [ "$status" -eq 0 ] || fail "the last run failed"
        echo "refusals: $row: $variable: $((number - 1)) met"
    done
    mv file "order_$1"
}

make_file 1
make_file 2

session "a rollback beside a commit" order_1 "" << 'END'
begin
begin
save 1
put 1 b =1
put 2 d =2
commit 2
back 1 1
list
END

session "a key in the root goes back" order_1 "" << 'END'
begin
begin
put 1 b =1
put 2 a =2
put 2 c =3
back 1 0
list
END

session "two partial rollbacks" order_1 "" << 'END'
begin
save 1
put 1 a =1
save 1
put 1 a =2
save 1
put 1 b =3
back 1 2
put 1 c =4
save 1
back 1 1
list
log
END

session "charged keys" order_1 "--records 2" << 'END'
begin
put 1 a =x
put 1 b =y
commit 1
begin
begin
del 2 a
del 2 a
put 3 c =z
put 2 c =z
commit 2
put 3 c =z
END

session "claimed keys" order_1 "--records 2" << 'END'
begin
begin
put 1 a =x
commit 1
begin
claim 2 a
put 3 a =y
claim 2 b
put 3 c =z
claim 3 c
keys 2
back 2 0
put 3 a =y
list
log
END

session "claims go back with puts" order_1 "" << 'END'
begin
begin
put 1 a =1
save 1
claim 1 a
claim 1 b
put 1 b =2
claim 2 c
back 1 1
claim 2 b
commit 1
claim 2 a
list
END

session "pages are split and catenated" order_2 "" << 'END'
begin
put 1 a =v
put 1 b =v
put 1 c =v
put 1 d =v
put 1 e =v
put 1 f =v
put 1 g =v
del 1 a
del 1 c
del 1 b
back 1 0
list
END

session "committed and open transactions" order_2 "" << 'END'
begin
begin
begin
put 3 m =keep
commit 3
put 1 a =x
put 2 b =y
END

cp new kept_file
session "claims alone leave the file" kept_file "" << 'END'
begin
begin
claim 1 m
claim 1 n
commit 1
claim 2 m
list
END
cmp new kept_file

session "a second session" kept_file "" << 'END'
list
begin
put 1 m =other
put 1 n =more
commit 1
keys 1
END

# Writes bytes over those of a file from a place on.
put_bytes() {
    printf "$3" | dd of="$1" bs=1 seek="$2" conv=notrunc status=none
}

# The records x, y and z at a, b and c in a file of the first version: the sons of page 3 begin at its byte 108, and not
# at 244.
cp order_1 old_file
printf 'begin\nput 1 a =x\nput 1 b =y\nput 1 c =z\ncommit 1\n' | "$program" run old_file > replies
put_bytes old_file 9 '\001'
put_bytes old_file 12396 '\000\000\000\001\000\000\000\002'
put_bytes old_file 12532 '\000\000\000\000\000\000\000\000'

session "a file of the first version" old_file "" << 'END'
list
begin
put 1 b =1
put 1 d =2
back 1 0
put 1 a =3
commit 1
END

sed -E 's/(Memory|Stopped)( [0-9]+)+/\1 N/g' outcomes | sort | uniq -c
# A load leaves all its records or none: where there is no memory to look at the file or to fill it, it answers Memory or puts
# the records one after another.
row="a file is filled with sorted records"
printf 'a\t1\nb\t2\nc\t3\nd\t4\ne\t5\n' > script
cp order_1 old
list_of old > old_listed
cp old new
"$program" load new < script || fail "the load failed"
list_of new > new_listed
for variable in REFUSE_GROWTH REFUSE_FROM; do
    number=0
    while number=$((number + 1)); do
        cp old file
        disturbed load file
        [ -e met ] || break
        list_of file > listed || fail "the file isn't opened"
        case "$status:$(head -n 1 err)" in
        0:) cmp -s listed new_listed || fail "a record isn't there" ;;
        [123]:'recfile: Memory'* | 2:'error: out of memory' | 1:'recfile: Device')
            cmp -s listed old_listed || fail "a record stays"
            ;;
        *) fail "no such status and fault" ;;
        esac
    done
    [ "$status" -eq 0 ] && cmp -s file new || fail "the last run failed"
    echo "refusals: $row: $variable: $((number - 1)) refused"
done

# Where memory is refused in a durable session the next one finds what the commits that were answered made, and perhaps the
# one whose reply couldn't be written; and so it does where memory is refused in putting them in.
row="a durable session"
cat > script << 'END'
begin
begin
put 1 a =1
put 2 c =3
commit 1
begin
del 2 m
put 3 o =open
commit 2
begin
put 4 a =5
abort 4
put 3 a =6
END
cp kept_file old
commits_leave() { # NUMBER: what stands in the file, by the accepted commands and the one of that number
    accepted_commands "$1" > alone
    cp old calm_file
    "$program" run calm_file < alone > alone_out 2> alone_err || fail "the accepted commands aren't run alone"
    list_of calm_file | cmp -s - listed
}
expect_committed() {
    case "$status:$(head -n 1 err)" in
    0: | [134]:'recfile: '* | 2:'recfile: Memory' | 2:'error: out of memory') ;;
    *) fail "no such status and fault" ;;
    esac
    list_of file > listed || fail "the next session doesn't open the file"
    [ "$(echo file*)" = file ] || fail "something stands beside the file"
    commits_leave 0 || commits_leave $(($(count_replies out) + 1)) || fail "the file has other records: $(cat listed)"
}
rm -f file*
for variable in REFUSE_GROWTH REFUSE_FROM; do
    number=0
    while number=$((number + 1)); do
        cp old file
        disturbed run --durable file
        [ -e met ] || break
        [ ! -e file-commits ] || { cp file left; cp file-commits left_log; }
        expect_committed
    done
    [ "$status" -eq 0 ] || fail "the last run failed"
    echo "refusals: $row: $variable: $((number - 1)) refused"
done

row="commits that are put in"
: > script
cp left file
cp left_log file-commits
list_of file > left_listed
for variable in REFUSE_GROWTH REFUSE_FROM; do
    number=0
    while number=$((number + 1)); do
        cp left file
        cp left_log file-commits
        disturbed run file
        [ -e met ] || break
        list_of file | cmp -s - left_listed || fail "the file has other records"
        [ "$(echo file*)" = file ] || fail "something stands beside the file"
    done
    [ "$status" -eq 0 ] || fail "the last run failed"
    echo "refusals: $row: $variable: $((number - 1)) refused"
done

echo "refusals: $runs passed, 0 failed"

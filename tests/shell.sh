#!/bin/sh
# The word shell of the built program: each script of the examples and of the other tests has the replies that it has as
# a script, in one piece and byte by byte, with each reply written before more is read; the bound of a line; ends,
# readers and writers that fail; refusals that end a run; a million lines in little memory; dumps that are loaded; keys in
# order; and a session in a terminal.
set -eu
cd "$(dirname "$0")/.."
program=$(realpath "${1:-crates/recfile_program/out/recfile_program}")
room=$(mktemp -d)
trap 'rm -rf "$room"' EXIT
cc -O2 -shared -fPIC -o "$room/slow.so" tests/slow.c
cc -O2 -shared -fPIC -o "$room/refuse.so" tests/refuse.c
# The scripts of the other tests: what stands between END and END.
cat examples/*.sh tests/refusals.sh | awk -v room="$room" '
    /<< ?.END.$/ { file = sprintf("%s/script_%02d", room, ++n); next }
    /^END$/ { close(file); file = ""; next }
    file { print > file }'
cp session.txt "$room/script_00"
cd "$room"
runs=0
row=
failing=0
even=0

fail() {
    echo "shell: FAILED: $row: $*"
    exit 1
}

# Runs a shell with these words, and standard input; its replies, faults and status.
shell() {
    runs=$((runs + 1))
    status=0
    "$program" shell "$@" > out 2> err || status=$?
}

# The same where a read gives so many bytes; the read of the number `failing` fails, and where `even` is 1 each reply is
# to be written before more is read.
slow_shell() {
    bytes=$1
    shift
    runs=$((runs + 1))
    status=0
    env SHORT_READ="$bytes" FAIL_READ="$failing" ONE_REPLY="$even" LD_PRELOAD="$room/slow.so" "$program" shell "$@" \
        > out 2> err || status=$?
}

expect() { # STATUS FAULT: the status, and what stands on standard error
    [ "$status" = "$1" ] || fail "status $status, $(cat err)"
    [ "$(cat err)" = "$2" ] || fail "faults $(cat err)"
}

expect_replies() { # REPLIES: as printf writes them
    printf -- "$1" | cmp -s - out || fail "replies $(head -c 300 out)"
}

# Both words over a file of each order, and in memory.
row="the replies of scripts"
scripts=0
for script in script_*; do
    scripts=$((scripts + 1))
    "$program" memory < "$script" > replies 2> faults
    for bytes in 1 2 7 4096; do
        slow_shell $bytes < "$script"
        cmp -s out replies && cmp -s err faults && [ $status = 0 ] || fail "$script, $bytes bytes a read"
    done
    shell < "$script"
    cmp -s out replies && [ $status = 0 ] || fail "$script in one piece"
    for order in 1 16; do
        rm -f run.rec shell.rec
        "$program" create --order $order run.rec
        cp run.rec shell.rec
        "$program" run run.rec < "$script" > replies
        slow_shell 1 shell.rec < "$script"
        cmp -s out replies && [ $status = 0 ] || fail "$script over a file of order $order"
        cmp -s run.rec shell.rec || fail "$script leaves another file of order $order"
    done
done
[ $scripts -ge 15 ] || fail "there are $scripts scripts"

# Each of these lines has one line of reply.
row="a reply before more is read"
awk 'BEGIN { print "begin"; for (i = 1; i <= 300; i++) { print "put 1 k" i " =x"; print "get 1 k" i; print "no such line" } print "commit 1" }' > lines
"$program" memory < lines > replies
even=1
for bytes in 1 3 4096; do
    slow_shell $bytes < lines
    [ $status = 0 ] && cmp -s out replies || fail "$bytes bytes a read, status $status"
done
even=0
mkfifo to from
"$program" shell < to > from &
exec 3> to 4< from
for number in 1 2 3 4 5 6 7 8 9; do
    echo begin >&3
    read -r reply <&4
    [ "$reply" = "ok $number" ] || fail "begin $number has the reply $reply"
done
exec 3>&- 4<&-
wait

# Each script has the replies that it has without the option, and leaves the same file alone.
row="a durable shell"
for script in script_*; do
    rm -f durable.rec shell.rec
    "$program" create --order 2 shell.rec
    cp shell.rec durable.rec
    "$program" shell shell.rec < "$script" > replies
    shell --durable durable.rec < "$script"
    expect 0 ""
    cmp -s out replies || fail "$script has other replies"
    cmp -s shell.rec durable.rec || fail "$script leaves another file"
    [ "$(echo durable.rec*)" = durable.rec ] || fail "$script leaves something beside the file"
done
rm durable.rec
"$program" create durable.rec
cp durable.rec before.rec
"$program" shell --durable durable.rec < to > from &
exec 3> to 4< from
for line in begin "put 1 a =x" "commit 1" begin "put 2 b =y"; do
    echo "$line" >&3
    read -r reply <&4
done
{ tail -n +2 durable.rec-commits | tr -d '\000'; echo .; } > kept
printf 'begin\nput 1 a =x\ncommit 1\n.\n' | cmp -s - kept || fail "while it runs the log says $(cat kept)"
cmp -s durable.rec before.rec || fail "while it runs the file isn't as it was"
exec 3>&- 4<&-
wait
[ "$(echo durable.rec*)" = durable.rec ] || fail "something stands beside the file: $(echo durable.rec*)"
echo list | "$program" run durable.rec > out
expect_replies "- a =x\nok 1\n"
rm before.rec

# A flush while no transaction is open, however the lines come, is answered once the file has what was committed and the log has
# no commit; the numbers begin again. Else it is no line of a session: while one is open, without the option, in a script.
row="a flush"
cat > script << 'END'
begin
put 1 a =y
flush
commit 1
flush
begin
del 1 a
commit 1
flush

flush
begin
put 1 b =open
END
bad="bad UnknownCommand"
replies="ok 1\nok =x\n$bad\nok\nok\nok 1\nok =y\nok\nok\nok\nok 1\nok none\n"
for bytes in 1 3 4096; do
    cp durable.rec flushed.rec
    slow_shell $bytes --durable flushed.rec < script
    expect 0 ""
    expect_replies "$replies"
    [ "$(echo flushed.rec*)" = flushed.rec ] || fail "something stands beside the file: $(echo flushed.rec*)"
    echo list | "$program" run flushed.rec > out
    expect_replies "ok 0\n"
done
cp durable.rec flushed.rec
shell --durable --begins 2 flushed.rec < script
expect 0 ""
expect_replies "$replies"
shell --durable --strict flushed.rec < script
expect 3 "recfile: Refused 3"
printf 'flush\nbegin\nflush' > ends
shell --durable --strict flushed.rec < ends
expect 3 "recfile: Refused 2"
expect_replies "ok\nok 1\n$bad\n"
for words in "shell flushed.rec" shell "run --durable flushed.rec"; do
    echo flush | "$program" $words > out
    expect_replies "$bad\n"
done
cp durable.rec flushed.rec
"$program" shell --durable flushed.rec < to > from &
exec 3> to 4< from
for line in begin "del 1 a" "commit 1" flush begin; do
    echo "$line" >&3
    read -r reply <&4
done
[ "$reply" = "ok 1" ] || fail "behind a flush the reply is $reply"
tail -n +2 flushed.rec-commits | tr -d '\000' > kept
[ ! -s kept ] || fail "behind a flush the log says $(cat kept)"
status=0
"$program" shell flushed.rec < /dev/null > out 2> err || status=$?
[ "$status:$(head -n 1 err)" = "1:recfile: Device" ] || fail "another session opens the file: status $status, $(cat err)"
exec 3>&- 4<&-
wait
rm -f flushed.rec script ends kept

spaced() { # WORD LENGTH: a line of that length with its LF
    awk -v word="$1" -v length_wanted="$2" 'BEGIN { printf "%s%*s\n", word, length_wanted - length(word), "" }'
}

row="the bound of a line"
{
    spaced begin 65536
    spaced begin 65537
    spaced "#" 65536
    spaced "#" 65537
    spaced begin 1000000
    echo begin
} > lines
"$program" memory < lines > out 2> err || status=$?
grep -q ScriptTooLong err || fail "a script of this length is read"
shell < lines
expect 0 ""
expect_replies "ok 1\nbad LineTooLong\nbad LineTooLong\nbad LineTooLong\nok 2\n"
for bytes in 1 4095 4096; do
    slow_shell $bytes < lines
    expect_replies "ok 1\nbad LineTooLong\nbad LineTooLong\nbad LineTooLong\nok 2\n"
done
spaced begin 65537 > lines
"$program" memory < lines > out || fail "no script"
expect_replies "ok 1\n"
head -c 65537 lines > part
shell < part
expect_replies "bad LineTooLong\n"
head -c 65536 lines > part
shell < part
expect_replies "ok 1\n"
shell --strict < lines
expect 3 "recfile: Refused 1"

row="an end in mid-line"
printf 'begin\nput 1 a =x\nget 1 a' > lines
shell < lines
expect 0 ""
expect_replies "ok 1\nok none\nok =x\n"
printf 'begin\n\nput 1 a' > lines
shell < lines
expect_replies "ok 1\nbad WordCount\n"
printf '' > lines
shell < lines
expect 0 ""
expect_replies ""
printf 'begin\nlog\r' > lines
shell < lines
expect_replies "ok 1\nok 0 0\n"
printf '\n \n#' > lines
shell < lines
expect_replies ""

row="what is open is taken back"
"$program" create --order 2 a.rec
printf 'begin\nput 1 a =x\ncommit 1\nbegin\nput 2 b =y\n' > lines
shell a.rec < lines
expect 0 ""
echo list > lines
shell a.rec < lines
expect_replies "- a =x\nok 1\n"

row="a file that isn't opened"
printf x >> a.rec
echo begin > lines
shell a.rec < lines
expect 1 "recfile: BadLength"
expect_replies ""

row="a reader that fails"
status=0
"$program" shell <&- > out 2> err || status=$?
expect 3 "recfile: ReadFault"
status=0
"$program" shell < . > out 2> err || status=$?
expect 3 "recfile: ReadFault"
printf 'begin\nput 1 a =x\ncommit 1\nbegin\nput 2 b =y\nlog' > lines
for failing in 1 8 26 27 36 44 47; do
    rm -f b.rec
    "$program" create --order 2 b.rec
    slow_shell 1 b.rec < lines
    expect 3 "recfile: ReadFault"
    # The lines that ended before that read, and no others, have replies.
    head -c $((failing - 1)) lines | tr -dc '\n' | wc -c > ended
    [ "$(wc -l < out)" = "$(tr -d ' ' < ended)" ] || fail "read $failing: replies $(cat out)"
    echo list | "$program" run b.rec > listed
    if [ $failing -ge 27 ]; then printf -- '- a =x\nok 1\n'; else printf 'ok 0\n'; fi | cmp -s - listed || fail "read $failing: records $(cat listed)"
done
failing=0

row="a writer that fails"
rm -f b.rec
"$program" create --order 2 b.rec
cp b.rec before.rec
status=0
"$program" shell b.rec < lines > /dev/full 2> err || status=$?
expect 3 "recfile: WriteFault 1"
cmp -s b.rec before.rec || fail "the file isn't as it was"
status=0
(
    trap '' PIPE
    # A pipe whose reader is gone when the first reply is written.
    mkfifo gone
    : < gone &
    exec 4> gone
    wait
    "$program" shell b.rec < lines >&4 2> err || echo $? > status
)
case $(cat status) in 3) grep -q "^recfile: WriteFault " err || fail "faults $(cat err)" ;; *) fail "status $(cat status)" ;; esac

# A refusal of each kind, in the third line of a transaction that would be committed: the file is as it was.
row="refusals end a strict run"
refused() { # OPTIONS LINE REPLY [BEFORE]: the line has that reply after the lines before it, and ends the run
    options=$1 line=$2 reply=$3 before=${4:-"begin
put 1 a =y"}
    cp base.rec c.rec
    number=$(printf '%s\n%s\n' "$before" "$line" | wc -l)
    printf '%s\n%s\ncommit 1\nput 1 z =z\n' "$before" "$line" > lines
    for bytes in 1 4096; do
        slow_shell $bytes --strict $options c.rec < lines
        expect 3 "recfile: Refused $((number))"
        [ "$(tail -n 1 out)" = "$reply" ] || fail "$line has the reply $(tail -n 1 out)"
        [ "$(wc -l < out)" = "$((number))" ] || fail "$line: replies $(cat out)"
        cmp -s c.rec base.rec || fail "$line: the file isn't as it was"
    done
}
rm -f base.rec
"$program" create --order 1 base.rec
printf 'begin\nput 1 a =1\nput 1 b =2\nput 1 c =3\ncommit 1\n' | "$program" run base.rec > out
refused "" "put 2 a =x" "no NoSuchTx"
refused "" "del 1 q" "no Absent"
refused "" "resume 1" "no NotRolling"
refused "" "back 1 3" "no NoSuchSave"
refused "" "put 2 a =x" "no Held 1" "begin
begin
put 1 a =y"
refused "--records 3" "put 1 d =x" "no Full"
refused "--log 2" "put 1 b =x" "no LogFull"
refused "--begins 1" "begin" "no BeginsSpent"
refused "" "frob" "bad UnknownCommand"
refused "" "put 1 a" "bad WordCount"
refused "" "get x a" "bad BadNumber"
refused "" "get 1 abcdefghijklmnopq" "bad KeyTooLong"
refused "" "put 1 a y" "bad NoRecordMark"
refused "" "put 1 a =$(awk 'BEGIN { printf "%101s", "" }' | tr ' ' x)" "bad RecordTooLong"
refused "" "$(spaced log 65537)" "bad LineTooLong"
# A rollback is stopped where its memory is refused.
printf 'begin\nput 1 b =y\ndel 1 a\nabort 1\nbegin\nput 2 z =z\ncommit 2\n' > lines
number=0
stops=0
while number=$((number + 1)); do
    rm -f met
    cp base.rec c.rec
    status=0
    REFUSE_GROWTH=$number MET="$room/met" LD_PRELOAD="$room/refuse.so" "$program" shell --strict c.rec < lines > out 2> err || status=$?
    [ -e met ] || break
    case $(cat out) in *stopped*)
        stops=$((stops + 1))
        expect 3 "recfile: Refused 4"
        cmp -s c.rec base.rec || fail "stopped: the file isn't as it was"
        ;;
    esac
done
[ $stops -gt 0 ] || fail "no rollback was stopped"
printf 'put 1 a =x\nbegin\n' > lines
shell c.rec < lines
expect 0 ""
expect_replies "no NoSuchTx\nok 1\n"

row="a million lines"
awk 'BEGIN { print "begin"; print "put 1 a =x"; for (i = 0; i < 500000; i++) { print "get 1 a"; print "what is this" } print "commit 1" }' > lines
status=0
(
    ulimit -v 16384
    "$program" shell < lines > out 2> err
) || status=$?
expect 0 ""
[ "$(wc -l < out)" = 1000003 ] && [ "$(tail -n 1 out)" = ok ] || fail "replies $(wc -l < out)"
rm out lines

# Records with every byte in keys and records, and many: out of one file into others.
row="dumps are loaded"
loaded() { # FROM TO: the dump of one file goes into the other, whose dump is the same then
    "$program" dump "$1" > dumped
    "$program" shell --strict "$2" < dumped > out 2> err || fail "$1 into $2: $(cat err)"
    "$program" dump "$2" | cmp -s - dumped || fail "$1 into $2: other records"
    "$program" check "$2" > checked || fail "$2 isn't checked"
}
new_file() { # ORDER FILE
    rm -f "$2"
    "$program" create --order "$1" "$2"
}
in_first_version() { # FILE: the header says the first version
    printf '\001' | dd of="$1" bs=1 seek=9 conv=notrunc status=none
}
new_file 2 none.rec
new_file 16 to.rec
loaded none.rec to.rec
awk 'BEGIN {
    print "begin"
    for (b = 0; b < 256; b++) {
        printf "put 1 %%%02X =%%%02X\n", b, 255 - b
        printf "put 1 x%%%02Xy =", b
        for (i = 0; i < 100; i++) printf "%%%02X", (b + i) % 256
        printf "\n"
    }
    print "commit 1"
}' > lines
new_file 3 bytes.rec
shell --strict bytes.rec < lines
expect 0 ""
for order in 1 2 16; do
    new_file $order to.rec
    loaded bytes.rec to.rec
    new_file $order old.rec
    in_first_version old.rec
    loaded bytes.rec old.rec
done
awk 'BEGIN {
    print "begin"
    for (i = 0; i < 100000; i++) printf "put 1 %%00%06d%%FF =%%00%d%%20%%0A%%FF\n", (i * 7919) % 100000, i
    print "commit 1"
}' > lines
new_file 16 many.rec
shell --strict many.rec < lines
expect 0 ""
for order in 1 8; do
    new_file $order to.rec
    [ $order = 8 ] && in_first_version to.rec
    loaded many.rec to.rec
    [ "$(sed 's/.*records \([0-9]*\).*/\1/' checked)" = 100000 ] || fail "$(cat checked)"
done
rm -f lines out dumped

# The keys of one of two transactions, put from the last to the first, some of them twice, with beginnings in common.
row="keys in order"
for count in 1 2 32 33 3000 65536 65537; do
    awk -v count=$count 'BEGIN {
        print "begin"
        print "begin"
        print "put 2 another =x"
        for (i = count; i > 0; i--) {
            key = i % 2 ? sprintf("common%06d", i) : sprintf("%06d", i)
            print "put 1 " key " =x"
            if (i % 5 == 0) print "put 1 " key " =y"
        }
        print "keys 1"
    }' > lines
    sed -n 's/^put 1 \(.*\) =x$/- \1/p' lines | LC_ALL=C sort > want
    echo "ok $count" >> want
    shell < lines
    expect 0 ""
    tail -n $((count + 1)) out | cmp -s - want || fail "$count keys aren't in order"
done
rm -f lines out want

row="a session in a terminal"
if command -v script > /dev/null; then
    printf 'begin\nput 1 apple =red\nfrob\nlist\n\004' > typed
    script -qec "$program shell" /dev/null < typed | tr -d '\r' > seen
    for reply in "recfile> ok 1" "recfile [1]> ok none" "bad UnknownCommand" "recfile [1]> - apple =red @1"; do
        grep -qxF -- "$reply" seen || fail "the terminal shows $(cat seen)"
    done
else
    echo "shell: the terminal is left out, since there is no script"
fi

echo "shell: $runs passed, 0 failed"

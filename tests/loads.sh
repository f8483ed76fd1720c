#!/bin/sh
# The words load and dump with a form, of the built program, and create without an order: what each form writes, and reads
# again; that a load puts all records or none; and each line that it refuses, by its number.
set -eu
cd "$(dirname "$0")/.."
program=$(realpath "${1:-crates/recfile_program/out/recfile_program}")
room=$(mktemp -d)
trap 'rm -rf "$room"' EXIT
cd "$room"
runs=0

fail() {
    echo "loads: FAILED: $row: $*"
    cat out err
    exit 1
}

# Runs the program with these words, and standard input: what it writes, its faults and its status.
run() {
    runs=$((runs + 1))
    status=0
    "$program" "$@" > out 2> err || status=$?
}

expect() { # STATUS FAULT: nothing is written, and this is told first
    [ $status = "$1" ] || fail "status $status"
    [ ! -s out ] || fail "something is written"
    [ "$(head -n 1 err)" = "$2" ] || fail "that is told"
}

row="an order that isn't asked for"
run create usual.rec
expect 0 ""
run check usual.rec
[ "$(cat out)" = "order 16 height 0 records 0 pages 1 free 0" ] || fail "the order is another"

# Each byte that one of the forms writes in another way, and some that none does.
row="each form"
"$program" create any.rec
printf 'begin\nput 1 apple =dark%%20red\nput 1 %%09%%0A%%0D\\ =%%00%%1F%%7F%%80%%FF\nput 1 "a,b" ="\nput 1 last =\ncommit 1\n' | "$program" run any.rec > out
run dump --tsv any.rec
printf '\\t\\n\\r\\\\\t\000\037\177\200\377\n"a,b"\t"\napple\tdark red\nlast\t\n' | cmp -s - out || fail "lines of tabs"
run dump --csv any.rec
printf '"\t\n\r\\","\000\037\177\200\377"\n"""a,b""",""""\n"apple","dark red"\n"last",""\n' | cmp -s - out || fail "lines of commas"
run dump --json any.rec
python3 - out <<'END' || fail "lines of JSON"
import json
import sys

wanted = [("\t\n\r\\", "\0\x1f\x7f\x80\xff"), ('"a,b"', '"'), ("apple", "dark red"), ("last", "")]
lines = [json.loads(line) for line in open(sys.argv[1], encoding="ascii")]
sys.exit([(line["key"], line["record"]) for line in lines] != wanted)
END
run dump --csv any.rec
python3 - out <<'END' || fail "another reader of commas"
import csv
import sys

wanted = [["\t\n\r\\", "\0\x1f\x7f\x80\xff"], ['"a,b"', '"'], ["apple", "dark red"], ["last", ""]]
sys.exit(list(csv.reader(open(sys.argv[1], encoding="latin-1", newline=""))) != wanted)
END

row="what is written is read again"
"$program" dump any.rec > wanted
for form in tsv csv; do
    "$program" dump --$form any.rec > lines
    rm -f again.rec
    "$program" create --order 1 again.rec
    case $form in csv) run load --csv again.rec < lines ;; tsv) run load again.rec < lines ;; esac
    expect 0 ""
    "$program" dump again.rec | cmp -s - wanted || fail "$form gives other records"
done

row="lines as others write them"
"$program" create plain.rec
printf 'cherry\tdark red\r\n\nlime\tgreen' > lines
run load plain.rec < lines
expect 0 ""
printf 'plum,blue\r\n"fig, dried",brown\n' > lines
run load --csv plain.rec < lines
expect 0 ""
printf 'cherry\tbright red\n' > lines
run load plain.rec < lines
expect 0 ""
run dump --tsv plain.rec
printf 'cherry\tbright red\nfig, dried\tbrown\nlime\tgreen\nplum\tblue\n' | cmp -s - out || fail "other records"
: > lines
run load plain.rec < lines
expect 0 ""

row="lines that are refused"
cp plain.rec before.rec
refused() { # LINES FAULT [OPTION]: the file is as it was
    printf "$1" > lines
    run load ${3:-} plain.rec < lines
    expect 3 "recfile: $2"
    cmp -s plain.rec before.rec || fail "the file was changed"
}
refused 'a\tb\nfig green\n' "FieldCount in line 2"
refused 'a\tb\n\n\nc\td\te\n' "FieldCount in line 4"
refused '\tb\n' "KeyEmpty in line 1"
refused 'a\tb\nabcdefghijklmnopq\tb\n' "KeyTooLong in line 2"
refused "a\tb\nb\t$(printf '%101s' x)\n" "RecordTooLong in line 2"
refused 'a\t\\x\n' "BadEscape in line 1"
refused 'a\tb\\\n' "BadEscape in line 1"
refused 'a,b\nc\n' "FieldCount in line 2" --csv
refused '"a\nb",c\nd,e,f\n' "FieldCount in line 3" --csv
refused 'abcdefghijklmnopq,b\n' "KeyTooLong in line 1" --csv

# How a check tells of so many sorted records: as few pages on each level as have room for them.
fullest() { # ORDER COUNT
    awk -v k="$1" -v n="$2" 'BEGIN {
        pages = 1
        for (left = n; left > 0; pages += left + 1) { height++; left = int(left / (2 * k + 1)) }
        printf "order %d height %d records %d pages %d free 0\n", k, height, n, pages
    }'
}

row="sorted records fill their pages"
sorted() { awk -v n="$1" 'BEGIN { for (i = 1; i <= n; i++) printf "%06d\trecord %d\n", i, i }'; }
filled() { # ORDER COUNT
    rm -f sorted.rec
    "$program" create --order "$1" sorted.rec
    sorted "$2" > lines
    run load sorted.rec < lines
    expect 0 ""
    run check sorted.rec
    [ "$(cat out)" = "$(fullest "$1" "$2")" ] || fail "$2 records of order $1 have other pages"
    run dump --tsv sorted.rec
    cmp -s out lines || fail "$2 records of order $1 are other ones"
}
for count in 0 1 2 3 4 5 8 9 10 26 27 28 80 81 82; do filled 1 $count; done
for count in 0 1 3 4 5 6 24 25 26 124 125 126; do filled 2 $count; done
for count in 0 1 31 32 33 34 64 65 66 1087 1088 1089 1090 35936 35937; do filled 16 $count; done
"$program" create --order 1 first.rec
printf '\001' | dd of=first.rec bs=1 seek=9 conv=notrunc status=none
sorted 9 > lines
run load first.rec < lines
expect 0 ""
[ "$(od -An -tu1 -j8 -N2 first.rec | tr -d ' ')" = 02 ] || fail "the file is of the first version"
run check first.rec
[ "$(cat out)" = "$(fullest 1 9)" ] || fail "9 records have other pages"
printf 'begin\ndel 1 000001\nput 1 0000005 =more\ncommit 1\n' | "$program" run sorted.rec > out
run check sorted.rec
[ $status = 0 ] || fail "the file can't be changed"

row="records that are put one after another"
put_singly() { # ORDER LINES: into the file, as a script puts them
    sed 's/\(.*\)\t\(.*\)/put 1 \1 =\2/; s/=record /=record%20/; 1s/^/begin\n/; $s/$/\ncommit 1/' lines > script
    cp "$1" singly.rec
    "$program" shell singly.rec < script > out
    "$program" dump singly.rec > wanted
    run load "$1" < lines
    expect 0 ""
    "$program" dump "$1" | cmp -s - wanted || fail "$1 has other records"
}
"$program" create --order 1 unsorted.rec
sorted 40 | sort -r > lines
put_singly unsorted.rec
"$program" create --order 1 twice.rec
(sorted 9; printf '000009\tother\n') > lines
put_singly twice.rec
"$program" create --order 1 begun.rec
printf 'begin\nput 1 000003 =mine\nput 1 z =last\ncommit 1\n' | "$program" run begun.rec > out
sorted 40 > lines
put_singly begun.rec
"$program" create --order 1 emptied.rec
"$program" load emptied.rec < lines
sed 's/\(.*\)\t.*/del 1 \1/; 1s/^/begin\n/; $s/$/\ncommit 1/' lines | "$program" shell emptied.rec > out
put_singly emptied.rec

row="sorted records that are refused"
"$program" create --order 1 none.rec
cp none.rec before.rec
sorted 4 > lines
run load --records 3 none.rec < lines
expect 3 "recfile: Full in line 4"
"$program" dump before.rec > wanted
"$program" dump none.rec | cmp -s - wanted || fail "a record stays"
cp before.rec none.rec
(cat lines; echo x) > broken
run load none.rec < broken
expect 3 "recfile: FieldCount in line 5"
cmp -s none.rec before.rec || fail "the file was changed"
run load --records 4 none.rec < lines
expect 0 ""
run dump --tsv none.rec
cmp -s out lines || fail "other records"

row="more records than a file may have"
cp plain.rec before.rec
perl -e 'printf "%07d\tx\n\n", $_ for 1 .. 1000001' > lines
run load plain.rec < lines
expect 3 "recfile: Full in line 1999993"
"$program" dump before.rec > wanted
"$program" dump plain.rec | cmp -s - wanted || fail "the records were changed"

row="a file that isn't opened"
printf 'a\tb\n' > lines
run load missing.rec < lines
expect 1 "recfile: Device"
printf x > short.rec
run load short.rec < lines
expect 1 "recfile: BadLength"
run load plain.rec < .
expect 3 "recfile: ReadFault"

row="words that don't go together"
for words in "--tsv --csv" "--csv --json" "--json --tsv"; do
    run dump $words plain.rec
    [ $status = 2 ] && grep -q "^error: the argument '--.*' cannot be used with '--" err || fail "that is told"
done
runs=$((runs + 1))
status=0
"$program" dump --json plain.rec > /dev/full 2> err || status=$?
: > out
expect 3 "recfile: WriteFault"

echo "loads: $runs passed, 0 failed"

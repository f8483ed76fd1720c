#!/bin/sh
# The words show and rescue of the built program: what they draw and write of whole files, of each kind of damage and of
# paths that lead to no file, and that they never fail, over seeded damaged files.
#   tests/looks.sh [PROGRAM [COUNT [SEED]]]
set -eu
cd "$(dirname "$0")/.."
here=$PWD
program=$(realpath "${1:-crates/recfile_program/out/recfile_program}")
room=$(mktemp -d)
trap 'rm -rf "$room"' EXIT
cd "$room"
runs=0

fail() {
    echo "looks: FAILED: $row: $*"
    head -n 30 out err
    exit 1
}

# Runs the program with these words: what it writes, its faults and its status.
look() {
    runs=$((runs + 1))
    status=0
    timeout 10 "$program" "$@" > out 2> err < /dev/null || status=$?
}

expect() { # STATUS: what stands in `wanted` is written, and what stands in `faults` told
    [ $status = "$1" ] || fail "status $status"
    cmp -s out wanted || fail "$(diff out wanted)"
    cmp -s err faults || fail "$(diff err faults)"
}

put_bytes() { # FILE PLACE BYTES: writes bytes over those of a file
    printf "$3" | dd of="$1" bs=1 seek="$2" conv=notrunc status=none
}

"$program" create --order 1 three.rec
printf 'begin\nput 1 a =x\nput 1 b =y\nput 1 c =z\ncommit 1\n' | "$program" run three.rec > out
: > faults

row="a whole file"
cat > wanted <<END
order 1, records 3, pages 4
page 3 [#.] b
+-- page 1 [#.] a
+-- page 2 [#.] c
level 1: pages 1, keys 1, 50 of 100 places taken
level 2: pages 2, keys 2, 50 of 100 places taken
free pages:
END
cp wanted tree
look show three.rec
expect 0
printf 'begin\nput 1 a =x\nput 1 b =y\nput 1 c =z\ncommit 1\n' > wanted
look rescue three.rec
expect 0

row="a log of commits, and a side file, beside a whole file"
cp wanted script
{ printf 'commits 1 4 1\nbegin\nput 1 d =w\ncommit 1\n'; head -c 4096 /dev/zero; } > three.rec-commits
cat > faults <<END
beside it stands $room/three.rec-commits, a log of commits, 1 in number. It was begun over other pages: where they change a record, a session answers BadCommits. Bring back the file that it belongs to, or move it away
left out: what stands beside three.rec
END
look rescue three.rec
expect 0
cp tree wanted
look show three.rec
expect 0
rm three.rec-commits
echo old > three.rec-journal
cat > faults <<END
beside it stands $room/three.rec-journal, and it isn't the whole side file of this file: a session answers BadJournal. Bring back the file that it belongs to, or take it away
left out: what stands beside three.rec
END
look show three.rec
expect 0
cp script wanted
look rescue three.rec
expect 0
rm three.rec-journal
: > faults

row="three levels, and pages that are free"
"$program" create --order 1 seven.rec
for key in a b c d e f g h i j k l m n o; do echo "put 1 $key ="; done | { echo begin; cat; echo commit 1; } | "$program" run seven.rec > out
printf 'begin\ndel 1 n\ndel 1 o\ncommit 1\n' | "$program" run seven.rec > out
look show seven.rec
grep -qx "|   +-- page 1 \[#.\] a" out || fail "the lines of a branch that goes on"
grep -qx "    +-- page [0-9]* \[#.\] m" out || fail "the lines of the last branch"
grep -qx "free pages: [0-9 to]*" out || fail "the free pages"
printf 'begin\nput 1 %%20%%3C%%26 =\ncommit 1\n' | "$program" run seven.rec > out
look show seven.rec
grep -q " %20<& a$" out || fail "an escaped key"
look show --svg seven.rec
grep -q "%20&lt;&amp;</text>" out || fail "an escaped key of a picture"
"$program" create --order 1 none.rec
look show none.rec
printf 'order 1, records 0, pages 1\nfree pages:\n' > wanted
expect 0

row="a picture"
look show --svg three.rec
[ $status = 0 ] && [ ! -s err ] || fail "status $status"
python3 - out <<'END' || fail "that is no picture"
import sys
import xml.etree.ElementTree as tree

picture = tree.parse(sys.argv[1]).getroot()
texts = ["".join(text.itertext()).strip() for text in picture.iter("{http://www.w3.org/2000/svg}text")]
wanted = {"page 1", "page 2", "page 3", "a", "b", "c", "order 1, records 3, pages 4, of which 0 are free"}
lines = len(list(picture.iter("{http://www.w3.org/2000/svg}path")))
sys.exit(not wanted <= set(texts) or lines != 2)
END

row="a large tree"
awk 'BEGIN { print "begin"; for (i = 0; i < 5000; i++) printf "put 1 k%05d =x\n", i; print "commit 1" }' > lines
"$program" create --order 2 large.rec
"$program" run large.rec < lines > out
look show large.rec
[ $status = 0 ] && [ "$(grep -c 'page [0-9]* \[' out)" = "$(awk '/^level/ { sub(",", "", $4); n += $4 } END { print n }' out)" ] || fail "the pages aren't all drawn"
[ "$(grep -o ' k[0-9][0-9]*' out | sort -u | wc -l)" = 5000 ] || fail "the keys aren't all drawn"
look show --svg large.rec
[ "$(grep -c 'font-weight' out)" -le 120 ] || fail "too many pages are drawn"

row="damaged files"
cp three.rec damaged.rec
put_bytes damaged.rec 4105 d
cat > wanted <<END
order 1, records 3, pages 4
page 3 [#.] b
+-- page 1 [#.] d
+-- !! page 1, byte 9: 100 stands there; expected is a key between those on the two sides in the pages above
+-- page 2 [#.] c
level 1: pages 1, keys 1, 50 of 100 places taken
level 2: pages 2, keys 2, 50 of 100 places taken
free pages:
END
look show damaged.rec
expect 1
printf 'begin\nput 1 b =y\nput 1 c =z\nput 1 d =x\ncommit 1\n' > wanted
look rescue damaged.rec
expect 0
put_bytes damaged.rec 4096 '\003'
cat > wanted <<END
order 1, records 3, pages 4
page 3 [#.] b
+-- !! page 1, byte 0: 3 stands there; expected is 1, of a leaf, or 2, of an inner page
+-- page 2 [#.] c
level 1: pages 1, keys 1, 50 of 100 places taken
level 2: pages 1, keys 1, 50 of 100 places taken
free pages:
END
echo "page 0, byte 20: 3 stands there; expected is 2, the keys that the tree has" > faults
look show damaged.rec
expect 1
printf 'begin\nput 1 b =y\nput 1 c =z\ncommit 1\n' > wanted
echo "left out: page 1, byte 0: 3 stands there; expected is 1, of a leaf, or 2, of an inner page" > faults
look rescue damaged.rec
expect 0
look show --svg damaged.rec
[ $status = 1 ] && grep -q ">page 1, not whole</text>" out || fail "the page isn't marked"

row="a root that is damaged"
cp three.rec damaged.rec
put_bytes damaged.rec 12288 '\000'
printf 'begin\nput 1 a =x\nput 1 c =z\ncommit 1\n' > wanted
cat > faults <<END
taken: page 1, to which the tree doesn't lead: its records may be old ones
taken: page 2, to which the tree doesn't lead: its records may be old ones
left out: page 3, byte 0: 0 stands there; expected is 1, of a leaf, or 2, of an inner page
END
look rescue damaged.rec
expect 0

row="a header that is damaged"
cp three.rec damaged.rec
put_bytes damaged.rec 0 x
printf 'begin\nput 1 a =x\nput 1 b =y\nput 1 c =z\ncommit 1\n' > wanted
cat > faults <<END
page 0, byte 0: 120 stands there; expected is the text BMKRFILE
taken: page 1, to which the tree doesn't lead: its records may be old ones
taken: page 2, to which the tree doesn't lead: its records may be old ones
taken: page 3, to which the tree doesn't lead: its records may be old ones
END
look rescue damaged.rec
expect 0
look show damaged.rec
[ $status = 1 ] && [ ! -s out ] && [ "$(cat err)" = "page 0, byte 0: 120 stands there; expected is the text BMKRFILE" ] || fail "status $status"
# Another order than the tree's: each page is tried in all.
cp three.rec damaged.rec
put_bytes damaged.rec 11 '\002'
look rescue damaged.rec
[ $status = 0 ] && cmp -s out wanted || fail "a record is left out"

# A record that was put anew is on a page of the tree, and the old one on a free page before it.
row="an old record on a free page"
"$program" create --order 1 old.rec
for key in a b c d e f g; do echo "put 1 $key =old"; done | { echo begin; cat; echo commit 1; } | "$program" run old.rec > out
printf 'begin\ndel 1 a\ndel 1 b\ndel 1 c\nput 1 a =new\nput 1 b =new\nput 1 c =new\ncommit 1\n' | "$program" run old.rec > out
"$program" dump old.rec > wanted
cp old.rec damaged.rec
put_bytes damaged.rec 23 '\377'
look rescue damaged.rec
[ $status = 0 ] && cmp -s out wanted || fail "$(diff out wanted)"

row="files of another length"
head -c 12290 three.rec > short.rec
look rescue short.rec
printf 'begin\nput 1 a =x\nput 1 c =z\ncommit 1\n' > wanted
[ $status = 0 ] && cmp -s out wanted || fail "a record is left out"
grep -qx "left out: 2 bytes behind the last page" err || fail "the rest isn't told"
: > empty.rec
look rescue empty.rec
printf 'begin\ncommit 1\n' > wanted
[ $status = 0 ] && cmp -s out wanted || fail "status $status"
look show empty.rec
[ $status = 1 ] && [ ! -s out ] || fail "status $status"

row="paths without a file"
mkfifo pipe.rec
for path in missing.rec nowhere/missing.rec . pipe.rec /dev/null; do
    for word in show rescue; do
        look $word $path
        [ $status = 1 ] && [ ! -s out ] && [ -s err ] || fail "$word of $path has status $status"
    done
done

row="a text that can't be written"
for words in "show three.rec" "show --svg three.rec" "rescue three.rec"; do
    runs=$((runs + 1))
    status=0
    "$program" $words > /dev/full 2> err || status=$?
    [ $status = 3 ] && [ "$(cat err)" = "recfile: WriteFault" ] || fail "$words: status $status"
done

row="a file that another program has open"
if command -v flock > /dev/null; then
    for word in show rescue; do
        runs=$((runs + 1))
        status=0
        flock three.rec "$program" $word three.rec > out 2> err || status=$?
        [ $status = 1 ] && [ ! -s out ] && [ -s err ] || fail "$word has status $status"
    done
fi

row="the pictures of docs/pictures, which examples/tree.sh draws"
mkdir drawn programs
ln -s "$program" programs/recfile
(cd drawn && PATH=$room/programs:$PATH sh "$here/examples/tree.sh" > ../out)
rm drawn/tree.rec drawn/replies
diff -r "$here/docs/pictures" drawn > out || fail "they are others"
runs=$((runs + 1))

python3 "$here/tests/damage.py" "$program" "$room" "${2:-300}" "${3:-1}"
echo "looks: $runs passed, 0 failed"

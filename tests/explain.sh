#!/bin/sh
# The word explain of the built program, over whole files, each damaged file that docs/FORMAT.md names, and files that
# aren't opened: its status is that of a check, it names the place, what stands there and what was expected, and it
# changes nothing.
set -eu
cd "$(dirname "$0")/.."
here=$PWD
program=$(realpath "${1:-crates/recfile_program/out/recfile_program}")
room=$(realpath "$(mktemp -d)")
trap 'rm -rf "$room"' EXIT
cd "$room"
runs=0

fail() {
    echo "explain: FAILED: $row: $*"
    cat out err
    exit 1
}

put_bytes() { # FILE PLACE BYTES: writes bytes over those of a file
    printf "$3" | dd of="$1" bs=1 seek="$2" conv=notrunc status=none
}

# Expects explain to have the status of a check, to write this line among others, and to leave the file.
expect() { # FILE STATUS LINE
    runs=$((runs + 1))
    cp "$1" before.rec
    checked=0
    "$program" check "$1" > out 2> err || checked=$?
    status=0
    "$program" explain "$1" > out 2> err || status=$?
    [ $status = "$2" ] && [ $checked = "$2" ] || fail "status $status, and of a check $checked"
    grep -qxF -- "$3" out || fail "there is no line '$3'"
    [ ! -s err ] || fail "standard error isn't empty"
    cmp -s "$1" before.rec || fail "the file was changed"
}

# Three records at a, b and c in a file of order 1: two leaves, 1 and 2, and the root, 3.
"$program" create --order 1 three.rec
printf 'begin\nput 1 a =x\nput 1 b =y\nput 1 c =z\ncommit 1\n' | "$program" run three.rec > out
cp three.rec old.rec
put_bytes old.rec 9 '\001'
put_bytes old.rec 12396 '\000\000\000\001\000\000\000\002'
put_bytes old.rec 12532 '\000\000\000\000\000\000\000\000'

row="whole files"
expect three.rec 0 "the file is whole"
expect three.rec 0 "  level 2: pages 2, keys 2, 50 of 100 places taken"
expect old.rec 0 "  bytes 8 and 9, the version: 1"
expect old.rec 0 "the tree: levels 2, keys 3, pages 3, and 0 pages are free"
"$program" create --order 16 none.rec
expect none.rec 0 "the tree: levels 0, keys 0, pages 0, and 0 pages are free"
awk 'BEGIN { print "begin"; for (i = 0; i < 5000; i++) printf "put 1 k%05d =x\n", (i * 7919) % 5000; print "commit 1" }' > lines
"$program" create --order 2 large.rec
"$program" run large.rec < lines > out
expect large.rec 0 "the file is whole"
grep -q "^the tree: levels [4-9], keys 5000, pages [0-9]*, and 0 pages are free$" out || fail "the tree is another"

damaged() { # FILE PLACE BYTES LINE: explain names that of the file with these bytes
    cp "$1" damaged.rec
    put_bytes damaged.rec "$2" "$3"
    expect damaged.rec 1 "$4"
}

row="damaged files"
damaged three.rec 0 '\000' "page 0, byte 0: 0 stands there; expected is the text BMKRFILE"
damaged three.rec 9 '\011' "page 0, byte 8: 9 stands there; expected is 1 or 2, a version"
damaged three.rec 9 '\003' "page 0, byte 8: 3 stands there; expected is 1 or 2, a version"
damaged three.rec 9 '\001' "page 3, byte 108: 0 stands there; expected is a page from 1 to below 4 that nothing else leads to"
damaged old.rec 9 '\002' "page 3, byte 244: 0 stands there; expected is a page from 1 to below 4 that nothing else leads to"
for file in three.rec old.rec; do
    damaged $file 11 '\000' "page 0, byte 10: 0 stands there; expected is 1 to 16, an order"
    damaged $file 11 '\021' "page 0, byte 10: 17 stands there; expected is 1 to 16, an order"
    damaged $file 24 '\002' "page 0, byte 24: 2 stands there; expected is 1, of a file that was closed"
    damaged $file 24 '\003' "page 0, byte 24: 3 stands there; expected is 1, of a file that was closed, or 2, of one that is being written"
    damaged $file 100 '\007' "page 0, byte 100: 7 stands there; expected is 0, since no field has this byte"
    damaged $file 15 '\005' "page 0, byte 12: 5 stands there; expected is 4, the pages that the file has"
    damaged $file 19 '\004' "page 0, byte 16: 4 stands there; expected is a page below 4, or 0 for no page"
    damaged $file 23 '\004' "page 0, byte 20: 4 stands there; expected is 3, the keys that the tree has"
    damaged $file 4096 '\003' "page 1, byte 0: 3 stands there; expected is 1, of a leaf, or 2, of an inner page"
    damaged $file 4105 d "page 1, byte 9: 100 stands there; expected is a key between those on the two sides in the pages above"
    damaged $file 4099 '\000' "page 1, byte 2: 0 stands there; expected is 1 to 2, a number of keys"
    damaged $file 4104 '\021' "page 1, byte 8: 17 stands there; expected is 1 to 16, the length of a key"
    damaged $file 4106 '\001' "page 1, byte 10: 1 stands there; expected is 0, since no field has this byte"
    damaged $file 10192 '\001' "page 2, byte 2000: 1 stands there; expected is 0, since no field has this byte"
done
damaged three.rec 4121 '\145' "page 1, byte 25: 101 stands there; expected is 0 to 100, the length of a record"
damaged old.rec 4121 '\041' "page 1, byte 25: 33 stands there; expected is 0 to 32, the length of a record"
damaged three.rec 12539 '\003' "page 3, byte 248: 3 stands there; expected is a page from 1 to below 4 that nothing else leads to"
damaged three.rec 12539 '\004' "page 3, byte 248: 4 stands there; expected is a page from 1 to below 4 that nothing else leads to"
damaged old.rec 12403 '\003' "page 3, byte 112: 3 stands there; expected is a page from 1 to below 4 that nothing else leads to"
damaged old.rec 12403 '\004' "page 3, byte 112: 4 stands there; expected is a page from 1 to below 4 that nothing else leads to"

# Two keys in a page: the second one isn't above the first, by being the same and by being lower.
"$program" create --order 1 two.rec
printf 'begin\nput 1 b =x\nput 1 d =y\ncommit 1\n' | "$program" run two.rec > out
damaged two.rec 4223 b "page 1, byte 127: 98 stands there; expected is a key above the one before it"
damaged two.rec 4223 a "page 1, byte 127: 97 stands there; expected is a key above the one before it"

# What the header says by itself is compared with the file, above it and below it: page and record counts that are too low.
row="counts that are too low"
for file in three.rec old.rec; do
    damaged $file 15 '\003' "page 0, byte 12: 3 stands there; expected is 4, the pages that the file has"
    damaged $file 15 '\000' "page 0, byte 12: 0 stands there; expected is 4, the pages that the file has"
    damaged $file 23 '\002' "page 0, byte 20: 2 stands there; expected is 3, the keys that the tree has"
    damaged $file 23 '\000' "page 0, byte 20: 0 stands there; expected is 3, the keys that the tree has"
done

# A file of order 1 whose inner pages lead to a leaf and to the next inner page, or the other way round, and the last one
# to two leaves: as many levels as asked for, of which each but the first has a leaf.
chain() { # LEVELS FIRST: whether the leaf or the inner page comes first
    perl -e '
        my ($levels, $first) = @ARGV;
        sub page { my $page = shift; return $page . "\0" x (4096 - length $page) }
        sub node {
            my ($kind, $key, @sons) = @_;
            my $text = pack("CCnN", $kind, 0, 1, 0) . pack("Ca16Ca100", 2, pack("n", $key), 0, "");
            return page($text . "\0" x (244 - length $text) . pack("N*", @sons));
        }
        print page("BMKRFILE" . pack("nnNNNC", 2, 1, 2 * $levels, 1, 2 * $levels - 1, 1));
        # Page 2i - 1 is the inner page of level i, and page 2i the leaf below it.
        for my $i (1 .. $levels - 1) {
            my ($key, $leaf, @sons) = $first eq "leaf"
                ? (2 * $i, 2 * $i - 1, 2 * $i, 2 * $i + 1)
                : (2 * ($levels - $i), 2 * ($levels - $i) + 1, 2 * $i + 1, 2 * $i);
            print node(2, $key, @sons), node(1, $leaf);
        }
        print node(1, $first eq "leaf" ? 2 * $levels - 1 : 1);
    ' "$@"
}

row="leaves of several levels, and trees that are too high"
for first in leaf inner; do
    chain 2 $first > chain.rec
    expect chain.rec 0 "the tree: levels 2, keys 3, pages 3, and 0 pages are free"
done
chain 3 leaf > chain.rec
expect chain.rec 1 "page 4, byte 0: 1 stands there; expected is a leaf at level 2, as the first one"
chain 12 inner > chain.rec
expect chain.rec 1 "page 20, byte 0: 1 stands there; expected is a leaf at level 12, as the first one"
chain 19 inner > chain.rec
expect chain.rec 1 "page 34, byte 0: 1 stands there; expected is a leaf at level 19, as the first one"
chain 20 inner > chain.rec
expect chain.rec 1 "page 37, byte 0: 2 stands there; expected is no inner page as deep as that"

high() { # LEVELS: a tree of that many levels whose inner pages have one key
    perl -e '
        my $levels = shift;
        my (@pages, $count);
        sub page { my $page = shift; return $page . "\0" x (4096 - length $page) }
        sub node {
            my ($kind, $key, @sons) = @_;
            my $text = pack("CCnN", $kind, 0, 1, 0) . pack("Ca16Ca100", 4, pack("N", $key), 0, "");
            return page($text . "\0" x (244 - length $text) . pack("N*", @sons));
        }
        sub tree {
            my ($level, $low, $high) = @_;
            my $number = ++$count;
            my $middle = int(($low + $high) / 2);
            if ($level == $levels) { $pages[$number] = node(1, $middle); return $number }
            my $left = tree($level + 1, $low, $middle);
            $pages[$number] = node(2, $middle, $left, tree($level + 1, $middle, $high));
            return $number;
        }
        my $root = tree(1, 0, 2 ** 30);
        print page("BMKRFILE" . pack("nnNNNC", 2, 1, $count + 1, $root, $count, 1)), @pages[1 .. $count];
    ' "$1"
}
high 12 > high.rec
expect high.rec 0 "the tree: levels 12, keys 4095, pages 4095, and 0 pages are free"
expect high.rec 0 "  level 12: pages 2048, keys 2048, 50 of 100 places taken"

# Words that stand in the text, whatever else does.
explains() { # PATH STATUS LINE
    runs=$((runs + 1))
    status=0
    timeout 10 "$program" explain "$1" > out 2> err || status=$?
    [ $status = "$2" ] || fail "$1 has status $status"
    grep -qxF -- "$3" out || fail "there is no line '$3'"
    [ ! -s err ] || fail "standard error isn't empty"
}

row="more records than a session may have"
perl -e '
    my $keys = 1000001;
    sub page { my $page = shift; return $page . "\0" x (4096 - length $page) }
    my $count = 0;
    # Leaves of 32 keys with a key between two, and so on up; what is left over goes into the last ones.
    sub node {
        my ($kind, $keys, @sons) = @_;
        my $text = pack("CCnN", $kind, 0, scalar @$keys, 0);
        $text .= pack("Ca16Ca100", 4, pack("N", $_), 0, "") for @$keys;
        print page($text . "\0" x (8 + 236 * 16 - length $text) . pack("N*", @sons));
        return ++$count;
    }
    my $pages = int(($keys + 33) / 33);
    open my $head, ">", "head" or die;
    open my $body, ">", "body" or die;
    select $body;
    my (@nodes, @between);
    my $from = 0;
    for my $i (0 .. $pages - 1) {
        my $upto = int(($keys - $pages + 1) * ($i + 1) / $pages) + $i;
        push @nodes, node(1, [$from .. $upto - 1]);
        push @between, $upto if $i < $pages - 1;
        $from = $upto + 1;
    }
    while (@nodes > 1) {
        my $parents = int((@between + 33) / 33);
        my (@up, @keys, $at);
        $at = 0;
        for my $i (0 .. $parents - 1) {
            my $upto = int((@between - $parents + 1) * ($i + 1) / $parents) + $i;
            push @up, node(2, [@between[$at .. $upto - 1]], @nodes[$at .. $upto]);
            push @keys, $between[$upto] if $i < $parents - 1;
            $at = $upto + 1;
        }
        @nodes = @up;
        @between = @keys;
    }
    print $head page("BMKRFILE" . pack("nnNNNC", 2, 16, $count + 1, $nodes[0], $keys, 1));
    close $head; close $body;
'
cat head body > full.rec
rm head body
explains full.rec 1 "a session may have at most 1000000 records"
"$program" check full.rec > out 2> err || [ "$(cat err)" = "recfile: TooManyRecords" ] || fail "a check says $(cat err)"
rm full.rec

row="what can be done"
advised() { # PLACE BYTES LINE: of a file with these bytes
    cp three.rec damaged.rec
    put_bytes damaged.rec "$1" "$2"
    explains damaged.rec 1 "$3"
}
advised 0 '\000' "This is no page file: look for the path of one."
advised 9 '\011' "A later program may have written this file: open it with that one."
advised 24 '\002' "A closing was stopped: with a side file beside it, an empty run puts the file right; else take a copy from before it."
advised 24 '\003' "A closing was stopped: with a side file beside it, an empty run puts the file right; else take a copy from before it."
advised 11 '\000' "The file was changed by something else, or its device failed: take a copy from before it, or dump an older one."
advised 4096 '\003' "The file was changed by something else, or its device failed: take a copy from before it, or dump an older one."
advised 23 '\004' "The file was changed by something else, or its device failed: take a copy from before it, or dump an older one."

row="files of another length"
head -c 8191 three.rec > short.rec
expect short.rec 1 "a page file has 1 to 1000001 pages and no bytes after them: it was cut, or it is none"
: > empty.rec
expect empty.rec 1 "the length: 0 bytes, 0 pages of 4096 and 0 bytes more"
head -c 8192 three.rec > fewer.rec
expect fewer.rec 1 "page 0, byte 12: 4 stands there; expected is 2, the pages that the file has"

row="a file that may not be written"
explains three.rec 0 "three.rec is opened to be read and written"
as=
if [ "$(id -u)" = 0 ]; then
    command -v setpriv > /dev/null && as="setpriv --reuid 65534 --regid 65534 --clear-groups"
    chmod 755 "$room"
fi
if [ "$(id -u)" != 0 ] || [ -n "$as" ]; then
    cp "$program" ./recfile
    chmod 755 recfile
    chmod 444 three.rec
    runs=$((runs + 1))
    status=0
    $as ./recfile explain three.rec > out 2> err || status=$?
    [ $status = 0 ] || fail "status $status"
    grep -qxF "three.rec is opened to be read, but not to be written: Permission denied (os error 13)" out || fail "the file is called writable"
    chmod 000 three.rec
    runs=$((runs + 1))
    status=0
    $as ./recfile explain three.rec > out 2> err || status=$?
    [ $status = 1 ] || fail "status $status"
    grep -qxF "the system doesn't open three.rec: Permission denied (os error 13)" out || fail "the rights aren't named"
    grep -q "^you have no rights to read it" out || fail "nothing is advised"
    chmod 644 three.rec
    # In a folder that may not be written nothing is made beside a file, and no file.
    for line in "three.rec no session can close it, since the system makes no file beside it" "missing.rec none can be made there"; do
        runs=$((runs + 1))
        $as ./recfile explain "${line%% *}" > out 2> err || true
        grep -qxF "${line#* }: Permission denied (os error 13)" out || fail "the folder's rights aren't named"
    done
    rm recfile
fi

row="files that aren't opened"
explains missing.rec 1 "the system doesn't open missing.rec: No such file or directory (os error 2)"
explains missing.rec 1 "there is no such file in .: recfile create missing.rec makes one"
explains "$room/missing.rec" 1 "there is no such file in $room: recfile create $room/missing.rec makes one"
explains nowhere/missing.rec 1 "there is no such folder: nowhere"
explains three.rec/missing.rec 1 "the system doesn't open three.rec/missing.rec: Not a directory (os error 20)"
ln -s missing.rec dangling.rec
explains dangling.rec 1 "dangling.rec is a link to a file that isn't there"
explains . 1 ". is a folder, and no page file: it isn't opened"
explains /dev/null 1 "/dev/null is a device, and no page file: it isn't opened"
long=$(printf '%0246d' 0).rec
cp three.rec "$long"
explains "$long" 1 "its name is too long for that of a side file beside it: no session opens it"
explains "$long" 1 "the file is whole, and no session opens it"
rm "$long"
mkfifo pipe.rec
explains pipe.rec 1 "pipe.rec is a pipe, and no page file: it isn't opened"

if perl -MIO::Socket::UNIX -e 'IO::Socket::UNIX->new(Local => "socket.rec", Listen => 1) or exit 1' 2> /dev/null; then
    explains socket.rec 1 "socket.rec is a socket, and no page file: it isn't opened"
else
    echo "explain: $row: a socket left out, since none is made"
fi

# Memory is refused at each growth: the file is told of as it is, or why not, and is never called anything else.
row="memory that is refused"
cc -O2 -shared -fPIC -o refuse.so "$here/tests/refuse.c"
"$program" explain large.rec > whole
number=0
unlooked=0
while number=$((number + 1)); do
    rm -f met
    runs=$((runs + 1))
    status=0
    env REFUSE_GROWTH=$number MET="$room/met" LD_PRELOAD="$room/refuse.so" "$program" explain large.rec > out 2> err || status=$?
    [ -e met ] || break
    if grep -qx "there is no memory to look at the pages" out; then unlooked=$((unlooked + 1)); fi
    case $status in
    0) cmp -s out whole || fail "growth $number: another text" ;;
    1 | 2) if grep -q "the file is whole" out; then fail "growth $number: the file is called whole"; fi ;;
    *) fail "growth $number: status $status" ;;
    esac
done
[ $unlooked -gt 0 ] || fail "no growth is one of the pages"

# Each call that looks at the file or beside it fails in turn, alone and with all later ones: what couldn't be seen is told,
# and a file that wasn't looked at is never called whole.
row="calls that fail"
failing() { # FILE: all that is told of it is in the file told
    "$program" explain "$1" > whole || true
    for call in pread flock statx realpath; do
        for which in FAIL_AT FAIL_FROM; do
            number=0
            while number=$((number + 1)); do
                # What was made beside it and couldn't be looked at again stays, and an opening takes it away.
                rm -f met "$1-journal-new"
                runs=$((runs + 1))
                status=0
                env FAIL=$call $which=$number MET="$room/met" LD_PRELOAD="$room/refuse.so" "$program" explain "$1" > out 2> err || status=$?
                [ -e met ] || break
                cat out >> told
                case $status in
                0) grep -v "^no session can close it" out | cmp -s - whole || fail "$call $number: another text" ;;
                1) if grep -qx "the file is whole" out; then fail "$call $number: the file is called whole"; fi ;;
                *) fail "$call $number: status $status" ;;
                esac
            done
            [ $number -gt 1 ] || fail "no call is $call"
        done
    done
    rm -f "$1-journal-new"
}
told() { # LINE
    grep -qxF -- "$1" told || fail "nothing is told as '$1'"
}
: > told
failing three.rec
told "the system doesn't open three.rec: Input/output error (os error 5)"
told "the system doesn't lock three.rec: No locks available (os error 37)"
told "the system doesn't tell its length: Input/output error (os error 5)"
told "no session can close it, since the system makes no file beside it: Input/output error (os error 5)"
told "what stands beside it can't be read: $room/three.rec-journal"
told "the system doesn't tell the whole path of three.rec: Input/output error (os error 5)"
for page in 0 1 2 3; do
    told "page $page can't be read: Input/output error (os error 5)"
done

row="a full file system"
mkdir small
if mount -t tmpfs -o size=20k none small 2> /dev/null; then
    cp three.rec small/three.rec
    explains small/three.rec 0 "the file is whole"
    if grep -q "no session can close it" out; then fail "there is room"; fi
    explains small/missing.rec 1 "there is no such file in small: recfile create small/missing.rec makes one"
    if grep -q "none can be made there" out; then fail "there is room"; fi
    head -c 4096 /dev/zero > small/filler
    explains small/three.rec 0 "no session can close it, since the system makes no file beside it: No space left on device (os error 28)"
    explains small/missing.rec 1 "none can be made there: No space left on device (os error 28)"
    [ "$(ls small)" = "filler
three.rec" ] || fail "something is left: $(ls small)"
    umount small
else
    echo "explain: $row: left out, since nothing can be mounted"
fi

row="another name"
ln three.rec twin.rec
explains three.rec 0 "three.rec is one of 2 names of the file: each has a side file of its own, so keep one of them"
rm twin.rec

# What stands beside a file is what a session over it would say.
row="a side file"
beside() { # LINE: of three.rec with what stands in its side file's place, over which a session is BadJournal
    explains three.rec 1 "$1"
    if grep -qx "the file is whole" out; then fail "the file is called whole"; fi
    cp three.rec before.rec
    status=0
    "$program" run three.rec < /dev/null > out 2> err || status=$?
    [ $status = 1 ] && [ "$(cat err)" = "recfile: BadJournal" ] || fail "a session has status $status: $(cat err)"
    cmp -s three.rec before.rec || fail "the session changed the file"
}
stray="beside it stands $room/three.rec-journal, and it isn't the whole side file of this file: a session answers BadJournal. Bring back the file that it belongs to, or take it away"
: > three.rec-journal
beside "$stray"
echo rubbish > three.rec-journal
beside "$stray"
head -c 4132 /dev/zero > three.rec-journal
beside "$stray"
printf 'BMKRJRNL' | dd of=three.rec-journal conv=notrunc status=none
beside "$stray"
ln -s three.rec link.rec
explains link.rec 1 "beside it stands $room/three.rec-journal, and it isn't the whole side file of this file: a session answers BadJournal. Bring back the file that it belongs to, or take it away"
rm three.rec-journal
explains link.rec 0 "the file is whole"
: > link.rec-journal
explains link.rec 0 "the file is whole"

# A session that is stopped before each of its calls that change a file, until one leaves a side file.
row="the side file of a stop"
cc -O2 -shared -fPIC -o crash.so "$here/tests/crash.c"
number=0
while [ ! -e stopped.rec-journal ]; do
    number=$((number + 1))
    [ $number -lt 50 ] || fail "no stop leaves a side file"
    rm -f stopped.rec*
    cp three.rec stopped.rec
    printf 'begin\nput 1 d =w\ncommit 1\n' | env STOP_AT=$number FATE=killed MET="$room/met" LD_PRELOAD="$room/crash.so" \
        "$program" run stopped.rec > out 2> err || true
done
explains stopped.rec 1 "beside it stands $room/stopped.rec-journal: a session was stopped while it closed the file, and the next one puts the old pages back"
explains stopped.rec 1 "the file is whole by itself, and not with what stands beside it"
cp stopped.rec-journal whole-journal
cp stopped.rec halfway.rec
: > told
failing stopped.rec
told "what stands beside it can't be read: $room/stopped.rec-journal"
for place in 0 9 10 15 19 23 31 35 40 4131; do
    cp whole-journal stopped.rec-journal
    put_bytes stopped.rec-journal $place '\377'
    explains stopped.rec 1 "beside it stands $room/stopped.rec-journal, and it isn't the whole side file of this file: a session answers BadJournal. Bring back the file that it belongs to, or take it away"
    status=0
    "$program" run stopped.rec < /dev/null > out 2> err || status=$?
    [ $status = 1 ] && [ "$(cat err)" = "recfile: BadJournal" ] || fail "a session has status $status: $(cat err)"
done
cp whole-journal stopped.rec-journal
"$program" run stopped.rec < /dev/null
explains stopped.rec 0 "the file is whole"

row="a log of commits"
# The head of a log of a file: how many pages it has, and the sum over them.
head_of() { # FILE
    perl -e '
        use integer;
        local $/;
        my $bytes = <STDIN>;
        my $sum = 0xcbf29ce484222325;
        $sum = ($sum ^ $_) * 0x100000001b3 for unpack("N*", $bytes);
        printf "commits 1 %d %u\n", length($bytes) / 4096, $sum;
    ' < "$1"
}
log() { # FILE TEXT: a log with this text, and paper behind it
    { printf '%b' "$2"; head -c 4096 /dev/zero; } > "$1-commits"
}
head=$(head_of three.rec)
stands="beside it stands $room/three.rec-commits, a log of commits,"
ours="A session was stopped before it closed the file, and the next one puts them in"
others="It was begun over other pages: where they change a record, a session answers BadCommits. Bring back the file that it belongs to, or move it away"
one='begin\nput 1 d =w\ncommit 1\n'
two='begin\ndel 2 a\nput 2 commit =c\ncommit 2\n'
cp three.rec kept.rec
logged() { # TEXT LINE: of three.rec with a log of this text, which nothing that only reads opens
    log three.rec "$1"
    cp three.rec-commits kept
    explains three.rec 1 "$2"
    if grep -qx "the file is whole" out; then fail "the file is called whole"; fi
    for words in "check three.rec" "dump three.rec" "copy three.rec copied.rec"; do
        status=0
        "$program" $words > out 2> err || status=$?
        [ $status = 1 ] && [ "$(cat err)" = "recfile: NotClean" ] || fail "$words has status $status: $(cat err)"
    done
    [ ! -e copied.rec ] || fail "a copy is made"
    cmp -s three.rec kept.rec && cmp -s three.rec-commits kept || fail "a file was changed"
    # A session does what is told of it.
    wanted=1:recfile:\ BadCommits
    case $2 in *"next one puts them in" | "the file is whole by"*) wanted=0: ;; esac
    status=0
    "$program" run three.rec < /dev/null > out 2> err || status=$?
    [ "$status:$(cat err)" = "$wanted" ] || fail "a session has status $status: $(cat err)"
    [ $status = 0 ] || cmp -s three.rec kept.rec || fail "a session changed the file"
    [ -e three.rec-commits ] || [ $status = 0 ] || fail "a session took the log away"
    cp kept.rec three.rec
}
logged "$head\n" "$stands 0 in number. $ours"
logged "$head\n$one" "$stands 1 in number. $ours"
logged "$head\n$one$two" "$stands 2 in number. $ours"
logged "$head\n$one$two" "the file is whole by itself, and not with what stands beside it"
logged "$head\n${one}begin\nput 2 e =v\ncommit 2" "$stands 1 in number. $ours"
logged "$head\n$one\0begin\ncommit 2\n" "$stands 1 in number. $ours"
logged "${head% *} 1\n$one" "$stands 1 in number. $others"
logged "commits 1 3 ${head##* }\n$one" "$stands 1 in number. $others"
strange="beside it stands $room/three.rec-commits, and it has no head of a log of commits of version 1: a session answers BadCommits. Move it away"
for text in "" "$one" "commits 2 4 1\n$one" "commits 01 ${head#* 1 }\n$one" "$head"; do
    logged "$text" "$strange"
done
for text in "commits 1 3" "$head 5" "commits 1 3 x" "commits 1 3 " "commits 1 0${head#* 1 }"; do
    logged "$text\n$one" "$stands 1 in number. $others"
done
log three.rec "$head\n$one"
: > told
failing three.rec
told "what stands beside it can't be read: $room/three.rec-commits"
mv three.rec-commits kept
explains three.rec 0 "the file is whole"
for planted in 'ln -s kept three.rec-commits' 'ln -s nowhere three.rec-commits' 'mkdir three.rec-commits' 'mkfifo three.rec-commits'; do
    sh -c "$planted"
    explains three.rec 1 "beside it stands $room/three.rec-commits, and it is no regular file: a session answers BadCommits. Move it away"
    status=0
    "$program" run three.rec < /dev/null > out 2> err || status=$?
    [ $status = 1 ] && [ "$(cat err)" = "recfile: BadCommits" ] || fail "a session has status $status: $(cat err)"
    rm -rf three.rec-commits
done
cp halfway.rec stopped.rec
cp kept stopped.rec-commits
cp whole-journal stopped.rec-journal
explains stopped.rec 1 "beside it stands $room/stopped.rec-commits, a log of commits, 1 in number. Whether it is one of this file can't be told before the old pages are put back"
explains stopped.rec 1 "beside it stands $room/stopped.rec-journal: a session was stopped while it closed the file, and the next one puts the old pages back"
rm stopped.rec-*

row="a text that can't be written"
runs=$((runs + 1))
status=0
"$program" explain three.rec > /dev/full 2> err || status=$?
[ $status = 3 ] && [ "$(cat err)" = "recfile: WriteFault" ] || fail "status $status: $(cat err)"

row="a file that another program has open"
if command -v flock > /dev/null; then
    runs=$((runs + 1))
    status=0
    flock three.rec "$program" explain three.rec > out 2> err || status=$?
    [ $status = 1 ] && grep -qx "another program has three.rec open: ask again when it has ended" out || fail "the other program isn't named"
fi

echo "explain: $runs passed, 0 failed"

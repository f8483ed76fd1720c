#!/bin/sh
# Deletions by the built program from page files of every order: keys go from the first on, from the last on, from the
# middle outwards and shuffled, all in one session, whose pages lie in memory after the first deletions, and a few in
# each session, which finds its pages in the file. Each reply is the record that was put; after each session the file is a
# tree of its order with the records that are left.
set -eu
cd "$(dirname "$0")/.."
program=$(realpath "${1:-crates/recfile_program/out/recfile_program}")
# In memory where the system has such a folder, since each session syncs.
room=$(mktemp -d -p /dev/shm 2> /dev/null || mktemp -d)
trap 'rm -rf "$room"' EXIT
cd "$room"
runs=0
fail() { # WHAT
    echo "deletions: order $order, $way, $size a session: $1"
    exit 1
}

# The keys, one a line, in the order in which they are put, or go.
keys() { # WAY
    awk -v way="$1" -v count=$count 'BEGIN {
        half = int(count / 2)
        for (i = 0; i < count; i++) {
            if (way == "first") key = i
            if (way == "last") key = count - 1 - i
            if (way == "middle") key = i % 2 ? half - (i + 1) / 2 : half + i / 2
            if (way == "shuffled") key = (i * 7919 + 13) % count
            if (way == "put") key = (i * 6007) % count
            printf "%04d\n", key
        }
    }'
}

# A session of one transaction, which puts the keys of a file or takes them out; each key is its record.
session() { # KEYS COMMAND REPLY
    { echo begin; sed "$2" "$1"; echo commit 1; } > script
    { echo ok 1; sed "$3" "$1"; echo ok; } > want
    "$program" run file < script > got || fail "a session ends with status $?"
    cmp -s want got || fail "other replies than expected"
    runs=$((runs + 1))
}

for order in $(seq 16); do
    count=$((order * 16 + 9))
    for way in first last middle shuffled; do
        for size in 7 $count; do
            rm -f file* part_*
            "$program" create --order "$order" file
            keys put > put
            session put 's/.*/put 1 & =&/' 's/.*/ok none/'
            keys $way > gone
            split -a 3 -l "$size" gone part_
            LC_ALL=C sort gone > left
            for part in part_*; do
                session "$part" 's/^/del 1 /' 's/^/ok =/'
                LC_ALL=C sort "$part" | LC_ALL=C comm -23 left - > rest
                mv rest left
                "$program" check file > checked || fail "check ends with status $?"
                grep -q "^order $order .* records $(wc -l < left) " checked || fail "$(cat checked)"
                { sed 's/.*/- & =&/' left; echo "ok $(wc -l < left)"; } > want
                echo list | "$program" run file > got
                cmp -s want got || fail "other records than expected"
            done
        done
    done
done
echo "deletions: $runs sessions passed"

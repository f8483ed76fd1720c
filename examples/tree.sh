# A tree of order 1 as it grows and shrinks: a page has one key or two, the root up to two. Each picture is what show draws,
# a page a line, with its places (# taken, . free) and its keys; sons stand below their father, in key order. The same for a
# browser is in NAME.svg.
draw() { # NAME WHAT
    echo "-- $2"
    recfile show tree.rec
    recfile show --svg tree.rec >"$1.svg"
}
change() { # LINE..: one transaction over the file
    { echo begin; printf '%s\n' "$@"; echo commit 1; } | recfile run --strict tree.rec >replies
}

recfile create --order 1 tree.rec
change 'put 1 b =' 'put 1 d ='
draw leaf "two records fill the one page, a leaf"

change 'put 1 f ='
draw split "a split: b and f have a page each, and the key in the middle, d, went up into a new root"

change 'put 1 h =' 'put 1 j =' 'put 1 l =' 'put 1 n ='
draw higher "more splits, up to the root: the tree is a level higher"

change 'del 1 n'
draw catenation "a catenation: the page of n would be empty; l came down into one page with j, and the same one level up"

# The changes behind savepoint 1 are taken back, newest first, each by a record of its own in the log (a compensation). The
# log has four records before that, one of each change, and may need eight; then it has seven, and may need one more, for p.
# What stood before the savepoint stays, and is committed.
recfile run tree.rec <<'LINES'
begin
put 1 p =kept
save 1
del 1 j
put 1 q =
del 1 d
log
back 1 1
log
commit 1
LINES
draw rollback "a partial rollback: p was put before the savepoint, and j, q and d are as they were there"

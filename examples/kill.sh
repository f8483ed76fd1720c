# A shop takes orders in one session all day, and an order that was answered has to last (--durable). The session is killed
# while the third order is open.
recfile create shop.rec
mkfifo lines replies
(sh -c 'echo $$ >session; exec recfile shell --durable shop.rec' <lines >replies || echo "status $?") 2>/dev/null &
exec 3>lines 4<replies
ask() {
    echo "$1" >&3
    read -r reply <&4
    echo "$1: $reply"
}
ask begin
ask "put 1 order/1 =2%20lamps"
ask "commit 1"
ask begin
ask begin
ask "put 2 order/2 =1%20chair"
ask "put 3 order/3 =4%20cups"
ask "commit 2"
kill -KILL "$(cat session)"
wait
exec 3>&- 4<&-

# The file is the old one, and its commits stand beside it: so nothing that only reads it opens it (NotClean).
echo shop.rec*
recfile check shop.rec || echo "status $?"

# The next session, durable or not, puts them in. See that both orders that were answered are there, that the open one isn't, and
# that the file stands alone again.
recfile run shop.rec <<'END'
list
END
echo shop.rec*
recfile check shop.rec
